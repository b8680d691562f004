"""Processes for tests: their threads are put under raw filters by ctypes, and then wait."""
import contextlib
import ctypes
import errno
import fcntl
import json
import os
import select
import struct
import subprocess
import sys
import time
import unittest

from .common import ALLOW, EPERM, LOADER, PATIENCE, USER_NOTIF, Case, comes, jeq, load, ret, text_of
from kernel_child import SECCOMP_IOCTL_NOTIF_RECV, SECCOMP_IOCTL_NOTIF_SEND
from scftools.model import calls
from scfhost import processes, ptrace

# Its words: a JSON list, for each thread the names of its filters' files, oldest first; the main thread's is the first.
# Each thread is put under its own filters, the main one last, since threads that are begun later inherit them. It
# prints the numbers of its threads, and then does what it reads, a line of Python at a time, in the main thread.
CHILD = LOADER + """
def confine(names):
    for name in names:
        if load(open(name, "rb").read()):
            print("errno", ctypes.get_errno(), flush=True)
            os._exit(1)
numbers = [os.getpid()]
def thread(names, done):
    confine(names)
    numbers.append(threading.get_native_id())
    done.set()
    time.sleep(1000)
main, *others = json.loads(sys.argv[1])
for names in others:
    done = threading.Event()
    threading.Thread(target=thread, args=(names, done), daemon=True).start()
    done.wait()
confine(main)
print(*numbers, flush=True)
for line in sys.stdin:
    exec(line)
"""
OLDEST = ret(ALLOW)
NEWEST = load(0) + jeq(0x0FFFFFFF, 0, 1) + ret(EPERM) + ret(ALLOW)
# As long as NEWEST, and another one.
OTHER = load(0) + jeq(0x0FFFFFFE, 0, 1) + ret(EPERM) + ret(ALLOW)


def started(names, **settings):
    """A child under the filters of these files, and the numbers of its threads."""
    child = subprocess.Popen([sys.executable, "-IS", "-c", CHILD, json.dumps(names)], stdin=subprocess.PIPE,
                             stdout=subprocess.PIPE, text=True, **settings)
    words = child.stdout.readline().split()
    return child, [int(word) for word in words] if words and words[0].isdigit() else words


def ended(child):
    """Ends a child, also where threads of it are still traced by this process, which must wait for each then."""
    child.kill()
    while child.poll() is None:
        for thread in ptrace.numbers_in(f"/proc/{child.pid}/task"):
            with contextlib.suppress(OSError):
                if thread != child.pid:
                    os.waitpid(thread, ptrace.WALL | os.WNOHANG)
        time.sleep(0.001)
    child.stdin.close()
    child.stdout.close()


def let_on(fifo):
    """Lets one go on that waits for a writer of a pipe, if one does."""
    with contextlib.suppress(OSError):
        os.close(os.open(fifo, os.O_WRONLY | os.O_NONBLOCK))


def why_not_here():
    """Why this machine doesn't show the filters of a process, or None where it does."""
    read, write = os.pipe()
    os.write(write, OLDEST)
    os.close(write)
    child, threads = started([[f"/dev/fd/{read}"]], pass_fds=[read])
    os.close(read)
    try:
        if threads != [child.pid]:
            return f"this machine takes no filter: {' '.join(map(str, threads))}"
        processes.look_at_process(processes.Kernel(), child.pid)
        return None
    except processes.Unreadable as error:
        return f"this machine doesn't show filters: {error}"
    finally:
        ended(child)


WHY_NOT = why_not_here()
here = unittest.skipIf(WHY_NOT, WHY_NOT or "")


def status_of(thread):
    return dict(line.split(":\t", 1) for line in text_of(f"/proc/{thread}/status").split("\n") if ":\t" in line)


def children_of(process):
    """The processes that a process's main thread has started, and that it hasn't waited for."""
    return [int(number) for number in text_of(f"/proc/{process}/task/{process}/children").split()]


class Confined(Case):
    """A test with children, which end with it."""

    def child(self, *threads):
        """A process whose threads have these filters, the main one's first; its `threads` are their numbers."""
        names = [[self.file(f"given{thread}.{at}", data) for at, data in enumerate(filters)]
                 for thread, filters in enumerate(threads)]
        child, numbers = started(names)
        self.addCleanup(ended, child)
        self.assertEqual(len(numbers), len(threads), numbers)
        child.threads = numbers
        return child

    def do(self, child, line):
        """Lets the main thread of a child do something."""
        child.stdin.write(f"{line}\n")
        child.stdin.flush()

    def wait_for(self, thread, states):
        """Waits until a thread is in one of these states."""
        if not comes(lambda: status_of(thread)["State"][0] in states):
            self.fail(f"{thread} is in state {status_of(thread)['State']}, and not in {states}")

    def supervised(self, number):
        """A child whose calls of this number wait for the answer of a supervisor, and that supervisor."""
        child = self.child([])
        given = self.file("supervised", load(0) + jeq(number, 0, 1) + ret(USER_NOTIF) + ret(ALLOW))
        # seccomp(2): SECCOMP_SET_MODE_FILTER, SECCOMP_FILTER_FLAG_NEW_LISTENER
        self.do(child, f"data = open({given!r}, 'rb').read(); "
                       f"print(library.syscall(317, 1, 8, ctypes.byref(Program(len(data) // 8, data))), flush=True)")
        supervisor = Supervisor(child.pid, int(child.stdout.readline()))
        self.addCleanup(supervisor.close)
        return child, supervisor

    def stuck(self, *threads):
        """A child that waits in vfork(2) and doesn't stop before the pipe that is answered, too, has a writer."""
        child = self.child(*threads)
        fifo = os.path.join(self.folder, "fifo")
        os.mkfifo(fifo)
        self.addCleanup(let_on, fifo)
        self.do(child, f"os.posix_spawn('/bin/true', ['true'], {{}}, file_actions=[(os.POSIX_SPAWN_OPEN, 0, {fifo!r}, "
                       f"os.O_RDONLY, 0)])")
        self.wait_for(child.pid, "D")
        return child, fifo

    def strict_child(self):
        """A process in the strict mode of seccomp(2)."""
        child = self.child([])
        self.do(child, "library.prctl(22, 1, 0, 0, 0) or os.read(0, 1)")
        self.assertTrue(comes(lambda: status_of(child.pid)["Seccomp"] == "1"))
        return child

    def let_go(self, child):
        """Nothing traces any thread of the child, but for a moment an audit of the machine that another test runs."""
        threads = f"/proc/{child.pid}/task"
        self.assertTrue(comes(lambda: {status_of(thread)["TracerPid"] for thread in os.listdir(threads)} == {"0"}))

    def runs_on(self, child):
        """Nothing traces any thread of the child, and all of them run on."""
        self.assertIsNone(child.poll())
        self.let_go(child)
        for name in os.listdir(f"/proc/{child.pid}/task"):
            # D where it waits for a page of memory
            self.assertTrue(comes(lambda thread=name: status_of(thread)["State"][0] in "SRD"))
        self.do(child, "print('here', flush=True)")
        self.assertEqual(child.stdout.readline(), "here\n")


class Supervisor:
    """Answers the system calls of a child, and counts them (seccomp_unotify(2))."""

    def __init__(self, pid, file):
        process = os.pidfd_open(pid)
        # pidfd_getfd(2)
        self.file = ctypes.CDLL(None).syscall(438, process, file, 0)
        os.close(process)
        self.names = []

    def close(self):
        os.close(self.file)

    def receives(self, seconds=PATIENCE):
        """The next system call, which is counted; None where none comes in so many seconds, or it was taken back."""
        asked = bytearray(80)
        with contextlib.suppress(FileNotFoundError):
            if select.select([self.file], [], [], seconds)[0]:
                fcntl.ioctl(self.file, SECCOMP_IOCTL_NOTIF_RECV, asked)
                self.names.append(struct.unpack_from("<QIIi", asked)[3])
                return struct.unpack_from("<Q", asked)[0]
        return None

    def answers(self, call, result):
        """Whether an answer came in time."""
        with contextlib.suppress(FileNotFoundError):
            fcntl.ioctl(self.file, SECCOMP_IOCTL_NOTIF_SEND, struct.pack("<QqiI", call, result, 0, 0))
            return True
        return False


class FakeKernel:
    """A kernel with one process, whose threads keep these filters, oldest first, and that fails where it is told: by a
    request, or by that and a thread, with an errno or some in turn.

    Threads are listed one list after another, the last one again and again; their states are told so, too.
    """

    def __init__(self, filters=(), fails=None, states=(0x80057F,), status=None, listings=((7,),)):
        self.filters = filters
        self.fails = fails or {}
        self.tool = os.getpid()
        self.states = list(states)
        self.listings = list(listings)
        self.status = {"Seccomp": "2", "State": "S (sleeping)", "Tgid": "7", **(status or {})}
        self.own_status = {"Seccomp": "0", "CapEff": "000001ffffffffff", "Tgid": str(os.getpid())}
        self.asked = []
        self.held = set()
        self.is_proc_ours = self.is_root_the_first = lambda: True
        self.waits_for_supervisor, self.flags_of = lambda _: False, lambda _: 0
        self.processes, self.name_of = lambda: [7], lambda _: b"fake"
        self.namespaces_of, self.mounted_groups = lambda _: [(1, 1)], lambda _: [b"/"]

    keep = bytes

    def ptrace(self, request, thread, place, data):
        self.asked.append((request, thread, data if request == ptrace.PTRACE_DETACH else place))
        errors = self.fails.get((request, thread), self.fails.get(request))
        number = next(errors, None) if hasattr(errors, "__next__") else errors
        if number is not None:
            raise OSError(number, os.strerror(number))
        if request == ptrace.PTRACE_SEIZE:
            self.held.add(thread)
        elif request == ptrace.PTRACE_DETACH:
            self.held.discard(thread)
        return self.filter(thread, place, data) if request == ptrace.PTRACE_SECCOMP_GET_FILTER else 0

    def filter(self, _, place, data):
        if place >= len(self.filters):
            raise OSError(errno.ENOENT, "none")
        if data is not None:
            ctypes.memmove(data, self.filters[place], len(self.filters[place]))
        return len(self.filters[place]) // 8

    def wait(self, _):
        return self.states.pop(0) if len(self.states) > 1 else self.states[0]

    def registers(self, _):
        """Those of a thread that is in no system call."""
        return {name: 2**64 - 1 if name == "orig_rax" else 0 for name in calls.REGISTERS}

    def threads_of(self, _):
        return list(self.listings.pop(0) if len(self.listings) > 1 else self.listings[0])

    def status_of(self, thread):
        return self.own_status if thread == os.getpid() else self.status

    def let_go(self):
        """The signals that threads were let go with."""
        return [data for request, _, data in self.asked if request == ptrace.PTRACE_DETACH]


