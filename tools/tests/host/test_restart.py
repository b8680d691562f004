"""System calls that a look interrupts: what the kernel makes of them behind it, under filters that allow
restart_syscall and under others, on real processes."""
import errno
import json
import os
import signal
import subprocess
import threading
import time
import unittest
from unittest import mock

from support.common import (ALLOW, EPERM, I386, KILL_PROCESS, KILL_THREAD, LOG, PATIENCE, TRACE, TRAP, X86_64, Case,
                            comes, jeq, load, profile_of, ret, sample, text_of)
from support.confined import USER_NOTIF, Confined, here, processes, ptrace
from scftools.base import program
from scftools.model.calls import Call
from scftools.ask import client
from scfhost import hold, restart

DENIALS = (KILL_PROCESS, KILL_THREAD, EPERM, TRAP, USER_NOTIF, TRACE)
# asm/unistd_64.h, asm/unistd_32.h
NANOSLEEP, POLL, PAUSE, MKDIR, FUTEX, RESTART = 35, 7, 34, 83, 202, 219
NANOSLEEP_32, POLL_32, FUTEX_32, CLOCK_NANOSLEEP_32, RESTART_32 = 162, 168, 240, 267, 0
# Seconds that a child waits: long enough to be looked at on a machine that is busy.
WAIT = 3
# What it waits with: a timespec, a timeval, a word that is 0; and i386 calls, made by int 0x80:
# (number, arguments ..) -> result, with a timespec of 32 bits, and the word behind it, below 4 GiB.
MADE = """
import mmap, struct, time
ts, tv, word = struct.pack('qq', WAIT, 0), struct.pack('qq', WAIT, 0), ctypes.create_string_buffer(4)
page = mmap.mmap(-1, 4096, mmap.MAP_PRIVATE | mmap.MAP_ANONYMOUS | 0x40, 7)
page[:24] = bytes.fromhex('5355 89f8 89f3 4489c6 4489cf 87d1 31ed cd80 5d5b c3').ljust(24, b'\\\\0')
place = ctypes.addressof(ctypes.c_char.from_buffer(page))
page[2048:2060] = struct.pack('iii', WAIT, 0, 0)
made = ctypes.CFUNCTYPE(ctypes.c_int, *[ctypes.c_long] * 6)(place)
i386 = lambda number, *words: made(number, *words, *[0] * (5 - len(words)))
wait = library.syscall
""".strip().replace("WAIT", str(WAIT)).replace("\n", "\\n")
# The calls that go on by restart_syscall, with what each returns and its errno when its time is over.
RESTARTED = {
    "nanosleep": (NANOSLEEP, f"wait({NANOSLEEP}, ts, None)", 0, 0),
    "clock_nanosleep": (230, "wait(230, 1, 0, ts, None)", 0, 0),
    "poll": (POLL, f"wait({POLL}, None, 0, {WAIT * 1000})", 0, 0),
    "futex": (FUTEX, f"wait({FUTEX}, word, 128, 0, ts, None, 0)", -1, errno.ETIMEDOUT),
    "nanosleep of i386": (NANOSLEEP_32, f"i386({NANOSLEEP_32}, place + 2048)", 0, 0),
    "clock_nanosleep of i386": (CLOCK_NANOSLEEP_32, f"i386({CLOCK_NANOSLEEP_32}, 1, 0, place + 2048)", 0, 0),
    "poll of i386": (POLL_32, f"i386({POLL_32}, 0, 0, {WAIT * 1000})", 0, 0),
    "futex of i386": (FUTEX_32, f"i386({FUTEX_32}, place + 2056, 128, 0, place + 2048)", -errno.ETIMEDOUT, 0),
}
# Those that begin anew, with the time that is left, whatever filters say; and those that end with EINTR.
BEGIN_ANEW = {
    "ppoll": (271, "wait(271, None, 0, ctypes.create_string_buffer(ts), None, 8)", 0, 0),
    "select": (23, "wait(23, 0, None, None, None, ctypes.create_string_buffer(tv))", 0, 0),
}
END = {
    "epoll_wait": (232, f"wait(232, library.epoll_create(1), ctypes.create_string_buffer(12), 1, {WAIT * 1000})", -1,
                   errno.EINTR),
    "semtimedop": (220, "wait(220, library.semget(0, 1, 0o600), struct.pack('hhh', 0, -1, 0), 1, ts)", -1, errno.EINTR),
}
CALLS = {**RESTARTED, **BEGIN_ANEW, **END}

# A program of 32 bits: under the filter of a file it sleeps, and prints how that ended.
PROGRAM_32 = sample("sleep_32.c")


def denying(answer, *numbers, numbers_32=(RESTART_32,)):
    """Answers these system calls so, and those of i386; others are allowed."""
    def tests(numbers):
        return (load(0) + b"".join(jeq(number, len(numbers) - at, 0) for at, number in enumerate(numbers)) + ret(ALLOW)
                + ret(answer))
    native = tests(numbers or (RESTART,))
    return load(4) + jeq(X86_64, 0, len(native) // 8) + native + tests(numbers_32)


@here
class Restarts(Confined):
    """What a thread that is looked at does next."""

    def waits(self, child, call, number):
        """Lets the main thread of a child make a call, and waits until it waits in it."""
        text = (f"ctypes.set_errno(0); began = time.monotonic(); found = {call}; "
                f"print(found, ctypes.get_errno(), time.monotonic() - began, flush=True)")
        self.do(child, f'exec("""{MADE}\\n{text}""")')
        self.assertTrue(comes(lambda: self.call_of(child.pid) == number), call)

    def call_of(self, thread):
        """The number of the call in which a thread waits."""
        try:
            word = text_of(f"/proc/{thread}/syscall").split()[0]
        except OSError:
            return None
        return int(word) if word.isdigit() else None

    def second_of(self, child):
        """The number of the second thread of a child, once there is one."""
        self.assertTrue(comes(lambda: len(ptrace.numbers_in(f"/proc/{child.pid}/task")) == 2))
        return next(number for number in ptrace.numbers_in(f"/proc/{child.pid}/task") if number != child.pid)

    def next_call_of(self, child):
        """The number of the call in which the main thread of a child waits next, None where it ends."""
        self.assertTrue(comes(lambda: child.poll() is not None or self.call_of(child.pid) is not None))
        return self.call_of(child.pid)

    def ends(self, child, name):
        """The call returns as it should, and no sooner; the process is as it was."""
        _, _, result, error = CALLS[name]
        message = child.stdout.readline().split()
        self.assertEqual(message[:2], [str(result), str(error)])
        if error != errno.EINTR:
            self.assertGreaterEqual(float(message[2]), WAIT)
        self.runs_on(child)

    def test_how_calls_go_on(self):
        """Anew, where the filters deny restart_syscall; and else with the time that is left, as where nobody looks.
        Some do without it. Each ends when it should."""
        anew = [(KILL_PROCESS, name) for name in (*RESTARTED, *BEGIN_ANEW)]
        anew += [(answer, name) for answer in DENIALS[1:] for name in ("nanosleep", "nanosleep of i386")]
        cases = [(answer, name, CALLS[name][0]) for answer, name in anew]
        cases += [(ALLOW, name, RESTART_32 if "i386" in name else RESTART) for name in RESTARTED]
        cases += [(LOG, "nanosleep", RESTART), *((KILL_PROCESS, name, 0) for name in END)]
        children, numbers = [self.child([denying(answer)]) for answer, _, _ in cases], []
        for child, (_, name, _) in zip(children, cases):
            self.waits(child, *CALLS[name][1::-1])
            inspection = processes.look_at_process(processes.Kernel(), child.pid)
            self.assertEqual([stack.threads for stack in inspection.stacks], [{child.pid: [child.pid]}])
            numbers.append(self.next_call_of(child))
        for child, number, (answer, name, expected) in zip(children, numbers, cases):
            with self.subTest(f"{name} {answer:#x}"):
                self.assertEqual(number, expected)
                self.ends(child, name)

    def waiting(self, answer=KILL_PROCESS, before="pass"):
        """A child that sleeps under a filter that answers restart_syscall so."""
        child = self.child([denying(answer)])
        self.do(child, before)
        self.waits(child, *CALLS["nanosleep"][1::-1])
        return child

    def test_the_tools(self):
        """Each of those that look leaves the process as it was."""
        profile = self.file("p", profile_of())
        words = (("filters-of", "{}", "out"), ("verify-process", "{}", profile), ("surface", "--pid", "{}"))
        children = [self.waiting() for _ in words]
        for child, (name, *remaining) in zip(children, words):
            self.output_of(1 if name == "verify-process" else 0, name, *(item.format(child.pid) for item in remaining))
            self.ends(child, "nanosleep")

    def test_another_thread_than_the_main_one(self):
        for answer in (KILL_PROCESS, KILL_THREAD):
            child = self.child([denying(answer)])
            self.do(child, "threading.Thread(target=lambda: print(threading.get_native_id(), "
                           f"library.usleep({WAIT * 1000000}), flush=True)).start()")
            second = self.second_of(child)
            self.assertTrue(comes(lambda second=second: self.call_of(second) in (NANOSLEEP, 230)))
            processes.look_at_process(processes.Kernel(), child.pid)
            self.assertEqual(child.stdout.readline(), f"{second} 0\n")
            self.runs_on(child)

    def test_a_filter_that_looks_at_arguments(self):
        """It allows restart_syscall behind one call, and not behind another: each thread goes on by its own."""
        # (the third argument's low half: linux/seccomp.h)
        child = self.child([load(0) + jeq(RESTART, 1, 0) + ret(ALLOW) + load(32) + jeq(WAIT * 1000, 0, 1) + ret(ALLOW)
                            + ret(KILL_PROCESS)])
        # (the second waits twice as long, so that what the two print can't mix)
        self.do(child, f"threading.Thread(target=lambda: print(library.syscall({POLL}, None, 0, {WAIT * 2000}), "
                       f"flush=True)).start()")
        second = self.second_of(child)
        self.waits(child, *CALLS["poll"][1::-1])
        self.assertEqual(self.call_of(second), POLL)
        processes.look_at_process(processes.Kernel(), child.pid)
        self.assertEqual((self.next_call_of(child), self.call_of(second)), (RESTART, POLL))
        self.assertEqual(sorted(child.stdout.readline().split()[0] for _ in range(2)), ["0", "0"])
        self.runs_on(child)

    def test_a_program_of_i386(self):
        program, given = self.built(PROGRAM_32, "-m32", f"-DWAIT={WAIT}"), self.file("f", denying(KILL_PROCESS))
        self.skip_if(self.run_words([program])[0], "no program of i386 can be run here")
        with subprocess.Popen([program, given], stdout=subprocess.PIPE, text=True) as child:
            self.assertEqual(child.stdout.readline(), "begins\n")
            self.assertTrue(comes(lambda: self.call_of(child.pid) in (NANOSLEEP_32, CLOCK_NANOSLEEP_32, 407)))
            inspection = processes.look_at_process(processes.Kernel(), child.pid)
            self.assertEqual(inspection.stacks[0].filters, (denying(KILL_PROCESS),))
            self.assertEqual((child.stdout.readline(), child.wait()), ("0 0\n", 0))

    def test_a_filter_that_denies_the_call_itself(self):
        """Another thread has put the waiting one under it (SECCOMP_FILTER_FLAG_TSYNC): its call can't begin anew."""
        for numbers, call in (((RESTART, NANOSLEEP), f"{NANOSLEEP}, ctypes.create_string_buffer(b'\\x09' + bytes(15)), "
                                                     f"0"),
                              ((PAUSE,), f"{PAUSE}, 0, 0")):
            given, child = self.file("later", denying(KILL_PROCESS, *numbers)), self.child([])
            self.do(child, f"threading.Thread(target=lambda: print(library.syscall({call}), ctypes.get_errno(), "
                           f"flush=True)).start()")
            second = self.second_of(child)
            self.assertTrue(comes(lambda second=second, numbers=numbers: self.call_of(second) == numbers[-1]))
            self.do(child, f"print(load(open({given!r}, 'rb').read(), 1), flush=True)")
            self.assertEqual(child.stdout.readline(), "0\n")
            inspection = processes.look_at_process(processes.Kernel(), child.pid)
            self.assertEqual(len(inspection.stacks[0].threads[child.pid]), 2)
            self.assertEqual(child.stdout.readline(), f"-1 {errno.EINTR}\n")
            self.runs_on(child)

    def test_a_stopped_process(self):
        """It stays stopped, and then goes on, though it would end without a look."""
        child = self.waiting()
        os.kill(child.pid, signal.SIGSTOP)
        self.wait_for(child.pid, "T")
        processes.look_at_process(processes.Kernel(), child.pid)
        self.wait_for(child.pid, "T")
        os.kill(child.pid, signal.SIGCONT)
        self.ends(child, "nanosleep")

    def test_a_handler_interrupts_it_as_ever(self):
        """Also where the signal comes while the thread is held."""
        child = self.waiting(before="import signal; signal.signal(signal.SIGUSR1, lambda *_: None)")
        kernel = processes.Kernel()
        with hold.Hold(kernel, lambda: {child.pid: child.pid}, PATIENCE) as held:
            held.stop_all()
            os.kill(child.pid, signal.SIGUSR1)
        self.assertEqual(child.stdout.readline().split()[:2], ["-1", str(errno.EINTR)])
        self.runs_on(child)

    def test_without_a_program_that_tells(self):
        """The call begins anew, whatever the filters say; nothing is built meanwhile."""
        child = self.waiting(ALLOW)
        with mock.patch.object(restart.client, "PROGRAMS", ()):
            processes.look_at_process(processes.Kernel(), child.pid)
        self.assertEqual(self.next_call_of(child), NANOSLEEP)
        self.ends(child, "nanosleep")

    def test_a_look_that_is_killed(self):
        """While threads are held: their calls begin anew."""
        child = self.waiting()
        kernel, ends = processes.Kernel(), os.pipe()
        pid = os.fork()
        if not pid:
            try:
                with hold.Hold(kernel, lambda: {child.pid: child.pid}, PATIENCE) as held:
                    held.stop_all()
                    os.write(ends[1], b"1")
                    time.sleep(PATIENCE)
            finally:
                os._exit(1)
        os.read(ends[0], 1)
        os.kill(pid, signal.SIGKILL)
        os.waitpid(pid, 0)
        for end in ends:
            os.close(end)
        self.ends(child, "nanosleep")


@here
class Supervised(Confined):
    """Threads that wait for a supervisor: the kernel takes their calls back when they are stopped, and makes them
    anew."""

    def waiting(self, number=MKDIR):
        """A child whose call was received by its supervisor, and wasn't answered yet."""
        child, supervisor = self.supervised(number)
        self.do(child, f"print(library.syscall({number}, b'nowhere', 0o700), flush=True)")
        call = supervisor.receives()
        self.assertIsNotNone(call)
        self.wait_for(child.pid, "S")
        return child, supervisor, call

    def is_made_once(self, child, supervisor, call):
        self.assertTrue(supervisor.answers(call, 77))
        self.assertEqual(child.stdout.readline(), "77\n")
        self.runs_on(child)
        self.assertEqual(supervisor.names, [MKDIR])

    def test_it_is_looked_at_once_it_has_its_answer(self):
        child, supervisor, call = self.waiting()
        answered = []
        answer = threading.Timer(0.3, lambda: answered.append(supervisor.answers(call, 77)))
        answer.start()
        inspection = processes.look_at_process(processes.Kernel(), child.pid, patience=PATIENCE)
        answer.join()
        self.assertEqual(answered, [True])
        self.assertEqual([len(stack.filters) for stack in inspection.stacks], [1])
        self.assertEqual(child.stdout.readline(), "77\n")
        self.assertEqual((inspection.asked_again, supervisor.names, supervisor.receives(0)), ([], [MKDIR], None))
        self.runs_on(child)

    def test_the_tools(self):
        """They stop it only where they are forced, and say what comes of it."""
        profile = self.file("p", profile_of())
        for name, words in (("filters-of", ("out",)), ("verify-process", (profile,)), ("surface", ())):
            child, supervisor, _ = self.waiting()
            pid = ("--pid", str(child.pid)) if name == "surface" else (str(child.pid),)
            _, out, err = self.run_tool(name, "--force", *pid, *words)
            self.assertIn(f"the syscall of process {child.pid} restarts, and its seccomp supervisor gets it a "
                          f"second time\n", err if name == "filters-of" else out)
            again = supervisor.receives()
            self.assertTrue(supervisor.answers(again, 78))
            self.assertEqual((child.stdout.readline(), supervisor.names), ("78\n", [MKDIR, MKDIR]))
            self.runs_on(child)

    def test_without_force(self):
        """It isn't stopped: the tools say it after some seconds, and what forces them; --json is an object all the
        same."""
        child, supervisor, call = self.waiting()
        profile = self.file("p", profile_of())
        status, out, err = self.run_tool("verify-process", "--json", str(child.pid), profile)
        self.assertEqual(status, program.TROUBLE)
        self.assertEqual(err, f"verify-process: process {child.pid} has waited 9 seconds for a seccomp supervisor, "
                              f"which would get its syscall twice if it were stopped (--force stops it)\n")
        self.assertEqual(json.loads(out), {"status": 2, "verdict": None, "stacks": [],
                                           "why": err.partition(": ")[2].rstrip("\n"), "schema": 3})
        self.is_made_once(child, supervisor, call)

    def test_a_filter_that_notifies_of_other_calls(self):
        """Nothing is made anew that a supervisor answers."""
        child, supervisor = self.supervised(MKDIR)
        inspection = processes.look_at_process(processes.Kernel(), child.pid)
        self.assertEqual((inspection.asked_again, supervisor.receives(0)), ([], None))
        self.runs_on(child)


class Asked(unittest.TestCase):
    def test_it_is_asked_so_often_for_a_process(self):
        """Though all calls have other arguments, and however many stacks of filters there are, where scf finishes none
        of their regions; calls beyond begin anew."""
        unfinished, answered = client.Run(4, b"unfinished\n"), client.Run(0, b"ALLOW 0\n")
        restarts = restart.Restarts(None)
        with mock.patch.object(restart.client, "run_scf") as run:
            run.side_effect = lambda words, *_, **__: unfinished if words[0] == "answers" else answered
            for is_one in (True, False):
                for begin in range(0, 15 * 300, 300):
                    run.reset_mock()
                    restarts.begin()
                    stacks = [(ret(ALLOW),) * (1 if is_one else number + 2) for number in range(300)]
                    actual = [restarts.becomes(stack, Call(35, X86_64, 0, (begin + number, 0, 0, 0, 0, 0)))
                              for number, stack in enumerate(stacks)]
                    self.assertEqual(run.call_count, 200)
                    self.assertEqual((actual[:99], actual[-1]), (["allowed"] * 99, None))
        self.assertLess(len(restarts.answers), 400)

    def test_one_start_answers_all_calls_after_a_few(self):
        data = denying(EPERM)
        restarts, counted = restart.Restarts(None), mock.Mock(side_effect=client.run_scf)
        with mock.patch.object(restart.client, "run_scf", counted):
            restarts.begin()
            for number, answer in ((35, "allowed"), (219, "denied"), (0, "allowed")):
                self.assertEqual({restarts.becomes((data,), Call(number, X86_64, 1, (at,) * 6)) for at in range(9)},
                                 {answer})
        self.assertEqual(counted.call_count, restart.FEW_CALLS + 1)


class Numbers(Case):
    """What is told of registers, without a process."""

    def test_what_is_an_interrupted_call(self):
        """A call that has returned isn't one, whatever it returned; nor is what is no call."""
        for number, result, expected in ((35, -516, 516), (0, -512, 512), (35, -4, 0), (35, 0, 0), (-1, -516, 0),
                                         (8, 2**32 - 516, 0), (8, 516, 0), (35, -514, 514), (35, -513, 513)):
            registers = {"orig_rax": number % 2**64, "rax": result % 2**64}
            self.assertEqual(restart.restart_number(registers), expected, (number, result))

    def test_the_call_as_a_filter_sees_it(self):
        registers = {name: 2**63 + at for at, name in enumerate(ptrace.REGISTERS)}
        registers["orig_rax"] = NANOSLEEP
        order = {X86_64: "rdi rsi rdx r10 r8 r9", I386: "rbx rcx rdx rsi rdi rbp"}
        for architecture, mask, number in ((X86_64, 2**64 - 1, RESTART), (I386, 2**32 - 1, RESTART_32)):
            call = restart.call_of(architecture, registers)
            arguments = tuple(registers[name] & mask for name in order[architecture].split())
            self.assertEqual(call, Call(NANOSLEEP, architecture, registers["rip"] & mask, arguments))
            self.assertEqual(restart.restart_of(call), Call(number, architecture, registers["rip"] & mask, arguments))
        x32 = Call(0x40000000 | NANOSLEEP)
        self.assertEqual(restart.restart_of(x32).number, 0x40000000 | RESTART)
