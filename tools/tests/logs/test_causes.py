"""tools/why: what it says of processes that filters killed or refused, by the kernel's records, cores and strace."""
import json
import os
import pathlib
import re
import shutil
import socket
import struct
import subprocess
import sys
import time
import types
import unittest
import unittest.mock

from support.common import (ALLOW, I386, KILL_PROCESS, KILL_THREAD, LOADER, LOG, TRACE, TRAP, USER_NOTIF,
                            X86_64, Case, bytes_of, completed, jeq, module, profile_of, ret, sample, text_of)
from logs import NETLINK_AUDIT, Listener, entry, where
from scftools.model import bpf, tables
from scftools.forms.filters import Filter
from scftools.logs import audit_records, cores, events
from scftools.logs.causes import Inputs
from scfhost import ptrace

TABLE = tables.read_table(None)
SOCKET, AF_NETLINK = 41, 16
# linux/seccomp.h
ERRNO, UNNAMED, WITH_LOG = 0x50000, 0x12340000, 2
# A record of Linux 6.18.
WRITTEN = ('audit: type=1326 audit(1795757700.752:2): auid=4294967295 uid=0 gid=0 ses=4294967295 pid=12551 '
           'comm="python3" exe="/usr/bin/python3.11" sig=31 arch=c000003e syscall=41 compat=0 ip=0x7fc36f3ffdc7 '
           'code=0x80000000')
# Puts itself under filters, the oldest first, makes a call, and prints its result and errno. Its words: flags of
# seccomp(2), the most bytes of a core, the call as numbers, and the filters' files.
CONFINED = LOADER + """
library.syscall.restype = ctypes.c_long
flags, core, call, *names = sys.argv[1:]
resource.setrlimit(resource.RLIMIT_CORE, (int(core), int(core)))
call = list(map(ctypes.c_long, eval(call)))
for name in names:
    if load(open(name, "rb").read(), int(flags)) < 0:
        os._exit(99)
result = library.syscall(*call)
os.write(1, b"%d %d" % (result, ctypes.get_errno()))
os._exit(0)
"""
# A program in C puts itself under a filter that gives an answer to a syscall.
CONFINES = sample("confine.c")
# The same by int 0x80 of i386, for an answer to socket (359 in asm/unistd_32.h), where the process is one of i386.
OF_I386 = CONFINES + sample("confined_i386.c")
# One of several threads makes the call.
THREADS = CONFINES + sample("confined_threads.c")


def answering(answer, number=SOCKET, conditions=()):
    """A filter that gives an answer to a syscall, where each of the conditions' arguments has its value."""
    return bpf.with_exception(ret(ALLOW), number, [(at, (1 << 64) - 1, value) for at, value in conditions], answer)


def why_not_here():
    """Why nothing can be heard of the kernel's records here, or None where it can."""
    try:
        Listener().socket.close()
    except OSError as error:
        return f"the kernel's audit records can't be heard here: {error.strerror}"
    return None


WHY_NOT = why_not_here()
heard = unittest.skipIf(WHY_NOT, WHY_NOT or "")


class Causes(Case):
    def why(self, *words, status=None, **settings):
        """What the tool prints, line by line."""
        ended_with, out, err = self.run_tool("why", *words, **settings)
        self.assertEqual(err, "")
        if status is not None:
            self.assertEqual(ended_with, status, out)
        self.assertTrue(all(line.isprintable() for line in out.split("\n")), out)
        return out.split("\n")[:-1]

    def confined(self, *stack, flags=0, core=0, call=(SOCKET, AF_NETLINK, 3, NETLINK_AUDIT)):
        """A process that makes a call under filters: its number, how it ended, and the result and errno."""
        names = [self.file(f"{at}.bpf", data) for at, data in enumerate(stack)]
        child = subprocess.Popen([sys.executable, "-ISc", CONFINED, str(flags), str(core), repr(call), *names],
                                 stdout=subprocess.PIPE, cwd=self.folder)
        out = child.communicate()[0]
        self.assertNotEqual(child.returncode, 99, "no filter can be installed here")
        return child.pid, child.returncode, out.decode()

    def profile(self, *entries, default="SCMP_ACT_ALLOW", **members):
        return self.file("p.json", {"defaultAction": default, "syscalls": list(entries), **members})

    def of_filter(self, text, data, status=0):
        """What the tool prints of a text, judged by a filter."""
        return self.why("-", self.file("f.bpf", data), given=text.encode("latin-1"), status=status)


@heard
class Records(Causes):
    """The kernel's records of what filters answered."""

    # The answers with the flag of the filter without which the kernel writes no record, and how the profile says them.
    ANSWERS = ((KILL_PROCESS, 0, "SCMP_ACT_KILL_PROCESS"), (KILL_THREAD, 0, "SCMP_ACT_KILL"),
               (TRAP, WITH_LOG, "SCMP_ACT_TRAP"), (ERRNO | 1, WITH_LOG, "SCMP_ACT_ERRNO"), (LOG, 0, "SCMP_ACT_LOG"),
               (TRACE | 1, WITH_LOG, "SCMP_ACT_TRACE"), (USER_NOTIF, WITH_LOG, "SCMP_ACT_NOTIFY"))

    def record(self, *stack, **settings):
        listener = Listener()
        self.addCleanup(listener.socket.close)
        process = self.confined(*stack, **settings)[0]
        return process, next(listener.records_of(process))

    def test_each_action(self):
        for answer, flags, action in self.ANSWERS:
            process, line = self.record(answering(answer), flags=flags)
            name = action.removeprefix("SCMP_ACT_").replace("NOTIFY", "USER_NOTIF")
            name = "KILL_THREAD" if name == "KILL" else name
            lines = self.why(line, self.profile(entry("socket", action=action)), status=0)
            self.assertRegex(lines[0], rf"^# process {process} \(python3[^ ]*\): the syscall is socket \(41\)$")
            self.assertTrue(lines[1].startswith(f"# the action is {name}: "), lines)
            self.assertRegex(lines[3], rf"^{name} [01] entry 0$")
            self.assertIn("# whatever the arguments are", lines)
            self.assertIn("# so the profile answers it", lines)
            # another answer isn't the record's
            at = [row[2] for row in self.ANSWERS].index(action)
            for wrong_answer, _, wrong in self.ANSWERS[max(at - 1, 0):at] + self.ANSWERS[at + 1:at + 2]:
                lines = self.why(line, self.profile(entry("socket", action=wrong)), status=1)
                stricter = wrong_answer ^ 0x80000000 < (answer ^ 0x80000000) & 0xFFFF0000
                self.assertEqual("# the profile would have answered more strictly: the process isn't under it"
                                 in lines, stricter, (action, wrong))

    def test_an_action_without_a_name(self):
        process, line = self.record(answering(UNNAMED | 5))
        lines = self.of_filter(line, answering(UNNAMED | 9))
        self.assertEqual(lines[1], "# the action is UNNAMED 0x12340000: the process is killed, since seccomp(2) has no "
                                   "such action")
        self.assertIn("UNNAMED 0x12340009", " ".join(lines))
        self.assertIn(f"process {process} ", lines[0])
        self.assertIn("# the filter is more permissive: another filter of the process answered so, or it "
                      "isn't under the filter", self.of_filter(line, answering(ERRNO | 1, 42), status=1))

    def test_a_condition(self):
        """The record doesn't have the arguments: a call is shown that the profile answers so."""
        denial = entry("socket", action="SCMP_ACT_ERRNO", errnoRet=22,
                       args=[where(0, "EQ", AF_NETLINK), where(2, "EQ", NETLINK_AUDIT)])
        data = answering(ERRNO | 22, SOCKET, ((0, AF_NETLINK), (2, NETLINK_AUDIT)))
        _, line = self.record(data, flags=WITH_LOG)
        for given, answer in ((self.profile(denial), "ERRNO 22 entry 0"), (self.file("f.bpf", data), "ERRNO 22")):
            lines = self.why(line, given, status=0)
            self.assertIn(answer, lines)
            example = next(text for text in lines if text.startswith("# for example with args "))
            numbers = example.partition(": ")[0].split()[5:]
            self.assertEqual([int(text, 16) for text in numbers][::2][:2], [AF_NETLINK, NETLINK_AUDIT])
            self.assertRegex("\n".join(lines), "the (profile|filter) answers it with such arguments, and not with all")
        # what is never answered so isn't this record's, whatever the arguments are
        _, line = self.record(answering(KILL_PROCESS))
        self.assertIn("# the profile is more permissive: another filter of the process answered so, or it "
                      "isn't under the profile", self.why(line, self.profile(denial), status=1))

    def test_which_filter_of_a_stack(self):
        stack = [answering(ALLOW), answering(ERRNO | 3), answering(TRAP, 42)]
        _, line = self.record(*stack, flags=WITH_LOG)
        names = [self.file(f"{at}.bpf", data) for at, data in enumerate(stack)]
        lines = self.why(line, *names, status=0)
        self.assertIn("ERRNO 3", lines)
        self.assertIn(f"# the filter that answers so is {names[1]}", lines)
        self.assertIn(f"# the last tests on the path in {names[1]}:", lines)
        self.assertTrue(any("socket: to" in line and "loaded 0x29" in line for line in lines), lines)
        self.assertIn("# the filters are more permissive: another filter of the process answered so, or it "
                      "isn't under the filters", self.why(line, names[0], names[2], status=1))

    def test_a_number_that_a_tracer_sets(self):
        _, line = self.record(answering(KILL_PROCESS, 0xFFFFFFFF), call=(-1, 0))
        self.assertIn("syscall=-1 ", line)
        lines = self.of_filter(line, answering(KILL_PROCESS, 0xFFFFFFFF))
        self.assertIn("the syscall is number -1, which a tracer sets to skip a syscall", lines[0])

    def test_a_number_of_x32(self):
        _, line = self.record(answering(KILL_PROCESS, 0x40000029), call=(0x40000029, 0))
        lines = self.why(line, self.profile(), status=0)
        self.assertIn("an x32 syscall", lines[0])
        self.assertIn("# by no entry: the syscall is of another ABI", lines)
        both = self.profile(architectures=["SCMP_ARCH_X86_64", "SCMP_ARCH_X32"])
        self.assertIn("undetermined: the profile is for this architecture, too",
                      self.why("--native", line, both, status=4))
        lines = self.why(line, both, status=1)
        self.assertNotIn("# by no entry: the syscall is of another ABI", lines)

    def test_what_is_not_logged(self):
        """ERRNO, TRAP and the like only where the filter has the flag; and each only if it is in actions_logged."""
        listener = Listener()
        self.addCleanup(listener.socket.close)
        silent = [self.confined(answering(answer))[0] for answer in (ERRNO | 1, TRAP, TRACE | 1, USER_NOTIF)]
        logged = pathlib.Path(audit_records.ACTIONS_LOGGED)
        self.addCleanup(logged.write_text, logged.read_text(encoding="ascii"), encoding="ascii")
        logged.write_text("kill_process", encoding="ascii")
        silent += [self.confined(answering(answer), flags=WITH_LOG)[0] for answer in (ERRNO | 1, LOG, KILL_THREAD)]
        last = self.confined(answering(KILL_PROCESS))[0]
        while True:
            text = listener.socket.recv(1 << 16)[16:].decode("latin-1")
            self.assertFalse([process for process in silent if f" pid={process} " in text], text)
            if f" pid={last} " in text:
                break

    def test_a_process_that_runs(self):
        """--pid: its record in the kernel's log, and its own filters."""
        from support.confined import WHY_NOT as no_filters, ended, started  # pylint: disable=import-outside-toplevel

        if no_filters or shutil.which("auditctl") and b"pid 0" not in subprocess.run(
                ["auditctl", "-s"], stdout=subprocess.PIPE, check=False).stdout:
            self.skipTest("filters aren't shown here, or auditd takes the records")
        child, _ = started([[]])
        self.addCleanup(ended, child)
        given = self.file("f.bpf", answering(ERRNO | 1))
        child.stdin.write(f"load(open({given!r}, 'rb').read(), 2)\nprint(library.socket(16, 3, 9), flush=True)\n")
        child.stdin.flush()
        self.assertEqual(child.stdout.readline(), "-1\n")
        until = time.monotonic() + 60
        while time.monotonic() < until and f" pid={child.pid} " not in "\n".join(audit_records.kernel_lines()):
            # (the kernel leaves records out of its log where many come at once)
            child.stdin.write("print(library.socket(16, 3, 9), flush=True)\n")
            child.stdin.flush()
            child.stdout.readline()
            time.sleep(1)
        lines = self.why("--pid", str(child.pid), status=0)
        self.assertIn(f"# process {child.pid} (python3", lines[0])
        self.assertIn("ERRNO 1", lines)
        self.assertIn("# so the filter answers it", lines)
        self.assertEqual(self.why("--pid", "1", status=4)[0],
                         "# neither the kernel's log nor auditd's has a record of process 1")


class Cores(Causes):
    """Cores that SIGSYS left, with the arguments and the data."""

    def require_cores(self):
        pattern = text_of("/proc/sys/kernel/core_pattern").strip()
        self.skip_if(pattern != "core", f"cores are written otherwise here: {pattern}")

    def found_core(self):
        return next(os.path.join(self.folder, name) for name in os.listdir(self.folder) if name.startswith("core"))

    def core(self, *stack, **settings):
        """The core of a process that makes a call under filters."""
        self.require_cores()
        self.confined(*stack, core=1 << 28, **settings)
        return self.found_core()

    def test_each_answer_that_leaves_one(self):
        for answer, named in ((KILL_PROCESS | 7, "KILL_PROCESS 7"), (KILL_THREAD | 8, "KILL_THREAD 8"),
                              (TRAP | 5, "TRAP 5"), (UNNAMED | 6, "UNNAMED 0x12340006")):
            core, data = self.core(answering(answer)), answer & 0xFFFF
            lines = self.why("--core", core, self.file("f.bpf", answering(answer)), status=0)
            self.assertIn("the syscall is socket (41)", lines[0])
            self.assertEqual(lines[1], "# the action is TRAP, KILL_THREAD, KILL_PROCESS or UNNAMED, with "
                                       f"{data} as data")
            self.assertRegex(lines[2], r"^# its arguments: 0x10 0x3 0x9( 0x[0-9a-f]+){3}: .*AF_NETLINK, SOCK_RAW, ")
            self.assertIn(named, lines)
            self.assertIn("# so the filter answers it", lines)
            # with other data it isn't this answer
            self.why("--core", core, self.file("g.bpf", answering(answer ^ 1)), status=1)
            os.remove(core)

    def test_i386(self):
        program = self.built(OF_I386, "-m32")
        self.require_cores()
        completed([program, hex(KILL_PROCESS | 3)], cwd=self.folder)
        event = cores.read_core(self.found_core())
        self.assertEqual((event.call.number, event.call.architecture, event.call.arguments),
                         (359, I386, (16, 0xFFFFFFFD, 9, 0x77777777, 5, 6)))
        self.assertEqual((event.outcome.data, event.name), (3, "program"))

    def test_a_change_that_allows_it(self):
        """By the steps that are printed the profile allows this call, and no other."""
        args = {"args": [where(1, "EQ", 77)]}
        for default, entries in (
                ("SCMP_ACT_ALLOW", [entry("socket", "mount", action="SCMP_ACT_KILL_PROCESS")]),
                # both entries deny the call: to change one of them isn't enough
                ("SCMP_ACT_ALLOW", [entry("socket", action="SCMP_ACT_KILL_PROCESS"),
                                    entry("socket", action="SCMP_ACT_KILL_PROCESS", args=[where(1, "EQ", 3)])]),
                ("SCMP_ACT_LOG", [entry("mount", action="SCMP_ACT_ERRNO"),
                                  entry("socket", action="SCMP_ACT_KILL_PROCESS")]),
                ("SCMP_ACT_ALLOW", [entry("socket", action="SCMP_ACT_KILL_PROCESS", args=[where(1, "GE", 2)]),
                    entry("socket", action="SCMP_ACT_LOG", args=[where(1, "LT", 2)])]),
                ("SCMP_ACT_ALLOW", [entry("socket", action="SCMP_ACT_KILL_PROCESS",
                                          args=[where(0, "EQ", 16), where(2, "EQ", 9)])]),
                ("SCMP_ACT_KILL_PROCESS", [{"names": [name for name in TABLE.names() if name != "socket"],
                                            "action": "SCMP_ACT_ALLOW"},
                                           {"names": ["socket"], "action": "SCMP_ACT_ALLOW", **args}])):
            given = {"defaultAction": default, "syscalls": entries}
            profile = self.file("p.json", given)
            core = self.core(self.compiled(given))
            lines = self.why("--core", core, profile, status=0)
            os.remove(core)
            heads = [at for at, line in enumerate(lines) if line.startswith("# this change of the profile allows ")]
            self.assertGreater(len(heads), 0, lines)
            for first, last in zip(heads, [*heads[1:], len(lines)]):
                is_all = not lines[first].startswith("# this change of the profile allows socket where argument 0 is "
                                                     "0x10 and argument 1 is 0x3 and argument 2 is 0x9,")
                changed = self.compiled(self.changed(given, lines[first + 1:last]))
                self.assertEqual(self.confined(changed)[1], 0, lines)
                for call, is_same in (((SOCKET, 16, 3, 10), True), ((SOCKET, 16, 77, 9), True), ((39, 0), True)):
                    before, after = self.confined(self.compiled(given), call=call), self.confined(changed, call=call)
                    if call[0] != SOCKET or not is_all:
                        self.assertEqual(before[1:] if call[0] == SOCKET else before[1], after[1:] if call[0] == SOCKET
                                         else after[1], (lines, is_same))
                    else:
                        self.assertEqual(after[1], 0)

    def compiled(self, profile):
        return bytes_of(self.filter_file(self.file("c.json", profile)))

    @staticmethod
    def changed(profile, steps):
        """A profile changed as the steps say."""
        entries = [dict(entry, names=list(entry["names"])) for entry in profile["syscalls"]]
        gone, added = [], []
        for step in steps:
            text = step.removeprefix("#   ")
            out = re.fullmatch(r"take (\w+) out of the names of entry ([0-9]+)", text)
            if out:
                entries[int(out[2])]["names"].remove(out[1])
            elif text.startswith("remove entry "):
                gone.append(int(text.split()[2]))
            else:
                added.append(json.loads(text.removeprefix("add to syscalls: ")))
        remaining = [entry for at, entry in enumerate(entries) if at not in gone]
        return {**profile, "syscalls": remaining + added}

    def test_hostile_cores(self):
        data = bytes_of(self.core(answering(KILL_PROCESS)))[:1 << 20]
        for cut in (0, 3, 4, 16, 24, 51, 63, 64, 100, 1000, 3000, 3450, 4000):
            self.refused(data[:cut], "the core")
        for at, text, says in ((0, b"\x28\xb5\x2f\xfd", "is compressed"), (16, b"\2\0", "isn't one, but a program"),
                               (18, b"\xb7\0", "is of another machine"), (4, b"\1", "is of another machine"),
                               (0x36, b"\x20\0", "program headers of 32 bytes"), (0x38, b"\xff\xff", "the core"),
                               (0x20, b"\xff" * 8, "is cut"), (0x28 + 0x20, b"\xff" * 8, "")):
            changed = bytearray(data)
            changed[at:at + len(text)] = text
            self.refused(bytes(changed), says)
        note = data.index(struct.pack("<I", cores.SIGINFO)) + 12
        for at, text, says in ((0, b"\x0b\0\0\0", "is of signal 11, and not of SIGSYS"),
                               (8, b"\xfa\xff\xff\xff", "a process sent it (si_code -6)"),
                               (8, b"\2\0\0\0", "it is of syscall user dispatch")):
            changed = bytearray(data)
            changed[note + at:note + at + len(text)] = text
            self.refused(bytes(changed), says)

    def refused(self, data, says):
        status, out, err = self.run_tool("why", "--core", self.file("hostile", data))
        if status != 0:
            self.assertEqual((status, out), (2, ""), (out, err))
            self.assertIn(says, err)
            self.assertTrue(err.startswith("why: the core "), err)


@unittest.skipUnless(shutil.which("strace"), "there is no strace here")
class Strace(Causes):
    """The end of what strace writes."""

    def traced(self, *stack, options=(), **settings):
        """What strace writes of a process under filters."""
        names = [self.file(f"{at}.bpf", data) for at, data in enumerate(stack)]
        call = settings.get("call", (SOCKET, AF_NETLINK, 3, NETLINK_AUDIT))
        return text_of(self.strace(*options, sys.executable, "-ISc", CONFINED, "0", "0", repr(call), *names)[0])

    def test_a_process_that_is_killed(self):
        for answer, forms in ((KILL_PROCESS, ((), ("-f", "-X", "raw"))), (KILL_THREAD, (("-n", "-tt", "-i"),)),
                              (UNNAMED, (("-yy", "-T"),))):
            for options in forms:
                lines = self.of_filter(self.traced(answering(answer), options=options), answering(answer))
                self.assertIn("the syscall is socket (41)", lines[0])
                self.assertEqual(lines[1:3], [
                    "# the action is KILL_THREAD, KILL_PROCESS or UNNAMED",
                    "# its arguments, as far as they are shown: 0 is 0x10, 1 is 0x3, 2 is 0x9"])
                self.assertIn("# so the filter answers it", lines)

    def test_trap(self):
        for data, options in ((0, ()), (5, ("-f",)), (4000, ("-i",)), (38, ("-n",))):
            log = self.traced(answering(TRAP | data), options=options)
            lines = self.of_filter(log, answering(TRAP | data))
            self.assertEqual(lines[1], f"# the action is TRAP {data}: the syscall isn't executed, and the thread gets "
                                       "SIGSYS")
            self.of_filter(log, answering(TRAP | data ^ 1), status=1)
            # the line of the signal alone says it, too
            line = next(each for each in log.split("\n") if "--- SIGSYS" in each)
            self.assertIn("the syscall is socket (41)", self.of_filter(line, answering(TRAP | data))[0])

    def test_a_syscall_that_fails(self):
        def line_of(answer):
            return next(each for each in self.traced(answering(answer)).split("\n")
                        if each.startswith("socket(AF_NETLINK"))

        line = line_of(ERRNO | 77)
        self.assertEqual(self.of_filter(line, answering(ERRNO | 77))[1], "# it failed with EBADFD: by ERRNO 77, by a "
                         "tracer or a supervisor, or by the kernel itself, which strace doesn't show")
        self.assertIn("# the filter answers otherwise: another filter of the process answered so, or it isn't under "
                      "the filter", self.of_filter(line, answering(ERRNO | 76), status=1))
        self.assertIn("# the filter is more permissive: the kernel itself, or another filter of the process "
                      "answered so, or it isn't under the filter", self.of_filter(line, answering(ALLOW), status=1))
        # TRACE and USER_NOTIF without whom they ask
        for answer in (TRACE | 1, USER_NOTIF):
            line = line_of(answer)
            self.assertIn(" = -1 ENOSYS ", line)
            self.of_filter(line, answering(answer))

    def test_i386(self):
        program = self.built(OF_I386, "-m32")
        for answer in (KILL_PROCESS, TRAP | 5):
            log = text_of(self.strace("--quiet=none", program, hex(answer))[0])
            lines = self.of_filter(log, answering(answer, 359))
            self.assertEqual(lines[::2][:2], [
                "# a process: the syscall is socket (359) of the architecture i386",
                "# its arguments, as far as they are shown: 0 is 0x10, 1 is 0xfffffffd, 2 is 0x9"])
            self.assertIn("# so the filter answers it", lines)

    def test_architectures_that_strace_tells(self):
        """By -n: socket is 359 on i386 (asm/unistd_32.h), and 102 socketcall. A record of x32 has 0x40000000 added."""
        failed = "= -1 EPERM (Operation not permitted)\n"
        text = f"socket(AF_INET, SOCK_STREAM, 0) {failed}"
        mode = "7  [ Process PID=7 runs in {}. ]\n7  "
        for log, shown in ((f"7 [359] {text}", "socket (359) of the architecture i386"),
                           (f"7 [ 41] {text}", "socket (41)"),
                           (f"{mode.format('x32 mode')}{text}", "socket (0x40000000 + 41), an x32 syscall"),
                           # as strace prints a number that it doesn't know
                           (f"{mode.format('32 bit mode')}syscall_0x1f4(0x1, 0x2, 0x3, 0x4, 0x5, 0x6) {failed}",
                            "number 500 of the architecture i386")):
            lines = self.of_filter(log, ret(0x50001))
            self.assertEqual(lines[0], f"# process 7: the syscall is {shown}")
            self.assertIn("# so the filter answers it", lines)
        for log in (f"7 [102] {text}", f"{mode.format('odd mode')}{text}"):
            lines = self.of_filter(log, ret(0x50001), status=4)
            self.assertTrue(lines[0].startswith("# no syscall that a filter may have answered is in it"), lines)

    def test_one_of_several_threads(self):
        """All are killed by SIGSYS, and one is the cause."""
        program = self.built(THREADS, "-pthread")
        for answer in (KILL_PROCESS, KILL_THREAD):
            lines = self.of_filter(text_of(self.strace("-f", program, hex(answer))[0]), answering(answer))
            self.assertEqual([each for each in lines if "the syscall is " in each], [lines[0]])
            self.assertIn("the syscall is socket (41)", lines[0])


class Lines(Causes):
    """Each form of a record, and what is none."""

    TAIL = WRITTEN.partition("auid=")[2]
    INTERPRETED = ("auid=unset uid=root gid=root ses=unset pid=12551 comm=python3 exe=/usr/bin/python3.11 sig=SIGSYS "
                   "arch=x86_64 syscall=socket compat=0 ip=0x7fc36f3ffdc7 code=kill ")

    def event(self, text):
        log = events.read_events(text.split("\n"), TABLE)
        return [found.event for found in log.events.values()], log

    def test_each_form(self):
        for text in (WRITTEN, f"[  624.561849] {WRITTEN}", f"[Fri Nov 27 05:35:00 2026] {WRITTEN}",
                     f"Nov 27 05:35:00 vm kernel: {WRITTEN}",
                     f"2026-11-27T05:35:00.752+00:00 vm kernel: [  624.5] {WRITTEN}",
                     f"<5>[  624.561849] {WRITTEN}", f"kern  :notice: [  624.561849] {WRITTEN}",
                     f"[  624.561849][  T123] {WRITTEN}", f"[  624.561849 <    0.000002>] {WRITTEN}",
                     f"[Nov27 05:35] {WRITTEN}", f"[  +0.000002] {WRITTEN}",
                     f"2026-11-27T05:35:00,752000+00:00 {WRITTEN}", f"Nov  7 05:35:00 vm kernel: {WRITTEN}",
                     f"Fri 2026-11-27 05:35:00 UTC vm kernel: {WRITTEN}",
                     f"Nov 27 05:35:00.752123 vm kernel: {WRITTEN}", f"1795757700.752123 vm kernel: {WRITTEN}",
                     f"2026-11-27T05:35:00+0000 vm kernel: {WRITTEN}", f"[  624.561849] vm kernel: {WRITTEN}",
                     f"Nov 27 05:35:00 kernel: {WRITTEN}",
                     f"Nov 27 05:35:00 vm audisp-syslog[7]: node=vm type=SECCOMP msg=audit(1795757700.752:2): "
                     f"auid={self.TAIL}", f"Nov 27 05:35:00 vm audit[12551]: SECCOMP auid={self.TAIL}",
                     f"vm audit: SECCOMP auid={self.TAIL}",
                     f"type=SECCOMP msg=audit(1795757700.752:2): auid={self.TAIL}",
                     f"type=SECCOMP msg=audit(1795757700.752:2): auid={self.TAIL}\x1dAUID=\"unset\" "
                     "UID=\"root\" GID=\"root\" ARCH=x86_64 SYSCALL=unknown-syscall(-1)",
                     f"node=vm type=SECCOMP msg=audit(1795757700.752:2): auid={self.TAIL}",
                     f"type=SECCOMP msg=audit(11/27/26 05:35:00.752:2) : {self.INTERPRETED}",
                     f"{WRITTEN}\r", f"noise\n{WRITTEN}\nnoise"):
            (event,), log = self.event(text)
            self.assertEqual(event.call, events.Call(41, X86_64, 0x7FC36F3FFDC7), text)
            self.assertEqual((event.process, event.name), (12551, "python3"))
            # ausearch -i names both actions that kill alike
            self.assertEqual(event.outcome.actions, ("KILL_PROCESS", "KILL_THREAD")[:1 + ("code=kill" in text)])
            self.assertEqual((log.faults, log.suppressed), ([], 0))

    def test_names_of_actions(self):
        """As ausearch -i prints them."""
        for code, actions in (("trap", ["TRAP"]), ("errno", ["ERRNO"]), ("user-notify", ["USER_NOTIF"]),
                              ("log", ["LOG"]), ("trace", ["TRACE"]),
                              ("unknown-seccomp-code(0x12340000)", ["UNNAMED"])):
            text = f"type=SECCOMP msg=audit(1:2) : {self.INTERPRETED}".replace("code=kill", f"code={code}")
            (event,), _ = self.event(text)
            self.assertEqual((list(event.outcome.actions), event.outcome.half), (actions, 0x1234 if code[:1] == "u" and
                                                                                "seccomp" in code else None))

    def test_names_in_hexadecimal(self):
        """The kernel writes them so where one has a quote, a blank or a control character."""
        name = 'a" sig=0\x1b'
        (event,), _ = self.event(WRITTEN.replace('"python3"', name.encode().hex().upper()))
        self.assertEqual(event.name, name)
        lines = self.why(WRITTEN.replace('"python3"', name.encode().hex().upper()), status=0)
        self.assertEqual(lines[0], '# process 12551 (a" sig=0\\x1b): the syscall is socket (41)')

    def test_a_process_forges_nothing(self):
        """What a process may choose stands before the kernel's own fields, or in a text that strace prints."""
        forged = " sig=0 arch=40000003 syscall=1 compat=1 ip=0x1 code=0x7ffc0000"
        (event,), _ = self.event("type=SECCOMP msg=audit(1:2) : " + self.INTERPRETED.replace(
            "exe=/usr/bin/python3.11", f"exe=/tmp/x{forged} pid=1 comm=init"))
        self.assertEqual((event.call.number, event.call.architecture, event.process), (41, X86_64, 12551))
        self.assertEqual(self.event(f'write(1, " {WRITTEN} ", 300) = 300\n')[0], [])

    def test_what_another_message_has_message_is_no_record(self):
        suppressed = "audit: kauditd_printk_skb: 12 callbacks suppressed"
        for record in (WRITTEN, WRITTEN[len("audit: "):], f"type=SECCOMP msg=audit(1:2): auid={self.TAIL}", suppressed):
            for text in (f"process '/tmp/x {record}' launched '/tmp/x' with NULL argv: empty string added",
                         f'ptrace attach of "x"[1] was attempted by "/tmp/ {record}"[2]', f" {record}", f"x {record}"):
                for before in ("", "[  624.561849] ", "<5>[  624.5] ", "kern  :notice: [  624.5] ",
                               "Nov 27 05:35:00 vm kernel: ", "Nov 27 05:35:00 vm kernel: [  624.5] ",
                               "Nov 27 05:35:00 vm prog[7]: ", "Nov 27 05:35:00 vm prog: ", "node=vm "):
                    events_found, log = self.event(before + text)
                    self.assertEqual((events_found, log.faults, log.suppressed), ([], [], 0), before + text)

    def test_messages_of_the_kernel_s_log(self):
        """As Documentation/ABI/testing/dev-kmsg has them: what a program writes there isn't of facility 0."""
        message = f"process '/tmp/{WRITTEN}' launched '/tmp/x' with NULL argv: empty string added"
        log, end = socket.socketpair(socket.AF_UNIX, socket.SOCK_DGRAM)
        self.addCleanup(end.close)
        for text in (f"13,1,1,-;{WRITTEN}", f"4,2,1,-;{message}", f"5,3,1,-;{WRITTEN}\n SUBSYSTEM=audit\n DEVICE=x",
                     f"8,4,1,-;{WRITTEN}", f"x,5,1,-;{WRITTEN}", WRITTEN, f"5,6,1,-; {WRITTEN}"):
            end.send(text.encode())
        log.setblocking(False)
        with unittest.mock.patch.object(os, "open", return_value=log.detach()):
            self.assertEqual([*audit_records.kernel_lines()], [WRITTEN])

    def test_the_log_of_auditd(self):
        """--pid reads it, too, but for what an earlier process with that number left."""
        log = self.file("audit.log", "".join(
            f"type=SECCOMP msg=audit({seconds}.752:{number + 2}): "
            f"auid={self.TAIL.replace('syscall=41', f'syscall={number}')}\n"
            for seconds, number in ((1795757000, 1), (1795757700, 2))))
        why = module("why")
        options = types.SimpleNamespace(pid=12551, words=["p.json"])
        with unittest.mock.patch.multiple(audit_records, AUDITD_LOG=log, kernel_lines=lambda: iter([WRITTEN])):
            for begun, numbers in ((None, [41, 1, 2]), (1795757600.0, [41, 2]), (1795757701.5, [41, 2]),
                                   (1795757800.0, [])):
                ticks = None if begun is None else (begun - 1795750000) * os.sysconf("SC_CLK_TCK")
                with unittest.mock.patch.multiple(ptrace, ticks_at_start=lambda _, ticks=ticks: ticks,
                                                  contents=lambda _: b"btime 1795750000\n"):
                    log_read, _ = why.of_process(options, None, TABLE)
                self.assertEqual([found.event.call.number for found in log_read.events.values()], numbers, begun)

    def test_values_that_no_kernel_writes(self):
        for old, new, says in (("syscall=41", "syscall=4294967296", "=4294967296 isn't a number up to 4294967295"),
                               ("syscall=41", "syscall=" + "9" * 70, "syscall=" + "9" * 64 + ".."),
                               ("syscall=41", "syscall=\x1b[2J", "syscall=\\x1b[2J"),
                               ("syscall=41", "syscall=-2", "syscall=-2"),
                               ("arch=c000003e", "arch=c000003e0", "arch=c000003e0 isn't an architecture"),
                               ("arch=c000003e ", "", "has no arch="),
                               ("code=0x80000000", "code=0x80000007",
                                "code=0x80000007 has data, which the kernel leaves out"),
                               ("code=0x80000000", "code=bang", "code=bang isn't an action"),
                               ("ip=0x7fc36f3ffdc7", "ip=0x17fc36f3ffdc712345", "isn't an address"),
                               (" code=0x80000000", "", "the record is cut"), (" sig=", "\0sig=", "the record is cut")):
            out = self.output_of(2, "why", "-", given=WRITTEN.replace(old, new).encode())
            self.assertTrue(out.startswith("# line 1 isn't judged: "), out)
            self.assertIn(says, out)
            self.assertTrue(out[:-1].isprintable(), out)

    def test_what_the_kernel_left_out(self):
        text = f"audit: kauditd_printk_skb: 12 callbacks suppressed\n{WRITTEN}\n{WRITTEN.replace(':2)', ':3)')}"
        lines = self.why("-", given=text.encode(), status=4)
        self.assertIn("; such records: 2", lines[0])
        self.assertEqual(lines[-1], "# records that the kernel left out, since too many came at once: 12")

    def test_many_records(self):
        text = "\n".join(WRITTEN.replace(":2)", f":{number})").replace("syscall=41", f"syscall={number}")
                         for number in range(300))
        lines = self.why("-", given=text.encode(), status=4)
        self.assertEqual(sum("the syscall is" in line for line in lines), events.EVENTS)
        self.assertEqual(lines[-1], "# records of more syscalls than 200 different ones, which aren't judged: 100")

    def test_numbers_with_leading_zeros(self):
        """strace prints none: such a word is no number, and no syscall's name."""
        line = ("--- SIGSYS {si_signo=SIGSYS, si_code=SYS_SECCOMP, si_call_addr=0x7f1, si_syscall=%s, "
                "si_arch=AUDIT_ARCH_X86_64, si_errno=%s} ---")
        for number, data in (("012", "1"), ("00", "1"), ("012", "01")):
            out = self.output_of(2, "why", "-", given=(line % (number, data)).encode())
            self.assertIn(f"si_syscall={number}: the table has no such name", out)
        (event,), _ = self.event(line % ("41", "077"))
        self.assertEqual((event.call.number, event.outcome.data), (41, None))

    def test_random_lines(self):
        """None ends the tool otherwise than by its statuses."""
        pieces = WRITTEN.split(" ")
        text = "\n".join(" ".join(pieces[:at] + pieces[at + 1:]) for at in range(len(pieces)))
        out = self.output_of(2, "why", "-", given=text.encode())
        self.assertTrue(all(line.startswith("# ") for line in out.split("\n")[:-1]), out)

    def test_no_record(self):
        for text in ("", "hello", "systemd[1]: x.service: Main process exited, code=dumped, status=31/SYS"):
            self.assertIn("# no syscall that a filter may have answered is in it", self.why("-", given=text.encode(),
                                                                                       status=4)[0])


def journal(message, **changes):
    """An entry as journalctl prints one of the kernel; members that are None are left out."""
    members = {"PRIORITY": "5", "_TRANSPORT": "kernel", "SYSLOG_FACILITY": "0", "SYSLOG_IDENTIFIER": "kernel",
             "MESSAGE": message, **changes}
    return json.dumps({name: value for name, value in members.items() if value is not None})


class Journals(Causes):
    """`journalctl -o json`, `coredumpctl info` and its list as JSON, as systemd 252 prints them."""

    SECCOMP = f"SECCOMP auid={WRITTEN.partition('auid=')[2]}"
    OF_AUDIT = {"_TRANSPORT": "audit", "SYSLOG_FACILITY": "4", "SYSLOG_IDENTIFIER": "audit", "_AUDIT_TYPE": "1326"}
    INFO = """\
           PID: 1065 (sleep)
           UID: 0 (root)
        Signal: %s
  Command Line: sleep 300
       Storage: /var/lib/systemd/coredump/core.sleep.0.01dec6f0.1065.1795897289000000.zst (%s)
       Message: Process 1065 (sleep) of user 0 dumped core.
"""
    LISTED = [{"time": 1795897289313761, "pid": 1064, "uid": 0, "gid": 0, "sig": 11, "corefile": "none",
               "exe": "/usr/bin/sleep", "size": None},
              {"time": 1795897289449915, "pid": 1065, "uid": 0, "gid": 0, "sig": 31, "corefile": "present",
               "exe": "/usr/bin/sl\x1b[2Jeep", "size": 1566101}]

    def numbers(self, text):
        log = events.read_events(text.split("\n"), TABLE)
        self.assertEqual((log.faults, log.failures.count), ([], 0))
        return [(found.event.call.number, found.event.process, found.count)
                for found in log.events.values()], log.suppressed

    def test_entries_of_the_kernel_and_of_audit(self):
        suppressed = "audit: kauditd_printk_skb: 12 callbacks suppressed"
        for text in (journal(WRITTEN), journal([*WRITTEN.encode()]), journal(self.SECCOMP, **self.OF_AUDIT)):
            self.assertEqual(self.numbers(text), ([(41, 12551, 1)], 0), text)
        self.assertEqual(self.numbers("\n".join([journal(WRITTEN), journal("usb 1-1: new"), journal(suppressed),
                                                 WRITTEN.replace(":2)", ":3)")])), ([(41, 12551, 2)], 12))

    # One record as systemd 252 printed it, with the members that matter: of audit and of the kernel's log. As text the
    # first has neither its time nor its serial number.
    OF_BOTH = [journal(
        "SECCOMP auid=4294967295 uid=0 gid=0 ses=4294967295 pid=30697 comm=\"python3\" exe=\"/usr/bin/python3.11\" "
        "sig=0 arch=c000003e syscall=41 compat=0 ip=0x7fd169d28dc7 code=0x7ffc0000", PRIORITY=None,
        SYSLOG_FACILITY="4", SYSLOG_IDENTIFIER="audit", _TRANSPORT="audit", _AUDIT_TYPE="1326", _AUDIT_ID="2",
        _AUDIT_TYPE_NAME="SECCOMP", _SOURCE_REALTIME_TIMESTAMP="1795934847207000", _PID="30697"), journal(
        "audit: type=1326 audit(1795934847.207:2): auid=4294967295 uid=0 gid=0 ses=4294967295 pid=30697 "
        "comm=\"python3\" exe=\"/usr/bin/python3.11\" sig=0 arch=c000003e syscall=41 compat=0 ip=0x7fd169d28dc7 "
        "code=0x7ffc0000", _SOURCE_MONOTONIC_TIMESTAMP="954332493")]

    def test_one_record_of_both(self):
        of_audit, of_kernel = self.OF_BOTH
        text_of_audit = f"Nov 29 06:47:27 vm audit[30697]: {json.loads(of_audit)['MESSAGE']}"
        text_of_kernel = f"Nov 29 06:47:27 vm kernel: {json.loads(of_kernel)['MESSAGE']}"
        self.assertTrue(audit_records.message_in(of_audit).startswith("audit: type=SECCOMP audit(1795934847.207:2): "))

        def second(entry_text):
            return entry_text.replace("207:2)", "207:3)").replace('_AUDIT_ID": "2"', '_AUDIT_ID": "3"')

        for first, other in ((of_audit, of_kernel), (text_of_audit, text_of_kernel), (text_of_audit, of_kernel)):
            for lines, count in (([first, other], 1), ([other, first], 1), ([first, second(first), other], 2),
                                 ([first, second(first), other, second(other)], 2), ([other, other], 1),
                                 ([other, second(other), first], 2), ([first, other, second(other), first], 2)):
                self.assertEqual(self.numbers("\n".join(lines)), ([(41, 30697, count)], 0), lines)

    def test_what_a_program_writes_is_no_record(self):
        """A program's message has another transport, or, in the kernel's log, another facility."""
        for text in (journal(WRITTEN, _TRANSPORT="syslog"), journal(WRITTEN, _TRANSPORT="stdout", SYSLOG_FACILITY="3"),
                     journal(WRITTEN, SYSLOG_FACILITY="1", SYSLOG_IDENTIFIER="audit"), journal(None),
                     journal(WRITTEN, _TRANSPORT=None), journal([1, 999]),
                     journal(self.SECCOMP, **{**self.OF_AUDIT, "_TRANSPORT": "journal"}),
                     journal(f"process '/tmp/x {WRITTEN}' launched", SYSLOG_FACILITY=None),
                     journal(f"process '/tmp/x {WRITTEN}' launched '/tmp/x' with NULL argv"),
                     journal(f"x\n{WRITTEN}"), journal(["kernel", WRITTEN]), journal({"audit": WRITTEN})):
            self.assertEqual(self.numbers(text), ([], 0), text)

    def test_what_cannot_be_read(self):
        for text in (journal(WRITTEN)[:-1], '{"MESSAGE": ' + "[" * 5000, '[{"pid": 1', "[\n{", '{"'):
            self.assertIn("# line 1 isn't judged: it isn't a", self.output_of(2, "why", "-", given=text.encode()))

    def test_cores(self):
        present = ("# process 1065 (sleep) was ended by SIGSYS, and its core has the syscall: coredumpctl dump 1065 | "
                   "scf why --core - ..")
        for signal, storage, expected in (
                ("31 (SYS)", "present", present),
                ("31 (SYS)", "missing", "# process 1065 (sleep) was ended by SIGSYS, and its core, which has the "
                                        "syscall, isn't kept"),
                ("11 (SEGV)", "present", "# process 1065 (sleep) was ended by signal 11, and a filter ends a process "
                                         "by SIGSYS")):
            text = (self.INFO % (signal, storage)).encode()
            self.assertEqual(self.why("-", given=text, status=4), [expected])
            # beside what is judged, a core that has a syscall isn't
            lines = self.why("-", given=WRITTEN.encode() + b"\n" + text, status=4 if expected == present else 0)
            self.assertIn("the syscall is socket (41)", lines[0])

    def test_lists_of_cores(self):
        short, pretty = json.dumps(self.LISTED), json.dumps(self.LISTED, indent="\t", separators=(",", " : "))
        lines = ["# process 1064 (/usr/bin/sleep) was ended by signal 11, and a filter ends a process by SIGSYS",
                 "# process 1065 (/usr/bin/sl\\x1b[2Jeep) was ended by SIGSYS, and its core has the syscall: "
                 "coredumpctl dump 1065 | scf why --core - .."]
        for text in (short, pretty, f"{pretty}\nbehind\n"):
            self.assertEqual(self.why("-", given=text.encode(), status=4), lines)
        for text in ('[{"pid": "x", "sig": 31}]', '[{"sig": 31}, 7]'):
            self.assertIn("# no syscall that a filter may have", self.why("-", given=text.encode(), status=4)[0])
        self.assertEqual(len(self.why("-", given=json.dumps([self.LISTED[1]] * 300).encode(), status=4)), 200)
        out = self.run_tool("why", "--json", "-", given=short.encode())[1]
        self.assertEqual([core["process"] for core in json.loads(out)["cores"] if core["is_present"]], [1065])


class Words(Causes):
    def test_files_that_are_no_words(self):
        log = self.file("log", WRITTEN)
        self.is_refused(f"'{log}' is a file: hand it over as standard input", "why", log)
        profile = self.file("p.json", profile_of("read"))
        self.is_refused("is a second profile", "why", WRITTEN, profile, profile)

    def test_refusals(self):
        for name, data, line in (("q.json", b"{", "fault profile Json"), ("f.bpf", jeq(0, 9, 0) + ret(ALLOW),
                                                                         "fault filter Jump at 0")):
            self.assertIn(f"{line}\n# ", self.output_of(2, "why", WRITTEN, self.file(name, data)))
        self.is_refused("why: there is no file 'none'\n", "why", WRITTEN, "none")

    def test_a_profile_without_a_filter(self):
        """One that takes more than 4096 instructions is judged, but no change of it is proved."""
        reads = [entry("read", action="SCMP_ACT_ERRNO", args=[where(at % 6, "MASKED_EQ", 2 * at + 1, 1)])
                 for at in range(2000)]
        profile = self.profile(*reads, entry("socket", action="SCMP_ACT_KILL_PROCESS"))
        self.assertEqual(self.output_of(0, "why", WRITTEN, profile).splitlines()[-1], "# so the profile answers it")

    def test_json(self):
        profile = self.profile(entry("socket", action="SCMP_ACT_KILL_PROCESS"))
        value = json.loads(self.output_of(1, "why", "--json", WRITTEN, profile, self.file("f.bpf", ret(ALLOW))))
        event = value["events"][0]
        self.assertEqual((value["status"], event["process"], event["name"], event["call"]["number"], event["actions"]),
                         (1, 12551, "python3", 41, ["KILL_PROCESS"]))
        self.assertEqual((event["profile"]["verdict"], event["profile"]["cases"][0]["reason"],
                          event["profile"]["cases"][0]["entry"]), ("fits", "entry", 0))
        self.assertEqual((event["filters"]["verdict"], event["filters"]["cases"][0]["answer"]["action"]),
                         ("contradicts", "ALLOW"))
        self.assertEqual(event["changes"], [{"taken_out": [0], "added": []}])
        out = self.run_tool("why", "--json", WRITTEN.replace("syscall=41", "syscall=x"))[1]
        self.assertEqual(json.loads(out)["faults"],
                         [{"line": 1, "why": "syscall=x: the table has no such name: print the record without -i"}])

    def test_an_exception_before_a_filter(self):
        """The filters by which scf is asked answer so."""
        conditions = ((0, (1 << 64) - 1, 0x100000010), (2, 0xFFFFFFFF, 9), (5, 0xF0, 0x37))
        filters = [Filter("", bpf.with_exception(ret(ERRNO | 1), SOCKET, conditions, TRAP))]
        for number, first, third, last in ((SOCKET, 0x100000010, 9, 0x30), (SOCKET, 0x100000010, 1 << 32 | 9, 0x13F),
                                           (SOCKET, 0x10, 9, 0x30), (SOCKET, 0x100000010, 8, 0x30),
                                           (SOCKET, 0x100000010, 9, 0x40), (42, 0x100000010, 9, 0x30)):
            meets = number == SOCKET and first == 0x100000010 and third & 0xFFFFFFFF == 9 and last & 0xF0 == 0x30
            call = events.Call(number, arguments=(first, 0, third, 0, 0, last))
            answer = Inputs(None, filters=filters).of_filters.answer(call)
            self.assertEqual(str(answer), "TRAP 0" if meets else "ERRNO 1")
