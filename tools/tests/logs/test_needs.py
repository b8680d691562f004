"""tools/needs: the forms of a log of strace, and each call judged; the least profile, beside scf."""
import json
import os
import random
import re
import shutil
import struct
import subprocess
import sys
import unittest

from support.common import CONFINED, LOADER, Case, completed, limited, profile_of, sample, taken, text_of
from support.oci import ALLOW, ERRNO
from logs import entry, read_log, rules, where
from scftools.model import tables
from scftools.model.architectures import AARCH64, ARM, I386, JUDGED, NATIVE, X32
from scftools.base import program
from scftools.forms import strace
from scftools.lint import watchlist
from scftools.logs import least_profile, requirements

TABLE = tables.read_table(None)
TABLES = tables.architecture_tables(JUDGED, TABLE).of

HIGH = 1 << 64
# What each least profile allows.
ALWAYS = ["restart_syscall", "rt_sigreturn", "exit", "exit_group"]
COUNTED = "# syscalls, each with the arguments that conditions test"
# A name that opens a bracket where a call may begin.
BEGUN = re.compile(r"(?m)^(?:\[pid +\d+\] |\d+ +)? *(?:[\d:.]+ +)?(?:\[[0-9a-f]+\] )?([a-z_]\w*)\(", re.A)


def log_of(text, looked_at=()):
    """The calls of a log: for each name and values how often; and the counts of what wasn't read, or is foreign."""
    log = read_log(text, looked_at)
    calls = {(name, *values) if looked_at else name: seen.count for (_, name, values), seen in log.calls.items()}
    return calls, log.unjudged["lines"], log.unjudged["foreign"]


class Values(unittest.TestCase):
    def test_numbers(self):
        for text, value in (("3", 3), ("0", 0), ("0x1c3", 0x1C3), ("0644", 0o644), ("022", 0o22), ("NULL", 0),
                            ("0x2 /* AF_INET */", 2), ("0x80000 /* O_RDONLY|O_CLOEXEC */", 0x80000),
                            ("3</tmp/a, b>", 3), ("0x1200000|17", 0x1200011), ("18446744073709551615", HIGH - 1),
                            ("-9223372036854775808", 1 << 63), ("-2147483649", HIGH - 2147483649), (" 7 ", 7),
                            ("2147483647", (1 << 31) - 1), ("4294967296", 1 << 32),
                            ("0xffffffff80000000 /* CLONE_IO|0xffffffff00000000 */|17 /* SIGCHLD */",
                             0xFFFFFFFF80000011), ("0 /* PER_LINUX */|0x40000 /* ADDR_NO_RANDOMIZE */", 0x40000),
                            ("3</tmp/a>(deleted)", 3), ("0</dev/null<char 1:3>>", 0), ("4<pipe:[7]>", 4),
                            ('5<UNIX:[7,@"x\\"]>, 9, 9<"]>', 5), ("6<TCPv6:[[::1]:22->[::1]:23]>", 6),
                            # by socket(2), clone(2), personality(2), linux/sched.h and asm/ioctls.h
                            ("AF_INET", 2), ("AF_VSOCK", 40), ("SOCK_STREAM|SOCK_CLOEXEC", 0o2000001),
                            ("NETLINK_AUDIT", 9), ("CLONE_VM|CLONE_VFORK|SIGCHLD", 0x4111), ("PER_LINUX", 0),
                            ("PER_LINUX|ADDR_NO_RANDOMIZE", 0x40000), ("CLONE_NEWUSER|SIGCHLD", 0x10000011),
                            ("O_RDWR|O_CREAT|O_LARGEFILE", 0o100102), ("TIOCSTI", 0x5412), ("PROT_READ|PROT_EXEC", 5),
                            ("S_IFIFO|0644", 0o10644), ("077777", 0o77777), ("AF_INET|1", 3), ("PR_SET_SECCOMP", 22),
                            ("CLONE_IO|0xffffffff00000000|SIGCHLD", 0xFFFFFFFF80000011)):
            self.assertEqual(strace.values_of(text), (value,), text)

    def test_upper_bits(self):
        """An upper half is zero or the sign. A mode is an unsigned short (umode_t), and so strace prints it."""
        for text, number in (("-1", -1), ("-100", -100), ("AT_FDCWD", -100), ("AT_FDCWD</tmp>", -100),
                             ("-2147483648", -(1 << 31)), ("0xffffffff", -1), ("4294967295", -1),
                             ("0x80000000", -(1 << 31)), ("CLONE_IO|SIGCHLD", 17 - (1 << 31)),
                             ("0xffffffff /* CAP_??? */", -1), ("PR_SET_PTRACER_ANY", -1)):
            self.assertEqual(strace.values_of(text), (number + (1 << 32), number + HIGH), text)
        for text, number in (("0177777", 0xFFFF), ("S_IFREG|0644", 0o100644)):
            self.assertEqual(strace.values_of(text), (number, number | 0xFFFF0000, number | HIGH - 0x10000), text)

    def test_what_is_not_known(self):
        for text in ("", "AF_NONE", "AF_NONE|1", "AT_FDCWD|1", "htons(ETH_P_ALL)", "3</a", "3<</a>", "3<a:[7>", "1|",
                     "|1", "1 | 1", "_IOC(_IOC_NONE, 0x56, 0x78, 0x1234)", "1|" * 5000 + "1", '"3"', "[3]", "{3}",
                     "1<<3", "1|-1", "08", "0xg", "3x",
                     "18446744073709551616", "0x10000000000000000", "-9223372036854775809", "9" * 5000, "a=3", "~3"):
            self.assertIsNone(strace.values_of(text), text)


class Arguments(unittest.TestCase):
    def test_where_they_end(self):
        for text, expected in (("()", []), ("(1)", ["1"]), ("(1, 2)", ["1", " 2"]),
                               ('("a, \\"b)", 2)', ['"a, \\"b)"', " 2"]),
                               ("([1, 2], {a=1, b={2, 3}}, 4)", ["[1, 2]", " {a=1, b={2, 3}}", " 4"]),
                               ("(3</a,b)>, 4)", ["3</a,b)>", " 4"]),
                               ("(4<TCP:[127.0.0.1:1->127.0.0.1:2]>, 5)", ["4<TCP:[127.0.0.1:1->127.0.0.1:2]>", " 5"]),
                               ("(0x2 /* a, b) */, 5)", ["0x2 /* a, b) */", " 5"]), ("(1<<3, 5)", ["1<<3", " 5"]),
                               ("(makedev(0x1, 0x3), 5)", ["makedev(0x1, 0x3)", " 5"]),
                               ('(12<UNIX-STREAM:[7,"a>, 9, 9<"]>, 5)', ['12<UNIX-STREAM:[7,"a>, 9, 9<"]>', " 5"]),
                               ('(1<UNIX:[7->8,@"x\\"]>, 9\\n"]>, 5)', ['1<UNIX:[7->8,@"x\\"]>, 9\\n"]>', " 5"]),
                               ("(0</dev/null<char 1:3>>, 5)", ["0</dev/null<char 1:3>>", " 5"]),
                               ('(3</q\\"[x]\\76, 7\\74>(deleted), 5)', ['3</q\\"[x]\\76, 7\\74>(deleted)', " 5"]),
                               ("(6<TCPv6:[[::1]:1->[::1]:2]>, 5)", ["6<TCPv6:[[::1]:1->[::1]:2]>", " 5"])):
            self.assertEqual(strace.arguments_in(text, 1), (expected, len(text)), text)
        # what is cut
        for text, expected in (("(1, 2", ["1"]), ('(1, "ab', ["1"]), ("(1, [2, 3", ["1"]), ("(1, 3</a", ["1"]),
                               ("(1, 2 /* x", ["1"]), ("(", [])):
            self.assertEqual(strace.arguments_in(text, 1), (expected, None), text)


class Forms(unittest.TestCase):
    """The forms of strace(1)."""

    def test_what_stands_before_a_call(self):
        for leader in ("", "1234  ", "1234 ", "[pid  1234] ", "12:34:56 ", "12:34:56.123456 ", "1700000000.123456 ",
                       "     0.000123 ", "1234  12:34:56.1 ", "[pid 1234] 12:34:56 ", "1234       0.000012 ",
                       "12:34:56 (+     0.000012) ", "[00007f12345678ab] ", "1234  [00007f12345678ab] ", "[ 257] ",
                       "[pid  1234<ls>] ", "1234<ls> "):
            self.assertEqual(log_of(f"{leader}openat(3, \"x\", O_RDONLY) = 4"), ({"openat": 1}, 0, 0), leader)

    def test_what_stands_behind_a_call(self):
        for text in ("close(3)   = 0", "close(3) = -1 EBADF (Bad file descriptor)", "exit_group(0) = ?",
                     "brk(NULL) = 0x55b162d91000", "read(0, 0x7ff, 1) = ? ERESTARTSYS (To be restarted)",
                     "close(3) = 0 <0.000010>", "mkdir(\"a\", 0777) = 0 (INJECTED)"):
            calls, unread, _ = log_of(text)
            self.assertEqual((list(calls.values()), unread), ([1], 0), text)

    def test_each_form(self):
        """No call; texts that look unfinished; a message within a line; named or reordered arguments; no name."""
        text = ("--- SIGCHLD {si_signo=SIGCHLD, si_pid=7} ---\n1234  --- SIGINT {si_signo=SIGINT} ---\n"
                "+++ exited with 0 +++\n[pid 7] +++ killed by SIGKILL (core dumped) +++\n"
                "strace: Process 12 attached\nstrace: Process 12 detached\n > /usr/lib/x.so(read+0x1) [0x12]\n\n")
        for text, looked_at, calls, unread in (
                (text, (), {}, 0), ("hello\nread is fine\nread(3\n<... read resumed>) = 3\nRead(3) = 3\n", (), {}, 5),
                ('1  write(1, " <unfinished ...>", 17) = 17\n1  write(2, "<... read resumed>) = 3", 4) = 1', [0],
                 {("write", (1,)): 1, ("write", (2,)): 1}, 0),
                ("clone(child_stack=NULL, flags=CLONE_CHILD_SETTID|SIGCHLDstrace: Process 7 attached\n"
                 " <unfinished ...>\n[pid 7] close(3) = 0\n[pid 6] <... clone resumed>, child_tidptr=0x7f) = 7\n", (),
                 {"clone": 1, "close": 1}, 0),
                ("clone(child_stack=NULL, flags=0x1200000|17, child_tidptr=0x7f) = 7", range(5),
                 {("clone", (0x1200011,), (0,), None, (0x7F,), None): 1}, 0),
                ("clone(0x1200011, 0, 0x7, 0x7f, 0) = 0x7", range(5),
                 {("clone", (0x1200011,), (0,), (7,), (0x7F,), (0,)): 1}, 0),
                ("other(a=1, 2) = 0", [0, 1], {("other", None, None): 1}, 0),
                ("preadv2(3, [], 0, 9, 5) = 0", [3, 4, 5], {("preadv2", (9,), None, (5,)): 1}, 0),
                ("syscall_0x1c3(0x1, 0x2, 0x3, 0, 0, 0) = -1 ENOSYS (x)", [1], {("syscall_0x1c3", (2,)): 1}, 0)):
            self.assertEqual(log_of(text, looked_at), (calls, unread, 0), text)

    def test_unfinished_and_resumed(self):
        for text in ("1  read(3,  <unfinished ...>\n2  close(4) = 0\n1  <... read resumed>\"a\", 1) = 1",
                     "[pid 1] read(3,  <unfinished ...>\n[pid 2] close(4) = 0\n[pid 1] <... read resumed> \"a\") = 1",
                     "read(3,  <unfinished ...>\n[pid 2] close(4) = 0\n[pid 1] <... read resumed>\"a\", 1) = 1",
                     "1  read(3,  <unfinished ...>\n2  close(4) = 0\n1  +++ killed by SIGKILL +++",
                     "1  read(3,  <unfinished ...>\n2  close(4) = 0",
                     "1  read(3,  <unfinished ...>) = ?\n2  close(4) = 0"):
            self.assertEqual(log_of(text, [0]), ({("read", (3,)): 1, ("close", (4,)): 1}, 0, 0), text)
        text = "1  socket(AF_UNIX <unfinished ...>\n2  socket(3 <unfinished ...>\n" \
               "2  <... socket resumed>, 4, 5) = 1\n1  <... socket resumed>, 6, 7) = 1"
        self.assertEqual(log_of(text, [0, 1]), ({("socket", (3,), (4,)): 1, ("socket", (1,), (6,)): 1}, 0, 0))
        # the last argument of a call that never ended may not be whole
        self.assertEqual(log_of("1  read(3, 4 <unfinished ...>", [0, 1])[0], {("read", (3,), None): 1})

    def test_other_modes(self):
        mode = "[ Process PID=7 runs in 32 bit mode. ]"
        for text, calls, foreign in (
                (f"getpid() = 7\n{mode}\ngetpid() = 7\nexit(0) = ?", {"getpid": 1}, 2),
                (f"7  getpid() = 7\n7  {mode}\n7  getpid() = 7\n8  getuid() = 0", {"getpid": 1}, 2),
                (f"8  getuid() = 0\n7  {mode}\n7  getpid() = 7\n8  getuid() = 0", {"getuid": 2}, 1),
                (f"7  {mode}\n7  getpid() = 7\n7  [ Process PID=7 runs in 64 bit mode. ]\n7  getuid() = 7",
                 {"getuid": 1}, 1),
                (f"strace: {mode}\ngetpid() = 7", {}, 1), (f"7  {mode}\n7  fork() = 9\n9  getpid() = 9", {}, 2),
                (f"7  {mode}\n8  vfork() = 9\n7  getpid() = 7\n9  getpid() = 9", {}, 3),
                (f"8  getuid() = 0\n7  {mode}\n8  vfork() = 9\n7  getpid() = 7\n9  getpid() = 9",
                 {"getuid": 1, "vfork": 1, "getpid": 1}, 1),
                (f"8  getuid() = 0\n7  {mode}\n7  fork( <unfinished ...>\n8  getuid() = 0\n9  getpid() = 9",
                 {"getuid": 2}, 2),
                ("7  [ Process PID=7 runs in x32 mode. ]\n7  getpid() = 7", {}, 1)):
            self.assertEqual(log_of(text), (calls, 0, foreign), text)


def made_in(text, looked_at=(), log_architecture=NATIVE):
    """The calls of a log, each with its architecture, as a set; the values of some arguments come last."""
    log = read_log(text, looked_at, TABLES, log_architecture)
    return {(architecture, name, *values) for architecture, name, values in log.calls}, log


class Architectures(unittest.TestCase):
    """Of which architecture the calls of a log are. Numbers are those of asm/unistd_32.h and so on."""

    MODE = "7  [ Process PID=7 runs in {} mode. ]\n"

    def test_modes(self):
        narrow, native, x32, odd = map(self.MODE.format, ("32 bit", "64 bit", "x32", "odd"))
        text = (f"7  read(3) = 1\n{narrow}7  mmap2(1) = 1\n{native}7  getpid() = 7\n"
                f"{x32}7  fork() = 8\n8  read(3) = 1\n{odd}7  read(3) = 1\n")
        calls, log = made_in(text)
        self.assertEqual(calls, {(NATIVE, "read"), (I386, "mmap2"), (NATIVE, "getpid"), (X32, "fork"), (X32, "read")})
        self.assertEqual((log.unjudged["foreign"], log.unjudged["lines"]), (1, 0))
        calls, _ = made_in(f"7  read(3) = 1\n{narrow}7  read(3) = 1", log_architecture=AARCH64)
        self.assertEqual(calls, {(AARCH64, "read"), (ARM, "read")})
        # a line that doesn't end counts by the table of its process's architecture
        calls, log = made_in(f"{narrow}7  mmap2(1\n7  uretprobe(1")
        self.assertEqual((calls, log.unjudged["cut"], log.unjudged["lines"]), (set(), 1, 1))

    def test_numbers(self):
        """By -n; getpid, mmap2 and openat2 are 20, 192 and 437 on i386, and getpid and openat2 39 and 437 on x86-64."""
        calls, log = made_in("7 [437] openat2(1) = 3\n7 [ 20] getpid() = 7\n7 [437] openat2(1) = 3\n"
                             "7 [192] mmap2(1) = 1\n7 [ 39] getpid() = 7\n7 [999] getuid() = 0\n7 [999] what() = 1\n")
        self.assertEqual(calls, {(NATIVE, "openat2"), (I386, "getpid"), (I386, "openat2"), (I386, "mmap2"),
                                 (NATIVE, "getpid"), (NATIVE, "what")})
        self.assertEqual(log.unjudged["foreign"], 1)
        calls, _ = made_in("7 [ 20] getpid( <unfinished ...>\n8 [  0] read(1) = 1\n7 [ 20] <... getpid resumed>) = 7")
        self.assertEqual(calls, {(I386, "getpid"), (NATIVE, "read")})

    def test_what_socketcall_and_ipc_do(self):
        """By linux/net.h and linux/ipc.h SYS_SOCKET is 1, SYS_SEND 9 and SHMAT 21; i386 has no other call for send."""
        text = self.MODE.format("32 bit") + "7 {}socket(2, 5) = 3\n7 {}send(3, 4) = 5\n7 {}shmat(6, 7) = 8"
        self.assertEqual(made_in(text.format("", "", ""), [0])[0], {
            (I386, "socket", (2,)), (I386, "socketcall", (1,)), (I386, "socketcall", (9,)), (I386, "shmat", (6,)),
            (I386, "ipc", (21,))})
        self.assertEqual(made_in(text.format("[102] ", "[102] ", "[117] "), [0, 1])[0], {
            (I386, "socketcall", (1,), None), (I386, "socketcall", (9,), None), (I386, "ipc", (21,), None)})
        self.assertEqual(made_in(text.format("[359] ", "[102] ", "[397] "), [0])[0], {
            (I386, "socket", (2,)), (I386, "socketcall", (9,)), (I386, "shmat", (6,))})
        self.assertEqual(made_in("7 socket(2, 5) = 3", [0])[0], {(NATIVE, "socket", (2,))})
        arm = self.MODE.format("32 bit") + "7 socket(2, 5) = 3"
        self.assertEqual(made_in(arm, [0], AARCH64)[0], {(ARM, "socket", (2,))})

    def test_registers(self):
        """By the manual pages clone(2), syscall(2) and mmap2(2): a number of 64 bits takes two registers of 32."""
        mode = self.MODE.format("32 bit")
        clone = "7 clone(child_stack=NULL, flags=CLONE_VM, tls=5, child_tidptr=6) = 8"
        for architecture, before, expected in ((NATIVE, "", (NATIVE, (6,), (5,))), (NATIVE, mode, (I386, (5,), (6,))),
                                      (AARCH64, "", (AARCH64, (5,), (6,))), (AARCH64, mode, (ARM, (5,), (6,)))):
            self.assertEqual(made_in(before + clone, [3, 4], architecture)[0], {(expected[0], "clone", *expected[1:])})
        for call, count in (("mmap2(1, 2, 3, 4, 5, 6)", 5), ("pread64(1, 2, 3, 4)", 3), ("_llseek(1, 2, 3, 4)", 1),
                            ("mmap(1, 2, 3, 4, 5, 6)", 0), ("select(1, 2, 3, 4, 5)", 0), ("fallocate(1, 2, 3, 4)", 2)):
            calls, _ = made_in(f"{mode}7 {call} = 1", range(6))
            expected = [(index + 1,) if index < count else None for index in range(6)]
            self.assertEqual(calls, {(I386, call.split("(")[0], *expected)})
        self.assertEqual(made_in("7 pread64(1, 2, 3, 4) = 1", [3])[0], {(NATIVE, "pread64", (4,))})

    def test_only_the_low_half_counts(self):
        calls = "7 close(-1) = 1\n7 close(0xffffffff) = 1\n7 close(0x100000007) = 1\n"
        both = {(NATIVE, "close", (0xFFFFFFFF, HIGH - 1)), (NATIVE, "close", (0x100000007,))}
        self.assertEqual(made_in(calls, [0])[0], both)
        for mode, name in (("32 bit", I386), ("x32", X32)):
            made, _ = made_in(self.MODE.format(mode) + calls, [0])
            self.assertEqual(made, {(name, "close", (0xFFFFFFFF,)), (name, "close", (7,))})

    def test_constants_of_other_architectures(self):
        """O_DIRECTORY is 0200000 on x86, and 040000 on arm and aarch64 (asm/fcntl.h), where it isn't known."""
        for name in (NATIVE, I386, X32):
            self.assertEqual(strace.values_of("O_RDONLY|O_DIRECTORY", name), (0o200000,))
        for name in (AARCH64, ARM):
            self.assertIsNone(strace.values_of("O_RDONLY|O_DIRECTORY", name))
            self.assertEqual(strace.values_of("O_RDWR|O_CREAT", name), (0o102,))


class Judgement(Case):
    PROFILE = rules(entry("read", "write", "exit_group"), entry("socket", args=[where(0, "NE", 40)]),
                    entry("wait4", args=[where(0, "EQ", (1 << 32) - 1)]),
                    entry("socket", action=ERRNO, errnoRet=22, args=[where(0, "EQ", 40)]),
                    entry("bpf", action="SCMP_ACT_TRACE"), entry("ptrace", action="SCMP_ACT_LOG"))

    # That PROFILE denies some of ALWAYS, which --widen allows.
    ALWAYS_WIDENED = "".join(f"needs: allowed, though PROFILE denies it: {call} ERRNO 1 default (a process calls it to "
                             "continue or to end)\n" for call in ("219 restart_syscall", "15 rt_sigreturn", "60 exit"))

    def equal(self, name, value):
        """An entry that allows a syscall for one value of its first argument."""
        return entry(name, args=[where(0, "EQ", value)])

    def needs(self, log, *words, profile=None, **settings):
        return self.run_tool("needs", *words, self.file("log", log),
                             self.file("p.json", profile or self.PROFILE), **settings)

    def judged(self, log, status, profile=None):
        """The disposition of each call, by name, as --json and the lines tell it."""
        exit_status, out, err = self.needs(log, "--json", profile=profile)
        self.assertEqual((exit_status, err, out.count("\n")), (status, "", 1), out)
        report = json.loads(out)
        self.assertEqual(report["status"], status)
        out = self.out_of(status, self.needs(log, profile=profile))
        dispositions = [(" ".join([*([call["architecture"]] if "architecture" in call else []), call["name"]]),
                         call["disposition"]) for call in report["calls"]]
        lines = [line for line in out.split("\n")[:-1] if line[0] != "#"]
        self.assertEqual([re.sub(r"^(\S+ |)\d+ (\S+) .*", r"\1\2", line) for line in lines],
                         [name for word in ("not allowed", "depends", "undecided") for name, its in dispositions
                          if its == word])
        return dict(dispositions), report, out


class Needs(Judgement):
    def test_allowed_and_not_allowed(self):
        dispositions, _, out = self.judged("read(3, 0x7f, 1) = 1\nexit_group(0) = ?\n", 0)
        self.assertEqual(dispositions, {"read": "allowed", "exit_group": "allowed"})
        self.assertEqual(out, f"{COUNTED}: allowed 2, not allowed 0, depends 0\n")
        dispositions, report, out = self.judged("1 open(\"a\") = 3\n1 ptrace(1) = 0\n1 open(\"b\") = 3\n"
                                                "1 bpf(1) = 3\n", 1)
        self.assertEqual(dispositions, {"open": "not allowed", "ptrace": "allowed", "bpf": "not allowed"})
        self.assertEqual(out, "2 open ERRNO 1 default\n# 2 times, first in line 1 of the log\n321 bpf TRACE 1 entry 4\n"
                              f"# once in line 4 of the log\n{COUNTED}: allowed 1, not allowed 2, depends 0\n")
        first = report["calls"][0]
        self.assertEqual((first["number"], first["count"], first["line"], first["not_allowed"]["answer"],
                          first["not_allowed"]["reason"]), (2, 2, 1, {"action": "ERRNO", "data": 1, "errno": "EPERM"},
                                                       "default"))

    def test_a_profile_as_a_runtime_reads_it(self):
        """podman's own lists have entries that conflict by their words: with --runtime the first one counts."""
        profile = rules(entry("setns", "read"), entry("setns", action="SCMP_ACT_KILL_PROCESS"))
        log = "1 setns(3) = 0\n1 read(0) = 0\n"
        self.assertEqual(self.needs(log, profile=profile)[1].split("\n")[0],
                         "fault profile Conflict number 308 first 0 second 1")
        for runtime in ("runc", "crun"):
            status, out, _ = self.needs(log, "--json", "--runtime", runtime, profile=profile)
            dispositions = {call["name"]: call["disposition"] for call in json.loads(out)["calls"]}
            self.assertEqual((status, dispositions["setns"], dispositions["read"]), (1, "allowed", "allowed"))
            status, out, _ = self.needs(log, "--widen", "--runtime", runtime, profile=profile)
            self.assertEqual((status, "setns" in out), (0, True))

    def test_arguments_that_are_not_known(self):
        for log in ("socket(AF_NONE, 1, 0) = 3", "socket(AF_NONE|1, 1, 0) = 3", "socket(40", "socket() = 3",
                    "1 socket(40 <unfinished ...>"):
            dispositions, report, out = self.judged(f"{log} = 3" if log == "socket(40" else log, 4)
            self.assertEqual(dispositions, {"socket": "depends"}, log)
            self.assertEqual(out.split("\n")[0], "41 socket depends on arg 0")
            call = report["calls"][0]
            self.assertEqual(call["depends_on"], [0])
            self.assertEqual((call["not_allowed"]["call"]["arguments"][0], call["not_allowed"]["answer"]),
                             ("0x28", {"action": "ERRNO", "data": 22, "errno": "EINVAL"}))
            self.assertNotEqual(call["allowed"]["arguments"][0], "0x28")
            self.assertRegex(out.split("\n")[1],
                             r"^# allowed with args 0x[0-9a-f]+( 0x0){5}; with args 0x28( 0x0){5} it is ERRNO 22$")

    def test_conditions_that_do_not_matter(self):
        """An argument isn't known, and the call is made with each of its values, or with none."""
        halves = rules(entry("socket", args=[where(0, "LT", 5)]),
                       entry("socket", action="SCMP_ACT_LOG", args=[where(0, "GE", 5)]),
                       entry("bind", args=[where(0, "EQ", 5), where(1, "EQ", 5)]))
        self.assertEqual(self.judged("socket(AF_NONE) = 3", 0, halves)[0], {"socket": "allowed"})
        self.assertEqual(self.judged("bind(6, {x}) = 3", 1, halves)[0], {"bind": "not allowed"})
        dispositions, _, out = self.judged("bind(5, {x}) = 3", 4, halves)
        self.assertEqual((dispositions, out.split("\n")[0]),
                         ({"bind": "depends"}, "49 bind arg 0 0x5 depends on arg 1"))
        self.assertEqual(self.judged("bind(X, {x}) = 3", 4, halves)[2].split("\n")[0], "49 bind depends on args 0, 1")
        # of the two values that the register may have both are denied
        self.assertEqual(self.judged("wait4(-2, NULL, 0, NULL) = 3", 1)[0], {"wait4": "not allowed"})

    def test_what_is_not_judged(self):
        log = "read(1) = 1\nno_such_call(1) = 1\n[ Process PID=7 runs in odd mode. ]\nopen(1) = 1\nwhat\n"
        dispositions, report, out = self.judged(log, 4)
        self.assertEqual((dispositions, report["not_judged"]),
                         ({"read": "allowed"},
                          {"names": {"no_such_call": 1}, "foreign": 1, "cut": 0, "more": 0, "lines": 1, "lost": 0,
                          "before_load": 0}))
        for line in ("# not judged, since the table doesn't have it: no_such_call, times: 1",
                     "# syscalls not judged, since scf has no table of their architecture: 1",
                     "# lines not judged, since they can't be parsed: 1"):
            self.assertIn(f"{line}\n", out)
        self.assertEqual(self.judged("read(1) = 1\nwhat\n", 4)[0], {"read": "allowed"})
        out = self.judged("read(1) = 1\nmmap2(1) = 1\n" + "".join(f"no{number}(1) = 1\n" for number in range(30)), 4)[2]
        self.assertIn("doesn't have it: mmap2, times: 1; it is a syscall of other architectures alone\n", out)
        self.assertEqual(out.count("# not judged, since the table doesn't have it: "), 20)
        self.assertIn("# more such names: 11\n", out)
        for log in ("", "\n\n", "what\n"):
            self.assertIn("# the log has no syscall\n", self.judged(log, 4)[2])

    def test_the_wrong_order(self):
        log, profile = self.file("l", "7  openat(AT_FDCWD, \"x\") = 3\n"), self.file("p.json", profile_of("read"))
        self.assertEqual(self.run_tool("needs", profile, log),
                         (2, "", f"needs: '{log}' is a strace log, not a profile: LOG comes before PROFILE\n"))

    def test_a_call_that_is_cut(self):
        """Without its beginning, and a line that ends before its result."""
        mounts = ('mount("/dev/sda", "/mnt"', "mount(", 'mount("/dev/sda", "/mnt", NULL, 0, NULL)')
        for log in ("<... ptrace resumed>) = 0", "7 <... ptrace resumed>, 1) = 0",
                    "7 read(3 <unfinished ...>\n7 <... ptrace resumed>) = 0", *mounts,
                    *(f"{cut}\nread(1) = 1\n" for cut in mounts)):
            dispositions, report, out = self.judged(f"read(1) = 1\n{log}", 4)
            self.assertEqual((dispositions, report["not_judged"]["cut"], report["not_judged"]["lines"]),
                             ({"read": "allowed"}, 1, 0), log)
            self.assertIn("# syscalls not judged, since the log lacks their beginning or end: 1\n", out)
            self.assertEqual(self.needs(f"read(1) = 1\n{log}", "--profile")[0], 4)
        # what isn't a call's name isn't strace's
        for log in ("<... what resumed>) = 0", "what(1"):
            self.assertEqual(self.judged(f"read(1) = 1\n{log}\n", 4)[1]["not_judged"]["lines"], 1)

    def test_a_line_longer_than_it_is_looked_at(self):
        for leader in ("", "7 ", "[pid     7] ", "12:00:00 "):
            log = f"read(1) = 1\n{leader}read(1, \"{'a' * (1 << 17)}\", 7) = 7\n"
            dispositions, report, _ = self.judged(log, 0)
            self.assertEqual((dispositions, report["not_judged"]["cut"]), ({"read": "allowed"}, 0))
            self.assertEqual(report["calls"][0]["count"], 2)

    def test_a_call_without_a_name(self):
        dispositions, report, out = self.judged("syscall_0x3ff(0x1, 0, 0, 0, 0, 0) = -1\nsyscall_0x1(0x1) = 0", 1)
        self.assertEqual(out.split("\n")[0], "1023 syscall_0x3ff ERRNO 1 default")
        self.assertEqual(dispositions, {"syscall_0x3ff": "not allowed", "syscall_0x1": "allowed"})
        status, out, err = self.needs("syscall_0x3ff(0x1) = 0", "--widen")
        self.assertEqual((status, "3ff" in out, err), (1, False, "needs: needed, and PROFILE denies it: 1023 "
                         "syscall_0x3ff ERRNO 1 default (once in line 1 of the log)\n" + self.ALWAYS_WIDENED))
        for name in ("syscall_0x1ffffffff", "syscall_0x", "syscall_0xg"):
            self.assertEqual(self.judged(f"{name}(0x1) = -1", 4)[1]["not_judged"]["names"], {name: 1})

    def test_limits_and_refusals(self):
        self.begins(4, "41 socket unfinished", self.needs("socket(AF_NONE) = 3", "--limit=0"))
        self.begins(2, "fault number limit", self.needs("socket(X) = 3", "--limit=x"))
        for text, fault in (("{", "fault profile Json"), ('{"defaultAction":"ALLOW"}', "fault profile Action")):
            self.assertIn(f"{fault}\n# ", self.output_of(2, "needs", self.file("log", "read(1) = 1"),
                                                         self.file("q.json", text)))
        self.is_refused("needs: there is no file 'none'\n", "needs", self.file("log", "x"), "none")
        self.is_refused("is a folder", "needs", self.folder, self.file("p.json", profile_of("read")))

    def test_inputs(self):
        config = self.file("c.json", {"linux": {"seccomp": self.PROFILE}})
        expected = self.needs("open(1) = 1\n")
        self.assertEqual(self.run_tool("needs", "-", config, given=b"open(1) = 1\n"), expected)
        self.assertEqual(self.run_tool("needs", self.file("log", "open(1) = 1"), "-",
                                       given=json.dumps(self.PROFILE).encode()), expected)
        self.assertEqual(self.run_tool("needs", "-", "-")[0], 2)
        own_table = self.file("t", b"look 7\n")
        self.assertEqual(self.run_tool("needs", "--table", own_table, self.file("log", "look(1) = 1\n"),
                                       self.file("q.json", profile_of("look")))[0], 0)


class InArchitectures(Judgement):
    """Each call is judged by the table and the rules of its architecture."""

    BOTH = ["SCMP_ARCH_X86_64", "SCMP_ARCH_X86"]
    MODE = "[ Process PID=7 runs in 32 bit mode. ]\n"
    PROFILE = rules(entry("read", "mmap2", "socketcall", "execve"), entry("socket", args=[where(0, "NE", 40)]),
                    entry("close", args=[where(0, "EQ", 0xFFFFFFFF)]),
                    entry("dup", args=[where(0, "EQ", (1 << 32) + 8)]), architectures=BOTH)
    CALLS = ("read(3) = 1\nmmap2(1) = 1\nsocket(40, 1) = 3\nsocket(2, 1) = 3\nclose(-1) = 0\nopen(\"x\") = 3\n"
             "dup(8) = 9\n")

    def test_a_part_in_32_bit_mode(self):
        """By asm/unistd_32.h open is 5, dup 41, socket 359. Of i386's arguments only the low half counts."""
        dispositions, report, out = self.judged(f"read(3) = 1\nclose(-1) = 0\n{self.MODE}{self.CALLS}", 1)
        self.assertEqual(dispositions, {
            "read": "allowed", "close": "depends", "i386 read": "allowed", "i386 open": "not allowed",
            "i386 close": "allowed", "i386 dup": "not allowed", "i386 socketcall": "allowed", "i386 mmap2": "allowed",
            "i386 socket": "allowed"})
        self.assertEqual(out.split("\n")[:6], [
            "i386 5 open ERRNO 1 default", "# once in line 9 of the log",
            "i386 41 dup arg 0 0x8 ERRNO 1 default", "# once in line 10 of the log",
            "i386 359 socket arg 0 0x28 ERRNO 1 default", "# once in line 6 of the log"])
        self.assertTrue(out.endswith(f"{COUNTED}: allowed 6, not allowed 3, depends 1\n"), out)
        self.assertNotIn("list", out)
        self.assertEqual([(call.get("architecture"), call["number"], call["arguments"]) for call in report["calls"]],
                         [(None, 0, {}), (None, 3, {"0": ["0xffffffff", "0xffffffffffffffff"]}), ("i386", 3, {}),
                          ("i386", 5, {}), ("i386", 6, {"0": ["0xffffffff"]}), ("i386", 41, {"0": ["0x8"]}),
                          ("i386", 102, {}), ("i386", 192, {}), ("i386", 359, {"0": ["0x28"]}),
                          ("i386", 359, {"0": ["0x2"]})])
        calls = {call["name"]: call["not_allowed"]["call"]
                 for call in report["calls"] if call["disposition"] == "not allowed"}
        self.assertEqual((calls["open"]["number"], calls["open"]["architecture"], calls["open"]["names"]),
                         (5, "0x40000003", ["open"]))

    def test_x32(self):
        """Numbers in a record have 0x40000000 added (asm/unistd.h); x32's execve is 520, and x86-64's 59."""
        three = {**self.PROFILE, "architectures": [*self.BOTH, "SCMP_ARCH_X32"]}
        log = "[ Process PID=7 runs in x32 mode. ]\nexecve(1) = 0\nopen(1) = 1\n"
        dispositions, report, out = self.judged(log, 1, three)
        self.assertEqual(dispositions, {"x32 execve": "allowed", "x32 open": "not allowed"})
        self.assertEqual(out.split("\n")[0], "x32 2 open ERRNO 1 default")
        self.assertEqual([call["number"] for call in report["calls"]], [2, 520])
        self.assertEqual(report["calls"][0]["not_allowed"]["call"]["number"], 0x40000002)

    def test_an_architecture_that_the_profile_does_not_list(self):
        alone = {**self.PROFILE, "architectures": ["SCMP_ARCH_X86_64"]}
        note = ("# i386 syscalls aren't allowed, since the profile doesn't list SCMP_ARCH_X86: engines' filters kill "
                "for them\n")
        for profile in (alone, {**alone, "architectures": []}):
            dispositions, _, out = self.judged(f"read(3) = 1\n{self.MODE}{self.CALLS}", 1, profile)
            self.assertEqual(dispositions, {"read": "allowed", **{f"i386 {name}": "not allowed" for name in (
                "read", "open", "close", "dup", "socketcall", "mmap2", "socket")}})
            self.assertEqual(out.split("\n")[0], "i386 3 read KILL_PROCESS 0 foreign")
            # no condition tests an argument there
            self.assertIn("i386 359 socket KILL_PROCESS 0 foreign\n# 2 times, first in line 5 of the log\n", out)
            self.assertEqual(out.count(note), 1)
        for word in ("--profile", "--widen"):
            status, out, err = self.needs(f"read(3) = 1\n{self.MODE}mmap2(1) = 1\n", word, profile=alone)
            made = json.loads(out)
            self.assertEqual((status, made["architectures"], made["syscalls"][0]["names"][0]),
                             (1, ["SCMP_ARCH_X86_64"], "read"))
            self.assertEqual(err.split("\n")[:2], [note.replace("# ", "needs: ").strip(), "needs: needed, and PROFILE "
                             "denies it: i386 192 mmap2 KILL_PROCESS 0 foreign (once in line 3 of the log)"])

    def test_the_least_profile_of_both(self):
        log = f"read(3) = 1\nsocket(1, 1) = 3\n{self.MODE}open(\"x\") = 3\nsocket(2, 1) = 3\nclose(-1) = 0\n"
        status, out, _ = self.needs(log, "--widen")
        made = json.loads(out)
        self.assertEqual(status, 0)
        self.assertEqual(made, rules(entry("read", "open", "socketcall", *ALWAYS, "sigreturn"), self.equal("socket", 1),
                                     self.equal("socket", 2), self.equal("close", 0xFFFFFFFF), architectures=self.BOTH))
        self.assertEqual(self.needs(log, profile=made)[0], 0)
        self.assertEqual(self.needs(f"{self.MODE}socket(3, 1) = 3\n", profile=made)[0], 1)

    def test_a_log_of_another_machine(self):
        """By asm-generic/unistd.h openat is 56, socket 198 and clone 220; aarch64 has no open."""
        arm = {**self.PROFILE, "architectures": ["SCMP_ARCH_AARCH64"]}
        log = "read(3) = 1\nopenat(1) = 3\nsocket(40, 1) = 3\nsocket(2, 1) = 3\nopen(1) = 3\n"
        lines = ("aarch64 56 openat ERRNO 1 default\n# once in line 2 of the log\n"
                 "aarch64 198 socket arg 0 0x28 ERRNO 1 default\n# once in line 3 of the log\n")
        remarks = ("# not judged, since the table doesn't have it: aarch64 open, times: 1\n"
                f"{COUNTED}: allowed 2, not allowed 2, depends 0\n")
        self.assertEqual(self.needs(log, "--arch", "aarch64", profile=arm), (1, lines + remarks, ""))
        unlisted = {**arm, "architectures": []}
        self.assertEqual(self.needs(log, "--arch", "aarch64", profile=unlisted), (1, lines + remarks, ""))
        if os.uname().machine == "x86_64":
            taken = ("# a log that doesn't say its architecture is taken as aarch64's, since the profile doesn't list "
                     "x86-64: --arch names another\n")
            self.assertEqual(self.needs(log, profile=arm), (1, lines + taken + remarks, ""))
        out = self.begins(1, "0 read KILL_PROCESS 0 foreign", self.needs(log, "--arch", "x86-64", profile=arm))
        self.assertIn("# x86-64 syscalls aren't allowed, since the profile doesn't list SCMP_ARCH_X86_64: ", out)
        status, out, _ = self.needs("read(3) = 1\n[ Process PID=7 runs in 32 bit mode. ]\nmmap2(3) = 1\nopen(1) = 1",
                                    profile={**arm, "architectures": ["SCMP_ARCH_AARCH64", "SCMP_ARCH_ARM"]})
        self.assertEqual((status, out.split("\n")[0]), (1, "arm 5 open ERRNO 1 default"))
        own_table = self.file("t", b"look 7\n")
        self.assertEqual(self.needs("look(1) = 1", "--arch", "aarch64", "--table", own_table, profile={
            **arm, "syscalls": [entry("look")]})[0], 0)

    def test_what_is_refused(self):
        self.is_refusal("no table of the architecture 'sh'", self.needs("read(3) = 1", "--arch", "sh"))
        # entries that conflict on i386 alone are no matter as long as the log has none of its calls
        odd = {**self.PROFILE, "syscalls": [entry("read"), *(
            entry("mmap2", action=action) for action in (ALLOW, "SCMP_ACT_LOG"))]}
        self.assertEqual(self.needs("read(3) = 1", profile=odd)[0], 0)
        self.assertIn("# the syscall is mmap2 (192) of the architecture i386\n",
                      self.begins(2, "fault profile Conflict number 192 first 1 second 2",
                                  self.needs(f"{self.MODE}read(3) = 1", profile=odd)))


class Least(Judgement):
    LOG = ("read(3, 0x7f, 1) = 1\nopen(\"a\", O_RDONLY) = 3\nsocket(40, 1, 0) = 3\nsocket(1, 1, 0) = 3\n"
           "read(4, 0x7f, 1) = 1\n")

    def least(self, log, profile=None, status=0, words=("--profile",)):
        exit_status, out, err = self.needs(log, *words, profile=profile)
        self.assertEqual(exit_status, status, err)
        return json.loads(out), err

    def test_no_more_than_the_base(self):
        """What is denied stands on standard error."""
        made, err = self.least(self.LOG, status=1)
        self.assertEqual(made, rules(entry("read", "exit_group"), self.equal("socket", 1)))
        denied = "needs: needed, and PROFILE denies it: "
        self.assertEqual(err, f"{denied}2 open ERRNO 1 default (once in line 2 of the log)\n"
                              f"{denied}41 socket arg 0 0x28 ERRNO 22 entry 3 (once in line 3 of the log)\n")

    def test_it_lets_the_calls_through_and_nothing_else(self):
        made, err = self.least(self.LOG, words=("--widen",))
        widened = "needs: allowed, though PROFILE denies it: "
        self.assertEqual(err, f"{widened}2 open ERRNO 1 default (once in line 2 of the log)\n{widened}41 socket arg 0 "
                              f"0x28 ERRNO 22 entry 3 (once in line 3 of the log)\n{self.ALWAYS_WIDENED}")
        self.assertEqual(made, rules(entry("read", "open", *ALWAYS), self.equal("socket", 1), self.equal("socket", 40)))
        self.assertEqual(self.needs(self.LOG, profile=made)[0], 0)
        self.assertEqual(self.needs("socket(2, 1, 0) = 3", profile=made)[0], 1)
        # without any of it a call of the log isn't made
        for place, its in enumerate(made["syscalls"]):
            for name in set(its["names"]) - set(ALWAYS):
                entries = [{**whole, "names": [named for named in whole["names"] if (at, named) != (place, name)]}
                           for at, whole in enumerate(made["syscalls"])]
                less = {**made, "syscalls": [whole for whole in entries if whole["names"]]}
                self.assertIn(self.needs(self.LOG, profile=less)[0], (1, 4))

    def test_its_default(self):
        for default, errno, expected in (
                (ALLOW, None, {"defaultAction": ERRNO}), ("SCMP_ACT_LOG", None, {"defaultAction": ERRNO}),
                (ERRNO, 38, {"defaultAction": ERRNO, "defaultErrnoRet": 38}),
                ("SCMP_ACT_KILL_PROCESS", None, {"defaultAction": "SCMP_ACT_KILL_PROCESS"})):
            given = rules(entry("close", action="SCMP_ACT_TRAP"), default=default, architectures=["SCMP_ARCH_X86_64"])
            if errno:
                given["defaultErrnoRet"] = errno
            made, _ = self.least("read(1) = 1", profile=given, words=("--widen",))
            self.assertEqual(made, {**expected, "architectures": ["SCMP_ARCH_X86_64"],
                                    "syscalls": [entry("read", *ALWAYS)]})

    def test_what_it_always_allows(self):
        """Where the base allows it."""
        log, every = "exit_group(0) = ?\nread(1) = 1\n", ["read", "exit_group", *ALWAYS[:3]]
        for base, words, names in ((self.PROFILE, "--profile", every[:2]), (self.PROFILE, "--widen", every),
                                   (json.loads(profile_of(*every)), "--profile", every)):
            self.assertEqual(self.least(log, base, words=(words,))[0]["syscalls"], [entry(*names)])
        table = self.file("t", "read 0\nexit 60\n")
        status, out, _ = self.needs("read(1) = 1\n", "--widen", "--table", table, profile=json.loads(
            profile_of("read")))
        self.assertEqual((status, json.loads(out)["syscalls"]), (0, [entry("read", "exit")]))

    def test_arguments_that_are_not_known(self):
        """PROFILE's conditions stay, also if its default allows; of a half-known value those that it allows."""
        log = "socket(AF_NONE, 1, 0) = 3\nsocket(1, 1, 0) = 3\nwait4(-1, NULL, 0, NULL) = 3\n"
        denying = {"defaultAction": ALLOW, "syscalls": [
            entry(name, action=ERRNO, args=[where(0, "EQ", value)])
            for name, value in (("socket", 40), ("wait4", HIGH - 1))]}
        for base, always in ((self.PROFILE, ["exit_group"]), (denying, ALWAYS)):
            made, err = self.least(log, base, 4)
            self.assertEqual(made["syscalls"], [entry(*always), entry("socket", args=[where(0, "NE", 40)]),
                                                self.equal("wait4", (1 << 32) - 1)])
            self.assertEqual(err, "".join(f"needs: {call} depends on arg 0: no more is allowed than by PROFILE\n"
                                          for call in ("41 socket", "61 wait4")))

    def test_a_value_of_which_half_is_known(self):
        """One of two values is passed: both are allowed beyond the base."""
        made, err = self.least("wait4(-1, NULL, 0, NULL) = 3\n", words=("--widen",))
        self.assertEqual(made["syscalls"][1:], [self.equal("wait4", (1 << 32) - 1), self.equal("wait4", HIGH - 1)])
        self.assertEqual(err.split("\n")[0], "needs: allowed, though PROFILE may deny it: 61 wait4 depends on arg 0 "
                                             "(once in line 1 of the log)")

    def test_many_values(self):
        made, _ = self.least("".join(f"socket({number}, 1, 0) = 3\n" for number in range(200)), status=1)
        self.assertEqual(made["syscalls"], [entry("exit_group"), entry("socket", args=[where(0, "NE", 40)])])

    # As Docker's list has it.
    CLONES = rules(entry("read", "faccessat", *ALWAYS), entry("clone", args=[where(0, "MASKED_EQ", 0x7E020000, 0)]),
                   entry("clone3", "faccessat2", "statx", action=ERRNO, errnoRet=38),
                   entry("mount", action=ERRNO, errnoRet=22), architectures=[NATIVE, I386])
    CLONE3 = "7 clone3({flags=CLONE_VM|CLONE_THREAD, exit_signal=0}, 88) = "

    def test_fallbacks(self):
        """What follows ENOSYS stays, whether the log shows the newer syscall executed, failed, or not at all."""
        clone, clone3 = self.CLONES["syscalls"][1], entry("clone3", action=ERRNO, errnoRet=38)
        forked = "7 clone(child_stack=NULL, flags=CLONE_CHILD_SETTID|SIGCHLD, child_tidptr=0x7f) = 9\n"
        exact = self.equal("clone", 0x1000011)
        for log, entries in ((f"{self.CLONE3}8\n", [clone]), (f"{self.CLONE3}8\n{forked}", [clone]),
                             (f"{self.CLONE3}-1 ENOSYS (Function not implemented)\n{forked}", [clone]),
                             (forked, [exact])):
            made, err = self.least(f"{log}7 read(3) = 1\n", self.CLONES)
            self.assertEqual((made["architectures"], err), (["SCMP_ARCH_X86_64"], ""))
            self.assertEqual(made["syscalls"], [entry("read", *ALWAYS), *entries, clone3], log)
        made, err = self.least('faccessat2(AT_FDCWD, "a", R_OK, AT_EACCESS) = 0\n', self.CLONES)
        self.assertEqual(([entry["names"] for entry in made["syscalls"]], err),
                         ([["faccessat", *ALWAYS], ["faccessat2"]], ""))
        without = {**self.CLONES, "syscalls": [entry for entry in self.CLONES["syscalls"] if entry is not clone]}
        self.assertIn("denies it: 435 clone3 ERRNO 38 entry ", self.least(f"{self.CLONE3}8\n", without, 1)[1])

    def test_what_fails_as_the_base_answers(self):
        """It isn't allowed, since what follows may depend on the errno; --widen allows it if a filter is shown."""
        log = ("7 read(3) = 1\n7 chroot(\"/\") = -1 EPERM (Operation not permitted)\n"
               "7 statx(1) = -1 ENOSYS (Function not implemented)\n")
        made, err = self.least(log, self.CLONES)
        self.assertEqual(made["syscalls"], [entry("read", *ALWAYS), entry("statx", action=ERRNO, errnoRet=38)])
        self.assertEqual(err, "needs: left out, since PROFILE answers as they fail in the log: chroot, statx\n")
        self.assertEqual(self.least(log, self.CLONES, words=("--widen",)), (made, err))
        for result in ("-1 EINVAL (Invalid argument)", "0", "-1 EPERM (Operation not permitted)\n7 chroot(1) = 0"):
            self.assertIn("denies it: 161 chroot", self.least(f"7 chroot(1) = {result}\n", self.CLONES, 1)[1])
        load = "7 seccomp(SECCOMP_SET_MODE_FILTER, 0, {len=3, filter=0x7ffd5c1d}) = 0\n"
        before = "7 open(1) = 3\n"
        made, err = self.least(before + load + log, self.CLONES)
        self.assertEqual((made["syscalls"][0]["names"], err.split("\n")[0]),
                         (["read", *ALWAYS], "needs: syscalls before a filter is loaded, or in a process without one, "
                          "which aren't judged: 2"))
        made, err = self.least(before + load + log, self.CLONES, words=("--widen",))
        self.assertEqual(made["syscalls"], [entry("read", "chroot", "statx", *ALWAYS)])
        self.assertEqual(err.count("allowed, though PROFILE denies it: "), 2)

    def test_it_is_proved(self):
        """What scf doesn't prove isn't printed."""
        judges = requirements.Judges(json.dumps(self.CLONES).encode(), None, None)
        listed = [JUDGED[name] for name in self.CLONES["architectures"]]
        for entries in (self.CLONES["syscalls"][:1], self.CLONES["syscalls"]):
            least_profile.check(json.dumps({**self.CLONES, "syscalls": entries}).encode(), judges, listed)
        for name in ("statx", "clone"):
            made = {**self.CLONES, "syscalls": [entry(name)]}
            with self.assertRaisesRegex(program.ToolError, "to allow no more than PROFILE: more") as raised:
                least_profile.check(json.dumps(made).encode(), judges, listed)
            self.assertEqual(raised.exception.status, 1)
        status, out, err = self.needs("7 read(3) = 1\n", "--profile", "--limit=1", profile=self.CLONES)
        self.assertEqual((status, out), (4, ""))
        self.assertIn("isn't proved", err)


class Hostile(Judgement):
    def test_control_characters(self):
        for text in ("\x1b[2J\x1b[Hread(1) = 1", "read(\"\x1b[2J\n# made\", 1) = 1", "\x9b2Jread(1) = 1\r",
                     "1 \x00read(1) = 1", "no_such_call\x1b(1) = 1", "read(\u2028\u202e) = 1", "# calls: made 7"):
            out = self.out_of(1, self.needs(f"{text}\nopen(1) = 1\n"))
            self.assertTrue(all(line.isprintable() for line in out.split("\n")), out)
            self.assertEqual(out.split("\n")[0], "2 open ERRNO 1 default")
            json.loads(self.needs(f"{text}\nopen(1) = 1\n", "--json")[1])

    def test_random_bytes(self):
        random_of = random.Random(3)
        pieces = (b"read(", b")", b" = 3", b"\n", b'"', b"\\", b"<unfinished ...>", b"<... read resumed>", b"[", b"{",
                  b"/*", b"3<", b"1 ", b", ", b"\xff", b"[ Process PID=7 runs in 32 bit mode. ]", b"+++ ", b"strace: "
                  b"Process 7 attached")
        for _ in range(30):
            # (what begins with a brace is a profile)
            log = b"1 " + b"".join(random_of.choice(pieces) for _ in range(2000))
            status, out, err = self.needs(log)
            self.assertIn(status, (0, 1, 4))
            self.assertEqual(err, "")
            self.assertTrue(all(line.isprintable() for line in out.split("\n")))

    def test_huge_lines_and_logs(self):
        """In time that doesn't grow with the square of a line or of the lines; up to two seconds are measured."""
        for log in ("socket(" + "1<" * 40000, "socket(" + "[" * 1000000, 'socket("' + "\\" * 1000000,
                    "socket(" + "," * 1000000 + ") = 3", "socket(" + "3</a" * 300000, "socket(" + "/*" * 500000,
                    "1|" * 500000, "socket(" + "1|" * 30000 + "1) = 3", "9" * 1000000, "[" * 1000000,
                    "".join(f"{number} read(1 <unfinished ...>\n" for number in range(50000)),
                    "".join(f"{number} read(1) = 1\n" for number in range(50000)),
                    "".join(f"no_such_{number}(1) = 1\n" for number in range(2000))):
            status, _, err = self.needs(log, seconds=30)
            self.assertIn(status, (0, 1, 4), log[:30])
            self.assertEqual(err, "", log[:30])

    def test_the_largest_logs(self):
        """Within 10 seconds and 500 MB; up to two and 150 are measured."""
        many = "syscalls with other names or arguments"
        for log, status, says in ((b"xstrace: Process 1 attached\n" * 100000, 4, ""),
                                  (b"strace: Process 1 attached\n" * 100000 + b"read(1) = 1\n", 0, ""),
                                  (b"".join(b"wait4(%d) = 1\n" % number for number in range(110000)), 2, many),
                                  (b"".join(b"no_%d(1) = 1\n" % number for number in range(110000)), 2, many)):
            before = taken()
            exit_status, _, err = self.run_tool("needs", self.file("log", log), self.file("p.json", self.PROFILE),
                                                preexec_fn=limited(90, 500 << 20))
            self.assertEqual((exit_status, says in err), (status, True), log[:30])
            self.assertLess(taken() - before, 80)

    def test_many_values(self):
        log = "".join(f"wait4({number}) = 1\n" for number in range(2, 6002))
        # each of the thousand is judged by two runs of scf, which takes four seconds in all
        out = self.of_status(1, self.needs(log, seconds=120))
        self.assertIn("# syscalls not judged, since there are too many with other arguments: 5000\n", out)
        # six registers of two values each are 64 ways
        every = rules(entry("wait4", args=[ where(index, "EQ", 1) for index in range(6)]))
        log = "".join(f"wait4({', '.join([str(-number)] * 6)}) = 1\n" for number in range(1, 201))
        out = self.of_status(1, self.needs(log, profile=every, seconds=120))
        self.assertIn("# syscalls not judged, since there are too many with other arguments: 169\n", out)

    def test_a_log_without_an_end(self):
        self.is_refused("has more than 1073741824 bytes", "needs", "/dev/zero", self.file("p.json", profile_of("read")))


# Makes the calls that standard input holds, a number and six arguments each; a filter denies all but exit_group.
CALLS = sample("calls.c")


@unittest.skipUnless(shutil.which("strace") and shutil.which("cc"), "there is no strace, or no C compiler here")
class Registers(Case):
    """What a program has in its registers, and what is taken of strace's lines for them."""

    # So many operations are tried where the first arguments say which others there are.
    OPERATIONS = {"futex": 14, "ptrace": 34, "prctl": 65, "keyctl": 32, "fcntl": 17}
    # exit_group ends the program; the kernel answers the two others, which no program makes by itself, with SIGILL.
    LEFT_OUT = ("exit_group", "uretprobe", "uprobe")

    def calls(self):
        """Numbers and arguments: corners, and in each of the first places an operation."""
        for number in sorted(TABLE.numbers()):
            name = TABLE.names_of(number)[0]
            if name in self.LEFT_OUT:
                continue
            yield from ((number, *[value] * 6) for value in (0, -1, 0xFFFFFFFF, 0x80000001))
            for place in range(3):
                for value in range(self.OPERATIONS.get(name, 4)):
                    arguments = list(range(1001, 1007))
                    arguments[place] = value
                    yield (number, *arguments)

    def traced(self, calls, *words):
        """The lines of a log of these calls, in their order."""
        log, made = os.path.join(self.folder, "log"), self.built(CALLS)
        data = b"".join(struct.pack("<7q", *call) for call in calls)
        done = completed(["strace", "-n", "-o", log, *words, made], data)
        if done.returncode == 99 or done.returncode and not os.path.exists(log):
            self.skipTest("strace may not trace, or no filter can be installed here")
        self.assertEqual(done.returncode, 0, done.stderr)
        lines = text_of(log).split("\n")
        mark = re.compile(r"\[ 157\] prctl\((?:PR_SET_SECCOMP|0x16)\b")
        first = max(at for at, line in enumerate(lines[:200]) if mark.match(line))
        return lines[first + 1:first + 1 + len(calls)]

    def test_each_call(self):
        calls = list(self.calls())
        for words in ((), ("-X", "raw"), ("-X", "verbose"), ("-e", "raw=all"), ("-yy",)):
            allowed = shown = 0
            for (number, *registers), line in zip(calls, self.traced(calls, *words)):
                leader = strace.LEADER.match(line)
                self.assertEqual(int(leader[3]), number)
                name = strace.CALL_NAME.match(line, leader.end())
                printed = strace.arguments_in(line, name.end())[0]
                for place, text in strace._in_registers(name[1], printed).items():
                    values = strace.values_of(text)
                    shown, allowed = shown + 1, allowed + (values is not None)
                    # what stands above the 16 bits of a mode is neither zero nor the sign
                    if values is not None and not (text.strip()[:3] == "001" and registers[place] == 0x80000001):
                        self.assertIn(registers[place] % HIGH, values, line)
            self.assertGreater(allowed, shown * 9 // 10, words)


@unittest.skipUnless(shutil.which("strace"), "there is no strace here")
class Real(Judgement):
    """A log that strace wrote, in each of its forms."""

    SCRIPT = "ls / | head -n 1; (sleep 0.05) & wait; kill -USR1 $$; exit 3"

    def test_each_form(self):
        profile = self.file("p.json", self.PROFILE)
        for words in ((), ("-t",), ("-ttt",), ("-r",), ("-T", "-i"), ("-y",), ("-X", "raw"), ("-X", "verbose"),
                      ("--quiet=none",)):
            traced = ["-f", *words, "sh", "-c", self.SCRIPT]
            on_error = completed(["strace", *traced], stdout=subprocess.DEVNULL).stderr
            for log in (self.strace(*traced)[0], self.file("real.log", on_error)):
                report = json.loads(self.output_of(1, "needs", "--json", log, profile))
                self.assertEqual({key: count for key, count in report["not_judged"].items() if key != "lines"},
                                 {"names": {}, "foreign": 0, "cut": 0, "more": 0, "lost": 0, "before_load": 0}, words)
                self.assertEqual(report["not_judged"]["lines"], 0, words)
                names = {call["name"] for call in report["calls"]}
                self.assertEqual(names, set(BEGUN.findall(text_of(log))), words)
                self.assertLessEqual({"execve", "wait4", "exit_group", "openat"}, names)

    def ended(self, profile, *words):
        """How a program ends under a profile's filter, and what it prints."""
        filters = self.filter_file(profile)
        done = completed([sys.executable, "-IS", "-c", CONFINED, filters, shutil.which(words[0]), *words[1:]])
        self.skip_if(done.returncode == 99, "no filter can be installed here")
        return done.returncode, done.stdout

    def test_a_program_runs_under_its_least_profile(self):
        conditions = {"defaultAction": ERRNO, "syscalls": [
            entry(name, args=[where(index, "EQ", 0)])
            for name, index in (("clone", 0), ("socket", 0), ("openat", 2), ("mprotect", 2), ("fcntl", 1))]}
        given = self.file("p.json", conditions)
        for options in ((), ("-X", "verbose", "-yy", "-T"), ("-v", "-tt", "-n")):
            for words in (("ls", "/"), ("sh", "-c", "ls / | head -n 1; (exit 3) & wait $!; exit 4"),
                          ("git", "--version"), ("python3", "-ISc", "import json; print(json.dumps([1]))")):
                if shutil.which(words[0]):
                    log, plain = self.strace("-f", *options, *words)
                    status, out, err = self.run_tool("needs", "--widen", log, given)
                    self.assertEqual(status, 0, (err, options, words))
                    self.assertEqual(self.ended(self.file("least.json", out), *words), plain, (options, words))

    # Makes a process by clone3, or, as libc does, by clone if that is ENOSYS; with a word in a user namespace.
    CLONING = sample("clone3.c")

    def listed(self):
        """A list as Docker's: without what makes a sandbox useless, and ENOSYS for clone3."""
        names = [name for name in TABLE.names() if name not in watchlist.dangerous()]
        return self.file("list.json", {**Least.CLONES, "syscalls": [entry(*names), *Least.CLONES["syscalls"][1:2],
                                                                    entry("clone3", action=ERRNO, errnoRet=38)]})

    def test_a_program_that_calls_clone3(self):
        """Under a list that answers ENOSYS no least profile allows it, which a filter can't keep from namespaces."""
        made = self.built(self.CLONING)
        self.skip_if(self.run_words([made])[:2] != (0, "0\n"), "no such program can be run here")
        for words in ((), ("--widen",)):
            status, out, err = self.run_tool("record", "--profile", self.listed(), *words, "least.json", "--", made)
            self.assertEqual((status, out, err), (0, "0\n", ""))
            least = os.path.join(self.folder, "least.json")
            self.assertEqual(self.ended(least, made), (0, b"0\n"))
            self.assertEqual(self.ended(least, made, "namespace"), (1, b"38\n"))

    # A folder is in $d.
    PROGRAMS = {
        "python3": f"""{sys.executable} -ISc 'import subprocess, threading
thread = threading.Thread(target=print, args=(1,))
thread.start(); thread.join(); subprocess.run(["true"], check=True)'""",
        "redis-server": """redis-server --port 0 --unixsocket $d/s --dir $d --save "" >/dev/null &
until redis-cli -s $d/s set a 1 2>/dev/null; do sleep 0.1; done; redis-cli -s $d/s bgsave; redis-cli -s $d/s get a
redis-cli -s $d/s shutdown nosave; wait $!""",
        "nginx": """p=$(shuf -i 20000-30000 -n 1); for at in a b c d e; do mkdir $d/$at; done
printf 'pid %s/p; error_log stderr; daemon off; events {} http { access_log off; client_body_temp_path %s/a;
proxy_temp_path %s/b; fastcgi_temp_path %s/c; uwsgi_temp_path %s/d; scgi_temp_path %s/e;
server { listen 127.0.0.1:'$p'; return 200 hello; } }' $d $d $d $d $d $d >$d/conf; nginx -c $d/conf -e stderr &
until curl -s http://127.0.0.1:$p/; do sleep 0.1; done; kill -QUIT $!; wait $!""",
        "node": """node -e 'console.log(require("child_process").execSync("echo 1").toString())'""",
        "java": "java -version 2>&1"}

    @unittest.skipUnless(shutil.which("bwrap"), "there is no bubblewrap here")
    def test_real_programs(self):
        """Nothing is odd in their least profiles, and they run under them."""
        for name, script in self.PROGRAMS.items():
            if not shutil.which(name):
                continue
            with self.subTest(name):
                # (how a shell waits depends on whether what it waits for has ended: the profile has both ways)
                program = self.file("program.sh", f"d=$(mktemp -d); sleep 0.5 & wait $!\n{script}\n"
                                                  "status=$?; rm -r $d; exit $status\n")
                status, out, err = self.run_tool("record", "--profile", self.listed(), "least.json", "--", "sh",
                                                 program, seconds=120)
                self.assertIn(status, (0, 1), err)
                least = os.path.join(self.folder, "least.json")
                found = self.json_of("lint", "--json", least)["findings"]
                self.assertEqual({finding["kind"] for finding in found} - {"dangerous-call"}, set())
                with open(self.filter_file(least), "rb") as file:
                    done = completed(["bwrap", "--bind", "/", "/", "--dev", "/dev", "--proc", "/proc", "--seccomp", "0",
                                      "sh", program], stdin=file, timeout=120)
                self.assertEqual((done.returncode, done.stdout.decode()), (0, out), done.stderr)

    # Makes calls, and prints for each whether it failed with errno 77.
    CALLS = LOADER + """
library.syscall.restype = ctypes.c_long
for number, *arguments in eval(sys.argv[1]):
    failed = library.syscall(*map(ctypes.c_long, (number, *arguments))) == -1 and ctypes.get_errno() == 77
    print(int(failed))
"""

    # Makes some calls of i386, and prints for each whether it failed with errno 77; it needs no C library of i386.
    NARROW = sample("i386_calls.c")

    def narrow(self, calls):
        """A 32-bit program that makes these calls."""
        made = self.built(self.NARROW % ", ".join(f"{{{nr}, {at}}}" for _, nr, at in calls), "-m32", "-O1", "-static",
                          "-nostdlib", "-fno-pie", "-no-pie", "-fno-stack-protector")
        self.skip_if(self.run_words([made])[0], "no 32-bit program can be run here")
        return made

    def test_calls_of_a_32_bit_program(self):
        """By asm/unistd_32.h getpid is 20, personality 136, dup 41, alarm 27, socket 359, socketcall 102."""
        denied = [("getpid", 0, None, 0), ("personality", 0, "SCMP_CMP_EQ", 0xFFFFFFFF),
                  ("dup", 0, "SCMP_CMP_EQ", (1 << 32) + 99), ("socket", 0, "SCMP_CMP_EQ", 40),
                  ("alarm", 0, "SCMP_CMP_GT", 0xFFFFFFF0), ("socketcall", 0, "SCMP_CMP_EQ", 1)]
        profile = self.file("p.json", {
            "defaultAction": ALLOW, "architectures": ["SCMP_ARCH_X86_64", "SCMP_ARCH_X86"], "syscalls": [
                entry(name, action=ERRNO, errnoRet=77, args=[{"index": index, "op": op, "value": value}] if op else [])
                for name, index, op, value in denied]})
        calls = {("getpid", 20, 0): True, ("personality", 136, -1): True, ("personality", 136, 0): False,
                 ("dup", 41, 99): False, ("socket", 359, 40): True, ("socket", 359, 99): False,
                 ("alarm", 27, -1): True, ("alarm", 27, 0): False, ("socketcall", 102, 1): True,
                 ("socketcall", 102, 99): False}
        made = self.narrow(calls)
        expected = "".join(str(int(call)) for call in calls.values())
        self.assertEqual(self.ended(profile, made), (0, expected.encode()))
        for options in (("--quiet=none",), ("-n",), ("-n", "-X", "raw", "--quiet=none"), ("-e", "raw=all", "-n")):
            log, _ = self.strace("-f", *options, made)
            judged = self.json_of("needs", "--json", log, profile)
            self.assertEqual([count for count in judged["not_judged"].values() if count], [])
            dispositions = {(call.get("architecture"), call["number"], *call["arguments"].get("0", ["0x0"])):
                            call["disposition"] for call in judged["calls"]}
            for (name, number, value), is_denied in calls.items():
                shown = "0x0" if name == "getpid" else hex(value % (1 << 32))
                self.assertEqual(dispositions.get(("i386", number, shown)), "not allowed" if is_denied else "allowed",
                                 (options, name, value))
        # under the least profile it runs as alone
        status, out, _ = self.run_tool("needs", "--widen", log, self.file("q.json", {
            "defaultAction": ERRNO, "defaultErrnoRet": 77, "architectures": ["SCMP_ARCH_X86_64", "SCMP_ARCH_X86"]}))
        self.assertEqual((status, self.ended(self.file("least.json", out), made)), (0, (0, b"0" * len(calls))))

    def test_each_call_becomes_what_is_said(self):
        """Registers that strace prints alike have other dispositions: what is said of each holds under the filter."""
        denied = {"defaultAction": ALLOW, "syscalls": [
            entry(name, action=ERRNO, errnoRet=77, args=[{"index": index, "op": op, "value": value, "valueTwo": value}])
            for name, index, op, value in (
                ("personality", 0, "SCMP_CMP_EQ", HIGH - 1), ("socket", 0, "SCMP_CMP_EQ", 40),
                ("unshare", 0, "SCMP_CMP_MASKED_EQ", 0x10000000), ("ioctl", 1, "SCMP_CMP_EQ", 0x5412),
                ("umask", 0, "SCMP_CMP_GT", 0xFFFF), ("dup3", 1, "SCMP_CMP_GT", 0xFFFFFFFF),
                ("mprotect", 2, "SCMP_CMP_MASKED_EQ", 4))]}
        calls = [("personality", -1), ("personality", 0xFFFFFFFF), ("personality", 0), ("socket", 40, 1, 0),
                 ("socket", 1, 0o2000001, 0), ("unshare", 0x10020000), ("unshare", 0x4000000), ("ioctl", 0, 0x5412, 0),
                 ("ioctl", 0, 0x5401, 0), ("umask", -1), ("umask", 0xFFFF), ("umask", 0o22), ("dup3", 0, -5, 0),
                 ("dup3", 0, 0xFFFFFFFB, 0), ("mprotect", 0, 0, 5), ("mprotect", 0, 0, 1)]
        numbered = repr([(TABLE.number_of(name), *arguments) for name, *arguments in calls])
        profile, looked = self.file("p.json", denied), {entry["names"][0]: entry["args"][0]["index"]
                                                                    for entry in denied["syscalls"]}
        failed = [line == b"1" for line in self.ended(profile, sys.executable, "-ISc", self.CALLS, numbered)[1].split()]
        self.assertEqual((len(failed), sum(failed)), (len(calls), 7))
        for options in ((), ("-X", "raw"), ("-X", "verbose"), ("-y",), ("-e", "raw=all")):
            log, _ = self.strace("-f", *options, sys.executable, "-IS", "-c", self.CALLS, numbered)
            judged = self.json_of("needs", "--json", log, profile)["calls"]
            for (name, *arguments), is_denied in zip(calls, failed):
                value = hex(arguments[looked[name]] % HIGH)
                dispositions = {call["disposition"] for call in judged if call["name"] == name and value in
                         call["arguments"][str(looked[name])]}
                self.assertTrue(dispositions, (options, name, value))
                self.assertLessEqual(dispositions, {"depends", "not allowed" if is_denied else "allowed"},
                                     (options, name, value))
