"""Constants by name as arguments, and the tables that have them."""
import errno
import json
import mmap
import os
import re
import resource
import shutil
import signal
import socket
import sys
import unittest

from support.common import ALLOW, EPERM, LOADER, TABLE, TOP, Case, for_developers, jeq, load, ret, rows, text_of
from scftools.model import constants
from scftools.forms import strace

ALL_ONES = (1 << 64) - 1


@unittest.skipUnless(shutil.which("cc"), "there is no C compiler here")
class Headers(Case):
    """tables/arguments.symbols and tables/arguments.unlike."""

    def made(self, *words):
        status, out, err = self.run_words([for_developers("symbol-table"), *words])
        self.skip_if(status == 2 and ("cc: " in err or "aren't there" in err), f"headers are missing: {err}")
        self.assertEqual((status, err), (0, ""))
        return [line.split() for line in out.split("\n") if line and line[0] != "#"]

    def test_it_is_what_the_headers_say(self):
        here, table = dict(self.made()), dict(rows(os.path.join(TOP, "tables", "arguments.symbols")))
        unlike = {name for name in here if name in table and here[name] != table[name]}
        # these grow with each kernel
        self.assertEqual(unlike - {"AF_MAX", "IPPROTO_MAX", "PTRACE_O_MASK", "SCHED_FLAG_ALL"}, set())
        self.assertGreater(len(here.keys() & table.keys()), 1300)

    def test_what_other_architectures_headers_say_otherwise(self):
        here, table = ({(row[0], name) for row in actual for name in row[1:]}
                       for actual in (self.made("--unlike"), rows(os.path.join(TOP, "tables", "arguments.unlike"))))
        self.assertEqual(here, table)

    def test_usage(self):
        self.assertEqual(self.run_words([for_developers("symbol-table"), "a"])[:2], (2, ""))
        self.assertEqual(self.run_words([for_developers("symbol-table"), "--help"])[::2], (0, ""))
        self.assertEqual(self.run_words([sys.executable, for_developers("symbol-table")], env={"PATH": self.folder}),
                         (2, "", "symbol-table: cc can't be run: No such file or directory\n"))


class Arguments(Case):
    """--a0 to --a5, and the arguments of a line of --calls-from."""

    # Texts, and the numbers that the headers of Python's own constants give them.
    TEXTS = (
        ("AF_INET", socket.AF_INET), ("AF_NETLINK", 16), ("SOCK_STREAM|SOCK_CLOEXEC", 1 | socket.SOCK_CLOEXEC),
        ("CLONE_NEWUSER|SIGCHLD", 0x10000000 | signal.SIGCHLD),
        (" PROT_READ | PROT_EXEC ", mmap.PROT_READ | mmap.PROT_EXEC),
        ("SIGCHLD|0x10000000", 0x10000000 | signal.SIGCHLD), ("O_RDWR|O_CREAT", os.O_RDWR | os.O_CREAT),
        ("ENOSYS", errno.ENOSYS), ("RLIMIT_NOFILE", resource.RLIMIT_NOFILE), ("PR_SET_SECCOMP", 22),
        ("TIOCSTI", 0x5412), ("TIOCLINUX", 0x541C), ("PR_SET_NO_NEW_PRIVS", 38), ("CAP_SYS_ADMIN", 21),
        ("PTRACE_SEIZE", 0x4206),
        ("007", 7), ("09", 9), ("-1", ALL_ONES), ("-0x64", ALL_ONES - 99), ("AT_FDCWD", ALL_ONES - 99), ("NULL", 0),
        ("7", 7), ("0x7", 7),
    )

    def setUp(self):
        super().setUp()
        self.any = self.file("any.bpf", ret(ALLOW))

    def call(self, *words):
        number = () if any(word.startswith("--nr") for word in words) else ("--nr=0",)
        return json.loads(self.output_of(0, "decide", "--json", *number, *words, self.any))["calls"][0]["call"]

    def test_names_and_numbers(self):
        for text, number in self.TEXTS:
            self.assertEqual(self.call(f"--a1={text}")["arguments"][1], hex(number), text)
        listed = self.file("calls", "".join(f"read 0 {text.replace(' ', '')}\n" for text, _ in self.TEXTS))
        actual = self.json_of("decide", "--json", "--calls-from", listed, self.any)["calls"]
        self.assertEqual([first["call"]["arguments"][1] for first in actual], [hex(number) for _, number in self.TEXTS])

    def test_each_tool_takes_them(self):
        asks = self.file("f.bpf", load(16) + jeq(socket.AF_NETLINK, 0, 1) + ret(EPERM) + ret(ALLOW))
        profile = self.file("p.json", {"defaultAction": "SCMP_ACT_ALLOW", "syscalls": [
            {"names": ["socket"], "action": "SCMP_ACT_ERRNO",
             "args": [{"index": 0, "value": int(socket.AF_NETLINK), "op": "SCMP_CMP_EQ"}]}]})
        for name, given, shown in (("decide", asks, "ERRNO 1"), ("run", asks, "ERRNO 1"), ("list", asks, ">"),
                                   ("ask", profile, "ERRNO 1 entry 0")):
            out = self.output_of(0, name, "--nr=SYS_socket", "--a0=AF_NETLINK", given)
            self.assertTrue(out.startswith(shown), out)

    def test_what_is_no_constant(self):
        for text, says in (("AF_INETT", "no constant is known by the name 'AF_INETT'; the nearest is AF_INET"),
                           ("clone_newuser", "the nearest is CLONE_NEWUSER"),
                           ("x", "no constant is known by the name 'x'"),
                           ("AF_INET|", "'AF_INET|' is neither a number nor constants joined by |"),
                           ("0644", "0644 is ambiguous: write 0x1a4 for C's octal number, or 644 for the decimal one"),
                           ("O_CREAT|0644", "0644 is ambiguous: write 0x1a4"),
                           ("AF_INET|1x", "neither a number nor constants"),
                           ("-0x8000000000000001", "more than 64 bits"),
                           ("A" * 5000, "no constant is known"), ("\x1b[2J|1", "'\\x1b[2J|1' is neither")):
            status, out, err = self.run_tool("run", "--nr=0", f"--a5={text}", self.any)
            self.assertEqual((status, out), (2, ""), text[:20])
            self.assertIn(says, err)
            self.assertEqual(err.count("\n"), 1)
        for text in ("1x", "0o7", "--1", ""):
            self.begins(2, "fault number a5", self.run_tool("run", "--nr=0", f"--a5={text}", self.any))

    def test_other_architectures(self):
        """i386's registers have 32 bits; O_DIRECT isn't x86-64's on aarch64 (asm/fcntl.h of arm64)."""
        for arch, text, number in (("i386", "-1", 0xFFFFFFFF), ("arm", "AT_FDCWD", 0xFFFFFF9C), ("x32", "-1", ALL_ONES),
                                   ("i386", "O_DIRECT", os.O_DIRECT), ("aarch64", "O_CREAT", os.O_CREAT)):
            self.assertEqual(self.call("--arch", arch, f"--a0={text}")["arguments"][0], hex(number), (arch, text))
        for arch, text, says in (("aarch64", "O_DIRECT", "O_DIRECT isn't the same on aarch64 as on x86-64"),
                                 ("sh", "AF_INET", "constants are known for x86-64, i386, x32, aarch64, arm, riscv64 "
                                                   "and ppc64le: for sh"),
                                 ("ppc64le", "MCL_FUTURE", "isn't the same on ppc64le as on x86-64"),
                                 ("i386", "-0x80000001", "more than 32 bits")):
            self.is_refused(says, "decide", "--nr=0", "--arch", arch, f"--a0={text}", self.any)


# Makes the calls of a list, a line of numbers each, under a filter that refuses each call with a mark in its last
# register; strace shows what they were to be.
MAKER = LOADER + f"load({load(56) + jeq(0x5CF00D, 0, 1) + ret(EPERM) + ret(ALLOW)!r})" + """
def call(numbers):
    return library.syscall(*map(ctypes.c_ulong, numbers), ctypes.c_ulong(0x5CF00D))
if call((39, 0, 0, 0, 0, 0)) != -1:
    sys.exit("the filter isn't there")
for line in open(sys.argv[1]):
    call(map(int, line.split()))
"""
BITS = [1 << number for number in range(32)]


def some_calls():
    """Syscalls by their names, each with five arguments that constants stand for."""
    def first(name, values, *remaining):
        return [(name, value, *remaining, *[0] * (4 - len(remaining))) for value in values]

    yield from first("prctl", range(76))
    yield from first("ptrace", [*range(34), *range(0x4200, 0x4212)])
    yield from first("unshare", BITS)
    yield from first("clone", [*BITS[8:], 0x10000011, 17])
    yield from first("personality", [*range(24), *BITS[16:28], 0xFFFFFFFF])
    yield from first("clock_gettime", range(12))
    yield from first("keyctl", range(34))
    yield from first("bpf", range(36))
    yield from first("arch_prctl", [*range(0x1000, 0x1006), 0x1011, 0x1012])
    yield from first("mlockall", BITS[:4])
    yield from first("memfd_secret", [0])
    for family in range(46):
        yield "socket", family, 1, 0, 0, 0
    for protocol in range(23):
        yield "socket", 16, 3, protocol, 0, 0
    for protocol in (0, 1, 2, 6, 17, 41, 58, 103, 132, 136, 255):
        yield "socket", 2, 0x80002, protocol, 0, 0
    for kind in (*range(1, 11), 0x801, 0x80801, 0xF01):
        yield "socket", 1, kind, 0, 0, 0
    for bit in BITS:
        yield "openat", 0xFFFFFF9C, 0, bit, 0, 0
        yield "mmap", 0, 4096, 1, bit | 2, 0
        yield "mmap", 0, 4096, bit, 2, 0
        yield "mount", 0, 0, 0, bit, 0
        yield "umount2", 0, bit, 0, 0, 0
        yield "memfd_create", 0, bit & 7, 0, 0, 0
        yield "close_range", 0, 0, bit & 6, 0, 0
        yield "getrandom", 0, 0, bit & 7, 0, 0
    for number in range(40):
        yield "fcntl", 0, number, 0, 0, 0
        yield "fcntl", 0, 1024 + number, 0, 0, 0
        yield "futex", 0, number % 14 | (number & 1) << 7, 0, 0, 0
        yield "setrlimit", number, 0, 0, 0, 0
        yield "lseek", 0, 0, number % 6, 0, 0
        yield "flock", 0, number % 9, 0, 0, 0
        yield "epoll_ctl", 0, number % 5, 0, 0, 0
        yield "shutdown", 0, number % 4, 0, 0, 0
        yield "tgkill", 0x7FFFFFF, 0x7FFFFFF, number, 0, 0
        yield "rt_sigprocmask", number % 4, 0, 0, 8, 0
        yield "sched_setscheduler", 0x7FFFFFF, number % 8, 0, 0, 0
        yield "madvise", 0, 0, number, 0, 0
    for number in range(0x5400, 0x5470):
        yield "ioctl", 0, number, 0, 0, 0


class AsC(Case):
    """How a call is shown."""

    def test_examples(self):
        for name, values, shown in (
                ("socket", (16, 0, 9), "socket(AF_NETLINK, 0, NETLINK_AUDIT)"), ("read", (7,), "read(7, NULL, 0)"),
                ("clone", (0x10000000,), "clone(CLONE_NEWUSER, ..)"), ("read", (), "read(..)"),
                ("clone", (0x10000011,), "clone(CLONE_NEWUSER|SIGCHLD, ..)"), ("exit_group", (), "exit_group(0)"),
                ("personality", (0xFFFFFFFF,), "personality(0xffffffff)"), ("getpid", (), "getpid()"),
                ("socket", (0x100000010, 0, 9), "socket(0x100000010, 0, 9)"),
                ("kill", (ALL_ONES, 9), "kill(-1, SIGKILL)"), ("kill", (0xFFFFFFFF, 9), "kill(0xffffffff, SIGKILL)"),
                ("getpid", (0, 0, 0, 0, 0, 1), "syscall(SYS_getpid, 0, 0, 0, 0, 0, 1)"),
                ("my_own", (5,), "syscall(SYS_my_own, 5, ..)"),
                ("prctl", (22, 2), "prctl(PR_SET_SECCOMP, SECCOMP_MODE_FILTER, ..)"),
                ("openat", (ALL_ONES - 99, 0x1000, 0x80000), "openat(AT_FDCWD, 0x1000, O_RDONLY|O_CLOEXEC, 0)")):
            self.assertEqual(constants.call_text(name, (*values, *[0] * (6 - len(values)))), shown)

    def test_what_is_shown_is_taken(self):
        """Each argument that is shown, given to a tool, is the number that it was."""
        for name, *values in some_calls():
            shown = constants.call_text(name, (*values, 0))
            parts = shown[shown.index("(") + 1:-1].split(", ")
            for text, value in zip((part for part in parts if part != ".." and not part.startswith("SYS_")), values):
                taken = int(constants.argument_in(text, "SCMP_ARCH_X86_64"), 0)
                # AT_FDCWD is that of 32 bits, too
                self.assertEqual(taken % (1 << (32 if text == "AT_FDCWD" else 64)), value, shown)

    @unittest.skipUnless(shutil.which("strace"), "there is no strace here")
    def test_strace_names_them_so(self):
        """Where both have names for an argument, they have the same."""
        numbers = dict(rows(TABLE))
        calls = list(some_calls())
        text = "".join(f"{numbers[name]} {' '.join(map(str, values))}\n" for name, *values in calls)
        log, (status, _) = self.strace(sys.executable, "-c", MAKER, self.file("calls", text))
        self.assertEqual(status, 0)
        # the C library's names of two that the kernel's headers call otherwise
        text = re.sub("(PEEK|POKE)USER", r"\1USR", text_of(log)).replace("SCHED_OTHER", "SCHED_NORMAL")
        refused = [line for line in text.split("\n") if line.endswith("= -1 EPERM (Operation not permitted)")]
        self.assertTrue(refused[0].startswith("getpid()"))
        lines = refused[1:]
        self.assertEqual(len(lines), len(calls))
        both, unlike = 0, []
        for (name, *values), line in zip(calls, lines):
            actual = strace.CALL_NAME.match(line)
            self.assertEqual(actual[1], name)
            shown = constants.call_text(name, (*values, 0))
            ours = shown[shown.index("(") + 1:-1].split(", ")
            printed = strace._in_registers(name, strace.arguments_in(line, actual.end())[0])
            for place, text in printed.items():
                text = re.sub(r"(FUTEX_\w+)_PRIVATE", r"\1|FUTEX_PRIVATE_FLAG", re.sub(r"/\*.*?\*/", "", text))
                mine = ours[place] if place < len(ours) else ""
                theirs, our_names = (set(re.findall(r"\b_*[A-Z][A-Z0-9_]+\b", item)) for item in (text, mine))
                # it has two names for an ioctl, and names for bits that these tables haven't
                is_so = our_names <= theirs if " or " in text or "|0x" in mine else our_names == theirs
                if theirs and our_names:
                    both += 1
                    unlike += [] if is_so else [(line, shown)]
        self.assertEqual([], unlike)
        self.assertGreater(both, 500)
