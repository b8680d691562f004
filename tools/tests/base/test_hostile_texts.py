"""Texts made to hurt the tools' own readers: each ends soon and in little memory, whatever it says of them.

Each text has a quarter of a mebibyte, or as many bytes as its reader takes: brackets that never close, comments without
an end, blanks and digits without number, what a pattern could be tried on at each of its letters. What grows with the
square of such a length takes minutes.
"""
import os
import resource
import struct

from support.common import ALLOW, CORE, TOP, completed, profile_of, ret, text_of, tool
from support.measured import MeasuredCase

PROGRAM = "crates/scf/out/scf"
# Seconds of a processor and megabytes that a tool and all that it runs may take.
SECONDS, MEGABYTES = 10, 300
LENGTH, LONGEST_LINE, LONGEST_PROFILE = 1 << 18, 1 << 16, 1 << 22
# How many logs are one, so that not each takes the start of a tool.
LOGS_AT_ONCE = 4
ALLOWS = b'{"defaultAction":"SCMP_ACT_ALLOW","syscalls":[%s]}'
# A profile whose conditions make `needs` look at the arguments of some syscalls.
ASKS = (b'{"defaultAction":"SCMP_ACT_ERRNO","syscalls":[{"names":["socket","openat"],"action":"SCMP_ACT_ALLOW",'
        b'"args":[{"index":0,"value":1,"op":"SCMP_CMP_EQ"}]}]}')


def repeated(piece, length=LENGTH, before=b"", behind=b""):
    """A piece again and again, up to a length, between two others."""
    count = max(length - len(before) - len(behind), 0) // len(piece)
    return before + piece * count + behind


def lines(piece, before=b"", behind=b""):
    """Lines as long as is read of them, each of a piece again and again between two others."""
    return b"\n".join([repeated(piece, LONGEST_LINE, before, behind)] * (LENGTH // LONGEST_LINE)) + b"\n"


FILTERS = {
    "a dump without an end": b"00000000: " + b"a" * 100,
    "a long dump without an end": repeated(b"a", before=b"00000000: "),
    "a dump of one byte a line": b"".join(b"%08x: 20   \n" % at for at in range(70000)),
    "a dump with bars": repeated(b"20 ", before=b"00000000  ", behind=b"|"),
    "escapes": repeated(b"\\x20", before=b'"', behind=b'"'),
    "escapes with a fault": repeated(b"\\x20", before=b'"', behind=b"g"),
    "digits": repeated(b"1", behind=b"\n"),
    "an odd number of digits": repeated(b"1", behind=b"\n1"),
    "decimals": repeated(b"1 2 3 4\n"),
    "a decimal a line": repeated(b"12\n"),
    "commas": repeated(b","),
    "comments in an array": repeated(b"/*a", before=b"{0"),
    "comments in an instruction": repeated(b"/*a", before=b"{0,0,0,", behind=b"}"),
    "short comments": repeated(b"/**/", behind=b"{6,0,0,0}"),
    "comments of a line": repeated(b"//\n", behind=b"{6,0,0,0}"),
    "rows": repeated(b"{0x06,0,0,0x7fff0000},\n"),
    "instructions in braces": repeated(b"{ 0,"),
    "macros": repeated(b"BPF_STMT(0,0),"),
    "macros in each other": repeated(b"BPF_STMT("),
    "a macro that doesn't end": repeated(b"))", before=b"BPF_STMT("),
    "bytes": repeated(b"0x06,"),
    "brackets": repeated(b"(", before=b"{0,0,0,"),
    "casts": repeated(b"(int ", before=b"{0,0,0,", behind=b"}"),
    "one cast": repeated(b"int ", before=b"{0,0,0,(", behind=b"}"),
    "offsets": repeated(b"offsetof(struct ", before=b"{0,0,0,", behind=b"}"),
    "sums": repeated(b"1+", before=b"{0,0,0,", behind=b"1}"),
    "a name": repeated(b"a", before=b"{0,0,0,", behind=b"}"),
    "a declaration": repeated(b" ", before=b"a", behind=b"["),
    "words behind an array": repeated(b"a ", before=b"int a[] = {0};", behind=b"x"),
    "includes": repeated(b"#include <a>\n", behind=b"{6,0,0,0}"),
    "braces": repeated(b"{ "),
    "labels": repeated(b"a:"),
    "labels with blanks": repeated(b"a   :"),
    "empty statements": repeated(b";", behind=b"ret"),
    "comments of an assembler": repeated(b"//\n", behind=b"ret"),
    "instructions of an assembler": repeated(b"ld [0]\n"),
    "blanks": repeated(b" ", behind=b"x"),
    "a word": repeated(b"_"),
    "a listing": repeated(b" ", behind=b"0  ld"),
    "JSON that isn't": repeated(b" ", before=b"{"),
    "more than a text may have": repeated(b"1 ", 3 << 20),
}
# What stands before and behind the items of a list that nothing reads.
BESIDE_ITEMS = b'{"defaultAction":"SCMP_ACT_ALLOW","x":[', b"0]}"
PROFILES = {
    "objects": repeated(b'{"":0},', LONGEST_PROFILE, *BESIDE_ITEMS),
    "lists": repeated(b"[],", LONGEST_PROFILE, *BESIDE_ITEMS),
    "members": repeated(b'"a":1,', LENGTH, b'{"defaultAction":"SCMP_ACT_ALLOW",', b'"x":1}'),
    "numbers that end nowhere": repeated(b"0,", LENGTH, b"["),
    "strings": repeated(b'"\\u0041",', LENGTH, b"[", b'"\\ud800"]'),
    "a string of escapes": repeated(b"\\n", LENGTH, b'["', b'", NaN]'),
    "a string of quotes": repeated(b'\\"', LENGTH, b'["', b'",]'),
    "lines before a surrogate": repeated(b"0,\n", LENGTH, b"[", b'"\\ud800"]'),
    "values below a long name": repeated(b"0,", LENGTH, b'{"' + b"a" * (LENGTH // 2) + b'":['),
    "values before NaN": repeated(b"0,", LENGTH, b"[", b"NaN]"),
    "brackets": repeated(b"[", LENGTH),
    "values in brackets": repeated(b"0,", LENGTH, b"[" * 126),
    "digits": repeated(b"1", LENGTH, b'{"defaultAction":"SCMP_ACT_ALLOW","x":', b"}"),
    "comments": repeated(b"/*", LENGTH, b"["),
    "members that nothing reads": ALLOWS % b"".join((b'{"names":["read"],"action":"SCMP_ACT_LOG",', b",".join(
        b'"a%06x":1' % at for at in range(100000)), b"}")),
    "blanks": repeated(b" ", LENGTH, b"{"),
    "a YAML of a list": repeated(b"a,", LENGTH // 4, b"apiVersion: a\nkind: SeccompProfile\nspec:\n  a: [", b"]"),
    "a YAML of objects": repeated(b"{a: b},", LENGTH, b"apiVersion: a\nkind: SeccompProfile\nspec:\n  a: [", b"]"),
    "a YAML that is too long": repeated(b"a: b\n", LONGEST_PROFILE, b"apiVersion: a\nkind: SeccompProfile\n"),
    "an object of Kubernetes": repeated(b'{"":0},', LONGEST_PROFILE,
                                        b'{"apiVersion":"a","kind":"SeccompProfile","spec":{"x":[', b"0]}}"),
    "an LXC policy of one line": repeated(b"[", LENGTH, b"2\ndenylist\n"),
    "rules of LXC": repeated(b"mknod errno 1\n", LENGTH, b"2\ndenylist\n"),
    "sections of LXC": repeated(b"[arm]\n", 90000, b"2\ndenylist\n"),
    "conditions of LXC": repeated(b"[0,1,==]", 30000, b"2\ndenylist\nread errno 1 "),
    "numbers of LXC": repeated(b"0\n", 1 << 15, b"1\nallowlist\n"),
    "NULs behind a policy": repeated(b"\0", LENGTH, b"2\ndenylist\n"),
    "comments before a snap's directive": repeated(b"#\n\n", LENGTH, b"", b"@complain"),
    "blank lines": repeated(b"\n", LENGTH, b"", b"#"),
    "syscalls of a snap": repeated(b"read 1\n", LENGTH, b"@complain\n"),
    "arguments of a snap": repeated(b" -", LENGTH, b"@complain\nread"),
    "a firejail list of one line": repeated(b"a,", LENGTH, b"seccomp.drop "),
    "a firejail list": repeated(b"read,", 30000, b"seccomp.drop "),
    "lines that firejail ignores": repeated(b"ignore a b c\nseccomp a b\n", LENGTH),
    "files that firejail includes": repeated(b"include disable-common.inc\n", LENGTH, b"seccomp\n"),
    "what docker inspect prints": repeated(b'"Id":  ', LENGTH, b'[{"HostConfig"', b"}]"),
}
AUDIT = b"type=SECCOMP msg=audit(1.000:1): "
SYSCALL = b"type=SYSCALL msg=audit(1.000:1): "
LOGS = {
    "a call without an end": lines(b'"', b"socket("),
    "escapes": lines(b"\\n", b'socket("'),
    "descriptors": lines(b"3<a", b"socket("),
    "sockets": lines(b'3<TCP:["', b"socket("),
    "objects": lines(b'<a:["]', b"socket(3"),
    "comments": lines(b"/*", b"socket(1 "),
    "values": lines(b"1|", b"socket(", b"1) = 0"),
    "brackets": lines(b"[", b"socket("),
    "digits": lines(b"1"),
    "blanks": lines(b" ", b"1 ", b"x"),
    "names of arguments": lines(b"a", b"clone(", b") = 0"),
    "an audit record of calls": lines(b" arch=c000003e syscall=1 success=no exit=", SYSCALL),
    "an audit record of arguments": lines(b" arch=c000003e syscall=1 a0=1 a1=1 a2=1", SYSCALL),
    "an audit record of ends": lines(b" sig=0 arch=c000003e syscall=1 compat=0 ip=0", AUDIT),
    "an audit record of processes": lines(b' pid=1 comm="', AUDIT),
    "an audit record of one word": lines(b"a", AUDIT + b" sig="),
    "types of records": lines(b" type="),
    "what perf trace prints": lines(b" ", b"0.017 (", b"x): "),
    "perf's times": lines(b"1", b"0.", b" ( 0.002 ms): "),
    "perf's counts": lines(b"1 ", b" read ", b"%"),
    "entries of raw syscalls": lines(b"sys_enter: NR 1 (1, 1, "),
    "a map of bpftrace": lines(b"@[1"),
    "sysdig's lines": lines(b" (1", b"7 05:35:00.123456789 0 ls", b") "),
    "lost messages": lines(b"audit: kauditd_printk_skb: "),
    "signals": lines(b"si_", b"--- SIGSYS {", b"} ---"),
    "many signals": repeated(b"--- SIGSYS {%s} ---\n" % (b"si_" * 300)),
    "many calls": b"".join(b"openat(%d, 0) = 0\n" % at for at in range(60000)),
    "many processes": b"".join(b"%d openat(1 <unfinished ...>\n" % at for at in range(40000)),
}
LOG_OF_A_PROFILE = repeated(b'{"":0},', before=b'{"syscalls":[', behind=b"0]}")
HEADERS = {
    "comments": repeated(b"/*a", before=b"#define __NR_read 0\n"),
    "definitions": repeated(b"#define __NR_a\t", behind=b"\n"),
    "blanks": repeated(b" ", before=b"#define", behind=b"\n"),
    "blank lines": repeated(b" \n"),
    "a name": repeated(b"a", before=b"#define __NR_", behind=b" 1\n"),
    "digits": repeated(b"1", before=b"#define __NR_a ", behind=b"\n"),
    "sums": repeated(b" ", before=b"#define __NR_a (a +", behind=b"\n"),
    "many": b"".join(b"#define __NR_a%d %d\n" % (at, at) for at in range(40000)),
    "a table": repeated(b" ", before=b"0 common", behind=b"read\n"),
    "rows of a table": b"".join(b"%d common a%d sys\n" % (at, at) for at in range(40000)),
}
TABLES = {
    "zeros": repeated(b"0", LONGEST_PROFILE, b"read ", b"\n"),
    "blanks": repeated(b" ", LONGEST_PROFILE, b"read", b"1\n"),
    "a name": repeated(b"a", LONGEST_PROFILE, b"", b" 1\n"),
}


def core(count):
    """A core of x86-64 of so many program headers, each of the same notes (elf(5))."""
    notes = struct.pack("<III", 0, 0, 77) * 5000
    header = b"\x7fELF\2\1\1" + bytes(9) + struct.pack("<HHI", 4, 62, 1) + struct.pack("<QQQIHHH", 0, 64, 0, 0, 64, 56,
                                                                                      count) + bytes(6)
    segment = struct.pack("<IIQQQQQQ", 4, 0, 64 + 56 * count, 0, 0, len(notes), 0, 0)
    return header + segment * count + notes


CORES = {"many headers": core(60000), "no note": core(1), "zeros": b"\x7fELF" + bytes(LENGTH)}


class Texts(MeasuredCase):
    LIMITS = ((resource.RLIMIT_CPU, 2 * SECONDS),)

    def ends(self, what, *words, given=None):
        """It ends soon and in little memory, with a status of its own, and says what it doesn't take."""
        done = self.measured(words, given or os.devnull)
        with self.subTest(what, tool=os.path.basename(words[0])):
            self.assertNotIn(b"Traceback", done.err, done.err[-300:])
            self.assertIn(done.status, (0, 1, 2, 3, 4), done.err[-300:])
            self.assertLess(done.seconds, SECONDS)
            self.assertLess(done.megabytes, MEGABYTES)
        return done.status

    def test_each(self):
        for texts, name, *words in ((FILTERS, "f", tool("check")), (PROFILES, "p.json", tool("ask"), "--nr=0"),
                                    (HEADERS, "unistd.h", tool("call-table")), (CORES, "core", tool("why"), "--core")):
            for what, text in texts.items():
                self.ends(what, *words, self.file(name, text))

    def test_every_reader_of_filters(self):
        name, allows = self.file("f", FILTERS["a dump without an end"]), self.file("p.json", ALLOWS % b"")
        for words in (("list",), ("decide",), ("run",), ("surface",), ("profile-of",), ("diff", name),
                      ("compare", allows)):
            self.ends("a dump without an end", tool(words[0]), name, *words[1:])

    def test_every_reader_of_profiles(self):
        """With objects that scf has memory for, so that each reads on."""
        allows, second = self.file("f.bpf", ret(ALLOW)), self.file("other.json", profile_of("read"))
        name = self.file("p.json", repeated(b'{"":0},', LONGEST_PROFILE // 4, *BESIDE_ITEMS))
        for words in (("compile",), ("lint",), ("compare", allows), ("compare-profiles", second),
                      ("resolve-profile", "--caps=none"), ("why", "type=1326 audit(1.000:1): x"),
                      ("needs", self.file("log", b"read() = 0\n"))):
            self.ends("objects", tool(words[0]), *words[1:], name)

    def test_a_bundle_for_the_program(self):
        """What takes more memory than the launcher gives is a fault, and the program alone answers it (FAULTS.md)."""
        text = PROFILES["objects"]
        bundle = self.file("bundle", b"profile %d\n%btable 7\nread 0\n" % (len(text), text))
        self.assertEqual(self.ends("objects", *CORE, "compile", given=bundle), 3)
        self.assertIn(f" or {PROGRAM} on a bundle.", text_of(TOP, "docs", "FAULTS.md"))
        with open(bundle, "rb") as file:
            done = completed([os.path.join(TOP, PROGRAM), "compile"], stdin=file)
        self.assertEqual((done.returncode, len(done.stdout) % 8), (0, 0))

    def test_logs(self):
        asks = self.file("p.json", ASKS)
        names = list(LOGS)
        for few in (names[at:at + LOGS_AT_ONCE] for at in range(0, len(names), LOGS_AT_ONCE)):
            name = self.file("log", b"".join(map(LOGS.get, few)))
            self.ends(few, tool("needs"), name, asks)
            self.ends(few, tool("why"), "-", asks, given=name)
        self.ends("a profile of a log", tool("needs"), self.file("log", LOG_OF_A_PROFILE), asks)

    def test_tables(self):
        allows = self.file("p.json", ALLOWS % b"")
        for what, text in TABLES.items():
            self.ends(what, tool("ask"), "--nr=0", "--table", self.file("t.table", text), allows)

    def test_lists_of_syscalls(self):
        """scf is run for each: so many are answered, and one more is refused."""
        filters = self.file("f.bpf", ret(ALLOW))
        for count, expected in ((2048, 0), (2049, 2), (32000, 2)):
            actual = self.ends(f"{count} syscalls", tool("decide"), "--calls-from", self.file("list", b"1\n" * count),
                               filters)
            self.assertEqual(actual, expected)
