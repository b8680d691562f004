"""Inputs of the tools: each is read to its limit and no further, and whatever it holds, no tool shows a traceback."""
import itertools
import os
import random
import re
import resource
import shutil
import subprocess
import unittest

from support.common import ALLOW, EPERM, TABLE, Case, bytes_of, filter_of, jeq, profile_of, ret, tool
from support.measured import MeasuredCase

# Of a tool that reads an endless input: seconds of a processor, and megabytes. A third of a second is measured on a
# machine that does nothing else; most of it goes to the starts of processes, which may take fifty times as long on one
# that does much else. One that reads on for ever is ended then, or refused more memory than SPACE.
SECONDS, MEGABYTES, SPACE = 60, 128, 2 << 30
FILTER, TEXT = 32768, 4194304


class Measured(MeasuredCase):
    """Tools that are ended if they take too much, or refused it."""

    LIMITS = ((resource.RLIMIT_CPU, SECONDS), (resource.RLIMIT_AS, SPACE))

    def run_measured(self, words, given=os.devnull, most=MEGABYTES):
        """The status, what was printed and what was said by a tool, which ends soon and in little memory."""
        done = self.measured([tool(words[0]), *words[1:]], given)
        err = done.err.decode()
        self.assertNotIn("Traceback", err)
        self.assertLess(done.seconds, SECONDS, words)
        self.assertLess(done.megabytes, most, words)
        return done.status, done.out, err


class Limits(Measured):
    def setUp(self):
        super().setUp()
        self.filter, self.profile = self.file("f.bpf", filter_of([0])), self.file("p.json", profile_of("read"))
        self.huge = self.file("huge", b"")
        os.truncate(self.huge, 10 * 10**9)

    def ends(self, words, status, says):
        """It ends with this status and a text that holds this."""
        actual, out, err = self.run_measured(words)
        self.assertEqual(actual, status, (words, out[:200], err))
        self.assertIn(says, out.decode() + err)

    def test_endless_inputs_of_each_tool(self):
        too_long, table = "fault filter TooLong\n", f"has more than {TEXT} bytes"
        for endless in ("/dev/zero", self.huge):
            for words, status, says in (
                    (("compare", endless, self.profile), 2, too_long),
                    (("compare", self.filter, endless, self.profile), 2, too_long),
                    (("compare", self.filter, endless), 2, "fault beside TooLong\n"),
                    (("compare", "--table", endless, self.filter, self.profile), 2, table),
                    (("decide", "--nr=0", self.filter, endless), 2, too_long),
                    (("decide", "--table", endless, self.filter), 2, table),
                    (("decide", "--calls-from", endless, self.filter), 2, "has more than 65536 bytes"),
                    (("run", "--nr=0", endless), 2, too_long), (("run", "--table", endless, self.filter), 2, table),
                    (("run", "--calls-from", endless, self.filter), 2, "has more than 65536 bytes"),
                    (("check", self.filter, endless), 2, too_long), (("list", endless), 2, too_long),
                    (("list", "--table", endless, self.filter), 2, table),
                    (("compile", endless), 2, "fault profile TooMany\n"),
                    (("compile", "--table", endless, self.profile), 2, table),
                    (("explain", "--table", endless, "same"), 2, table),
                    (("bundle", "filter", endless), 2, f"has more than {FILTER} bytes"),
                    (("surface", endless), 2, too_long), (("surface", "--table", endless, self.filter), 2, table),
                    (("surface", self.filter, "--beside", endless), 2, too_long),
                    (("compare-profiles", self.profile, endless), 2, "fault profile TooLong\n"),
                    (("compare-profiles", "--caps=none", endless, self.profile), 2, table),
                    (("compare-profiles", "--table", endless, self.profile, self.profile), 2, table),
                    (("bundle", "profile", endless), 2, table), (("bundle", "table", endless), 2, table)):
                with self.subTest(words=words):
                    self.ends(words, status, says)

    def test_endless_standard_input(self):
        for words, status in ((("compare", "-", self.profile), 2), (("list", "-"), 2), (("check", "-"), 2),
                              (("compile", "-"), 2), (("check",), 3), (("decide",), 3), (("asm", "-"), 2),
                              (("dis", "-"), 2), (("explain",), 2)):
            self.assertEqual(self.run_measured(words, "/dev/zero")[0], status, words)

    def test_many_long_filters(self):
        """Of more filters than scf reads no more are kept than show it."""
        self.ends(("decide", "--nr=0", *[self.file("long.bpf", bytes(FILTER + 1))] * 1500), 2, "fault input TooLong\n")

    def test_names_as_long_as_a_profile(self):
        long = self.file("long.json", profile_of("read", "r" * (TEXT - 500), *map(str, range(20))))
        self.ends(("compare", "--verbose", self.filter, long), 0, "same\nskipped rrr")

    def test_a_profile_that_is_read_otherwise_than_by_its_words(self):
        """It is told to be too long, and not where it is cut."""
        longer = self.file("longer.json", profile_of("read", "r" * TEXT))
        for reading in ("--runtime=runc", "--runtime=podman", "--caps=none"):
            for words in (("compare", self.filter, longer), ("decide", longer, "read"), ("compile", longer),
                          ("lint", longer)):
                with self.subTest(reading, words=words):
                    self.ends((words[0], reading, *words[1:]), 2, f"the profile '{longer}' has more than {TEXT} bytes")

    def test_the_last_byte_within_the_limits(self):
        whole = ret(ALLOW) * (FILTER // 8)
        self.assertEqual(self.run_tool("check", self.file("whole.bpf", whole)), (0, "accepted 4096\n", ""))
        self.assertTrue(self.run_tool("check", self.file("more.bpf", whole + b"\0"))[1].startswith(
            "fault filter TooLong\n"))
        profile = profile_of("read")
        self.assertEqual(self.run_tool("compare", self.filter, self.file("whole.json",
            profile + b" " * (TEXT - len(profile))))[:2], (0, "same\n"))
        table = bytes_of(TABLE)
        longer = self.file("whole.table", table + b"\n" * (TEXT - len(table)))
        self.assertEqual(self.run_tool("compare", "--table", longer, self.filter, self.profile)[:2], (0, "same\n"))


def filled(head, item_of, tail, size=TEXT // 2):
    """A text of just half the bytes that a profile may have, or of so many: as many items as there is room for."""
    room, status = size - len(head) - len(tail), []
    for at in itertools.count():
        item = item_of(at)
        room -= len(item) + 1
        if room < 0:
            return head + b",".join(status) + tail
        status.append(item)


ALLOWS, DENIES = b'{"defaultAction":"SCMP_ACT_ALLOW",', b'{"defaultAction":"SCMP_ACT_ERRNO",'
# Profiles of awkward shapes, the tools that read them, and what lint prints of each. Empty objects are a whole profile
# long: each was several objects of Python. Of arrays as many would take scf more memory than the tools give it.
SHAPES = {
    "a name of two million line ends": (
        DENIES + b'"syscalls":[{"names":["read","' + b"\\n" * 2000000 + b'"],"action":"SCMP_ACT_ALLOW"}]}',
        ("compile", "lint"), b""),
    "architectures": (
        filled(DENIES + b'"architectures":["SCMP_ARCH_X86_64",', lambda at: b'"SCMP_ARCH_Y%d"' % at, b"]}"),
        ("compile", "lint"), rb"\nwarning unknown-architecture: and [0-9]+ more\n"),
    "members": (filled(ALLOWS, lambda at: b'"%x":1' % at, b"}"), ("lint",),
                rb"\nerror unread-member: and [0-9]+ more\n"),
    "objects": (filled(ALLOWS + b'"x":[', lambda at: b"{}", b"]}", TEXT), ("lint",), b""),
    "names that no syscall has": (
        filled(DENIES + b'"syscalls":[', lambda at: b'{"names":["x%d"],"action":"SCMP_ACT_LOG"}' % at, b"]}"),
        ("lint",), rb"\nwarning unknown-name: and [0-9]+ more\n"),
    "arrays as deep as may be": (filled(ALLOWS + b'"x":[', lambda at: b"[" * 120 + b"]" * 120, b"]}"), ("lint",), b""),
}


class Profiles(Measured):
    """Profiles at the limit, or half as long: the tools end soon, and within 300 megabytes or 200."""

    # (240 and 150 are measured, in 4 seconds of a processor)
    MEGABYTES, OF_HALF = 300, 200

    def test_shapes(self):
        for what, (text, names, says) in SHAPES.items():
            path = self.file("p.json", text)
            self.assertLessEqual(len(text), TEXT)
            for name in names:
                with self.subTest(what, tool=name):
                    most = self.OF_HALF if len(text) <= TEXT // 2 else self.MEGABYTES
                    status, out, err = self.run_measured((name, path), most=most)
                    self.assertIn(status, (0, 1), (out[:200], err[:200]))
                    self.assertTrue(name != "lint" or re.search(says, out))

    def test_more_objects_than_scf_has_memory_for(self):
        """The tools give scf 256 MiB; it says that this isn't enough, and nothing of the profile."""
        path = self.file("p.json", filled(ALLOWS + b'"x":[', lambda at: b'{"":0}', b"]}", TEXT))
        status, out, err = self.run_measured(("compile", path), most=self.MEGABYTES)
        self.assertEqual((status, out), (2, b""), err[:200])
        self.assertIn("fault profile Memory\n", err)


class Words(Case):
    """Names of files, and which of them may be `-`."""

    def setUp(self):
        super().setUp()
        self.filter, self.profile = self.file("f.bpf", filter_of([0])), self.file("p.json", profile_of("read"))

    def test_one_input_may_be_standard_input(self):
        table = bytes_of(TABLE)
        for words, given in ((("compare", "-", self.profile), filter_of([0])),
                             (("compare", self.filter, "-"), profile_of("read")),
                             (("compare", self.filter, "/dev/stdin"), profile_of("read")),
                             (("compare", "--table=-", self.filter, self.profile), table),
                             (("decide", "--nr=0", "--table=-", self.filter), table),
                             (("decide", "--calls-from=-", self.filter), b"read\n"),
                             (("run", "--nr=0", "-"), filter_of([0])),
                             (("check", "-"), filter_of([0])), (("list", "-"), filter_of([0])),
                             (("compile", "-"), profile_of("read"))):
            settings = {"stdout": subprocess.DEVNULL} if words[0] == "compile" else {}
            self.assertEqual(self.run_tool(*words, given=given, **settings)[0::2], (0, ""), words)
        for words in (("compare", "-", "-"), ("compare", "--table=-", "-", self.profile),
                      ("decide", "--nr=0", "-", "-"), ("decide", "--calls-from=-", "-"), ("run", "--table=-", "-"),
                      ("check", "-", "-"), ("list", "--table=-", "-"), ("compile", "--table=-", "-")):
            self.is_refused("only one input can be '-'", *words)

    @unittest.skipUnless(shutil.which("bash"), "there is no bash here")
    def test_pipes_of_a_shell(self):
        for words in ('compare --table <(echo read 0) <(cat "$1") <(cat "$2")',
                      'decide --calls-from <(echo read) <(cat "$1")',
                      'run --nr=0 <(cat "$1")', 'check <(cat "$1") <(cat "$1")', 'list <(cat "$1")',
                      'compile --table <(echo read 0) <(cat "$2") >/dev/null'):
            done = self.run_words(["bash", "-c", f'"$0"/{words}', os.path.dirname(tool("")), self.filter, self.profile])
            self.assertEqual(done[0::2], (0, ""), words)

    def test_files_that_are_not_there(self):
        for words in (("compare", "none", self.profile), ("compare", self.filter, "none"),
                      ("compare", "--table", "none", self.filter, self.profile), ("decide", "none"),
                      ("run", "none"), ("check", "none"), ("list", "none"), ("compile", "none"),
                      ("decide", "--calls-from=none", self.filter),
                      ("explain", "--table=none", "same"), ("bundle", "filter", "none"), ("ask", "none"),
                      ("compare-profiles", "none", "none"), ("surface", "none")):
            self.is_refused("there is no file 'none'", *words)
        for words in (("run", self.folder), ("check", self.folder), ("compile", self.folder), ("run", ""),
                      ("compare", self.folder, self.profile), ("compare", self.filter, self.folder),
                      ("compare", "--table", self.folder, self.filter, self.profile)):
            self.is_refused(f"{words[0]}: ", *words)

    def test_names_that_are_not_utf_8(self):
        name = self.file(os.fsdecode(b"odd\xff\x1b[2J.bpf"), filter_of([0]))
        broken = self.file(os.fsdecode(b"\xfe\n.bpf"), jeq(0, 9, 0) + ret(ALLOW))
        self.assertEqual(self.run_words([tool("compare"), name, self.profile]), (0, "same\n", ""))
        out = self.out_of(1, self.run_words([tool("check"), name, broken]))
        self.assertIn("/odd\\xff\\x1b[2J.bpf: accepted 9\n", out)
        self.assertIn("/\\xfe\\x0a.bpf: fault filter Jump at 0\n# This jump", out)
        out = self.out_of(2, self.run_words([tool("decide"), "--nr=0", name, broken]))
        self.assertTrue(out.endswith("/\\xfe\\x0a.bpf\n"), out)
        self.is_refusal("/odd\\xff\\x1b[2J.bpf\\x0a'\n", self.run_words([tool("check"), name + "\n"]))


class Garbage(Measured):
    """Made bytes as each input: an answer or a fault, and never a traceback."""

    def test_bytes(self):
        made = random.Random(27)
        texts = [b"", b"\0", b"\xff\xfe", b"\n", b"{", b"[[", b'{"defaultAction":1}', b"null", b"{}", b'"\\ud800"',
                 b'{"defaultAction":"SCMP_ACT_ALLOW","syscalls":[{"names":["\\u0000"],"action":"SCMP_ACT_LOG"}]}',
                 b'{"defaultAction":"SCMP_ACT_ALLOW","syscalls":null}',
                 b'{"linux":{"seccomp":{"defaultAction":"SCMP_ACT_LOG","syscalls":[{"names":["x"],"action":'
                 b'"SCMP_ACT_ALLOW"}]}}}', b"[" * 5000, b'{"a":NaN}', b"1" * 5000, b"read 0\nread 0\n", b"read\xff 1\n",
                 *(bytes(made.randrange(256) for _ in range(made.choice((1, 8, 64, 4000)))) for _ in range(3))]
        good, profile = self.file("f.bpf", ret(EPERM)), self.file("p.json", profile_of("read", "gone"))
        for at, text in enumerate(texts):
            name = self.file(f"{at}", text)
            for words in (("compare", "--native", good, name), ("compare", name, profile),
                          ("compare", "--json", good, name), ("compare", "--table", name, good, profile),
                          ("compile", name), ("decide", "--calls-from", name, good), ("list", name),
                          ("run", "--json", name), ("check", name, good), ("run", "--table", name, "--nr=read", good)):
                with self.subTest(text=text[:40], words=words):
                    status, _, err = self.run_measured(words)
                    self.assertIn(status, (0, 1, 2, 3, 4))
