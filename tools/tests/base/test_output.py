"""What the tools print: nothing of a stranger's text works on a terminal or looks like scf's; output that fails; and
that the program prints in one write."""
import os
import socket
import subprocess
import sys
import unittest

from support.common import CORE, PROGRAM, SCF, X86_64, Case, completed, filter_of, insn, profile_of, tool
from support.on_parts import (ALL, ALLOW, ARCH_GATE, NO_TABLE, OnProgram, a_filter, a_table, assembled, beside, bundle,
                              long_filter, ran)
from scftools.base import output
from scftools.ask import verdicts

SAME, DIFFERS = filter_of([0, 1]), filter_of([0, 1, 231])
FORGED_CALL = "41 socket differs args 0x0 0x0 0x0 0x0 0x0 0x0 filter ALLOW 0 profile ERRNO 1"
# Names of a profile that try to be something else, each with what is printed of it.
HOSTILE = {
    "\x1b[2J\x1b[Hsame": "\\x1b[2J\\x1b[Hsame",
    "a\rsame": "a\\x0dsame",
    "x\nsame": "x\\x0asame",
    "x\ndiffers\ncall nr 0 arch 0xc000003e ip 0x0 args 0x0 0x0 0x0 0x0 0x0 0x0\nfilter ALLOW 0\nprofile ERRNO 1":
        "x\\x0adiffers\\x0acall nr 0 arch 0xc000003e ip 0x0 args 0x0 0x0 0x0 0x0 0x0 0x0\\x0afilter ALLOW 0\\x0a"
        "profile ERRNO 1",
    f"x\n{FORGED_CALL}": f"x\\x0a{FORGED_CALL}",
    "x\n# the filter answers ALLOW: the syscall is executed":
        "x\\x0a# the filter answers ALLOW: the syscall is executed",
    "x\nskipped y": "x\\x0askipped y",
    "x\nother SCMP_ARCH_X86": "x\\x0aother SCMP_ARCH_X86",
    "\x9b2Jy": "\\xc2\\x9b2Jy",
    "d\x7f\x00": "d\\x7f\\x00",
    "t\u202eerom\u2028z": "t\\xe2\\x80\\xaeerom\\xe2\\x80\\xa8z",
    "naïve-名": "naïve-名",
}
# A tool's Python itself: what stands in for it on the path may open closed descriptors again.
PYTHON = ["sh", sys.executable, "-IS"]


class Texts(unittest.TestCase):
    """Texts as they are printed, and scf's lines, which are read by their order."""

    def test_escaped(self):
        for text, shown in (("same", "same"), ("a\tb\n", "a\\x09b\\x0a"), ("\x1b[0m", "\\x1b[0m"),
                            (b"\xff\xc3", "\\xff\\xc3"), (b"\x80ab", "\\x80ab"), ("\x80", "\\xc2\\x80"),
                            ("\udcff", "\\xff"), ("é", "é"), ("\ud800x\udcffé", "\\xed\\xa0\\x80x\\xffé"),
                            ("\udc00", "\\xed\\xb0\\x80"), ("\u2066", "\\xe2\\x81\\xa6"), ("", "")):
            self.assertEqual(output.escaped(text), shown)

    def test_no_byte_is_left_that_works(self):
        for byte in range(256):
            shown = output.escaped(bytes([byte]))
            self.assertTrue(shown.isprintable() and shown.isascii(), byte)
        for point in (*range(0x20), *range(0x7F, 0xA0)):
            self.assertTrue(output.escaped(chr(point)).startswith("\\x"), point)

    def test_lines_by_their_order(self):
        differs = ("differs\ncall nr 1 arch 0xc000003e ip 0x0 args 0x1 0x2 0x3 0x4 0x5 0xffffffffffffffff\n"
                   "filter ERRNO 22\nprofile UNNAMED 0x12340000\n")
        actual = verdicts.report(differs + "skipped a\nother b\n")
        self.assertEqual(actual.verdict.word, "differs")
        self.assertEqual(actual.verdict.call.arguments, (1, 2, 3, 4, 5, 2**64 - 1))
        self.assertEqual((actual.verdict.call.number, actual.verdict.call.architecture), (1, X86_64))
        self.assertEqual((str(actual.verdict.filters), str(actual.verdict.profile)), ("ERRNO 22", "UNNAMED 0x12340000"))
        self.assertEqual(verdicts.report("undecided at 7\n").verdict.at, 7)
        self.assertEqual(verdicts.report("unfinished\n").verdict.word, "unfinished")
        fault = verdicts.report("fault profile Conflict number 41 first 0 second 1\n").fault
        self.assertEqual((fault.source, fault.kind, fault.numbers),
                         ("profile", "Conflict", {"number": 41, "first": 0, "second": 1}))

    def test_nothing_behind_a_skipped_name_counts(self):
        for forged in ("differs", "same", FORGED_CALL, "fault filter Empty", "undecided at 1"):
            actual = verdicts.report(f"same\nskipped x\n{forged}\nother y\n{forged}\n")
            self.assertEqual((actual.verdict.word, actual.fault, actual.calls), ("same", None, ()))
        calls = verdicts.report(f"differs\n{FORGED_CALL}\nskipped x\n{FORGED_CALL}\n").calls
        self.assertEqual([call.number for call in calls], [41])

    def test_texts_that_scf_never_prints(self):
        for text in ("", "\n", "sam", "differs\n", "differs\ncall\nfilter\nprofile\n", "fault\n", "skipped a", "x\0y"):
            actual = verdicts.report(text)
            self.assertIsNone(actual.fault)
            self.assertTrue(actual.verdict is None or actual.verdict.call is None)


class Hostile(Case):
    """Names that a profile's author chose."""

    def setUp(self):
        super().setUp()
        self.same, self.wrong = self.file("same.bpf", SAME), self.file("wrong.bpf", DIFFERS)

    def profile(self, *names, architectures=()):
        top = {"defaultAction": "SCMP_ACT_ERRNO", "architectures": ["SCMP_ARCH_X86_64", *architectures],
               "syscalls": [{"names": ["read", *names, "write"], "action": "SCMP_ACT_ALLOW"}]}
        return self.file("p.json", top)

    def test_each_name_is_one_line_without_a_control_character(self):
        for name, shown in HOSTILE.items():
            for filters, status, verdict in ((self.same, 0, "same"), (self.wrong, 1, "differs")):
                for scope in ("--all", "--native", "--calls"):
                    with self.subTest(name=name, scope=scope):
                        actual, out, err = self.run_tool("compare", "--verbose", scope, filters, self.profile(name))
                        lines = out.split("\n")
                        self.assertEqual((actual, err, lines[0]), (status, "", verdict))
                        self.assertEqual([line for line in lines if line.startswith("skipped ")], [f"skipped {shown}"])
                        self.assertEqual([line for line in lines if line.startswith("other ")], [])
                        self.assertTrue(all(line.isprintable() for line in lines), out)
                        # what scf says stands before, what the tool says behind
                        at = lines.index(f"skipped {shown}")
                        self.assertTrue(all(line.startswith("# ") for line in lines[at + 1:-1]), out)
                        self.assertFalse(any(line.startswith("#") for line in lines[:at]), out)
                        self.assertIn("# names in the profile that were skipped because no table has them: 1", out)

    def test_a_forged_line_is_no_call(self):
        """Behind the first skipped name nothing is a call: one call differs, whatever the name says."""
        name = f"x\n{FORGED_CALL}\n42 connect differs"
        for words in (("--native",), ("--calls",)):
            out = self.run_tool("compare", "--verbose", *words, self.wrong, self.profile(name))[1]
            self.assertNotIn("\n41 ", out)
            self.assertNotIn("# 41 ", out)
            value = self.json_of("compare", "--json", *words, self.wrong, self.profile(name))
            self.assertEqual([call["number"] for call in value["calls"]], [231])
            self.assertEqual(value["skipped"], [name])
        out = self.run_tool("compare", "--native", self.wrong, self.profile(name))[1]
        self.assertIn("# syscalls in the table that differ: 1\n# 231 ", out)

    def test_architectures(self):
        forged = "SCMP_ARCH_\x1b[2J\nsame\n# all is well"
        status, out, _ = self.run_tool("compare", self.same, self.profile(architectures=[forged]))
        self.assertEqual((status, out), (0, "same\nother SCMP_ARCH_\\x1b[2J\\x0asame\\x0a# all is well\n"
                                            "# the profile's other architectures aren't judged, since scf has no table "
                                            "of them\n"))

    def test_where_a_skipped_name_stands_for_several(self):
        """Two names and one name with a line end in it are printed alike by scf, and told apart by the profile."""
        for names in (["x", "y"], ["x\nskipped y"], ["x\nskipped y", "x", "y\nskipped "]):
            value = self.json_of("compare", "--json", self.same, self.profile(*names))
            self.assertEqual(value["skipped"], names)

    def test_explain_and_compile(self):
        for name, shown in HOSTILE.items():
            for given in (b"skipped " + name.encode("utf-8", "surrogatepass"), name.encode("utf-8", "surrogatepass")):
                out = self.run_tool("explain", given=given)[1]
                self.assertTrue(all(line.isprintable() for line in out.split("\n")), out)
            status, out, err = self.compile(self.profile(name))
            self.assertEqual(status, 0)
            self.assertTrue(all(line.isprintable() and line.startswith("compile: ") for line in
                                err.split("\n")[:-1]), err)
            self.assertTrue(out)
            self.assertIn(f" {shown[:40]}", err)

    def test_words_of_the_command_line(self):
        for words in (("compare", "--\x1b[2J", "a", "b"), ("decide", "--nr", "\x1b[2Jx", self.same),
                      ("decide", "--nr", "x\x1b[2J", self.same), ("run", "a\nb"), ("bundle", "\x1b[2J", "x"),
                      ("explain", "\x1b[2J", "--x\x1b[2J")):
            status, out, err = self.run_tool(*words)
            self.assertEqual(status, 2, words)
            self.assertTrue(all(line.isprintable() for line in (out + err).split("\n")), (out, err))
        status, out, err = self.run_tool("decide", "--calls-from", self.file("calls", "read\n\x1b[2J\n"), self.same)
        self.assertTrue(all(line.isprintable() for line in (out + err).split("\n")), (out, err))

    def test_nothing_is_added_to_a_filter(self):
        """A filter may begin as any line does."""
        text = b"fault x!"
        words = [int.from_bytes(text[at:at + size], "little") for at, size in ((0, 2), (2, 1), (3, 1), (4, 4))]
        spelled = f"raw {words[0]}, {words[1]}, {words[2]}, {words[3]}\n".encode()
        for words in ([*CORE, "asm"], [SCF, "asm"], [SCF, "asm", self.file("spelled", spelled)]):
            done = completed(words, spelled)
            self.assertEqual((done.returncode, done.stdout), (0, text))
        self.is_refused("asm: fault text Mnemonic line 1\nasm: 'LD' is no mnemonic", "asm", self.file("text", "LD"))


class Failing(Case):
    """Readers that go away, and outputs that are full or closed."""

    def setUp(self):
        super().setUp()
        self.same = self.file("same.bpf", SAME)
        self.profile = self.file("p.json", profile_of("read", "write", *(f"name_{at}" for at in range(5000))))

    def each(self):
        return (("compare", self.same, self.profile), ("compare", "--json", self.same, self.profile),
                ("decide", "--nr=0", self.same), ("run", "--nr=0", self.same), ("check", self.same),
                ("list", self.same), ("compile", self.profile), ("bundle", "profile", self.profile),
                ("explain", "--help"), ("surface", self.same), ("surface", "--json", self.same),
                ("compare-profiles", self.profile, self.profile), ("compare", "--version"),
                ("resolve-profile", self.profile), ("needs", self.file("log", "read(0) = 0\n"), self.profile),
                ("why", "type=1326 audit(1.000:1): sig=31 arch=c000003e syscall=41 compat=0 ip=0x0 code=0x80000000"),
                ("unit-profile", "--set", "~read"), ("ask", "--nr=read", self.profile),
                ("lint", self.profile), ("profile-of", self.same),
                ("call-table", self.file("asm.h", "#define __NR_read 0\n")))

    def test_a_reader_that_goes_away(self):
        for words in self.each():
            reader, writer = os.pipe()
            os.close(reader)
            with os.fdopen(writer, "wb") as gone:
                done = completed([tool(words[0]), *words[1:]], stdout=gone)
            actual = [line for line in done.stderr.decode().split("\n") if not line.startswith("compile: ")]
            self.assertEqual((done.returncode, actual), (-13, [""]), words)

    def test_a_full_output(self):
        for words in self.each():
            status, _, err = self.closed_output(*words)
            self.assertEqual(status, 2, words)
            self.assertIn(f"{words[0]}: the output failed: No space left on device\n", err)

    def test_a_closed_output(self):
        for words in self.each():
            if "--help" in words:
                # the words of a tool go to standard error then
                continue
            done = completed(["sh", "-c", '"$@" >&-', "sh", tool(words[0]), *words[1:]])
            message = done.stderr.decode()
            self.assertEqual(done.returncode, 2, (words, message))
            self.assertIn(f"{words[0]}: the output failed: ", message)
            self.assertNotIn("Traceback", message)

    def test_the_other_descriptors_closed(self):
        for closing in ("<&-", "2>&-", "<&- 2>&-"):
            for words in (("decide", "--nr=0", self.same), ("compare", self.same, self.profile)):
                done = completed(["sh", "-c", f'"$@" {closing}', "sh", tool(words[0]), *words[1:]])
                self.assertEqual(done.returncode, 0, (closing, words))
        done = completed(["sh", "-c", '"$0" --nr=0 - <&-', tool("run")])
        self.assertEqual((done.returncode, done.stdout), (2, b""))
        self.assertIn(b"standard input can't be read", done.stderr)

    def test_what_is_said_stays_out_of_the_output_where_standard_error_is_closed(self):
        odd = self.file("odd.json", profile_of("read", "raed"))
        for words in (("compile", odd), ("resolve-profile", odd), ("compile", "none"), ("lint", "--no-such"), ("run",)):
            ways = [completed(["sh", "-c", f'exec "$@" {closing}', *PYTHON, tool(words[0]), *words[1:]])
                    for closing in ("", "2>&-")]
            self.assertEqual((ways[0].returncode, ways[0].stdout), (ways[1].returncode, ways[1].stdout), words)

    def test_a_help_that_can_not_be_printed(self):
        for name in ("compare", "bundle"):
            for closing in (">&-", ">/dev/full"):
                status, out, err = self.run_words(["sh", "-c", f'exec "$@" {closing}', *PYTHON, tool(name), "--help"])
                self.assertEqual((status, out), (2, ""))
                self.assertRegex(err, rf"^{name}: the output failed: .*\n$")

    def test_what_fails_beside_the_output_is_not_said_of_it(self):
        done = self.run_words(["sh", "-c", 'ulimit -n 4; exec "$@"', *PYTHON, tool("check"), self.same])
        self.assertEqual(done, (2, "", "check: Too many open files\n"))

    def test_standard_error_that_fails(self):
        with open("/dev/full", "wb") as full:
            for words in (("run", "none"), ("run", "--no-such")):
                self.assertEqual(completed([tool(words[0]), *words[1:]], stderr=full).returncode, 2, words)


class OneWrite(OnProgram):
    """All that a run of the program prints goes out at once, and a write that fails is said by the status."""

    def is_one_write(self, words, given=b""):
        """A write is a packet here. The longest listing fits into the packets' buffer."""
        ours, its = socket.socketpair(socket.AF_UNIX, socket.SOCK_SEQPACKET)
        with ours, subprocess.Popen([PROGRAM, *words], stdin=subprocess.PIPE, stdout=its) as process:
            its.close()
            process.stdin.write(given)
            process.stdin.close()
            packets = list(iter(lambda: ours.recv(1 << 20), b""))
        self.assertEqual([len(packet) for packet in packets], [len(ran(words, given)[0])], words)
        with open("/dev/full", "wb") as full:
            done = completed([PROGRAM, *words], given, stdout=full)
        self.assertEqual(done.returncode, 3, words)

    def test_each_command(self):
        gate = assembled(ARCH_GATE)
        for command in (["check"], ["run"], ["run", "--path"], ["dis"]):
            for filter_ in (gate, assembled("ja 9; ret #0"), assembled("ld [0]"), b"cut"):
                self.is_one_write(command, filter_)
        for command in (["run", "--path"], ["dis"]):
            self.is_one_write(command, long_filter(4095))
        self.is_one_write(["dis"], insn(0xFFFF, 0xFFFFFFFF, 255, 255) * 4096)
        for text in (b"ld [0]; ret a", b"ld [0]; ret b"):
            self.is_one_write(["asm"], text)

    def test_each_command_of_bundles(self):
        both, named = [ALL, NO_TABLE], [ALLOW, ALL, a_table("read 0")]
        for words, parts in (("decide", [ALLOW, a_filter("ret #0x12345678")]), ("decide --at --path", [ALLOW]),
                             ("compile", both), ("compile --left-out", both), ("ask", both), ("answers", both),
                             ("answers --examples", [ALLOW]), ("compare", [ALLOW, *both]),
                             ("compare --no-more", [ALLOW, *both]), ("compare --calls", named),
                             ("compare --beside", [ALLOW, beside(ARCH_GATE)]), ("compare", [ALLOW, ALL]),
                             ("compile", [ALL, a_table("a 1\na 2\n")]), ("decide --a4 x", [])):
            self.is_one_write(words.split(), bundle(parts))

    def test_words_alone(self):
        for words in ("", "--help", "--version", "help compare", "compare --native --calls", "run --a3 -"):
            self.is_one_write(words.split())
        self.is_one_write([b"\xff"])
