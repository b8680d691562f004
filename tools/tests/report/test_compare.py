"""tools/compare, tools/decide and tools/explain."""
import json
import os
import unittest
from unittest import mock

from support.common import (ALLOW, CORE, EPERM, I386, KILL_PROCESS, KILL_THREAD, TABLE, TOP, UNKNOWN_ZERO, X86_64, Case,
                            filter_of, gate, insn, jeq, jge, load, part, profile_of, ret, stub, text_of)
from scftools.model import bundles, profiles, tables
from scftools.ask import client
from scftools.ask.verdicts import NATIVE_SCOPE
from scftools.forms.filters import Filter
from scftools.forms.profile_inputs import ProfileInput
from scftools.report import compare, compare_output

READ, WRITE, EXIT_GROUP = 0, 1, 231


class Compare(Case):
    def setUp(self):
        super().setUp()
        self.profile = self.file("profile.json", profile_of("read", "write"))
        self.same = self.file("same.bpf", filter_of([READ, WRITE]))
        self.wrong = self.file("wrong.bpf", filter_of([READ, WRITE, EXIT_GROUP]))
        self.lax = self.file("lax.bpf", filter_of([READ, WRITE], foreign=KILL_THREAD))

    def scf_says(self, given, *words):
        return self.run_words([*CORE, "compare", *words], given)

    def bundle(self, *filters, profile=None):
        table = text_of(TABLE).encode()
        return b"".join(part("filter", data) for data in filters) + part("profile",
            profile or profile_of("read", "write")) + part("table", table)

    def test_same(self):
        for words in ((), ("--native",), ("--all",), ("--calls",)):
            self.assertEqual(self.run_tool("compare", *words, self.same, self.profile), (0, "same\n", ""))
            if words != ("--all",):
                self.assertEqual(self.run_tool("compare", *words, self.lax, self.profile), (0, "same\n", ""))

    def test_differs_by_the_name_of_a_call(self):
        status, out, err = self.run_tool("compare", self.wrong, self.profile)
        verdict = self.scf_says(self.bundle(filter_of([READ, WRITE, EXIT_GROUP])))[1]
        self.assertEqual(verdict,
                         "differs\ncall nr 231 arch 0xc000003e ip 0x0 args 0x0 0x0 0x0 0x0 0x0 0x0\nfilter ALLOW 0\n"
                         "profile ERRNO 1\n")
        self.assertEqual((status, out, err), (1, verdict + (
            "# the syscall is exit_group (231)\n# the filter answers ALLOW: the syscall is executed\n"
            "# the profile answers ERRNO 1: the syscall fails with EPERM\n# by the default\n"
            "# the last tests on the path in the filter:\n"
            "#  1  jeq #0xc000003e, 1, 0  // x86-64: to 3, else 2; loaded 0xc000003e, went to 3\n"
            "#  4  jge #0x40000000, 0, 1  // x32: to 5, else 6; loaded 0xe7, went to 6\n"
            "#  6  jeq #0x0, 3, 0         // read: to 10, else 7; loaded 0xe7, went to 7\n"
            "#  7  jeq #0x1, 2, 0         // write: to 10, else 8; loaded 0xe7, went to 8\n"
            "#  8  jeq #0xe7, 1, 0        // exit_group: to 10, else 9; loaded 0xe7, went to 10\n"
            "# 10  ret #0x7fff0000        // ALLOW\n"
            "# syscalls in the table that differ: 1\n"
            "# 231 exit_group differs args 0x0 0x0 0x0 0x0 0x0 0x0 filter ALLOW 0 profile ERRNO 1\n"), ""))

    def test_a_table_of_ones_own(self):
        few, both = self.file("few.table", b"read 0\nwrite 1\n"), "leave or leave_too (231)"
        with open(self.file("-t", b"# mine\nread 0\nwrite 1\nleave 231\nleave_too 231\n"), "rb") as opened:
            for name, given, shown in ((opened.name, b"", both), ("-t", b"", both), ("-", opened, both),
                                       ("-", b"read 0\nleave 231\n", "leave (231)"),
                                       (few, b"", "number 231, which the table doesn't name")):
                out = self.output_of(1, "compare", f"--table={name}", self.wrong, self.profile, given=given)
                self.assertIn(f"# the syscall is {shown}\n", out)

    def test_foreign_calls_are_said_to_be_left_out_by_native(self):
        def on_one_call(arch, number):
            """Allows one number of one architecture, and is the profile's filter elsewhere."""
            return (load(4) + jeq(arch, 0, 3) + load(0) + jeq(number, 0, 1) + ret(ALLOW) + filter_of([READ, WRITE]))

        for arch, number, says in (
                (I386, 5, "open (5) of the architecture i386\n# --native leaves out other architectures\n"),
                (0xC0FFEE, 5, "number 5 of the architecture 0xc0ffee\n# --native leaves out other architectures\n"),
                (X86_64, 0x40000005, "fstat (0x40000000 + 5), an x32 syscall\n"
                                     "# --native leaves out numbers from 0x40000000 on\n"),
                (X86_64, 0x80000007, "number 2147483655 (0x80000007), which no syscall has\n"
                                     "# --native leaves out numbers from 0x40000000 on\n"),
                (X86_64, 0xFFFFFFFF, "number -1, which a tracer sets to skip a syscall\n"
                                     "# --native leaves out numbers from 0x40000000 on\n")):
            out = self.output_of(1, "compare", "--all", self.file("one.bpf", on_one_call(arch, number)), self.profile)
            self.assertIn(f"call nr {number} arch {arch:#x} ", out)
            self.assertIn(f"# the syscall is {says}", out)

    def test_a_call_of_a_line_has_its_instruction_pointer_where_it_does_not_matter(self):
        of_one = load(8) + jeq(0x1234, 0, 1) + ret(EPERM) + ret(ALLOW)
        of_all = load(0) + jeq(0, 0, 1) + ret(EPERM) + ret(ALLOW)
        allows, table = self.file("a.json", b'{"defaultAction":"SCMP_ACT_ALLOW"}'), self.file("t", b"read 0\n")
        for data, pointers in ((of_one, (None, "0x1234")), (of_all, ("0x0", "0x0"))):
            for words, pointer in zip((("--calls",), ("--native",)), pointers):
                report = self.json_of("compare", "--json", *words, "--table", table, self.file("f.bpf", data), allows)
                members = report["calls"][0] if words == ("--calls",) else report
                self.assertEqual(members["call"]["pointer"], pointer, (words, report))

    def test_faults_have_their_sentence(self):
        missing = b'{"defaultAction":"SCMP_ACT_ALLOW","syscalls":[{"action":"SCMP_ACT_LOG"}]}'
        entries = b'{"names":["socket"],"action":"SCMP_ACT_LOG"},{"names":["socket"],"action":"SCMP_ACT_ERRNO"}'
        conflict = b'{"defaultAction":"SCMP_ACT_ALLOW","syscalls":[%s]}' % entries
        for name, data, line, sentence in (
                ("jump.bpf", jeq(0, 9, 0) + ret(ALLOW), "filter Jump at 0", "This jump leaves the filter"),
                ("cut.bpf", b"\6\0\0", "filter Truncated offset 0", "The input ends inside the instruction"),
                ("p", missing, "profile Missing entry 0", "A member is missing"),
                ("c", conflict, "profile Conflict number 41 first 0 second 1", "Two entries")):
            path = self.file(name, data)
            words = (path, self.profile) if name.endswith(".bpf") else (self.same, path)
            out = self.output_of(2, "compare", *words)
            self.assertTrue(out.startswith(f"fault {line}\n# {sentence}"), out)
        self.assertIn("\n# the syscall is socket (41)\n# the entries begin at line 1, column ", out)

    def test_unfinished_and_limit(self):
        out = self.output_of(4, "compare", "--limit", "0", self.same, self.profile)
        self.assertTrue(out.startswith("unfinished\n# The comparison, or the walk of `answers`, took as many"), out)
        for limit in ("-1", "x"):
            out = self.output_of(2, "compare", "--limit", limit, self.same, self.profile)
            self.assertTrue(out.startswith("fault number limit\n# The option's text isn't a number"), out)

    def of_each(self, data):
        """The command lines that compare a filter with one that allows each x86-64 syscall, or a profile that does."""
        first, second = self.file("one.bpf", gate(data)), self.file("other.bpf", gate(ret(ALLOW)))
        profile = self.file("p", b'{"defaultAction":"SCMP_ACT_ALLOW"}')
        return ["compare", first, profile], ["diff", first, second], ["compare", first, "--beside", second]

    def test_undecided(self):
        for words in self.of_each(UNKNOWN_ZERO + jeq(0, 1, 0) + ret(EPERM) + ret(ALLOW)):
            status, out, _ = self.run_tool(*words, "--limit=100000")
            self.assertEqual((status, out.count("\n# not known: allow more splits and steps, --splits N --limit N\n")),
                             (4, 1), out)
            self.assertRegex(out, r"^undecided at [0-9]+\n# A run of a filter can end at this instruction")

    def test_splits(self):
        """A number times the next one is even, which takes a split: no call gets the errno."""
        product = load(16) + insn(0x07, 0) + insn(0x04, 1) + insn(0x2C, 0)
        for words in self.of_each(product + insn(0x45, 1, 0, 1) + ret(EPERM) + ret(ALLOW)):
            self.assertEqual(self.run_tool(*words, "--splits=x")[1].split("\n")[0], "fault number splits")
            for more, status, word in ((["--splits=0"], 4, "undecided"), ([], 0, "same"),
                                       (["--splits", str(2**64 - 1)], 0, "same"), (["--splits=none"], 0, "same")):
                status_of, out, _ = self.run_tool(*words, *more)
                self.assertEqual((status_of, out.split("\n")[0].split(" ")[0]), (status, word), more)

    def test_skipped_names_and_other_architectures(self):
        profile = profile_of("read", "gone", "write").replace(b"{",
            b'{"architectures":["SCMP_ARCH_X86_64","SCMP_ARCH_MIPS"],', 1)
        added = ("other SCMP_ARCH_MIPS\n"
                 "# names in the profile that were skipped because no table has them: 1\n"
                 "# no known syscall is named gone\n"
                 "# the profile's other architectures aren't judged, since scf has no table of them\n")
        profile = self.file("p", profile)
        self.assertEqual(self.run_tool("compare", self.same, profile), (0, f"same\n{added}", ""))
        self.assertEqual(self.run_tool("compare", "--verbose", self.same, profile),
                         (0, f"same\nskipped gone\n{added}", ""))
        self.assertEqual(self.json_of("compare", "--json", self.same, profile)["skipped"], ["gone"])

    def test_what_is_left_out_is_what_scf_says(self):
        """By each reading, over x86-64 alone and over each architecture with a table; names may look like its lines."""
        names = ("read", "gone", "mmap2", "x\nother SCMP_ARCH_X", "skipped y", "read", "gone")
        native, table = "SCMP_ARCH_X86_64", tables.read_table(None)
        entries = [{"names": names, "action": "SCMP_ACT_ALLOW"},
                   {"names": names[1:3], "action": "SCMP_ACT_ERRNO", "errnoRet": 1}]
        for reading in ("strict", "runc", "crun"):
            for architectures in ([native, "SCMP_ARCH_MIPS", "SCMP_ARCH_X86", "what", "SCMP_ARCH_MIPS"], [native], []):
                data = profiles.DerivedProfile(json.dumps({
                    "defaultAction": "SCMP_ACT_ERRNO", "architectures": architectures,
                    "syscalls": entries[:1 + (reading != "strict")]}).encode())
                data.reading = reading
                for is_native in (True, False):
                    judged = tables.tables_of_profile(data, table, is_native)
                    flags = [] if is_native else ["--architectures"]
                    done = client.run_scf(["compare", *flags, *[f"--reading={reading}"] * (reading != "strict")],
                                      bundles.profile_bundle(data, judged, [ret(ALLOW)]))
                    report = compare.Comparison([], ProfileInput(data), table, is_native=is_native).left_out[0]
                    text = "".join([f"skipped {name}\n" for name in report.skipped]
                                   + [f"other {name}\n" for name in report.architectures])
                    self.assertEqual(done.text.split("\n", 4)[4], text, (reading, architectures, is_native))

    def test_a_name_that_looks_like_a_verdict(self):
        """All that is printed of such names, where nothing differs, and of the one call that does."""
        call = "231 exit_group differs args 0x0 0x0 0x0 0x0 0x0 0x0 filter ALLOW 0 profile ERRNO 1"
        for name in ("x\ndiffers", "x\nsame\n", "x\nfault filter Empty", f"x\n{call}", "x\n7 poll differs",
                     "x\n# the syscall is read (0)", "x\nundecided at 1"):
            profile, shown = self.file("p", profile_of("read", "write", name)), name.replace("\n", "\\x0a")
            # a long name is cut where it is told again
            shown_name = name if len(name) <= 64 else f"{name[:64]}.."
            added = ("# names in the profile that were skipped because no table has them: 1\n# no known "
                     "syscall is named " + shown_name.replace("\n", "\\x0a") + "\n")
            for scope in ("--all", "--native", "--calls"):
                self.assertEqual(self.run_tool("compare", "--verbose", scope, self.same, profile),
                                 (0, f"same\nskipped {shown}\n{added}", ""))
                self.assertEqual(self.run_tool("compare", scope, self.same, profile), (0, f"same\n{added}", ""))
            self.assertEqual(self.run_tool("compare", "--verbose", "--calls", self.wrong, profile),
                             (1, f"differs\n{call}\nskipped {shown}\n{added}", ""))
            out = self.output_of(1, "compare", "--native", self.wrong, profile)
            self.assertTrue(out.endswith(f"{added}# syscalls in the table that differ: 1\n# {call}\n"), out)

    def test_calls(self):
        answers = "args 0x0 0x0 0x0 0x0 0x0 0x0 filter ALLOW 0 profile ERRNO 1\n"
        self.assertEqual(self.run_tool("compare", "--calls", self.wrong, self.profile),
                         (1, f"differs\n231 exit_group differs {answers}", ""))
        table = self.file("own.table", b"read 0\nleave 231\nleave_too 231\nwrite 1\n")
        self.assertEqual(self.run_tool("compare", "--calls", "--table", table, self.wrong, self.profile),
                         (1, f"differs\n231 leave,leave_too differs {answers}", ""))
        status, out, _ = self.run_tool("compare", "--calls", "--limit", "0", self.same, self.profile)
        self.assertEqual((status, out.split("\n")[:2]), (4, ["unfinished", "0 read unfinished"]))

    def test_numbers_that_differ_and_have_no_name(self):
        data = self.file("stub.bpf", stub(500) + filter_of([READ, WRITE]))
        for words in ((), ("--native",)):
            out = self.output_of(1, "compare", *words, data, self.profile)
            self.assertTrue(out.endswith("# each syscall in the table gets the same answer from both sides\n"), out)

    def test_several_filters(self):
        stricter = self.file("stricter.bpf", load(0) + jeq(WRITE, 0, 1) + ret(0x00050002) + ret(ALLOW))
        out = self.output_of(1, "compare", "--native", self.lax, stricter, self.profile)
        self.assertIn("# the syscall is write (1)\n# the filters answer ERRNO 2: the syscall fails with "
                      "ENOENT\n", out)
        allow = self.file("allow.bpf", ret(ALLOW))
        for stack in ((allow, self.same), (self.same, allow)):
            self.assertEqual(self.run_tool("compare", *stack, self.profile)[:2], (0, "same\n"))


def allows(number):
    """Code that allows one number."""
    return load(0) + jeq(number, 1, 0) + ret(EPERM) + ret(ALLOW)


def of_abis(native, i386, x32, bit=0x80000000):
    """A filter of three parts, and x86-64's numbers with these bits allowed."""
    x32 = load(0) + insn(0x45, bit, 0, 1) + ret(ALLOW) + jge(0x40000000, 0, len(x32) // 8) + x32 + native
    return load(4) + jeq(I386, 0, len(i386) // 8) + i386 + jeq(X86_64, 1, 0) + ret(KILL_PROCESS) + x32


class OtherAbis(Case):
    """Calls of i386 and x32, beside a profile that is for them, too, or that isn't."""

    UNDETERMINED = "undetermined: the profile is for this architecture, too"

    def setUp(self):
        super().setUp()
        self.lets_i386, self.lets_x32, self.lets_both = (
            self.file(f"{at}.bpf", of_abis(allows(READ), *answers)) for at, answers in enumerate(
                ((ret(EPERM), ret(KILL_PROCESS)), (ret(KILL_PROCESS), ret(EPERM)), (ret(EPERM), ret(ALLOW)))))
        self.wrong = self.file("wrong.bpf", of_abis(ret(ALLOW), ret(EPERM), ret(EPERM)))

    def profile(self, *architectures):
        names = [f"SCMP_ARCH_{name}" for name in ("X86_64", *architectures)]
        return self.file("p.json", {**json.loads(profile_of("read")), "architectures": names})

    def said(self, *words):
        return self.told("compare", *words)

    def test_native_leaves_them_out(self):
        for filters in (self.lets_i386, self.lets_x32, self.lets_both):
            for words, verdict in ((("--native",), "same"), (("--native", "--no-more"), "no more")):
                self.assertEqual(self.said(*words, filters, self.profile("X86", "X32")), (0, [
                    verdict, "other SCMP_ARCH_X86", "other SCMP_ARCH_X32",
                    "# --native leaves out SCMP_ARCH_X86 and SCMP_ARCH_X32, which the profile also names"]))
            self.assertEqual(self.said("--calls", filters, self.profile())[1][1].split(" args")[0],
                             "x32 0 read differs" if filters == self.lets_both else "x32 1073741824 differs")
        self.assertEqual(self.said("--native", self.wrong, self.profile("X86", "X32"))[0], 1)

    def test_each_call_of_each_architecture(self):
        """A line of another architecture than x86-64 has its name first."""
        profile = self.profile("X86", "X32")
        status, lines = self.said("--calls", self.lets_both, profile)
        named = [line for line in lines if not line.startswith("#")][1:]
        numbers = sorted(set(tables.architecture_table("SCMP_ARCH_X32").numbers()) - {READ})
        self.assertEqual((status, lines[0]), (1, "differs"))
        self.assertEqual(named[0], "i386 3 read differs args 0x0 0x0 0x0 0x0 0x0 0x0 filter ERRNO 1 profile ALLOW 0")
        self.assertEqual([line.split()[:2] for line in named[1:]], [["x32", str(number)] for number in numbers])
        report_json = self.json_of("compare", "--calls", "--json", self.lets_both, profile)
        self.assertEqual([(call["architecture"], call["call"]["number"], call["call"]["architecture"])
                          for call in report_json["calls"]],
                         [("i386", 3, hex(I386)), *(("x32", 0x40000000 + number, hex(X86_64)) for number in numbers)])

    def test_each_architecture_that_is_named_is_judged(self):
        """Its syscalls have the names and the entries that they have there."""
        for filters, names, arch, number, shown in (
                (self.lets_i386, ("X86",), I386, 3, "read (3) of the architecture i386"),
                (self.lets_x32, ("X32",), X86_64, 0x40000000, "read (0x40000000 + 0), an x32 syscall"),
                (self.lets_both, ("X86", "X32"), I386, 3, "read (3) of the architecture i386")):
            status, lines = self.said(filters, self.profile(*names))
            self.assertEqual((status, lines[:4]), (1, [
                "differs", f"call nr {number} arch {arch:#x} ip 0x0 args 0x0 0x0 0x0 0x0 0x0 0x0", "filter ERRNO 1",
                "profile ALLOW 0"]))
            self.assertIn(f"# the syscall is {shown}", lines)
            self.assertTrue(any(line.startswith("# by entry 0 of syscalls: ") for line in lines), lines)
        rows = [line for line in lines if line.startswith(("# i386 ", "# x32 "))]
        self.assertEqual(rows[0], "# i386 3 read differs args 0x0 0x0 0x0 0x0 0x0 0x0 filter ERRNO 1 profile ALLOW 0")
        self.assertEqual(rows[1].split()[1:5], ["x32", "1", "write", "differs"])
        report_json = self.json_of("compare", "--json", self.lets_i386, self.profile("X86"))
        self.assertEqual((report_json["scope"], report_json["architectures"]),
                         ("listed", ["SCMP_ARCH_X86_64", "SCMP_ARCH_X86"]))

    def test_all_records(self):
        """Those of the architectures that are named, and that all others are denied."""
        names, i386, x32 = ("X86", "X32"), allows(3), allows(0x40000000)

        def of_three(x32):
            return (load(4) + jeq(I386, 0, len(i386) // 8) + i386 + jeq(X86_64, 1, 0) + ret(KILL_PROCESS) + load(0)
                    + jge(0x40000000, 0, len(x32) // 8) + x32 + allows(READ))

        for data, architecture in ((of_three(x32), None), (of_three(ret(EPERM)), "0xc000003e"),
                                   (load(4) + jeq(0xC0FFEE, 0, 1) + ret(EPERM) + of_three(x32), "0xc0ffee")):
            status, lines = self.said("--all", self.file("f.bpf", data), self.profile(*names))
            self.assertEqual((status, lines[0]), (0, "same") if architecture is None else (1, "differs"))
            self.assertEqual(architecture is None or lines[1].split()[4] == architecture, True, lines)
        # what the profile may be for, and what it isn't for
        mips, arm = (load(4) + jeq(arch, 0, 1) + ret(EPERM) for arch in (8, 0x40000028))
        for data, status, first in ((mips, 4, self.UNDETERMINED), (arm + mips, 1, "differs")):
            actual, lines = self.said("--all", self.file("f.bpf", data + of_three(x32)), self.profile(*names, "MIPS"))
            self.assertEqual((actual, lines[0]), (status, first))

    def test_a_call_that_decides_and_that_the_profile_may_be_for(self):
        """Of an architecture that scf has no table of, if nothing else decides."""
        mips = load(4) + jeq(8, 0, 1) + ret(EPERM)
        fits, wrong = (self.file(f"{at}.mips", mips + filter_of(numbers)) for at, numbers in enumerate(([READ], [])))
        for words in ((), ("--no-less",)):
            status, lines = self.said("--all", *words, fits, self.profile("MIPS"))
            self.assertEqual((status, lines[0]), (0, "no less") if words else (4, self.UNDETERMINED))
        self.assertEqual(lines[2:3],
                         ["# the profile's other architectures aren't judged, since scf has no table of them"])
        report_json = self.json_of("compare", "--all", "--json", fits, self.profile("MIPS"))
        self.assertEqual((report_json["status"], report_json["verdict"]), (4, "undetermined"))
        self.assertNotIn("profile", report_json)
        self.assertEqual(self.said("--all", fits, self.profile())[1][0], "differs")
        self.assertEqual(self.said("--all", wrong, self.profile("MIPS"))[1][:2], [
            "differs", "call nr 0 arch 0xc000003e ip 0x0 args 0x0 0x0 0x0 0x0 0x0 0x0"])
        self.assertEqual(self.said(fits, self.profile("MIPS"))[1][:2], ["same", "other SCMP_ARCH_MIPS"])

    def test_what_a_profile_does_not_name_is_denied(self):
        """Or differs, by a call."""
        fits = self.file("f.bpf", of_abis(allows(READ), allows(3), ret(ALLOW)))
        shown = "call nr 1073741824 arch 0xc000003e ip 0x0 args 0x0 0x0 0x0 0x0 0x0 0x0"
        open_abi = "# x32: some syscalls are allowed, such as read (0x40000000 + 0): ALLOW; the profile doesn't name " \
                   "SCMP_ARCH_X32"
        for words, word in (((), "differs"), (("--no-more",), "more"), (("--disposition",), "differs")):
            status, lines = self.said(*words, fits, self.profile("X86"))
            self.assertEqual((status, lines[:4]), (1, [word, shown, "filter ALLOW 0", "profile KILL_PROCESS 0"]), words)
            self.assertIn("# the syscall is read (0x40000000 + 0), an x32 syscall", lines)
            self.assertIn("# by no entry: the syscall is of another ABI", lines)
            self.assertIn(open_abi, lines)
        self.assertEqual(self.said("--calls", fits, self.profile("X86")), (1, [
            "differs", "x32 0 read differs args 0x0 0x0 0x0 0x0 0x0 0x0 filter ALLOW 0 profile KILL_PROCESS 0",
            open_abi]))
        self.assertEqual(self.said("--no-less", fits, self.profile("X86")), (0, ["no less"]))
        report_json = self.json_of("compare", "--json", fits, self.profile("X86"))
        self.assertEqual((report_json["call"]["number"], report_json["profile"]["action"], report_json["no_more"]),
                         (0x40000000, "KILL_PROCESS", "more"))
        self.assertEqual([(access["kind"], len(access["not_denied"])) for access in report_json["foreign"]],
                         [("x32", 1)])

    def test_number_minus_one(self):
        """It skips a syscall, and libseccomp's filters leave it to the default: it isn't one of x32."""
        skips = self.file("f.bpf", of_abis(allows(READ), ret(EPERM), allows(0xFFFFFFFF), 0))
        self.assertEqual(self.said(skips, self.profile()), (0, ["same"]))
        status, lines = self.said(self.file("f.bpf", of_abis(allows(READ), ret(EPERM), ret(EPERM))), self.profile())
        self.assertEqual((status, lines[1].split(" ip ")[0]), (1, "call nr 2147483648 arch 0xc000003e"))

    def test_all_profiles_of_a_unit(self):
        """Each judges its architectures, and none those of another one."""
        fits, ours = self.file("f.bpf", of_abis(allows(READ), allows(4), ret(EPERM), 0)), self.profile()
        i386 = {"architectures": ["SCMP_ARCH_X86"]}
        writes, reads = (self.file(f"{name}.json", {**json.loads(profile_of(name)), **i386})
                         for name in ("write", "read"))
        self.assertEqual(self.said("--also", writes, fits, ours), (0, ["same"]))
        self.assertEqual(self.said(fits, ours)[1][0], "differs")
        status, lines = self.said("--also", reads, fits, ours)
        self.assertEqual((status, lines[1][:26]), (1, "call nr 4 arch 0x40000003 "))
        for words in ("--native", "--all"):
            self.assertEqual(self.run_tool("compare", words, "--also", writes, fits, ours)[0], 2)

    def test_ask(self):
        for arch, number, names, line in (("i386", "3", ("X86",), "ALLOW 0 entry 0"),
                                          ("i386", "read", ("X86", "X32"), "ALLOW 0 entry 0"),
                                          ("i386", "4", ("X86",), "ERRNO 1 default"),
                                          ("x32", "0", ("X86", "X32"), "ALLOW 0 entry 0"),
                                          ("aarch64", "63", ("AARCH64",), "ALLOW 0 entry 0"),
                                          ("loongarch64", "63", ("LOONGARCH64",), "ALLOW 0 entry 0"),
                                          ("sh", "3", ("SH",), self.UNDETERMINED),
                                          ("x32", "0", ("X86",), "KILL_PROCESS 0 foreign"),
                                          ("i386", "3", (), "KILL_PROCESS 0 foreign"),
                                          ("x86_64", "-1", ("X86",), "KILL_PROCESS 0 foreign"),
                                          ("x86_64", "-1", ("X86", "X32"), "ERRNO 1 default"),
                                          ("x86_64", "read", ("X86", "X32"), "ALLOW 0 entry 0")):
            words = ("ask", f"--arch={arch}", "--nr", number)
            self.begins(4 if line == self.UNDETERMINED else 0, line, self.run_tool(*words, self.profile(*names)))
            first_call = self.json_of(*words, "--json", self.profile(*names))["calls"][0]
            self.assertEqual("answer" in first_call, line != self.UNDETERMINED)
        native = self.run_tool("ask", "--native", "--arch=i386", "--nr=read", self.profile("X86"))
        self.assertEqual((native[0], native[1].split("\n")[0]), (4, self.UNDETERMINED))


class WithAnotherScf(unittest.TestCase):
    """What scf is asked where it lists no differences, and what is made of its lines."""

    SAYS = {"answers": (4, "unfinished"), "compare --native --no": (4, "unfinished"), "decide": (0, "ALLOW 0"),
            "compare --calls": (1, "differs\n39 getpid unfinished"), "ask": (0, ""), "compare --native --limit": (
                1, "differs\ncall nr 39 arch 0xc000003e ip 0x0 args 0x0 0x0 0x0 0x0 0x0 0x0\nfilter ALLOW 0\n"
                   "profile ERRNO 1")}

    def test_each_question(self):
        """Filters stand oldest first, and each question has the limit."""
        asked = {}

        def run(words, given=b"", *_):
            asked[" ".join(words)] = given
            status, text = next(says for words, says in self.SAYS.items() if list(asked)[-1].startswith(words))
            return client.Run(status, f"{text}\n".encode())

        pair = compare.Comparison([Filter("a", b"A\0AA"), Filter("b", b"B\0")], ProfileInput(b"{}"),
                                  tables.Table(b"getpid 39\n"), is_native=True)
        with mock.patch.object(client, "run_scf", run), mock.patch.dict(client.limits, {"limit": "7"}):
            report = compare_output.Judgement.of([pair], NATIVE_SCOPE).report
            lines = [*compare_output.comparison_notes(pair, report, NATIVE_SCOPE)]
        self.assertEqual(asked["compare --native --limit=7"], part("filter", b"A\0AA") + part("filter", b"B\0")
                         + part("profile", b"{}") + part("table", b"getpid 39\n"))
        self.assertEqual([words for words in asked if words[:3] == "com"], [f"compare {words} --limit=7" for words in (
            "--native", "--native --no-more", "--native --no-less", "--calls")])
        self.assertEqual(lines[-2:], ["syscalls in the table without a verdict: 1", "39 getpid unfinished"])


class Decide(Case):
    def setUp(self):
        super().setUp()
        self.filter = self.file("f.bpf", filter_of([READ]))

    def test_by_number_and_by_name(self):
        for number in ("1", "0x1", "write"):
            self.assertEqual(self.run_tool("decide", "--nr", number, self.filter),
                             (0, "ERRNO 1\n# the syscall is write (1)\n# ERRNO 1: the syscall fails with "
                                 "EPERM\n# the path in the filter: 0 1 3 4 6 7\n", ""))
        self.assertEqual(self.run_tool("decide", "--nr=0", self.filter)[1],
                         "ALLOW 0\n# the syscall is read (0)\n# ALLOW: the syscall is executed\n# the path in the "
                         "filter: 0 1 3 4 6 8\n")
        out = self.run_tool("decide", "--table=-", "--nr", "own", self.filter, given=b"own 1\n")[1]
        self.assertTrue(out.startswith("ERRNO 1\n# the syscall is own (1)\n"), out)
        self.is_refused("the table has no syscall 'no_such_call'", "decide", "--nr", "no_such_call", self.filter)

    def test_each_option_is_handed_on(self):
        for word, option, value in ((8, "--ip", 7), *((16 + 8 * at + 4 * half, f"--a{at}", 7 << 32 * half)
                                                      for at in range(6) for half in range(2))):
            asks = self.file("a.bpf", load(word) + jeq(7, 0, 1) + ret(ALLOW) + ret(EPERM))
            self.begins(0, "ALLOW 0", self.run_tool("decide", "--nr=0", option, str(value), asks))
        out = self.run_tool("decide", "--nr=0", "--arch", "0x40000003", self.filter)[1]
        self.assertEqual(out, "KILL_PROCESS 0\n# the syscall is restart_syscall (0) of the architecture i386\n"
                         "# KILL_PROCESS: the process is killed\n# the path in the filter: 0-2\n")

    def test_faults_and_wrong_words(self):
        out = self.output_of(2, "decide", "--nr=0", self.file("e.bpf", b""))
        self.assertTrue(out.startswith("fault filter Empty\n# The filter has no instruction"), out)
        out = self.output_of(2, "decide", "--nr", "4294967296", self.filter)
        self.assertTrue(out.startswith("fault number nr\n# The option's text isn't a number below 2^32"), out)
        for words in ((self.folder,), ("--table", "none", self.filter)):
            self.is_refused("decide: ", "decide", *words)


class Explain(Case):
    """What a pasted line means."""

    def explained(self, *words, **settings):
        return self.output_of(0, "explain", *words, **settings).split("\n")[:-1]

    def test_lines_of_logs(self):
        """A fault, a verdict or a status is found behind what a log puts before it."""
        for before in ("", "2024-05-01T12:00:00.0000000Z ", "May 01 12:00:00 host scf[123]: ", "web-1  | ",
                       "[job 3] 12:00:01.5 ", "\x1b[31m"):
            for line, means in (("fault filter Empty", "The filter has no instruction."),
                                ("fault profile Conflict number 41 first 1 second 2", "the syscall is socket (41)"),
                                ("same", "every syscall that was compared"),
                                ("no more", "nowhere are the filters more"),
                                ("unconfined though configured", "though its configuration has a profile"),
                                ("ERRNO 1 entry 3", "entry 3 of the profile's syscalls"),
                                ("undecided at 7", "A run of a filter can end at this instruction"),
                                ("exit code 70.", "an internal error"), ("status 137", "signal 9 ended it")):
                lines = self.explained(before + line)
                self.assertTrue(any(means in line for line in lines), (before + line, lines))
        self.assertEqual(self.explained("fault", "filter", "Empty"), self.explained("fault filter Empty"))
        for number in (0, 1, 2, 3, 4, 70, 125):
            self.assertEqual(len(self.explained(str(number))), 1)

    def test_what_scf_prints(self):
        """Each line of a comparison, and of one by syscalls."""
        given = (part("filter", filter_of([41])) + part("profile", profile_of("read"))
                 + part("table", b"read 0\nsocket 41\n"))
        for words in (["compare", "--native"], ["compare", "--calls"], ["compare", "--native", "--limit=0"]):
            printed = self.run_words([*CORE, *words], given)[1]
            out = self.explained(given=printed.encode())
            self.assertEqual([line for line in out if line[0] != "#"], printed.split("\n")[:-1])
            for line in printed.split("\n")[:-1]:
                self.assertEqual(out[out.index(line) + 1][:2], "# ", line)
        self.assertEqual(self.run_tool("explain", given=b"hello\n"), (2, "hello\n", ""))
        self.assertEqual(self.run_tool("explain", "fault profile Conflict first 0")[0], 0)

    def test_each_word_of_the_objects(self):
        """Each verdict, disposition, reason and action that docs/scf.schema.json has is a word that tools print."""
        kinds = json.loads(text_of(os.path.join(TOP, "docs", "scf.schema.json")))["$defs"]
        words = {word for kind in ("verdict", "disposition", "reason", "action", "audit-verdict")
                 for word in kinds[kind]["enum"]}
        words.update(kinds["stack-verdict"]["anyOf"][0]["enum"],
                     kinds["surface-row"]["properties"]["disposition"]["enum"],
                     kinds["change"]["properties"]["change"]["enum"],
                     kinds["needs"]["properties"]["calls"]["items"]["properties"]["disposition"]["enum"])
        self.assertLess({"depends", "unstated", "delegated", "stub", "not known", "ERRNO", "undecided"}, words)
        for word in words - {"entry"} | {"entry 3"}:
            with self.subTest(word):
                self.explained(word)
        self.assertEqual(len(self.explained("ERRNO 38 stub")), 2)

    def test_what_each_answer_does(self):
        for answer, line, means in (
                (0x7FFC0000, "LOG 0", "LOG: the syscall is executed, and logged"),
                (0x00030007, "TRAP 7", "TRAP 7: the syscall isn't executed, and the thread gets SIGSYS"),
                (0x7FC00000, "USER_NOTIF 0",
                 "USER_NOTIF: a supervisor handles the syscall; without one it fails with ENOSYS"),
                (0x7FF00000, "TRACE 0", "TRACE 0: a tracer handles the syscall; without one it fails with ENOSYS"),
                (0, "KILL_THREAD 0", "KILL_THREAD: the thread is killed"),
                (0x00050000, "ERRNO 0", "ERRNO 0: the syscall isn't executed, and returns 0 as if it had succeeded"),
                (0x12340000, "UNNAMED 0x12340000",
                 "UNNAMED 0x12340000: the process is killed, since seccomp(2) has no such action"),
                *((0x50000 | number, f"ERRNO {number}", f"ERRNO {number}: the syscall fails with {name}")
                  for number, name in ((38, "ENOSYS"), (11, "EAGAIN"), (35, "EDEADLK"), (95, "EOPNOTSUPP"),
                                       (4095, "errno 4095"),
                                       (4096, "errno 4095, the greatest that the kernel returns")))):
            self.assertEqual(self.run_words([*CORE, "run"], ret(answer))[1], f"{line} steps 1\n")
            self.assertEqual(self.run_tool("explain", f"{line} steps 1"),
                             (0, f"{means}\nthe filter ran 1 instruction\n", ""))
