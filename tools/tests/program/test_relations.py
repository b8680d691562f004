"""--no-more and --no-less of the tools, beside the verdicts of test_comparisons: what is said of a difference, and
foreign calls, held against another machine's answers to each call at which something can change."""
import itertools
import json
import re
from unittest import mock

from program.test_comparisons import ALLOWS, ALLOWS_READ, ANSWERS, PAIRS, SOCKET, WRITE, READ, profile
from support.common import (ALLOW, EPERM, I386, KILL_PROCESS, LOG, TRACE, USER_NOTIF, X32, X86_64, Case, filter_of,
                            gate, insn, jeq, jge, load, ret)
from support.confined import Confined, here
from support.several import disposition
from support.stand_in import StandIn
from scftools.model import answers, calls, tables
from scftools.ask import client, questions, regions
from scftools.forms.filters import Filter
from scftools.forms.profile_inputs import ProfileInput
from scftools.report import compare

# Numbers on both sides of all that the filters and profiles here test, of x86-64 and of other architectures.
NUMBERS = (0, 1, 2, 39, 40, 41, 42, 43, 231, 449, 450, X32 - 1, X32, X32 + 1, 0xFFFFFFFF)
ARCHITECTURES = (X86_64, I386, 0xC00000B7, 0)
ARGUMENTS = (0, 1, 39, 40, 41, (1 << 32) + 40, (1 << 64) - 1)


# Calls on both sides of each test of a filter or a profile here.
CORNERS = [calls.Call(number, architecture, 0, (argument, 0, 0, 0, 0, 0))
           for architecture, number, argument in itertools.product(ARCHITECTURES, NUMBERS, ARGUMENTS)]


def allows_alone(kind):
    """A filter that allows the syscalls of i386 alone, or those of x32."""
    x32 = load(0) + jge(X32, 0, 1) + jge(2 * X32, 0, 1) + ret(KILL_PROCESS)
    return load(4) + jeq(kind.number, 1, 0) + ret(KILL_PROCESS) + (x32 if kind.first else b"") + ret(ALLOW)


def known_of(filters):
    """What filters allow of i386 and x32."""
    return [questions.abi_access(filters, regions.regions_of_filters(filters), abi) for abi in questions.ABIS]


def one_number(number, answer, default):
    return gate(jeq(number, 0, 1) + ret(answer) + ret(default))


class Dispositions(Case):
    def test_each_answer(self):
        """What becomes of a call, as the tools say it."""
        for answer in ANSWERS:
            printed = answers.Answer.read(StandIn().printed(answer))
            self.assertEqual(printed.disposition, ("denied", "delegated", "allowed")[disposition(answer)], hex(answer))
        self.assertEqual([answers.Answer.read(answer).disposition
                          for answer in ("ERRNO 65535", "USER_NOTIF 0", "TRACE 9", "LOG 0")],
                         ["denied", *["delegated"] * 2, "allowed"])


class Compare(Case):
    """tools/compare with both flags."""

    def compare(self, filters, given, *options):
        return self.told("compare", *options, *self.filter_files(filters), self.file("p.json", given))

    def test_no_more_and_no_less(self):
        for words in (["--no-more"], ["--no-more", "--native"], ["--no-more", "--calls"]):
            self.assertEqual(self.compare([filter_of([READ])], ALLOWS_READ, *words), (0, ["no more"]))
        self.assertEqual(self.compare([filter_of([READ, WRITE])], ALLOWS_READ, "--no-less"), (0, ["no less"]))

    def test_what_becomes_of_the_call(self):
        status, lines = self.compare([filter_of([READ, WRITE])], ALLOWS_READ, "--no-more")
        self.assertEqual((status, lines[:9]), (1, [
            "more", "call nr 1 arch 0xc000003e ip 0x0 args 0x0 0x0 0x0 0x0 0x0 0x0", "filter ALLOW 0",
            "profile ERRNO 1", "# the syscall is write (1)", "# the filter answers ALLOW: the syscall is executed",
            "# the profile answers ERRNO 1: the syscall fails with EPERM",
            "# the syscall is allowed by the filter, and denied by the profile", "# by the default"]))
        status, lines = self.compare([one_number(WRITE, TRACE, ALLOW), ret(ALLOW)], ALLOWS, "--no-less", "--native")
        self.assertEqual((status, lines[0]), (1, "less"))
        self.assertIn("# the syscall is delegated to a supervisor or tracer by the filters, and allowed by the profile",
                      lines)
        self.assertEqual(lines[-2:], [
            "# syscalls in the table answered more strictly than by the profile: 1",
            "# 1 write less args 0x0 0x0 0x0 0x0 0x0 0x0 filter TRACE 0 profile ALLOW 0"])

    def test_calls_by_name(self):
        status, lines = self.compare([filter_of([READ, WRITE])], ALLOWS_READ, "--no-more", "--calls")
        self.assertEqual((status, lines), (1, [
            "more", "1 write more args 0x0 0x0 0x0 0x0 0x0 0x0 filter ALLOW 0 profile ERRNO 1"]))
        # 400 has none
        _, lines = self.compare([filter_of([READ, 400])], ALLOWS_READ, "--no-more", "--native")
        self.assertEqual(lines[-1], "# no syscall in the table is among those answered more permissively than by the "
                                    "profile")

    def test_the_first_line_behind_a_difference(self):
        """Over each scope; not where more is let through, and not where it isn't told."""
        refuses = "is stricter, and never more permissive than the profile"
        lets = "is neither more permissive nor stricter than the profile: only the answers differ"
        for name, message in (("a rule is dropped", f"it {refuses}"),
                           ("both together too little", "they are stricter, and never more permissive than the "
                                                        "profile"),
                           ("a thread is ended for foreign calls", f"it {lets}"), ("an ENOSYS stub", f"it {lets}"),
                           ("all is refused", f"it {refuses}"), ("no native call is refused", f"it {lets}")):
            filters, given, *_ = PAIRS[name]
            for scope in ([], ["--native"], ["--calls"]):
                status, lines = self.compare(filters, given, *scope)
                if status == 0:
                    continue
                first = next(line for line in lines if line.startswith("# "))
                prefix = "over the syscalls in the table: " if scope == ["--calls"] else ""
                self.assertEqual(first, f"# {prefix}{message}", (name, scope))
        for name in ("one more and one less", "one lets more through", "foreign calls are made"):
            filters, given, *_ = PAIRS[name]
            lines = self.compare(filters, given)[1]
            self.assertFalse([line for line in lines if re.search("no more|neither more|stricter|never more", line)],
                             name)
        self.assertIn("# it delegates more to a supervisor or tracer, and is never more permissive than the profile",
                      self.compare([one_number(WRITE, USER_NOTIF, ALLOW)], ALLOWS)[1])

    def test_json(self):
        filters, given, *_ = PAIRS["a rule is dropped"]

        def report_of(*words):
            return self.json_of("compare", "--json", *words, *self.filter_files(filters), self.file("p.json", given))

        plain = report_of()
        self.assertEqual([plain[member] for member in ("status", "verdict", "no_more", "no_less")],
                         [1, "differs", "no more", "less"])
        self.assertNotIn("relation", plain)
        for words, status, relation, verdict in ((["--no-more"], 0, "no more", "no more"),
                                                 (["--no-less", "--native"], 1, "no less", "less")):
            report = report_of(*words)
            self.assertEqual((report["status"], report["relation"], report["verdict"]), (status, relation, verdict))
            self.assertNotIn("no_more", report)
        self.assertEqual([(call["number"], call["verdict"]) for call in report["calls"]], [(SOCKET, "less")])

    def test_both_flags(self):
        for name, words in (("compare", ["f", "p"]), ("verify-process", ["1", "p"])):
            self.is_refused("not allowed with argument", name, "--no-more", "--no-less", *words)


class Foreign(Case):
    """Foreign calls of each kind, beside the answers of a second machine."""

    def test_each_kind(self):
        """The filters of the pairs and some more: a call of the kind is shown exactly where one isn't refused."""
        given = [row[0] for row in PAIRS.values() if all(isinstance(data, bytes) for data in row[0])]
        for kind in questions.ABIS:
            alone = allows_alone(kind)
            given.append([alone])
            given.append([load(0) + jeq(43, 0, 1) + ret(LOG) + ret(EPERM), alone])
        given += [[filter_of([READ], foreign=answer)] for answer in ANSWERS]
        for filters in given:
            for kind, access in zip(questions.ABIS, known_of(filters)):
                self.assertTrue(access.is_decided)
                through = [call for call in CORNERS if self.is_of(kind, call)
                           and disposition(StandIn().decision(filters, call))]
                self.assertEqual(access.are_denied, not through, (kind.name, filters))
                if through:
                    call = access.call
                    self.assertTrue(self.is_of(kind, call), access)
                    self.assertEqual(access.verdict.filters, answers.Answer.read(StandIn().decide(filters, call)))

    def is_of(self, kind, call):
        if call.architecture == X86_64:
            return kind.name == "x32" and X32 <= call.number < 2 * X32
        return kind.name == "i386" and call.architecture == I386 and call.number < 2 * X32

    def test_told(self):
        lines = [access.describe() for access in known_of([ret(TRACE)])]
        self.assertEqual(lines, ["i386: not every syscall is denied, such as restart_syscall (0): TRACE 0",
                                "x32: not every syscall is denied, such as read (0x40000000 + 0): TRACE 0"])

    def test_which_are_denied(self):
        """i386, all of which this filter allows, isn't among them where the profile, or another one, names it."""
        i386, _ = questions.ABIS
        for data, names, elsewhere, shown in (
                (allows_alone(i386), ["SCMP_ARCH_X86_64", i386.oci], (), [("x32", True)]),
                (allows_alone(i386), ["SCMP_ARCH_X86_64"], (i386.oci,), [("x32", True)]),
                (allows_alone(i386), ["SCMP_ARCH_X86_64"], (), [("i386", False), ("x32", True)]),
                (ret(ALLOW), [i386.oci], (), []),
                (ret(EPERM), ["SCMP_ARCH_X86_64", "SCMP_ARCH_AARCH64"], (), [("i386", True), ("x32", True),
                                                                            ("arm", True)])):
            given = json.dumps({"defaultAction": "SCMP_ACT_ERRNO", "architectures": names}).encode()
            comparison = compare.Comparison([Filter("", data)], ProfileInput(given), tables.read_table(None),
                                            elsewhere=elsewhere)
            self.assertEqual([(access.abi.name, access.are_denied) for access in comparison.accesses], shown)

    def test_undecided_and_unfinished(self):
        """It is said so."""
        # an odd factor and a word XOR its own upper half each map the words one to one, so number 3 alone is logged; no
        # bit of the result is known before 17 bits of the number are
        factor = 0x9E3779B1
        product = 3 * factor & 0xFFFFFFFF
        mixed = load(4) + jeq(X86_64, 1, 0) + load(0) + insn(0x24, factor) + insn(0x07, 0) + insn(0x74, 16) + \
            insn(0xAC, 0) + jeq(product ^ product >> 16, 0, 1) + ret(LOG) + ret(EPERM)
        self.assertEqual({number for number in range(1000) if StandIn().decide([mixed], calls.Call(number, I386))
                          != "ERRNO 1"}, {3})
        accesses = known_of([mixed])
        self.assertEqual(accesses[0].describe(), "i386: undecided whether any syscall is allowed")
        self.assertEqual(accesses[0].as_json(), {"kind": "i386", "is_decided": False, "not_denied": []})
        with mock.patch.dict(client.limits, {"limit": "0"}):
            self.assertEqual([access.describe() for access in known_of([filter_of([READ])])], [
                f"{kind}: undecided whether any syscall is allowed" for kind in ("i386", "x32")])

    def test_a_computation_that_is_decided(self):
        """The number times the number is known from its lowest bit on."""
        squares = load(4) + jeq(X86_64, 1, 0) + load(0) + insn(0x07, 0) + insn(0x2C, 0) + jeq(9, 0, 1) + ret(LOG) + \
            ret(EPERM)
        accesses = known_of([squares])
        self.assertEqual([access.is_decided for access in accesses], [True, True])
        call = accesses[0].call
        self.assertTrue(self.is_of(accesses[0].abi, call), accesses)
        self.assertEqual((call.number ** 2 & 0xFFFFFFFF, str(accesses[0].verdict.filters)), (9, "LOG"))
        # x86-64 and x32 share an architecture, whose own number is squared there
        self.assertNotEqual(X86_64 ** 2 & 0xFFFFFFFF, 9)
        self.assertTrue(accesses[1].are_denied, accesses)


class VerifyProcess(Confined):
    @here
    def test_no_more_and_foreign_calls(self):
        refuses_more = gate(jeq(165, 2, 0) + jeq(166, 1, 0) + ret(ALLOW) + ret(EPERM))
        given = self.file("p.json", profile(("mount", "ERRNO", {}), default="ALLOW"))
        child = self.child([refuses_more])
        for words, status, verdict, says in (
                ([], 1, "differs", "# it is stricter, and never more permissive than the profile\n"),
                (["--no-more"], 0, "no more", ""),
                (["--no-less"], 1, "less", "\n# the syscall is denied by the filter, and allowed by the profile\n")):
            done = self.run_tool("verify-process", *words, str(child.pid), given)
            self.assertIn(says, self.begins(status, verdict, done))
        report = self.json_of("verify-process", "--no-more", "--json", str(child.pid), given)
        stack = report["stacks"][0]
        self.assertEqual((report["verdict"], stack["relation"]), ("no more", "no more"))
        self.assertEqual(stack["foreign"], [{"kind": kind.name, "is_decided": True, "not_denied": []}
                                            for kind in questions.ABIS])
