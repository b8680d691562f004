"""What two sides may answer differently, by regions: as it is parsed, and what follows from it, held against another
machine's answers to the calls on both sides of each test."""
import itertools
import random
import unittest

from support.common import ALLOW, KILL_PROCESS, KILL_THREAD, X32, X86_64, gate, ret
from support.judged import MACHINE, RELATIONS, Stack
from support.stand_in import unpacked, words_of
from program.test_comparisons import CORNERS, drawn, mutated
from scftools.base.program import ToolError
from scftools.model import architectures, tables
from scftools.model.answers import Answer
from scftools.model.calls import Call
from scftools.ask import regions
from scftools.ask.regions import EVERY_RECORD, Lookup, span_of
from scftools.ask.verdicts import ALL, CALLS, NATIVE_SCOPE, NO_LESS, NO_MORE, SAME, UNDECIDED, Verdict
from scftools.forms.filters import Filter
from scftools.forms.profile_inputs import ProfileInput
from scftools.report.compare import Comparison, StackComparison

NATIVE, HOLDS = architectures.NATIVE, {word: holds for word, _, holds in RELATIONS.values()}
# A syscall that one side allows for some arguments, one that only gets another errno, and numbers that nothing decides.
CLONE = ("ALLOW 0 at 0:4 beside ERRNO 1 entry 3 w0 0x38-0x39 w1 0xc000003e w4 0x5 w5 0x1-0xffffffff\n"
         "call nr 56 arch 0xc000003e ip 0x0 args 0x100000005 0x0 0x0 0x0 0x0 0x0\n")
ERRNO = ("ERRNO 38 at 1:7 beside ERRNO 1 default w0 0x1c2-0x3fffffff w1 0xc000003e\n"
         "call nr 450 arch 0xc000003e ip 0x0 args 0x0 0x0 0x0 0x0 0x0 0x0\n")
OPEN = ("ALLOW 0 at 0:6 beside ERRNO 1 stub open w0 0x64 w1 0xc000003e\n"
        "call nr 100 arch 0xc000003e ip 0x0 args 0x0 0x0 0x0 0x0 0x0 0x0\n")
UNKNOWN = ("unknown at 0:9 beside KILL_PROCESS 0 foreign w1 0x40000028\n"
           "call nr 0 arch 0x40000028 ip 0x0 args 0x0 0x0 0x0 0x0 0x0 0x0\n")


def found(*lines):
    return Lookup(regions.parse_regions("".join(lines) + f"regions {len(lines)} steps 9\n"), "profile")


class Parsed(unittest.TestCase):
    def test_both_sides(self):
        clone, _, is_open, unknown = found(CLONE, ERRNO, OPEN, UNKNOWN).regions
        self.assertEqual((clone.line, clone.answer, clone.beside.line, clone.beside.answer, clone.beside.entry),
                         ("ALLOW 0 at 0:4", Answer("ALLOW", 0), "ERRNO 1 entry 3", Answer("ERRNO", 1), 3))
        self.assertEqual([each.is_decided for each in (clone, is_open, unknown)], [True, False, False])
        self.assertIsNone(regions.parse_regions(CLONE + "regions 2 steps 9\n"))
        self.assertIsNone(regions.parse_regions(CLONE.replace(" beside ", " beside what ") + "regions 1 steps 9\n"))

    def test_what_follows(self):
        """A relation holds over records without a region, or where all of these have it, and fails by a decided one."""
        clone, errno, beyond = (Call(57, arguments=(0x100000005, 0, 0, 0, 0, 0)), Call(450), Call(56))
        listed, native = found(CLONE, ERRNO), [span_of(NATIVE)]
        self.assertEqual([listed.of(call) and listed.of(call).answer.action for call in (clone, errno, beyond)],
                         ["ALLOW", "ERRNO", None])
        self.assertEqual([listed.verdict(relation, native).word for relation in HOLDS],
                         ["differs", "more", "no less", "differs"])
        self.assertEqual([listed.verdict(relation, [span_of(NATIVE, 58)]).word for relation in HOLDS],
                         ["differs", "no more", "no less", "same disposition"])
        self.assertEqual(listed.verdict(SAME, [span_of(NATIVE, 57, 449)]).call, clone)
        self.assertEqual(listed.verdict(SAME, [span_of(NATIVE, 58, 449)]).word, SAME)
        table = tables.Table(b"fork 57\nread 0\nnew 450\n")
        self.assertEqual([line.line for line in listed.calls(NATIVE, table, SAME)], [
            "57 fork differs args 0x100000005 0x0 0x0 0x0 0x0 0x0 filter ALLOW 0 profile ERRNO 1",
            "450 new differs args 0x0 0x0 0x0 0x0 0x0 0x0 filter ERRNO 38 profile ERRNO 1"])

    def test_what_is_not_told(self):
        for text, names in ((OPEN, [NATIVE]), (UNKNOWN, ["SCMP_ARCH_ARM"])):
            listed, spans = found(text, ERRNO), [*map(span_of, names)]
            self.assertIsNone(listed.verdict(NO_MORE, spans))
            self.assertEqual(listed.verdict(NO_MORE, [span_of("SCMP_ARCH_X86")]).word, NO_MORE)
            self.assertEqual((listed.unknown.word, listed.unknown.at), (UNDECIDED, 6 if text == OPEN else 9))
        self.assertEqual(found(OPEN).verdict(NO_LESS, [span_of(NATIVE)]).word, NO_LESS)
        self.assertEqual(found(OPEN, ERRNO).verdict(SAME, [span_of(NATIVE)]).call.number, 450)
        self.assertIsNone(found(OPEN).calls(NATIVE, tables.Table(b"times 100\n"), SAME))
        self.assertIsNone(Lookup(None, "profile").verdict(SAME, EVERY_RECORD))
        self.assertIsNone(Lookup(None, "profile").calls(NATIVE, tables.Table(b""), SAME))

    def test_an_answer_of_the_other_side_that_is_not_known(self):
        listed = found("ALLOW 0 at 0:0 beside unknown at 0:4\ncall nr 0 arch 0x0 ip 0x0 args 0x0 0x0 0x0 0x0 0x0 0x0\n")
        self.assertEqual([listed.verdict(relation, EVERY_RECORD) for relation in HOLDS], [None] * len(HOLDS))
        self.assertIsNone(listed.of(Call(0, 0)))

    def test_an_open_region_without_a_record(self):
        """It may have none: nothing is told of the records that may lie in it, and it has no example."""
        listed = found("ERRNO 1 at 0:5 beside ALLOW 0 default open w0 0x87 w1 0xc000003e w4 0x1-0x3!0x3=0x1!0x2=0x2\n",
                       ERRNO)
        self.assertIsNone(listed.regions[0].call)
        self.assertIsNone(listed.verdict(SAME, [span_of(NATIVE, 135, 135)]))
        self.assertEqual(listed.verdict(SAME, [span_of(NATIVE, 136, 137)]), Verdict(SAME))
        self.assertEqual(listed.verdict(SAME, [span_of(NATIVE)]).call, Call(450))
        exact = found("ERRNO 1 at 0:5 beside ALLOW 0 default w0 0x87\n").regions[0]
        self.assertRaises(ToolError, lambda: exact.call)

    def test_scopes(self):
        """Filters that differ for other ABIs alone."""
        left, right = ([Filter("", gate(ret(ALLOW), answer))] for answer in (KILL_PROCESS, KILL_THREAD))
        allows = b'{"defaultAction": "SCMP_ACT_ALLOW"}'
        table = tables.read_table(None)
        for sides in (StackComparison(left, right, table), Comparison(right, ProfileInput(allows), table)):
            self.assertEqual([sides.known_verdict(scope, SAME).word for scope in (ALL, NATIVE_SCOPE, CALLS)],
                             ["differs", SAME, SAME])

    def test_beyond(self):
        """Each record is in one span, or of one of the architectures."""
        numbers = (0, 1, X32 - 1, X32, X32 + 1, 0xFFFFFFFF)
        values = (0, 7, 8, 9, 0x40000002, 0x40000003, 0x40000004, X86_64 - 1, X86_64, X86_64 + 1, 0xFFFFFFFF)
        for names in ([], [NATIVE], ["SCMP_ARCH_X32"], ["SCMP_ARCH_X32", NATIVE], ["what", "SCMP_ARCH_MIPS", NATIVE]):
            spans = list(regions.beyond(names))
            own = [span_of(name) for name in names if name != "what"]
            for record in itertools.product(values, numbers):
                self.assertEqual([all(low <= value <= high for value, (low, high) in zip(record, span))
                                  for span in (*spans, *own)].count(True), 1, (names, record))


def call_of(words):
    """The call of a record's sixteen words."""
    return Call(*words[:2], 0, tuple(low | high << 32 for low, high in zip(words[4::2], words[5::2])))


class Drawn(unittest.TestCase):
    def test_each(self):
        """Two drawn stacks, of which one is often the other with a change: what is told is so."""
        dice, told, table = random.Random(81), set(), tables.Table(b"read 0\nwrite 1\nsocket 41\n")
        for _ in range(60):
            left = [drawn(dice) for _ in range(dice.randrange(1, 3))]
            right = [mutated(dice, left[0]), *left[1:]] if dice.random() < 0.8 else [drawn(dice)]
            if any(MACHINE.fault(unpacked(data)) for data in (*left, *right)):
                continue
            stacks = Stack(left), Stack(right)
            comparison = StackComparison(*([Filter("", data) for data in side] for side in (left, right)), table)
            answered = {call: [stack.answer(words_of(call)) for stack in stacks] for call in map(call_of, CORNERS)}
            self.are_so(comparison.differences, answered)
            for relation, (scope, is_in) in itertools.product(HOLDS, (
                    (ALL, lambda call: True), (NATIVE_SCOPE, lambda call: call.is_native),
                    (CALLS, lambda call: call.is_native and call.number in (0, 1, 41)))):
                verdict = comparison.known_verdict(scope, relation)
                if verdict is not None:
                    told.add((scope, verdict.word))
                    wrong = [call for call, both in answered.items() if is_in(call) and not HOLDS[relation](*both)]
                    self.assertFalse(verdict.holds and wrong, (relation, scope))
                    if verdict.call is not None:
                        both = [stack.answer(words_of(verdict.call)) for stack in stacks]
                        self.assertEqual(both, [verdict.filters.word, verdict.profile.word])
                        self.assertFalse(HOLDS[relation](*both))
                        self.assertTrue(is_in(verdict.call))
        self.assertEqual(len(told), 3 * 7)

    def are_so(self, listed, answered):
        for call, both in answered.items():
            region = listed.of(call)
            if region is not None:
                self.assertEqual([region.answer.word, region.beside.answer.word], both, call)
            elif listed.is_finished and not listed.of_number(call):
                self.assertEqual(*both, call)
