"""What a filter may do with a word before it tests it: the pairs of support/constructs.py, filters that compute from a
number, and stacks with one whose answer is computed from two words."""
import os
import random

from support import constructs
from support.common import ALLOW, EPERM, insn, limited, load, ret
from support.constructs import (
    ADD, AND, JEQ, JGE, LD_K, LD_M, LSH, MUL, NEG, ST, SUB, TAX, WORD, X)
from support.judged import Judged, Pair, Profile, Stack
from support.on_parts import ALL, NO_TABLE, ONE_CALL, READ_TABLE, READ_WRITE_TABLE, a_profile, a_table, behind_gate
from support.on_parts import ALLOW as ALLOWING
from support.worked import ALL_BUT_TWO, MOST, WITHOUT_READ

# How many pairs of each construct and rewrite are drawn.
PAIRS = int(os.environ.get("SCF_CONSTRUCT_PAIRS", "16"))
# How pairs are compared, how they are drawn, and of what.
KINDS = ((("--native",), constructs.profile_pair, constructs.CONSTRUCTS),
         (("", "", "--beside"), constructs.filter_pair, constructs.REWRITES))

# What filters behind the gate compute from the number, and whether they allow 0 alone: what no construct of
# support/constructs.py draws.
READS = [
    ("tax; ld #2; st M[0]; txa; ldx M[0]; lsh x; rsh x; jeq #0, 0, 1", "same"),
    # bits that are shifted out: of the numbers, which are below 2^30, two may be, and all by two shifts
    ("lsh #2; jeq #0, 0, 1", "same"),
    ("lsh #4; jeq #0, 0, 1", "differs"),
    ("lsh #31; lsh #1; jeq #0, 0, 1", "differs"),
    ("rsh #31; rsh #1; jeq #0, 0, 1", "differs"),
    # orders that never or always hold
    ("st M[0]; rsh #4; jge #0x10000000, 2, 0; ld M[0]; jeq #0, 0, 1", "same"),
    ("st M[0]; div #16; lsh #2; jgt #3, 3, 0; ld M[0]; jeq #0, 0, 1", "same"),
    ("and #0xfffffff0; jge #0, 0, 1", "differs"),
    ("st M[0]; and #0xfffffff0; tax; ld #0; jge x, 0, 3; ld M[0]; jeq #0, 0, 1", "same"),
    ("jset #0xfffffff0, 0, 1; jgt #15, 2, 1; jeq #0, 0, 1", "same"),
    # numbers added and taken away, modulo 2^32
    ("add #0xffffffff; add #2; sub #1; jeq #0, 0, 1", "same"),
    ("tax; ld #7; add x; jeq #7, 0, 1", "same"),
    ("st M[0]; ldx #3; ld M[0]; sub x; jeq #0xfffffffd, 0, 1", "same"),
    ("st M[0]; ldx #3; ld M[0]; sub x; jeq #3, 0, 1", "differs"),
    # an X of 0
    ("st M[0]; ldx #0; ld M[0]; add x; or x; lsh x; jge #1, 1, 0", "same"),
    ("st M[0]; ldx #0; ld M[0]; sub x; xor x; rsh x; jgt #1, 1, 0", "differs"),
    # of known numbers
    ("ld #1; neg; jeq #0xffffffff, 1, 0; ret #0x7fff0000; ld [0]; jeq #0, 0, 1", "same"),
    ("ld #1; neg; jeq #0xffffffff, 0, 1; ret #0x7fff0000; ld [0]; jeq #0, 0, 1", "differs"),
    ("ld #3; mul #5; jeq #15, 1, 0; ret #0x7fff0000; ld [0]; jeq #0, 0, 1", "same"),
    ("ld #3; xor #5; jeq #6, 1, 0; ret #0x7fff0000; ld [0]; jeq #0, 0, 1", "same"),
    ("ld #3; xor #5; jeq #6, 0, 1; ret #0x7fff0000; ld [0]; jeq #0, 0, 1", "differs"),
    # an order of a known A against a word in X
    ("tax; ld #0; jge x, 0, 1", "same"),
    ("tax; ld #1; jge x, 0, 1", "differs"),
    ("tax; ld #1; jgt x, 0, 1", "same"),
    # a shift of a known number by a known X
    ("tax; st M[0]; ld #4; tax; ld #1; lsh x; jeq #16, 0, 3; ld M[0]; jeq #0, 0, 1", "same"),
    # the answer of a known 0, which kills the thread
    ("jeq #0, 1, 0; ret #0x50001; ld #0; ret a", "differs"),
    ("jeq #0, 0, 2; ld #0x7fff0000; ret a; ret #0x50001", "same"),
]
# Behind the gate, which has six instructions: allow each call, and each call but `write`, whose answer is ERRNO 1. The
# answer is computed from two words. All bits of a product with 0 are known.
ZERO = "ld [16]; tax; ld [24]; add x; mul #0;"
KNOWN = behind_gate(f"{ZERO} add #0x7fff0000; ret a")
KNOWN_WRITE = behind_gate(f"jeq #1, 1, 0; ret #0x7fff0000; {ZERO} add #0x50001; ret a")
# The same answers. The sum of two words less each of them is 0 as well, but its bits are known only where those of
# both words are: that takes 2^64 splits.
DIFFERENCE = "ld [24]; st M[0]; ld [16]; tax; ld M[0]; add x; sub x; ldx M[0]; sub x;"
UNKNOWN = behind_gate(f"{DIFFERENCE} add #0x7fff0000; ret a")
UNKNOWN_WRITE = behind_gate(f"jeq #1, 1, 0; ret #0x7fff0000; {DIFFERENCE} add #0x50001; ret a")
# No split, and the splits of the default.
SPLITS = "--splits=0", ""

class Constructs(Judged):
    def test_all_are_decided(self):
        """No pair is left undecided, no verdict is wrong, and none takes more than a second or 64 megabytes."""
        for how, drawn, makers in KINDS:
            for name, construct in makers.items():
                with self.subTest(name):
                    # (every other pair is changed; of bits of a sum, and so of some seeds, a few are left undecided)
                    dice = random.Random(f"60 {name}")
                    verdicts = [self.judge(drawn(dice, construct, at % 2 == 1), *how, preexec_fn=limited(1, 64 << 20))
                                for at in range(PAIRS)]
                    self.assertEqual(set(verdicts[::2]), {"same"})
                    self.assertEqual(set(verdicts[1::2]) - {"same"}, {"differs"})


class OneWord(Judged):
    """Filters of one word, which differ for some of its values, or for none."""

    def verdict(self, first, second, *more):
        return self.judge(Pair(Stack([first]), Stack([second], "beside"), ()), "", "", "--beside", *more)

    def test_terms_that_are_equal(self):
        """Each pair computes the same number of a word, or the same bits under a mask. Those of the first list need no
        split."""
        def shifted(count):
            return insn(ST, 1) + load(16) + insn(LSH, count) + insn(TAX, 0) + insn(LD_M, 1) + insn(ADD | X, 0)

        word, negated = load(16), load(16) + insn(NEG, 0)
        without_splits = (
            (word + insn(TAX, 0) + insn(SUB | X, 0), insn(LD_K, 0), insn(JEQ, 0, 0, 1)),
            (word + insn(MUL, 0x10001) + insn(AND, 0xffff), word + insn(AND, 0xffff), insn(JEQ, 0x1234, 0, 1)))
        by_splits = (
            (word + insn(LSH, 4) + shifted(2) + shifted(3), word + insn(MUL, 28), insn(JGE, 0x1234, 0, 1)),
            (negated + insn(MUL, 6), word + insn(MUL, -6 & WORD), insn(JGE, 0x1234, 0, 1)),
            (word + insn(AND, 0xffff) + insn(TAX, 0) + insn(MUL, -3 & WORD) + insn(ADD | X, 0),
             word + insn(AND, 0xffff) + insn(MUL, -2 & WORD), insn(JGE, 0xffff1234, 0, 1)))
        for pairs, words in ((without_splits, ["--splits=0"]), (by_splits, [])):
            for first, second, test in pairs:
                ends = test + ret(ALLOW) + ret(EPERM)
                with self.subTest(first=first.hex(), second=second.hex()):
                    self.assertEqual(self.verdict(first + ends, second + ends, *words), "same")

    def test_wide_masks(self):
        """Each of the 512 values under a mask of nine bits is tested, so how both filters end doesn't matter. They are
        all searched, if at most 16 bits are tested together, and else left to splits."""
        def is_tested(mask, value):
            return load(16) + insn(AND, mask) + insn(JEQ, value, 0, 1) + ret(ALLOW if value % 3 else EPERM)

        tests = [is_tested(0x1ff, value) for value in range(512)]
        for first, splits in ((b"", ["--splits=0"]), (is_tested(0xfe00, 0x5400), ["--splits=0"]),
                              (is_tested(0x1fe00, 0x5400), [])):
            some, each = (first + b"".join(these) for these in (tests[:-1], tests))
            with self.subTest(splits=splits):
                self.assertEqual(self.verdict(each + ret(EPERM), each + ret(ALLOW), *splits), "same")
                self.assertEqual(self.verdict(some + ret(EPERM), each + ret(ALLOW), *splits), "differs")
        self.assertRegex(self.verdict(each + ret(EPERM), each + ret(ALLOW), "--splits=0"), "^undecided at [0-9]+$")


class Computed(Judged):
    def test_computed_from_the_number(self):
        for code, wanted in READS:
            with self.subTest(code):
                filters = Stack([behind_gate(f"{code}; ret #0x7fff0000; ret #0x50001")])
                pair = Pair(filters, Profile(ONE_CALL, READ_TABLE))
                self.assertEqual(self.judge(pair, "", "", f"--limit={MOST}"), wanted)

    def test_the_filter_whose_answer_is_unknown(self):
        """The index of its answer is printed, wherever it stands in the stack."""
        for computed, text, status in ((UNKNOWN, "undecided at 16\n", 4), (KNOWN, "same\n", 0)):
            stacks = ([computed], [ALLOWING, computed], [computed, ALLOWING], [ALLOWING, computed, ALLOWING])
            self.print_each([(splits, [*stack, ALL, NO_TABLE], text, status) for stack in stacks for splits in SPLITS],
                            "compare", "--native", f"--limit={MOST}")

    def test_a_difference_behind_an_unknown_answer(self):
        """It is shown: the profile refuses `read`, too."""
        profile, other = [a_profile(ALL_BUT_TWO), a_table(READ_WRITE_TABLE)], behind_gate(WITHOUT_READ[1])
        differs = "differs\ncall nr 0 ..\nfilter ALLOW 0\nprofile ERRNO 1\n"
        for write, text, status in ((UNKNOWN_WRITE, "undecided at 18\n", 4), (KNOWN_WRITE, "same\n", 0)):
            for splits in SPLITS:
                self.print_each([("", [write, *profile], differs, 1), ("", [other, write, *profile], text, status),
                                 ("--limit 0", [other, write, *profile], "unfinished\n", 4)], "compare",
                                *splits.split())
