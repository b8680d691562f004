"""Profiles whose numbers stand in stretches, one behind the other or apart: a second machine finds that the compiled
filter answers each number as the rules say, within the search bound, and scf that filter and profile are the same."""
import json

from support.common import ALLOW, EPERM, I386, KILL_PROCESS, X32, X86_64
from support.judged import MACHINE, Judged, Pair, Profile, Stack, record_of
from support.on_parts import a_profile, a_table, bundle, ran

# The most instructions that a conditional jump passes.
FARTHEST = 255
LOG, ERRNO_5, ERRNO_22 = 0x7FFC0000, 0x00050005, 0x00050016
# The last number that a rule may have; past each low half; the greatest argument.
LAST, BIT_32, MOST = X32 - 1, 1 << 32, (1 << 64) - 1
ACTIONS = {ALLOW: "ALLOW", LOG: "LOG", KILL_PROCESS: "KILL_PROCESS"}


def rule(answer, *conditions):
    """An answer, and conditions: the index of an argument, an operator, a value and, of a mask, a second one."""
    return answer, [(*condition, 0)[:4] for condition in conditions]


ALLOWED, LOGGED, REFUSED = [rule(ALLOW)], [rule(LOG)], [rule(ERRNO_5)]
KILLED, DEFAULTED = [rule(KILL_PROCESS)], [rule(EPERM)]
# Rules that are like SEVEN, in all but one thing; or in all.
SEVEN, EIGHT = [rule(ALLOW, (0, "EQ", 7))], [rule(ALLOW, (0, "EQ", 8))]
HIGH_SEVEN, SECOND_SEVEN = [rule(ALLOW, (0, "EQ", BIT_32 | 7))], [rule(ALLOW, (1, "EQ", 7))]
NOT_SEVEN, LOGGED_SEVEN = [rule(ALLOW, (0, "NE", 7))], [rule(LOG, (0, "EQ", 7))]
SEVEN_TWICE = SEVEN + SEVEN
SEVEN_AND_REST = SEVEN + [rule(LOG, (0, "NE", 7))]
REST_AND_SEVEN = SEVEN_AND_REST[::-1]
# Conditions of each kind, on both halves, and ones that hold of each argument or of none.
RANGE = [rule(ALLOW, (0, "LT", 7)), rule(LOG, (0, "GT", BIT_32))]
CLOSED_RANGE = [rule(ALLOW, (0, "LE", 7)), rule(LOG, (0, "GE", BIT_32))]
ODD, WIDE_MASK = [rule(ALLOW, (0, "MASKED_EQ", 1, 1))], [rule(ALLOW, (0, "MASKED_EQ", 7, BIT_32 | 15))]
NEVER, ALWAYS = [rule(ALLOW, (0, "LT", 0))], [rule(ALLOW, (0, "LE", MOST))]
TWO_ARGUMENTS = [rule(ERRNO_22, (0, "EQ", 7), (2, "EQ", 9)), rule(ALLOW, (2, "NE", 9))]
# Six conditions, which take some fifty instructions.
SIX_CONDITIONS = [(place, "GE", BIT_32) for place in range(5)] + [(5, "LT", 8)]
SIX, SIX_LOGGED = [rule(ALLOW, *SIX_CONDITIONS)], [rule(LOG, *SIX_CONDITIONS)]
NO_ARGUMENTS = [(0,) * 6]
# Arguments that meet the conditions of one argument, or of two, and do not.
FEW_ARGUMENTS = [(0,) * 6, (7, 0, 9, 0, 0, 0), (7, 7, 0, 0, 0, 0), (8, 7, 9, 0, 0, 0), (BIT_32, 0, 0, 0, 0, 0),
                 (BIT_32 | 7, 0, 9, 0, 0, 0), (MOST,) * 6]
# Arguments that meet all six conditions, all but the fifth, all but the first, and all but the last.
SIX_ARGUMENTS = [(BIT_32, BIT_32, MOST, BIT_32, BIT_32, 7), (BIT_32,) * 4 + (BIT_32 - 1, 7),
                 (BIT_32 - 1,) + (BIT_32,) * 4 + (7,), (BIT_32,) * 5 + (8,)]

# The answer by default, and patterns: the first number, how many a stretch has, how many stretches there are, how far
# apart they begin, and the rules that they have in turn.
DENSE = [
    (EPERM, []),
    (EPERM, [(0, 1, 1, 0, [ALLOWED])]),
    (EPERM, [(0, 2, 1, 0, [ALLOWED])]),
    (EPERM, [(0, 100, 1, 0, [ALLOWED])]),
    (EPERM, [(0, 256, 1, 0, [ALLOWED])]),
    (EPERM, [(1, 255, 1, 0, [LOGGED])]),
    (EPERM, [(7, 340, 1, 0, [ALLOWED])]),
    # where the size bound is just below the greatest size, and just above it
    (EPERM, [(0, 681, 1, 0, [ALLOWED])]),
    (EPERM, [(0, 682, 1, 0, [ALLOWED])]),
    (EPERM, [(LAST, 1, 1, 0, [ALLOWED])]),
    (EPERM, [(LAST - 99, 100, 1, 0, [ALLOWED])]),
    (EPERM, [(LAST - 680, 681, 1, 0, [ALLOWED])]),
    (EPERM, [(0, 1, 1, 0, [ALLOWED]), (LAST, 1, 1, 0, [ALLOWED])]),
    # what is answered behind the last number, too
    (KILL_PROCESS, [(LAST - 9, 9, 1, 0, [ALLOWED]), (LAST, 1, 1, 0, [KILLED])]),
    (ALLOW, [(LAST - 3, 4, 1, 0, [KILLED])]),
]
SPARSE = [
    (EPERM, [(1, 1, 100, 2, [ALLOWED])]),
    (EPERM, [(1, 1, 681, 2, [ALLOWED])]),
    (EPERM, [(0, 1, 90, 3, [ALLOWED, LOGGED, REFUSED])]),
    (EPERM, [(5, 1, 64, 0x00FFFFFF, [ALLOWED])]),
    (EPERM, [(0, 2, 50, 3, [ALLOWED])]),
    (EPERM, [(LAST - 62, 1, 32, 2, [ALLOWED, LOGGED])]),
    (EPERM, [(1, 3, 3, 4, [ALLOWED])]),
]
# Stretches that touch, with gaps of one number and of many, and single numbers between them.
MIXED = [
    (EPERM, [(0, 1, 128, 1, [ALLOWED, LOGGED])]),
    (EPERM, [(0, 4, 40, 4, [ALLOWED, LOGGED])]),
    (EPERM, [(0, 10, 2, 10, [ALLOWED, LOGGED]), (20, 1, 1, 0, [REFUSED]), (21, 5, 1, 0, [ALLOWED]),
             (27, 1, 2, 2, [ALLOWED, LOGGED]), (30, 2, 1, 0, [ALLOWED]), (LAST - 1, 1, 2, 1, [LOGGED, ALLOWED])]),
    # a stretch that answers as the gaps beside it do
    (EPERM, [(0, 5, 3, 5, [DEFAULTED, ALLOWED, DEFAULTED]),
             (16, 1, 4, 1, [ALLOWED, DEFAULTED, ALLOWED, DEFAULTED])]),
    (EPERM, [(301, 100, 1, 0, [ALLOWED]), (300, 1, 1, 0, [LOGGED]), (100, 200, 1, 0, [ALLOWED])]),
]
CONDITIONS = [
    (EPERM, [(0, 40, 1, 0, [SEVEN])]),
    (EPERM, [(0, 3, 10, 3, [SEVEN, EIGHT])]),
    (EPERM, [(2, 1, 30, 2, [SEVEN, ALLOWED])]),
    # neighbours that are alike but for one thing, between two that are alike
    (EPERM, [(5, 1, 24, 1, [SEVEN, EIGHT, SEVEN, HIGH_SEVEN, SEVEN, SECOND_SEVEN, SEVEN, NOT_SEVEN, SEVEN,
                            LOGGED_SEVEN, SEVEN, SEVEN_TWICE])]),
    (LOG, [(0, 2, 6, 2, [SEVEN_AND_REST, REST_AND_SEVEN, SEVEN])]),
    (EPERM, [(0, 2, 8, 2, [RANGE, CLOSED_RANGE, ODD, WIDE_MASK]), (16, 2, 6, 2, [NEVER, ALWAYS, TWO_ARGUMENTS]),
             (LAST - 5, 2, 3, 2, [TWO_ARGUMENTS, ALLOWED, ODD])]),
    (ALLOW, [(0, 3, 4, 4, [NEVER, ALWAYS, SEVEN, LOGGED_SEVEN])]),
    # many rules of a number, which a jump passes just within 255 instructions, and just beyond
    *((EPERM, [(0, 1, 1, 0, [LOGGED_SEVEN + EIGHT]), (1, 1, 1, 0, [EIGHT * count + LOGGED_SEVEN])])
      for count in (*range(47, 53), 600)),
]
# Rules so long that a jump passes more than 255 instructions, on each side.
LONG = [
    (EPERM, [(0, 20, 1, 0, [SIX])]),
    (EPERM, [(3, 1, 20, 2, [SIX])]),
    (EPERM, [(0, 1, 20, 1, [SIX, SIX_LOGGED])]),
    (EPERM, [(0, 5, 4, 6, [SIX, ALLOWED, SIX_LOGGED, LOGGED])]),
]


def stretches_of(patterns):
    """The numbers of each stretch, and its rules."""
    return [(range(first + place * apart, first + place * apart + length), rules[place % len(rules)])
            for first, length, count, apart, rules in patterns for place in range(count)]


def action(answer, key, errno):
    if answer in ACTIONS:
        return {key: f"SCMP_ACT_{ACTIONS[answer]}"}
    return {key: "SCMP_ACT_ERRNO", errno: answer & 0xFFFF}


def profile_of(default, stretches):
    entries = [{**action(answer, "action", "errnoRet"), "names": [f"c{number}" for number in numbers], "args": [
        {"index": index, "op": f"SCMP_CMP_{op}", "value": value, "valueTwo": second}
        for index, op, value, second in conditions]}
        for numbers, rules in stretches for answer, conditions in rules]
    return json.dumps({**action(default, "defaultAction", "defaultErrnoRet"), "syscalls": entries})


def search_bound(rules_of):
    """8, and 2 for each binary digit of the count of the numbers, and the greatest sum of 2 and 8 for each condition
    over the rules of a number."""
    sums = [sum(2 + 8 * len(conditions) for _, conditions in rules) for rules in rules_of.values()]
    return 8 + 2 * len(rules_of).bit_length() + max(sums, default=0)


class Stretches(Judged):
    def records(self, stretches, arguments):
        """Each number of the stretches, their neighbours and the ends, with each of the arguments."""
        numbers = {number for first, _ in stretches for number in range(max(first.start - 1, 0), first.stop + 1)}
        asked = [(number, X86_64) for number in sorted(numbers | {0, LAST, X32, 0xFFFFFFFF})]
        return [record_of(*of, 0, given) for of in [*asked, (0, I386), (LAST, I386)] for given in arguments]

    def is_compiled(self, default, patterns, arguments):
        stretches = stretches_of(patterns)
        rules_of = {number: rules for numbers, rules in stretches for number in numbers}
        text, table = profile_of(default, stretches), "".join(f"c{number} {number}\n" for number in rules_of)
        compiled, status = ran(["compile"], bundle([a_profile(text), a_table(table)]))
        self.assertEqual(status, 0)
        pair, bound = Pair(Stack([compiled]), Profile(text, table), ()), search_bound(rules_of)
        program, = pair.left.programs
        # without conditions an answer isn't put again where one stands within a jump's reach
        for place, first in enumerate(program if arguments is NO_ARGUMENTS else ()):
            self.assertFalse(first[0] == 0x06 and first in program[place + 1:place + 1 + FARTHEST], (place, first))
        for record in self.records(stretches, arguments):
            path = []
            self.assertEqual(MACHINE.answer(program, record, path), pair.right.answer(record), record)
            self.assertLessEqual(len(path), bound, record)
        self.assertEqual(self.judge(pair), "same")

    def test_each(self):
        for subjects, arguments in ((DENSE + SPARSE + MIXED, NO_ARGUMENTS), (CONDITIONS, FEW_ARGUMENTS),
                                    (LONG, SIX_ARGUMENTS)):
            for default, patterns in subjects:
                with self.subTest(default=default, patterns=patterns):
                    self.is_compiled(default, patterns, arguments)
