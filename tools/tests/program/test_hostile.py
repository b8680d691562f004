"""Inputs made to hurt: each ends in its named answer, soon and in little memory.

What is expected comes from the formats: an answer, a fault's line, or one of two verdicts where both are true. The
bounds on time and memory leave room for slow machines; what grows with the square of a long input is beyond them.
"""
import itertools
import json
import random
import resource
import string

from support.common import ALLOW, CORE, GATE, KILL_PROCESS, X86_64, insn, jeq, jge, jset, load, part, ret
from support.measured import MeasuredCase

LIMIT_OF_TEXT, LIMIT_OF_INPUT = 4194304, 16777216
# Seconds of a processor: 3 are measured of a text of many labels in no order, and 0.9 of a million steps.
SECONDS, MEGABYTES = 30, 640
ALLOWS = b'{"defaultAction":"SCMP_ACT_ALLOW"}'
ALLOWS_COMPILED = GATE + ret(ALLOW)


def with_table(profile, table=b"read 0\n"):
    return part("profile", profile) + part("table", table)


def each_allowed(numbers):
    """A profile that allows each of these numbers by an entry of its own, and its table."""
    table = b"".join(b"c%d %d\n" % (number, number) for number in numbers)
    entries = b",".join(b'{"names":["c%d"],"action":"SCMP_ACT_ALLOW"}' % number for number in numbers)
    return with_table(b'{"defaultAction":"SCMP_ACT_KILL","syscalls":[%s]}' % entries, table)

def beside(value):
    """A profile that allows all, with a member that means nothing."""
    return b'{"defaultAction":"SCMP_ACT_ALLOW","x":%s}' % value


class Hostile(MeasuredCase):
    LIMITS = ((resource.RLIMIT_CPU, SECONDS),)

    def run_core(self, words, data):
        return self.measured([*CORE, *words], self.file("given", data))

    def ends(self, words, data, *expected, most=MEGABYTES, within=SECONDS):
        """It ends soon, in little memory, with one of these statuses and outputs; an output of None may be any."""
        status, out, _, seconds, megabytes = self.run_core(words, data)
        self.assertIn((status, out), [(want, out if text is None else text) for want, text in expected], out[:200])
        self.assertLess(seconds, within)
        self.assertLess(megabytes, most)
        return out

    def faults(self, words, data, line, status, most=MEGABYTES):
        self.ends(words, data, (status, line.encode() + b"\n"), most=most)

    def test_cut_filters(self):
        gate = load(4) + jeq(X86_64, 1, 0) + ret(KILL_PROCESS) + ret(ALLOW)
        for count in range(len(gate)):
            whole, remaining = divmod(count, 8)
            fault, status = {0: ("Empty", 1), 1: ("LastNotReturn", 1)}.get(whole, ("Jump at 1", 1))
            if remaining:
                fault, status = f"Truncated offset {count - remaining}", 3
            with self.subTest(count):
                self.faults(["check"], gate[:count], f"fault filter {fault}", status)

    def test_nested_json(self):
        for opening in (b"[", b'{"a":'):
            text = (opening * (LIMIT_OF_TEXT // len(opening) + 1))[:LIMIT_OF_TEXT]
            self.faults(["compile"], with_table(text), "fault profile Json", 1)

    def test_long_json(self):
        for text in (b'"' + b"\\n" * (LIMIT_OF_TEXT // 2 - 1) + b'"',
                     b'"' + b"\\u0041" * (LIMIT_OF_TEXT // 6 - 1) + b'"'):
            self.faults(["compile"], with_table(text), "fault profile Kind", 1)
        members = b'"a":1,' * ((LIMIT_OF_TEXT - 40) // 6)
        self.ends(["compile"], with_table(b"{" + members + ALLOWS[1:]), (0, ALLOWS_COMPILED))
        members = b"".join(b'"%x":1,' % number for number in range(380000))
        self.ends(["compile"], with_table(b"{" + members + ALLOWS[1:]), (0, ALLOWS_COMPILED))
        for array in (b"[" + b"0," * 2000000 + b"0]", b"[" + b"[]," * 1300000 + b"0]"):
            self.ends(["compile"], with_table(beside(array)), (0, ALLOWS_COMPILED))

    def test_a_number_of_a_million_digits(self):
        many = b"1" * 1000000
        for number in (many, b"1." + many, b"1e" + many, b"-" + many):
            self.ends(["compile"], with_table(beside(number)), (0, ALLOWS_COMPILED), (1, b"fault profile Json\n"))

    def test_many_rules(self):
        conditions = b"[%s]" % b",".join(b'{"index":%d,"value":%d,"op":"SCMP_CMP_LE"}' % (at, at) for at in range(6))
        entry = b'{"names":["read"],"action":"SCMP_ACT_ALLOW","args":%s}' % conditions
        count = (LIMIT_OF_TEXT - 100) // (len(entry) + 1)
        text = b'{"defaultAction":"SCMP_ACT_KILL","syscalls":[%s]}'
        self.faults(["compile"], with_table(text % b",".join([entry] * count)), "fault profile TooMany", 1)
        full = with_table(text % b",".join([entry] * 4096))
        self.faults(["compile"], full, "fault compile TooLarge", 1)
        for program in (ret(ALLOW), GATE + ret(ALLOW)):
            self.assertTrue(self.ends(["compare"], part("filter", program) + full, (1, None)).startswith(b"differs\n"))

    def test_many_numbers(self):
        """And each call that the table names is compared by itself, with a profile that has rules for all of them."""
        both = each_allowed(range(4096))
        out = self.ends(["compare"], part("filter", GATE + ret(ALLOW)) + both, (1, None))
        self.assertTrue(out.startswith(b"differs\n"))
        self.ends(["compare", "--calls"], part("filter", GATE + ret(ALLOW)) + both, (0, b"same\n"))
        self.ends(["compile"], both, (0, None), (1, b"fault compile TooLarge\n"))

    def test_numbers_apart(self):
        """Behind the search of a filter only the numbers of its stretch are asked: all of them behind each would take
        more than a million steps."""
        both = each_allowed(range(0, 3600, 3))
        compiled = self.run_core(["compile"], both)
        self.assertEqual(compiled.status, 0)
        self.ends(["compare", "--limit", "20000"], part("filter", compiled.out) + both, (0, b"same\n"))

    def test_rules_that_nearly_conflict(self):
        """Of one number, with two answers by turns, each pair apart on one argument: every pair is looked at."""
        entries = b",".join(
            b'{"names":["read"],"action":"SCMP_ACT_%s","args":[{"index":5,"value":%d,"op":"SCMP_CMP_EQ"}]}'
            % ([b"ALLOW", b"LOG"][at % 2], at) for at in range(4096))
        profile = b'{"defaultAction":"SCMP_ACT_KILL","syscalls":[%s]}' % entries
        self.ends(["compile"], with_table(profile), (0, None), (1, b"fault compile TooLarge\n"))

    def test_tables(self):
        names = [b"a%06d" % number for number in range(LIMIT_OF_TEXT // 15)]
        for order in (names, names[::-1]):
            table = b"".join(b"%s %d\n" % (name, at) for at, name in enumerate(order))
            self.ends(["compile"], with_table(ALLOWS, table), (0, ALLOWS_COMPILED))
        table = b"".join(b"%s%05d 1\n" % (b"x" * 1000, number) for number in range(LIMIT_OF_TEXT // 1009))
        self.ends(["compile"], with_table(ALLOWS, table), (0, ALLOWS_COMPILED))
        for table in (b"\n" * LIMIT_OF_TEXT, b" " * LIMIT_OF_TEXT, b"#" * LIMIT_OF_TEXT):
            self.ends(["compile"], with_table(ALLOWS, table), (0, ALLOWS_COMPILED))

    def test_bundles_of_many_parts(self):
        self.faults(["decide"], b"filter 0\n" * 100000, "fault filter Empty", 1)
        self.faults(["compare"], b"profile 0\n" * 100000, "fault bundle Parts", 3)
        self.faults(["decide"], part("filter", ret(ALLOW)) * 800000, "fault stack TooMany total 32771", 1)

    def test_texts(self):
        for text in (b"x" * LIMIT_OF_INPUT, b":" * LIMIT_OF_INPUT, b"1 " * (LIMIT_OF_INPUT // 2)):
            self.faults(["asm"], text, "fault text Mnemonic line 1", 1)
        for text in (b";" * LIMIT_OF_INPUT, b"\n" * LIMIT_OF_INPUT, b"//" * (LIMIT_OF_INPUT // 2)):
            self.ends(["asm"], text, (0, b""))
        self.faults(["asm"], b"a:\n" * (LIMIT_OF_INPUT // 3), "fault text Label line 2", 1)
        self.ends(["asm"], b"".join(b"l%06x:\n" % number for number in range(LIMIT_OF_INPUT // 9)), (0, b""))

    def test_texts_of_labels(self):
        """No more than three times the text is kept, however short its labels are, and whatever their order; four times
        where labels repeat."""
        letters = string.ascii_letters.encode()
        names = [bytes(item) for item in itertools.islice(itertools.product(letters, repeat=4), LIMIT_OF_INPUT // 6)]
        quarter = names[:len(names) // 4]
        for labels in random.Random(1).sample(names, len(names)), quarter, quarter[::-1]:
            text = b":\n".join(labels) + b":"
            self.ends(["asm"], text, (0, b""), most=3 * len(text) / 2**20)
        text = b":\n".join(quarter) + b":\n"
        again = b"a:;" * (len(text) // 3)
        first, most = f"line {len(quarter) + 1}", 4 * 2 * len(text) / 2**20
        self.faults(["asm"], text + again, f"fault text Label {first}", 1, most)
        self.faults(["asm"], text + names[0] + b":ld\nld", f"fault text Label {first}", 1, most)
        self.faults(["asm"], text + b"ld\n" + names[0] + b":", f"fault text Operand {first}", 1, most)

    def compares(self, code, *verdicts):
        self.ends(["compare"], part("filter", GATE + code) + with_table(ALLOWS), *verdicts)

    def test_filters_of_many_paths(self):
        same, unfinished = (0, b"same\n"), (4, b"unfinished\n")
        self.compares(load(16) + b"".join(jeq(number, 0, 0) for number in range(64)) + ret(ALLOW), same)
        bits = b"".join(jset(1 << bit, 0, 0) for bit in range(32))
        self.compares(load(16) + bits + load(20) + bits + ret(ALLOW), same, unfinished)
        self.compares(load(16) + b"".join(jset(1 << at % 32, 0, 1) for at in range(4080)) + ret(ALLOW) * 2,
                      same, unfinished)
        mixed = b"".join(jset(at * 2654435761 % 2**32 | 1, at % 2, 0) for at in range(4080))
        self.compares(load(16) + mixed + ret(ALLOW) * 2, same, unfinished, (4, None))
        words = b"".join(load(16 + 4 * (at % 12)) + jset(1 << at // 12, 0, 1) + load(16) for at in range(384))
        self.compares(words + ret(ALLOW), same, unfinished)
        cuts = b"".join(load(16 + 4 * (at % 12)) + jge(at // 12 * 1000 + 500, 0, 1) + load(16) for at in range(1300))
        self.compares(cuts + ret(ALLOW), same, unfinished)

    def test_many_facts(self):
        """Tests that split what is known thousands of times, before a profile whose rules split it again; by a fifth of
        the steps that a comparison has, in a fifth of the time."""
        bits = load(16) + b"".join(jset(1 << bit, 0, 1) + load(16) for bit in range(14))
        wide = load(24) + b"".join(jset(at * 2654435761 % 2**32 | 3, 0, 1) + load(24) for at in range(14))
        joined = b"".join(
            load(20 + 8 * (at % 5)) + insn(0x54, 1 << at % 32) + insn(0x07, 0)
            + load(16 + 8 * (at % 5)) + insn(0x54, 1 << at * 7 % 32) + insn(0x4C, 0) + jeq(0, 0, 1) + load(16)
            for at in range(100))
        one_value = [{"index": 1, "value": 5, "op": "SCMP_CMP_EQ"}]
        numbers = [("c%d" % (3 * at), None) for at in range(4000)]
        values = [("c0", [{"index": 1, "value": 3 * at, "op": "SCMP_CMP_EQ"}]) for at in range(4000)]
        masks = [("c0", [{"index": 1, "value": mask, "valueTwo": mask & ~2, "op": "SCMP_CMP_MASKED_EQ"}])
                 for mask in (at * 2654435761 % 2**32 | 3 for at in range(4000))]
        pairs = {"bits before numbers": (bits, numbers), "bits before values": (bits, values),
                 "bits before masks": (bits, masks), "masks before values": (wide, values), "masks before masks":
                 (wide, masks), "masks before numbers": (wide, [(name, one_value) for name, _ in numbers]),
                 "words joined before numbers": (joined, numbers), "words joined before values": (joined, values)}
        table = b"".join(b"c%d %d\n" % (3 * at, 3 * at) for at in range(4000))
        for what, (tests, rules) in pairs.items():
            entries = [{"names": [name], "action": "SCMP_ACT_ALLOW", "args": conditions or []}
                       for name, conditions in rules]
            profile = json.dumps({"defaultAction": "SCMP_ACT_ALLOW", "syscalls": entries}).encode()
            with self.subTest(what):
                self.ends(["compare", "--limit", "200000"],
                          part("filter", GATE + tests + ret(ALLOW)) + with_table(profile, table),
                          (0, b"same\n"), (4, b"unfinished\n"), within=SECONDS / 5)
