"""`scf answers` of files: each line is true of every syscall that it names, beside a second machine; and the reader of
what the program prints."""
import json
import random
import re
import unittest

from support.common import (ALLOW, ENOSYS, EPERM, I386, LOG, TRACE, UNKNOWN_ZERO, X86_64, Case, filter_of, insn, jeq,
                            jge, load, part, ret)
from support.stand_in import StandIn
from report.test_surface import gate, of_number
from scftools.base.program import ToolError
from scftools.model import architectures, tables
from scftools.model.calls import Call
from scftools.ask import client, regions
from scftools.ask.regions import TooManyRanges, Word

WORD = (1 << 32) - 1
# A filter, and the lines that people expect of it.
LINES = (
    ([filter_of([0, 1])], (
        "ALLOW at 0:9: read, write", "ERRNO 1 (EPERM) at 0:8: open")),
    ([of_number(41, load(16) + jeq(16, 0, 4) + load(32) + jeq(9, 0, 2) + ret(EPERM) + ret(ALLOW) * 2, ALLOW)], (
        "ERRNO 1 (EPERM) at 0:11: socket where (u32)domain == AF_NETLINK and (u32)protocol == 9",
        "ALLOW at 0:13: socket where (u32)domain == AF_NETLINK and (u32)protocol != 9",
        "ALLOW at 0:13: socket where (u32)domain != AF_NETLINK", "ALLOW at 0:14: read, write, open")),
    ([gate(jeq(41, 0, 6) + load(20) + jeq(0, 0, 4) + load(16) + jeq(16, 0, 2) + ret(EPERM) * 2 + ret(ALLOW) * 2)], (
        "ERRNO 1 (EPERM) at 0:11: socket where domain == AF_NETLINK",
        "ALLOW at 0:13: socket where domain != AF_NETLINK and domain >> 32 == 0",
        "ALLOW at 0:13: socket where domain >> 32 >= 1")),
    ([of_number(56, load(16) + insn(0x45, 0x10000000, 0, 1) + ret(EPERM) + ret(ALLOW), ENOSYS)], (
        "ERRNO 1 (EPERM) at 0:9: clone where (u32)flags & CLONE_NEWUSER == CLONE_NEWUSER",
        "ALLOW at 0:10: clone where (u32)flags & CLONE_NEWUSER == 0")),
    ([of_number(1, load(8) + jeq(0x1234, 0, 1) + ret(ALLOW) + ret(EPERM), LOG)], (
        "ALLOW at 0:9: write where (u32)ip == 0x1234",)),
    ([ret(LOG), filter_of([0], foreign=ALLOW, default=TRACE)], (
        "LOG at 0:0: read", "TRACE 0 at 1:7: write, open")),
)
# A conditions' text: what it says of an argument's value.
TESTS = {"==": lambda a, v: a == v, "!=": lambda a, v: a != v, "<=": lambda a, v: a <= v, ">=": lambda a, v: a >= v}
TERM = re.compile(r"(\(u32\))?(\w+)( >> 32)?(?: & (0x[0-9a-f]+|[0-9]+))? (==|!=|<=|>=) (0x[0-9a-f]+|[0-9]+)")


def holds(text, call):
    """Whether a call meets conditions whose arguments and values have no names."""
    def text_of(term):
        is_low, name, is_high, mask, op, value = term.groups()
        whole = call.pointer if name == "ip" else call.arguments[int(name[1:])]
        part = whole & WORD if is_low else whole >> 32 if is_high else whole
        return str(TESTS[op](part & int(mask, 0) if mask else part, int(value, 0)))
    return eval(TERM.sub(text_of, text), {})


class Lines(Case):
    """What is printed."""

    def said(self, filters, *words):
        return self.run_tool("answers", *words, *self.filter_files(filters))

    def test_standard_input(self):
        """A filter alone is a file; of a bundle the program's own lines are printed."""
        data = filter_of([0])
        self.assertEqual(self.run_tool("answers", given=data), self.said([data]))
        self.assertRegex(self.output_of(0, "answers", given=part("filter", data)), r"\nregions [0-9]+ steps [0-9]+\n\Z")

    def test_lines(self):
        """Those of the syscalls that are looked at."""
        table = self.file("t", b"read 0\nwrite 1\nopen 2\nsocket 41\nclone 56\n")
        for filters, expected in LINES:
            status, out, err = self.said(filters, "--table", table)
            lines = [re.sub(r", (?:socket|clone|[0-9]+ numbers without a name)\b", "", line)
                     for line in out.split("\n")]
            self.assertEqual((status, err), (0, ""))
            for line in expected:
                self.assertIn(line, lines)

    def test_each_line_is_true(self):
        """Of drawn records of drawn filters: the syscall stands in a line whose conditions it meets and whose answer it
        gets, and in no line of another answer."""
        dice, table = random.Random(7), self.file("t", b"a 0\nb 1\nc 2\n")
        for _ in range(12):
            code = b"".join(dice.choice((
                load(4 * dice.choice((0, 4, 5, 6, 7))),
                jge(dice.choice((1, 2, 9, 1 << 31)), *dice.choices(range(4), k=2)),
                jeq(dice.choice((0, 1, 9)), *dice.choices(range(4), k=2)), insn(0x45, dice.choice((2, 12)), 1, 2)))
                for _ in range(dice.randrange(4, 14)))
            data = code + b"".join(ret(dice.choice((ALLOW, EPERM, TRACE))) for _ in range(5))
            out = self.of_status(0, self.said([data], "--table", table, "--arch", "x86-64"))
            lines = [re.fullmatch(r"(.+?) at 0:([0-9]+): (.*?)(?: where (.*))?", line).groups() for line in
                     out.split("\n")[:-1]]
            for _ in range(60):
                number = dice.randrange(3)
                call = Call(number, X86_64, 0, tuple(
                    dice.choice((0, 1, 2, 9, 10, 12, 1 << 31, dice.getrandbits(32))) | dice.choice((0, 9,
                                                                                                    1 << 31)) << 32
                    for _ in range(6)))
                answer = StandIn().decide([data], call)
                path = StandIn().path(data, call)
                met = [(answer, int(index)) for answer, index, names, where in lines
                       if "abc"[number] in names.split(", ") and (where is None or holds(where, call))]
                self.assertEqual(len(met), 1, (call, out))
                self.assertEqual(met[0][1], path[-1])
                self.assertEqual(met[0][0].split(" (")[0], answer.removesuffix(" 0") if "ALLOW" in answer else answer)

    def test_another_architecture_and_examples(self):
        status, out, _ = self.said([load(4) + jeq(I386, 1, 0) + ret(EPERM) + load(0) + jeq(3, 0, 1) + ret(ALLOW)
                                    + ret(EPERM)], "--arch", "i386", "--examples")
        self.assertEqual((status, out.split("\n")[:2]), (0, ["ALLOW at 0:5: read",
                                                              "# such as read (3) of the architecture i386 args "
                                                              "0x0 0x0 0x0 0x0 0x0 0x0"]))

    def test_json(self):
        status, out, _ = self.said([filter_of([0])], "--json")
        report = json.loads(out)
        self.assertEqual((status, report["status"], report["architecture"]), (0, 0, "x86-64"))
        entry = next(region for region in report["regions"] if region["answer"]["action"] == "ALLOW")
        self.assertEqual({name: entry[name] for name in entry if name != "example"}, {
            "answer": {"action": "ALLOW", "data": 0}, "filter": 0, "index": 8, "is_exact": True,
            "syscalls": [{"number": 0, "names": ["read"]}], "unnamed": 0, "where": []})
        self.assertEqual(entry["example"]["number"], 0)
        named = sum(len(region["syscalls"]) for region in report["regions"])
        self.assertEqual(named, len(tables.read_table(None).numbers()))
        self.assertEqual(sum(region["unnamed"] for region in report["regions"]), 0x40000000 - named)

    def test_statuses(self):
        unknown = self.said([gate(UNKNOWN_ZERO + jeq(0, 0, 1) + ret(EPERM) + ret(ALLOW))])
        self.assertEqual(unknown[0], 4)
        self.assertIn(" open: ", unknown[1])
        computed = self.said([load(16) + insn(0x16, 0)])
        self.assertEqual((computed[0], computed[1][:15]), (4, "unknown at 0:1:"))
        self.assertEqual(self.said([filter_of([0])], "--limit", "1")[:2], (4, "unfinished\n"))
        self.assertEqual(self.run_tool("answers", "none")[0], 2)

    def test_refused_filters_and_tables(self):
        status, out, _ = self.said([filter_of([0]), jeq(0, 9, 0) + ret(ALLOW)])
        self.assertEqual((status, out.split("\n")[0]), (2, "fault filter Jump at 0"))
        self.assertIn("1.bpf", out)
        status, out, _ = self.said([filter_of([0])], "--table", self.file("t", b"read\n"))
        self.assertEqual((status, out.split("\n")[0]), (2, "fault table Form line 1"))


class Reader(unittest.TestCase):
    """The sets of values that the program prints."""

    def test_words(self):
        word = Word.read("0x4-0x9,0x20&0x1=0x0!0x6=0x6")
        self.assertEqual([value for value in range(64) if word.has(value)], [4, 8, 32])
        self.assertEqual(word.within(0, 63), [(4, 4), (8, 8), (32, 32)])
        self.assertEqual([value for value in range(16) if Word.read("!0x6=0x0").has(value)],
                         [value for value in range(16) if value & 6])

    def test_ranges(self):
        """The numbers of a drawn word, as ranges."""
        dice = random.Random(5)
        for _ in range(300):
            mask = dice.getrandbits(8) & dice.getrandbits(8)
            low = dice.randrange(200)
            word = Word([(low, low + dice.randrange(80)), (300, 310)], mask, dice.getrandbits(8) & mask,
                       [(mask_drawn, dice.getrandbits(8) & mask_drawn) for mask_drawn in dice.sample(range(1, 256), 2)])
            first, last = sorted(dice.sample(range(400), 2))
            intervals = word.within(first, last)
            self.assertEqual([value for low, high in intervals for value in range(low, high + 1)],
                             [value for value in range(first, last + 1) if word.has(value)])
        with self.assertRaises(TooManyRanges):
            Word([], 1, 1).within(0, WORD)

    def test_numbers_that_are_too_many(self):
        """The regions of a number are found without ranges."""
        odd = regions.Region("ALLOW 0 at 0:1", None, None, True, {0: Word([], 1, 1)}, "")
        even = regions.Region("ALLOW 0 at 0:2", None, None, True, {0: Word([], 1, 0)}, "")
        numbers = regions.Numbers([odd, even], architectures.JUDGED[architectures.NATIVE])
        self.assertEqual((numbers.ranges, numbers.of(7), numbers.of(8)), (None, [odd], [even]))

    def test_what_is_not_understood(self):
        """Nothing is concluded from it."""
        for printed in ("", "ALLOW 0 at 0:0\n", "ALLOW 0 at 0:0\ncall nr 0\nregions 2 steps 1\n",
                        "ALLOW 0 at 0:0 w0 7\ncall nr 0\nregions 1 steps 1\n",
                        "ALLOW 0 at 0:0 w0\ncall nr 0\nregions 1 steps 1\n",
                        "ALLOW 0\ncall nr 0\nregions 1 steps 1\n", "ALLOW at 0:0\ncall nr 0\nregions 1 steps 1\n",
                        "what\ncall nr 0\nregions 1 steps 1\n", "unfinished\n"):
            self.assertIsNone(regions.parse_regions(printed), printed)
        for text in ("7", "0x1,8", "&0x1", "0x1!0x2", "0x1!0x2=3"):
            self.assertRaises(ValueError, Word.read, text)
        self.addCleanup(setattr, client, "answers", client.answers)
        for status, out in ((0, b"unfinished\n"), (4, b""), (1, b"no\n"), (0, b"fault filter Empty\n")):
            client.answers = lambda *_, status=status, out=out: client.Run(status, out)
            self.assertRaises(ToolError, regions.regions_of_filters, [])
