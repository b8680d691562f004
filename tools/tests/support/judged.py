"""Comparisons judged by a second machine and a second reading of profiles. Over records at which a side may change its
answer it is known whether a relation fails; scf's verdict must agree, and each record that it shows must be in the
scope, be answered on both sides as it prints, and fail the relation."""
import functools
import json
import operator
import re

from . import several
from .common import ALLOW, I386, X32, X86_64, part
from .on_parts import OnProgram, assembled, ran
from .stand_in import StandIn, unpacked
from .worked import effort

MACHINE, WORD, LONG = StandIn(), (1 << 32) - 1, (1 << 64) - 1


def by_disposition(related):
    return lambda left, right: related(several.disposition(left), several.disposition(right))


# By options, what is printed where a relation holds and where it fails, and whether two answers have it.
RELATIONS = {
    "": ("same", "differs", operator.eq),
    "--no-more": ("no more", "more", by_disposition(operator.le)),
    "--no-less": ("no less", "less", by_disposition(operator.ge)),
    "--disposition": ("same disposition", "differs", by_disposition(operator.eq)),
}


def of_numbers(first, last):
    return lambda record: record[1] == X86_64 and first <= record[0] <= last


# By options, whether a record is compared; with --calls those of the table's numbers, each number by itself.
SCOPES = {
    "": lambda record: True, "--native": of_numbers(0, X32 - 1), "--calls": of_numbers(0, X32 - 1),
    "--nr-from=2": of_numbers(2, X32 - 1), "--nr-to=41": of_numbers(0, 41),
    "--nr-from=41 --nr-to=42": of_numbers(41, 42),
}
RECORD = r"nr (\d+) arch (0x[0-9a-f]+) ip (0x[0-9a-f]+) args((?: 0x[0-9a-f]+){6})"
OF_A_CALL = re.compile(r"(\d+) (\S+) (\S+) args((?: 0x[0-9a-f]+){6}) filter (.+) (?:profile|beside) (.+)")


def record_of(number, architecture, pointer, arguments):
    """The sixteen words of a record."""
    halves = (half for whole in (pointer, *arguments) for half in (whole & WORD, whole >> 32))
    return number, architecture, *halves


def printed_record(line):
    """The words of a record that scf prints."""
    number, architecture, pointer, arguments = re.fullmatch(f"call {RECORD}", line).groups()
    return record_of(int(number), int(architecture, 16), int(pointer, 16),
                     [int(text, 16) for text in arguments.split()])


class Stack:
    """A side of a comparison: filters, as bytes or as their texts, the oldest first."""

    notes, numbers = (), frozenset()

    def __init__(self, filters, kind="filter"):
        self.data = [item if isinstance(item, bytes) else assembled(item[1]) for item in filters]
        self.programs, self.parts = list(map(unpacked, self.data)), b"".join(part(kind, item) for item in self.data)

    def answer(self, record):
        """As in the kernel, a call without a filter is allowed."""
        return MACHINE.decision_of(self.programs, record) if self.programs else ALLOW

    def constants(self):
        """What the filters compare and compute with."""
        return {k for program in self.programs for code, _, _, k in program
                if code & 7 in (0, 1, 4, 5) and code != 0x20}


class Profile:
    """A side: a profile under a table of x86-64, which also names the numbers beside those that the profile has."""

    def __init__(self, text, table):
        rows = {name: int(number) for name, number in map(str.split, table.splitlines())}
        near = {number + step for number in (*rows.values(), 0, 41, X32 - 1) for step in (-1, 0, 1)}
        self.numbers = {number for number in near if 0 <= number < X32}
        names = {f"n{number}": number for number in self.numbers.difference(rows.values())}
        self.reading = several.Reading(json.loads(text), ["SCMP_ARCH_X86_64"], {"SCMP_ARCH_X86_64": {**rows, **names}})
        self.text, self.table, self.notes = text, table, self.reading.notes()
        lines = "".join(f"{name} {number}\n" for name, number in {**rows, **names}.items())
        self.parts = part("profile", text.encode()) + part("table", lines.encode())

    def answer(self, record):
        arguments = [low | high << 32 for low, high in zip(record[4::2], record[5::2])]
        return self.reading.answer(record[1], record[0], arguments)[0]

    def constants(self):
        """The values of its conditions."""
        return {condition[name] for entry in self.reading.profile["syscalls"] for condition in entry.get("args", ())
                for name in ("value", "valueTwo") if name in condition}


def corners(*sides):
    """Records at which a side may answer otherwise than at one beside it."""
    constants = {number + step for side in sides for number in side.constants() for step in (-1, 0, 1)}
    numbers = sorted({*(number for number in constants if 0 <= number < 1024), 0, X32 - 1, X32, X32 + 1, WORD}.union(
        *(side.numbers for side in sides)))
    arguments = sorted({number & LONG for near in constants for number in (near, near | 1 << 32)}
                       | {1 << bit for bit in range(33)} | {0, LONG})
    yield from (record_of(number, architecture, 0, [argument] * 6) for number in numbers
                for architecture in (I386, 0xC00000B7, 0) for argument in (0, LONG))
    yield from (record_of(number, X86_64, 0, [argument] * 6) for number in numbers
                for argument in (arguments if number < X32 else (0, LONG)))


class Pair:
    """Two sides, and both answers to each of some records."""

    def __init__(self, left, right, records=None):
        self.left, self.right = left, right
        self.answers = [(record, left.answer(record), right.answer(record))
                        for record in (corners(left, right) if records is None else records)]

    @functools.cached_property
    def effort(self):
        """The most steps that a comparison of filters and a profile takes."""
        return effort(self.left.data, self.right.text, self.right.table)

    def failing(self, scope, relation):
        """The records in a scope by which a relation is known to fail."""
        return [record for record, *both in self.answers if SCOPES[scope](record) and not RELATIONS[relation][2](*both)]


class Judged(OnProgram):
    def judge(self, pair, scope="", relation="", *words, **settings):
        """The word of scf's verdict, which may be `undecided at N` or `unfinished`."""
        holds, fails, related = RELATIONS[relation]
        given = pair.left.parts + pair.right.parts
        out, status = ran(["compare", *scope.split(), *relation.split(), *words], given, **settings)
        verdict, *lines = out.decode().splitlines()
        count = len(lines) - len(pair.right.notes)
        self.assertEqual(lines[count:], [*pair.right.notes])
        shown = list(self.shown_by(lines[:count], scope, fails))
        for record, *printed in shown:
            both = pair.left.answer(record), pair.right.answer(record)
            self.assertEqual((printed, SCOPES[scope](record), related(*both)),
                             ([MACHINE.printed(answer) for answer in both], True, False))
        if status == 4:
            self.assertRegex(verdict, r"\A(undecided at [0-9]+|unfinished)\Z")
            return verdict
        failing = pair.failing(scope, relation)
        self.assertEqual((verdict, status), (fails, 1) if shown else (holds, 0))
        if scope == "--calls":
            failing = {record[0] for record in failing if record[0] in pair.right.numbers}
            self.assertLessEqual(failing, {record[0] for record, *_ in shown})
        else:
            self.assertTrue(shown or not failing)
        return verdict

    def shown_by(self, lines, scope, fails):
        """The records that are shown, each with both answers as they are printed."""
        if scope != "--calls":
            if lines:
                _, ours, theirs = lines
                yield printed_record(lines[0]), ours.partition(" ")[2], theirs.partition(" ")[2]
            return
        for line in lines:
            match = OF_A_CALL.fullmatch(line)
            if not match:
                self.assertRegex(line, r"\A\d+ \S+ (undecided at \d+|unfinished)\Z")
                continue
            number, _, word, arguments, *both = match.groups()
            self.assertEqual(word, fails)
            yield record_of(int(number), X86_64, 0, [int(text, 16) for text in arguments.split()]), *both
