"""tools/surface: what filters let through, beside another machine's answers to each call at which something can change;
and what calls are for."""
import contextlib
import fcntl
import functools
import itertools
import json
import os
import pty
import random
import re
import shutil
import struct
import subprocess
import termios
import unittest
from unittest import mock

from support.common import (ALLOW, EPERM, I386, KILL_PROCESS, KILL_THREAD, LOG, TOP, TRACE, TRAP, UNKNOWN_ZERO,
                            USER_NOTIF, X32, X86_64, Case, completed, filter_of, gate, insn, jeq, jge, jgt, load, ret,
                            text_of, tool)
from support import oci, seccomp_library, several
from support.confined import NEWEST, OLDEST, Confined, here
from support.stand_in import StandIn
from report.test_why import random_filter
from scftools.base import output
from scftools.model import answers, architectures, tables
from scftools.model.calls import Call
from scftools.ask import client, questions
from scftools.forms.filters import Filter, Inspection, Stack
from scftools.report import blocks, surface_output, surfaces
from scftools.report.compare import StackComparison

READ, WRITE, GETPID, SOCKET, EXIT_GROUP = 0, 1, 39, 41, 231
NAMES = {"read": READ, "write": WRITE, "getpid": GETPID, "socket": SOCKET, "exit_group": EXIT_GROUP, "too": READ}
OWN = "".join(f"{name} {number}\n" for name, number in NAMES.items()).encode()
NUMBERS = sorted(set(NAMES.values()))
OTHERS = X32 - len(NUMBERS)
# Answers that seccomp(2) doesn't name, with ranks between those of ERRNO and USER_NOTIF, and of LOG and ALLOW.
BETWEEN, NEARLY = 0x00060000, 0x7FFD0000
HIGH = 1 << 32


def of_number(number, answer, default):
    """Answers a number by a piece of code of one return or several, and all others so."""
    code = answer if isinstance(answer, bytes) else ret(answer)
    return gate(jeq(number, 0, len(code) // 8) + code + ret(default))


def by_argument(value, answer, default):
    """Answers by whether the whole of the first argument is a number."""
    return load(16) + jeq(value % HIGH, 0, 3) + load(20) + jeq(value // HIGH, 0, 1) + ret(answer) + ret(default)


BY_POINTER = load(8) + jeq(0x1234, 0, 1) + ret(ALLOW) + ret(EPERM)
# The number times the number, of which 7 alone has the square 49 below 0x40000000; and of `socket` an argument times
# that argument.
SQUARE = gate(insn(0x07, 0) + insn(0x2C, 0) + jeq(49, 0, 1) + ret(EPERM) + ret(ALLOW))
BY_SQUARE = of_number(SOCKET, load(16) + insn(0x07, 0) + insn(0x2C, 0) + jeq(9, 0, 1) + ret(ALLOW) + ret(EPERM), ALLOW)
# What scf leaves undecided: whether every call is denied, which is so; and of `socket` whether it is always allowed,
# which is so.
UNKNOWN = gate(UNKNOWN_ZERO + jeq(0, 0, 1) + ret(EPERM) + ret(ALLOW))
BY_UNKNOWN = of_number(SOCKET, UNKNOWN_ZERO + jeq(0, 0, 1) + ret(ALLOW) + ret(EPERM), ALLOW)
# A table without a gap whose numbers are compared one by one, each with all splits of the default.
FEW = b"read 0\nwrite 1\nopen 2\n"
M, D, F, R = surfaces.ALLOWED, surfaces.DEPENDS, surfaces.DELEGATED, surfaces.DENIED
# Filters, oldest first, with what people expect of read, write, getpid, socket and exit_group.
KNOWN = {
    "all is made": ([ret(ALLOW)], [M] * 5),
    "all is logged": ([ret(LOG)], [M] * 5),
    "all is refused": ([ret(EPERM)], [R] * 5),
    "all threads end": ([ret(KILL_THREAD)], [R] * 5),
    "all is trapped": ([ret(TRAP)], [R] * 5),
    "all is delegated": ([ret(TRACE | 7)], [F] * 5),
    "a supervisor and a tracer": ([of_number(READ, USER_NOTIF, TRACE)], [F] * 5),
    "some are made": ([filter_of([READ, GETPID])], [M, R, M, R, R]),
    "one is refused": ([of_number(SOCKET, EPERM, ALLOW)], [M, M, M, R, M]),
    "one is delegated": ([of_number(SOCKET, USER_NOTIF, ALLOW)], [M, M, M, F, M]),
    "by an argument": ([of_number(SOCKET, by_argument(40, EPERM, ALLOW), EPERM)], [R, R, R, D, R]),
    "by a high half": ([of_number(SOCKET, by_argument(40 * HIGH, ALLOW, EPERM), EPERM)], [R, R, R, D, R]),
    "by no argument": ([of_number(SOCKET, by_argument(40, LOG, ALLOW), EPERM)], [R, R, R, M, R]),
    "refused so or so": ([of_number(SOCKET, by_argument(40, EPERM, KILL_PROCESS), ALLOW)], [M, M, M, R, M]),
    "allowed or delegated": ([of_number(SOCKET, by_argument(40, USER_NOTIF, ALLOW), EPERM)], [R, R, R, D, R]),
    "denied or delegated": ([of_number(SOCKET, by_argument(40, TRACE, EPERM), ALLOW)], [M, M, M, D, M]),
    "all dispositions": ([of_number(SOCKET, load(16) + jeq(1, 0, 1) + ret(EPERM) + jeq(2, 0, 1) + ret(TRACE) + ret(LOG),
                                  ALLOW)], [M, M, M, D, M]),
    "by a bit": ([of_number(WRITE, load(24) + insn(0x45, 4, 0, 1) + ret(EPERM) + ret(ALLOW), ALLOW)], [M, D, M, M, M]),
    "by the instruction pointer": ([of_number(WRITE, BY_POINTER, EPERM)], [R, D, R, R, R]),
    "a stack": ([filter_of([READ, WRITE]), filter_of([READ, SOCKET]), ret(ALLOW)], [M, R, R, R, R]),
    "a stack that refers": ([of_number(READ, EPERM, ALLOW), ret(TRACE)], [R, F, F, F, F]),
    "a stack of conditions": ([of_number(SOCKET, by_argument(40, EPERM, ALLOW), ALLOW),
                               of_number(SOCKET, by_argument(41, TRACE, EPERM), ALLOW)], [M, M, M, D, M]),
    "foreign calls are made": ([gate(jeq(READ, 0, 1) + ret(ALLOW) + ret(EPERM), ALLOW)], [M, R, R, R, R]),
    "an action without a name": ([ret(BETWEEN)], [R] * 5),
    "an action without a name, between LOG and ALLOW": ([ret(NEARLY)], [R] * 5),
    "an action without a name, and one before it": ([ret(NEARLY), ret(LOG)], [M] * 5),
}
# Of numbers that aren't always denied.
SOME = "are allowed or delegated with some arguments, such as"
NO_FOREIGN = "other ABIs: every i386 and x32 syscall is denied; the kernel has no others"
ARGUMENTS = (0, 1, 2, 3, 4, 5, 8, 39, 40, 41, 42, 40 * HIGH, 40 * HIGH + 40, 41 * HIGH, (1 << 64) - 1)
POINTERS = (0, 0x1234, 0x1235)


def disposition(answer):
    """What becomes of a call by the action of an answer (`__seccomp_filter` of kernel/seccomp.c)."""
    return (R, F, M)[several.disposition(answer)]


def disposition_by_hand(filters, call):
    return disposition(StandIn().decision(filters, call))


@functools.lru_cache(None)
def answers_by_hand(name, number):
    """The answers of known filters to the calls of a number, at each corner of the filters here."""
    return [StandIn().decision(KNOWN[name][0], Call(number, X86_64, pointer, (argument, high, 0, 0, 0, 0)))
            for argument, high, pointer in itertools.product(ARGUMENTS, (0, 4), POINTERS)]


def of(filters, limit=None, table=OWN):
    with mock.patch.dict(client.limits, {} if limit is None else {"limit": limit}):
        return surfaces.surface_of_filters(filters, tables.Table(table))


@functools.lru_cache(None)
def surface_of(name):
    return of(KNOWN[name][0])


def compared_surfaces(*sides):
    stacks = ([Filter("", data) for data in side.asker.filters] for side in sides)
    return surface_output.Beside(StackComparison(*stacks, sides[0].table), *sides)


def allowing(numbers, more=b""):
    """Allows any count of numbers."""
    return gate(b"".join(jeq(number, 0, 1) + ret(ALLOW) for number in numbers) + more + ret(EPERM))


def random_plain(random_of, count):
    """An accepted filter of loads and tests, which ends in returns."""
    made = []
    while len(made) < count:
        near = [random_of.randrange(9) for _ in range(2)]
        made.append(random_of.choice((load(4 * random_of.choice((0, 1, 2, *range(4, 8)))), insn(random_of.choice(
            (0x15, 0x25, 0x35)), random_of.choice((0, 1, 2, 41, HIGH - 1, X86_64)), *near), insn(0x45, 2, *near))))
    ends = [random_of.choice((ALLOW, EPERM, TRACE, LOG, KILL_PROCESS)) for _ in range(10)]
    return b"".join(made) + b"".join(map(ret, ends))


class Rows(Case):
    """What is said of each call that a small table names."""

    def test_each(self):
        """As its row says, and as the other machine answers at each corner."""
        for name, (filters, expected) in KNOWN.items():
            with self.subTest(name):
                by_hand = [{*map(disposition, answers_by_hand(name, number))} for number in NUMBERS]
                self.assertEqual([D if len(dispositions) > 1 else next(iter(dispositions)) for dispositions in by_hand],
                                 expected)
                surface = surface_of(name)
                self.assertEqual([row.number for row in surface.rows], NUMBERS)
                self.assertEqual([row.said for row in surface.rows], expected)
                self.assertTrue(surface.is_decided)
                for row, dispositions in zip(surface.rows, by_hand):
                    self.is_shown(filters, row, dispositions)

    def is_shown(self, filters, row, dispositions):
        """Where it depends, a call of each of two dispositions at least; and none is excluded that occurs."""
        if row.said != D:
            self.assertEqual(row.shown, {})
            self.assertIn(disposition(row.answer.word), dispositions)
            return
        self.assertGreater(len(row.shown), 1)
        self.assertLessEqual(set(row.shown), dispositions)
        for word, shown in row.shown.items():
            self.assertEqual((shown.call.number, shown.call.architecture), (row.number, X86_64))
            self.assertEqual(answers.Answer.read(StandIn().decide(filters, shown.call)), shown.answer)
            self.assertEqual(disposition(shown.answer.word), word)
        self.assertFalse(set(row.never) & dispositions)
        if dispositions == {F, R}:
            self.assertEqual(row.never, [M])
        if dispositions == {F, M}:
            self.assertEqual(row.never, [R])

    def test_the_pointer_is_shown(self):
        """A line of --calls lacks it; the call is shown whole all the same."""
        row = surface_of("by the instruction pointer").rows[1]
        self.assertEqual(row.shown[M].call.pointer & 0xFFFFFFFF, 0x1234)
        self.assertRegex(row.shown[M].describe(), r"\Aip 0x[0-9a-f]*1234 args 0x0 0x0 0x0 0x0 0x0 0x0 ALLOW\Z")
        self.assertEqual(row.shown[R].describe(), "args 0x0 0x0 0x0 0x0 0x0 0x0 ERRNO 1")

    def test_random_filters(self):
        """No sampled call has a disposition that what is said excludes, and what is shown is so."""
        random_of, drawn = random.Random(35), set()
        for count in (*range(6, 30), *[60] * 6):
            made = random_of.choice((random_plain, random_plain, lambda drawn_by, _: random_filter(drawn_by)))
            filters = [made(random_of, count) for _ in range(random_of.choice((1, 1, 2)))]
            for row in of(filters).rows:
                drawn.add(row.said)
                sampled = set()
                for _ in range(40):
                    arguments = tuple(random_of.choice((0, 1, 2, 41, HIGH - 1, random_of.getrandbits(64)))
                                      for _ in range(6))
                    call = Call(row.number, X86_64, random_of.choice((0, random_of.getrandbits(64))), arguments)
                    sampled.add(disposition_by_hand(filters, call))
                if row.said in (M, F, R):
                    self.assertEqual(sampled, {row.said})
                self.assertFalse(sampled & set(row.never))
                for disposition_of_shown, shown in row.shown.items():
                    self.assertEqual(disposition_by_hand(filters, shown.call), disposition_of_shown)
        self.assertLessEqual({M, D, F, R}, drawn)

    def test_undecided_and_unfinished(self):
        """It is said so, with the calls that were found, and nothing is guessed."""
        self.assertEqual({row.said for row in of([UNKNOWN], table=FEW).rows}, {"undecided"})
        surface = of([BY_UNKNOWN])
        self.assertEqual([row.said for row in surface.rows], [M, M, M, "undecided", M])
        self.assertFalse(surface.is_decided)
        self.assertEqual((surface.rows[3].never, set(surface.rows[3].shown) - {M, R}), ([], set()))
        surface = of([filter_of([READ])], "0")
        self.assertEqual([row.said for row in surface.rows], ["unfinished"] * 5)
        self.assertEqual(surface.unnamed.describe(), f"{OTHERS} are undecided")

    def test_computations_that_are_decided(self):
        """Of a number that is known, and of an argument, whose low word 3 alone is allowed among those below 1000."""
        self.assertEqual([row.said for row in of([SQUARE]).rows], [M] * 5)
        self.assertEqual([row.said for row in of([SQUARE], table=b"six 6\nseven 7\neight 8\n").rows], [M, R, M])
        surface = of([BY_SQUARE])
        self.assertEqual([row.said for row in surface.rows], [M, M, M, D, M])
        self.assertEqual([number for number in range(1000)
                          if disposition_by_hand([BY_SQUARE], Call(SOCKET, X86_64, 0, (number, 0, 0, 0, 0, 0))) == M],
                         [3])
        self.assertEqual(sorted(surface.rows[3].shown), sorted([M, R]))
        for disposition, shown in surface.rows[3].shown.items():
            self.assertEqual(disposition_by_hand([BY_SQUARE], shown.call), disposition)

    def test_a_number_with_two_names_and_one_with_zeros(self):
        self.assertEqual(of([ret(ALLOW)]).rows[0].names, ["read", "too"])
        rows = of([filter_of([3])], table=b"a 00000000000000000003\nb 4\n").rows
        self.assertEqual([(row.number, row.names, row.said) for row in rows], [(3, ["a"], M), (4, ["b"], R)])

    def test_a_table_without_names(self):
        surface = of([ret(ALLOW)], table=b"# none\n")
        self.assertEqual((surface.rows, surface_output.whole_lines(surface)[0]), ([], "allowed 0, depends 0, denied 0"))
        self.assertEqual(surface.unnamed.describe(), "all allowed")


class Unnamed(unittest.TestCase):
    """Numbers that the table doesn't name."""

    def describe(self, *filters):
        return of(filters).unnamed.describe()

    def test_each(self):
        """Counted on both sides of each test, and over what the table names."""
        # the odd ones below 64, but for those that have a name
        odd = gate(jge(64, 3, 0) + insn(0x45, 1, 0, 2) + ret(ALLOW) * 2 + ret(EPERM))
        self.assertEqual({StandIn().decide([odd], Call(number)) for number in (62, 64, 65)}, {"ERRNO 1"})
        self.assertEqual(StandIn().decide([odd], Call(63)), "ALLOW 0")
        long = gate(jeq(400, 0, 1) + ret(ALLOW) + jeq(0, 0, 0) * 4087 + ret(EPERM))
        self.assertEqual(StandIn().check(long), "accepted 4096")
        many = allowing(range(300, 1500, 4), more=jge(X32 // 2, 0, 1) + ret(ALLOW))
        for filters, text in (
                ([filter_of([READ, EXIT_GROUP])], "all denied"), ([ret(ALLOW)], "all allowed"),
                ([of_number(READ, EPERM, LOG)], "all allowed"),
                ([ret(USER_NOTIF)], f"all {OTHERS} {SOME} 2: USER_NOTIF")):
            self.assertEqual(self.describe(*filters), text)
        for count, first, *filters in (
                (10, 400, gate(jge(400, 0, 2) + jge(410, 1, 0) + ret(ALLOW) + ret(EPERM))),
                (1, 400, filter_of([READ, 400])), (2, X32 - 2, gate(jgt(X32 - 3, 0, 1) + ret(ALLOW) + ret(EPERM))),
                (42 - 4, 2, gate(jge(42, 1, 0) + ret(ALLOW) + ret(EPERM))), (40 - 1, 2, filter_of([*range(0, 80, 2)])),
                (OTHERS - 1, 2, of_number(300, EPERM, ALLOW)), (32 - 3, 3, odd),
                (1, 400, of_number(400, by_argument(7, ALLOW, EPERM), EPERM)),
                (1, 401, filter_of([400, 401]), filter_of([401, 402])),
                (500, 300, allowing(range(300, 1300, 2))), (300 + X32 // 2, 300, many), (1, 400, long)):
            self.assertEqual(self.describe(*filters), f"{count} of {OTHERS} {SOME} {first}: ALLOW")

    def test_what_could_not_be_told(self):
        unnamed = of([UNKNOWN], table=FEW).unnamed
        self.assertEqual((unnamed.not_denied, unnamed.undecided), (0, X32 - 3))
        self.assertRegex(unnamed.describe(), r"[0-9]+ are undecided\Z")

    def test_gaps(self):
        self.assertEqual(list(questions.gaps(tables.Table(OWN))), [(2, 39), (40, 41), (42, 231), (232, X32)])
        self.assertEqual(list(questions.gaps(tables.Table(b"a 0\nz 1073741823\n"))), [(1, X32 - 1)])
        self.assertEqual(list(questions.gaps(tables.Table(b""))), [(0, X32)])


class Program(Case):
    """What tools/surface prints, by files."""

    def setUp(self):
        super().setUp()
        self.table = self.file("own.table", OWN)

    def said(self, filters, *words, table=True):
        return self.told("surface", *(["--table", self.table] if table else []), *self.filter_files(filters), *words)

    def test_lines(self):
        status, lines = self.said(KNOWN["by an argument"][0])
        self.assertEqual((status, lines), (0, [
            "allowed 0, depends 1, denied 4", NO_FOREIGN,
            "numbers without a name: all denied", "files denied 0 read,too ERRNO 1",
            "files denied 1 write ERRNO 1", lines[5], "processes denied 39 getpid ERRNO 1",
            "processes denied 231 exit_group ERRNO 1"]))
        self.assertRegex(lines[5], r"\Anetwork depends 41 socket allowed args (?!0x28 )(0x\w+ ){6}ALLOW "
                                   r"denied args 0x28 (0x\w+ ){5}ERRNO 1\Z")

    def test_foreign_calls(self):
        """An ABI is counted if one of its syscalls is allowed; if only a number without a name is, that is shown."""
        self.assertEqual(self.said(KNOWN["some are made"][0])[1][1], NO_FOREIGN)
        every, none = "allowed 461, depends 0, denied 0 (--arch i386 lists them)", "allowed 0, depends 0, denied 461 ("
        lines = self.said(KNOWN["all is made"][0])[1]
        self.assertEqual((lines[1], lines[2][:5]), (f"i386: {every}", "x32: "))
        by_number = load(0) + jeq(0x3FFFFFFF, 1, 0) + ret(EPERM) + ret(ALLOW)
        unnamed = "i386: some syscalls are allowed, such as number 1073741823: ALLOW; x32: every syscall is denied; "
        for code, access, counts in ((ret(ALLOW), "", every), (by_number, unnamed, none)):
            lines = self.said([load(4) + jeq(I386, 0, len(code) // 8) + code + ret(KILL_PROCESS)])[1]
            self.assertEqual(lines[1], f"{access}other ABIs: the kernel has no others" if access else
                             "other ABIs: every x32 syscall is denied; the kernel has no others")
            self.assertTrue(lines[2].startswith(f"i386: {counts}"), lines[2])

    def test_calls_that_no_kernel_makes(self):
        """-1, other numbers with bit 31 and other architectures are no hole, by an argument of libseccomp's, or by
        none."""
        lets = (load(0) + jge(0x80000000, 0, 1) + ret(ALLOW) + load(4) + jeq(X86_64, 3, 0) + jeq(I386, 2, 0)
                + ret(ALLOW) + ret(ALLOW) + load(0) + jeq(READ, 0, 1) + ret(EPERM) + ret(KILL_PROCESS))
        calls = [Call(number, architecture) for number in (0x80000000, 0xFFFFFFFE, 0xFFFFFFFF)
                 for architecture in (X86_64, I386)] + [Call(READ, 0xC00000B7), Call(READ, 0)]
        self.assertEqual({StandIn().decide([lets], call) for call in calls}, {"ALLOW 0"})
        self.assertEqual(self.said([lets])[1][2], NO_FOREIGN)

    def test_a_filter_for_another_machine(self):
        """It is said first of one that allows syscalls of another machine's architectures, and none of this one's."""
        of_arch = {name: load(4) + jeq(number, 1, 0) + ret(KILL_PROCESS) + load(0) + jeq(63, 0, 1) + ret(ALLOW)
                   + ret(EPERM) for name, number in (("aarch64", 0xC00000B7), ("arm", 0x40000028), ("i386", I386),
                                                     ("x86-64", X86_64), ("riscv64", 0xC00000F3))}
        for name, data in of_arch.items():
            status, lines = self.said([data])
            first = f"it is for {name}, which --arch lists: every x86-64, i386 and x32 syscall is denied"
            self.assertEqual((status, lines[0] == first), (0, name not in ("i386", "x86-64")), lines[0])
            self.assertEqual(json.loads(self.said([data], "--json")[1][0]).get("is_for"),
                             None if name in ("i386", "x86-64") else [name])
        self.assertEqual(self.said([of_arch["aarch64"], of_arch["arm"]])[1][0], "allowed 0, depends 0, denied 5")
        out = self.output_of(0, "surface", "--machine", "arm64", self.file("f.bpf", of_arch["aarch64"]))
        self.assertRegex(out, r"\Aaarch64: allowed 1, depends 0, denied \d+\n"
                              r"other ABIs: every arm syscall is denied; the kernel has no others\n")
        out = self.run_tool("surface", "--machine", "arm64", self.file("f.bpf", of_arch["x86-64"]))[1]
        self.assertTrue(out.startswith("it is for x86-64, which --arch lists: every aarch64 and arm syscall is "), out)

    def test_a_profile(self):
        """It stands for the filter that scf compiles of it; an engine's is resolved for a machine."""
        profile = oci.profile(oci.entry("read"), architectures=[oci.NATIVE])
        path = self.file("p.json", profile)
        self.run_words(["sh", "-c", f"{tool('compile')} {path} >{self.folder}/p.bpf"])
        shown = [self.run_tool("surface", name) for name in (path, "p.bpf")]
        self.assertEqual(shown[0], shown[1])
        self.assertEqual((shown[0][0], shown[0][1].split(",")[0], shown[0][2]), (0, "allowed 1", ""))
        self.assertEqual(self.run_tool("surface", path, "--beside", "p.bpf")[1].splitlines()[-1],
                         "syscalls that differ: 0")
        engines = {**profile, "archMap": [{"architecture": "SCMP_ARCH_AARCH64", "subArchitectures": ["SCMP_ARCH_ARM"]}],
                   "syscalls": [oci.entry("read", includes={"caps": ["CAP_KILL"]})]}
        del engines["architectures"]
        words = ("surface", "--caps", "CAP_KILL", "--machine", "arm64", self.file("e.json", engines))
        status, out, _ = self.run_tool(*words)
        self.assertEqual((status, out.splitlines()[0].split(",")[0]), (0, "aarch64: allowed 1"))
        self.assertTrue(out.splitlines()[1].startswith("arm: allowed 1, "), out)
        self.is_refused("p.json': fault profile EngineForm", "surface", self.file("p.json", engines))

    @seccomp_library.NEEDED
    def test_the_filter_of_libseccomp(self):
        """It lets -1 through on purpose, and no x32 call."""
        entries = [oci.entry("mount", action=oci.ERRNO)]
        data = seccomp_library.Library().filter_of(oci.profile(*entries, default=oci.ALLOW, architectures=[oci.NATIVE]))
        self.assertEqual([StandIn().decide([data], Call(number)) for number in (0xFFFFFFFF, 0x40000000)],
                         ["ALLOW 0", "KILL_THREAD 0"])
        self.assertEqual(self.said([data])[1][1], NO_FOREIGN)

    def test_the_table_that_comes_with_scf(self):
        """Each name of it once, in a group of its own; what a filter allows, and nothing else, is made."""
        allowed = ["read", "mount", "ptrace", "keyctl", "clock_settime", "init_module"]
        own_table = tables.read_table(None)
        lines = self.of_status(0, self.said([filter_of([own_table.number_of(name) for name in allowed])], table=False))
        self.assertTrue(lines[3].startswith("dangerous syscalls: allowed 4 (init_module, keyctl, mount, ptrace), "))
        rows = [line.split() for line in lines[4:]]
        self.assertEqual(sorted(int(row[2]) for row in rows), sorted(own_table.numbers()))
        self.assertEqual({row[0]: row[3] for row in rows if row[1] == "allowed"},
                         {"files": "read", "mounts": "mount", "tracing": "ptrace", "keys": "keyctl",
                          "time": "clock_settime", "modules": "init_module"})
        self.assertEqual(lines[0], f"allowed {len(allowed)}, depends 0, denied {len(rows) - len(allowed)}")

    def test_dangerous_syscalls(self):
        """clone is dangerous with CLONE_NEWUSER (0x10000000 of linux/sched.h), and CLONE_NEWNS is 0x20000."""
        table = self.file("few", b"clone 56\nread 0\nptrace 101\n")
        for bits, answers_of_clone, disposition in ((0x10000000, (EPERM, ALLOW), R), (0x10020000, (EPERM, ALLOW), R),
                                                    (0x10000000, (ALLOW, EPERM), M), (0x20000, (EPERM, ALLOW), D)):
            code = load(16) + insn(0x45, bits, 0, 1) + b"".join(map(ret, answers_of_clone))
            filters = [of_number(56, code, EPERM)]
            clone = "clone where flags & CLONE_NEWUSER"
            line = f"dangerous syscalls: denied 2 ({clone})" if disposition == R else \
                f"dangerous syscalls: {disposition} 1 ({clone}), denied 1"
            self.assertEqual(self.said(filters, "--table", table, table=False)[1][3], line)
            shown = json.loads(self.said(filters, "--json", "--table", table, table=False)[1][0])["dangerous"]
            self.assertEqual([(call["name"], call["disposition"], call.get("where")) for call in shown],
                             [("clone", disposition, "flags & CLONE_NEWUSER"), ("ptrace", R, None)])

    def test_examples(self):
        """A call of each region, with the answer of the other machine: all answers that there are."""
        for name in ("all dispositions", "by the instruction pointer", "some are made"):
            filters = KNOWN[name][0]
            rows = {row["number"]: row for row in json.loads(self.said(filters, "--examples", "--json")[1][0])["calls"]}
            lines = {int(line.split()[2]): line for line in self.said(filters, "--examples")[1][3:]}
            for number in NUMBERS:
                shown = rows[number]["region_examples"]
                for example in shown:
                    call = Call(number, X86_64, int(example["pointer"], 16),
                                tuple(int(argument, 16) for argument in example["arguments"]))
                    self.assertEqual(StandIn().decide(filters, call), "{action} {data}".format(**example["answer"]))
                    self.assertIn(f"args {' '.join(example['arguments'])} ", lines[number])
                self.assertEqual({"{action} {data}".format(**example["answer"]) for example in shown},
                                 {*map(StandIn().printed, answers_by_hand(name, number))})
        self.assertEqual(self.run_tool("surface", "--examples", "--conditions", "f")[0], 2)

    def test_names_that_no_group_has(self):
        lines = self.said([ret(ALLOW)], "--table", self.file("t", b"look 7\n"))[1]
        self.assertEqual(lines[4:], ["other allowed 7 look ALLOW"])

    def test_another_architecture(self):
        """Its syscalls have the numbers of its table; x32's have 0x40000000 more in a record. Where one is allowed,
        that architecture's are counted without being asked."""
        for word, arch, first, number, name, kind in (
                ("i386", I386, 0, 3, "read", "X86"), ("x32", X86_64, X32, 135, "personality", "X32"),
                ("arm64", 0xC00000B7, 0, 63, "read", "AARCH64"), ("arm", 0x40000028, 0, 0xF0002, "cacheflush", "ARM")):
            only = load(4) + jeq(arch, 1, 0) + ret(KILL_PROCESS) + load(0) + jeq(first + number, 0, 1) + ret(ALLOW) + \
                ret(EPERM)
            its = tables.architecture_table(f"SCMP_ARCH_{kind}")
            denied = len(its.numbers()) - 1
            status, lines = self.said([only], "--arch", word, table=False)
            shown = architectures.JUDGED[f"SCMP_ARCH_{kind}"].name
            self.assertEqual((status, lines[0]), (0, f"{shown}: allowed 1, depends 0, denied {denied}"))
            self.assertEqual([line.split()[1:] for line in lines if " allowed " in line][1:],
                             [["allowed", str(number), name, "ALLOW"]])
            self.assertEqual(lines[1], "numbers without a name: all denied")
            report = json.loads(self.said([only], "--arch", word, "--json", table=False)[1][0])
            self.assertEqual((report["architecture"], report["counts"][M], report["foreign"]), (shown, 1, []))
            lines = self.said([only], table=False)[1]
            counted = f"{shown}: allowed 1, depends 0, denied {denied} (--arch {shown} lists them)"
            self.assertEqual(counted in lines, word in ("i386", "x32"), lines[:4])
        self.is_refused("surface: no table of the architecture 'sparc': scf has those of x86-64, i386, x32, aarch64, "
                        "arm, riscv64, ppc64le, mipsel, mipsel64, mipsel64n32, loongarch64\n", "surface", "--arch",
                        "sparc", self.file("f", ret(ALLOW)))

    def test_json(self):
        filters = KNOWN["all dispositions"][0]
        status, lines = self.said(filters, "--json")
        self.assertEqual((status, len(lines)), (0, 1))
        report = json.loads(lines[0])
        self.assertEqual((report["status"], report["counts"]), (0, {M: 4, D: 1, F: 0, R: 0, "undecided": 0,
                                                                  "unfinished": 0}))
        self.assertEqual([(row["number"], row["names"], row["group"], row["disposition"])
                          for row in report["calls"]], [
            (0, ["read", "too"], "files", M), (1, ["write"], "files", M), (39, ["getpid"], "processes", M),
            (41, ["socket"], "network", D), (231, ["exit_group"], "processes", M)])
        self.assertEqual(report["calls"][0]["answer"], {"action": "ALLOW", "data": 0})
        for disposition, shown in report["calls"][3]["examples"].items():
            call = Call(SOCKET, X86_64, int(shown["pointer"], 16), tuple(int(it, 16) for it in shown["arguments"]))
            self.assertEqual(disposition_by_hand(filters, call), disposition)
            self.assertEqual(StandIn().decide(filters, call), "{action} {data}".format(**shown["answer"]))
        self.assertEqual(report["unnamed"], {"count": OTHERS, "not_denied": OTHERS, "undecided": 0, "are_allowed": True,
                                            "example": {"number": 2, "answer": {"action": "ALLOW", "data": 0}}})
        self.assertEqual([(access["kind"], access["not_denied"]) for access in report["foreign"]],
                         [(kind, []) for kind in ("i386", "x32")])

    def test_statuses(self):
        good = [filter_of([READ])]
        bad, table = self.file("bad\x1b[2J.bpf", jeq(0, 9, 0) + ret(ALLOW)), self.file("t", b"read\n")
        for filters, words, status, first in (
                (good, (bad,), 2, "fault filter Jump at 0"), (good, ("--beside", bad), 2, "fault filter Jump at 0"),
                ([b"\6\0"], (), 2, "fault filter Truncated offset 0"),
                (good, ("--table", table), 2, "fault table Form line 1"),
                (good, ("--limit", "x"), 2, "fault number limit"),
                (good, ("--limit", "0"), 4, "allowed 0, depends 0, denied 0, unfinished 5"),
                ([BY_UNKNOWN], (), 4, "allowed 4, depends 0, denied 0, undecided 1"),
                ([BY_SQUARE], (), 0, "allowed 4, depends 1, denied 0")):
            ended, lines = self.said(filters, *words)
            self.assertEqual((ended, lines[0]), (status, first))
        lines = self.said(good, bad)[1]
        self.assertTrue(all(line.startswith("# ") and line.isprintable() for line in lines[1:]), lines)
        self.assertTrue(lines[-1].startswith("# the filter is ") and lines[-1].endswith("bad\\x1b[2J.bpf"), lines)
        status, lines = self.said(good, "--json", "--beside", bad)
        self.assertEqual((status, json.loads(lines[0])["fault"]["kind"]), (2, "Jump"))

    def test_what_is_not_understood_ends_it(self):
        """Of a call without a line the relation is taken to hold: so each line must be understood, and the status."""
        for printed, status in (("more\\n0 read more\\n1 wri-te more", 1), ("no more", 1), ("more", 0), ("", 0),
                                ("more\\nwhat", 1), ("undecided at 1", 0)):
            tree = self.made_tree(f"#!/bin/sh\ncat >/dev/null\nprintf '{printed}\\n'\nexit {status}\n")
            done = self.run_words([os.path.join(tree, "tools", "surface"), self.file("f", ret(ALLOW))])
            self.assertEqual(done, (2, "", f"surface: scf ended with status {status} and unexpected "
                                           "output\n"), printed)

    def test_standard_input(self):
        expected = self.said([filter_of([READ])])
        status, out, _ = self.run_tool("surface", "--table", self.table, "-", given=filter_of([READ]))
        self.assertEqual((status, out.split("\n")[:-1]), expected)


class Terminal(Case):
    """What a terminal shows: a table as wide as it is."""

    def shown(self, columns, *words):
        ours, theirs = pty.openpty()
        fcntl.ioctl(theirs, termios.TIOCSWINSZ, struct.pack("HHHH", 24, columns, 0, 0))
        child = subprocess.Popen([tool("surface"), *words], stdout=theirs, stdin=subprocess.DEVNULL)
        os.close(theirs)

        def piece():
            with contextlib.suppress(OSError):
                return os.read(ours, 1 << 16)
            return b""

        chain = b"".join(iter(piece, b""))
        os.close(ours)
        return child.wait(), chain.decode().replace("\r\n", "\n").split("\n")[:-1]

    def test_widths(self):
        name = self.file("f.bpf", of_number(SOCKET, by_argument(40, EPERM, ALLOW), EPERM))
        own_table = tables.read_table(None)
        for columns in (12, 30, 44, 60, 100, 250):
            with self.subTest(columns):
                lines = self.of_status(0, self.shown(columns, name))
                for line in lines:
                    self.assertTrue(len(line) <= columns or len(line.split()) == 1 or columns < 30, line)
                words = re.findall(r"[a-z_0-9]+", "\n".join(lines))
                for number in own_table.numbers():
                    for call in own_table.names_of(number):
                        self.assertIn(call, words)
                self.assertTrue("allowed socket(" in " ".join(" ".join(lines).split()) or columns < 30)
        self.assertGreater(max(map(len, self.shown(250, name)[1])), 200)

    def test_no_width_is_told(self):
        lines = self.shown(0, self.file("f.bpf", filter_of([READ])))[1]
        self.assertLessEqual(max(map(len, lines)), 80)
        self.assertRegex(lines[4], r"\Afiles +allowed +read\Z")

    def test_beside(self):
        first, second = self.file("f.bpf", filter_of([READ])), self.file("g.bpf", filter_of([READ, WRITE]))
        for columns in (16, 40, 100):
            lines = self.of_status(1, self.shown(columns, first, "--beside", second))
            self.assertTrue(columns < 20 or max(map(len, lines)) <= columns, lines)
            text = " ".join(" ".join(lines).split())
            self.assertTrue(text.endswith("syscalls that differ: 1 files write (1) denied ERRNO 1 "
                                          "(EPERM) beside: allowed ALLOW"), text)

    def test_wrapped(self):
        self.assertEqual(surface_output.wrapped(["aa", "b", "cccc", "d"], 4), ["aa b", "cccc", "d"])
        self.assertEqual(surface_output.wrapped([], 4), [])


class Beside(Case):
    """Two surfaces beside each other."""

    @staticmethod
    def compared(*sides):
        """The status, and the numbers of the syscalls that differ with what is said of each side."""
        beside = compared_surfaces(*sides)
        return beside.status, [(pair.number, *(row.said for row in pair.rows)) for pair in beside.pairs], beside

    def test_each_two(self):
        """The syscalls whose answers differ are told, and no others: in all 32 bits, as the other machine answers."""
        for name, name_beside in itertools.combinations(KNOWN, 2):
            with self.subTest(one=name, other=name_beside):
                status, text, beside = self.compared(surface_of(name), surface_of(name_beside))
                expected = [row for row in zip(NUMBERS, KNOWN[name][1], KNOWN[name_beside][1])
                            if answers_by_hand(name, row[0]) != answers_by_hand(name_beside, row[0])]
                self.assertEqual(text, expected)
                self.assertTrue(all(pair.is_decided for pair in beside.pairs))
                if text:
                    self.assertEqual(status, 1)

    def test_what_dispositions_do_not_show(self):
        """A condition, an errno and a logged syscall."""
        plain = [of_number(SOCKET, by_argument(40, EPERM, ALLOW), ALLOW)]
        for name, default, answered in (
                ("a condition", by_argument(41, EPERM, ALLOW), ("ERRNO 1", "ALLOW")),
                ("an errno", by_argument(40, 0x50026, ALLOW), ("ERRNO 1", "ERRNO 38")),
                ("a logged syscall", by_argument(40, EPERM, LOG), ("ALLOW", "LOG"))):
            beside = compared_surfaces(of(plain), of([of_number(SOCKET, default, ALLOW)]))
            (pair,) = beside.pairs
            self.assertEqual((beside.status, pair.number, *(row.said for row in pair.rows)), (1, SOCKET, D, D), name)
            verdict = pair.line.verdict
            self.assertIn((str(verdict.filters), str(verdict.profile)), (answered, answered[::-1]), name)
            self.assertRegex(pair.example, r"\Asuch as socket\(.*\): .* beside ")

    def beside(self, filters, others, table=OWN):
        return self.compared(of(filters, table=table), of(others, table=table))

    def test_the_same(self):
        depends = gate(jeq(SOCKET, 0, 6) + by_argument(40, EPERM, ALLOW) + ret(EPERM))
        for filters, others in ((KNOWN["by an argument"][0], [depends]), ([BY_SQUARE], [BY_SQUARE])):
            self.assertEqual(self.beside(filters, others)[:2], (0, []))
        self.assertEqual(self.beside([UNKNOWN], [UNKNOWN], FEW)[:2], (0, []))
        # one more filter, which allows all, changes no answer, but the filters aren't the same
        status, pairs, _ = self.beside([UNKNOWN], [UNKNOWN, ret(ALLOW)], FEW)
        self.assertEqual((status, [number for number, *_ in pairs]), (4, [0, 1, 2]))

    def test_what_could_not_be_told(self):
        self.assertEqual(self.beside([BY_UNKNOWN], [ret(ALLOW)])[1], [(SOCKET, "undecided", M)])
        self.assertEqual(self.beside([BY_SQUARE], [ret(ALLOW)])[1], [(SOCKET, D, M)])
        with mock.patch.dict(client.limits, {"limit": "0"}):
            status, pairs, _ = self.beside([gate(ret(ALLOW))], [gate(ret(EPERM))])
        self.assertEqual((status, [number for number, *_ in pairs]), (4, NUMBERS))

    def test_foreign_calls_and_numbers_without_a_name(self):
        inner = jeq(READ, 0, 1) + ret(ALLOW) + ret(EPERM)
        for filters, others, differ in (([gate(inner)], [gate(inner, ALLOW)], (True, False)),
                                        ([filter_of([READ])], [filter_of([READ, 400])], (False, True))):
            status, pairs, beside = self.beside(filters, others)
            self.assertEqual((status, pairs, beside.foreign_differ, beside.unnamed_differ), (1, [], *differ))

    def test_lines_and_json(self):
        first, second = self.file("1.bpf", filter_of([READ, 400])), self.file("2.bpf", filter_of([WRITE]))
        words = ("--table", self.file("t", OWN), first, "--beside", second)
        self.assertEqual(self.run_tool("surface", *words), (1, (
            "allowed 1, depends 0, denied 4\nbeside: allowed 1, depends 0, denied 4\n"
            f"{NO_FOREIGN}\n"
            f"numbers without a name: 1 of {OTHERS} {SOME} 400: ALLOW\n"
            "beside: numbers without a name: all denied\n"
            "syscalls that differ: 2\n"
            "files 0 read,too allowed ALLOW beside denied ERRNO 1\nfiles 1 write denied ERRNO 1 beside allowed ALLOW\n"
            "numbers without a name: some get different answers\n"),
            ""))
        report = self.json_of("surface", "--json", *words)
        self.assertEqual([(pair["filter"]["number"], *(pair[side]["disposition"] for side in ("filter", "beside")))
                          for pair in report["beside"]["differs"]], [(0, M, R), (1, R, M)])
        self.assertEqual((report["status"], report["beside"]["unnamed_differ"]), (1, True))
        self.assertEqual([(pair["verdict"], *(pair["example"][side]["action"] for side in ("filter", "beside")))
                          for pair in report["beside"]["differs"]],
                         [("differs", "ALLOW", "ERRNO"), ("differs", "ERRNO", "ALLOW")])


class Process(Confined):
    """--pid: the stacks of a process's threads."""

    def surface(self, *words):
        return self.told("surface", "--table", self.file("own.table", OWN), *words)

    @here
    def test_beside(self):
        child = self.child([OLDEST])
        status, lines = self.surface("--pid", str(child.pid), "--beside", self.file("f", OLDEST))
        self.assertEqual((status, lines[-2]), (0, "syscalls that differ: 0"))
        status, lines = self.surface("--pid", str(child.pid), "--beside", self.file("f", filter_of([READ])))
        self.assertEqual((status, lines.count("syscalls that differ: 4")), (1, 1))

    @here
    def test_a_name_of_a_process_is_safe(self):
        child = self.child([OLDEST])
        self.do(child, "open('/proc/self/comm', 'w').write('\\x1b[2J\\n# made'); print('here', flush=True)")
        self.assertEqual(child.stdout.readline(), "here\n")
        lines = self.surface("--pid", str(child.pid))[1]
        self.assertTrue(all(line.isprintable() for line in lines), lines)
        self.assertIn("(\\x1b[2J\\x0a# made)", lines[-1])

    def test_strict_mode_and_no_filter(self):
        """Without a filter there is nothing to compare; the threads are told."""
        for is_strict, status, verdict, says in (
                (True, 4, "strict", "has no filter, but seccomp's strict mode"),
                (False, 1, "unconfined", "has no filter: it isn't confined, and every syscall is allowed")):
            with self.subTest(verdict):
                inspection, printed = Inspection([Stack((), is_strict, {7: [7]})], {7: b"x"}, {}), []
                with mock.patch.object(output, "put_line", printed.append):
                    self.assertEqual(blocks.put_blocks(inspection, None, False), status)
                self.assertEqual(printed, [verdict, f"# process 7 (x) {says}"])
                with mock.patch.object(output, "put_json", printed.append):
                    blocks.put_blocks(inspection, None, True)
                self.assertEqual(printed[-1]["stacks"][0]["confined"], "strict" if is_strict else "not")

    @here
    def test_a_fault_of_the_table_is_said_once(self):
        child = self.child([OLDEST], [OLDEST, NEWEST])
        status, out, _ = self.run_tool("surface", "--table", self.file("t", b"read\n"), "--pid", str(child.pid))
        self.assertEqual((status, out.count("fault table Form line 1\n"), out.count("# process")), (2, 1, 0))


class Groups(unittest.TestCase):
    """tables/calls.groups."""

    def test_each_name_of_the_table_once_and_no_other(self):
        text = text_of(os.path.join(TOP, "tables", "calls.groups"))
        lines = [line.split() for line in text.splitlines() if line and not line.startswith("#")]
        names = [name for line in lines for name in line[1:]]
        self.assertEqual(sorted(names), sorted(tables.read_table(None).names()))
        self.assertEqual(len(set(names)), len(names))
        self.assertEqual([*surface_output.groups().items()], [(name, line[0]) for line in lines for name in line[1:]])
        self.assertTrue(all(len(" ".join(line)) <= 120 for line in lines))

    @unittest.skipUnless(shutil.which("systemd-analyze"), "there is no systemd-analyze here")
    def test_the_sets_are_systemds(self):
        """What stands behind a set's name is of this set; systemd's later versions only add to one."""
        printed = completed(["systemd-analyze", "syscall-filter"]).stdout.decode()
        sets = {name: set(names.split()) for name, names in re.findall(r"(?m)^(@\S+)\n((?:    .*\n)*)", printed)}
        self.assertGreater(len(sets), 20)
        now, looked_at = None, 0
        for line in text_of(os.path.join(TOP, "tables", "calls.groups")).splitlines():
            if line.startswith("#"):
                now = line.split()[-1] if line.startswith("# @") else None
            elif now:
                self.assertLessEqual(set(line.split()[1:]), sets[now], now)
                looked_at += 1
        self.assertGreater(looked_at, 20)
