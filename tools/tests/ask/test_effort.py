"""The limits of comparisons: a tool ends soon, however long its filters may be explored, and says what it left out."""
import json
import os
from unittest import mock

from support.common import (ALLOW, EPERM, GATE, PROGRAM, TABLE, Case, filter_of, insn, jeq, jge, limited, load, part,
                            profile_of, ret, taken, text_of)
from support.worked import size_of_paths
from scftools.base import program
from scftools.ask import client

# Seconds of a processor, and bytes of address space, that a tool and all that it runs may take.
SECONDS, MEMORY = 30, 500 << 20
# Of about 4000 instructions: each bit of an argument again and again, on ways that part and don't meet soon; and orders
# of all arguments.
BITS = GATE + load(16) + b"".join(insn(0x45, 1 << at % 32, 0, 1) for at in range(4080)) + ret(ALLOW) * 2
SPENT = f"compare: {client.SPENT}\n"
ORDERS = GATE + b"".join(load(16 + 4 * (at % 12)) + jge(at // 12 * 1000 + 500, 0, 1) + load(16)
                         for at in range(1300)) + ret(ALLOW)


class Slow(Case):
    def ends(self, *words):
        """The status, what was printed and what was said."""
        before = taken()
        actual = self.run_tool(*words, preexec_fn=limited(SECONDS + 1, MEMORY))
        self.assertLess(taken() - before, SECONDS, words[:3])
        return actual

    def test_compare(self):
        allows, fails = self.file("a.json", b'{"defaultAction":"SCMP_ACT_ALLOW"}'), self.file("e.json", profile_of())
        # a verdict that is known soon, or none, by the limit of time or that of steps for all syscalls together
        bits, orders = self.file("b.bpf", BITS), self.file("o.bpf", ORDERS)
        for words, expected in ((["--calls", bits, allows], (4, "unfinished")), ([bits, allows], (4, "unfinished")),
                                ([orders, fails], (1, "differs"))):
            status, out, err = self.ends("compare", *words)
            self.assertEqual((status, out.split("\n")[0]), expected)
            self.assertIn(err, ("", SPENT))

    def test_a_masked_pair_of_more_steps_than_the_program_takes(self):
        """scf's clauses speak of limits from the effort on: a tool's is above that of real pairs, the program's
        isn't."""
        masked = load(16) + insn(0x54, 0x30) + jeq(0x10, 0, 1) + ret(ALLOW) + ret(EPERM)
        tests = b"".join(insn(0x15, at, 0, 1) + insn(5, 2 * (299 - at)) for at in range(300))
        filters = load(0) + tests + load(16) * 3480 + masked, masked
        self.assertEqual(size_of_paths(filters[0]) * size_of_paths(masked), 5247930)
        first, second = (self.file(name, data) for name, data in zip(("a.bpf", "b.bpf"), filters))
        for limit, expected in (([], (0, "same")), (["--limit=1000000"], (4, "unfinished"))):
            status, out, err = self.run_tool("compare", *limit, first, "--beside", second)
            self.assertEqual((status, out.split("\n")[0], err), (*expected, ""))

    def test_surface(self):
        """A filter whose regions take more steps than the limit is unfinished as a whole, in time."""
        name = self.file("f.bpf", GATE + jge(100, 4, 0) + jeq(0, 0, 1) + ret(ALLOW) + ret(EPERM) + ret(EPERM)
                         + ORDERS[len(GATE):])
        status, out, err = self.ends("surface", "--json", name)
        actual = {row["number"]: row["disposition"] for row in json.loads(out)["calls"]}
        self.assertEqual((status, set(actual.values()), err), (4, {"unfinished"}, ""))

    def test_an_answer_without_end(self):
        """No more than a part of it is read, then scf is ended."""
        program_file = self.file(
            "program", f'#!/bin/sh\n[ "$1" = --version ] && exec {PROGRAM} "$@"\nexec yes region\n')
        os.chmod(program_file, 0o755)
        name = self.file("f.bpf", BITS)
        with mock.patch.object(client, "PROGRAMS", [program_file]):
            self.assertEqual(self.ends("answers", name)[:2], (4, "unfinished\n"))
            self.assertEqual(self.ends("surface", name)[0], 4)

    def test_a_limit_that_is_given_is_the_only_one(self):
        status, out, err = self.run_tool("compare", "--calls", "--limit", "20000", self.file("f.bpf", BITS),
                                         self.file("a.json", b'{"defaultAction":"SCMP_ACT_ALLOW"}'))
        self.assertEqual((status, out.split("\n")[0], err), (4, "unfinished", ""))

    def test_a_few_of_many_calls_that_could_not_be_told_are_listed(self):
        """Where one call differs, and the comparison of each other is left unfinished."""
        name = self.file("f.bpf", GATE + jeq(0, 0, 1) + ret(EPERM) + BITS[len(GATE):])
        table = self.file("t", b"".join(b"c%d %d\n" % (number, number) for number in range(30)))
        status, out, _ = self.run_tool("compare", "--limit=300", "--table", table, name,
                                       self.file("a.json", b'{"defaultAction":"SCMP_ACT_ALLOW"}'))
        lines = out.split("\n")
        self.assertEqual((status, lines[0]), (1, "differs"))
        self.assertIn("# syscalls in the table without a verdict: 29", lines)
        self.assertEqual([line for line in lines if line.endswith(" unfinished")],
                         [f"# {number} c{number} unfinished" for number in range(1, 21)])
        self.assertIn("# more such syscalls: 9", lines)


class Limits(Case):
    def setUp(self):
        super().setUp()
        self.given = (part("filter", filter_of([0])) + part("profile", profile_of("read"))
                      + part("table", text_of(TABLE).encode()))

    def compared(self, seconds, most, *words):
        """What a tool whose time is over is told."""
        limits_before = program.is_tool, client.SECONDS, client.ALL_SECONDS, client._is_spent_reported
        program.is_tool, client.SECONDS, client.ALL_SECONDS, client._is_spent_reported = True, seconds, most, True
        try:
            return client.compare(words, self.given)
        finally:
            program.is_tool, client.SECONDS, client.ALL_SECONDS, client._is_spent_reported = limits_before

    def test_no_time(self):
        """Few steps, and then none: each is as with a limit of so many."""
        for most, limit in ((1 << 30, client.FEW_STEPS), (0, "0")):
            for words in ((), ("--native",), ("--calls",), ("--calls", "--no-more")):
                self.assertEqual(self.compared(0, most, *words),
                                 client.run_scf(["compare", *words, "--limit", limit], self.given))
        self.assertEqual(self.compared(0, 0, "--calls").status, program.UNKNOWN)
        self.assertEqual(self.compared(0, 1 << 30, "--calls").out, b"same\n")

    def test_a_process_that_has_less(self):
        """A limit of the tool's own process is never raised, and no limit of others is needed."""
        status, out, _ = self.run_tool("compare", self.file("f.bpf", filter_of([0])),
                                       self.file("p.json", profile_of("read")), preexec_fn=limited(2))
        self.assertEqual((status, out), (0, "same\n"))

    def test_a_long_answer(self):
        """No more than so many bytes of it are read."""
        for most, status, is_whole in ((10, program.UNKNOWN, False), (1 << 20, 0, True)):
            done = client.run_scf(["--help"], most=most)
            self.assertEqual((done.status, done.out != b"unfinished\n"), (status, is_whole))
