"""tools/list."""
import itertools
import json
import random
import re
import shutil
import unittest

from support.common import (ALLOW, CORE, EPERM, I386, KILL_PROCESS, X86_64, Case, completed, filter_of, insn, jeq, jge,
                            load, ret)
from scftools.model.calls import Call
from scftools.forms.filters import Filter
from scftools.report import flow_graph, listing
from support.stand_in import StandIn

# linux/audit.h
AARCH64, ARM = 0xC00000B7, 0x40000028
GATE = load(4) + jeq(X86_64, 1, 0) + ret(KILL_PROCESS) + load(0) + jge(0x40000000, 0, 1) + ret(EPERM) + jeq(231, 0,
    1) + ret(ALLOW) + ret(0x00050026)
EVERY_CODE = (0x20, 0x80, 0x81, 0x00, 0x01, 0x60, 0x61, 0x02, 0x03, 0x04, 0x0C, 0x14, 0x1C, 0x24, 0x2C, 0x34, 0x3C,
              0x44, 0x4C, 0x54, 0x5C, 0x64, 0x6C, 0x74, 0x7C, 0xA4, 0xAC, 0x84, 0x05, 0x15, 0x1D, 0x25, 0x2D, 0x35,
              0x3D, 0x45, 0x4D, 0x06, 0x16, 0x07, 0x87)


class List(Case):
    def listed(self, data):
        return self.output_of(0, "list", self.file("f.bpf", data)).split("\n")[:-1]

    def meanings(self, data):
        return [line.partition("  // ")[2] for line in self.listed(data)]

    def test_a_listing(self):
        self.assertEqual(self.listed(GATE), [
            "0  ld [4]                 // the architecture",
            "1  jeq #0xc000003e, 1, 0  // x86-64: to 3, else 2",
            "2  ret #0x80000000        // KILL_PROCESS",
            "3  ld [0]                 // the syscall number",
            "4  jge #0x40000000, 0, 1  // x32: to 5, else 6",
            "5  ret #0x50001           // ERRNO 1 (EPERM)",
            "6  jeq #0xe7, 0, 1        // exit_group: to 7, else 8",
            "7  ret #0x7fff0000        // ALLOW",
            "8  ret #0x50026           // ERRNO 38 (ENOSYS)",
        ])

    def test_targets_are_absolute(self):
        data = insn(0x05, 2) + insn(0x05, 0) + ret(0) + jeq(1, 0, 1) + ret(0) + insn(0x4D, 0, 200, 0) + ret(0)
        self.assertEqual(self.meanings(data), ["to 3", "to 2", "KILL_THREAD", "to 4, else 5", "KILL_THREAD",
                                               "to 206, which is out of range, else 6", "KILL_THREAD"])
        self.assertEqual(self.meanings(insn(0x05, 0xFFFFFFFF)), ["to 4294967296, which is out of range"])

    def test_calls_are_named_where_the_number_is_tested(self):
        tests = (jeq(0, 0, 0), insn(0x25, 1, 0, 0), jge(2, 0, 0), insn(0x45, 3, 0, 0), jeq(99999, 0, 0),
                 jeq(0x40000007, 0, 0), jeq(0xFFFFFFFF, 0, 0),
                 insn(0x45, 0x40000000, 0, 0), insn(0x1D, 0, 0, 0))
        names = ["read: ", "above write: ", "from open on: ", "", "number 99999: ", "x32 poll: ",
                 "number -1, which a tracer sets to skip a syscall: ", "x32: ", ""]
        for test, name in zip(tests, names):
            self.assertEqual(self.meanings(load(0) + test + ret(0))[1], f"{name}to 2, else 2")

    def test_only_where_a_holds_the_number_on_every_way(self):
        """What A holds is lost by a load, a computation or txa, kept by stores and jumps, joined where ways meet."""
        for between, name in ((load(16), ""), (insn(0x54, 7), ""), (insn(0x87, 0), ""), (insn(0x60, 0), ""),
                              (insn(0x80, 0), ""), (insn(0x00, 5), ""),
                              (insn(0x02, 0), "read: "), (insn(0x07, 0), "read: "), (insn(0x01, 5), "read: "),
                              (insn(0x05, 0), "read: ")):
            data = load(0) + between + jeq(0, 0, 0) + ret(0)
            self.assertEqual(self.meanings(data)[2], f"{name}to 3, else 3", between)
        joined = load(0) + jeq(5, 0, 1) + load(16) + jeq(0, 0, 0) + ret(0)
        self.assertEqual(self.meanings(joined)[3], "to 4, else 4")
        both = load(0) + jeq(5, 0, 1) + load(0) + jeq(0, 0, 0) + ret(0)
        self.assertEqual(self.meanings(both)[3], "read: to 4, else 4")

    def test_an_architecture_that_is_tested(self):
        """Behind a test of the architecture whose targets are one, no more is known than before it; calls of another
        architecture aren't named as x86-64's."""
        data = load(4) + jeq(I386, 0, 0) + load(0) + jeq(1, 0, 0) + ret(0)
        self.assertEqual(self.meanings(data)[1::2], ["i386: to 2, else 2", "write: to 4, else 4"])
        tested = load(4) + jeq(I386, 0, 3) + jeq(X86_64, 0, 0) + load(0) + jeq(1, 0, 0) + ret(0)
        self.assertEqual(self.meanings(tested)[4], "exit of i386: to 5, else 5")
        data = load(4) + jeq(I386, 0, 2) + load(0) + jeq(1, 0, 0) + load(0) + jeq(1, 0, 0) + ret(0)
        self.assertEqual(self.meanings(data), ["the architecture", "i386: to 2, else 4", "the syscall number",
                                               "exit of i386: to 4, else 4", "the syscall number",
                                               "write: to 6, else 6", "KILL_THREAD"])

    def test_calls_of_each_architecture_behind_its_test(self):
        """Their numbers are those of asm/unistd*.h."""
        data = (load(4) + jeq(X86_64, 4, 0) + jeq(I386, 6, 0) + jeq(AARCH64, 8, 0) + jeq(ARM, 10, 0) + ret(0)
                + load(0) + jeq(0x40000009, 0, 0) + ret(0) + load(0) + jeq(4, 0, 0) + ret(0)
                + load(0) + jeq(56, 0, 0) + ret(0) + load(0) + jeq(0xF0005, 0, 0) + ret(0))
        lines = self.meanings(data)
        self.assertEqual(lines[1:5], ["x86-64: to 6, else 2", "i386: to 9, else 3", "aarch64: to 12, else 4",
                                      "arm: to 15, else 5"])
        self.assertEqual(lines[7::3], ["x32 mmap: to 8, else 8", "write of i386: to 11, else 11",
                                       "openat of aarch64: to 14, else 14", "set_tls of arm: to 17, else 17"])

    def test_several_architectures_at_one_test(self):
        """Each that comes there is named; where more come, or those that no test has told apart, none is."""
        def at_the_end(*architectures):
            tests = b"".join(jeq(architecture, len(architectures) - at, 0)
                             for at, architecture in enumerate(architectures))
            data = load(4) + tests + ret(0) + load(0) + jeq(1, 0, 0) + ret(0)
            return self.meanings(data)[-2].removesuffix(f": to {len(data) // 8 - 1}, else {len(data) // 8 - 1}")

        self.assertEqual(at_the_end(I386), "exit of i386")
        self.assertEqual(at_the_end(I386, X86_64), "write or exit of i386")
        self.assertEqual(at_the_end(ARM, I386, AARCH64), "exit of i386 or exit of arm or io_destroy of aarch64")
        self.assertEqual(at_the_end(ARM, I386, AARCH64, X86_64), "number 1 of several architectures")
        program = load(4) + jeq(X86_64, 0, 1) + ret(0) + load(0) + jeq(1, 0, 0) + ret(0)
        self.assertEqual(self.meanings(program)[4], "number 1 of other architectures: to 5, else 5")
        # what no record can have isn't counted: i386's is tested twice
        twice = (load(4) + jeq(X86_64, 2, 0) + jeq(I386, 1, 0) + ret(0) + jeq(ARM, 1, 0) + load(0) + jeq(1, 0, 0)
                 + ret(0))
        self.assertEqual(self.meanings(twice)[6], "write or exit of i386: to 7, else 7")

    def test_where_any_architecture_comes(self):
        """By a test whose targets are one, and by two paths of which each leaves one out."""
        program = load(4) + jeq(X86_64, 0, 0) + load(0) + jeq(1, 0, 0) + ret(0)
        two = (load(4) + insn(0x45, 1, 0, 2) + jeq(X86_64, 2, 1) + ret(0) + jeq(I386, 0, 1) + ret(0) + load(0)
               + jeq(1, 0, 0) + ret(0))
        for data in (program, two):
            self.assertEqual(self.meanings(data)[-2].split(":")[0], "write")

    def test_no_path_of_another_architecture(self):
        """Of random filters: at each instruction that a record comes to, its architecture is among those that may."""
        machine, come = StandIn(), 0
        for seed in range(300):
            random_of = random.Random(f"listing {seed}")
            tests = [load(4), load(0), *(jeq(random_of.choice((X86_64, I386, AARCH64, ARM, 1)), random_of.randrange(4),
                                             random_of.randrange(4)) for _ in range(9)), insn(0x45, 1, 0, 1)]
            data = load(4) + b"".join(random_of.choice(tests) for _ in range(14)) + ret(0) * 4
            facts = listing.known_facts(listing.instructions(data))
            for architecture, number in itertools.product((X86_64, I386, AARCH64, ARM, 0x1234), (0, 1, I386)):
                places = machine.path(data, Call(number, architecture))
                its = [facts[place].architectures for place in places]
                # (None stands for those that no test has)
                known = architecture if architecture in facts[0].architectures else None
                self.assertEqual([fact for fact in its if known not in fact], [], seed)
                come += sum(None not in fact for fact in its)
        self.assertGreater(come, 1000)

    def test_x32_is_of_x86_64_alone(self):
        for architecture, says, on_edge in (
                (X86_64, "x32", "from x32 on"),
                (I386, "from number 1073741824 of i386 on", "from number 1073741824 of i386 on")):
            data = load(4) + jeq(architecture, 0, 2) + load(0) + jge(0x40000000, 0, 1) + ret(0) + ret(1)
            self.assertEqual(self.meanings(data)[3], f"{says}: to 4, else 5")
            out = self.run_tool("list", "--dot", self.file("f.bpf", data))[1]
            self.assertIn(f'n2 -> r0 [label="{on_edge}\\l"]', out)

    def test_lines_of_each_code(self):
        """As scf prints them, whatever is in which field."""
        rows = [insn(code, k, jt, jf) for code in (*range(0x100), 0x106, 0xFFFF) for k in (0, 1, 31, 0xFFFFFFFF)
                for jt, jf in ((0, 0), (255, 0), (0, 3))]
        for at in range(0, len(rows), 4096):
            data = b"".join(rows[at:at + 4096])
            plain, listed = self.run_words([*CORE, "dis"], data)[1].split("\n")[:-1], self.listed(data)
            self.assertEqual([each.text for each in listing.instructions(data)], plain)
            self.assertEqual([re.sub(r" *//.*", "", re.sub(r"^ *[0-9]+  ", "", line)) for line in listed], plain)
            self.assertEqual([int(line.split()[0]) for line in listed], list(range(len(plain))))

    def test_words_of_a_call(self):
        names = self.meanings(b"".join(load(4 * at) for at in range(16)) + load(64) + load(2))
        self.assertEqual(names[:4], ["the syscall number", "the architecture", "the instruction pointer, low half",
                                     "the instruction pointer, high half"])
        self.assertEqual(names[4:16], [f"argument {at}, {half} half" for at in range(6) for half in ("low", "high")])
        self.assertEqual(names[16:], ["", ""])
        self.assertEqual(self.meanings(ret(0x00050000) + ret(0x7FFF0002) + ret(0x12340000)),
                         ["ERRNO 0", "ALLOW 2", "an unknown action"])

    def test_pipes_and_a_table_of_ones_own(self):
        out = self.output_of(0, "list", "--table", self.file("t", b"look 231\n"), "-", given=GATE)
        self.assertIn("// look: to 7, else 8\n", out)
        self.assertEqual(self.run_tool("list", "-"), (0, "", ""))

    def test_wrong_files(self):
        out = self.output_of(2, "list", "-", given=b"\6\0\0\0")
        self.assertTrue(out.startswith("fault filter Truncated offset 0\n# "), out)
        for words in (("none",), (self.folder,), ("--table", "none", "-")):
            self.is_refused("list: ", "list", *words)


class Graph(Case):
    """--dot: the control flow as a graph."""

    def graph_of(self, data, *words):
        return self.output_of(0, "list", "--dot", *words, self.file("f.bpf", data))

    def test_a_graph(self):
        """The search for a number is one node, and equal returns are one."""
        data = (load(4) + jeq(X86_64, 1, 0) + ret(KILL_PROCESS) + load(0) + jge(3, 0, 2) + jeq(9, 0, 3) + ret(EPERM)
                + jeq(1, 0, 1) + ret(EPERM) + ret(ALLOW))
        self.assertEqual(self.graph_of(data), """digraph filter {
    node [shape=box, fontname=monospace];
    edge [fontname=monospace];
    n0 [label="0 ld [4] // the architecture\\lthe architecture? (1)\\l"];
    r2147483648 [shape=ellipse, style=filled, fillcolor=lightpink, label="KILL_PROCESS\\l"];
    n3 [label="3 ld [0] // the syscall number\\lthe syscall number? (3 tests, the last is 7)\\l"];
    r327681 [shape=ellipse, style=filled, fillcolor=lightpink, label="ERRNO 1 (EPERM)\\l"];
    r2147418112 [shape=ellipse, style=filled, fillcolor=palegreen, label="ALLOW\\l"];
    n0 -> r2147483648 [label="all others\\l"];
    n0 -> n3 [label="x86-64\\l"];
    n3 -> r327681 [label="write\\lmmap\\l"];
    n3 -> r2147418112 [label="all others\\l"];
}
""")
        marked = [line.strip() for line in self.graph_of(data, "--nr=mmap").split("\n") if "color=red" in line]
        self.assertEqual([line.split(" [")[0] for line in marked], ["n0", "n3", "r327681", "n0 -> n3", "n3 -> r327681"])

    @unittest.skipUnless(shutil.which("dot"), "there is no graphviz here")
    def test_texts_of_strangers(self):
        """What would end a text, or mean something in it, is text."""
        for text, shown in (('a"];evil[label="b', 'a"];evil[label="b\\l'), ("a\\N\\", "a\\\\N\\\\\\l"),
                            ("<b>", "<b>\\l"),
                            ("\x1b[2J\udcff//", "\\\\x1b[2J\\\\xff//\\l"), ("a\nb", "a\\lb\\l")):
            given = flow_graph.digraph([f"n [label={flow_graph.quoted(text)}];"])
            done = completed(["dot", "-Tjson"], given.encode(), check=True)
            self.assertEqual([(node["name"], node["label"]) for node in json.loads(done.stdout)["objects"]],
                             [("n", shown)])

    def test_each_path_is_one_of_the_graph(self):
        """Of filters with every kind of test, by the paths that scf takes: an edge has the value that was tested."""
        tests = (jeq(5, 1, 0), jge(7, 0, 2), insn(0x25, 9, 1, 0), insn(0x45, 6, 0, 1), load(16), jeq(3, 0, 1),
                 ret(EPERM), insn(0x05, 1), ret(ALLOW), load(0), jge(2, 0, 1), ret(EPERM), insn(0x54, 3), jeq(1, 0, 1),
                 ret(ALLOW), ret(0x00050026))
        chain = b"".join(jeq(value, 0, 1) + insn(0x05, 0) for value in range(9))
        for data in (b"".join(tests), filter_of(range(0, 40, 3)), load(0) + chain + ret(ALLOW)):
            graph = flow_graph.Graph(data)
            for number, first in itertools.product(range(12), (0, 1, 3, 2**32 + 3)):
                call = Call(number, arguments=(first, *[0] * 5))
                places = listing.path_of(Filter("", data), call.words()).indexes
                way = graph.way(places)
                self.assertEqual(way[0], graph.behind_jumps(0))
                self.assertEqual(way[-1], graph.behind_jumps(places[-1]))
                words = {0: number, 1: X86_64, 4: first & 0xFFFFFFFF, 5: first >> 32}
                for place, target in zip(way, way[1:]):
                    node = graph.nodes[place]
                    self.assertIn(target, node.targets)
                    if node.word is not None:
                        self.assertTrue(any(low <= words[node.word] <= high for low, high in node.targets[target]))

    def test_a_long_filter_is_folded(self):
        """As the engines': 1,000 tests are a few nodes, and take no time."""
        tests = b"".join(jeq(number, 0, 1) + ret(ALLOW) for number in range(0, 2000, 2))
        data = load(0) + tests + ret(EPERM)
        out = self.run_tool("list", "--dot", self.file("f.bpf", data), seconds=30)[1]
        self.assertLess(out.count(" -> "), 10)
        self.assertIn("and 988 more ranges", out)

    @unittest.skipUnless(shutil.which("dot"), "there is no graphviz here")
    def test_graphviz_draws_it(self):
        for data in (GATE, insn(0x05, 9), b"".join(insn(code, 0) for code in EVERY_CODE)):
            done = completed(["dot", "-Tsvg"], self.graph_of(data).encode())
            self.assertEqual((done.returncode, done.stderr), (0, b""))
