"""The control flow of a filter as a graph for graphviz (dot(1)), folded so that long filters are readable.

Tests of one word after another, such as a search for the syscall number, are one node, whose edges have the ranges of
the word that lead to each target; the instructions before them belong to it. All returns of an answer are one node.
"""
from __future__ import annotations

import heapq
from collections.abc import Sequence

from ..base import output
from ..base.values import dataclass, field
from ..model import answers, architectures
from ..model.bpf import BY_X, JEQ, JGE, JGT, JUMP, RETURN_CONSTANT
from ..model.calls import ARCHITECTURE, NUMBER
from ..model.tables import Table
from ..ask.regions import GREATEST_WORD
from .listing import RETURNS, WORDS, Known, instructions, known_facts, name_of

# The most ranges that an edge names.
MOST_RANGES = 12
# Ranges of values, in their order, each with its first and its last one.
Ranges = list[tuple[int, int]]
MARK = ", penwidth=3, color=red"
COLOURS = {answers.ALLOWED: "palegreen", answers.DELEGATED: "khaki", answers.DENIED: "lightpink"}


def merged(first: Ranges, second: Ranges) -> Ranges:
    """The values of both, with neighbours as one range."""
    ranges: Ranges = []
    for low, high in heapq.merge(first, second):
        if ranges and low <= ranges[-1][1] + 1:
            ranges[-1] = ranges[-1][0], max(high, ranges[-1][1])
        else:
            ranges.append((low, high))
    return ranges


def _range_text(low: int, high: int, node: Node, table: Table) -> str:
    """Values of the word that a node tests."""
    texts = []
    for value in (low, high):
        texts.append(hex(value))
        if node.word == NUMBER:
            its = node.known.architectures
            texts[-1] = "x32" if value == answers.FIRST_X32 and answers.X86_64 in its else name_of(value, its, table)
        elif node.word == ARCHITECTURE:
            texts[-1] = architectures.shown_name(value) or texts[-1]
    return texts[0] if low == high else f"from {texts[0]} on" if high == GREATEST_WORD else " to ".join(texts)


def quoted(text: str) -> str:
    """A text of dot's language, each line of it at the left."""
    lines = [output.escaped(line).replace("\\", "\\\\").replace('"', '\\"') for line in text.split("\n")]
    return '"' + "".join(f"{line}\\l" for line in lines) + '"'


def digraph(statements: Sequence[str]) -> str:
    """The text of a graph with these nodes and edges."""
    head = ["node [shape=box, fontname=monospace];", "edge [fontname=monospace];"]
    return "".join(["digraph filter {\n", *(f"    {statement}\n" for statement in [*head, *statements]), "}\n"])


@dataclass
class Node:
    """A node: the indexes of its instructions, the word that it tests, if any, and where the values of that lead."""

    indexes: list[int]
    word: int | None = None
    known: Known = Known()
    targets: dict[int, Ranges] = field(default_factory=dict)


class Graph:
    """The nodes of a filter that instruction 0 reaches, by their first instructions."""

    def __init__(self, data: bytes) -> None:
        self.insns = instructions(data)
        self.known = known_facts(self.insns)
        self.nodes: dict[int, Node] = {}
        # the first return of each answer
        self.returns: dict[int, int] = {}
        for index, insn in enumerate(self.insns):
            if insn.code == RETURN_CONSTANT:
                self.returns.setdefault(insn.k, index)
        waiting = [self.behind_jumps(0)]
        while waiting:
            index = waiting.pop()
            if index < len(self.insns) and index not in self.nodes:
                self.nodes[index] = self._node(index)
                waiting += self.nodes[index].targets

    def behind_jumps(self, index: int) -> int:
        """The first instruction from there on that isn't an unconditional jump; of equal returns the first."""
        while index < len(self.insns) and self.insns[index].code == JUMP:
            index += 1 + self.insns[index].k
        if index < len(self.insns) and self.insns[index].code == RETURN_CONSTANT:
            return self.returns[self.insns[index].k]
        return index

    def _word_tested(self, index: int) -> int | None:
        """The word that a test compares with a constant, if ranges of it say how it goes on."""
        insn = self.insns[index]
        is_of_ranges = insn.is_test and not insn.code & BY_X and insn.code & 0xF0 in (JEQ, JGT, JGE)
        return self.known[index].word if is_of_ranges else None

    def _node(self, first: int) -> Node:
        """The instructions from there on up to a test, or to what returns."""
        indexes, index = [first], first
        while not self.insns[index].is_test and self.insns[index].kind != RETURNS:
            index = self.behind_jumps(index + 1)
            if index >= len(self.insns) or self.insns[index].kind == RETURNS:
                return Node(indexes, targets={index: []})
            indexes.append(index)
        word = self._word_tested(index)
        if word is not None:
            return self._switch(indexes, index, word)
        return Node(indexes, targets={self.behind_jumps(target): [] for target in self.insns[index].targets(index)})

    def _switch(self, indexes: list[int], index: int, word: int) -> Node:
        """The tests of a word from there on: no jump goes backwards, so each is met after all that lead to it."""
        node, waiting = Node(indexes, word, self.known[index]), {index: [(0, GREATEST_WORD)]}
        while waiting:
            at = min(waiting)
            ranges = waiting.pop(at)
            if at < len(self.insns) and self._word_tested(at) == word:
                if at not in node.indexes:
                    node.indexes.append(at)
                insn = self.insns[at]
                # the test holds for the values from the first to the last
                first = insn.k + (insn.code & 0xF0 == JGT)
                last = insn.k if insn.code & 0xF0 == JEQ else GREATEST_WORD
                inside = [(max(low, first), min(high, last)) for low, high in ranges if low <= last and high >= first]
                below = [(low, min(high, first - 1)) for low, high in ranges if low < first]
                above = [(max(low, last + 1), high) for low, high in ranges if high > last]
                for target, side in zip(insn.targets(at), (inside, merged(below, above))):
                    target = self.behind_jumps(target)
                    if side:
                        waiting[target] = merged(waiting.get(target, []), side)
            else:
                node.targets[at] = merged(node.targets.get(at, []), ranges)
        return node

    def way(self, path: Sequence[int]) -> list[int]:
        """The nodes on a path, in their order."""
        way = list(map(self.behind_jumps, path[:1]))
        for index in map(self.behind_jumps, path[1:]):
            # (a node may contain the first instruction of another one)
            if index in self.nodes[way[-1]].targets:
                way.append(index)
        return way

    def name_of(self, index: int) -> str:
        """The name of a node; of a return the answer's."""
        if index >= len(self.insns):
            return "end"
        return f"r{self.insns[index].k}" if self.insns[index].code == RETURN_CONSTANT else f"n{index}"

    def text(self, lines: Sequence[str], table: Table, path: Sequence[int] = ()) -> str:
        """The graph in dot's language, with the lines of a listing; the instructions on a path are marked."""
        way, nodes, edges = self.way(path), [], []
        for index, node in sorted(self.nodes.items()):
            name, insn, mark = self.name_of(index), self.insns[index], MARK if index in way else ""
            if insn.code == RETURN_CONSTANT:
                answer = answers.Answer.of_word(insn.k)
                nodes.append(f"{name} [shape=ellipse, style=filled, fillcolor={COLOURS[answer.disposition]}, "
                             f"label={quoted(answer.named())}{mark}];")
                continue
            before = [at for at in node.indexes if node.word is None or not self.insns[at].is_test]
            # (without the spaces that align a listing)
            shown, tests = [" ".join(lines[at].split()) for at in before], len(node.indexes) - len(before)
            if node.word is not None:
                which = f"{tests} tests, the last is {max(node.indexes)}" if tests > 1 else f"{node.indexes[-1]}"
                shown.append(f"{WORDS[node.word]}? ({which})")
            label = quoted("\n".join(shown))
            nodes.append(f"{name} [label={label}{mark}];")
            sizes = {target: sum(high - low + 1 for low, high in ranges) for target, ranges in node.targets.items()}
            fallback = max(sizes, key=lambda target: sizes[target], default=None)
            for at, (target, ranges) in enumerate(node.targets.items()):
                if node.word is None:
                    text = ("yes", "no")[at] if len(node.targets) > 1 else ""
                elif target == fallback and len(ranges) > 1:
                    text = "all others"
                else:
                    # which values of a word lead there
                    more = [f"and {len(ranges) - MOST_RANGES} more ranges"] * (len(ranges) > MOST_RANGES)
                    text = "\n".join([*(_range_text(*part, node, table) for part in ranges[:MOST_RANGES]), *more])
                mark = MARK if (index, target) in zip(way, way[1:]) else ""
                edges.append(f"{name} -> {self.name_of(target)} [label={quoted(text)}{mark}];")
        return digraph([*nodes, *edges])
