"""Listings of filters: instruction indexes, jump targets, and names of syscalls and answers; and paths: which
instructions run on a syscall, by `scf run --path` and `scf decide --path`, and the last tests among them."""
from __future__ import annotations

import itertools
from collections.abc import Iterable, Iterator, Sequence

from ..base import output
from ..base.values import dataclass, replace
from ..model import bundles
from ..model.answers import ACTIONS, FIRST_X32, X86_64, Answer
from ..model.architectures import shown_name
from ..model.bpf import BY_X, INSTRUCTION, JEQ, JGE, JGT, JSET, JUMP, LOAD_WORD, RETURN_CONSTANT
from ..model.calls import ARCHITECTURE, END, NUMBER, Call, number_text
from ..model.tables import Table
from ..ask import client, verdicts
from ..forms.filters import Filter

# The names of a record's words, by their indexes.
WORDS = ["the syscall number", "the architecture", *(
    f"{name}, {half} half" for name in ("the instruction pointer", *(f"argument {index}" for index in range(6)))
    for half in ("low", "high"))]
# The most architectures whose names of one number are listed.
MOST_NAMED = 3
# linux/bpf_common.h: instruction classes, and the one BPF_MISC code that changes the accumulator.
LOAD_CLASS, ALU, JUMPS, RETURNS, TXA = 0, 4, 5, 6, 0x87
# The codes that the kernel takes as scf's assembler has them, of a constant and of X, and the others.
OF_BOTH = dict(zip((*range(0x04, 0x84, 0x10), 0xA4), "add sub mul div or and lsh rsh xor".split()))
TESTS = {JUMPS | test: name for name, test in (("jeq", JEQ), ("jgt", JGT), ("jge", JGE), ("jset", JSET))}
TEXTS = {LOAD_WORD: "ld [{k}]", 0x80: "ld len", 0x81: "ldx len", 0x00: "ld #{k:#x}", 0x01: "ldx #{k:#x}",
         0x60: "ld M[{k}]", 0x61: "ldx M[{k}]", 0x02: "st M[{k}]", 0x03: "stx M[{k}]", 0x84: "neg", JUMP: "ja {k}",
         RETURN_CONSTANT: "ret #{k:#x}", 0x16: "ret a", 0x07: "tax", TXA: "txa",
         **{code | by: f"{name} {operand}{', {jt}, {jf}' * (code in TESTS)}" for code, name in (OF_BOTH | TESTS).items()
            for by, operand in ((0, "#{k:#x}"), (BY_X, "x"))}}
# At most so many of the last tests are printed.
MOST_TESTS = 12


@dataclass(frozen=True)
class Instruction:
    """An instruction of a filter (struct sock_filter in linux/filter.h)."""

    code: int
    if_true: int
    if_false: int
    k: int

    @property
    def kind(self) -> int:
        return self.code & 7

    @property
    def word(self) -> int | None:
        """The index of the word that it loads, or None."""
        return self.k // 4 if self.code == LOAD_WORD and self.k < 4 * END and self.k % 4 == 0 else None

    @property
    def is_test(self) -> bool:
        return self.kind == JUMPS and self.code != JUMP

    @property
    def changes_a(self) -> bool:
        return self.kind in (LOAD_CLASS, ALU) or self.code == TXA

    @property
    def text(self) -> str:
        """Its line, as `scf dis` prints it: `raw` if its code is another one, or has no use for what a field has."""
        text, fields = TEXTS.get(self.code, ""), {"k": self.k, "jt": self.if_true, "jf": self.if_false}
        if not text or any(value and f"{{{name}" not in text for name, value in fields.items()):
            return f"raw {self.code:#06x}, {self.if_true}, {self.if_false}, {self.k:#x}"
        return text.format(**fields)

    def targets(self, index: int) -> list[int]:
        """The indexes of its successors, given its own."""
        of_jump = [self.k] if self.code == JUMP else [self.if_true, self.if_false]
        return [index + 1 + offset for offset in {RETURNS: [], JUMPS: of_jump}.get(self.kind, [0])]


def instructions(data: bytes) -> list[Instruction]:
    return [Instruction(*fields) for fields in INSTRUCTION.iter_unpack(data)]


@dataclass(frozen=True)
class Known:
    """Facts that hold at an instruction on every path to it: the word in A, and which architectures the record may
    have, of those that a filter tests and x86-64; None stands for all others."""

    word: int | None = None
    architectures: frozenset[int | None] = frozenset([X86_64, None])


def known_facts(insns: Sequence[Instruction]) -> list[Known]:
    """The facts at each instruction; all jumps go forwards."""
    at_first = Known(None, frozenset([X86_64, None, *(insn.k for insn in insns if insn.code == JUMP | JEQ)]))
    facts: dict[int, Known] = {0: at_first}
    for index, insn in enumerate(insns):
        if index not in facts:
            continue
        here = facts[index]
        # (for each target)
        behind = [replace(here, word=insn.word)] if insn.changes_a else [here, here]
        if insn.code == JUMP | JEQ and here.word == ARCHITECTURE:
            behind = [replace(here, architectures=here.architectures & {insn.k}),
                      replace(here, architectures=here.architectures - {insn.k})]
        for target, after in zip(insn.targets(index), behind):
            if after.architectures:
                # (paths may meet there)
                met = facts.get(target, after)
                facts[target] = Known(met.word if met.word == after.word else None,
                                      met.architectures | after.architectures)
    return [facts.get(index, at_first) for index in range(len(insns))]


def _name_on(k: int, architecture: int, table: Table) -> str:
    """The name of a syscall number on an architecture."""
    named = " or ".join(Call(k, architecture).names(table))
    if architecture != X86_64:
        return f"{named or f'number {k}'} of {shown_name(architecture) or hex(architecture)}"
    return f"x32 {named}" if named and k >= FIRST_X32 else named or number_text(k)


def name_of(k: int, its: frozenset[int | None], table: Table) -> str:
    """The names of a syscall number that a filter tests: those of the architectures that come there, else x86-64's."""
    if None in its:
        return _name_on(k, X86_64, table) if X86_64 in its else f"number {k} of other architectures"
    if len(its) > MOST_NAMED:
        return f"number {k} of several architectures"
    return " or ".join(_name_on(k, each, table) for each in sorted(its, key=lambda number: (number != X86_64, number)))


def _meaning(index: int, insn: Instruction, facts: Known, table: Table, count: int) -> str | None:
    """The comment on an instruction, or None."""
    if insn.word is not None:
        return WORDS[insn.word]
    if insn.code == RETURN_CONSTANT:
        action, data = ACTIONS.get(insn.k >> 16, "an unknown action"), insn.k & 0xFFFF
        return Answer(action, data).named() if data or action == "ERRNO" else action
    test, what = insn.code & 0xF0, None
    if insn.kind != JUMPS or (insn.code != JUMP and test not in (JEQ, JGT, JGE, JSET)):
        return None
    # the syscall or architecture that a test compares with
    is_of_constant = insn.is_test and not insn.code & BY_X
    if is_of_constant and facts.word == ARCHITECTURE and test == JEQ:
        what = shown_name(insn.k)
    elif is_of_constant and facts.word == NUMBER:
        name = name_of(insn.k, facts.architectures, table)
        is_x32 = insn.k == FIRST_X32 and test in (JGE, JSET) and X86_64 in facts.architectures
        what = "x32" if is_x32 else {JEQ: name, JGT: f"above {name}", JGE: f"from {name} on"}.get(test)
    shown = [f"{target}" if target < count else f"{target}, which is out of range" for target in insn.targets(index)]
    return (f"{what}: " if what else "") + f"to {shown[0]}" + (f", else {shown[1]}" if len(shown) > 1 else "")


def meanings(data: bytes, table: Table) -> list[str | None]:
    """The meaning of each instruction, None where the instruction alone says as much."""
    insns = instructions(data)
    return [_meaning(index, insn, facts, table, len(insns))
            for index, (insn, facts) in enumerate(zip(insns, known_facts(insns)))]


def listing_lines(listed: Iterable[tuple[int, tuple[str, str | None]]], count: int) -> Iterator[str]:
    """Lines of a listing of so many: each after its index, and before its meaning."""
    listed, index_width = list(listed), len(str(count - 1))
    width = max((len(line) for _, (line, _) in listed), default=0)
    for index, (line, meaning) in listed:
        yield f"{index:{index_width}}  " + (f"{line:{width}}  // {meaning}" if meaning else line)


@dataclass(frozen=True)
class Path:
    """A filter's answer to a syscall, and the indexes of the instructions that run; none after a fault."""

    filter: Filter
    status: int
    lines: tuple[str, ...]
    decision: verdicts.Decision
    indexes: tuple[int, ...] = ()

    @classmethod
    def read(cls, bpf_filter: Filter, status: int, lines: Sequence[str]) -> Path:
        """The answer of a run in its first line, and the path in the second one, if there is one."""
        word, *indexes = "".join(lines[1:2]).split(" ")
        return cls(bpf_filter, status, tuple(lines), verdicts.decision("".join(lines[:1])),
                   tuple(map(int, indexes)) if word == "path" else ())

    def title(self, filters: Sequence[Filter]) -> str:
        """What the filter is called, which is one of these."""
        return "the filter" if len(filters) == 1 else self.filter.name

    def describe(self) -> str:
        """The indexes; three or more consecutive ones as a range."""
        return " ".join(f"{first}-{last}" if last - first > 1 else " ".join(map(str, range(first, last + 1)))
                        for first, last in output.runs(self.indexes))

    def as_json(self) -> dict[str, object]:
        return {"filter": self.filter.name, "indexes": list(self.indexes)}

    def last_tests(self, call: Call, table: Table, title: str) -> Iterator[str]:
        """The last tests and the end, as lines of the listing, each with the value loaded and the branch taken; and
        before them a line that gives the filter a title."""
        insns, tests, loaded = instructions(self.filter.data), [], ""
        halves = (half for value in (call.pointer or 0, *call.arguments) for half in (value & 0xFFFFFFFF, value >> 32))
        # the 32-bit words of the record, in order (struct seccomp_data in linux/seccomp.h)
        words = [call.number, call.architecture, *halves]
        for at, index in enumerate(self.indexes):
            insn = insns[index]
            if insn.is_test:
                tests.append((index, f"; {loaded}went to {self.indexes[at + 1]}"))
            elif insn.kind == RETURNS:
                tests.append((index, ""))
            elif insn.word is not None:
                loaded = f"loaded {words[insn.word]:#x}, "
            elif insn.kind == ALU and loaded:
                loaded = loaded.partition(",")[0] + ", computed with it, "
            elif insn.changes_a:
                loaded = ""
        shown, known = tests[-MOST_TESTS:], known_facts(insns[:self.indexes[-1] + 1])
        listed = ((at, (insns[at].text, _meaning(at, insns[at], known[at], table, len(insns)))) for at, _ in shown)
        before = f", after {len(tests) - len(shown)} others" if len(tests) > len(shown) else ""
        yield f"the last tests on the path in {title}{before}:"
        yield from (line + way for line, (_, way) in zip(listing_lines(listed, len(insns)), shown))


def path_of(bpf_filter: Filter, words: Sequence[str], with_path: bool = True) -> Path:
    """A filter's answer to the record that scf's options give, and on request the path to it."""
    done = client.run_scf(["run", *["--path"] * with_path, *words], bpf_filter.data)
    return Path.read(bpf_filter, done.status, done.lines)


def givers(paths: Sequence[Path], answer: Answer | None) -> list[Path]:
    """The paths of a stack's filters, oldest first, that give this answer. The kernel takes the stack's from the last:
    it runs the newest first, and of equal actions keeps the first (seccomp_run_filters in kernel/seccomp.c)."""
    return [path for path in paths if path.indexes and path.decision.answer == answer]


def run_stack(filters: Sequence[Filter], words: Sequence[str]) -> tuple[int, verdicts.Decision, list[Path]]:
    """scf's status, a stack's answer to the record that scf's options give, and its filters' paths, oldest first."""
    done = client.run_scf(["decide", *words, "--path"], bundles.stack_bundle([each.data for each in filters]))
    runs = done.lines[1:]
    return done.status, verdicts.decision(done.text), [Path.read(bpf_filter, done.status, runs[2 * at:2 * at + 2])
                                                       for at, bpf_filter in enumerate(filters)]


def deciding_filters(stacks: Sequence[tuple[Sequence[Filter], Answer]], words: Sequence[str]) -> list[list[Path]]:
    """The paths of stacks' filters, oldest first, that give these answers: by one start of scf, if all are a stack."""
    _, decision, run_paths = run_stack([bpf_filter for filters, _ in stacks for bpf_filter in filters], words)
    if decision.answer is None and len(stacks) > 1:
        return [found for each in stacks for found in deciding_filters([each], words)]
    paths = iter(run_paths)
    return [givers([*itertools.islice(paths, len(filters))], answer) for filters, answer in stacks]


def to_show(givers: Sequence[Path]) -> Path | None:
    """The path that is shown, of several filters that give the answer: the newest's, whose answer the kernel takes. It
    begins with ALLOW and takes it from no filter: then it is the one on which the most instructions run, since others
    may not even load the syscall number."""
    if not givers:
        return None
    answer = givers[-1].decision.answer
    is_allowed = answer is not None and answer.action == "ALLOW"
    return max(reversed(givers), key=lambda path: len(path.indexes)) if is_allowed else givers[-1]
