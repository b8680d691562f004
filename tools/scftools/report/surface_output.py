"""Surfaces of stacks, alone or beside another one's, as a table as wide as the terminal, or without one as a line for
each syscall; and as JSON. Of two surfaces the syscalls are shown that get different answers, and those that are
undecided, as scf compares the filters of both."""
from __future__ import annotations

import functools
import textwrap
from collections.abc import Callable, Iterable, Iterator, Sequence

from ..base import output, program
from ..base.values import Any, by_key, dataclass
from ..model import constants, tables
from ..model.answers import ALLOW, ALLOWED, DENIED, DEPENDS
from ..model.architectures import NATIVE, Architecture
from ..model.bundles import BESIDE
from ..model.calls import NO_CALL
from ..model.tables import Table, Tables, dangerous
from ..ask import client, explanation, questions
from ..ask.explanation import join_names
from ..ask.regions import span_of
from ..ask.verdicts import SAME, UNDECIDED, UNFINISHED, NamedCall, Verdict
from ..forms import refusals
from ..forms.filters import Filter
from . import surfaces
from .blocks import OF_ALL, Block
from .compare import StackComparison
from .condition_texts import condition_text
from .surfaces import ROW_WORDS, Row, Surface

# The least width of a column of names beside others.
LEAST_WIDTH = 24
# What is counted even where it is 0.
ALWAYS_COUNTED = (ALLOWED, DEPENDS, DENIED)
# The group of a syscall that the file doesn't name.
OTHER_GROUP = "other"


@functools.lru_cache(None)
def groups() -> dict[str, str]:
    """The purposes of syscalls (tables/calls.groups names its sources): the group of each name, in order."""
    return {name: group for group, *names in map(str.split, program.table_lines("calls.groups")) for name in names}


def group_of(row: Any) -> str:
    return next((groups()[name] for name in row.names if name in groups()), OTHER_GROUP)


def dangers(surface: Surface) -> list[dict[str, Any]]:
    """What becomes of dangerous syscalls, as objects: where calls of one differ, of those that are dangerous."""
    rows, found = {name: row for row in surface.rows for name in row.names}, []
    for name, danger in dangerous().items():
        if name not in rows:
            continue
        row, said, where = rows[name], rows[name].said, {}
        if said == DEPENDS and danger.conditions:
            condition = danger.conditions[0]
            met = {region.answer.disposition if region.is_decided else UNDECIDED for region in row.regions
                   if region.has_bits(condition.index, condition.value)}
            said = met.pop() if len(met) == 1 else DEPENDS
            text = condition_text(condition, name, (), row.architecture.oci, row.architecture.bits)
            where["where"] = text.partition(" == ")[0]
        found.append({"number": row.number, "name": name, "disposition": said, **where, "reason": danger.reason})
    return found


def danger_lines(surface: Surface) -> list[str]:
    """How many dangerous syscalls are allowed, denied and so on, and which, but for those that are always denied."""
    counts, found = [], dangers(surface)
    for said in ROW_WORDS:
        alike = [danger for danger in found if danger["disposition"] == said]
        names = [danger["name"] + (f" where {danger['where']}" if "where" in danger else "")
                 for danger in alike if "where" in danger or said != DENIED]
        if alike:
            counts.append(f"{said} {len(alike)}" + (f" ({', '.join(names)})" if names else ""))
    return [f"dangerous syscalls: {', '.join(counts)}"] if counts else []


def wrapped(words: Iterable[str], width: int) -> list[str]:
    """Words wrapped to a width; a longer word has a line of its own."""
    return textwrap.wrap(" ".join(words), max(width, 1), break_long_words=False, break_on_hyphens=False)


def fitted(lines: Iterable[str], width: int | None) -> Iterator[str]:
    """Lines wrapped to a width; continuation lines are indented."""
    for line in lines:
        for at, part in enumerate(wrapped(line.split(), width - 2) if width is not None else [line]):
            yield f"{'  ' * (at > 0)}{part}"


def _summary(surface: Surface) -> str:
    counts, architecture = surface.counts, surface.asker.architecture
    text = ", ".join(f"{word} {counts[word]}" for word in ROW_WORDS if counts[word] or word in ALWAYS_COUNTED)
    return text if architecture.oci == NATIVE else f"{architecture.name}: {text}"


def whole_lines(surface: Surface) -> list[str]:
    """Other machines that filters are for; how many syscalls are allowed; other ABIs; numbers without a name."""
    names = [architecture.name for architecture in surface.other_machines]
    denied = [surface.asker.architecture.name, *(access.abi.name for access in surface.foreign)]
    of_others = [f"it is for {join_names(names)}, which --arch lists: every {join_names(denied)} syscall is denied"] \
        if names else []
    counted = [beside.asker.architecture for beside in surface.others if {*beside.counts} != {DENIED}]
    remaining = [access for access in surface.foreign if access.abi not in counted or access.call is None]
    foreign = [*(access.describe() for access in remaining), "other ABIs: the kernel has no others"]
    if all(access.are_denied for access in remaining):
        foreign = [f"other ABIs: every {join_names([access.abi.name for access in remaining])} syscall is denied; the "
                   "kernel has no others"] if remaining else []
    others = [f"{_summary(beside)} (--arch {beside.asker.architecture.name} lists them)" for beside in surface.others]
    return [*of_others, _summary(surface), *filter(None, ["; ".join(foreign)]), *others,
            f"numbers without a name: {surface.unnamed.describe()}"]


def details(row: Row, is_in_table: bool = False) -> list[str]:
    """The conditions of a number, or its examples by disposition, or else one answer. A table is read by people: in it
    syscalls are as C would have them, and errnos have names."""
    if row.conditions is not None:
        return [row.conditions.describe()]
    name = row.names[0] if is_in_table else None
    examples = row.of_regions if row.has_examples else row.shown.values()
    if examples or row.has_examples:
        return [f"{shown.answer.disposition} {shown.describe(name)}" for shown in examples]
    return [row.answer.named() if is_in_table else str(row.answer)] if row.answer else []


def grouped(rows: Iterable[Any]) -> dict[str, list[Any]]:
    """The rows of each group, in the order of the groups; empty groups are left out."""
    of_groups = by_key((group_of(row), row) for row in rows)
    return {group: of_groups[group] for group in (*groups().values(), OTHER_GROUP) if group in of_groups}


def _cell(rows: Sequence[Row], width: int) -> list[str]:
    """A group's syscalls with the same disposition: their names, or with examples a line or more each."""
    if not any(row.shown or row.conditions or row.has_examples for row in rows):
        names = [" or ".join(row.names) for row in rows]
        return wrapped([f"{name}," for name in names[:-1]] + names[-1:], width)
    lines: list[str] = []
    for row in rows:
        lines += wrapped([*" or ".join(row.names).split(), f"({row.number})"], width)
        for detail in details(row, True):
            lines += [f"  {line}" for line in wrapped(detail.split(), width - 2)]
    return lines


def _in_columns(cells: dict[str, dict[str, Callable[[int], list[str]]]], next_to: int, width: int) -> Iterator[str]:
    """Groups of cells, each behind its group and a word, if any, in a column so wide; or below, if they'd be narrow."""
    before = max(map(len, cells), default=0) + 2
    is_narrow = width - before - next_to < LEAST_WIDTH
    for heading, by_word in cells.items():
        for word, lines_of in by_word.items():
            if is_narrow:
                indent = "  " if word else " "
                yield from filter(None, [heading, word and f" {word}"])
                yield from (f"{indent}{line}" for line in lines_of(width - len(indent)))
            else:
                for line in lines_of(width - before - next_to):
                    yield f"{heading:{before}}{word.ljust(next_to)}{line}"
                    heading = word = ""
            heading = ""


def _row_lines(rows: Sequence[Row], width: int | None) -> Iterator[str]:
    """The syscalls of each group: a line for each, or by disposition as a table."""
    by_group, cells = grouped(rows), {}
    if width is None:
        return (" ".join([group, row.said, str(row.number), ",".join(row.names), *details(row)])
                for group, members in by_group.items() for row in members)
    for group, members in by_group.items():
        alike = {word: [row for row in members if row.said == word] for word in ROW_WORDS}
        cells[group] = {word: functools.partial(_cell, its) for word, its in alike.items() if its}
    return _in_columns(cells, max(map(len, ROW_WORDS)) + 2, width)


def row_json(row: Row) -> dict[str, object]:
    members = {"number": row.number, "names": row.names, "group": group_of(row), "disposition": row.said}
    if row.shown:
        members["examples"] = {disposition: shown.as_json() for disposition, shown in row.shown.items()}
        members["never"] = row.never
    elif row.answer:
        members["answer"] = row.answer.as_json()
    if row.conditions is not None:
        members["conditions"] = row.conditions.as_json()
    if row.has_examples:
        members["region_examples"] = [shown.as_json() for shown in row.of_regions]
    return members


def _counts_json(surface: Surface) -> dict[str, object]:
    return {"architecture": surface.asker.architecture.name,
            "counts": {word: surface.counts[word] for word in ROW_WORDS}}


def surface_json(surface: Surface) -> dict[str, object]:
    others, machines = [_counts_json(beside) for beside in surface.others], surface.other_machines
    return {**_counts_json(surface), **({"other_abis": others} if others else {}),
            **({"is_for": [architecture.name for architecture in machines]} if machines else {}),
            "foreign": [access.as_json() for access in surface.foreign],
            "unnamed": surface.unnamed.as_json(), "dangerous": dangers(surface),
            "calls": [*map(row_json, surface.rows)]}


@dataclass(frozen=True)
class Pair:
    """A syscall's rows in two surfaces, and scf's line on its answers: they differ, or that is undecided."""

    rows: tuple[Row, Row]
    line: NamedCall

    @property
    def number(self) -> int:
        return self.rows[0].number

    @property
    def names(self) -> list[str]:
        return self.rows[0].names

    @property
    def is_decided(self) -> bool:
        return self.line.verdict.fails

    @property
    def example(self) -> str:
        """The call that scf shows and both answers, if the rows alone don't tell them apart; else nothing."""
        verdict, (row, row_beside) = self.line.verdict, self.rows
        is_alike = row.said == row_beside.said and (row.said == DEPENDS or row.answer == row_beside.answer)
        if not is_alike or None in (verdict.call, verdict.filters, verdict.profile):
            return ""
        call = constants.call_text(self.names[0], verdict.call.arguments)
        return f"such as {call}: {verdict.filters.named()} {BESIDE} {verdict.profile.named()}"

    def texts(self, is_in_table: bool) -> list[str]:
        """Both sides, each with its examples."""
        return [" ".join([row.said, *details(row, is_in_table)]) for row in self.rows]

    def as_json(self) -> dict[str, object]:
        verdict, (row, row_beside) = self.line.verdict, self.rows
        members = {"filter": row_json(row), BESIDE: row_json(row_beside), "verdict": verdict.word}
        if None not in (verdict.call, verdict.filters, verdict.profile):
            members["example"] = {"arguments": [*map(hex, verdict.call.arguments)],
                                  "filter": verdict.filters.as_json(), BESIDE: verdict.profile.as_json()}
        return members


class Beside:
    """Two surfaces over one table, or one twice if all is the same: what differs of calls, unnamed numbers and ABIs."""

    pairs: Sequence[Pair] = ()
    status, unnamed_differ, foreign_differ = program.SUCCESS, False, False

    def __init__(self, comparison: StackComparison, *sides: Surface):
        self.sides = sides
        if sides[0] is sides[1]:
            return
        lines = {line.number: line for line in comparison.of_calls()}
        self.pairs = [Pair(rows, lines[rows[0].number]) for rows in zip(*(side.rows for side in sides))
                      if rows[0].number in lines]
        of_unnamed = [comparison.of_numbers(NATIVE, first, end - 1) for first, end in questions.gaps(comparison.table)]
        of_foreign = []
        for abi in questions.ABIS:
            verdict = comparison.differences.verdict(SAME, [span_of(abi.oci, last=NO_CALL - 1)])
            if verdict is None:
                # behind a filter that allows these alone, since no scope of scf has them
                alone = client.compile_profile(ALLOW.as_profile(abi.oci), Tables({abi.oci: Table(b"")}))
                behind = ([Filter("", alone), *side] for side in comparison.sides)
                verdict = StackComparison(*behind, comparison.table).run()[1].verdict
            of_foreign.append(verdict or Verdict(UNFINISHED))
        verdicts = [*(pair.line.verdict for pair in self.pairs), *of_unnamed, *of_foreign]
        self.status = min(verdicts, key=lambda verdict: verdict.order).status
        self.unnamed_differ, self.foreign_differ = (any(verdict.fails for verdict in its)
                                                    for its in (of_unnamed, of_foreign))


def _pair_cell(pairs: Sequence[Pair], width: int) -> list[str]:
    """A group's syscalls that differ: below the names of each what either side says, and a call that shows it."""
    lines: list[str] = []
    for pair in pairs:
        text, text_beside = pair.texts(True)
        lines += wrapped([*pair.names, f"({pair.number})"], width)
        for words in (text.split(), [f"{BESIDE}:", *text_beside.split()], pair.example.split()):
            lines += [f"  {line}" for line in wrapped(words, width - 2)]
    return lines


def lines_beside(beside: Beside, width: int | None) -> Iterator[str]:
    undecided = sum(not pair.is_decided for pair in beside.pairs)
    count = f"syscalls that differ: {len(beside.pairs) - undecided}" + f", undecided: {undecided}" * (undecided > 0)
    # those about the whole of the first side, and those of the second that differ
    whole = [text for at, (line, other) in enumerate(zip(*map(whole_lines, beside.sides)))
             for text in [line, *[f"{BESIDE}: {other}"] * (at == 0 or line != other)]]
    yield from fitted([*whole, count], width)
    by_group = grouped(beside.pairs)
    if width is None:
        yield from (" ".join(filter(None, [group, str(pair.number), ",".join(pair.names),
                                           f" {BESIDE} ".join(pair.texts(False)), pair.example]))
                    for group, pairs in by_group.items() for pair in pairs)
    else:
        cells = {group: {"": functools.partial(_pair_cell, pairs)} for group, pairs in by_group.items()}
        yield from _in_columns(cells, 0, width)
    for subject, differ in (("numbers without a name", beside.unnamed_differ),
                            ("syscalls of other ABIs", beside.foreign_differ)):
        if differ:
            yield from fitted([f"{subject}: some get different answers"], width)


class StackSurface:
    """The surface of filters, oldest first, to an architecture, or to a machine whose own it is, and its comparison
    with others, if there are any; on request with which arguments get which answer, or with a call of each region.
    If scf refuses a stack it has that one's filters, and the fault."""

    def __init__(self, filters: Sequence[Filter], beside: Sequence[Filter], table: Table, architecture: Architecture,
                 is_machine: bool, has_conditions: bool, has_examples: bool):
        def surface_of(stack: Sequence[Filter]) -> Surface:
            data = [bpf_filter.data for bpf_filter in stack]
            surface = surfaces.surface_of_filters(data, table, architecture, is_machine)
            for abi in (access.abi for access in surface.foreign if not access.are_denied and not beside):
                own_table = tables.architecture_table(abi.oci)
                if own_table is not None:
                    surface.others.append(Surface(data, surface.regions, own_table, abi))
            for row in surface.rows:
                row.has_examples = has_examples
            if has_conditions:
                from . import row_conditions  # pylint: disable=import-outside-toplevel

                surface.unfinished = row_conditions.add(surface)
                program.say(*surface.unfinished)
            return surface

        self.filters = filters
        self.surface: Surface | None = None
        self.beside: Beside | None = None
        self.fault: client.Fault | None = None
        try:
            surface = surface_of(filters)
            self.status = program.SUCCESS if surface.is_decided else program.UNKNOWN
            if beside:
                self.filters = beside
                comparison = StackComparison(filters, beside, table)
                verdict = comparison.run()[1].verdict
                self.beside = Beside(comparison, surface, surface if verdict and verdict.holds else surface_of(beside))
                self.filters, self.status = filters, self.beside.status
            self.surface = surface
        except client.Refusal as why:
            self.status, self.fault = why.status, why.fault

    def block(self, width: int | None) -> Block:
        return Block(self.status, lambda: self._lines(width), self._members,
                     self.fault is not None and self.fault.source in OF_ALL)

    def _lines(self, width: int | None) -> Iterable[str]:
        if self.fault is not None:
            sentences = *explanation.explain_fault(self.fault), *refusals.stack_refusals(self.filters, self.fault)
            return [self.fault.line, *output.notes(sentences)]
        if self.surface is None:
            return []
        if self.beside is not None:
            return lines_beside(self.beside, width)
        return [*fitted([*whole_lines(self.surface), *danger_lines(self.surface)], width),
                *_row_lines(self.surface.rows, width)]

    def _members(self) -> dict[str, object]:
        if self.fault is not None:
            return {"fault": self.fault.as_json(explanation.explain_fault(self.fault)),
                    "files": refusals.faulty_filters(self.filters, self.fault)}
        if self.surface is None:
            return {}
        beside = self.beside
        return {**surface_json(self.surface), **({} if beside is None else {"beside": {
            **surface_json(beside.sides[1]), "differs": [pair.as_json() for pair in beside.pairs],
            "foreign_differ": beside.foreign_differ, "unnamed_differ": beside.unnamed_differ}})}
