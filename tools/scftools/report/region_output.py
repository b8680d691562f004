"""Regions as people read them: the syscalls of an architecture by name, and conditions on arguments as C has them."""
from __future__ import annotations

import itertools
from collections.abc import Iterator, Sequence

from ..base import program
from ..base.values import by_key, dataclass, field, replace
from ..model.architectures import Architecture
from ..model.calls import ARCHITECTURE, ARGUMENTS, Call
from ..model.entries import AT_LEAST, AT_MOST, EQUAL, MASKED, NOT_EQUAL, Condition
from ..model.tables import Table
from ..ask import regions
from ..ask.client import Refusal
from ..ask.questions import Asker
from ..ask.regions import FREE, GREATEST_WORD, POINTER, Numbers, Region, Word
from ..ask.verdicts import UNFINISHED
from ..forms.filters import Filter
from .blocks import OF_ALL, Block, of_fault
from .condition_texts import condition_text, name_of


@dataclass
class Listed:
    """Regions that have the same answer for the same reason under the same conditions: the numbers of their syscalls in
    the table, how many numbers have no name, one of the regions, and a record of it."""

    region: Region
    where: Sequence[str]
    example: Call | None
    numbers: list[int] = field(default_factory=list)
    unnamed: int = 0

    def as_json(self, table: Table) -> dict[str, object]:
        region, example = self.region, self.example
        return {"answer": region.answer and region.answer.as_json(),
                **dict(zip(("filter", "index"), map(int, region.line.rpartition(" ")[2].split(":")))),
                "is_exact": region.is_exact,
                "syscalls": [{"number": number, "names": table.names_of(number)} for number in self.numbers],
                "unnamed": self.unnamed, "where": list(self.where), "example": example and example.as_json(table)}


def _terms(name: str, index: int, word: Word, syscall: str, architecture: Architecture) -> Iterator[str]:
    """The conditions on a word, which has an argument's name, or another one where it is a part of the argument."""
    def shown(op: str, value: int, two: int = 0) -> str:
        text = condition_text(Condition(index, op, value, two), syscall, (), architecture.oci, 32)
        return name + text[text.index(" "):]

    if word.intervals != FREE.intervals:
        # each interval as orders that hold together; or all values but one
        alternatives = [[(EQUAL, low)] if low == high else
                        [(AT_LEAST, low)] * (low > 0) + [(AT_MOST, high)] * (high < GREATEST_WORD)
                        for low, high in word.intervals]
        (first, below), (above, last) = word.intervals[0], word.intervals[-1]
        if len(word.intervals) == 2 and (first, last) == (0, GREATEST_WORD) and below + 2 == above:
            alternatives = [[(NOT_EQUAL, below + 1)]]
        texts = [" and ".join(shown(*order) for order in orders) for orders in alternatives]
        yield texts[0] if len(texts) == 1 else f"({' or '.join(texts)})"
    if word.mask:
        yield shown(MASKED, word.mask, word.bits)
    for mask, bits in word.refuted:
        yield shown(MASKED, mask, bits).replace(" == ", " != ")


def conditions(region: Region, syscall: str, architecture: Architecture) -> list[str]:
    """The conditions on all arguments of a region's syscalls as C has them, which hold together."""
    terms: list[str] = []
    for index in sorted({(word - ARGUMENTS) // 2 for word in region.words if word > ARCHITECTURE}):
        low, high = (region.words.get(ARGUMENTS + 2 * index + half, FREE) for half in (0, 1))
        # (the instruction pointer has no constants)
        name, of = ("ip", "") if index == POINTER else (name_of(syscall, index), syscall)
        at, is_narrow = max(index, 0), architecture.bits == 32 and index != POINTER
        if is_narrow or list(high.intervals) == [(0, 0)]:
            terms += _terms(name, at, low, of, architecture)
            has_greatest = low.intervals[-1][1] == GREATEST_WORD and low.intervals[0][0] < GREATEST_WORD
            terms += [f"{name} >> 32 == 0"] * (has_greatest and not is_narrow)
        else:
            terms += [*_terms(f"(u32){name}", at, low, of, architecture),
                      *_terms(f"{name} >> 32", at, high, "", architecture)]
    return terms


def listed(regions: Sequence[Region], table: Table, architecture: Architecture) -> list[Listed]:
    """The regions of an architecture's syscalls, in the order of the walk."""
    numbers = Numbers(regions, architecture)
    named = ((number, 0, numbers.of(architecture.first + number)) for number in sorted(table.numbers()))
    # of each region the numbers in the table, and the first numbers of ranges without a name, with their counts
    of_region = by_key((id(region), (first, count)) for first, count, here in itertools.chain(
        named, numbers.unnamed(table)) for region in here)
    entries: dict[tuple[object, ...], Listed] = {}
    for region in (region for region in regions if id(region) in of_region):
        firsts = of_region[id(region)]
        own = [number for number, count in firsts if count == 0]
        where = conditions(region, table.names_of(own[0])[0] if len(own) == 1 else "", architecture)
        call = region.call_of(architecture.first + firsts[0][0], architecture.number)
        entry = entries.setdefault((region.line, region.is_exact, *where), Listed(region, where, call))
        entry.numbers += own
        entry.unnamed += sum(count for _, count in firsts)
    return list(entries.values())


def region_lines(entries: Sequence[Listed], table: Table, has_examples: bool) -> Iterator[str]:
    """A line for each: the answer and its reason, the syscalls, and the conditions; on request with a syscall."""
    for entry in entries:
        answer, reason = entry.region.answer, entry.region.line.split(" ", 1 if entry.region.answer is None else 2)[-1]
        names = [" or ".join(table.names_of(number)) for number in entry.numbers]
        names += [f"{entry.unnamed} numbers without a name"] if entry.unnamed else []
        yield (f"{'unknown' if answer is None else answer.named()} {reason}{'' if entry.region.is_exact else ' open'}: "
               f"{', '.join(names)}" + (f" where {' and '.join(entry.where)}" if entry.where else ""))
        call = entry.example
        if has_examples and call is not None:
            shown = call.as_c(table) or f"{call.describe(table)} args {' '.join(map(hex, call.arguments))}"
            yield f"# such as {shown}" + (f", ip {call.pointer:#x}" if call.pointer else "")


def of_stack(stack: Sequence[Filter], table: Table, architecture: Architecture, has_examples: bool) -> Block:
    """The regions of a stack of filters, or why scf refuses it."""
    data = [bpf_filter.data for bpf_filter in stack]
    try:
        region_list = regions.regions_of_filters(data)
        Asker(data, architecture).check(table)
    except Refusal as why:
        return replace(of_fault(why.status, why.line, stack),
                       is_of_all=why.fault is not None and why.fault.source in OF_ALL)
    if region_list is None:
        return Block(program.UNKNOWN, lambda: [UNFINISHED], lambda: {"verdict": UNFINISHED})
    made = listed(region_list, table, architecture)
    status = program.SUCCESS if all(entry.region.is_decided for entry in made) else program.UNKNOWN
    return Block(status, lambda: region_lines(made, table, has_examples),
                 lambda: {"architecture": architecture.name, "regions": [entry.as_json(table) for entry in made]})
