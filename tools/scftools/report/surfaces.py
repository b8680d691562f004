"""Surfaces: what filters allow of each syscall of an architecture, by the regions of all records that scf finds; and
where these are open by comparisons with profiles of a single answer."""
from __future__ import annotations

import functools
from collections import Counter
from collections.abc import Iterable, Iterator, Sequence

from ..base.values import Any, dataclass
from ..model import constants
from ..model.answers import ALLOWED, DELEGATED, DENIED, DEPENDS, Answer
from ..model.architectures import JUDGED, NATIVE, Architecture
from ..model.calls import Call
from ..model.tables import Table
from ..ask import questions, regions
from ..ask.questions import IS_ALLOWED, IS_DENIED, IS_NEVER_ALLOWED, IS_NEVER_DENIED, Asker
from ..ask.regions import Numbers, Region
from ..ask.verdicts import UNDECIDED, UNFINISHED

MOST_PERMISSIVE_FIRST = (ALLOWED, DELEGATED, DENIED)
# What may hold for all syscalls of a number, in the order in which it is printed; the last two if scf can't decide.
ROW_WORDS = (ALLOWED, DEPENDS, DELEGATED, DENIED, UNDECIDED, UNFINISHED)
# The dispositions that may occur if a relation holds.
QUESTIONS = {IS_DENIED: {DENIED}, IS_ALLOWED: {ALLOWED}, IS_NEVER_ALLOWED: {DELEGATED, DENIED},
             IS_NEVER_DENIED: {ALLOWED, DELEGATED}}


@dataclass(frozen=True)
class Shown:
    """An example and its answer."""

    call: Call
    answer: Answer

    def describe(self, name: str | None = None) -> str:
        """The example; given the syscall's name as C would have it, and with the name of an errno."""
        at = f"ip {self.call.pointer:#x} " if self.call.pointer else ""
        if name is None:
            return f"{at}args {' '.join(map(hex, self.call.arguments))} {self.answer}"
        return f"{at}{constants.call_text(name, self.call.arguments)} {self.answer.named()}"

    def as_json(self) -> dict[str, object]:
        return {"arguments": [hex(argument) for argument in self.call.arguments],
                "pointer": hex(self.call.pointer or 0),
                "answer": self.answer.as_json(explains=True)}


class Row:
    """A number of an architecture, its regions, none if unfinished, and the dispositions that its syscalls may have."""

    def __init__(self, number: int, names: list[str], architecture: Architecture, regions_of_number: Sequence[Region]):
        self.number, self.names, self.architecture, self.regions = number, names, architecture, regions_of_number
        self.possible = {region.answer.disposition if region.answer is not None else UNDECIDED
                         for region in regions_of_number}
        if not self.possible or UNDECIDED in self.possible:
            self.possible = set(MOST_PERMISSIVE_FIRST)
        # which arguments get which answer, and whether to show a syscall of each region, on request
        self.conditions: Any = None
        self.has_examples = False

    def _shown(self, region: Region) -> Shown:
        return Shown(region.call_of(self.architecture.first + self.number, self.architecture.number), region.answer)

    @property
    def of_regions(self) -> Iterator[Shown]:
        """A syscall of each region that is decided."""
        return (self._shown(region) for region in self.regions if region.is_decided)

    @functools.cached_property
    def examples(self) -> dict[str, Shown]:
        """An example of each disposition that is known to occur; comparisons add others."""
        firsts = {region.answer.disposition: region for region in reversed(self.regions) if region.is_decided}
        return {disposition: self._shown(region) for disposition, region in firsts.items()}

    @property
    def said(self) -> str:
        """The disposition of all syscalls of the number, or that it depends or is undecided."""
        if len(self.possible) == 1:
            return next(iter(self.possible))
        return DEPENDS if len(self.examples) > 1 else UNDECIDED if self.regions else UNFINISHED

    @property
    def is_decided(self) -> bool:
        return self.said not in (UNDECIDED, UNFINISHED)

    @property
    def shown(self) -> dict[str, Shown]:
        """An example for each disposition that occurs, if it depends or is undecided."""
        ranks = MOST_PERMISSIVE_FIRST if len(self.possible) > 1 else ()
        return {disposition: self.examples[disposition] for disposition in ranks if disposition in self.examples}

    @property
    def never(self) -> list[str]:
        """The dispositions that are proved not to occur."""
        return [disposition for disposition in (ALLOWED, DENIED) if disposition not in self.possible]

    @property
    def answer(self) -> Answer | None:
        """The answer to some syscall of the number."""
        return next((shown.answer for shown in self.examples.values()), None)


class Unnamed:
    """How many numbers have no name, how many of them aren't always denied, and how many are undecided; whether all are
    always allowed; and an example that isn't denied. Given rows, each with how many are answered as its syscalls."""

    def __init__(self, count: int, rows: Iterable[tuple[Row, int]]):
        self.count, self.not_denied, self.undecided = count, 0, 0
        self.are_allowed, self.shown = True, None
        for row, count in rows:
            self.are_allowed = self.are_allowed and row.possible == {ALLOWED}
            if row.examples.keys() - {DENIED} or DENIED not in row.possible:
                self.not_denied += count
                self.shown = self.shown or row.examples.get(ALLOWED) or row.examples.get(DELEGATED)
            elif row.possible != {DENIED}:
                self.undecided += count

    def describe(self) -> str:
        if self.are_allowed:
            return "all allowed"
        if not self.not_denied:
            return f"{self.undecided} are undecided" if self.undecided else "all denied"
        which = f"all {self.count}" if self.not_denied == self.count else f"{self.not_denied} of {self.count}"
        example = f", such as {self.shown.call.number}: {self.shown.answer}" if self.shown is not None else ""
        text = f"{which} are allowed or delegated with some arguments{example}"
        return f"at least {text}; {self.undecided} are undecided" if self.undecided else text

    def as_json(self) -> dict[str, object]:
        shown = self.shown and {"number": self.shown.call.number, "answer": self.shown.answer.as_json()}
        return {"count": self.count, "not_denied": self.not_denied, "undecided": self.undecided,
                "are_allowed": self.are_allowed, **({"example": shown} if shown else {})}


class Surface:
    """The syscalls that filters allow to an architecture, or a whole machine, by their regions, None if unfinished."""

    def __init__(self, filters: Sequence[bytes], filter_regions: Sequence[Region] | None, table: Table,
                 architecture: Architecture, is_machine: bool = False):
        self.asker, self.table, self.regions = Asker(filters, architecture), table, filter_regions
        numbers = Numbers(filter_regions, architecture)
        self.rows = [Row(number, table.names_of(number), architecture, numbers.of(architecture.first + number))
                     for number in sorted(table.numbers())]
        if filter_regions is not None:
            self.asker.check(table)
            _ask(self.asker, self.rows)
        # the access of the machine's other ABIs, none if one ABI alone is looked at
        self.foreign = [questions.abi_access(filters, filter_regions, abi)
                        for abi in (questions.OF_MACHINES[architecture.oci] if is_machine else ())]
        count = architecture.last - architecture.first + 1 - len(table.numbers())
        self.unnamed = Unnamed(count, ((Row(number, [], architecture, here), its_count)
                                       for number, its_count, here in numbers.unnamed(table)))
        # those of other ABIs of which some syscall may be allowed, on request
        self.others: list[Surface] = []
        # a line if the conditions that are asked for weren't looked for to the end
        self.unfinished: Sequence[str] = ()

    @functools.cached_property
    def counts(self) -> Counter[str]:
        return Counter(row.said for row in self.rows)

    @property
    def is_decided(self) -> bool:
        return (all(row.is_decided for row in self.rows) and not self.unnamed.undecided and not self.unfinished
                and all(each.is_decided for each in (*self.foreign, *self.others)))

    @property
    def other_machines(self) -> list[Architecture]:
        """The architectures of other machines of which some syscall isn't denied, if this machine's are all denied."""
        known_abis = {self.asker.architecture, *(access.abi for access in self.foreign)}
        is_denied = {*self.counts} == {DENIED} and not self.unnamed.not_denied and not self.unnamed.undecided and \
            all(access.are_denied for access in self.foreign)
        return [architecture for architecture in JUDGED.values() if is_denied and self.foreign
                and architecture not in known_abis
                and questions.abi_access(self.asker.filters, self.regions, architecture).call is not None]


def _ask(asker: Asker, rows: Iterable[Row]) -> None:
    """Adds what comparisons say of rows that regions leave undecided. A line lacks its instruction pointer: if a filter
    looks at that, a run has to confirm the example."""
    for question, possible in QUESTIONS.items():
        rows = [row for row in rows if not row.is_decided]
        if not rows:
            return
        table = b"".join(b"%s %d\n" % (row.names[0].encode(), row.number) for row in rows)
        report = asker.of_calls(asker.profile_of(question), question.relation, table)
        lines = {line.number: line.verdict for line in report.calls}
        for row in rows:
            verdict = lines.get(row.number)
            if verdict is None:
                row.possible &= possible
            elif verdict.call is not None and verdict.filters is not None and (
                    not asker.looks_at_pointer or asker.decided(verdict.call) == verdict.filters):
                row.examples.setdefault(verdict.filters.disposition, Shown(verdict.call, verdict.filters))


def surface_of_filters(filters: Sequence[bytes], table: Table, architecture: Architecture = JUDGED[NATIVE],
               is_machine: bool = True) -> Surface:
    """The surface of filters, oldest first, to an architecture with this table, or to a machine whose own it is."""
    return Surface(filters, regions.regions_of_filters(filters), table, architecture, is_machine)
