"""Questions: whether filters always deny or allow syscalls, by comparison with a profile of a single answer.

A syscall is always denied if the filters are no more permissive than a profile that denies everything, and always
allowed if they are no stricter than one that allows everything. Compared with a profile that delegates everything to a
tracer, no more means never allowed, and no less never denied. If a relation fails, scf gives an example.

Of a machine's other ABIs, which a profile doesn't name: a filter that doesn't test the architecture takes the number of
an i386 syscall for one of x86-64; and x32 syscalls have the architecture of x86-64, with numbers from 0x40000000 on. An
x86-64 kernel has no others, one of aarch64 has arm."""
from __future__ import annotations

from collections.abc import Iterator, Sequence

from ..base.values import dataclass
from ..model import bundles, profiles, tables
from ..model.answers import ALLOW, ALLOWED, KILL_PROCESS, Answer
from ..model.architectures import JUDGED, NATIVE, Architecture
from ..model.bpf import RETURN_CONSTANT, instruction, looks_at_pointer
from ..model.calls import NO_CALL, Call, number_text
from ..model.tables import Table, Tables
from . import client, verdicts
from .regions import Numbers, Region
from .verdicts import CALLS, MORE, NO_LESS, NO_MORE, RELATIONS, SCOPES, Report, Verdict

NOTHING, EVERYTHING = KILL_PROCESS, ALLOW
# By the OCI name of a machine's own architecture its other ABIs, of the machines whose other ABIs are known.
OF_MACHINES = {row.oci: tuple(JUDGED[abi] for _, abi in row.modes) for row in JUDGED.values() if row.modes}
ABIS = OF_MACHINES[NATIVE]
# The OCI names of all of them.
ABI_NAMES = tuple(abi.oci for abis in OF_MACHINES.values() for abi in abis)


@dataclass(frozen=True)
class Question:
    """A relation to a profile, or a filter, that gives this answer to every syscall."""

    relation: str
    answer: Answer

    @property
    def filter(self) -> bytes:
        return instruction(RETURN_CONSTANT, self.answer.word)


IS_DENIED, IS_ALLOWED = Question(NO_MORE, NOTHING), Question(NO_LESS, EVERYTHING)
IS_NEVER_ALLOWED, IS_NEVER_DENIED = (Question(relation, Answer("TRACE", 0)) for relation in (NO_MORE, NO_LESS))


@dataclass(frozen=True)
class Asker:
    """Filters, oldest first, and the architecture whose syscalls are asked about. A number is one of its table."""

    filters: Sequence[bytes]
    architecture: Architecture = JUDGED[NATIVE]

    def _asked(self, profile: bytes, relation: str, words: Sequence[str], table: bytes = b"") -> Report:
        judged = Tables({self.architecture.oci: Table(table)}, profiles.reading_of(profile))
        return verdicts.compared(self.filters, profile, judged, [*words, *RELATIONS[relation]], self.architecture)

    def profile_of(self, question: Question) -> bytes:
        return question.answer.as_profile(self.architecture.oci)

    @property
    def looks_at_pointer(self) -> bool:
        return any(map(looks_at_pointer, self.filters))

    def check(self, table: Table) -> None:
        """Raises Refusal if scf refuses a table that isn't its own."""
        usual_table = tables.architecture_table(self.architecture.oci)
        if usual_table is None or table.data != usual_table.data:
            client.compile_profile(self.profile_of(IS_ALLOWED), Tables({self.architecture.oci: table}))

    def of_calls(self, profile: bytes, relation: str, table: bytes) -> Report:
        """The report on each syscall in a table, beside what a profile answers to it. Raises Refusal."""
        return self._asked(profile, relation, SCOPES[CALLS], table)

    def of_numbers(self, question: Question, first: int, last: int) -> Verdict:
        """The verdict on all syscalls with numbers from `first` to `last`, with a complete record as example."""
        added = self.architecture.first
        words = [f"--nr-from={added + first}", f"--nr-to={added + last}"]
        return self._asked(self.profile_of(question), question.relation, words).verdict

    def decided(self, call: Call) -> Answer | None:
        done = client.run_scf(["decide", *call.words()], bundles.stack_bundle(self.filters))
        return verdicts.decision(done.text).answer


def gaps(table: Table, architecture: Architecture = JUDGED[NATIVE]) -> Iterator[tuple[int, int]]:
    """The ranges of numbers that an architecture's table doesn't name: each first, and the one after the last."""
    before = 0
    for number in [*sorted(table.numbers()), architecture.last - architecture.first + 1]:
        if before < number:
            yield before, number
        before = number + 1


@dataclass(frozen=True)
class AbiAccess:
    """An ABI, and whether its syscalls are denied: the verdict beside a profile that kills, with one that isn't."""

    abi: Architecture
    verdict: Verdict

    @property
    def are_denied(self) -> bool:
        return self.verdict.holds

    @property
    def is_decided(self) -> bool:
        return self.verdict.holds or self.verdict.fails

    @property
    def call(self) -> Call | None:
        """A syscall that isn't denied."""
        return self.verdict.call

    @property
    def names(self) -> list[str]:
        return [] if self.call is None else self.call.names(tables.Table(b""))

    def describe(self) -> str:
        call, answer = self.call, self.verdict.filters
        if call is None:
            access = "every syscall is denied" if self.are_denied else "undecided whether any syscall is allowed"
            return f"{self.abi.name}: {access}"
        which = "some syscalls are allowed" if answer.disposition == ALLOWED else "not every syscall is denied"
        text = number_text(call.number, call.architecture)
        shown = f"{self.names[0]} ({text.partition(' ')[2]})" if self.names else text
        return f"{self.abi.name}: {which}, such as {shown}: {answer}"

    def as_json(self) -> dict[str, object]:
        shown = [{"number": call.number, "names": self.names, "architecture": hex(call.architecture),
                  "answer": self.verdict.filters.as_json()} for call in filter(None, [self.call])]
        return {"kind": self.abi.name, "is_decided": self.is_decided, "not_denied": shown}


def abi_access(filters: Sequence[bytes], filter_regions: Sequence[Region] | None,
               architecture: Architecture, last: int = NO_CALL - 1) -> AbiAccess:
    """Whether filters deny each syscall of an ABI with a number up to the last of a kernel, or another one, given their
    regions, or their differences from a profile that denies the ABI; None if these are unfinished. Raises Refusal."""
    last = min(architecture.last, last)
    ranges = None if filter_regions is None else Numbers(filter_regions, architecture, last).ranges
    for low, high, here in ranges or ():
        for region in here:
            if region.is_decided and not region.answer.denies:
                # (if any number there has a name, the first that has one is shown)
                table = tables.architecture_table(architecture.oci) or tables.Table(b"")
                named = (number for number in map(architecture.first.__add__, table.numbers()) if low <= number <= high)
                call = region.call_of(min(named, default=low), architecture.number)
                return AbiAccess(architecture, Verdict(MORE, call, region.answer, KILL_PROCESS))
    are_denied = ranges is not None and all(region.answer is not None and region.answer.denies
                                            for _, _, here in ranges for region in here)
    return AbiAccess(architecture, Verdict(NO_MORE) if are_denied else Asker(filters, architecture).of_numbers(
        IS_DENIED, 0, last - architecture.first))
