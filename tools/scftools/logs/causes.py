"""Causes: why a syscall was denied, delegated or logged, by a profile and by filters, in lines and as JSON. If not all
is known of a syscall, they are found by the regions that it may lie in."""
from __future__ import annotations

import functools
from collections.abc import Callable, Iterator, Sequence

from ..base import output, program
from ..base.values import dataclass, replace
from ..model import tables
from ..model.answers import ACTIONS, ERRNOS, Answer
from ..model.architectures import NATIVE
from ..model.calls import Call
from ..model.tables import Table, Tables
from ..ask import client, explanation, regions
from ..ask.questions import Asker
from ..ask.regions import POINTER, Lookup, Region
from ..ask.verdicts import FOR_OTHER_ABI
from ..forms import refusals
from ..forms.filters import Filter
from ..report import decisions, listing
from . import amendment
from .events import CORE, RECORD, STRACE, Event, Found

# Whether what is known of an answer is what filters or a profile answer.
FITS, CONTRADICTS, UNKNOWN_FIT = "fits", "contradicts", "unknown"
# What a source doesn't have.
LACKS = {RECORD: "the record has neither the arguments nor the data of the action, nor which filter gave it",
         CORE: "the core doesn't have the action, nor which filter gave it",
         STRACE: "strace doesn't show which filter gave the answer"}


@dataclass(frozen=True)
class Case:
    """The answer to a call, or to all with the known arguments; whether it fits the event, None if not known."""

    call: Call
    answer: Answer
    is_for_all: bool
    fits: bool | None


class AnsweringStack:
    """The regions of filters, or of a profile, None if they are unfinished, and what answers a single record."""

    def __init__(self, region_list: Sequence[Region] | None, answer: Callable[[Call], Answer | None]):
        self.regions, self.answer = Lookup(region_list), answer

    def cases(self, event: Event) -> tuple[Case, ...]:
        """The answers to an event, in each way that its known arguments may be."""
        return tuple(filter(None, (self._case(event, values) for values in event.ways())))

    def _case(self, event: Event, values: dict[int, int]) -> Case | None:
        """The answer to an event with these arguments, None if scf doesn't say."""
        call = event.with_values(values)
        known_values = values if call.pointer is None else {**values, POINTER: call.pointer}
        regions_here = [region for region in self.regions.of_number(call) if region.has(known_values)]
        of_call = self.regions.of(call)
        answer = self.answer(call) if of_call is None else of_call.answer
        if answer is None:
            return None
        fits = event.outcome.has(answer)
        are_decided = self.regions.is_finished and all(region.is_decided for region in regions_here)
        is_known = not event.unknown and call.pointer is not None
        if is_known or are_decided and all(region.answer == answer for region in regions_here):
            return Case(call, answer, True, fits)
        if fits:
            return Case(call, answer, False, True)
        for region in regions_here:
            if region.is_decided and event.outcome.has(region.answer):
                return Case(region.call_of(call.number, call.architecture, values), region.answer, False, True)
        return Case(call, answer, False, False if are_decided else None)


def verdict_of(cases: Sequence[Case]) -> str:
    """Whether the filters answer as the event was answered, in some way that its arguments may be."""
    if any(case.fits for case in cases):
        return FITS
    return CONTRADICTS if cases and all(case.fits is False for case in cases) else UNKNOWN_FIT


class Side:
    """What a profile, or a stack of filters, answers to an event; or why scf refuses it."""

    def __init__(self, name: str, event: Event, stack: Callable[[], AnsweringStack]):
        # "the profile", "the filter" or "the filters"
        self.name, self.event = name, event
        # whether the syscall is of an architecture that the profile names, and that isn't judged
        self.is_undetermined = False
        self.cases: tuple[Case, ...] = ()
        self.refusal: client.Refusal | None = None
        try:
            self.cases = stack().cases(event)
        except client.Refusal as why:
            self.refusal = why

    @property
    def verdict(self) -> str:
        return verdict_of(self.cases)


@dataclass(frozen=True)
class Inputs:
    """What events are explained by: a profile, filters oldest first, and the settings for scf."""

    tables: Tables
    profile: bytes | None = None
    filters: Sequence[Filter] = ()
    # whether the profile is judged for x86-64 alone
    is_native: bool = False
    # the number of x86-64's that all events have, if they have one, and are judged
    number: int | None = None

    @property
    def table(self) -> Table:
        return self.tables.native

    def on(self, events: Sequence[Event]) -> Inputs:
        """The same to explain these events, which of one number takes fewer steps."""
        numbers = {event.call.number if event.call.is_native else None for event in events}
        is_one = len(numbers) == 1 and (self.profile is None or NATIVE in self.judged.of)
        return replace(self, number=numbers.pop() if is_one else None)

    @property
    def judged(self) -> Tables:
        """The tables of the architectures that the profile is judged for."""
        return tables.tables_of_profile(self.profile or b"", self.table, self.is_native)

    @functools.cached_property
    def of_filters(self) -> AnsweringStack:
        """What the filters answer. Raises Refusal."""
        data = [each.data for each in self.filters]
        return AnsweringStack(regions.regions_of_filters(data, self.number), Asker(data).decided)

    @functools.cached_property
    def of_profile(self) -> AnsweringStack:
        """What the profile answers. Raises Refusal."""
        profile, judged = self.profile or b"", self.judged
        return AnsweringStack(regions.regions_of_profile(profile, judged, number=self.number),
                              lambda call: explanation.profile_reason(profile, judged, call.words()).answer)

    def reason(self, call: Call) -> explanation.Reason:
        """Why the profile answers a call so: as all calls of its region, if scf decides that. Raises Refusal."""
        region = self.of_profile.regions.of(call)
        return explanation.profile_reason(self.profile or b"", self.judged, call.words()) if region is None else \
            explanation.region_reason(region.line)


@dataclass
class Cause:
    """What was found, what is given beside it, and what changes of the profile allow it."""

    found: Found
    given: Inputs
    # what is given, as "profile" and "filters"
    sides: dict[str, Side]
    changes: list[amendment.Amendment]

    @property
    def status(self) -> int:
        verdicts = {CONTRADICTS: program.NEGATIVE, UNKNOWN_FIT: program.UNKNOWN, FITS: program.SUCCESS}
        return client.worst(verdicts[side.verdict] if side.refusal is None else side.refusal.status
                            for side in self.sides.values())


def cause_of(found: Found, given: Inputs) -> Cause:
    """What a profile and filters say of an event; the changes allow what several have in common."""
    cause, event = Cause(found, given, {}, []), found.event
    name = "the filter" if len(given.filters) == 1 else "the filters"
    filters = {"filters": Side(name, event, lambda: given.of_filters)} if given.filters else {}
    if given.profile is not None:
        side = cause.sides["profile"] = Side("the profile", event, lambda: given.of_profile)
        if side.refusal is None and decisions.is_undetermined(given.reason(event.call), event.call, given.profile,
                                                              given.judged):
            side.cases, side.is_undetermined = (), True
        denied = next((case for case in side.cases if not case.answer.allows), None)
        if denied is not None:
            reason = given.reason(denied.call)
            cause.changes += amendment.amendments(given.profile, found.common, reason, given.tables)
    cause.sides.update(filters)
    return cause


def _arguments(call: Call, table: Table) -> str:
    """The arguments of a call, and the call as C has it."""
    shown = call.as_c(table)
    return " ".join(map(hex, call.arguments)) + (f": {shown}" if shown else "")


def _of_event(cause: Cause) -> Iterator[str]:
    """What the source says, and what it doesn't."""
    event = cause.found.event
    kind = "failures" if event.outcome.is_result else "records"
    more = f"; such {kind}: {cause.found.count}" if cause.found.count > 1 else ""
    yield f"{event.who()}: the syscall is {event.call.describe(cause.given.table)}{more}"
    if cause.found.has_ended:
        yield "it is the last denied syscall of a process that ended with a failure"
    if event.outcome.is_result:
        code = event.outcome.data or 0
        yield (f"it failed with {ERRNOS.get(code, f'errno {code}')}: by ERRNO {code}, by a tracer or a supervisor, or "
               f"by the kernel itself, which strace doesn't show")
    else:
        has_data = event.outcome.data is not None and len(event.outcome.actions) > 1
        yield f"the action is {event.outcome.describe()}" + f", with {event.outcome.data} as data" * has_data
    arguments = {index: values[0] for index, values in enumerate(event.arguments) if values and len(values) == 1}
    if arguments and not event.unknown:
        yield f"its arguments: {_arguments(event.with_values(arguments), cause.given.table)}"
    elif arguments:
        yield ("its arguments, as far as they are shown: "
               + ", ".join(f"{index} is {value:#x}" for index, value in arguments.items()))
    yield LACKS[event.source]


def _of_verdict(side: Side) -> str:
    """Whether a party answers as the event was answered, or how its answers stand beside an event they contradict."""
    s, them, be = ("", "them", "are") if side.name.endswith("s") else ("s", "it", "is")
    if side.verdict == UNKNOWN_FIT:
        return f"whether {side.name} answer{s} so with other arguments isn't known"
    if side.verdict == FITS:
        is_for_all = all(case.fits and case.is_for_all for case in side.cases)
        return f"so {side.name} answer{s} it" + ("" if is_for_all else " with such arguments, and not with all")
    outcome = side.event.outcome
    # (the kernel compares these as signed numbers, the least is the strictest: seccomp_run_filters, kernel/seccomp.c)
    ranks = [case.answer.word >> 16 ^ 0x8000 for case in side.cases]
    of_event = [half ^ 0x8000 for half, name in ACTIONS.items() if name in outcome.actions] or [outcome.half ^ 0x8000]
    others = f"another filter of the process answered so, or it isn't under {side.name}"
    if min(ranks) > max(of_event):
        itself = "the kernel itself, or " if outcome.is_result else ""
        return f"{side.name} {be} more permissive: {itself}{others}"
    if max(ranks) < min(of_event):
        return f"{side.name} would have answered more strictly: the process isn't under {them}"
    return f"{side.name} answer{s} otherwise: {others}"


def _of_case(case: Case, cause: Cause) -> Iterator[str]:
    """For which arguments a case is."""
    unknown = cause.found.event.unknown
    if not case.is_for_all:
        yield f"for example with args {_arguments(case.call, cause.given.table)}"
    elif unknown:
        yield "whatever the arguments are" if len(unknown) == 6 else "whatever the other arguments are"


def _of_side(side: Side, cause: Cause, of_case: Callable[[Case, Cause], Iterator[str]]) -> Iterator[str]:
    """What a party answers, in each way that the arguments may be."""
    if side.refusal is not None:
        yield from refusals.lines_of(side.refusal, cause.given.profile or b"", cause.given.judged)
    elif side.is_undetermined:
        yield FOR_OTHER_ABI
    else:
        shown = set()
        for case in side.cases:
            answer, *rest = of_case(case, cause)
            if (answer, case.is_for_all) not in shown:
                yield from (answer, *rest)
            shown.add((answer, case.is_for_all))
        yield from output.notes([_of_verdict(side)])


def _of_profile(case: Case, cause: Cause) -> Iterator[str]:
    """The profile's answer, and by which entry it is."""
    given = cause.given
    reason = given.reason(case.call)
    yield reason.line
    call = None if case.is_for_all and cause.found.event.unknown else case.call
    yield from output.notes([case.answer.describe(), *explanation.describe_reason(reason, given.profile, call),
                             *_of_case(case, cause)])


def _of_filters(case: Case, cause: Cause) -> Iterator[str]:
    """The filters' answer, which of them gives it, and its last tests."""
    given = cause.given
    yield case.answer.line
    givers, = listing.deciding_filters([(given.filters, case.answer)], case.call.words())
    shown = listing.to_show(givers)
    yield from output.notes([case.answer.describe(), *_of_case(case, cause),
                             *decisions.of_givers(given.filters, givers),
                             *(shown.last_tests(case.call, given.table, shown.title(given.filters)) if shown else ())])


def cause_lines(cause: Cause) -> Iterator[str]:
    """What is printed of an event: scf's lines, and those of the tool marked by `# `."""
    yield from output.notes(_of_event(cause))
    for key, side in cause.sides.items():
        yield from _of_side(side, cause, _of_profile if key == "profile" else _of_filters)
    for change in cause.changes:
        whose = "" if cause.given.judged.is_native else " to an x86-64 syscall"
        yield from output.notes([
            f"this change of the profile allows {change.describe()}, and no other answer{whose} changes:",
            *(f"  {step}" for step in change.steps())])


def _side_json(side: Side, cause: Cause, of_case: Callable[[Case], dict[str, object]]) -> dict[str, object]:
    table, refusal = cause.given.table, side.refusal
    value: dict[str, object] = {"verdict": side.verdict, "cases": [
        {"call": case.call.as_json(table), "answer": case.answer.as_json(), "is_for_all": case.is_for_all,
         "fits": case.fits, **of_case(case)} for case in side.cases]}
    return value if refusal is None else {**value, "fault": refusal.fault.as_json() if refusal.fault else refusal.line}


def cause_json(cause: Cause) -> dict[str, object]:
    event, given = cause.found.event, cause.given

    def of_profile(case: Case) -> dict[str, object]:
        return explanation.reason_json(given.reason(case.call), given.profile or b"", None)

    def of_filters(case: Case) -> dict[str, object]:
        givers, = listing.deciding_filters([(given.filters, case.answer)], case.call.words())
        return {"filters": [giver.filter.name for giver in givers]}

    value: dict[str, object] = {
        "status": cause.status, "source": event.source, "process": event.process, "name": event.name,
        "count": cause.found.count, "call": event.call.as_json(given.table), "actions": list(event.outcome.actions),
        "data": event.outcome.data,
        "arguments": [None if values is None else list(map(hex, values)) for values in event.arguments]}
    for key, side in cause.sides.items():
        value[key] = _side_json(side, cause, of_profile if key == "profile" else of_filters)
    if event.outcome.is_result:
        value["has_ended"] = cause.found.has_ended
    return {**value, "changes": [change.as_json() for change in cause.changes]}
