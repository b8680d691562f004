"""The needs of a program, as a profile answers them: the syscalls in logs, each judged by scf in its architecture; and
those of the runtime that starts it.

All that the profile answers is known by its regions: those of a syscall with the arguments that the log shows.
"""
from __future__ import annotations

from collections import Counter
from collections.abc import Iterator, Sequence

from ..base import output, program
from ..base.values import dataclass, replace
from ..model import entries, profiles, tables
from ..model.answers import ALLOWED, DEPENDS, KILL_PROCESS, Answer
from ..model.architectures import JUDGED, NATIVE, Architecture, machine_architecture
from ..model.argument_sets import EMPTY_SET, Sets, Steps, TooMany
from ..model.calls import Call
from ..model.tables import Table, Tables
from ..ask import client, explanation, regions
from ..ask.answer_sets import arguments_of
from ..ask.verdicts import UNDECIDED, UNFINISHED
from ..forms import runtimes
from ..forms.strace_reader import OWN_MODE, modes_of
from ..report.covers import Alternative, Covers
from . import audit_records
from .events import ways_of
from .traces import CUT, FOREIGN, LOST, MORE, UNREAD, Seen, Trace

NOT_ALLOWED = "not allowed"
# What in a log isn't judged, by its name in JSON.
UNJUDGED = {FOREIGN: "syscalls not judged, since scf has no table of their architecture",
            CUT: "syscalls not judged, since the log lacks their beginning or end",
            MORE: "syscalls not judged, since there are too many with other arguments",
            UNREAD: "lines not judged, since they can't be parsed",
            LOST: "syscalls not judged, since the log has lost them"}
TAKEN = ("a log that doesn't say its architecture is taken as {}'s, since the profile doesn't list {}: --arch names "
         "another")
RUNTIME_HELP = "add what this container runtime calls before it executes the program, and read the profile as it does"
# The most syscalls to judge, each with each of its values.
MOST_WAYS = 2000


@dataclass(frozen=True)
class NeededCall:
    """A syscall in a log: its architecture, its number in the table of this, its name, and the values of the arguments
    that a condition tests, None if one isn't known; and whether the profile allows it, or it depends, with examples."""

    architecture: Architecture
    number: int
    name: str
    arguments: tuple[tuple[int, tuple[int, ...] | None], ...]
    seen: Seen
    disposition: str = ""
    # scf's line where it isn't allowed
    line: str = ""
    allowed: Call | None = None
    denied: tuple[Call, Answer] | None = None
    # the known values with which it is allowed whatever the others are, and the answers that don't allow it
    passing: Sequence[dict[int, int]] = ()
    answers: frozenset[Answer] = frozenset()

    @property
    def unknown(self) -> list[int]:
        return [index for index, values in self.arguments if values is None]

    @property
    def unsure(self) -> list[int]:
        """The arguments of which not one value alone is known."""
        return [index for index, values in self.arguments if values is None or len(values) > 1]

    @property
    def call(self) -> Call:
        """A record of the syscall, with zeros as its arguments."""
        return Call(self.architecture.first + self.number, self.architecture.number)

    @property
    def is_foreign(self) -> bool:
        """Whether the profile doesn't list its architecture."""
        return self.line == explanation.FOREIGN

    def describe(self) -> str:
        """The line of one that isn't allowed, or not always."""
        shown = "".join(f" arg {index} {values[0]:#x}" for index, values in self.arguments
                        if values is not None and len(values) == 1)
        result = self.line
        if self.disposition == DEPENDS:
            result = f"depends on arg{'s' * (len(self.unsure) > 1)} {', '.join(map(str, self.unsure))}"
        return self.architecture.marked(f"{self.number} {self.name}{shown} {result}")


@dataclass
class Needs:
    """The result: the logs, the judges, the syscalls that were judged, and how often names without a number are met."""

    log: Trace
    judges: Judges
    judged: list[NeededCall]
    unnamed: dict[str, int]
    # whether there are several logs, whose names lines then say
    are_several: bool

    def of(self, disposition: str) -> list[NeededCall]:
        return [needed for needed in self.judged if needed.disposition == disposition]

    def where(self, needed: NeededCall) -> str:
        """Where a syscall stands in the logs."""
        seen = needed.seen
        if not seen.line:
            return f"made by {seen.log} itself, before it executes the program"
        log = f"'{seen.log}'" if self.are_several else "the log"
        return f"{'once' if seen.count == 1 else f'{seen.count} times, first'} in line {seen.line} of {log}"

    @property
    def isnt_whole(self) -> bool:
        """Whether something in the log wasn't judged, or there was nothing to judge."""
        return bool(self.unnamed or any(self.log.unjudged.values()) or not self.judged)

    @property
    def status(self) -> int:
        if self.of(NOT_ALLOWED):
            return program.NEGATIVE
        return program.UNKNOWN if self.of(DEPENDS) or self.of(UNDECIDED) or self.isnt_whole else program.SUCCESS


class Judge:
    """A profile, its regions for one architecture, and what its conditions test of each syscall there."""

    def __init__(self, profile: bytes, architecture: str, table: Table):
        answered = regions.regions_of_profile(profile, Tables({architecture: table}, profiles.reading_of(profile)))
        self._lookup = regions.Lookup(answered)
        top = entries.parse_seccomp(profile)
        if top is None:
            raise program.ToolError("the profile's JSON can't be parsed by this tool")
        self.top: entries.Object = top
        looked: dict[int, set[int]] = {}
        for entry in entries.entries_of(top, table.number_of):
            for number in map(table.number_of, entry.names if entry.conditions else ()):
                looked.setdefault(number, set()).update(each.index for each in entry.conditions)
        self.looked = {name: tuple(sorted(looked[number])) for number in looked
                       for name in (*table.names_of(number), f"syscall_{number:#x}")}

    def of(self, needed: NeededCall) -> NeededCall:
        """A syscall with what the profile says of it."""
        call = needed.call
        allowed, denied, passing = [], [], []
        for values in ways_of(needed.arguments):
            denied_before = len(denied)
            for region in self._lookup.of_number(call):
                if region.answer is not None and region.has(values):
                    shown = region.call_of(call.number, call.architecture, values)
                    if shown is None:
                        return replace(needed, disposition=UNDECIDED, line=UNDECIDED)
                    (allowed if region.answer.allows else denied).append((shown, region.line, region.answer))
            passing += [values] if allowed and len(denied) == denied_before else []
        if not self._lookup.is_finished:
            return replace(needed, disposition=UNDECIDED, line=UNFINISHED)
        if not allowed and not denied:
            denied = [(call, explanation.FOREIGN, KILL_PROCESS)]
        shown, line, answer = denied[0] if denied else (None, "", None)
        return replace(needed, disposition=NOT_ALLOWED if not allowed else DEPENDS if denied else ALLOWED, line=line,
                       allowed=allowed[0][0] if allowed else None, denied=(shown, answer) if denied else None,
                       passing=passing, answers=frozenset(each for _, _, each in denied))

    def alternatives(self, needed: NeededCall) -> list[Alternative]:
        """Conditions of which some hold of just the allowed arguments, by the regions; none if none or too many."""
        sets = Sets(needed.architecture.bits, Steps())
        try:
            allowed = sets.union(arguments_of(sets, region) for region in self._lookup.of_number(needed.call)
                                 if region.is_decided and region.answer.allows)
            return [] if allowed == EMPTY_SET else Covers(sets).of_set(allowed) or []
        except TooMany:
            return []


class Judges:
    """A profile, which judges each syscall in its architecture. `own` is the architecture of what doesn't say it: the
    machine's, or, if the profile doesn't list that, the first that it lists."""

    def __init__(self, profile: bytes, named: Architecture | None, table: str | None):
        self.profile, machine = profile, JUDGED[machine_architecture()]
        listed = tables.tables_of_profile(profile, tables.read_table(None)).of
        self.own = named or (machine if machine.oci in listed else JUDGED[next(iter(listed))])
        self.taken = "" if self.own in (named, machine) else TAKEN.format(self.own.name, machine.name)
        # of all architectures, by OCI names; a table that is handed in is that of the log's own
        self.tables = tables.architecture_tables(JUDGED, tables.read_table(None)).of
        self.tables[self.own.oci] = tables.read_table(table, self.own)
        # a profile without a list is for its machine's own
        names = profiles.architectures_of(profile) or [modes_of(self.own.oci)[OWN_MODE]]
        self.listed = Tables({name: self.tables[name]
                              for name in tables.architecture_tables(names, self.tables[NATIVE]).of},
                             profiles.reading_of(profile))
        self._of: dict[str, Judge] = {}

    def of(self, architecture: str) -> Judge:
        """The judge of an architecture's syscalls; if the profile doesn't list it, one to which they are foreign."""
        at = next(name for name in (architecture, self.own.oci, *self.listed.of) if name in self.listed.of)
        if at not in self._of:
            self._of[at] = Judge(self.profile, at, self.tables[at])
        return self._of[at]

    def looked_at(self, architecture: str, name: str) -> tuple[int, ...]:
        """The arguments of a syscall that a condition tests."""
        return self.of(architecture).looked.get(name, ()) if architecture in self.listed.of else ()


def log_remarks(needs: Needs) -> Iterator[str]:
    """Lines on the log's architectures, and on what in it wasn't judged."""
    if needs.judges.taken:
        yield needs.judges.taken
    for architecture in dict.fromkeys(needed.architecture for needed in needs.judged if needed.is_foreign):
        yield (f"{architecture.name} syscalls aren't allowed, since the profile doesn't list {architecture.oci}: "
               "engines' filters kill for them")
    elsewhere = tables.names_elsewhere() if needs.unnamed else ()
    for name, count in sorted(needs.unnamed.items())[:tables.MOST_LISTED]:
        yield (f"not judged, since the table doesn't have it: {name}, times: {count}"
               + ("; it is a syscall of other architectures alone" if name in elsewhere else ""))
    if len(needs.unnamed) > tables.MOST_LISTED:
        yield f"more such names: {len(needs.unnamed) - tables.MOST_LISTED}"
    log = needs.log
    for kind, text in UNJUDGED.items():
        if log.unjudged[kind]:
            yield f"{text}: {log.unjudged[kind]}"
        if kind == UNREAD and log.fault:
            yield log.fault
    if log.before_load:
        yield f"syscalls before a filter is loaded, or in a process without one, which aren't judged: {log.before_load}"
    if log.is_of_kernel:
        yield audit_records.RATE_LIMITED
    if not needs.judged:
        yield "the log has no syscall" + (" under a filter" if log.has_load else "")


def needs_lines(needs: Needs) -> Iterator[str]:
    """The text output: what isn't allowed, what depends, and counts."""
    for needed in [each for disposition in (NOT_ALLOWED, DEPENDS, UNDECIDED) for each in needs.of(disposition)]:
        yield needed.describe()
        if needed.disposition == DEPENDS and needed.allowed and needed.denied:
            call, answer = needed.denied
            with_allowed, with_others = (" ".join(map(hex, each.arguments)) for each in (needed.allowed, call))
            yield f"# allowed with args {with_allowed}; with args {with_others} it is {answer}"
        yield f"# {needs.where(needed)}"
    yield from output.notes(log_remarks(needs))
    shown = [ALLOWED, NOT_ALLOWED, DEPENDS, *[UNDECIDED] * bool(needs.of(UNDECIDED))]
    counts = ", ".join(f"{disposition} {len(needs.of(disposition))}" for disposition in shown)
    yield f"# syscalls, each with the arguments that conditions test: {counts}"


def count_lines(needs: Needs) -> list[str]:
    """How often the logs have each syscall, the most frequent first: lines NAME COUNT."""
    counts: Counter[str] = Counter()
    for needed in needs.judged:
        counts[needed.architecture.marked(needed.name)] += needed.seen.count
    return [f"{name} {count}" for name, count in sorted(counts.items(), key=lambda item: (-item[1], item[0]))]


def _call_json(needed: NeededCall, table: Table) -> dict[str, object]:
    depends = needed.disposition == DEPENDS
    shown: dict[str, object] = {
        **({} if needed.architecture.oci == NATIVE else {"architecture": needed.architecture.name}),
        "number": needed.number, "name": needed.name, "disposition": needed.disposition, "count": needed.seen.count,
        "line": needed.seen.line, "log": needed.seen.log, "depends_on": needed.unsure if depends else [],
        "arguments": {str(index): None if values is None else list(map(hex, values))
                      for index, values in needed.arguments}}
    if needed.denied:
        (call, answer), reason = needed.denied, explanation.region_reason(needed.line)
        shown["not_allowed"] = {"call": call.as_json(table), "answer": answer.as_json(), "reason": reason.by,
                                **({} if reason.entry is None else {"entry": reason.entry})}
    if needed.allowed and depends:
        shown["allowed"] = needed.allowed.as_json(table)
    return {**shown, **({"verdict": needed.line} if needed.disposition == UNDECIDED else {})}


def needs_json(needs: Needs) -> dict[str, object]:
    return {"calls": [_call_json(needed, needs.judges.tables[NATIVE]) for needed in needs.judged],
            "not_judged": {"names": needs.unnamed, **{kind: needs.log.unjudged[kind] for kind in UNJUDGED},
                           "before_load": needs.log.before_load}}


def read_needs(names: Sequence[str], judges: Judges, runtime: str | None = None) -> Needs:
    """The judged syscalls of logs, and those that a runtime makes before it executes the program. Raises Refusal."""
    architecture = judges.own.oci
    # this checks the profile before a log is read
    judges.of(architecture)
    log = Trace(judges.looked_at, judges.tables, architecture)
    for name in names:
        log.read(name)
    log.begin(runtime or "")
    for name in runtimes.OWN_CALLS[runtime].names if runtime else ():
        if log.number_of(architecture, name) is not None:
            log.keep(architecture, name, {})
    needs = Needs(log, judges, [], {}, len(names) > 1)
    calls: list[NeededCall] = []
    for (architecture, name, values), seen in log.calls.items():
        in_architecture, number = JUDGED[architecture], log.number_of(architecture, name)
        if number is None:
            shown = in_architecture.marked(name)
            needs.unnamed[shown] = needs.unnamed.get(shown, 0) + seen.count
        else:
            arguments = tuple(zip(judges.looked_at(architecture, name), values))
            calls.append(NeededCall(in_architecture, number, name, arguments, seen))
    ways, order = 0, list(JUDGED.values())
    for call in sorted(calls, key=lambda it: (order.index(it.architecture), it.number, it.name, it.seen.line)):
        ways += sum(1 for _ in ways_of(call.arguments))
        if ways <= MOST_WAYS and client.has_time():
            needs.judged.append(judges.of(call.architecture.oci).of(call))
        else:
            log.unjudged[MORE] += call.seen.count
    return needs
