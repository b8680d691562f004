"""What `why` prints of a log: the causes of its events and denials, and what else stands in it.

Denials are the failed syscalls of a log to which a profile, or filters, answer as they failed, by syscall and entry,
the most telling first.
"""
from __future__ import annotations

import errno
from collections import Counter
from collections.abc import Iterator, Sequence

from ..base import output, program
from ..base.values import dataclass, field
from ..model.tables import Table
from ..ask import client
from . import causes
from .causes import CONTRADICTS, FITS, Cause, Inputs, verdict_of
from .events import EVENTS, EventLog, Failures, Found

WANTED = ("no syscall that a filter may have answered is in it: an audit record has type=1326 or type=SECCOMP, and of "
          "strace the line is wanted of a syscall that failed, or the one before SIGSYS")
# How many denials are shown unless all are asked for.
SHOWN = 5


@dataclass
class Denials:
    """What the failures of a log are: denials; those with EPERM, which a process without a capability gets
    (capabilities(7)), but not by the profile, or the filters; and those of which it isn't known."""

    # of a denial the failures are of one syscall by one entry
    of: list[Found] = field(default_factory=list)
    by_other_cause: list[Found] = field(default_factory=list)
    unknown: int = 0

    @property
    def count(self) -> int:
        return sum(denial.count for denial in self.of)


def denials_of(failures: Failures, given: Inputs) -> Denials:
    """Which failures are denials by the profile, or else by the filters. Raises Refusal."""
    denials, stack = Denials(), given.of_profile if given.profile is not None else given.of_filters
    # by what is reported together, the syscall, its errno and the entry, and what that is of each kind of failure
    by_key: dict[tuple[object, ...], Found] = {}
    key_of: dict[tuple[object, ...], tuple[object, ...]] = {}
    for kind, failure in failures.of.items():
        answers = stack.cases(failure.event)
        verdict = verdict_of(answers)
        if verdict == CONTRADICTS:
            denials.by_other_cause += [failure] if failure.event.outcome.data == errno.EPERM else []
        elif verdict != FITS:
            denials.unknown += failure.count
        else:
            call = next(case.call for case in answers if case.fits)
            entry = None if given.profile is None else given.reason(call).entry
            key = key_of[kind] = call.number, call.architecture, failure.event.outcome, entry
            by_key.setdefault(key, Found(failure.event)).add(failure.event, failure.last, failure.count)
    for kinds in failures.of_ended:
        last = next((key_of[kind] for kind in kinds if kind in key_of), None)
        if last is not None:
            by_key[last].has_ended = True
    # first what a process ended after; then what was tried least, as libraries ignore what they repeat; then the last
    denials.of = sorted(by_key.values(), key=lambda denial: (not denial.has_ended, denial.count, -denial.last))
    return denials


def _counted(failures: Sequence[Found], table: Table) -> str:
    counts: Counter[str] = Counter()
    for failure in failures:
        counts[failure.event.call.describe(table)] += failure.count
    return ", ".join(name + (f" {count} times" if count > 1 else "") for name, count in counts.items())


def denial_lines(report: LogReport, denials: Denials) -> Iterator[str]:
    failures, given, table = report.log.failures, report.given, report.given.table
    name = "the profile" if given.profile is not None else "the filter" if len(given.filters) == 1 else "the filters"
    if failures.count:
        denies, count = "deny" if name[-1] == "s" else "denies", denials.count or "none: look elsewhere"
        yield f"syscalls that failed: {failures.count}, of which {name} {denies} {count}"
    hidden, others = _counted(denials.of[report.shown:], table), _counted(denials.by_other_cause, table)
    if hidden:
        yield f"of these aren't shown, since they tell less (--every shows them): {hidden}"
    if others:
        yield (f"with EPERM, but not by {name}: {others}: the kernel itself answers so, for example if the process "
               "lacks a capability, or another filter does")
    if denials.unknown:
        yield f"syscalls that failed, of which it isn't known: {denials.unknown}"
    if failures.beyond:
        yield f"syscalls that failed with too many different arguments, which aren't judged: {failures.beyond}"
    if failures.before_load:
        yield ("syscalls that failed before a filter is loaded, or in a process without one, which aren't judged: "
               f"{failures.before_load}")


@dataclass
class LogReport:
    """The causes of all events of a log and of its most telling denials, and what else is in it."""

    log: EventLog
    given: Inputs
    causes: list[Cause]
    # None if no profile and no filter is given
    denials: Denials | None = None
    shown: int = SHOWN
    # what is printed where there is none
    lacking: Sequence[str] = (WANTED,)

    @property
    def status(self) -> int:
        log = self.log
        statuses = {cause.status for cause in self.causes}
        if log.faults:
            statuses.add(program.TROUBLE)
        if not self.causes or log.beyond or log.suppressed or any(core.has_syscall for core in log.cores) or \
                self.denials and (self.denials.unknown or log.failures.beyond):
            statuses.add(program.UNKNOWN)
        return client.worst(statuses)

    def lines(self) -> Iterator[str]:
        """What is printed of all events, and of what else is in the log."""
        log, denied = self.log, self.denials
        for cause in self.causes:
            yield from causes.cause_lines(cause)
        for number, why in log.faults:
            yield f"# line {number} isn't judged: {why}" if number else f"# a line isn't judged: {why}"
        if log.suppressed:
            yield f"# records that the kernel left out, since too many came at once: {log.suppressed}"
        if log.beyond:
            yield f"# records of more syscalls than {EVENTS} different ones, which aren't judged: {log.beyond}"
        if denied is not None and not (self.causes and log.failures.count == 1):
            yield from output.notes(denial_lines(self, denied))
        yield from output.notes(core.describe() for core in log.cores)
        if not self.causes and not log.faults and not log.failures.count and not log.cores:
            yield from output.notes(self.lacking)

    def as_json(self) -> dict[str, object]:
        log, denied, failures = self.log, self.denials, self.log.failures
        value = {"events": [causes.cause_json(cause) for cause in self.causes],
                 "faults": [{"line": number, "why": why} for number, why in log.faults],
                 "suppressed": log.suppressed, "not_judged": log.beyond,
                 **({"cores": [vars(core) for core in log.cores]} if log.cores else {})}
        if denied is None or not failures.count + failures.before_load:
            return value
        listed = {name: [{"call": each.event.call.as_json(self.given.table), "errno": each.event.outcome.data,
                          "count": each.count} for each in its]
                  for name, its in (("not_shown", denied.of[self.shown:]), ("by_other_cause", denied.by_other_cause))}
        return {**value, "failures": {
            "count": failures.count, "denied": denied.count, **listed, "unknown": denied.unknown,
            "not_judged": failures.beyond, "before_load": failures.before_load}}


def log_report(log: EventLog, given: Inputs, is_all: bool) -> LogReport:
    """The causes of a log's events and denials; of a failed syscall if there are none, or scf refuses what is given."""
    failed = [failure.event for failure in log.failures.of.values()]
    given = given.on([*(found.event for found in log.events.values()), *failed, *filter(None, [log.last_failure])])
    denied, failure = None, log.last_failure
    if given.profile is not None or given.filters:
        try:
            denied = denials_of(log.failures, given)
            failure = None if denied.of else log.last_failure
        except client.Refusal:
            failure = next(iter(failed), None)
    if failure is not None and not log.events:
        log.add(failure)
    denials = [] if denied is None else denied.of
    shown = len(denials) if is_all else SHOWN
    reported = [causes.cause_of(found, given) for found in (*log.events.values(), *denials[:shown])]
    return LogReport(log, given, reported, denied, shown)
