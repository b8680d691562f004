"""The lines and the object that explain a comparison, in blocks: whether one side is only stricter, the syscalls that
differ, the example with what gives each answer, what was left out, and what is at fault."""
from __future__ import annotations

import functools
import itertools
from collections.abc import Iterator, Sequence

from ..base import output
from ..base.values import Any, dataclass, replace
from ..model import profiles, tables
from ..model.answers import ALLOWED, DELEGATED, DENIED, Answer
from ..model.architectures import JUDGED
from ..model.calls import ARCHITECTURE, NUMBER, Call
from ..ask import explanation
from ..ask.explanation import describe_reason, join_names
from ..ask.verdicts import (ALL, CALLS, DIFFERS, LESS, LISTED, MORE, NO_LESS, NO_MORE, SAME, UNDECIDED, UNDETERMINED,
                            Fault, NamedCall, Report, Verdict, relation_json)
from ..forms import refusals
from ..forms.profile_inputs import ProfileInput
from . import listing
from .blocks import Block
from .compare import Pair

# What is printed of syscalls that fail a relation.
FAILED_RELATIONS = {DIFFERS: "that differ", MORE: "answered more permissively than by {}",
                    LESS: "answered more strictly than by {}"}
# At most so many syscalls without a verdict are listed.
MOST_UNDECIDED = 20


@dataclass(frozen=True)
class Newer:
    """Every syscall from these numbers on, all above those that a profile names, and both answers; and the verdict on
    the others, or None if they are the same."""

    bounds: dict[str, int]
    filters: Answer
    profile: Answer
    others: Verdict | None

    def has(self, call: Call) -> bool:
        return call.abi in self.bounds and call.number >= self.bounds[call.abi]

    def describe(self, table: tables.Table) -> str:
        firsts = [Call(first, JUDGED[name].number).describe(table) for name, first in self.bounds.items()]
        only, are = "only " * (self.others is None), "is" if len(firsts) == 1 else "are"
        return (f"{only}syscalls with numbers above all that the profile names differ, the first {are} "
                f"{join_names(firsts)}; both sides deny them, the filter with {self.filters.named()} and the profile "
                f"with {self.profile.named()}")

    def as_json(self) -> dict[str, object]:
        return {"first": next(iter(self.bounds.values())), "firsts": self.bounds, "filter": self.filters.as_json(),
                "profile": self.profile.as_json(), "are_all": self.others is None}


def newer_calls(comparison: Pair, scope: str) -> Newer | None:
    """The syscalls above all that a profile names, of each architecture from the first that differs on, if the filters
    deny all of these with one answer, and those before them with the profile's default."""
    default = profiles.default_of(comparison.profile) if scope != ALL and comparison.relation == SAME else None
    if default is None or not default.denies or comparison.right.stub:
        return None
    firsts: dict[str, int] = {}
    answers: set[Answer | None] = set()
    for name, table in comparison.tables.of.items():
        numbers = {table.number_of(syscall) for syscall in profiles.names_of(comparison.profile)} - {None}
        least = JUDGED[name].first + max(numbers, default=0) + 1
        for low, high, here in comparison.differences.of_architecture(JUDGED[name]).ranges or () if numbers else ():
            if high >= least and (here or name in firsts):
                firsts.setdefault(name, max(low, least))
                # (a known answer to all syscalls of these numbers)
                is_one = len(here) == 1 and here[0].is_decided and here[0].words.keys() <= {NUMBER, ARCHITECTURE}
                answers.add(here[0].answer if is_one else None)
    answer = answers.pop() if len(answers) == 1 else None
    if answer is None or not answer.denies:
        return None
    of_others = itertools.chain(
        (comparison.of_numbers(name, JUDGED[name].first, firsts.get(name, JUDGED[name].last + 1) - 1)
         for name in comparison.tables.of), (access.verdict for access in comparison.asked_accesses(LISTED)))
    return Newer(firsts, answer, default, next((verdict for verdict in of_others if not verdict.holds), None))


def _failed(comparison: Pair, word: str) -> str:
    return FAILED_RELATIONS[comparison.word(word)].format(comparison.title(1 - comparison.is_turned))


def count_lines(comparison: Pair, calls: Sequence[NamedCall]) -> Iterator[str]:
    """The count and the lines of the syscalls that fail the relation, and of those without a verdict."""
    differing = [call for call in calls if call.verdict.fails]
    if differing:
        yield f"syscalls in the table {_failed(comparison, differing[0].verdict.word)}: {len(differing)}"
        yield from comparison.texts([call.line for call in differing])
    if len(differing) < len(calls):
        undecided = [call.line for call in calls if not call.verdict.fails]
        yield f"syscalls in the table without a verdict: {len(undecided)}"
        yield from undecided[:MOST_UNDECIDED]
        yield from [f"more such syscalls: {len(undecided) - MOST_UNDECIDED}"] * (len(undecided) > MOST_UNDECIDED)
        yield from [explanation.MORE_SPLITS] * any(call.verdict.word == UNDECIDED for call in calls)


def _call_lines(comparison: Pair, report: Any, scope: str) -> tuple[list[str], list[str]]:
    """The lines before and after the explanation of scf's example, if syscalls differ; call by call they are scf's.
    Syscalls that are only newer than the profile are reported apart: first if there are no others, else last."""
    calls = comparison.named_calls if scope != CALLS else report.calls
    if calls is None or report.verdict.call is None and scope != CALLS:
        return [], []
    none_named = ["each syscall in the table gets the same answer from both sides" if comparison.relation == SAME else
                  f"no syscall in the table is among those {_failed(comparison, report.verdict.word)}"]
    above = newer_calls(comparison, scope)
    if above is None:
        return [], [] if scope == CALLS else list(count_lines(comparison, calls)) or none_named
    others = [call for call in calls if not above.has(call.record)]
    count, newer_lines = len(calls) - len(others), [above.describe(comparison.table)]
    if count:
        newer_lines.append(f"syscalls in the table among these: {count}")
    if scope == CALLS:
        return newer_lines, []
    if above.others is None:
        return newer_lines, [] if count else none_named
    lines = list(count_lines(comparison, others)) or list(_example_lines(comparison, above.others, True))
    return (lines + newer_lines, []) if above.has(report.verdict.call) else ([], lines + newer_lines)


def _dispositions(comparison: Pair, scope: str) -> list[Verdict | None]:
    """The verdicts on whether the judged side is nowhere more permissive than the other, and nowhere stricter."""
    return [comparison.verdict(scope, comparison.word(relation)) for relation in (NO_MORE, NO_LESS)]


def _strictness_lines(comparison: Pair, scope: str) -> Iterator[str]:
    """A line if the sides differ, and the judged one is never more permissive."""
    no_more, no_less = _dispositions(comparison, scope)
    hold = [verdict is not None and verdict.holds for verdict in (no_more, no_less)]
    judged, other = comparison.sides[comparison.is_turned], comparison.title(1 - comparison.is_turned)
    are_several = not isinstance(judged, ProfileInput) and len(judged) > 1
    they, are, s = ("they", "are", "") if are_several else ("it", "is", "s")
    they = f"over the syscalls in the table: {they}" if scope == CALLS else they
    if hold == [True, True]:
        yield f"{they} {are} neither more permissive nor stricter than {other}: only the answers differ"
    elif hold[1] and (not comparison.profile or comparison.is_diff):
        yield f"{they} {are} more permissive, and never stricter than {other}"
    elif hold[0]:
        if no_less is not None and no_less.fails:
            answer = no_less.profile if comparison.is_turned else no_less.filters
            are = f"{are} stricter, and" if answer is None or answer.disposition == DENIED else \
                f"delegate{s} more to a supervisor or tracer, and {are}"
        yield f"{they} {are} never more permissive than {other}"


def _example_lines(comparison: Pair, verdict: Verdict, is_native: bool) -> Iterator[str]:
    """The syscall that differs, and what both answers do; for `more` and `less` also both dispositions."""
    if verdict.call is None:
        return
    yield from explanation.explain_call(verdict.call, comparison.table, is_native)
    titles = [comparison.title(at) for at in (0, 1)]
    both = comparison.in_order(*zip(titles, (verdict.filters, verdict.profile)))
    answered = [(title, answer) for title, answer in both if answer is not None]
    for title, answer in answered:
        yield f"{title} {'answer' if title.endswith('filters') else 'answers'} {answer.describe()}"
    if verdict.word != DIFFERS and len(answered) == 2:
        first, second = (answer.disposition + " to a supervisor or tracer" * (answer.disposition == DELEGATED)
                         + f" by {title}" for title, answer in answered)
        yield f"the syscall is {first}, and {second}"


def _reasons(comparison: Pair, verdict: Verdict) -> list[tuple[int, Any]]:
    """What gives each side's answer to the example, in the order in which they are shown: a profile's reason, or the
    filter whose path is shown, None if there is none."""
    if verdict.call is None or verdict.filters is None or verdict.profile is None:
        return []
    order = comparison.in_order(*zip((0, 1), comparison.sides, (verdict.filters, verdict.profile)))
    stacks = [(side, answer) for _, side, answer in order if not isinstance(side, ProfileInput)]
    givers = map(listing.to_show, listing.deciding_filters(stacks, verdict.call.words()) if stacks else ())
    return [(at, comparison.reason_of(at, verdict.call) if isinstance(side, ProfileInput) else next(givers))
            for at, side, _ in order]


def difference_lines(comparison: Pair, verdict: Verdict) -> Iterator[str]:
    """The lines after a syscall that differs: a profile's reason, and the last tests on a filter's path."""
    found = _reasons(comparison, verdict)
    of_profiles = [(at, given) for at, given in found if isinstance(given, explanation.Reason)]
    for at, reason in of_profiles:
        side, before = comparison.sides[at], f"{comparison.title(at)}: " * (len(of_profiles) > 1)
        yield from (before + line for line in describe_reason(reason, side.data, verdict.call, side.origins))
    for at, path in found:
        if isinstance(path, listing.Path):
            title = path.title(comparison.sides[at]) if of_profiles else path.filter.name
            yield from path.last_tests(verdict.call, comparison.table, title)


def _difference_json(comparison: Pair, verdict: Verdict) -> dict[str, object]:
    """The same as members of an object: a profile's reason stands in its answer, but beside filters that it judges."""
    members: Any = verdict.as_json(comparison.table, comparison.names)
    for at, given in _reasons(comparison, verdict):
        name, side = comparison.names[at], comparison.sides[at]
        if isinstance(side, ProfileInput):
            holder = members if name == "profile" and comparison.profile else members[name]
            holder.update(explanation.reason_json(given, side.data, verdict.call, side.origins))
        else:
            path = f"path_{name}" if comparison.is_diff else "path_beside" if at else "path"
            members[path] = None if given is None else given.as_json()
    return members


def faulty_side(comparison: Pair, fault: Fault) -> int:
    """The side that has a fault."""
    return int(fault.source == comparison.beside)


def fault_sentences(comparison: Pair, fault: Fault) -> Iterator[str]:
    """The lines about a fault of a comparison."""
    at, shown = faulty_side(comparison, fault), comparison.fault(fault)
    given = comparison.sides[at] if isinstance(comparison.sides[at], ProfileInput) else ProfileInput(b"")
    yield from refusals.sentences(shown, given.data, comparison.judged[at], given.origins)
    if isinstance(comparison.left, ProfileInput) and shown.source in ("profile", "compile"):
        yield f"it is {comparison.title(at)}"
        if comparison.is_diff and fault.kind == "EngineForm":
            yield "--caps and the like resolve both profiles as an engine does"


def _responsible_files(comparison: Pair, report: Report, scope: str) -> Iterator[tuple[str, str]]:
    """The files of those of several filters that cause a fault or are undecided by themselves, each with a line. The
    index that scf prints for an undecided stack may be another one's, which only the undecided syscalls reach."""
    stacks = [() if isinstance(side, ProfileInput) else side for side in comparison.sides]
    if sum(map(len, stacks)) < 2:
        return
    if report.fault is not None:
        at, fault = faulty_side(comparison, report.fault), report.fault
        if at:
            # what scf says of one of the first stack
            source = "stack" if fault.kind == "TooMany" else "filter"
            fault = Fault.read(fault.line.replace(comparison.beside, source, 1)) or fault
        yield from ((name, f"the filter is {name}") for name in refusals.faulty_filters(stacks[at], fault))
    elif comparison.profile and report.verdict and report.verdict.word == UNDECIDED:
        for each in stacks[0]:
            verdict = replace(comparison, left=[each]).run(scope)[1].verdict
            if verdict and verdict.word == UNDECIDED:
                yield each.name, f"alone, {each.name} is undecided at {verdict.at}"


def comparison_notes(comparison: Pair, report: Report, scope: str) -> Iterator[str]:
    """The lines after scf's."""
    verdict, profile = report.verdict, comparison.profile
    if report.fault:
        yield from fault_sentences(comparison, report.fault)
    if verdict:
        yield from _strictness_lines(comparison, scope) if verdict.word == DIFFERS else ()
        before, after = _call_lines(comparison, report, scope) if verdict.fails else ([], [])
        yield from before
        if verdict.fails or verdict.word == UNDETERMINED:
            yield from _example_lines(comparison, verdict, scope != ALL)
        elif not verdict.holds:
            when, *what_to_do = explanation.what_a_row_says(report.lines[0])
            yield from (when, *([explanation.MORE_SPLITS] if verdict.word == UNDECIDED else what_to_do))
        yield from difference_lines(comparison, verdict)
        yield from explanation.explain_skipped(report, comparison.tables, profile)
        yield from explanation.explain_architectures(report)
        # of other ABIs those that aren't proved to be denied
        yield from (f"{access.describe()}; the profile doesn't name {access.abi.oci}"
                    for access in comparison.asked_accesses(scope) if not access.are_denied)
        yield from (f"{JUDGED[oci].name}: not compared, since its rules aren't known"
                    for oci in profiles.not_compared_of(profile))
        yield from after
    yield from (line for _, line in _responsible_files(comparison, report, scope))


def comparison_json(comparison: Pair, report: Report, scope: str, status: int) -> dict[str, object]:
    """The object with everything that `comparison_notes` prints."""
    verdict, calls, fault = report.verdict, report.calls, report.fault
    members: dict[str, object] = {"status": status, "scope": scope,
                                  "verdict": comparison.word(verdict.word) if verdict else None,
                                  **relation_json(comparison.word(comparison.relation))}
    if scope == LISTED:
        members["architectures"] = list(comparison.named)
    if fault:
        side = {} if not comparison.is_diff else {"side": comparison.names[faulty_side(comparison, fault)]}
        members["fault"] = {**comparison.fault(fault).as_json(fault_sentences(comparison, fault)), **side}
    if verdict:
        members.update(_difference_json(comparison, verdict))
    if verdict and verdict.word == DIFFERS:
        members.update(zip(("no_more", "no_less"), (known and comparison.word(known.word)
                                                    for known in _dispositions(comparison, scope))))
    if verdict and verdict.fails:
        calls, above = calls if scope == CALLS else comparison.named_calls or (), newer_calls(comparison, scope)
        if above:
            members["newer"] = above.as_json()
    members["calls"] = [{**call.as_json(), "verdict": comparison.word(call.verdict.word),
                         **call.verdict.as_json(comparison.table, comparison.names)} for call in calls]
    if isinstance(comparison.right, ProfileInput):
        members["skipped"], members["other_architectures"] = list(report.skipped), list(report.architectures)
    if report.skipped:
        members["unknown"] = [{"name": name, "nearest": near}
                              for name, near in tables.classify(report.skipped, comparison.tables).unknown]
    if comparison.profile and scope != ALL and verdict:
        members["foreign"] = [access.as_json() for access in comparison.asked_accesses(scope)]
    if profiles.not_compared_of(comparison.profile):
        members["not_compared"] = list(profiles.not_compared_of(comparison.profile))
    files = [name for name, _ in _responsible_files(comparison, report, scope)]
    return {**members, "files": files} if files else members


@dataclass(frozen=True)
class Judgement:
    """A comparison, with scf's status and report over a scope."""

    comparison: Pair
    status: int
    first: Report
    scope: str

    @classmethod
    def of(cls, pairs: Sequence[Pair], scope: str | None) -> Judgement:
        """That of a side by all that judge it, each for its architectures, which speaks for all: that of a fault, else
        the first that fails, else the first that doesn't hold."""
        made = [cls(*pair.run_by_stub(scope), scope or pair.scope) for pair in pairs]
        return min(made, key=lambda each: () if each.first.verdict is None else each.first.verdict.order)

    @functools.cached_property
    def report(self) -> Report:
        """The report with the most telling example: a native syscall with a name that one side allows and the other
        denies, if there is one among those that differ."""
        def is_telling(verdict: Verdict) -> bool:
            dispositions = {answer.disposition for answer in (verdict.filters, verdict.profile) if answer is not None}
            return verdict.call is not None and verdict.call.is_native and verdict.call.pointer is not None and \
                dispositions == {ALLOWED, DENIED} and bool(self.comparison.table.names_of(verdict.call.number))

        whole = self.first.verdict
        if whole is None or not whole.fails or whole.call is None or is_telling(whole):
            return self.first
        calls = self.comparison.named_calls or ()
        shown = next((named.verdict for named in calls if is_telling(named.verdict)), whole)
        return replace(self.first, lines=Report.of(shown, self.comparison.beside).lines, verdict=shown)

    def block(self, is_verbose: bool = False) -> Block:
        """What a command says of it; the verdict doesn't wait for what explains it."""
        def lines() -> Iterator[str]:
            printed = self.comparison.printed(self.report)
            yield from printed.printed if is_verbose else printed.brief
            output.flush()
            yield from output.notes(comparison_notes(self.comparison, self.report, self.scope))

        return Block(self.status, lines, lambda: comparison_json(self.comparison, self.report, self.scope, self.status))
