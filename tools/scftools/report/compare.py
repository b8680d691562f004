"""Comparisons of filters with a profile, of two stacks of filters, and of two profiles: what scf says of both sides
over a scope, call by call and by their differences, and how they are called."""
from __future__ import annotations

import functools
import itertools
from collections.abc import Callable, Sequence

from ..base import program
from ..base.values import Any, Pattern, dataclass, replace
from ..model import bundles, profiles
from ..model.architectures import JUDGED, NATIVE, Architecture
from ..model.bpf import looks_at_pointer
from ..model.calls import SKIPPED, Call
from ..model.tables import Table, Tables
from ..ask import client, explanation, questions, regions, verdicts
from ..ask.client import Fault, Refusal
from ..ask.questions import AbiAccess
from ..ask.regions import EVERY_RECORD, Lookup, Region, beyond, span_of
from ..ask.verdicts import (ALL, CALLS, FAILING_WORDS, FOR_OTHER_ABI, LESS, LISTED, MORE, NATIVE_SCOPE, NO_LESS,
                            NO_MORE, RELATIONS, SAME, SCOPES, UNDETERMINED, UNFINISHED, NamedCall, Report, Verdict,
                            checked)
from ..forms.filters import Filter
from ..forms.profile_inputs import ProfileInput

# Both answers, in scf's lines of a difference or in its line of a syscall; and the words that depend on which side is
# judged, with those where it is the other one.
ANSWERS = Pattern(r"(?:filter|profile) (\w+ \w+)([\n ])(?:profile|beside) (\w+ \w+)")
TURNING = Pattern(r"(?m)(^| )(no more|no less|more|less)(?= args|$)")
TURNED = {NO_MORE: NO_LESS, NO_LESS: NO_MORE, MORE: LESS, LESS: MORE}


@dataclass(frozen=True)
class Pair:
    """Two sides whose answers are compared, as they are shown, and x86-64's table. The relation and all verdicts are
    scf's, of the left side to the right one: that one judges, in a turned pair the left one, in a diff the old one."""

    left: Sequence[Filter] | ProfileInput
    right: Any
    table: Table
    relation: str = SAME
    # whether profiles are judged for x86-64 alone, whatever they name
    is_native: bool = False
    # (the side that judges is the one at `1 - is_turned`)
    is_turned: bool = False
    is_diff: bool = False
    # the OCI names of ABIs that aren't asked about, since another profile has them
    elsewhere: Sequence[str] = ()
    # that of the table
    architecture: str = NATIVE

    # scf's words for both sides, and what it calls the second one; and of filters beside a profile that profile, and
    # what they let through of other ABIs
    kinds, beside, profile, accesses = ("filter", "profile"), "profile", b"", ()

    @property
    def sides(self) -> tuple[Any, Any]:
        return self.left, self.right

    @functools.cached_property
    def judged(self) -> list[Tables]:
        """The tables by which each side is judged, filters by those of a profile beside them."""
        found = [side.judged(self.table, self.is_native, self.architecture)
                 for side in self.sides if isinstance(side, ProfileInput)] or [Tables({NATIVE: self.table})]
        return [found[0], found[-1]]

    @property
    def tables(self) -> Tables:
        """The tables of the architectures whose syscalls scf compares."""
        return self.judged[1]

    @property
    def stacks(self) -> list[list[bytes]]:
        """Those sides that are filters for scf."""
        return [[each.data for each in side] for side in self.sides if not isinstance(side, ProfileInput)]

    @property
    def scope(self) -> str:
        """The scope that is compared by default."""
        return NATIVE_SCOPE if self.tables.is_native else LISTED

    @property
    def names(self) -> tuple[str, str]:
        """The words for both sides in lines and objects, the left one first."""
        return self.kinds if not self.is_diff else ("old", "new") if self.is_turned else ("new", "old")

    def in_order(self, left: Any, right: Any) -> tuple[Any, Any]:
        """What belongs to both sides as they are shown: the judged side is the first, and in a diff the last."""
        return (right, left) if self.is_turned != self.is_diff else (left, right)

    def title(self, at: int) -> str:
        """What a side is called in sentences."""
        side, is_other = self.sides[at], at != self.is_turned and self.beside == bundles.BESIDE
        noun = "profile" if isinstance(side, ProfileInput) else "filter" + "s" * (len(side) > 1)
        return " ".join(filter(None, ["the", self.names[at] if self.is_diff else "other" * is_other, noun]))

    def word(self, word: str) -> str:
        """A relation or the word of a verdict, as it is of the judged side to the other one; or scf's word for that."""
        return TURNED.get(word, word) if self.is_turned else word

    def texts(self, lines: Sequence[str]) -> list[str]:
        """Lines of scf, or of syscalls, as they are printed."""
        (first, answer), (second, other) = self.in_order(*zip(self.names, (r"\1", r"\3")))
        text = ANSWERS.sub(rf"{first} {answer}\2{second} {other}", "\n".join(lines))
        return TURNING.sub(lambda match: match[1] + self.word(match[2]), text).split("\n")

    def fault(self, fault: Fault) -> Fault:
        """A fault of scf, as it is printed."""
        line = fault.line.replace(self.beside, "profile", 1) if isinstance(self.right, ProfileInput) else fault.line
        return Fault.read(line) or fault

    def printed(self, report: Report) -> Report:
        """A report with its lines as they are printed."""
        lines = self.texts(report.lines) if report.fault is None else [self.fault(report.fault).line]
        return replace(report, lines=tuple(lines))

    def run_unchecked(self, scope: str | None = None, relation: str | None = None) -> tuple[int, Report]:
        """What `run` gives, without a second look at the record that is shown. Call by call in the tables of the
        architectures a fault speaks for all, else the first verdict that fails, else the first that doesn't hold."""
        relation = relation or self.relation
        if scope != CALLS:
            return self.asked(SCOPES[scope or self.scope], relation)
        results = [self.asked(SCOPES[CALLS], relation, name) for name in self.tables.of]
        status, first = min(results, key=lambda result: () if result[1].verdict is None else result[1].verdict.order)
        calls = [call for _, report in results for call in report.calls]
        return status, first if first.verdict is None else Report.by_call(first.verdict, calls)

    def run(self, scope: str | None = None, relation: str | None = None) -> tuple[int, Report]:
        """scf's exit status and report over a scope, by default the pair's own, for this relation or its own."""
        status, report = self.run_unchecked(scope, relation)
        self.check(report)
        return status, report

    def run_by_stub(self, scope: str | None = None) -> tuple[Pair, int, Report]:
        """The comparison, and scf's status and report over a scope: of filters without runc's stub if that differs and
        they answer its first number nowhere as it does."""
        status, report = self.run(scope)
        stub = self.right.stub if self.profile else {}
        if stub and report.verdict is not None and not report.verdict.holds and \
                not any(self.of_numbers(name, first, first).holds for name, first in stub.items()):
            return replace(self, right=replace(self.right, stub={})).run_by_stub(scope)
        return self, status, report

    @functools.cached_property
    def named_calls(self) -> list[NamedCall] | None:
        """The syscalls in the tables of which the relation isn't proved; None if scf refuses to say."""
        try:
            return self.of_calls()
        except Refusal:
            return None

    @property
    def named(self) -> dict[str, Table]:
        """The tables of the architectures whose syscalls are compared by name, by OCI names in scf's order: of two
        profiles those that one of them is judged for, since the other one kills for their syscalls."""
        either = {name: table for side in self.judged for name, table in side.of.items()}
        return {name: either[name] for name in JUDGED if name in either}

    def words(self, judged: Tables) -> list[str]:
        """The options by which scf takes both sides with these tables."""
        return judged.words if isinstance(self.right, ProfileInput) else ["--beside"]

    def bundle(self, judged: Tables, is_by_call: bool = False) -> bytes:
        """Both sides and these tables."""
        return bundles.profile_bundle(self.right.data, judged, self.stacks[0]) if self.stacks else \
            bundles.bundle([("profile", self.left.data), (bundles.BESIDE_PROFILE, self.right.data), *judged.parts])

    @functools.cached_property
    def found(self) -> Lookup:
        """All that both sides may answer differently. Raises Refusal."""
        words = ["--differences", *self.words(self.tables)]
        return Lookup(regions.asked(words, self.bundle(self.tables)), self.beside)

    @property
    def differences(self) -> Lookup:
        """The same of sides that scf has taken: unfinished if it lacks memory for that."""
        try:
            return self.found
        except Refusal:
            return Lookup(None, self.beside)

    def asked(self, scope: Sequence[str], relation: str, name: str | None = None) -> tuple[int, Report]:
        """scf's exit status and report by the options of a scope, or of those of one architecture."""
        judged = self.tables if name is None else replace(self.tables, of={name: self.tables.of[name]})
        is_by_call = "--calls" in scope
        done = client.compare([*self.words(judged), *scope, *RELATIONS[relation]], self.bundle(judged, is_by_call))
        pointer = None if is_by_call and any(map(looks_at_pointer, itertools.chain(*self.stacks))) else 0
        return done.status, verdicts.report(done.text, pointer, JUDGED[name or NATIVE])

    def check(self, report: Report) -> None:
        """Raises InternalError if the filters answer a report's calls otherwise, by the differences or themselves."""
        for verdict in (report.verdict, *(call.verdict for call in report.calls)):
            # (a record without its instruction pointer can't be answered)
            if verdict is None or verdict.call is None or verdict.call.pointer is None:
                continue
            words, shown = verdict.call.words(), (verdict.filters, verdict.profile)
            region = self.differences.of(verdict.call)
            for answer, filters in zip(shown, self.stacks):
                if region is None or (region.answer, region.beside.answer) != shown:
                    again = verdicts.decision(client.run_scf(["decide", *words], bundles.stack_bundle(filters)).text)
                    if answer is None or again.answer != answer:
                        raise program.InternalError(f"the filters answer {again.answer or again.line} where {answer} "
                                                    f"would be shown, to {' '.join(words)}")

    # What follows is told by the differences; scf is asked where these don't tell.

    def known_verdict(self, scope: str, relation: str) -> Verdict | None:
        """The verdict over a scope, without an example if it is call by call; None if the differences don't tell."""
        if scope != CALLS:
            is_whole = scope == ALL or isinstance(self.left, ProfileInput)
            return self.differences.verdict(relation, EVERY_RECORD if is_whole else map(span_of, self.tables.of))
        calls = [self.differences.calls(name, table, relation) for name, table in self.named.items()]
        return None if None in calls else Verdict(FAILING_WORDS[relation] if any(calls) else relation)

    def verdict(self, scope: str, relation: str) -> Verdict | None:
        """The verdict over a scope."""
        return self.known_verdict(scope, relation) or self.run(scope, relation)[1].verdict

    def calls_of(self, name: str, relation: str | None = None) -> list[NamedCall]:
        """The syscalls in an architecture's table that aren't proved, by scf's lines. Raises Refusal."""
        table = self.named[name]
        if name not in self.tables.of or not table.numbers():
            # (scf compares by the right side's tables)
            lines = (f"{number} {','.join(table.names_of(number))} {UNFINISHED}" for number in sorted(table.numbers()))
            return [*verdicts.report("\n".join([UNFINISHED, *lines]), 0, JUDGED[name]).calls]
        return [*checked(*self.asked(SCOPES[CALLS], relation or self.relation, name), True).calls]

    def of_calls(self, relation: str | None = None) -> list[NamedCall]:
        """The syscalls in the tables of all architectures of which the relation isn't proved. Raises Refusal."""
        calls: list[NamedCall] = []
        for name, table in self.named.items():
            known = self.differences.calls(name, table, relation or self.relation)
            if known is None:
                known = self.calls_of(name, relation)
                self.check(Report((), calls=tuple(known)))
            calls += known
        return calls

    @functools.cached_property
    def left_out(self) -> list[Report]:
        """What scf leaves out of each profile: names that no table has, and architectures without one."""
        return [Report((), skipped=tuple(syscall for syscall in profiles.names_of(side.data)
                                         if judged.number_of(syscall) is None),
                       architectures=tuple(oci for oci in profiles.architectures_of(side.data) if oci not in judged.of))
                for side, judged in zip(self.sides, self.judged) if isinstance(side, ProfileInput)]

    @functools.cached_property
    def _lookup(self) -> Callable[[int], regions.Lookup]:
        """The regions of a profile, where the differences don't tell."""
        return functools.lru_cache(None)(lambda at: regions.Lookup(
            regions.regions_of_profile(self.sides[at].data, self.judged[at])))

    def reason_of(self, at: int, call: Call, region: Region | None = None) -> explanation.Reason:
        """A profile's answer to a syscall and its reason: by the differences, of which one may be known to have it, by
        its own regions, or else by `ask`."""
        region = region or self.differences.of(call)
        if region is not None and (at == 1 or not self.stacks):
            return explanation.region_reason((region.beside if at else region).line)
        region = self._lookup(at).of(call)
        return explanation.region_reason(region.line) if region is not None else \
            explanation.profile_reason(self.sides[at].data, self.judged[at], call.words())

    def asked_accesses(self, scope: str, relation: str | None = None) -> list[AbiAccess]:
        """The access of those other ABIs that a relation over a scope asks about, with the verdict on it: whether a
        filter is stricter on them isn't asked, and nor are they where x86-64 alone is judged, or each record."""
        relation = relation or self.relation
        return [] if self.is_native or scope == ALL or relation == NO_LESS else [
            replace(access, verdict=access.verdict.of_relation(relation)) for access in self.accesses]

    def of_numbers(self, name: str, first: int, last: int) -> Verdict:
        """The verdict on the syscalls of an architecture with numbers of records from one to another, both included."""
        words, spans = [f"--nr-from={first}", f"--nr-to={last}"], [span_of(name, first, last)]
        return self.differences.verdict(self.relation, spans) or self.asked(words, self.relation, name)[1].verdict or \
            Verdict(UNFINISHED)


class Comparison(Pair):
    """Filters, oldest first, and a profile."""

    @property
    def profile(self) -> bytes:  # type: ignore
        return self.right.data

    def run_unchecked(self, scope: str | None = None, relation: str | None = None) -> tuple[int, Report]:
        """Over all records the verdict is `undetermined` if the syscall that decides is of an architecture that the
        profile names, and scf has no table of it."""
        scope, relation = scope or self.scope, relation or self.relation
        # (other ABIs are told by the differences alone, which also tell whether all holds)
        known = self.known_verdict(scope, relation) if scope != ALL and self.abis and "splits" not in client.limits \
            else None
        status, report = (known.status, Report.of(known)) if known is not None and known.holds else \
            super().run_unchecked(scope, relation)
        if report.verdict is None:
            return status, report
        beside = self.left_out[-1]
        if scope == ALL:
            report = self._of_all(report, relation, beside.architectures)
        elif scope == CALLS or not report.verdict.fails:
            # (where one fails other ABIs decide nothing any more, and may take long)
            others = self.asked_accesses(scope, relation)
            worst = min((report.verdict, *(access.verdict for access in others)), key=lambda verdict: verdict.order)
            if scope == CALLS:
                # with a line for each ABI that isn't denied
                report = Report.by_call(worst, [*report.calls, *(NamedCall.of(
                    access.verdict, access.abi, access.names) for access in others if access.verdict.call is not None)])
            elif worst is not report.verdict:
                report = Report.of(worst)
        return report.verdict.status, replace(report, skipped=beside.skipped, architectures=beside.architectures)

    def _of_all(self, report: Report, relation: str, without_table: Sequence[str]) -> Report:
        """The report over all records, given scf's: of several architectures it goes over their records alone, and the
        profile denies all others. The records of those without a table don't decide."""
        names = [] if self.tables.is_native else [*self.tables.of]
        if names and report.verdict.holds:
            report = Report.of(self.differences.verdict(relation, beyond(names)) or self.differences.unknown)
        if report.verdict.call is None or report.verdict.call.abi not in without_table:
            return report
        others = self.differences.verdict(relation, beyond([*names, *without_table]))
        if others is not None and others.fails:
            return Report.of(others)
        return replace(report, lines=(FOR_OTHER_ABI, *report.lines[1:3]),
                       verdict=replace(report.verdict, word=UNDETERMINED, profile=None))

    def known_verdict(self, scope: str, relation: str) -> Verdict | None:
        known = super().known_verdict(scope, relation)
        abi = known and known.call and known.call.abi
        if known is None or scope == ALL and abi in self.left_out[-1].architectures:
            return None
        others = [] if known.fails else self.asked_accesses(scope, relation)
        return min((known, *(access.verdict for access in others)), key=lambda verdict: verdict.order)

    @functools.cached_property
    def abis(self) -> list[Architecture]:
        """The other ABIs of a machine whose own ABI the profile is for, which neither the profile nor another one
        names: a runtime kills for their syscalls."""
        judged = self.tables.of
        named = {*judged, *self.elsewhere, *profiles.not_compared_of(self.profile)}
        return [abi for machine in judged for abi in questions.OF_MACHINES.get(machine, ()) if abi.oci not in named]

    @functools.cached_property
    def accesses(self) -> list[AbiAccess]:
        """The access of each, by all numbers but -1, which skips one, and which libseccomp leaves to the default."""
        filters = self.stacks[0]
        try:
            listed = self.differences.regions if self.abis else []
            listed = regions.regions_of_filters(filters) if listed is None else listed
            return [questions.abi_access(filters, listed, abi, SKIPPED - 1) for abi in self.abis]
        except Refusal:
            return [AbiAccess(abi, Verdict(UNFINISHED)) for abi in self.abis]


class StackComparison(Pair):
    """Two stacks of filters, each oldest first."""

    kinds, beside, scope = ("filter", bundles.BESIDE), bundles.BESIDE, ALL

    def bundle(self, judged: Tables, is_by_call: bool = False) -> bytes:
        # (two stacks have no table but with --calls)
        parts = [(kind, data) for kind, side in zip(self.kinds, self.stacks) for data in side]
        return bundles.bundle([*parts, ("table", self.table.data)] if is_by_call else parts)

    def run_unchecked(self, scope: str | None = None, relation: str | None = None) -> tuple[int, Report]:
        """Two stacks of the same bytes need no step: if scf takes them, each relation holds."""
        scope, relation = scope or ALL, relation or self.relation
        left, right = self.stacks
        if left != right:
            return super().run_unchecked(scope, relation)
        limits = [f"--{name}={text}" for name, text in {"limit": "0", **client.limits}.items()]
        words = ["compare", "--beside", *SCOPES[scope], *RELATIONS[relation], *limits]
        done = client.run_scf(words, self.bundle(self.tables, scope == CALLS))
        report = verdicts.report(done.text)
        return (done.status, report) if report.verdict is None else (program.SUCCESS, Report.of(Verdict(relation)))


class ProfileComparison(Pair):
    """Two profiles, of which scf has the left one as its filter where they aren't judged alike. All records are
    compared: both kill for what neither names."""

    kinds, beside = ("profile", bundles.BESIDE), bundles.BESIDE

    @property
    def scope(self) -> str:
        return NATIVE_SCOPE if self.is_native else LISTED

    @functools.cached_property
    def stacks(self) -> list[list[bytes]]:
        """The left profile's filter, unless scf takes both with the same tables, stubs and reading. Raises Refusal."""
        left, right = self.judged
        is_alike = (left.words, left.parts) == (right.words, right.parts)
        return [] if is_alike else [[client.compile_profile(self.left.data, left)]]

    @property
    def alone(self) -> list[list[str]]:
        """The OCI names of the architectures that only one side is judged for."""
        return [[oci for oci in side.of if oci not in other.of] for side, other in (self.judged, self.judged[::-1])]

    def run(self, scope: str | None = None, relation: str | None = None) -> tuple[int, Report]:
        """The exit status and the report, for this relation or its own. A fault of the right side is `beside`'s."""
        stacks: list[list[bytes]] = []
        try:
            stacks, relation = self.stacks, relation or self.relation
            verdict = self.found.verdict(relation, EVERY_RECORD)
            if verdict is None or "splits" in client.limits:
                verdict = checked(*self.asked([], relation)).verdict
                verdict = self.differences.unknown if verdict.holds and self.alone[0] else verdict
            report = Report.of(verdict, self.beside)
            if scope == CALLS:
                calls = self.of_calls(relation)
                report = Report.by_call(min((call.verdict for call in calls), key=lambda verdict: verdict.order,
                                            default=Verdict(relation)), calls)
        except Refusal as why:
            line = why.line.replace("profile", self.beside, 1) if stacks else why.line
            if why.fault is None:
                raise program.ToolError(f"scf ended with status {why.status} on {self.title(0)}") from why
            return why.status, Report((line,), fault=Fault.read(line))
        left, right = self.left_out
        return report.verdict.status, replace(report, skipped=(*dict.fromkeys(left.skipped + right.skipped),),
                                              architectures=(*dict.fromkeys(left.architectures + right.architectures),))


def pair_of(judged: Any, by: Any, table: Table, relation: str, is_native: bool = False, is_diff: bool = False,
            elsewhere: Sequence[str] = ()) -> Pair:
    """The comparison of a side with the one by which it is judged."""
    are_profiles = isinstance(judged, ProfileInput), isinstance(by, ProfileInput)
    # (filters are at the left of a profile; and what changes between two profiles is told by the old one's regions)
    is_turned = all(are_profiles) and is_diff or are_profiles == (True, False)
    kind = ProfileComparison if all(are_profiles) else Comparison if any(are_profiles) else StackComparison
    sides, its_relation = ((by, judged), TURNED.get(relation, relation)) if is_turned else ((judged, by), relation)
    return kind(*sides, table, its_relation, is_native, is_turned, is_diff, elsewhere)
