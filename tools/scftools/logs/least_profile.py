"""The least profile of a program: what its log needs, and no more than a base profile allows unless that is asked for.

Only what scf proves to allow no more than the base is printed, but for what is asked to be allowed beyond it.
"""
from __future__ import annotations

import json
from collections.abc import Iterable, Iterator

from ..base import output, program
from ..base.values import dataclass, field
from ..model import profiles
from ..model.answers import ALLOW, ALLOWED, DEPENDS, ENOSYS, MAX_ERRNO, Answer
from ..model.architectures import Architecture
from ..model.entries import EQUAL, Condition, default_of
from ..model.tables import MOST_LISTED, Tables
from ..ask import client, verdicts
from ..ask.verdicts import NO_MORE, RELATIONS
from ..forms.engines import PASSED_ON
from ..lint.watchlist import FALLBACKS
from ..report.covers import Alternative
from ..report.profile_of import entry_of
from .events import ways_of
from .requirements import NOT_ALLOWED, Judges, NeededCall, Needs, log_remarks
from .traces import Seen

# Each least profile allows these if the base does: processes continue or end by them, which a log needn't show.
ALWAYS_CALLED = ("restart_syscall", "rt_sigreturn", "exit", "exit_group", "sigreturn")
# The most entries with conditions for one name.
CONDITIONS = 64
OLDER = {newer: older for newer, older, _ in FALLBACKS}


@dataclass
class Draft:
    """The entries of a profile, by their answers and names."""

    default: Answer
    of: dict[Answer, dict[str, dict[Alternative, None]]] = field(default_factory=lambda: {ALLOW: {}})

    @property
    def allowed(self) -> dict[str, dict[Alternative, None]]:
        return self.of[ALLOW]

    def add(self, name: str, alternatives: Iterable[Alternative], answer: Answer = ALLOW) -> None:
        self.of.setdefault(answer, {}).setdefault(name, {}).update(dict.fromkeys(alternatives))

    def entries(self) -> Iterator[dict[str, object]]:
        """The entries: of each answer first the names without conditions."""
        for answer, of_names in self.of.items():
            least = {name: [each for each in alternatives if not any(set(other) < set(each) for other in alternatives)]
                     for name, alternatives in of_names.items() if answer.allows or name not in self.allowed}
            plain = [name for name, alternatives in least.items() if () in alternatives]
            if plain:
                yield entry_of(plain, answer, ())
            yield from (entry_of([name], answer, alternative) for name, alternatives in least.items()
                        for alternative in alternatives if alternative)


class Making:
    """The making of a least profile of what a log needs; with `widens` also of what the base denies."""

    def __init__(self, needs: Needs, widens: bool):
        self.needs, self.judges, self.widens = needs, needs.judges, widens
        self.top = self.judges.of(self.judges.own.oci).top
        default = default_of(self.top)
        self.draft = Draft(Answer("ERRNO", 1) if default.allows else default)
        # the names that are allowed under the base's conditions, and what is allowed beyond the base
        self.as_base: set[str] = set()
        self.beyond: dict[str, dict[Alternative, None]] = {}
        # lines on what the log needs and the base denies, what fails in the log as the base answers, and other lines
        self.denied: list[str] = []
        self.failing: dict[str, None] = {}
        self.remarks: list[str] = []
        self.status = program.UNKNOWN if needs.isnt_whole else program.SUCCESS
        self.architectures = list(dict.fromkeys(
            needed.architecture for needed in needs.judged if not needed.is_foreign)) or [self.judges.own]

    def _of_any(self, architecture: Architecture, name: str) -> NeededCall | None:
        """What the base answers to a syscall, whatever its arguments are; None if the architecture doesn't have it."""
        number = self.judges.tables[architecture.oci].number_of(name)
        if number is None:
            return None
        arguments = tuple((index, None) for index in self.judges.looked_at(architecture.oci, name))
        return self.judges.of(architecture.oci).of(NeededCall(architecture, number, name, arguments, Seen()))

    def _as_base(self, architecture: Architecture, name: str) -> list[Alternative]:
        """The conditions under which the base allows a syscall; none if it doesn't."""
        any_call = self._of_any(architecture, name)
        if any_call is None or any_call.disposition not in (ALLOWED, DEPENDS):
            return []
        return self.judges.of(architecture.oci).alternatives(any_call)

    def _older(self, architecture: Architecture, newer: str) -> str | None:
        """The older syscall that libc calls where the base answers ENOSYS to this one, if the base allows that."""
        older, any_call = OLDER.get(newer), self._of_any(architecture, newer)
        is_enosys = any_call is not None and any_call.disposition == NOT_ALLOWED and any_call.answers == {ENOSYS}
        return older if older and is_enosys and self._as_base(architecture, older) else None

    def _widen(self, needed: NeededCall, denies: str, by: str) -> None:
        """Allows what is needed, by what, and the base denies, or may deny."""
        self.denied.append(f"allowed, though PROFILE {denies} it: {needed.describe()} ({by})")
        self.draft.add(needed.name, ())
        self.beyond.setdefault(needed.name, {}).update(dict.fromkeys(_each_way(needed)))

    def _deny(self, needed: NeededCall, has_name: bool, by: str) -> None:
        """Notes what is needed, by what, and the base denies, or allows it on request."""
        if self.widens and has_name and not needed.is_foreign:
            self._widen(needed, "denies", by)
        else:
            self.denied.append(f"needed, and PROFILE denies it: {needed.describe()} ({by})")
            self.status = program.NEGATIVE

    def _take_denied(self, needed: NeededCall, has_name: bool) -> None:
        answers = {min(answer.data, MAX_ERRNO) if answer.action == "ERRNO" else 0 for answer in needed.answers}
        is_answered = needed.seen.errnos == answers and 0 not in answers
        if has_name and self._older(needed.architecture, needed.name):
            return
        if not is_answered or self.widens and self.needs.log.has_load:
            self._deny(needed, has_name, self.needs.where(needed))
            return
        self.failing[needed.architecture.marked(needed.name)] = None
        answer = next(iter(needed.answers))
        if has_name and answer != self.draft.default:
            self.draft.add(needed.name, _each_way(needed), answer)

    def _take(self, needed: NeededCall) -> None:
        has_name = self.judges.tables[needed.architecture.oci].number_of(needed.name) is not None
        if needed.disposition == NOT_ALLOWED:
            self._take_denied(needed, has_name)
            return
        if needed.disposition == DEPENDS and self.widens and has_name and not needed.unknown:
            self._widen(needed, "may deny", self.needs.where(needed))
            return
        if not has_name:
            self.remarks.append(f"{needed.architecture.marked(needed.name)} has no name, and isn't in the profile")
        elif needed.disposition in (ALLOWED, DEPENDS):
            self.draft.add(needed.name, map(_conditions, needed.passing))
        if needed.disposition == DEPENDS and needed.unknown:
            self.as_base.add(needed.name)
        if needed.disposition != ALLOWED:
            self.remarks.append(f"{needed.describe()}: no more is allowed than by PROFILE")
        if needed.disposition != ALLOWED or not has_name:
            self.status = self.status or program.UNKNOWN

    def _keep_fallbacks(self, architecture: Architecture) -> None:
        """Keeps the base's ENOSYS for newer syscalls by which libc calls older ones, and its conditions on these."""
        called = {needed.name for needed in self.needs.judged if needed.architecture == architecture}
        for newer in OLDER:
            older = self._older(architecture, newer)
            if older and newer in called:
                self.as_base.add(older)
                self.draft.add(older, ())
            if older in self.draft.allowed and self.draft.default != ENOSYS:
                self.draft.add(newer, [()], ENOSYS)

    def _keep_always(self, architecture: Architecture) -> None:
        """Allows what a process calls that a log needn't show."""
        for name in ALWAYS_CALLED:
            any_call = self._of_any(architecture, name)
            if any_call is None or name in self.draft.allowed:
                continue
            if any_call.disposition == NOT_ALLOWED and self.widens:
                self._deny(any_call, True, "a process calls it to continue or to end")
            elif any_call.disposition != NOT_ALLOWED:
                self.as_base.add(name)
                self.draft.add(name, ())

    def profile(self) -> dict[str, object]:
        """The profile, which isn't proved yet."""
        for needed in self.needs.judged:
            self._take(needed)
        for architecture in self.architectures:
            self._keep_fallbacks(architecture)
            self._keep_always(architecture)
        for name, alternatives in self.draft.allowed.items():
            # (where values aren't known, or are too many, the base's conditions)
            if name in self.as_base or len(alternatives) > CONDITIONS:
                self.draft.allowed[name] = dict.fromkeys(
                    each for architecture in self.architectures for each in self._as_base(architecture, name))
        for name, alternatives in self.beyond.items():
            self.draft.add(name, alternatives if len(alternatives) <= CONDITIONS else [()])
        made: dict[str, object] = {"defaultAction": "SCMP_ACT_ERRNO"} if default_of(self.top).allows else {
            name: self.top[name] for name in ("defaultAction", "defaultErrnoRet") if name in self.top}
        if self.top.get("architectures"):
            seen = {architecture.oci for architecture in self.architectures}
            made["architectures"] = [name for name in self.top["architectures"] if name in seen] or sorted(seen)
        made.update((name, self.top[name]) for name in PASSED_ON if name in self.top)
        return {**made, "syscalls": list(self.draft.entries())}


def _conditions(values: dict[int, int]) -> Alternative:
    return tuple(Condition(index, EQUAL, value, 0) for index, value in values.items())


def _each_way(needed: NeededCall) -> Iterator[Alternative]:
    return map(_conditions, ways_of(needed.arguments))


def check(made: bytes, judges: Judges, listed: Iterable[Architecture]) -> None:
    """Ends the tool if scf doesn't prove that a profile allows no more than the base."""
    tables = Tables({each.oci: judges.tables[each.oci] for each in listed}, judges.listed.reading)
    made_filter = client.compile_profile(made, tables)
    verdict = verdicts.compared([made_filter], judges.profile, judges.listed, RELATIONS[NO_MORE]).verdict
    if verdict.word != NO_MORE:
        status = program.NEGATIVE if verdict.fails else program.UNKNOWN
        raise program.ToolError("the profile isn't printed, since it isn't proved to allow no more than PROFILE: "
                                f"{verdict.word}", status)


def make(needs: Needs, widens: bool) -> tuple[int, str, list[str]]:
    """The status, the least profile as JSON, and lines on it. Raises Refusal."""
    making, judges = Making(needs, widens), needs.judges
    text = json.dumps(making.profile(), indent=4) + "\n"
    if not (widens and making.denied):
        check(profiles.read_as(text.encode(), judges.listed.reading), judges, making.architectures)
    remarks = [*log_remarks(needs), *making.denied, *making.remarks]
    if making.failing:
        failing, more = output.some(list(making.failing), MOST_LISTED), "; --widen allows them" * needs.log.has_load
        remarks.append(f"left out, since PROFILE answers as they fail in the log: {failing}{more}")
    return making.status, text, remarks
