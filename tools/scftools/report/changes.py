"""Changes: an old and a new profile syscall by syscall, by all that scf says they answer differently; also as JSON."""
from __future__ import annotations

from collections.abc import Iterable, Iterator, Sequence

from ..base import output
from ..base.values import Any, dataclass
from ..model import constants, tables
from ..model.answers import DISPOSITIONS, FIRST_X32, Answer
from ..model.architectures import JUDGED, NATIVE, Architecture
from ..model.calls import Call
from ..ask import explanation, questions
from ..ask.explanation import MORE_SPLITS, Reason, join_names
from ..ask.regions import Region
from ..ask.verdicts import (FAILING_WORDS, LESS, MORE, OTHERWISE, SAME, SAME_DISPOSITION, UNDECIDED, UNFINISHED, Report,
                            Verdict, relation_json)
from ..forms.profile_inputs import ProfileInput
from .compare import ProfileComparison

AGES = OLD, NEW = "old", "new"
# The kinds of change, or that scf can't decide, each with the heading that is printed before its count.
KIND_HEADINGS = {MORE: "syscalls for which the new profile is more permissive",
                 LESS: "syscalls for which the new profile is stricter",
                 OTHERWISE: "syscalls that get another answer, neither more permissive nor stricter",
                 UNDECIDED: "syscalls that are undecided",
                 UNFINISHED: "syscalls that are undecided within the limit"}
CHANGE_KINDS = (*KIND_HEADINGS,)


@dataclass(frozen=True)
class Change:
    """A syscall number that differs, the kind of change, or scf's word if it can't decide, and an example, if there is
    one, with each profile's answer and its reason."""

    number: int
    names: tuple[str, ...]
    kind: str
    call: Call | None
    reasons: dict[str, Reason]
    architecture: Architecture


@dataclass(frozen=True)
class Changes:
    """The differences between an old and a new profile."""

    pair: ProfileComparison
    # of the new profile to the old one
    relation: str
    # the verdict over all syscalls
    whole: Verdict
    calls: Sequence[Change] = ()
    # the least number without a name, if the defaults differ, which answer all such numbers
    unnamed: Change | None = None

    @property
    def all(self) -> list[Change]:
        return [*self.calls, *filter(None, [self.unnamed])]

    @property
    def verdict(self) -> Verdict:
        """The verdict, which some syscall may fail by an example of the tools' own."""
        word = FAILING_WORDS[self.relation]
        failing = {SAME: CHANGE_KINDS, SAME_DISPOSITION: (MORE, LESS)}.get(self.relation, (word,))
        fails = any(change.call is not None and change.kind in failing for change in self.all)
        return Verdict(word) if fails or self.whole.fails else self.whole

    @property
    def counts(self) -> dict[str, int]:
        kinds = [change.kind for change in self.calls]
        return {kind: kinds.count(kind) for kind in CHANGE_KINDS}


def _by_age(of_sides: Iterable[Any]) -> dict[str, Any]:
    """What belongs to each profile, scf's left one first."""
    return dict(zip(AGES, of_sides))


def _kind(old: Answer, new: Answer) -> str:
    """The kind of change from one answer to another."""
    before, after = (DISPOSITIONS.index(answer.disposition) for answer in (old, new))
    return MORE if before < after else LESS if before > after else OTHERWISE


def _reasons(pair: ProfileComparison, call: Call | None, region: Region | None = None) -> dict[str, Reason]:
    """Each profile's answer to a syscall, if there is one, which may be of a known difference; and its reason."""
    return _by_age(pair.reason_of(at, call, region) for at in (0, 1)) if call is not None else {}


def _of_regions(pair: ProfileComparison, architecture: Architecture, table: tables.Table) -> list[Change] | None:
    """The syscalls of an architecture that differ; None if the differences don't tell."""
    changes, numbers = [], pair.differences.of_architecture(architecture)
    for number in sorted(table.numbers()):
        kinds: dict[str, Region] = {}
        for region in numbers.of(architecture.first + number):
            if not region.is_decided:
                return None
            kinds.setdefault(_kind(region.answer, region.beside.answer), region)
        if len(kinds) > 1:
            kinds.pop(OTHERWISE, None)
        for kind, region in kinds.items():
            call = region.call_of(architecture.first + number, architecture.number)
            changes.append(Change(number, tuple(table.names_of(number)), kind, call, _reasons(pair, call, region),
                                  architecture))
    return changes if pair.differences.is_finished else None


def _of_calls(pair: ProfileComparison) -> list[Change]:
    """The syscalls that differ: first more permissive, then stricter, then others. Where the differences don't tell,
    a number for which scf has an example may have others."""
    changes = []
    for name, table in pair.named.items():
        known = _of_regions(pair, JUDGED[name], table)
        changes += [Change(line.number, line.names, UNDECIDED if line.verdict.fails else line.verdict.word,
                           line.verdict.call, _reasons(pair, line.verdict.call), JUDGED[name])
                    for line in pair.calls_of(name, SAME)] if known is None else known
    return sorted(changes, key=lambda change: CHANGE_KINDS.index(change.kind))


def _of_unnamed(pair: ProfileComparison) -> Change | None:
    """Whether the defaults differ, which answer all numbers that a table doesn't name: by the least of them."""
    left, right = (judged.of for judged in pair.judged)
    for architecture in (JUDGED[name] for name in left if name in right):
        stubs = (side.stub[architecture.oci] for side in pair.sides if architecture.oci in side.stub)
        number = next((first for first, _ in questions.gaps(left[architecture.oci], architecture)), FIRST_X32)
        call = Call(architecture.first + number, architecture.number)
        if call.number >= min(stubs, default=architecture.first + FIRST_X32) or \
                pair.differences.is_finished and not pair.differences.of_number(call):
            continue
        asked = _reasons(pair, call)
        old, new = (reason.answer for reason in asked.values())
        if old != new:
            return Change(number, (), _kind(old, new) if old and new else OTHERWISE, call, asked, architecture)
    return None


def changes_of(pair: ProfileComparison, report: Report) -> Changes:
    """The differences between two profiles, by scf's report on the relation of the new one to the old one."""
    relation, are_same = pair.word(pair.relation), pair.run(relation=SAME)[1].verdict.holds
    found = () if are_same else (_of_calls(pair), _of_unnamed(pair))
    return Changes(pair, relation, report.verdict.of_relation(relation), *found)


def line_of(change: Change, sides: Sequence[ProfileInput]) -> str:
    """A change's line: number, names, kind, example, and each profile's answer and what gives it, entries by index."""
    shown = (str(change.number), ",".join(change.names), change.kind)
    words = [change.architecture.marked(" ".join(filter(None, shown)))]
    if change.call is not None:
        words += ["args", *map(hex, change.call.arguments)]
    for (name, reason), side in zip(change.reasons.items(), sides):
        entry = [] if reason.entry is None else [str(explanation.index_of(reason, side.origins))]
        words += [name, str(reason.answer), reason.by, *entry]
    return " ".join(words)


def _entries(changes: Changes) -> Iterator[str]:
    """The entries that give answers, each once, the stubs, and the defaults."""
    for name, side in zip(AGES, changes.pair.sides):
        given = (change.reasons[name] for change in changes.all if change.reasons)
        # (a stub stands behind all entries)
        of_side = {({"entry": 0, "stub": 1}.get(reason.by, 2), reason.entry or 0): reason
                   for reason in given if not reason.is_foreign}
        for (place, _), reason in sorted(of_side.items(), key=lambda item: item[0]):
            by = next(explanation.describe_reason(reason, side.data, None, side.origins), "").partition(" ")[2]
            yield f"{name}: " + (by if place < 2 else f"default: {reason.answer.describe() if reason.answer else ''}")


def _apart(subject: str, old: Sequence[str], new: Sequence[str]) -> Iterator[str]:
    """Counts of what scf leaves out of each profile, names or architectures, and what it leaves out of one alone."""
    if old or new:
        yield f"{subject}: {len(set(old))} in the old profile, {len(set(new))} in the new one"
    for age, names, others in ((OLD, old, set(new)), (NEW, new, set(old))):
        alone = [name for name in dict.fromkeys(names) if name not in others]
        if alone:
            yield f"only in the {age} one: {output.some(alone, tables.MOST_LISTED)}"


def change_lines(changes: Changes) -> Iterator[str]:
    """The verdict, the counts, and the changes; added lines are marked by `# `."""
    sides, (old, new) = changes.pair.sides, changes.pair.left_out
    yield changes.verdict.word
    yield ", ".join(f"{kind} {count}" for kind, count in changes.counts.items()
                    if count or kind not in (UNDECIDED, UNFINISHED))
    for kind in CHANGE_KINDS:
        if changes.counts[kind]:
            yield f"# {KIND_HEADINGS[kind]}: {changes.counts[kind]}"
        for change in (change for change in changes.calls if change.kind == kind):
            yield line_of(change, sides)
            # the conditions that the example meets, and the example as C would have it
            notes = [f"{name}: {line}" for (name, reason), side in zip(change.reasons.items(), sides)
                     for line in explanation.conditions_met(reason, side.data, change.call)]
            if change.names and change.call is not None and any(change.call.arguments):
                notes.append(f"the syscall is {constants.call_text(change.names[0], change.call.arguments)}")
            yield from output.notes(notes)
    if changes.unnamed is not None:
        yield "# numbers that the table doesn't name get the defaults, for example:"
        yield line_of(changes.unnamed, sides)
    yield from output.notes(_entries(changes))
    yield from output.notes(_apart("names that were skipped because no table has them", old.skipped, new.skipped))
    for age, other, names in zip(AGES, (NEW, OLD), changes.pair.alone):
        if names:
            yield (f"# only the {age} profile names {join_names(names)}: the {other} one kills a process that makes "
                   f"such a syscall")
    yield from output.notes(_apart("other architectures, not compared", old.architectures, new.architectures))
    if UNDECIDED in (changes.whole.word, *(change.kind for change in changes.all)):
        yield f"# {MORE_SPLITS}"


def _change_json(pair: ProfileComparison, change: Change) -> dict[str, object]:
    members: dict[str, object] = {"number": change.number, "names": list(change.names), "change": change.kind}
    if change.architecture.oci != NATIVE:
        members["architecture"] = change.architecture.name
    if change.call is not None:
        members["call"] = change.call.as_json(pair.table)
    for (name, reason), side in zip(change.reasons.items(), pair.sides):
        answer = {"answer": reason.answer.as_json(explains=True)} if reason.answer else {}
        members[name] = {**answer, **explanation.reason_json(reason, side.data, change.call, side.origins)}
    return members


def changes_json(changes: Changes) -> dict[str, object]:
    """The object with everything that `change_lines` prints."""
    pair, unnamed = changes.pair, changes.unnamed
    return {**relation_json(changes.relation), "verdict": changes.verdict.word, "counts": changes.counts,
            "changes": [_change_json(pair, change) for change in changes.calls],
            "unnamed": None if unnamed is None else _change_json(pair, unnamed),
            "skipped": _by_age(list(report.skipped) for report in pair.left_out), "alone": _by_age(pair.alone),
            "other_architectures": _by_age(list(report.architectures) for report in pair.left_out)}
