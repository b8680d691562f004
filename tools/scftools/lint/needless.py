"""Findings on entries without effect, without which a profile answers every syscall as before, by a verdict of `scf
compare`; and on entries that give one syscall two answers, with an example.

What an entry alone answers is found by sets of arguments. Entries and names that answer nothing alone are left out, the
last first, and scf compares the profile with itself without all of them. So all reported entries can be removed
together, and each by itself. As a runtime reads them, an entry without conditions has all calls of a syscall, even if
others answer it otherwise, and the greatest number that a profile names says where runc's stub begins.
"""
from __future__ import annotations

from collections.abc import Iterator, Sequence

from ..base.values import by_key, replace
from ..model.answers import Answer
from ..model.architectures import JUDGED
from ..model.argument_sets import FULL_SET, Sets, Steps, TooMany
from ..model.calls import Call
from ..model.entries import Entry, Object
from ..model.profiles import BY_WORDS
from ..model.tables import Tables
from ..ask import verdicts
from ..ask.verdicts import SAME, Verdict
from ..forms import runtimes
from .findings import MOST, Finding, Owners, listed

# The most pairs of entries to check.
PAIRS = 10000
# Why an entry, or some of its names, has no effect: another entry covers it, the default answers the same, no syscall
# meets it, several other entries cover it together, or a runtime takes another one's answer instead.
ONE, BY_DEFAULT, BY_NONE, TOGETHER, INSTEAD = "one", "default", "none", "together", "instead"
WHYS = {ONE: "{what} {is_} covered by entry {others}", BY_DEFAULT: "the default answers {what} in the same way",
        BY_NONE: "no syscall meets its conditions", TOGETHER: "{what} {is_} covered by entries {others} together",
        INSTEAD: "entry {others}, which has no conditions, answers {syscalls} instead"}


# A name of an entry, by the entry's index; and a syscall: the OCI name of an architecture, and a number of its table.
EntryName = tuple[int, str]
ArchitectureNumber = tuple[str, int]


class Met:
    """The sets of arguments that meet the conditions of entries, on each architecture. Raises TooMany."""

    def __init__(self) -> None:
        steps = Steps()
        self._sets = {architecture.bits: Sets(architecture.bits, steps) for architecture in JUDGED.values()}
        self._found: dict[tuple[int, int], int] = {}

    def of(self, name: str) -> Sets:
        """The sets of an architecture, by its OCI name."""
        return self._sets[JUDGED[name].bits]

    def by(self, entry: Entry, name: str) -> int:
        """What meets an entry."""
        key = entry.place, self.of(name).bits
        if key not in self._found:
            sets = self.of(name)
            self._found[key] = sets.union(map(sets.of_conditions, entry.alternatives))
        return self._found[key]

    def are_all(self, others: Sequence[Entry], name: str, arguments: int = FULL_SET) -> bool:
        """Whether some arguments, or all, each meet one of some entries. Takes away what meets an entry that the least
        of them meet, until none are left or these meet no entry."""
        sets = self.of(name)
        while arguments:
            sets.spend(len(others))
            least = sets.least(arguments)
            other = next((entry for entry in others if entry.is_met(least)), None)
            if other is None:
                return False
            arguments = sets.without(arguments, self.by(other, name))
        return True

    def is_within(self, entry: Entry, others: Sequence[Entry], name: str) -> bool:
        """Whether all that meets an entry meets one of others."""
        return self.are_all(others, name, self.by(entry, name))


def _takes_all(entry: Entry) -> bool:
    """Whether an entry has no condition that compares anything, by which a runtime gives it all calls of a syscall."""
    return all(condition.op == "SCMP_CMP_MASKED_EQ" and not condition.value for condition in entry.conditions)


class Search:
    """The entries of a profile, its filter for all architectures that are judged, and names that can be left out."""

    def __init__(self, judged: Tables, top: Object, data: bytes, default: Answer, entries: Sequence[Entry]):
        self.judged, self.top, self.filter, self.default, self.met = judged, top, data, default, Met()
        self.entries = {entry.place: entry for entry in entries}
        self.gone: set[EntryName] = set()
        self._having: dict[ArchitectureNumber, list[tuple[EntryName, Entry]]] = by_key(
            (call, ((entry.place, name), entry)) for entry in entries for name in entry.names
            for call in judged.numbers_of(name).items())

    def _beside(self, entry: Entry, call: ArchitectureNumber) -> list[Entry]:
        """Other entries of a syscall, without what is gone; one that answers otherwise, to a runtime, has all calls."""
        others = (other for named, other in self._having[call] if named not in self.gone and other.place != entry.place)
        return [other for other in others if other.answer == entry.answer
                or other.answer != self.default and _takes_all(other)
                and not (_takes_all(entry) and entry.place < other.place)]

    def _has_effect(self, entry: Entry, name: str) -> bool:
        """Whether an entry alone answers some arguments of a syscall by a name, and differently than the default, or
        alone names the greatest number of an architecture, behind which runc's stub begins."""
        calls = self.judged.numbers_of(name).items()
        if any(self.judged.stub.get(oci) == JUDGED[oci].first + number + 1
               and all(at in self.gone or at[0] == entry.place for at, _ in self._having[oci, number])
               for oci, number in calls):
            return True
        besides = ((call[0], self._beside(entry, call)) for call in calls if entry.answer != self.default)
        try:
            return any(not beside and not entry.conditions or not self.met.is_within(entry, beside, oci)
                       for oci, beside in besides)
        except TooMany:
            return True

    def _verdict(self) -> Verdict:
        """What scf says of the profile without what is left out."""
        remaining = (replace(entry, names=tuple(name for name in entry.names if (entry.place, name) not in self.gone))
                     for entry in self.entries.values())
        syscalls = [entry.as_json() for entry in remaining if entry.names]
        given = runtimes.as_read({**self.top, "syscalls": syscalls}, self.judged.reading)
        return verdicts.compared([self.filter], given.data, replace(self.judged, stub=given.stub)).verdict

    def _why(self, entry: Entry, names: Sequence[str]) -> tuple[str, tuple[int, ...]]:
        """Why names of an entry have no effect, and the entries by which."""
        if entry.answer == self.default:
            return BY_DEFAULT, ()
        calls = [call for name in names for call in self.judged.numbers_of(name).items()]
        having = [{other.place for other in self._beside(entry, call)} for call in calls]
        try:
            if all(self.met.is_within(entry, [], oci) for oci, _ in calls):
                return BY_NONE, ()
            for place in sorted(set.intersection(*having)):
                other = self.entries[place]
                if all(self.met.is_within(entry, [other], oci) for oci, _ in calls):
                    return ONE if other.answer == entry.answer else INSTEAD, (place,)
        except TooMany:
            pass
        return TOGETHER, tuple(sorted(set.union(*having)))

    def _finding(self, entry: Entry, names: Sequence[str]) -> Finding:
        why, others = self._why(entry, names)
        is_whole = len(names) == len(entry.names) and not entry.has_others
        shown, are_several = listed(names), not is_whole and len(names) > 1
        text = WHYS[why].format(
            what="it" if is_whole else f"its name{'s' * are_several} {shown}", is_="are" if are_several else "is",
            syscalls="its syscalls" if is_whole else shown, others=listed(others))
        by = {"by": others[0]} if why == ONE else {"why": why, "others": list(others)}
        return Finding.at([entry.place], "covered" if why == ONE else "without-effect", text, names=list(names),
                          is_whole=is_whole, **by)

    def run(self) -> Iterator[Finding]:
        """What is without effect, all together, by entry: whole entries are left out first, then names of others, from
        the last on. If that is undecided, also with all entries as they are read here, it is said once."""
        of_others: list[tuple[Entry, list[str]]] = []
        for entry in reversed(self.entries.values()):
            needless = [name for name in entry.names if not self._has_effect(entry, name)]
            if len(needless) == len(entry.names):
                self.gone.update((entry.place, name) for name in needless)
            else:
                of_others.append((entry, needless))
        for entry, needless in of_others:
            self.gone.update([(entry.place, name) for name in needless if not self._has_effect(entry, name)])
        word = self._verdict().word if self.gone else SAME
        if word != SAME:
            undecided, self.gone = sorted(self.gone), set()
            as_read = self._verdict().word
            for place, name in undecided if as_read == SAME else ():
                yield Finding("without-effect", f"entry {place}, {name}: undecided whether it has an effect: {word}",
                              False, entry=place, names=[name], verdict=word)
            if as_read != SAME:
                yield Finding("without-effect", f"undecided which entries have an effect: {as_read}", False,
                              verdict=as_read)
        for entry in self.entries.values():
            names = [name for name in entry.names if (entry.place, name) in self.gone]
            if names:
                yield self._finding(entry, names)


def _pairs(entries: Sequence[Entry], judged: Tables) -> Iterator[tuple[Entry, Entry, str, list[str]]]:
    """Pairs of entries with different answers to a syscall, in the order of the second, and where both have it."""
    having: dict[ArchitectureNumber, list[Entry]] = {}
    taken = {call for entry in entries if judged.reading not in BY_WORDS and _takes_all(entry)
             for name in entry.names for call in judged.numbers_of(name).items()}
    for entry in entries:
        for name in entry.names:
            others: dict[int, tuple[Entry, list[str]]] = {}
            for call in (call for call in judged.numbers_of(name).items() if call not in taken):
                for other in having.setdefault(call, []):
                    if other.answer != entry.answer:
                        others.setdefault(other.place, (other, []))[1].append(call[0])
                having[call].append(entry)
            yield from ((other, entry, name, on) for other, on in others.values())


def conflicts(judged: Tables, default: Answer, entries: Sequence[Entry]) -> Iterator[Finding]:
    """Entries that conflict, each two once, at most MOST of them, with a call that both meet. Raises TooMany."""
    seen: set[tuple[int, int]] = set()
    met = Met()
    counting = [entry for entry in entries if judged.reading in BY_WORDS or entry.answer != default]
    for count, (first, second, name, on) in enumerate(_pairs(counting, judged)):
        if count >= PAIRS or len(seen) >= MOST:
            return
        places = first.place, second.place
        both = {} if places in seen else {oci: met.of(oci).both(met.by(first, oci), met.by(second, oci)) for oci in on}
        where = [oci for oci, arguments in both.items() if arguments]
        if where:
            seen.add(places)
            owners, number = Owners.of(where, on, judged), judged.numbers_of(name)[where[0]]
            call = Call(JUDGED[where[0]].first + number, JUDGED[where[0]].number,
                        arguments=met.of(where[0]).least(both[where[0]]))
            text = (f"entries {first.place} and {second.place} answer {owners.named(name, number)} by {first.answer} "
                    f"and by {second.answer}: arguments {' '.join(map(hex, call.arguments))} meet both")
            yield owners.finding("conflict", text, first=first.place, second=second.place, name=name,
                                 call=call.as_json(judged.native))
