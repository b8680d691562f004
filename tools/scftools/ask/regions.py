"""Regions: everything that filters or a profile answer, by `scf answers`: sets of records, each with its answer. Or
with `--differences` all that two sides may answer differently, each set with both answers.

Each record lies in a region, or gets the same answer from both sides. All records of an exact one get its answer, and
no record lies in two exact ones. Open regions come of a test that scf doesn't decide: a record may lie in several of
them, and gets the answer of one. So differences tell which relation holds over some records, and where one fails they
have a record with both answers and what gives these."""
from __future__ import annotations

import bisect
import functools
from collections.abc import Callable, Collection, Iterable, Iterator, Mapping, Sequence

from ..base import program
from ..base.values import Pattern, by_key
from ..model import architectures, bundles
from ..model.answers import DISPOSITIONS, Answer
from ..model.architectures import JUDGED, Architecture
from ..model.calls import ARCHITECTURE, ARGUMENTS, NUMBER, Call
from ..model.tables import Table, Tables
from . import client, explanation
from .verdicts import FAILING_WORDS, NO_LESS, NO_MORE, SAME, UNDECIDED, UNFINISHED, NamedCall, Verdict

OPEN, BESIDE = " open", " beside "
# A region, and its record, which an open one may lack.
SHOWN = Pattern("(.+)\n?(?:(call .+)\n)?")
# The index of the instruction pointer, whose words stand before those of argument 0.
POINTER = -1
# The greatest value of a word, and the most intervals into which known bits may divide the numbers of a region.
GREATEST_WORD, MOST_INTERVALS = (1 << 32) - 1, 4096


class TooManyRanges(Exception):
    """Bits that are known divide numbers into more than MOST intervals."""


def _number_in(text: str) -> int:
    if not text.startswith("0x"):
        raise ValueError(text)
    return int(text, 16)


# (many words have the same)
@functools.lru_cache(None)
def _bits_in(text: str) -> tuple[int, int]:
    mask, bits = text.split("=")
    return _number_in(mask), _number_in(bits)


@functools.lru_cache(None)
def _interval_in(text: str) -> tuple[int, int]:
    low, _, high = text.partition("-")
    return _number_in(low), _number_in(high or low)


class Word:
    """The possible values of a word: those in an interval, with the known bits and without any refuted ones."""

    def __init__(self, intervals: Sequence[tuple[int, int]] = (), mask: int = 0, bits: int = 0,
                 refuted: Sequence[tuple[int, int]] = ()):
        self.intervals, self.mask, self.bits, self.refuted = intervals or ((0, GREATEST_WORD),), mask, bits, refuted

    @classmethod
    def read(cls, text: str) -> Word:
        """Parses what `scf answers` prints of a word, which is mostly one value. Raises ValueError."""
        if text.isalnum():
            return cls((_interval_in(text),))
        possible, *refuted = text.split("!")
        intervals, _, known = possible.partition("&")
        return cls([*map(_interval_in, intervals.split(","))] if intervals else (),
                   *(_bits_in(known) if known else (0, 0)), [*map(_bits_in, refuted)])

    def has(self, value: int) -> bool:
        for low, high in self.intervals:
            if low <= value <= high:
                return value & self.mask == self.bits and not any(value & mask == bits for mask, bits in self.refuted)
        return False

    def within(self, first: int, last: int) -> list[tuple[int, int]]:
        """The possible values in a range, as intervals. Raises TooManyRanges."""
        parts = [(max(low, first), min(high, last)) for low, high in self.intervals if low <= last and high >= first]
        intervals = [] if self.mask or self.refuted else parts
        for part in parts if self.mask or self.refuted else ():
            pending, count = [part], 0
            while pending:
                low, high = pending.pop()
                same = -1 << (low ^ high).bit_length()
                refuted = [mask & ~same for mask, bits in self.refuted if not (low ^ bits) & mask & same]
                if (low ^ self.bits) & self.mask & same or 0 in refuted:
                    continue
                if not self.mask & ~same and not refuted:
                    count += 1
                    intervals.append((low, high))
                else:
                    middle = high & same >> 1
                    pending += (middle, high), (low, middle - 1)
                if count + len(pending) > MOST_INTERVALS:
                    raise TooManyRanges
        return intervals


FREE = Word()


class Side:
    """A side's answer to a region's records: as scf prints it; None if it is computed; and the entry that gives it."""

    def __init__(self, line: str, answer: Answer | None, entry: int | None):
        self.line, self.answer, self.entry = line, answer, entry

    @property
    def by(self) -> str:
        if self.entry is not None:
            return f"by entry {self.entry}"
        return explanation.BY["stub" if self.line.endswith(" stub") else "default"]


class Region(Side):
    """A set of records: those whose words have these values, by the index of each word that isn't free. With what a
    side answers, beside which another one may stand, and a record."""

    def __init__(self, line: str, answer: Answer | None, entry: int | None, is_exact: bool, words: dict[int, Word],
                 example: str, beside: Side | None = None):
        super().__init__(line, answer, entry)
        self.is_exact, self.words, self._example, self.beside = is_exact, words, example, beside

    @property
    def is_decided(self) -> bool:
        """Whether each of its records gets its answer, or both."""
        return self.is_exact and self.answer is not None and (self.beside is None or self.beside.answer is not None)

    def has(self, arguments: Mapping[int, int], halves: Sequence[int] = (0, 1)) -> bool:
        """Whether some record has these arguments, or these halves, by their indexes; the pointer's is POINTER."""
        for word, values in self.words.items():
            index, half = divmod(word - ARGUMENTS, 2)
            if index in arguments and half in halves and not values.has(arguments[index] >> 32 * half & GREATEST_WORD):
                return False
        return True

    def has_bits(self, index: int, bits: int) -> bool:
        """Whether some of its records may have these bits of the lower half of an argument."""
        word = self.words.get(ARGUMENTS + 2 * index, FREE)
        try:
            return not bits & word.mask & ~word.bits and bool(
                Word(word.intervals, word.mask | bits, word.bits | bits, word.refuted).within(0, GREATEST_WORD))
        except TooManyRanges:
            return True

    @functools.cached_property
    def call(self) -> Call | None:
        """The record that scf shows; of an open region it may show none, since it may have none."""
        call = Call.read(self._example)
        if call is None and (self._example or self.is_exact):
            raise program.ToolError(f"scf answers printed an unexpected record: {self._example}")
        return call

    def call_of(self, number: int, architecture: int, given: Mapping[int, int] | None = None) -> Call | None:
        """A record with this number and architecture and such given arguments; None if scf shows none."""
        if self.call is None:
            return None
        arguments = tuple((given or {}).get(index, value) for index, value in enumerate(self.call.arguments))
        return Call(number, architecture, self.call.pointer, arguments)


def parse_regions(text: str, places: Sequence[int] | None = None) -> list[Region] | None:
    """Parses what `scf answers --examples` prints, None if it isn't that. Entries may get a user's places."""
    # (what many lines have alike is parsed once)
    @functools.lru_cache(None)
    def side_in(text: str) -> tuple[str, Answer | None, int | None]:
        words = text.split(" ")
        count = 1 if words[0] == "unknown" else 2
        answer = Answer.read(" ".join(words[:count]))
        if not words[count:] or answer is None and count == 2:
            raise ValueError(text)
        entry = int(words[-1]) if words[count] == "entry" else None
        return text, answer, entry if None in (entry, places) else places[entry]

    @functools.lru_cache(None)
    def word_in(text: str) -> tuple[int, Word]:
        index, values = text.split(" ")
        return int(index), Word.read(values)

    *shown, (last, _) = SHOWN.findall(text) or [("", "")]
    regions: list[Region] = []
    try:
        for line, example in shown:
            head, *given = line.split(" w")
            side, *beside = map(side_in, head.removesuffix(OPEN).split(BESIDE))
            regions.append(Region(*side, not head.endswith(OPEN), dict(map(word_in, given)), example,
                                  *(Side(*other) for other in beside)))
    except ValueError:
        return None
    return regions if last.startswith(f"regions {len(regions)} steps ") else None


def asked(words: Sequence[str], bundle: bytes, places: Sequence[int] | None = None,
          number: int | None = None) -> list[Region] | None:
    """The regions that scf prints, on request of one x86-64 number; None if they are unfinished. Raises Refusal."""
    scope = [] if number is None else [f"--nr-from={number}", f"--nr-to={number}"]
    done = client.answers(["--examples", *words, *scope], bundle)
    regions = parse_regions(done.text, places) if done.status == program.SUCCESS else None
    if regions is not None:
        return regions
    if (done.status, done.line) == (program.UNKNOWN, UNFINISHED):
        return None
    refusal = client.Refusal(done.line, done.status)
    if refusal.fault is None or done.status == program.SUCCESS:
        raise program.ToolError(f"scf ended with status {done.status} and unexpected output")
    raise refusal


def regions_of_filters(filters: Sequence[bytes], number: int | None = None) -> list[Region] | None:
    """Those of filters, oldest first."""
    return asked([], bundles.stack_bundle(filters), number=number)


def regions_of_profile(profile: bytes, judged: Tables, places: Sequence[int] | None = None,
                       number: int | None = None) -> list[Region] | None:
    """Those of a profile, on request with other places of entries."""
    return asked(judged.words, bundles.profile_bundle(profile, judged), places, number)


class Numbers:
    """The regions of an architecture by the syscall numbers of records; none if they are None, which is unfinished."""

    def __init__(self, regions: Iterable[Region] | None, architecture: Architecture, last: int | None = None):
        self.first, self.last = architecture.first, architecture.last if last is None else last
        has = functools.lru_cache(None)(lambda word: word.has(architecture.number))
        self._all = [region for region in regions or () if has(region.words.get(ARCHITECTURE, FREE))]
        # ranges of numbers with the same regions; None if they are too many
        self.ranges: list[tuple[int, int, list[Region]]] | None = None
        try:
            starting = by_key((low, (high, region)) for region in self._all
                              for low, high in region.words.get(NUMBER, FREE).within(self.first, self.last))
        except TooManyRanges:
            return
        ends = (high + 1 for parts in starting.values() for high, _ in parts)
        cuts = sorted({self.first, self.last + 1, *starting, *ends})
        self.ranges, here = [], []
        for low, end in zip(cuts, cuts[1:]):
            here = [part for part in here if part[0] >= low] + starting.get(low, [])
            self.ranges.append((low, end - 1, [region for _, region in here]))

    def of(self, number: int) -> list[Region]:
        if self.ranges is None or not self.first <= number <= self.last:
            return [region for region in self._all if region.words.get(NUMBER, FREE).has(number)]
        return self.ranges[bisect.bisect(self.ranges, (number, self.last + 1)) - 1][2]

    def unnamed(self, table: Table) -> Iterator[tuple[int, int, Sequence[Region]]]:
        """The numbers that a table doesn't name, by ranges: the first as it counts, how many, and the known regions."""
        named = sorted(self.first + number for number in table.numbers())
        for low, high, here in [(self.first, self.last, [])] if self.ranges is None else self.ranges:
            within = named[bisect.bisect_left(named, low):bisect.bisect(named, high)]
            count = high - low + 1 - len(within)
            if count:
                first = next((low + at for at, number in enumerate(within) if number != low + at), low + len(within))
                yield first - self.first, count, here


# Records by the first and the last of their architecture numbers, and of their syscall numbers.
Span = tuple[tuple[int, int], tuple[int, int]]
EVERY_NUMBER = 0, GREATEST_WORD
EVERY_RECORD = (EVERY_NUMBER, EVERY_NUMBER),


def span_of(name: str, first: int | None = None, last: int | None = None) -> Span:
    """The records of an architecture, by its OCI name, or those of them from one number to another."""
    number, least, greatest = architectures.bounds_of(name)
    return (number, number), (least if first is None else first, greatest if last is None else last)


def beyond(names: Collection[str]) -> Iterator[Span]:
    """The records of none of the architectures with these OCI names."""
    bounds = sorted(architectures.bounds_of(name) for name in architectures.NUMBERS.keys() & names)
    before, behind = -1, 0
    for number, first, last in [*bounds, (GREATEST_WORD + 1, 0, 0)]:
        if number != before:
            yield (before, before), (behind, GREATEST_WORD)
            yield (before + 1, number - 1), EVERY_NUMBER
            behind = 0
        yield (number, number), (behind, first - 1)
        before, behind = number, last + 1


def _record_in(region: Region, span: Span) -> Call | None:
    """A record of a region in a span: scf's example, or one with the least numbers; or None. Raises TooManyRanges."""
    architecture = region.words.get(ARCHITECTURE, FREE).within(*span[0])
    shown = region.call if architecture else None
    if shown and all(low <= value <= high for value, (low, high) in zip((shown.architecture, shown.number), span)):
        return shown
    number = region.words.get(NUMBER, FREE).within(*span[1]) if architecture else None
    if not number:
        return None
    # (the record of an open region isn't shown, and that it has one is all that counts)
    return region.call_of(number[0][0], architecture[0][0]) or Call(number[0][0], architecture[0][0])


def holds(relation: str, region: Region) -> bool:
    """Whether a relation holds over all records of a region with two answers; not if one isn't known."""
    if region.answer is None or region.beside.answer is None:
        return False
    left, right = (DISPOSITIONS.index(side.answer.disposition) for side in (region, region.beside))
    return relation != SAME and (left == right or relation == (NO_MORE if left < right else NO_LESS))


def _verdict(relation: str, listed: Iterable[Region], record_in: Callable[[Region], Call | None]) -> Verdict | None:
    """The verdict on those records of regions of which `record_in` gives one; None if the regions don't tell."""
    is_known = True
    for region in listed:
        call = None if holds(relation, region) else record_in(region)
        if call is not None and region.is_decided:
            return Verdict(FAILING_WORDS[relation], call, region.answer, region.beside.answer)
        is_known = is_known and call is None
    return Verdict(relation) if is_known else None


class Lookup:
    """The regions in which records lie, None if they are unfinished; and what scf calls the second of two sides."""

    def __init__(self, regions: Sequence[Region] | None, beside: str = "profile"):
        self.regions, self.is_finished, self._beside = regions, regions is not None, beside
        # by the OCI names of architectures
        self._numbers: dict[str, Numbers] = {}

    def of_architecture(self, architecture: Architecture) -> Numbers:
        if architecture.oci not in self._numbers:
            self._numbers[architecture.oci] = Numbers(self.regions, architecture)
        return self._numbers[architecture.oci]

    def of_number(self, call: Call) -> Sequence[Region]:
        """Those with records of its number and architecture."""
        if call.judged is not None:
            return self.of_architecture(call.judged).of(call.number)
        return [region for region in self.regions or () if region.words.get(NUMBER, FREE).has(call.number)
                and region.words.get(ARCHITECTURE, FREE).has(call.architecture)]

    def of(self, call: Call) -> Region | None:
        """The decided region of a record, None if there is none."""
        record = {POINTER: call.pointer or 0, **dict(enumerate(call.arguments))}
        return next((region for region in self.of_number(call) if region.is_decided and region.has(record)), None)

    @property
    def unknown(self) -> Verdict:
        """The verdict where regions don't tell; one without both answers has the index at which a filter's runs end."""
        places = [region.line.rpartition(":")[2] for region in self.regions or () if not region.is_decided]
        return Verdict(UNDECIDED, at=int(places[0])) if places else Verdict(UNFINISHED)

    def verdict(self, relation: str, spans: Iterable[Span]) -> Verdict | None:
        """The verdict on the records of some spans; None if the regions don't tell."""
        spans = list(spans)
        try:
            return None if self.regions is None else _verdict(relation, self.regions, lambda region: next(
                filter(None, (_record_in(region, span) for span in spans)), None))
        except TooManyRanges:
            return None

    def calls(self, name: str, table: Table, relation: str) -> list[NamedCall] | None:
        """The syscalls in the table of an OCI architecture that fail a relation; None if regions don't tell."""
        architecture, failing = JUDGED[name], []
        numbers = self.of_architecture(architecture)
        for number in (number for number in sorted(table.numbers()) if numbers.of(architecture.first + number)):
            call = Call(architecture.first + number, architecture.number)
            verdict = _verdict(relation, numbers.of(call.number),
                               lambda region: region.call_of(call.number, call.architecture) or call)
            if verdict is None:
                return None
            if verdict.call is not None:
                failing.append(NamedCall.of(verdict, architecture, table.names_of(number), self._beside))
        return failing if self.regions is not None else None
