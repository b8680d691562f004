"""scf's printed lines as values.

Lines are parsed by their order, since the names in them are untrusted: the first line is the verdict or a fault, the
next ones are its example, or syscalls by name. From the first `skipped` or `other` line on nothing is parsed: names may
have newlines in them."""
from __future__ import annotations

import re
from collections.abc import Sequence

from ..base import program
from ..base.values import Pattern, dataclass, replace
from ..model import bundles
from ..model.answers import Answer
from ..model.architectures import JUDGED, NATIVE, Architecture
from ..model.calls import Call
from ..model.tables import Table, Tables
from . import client
from .client import Fault, Refusal

# The sets of syscalls that are compared: all records, x86-64's, x86-64's in the table one by one, or those of each
# architecture that the profile names and scf has a table of.
ALL, NATIVE_SCOPE, CALLS, LISTED = "all", "native", "calls", "listed"
SAME, DIFFERS, UNDECIDED, UNFINISHED = "same", "differs", "undecided", "unfinished"
# The options of scf for each of them, beside those of the tables.
SCOPES = {ALL: [], NATIVE_SCOPE: ["--native"], CALLS: ["--calls"], LISTED: []}
# Only from the tools: the syscall that decides is of an architecture that the profile names, and scf has no table.
UNDETERMINED = "undetermined"
FOR_OTHER_ABI = f"{UNDETERMINED}: the profile is for this architecture, too"
# The first two with --no-more and --no-less.
NO_MORE, MORE, NO_LESS, LESS = "no more", "more", "no less", "less"
# Only from the tools: other answers, neither more permissive nor stricter.
OTHERWISE = "otherwise"
# With --disposition.
SAME_DISPOSITION = "same disposition"
# The options for each relation, by the verdict if it holds.
RELATIONS = {SAME: [], NO_MORE: ["--no-more"], NO_LESS: ["--no-less"], SAME_DISPOSITION: ["--disposition"]}
# The words of each relation if it fails.
FAILING_WORDS = {SAME: DIFFERS, NO_MORE: MORE, NO_LESS: LESS, SAME_DISPOSITION: DIFFERS}
HOLDING, FAILING = tuple(FAILING_WORDS), (DIFFERS, MORE, LESS)
NAMED_CALL_LINE = Pattern(r"([0-9]+) ([A-Za-z0-9_,]+) (differs|more|less|undecided|unfinished)\b(.*)")
ANSWERED = Pattern(r" args((?: 0x[0-9a-f]+){6}) (?:filter|profile) (\w+ \w+) (?:profile|beside) (\w+ \w+)")
LEFT_OUT = ("skipped ", "other ")
LEFT_OUT_END = b"left-out skipped"


def relation_json(relation: str) -> dict[str, object]:
    """The relation that was asked for as a member of an object, if it isn't that both sides answer the same."""
    return {} if relation == SAME else {"relation": relation}


@dataclass(frozen=True)
class Verdict:
    """A verdict, with its example and both answers if it is `differs`, `more` or `less`, and an instruction index if
    `undecided`. `profile` is the answer of the side that the filters are compared with: a profile, or other filters."""

    word: str
    call: Call | None = None
    filters: Answer | None = None
    profile: Answer | None = None
    at: int | None = None

    @property
    def holds(self) -> bool:
        return self.word in HOLDING

    @property
    def fails(self) -> bool:
        return self.word in FAILING

    @property
    def order(self) -> tuple[bool, bool]:
        """Of several verdicts the least speaks for all: the first that fails, else the first that doesn't hold."""
        return not self.fails, self.holds

    def of_relation(self, relation: str) -> Verdict:
        """The same as a verdict on another relation."""
        return replace(self, word=relation if self.holds else FAILING_WORDS[relation] if self.fails else self.word)

    @property
    def status(self) -> int:
        return program.SUCCESS if self.holds else program.NEGATIVE if self.fails else program.UNKNOWN

    def as_json(self, table: Table, sides: tuple[str, str] = ("filter", "profile")) -> dict[str, object]:
        """Its example, as members of an object, with these names of both sides."""
        answers = zip(sides, (self.filters, self.profile))
        members = {"call": self.call and self.call.as_json(table),
                   **{side: answer and answer.as_json() for side, answer in answers}, "at": self.at}
        return {name: value for name, value in members.items() if value is not None}


@dataclass(frozen=True)
class NamedCall:
    """A line of `scf compare --calls`, or the same line by regions: a syscall in the table for which the relation isn't
    proved. The architecture is that of the table; the line of another one than x86-64 is the tools' own."""

    line: str
    number: int
    names: tuple[str, ...]
    verdict: Verdict
    architecture: Architecture = JUDGED[NATIVE]

    @classmethod
    def of(cls, verdict: Verdict, architecture: Architecture, names: Sequence[str],
           beside: str = "profile") -> NamedCall:
        """The line of a syscall of an architecture whose verdict has an example."""
        number = verdict.call.number - architecture.first
        words = (str(number), ",".join(names), verdict.word, "args", *map(hex, verdict.call.arguments),
                 f"filter {verdict.filters.line}", f"{beside} {verdict.profile.line}")
        return cls(architecture.marked(" ".join(filter(None, words))), number, tuple(names), verdict, architecture)

    @property
    def record(self) -> Call:
        return self.verdict.call or Call(self.architecture.first + self.number, self.architecture.number)

    def as_json(self) -> dict[str, object]:
        named = {} if self.architecture.oci == NATIVE else {"architecture": self.architecture.name}
        return {"number": self.number, "names": list(self.names), "verdict": self.verdict.word, **named}


@dataclass(frozen=True)
class Report:
    """The output of `scf compare`: a verdict or a fault, and what was left out of the profile. `lines` are those of the
    verdict and the syscalls. Names and architectures are untrusted."""

    lines: tuple[str, ...]
    verdict: Verdict | None = None
    fault: Fault | None = None
    calls: tuple[NamedCall, ...] = ()
    skipped: tuple[str, ...] = ()
    architectures: tuple[str, ...] = ()

    @classmethod
    def of(cls, verdict: Verdict, beside: str = "profile") -> Report:
        if verdict.call is None:
            return cls((verdict.word if verdict.at is None else f"{verdict.word} at {verdict.at}",), verdict)
        return cls((verdict.word, verdict.call.line, f"filter {verdict.filters.line}",
                    f"{beside} {verdict.profile.line}"), verdict)

    @classmethod
    def by_call(cls, verdict: Verdict, calls: Sequence[NamedCall]) -> Report:
        """The report on syscalls one by one, of whose verdicts this one speaks for all."""
        whole = cls.of(replace(verdict, call=None, filters=None, profile=None))
        return replace(whole, lines=(*whole.lines, *(call.line for call in calls)), calls=tuple(calls))

    @property
    def printed(self) -> list[str]:
        """scf's lines, where a name with newlines in it is one line."""
        return [*self.lines, *(f"skipped {name}" for name in self.skipped),
                *(f"other {name}" for name in self.architectures)]

    @property
    def brief(self) -> list[str]:
        """scf's lines without skipped names, which are often many."""
        return replace(self, skipped=()).printed


def _verdict(lines: Sequence[str]) -> Verdict | None:
    if lines[0] in FAILING:
        call = Call.read(lines[1]) if len(lines) > 3 else None
        sides = [] if call is None else [Answer.read(line.partition(" ")[2]) for line in lines[2:4]]
        return Verdict(lines[0], call, *sides)
    if lines[0] in (*HOLDING, UNFINISHED):
        return Verdict(lines[0])
    place = re.fullmatch(f"{UNDECIDED} at ([0-9]+)", lines[0])
    return Verdict(UNDECIDED, at=int(place[1])) if place else None


def report(text: str, pointer: int | None = 0, architecture: Architecture = JUDGED[NATIVE]) -> Report:
    """Parses the output of `scf compare`, but for what was left out of a profile. The records of lines get this
    instruction pointer, None if it matters and is unknown, and are of this architecture."""
    lines = client.lines_of(text)
    lines = lines[:next((at for at, line in enumerate(lines) if line.startswith(LEFT_OUT)), len(lines))]
    calls = []
    for line in lines[1:]:
        match = NAMED_CALL_LINE.fullmatch(line) if line[:1].isdigit() else None
        if not match:
            continue
        number, verdict, answered = int(match[1]), Verdict(match[3]), ANSWERED.fullmatch(match[4])
        if verdict.fails and answered:
            arguments = tuple(int(argument, 16) for argument in answered[1].split())
            verdict = Verdict(match[3], Call(architecture.first + number, architecture.number, pointer, arguments),
                              Answer.read(answered[2]), Answer.read(answered[3]))
        calls.append(NamedCall(architecture.marked(line), number, (*match[2].split(","),), verdict, architecture))
    return Report((*lines,), *((_verdict(lines), Fault.read(lines[0])) if lines else (None, None)), (*calls,))


def behind_left_out(printed: bytes) -> tuple[Report, bytes]:
    """What `scf compile --left-out` prints: a report on what is left out of the profile, and the filter. A line between
    them has the length of each name. It is the last that begins so: no filter has so many bytes without a zero."""
    begin = printed.rindex(LEFT_OUT_END)
    end, at = printed.index(b"\n", begin), 0
    names: dict[str, list[str]] = {}
    for word, lengths in zip(LEFT_OUT, printed[begin + len(LEFT_OUT_END):end].split(b" other")):
        names[word] = []
        for length in map(int, lengths.split()):
            at += len(word)
            names[word].append(printed[at:at + length].decode("utf-8", "surrogateescape"))
            at += length + 1
    skipped, others = map(tuple, names.values())
    return Report((), skipped=skipped, architectures=others), printed[end + 1:]


def checked(status: int, checked_report: Report, is_by_call: bool = False) -> Report:
    """A report with a verdict; raises Refusal if it has a fault instead, and ToolError if it isn't parsed completely,
    since the relation is taken to hold for a syscall without a line."""
    if checked_report.fault is not None:
        raise Refusal(checked_report.fault.line, status)
    expected = None if checked_report.verdict is None else checked_report.verdict.status
    if status != expected or is_by_call and len(checked_report.calls) != len(checked_report.lines) - 1:
        raise program.ToolError(f"scf ended with status {status} and unexpected output")
    return checked_report


def compared(filters: Sequence[bytes], profile: bytes, tables: Tables, words: Sequence[str] = (),
             architecture: Architecture = JUDGED[NATIVE]) -> Report:
    """scf's report on filters compared with a profile by these options beside those of the tables, `checked`."""
    done = client.compare([*tables.words, *words], bundles.profile_bundle(profile, tables, filters))
    return checked(done.status, report(done.text, 0, architecture), "--calls" in words)


@dataclass(frozen=True)
class Decision:
    """The output of `scf run` or `scf decide` for a record: an answer and how many instructions ran, or a fault."""

    line: str
    answer: Answer | None = None
    steps: int | None = None
    fault: Fault | None = None


def decision(text: str) -> Decision:
    line = text.split("\n", 1)[0]
    match = re.fullmatch(r"(\w+ \w+)(?: steps ([0-9]+)| at [0-9]+:[0-9]+)?", line)
    answer = Answer.read(match[1]) if match else None
    if answer is None or match is None:
        return Decision(line, fault=Fault.read(line))
    return Decision(line.partition(" at ")[0], answer, int(match[2]) if match[2] else None)
