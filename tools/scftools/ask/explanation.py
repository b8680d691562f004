"""Explanations of scf's answers, verdicts and faults: the lines that the tools add after scf's. Those of faults,
`undecided` and `unfinished` are the rows of docs/FAULTS.md; why a profile answers so `scf ask` says, by the entry that
decides and its conditions."""
from __future__ import annotations

import functools
import json
import re
from collections.abc import Iterator, Sequence

from ..base import output, program
from ..base.values import Pattern, dataclass
from ..model import architectures, bundles, profiles, tables
from ..model.answers import X86_64, Answer
from ..model.calls import Call
from ..model.entries import HOLDS
from ..model.profiles import Origin
from ..model.tables import Table, Tables
from . import client
from .verdicts import Fault, Report

# What to do where scf is undecided.
MORE_SPLITS = "not known: allow more splits and steps, --splits N --limit N"
REASON_LINE = Pattern(r"(\w+ \w+) (?:(default|foreign|stub)|entry ([0-9]+))")
# What a profile answers to a syscall of an architecture that it isn't judged for, and why, as scf prints it.
FOREIGN = "KILL_PROCESS 0 foreign"
# What gives an answer if no entry does.
BY = {"foreign": "by no entry: the syscall is of another ABI", "default": "by the default",
      "stub": "by the ENOSYS that runc puts before the filter"}
# At most so many characters of an entry are printed.
LONGEST_ENTRY = 400


def join_names(names: Sequence[str]) -> str:
    return names[0] if len(names) == 1 else ", ".join(names[:-1]) + f" and {names[-1]}"


def _key(line: str) -> list[str]:
    """The words of a printed line up to its numbers, or in the page of its row, where each may have alternatives."""
    words = line.split()
    return words[:3] if words[:1] == ["fault"] else words[:1]


def _row(line: str) -> list[str]:
    """The two sentences below a printed line in the page; none if it isn't there."""
    with open(program.FAULTS, encoding="utf-8") as file:
        rows = re.findall(r"^- `(.*)`\n  (.*)\n  (.*)$", file.read(), re.M)
    return next((sentences for row, *sentences in rows if len(_key(row)) == len(_key(line)) and all(
        word in words.split("|") for word, words in zip(_key(line), _key(row)))), [])


def has_row(line: str) -> bool:
    return bool(_row(line))


def what_a_row_says(line: str) -> list[str]:
    """The sentences of a printed line's row: when it appears, and what to do."""
    return _row(line) or ["docs/FAULTS.md doesn't name this line."]


def explain_fault(fault: Fault, table: Table | None = None) -> Iterator[str]:
    """What a fault means, and what to do; with a table also the syscall of which two entries conflict."""
    yield from what_a_row_says(fault.line)
    if (fault.source, fault.kind) == ("profile", "Conflict") and table is not None and "number" in fault.numbers:
        yield f"the syscall is {Call(fault.numbers['number']).describe(table)}"


def explain_line(line: str) -> Iterator[str]:
    """The explanation of a line of scf, if it is a fault."""
    fault = Fault.read(line)
    yield from explain_fault(fault) if fault is not None else ()


def explain_call(call: Call, table: Table, is_native: bool | None = None) -> Iterator[str]:
    """A syscall's name, also as C would have it, and whether --native leaves it out, if that could be given."""
    shown = call.as_c(table) if any(call.arguments) else None
    yield f"the syscall is {call.describe(table)}" + (f": {shown}" if shown is not None else "")
    if is_native is False and not call.is_native:
        what = "other architectures" if call.architecture != X86_64 else "numbers from 0x40000000 on"
        yield f"--native leaves out {what}"


def explain_skipped(report: Report, judged: Tables, profile: bytes) -> Iterator[str]:
    """Lines on the names of a profile that were skipped, and on what is lost with them."""
    if not report.skipped:
        return
    classified = tables.classify(report.skipped, judged)
    which = "" if classified.left_out or classified.unknown else ", all of them syscalls of other architectures"
    yield f"names in the profile that were skipped because no table has them: {len(report.skipped)}{which}"
    for name in classified.left_out[:tables.MOST_LISTED]:
        yield f"{name} is an x86-64 syscall that this table leaves out"
    for name, near in classified.unknown[:tables.MOST_LISTED]:
        nearest = f"; the nearest name in the table is {near}" if near else ""
        yield f"no known syscall is named {output.cut(name)}{nearest}"
    more = sum(max(len(each) - tables.MOST_LISTED, 0) for each in (classified.left_out, classified.unknown))
    if more:
        yield f"more such names: {more}"
    default = profiles.default_of(profile)
    if default is not None and default.allows and (classified.left_out or classified.unknown):
        yield "the profile's default allows syscalls: the rules for these names are lost"


def explain_architectures(report: Report) -> Iterator[str]:
    """Which architectures of a profile aren't judged, and why."""
    left_out = [oci for oci in dict.fromkeys(report.architectures) if oci in architectures.JUDGED]
    if left_out:
        yield f"--native leaves out {join_names(left_out)}, which the profile also names"
    if len(left_out) < len(set(report.architectures)):
        yield "the profile's other architectures aren't judged, since scf has no table of them"


def explain_answer(call: Call | None, answer: Answer, table: Table) -> Iterator[str]:
    if call is not None:
        yield from explain_call(call, table)
    yield answer.describe()


@dataclass(frozen=True)
class Reason:
    """A profile's answer to a syscall, and what gives it: an `entry` with its index, the `default`, runc's `stub`, or
    that the syscall is `foreign`, which no entry covers; or a fault."""

    status: int
    line: str
    answer: Answer | None = None
    by: str = ""
    entry: int | None = None
    fault: Fault | None = None

    @property
    def is_foreign(self) -> bool:
        return self.by == "foreign"


def profile_reason(profile: bytes, judged: Tables, words: Sequence[str]) -> Reason:
    """A profile's reason for the record that scf's options give."""
    done = client.run_scf(["ask", *judged.words, *words], bundles.profile_bundle(profile, judged))
    return region_reason(done.line, done.status)


@functools.lru_cache(None)
def region_reason(line: str, status: int = program.SUCCESS) -> Reason:
    """The reason in a line, as of all records of a region of a profile; many regions have the same."""
    match = REASON_LINE.fullmatch(line)
    if not match:
        return Reason(status, line, fault=Fault.read(line))
    return Reason(status, line, Answer.read(match[1]), match[2] or "entry", int(match[3]) if match[3] else None)


def index_of(reason: Reason, origins: Sequence[Origin] | None) -> int | None:
    """The index of the entry in the user's profile."""
    return reason.entry if reason.entry is None or origins is None else origins[reason.entry].index


def conditions_met(reason: Reason, profile: bytes, call: Call) -> list[str]:
    """Lines on those conditions of the entry that gives the answer which a call is known to meet, with its values."""
    entry, lines = None if reason.entry is None else profiles.entry_at(profile, reason.entry), []
    for _, condition in profiles.objects_in(entry or {}, "args"):
        index, op, value, two = (condition.get(name) for name in ("index", "op", "value", "valueTwo"))
        two = two or 0
        if not (all(isinstance(number, int) for number in (index, value, two)) and 0 <= index < 6):
            continue
        argument = call.arguments[index] & (1 << call.bits) - 1
        if isinstance(op, str) and op in HOLDS and HOLDS[op](argument, value, two):
            second = f" of {two} ({two:#x})" if op == "SCMP_CMP_MASKED_EQ" else ""
            lines.append(f"argument {index} is {argument} ({argument:#x}): {op} {value} ({value:#x}){second} holds")
    return lines


def describe_reason(reason: Reason, profile: bytes, call: Call | None,
                    origins: Sequence[Origin] | None = None) -> Iterator[str]:
    """Lines on what gives the answer; for an entry also on which of its conditions hold."""
    if reason.answer is not None and reason.entry is None:
        yield BY[reason.by]
    elif reason.answer is not None:
        entry = profiles.entry_at(profile, reason.entry)
        text = "" if entry is None else f": {json.dumps(entry)}"
        more = len(text) - len(": ") - LONGEST_ENTRY
        text = text if more <= 0 else f"{text[:-more]}.. ({more} more characters)"
        yield f"by entry {index_of(reason, origins)} of syscalls{text}"
        yield from conditions_met(reason, profile, call) if call else ()


def reason_json(reason: Reason, profile: bytes, call: Call | None,
                origins: Sequence[Origin] | None = None) -> dict[str, object]:
    if reason.answer is None:
        return {}
    return {"reason": reason.by, **({} if reason.entry is None else {
        "entry": index_of(reason, origins), "definition": profiles.entry_at(profile, reason.entry),
        "conditions_met": conditions_met(reason, profile, call) if call else []})}
