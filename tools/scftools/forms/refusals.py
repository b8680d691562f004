"""Why scf refuses an input: what a fault means, which member of a profile it is about, and which of several filters.

scf says the kind of a fault of a profile and the entry. The tests here go through a profile in the order of scf's; what
they find is only said if it is the fault that scf found.
"""
from __future__ import annotations

import json
from collections.abc import Collection, Iterator, Sequence

from ..base import inputs, json_places, output
from ..base.json_places import Path
from ..base.values import Any, NoReturn
from ..model import architectures, profiles
from ..model.bpf import LONGEST_STACK, MORE_OF_OLDER
from ..model.calls import Call
from ..model.entries import HOLDS, LONGEST_NUMBER
from ..model.profiles import OCI_ACTIONS, SANDBOX, TRAP, DerivedProfile, Origin
from ..model.tables import Tables
from ..ask import client, explanation
from ..ask.client import Fault, Refusal
from .filters import Filter

NUMBER_END, MOST_ERRNO = 1 << 64, 65535
# What to do about a conflict in a profile that is read as a runtime does.
CONFLICT_FOR_RUNTIME = ("Give the entries conditions that exclude each other: {} hands them to libseccomp, which "
                        "refuses some such entries, and what it makes of others is documented nowhere (RUNTIMES.md).")
# What a value may have to be, as Python has it, and the least number.
KINDS_OF_VALUES = {"a string": (str, 0), "an array": (list, 0), "an object": (dict, 0),
                   "a whole number": (int, -(NUMBER_END >> 1)), "a whole number from 0 to 2^64-1": (int, 0)}


def _shown(value: object) -> str:
    if isinstance(value, (list, dict)):
        return "an array" if isinstance(value, list) else "an object"
    return output.cut(json.dumps(value), 60)


class MemberFault(Exception):
    """A profile's first fault: its kind, the path of the value that is wrong or lacks a member, and what is said."""


class Value:
    """A value in a profile, and its path. Raises MemberFault if it isn't of this kind."""

    def __init__(self, value: Any, path: Path, what: str):
        self.value, self.path = value, path
        of_kind, least = KINDS_OF_VALUES[what]
        if type(value) is not of_kind or of_kind is int and not least <= value < NUMBER_END:
            self.fail("Kind", f"is {_shown(value)}, not {what}")

    def fail(self, kind: str, says: str, *steps: str) -> NoReturn:
        raise MemberFault(kind, [*self.path, *steps], says)

    def member(self, name: str, what: str, is_needed: bool = False) -> Value | None:
        """A member of this kind; None where it lacks and may."""
        value = self.value.get(name)
        if value is None and is_needed:
            self.fail("Missing", f"has no {name}")
        return None if value is None else Value(value, [*self.path, name], what)

    def elements(self, name: str, what: str) -> Iterator[Value]:
        """The elements of a member that is an array, each of this kind."""
        listed = self.member(name, "an array")
        return (Value(item, [*listed.path, at], what) for at, item in enumerate(listed.value)) if listed else iter(())

    def word(self, name: str, words: Collection[str], kind: str) -> str:
        member = self.member(name, "a string", True)
        if member.value not in words:
            member.fail(kind, f"is {_shown(member.value)}, which is none")
        return member.value

    def answer(self, action_name: str, errno_name: str, reading: str) -> None:
        action, errno = self.word(action_name, OCI_ACTIONS, "Action"), self.member(errno_name, "a whole number")
        if errno and action not in profiles.WITH_ERRNO and (action, reading) != (TRAP, SANDBOX):
            errno.fail("Errno", f"is {_shown(errno.value)}, and {action} takes none")
        if errno and not 0 <= errno.value <= MOST_ERRNO:
            errno.fail("ErrnoRange", f"is {_shown(errno.value)}")

    def of_no_engine(self, *names: str) -> None:
        for name in names:
            if self.value.get(name) not in (None, {}, []):
                self.fail("EngineForm", f"is {_shown(self.value[name])}", name)


def _check_entry(entry: Value, reading: str) -> None:
    entry.of_no_engine("includes", "excludes")
    if not entry.member("names", "an array", True).value:
        entry.fail("EmptyNames", "is empty", "names")
    list(entry.elements("names", "a string"))
    entry.answer("action", "errnoRet", reading)
    seen: set[int] = set()
    for condition in entry.elements("args", "an object"):
        index = condition.member("index", "a whole number", True)
        if not 0 <= index.value < 6:
            index.fail("Index", f"is {_shown(index.value)}")
        condition.word("op", HOLDS, "Operator")
        condition.member("value", "a whole number from 0 to 2^64-1", True)
        condition.member("valueTwo", "a whole number from 0 to 2^64-1")
        if index.value in seen:
            index.fail("RepeatedIndex", f"is {_shown(index.value)}, as in an earlier condition of this entry")
        seen.add(index.value)


def _path_of(value: Any, reading: str) -> Path:
    """The path of the seccomp object of a profile or a whole config.json. Raises the fault that scf finds first."""
    top = Value(value, [], "an object")
    if value.get("defaultAction") is None and value.get("linux") is not None:
        linux = top.member("linux", "an object")
        if linux.value.get("seccomp") is None:
            linux.fail("Missing", "has no seccomp: the container isn't confined")
        top = linux.member("seccomp", "an object")
    top.answer("defaultAction", "defaultErrnoRet", reading)
    listed = [name.value for name in top.elements("architectures", "a string")]
    if listed and architectures.NATIVE not in listed:
        top.fail("NoX8664", f"lacks {architectures.NATIVE}", "architectures")
    top.of_no_engine("archMap")
    for entry in top.elements("syscalls", "an object"):
        _check_entry(entry, reading)
    return top.path


def _of_member(fault: Fault, data: bytes) -> Iterator[str]:
    """The member that a fault of a profile is about, and where it stands, if that is known."""
    if isinstance(data, DerivedProfile) and data.within is None:
        return
    try:
        text = data.decode("utf-8")
        # (a number that scf doesn't take is none)
        value = json.loads(text, parse_int=lambda word: int(word) if len(word) <= LONGEST_NUMBER else float("nan"))
        path = _path_of(value, profiles.reading_of(data))
        entries = [fault.numbers[name] for name in ("first", "second") if fault.kind == "Conflict"]
        places = [json_places.place_of(text, [*path, "syscalls", entry]) for entry in entries]
        if places and not isinstance(data, DerivedProfile) and None not in places:
            yield f"the entries begin at {places[0]} and at {places[1]}"
    except (ValueError, RecursionError):
        return
    except MemberFault as first:
        kind, path, says = first.args
        entry = next(iter(path[path.index("syscalls") + 1:]), None) if "syscalls" in path else None
        if kind == fault.kind and fault.numbers.get("entry") == entry:
            within = getattr(data, "within", None)
            member = json_places.path_text([within, *path] if within else path) or "the profile"
            where = None if isinstance(data, DerivedProfile) else json_places.place_of(text, path)
            yield f"{member} {says}" + (f", at {where}" if where is not None else "")


def _conflicting(fault: Fault, profile: bytes, judged: Tables) -> Call:
    """A record of the syscall on which two entries conflict: of the first architecture on which both name it."""
    number = fault.numbers["number"]
    entries = [profiles.entry_at(profile, fault.numbers[field]) for field in ("first", "second")]
    listed = [set(entry["names"]) for entry in entries if isinstance(entry, dict)]
    for name, table in judged.of.items():
        architecture = architectures.JUDGED[name]
        is_its = architecture.first <= number <= architecture.last
        names = set(table.names_of(number - architecture.first)) if is_its else set()
        if names and all(names & entry_names for entry_names in listed):
            return Call(number, architecture.number)
    return Call(number)


def sentences(fault: Fault, profile: bytes, judged: Tables, origins: Sequence[Origin] | None = None) -> Iterator[str]:
    """The explanation of a fault, and what to do; of a profile, where it stands, and of one that was resolved, in which
    entries of the user's file."""
    kind, is_too_long = fault.kind if fault.source == "profile" else None, len(profile) > inputs.LIMITS["profile"]
    sentences, reading = list(explanation.explain_fault(fault)), profiles.reading_of(profile)
    if kind == "Json" and not is_too_long:
        sentences = [profiles.where_json_ends(profile), sentences[0]]
    if kind == "Conflict" and reading not in profiles.BY_WORDS:
        sentences[1:] = [CONFLICT_FOR_RUNTIME.format(reading)]
    yield from sentences
    if kind is not None and is_too_long:
        yield f"the profile has more than {inputs.LIMITS['profile']} bytes"
        return
    if kind == "Conflict":
        yield f"the syscall is {_conflicting(fault, profile, judged).describe(judged.native)}"
    if kind is not None and origins is not None:
        named = [fault.numbers[name] for name in ("entry", "first", "second") if name in fault.numbers]
        places = [origins[index].describe() for index in named if index < len(origins)]
        if places:
            yield f"in the original file that is {' and '.join(dict.fromkeys(places))}"
    elif kind is not None:
        yield from _of_member(fault, profile)


def lines_of(why: Refusal, profile: bytes, judged: Tables) -> Iterator[str]:
    """scf's line, and what it means."""
    yield why.line
    if why.fault is not None:
        yield from output.notes(sentences(why.fault, profile, judged))


def faulty_filters(filters: Sequence[Filter], fault: Fault) -> list[str]:
    """The files of the filters that cause a stack's fault."""
    total, is_too_long = 0, (fault.source, fault.kind) == ("stack", "TooMany")
    for bpf_filter in filters:
        is_faulty = fault.source == "filter" and client.run_scf(["check"], bpf_filter.data).line == fault.line
        if is_faulty or is_too_long and total + bpf_filter.count > LONGEST_STACK:
            return [bpf_filter.name]
        total += bpf_filter.count + MORE_OF_OLDER
    return []


def stack_refusals(filters: Sequence[Filter], fault: Fault | None) -> Iterator[str]:
    """Which filter of several causes a fault."""
    if fault is not None and len(filters) > 1:
        yield from (f"the filter is {name}" for name in faulty_filters(filters, fault))
