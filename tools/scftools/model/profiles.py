"""The parts of a profile that the tools read themselves: its default, its names, an entry by its index, the members
that a runtime reads as others, and where JSON is malformed. Only scf judges the profile; of what can't be read here the
tools say nothing."""
from __future__ import annotations

import functools
import json
import re
from collections.abc import Iterator, Sequence

from ..base import json_places, program
from ..base.values import Any, Pattern, dataclass
from . import entries
from .answers import Answer

DEEPEST_JSON = 127
# The most names of all entries together that are passed on to libseccomp, each once for each of its alternatives: the
# kernel takes no filter that is a sixteenth so long.
MAX_RULES = 1 << 16
# Half of a character, which stands alone.
SURROGATE = Pattern("[\ud800-\udfff]")
# A member of YAML.
YAML_MEMBER = Pattern(r"^[A-Za-z_][A-Za-z0-9_.-]{0,80}:(?:\s|\Z)", re.M)
# The default actions that allow what no rule names.
ALLOWING = ("SCMP_ACT_ALLOW", "SCMP_ACT_LOG")
OCI_ACTIONS = tuple(f"SCMP_ACT_{action}" for action in
                    "ALLOW LOG ERRNO TRACE TRAP NOTIFY KILL KILL_THREAD KILL_PROCESS".split())
# The flags of the OCI runtime specification (config-linux.md: Seccomp).
FLAGS = tuple(f"SECCOMP_FILTER_FLAG_{name}" for name in "TSYNC LOG SPEC_ALLOW WAIT_KILLABLE_RECV".split())
# The actions that take an errno; a sandbox's reading has also TRAP's data so.
WITH_ERRNO, TRAP = ("SCMP_ACT_ERRNO", "SCMP_ACT_TRACE"), "SCMP_ACT_TRAP"
# The members of a profile, in the form of the OCI runtime specification (config-linux.md: Seccomp) and in those of the
# engines (profiles/seccomp of moby, pkg/seccomp of containers-common), each with what its value is: a text, a whole
# number from 0 to 2^64-1, a version of a kernel, a list of what stands in it, or an object of such members.
TEXT_TYPE, NUMBER_TYPE, VERSION_TYPE = "text", "number", "version"
FILTER = {"caps": [TEXT_TYPE], "arches": [TEXT_TYPE], "minKernel": VERSION_TYPE}
ARGUMENT = {"index": NUMBER_TYPE, "value": NUMBER_TYPE, "valueTwo": NUMBER_TYPE, "op": TEXT_TYPE}
ENTRY = {"names": [TEXT_TYPE], "name": TEXT_TYPE, "action": TEXT_TYPE, "errnoRet": NUMBER_TYPE, "errno": TEXT_TYPE,
         "args": [ARGUMENT], "comment": TEXT_TYPE, "includes": FILTER, "excludes": FILTER}
SECCOMP_MEMBERS = {
    "defaultAction": TEXT_TYPE, "defaultErrnoRet": NUMBER_TYPE, "defaultErrno": TEXT_TYPE, "architectures": [TEXT_TYPE],
    "archMap": [{"architecture": TEXT_TYPE, "subArchitectures": [TEXT_TYPE]}], "syscalls": [ENTRY],
    "flags": [TEXT_TYPE], "listenerPath": TEXT_TYPE, "listenerMetadata": TEXT_TYPE}
CONFIG_MEMBERS = {**SECCOMP_MEMBERS, "linux": {"seccomp": SECCOMP_MEMBERS}}
# How the profile, an entry and a condition are called.
PLACES = ("the profile", "entry {}", "entry {}: args {}")

# Letters that encoding/json of Go takes for others in the name of a member (equalFoldRight in fold.go): of ASCII those
# of the other case, and U+017F and U+212A.
_FOLD = {**{upper: upper + 32 for upper in range(ord("A"), ord("Z") + 1)}, 0x17F: ord("s"), 0x212A: ord("k")}

# How a profile is read unless a container runtime reads it (`--reading` of scf): by its words, or so with TRAP's data.
STRICT, SANDBOX = BY_WORDS = "strict", "sandbox"


class Refused(program.ToolError):
    """The engines refuse the profile, or it is ambiguous."""


class ReadProfile(bytes):
    """A profile, and how it is read."""

    reading: str = STRICT


class DerivedProfile(ReadProfile):
    """A profile that a tool made of another one: no line and no column of it is one of the user's file. `within` is the
    member of the file that it is, or None if the file has other entries; `absent` has by architectures the names of
    which a runtime's libseccomp makes no rule there, though a table has them. `others` are the profiles of other
    architectures that the file describes, too, and `not_compared` the OCI names of ABIs whose rules aren't known."""

    within: str | None = None
    # whether the comment of each entry has the lines of the file that it stands on
    has_comments: bool = False
    absent: dict[str, frozenset[str]] = {}
    others: tuple[bytes, ...] = ()
    not_compared: tuple[str, ...] = ()


def reading_of(data: bytes) -> str:
    return data.reading if isinstance(data, ReadProfile) else STRICT


def not_compared_of(data: bytes) -> tuple[str, ...]:
    """The OCI names of ABIs that a profile leaves out, since it isn't known what is configured for them."""
    return data.not_compared if isinstance(data, DerivedProfile) else ()


def elsewhere_of(unit: Sequence[bytes]) -> list[tuple[str, ...]]:
    """For each of a unit's profiles the OCI names that the others have."""
    named = [architectures_of(data) for data in unit]
    return [tuple(oci for other, names in enumerate(named) if other != at for oci in names) for at in range(len(unit))]


def read_as(data: bytes, reading: str) -> ReadProfile:
    profile = type(data)(data) if isinstance(data, ReadProfile) else ReadProfile(data)
    profile.__dict__.update(getattr(data, "__dict__", {}), reading=reading)
    return profile


@functools.lru_cache(2)
def _top(data: bytes) -> dict[str, Any]:
    """The seccomp object of a profile, or of a whole config.json; nothing in it if it can't be read."""
    return entries.parse_seccomp(data, dict) or {}


def architectures_of(data: bytes) -> tuple[str, ...]:
    """The OCI names in a profile's list of architectures; none if it has no list, or it can't be read."""
    if b"architectures" not in data and b"\\u" not in data:
        return ()
    names = _top(data).get("architectures")
    return tuple(name for name in names if isinstance(name, str)) if isinstance(names, list) else ()


def default_of(data: bytes) -> Answer | None:
    """The answer of a profile to what it doesn't name; None if it can't be read."""
    top = _top(data)
    return entries.default_of(top) if isinstance(top.get("defaultAction"), str) else None


def entry_at(data: bytes, place: int) -> dict[str, Any] | None:
    """The entry at an index of `syscalls`, from 0 on, or None if it can't be read."""
    listed = _top(data).get("syscalls")
    return listed[place] if isinstance(listed, list) and place < len(listed) else None


@functools.lru_cache(2)
def names_of(data: bytes) -> list[str]:
    """The names of a profile's entries in order, with repetitions; none if they can't be read."""
    try:
        names = [name for entry in _top(data).get("syscalls") or () for name in entry["names"]]
    except (LookupError, TypeError):
        return []
    return names if all(isinstance(name, str) for name in names) else []


@functools.lru_cache(1024)
def folded(name: str) -> str:
    """A member's name as a Go program compares it; two names that fold to the same are one member to it."""
    return name.translate(_FOLD)


@dataclass(frozen=True)
class Misread:
    """A member that programs in Go read as another one: in another spelling, or repeated, where the last counts."""

    # the object that has it, as "entry 3: args 0"; "the profile" at the top
    where: str
    # its spelling, and the member that it is read as
    name: str
    read_as: str

    def describe(self) -> str:
        if self.name == self.read_as:
            return f"{self.where} has the member '{self.name}' more than once: programs in Go take the last"
        spelled = self.name.encode("ascii", "backslashreplace").decode()
        return f"{self.where} has a member '{spelled}', which programs in Go read as '{self.read_as}'"


class Pairs(list):
    """The members of an object in order, as pairs of a name and a value, with repeated ones."""


def where_in(where: str, step: str | int) -> str:
    """The name of a nested value, such as "entry 3: args 0", given what it is in, and the member or the index there."""
    if isinstance(step, int):
        return f"entry {step}" if where == "syscalls" else f"{where} {step}"
    return step if where == "the profile" or step == "syscalls" else f"{where}: {step}"


def _misread_in(value: object, kind: object, where: str) -> Iterator[Misread]:
    if isinstance(value, Pairs) and isinstance(kind, dict):
        names, seen = {folded(name): name for name in kind}, set()
        for name, inner in value:
            read_as = names.get(folded(name))
            if read_as is None:
                continue
            if name != read_as or name in seen:
                yield Misread(where, name, read_as)
            seen.add(name)
            yield from _misread_in(inner, kind[read_as], where_in(where, read_as))
    elif isinstance(value, list) and isinstance(kind, list):
        for index, item in enumerate(value):
            yield from _misread_in(item, kind[0], where_in(where, index))


def misread_members(data: bytes) -> list[Misread]:
    """The members of a profile, or a whole config.json, that Go programs read otherwise than scf, if it can be read."""
    try:
        top = json.loads(data.decode("utf-8"), object_pairs_hook=Pairs, parse_int=str, parse_float=str)
        return list(_misread_in(top, CONFIG_MEMBERS, "the profile"))
    except (ValueError, RecursionError):
        return []


def objects_in(value: dict[str, Any], name: str) -> Iterator[tuple[int, Any]]:
    """The objects in a member, if that is a list, each with its index."""
    listed = value.get(name)
    return ((at, each) for at, each in enumerate(listed if isinstance(listed, list) else ()) if isinstance(each, dict))


def parts_of(top: dict[str, Any]) -> Iterator[tuple[tuple[int, ...], Any, dict[str, Any]]]:
    """The profile, its entries and conditions: each with its indexes, as far as it is one, and the known members."""
    yield (), top, SECCOMP_MEMBERS
    for place, entry in objects_in(top, "syscalls"):
        yield (place,), entry, ENTRY
        yield from (((place, at), condition, ARGUMENT) for at, condition in objects_in(entry, "args"))


def unread_members(data: bytes) -> Iterator[tuple[str, str, Sequence[str]]]:
    """The members of a profile that no program reads, or Go's alone: where each is, its name, and the known ones."""
    top = _top(data)
    return ((PLACES[len(place)].format(*place), name, tuple(members))
            for place, value, members in (parts_of(top) if "defaultAction" in top else ())
            for name in value if name not in members and name != "comment")


def errno_by_name(data: bytes) -> str | None:
    """Where a profile has an errno by name, which only podman reads, or None if it has none."""
    top = _top(data) if any(member in data for member in (b'errno"', b'defaultErrno"', b"\\u")) else {}
    return next((f"{PLACES[len(place)].format(*place)} has {name} {json.dumps(value[name])}"
                 for place, value, members in parts_of(top) for name in ("defaultErrno", "errno")
                 if name in members and value.get(name)), None)


def _odd_value(text: str) -> str | None:
    """A sentence on the first value that Python's reader takes and scf's doesn't, if any. Raises TooManyTokens."""
    for at, path, token in json_places.values(text):
        why = None
        if token in ("NaN", "Infinity", "-Infinity"):
            why = f"is {token}, which isn't a JSON number"
        elif token[0] in "-0123456789" and len(token) <= entries.LONGEST_NUMBER and abs(float(token)) == float("inf"):
            why = "is a number out of range"
        elif token[0] == '"' and "\\u" in token and SURROGATE.search(json.loads(token)):
            why = "has an unpaired surrogate"
        if why is not None:
            return f"at {json_places.place(text, at)} {json_places.path_text(path) or 'the profile'} {why}"
    return None


def malformed(error: json.JSONDecodeError) -> str:
    """A sentence on what is malformed in a text, and where."""
    text, at = error.doc, error.pos
    if YAML_MEMBER.search(text) and text.lstrip()[:1] not in ("{", "["):
        return "it is YAML: convert it to JSON, as `yq -o json` does"
    mark, before, behind = text[at:at + 1], text[:at].rstrip()[-1:], text[at + 1:].lstrip()[:1]
    is_trailing = mark in ("]", "}") and before == "," or mark == "," and behind in ("]", "}")
    # what people take for JSON
    what = "a comment, which JSON doesn't allow," if text[at:at + 2] in ("//", "/*") or mark == "#" else \
        "a trailing comma, which JSON doesn't allow," if is_trailing else \
        "single quotes in place of double ones" if mark == "'" else \
        "a byte order mark, which JSON doesn't allow," if mark == "\ufeff" else None
    # where a comma lacks, the next value isn't the one that is meant
    within = json_places.where_in(text, at - ("delimiter" in error.msg))
    where = f"at {json_places.place(text, at)}"
    description = f"the JSON is malformed {where}: {error.msg}" if what is None else f"it has {what} {where}"
    return description + (f" ({within})" if within else "")


def where_json_ends(data: bytes) -> str:
    """Where and why a profile is malformed that scf refuses as `Json`."""
    try:
        text = data.decode("utf-8")
    except UnicodeDecodeError as error:
        before = data[:error.start].decode("utf-8")
        return f"the profile isn't UTF-8 from {json_places.place(before, len(before))} on"
    if not text.strip():
        return "the profile is empty"
    depth = 0
    try:
        for at, token in json_places.tokens(text):
            depth += {"[": 1, "{": 1, "]": -1, "}": -1}.get(token, 0)
            if depth > DEEPEST_JSON:
                return f"at {json_places.place(text, at)} the profile is nested more than {DEEPEST_JSON} deep"
    except json_places.TooManyTokens:
        pass

    def refuse(number: str) -> None:
        raise ValueError(f"the profile has {number}, which isn't a JSON number")

    why = "Python's JSON parser accepts it: look for unpaired surrogates, and for numbers out of range"
    try:
        json.loads(text, parse_int=str, parse_float=str, parse_constant=refuse)
    except json.JSONDecodeError as error:
        return malformed(error)
    except RecursionError:
        return f"the profile is nested more than {DEEPEST_JSON} deep"
    except ValueError as error:
        why = str(error)
    try:
        return _odd_value(text) or why
    except json_places.TooManyTokens:
        return why


@dataclass(frozen=True)
class Origin:
    """Where an entry of a resolved profile comes from: its index in the user's profile, and its first names there."""

    index: int
    names: str

    def describe(self) -> str:
        return f"entry {self.index}" + (f" ({self.names})" if self.names else "")
