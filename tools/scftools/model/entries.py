"""The entries of a profile as scf reads them."""
from __future__ import annotations

import json
from collections.abc import Callable, Iterable, Sequence

from ..base.values import Any, dataclass
from .answers import Answer

# No number that scf takes has more digits.
LONGEST_NUMBER = 40
# What each comparison tests of an argument and its value; for masks the value is the mask.
HOLDS = {
    "SCMP_CMP_NE": lambda argument, value, two: argument != value,
    "SCMP_CMP_LT": lambda argument, value, two: argument < value,
    "SCMP_CMP_LE": lambda argument, value, two: argument <= value,
    "SCMP_CMP_EQ": lambda argument, value, two: argument == value,
    "SCMP_CMP_GE": lambda argument, value, two: argument >= value,
    "SCMP_CMP_GT": lambda argument, value, two: argument > value,
    "SCMP_CMP_MASKED_EQ": lambda argument, value, two: argument & value == two & value,
}
# The greatest value of an argument, and of its lower half.
GREATEST_VALUE, LOW_HALF = (1 << 64) - 1, (1 << 32) - 1
# The operators that the tools themselves write.
EQUAL, NOT_EQUAL, AT_LEAST, AT_MOST, MASKED = (f"SCMP_CMP_{name}" for name in ("EQ", "NE", "GE", "LE", "MASKED_EQ"))


@dataclass(frozen=True)
class Condition:
    index: int
    op: str
    value: int
    two: int

    def as_json(self) -> dict[str, object]:
        return {"index": self.index, "value": self.value, "valueTwo": self.two, "op": self.op}


# Conditions that hold together.
Alternative = tuple[Condition, ...]


@dataclass(frozen=True)
class Entry:
    """An entry of `syscalls`: those of its names that the table has, each once, and whether it has others."""

    place: int
    names: tuple[str, ...]
    answer: Answer
    conditions: tuple[Condition, ...]
    has_others: bool = False

    @property
    def alternatives(self) -> Sequence[Sequence[Condition]]:
        """Its conditions, which hold at once; of two on one argument, which only runtimes' readings have, each."""
        is_repeated = len({condition.index for condition in self.conditions}) < len(self.conditions)
        return [(condition,) for condition in self.conditions] if is_repeated else [self.conditions]

    def is_met(self, arguments: Sequence[int]) -> bool:
        return any(all(HOLDS[condition.op](arguments[condition.index], condition.value, condition.two)
                       for condition in conditions) for conditions in self.alternatives)

    def as_json(self) -> dict[str, object]:
        return {"names": list(self.names), **self.answer.members(),
                "args": [condition.as_json() for condition in self.conditions]}


class Object(dict):
    """A JSON object, and the names of repeated members; a null member is absent."""

    # a profile may have a million objects
    __slots__ = ("repeated",)

    def __init__(self, pairs: Sequence[tuple[str, Any]]):
        super().__init__(pairs)
        self.repeated: tuple[str, ...] = ()
        if len(self) < len(pairs):
            seen: set[str] = set()
            # `add` returns None, so a name is kept if it was seen before
            self.repeated = tuple(dict.fromkeys(name for name, _ in pairs if name in seen or seen.add(name)))
        if None in self.values():
            for name in [name for name, value in self.items() if value is None]:
                del self[name]


def parse_seccomp(data: bytes, make: Callable[[Any], dict] = Object) -> Any:
    """The seccomp object of a profile or a whole config.json, with objects that are made so; None if it can't be read.
    A number larger than any that scf takes stays a string, and so does a fraction."""
    def whole(text: str) -> int | str:
        return int(text) if len(text) <= LONGEST_NUMBER else text

    try:
        top = json.loads(data.decode("utf-8"), object_pairs_hook=make, parse_int=whole, parse_float=str)
        if isinstance(top, dict) and top.get("defaultAction") is None and top.get("linux") is not None:
            top = top["linux"]["seccomp"]
    except (ValueError, LookupError, TypeError, RecursionError):
        return None
    return top if isinstance(top, dict) else None


def default_of(top: Object) -> Answer:
    return Answer.of_profile(top["defaultAction"], top.get("defaultErrnoRet"))


def entry_of(place: int, entry: Object, number_of: Callable[[str], int | None]) -> Entry:
    conditions = tuple(Condition(condition["index"], condition["op"], condition["value"], condition.get("valueTwo", 0))
                       for condition in entry.get("args", []))
    names = dict.fromkeys(entry["names"])
    known_names = tuple(name for name in names if number_of(name) is not None)
    answer = Answer.of_profile(entry["action"], entry.get("errnoRet"))
    return Entry(place, known_names, answer, conditions, len(known_names) < len(names))


def entries_of(top: Object, number_of: Callable[[str], int | None], places: Iterable[int] | None = None) -> list[Entry]:
    """The entries, by their indexes; or by their places in a profile that this one was made of, where those behind the
    first of a place are rules that libseccomp adds."""
    indexed: dict[int, Object] = {}
    listed = top.get("syscalls", [])
    for place, entry in zip(range(len(listed)) if places is None else places, listed):
        indexed.setdefault(place, entry)
    return [entry_of(place, entry, number_of) for place, entry in indexed.items()]
