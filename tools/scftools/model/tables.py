"""Syscall tables: the names of numbers, which tables go with a profile, and what names are that no table has; and the
syscalls that make a sandbox useless."""
from __future__ import annotations

import functools
from collections.abc import Collection, Iterable, Mapping, Sequence

from ..base import inputs, program
from ..base.values import Pattern, dataclass, field
from . import architectures, profiles
from .architectures import JUDGED, NATIVE, Architecture
from .entries import MASKED, Condition

TABLE_LINE = Pattern(rb"(?m)^[ \t]*([A-Za-z_][A-Za-z0-9_]*)[ \t]+0*([0-9]{1,10})[ \t]*\r?$")
DANGEROUS_LINE = Pattern(r"(\w+) (?:\[(\d) has (0x[0-9a-f]+)\] )?(\S.*)")
# At most so many unknown names are listed, and longer ones get no nearest name.
MOST_LISTED, LONGEST_NAME = 20, 64
# The least similarity of a nearest name (difflib's ratio), two swapped letters in a name of four, and of a member.
NEAR, NEAR_MEMBER = 0.75, 0.7


def _blanked(name: str) -> list[str]:
    """A name with a blank for each letter in turn; not for a digit, since another digit may be a newer syscall's."""
    return [f"{name[:at]} {name[at + 1:]}" for at, letter in enumerate(name) if letter.isalpha()]


class Table:
    """A syscall table: its bytes, and its names, parsed when they are needed; lines that scf refuses are skipped."""

    def __init__(self, data: bytes):
        self.data = data

    @functools.cached_property
    def _parsed(self) -> tuple[dict[int, list[str]], dict[str, int]]:
        """The names of each number, and the number of each name."""
        names: dict[int, list[str]] = {}
        numbers: dict[str, int] = {}
        for entry in TABLE_LINE.finditer(self.data):
            name, number = entry[1].decode(), int(entry[2])
            names.setdefault(number, []).append(name)
            numbers.setdefault(name, number)
        return names, numbers

    def names_of(self, number: int) -> list[str]:
        return self._parsed[0].get(number, [])

    def number_of(self, name: str) -> int | None:
        return self.names().get(name)

    @functools.cached_property
    def of_slips(self) -> dict[str, str]:
        """The names by what they are with two neighbours exchanged, or with a blank for a letter."""
        exchanged = {name[:at] + name[at + 1] + name[at] + name[at + 2:]: name
                     for name in self.names() for at in range(len(name) - 1)}
        return {**exchanged, **{slip: name for name in self.names() for slip in _blanked(name)}}

    def names(self) -> Mapping[str, int]:
        """The names, each with its number."""
        return self._parsed[1]

    def numbers(self) -> Iterable[int]:
        return self._parsed[0].keys()

    def without(self, names: Collection[str]) -> Table:
        entries = [(line, TABLE_LINE.fullmatch(line)) for line in self.data.split(b"\n")]
        return Table(b"\n".join(line for line, entry in entries if entry is None or entry[1].decode() not in names))


def read_table(name: str | None, architecture: Architecture = JUDGED[NATIVE]) -> Table:
    """The table in a file, or by default the one of an architecture that comes with scf."""
    table = architecture_table(architecture.oci) if name is None else None
    return table or Table(inputs.read_whole(architecture.file if name is None else name, "table"))


@functools.lru_cache(None)
def architecture_table(name: str) -> Table | None:
    """The table that comes with scf of an OCI architecture, if one does. x32's has its numbers without 0x40000000."""
    try:
        with open(JUDGED[name].file, "rb") as file:
            return Table(file.read())
    except (KeyError, FileNotFoundError):
        return None


@dataclass(frozen=True)
class Tables:
    """The tables of the architectures that a profile is judged for, by OCI names in scf's order; how the profile is
    read; and the least number of a record that runc's stub answers, by architecture."""

    of: dict[str, Table]
    reading: str = profiles.STRICT
    stub: dict[str, int] = field(default_factory=dict)

    @property
    def is_native(self) -> bool:
        """Whether they are x86-64's alone."""
        return list(self.of) == [NATIVE]

    def numbers_of(self, name: str) -> dict[str, int]:
        """The numbers of a syscall in those that have it, by OCI names."""
        return {oci: table.names()[name] for oci, table in self.of.items() if name in table.names()}

    def number_of(self, name: str) -> int | None:
        """The number of a syscall in the first one that has it."""
        return next(iter(self.numbers_of(name).values()), None)

    @property
    def native(self) -> Table:
        """The table of x86-64, or of another one, where x86-64 isn't judged."""
        return self.of.get(NATIVE) or next(iter(self.of.values()))

    @property
    def words(self) -> list[str]:
        """The options by which scf judges these architectures, and reads the profile."""
        reading = [] if self.reading == profiles.STRICT else [f"--reading={self.reading}"]
        return [*([] if self.is_native else ["--architectures"]), *reading]

    @property
    def parts(self) -> list[tuple[str, bytes]]:
        stubs = [(f"stub-{JUDGED[name].kind}", str(first).encode()) for name, first in self.stub.items()
                 if name in self.of]
        return [*((JUDGED[name].kind, table.data) for name, table in self.of.items()), *stubs]


def architecture_tables(names: Iterable[str], table: Table, default: str = NATIVE) -> Tables:
    """The tables of those architectures with these OCI names that scf judges, with this one for x86-64's, or another's
    own; this one alone if scf judges none of them."""
    tables = {name: table if name == default else architecture_table(name) for name in JUDGED if name in set(names)}
    known_tables = {name: its for name, its in tables.items() if its is not None}
    return Tables(known_tables or {default: table})


def tables_of_profile(profile: bytes, table: Table, is_native: bool = False, default: str = NATIVE) -> Tables:
    """The tables of the architectures that a profile names, with this one for x86-64's, or another's own; on request
    this one alone. A profile that names none is for this machine's own, and one that a runtime reads for that, too."""
    reading, names = profiles.reading_of(profile), profiles.architectures_of(profile)
    if not names or reading not in profiles.BY_WORDS:
        names = (architectures.machine_architecture(), *names)
    tables = Tables({default: table}) if is_native else architecture_tables(names, table, default)
    absent = profile.absent if isinstance(profile, profiles.DerivedProfile) else {}
    return Tables({name: each.without(absent[name]) if name in absent else each for name, each in tables.of.items()},
                  reading)


@functools.lru_cache(None)
def names_elsewhere() -> set[str]:
    """The names of syscalls that Linux has only on other architectures."""
    try:
        return set(map(str.strip, program.table_lines("other_architectures.names")))
    except FileNotFoundError:
        return set()


@dataclass(frozen=True)
class Skipped:
    """The names in a profile that no table has, by what they are."""

    # Linux has them only on other architectures
    elsewhere: list[str]
    # x86-64 syscalls in the table that comes with scf, which this table leaves out
    left_out: list[str]
    # unknown names, each with the nearest name in a table
    unknown: list[tuple[str, str | None]]


def most_like(name: str, names: Iterable[str], least: float = NEAR) -> str | None:
    """The name most similar to this one, None if none is so similar, or if it is a long one."""
    if len(name) > LONGEST_NAME:
        return None
    from difflib import get_close_matches  # pylint: disable=import-outside-toplevel

    return next(iter(get_close_matches(name, list(names), 1, least)), None)


def nearest_member(name: str, members: Iterable[str]) -> str | None:
    """The member of an object most similar to this one, whatever its letters' case; None if none is similar."""
    by_letters = {member.lower(): member for member in members}
    return by_letters.get(most_like(name.lower(), by_letters, NEAR_MEMBER) or "")


def misspelt_as(name: str, *among: Table) -> str | None:
    """The name in the tables that this one is but for one letter, or for two neighbours that are exchanged."""
    forms = (name, *_blanked(name)) if len(name) <= LONGEST_NAME else ()
    return next((table.of_slips[form] for table in among for form in forms if form in table.of_slips), None)


def nearest(name: str, *among: Table) -> str | None:
    """The name in the tables most similar to this one in small letters, or None if none is similar."""
    return misspelt_as(name, *among) or most_like(
        name.lower(), dict.fromkeys(name for table in among for name in table.names()))


def classify(names: Sequence[str], judged: Tables) -> Skipped:
    """The kinds of names that no table has; each once, in order."""
    elsewhere, table = names_elsewhere(), read_table(None)
    skipped = Skipped([], [], [])
    for name in dict.fromkeys(names):
        if name in elsewhere:
            skipped.elsewhere.append(name)
        elif table.number_of(name) is not None:
            (skipped.left_out if NATIVE in judged.of else skipped.elsewhere).append(name)
        else:
            near = nearest(name, *judged.of.values()) if len(skipped.unknown) < MOST_LISTED else None
            skipped.unknown.append((name, near))
    return skipped


@dataclass(frozen=True)
class Dangerous:
    reason: str
    conditions: tuple[Condition, ...] = ()


@functools.lru_cache(None)
def dangerous() -> dict[str, Dangerous]:
    """The syscalls that make a sandbox useless, as tables/dangerous.calls lists them."""
    rows = (DANGEROUS_LINE.fullmatch(line.strip()).groups() for line in program.table_lines("dangerous.calls"))
    return {name: Dangerous(reason, (Condition(int(index), MASKED, int(bits, 16), int(bits, 16)),) if bits else ())
            for name, index, bits, reason in rows}
