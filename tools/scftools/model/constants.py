"""Arguments of syscalls, of which kind each is, and constants of C, by which they are given and shown: AF_INET.

tables/x86_64.arguments says how many arguments each syscall has and of which kind, and tables/x86_64.constants which
constants an argument may be. The constants' numbers on x86-64 are those of tables/arguments.symbols. On some other
architectures some have another number, or none (tables/arguments.unlike). For further ones no constant is known. """
from __future__ import annotations

import bisect
import functools
import re
from collections.abc import Mapping, Sequence

from ..base import program
from ..base.values import Pattern
from . import architectures, tables

# Of an argument the kernel reads 32 bits or fewer; a whole register; an address.
HALF, WHOLE, ADDRESS = "i", "w", "p"
# The syscalls that have other arguments on an architecture than on x86-64: clone, whose last two are swapped; of 32
# bits those with a number of 64, which takes two arguments; and on i386 those that read all of theirs from memory.
SWAPPED = ("clone",)
SPLIT_SYSCALLS = (*SWAPPED, "fadvise64", "fallocate", "fanotify_mark", "pread64", "pwrite64", "readahead",
                  "sync_file_range")
OTHER_KINDS = {**{name: SPLIT_SYSCALLS if row.register_bits == 32 else SWAPPED
                  for name, row in architectures.JUDGED.items() if row.swaps_clone},
               architectures.I386: (*SPLIT_SYSCALLS, "mmap", "select")}
C_IDENTIFIER = Pattern(r"[A-Za-z_]\w*", re.A)


@functools.lru_cache(None)
def kinds() -> dict[str, str]:
    """A letter for each argument of x86-64's syscalls, by their names."""
    rows = (line.split() for line in program.table_lines("x86_64.arguments"))
    return {name: letters.strip("-") for letters, *names in rows for name in names}


@functools.lru_cache(None)
def kinds_on(name: str) -> dict[str, str]:
    """The letters of arguments on an architecture by its OCI name, for syscalls whose arguments are those of x86-64."""
    others = OTHER_KINDS.get(name, ())
    return {called: letters for called, letters in kinds().items() if called not in others}


def number_in(text: str) -> int | None:
    """Parses a number as scf's options do: decimal, or hexadecimal after 0x."""
    if re.fullmatch("0[xX][0-9a-fA-F]{1,40}", text):
        return int(text, 16)
    return int(text) if re.fullmatch("[0-9]{1,40}", text) else None


@functools.lru_cache(None)
def numbers() -> dict[str, int]:
    """The constants and their numbers on x86-64."""
    return {name: int(number) for name, number in map(str.split, program.table_lines("arguments.symbols"))}


@functools.lru_cache(None)
def _unlike() -> dict[str, set[str]]:
    """By the OCI name of an architecture the constants that aren't there what they are on x86-64."""
    sets: dict[str, set[str]] = {architectures.NATIVE: set()}
    for architecture, *names in map(str.split, program.table_lines("arguments.unlike")):
        sets.setdefault(architectures.name_in(architecture) or architecture, set()).update(names)
    return sets


@functools.lru_cache(None)
def numbers_on(architecture: str) -> dict[str, int]:
    """The constants that are on the architecture of this OCI name what they are on x86-64, and their numbers."""
    unlike = _unlike().get(architecture)
    return {} if unlike is None else {name: number for name, number in numbers().items() if name not in unlike}


@functools.lru_cache(None)
def _ordered(architecture: str) -> list[str]:
    return sorted(numbers_on(architecture))


def number_of(name: str, architecture: str) -> int:
    """The number of a constant on the architecture of this OCI name; raises ToolError if it isn't known."""
    unlike = _unlike().get(architecture)
    shown = architecture.removeprefix(architectures.PREFIX).lower()
    if unlike is None:
        *first, last = (row.name for oci, row in architectures.JUDGED.items() if oci in _unlike())
        raise program.ToolError(f"constants are known for {', '.join(first)} and {last}: for {shown}, give the number "
                                f"of '{name}'")
    if name not in numbers():
        near = tables.most_like(name.upper(), numbers())
        raise program.ToolError(f"no constant is known by the name '{name}'"
                                + (f"; the nearest is {near}" if near else ""))
    if name in unlike:
        raise program.ToolError(f"{name} isn't the same on {shown} as on x86-64: give its number")
    return numbers()[name]


def argument_in(text: str, architecture: str) -> str:
    """An argument as scf takes it: given as a number, as a negative one (-1) of 64 bits, on i386 and arm 32, or as
    constants and numbers with `|`. What is neither is left to scf, which refuses it. Raises ToolError if a constant
    isn't known on the architecture of this OCI name."""
    row = architectures.JUDGED.get(architecture)
    number, width = number_in(text.removeprefix("-")), 64 if row is None else row.register_bits
    if text.startswith("-") and number is not None:
        if number > 1 << width - 1:
            raise program.ToolError(f"{text} has more than {width} bits")
        return hex(-number % (1 << width))
    parts = [part.strip() for part in text.split("|")]
    octal = next((part for part in parts if re.fullmatch("0[0-7]{1,30}", part) and int(part) != int(part, 8)), None)
    if octal is not None:
        raise program.ToolError(f"{octal} is ambiguous: write {hex(int(octal, 8))} for C's octal number, or "
                                f"{int(octal)} for the decimal one")
    if "|" not in text and not C_IDENTIFIER.fullmatch(text):
        return text
    value = 0
    for part in parts:
        number = number_in(part)
        if number is None and not C_IDENTIFIER.fullmatch(part):
            raise program.ToolError(f"'{text}' is neither a number nor constants joined by |")
        value |= number_of(part, architecture) if number is None else number
    return hex(value % (1 << width))


# More constants than these are shown as a number, and of so many zeros at the end of a call each by itself. Numbers
# below SMALL are shown in decimal, and negative ones down to its negative.
MOST_NAMES_OF_VALUE, MOST_ZEROS, SMALL = 6, 2, 1 << 16
WORD_VALUES, REGISTER_VALUES = 1 << 32, 1 << 64


class Family:
    """The constants of one kind of argument on an architecture, by the table's words: the mask, and names, or the
    beginnings of names before `*`, that are in the family, or after `-` are not. The bits of `mask` are one number, by
    `of_mask`; each other bit, or some bits together, has a name of its own in `bits`. Of two constants with one number
    the first in the list of numbers is kept."""

    def __init__(self, words: Sequence[str], architecture: str):
        masks = [word for word in words if word.startswith("0")]
        patterns = [word for word in words if not word.startswith("0")]
        self.mask = int(masks[-1], 0) if masks else 0
        self.of_mask: dict[int, str] = {}
        self.bits: dict[int, str] = {}
        # of each constant the index of its pattern
        self.ranks: dict[str, int] = {}
        rank_of: dict[str, int] = {}
        ordered = _ordered(architecture)
        for rank, pattern in enumerate(patterns):
            name = pattern.strip("-*")
            begin = bisect.bisect_left(ordered, name)
            end = bisect.bisect_left(ordered, name + "~") if pattern.endswith("*") else bisect.bisect(ordered, name)
            rank_of.update(dict.fromkeys(ordered[begin:end], rank))
        numbers_by_name = numbers_on(architecture)
        for name in filter(rank_of.__contains__, numbers_by_name):
            number, rank = numbers_by_name[name], rank_of[name]
            # a bit of the sign of 32 bits would be 33 bits of a register
            if not patterns[rank].startswith("-") and number > -SMALL:
                number, self.ranks[name] = number % WORD_VALUES, rank
                if number & ~self.mask == 0:
                    self.of_mask.setdefault(number, name)
                elif number & self.mask == 0:
                    self.bits.setdefault(number, name)
        # what has more bits goes first, as O_SYNC before O_DSYNC
        self.bits = dict(sorted(self.bits.items(), key=lambda item: (-bin(item[0]).count("1"), item[0])))

    def describe(self, value: int) -> str | None:
        """A value below 2^32 by its constants, or None if it has none."""
        low, remainder = value & self.mask, value & ~self.mask
        names = [self.of_mask[low]] if low in self.of_mask and (low or self.mask or not remainder) else []
        named, remainder = self._of_bits(remainder if names else remainder + low)
        names += named
        if not names or len(names) > MOST_NAMES_OF_VALUE:
            return None
        return "|".join(sorted(names, key=self.ranks.__getitem__) + ([hex(remainder)] if remainder else []))

    def _of_bits(self, value: int) -> tuple[list[str], int]:
        """The constants of bits, and those bits that have none."""
        names = []
        for number, name in self.bits.items():
            if value & number == number:
                names.append(name)
                value -= number
        return names, value

    def bit_names(self, value: int) -> str | None:
        """A mask below 2^32 by the constants of its bits, or None if one of them has none."""
        names, remainder = self._of_bits(value)
        return "|".join(sorted(names, key=self.ranks.__getitem__)) if names and not remainder else None


@functools.lru_cache(None)
def _words() -> tuple[dict[str, list[str]], dict[str, list[str]]]:
    """The words of each family by its name, and the family of each argument by the syscall, `-` for none."""
    families: dict[str, list[str]] = {}
    calls: dict[str, list[str]] = {}
    for first, *words in map(str.split, program.table_lines("x86_64.constants")):
        if first == "=":
            families.setdefault(words[0], []).extend(words[1:])
        else:
            calls[first] = words
    return families, calls


@functools.lru_cache(None)
def _family(name: str, architecture: str) -> Family:
    return Family(_words()[0][name], architecture)


def _value_text(value: int, kind: str, family: Family | None) -> str:
    """An argument as C would have it. Of an `int` the sign of 64 bits is that of 32."""
    masked = value
    if kind == HALF and value >= REGISTER_VALUES - WORD_VALUES // 2:
        masked = value % WORD_VALUES
    named = family.describe(masked) if family is not None and masked < WORD_VALUES else None
    if named is not None:
        return named
    if kind == ADDRESS:
        return hex(value) if value else "NULL"
    if value >= REGISTER_VALUES - SMALL:
        return str(value - REGISTER_VALUES)
    return str(value) if value < SMALL else hex(value)


def family_of(name: str, index: int, values: Mapping[int, int],
              architecture: str = architectures.NATIVE) -> Family | None:
    """The constants of an argument on an OCI architecture, given the arguments that are known, by their indices."""
    families, calls = _words()
    words = calls.get(name, [])
    first = next((at for at, word in enumerate(words) if word in families), index)
    if first != index and values.get(first, WORD_VALUES) < WORD_VALUES:
        words = calls.get(f"{name}[{_family(words[first], architecture).describe(values[first])}]", words)
    return _family(words[index], architecture) if index < len(words) and words[index] in families else None


def call_text(name: str, values: Sequence[int]) -> str:
    """A syscall of x86-64 as C would have it: socket(AF_NETLINK, 0, NETLINK_AUDIT). `..` stands for three zeros or more
    at the end; syscall(SYS_NAME, ..) for a call with more arguments than it is known to have."""
    letters = kinds().get(name, "")
    is_whole = name in kinds() and not any(values[len(letters):])
    shown = []
    for index, value in enumerate(values[:len(letters)] if is_whole else values):
        kind = letters[index] if index < len(letters) else WHOLE
        shown.append(_value_text(value, kind, family_of(name, index, dict(enumerate(values)))))
    zeros = next((at for at, value in enumerate(reversed(values[:len(shown)])) if value), len(shown))
    if zeros > MOST_ZEROS:
        shown = [*shown[:len(shown) - zeros], ".."]
    return f"{name}({', '.join(shown)})" if is_whole else f"syscall({', '.join([f'SYS_{name}', *shown])})"
