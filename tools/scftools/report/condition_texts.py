"""Conditions on arguments as people read them, with the names of arguments and constants: domain in {AF_INET}."""
from __future__ import annotations

import functools
import operator
from collections.abc import Sequence

from ..base import program
from ..model import constants
from ..model.architectures import I386, Architecture
from ..model.constants import Family
from ..model.entries import AT_LEAST, AT_MOST, EQUAL, LOW_HALF, MASKED, NOT_EQUAL, Alternative, Condition

SIGNS = {EQUAL: "==", NOT_EQUAL: "!=", AT_MOST: "<=", AT_LEAST: ">="}
# So many alternatives on one argument or more are printed as a set of values, if it has at most so many.
LEAST_LISTED, MOST_VALUES = 4, 16
# The syscall of i386 whose first argument points to the others.
IN_MEMORY = (I386, "mmap")


@functools.lru_cache(None)
def argument_names() -> dict[str, list[str]]:
    """The names of tables/argument.names by their syscall; `-` for an argument without a name."""
    return {name: names for name, *names in map(str.split, program.table_lines("argument.names"))}


def name_of(syscall: str, index: int) -> str:
    names = argument_names().get(syscall, [])
    return names[index] if index < len(names) and names[index] != "-" else f"a{index}"


def _number(value: int) -> str:
    return str(value) if value < 10 else hex(value)


def _together(text: str) -> str:
    return f"({text})" if "|" in text else text


def _bits_text(value: int, family: Family | None) -> str:
    """Bits by the names that they have, and the others as a number."""
    if family is None or value > LOW_HALF:
        return _number(value)
    named_bits = value if family.bit_names(value) else sum(
        1 << at for at in range(32) if value >> at & 1 and family.bit_names(1 << at))
    names = family.bit_names(named_bits) if named_bits else None
    return _number(value) if names is None else names + (f"|{value - named_bits:#x}" if value > named_bits else "")


def _value_text(value: int, family: Family | None) -> str:
    """The value of an argument; one of which several bits have no names is a number."""
    shown = family.describe(value) if family is not None and value <= LOW_HALF else None
    unnamed = shown.rpartition("|0x")[2] if shown is not None and "|0x" in shown else "0"
    return _together(_number(value) if shown is None or bin(int(unnamed, 16)).count("1") > 1 else shown)


def _values_of(condition: Condition, bits: int) -> tuple[bool, set[int]] | None:
    """Whether a condition compares the lower half of 64 bits alone, and for which values, if these are few."""
    if condition.op == EQUAL:
        return False, {condition.value}
    is_half = bits > 32 and condition.value <= LOW_HALF
    free = [1 << at for at in range(32 if is_half else bits) if not condition.value >> at & 1]
    if condition.op != MASKED or 1 << len(free) > MOST_VALUES:
        return None
    values = {condition.two}
    for bit in free:
        values |= {value | bit for value in values}
    return is_half, values


def _set_text(name: str, is_half: bool, values: set[int], family: Family | None) -> str:
    """That some bits of an argument are one of some values."""
    of_bits = f"{name} & {_number(LOW_HALF)}" if is_half else name
    return f"{of_bits} in {{{', '.join(_value_text(value, family) for value in sorted(values))}}}"


def condition_text(condition: Condition, syscall: str, others: Alternative, architecture: str, bits: int = 64) -> str:
    """A condition on so many bits of an argument as people write it, among others that hold, on an OCI architecture."""
    syscall = syscall if (architecture, syscall) != IN_MEMORY else ""
    known_values = {beside.index: beside.value if beside.op == EQUAL else beside.two for beside in others
                    if beside.op == EQUAL or (beside.op, beside.value) == (MASKED, LOW_HALF)}
    family = constants.family_of(syscall, condition.index, known_values, architecture)
    name = name_of(syscall, condition.index)
    op, value, bits_met = condition.op, condition.value, condition.two
    if op == AT_MOST and family is not None and not family.mask and not value & value + 1 and family.bit_names(value):
        return f"{name} & ~{_together(_bits_text(value, family))} == 0"
    if op in (AT_MOST, AT_LEAST):
        return f"{name} {SIGNS[op]} {_number(value)}"
    if op != MASKED:
        return f"{name} {SIGNS[op]} {_value_text(value, family)}"
    met = _values_of(condition, bits)
    if met is not None and len(met[1]) > 1 and bits_met:
        differing = functools.reduce(operator.or_, (each ^ bits_met for each in met[1]))
        # (of bits with a name each the mask is shown)
        if family is None or differing & family.mask or family.bit_names(differing) is None:
            return _set_text(name, *met, family)
    is_half = value == LOW_HALF
    is_whole = is_half or family is not None and family.mask and value & family.mask == family.mask
    shown = _value_text(bits_met, family) if is_whole and (bits_met or is_half) else \
        _together(_bits_text(bits_met, family))
    # a mask is shown by the bits that it lacks if these are fewer
    lacking = ~value & (1 << bits) - 1
    is_inverse = bool(lacking) and bin(lacking).count("1") < bin(value).count("1")
    mask = _number(LOW_HALF) if is_half else \
        "~" * is_inverse + _together(_bits_text(lacking if is_inverse else value, family))
    return f"{name} & {mask} == {shown}"


def alternatives_text(alternatives: Sequence[Alternative], syscall: str, architecture: Architecture) -> str:
    """Conditions on the arguments of a syscall, of which some hold: one argument's values, or its lower half's, if all
    compare that alone and these are few."""
    met = [_values_of(condition, architecture.bits) for alternative in alternatives for condition in alternative]
    indices = {tuple(condition.index for condition in alternative) for alternative in alternatives}
    if len(met) == len(alternatives) >= LEAST_LISTED and len(indices) == 1 and None not in met and \
            len({is_half for is_half, _ in met}) == 1:
        values, index = set().union(*(values for _, values in met)), alternatives[0][0].index
        if len(values) <= MOST_VALUES:
            family = constants.family_of(syscall, index, {}, architecture.oci)
            return _set_text(name_of(syscall, index), met[0][0], values, family)
    return " or ".join(" and ".join(condition_text(condition, syscall, alternative, architecture.oci, architecture.bits)
                                    for condition in alternative) for alternative in alternatives)
