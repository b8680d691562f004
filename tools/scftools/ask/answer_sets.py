"""Answer sets: for each syscall number of an architecture the answers that filters give, each with the arguments that
get it, by the regions of all records that scf finds.

What no profile can test has variables of its own: the bits of the instruction pointer, those of the upper half of an
argument of 32 bits, and whether a record is answered as an open region says. The results only propose profiles."""
from __future__ import annotations

from collections.abc import Sequence

from ..model.argument_sets import EMPTY_SET, FIRST_UNTESTED, FULL_SET, Sets
from ..model.calls import ARCHITECTURE, ARGUMENTS, END
from .regions import GREATEST_WORD, Numbers, Region, Word

# The first variable of the upper halves of arguments, and of open regions.
FIRST_UPPER, FIRST_OPEN = FIRST_UNTESTED + 32 * ARGUMENTS, FIRST_UNTESTED + 32 * END
# The answers to the syscalls of a number, each with its arguments; the first is None if it is computed.
Answers = "tuple[tuple[int | None, int], ...]"


def _of_word(sets: Sets, word: int, values: Word) -> int:
    index, half = divmod(word - ARGUMENTS, 2)
    is_tested = index >= 0 and 32 * half < sets.bits
    first = sets.bits * (index + 1) - 32 * (half + 1) if is_tested else FIRST_UNTESTED + 32 * word
    # the word's variables, the highest bit first
    variables, node = range(first, first + 32), EMPTY_SET

    def where(value: int, mask: int = GREATEST_WORD, greater: int = EMPTY_SET) -> int:
        # a node and its parts for each bit
        sets.spend(2 * len(variables))
        return sets.agreeing(variables, value, mask, greater)

    for low, high in values.intervals:
        above = where(low, greater=FULL_SET) if low else FULL_SET
        range_node = where(low) if low == high else above if high == GREATEST_WORD else \
            sets.without(above, where(high + 1, greater=FULL_SET))
        node = sets.either(node, range_node)
    if values.mask:
        node = sets.both(node, where(values.bits, values.mask))
    for mask, bits in values.refuted:
        node = sets.without(node, where(bits, mask))
    return node


def arguments_of(sets: Sets, region: Region) -> int:
    """The arguments of a region's records. Raises TooMany."""
    node = FULL_SET
    for word, values in region.words.items():
        node = sets.both(node, _of_word(sets, word, values)) if word > ARCHITECTURE else node
    return node


def of_numbers(sets: Sets, by_number: Numbers, numbers: Sequence[int]) -> list[Answers]:
    """For each of an architecture's numbers the answers to its syscalls. Raises TooMany."""
    memo: dict[int, int] = {}

    def of_region(region: Region) -> int:
        if id(region) not in memo:
            which = FULL_SET if region.is_exact else sets.node(FIRST_OPEN + len(memo), EMPTY_SET, FULL_SET)
            memo[id(region)] = sets.both(which, arguments_of(sets, region))
        return memo[id(region)]

    # many numbers have the same regions
    alike: dict[tuple[int, ...], Answers] = {}
    listed: list[Answers] = []
    for number in numbers:
        here = by_number.of(number)
        key = tuple(map(id, here))
        if key not in alike:
            answers: dict[int | None, int] = {}
            for region in here:
                word = None if region.answer is None else region.answer.word
                answers[word] = sets.either(answers.get(word, EMPTY_SET), of_region(region))
            alike[key] = tuple(answers.items())
        listed.append(alike[key])
    return listed
