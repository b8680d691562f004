"""Covers of sets of syscall arguments.

A cover of a set is few alternatives of conditions, as entries of a profile have them, that together hold of it. An
alternative has at most one condition on an argument. Of a cover that lists values each begins at arguments of the set
that no other one covers; then each condition is made as wide as the set allows. If these are many, the set is divided
by its bits, one after the other, and masks join what they can.
"""
from __future__ import annotations

import itertools
from collections.abc import Iterable, Iterator, Sequence

from ..model.argument_sets import ARGUMENT_COUNT, EMPTY_SET, FULL_SET, Sets, Steps, TooMany
from ..model.entries import EQUAL, HOLDS, LOW_HALF, MASKED, Alternative, Condition

# The most alternatives for all sets of a table together, as many rules as scf takes.
MOST_ALTERNATIVES = 4096
# Values that follow each other are listed one by one up to so many; and a set's up to so many, which more masks than
# the third number never join. For each alternative of a list so many orders of the arguments are tried.
MOST_LISTED_VALUES, ALL_LISTED, MOST_JOINED, ORDERS = 3, 8, 32, 6

# Bits of all arguments and their values, the lowest one being that of argument 0, and conditions on whole arguments.
Cube = "tuple[int, int, Alternative]"


def _ranges(sets: Sets, values: int, index: int) -> Iterator[Condition]:
    """Conditions but masks that hold of some of an argument's values only: all but one, up to one, from one on."""
    others = sets.complement(values)
    if others == EMPTY_SET or values == EMPTY_SET:
        return
    if sets.weight(others) << sets.bits == sets.weight(FULL_SET):
        yield Condition(index, "SCMP_CMP_NE", sets.least(others)[index], 0)
        return
    after_first, before_last = sets.least(others)[index], sets.least(others, True)[index]
    if after_first > 1:
        yield Condition(index, "SCMP_CMP_LE", after_first - 1, 0)
    if before_last < sets.most - 1:
        yield Condition(index, "SCMP_CMP_GE", before_last + 1, 0)


class _Listing:
    """The search for a cover that lists values."""

    def __init__(self, sets: Sets, whole: int):
        self.sets, self.whole, self.outside = sets, whole, sets.complement(whole)
        self.indices = sorted({variable // sets.bits for variable in sets.variables(whole)})

    def _cube(self, values: int, index: int, value: int) -> Condition:
        """A wide masked condition that holds of a value, and only of some values. Of a half that is compared as a
        whole, or from some bit on, only the lowest bits are dropped, to cover a long run."""
        (first, last), width = self.sets.run_around(values, index, value), self.sets.bits
        lowest = 0
        while last - first >= MOST_LISTED_VALUES and value & ~((2 << lowest) - 1) >= first and \
                value | (2 << lowest) - 1 <= last:
            lowest += 1
        matter = {width - 1 - variable % width for variable in self.sets.variables(values)}
        kept_bits = 0
        for half in range(0, width, 32):
            bits = range(min((bit for bit in matter if half <= bit < half + 32), default=half + 32), half + 32)
            if matter.issuperset(bits):
                kept_bits |= sum(1 << bit for bit in bits if bit >= lowest)
        mask = self.sets.widest_mask(values, index, value, lowest, kept_bits)
        return Condition(index, "SCMP_CMP_MASKED_EQ", mask, value & mask)

    def _alternative(self, arguments: Sequence[int], order: Sequence[int]) -> Alternative:
        """An alternative that holds of these arguments, made as wide as the set allows, in this order."""
        sets, conditions = self.sets, {index: Condition(index, EQUAL, arguments[index], 0) for index in self.indices}
        for index in order:
            own, value = conditions.pop(index), arguments[index]
            others = sets.of_conditions(conditions[at] for at in self.indices if at in conditions)
            values = sets.complement(sets.of_argument(sets.both(others, self.outside), index))
            # the widest one that holds of the value, and only of some values; none if of all
            if values != FULL_SET:
                ranges = (each for each in _ranges(sets, values, index) if HOLDS[each.op](value, each.value, each.two))
                conditions[index] = max((own, *ranges, self._cube(values, index, value)),
                                        key=lambda candidate: sets.weight(sets.of_condition(candidate)))
        return tuple(conditions[index] for index in self.indices if index in conditions)

    def find(self) -> list[Alternative] | None:
        """The alternatives, each of which covers the most of what is left from its least on; None if too many."""
        sets, uncovered, alternatives = self.sets, self.whole, []
        while uncovered != EMPTY_SET:
            if len(alternatives) == ALL_LISTED:
                return None
            arguments = sets.least(uncovered)
            candidates = {self._alternative(arguments, order): None
                          for order in itertools.islice(itertools.permutations(self.indices), ORDERS)}
            alternatives.append(max(candidates, key=lambda candidate: (
                sets.weight(sets.both(uncovered, sets.of_conditions(candidate))), -len(candidate))))
            uncovered = sets.without(uncovered, sets.of_conditions(alternatives[-1]))
        return alternatives


class _Joining:
    """The search for a cover by masks that join what they can, and by ranges of an argument. Sets are divided as by S.
    Minato (Fast Generation of Irredundant Sum-of-Products Forms, 1992)."""

    def __init__(self, sets: Sets):
        self.sets = sets
        self._known: dict[tuple[int, int], tuple[tuple[Cube, ...], int]] = {}

    def within(self, least: int, most: int) -> tuple[tuple[Cube, ...], int]:
        """Cubes that together have all of one set, and only what is in another; and what they have."""
        if least == EMPTY_SET:
            return (), EMPTY_SET
        if most == FULL_SET:
            return ((0, 0, ()),), FULL_SET
        if (least, most) not in self._known:
            variable = min(self.sets.nodes[least][0], self.sets.nodes[most][0])
            found = self._divided(variable, least, most)
            index, at = divmod(variable, self.sets.bits)
            ranged, covered = (), EMPTY_SET
            for cubes, node in self._ranged(index, most) if at == 0 else ():
                both = self.sets.either(covered, node)
                others, joined = self._divided(variable, self.sets.without(least, both), most)
                if len(ranged) + len(cubes) + len(others) < len(found[0]):
                    ranged, covered = (*ranged, *cubes), both
                    found = (*ranged, *others), self.sets.either(covered, joined)
            if len(found[0]) > MOST_ALTERNATIVES:
                raise TooMany
            self._known[least, most] = found
        return self._known[least, most]

    def _ranged(self, index: int, most: int) -> Iterator[tuple[Sequence[Cube], int]]:
        """Cubes of a set that begin with a condition on an argument other than a mask, beside each set of what is
        behind that argument, if these are few; and what they have."""
        sets, end = self.sets, self.sets.bits * (index + 1)
        seen, pending, rests = {EMPTY_SET}, [most], []
        while pending:
            now = pending.pop()
            if now not in seen:
                seen.add(now)
                variable, *parts = sets.nodes[now]
                (rests if variable >= end else pending).extend([now] if variable >= end else parts)
        sets.spend(len(seen))
        for rest in rests if len(rests) <= ALL_LISTED else ():
            values = sets.complement(sets.for_some(sets.without(rest, most), end))
            for condition in _ranges(sets, values, index):
                yield [(mask, value, (condition, *ranges)) for mask, value, ranges in self.within(rest, rest)[0]], \
                    sets.both(sets.of_condition(condition), rest)

    def _divided(self, variable: int, least: int, most: int) -> tuple[tuple[Cube, ...], int]:
        """The same by a variable: where it must be 0, where it must be 1, and where it doesn't matter."""
        if least == EMPTY_SET:
            return (), EMPTY_SET
        sets = self.sets
        (low, high), (most_low, most_high) = sets.parts(least, variable), sets.parts(most, variable)
        index, at = divmod(variable, sets.bits)
        bit = 1 << (sets.bits * (index + 1) - 1 - at)
        if high == EMPTY_SET and most_low == FULL_SET and low:
            # (so of bits that aren't all alike each is compared with the next one, and the last with the first)
            return ((bit, 0, ()),), sets.node(variable, FULL_SET, EMPTY_SET)
        zeros, zero = self.within(sets.without(low, most_high), most_low)
        ones, one = self.within(sets.without(high, most_low), most_high)
        rest = sets.either(sets.without(low, zero), sets.without(high, one))
        others, other = self.within(rest, sets.both(most_low, most_high))
        return ((*others, *((mask | bit, value, ranges) for mask, value, ranges in zeros),
                 *((mask | bit, value | bit, ranges) for mask, value, ranges in ones)),
                sets.either(other, sets.node(variable, zero, one)))

    def find(self, whole: int) -> list[Alternative]:
        width, most, alternatives = self.sets.bits, self.sets.most, []
        for mask, value, ranges in self.within(whole, whole)[0]:
            of_bits = [Condition(index, "SCMP_CMP_EQ", value >> width * index & most, 0) if own == most else
                       Condition(index, "SCMP_CMP_MASKED_EQ", own, value >> width * index & most)
                       for index in range(ARGUMENT_COUNT) for own in [mask >> width * index & most] if own]
            alternatives.append((*sorted((*ranges, *of_bits), key=lambda condition: condition.index),))
        return alternatives


# The first of several tests of an alternative: a half of an argument, and bits of it with their values.
FirstTest = "tuple[tuple[int, int], int, int]"


def _first_test(sets: Sets, alternative: Alternative) -> FirstTest | None:
    """The first half of an argument that an alternative tests, if it tests more than one, and that one by a mask."""
    tests = []
    for condition in alternative:
        mask, value = {EQUAL: (sets.most, condition.value), MASKED: (condition.value, condition.two)}.get(
            condition.op, (0, 0))
        halves = [((condition.index, half), mask >> half & LOW_HALF, value >> half & LOW_HALF) for half in (32, 0)]
        tests += [test for test in halves if test[1]] or [((condition.index, 0), 0, 0)]
    return tests[0] if len(tests) > 1 and tests[0][1] else None


def _apart(sets: Sets, alternative: Alternative, others: Iterable[FirstTest]) -> Alternative:
    """An alternative with more bits in its first test, such that no other first test of that half holds beside it."""
    own = _first_test(sets, alternative)
    if own is None or alternative[0].op != MASKED:
        return alternative
    (index, half), mask, value = own
    for where, other_mask, other_value in others:
        more = other_mask & ~mask
        if where == (index, half) and not (value ^ other_value) & mask & other_mask and more:
            bit = more & -more
            mask, value = mask | bit, value | bit & ~other_value
    first, *behind = alternative
    return Condition(index, MASKED, first.value | mask << half, first.two | value << half), *behind


def _kept_apart(sets: Sets, alternatives: Sequence[Alternative]) -> list[Alternative]:
    """The alternatives with first tests that are apart as far as the ones before cover what that leaves out: a
    comparison asks one test after the other, and follows each choice of those that may hold at once."""
    kept, before, tests = [], EMPTY_SET, {}
    for alternative in alternatives:
        narrow = _apart(sets, alternative, tests)
        if narrow != alternative:
            before, node = before or sets.union(map(sets.of_conditions, kept)), sets.of_conditions(alternative)
            if sets.without(node, sets.either(sets.of_conditions(narrow), before)) == EMPTY_SET:
                alternative = narrow
        before = before and sets.either(before, sets.of_conditions(alternative))
        kept.append(alternative)
        tests.update(dict.fromkeys(filter(None, [_first_test(sets, alternative)])))
    return kept


def _without_needless(sets: Sets, alternatives: Sequence[Alternative]) -> list[Alternative]:
    """The alternatives that cover something which the others don't."""
    nodes = [sets.of_conditions(alternative) for alternative in alternatives]
    # what the later ones cover
    behind = [EMPTY_SET, *itertools.accumulate(reversed(nodes[1:]), sets.either)]
    needed, before = [], EMPTY_SET
    for at, node in enumerate(nodes):
        if sets.without(node, sets.either(before, behind[-1 - at])):
            needed.append(alternatives[at])
            before = sets.either(before, node)
    return needed


class Covers:
    """The covers of some sets, each found once. A search takes at most half of the steps that are left."""

    def __init__(self, sets: Sets):
        self.sets, self._count = sets, 0
        self._found: dict[int, list[Alternative] | None] = {FULL_SET: [()]}

    def of_set(self, arguments: int) -> list[Alternative] | None:
        """Alternatives that together hold of exactly these arguments; None if they are too many."""
        if arguments in self._found:
            return self._found[arguments]
        alternatives = None
        if self._count <= MOST_ALTERNATIVES:
            steps = Steps(self.sets.steps.remaining // 2)
            sets = Sets(self.sets.bits, steps)
            try:
                whole = sets.copy(arguments, self.sets)
                alternatives = _Joining(sets).find(whole)
                if len(alternatives) <= MOST_JOINED:
                    alternatives = _without_needless(sets, _Listing(sets, whole).find() or alternatives)
                if len(alternatives) > ALL_LISTED:
                    alternatives = _kept_apart(sets, alternatives)
            except TooMany:
                alternatives = None
            self.sets.spend(steps.most - max(steps.remaining, 0))
            self._count += len(alternatives or ())
        self._found[arguments] = alternatives
        return alternatives
