"""Sets of syscall arguments as binary decision diagrams: ordered and reduced, so that equal sets are equal numbers.

A variable is a bit of an argument, from the highest bit of argument 0 to the lowest of argument 5. The variables from
`FIRST_UNTESTED` on stand for what a profile can't test. The results only propose profiles, which scf compares."""
from __future__ import annotations

import functools
from collections.abc import Iterable

from .entries import Condition

# The sets without and with all arguments.
EMPTY_SET, FULL_SET = 0, 1
ARGUMENT_COUNT = 6
# The first variable that isn't a bit of an argument; the most steps of a run without --limit, of which containers'
# filters take a hundredth and browsers' up to half; and for how many steps there may be a node.
FIRST_UNTESTED, MOST_STEPS, NODE = 64 * ARGUMENT_COUNT, 1 << 20, 2
# Behind all variables.
LEAF_VARIABLE = 1 << 32


class TooMany(Exception):
    """The sets have more nodes, or took more steps, than they may."""


class Steps:
    """The steps that sets may take, and how many of them are left; each takes a microsecond or two."""

    def __init__(self, most: int = MOST_STEPS) -> None:
        self.most = self.remaining = most

    def spend(self, steps: int) -> None:
        """Counts steps. Raises TooMany."""
        self.remaining -= steps
        if self.remaining < 0:
            raise TooMany


class Sets:
    """All sets that were made, by their numbers; of arguments with so many bits, 64 or 32."""

    def __init__(self, bits: int, steps: Steps) -> None:
        self.bits, self.most = bits, (1 << bits) - 1
        # of each set the variable that divides it, and its parts where that is 0 and 1
        self.nodes: list[tuple[int, int, int]] = [(LEAF_VARIABLE, EMPTY_SET, EMPTY_SET),
                                                  (LEAF_VARIABLE, FULL_SET, FULL_SET)]
        self._numbers: dict[tuple[int, int, int], int] = {}
        self._memo: dict[tuple[int, int, int], int] = {}
        self._negated = {EMPTY_SET: FULL_SET, FULL_SET: EMPTY_SET}
        self._weights = {EMPTY_SET: 0, FULL_SET: 1 << FIRST_UNTESTED}
        # of each projection, by its bounds, the sets that were projected
        self._projected: dict[tuple[int, int], dict[int, int]] = {}
        self._variables: dict[int, frozenset[int]] = {}
        self.steps = steps
        self.spend = steps.spend

    def node(self, variable: int, low: int, high: int) -> int:
        if low == high:
            return low
        key = variable, low, high
        number = self._numbers.get(key)
        if number is None:
            if NODE * len(self.nodes) > self.steps.most:
                raise TooMany
            number = self._numbers[key] = len(self.nodes)
            self.nodes.append(key)
        return number

    def _join(self, first_node: int, second_node: int, end: int) -> int:
        """The intersection of two sets, if `end` is NONE, which ends it, or the union, if it is ALL."""
        if first_node > second_node:
            first_node, second_node = second_node, first_node
        if first_node in (end, second_node):
            return first_node
        if first_node <= FULL_SET:
            return second_node
        key = first_node, second_node, end
        joined = self._memo.get(key)
        if joined is None:
            self.spend(1)
            first, low, high = self.nodes[first_node]
            second, other_low, other_high = self.nodes[second_node]
            if first > second:
                low = high = first_node
            elif second > first:
                other_low = other_high = second_node
            joined = self._memo[key] = self.node(min(first, second), self._join(low, other_low, end),
                                                self._join(high, other_high, end))
        return joined

    def parts(self, node: int, variable: int) -> tuple[int, int]:
        """The parts of a set where a variable is 0 and 1, on none before which it depends."""
        first, *parts = self.nodes[node]
        return (parts[0], parts[1]) if first == variable else (node, node)

    def both(self, first: int, second: int) -> int:
        """The intersection."""
        return self._join(first, second, EMPTY_SET)

    def either(self, first: int, second: int) -> int:
        """The union."""
        return self._join(first, second, FULL_SET)

    def complement(self, node: int) -> int:
        negated = self._negated.get(node)
        if negated is None:
            self.spend(1)
            variable, low, high = self.nodes[node]
            negated = self.node(variable, self.complement(low), self.complement(high))
            self._negated[node], self._negated[negated] = negated, node
        return negated

    def without(self, node: int, excluded: int) -> int:
        return self.both(node, self.complement(excluded))

    def union(self, nodes: Iterable[int]) -> int:
        return functools.reduce(self.either, nodes, EMPTY_SET)

    def copy(self, node: int, theirs: Sets) -> int:
        memo = {EMPTY_SET: EMPTY_SET, FULL_SET: FULL_SET}

        def visit(now: int) -> int:
            if now not in memo:
                self.spend(1)
                variable, low, high = theirs.nodes[now]
                memo[now] = self.node(variable, visit(low), visit(high))
            return memo[now]

        return visit(node)

    def weight(self, node: int) -> int:
        """How many arguments a set has; one that depends on other variables has no whole number of them."""
        weight = self._weights.get(node)
        if weight is None:
            self.spend(1)
            _, low, high = self.nodes[node]
            weight = self._weights[node] = (self.weight(low) + self.weight(high)) >> 1
        return weight

    def variables(self, node: int) -> frozenset[int]:
        if node not in self._variables:
            seen, pending = {EMPTY_SET, FULL_SET}, [node]
            while pending:
                now = pending.pop()
                if now not in seen:
                    seen.add(now)
                    pending += self.nodes[now][1:]
            self.spend(len(seen))
            self._variables[node] = frozenset(self.nodes[visited][0] for visited in seen if visited > FULL_SET)
        return self._variables[node]

    def for_some(self, node: int, first: int, end: int = LEAF_VARIABLE) -> int:
        """The projection of a set: what is in it for some values of the variables from `first` up to `end`."""
        memo = self._projected.setdefault((first, end), {})

        def visit(now: int) -> int:
            variable, low, high = self.nodes[now]
            if variable >= end:
                return now
            if variable >= first and end == LEAF_VARIABLE:
                return FULL_SET
            if now not in memo:
                self.spend(1)
                parts = visit(low), visit(high)
                memo[now] = self.either(*parts) if variable >= first else self.node(variable, *parts)
            return memo[now]

        return visit(node)

    def possible(self, node: int) -> int:
        """The arguments that are in a set for some value of the variables that aren't bits of arguments."""
        return self.for_some(node, FIRST_UNTESTED)

    def of_argument(self, node: int, index: int) -> int:
        """The values of an argument in a set, as the set of all arguments with such a value."""
        return self.for_some(self.for_some(node, self.bits * (index + 1)), 0, self.bits * index)

    def run_around(self, node: int, index: int, value: int) -> tuple[int, int]:
        """The first and the last value of the longest run of values of an argument around one that is in a set."""
        others, above = self.complement(node), self.cube(index, value, self.most, FULL_SET)
        before, after = self.without(others, above), self.both(others, above)
        return (self.least(before, True)[index] + 1 if before else 0,
                self.least(after)[index] - 1 if after else self.most)

    def _has(self, node: int, index: int, value: int) -> bool:
        """Whether a set of an argument's values has this one."""
        while node > FULL_SET:
            variable, *parts = self.nodes[node]
            node = parts[value >> (self.bits * (index + 1) - 1 - variable) & 1]
        return node == FULL_SET

    def widest_mask(self, node: int, index: int, value: int, lowest: int, kept_bits: int) -> int:
        """A mask such that all values of an argument that agree in it with one are in a set of its values. It has the
        bits to be kept. It lacks the lowest bits, so many of them, which must be possible, those that don't matter, and
        as many others as can be dropped, from the highest on."""
        some_other = self.for_some(self.complement(node), self.bits * (index + 1) - lowest)
        mask, now = kept_bits, self.complement(some_other)
        while now > FULL_SET:
            variable, *parts = self.nodes[now]
            bit = 1 << (self.bits * (index + 1) - 1 - variable)
            without = EMPTY_SET if kept_bits & bit else self.both(*parts)
            if without and self._has(without, index, value):
                now = without
            else:
                mask, now = mask | bit, parts[bool(value & bit)]
        return mask

    def least(self, node: int, is_greatest: bool = False) -> tuple[int, ...]:
        """The least, or the greatest, arguments of a set that isn't empty."""
        arguments, now = [self.most if is_greatest else 0] * ARGUMENT_COUNT, node
        while now != FULL_SET:
            variable, *parts = self.nodes[now]
            side = is_greatest if parts[is_greatest] else not is_greatest
            if side != is_greatest:
                index, at = divmod(variable, self.bits)
                arguments[index] ^= 1 << (self.bits - 1 - at)
            now = parts[side]
        return tuple(arguments)

    def agreeing(self, variables: range, value: int, mask: int, greater: int = EMPTY_SET) -> int:
        """Where variables, highest bit first, agree with a value in these bits; or exceed it, if `greater` is ALL."""
        node = FULL_SET
        for at, variable in enumerate(reversed(variables)):
            if mask >> at & 1:
                parts = (EMPTY_SET, node) if value >> at & 1 else (node, greater)
                node = self.node(variable, *parts)
        return node

    def cube(self, index: int, value: int, mask: int, greater: int = EMPTY_SET) -> int:
        """The arguments of which one agrees with a value in these bits; if `greater` is ALL, or is greater in them."""
        return self.agreeing(range(self.bits * index, self.bits * (index + 1)), value, mask, greater)

    def of_condition(self, condition: Condition) -> int:
        index, op, value, two = condition.index, condition.op, condition.value, condition.two
        if op == "SCMP_CMP_MASKED_EQ":
            return self.cube(index, two, value) if value & two <= self.most else EMPTY_SET
        if op in ("SCMP_CMP_EQ", "SCMP_CMP_NE"):
            node = self.cube(index, value, self.most) if value <= self.most else EMPTY_SET
            return node if op == "SCMP_CMP_EQ" else self.complement(node)
        # at least `value`, or above it
        least = value + (op in ("SCMP_CMP_GT", "SCMP_CMP_LE"))
        node = self.cube(index, least, self.most, FULL_SET) if least <= self.most else EMPTY_SET
        return node if op in ("SCMP_CMP_GE", "SCMP_CMP_GT") else self.complement(node)

    def of_conditions(self, conditions: Iterable[Condition]) -> int:
        return functools.reduce(self.both, map(self.of_condition, conditions), FULL_SET)
