"""Amendments: the least change of a profile by which it allows a syscall that it denies, and changes no other answer.

A change is offered only if scf proved it: the changed profile is the `same` as the profile's own filter with the
exception before it.
"""
from __future__ import annotations

import json
from collections.abc import Collection, Iterator

from ..base.values import dataclass
from ..model import answers, bpf, constants, entries
from ..model.entries import EQUAL, GREATEST_VALUE, LOW_HALF, MASKED, NOT_EQUAL, Object
from ..model.tables import Tables
from ..ask import client, verdicts
from ..ask.explanation import Reason
from ..ask.verdicts import NATIVE_SCOPE, SAME, SCOPES
from .events import Event

ALLOW_ACTION = "SCMP_ACT_ALLOW"


@dataclass(frozen=True)
class Amendment:
    """A change: what is taken out of which entries, what is added, and on which arguments; the changed profile."""

    name: str
    # the indexes of entries, and whether they have no other name
    taken_out: tuple[tuple[int, bool], ...]
    added: tuple[dict[str, object], ...]
    conditions: tuple[tuple[int, int, int], ...]
    profile: bytes

    def steps(self) -> Iterator[str]:
        """The edits of the profile, in order."""
        for index, is_alone in self.taken_out:
            yield f"remove entry {index}" if is_alone else f"take {self.name} out of the names of entry {index}"
        for entry in self.added:
            yield f"add to syscalls: {json.dumps(entry)}"

    def describe(self) -> str:
        """The calls that it allows."""
        where = " and ".join(f"argument {index} " + (f"& {mask:#x} " if mask != GREATEST_VALUE
                                                     else "") + f"is {value & mask:#x}"
                             for index, mask, value in self.conditions)
        return f"{self.name} where {where}" if where else f"every {self.name}"

    def as_json(self) -> dict[str, object]:
        return {"taken_out": [index for index, _ in self.taken_out], "added": list(self.added)}


def conditions_of(event: Event, name: str, tested: Collection[int]) -> list[dict[str, object]]:
    """Conditions that hold of those known arguments of a syscall that an entry tests, or that programs give by
    constants: not of addresses, nor of numbers that differ from run to run, such as descriptors."""
    kinds, words = constants.kinds().get(name, ""), []
    values_of = {index: values[0] for index, values in enumerate(event.arguments) if values is not None}
    for index, values in enumerate(event.arguments[:len(kinds)]):
        family = constants.family_of(name, index, values_of)
        has_names = family is not None and len(family.of_mask) + len(family.bits) > 1
        if values is None or kinds[index] == constants.ADDRESS or not has_names and index not in tested:
            continue
        if len(values) == 1:
            words.append({"index": index, "value": values[0], "op": EQUAL})
        elif kinds[index] == constants.HALF and len({value & LOW_HALF for value in values}) == 1:
            words.append({"index": index, "value": LOW_HALF, "valueTwo": values[0] & LOW_HALF, "op": MASKED})
    return words


class AmendmentSearch:
    """Tries changes of a profile that allow a syscall of one name."""

    def __init__(self, profile: bytes, top: Object, tables: Tables, name: str, number: int):
        self.top, self.tables, self.name, self.number = top, tables, name, number
        self.filter = client.compile_profile(profile, tables)

    def _changed(self, taken_out: list[int], added: list[dict[str, object]],
                 conditions: list[dict[str, object]]) -> Amendment:
        """A change, which isn't proved yet."""
        own_names = self.tables.native.names_of(self.number)
        changed_entries, gone = [], []
        for index, entry in enumerate(self.top.get("syscalls", [])):
            if index in taken_out:
                entry = Object({**entry, "names": [name for name in entry["names"] if name not in own_names]})
                gone.append((index, not entry["names"]))
            changed_entries += [entry] if entry["names"] else []
        changed = {**self.top, "syscalls": [*changed_entries, *added]}
        tests = tuple((condition["index"], condition["value"], condition["valueTwo"]) if condition["op"] == MASKED else
                      (condition["index"], GREATEST_VALUE, condition["value"]) for condition in conditions)
        return Amendment(self.name, tuple(gone), tuple(added), tests, json.dumps(changed).encode())

    def _allowed(self, conditions: list[dict[str, object]]) -> dict[str, object]:
        """The entry that allows the syscall under these conditions."""
        return {"names": [self.name], "action": ALLOW_ACTION, **({"args": conditions} if conditions else {})}

    def _by_entry(self, place: int, conditions: list[dict[str, object]]) -> Iterator[Amendment]:
        """Changes of an entry to deny all but the calls with these arguments; it may test these alone, by EQUAL."""
        entry = self.top["syscalls"][place]
        present = {condition["index"]: condition for condition in entry.get("args") or []}
        indices = {condition["index"] for condition in conditions}
        if any(condition["op"] != EQUAL for condition in (*conditions, *present.values())) or present.keys() - indices:
            return
        denial = {key: entry[key] for key in ("action", "errnoRet") if key in entry}
        others = [{"names": [self.name], **denial, "args": [*present.values(), {**condition, "op": NOT_EQUAL}]}
                  for condition in conditions if condition["index"] not in present]
        if self.top["defaultAction"] == ALLOW_ACTION:
            yield self._changed([place], others, conditions)
        yield self._changed([place], [self._allowed(conditions), *others], conditions)

    def candidates(self, reason: Reason, conditions: list[dict[str, object]]) -> Iterator[Amendment]:
        """Changes that allow the calls with these arguments, the smallest first."""
        if reason.entry is not None and conditions:
            yield from self._by_entry(reason.entry, conditions)
            return
        if reason.entry is None:
            yield self._changed([], [self._allowed(conditions)], conditions)
        if conditions:
            return
        if reason.entry is not None:
            present = [dict(condition) for condition in self.top["syscalls"][reason.entry].get("args") or []]
            if present and all(condition["op"] in (EQUAL, MASKED) for condition in present):
                yield self._changed([reason.entry], [self._allowed(present)],
                                    [{**condition, "valueTwo": condition.get("valueTwo", 0)} for condition in present])
        naming = [index for index, entry in enumerate(self.top.get("syscalls", []))
                  if any(self.tables.number_of(name) == self.number for name in entry["names"])]
        if self.top["defaultAction"] == ALLOW_ACTION:
            yield self._changed(naming, [], [])
        yield self._changed(naming, [self._allowed([])], [])

    def run(self, reason: Reason, conditions: list[dict[str, object]]) -> Amendment | None:
        """The first change of which scf proves that it allows these calls, and answers all others as before."""
        for change in self.candidates(reason, conditions):
            excepted = bpf.with_exception(self.filter, self.number, change.conditions, answers.ALLOW.word)
            if len(excepted) > bpf.BPF_MAXINSNS * bpf.INSTRUCTION.size:
                continue
            try:
                report = verdicts.compared([excepted], change.profile, self.tables, SCOPES[NATIVE_SCOPE])
            except client.Refusal:
                continue
            if report.verdict.word == SAME:
                return change
        return None


def amendments(profile: bytes, event: Event, reason: Reason, tables: Tables) -> Iterator[Amendment]:
    """The changes that allow the calls with the known arguments of an event, and then all that the entry denies. There
    are none if the syscall is of another ABI, or has no name in the table, or no filter says what the profile does."""
    names = tables.native.names_of(event.call.number) if event.call.is_native else []
    if not names or reason.is_foreign or reason.answer is None or reason.answer.allows:
        return
    top = entries.parse_seccomp(profile)
    if top is None:
        return
    try:
        search = AmendmentSearch(profile, top, tables, names[0], event.call.number)
    except client.Refusal:
        # (its filter would be too large)
        return
    tested = {condition["index"] for entry in top.get("syscalls", []) if not set(names).isdisjoint(entry["names"])
              for condition in entry.get("args") or []}
    conditions = conditions_of(event, names[0], tested)
    of_known = search.run(reason, conditions) if conditions else None
    of_all = search.run(reason, [])
    if of_known is not None:
        yield of_known
    if of_all is not None and (of_known is None or of_known.conditions != of_all.conditions):
        yield of_all
