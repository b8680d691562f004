"""Random profiles, and what their entries say of a call: a small reading of the JSON, apart from scf's."""
from __future__ import annotations

import json
import random
from collections.abc import Sequence
from typing import Any

from kernel_child import SITE, call_at
from kernel_programs import Calls
from scftools.model.answers import FIRST_X32, X86_64, Answer
from scftools.model.calls import Call

# Numbers that no kernel has, and calls that do nothing.
TABLE = {**{f"t{number}": number for number in (*range(400000, 400012), 500000, 0x10000, FIRST_X32 - 1, 1000)},
         "t400003_too": 400003, "getpid": 39, "getppid": 110, "gettid": 186}
ACTIONS = ("ALLOW", "ALLOW", "ERRNO", "ERRNO", "ERRNO", "TRAP", "TRACE", "NOTIFY", "LOG", "KILL", "KILL_THREAD",
           "KILL_PROCESS")
VALUES = (0, 1, 2, 0x7FFFFFFF, 0x80000000, 0xFFFFFFFF, 1 << 32, (1 << 32) + 1, (1 << 63) - 1, 1 << 63, (1 << 64) - 2,
          (1 << 64) - 1, 0x1234567800000000, 0x12345678)
MASKS = (0, 1, 1 << 31, 0xFFFFFFFF, 1 << 32, 1 << 63, (1 << 64) - 1, 0xFFFFFFFF00000000, 0xF0, 0xFF00FF0000FF00FF)
LONG = 1 << 64


def table_text() -> bytes:
    return "".join(f"{name} {number}\n" for name, number in TABLE.items()).encode()


# What the entries say

def holds(condition: dict[str, Any], arguments: Sequence[int]) -> bool:
    """The condition, of the whole argument (the OCI runtime specification, seccomp)."""
    argument, value, two = arguments[condition["index"]], condition["value"], condition.get("valueTwo", 0)
    return {
        "SCMP_CMP_NE": argument != value, "SCMP_CMP_LT": argument < value, "SCMP_CMP_LE": argument <= value,
        "SCMP_CMP_EQ": argument == value, "SCMP_CMP_GE": argument >= value, "SCMP_CMP_GT": argument > value,
        "SCMP_CMP_MASKED_EQ": argument & value == two & value,
    }[condition["op"]]


def answer_named(action: str, errno: int | None) -> Answer:
    name = {"KILL": "KILL_THREAD", "NOTIFY": "USER_NOTIF"}.get(action[9:], action[9:])
    return Answer(name, (1 if errno is None else errno) if name in ("ERRNO", "TRACE") else 0)


def answer_of(profile: bytes, call: Call) -> Answer:
    """What the profile says of a call: a foreign one ends the process, others have an entry's answer or the default."""
    if call.architecture != X86_64 or call.number >= FIRST_X32:
        return Answer("KILL_PROCESS", 0)
    value = json.loads(profile)
    for entry in value["syscalls"]:
        if call.number in (TABLE.get(name) for name in entry["names"]):
            if all(holds(condition, call.arguments) for condition in entry.get("args", [])):
                return answer_named(entry["action"], entry.get("errnoRet"))
    return answer_named(value["defaultAction"], value.get("defaultErrnoRet"))


# Random profiles

def random_value(random_of: random.Random) -> int:
    value = random_of.choice((random_of.choice(VALUES), random_of.getrandbits(64)))
    return (value + random_of.choice((0, 0, 1, -1))) % LONG


def random_condition(random_of: random.Random, index: int) -> dict[str, Any]:
    op = random_of.choice(("NE", "LT", "LE", "EQ", "GE", "GT", "MASKED_EQ"))
    condition = {"index": index, "value": random_value(random_of), "op": f"SCMP_CMP_{op}"}
    if op == "MASKED_EQ":
        condition["value"] = random_of.choice((random_of.choice(MASKS), random_of.getrandbits(64)))
    if op == "MASKED_EQ" or random_of.random() < 0.2:
        condition["valueTwo"] = random_value(random_of)
    return condition


def apart(random_of: random.Random, index: int) -> list[dict[str, Any]]:
    """Conditions on one argument that no call meets two of."""
    value, least = random_value(random_of), random_of.getrandbits(63)

    def condition(op: str, value: int, two: int | None = None) -> dict[str, Any]:
        return {"index": index, "op": f"SCMP_CMP_{op}", "value": value, **({} if two is None else {"valueTwo": two})}

    mask = random_of.choice((1 << random_of.randrange(64), 0xFFFFFFFF00000000, 3 << 31, LONG - 1))
    differing = value ^ (mask & -mask)
    return random_of.choice((
        [condition("EQ", value), condition("NE", value)], [condition("LT", value), condition("GE", value)],
        [condition("LE", value), condition("GT", value)], [condition("EQ", value), condition("EQ", (value + 1) % LONG)],
        [condition("MASKED_EQ", mask, value), condition("MASKED_EQ", mask, differing)],
        [condition("LT", least), condition("EQ", least), condition("GT", least)]))


def random_entry(random_of: random.Random, names: Sequence[str]) -> dict[str, Any]:
    action = random_of.choice(ACTIONS)
    entry: dict[str, Any] = {"names": list(names), "action": f"SCMP_ACT_{action}"}
    if action in ("ERRNO", "TRACE") and random_of.random() < 0.8:
        entry["errnoRet"] = random_of.choice((0, 1, 38, 4095, 4096, 65535, random_of.getrandbits(12)))
    return entry


def entries_of(random_of: random.Random, names: Sequence[str]) -> list[dict[str, Any]]:
    """Entries for these names that answer no call in two ways."""
    indices = random_of.sample(range(6), random_of.randrange(3))
    if random_of.random() < 0.45:
        index = random_of.randrange(6)
        entries = []
        for condition in apart(random_of, index):
            more = [random_condition(random_of, argument) for argument in indices if argument != index]
            entries.append({**random_entry(random_of, names), "args": [condition, *more]})
        return entries
    # alternatives with one answer
    entry = random_entry(random_of, names)
    many = random_of.choice((1, 1, 2, 3))
    return [{**entry, "args": [random_condition(random_of, index) for index in indices]} for _ in range(many)]


def random_profile(random_of: random.Random) -> bytes:
    names = [name for name in TABLE if name != "t400003_too"]
    random_of.shuffle(names)
    entries: list[dict[str, Any]] = []
    while names and random_of.random() < 0.93:
        count = random_of.choice((1, 1, 2, 3))
        group, names = names[:count], names[count:]
        # two names for one number, and one that the table doesn't have
        group += ["t400003_too"] * ("t400003" in group) + ["unknown"] * (random_of.random() < 0.1)
        entries += entries_of(random_of, group)
    random_of.shuffle(entries)
    default = random_of.choice(("ALLOW", "ERRNO", "ERRNO", "TRAP", "TRACE", "LOG", "NOTIFY", "KILL", "KILL_PROCESS"))
    profile: dict[str, Any] = {"defaultAction": f"SCMP_ACT_{default}", "syscalls": entries}
    if default in ("ERRNO", "TRACE") and random_of.random() < 0.7:
        profile["defaultErrnoRet"] = random_of.choice((0, 38, 4095, 5000))
    return json.dumps(profile, indent=1).encode()


def constants(profile: bytes) -> dict[int, set[int]]:
    """For each argument the values that its conditions name, under -1 all of them."""
    values_of: dict[int, set[int]] = {-1: {0, 1}}
    for entry in json.loads(profile)["syscalls"]:
        for condition in entry.get("args", []):
            value, two = condition["value"], condition.get("valueTwo", 0)
            values = {value, two & value, two | (~value % LONG)} if condition["op"].endswith("MASKED_EQ") else {value}
            values_of.setdefault(condition["index"], set()).update(values)
            values_of[-1].update(values)
    return values_of


def calls_of(random_of: random.Random, profile: bytes, calls: Calls, count: int) -> list[Call]:
    """Calls at the corners of the profile's conditions, most of them of numbers that it may name."""
    values_of, made = constants(profile), []
    numbers = sorted({number + about for number in TABLE.values() for about in (-1, 0, 0, 1)})
    while len(made) < count:
        site = random_of.choice(calls.sites) if random_of.random() < 0.2 else SITE
        number = random_of.choice((random_of.choice(numbers), random_of.choice(tuple(TABLE.values()))))
        if not calls.does_nothing(site, number):
            continue
        arguments = []
        for index in range(6):
            values = sorted(values_of.get(index, values_of[-1]) if random_of.random() < 0.8 else values_of[-1])
            arguments.append((random_of.choice(values) + random_of.choice((0, 0, 1, -1))) % LONG)
        made.append(call_at(site, number, arguments))
    return made
