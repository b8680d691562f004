"""Profiles for several architectures read a second way, from seccomp.h, linux/audit.h, seccomp(2) and the OCI
specification: what one states and answers, drawn profiles, and filters that are changed."""
import functools
import itertools
import json
import struct

from .stand_in import TESTS

# By the OCI name: the architecture of a record, the first and the last number, the bits of an argument, the kind of the
# table in a bundle, and a table. Each table gives two names one number, and lacks a name that another has.
X32_BIT = 0x40000000
ARCHITECTURES = {
    "SCMP_ARCH_X86_64": (0xC000003E, 0, X32_BIT - 1, 64, "table", {
        "read": 0, "write": 1, "both": 7, "also": 7, "native": 2, "personality": 135, "clone": 56, "far": 450}),
    "SCMP_ARCH_X86": (0x40000003, 0, 0xFFFFFFFF, 32, "table-x86", {
        "read": 3, "write": 4, "also": 4, "mine": 0, "both": 135, "personality": 136, "clone": 120, "far": 983040}),
    "SCMP_ARCH_X32": (0xC000003E, X32_BIT, 0xFFFFFFFF, 32, "table-x32", {
        "read": 0, "write": 1, "both": 8, "clone": 56, "personality": 135, "far": 547, "mine": 547}),
    "SCMP_ARCH_AARCH64": (0xC00000B7, 0, 0xFFFFFFFF, 64, "table-aarch64", {
        "read": 63, "write": 64, "both": 1, "native": 5, "personality": 92, "clone": 220, "far": 220}),
    "SCMP_ARCH_ARM": (0x40000028, 0, 0xFFFFFFFF, 32, "table-arm", {
        "read": 3, "both": 3, "write": 4, "mine": 0xF0002, "personality": 136, "clone": 120}),
    "SCMP_ARCH_RISCV64": (0xC00000F3, 0, 0xFFFFFFFF, 64, "table-riscv64", {
        "read": 63, "write": 64, "also": 64, "native": 5, "personality": 92, "clone": 220, "mine": 259}),
    "SCMP_ARCH_PPC64LE": (0xC0000015, 0, 0xFFFFFFFF, 64, "table-ppc64le", {
        "read": 3, "both": 3, "write": 4, "far": 471, "personality": 136, "clone": 120}),
    "SCMP_ARCH_MIPSEL": (0x40000008, 0, 0xFFFFFFFF, 32, "table-mipsel", {
        "read": 4003, "write": 4004, "also": 4004, "far": 4471, "personality": 4136, "clone": 4120}),
    "SCMP_ARCH_MIPSEL64": (0xC0000008, 0, 0xFFFFFFFF, 64, "table-mipsel64", {
        "read": 5000, "write": 5001, "both": 5001, "mine": 5194, "personality": 5132, "clone": 5055}),
    "SCMP_ARCH_MIPSEL64N32": (0xE0000008, 0, 0xFFFFFFFF, 32, "table-mipsel64n32", {
        "read": 6000, "write": 6001, "native": 6001, "both": 6194, "personality": 6132, "clone": 6055}),
    "SCMP_ARCH_LOONGARCH64": (0xC0000102, 0, 0xFFFFFFFF, 64, "table-loongarch64", {
        "read": 63, "write": 64, "far": 64, "also": 5, "personality": 92, "clone": 220}),
}
# "nowhere" is a name that no table has.
NAMES = sorted({"nowhere", *(name for row in ARCHITECTURES.values() for name in row[5])})
ACTIONS = {"KILL": 0, "KILL_THREAD": 0, "KILL_PROCESS": 0x80000000, "TRAP": 0x30000, "ERRNO": 0x50000,
           "NOTIFY": 0x7FC00000, "TRACE": 0x7FF00000, "LOG": 0x7FFC0000, "ALLOW": 0x7FFF0000}
KILLS, ALLOW = ACTIONS["KILL_PROCESS"], ACTIONS["ALLOW"]
OPERATORS = {
    "NE": lambda argument, value, two: argument != value, "LT": lambda argument, value, two: argument < value,
    "LE": lambda argument, value, two: argument <= value, "EQ": lambda argument, value, two: argument == value,
    "GE": lambda argument, value, two: argument >= value, "GT": lambda argument, value, two: argument > value,
    "MASKED_EQ": lambda it, value, two: it & value == two & value,
}
VALUES = (0, 1, 2, 8, 40, 0x7FFFFFFF, 0x80000000, 0xFFFFFFFF, 1 << 32, (1 << 32) + 8, 1 << 63, (1 << 64) - 1)
MASKS = (0, 1, 0x80000000, 0xFFFFFFFF, 1 << 32, 0xFF, 0xF0F0F0F0F0F0F0F0, (1 << 64) - 1)


def word_of(action, number=None):
    """The 32 bits of an answer, whose number only sandboxes read beside TRAP."""
    name = action.removeprefix("SCMP_ACT_")
    return ACTIONS[name] | (number if number is not None else int(name in ("ERRNO", "TRACE")))


def disposition(answer):
    """0 denied, 1 delegated, 2 allowed."""
    action = answer & 0xFFFF0000
    return 2 if action in (ACTIONS["LOG"], ALLOW) else 1 if action in (ACTIONS["NOTIFY"], ACTIONS["TRACE"]) else 0


def tables_of(names):
    """The parts of a bundle: the tables of some architectures, in this order."""
    return [(kind, "".join(f"{name} {number}\n" for name, number in table.items()).encode())
            for *_, kind, table in map(ARCHITECTURES.get, names)]


def text(profile):
    return json.dumps(profile).encode()


def is_met(conditions, arguments, bits):
    return all(OPERATORS[condition["op"][9:]](arguments[condition["index"]] % (1 << bits), condition["value"],
                                              condition.get("valueTwo", 0))
               for condition in conditions)


@functools.cache
def is_possible(conditions, bits):
    """Whether some argument of that many bits meets all of these conditions, each an operator and its two values.

    Reads the argument bit by bit from the highest. Of each condition a state is kept: whether the bits so far are below
    (-1), equal to (0) or above (1) those of its value; for a mask, whether they fit (0) or don't (1)."""
    states = {(0,) * len(conditions)}
    for at in reversed(range(64)):
        states = {tuple(state or ((bit ^ two >> at) & value >> at & 1 if op == "MASKED_EQ" else bit - (value >> at & 1))
                        for state, (op, value, two) in zip(state_so_far, conditions))
                  for state_so_far in states for bit in ((0, 1) if at < bits else (0,))}
    return any(all(OPERATORS["EQ" if op == "MASKED_EQ" else op](state, 0, 0)
                   for state, (op, _, _) in zip(state_so_far, conditions)) for state_so_far in states)


def overlap(first, second, bits):
    """Whether some record meets the conditions of two rules."""
    return all(is_possible(tuple((condition["op"][9:], condition["value"], condition.get("valueTwo", 0))
                                 for condition in (*first, *second)
                                 if condition["index"] == index), bits)
               for index in {condition["index"] for condition in (*first, *second)})


class Reading:
    """What a profile states with the tables of the architectures `given`, which a bundle has in this order; by default
    with those of ARCHITECTURES."""

    def __init__(self, profile, given, tables=None):
        self.profile, self.given = {"syscalls": [], **profile}, given
        self.tables = tables or {name: row[5] for name, row in ARCHITECTURES.items() if name in given}
        self.listed = profile.get("architectures") or [
            "SCMP_ARCH_X86_64" if "SCMP_ARCH_X86_64" in given else "SCMP_ARCH_AARCH64"]
        self.default = word_of(profile["defaultAction"], profile.get("defaultErrnoRet"))
        # By the architecture and the number: the index of the entry, the conditions and the answer of each rule.
        self.rules = {name: {} for name in ARCHITECTURES if name in given}
        for name, rules in self.rules.items():
            first, table = ARCHITECTURES[name][1], self.tables[name]
            for index, entry in enumerate(self.profile["syscalls"]):
                for number in sorted({first + table[name] for name in entry["names"] if name in table}):
                    rule = index, entry.get("args", ()), word_of(entry["action"], entry.get("errnoRet"))
                    rules.setdefault(number, []).append(rule)

    def conflicts(self, name, bits=None):
        """The later entry, the earlier one and the number of each conflict of an architecture."""
        bits = bits or ARCHITECTURES[name][3]
        return [(second[0], first[0], number) for number, rules in self.rules[name].items()
                for first, second in itertools.combinations(rules, 2)
                if first[2] != second[2] and overlap(first[1], second[1], bits)]

    def fault(self):
        """Why the profile is refused, as scf prints it; None if it isn't."""
        for at, name in enumerate(self.given):
            if name not in self.listed:
                return f"NotListed table {at}"
        for second, first, number in (min(conflicts) for conflicts in map(self.conflicts, self.rules) if conflicts):
            return f"Conflict number {number} first {first} second {second}"
        return None

    def notes(self):
        """The lines that `scf compare` prints after its verdict."""
        known_names = {name for table in self.tables.values() for name in table}
        return [*(f"skipped {name}" for entry in self.profile["syscalls"]
                  for name in entry["names"] if name not in known_names),
                *(f"other {name}" for name in self.listed if name not in self.given)]

    def architecture(self, arch, number):
        """The architecture with a table that a record is of, or None."""
        return next((name for name in self.rules if ARCHITECTURES[name][0] == arch
                     and ARCHITECTURES[name][1] <= number <= ARCHITECTURES[name][2]), None)

    def answer(self, arch, number, arguments):
        """What the profile answers to a record, and why: as scf prints it."""
        name = self.architecture(arch, number)
        if name is None:
            return KILLS, "foreign"
        bits = ARCHITECTURES[name][3]
        return next(((answer, f"entry {index}") for index, conditions, answer in self.rules[name].get(number, ())
                     if is_met(conditions, arguments, bits)), (self.default, "default"))

    def records(self, name, random_of, count, words=(0,)):
        """Records of an architecture in which a filter and the profile may differ: by number all that its table has,
        those beside them, and numbers that no syscall has; so many of each number whose rules have conditions. An
        argument that no condition is on has one of these words in both halves, or any bits."""
        (arch, first, last, bits, *_), table = ARCHITECTURES[name], self.tables[name]
        numbers = {first + number + step for number in table.values()
                   for step in (-1, 0, 1)} | {first, last, first + 1000}
        for number in sorted(number for number in numbers.union(words) if first <= number <= last):
            rules = [conditions for _, conditions, _ in self.rules[name].get(number, ()) if conditions]
            for _ in range(count if rules else 1):
                arguments = [random_of.choice(words) * 0x100000001, random_of.getrandbits(64)] * 3
                random_of.shuffle(arguments)
                random_of.shuffle(rules)
                # most meet the last rule, or all its conditions but one
                for condition in (conditions_met for conditions in rules for conditions_met in conditions):
                    met, unmet = edges(condition["op"][9:], condition["value"], condition.get("valueTwo", 0), bits)
                    chosen = met if met and (not unmet or random_of.random() < 0.7) else unmet
                    flipped = 1 << random_of.randrange(64) if random_of.random() < 0.1 else 0
                    arguments[condition["index"]] = random_of.choice(chosen) ^ flipped
                yield arch, number, arguments


@functools.cache
def edges(op, value, two, bits):
    """Values of an argument at which a condition changes, with and without bits of the upper half: those that meet it,
    and those that don't."""
    near = {(number + step) % (1 << 64) for number in (value, two, value & two) for step in (-1, 0, 1)}
    near |= {bits_near for number in near
             for bits_near in (number & 0xFFFFFFFF, number & 0xFFFFFFFF | 1 << 32, number | 0xFFFFFFFF << 32)}
    met = [number for number in sorted(near) if OPERATORS[op](number % (1 << bits), value, two)]
    return met, sorted(near.difference(met))


# Drawn profiles

def draw_condition(random_of, index):
    op, value = random_of.choice(tuple(OPERATORS)), random_of.choice(VALUES)
    if op == "MASKED_EQ":
        return {"index": index, "op": "SCMP_CMP_MASKED_EQ", "value": random_of.choice(MASKS), "valueTwo": value}
    return {"index": index, "op": f"SCMP_CMP_{op}", "value": value}


def draw_answer(random_of, actions, names=("action", "errnoRet")):
    action = random_of.choice(actions)
    number = random_of.choice((None, 1, 2, 38)) if action in ("ERRNO", "TRACE") else None
    return {names[0]: f"SCMP_ACT_{action}", **({} if number is None else {names[1]: number})}


def draw_entries(random_of, name, actions):
    """Entries of a name, of which a later one may have another answer than the first."""
    answer = draw_answer(random_of, actions)
    for _ in range(random_of.choice((1, 1, 2, 3))):
        args = [draw_condition(random_of, index)
                for index in random_of.sample(range(6), random_of.choice((0, 1, 1, 2)))]
        answer = answer if random_of.random() < 0.9 else draw_answer(random_of, actions)
        names = [name, *random_of.sample(NAMES, random_of.choice((0, 0, 0, 1)))]
        yield {"names": names, **answer, **({"args": args} if args else {})}


def draw(random_of):
    """A profile with the tables of some architectures, not each of which it must list."""
    given = random_of.sample(tuple(ARCHITECTURES), random_of.choice((1, 2, 2, 3, 3, 4, 5)))
    actions = random_of.sample(tuple(ACTIONS), 2)
    others = [name for name in (*ARCHITECTURES, "SCMP_ARCH_MIPS") if name not in given and random_of.random() < 0.2]
    listed = [*given, *others]
    random_of.shuffle(listed)
    how = random_of.random()
    if how < 0.08:
        missing = random_of.sample(given, random_of.choice((1, 1, len(given))))
        listed = [name for name in listed if name not in missing]
    elif how < 0.14:
        # (an empty list, or none, stands for x86-64 or aarch64)
        given, listed = random_of.choice((["SCMP_ARCH_X86_64"], ["SCMP_ARCH_AARCH64"], given)), []
    entries = [entry for name in random_of.sample(NAMES, random_of.randrange(1, 6))
               for entry in draw_entries(random_of, name, actions)]
    return Reading({**draw_answer(random_of, tuple(ACTIONS), ("defaultAction", "defaultErrnoRet")),
                    **({"architectures": listed} if listed or random_of.random() < 0.5 else {}),
                    "syscalls": entries}, given)


# Filters

def owners_of(program, names):
    """Of each instruction the architectures whose records may run it, and None if those of another may."""
    owners = [set() for _ in program]
    for name in (*names, None):
        number = ARCHITECTURES[name][0] if name else 0
        pending = {(0, False)}
        done = set()
        while pending:
            at, has_architecture = here = pending.pop()
            done.add(here)
            owners[at].add(name)
            code, jt, jf, k = program[at]
            if code == 0x20:
                has_architecture = k == 4
            elif code & 7 == 4:
                has_architecture = False
            steps = [0]
            if code & 7 == 5:
                steps = [k] if code == 5 else [jt, jf]
                if has_architecture and code != 5:
                    steps = [jt if TESTS[code & 0xF0](number, k) else jf]
            pending.update({(at + 1 + step, has_architecture) for step in steps if code & 7 != 6}.difference(done))
    return owners


def change_filter(random_of, data, places):
    """A filter with one of these instructions changed, which scf still accepts."""
    insns = [list(insn) for insn in struct.iter_unpack("<HBBI", data)]
    changed = insns[random_of.choice([place for place in places if insns[place][0] != 5])]
    how = random_of.randrange(3)
    if changed[0] == 0x20:
        changed[3] = random_of.choice([value for value in (changed[3] ^ 4, 0, 4, 16) if value != changed[3]])
    elif changed[0] == 6:
        changed[3] = random_of.choice([value for value in (ALLOW, 0x50001, 0x50026, 0x7FF00001, KILLS)
                                       if value != changed[3]])
    elif changed[0] == 0x54:
        changed[3] ^= 1 << random_of.randrange(32)
    elif how == 0:
        changed[1], changed[2] = changed[2], changed[1]
    elif how == 1:
        changed[3] = (changed[3] + random_of.choice((1, -1, 1 << 30))) % (1 << 32)
    else:
        changed[0] = random_of.choice([value for value in (0x15, 0x25, 0x35) if value != changed[0]])
    return b"".join(struct.pack("<HBBI", *insn) for insn in insns)
