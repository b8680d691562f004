"""What is odd in a profile: names that mean nothing, members that nothing reads, errnos, actions and conditions.

The members may also be read by engines or Go programs alone, or be repeated in an object; an errno may be one that no
program knows, and an action one that waits for a supervisor. A condition is judged by what the kernel reads of its
argument (tables/x86_64.arguments): on an architecture of 64 bits a filter compares all of a register, of which the
kernel reads only the lower half for an `int`, so a bit in the upper half evades a denial by its value (CVE-2019-10063
was that). Two answers of scf show that. On an architecture of 32 bits only the lower half is compared.
"""
from __future__ import annotations

from collections.abc import Iterable, Iterator, Mapping, Sequence

from ..base import output
from ..base.values import Any, by_key
from ..model import constants, profiles, tables
from ..model.answers import ERRNOS, MAX_ERRNO
from ..model.architectures import JUDGED, NATIVE, NUMBERS, PREFIX, X32
from ..model.argument_sets import Sets, Steps
from ..model.entries import EQUAL, HOLDS, LOW_HALF, MASKED, Condition, Entry, Object
from ..model.profiles import ALLOWING, FLAGS, OCI_ACTIONS, objects_in, parts_of
from ..model.tables import Tables
from ..ask.answer_sets import arguments_of
from ..ask.regions import Region
from .findings import ERROR, MOST, PLACES, Finding, Owners, listed
from .needless import Met
from .watchlist import Watch

# Other names for the architectures of the OCI specification.
ALIASES = {"AMD64": "X86_64", "X86-64": "X86_64", "X64": "X86_64", "ARM64": "AARCH64"}


def of_names(top: Object, judged: Tables) -> Iterator[Finding]:
    """Names that no syscall has, and a count of names that only other architectures have than those that are judged."""
    places = by_key((name, place) for place, entry in objects_in(top, "syscalls") for name in entry["names"])
    skipped = tables.classify([name for name in places if not judged.numbers_of(name)], judged)
    slips = {name: tables.misspelt_as(name, *judged.of.values()) for name, _ in skipped.unknown}
    # (those come first, since of too many the last aren't listed)
    for name, near in sorted(skipped.unknown, key=lambda unknown: slips[unknown[0]] is None):
        near = slips[name] or near
        text = f"no known syscall is named {output.cut(name)}{_nearest(near, ' name in the table')}"
        yield Finding.at(places[name][:1], "unknown-name", text, graver=slips[name] and ERROR, name=name, nearest=near)
    for name in skipped.left_out:
        text = f"{name} is a syscall of x86-64 that this table leaves out"
        yield Finding.at(places[name][:1], "left-out-name", text, name=name)
    if skipped.elsewhere:
        count = len(skipped.elsewhere)
        yield Finding("other-architectures", f"names that only other architectures have: {count}", count=count,
                      names=skipped.elsewhere)
    for place, entry in objects_in(top, "syscalls"):
        seen: set[str] = set()
        twice = list(dict.fromkeys(name for name in entry["names"] if name in seen or seen.add(name)))
        if twice:
            yield Finding("repeated-name", f"entry {place} has names more than once: {listed(twice, '')}", entry=place,
                          names=twice)


def _nearest(near: str | None, what: str = "") -> str:
    return f"; the nearest{what} is {near}" if near else ""


def _unknown(kind: str, text: str, name: str, prefix: str, words: Iterable[str], count: int, **more: Any) -> Finding:
    """A finding on a name that isn't one of some words, with the one most like it behind their common prefix, if one is
    much like it; none for a name that comes after so many."""
    last, near = name.upper().removeprefix(prefix), None
    if count < tables.MOST_LISTED and len(name) <= tables.LONGEST_NAME:
        near = tables.most_like(ALIASES.get(last, last), [word[len(prefix):] for word in words])
    near = near and prefix + near
    return Finding(kind, text + _nearest(near), **more, name=name, nearest=near)


# What a profile says by words: the member, what such a word is, how all begin, and all.
WORDS = (("defaultAction", "action", "SCMP_ACT_", OCI_ACTIONS), ("action", "action", "SCMP_ACT_", OCI_ACTIONS),
         ("op", "operator", "SCMP_CMP_", tuple(HOLDS)))


def of_words(top: Object) -> Iterator[Finding]:
    """Unknown actions and operators, for which scf refuses a profile, so that the rest of it may be malformed, too."""
    wrong = [(place, kind, prefix, words, value[member])
             for place, value, known in parts_of(top) for member, kind, prefix, words in WORDS
             if member in known and isinstance(value.get(member), str) and value[member] not in words]
    for at, (place, kind, prefix, words, word) in enumerate(wrong):
        where = PLACES[len(place)].format(*place) if place else "the default"
        text = f"{where}: {output.cut(word)} is no {kind}"
        yield _unknown(f"unknown-{kind}", text, word, prefix, words, at, where=where)


def of_flags(top: Object) -> Iterator[Finding]:
    """Flags that the OCI specification doesn't have."""
    given = top.get("flags")
    flags = [flag for flag in given if isinstance(flag, str)] if isinstance(given, list) else []
    for at, name in enumerate(flag for flag in dict.fromkeys(flags) if flag not in FLAGS):
        text = f"flags: the OCI specification has no {output.cut(name)}"
        yield _unknown("unknown-flag", text, name, "SECCOMP_FILTER_FLAG_", FLAGS, at)


def of_architecture_names(top: Object) -> Iterator[Finding]:
    """Architectures that the OCI specification (config-linux, seccomp) doesn't have, and a list with x86-64 and without
    x32, which matters unless the default denies."""
    architectures = top.get("architectures", [])
    for at, name in enumerate(name for name in dict.fromkeys(architectures) if name not in NUMBERS):
        text = (f"architectures: the OCI specification has no {output.cut(name)}, and runc and crun refuse what they "
                "don't know")
        yield _unknown("unknown-architecture", text, name, PREFIX, NUMBERS, at)
    default = top["defaultAction"]
    if NATIVE in architectures and X32 not in architectures and default in (*ALLOWING, *SUPERVISORS):
        yield Finding("x32", f"architectures has no {X32}: x32 syscalls are those of x86-64 with 0x40000000 added. "
                      "Filters of scf and of libseccomp deny them; in a filter that doesn't test for them the default, "
                      f"{default}, {'allows' if default in ALLOWING else 'answers'} them all",
                      architectures=architectures)


# What only engines read (containers-common's pkg/seccomp/types.go, and moby's profiles/seccomp/seccomp.go).
ENGINE_MEMBERS = {
    **{name: f"only podman reads {name}, an errno's name or its number as a string, and takes it for {name}Ret"
       for name in ("defaultErrno", "errno")},
    "name": "only engines read name, and none takes it beside names"}


def of_members(top: Object) -> Iterator[Finding]:
    """The members of the profile, its entries and their conditions that aren't read, the first MOST of them with the
    nearest one that is, and those that are repeated."""
    searches = iter(range(MOST))
    for place, value, known in parts_of(top):
        read_members = [member for member in known if member not in ENGINE_MEMBERS]
        folded = set(map(profiles.folded, known))
        for name in (name for name in value if name not in read_members and name != "comment"):
            if name in known:
                text = f"{ENGINE_MEMBERS[name]}: resolve-profile does so"
                yield Finding.at(place, "engine-member", text, member=name)
            elif profiles.folded(name) not in folded:
                near = None if next(searches, None) is None else tables.nearest_member(name, read_members)
                text = f"nothing reads {output.cut(name)}{_nearest(near, ' that is read')}"
                yield Finding.at(place, "unread-member", text, member=name, nearest=near)
        for name in value.repeated:
            keeps = isinstance(known.get(name), list) and isinstance(known[name][0], dict)
            then = "; programs in Go keep members of the earlier one's entries" if keeps else ""
            text = f"{output.cut(name)} is repeated, and the last one is taken{then}"
            yield Finding.at(place, "repeated-member", text, member=name)
        if known is profiles.ARGUMENT and value.get("valueTwo") and value["op"] != MASKED:
            yield Finding.at(place, "unread-member", f"nothing reads valueTwo beside {value['op']}", member="valueTwo",
                             nearest=None)


def misread(data: bytes) -> Iterator[Finding]:
    """Members that Go programs (runc, Docker, podman) read as others, and scf and crun don't."""
    for member in profiles.misread_members(data):
        if member.name != member.read_as:
            yield Finding("folded-member", f"{member.describe()}; scf and crun don't", where=member.where,
                          member=member.name, read_as=member.read_as)


# The errnos that the kernel uses internally (include/linux/errno.h).
INTERNAL_ERRNOS = {512: "ERESTARTSYS", 513: "ERESTARTNOINTR", 514: "ERESTARTNOHAND", 515: "ENOIOCTLCMD",
                   516: "ERESTART_RESTARTBLOCK"}
# The greatest errno that programs know (EHWPOISON in asm-generic/errno.h).
LAST_ERRNO = max(133, *ERRNOS)
# What an action needs: a listener (seccomp_unotify(2)) or a tracer with PTRACE_O_TRACESECCOMP.
SUPERVISORS = {"SCMP_ACT_NOTIFY": "a supervisor that listens to the filter",
               "SCMP_ACT_TRACE": "a tracer with PTRACE_O_TRACESECCOMP"}


def _why_odd(number: int) -> str | None:
    if number == 0:
        return "the syscall isn't executed, and returns 0 as if it had succeeded"
    if number in INTERNAL_ERRNOS:
        return (f"{INTERNAL_ERRNOS[number]}, which the kernel uses internally and no program knows: it reaches the "
                "program as it is, or, if a signal arrives, the kernel may take it for its own")
    if number > MAX_ERRNO:
        return f"the kernel returns {MAX_ERRNO} instead, and libseccomp takes none above {MAX_ERRNO - 1}"
    if number == MAX_ERRNO:
        return f"libseccomp takes none above {MAX_ERRNO - 1}"
    return f"Linux has no such errno, the last is {LAST_ERRNO}" if number > LAST_ERRNO else None


def of_answers(top: Object) -> Iterator[Finding]:
    """A default that allows; errnos that no program knows, or the kernel changes; actions that nobody waits for."""
    default = top["defaultAction"]
    if default in ALLOWING:
        yield Finding("default-allows", f"{default}: a syscall that no entry names is allowed", action=default)
    # of the default and each entry its name, its members in JSON, its action, and its errno's name and number
    answers = [("the default", {}, default, "defaultErrnoRet", top.get("defaultErrnoRet")),
               *((f"entry {place}", {"entry": place}, entry["action"], "errnoRet", entry.get("errnoRet"))
                 for place, entry in objects_in(top, "syscalls"))]
    for where, at, action, member, number in answers:
        why = _why_odd(number) if action == "SCMP_ACT_ERRNO" and isinstance(number, int) else None
        if why:
            yield Finding("odd-errno", f"{where}: {member} {number}: {why}", **at, errno=number)
    for where, at, action, _, _ in answers:
        if action in SUPERVISORS and not (action == "SCMP_ACT_NOTIFY" and top.get("listenerPath")):
            lacking = ", and the profile has no listenerPath" if action == "SCMP_ACT_NOTIFY" else ""
            yield Finding("no-supervisor", f"{where}: {action} needs {SUPERVISORS[action]}{lacking}: without one the "
                          "syscall fails with ENOSYS", **at, action=action)


# A bit of the upper half, as an example for all of them.
UPPER_UNIT = 1 << 32


def _always_holds(condition: Condition, greatest: int) -> bool:
    """Whether every argument up to the greatest meets a condition."""
    op, value = condition.op, condition.value
    if op == MASKED:
        return not value & greatest and not value & condition.two
    return (op, value) == ("SCMP_CMP_GE", 0) or op == "SCMP_CMP_LE" and value >= greatest or \
        op in ("SCMP_CMP_LT", "SCMP_CMP_NE") and value > greatest


def _is_null_test(condition: Condition, greatest: int) -> bool:
    """Whether a condition only tests whether an address, up to the greatest, is 0."""
    if condition.op == MASKED:
        return condition.value & greatest == greatest and condition.two == 0
    return (condition.op.removeprefix("SCMP_CMP_"), condition.value) in (
        ("EQ", 0), ("NE", 0), ("GT", 0), ("LE", 0), ("GE", 1), ("LT", 1))


# Kinds of findings on an argument that a condition tests: the letter that it has then, and the sentence.
ON_ARGUMENTS = {
    "no-such-argument": ("", "{names} {have} no argument {index} (the first is 0){where}, and the kernel doesn't read "
                         "its register"),
    "pointer-argument": (constants.ADDRESS, "argument {index} of {names}{where} is an address: a filter can't see what "
                         "it points to"),
    "high-half": (constants.HALF, "the kernel reads 32 bits of argument {index} of {names}{where}, and {value:#x} has "
                  "more: a program that passes {low:#x} doesn't meet it")}


def _of_argument(kind: str, entry: Entry, place: int, judged: Tables) -> Iterator[Finding]:
    """Findings of a kind on the argument of a condition, by syscalls; only arguments of 64 bits have an upper half."""
    (letter, sentence), index, value = ON_ARGUMENTS[kind], entry.conditions[place].index, entry.conditions[place].value
    named: dict[Owners, list[str]] = {}
    for name in entry.names:
        among = [oci for oci in judged.numbers_of(name) if kind != "high-half" or JUDGED[oci].greatest > LOW_HALF]
        on = [oci for oci in among if name in constants.kinds_on(oci)
              and constants.kinds_on(oci)[name][index:index + 1] == letter]
        if on:
            named.setdefault(Owners.of(on, among, judged), []).append(name)
    for owners, names in named.items():
        text = sentence.format(names=listed(names), have="has" if len(names) == 1 else "have", index=index,
                               where=owners.where, value=value, low=value & LOW_HALF)
        yield Finding.at((entry.place, place), kind, text, condition=place, names=names, **owners.as_json())


def of_conditions(entries: Sequence[Entry], judged: Tables) -> Iterator[Finding]:
    """Conditions that can't be meant: they always hold, or are on the wrong argument."""
    for entry in entries:
        on = {oci for name in entry.names for oci in judged.numbers_of(name)} or judged.of
        greatest = max(JUDGED[oci].greatest for oci in on)
        for place, condition in enumerate(entry.conditions):
            at, op, value, two = (entry.place, place), condition.op, condition.value, condition.two
            if _always_holds(condition, greatest):
                swapped = "; value is the mask, and valueTwo what is compared with: they may be swapped" * bool(two)
                yield Finding.at(at, "always-met", f"{op} {value} holds for every value{swapped}", condition=place)
            elif op == MASKED and two & ~value:
                yield Finding.at(at, "odd-mask", f"valueTwo {two:#x} has bits that the mask {value:#x} lacks, and "
                                 "these aren't compared", condition=place)
            yield from _of_argument("no-such-argument", entry, place, judged)
            if not _is_null_test(condition, greatest):
                yield from _of_argument("pointer-argument", entry, place, judged)
            if op == EQUAL and value > LOW_HALF:
                yield from _of_argument("high-half", entry, place, judged)


def of_unions(judged: Tables, entries: Sequence[Entry]) -> Iterator[Finding]:
    """Entries with conditions and one answer that together cover every call of a syscall: they were meant to hold all
    at once, and one of them is enough. Raises TooMany."""
    having = by_key(((name, entry.answer), entry) for entry in entries for name in entry.names)
    met = Met()
    for (name, _), its in having.items():
        if len(its) > 1 and all(entry.conditions for entry in its) and \
                all(met.are_all(its, architecture) for architecture in judged.numbers_of(name)):
            places = [entry.place for entry in its]
            yield Finding("always-met", f"entries {listed(places)}: every call of {name} meets one of them, so one "
                          "entry is enough", entries=places, name=name)


def _evading(sets: Sets, region_list: Sequence[Region], index: int) -> \
        tuple[Region, tuple[int, ...], Region, tuple[int, ...]] | None:
    """A region of a syscall that denies it, with arguments of which one has no bit in the upper half, and one that
    allows it with such a bit and otherwise the same; None if there are none."""
    answered = [region for region in region_list if region.answer is not None]
    allowing = [region for region in answered if region.answer.allows and region.has({index: UPPER_UNIT}, (1,))]
    without_upper, with_upper = (sets.cube(index, value, LOW_HALF << 32) for value in (0, UPPER_UNIT))
    upper = sets.bits * index, sets.bits * index + 32
    for denied in (region for region in answered if region.answer.denies and region.has({index: 0}, (1,)) and allowing):
        low = sets.for_some(sets.both(arguments_of(sets, denied), without_upper), *upper)
        for allowed in allowing:
            evading = sets.both(arguments_of(sets, allowed), with_upper)
            both = sets.both(low, sets.for_some(evading, *upper))
            if both:
                arguments = sets.least(both)
                for at, value in enumerate(arguments):
                    evading = sets.both(evading, sets.cube(at, value, LOW_HALF if at == index else sets.most))
                return denied, arguments, allowed, sets.least(evading)
    return None


def _evasions(watch: Watch, entries: Sequence[Entry]) -> Iterator[tuple[str, str, dict[str, object]]]:
    """The denials of an architecture that a bit in the upper half of a register evades, of each syscall one: the
    syscall, what is to be said, and the members of the finding in JSON. Raises TooMany."""
    sets, kinds = Sets(watch.architecture.bits, Steps()), constants.kinds_on(watch.architecture.oci)
    tested: dict[tuple[int, str], set[int]] = {}
    for entry in entries:
        for name in entry.names:
            number = watch.table.number_of(name)
            if number is not None and entry.conditions:
                tested.setdefault((number, name), set()).update(condition.index for condition in entry.conditions)
    seen: set[int] = set()
    for (number, name), indices in tested.items():
        halves = [index for index in sorted(indices) if kinds.get(name, "")[index:index + 1] == constants.HALF]
        pairs = {index: _evading(sets, watch.regions_of(name), index) for index in halves if number not in seen}
        evaded = [index for index, pair in pairs.items() if pair is not None]
        if evaded and len(seen) < MOST:
            seen.add(number)
            first, *more = evaded
            denied, lows, allowed, highs = pairs[first]
            low, high, others = hex(lows[first]), hex(highs[first]), sorted(indices - {first})
            beside = "".join(f", beside {lows[at]:#x} as argument {at}" for at in others)
            also = f"; the same of {listed(f'argument {at}' for at in more)}" if more else ""
            yield (name, f"is denied with {low} as argument {first}{beside} ({denied.answer}), and allowed with {high} "
                   f"{allowed.by}: the kernel reads only the lower 32 bits, and executes the same syscall for both"
                   f"{also}",
                   {"name": name, "argument": first, "denied": low, "allowed": high, "entry": allowed.entry,
                    **({"also": more} if more else {}), "others": {str(at): hex(lows[at]) for at in others}})


def of_denials(judged: Tables, watches: Mapping[str, Watch], entries: Sequence[Entry]) -> Iterator[Finding]:
    """The evaded denials on architectures whose arguments have an upper half."""
    whole = [architecture for architecture in judged.of if JUDGED[architecture].greatest > LOW_HALF]
    evaded = by_key(((name, said), (oci, more)) for oci in whole
                    for name, said, more in _evasions(watches[oci], entries))
    for (name, said), found in evaded.items():
        numbers, (on, (more, *_)) = judged.numbers_of(name), zip(*found)
        owners = Owners.of(on, [architecture for architecture in whole if architecture in numbers], judged)
        yield owners.finding("high-half", f"{owners.named(name, numbers[owners.first])} {said}", **more)
