"""Syscalls that `lint` looks for in what a profile allows: those that make a sandbox useless (tables/dangerous.calls),
those that need another one, as sleeps need restart_syscall, those that libc replaces only if they are ENOSYS, and those
that do what a denied one does, whose denial is void."""
from __future__ import annotations

import functools
from collections.abc import Iterator, Mapping, Sequence

from ..base.values import Any, by_key, dataclass
from ..model.answers import ENOSYS, Answer
from ..model.architectures import NATIVE, Architecture, machine_architecture
from ..model.argument_sets import Sets, Steps
from ..model.entries import MASKED, NOT_EQUAL, Condition, Entry
from ..model.tables import Dangerous, Table, Tables, dangerous
from ..ask.answer_sets import arguments_of
from ..ask.regions import Numbers, Region
from ..ask.verdicts import UNFINISHED
from ..forms import runtimes
from .findings import Finding, Owners, by_owners, listed


# What the kernel ends with -ERESTART_RESTARTBLOCK (hrtimer_nanosleep and its like, do_restart_poll,
# futex_wait_restart): sleeps that aren't until a time (TIMER_ABSTIME is 1), poll, and FUTEX_WAIT and FUTEX_WAIT_BITSET
# (0 and 9 under FUTEX_CMD_MASK) with a timeout. Others, as ppoll and select, begin anew or end with EINTR. Those of
# time64 are i386's and arm's.
_IS_NO_TIME = (Condition(1, MASKED, 1, 0),)
RESTARTED: tuple[tuple[str, tuple[Condition, ...]], ...] = (
    ("nanosleep", ()), ("clock_nanosleep", _IS_NO_TIME), ("clock_nanosleep_time64", _IS_NO_TIME), ("poll", ()),
    *((name, (Condition(1, MASKED, 0x7F, operation), Condition(3, NOT_EQUAL, 0, 0)))
      for name in ("futex", "futex_time64") for operation in (0, 9)))


@dataclass(frozen=True)
class Needed:
    """A syscall that must be allowed with any arguments if one of its users is; the kind of finding if it isn't, and
    why it is called; and on architectures of how many bits."""

    kind: str
    name: str
    users: tuple[tuple[str, tuple[Condition, ...]], ...]
    why: str
    bits: tuple[int, ...] = (32, 64)


# The program itself doesn't call these (arch/x86/kernel/signal.c; vdso and libc return from a handler by sigreturn(2)).
# On i386, arm and mipsel those without SA_SIGINFO do so by sigreturn (setup_frame in signal_32.c and in signal.c of
# arch/arm and arch/mips); powerpc has it for 32 bits alone (do_signal in arch/powerpc/kernel/signal.c).
NEEDED = (
    Needed("no-restart", "restart_syscall", RESTARTED, "a thread stopped in such a syscall, by SIGSTOP or a "
           "debugger, calls it to continue, and"),
    Needed("no-return", "rt_sigreturn", (("rt_sigaction", ()),), "each signal handler ends with it, and it"),
    Needed("no-return", "sigreturn", (("rt_sigaction", ()), ("sigaction", ()), ("signal", ())),
           "each signal handler without SA_SIGINFO ends with it, and it", (32,)))
# What libc calls instead of newer syscalls if they fail with ENOSYS, and not with any other errno (glibc's
# __clone_internal and faccessat); with arguments of a thread and of a fork, by linux/sched.h.
FALLBACKS = (("clone3", "clone", (0x3D0F00, 0x1200011)), ("faccessat2", "faccessat", (0,)))
# Each syscall with those that do all of it by other arguments, as their manual pages say.
SIBLINGS = {
    "open": "openat openat2", "creat": "open openat openat2", "mkdir": "mkdirat", "mknod": "mknodat", "link": "linkat",
    "symlink": "symlinkat", "unlink": "unlinkat", "rmdir": "unlinkat", "rename": "renameat renameat2",
    "renameat": "renameat2", "chmod": "fchmodat fchmodat2", "chown": "fchownat", "lchown": "fchownat",
    "utime": "utimes futimesat utimensat", "utimes": "utimensat", "execve": "execveat", "fork": "clone clone3",
    "vfork": "clone clone3", "accept": "accept4", "setuid": "setresuid", "setgid": "setresgid",
    "setreuid": "setresuid", "setregid": "setresgid", "settimeofday": "clock_settime", "adjtimex": "clock_adjtime",
    "init_module": "finit_module", "tkill": "tgkill", "setrlimit": "prlimit64"}
# How a syscall is allowed.
ALWAYS, SOMETIMES = "always", "sometimes"


@functools.lru_cache(None)
def meant() -> dict[str, list[tuple[Condition, ...]]]:
    """The syscalls that are looked for, each with the conditions of which its arguments are to meet some."""
    return by_key((*((name, danger.conditions) for name, danger in dangerous().items()),
                   *(user for needed in NEEDED for user in (*needed.users, (needed.name, ())))))


class Watch:
    """What a profile with these regions allows of the list to an architecture, with some or with all arguments; nothing
    is known if they are None, which is unfinished."""

    def __init__(self, architecture: Architecture, table: Table, profile_regions: Sequence[Region] | None):
        self.architecture, self.table, self.is_finished = architecture, table, profile_regions is not None
        self._numbers, self._sets = Numbers(profile_regions, architecture), Sets(architecture.bits, Steps())
        self.allowed = functools.lru_cache(None)(self._find_allowed)

    def has(self, name: str) -> bool:
        return self.table.number_of(name) is not None

    def regions_of(self, name: str) -> list[Region]:
        """The regions of a syscall; none if it has no number."""
        number = self.table.number_of(name)
        return [] if number is None else self._numbers.of(self.architecture.first + number)

    def _find_allowed(self, name: str) -> tuple[Region, tuple[int, ...]] | None:
        """A region in which a syscall is allowed with arguments that are meant, and these; None if there is none."""
        sets = self._sets
        for region in self.regions_of(name):
            if region.answer is not None and region.answer.allows:
                arguments = sets.both(arguments_of(sets, region), sets.union(map(sets.of_conditions, meant()[name])))
                if arguments:
                    return region, sets.least(sets.possible(arguments))
        return None

    def denied(self, name: str) -> Region | None:
        """A region in which a syscall isn't allowed."""
        return next((region for region in self.regions_of(name)
                     if region.answer is not None and not region.answer.allows), None)

    def how(self, name: str) -> str | None:
        """How a syscall is allowed, None if it isn't: a verdict if that is undecided."""
        if not self.is_finished:
            return UNFINISHED
        return None if self.allowed(name) is None else SOMETIMES if self.denied(name) else ALWAYS

    def at(self, name: str, first: int = 0) -> Region | None:
        """The region of a syscall with this first argument, and zeros behind it."""
        given = {index: first if index == 0 else 0 for index in range(6)}
        return next((region for region in self.regions_of(name) if region.has(given)), None)

    def users(self, needed: Needed) -> list[str]:
        """The users of a syscall that are allowed, or of which that is undecided."""
        return [name for name in dict.fromkeys(name for name, _ in needed.users)
                if self.has(name) and (not self.is_finished or self.allowed(name))]


def _allowed(name: str, danger: Dangerous, watch: Watch, owners: Owners) -> Finding:
    """A dangerous syscall that is allowed, always or with some arguments, or of which that is undecided."""
    number, how, allowed = watch.table.number_of(name) or 0, watch.how(name), watch.allowed(name)
    more: dict[str, Any] = {"name": name, "number": number, "reason": danger.reason}
    if allowed is None:
        return owners.finding("dangerous-call", f"undecided whether {owners.named(name, number)} is allowed: {how}",
                              is_decided=False, **more)
    region, arguments = allowed
    shown = list(map(hex, arguments))
    some = "" if how == ALWAYS else f" with some arguments, such as {' '.join(shown)},"
    called = owners.named(" or ".join(watch.table.names_of(number)), number)
    return owners.finding("dangerous-call", f"{called} is allowed{some} {region.by}: {danger.reason}", **more,
                          is_always=how == ALWAYS, arguments=shown, entry=region.entry)


def of_dangerous(judged: Tables, watches: Mapping[str, Watch]) -> Iterator[Finding]:
    """The dangerous syscalls that are allowed, or of which that is undecided; what the default always allows is one
    finding, since one change of the profile denies it."""
    by_default: dict[Owners, list[str]] = {}
    for name, danger in dangerous().items():
        how = {oci: watch.how(name) for oci, watch in watches.items() if watch.has(name)}
        for answer, owners in by_owners(how, judged):
            allowed = watches[owners.first].allowed(name)
            if answer == ALWAYS and allowed and allowed[0].entry is None:
                by_default.setdefault(owners, []).append(name)
            else:
                yield _allowed(name, danger, watches[owners.first], owners)
    for owners, names in by_default.items():
        if len(names) == 1:
            yield _allowed(names[0], dangerous()[names[0]], watches[owners.first], owners)
        else:
            reasons = {name: dangerous()[name].reason for name in names}
            text = f"the default allows {len(names)} syscalls{owners.where} that make a sandbox useless"
            yield Finding("dangerous-call", f"{text}: {listed(names)}", names=names, reasons=reasons, is_always=True,
                          entry=None, **owners.as_json())


def of_needed(judged: Tables, watches: Mapping[str, Watch]) -> Iterator[Finding]:
    """A finding if a syscall isn't always allowed, but others that need it are, or if that is undecided."""
    for needed in NEEDED:
        # whether users are allowed and it isn't, and that is decided; None where it is
        lacks = {oci: watch.is_finished if watch.users(needed) and (not watch.is_finished or watch.denied(needed.name))
                 else None for oci, watch in watches.items()
                 if watch.has(needed.name) and watch.architecture.bits in needed.bits}
        for _, owners in by_owners(lacks, judged):
            watch = watches[owners.first]
            users, denied = watch.users(needed), watch.denied(needed.name)
            called = owners.named(needed.name, watch.table.number_of(needed.name) or 0)
            if denied is None:
                yield owners.finding(needed.kind, f"undecided whether {called} is always allowed", is_decided=False,
                                     names=users)
            else:
                are = "is" if len(users) == 1 else "are"
                yield Finding(needed.kind, f"{listed(users)} {are} allowed, and {called} is not: {needed.why} is "
                              f"answered {denied.by} {denied.answer.describe()}{owners.also}", names=users,
                              **owners.as_json(), entry=denied.entry)


def of_start(judged: Tables, watches: Mapping[str, Watch]) -> Iterator[Finding]:
    """A finding if the runtime that reads a profile starts nothing under it, since what it calls itself is denied."""
    own = runtimes.OWN_CALLS.get(judged.reading) if machine_architecture() == NATIVE else None
    watch = watches.get(NATIVE)
    if own is None or watch is None:
        return
    if not watch.is_finished:
        yield Finding("no-start", f"undecided whether {judged.reading} starts anything: {UNFINISHED}", False)
    answers = {name: [region.answer for region in watch.regions_of(name)] for name in own.names
               if watch.has(name) and watch.is_finished}
    denied = [name for name, its in answers.items() if all(answer and answer.denies for answer in its)]
    killed = [name for name in denied if all(answer.action.startswith("KILL") for answer in answers[name])]
    for where, of_denied, of_killed in (("", own.denied, own.killed),
                                        (" without noNewPrivileges", own.denied_early, own.killed_early)):
        names = [name for name in denied if name in of_denied or name in killed and name in of_killed]
        if names:
            yield Finding("no-start", f"{judged.reading} {own.version} starts nothing{where}: it calls {listed(names)} "
                          "itself behind the filter, which the profile denies", names=names)
            return


def of_fallbacks(judged: Tables, watches: Mapping[str, Watch]) -> Iterator[Finding]:
    """A finding if a newer syscall is denied so that libc doesn't call the older one, which is allowed."""
    for newer, older, first_arguments in FALLBACKS:
        numbers = judged.numbers_of(newer)
        denials: dict[str, tuple[Answer, str, int | None] | None] = dict.fromkeys(numbers)
        for oci in numbers:
            denied, instead = watches[oci].at(newer), [watches[oci].at(older, first) for first in first_arguments]
            if denied and denied.answer.denies and denied.answer != ENOSYS and \
                    any(region and region.answer.allows for region in instead):
                denials[oci] = denied.answer, denied.by, denied.entry
        for (answer, by, entry), owners in by_owners(denials, judged):
            text = (f"{owners.named(newer, numbers[owners.first])} is answered {by} {answer}, and {older} is allowed: "
                    f"libc calls {older} instead only after ENOSYS, which is errno {ENOSYS.data}")
            yield owners.finding("no-fallback", text, name=newer, instead=older, entry=entry)


def of_siblings(judged: Tables, watches: Mapping[str, Watch], entries: Sequence[Entry]) -> Iterator[Finding]:
    """Denials by an entry that another syscall makes void. One with ENOSYS isn't meant to keep a program from anything,
    but to lead it to the other one; entries with conditions are left out."""
    conditional = {name for entry in entries if entry.conditions for name in entry.names}
    for name in dict.fromkeys(name for entry in entries for name in entry.names
                              if name in SIBLINGS and name not in conditional):
        void: dict[str, tuple[int, Answer, tuple[str, ...]] | None] = dict.fromkeys(judged.numbers_of(name))
        for oci in void:
            denied = watches[oci].at(name)
            if denied and denied.entry is not None and denied.answer.denies and denied.answer != ENOSYS:
                others = ((sibling, watches[oci].at(sibling)) for sibling in SIBLINGS[name].split())
                allowed = tuple(sibling for sibling, region in others
                                if sibling not in conditional and region and region.answer.allows)
                void[oci] = (denied.entry, denied.answer, allowed) if allowed else None
        for (entry, answer, others), on in by_owners(void, judged):
            yield Finding("sibling-allowed", f"{name} is denied{on.where} by entry {entry} ({answer}), and "
                          f"{listed(others)}, which can do the same, {'is' if len(others) == 1 else 'are'} allowed",
                          entry=entry, name=name, allowed=list(others), **on.as_json())
