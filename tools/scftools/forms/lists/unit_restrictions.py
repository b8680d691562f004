"""The settings of a systemd unit that deny syscalls beside SystemCallFilter=, and what each of them denies.

For each of these settings systemd adds a filter for each architecture that the kernel runs, or for some of them, which
answers some syscalls by an errno and allows all others. The rules are those of src/shared/seccomp-util.c of systemd
252.39 and 257.13 on x86-64, built with a libseccomp that knows fchmodat2. They don't deny what i386's socketcall(2) and
ipc(2) do in place of the syscalls that they name. The order of clone's arguments is another one on s390, which isn't
modelled.

No syscall is denied by two of these settings. Where SystemCallFilter= denies it, too, that answer counts: systemd adds
that filter last, and of two errnos the kernel takes the one of the newer filter (seccomp(2)). All commands of a unit
have the filters, with or without NoNewPrivileges=, but those that begin with `+` (needs_sandboxing in exec_child of
src/core/execute.c).
"""
from __future__ import annotations

import errno
import re
import stat
from collections.abc import Callable, Iterable, Sequence

from ...base import program
from ...base.values import Pattern, dataclass
from ...model import constants
from ...model.answers import ENOSYS, KILL_PROCESS, MAX_ERRNO, Answer
from ...model.architectures import I386
from ...model.entries import GREATEST_VALUE, Alternative, Condition

# The versions of systemd whose rules these are, as texts and by the first number; from the second number on.
VERSIONS, KNOWN = "252.39 and 257.13", {252: 39, 257: 13}
# From this version on PR_SET_MDWE, if there, replaces MemoryDenyWriteExecute='s filter (NEWS); linux/prctl.h.
WITH_PRCTL, GET_MDWE = 254, 66
EPERM, EAFNOSUPPORT = Answer("ERRNO", 1), Answer("ERRNO", 97)
# The names of namespaces in RestrictNamespaces= (src/basic/namespace-util.c).
NAMESPACES = {"cgroup": "CLONE_NEWCGROUP", "ipc": "CLONE_NEWIPC", "net": "CLONE_NEWNET", "mnt": "CLONE_NEWNS",
              "pid": "CLONE_NEWPID", "user": "CLONE_NEWUSER", "uts": "CLONE_NEWUTS", "time": "CLONE_NEWTIME"}
# The policies of sched(7) that aren't of real time: SCHED_OTHER, SCHED_BATCH and SCHED_IDLE (linux/sched.h).
SCHEDULING_POLICIES = (0, 3, 5)
# linux/personality.h, by what `systemctl show` prints of Personality=, if anything.
PERSONALITIES = {"": 0, "x86-64": 0, "x86": 8}
SXID = (stat.S_ISUID, stat.S_ISGID)
# The error number of what is killed in `systemctl show`: SECCOMP_ERROR_NUMBER_KILL, INT_MAX - 1; of older systemds 0.
KILL_NUMBERS = ("2147483646", "0", "kill", "")
# asm-generic/errno.h; Python's module lacks it.
ERRNO_NUMBERS = {**{name: number for number, name in errno.errorcode.items()}, "EHWPOISON": 133}
# An errno as safe_atoi of systemd's basic/parse-util.c reads it: in C's notation, also with the prefixes 0b and 0o.
ERRNO_NUMBER = Pattern(r"\+?(?:0[xX][0-9a-fA-F]+|0[bB][01]+|0[oO][0-7]+|0[0-7]*|[1-9][0-9]*)|-0", re.A)


class SettingError(program.ToolError):
    """A setting that systemd prints, or that is given in its place, isn't as systemd.exec(5) says."""


def answer_of_errno(text: str, kills: Sequence[str] = (KILL_NUMBERS[0], "kill")) -> Answer:
    """The answer of an errno by its name or its number, or of a text that kills."""
    if text in kills:
        return KILL_PROCESS
    number = getattr(errno, text, ERRNO_NUMBERS.get(text)) if re.fullmatch("E[A-Z0-9]+", text) else None
    if number is None and len(text) <= 16 and ERRNO_NUMBER.fullmatch(text):
        number = int(re.sub("^([+-]?)0(?=[0-7])", r"\g<1>0o", text), 0)
    if number is None or number > MAX_ERRNO:
        raise SettingError(f"'{text[:64]}' isn't an errno")
    return Answer("ERRNO", number)


@dataclass(frozen=True)
class Restriction:
    """The part of a syscall that a setting denies, and by which answer: the alternatives of which one holds if it is
    denied, and those of which one holds if it isn't. Without conditions all of it is denied."""

    answer: Answer
    denied: Sequence[Alternative] = ((),)
    allowed: Sequence[Alternative] = ()


Rules = dict[str, Restriction]


def masked(index: int, mask: int, value: int) -> Alternative:
    """The bits of a mask are those of a value."""
    return (Condition(index, "SCMP_CMP_MASKED_EQ", mask, value),)


def among(index: int, values: Iterable[int]) -> list[Alternative]:
    """An argument is one of some values."""
    return [(Condition(index, "SCMP_CMP_EQ", value, 0),) for value in sorted(values)]


def outside(index: int, values: Sequence[int]) -> list[Alternative]:
    """An argument is none of some values."""
    least, greatest = min(values), max(values)
    if least == greatest:
        return [(Condition(index, "SCMP_CMP_NE", least, 0),)]
    below = [(Condition(index, "SCMP_CMP_LT", least, 0),)] if least else []
    between = among(index, set(range(least, greatest)) - set(values))
    return [*below, *between, (Condition(index, "SCMP_CMP_GT", greatest, 0),)]


def with_any(index: int, bits: Sequence[int], answer: Answer = EPERM) -> Restriction:
    """Denies an argument that has any of some bits."""
    return Restriction(answer, [masked(index, bit, bit) for bit in bits], [masked(index, sum(bits), 0)])


def with_all(index: int, bits: Sequence[int], answer: Answer = EPERM) -> Restriction:
    """Denies an argument that has all of some bits."""
    return Restriction(answer, [masked(index, sum(bits), sum(bits))], [masked(index, bit, 0) for bit in bits])


def _whole(names: Iterable[str], answer: Answer = EPERM) -> Rules:
    return dict.fromkeys(names, Restriction(answer))


def _namespaces(text: str, _: str) -> Rules:
    """RestrictNamespaces=: `yes`, or those that may be made. clone3's flags can't be looked at."""
    permitted = [] if text == "yes" else text.split()
    if not set(permitted) <= NAMESPACES.keys():
        raise SettingError(f"'{text[:64]}' aren't namespaces")
    bits = [constants.numbers()[flag] for name, flag in NAMESPACES.items() if name not in permitted]
    joins = Restriction(EPERM)
    if permitted:
        # a 0 stands for any namespace
        others = (1 << at for at in range(GREATEST_VALUE.bit_length()) if 1 << at not in bits)
        allowed = [masked(1, sum(bits) | bit, bit) for bit in others]
        joins = Restriction(EPERM, [*with_any(1, bits).denied, *among(1, [0])], allowed)
    return {**dict.fromkeys(("clone", "unshare"), with_any(0, bits)), "setns": joins, "clone3": Restriction(ENOSYS)}


def _families(text: str, architecture: str) -> Rules:
    """RestrictAddressFamilies=: those permitted, or after `~` not; on i386 socketcall(2) can't be looked at."""
    names = text.lstrip("~").split()
    constant_values = constants.numbers()
    if not all(name.startswith("AF_") and name in constant_values for name in names):
        raise SettingError(f"'{text[:64]}' aren't address families")
    if architecture == I386:
        return {}
    values = [constant_values[name] for name in names]
    if not values:
        return _whole(["socket"], EAFNOSUPPORT)
    sides = among(0, values), outside(0, values)
    denied, allowed = sides if text.startswith("~") else sides[::-1]
    return {"socket": Restriction(EAFNOSUPPORT, denied, allowed)}


def _memory(_: str, architecture: str) -> Rules:
    """MemoryDenyWriteExecute=: writable code. i386's mmap(2) has its arguments in memory, and its shmat is ipc(2)'s."""
    write, execute, attach = (constants.numbers()[name] for name in ("PROT_WRITE", "PROT_EXEC", "SHM_EXEC"))
    rules = dict.fromkeys(("mprotect", "pkey_mprotect"), with_any(2, [execute]))
    maps = with_all(2, (write, execute))
    if architecture == I386:
        return {**rules, "mmap2": maps, **_whole(["mmap"])}
    return {**rules, "mmap": maps, "shmat": with_any(2, [attach])}


def _created(flags: int, mode: int) -> Restriction:
    """Denies opening with O_CREAT and a mode that has a bit of SXID; by the arguments with flags and mode."""
    create = constants.numbers()["O_CREAT"]
    return Restriction(EPERM, [masked(flags, create, create) + masked(mode, bit, bit) for bit in SXID],
                       [masked(flags, create, 0), masked(mode, sum(SXID), 0)])


def _sxid(_: str, __: str) -> Rules:
    """RestrictSUIDSGID=: files with S_ISUID or S_ISGID. openat2's flags can't be looked at."""
    return {**dict.fromkeys(("chmod", "fchmod", "mkdir", "mknod", "creat"), with_any(1, SXID)),
            **dict.fromkeys(("fchmodat", "fchmodat2", "mkdirat", "mknodat"), with_any(2, SXID)),
            "open": _created(1, 2), "openat": _created(2, 3), "openat2": Restriction(ENOSYS)}


def _personality(text: str, _: str) -> Rules:
    """LockPersonality=, with the personality that Personality= says: no other may be set, nor may it be asked for."""
    if text not in PERSONALITIES:
        raise SettingError(f"'{text[:64]}' isn't a personality of x86-64")
    values = [PERSONALITIES[text]]
    return {"personality": Restriction(EPERM, outside(0, values), among(0, values))}


# What the settings deny, each by its text and by the OCI name of an architecture.
RULES: dict[str, Callable[[str, str], Rules]] = {
    "RestrictNamespaces": _namespaces, "RestrictAddressFamilies": _families, "MemoryDenyWriteExecute": _memory,
    "RestrictRealtime": lambda _, __: {"sched_setscheduler": Restriction(
        EPERM, outside(1, SCHEDULING_POLICIES), among(1, SCHEDULING_POLICIES))},
    "RestrictSUIDSGID": _sxid, "LockPersonality": _personality,
    # (the sets @clock, @module and @raw-io, as far as an x86-64 kernel has their syscalls)
    "ProtectClock": lambda _, __: _whole(("adjtimex", "clock_adjtime", "clock_adjtime64", "clock_settime",
                                          "clock_settime64", "settimeofday")),
    "ProtectHostname": lambda _, __: _whole(("sethostname", "setdomainname")),
    "ProtectKernelModules": lambda _, __: _whole(("delete_module", "finit_module", "init_module")),
    "ProtectKernelLogs": lambda _, __: _whole(["syslog"]), "ProtectKernelTunables": lambda _, __: _whole(["_sysctl"]),
    "PrivateDevices": lambda _, __: _whole(("ioperm", "iopl"))}
# What `systemctl show` prints of one that isn't set, if that isn't `no`.
UNSET = {"RestrictAddressFamilies": "~"}
RESTRICTION_PROPERTIES = (*RULES, "Personality")


def texts_in(shown: dict[str, str]) -> dict[str, str]:
    """The texts of the settings that a unit has, among all properties that `systemctl show` prints."""
    return {name: shown[name] for name in RULES if shown.get(name) not in (None, UNSET.get(name, "no"))}


def set_in(shown: dict[str, str]) -> dict[str, str]:
    """The settings that a unit has, each with its text; that of LockPersonality= is the personality."""
    texts = texts_in(shown)
    for name, text in texts.items():
        if text != "yes" and name not in ("RestrictNamespaces", "RestrictAddressFamilies"):
            raise SettingError(f"{name}={text[:64]} isn't yes or no")
    return {**texts, **({"LockPersonality": shown.get("Personality", "")} if "LockPersonality" in texts else {})}


def rules_of(settings: dict[str, str], oci: str) -> Rules:
    """The restrictions of settings on an architecture by its OCI name, by the names of syscalls."""
    return {name: rule for setting, text in settings.items() for name, rule in RULES[setting](text, oci).items()}


def numbers_of(version: str) -> tuple[int, int] | None:
    """The two first numbers of a version as systemd prints it: 252.39-1~deb12u2, 256~rc1."""
    match = re.match(r"([0-9]{1,4})(?:\.([0-9]{1,4}))?(?![0-9])", version)
    return (int(match[1]), int(match[2] or 0)) if match else None


def is_modelled(version: str) -> bool:
    numbers = numbers_of(version)
    return numbers is not None and numbers[1] >= KNOWN.get(numbers[0], numbers[1] + 1)


def is_by_prctl(version: str) -> bool:
    """Whether a systemd of this version applies MemoryDenyWriteExecute= by prctl(2) here, without a filter."""
    import ctypes  # pylint: disable=import-outside-toplevel

    numbers = numbers_of(version)
    return numbers is not None and numbers[0] >= WITH_PRCTL and ctypes.CDLL(None).prctl(GET_MDWE, 0, 0, 0, 0) >= 0
