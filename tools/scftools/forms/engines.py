"""Engines' profiles: what a container engine makes of its own profile for one container, the resolved profile.

The rules are those of moby (profiles/seccomp) and of containers-common (pkg/seccomp), which agree but for the members
that only one of them reads (`ENGINES`) and for the errnos by name, which are containers-common's alone.
"""
from __future__ import annotations

import errno
import json
import os
import re
from collections.abc import Iterator, Sequence

from ..base import output
from ..base.values import Any, dataclass, field, replace
from ..model import architectures, profiles
from ..model.answers import ACTIONS_WITH_DATA, Answer
from ..model.entries import Object
from ..model.profiles import NUMBER_TYPE, SECCOMP_MEMBERS, TEXT_TYPE, VERSION_TYPE, Origin, Refused, where_in

# What a container has by default: moby's oci/caps, and containers-common's containers.conf.
SETS = {
    "docker": ("CHOWN DAC_OVERRIDE FSETID FOWNER MKNOD NET_RAW SETGID SETUID SETFCAP SETPCAP NET_BIND_SERVICE "
               "SYS_CHROOT KILL AUDIT_WRITE").split(),
    "podman": "CHOWN DAC_OVERRIDE FOWNER FSETID KILL NET_BIND_SERVICE SETFCAP SETGID SETPCAP SETUID SYS_CHROOT".split(),
    "none": []}
# linux/capability.h
CAPABILITIES = (
    "CHOWN DAC_OVERRIDE DAC_READ_SEARCH FOWNER FSETID KILL SETGID SETUID SETPCAP LINUX_IMMUTABLE NET_BIND_SERVICE "
    "NET_BROADCAST NET_ADMIN NET_RAW IPC_LOCK IPC_OWNER SYS_MODULE SYS_RAWIO SYS_CHROOT SYS_PTRACE SYS_PACCT "
    "SYS_ADMIN SYS_BOOT SYS_NICE SYS_RESOURCE SYS_TIME SYS_TTY_CONFIG MKNOD LEASE AUDIT_WRITE AUDIT_CONTROL SETFCAP "
    "MAC_OVERRIDE MAC_ADMIN SYSLOG WAKE_ALARM BLOCK_SUSPEND AUDIT_READ PERFMON BPF CHECKPOINT_RESTORE"
).split()
# The machines by their names in `arches`, with the OCI names of their own syscalls (`archMap`, `architectures`).
MACHINE_NAMES = {row.machine: oci for oci, row in architectures.JUDGED.items() if row.machine}
# The members that an engine doesn't read, and another one does: moby since 23, moby 20.10, and containers-common.
ENGINES = {
    "docker": ("errno", "defaultErrno"),
    "docker-20.10": ("errno", "defaultErrno", "defaultErrnoRet", "flags", "listenerPath", "listenerMetadata"),
    "podman": ("minKernel",),
}
# The members of the top that stay as they are.
PASSED_ON = ("flags", "listenerPath", "listenerMetadata")
# The names of errnos that containers-common takes (pkg/seccomp/errno_list.go).
ERRNO_NAMES = (
    "EPERM ENOENT ESRCH EIO ENXIO E2BIG ENOEXEC EBADF ECHILD EDEADLK ENOMEM EACCES EFAULT ENOTBLK EBUSY EEXIST EXDEV "
    "ENODEV ENOTDIR EISDIR EINVAL ENFILE EMFILE ENOTTY ETXTBSY EFBIG ENOSPC ESPIPE EROFS EMLINK EPIPE EDOM ERANGE "
    "EAGAIN EINPROGRESS EALREADY ENOTSOCK EDESTADDRREQ EMSGSIZE EPROTOTYPE ENOPROTOOPT EPROTONOSUPPORT "
    "ESOCKTNOSUPPORT EOPNOTSUPP EPFNOSUPPORT EAFNOSUPPORT EADDRINUSE EADDRNOTAVAIL ENETDOWN ENETUNREACH ENETRESET "
    "ECONNABORTED ECONNRESET ENOBUFS EISCONN ENOTCONN ESHUTDOWN ETOOMANYREFS ETIMEDOUT ECONNREFUSED ELOOP "
    "ENAMETOOLONG EHOSTDOWN EHOSTUNREACH ENOTEMPTY EUSERS EDQUOT ESTALE EREMOTE ENOLCK ENOSYS EILSEQ ENOMEDIUM "
    "EMEDIUMTYPE EOVERFLOW ECANCELED EIDRM ENOMSG ENOTSUP EBADMSG ENOTRECOVERABLE EOWNERDEAD"
).split()
# The most digits of a number; the most letters of a stranger's text and texts of a list in a note; the most notes.
MAX_DIGITS, MAX_TOLD, MAX_LISTED, MAX_NOTES = 20, 64, 3, 1000


@dataclass(frozen=True)
class Setting:
    """The container for which entries are chosen, and which architectures are kept."""

    capabilities: Sequence[str]
    kernel: tuple[int, int]
    # Whether only the machine's own is handed on of the architectures that the engine names.
    is_native: bool = False
    # One of ENGINES; without one the members of all are read.
    engine: str | None = None
    # Unknown members that aren't conditions; None if all of them aren't.
    ignored: Sequence[str] | None = ()
    # Where the capabilities come from, if no word names them.
    source: str | None = None
    # One of MACHINE_NAMES, by default this one's.
    machine: str = field(default_factory=lambda: architectures.JUDGED[architectures.machine_architecture()].machine)
    # Whether each entry has a comment that stays: the lines of a sandbox's list.
    keeps_comments: bool = False


def excerpt(value: Any) -> str:
    """Untrusted text or another value in a note, truncated."""
    if isinstance(value, (list, dict)):
        return "a list" if isinstance(value, list) else "an object"
    text = value if isinstance(value, str) else json.dumps(value)
    return output.cut(text, MAX_TOLD)


def excerpts(texts: Sequence[Any]) -> str:
    return output.some([excerpt(text) for text in texts], MAX_LISTED)


def answer_of(action: str, number: int | None) -> Answer:
    """The answer that a runtime hands libseccomp for an action and its errno, of which libseccomp takes 16 bits."""
    answer = Answer.of_profile(action, None if number is None else number & 0xFFFF)
    return answer if answer.action in ACTIONS_WITH_DATA else Answer.of_profile(action, None)


def members(pairs: list[tuple[str, Any]]) -> dict[str, Any]:
    found = dict(pairs)
    if len(found) < len(pairs):
        raise Refused(f"the member '{excerpt(Object(pairs).repeated[0])}' is repeated in one object")
    return found


def refuse_fraction(text: str) -> Any:
    raise Refused(f"the number {excerpt(text)} isn't an integer")


def parse_integer(text: str) -> int | float:
    if len(text.lstrip("-")) > MAX_DIGITS:
        raise Refused(f"the number {excerpt(text)} has more than 64 bits")
    # Go takes -0 for no number without a sign
    return int(text) if text != "-0" else -0.0


def parse_json(data: bytes) -> Any:
    try:
        return json.loads(data.decode("utf-8"), object_pairs_hook=members, parse_float=refuse_fraction,
                          parse_constant=refuse_fraction, parse_int=parse_integer)
    except UnicodeDecodeError as error:
        raise Refused("the profile isn't UTF-8") from error
    except RecursionError as error:
        raise Refused("the profile is nested too deep") from error
    except json.JSONDecodeError as error:
        raise Refused(f"the profile isn't JSON: {profiles.malformed(error)}") from error


def to_bytes(profile: dict[str, Any], indent: int | None = None) -> bytes:
    """The JSON of a profile or of what has one."""
    try:
        return json.dumps(profile, indent=indent).encode()
    except RecursionError as error:
        raise Refused("the profile is nested too deep") from error


def printed(profile: dict[str, Any]) -> str:
    return f"{to_bytes(profile, 4).decode()}\n"


def read(value: Any, kind: Any, where: str, unread: Sequence[str], found: list[tuple[str, str, bool]]) -> Any:
    """A value as an engine reads it: without members that are null, or that only another engine reads. What it doesn't
    read is added to a list: the object, the member's name, and whether another engine reads it. Refuses a value that
    isn't an object, a list, a string, a number or a kernel version as the engines read it, and an object that they read
    otherwise than it is spelled."""
    if isinstance(kind, dict):
        if not isinstance(value, dict):
            raise Refused(f"{where} isn't an object")
        members = {}
        for name, member in value.items():
            if name not in kind:
                read_as = next((known for known in kind if profiles.folded(known) == profiles.folded(name)), None)
                if read_as is not None:
                    raise Refused(profiles.Misread(where, name, read_as).describe())
                found.append((where, name, False))
            elif member is not None and name in unread:
                found.append((where, name, True))
            if member is not None and name not in unread:
                members[name] = member if name not in kind else \
                    read(member, kind[name], where_in(where, name), unread, found)
        return members
    if isinstance(kind, list):
        are_texts = kind == [TEXT_TYPE]
        if not isinstance(value, list) or are_texts and not all(isinstance(item, str) for item in value):
            raise Refused(f"{where} isn't a list" + " of strings" * are_texts)
        return value if are_texts else [read(element, kind[0], where_in(where, index), unread, found)
                                        for index, element in enumerate(value)]
    if kind == NUMBER_TYPE:
        if type(value) is not int or not 0 <= value < 1 << 64:
            raise Refused(f"{where} isn't an integer from 0 to 2^64-1")
    elif not isinstance(value, str):
        raise Refused(f"{where} " + ("isn't a string" if kind == TEXT_TYPE else "isn't a kernel version such as 4.8"))
    elif kind == VERSION_TYPE:
        version_of(value, where)
    return value


def seccomp_of(value: Any) -> Any:
    """The seccomp object of a profile, or of a whole config.json."""
    if isinstance(value, dict) and value.get("defaultAction") is None and value.get("linux") is not None:
        read(value, {"linux": {"seccomp": {}}}, "the profile", (), [])
        return value["linux"].get("seccomp")
    return value


def version_of(text: str, where: str = "") -> tuple[int, int]:
    """The version of a kernel that moby reads (KernelVersion.UnmarshalJSON); of an empty one all kernels are."""
    if not text:
        return 0, 0
    parts = re.fullmatch(r"([0-9]+)\.([0-9]+)", text) if len(text) <= MAX_TOLD else None
    version = (int(parts[1]), int(parts[2])) if parts else (0, 0)
    if version == (0, 0) or max(version) > 255:
        raise Refused(f"{where} isn't a kernel version such as 4.8")
    return version


def why_left_out(entry: dict[str, Any], setting: Setting) -> str | None:
    """Why the engines leave an entry out, or None where they keep it."""
    excludes, includes, held = entry.get("excludes", {}), entry.get("includes", {}), setting.capabilities
    without = [capability for capability in excludes.get("caps", ()) if capability in held]
    lacking = [capability for capability in includes.get("caps", ()) if capability not in held]
    arches, most, least = includes.get("arches"), excludes.get("minKernel"), includes.get("minKernel")
    if setting.machine in excludes.get("arches", ()):
        return f"not on {setting.machine}"
    if without:
        return f"only without {without[0]}"
    if most is not None and setting.kernel >= version_of(most):
        return f"only below kernel {most}" if most else "for no kernel, since excludes: minKernel is empty"
    if arches and setting.machine not in arches:
        return f"only on {excerpts(arches)}"
    if lacking:
        return f"only with {excerpts(lacking)}"
    if least is not None and setting.kernel < version_of(least):
        return f"only from kernel {least} on"
    return None


def at_most(notes: Sequence[str]) -> Iterator[str]:
    """Notes, of which there may be too many to print."""
    yield from notes[:MAX_NOTES]
    if len(notes) > MAX_NOTES:
        yield f"{len(notes) - MAX_NOTES} more such lines"


class Resolver:
    """Makes a resolved profile, and notes what is left out and why."""

    def __init__(self, setting: Setting):
        self.setting = setting
        self.notes: list[str] = []
        # of each entry of the resolved profile
        self.origins: list[Origin] = []

    def errno_of(self, holder: dict[str, Any], name: str, where: str) -> Any:
        """An errno: by its name or as a text where that stands, else the number (getErrno of containers-common)."""
        text, number = holder.get(name), f"{name}Ret"
        if not text:
            return holder.get(number)
        is_number = len(text) <= MAX_TOLD and re.fullmatch("[0-9]+", text) and int(text) < 1 << 32
        if not is_number and text not in ERRNO_NAMES:
            raise Refused(f"{where}: {name} '{excerpt(text)}' isn't an errno that podman knows")
        value = int(text) if is_number else getattr(errno, text)
        if holder.get(number) not in (None, value):
            self.notes.append(f"{where}: {name} '{text}' is used, not {number} {excerpt(holder[number])}")
        return value

    def architectures_of(self, top: dict[str, Any]) -> list[str]:
        names, mapped = top.get("architectures", []), top.get("archMap", [])
        native = MACHINE_NAMES[self.setting.machine]
        if names and mapped:
            raise Refused("the profile has both architectures and archMap, and the engines take one")
        own = next((mapping for mapping in mapped if mapping.get("architecture") == native), None)
        if own is not None:
            names = [native, *(own.get("subArchitectures") or [])]
        others = [name for name in names if name != native]
        if self.setting.is_native and others:
            if native not in names:
                raise Refused(f"the profile isn't for {native}")
            self.notes.append(f"architectures left out: {excerpts(others)}")
            return [native]
        return names

    def entry_of(self, entry: dict[str, Any], where: str) -> dict[str, Any] | None:
        """The resolved form of an entry, or None if it has no name."""
        if entry.get("name") and entry.get("names"):
            raise Refused(f"{where} has both name and names, and the engines take one")
        names = [entry["name"]] if entry.get("name") else entry.get("names", [])
        members = {"names": names, "action": entry.get("action", ""),
                   "errnoRet": self.errno_of(entry, "errno", where), "args": entry.get("args") or None,
                   "comment": entry["comment"] if self.setting.keeps_comments else None}
        return {name: value for name, value in members.items() if value is not None} if names else None

    def _tell_unread(self, found: Sequence[tuple[str, str, bool]]) -> None:
        """Notes what nothing reads, and once each what only other engines do; refuses what may be a condition."""
        of_others: dict[str, str] = {}
        for where, name, is_known in found:
            if is_known:
                of_others.setdefault(name, where)
            elif where.startswith("entry ") and self.setting.ignored is not None and name not in self.setting.ignored:
                raise Refused(f"{where} has a member '{excerpt(name)}', which no engine reads, and which may be a "
                              f"condition: --ignore {excerpt(name)} ignores it")
            else:
                self.notes.append(f"{where}: nothing reads '{excerpt(name)}'")
        self.notes += (f"{where}: {self.setting.engine} doesn't read '{name}'" for name, where in of_others.items())

    def resolved(self, value: Any, keeps_first: bool = False) -> dict[str, Any]:
        """The profile that the engine makes in this setting; on request without later answers to a syscall."""
        value, found = seccomp_of(value), []
        where = "linux.seccomp" if value is None else "the profile"
        top = read(value, SECCOMP_MEMBERS, where, ENGINES.get(self.setting.engine or "", ()), found)
        if not top.get("defaultAction"):
            raise Refused("there is no defaultAction")
        self._tell_unread(found)
        members = {"defaultAction": top["defaultAction"],
                   "defaultErrnoRet": self.errno_of(top, "defaultErrno", "the profile"),
                   "architectures": self.architectures_of(top) or None, **{name: top.get(name) for name in PASSED_ON}}
        profile = {**{name: value for name, value in members.items() if value is not None}, "syscalls": []}
        for at, entry in enumerate(top.get("syscalls", [])):
            why = why_left_out(entry, self.setting)
            made = None if why else self.entry_of(entry, f"entry {at}")
            origin = Origin(at, excerpts([entry["name"]] if entry.get("name") else entry.get("names", [])))
            if made is None:
                self.notes.append(f"{origin.describe()} left out: {why or 'it has no name'}")
            else:
                self.origins.append(origin)
                profile["syscalls"].append(made)
        if keeps_first:
            self._keep_first(profile)
        return profile

    def _keep_first(self, profile: dict[str, Any]) -> None:
        """Leaves names out of an entry without conditions that another such entry answers otherwise: the first one
        whose answer isn't the default's. Runtimes give libseccomp no entry with the default's."""
        default = answer_of(profile["defaultAction"], profile.get("defaultErrnoRet"))
        plain = [(entry, answer_of(entry["action"], entry.get("errnoRet")))
                 for entry in profile["syscalls"] if not entry.get("args")]
        first = {name: answer for entry, answer in reversed(plain) if answer != default for name in entry["names"]}
        for entry, answer in plain:
            self.notes += (f"{excerpt(name)} left out of an entry with {excerpt(entry['action'])}: another entry has "
                           f"it with {first[name].oci}" for name in entry["names"] if first.get(name, answer) != answer)
            entry["names"] = [name for name in entry["names"] if first.get(name, answer) == answer]
        self.origins = [origin for entry, origin in zip(profile["syscalls"], self.origins) if entry["names"]]
        profile["syscalls"] = [entry for entry in profile["syscalls"] if entry["names"]]


def capabilities_of(text: str) -> list[str]:
    """The capabilities of a list of names, with or without CAP_, and of names of SETS. Raises Refused."""
    names: list[str] = []
    for word in filter(None, (word.strip() for word in text.split(","))):
        name = word.upper().removeprefix("CAP_")
        if word not in SETS and name not in CAPABILITIES:
            raise Refused(f"'{word}' isn't a capability")
        names += SETS.get(word, [name])
    return sorted({f"CAP_{name}" for name in names})


def capabilities_in(mask: int) -> list[str]:
    """The capabilities of a set of bits, as a process's status has them (proc_pid_status(5))."""
    return sorted(f"CAP_{name}" for bit, name in enumerate(CAPABILITIES) if mask >> bit & 1)


def setting_of(caps: str | None, engine: str | None = None, machine: str | None = None,
               kernel: str | None = None) -> Setting:
    """A container with these capabilities or an engine's, by default on this machine and this kernel, of whose version
    two numbers count. Raises Refused."""
    held, kernel = capabilities_of((engine or "none") if caps is None else caps), kernel or os.uname().release
    version = re.match(r"([0-9]{1,9})\.([0-9]{1,9})", kernel)
    if not version:
        raise Refused(f"'{kernel}' isn't a kernel version such as 6.1")
    setting = Setting(held, (int(version[1]), int(version[2])), engine=engine)
    return setting if machine is None else replace(setting, machine=machine)
