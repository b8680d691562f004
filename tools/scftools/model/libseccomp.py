"""libseccomp: which names of syscalls the installed one knows (seccomp_syscall_resolve_name(3)), the filters that it
makes, and the rules that it adds for syscalls that socketcall and ipc make too.

For each rule of such a syscall libseccomp adds one of socketcall or ipc (its abi_rule_add): argument 0 is the syscall's
number there, in place of a condition on argument 0, and the other conditions stay. A rule of socketcall or ipc itself
without conditions covers them."""
from __future__ import annotations

import errno
import os
import struct
from collections.abc import Callable, Iterable, Iterator, Sequence

from ..base import program
from ..base.values import Any
from . import architectures
from .answers import Answer
from .architectures import JUDGED, NATIVE, NUMBERS, PREFIX, X32
from .entries import HOLDS, Condition
from .profiles import MAX_RULES, Refused

# SCMP_ARCH_X32 (seccomp.h), whose records have x86-64's number.
TOKENS = {**NUMBERS, X32: 0x4000003E}
# __NR_SCMP_ERROR (seccomp.h), which stands for a name that it doesn't know.
UNKNOWN_NAME = -1
# struct scmp_arg_cmp, and enum scmp_compare from 1 on (seccomp.h); the most bytes of a filter.
CONDITION, COMPARISONS, MOST_BYTES = struct.Struct("=IiQQ"), tuple(HOLDS), 1 << 22
# A name, and an answer to its calls that meet all of some conditions.
Rule = tuple[str, Answer, Sequence[Condition]]


class Library:
    """The library, and its version. Raises ToolError if there is none."""

    def __init__(self) -> None:
        import ctypes  # pylint: disable=import-outside-toplevel

        try:
            library = ctypes.CDLL("libseccomp.so.2")
            self._number_of, self._name_of = (library.seccomp_syscall_resolve_name_arch,
                                              library.seccomp_syscall_resolve_num_arch)
            self._token_of = library.seccomp_arch_resolve_name
            self._free = ctypes.CDLL(None).free
            version_of = library.seccomp_version
        except (OSError, AttributeError) as error:
            raise program.ToolError("there is no libseccomp.so.2") from error
        self._library, self._pointer, self._string_at = library, ctypes.c_void_p, ctypes.string_at
        library.seccomp_init.restype = ctypes.c_void_p
        self._number_of.argtypes = [ctypes.c_uint32, ctypes.c_char_p]
        self._token_of.restype, self._token_of.argtypes = ctypes.c_uint32, [ctypes.c_char_p]
        self._name_of.restype, self._name_of.argtypes = ctypes.c_void_p, [ctypes.c_uint32, ctypes.c_int]
        self._free.restype, self._free.argtypes = None, [ctypes.c_void_p]
        version_of.restype = ctypes.POINTER(ctypes.c_uint * 3)
        version = version_of()
        self.version = ".".join(map(str, version.contents)) if version else "of unknown version"

    def number_of(self, name: str, architecture: str = NATIVE) -> int | None:
        """The number of a name on an architecture; below 0 if only others have the syscall, None if it isn't known."""
        data = name.encode("utf-8", "surrogatepass")
        number = self._number_of(TOKENS[architecture], data) if b"\0" not in data else UNKNOWN_NAME
        return None if number == UNKNOWN_NAME else number

    def has_architecture(self, name: str) -> bool:
        return bool(self._token_of(name.removeprefix(PREFIX).lower().encode()))

    def filter_of(self, default: Answer, listed: Sequence[str], rules: Iterable[Rule]) -> bytes | None:
        """The filter that it makes on this machine of rules for these architectures, None where it refuses them."""
        library, native = self._library, architectures.machine_architecture()
        state = self._pointer(library.seccomp_init(default.word))
        file = os.memfd_create("filter")
        try:
            is_taken = bool(state) and all(library.seccomp_arch_add(state, TOKENS[oci]) in (0, -errno.EEXIST)
                                           for oci in listed)
            is_taken = is_taken and not any(library.seccomp_rule_add_array(
                state, answer.word, self.number_of(name, native), len(conditions), b"".join(
                    CONDITION.pack(condition.index, COMPARISONS.index(condition.op) + 1, condition.value, condition.two)
                    for condition in conditions)) for name, answer, conditions in rules)
            return os.pread(file, MOST_BYTES, 0) if is_taken and not library.seccomp_export_bpf(state, file) else None
        finally:
            library.seccomp_release(state)
            os.close(file)

    def knows(self, name: str) -> bool:
        return self.number_of(name) is not None

    def name_of(self, number: int, architecture: str = NATIVE) -> str | None:
        """The name of a number on an architecture."""
        name_in_library = self._name_of(TOKENS[architecture], number)
        if not name_in_library:
            return None
        name = self._string_at(name_in_library).decode("utf-8", "surrogateescape")
        self._free(name_in_library)
        return name


def installed() -> Library | None:
    try:
        return Library()
    except program.ToolError:
        return None


# By the multiplexer the number of each syscall: linux/net.h and linux/ipc.h.
CALL_NUMBERS = {
    "socketcall": {name: number for number, name in enumerate((
        "socket", "bind", "connect", "listen", "accept", "getsockname", "getpeername", "socketpair", "send", "recv",
        "sendto", "recvfrom", "shutdown", "setsockopt", "getsockopt", "sendmsg", "recvmsg", "accept4", "recvmmsg",
        "sendmmsg"), 1)},
    "ipc": {"semop": 1, "semget": 2, "semctl": 3, "semtimedop": 4, "msgsnd": 11, "msgrcv": 12, "msgget": 13,
            "msgctl": 14, "shmat": 21, "shmdt": 22, "shmget": 23, "shmctl": 24},
}

# The OCI names of the architectures that have both.
MULTIPLEXING = [oci for oci, row in JUDGED.items() if row.multiplexes]


def is_multiplexed(name: str, architecture: str) -> bool:
    """Whether socketcall or ipc makes a syscall of an architecture, too."""
    return architecture in MULTIPLEXING and any(name in numbers for numbers in CALL_NUMBERS.values())


def rules_of(entry: dict[str, Any], most: int | None = None) -> Iterator[dict[str, Any]]:
    """The entries of socketcall and ipc that an entry has beside itself, of whose conditions at most so many are read.
    If two of these are on one argument, each is handed to libseccomp alone."""
    conditions = entry.get("args", [])[:most]
    indices = [condition.get("index", 0) for condition in conditions]
    alternatives = [conditions] if len(set(indices)) == len(indices) else [[condition] for condition in conditions]
    for name in dict.fromkeys(entry["names"]):
        for multiplexer, numbers in CALL_NUMBERS.items():
            for all_of in alternatives if name in numbers else ():
                first = {"index": 0, "value": numbers[name], "op": "SCMP_CMP_EQ"}
                others = [condition for condition in all_of if condition.get("index", 0) != 0]
                yield {**entry, "names": [multiplexer], "args": [first, *others]}


def with_rules(profile: dict[str, Any], note: Callable[[str], None] = lambda _: None,
               most: int | None = None) -> tuple[dict[str, Any], list[int]]:
    """A resolved profile with the entries of socketcall and ipc that libseccomp makes, each behind its own, and for
    each entry the index of its own; at most so many conditions of an entry are read. Engines pass on no entry whose
    answer is the default's."""
    entries_of = profile["syscalls"]
    if set(MULTIPLEXING).isdisjoint(profile.get("architectures", ())):
        note(f"no rule of socketcall or ipc is added: architectures has none of {', '.join(MULTIPLEXING)}")
        return profile, list(range(len(entries_of)))
    default = Answer.of_profile(profile["defaultAction"], profile.get("defaultErrnoRet"))
    differs = [Answer.of_profile(entry["action"], entry.get("errnoRet")) != default for entry in entries_of]
    unconditional = {name for entry, is_passed_on in zip(entries_of, differs)
                     if is_passed_on and not entry.get("args") for name in entry["names"] if name in CALL_NUMBERS}
    for name in sorted(unconditional):
        note(f"no rule of {name} is added: an entry without conditions covers all of its calls")
    entries: list[dict[str, Any]] = []
    places, count = [], 0
    for place, (entry, is_passed_on) in enumerate(zip(entries_of, differs)):
        rules = [rule for rule in rules_of(entry, most) if is_passed_on and rule["names"][0] not in unconditional]
        count += sum(len(rule["args"]) for rule in rules)
        if count > MAX_RULES:
            raise Refused(f"the rules of socketcall and ipc have more than {MAX_RULES} conditions")
        entries += [entry, *rules]
        places += [place] * (1 + len(rules))
    return {**profile, "syscalls": entries}, places
