"""Answers: actions, errnos, architectures, and what the kernel does with an answer (seccomp(2), linux/seccomp.h, and
`__seccomp_filter` of kernel/seccomp.c, whose default case kills the process for each action without a name)."""
from __future__ import annotations

import errno
import json

from ..base.values import Pattern, dataclass

# linux/seccomp.h: the actions by the high half of an answer, the strictest first.
ACTIONS = {0x8000: "KILL_PROCESS", 0x0000: "KILL_THREAD", 0x0003: "TRAP", 0x0005: "ERRNO", 0x7FC0: "USER_NOTIF",
           0x7FF0: "TRACE", 0x7FFC: "LOG", 0x7FFF: "ALLOW"}
# What the kernel does with a syscall (seccomp(2)).
DOES = {
    "ALLOW": "the syscall is executed",
    "LOG": "the syscall is executed, and logged",
    "ERRNO": "the syscall isn't executed, and returns an errno",
    "TRAP": "the syscall isn't executed, and the thread gets SIGSYS",
    "KILL_THREAD": "the thread is killed",
    "KILL_PROCESS": "the process is killed",
    "USER_NOTIF": "a supervisor handles the syscall; without one it fails with ENOSYS",
    "TRACE": "a tracer handles the syscall; without one it fails with ENOSYS",
    "UNNAMED": "the process is killed, since seccomp(2) has no such action",
}
# The dispositions of a syscall, the strictest first, which follow from the action alone.
DISPOSITIONS = DENIED, DELEGATED, ALLOWED = "denied", "delegated", "allowed"
# What it depends on the arguments whether a syscall is.
DEPENDS = "depends"
# Actions whose data a profile gives, as an errno or a number, 1 if it gives none (the OCI specification).
ACTIONS_WITH_DATA = ("ERRNO", "TRACE")
# Linux's names of errno(3); of two names for a number, the one that the header defines by the number.
NUMBERS_OF_ERRNOS = {name: number for number, name in errno.errorcode.items()}
ERRNOS = {**errno.errorcode, errno.EAGAIN: "EAGAIN", errno.EDEADLK: "EDEADLK", errno.EOPNOTSUPP: "EOPNOTSUPP"}
# The greatest errno that the kernel returns (MAX_ERRNO in linux/err.h).
MAX_ERRNO = 4095

# linux/audit.h: x86-64, and the other architecture of its kernel.
X86_64, I386_NUMBER = 0xC000003E, 0x40000003
# The first x32 syscall number (__X32_SYSCALL_BIT in asm/unistd.h).
FIRST_X32 = 0x40000000

PRINTED_ANSWER = Pattern(r"([A-Z_]+) (0x[0-9a-f]{8}|[0-9]+)")


@dataclass(frozen=True)
class Answer:
    """An answer as scf prints it: an action and its 16 bits of data; for UNNAMED the data is the whole answer."""

    action: str
    data: int

    @classmethod
    def read(cls, text: str) -> Answer | None:
        """Parses an answer as scf prints it; None if it isn't one."""
        match = PRINTED_ANSWER.fullmatch(text)
        return cls(match[1], int(match[2], 0)) if match and match[1] in DOES else None

    @classmethod
    def of_word(cls, word: int) -> Answer:
        action = ACTIONS.get(word >> 16)
        return cls("UNNAMED", word) if action is None else cls(action, word & 0xFFFF)

    @property
    def line(self) -> str:
        return f"UNNAMED {self.data:#010x}" if self.action == "UNNAMED" else f"{self.action} {self.data}"

    def __str__(self) -> str:
        """The action, with its data unless that means nothing."""
        return self.line if self.data or self.action in ("ERRNO", "TRACE", "TRAP", "UNNAMED") else self.action

    @property
    def allows(self) -> bool:
        return self.action in ("ALLOW", "LOG")

    @property
    def denies(self) -> bool:
        return self.action in ("ERRNO", "TRAP", "KILL_THREAD", "KILL_PROCESS", "UNNAMED")

    @property
    def word(self) -> int:
        """The 32 bits that a filter returns."""
        if self.action == "UNNAMED":
            return self.data
        return next(high for high, name in ACTIONS.items() if name == self.action) << 16 | self.data

    @property
    def disposition(self) -> str:
        return ALLOWED if self.allows else DENIED if self.denies else DELEGATED

    def does(self) -> str:
        """The kernel's treatment of a syscall with this answer, as a sentence."""
        if self.action != "ERRNO":
            return DOES[self.action]
        if self.data == 0:
            return "the syscall isn't executed, and returns 0 as if it had succeeded"
        if self.data > MAX_ERRNO:
            return f"the syscall fails with errno {MAX_ERRNO}, the greatest that the kernel returns"
        return f"the syscall fails with {ERRNOS.get(self.data, f'errno {self.data}')}"

    def describe(self) -> str:
        return f"{self}: {self.does()}"

    def named(self) -> str:
        """With the name of its errno, as ERRNO 38 (ENOSYS)."""
        return f"{self} ({ERRNOS[self.data]})" if self.action == "ERRNO" and self.data in ERRNOS else str(self)

    @classmethod
    def of_profile(cls, action: str, number: object) -> Answer:
        """The answer of an action of the OCI specification with its number, None if it has none."""
        word = action.removeprefix("SCMP_ACT_")
        word = {"NOTIFY": "USER_NOTIF", "KILL": "KILL_THREAD"}.get(word, word)
        return cls(word, number if isinstance(number, int) else int(word in ACTIONS_WITH_DATA))

    @property
    def oci(self) -> str:
        """The name of its action in the OCI specification."""
        return f"SCMP_ACT_{'NOTIFY' if self.action == 'USER_NOTIF' else self.action}"

    def members(self, action: str = "action", number: str = "errnoRet") -> dict[str, object]:
        """The members of an entry, or of the default, that give it."""
        has_data = self.action in ACTIONS_WITH_DATA or self.action == "TRAP" and self.data
        return {action: self.oci, **({number: self.data} if has_data else {})}

    def default(self) -> dict[str, object]:
        """The members of a profile whose default it is."""
        return self.members("defaultAction", "defaultErrnoRet")

    def as_profile(self, architecture: str) -> bytes:
        """A profile that gives each syscall of an architecture this answer, which a profile can give."""
        return json.dumps({**self.default(), "architectures": [architecture]}).encode()

    def as_json(self, explains: bool = False) -> dict[str, object]:
        value: dict[str, object] = {"action": self.action, "data": self.data}
        if self.action == "ERRNO" and self.data in ERRNOS:
            value["errno"] = ERRNOS[self.data]
        return {**value, "does": self.does()} if explains else value


ALLOW, KILL_PROCESS, ENOSYS = Answer("ALLOW", 0), Answer("KILL_PROCESS", 0), Answer("ERRNO", 38)
