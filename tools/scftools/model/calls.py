"""Syscall records: what a filter sees, how one is given as options, and how one is printed."""
from __future__ import annotations

from ..base.values import Pattern, dataclass
from . import architectures, constants, tables
from .answers import FIRST_X32, I386_NUMBER, X86_64
from .tables import Table

# The fields of a record, by the names of scf's options, in scf's order.
OPTIONS = ("nr", "arch", "ip", "a0", "a1", "a2", "a3", "a4", "a5")
# The 32-bit words of a record, by their index (struct seccomp_data in linux/seccomp.h).
NUMBER, ARCHITECTURE, ARGUMENTS, END = 0, 1, 4, 16
# sys/user.h: struct user_regs_struct, which the kernel shows to a 64-bit tracer whatever the thread runs.
REGISTERS = ("r15", "r14", "r13", "r12", "rbp", "rbx", "r11", "r10", "r9", "r8", "rax", "rcx", "rdx", "rsi", "rdi",
             "orig_rax", "rip", "cs", "eflags", "rsp", "ss", "fs_base", "gs_base", "ds", "es", "fs", "gs")
# The registers of the six arguments, in their order.
ARGUMENT_REGISTERS = {X86_64: ("rdi", "rsi", "rdx", "r10", "r8", "r9"),
                      I386_NUMBER: ("rbx", "rcx", "rdx", "rsi", "rdi", "rbp")}
# (a 32-bit program has the lower halves alone)
REGISTER_MASKS = {X86_64: (1 << 64) - 1, I386_NUMBER: (1 << 32) - 1}
# Bit 31, which no kernel's numbers have; and -1, which a tracer sets to skip a syscall, and which filters still see
# (Documentation/userspace-api/seccomp_filter.rst of Linux; do_syscall_64 of x86 executes no such syscall).
NO_CALL, SKIPPED = 0x80000000, 0xFFFFFFFF
CALL_LINE = Pattern(r"call nr ([0-9]+) arch (0x[0-9a-f]+) ip (0x[0-9a-f]+) args((?: 0x[0-9a-f]+){6})")


def number_text(number: int, architecture: int = X86_64) -> str:
    """How a number that no table names is printed."""
    if number == SKIPPED:
        return "number -1, which a tracer sets to skip a syscall"
    if architecture == X86_64 and FIRST_X32 <= number < NO_CALL:
        return f"number 0x40000000 + {number - FIRST_X32}"
    return f"number {number}"


def arguments_in(registers: dict[str, int], architecture: int) -> tuple[int, ...]:
    return tuple(registers[name] & REGISTER_MASKS[architecture] for name in ARGUMENT_REGISTERS[architecture])


@dataclass(frozen=True)
class Call:
    """A syscall record (struct seccomp_data in linux/seccomp.h). The instruction pointer is None if it is unknown."""

    number: int
    architecture: int = X86_64
    pointer: int | None = 0
    arguments: tuple[int, ...] = (0,) * 6

    @classmethod
    def read(cls, line: str) -> Call | None:
        """Parses a line of scf, `call nr N arch H ip H args H H H H H H`."""
        match = CALL_LINE.fullmatch(line)
        if not match:
            return None
        return cls(int(match[1]), int(match[2], 16), int(match[3], 16),
                   tuple(int(argument, 16) for argument in match[4].split()))

    @property
    def line(self) -> str:
        return (f"call nr {self.number} arch {self.architecture:#x} ip {self.pointer or 0:#x} args "
                f"{' '.join(map(hex, self.arguments))}")

    @property
    def is_native(self) -> bool:
        return self.architecture == X86_64 and self.number < FIRST_X32

    @property
    def abi(self) -> str | None:
        return architectures.architecture_of_record(self.architecture, self.number)

    @property
    def judged(self) -> architectures.Architecture | None:
        """The architecture that it is of, if scf judges that."""
        return architectures.JUDGED.get(self.abi or "")

    @property
    def bits(self) -> int:
        return 64 if self.judged is None else self.judged.bits

    def names(self, table: Table) -> list[str]:
        """Its names: an x86-64 syscall's in this table, another one's in the table of its architecture."""
        judged = self.judged
        own_table = table if self.is_native else None if judged is None else tables.architecture_table(judged.oci)
        return [] if own_table is None else own_table.names_of(self.number - judged.first)

    def words(self) -> list[str]:
        """The options of scf that give this record."""
        numbers = (self.number, self.architecture, self.pointer, *self.arguments)
        return [f"--{name}={number:#x}" for name, number in zip(OPTIONS, numbers) if number is not None]

    def describe(self, table: Table) -> str:
        if self.number == SKIPPED:
            return number_text(self.number)
        named = " or ".join(self.names(table))
        if self.architecture != X86_64:
            shown = architectures.shown_name(self.architecture) or hex(self.architecture)
            return (f"{named} ({self.number})" if named else f"number {self.number}") + f" of the architecture {shown}"
        if self.number >= NO_CALL:
            return f"number {self.number} ({hex(self.number)}), which no syscall has"
        if self.number >= FIRST_X32:
            return f"{named or f'number {self.number}'} (0x40000000 + {self.number - FIRST_X32}), an x32 syscall"
        return f"{named} ({self.number})" if named else f"number {self.number}, which the table doesn't name"

    def as_c(self, table: Table) -> str | None:
        """The syscall as C would have it, with constants for its arguments; None if it has no name on x86-64."""
        named = self.names(table) if self.is_native else []
        return constants.call_text(named[0], self.arguments) if named else None

    def as_json(self, table: Table) -> dict[str, object]:
        return {"number": self.number, "names": self.names(table), "c": self.as_c(table),
                "architecture": hex(self.architecture), "pointer": None if self.pointer is None else hex(self.pointer),
                "arguments": [hex(argument) for argument in self.arguments]}
