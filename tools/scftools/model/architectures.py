"""Architectures: their AUDIT_ARCH numbers, the names that people and profiles have, and what scf knows of its own."""
from __future__ import annotations

import os
import re
from collections.abc import Sequence

from ..base import program
from ..base.values import dataclass
from . import answers
from .answers import X86_64

PREFIX = "SCMP_ARCH_"
NATIVE, X32, I386, AARCH64, ARM = (f"{PREFIX}{name}" for name in ("X86_64", "X32", "X86", "AARCH64", "ARM"))
# By the names of libseccomp (seccomp.h), the numbers of linux/audit.h: a machine of linux/elf-em.h, with 0x80000000
# where it has 64 bits, 0x40000000 where it is little-endian, and 0x20000000 for the N32 calls of MIPS. The record of an
# x32 syscall has x86-64's.
NUMBERS = {f"{PREFIX}{name}": number for name, number in {
    "X86": 0x40000003, "X86_64": X86_64, "X32": X86_64, "ARM": 0x40000028, "AARCH64": 0xC00000B7,
    "LOONGARCH64": 0xC0000102, "M68K": 0x00000004, "MIPS": 0x00000008, "MIPS64": 0x80000008, "MIPS64N32": 0xA0000008,
    "MIPSEL": 0x40000008, "MIPSEL64": 0xC0000008, "MIPSEL64N32": 0xE0000008, "PARISC": 0x0000000F,
    "PARISC64": 0x8000000F, "PPC": 0x00000014, "PPC64": 0x80000015, "PPC64LE": 0xC0000015, "RISCV64": 0xC00000F3,
    "S390": 0x00000016, "S390X": 0x80000016, "SHEB": 0x0000002A, "SH": 0x4000002A}.items()}
OTHER_NAMES = {"I386": "X86", "AMD64": "X86_64", "ARM64": "AARCH64"}

# In these numbers: the machine is little-endian, and has 64 bits.
LITTLE_ENDIAN, WIDE = 0x40000000, 0x80000000


@dataclass(frozen=True)
class Architecture:
    """An architecture that scf judges, since a table of it comes with scf: its OCI name and what people call it."""

    oci: str
    name: str
    # what is added to a number of the table, and the bits of an argument that are compared (libseccomp's ARCH_SIZE)
    first: int = 0
    bits: int = 64
    # what its header adds to some numbers, as far as the table has it; whether that names a syscall by another one;
    # and the ABIs of the kernel's table whose rows are its own
    bases: tuple[tuple[str, int], ...] = ()
    has_aliases: bool = False
    abis: tuple[str, ...] = ()
    # Go's name of the machine whose own syscalls are its (GOARCH), and that machine's other architectures by the modes
    # in which strace says that processes run (personality_names in its src/syscall.c)
    machine: str | None = None
    modes: tuple[tuple[str, str], ...] = ()
    # the last two arguments of clone are swapped: CONFIG_CLONE_BACKWARDS of Linux
    swaps_clone: bool = True
    # its socketcall and ipc make the syscalls of sockets and System V IPC, too: sys_socketcall of libseccomp's arch-*.c
    multiplexes: bool = False
    # Linux from 5.11 on answers what is always allowed without running a filter: SECCOMP_ARCH_* in asm/seccomp.h
    has_bitmap: bool = True

    @property
    def kind(self) -> str:
        """The kind of its table in a bundle."""
        return "table" if self.oci == NATIVE else f"table-{self.oci.removeprefix(PREFIX).lower()}"

    @property
    def number(self) -> int:
        return NUMBERS[self.oci]

    @property
    def last(self) -> int:
        """The last number that a record of it may have."""
        return answers.FIRST_X32 - 1 if self.oci == NATIVE else 0xFFFFFFFF

    @property
    def greatest(self) -> int:
        """The greatest value of an argument."""
        return (1 << self.bits) - 1

    @property
    def register_bits(self) -> int:
        return 64 if self.number & WIDE else 32

    def marked(self, text: str) -> str:
        """A text about a syscall of it, after its name if it isn't x86-64."""
        return text if self.oci == NATIVE else f"{self.name} {text}"

    @property
    def source_name(self) -> str:
        """Its name in those of files, and for `scf call-table`."""
        return self.name.replace("-", "_")

    @property
    def file(self) -> str:
        return os.path.join(program.TOP, "tables", f"{self.source_name}.table")


# Those that scf judges, by OCI names, in scf's order. The table of x32 has its numbers without __X32_SYSCALL_BIT; those
# of mips begin at 4000, 5000 and 6000 (asm/unistd.h).
JUDGED = {architecture.oci: architecture for architecture in (
    Architecture(NATIVE, "x86-64", abis=("common", "64"), machine="amd64", modes=(("32 bit", I386), ("x32", X32)),
                 swaps_clone=False),
    Architecture(I386, "i386", bits=32, multiplexes=True),
    Architecture(X32, "x32", first=answers.FIRST_X32, bits=32, swaps_clone=False, has_bitmap=False,
                 bases=(("__X32_SYSCALL_BIT", 0),), abis=("common", "x32")),
    Architecture(AARCH64, "aarch64", machine="arm64", modes=(("32 bit", ARM),)),
    Architecture(ARM, "arm", bits=32, bases=(("__NR_SYSCALL_BASE", 0), ("__ARM_NR_BASE", 0x0F0000)), has_aliases=True),
    Architecture(f"{PREFIX}RISCV64", "riscv64", machine="riscv64"),
    Architecture(f"{PREFIX}PPC64LE", "ppc64le", machine="ppc64le", multiplexes=True),
    Architecture(f"{PREFIX}MIPSEL", "mipsel", bits=32, machine="mipsle", multiplexes=True, has_bitmap=False,
                 bases=(("__NR_Linux", 4000),)),
    Architecture(f"{PREFIX}MIPSEL64", "mipsel64", machine="mips64le", has_bitmap=False, bases=(("__NR_Linux", 5000),)),
    Architecture(f"{PREFIX}MIPSEL64N32", "mipsel64n32", bits=32, machine="mips64p32le", has_bitmap=False,
                 bases=(("__NR_Linux", 6000),)),
    Architecture(f"{PREFIX}LOONGARCH64", "loongarch64", machine="loong64", swaps_clone=False))}
# By the names that sources have of them.
BY_SOURCE = {architecture.source_name: architecture for architecture in JUDGED.values()}


def machine_architecture() -> str:
    """The OCI name of the architecture of this machine's own syscalls, which a profile without a list is for."""
    return AARCH64 if os.uname().machine == "aarch64" else NATIVE


def architecture_of_record(number: int, nr: int) -> str | None:
    """The OCI name of the architecture of a record with this audit number and this syscall number, if it is known."""
    if number == X86_64:
        return X32 if nr >= answers.FIRST_X32 else NATIVE
    return profile_name(number)


def shown_name(number: int) -> str | None:
    """The common name of the architecture with this number of linux/audit.h, if scf judges it."""
    return next((each.name for oci, each in JUDGED.items() if each.number == number and oci != X32), None)


def bounds_of(name: str) -> tuple[int, int, int]:
    """An architecture's number of linux/audit.h, and the first and the last syscall number of its records."""
    architecture = JUDGED.get(name)
    if architecture is None:
        return NUMBERS[name], 0, 0xFFFFFFFF
    return architecture.number, architecture.first, architecture.last


def names_of(judged: Sequence[str]) -> list[str]:
    """The common names of architectures that scf judges, given their OCI names."""
    return [JUDGED[oci].name for oci in judged]


def profile_name(number: int) -> str | None:
    return next((name for name, known_number in NUMBERS.items() if known_number == number), None)


def name_in(text: str) -> str | None:
    """The name in NUMBERS of what a text names: as libseccomp, the kernel's headers, systemd or people call it."""
    name = text.upper().replace("-", "_")
    name = name.removeprefix(next(filter(name.startswith, (PREFIX, "AUDIT_ARCH_")), ""))
    name = PREFIX + OTHER_NAMES.get(name, name)
    return name if name in NUMBERS else None


def _refuse_big_endian(name: str | None) -> None:
    if name in NUMBERS and not NUMBERS[name] & LITTLE_ENDIAN:
        raise program.ToolError(f"{name} is big-endian: its filters and records have another byte order, which scf "
                                "doesn't read")


def judged_in(text: str | None) -> Architecture:
    """The architecture that a word names, or a number as `number_in` takes it, or this machine's. Raises ToolError."""
    name = machine_architecture() if text is None else name_in(text)
    if text is not None and re.fullmatch("(?:0x)?[0-9a-fA-F]+", text):
        name = profile_name(int(number_in(text), 0))
    _refuse_big_endian(name)
    if name not in JUDGED:
        raise program.ToolError(f"no table of the architecture '{text}': scf has those of "
                                f"{', '.join(architecture.name for architecture in JUDGED.values())}")
    return JUDGED[name]


def number_in(text: str) -> str:
    """The number of an architecture, as scf takes it, given by a name, a number, or as in the audit log
    (arch=c000003e, in hexadecimal). Raises ToolError if it is unknown, ambiguous or big-endian."""
    name = name_in(text)
    _refuse_big_endian(name)
    if name is not None:
        return hex(NUMBERS[name])
    if re.fullmatch("[0-9a-fA-F]{1,8}", text) and not text.isdecimal():
        return f"0x{text}"
    meant = next((name for name, number in NUMBERS.items() if text == f"{number:08x}"), None)
    if meant is not None:
        raise program.ToolError(f"--arch {text} is ambiguous: write 0x{text} for {meant}, as the audit log has it, or "
                                f"{int(text):#x} for the decimal number")
    if re.match("[A-Za-z_]", text):
        raise program.ToolError(f"unknown architecture '{text}': write a name such as i386, x32 or SCMP_ARCH_AARCH64, "
                                "or a number")
    return text
