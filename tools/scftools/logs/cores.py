"""Cores: which syscall ended a process by SIGSYS, by the notes of its core (core(5), elf(5)).

The kernel notes the signal with the syscall's number, architecture and address, and the data of the filter's answer as
errno (force_sig_seccomp in kernel/signal.c); and the registers as they were at the syscall, with its arguments.
"""
from __future__ import annotations

# (the module signal makes enums of its constants)
from _signal import SIGSYS
import itertools
import struct
from collections.abc import Iterator

from ..base import inputs, program
from ..base.values import dataclass, replace
from ..model.calls import ARGUMENT_REGISTERS, REGISTERS, Call, arguments_in
from .events import CORE, KILLS, Event, Outcome

# linux/elf.h, linux/elf-em.h, linux/elfcore.h
MAGIC, CORE_FILE, NOTES, MACHINE_386, MACHINE_X86_64 = b"\x7fELF", 4, 4, 3, 62
PRSTATUS, PRPSINFO, SIGINFO = 1, 3, 0x53494749
# asm-generic/siginfo.h
SYS_SECCOMP, SYS_USER_DISPATCH = 1, 2
# The registers of a core of i386 (struct user_regs_struct in asm/user_32.h), by the names of x86-64's.
REGISTERS_386 = ("rbx", "rcx", "rdx", "rsi", "rdi", "rbp", "rax", "ds", "es", "fs", "gs", "orig_rax", "rip")
# The most notes that are read, and the most bytes of one.
MOST_NOTES, LONGEST_NOTE = 1 << 16, 1 << 12


@dataclass(frozen=True)
class Layout:
    """Where things stand in a class of ELF: the header's fields from 0x18 on; a program header, its offset and size; in
    the note of a thread the process and registers, in that of the signal the union, in that of the process the name."""

    header: struct.Struct
    segment: struct.Struct
    offsets: tuple[int, int]
    process: int
    registers: tuple[int, struct.Struct, tuple[str, ...]]
    union: tuple[int, struct.Struct]
    name: int


LAYOUTS = {(2, MACHINE_X86_64): Layout(struct.Struct("<QQQIHHH"), struct.Struct("<IIQQQQQQ"), (2, 5), 32,
                                       (112, struct.Struct("<27Q"), REGISTERS), (16, struct.Struct("<QiI")), 40),
           (1, MACHINE_386): Layout(struct.Struct("<IIIIHHH"), struct.Struct("<IIIIIIII"), (1, 4), 24,
                                    (72, struct.Struct("<13I"), REGISTERS_386), (12, struct.Struct("<IiI")), 28)}


def refused(why: str) -> program.ToolError:
    return program.ToolError(f"the core {why}")


def layout_of(data: bytes) -> Layout:
    """How a core is laid out; raises ToolError if it is none of an x86 process."""
    if data[:4] == b"\x28\xb5\x2f\xfd":
        raise refused("is compressed: `coredumpctl dump PID -o FILE` writes it as it was")
    if data[:4] != MAGIC or len(data) < 0x34:
        raise refused("isn't an ELF file")
    kind, machine = struct.unpack_from("<HH", data, 0x10)
    if kind != CORE_FILE:
        raise refused("isn't one, but a program or a library")
    layout = LAYOUTS.get((data[4], machine))
    if layout is None or data[5] != 1:
        raise refused(f"is of another machine than x86-64 and i386 (class {data[4]}, machine {machine})")
    return layout


def notes_of(data: bytes, layout: Layout) -> Iterator[tuple[int, memoryview]]:
    """The notes of a core by their types, in order."""
    if len(data) < 0x18 + layout.header.size:
        raise refused("is cut")
    _, at, _, _, _, size, count = layout.header.unpack_from(data, 0x18)
    if size != layout.segment.size:
        raise refused(f"has program headers of {size} bytes")
    for index in range(count):
        if at + (index + 1) * size > len(data):
            raise refused("is cut, or its program headers stand too far behind")
        fields = layout.segment.unpack_from(data, at + index * size)
        if fields[0] != NOTES:
            continue
        begin, size_of_notes = (fields[offset] for offset in layout.offsets)
        end = begin + size_of_notes
        if end > len(data):
            raise refused(f"is cut, or its notes aren't in its first {inputs.LIMITS['core']} bytes")
        while begin + 12 <= end:
            name, length, kind = struct.unpack_from("<III", data, begin)
            note = begin + 12 + (name + 3 & ~3)
            begin = note + (length + 3 & ~3)
            if begin > end:
                raise refused("has a note that is cut")
            yield kind, memoryview(data)[note:note + length]


def _signal(note: bytes, layout: Layout) -> tuple[Outcome, Call]:
    """What a signal tells of the answer and the syscall; raises ToolError for another one than a filter's."""
    offset, union = layout.union
    if len(note) < offset + union.size:
        raise refused("has a note of the signal that is cut")
    signal, data, code = struct.unpack_from("<iii", note)
    if signal != SIGSYS:
        raise refused(f"is of signal {signal}, and not of SIGSYS ({SIGSYS}), by which a filter ends a process")
    if code != SYS_SECCOMP:
        raise refused("is of a SIGSYS that is no filter's: " + (
            "it is of syscall user dispatch" if code == SYS_USER_DISPATCH else f"a process sent it (si_code {code})"))
    address, number, architecture = union.unpack_from(note, offset)
    return Outcome(("TRAP", *KILLS), data=data & 0xFFFF), Call(number & 0xFFFFFFFF, architecture, address)


def read_core(name: str) -> Event:
    """The syscall that ended the process of a core."""
    data = inputs.read_input(name, "core")
    layout = layout_of(data)
    notes: dict[int, bytes] = {}
    for kind, note in itertools.islice(notes_of(data, layout), MOST_NOTES):
        # the first note of a thread is of the one that the signal ended
        if kind not in notes:
            notes[kind] = bytes(note[:LONGEST_NOTE])
    if SIGINFO not in notes:
        raise refused("has no note of the signal (NT_SIGINFO)")
    outcome, call = _signal(notes[SIGINFO], layout)
    offset, registers, names = layout.registers
    status = notes.get(PRSTATUS, b"")
    arguments, process = (None,) * 6, None
    if len(status) >= offset + registers.size and call.architecture in ARGUMENT_REGISTERS:
        values = dict(zip(names, registers.unpack_from(status, offset)))
        arguments = tuple((value,) for value in arguments_in(values, call.architecture))
        process = struct.unpack_from("<i", status, layout.process)[0]
    name = notes.get(PRPSINFO, b"")[layout.name:layout.name + 16].partition(b"\0")[0].decode("latin-1")
    event = Event(CORE, call, outcome, arguments, process, name)
    return replace(event, call=event.with_values(next(event.ways())))
