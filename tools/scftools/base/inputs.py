"""Inputs: files, pipes and standard input. Each is read up to its limit and one byte beyond.

The extra byte lets scf itself report that an input is too long; inputs that scf doesn't see are refused here.
"""
from __future__ import annotations

import errno
import os
from collections.abc import Iterator

from . import output, program

# The most bytes of what scf reads: a filter of 4096 instructions, a profile, a table, the number of a stub, counts of
# syscalls; and of what only the tools read: an engine's profile, a kernel header, a list of syscalls to try; an
# assembler's text, and the lines of explain; an object that audit printed; a core's notes; a container's state; rows.
LIMITS = {"bundle": 1 << 24, "filter": 1 << 15, "profile": 1 << 22, "table": 1 << 22, "stub": 1 << 10,
          "counts": 1 << 22, "engine's profile": 1 << 22, "header": 1 << 22, "list of syscalls": 1 << 16,
          "text": 1 << 24, "object": 1 << 24, "core": 1 << 24, "state": 1 << 20, "file of rows": 1 << 24}
# How words begin that aren't files: the number of a process, the name of a unit.
PROCESS, UNIT = "pid:", "unit:"
# The most bytes that are read of a line of a log or of rows.
LONGEST_LINE = 1 << 16
# What was read, by the name of each input, if a page is to say its hash. scf's own tables aren't inputs.
kept: dict[str, bytes] | None = None
OWN_TABLES = os.path.join(program.TOP, "tables", "")


def keep(name: str, data: bytes) -> None:
    """Keeps what an input had, if a page is to say its hash."""
    if kept is not None and not name.startswith(OWN_TABLES):
        kept[name] = data


def label(name: str) -> str:
    """How messages call an input."""
    return "standard input" if name == "-" else f"'{output.escaped(name)}'"


def why(name: str, kind: str, error: OSError) -> str:
    shown = label(name)
    if error.errno == errno.EISDIR:
        return f"the {kind} {shown} is a folder"
    if error.errno == errno.ENOENT:
        return f"there is no file {shown}"
    return f"the {kind} {shown} can't be read: {error.strerror}"


def read_input(name: str, kind: str, most: int | None = None) -> bytes:
    """An input's bytes (`-`: standard input), at most one more than its kind may have, or `most`. Raises ToolError."""
    data = b"".join(input_pieces(name, kind, (LIMITS[kind] if most is None else most) + 1))
    keep(name, data)
    return data


def input_pieces(name: str, kind: str, room: int) -> Iterator[bytes]:
    """The first bytes of an input, so many, piece by piece."""
    if name.startswith((PROCESS, UNIT)):
        raise program.ToolError(f"here the {kind} must be a file, and {label(name)} is none: ./{output.escaped(name)} "
                                "is one")
    try:
        file = os.dup(0) if name == "-" else os.open(name, os.O_RDONLY | os.O_CLOEXEC | os.O_NOCTTY)
        try:
            while room:
                piece = os.read(file, min(room, 1 << 16))
                if not piece:
                    return
                room -= len(piece)
                yield piece
        finally:
            os.close(file)
    except OSError as error:
        raise program.ToolError(why(name, kind, error)) from error
    except UnicodeEncodeError as error:
        # an unpaired surrogate, which no file name has
        raise program.ToolError(f"there is no file '{output.escaped(name)}'") from error


def read_whole(name: str, kind: str) -> bytes:
    """The bytes of an input that scf doesn't see; raises ToolError if there are too many."""
    return whole(read_input(name, kind), name, kind)


def whole(data: bytes, name: str, kind: str) -> bytes:
    """What was read of an input; raises ToolError if that is cut."""
    if len(data) > LIMITS[kind]:
        raise program.ToolError(f"the {kind} {label(name)} has more than {LIMITS[kind]} bytes")
    return data
