"""strace logs: their syscalls, and what is known of the arguments.

An argument is known if strace prints it as a number or as names of tables/arguments.symbols, alone or joined by `|`. If
strace prints a string, a structure, another name or nothing at all, the argument isn't known.
"""
from __future__ import annotations

import re
from collections.abc import Iterator

from ..base import inputs, output, program
from ..base.values import Pattern
from ..model import constants
from ..model.answers import NUMBERS_OF_ERRNOS
from ..model.architectures import I386, JUDGED, NATIVE, X32

# The values that arguments may have, by their indexes; None if they aren't known.
Arguments = "dict[int, tuple[int, ...] | None]"
# The most bytes that are read of a log, and of an argument.
LONGEST_LOG, LONGEST_ARGUMENT = 1 << 30, 1 << 12
# Before a syscall, by strace(1): a process (-f, -Y), a time (-t, -tt, -ttt, -r), the pointer (-i), its number (-n).
LEADER = Pattern(
    r"(?:\[pid +([0-9]{1,10})(?:<[^>]{0,64}>)?\] |([0-9]{1,10})(?:<[^>]{0,64}>)? +)?"
    r" *(?:[0-9]{2}:[0-9]{2}:[0-9]{2}(?:\.[0-9]+)? +|[0-9]+\.[0-9]+ +)?(?:\(\+ *[0-9.]+\) )?"
    r"(?:\[[0-9a-f?]{16}\] )?(?:\[ *([0-9]{1,10})\] )?(?:\[[0-9a-f?]{8,16}\] )?")
CALL_NAME = Pattern(r"([a-z_][a-z0-9_]{0,63})\(")
RESUMED = Pattern(r"<\.\.\. ([a-z_][a-z0-9_]{0,63}) resumed> ?")
RESULT = Pattern(r" *= (\?|-?[0-9]+|0x[0-9a-f]+)")
FAILED = Pattern(r" *= -1 (?:(E[A-Z0-9]+) \(|\(errno ([0-9]{1,4})\))")
# What ends an argument, or holds what doesn't.
STOP = Pattern(r'["\[\](){},]|/\*|(?<=[0-9D])<(?!<)')
STRING = Pattern(r'"[^"\\]*(?:\\.[^"\\]*)*"', re.S)
# What -y and -yy print behind a descriptor: <pipe:[7]>, <TCP:[1.2.3.4:5->6.7.8.9:10]> and <UNIX:[7,"name"]>, where a
# name stands as a text does, or a path, in which < and > are escaped, as </dev/null<char 1:3>>.
OBJECT = (r'<(?:[\w-]+:\[(?:"(?:\\.|[^"\\])*"|[^"])*?\]'
          r"|(?![\w-]+:\[)(?:\\.|[^\\<>])*(?:<(?:block|char) [0-9:]+>)?)>(?:\(deleted\))?")
DESCRIBED = Pattern(OBJECT, re.S)
# A number or a name, and what it is.
PART = Pattern(rf"(?:0x([0-9a-f]{{1,16}})|0([0-7]{{1,22}})|(-?[0-9]{{1,20}})|([A-Z_][A-Z0-9_]*))"
               rf"(?:{OBJECT})?(?: /\*.*?\*/)?", re.S)
# A register as `strace -e raw=all` prints it.
RAW = Pattern(r"(0x[0-9a-f]{1,16}|0)(?: <unfinished \.\.\.>)?")
UNFINISHED_MARK = " <unfinished ...>"
COMMENT_MARK = Pattern(r"/\*|\*/")
# Where strace's order isn't that of the registers: clone's arguments have names. Of others fewer than these are shown:
# without one half of an offset, or by an operation; unknown flags of IPC are printed as one number with what follows.
CLONE = {"flags": 0, "child_stack": 1, "parent_tid": 2, "parent_tidptr": 2, "child_tidptr": 3, "tls": 4}
# On other architectures the last two are swapped (CONFIG_CLONE_BACKWARDS in arch/Kconfig of Linux).
CLONE_BACKWARDS = {**CLONE, "tls": 3, "child_tidptr": 4}
REGISTER_ORDER = {"preadv2": (6, (0, 1, 2, 3, 5)), "pwritev2": (6, (0, 1, 2, 3, 5)), "futex": (6, (0, 1)),
                  "ptrace": (4, (0, 1)), "msgget": (3, (0,)), "semget": (4, (0, 1)), "shmget": (4, (0, 1))}
# How many of the first arguments stand so in their registers, where not all do: a number of 64 bits takes two of 32,
# mmap2 has pages where strace prints bytes, i386 has some arguments in memory, and x32 an offset whole.
SPLIT = {"_llseek": 1, "arm_fadvise64_64": 1, "arm_sync_file_range": 1, "fadvise64": 1, "fadvise64_64": 1,
         "fallocate": 2, "fanotify_mark": 2, "ftruncate64": 1, "lookup_dcookie": 0, "mmap2": 5, "pread64": 3,
         "preadv": 3, "preadv2": 3, "pwrite64": 3, "pwritev": 3, "pwritev2": 3, "readahead": 1, "sync_file_range": 1,
         "sync_file_range2": 1, "truncate64": 1}
WHOLE_ARGUMENTS = {**{name: SPLIT for name, row in JUDGED.items() if row.bits == 32},
                   I386: {**SPLIT, "mmap": 0, "select": 0}, X32: {"preadv2": 4, "pwritev2": 4}}
# Of a mode the lower 16 bits are shown, in octal digits.
OCTAL = Pattern(r"(?:\A|\|)0[0-7]")
MEMBER_MARK = Pattern(r" *([a-z_]+)=")
FORKS = ("clone(", "clone3(", "fork(", "vfork(")


def _number_in(text: str, architecture: str) -> int | None:
    """The printed number, or the bitwise OR of all that are printed, as in SOCK_STREAM|0x80000."""
    whole, at = 0, 0
    while True:
        part = PART.match(text, at)
        if part is None:
            return None
        hexadecimal, octal, decimal, name = part.groups()
        number = constants.numbers_on(architecture).get(name) if name else \
            int(hexadecimal, 16) if hexadecimal else int(octal, 8) if octal else \
            int(decimal) if re.fullmatch("-?(?:0|[1-9].*)", decimal) else None
        # (a negative number stands alone)
        if number is None or number < 0 and part[0] != text:
            return None
        whole, at = whole | number, part.end() + 1
        if at > len(text):
            return whole
        if text[at - 1] != "|":
            return None


def values_of(text: str, architecture: str = NATIVE) -> tuple[int, ...] | None:
    """The values that the register of a printed argument may have on an OCI architecture, None if it isn't known. Of
    many arguments strace prints the lower 32 bits, and of a mode the lower 16. The bits above, as far as conditions
    compare them, are taken as zero, or, if the highest printed bit is set, also as the sign."""
    text = text.strip().removesuffix(UNFINISHED_MARK.strip()).rstrip()
    number = _number_in(text, architecture) if len(text) <= LONGEST_ARGUMENT else None
    if number is None or not -(1 << 63) <= number < 1 << 64:
        return None
    most = JUDGED[architecture].greatest
    if OCTAL.search(text) and 1 << 15 <= number < 1 << 16:
        return tuple(dict.fromkeys((number, number | 0xFFFF << 16, (number | -1 << 16) & most)))
    if -(1 << 31) <= number < 0 or 1 << 31 <= number < 1 << 32:
        return tuple(dict.fromkeys((number % (1 << 32), (number | -1 << 32) & most)))
    return (number & most,)


def _past(text: str, at: int) -> int | None:
    """The index behind a text in quotes, a comment or a path that begins here; None if it has no end."""
    if text[at] in '"<':
        match = (STRING if text[at] == '"' else DESCRIBED).match(text, at)
        return match.end() if match else None
    depth = 0
    for match in COMMENT_MARK.finditer(text, at):
        depth += 1 if match[0] == "/*" else -1
        if not depth:
            return match.end()
    return None


def arguments_in(text: str, at: int) -> tuple[list[str], int | None]:
    """The arguments that stand whole from an index on, and the index behind their closing bracket, if they have one."""
    arguments, begun, depth = [], at, 0
    while True:
        stop = STOP.search(text, at)
        if not stop:
            return arguments, None
        at, mark = stop.end(), stop[0]
        if mark in "[({":
            depth += 1
        elif mark in "])}":
            depth -= 1
            if depth < 0:
                last = text[begun:at - 1]
                return [*arguments, last] if last.strip() or arguments else arguments, at
        elif mark == ",":
            if not depth:
                arguments.append(text[begun:at - 1])
                begun = at
        else:
            past = _past(text, stop.start())
            if past is None:
                return arguments, None
            at = past


def _in_registers(name: str, printed: list[str], architecture: str = NATIVE) -> dict[int, str]:
    """The printed arguments by the registers that hold them."""
    named = [MEMBER_MARK.match(argument) for argument in printed]
    if any(named):
        clone = CLONE_BACKWARDS if JUDGED[architecture].swaps_clone else CLONE
        pairs = [(match[1], text[match.end():]) for match, text in zip(named, printed) if match and name == "clone"]
        return {clone[key]: value for key, value in pairs if key in clone}
    count, order = REGISTER_ORDER.get(name, (0, ()))
    whole = WHOLE_ARGUMENTS.get(architecture, {}).get(name, len(printed))
    return dict(zip(order if len(printed) < count else range(6), printed[:whole]))


def is_own(line: str) -> bool:
    """Whether a line begins as one of strace's does: with a syscall, or with what became of one or of a process."""
    at = LEADER.match(line).end()
    return CALL_NAME.match(line, at) is not None or line.startswith(("<... ", "--- ", "+++ "), at)


def registers_in(text: str, name: re.Match[str], architecture: str = NATIVE, is_raw: bool = False) -> Arguments:
    """The values that the registers of a printed syscall may have, by arguments; `is_raw`: strace printed registers."""
    printed = arguments_in(text, name.end())[0]
    if is_raw:
        numbers, most = [RAW.fullmatch(argument.strip()) for argument in printed], JUDGED[architecture].greatest
        return {at: (int(match[1], 16) & most,) if match else None for at, match in enumerate(numbers)}
    return {at: values_of(shown, architecture) for at, shown in _in_registers(name[1], printed, architecture).items()}


def errno_in(text: str, name: re.Match[str]) -> int | None:
    """The errno with which a printed syscall failed; None if it didn't, or if the text lacks its end."""
    end = arguments_in(text, name.end())[1] if " = -1 " in text else None
    match = None if end is None else FAILED.match(text, end)
    if match is None:
        return None
    return NUMBERS_OF_ERRNOS.get(match[1]) if match[1] else int(match[2])


def log_lines(name: str, most: int = inputs.LONGEST_LINE) -> Iterator[str]:
    """The lines of a log (`-` is standard input), of each at most so many characters."""
    unread_part, length = b"", 0
    for piece in inputs.input_pieces(name, "log", LONGEST_LOG + 1):
        length += len(piece)
        if length > LONGEST_LOG:
            raise program.ToolError(f"the log '{output.escaped(name)}' has more than {LONGEST_LOG} bytes")
        *whole, last = piece.split(b"\n")
        for line in whole:
            yield (unread_part + line)[:most].decode("latin-1")
            unread_part = b""
        unread_part = (unread_part + last)[:most]
    if unread_part:
        yield unread_part.decode("latin-1")


def is_log(data: bytes) -> bool:
    """Whether some of the first lines of a text are strace's."""
    lines = data[:inputs.LONGEST_LINE].decode("latin-1").split("\n")[:100]
    return any(CALL_NAME.match(line, LEADER.match(line).end()) and " = " in line for line in lines)
