"""Runs a program under strace, which leaves it its input, output, status and signals."""
from __future__ import annotations

# (the module signal makes enums of its constants)
import _signal as signal
import os
import shutil
import stat
from collections.abc import Sequence

from ..base import output, program
from ..base.values import unless_refused
from ..cli.words import Parser

# The statuses of what runs another program, as of env(1): it isn't executable, there is none.
NOT_EXECUTABLE, NOT_THERE = 126, 127
# The signals that a terminal sends to all of its programs: the traced one decides what becomes of it.
OF_TERMINAL = (signal.SIGINT, signal.SIGQUIT)


def split(words: Sequence[str]) -> tuple[list[str], list[str]]:
    """The words before the first `--`, and those behind it."""
    at = list(words).index("--") if "--" in words else len(words)
    return list(words[:at]), list(words[at + 1:])


def new_name(words: Sequence[str], ending: str) -> str:
    """The name of a new file here, called by a program. Raises ToolError if it is there."""
    name = os.path.basename(words[0]) + ending
    if os.path.lexists(name):
        raise program.ToolError(f"'{output.escaped(name)}' is there already: name it to write over it, or another one")
    return name


def check_separated(parser: Parser, words: Sequence[str], command: str) -> None:
    """Ends a tool with a usage error if a program stands among its own words, which should be behind `--`."""
    for at, word in enumerate(words):
        if shutil.which(word):
            shown = " ".join([*words[:at], "--", *words[at:]])
            parser.error(f"'{output.escaped(word)}' is a program, and stands behind --: `scf {command} "
                         f"{output.escaped(shown)}`")


def run_traced(log: str, options: Sequence[str], words: Sequence[str]) -> int:
    """Runs a program with its arguments while strace writes its log, and waits for both. The result is the program's
    status, or a signal's number below zero. Raises ToolError if there is no such program, or no strace."""
    path, shown = shutil.which(words[0]), output.escaped(words[0])
    if path is None and shutil.which(words[0], os.F_OK):
        raise program.ToolError(f"'{shown}' isn't executable", NOT_EXECUTABLE)
    if path is None:
        raise program.ToolError(f"there is no program '{shown}'", NOT_THERE)
    if os.geteuid() and (os.stat(path).st_mode & (stat.S_ISUID | stat.S_ISGID)
                         or unless_refused(b"", os.getxattr, path, "security.capability")):
        program.say(f"'{words[0]}' gets no privileges while it is traced: it may do other things than else")
    try:
        tracer = os.posix_spawnp("strace", ["strace", *options, "-o", log, "--", *words], os.environ,
                                 setsigdef=(signal.SIGPIPE,))
    except FileNotFoundError:
        raise program.ToolError("strace isn't installed: its package is called strace", program.NOT_BUILT) from None
    for number in OF_TERMINAL:
        signal.signal(number, signal.SIG_IGN)
    for number in (signal.SIGTERM, signal.SIGHUP):
        signal.signal(number, lambda came, _: os.kill(tracer, came))
    _, status = os.waitpid(tracer, 0)
    for number in (*OF_TERMINAL, signal.SIGTERM, signal.SIGHUP):
        signal.signal(number, signal.SIG_DFL)
    return os.waitstatus_to_exitcode(status)


def end_as(status: int) -> int:
    """Ends by the signal that ended the program, or returns its status."""
    if status < 0:
        output.flush()
        os.kill(os.getpid(), -status)
    return status if status >= 0 else 128 - status
