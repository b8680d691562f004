"""How a tool starts and exits, and where its files are."""
from __future__ import annotations

# (the module signal makes enums of its constants)
import _signal as signal
import os
import sys
from collections.abc import Callable

from . import output
from .values import NoReturn

# (the launcher reads it here)
VERSION = "0.1.0"
# The folder of the packages scftools and scfhost.
TOOLS = os.path.dirname(os.path.dirname(os.path.dirname(__file__)))
TOP = os.path.dirname(os.path.realpath(TOOLS))
FAULTS = os.path.join(TOP, "docs", "FAULTS.md")

# The statuses of the tools, as diff(1) has them: yes; an answer no; what can't be read, is refused or is misspelt; it
# isn't known; the tool itself failed (EX_SOFTWARE of sysexits.h); scf isn't built, or Python lacks modules.
SUCCESS, NEGATIVE, TROUBLE, UNKNOWN, INTERNAL, NOT_BUILT = 0, 1, 2, 4, 70, 125
# The status of scf where an input can't be read or the output not written; what it refuses has NEGATIVE there.
SCF_IO_ERROR = 3
# At most so many characters of an exception's text are printed.
MOST_OF_REASON = 200


def table_lines(table: str) -> list[str]:
    """The lines of a file in tables/, but for empty ones and comments, which begin with `#`."""
    with open(os.path.join(TOP, "tables", table), encoding="utf-8") as file:
        return [line for line in file if line.strip() and not line.startswith("#")]


def name() -> str:
    """The tool as it was called: as `scf compare`, which says so by an option of Python's, or as its file is called."""
    tool = os.path.basename(sys.argv[0])
    return f"scf {tool}" if "scf" in sys._xoptions else tool  # pylint: disable=protected-access


def version() -> str:
    """The line of `--version`: a tool has scf's version."""
    return f"{output.escaped(name())} of scf {VERSION}"


def say(*lines: str) -> None:
    """Prints lines on standard error, each after the tool's name; nothing if that is closed."""
    try:
        for line in lines if sys.stderr is not None else ():
            print(f"{output.escaped(name())}: {output.escaped(line)}", file=sys.stderr, flush=True)
    except (OSError, ValueError):
        pass


class ToolError(Exception):
    """Ends a tool with a line on standard error and a status."""

    def __init__(self, text: str, status: int = TROUBLE):
        super().__init__(text)
        self.status = status


class InternalError(ToolError):
    """A fault of scf or its tools themselves, of which nothing is concluded."""

    def __init__(self, text: str):
        super().__init__(f"internal error: {text}; please report it", INTERNAL)


def why_it_lacks(error: ImportError) -> str:
    """The line on a module that Python doesn't have."""
    return (f"the tools need Python's whole standard library, and this Python lacks {error.name}: install the package "
            "python3 (python3-minimal isn't enough)")


def why_it_failed(error: Exception) -> str:
    """The line on an exception that nothing expects, with the last line of the tools' own modules that was run.
    Python's own status would mean that something differs."""
    frame, place = error.__traceback__, "the start"
    while frame is not None:
        path = frame.tb_frame.f_code.co_filename
        if path.startswith(os.path.join(TOOLS, "scf")):
            place = f"{os.path.basename(path)}, line {frame.tb_lineno}"
        frame = frame.tb_next
    return str(InternalError(f"{type(error).__name__}: {output.cut(str(error), MOST_OF_REASON)}, at {place}"))


# Whether this process is a tool, not a program that imports these modules.
is_tool = False


def start(main: Callable[[], int]) -> NoReturn:
    """Runs a tool, and exits with its status."""
    global is_tool  # pylint: disable=global-statement
    is_tool = True
    # SIGPIPE and SIGINT end the tool as they end any other.
    signal.signal(signal.SIGPIPE, signal.SIG_DFL)
    signal.signal(signal.SIGINT, signal.SIG_DFL)
    # If SIGCHLD is ignored, which a program inherits, the kernel tells nobody how a child ended.
    signal.signal(signal.SIGCHLD, signal.SIG_DFL)
    try:
        status = main()
    except SystemExit as ended:
        # --help
        status = ended.code if isinstance(ended.code, int) else SUCCESS
    except ToolError as why:
        say(str(why))
        status = why.status
    except MemoryError:
        say("out of memory")
        status = TROUBLE
    except output.Failed as error:
        say(f"the output failed: {error.strerror}")
        # what can't be written isn't tried again
        os._exit(TROUBLE)
    except OSError as error:
        say(f"{error.strerror}" if error.filename is None else f"'{error.filename}': {error.strerror}")
        status = TROUBLE
    except ModuleNotFoundError as error:
        say(why_it_lacks(error))
        status = NOT_BUILT
    except Exception as error:  # pylint: disable=broad-exception-caught
        say(why_it_failed(error))
        status = INTERNAL
    finish(status)


def finish(status: int) -> NoReturn:
    try:
        output.flush()
    except OSError as error:
        say(f"the output failed: {error.strerror}")
        status = TROUBLE
    # without the interpreter's exit, which would try to print the rest again
    os._exit(status)
