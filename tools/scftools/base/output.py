"""Output that is safe for a terminal, and complete or reported as failed.

Text that isn't a tool's own (a name in a profile, of a file, of a process) is printed by `escaped`, whether or not a
terminal reads it.
"""
from __future__ import annotations

import codecs
import errno
import itertools
import os
import sys
import time
from collections.abc import Iterable, Iterator, Sequence

from .values import Pattern, unless_refused

# C0, DEL and C1; and the characters that change the direction of text or end a line (Unicode's Bidi_Control, LINE
# SEPARATOR and PARAGRAPH SEPARATOR), which make text look different than it is.
CONTROL = Pattern("[\x00-\x1f\x7f-\x9f\u061c\u200e\u200f\u2028-\u202e\u2066-\u2069]")

# The most characters of a label's value.
MOST_OF_LABEL = 256
# A metric's name and help, and its values with their labels.
Metric = "tuple[str, str, list[tuple[list[tuple[str, str | int | None]], object]]]"


def _of_surrogates(error: UnicodeError) -> tuple[bytes, int]:
    """The byte that a surrogate escape stands for, or the three bytes of any other surrogate."""
    assert isinstance(error, UnicodeEncodeError)
    surrogates = error.object[error.start:error.end]
    return b"".join(bytes([ord(letter) - 0xDC00]) if "\udc80" <= letter <= "\udcff" else
                    letter.encode("utf-8", "surrogatepass") for letter in surrogates), error.end


codecs.register_error("surrogates", _of_surrogates)


def escaped(text: str | bytes) -> str:
    """The text as one line: control characters and bytes that aren't UTF-8 become `\\xNN`."""
    if isinstance(text, str) and text.isascii() and text.isprintable():
        return text
    data = text.encode("utf-8", "surrogates") if isinstance(text, str) else text
    return CONTROL.sub(lambda match: "".join(f"\\x{byte:02x}" for byte in match[0].encode()),
                       data.decode("utf-8", "backslashreplace"))


def cut(text: str, most: int = 64) -> str:
    """A text, cut if it is longer than this."""
    return text if len(text) <= most else f"{text[:most]}.."


def some(texts: Sequence[str], most: int) -> str:
    """The first texts of a list, so many, and how many more there are."""
    return ", ".join(texts[:most]) + (f" and {len(texts) - most} more" if len(texts) > most else "")


def time_text(seconds: float) -> str:
    """A time as in RFC 3339, in UTC."""
    return time.strftime("%Y-%m-%dT%H:%M:%SZ", time.gmtime(seconds))


def sha256(data: bytes) -> str:
    import hashlib  # pylint: disable=import-outside-toplevel

    return hashlib.sha256(data).hexdigest()


def runs(numbers: Iterable[int]) -> list[tuple[int, int]]:
    """Numbers by runs of neighbours, each its first and its last one."""
    groups = itertools.groupby(enumerate(numbers), lambda pair: pair[1] - pair[0])
    spans = ([number for _, number in group] for _, group in groups)
    return [(span[0], span[-1]) for span in spans]


# The colours (ECMA-48) of verdicts, and of lines by how they begin; `# ` is a tool's own.
GREEN, RED, YELLOW, FAINT = "1;32", "1;31", "1;33", "2"
VERDICT_COLOURS = {**dict.fromkeys(("same", "no more", "no less"), GREEN), "unfinished": YELLOW, **dict.fromkeys(
    ("differs", "more", "less", "unconfined by configuration", "unconfined though configured"), RED)}
BEGINNING_COLOURS = {"accepted ": GREEN, "fault ": RED, "undecided at ": YELLOW, "undetermined: ": YELLOW, "# ": FAINT}
# `always`, `never`, or `auto`, which colours at a terminal unless NO_COLOR is set (no-color.org).
color = "auto"


class Failed(OSError):
    """Output can't be written."""


def put(text: str | bytes) -> None:
    """Prints safe text, or bytes unchanged."""
    if sys.stdout is None:
        raise Failed(errno.EBADF, os.strerror(errno.EBADF))
    try:
        sys.stdout.buffer.write(text.encode("utf-8", "backslashreplace") if isinstance(text, str) else text)
    except OSError as error:
        raise Failed(error.errno, error.strerror) from error


def put_line(text: str) -> None:
    """Prints a line, escaped, in the colour of what it says, where that is wanted."""
    line = escaped(text)
    is_auto = color == "auto" and sys.stdout is not None and sys.stdout.isatty() and not os.environ.get("NO_COLOR")
    colours = (colour for beginning, colour in BEGINNING_COLOURS.items() if line.startswith(beginning))
    colour = VERDICT_COLOURS.get(line) or next(colours, None) if is_auto or color == "always" else None
    put(f"{line}\n" if colour is None else f"\x1b[{colour}m{line}\x1b[0m\n")


def put_lines(lines: Iterable[str]) -> None:
    for line in lines:
        put_line(line)


# Whether a tool adds lines to scf's.
has_notes = True


def notes(lines: Iterable[str]) -> Iterator[str]:
    """Lines marked as a tool's own, which it adds after scf's."""
    return (f"# {line}" for line in lines if has_notes)


def flush() -> None:
    try:
        if sys.stdout is not None:
            sys.stdout.flush()
    except OSError as error:
        raise Failed(error.errno, error.strerror) from error


# The version of docs/JSON.md: members may be added to it; one that goes or changes its meaning makes another version.
SCHEMA_VERSION = 3


def put_json(value: dict[str, object]) -> None:
    """Prints an object as a line of JSON, in which control characters and those beyond ASCII are escaped."""
    import json  # pylint: disable=import-outside-toplevel

    put(json.dumps({"schema": SCHEMA_VERSION, **value}).replace("\x7f", "\\u007f") + "\n")


def replace_file(path: str, text: str) -> None:
    """Writes a file at once: who reads it meanwhile sees the old one or the new one. Whoever may write in its folder
    may replace each name in it meanwhile, so the open folder and file are used."""
    folder, name = os.path.split(path)
    try:
        at = os.open(folder or ".", os.O_PATH | os.O_DIRECTORY | os.O_CLOEXEC)
        try:
            _replace_in(at, name, text)
        finally:
            os.close(at)
    except OSError as error:
        raise OSError(error.errno, error.strerror, path) from error


def _replace_in(folder: int, name: str, text: str) -> None:
    temporary = f".scf-{os.urandom(8).hex()}"
    file = os.open(temporary, os.O_WRONLY | os.O_CREAT | os.O_EXCL | os.O_NOFOLLOW | os.O_CLOEXEC, 0o600, dir_fd=folder)
    try:
        with os.fdopen(file, "wb") as opened:
            opened.write(text.encode("utf-8", "backslashreplace"))
            os.fchmod(file, 0o644)
        os.replace(temporary, name, src_dir_fd=folder, dst_dir_fd=folder)
    except BaseException:
        unless_refused(None, os.unlink, temporary, dir_fd=folder)
        raise


def _label(text: str) -> str:
    """A label's value in Prometheus's text format. Different texts have different ones: control characters are escaped,
    and so is the backslash by which they are; one that is too long is cut, and ends with its SHA-256."""
    if len(text) > MOST_OF_LABEL:
        text = f"{text[:MOST_OF_LABEL]}..{sha256(text.encode('utf-8', 'surrogatepass'))}"
    return escaped(text.replace("\\", "\\\\")).replace("\\", "\\\\").replace('"', '\\"')


def prometheus(metrics: Iterable[Metric]) -> str:
    """Metrics in Prometheus's text format."""
    lines_of = []
    for name, help_text, samples in metrics:
        lines_of += [f"# HELP {name} {help_text}\n", f"# TYPE {name} gauge\n"]
        for labels, value in samples:
            shown = ",".join(f'{label}="{_label("" if text is None else str(text))}"' for label, text in labels)
            lines_of.append(f"{name}{{{shown}}} {value}\n" if shown else f"{name} {value}\n")
    return "".join(lines_of)
