"""Filters as commands take them, and stacks of them, also as threads have them: as bytes, hexadecimal text, a C array,
decimals of `tcpdump -ddd`, scf's assembler, and strace's log of a program that loads one.

The contents decide, not the name of a file. Bytes of which the second is a NUL are a raw filter, whatever else they
look like: each instruction that the kernel accepts has a code below 256, whose upper byte is a NUL, and no text has
one. A text is taken for a filter only if it has one of these forms from its first letter to its last; if two forms read
different instructions, it is refused. What is known to be something else is refused, and named. All else goes to scf as
it is.
"""
from __future__ import annotations

import itertools
import os
import re
from collections import Counter
from collections.abc import Callable, Iterator, Sequence

from ..base import inputs, output, program
from ..base.values import Pattern, dataclass, field, unless_refused
from ..model import bundles, tables
from ..model.bpf import BPF_MAXINSNS, INSTRUCTION
from ..ask import client
from ..ask.client import Fault
from . import c_arrays

# The most bytes of a filter as text, and of one in which a wrong word is looked for.
LONGEST_TEXT = 1 << 20
HEXADECIMAL_TEXT, ARRAY, DECIMALS, ASSEMBLER = (
    "hexadecimal text", "a C array", "decimals of tcpdump -ddd", "scf's assembler text")
LOADING = Pattern(r"(?m)^[\[\]pid 0-9]{0,30}(?:seccomp\(SECCOMP_SET_MODE_FILTER|prctl\(PR_SET_SECCOMP), ")
# The assembler's mnemonics, and its statement: a label, a mnemonic, operands.
MNEMONICS = "ld ldx st stx add sub mul div or and lsh rsh xor neg ja jeq jgt jge jset ret tax txa raw".split()
STATEMENT = Pattern(r"\s*(?:([A-Za-z_]\w*)\s*:)?\s*(\w+|\S?)\s*(.*)")
# What isn't a filter: how it begins, what it is, and what to do.
OF_PROFILE = ": `scf surface` and `scf decide` take profiles, too, and `scf compile` makes the filter of one"
NOT_FILTERS = (
    (rb"\x7fELF", "an ELF file (a program, library or object)", ""),
    (rb"\x1f\x8b", "compressed by gzip", ": unpack it first"),
    (rb"PK\x03\x04", "a zip file", ": unpack it first"),
    (rb"%PDF-", "a PDF", ""),
    (rb"\x89PNG\r\n|\xff\xd8\xff|GIF8[79]a|(?s:BM.{4}\0{4}|RIFF.{4}WEBP)", "a picture", ""),
    (rb"(?:filter|profile|table) [0-9]{1,8}\n", "a bundle", ": scf itself reads it, on standard input"),
    (rb"\s*(?:\{\s*[\"}]|\[\s*[\[{\"\]])", "JSON", OF_PROFILE),
    (rb"\s*line\s+CODE\s+JT\s+JF\s+K\b", "a disassembly of seccomp-tools",
     ": `seccomp-tools dump -f raw` writes the filter itself"),
    (rb"#\s*\n# pseudo filter code start", "libseccomp's pseudo code",
     ": seccomp_export_bpf writes the filter itself"),
    (rb"[> ] ?\s*0  (?:ld|ldx|ret|raw|jeq|ja) |\s*0  (?:ld|ldx|ret|raw|ja)\b", "a listing of `scf list`",
     ": `scf list --plain` prints one that is taken"),
    (rb"\s*(?:---\s*\n)?(?:apiVersion|kind):", "YAML", OF_PROFILE),
)
# Characters that no text has.
NO_TEXT = Pattern(r"[\0-\x08\x0e-\x1a\x1c-\x1f\x7f]")
# The instructions of a big-endian machine: the code's upper byte, a 0, stands first, as in no little-endian one.
BIG_ENDIAN = Pattern(rb"\0[^\0].{6}(?:\0.{7})*", re.S)


@dataclass(frozen=True)
class Filter:
    """A filter, with the name of its file, or of the form that it was read in."""

    name: str
    data: bytes

    @property
    def count(self) -> int:
        """The number of its complete instructions."""
        return len(self.data) // INSTRUCTION.size


def _of_dump(text: str) -> bytes | None:
    """The bytes of what `xxd` and `hexdump -C` print, if no line lacks, and the letters beside them are theirs. `xxd`
    puts a colon behind the offset, and two blanks behind the digits; `hexdump -C` puts two blanks, and a bar."""
    data = bytearray()
    lines = text.rstrip().split("\n")
    for at, line in enumerate(lines):
        begin, (digits, _, letters) = line[:10], line[10:].partition("  " if line[8:10] == ": " else "|")
        try:
            piece = bytes.fromhex(digits) if begin in (f"{len(data):08x}: ", f"{len(data):08x}  ") else b""
        except ValueError:
            piece = b""
        own_letters = "".join(chr(byte) if 32 <= byte < 127 else "." for byte in piece).rstrip(" |")
        letters = letters.rstrip(" |")
        if not piece or not letters.endswith(own_letters) or letters.removesuffix(own_letters).strip():
            # the last line of hexdump is the length
            return bytes(data) if at + 1 == len(lines) and line == f"{len(data):08x}" else None
        data += piece
    return bytes(data)


def _of_hexadecimal(text: str) -> bytes | None:
    stripped = text.strip()
    if re.fullmatch(r'"?(?:\\x[0-9a-fA-F]{2})+"?', stripped):
        data = bytes.fromhex(stripped.strip('"').replace("\\x", ""))
    elif re.fullmatch(r"[0-9a-fA-F\s]+", text, re.ASCII) and all(len(word) % 2 == 0 for word in text.split()):
        data = bytes.fromhex(text)
    else:
        data = _of_dump(text) or b""
    return data if data and len(data) % INSTRUCTION.size == 0 else None


def _of_decimals(text: str) -> bytes | None:
    """A count, and so many rows of four numbers; as of `bpf_asm`, commas may end the rows."""
    if not re.fullmatch(r"[0-9\s,]+", text, re.ASCII):
        return None
    rows = [row.split() for row in re.split("[\n,]", text.strip().rstrip(",")) if row.strip()]
    if [len(row) for row in rows] != [1] + [4] * (len(rows) - 1):
        return None
    values = [[int(word) if len(word) < 11 else 1 << 32 for word in row] for row in rows[1:]]
    fits = all(not (code >> 16 or jt >> 8 or jf >> 8 or k >> 32) for code, jt, jf, k in values)
    if rows[0][0].lstrip("0") != str(len(values)) or not fits:
        return None
    return c_arrays.packed(values) or None


def _statements(line: str) -> Iterator[Sequence[str]]:
    """The label, the mnemonic and the operands of each statement of a line."""
    for text in line.partition("//")[0].split(";"):
        statement = STATEMENT.match(text)
        if statement and text.strip():
            yield statement.groups("")


def is_assembler(text: str) -> bool:
    """Whether the first word of a text that isn't a label is a mnemonic of scf's assembler."""
    return next((word for line in text.split("\n") for _, word, _ in _statements(line) if word), "") in MNEMONICS


def _unknown(word: str, kind: str, known: Sequence[str]) -> str:
    near = tables.most_like(word.lower(), known)
    return f"'{output.cut(word)}' is no {kind}" + (f"; the nearest is '{near}'" if near else "")


def wrong_word(text: str, fault: Fault | None) -> list[str]:
    """Which word of a text in the assembler a fault is about, and the nearest one; nothing if it can't be said."""
    lines, number = text.split("\n"), fault.numbers.get("line", 0) if fault is not None else 0
    if fault is None or not 0 < number <= len(lines) or len(text) > LONGEST_TEXT:
        return []
    here = lines[number - 1]
    if fault.kind == "Mnemonic":
        words = (word for _, word, _ in _statements(here) if word and word not in MNEMONICS)
        return [_unknown(word, "mnemonic", MNEMONICS) for word in itertools.islice(words, 1)]
    if fault.kind == "Label":
        labels = Counter(label for line in lines for label, _, _ in _statements(line) if label)
        for label, word, operands in _statements(here):
            targets = re.findall(r"[A-Za-z_]\w*", operands) if word in ("ja", "jeq", "jgt", "jge", "jset") else []
            unknown = next((target for target in targets if target != "x" and target not in labels), None)
            if unknown is not None:
                return [_unknown(unknown, "label", [*itertools.islice(labels, BPF_MAXINSNS)])]
            if labels[label] > 1:
                return [f"'{output.cut(label)}' is a label twice"]
        return []
    said = [f"the statement is '{output.cut(' '.join(parts[1:]))}'" for parts in itertools.islice(_statements(here), 2)]
    return said if len(said) == 1 and fault.kind != "TooLong" else []


def _of_assembler(text: str) -> bytes | None:
    if not is_assembler(text):
        return None
    done = client.run_scf(["asm"], text.encode())
    if done.status != program.SUCCESS:
        raise c_arrays.NotAnArray(": ".join([done.line, *wrong_word(text, Fault.read(done.line))]))
    return done.out


def _of_log(text: str) -> bytes | None:
    """The one filter that a program loads."""
    if not LOADING.search(text):
        return None
    from . import strace_reader  # pylint: disable=import-outside-toplevel

    filters = {data for stack in strace_reader.stacks_in(text.split("\n")) for data in stack}
    if len(filters) != 1:
        raise c_arrays.NotAnArray(f"it loads {len(filters)} filters: `scf filters-of --log` writes each to a file")
    return filters.pop()


FORMS = ((HEXADECIMAL_TEXT, _of_hexadecimal), (DECIMALS, _of_decimals),
         (ARRAY, lambda text: c_arrays.bytes_in(text) if c_arrays.looks_like_array(text) else None),
         (ASSEMBLER, _of_assembler), ("a strace log", _of_log))


def text_of(data: bytes) -> str | None:
    """The text that bytes are, None if they are none, or only blanks."""
    try:
        text = data.decode("utf-8")
    except UnicodeDecodeError:
        return None
    return None if not text.strip() or NO_TEXT.search(text) else text


def form_of(data: bytes, label: str) -> Filter | None:
    """The form of a filter that isn't raw, or None if the bytes are to be judged as they are. `label` names the input.
    Raises ToolError if they are known to be something else, or can be read in two ways."""
    if BIG_ENDIAN.fullmatch(data):
        raise program.ToolError(f"{label} is a filter of a big-endian machine: scf doesn't read its byte order")
    for begins, what, hint in NOT_FILTERS:
        if re.match(begins, data):
            raise program.ToolError(f"{label} is {what}, not a filter{hint}")
    text = text_of(data)
    if text is None:
        return None
    if len(data) > LONGEST_TEXT:
        raise program.ToolError(f"{label} has more than {LONGEST_TEXT} bytes, the most of a filter as text")
    filters = []
    for name, read in FORMS:
        try:
            form_data = read(text)
        except c_arrays.NotAnArray as why:
            raise program.ToolError(f"{label} begins as {name}, but isn't one: {why}") from why
        if form_data is not None:
            filters.append(Filter(name, form_data))
    if len({form.data for form in filters}) > 1:
        names = " and as ".join(form.name for form in filters)
        raise program.ToolError(f"{label} can be read as {names}: give the raw filter")
    return filters[0] if filters else None


def read_filter(name: str) -> Filter:
    """The filter of a file, a pipe or standard input: raw, or a text in one of FORMS, which standard error names."""
    return filter_in(name, inputs.read_input(name, "filter", most=LONGEST_TEXT))


def filter_in(name: str, data: bytes) -> Filter:
    """The filter in what was read of an input."""
    # what is raw and too long is cut so far that scf says so
    raw = Filter(name, data[:inputs.LIMITS["filter"] + 1])
    if data[1:2] == b"\0":
        return raw
    form = form_of(data, inputs.label(name))
    if form is None and text_of(data) is not None:
        raise program.ToolError(f"{inputs.label(name)} is text, in none of the forms of a filter: hexadecimal, a C "
                                "array, decimals of tcpdump -ddd, scf's assembler")
    if form is None:
        return raw
    count = form.count if form.count <= BPF_MAXINSNS else f"more than {BPF_MAXINSNS}"
    program.say(f"{inputs.label(name)} is read as {form.name}, instructions: {count}")
    return Filter(name, form.data)


def saved_in(folder: str) -> list[str]:
    """The filters in a folder, as `scf filters-of` writes them: its *.bpf, in the order of their names."""
    return sorted(os.path.join(folder, name) for name in unless_refused([], os.listdir, folder)
                  if name.endswith(".bpf") and name[0] != ".")


def read_stack(names: Sequence[str], read_one: Callable[[str], Filter] = read_filter) -> list[Filter]:
    """The filters of some files; if they exceed what scf reads, only as many as show that."""
    filters_read: list[Filter] = []
    length = 0
    for name in names:
        if length > bundles.LONGEST_BUNDLE:
            break
        filters_read.append(read_one(name))
        length += len(filters_read[-1].data)
    return filters_read


def called(thread: int, process: int) -> str:
    return f"process {process}" if thread == process else f"thread {thread} of process {process}"


def description(lengths: Sequence[int], is_strict: bool) -> str:
    """The number of a stack's filters, and their lengths."""
    if is_strict:
        return "no filter, but seccomp's strict mode"
    if not lengths:
        return "no filter"
    return f"{len(lengths)} filter{'s' * (len(lengths) > 1)}, of {', '.join(map(str, lengths))} instructions"


@dataclass
class Stack:
    """The filters that some threads have in common, oldest first, as bytes."""

    filters: tuple[bytes, ...]
    # Whether they are in the strict mode of seccomp(2), which isn't a filter.
    is_strict: bool
    # The numbers of their processes, and for each those of its threads.
    threads: dict[int, list[int]] = field(default_factory=dict)

    @property
    def named(self) -> list[Filter]:
        """The filters, by the names that `scf filters-of` gives their files."""
        width = len(str(len(self.filters) - 1))
        return [Filter(f"{at:0{width}}.bpf", data) for at, data in enumerate(self.filters)]

    def as_json(self, names: dict[int, bytes]) -> dict[str, object]:
        """The lengths of its filters, and the threads that have it, given the names of processes."""
        return {"filters": [filter_.count for filter_ in self.named],
                "processes": [{"process": process, "name": output.escaped(names[process]), "threads": threads}
                              for process, threads in self.threads.items()]}

    @property
    def confined(self) -> str:
        """What confines its threads, as objects say it."""
        return "by filters" if self.filters else "strict" if self.is_strict else "not"

    @property
    def description(self) -> str:
        return description([filter_.count for filter_ in self.named], self.is_strict)


@dataclass
class Inspection:
    """The stacks of threads, read while all of these were stopped."""

    # The distinct stacks, in the order of their first threads.
    stacks: list[Stack]
    # The processes, by number, and what each was called.
    names: dict[int, bytes]
    # The processes whose threads make no syscalls, by number, and why.
    passed_over: dict[int, str]
    # The processes and threads whose syscalls a supervisor got twice, since they were stopped meanwhile.
    asked_again: list[tuple[int, int]] = field(default_factory=list)

    @property
    def notes(self) -> list[str]:
        return [*(f"process {process} is skipped: it {why}" for process, why in self.passed_over.items()),
                *(f"the syscall of {called(thread, process)} restarts, and its seccomp supervisor gets it a second "
                  f"time" for process, thread in self.asked_again)]


def threads_text(threads: Sequence[int]) -> str:
    """Threads by their numbers, which rise; neighbours as `7 to 9`."""
    shown = ", ".join(f"{first} to {last}" if last - first > 1 else ", ".join(map(str, range(first, last + 1)))
                      for first, last in output.runs(threads))
    return f"thread{'s' * (len(threads) > 1)} {shown}"
