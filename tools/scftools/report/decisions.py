"""Answers of filters or a profile to syscalls: the records of a command line, and what gives the answer; and rows of
syscalls, each with the answer that filters are expected to give."""
from __future__ import annotations

import re
from collections.abc import Callable, Iterable, Iterator, Sequence

from ..base import inputs, output, program
from ..base.inputs import LONGEST_LINE
from ..base.values import Any, Pattern, dataclass
from ..model import architectures, profiles, tables
from ..model.answers import DOES, FIRST_X32, NUMBERS_OF_ERRNOS, X86_64, Answer
from ..model.calls import OPTIONS, SKIPPED, Call
from ..model.constants import argument_in, number_in
from ..model.tables import Table, Tables
from ..ask import client, explanation
from ..ask.client import Fault, Refusal
from ..ask.explanation import Reason
from ..ask.verdicts import FOR_OTHER_ABI, UNDETERMINED, Decision
from ..cli.words import Parser
from ..forms import refusals
from ..forms.filters import Filter
from ..forms.profile_inputs import ProfileInput
from . import listing
from .blocks import Block, of_fault

# No name of a syscall and no number is longer; and the most syscalls of a list, for each of which scf is run.
LONGEST_WORD, MOST_CALLS = 256, 2048
FIELD_HELP = {"ip": "the instruction pointer", **{f"a{index}": f"argument {index}" for index in range(6)},
              "a0": "argument 0: a number, or constants such as AF_INET or CLONE_NEWUSER|SIGCHLD"}


@dataclass(frozen=True)
class Query:
    """A record whose answer is wanted: the texts of scf's options by their names; scf checks the numbers."""

    texts: dict[str, str]

    def words(self) -> list[str]:
        return [f"--{name}={text}" for name, text in self.texts.items()]

    @property
    def call(self) -> Call | None:
        """The record, if each text is a number."""
        texts = {"arch": hex(X86_64), **self.texts}
        numbers = [number_in(texts.get(name, "0")) for name in OPTIONS]
        return None if None in numbers else Call(*numbers[:3], tuple(numbers[3:]))


def add_numbers(parser: Parser) -> None:
    """Adds the options for a record's fields beside its number."""
    parser.value("--arch", "ARCH", "the architecture of the syscalls: a name such as i386 or aarch64, or its number, "
                 "as the audit log has it (c000003e) [default: x86-64]")
    for name in OPTIONS[2:]:
        parser.value(f"--{name}", "N", f"{FIELD_HELP[name]} [default: 0]")


def add_options(parser: Parser) -> None:
    """Adds the options that give records, and --json."""
    parser.value("--nr", "NUMBER|NAME", "a syscall by number or name, or several with commas between; may be repeated",
                 action="append", default=[])
    parser.value("--calls-from", "FILE", f"more syscalls, one a line, at most {MOST_CALLS}: a number or a name, and "
                 "any arguments from the first on; - is standard input")
    add_numbers(parser)
    parser.add("--table", "--json")
    parser.set_defaults(call=[])
    parser.record_words = record_words


class Numbering:
    """How a command line gives the fields of records: a syscall by a name of its architecture's table or by a number,
    an argument by constants or a number. The table is that of x86-64."""

    def __init__(self, options: Any, table: Table) -> None:
        # --arch as given, or None
        self.table, self.architecture = table, options.arch
        given = {name: getattr(options, name) for name in OPTIONS[1:] if getattr(options, name) is not None}
        # the fields beside the number that all records have which don't give their own
        self.fields = {name: architectures.number_in(text) if name == "arch" else self.argument(text)
                       for name, text in given.items()}

    @property
    def abi(self) -> str:
        """The OCI name of the architecture, or of one that has none its text."""
        if self.architecture is None:
            return architectures.NATIVE
        number = number_in(architectures.number_in(self.architecture))
        return (architectures.name_in(self.architecture)
                or (None if number is None else architectures.profile_name(number)) or self.architecture)

    def number_of(self, text: str) -> str:
        """The number, as scf takes it, of a syscall given by name or number."""
        if re.match("[A-Za-z_]", text):
            is_native = self.abi == architectures.NATIVE
            table = self.table if is_native else tables.architecture_table(self.abi)
            if table is None:
                raise program.ToolError(f"there is no table of --arch {self.architecture}: give the number of '{text}'")
            # C's constants for it are SYS_read and __NR_read
            bare = re.sub("^(?:SYS_|__NR_)", "", text)
            number = table.number_of(bare if table.number_of(text) is None else text)
            if number is None:
                near, whose = tables.nearest(bare, table), "the table" if is_native else f"{self.architecture}'s table"
                raise program.ToolError(f"{whose} has no syscall '{text}'"
                                        + (f"; the nearest name is '{near}'" if near else ""))
            text = str(number)
        if text == "-1":
            return hex(SKIPPED)
        number = number_in(text)
        # an x32 number has bit 30, whether or not it was given with it
        is_without = self.abi == architectures.X32 and number is not None and number < FIRST_X32
        return hex(number | FIRST_X32) if is_without else text

    def argument(self, text: str) -> str:
        """An argument as scf takes it."""
        return argument_in(text, self.abi)

    def query(self, number: str, *arguments: str) -> Query:
        """The record of a syscall, given with its first arguments."""
        fields = {**self.fields, **dict(zip(OPTIONS[3:], map(self.argument, arguments)))}
        return Query({"nr": self.number_of(number), **fields})


def queries(options: Any, table: Table) -> list[Query]:
    """The records that a command line gives, in order; without a syscall the program's default, of number 0. In a list
    of syscalls a line that begins with `#` is a comment."""
    numbering = Numbering(options, table)
    calls = [[number] for text in options.nr for number in text.split(",")] + [options.call] * bool(options.call)
    text = b"" if options.calls_from is None else inputs.read_whole(options.calls_from, "list of syscalls")
    listed: list[list[str]] = []
    for line in text.decode("utf-8", "surrogateescape").split("\n"):
        words = line.split()
        if words and not words[0].startswith("#"):
            if len(words) > 7 or "\0" in line or max(map(len, words)) > LONGEST_WORD:
                raise program.ToolError(f"a line of the list isn't a syscall and up to six numbers: {line[:80]}")
            listed.append(words)
            if len(listed) > MOST_CALLS:
                raise program.ToolError(f"the list has more than {MOST_CALLS} syscalls")
    calls = calls or [["0"]] * (options.calls_from is None)
    return [numbering.query(*words) for words in calls + listed]


def record_words(options: Any) -> list[str] | None:
    """The options of scf for the record that a command line gives; None if it gives several."""
    if options.calls_from is not None or getattr(options, "expect", None) is not None:
        return None
    record_queries = queries(options, tables.read_table(options.table))
    return record_queries[0].words() if len(record_queries) == 1 else None


def of_givers(filters: Sequence[Filter], givers: Sequence[listing.Path]) -> Iterator[str]:
    """Which filter of several gives the answer."""
    names = [giver.filter.name for giver in givers]
    if len(filters) < 2:
        return
    if len(names) == len(filters):
        yield f"{'both' if len(names) == 2 else f'all {len(names)}'} filters answer so"
    elif names:
        which = "the filter that answers so is" if len(names) == 1 else "the filters that answer so are"
        yield f"{which} {explanation.join_names(names)}"


def _reply(status: int, call: Call | None, decided: Decision | Reason, table: Table, given: Iterable[str] = (),
           members: Callable[[], dict[str, object]] = dict, lines: Sequence[str] = (),
           sentences: Callable[[Fault], Iterable[str]] = explanation.explain_fault) -> Block:
    """The answer of filters or a profile to a syscall, or a fault: scf's status and line, or its lines, and what a
    fault is. What gives the answer, in lines and as members in JSON, takes time to find."""
    answer, fault = decided.answer, decided.fault
    of_fault = sentences(fault) if fault else ()

    def printed() -> list[str]:
        of_answer = explanation.explain_answer(call, answer, table) if answer else ()
        return [*(lines or filter(None, [decided.line])), *output.notes([*of_fault, *of_answer, *given])]

    return Block(status, printed, lambda: {
        **({"call": call.as_json(table)} if call else {}),
        **({"answer": answer.as_json(explains=True)} if answer else {}),
        **({"fault": fault.as_json(of_fault)} if fault else {}), **members()})


def stack_decisions(filters: Sequence[Filter], query: Query, table: Table) -> Block:
    """The reply of a stack, with the filter that gives the answer, and the path through it."""
    status, decision, paths = listing.run_stack(filters, query.words())
    givers, fault = listing.givers(paths, decision.answer), decision.fault
    shown = listing.to_show(givers)

    def given() -> Iterator[str]:
        yield from refusals.stack_refusals(filters, fault)
        yield from of_givers(filters, givers)
        if shown is not None:
            yield f"the path in {shown.title(filters)}: {shown.describe()}"

    def members() -> dict[str, object]:
        files = refusals.faulty_filters(filters, fault) if fault else [giver.filter.name for giver in givers]
        return {**({"filters": files} if len(filters) > 1 and (shown or fault) else {}),
                **({"path": shown.as_json()} if shown else {})}

    return _reply(status, query.call, decision, table, given(), members)


def of_run(bpf_filter: Filter, query: Query, table: Table, with_path: bool) -> Block:
    """The reply of one filter, with the number of instructions that run, and on request their path."""
    path = listing.path_of(bpf_filter, query.words(), with_path)
    members: dict[str, object] = {} if path.decision.steps is None else {"steps": path.decision.steps}
    if path.indexes:
        members["path"] = path.as_json()
    return _reply(path.status, query.call, path.decision, table, members=lambda: members, lines=path.lines)


def is_undetermined(reason: Reason, call: Call, profile: bytes, judged: Tables) -> bool:
    """Whether a syscall is of an architecture that the profile names, and that isn't judged."""
    return reason.is_foreign and call.abi not in judged.of and call.abi in profiles.architectures_of(profile)


def profile_decisions(given: ProfileInput, query: Query, judged: Tables, table: Table) -> Block:
    """The reply of a profile, with its reason; of a resolved profile with the entries' indexes in the user's file."""
    profile, origins, call = given.data, given.origins, query.call
    reason = explanation.profile_reason(profile, judged, query.words())
    if call is not None and is_undetermined(reason, call, profile, judged):
        return _reply(program.UNKNOWN, call, Decision(FOR_OTHER_ABI), table,
                      explanation.explain_call(call, judged.native), lambda: {"reason": UNDETERMINED})
    return _reply(reason.status, call, reason, table, explanation.describe_reason(reason, profile, call, origins),
                  lambda: explanation.reason_json(reason, profile, call, origins),
                  sentences=lambda fault: refusals.sentences(fault, profile, judged, origins))


def replies(made: Sequence[Block]) -> Block:
    """Several replies; their status is the worst."""
    return Block(client.worst(reply.status for reply in made),
                 lambda: [line for reply in made for line in reply.lines()],
                 lambda: {"calls": [{"status": reply.status, **reply.members()} for reply in made]})


# The most rows of a file, which take some seconds.
MOST_ROWS = 1 << 16
ROW = Pattern(r"([^=]+)=\s*([A-Z_]+)(?:\s+(\S+))?")


@dataclass(frozen=True)
class ExpectedRow:
    """A row: its line, from 1 on, the syscall as written and as a record, and the expected answer, without data any."""

    line: int
    text: str
    call: Call
    action: str
    data: int | None

    def unmet(self, answer: Answer, table: Table) -> Block:
        """What is said where filters give another answer."""
        expected = self.action if self.data is None else str(Answer(self.action, self.data))
        line = f"line {self.line}: {output.escaped(self.text)} is answered by {answer}, not by {expected}"
        return Block(program.NEGATIVE, lambda: [line], lambda: {
            "call": self.call.as_json(table), "answer": answer.as_json(), "line": self.line,
            "expected": {"action": self.action, "data": self.data}})


def _row(line: int, text: str, numbering: Numbering) -> ExpectedRow:
    def fails(what: str) -> program.ToolError:
        return program.ToolError(f"line {line} of the rows {what}: {output.escaped(output.cut(text, 80))}")

    match = ROW.fullmatch(text)
    words = match[1].split() if match else []
    if match is None or len(words) > 7:
        raise fails("isn't a syscall, up to six arguments, `=` and an answer")
    if match[2] not in DOES:
        raise fails("has no answer of seccomp(2)")
    try:
        # a number, or for ERRNO the name of an errno
        named = NUMBERS_OF_ERRNOS.get(match[3]) if match[2] == "ERRNO" else None
        data = named if named is not None or match[3] is None else int(match[3], 0)
    except ValueError:
        raise fails("has an answer whose data isn't a number") from None
    call = numbering.query(*words).call
    if call is None:
        raise fails("has a value that isn't a number")
    return ExpectedRow(line, match[1].strip(), call, match[2], data)


def read_expectations(name: str, numbering: Numbering) -> Iterator[ExpectedRow]:
    """The rows of a file, but for comments, which begin with `#`."""
    count = 0
    for line, row in enumerate(inputs.read_whole(name, "file of rows").split(b"\n"), 1):
        text = row.decode("utf-8", "surrogateescape").strip()
        if len(row) > LONGEST_LINE:
            raise program.ToolError(f"line {line} of the rows has more than {LONGEST_LINE} bytes")
        if text and not text.startswith("#"):
            count += 1
            if count > MOST_ROWS:
                raise program.ToolError(f"the file has more than {MOST_ROWS} rows")
            yield _row(line, text, numbering)


def unmet_block(options: Any, table: Table, stack: Sequence[Filter]) -> Block:
    """The rows of a command line that filters, oldest first, answer otherwise than expected, and their number: by the
    regions of one start of scf, or where it leaves these undecided by a start for the row."""
    from ..ask import questions, regions  # pylint: disable=import-outside-toplevel

    data = [bpf_filter.data for bpf_filter in stack]
    rows = [*read_expectations(options.expect, Numbering(options, table))]
    try:
        asker, lookup = questions.Asker(data), regions.Lookup(regions.regions_of_filters(data))
    except Refusal as why:
        return replies([of_fault(why.status, why.line, stack)])
    unmet = []
    for row in rows:
        region = lookup.of(row.call)
        answer = region.answer if region is not None else asker.decided(row.call)
        if answer is None:
            raise program.InternalError(f"scf has no answer to {' '.join(row.call.words())}")
        if answer.action != row.action or row.data not in (None, answer.data):
            unmet.append(row.unmet(answer, table))
    whole, counted = replies(unmet), f"rows: {len(rows)}; answered otherwise than expected: {len(unmet)}"
    return Block(whole.status, lambda: [*whole.lines(), *output.notes([counted])],
                 lambda: {**whole.members(), "rows": len(rows)})
