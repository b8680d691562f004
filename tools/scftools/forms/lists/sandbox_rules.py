"""The rules of a sandbox's own list of syscalls, and their OCI profile, whose comments name the lines of the list."""
from __future__ import annotations

import json
from collections.abc import Callable, Iterable, Iterator, Sequence

from ...base import output, program
from ...base.values import dataclass, field
from ...model import libseccomp, tables
from ...model.answers import Answer
from ...model.architectures import NATIVE
from ...model.entries import Condition
from ...model.profiles import DerivedProfile

# The most bytes of a list, lines, letters of a line and rules; and the most names in a remark.
MOST_LIST_BYTES, MOST_LINES, MOST_LETTERS, MOST_LIST_RULES, MOST_IN_REMARK = 1 << 20, 1 << 14, 1 << 15, 1 << 14, 8
KILL, LOG = Answer("KILL_THREAD", 0), Answer("LOG", 0)
# Letters that end a line for other programs, and for the sandbox don't.
CONTROL_LETTERS = frozenset(map(chr, (*range(9), *range(11, 32), 127, 0x85, 0x2028, 0x2029)))


class ListError(program.ToolError):
    """The sandbox refuses the list, or it has a rule that no profile can state."""


class UnknownRules(ListError):
    """What the list states can't be known here."""

    def __init__(self, text: str):
        super().__init__(text, program.UNKNOWN)


def error_at(line: int, why: str, kind: type[ListError] = ListError) -> ListError:
    return kind(f"line {line}: {output.escaped(why)}")


@dataclass(frozen=True)
class Rule:
    """The answer to a syscall whose arguments meet all of some conditions, and the number of its line, 0 of no list."""

    name: str
    answer: Answer
    conditions: tuple[Condition, ...]
    line: int = 0


@dataclass
class Policy:
    """A list's rules, and the answer to all else; for these architectures, of which the native one is the first."""

    default: Answer
    rules: list[Rule] = field(default_factory=list)
    architectures: Sequence[str] = (NATIVE,)
    # what a profile can't state, and what the sandbox reads otherwise than it is written
    remarks: list[str] = field(default_factory=list)
    # whether libseccomp adds i386's rules of socketcall and ipc
    is_multiplexed: bool = False
    # those of architectures that have other rules, and the ABIs whose rules aren't known
    others: list[Policy] = field(default_factory=list)
    not_compared: tuple[str, ...] = ()

    def add(self, rule: Rule) -> None:
        if len(self.rules) == MOST_LIST_RULES:
            raise ListError(f"it has more than {MOST_LIST_RULES} rules")
        self.rules.append(rule)

    def add_known(self, rules: Iterable[Rule]) -> None:
        """Adds the rules that differ from the default; names that libseccomp lacks are left out, with a remark."""
        number_of, unknown = knows(), {}
        for rule in rules:
            if number_of(rule.name, NATIVE) is None:
                unknown[rule.name] = output.cut(rule.name, 64)
            elif rule.answer != self.default:
                self.add(rule)
        if unknown:
            self.remarks.append("left out, as by the sandbox, since libseccomp doesn't know them: "
                                + output.some([*unknown.values()], MOST_IN_REMARK))

    def _covering(self) -> dict[str, Rule]:
        """By a syscall its first rule without conditions, which for libseccomp covers all others."""
        return {rule.name: rule for rule in reversed(self.rules) if not rule.conditions}

    def notes(self) -> Iterator[str]:
        """The remarks, and which rules have no effect."""
        yield from self.remarks
        covering = self._covering()
        for rule in self.rules:
            by = covering.get(rule.name, rule)
            if rule.answer != by.answer:
                yield f"line {rule.line} has no effect on {rule.name}: line {by.line} covers it"

    def profile(self) -> dict[str, object]:
        covering = self._covering()
        entries: dict[tuple[Answer, tuple[Condition, ...]], dict[str, set[int]]] = {}
        for rule in self.rules:
            by = covering.get(rule.name, rule)
            if rule.answer == by.answer and (by is rule or not rule.conditions):
                entries.setdefault((rule.answer, rule.conditions), {}).setdefault(rule.name, set()).add(rule.line)
        made = []
        for (answer, conditions), names in entries.items():
            args = {"args": [condition.as_json() for condition in conditions]} if conditions else {}
            lines = {line for its in names.values() for line in its if line}
            made.append({"names": list(names), **answer.members(), **args,
                         **({"comment": lines_text(lines)} if lines else {})})
        top = {**self.default.default(), "architectures": list(self.architectures), "syscalls": made}
        return libseccomp.with_rules(top)[0] if self.is_multiplexed else top

    def data(self) -> DerivedProfile:
        profile = DerivedProfile(json.dumps(self.profile()).encode())
        profile.has_comments, profile.not_compared = True, self.not_compared
        profile.others = tuple(other.data() for other in self.others)
        return profile


def lines_text(numbers: Iterable[int]) -> str:
    """The numbers of lines, as "lines 3-5, 9"."""
    runs = output.runs(sorted(set(numbers)))
    texts = [f"{first}" if first == last else f"{first}-{last}" for first, last in runs]
    return f"line{'s' * (len(runs) > 1 or runs[0][0] < runs[0][1])} {', '.join(texts)}"


def lines_of(data: bytes) -> Iterator[tuple[int, str]]:
    """The lines of a list with their numbers, from 1 on."""
    if len(data) > MOST_LIST_BYTES:
        raise ListError(f"it has more than {MOST_LIST_BYTES} bytes")
    try:
        text = data.decode("utf-8")
    except UnicodeDecodeError as error:
        raise ListError("it isn't UTF-8") from error
    for number, line in enumerate(text.split("\n"), 1):
        if number > MOST_LINES:
            raise ListError(f"it has more than {MOST_LINES} lines")
        if len(line) > MOST_LETTERS:
            raise error_at(number, f"it has more than {MOST_LETTERS} letters")
        if not CONTROL_LETTERS.isdisjoint(line):
            raise error_at(number, "it has a control character")
        yield number, line


def name_of(number: int | str, at: int) -> str:
    """The name of an x86-64 syscall, whose number a line has. Raises ListError."""
    names = (tables.architecture_table(NATIVE) or tables.Table(b"")).names_of(int(number))
    if not names:
        raise error_at(at, f"no name is known of the syscall {number}, and a profile has names alone")
    return names[0]


def knows() -> Callable[[str, str], int | None]:
    """The number of a name on an architecture: below 0 if libseccomp makes no rule of it there, None if it isn't known.
    Without a libseccomp any name may be known, and the tables tell the numbers."""
    def number_in_tables(name: str, architecture: str) -> int:
        table = tables.architecture_table(architecture)
        number = None if table is None else table.number_of(name)
        return -1 if number is None or libseccomp.is_multiplexed(name, architecture) else number

    library = libseccomp.installed()
    return library.number_of if library is not None else number_in_tables
