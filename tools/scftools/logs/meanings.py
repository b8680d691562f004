"""The meaning of a line that scf or a tool printed, whatever a log puts before it."""
from __future__ import annotations

import re
from collections.abc import Iterator

from ..base.values import Pattern
from ..model import tables
from ..model.answers import ALLOWED, DELEGATED, DENIED, DEPENDS, DOES, Answer
from ..model.architectures import NATIVE
from ..model.calls import Call
from ..model.constants import number_in
from ..model.tables import Table, Tables
from ..ask import explanation, verdicts
from ..ask.client import FAULT, Fault
from ..lint import findings

RANKS = "denied < delegated < allowed"
# What verdicts mean: those of comparisons, and of `audit` and `verify`.
VERDICTS = {
    "same": "every syscall that was compared gets the same answer from both sides, action and data: status 0",
    "differs": "some syscall gets another answer; the next lines are such a call, and both answers to it: status 1",
    "no more": f"with --no-more: nowhere are the filters more permissive ({RANKS}) than the other side: status 0",
    "more": f"with --no-more: to some call the filters are more permissive ({RANKS}) than the other side, as the next "
            "lines show: status 1",
    "no less": f"with --no-less: nowhere are the filters stricter ({RANKS}) than the other side: status 0",
    "less": f"with --no-less: to some call the filters are stricter ({RANKS}) than the other side, as the next lines "
            "show: status 1",
    "same disposition": "with --disposition: both sides deny, delegate and allow the same syscalls: status 0",
    "undetermined": "it hangs on a syscall of an architecture that the profile names, and of which scf has no table: "
                    "status 4",
    "undecided": "scf can't decide it: status 4; the output says why",
    ALLOWED: "the syscall is executed: ALLOW or LOG answers it",
    DELEGATED: "a supervisor or a tracer handles the syscall: USER_NOTIF or TRACE answers it",
    DENIED: "the syscall isn't executed: ERRNO, TRAP, KILL_THREAD or KILL_PROCESS answers it",
    DEPENDS: "its arguments decide whether the syscall is allowed, delegated or denied",
    "not allowed": "of needs: the profile denies or delegates the syscall, as it was made: status 1",
    "unstated": "of oci-hook: the configuration has no profile, so that it asks for no filter: status 1",
    "unconfined": "the process has no filter, so it may make every syscall: status 1",
    "unconfined by configuration": "a process of the container or unit has no filter, since its configuration asks for "
                                   "none: status 1",
    "unconfined though configured": "a process has no filter, though its configuration has a profile: status 1",
    "strict": "the process is in seccomp's strict mode: read, write, _exit and sigreturn alone, which no profile says",
    "weaker": "of audit: to some call the filters are more permissive than configured: status 1",
    "stricter": "of audit: to some call the filters are stricter than configured, and nowhere more permissive",
    "otherwise": "nothing is more or less permissive, but some answers differ, such as the errno",
    "as configured": "of audit: the filters answer every syscall as the configuration says",
    "not known": "of audit: it can't be known; the line says why: status 4"}
# What gives a profile's answer, where no entry does.
REASONS = {"default": "the profile's default gives it: no entry fits",
           "foreign": "by no entry: the syscall is of an ABI that the profile doesn't name",
           "stub": "by runc's ENOSYS for numbers above all that the profile names: no entry gives it"}
# What a line of --calls says of its syscall.
OF_A_SYSCALL = {
    "differs": "some call gets another answer", "more": "to some call the filters are more permissive",
    "less": "to some call the filters are stricter", "undecided": "scf couldn't decide whether each call gets the same",
    "unfinished": "the comparison took as many steps as its limit allows"}
# What exit statuses mean.
STATUSES = {
    0: "success: the verdict holds, the filter is accepted, an answer is printed",
    1: "the answer is no: something differs, is found or isn't confined; the output says what",
    2: "an input can't be read, is refused or is misspelt, or the output can't be written: what was printed says which",
    3: "of scf core, and of a tool that is given no file: an input can't be read, is cut or too long, a bundle is "
       "malformed or has other parts, the output can't be written, or memory ran out",
    4: "not known: `undecided`, `unfinished` or `undetermined`; the output says why",
    70: "an internal error: scf or a tool itself failed, and nothing is concluded; please report it",
    125: "the program isn't built, or a tool lacks Python 3.9 or modules of its standard library",
    126: "the shell found the command, and couldn't execute it: it isn't scf's status",
    127: "the shell found no such command: it isn't scf's status"}
COLOUR = Pattern(r"\x1b\[[0-9;]*m")
# What a log may put before a line: anything up to a mark or a time.
LOG_PREFIX = Pattern(r".*?(?:[]:|>]|[0-9]Z|\d\d:\d\d:\d\d\S*)\s+")
ANSWER_LINE = Pattern(r"(?:(?:filter |profile |beside )?([A-Z_]+ (?:0x[0-9a-f]+|[0-9]+))(?: |\Z))?"
                      r"(steps [0-9]+|entry [0-9]+|default|foreign|stub)?")
STATUS = Pattern(r"(?:.*\b)?(?:exit(?:ed)?|status|code)\b\D*([0-9]{1,3})\D*", re.I)


def _of_verdict(line: str) -> Iterator[str]:
    word = re.sub(r"(undetermined): .*", r"\1", line)
    if re.fullmatch("undecided at [0-9]+|unfinished", line):
        yield from explanation.what_a_row_says(line)
    elif word in VERDICTS:
        yield VERDICTS[word]
    elif word in DOES:
        yield f"{word}: {DOES[word]}"
    elif re.fullmatch("accepted [0-9]+", line):
        yield f"the kernel accepts this filter; {line.split()[1]} is the number of its instructions"


def _of_answer(line: str) -> Iterator[str]:
    match = ANSWER_LINE.fullmatch(line)
    answer = Answer.read(match[1]) if match and match[1] else None
    if match is None or match[1] and answer is None:
        return
    if answer is not None:
        yield answer.describe()
    word, _, number = (match[2] or "").partition(" ")
    if word == "steps":
        yield f"the filter ran {number} instruction{'s' * (number != '1')}"
    elif word == "entry":
        yield f"entry {number} of the profile's syscalls gives it, counted from 0"
    elif word:
        yield REASONS[word]


def _of_call(line: str, table: Table) -> Iterator[str]:
    match = re.fullmatch(r"call nr (\S+) arch (\S+) ip (\S+) args((?: \S+){6})", line)
    numbers = list(map(number_in, (*match.groups()[:3], *match[4].split()))) if match else [None]
    if None not in numbers:
        yield from explanation.explain_call(Call(*numbers[:3], tuple(numbers[3:])), table)
    named = verdicts.NAMED_CALL_LINE.fullmatch(line)
    if named:
        yield f"of syscall {named[1]}, {named[2]}: {OF_A_SYSCALL[named[3]]}"
        for side, text in re.findall(r"(filter|profile|beside) ([A-Z_]+ \w+)", named[4]):
            answer = Answer.read(text)
            if answer is not None:
                yield f"the {side} answers {answer.describe()}"


def _of_left_out(line: str, table: Table) -> Iterator[str]:
    word, _, name = line.partition(" ")
    if word == "skipped" and name:
        classified = tables.classify([name], Tables({NATIVE: table}))
        yield "the profile names a syscall that no table has: its entries are taken without it"
        yield from (f"no known syscall has this name{f'; the nearest is {near}' if near else ''}"
                    for _, near in classified.unknown)
    elif word == "other" and re.fullmatch("[A-Z0-9_]+", name):
        yield "the profile also names this architecture, whose syscalls weren't compared"


def _of_finding(line: str) -> Iterator[str]:
    grade, _, finding = line.partition(" ")
    what = findings.meanings().get((finding if grade in findings.GRADES else line).partition(":")[0])
    if what is not None:
        yield f"a finding of lint: {what}"


def _of_status(line: str) -> Iterator[str]:
    match = re.fullmatch("[0-9]{1,3}", line) or STATUS.fullmatch(line)
    number = int(match[match.lastindex or 0]) if match else None
    if number in STATUSES:
        yield STATUSES[number]
    elif number is not None and 128 < number < 193:
        yield f"signal {number - 128} ended it"


def meaning_of(line: str, table: Table) -> list[str]:
    """The sentences on a line; none if nothing is known of it."""
    line = COLOUR.sub("", line).strip().strip("`'\"")
    match = FAULT.search(line)
    fault = Fault.read(match[0]) if match else None
    is_known = fault is not None and explanation.has_row(fault.line)
    sentences = list(explanation.explain_fault(fault, table)) if is_known else []
    while not sentences and line:
        ways = (_of_verdict(line), _of_answer(line), _of_call(line, table), _of_left_out(line, table),
                _of_finding(line), _of_status(line))
        sentences = next(filter(None, map(list, ways)), [])
        before = LOG_PREFIX.match(line)
        line = line[before.end():] if before else ""
    return sentences
