"""Events: syscalls that a filter denied, delegated or logged, by a log, a core or strace; and what failed in a log."""
from __future__ import annotations

import functools
import itertools
import re
from collections.abc import Iterable, Iterator, Sequence

from ..base.values import Any, Pattern, dataclass, field, replace
from ..model import tables
from ..model.answers import ACTIONS, DOES, MAX_ERRNO, NUMBERS_OF_ERRNOS, Answer
from ..model.architectures import JUDGED
from ..model.calls import Call
from ..model.tables import Table
from ..forms import strace
from ..forms.strace_reader import LONGEST_BEGINNING, PENDING, SUPERSEDED, Line, Reader
from . import audit_records
from .audit_records import Malformed

# The most distinct events and failed syscalls that are kept of a text, failed ones of a process until it ends, ways
# that arguments with unknown bits may be, and audit records whose stamps are remembered.
EVENTS, FAILURES, OF_PROCESS, WAYS, STAMPS = 200, 1000, 100, 8, 1 << 16
RECORD, CORE, STRACE = "the record", "the core", "strace's line"
# What may end a process with a core, and with SIGSYS that strace doesn't show as a signal first (`__seccomp_filter` of
# kernel/seccomp.c: TRAP sends SIGSYS, and the others end the process themselves).
KILLS = ("KILL_THREAD", "KILL_PROCESS", "UNNAMED")
# What may let a syscall fail.
FAILS = ("ERRNO", "TRACE", "USER_NOTIF")
SIGSYS_LINE = Pattern(r"--- SIGSYS \{([^}]{0,1000})\} ---")
MEMBER = Pattern(r"\b(si_\w+)=(\w+)")
KILLED = Pattern(r"\+\+\+ killed by SIGSYS")
# How a process ends that failed: by a signal, or with another status than 0.
ENDED_BADLY = Pattern(r"\+\+\+ (?:killed by|exited with [1-9])")


@dataclass(frozen=True)
class Outcome:
    """What is known of an answer: the actions that it may have, an unnamed one's high half, and its data or errno."""

    actions: tuple[str, ...]
    half: int | None = None
    data: int | None = None
    is_result: bool = False

    def has(self, answer: Answer) -> bool:
        """Whether this may be the answer."""
        if answer.action not in self.actions:
            return False
        if answer.action == "UNNAMED":
            return self.half in (None, answer.data >> 16) and self.data in (None, answer.data & 0xFFFF)
        if self.is_result:
            # what a tracer or a supervisor answers isn't known
            return answer.action != "ERRNO" or min(answer.data, MAX_ERRNO) == self.data
        return self.data in (None, answer.data)

    def describe(self) -> str:
        """The actions, and what the kernel does with the syscall."""
        if self.half is not None:
            return f"UNNAMED {self.half << 16:#010x}: {DOES['UNNAMED']}"
        if len(self.actions) > 1:
            return f"{', '.join(self.actions[:-1])} or {self.actions[-1]}"
        action, = self.actions
        return f"{action}: {DOES[action]}" if self.data is None else Answer(action, self.data).describe()


@dataclass(frozen=True)
class Event:
    """A syscall, and what is known of the answer to it: what tells of it, the process, and the values that each of the
    six arguments may have; None if they aren't known, which the call has as 0."""

    source: str
    call: Call
    outcome: Outcome
    arguments: tuple[tuple[int, ...] | None, ...] = (None,) * 6
    process: int | None = None
    name: str = ""

    @functools.cached_property
    def key(self) -> tuple[object, ...]:
        """What events have in common that are reported together."""
        return (self.source, self.call.number, self.call.architecture, self.outcome, self.arguments, self.name)

    @property
    def unknown(self) -> list[int]:
        """The arguments of which no value is known."""
        return [index for index, values in enumerate(self.arguments) if values is None]

    def ways(self) -> Iterator[dict[int, int]]:
        """The values of the known arguments, in each way that they may be; at most WAYS of them."""
        return itertools.islice(ways_of(enumerate(self.arguments)), WAYS)

    def with_values(self, values: dict[int, int]) -> Call:
        """The call with these arguments, and 0 as the others."""
        return replace(self.call, arguments=tuple(values.get(index, 0) for index in range(6)))

    def who(self) -> str:
        """The process, as far as it is known."""
        if self.process is None:
            return self.name or "a process"
        return f"process {self.process}" + (f" ({self.name})" if self.name else "")


class Found:
    """An event, or several that are reported together: one of them, what all have in common, how many they are, where
    the last one stands among all, and of denials whether a process that ended with a failure had none after them."""

    def __init__(self, event: Event):
        self.event = self.common = event
        self.count = self.last = 0
        self.has_ended = False

    def add(self, event: Event, last: int, count: int = 1) -> None:
        """Takes so many more, of which the last one stands there."""
        self.count += count
        if event.arguments != self.common.arguments:
            pairs = zip(self.common.arguments, event.arguments)
            self.common = replace(self.common, arguments=tuple(old if old == new else None for old, new in pairs))
        if last > self.last:
            self.event, self.last = event, last


@dataclass
class Failures:
    """The failed syscalls of a strace log that are behind the loading of a filter, if the log shows one."""

    of: dict[tuple[object, ...], Found] = field(default_factory=dict)
    # those of each process that ended with a failure, the last one first
    of_ended: list[list[tuple[object, ...]]] = field(default_factory=list)
    # how many there are, how many stand before the loading of a filter, and how many are of more kinds than are kept
    count: int = 0
    before_load: int = 0
    beyond: int = 0

    def add(self, event: Event) -> None:
        self.count += 1
        if event.key in self.of or len(self.of) < FAILURES:
            self.of.setdefault(event.key, Found(event)).add(event, self.count)
        else:
            self.beyond += 1


@dataclass
class EventLog:
    """A text's events, faulty records, how many records the kernel left out, and what failed in a strace log."""

    events: dict[tuple[object, ...], Found] = field(default_factory=dict)
    failures: Failures = field(default_factory=Failures)
    # the last syscall of a strace log, if it failed and may be under a filter
    last_failure: Event | None = None
    # each with its line, from 1 on
    faults: list[tuple[int, str]] = field(default_factory=list)
    suppressed: int = 0
    # what coredumpctl lists
    cores: audit_records.Cores = field(default_factory=audit_records.Cores)
    # events beyond the most that are kept
    beyond: int = 0

    def add(self, event: Event) -> None:
        if event.key in self.events or len(self.events) < EVENTS:
            self.events.setdefault(event.key, Found(event)).count += 1
        else:
            self.beyond += 1


def forget_beyond(every: dict[Any, Any], most: int) -> None:
    """Forgets the oldest of some things where there is one too many."""
    if len(every) > most:
        del every[next(iter(every))]


def ways_of(arguments: Iterable[tuple[int, Sequence[int] | None]]) -> Iterator[dict[int, int]]:
    """The values of known arguments, in each way that they may be; None of one that isn't known."""
    pairs = [(index, values) for index, values in arguments if values is not None]
    for values in itertools.product(*(values for _, values in pairs)):
        yield dict(zip((index for index, _ in pairs), values))


@dataclass(frozen=True)
class _Printed:
    """A syscall as strace prints it: its process, the text, its number in a table, and the table's OCI architecture."""

    who: str | None
    text: str
    number: int
    architecture: str

    @functools.cached_property
    def name(self) -> re.Match[str]:
        return strace.CALL_NAME.match(self.text)

    @property
    def record(self) -> tuple[int, int]:
        """The numbers that a record of it has, the syscall's and the architecture's."""
        return JUDGED[self.architecture].first + self.number, JUDGED[self.architecture].number

    def is_its_number(self) -> bool:
        """Whether it returned its own number, as the kernel shows one that it kills for."""
        end = strace.arguments_in(self.text, self.name.end())[1]
        result = None if end is None else strace.RESULT.match(self.text, end)
        return result is not None and result[1] in (str(self.record[0]), hex(self.record[0]))

    def event(self, outcome: Outcome, pointer: int | None = None) -> Event:
        shown = strace.registers_in(self.text, self.name, self.architecture)
        return Event(STRACE, Call(*self.record, pointer), outcome, tuple(shown.get(at) for at in range(6)),
                     int(self.who) if self.who else None)

    @functools.cached_property
    def failure(self) -> Event | None:
        """Its failure, if it failed: by a filter, a supervisor or tracer, or the kernel itself."""
        errno = strace.errno_in(self.text, self.name)
        return None if errno is None else self.event(Outcome(FAILS, data=errno, is_result=True))


# (programs repeat some thousands of times, and then each is read once)
_printed = functools.lru_cache(EVENTS)(_Printed)


def _of_signal(who: str | None, members: str, call: _Printed | None, tables_of: dict[str, Table]) -> Event:
    """SIGSYS as strace shows it: by TRAP, with the data as si_errno."""
    values = dict(MEMBER.findall(members))
    if values.get("si_code") != "SYS_SECCOMP":
        raise Malformed("SIGSYS isn't a filter's: its si_code isn't SYS_SECCOMP")
    name, code = values.get("si_syscall", "").removeprefix("__NR_"), values.get("si_errno", "0")
    architecture = audit_records.architecture_of(values.get("si_arch"))
    number = int(name, 0) if re.fullmatch("0x[0-9a-f]{1,8}|0|[1-9][0-9]{0,8}", name) else \
        audit_records.named_number(name, architecture, tables_of)
    if number is None:
        raise Malformed(f"si_syscall={name[:64]}: the table has no such name")
    data = int(code, 0) if re.fullmatch("0x[0-9a-f]{1,4}|0|[1-9][0-9]{0,4}", code) else NUMBERS_OF_ERRNOS.get(code)
    address = re.fullmatch("0x([0-9a-f]{1,16})", values.get("si_call_addr", ""))
    outcome, pointer = Outcome(("TRAP",), data=data), int(address[1], 16) if address else None
    if call is not None and call.record == (number, architecture):
        return call.event(outcome, pointer)
    return Event(STRACE, Call(number, architecture, pointer), outcome, process=int(who) if who else None)


class _LogReader(Reader):
    """What a log of any kind has. Of strace's the last syscall of each process is kept, and what SIGSYS ended."""

    def __init__(self, lines: Iterable[str], table: Table):
        super().__init__(tables.architecture_tables(JUDGED, table).of)
        self.log, self._lines = EventLog(), iter(lines)
        # the stamps of records, and how many without and with one have everything else in common
        self._stamps: dict[str, None] = {}
        self._counts: dict[audit_records.SeccompRecord, list[int]] = {}
        # the last syscall of each process, and those that SIGSYS ended
        self._last: dict[str | None, _Printed] = {}
        self._killed: list[_Printed] = []
        # each SIGSYS: the process, the signal's members, and the syscall before it
        self._signals: list[tuple[str | None, str, _Printed | None]] = []
        # of each process what failed, the last at the end
        self._failed: dict[str | None, dict[tuple[object, ...], None]] = {}

    def take_call(self, line: Line, architecture: str, is_judged: bool) -> None:
        who, nr = line.who, self.number_of(architecture, line.name[1])
        self._last.pop(who, None)
        # (what socketcall and ipc do strace prints by its own name)
        if nr is None or line.nr not in (None, nr):
            return
        self._last[who] = _printed(who, line.text[:LONGEST_BEGINNING], nr, architecture)
        forget_beyond(self._last, PENDING)
        event = self.log.last_failure = self._last[who].failure if is_judged else None
        if event is not None:
            self.log.failures.add(event)
            failed = self._failed.setdefault(self.confinement.process.get(who, who), {})
            failed.pop(event.key, None)
            failed[event.key] = None
            forget_beyond(failed, OF_PROCESS)
            forget_beyond(self._failed, PENDING)
        elif self._last[who].failure is not None:
            self.log.failures.before_load += 1

    def show_load(self) -> None:
        """The first filter is loaded: what failed before isn't its answer."""
        failures, self._failed = self.log.failures, {}
        self.log.failures = Failures(before_load=failures.before_load + failures.count)

    def take_line(self, line: Line) -> None:
        super().take_line(line)
        who, signal = line.who, SIGSYS_LINE.match(line.text)
        if signal and len(self._signals) < EVENTS:
            self._signals.append((who, signal[1], self._last.pop(who, None)))
        elif line.text.startswith("+++ "):
            if SUPERSEDED.match(line.text) is None:
                process, is_bad = self.confinement.process.get(who, who), ENDED_BADLY.match(line.text) is not None
                failed = self._failed.pop(process, None) if is_bad or process == who else None
                if failed and is_bad and len(self.log.failures.of_ended) < EVENTS:
                    self.log.failures.of_ended.append([*reversed(failed)])
            ended = self._last.pop(who, None)
            if ended and KILLED.match(line.text) and len(self._killed) < EVENTS:
                self._killed.append(ended)

    def _take(self, number: int, line: str) -> None:
        is_entry = line.startswith('{"')
        if line == "[" or line.startswith("[{"):
            self.log.cores.take_list(line, self._lines)
        elif not self._is_record(audit_records.message_in(line) if is_entry else line) and not is_entry and \
                not self.log.cores.take(line):
            self.add(number, line)

    def _is_record(self, line: str) -> bool:
        """Takes what the kernel writes; whether it is that."""
        kind = audit_records.kind_of(line)
        suppressed = audit_records.SUPPRESSED.search(line) if "callbacks suppressed" in line else None
        # a text that a program writes may look like a record
        if (kind is None and suppressed is None) or strace.is_own(line):
            return False
        if suppressed:
            self.log.suppressed += int(suppressed[1])
        elif kind is not None and kind[0] in audit_records.SECCOMP_KINDS:
            record = audit_records.record_in(line, kind[1], self.tables)
            if self._is_new(record):
                actions = tuple(ACTIONS.get(half, "UNNAMED") for half in record.halves)
                outcome = Outcome(actions, record.halves[0] if actions == ("UNNAMED",) else None)
                self.log.add(Event(RECORD, record.call, outcome, process=record.process, name=record.name))
        return True

    def _is_new(self, record: audit_records.SeccompRecord) -> bool:
        """Whether a record isn't one that came before. journald has one twice if auditd doesn't run: from the kernel's
        log, and from audit, which journalctl prints without the record's stamp."""
        if record.stamp in self._stamps:
            return False
        has_stamp = record.stamp is not None
        self._stamps.update({record.stamp: None} if has_stamp else {})
        counts = self._counts.setdefault(replace(record, stamp=None), [0, 0])
        counts[has_stamp] += 1
        forget_beyond(self._stamps, STAMPS)
        forget_beyond(self._counts, PENDING)
        return counts[has_stamp] > counts[not has_stamp]

    def read(self) -> EventLog:
        for number, line in enumerate(self._lines, 1):
            try:
                self._take(number, line)
            except Malformed as why:
                self.log.faults += [(number, str(why))] * (len(self.log.faults) < EVENTS)
        self.end()
        for who, members, call in self._signals:
            try:
                self.log.add(_of_signal(who, members, call, self.tables))
            except Malformed as why:
                self.log.faults.append((0, str(why)))
        numbered = [printed for printed in self._killed if printed.is_its_number()]
        if not self._signals or numbered:
            # of a process with several threads all are killed, and the syscalls of the others don't end
            for printed in numbered or self._killed:
                self.log.add(printed.event(Outcome(KILLS if numbered else ("KILL_THREAD",))))
        return self.log


def read_events(lines: Iterable[str], table: Table) -> EventLog:
    """The events in the lines of a log of any kind."""
    return _LogReader(lines, table).read()
