"""Logs of syscalls by any program that writes them line by line: how often each syscall stands there, by architecture
and by what is asked for of its arguments; and profiles that another tool made of such a log.

Beside strace's lines these are read: audit records of seccomp and of syscalls; what `perf trace` prints of each syscall
and, with -s, their counts; raw_syscalls:sys_enter as `perf script` and the kernel's trace_pipe print it; a map of
bpftrace by the syscall's number or the probe's name; and sysdig's. An argument is known only where it is printed by its
register: by strace, in audit records of syscalls and in sys_enter.
"""
from __future__ import annotations

import itertools
import json
import re
from collections import Counter
from collections.abc import Callable

from ..base import output, program
from ..base.inputs import LONGEST_LINE
from ..base.values import Pattern, dataclass, replace
from ..model import architectures, libseccomp
from ..model.architectures import JUDGED, NATIVE
from ..model.calls import SKIPPED
from ..model.profiles import ALLOWING, Refused
from ..model.tables import Table
from ..forms import kubernetes, strace
from ..forms.strace_reader import PENDING, Line, Reader
from . import audit_records, events

# What isn't judged, by its name in JSON: syscalls of architectures without a table, those without a result or without a
# beginning, those with other names or arguments than are kept; lines that aren't read; and syscalls that were lost.
FOREIGN, CUT, MORE, UNREAD, LOST = "foreign", "cut", "more", "lines", "lost"
# The most syscalls with other names or arguments that are kept, and how many more are counted.
MOST_REMEMBERED, MOST_NOT_REMEMBERED = 1000, 100000
# How a log of all registers (`strace -e raw=all`) begins: other logs have a text there.
RAW_BEGIN = Pattern(r"execve\(0x[0-9a-f]+, (?:0x[0-9a-f]+|0), (?:0x[0-9a-f]+|0)\) += 0\Z")
# How an object of Kubernetes begins as YAML.
YAML_BEGINNINGS = ("apiVersion:", "kind:")
NAME = "[a-z_][a-z0-9_]{0,63}"
# perf trace: `0.017 ( 0.002 ms): ls/1234 brk() = 0x1`; an interrupted one ends with `...`, then `... [continued]: `.
PERF = Pattern(rf" *(?:[0-9]+\.[0-9]+|\?) \( *(?:[0-9.]+ ms *)?\): (?:(?:.{{0,64}}?/)?([0-9]{{1,10}}) +)?"
               rf"(?:\.\.\. \[continued\]: ({NAME})\(|({NAME})\()")
COUNTED = Pattern(rf" +({NAME}) +([0-9]{{1,12}}) +[0-9]{{1,12}}(?: +[0-9]+\.[0-9]+){{4}} +[0-9.]+%")
SYS_ENTER = Pattern(r".*\bsys_enter: NR (-?[0-9]{1,10}) \(((?:[0-9a-f]{1,16}, ){5}[0-9a-f]{1,16})\)$")
MAP = Pattern(rf"@[A-Za-z0-9_]{{0,64}}\[\s{{0,64}}(?:(?:tracepoint:syscalls:)?sys_enter_({NAME})|([0-9]{{1,10}}))"
              r"\s{0,64}\]: ([0-9]{1,18})$")
# `7 05:35:00.123456789 0 ls (1234) > openat dirfd=..`, and `<` where it returns.
SYSDIG = Pattern(rf"[0-9]{{1,18}} [0-9:.]{{8,24}} [0-9]{{1,5}} .{{1,256}}? \(-?[0-9]{{1,10}}(?:\.[0-9]{{1,10}})?\) "
                 rf"([<>]) ({NAME})(?: |$)")
# The name of a syscall that sysdig has no event for.
GENERIC = Pattern(rf"\bID=[0-9]{{1,6}}\(({NAME})\)")
# Events of sysdig that are no syscalls (driver/event_table.c), and those of two syscalls or more.
NO_SYSCALLS = frozenset("switch procexit procinfo signaldeliver page_fault drop container cpu_hotplug k8s mesos tracer "
                        "notification infra scapevent pluginevent group_deleted group_added user_deleted user_added "
                        "asyncevent sysdigevent".split())
SEVERAL = {"accept": "accept4", "dup": "dup2 or dup3", "epoll_create": "epoll_create1", "epoll_wait": "epoll_pwait",
           "eventfd": "eventfd2", "inotify_init": "inotify_init1", "pipe": "pipe2", "signalfd": "signalfd4"}
# Names of sysdig's own for one syscall.
SYSDIG_NAMES = {"pread": "pread64", "prlimit": "prlimit64", "pwrite": "pwrite64", "umount": "umount2"}
# What the programs print beside syscalls.
HEADINGS = Pattern(r"#| Summary of events:$| +syscall +calls +errors| +\(msec\)|[ -]*$|"
                   r" .{1,64} \([0-9]{1,10}\), [0-9]+ events|Attach(?:ing|ed) [0-9]+ probes?")
# Syscalls that the kernel's log and perf trace say they lost.
LOSSES = Pattern(audit_records.SUPPRESSED.pattern + r"|\ALOST ([0-9]{1,18}) events!")


@dataclass
class Seen:
    """How often something stands in logs, where first (0 is no line), and with which errnos it failed, 0 for none."""

    line: int = 0
    count: int = 0
    log: str = ""
    errnos: frozenset[int] = frozenset()


class Trace(Reader):
    """The syscalls of logs by their architectures' OCI names, their names, and the arguments that are asked for."""

    def __init__(self, looked_at: Callable[[str, str], tuple[int, ...]], tables: dict[str, Table], own: str = NATIVE):
        self.looked_at = looked_at
        self.calls: dict[tuple[str, str, tuple], Seen] = {}
        self.unjudged: Counter[str] = Counter()
        # syscalls before a filter is loaded, or in a process without one, and whether a log shows one being loaded
        self.before_load, self.has_load = 0, False
        # whether a log is the kernel's, which may not say what it lost; and why the first faulty record can't be read
        self.is_of_kernel, self.fault = False, ""
        self._names: set[tuple[str, str]] = set()
        # the syscalls of perf trace that were interrupted, by thread and name
        self._interrupted: dict[tuple[str, str], None] = {}
        super().__init__(tables, own)

    def begin(self, name: str = "") -> None:
        """Begins the log of a file, with processes of its own."""
        # the line that is taken, and whether strace prints registers (-e raw=all), None before the first syscall
        self.name, self._at, self._is_raw = name, 0, None
        # what earlier logs have
        self._earlier = {call: replace(seen) for call, seen in self.calls.items()}, self.unjudged.copy()
        super().begin()

    def add(self, number: int, line: str) -> None:
        """Takes a line of a log: one that another program than strace writes, or strace's."""
        self._at, other = number, line.rstrip("\r")
        if not strace.is_own(line):
            if self._is_record(other):
                return
            for mark, pattern, take in self._FORMATS:
                match = pattern.match(other) if mark in other else None
                if match and take(self, match) is not False:
                    return
        super().add(number, line)

    def show_load(self) -> None:
        calls, unjudged = self._earlier
        for kind in (FOREIGN, CUT, MORE):
            self.before_load += self.unjudged[kind] - unjudged[kind]
            self.unjudged[kind] = unjudged[kind]
        self.before_load += sum(seen.count for seen in self.calls.values()) - sum(seen.count for seen in calls.values())
        self.calls, self.has_load = calls, True

    def count_unread(self, is_call: bool) -> None:
        self.unjudged[CUT if is_call else UNREAD] += 1

    def take_call(self, line: Line, architecture: str, is_judged: bool) -> None:
        """Counts a call; where the log doesn't say which of several it is, each of them."""
        if self._is_raw is None:
            self._is_raw = RAW_BEGIN.match(line.text) is not None
        self._at, name = line.number, line.name[1]
        numbered = self.numbered(architecture, name)
        if not is_judged:
            self.before_load += 1
        elif not (line.is_cut or len(line.text) >= LONGEST_LINE or " = " in line.text):
            self.count_unread(bool(numbered))
        elif architecture != self.own_architecture and architecture not in self.tables:
            self.unjudged[FOREIGN] += 1
        else:
            errno = strace.errno_in(line.text, line.name) or 0
            for named in [named for named in numbered if line.nr in (None, numbered[named])] or [name]:
                arguments: strace.Arguments = {}
                if self.looked_at(architecture, named):
                    # (strace prints it by its name, or as what it does)
                    arguments = strace.registers_in(line.text, line.name, architecture, bool(self._is_raw)) \
                        if named == name else {0: (libseccomp.CALL_NUMBERS[named][name],)}
                self.keep(architecture, named, arguments, errno=errno)

    def keep(self, architecture: str, name: str, arguments: strace.Arguments, count: int = 1, errno: int = 0) -> None:
        """Counts a syscall with the arguments that are asked for; the first of a name with a number is always kept."""
        call = architecture, name, tuple(arguments.get(at) for at in self.looked_at(architecture, name))
        if call not in self.calls and len(self.calls) >= MOST_REMEMBERED and (
                len(self.calls) >= 2 * MOST_REMEMBERED or call[:2] in self._names
                or self.number_of(architecture, name) is None):
            self.unjudged[MORE] += count
            return
        self._names.add(call[:2])
        seen = self.calls.setdefault(call, Seen())
        if not seen.count:
            seen.line, seen.log = self._at, self.name
        seen.count += count
        seen.errnos |= {errno}

    def _by_name(self, name: str, count: int = 1) -> None:
        """Counts a syscall by its name, in the log's own architecture."""
        self.keep(self.own_architecture, name, {}, count)

    def _by_number(self, nr: int, arguments: dict[int, int], count: int = 1, architecture: int | None = None) -> None:
        """Counts a syscall by its number in a record, and that of its architecture, by default the log's own."""
        audit_value = JUDGED[self.own_architecture].number if architecture is None else architecture
        of = architectures.architecture_of_record(audit_value, nr)
        if nr == SKIPPED:
            self.unjudged[UNREAD] += count
        elif of is None or of not in self.tables:
            self.unjudged[FOREIGN] += count
        else:
            nr -= JUDGED[of].first
            names = self.tables[of].names_of(nr)
            values = {at: (value & JUDGED[of].greatest,) for at, value in arguments.items()}
            self.keep(of, names[0] if names else f"syscall_{nr:#x}", values, count)

    def _is_record(self, line: str) -> bool:
        """Takes an audit record, of whatever type; whether the line is one."""
        kind = audit_records.kind_of(line)
        if kind is None:
            return audit_records.OTHER.search(line) is not None
        # (there a type has its number, and in auditd's or journald's own log its name)
        self.is_of_kernel = self.is_of_kernel or line[:kind[1] + 1].endswith(("type=1326 ", "type=1300 "))
        try:
            if kind[0] in audit_records.SYSCALL_KINDS:
                nr, architecture, values = audit_records.syscall_in(line, kind[1], self.tables)
            else:
                record = audit_records.record_in(line, kind[1], self.tables)
                nr, architecture, values = record.call.number, record.call.architecture, {}
            self._by_number(nr, values, architecture=architecture)
        except audit_records.Malformed as why:
            self.fault = self.fault or f"line {self._at} can't be read: {why}"
            self.unjudged[UNREAD] += 1
        return True

    def _take_perf(self, match: re.Match[str]) -> None:
        thread, continued, begun = match.groups()
        if continued and (thread, continued) in self._interrupted:
            del self._interrupted[thread, continued]
            return
        if begun and match.string.endswith("..."):
            self._interrupted[thread, begun] = None
            events.forget_beyond(self._interrupted, PENDING)
        self._by_name(continued or begun)

    def _take_map(self, match: re.Match[str]) -> bool:
        name, nr, count = match.groups()
        if name:
            self._by_name(name, int(count))
        elif int(nr) <= SKIPPED:
            self._by_number(int(nr), {}, int(count))
        return bool(name) or int(nr) <= SKIPPED

    def _take_sys_enter(self, match: re.Match[str]) -> None:
        values = [int(text, 16) for text in match[2].split(", ")]
        self._by_number(int(match[1]) % (1 << 32), dict(enumerate(values)))

    def _take_sysdig(self, match: re.Match[str]) -> None:
        name, generic = match[2], GENERIC.search(match.string, match.end())
        if match[1] == "<" or name in NO_SYSCALLS:
            return
        if name == "syscall" and generic is None:
            self.unjudged[UNREAD] += 1
        elif name == "syscall":
            self._by_name(generic[1])
        else:
            self._by_name(f"{name} or {SEVERAL[name]}" if name in SEVERAL else SYSDIG_NAMES.get(name, name))

    # What other programs write: a mark in each such line, its pattern, and what takes it, unless that returns False.
    _FORMATS = (("", LOSSES, lambda self, match: self.unjudged.update({LOST: int(match[1] or match[2])})),
                ("): ", PERF, _take_perf), ("@", MAP, _take_map), ("sys_enter: NR ", SYS_ENTER, _take_sys_enter),
                (") ", SYSDIG, _take_sysdig), ("", HEADINGS, lambda *_: None),
                ("", COUNTED, lambda self, match: self._by_name(match[1], int(match[2]))))

    def add_profile(self, text: str) -> None:
        """Takes a profile that was made of a log: each syscall that it allows, with arguments that aren't known."""
        try:
            spec = kubernetes.spec_of(text.encode("utf-8", "surrogateescape"))
            entries = json.loads(text if spec is None else spec)["syscalls"]
            names = [name for entry in entries if entry["action"] in ALLOWING for name in entry["names"]]
        except Refused as why:
            raise program.ToolError(f"the log '{output.escaped(self.name)}': {why}") from why
        except (ValueError, LookupError, TypeError, RecursionError) as error:
            raise program.ToolError(f"the log '{output.escaped(self.name)}' is a profile that can't be read") from error
        self._at = 1
        for name in names:
            if isinstance(name, str):
                self._by_name(name)

    def read(self, name: str) -> None:
        """Reads a log (`-` is standard input) with the requested arguments, or a profile that was made of one."""
        self.begin(name)
        numbered = enumerate(strace.log_lines(name), 1)
        number, line = next(((number, line) for number, line in numbered if line.strip()), (1, ""))
        if line.lstrip()[:1] == "{" or line.startswith(YAML_BEGINNINGS) or line.rstrip() == "---":
            self.add_profile("\n".join([line, *(line for _, line in numbered)]))
            return
        for number, line in itertools.chain([(number, line)], numbered):
            self.add(number, line)
            if self.unjudged[MORE] > MOST_NOT_REMEMBERED:
                raise program.ToolError(f"the log has more than {MOST_REMEMBERED + MOST_NOT_REMEMBERED} syscalls with "
                                        "other names or arguments: log fewer syscalls by strace -e trace=..")
        self.end()
