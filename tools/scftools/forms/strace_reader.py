"""Reads logs of strace: joins what is interrupted, and knows each process's architecture and filters."""
from __future__ import annotations

import functools
import itertools
import re
from collections.abc import Iterable

from ..base import program
from ..base.inputs import LONGEST_LINE
from ..base.values import Pattern, dataclass, field
from ..model import libseccomp
from ..model.architectures import JUDGED, NATIVE
from ..model.tables import Table
from . import c_arrays
from .strace import CALL_NAME, FORKS, LEADER, RESULT, RESUMED, UNFINISHED_MARK, arguments_in, registers_in

# The most bytes of a syscall that isn't finished yet.
LONGEST_BEGINNING = 1 << 13
# The most unfinished syscalls, the most names whose numbers are kept, and the most processes.
PENDING, MOST_NAMES, PROCESSES = 10000, 1000, 1 << 20
# At most so many processes that are creating one are considered as the maker of a new one.
MAKERS = 100
# The mode in which processes of a machine's own architecture run, as strace calls it.
OWN_MODE = "64 bit"
MODE = Pattern(r"(?:strace: )?\[ Process PID=([0-9]{1,10})[^\]]{0,64} runs in ([0-9a-z ]{1,16}) mode\. \]")
MESSAGE = Pattern(r"strace: Process [0-9]+ (?:attached|detached)")
# linux/prctl.h, linux/seccomp.h
PR_SET_SECCOMP, SECCOMP_MODE_FILTER = 22, 2
SECCOMP_SET_MODE_FILTER, FLAG_TSYNC, FLAG_NEW_LISTENER = 1, 1, 8
# More filters than a thread may have (MAX_INSNS_PER_PATH in kernel/seccomp.c is 32768, and each counts as 5 or more).
MOST_FILTERS = 8192
# The most filters that are loaded in a log, and the most bytes of a line, which holds a filter of 4096 instructions.
MOST_LOADS, LONGEST_LOAD = 4096, 1 << 20
TRACED_CALLS = "seccomp,prctl,clone,clone3,fork,vfork"
PROGRAM = Pattern(r"\{len=([0-9]{1,5}), filter=(?:\[(.*)\]|(0x[0-9a-f]+|NULL))\}", re.S)
SUPERSEDED = Pattern(r"\+\+\+ superseded by execve in pid ([0-9]{1,10}) \+\+\+")


def modes_of(architecture: str) -> dict[str, str]:
    """The modes of processes, by strace's names, and their architectures, on a machine that has this one."""
    machine = next((oci for oci, row in JUDGED.items() if architecture in dict(row.modes).values()), architecture)
    return {OWN_MODE: machine, **dict(JUDGED[machine].modes)}


class Line:
    """A line of a log: its process, its number, from 1 on, that of its syscall where strace prints it, the text behind
    these, the match of the syscall's name, and whether the text may lack its end."""

    def __init__(self, who: str | None, number: int, nr: int | None, text: str, is_cut: bool = False):
        self.who, self.number, self.nr, self.text, self.is_cut = who, number, nr, text, is_cut
        self.name = CALL_NAME.match(text)

    @classmethod
    def read(cls, number: int, text: str) -> Line:
        leader = LEADER.match(text)
        return cls(leader[1] or leader[2], number, int(leader[3]) if leader[3] else None,
                   text[leader.end():].rstrip("\r"), len(text) >= LONGEST_LINE)

    @property
    def child(self) -> str | None:
        """The process or thread that a syscall has made, as its result says."""
        result = RESULT.match(self.text, self.text.rfind(")") + 1) if self.text.startswith(FORKS) else None
        return result[1] if result and result[1].isdigit() and result[1] != "0" else None


@dataclass
class Confinement:
    """The filters of processes and threads. A child has its maker's, a load with TSYNC is for all threads of the
    process, and a thread that executes a program goes on as its process (seccomp(2), execve(2))."""

    # whether the log shows a filter being loaded
    is_shown: bool = False
    # the process of each process and thread, by strace's numbers; the first one has none as long as it is alone
    process: dict[str | None, str | None] = field(default_factory=dict)
    # what they loaded, oldest first, as `filter_in` reads it; of a thread without a filter nothing
    filters: dict[str | None, tuple[bytes, ...]] = field(default_factory=dict)
    # new ones that have no line yet, the oldest first; and by makers those that had a line before strace shows which
    # number they have for their maker, which is another one in a PID namespace of its own (pid_namespaces(7))
    _expected: dict[str, None] = field(default_factory=dict)
    _early: dict[str | None, str] = field(default_factory=dict)
    # numbers without a line, in the place of which there may be other ones
    _renamed: set[str | None] = field(default_factory=set)

    def begins(self, who: str | None, makers: Iterable[str | None]) -> None:
        """A thread has a line: a new one is expected, made by one of these, or the first, which has a number now."""
        self._renamed.discard(who)
        if who in self.process:
            self._expected.pop(who or "", None)
            return
        maker = next((number for number in makers if number not in self._early), who)
        if who is not None and self._expected:
            child = next(iter(self._expected))
            self._expected.pop(child)
            self._renamed.add(child)
            self._is_as(who, child, self.process[child] if self.process[child] != child else who)
        elif who is not None and maker != who:
            self._early[maker] = who
            self._is_as(who, maker, who)
        else:
            self._is_as(who, None, None if None in self.process else who)

    def _is_as(self, who: str | None, model: str | None, process: str | None) -> None:
        """A thread is of a process, and has another one's filters."""
        self.process[who], self.filters[who] = process, self.filters.get(model, ())

    def takes(self, line: Line) -> None:
        """A thread has made a syscall."""
        who, child = line.who, line.child
        if child is not None:
            early = self._early.pop(who, None)
            if child != early and child not in self.process:
                self._is_as(child, who, child)
                if early is None:
                    self._expected[child] = None
                else:
                    self._renamed.add(child)
            for number in (child, early or child):
                # (one that had a line may have loaded filters since then, or have ended)
                if number in self.process:
                    self.process[number] = self.process.get(who, who) if "CLONE_THREAD" in line.text else number
        flags = _flags_of_load(line) if line.text.startswith(("seccomp(", "prctl(")) else None
        if flags is not None:
            filters = (*self.filters.get(who, ())[:MOST_FILTERS], self.filter_in(line))
            self.is_shown, process = True, self.process.get(who, who)
            for thread in self.process if flags & FLAG_TSYNC else [who]:
                if thread == who or self.process[thread] == process:
                    self.filters[thread] = filters

    def filter_in(self, line: Line) -> bytes:
        """The filter that a call loads; here only that there is one."""
        return line.name[1].encode()

    def ends(self, line: Line) -> None:
        """A line says that a process or thread has ended, or that a thread goes on as its process."""
        superseded = SUPERSEDED.match(line.text)
        if superseded and superseded[1] in self.process:
            self.filters[line.who] = self.filters.pop(superseded[1])
        self.end(superseded[1] if superseded else line.who)

    def end(self, who: str | None) -> None:
        """A process or thread isn't there any more."""
        self.filters.pop(who, None)
        self.process.pop(who, None)
        self._expected.pop(who or "", None)


def _flags_of_load(line: Line) -> int | None:
    """The flags with which a whole call loaded a filter; None if it loaded none. One whose end the log lacks, as a
    filter that is printed whole may be too long, is taken as a load that succeeded."""
    values = {index: values[0] for index, values in registers_in(line.text, line.name).items() if values}
    is_prctl = line.name[1] == "prctl"
    wanted = [PR_SET_SECCOMP, SECCOMP_MODE_FILTER] if is_prctl else [SECCOMP_SET_MODE_FILTER]
    if [values.get(index) for index in range(len(wanted))] != wanted:
        return None
    flags, end = 0 if is_prctl else values.get(1, 0), arguments_in(line.text, line.name.end())[1]
    result = None if end is None else RESULT.match(line.text, end)
    if result is None:
        return flags if line.is_cut else None
    return flags if result[1] == "0" or result[1].isdigit() and flags & FLAG_NEW_LISTENER else None


class Reader:
    """Reads a log, and hands its lines and syscalls to what a subclass does with them."""

    def __init__(self, tables: dict[str, Table], own_architecture: str = NATIVE):
        # the tables of architectures, and the architecture of what doesn't say it
        self.tables, self.own_architecture = tables, own_architecture
        # (what strace prints by a name it prints again and again)
        self.numbered = functools.lru_cache(MOST_NAMES)(self._numbered)
        self._pending: dict[str | None, Line] = {}
        # the pieces of a line that is broken by messages of strace, and how many more characters are kept
        self._broken: list[str] = []
        self._room, self._line = LONGEST_LINE, 0
        self.begin()

    def take_call(self, line: Line, architecture: str, is_judged: bool) -> None:
        """A syscall, of no architecture if none has its number; not judged if just others are under a filter."""

    def show_load(self) -> None:
        """The log shows the first filter being loaded: what stands before isn't made under one."""

    def count_unread(self, is_call: bool) -> None:
        """A line isn't strace's, or, if `is_call`, the end of a known syscall whose beginning the log lacks."""

    def begin(self) -> None:
        """Begins a log, with processes of its own."""
        self._architectures: dict[str | None, str] = {}
        self._alive: set[str] = set()
        # the processes that create others
        self._makers: dict[str | None, None] = {}
        # the architecture of the last process that isn't of the log's own
        self._other: str | None = None
        self.confinement = Confinement()

    def add(self, number: int, line: str) -> None:
        """Takes a line of the log."""
        self._line = number
        message = MESSAGE.search(line, max(0, len(line) - 64)) if line.endswith(("attached", "detached")) else None
        if message and message.end() == len(line):
            # it ends a line, which strace broke off there and continues in the next one
            if message.start() and self._room > 0:
                self._broken.append(line[:message.start()])
                self._room -= message.start()
            return
        if self._broken:
            line = "".join([*self._broken, line])
            self._broken, self._room = [], LONGEST_LINE
        read = Line.read(number, line)
        read.who = self._who(read.who)
        self.confinement.begins(read.who, itertools.islice(self._makers, MAKERS))
        self.take_line(read)
        if read.text.startswith("+++ "):
            self.confinement.ends(read)

    def number_of(self, architecture: str, name: str) -> int | None:
        """The number of a syscall in an architecture's table; strace prints one without a name as syscall_0x1c3."""
        if architecture not in self.tables:
            return None
        without_name = re.fullmatch("syscall_0x([1-9a-f][0-9a-f]{0,7})", name)
        return int(without_name[1], 16) if without_name else self.tables[architecture].number_of(name)

    def _numbered(self, architecture: str, name: str) -> dict[str, int]:
        """The syscalls that strace prints by a name, and their numbers: it names what socketcall and ipc do."""
        multiplexers = libseccomp.CALL_NUMBERS.items() if architecture in libseccomp.MULTIPLEXING else ()
        names = [name, *(multiplexer for multiplexer, its in multiplexers if name in its)]
        numbers = {syscall: self.number_of(architecture, syscall) for syscall in names}
        return {syscall: number for syscall, number in numbers.items() if number is not None}

    def architecture_of(self, who: str | None, name: str, nr: int | None) -> str:
        """The architecture of a process's syscall. If the syscall doesn't have the printed number there, the process is
        in another mode from now on, in which it has; if there is none, an empty name."""
        architecture = self._architectures.get(who, self.own_architecture)
        numbers = () if nr is None else self.numbered(architecture, name).values()
        if nr is None or nr in numbers:
            return architecture
        for mode in modes_of(self.own_architecture).values():
            if nr in self.numbered(mode, name).values():
                self._enter(who, mode)
                return mode
        return "" if numbers else architecture

    def _who(self, printed: str | None) -> str | None:
        """The process of a line: strace names it only if there are several. One that comes up has the architecture of
        those of which one makes it; where none is seen to, not the log's own once that of any process wasn't."""
        if printed is None:
            return next(iter(self._alive)) if len(self._alive) == 1 else None
        if printed not in self._alive:
            if max(len(self._alive), len(self._architectures)) >= PROCESSES:
                raise program.ToolError(f"the log has more than {PROCESSES} processes whose end isn't logged")
            self._alive.add(printed)
            architecture = self.own_architecture if self._other is None else self._other
            if self._other is not None and self._makers and len(self._makers) <= MAKERS:
                made = (self._architectures.get(maker, self.own_architecture) for maker in self._makers)
                architecture = next((oci for oci in made if oci != self.own_architecture), self.own_architecture)
            self._architectures.setdefault(printed, architecture)
        return printed

    def take_line(self, line: Line) -> None:
        """Takes a line that isn't broken."""
        who, text = line.who, line.text
        mode = None if line.name else MODE.match(text)
        if line.name and text.endswith(UNFINISHED_MARK):
            self._pending_ends(who)
            line.text = text.removesuffix(UNFINISHED_MARK)[:LONGEST_BEGINNING]
            self._pending[who] = line
            if text.startswith(FORKS):
                self._makers[who] = None
            if len(self._pending) > PENDING:
                self._pending_ends(next(iter(self._pending)))
        elif line.name:
            self._call(line)
        elif mode:
            for key in (mode[1], who):
                self._enter(key, modes_of(self.own_architecture).get(mode[2], ""))
        elif text.startswith("+++ "):
            self._pending_ends(who)
            if who is not None:
                self._alive.discard(who)
                self._architectures.pop(who, None)
        elif text.startswith("<... "):
            self._resume(line)
        elif text.strip() and not text.startswith(("--- ", "> ", "strace: ")):
            self.count_unread(False)

    def _enter(self, who: str | None, architecture: str) -> None:
        self._architectures[who] = architecture
        self._other = architecture if architecture != self.own_architecture else self._other

    def _pending_ends(self, who: str | None) -> None:
        """A call that isn't finished won't be."""
        if who in self._pending:
            begun = self._pending.pop(who)
            self._makers.pop(who, None)
            begun.is_cut = True
            self._call(begun)

    def _resume(self, line: Line) -> None:
        match = RESUMED.match(line.text)
        # the first process has no number as long as it is alone
        key = line.who if line.who in self._pending else None
        begun = self._pending.get(key)
        if match and begun and begun.name[1] == match[1]:
            self._makers.pop(key, None)
            del self._pending[key]
            is_cut = len(begun.text) >= LONGEST_BEGINNING
            begun.text += "" if is_cut else line.text[match.end():]
            begun.who, begun.is_cut = line.who, is_cut or line.is_cut
            self._call(begun)
        else:
            is_known = match and self.numbered(self.architecture_of(line.who, match[1], line.nr), match[1])
            self.count_unread(bool(is_known))

    def _call(self, line: Line) -> None:
        architecture = self.architecture_of(line.who, line.name[1], line.nr)
        if line.child is not None:
            # a new process begins in the architecture of the one that makes it
            self._architectures.setdefault(line.child, self._architectures.get(line.who, self.own_architecture))
        was_shown, is_under = self.confinement.is_shown, bool(self.confinement.filters.get(line.who))
        self.confinement.takes(line)
        if self.confinement.is_shown and not was_shown:
            self.show_load()
        self.take_call(line, architecture, is_under or not self.confinement.is_shown)

    def end(self) -> None:
        if self._broken:
            Reader.add(self, self._line, "")
        for who in list(self._pending):
            self._pending_ends(who)


class FilterLoads(Confinement):
    """The filters that a log shows being loaded, as programs handed them to the kernel, and the stacks that processes
    ended with. It has to show TRACED_CALLS of all processes, and whole structures (strace -f -v)."""

    def __init__(self) -> None:
        super().__init__()
        self.ended: dict[tuple[bytes, ...], list[str]] = {}
        self._loads_left = MOST_LOADS
        # calls that aren't finished yet
        self._unfinished: dict[str | None, str] = {}

    def filter_in(self, line: Line) -> bytes:
        arguments = arguments_in(line.text, line.name.end())[0]
        printed = PROGRAM.fullmatch(arguments[2].strip()) if len(arguments) > 2 else None
        if not printed or printed[2] is None:
            raise c_arrays.NotAnArray("it doesn't show the filters whole: strace does with -v")
        data = c_arrays.bytes_in(printed[2])
        if len(data) != 8 * int(printed[1]):
            raise c_arrays.NotAnArray(f"it shows {len(data) // 8} of a filter's {printed[1]} instructions")
        if not self._loads_left:
            raise c_arrays.NotAnArray(f"it has more than {MOST_LOADS} filters")
        self._loads_left -= 1
        return data

    def add(self, text: str) -> None:
        """Adds a line. Raises c_arrays.NotAnArray if a filter can't be read."""
        read = Line.read(0, text)
        who, resumed, is_end = read.who, RESUMED.match(read.text), read.text.startswith("+++ ")
        begun = self._unfinished.pop(who) if resumed and who in self._unfinished else None
        # (a load whose end the log lacks counts for nothing here)
        line = Line(who, 0, None, read.text if begun is None else begun + read.text[resumed.end():])
        if not is_end and not (line.name and line.name[1] in TRACED_CALLS.split(",")):
            return
        if self.process.keys() - {None} if who is None else None in self.process:
            raise c_arrays.NotAnArray("it doesn't number each process: strace -f -o LOG does")
        self.begins(who, (maker for maker, begun in self._unfinished.items() if begun.startswith(FORKS)))
        if is_end:
            self.ends(line)
        elif line.text.endswith(UNFINISHED_MARK):
            self._unfinished[who] = line.text.removesuffix(UNFINISHED_MARK)
        else:
            self.takes(line)

    def end(self, who: str | None) -> None:
        """A process or thread has ended, or the log has."""
        if self.filters.get(who) and who not in self._renamed:
            self.ended.setdefault(self.filters[who], []).append(who or "")
        self._unfinished.pop(who, None)
        super().end(who)


def stacks_in(lines: Iterable[str]) -> dict[tuple[bytes, ...], list[str]]:
    """Each stack of filters, oldest first, and the numbers of what ended with it; one that was alone may have none.
    Raises c_arrays.NotAnArray if a filter can't be read."""
    loads = FilterLoads()
    for line in lines:
        loads.add(line)
    for who in list(loads.process):
        loads.end(who)
    return loads.ended
