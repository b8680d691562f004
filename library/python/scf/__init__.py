"""Checks, runs, compiles and compares seccomp filters in this process, by libscf.

    >>> import scf
    >>> profile = scf.Profile(open("config.json", "rb").read(), scf.Reading.RUNC, skip_unlisted=True)
    >>> filter = scf.Filters([open("filter.bpf", "rb").read()])
    >>> scf.is_proved(filter, profile, scf.own_tables())
    >>> scf.compare(filter, profile, scf.own_tables(), scf.EACH_ARCHITECTURE).report

Filters, profiles and tables are bytes, or any other buffer: bytearray, memoryview, mmap. Each function raises Refused,
which is a ValueError, if an input isn't accepted, TypeError if an argument has another type, ValueError if a number is
out of range, and MemoryError if memory runs out. All may be called in any number of threads: none holds Python's lock
while the library works. Needs libscf.so.0; the environment's LIBSCF may name the file.
"""
from __future__ import annotations

import ctypes
import operator
import os
from collections.abc import Callable, Sequence

TYPE_CHECKING = False
if TYPE_CHECKING:
    from enum import IntEnum
    from mmap import mmap
    from typing import Any, NamedTuple, Union

    Buffer = Union[bytes, bytearray, memoryview, mmap]
else:
    # The modules enum and typing take longer to import than all that follows. These are their classes, as far as they
    # serve here; and both unions are made where they are asked for.
    class _Members(type):
        """The class of enums: each number in the body of one is a member of it."""

        def __init__(cls, name, bases, body):
            super().__init__(name, bases, body)
            cls.__members__ = {}
            for name, number in body.items():
                if isinstance(number, int) and not name.startswith("_"):
                    cls.__members__[name] = member = int.__new__(cls, number)
                    member.name = name
                    setattr(cls, name, member)
            cls._value2member_map_ = {int(member): member for member in cls}

        def __call__(cls, number):
            if number not in cls._value2member_map_:
                raise ValueError(f"{number!r} is not a valid {cls.__name__}")
            return cls._value2member_map_[number]

        def __getitem__(cls, name):
            return cls.__members__[name]

        def __iter__(cls):
            return iter(cls.__members__.values())

        def __len__(cls):
            return len(cls.__members__)

        def __contains__(cls, number):
            return number in cls._value2member_map_

    class IntEnum(int, metaclass=_Members):
        """As enum.IntEnum: numbers with names, of which there is one each."""

        value = property(int)
        __str__ = int.__repr__

        def __repr__(self):
            return f"<{type(self).__name__}.{self.name}: {int(self)}>"

        def __reduce_ex__(self, protocol):
            return type(self), (int(self),)

    class NamedTuple(tuple):
        """As typing.NamedTuple: tuples whose members have names, which the annotations of a subclass are."""

        __slots__ = ()
        _fields, _field_defaults = (), {}

        def __init_subclass__(cls):
            if "__new__" not in cls.__dict__:
                cls._fields = cls.__match_args__ = tuple(cls.__annotations__)
                cls._field_defaults = {name: cls.__dict__[name] for name in cls._fields if name in cls.__dict__}
                for index, name in enumerate(cls._fields):
                    setattr(cls, name, property(operator.itemgetter(index)))

        def __new__(cls, *given, **named):
            names = cls._fields
            if named or len(given) != len(names):
                members = {**cls._field_defaults, **named, **dict(zip(names, given))}
                if len(given) > len(names) or named.keys() & names[:len(given)] or members.keys() != {*names}:
                    raise TypeError(f"{cls.__name__} takes {', '.join(names)}")
                given = map(members.__getitem__, names)
            return tuple.__new__(cls, given)

        @classmethod
        def _make(cls, members):
            return cls(*members)

        def _asdict(self):
            return dict(zip(self._fields, self))

        def _replace(self, **named):
            return type(self)(**{**self._asdict(), **named})

        def __repr__(self):
            members = (f"{name}={member!r}" for name, member in self._asdict().items())
            return f"{type(self).__name__}({', '.join(members)})"

        def __getnewargs__(self):
            return tuple(self)

    def __getattr__(name):
        unions = {"Buffer": (bytes, bytearray, memoryview, "mmap"), "Side": (Profile, Filters)}
        if name not in unions:
            raise AttributeError(f"module {__name__!r} has no attribute {name!r}")
        from typing import Union
        return Union[unions[name]]

__all__ = ["ALL", "Action", "Answer", "Architecture", "Buffer", "Call", "Comparison", "Decision", "EACH_ARCHITECTURE",
           "EACH_CALL", "Fact", "Filters", "Finding", "KEEP_PRIVILEGES", "Kind", "LIMIT", "LeftOut", "Listing",
           "NO_ENTRY", "Profile", "ProfileAnswer", "Reading", "Reason", "RecordsFinding", "Refused", "Region",
           "Relation", "Run", "Scope", "Side", "Source", "Table", "Trace", "Verdict", "X86_64_ABIS", "answers", "ask",
           "assemble", "check", "compare", "compile", "decide", "is_proved", "listing", "load", "own_tables", "run",
           "table", "trace", "version"]

LIMIT = 1_000_000  # the most steps of a comparison that scf takes without --limit
KEEP_PRIVILEGES = 0x80000000


class Relation(IntEnum):
    """What is to hold of the answers of both sides. Denied < delegated < allowed."""

    SAME, NO_MORE, NO_LESS, SAME_DISPOSITION = range(4)


class Verdict(IntEnum):
    """What a comparison comes to: HOLDS is proved of every call, FAILS is shown by one."""

    HOLDS, FAILS, UNDECIDED, UNFINISHED = range(1, 5)


class Reason(IntEnum):
    """Why a profile answers a call as it does."""

    DEFAULT, ENTRY, FOREIGN, STUB = range(1, 5)


class Reading(IntEnum):
    """How a profile is read: by its words, as a runtime reads it that hands it to libseccomp, or with TRAP's data."""

    STRICT, RUNC, CRUN, SANDBOX = range(4)


class Architecture(IntEnum):
    """Whose syscalls a table numbers. X86 is i386; X32's table has its numbers without the bit 0x40000000."""

    X86_64, X86, X32, AARCH64, ARM, RISCV64, PPC64LE, MIPSEL, MIPSEL64, MIPSEL64N32, LOONGARCH64 = range(1, 12)

    @property
    def audit(self) -> int:
        """The `arch` of its calls: AUDIT_ARCH_.. of linux/audit.h."""
        return (0xC000003E, 0x40000003, 0xC000003E, 0xC00000B7, 0x40000028, 0xC00000F3, 0xC0000015, 0x40000008,
                0xC0000008, 0xE0000008, 0xC0000102)[self - 1]


class Action(IntEnum):
    """What an answer does: SECCOMP_RET_.. of linux/seccomp.h."""

    KILL_PROCESS, KILL_THREAD, TRAP, ERRNO = 0x80000000, 0, 0x00030000, 0x00050000
    USER_NOTIF, TRACE, LOG, ALLOW = 0x7FC00000, 0x7FF00000, 0x7FFC0000, 0x7FFF0000


class Source(IntEnum):
    """What is refused."""

    FILTER, BESIDE, TEXT, TABLE, PROFILE, COMPILE, STACK, COMPARE = range(1, 9)


class Kind(IntEnum):
    """Why it is refused, as docs/FAULTS.md names it."""

    (MEMORY, READ, TRUNCATED, TOO_LONG, EMPTY, CODE, LOAD, SCRATCH, DIVISOR, SHIFT, JUMP, LAST_NOT_RETURN, UNSET,
     NOT_ASCII, MNEMONIC, OPERAND, NUMBER_RANGE, LABEL, JUMP_TOO_FAR, FORM, NAME, NUMBER, REPEATED, JSON, MISSING, KIND,
     ACTION, OPERATOR, EMPTY_NAMES, INDEX, REPEATED_INDEX, ERRNO, ERRNO_RANGE, NO_X8664, ENGINE_FORM, TOO_MANY,
     CONFLICT, TOO_LARGE, NOT_LISTED) = range(1, 40)


NO_ENTRY = 2 ** 64 - 1


# ---- the structs and calls of scf.h

_U32, _U64, _SIZE = ctypes.c_uint32, ctypes.c_uint64, ctypes.c_size_t


class _Bytes(ctypes.Structure):
    _fields_ = [("at", ctypes.c_char_p), ("len", _SIZE)]


class _Call(ctypes.Structure):
    _fields_ = [("nr", _U32), ("arch", _U32), ("ip", _U64), ("args", _U64 * 6)]


class _Decision(ctypes.Structure):
    _fields_ = [("answer", _U32), ("has_filter", _U32), ("filter", _U64), ("index", _U64), ("reserved", _U64 * 4)]


class _Fault(ctypes.Structure):
    _fields_ = [("source", _U32), ("kind", _U32), ("numbers", _U64 * 3), ("reserved", _U64 * 4)]


class _Table(ctypes.Structure):
    _fields_ = [("bytes", _Bytes), ("architecture", _U32), ("has_stub", _U32), ("stub", _U32), ("reserved", _U32)]


class _Profile(ctypes.Structure):
    _fields_ = [("text", _Bytes), ("reading", _U32), ("flags", _U32), ("reserved", _U64 * 2)]


class _LeftOut(ctypes.Structure):
    _fields_ = [("not_looked_at", _U64), ("skipped", _U64), ("reserved", _U64 * 4)]


class _Answer(ctypes.Structure):
    _fields_ = [("answer", _U32), ("reason", _U32), ("entry", _U32), ("unused", _U32), ("left_out", _LeftOut)]


class _Side(ctypes.Structure):
    _fields_ = [("kind", _U32), ("reserved", _U32), ("filters", ctypes.POINTER(_Bytes)), ("filters_len", _SIZE),
                ("profile", _Profile)]


class _Question(ctypes.Structure):
    _fields_ = [("scope", _U32), ("relation", _U32), ("architecture", _U32), ("first", _U32), ("last", _U32),
                ("unused", _U32), ("limit", _U64), ("total_limit", _U64), ("reserved", _U64 * 2)]


class _Finding(ctypes.Structure):
    _fields_ = [("verdict", _U32), ("left", _U32), ("right", _U32), ("side", _U32), ("at", _U64), ("call", _Call)]


class _Comparison(ctypes.Structure):
    _fields_ = [("finding", _Finding), ("left", _LeftOut), ("right", _LeftOut)]


class _RecordsFinding(ctypes.Structure):
    _fields_ = [("architecture", _U32), ("nr", _U32), ("finding", _Finding), ("reserved", _U64 * 4)]


class _Listing(ctypes.Structure):
    _fields_ = [("is_finished", _U32), ("unused", _U32), ("left_out", _LeftOut)]


class _Region(ctypes.Structure):
    _fields_ = [("answer", _U32), ("is_known", _U32), ("is_exact", _U32), ("has_example", _U32), ("reason", _U32),
                ("entry", _U32), ("filter", _U64), ("index", _U64), ("fact_count", _U64), ("example", _Call),
                ("reserved", _U64 * 4)]


class _Fact(ctypes.Structure):
    _fields_ = [("word", _U32), ("kind", _U32), ("low", _U32), ("high", _U32)]


_lib = ctypes.CDLL(os.environ.get("LIBSCF", "libscf.so.0"))
_NUMBER, _NEEDED, _CALL = ctypes.POINTER(_U32), ctypes.POINTER(_SIZE), ctypes.POINTER(_Call)
_IN, _FILTERS, _TABLES = [ctypes.c_char_p, _SIZE], [ctypes.POINTER(_Bytes), _SIZE], [ctypes.POINTER(_Table), _SIZE]
_OUT, _PROFILE, _SIDE = [ctypes.c_void_p, _SIZE, _NEEDED], ctypes.POINTER(_Profile), ctypes.POINTER(_Side)
_QUESTION, _COMPARISON = ctypes.POINTER(_Question), ctypes.POINTER(_Comparison)
for _name, _types in {
    "check": [*_IN, _NEEDED], "run": [*_IN, _CALL, _NUMBER, _NUMBER], "trace": [*_IN, _CALL, _NUMBER, *_OUT],
    "list": [*_IN, *_OUT], "assemble": [*_IN, *_OUT], "decide": [*_FILTERS, _CALL, ctypes.POINTER(_Decision)],
    "compile": [_PROFILE, *_TABLES, *_OUT, ctypes.POINTER(_LeftOut)],
    "ask": [_PROFILE, *_TABLES, _CALL, ctypes.POINTER(_Answer)],
    "compare": [_SIDE, _SIDE, *_TABLES, _QUESTION, _COMPARISON, *_OUT, *_OUT],
    "answers": [_SIDE, *_TABLES, _QUESTION, ctypes.POINTER(_Listing), *_OUT, *_OUT],
}.items():
    _function = getattr(_lib, f"scf_{_name}")
    _function.restype, _function.argtypes = _U32, [*_types, ctypes.POINTER(_Fault)]
_lib.scf_fault_text.restype = None
_lib.scf_fault_text.argtypes = [ctypes.POINTER(_Fault), ctypes.c_void_p, _SIZE, _NEEDED]
_lib.scf_call_text.restype = None
_lib.scf_call_text.argtypes = [_CALL, ctypes.c_void_p, _SIZE, _NEEDED]
_lib.scf_version.restype = _U32
_lib.scf_table.restype, _lib.scf_table.argtypes = ctypes.c_void_p, [_U32, _NEEDED]
_lib.scf_load.restype, _lib.scf_load.argtypes = ctypes.c_int, [*_IN, _U32]


def _member(names: type[IntEnum], number: int) -> int:
    """The member with this number; the number, where a later library has one more."""
    return names(number) if number in names._value2member_map_ else number


class Refused(ValueError):
    """An input isn't accepted: which one, why, and the numbers that say where (docs/FAULTS.md). Its text is the line
    that scf prints, and a line that says what it means."""

    def __init__(self, source: int, kind: int, numbers: Sequence[int]):
        self.source, self.kind, self.numbers = _member(Source, source), _member(Kind, kind), tuple(numbers)
        text, needed = ctypes.create_string_buffer(1024), _SIZE()
        _lib.scf_fault_text(_Fault(source, kind, self.numbers), text, len(text), needed)
        super().__init__(_text(text.raw[:needed.value]).rstrip("\n"))


def _call(function: Callable[..., int], *arguments: object) -> None:
    """Calls the library, and raises what its status says."""
    fault = _Fault()
    status = function(*arguments, fault)
    if status == 3:
        raise MemoryError
    if status == 2:
        raise ValueError("a number has no meaning, or there is no table, or no call")
    if status:
        raise Refused(fault.source, fault.kind, fault.numbers)


def _outputs_of(rooms: Sequence[tuple[Any, int]], function: Callable[..., int], *arguments: object) -> list[Any]:
    """The lists that a call hands out, each of so many elements of a type, or of more."""
    while True:
        lists, needed = [(kind * room)() for kind, room in rooms], [_SIZE() for _ in rooms]
        _call(function, *arguments, *(word for room, need in zip(lists, needed) for word in (room, len(room), need)))
        if all(need.value <= len(room) for room, need in zip(lists, needed)):
            return [room[:need.value] for room, need in zip(lists, needed)]
        rooms = [(kind, need.value) for (kind, _), need in zip(rooms, needed)]


def _output_of(room: int, function: Callable[..., int], *arguments: object) -> bytes:
    """The bytes that a call hands out."""
    while True:
        text, needed = ctypes.create_string_buffer(room), _SIZE()
        _call(function, *arguments, text, room, needed)
        if needed.value <= room:
            return text.raw[:needed.value]
        room = needed.value


# ---- arguments: one that isn't as it must be is an error that names it

def _check_type(kind: type, **arguments: object) -> None:
    for name, value in arguments.items():
        if not isinstance(value, kind):
            raise TypeError(f"{name} must be {kind.__name__}, not {type(value).__name__}")


def _check_bits(bits: int, **numbers: int) -> None:
    _check_type(int, **numbers)
    for name, number in numbers.items():
        if not 0 <= number < 1 << bits:
            raise ValueError(f"{name} isn't a number of {bits} bits: {number}")


def _buffer(name: str, data: Buffer) -> tuple[bytes, int]:
    """The bytes of a buffer, and their count."""
    try:
        whole = data if isinstance(data, bytes) else bytes(memoryview(data))
    except TypeError:
        raise TypeError(f"{name} must be bytes or another buffer, not {type(data).__name__}") from None
    return whole, len(whole)


def _bytes(name: str, data: Buffer) -> _Bytes:
    return _Bytes(*_buffer(name, data))


def _stack(name: str, filters: Sequence[Buffer]) -> tuple[ctypes.Array[_Bytes], int]:
    _check_type(Sequence, **{name: filters})
    stack = (_bytes(f"{name}[{index}]", filter) for index, filter in enumerate(filters))
    return (_Bytes * len(filters))(*stack), len(filters)


class _CallFields(NamedTuple):
    nr: int
    args: tuple[int, ...]
    arch: int
    ip: int


class Call(_CallFields):
    """What a filter sees of a syscall: the kernel's struct seccomp_data."""

    __slots__ = ()

    def __new__(cls, nr: int, args: Sequence[int] = (), arch: int = Architecture.X86_64.audit, ip: int = 0) -> Call:
        _check_type(Sequence, args=args)
        _check_bits(32, nr=nr, arch=arch)
        _check_bits(64, ip=ip, **{f"args[{index}]": number for index, number in enumerate(args)})
        if len(args) > 6:
            raise ValueError("a syscall has six arguments")
        return super().__new__(cls, nr, (*args, *(0,) * (6 - len(args))), arch, ip)

    def __str__(self) -> str:
        """In words, by the names of scf's own tables."""
        text, needed = ctypes.create_string_buffer(512), _SIZE()
        _lib.scf_call_text(_record(self), text, len(text), needed)
        return text.raw[:needed.value].decode()


def _record(call: Call) -> _Call:
    _check_type(Call, call=call)
    return _Call(call.nr, call.arch, call.ip, call.args)


class Table(NamedTuple):
    """A syscall table, the architecture whose syscalls it numbers, and the first number, as a call has it, that runc's
    stub answers by ENOSYS."""

    architecture: Architecture
    text: Buffer
    stub: int | None = None


class Profile(NamedTuple):
    """An OCI profile, JSON, and how it is read. With `skip_unlisted` tables of architectures that it doesn't list are
    skipped; else they are refused."""

    text: Buffer
    reading: Reading = Reading.STRICT
    skip_unlisted: bool = False


class Filters(NamedTuple):
    """A stack of filters, the oldest first."""

    filters: Sequence[Buffer]


if TYPE_CHECKING:
    Side = Union[Profile, Filters]


class Scope(NamedTuple):
    """The calls that are compared: ALL, those of each architecture or syscall that has a table, one after another
    (EACH_ARCHITECTURE, EACH_CALL), or those with a number of a range."""

    kind: int
    architecture: int = 0
    first: int = 0
    last: int = 0

    @classmethod
    def numbers(cls, first: int = 0, last: int = 2 ** 32 - 1, architecture: int = Architecture.X86_64) -> Scope:
        """Those of an architecture with a number of a range, as calls have it, both ends included."""
        return cls(1, architecture, first, last)


ALL, EACH_ARCHITECTURE, EACH_CALL = Scope(0), Scope(2), Scope(3)
# The calls that a program of x86-64 can make: of x86-64, i386 and x32, but for the number -1, which is no syscall.
X86_64_ABIS = (Scope.numbers(0, 0x3FFFFFFF), Scope.numbers(0, 0xFFFFFFFE, Architecture.X86),
               Scope.numbers(0x40000000, 0xFFFFFFFE, Architecture.X32))


def _profile(name: str, profile: Profile) -> _Profile:
    _check_type(Profile, **{name: profile})
    _check_type(Reading, **{f"{name}.reading": profile.reading})
    return _Profile(_bytes(f"{name}.text", profile.text), profile.reading, bool(profile.skip_unlisted))


def _tables(tables: Sequence[Table]) -> tuple[ctypes.Array[_Table], int]:
    _check_type(Sequence, tables=tables)
    structs = []
    for index, table in enumerate(tables):
        _check_type(Table, **{f"tables[{index}]": table})
        _check_type(Architecture, **{f"tables[{index}].architecture": table.architecture})
        _check_bits(32, **{f"tables[{index}].stub": table.stub or 0})
        text = _bytes(f"tables[{index}].text", table.text)
        structs.append(_Table(text, table.architecture, table.stub is not None, table.stub or 0))
    return (_Table * len(structs))(*structs), len(structs)


def _side(name: str, side: Side) -> _Side:
    if isinstance(side, Profile):
        return _Side(1, 0, None, 0, _profile(name, side))
    if isinstance(side, Filters):
        return _Side(2, 0, *_stack(f"{name}.filters", side.filters))
    raise TypeError(f"{name} must be Profile or Filters, not {type(side).__name__}")


def _question(scope: Scope, relation: Relation, limit: int, total_limit: int) -> _Question:
    _check_type(Scope, scope=scope)
    _check_type(Relation, relation=relation)
    _check_bits(32, **{f"scope.{name}": number for name, number in scope._asdict().items()})
    _check_bits(64, limit=limit, total_limit=total_limit)
    return _Question(scope.kind, relation, *scope[1:], 0, limit, total_limit)


# ---- results

class Answer(int):
    """What a filter answers: an action and 16 bits of data. A text of it is as scf prints it: `ERRNO 1`."""

    @property
    def action(self) -> int:
        """The action; the number, if the kernel has no such one."""
        return _member(Action, self & 0xFFFF0000)

    @property
    def data(self) -> int:
        """The error number of ERRNO, the message of TRACE, and so on."""
        return self & 0xFFFF

    def __str__(self) -> str:
        action = self.action
        return f"{action.name} {self.data}" if isinstance(action, Action) else f"UNNAMED 0x{int(self):08x}"

    def __repr__(self) -> str:
        return f"<Answer {self}>"


class Run(NamedTuple):
    """A filter's answer to a call, and how many instructions it executed."""

    answer: Answer
    steps: int


class Trace(NamedTuple):
    """A filter's answer to a call, and the indices of the instructions that it executed."""

    answer: Answer
    path: list[int]


class Decision(NamedTuple):
    """What a stack of filters answers to a call, and the indices of the filter that answers, 0 the oldest, and of its
    instruction: None without a filter, which allows the call."""

    answer: Answer
    filter: int | None
    instruction: int | None


class LeftOut(NamedTuple):
    """How much of a profile isn't judged: the architectures that it lists without a table, and the names that no table
    has, each occurrence."""

    not_looked_at: int
    skipped: int


class ProfileAnswer(NamedTuple):
    """A profile's answer to a call, why it is this, and with ENTRY the index of the entry in `syscalls`."""

    answer: Answer
    reason: int
    entry: int | None
    left_out: LeftOut


class Finding(NamedTuple):
    """What a comparison comes to. Where it FAILS, a call and both answers; where it is UNDECIDED, `at` is the index of
    an instruction of a filter of the side, 1 or 2."""

    verdict: int
    call: Call | None
    left: Answer | None
    right: Answer | None
    side: int | None
    at: int | None


class RecordsFinding(NamedTuple):
    """That on the calls of one architecture (0 of all), or of one syscall by its number, as calls have it."""

    architecture: int
    nr: int
    finding: Finding


class Comparison(NamedTuple):
    """The finding on all (of several the first that fails, else the first that doesn't hold), how much of either
    profile isn't judged, the finding on each architecture or syscall, and what `scf compare` prints of the first."""

    finding: Finding
    left: LeftOut
    right: LeftOut
    each: list[RecordsFinding]
    report: str


class Fact(NamedTuple):
    """What is known of a word of calls (0 nr, 1 arch, 4 and 5 the first argument ..): of kind 1 that it lies in one of
    such intervals, from `low` to `high`; of kind 2 that it has these bits, of kind 3 that it doesn't: `low` is the
    mask, `high` the value."""

    word: int
    kind: int
    low: int
    high: int


class Region(NamedTuple):
    """Calls that a side answers alike, and one of them. The place is the reason and the entry of a profile, or the
    indices of a filter and of its instruction. Calls of one that isn't exact may lie in others, too."""

    answer: Answer | None
    is_exact: bool
    place: tuple[int, int]
    example: Call | None
    facts: list[Fact]


class Listing(NamedTuple):
    """All that a side answers, and how much of its profile isn't judged. None in place of the regions: the limit was
    reached."""

    regions: list[Region] | None
    left_out: LeftOut


def _call_of(call: _Call) -> Call:
    return Call(call.nr, tuple(call.args), call.arch, call.ip)


def _left_out(counts: _LeftOut) -> LeftOut:
    return LeftOut(counts.not_looked_at, counts.skipped)


def _finding(result: _Finding) -> Finding:
    verdict = _member(Verdict, result.verdict)
    if verdict == Verdict.FAILS:
        return Finding(verdict, _call_of(result.call), Answer(result.left), Answer(result.right), None, None)
    side, at = (result.side, result.at) if verdict == Verdict.UNDECIDED else (None, None)
    return Finding(verdict, None, None, None, side, at)


def _region(region: _Region, facts: list[Fact]) -> Region:
    place = (region.reason, region.entry) if region.reason else (region.filter, region.index)
    return Region(Answer(region.answer) if region.is_known else None, bool(region.is_exact), place,
                  _call_of(region.example) if region.has_example else None, facts)


def _text(data: bytes) -> str:
    return data.decode("utf-8", "surrogateescape")


# ---- calls

def version() -> tuple[int, int, int]:
    """The version of the library."""
    number: int = _lib.scf_version()
    return number >> 16, number >> 8 & 0xFF, number & 0xFF


def check(filter: Buffer) -> int:
    """The number of instructions of a filter that the kernel accepts."""
    count = _SIZE()
    _call(_lib.scf_check, *_buffer("filter", filter), count)
    return count.value


def run(filter: Buffer, call: Call) -> Run:
    """A filter's answer to a call, and how many instructions it executed."""
    answer, steps = _U32(), _U32()
    _call(_lib.scf_run, *_buffer("filter", filter), _record(call), answer, steps)
    return Run(Answer(answer.value), steps.value)


def trace(filter: Buffer, call: Call) -> Trace:
    """A filter's answer to a call, and the indices of the instructions that it executed."""
    answer, path, needed = _U32(), (_SIZE * 4096)(), _SIZE()
    _call(_lib.scf_trace, *_buffer("filter", filter), _record(call), answer, path, len(path), needed)
    return Trace(Answer(answer.value), path[:needed.value])


def listing(filter: Buffer) -> str:
    """The listing of a filter, which isn't checked."""
    return _text(_output_of(1 << 16, _lib.scf_list, *_buffer("filter", filter)))


def assemble(text: Buffer) -> bytes:
    """The filter that a text spells. It isn't checked."""
    return _output_of(1 << 15, _lib.scf_assemble, *_buffer("text", text))


def decide(filters: Sequence[Buffer], call: Call) -> Decision:
    """The answer of a stack of filters, the oldest first, to a call, and the instruction that gives it."""
    decision = _Decision()
    _call(_lib.scf_decide, *_stack("filters", filters), _record(call), decision)
    filter, instruction = (decision.filter, decision.index) if decision.has_filter else (None, None)
    return Decision(Answer(decision.answer), filter, instruction)


def compile(profile: Profile, tables: Sequence[Table]) -> bytes:
    """A filter that answers every call as the profile does. KILL_PROCESS answers the calls of an architecture that has
    no table; `ask` says of how many that the profile lists."""
    arguments, needed, room = (_profile("profile", profile), *_tables(tables)), _SIZE(1 << 15), 0
    while room < needed.value:
        room = needed.value
        filter = ctypes.create_string_buffer(room)
        _call(_lib.scf_compile, *arguments, filter, room, needed, _LeftOut())
    return filter.raw[:needed.value]


def ask(profile: Profile, tables: Sequence[Table], call: Call) -> ProfileAnswer:
    """A profile's answer to a call; its reason is FOREIGN where the call's architecture has no table."""
    answer = _Answer()
    _call(_lib.scf_ask, _profile("profile", profile), *_tables(tables), _record(call), answer)
    entry = answer.entry if answer.reason == Reason.ENTRY else None
    return ProfileAnswer(Answer(answer.answer), _member(Reason, answer.reason), entry, _left_out(answer.left_out))


def compare(left: Side, right: Side, tables: Sequence[Table] = (), scope: Scope = ALL,
            relation: Relation = Relation.SAME, limit: int = LIMIT, total_limit: int = 2 ** 64 - 1) -> Comparison:
    """Compares two sides, each filters or a profile, in at most `limit` steps for each architecture or syscall, and
    `total_limit` for all together. The tables are those of a profile on either side."""
    arguments = (_side("left", left), _side("right", right), *_tables(tables),
                 _question(scope, relation, limit, total_limit))
    result = _Comparison()
    each, report = _outputs_of([(_RecordsFinding, 8), (ctypes.c_char, 1 << 13)], _lib.scf_compare, *arguments, result)
    return Comparison(_finding(result.finding), _left_out(result.left), _left_out(result.right),
                      [RecordsFinding(records.architecture, records.nr, _finding(records.finding)) for records in each],
                      _text(report))


def is_proved(filters: Filters, profile: Profile, tables: Sequence[Table]) -> bool:
    """Whether filters are proved to be a profile's: they answer each call of the architectures that it lists as it
    says, each of these has a table, and they allow no more than it of X86_64_ABIS."""
    questions = [(EACH_ARCHITECTURE, Relation.SAME), *((scope, Relation.NO_MORE) for scope in X86_64_ABIS)]
    comparisons = (compare(filters, profile, tables, *question) for question in questions)
    return all(compared.finding.verdict == Verdict.HOLDS and compared.right.not_looked_at == 0
               for compared in comparisons)


def answers(side: Side, tables: Sequence[Table] = (), scope: Scope = ALL, total_limit: int = LIMIT) -> Listing:
    """All that a side answers to the calls of a scope, by regions, in at most `total_limit` steps."""
    arguments = _side("side", side), *_tables(tables), _question(scope, Relation.SAME, LIMIT, total_limit)
    result = _Listing()
    regions, facts = _outputs_of([(_Region, 1024), (_Fact, 8192)], _lib.scf_answers, *arguments, result)
    next_facts = iter([Fact(fact.word, fact.kind, fact.low, fact.high) for fact in facts])
    listed = [_region(region, [next(next_facts) for _ in range(region.fact_count)]) for region in regions]
    return Listing(listed if result.is_finished else None, _left_out(result.left_out))


def own_tables() -> list[Table]:
    """scf's own table of each architecture."""
    return [Table(architecture, table(architecture)) for architecture in Architecture]


def table(architecture: Architecture) -> bytes:
    """The syscall table that scf has of an architecture. Its first line says of which kernel it is."""
    _check_type(Architecture, architecture=architecture)
    size = _SIZE()
    at = _lib.scf_table(architecture, size)
    return ctypes.string_at(at, size.value) if at is not None else b""


def load(filter: Buffer, flags: int = 0) -> int:
    """Loads a filter for this thread by seccomp(2), with SECCOMP_FILTER_FLAG_.. of linux/seccomp.h, and sets
    no_new_privs unless the flags have KEEP_PRIVILEGES. Returns 0, the listener's descriptor, or with TSYNC the id of a
    thread that can't be reached: then no thread gets the filter. An error of the kernel is an OSError."""
    _check_bits(32, flags=flags)
    result: int = _lib.scf_load(*_buffer("filter", filter), flags)
    if result < 0:
        raise OSError(-result, os.strerror(-result))
    return result
