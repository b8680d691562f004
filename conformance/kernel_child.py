"""Calls that a child process makes under seccomp filters, and what the running kernel does with each.

The child is a copy of this process that runs nothing but the machine code below: it installs the filters and makes the
calls, and writes into shared memory what comes back. So no filter has to let a call through that the test doesn't
make. A second thread of the child, which has no filter, sees the end of the first: so the end of a thread is told from
that of a process. x86-64 alone.
"""
from __future__ import annotations

import ctypes
import errno
import fcntl
import mmap
import os
import select
import signal
import struct
import time
from collections.abc import Sequence
from typing import NamedTuple

from scftools.model.answers import I386_NUMBER, X86_64
from scftools.model.calls import Call

# asm/unistd_64.h, linux/sched.h, linux/prctl.h, linux/seccomp.h, sys/ptrace.h
NR_RT_SIGACTION, NR_PTRACE, NR_PRCTL, NR_SET_TID_ADDRESS, NR_SECCOMP = 13, 101, 157, 218, 317
CLONE_FILES = 0x400
PR_SET_DUMPABLE, PR_SET_NO_NEW_PRIVS = 4, 38
SECCOMP_SET_MODE_FILTER, SECCOMP_FILTER_FLAG_NEW_LISTENER = 1, 8
SECCOMP_IOCTL_NOTIF_RECV, SECCOMP_IOCTL_NOTIF_SEND = 0xC0502100, 0xC0182101
SECCOMP_USER_NOTIF_FLAG_CONTINUE = 1
PTRACE_TRACEME, PTRACE_POKEUSER, PTRACE_CONT, PTRACE_SETOPTIONS, PTRACE_GETEVENTMSG = 0, 6, 7, 0x4200, 0x4201
# Where the number of a call stands in struct user (sys/user.h), which -1 has the kernel skip (seccomp(2)).
ORIG_RAX = 15 * 8
PTRACE_O_TRACESECCOMP, PTRACE_O_EXITKILL, PTRACE_EVENT_SECCOMP = 0x80, 0x100000, 7
WALL = 0x40000000
SA_SIGINFO, SA_RESTORER, SA_NODEFER = 0x4, 0x04000000, 0x40000000
MAP_FIXED_NOREPLACE = 0x100000
# The begin of siginfo_t of SIGSYS (asm-generic/siginfo.h): si_errno, si_code, si_call_addr, si_syscall, si_arch.
SIGSYS, SYS_SECCOMP = struct.Struct("<4xii4xQII"), 1
# How long a child may take for all of its calls.
PATIENCE = 20.0

# The places are fixed, so that a call's instruction pointer is known before it is made; nothing else is put there, and
# one of them is below 2^32. Behind the page of code stands
# the shared memory: what the code knows at its beginning, two stacks, and the records, one for each call.
CODE, LOW_CODE, PAGE = 0x05C0_F1E0_0000, 0xB357_9000, 0x1000
SHARED = CODE + PAGE
RECORDS, RECORD, MOST_RECORDS = SHARED + 0x12000, 256, 48
SHARED_SIZE = 0x12000 + RECORD * MOST_RECORDS
# The place of the current record and that of the end, which stand side by side; the first thread's number, until it
# ends; whether the second thread saw that; the handler of SIGSYS.
CURRENT, TID, THREAD_ENDED, HANDLER_WORDS = (SHARED + at for at in (0, 16, 24, 64))
STATE, RESULT, SIGINFO = 88, 96, 104
# A record's state; in between it is 1, while its call is made.
NOT_MADE, RETURNED, SIGNALLED = 0, 2, 3

# Each line is an instruction's bytes and its text. A record's registers, in their order in it: rax, rbx, rcx, rdx, rsi,
# rdi, rbp, r8, r9, r10; then the place of the instruction that makes the call, which goes on at r14.
MACHINE_CODE = """
start:                  # (rdi: clone's flags) gives the child's number
b838000000              mov eax, 56             # clone
31f6                    xor esi, esi
31d2                    xor edx, edx
4531d2                  xor r10d, r10d
4531c0                  xor r8d, r8d
0f05                    syscall
4885c0                  test rax, rax
7401                    je child
c3                      ret
child:                  # makes the second thread
b838000000              mov eax, 56             # clone
bf000f0500              mov edi, 0x50f00        # CLONE_VM, _FS, _FILES, _SIGHAND, _THREAD, _SYSVSEM
488d35d82f0000          lea rsi, [first stack]
0f05                    syscall
488905ef0f0000          mov [second thread], rax
4885c0                  test rax, rax
0f84a4000000            je watcher
0f8891000000            js finish
next:                   # makes the call of the current record
488d25b92f0100          lea rsp, [second stack]
4c8b3db20f0000          mov r15, [current]
4c3b3db30f0000          cmp r15, [end]
747a                    je finish
4c8d3533000000          lea r14, [returned]
49c7475801000000        mov [r15 + state], 1
498b07                  mov rax, [r15]
498b5f08                mov rbx, [r15 + 8]
498b4f10                mov rcx, [r15 + 16]
498b5718                mov rdx, [r15 + 24]
498b7720                mov rsi, [r15 + 32]
498b7f28                mov rdi, [r15 + 40]
498b6f30                mov rbp, [r15 + 48]
4d8b4738                mov r8, [r15 + 56]
4d8b4f40                mov r9, [r15 + 64]
4d8b5748                mov r10, [r15 + 72]
41ff6750                jmp [r15 + 80]
returned:
4c8b3d680f0000          mov r15, [current]
49894760                mov [r15 + result], rax
49c7475802000000        mov [r15 + state], 2
eb1b                    jmp over
handler:                # (rsi: what the signal tells) of SIGSYS, which never goes back by rt_sigreturn(2)
4c8b3d530f0000          mov r15, [current]
498d7f68                lea rdi, [r15 + siginfo]
b908000000              mov ecx, 8
f348a5                  rep movsq
49c7475803000000        mov [r15 + state], 3
over:
488105340f000000010000  add [current], 256
e96fffffff              jmp next
finish:                 # the trap flag ends the process by SIGTRAP, without a call
9c                      pushf
48810c2400010000        or [rsp], 0x100
9d                      popf
90                      nop
ebf3                    jmp finish
watcher:                # waits until the kernel clears the first thread's number, which it does when that ends
488d3d2b0f0000          lea rdi, [tid]
31f6                    xor esi, esi            # FUTEX_WAIT
ba01000000              mov edx, 1
4531d2                  xor r10d, r10d
b8ca000000              mov eax, 202            # futex
0f05                    syscall
833d130f000000          cmp [tid], 0
75df                    jne watcher
48c7050e0f000001000000  mov [thread ended], 1
31ff                    xor edi, edi
b8e7000000              mov eax, 231            # exit_group
0f05                    syscall
"""
SYSCALL, INT_80, INT_3 = (bytes.fromhex(code + "41ffe6") for code in ("0f05", "cd80", "cc"))     # .. and jmp r14
# Where the instructions stand that make calls. A call's instruction pointer is that of the next instruction.
SITES = {CODE + 0x400: SYSCALL, CODE + 0x7FF: SYSCALL, LOW_CODE + 0x10: SYSCALL, CODE + 0x500: INT_80,
         LOW_CODE + 0x80: INT_80}
SITE, GATE, TRAP_SITE = CODE + 0x400, CODE + 0x500, CODE + 0x600

WORD = 1 << 32


def assembled() -> tuple[bytes, dict[str, int]]:
    """The machine code, and where its labels stand."""
    code, labels = b"", {}
    for line in MACHINE_CODE.strip().split("\n"):
        first = line.split()[0]
        if first.endswith(":"):
            labels[first[:-1]] = len(code)
        else:
            code += bytes.fromhex(first)
    return code, labels


def is_gate(site: int) -> bool:
    """Whether the i386 gate makes syscalls here."""
    return SITES[site] == INT_80


def call_at(site: int, number: int, arguments: Sequence[int]) -> Call:
    """The call that this site makes, with the record that a filter sees of it."""
    return Call(number, I386_NUMBER if is_gate(site) else X86_64, site + 2, (*arguments, *[0] * (6 - len(arguments))))


def registers(call: Call) -> tuple[int, ...]:
    """What stands in a record for a call."""
    a = call.arguments
    if call.architecture == I386_NUMBER:
        return (call.number, a[0], a[1], a[2], a[3], a[4], a[5], 0, 0, 0, call.pointer - 2)
    return (call.number, 0, 0, a[2], a[1], a[0], 0, a[4], a[5], a[3], call.pointer - 2)


class Setting(NamedTuple):
    """Who is beside the child: a tracer, which may have the kernel skip each call that it is told of, or a listener of
    one of its filters."""
    traced: bool = False
    listener: int | None = None
    skips: bool = False


class Came(NamedTuple):
    """What came of some calls, one text for each that was made, and what the kernel said of each filter: 0 or more
    where it takes it, a negative errno where it refuses it, None where it wasn't asked."""
    process: int
    installed: list[int | None]
    texts: list[str]


def signed(number: int, bits: int = 64) -> int:
    return number - (1 << bits) if number >> (bits - 1) else number


def record_text(call: Call) -> str:
    return f"nr {call.number:#x} arch {call.architecture:#x} ip {call.pointer:#x}"


def returns(value: int) -> str:
    return f"returns {value}"


def signals(data: int, call: Call) -> str:
    """What SIGSYS tells of a call; it tells no arguments."""
    return f"SIGSYS data {data} of {record_text(call)}"


def tracer_told(data: int) -> str:
    return f"the tracer is told {data}, "


def listener_told(call: Call) -> str:
    return f"the listener is told {record_text(call)} args {' '.join(map(hex, call.arguments))}, "


THREAD_ENDS, PROCESS_ENDS = "the thread ends", "the process ends"


def listener_answer(place: int) -> tuple[int, int, int]:
    """What the listener answers to the call at this place of the list: a value, an error and flags, in turns."""
    return [(0, -(100 + place), 0), (1000 + place, 0, 0), (0, 0, SECCOMP_USER_NOTIF_FLAG_CONTINUE)][place % 3]


class Unavailable(Exception):
    """The kernel can't be asked, and why."""


class Kernel:
    """The running kernel, asked through children."""

    def __init__(self) -> None:
        self.library = ctypes.CDLL(None, use_errno=True)
        self.library.mmap.restype = ctypes.c_void_p
        self.library.mmap.argtypes = [ctypes.c_void_p, ctypes.c_size_t, *[ctypes.c_int] * 3, ctypes.c_long]
        self.library.mprotect.argtypes = [ctypes.c_void_p, ctypes.c_size_t, ctypes.c_int]
        self.library.ptrace.restype = ctypes.c_long
        self.library.ptrace.argtypes = [ctypes.c_long, ctypes.c_long, ctypes.c_void_p, ctypes.c_void_p]
        self._map(SHARED, SHARED_SIZE)
        code, self.labels = assembled()
        self._map_code(CODE, code)
        self._map_code(LOW_CODE, b"")
        self.start = ctypes.CFUNCTYPE(ctypes.c_long, ctypes.c_long)(CODE)
        self.process = 0

    def _map(self, place: int, size: int) -> None:
        flags = mmap.MAP_SHARED | mmap.MAP_ANONYMOUS | MAP_FIXED_NOREPLACE
        mapped = self.library.mmap(place, size, mmap.PROT_READ | mmap.PROT_WRITE, flags, -1, 0)
        if mapped != place:
            raise Unavailable(f"there is no memory to be had at {place:#x}")

    def _map_code(self, page: int, code: bytes) -> None:
        self._map(page, PAGE)
        ctypes.memmove(page, code, len(code))
        for site, instructions in {**SITES, TRAP_SITE: INT_3}.items():
            if page <= site < page + PAGE:
                ctypes.memmove(site, instructions, len(instructions))
        if self.library.mprotect(page, PAGE, mmap.PROT_READ | mmap.PROT_EXEC):
            raise Unavailable("memory can't be made executable")

    def ask(self, filters: Sequence[bytes], calls: Sequence[Call], setting: Setting = Setting()) -> Came:
        """Installs the filters in a child, the oldest first, which then makes the calls until it ends."""
        # the programs stand in this process's memory, of which the child has a copy
        rooms = [ctypes.create_string_buffer(data, max(len(data), 8)) for data in filters]
        headers = [ctypes.create_string_buffer(struct.pack("<HxxxxxxQ", len(data) // 8, ctypes.addressof(room)))
                   for data, room in zip(filters, rooms)]
        first = self._prepared(headers, setting)
        self._put_records(first, calls)
        events: dict[int, str] = {}
        self.process = self.start(CLONE_FILES | signal.SIGCHLD)
        if self.process < 0:
            raise Unavailable(f"no child can be made: {os.strerror(-self.process)}")
        old = signal.signal(signal.SIGALRM, lambda *_: os.kill(self.process, signal.SIGKILL))
        signal.setitimer(signal.ITIMER_REAL, PATIENCE)
        try:
            if setting.traced:
                status = self._traced(len(first), events, setting.skips)
            elif setting.listener is not None:
                status = self._listened(len(first), len(first) - len(filters) + setting.listener, events)
            else:
                status = os.waitpid(self.process, WALL)[1]
        finally:
            signal.setitimer(signal.ITIMER_REAL, 0)
            signal.signal(signal.SIGALRM, old)
        records = [RECORDS + place * RECORD for place in range(len(first) - len(filters), len(first))]
        installed = [signed(self._long(record + RESULT)) if self._long(record + STATE) == RETURNED else None
                     for record in records]
        return Came(self.process, installed, self._texts(len(first), calls, events, status))

    def _prepared(self, headers: Sequence[ctypes.Array], setting: Setting) -> list[tuple[int, ...]]:
        """The records of the calls that come first: signals, a tracer, the filters."""
        def plain(number: int, *arguments: int) -> tuple[int, ...]:
            return registers(call_at(SITE, number, arguments))

        flags = SA_SIGINFO | SA_RESTORER | SA_NODEFER
        handler = struct.pack("<4Q", CODE + self.labels["handler"], flags, CODE, 0)
        ctypes.memset(SHARED, 0, SHARED_SIZE)
        ctypes.memmove(HANDLER_WORDS, handler, len(handler))
        ctypes.c_uint32.from_address(TID).value = 1
        first = [plain(NR_RT_SIGACTION, signal.SIGSYS, HANDLER_WORDS, 0, 8), plain(NR_SET_TID_ADDRESS, TID)]
        if setting.traced:
            first += [plain(NR_PTRACE, PTRACE_TRACEME), (*[0] * 10, TRAP_SITE)]
        # no core is dumped when the child is killed
        first += [plain(NR_PRCTL, PR_SET_DUMPABLE, 0), plain(NR_PRCTL, PR_SET_NO_NEW_PRIVS, 1)]
        for place, header in enumerate(headers):
            listens = SECCOMP_FILTER_FLAG_NEW_LISTENER if place == setting.listener else 0
            first.append(plain(NR_SECCOMP, SECCOMP_SET_MODE_FILTER, listens, ctypes.addressof(header)))
        return first

    @staticmethod
    def _put_records(first: Sequence[tuple[int, ...]], calls: Sequence[Call]) -> None:
        records = [*first, *map(registers, calls)]
        assert len(records) <= MOST_RECORDS
        for place, words in enumerate(records):
            ctypes.memmove(RECORDS + place * RECORD, struct.pack("<11Q", *words), 11 * 8)
        ctypes.memmove(CURRENT, struct.pack("<QQ", RECORDS, RECORDS + len(records) * RECORD), 16)

    @staticmethod
    def _long(place: int) -> int:
        return ctypes.c_uint64.from_address(place).value

    def _place(self) -> int:
        """The place of the record whose call is being made."""
        return (self._long(CURRENT) - RECORDS) // RECORD

    def _ptrace(self, request: int, data: int, place: int | None = None) -> None:
        if self.library.ptrace(request, self.process, place, data) < 0:
            raise Unavailable(f"a child can't be traced: {os.strerror(ctypes.get_errno())}")

    def _traced(self, count: int, events: dict[int, str], skips: bool) -> int:
        """Lets a traced child run, and keeps what its tracer is told."""
        message = ctypes.c_ulong()
        while True:
            status = os.waitpid(self.process, WALL)[1]
            if not os.WIFSTOPPED(status):
                return status
            given = 0
            if status >> 16 == PTRACE_EVENT_SECCOMP:
                self._ptrace(PTRACE_GETEVENTMSG, ctypes.addressof(message))
                events[self._place() - count] = events.get(self._place() - count, "") + tracer_told(message.value)
                if skips:
                    self._ptrace(PTRACE_POKEUSER, -1, ORIG_RAX)
            elif self._place() < count:
                self._ptrace(PTRACE_SETOPTIONS, PTRACE_O_TRACESECCOMP | PTRACE_O_EXITKILL)
            else:
                given = os.WSTOPSIG(status)
            self._ptrace(PTRACE_CONT, given)

    def _listened(self, count: int, at: int, events: dict[int, str]) -> int:
        """Lets a child run whose filter has a listener, answers for it, and keeps what it is told."""
        record = RECORDS + at * RECORD
        while self._long(record + STATE) != RETURNED:
            ended, status = os.waitpid(self.process, WALL | os.WNOHANG)
            if ended:
                return status
            time.sleep(0.00005)
        listener = self._long(record + RESULT)
        if signed(listener) < 0:
            return os.waitpid(self.process, WALL)[1]
        ends = os.pidfd_open(self.process)
        try:
            poll = select.poll()
            poll.register(listener, select.POLLIN)
            poll.register(ends, select.POLLIN)
            while True:
                ready = dict(poll.poll())
                if ready.get(listener, 0) & select.POLLIN:
                    self._answer(listener, count, events)
                elif ends in ready or listener in ready:
                    return os.waitpid(self.process, WALL)[1]
        finally:
            os.close(ends)
            os.close(listener)

    def _answer(self, listener: int, count: int, events: dict[int, str]) -> None:
        event = bytearray(80)
        try:
            fcntl.ioctl(listener, SECCOMP_IOCTL_NOTIF_RECV, event)
            token, _, _, number, arch, pointer, *arguments = struct.unpack("<QIIIIQ6Q", event)
            place = self._place() - count
            events[place] = events.get(place, "") + listener_told(Call(number, arch, pointer, tuple(arguments)))
            value, error, flags = listener_answer(place)
            fcntl.ioctl(listener, SECCOMP_IOCTL_NOTIF_SEND, struct.pack("<QqiI", token, value, error, flags))
        except OSError as error:
            # the child was ended meanwhile
            if error.errno not in (errno.ENOENT, errno.EINTR):
                raise

    def _texts(self, count: int, calls: Sequence[Call], events: dict[int, str], status: int) -> list[str]:
        texts = []
        for place, call in enumerate(calls):
            record = RECORDS + (count + place) * RECORD
            state = self._long(record + STATE)
            if state == NOT_MADE:
                break
            if state == RETURNED:
                value = self._long(record + RESULT)
                what = returns(signed(value % WORD, 32) if call.architecture == I386_NUMBER else signed(value))
            elif state == SIGNALLED:
                told_by = ctypes.string_at(record + SIGINFO, SIGSYS.size)
                data, code, pointer, number, arch = SIGSYS.unpack(told_by)
                what = signals(data, Call(number, arch, pointer)) if code == SYS_SECCOMP else f"SIGSYS of code {code}"
            elif self._long(THREAD_ENDED):
                what = THREAD_ENDS
            elif os.WIFSIGNALED(status) and os.WTERMSIG(status) == signal.SIGSYS:
                what = PROCESS_ENDS
            else:
                what = f"the process ends with the wait status {status:#x}"
            texts.append(events.get(place, "") + what)
        return texts
