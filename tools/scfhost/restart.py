"""Syscalls that a stop interrupts, and how they continue with the thread.

A syscall that waits returns one of the numbers below when its thread is stopped, and the kernel calls it again after
the stop (handle_signal and arch_do_signal_or_restart in arch/x86/kernel/signal.c). If it waits with a timeout, as
nanosleep and poll do, the kernel calls restart_syscall(2) instead, which continues with the remaining time. A filter
answers that as any other syscall: if it denies it, it ends the process or fails the call. So a thread in such a syscall
is given another number while it is stopped, if its filters don't allow restart_syscall. A syscall that they deny isn't
restarted either.
"""
from __future__ import annotations

import errno
from collections.abc import Sequence

from scftools.base import program
from scftools.base.values import dataclass, replace
from scftools.model import bundles
from scftools.model.answers import ALLOW, ALLOWED, DENIED, FIRST_X32, I386_NUMBER, X86_64, Answer
from scftools.model.bpf import INSTRUCTION, RETURN_CONSTANT
from scftools.model.calls import REGISTER_MASKS, Call, arguments_in
from scftools.ask import client, regions, verdicts
from .ptrace import Kernel

# linux/errno.h. What a handler of a signal doesn't interrupt begins anew by each of them but the last, by which it goes
# on by restart_syscall; a handler interrupts by NOHAND and by RESTARTBLOCK alike.
ERESTARTSYS, ERESTARTNOINTR, ERESTARTNOHAND, ERESTART_RESTARTBLOCK = 512, 513, 514, 516
BEGIN_ANEW = (ERESTARTSYS, ERESTARTNOINTR, ERESTARTNOHAND)
# The number of restart_syscall: asm/unistd_64.h, asm/unistd_32.h.
RESTART = {X86_64: 219, I386_NUMBER: 0}
# linux/filter.h: BPF_RET | BPF_A, whose answer is computed; linux/seccomp.h: SECCOMP_RET_USER_NOTIF's high half.
RETURN_COMPUTED, USER_NOTIF = 0x16, 0x7FC0
# How often scf is asked about the threads of a process, which are stopped meanwhile; calls beyond begin anew. The steps
# in which it follows their filters: the 28 of a unit of systemd take 230000, and some 30 ms. The most bytes that it may
# answer, of how many stacks the regions are kept, and how many calls of one are asked one by one before all of them.
MOST_ASKED, LOOKUP_STEPS, MOST_BYTES, MOST_KEPT, FEW_CALLS = 200, "300000", 256 << 10, 50, 2


def restart_of(call: Call) -> Call:
    """The restart_syscall by which a syscall goes on: the registers stay as they are."""
    x32 = call.number & FIRST_X32 if call.architecture == X86_64 else 0
    return replace(call, number=RESTART[call.architecture] | x32)


def call_of(architecture: int, registers: dict[str, int]) -> Call:
    return Call(registers["orig_rax"] & 0xFFFFFFFF, architecture, registers["rip"] & REGISTER_MASKS[architecture],
                arguments_in(registers, architecture))


def restart_number(registers: dict[str, int]) -> int:
    """The number by which an interrupted call goes on, 0 where none was interrupted."""
    result = -registers["rax"] & 0xFFFFFFFFFFFFFFFF
    is_in_call = registers["orig_rax"] & 0xFFFFFFFF < 0x80000000
    return result if is_in_call and result in (*BEGIN_ANEW, ERESTART_RESTARTBLOCK) else 0


def may_notify(filters: Sequence[bytes]) -> bool:
    """Whether a filter has an instruction by which it may answer USER_NOTIF."""
    return any(code == RETURN_COMPUTED or code == RETURN_CONSTANT and k >> 16 == USER_NOTIF
               for data in filters for code, _, _, k in INSTRUCTION.iter_unpack(data))


@dataclass(frozen=True)
class InterruptedSyscall:
    """An interrupted syscall, which is of x86-64 or of i386 if the kernel doesn't report the architecture."""

    calls: tuple[Call, ...]
    # the number with which it starts again, and whether restart_syscall would be called instead
    anew: int
    goes_on: bool


class Restarts:
    """The interrupted calls of stopped threads."""

    def __init__(self, kernel: Kernel) -> None:
        self.kernel = kernel
        self.calls: dict[int, InterruptedSyscall] = {}
        self.lookups: dict[tuple[bytes, ...], regions.Lookup] = {}
        # the answers that were asked for one by one
        self.answers: dict[tuple[bytes, ...], dict[Call, Answer | None]] = {}
        # how often scf may still be asked
        self.remaining_runs = MOST_ASKED

    def begin(self) -> None:
        """Before the threads of another process are stopped."""
        self.remaining_runs = MOST_ASKED
        if len(self.answers) > MOST_KEPT:
            self.lookups.clear()
            self.answers.clear()

    def at_stop(self, thread: int) -> None:
        """A thread has stopped. Until its answer is known its call begins anew, even if this process is killed."""
        self.calls.pop(thread, None)
        registers = self.kernel.registers(thread)
        number = restart_number(registers)
        if not number:
            return
        architecture, goes_on = self.kernel.architecture_of_call(thread), number == ERESTART_RESTARTBLOCK
        calls = (call_of(each, registers) for each in ((architecture,) if architecture in RESTART else RESTART))
        interrupted = InterruptedSyscall(tuple(calls), ERESTARTNOHAND if goes_on else number, goes_on)
        if goes_on:
            self.kernel.set_result(thread, -interrupted.anew)
        self.calls[thread] = interrupted

    def before_it_runs_on(self, thread: int, filters: tuple[bytes, ...]) -> None:
        """Chooses how the call of a thread goes on that has these filters."""
        interrupted = self.calls[thread]
        number = self.number(interrupted, filters)
        if number != interrupted.anew:
            self.kernel.set_result(thread, -number)

    def number(self, interrupted: InterruptedSyscall, filters: tuple[bytes, ...]) -> int:
        """The number with which a syscall continues: restart_syscall's if that is allowed; else its own, from the
        start. If it is denied itself, since its thread got another filter meanwhile, it ends with EINTR."""
        calls = interrupted.calls
        if interrupted.goes_on and all(self.becomes(filters, restart_of(call)) == ALLOWED for call in calls):
            return ERESTART_RESTARTBLOCK
        return errno.EINTR if any(self.becomes(filters, call) == DENIED for call in calls) else interrupted.anew

    def goes_to_supervisor_again(self, thread: int, filters: tuple[bytes, ...]) -> bool:
        """Whether a stopped thread's call begins anew, and is one that a supervisor answers."""
        interrupted = self.calls.get(thread)
        if interrupted is None or not may_notify(filters) or self.number(interrupted, filters) != interrupted.anew:
            return False
        answers = [self.answer(filters, call) for call in interrupted.calls]
        return any(answer is not None and answer.action == "USER_NOTIF" for answer in answers)

    def becomes(self, filters: tuple[bytes, ...], call: Call) -> str | None:
        """The disposition of a syscall, or None if it isn't known."""
        answer = self.answer(filters, call) if filters else ALLOW
        return None if answer is None else answer.disposition

    def answer(self, filters: tuple[bytes, ...], call: Call) -> Answer | None:
        """The answer of filters to a call, after a few by their regions; None if scf can't tell or was asked often."""
        known = self.answers.setdefault(filters, {})
        if call in known:
            return known[call]
        if filters not in self.lookups and len(known) >= FEW_CALLS and self.remaining_runs > 0:
            printed = self.run(["answers", "--examples", f"--limit={LOOKUP_STEPS}"], filters)
            self.lookups[filters] = regions.Lookup(regions.parse_regions(printed))
        region = self.lookups[filters].of(call) if filters in self.lookups else None
        if region is not None or self.remaining_runs <= 0:
            return None if region is None else region.answer
        known[call] = verdicts.decision(self.run(["decide", *call.words()], filters)).answer
        return known[call]

    def run(self, words: Sequence[str], filters: Sequence[bytes]) -> str:
        """The text that scf prints of filters; empty if it can't be run, or isn't built, which would take long."""
        self.remaining_runs -= 1
        try:
            return client.run_scf(words, bundles.stack_bundle(filters), may_build=False, most=MOST_BYTES).text
        except (program.ToolError, OSError):
            return ""
