"""Threads that are stopped by ptrace(2) while their filters are read.

Threads are stopped one by one (PTRACE_SEIZE, PTRACE_INTERRUPT) and listed again and again until all that are listed are
stopped, so that no new one is missed. All continue (PTRACE_DETACH), whatever happens meanwhile.
"""
from __future__ import annotations

import contextlib
import errno
import os
import struct
import time
from collections.abc import Callable

from scftools.base import child
from scftools.base.values import unless_refused
from scftools.model.bpf import BPF_MAXINSNS, INSTRUCTION
from scftools.forms.filters import called
from . import restart
from .ptrace import (PTRACE_DETACH, PTRACE_EVENT_STOP, PTRACE_INTERRUPT, PTRACE_SECCOMP_GET_FILTER, PTRACE_SEIZE,
                     Kernel, contents, has_ended)

# linux/capability.h
CAP_SYS_PTRACE = 19
CAP_SYS_ADMIN = 21
# linux/sched.h: threads of the kernel, and those that it adds to a process to work for it.
PF_KTHREAD = 0x00200000
PF_IO_WORKER = 0x00000010
PF_USER_WORKER = 0x00004000
# How long the others are held for one that doesn't stop, in seconds: it may wait for one, as a thread in vfork(2) does.
HELD_FOR_ONE = 0.2
# How often and for how many seconds the kernel refuses to trace a thread before that is believed: one that ends or
# executes a program is refused for a moment, on a loaded machine for longer, and so is one that another audit looks at.
# A zombie, and one that has another tracer, is believed sooner; and at once where some had that all the time.
SURE_TIMES, SURE_AFTER, SURE_SOON, MOST_VAIN_WAITS = 10, 3, 0.5, 4
# How often threads are waited for while PTRACE_SEIZE waits, and are listed again while none is held, in seconds.
PAUSE, PAUSE_UNHELD = 0.005, 0.02
# What helps where a right is missing.
AS_ROOT = "run this as root, outside of containers"


class Unreadable(Exception):
    """The filters can't be read, and why."""


class Waiting(Unreadable):
    """A thread isn't stopped since it waits for a supervisor."""


class Ended(Exception):
    """This thread isn't there any more."""


def why_no_filters(kernel: Kernel) -> str | None:
    """Why this tool can read no filters at all, or None if it can."""
    if os.uname().machine != "x86_64" or struct.calcsize("P") != 8:
        return "processes can only be inspected on x86-64, and with a 64-bit Python"
    if not kernel.is_proc_ours():
        return "/proc isn't mounted, or isn't of this tool's PID namespace"
    status = kernel.status_of(os.getpid())
    if status.get("Seccomp", "0") != "0":
        return "this tool runs under a filter itself, so the kernel shows it none: run it outside of containers"
    if not int(status.get("CapEff", "0"), 16) >> CAP_SYS_ADMIN & 1:
        return f"the kernel shows filters only to a process with CAP_SYS_ADMIN: {AS_ROOT}"
    return None


def is_sure(since: float, count: int, is_soon: bool) -> bool:
    """Whether a thread is taken as untraceable after the kernel refused it so often since then."""
    return count >= SURE_TIMES and time.monotonic() - since >= (SURE_SOON if is_soon else SURE_AFTER)


def other_tracer(kernel: Kernel, thread: int) -> str | None:
    """The process that traces a thread, if this one doesn't."""
    tracer = kernel.status_of(thread).get("TracerPid", "0")
    return None if tracer in ("0", str(os.getpid())) else tracer


def why_not_traced(kernel: Kernel, thread: int, process: int, error: OSError) -> str | None:
    """Why the kernel refuses to trace a thread, or None if it may be that it ends or executes a program."""
    who = called(thread, process)
    if error.errno not in (errno.EPERM, errno.EACCES):
        return f"{who} can't be stopped: {error.strerror}"
    tracer = other_tracer(kernel, thread)
    if tracer is not None:
        return f"{who} is already traced by process {tracer}, and can have only one tracer"
    if not int(kernel.status_of(os.getpid()).get("CapEff", "0"), 16) >> CAP_SYS_PTRACE & 1:
        return f"{who} can't be stopped without CAP_SYS_PTRACE: {AS_ROOT}"
    if contents("/proc/sys/kernel/yama/ptrace_scope").strip() == b"3":
        return f"{who} can't be stopped: tracing is disabled (kernel.yama.ptrace_scope is 3)"
    return None


class Hold:
    """Threads that are stopped, and that run on where the block that holds them ends, whatever ends it."""

    # how many threads this process has waited for that kept another tracer
    vain_waits = 0

    def __init__(self, kernel: Kernel, listed: Callable[[], dict[int, int]], patience: float,
                 is_forced: bool = False, restarts: restart.Restarts | None = None) -> None:
        import threading  # pylint: disable=import-outside-toplevel

        self.kernel = kernel
        self.listed = listed
        self.patience = patience
        self.until = time.monotonic() + patience
        # Whether threads are stopped that wait for a supervisor, too.
        self.is_forced = is_forced
        self.process_of: dict[int, int] = {}
        # The threads that are traced and run, those of them that were told to stop and haven't yet, and the stopped
        # ones, each with the signal that it gets when it runs on.
        self.seized: set[int] = set()
        self.stopping: set[int] = set()
        self.stopped: dict[int, int] = {}
        # Its answers are kept, so it may be that of an earlier hold.
        self.restarts = restarts or restart.Restarts(kernel)
        self.passed_over: dict[int, str] = {}
        # Those that aren't to be held any more, and couldn't be let go: they end, and are waited for.
        self.leaving: set[int] = set()
        # Of a thread that the kernel refuses to trace: since when it does, how often it was listed so, and whether that
        # is soon believed; and the same before the last listing.
        self.refused: dict[int, tuple[float, int, bool]] = {}
        self.refused_before: dict[int, tuple[float, int, bool]] = {}
        # Held by this thread, but while it waits in PTRACE_SEIZE: then the other one waits for threads, and says how.
        self.lock, self.reaper = threading.Lock(), threading.Thread(target=self.reap, daemon=True)
        self.states: dict[int, int] = {}
        self.is_over = False

    def __enter__(self) -> Hold:
        self.lock.acquire()
        self.reaper.start()
        return self

    def __exit__(self, *_: object) -> None:
        try:
            self.until = max(self.until, time.monotonic() + HELD_FOR_ONE)
            # (a thread that sleeps uninterruptibly doesn't stop soon)
            while time.monotonic() < self.until and any(
                    self.kernel.status_of(thread).get("State", "D")[:1] != "D" for thread in self.stopping):
                self.settle(PAUSE)
            self.let_stopped_go()
        finally:
            self.is_over = True
            self.lock.release()

    def reap(self) -> None:
        """Waits for threads while the tracing one waits in PTRACE_SEIZE. That waits for a thread which executes a
        program, and this one in turn for the others of its process to end, of which the traced ones do only once they
        are waited for."""
        while not self.is_over:
            time.sleep(PAUSE)
            with self.lock:
                for thread in {*self.seized, *self.stopping, *self.leaving, *self.stopped}:
                    may_change = thread not in self.states or os.WIFSTOPPED(self.states[thread])
                    state = self.kernel.wait(thread) if may_change else None
                    if state is not None:
                        self.states[thread] = state

    def seize(self, thread: int) -> None:
        self.lock.release()
        try:
            self.kernel.ptrace(PTRACE_SEIZE, thread, None, None)
        finally:
            self.lock.acquire()
            states, self.states = self.states, {}
            for waiting_thread, state in states.items():
                self.note(waiting_thread, state)

    def stop_all(self) -> None:
        """Stops threads until all that are listed are stopped."""
        while self.seize_listed() or self.seized or self.stopping:
            # (a thread that the kernel refuses to trace may become traceable)
            if not all(is_sure(*refused) for refused in self.refused.values()) or self.waiting():
                self.let_stopped_go()
                time.sleep(PAUSE_UNHELD)
                self.look_at_traced()
            else:
                for thread in sorted(self.seized):
                    # (it may have ended)
                    unless_refused(None, self.kernel.ptrace, PTRACE_INTERRUPT, thread, None, None)
                    self.stopping.add(thread)
                self.seized.clear()
                self.settle(HELD_FOR_ONE)
                if self.stopping:
                    self.let_stopped_go()
                    self.settle(HELD_FOR_ONE)
            child.look_for_signals()
            if time.monotonic() > self.until:
                raise self.why_impatient()

    def waiting(self) -> list[int]:
        """The threads that aren't to be stopped, since their calls would go to their supervisors again."""
        return [] if self.is_forced else list(filter(self.kernel.waits_for_supervisor, sorted(self.seized)))

    def seize_listed(self) -> bool:
        """Traces each thread that is listed, and says whether the list was another one than what is held."""
        this_process = {os.getpid()} - {self.kernel.tool}
        listed = {thread: process for thread, process in self.listed().items() if process not in this_process}
        held = {*self.seized, *self.stopping, *self.stopped}
        others = held - set(listed)
        for thread in sorted(others):
            self.drop(thread)
        self.process_of.update(listed)
        self.refused_before, self.refused = self.refused, {}
        changes = [bool(others)]
        for thread, process in listed.items():
            if thread not in held:
                changes.append(self.trace(thread, process))
            if thread in self.refused and other_tracer(self.kernel, thread) is not None:
                # (of two tools that look at the same threads one has the first of them, and the other one none)
                break
        return any(changes)

    def trace(self, thread: int, process: int) -> bool:
        """Whether there was a change: the thread is traced, or has ended since it was listed, or may yet be traced."""
        if process == self.kernel.tool:
            self.passed_over[process] = "is this tool itself"
            return False
        try:
            self.seize(thread)
        except OSError as error:
            if error.errno == errno.ESRCH:
                return True
            # under another number, before it executed a program, it may have been traced by this process
            if self.kernel.status_of(thread).get("TracerPid") != str(os.getpid()):
                return self.is_refused(thread, process, error)
        self.leaving.discard(thread)
        self.seized.add(thread)
        return True

    def is_refused(self, thread: int, process: int, error: OSError) -> bool:
        """Whether a thread that the kernel refuses to trace is to be listed again."""
        if self.kernel.flags_of(thread) & (PF_KTHREAD | PF_IO_WORKER | PF_USER_WORKER):
            self.passed_over[process] = "is a kernel thread, which makes no syscalls"
            return False
        why = why_not_traced(self.kernel, thread, process, error)
        since, count, _ = self.refused_before.get(thread, (time.monotonic(), 0, False))
        is_zombie = has_ended(self.kernel.status_of(thread))
        is_traced = Hold.vain_waits < MOST_VAIN_WAITS and other_tracer(self.kernel, thread) is not None
        self.refused[thread] = since, count + 1, is_zombie or is_traced
        if (why is None or is_traced) and not is_sure(*self.refused[thread]):
            return True
        Hold.vain_waits += is_traced
        if why is None and is_zombie:
            self.passed_over[process] = "is a zombie: it has ended, and waits for its parent"
            return False
        raise Unreadable(why or f"{called(thread, process)} can't be stopped ({error.strerror}): {AS_ROOT}") from error

    def settle(self, seconds: float) -> None:
        """Waits for those that were told to stop, no longer than this."""
        until = min(time.monotonic() + seconds, self.until)
        while True:
            self.look_at_traced()
            if not self.stopping or time.monotonic() > until:
                return
            time.sleep(0.0005)

    def look_at_traced(self) -> None:
        for thread in (*self.seized, *self.stopping, *self.leaving):
            state = self.kernel.wait(thread)
            if state is not None:
                self.note(thread, state)

    def note(self, thread: int, state: int) -> None:
        """A thread has stopped or ended."""
        self.forget(thread)
        if not os.WIFSTOPPED(state):
            return
        # the signal that it is to get when it runs on, 0 for none
        self.stopped[thread] = 0 if state >> 16 == PTRACE_EVENT_STOP else os.WSTOPSIG(state)
        try:
            self.restarts.at_stop(thread)
        except OSError as error:
            # else it was ended
            if error.errno != errno.ESRCH:
                raise Unreadable(f"the registers of {called(thread, self.process_of[thread])} can't be read and set: "
                                 f"{error.strerror}") from error

    def forget(self, thread: int) -> None:
        self.seized.discard(thread)
        self.stopping.discard(thread)
        self.leaving.discard(thread)
        self.stopped.pop(thread, None)
        self.restarts.calls.pop(thread, None)

    def drop(self, thread: int) -> None:
        """Lets a thread go that isn't to be held any more, whether it is there or has ended."""
        given = self.stopped.get(thread, 0)
        if thread in self.restarts.calls:
            # (where the choice can't be made, its call begins anew)
            with contextlib.suppress(OSError, Ended, Unreadable):
                filters, _ = stack_of(self.kernel, thread, self.process_of[thread])
                self.restarts.before_it_runs_on(thread, filters)
        self.forget(thread)
        try:
            self.kernel.ptrace(PTRACE_DETACH, thread, None, given)
        except OSError:
            # It ends, which its parent is told only once its tracer has waited for it; or it never stopped.
            if self.kernel.wait(thread) is None:
                self.leaving.add(thread)

    def let_stopped_go(self) -> None:
        for thread in list(self.stopped):
            self.drop(thread)

    def why_impatient(self) -> Unreadable:
        for thread in self.waiting():
            return Waiting(f"{called(thread, self.process_of[thread])} has waited {self.patience:g} seconds for a "
                           f"seccomp supervisor, which would get its syscall twice if it were stopped")
        for thread in sorted(self.stopping):
            state = self.kernel.status_of(thread).get("State", "none")
            return Unreadable(f"{called(thread, self.process_of[thread])} didn't stop within {self.patience:g} "
                              f"seconds: its state is {state}")
        return Unreadable(f"threads came and went for {self.patience:g} seconds, faster than they can be stopped")


def why_not_shown(this: str, error: OSError) -> str:
    """Why the kernel doesn't show this filter."""
    never = "this kernel doesn't show filters"
    return {errno.EACCES: f"the kernel shows filters only to a process with CAP_SYS_ADMIN that has no filter of its "
                          f"own: {AS_ROOT}",
            errno.EINVAL: f"{never}: it was built without CONFIG_CHECKPOINT_RESTORE",
            **dict.fromkeys((errno.EIO, errno.ENOSYS), f"{never}: {error.strerror}"),
            errno.EMEDIUMTYPE: f"{this} isn't kept as classic BPF, so the kernel can't show it"
            }.get(error.errno, f"{this} can't be read: {error.strerror}")


def filter_at(kernel: Kernel, thread: int, process: int, index: int) -> bytes | None:
    """The bytes of the filter with this index, 0 being the oldest, or None behind the newest. ptrace(2) says that 0 is
    the newest; the kernel counts from the oldest (get_nth_filter in kernel/seccomp.c). The length is queried before the
    copy and returned by it, and the buffer has room for the longest filter."""
    import ctypes  # pylint: disable=import-outside-toplevel

    room = ctypes.create_string_buffer(BPF_MAXINSNS * INSTRUCTION.size)
    this = f"filter {index} of {called(thread, process)}"
    try:
        count = kernel.ptrace(PTRACE_SECCOMP_GET_FILTER, thread, index, None)
        if count > BPF_MAXINSNS:
            raise Unreadable(f"{this} has {count} instructions, more than a filter may have")
        again = kernel.ptrace(PTRACE_SECCOMP_GET_FILTER, thread, index, room)
    except OSError as error:
        has_none = error.errno == errno.EINVAL and index == 0 and kernel.status_of(thread).get("Seccomp") in ("0", "1")
        if has_none or error.errno == errno.ENOENT:
            return None
        raise (Ended(thread) if error.errno == errno.ESRCH else Unreadable(why_not_shown(this, error))) from error
    if again != count:
        raise Unreadable(f"{this} changed its length from {count} to {again} while it was read")
    return kernel.keep(room.raw[:count * INSTRUCTION.size])


def stack_of(kernel: Kernel, thread: int, process: int) -> tuple[tuple[bytes, ...], bool]:
    """The filters of a stopped thread, oldest first, and whether it is in the strict mode in place of any."""
    filters: list[bytes] = []
    while (data := filter_at(kernel, thread, process, len(filters))) is not None:
        filters.append(data)
    status = kernel.status_of(thread)
    if not status:
        raise Ended(thread)
    counted = status.get("Seccomp_filters")
    if counted is not None and counted != str(len(filters)):
        raise Unreadable(f"the kernel counts {counted} filters of {called(thread, process)} and shows {len(filters)}")
    return tuple(filters), status.get("Seccomp") == "1"
