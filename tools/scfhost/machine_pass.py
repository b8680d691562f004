"""The filters of some processes of a machine, as a child copies them that has root's rights for nothing else.

Processes are stopped one after another, each for as long as its own filters are read (`hold`), and of one with many
threads some of these at a time. One that can't be read doesn't keep the others from it. A filter is kept once.
"""
from __future__ import annotations

import base64
import os
import time
from collections.abc import Callable, Iterable, Iterator, Sequence

from scftools.base import child
from scftools.base.values import Any
from scftools.forms.filters import Inspection, Stack, called
from . import processes
from .hold import Unreadable
from .ptrace import contents, is_executing
from .restart import Restarts

# How long the threads of a process may take to stop, and at the second attempt, for a machine that does much else; and
# how long is waited for programs that are being executed, in seconds.
SECONDS_TO_STOP, TO_STOP_AGAIN, TO_EXECUTE = 1.0, 6.0, 2.0
# How many threads of a process are stopped at a time, so that none is for long; how many may be read that started
# meanwhile; and how many bytes the distinct filters may have of a row, and of those that are judged at once.
MOST_HELD, MOST_NEW, MOST_FILTER_BYTES, MOST_AT_ONCE = 200, 400, 8 << 20, 32 << 20
# What a thread waits in whose control group of version 1 is frozen (proc_pid_wchan(5)): it can't be stopped.
REFRIGERATOR = b"__refrigerator"
# Why a process wasn't read.
FROZEN = "its control group is frozen, so it can't be stopped"
EXECUTES = "it executes a program, and until that has begun the kernel makes a tracer wait"
TOO_MUCH = "its filters, and those that were read before, have too many bytes"
# What a child answers: a filter, which gets the next number; of a process its stacks, each by the numbers of its
# filters, whether it is the strict mode, and its threads; and why a process isn't read.
ANSWER = ({"filter": str}, {"process": int, "stacks": [{"filters": [int], "is_strict": bool, "threads": [int]}],
                            "notes": [str]}, {"process": int, "why": str})


class _Reader(processes.Kernel):
    """Reads processes in a child, and sends what each has. Each distinct filter is kept once, and has a number."""

    def __init__(self, tool: int, is_forced: bool, kept: Iterable[bytes], send: Callable[[Any], object]) -> None:
        super().__init__()
        self.tool, self.is_forced, self.send = tool, is_forced, send
        self.restarts = Restarts(self)
        self.numbers = {data: at for at, data in enumerate(kept)}
        self.filters = {data: data for data in self.numbers}
        self.remaining_bytes = MOST_FILTER_BYTES - sum(map(len, self.filters))

    def keep(self, data: bytes) -> bytes:
        if data not in self.filters:
            self.remaining_bytes -= len(data)
            if self.remaining_bytes < 0:
                raise Unreadable(TOO_MUCH)
        return self.filters.setdefault(data, data)

    def read_all(self, numbers: Iterable[int]) -> None:
        """Reads processes, one after another; those that may take long at the end."""
        again = [number for number in numbers if not self.read(number, SECONDS_TO_STOP)]
        until = time.monotonic() + TO_EXECUTE
        for number in again:
            while any(map(is_executing, self.threads_of(number))) and time.monotonic() < until:
                child.look_for_signals()
                time.sleep(0.02)
            self.read(number, TO_STOP_AGAIN)

    def read(self, number: int, patience: float) -> bool:
        """Whether all of a process was read, or why not is known; otherwise it is to be read again."""
        try:
            self.send_found(number, patience)
        except Unreadable as error:
            why, is_asleep = str(error), self.status_of(number).get("State", "D")[:1] == "D"
            is_final = why in (FROZEN, TOO_MUCH) or is_asleep and why != EXECUTES
            if patience == SECONDS_TO_STOP and not is_final:
                return False
            self.send({"process": number, "why": why})
        return True

    def send_found(self, number: int, patience: float) -> None:
        """Sends what a process has: all of it, or nothing."""
        if contents(f"/proc/{number}/wchan") == REFRIGERATOR:
            raise Unreadable(FROZEN)
        if any(map(is_executing, self.threads_of(number))):
            raise Unreadable(EXECUTES)
        self.restarts.begin()
        stacks, notes = [], []
        for inspection in list(self.slices(number, patience)):
            for stack in inspection.stacks:
                for data in stack.filters:
                    if data not in self.numbers:
                        self.numbers[data] = len(self.numbers)
                        self.send({"filter": base64.b64encode(data).decode()})
                stacks.append({"filters": [self.numbers[data] for data in stack.filters],
                               "is_strict": stack.is_strict, "threads": stack.threads[number]})
            notes += [f"the syscall of {called(thread, process)} restarts, and its seccomp supervisor gets it a second "
                      f"time" for process, thread in inspection.asked_again]
        self.send({"process": number, "stacks": stacks, "notes": notes})

    def slices(self, number: int, patience: float) -> Iterator[Inspection]:
        """Reads the threads of a process, some at a time, until none is new."""
        seen: set[int] = set()
        most = len(self.threads_of(number)) + MOST_NEW
        while len(seen) < most and (now := [each for each in self.threads_of(number) if each not in seen][:MOST_HELD]):
            seen.update(now)
            # (those that end meanwhile aren't listed again)
            yield processes.read_threads(self, lambda threads=now: {
                thread: number for thread in threads if os.path.exists(f"/proc/{number}/task/{thread}")
            }, patience, self.is_forced, self.restarts)


class Copies:
    """The filters of some processes: what children have copied, and the processes that wait for it."""

    def __init__(self, kernel: processes.Kernel, numbers: Iterable[int], is_forced: bool) -> None:
        self.kernel, self.is_forced = kernel, is_forced
        # The distinct stacks with their threads, why processes weren't read, and notes.
        self.stacks: dict[tuple[tuple[bytes, ...], bool], Stack] = {}
        self.unread: dict[int, str] = {}
        self.notes: list[str] = []
        # The processes that wait, in their order; and the distinct filters, by their numbers.
        self.waiting = dict.fromkeys(numbers)
        self.filters: list[bytes] = []

    def receive(self, value: Any) -> None:
        value = child.checked(value, ANSWER)
        if "filter" in value:
            self.filters.append(base64.b64decode(value["filter"], validate=True))
            return
        number = value["process"]
        del self.waiting[number]
        if "why" in value:
            self.unread[number] = value["why"]
            return
        for stack in value["stacks"]:
            key = tuple(self.filters[at] for at in stack["filters"]), stack["is_strict"]
            self.stacks.setdefault(key, Stack(*key)).threads.setdefault(number, []).extend(stack["threads"])
        self.notes += value["notes"]

    def forget(self) -> None:
        self.stacks.clear()
        self.filters.clear()

    def send(self, send: Callable[[Any], object], _: float) -> None:
        """Sends, in a child, what waits."""
        _Reader(self.kernel.tool, self.is_forced, self.filters, send).read_all(list(self.waiting))


def read_each(each: Sequence[Copies], budget: child.Budget) -> tuple[int, dict[int, str]]:
    """Has a child read what waits, of one after another until there are many bytes: of how many, and why some wait."""
    count = 0

    def turns() -> Iterator[tuple[int, float]]:
        nonlocal count
        room = MOST_AT_ONCE
        for at, seconds in budget.shares(range(len(each))):
            yield at, seconds
            count, room = at + 1, room - sum(map(len, each[at].filters))
            if room < 0:
                return

    lost = child.ask_each([copies.send for copies in each], turns(), lambda at, value: each[at].receive(value))
    for at in lost:
        # (the first may be what it waits for)
        for number in list(each[at].waiting)[:1]:
            each[at].waiting[number] = each[at].waiting.pop(number)
    return count, lost
