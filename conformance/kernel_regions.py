"""The regions of filters, as `scf answers` prints them: the record of each is tried on the running kernel.

Nothing that a filter allows is executed. An older filter of the child, which answers TRACE to everything, decides where
the others allow, and its tracer has the kernel skip each call that it is told of.
"""
from __future__ import annotations

from collections import Counter
from collections.abc import Iterator, Sequence
from errno import ENOSYS

import kernel_child
from kernel_child import MOST_RECORDS, NR_SECCOMP, SITES, Kernel, Setting
from kernel_exceptions import NR_UPROBE, NR_URETPROBE
from kernel_programs import ALLOW, JEQ, LD_WORD, RET, TRACE, Insn, packed
from scftools.model.answers import I386_NUMBER, MAX_ERRNO, X86_64, Answer
from scftools.model.calls import ARCHITECTURE, NO_CALL, Call
from scftools.ask import regions
from scftools.ask.regions import FREE, POINTER, Region

# What the tracer is told of a call that the filters allow: data that no profile gives.
ALLOWED = 0x5CF1
# The calls of a child before those that are tried: its own, the tracer's, and the older filter.
OWN = 8
GUARD = packed([Insn(LD_WORD, 4), Insn(JEQ, X86_64, 0, 2), Insn(LD_WORD, 0), Insn(JEQ, NR_SECCOMP, 1, 0),
                Insn(RET, TRACE | ALLOWED), Insn(RET, ALLOW)])


def why_not(region: Region, call: Call, has_i386: bool) -> str | None:
    """Why a region's record isn't tried, None if it is."""
    answer = region.answer
    if answer is None or not region.is_exact:
        return "answers that aren't known"
    if call.architecture != X86_64 and (call.architecture != I386_NUMBER or not has_i386):
        return "architectures whose syscalls no process makes here"
    if call.number >= NO_CALL:
        return "numbers that no process has"
    if call.architecture == X86_64 and call.number in (NR_URETPROBE, NR_UPROBE):
        return "syscalls that the kernel makes without a filter"
    if (call.architecture, call.number) == (X86_64, NR_SECCOMP) and answer.action in ("ALLOW", "LOG", "TRACE"):
        return "the syscall that loads filters, where it is executed"
    is_i386, site = call.architecture == I386_NUMBER, call.pointer - 2
    is_there = site in SITES and kernel_child.is_gate(site) == is_i386
    return None if is_there else "places from which no call is made here"


def record_of(region: Region) -> Call:
    """A record of a region: of an architecture that this machine has, and at one of the child's places, if the region
    has such records."""
    call, its_architecture = region.call, region.words.get(ARCHITECTURE, FREE)
    architecture = next(filter(its_architecture.has, (X86_64, I386_NUMBER)), call.architecture)
    pointers = (site + 2 for site in SITES if kernel_child.is_gate(site) == (architecture == I386_NUMBER))
    pointer = next((place for place in pointers if region.has({POINTER: place})), call.pointer)
    return Call(call.number, architecture, pointer, call.arguments)


def comes(answer: Answer, call: Call) -> str:
    """What comes back from a call with this answer (seccomp(2)), under the older filter and its tracer."""
    skipped = kernel_child.returns(-ENOSYS)
    if answer.action == "TRACE":
        return kernel_child.tracer_told(answer.data) + skipped
    if TRACE < answer.word < 1 << 31:
        # ALLOW and LOG, and actions without a name before which TRACE counts
        return kernel_child.tracer_told(ALLOWED) + skipped
    if answer.action == "USER_NOTIF":
        return skipped
    if answer.action == "ERRNO":
        return kernel_child.returns(-min(answer.data, MAX_ERRNO))
    if answer.action == "TRAP":
        return kernel_child.signals(answer.data, call)
    return kernel_child.THREAD_ENDS if answer.action == "KILL_THREAD" else kernel_child.PROCESS_ENDS


class Trial:
    """The records of a stack's regions, on the running kernel: how many gave which answer, how many were left out and
    why, and what came otherwise."""

    def __init__(self, kernel: Kernel, filters: Sequence[bytes], has_i386: bool) -> None:
        self.kernel, self.filters = kernel, filters
        self.tried: Counter[str] = Counter()
        self.left_out: Counter[str] = Counter()
        regions_found = regions.regions_of_filters(filters)
        self.regions = [] if regions_found is None else regions_found
        records: list[tuple[Call, Answer]] = []
        for region in self.regions:
            call = record_of(region)
            why = why_not(region, call, has_i386)
            if why is not None:
                self.left_out[why] += 1
            elif region.answer is not None:
                records.append((call, region.answer))
        # those that end the child stand last
        self.records = sorted(records, key=lambda record: record[1].action.startswith(("KILL", "UNNAMED")))
        self.differences = list(self._differences()) if regions_found is not None else ["scf answers: unfinished"]

    def _differences(self) -> Iterator[str]:
        """What comes of the records otherwise than scf says."""
        done, most = 0, MOST_RECORDS - OWN - len(self.filters)
        while done < len(self.records):
            records = self.records[done:done + most]
            came = self.kernel.ask([GUARD, *self.filters], [call for call, _ in records],
                                   Setting(traced=True, skips=True))
            if not came.texts or any(number != 0 for number in came.installed):
                yield f"the kernel takes {came.installed.count(0)} of {len(self.filters) + 1} filters"
                return
            for (call, answer), text in zip(records, came.texts):
                self.tried[answer.action] += 1
                if text != comes(answer, call):
                    yield f"nr {call.number} arch {call.architecture:#x} ip {call.pointer:#x} args " \
                          f"{' '.join(map(hex, call.arguments))}: scf says {answer}, the kernel: {text}"
            done += len(came.texts)

    def describe(self) -> str:
        def counted(counts: Counter[str]) -> str:
            return ", ".join(f"{count} {what}" for what, count in counts.most_common()) or "none"

        return (f"{len(self.regions)} regions, tried {sum(self.tried.values())}: {counted(self.tried)}; left out: "
                f"{counted(self.left_out)}")
