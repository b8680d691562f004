"""All processes of a machine, as /proc describes them, in one pass, and what wasn't looked at; and which containers'
processes come and go too fast for that.

/proc says of each thread whether it has a filter. The processes of the kernel, those that have ended, and this tool are
left out.
"""
from __future__ import annotations

import os
import re
import time
from collections import Counter
from collections.abc import Mapping
from itertools import islice

from scftools.base import output
from scftools.base.values import Any, Pattern, dataclass, field, unless_refused
from .containers import Group
from .hold import PF_KTHREAD
from .ptrace import PROC_PID_INIT_INO, Kernel, contents, has_ended, stat_of, ticks_at_start

# How often processes that started meanwhile are looked for.
LISTINGS = 3
# Of what wasn't looked at of a user, at most so many reasons are given, and so many characters of each.
MOST_REASONS, MOST_OF_REASON = 3, 200
# In /proc/THREAD/status, of a thread that is in a mode of seccomp(2).
CONFINED = Pattern(rb"^Seccomp:\t[12]", re.M)
# How often the groups of containers are looked at, and read in a look, with which pause in seconds; and how many groups
# below a container's own are.
LOOKS, READS, PAUSE, MOST_GROUPS = 3, 4, 0.005, 100
COMES_AND_GOES = "it has processes that come and go faster than they can be looked at"


@dataclass(frozen=True)
class Process:
    """A process as /proc describes it."""

    number: int
    parent: int
    name: bytes
    # the path of its executable as the kernel shows it, empty if that is unknown
    executable: bytes
    # its effective user ID
    user: int
    # its control groups, by the controllers of their hierarchies
    groups: dict[str, bytes]
    # its PID namespace and those around it that this tool may see, the innermost first, and its number in the innermost
    spaces: tuple[tuple[int, int], ...]
    inner: int
    # its effective capabilities, as bits
    capabilities: int
    has_no_new_privileges: bool
    threads: tuple[int, ...]
    # whether some thread is in a mode of seccomp(2), and whether the main one can't be stopped soon
    is_confined: bool
    is_stuck: bool
    # the ID of the user who answers for it (Kernel.owner_of)
    owner: int
    # when it started, in the kernel's clock ticks
    start: int

    @property
    def started_at(self) -> float:
        """When it started, in seconds since 1970."""
        return time.time() - time.clock_gettime(time.CLOCK_BOOTTIME) + self.start / os.sysconf("SC_CLK_TCK")


def inherited(processes: Mapping[int, Process], own: Mapping[int, Any]) -> dict[int, Any]:
    """For each process its own value, or else that of its nearest ancestor with one, or None. Each is asked once."""
    values: dict[int, Any] = dict(own)
    for number in processes:
        asked: list[int] = []
        while number in processes and number not in values:
            values[number] = None
            asked.append(number)
            number = processes[number].parent
        values.update(dict.fromkeys(asked, values.get(number)))
    return values


@dataclass
class Snapshot:
    """The processes of a machine, and what wasn't looked at."""

    processes: dict[int, Process] = field(default_factory=dict)
    # lines by the users whose things they are about, None for root
    left_out_of: dict[int | None, list[str]] = field(default_factory=dict)
    # notes on the inspection itself
    notes: list[str] = field(default_factory=list)

    def leave_out(self, line: str, user: int | None = None) -> None:
        lines = self.left_out_of.setdefault(user, [])
        if line not in lines:
            lines.append(line)

    @property
    def left_out(self) -> dict[int | None, list[str]]:
        """The lines: for a user one."""
        return {user: lines if user is None else [f"of user {user}: " + output.some(
            [output.cut(line, MOST_OF_REASON) for line in lines[:100]], MOST_REASONS)]
                for user, lines in sorted(self.left_out_of.items(), key=lambda of: (of[0] is not None, of[0] or 0))}


def process_of_number(kernel: Kernel, number: int) -> Process | None:
    """A process, or None if all of its threads have ended or it is the kernel's."""
    status, threads = kernel.status_of(number), kernel.threads_of(number)
    if status.get("Tgid") != str(number) or kernel.flags_of(number) & PF_KTHREAD:
        return None
    first, inner = number, status.get("NSpid", str(number)).split()[-1]
    if has_ended(status):
        # the kernel has let go what the main thread had: another one shows the executable and the control groups
        statuses = {thread: kernel.status_of(thread) for thread in threads}
        threads = [thread for thread in threads if not has_ended(statuses[thread])]
        if not threads:
            return None
        first, status = threads[0], statuses[threads[0]]
    is_confined = status.get("Seccomp", "0") != "0" or any(
        CONFINED.search(contents(f"/proc/{thread}/status")) for thread in threads if thread != first)
    is_stuck = is_confined and status["State"][:1] == "D"
    user, executable = int(status["Uid"].split()[1]), unless_refused(b"", os.readlink, f"/proc/{first}/exe".encode())
    return Process(number, int(status["PPid"]), kernel.name_of(number), executable, user,
                   kernel.groups_of(first), tuple(kernel.namespaces_of(first)), int(inner),
                   int(status.get("CapEff", "0"), 16), status.get("NoNewPrivs") == "1", tuple(threads), is_confined,
                   is_stuck, kernel.owner_of(first, user), ticks_at_start(number) or 0)


def read_machine(kernel: Kernel, why: str | None) -> Snapshot:
    """All processes, each as it was at some moment; `why` says why no filters can be read."""
    snapshot = Snapshot()
    if why is not None:
        snapshot.leave_out(f"no filters could be read: {why}")
    space = unless_refused(None, os.stat, "/proc/self/ns/pid")
    if space is None or space.st_ino != PROC_PID_INIT_INO:
        snapshot.leave_out("processes outside of the PID namespace that this tool runs in")
    if not kernel.is_root_the_first():
        snapshot.leave_out("control groups outside of the cgroup namespace that this tool runs in, so containers and "
                           "units may not be known as such")
    for _ in range(LISTINGS):
        unread = [number for number in kernel.processes() if number not in snapshot.processes]
        described = (process_of_number(kernel, number) for number in unread if number != kernel.tool)
        snapshot.processes.update((process.number, process) for process in described if process is not None)
    return snapshot


class Turnover:
    """Containers, by their first processes, whose processes come and go so fast that an audit sees none of them."""

    def __init__(self, kernel: Kernel, groups: Mapping[int, Group]) -> None:
        found = {first: kernel.group_folder(group.hierarchy, group.path) for first, group in groups.items()}
        self.folders = {first: os.fsdecode(b"".join(folder)) for first, folder in found.items() if folder is not None}
        # in how many looks a listed process was gone
        self.gone: Counter[int] = Counter()

    def look(self) -> None:
        groups = {first: [path for path, _, _ in islice(os.walk(folder), MOST_GROUPS)]
                  for first, folder in self.folders.items()}
        listed: dict[int, set[bytes]] = {first: set() for first in groups}
        for _ in range(READS):
            for first, paths in groups.items():
                listed[first].update(number for path in paths for number in contents(f"{path}/cgroup.procs").split())
            time.sleep(PAUSE)
        self.gone.update(first for first, numbers in listed.items()
                         if any(stat_of(int(number))[:1] in ([], [b"Z"], [b"X"]) for number in numbers))
