"""Processes, and the filters that the kernel keeps of their threads.

Filters belong to threads (seccomp(2)), so two threads of one process may have different ones, or none: each thread is
inspected. A child process does it (`child`): all threads are stopped (`hold`), the filters of each are copied
(PTRACE_SECCOMP_GET_FILTER), and all continue. A process's name (its `comm`) is read while it is stopped, since its ID
may be reused later.
"""
from __future__ import annotations

from collections.abc import Callable

from scftools.base import child, output, program
from scftools.base.child import Interrupted
from scftools.base.values import Any
from scftools.forms.filters import Inspection, Stack, called
from .containers import Container, container_of
from .hold import Ended, Hold, Unreadable, Waiting, stack_of, why_no_filters
from .ptrace import Kernel, is_executing
from .restart import Restarts

__all__ = ("Container", "Interrupted", "Kernel", "Unreadable", "container_of")

# How long an inspection may last, in seconds, and how much of it all threads have to stop.
PATIENCE, TO_STOP = 10.0, 0.9
# The paragraph in --help.
NEEDS = (f"This needs CAP_SYS_ADMIN and CAP_SYS_PTRACE, which root has outside of containers, and a kernel with "
         f"CONFIG_CHECKPOINT_RESTORE. The threads are stopped for a moment with ptrace(2), and continue within "
         f"{PATIENCE:g} seconds, whatever happens. A few blocking syscalls then return early with EINTR, as after "
         f"SIGSTOP and SIGCONT (signal(7)): epoll_wait, semop, sigtimedwait, and recv, send and the like with a "
         f"timeout. nanosleep, clock_nanosleep, poll and futex continue by restart_syscall(2) for the remaining time; "
         f"if the thread's filters don't allow that, they restart with their whole time, or return EINTR if the "
         f"filters no longer allow the syscall itself. A thread that waits for a seccomp supervisor isn't stopped "
         f"before the supervisor answers, since it would get the syscall twice.")


def inspection_of(kernel: Kernel, hold: Hold) -> Inspection:
    """The stacks of the stopped threads. An equal filter of another thread is kept once."""
    stacks: dict[tuple[tuple[bytes, ...], bool], Stack] = {}
    asked_again = []
    stopped = sorted((hold.process_of[thread], thread) for thread in hold.stopped)
    for process, thread in stopped:
        key = stack_of(kernel, thread, process)
        stacks.setdefault(key, Stack(*key)).threads.setdefault(process, []).append(thread)
        if hold.restarts.goes_to_supervisor_again(thread, key[0]):
            asked_again.append((process, thread))
    names = {process: kernel.name_of(process) for process in dict.fromkeys(process for process, _ in stopped)}
    passed_over = {process: why for process, why in hold.passed_over.items() if process not in names}
    return Inspection(list(stacks.values()), names, passed_over, asked_again)


def read_threads(kernel: Kernel, listed: Callable[[], dict[int, int]], patience: float,
                 is_forced: bool = False, restarts: Restarts | None = None) -> Inspection:
    """Stops all listed threads, reads what each has, and lets them run on. `restarts` are those of an earlier call."""
    why = why_no_filters(kernel)
    if why is not None:
        raise Unreadable(why)
    with Hold(kernel, listed, patience, is_forced, restarts) as hold:
        while True:
            hold.stop_all()
            try:
                return inspection_of(kernel, hold)
            except Ended as ended:
                hold.drop(ended.args[0])


def look(kernel: Kernel, listed: Callable[[], dict[int, int]], patience: float, is_forced: bool) -> Inspection:
    """Reads all threads that are listed, in a child process, so that it ends in time whatever it waits for."""
    try:
        return child.run_in_child(lambda: read_threads(kernel, listed, TO_STOP * patience, is_forced), patience)
    except child.Late as late:
        # (else it may be scf that took so long, or the machine)
        why = ": the kernel makes a tracer wait, as for a thread that executes a program" if any(
            map(is_executing, listed())) else ""
        raise Unreadable(f"the threads couldn't be read within {patience:g} seconds{why}; all stopped threads "
                         f"continue") from late
    except child.Died as died:
        raise Unreadable("the inspecting process ended without a result") from died


def process_of(kernel: Kernel, number: int) -> int:
    """The process of a process's or a thread's number."""
    process = kernel.status_of(number).get("Tgid")
    if process is None:
        raise Unreadable(f"there is no process {number}: it has ended, or that is its number in another PID namespace")
    return int(process)


def look_at_process(kernel: Kernel, number: int, thread: int | None = None, patience: float = PATIENCE,
                    is_forced: bool = False) -> Inspection:
    """Reads all threads of the process of this number, or one of them."""
    process = process_of(kernel, number)
    if thread is not None and thread not in kernel.threads_of(process):
        raise Unreadable(f"process {process} has no thread {thread}")
    inspection = look(kernel, lambda: {listed: process for listed in kernel.threads_of(process)
                                       if thread in (None, listed)}, patience, is_forced)
    if not inspection.stacks:
        raise Unreadable(f"{called(thread or process, process)} {inspection.passed_over.get(process, 'has ended')}")
    return inspection


def look_at_container(kernel: Kernel, container: Container, is_forced: bool) -> Inspection:
    inspection = look(kernel, lambda: {thread: process for process in container.processes()
                                       for thread in kernel.threads_of(process)}, PATIENCE, is_forced)
    if not inspection.stacks:
        raise Unreadable("the processes of the container have ended")
    return inspection


def number_in(text: str) -> int:
    """The number of a process or a thread among the words of a tool."""
    if not text:
        raise program.ToolError("'' isn't a process ID: the command that should print one printed nothing")
    if text == "0":
        raise program.ToolError("'0' isn't a process ID: it is what `podman inspect` prints of a container that "
                                "doesn't run, and systemctl of a unit")
    if not (text.isascii() and text.isdigit()) or len(text) > 10 or not 0 < int(text) < 2**31:
        raise program.ToolError(f"'{text}' isn't a process ID: for a container `podman inspect -f '{{{{.State.Pid}}}}' "
                                "NAME` prints it, as docker does, for a unit `systemctl show -p MainPID --value NAME`")
    return int(text)


def read_or_end(read: Callable[[], Any], is_json: bool = False, has_force: bool = True) -> Any:
    """The result of `read`; ends the tool where that fails, with an object where one is wanted, or by a signal."""
    try:
        return read()
    except Unreadable as error:
        why = f"{error} (--force stops it)" if has_force and isinstance(error, Waiting) else str(error)
        if is_json:
            output.put_json({"status": program.TROUBLE, "verdict": None, "stacks": [], "why": output.escaped(why)})
        raise program.ToolError(why) from error
    except Interrupted as came:
        import signal  # pylint: disable=import-outside-toplevel

        program.say(f"ended by {signal.Signals(came.args[0]).name}; all stopped threads continue")
        came.end_tool()
        raise program.ToolError("the signal didn't end it") from came
