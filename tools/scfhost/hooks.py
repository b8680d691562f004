"""Hooks of container runtimes: a container's state, and whether its process is confined as configured.

A runtime starts a hook with the container's state on standard input (OCI runtime specification, runtime.md: State, and
config.md: POSIX-platform Hooks). The process is held by a pidfd (pidfd_open(2)) as soon as its ID is known, so that no
other process with that ID later is taken for it, or killed in its place.

A child reads the filters and compares them, and the hook itself only waits for its report, so that the deadline holds
whatever the child hangs in. A watchdog kills the container if the hook is stopped or ended before that.
"""
from __future__ import annotations

import contextlib
import errno
import json
import math
import os
import select
import signal
import time
from collections.abc import Callable, Sequence

from scftools.base import child, inputs, output, program
from scftools.base.values import Any, by_key, dataclass, unless_refused
from scftools.model import profiles
from scftools.ask import verdicts
from scftools.forms import engines
from scftools.forms.filters import Inspection
from . import configurations, containers, hold, processes, verify
from .configurations import ContainerError
from .processes import Kernel
from .ptrace import has_ended

# The verdict on a container whose configuration has no profile.
UNSTATED = "unstated"
# The container's own program isn't executed yet; runc calls a poststart hook so.
CREATED = "created"
# How often threads without a filter are read again, in seconds: a runtime may call hooks before it loads the filter.
READING_PAUSE = 0.02
# A hook has no environment but the one that is named.
HOOK_PATH = "PATH=/usr/local/sbin:/usr/local/bin:/usr/sbin:/usr/bin:/sbin:/bin"
# Seconds to wait for the container's state, for killed processes to end, and for the explanation of what is known
# already; and how much later than the hook, which may be killing then, the watchdog acts.
STATE_SECONDS, KILL_SECONDS, EXPLANATION_SECONDS, GRACE = 5.0, 2.0, 10.0, 4.0
# Seconds that the check may take beyond the wait for a filter.
DEADLINE = 30.0
# How much time the hook file leaves for what isn't waited for: the tool's own start, and its end.
STARTUP = 10


@dataclass(frozen=True)
class ContainerState:
    """A container, as the runtime states it."""

    name: str
    status: str
    pid: int
    bundle: str


def is_ready(file: int, until: float) -> bool:
    """Waits until there is something to read, or an end, until this time at the latest."""
    return bool(select.select([file], [], [], max(0.0, until - time.monotonic()))[0])


def container_of(data: bytes) -> ContainerState:
    try:
        state = json.loads(data.decode("utf-8"))
    except (ValueError, RecursionError) as error:
        raise ContainerError("the container's state on standard input isn't JSON") from error
    if not isinstance(state, dict):
        raise ContainerError("the container's state isn't an object")
    for member in ("ociVersion", "id", "status", "bundle"):
        if not isinstance(state.get(member), str) or not state[member]:
            raise ContainerError(f"the container's state has no {member}")
    name, status, bundle, pid = state["id"], state["status"], state["bundle"], state.get("pid")
    if type(pid) is not int or not 0 < pid < 2**31:
        raise ContainerError(f"the state of container {name} has no pid")
    if not bundle.startswith("/") or "\0" in bundle:
        raise ContainerError(f"the bundle of container {name} isn't an absolute path")
    return ContainerState(name, status, pid, bundle)


def state(seconds: float) -> bytes:
    """The bytes that the runtime writes to standard input before it closes it, within so many seconds."""
    until, data = time.monotonic() + seconds, b""
    while len(data) <= inputs.LIMITS["state"]:
        try:
            if not is_ready(0, until):
                raise ContainerError(f"the container's state didn't come on standard input within {seconds:g} seconds")
            piece = os.read(0, 1 << 16)
        except OSError as error:
            raise ContainerError(inputs.why("-", "state", error)) from error
        if not piece:
            return data
        data += piece
    raise ContainerError(f"the state on standard input has more than {inputs.LIMITS['state']} bytes")


def configuration_of(container: ContainerState) -> dict[str, Any] | None:
    """The seccomp configuration of the container's config.json, as `configurations.seccomp_in`."""
    name = os.path.join(container.bundle, configurations.CONFIG)
    # (a pipe or a device isn't opened: it may never end)
    if os.path.exists(name) and not os.path.isfile(name) and not os.path.isdir(name):
        raise ContainerError(f"'{name}' isn't a regular file")
    try:
        value = engines.parse_json(inputs.read_whole(name, "profile"))
    except (program.ToolError, profiles.Refused) as why:
        raise ContainerError(f"the container's configuration: {why}") from why
    return configurations.seccomp_in(value, name)


def members_of(kernel: Kernel, pid: int) -> containers.Container:
    """The processes of a container whose first one this is: those of its PID namespace if it is also the first one
    there, else those of its control group if this tool isn't in that group itself."""
    if kernel.status_of(pid).get("NSpid", "").split()[1:][-1:] == ["1"]:
        space = set(kernel.namespaces_of(pid)[:1])
        return containers.Container(None, lambda: [number for number in kernel.processes()
                                                   if space & set(kernel.namespaces_of(number))], end_together=True)
    try:
        container = processes.container_of(kernel, pid)
        if container.group is not None and os.getpid() not in container.processes():
            return container
    except processes.Unreadable:
        pass
    return containers.Container(None, lambda: descendants(kernel, pid), remarks=[
        "the container has neither a PID namespace nor a control group of its own: its first process and that one's "
        "descendants were checked"])


def descendants(kernel: Kernel, pid: int) -> list[int]:
    others = (number for number in kernel.processes() if number != pid)
    children = by_key((kernel.status_of(number).get("PPid", ""), number) for number in others)
    numbers = [pid]
    for ancestor in numbers:
        numbers += children.pop(str(ancestor), ())
    return numbers


def send_signal(file: int, number: int) -> int | None:
    """Sends a signal by a pidfd; returns the errno if that fails."""
    try:
        signal.pidfd_send_signal(file, number)
    except OSError as error:
        return error.errno
    return None


class ContainerProcess:
    """The container's first process, the same one even if its ID is reused, and the others of the container."""

    def __init__(self, container: ContainerState) -> None:
        self.container, self.kernel = container, Kernel()
        try:
            self.file = os.pidfd_open(container.pid)
        except ProcessLookupError as error:
            raise ContainerError(f"there is no process {container.pid}") from error
        except OSError as error:
            raise ContainerError(f"process {container.pid} can't be held: {error.strerror}") from error
        self.members = members_of(self.kernel, container.pid)

    def has_ended(self, seconds: float = 0.0) -> bool:
        """Whether it has ended, or does so within so many seconds: a pidfd can be read then (pidfd_open(2))."""
        return bool(select.select([self.file], [], [], seconds)[0])

    def kill(self) -> Kill:
        """Kills it and the others of the container."""
        pid, until = self.container.pid, time.monotonic() + KILL_SECONDS
        was_there = not self.has_ended()
        others = {} if self.members.end_together else self.hold_others()
        why, killed = send_signal(self.file, signal.SIGKILL), set()
        # those that were held, and those that they started meanwhile
        while others:
            killed.update(pid for pid, file in others.items() if send_signal(file, signal.SIGKILL) is None)
            for file in others.values():
                os.close(file)
            if time.monotonic() > until:
                break
            time.sleep(0.001)
            others = self.hold_others()
        more = f", and {len(killed)} more of the container" if killed else ""
        if not was_there or why == errno.ESRCH:
            return Kill(bool(killed), f"process {pid} has ended already" + (f"{more} were killed" if more else ""))
        if why is not None:
            return Kill(False, f"process {pid} can't be killed: {os.strerror(why)}")
        if not self.has_ended(max(0.0, until - time.monotonic())):
            return Kill(True, f"SIGKILL was sent to process {pid}{more}; it hasn't ended yet")
        return Kill(True, f"process {pid} was killed{more}")

    def hold_others(self) -> dict[int, int]:
        """The pidfds of the other processes that run, each held before it was listed again."""
        held = {}
        for pid in self.running_others():
            with contextlib.suppress(OSError):
                held[pid] = os.pidfd_open(pid)
        for pid in held.keys() - set(self.running_others()):
            os.close(held.pop(pid))
        return held

    def running_others(self) -> list[int]:
        return [number for number in self.members.processes()
                if number != self.container.pid and not has_ended(self.kernel.status_of(number))]

    def threads(self) -> dict[int, int]:
        """The container's threads; until its program is executed, of the first process only the one that will do so."""
        pid = self.container.pid
        threads = self.kernel.threads_of(pid)
        processes_of = {thread: pid for thread in threads if thread == pid or self.container.status != CREATED}
        for member in self.members.processes():
            processes_of.update((thread, member) for thread in self.kernel.threads_of(member) if member != pid)
        return processes_of

    def confined(self, seconds: float, is_forced: bool) -> Inspection:
        """The filters of all threads, once each seems to have one without being stopped, or the time is up."""
        until = time.monotonic() + seconds
        while not self.has_ended() and time.monotonic() < until and any(
                status.get("Seccomp") == "0" and not has_ended(status)
                for status in map(self.kernel.status_of, self.threads())):
            time.sleep(READING_PAUSE)
        pid, inspection = self.container.pid, processes.look(self.kernel, self.threads, processes.PATIENCE, is_forced)
        if pid not in inspection.names or self.has_ended():
            raise processes.Unreadable(f"process {pid} {inspection.passed_over.get(pid, 'has ended')}")
        return inspection


@dataclass(frozen=True)
class Kill:
    """Whether a process was killed, and the line about it."""

    is_so: bool
    line: str


@dataclass
class HookResult:
    """The finding on a container: a status and a verdict; and what explains it, which may take long to find."""

    status: int
    verdict: str | None
    lines: Callable[[], list[str]]
    value: Callable[[], dict[str, object]]


def finding_of(inspection: Inspection, request: verify.Request, process: ContainerProcess) -> HookResult:
    """The result for all distinct stacks. Its text has no line for each name or architecture that was left out."""
    others = containers.others_note(process.kernel, process.members)
    found = verify.Verification(inspection, request, others)
    remarks = [*request.remarks, *process.members.remarks, *([others] if others else [])]
    if found.is_refuted:
        runtime = getattr(request.profile.runtime, "name", None)
        remarks += filter(None, [configurations.other_runtime([process.container.name], runtime)])

    def lines() -> list[str]:
        printed = [line for line in found.lines() if line and not line.startswith(verdicts.LEFT_OUT)]
        return printed + [f"# {remark}" for remark in remarks]

    return HookResult(found.status, found.verdict, lines, lambda: {**found.as_json(None), "remarks": remarks})


def plain_finding(line: str, status: int = program.TROUBLE, verdict: str | None = None) -> HookResult:
    """A finding of a single line; without a verdict that says why there is none."""
    value: dict[str, object] = {"status": status, "scope": verdicts.NATIVE_SCOPE, "verdict": verdict}
    return HookResult(status, verdict, lambda: [line], lambda: value if verdict else {**value, "why": line})


def unknown(status: int | None, seconds: float) -> HookResult:
    """The finding if a child reports nothing: it ended with a status, or not within so many seconds."""
    if status is None:
        return plain_finding(f"undecided after {seconds:g} seconds", program.UNKNOWN)
    if status == program.NOT_BUILT:
        return plain_finding("scf can't be run", program.NOT_BUILT)
    return plain_finding(f"the check ended with {f'signal {-status}' if status < 0 else f'status {status}'}")


class Watchdog:
    """A process that acts at a deadline, or as soon as its parent has ended, unless it is dismissed before. It takes no
    signal but SIGKILL and SIGSTOP, and has a process group of its own, so that what ends or stops the hook's group
    leaves it alone. A hook that still exists after it has acted hangs or is stopped: it is killed."""

    def __init__(self, act: Callable[[], object], until: float) -> None:
        # The hook keeps both ends: a write to a watchdog that has ended isn't to end the hook.
        self.file, self.end = os.pipe()
        hook, watchdog = os.getpid(), os.fork()
        # both do it, so that it is done before either continues
        unless_refused(None, os.setpgid, watchdog, watchdog)
        if watchdog:
            return
        try:
            is_dismissed = False
            with contextlib.suppress(Exception):
                os.close(self.end)
                signal.pthread_sigmask(signal.SIG_BLOCK, signal.valid_signals())
                is_dismissed = is_ready(self.file, until) and os.read(self.file, 1) != b""
            if not is_dismissed:
                act()
                if os.getppid() == hook:
                    os.kill(hook, signal.SIGKILL)
        finally:
            os._exit(program.TROUBLE)

    def dismiss(self) -> None:
        os.write(self.end, b"\n")


class Examination:
    """A container that must be known to be confined within this many seconds, and else is killed on request, as soon as
    the status is known and before it is explained."""

    def __init__(self, process: ContainerProcess, seconds: float, kills: bool) -> None:
        self.process, self.seconds, self.kills = process, seconds, kills
        self.killed: list[Kill] = []
        self.watchdog: Watchdog | None = None

    def result(self, find: Callable[[], HookResult], is_json: bool) -> HookResult:
        reported: list[Any] = []

        def receive(value: Any) -> float | None:
            reported.append(value)
            if len(reported) > 1:
                return None
            self.settle(value[0])
            return EXPLANATION_SECONDS

        finding = unknown(None, self.seconds)
        try:
            if self.kills:
                self.watchdog = Watchdog(self.bark, time.monotonic() + self.seconds + GRACE)
            child.run_in_child(lambda send: self.report(find, is_json, send), self.seconds, receive)
        except child.Late:
            pass
        except child.Died as died:
            finding = unknown(died.args[0], self.seconds)
        except child.Interrupted as came:
            came.end_tool()
        except OSError as error:
            if reported:
                raise
            finding = plain_finding(f"no process can be started: {error.strerror}")
        if not reported:
            self.settle(finding.status)
            return finding
        (status, verdict), *explained = reported
        late = plain_finding(f"no explanation: it takes longer than {EXPLANATION_SECONDS:g} seconds", status, verdict)
        lines, value = (*explained, None, None)[:2]
        return HookResult(status, verdict, lambda: lines or late.lines(), lambda: value or late.value())

    def report(self, find: Callable[[], HookResult], is_json: bool, send: Callable[[object], None]) -> None:
        """Sends, in a child, first the status and the verdict, and then the explanation. If the hook ends, it ends too,
        with all that it started, once it holds no thread of another process any more."""
        if self.watchdog is not None:
            # (which is to know at once if the hook ends)
            os.close(self.watchdog.end)
        signal.signal(signal.SIGTERM, lambda *_: os.killpg(0, signal.SIGKILL))
        signal.pthread_sigmask(signal.SIG_UNBLOCK, [signal.SIGTERM])
        result = run_safely(find)
        send([result.status, result.verdict])
        child.have_seconds(EXPLANATION_SECONDS)
        send(result.lines())
        if is_json:
            send(result.value())

    def settle(self, status: int) -> None:
        """Acts on the status: kills the container on request, and dismisses the watchdog."""
        if self.kills and status != program.SUCCESS:
            self.killed.append(self.process.kill())
        if self.watchdog is not None:
            self.watchdog.dismiss()

    def bark(self) -> None:
        """The watchdog's action: it kills the container and reports that."""
        killed = self.process.kill()
        line = f"container {output.escaped(self.process.container.name)}: the hook was ended or stopped: {killed.line}"
        program.say(line)
        write_log(program.name(), program.TROUBLE, [line])


def write_log(name: str, status: int, lines: Sequence[str]) -> None:
    """Writes lines to the system log; where there is none, they are lost."""
    import syslog  # pylint: disable=import-outside-toplevel

    syslog.openlog(output.escaped(name), syslog.LOG_PID, syslog.LOG_DAEMON)
    level = syslog.LOG_INFO if status == program.SUCCESS else syslog.LOG_ERR
    for line in lines:
        syslog.syslog(level, output.escaped(line))
    syslog.closelog()


def verdict_line(container: ContainerState | None, result: HookResult) -> str:
    who = f"container {output.escaped(container.name)}" if container else "a container"
    if result.verdict == UNSTATED:
        return f"{who}: {verify.UNCONFINED[False]}"
    if result.status == program.SUCCESS:
        return f"{who}: confined as configured ({result.verdict})"
    if result.status == program.NEGATIVE and result.verdict is not None:
        return f"{who}: not confined as configured ({result.verdict})"
    return f"{who}: unknown whether it is confined as configured"


def hook_file(path: str, words: Sequence[str], seconds: float) -> str:
    """The text of a file for hooks.d, as oci-hooks(5) has it, that calls this tool for each container. The runtime must
    wait longer than the tool itself, which takes this many seconds to know."""
    named = [word for word in words if word != "--print-hook"]
    for at, word in enumerate(named):
        # (a runtime calls the hook in a folder of its own)
        option, equals, table = word.partition("=")
        if option == "--table" and equals:
            named[at] = f"--table={os.path.abspath(table)}"
        elif named[at - 1:at] == ["--table"]:
            named[at] = os.path.abspath(word)
    longest = seconds + STATE_SECONDS + KILL_SECONDS + EXPLANATION_SECONDS + GRACE
    hook = {"path": path, "args": [os.path.basename(path), *named], "env": [HOOK_PATH],
            "timeout": math.ceil(longest) + STARTUP}
    return json.dumps({"version": "1.0.0", "hook": hook, "when": {"always": True}, "stages": ["poststart"]},
                      indent=4) + "\n"


def run_safely(find: Callable[[], HookResult]) -> HookResult:
    """The finding; if anything fails, one that says why."""
    try:
        return find()
    except program.ToolError as why:
        status = why.status if why.status in (program.INTERNAL, program.NOT_BUILT) else program.TROUBLE
        return plain_finding(str(why), status)
    except processes.Unreadable as why:
        return plain_finding(f"{why} (--force stops it)" if isinstance(why, hold.Waiting) else str(why))
    except processes.Interrupted as came:
        return plain_finding(f"the check was ended by {signal.Signals(came.args[0]).name}")
    except MemoryError:
        return plain_finding("out of memory")
    except OSError as error:
        return plain_finding(f"the container can't be inspected: {error.strerror}")
    except ModuleNotFoundError as error:
        return plain_finding(program.why_it_lacks(error), program.NOT_BUILT)
    except Exception as error:  # pylint: disable=broad-exception-caught
        # nothing fails open
        return plain_finding(str(program.InternalError(f"{program.name()} itself failed: {type(error).__name__}")),
                             program.INTERNAL)
