"""Runs a function in a child process, so that it ends in time whatever syscall it blocks in, and with no more rights
and memory than it needs: it answers by pickled values, or where it isn't believed by JSON, whose form is checked.

The child serves a tool that traces others: the tool's signals are passed on to it, so that it ends in order, and so it
does if the tool itself is killed. A tool that is stopped (SIGSTOP) doesn't stop its child. When the time is up, the
tool kills the child, and if the tool can't, the child's own timer does: the kernel then releases all that it traced.
"""
from __future__ import annotations

# (the module signal makes enums of its constants)
import _signal as signal
import binascii
import os
import select
import time
from collections.abc import Callable, Iterable, Iterator, Sequence

from .values import Any, NoReturn, dataclass, unless_refused

# linux/prctl.h
PR_SET_PDEATHSIG, PR_SET_DUMPABLE, PR_SET_NO_NEW_PRIVS = 1, 4, 38
# malloc.h: how many arenas there may be (mallopt(3)); and the bytes of the stack of a thread.
M_ARENA_MAX, THREAD_STACK = -8, 1 << 18
# The signals that end a tool unless they are ignored.
ENDING = (signal.SIGHUP, signal.SIGINT, signal.SIGQUIT, signal.SIGTERM)
# In seconds: how often the tool looks for signals while it waits for the child, and how long a child may take to end by
# one; how much later than the tool the child's own timer ends it, and how long a child that was killed is waited for.
SIGNAL_PAUSE, TO_END, TIMER_DELAY, LAST_WAIT = 0.05, 1.0, 0.5, 0.2
# Of a child that isn't believed: the most bytes of its address space, and of what it answers, in a line and in all; how
# long it may take, in seconds; and the user who has no rights (user_namespaces(7)).
MEMORY, MOST_OF_LINE, MOST_OF_ANSWER, LONGEST, NOBODY = 256 << 20, 5 << 20, 24 << 20, 10.0, 65534


class Interrupted(Exception):
    """A signal that ends the tool arrived meanwhile, and was consumed: its number."""

    def end_tool(self) -> None:
        """Has the signal end this process after all."""
        signal.signal(self.args[0], signal.SIG_DFL)
        os.kill(os.getpid(), self.args[0])


class Late(Exception):
    """The child didn't end in time, and was killed."""


class Lost(Exception):
    """A child ended without all of its answers, and why."""


class Died(Exception):
    """The child ended without a result: its status, below 0 for a signal, None if that isn't known."""


def look_for_signals() -> None:
    """Raised in the child to end it early."""
    came = signal.sigtimedwait(ENDING, 0)
    if came:
        raise Interrupted(came.si_signo)


def run_in_child(work: Callable[..., Any], seconds: float, receive: Callable[[Any], float | None] | None = None) -> Any:
    """The result or exception of a function run in a child process; it calls `look_for_signals` now and then. With
    `receive` the function is given another one, by which it sends values: each is received, however the child ends.
    Where `receive` returns seconds, the child has these from then on."""
    import pickle  # pylint: disable=import-outside-toplevel

    ended: list[tuple[bool, Any]] = []

    def take(line: bytes) -> float | None:
        is_well, value = pickle.loads(binascii.a2b_base64(line))
        if is_well is None and receive is not None:
            return receive(value)
        ended.append((is_well, value))
        return None

    def write(put: Callable[[bytes], object]) -> None:
        def send(is_well: bool | None, value: object) -> None:
            """Sends the result, an exception, or with None another value."""
            put(binascii.b2a_base64(pickle.dumps((is_well, value))))

        try:
            result = True, work() if receive is None else work(lambda value: send(None, value))
        except BaseException as error:  # pylint: disable=broad-exception-caught
            result = False, error
        send(*result)

    status = read_child(write, seconds, take)
    if not ended:
        raise Died(status)
    is_well, result = ended[0]
    if not is_well:
        raise result
    return result


def read_child(write: Callable[[Callable[[bytes], object]], object], seconds: float,
               take: Callable[[bytes], float | None], most: float = float("inf")) -> int | None:
    """Has a function write lines in a child process, and takes each as soon as it is there. Where `take` returns
    seconds, the child has these from then on, and none if they are 0. The child has a process group of its own, which
    is killed at the end: its status, below 0 for a signal, None if that isn't known. Raises Late, and Lost if a line
    has more bytes than `most`."""
    until = time.monotonic() + seconds
    heeded = {number for number in ENDING if signal.getsignal(number) != signal.SIG_IGN}
    parent = os.getpid()
    mask = set(signal.pthread_sigmask(signal.SIG_BLOCK, signal.valid_signals()))
    try:
        ends = os.pipe()
        child = os.fork()
        if not child:
            os.close(ends[0])
            out = os.fdopen(ends[1], "wb")
            _be_child(lambda: write(lambda line: out.write(line) and out.flush()), seconds, parent)
        os.close(ends[1])
        signal.pthread_sigmask(signal.SIG_SETMASK, mask | heeded)
        try:
            _take_lines(child, ends[0], heeded - mask, until, take, most)
        finally:
            os.close(ends[0])
            status = _end(child)
    finally:
        signal.pthread_sigmask(signal.SIG_SETMASK, mask)
    return status


def _take_lines(child: int, file: int, heeded: set[int], until: float, take: Callable[[bytes], float | None],
                most: float) -> None:
    """Takes all that the child writes; signals that end this process are passed on to it, and it ends soon then."""
    late: Exception = Late()
    pending = bytearray()
    while True:
        remaining = until - time.monotonic()
        if remaining <= 0:
            raise late
        if select.select([file], [], [], min(remaining, SIGNAL_PAUSE))[0]:
            piece = os.read(file, 1 << 16)
            if not piece and isinstance(late, Interrupted):
                raise late
            if not piece:
                return
            pending += piece
            *lines, pending = pending.split(b"\n") if b"\n" in piece else [pending]
            if max(map(len, (*lines, pending))) > most:
                raise Lost("it answers too much")
            for line in lines:
                seconds = take(line)
                if seconds == 0:
                    return
                if seconds is not None and isinstance(late, Late):
                    until = time.monotonic() + seconds
        came = signal.sigtimedwait(heeded, 0) if heeded else None
        if came:
            os.kill(child, came.si_signo)
            late, until = Interrupted(came.si_signo), min(until, time.monotonic() + TO_END)


def _end(child: int) -> int | None:
    """Kills a child and what it started, and waits for it, unless a syscall blocks it even then: its status."""
    for kill in (os.killpg, os.kill):
        # (it may have no group of its own yet)
        unless_refused(None, kill, child, signal.SIGKILL)
    until, (ended, status) = time.monotonic() + LAST_WAIT, (0, 0)
    while not ended and time.monotonic() < until:
        time.sleep(0.001)
        # (-1: SIGCHLD is ignored)
        ended, status = unless_refused((-1, 0), os.waitpid, child, os.WNOHANG)
    return os.waitstatus_to_exitcode(status) if ended > 0 else None


def have_seconds(seconds: float) -> None:
    """Has this child's own timer end it, if nobody else does after so many seconds."""
    signal.setitimer(signal.ITIMER_REAL, seconds + TIMER_DELAY)


def _be_child(work: Callable[[], Any], seconds: float, parent: int) -> NoReturn:
    """Runs the function, with all signals blocked but that of the timer."""
    import ctypes  # pylint: disable=import-outside-toplevel

    try:
        os.setpgid(0, 0)
        for number in (*ENDING, signal.SIGALRM):
            signal.signal(number, signal.SIG_DFL)
        have_seconds(seconds)
        signal.pthread_sigmask(signal.SIG_UNBLOCK, (signal.SIGALRM,))
        ctypes.CDLL(None).prctl(PR_SET_PDEATHSIG, signal.SIGTERM, 0, 0, 0)
        if os.getppid() != parent:
            os.kill(os.getpid(), signal.SIGTERM)
        work()
    finally:
        # without the interpreter's end, which would print what the tool is about to print
        os._exit(0)


# What sends a value from a child, and what a child does with it in so many seconds.
Send = Callable[[object], object]
Work = Callable[[Send, float], object]


def become(user: int) -> None:
    """Takes the rights of a user for good: no group, no capability, and nobody else of that user may look inside."""
    import ctypes  # pylint: disable=import-outside-toplevel

    if os.geteuid() == 0:
        os.setgroups([])
        os.setresgid(NOBODY, NOBODY, NOBODY)
        os.setresuid(user, user, user)
    # (a change of the user takes these back)
    for words in ((PR_SET_DUMPABLE, 0), (PR_SET_NO_NEW_PRIVS, 1), (PR_SET_PDEATHSIG, signal.SIGKILL)):
        if ctypes.CDLL(None).prctl(*words, 0, 0, 0):
            raise OSError("rights can't be given up")


class _Turns:
    """What a child does, one thing after another, and has been taken of it."""

    def __init__(self, turns: Iterable[tuple[int, float]], receive: Callable[[int, Any], object]) -> None:
        self.turns, self.receive = iter(turns), receive
        self.next()

    def next(self) -> None:
        """Goes on to the next thing, which has so many seconds."""
        self.count = 0
        self.at, self.seconds = next(self.turns, (None, 0.0))

    def take(self, line: bytes) -> float | None:
        """Receives a value; the seconds of what comes next, if something came to its end."""
        import json  # pylint: disable=import-outside-toplevel

        self.count += len(line)
        if self.count > MOST_OF_ANSWER:
            raise Lost("it answers too much")
        try:
            value = json.loads(line)
            if isinstance(value, str):
                raise Lost(value)
            if value is not None:
                self.receive(self.at, value)
                return None
        except (ValueError, LookupError, TypeError, RecursionError) as error:
            raise Lost("its answer isn't what it should be") from error
        self.next()
        return self.seconds

    def work(self, begin: Callable[[], object], works: Sequence[Work], put: Callable[[bytes], object]) -> None:
        """What the child does: it sends values, and at the end of each thing None, or a text that says why not."""
        import ctypes  # pylint: disable=import-outside-toplevel
        import json  # pylint: disable=import-outside-toplevel
        import resource  # pylint: disable=import-outside-toplevel
        import threading  # pylint: disable=import-outside-toplevel

        def send(value: object) -> None:
            put(json.dumps(value).encode() + b"\n")

        # (else a few threads have all of the address space: each may take 8 MB for its stack, and 64 for malloc(3))
        threading.stack_size(THREAD_STACK)
        getattr(ctypes.CDLL(None), "mallopt", lambda *_: 0)(M_ARENA_MAX, 1)
        resource.setrlimit(resource.RLIMIT_AS, (MEMORY, MEMORY))
        try:
            begin()
            while self.at is not None:
                have_seconds(self.seconds)
                works[self.at](send, self.seconds)
                send(None)
                self.next()
        except MemoryError:
            send(f"it takes more than {MEMORY >> 20} MB of memory")
        except Interrupted:
            raise
        except Exception as error:  # pylint: disable=broad-exception-caught
            send(f"it can't be looked at: {type(error).__name__}")


def ask_each(works: Sequence[Work], turns: Iterable[tuple[int, float]], receive: Callable[[int, Any], object],
             begin: Callable[[], object] = lambda: None) -> dict[int, str]:
    """Has functions send values from a child, one after another: each that has a turn, by its index and within its
    seconds, which it is told. Values are received with the index. Says of which not all came, and why: behind each of
    these a new child goes on. `begin` is what each child does first."""
    taken, lost = _Turns(turns, receive), {}
    while taken.at is not None:
        why = "who looks at it was ended"
        try:
            read_child(lambda put: taken.work(begin, works, put), taken.seconds, taken.take, MOST_OF_LINE)
        except Late:
            why = f"it takes longer than {taken.seconds:.2g} seconds"
        except Lost as error:
            why = str(error)
        if taken.at is not None:
            lost[taken.at] = why
            taken.next()
    return lost


def checked(value: Any, form: Any) -> Any:
    """A value of a form: a type, None, one of several, a list of one's, an object with these. Raises TypeError."""
    if isinstance(form, tuple):
        for each in form:
            try:
                return checked(value, each)
            except TypeError:
                pass
    elif isinstance(form, list) and type(value) is list:
        return [checked(item, form[0]) for item in value]
    elif isinstance(form, dict) and type(value) is dict and value.keys() == form.keys():
        return {name: checked(value[name], form[name]) for name in form}
    elif value is None if form is None else type(value) is form:
        return value
    raise TypeError("an answer of another form")


@dataclass
class Budget:
    """How long some children may take, in seconds."""

    remaining: float

    def shares(self, items: Iterable[Any], most: float | None = None) -> Iterator[tuple[Any, float]]:
        """Things with their seconds: at most `most`, or what a child may take, and an equal share of what is left."""
        waiting = list(items)
        for at, item in enumerate(waiting):
            began = time.monotonic()
            yield item, max(0.01, min(most or LONGEST, self.remaining / (len(waiting) - at)))
            self.remaining -= time.monotonic() - began
