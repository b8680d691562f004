"""The client of scf: the one place where the proved program is run, and what comes of a run."""
from __future__ import annotations

import os
from collections.abc import Iterable, Sequence

from ..base import output, program
from ..base.program import NOT_BUILT, SCF_IO_ERROR, SUCCESS, TROUBLE, UNKNOWN, ToolError
from ..base.values import NoReturn, Pattern, dataclass
from ..model import bundles
from ..model.tables import Tables

# In the sources the command, which builds the program where it never was; the program, as it is installed or was built.
SCF = os.path.join(program.TOP, "scf")
PROGRAMS = (os.path.join(program.TOP, "program", "scf"), os.path.join(program.TOP, "crates", "scf", "out", "scf"))
# SIGKILL (signal(7)), which ends a process that exceeds its limit of CPU time.
SIGKILL = 9
# The most bytes of scf's address space. The largest real inputs take a sixth; 4 MiB of `{"":0}` would take 530 MB.
MAX_MEMORY = 256 << 20
# A tool's comparisons without --limit: seconds of CPU time for the tool and all that it runs; after the first limit
# comparisons have few steps, after the second none.
SECONDS, ALL_SECONDS, FEW_STEPS = 6, 8, "1000"
# Until then comparisons have so many: the effort of real pairs is some millions, and from the effort on scf promises to
# decide masked pairs. Regions, which take memory, have scf's default.
MOST_STEPS = "1000000000"
# The most bytes of an answer of scf that are read.
MOST_OF_ANSWER = 32 << 20
# The options of `scf compare` by which a tool's command line limits each comparison, with their texts.
LIMIT_OPTIONS = {
    "limit": f"at most N steps for each comparison [default: {MOST_STEPS}, 1000000 for regions of answers, and "
             f"{SECONDS} s of CPU time for all together]",
    "splits": "how hard to try before `undecided`; none is no limit [default: 10000]"}

limits: dict[str, str] = {}
SPENT = (f"all comparisons together took {SECONDS} s of CPU time, the most without --limit: what {FEW_STEPS} steps "
         f"don't decide is unfinished")
FAULT = Pattern(r"fault ([a-z]+) ([A-Za-z0-9]+)((?: [a-z]+ [0-9]+)*)")
# A tool's first questions, which it doesn't ask again: the words and bytes that scf was run on, and the run.
MOST_KEPT_RUNS = 64
_kept_runs: dict[tuple[tuple[str, ...], bytes], Run] = {}
_is_spent_reported = False
# Whether a tool answers standard input in scf's place, and so has scf's own statuses.
keeps_statuses = False
# The seconds of CPU time of comparisons since the limits began to count; None if they count from the tool's start on.
_seconds_of_scf: float | None = None


def lines_of(text: str) -> list[str]:
    """The lines of a text; the last may lack its newline."""
    return text.removesuffix("\n").split("\n") if text else []


def rank(status: int) -> tuple[bool, int]:
    """Sorts statuses, the worst first: an answer no, trouble, what isn't known, then success."""
    return status == SUCCESS, status


def worst(statuses: Iterable[int]) -> int:
    return min(statuses, key=rank, default=SUCCESS)


@dataclass(frozen=True)
class Fault:
    """A fault: `fault SOURCE KIND` and the kind's numbers by name."""

    line: str
    source: str
    kind: str
    numbers: dict[str, int]

    @classmethod
    def read(cls, line: str) -> Fault | None:
        match = FAULT.fullmatch(line) if line.startswith("fault ") else None
        if not match:
            return None
        words = match[3].split()
        return cls(line, match[1], match[2], {name: int(value) for name, value in zip(words[::2], words[1::2])})

    def as_json(self, sentences: Iterable[str] | None = None) -> dict[str, object]:
        value: dict[str, object] = {"source": self.source, "kind": self.kind, "numbers": self.numbers}
        return value if sentences is None else {**value, "sentences": list(sentences)}


class Refusal(Exception):
    """scf refuses an input, or fails: the line that it printed, its status, and its fault, if the line is one."""

    def __init__(self, line: str, status: int = TROUBLE):
        super().__init__(line)
        self.line, self.status, self.fault = line, status, Fault.read(line)


@dataclass(frozen=True)
class Run:
    """How a run of scf ended, and what it printed; nothing if it exceeded its time. Names in it are untrusted."""

    scf_status: int
    out: bytes

    @property
    def status(self) -> int:
        """The tool's status: scf's own, but for what can't be read or is refused."""
        is_trouble = self.scf_status == SCF_IO_ERROR or \
            self.scf_status not in (SUCCESS, UNKNOWN) and self.out.startswith(b"fault ")
        return TROUBLE if is_trouble and not keeps_statuses else self.scf_status

    @property
    def text(self) -> str:
        return self.out.decode("utf-8", "surrogateescape")

    @property
    def lines(self) -> list[str]:
        return lines_of(self.text)

    @property
    def line(self) -> str:
        """The first line: a verdict, an answer or a fault."""
        return self.text.split("\n", 1)[0]


def built_program() -> str | None:
    """The program, if it exists without a build."""
    return next((path for path in PROGRAMS if os.access(path, os.X_OK)), None)


def _command() -> tuple[str, list[str]]:
    """The program and its first words; if it isn't built, those of the launcher, which builds it."""
    path = built_program()
    return (SCF, ["scf", "core"]) if path is None else (path, ["scf"])


def memory_file(data: bytes) -> int:
    try:
        file = os.memfd_create("scf")
    except (AttributeError, OSError):
        import tempfile  # pylint: disable=import-outside-toplevel

        with tempfile.TemporaryFile() as spare:
            file = os.dup(spare.fileno())
    with os.fdopen(file, "wb", closefd=False) as opened:
        opened.write(data)
    os.lseek(file, 0, os.SEEK_SET)
    return file


def _limit(child: int, seconds: float | None) -> None:
    """Limits scf's memory, so that it reports `Memory`, and its CPU time, after which it is killed without a core."""
    import resource  # pylint: disable=import-outside-toplevel

    limits = [(resource.RLIMIT_AS, MAX_MEMORY)]
    if seconds is not None:
        limits.append((resource.RLIMIT_CPU, max(1, round(seconds))))
    for kind, limit in limits:
        most = resource.getrlimit(kind)[1]
        limit = limit if most == resource.RLIM_INFINITY else min(limit, most)
        try:
            resource.prlimit(child, kind, (limit, limit))
        except ProcessLookupError:
            # it has ended
            pass


def run_scf(words: Sequence[str], given: bytes | None = b"", seconds: float | None = None, may_build: bool = True,
            most: int = MOST_OF_ANSWER) -> Run:
    """Runs scf on these bytes, or if they are None on this process's standard input. After so many seconds of CPU time
    it is killed, and the result is empty and UNKNOWN; after so many bytes it is, too, and the result is `unfinished`.
    If scf isn't built, its launcher builds it, which takes long; without `may_build` it is empty and NOT_BUILT."""
    if given is None or not program.is_tool:
        return _run(words, given, seconds, may_build, most)
    question = tuple(words), given
    done = _kept_runs.get(question) or _run(words, given, seconds, may_build, most)
    if done.out and len(_kept_runs) < MOST_KEPT_RUNS:
        _kept_runs[question] = done
    return done


def _run(words: Sequence[str], given: bytes | None, seconds: float | None, may_build: bool, most: int) -> Run:
    path, before = _command()
    if path == SCF and not may_build:
        return Run(NOT_BUILT, b"")
    ends = os.pipe()
    actions: list[tuple] = [(os.POSIX_SPAWN_DUP2, ends[1], 1)]
    source = None if given is None else memory_file(given)
    if source is not None:
        actions.append((os.POSIX_SPAWN_DUP2, source, 0))
    try:
        child = os.posix_spawn(path, [*before, *words], os.environ, file_actions=actions)
    except OSError as error:
        raise ToolError(f"scf can't be run: {path}: {error.strerror}", NOT_BUILT) from error
    os.close(ends[1])
    if source is not None:
        os.close(source)
    if path != SCF:
        _limit(child, seconds)
    with os.fdopen(ends[0], "rb") as printed:
        out = printed.read(most + 1)
        if len(out) > most:
            os.kill(child, SIGKILL)
    state = os.waitpid(child, 0)[1]
    if len(out) > most:
        return Run(UNKNOWN, b"unfinished\n")
    if os.WIFSIGNALED(state) and seconds is not None and os.WTERMSIG(state) == SIGKILL:
        return Run(UNKNOWN, b"")
    if os.WIFSIGNALED(state):
        raise ToolError(f"scf was ended by signal {os.WTERMSIG(state)}", 128 + os.WTERMSIG(state))
    if os.WEXITSTATUS(state) == NOT_BUILT:
        # the launcher has printed why
        program.finish(NOT_BUILT)
    return Run(os.WEXITSTATUS(state), out)


def become(words: Sequence[str]) -> NoReturn:
    """Runs scf in place of this process, on its standard input."""
    path, before = _command()
    if path != SCF:
        _limit(os.getpid(), None)
    output.flush()
    os.execv(path, [*before, *words])


def compile_profile(profile: bytes, tables: Tables) -> bytes:
    """The filter of a profile for the architectures of these tables. Raises Refusal."""
    done = run_scf(["compile", *tables.words], bundles.profile_bundle(profile, tables))
    if done.status != SUCCESS:
        raise Refusal(done.line, done.status)
    return done.out


def begin_limits(seconds: float = SECONDS, is_reported: bool = True) -> None:
    """Has the limits count anew, and scf's time alone; so many seconds are left until comparisons have few steps."""
    global _is_spent_reported, _seconds_of_scf  # pylint: disable=global-statement
    _is_spent_reported, _seconds_of_scf = not is_reported, SECONDS - seconds


def _seconds_left(until: float) -> float:
    """The CPU time that is left of so many seconds for this process and its ended children, or for scf alone."""
    return until - (sum(os.times()[:4]) if _seconds_of_scf is None else _seconds_of_scf)


def has_time(has_all: bool = False) -> bool:
    """Whether comparisons still have steps, or all of theirs: a tool without --limit has some CPU time for them."""
    return "limit" in limits or not program.is_tool or _seconds_left(SECONDS if has_all else ALL_SECONDS) > 0


def compare(words: Sequence[str], bundle: bytes) -> Run:
    return _limited(["compare", *words, *(f"--{name}={text}" for name, text in limits.items())], bundle, MOST_STEPS)


def answers(words: Sequence[str], bundle: bytes) -> Run:
    of_limit = [f"--limit={limits['limit']}"] if "limit" in limits else []
    return _limited(["answers", *words, *of_limit], bundle)


def _limited(words: Sequence[str], bundle: bytes, most_steps: str | None = None) -> Run:
    """Runs scf within the limits of the command line; a tool without --limit gives it so many steps, or scf's default,
    while there is time, and reports once that it is up."""
    global _is_spent_reported, _seconds_of_scf  # pylint: disable=global-statement
    if "limit" in limits or not program.is_tool:
        return run_scf(words, bundle)
    if built_program() is None:
        # the time to build it doesn't count
        run_scf(["--version"])
    for steps, until in ((most_steps, SECONDS), (FEW_STEPS, ALL_SECONDS)):
        remaining, before = _seconds_left(until), sum(os.times()[2:4])
        of_steps = [] if steps is None else [f"--limit={steps}"]
        done = run_scf([*words, *of_steps], bundle, remaining) if remaining > 0 else None
        if _seconds_of_scf is not None:
            _seconds_of_scf += sum(os.times()[2:4]) - before
        if done is not None and done.out:
            return done
        if not _is_spent_reported:
            program.say(SPENT)
        _is_spent_reported = True
    return run_scf([*words, "--limit=0"], bundle)
