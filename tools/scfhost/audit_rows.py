"""What an audit finds: a row for each container, unit and other confined program, what is expected of it, and the
verdict on each stack of filters that it has."""
from __future__ import annotations

import os
from collections import Counter

from scftools.base import output, program
from scftools.base.values import dataclass, field
from scftools.model.profiles import not_compared_of, reading_of
from scftools.ask.verdicts import OTHERWISE, Verdict
from scftools.forms import engines
from scftools.forms.filters import description
from scftools.report.pages import ShownSurface
from .container_files import ContainerDescription
from .machine import Process, Snapshot
from .verify import Request

# The verdicts beside OTHERWISE. Unconfined rows stand first, then those of the others in this order.
UNCONFINED_THOUGH, BY_CONFIGURATION = "unconfined though configured", "unconfined by configuration"
WEAKER, NOT_KNOWN, STRICTER, AS_CONFIGURED = "weaker", "not known", "stricter", "as configured"
AUDIT_VERDICTS = (UNCONFINED_THOUGH, BY_CONFIGURATION, WEAKER, NOT_KNOWN, OTHERWISE, STRICTER, AS_CONFIGURED)
# The verdicts that don't bear on the exit status.
WITHOUT_CONSEQUENCE = (OTHERWISE, STRICTER, AS_CONFIGURED)
CONTAINER, UNIT, OTHER_PROGRAM = ROW_KINDS = ("container", "unit", "program")


def is_only_counted(kind: str, is_stated: bool, verdict: str) -> bool:
    """Whether a row is a program without a configuration that doesn't bear on the status: a count says enough of it."""
    return kind == OTHER_PROGRAM and not is_stated and verdict in WITHOUT_CONSEQUENCE


@dataclass(frozen=True)
class Expectation:
    """The profile that a row's processes should have, if any, and its source."""

    asked: Request | None = None
    source: str | None = None
    # why it isn't known what is expected
    why: str | None = None
    # why processes that differ may be as configured
    doubt: str | None = None
    # a filter that the processes may have beside, which only denies more
    beside: bytes = b""
    # a container's settings, of which it isn't known yet what they mean, and its runtime
    settings: str | None = None
    runtime: str | None = None
    # the SHA-256 of a profile that isn't kept
    dropped: str | None = None

    @property
    def is_unresolved(self) -> bool:
        """Whether it isn't known yet what settings mean."""
        return self.settings is not None and self.dropped is None and self.why is None

    @property
    def key(self) -> str:
        """What tells it from others with another meaning."""
        requests = [(data, reading_of(data), not_compared_of(data), request.elsewhere, request.profile.stub)
                    for request in (self.asked.parts if self.asked else ()) for data in [request.profile.data]]
        return output.sha256(repr((self.settings, self.runtime, self.why, requests, self.doubt, self.beside)).encode(
            "utf-8", "surrogatepass"))

    @property
    def digest(self) -> str | None:
        """The SHA-256 of the profile as scf is given it."""
        return output.sha256(self.asked.profile.data) if self.asked is not None else self.dropped

    @property
    def is_stated(self) -> bool:
        """Whether it is stated how the processes are confined, or isn't known whether it is."""
        return self.digest is not None or self.why is not None or self.is_unresolved


@dataclass(frozen=True)
class StackJudgement:
    """A verdict on a stack, and what shows it: scf's verdict with a call, if it is weaker, stricter or otherwise."""

    verdict: str
    why: str | None = None
    shown: Verdict | None = None
    # the OCI names of architectures that the profile also names: their syscalls aren't compared
    not_compared: tuple[str, ...] = ()
    # the lines that explain the call, and the architecture if i386 alone was compared
    lines: tuple[str, ...] = ()
    architecture: str | None = None
    # whether it is weaker than the baseline, not than what is configured
    is_of_baseline: bool = False
    # whether the threads have neither a filter nor the strict mode
    is_unconfined: bool = False
    # the SHA-256 of the stack's bundle, None if that isn't known or the stack has no filters
    digest: str | None = None

    @property
    def order(self) -> tuple[bool, int]:
        """The unconfined first, then by the verdict."""
        return not self.is_unconfined, AUDIT_VERDICTS.index(self.verdict)


@dataclass
class RowPart:
    """A distinct stack of a row's threads."""

    # the threads that have it, by their processes
    threads: dict[int, list[int]]
    # None while it waits for one
    judgement: StackJudgement
    # the lengths of its filters
    lengths: tuple[int, ...] = ()
    is_strict: bool = False

    @property
    def description(self) -> str:
        return description(self.lengths, self.is_strict)


@dataclass
class AuditRow:
    """A container, a unit or a program."""

    kind: str
    # the container's identifier, with the place of its description if another one has it; a unit's name; a path
    key: str
    processes: list[Process]
    expected: Expectation
    container: ContainerDescription | None = None
    # the ID of the user who alone describes it, or whose processes it has; None for root
    user: int | None = None
    parts: list[RowPart] = field(default_factory=list)

    @property
    def worst(self) -> StackJudgement:
        return min((part.judgement for part in self.parts), key=lambda judgement: judgement.order)

    @property
    def verdict(self) -> str:
        return self.worst.verdict

    @property
    def is_only_counted(self) -> bool:
        return is_only_counted(self.kind, self.expected.is_stated, self.verdict)

    @property
    def names(self) -> dict[int, bytes]:
        return {process.number: process.name for process in self.processes}

    @property
    def has_no_new_privileges(self) -> bool:
        return all(process.has_no_new_privileges for process in self.processes)

    @property
    def capabilities(self) -> list[str]:
        held = 0
        for process in self.processes:
            held |= process.capabilities
        return engines.capabilities_in(held)

    @property
    def order(self) -> tuple[bool, int, int, str, str, int]:
        """Where it stands: unconfined containers and units first."""
        return (*self.worst.order, ROW_KINDS.index(self.kind), self.name, self.key, self.user or 0)

    @property
    def id(self) -> str:
        """A text that no other row of its kind has, as one line."""
        key = output.escaped(self.key.replace("\\", "\\\\"))
        return key if self.user is None else f"user {self.user}: {key}"

    @property
    def name(self) -> str:
        """The container's name, or else its identifier; the key of other rows."""
        return self.key if self.container is None else self.container.name or self.container.identifier

    @property
    def place(self) -> str:
        """Where the description of a container stands: a folder, or the control group whose name is all."""
        return "" if self.container is None else self.container.folder or os.fsdecode(b"".join(self.container.groups))


@dataclass
class Audit:
    """The rows of a machine, with the time of the audit and its duration."""

    rows: list[AuditRow]
    snapshot: Snapshot
    # the seconds since 1970 at the beginning, and those that passed
    time: float
    seconds: float = 0.0
    allows_unconfined: bool = False
    # what stacks allow, by their digests
    surfaces: dict[str, ShownSurface] = field(default_factory=dict)

    @property
    def status(self) -> int:
        """What is bad of root's is; of a user's it is no more than unknown, since the user may have described it so."""
        bad = {WEAKER, UNCONFINED_THOUGH, *([] if self.allows_unconfined else [BY_CONFIGURATION])}
        is_bad = {row.user is None: True for row in self.rows
                  if row.verdict in bad or row.worst.is_unconfined and row.verdict == NOT_KNOWN}
        if True in is_bad:
            return program.NEGATIVE
        is_unknown = is_bad or self.left_out or any(row.verdict == NOT_KNOWN for row in self.rows)
        return program.UNKNOWN if is_unknown else program.SUCCESS

    @property
    def left_out(self) -> list[str]:
        return [line for lines in self.snapshot.left_out.values() for line in lines]

    @property
    def counts(self) -> Counter[tuple[str, str]]:
        return Counter((row.kind, row.verdict) for row in self.rows)

    @property
    def confined(self) -> list[int]:
        """The processes with a filter in some thread."""
        return [number for number, process in self.snapshot.processes.items() if process.is_confined]

    @property
    def unconfined(self) -> set[int]:
        """The processes with a thread that has no filter."""
        parts = (part for row in self.rows for part in row.parts if part.judgement.is_unconfined)
        return {*self.snapshot.processes} - {*self.confined} | {number for part in parts for number in part.threads}

    @property
    def unread(self) -> set[int]:
        """The processes whose filters couldn't be read: of no thread it is known what it has."""
        return {number for row in self.rows for part in row.parts
                for number, threads in part.threads.items() if not threads}

    @property
    def stacks(self) -> dict[str, RowPart]:
        """A part of a row for each distinct stack, by its digest: root's first."""
        stacks: dict[str, RowPart] = {}
        for row in sorted(self.rows, key=lambda row: row.user is not None):
            for part in row.parts:
                if part.judgement.digest is not None:
                    stacks.setdefault(part.judgement.digest, part)
        return stacks

    @property
    def stack_numbers(self) -> dict[str | None, int]:
        return {digest: at for at, digest in enumerate(self.stacks)}
