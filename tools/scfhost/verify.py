"""The filters of processes compared with a profile or with saved filters: a verdict for each distinct stack."""
from __future__ import annotations

from collections.abc import Iterator, Sequence

from scftools.base import output, program
from scftools.base.values import Any, dataclass, field, replace
from scftools.model import profiles, tables
from scftools.ask import explanation, questions, verdicts
from scftools.forms import engines, filters, runtimes
from scftools.forms.filters import Filter, Inspection, Stack
from scftools.forms.profile_inputs import ProfileInput
from scftools.report.blocks import OF_ALL, blocks_of, of_threads
from scftools.report.compare import pair_of
from scftools.report.compare_output import Judgement, comparison_json, comparison_notes
from .configurations import ContainerError

# What is compared with if nothing is configured: every syscall is allowed.
ALLOWS_ALL = b'{"defaultAction": "SCMP_ACT_ALLOW"}'
# The faults that are left to runtimes, which accept two answers to a syscall, and two conditions on one argument.
LEFT_TO_RUNTIMES = ("Conflict", "RepeatedIndex")
# The verdict on threads without a filter, by whether a container's configuration has a profile; None without one.
UNCONFINED = {None: "unconfined", False: "unconfined by configuration", True: "unconfined though configured"}


@dataclass(frozen=True)
class Block:
    """A distinct stack, and the judgement on it; without filters there is nothing to compare."""

    stack: Stack
    status: int
    # of a stack without filters why there is none
    verdict: str | None
    judged: Judgement | None = None
    # by architecture the least number that runc answers with ENOSYS, if it does so here
    stub: dict[str, int] = field(default_factory=dict)
    # whether every stack would have this fault
    is_of_all: bool = False


@dataclass(frozen=True)
class Request:
    """How each stack is compared with a profile, as its runtime is given it, or with filters that were saved."""

    profile: ProfileInput
    table: tables.Table
    # None for all architectures that the profile names
    scope: str | None = None
    relation: str = verdicts.SAME
    # the OCI names of architectures that another profile names, and the questions about those
    elsewhere: tuple[str, ...] = ()
    others: tuple[Request, ...] = ()
    # whether the profile is what a container's configuration says, and that has one
    configured: bool | None = None
    saved: Sequence[Filter] = ()

    @property
    def parts(self) -> tuple[Request, ...]:
        """The question, and those about other architectures."""
        return self, *self.others

    @property
    def remarks(self) -> list[str]:
        """Notes on the profile as its runtime applies it."""
        if self.configured is False:
            return ["nothing is configured (linux.seccomp), as with --privileged and seccomp=unconfined; that counts "
                    "as a profile that allows every syscall"]
        return list(self.profile.remarks)

    @property
    def is_accepted(self) -> bool:
        """Whether scf takes the profile, or leaves it to the runtimes."""
        judged = self.profile.judged(self.table, self.scope == verdicts.NATIVE_SCOPE)
        fault = explanation.profile_reason(self.profile.data, judged, ()).fault
        return fault is None or fault.kind in LEFT_TO_RUNTIMES

    def judge(self, stack: Stack) -> Block:
        judged = Judgement.of([each.comparison(stack.named) for each in self.parts], self.scope)
        fault, word = judged.first.fault, judged.first.verdict and judged.first.verdict.word
        stub = judged.comparison.right.stub if word == verdicts.SAME and not self.saved else {}
        return Block(stack, judged.status, word, judged, stub, fault is not None and fault.source in OF_ALL)

    def comparison(self, stack: Sequence[Filter], relation: str | None = None) -> Any:
        """The comparison of filters with the profile, or with those that were saved."""
        return pair_of(stack, self.saved or self.profile, self.table, relation or self.relation,
                       self.scope == verdicts.NATIVE_SCOPE, elsewhere=self.elsewhere)

    def notes(self, block: Block, report: verdicts.Report) -> Iterator[str]:
        """What is added to the lines of scf's report."""
        yield from comparison_notes(block.judged.comparison, report, block.judged.scope)
        if block.stub:
            yield from self.profile.stub_notes(block.stub)


def nothing_request(*settings: Any, **named: Any) -> Request:
    """The question where nothing is configured, by a request's other settings: other ABIs are allowed, too."""
    return Request(ProfileInput(ALLOWS_ALL), *settings, elsewhere=questions.ABI_NAMES, **named)


def request_of(config: dict[str, Any], runtime: str | None, *settings: Any, keeps_first: bool = False,
               **named: Any) -> Request:
    """The question about a container's configuration, as its runtime applies it, by a request's other settings."""
    try:
        if runtime is not None:
            profile = runtimes.applied(config, runtime)
        elif keeps_first:
            resolver = engines.Resolver(engines.Setting((), (0, 0), False))
            profile = ProfileInput(engines.printed(resolver.resolved(config, True)).encode())
        else:
            profile = ProfileInput(engines.to_bytes(config))
    except profiles.Refused as why:
        raise ContainerError(f"the container's configuration: {why}") from why
    return Request(profile, *settings, **named)


def read_saved(folder: str) -> list[Filter]:
    """The filters that were saved in a folder, oldest first."""
    if not (names := filters.saved_in(folder)):
        raise program.ToolError(f"the folder '{output.escaped(folder)}' has no *.bpf: `scf filters-of PID FOLDER` "
                                "writes those of a process")
    return filters.read_stack(names)


class Verification:
    """What is found of the threads of a process or a container: a block for each distinct stack, the worst first, whose
    status and verdict are those of all, unless `others` says which processes may be the container's, too."""

    def __init__(self, inspection: Inspection, request: Request, others: str | None = None) -> None:
        self.inspection, self.request = inspection, request
        self.blocks = blocks_of(inspection, request.judge, lambda stack, status: Block(
            stack, status, "strict" if stack.is_strict else UNCONFINED[request.configured]))
        self.status, self.verdict = self.blocks[0].status, self.blocks[0].verdict
        if others is not None and self.status == program.SUCCESS:
            self.status, self.verdict = program.UNKNOWN, None

    @property
    def is_refuted(self) -> bool:
        """Whether filters aren't as the profile says, or can't be compared with it."""
        return self.status in (program.NEGATIVE, program.TROUBLE) and self.blocks[0].judged is not None

    def lines(self, is_verbose: bool = False) -> Iterator[str]:
        """scf's lines for each block, with --verbose also the skipped names, and then added lines, marked by `# `."""
        is_printed = False
        for at, block in enumerate(self.blocks):
            if at:
                yield ""
            if block.judged is not None:
                report = block.judged.first
                if is_printed:
                    report = replace(report, skipped=(), architectures=())
                is_printed = is_printed or report.verdict is not None
                yield from report.printed if is_verbose else report.brief
                yield from output.notes(self.request.notes(block, report))
            elif self.request.configured is not None:
                yield block.verdict or ""
            yield from output.notes(of_threads(block.stack, self.inspection))
        yield from output.notes(self.inspection.notes)

    def as_json(self, container: str | None) -> dict[str, object]:
        """The object with all that is printed, and the container."""
        inspection, scopes = self.inspection, [block.judged.scope for block in self.blocks if block.judged is not None]
        compared = [{"status": block.status, "verdict": block.verdict} if block.judged is None else comparison_json(
            block.judged.comparison, block.judged.first, block.judged.scope, block.status) for block in self.blocks]
        return {"status": self.status, "scope": [*scopes, self.request.scope or verdicts.NATIVE_SCOPE][0],
                "verdict": self.verdict, "container": container,
                "stacks": [{**members, **({"stub": block.stub} if block.stub else {}),
                            **block.stack.as_json(inspection.names)} for members, block in zip(compared, self.blocks)],
                "passed_over": [{"process": process, "why": why} for process, why in inspection.passed_over.items()],
                "asked_again": [{"process": process, "thread": thread} for process, thread in inspection.asked_again]}
