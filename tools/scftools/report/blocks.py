"""Blocks of a report on processes: one for each distinct stack of filters, and the threads that have it."""
from __future__ import annotations

from collections.abc import Callable, Iterable, Iterator, Sequence

from ..base import output, program
from ..base.values import Any, dataclass, replace
from ..ask import client, explanation
from ..forms.filters import Filter, Inspection, Stack, threads_text

# The sources of faults that no stack causes.
OF_ALL = ("profile", "table", "number", "command", "input")


def blocks_of(inspection: Inspection, judge: Callable[[Stack], Any],
              unfiltered: Callable[[Stack, int], Any]) -> list[Any]:
    """A block for each distinct stack, unconfined threads first, then the worst; a fault of all stacks once."""
    # strict mode allows four syscalls, which no profile can express
    unconfined = [unfiltered(stack, program.NEGATIVE)
                  for stack in inspection.stacks if not stack.filters and not stack.is_strict]
    made: list[Any] = [unfiltered(stack, program.UNKNOWN) for stack in inspection.stacks if stack.is_strict]
    for stack in inspection.stacks:
        if stack.filters and not any(block.is_of_all for block in made):
            made.append(judge(stack))
    return unconfined + sorted(made, key=lambda block: client.rank(block.status))


def of_threads(stack: Stack, inspection: Inspection) -> Iterator[str]:
    """Which threads have a stack: a line for each process."""
    for process, threads in stack.threads.items():
        who = f"process {process} ({output.escaped(inspection.names[process])})"
        count = sum(len(other_stack.threads.get(process, ())) for other_stack in inspection.stacks)
        if len(threads) < count:
            line = f"{threads_text(threads)} of {who} {'have' if len(threads) > 1 else 'has'} {stack.description}"
        else:
            line = f"{who} has {stack.description}" + (f", in each of its {count} threads" if count > 1 else "")
        if not stack.filters and not stack.is_strict:
            line += f": {'they are' if len(threads) > 1 else 'it is'}n't confined, and every syscall is allowed"
        yield line


@dataclass(frozen=True)
class Block:
    """What a command says of a stack of filters, or of what it is given: its status, and the lines, or the members of
    the object, that it prints, which may take long to find."""

    status: int
    lines: Callable[[], Iterable[str]] = tuple
    members: Callable[[], dict[str, object]] = dict
    # whether every stack would have this fault
    is_of_all: bool = False
    # the stack, if it is a process's
    stack: Stack | None = None


def of_fault(status: int, line: str, stack: Sequence[Filter] = ()) -> Block:
    """What is said of an input that scf refuses with this line, or of filters."""
    from ..forms import refusals  # pylint: disable=import-outside-toplevel

    fault = client.Fault.read(line)
    sentences = [*explanation.explain_fault(fault), *refusals.stack_refusals(stack, fault)] if fault else []
    return Block(status, lambda: [line, *output.notes(sentences)],
                 lambda: {"fault": fault.as_json(sentences)} if fault else {})


def put_block(block: Block, is_json: bool) -> int:
    """Prints what a command says; returns its status."""
    if is_json:
        output.put_json({"status": block.status, **block.members()})
    else:
        output.put_lines(block.lines())
    return block.status


def put_blocks(given: Sequence[Filter] | Inspection, judge: Callable[[Sequence[Filter]], Block], is_json: bool) -> int:
    """Prints what a command says of filters, or of each stack of a process: a block each, the worst first, and the
    threads that have it; returns the worst status."""
    if not isinstance(given, Inspection):
        return put_block(judge(given), is_json)
    blocks = blocks_of(given, lambda stack: replace(judge(stack.named), stack=stack), lambda stack, status: Block(
        status, lambda: ["strict" if stack.is_strict else "unconfined"], stack=stack))
    status = client.worst(block.status for block in blocks)
    if is_json:
        output.put_json({"status": status, "stacks": [
            {"status": block.status, **block.members(), "confined": block.stack.confined,
             **block.stack.as_json(given.names)} for block in blocks],
            "asked_again": [{"process": process, "thread": thread} for process, thread in given.asked_again]})
        return status
    for at, block in enumerate(blocks):
        threads = () if block.is_of_all else of_threads(block.stack, given)
        output.put_lines([*[""] * bool(at), *block.lines(), *output.notes(threads)])
    output.put_lines(output.notes(given.notes))
    return status
