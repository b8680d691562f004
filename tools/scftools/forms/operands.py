"""What a word of a command line names: a filter or a profile in any form, the filters of a process (`pid:N`), or the
profile of a unit (`unit:NAME`). These two are never files: `./pid:1` is one."""
from __future__ import annotations

from collections.abc import Sequence

from ..base import inputs, program
from ..base.values import Any
from ..model import tables
from ..ask import client
from . import filters, profile_inputs
from .filters import Filter, Inspection
from .profile_inputs import ProfileInput


def has_process(*words: str) -> bool:
    return any(word.startswith(inputs.PROCESS) for word in words)


def read(words: Sequence[str], options: Any = None) -> list[Filter] | ProfileInput | Inspection:
    """What words name: several a stack of filters, one what it is by its beginning, and else by the contents of the
    file: a filter as a stack, a profile, or the stacks of a process. `options` say how a profile is read (`runtime`,
    `caps`, `machine`, `strict`), and how a process (`force`, `json`), as far as the command has that."""
    if len(words) > 1:
        return read_stacks(words, options)
    word = words[0]
    if has_process(word):
        from scfhost import processes  # pylint: disable=import-outside-toplevel

        number = processes.number_in(word.removeprefix(inputs.PROCESS))
        is_forced, is_json = (getattr(options, name, False) for name in ("force", "json"))
        given = processes.read_or_end(lambda: processes.look_at_process(
            processes.Kernel(), number, is_forced=is_forced), is_json, hasattr(options, "force"))
        for at, stack in enumerate(given.stacks):
            for bpf_filter in stack.named:
                inputs.keep(f"{word} stack {at} {bpf_filter.name}", bpf_filter.data)
        return given
    data = profile_inputs.read_text(word)
    if not word.startswith(inputs.UNIT) and not profile_inputs.looks_like_profile(data):
        return [filters.filter_in(word, data)]
    from . import runtimes  # pylint: disable=import-outside-toplevel

    return runtimes.input_in(data, word, options, getattr(options, "strict", False))


def read_stacks(words: Sequence[str], options: Any = None, compiles: bool = False) -> list[Filter] | Inspection:
    """The stack that words name, oldest first, or the stacks of a process; on request also the filters of profiles."""
    if len(words) == 1 and has_process(*words):
        return read(words, options)  # type: ignore
    if has_process(*words):
        raise program.ToolError("a process stands alone, since its filters are a whole stack")

    def filter_of(word: str) -> Filter:
        given = read([word], options)
        return compiled(word, given) if isinstance(given, ProfileInput) else given[0]  # type: ignore

    return filters.read_stack(words, filter_of if compiles else filters.read_filter)


def read_stack(words: Sequence[str], options: Any = None, compiles: bool = False) -> list[Filter]:
    """The stack that words name; of a process the one that all of its threads have."""
    given = read_stacks(words, options, compiles)
    return given if isinstance(given, list) else the_stack(given)


def the_stack(given: Inspection) -> list[Filter]:
    """The stack that all threads of a process have."""
    if len(given.stacks) > 1:
        raise program.ToolError(f"the threads of process {next(iter(given.names))} have different filters: `scf "
                                "filters-of` takes those of each", program.UNKNOWN)
    return given.stacks[0].named


def compiled(word: str, profile: ProfileInput) -> Filter:
    """The filter that scf compiles of a profile; ends the tool where it refuses to."""
    judged = profile.judged(tables.read_table(None), False)
    try:
        return Filter(word, client.compile_profile(profile.data, judged))
    except client.Refusal as why:
        from . import refusals  # pylint: disable=import-outside-toplevel

        sentences = refusals.sentences(why.fault, profile.data, judged, profile.origins) if why.fault else ()
        raise program.ToolError(" ".join([f"{inputs.label(word)}: {why.line}.", *sentences]), why.status) from why
