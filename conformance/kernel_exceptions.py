"""Where the kernel, on purpose, does otherwise than scf's definitions say: each row of conformance/README.md, tried."""
from __future__ import annotations

from collections.abc import Callable
from errno import ENOMEM, ENOSYS

from kernel_cases import Asking
from kernel_child import GATE, PROCESS_ENDS, SITE, Setting, call_at, returns
from kernel_programs import (ALLOW, DIV, ERRNO, HARMLESS, JEQ, LD_WORD, LETS_INSTALL, MOST, RET, TRACE, UNNAMED,
                              USER_NOTIF, Insn, X, packed)
from scftools.model.answers import X86_64

OWN = HARMLESS[X86_64]["getpid"]
# asm/unistd_64.h
NR_URETPROBE, NR_UPROBE = 335, 336
# What scf takes of filters of 4096 instructions: with another one the stack has 32796.
TAKEN = 7


def one_answer(asking: Asking, answer: int, expected: str, comes: str) -> list[str]:
    """A filter that gives this answer to every call: what scf says of it, and what comes back."""
    data, call = packed([Insn(RET, answer)]), call_at(SITE, OWN, ())
    line, texts = asking.scf.decide([data], call), asking.kernel.ask([data], [call], Setting()).texts
    return [] if (line, texts) == (expected, [comes]) else [f"scf decide: {line}, not {expected}",
                                                         f"the kernel: {texts}, not {comes}"]


def errno_above(asking: Asking) -> list[str]:
    wrong = one_answer(asking, ERRNO | 4095, "ERRNO 4095", returns(-4095))
    for data in (4096, 4097, 0x8000, 0xFFFF):
        wrong += one_answer(asking, ERRNO | data, f"ERRNO {data}", returns(-4095))
    return wrong


def unnamed(asking: Asking) -> list[str]:
    return [line for action in UNNAMED
            for line in one_answer(asking, action | 5, f"UNNAMED {action | 5:#010x}", PROCESS_ENDS)]


def no_listener(asking: Asking) -> list[str]:
    return one_answer(asking, USER_NOTIF, "USER_NOTIF 0", returns(-ENOSYS))


def no_tracer(asking: Asking) -> list[str]:
    return one_answer(asking, TRACE | 5, "TRACE 5", returns(-ENOSYS))


def filters_of_most(repeated: Insn) -> bytes:
    """A filter of as many instructions as one has, which lets others be installed."""
    return packed([*LETS_INSTALL, *[repeated] * (MOST - len(LETS_INSTALL) - 3), *[Insn(RET, ALLOW)] * 3])


def counts(asking: Asking) -> dict[str, int]:
    """How many filters of the most instructions the kernel takes into a stack, by what they are made of."""
    counted = {}
    for name, insn in (("loads", Insn(LD_WORD, 4)), ("returns", Insn(RET, ALLOW)), ("tests", Insn(JEQ, 1 << 31, 1, 2)),
                       ("divisions by X", Insn(DIV | X))):
        installed = asking.kernel.ask([filters_of_most(insn)] * (TAKEN + 1), []).installed
        taken = installed.index(-ENOMEM) if -ENOMEM in installed else len(installed)
        counted[name] = taken if installed[:taken] == [0] * taken else -1
    return counted


def translated(asking: Asking) -> list[str]:
    data, call = filters_of_most(Insn(RET, ALLOW)), call_at(SITE, OWN, ())
    lines = [asking.scf.decide([data] * count, call) for count in (TAKEN, TAKEN + 1)]
    wrong = [] if lines == ["ALLOW 0", "fault stack TooMany total 32796"] else [f"scf decide: {lines}"]
    counted = counts(asking)
    right = counted["loads"] == TAKEN and all(0 < count < TAKEN for name, count in counted.items() if name != "loads")
    return wrong + ([] if right else [f"the kernel takes so many filters of {MOST}: {counted}"])


def unasked(asking: Asking) -> list[str]:
    data, wrong = packed([Insn(RET, ERRNO | 77)]), []
    for number in (NR_URETPROBE, NR_UPROBE):
        call = call_at(SITE, number, ())
        line, texts = asking.scf.decide([data], call), asking.kernel.ask([data], [call]).texts
        # older kernels ask the filter, too
        if line != "ERRNO 77" or texts not in ([returns(-77)], asking.kernel.ask([], [call]).texts):
            wrong += [f"scf decide: {line}", f"the kernel, number {number}: {texts}"]
    gate = asking.kernel.ask([data], [call_at(GATE, NR_UPROBE, ())]).texts
    return wrong + ([] if gate == [returns(-77)] or gate[0].startswith("the process ends with") else [f"i386: {gate}"])


# By their titles in conformance/README.md.
ROWS: dict[str, Callable[[Asking], list[str]]] = {
    "data of ERRNO above 4095": errno_above,
    "an action without a name": unnamed,
    "USER_NOTIF without a listener": no_listener,
    "TRACE without a tracer": no_tracer,
    "the count of a stack's instructions": translated,
    "uretprobe and uprobe": unasked,
}
