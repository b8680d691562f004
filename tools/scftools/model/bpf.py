"""Instructions of classic BPF as their bytes (linux/filter.h, linux/bpf_common.h)."""
from __future__ import annotations

import struct
from collections.abc import Sequence

# linux/filter.h: struct sock_filter, and BPF_MAXINSNS.
INSTRUCTION = struct.Struct("<HBBI")
BPF_MAXINSNS = 4096
# linux/bpf_common.h: the codes that the tools write or read.
LOAD_WORD, LOAD_CONSTANT, RETURN_CONSTANT, JUMP, AND = 0x20, 0x00, 0x06, 0x05, 0x54
# The offsets of the halves of the instruction pointer in struct seccomp_data (linux/seccomp.h).
POINTER_OFFSETS = (8, 12)
JEQ, JGT, JGE, JSET, BY_X = 0x10, 0x20, 0x30, 0x40, 0x08
# The 41 codes that the kernel takes (seccomp_check_filter of kernel/seccomp.c).
KERNEL_CODES = frozenset(bytes.fromhex(
    "208081000160610203040c141c242c343c444c545c646c747ca4ac8405151d252d353d454d06160787"))
# The most instructions of a stack, in which each older filter counts some more (MAX_INSNS_PER_PATH in
# kernel/seccomp.c, which counts the kernel's own translation).
LONGEST_STACK, MORE_OF_OLDER = 32768, 4


def are_codes(data: bytes) -> bool:
    """Whether bytes are complete instructions with codes that the kernel takes."""
    whole = bool(data) and len(data) % INSTRUCTION.size == 0
    return whole and KERNEL_CODES.issuperset(data[::INSTRUCTION.size]) and not any(data[1::INSTRUCTION.size])


def instruction(code: int, k: int, if_true: int = 0, if_false: int = 0) -> bytes:
    return INSTRUCTION.pack(code, if_true, if_false, k)


def looks_at_pointer(data: bytes) -> bool:
    """Whether any instruction loads a half of the instruction pointer."""
    whole = data[:len(data) // INSTRUCTION.size * INSTRUCTION.size]
    return any(code == LOAD_WORD and k in POINTER_OFFSETS for code, _, _, k in INSTRUCTION.iter_unpack(whole))


def with_exception(data: bytes, number: int, conditions: Sequence[tuple[int, int, int]], answer: int) -> bytes:
    """A filter that gives this answer to a syscall of this number whose arguments meet these conditions, each an index,
    a mask and a value, and otherwise runs these bytes."""
    tests = [(0, 0xFFFFFFFF, number)]
    for index, mask, value in conditions:
        tests += [(16 + 8 * index, mask & 0xFFFFFFFF, value & mask & 0xFFFFFFFF),
                  (20 + 8 * index, mask >> 32, (value & mask) >> 32)]
    code = b""
    for place, mask, value in reversed(tests):
        masked = instruction(AND, mask) if mask != 0xFFFFFFFF else b""
        skipped = len(code) // INSTRUCTION.size + 1
        code = instruction(LOAD_WORD, place) + masked + instruction(JUMP | JEQ, value, 0, skipped) + code
    return code + instruction(RETURN_CONSTANT, answer) + instruction(LOAD_CONSTANT, 0) + data
