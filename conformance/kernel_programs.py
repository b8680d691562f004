"""Programs and calls for asking the running kernel: chosen ones, and random ones that a seed fixes."""
from __future__ import annotations

import random
import struct
from collections.abc import Iterator, Sequence
from typing import NamedTuple

from kernel_child import NR_SECCOMP, SITE, SITES, call_at, is_gate
from scftools.base.values import replace
from scftools.model.answers import I386_NUMBER, X86_64
from scftools.model.calls import Call

WORD = 1 << 32
MOST, MOST_OF_HEADER = 4096, 65535
# linux/filter.h, linux/bpf_common.h: the 41 codes of seccomp
LD_WORD, LD_LEN, LDX_LEN, LD, LDX, LD_MEM, LDX_MEM, ST, STX = 0x20, 0x80, 0x81, 0x00, 0x01, 0x60, 0x61, 0x02, 0x03
ALU = (0x04, 0x14, 0x24, 0x34, 0x44, 0x54, 0x64, 0x74, 0xA4)
ADD, SUB, MUL, DIV, OR, AND, LSH, RSH, XOR = ALU
NEG, JA, RET, RET_A, TAX, TXA = 0x84, 0x05, 0x06, 0x16, 0x07, 0x87
JEQ = 0x15
TESTS = (JEQ, 0x25, 0x35, 0x45)
X = 0x08
ALL_TESTS = (*TESTS, *(code | X for code in TESTS))
CODES = sorted((LD_WORD, LD_LEN, LDX_LEN, LD, LDX, LD_MEM, LDX_MEM, ST, STX, *ALU, *(code | X for code in ALU), NEG,
                JA, *ALL_TESTS, RET, RET_A, TAX, TXA))
CORNERS = (0, 1, 2, 3, 7, 31, 32, 33, 63, 64, 0xFF, 0xFFFF, 0x10000, 0x7FFFFFFF, 0x80000000, 0x80000001, 0xFFFFFFFE,
           0xFFFFFFFF)
# linux/seccomp.h: answers of all actions, in the order of precedence
KILL_PROCESS, KILL_THREAD, TRAP, ERRNO = 0x80000000, 0x00000000, 0x00030000, 0x00050000
USER_NOTIF, TRACE, LOG, ALLOW = 0x7FC00000, 0x7FF00000, 0x7FFC0000, 0x7FFF0000
UNNAMED = (0x00010000, 0x00040000, 0x0FFF0000, 0x7FFE0000, 0x80010000, 0xC0000000, 0xFFFF0000)
DATA = (0, 1, 2, 13, 38, 4094, 4095, 4096, 4097, 0x7FFF, 0x8000, 0xFFFF)
# Calls that do nothing wherever they are allowed: those of a process's own numbers, and numbers that no kernel has.
HARMLESS = {X86_64: {"getpid": 39, "getppid": 110, "gettid": 186},
            I386_NUMBER: {"getpid": 20, "getppid": 64, "gettid": 224}}
UNUSED, X32 = 1000, 0x40000000
NUMBERS = (39, 110, 186, 20, 64, 224, UNUSED, UNUSED + 1, 0xFFFF, 0x10000, 400000, 400001, 400007, X32 - 1, X32,
           X32 + UNUSED, 0x7FFFFFFF, 0x800003E8, 0xFFFFFFFF)
WORDS = 16


class Insn(NamedTuple):
    code: int
    k: int = 0
    jt: int = 0
    jf: int = 0


def packed(program: Sequence[Insn]) -> bytes:
    return b"".join(struct.pack("<HBBI", insn.code, insn.jt, insn.jf, insn.k) for insn in program)


# Programs that the kernel takes or not

def chosen_programs() -> Iterator[list[Insn]]:
    """Each code, each rule of the checker at both sides of its border, and the borders of the length."""
    last = Insn(RET, ALLOW)
    stored = [Insn(ST, place) for place in range(16)]
    for code in (*range(0x100), 0x100 | RET, 0x100 | LD_WORD, 0x8000 | RET, 0xFF06, 0xFFFF):
        for k in (0, 1):
            yield [*stored, Insn(code, k), last, last]
        yield [Insn(code), last]
    for code in CODES:
        # fields that the code doesn't use are never looked at
        unused = 0xFFFFFFFF if code in (LD_LEN, LDX_LEN, NEG, RET_A, TAX, TXA) or code & X else 1
        yield [*stored, Insn(code, unused, *((0, 0) if code in ALL_TESTS else (255, 255))), last, last]
        yield [*stored, Insn(code, 1)]
    for k in (*range(72), 0x7FFFFFFC, 0x80000000, 0xFFFFEFFC, 0xFFFFF000, 0xFFFFF004, 0xFFFFFFF8, 0xFFFFFFFC):
        yield [Insn(LD_WORD, k), last]
    for k in (0, 1, 14, 15, 16, 17, 31, 32, 255, 256, 0x7FFFFFFF, 0x80000000, 0x80000001, 0xFFFFFFFF):
        for code in (ST, STX, LD_MEM, LDX_MEM):
            yield [*stored, Insn(code, k), last]
        for code in ALU:
            yield [Insn(code, k), last]
            yield [Insn(code | X, k), last]
    yield from chosen_jumps(last)
    yield from chosen_paths(last)
    for length in (0, 1, 2, MOST - 1, MOST, MOST + 1, MOST_OF_HEADER):
        yield [last] * length
        yield [Insn(LD_WORD, 4)] * (length - 1) + [last] * min(length, 1)
        yield [Insn(LD_WORD, 4)] * length


def chosen_jumps(last: Insn) -> Iterator[list[Insn]]:
    for length in (1, 2, 3, 255, 256, 257, 300):
        for over in (length - 2, length - 1, length, length + 1, 254, 255):
            if 0 <= over:
                yield [Insn(JA, over), *[last] * length]
                for code in ALL_TESTS if 0 <= over < 256 else ():
                    yield [Insn(code, 1, over, 0), *[last] * length]
                    yield [Insn(code, 1, 0, over), *[last] * length]
    for k in (0x7FFFFFFF, 0x80000000, 0xFFFFFFFD, 0xFFFFFFFE, 0xFFFFFFFF):
        yield [Insn(JA, k), last]
        yield [last, last, Insn(JA, k), last]


def chosen_paths(last: Insn) -> Iterator[list[Insn]]:
    """Loads of a scratch word, stored on each path, on some, or on none."""
    for load in (LD_MEM, LDX_MEM):
        for store in (ST, STX):
            for word, loaded in ((0, 1), (15, 14), (7, 7)):
                for path in ([Insn(store, word)], [Insn(store, word), Insn(RET, 0)], [Insn(JA, 0), Insn(store, word)],
                             [Insn(JA, 1), Insn(store, word)], [Insn(RET, 0), Insn(store, word)],
                             [Insn(JEQ, 0, 1, 0), Insn(store, word)], [Insn(JEQ, 0, 0, 1), Insn(store, word)],
                             [Insn(JEQ, 0, 0, 0), Insn(store, word)],
                             [Insn(JEQ, 0, 2, 0), Insn(store, word), Insn(JA, 1), Insn(store, loaded)],
                             [Insn(JEQ, 0, 1, 0), Insn(store, word), Insn(store, loaded)]):
                    yield [*path, Insn(load, loaded), last]
                    yield [*path, Insn(load, word), last]
        # no path comes to the load
        yield [Insn(JA, 1), Insn(load, 3), last]
        yield [Insn(RET, 0), Insn(load, 3), last]
        yield [Insn(JEQ, 0, 1, 1), Insn(load, 3), last]


def random_program(random_of: random.Random) -> list[Insn]:
    """A filter, most often with something changed in it."""
    program = random_filter(random_of)
    for _ in range(random_of.choice((0, 1, 1, 1, 2, 3))):
        place = random_of.randrange(len(program))
        insn = program[place]
        length = len(program) - place - 1
        borders = (*CORNERS, 4, 15, 16, 17, 28, 60, 61, 62, 68, length - 2, length - 1, length, length + 1)
        change = random_of.randrange(8)
        if change == 0:
            program[place] = insn._replace(code=random_of.choice((*CODES, random_of.randrange(256))))
        elif change == 1:
            program[place] = insn._replace(k=random_of.choice(borders) % WORD)
        elif change == 2:
            program[place] = insn._replace(jt=random_of.choice((length - 2, length - 1, length, 255)) % 256)
        elif change == 3:
            program[place] = insn._replace(jf=random_of.choice((length - 2, length - 1, length, 255)) % 256)
        elif change == 4 and len(program) > 1:
            del program[place]
        elif change == 5:
            program.insert(place, Insn(random_of.choice(CODES), random_of.choice(borders) % WORD,
                                       random_of.choice((0, 0, 1, length % 256)), random_of.choice((0, 0, 1))))
        elif change == 6 and len(program) > 1:
            del program[random_of.randrange(1, len(program)):]
        else:
            scratch = [at for at, insn in enumerate(program) if insn.code in (ST, STX, LD_MEM, LDX_MEM)]
            if scratch:
                at = random_of.choice(scratch)
                program[at] = program[at]._replace(k=random_of.randrange(17))
    return program


# Filters

class Maker:
    """Makes a filter, an instruction after the other, and knows which scratch words are stored on every path to it."""

    def __init__(self, random_of: random.Random, length: int, begin: Sequence[Insn] = ()) -> None:
        self.random = random_of
        # what begins so is an older filter of a stack, and seldom keeps the newer ones from deciding
        self.is_older = bool(begin)
        self.length = length
        self.program: list[Insn] = []
        self.stored = [0xFFFF] * (length + 1)
        self.now = 0
        self.word = 0
        self.pool = [random_of.choice((random_of.getrandbits(32), random_of.choice(CORNERS))) for _ in range(5)]
        for insn in begin:
            self.put(insn)

    def put(self, insn: Insn) -> None:
        place = len(self.program)
        now = self.now & self.stored[place]
        self.program.append(insn)
        if insn.code in (ST, STX):
            now |= 1 << insn.k
        if insn.code in ALL_TESTS or insn.code == JA:
            for over in (insn.k,) if insn.code == JA else (insn.jt, insn.jf):
                self.stored[place + 1 + over] &= now
            now = 0xFFFF
        if insn.code == LD_WORD:
            self.word = insn.k // 4
        self.now = now

    def constant(self) -> int:
        """One that tells values of the word that was loaded last apart, most often."""
        choose = self.random.choice
        about = choose((0, 0, 0, 1, -1))
        if self.random.random() < 0.25:
            return (choose((*CORNERS, *self.pool)) + about) % WORD
        if self.word == 0:
            return (choose(NUMBERS) + about) % WORD
        if self.word == 1:
            return (choose((X86_64, X86_64, I386_NUMBER)) + about) % WORD
        if self.word < 4:
            pointer = choose(tuple(SITES)) + 2
            return ((pointer >> 32 if self.word == 3 else pointer) + about) % WORD
        return (choose(self.pool) + about) % WORD

    def over(self, most: int) -> int:
        """How many instructions a jump leaps over: at most to the filter's last."""
        most = min(most, self.length - len(self.program) - 2)
        return self.random.choice((0, 1, 2, self.random.randint(0, most), min(most, 8))) if most >= 2 else 0

    def scratch(self) -> int:
        """A word that is stored on each path to here, or -1."""
        stored = self.now & self.stored[len(self.program)]
        return self.random.choice([place for place in range(16) if stored >> place & 1] or [-1])

    def computation(self) -> Insn:
        choose = self.random.choice
        code = choose((*ALU, *ALU, *ALU, NEG)) if self.random.random() < 0.7 else choose((LSH, RSH, DIV, MUL))
        if code == DIV and self.random.random() < 0.8:
            return Insn(DIV, choose((1, 2, 3, 0x10000, 0xFFFFFFFF)))
        if code == NEG or self.random.random() < 0.45:
            return Insn(code | (X if code != NEG else 0), choose((0, 0xFFFFFFFF)))
        if code in (LSH, RSH):
            return Insn(code, choose((0, 1, 4, 15, 16, 17, 30, 31)))
        return Insn(code, max(choose((*CORNERS, *self.pool)), 1 if code == DIV else 0))

    def answer(self) -> int:
        choose = self.random.choice
        action = choose((ERRNO, TRAP, TRAP, TRACE, TRACE, USER_NOTIF, USER_NOTIF, LOG, ALLOW, ALLOW))
        if self.is_older:
            action = choose((action, USER_NOTIF, USER_NOTIF, TRACE, LOG, ALLOW, ALLOW, ALLOW))
        if self.random.random() < (0.02 if self.is_older else 0.06):
            action = choose((KILL_THREAD, KILL_PROCESS, choose(UNNAMED)))
        return action | choose((*DATA, self.random.getrandbits(16)))

    def step(self) -> Insn:
        choose = self.random.choice
        kind = self.random.random()
        if kind < 0.24:
            return Insn(LD_WORD, 4 * choose((0, 0, 1, 2, 3, *range(4, WORDS), 4, 6, 8)))
        if kind < 0.30:
            return Insn(choose((LDX, LDX, LD)), choose((*CORNERS, *self.pool)))
        if kind < 0.32:
            return Insn(choose((LD_LEN, LDX_LEN)), choose((0, 0xFFFFFFFF)))
        if kind < 0.39:
            return Insn(choose((ST, STX)), self.random.randrange(16))
        if kind < 0.47:
            place = self.scratch()
            return Insn(choose((LD_MEM, LDX_MEM)), place) if place >= 0 else Insn(TAX)
        if kind < 0.52:
            return Insn(choose((TAX, TAX, TXA)), choose((0, 0xFFFFFFFF)))
        if kind < 0.74:
            return self.computation()
        if kind < 0.77:
            return Insn(JA, self.over(1 << 16), choose((0, 255)), choose((0, 255)))
        if kind < 0.96:
            code = choose(TESTS)
            return Insn(code | choose((0, 0, X)), self.constant(), self.over(255), self.over(255))
        return Insn(RET, self.answer()) if kind < 0.998 else Insn(RET_A)

    def ending(self) -> list[Insn]:
        """Shows half of A, or of X, as the data of an answer, or gives an answer as it is."""
        choose = self.random.choice
        if self.random.random() < (0.8 if self.is_older else 0.2):
            return [Insn(RET, self.answer())]
        if self.random.random() < 0.03:
            return [Insn(RET_A)]
        half = choose((Insn(AND, 0xFFFF), Insn(RSH, 16)))
        return [*choose(([], [], [Insn(TXA)], [Insn(XOR | X)])), half,
                Insn(OR, choose((TRAP, TRAP, TRAP, TRACE, ERRNO))), Insn(RET_A)]


def random_filter(random_of: random.Random, begin: Sequence[Insn] = ()) -> list[Insn]:
    """A filter that begins so, and that the kernel takes."""
    size = random_of.choice((random_of.randint(1, 6), random_of.randint(4, 24), random_of.randint(10, 60)))
    if random_of.random() < 0.04:
        size = random_of.randint(260, 1200)
    length = len(begin) + size + 4
    maker = Maker(random_of, length, begin)
    while len(maker.program) < length - 4:
        maker.put(maker.step())
    ending = maker.ending()
    for place in range(4 - len(ending)):
        maker.put(Insn(LD_WORD, 4 * random_of.randrange(WORDS)) if place else Insn(TXA))
    for insn in ending:
        maker.put(insn)
    return maker.program


def i386_filter(random_of: random.Random) -> list[Insn]:
    """A filter for i386 syscalls, as compilers make them: rules of numbers, with tests of halves of arguments."""
    maker = Maker(random_of, 1)
    program = [Insn(LD_WORD, 4), Insn(JEQ, I386_NUMBER, 1, 0), Insn(RET, maker.answer())]
    for _ in range(random_of.randint(1, 8)):
        number = random_of.choice((*HARMLESS[I386_NUMBER].values(), *NUMBERS))
        tests = [(4 * random_of.randrange(4, WORDS), random_of.choice(TESTS), random_of.choice((*CORNERS, *maker.pool)))
                 for _ in range(random_of.choice((0, 1, 1, 2, 3)))]
        program += [Insn(LD_WORD, 0), Insn(JEQ, number, 0, 2 * len(tests) + 1)]
        for place, (word, code, k) in enumerate(tests):
            program += [Insn(LD_WORD, word), Insn(code, k, 0, 2 * (len(tests) - place) - 1)]
        program.append(Insn(RET, maker.answer()))
    return [*program, Insn(RET, maker.answer())]


# Each older filter of a stack lets the next one be installed.
LETS_INSTALL = (Insn(LD_WORD, 0), Insn(JEQ, NR_SECCOMP, 0, 1), Insn(RET, ALLOW))


def random_stack(random_of: random.Random) -> list[list[Insn]]:
    """One filter, or up to 8, oldest first."""
    count = random_of.choice((1, 1, 1, 2, 2, 3, 4, 5, 6, 7, 8))
    stack = [random_filter(random_of, LETS_INSTALL) for _ in range(count - 1)]
    if count > 1 and random_of.random() < 0.4:
        # answers alone, so that they meet in rank
        answers = Maker(random_of, 1)
        kind = answers.answer() & 0xFFFF0000
        stack = [[*LETS_INSTALL, Insn(RET, random_of.choice((answers.answer(), kind | random_of.choice(DATA))))]
                 for _ in range(count - 1)]
        return [*stack, [Insn(RET, kind | random_of.getrandbits(16))]]
    return [*stack, random_filter(random_of)]


def chosen_filters() -> Iterator[list[Insn]]:
    """Each code that computes or tests, of two words of the call, both halves of what comes out as an answer's data."""
    first, second = 4 * 4, 4 * 6
    begin = [Insn(LD_WORD, second), Insn(TAX), Insn(LD_WORD, first)]
    for ending in ([Insn(AND, 0xFFFF), Insn(OR, TRAP), Insn(RET_A)], [Insn(RSH, 16), Insn(OR, TRAP), Insn(RET_A)]):
        for code in (*ALU, NEG):
            for k in (1, 31) if code in (LSH, RSH) else (3, 0xFFFFFFFF):
                yield [*begin, Insn(code, k), *ending]
            if code != NEG:
                yield [*begin, Insn(code | X), *ending]
        for code in (LD_LEN, LDX_LEN, LD, LDX, TAX, TXA):
            yield [*begin, Insn(code, 0x12345678), *ending]
            yield [*begin, Insn(code, 0x12345678), Insn(TXA), *ending]
        for store in (ST, STX):
            for load in (LD_MEM, LDX_MEM):
                yield [*begin, Insn(store, 15), Insn(XOR | X), Insn(load, 15), Insn(ADD | X), *ending]
    for code in TESTS:
        for k in (0x80000000, 31):
            yield [*begin, Insn(code, k, 0, 1), Insn(RET, ERRNO | 1), Insn(RET, ERRNO | 2)]
        yield [*begin, Insn(code | X, 0, 1, 0), Insn(RET, ERRNO | 1), Insn(RET, ERRNO | 2)]
    yield [Insn(JA, 1), Insn(RET, ERRNO | 1), Insn(RET, ERRNO | 2)]
    yield [Insn(TXA), Insn(ADD, 7), Insn(OR, TRAP), Insn(RET_A)]
    yield [Insn(ADD, 7), Insn(OR, TRAP), Insn(RET_A)]
    for place in range(WORDS):
        yield [Insn(LD_WORD, 4 * place), Insn(AND, 0xFFFF), Insn(OR, TRAP), Insn(RET_A)]
        yield [Insn(LD_WORD, 4 * place), Insn(RSH, 16), Insn(OR, TRAP), Insn(RET_A)]


def chosen_stacks() -> Iterator[list[list[Insn]]]:
    """Two filters for each pair of actions, and for each action two data."""
    actions = (KILL_PROCESS, KILL_THREAD, TRAP, ERRNO, USER_NOTIF, TRACE, LOG, ALLOW, *UNNAMED)
    for newer in actions:
        for older in actions:
            yield [[*LETS_INSTALL, Insn(RET, older | 7)], [Insn(RET, newer | 9)]]


# Calls

def constants(stack: Sequence[Sequence[Insn]]) -> dict[int, set[int]]:
    """For each word of the record the constants that stand behind a load of it, and for -1 all of them."""
    values_of: dict[int, set[int]] = {-1: {0}}
    for program in stack:
        word = 0
        for insn in program:
            if insn.code == LD_WORD:
                word = insn.k // 4
            elif insn.code in (*TESTS, *ALU, LD, LDX):
                values_of.setdefault(word, set()).add(insn.k)
                values_of[-1].add(insn.k)
    return values_of


class Calls:
    """Makes calls that do nothing where they are allowed: on this kernel, with or without these."""

    def __init__(self, i386: bool, x32: bool) -> None:
        self.sites = [site for site in SITES if i386 or not is_gate(site)]
        self.x32 = x32

    def does_nothing(self, site: int, number: int) -> bool:
        arch = I386_NUMBER if is_gate(site) else X86_64
        if number in HARMLESS[arch].values() or number % X32 >= UNUSED:
            return True
        return number >= X32 and arch == X86_64 and not self.x32

    def site(self, random_of: random.Random) -> int:
        sites = [site for site in self.sites if not is_gate(site) or random_of.random() < 0.3]
        return random_of.choice(sites or [SITE])

    def call(self, random_of: random.Random, values_of: dict[int, set[int]]) -> Call:
        choose = random_of.choice
        site = self.site(random_of)
        arch = I386_NUMBER if is_gate(site) else X86_64

        def word(place: int) -> int:
            values = sorted(values_of.get(place, values_of[-1]) if random_of.random() < 0.7 else values_of[-1])
            if random_of.random() < 0.2:
                return choose((*CORNERS, random_of.getrandbits(32)))
            return (choose(values) + choose((0, 0, 0, 1, -1))) % WORD

        numbers = [number for number in (word(0), word(0), choose(NUMBERS)) if self.does_nothing(site, number)]
        if not numbers or random_of.random() < 0.3:
            numbers = [*HARMLESS[arch].values()]
        arguments = tuple(word(4 + 2 * at) | word(5 + 2 * at) << 32 for at in range(6))
        return call_at(site, choose(numbers), arguments)

    def many(self, random_of: random.Random, stack: Sequence[Sequence[Insn]], count: int) -> list[Call]:
        values_of = constants(stack)
        return [self.call(random_of, values_of) for _ in range(count)]

    def of_corners(self, random_of: random.Random, count: int) -> list[Call]:
        """Calls whose first two arguments have corners in both of their halves: first some pairs of low halves that
        tell most, as of an operand and its divisor or shift."""
        calls = []
        first = [(0x80000001, 0), (0x80000001, 32), (0x80000001, 33), (0xFFFFFFFF, 0x7FFFFFFF), (1, 0xFFFFFFFF), (7, 7)]
        for place in range(count):
            call = self.call(random_of, {-1: set(CORNERS)})
            words = [random_of.choice((*CORNERS, 5, 31, 32, 33, 64)) for _ in range(4)]
            words[:2] = first[place] if place < len(first) else words[:2]
            calls.append(replace(call, arguments=(words[0] | words[2] << 32, words[1] | words[3] << 32,
                                                  *call.arguments[2:])))
        return calls


class I386Calls(Calls):
    """Makes calls by the i386 gate alone."""

    def site(self, random_of: random.Random) -> int:
        return random_of.choice([site for site in SITES if is_gate(site)])
