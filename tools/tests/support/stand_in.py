"""A second machine of seccomp's programs, which stands in for scf where a test plants a change in what it says.

It is written from filter.h, seccomp(2) and the kernel's checker, and takes its answers from none of scf's code.
"""
import functools
import operator
import struct

ACTIONS = {0x80000000: "KILL_PROCESS", 0: "KILL_THREAD", 0x30000: "TRAP", 0x50000: "ERRNO", 0x7FC00000: "USER_NOTIF",
           0x7FF00000: "TRACE", 0x7FFC0000: "LOG", 0x7FFF0000: "ALLOW"}
WORD, SIGN = (1 << 32) - 1, 1 << 31
COMPUTES = {
    0x00: lambda a, v: a + v & WORD, 0x10: lambda a, v: a - v & WORD, 0x20: lambda a, v: a * v & WORD,
    0x30: lambda a, v: a // v if v else a, 0x40: operator.or_, 0x50: operator.and_,
    0x60: lambda a, v: a << (v & 31) & WORD, 0x70: lambda a, v: a >> (v & 31), 0xA0: operator.xor,
}
TESTS = {0x10: operator.eq, 0x20: operator.gt, 0x30: operator.ge, 0x40: operator.and_}
# What a planted change makes of some of these.
PLANTED_COMPUTES = {
    "or is xor": {0x40: operator.xor},
    "rsh keeps the sign": {0x70: lambda a, v: (a ^ SIGN) - SIGN >> (v & 31) & WORD},
    "a shift by 32 gives 0": {op: lambda a, v, shifts=COMPUTES[op]: 0 if v >= 32 else shifts(a, v)
                              for op in (0x60, 0x70)},
}
PLANTED_TESTS = {"jgt is signed": {0x20: lambda a, v: a ^ SIGN > v ^ SIGN}}
CODES = {0x20, 0x80, 0x81, 0x00, 0x01, 0x60, 0x61, 0x02, 0x03, 0x84, 0x05, 0x06, 0x16, 0x07, 0x87,
         *(0x04 | op | x for op in COMPUTES for x in (0, 8)), *(0x05 | op | x for op in TESTS for x in (0, 8))}

# What can be planted: in an arm of a code or in the stack; in the checker.
OF_ANSWERS = ("or is xor", "rsh keeps the sign", "a shift by 32 gives 0", "jgt is signed", "a division by 0 goes on",
              "ldx len is 0", "the oldest of equal ranks", "ranks have no sign", "unnamed answers allow")
OF_CHECKER = ("a constant shift by 32 is taken", "a target at the length is taken", "the else side isn't looked at",
              "stores of one path are enough", "a return ends a path")


class StandIn:
    """Says what scf says, but for the change that is planted."""

    def __init__(self, plant=None):
        assert plant in (None, *OF_ANSWERS, *OF_CHECKER)
        self.plant = plant
        self.computes = {**COMPUTES, **PLANTED_COMPUTES.get(plant, {})}
        self.tests = {**TESTS, **PLANTED_TESTS.get(plant, {})}

    def fault(self, program):
        """The kind of the first fault, or None."""
        if not program:
            return "Empty"
        if len(program) > 4096:
            return "TooLong"
        for place, (code, jt, jf, k) in enumerate(program):
            behind = len(program) - place - 1 + (self.plant == "a target at the length is taken")
            if code not in CODES:
                return "Code"
            if code == 0x20 and (k >= 64 or k % 4):
                return "Load"
            if code in (0x60, 0x61, 2, 3) and k > 15:
                return "Scratch"
            if code == 0x34 and k == 0:
                return "Divisor"
            if code in (0x64, 0x74) and k > 31 + (self.plant == "a constant shift by 32 is taken"):
                return "Shift"
            targets = (k,) if code == 5 else (jt,) if self.plant == "the else side isn't looked at" else (jt, jf)
            if code & 7 == 5 and max(targets) >= behind:
                return "Jump"
        if program[-1][0] not in (0x06, 0x16):
            return "LastNotReturn"
        return None if self.keeps_scratch(program) else "Unset"

    def keeps_scratch(self, program):
        """Whether every path stores a scratch word before it loads it: the sets of words stored on all paths."""
        every = frozenset(range(16))
        before = [every] * (len(program) + 2)
        before[0] = frozenset()
        for place, (code, jt, jf, k) in enumerate(program):
            now = before[place]
            if code in (2, 3):
                now = now | {k}
            elif code in (0x60, 0x61) and k not in now:
                return False
            nexts = [place + 1]
            if code == 5:
                nexts = [place + 1 + k]
            elif code & 7 == 5:
                nexts = [place + 1 + jt, place + 1 + jf]
            elif code & 7 == 6 and self.plant == "a return ends a path":
                nexts = []
            for target in nexts:
                if self.plant == "stores of one path are enough" and before[target] != every:
                    before[target] = before[target] | now
                else:
                    before[target] = before[target] & now
        return True

    def answer(self, program, words, path=None):
        """What a program answers; the places of the instructions that run go to `path`, where it is given."""
        a, x, place, scratch = 0, 0, 0, {}
        while True:
            code, jt, jf, k = program[place]
            if path is not None:
                path.append(place)
            place += 1
            kind = code & 7
            if kind == 5:
                if code == 5:
                    place += k
                else:
                    place += jt if self.tests[code & 0xF0](a, x if code & 8 else k) else jf
            elif kind == 4:
                v = x if code & 8 else k
                if code == 0x3C and v == 0 and self.plant != "a division by 0 goes on":
                    return 0
                a = -a & WORD if code == 0x84 else self.computes[code & 0xF0](a, v)
            elif kind == 6:
                return a if code == 0x16 else k
            elif kind == 7:
                a, x = (a, a) if code == 7 else (x, x)
            elif kind > 1:
                scratch[k] = a if code == 2 else x
            else:
                mode = code & 0xE0
                if mode == 0x20:
                    loaded = words[k // 4 % 16]
                elif mode == 0x60:
                    loaded = scratch.get(k)
                elif mode == 0x80:
                    loaded = 0 if kind and self.plant == "ldx len is 0" else 64
                else:
                    loaded = k
                a, x = (a, loaded) if kind else (loaded, x)

    def printed(self, answer):
        name = ACTIONS.get(answer & 0xFFFF0000)
        if name is None and self.plant == "unnamed answers allow":
            name = "ALLOW"
        return f"{name} {answer & 0xFFFF}" if name else f"UNNAMED {answer:#010x}"

    def check(self, data):
        if len(data) > 32768:
            return "fault filter TooLong"
        fault = self.fault(unpacked(data))
        return f"fault filter {fault}" if fault else f"accepted {len(data) // 8}"

    def run(self, data, call):
        return self.printed(self.answer(unpacked(data), words_of(call)))

    def path(self, data, call):
        """The places of the instructions that run on a call, in their order."""
        path = []
        self.answer(unpacked(data), words_of(call), path)
        return path

    def decision(self, filters, call):
        """The answer of a stack."""
        return self.decision_of(map(unpacked, filters), words_of(call))

    def decision_of(self, programs, words):
        """The answer of a stack as instructions to the words of a record."""
        def rank(answer):
            return answer >> 16 if self.plant == "ranks have no sign" or not answer >> 31 else (answer >> 16) - 0x10000

        answers = [self.answer(program, words) for program in programs]
        if self.plant != "the oldest of equal ranks":
            answers.reverse()
        return min(answers, key=rank)

    def decide(self, filters, call):
        return self.printed(self.decision(filters, call))


@functools.lru_cache
def unpacked(data):
    return tuple(struct.iter_unpack("<HBBI", data))


def words_of(call):
    record = struct.pack("<IIQ6Q", call.number, call.architecture, call.pointer, *call.arguments)
    return struct.unpack("<16I", record)
