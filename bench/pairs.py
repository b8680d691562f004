"""Pairs of filters that answer alike: engines' filters in several forms, as libseccomp makes them, and long lists."""
import ctypes
import errno
import itertools
import json
import os
import random
import struct
import subprocess
import tempfile

TOP = os.path.dirname(os.path.dirname(os.path.abspath(__file__)))
X86_64, I386, X32 = 0xC000003E, 0x40000003, 0x4000003E
ALLOW, EPERM, KILL_PROCESS = 0x7FFF0000, 0x00050001, 0x80000000
# The engines' default profiles, where Debian's packages put them, by the name that tools/resolve-profile has for each.
PROFILES = {"podman": "/usr/share/containers/seccomp.json",
            "docker": "/usr/share/gocode/src/github.com/docker/docker/profiles/seccomp/default.json"}
# seccomp.h of libseccomp: enum scmp_compare, and the attribute that has it make a tree of tests instead of a list.
OPERATORS = {f"SCMP_CMP_{it}": at for at, it in enumerate("NE LT LE EQ GE GT MASKED_EQ".split(), 1)}
OPTIMIZE, LIST, TREE = 8, 1, 2


class Comparator(ctypes.Structure):
    """struct scmp_arg_cmp of seccomp.h."""
    _fields_ = [("arg", ctypes.c_uint), ("op", ctypes.c_int), ("a", ctypes.c_uint64), ("b", ctypes.c_uint64)]


def library():
    """libseccomp, or None if it isn't there."""
    try:
        found = ctypes.CDLL("libseccomp.so.2")
    except OSError:
        return None
    found.seccomp_init.restype = ctypes.c_void_p
    return found


def answer_of(action, data):
    """A filter's return value for an action of a profile."""
    return {"SCMP_ACT_ALLOW": ALLOW, "SCMP_ACT_KILL_PROCESS": KILL_PROCESS, "SCMP_ACT_LOG": 0x7FFC0000,
            "SCMP_ACT_ERRNO": 0x00050000 | (1 if data is None else data)}[action]


def rules_of(seccomp, profile):
    """The rules that libseccomp is given for a resolved profile, each a number, an answer and comparators."""
    default = answer_of(profile["defaultAction"], profile.get("defaultErrnoRet"))
    for entry in profile["syscalls"]:
        answer = answer_of(entry["action"], entry.get("errnoRet"))
        comparators = [Comparator(it["index"], OPERATORS[it["op"]], it["value"], it.get("valueTwo", 0))
                       for it in entry.get("args") or ()]
        for name in entry["names"]:
            number = seccomp.seccomp_syscall_resolve_name(name.encode())
            if answer != default and number != -1:
                yield number, answer, comparators


def reordered(rules):
    """The rules without conditions from the last one on, and those of other syscalls behind them, on whose order
    libseccomp's answers may depend."""
    conditional = {number for number, _, comparators in rules if comparators}
    return [*(it for it in reversed(rules) if it[0] not in conditional), *(it for it in rules if it[0] in conditional)]


def made(seccomp, profile, form, is_reordered=False, others=(I386, X32)):
    """The filter that libseccomp makes of a resolved profile for x86-64 and other architectures."""
    context = ctypes.c_void_p(seccomp.seccomp_init(answer_of(profile["defaultAction"], profile.get("defaultErrnoRet"))))
    for architecture in others:
        assert seccomp.seccomp_arch_add(context, architecture) == 0
    assert seccomp.seccomp_attr_set(context, OPTIMIZE, form) == 0
    rules = list(rules_of(seccomp, profile))
    for number, answer, comparators in reordered(rules) if is_reordered else rules:
        given = (Comparator * len(comparators))(*comparators)
        # (EEXIST: on i386 a call is socketcall's, too)
        assert seccomp.seccomp_rule_add_array(context, answer, number, len(comparators), given) in (0, -errno.EEXIST)
    with tempfile.TemporaryFile() as file:
        assert seccomp.seccomp_export_bpf(context, file.fileno()) == 0
        file.seek(0)
        found = file.read()
    seccomp.seccomp_release(context)
    return found


def insn(code, k=0, jt=0, jf=0):
    return struct.pack("<HBBI", code, jt, jf, k)


def listing(numbers):
    """A filter that allows some numbers, by a test of each in this order."""
    head = insn(0x20, 4) + insn(0x15, X86_64, 1, 0) + insn(0x06, KILL_PROCESS) + insn(0x20, 0)
    each = b"".join(insn(0x15, number, 0, 1) + insn(0x06, ALLOW) for number in numbers)
    return head + each + insn(0x06, EPERM)


def of_numbers(count=2000):
    """Two lists of every second number, the second one in a drawn order."""
    numbers = list(range(0, 2 * count, 2))
    return listing(numbers), listing(random.Random(54).sample(numbers, count))


def of_bits(count=24):
    """A filter that asks for bits of an argument and answers all alike, by as many ways as there are values of so many
    bits."""
    each = (insn(0x20, 16) + insn(0x45, 1 << it, 0, 1) + insn(0x20, 24) for it in range(count))
    return b"".join(each) + insn(0x06, ALLOW)


# The operators of SMT-LIB (theory of bit vectors) for the operations and tests of linux/bpf_common.h.
OPERATIONS = {0x00: "bvadd", 0x10: "bvsub", 0x20: "bvmul", 0x40: "bvor", 0x50: "bvand", 0x60: "bvshl", 0x70: "bvlshr",
              0xA0: "bvxor"}
TESTS = {0x10: "(= {0} {1})", 0x20: "(bvugt {0} {1})", 0x30: "(bvuge {0} {1})",
         0x40: "(distinct (bvand {0} {1}) #x00000000)"}


def constant(value):
    return f"#x{value & 0xFFFFFFFF:08x}"


class Encoding:
    """A filter's answer as a term of SMT-LIB over the words w0 to w15 of a record. It knows loads, jumps, returns, and
    operations of the accumulator by a constant: what libseccomp and compile make."""

    def __init__(self, name, data):
        self.name, self.lines = name, []
        self.code = list(struct.iter_unpack("<HBBI", data))
        # for each instruction the conditions under which it is reached, each with the accumulator then
        self.into = {0: [("true", constant(0))]}
        self.returns = []

    def defined(self, kind, at, sort, term):
        name = f"{self.name}_{kind}{at}"
        self.lines.append(f"(define-fun {name} () {sort} {term})")
        return name

    def go(self, at, condition, accumulator):
        self.into.setdefault(at, []).append((condition, accumulator))

    def step(self, at, reached, a):
        code, if_true, if_false, k = self.code[at]
        kind, operation = code & 7, code & 0xF0
        if code == 0x20:
            self.go(at + 1, reached, f"w{k // 4}")
        elif code == 0x00:
            self.go(at + 1, reached, constant(k))
        elif kind == 4 and not code & 8:
            self.go(at + 1, reached, self.defined("a", f"{at}x", "(_ BitVec 32)",
                                                  f"({OPERATIONS[operation]} {a} {constant(k)})"))
        elif code == 0x05:
            self.go(at + 1 + k, reached, a)
        elif kind == 5:
            test = self.defined("t", at, "Bool", TESTS[operation].format(a, constant(k)))
            self.go(at + 1 + if_true, f"(and {reached} {test})", a)
            self.go(at + 1 + if_false, f"(and {reached} (not {test}))", a)
        else:
            assert code == 0x06, hex(code)
            self.returns.append((reached, constant(k)))

    def answer(self):
        for at in range(len(self.code)):
            ways = self.into.pop(at, [])
            if not ways:
                continue
            reached = self.defined("r", at, "Bool", ways[0][0] if len(ways) == 1 else
                                   f"(or {' '.join(way for way, _ in ways)})")
            term = ways[-1][1]
            for way, accumulator in ways[-2::-1]:
                term = term if accumulator == term else f"(ite {way} {accumulator} {term})"
            self.step(at, reached, self.defined("a", at, "(_ BitVec 32)", term))
        term = self.returns[-1][1]
        for reached, value in self.returns[-2::-1]:
            term = f"(ite {reached} {value} {term})"
        return self.defined("answer", "", "(_ BitVec 32)", term)


def as_smt(left, right, is_native):
    """Whether some record gets different answers, of all or of those of x86-64, as a question in SMT-LIB: `unsat` says
    that there is none."""
    sides = [Encoding("l", left), Encoding("r", right)]
    answers = [it.answer() for it in sides]
    words = [f"(declare-const w{it} (_ BitVec 32))" for it in range(16)]
    native = f"(and (= w1 {constant(X86_64)}) (bvult w0 {constant(0x40000000)}))" if is_native else "true"
    return "\n".join(["(set-logic QF_BV)", *words, *itertools.chain(*(it.lines for it in sides)),
                      f"(assert {native})", f"(assert (distinct {' '.join(answers)}))", "(check-sat)\n"]).encode()


def resolved(engine):
    """An engine's default profile, resolved for a container by the tools; None if the engine's file isn't there."""
    if not os.path.exists(PROFILES[engine]):
        return None
    words = [os.path.join(TOP, "tools", "resolve-profile"), "--engine", engine, "--keep-first", PROFILES[engine]]
    return json.loads(subprocess.run(words, stdout=subprocess.PIPE, stderr=subprocess.DEVNULL, check=True).stdout)
