#!/usr/bin/env python3
"""What a program prints of drawn inputs: a line for each, with its command, its status and a hash of its output.

    bench/outputs.py PROGRAM [--show CASE]

A program that is to answer as another one prints the same lines: `diff` of both lists shows which cases differ, and
--show prints the words, the bundle and the output of one. Of each command that takes a bundle the cases have verdicts
of each kind, faults of each part, and limits below and above what the answer takes.
"""
import argparse
import collections
import concurrent.futures
import hashlib
import json
import os
import random
import subprocess
import sys

from pairs import ALLOW, EPERM, I386, KILL_PROCESS, X86_64, insn

AARCH64 = 0xC00000B7
NAMES = ["read", "write", "open", "close", "socket", "clone", "ioctl", "no_such_call"]
TABLES = {"table": ("SCMP_ARCH_X86_64", "read 0\nwrite 1\nopen 2\nclose 3\nsocket 41\nclone 56\nioctl 16\n"),
          "table-x86": ("SCMP_ARCH_X86", "read 3\nwrite 4\nopen 5\nclose 6\nclone 120\nioctl 54\n"),
          "table-x32": ("SCMP_ARCH_X32", "read 0\nwrite 1\nopen 2\nsocket 41\nclone 56\n"),
          "table-aarch64": ("SCMP_ARCH_AARCH64", "read 63\nwrite 64\nclose 57\nclone 220\nsocket 198\n")}
ACTIONS = ["ALLOW", "ALLOW", "ERRNO", "LOG", "TRAP", "KILL", "KILL_PROCESS", "NOTIFY", "TRACE"]
OPERATORS = ["EQ", "EQ", "NE", "LT", "LE", "GT", "GE", "MASKED_EQ"]
VALUES = [0, 1, 2, 0x10, 0xFFFF, 0x7E020000, 1 << 31, (1 << 32) - 1, 1 << 32, (1 << 64) - 1]
ANSWERS = [ALLOW, EPERM, KILL_PROCESS, 0x00050026, 0x7FFC0000, 0x00030000, 0x7FC00000, 0x7FF00005, 0x12345678]
WORDS = ["ld [0]", "ld [4]", "ld [20]", "jeq #0x2, L0, L1", "L0: ret #0x7fff0000", "L1: ret #0", "ld [3]", "ret a",
         "tax", "jmp L1", "frob", "st M[3]", "and #0xff", "jset #1, L0", ""]


def part(kind, data):
    return b"%s %d\n" % (kind.encode(), len(data)) + data


class Draw(random.Random):
    """What is drawn for one case."""

    def filter(self):
        """A filter: most are whole, and some have a fault or test what was computed."""
        at = self.random()
        if at < 0.06:
            return self.randbytes(self.choice((0, 4, 8, 17, 64)))
        if at < 0.1:
            return b"".join(insn(self.choice((0x20, 0x15, 0x06, 0x54, 0x30, 0x94)), self.choice(VALUES) & 0xFFFFFFFF,
                                 self.randrange(3), self.randrange(3)) for _ in range(self.randrange(1, 9)))
        return self.checked_filter()

    def checked_filter(self):
        head = insn(0x20, 4) + insn(0x15, X86_64, 1, 0) + insn(0x06, self.choice((KILL_PROCESS, EPERM, ALLOW)))
        calls = [self.body() for _ in range(self.randrange(5))]
        code = b"".join(insn(0x20, 0) + insn(0x15, self.choice((0, 1, 2, 3, 16, 41, 56)), 0, len(body) // 8) + body
                        for body in calls)
        return (head if self.random() < 0.8 else b"") + code + insn(0x06, self.choice(ANSWERS[:6]))

    def body(self):
        """Instructions that test an argument, and answer."""
        tests = b""
        for _ in range(self.randrange(3)):
            value = self.choice(VALUES) & 0xFFFFFFFF
            code = self.choice((0x15, 0x15, 0x25, 0x35, 0x45))
            computed = self.choice((b"", b"", insn(0x54, 0x7E020000), insn(0x24, 28), insn(0x04, 5), insn(0xA4, 3),
                                    insn(0x74, 3)))
            tests += insn(0x20, 16 + 4 * self.randrange(12)) + computed + insn(code, value, 1, 0) + \
                insn(0x06, self.choice(ANSWERS))
        return tests + insn(0x06, self.choice(ANSWERS))

    def profile(self):
        if self.random() < 0.08:
            return self.choice((b"", b"{", b"[]", b'{"defaultAction": 3}', b'{"defaultAction": "SCMP_ACT_ALLOW"}'))
        value = {"defaultAction": f"SCMP_ACT_{self.choice(ACTIONS)}", "syscalls": [
            self.entry() for _ in range(self.choice((0, 1, 2, 3, 6)))]}
        if self.random() < 0.6:
            others = self.sample([oci for oci, _ in TABLES.values()][1:], self.randrange(3))
            value["architectures"] = others + ["SCMP_ARCH_X86_64"] * (self.random() < 0.9)
        if self.random() < (0.5 if value["defaultAction"].endswith("ERRNO") else 0.02):
            value["defaultErrnoRet"] = self.choice((1, 38, 4095, 65535, 65536))
        return json.dumps(value).encode()

    def entry(self):
        entry = {"names": self.sample(NAMES, self.choice((1, 1, 2, 3))), "action": f"SCMP_ACT_{self.choice(ACTIONS)}"}
        if self.random() < 0.5:
            entry["args"] = [{"index": index, "value": self.choice(VALUES), "valueTwo": self.choice(VALUES),
                              "op": f"SCMP_CMP_{self.choice(OPERATORS)}"}
                             for index in self.sample(range(6), self.choice((1, 1, 2)))]
        if self.random() < (0.5 if entry["action"].endswith(("ERRNO", "TRACE")) else 0.02):
            entry["errnoRet"] = self.choice((0, 1, 38, 38, 65535, 65536))
        if self.random() < 0.05:
            entry[self.choice(("names", "action", "args", "includes"))] = self.choice((3, [], "", {"caps": ["X"]}))
        return entry

    def tables(self, several):
        kinds = self.sample([*TABLES], self.randrange(1, 4)) if several else ["table"]
        for kind in kinds:
            text = TABLES[kind][1].encode()
            yield part(kind, text if self.random() < 0.96 else self.choice((b"", b"read\n", b"read 1\nread 2\n")))

    def options(self, *optional):
        """Some of these options, each a word, or a word and what its value is drawn from."""
        for name, *values in optional:
            if self.random() < 0.3:
                yield name + (f"={self.choice(values)}" if values else "")

    def record(self):
        return list(self.options(
            ("--nr", 0, 1, 41, "0x40000001", 4294967295, *["4294967296"] * (self.random() < 0.1)),
            ("--ip", 7, "0xffffffffffffffff"), ("--arch", X86_64, X86_64, I386, AARCH64),
            *((f"--a{at}", *VALUES) for at in range(6))))


def sides_case(draw, command):
    """A comparison, or the list of what two sides or one of them answer."""
    of_filters = draw.random() < 0.3
    several = draw.random() < (0.04 if of_filters else 0.4)
    scopes = [[], [], ["--native"], ["--nr-from=2"], ["--nr-from=1", "--nr-to=50"], ["--nr-to=4294967295"]]
    relations = [[], [], ["--no-more"], ["--no-less"], ["--disposition"], ["--no-more", "--no-less"]]
    words = draw.choice(scopes) + list(draw.options(("--limit", 0, 1, 20, 300, 10 ** 6)))
    if command == "compare":
        words += draw.choice(relations) + list(draw.options(("--splits", 0, 0, 1, 100)))
        if draw.random() < (0.02 if words[0:1] and "n" in words[0][2] else 0.25):
            words += ["--calls", *draw.options(("--total-limit", 5, 500))]
    else:
        words += draw.options(("--examples",), ("--differences",))
    words += [] if of_filters else draw.options(("--reading", "runc", "crun", "sandbox"))
    words += ["--beside"] * (of_filters and (command == "compare" or "--differences" in words))
    words += ["--architectures"] * several
    parts = [part("filter", draw.filter()) for _ in range(draw.choice((0, 1, 1, 1, 2)))]
    if of_filters:
        parts += [part("beside", draw.filter()) for _ in range(draw.choice((0, 1, 1, 2)))]
    elif command == "compare" or "--differences" in words or not parts or draw.random() < 0.1:
        parts += [part("profile", draw.profile()), *draw.tables(several)]
    if draw.random() < 0.04:
        parts.append(part(draw.choice(("stub-table", "frob", "filter", "beside-profile")), b"read 0\n"))
    bundle = b"".join(draw.sample(parts, len(parts)) if draw.random() < 0.3 else parts)
    return words, bundle if draw.random() < 0.96 else bundle[:-1]


def alike_case(draw):
    """A filter beside its profile, or beside itself, as are most of the comparisons that hold."""
    values = draw.sample(range(100), draw.randrange(1, 9))
    profile = {"defaultAction": "SCMP_ACT_ERRNO", "syscalls": [
        {"names": ["read"], "action": "SCMP_ACT_ALLOW", "args": [{"index": 0, "value": value, "op": "SCMP_CMP_EQ"}]}
        for value in values]}
    tests = b"".join(insn(0x20, 20) + insn(0x15, 0, 0, 3) + insn(0x20, 16) + insn(0x15, value, 0, 1) + insn(0x06, ALLOW)
                     for value in values)
    head = insn(0x20, 4) + insn(0x15, X86_64, 1, 0) + insn(0x06, KILL_PROCESS) + insn(0x20, 0)
    data = head + insn(0x35, 0x40000000, 0, 1) + insn(0x06, EPERM) + insn(0x15, 0, 1, 0) + insn(0x06, EPERM) + tests + \
        insn(0x06, EPERM)
    words = draw.choice(([], [], ["--calls"], ["--native"]))
    words += draw.options(("--limit", 3, 60, 10 ** 7), ("--no-more",))
    return words, part("filter", data) + part("profile", json.dumps(profile).encode()) + \
        part("table", TABLES["table"][1].encode())


def computed_case(draw):
    """Two filters that compute the same of two words of a record, or nearly the same."""
    computed = insn(0x07) + insn(0x20, 24) + insn(draw.choice((0x0C, 0x2C)))
    left, right = (insn(0x20, 16) + each + insn(0x15, 28, 0, 1) + insn(0x06, ALLOW) + insn(0x06, EPERM)
                   for each in draw.choice(((computed, insn(0x54, 7) + computed), (computed, computed * 2))))
    right = draw.choice((left, right, insn(0x20, 0) + left, insn(0x00, 1) + left))
    words = [f"--splits={draw.choice((0, 1, 20))}", *draw.options(("--limit", 3, 60, 10 ** 7), ("--no-more",))]
    return [*words, "--beside"], part("filter", left) + part("beside", right)


def profile_case(draw, command):
    several = draw.random() < 0.4
    words = list(draw.options(("--reading", "runc", "crun", "sandbox", "frob"))) + ["--architectures"] * several
    words += draw.record() if command == "ask" else draw.options(("--left-out",))
    parts = [part("profile", draw.profile()), *draw.tables(several)]
    return words, b"".join(parts[:draw.choice((1, 9, 9, 9, 9))])


def text_case(draw):
    return [], "\n".join(draw.choice(WORDS) for _ in range(draw.randrange(12))).encode() + draw.choice((b"", b"\n"))


CASES = {
    "check": lambda draw: ([], draw.filter()),
    "dis": lambda draw: ([], draw.filter()),
    "run": lambda draw: (draw.record() + list(draw.options(("--path",))), draw.filter()),
    "decide": lambda draw: (draw.record() + list(draw.options(("--path",), ("--at",))),
                            b"".join(part("filter", draw.filter()) for _ in range(draw.randrange(4)))),
    "asm": text_case,
    "ask": lambda draw: profile_case(draw, "ask"),
    "compile": lambda draw: profile_case(draw, "compile"),
    "compare": lambda draw: sides_case(draw, "compare") if draw.random() < 0.7 else alike_case(draw),
    "answers": lambda draw: sides_case(draw, "answers"),
    # comparisons whose verdict may take splits
    "computed": computed_case,
}
COUNTS = {**dict.fromkeys(CASES, 100), "compare": 600, "answers": 400, "compile": 200, "ask": 200}


def drawn(name):
    """The words and the input of a case, always the same."""
    kind = name.partition(" ")[0]
    words, data = CASES[kind](Draw(f"scf {name}"))
    return ["compare" if kind == "computed" else kind, *words], data


def run(program, name):
    words, data = drawn(name)
    return subprocess.run([program, *words], input=data, capture_output=True, check=False)


def main():
    parser = argparse.ArgumentParser(description=__doc__, formatter_class=argparse.RawDescriptionHelpFormatter)
    parser.add_argument("program", type=os.path.abspath)
    parser.add_argument("--show", metavar="CASE", help="such as 'compare 17'")
    options = parser.parse_args()
    if options.show is not None:
        words, data = drawn(options.show)
        sys.stdout.write(f"{' '.join(words)}\n{data!r}\n")
        sys.stdout.flush()
        return subprocess.run([options.program, *words], input=data, check=False).returncode
    names = [f"{command} {at}" for command, count in COUNTS.items() for at in range(count)]
    kinds = collections.Counter()
    with concurrent.futures.ThreadPoolExecutor(os.cpu_count()) as pool:
        for name, done in zip(names, pool.map(lambda name: run(options.program, name), names)):
            print(name, done.returncode, hashlib.sha256(done.stdout).hexdigest()[:16])
            first = done.stdout.decode(errors="replace").split("\n", 1)[0].split(" at ")[0].split()
            kinds[name.split()[0], " ".join(first[:1 if first[:1] != ["fault"] else 3])[:32]] += 1
    for (command, kind), count in sorted(kinds.items()):
        print(f"{command}: {kind}: {count}", file=sys.stderr)
    return 0


if __name__ == "__main__":
    sys.exit(main())
