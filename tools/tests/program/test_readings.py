"""How scf reads a profile: by its words, with TRAP's data or as runc and crun do, and with the stub of runc's filters.
What is wanted follows from the runtimes' sources, as crates/scf_profile/specs/Readings.antt names them, and from
seccomp(2)."""
import json
import random

from support.common import part
from support.on_parts import OnProgram, ran

TABLE = part("table", b"read 0\nwrite 1\nclose 3\n")
X86_TABLE = part("table-x86", b"read 3\nwrite 4\n")
EACH = "--architectures"


def entry(action, **more):
    return {"names": ["read"], "action": action, **more}


def profile(*entries, architectures=("SCMP_ARCH_X86_64", "SCMP_ARCH_X86")):
    return part("profile", json.dumps({
        "defaultAction": "SCMP_ACT_ERRNO", "architectures": list(architectures), "syscalls": entries}).encode())


def condition(value, index=0, operator="EQ", **more):
    return {"index": index, "value": value, "op": f"SCMP_CMP_{operator}", **more}


ALLOWED = profile(entry("SCMP_ACT_ALLOW"))
# Entries of `read`, and by each reading how `read(7)` is answered, or why the profile is refused.
READINGS = {
    # libseccomp takes the first of two entries without conditions
    "twice": ([entry("SCMP_ACT_ALLOW"), entry("SCMP_ACT_TRAP")], {
        "strict": "fault profile Conflict number 0 first 0 second 1",
        "runc": "ALLOW 0 entry 0", "crun": "ALLOW 0 entry 0"}),
    # and none whose answer is the default's
    "default": ([entry("SCMP_ACT_ERRNO"), entry("SCMP_ACT_ALLOW")], {
        "strict": "fault profile Conflict number 0 first 0 second 1",
        "runc": "ALLOW 0 entry 1", "crun": "ALLOW 0 entry 1"}),
    # two conditions on one argument are alternatives
    "alternatives": ([entry("SCMP_ACT_ALLOW", args=[condition(0), condition(7)])], {
        "strict": "fault profile RepeatedIndex entry 0",
        "runc": "ALLOW 0 entry 0", "crun": "ALLOW 0 entry 0"}),
    # and so is each other condition of the entry then
    "alternatives and another": ([entry("SCMP_ACT_ALLOW", args=[condition(1), condition(2), condition(0, 1)])], {
        "strict": "fault profile RepeatedIndex entry 0",
        "runc": "ALLOW 0 entry 0", "crun": "ALLOW 0 entry 0"}),
    # runc ignores an errno beside an action that takes none, and crun refuses it
    "errno": ([entry("SCMP_ACT_ALLOW", errnoRet=70000)], {
        "strict": "fault profile Errno entry 0",
        "runc": "ALLOW 0 entry 0", "crun": "fault profile Errno entry 0"}),
    "too great an errno": ([entry("SCMP_ACT_ERRNO", errnoRet=70000)], dict.fromkeys(
        ("strict", "runc", "crun"), "fault profile ErrnoRange entry 0")),
    # a rule without conditions stands behind one with a condition, and one whose mask has no bit is such a rule
    "whole last": ([entry("SCMP_ACT_ERRNO", errnoRet=22, args=[condition(7)]), entry("SCMP_ACT_ALLOW")], {
        "strict": "fault profile Conflict number 0 first 0 second 1",
        "runc": "ALLOW 0 entry 1", "crun": "ALLOW 0 entry 1"}),
    "empty mask": ([entry("SCMP_ACT_ALLOW", args=[condition(7)]),
                    entry("SCMP_ACT_ERRNO", errnoRet=22, args=[condition(0, 1, "MASKED_EQ", valueTwo=7)])], {
        "strict": "fault profile Conflict number 0 first 0 second 1",
        "runc": "ERRNO 22 entry 1", "crun": "ERRNO 22 entry 1"}),
    # both have a condition, and one argument meets both
    "both met": ([entry("SCMP_ACT_ALLOW", args=[condition(1, 0, "GE")]),
                  entry("SCMP_ACT_LOG", args=[condition(2, 0, "GE")])], dict.fromkeys(
        ("strict", "runc", "crun"), "fault profile Conflict number 0 first 0 second 1")),
    # crun takes six conditions, of which none is an alternative then
    "seventh": ([entry("SCMP_ACT_ALLOW", args=[*(condition(0, index) for index in range(6)), condition(7)])], {
        "strict": "fault profile RepeatedIndex entry 0",
        "runc": "ALLOW 0 entry 0", "crun": "ERRNO 1 default"}),
    "six before a seventh": ([entry("SCMP_ACT_ALLOW", args=[
        condition(7), *(condition(0, index) for index in range(1, 6)), condition(9)])], {
        "strict": "fault profile RepeatedIndex entry 0",
        "runc": "ALLOW 0 entry 0", "crun": "ALLOW 0 entry 0"}),
}
# Profiles that list i386 alone, tables, words, and what is printed: a runtime's filter has the machine's own
# architecture, x86-64 or aarch64, listed or not.
X86_LISTED = profile(entry("SCMP_ACT_ALLOW"), architectures=["SCMP_ARCH_X86"])
# The first condition's mask has bits of 64-bit arguments alone, so that it is none in i386.
HIGH_MASK = profile(entry("SCMP_ACT_LOG", args=[condition(1 << 32, 0, "MASKED_EQ", valueTwo=0)]),
                    entry("SCMP_ACT_ALLOW", args=[condition(0)]))
OWN = (
    ((), X86_LISTED + TABLE, {"strict": "fault profile NoX8664", "sandbox": "fault profile NoX8664",
                              "runc": "ALLOW 0 entry 0", "crun": "ALLOW 0 entry 0"}),
    ((EACH,), X86_LISTED + TABLE, {"strict": "fault profile NotListed table 0", "crun": "ALLOW 0 entry 0"}),
    ((EACH, "--arch=0xc00000b7", "--nr=63"), X86_LISTED + part("table-aarch64", b"read 63\n"),
     {"strict": "fault profile NotListed table 0", "runc": "ALLOW 0 entry 0"}),
    ((EACH,), X86_LISTED + part("table-arm", b"read 3\n"), {"runc": "fault profile NotListed table 0"}),
    ((EACH, "--arch=0x40000003", "--nr=3"), HIGH_MASK + X86_TABLE, {"runc": "LOG 0 entry 0"}),
    ((EACH,), HIGH_MASK + TABLE, {"runc": "fault profile Conflict number 0 first 0 second 1"}),
)


class Asked(OnProgram):
    def asks(self, given, line, *words):
        """What a profile answers, or by which fault it is refused."""
        self.prints(["ask", *words], given, f"{line}\n", int(line.startswith("fault")))


class TestReadings(Asked):
    def test_each_reading(self):
        for name, (entries, wanted) in READINGS.items():
            given = profile(*entries) + TABLE
            for reading, line in wanted.items():
                with self.subTest(name=name, reading=reading):
                    for words in ([], [EACH]):
                        self.asks(given, line, *words, "--a0=7", f"--reading={reading}")
                    # every command that loads a profile refuses it alike
                    for command in ("compile", "answers"):
                        printed, status = ran([command, f"--reading={reading}"], given)
                        self.assertEqual((status, printed.startswith(b"fault")), (line.startswith("fault"),) * 2)

    def test_own_architecture(self):
        for words, given, wanted in OWN:
            for reading, line in wanted.items():
                with self.subTest(words=words, reading=reading, line=line):
                    self.asks(given, line, *words, f"--reading={reading}")

    def test_compare(self):
        """The filter that a reading compiles is `same` by it, and not by another, or without the option."""
        twice = profile(*READINGS["twice"][0]) + TABLE
        compiled, status = ran(["compile", "--reading=runc"], twice)
        self.assertEqual(status, 0)
        conflict = "fault profile Conflict number 0 first 0 second 1\n"
        self.print_each([(words, part("filter", compiled) + twice, text, status) for words, text, status in (
            ("--reading=runc", "same\nother SCMP_ARCH_X86\n", 0),
            (f"{EACH} --reading=crun", "same\nother SCMP_ARCH_X86\n", 0), ("", conflict, 1),
            ("--reading=strict", conflict, 1))], "compare")

    def test_unknown_reading(self):
        for command in ("compile", "ask", "compare", "answers"):
            for reading in ("", "Runc", "runc ", "youki"):
                self.refuses([command, f"--reading={reading}"], "fault command Reading\n")
        # it is tested before the numbers
        self.refuses(["ask", "--reading=x", "--nr=x"], "fault command Reading\n")


# By an action and its errno, as JSON, in a sandbox's reading: what `ask` prints of the answer, or the fault.
WITH_ERRNO = {
    ("TRAP", "0"): "TRAP 0", ("TRAP", "3"): "TRAP 3", ("TRAP", "65535"): "TRAP 65535", ("TRAP", "null"): "TRAP 0",
    ("TRAP", "65536"): "ErrnoRange", ("TRAP", "-1"): "ErrnoRange", ("TRAP", '"EPERM"'): "Kind", ("TRAP", "1.0"): "Kind",
    ("TRACE", "3"): "TRACE 3", ("TRACE", "null"): "TRACE 1", ("ERRNO", "0"): "ERRNO 0",
    ("ERRNO", "65536"): "ErrnoRange", ("ALLOW", "3"): "Errno", ("ALLOW", "null"): "ALLOW 0",
    ("KILL_PROCESS", "0"): "Errno", ("LOG", '"EPERM"'): "Kind",
}
DATA, SANDBOX = ("TRAP", "ERRNO", "TRACE"), "--reading=sandbox"


class TestTrapData(Asked):
    def test_each_errno(self):
        """Beside an entry's action, and beside the default's."""
        for (action, errno), wanted in WITH_ERRNO.items():
            for where, text in (("default", f'{{"defaultAction": "SCMP_ACT_{action}", "defaultErrnoRet": {errno}}}'),
                                ("entry 0", '{"defaultAction": "SCMP_ACT_LOG", "syscalls": [{"names": ["read"], '
                                            f'"action": "SCMP_ACT_{action}", "errnoRet": {errno}}}]}}')):
                given, at = part("profile", text.encode()) + TABLE, "" if where == "default" else f" {where}"
                line = f"{wanted} {where}" if " " in wanted else f"fault profile {wanted}{at}"
                with self.subTest(text):
                    for words in ([], [EACH]):
                        self.asks(given, line, *words, SANDBOX)
                    for reading in ("strict", "crun") if action == "TRAP" and errno.isdecimal() else ():
                        self.asks(given, f"fault profile Errno{at}", f"--reading={reading}")

    def test_as_strict_in_all_else(self):
        for name, (entries, wanted) in READINGS.items():
            with self.subTest(name):
                self.asks(profile(*entries) + TABLE, wanted["strict"], "--a0=7", SANDBOX)
        self.asks(profile(architectures=["SCMP_ARCH_X86"]) + TABLE, "fault profile NoX8664", SANDBOX)

    def test_drawn(self):
        """The filter that is compiled answers with the data, and is `same`; with other data it isn't."""
        def given(answers, change=0):
            return profile(*({"names": [f"call{number}"], "action": f"SCMP_ACT_{action}", **(
                {"errnoRet": data ^ change * (action == "TRAP")} if action in DATA else {})}
                for number, (action, data) in enumerate(answers)), architectures=[]) + part(
                    "table", "".join(f"call{number} {number}\n" for number in range(len(answers))).encode())

        for seed in range(12):
            drawn = random.Random(f"trap {seed}")
            answers = [(action, drawn.choice((0, 1, 3, 38, 65535)) if action in DATA else 0)
                       for action in ("TRAP", *drawn.choices((*DATA, "LOG", "ALLOW"), k=7))]
            compiled, status = ran(["compile", SANDBOX], given(answers))
            self.assertEqual(status, 0)
            filters = part("filter", compiled)
            for number, (action, data) in enumerate(answers):
                self.prints(["decide", f"--nr={number}"], filters, f"{action} {data}\n")
            self.prints(["compare", SANDBOX], filters + given(answers), "same\n")
            self.assertEqual(ran(["compare", SANDBOX], filters + given(answers, 1))[1], 1)


PARTS = "fault bundle Parts\n"


class TestStubs(OnProgram):
    def test_answers_of_the_stub(self):
        """runc answers ENOSYS, 38, from the stub's first number on, whatever an entry says; of this architecture."""
        of_0, of_1 = (ALLOWED + TABLE + part("stub-table", first) for first in (b"0", b"1"))
        both = ALLOWED + TABLE + X86_TABLE + part("stub-table-x86", b"3")
        self.print_each([
            ("--nr=0", of_0, "ERRNO 38 stub\n", 0), ("--nr=0", of_1, "ALLOW 0 entry 0\n", 0),
            *(("--nr=0x40000000", given, "KILL_PROCESS 0 foreign\n", 0) for given in (of_0, of_1)),
            (f"{EACH} --nr=3 --arch=0x40000003", both, "ERRNO 38 stub\n", 0),
            (f"{EACH} --nr=2 --arch=0x40000003", both, "ERRNO 1 default\n", 0),
            (f"{EACH} --nr=3", both, "ERRNO 1 default\n", 0),
            # the greatest number, and a long one
            *(("--nr=3", ALLOWED + TABLE + part("stub-table", text), "ERRNO 1 default\n", 0)
              for text in (b"4294967295", b"000000000000000000000000000004"))], "ask")

    def test_refused_stubs(self):
        texts = (b"", b"4\n", b" 4", b"-1", b"0x4", b"4294967296", b"18446744073709551616")
        given = ALLOWED + TABLE
        stub, of_x86 = part("stub-table", b"4"), part("stub-table-x86", b"4")
        self.print_each([
            *(("ask", given + part("stub-table", text), PARTS, 3) for text in texts),
            *((words, parts, PARTS, 3) for parts in (given + stub + stub, ALLOWED + stub, stub)
              for words in ("ask", f"ask {EACH}", "answers")),
            # the stub of an architecture whose table isn't there; without the flag it is no kind of a part
            (f"ask {EACH}", given + of_x86, PARTS, 3),
            ("ask", given + of_x86, f"fault bundle Header offset {len(given)}\n", 3)])
