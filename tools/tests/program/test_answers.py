"""What `run`, `check`, `decide`, `dis` and `asm` answer: what each code computes and tests in how many steps, which
filters and texts are refused, which instructions run on a call, each option of a call, stacks and bundles."""
from support.common import I386, X32, X86_64, insn
from support.on_parts import (ALLOW_ALL, ARCH_GATE, OnProgram, a_filter, a_profile, a_table, assembled, behind_gate,
                              bundle, each_of)
from support.stand_in import StandIn
from support.worked import FAILS, KILLS, MADE

# The word of the call at byte 4i is i + 1.
CALL = ["--nr", "1", "--arch", "2", "--ip", "0x400000003"]
CALL += [word for at in range(6) for word in (f"--a{at}", hex((2 * at + 6) << 32 | 2 * at + 5))]
DIVIDED_BY_0 = "ld #7; ldx #0; div x; ret #0x7fff0000"
STORED_ONE_WAY = "ld [0]; jeq #0, 1, 0; st M[1]; ld M[1]; ret a"
STORED_BOTH_WAYS = "ld [0]; jeq #0, 1, 0; st M[1]; st M[1]; ld M[1]; ret a"
# The accumulator and the index register before, code and constant, and the accumulator after.
COMPUTATIONS = (
    (9, 9, 0x20, 4, 2), (9, 9, 0x20, 60, 16), (9, 9, 0x80, 0, 64), (9, 9, 0x00, 5, 5), (0xFFFFFFFF, 0, 0x04, 1, 0),
    (0x80000000, 0x80000000, 0x0C, 0, 0), (0, 0, 0x14, 1, 0xFFFFFFFF), (5, 7, 0x1C, 0, 0xFFFFFFFE),
    (0xFFFFFFFF, 0, 0x24, 0xFFFFFFFF, 1), (0x10000, 0x10001, 0x2C, 0, 0x10000), (7, 0, 0x34, 2, 3),
    (0xFFFFFFFF, 0x80000000, 0x3C, 0, 1), (7, 2, 0x3C, 0, 3), (0x8000000F, 0, 0x44, 0xF0, 0x800000FF),
    (6, 3, 0x4C, 0, 7), (0xFFFFFFFF, 0, 0x54, 0x80000001, 0x80000001), (6, 3, 0x5C, 0, 2),
    (3, 0, 0x64, 31, 0x80000000), (3, 0, 0x64, 0, 3), (1, 33, 0x6C, 0, 2), (1, 32, 0x6C, 0, 1),
    (0x80000000, 0, 0x74, 31, 1), (0xFFFFFFFF, 0, 0x74, 0, 0xFFFFFFFF), (0x80000000, 33, 0x7C, 0, 0x40000000),
    (0x80000000, 32, 0x7C, 0, 0x80000000), (0xFFFFFFFF, 0, 0xA4, 0x80000001, 0x7FFFFFFE), (6, 3, 0xAC, 0, 5),
    (1, 0, 0x84, 0, 0xFFFFFFFF), (0x80000000, 0, 0x84, 0, 0x80000000), (0, 0, 0x84, 0, 0), (1, 9, 0x87, 0, 9),
)
# Code and constant, and the index register after, behind an accumulator of 9.
REGISTERS = ((0x81, 0, 64), (0x01, 5, 5), (0x07, 0, 9))
# The accumulator and the index register, code and constant, and whether the test holds.
TESTS = (
    (5, 0, 0x15, 5, True), (5, 0, 0x15, 4, False), (5, 5, 0x1D, 0, True), (5, 4, 0x1D, 5, False),
    (0x80000000, 0, 0x25, 0x7FFFFFFF, True), (5, 0, 0x25, 5, False), (0xFFFFFFFF, 0, 0x2D, 0, True),
    (0, 0xFFFFFFFF, 0x2D, 0, False), (5, 0, 0x35, 5, True), (0x7FFFFFFF, 0, 0x35, 0x80000000, False),
    (0x80000000, 0x80000000, 0x3D, 0, True), (0, 1, 0x3D, 0, False), (6, 0, 0x45, 3, True), (4, 0, 0x45, 3, False),
    (0x80000000, 0xFFFFFFFF, 0x4D, 0, True), (0xFFFFFFFF, 0, 0x4D, 1, False),
)
# Filters, and what they answer to the call in how many steps.
RUNS = (
    (DIVIDED_BY_0, 0, 3), ("ld #7; st M[15]; ld #0; ld M[15]; ret a", 7, 5),
    ("ldx #8; stx M[0]; ldx M[0]; txa; ret a", 8, 5), ("ja 1; ret #0; ret #0x7fff0000", 0x7FFF0000, 2),
    ("ret a", 0, 1), (STORED_BOTH_WAYS, 1, 6), ("ja 1; ld M[0]; ret a", 0, 2),
    # each named action with its data, and none
    *((f"ret #{answer}", answer, 1) for answer in (0x30007, 0x50026, 0x7FC00000, 0x7FF0FFFF, 0x7FFC0000, 0x1ABCD)),
)
# A first instruction (code, jt, jf and k) that is refused before a return, and the fault.
REFUSED_FIRST = (
    (0x94, 0, 0, 5, "Code at 0"), (0x20, 0, 0, 62, "Load at 0"), (0x20, 0, 0, 64, "Load at 0"),
    (0x60, 0, 0, 16, "Scratch at 0"), (0x03, 0, 0, 16, "Scratch at 0"), (0x34, 0, 0, 0, "Divisor at 0"),
    (0x64, 0, 0, 32, "Shift at 0"), (0x74, 0, 0, 32, "Shift at 0"), (0x05, 0, 0, 0xFFFFFFFF, "Jump at 0"),
    (0x15, 1, 0, 0, "Jump at 0"), (0x4D, 0, 1, 0, "Jump at 0"), (0x61, 0, 0, 3, "Unset at 0 word 3"),
)
# Filters that are refused, and the faults. A return counts as going on, so the load of a scratch word behind one can be
# come to without a store.
REFUSED = (
    ("", "Empty"), ("ld #0", "LastNotReturn"), ("ld M[0]; ld #0", "LastNotReturn"),
    ("div #0; ld [62]", "Divisor at 0"),
    ("ld [0]; jeq #0, 0, 2; st M[0]; ja 1; ret #0; ld M[0]; ret a", "Unset at 5 word 0"),
    (STORED_ONE_WAY, "Unset at 3 word 1"),
)
# The architecture and the number of a call, and its answer and path in a filter behind the gate that refuses `write`
# and allows every other native call.
ALL_BUT_WRITE = behind_gate("jeq #1, 0, 1; ret #0x50001; ret #0x7fff0000")
GATED = (
    (X86_64, 0, MADE, "0 1 3 4 6 8"), (X86_64, 1, FAILS, "0 1 3 4 6 7"), (X86_64, X32 - 1, MADE, "0 1 3 4 6 8"),
    (X86_64, X32, KILLS, "0 1 3 4 5"), (X86_64, 0xFFFFFFFF, KILLS, "0 1 3 4 5"), (I386, 1, KILLS, "0 1 2"),
)
# A filter, options of a call, and its answer and path.
TO_9 = "ja on; ret #1; on: ld [0]; jeq #9, 1, 0; ret #0; ret #0x7ff00003"
PATHS = (
    (ALLOW_ALL, "", 0x7FFF0000, "0"), (DIVIDED_BY_0, "", 0, "0 1 2"), (STORED_BOTH_WAYS, "", 0, "0 1 3 4 5"),
    ("ja 2; ret #0; ret #1; ja 0; ret #5", "", 5, "0 3 4"), ("ld [0]; jeq #0, 0, 0; ret a", "", 0, "0 1 2"),
    ("ld [0]; jset #1, 2, 1; ret #1; ret #2; ret #3", "", 2, "0 1 3"),
    ("ld [0]; jgt x, 1, 0; ret #7; ret #8", "", 7, "0 1 2"),
    (ARCH_GATE, "", 0x7FFF0000, "0 1 3"), (ARCH_GATE, "--arch 3", 0x80000000, "0 1 2"),
    (TO_9, "--nr 9", 0x7FF00003, "0 2 3 5"), (TO_9, "--nr 8", 0, "0 2 3 4"),
    ("ret #0x50026", "--nr 7", 0x50026, "0"), ("ld [16]; ret a", "--a0 0x12345678", 0x12345678, "0 1"),
)
# The options of a call, and where their words stand in its record (Linux uapi seccomp.h, struct seccomp_data): the low
# one, and the high one where the option has 64 bits.
OPTIONS = (("--nr", 0, None), ("--arch", 4, None), ("--ip", 8, 12),
           *((f"--a{at}", 16 + 8 * at, 20 + 8 * at) for at in range(6)))
# Allow where the low word of argument 0 is 5.
ARGUMENT_IS_5 = "ld [16]; jeq #5, 0, 1; ret #0x7fff0000; ret #0"
# The first entry has no name that the table has, two entries allow `read`, and one answers `write` by an argument.
ENTRIES = a_profile('''{"defaultAction":"SCMP_ACT_ERRNO","defaultErrnoRet":1,"syscalls":[
    {"names":["gone"],"action":"SCMP_ACT_LOG"},
    {"names":["close","read"],"action":"SCMP_ACT_ALLOW"},
    {"names":["read"],"action":"SCMP_ACT_ALLOW"},
    {"names":["write"],"action":"SCMP_ACT_TRACE","errnoRet":7,"args":[{"index":1,"value":40,"op":"SCMP_CMP_GT"}]}]}''')
TABLE = a_table("read 0\nwrite 1\nclose 3\n")
# Two filters, of which the first answers KILL_THREAD and the second ALLOW.
TWO_FILTERS = (b"filter 8\n\x06\0\0\0\0\0\0\0"
               b"filter 8\n\x06\0\0\0\0\0\xff\x7f")
# Words, a filter's text, or a bundle as its parts or its bytes, what is printed, and the status. The filters in bundles
# of bytes are `ret #0` and `ret #0x7fff0000`, of eight bytes each.
ROWS = (
    ("run --a0 0x100000005", ARGUMENT_IS_5, "ALLOW 0 steps 3\n", 0),
    ("run --a0 6", ARGUMENT_IS_5, "KILL_THREAD 0 steps 3\n", 0),
    ("run --ip 0XffffFFFFffffFFFF --nr 0000000000000000000000007", "ld [12]; ret a", "UNNAMED 0xffffffff steps 2\n", 0),
    ("run", "", "fault filter Empty\n", 1),
    ("run --path", "ld [0]", "fault filter LastNotReturn\n", 1),
    ("run --path", b"cut", "fault filter Truncated offset 0\n", 3),
    ("dis", b"", "", 0),
    # What a profile answers: its parts in either order, no more and no fewer, and the table before the profile.
    ("ask --nr 1 --a1 41", [ENTRIES, TABLE], "TRACE 7 entry 3\n", 0),
    ("ask --nr 0", [TABLE, ENTRIES], "ALLOW 0 entry 1\n", 0),
    *(("ask", parts, "fault bundle Parts\n", 3) for parts in (
        [], [ENTRIES], [TABLE], [ENTRIES, TABLE, TABLE], [ENTRIES, ENTRIES, TABLE],
        [a_filter(ALLOW_ALL), ENTRIES, TABLE])),
    ("ask", [a_profile("{"), a_table("read")], "fault table Form line 1\n", 1),
    ("ask", [a_profile("{"), TABLE], "fault profile Json\n", 1),
    ("ask", b"profile 9\nshort", "fault bundle Short offset 0\n", 3),
    ("decide", TWO_FILTERS, "KILL_THREAD 0\n", 0),
    ("decide --at", TWO_FILTERS, "KILL_THREAD 0 at 0:0\n", 0),
    ("decide --at", 2 * TWO_FILTERS, "KILL_THREAD 0 at 2:0\n", 0),
    *((words, *row) for words in ("decide", "decide --at", "decide --path") for row in (
        (b"", "ALLOW 0\n", 0), (b"filter 0\n", "fault filter Empty\n", 1), (b"table 0\n", "fault bundle Parts\n", 3))),
    ("decide", b"filter 7\n\x06\0\0\0\0\0\xff", "fault filter Truncated offset 0\n", 3),
    ("decide", b"filter 00000008\n\x06\0\0\0\0\0\xff\x7f", "ALLOW 0\n", 0),
    ("decide", b"filter 8\n\x06\0\0\0\0\0\0\0filter 8\n\x06\0\0\0\0\0\xff", "fault bundle Short offset 17\n", 3),
    ("decide", b"filter 8\n\x06\0\0\0\0\0\xff\x7fx", "fault bundle Header offset 17\n", 3),
    *(("decide", given, "fault bundle Header offset 0\n", 3) for given in (
        b"filter 123456789\n", b"filter  8\n\x06\0\0\0\0\0\xff\x7f", b"filter 8 \x06\0\0\0\0\0\xff\x7f")),
)
# Words that are refused before any input is read.
REFUSED_WORDS = (
    ("run --nr 4294967296", "nr"), ("run --a0 0x", "a0"), ("run --a5= --a1=-1", "a1"),
    ("run --ip 18446744073709551616", "ip"), ("run --path --ip -", "ip"), ("decide --nr x", "nr"),
    ("decide --at --nr x", "nr"), ("ask --a5 0x", "a5"),
)
# Stacks of filters as texts, oldest first, the options of a call, which instruction of which filter gives the answer
# (of the filters whose action takes precedence the newest, seccomp(2)), and how each filter runs.
NUMBER_5 = "ld [0]; jeq #5, 0, 1; ret #0x50001; ret #0x7fff0000"
STACKS = (
    ([NUMBER_5], "--nr 5", "ERRNO 1 at 0:2", ["ERRNO 1 steps 3\npath 0 1 2"]),
    ([NUMBER_5], "--nr 4", "ALLOW 0 at 0:3", ["ALLOW 0 steps 3\npath 0 1 3"]),
    ([NUMBER_5, NUMBER_5], "--nr 5", "ERRNO 1 at 1:2", 2 * ["ERRNO 1 steps 3\npath 0 1 2"]),
    (["ret #0x50002", NUMBER_5], "--nr 5", "ERRNO 1 at 1:2",
     ["ERRNO 2 steps 1\npath 0", "ERRNO 1 steps 3\npath 0 1 2"]),
    ([NUMBER_5, "ret #0x7fff0000"], "--nr 5", "ERRNO 1 at 0:2",
     ["ERRNO 1 steps 3\npath 0 1 2", "ALLOW 0 steps 1\npath 0"]),
    (["ret #0x30007", "ldx #0; div x; ret a", NUMBER_5], "--nr 4", "KILL_THREAD 0 at 1:1",
     ["TRAP 7 steps 1\npath 0", "KILL_THREAD 0 steps 2\npath 0 1", "ALLOW 0 steps 3\npath 0 1 3"]),
)
# The answers of filters, the oldest first, and which decides: the lesser high half as a signed number, and of equal
# ones the newest answer with its data (kernel/seccomp.c, seccomp_run_filters).
DECISIONS = (
    ((0x00000000, 0x80000000), 0x80000000), ((0x80000000, 0x00000000), 0x80000000),
    ((0x00050005, 0x00050001), 0x00050001), ((0x00050001, 0x00050005), 0x00050005),
    ((0x00030000, 0x00010000), 0x00010000), ((0x00010000, 0x00030000), 0x00010000),
    ((0x00000000, 0xFFFF0000), 0xFFFF0000), ((0xFFFF0000, 0x00000000), 0xFFFF0000),
    ((0x80010000, 0x8000FFFF), 0x8000FFFF), ((0x7FFF0000, 0x7FFC0000), 0x7FFC0000),
    ((0x7FF00000, 0x7FC00000), 0x7FC00000), ((0x7FFF0000, 0x7FFF0001), 0x7FFF0001),
    ((0x00050001, 0x00030002, 0x00050003), 0x00030002), ((0x00050001, 0x7FFF0000, 0x00050002), 0x00050002),
    ((0x80000000, 0x00050001, 0x00000000), 0x80000000),
    ((0x7FFC0000, 0x7FFF0000, 0x00050001, 0x7FF00000, 0x00050002, 0x7FC00000, 0x7FFF0000), 0x00050002),
)
# Texts, and what they spell: code, k, jt and jf.
SPELLED = (
    (b"", ()),
    (b"ja end; end:", ((0x05, 0),)),
    (b"ld [0] // number\njeq #39, yes, no\nno: ret #0x50001\nyes: ret #0x7fff0000\n",
     ((0x20, 0), (0x15, 0x27, 1, 0), (0x06, 0x50001), (0x06, 0x7FFF0000))),
    # Other spellings of registers, numbers and blanks, a comment with `;`, and a statement without instruction.
    (b";;\tret A;jeq X , 0X1,00000000000000000000000000000000000000\r\n// x; y\nldx#0xaF//z",
     ((0x16, 0), (0x1D, 0, 1, 0), (0x01, 0xAF))),
    # Names of registers and mnemonics as labels, and two labels of one place.
    (b"jset #1, len, ret; ret: ja a\na:\nlen: add x", ((0x45, 1, 1, 0), (0x05, 0), (0x0C, 0))),
)
# Faults, and the texts that have them.
FAULTS = {
    "NotAscii line 2": ("bad\n// \u00e9",),
    "Mnemonic line 1": ("ret a; LD [0]",),
    "Mnemonic line 2": ("ret a\nmod #3\nld [0", "ret a\r\nbad\r\n", "\na: b: ret a", "\n12: ret a"),
    "Operand line 1": ("ret a\rbad", "ld #12ab; ld #4294967296", "ret a $", "jeq #1, 1", "raw 6, up, 0, 0; up:"),
    "Operand line 2": ("ret a;; ret a\nld [0\nmod #3", "\nld #0x"),
    "NumberRange line 1": ("jeq #1, 256, lost", "raw 0x10000, 0, 0, 0"),
    "NumberRange line 2": ("ret a\nld #4294967296; bad", "\nld #1" + "0" * 60),
    "Label line 2": ("p: ret a\np: ret a", "ret a\njeq #1, q, 0", "back: ret a\njeq #1, lost, back"),
    "Label line 3": ("p: ret a\nq:\np: bad",),
    "JumpTooFar line 2": ("back: ret a\njeq #1, back, lost", "ret a\nback: ja back\nja lost"),
}


class Runs(OnProgram):
    def answers(self, filter_, answer, steps):
        """That a filter answers the call so, in so many steps."""
        self.prints(["run", *CALL], filter_, f"{StandIn().printed(answer)} steps {steps}\n")

    def test_computations(self):
        for a, x, code, k, after in COMPUTATIONS:
            self.answers(insn(0x00, a) + insn(0x01, x) + insn(code, k) + insn(0x16, 0), after, 4)

    def test_the_index_register(self):
        for code, k, after in REGISTERS:
            self.answers(insn(0x00, 9) + insn(code, k) + insn(0x87, 0) + insn(0x16, 0), after, 4)

    def test_tests(self):
        for a, x, code, k, holds in TESTS:
            filter_ = insn(0x00, a) + insn(0x01, x) + insn(code, k, 1, 0) + insn(0x06, 0) + insn(0x06, 1)
            self.answers(filter_, int(holds), 4)

    def test_texts(self):
        for text, answer, steps in RUNS:
            self.answers(assembled(text), answer, steps)


class Checks(OnProgram):
    def test_each(self):
        for code, jt, jf, k, fault in REFUSED_FIRST:
            self.prints(["check"], insn(code, k, jt, jf) + insn(0x16, 0), f"fault filter {fault}\n", 1)
        for text, fault in REFUSED:
            self.prints(["check"], assembled(text), f"fault filter {fault}\n", 1)
        for text, _, _ in RUNS:
            self.prints(["check"], assembled(text), f"accepted {len(assembled(text)) // 8}\n")

class Paths(OnProgram):
    def takes(self, filter_, words, answer, path):
        """That a run answers so at the end of this path, also where the path isn't asked for."""
        first = f"{answer} steps {len(path.split())}\n"
        self.prints(["run", "--path", *words], filter_, f"{first}path {path}\n")
        self.prints(["run", *words], filter_, first)

    def test_behind_a_gate(self):
        for arch, number, answer, path in GATED:
            words = ["--arch", hex(arch), "--nr", str(number)]
            self.takes(assembled(ALL_BUT_WRITE[1]), words, answer, path)

    def test_jumps_and_ends(self):
        for text, options, answer, path in PATHS:
            self.takes(assembled(text), options.split(), StandIn().printed(answer), path)

    def test_the_longest_filter(self):
        """Loads and jumps to the next place by turns: each place. And tests that jump over one place each; from 4094 on
        each place is come to."""
        filter_ = (insn(0x00, 9) + insn(0x05, 0)) * 2047 + insn(0x00, 9) + insn(0x06, 0x7FFF0000)
        self.takes(filter_, [], MADE, " ".join(map(str, range(4096))))
        filter_ = (insn(0x15, 0, 1, 1) + insn(0x06, 0)) * 2047 + insn(0x00, 9) + insn(0x06, 0x00050001)
        self.takes(filter_, [], FAILS, " ".join(map(str, [*range(0, 4095, 2), 4095])))
        self.prints(["check"], filter_, "accepted 4096\n")

    def test_stacks(self):
        for filters, options, first, runs in STACKS:
            given = bundle([a_filter(spelled) for spelled in filters])
            self.prints(["decide", *options.split(), "--at"], given, first + "\n")
            for words in (["--path"], ["--path", "--at"]):
                self.prints(["decide", *options.split(), *words], given, "\n".join([first, *runs]) + "\n")
            # without a flag the answer stands alone
            self.prints(["decide", *options.split()], given, first.split(" at ")[0] + "\n")

    def test_decisions(self):
        for answers, decides in DECISIONS:
            given = bundle([a_filter(f"ret #{answer}") for answer in answers])
            self.prints(["decide"], given, f"{StandIn().printed(decides)}\n")


class Options(OnProgram):
    """Each option of a call alone, and what it is where it has no text."""

    def answers(self, words, place, word):
        """That the filter which answers a word of the record answers this one."""
        name = {0: "KILL_THREAD 0"}.get(word, f"UNNAMED {word:#010x}")
        self.prints(["decide", *words], bundle([a_filter(f"ld [{place}]; ret a")]), name + "\n")

    def test_defaults(self):
        for place in range(0, 64, 4):
            self.answers([], place, 0xC000003E if place == 4 else 0)

    def test_each_alone(self):
        for option, low, high in OPTIONS:
            value = "0x55667788" if high is None else "0x1122334455667788"
            for place in range(0, 64, 4):
                default = 0xC000003E if place == 4 else 0
                self.answers([option, value], place, {low: 0x55667788, high: 0x11223344}.get(place, default))

    def test_wrong_numbers(self):
        """Each is refused by its name where its text is no number in its range, and before any input is read."""
        for option, _, high in OPTIONS:
            too_large = "0x100000000" if high is None else "0x10000000000000000"
            for command in ("run", "decide"):
                for value in (too_large, "0x", ""):
                    self.refuses([command, option, value], f"fault number {option[2:]}\n")


class Printed(OnProgram):
    def test_each(self):
        self.print_each(ROWS)

    def test_refused_words(self):
        for words, name in REFUSED_WORDS:
            self.refuses(words.split(), f"fault number {name}\n")

    def test_cut_bundles(self):
        """A bundle that is cut is refused where the cut falls, or is the bundle of the parts before it."""
        for count in range(len(TWO_FILTERS)):
            if count in (0, 17):
                text, status = "KILL_THREAD 0\n" if count else "ALLOW 0\n", 0
            else:
                start, behind = 17 * (count // 17), count % 17
                kind = "Header" if behind < 9 else "Short"
                text, status = f"fault bundle {kind} offset {start}\n", 3
            self.prints(["decide"], TWO_FILTERS[:count], text, status)


class Texts(OnProgram):
    """Those of single instructions, and their listings, are test_largest's."""

    def test_texts_that_spell(self):
        for text, program in SPELLED:
            self.prints(["asm"], text, b"".join(insn(*each) for each in program))

    def test_faults(self):
        for text, fault in each_of(FAULTS):
            self.prints(["asm"], text.encode(), f"fault text {fault}\n", 1)

    def test_limits(self):
        """A label that a jump just reaches, and one place more; the most instructions, and one more."""
        jump, load, last = b"jeq #1, far, 0\n", b"ld #0\n", b"far: ret a"
        reached = insn(0x15, 1, 255, 0) + insn(0x00, 0) * 255 + insn(0x16, 0)
        self.prints(["asm"], jump + load * 255 + last, reached)
        self.prints(["asm"], jump + load * 256 + last, "fault text JumpTooFar line 1\n", 1)
        self.prints(["asm"], b"ret a\n" * 4096 + b"end:", insn(0x16, 0) * 4096)
        self.prints(["asm"], b"ret a\n" * 4097 + b"end:", "fault text TooLong line 4097\n", 1)
