"""What `answers` prints of filters, of profiles and, with `--differences`, of two sides. The lines were worked out by
hand."""
from support.on_parts import (ALLOW, ALLOW_ALL, ARCH_GATE, ONE_CALL, READ_TABLE, WITHOUT_WRITE, OnProgram, a_filter,
                              a_profile, a_table, beside, each_of)

GATED, DENIES = a_filter(ARCH_GATE), a_filter("ret #0x50001")
# Loads a word behind the record's end.
BAD_LOAD = a_filter("ld [64]; ret a")
# Denies clone with one of some flags, and each other call.
CLONE_FLAGS = a_filter("ld [0]; jeq #56, 0, 3; ld [16]; and #0x7e020000; jeq #0, 1, 0; ret #0x50001; ret #0x7fff0000")
# Tests one bit of the first argument's low half, and that its high half is at most 5.
BIT = a_filter("""ld [16]; jset #0x10, 0, denied; ld [20]; jgt #5, denied, 0; ret #0x7fc00000
    denied: ret #0x12345678""")
# Tests an order and then bits.
NOT_BITS = a_filter("ld [0]; jge #10, 0, 2; jset #6, 1, 0; ret #0x50001; ret #0x7fff0000")
# Denies each call, call 5 by an instruction of its own.
DENIES_TWICE = a_filter("ld [0]; jeq #5, 0, 1; ret #0x50001; ret #0x50001")
# Adds two words, and tests their sum.
SUM = a_filter("ld [16]; tax; ld [24]; add x; jeq #9, 0, 1; ret #0x7fff0000; ret #0x50001")
# Answers with a product.
PRODUCT = a_filter("ld [16]; tax; ld [24]; mul x; ret a")
# Allow `read`, and deny each other call, of x86-64 and of two architectures.
PROFILE, TABLE, X86_TABLE = a_profile(ONE_CALL), a_table(READ_TABLE), ("table-x86", "read 3\n")
EACH = a_profile('''{"defaultAction":"SCMP_ACT_ERRNO","architectures":["SCMP_ARCH_X86_64","SCMP_ARCH_X86"],
    "syscalls":[{"names":["read"],"action":"SCMP_ACT_ALLOW"}]}''')
# Allow `read` by four entries, of which the first two want the same argument.
FOUR_ENTRIES = a_profile('''{"defaultAction":"SCMP_ACT_ERRNO","syscalls":[
    {"names":["read"],"action":"SCMP_ACT_ALLOW","args":[{"index":0,"value":5,"op":"SCMP_CMP_EQ"}]},
    {"names":["read"],"action":"SCMP_ACT_ALLOW","args":[{"index":0,"value":5,"op":"SCMP_CMP_EQ"}]},
    {"names":["read"],"action":"SCMP_ACT_ALLOW"},{"names":["read"],"action":"SCMP_ACT_ALLOW"}]}''')
# Options on a bundle of parts, what is printed, and the status.
ANSWERS = (
    ("", [], "ALLOW 0 at 0:0\nregions 1 steps 1\n", 0),
    ("", [GATED], "ALLOW 0 at 0:3 w1 0xc000003e\nKILL_PROCESS 0 at 0:2 w1 0x0-0xc000003d,0xc000003f-0xffffffff\n"
     "regions 2 steps 4\n", 0),
    ("--native", [GATED], "ALLOW 0 at 0:3 w0 0x0-0x3fffffff w1 0xc000003e\nregions 1 steps 3\n", 0),
    ("--nr-from 57 --nr-to 0x3a --examples", [CLONE_FLAGS], "ERRNO 1 at 0:5 w0 0x39-0x3a w1 0xc000003e\n"
     "call nr 57 arch 0xc000003e ip 0x0 args 0x0 0x0 0x0 0x0 0x0 0x0\nregions 1 steps 3\n", 0),
    # Known and refuted bits.
    ("", [CLONE_FLAGS], "ALLOW 0 at 0:6 w0 0x38 w4 &0x7e020000=0x0\nERRNO 1 at 0:5 w0 0x38 w4 !0x7e020000=0x0\n"
     "ERRNO 1 at 0:5 w0 0x0-0x37,0x39-0xffffffff\nregions 3 steps 8\n", 0),
    ("", [BIT], "UNNAMED 0x12345678 at 0:5 w4 &0x10=0x0\nUNNAMED 0x12345678 at 0:5 w4 &0x10=0x10 w5 0x6-0xffffffff\n"
     "USER_NOTIF 0 at 0:4 w4 &0x10=0x10 w5 0x0-0x5\nregions 3 steps 7\n", 0),
    ("", [NOT_BITS], "ERRNO 1 at 0:3 w0 0xa-0xffffffff&0x6=0x0\nALLOW 0 at 0:4 w0 0xa-0xffffffff!0x6=0x0\n"
     "ALLOW 0 at 0:4 w0 0x0-0x9\nregions 3 steps 6\n", 0),
    # What isn't decided, and an answer that isn't known.
    ("", [SUM], "ALLOW 0 at 0:5 open\nERRNO 1 at 0:6 open\nregions 2 steps 7\n", 0),
    ("", [PRODUCT], "unknown at 0:4\nregions 1 steps 5\n", 0),
    # The filter that gives the answer.
    ("", [ALLOW, DENIES], "ERRNO 1 at 1:0\nregions 1 steps 1\n", 0),
    ("", [DENIES, ALLOW], "ERRNO 1 at 0:0\nregions 1 steps 1\n", 0),
    # Of filters that answer alike the newest one, and in it the instruction that the run comes to.
    ("", [DENIES, DENIES, ALLOW], "ERRNO 1 at 1:0\nregions 1 steps 1\n", 0),
    ("", [DENIES, DENIES_TWICE], "ERRNO 1 at 1:2 w0 0x5\nERRNO 1 at 1:3 w0 0x0-0x4,0x6-0xffffffff\n"
     "regions 2 steps 4\n", 0),
    ("", [DENIES_TWICE, DENIES], "ERRNO 1 at 1:0 w0 0x5\nERRNO 1 at 1:0 w0 0x0-0x4,0x6-0xffffffff\n"
     "regions 2 steps 4\n", 0),
    # The limit.
    ("--limit 3", [GATED], "unfinished\n", 4),
    ("--limit 0", [], "unfinished\n", 4),
    # The greatest number of an x86-64 call.
    ("--nr-from 0x3fffffff", [ALLOW], "ALLOW 0 at 0:0 w0 0x3fffffff w1 0xc000003e\nregions 1 steps 1\n", 0),
    # Profiles. Each record lies in one region; the order is the walk's.
    ("--nr-to 0", [PROFILE, TABLE], "ALLOW 0 entry 0 w0 0x0 w1 0xc000003e\nregions 1 steps 4\n", 0),
    # Of entries that a call meets the first.
    # (Regions and entries by hand; the count of steps is the program's.)
    ("--nr-to 0", [FOUR_ENTRIES, TABLE], "ALLOW 0 entry 0 w0 0x0 w1 0xc000003e w4 0x5 w5 0x0\n"
     "ALLOW 0 entry 2 w0 0x0 w1 0xc000003e w4 0x0-0x4,0x6-0xffffffff w5 0x0\n"
     "ALLOW 0 entry 2 w0 0x0 w1 0xc000003e w5 0x1-0xffffffff\nregions 3 steps 11\n", 0),
    ("", [PROFILE, TABLE], "KILL_PROCESS 0 foreign w0 0x40000000-0xffffffff w1 0xc000003e\n"
     "ALLOW 0 entry 0 w0 0x0 w1 0xc000003e\nERRNO 1 default w0 0x1-0x3fffffff w1 0xc000003e\n"
     "KILL_PROCESS 0 foreign w1 0x0-0xc000003d,0xc000003f-0xffffffff\nregions 4 steps 7\n", 0),
    ("--architectures", [EACH, TABLE, X86_TABLE], "ALLOW 0 entry 0 w0 0x0 w1 0xc000003e\n"
     "ERRNO 1 default w0 0x1-0x3fffffff w1 0xc000003e\nALLOW 0 entry 0 w0 0x3 w1 0x40000003\n"
     "ERRNO 1 default w0 0x0-0x2,0x4-0xffffffff w1 0x40000003\nregions 4 steps 9\n", 0),
    # Other parts.
    ("", [ALLOW, PROFILE, TABLE], "fault bundle Parts\n", 3),
    ("", [PROFILE], "fault bundle Parts\n", 3),
    ("--architectures", [ALLOW], "fault bundle Parts\n", 3),
    ("", [ALLOW, beside(ALLOW_ALL)], "fault bundle Header offset 17\n", 3),
    ("", [BAD_LOAD], "fault filter Load at 0\n", 1),
    ("", [PROFILE, a_table("read")], "fault table Form line 1\n", 1),
)
# Allows `read` and `write`, and denies each other call.
READ_AND_WRITE = a_filter("ld [0]; jeq #0, 1, 0; jeq #1, 0, 1; ret #0x7fff0000; ret #0x50001")
# Allows `read` whose first argument has 5 as its low half, and denies each other call.
READ_OF_LOW = a_filter("ld [0]; jeq #0, 0, 3; ld [16]; jeq #5, 0, 1; ret #0x7fff0000; ret #0x50001")
# Allows `read` whose first argument is 5, and denies each other call.
READ_OF_5 = a_profile('''{"defaultAction":"SCMP_ACT_ERRNO","syscalls":[{"names":["read"],"action":"SCMP_ACT_ALLOW",
    "args":[{"index":0,"value":5,"op":"SCMP_CMP_EQ"}]}]}''')
# Denies `read` of two architectures, and allows each other call.
NEITHER = ("beside-profile", '''{"defaultAction":"SCMP_ACT_ALLOW","architectures":["SCMP_ARCH_X86_64","SCMP_ARCH_X86"],
    "syscalls":[{"names":["read"],"action":"SCMP_ACT_ERRNO"}]}''')
OTHER, OTHER_DENIES, OTHER_PRODUCT = (beside(text) for text in (ALLOW_ALL, DENIES[1], PRODUCT[1]))
# With --differences.
DIFFERENCES = (
    # One call, and an argument's high half, which a filter doesn't look at.
    ("--native", [READ_AND_WRITE, PROFILE, TABLE],
     "ALLOW 0 at 0:3 beside ERRNO 1 default w0 0x1 w1 0xc000003e\nregions 1 steps 6\n", 0),
    ("--nr-to 7 --examples", [READ_OF_LOW, READ_OF_5, TABLE],
     "ALLOW 0 at 0:4 beside ERRNO 1 default w0 0x0 w1 0xc000003e w4 0x5 w5 0x1-0xffffffff\n"
     "call nr 0 arch 0xc000003e ip 0x0 args 0x100000005 0x0 0x0 0x0 0x0 0x0\nregions 1 steps 11\n", 0),
    # Calls of other ABIs, in the order of the walk.
    ("", [GATED, PROFILE, TABLE],
     "ALLOW 0 at 0:3 beside KILL_PROCESS 0 foreign w0 0x40000000-0xffffffff w1 0xc000003e\n"
     "ALLOW 0 at 0:3 beside ERRNO 1 default w0 0x1-0x3fffffff w1 0xc000003e\nregions 2 steps 8\n", 0),
    # Two stacks: the sides aren't exchanged, and precedence decides on each.
    ("--beside", [ALLOW, beside(ARCH_GATE)], "ALLOW 0 at 0:0 beside KILL_PROCESS 0 at 0:2 "
     "w1 0x0-0xc000003d,0xc000003f-0xffffffff\nregions 1 steps 3\n", 0),
    ("--beside", [DENIES, OTHER, OTHER_DENIES, ALLOW], "regions 0 steps 1\n", 0),
    ("--beside", [OTHER, OTHER_DENIES], "ALLOW 0 at 0:0 beside ERRNO 1 at 1:0\nregions 1 steps 1\n", 0),
    ("--beside --nr-to 0", [WITHOUT_WRITE, OTHER], "regions 0 steps 3\n", 0),
    # A test that isn't decided, and answers that aren't known.
    ("--beside", [SUM, OTHER], "ERRNO 1 at 0:6 beside ALLOW 0 at 0:0 open\nregions 1 steps 7\n", 0),
    ("--beside", [ALLOW, OTHER_PRODUCT], "ALLOW 0 at 0:0 beside unknown at 0:4\nregions 1 steps 1\n", 0),
    ("--beside", [PRODUCT, OTHER_PRODUCT], "unknown at 0:4 beside unknown at 0:4\nregions 1 steps 5\n", 0),
    # Several architectures: what is of none of them is foreign.
    ("--architectures", [ALLOW, EACH, TABLE, X86_TABLE],
     "ALLOW 0 at 0:0 beside KILL_PROCESS 0 foreign w0 0x40000000-0xffffffff w1 0xc000003e\n"
     "ALLOW 0 at 0:0 beside ERRNO 1 default w0 0x1-0x3fffffff w1 0xc000003e\n"
     "ALLOW 0 at 0:0 beside ERRNO 1 default w0 0x0-0x2,0x4-0xffffffff w1 0x40000003\n"
     "ALLOW 0 at 0:0 beside KILL_PROCESS 0 foreign w1 0x0-0x40000002,0x40000004-0xc000003d,0xc000003f-0xffffffff\n"
     "regions 4 steps 11\n", 0),
    # Two profiles: each call has the other answer.
    ("--architectures", [EACH, NEITHER, X86_TABLE],
     "ALLOW 0 entry 0 beside ERRNO 1 entry 0 w0 0x3 w1 0x40000003\n"
     "ERRNO 1 default beside ALLOW 0 default w0 0x0-0x2,0x4-0xffffffff w1 0x40000003\nregions 2 steps 5\n", 0),
    # The limit.
    ("--beside --limit 2", [ALLOW, beside(ARCH_GATE)], "unfinished\n", 4),
    # Other parts, and the faults of either side. No filter on either is no input.
    ("--beside", [], "fault bundle Parts\n", 3), ("--beside", [ALLOW], "regions 0 steps 1\n", 0),
    ("", [ALLOW], "fault bundle Parts\n", 3),
    ("", [PROFILE, TABLE], "fault bundle Parts\n", 3),
    ("--beside", [ALLOW, beside(BAD_LOAD[1])], "fault beside Load at 0\n", 1),
    ("--beside", [BAD_LOAD, beside("ld #0")], "fault filter Load at 0\n", 1),
)
# Flags that exclude each other, and ranges that no call has.
EXCLUDED = {
    "fault command Flags\n": ("--architectures --native", "--beside", "--differences --beside --architectures",
                              "--differences --architectures --native", "--differences --architectures --nr-to 5"),
    "fault command Range\n": ("--nr-from 5 --nr-to 4", "--nr-from 0x40000000", "--architectures --nr-from 2 --nr-to 1",
                              "--differences --nr-from 5 --nr-to 4"),
}


class AnswerRows(OnProgram):
    def test_answers(self):
        self.print_each(ANSWERS, "answers")

    def test_differences(self):
        self.print_each(DIFFERENCES, "answers", "--differences")

    def test_excluded_flags(self):
        for options, text in each_of(EXCLUDED):
            self.refuses(["answers", *options.split()], text)
