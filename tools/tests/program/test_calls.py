"""`compare --calls`: each call that a table names, compared by itself."""
import itertools

from support.common import TABLE, part, taken, text_of
from support.on_parts import (ALL, ALLOW, NATIVE, NO_TABLE, ONE_CALL, READ_WRITE_TABLE, OnProgram, a_filter, a_profile,
                              a_table, bundle, ran)

# The most seconds of a processor for all calls together: three are measured on a machine that does nothing else.
MOST_SECONDS = 30
# An errno for each of three calls.
ERRNOS = a_profile('''{"defaultAction":"SCMP_ACT_ALLOW","syscalls":[
    {"names":["read"],"action":"SCMP_ACT_ERRNO","errnoRet":1},
    {"names":["write"],"action":"SCMP_ACT_ERRNO","errnoRet":2},
    {"names":["close"],"action":"SCMP_ACT_ERRNO","errnoRet":3}]}''')
THREE = a_table("read 0\nwrite 1\nclose 3\n")
OWN = a_filter("""ld [0]; jeq #0, 0, 1; ret #0x50001; jeq #1, 0, 1; ret #0x50002; jeq #3, 0, 1; ret #0x50003
    ret #0x7fff0000""")
OTHER_ENDS = a_filter("""ld [0]; jeq #0, 0, 1; ret #0x50009; jeq #1, 0, 1; ret #0x50002; jeq #3, 0, 1; ret #0
    ret #0x7fff0000""")
# An errno for `socket` with these six arguments, and with no others.
ONE_RECORD = a_filter("""ld [0]; jeq #41, 0, no; ld [16]; jeq #2, 0, no; ld [20]; jeq #0, 0, no
    ld [24]; jeq #0x80000, 0, no; ld [28]; jeq #0, 0, no; ld [32]; jeq #0, 0, no; ld [36]; jeq #0, 0, no
    ld [40]; jeq #0xffffffff, 0, no; ld [44]; jeq #0xffffffff, 0, no
    ld [48]; jeq #0xabc, 0, no; ld [52]; jeq #0, 0, no; ld [56]; jeq #16, 0, no; ld [60]; jeq #1, 0, no
    ret #0x50026; no: ret #0x7fff0000""")
# One call is answered behind more than 64 steps, one by an even product of two numbers, which takes a split, and one by
# an errno; the others are allowed. Their numbers are 1, 2 and 3, and 7, 6 and 5.
MIXED = a_filter(f"""ld [0]; jeq #1, slow, 0; jeq #2, even, 0; jeq #3, other, 0
    jeq #5, other, 0; jeq #6, even, 0; jeq #7, slow, allow
    even: ld [16]; tax; add #1; mul x; jset #1, 0, allow; ret #0; other: ret #0x50001
    slow: {"tax; " * 64} allow: ret #0x7fff0000""")
# Options and parts, what is printed, and the status. The order of names and numbers is shown in test_profiles.
ROWS = (
    ("", [THREE, ERRNOS, OTHER_ENDS],
     "differs\n0 read differs args 0x.. filter ERRNO 9 profile ERRNO 1\n"
     "3 close differs args 0x.. filter KILL_THREAD 0 profile ERRNO 3\n", 1),
    ("", [ALLOW, ERRNOS, THREE],
     "differs\n0 read differs args 0x.. filter ALLOW 0 profile ERRNO 1\n"
     "1 write differs args 0x.. filter ALLOW 0 profile ERRNO 2\n"
     "3 close differs args 0x.. filter ALLOW 0 profile ERRNO 3\n", 1),
    # A table without names of the profile, and what is left out of that behind the lines of the calls.
    ("", [OTHER_ENDS, ERRNOS, a_table("other 100")], "same\nskipped read\nskipped write\nskipped close\n", 0),
    ("", [ALLOW, a_profile('''{"defaultAction":"SCMP_ACT_ERRNO","architectures":["SCMP_ARCH_X86","SCMP_ARCH_X86_64",
        "SCMP_ARCH_X32"],"syscalls":[{"names":["gone","write"],"action":"SCMP_ACT_ALLOW"}]}'''),
          a_table(READ_WRITE_TABLE)],
     "differs\n0 read differs args 0x.. filter ALLOW 0 profile ERRNO 1\nskipped gone\nother SCMP_ARCH_X86\n"
     "other SCMP_ARCH_X32\n", 1),
    # The verdict that speaks for all: a difference goes first, and then the least number.
    ("--limit 64", [MIXED, ALL, a_table("a 0\nd 4")], "same\n", 0),
    ("--splits 0 --limit=64", [MIXED, ALL, a_table("b 2\na 1\nd 4")],
     "unfinished\n1 a unfinished\n2 b undecided at 12\n", 4),
    ("--limit 64 --splits 0", [MIXED, ALL, a_table("n 0\nb 6\na 7")],
     "undecided at 12\n6 b undecided at 12\n7 a unfinished\n", 4),
    ("--splits=0", [MIXED, ALL, a_table("b 6\na 7")], "undecided at 12\n6 b undecided at 12\n", 4),
    ("--limit 64 --splits 0", [MIXED, ALL, a_table("a 1\nb 2\nc 3")],
     "differs\n1 a unfinished\n2 b undecided at 12\n3 c differs args 0x.. filter ERRNO 1 profile ALLOW 0\n", 1),
    ("--splits 0 --limit 64", [MIXED, ALL, a_table("c 5\nb 6\na 7")],
     "differs\n5 c differs args 0x.. filter ERRNO 1 profile ALLOW 0\n6 b undecided at 12\n7 a unfinished\n", 1),
    # With splits: each call has as many, and one that is undecided without them is decided.
    ("--limit=64", [MIXED, ALL, a_table("b 2\na 1\nd 4")], "unfinished\n1 a unfinished\n", 4),
    ("--limit 64", [MIXED, ALL, a_table("n 0\nb 6\na 7")], "unfinished\n7 a unfinished\n", 4),
    ("--splits 1", [MIXED, ALL, a_table("b 2\nc 6\na 7")], "same\n", 0),
    ("", [MIXED, ALL, a_table("b 6\na 7")], "same\n", 0),
    ("--limit 64", [MIXED, ALL, a_table("a 1\nb 2\nc 3")],
     "differs\n1 a unfinished\n3 c differs args 0x.. filter ERRNO 1 profile ALLOW 0\n", 1),
    ("--limit 64", [MIXED, ALL, a_table("c 5\nb 6\na 7")],
     "differs\n5 c differs args 0x.. filter ERRNO 1 profile ALLOW 0\n7 a unfinished\n", 1),
    # Each call has the whole limit, which is the effort of the stack.
    ("--limit 56", [NATIVE, ALL, a_table("".join(f"c{number} {number}\n" for number in range(16)))], "same\n", 0),
    # What one record alone shows.
    ("", [ONE_RECORD, ALL, a_table("socket 41\nread 0")],
     "differs\n41 socket differs args 0x2 0x80000 0x0 0xffffffffffffffff 0xabc 0x100000010 filter ERRNO 38 "
     "profile ALLOW 0\n", 1),
)
# Answers ERRNO 38 to each number above the newest that is known.
STUB = a_filter("ld [4]; jeq #0xc000003e, 0, 3; ld [0]; jge #451, 0, 1; ret #0x50026; ret #0x7fff0000")
# Takes one call.
READ = a_profile(ONE_CALL)
KNOWN = a_table("read 0\nwrite 1\nlast 450\n")
# Tables that name no call; and parts of which none is looked at where the table is one of these.
WITHOUT_CALLS = tuple(map(a_table, ("", "\n", "# read 0\n", " \t\n\n  # read 0")))
UNREAD = ([ALLOW, ALL], [a_filter(""), ALL], [ALLOW, a_profile("{}")], [a_filter(""), a_profile("")])
# 48 bits of arguments are tested one after another: 2^48 ways lead to the one answer.
SLOW = a_filter("".join(f"ld [{16 + at // 32 * 4}]; jset #{1 << at % 32:#x}, 0, 1; tax; " for at in range(48))
                + "ret #0x7fff0000")


class Calls(OnProgram):
    def compared(self, options, given):
        return ran(["compare", "--calls", *options.split()], given)

    def test_each_call_by_itself(self):
        self.print_each(ROWS, "compare", "--calls")

    def test_a_stub_differs_only_on_calls_that_the_table_lacks(self):
        output, status = ran(["compile"], bundle([READ, KNOWN]))
        self.assertEqual(status, 0)
        given = part("filter", output) + bundle([STUB, READ, KNOWN])
        self.print_each([("--native", given, "differs\ncall nr ..\nfilter ERRNO 38\nprofile ERRNO 1\n", 1),
                         ("--calls", given, "same\n", 0)], "compare")

    def test_a_table_without_a_call(self):
        """Nothing is compared, so nothing is said to be the same, and what else is wrong isn't looked for."""
        for table in WITHOUT_CALLS:
            for parts in UNREAD:
                for options in ([], ["--no-more"], ["--limit", "0"], ["--reading=runc"]):
                    self.prints(["compare", "--calls", *options], bundle([*parts, table]), "fault command Calls\n", 2)
            beside = part("filter", b"") + part("beside", b"") + bundle([table])
            self.prints(["compare", "--beside", "--calls"], beside, "fault command Calls\n", 2)
        # one call is enough, and a table that is none is refused as ever
        for parts, text, status in (([ALLOW, ALL, a_table("# none\nread 0")], "same\n", 0),
                                    ([ALLOW, ALL, a_table("# none\nread")], "fault table Form line 2\n", 1),
                                    ([a_filter(""), ALL, a_table("read")], "fault filter Empty\n", 1)):
            self.prints(["compare", "--calls"], bundle(parts), text, status)

    def test_a_limit_of_all_calls_together(self):
        """Each call takes what it takes alone, in the order of their numbers, until nothing is left."""
        for numbers, filters in (((0, 4, 8), MIXED), ((3, 5, 9), MIXED), ((2, 3, 4), MIXED), ((0, 1, 4), OWN)):
            alone = [self.steps_of(filters, number) for number in numbers]
            whole = list(itertools.accumulate(alone))
            rows = a_table("".join(f"c{number} {number}\n" for number in numbers))
            given = bundle([filters, ALL, rows])
            self.assertEqual(self.unfinished_of(given, whole[-1]), [])
            for at, until in enumerate(whole):
                with self.subTest(numbers=numbers, at=at):
                    # one step fewer than is wanted up to this call: it and those behind it are unfinished
                    self.assertEqual(self.unfinished_of(given, until - 1), [str(number) for number in numbers[at:]])

    def steps_of(self, filters, number):
        """The least limit of steps with which a call is told by itself."""
        given = bundle([filters, ALL, a_table(f"c{number} {number}\n")])
        return next(limit for limit in itertools.count() if not self.unfinished_of(given, limit, "--limit"))

    def unfinished_of(self, given, limit, option="--total-limit"):
        out, _ = self.compared(f"{option} {limit}", given)
        return [line.split()[0] for line in out.decode().splitlines()[1:] if line.endswith(" unfinished")]

    def test_the_limit_of_all_is_for_single_calls_alone(self):
        for options in (["--total-limit", "0"], ["--native", "--total-limit", "0"]):
            self.prints(["compare", *options], bundle([NATIVE, ALL, NO_TABLE]), "same\n", 0)

    def test_many_slow_calls_end(self):
        """Each call of the table takes all its steps: within the limit of all, and within seconds of a processor."""
        rows = a_table(text_of(TABLE))
        before = taken()
        out, status = self.compared("", bundle([SLOW, ALL, rows]))
        lines = out.decode().splitlines()
        self.assertEqual((status, lines[0]), (4, "unfinished"))
        self.assertGreater(len(lines), 300)
        self.assertTrue(all(line.endswith(" unfinished") for line in lines[1:]))
        self.assertLess(taken() - before, MOST_SECONDS)
