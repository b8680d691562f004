"""Each command once at its largest, with ample memory, and past its limits: the exact answer, worked out by hand.

So a body that gives up where it is large fails: a listing past 64 KiB, a call of more than a few names, a stack of
thousands of filters, a text of a million tokens.
"""
import random
import re

from support.common import ALLOW, EPERM, GATE, TRAP, insn, jge, load, part, ret
from support.on_parts import (ALL, DEFAULT_ALLOW, NO_TABLE, ONE_CALL, READ_TABLE, READ_WRITE_TABLE, OnProgram,
                              a_profile, a_table, assembled, bundle, long_filter, ran)
from support.worked import FAILS, MADE, refusing

MOST = 4096
# MAX_INSNS_PER_PATH (kernel/seccomp.c), and what each older filter of a stack costs more.
MOST_OF_STACK, MORE_OF_OLDER = 32768, 4
ALLOWS = b'{"defaultAction": "SCMP_ACT_ALLOW"}'
ERRNO = 0x00050000

# The listing of each code, with its fields K (as a constant), N (as a place or an offset), T and F.
LISTED = {
    0x20: "ld [N]", 0x80: "ld len", 0x81: "ldx len", 0x00: "ld #K", 0x01: "ldx #K", 0x60: "ld M[N]", 0x61: "ldx M[N]",
    0x02: "st M[N]", 0x03: "stx M[N]", 0x04: "add #K", 0x0C: "add x", 0x14: "sub #K", 0x1C: "sub x", 0x24: "mul #K",
    0x2C: "mul x", 0x34: "div #K", 0x3C: "div x", 0x44: "or #K", 0x4C: "or x", 0x54: "and #K", 0x5C: "and x",
    0x64: "lsh #K", 0x6C: "lsh x", 0x74: "rsh #K", 0x7C: "rsh x", 0xA4: "xor #K", 0xAC: "xor x", 0x84: "neg",
    0x05: "ja N", 0x15: "jeq #K, T, F", 0x1D: "jeq x, T, F", 0x25: "jgt #K, T, F", 0x2D: "jgt x, T, F",
    0x35: "jge #K, T, F", 0x3D: "jge x, T, F", 0x45: "jset #K, T, F", 0x4D: "jset x, T, F", 0x06: "ret #K",
    0x16: "ret a", 0x07: "tax", 0x87: "txa",
}


def listed(code, k, jt, jf):
    """The line of an instruction: by its code, where it has one of the 41 and no unused field is set; else raw."""
    fields = {"K": k, "N": k, "T": jt, "F": jf}
    text = LISTED.get(code)
    used = set() if text is None else {name for name in fields if re.search(rf"\b{name}\b", text)}
    unused = {"k": k if not used & {"K", "N"} else 0, "jt": 0 if "T" in used else jt, "jf": 0 if "F" in used else jf}
    if text is None or any(unused.values()):
        return f"raw {code:#06x}, {jt}, {jf}, {k:#x}\n"
    shown = {"K": f"{k:#x}", "N": str(k), "T": str(jt), "F": str(jf)}
    return re.sub(r"\b[KNTF]\b", lambda actual: shown[actual[0]], text) + "\n"


def differs(number, filter_answer, profile_answer):
    """What is printed where a call of this number shows it, all else of which may be 0."""
    return (f"differs\ncall nr {number} arch 0xc000003e ip 0x0 args 0x0 0x0 0x0 0x0 0x0 0x0\nfilter {filter_answer}\n"
            f"profile {profile_answer}\n").encode()


class Largest(OnProgram):
    def ends(self, words, data, status, out):
        self.prints(words, data, out, status)

    def test_a_listing_of_4096_instructions(self):
        """Each code, known or not, with and without each of its fields, and of those that it doesn't use."""
        codes, dice = [*LISTED, 0x94, 0x28, 0xFFFF], random.Random(20)
        mixed = [(codes[at % len(codes)], *(dice.choice((0, dice.getrandbits(bits))) for bits in (32, 8, 8)))
                 for at in range(MOST)]
        raw = [(0xFFFF - at % 7, 0xFFFFFFFF - at, 255 - at % 9, 200 + at % 56) for at in range(MOST)]
        for rows, least in ((mixed, 4 * MOST), (raw, 1 << 16)):
            data = b"".join(insn(*row) for row in rows)
            text = "".join(listed(*row) for row in rows).encode()
            self.assertGreater(len(text), least)
            self.ends(["dis"], data, 0, text)
            self.ends(["asm"], text, 0, data)

    def test_a_text_of_4096_lines_of_200_tokens(self):
        """Each line has an instruction with a label, empty statements, and a comment."""
        lines, data = [], b""
        for at in range(MOST - 1):
            far = min(at + 200, MOST - 1)
            lines.append(f"L{at}: jgt #{at:#x}, L{at + 1}, L{far} " + "; " * 191 + f"// {'; ret a ' * 10}{at}\n")
            data += insn(0x25, at, 0, far - at - 1)
        lines.append(f"L{MOST - 1}: ret # 0x7fff0000" + " ;" * 195 + "// the last")
        for line in lines:
            self.assertEqual(len(re.findall(r"\w+|[^\s\w]", line.split("//")[0])), 200, line)
        self.ends(["asm"], "".join(lines).encode(), 0, data + ret(ALLOW))

    def test_as_many_filters_as_a_stack_takes(self):
        count = 1 + (MOST_OF_STACK - 1) // (1 + MORE_OF_OLDER)
        self.assertEqual(count, 6554)
        filters = [ret((TRAP if at % 3 == 0 else ERRNO) | at) for at in range(count)]
        self.assertEqual((count - 2) % 3, 0)
        stack = b"".join(part("filter", data) for data in filters)
        self.ends(["decide"], stack, 0, b"TRAP %d\n" % (count - 2))
        self.ends(["decide"], stack + part("filter", ret(ALLOW)), 1, b"fault stack TooMany total 32771\n")
        # of equal ranks the newest, which stands at the other end
        four, allow = part("filter", ret(ERRNO | 4)), part("filter", ret(ALLOW))
        self.ends(["decide"], four + allow * (count - 1), 0, b"ERRNO 4\n")
        self.ends(["decide"], four * (count - 1) + part("filter", ret(ERRNO | 5)), 0, b"ERRNO 5\n")

    def test_a_stack_of_32768_instructions(self):
        long = part("filter", load(0) * (MOST - 1) + ret(ALLOW)) * 7
        remaining = MOST_OF_STACK - 7 * (MOST + MORE_OF_OLDER)
        last = load(0) * (remaining - 1)
        both = part("profile", ALLOWS) + part("table", b"read 0\n")
        self.ends(["decide"], long + part("filter", last + ret(ERRNO | 7)), 0, b"ERRNO 7\n")
        self.ends(["decide"], long + part("filter", last + load(0) + ret(ALLOW)), 1,
                  b"fault stack TooMany total 32769\n")
        self.ends(["compare", "--native"], long + part("filter", last + ret(ALLOW)) + both, 0, b"same\n")
        self.ends(["compare", "--native"], long + part("filter", last + ret(ERRNO | 7)) + both, 1,
                  differs(0, "ERRNO 7", "ALLOW 0"))

    def test_as_many_filters_beside_a_profile(self):
        both = part("profile", ALLOWS) + part("table", b"read 0\n")
        remaining = part("filter", ret(ALLOW)) * 6553
        self.ends(["compare", "--native"], part("filter", ret(ALLOW)) + remaining + both, 0, b"same\n")
        self.ends(["compare", "--native"], part("filter", ret(ERRNO | 9)) + remaining + both, 1,
                  differs(0, "ERRNO 9", "ALLOW 0"))
        self.ends(["compare"], part("filter", ret(ALLOW)) * 2 + remaining + both, 1,
                  b"fault stack TooMany total 32771\n")

    def test_a_bundle_of_64_parts(self):
        filters = [part("filter", ret(ERRNO | at) if at % 5 else ret(ALLOW)) for at in range(64)]
        self.ends(["decide"], b"".join(filters), 0, b"ERRNO 63\n")
        self.ends(["decide"], b"".join(reversed(filters)), 0, b"ERRNO 1\n")
        profile = part("profile", b'{"defaultAction": "SCMP_ACT_ERRNO", "defaultErrnoRet": 61}')
        for filters[40], status, out in (
                (part("filter", ret(ERRNO | 40)), 0, b"same\n"),
                (part("filter", ret(TRAP | 40)), 1, differs(0, "TRAP 40", "ERRNO 61"))):
            pieces = [part("table", b"read 0\n"), *filters[:30], profile, *filters[30:62]]
            self.assertEqual(len(pieces), 64)
            self.ends(["compare", "--native"], b"".join(pieces), status, out)

    def test_5000_calls_of_8_names(self):
        numbers = [at * 7919 % 5003 * 3 for at in range(5000)]
        self.assertEqual(len(set(numbers)), 5000)
        begins = ("zz", "a", "_", "Z", "a_", "A", "a0", "b")
        table = "".join(f"{begin}{number} {number}\n" for begin in begins for number in numbers)
        both = part("profile", ALLOWS) + part("table", table.encode())

        def lines(of, answer):
            rows = []
            for number in sorted(of):
                names = sorted((f"{begin}{number}" for begin in begins), key=str.encode)
                rows.append(f"{number} {','.join(names)} differs args 0x0 0x0 0x0 0x0 0x0 0x0 filter {answer} "
                            "profile ALLOW 0\n")
            return "".join(rows).encode()

        self.ends(["compare", "--calls"], part("filter", GATE + ret(ALLOW)) + both, 0, b"same\n")
        self.ends(["compare", "--calls"], part("filter", GATE + ret(EPERM)) + both, 1,
                  b"differs\n" + lines(numbers, "ERRNO 1"))
        border = sorted(numbers)[2500]
        some = GATE + jge(border, 0, 1) + ret(EPERM) + ret(ALLOW)
        self.ends(["compare", "--calls"], part("filter", some) + both, 1,
                  b"differs\n" + lines([number for number in numbers if number >= border], "ERRNO 1"))

    def test_a_profile_of_4096_rules(self):
        """Of one entry, whose numbers follow one another."""
        table = part("table", "".join(f"c{number} {number}\n" for number in range(MOST)).encode())
        names = ", ".join(f'"c{number}"' for number in range(MOST))
        profile = part("profile", b'{"defaultAction": "SCMP_ACT_ERRNO", "syscalls": [{"names": [%s], '
                                  b'"action": "SCMP_ACT_ALLOW"}]}' % names.encode())
        wanted = GATE + jge(MOST, 1, 0) + ret(ALLOW) + ret(EPERM)
        self.ends(["compare"], part("filter", wanted) + profile + table, 0, b"same\n")
        wrong = GATE + jge(MOST - 1, 1, 0) + ret(ALLOW) + ret(EPERM)
        self.ends(["compare"], part("filter", wrong) + profile + table, 1, differs(MOST - 1, "ERRNO 1", "ALLOW 0"))
        compiled, _ = ran(["compile"], profile + table)
        for number, answer in ((0, b"ALLOW 0"), (MOST - 1, b"ALLOW 0"), (MOST, b"ERRNO 1"), (0x3FFFFFFF, b"ERRNO 1"),
                               (0x40000000, b"KILL_PROCESS 0")):
            self.assertEqual(ran(["run", f"--nr={number}"], compiled)[0].split(b" steps ")[0], answer, number)
        self.assertLessEqual(len(compiled) // 8, MOST)


# The most bytes of an input, and of a table or a profile in it.
INPUT, TEXT = 16777216, 4194304


def compiled_of(profile, table):
    """The bundle of a profile and a table, for `compile`."""
    return bundle([a_profile(profile), a_table(table)])


class Longest(OnProgram):
    """Inputs at their limits, and one byte, one instruction or one rule past them."""

    def test_filter(self):
        """One instruction and one byte more than the longest filter has."""
        longest = long_filter(4095)
        for longer in (long_filter(4096), longest + b"\0"):
            for words, given in ((["check"], longer), (["run"], longer), (["dis"], longer),
                                 (["decide"], part("filter", longer)),
                                 (["compare"], part("filter", longer) + bundle([ALL, NO_TABLE]))):
                self.prints(words, given, "fault filter TooLong\n", 3)

    def test_input(self):
        """The longest input that isn't one filter, and one byte more."""
        self.prints(["asm"], b" " * INPUT, "")
        self.prints(["decide"], b" " * INPUT, "fault bundle Header offset 0\n", 3)
        for command in ("asm", "decide", "compile", "compare"):
            self.prints([command], b" " * (INPUT + 1), "fault input TooLong\n", 3)

    def test_parts(self):
        """The longest table and the longest profile of a comparison, which says what stands at their ends, and one byte
        more of each. A table to be compiled has no limit of its own."""
        allows_0 = assembled("ld [0]; jeq #0, 0, 1; ret #0x7fff0000; ret #0x50001")
        for of_table, of_profile, text, status in (
                (TEXT, TEXT, "same\n", 0), (TEXT + 1, TEXT, "fault table TooLong\n", 3),
                (TEXT, TEXT + 1, "fault profile TooLong\n", 3)):
            remaining = compiled_of(ONE_CALL.rjust(of_profile), READ_TABLE.rjust(of_table))
            self.prints(["compare", "--native"], part("filter", allows_0) + remaining, text, status)
        self.assertEqual(ran(["compile"], compiled_of(DEFAULT_ALLOW, " " * (TEXT + 1)))[1], 0)
        self.prints(["compile"], compiled_of(" " * (TEXT + 1), ""), "fault profile TooMany\n", 1)

    def test_compiled(self):
        """The largest filter, and one instruction more: the tests in front take 5, those of the two numbers 2 and 1,
        each test for another value 5 with its answer, each for a greater one 6, and the default answers 3."""
        def given(other, greater):
            entries = [(["write"] * count + ["read"], [{"index": 0, "value": value, "op": f"SCMP_CMP_{operator}"}])
                       for count, value, operator in ((other, 5, "NE"), (greater, 7, "GT"))]
            return compiled_of(refusing(*entries), READ_WRITE_TABLE)

        self.assertEqual(5 + 2 + 1 + 5 * (810 + 1) + 6 * (4 + 1) + 3, 4096)
        compiled, status = ran(["compile"], given(810, 4))
        self.assertEqual((len(compiled), status), (32768, 0))
        for number, first, text in ((0, 1, MADE), (0, 8, MADE), (0, 5, FAILS), (1, 1, MADE), (1, 8, MADE),
                                    (1, 5, FAILS), (2, 1, FAILS)):
            words = ["--nr", str(number), "--a0", str(first)]
            self.prints(["decide", *words], part("filter", compiled), f"{text}\n")
        self.prints(["compile"], given(809, 5), "fault compile TooLarge\n", 1)

    def test_nested_json(self):
        """JSON of 127 levels, and of one more."""
        for arrays, status in ((126, 0), (127, 1)):
            profile = '{"defaultAction":"SCMP_ACT_ALLOW","comment":%s%s}' % ("[" * arrays, "]" * arrays)
            out, ended = ran(["compile"], compiled_of(profile, ""))
            self.assertEqual(ended, status, arrays)
            self.assertEqual(out == b"fault profile Json\n", status == 1, arrays)


class Hurtful(OnProgram):
    """Profiles, numbers and names made to hurt."""

    def is_number(self, profile, table, number):
        """That a profile of one call is compiled, and the call has this number, and not those beside it."""
        compiled, status = ran(["compile"], compiled_of(profile, table))
        self.assertEqual(status, 0)
        for second, text in ((number - 1, "ERRNO 1\n"), (number, "ALLOW 0\n"), (number + 1, "ERRNO 1\n")):
            self.prints(["decide", "--nr", str(second)], part("filter", compiled), text)

    def test_cut_profiles(self):
        """Each beginning of a profile is no JSON, nor is the profile with a byte that no UTF-8 text has, at each
        place."""
        profile, table = ONE_CALL.encode(), part("table", READ_TABLE.encode())
        for place in range(len(profile)):
            for given in (profile[:place], profile[:place] + b"\xff" + profile[place:]):
                self.prints(["compile"], part("profile", given) + table, "fault profile Json\n", 1)

    def test_long_numbers(self):
        """A number of a million digits in the text of a filter, and of a table; and the longest that a system hands on
        as an option."""
        zeros, ones = "0" * 1000000, "1" * 1000000
        self.prints(["asm"], f"ld #{zeros}7".encode(), b"\0\0\0\0\x07\0\0\0")
        self.prints(["asm"], f"ld #{ones}".encode(), "fault text NumberRange line 1\n", 1)
        self.is_number(ONE_CALL, f"read {zeros}7\n", 7)
        self.prints(["compile"], compiled_of(ONE_CALL, f"write 1\nread {ones}\n"), "fault table Number line 2\n", 1)
        for option, text, status in ((zeros[:131000] + "7", "KILL_THREAD 7 steps 2\n", 0),
                                     (ones[:131000], "fault number a0\n", 2)):
            self.prints(["run", "--a0", option], assembled("ld [16]; ret a"), text, status)

    def test_names_that_differ_in_the_last_byte(self):
        """A table of names of 60000 bytes, which stand in the order of their last byte or against it."""
        lasts = "0123456789ABCDEFGHIJKLMNOPQRSTUVWXYZ_abcdefghijklmnopqrstuvwxyz"
        name = "x" * 59999
        profile = ('{"defaultAction":"SCMP_ACT_ERRNO","syscalls":[{"names":["%sb"],"action":"SCMP_ACT_ALLOW"}]}' % name)
        # the last byte of the call is the 39th of 63, and the 25th
        for order, number in ((lasts, 76), (lasts[::-1], 48)):
            table = "".join(f"{name}{last} {2 * at}\n" for at, last in enumerate(order))
            self.is_number(profile, table, number)
