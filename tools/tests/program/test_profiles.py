"""Call tables and profiles: what is refused and by which fault, which rules conflict, what a profile answers to calls,
as its filter does, and by which entry, and the calls that a table names (test_stretches has how filters are made)."""
import functools
import json

from support.common import I386, X32, X86_64, part
from support.on_parts import (ALL, ALLOW, CLONE, CLONE_TABLE, DEFAULT_ALLOW, ONE_CALL, READ_TABLE, OnProgram,
                              a_profile, a_table, behind_gate, bundle, each_of, ran)
from support.worked import FAILS, KILLS, MADE, MOST, SOCKET_RULES, SOCKET_TABLE, WHOLE_CONFIG
from scftools.ask import verdicts

BIT_32, LAST = 1 << 32, X32 - 1
# Faults, and the texts of tables that have them.
TABLES = {
    None: ("", "# x\n\na 5\nb 5", "read 0\r\n \twrite\t 1 \r\n", "a 0000000000000000000000001\nA 1073741823"),
    "Repeated line 2": ("read 0\nread 1",),
    "Number line 1": ("read 1073741824", "read 18446744073709551616", "read 0x1", "read 0\r"),
    "Name line 1": ("9p 1", "r\u00e9ad 1"),
    "Name line 2": ("a 1\n9p x",),
    "Form line 1": ("read", "\r"),
    "Form line 3": ("a 1\n\n9p 1 1\na 1",),
}
# Texts of tables, and what is said of their calls, by their numbers.
CALLS = (
    ("read 0", "0 read"),
    ("last 1073741823", "1073741823 last"),
    # Two names of one number, in both orders.
    ("leave 231\nleave_too 231", "231 leave,leave_too"),
    ("leave_too 231\nleave 231", "231 leave,leave_too"),
    # Numbers that fall, and some whose digits come in another order than they.
    ("c 3\nb 2\na 1", "1 a; 2 b; 3 c"),
    ("ten 10\nnine 9\nhundred 100\nnought 0", "0 nought; 9 nine; 10 ten; 100 hundred"),
    # By bytes: digits, upper case, the underscore, lower case; and what goes on behind what ends.
    ("aa 7\na_ 7\naA 7\na0 7\na 7\n_ 7\nZ 7", "7 Z,_,a,a0,aA,a_,aa"),
    # Names of two numbers among each other.
    ("b 5\nd 4\na 4\nc 5", "4 a,d; 5 b,c"),
)
# Faults, and the texts of profiles that have them.
PROFILES = {
    "Kind": ("[]", '{"linux":3}', '{"linux":{"seccomp":3}}', '{"defaultAction":3}',
             '{"defaultAction":"SCMP_ACT_ERRNO","defaultErrnoRet":1.5,"architectures":3}',
             '{"defaultAction":"SCMP_ACT_LOG","architectures":["SCMP_ARCH_X86_64",null],"archMap":3}',
             '{"defaultAction":"SCMP_ACT_LOG","archMap":[],"syscalls":3}'),
    "Missing": ("{}", '{"linux":{}}', '{"linux":null}', '{"defaultAction":null}'),
    "Action": ('{"defaultAction":"X","defaultErrnoRet":"x"}',),
    "Errno": ('{"defaultAction":"SCMP_ACT_ALLOW","defaultErrnoRet":-1,"architectures":3}',),
    "ErrnoRange": ('{"defaultAction":"SCMP_ACT_ERRNO","defaultErrnoRet":65536,"architectures":3}',
                   '{"defaultAction":"SCMP_ACT_ERRNO","defaultErrnoRet":-1}',
                   '{"defaultAction":"SCMP_ACT_TRACE","defaultErrnoRet":-1}'),
    "NoX8664": ('{"defaultAction":"SCMP_ACT_LOG","architectures":["SCMP_ARCH_X86"],"archMap":3}',),
    "EngineForm": ('{"defaultAction":"SCMP_ACT_LOG","archMap":[{}],"syscalls":3}',),
    # the last is no text of UTF-8
    "Json": ('{"defaultAction":"SCMP_ACT_LOG","defaultErrnoRet":1e999}', '{"defaultAction":"SCMP_ACT_LOG"}x', "",
             b'{"defaultAction":"\xff"}'),
}
# The same of the texts of entries.
ENTRIES = {
    "Kind entry 0": ("3", "null", '{"names":3}', '{"names":[null]}',
                     '{"names":["a"],"action":"SCMP_ACT_LOG","args":{}}'),
    "EngineForm entry 0": ('{"includes":{"caps":["CAP_SYS_ADMIN"]},"names":3}', '{"includes":{},"excludes":false}'),
    "Missing entry 0": ('{"name":"read","action":"SCMP_ACT_LOG"}', '{"names":["a"],"errnoRet":"x"}'),
    "EmptyNames entry 0": ('{"names":[]}',),
    "Action entry 0": ('{"names":["a"],"action":"SCMP_ACT_NONE","errnoRet":"x"}',),
    "Errno entry 0": ('{"names":["a"],"action":"SCMP_ACT_KILL","errnoRet":0,"args":3}',),
    "ErrnoRange entry 0": ('{"names":["a"],"action":"SCMP_ACT_TRACE","errnoRet":65536,"args":3}',),
    "Kind entry 2": (
        '{"names":["a"],"action":"SCMP_ACT_LOG"},{"names":["a"],"action":"SCMP_ACT_TRAP"},{"names":3}',),
    "Conflict number 1 first 0 second 1": (
        '{"names":["a"],"action":"SCMP_ACT_ALLOW"},{"names":["a"],"action":"SCMP_ACT_LOG"}',),
    "Conflict number 1 first 0 second 2": (
        '{"names":["a","b"],"action":"SCMP_ACT_ALLOW"},{"names":["c"],"action":"SCMP_ACT_ERRNO"},'
        '{"names":["b","a"],"action":"SCMP_ACT_ERRNO"}',),
    "Conflict number 5 first 0 second 1": (
        '{"names":["d"],"action":"SCMP_ACT_ALLOW"},{"names":["e"],"action":"SCMP_ACT_LOG"}',),
}
# The same of the texts of conditions.
ARGS = {
    "Kind entry 0": (
        "null", '{"index":1.0,"op":"X"}', '{"index":18446744073709551616}', '{"index":5,"op":3,"value":-1}',
        '{"index":5,"op":"SCMP_CMP_GT","value":-1}', '{"index":5,"op":"SCMP_CMP_GT","value":18446744073709551616}',
        '{"index":0,"op":"SCMP_CMP_GT","value":0},{"index":0,"op":"SCMP_CMP_GT","value":0,"valueTwo":"0"}'),
    "Missing entry 0": ('{"op":"X"}', '{"index":5,"value":-1}', '{"index":5,"op":"SCMP_CMP_GT","valueTwo":-1}'),
    "Index entry 0": ('{"index":6}', '{"index":-1}'),
    "Operator entry 0": ('{"index":5,"op":"SCMP_CMP_XX","value":-1}',),
    "RepeatedIndex entry 0": (
        '{"index":0,"op":"SCMP_CMP_GT","value":0},{"index":0,"op":"SCMP_CMP_LT","value":9},3',),
}
# How often the one entry has a name, the entries behind it, and the fault.
COUNTS = (
    (4096, "", None),
    (4097, "", "TooMany"),
    (4097, ",3", "Kind entry 1"),
    (4096, ',{"names":["a"],"action":"SCMP_ACT_LOG"}', "TooMany"),
    (4095, ',{"names":["a"],"action":"SCMP_ACT_LOG"}', "Conflict number 1 first 0 second 1"),
)
CONDITIONS = '''{"defaultAction":"SCMP_ACT_ERRNO","syscalls":[
    {"names":["read"],"action":"SCMP_ACT_ALLOW","args":[{"index":0,"value":0,"op":"SCMP_CMP_LT"}]},
    {"names":["write"],"action":"SCMP_ACT_ALLOW",
    "args":[{"index":0,"value":18446744073709551615,"op":"SCMP_CMP_LE"}]},
    {"names":["socket"],"action":"SCMP_ACT_ALLOW","args":[{"index":0,"value":40,"op":"SCMP_CMP_NE"}]},
    {"names":["clone"],"action":"SCMP_ACT_ALLOW","args":[
    {"index":0,"value":255,"valueTwo":511,"op":"SCMP_CMP_MASKED_EQ"},
    {"index":2,"value":7,"op":"SCMP_CMP_EQ"}]}]}'''
CONDITIONS_TABLE = "read 0\nwrite 1\nsocket 41\nclone 56"
# Two names have one number, and one the last below x32's.
REASONS_TABLE = "read 0\nwrite 1\nsend 1\nlast 1073741823\n"
# Entry 0 has no name of the table. `write` has rules of the entries 1 to 4, some of which a call meets at once, `send`
# among them; one entry names it twice.
REASONS = '''{"defaultAction":"SCMP_ACT_ERRNO","syscalls":[
    {"names":["elsewhere"],"action":"SCMP_ACT_TRAP"},
    {"names":["write"],"action":"SCMP_ACT_ALLOW","args":[{"index":0,"value":1,"op":"SCMP_CMP_EQ"}]},
    {"names":["read","write"],"action":"SCMP_ACT_ALLOW","args":[{"index":0,"value":5,"op":"SCMP_CMP_GT"}]},
    {"names":["write","write"],"action":"SCMP_ACT_ALLOW","args":[
        {"index":0,"value":8,"op":"SCMP_CMP_GE"},{"index":1,"value":3,"op":"SCMP_CMP_EQ"}]},
    {"names":["send"],"action":"SCMP_ACT_ALLOW","args":[{"index":0,"value":2,"op":"SCMP_CMP_LE"}]},
    {"names":["last"],"action":"SCMP_ACT_ERRNO","errnoRet":7},
    {"names":["last","read"],"action":"SCMP_ACT_ERRNO","errnoRet":7,
        "args":[{"index":0,"value":0,"op":"SCMP_CMP_EQ"}]}]}'''
# Names by the escapes of JSON, of which one is no call's.
ESCAPED = (r'{"defaultAction":"SCMP_ACT_ERRNO","syscalls":[{"names":["\u00e9","r\u0065ad"],'
           '"action":"SCMP_ACT_ALLOW"}]}')
# The rules that a container engine's default has for one call.
ENGINE_RULES = '''{"defaultAction":"SCMP_ACT_ERRNO","defaultErrnoRet":38,"syscalls":[
    {"names":["socket"],"action":"SCMP_ACT_ERRNO","errnoRet":22,"args":[
    {"index":0,"value":16,"valueTwo":0,"op":"SCMP_CMP_EQ"},
    {"index":2,"value":9,"valueTwo":0,"op":"SCMP_CMP_EQ"}]},
    {"names":["socket"],"action":"SCMP_ACT_ALLOW",
    "args":[{"index":2,"value":9,"valueTwo":0,"op":"SCMP_CMP_NE"}]},
    {"names":["socket"],"action":"SCMP_ACT_ALLOW",
    "args":[{"index":0,"value":16,"valueTwo":0,"op":"SCMP_CMP_NE"}]},
    {"names":["socket"],"action":"SCMP_ACT_ALLOW",
    "args":[{"index":2,"value":9,"valueTwo":0,"op":"SCMP_CMP_NE"}]}]}'''
# A table, a profile, and its answers with their reasons to calls of x86-64: a call's number and first arguments.
ANSWERS = (
    (READ_TABLE, ONE_CALL, {f"{MADE} entry 0": [(0,)], f"{FAILS} default": [(1,), (LAST,)],
                            f"{KILLS} foreign": [(X32,), (0xFFFFFFFF,)]}),
    (CONDITIONS_TABLE, CONDITIONS, {
        f"{FAILS} default": [(0, 0), (0, MOST), (41, 40), (56, 510, 0, 7), (56, 255, 7, 0)],
        f"{MADE} entry 1": [(1, 0), (1, MOST)], f"{MADE} entry 2": [(41, BIT_32 | 40)],
        f"{MADE} entry 3": [(56, 255, 0, 7), (56, 511, 0, 7)]}),
    (REASONS_TABLE, REASONS, {
        f"{MADE} entry 1": [(1, 1, 0)], f"{MADE} entry 4": [(1, 2, 0)],
        f"{MADE} entry 2": [(1, 6, 3), (1, MOST, 3), (1, BIT_32 | 1, 0), (0, 6, 0)],
        f"{FAILS} default": [(1, 3, 3), (0, 1, 0), (2, 0, 0), (LAST - 1, 0, 0)],
        "ERRNO 7 entry 6": [(0, 0, 0)], "ERRNO 7 entry 5": [(LAST, 0, 0), (LAST, 9, 0)],
        f"{KILLS} foreign": [(X32, 0, 0), (X32 + 1, 1, 0), (0xFFFFFFFF, 1, 0)]}),
    (READ_TABLE, WHOLE_CONFIG, {f"{MADE} entry 0": [(0,)], "ERRNO 38 default": [(1,)]}),
    ("", DEFAULT_ALLOW, {f"{MADE} default": [(0,), (LAST,)], f"{KILLS} foreign": [(X32,)]}),
    (CLONE_TABLE[1], CLONE[1], {f"{MADE} entry 0": [(56, 0), (56, BIT_32)], f"{FAILS} default": [(56, 0x02000000)]}),
    (READ_TABLE, ESCAPED, {f"{MADE} entry 0": [(0,)], f"{FAILS} default": [(1,)]}),
    # rules that answer differently and don't conflict
    (SOCKET_TABLE, SOCKET_RULES, {"ERRNO 22 entry 0": [(41, 16, 0, 9)], f"{MADE} entry 1": [(41, 16, 0, 1)],
                                  "ERRNO 1 default": [(41, 2, 0, 9)]}),
    (SOCKET_TABLE, ENGINE_RULES, {"ERRNO 22 entry 0": [(41, 16, 3, 9)],
                                  f"{MADE} entry 1": [(41, 16, 3, 0), (41, 2, 1, 6)],
                                  f"{MADE} entry 2": [(41, 2, 1, 9), (41, BIT_32 | 16, 3, 9)]}),
)
# Calls of other architectures.
FOREIGN = ((READ_TABLE, ONE_CALL, I386, 0, ()), (REASONS_TABLE, REASONS, I386, 1, (1, 0)),
           (REASONS_TABLE, REASONS, 0xC000003F, LAST, (0, 0)), ("", DEFAULT_ALLOW, I386, 0, ()))
# An operator with its value and second value, arguments of which it holds, and others.
OPERATORS = (
    ("NE", (40, 0), (0, 39, 41, BIT_32 | 40, MOST), (40,)),
    ("LT", (40, 0), (0, 39), (40, 41, BIT_32 | 40, MOST)),
    ("LE", (40, 0), (0, 39, 40), (41, BIT_32 | 40, MOST)),
    ("EQ", (40, 0), (40,), (0, 39, 41, BIT_32 | 40, MOST)),
    ("GE", (40, 0), (40, 41, BIT_32 | 40, MOST), (0, 39)),
    ("GT", (40, 0), (41, BIT_32 | 40, MOST), (0, 39, 40)),
    ("NE", (0, 0), (1, BIT_32, MOST), (0,)),
    ("LT", (0, 0), (), (0, 1, BIT_32, MOST)),
    ("LE", (0, 0), (0,), (1, BIT_32, MOST)),
    ("GE", (0, 0), (0, 1, BIT_32, MOST), ()),
    ("GT", (0, 0), (1, BIT_32, MOST), (0,)),
    ("LT", (BIT_32, 0), (0, 1, BIT_32 - 1), (BIT_32, MOST)),
    ("GT", (BIT_32 - 1, 0), (BIT_32, MOST), (0, 1, BIT_32 - 1)),
    ("LT", (MOST, 0), (0, BIT_32 - 1, MOST - 1), (MOST,)),
    ("LE", (MOST, 0), (0, BIT_32 - 1, MOST - 1, MOST), ()),
    ("GE", (MOST, 0), (MOST,), (0, BIT_32 - 1, MOST - 1)),
    ("GT", (MOST, 0), (), (0, BIT_32 - 1, MOST - 1, MOST)),
    ("MASKED_EQ", (0, 0), (0, 1, BIT_32, MOST), ()),
    ("MASKED_EQ", (BIT_32 | 1, 0), (0, 2, 2 * BIT_32), (1, BIT_32, MOST)),
    ("MASKED_EQ", (255, 511), (255, 511, BIT_32 | 255, MOST), (510, 0)),
)
# How the first of two rules asks an argument (OCI runtime specification, `op`; a value, and the second one of a mask),
# and how the second does, None where it doesn't, by whether some number meets both.
PAIRS = {
    True: ((("LE", 10), ("GE", 10)), (("MASKED_EQ", 255, 16), ("LT", 17)),
           (("MASKED_EQ", 18446744073709551600, 32), ("GT", 46)), (("NE", 5), ("NE", 6)), (("NE", 5), ("EQ", 6)),
           (("MASKED_EQ", 0, 0), ("EQ", 3)), (("MASKED_EQ", 0, 9), ("EQ", 3)),
           (("MASKED_EQ", 6, 2), ("MASKED_EQ", 3, 3)), (("LT", 1), None), (("GE", MOST), None), (None, None),
           (("NE", 3), ("EQ", BIT_32 | 3))),
    False: ((("LT", 10), ("GE", 10)), (("MASKED_EQ", 1, 1), ("MASKED_EQ", 1, 0)), (("MASKED_EQ", 255, 16), ("LT", 16)),
            (("MASKED_EQ", 18446744073709551600, 32), ("GT", 47)), (("NE", 5), ("EQ", 5)),
            (("MASKED_EQ", 6, 4), ("MASKED_EQ", 3, 3)), (("LT", 0), None), (("GT", MOST), None),
            (("EQ", 3), ("EQ", BIT_32 | 3)), (("GE", BIT_32), ("LE", BIT_32 - 1))),
}
# Entries, with how they ask an argument, and the conflict that is named: the least second entry, then the least first
# one, then the least number.
LEAST = (
    ((("a", "ALLOW", 0, ("LT", 10)), ("a", "LOG", 0, ("GE", 10)), ("a", "TRAP", 0, ("EQ", 10)),
      ("a", "NOTIFY", 0, None)), "number 7 first 1 second 2"),
    ((("ab", "ALLOW", 1, ("NE", 9)), ("ab", "LOG", 1, ("NE", 8))), "number 3 first 0 second 1"),
    ((("b", "LOG", 1, ("EQ", 4)), ("ab", "ALLOW", 1, ("EQ", 9)), ("ba", "ALLOW", 1, ("EQ", 9)),
      ("a", "ALLOW", 0, None)), None),
)


def with_entries(entries):
    """The text of a profile with default LOG and these entries."""
    return '{"defaultAction":"SCMP_ACT_LOG","syscalls":[%s]}' % entries


def with_args(args):
    """The text of a profile that allows the call `a` where these conditions hold."""
    return with_entries('{"names":["a"],"action":"SCMP_ACT_ALLOW","args":[%s]}' % args)


def entry(names, action, index, asked):
    """An entry for calls of one letter each, with a condition on an argument where there is one."""
    actual = {"names": list(names), "action": f"SCMP_ACT_{action}"}
    if asked:
        operator, value, second = (*asked, 0)[:3]
        actual["args"] = [{"index": index, "op": f"SCMP_CMP_{operator}", "value": value, "valueTwo": second}]
    return actual


@functools.lru_cache(None)
def compiled(profile, table):
    """The bytes of the filter of a profile."""
    out, status = ran(["compile"], bundle([a_profile(profile), a_table(table)]))
    if status:
        raise AssertionError((profile[:200], out))
    return out


def words_of(number, arch, arguments):
    """The options that have a call."""
    return ["--arch", hex(arch), "--nr", str(number), *(f"--a{at}={value}" for at, value in enumerate(arguments))]


class OnProfiles(OnProgram):
    def loads(self, profile, table, fault):
        """That a profile and its table are taken, or refused by this fault."""
        profile = profile if isinstance(profile, bytes) else profile.encode()
        out, status = ran(["ask", "--nr", "0x40000000"], part("profile", profile) + part("table", table.encode()))
        wanted = (f"fault {fault}\n", 1) if fault else (f"{KILLS} foreign\n", 0)
        self.assertEqual((out.decode(), status), wanted, (profile[:200], table[:200]))

    def asks(self, table, profile, arch, number, arguments, text):
        """That a profile answers a call so, and why; and so does the filter that is compiled of it."""
        words, answer = words_of(number, arch, arguments), " ".join(text.split()[:2])
        self.prints(["ask", *words], bundle([a_profile(profile), a_table(table)]), f"{text}\n")
        self.prints(["decide", *words], part("filter", compiled(profile, table)), f"{answer}\n")



class Tables(OnProfiles):
    def test_tables(self):
        for table, fault in each_of(TABLES):
            self.loads(DEFAULT_ALLOW, table, fault and f"table {fault}")

    def test_numbers_of_names(self):
        table = "# x\n\na 5\nb 5\n_1 1073741823"
        for name, number in (("a", 5), ("b", 5), ("_1", LAST)):
            profile = ONE_CALL.replace("read", name)
            self.asks(table, profile, X86_64, number, (), f"{MADE} entry 0")
            self.asks(table, profile, X86_64, number - 1, (), f"{FAILS} default")
        self.prints(["compare"], bundle([behind_gate("ret #0x50001"), a_profile(ONE_CALL.replace("read", "A")),
                                         a_table(table)]), "same\nskipped A\n")

    def test_calls_by_number(self):
        for table, calls in CALLS:
            lines = "".join(f"{call} unfinished\n" for call in calls.split("; "))
            self.prints(["compare", "--calls", "--limit", "0"], bundle([ALLOW, ALL, a_table(table)]),
                        f"unfinished\n{lines}", 4)


class Refusals(OnProfiles):
    def test_texts(self):
        for faults, made, table in ((PROFILES, lambda text: text, ""), (ARGS, with_args, "a 1"),
                                    (ENTRIES, with_entries, "a 1\nb 2\nc 3\nd 5\ne 5")):
            for text, fault in each_of(faults):
                self.loads(made(text), table, f"profile {fault}")

    def test_counts_of_rules(self):
        for count, remaining, fault in COUNTS:
            entry = '{"names":[%s],"action":"SCMP_ACT_ALLOW"}' % ",".join(['"a"'] * count)
            self.loads(with_entries(entry + remaining), "a 1", fault and f"profile {fault}")


class Answers(OnProfiles):
    def test_answers(self):
        for table, profile, answers in ANSWERS:
            for (number, *arguments), text in each_of(answers):
                self.asks(table, profile, X86_64, number, arguments, text)
        for call in FOREIGN:
            self.asks(*call, f"{KILLS} foreign")

    def test_operators(self):
        for operator, (value, second), holds, fails in OPERATORS:
            args = '{"index":0,"op":"SCMP_CMP_%s","value":%d,"valueTwo":%d}' % (operator, value, second)
            for arguments, text in ((holds, f"{MADE} entry 0"), (fails, "LOG 0 default")):
                for argument in arguments:
                    self.asks("a 1", with_args(args), X86_64, 1, (argument,), text)


class Conflicts(OnProfiles):
    def conflicts(self, entries, conflict):
        """That a profile of these entries is refused for this conflict, or loaded where there is none."""
        profile = json.dumps({"defaultAction": "SCMP_ACT_KILL", "syscalls": [entry(*each) for each in entries]})
        self.loads(profile, "a 7\nb 3", conflict and f"profile Conflict {conflict}")

    def test_two_rules(self):
        """Of call 7, ALLOW and then ERRNO, with the one condition first and with the other."""
        for (first, second), is_both in each_of(PAIRS):
            for index in (0, 5):
                for item, another in ((first, second), (second, first)):
                    self.conflicts([("a", "ALLOW", index, item), ("a", "ERRNO", index, another)],
                                   is_both and "number 7 first 0 second 1")

    def test_other_arguments(self):
        for first, second in ((0, 1), (1, 0), (0, 5), (5, 0)):
            for asked, conflict in ((("EQ", 1), "number 7 first 0 second 1"), (("LT", 0), None)):
                self.conflicts([("a", "ALLOW", first, ("EQ", 1)), ("a", "ERRNO", second, asked)], conflict)

    def test_least_entries(self):
        for entries, conflict in LEAST:
            self.conflicts(entries, conflict)

    def test_many_rules_of_one_call(self):
        """4096, whose answers alternate and whose conditions exclude each other: each is met by its own value."""
        entries = [entry("a", "LOG" if value % 2 else "ALLOW", 0, ("EQ", value)) for value in range(4096)]
        profile = json.dumps({"defaultAction": "SCMP_ACT_KILL", "syscalls": entries})
        given = bundle([a_profile(profile), a_table("a 7")])
        for value in (0, 1, 2047, 4094, 4095):
            answer = "LOG 0" if value % 2 else MADE
            self.prints(["ask", "--nr", "7", "--a0", str(value)], given, f"{answer} entry {value}\n")
        self.prints(["ask", "--nr", "7", "--a0", "4096"], given, "KILL_THREAD 0 default\n")


class LeftOut(OnProgram):
    """With --left-out: the lines of `compare`, and one with the length of each name, since a name may have line ends in
    it, and even look like that line."""

    NAMES = ((), ("gone",), ("gone", "x\nskipped y", "other z\n", "left-out skipped 4 other\n", "\u00e9", "", "gone"))
    ARCHITECTURES = ((), ("SCMP_ARCH_X86",), ("SCMP_ARCH_PPC", "a\nleft-out skipped 1 other 2\n", "SCMP_ARCH_PPC"))

    @staticmethod
    def front(names, architectures):
        """What is printed before the filter."""
        skipped, others = ([text.encode() for text in texts] for texts in (names, architectures))
        lines = [b"skipped %b\n" % name for name in skipped] + [b"other %b\n" % name for name in others]
        lengths = ["".join(f" {len(name)}" for name in texts).encode() for texts in (skipped, others)]
        return b"".join(lines) + b"left-out skipped%b other%b\n" % tuple(lengths)

    def test_lines_before_the_filter(self):
        for names in self.NAMES:
            for architectures in self.ARCHITECTURES:
                profile = json.dumps({
                    "defaultAction": "SCMP_ACT_ERRNO", "architectures": ["SCMP_ARCH_X86_64", *architectures],
                    "syscalls": [{"names": ["read", *names], "action": "SCMP_ACT_ALLOW"}]})
                given, front = bundle([a_profile(profile), a_table(READ_TABLE)]), self.front(names, architectures)
                for words in (["compile"], ["compile", "--architectures"]):
                    filter_, status = ran(words, given)
                    self.assertEqual((status, len(filter_) % 8), (0, 0))
                    self.prints([*words, "--left-out"], given, front + filter_)
                    report, code = verdicts.behind_left_out(front + filter_)
                    self.assertEqual((report.skipped, report.architectures, code), (names, architectures, filter_))

    def test_faults_stay(self):
        given = bundle([a_profile("{"), a_table(READ_TABLE)])
        self.assertEqual(ran(["compile", "--left-out"], given), ran(["compile"], given))
