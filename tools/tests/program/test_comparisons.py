"""What `compare` says of filters and a profile, of two stacks and of two profiles: over each set of records and by each
relation, within the effort; stacks that are drawn; and what is printed of options, parts and faults."""
import itertools
import json
import random

from support.common import (ALLOW, ENOSYS, EPERM, KILL_PROCESS, KILL_THREAD, LOG, TRACE, USER_NOTIF, X32, X86_64,
                            filter_of, gate, insn, jeq, jge, load, part, ret)
from support.judged import LONG, MACHINE, RELATIONS, SCOPES, Judged, Pair, Profile, Stack, record_of
from support.on_parts import (ALL, ALLOW_ALL, ARCH_GATE, CLONE, CLONE_BY_AND, CLONE_BY_FEWER_BITS, CLONE_BY_JSET,
                              CLONE_TABLE, DEFAULT_ALLOW, NATIVE, NO_TABLE, ONE_CALL, READ_TABLE, READ_WRITE_TABLE,
                              WITHOUT_WRITE, a_filter, a_profile, a_table, assembled, behind_gate, beside, bundle,
                              each_of, long_filter, ran)
from support.on_parts import ALLOW as ALLOWING
from support.several import ACTIONS
from support.stand_in import unpacked
from support.worked import (ALL_BUT_TWO, EXTREMES, MOST, SOCKET_NOT_40, SOCKET_RULES, SOCKET_TABLE, WITHOUT_READ,
                            allowing, effort)

READ, WRITE, SOCKET = 0, 1, 41
TABLE = "read 0\nwrite 1\nsocket 41\ngetpid 39\nexit_group 231\n"
NO_NAMES = ""


def profile(*entries, default="ERRNO"):
    return json.dumps({"defaultAction": f"SCMP_ACT_{default}", "syscalls": [
        {"names": [name], "action": f"SCMP_ACT_{action}", **more} for name, action, more in entries]})


def errno_of(number, errno=1):
    """Allows each syscall but one."""
    return a_filter(f"ld [0]; jeq #{number}, 0, 1; ret #{0x50000 | errno}; ret #0x7fff0000")


def answering(answer):
    """Answers each syscall of x86-64 so."""
    return behind_gate(f"ret #{answer}")


NOT_40 = {"args": [{"index": 0, "value": 40, "op": "SCMP_CMP_NE"}]}
ALLOWS_READ = profile(("read", "ALLOW", {}))
ALLOWS = profile(default="ALLOW")
RULES = profile(("read", "ALLOW", {}), ("socket", "ALLOW", NOT_40))
DENIES = profile()
# socket with another first argument than 40, of all 64 bits
SOCKETS = (load(16) + jeq(40, 0, 2) + load(20) + jeq(0, 1, 0) + ret(ALLOW) + ret(EPERM))
RULED = gate(jeq(READ, 8, 0) + jeq(SOCKET, 0, 6) + SOCKETS + ret(EPERM) + ret(ALLOW))
# An argument times the next number, which is even: it takes a split on the argument's lowest bit.
EVEN = a_filter("ld [0]; jeq #1, 0, 6; ld [16]; tax; add #1; mul x; jset #1, 0, 1; ret #0; ret #0x7fff0000")
GATED = [behind_gate(f"ld [0]; jeq #{number}, 0, 1; ret #0x50001; ret #0x7fff0000") for number in (0, 1)]
LOGGED_READ = a_filter("ld [0]; jeq #0, 0, 1; ret #0x7ffc0000; ret #0x7fff0000")
# ONE_CALL by scratch words; and with another answer in one.
STORED = "st M[3]; ld #0x7fff000%d; st M[4]; ldx M[3]; txa; jeq #0, 0, 2; ld M[4]; ret a; ret #0x50001"
# Two rules of `socket`, with two conditions and with one.
TWO_RULES = '''{"defaultAction":"SCMP_ACT_ERRNO","syscalls":[
    {"names":["socket"],"action":"SCMP_ACT_ALLOW",
    "args":[{"index":0,"value":16,"op":"SCMP_CMP_EQ"},{"index":2,"value":9,"op":"SCMP_CMP_EQ"}]},
    {"names":["socket"],"action":"SCMP_ACT_ALLOW","args":[{"index":2,"value":9,"op":"SCMP_CMP_NE"}]}]}'''
# Each of six numbers has an errno of its own, and filters that give it.
SIX_ERRNOS = json.dumps({"defaultAction": "SCMP_ACT_ALLOW", "syscalls": [
    {"names": [f"c{number}"], "action": "SCMP_ACT_ERRNO", "errnoRet": number} for number in range(1, 7)]})
SIX_TABLE = "".join(f"c{number} {number}\n" for number in range(1, 7))
SIX = [errno_of(number, number) for number in range(1, 7)]
# A profile with a name that no table has, and other architectures.
LEAVES_OUT = '''{"defaultAction":"SCMP_ACT_ERRNO","architectures":["SCMP_ARCH_X86","SCMP_ARCH_X86_64","SCMP_ARCH_X32",
    "SCMP_ARCH_AARCH64"],"syscalls":[{"names":["read","gone"],"action":"SCMP_ACT_ALLOW"}]}'''
# Filters, the oldest first, a profile and its table; whether they answer the same, no more and no less over all
# records, as people expect it; and the effort, where it is worked out by hand. The rest the second machine knows.
PAIRS = {
    "what the profile says": ([filter_of([READ])], ALLOWS_READ, TABLE, "yyy"),
    "a thread is ended for foreign calls": ([filter_of([READ], foreign=KILL_THREAD)], ALLOWS_READ, TABLE, "nyy"),
    "an ENOSYS stub": ([load(0) + jge(450, 0, 1) + ret(ENOSYS) + filter_of([READ])], ALLOWS_READ, TABLE, "nyy"),
    "a rule is dropped": ([gate(jeq(READ, 0, 1) + ret(ALLOW) + ret(EPERM))], RULES, TABLE, "nyn"),
    "a condition is kept": ([RULED], RULES, TABLE, "yyy"),
    "a condition is dropped": ([filter_of([READ, SOCKET])], RULES, TABLE, "nny"),
    "a condition of 32 bits": ([gate(jeq(READ, 5, 0) + jeq(SOCKET, 0, 3) + load(16) + jeq(40, 1, 0) + ret(ALLOW)
                                     + ret(EPERM) + ret(ALLOW))], RULES, TABLE, "nyn"),
    "one more and one less": ([filter_of([WRITE])], ALLOWS_READ, TABLE, "nnn"),
    "one lets more through": ([filter_of([READ, WRITE])], ALLOWS_READ, TABLE, "nny"),
    "only both together": ([filter_of([READ, WRITE]), filter_of([READ, SOCKET])], ALLOWS_READ, TABLE, "yyy"),
    "both together too little": ([filter_of([READ]), filter_of([WRITE])], ALLOWS_READ, TABLE, "nyn"),
    "foreign calls are made": ([filter_of([READ], foreign=ALLOW)], ALLOWS_READ, TABLE, "nny"),
    "foreign calls are delegated": ([filter_of([READ], foreign=TRACE)], ALLOWS_READ, TABLE, "nny"),
    "an action without a name kills": ([gate(ret(0x7FFE0000))], ALLOWS, TABLE, "nyn"),
    "no more than one that is killed": ([gate(ret(0x7FFE0000))], profile(default="KILL_PROCESS"), TABLE, "nyy"),
    "one without a name loses to TRACE": ([gate(ret(0x7FFE0000)), ret(TRACE)], DENIES, TABLE, "nny"),
    "all is refused": ([ret(KILL_PROCESS)], ALLOWS, TABLE, "nyn"),
    "no native call is refused": ([gate(ret(ALLOW))], profile(("read", "LOG", {}), default="ALLOW"), TABLE, "nyy"),
    "a name and architectures are left out": ([filter_of([READ, WRITE])], LEAVES_OUT, READ_TABLE, "nny"),
    "another errno": ([answering(0x50002)], DENIES, NO_NAMES, "nyy"),
    "another errno of one number": ([behind_gate("jeq #1, 0, 1; ret #0x50002; ret #0x7fff0000")], DEFAULT_ALLOW,
                                    NO_NAMES, "nyn"),
    "one value of an argument": ([behind_gate("jeq #41, 0, 1; ret #0x7fff0000; ret #0x50001")], SOCKET_NOT_40,
                                 SOCKET_TABLE, "nny"),
    "a number is added to": ([a_filter("ld [0]; add #1; jeq #2, 0, 1; ret #0x50001; ret #0x7fff0000")], DEFAULT_ALLOW,
                             NO_NAMES, "nnn"),
    "bits of a number": ([a_filter("ld [0]; and #0xff; jeq #1, 0, 1; ret #0x50001; ret #0x7fff0000")], DEFAULT_ALLOW,
                         "many 256\nmore 257\n", "nnn"),
    "an even product": ([EVEN], DEFAULT_ALLOW, NO_NAMES, "nny"),
    "a gate": ([NATIVE], DEFAULT_ALLOW, NO_NAMES, "yyy", 56),
    "everything is allowed": ([ALLOWING], DEFAULT_ALLOW, NO_NAMES, "nny", 8),
    "a gate without x32": ([a_filter(ARCH_GATE)], DEFAULT_ALLOW, NO_NAMES, "nny", 32),
    "everything beside one call": ([ALLOWING], ONE_CALL, READ_TABLE, "nny", 10),
    "everything beside flags": ([ALLOWING], CLONE[1], CLONE_TABLE[1], "nny", 16),
    "everything beside none and all arguments": ([ALLOWING], EXTREMES, READ_WRITE_TABLE, "nny", 24),
    "everything beside two rules": ([ALLOWING], TWO_RULES, SOCKET_TABLE, "nny", 64),
    "everything beside rules that none meets both": ([ALLOWING], SOCKET_RULES, SOCKET_TABLE, "nny", 64),
    "one that allows before a gate": ([ALLOWING, NATIVE], DEFAULT_ALLOW, NO_NAMES, "yyy", 56),
    "two gates": ([NATIVE, NATIVE], DEFAULT_ALLOW, NO_NAMES, "yyy", 392),
    "flags by a mask": ([CLONE_BY_AND], CLONE[1], CLONE_TABLE[1], "yyy", 208),
    "flags by a test of bits": ([CLONE_BY_JSET], CLONE[1], CLONE_TABLE[1], "yyy", 192),
    "flags by fewer bits": ([CLONE_BY_FEWER_BITS], CLONE[1], CLONE_TABLE[1], "nny", 192),
    "flags twice": ([CLONE_BY_AND, CLONE_BY_AND], CLONE[1], CLONE_TABLE[1], "yyy", 2704),
    "flags behind one that allows": ([ALLOWING, CLONE_BY_AND], CLONE[1], CLONE_TABLE[1], "yyy", 208),
    "flags before one that logs": ([CLONE_BY_AND, a_filter("ret #0x7ffc0000")], CLONE[1], CLONE_TABLE[1], "nyy"),
    "scratch words": ([behind_gate(STORED % 0)], ONE_CALL, READ_TABLE, "yyy", 150),
    "scratch words with other data": ([behind_gate(STORED % 1)], ONE_CALL, READ_TABLE, "nyy", 150),
    "data of ALLOW": ([answering(0x7FFF0001)], DEFAULT_ALLOW, NO_NAMES, "nyy", 56),
    # A test of a bit behind one of the same bit, and behind one of a mask that has it: no record comes to `ret #0`.
    "one bit twice": ([behind_gate("ld [16]; jset #1, 0, 2; jset #1, 1, 0; ret #0; ret #0x7fff0000")], DEFAULT_ALLOW,
                      NO_NAMES, "yyy", 96),
    "a bit of a mask": ([behind_gate("ld [16]; jset #3, 2, 0; jset #1, 0, 1; ret #0; ret #0x7fff0000")],
                        DEFAULT_ALLOW, NO_NAMES, "yyy", 96),
    "a division by an argument": ([behind_gate("ld [16]; tax; ld #1; div x; ret #0x7fff0000")], DEFAULT_ALLOW,
                                  NO_NAMES, "nyn", 96),
    # Of equal actions the newest filter's answer counts; ending the process goes before ending the thread, and that
    # before an errno.
    "the newest errno": ([answering(0x50005), answering(EPERM)], DENIES, NO_NAMES, "yyy", 392),
    "the oldest errno": ([answering(EPERM), answering(0x50005)], DENIES, NO_NAMES, "nyy", 392),
    "errnos around a gate": ([answering(0x50005), NATIVE, answering(EPERM)], DENIES, NO_NAMES, "yyy", 2744),
    "errnos before a gate": ([answering(EPERM), answering(0x50005), NATIVE], DENIES, NO_NAMES, "nyy"),
    "a process before a thread": ([ret(KILL_PROCESS), answering(0)], profile(default="KILL_PROCESS"), NO_NAMES, "yyy",
                                  56),
    "a thread before a process": ([answering(0), ret(KILL_PROCESS)], profile(default="KILL_PROCESS"), NO_NAMES, "yyy",
                                  56),
    "a thread before an errno": ([NATIVE, answering(0), answering(EPERM)], profile(default="KILL_THREAD"), NO_NAMES,
                                 "yyy"),
    "six errnos": ([NATIVE, *SIX], SIX_ERRNOS, SIX_TABLE, "yyy", 573440),
    "five of six errnos": ([NATIVE, *SIX[1:]], SIX_ERRNOS, SIX_TABLE, "nny"),
    "two filters without a gate": ([WITHOUT_READ, WITHOUT_WRITE], ALL_BUT_TWO, READ_WRITE_TABLE, "nny", 192),
    "two filters with gates": (GATED[::-1], ALL_BUT_TWO, READ_WRITE_TABLE, "yyy", 1200),
    "a filter with a gate and one without": ([GATED[0], WITHOUT_WRITE], ALL_BUT_TWO, READ_WRITE_TABLE, "yyy"),
    "one of two filters": ([WITHOUT_READ, ALLOWING], ALL_BUT_TWO, READ_WRITE_TABLE, "nny", 48),
    "three filters": ([WITHOUT_READ, LOGGED_READ, WITHOUT_WRITE], ALL_BUT_TWO, READ_WRITE_TABLE, "nny", 768),
    "a filter delegates": ([NATIVE, ret(USER_NOTIF)], DEFAULT_ALLOW, NO_NAMES, "nyn"),
    "a filter logs and traces": ([behind_gate("jeq #0, 0, 1; ret #0x7ffc0000; ret #0x7ff00000")], ONE_CALL, READ_TABLE,
                                 "nny"),
}
# Answers by the kernel's header, with unnamed ones on both sides of each border.
ANSWERS = (
    0x80000000, 0x80000007, 0x80010000, 0xFFFF0000, 0xFFFFFFFF, 0, 0x0000FFFF, 0x00010000, 0x00020000, 0x00030000,
    0x00040000, 0x00040007, 0x00050000, EPERM, ENOSYS, 0x0005FFFF, 0x00060000, 0x7FBF0000, USER_NOTIF, 0x7FEF0000,
    TRACE, 0x7FF00001, 0x7FF10000, 0x7FFB0000, 0x7FFBFFFF, LOG, 0x7FFD0000, 0x7FFE0000, ALLOW, 0x7FFF0001)
DEFAULT_LIMIT = 1000000


def pair_of(name):
    filters, text, table, *_ = PAIRS[name]
    return Pair(Stack(filters), Profile(text, table))


class Pairs(Judged):
    def test_each(self):
        """Over each set of records and by each relation, within the effort; with no step none is told."""
        for name, (filters, text, table, expected, *steps) in PAIRS.items():
            pair = pair_of(name)
            limit = f"--limit={pair.effort}"
            with self.subTest(name):
                self.assertEqual([effort(pair.left.data, text, table)] * len(steps), steps)
                for scope in SCOPES:
                    verdicts = [self.judge(pair, scope, relation, limit) for relation in RELATIONS]
                    if not scope:
                        wanted = [row[answer == "n"] for row, answer in zip(RELATIONS.values(), expected)]
                        self.assertEqual(verdicts[:3], wanted)
                    self.assertEqual(self.judge(pair, scope, "", "--limit=0"), "unfinished")
                self.assertEqual(self.judge(pair, "", "", f"--limit={MOST}"), self.judge(pair, "", "", limit))

    def test_splits(self):
        """Only the product takes one."""
        for name in PAIRS:
            pair = pair_of(name)
            for scope in ("--native", "--calls"):
                with self.subTest(name, scope=scope):
                    verdict = self.judge(pair, scope)
                    self.assertEqual(self.judge(pair, scope, "", "--splits", "0"),
                                     "undecided at 7" if name == "an even product" else verdict)
                    self.assertEqual(self.judge(pair, scope, "", "--splits", "1"), verdict)

    def test_each_answer(self):
        """Of the filter against each action of a profile."""
        for (action, stated), answer in itertools.product(ACTIONS.items(), ANSWERS):
            pair = Pair(Stack([ret(answer)]), Profile(profile(default=action), ""), [record_of(7, X86_64, 0, [0] * 6)])
            wanted = [(stated | (1 if action in ("ERRNO", "TRACE") else 0)), answer]
            self.assertEqual([pair.answers[0][2], pair.answers[0][1]], wanted)
            for relation in RELATIONS:
                with self.subTest(action=action, answer=hex(answer), relation=relation):
                    self.judge(pair, "--native", relation, "--limit", "8")

    def test_own_filters_beside_one_that_allows(self):
        for text, table in sorted({row[1:3] for row in PAIRS.values()}):
            compiled, status = ran(["compile"], bundle([a_profile(text), a_table(table)]))
            self.assertEqual(status, 0)
            for filters in ([compiled, ret(ALLOW)], [ret(ALLOW), compiled]):
                pair = Pair(Stack(filters), Profile(text, table), ())
                for scope in SCOPES:
                    self.assertEqual(self.judge(pair, scope, "", f"--limit={pair.effort}"), "same")

    def test_one_alone_lets_more_through(self):
        """Of the filters that hold only together, neither does by itself."""
        for data in PAIRS["only both together"][0]:
            self.assertEqual(self.judge(Pair(Stack([data]), Profile(ALLOWS_READ, TABLE)), "", "--no-more"), "more")


class Efforts(Judged):
    """Steps of a comparison: more paths than can be counted, and long filters that aren't plain, decided within the
    limit that stands where none is given."""

    def test_more_paths_than_can_be_counted(self):
        """Tests of a word for many numbers, each of which goes both ways to the next one, and of each bit of an
        argument."""
        orders = [behind_gate("ld [16];" + "".join(f"jge #{at}, 1, 0; ja 0;" for at in range(count)) + ALLOW_ALL)
                  for count in (20, 60, 120)]
        numbers = behind_gate("ld [16];" + "".join(f"jeq #{number}, 0, 0;" for number in range(64)) + ALLOW_ALL)
        bits = "".join(f"jset #{1 << bit}, 0, 0;" for bit in range(32))
        both = behind_gate(f"ld [16]; {bits} ld [20]; {bits} {ALLOW_ALL}")
        for filter_, words, wanted in (*((order, (), ["same"]) for order in orders),
                                       (numbers, ("--limit", "1000000"), ["same"]),
                                       (both, ("--limit", "1000"), ["same", "unfinished"])):
            pair = Pair(Stack([filter_]), Profile(DEFAULT_ALLOW, ""), ())
            self.assertGreater(pair.effort, DEFAULT_LIMIT)
            self.assertIn(self.judge(pair, "", "", *words), wanted)
            if filter_ in (numbers, both):
                self.assertEqual(pair.effort, MOST)

    def test_long_pairs_that_are_not_plain(self):
        """The number is kept in a scratch word, and then tested against 0, 1 and so on, each of which is allowed."""
        for count, wanted in ((150, "same"), (149, "differs")):
            tests = "".join(f"jeq #{number}, 0, 1; ret #0x7fff0000;" for number in range(count))
            filter_ = behind_gate(f"st M[1]; ld #7; ld M[1]; {tests} ret #0x50001")
            pair = Pair(Stack([filter_]), Profile(*allowing(range(150))), [record_of(149, X86_64, 0, [0] * 6)])
            self.assertEqual(self.judge(pair, "", "", f"--limit={DEFAULT_LIMIT}"), wanted)

    def test_splits_of_a_product(self):
        """A filter that multiplies an argument is decided by splits. Without them the index of an answer is printed."""
        mixes = behind_gate("""ld [16]; mul #0x9e3779b1; xor #0x12345678; mul #0x85ebca6b
            jeq #0xdeadbeef, 0, 1; ret #0; ret #0x7fff0000""")
        pair = Pair(Stack([mixes]), Profile(DEFAULT_ALLOW, ""), ())
        # the answer that isn't the profile's stands behind the gate's six instructions and five others
        self.assertEqual(self.judge(pair, "", "", "--splits", "0"), "undecided at 11")
        # (odd factors have inverses, so that one word alone is answered otherwise)
        self.assertEqual(self.judge(pair), "differs")


# ZERO allows everything, since a word with its lowest bit set, XOR the word, has no other bit, which few splits don't
# show. The others allow where a masked word is at least 5, the first by its square, which takes a split.
ZERO = "ld [16]; tax; or #1; xor x; rsh #1; jeq #0, 0, 1; ret #0x7fff0000; ret #0"
FROM_FIVE = a_filter("ld [16]; and #0xff; tax; mul x; jge #25, 0, 1; ret #0x7fff0000; ret #0x50001")
ABOVE_FOUR = beside("ld [16]; and #0xff; jgt #4, 0, 1; ret #0x7fff0000; ret #0x50001")
OTHER, NAMES_OF_1, UNLOADED = beside(ALLOW_ALL), a_table("b 1\na 1\nd 0"), a_filter("ld #0")
LOGS, EMPTY, NO_PROFILE, NO_NAME = a_filter("ret #0x7ffc0000"), a_filter(""), a_profile("{}"), a_table("9p 1")
# Options and parts, what is printed, and the status. What the parts of a bundle hold isn't looked at where they are
# too few or too many; the table is looked at before the profile, and a filter before both.
PRINTED = (
    *(("", parts, "fault bundle Parts\n", 3) for parts in (
        [], [ALL, NO_TABLE], [ALLOWING, ALLOWING, ALL], [ALLOWING, ALLOWING, NO_TABLE], [ALLOWING, ALL, ALL, NO_TABLE],
        [ALLOWING, ALL, NO_TABLE, NO_TABLE], [EMPTY, ALLOWING, ALL, NO_TABLE, CLONE_TABLE])),
    ("--native", [ALL, NO_TABLE], "fault bundle Parts\n", 3),
    ("--native", [EMPTY, ALLOWING, ALL, ALL, NO_TABLE], "fault bundle Parts\n", 3),
    ("", [NO_NAME, NO_PROFILE, UNLOADED], "fault filter LastNotReturn\n", 1),
    ("", [LOGS, LOGS, NO_PROFILE, NO_NAME], "fault table Name line 1\n", 1),
    ("", [LOGS, LOGS, NO_PROFILE, a_table(READ_WRITE_TABLE)], "fault profile Missing\n", 1),
    ("", [CLONE_TABLE, CLONE, CLONE_BY_JSET], "same\n", 0),
    # Without a filter on either side there is no input, as of a pipe from a tool that failed.
    ("--beside", [], "fault bundle Parts\n", 3), ("--beside --native", [], "fault bundle Parts\n", 3),
    ("--beside", [OTHER], "same\n", 0), ("--beside", [ALLOWING], "same\n", 0),
    ("--beside --splits 5", [a_filter(ZERO), OTHER], "undecided at ..\n", 4),
    ("--beside --splits 5", [ALLOWING, beside(ZERO)], "undecided at ..\n", 4),
    ("--beside --splits 0", [FROM_FIVE, ABOVE_FOUR], "undecided at ..\n", 4),
    ("--beside", [FROM_FIVE, ABOVE_FOUR], "same\n", 0),
    ("--beside --limit 1", [WITHOUT_WRITE, OTHER], "unfinished\n", 4),
    ("--beside --calls", [WITHOUT_WRITE, NAMES_OF_1, OTHER],
     "differs\n1 a,b differs args .. filter ERRNO 1 beside ALLOW 0\n", 1),
    ("--beside --calls", [ALLOWING, OTHER], "fault bundle Parts\n", 3),
    ("--beside", [NO_TABLE], "fault bundle Header offset 0\n", 3),
    ("", [OTHER], "fault bundle Header offset 0\n", 3),
    ("--beside", [beside("ld #0"), UNLOADED], "fault filter LastNotReturn\n", 1),
    ("--beside", [beside("ld #0"), ALLOWING], "fault beside LastNotReturn\n", 1),
    ("--beside --calls", [OTHER, a_table("read")], "fault table Form line 1\n", 1),
)


def beside_profile(text):
    return "beside-profile", text


def of_both(name, *denied):
    """A profile of two architectures, with a name that is skipped, and these are denied."""
    return json.dumps({"defaultAction": "SCMP_ACT_ALLOW", "architectures": ["SCMP_ARCH_X86_64", "SCMP_ARCH_X86"],
                       "syscalls": [{"names": [name, *denied], "action": "SCMP_ACT_ERRNO"}]})


# Profiles beside profiles.
ONLY_READ, READ_ALONE = a_profile(ONE_CALL), a_table(READ_TABLE)
BOTH = [a_profile(of_both("gone")), beside_profile(of_both("lost", "write")), READ_ALONE, ("table-x86", "write 4\n")]
MORE_BESIDE = [ONLY_READ, beside_profile(DEFAULT_ALLOW), READ_ALONE]
PROFILES_BESIDE = (
    ("", [beside_profile(ONE_CALL), READ_ALONE, ONLY_READ], "same\n", 0),
    ("", MORE_BESIDE, "differs\ncall nr ..\nprofile ERRNO 1\nbeside ALLOW 0\n", 1),
    ("--no-more --native", MORE_BESIDE, "no more\n", 0),
    ("--no-less", MORE_BESIDE, "less\ncall nr ..\nprofile ERRNO 1\nbeside ALLOW 0\n", 1),
    ("--calls", [ALL, beside_profile(ONE_CALL), a_table("write 1\nread 0\n")],
     "differs\n1 write differs args .. profile ALLOW 0 beside ERRNO 1\n", 1),
    ("--architectures", BOTH, "differs\ncall nr 4 arch 0x40000003 ..\nprofile ALLOW 0\nbeside ERRNO 1\nskipped gone\n"
     "beside-skipped lost\n", 1),
    ("--architectures --nr-to 3", BOTH, "same\nskipped gone\nbeside-skipped lost\n", 0),
    ("", [beside_profile("["), a_profile("["), READ_ALONE], "fault profile Json\n", 1),
    ("", [beside_profile("["), ALL, READ_ALONE], "fault beside Json\n", 1),
    ("", [ALLOWING, ALL, beside_profile(ONE_CALL), READ_ALONE], "fault bundle Parts\n", 3),
)
# Allows each call of i386 but number 4, which gets an errno if its first argument is 8, and each of x86-64 and x32 but
# those with 0x40000001 and 0x40000083, which get another one.
SOME = a_filter("""ld [4]; jeq #0x40000003, i386, 0; ld [0]; jeq #0x40000001, denied, 0
    jeq #0x40000083, denied, allowed
    i386: ld [0]; jeq #4, 0, allowed; ld [16]; jeq #8, refused, allowed
    denied: ret #0x50001; refused: ret #0x50002; allowed: ret #0x7fff0000""")
# Allows each call of three architectures, and names one that no table has.
OF_THREE = a_profile('''{"defaultAction":"SCMP_ACT_ALLOW",
    "architectures":["SCMP_ARCH_X86_64","SCMP_ARCH_X86","SCMP_ARCH_X32","SCMP_ARCH_ARM"],
    "syscalls":[{"names":["gone"],"action":"SCMP_ACT_ERRNO"}]}''')
X86_TABLE, X32_TABLE = ("table-x86", "read 3\nwrite 4\nput 4\n"), ("table-x32", "read 0\nwrite 1\n")
THREE, OF_X86_64, OF_X86, OF_X32 = ([SOME, OF_THREE, *tables] for tables in (
    [a_table(READ_WRITE_TABLE), X86_TABLE, X32_TABLE], [a_table(READ_WRITE_TABLE)], [X86_TABLE], [X32_TABLE]))
ARM = "skipped gone\nother SCMP_ARCH_ARM\n"
LACKS_X32 = "skipped gone\nother SCMP_ARCH_X86_64\nother SCMP_ARCH_X86\nother SCMP_ARCH_ARM\n"
LACKS_X86_64 = "skipped gone\nother SCMP_ARCH_X86\nother SCMP_ARCH_X32\nother SCMP_ARCH_ARM\n"
# With --architectures. Call by call the line of a call has the table's number, without x32's bit, and all its names.
ARCHITECTURES = (
    ("--calls", OF_X86, "differs\n4 put,write differs args 0x8 .. filter ERRNO 2 profile ALLOW 0\nskipped gone\n"
     "other SCMP_ARCH_X86_64\nother SCMP_ARCH_X32\nother SCMP_ARCH_ARM\n", 1),
    ("--calls", OF_X32, f"differs\n1 write differs args .. filter ERRNO 1 profile ALLOW 0\n{LACKS_X32}", 1),
    ("--calls", OF_X86_64, f"same\n{LACKS_X86_64}", 0),
    ("--calls --no-more", OF_X32, f"no more\n{LACKS_X32}", 0),
    ("--calls --total-limit 0", OF_X32, f"unfinished\n0 read unfinished\n1 write unfinished\n{LACKS_X32}", 4),
    # Call by call there is one table.
    ("--calls", THREE, "fault bundle Parts\n", 3),
    ("--calls", [SOME, OF_THREE], "fault bundle Parts\n", 3),
    ("--calls", [SOME, OF_THREE, ("table-x86", "read")], "fault table Form line 1\n", 1),
    ("--calls", [SOME, OF_THREE, ("table-x32", " \t\n# none\n")], "fault command Calls\n", 2),
    # A range of numbers, as records have them; no table's architecture may have one, since x32's have bit 30.
    ("--nr-to 0x3fffffff", OF_X32, "fault command Range\n", 2),
    ("--nr-from 0x40000000", OF_X86_64, "fault command Range\n", 2),
    ("--nr-to 0x40000000", OF_X32, f"same\n{LACKS_X32}", 0),
    ("--nr-from 0x3fffffff", OF_X86_64, f"same\n{LACKS_X86_64}", 0),
    ("--nr-to 3", THREE, f"same\n{ARM}", 0),
    ("--nr-from 4 --nr-to 0x40000000", THREE,
     f"differs\ncall nr 4 arch 0x40000003 ip ..\nfilter ERRNO 2\nprofile ALLOW 0\n{ARM}", 1),
    ("--nr-from 0x40000082 --nr-to 0x40000083", THREE,
     f"differs\ncall nr 1073741955 arch 0xc000003e ip ..\nfilter ERRNO 1\nprofile ALLOW 0\n{ARM}", 1),
    ("--nr-from 0x40000084", THREE, f"same\n{ARM}", 0),
    ("--nr-from 5 --nr-to 4", THREE, "fault command Range\n", 2),
)
# Flags exclude each other, and so do two of which one says over which calls. A number comes first, the limits in the
# order of their names. No call has a number in the last two ranges.
EXCLUDED = {
    "fault command Flags\n": (
        "--no-more --no-less", "--no-less --native --no-more --limit 7", "--no-more --calls --native",
        "--disposition --no-more", "--beside --calls --nr-from 1", "--calls --native", "--native --calls",
        "--native --limit 5 --calls", "--architectures --native", "--architectures --native --nr-to 3",
        "--architectures --beside", "--architectures --beside --calls", "--architectures --calls --nr-from 1",
        "--architectures --calls --native"),
    "fault command Range\n": ("--native --nr-from 0x40000000", "--beside --nr-from 1 --nr-to 0"),
    "fault number limit\n": ("--no-more --no-less --limit x", "--limit -", "--native --limit x", "--calls --limit=",
                             "--calls --native --limit x", "--total-limit x --limit y"),
    "fault number total-limit\n": ("--calls --total-limit=-0", "--total-limit 18446744073709551616",
                                   "--splits= --total-limit y", "--calls --native --total-limit="),
    "fault number splits\n": ("--splits 18446744073709551616", "--splits 2^64-1 --nr-from x"),
    "fault number nr-to\n": ("--nr-to 0x100000000",),
}


class Printed(Judged):
    def test_each(self):
        self.print_each(PRINTED + PROFILES_BESIDE, "compare")
        # call by call the same is refused
        self.print_each([row for row in PRINTED if row[0] == "" and row[3] in (1, 3)], "compare", "--calls")
        self.print_each(ARCHITECTURES, "compare", "--architectures")
        self.print_each([("", [CLONE], "fault bundle Parts\n", 3),
                         ("", [ALL, beside_profile(ONE_CALL), NO_TABLE], "fault bundle Parts\n", 3)], "compile")

    def test_excluded_flags(self):
        for words, text in each_of(EXCLUDED):
            self.refuses(["compare", *words.split()], text)

    def test_refused_filters(self):
        """The oldest filter that is refused is named, at each place of three, before a profile and a table that are
        refused too; and one that makes the stack too long."""
        refused = [(b"", "fault filter Empty\n", 1), (assembled("ld #0"), "fault filter LastNotReturn\n", 1),
                   (assembled("ld #0; ret a")[:9], "fault filter Truncated offset 8\n", 3),
                   (assembled("raw 0x94, 0, 0, 5"), "fault filter Code at 0\n", 1)]
        rows = [([ret(ALLOW)] * place, *row, 2 - place) for row in refused for place in range(3)]
        longest = long_filter(4095)
        rows += [([longest] * 7, long_filter(loads), text, status, 1) for loads, text, status in (
            (4067, "fault filter Truncated offset 0\n", 3), (4068, "fault stack TooMany total 32769\n", 1),
            (4095, "fault stack TooMany total 32796\n", 1), (4096, "fault filter TooLong\n", 3))]
        for older, data, text, status, newer in rows:
            filters = b"".join(part("filter", item) for item in (*older, data, *[b"cut"] * newer))
            self.prints(["compare"], filters + bundle([NO_PROFILE, NO_NAME]), text, status)

    def test_a_full_stack(self):
        """Seven filters of 4096 instructions fit in a stack and on either side, and an eighth doesn't: each counts four
        more than it has."""
        actual, other = (part(kind, long_filter(4095)) for kind in ("filter", "beside"))
        self.prints(["decide"], actual * 7, "ALLOW 0\n")
        for words, given, source in ((["decide"], actual * 8, "stack"),
                                     (["compare", "--beside"], other * 7 + actual * 8, "stack"),
                                     (["compare", "--beside"], actual * 7 + other * 8, "beside")):
            self.prints(words, given, f"fault {source} TooMany total 32796\n", 1)


NUMBERS, ABIS = (0, 1, 2, 41, 42, 43, X32 - 1, X32, 0xFFFFFFFF), (X86_64, 0x40000003, 0)
ARGUMENTS = (0, 1, 2, 3, 6, 40, 41, 42, 1 << 32, (1 << 32) + 41, LONG)
CORNERS = [record_of(number, architecture, 0, (first, second, 0, 0, 0, 0)) for architecture, number, first, second
           in itertools.product(ABIS, NUMBERS, ARGUMENTS, (0, 41))]


def drawn(dice):
    """A filter of loads, tests and computations, which ends in returns."""
    made, count = [], dice.randrange(1, 9)
    while len(made) < count:
        near = [dice.randrange(3), dice.randrange(3)]
        value = dice.choice((0, 1, 2, 41, 42, X86_64, X32))
        made.append(dice.choice((
            load(dice.choice((0, 0, 4, 16, 20, 24))), jeq(value, *near), jge(value, *near), insn(0x25, value, *near),
            insn(0x45, dice.choice((1, 2, 6)), *near), insn(0x54, dice.choice((2, 6, 0xFF))),
            # what only splits decide: products of the accumulator with itself, and sums of it with an argument
            dice.choice((insn(0x54, 0xFF), insn(0x07, 0) + insn(0x2C, 0))), insn(0x07, 0) + load(24) + insn(0x0C, 0))))
    ends = [dice.choice((ALLOW, ALLOW, EPERM, EPERM, ENOSYS, LOG, TRACE, KILL_PROCESS)) for _ in range(4)]
    return b"".join(made) + b"".join(map(ret, ends))


def mutated(dice, data):
    """A filter with one instruction's operand or branches changed, if that is accepted."""
    at = dice.randrange(len(data) // 8) * 8
    code, k = int.from_bytes(data[at:at + 2], "little"), int.from_bytes(data[at + 4:at + 8], "little")
    new = {6: dice.choice((ALLOW, EPERM, ENOSYS, LOG)), 0x20: k}.get(code, dice.choice((k, k ^ 1, 41, 42)))
    first, second = data[at + 2], data[at + 3]
    return data[:at] + insn(code, new, *dice.choice(((first, second), (second, first)))) + data[at + 8:]


class Drawn(Judged):
    """A thousand pairs of stacks, each over a set of records and by a relation."""

    COUNT = 1000

    def test_each(self):
        dice, verdicts = random.Random(54), []
        while len(verdicts) < self.COUNT:
            actual = [drawn(dice) for _ in range(dice.choice((0, 1, 1, 2)))]
            right = [mutated(dice, data) for data in actual] if dice.randrange(2) else [drawn(dice)]
            if not actual + right or any(MACHINE.fault(unpacked(data)) for data in actual + right):
                continue
            pair = Pair(Stack(actual), Stack(right, "beside"), CORNERS)
            how = dice.choice([scope for scope in SCOPES if scope != "--calls"]), dice.choice(list(RELATIONS))
            without, status = (self.judge(pair, *how, "--beside", *words).split(" at ")[0]
                               for words in (["--splits", "0"], []))
            # no verdict changes, but that an undecided pair may be decided
            self.assertIn(without, ("undecided", status))
            verdicts.append((without, status))
        without, by_splits = zip(*verdicts)
        for word in ("same", "differs", "no more", "more", "no less", "less", "same disposition", "undecided"):
            self.assertGreater(without.count(word), 5, word)
        # those of the default decide most of these
        self.assertLess(2 * by_splits.count("undecided"), without.count("undecided"))
