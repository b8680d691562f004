"""Tests of the module scf: each call, and what it raises. The answers are those of linux/seccomp.h and of the OCI
specification. Run by `python3 -m unittest` in this folder; LIBSCF may name the library."""
import copy
import enum
import mmap
import pickle
import subprocess
import sys
import threading
import typing
import unittest

import scf

ALLOW, DENY = bytes((6, 0, 0, 0, 0, 0, 0xFF, 0x7F)), bytes((6, 0, 0, 0, 1, 0, 5, 0))
RET_ALLOW, RET_EPERM, RET_KILL_PROCESS = 0x7FFF0000, 0x00050001, 0x80000000
PROFILE = scf.Profile(b'{"defaultAction": "SCMP_ACT_ERRNO", "syscalls": [{"names": ["read", "absent"], "action": '
                      b'"SCMP_ACT_ALLOW"}]}')
NATIVE = scf.Table(scf.Architecture.X86_64, b"read 0\nwrite 1\n")
NAMES, NOTHING, ABSENT = [NATIVE], scf.LeftOut(0, 0), scf.LeftOut(0, 1)
READ, WRITE = scf.Call(0), scf.Call(1)
# Word 4 with its lowest bit set, XOR the word, has no other bit, so this denies; but no comparison splits that far.
UNKNOWN = (bytes((0x20, 0, 0, 0, 16, 0, 0, 0, 7, 0, 0, 0, 0, 0, 0, 0, 0x44, 0, 0, 0, 1, 0, 0, 0,
                  0xAC, 0, 0, 0, 0, 0, 0, 0, 0x74, 0, 0, 0, 1, 0, 0, 0, 0x15, 0, 0, 1, 0, 0, 0, 0)) + DENY + ALLOW)
I386 = scf.Architecture.X86.audit
BOTH = scf.Profile(b'{"defaultAction": "SCMP_ACT_ERRNO", "architectures": ["SCMP_ARCH_X86_64", "SCMP_ARCH_X86"], '
                   b'"syscalls": [{"names": ["read"], "action": "SCMP_ACT_ALLOW"}]}')
TABLES = [scf.Table(scf.Architecture.X86_64, b"read 0\n"), scf.Table(scf.Architecture.X86, b"read 3\n")]


def numbers(first, last):
    return scf.Scope.numbers(first, last)


class Calls(unittest.TestCase):
    def refused(self, source, kind, numbers, call, *given):
        with self.assertRaises(scf.Refused) as raised:
            call(*given)
        it = raised.exception
        self.assertEqual((it.source, it.kind, it.numbers), (source, kind, numbers))
        return str(it)

    def test_filters(self):
        self.assertEqual(scf.version(), (0, 1, 0))
        self.assertEqual(scf.check(ALLOW), 1)
        self.assertEqual(self.refused(scf.Source.FILTER, scf.Kind.TRUNCATED, (8, 0, 0), scf.check, ALLOW + b"\6"),
                         "fault filter Truncated offset 8\nThe input ends inside the instruction that begins at this "
                         "byte: an instruction has 8 bytes.")
        self.assertEqual(scf.run(ALLOW, READ), (RET_ALLOW, 1))
        self.assertEqual(scf.trace(DENY, READ), (RET_EPERM, [0]))
        answer = scf.run(DENY, READ).answer
        self.assertEqual((answer.action, answer.data, str(answer)), (scf.Action.ERRNO, 1, "ERRNO 1"))
        self.assertEqual(str(scf.Answer(0x7FFE0001)), "UNNAMED 0x7ffe0001")
        self.assertEqual(scf.decide([DENY, ALLOW], READ), (RET_EPERM, 0, 0))
        self.assertEqual(scf.decide([ALLOW, DENY], READ), (RET_EPERM, 1, 0))
        self.assertEqual(scf.decide([], READ), (RET_ALLOW, None, None))

    def test_enums_are_as_pythons(self):
        for kind in (scf.Relation, scf.Verdict, scf.Reason, scf.Reading, scf.Architecture, scf.Action, scf.Source,
                     scf.Kind):
            own = enum.IntEnum(kind.__name__, {member.name: member.value for member in kind})
            self.assertEqual(list(map(repr, kind)), list(map(repr, own)))
            self.assertEqual((len(kind), list(kind.__members__)), (len(own), list(own.__members__)))
            for member in kind:
                self.assertIs(type(member.value), int)
                self.assertEqual((str(member), f"{member}"), (str(member.value),) * 2)
                number = member.value
                self.assertEqual((member, hash(member), member + 1), (number, hash(number), number + 1))
                for same in (kind(member), kind(member.value), kind[member.name], getattr(kind, member.name),
                             copy.deepcopy(member), pickle.loads(pickle.dumps(member))):
                    self.assertIs(same, member)
            self.assertTrue(1 in kind or kind is scf.Action)
            self.assertNotIn(99, kind)
            with self.assertRaisesRegex(ValueError, f"^99 is not a valid {kind.__name__}$"):
                kind(99)
            with self.assertRaises(KeyError):
                kind["OTHER"]

    def test_named_tuples_are_as_pythons(self):
        own = typing.NamedTuple("Scope", [("kind", int), ("architecture", int), ("first", int), ("last", int)])
        made = scf.Scope(3, last=7)
        self.assertEqual((made, repr(made)), (own(3, 0, 0, 7), repr(own(3, 0, 0, 7))))
        self.assertEqual((made.kind, made.last, made._fields, made.__match_args__), (3, 7, own._fields, own._fields))
        self.assertEqual((made._asdict(), made._replace(kind=1), scf.Scope._make([1, 2, 3, 4])),
                         ({"kind": 3, "architecture": 0, "first": 0, "last": 7}, (1, 0, 0, 7), (1, 2, 3, 4)))
        for same in (copy.deepcopy(made), pickle.loads(pickle.dumps(made))):
            self.assertEqual((same, type(same)), (made, scf.Scope))
        for given, named in (((), {}), ((1, 2, 3, 4, 5), {}), ((1,), {"kind": 1}), ((1,), {"other": 1})):
            with self.assertRaises(TypeError):
                scf.Scope(*given, **named)
        with self.assertRaises(AttributeError):
            made.kind = 4
        self.assertEqual((READ._replace(ip=5), repr(READ)), (
            scf.Call(0, ip=5), f"Call(nr=0, args=(0, 0, 0, 0, 0, 0), arch={0xC000003E}, ip=0)"))

    def test_each_public_name(self):
        names = {}
        exec("from scf import *", names)  # pylint: disable=exec-used
        self.assertLessEqual({*scf.__all__}, {*names})
        self.assertEqual((typing.get_args(scf.Buffer)[:3], scf.Side), ((bytes, bytearray, memoryview),
                                                                       typing.Union[scf.Profile, scf.Filters]))
        with self.assertRaises(AttributeError):
            scf.other  # pylint: disable=pointless-statement

    def test_calls_in_words(self):
        for call, text in ((scf.Call(41, (2, 1)), "socket(0x2, 0x1, 0x0, 0x0, 0x0, 0x0) of x86-64"),
                           (scf.Call(3, arch=I386), "read(0x0, 0x0, 0x0, 0x0, 0x0, 0x0) of i386"),
                           (scf.Call(1 << 30), "read(0x0, 0x0, 0x0, 0x0, 0x0, 0x0) of x32"),
                           (scf.Call(9999), "syscall 9999(0x0, 0x0, 0x0, 0x0, 0x0, 0x0) of x86-64"),
                           (scf.Call(1, arch=7), "syscall 1(0x0, 0x0, 0x0, 0x0, 0x0, 0x0) of arch 0x7")):
            self.assertEqual(str(call), text)

    def test_texts(self):
        self.assertEqual(scf.assemble(b"ret #0x7fff0000\n"), ALLOW)
        self.refused(scf.Source.TEXT, scf.Kind.MNEMONIC, (2, 0, 0), scf.assemble, b"\nrat\n")
        self.assertEqual(scf.listing(ALLOW), "ret #0x7fff0000\n")
        # longer than the room that is tried first
        self.assertEqual(scf.assemble(scf.listing(DENY * 4096).encode()), DENY * 4096)

    def test_profiles(self):
        self.assertEqual(scf.ask(PROFILE, NAMES, READ), (RET_ALLOW, scf.Reason.ENTRY, 0, ABSENT))
        self.assertEqual(scf.ask(PROFILE, NAMES, WRITE), (RET_EPERM, scf.Reason.DEFAULT, None, ABSENT))
        self.assertEqual(scf.ask(PROFILE, NAMES, scf.Call(0, arch=0)),
                         (RET_KILL_PROCESS, scf.Reason.FOREIGN, None, ABSENT))
        text = self.refused(scf.Source.PROFILE, scf.Kind.MISSING, (scf.NO_ENTRY, 0, 0), scf.compile,
                            scf.Profile(b"{}"), NAMES)
        self.assertEqual(text.split("\n")[0], "fault profile Missing")
        compared = scf.compare(scf.Filters([scf.compile(PROFILE, NAMES)]), PROFILE, NAMES)
        self.assertEqual((compared.finding.verdict, compared.finding.call, compared.report),
                         (scf.Verdict.HOLDS, None, "same\nskipped absent\n"))
        self.assertEqual((compared.left, compared.right, len(compared.each)), (NOTHING, ABSENT, 1))

    def test_readings(self):
        """A runtime leaves out the entry whose answer is the default's; the stub answers from 1 on."""
        text = (b'{"defaultAction": "SCMP_ACT_ERRNO", "syscalls": [{"names": ["write"], "action": "SCMP_ACT_ALLOW"}, '
                b'{"names": ["write"], "action": "SCMP_ACT_ERRNO"}]}')
        self.refused(scf.Source.PROFILE, scf.Kind.CONFLICT, (1, 0, 1), scf.ask, scf.Profile(text), NAMES, WRITE)
        for reading in (scf.Reading.RUNC, scf.Reading.CRUN):
            profile = scf.Profile(text, reading)
            self.assertEqual(scf.ask(profile, NAMES, WRITE), (RET_ALLOW, scf.Reason.ENTRY, 0, NOTHING))
            self.assertEqual(scf.ask(profile, [NATIVE._replace(stub=1)], WRITE),
                             (0x00050026, scf.Reason.STUB, None, NOTHING))
        trap = scf.Profile(b'{"defaultAction": "SCMP_ACT_TRAP", "defaultErrnoRet": 3}', scf.Reading.SANDBOX)
        self.assertEqual(scf.ask(trap, NAMES, WRITE), (0x00030003, scf.Reason.DEFAULT, None, NOTHING))

    def test_comparisons(self):
        allow = scf.Filters([ALLOW])
        for scope, relation, limit, verdict in ((numbers(0, 0), scf.Relation.SAME, scf.LIMIT, "HOLDS"),
                                                (scf.EACH_ARCHITECTURE, scf.Relation.NO_LESS, scf.LIMIT, "HOLDS"),
                                                (scf.EACH_ARCHITECTURE, scf.Relation.NO_MORE, scf.LIMIT, "FAILS"),
                                                (scf.ALL, scf.Relation.SAME, 0, "UNFINISHED")):
            compared = scf.compare(allow, PROFILE, NAMES, scope, relation, limit)
            self.assertEqual(compared.finding.verdict.name, verdict)
        finding = scf.compare(allow, PROFILE, NAMES, numbers(1, 1)).finding
        self.assertEqual((finding.call.nr, finding.left, finding.right), (1, RET_ALLOW, RET_EPERM))
        finding = scf.compare(PROFILE, allow, NAMES, numbers(1, 1)).finding
        self.assertEqual((finding.call.nr, finding.left, finding.right), (1, RET_EPERM, RET_ALLOW))
        finding = scf.compare(scf.Filters([UNKNOWN]), PROFILE, NAMES, numbers(1, 1)).finding
        self.assertEqual((finding.verdict, finding.side, finding.at, finding.call), (scf.Verdict.UNDECIDED, 1, 7, None))
        compared = scf.compare(scf.Filters([DENY]), scf.Filters([ALLOW, DENY]), relation=scf.Relation.SAME_DISPOSITION)
        self.assertEqual(compared.finding.verdict, scf.Verdict.HOLDS)
        self.refused(scf.Source.BESIDE, scf.Kind.TRUNCATED, (0, 0, 0), scf.compare, scf.Filters([]),
                     scf.Filters([b"\6"]))

    def test_call_by_call(self):
        compared = scf.compare(scf.Filters([ALLOW]), PROFILE, NAMES, scf.EACH_CALL)
        self.assertEqual([(each.architecture, each.nr, each.finding.verdict) for each in compared.each],
                         [(1, 0, scf.Verdict.HOLDS), (1, 1, scf.Verdict.FAILS)])
        self.assertEqual((compared.finding.verdict, compared.finding.call.nr), (scf.Verdict.FAILS, 1))
        for tables in ([NATIVE._replace(text=b"")], []):
            with self.assertRaises(ValueError):
                scf.compare(scf.Filters([ALLOW]), scf.Filters([ALLOW]), tables, scf.EACH_CALL)
        # more calls than the room that is tried first
        named = NATIVE._replace(text=b"".join(b"call_%d %d\n" % (nr, nr) for nr in range(700)))
        compared = scf.compare(scf.Filters([DENY]), scf.Filters([ALLOW]), [named], scf.EACH_CALL)
        self.assertEqual([each.nr for each in compared.each], list(range(700)))

    def test_answers(self):
        listing = scf.answers(PROFILE, NAMES, numbers(0, 1))
        self.assertEqual((len(listing.regions), listing.left_out), (2, ABSENT))
        for region in listing.regions:
            asked = scf.ask(PROFILE, NAMES, region.example)
            self.assertEqual((region.answer, region.place), (asked.answer, (asked.reason, asked.entry or 0)))
            self.assertTrue(region.is_exact and region.facts)
        region, = scf.answers(scf.Filters([ALLOW])).regions
        self.assertEqual((region.answer, region.place, region.facts), (RET_ALLOW, (0, 0), []))
        self.assertIsNone(scf.answers(PROFILE, NAMES, total_limit=0).regions)

    def test_architectures(self):
        for call, answer in ((READ, (RET_ALLOW, scf.Reason.ENTRY, 0)),
                             (scf.Call(3, arch=I386), (RET_ALLOW, scf.Reason.ENTRY, 0)),
                             (scf.Call(0, arch=I386), (RET_EPERM, scf.Reason.DEFAULT, None)),
                             (scf.Call(1 << 30), (RET_KILL_PROCESS, scf.Reason.FOREIGN, None))):
            self.assertEqual(scf.ask(BOTH, TABLES, call), (*answer, NOTHING))
        compared = scf.compare(scf.Filters([scf.compile(BOTH, TABLES)]), BOTH, TABLES, scf.EACH_ARCHITECTURE)
        self.assertEqual((compared.finding.verdict, compared.report), (scf.Verdict.HOLDS, "same\n"))
        compiled = scf.Filters([scf.compile(BOTH, TABLES[:1])])
        compared = scf.compare(compiled, BOTH, TABLES, scf.EACH_ARCHITECTURE, scf.Relation.NO_LESS)
        self.assertEqual((compared.finding.verdict, compared.finding.call.arch, compared.finding.right),
                         (scf.Verdict.FAILS, I386, RET_ALLOW))
        self.assertEqual(scf.compare(compiled, BOTH, TABLES[:1]).right, scf.LeftOut(1, 0))
        arm = scf.Table(scf.Architecture.ARM, b"")
        self.refused(scf.Source.PROFILE, scf.Kind.NOT_LISTED, (1, 0, 0), scf.compile, BOTH, [TABLES[0], arm])
        own = scf.ask(BOTH._replace(skip_unlisted=True), scf.own_tables(), READ)
        self.assertEqual(own, (RET_ALLOW, scf.Reason.ENTRY, 0, NOTHING))

    def test_proofs(self):
        """i386, which isn't listed, is open; an architecture that is listed has no table."""
        native = scf.compile(BOTH, TABLES[:1])
        open_i386 = scf.assemble(b"ld [4]\njeq #0x40000003, 0, 1\nret #0x7fff0000\n") + scf.compile(PROFILE, NAMES)
        for filter, profile, tables, is_proved in (
                (scf.compile(PROFILE, NAMES), PROFILE, NAMES, True), (scf.compile(BOTH, TABLES), BOTH, TABLES, True),
                (open_i386, PROFILE, NAMES, False), (native, BOTH, TABLES, False), (native, BOTH, TABLES[:1], False)):
            self.assertIs(scf.is_proved(scf.Filters([filter]), profile, tables), is_proved)
            compared = scf.compare(scf.Filters([filter]), profile, tables, scf.EACH_ARCHITECTURE)
            self.assertEqual(compared.finding.verdict == scf.Verdict.HOLDS, tables != TABLES or is_proved)

    def test_numbers_that_have_no_meaning(self):
        for wrong in (lambda: scf.compile(BOTH, []), lambda: scf.compile(BOTH, [TABLES[0], TABLES[0]]),
                      lambda: scf.Call(1 << 32), lambda: scf.Call(0, (1 << 64,)), lambda: scf.Call(-1),
                      lambda: scf.Call(0, (0,) * 7), lambda: scf.compare(PROFILE, PROFILE, NAMES, scf.Scope(9)),
                      lambda: scf.compare(PROFILE, PROFILE, NAMES, numbers(1, 0)),
                      lambda: scf.compare(PROFILE, PROFILE, NAMES, limit=1 << 64),
                      lambda: scf.compile(PROFILE, [NATIVE._replace(stub=1 << 32)]),
                      lambda: scf.compare(PROFILE, PROFILE, NAMES, numbers(0, 1 << 32))):
            with self.assertRaises(ValueError) as raised:
                wrong()
            self.assertNotIsInstance(raised.exception, scf.Refused)

    def test_wrong_types_are_named(self):
        none = scf.Filters([])
        for name, wrong in (
                ("filter", lambda: scf.check("text")), ("filter", lambda: scf.run(None, READ)),
                ("call", lambda: scf.run(ALLOW, None)), ("call", lambda: scf.decide([], 0)),
                ("filters", lambda: scf.decide(None, READ)), ("filters[1]", lambda: scf.decide([ALLOW, 6], READ)),
                ("left.filters[0]", lambda: scf.compare(scf.Filters(ALLOW), none)),
                ("text", lambda: scf.assemble("ret #0")), ("nr", lambda: scf.Call("0")),
                ("args", lambda: scf.Call(0, 2)), ("args[0]", lambda: scf.Call(0, (b"",))),
                ("profile", lambda: scf.compile(b"{}", NAMES)),
                ("profile.text", lambda: scf.compile(scf.Profile("{}"), NAMES)),
                ("profile.reading", lambda: scf.compile(scf.Profile(b"{}", "runc"), NAMES)),
                ("tables", lambda: scf.compile(PROFILE, NATIVE.text.decode)),
                ("tables[0]", lambda: scf.compile(PROFILE, [b""])),
                ("tables[0].architecture", lambda: scf.compile(PROFILE, [scf.Table(6, b"")])),
                ("tables[0].text", lambda: scf.ask(PROFILE, [scf.Table(scf.Architecture.ARM, None)], READ)),
                ("right", lambda: scf.compare(none, b"{}")),
                ("right.filters", lambda: scf.compare(none, scf.Filters(1))),
                ("scope", lambda: scf.compare(none, none, (), 1)),
                ("relation", lambda: scf.compare(none, none, relation=1 << 32)),
                ("limit", lambda: scf.compare(none, none, limit=1.5)), ("side", lambda: scf.answers(ALLOW)),
                ("architecture", lambda: scf.table("x86_64"))):
            with self.assertRaises(TypeError) as raised:
                wrong()
            self.assertTrue(str(raised.exception).startswith(f"{name} must be "), raised.exception)

    def test_any_buffer_is_taken(self):
        with mmap.mmap(-1, mmap.PAGESIZE) as area:
            area[:] = ALLOW * (mmap.PAGESIZE // 8)
            for buffer, count in ((bytearray(ALLOW), 1), (memoryview(ALLOW), 1), (memoryview(ALLOW * 2)[8:], 1),
                                  (area, mmap.PAGESIZE // 8)):
                self.assertEqual(scf.check(buffer), count)
                self.assertEqual(scf.decide([DENY, buffer], READ).answer, RET_EPERM)
        compiled = scf.compile(scf.Profile(bytearray(PROFILE.text)), [NATIVE._replace(text=memoryview(NATIVE.text))])
        self.assertEqual(compiled, scf.compile(PROFILE, NAMES))
        self.assertEqual(scf.check(ALLOW + bytes(0)), 1)

    def test_numbers_of_a_later_library(self):
        """They stay numbers."""
        self.assertEqual(scf._finding(scf._Finding(verdict=9)).verdict, 9)
        refused = scf.Refused(9, 99, (1, 2, 3))
        self.assertEqual((refused.source, refused.kind, refused.numbers, str(refused)), (9, 99, (1, 2, 3), ""))

    def test_tables(self):
        for architecture, about, line in ((scf.Architecture.X86_64, b"x86-64", b"read 0"),
                                          (scf.Architecture.ARM, b"arm/asm/unistd-eabi.h", b"read 3"),
                                          (scf.Architecture.MIPSEL, b"mips/asm/unistd_o32.h", b"read 4003")):
            first, *lines = scf.table(architecture).split(b"\n")
            self.assertIn(about, first)
            self.assertIn(line, lines)

    def run_python(self, text):
        return subprocess.run([sys.executable, "-B", "-c", text], stdout=subprocess.PIPE, check=False).stdout

    def test_a_loaded_filter(self):
        """In a process of its own: 110 is getppid, and the answer ERRNO 1."""
        text = ("import os, scf\n"
                "scf.load(scf.assemble(b'ld [0]\\njeq #110, 0, 1\\nret #0x50001\\nret #0x7fff0000\\n'))\n"
                "print(os.getppid(), open('/proc/self/status').read().split('NoNewPrivs:')[1].split()[0])\n"
                "try: scf.load(b'12345678')\n"
                "except OSError as error: print(error.errno)\n")
        self.assertEqual(self.run_python(text), b"-1 1\n22\n")

    def test_it_is_imported_without_what_takes_long(self):
        """dataclasses takes longer than all else: it imports inspect, which imports ast, dis and tokenize."""
        self.assertEqual(self.run_python("import sys; old = {*sys.modules}; import scf\n"
                                         "print({'dataclasses', 'inspect', 'ast'} & ({*sys.modules} - old))"),
                         b"set()\n")

    def test_threads(self):
        compiled = scf.Filters([scf.compile(PROFILE, NAMES)])
        verdicts = []

        def compare():
            verdicts.append(scf.compare(compiled, PROFILE, NAMES).finding.verdict)

        threads = [threading.Thread(target=compare) for _ in range(16)]
        for step in (threading.Thread.start, threading.Thread.join):
            for thread in threads:
                step(thread)
        self.assertEqual(verdicts, [scf.Verdict.HOLDS] * 16)


if __name__ == "__main__":
    unittest.main()
