"""All architectures of a profile: `scf compare --architectures` and `scf ask --architectures` beside a second reading,
and what the tools say of each."""
import collections
import json
import os
import random
import unittest

from support import judged, several
from support.common import TOP, Case, completed, insn, jeq, jge, load, ret
from support.oci import condition
from support.on_parts import ran
from support.seccomp_library import NEEDED, Conflict, Library
from support.stand_in import StandIn, unpacked
from scftools.model import bundles, tables
from scftools.model.architectures import JUDGED
from scftools.model.calls import Call
from scftools.ask import client
from scftools.forms import runtimes
from scftools.forms.filters import Filter
from scfhost import verify

# How many profiles are drawn, and how many records are tried of a syscall that has conditions.
PROFILES, RECORDS = int(os.environ.get("SCF_SEVERAL_PROFILES", "200")), 12
ALLOW = 0x7FFF0000
X86_64, I386, X32 = 0xC000003E, 0x40000003, 0x40000000
NAMED = ["SCMP_ARCH_X86_64", "SCMP_ARCH_X86", "SCMP_ARCH_X32"]
MACHINE = StandIn()


def numbers_of(line):
    """The architecture, the number and the arguments of a printed record."""
    words = line.split()
    return int(words[4], 16), int(words[2]), [int(word, 16) for word in words[8:]]


def answer_of(program, arch, number, arguments):
    return MACHINE.answer(program, judged.record_of(number, arch, 0, arguments))


# By scf's relation: its option, what scf prints where it holds and where it fails, and whether two answers have it.
RELATIONS = [(option, *row) for option, row in judged.RELATIONS.items()]
# The instructions of a filter that computes nothing. scf decides each question of one without masks.
PLAIN = {0x20, 0x05, 0x15, 0x25, 0x35, 0x06}
# Records of no architecture.
FOREIGN = [(0x80000016, 3, [0] * 6), (0, 0, [0] * 6)]


class Scf:
    """What scf says of a profile with its tables."""

    def __init__(self, reading):
        self.reading = reading
        self.parts = [("profile", several.text(reading.profile)), *several.tables_of(reading.given)]

    def printed(self, command, *words, parts=()):
        return ran([command, "--architectures", *words], bundles.bundle([*parts, *self.parts]))[0]

    def compile(self):
        return self.printed("compile")

    def ask(self, arch, number, arguments):
        return self.printed("ask", *Call(number, arch, 0, tuple(arguments)).words())

    def compare(self, data, relation=0):
        return self.printed("compare", *RELATIONS[relation][0].split(), parts=[("filter", data)])


class SecondReading(unittest.TestCase):
    """Drawn profiles and filters: scf's answers are those of the second reading, over the records that it tries. That
    libscf answers so, too, follows by repository/test_library."""

    def test_each(self):
        """A draw that is accepted is held to its answers and to comparisons, and one that is refused to its fault."""
        self.counts = collections.Counter()
        for seed in range(PROFILES):
            self.random_of = random.Random(f"several {seed}")
            reading = several.draw(self.random_of)
            scf, fault, self.about = Scf(reading), reading.fault(), (seed, reading.given, reading.profile)
            self.counts["accepted" if fault is None else fault.split()[0]] += 1
            if fault is None:
                data = scf.compile()
                self.hold_answers(scf, data)
                self.hold_comparisons(scf, data)
            else:
                for printed in (scf.compile(), scf.ask(*FOREIGN[0]), scf.compare(ret(ALLOW))):
                    self.assertEqual(printed, f"fault profile {fault}\n".encode(), self.about)
        self.assertGreater(self.counts["accepted"], PROFILES // 2)
        self.assertGreater(min(self.counts["Conflict"], self.counts["NotListed"]), PROFILES // 40)
        for name in several.ARCHITECTURES:
            alone = self.counts[name, True, "alone"] + self.counts[name, False, "alone"]
            self.assertGreater(alone, PROFILES // 100, name)
        for words in ("any", *(row[1] for row in RELATIONS)):
            self.assertGreater(min(self.counts[words, is_met] for is_met in (True, False)), PROFILES // 80, words)
        # what scf finds, the second reading mostly finds by itself
        self.assertGreater(self.counts["fails", True], 4 * self.counts["fails", False])

    def hold_answers(self, scf, data):
        """The answers of the profile, and of the filter that scf compiles; also to records of architectures without a
        table."""
        records = [record for name in scf.reading.rules
                   for record in scf.reading.records(name, self.random_of, RECORDS)]
        records += [*FOREIGN, *((arch, number, [0] * 6) for arch, first, last, *_ in several.ARCHITECTURES.values()
                                for number in (first, last))]
        self.assertFalse(data.startswith(b"fault"), (self.about, data))
        for record in records:
            self.assertEqual(answer_of(unpacked(data), *record), scf.reading.answer(*record)[0], (self.about, record))
        for record in self.random_of.sample(records, 6):
            answer, why = scf.reading.answer(*record)
            self.assertEqual(scf.ask(*record).decode(), f"{MACHINE.printed(answer)} {why}\n", (self.about, record))

    def hold_comparisons(self, scf, data):
        """scf's own filter is as the profile. Of two with an instruction changed, one may differ in one architecture
        alone, which alone runs the instruction."""
        reading, random_of = scf.reading, self.random_of
        owners = several.owners_of(unpacked(data), reading.rules)
        self.assertTrue(self.holds(scf, data, random_of.randrange(4), ()))
        wrong = several.change_filter(random_of, data, range(len(owners)))
        self.counts["any", self.holds(scf, wrong, 0, reading.rules)] += 1
        name = random_of.choice(reading.given)
        places = [at for at, names in enumerate(owners) if names == {name}]
        if places:
            wrong, relation = several.change_filter(random_of, data, places), random_of.choice((0, 0, 1, 2, 3))
            holds = self.holds(scf, wrong, relation, (name,))
            self.counts.update([(name, holds), (RELATIONS[relation][1], holds)])
            others = [given_name for given_name in reading.given if given_name != name]
            if others and reading.profile.get("architectures"):
                self.assertTrue(self.holds(Scf(several.Reading(reading.profile, others)), wrong, relation, ()))
                self.counts[name, holds, "alone"] += 1

    def holds(self, scf, data, relation, names):
        """Whether scf says that a filter has a relation to the profile, None if it doesn't decide it. A record that
        shows that it hasn't can only be of these architectures, in the order in which they are compared."""
        _, holds_word, fails_word, has = RELATIONS[relation]
        reading, program = scf.reading, unpacked(data)
        verdict, *lines = scf.compare(data, relation).decode().split("\n")
        about = self.about, data.hex(), relation, verdict, *lines
        words = sorted({insn[3] for insn in program if insn[0] & 7 == 5 and insn[0] != 5})
        order = [name for name in reading.rules if name in names]
        failing = next((name for name in order if not all(
            has(answer_of(program, *record), reading.answer(*record)[0])
            for record in reading.records(name, self.random_of, RECORDS, words))), None)
        if verdict.startswith("undecided"):
            self.assertFalse({insn[0] for insn in program} <= PLAIN, about)
            return None
        if verdict == fails_word:
            record = numbers_of(lines[0])
            ours, theirs = answer_of(program, *record), reading.answer(*record)[0]
            self.assertEqual(lines[1:3], [f"filter {MACHINE.printed(ours)}", f"profile {MACHINE.printed(theirs)}"],
                             about)
            self.assertFalse(has(ours, theirs), about)
            # the verdict is that of the first architecture in which it fails, so of none after one that is found
            self.assertIn(reading.architecture(*record[:2]), order[:order.index(failing) + 1 if failing else None],
                          about)
            self.counts["fails", failing is not None] += 1
            del lines[:3]
        else:
            self.assertEqual((verdict, failing), (holds_word, None), about)
        self.assertEqual(lines, [*reading.notes(), ""], about)
        return verdict == holds_word


WORKED = """ld 4; jeq 0xc000003e 2 0; jeq 0x40000003 11 0; ret 0x80000000; ld 0; jge 0x40000000 6 0; jeq 0x0 12 0;
jeq 0x87 0 12; ld 20; jeq 0x0 0 10; ld 16; jeq 0x8 7 8; jeq 0x40000000 6 0; jeq 0x40000087 3 6; ld 0; jeq 0x3 3 0;
jeq 0x88 0 3; ld 16; jeq 0x8 0 1; ret 0x7fff0000; ret 0x50001"""
CODES = {"ld": 0x20, "jeq": 0x15, "jge": 0x35, "ret": 0x06}


class Worked(Case):
    """The worked rows of the definition, by the tools: real tables have the syscalls at other numbers of i386, x32."""

    def setUp(self):
        super().setUp()
        self.top = {"defaultAction": "SCMP_ACT_ERRNO", "architectures": NAMED, "syscalls": [
            {"names": ["read"], "action": "SCMP_ACT_ALLOW"},
            {"names": ["personality"], "action": "SCMP_ACT_ALLOW",
             "args": [{"index": 0, "value": 8, "op": "SCMP_CMP_EQ"}]}]}
        self.profile = self.file("p.json", self.top)

    def filter(self, at=None, text=""):
        lines = [line.strip() for line in WORKED.split(";")]
        if at is not None:
            lines[at] = text
        words = [[CODES[line.split()[0]], *(int(word, 0) for word in line.split()[1:])] for line in lines]
        return self.file("f.bpf", b"".join(insn(*fields) for fields in words))

    def said(self, *words, at=None, text="", profile=None):
        return self.told("compare", *words, self.filter(at, text), profile or self.profile)

    def test_what_is_the_same(self):
        self.assertEqual(self.said("--limit", "612"), (0, ["same"]))

    def test_what_differs(self):
        for at, text, arch, numbers, name in (
                (5, "jge 0x40000000 14 0", X86_64, (X32, X32 + 135), "an x32 syscall"),
                (15, "jeq 0x0 3 0", I386, (0, 3), "of the architecture i386"),
                (16, "jeq 0x88 2 3", I386, (136,), "personality (136) of the architecture i386"),
                (17, "ld 20", None, (136, X32 + 135), None),
                (9, "jeq 0x0 0 0", X86_64, (135,), "personality (135)")):
            status, lines = self.said(at=at, text=text)
            self.assertEqual((status, lines[0]), (1, "differs"), text)
            fields, number, _ = numbers_of(lines[1])
            self.assertIn(number, numbers)
            self.assertEqual(arch in (None, fields), True, lines)
            self.assertTrue(name is None or name in "\n".join(lines), lines)
        self.assertEqual(self.said("--no-more", at=16, text="jeq 0x88 2 3")[1][0], "more")
        self.assertEqual(self.said("--no-less", at=16, text="jeq 0x88 2 3")[1][0], "no less")
        for at, text in ((5, "jge 0x40000000 14 0"), (15, "jeq 0x0 3 0"), (16, "jeq 0x88 2 3")):
            self.assertEqual(self.said("--native", at=at, text=text)[1][:3],
                             ["same", "other SCMP_ARCH_X86", "other SCMP_ARCH_X32"])

    def test_some_of_them(self):
        two = self.file("two.json", {**self.top, "architectures": NAMED[:2]})
        # x32's syscalls aren't judged there, and it is said that some are allowed
        status, lines = self.said(at=5, text="jge 0x40000000 14 0", profile=two)
        self.assertEqual((status, lines[0]), (0, "same"))
        path = self.file("one.json", {**self.top, "architectures": ["SCMP_ARCH_X86"]})
        self.assertEqual(self.said(at=9, text="jeq 0x0 0 0", profile=path)[1][0], "same")

    def test_a_wide_value(self):
        self.top["syscalls"][1]["args"][0]["value"] = 4294967304
        wide = self.file("wide.json", self.top)
        status, lines = self.said(profile=wide)
        self.assertEqual((status, lines[0]), (1, "differs"))
        self.assertEqual(self.run_tool("compare", self.file("wide.bpf", self.compiled(wide)), wide)[:2], (0, "same\n"))

    def compiled(self, profile, *words):
        return completed([os.path.join(TOP, "tools", "compile"), *words, profile], check=True).stdout

    def test_compile(self):
        """All three, or x86-64 alone."""
        whole, native = self.compiled(self.profile), self.compiled(self.profile, "--native")
        for data, words, verdict in ((whole, (), "same"), (whole, ("--native",), "same"), (native, (), "differs"),
                                     (native, ("--native",), "same")):
            name = self.file("c.bpf", data)
            self.assertEqual(self.run_tool("compare", *words, name, self.profile)[1].split("\n")[0], verdict, words)

    def test_a_conflict(self):
        """On i386 alone, since only there both names are one number: it has the name that it has there."""
        entries = [{"names": ["waitpid"], "action": "SCMP_ACT_ALLOW"}, {"names": ["waitpid"], "action": "SCMP_ACT_LOG"}]
        given = self.file("c.json", {"defaultAction": "SCMP_ACT_ERRNO", "architectures": NAMED, "syscalls": entries})
        for tool, words in (("compare", (self.filter(),)), ("ask", ()), ("lint", ())):
            out = self.begins(2, "fault profile Conflict number 7 first 0 second 1", self.run_tool(tool, *words, given))
            self.assertIn("# the syscall is waitpid (7) of the architecture i386\n", out)
            self.assertFalse(self.run_tool(tool, "--native", *words, given)[1].startswith("fault"), tool)


def with_stub(data, bounds):
    """A filter behind a stub like runc's, made here: by the audit number of an architecture, and for x86-64 also by
    whether the number is x32's, the first number that gets ENOSYS."""
    rows = b""
    for arch, is_x32, first in bounds:
        split = (jge(X32, 0, 3) if is_x32 else jge(X32, 3, 0)) if arch == X86_64 else jge(0, 0, 3)
        rows += load(4) + jeq(arch, 0, 5) + load(0) + split + jge(first, 0, 2) + insn(0x05, 0) + ret(0x50026)
    return rows + insn(0x00, 0) + data


class Stub(unittest.TestCase):
    """runc's ENOSYS on each architecture, at its own number, and at others."""

    BOUNDS = {"SCMP_ARCH_X86_64": 136, "SCMP_ARCH_X86": 137, "SCMP_ARCH_X32": X32 + 136}

    def judged(self, bounds, names=NAMED):
        profile = {"defaultAction": "SCMP_ACT_ERRNO", "architectures": names, "syscalls": [
            {"names": ["read", "personality"], "action": "SCMP_ACT_ALLOW"}]}
        applied = runtimes.applied(profile, "runc")
        self.assertEqual(applied.stub, {name: self.BOUNDS[name] for name in JUDGED if name in names})
        data = client.compile_profile(applied.data, tables.tables_of_profile(applied.data, tables.read_table(None)))
        rows = [(JUDGED[name].number, name == "SCMP_ARCH_X32", first) for name, first in bounds.items()]
        request = verify.Request(applied, tables.read_table(None))

        class Stack:
            named = [Filter("it", with_stub(data, rows))]

        return request.judge(Stack), request

    def test_at_its_numbers(self):
        for names in (NAMED, NAMED[:1], NAMED[:2], [NAMED[0], NAMED[2]]):
            bounds = {name: self.BOUNDS[name] for name in JUDGED if name in names}
            block, request = self.judged(bounds, names)
            self.assertEqual((block.verdict, block.stub), ("same", bounds), names)
        block, request = self.judged({name: self.BOUNDS[name] for name in NAMED[:1]}, NAMED[:1])
        self.assertIn("runc answers the numbers from 136 on, above all that the profile names, with ENOSYS",
                      list(request.notes(block, block.judged.first)))

    def test_at_other_numbers(self):
        for name in NAMED:
            for step in (-1, 1):
                block, _ = self.judged({**self.BOUNDS, name: self.BOUNDS[name] + step})
                self.assertEqual(block.verdict, "differs", (name, step))
                call = block.judged.first.verdict.call
                self.assertEqual((call.abi, call.number), (name, self.BOUNDS[name] + min(step, 0)))
            lacking = {architecture: first for architecture, first in self.BOUNDS.items() if architecture != name}
            block, _ = self.judged(lacking)
            self.assertEqual((block.verdict, block.judged.first.verdict.call.abi), ("differs", name))


@NEEDED
class BesideLibseccomp(unittest.TestCase):
    """libseccomp's filters for three architectures, with what it makes of socketcall and ipc."""

    def test_drawn_profiles(self):
        library, count = Library(), 0
        names = ["read", "write", "socket", "bind", "shmat", "semop", "clone", "personality", "openat", "waitpid",
                 "mmap2"]
        for seed in range(12):
            random_of = random.Random(f"libseccomp {seed}")
            syscalls = []
            for name in random_of.sample(names, 5):
                args = [{"index": index, "op": f"SCMP_CMP_{random_of.choice(('EQ', 'NE', 'LE', 'GT'))}",
                         "value": random_of.choice((0, 1, 8, 40, 0x7FFFFFFF, 0xFFFFFFFF)), "valueTwo": 0}
                        for index in random_of.sample(range(1, 4), random_of.choice((0, 1, 2)))]
                syscalls.append({"names": [name], "action": "SCMP_ACT_ALLOW", **({"args": args} if args else {})})
            # (a syscall that each has and that stands without conditions keeps the load of the number)
            syscalls.append({"names": ["exit_group", "close"], "action": "SCMP_ACT_ALLOW"})
            profile = {"defaultAction": "SCMP_ACT_ERRNO", "architectures": NAMED, "syscalls": syscalls}
            try:
                data = library.filter_of(profile)
            except Conflict:
                continue
            text = runtimes.applied(profile, "crun").data
            judged = tables.tables_of_profile(text, tables.read_table(None))
            parts = [("filter", data), ("profile", text), *judged.parts]
            out, _ = ran(["compare", "--architectures"], bundles.bundle(parts))
            self.assertEqual(out.split(b"\n")[0], b"same", (seed, profile))
            count += 1
        self.assertGreater(count, 8)


def profile_for(name, *more):
    """A profile for x86-64 and another architecture."""
    entries = (("ALLOW", "read"), ("ALLOW", "exit_group"), ("ALLOW", "personality", condition(0, "EQ", 8)),
               ("ALLOW", "clone", condition(0, "MASKED_EQ", 0x10000000)), ("LOG", "ioctl", condition(1, "NE", 21522)),
               ("TRAP", "lseek", condition(2, "GT", 7)), *more)
    return {"defaultAction": "SCMP_ACT_ERRNO", "architectures": [NAMED[0], name], "syscalls": [
        {"names": [called], "action": f"SCMP_ACT_{action}", "args": args} for action, called, *args in entries]}


@NEEDED
class OtherMachines(Case):
    """Filters that libseccomp makes for other machines' architectures, and those of scf, beside their profile."""

    def setUp(self):
        super().setUp()
        self.library = Library()
        # (libseccomp 2.5.4 knows no loongarch64)
        self.others = [oci for oci in JUDGED if oci not in NAMED and self.library.has_architecture(oci)]

    def compared(self, profile, path, *words):
        """What is said of libseccomp's filter of a profile beside the profile in a file."""
        return self.run_tool("compare", *words, self.file("made.bpf", self.library.filter_of(profile)), path)

    def test_they_answer_as_the_profile_says(self):
        for profile in map(profile_for, self.others):
            path = self.file("p.json", profile)
            self.begins(0, "same", self.compared(profile, path))
            self.assertEqual(self.run_tool("compare", self.filter_file(path), path)[:2], (0, "same\n"))

    def test_a_changed_one_differs_on_both_architectures(self):
        for name in self.others:
            path = self.file("p.json", profile_for(name))
            status, out, _ = self.compared(profile_for(name, ("ALLOW", "getpid")), path, "--json")
            self.assertEqual((status, [(call.get("architecture"), call["names"]) for call in json.loads(out)["calls"]]),
                             (1, [(None, ["getpid"]), (JUDGED[name].name, ["getpid"])]))

    def test_multiplexed_syscalls(self):
        """libseccomp adds rules of socketcall and ipc for them, and so does resolve-profile."""
        for name in ("SCMP_ARCH_X86", "SCMP_ARCH_PPC64LE", "SCMP_ARCH_MIPSEL"):
            profile = profile_for(name, ("ALLOW", "socket", condition(1, "EQ", 2)), ("ALLOW", "shmget"))
            alone = self.file("alone.json", profile)
            status, resolved, _ = self.run_tool("resolve-profile", "--multiplexed", alone)
            statuses = [self.compared(profile, path)[0] for path in (alone, self.file("resolved.json", resolved))]
            self.assertEqual((status, statuses), (0, [1, 0]), name)
