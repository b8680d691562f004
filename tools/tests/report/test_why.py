"""Why a call is answered so: the path that a filter takes, against a second machine, and the entry of a profile that
answers, against a small reading of its JSON; `list --nr` and `ask`."""
import json
import os
import random
import re
import shutil
import subprocess
import unittest

from support.common import (ALLOW, EPERM, I386, KILL_PROCESS, X86_64, Case, comes, filter_of, insn, jeq, load,
                            profile_of, ret, text_of)
from support.stand_in import StandIn
import kernel_profiles
import kernel_programs
from scftools.base.values import unless_refused
from scftools.model import tables
from scftools.model.calls import Call
from scftools.ask import explanation
from scftools.forms.filters import Filter
from scftools.report import listing

X32, WORD = 0x40000000, (1 << 32) - 1
NATIVE = load(4) + jeq(X86_64, 1, 0) + ret(KILL_PROCESS) + load(0) + insn(0x35, X32, 0, 1) + ret(KILL_PROCESS)


def innermost(pid):
    """The last child of the last child of a process, and so on."""
    children = unless_refused("", text_of, f"/proc/{pid}/task/{pid}/children").split()
    return innermost(int(children[-1])) if children else pid


def random_filter(random_of):
    """A filter that the kernel takes."""
    return kernel_programs.packed(kernel_programs.random_filter(random_of))


def random_call(random_of):
    number = random_of.choice((0, 1, 2, 41, X32 - 1, X32, WORD))
    arguments = tuple(random_of.choice((0, 1, WORD, random_of.getrandbits(64))) for _ in range(6))
    return Call(number, random_of.choice((X86_64, X86_64, I386)), random_of.getrandbits(64), arguments)


class Path(Case):
    """`scf run --path` and its readers, beside the second machine of stand_in."""

    def holds(self, data, call):
        machine = StandIn()
        path, expected = listing.path_of(Filter("", data), call.words()), machine.path(data, call)
        self.assertEqual(path.status, 0)
        self.assertEqual((list(path.indexes), path.decision.steps), (expected, len(expected)))
        self.assertEqual(path.decision.line, f"{machine.run(data, call)} steps {len(expected)}")
        return expected

    def test_made_filters(self):
        numbers = (*range(12), 41, X32 - 1, X32, X32 + 1, WORD)
        for data in (ret(ALLOW), filter_of(range(0, 12, 2)), filter_of(range(200))):
            for number in numbers:
                for architecture in (X86_64, I386):
                    self.holds(data, Call(number, architecture))

    def test_random_filters(self):
        random_of, machine, told = random.Random(32), StandIn(), set()
        for _ in range(60):
            data = random_filter(random_of)
            self.assertEqual(machine.check(data), f"accepted {len(data) // 8}")
            for _ in range(4):
                told.add(len(self.holds(data, random_call(random_of))))
        self.assertGreater(len(told), 10)

    def test_the_longest(self):
        """4096 instructions, all of which run; and of which every other one runs."""
        call = Call(7)
        self.assertEqual(self.holds(load(0) + jeq(9, 0, 0) * 4094 + ret(ALLOW), call), list(range(4096)))
        jumps = load(0) + jeq(7, 1, 0) * 4093 + ret(EPERM) + ret(ALLOW)
        self.assertEqual(self.holds(jumps, call), [0, *range(1, 4096, 2)])
        self.assertEqual(listing.path_of(Filter("", jumps), call.words()).describe()[:12], "0 1 3 5 7 9 ")


class List(Case):
    def listed(self, data, *words):
        return self.run_tool("list", *words, self.file("f.bpf", data))

    def test_the_lines_on_the_path_are_marked(self):
        self.assertEqual(self.out_of(0, self.listed(filter_of([0]), "--nr", "write")).split("\n"), [
            "> 0  ld [4]                 // the architecture",
            "> 1  jeq #0xc000003e, 1, 0  // x86-64: to 3, else 2",
            "  2  ret #0x80000000        // KILL_PROCESS",
            "> 3  ld [0]                 // the syscall number",
            "> 4  jge #0x40000000, 0, 1  // x32: to 5, else 6",
            "  5  ret #0x80000000        // KILL_PROCESS",
            "> 6  jeq #0x0, 1, 0         // read: to 8, else 7",
            "> 7  ret #0x50001           // ERRNO 1 (EPERM)",
            "  8  ret #0x7fff0000        // ALLOW",
            "# the syscall is write (1)",
            "# ERRNO 1: the syscall fails with EPERM", ""])

    def test_it_is_the_same_listing(self):
        """The marks are those of the second machine, and what is behind them is the listing without a call."""
        random_of = random.Random(5)
        for _ in range(5):
            data, call = random_filter(random_of), random_call(random_of)
            plain = self.listed(data)[1].split("\n")[:-1]
            marked = [line for line in self.listed(data, *call.words())[1].split("\n")[:-1] if line[:2] != "# "]
            self.assertEqual([line[2:] for line in marked], plain)
            self.assertEqual([at for at, line in enumerate(marked) if line[:2] == "> "], StandIn().path(data, call))
            self.assertEqual({line[:2] for line in marked} - {"> ", "  "}, set())

    def test_any_number_of_a_call_asks_for_the_path(self):
        data = load(16) + jeq(7, 0, 1) + ret(ALLOW) + ret(EPERM)
        self.assertIn("> 2  ", self.listed(data, "--a0", "0x7")[1])
        self.assertIn("> 3  ", self.listed(data, "--ip=7")[1])
        self.assertNotIn(">", self.listed(data)[1])

    def test_what_cannot_be_run(self):
        out = self.begins(2, "fault filter Jump at 0", self.listed(jeq(0, 9, 0) + ret(ALLOW), "--nr=0"))
        self.assertIn("\n# This jump leaves the filter", out)
        self.begins(2, "fault number nr", self.listed(ret(ALLOW), "--nr=99999999999"))
        self.begins(2, "fault filter Empty", self.listed(b"", "--nr=0"))
        self.is_refusal("the nearest name is 'read'", self.listed(ret(ALLOW), "--nr=raed"))


def reading(profile, call):
    """The word and the place by which a profile answers, read from its JSON alone; and the entry's conditions."""
    if call.architecture != X86_64 or call.number >= X32:
        return "foreign", None, []
    for place, entry in enumerate(json.loads(profile)["syscalls"]):
        numbers = [kernel_profiles.TABLE.get(name) for name in entry["names"]]
        conditions = entry.get("args", [])
        if call.number in numbers and all(kernel_profiles.holds(it, call.arguments) for it in conditions):
            return f"entry {place}", place, conditions
    return "default", None, []


class Ask(Case):
    ENTRIES = [{"names": ["read", "write"], "action": "SCMP_ACT_ALLOW"},
               {"names": ["nothing_that_is"], "action": "SCMP_ACT_LOG"},
               {"names": ["socket"], "action": "SCMP_ACT_ALLOW",
                "args": [{"index": 0, "value": 40, "op": "SCMP_CMP_NE"},
                         {"index": 1, "value": 255, "valueTwo": 513, "op": "SCMP_CMP_MASKED_EQ"}]}]

    def setUp(self):
        super().setUp()
        self.own = {"defaultAction": "SCMP_ACT_ERRNO", "syscalls": self.ENTRIES}
        self.profile = self.file("p.json", self.own)

    def asked(self, *words, profile=None, given=b""):
        return self.told("ask", *words, profile or self.profile, given=given)

    def test_an_entry_and_its_conditions(self):
        self.assertEqual(self.asked("--nr", "socket", "--a0", "16", "--a1", "0xf01"), (0, [
            "ALLOW 0 entry 2", "# the syscall is socket (41): socket(AF_NETLINK, SOCK_STREAM|SOCK_NONBLOCK|0x700, "
            "NETLINK_ROUTE)", "# ALLOW: the syscall is executed",
            f"# by entry 2 of syscalls: {json.dumps(self.ENTRIES[2])}",
            "# argument 0 is 16 (0x10): SCMP_CMP_NE 40 (0x28) holds",
            "# argument 1 is 3841 (0xf01): SCMP_CMP_MASKED_EQ 255 (0xff) of 513 (0x201) holds"]))
        self.assertEqual(self.asked("--nr=write"), (0, [
            "ALLOW 0 entry 0", "# the syscall is write (1)", "# ALLOW: the syscall is executed",
            '# by entry 0 of syscalls: {"names": ["read", "write"], "action": "SCMP_ACT_ALLOW"}']))

    def test_the_default_and_foreign_calls(self):
        for first, last, *calls in (
                ("ERRNO 1 default", "# by the default", "--nr socket --a0 40", "--nr=socket --a1=2", "--nr=open",
                 "--nr=0x3fffffff", "--nr=0x3fffffff --arch=0xc000003e"),
                ("KILL_PROCESS 0 foreign", "# by no entry: the syscall is of another ABI", "--nr=0x40000000",
                 "--nr=0xffffffff", "--arch=0x40000003", "--nr=0 --arch=0")):
            for words in calls:
                status, lines = self.asked(*words.split())
                self.assertEqual((status, lines[0], lines[-1]), (0, first, last), words)

    def test_several_calls_and_json(self):
        calls = self.file("calls", "socket 16 1\nread\n0x40000000\n")
        self.assertEqual([line for line in self.asked("--nr=open", "--calls-from", calls)[1] if line[:2] != "# "],
                         ["ERRNO 1 default", "ALLOW 0 entry 2", "ALLOW 0 entry 0", "KILL_PROCESS 0 foreign"])
        status, lines = self.asked("--json", "--nr=open", "--calls-from", calls)
        found = json.loads("".join(lines))
        self.assertEqual((status, found["status"]), (0, 0))
        self.assertEqual([call["reason"] for call in found["calls"]], ["default", "entry", "entry", "foreign"])
        self.assertEqual([call.get("definition") for call in found["calls"]],
                         [None, self.ENTRIES[2], self.ENTRIES[0], None])
        self.assertEqual(found["calls"][1]["entry"], 2)
        self.assertEqual(len(found["calls"][1]["conditions_met"]), 2)
        self.assertEqual(found["calls"][1]["answer"], {"action": "ALLOW", "data": 0, "does": "the syscall is executed"})

    def test_a_whole_config_and_standard_input(self):
        config = json.dumps({"ociVersion": "1.0.2", "linux": {"seccomp": self.own}})
        expected = self.asked("--nr=socket", "--a1=1")
        self.assertEqual(expected[1][0], "ALLOW 0 entry 2")
        self.assertEqual(self.asked("--nr=socket", "--a1=1", profile=self.file("config.json", config)), expected)
        self.assertEqual(self.asked("--nr=socket", "--a1=1", profile="-", given=config.encode()), expected)

    def test_inputs_without_an_end(self):
        for words, status, says in ((("/dev/zero",), 2, "fault profile TooMany"),
                                    (("--table=/dev/zero", self.profile), 2, "has more than 4194304 bytes"),
                                    (("--calls-from=/dev/zero", self.profile), 2, "has more than 65536 bytes")):
            found, out, err = self.run_tool("ask", "--nr=0", *words)
            self.assertEqual(found, status, words)
            self.assertIn(says, out + err)

    def test_refusals(self):
        for text, says in ((b"{", ["fault profile Json", "the JSON is malformed at line 1, column 2"]),
                           (b'{"defaultAction":"ALLOW"}', ["fault profile Action"])):
            status, lines = self.asked("--nr=0", profile=self.file("bad.json", text))
            self.assertEqual((status, lines[0]), (2, says[0]))
            self.assertTrue(all(line.startswith("# ") for line in lines[1:]) and says[-1] in "\n".join(lines), lines)
        status, lines = self.asked("--nr=99999999999")
        self.assertEqual((status, lines[0]), (2, "fault number nr"))

    def test_a_strangers_entry(self):
        """What an entry holds is one line without a control character, and bounded."""
        for name in ("\x1b[2J\n# all is well\nALLOW 0 entry 9", "\x7f\x9b\u2028\u202e", "\ud800", "x" * 5000):
            entry = {"names": ["read", name], "action": "SCMP_ACT_LOG", "comment": name}
            if name == "\ud800":
                entry = {**entry, "names": ["read"], "comment": "\u00e9\U0001f512"}
            profile = self.file("h.json", {"defaultAction": "SCMP_ACT_ERRNO", "syscalls": [entry]})
            status, lines = self.asked("--nr=read", profile=profile)
            self.assertEqual((status, len(lines), lines[0]), (0, 4, "LOG 0 entry 0"))
            self.assertTrue(all(line.isprintable() and line.isascii() for line in lines), lines)
            self.assertTrue(all(line.startswith("# ") for line in lines[1:]), lines)
            self.assertLess(max(map(len, lines)), 480)
            whole = json.dumps(entry)
            self.assertEqual(lines[3].endswith(f".. ({len(whole) - 400} more characters)"), len(whole) > 400)

    def test_numbers_of_any_length(self):
        """What scf doesn't read of an entry may be any number; none takes long, and all are shown."""
        text = (b'{"defaultAction":"SCMP_ACT_ERRNO","syscalls":'
                b'[{"names":["read"],"action":"SCMP_ACT_LOG","comment":%s}]}')
        for number in (b"1" * 300, b"1.5e300"):
            status, lines = self.asked("--nr=read", profile=self.file("n.json", text % number))
            self.assertEqual((status, lines[0]), (0, "LOG 0 entry 0"))
            self.assertIn(number.decode(), lines[3])

    def test_random_profiles(self):
        """scf's reason is that of a second reading, and all conditions of the entry hold."""
        random_of, table = random.Random(7), tables.Table(kernel_profiles.table_text())
        seen = set()
        for _ in range(25):
            profile = kernel_profiles.random_profile(random_of)
            known = kernel_profiles.constants(profile)
            for _ in range(12):
                values = [random_of.choice(sorted(known.get(at, known[-1]))) for at in range(6)]
                call = Call(random_of.choice((*kernel_profiles.TABLE.values(), X32 - 1, X32)),
                            random_of.choice((*[X86_64] * 9, I386)), 0, tuple(values))
                word, place, conditions = reading(profile, call)
                reason = explanation.profile_reason(profile, tables.Tables({tables.NATIVE: table}), call.words())
                self.assertEqual((reason.status, reason.line),
                                 (0, f"{kernel_profiles.answer_of(profile, call).action} {reason.answer.data} {word}"))
                self.assertEqual(reason.answer, kernel_profiles.answer_of(profile, call))
                self.assertEqual(reason.entry, place)
                told = list(explanation.describe_reason(reason, profile, call))
                self.assertEqual(len(told), 1 + len(conditions))
                seen.add((word[:5], bool(conditions)))
        self.assertEqual(seen, {("entry", True), ("entry", False), ("defau", False), ("forei", False)})


class Behind(Case):
    """What stands behind a difference: the entry, and the last tests on the way."""

    def added(self, *words, status=1):
        out = self.output_of(status, "compare", *words)
        return [line[2:] for line in out.split("\n") if line.startswith("# ")]

    def way(self, lines):
        """The header of the last tests, and their lines."""
        at = next(at for at, line in enumerate(lines) if line.startswith("the last tests"))
        return lines[at], [line for line in lines[at + 1:] if re.match(" *[0-9]+  ", line)]

    def test_at_most_twelve_lines(self):
        for count, others in ((0, 0), (8, 0), (9, 0), (10, 1), (200, 191), (4000, 3991)):
            # of two tests before those of the numbers, of them, and of the end, all but the last twelve are counted
            data = NATIVE + jeq(1000, 0, 0) * count + ret(EPERM)
            profile = self.file("p.json", b'{"defaultAction":"SCMP_ACT_LOG"}')
            lines = self.added("--native", self.file("f.bpf", data), profile)
            self.assertIn("by the default", lines)
            header, tests = self.way(lines)
            path = StandIn().path(data, Call(5))
            self.assertEqual(header, "the last tests on the path in the filter" +
                             (f", after {others} others:" if others else ":"))
            self.assertEqual(len(tests), min(count + 3, 12))
            self.assertEqual([int(line.split()[0]) for line in tests], [at for at in path if at not in (0, 3)][-12:])

    def test_what_was_loaded_and_which_way_it_went(self):
        """Each way is that of the second machine; what was loaded is a word of the call."""
        data = (NATIVE + jeq(41, 0, 9) + load(16) + jeq(16, 0, 7) + load(28) + insn(0x54, 0xF0) + jeq(0x30, 0, 4)
                + insn(0x00, 5) + jeq(5, 0, 2) + insn(0x87, 0) + insn(0x25, 9, 0, 0) + ret(0x7FFC0000))
        self.assertEqual(StandIn().check(data), "accepted 17")
        call = Call(41, arguments=(16, 0x37 << 32, 0, 0, 0, 0))
        path = listing.path_of(Filter("", data), call.words())
        header, *lines = path.last_tests(call, tables.read_table(None), "it")
        self.assertEqual((header[-6:], [re.sub(r"^ *([0-9]+)  .*?// ", r"\1 ", line) for line in lines]), ("in it:", [
            "1 x86-64: to 3, else 2; loaded 0xc000003e, went to 3", "4 x32: to 5, else 6; loaded 0x29, went to 6",
            "6 socket: to 7, else 16; loaded 0x29, went to 7", "8 to 9, else 16; loaded 0x10, went to 9",
            "11 to 12, else 16; loaded 0x37, computed with it, went to 12", "13 to 14, else 16; went to 14",
            "15 to 16, else 16; went to 16", "16 LOG"]))
        random_of = random.Random(9)
        for _ in range(20):
            data, call = random_filter(random_of), random_call(random_of)
            path, expected = listing.path_of(Filter("", data), call.words()), StandIn().path(data, call)
            header, *lines = path.last_tests(call, tables.read_table(None), "it")
            tests = [at for at in expected if data[8 * at] & 7 in (5, 6) and data[8 * at] != 5]
            self.assertEqual([int(line.split()[0]) for line in lines], tests[-12:])
            before = f", after {len(tests) - 12} others" if len(tests) > 12 else ""
            self.assertEqual(header, f"the last tests on the path in it{before}:")
            for line in lines[:-1]:
                at = expected.index(int(line.split()[0]))
                self.assertTrue(line.endswith(f"went to {expected[at + 1]}"), line)

    def test_the_filter_that_gave_the_answer(self):
        allow, other = self.file("a.bpf", ret(ALLOW)), self.file("b\x1b.bpf", filter_of([0], foreign=KILL_PROCESS))
        profile = self.file("p.json", profile_of("read", "write"))
        for filters in ([allow, other, allow], [other, allow], [other, other]):
            header, tests = self.way(self.added("--native", *filters, profile))
            self.assertTrue(header.endswith("/b\\x1b.bpf:"), header)
            self.assertTrue(tests[-1].endswith("// ERRNO 1 (EPERM)"), tests)
            self.assertIn("/b\\x1b.bpf: 0 1 3 4 6 7\n", self.run_tool("decide", "--nr=write", *filters)[1])

    def test_a_filter_that_looks_at_the_architecture_alone_is_not_shown(self):
        """As firejail's newest, which is for i386."""
        of_i386 = self.file("i386.bpf", load(4) + jeq(I386, 1, 0) + ret(ALLOW) + load(0) + jeq(5, 0, 1) + ret(EPERM)
                            + ret(ALLOW))
        other, profile = self.file("b.bpf", filter_of([0])), self.file("p.json", profile_of("write"))
        header, tests = self.way(self.added("--native", other, of_i386, profile))
        self.assertTrue(header.endswith("/b.bpf:"), header)
        self.assertTrue(tests[-1].endswith("// ALLOW"), tests)
        out = self.run_tool("decide", "--nr=read", other, of_i386)[1]
        self.assertIn("# both filters answer so\n", out)
        self.assertIn("/b.bpf: 0 1 3 4 6 8\n", out)
        path = self.json_of("decide", "--json", "--nr=read", other, of_i386)["calls"][0]["path"]
        self.assertEqual((path["filter"], path["indexes"]), (other, [0, 1, 3, 4, 6, 8]))
        # where all look at the architecture alone, it is the newest
        self.assertIn("/i386.bpf: 0-2\n", self.run_tool("decide", "--nr=read", of_i386, of_i386)[1])

    @unittest.skipUnless(shutil.which("firejail") and os.getuid() == 0, "firejail isn't here, or may not be used")
    def test_firejail(self):
        """Its program has two filters, the newest for i386; clone is let through, by the number."""
        jail = subprocess.Popen(["firejail", "--quiet", "--noprofile", "--seccomp", "cat"], stdin=subprocess.PIPE,
                                stdout=subprocess.DEVNULL, stderr=subprocess.DEVNULL)
        self.addCleanup(jail.communicate)
        comes(lambda: unless_refused("", text_of, f"/proc/{innermost(jail.pid)}/comm") == "cat\n"
              or jail.poll() is not None)
        self.skip_if(jail.poll() is not None, "firejail doesn't run here")
        profile = self.file("p.json", b'{"defaultAction":"SCMP_ACT_ALLOW","syscalls":[{"names":["clone"],'
                                      b'"action":"SCMP_ACT_ERRNO"}]}')
        out = self.run_tool("verify-process", "--no-more", str(innermost(jail.pid)), profile)[1]
        self.assertTrue(out.startswith("more\ncall nr 56 "), out)
        header, tests = self.way([line[2:] for line in out.split("\n") if line.startswith("# ")])
        self.assertRegex(header, r"\Athe last tests on the path in (filter 0|0\.bpf), after ")
        self.assertTrue(any("loaded 0x38, " in line for line in tests), tests)
        self.assertNotRegex(out, "filter [0-9]+ of")

    def test_the_entry(self):
        conditions = [{"index": 2, "value": 7, "op": "SCMP_CMP_GE"}]
        entry = {"names": ["write", "\x9b\n# same"], "action": "SCMP_ACT_ALLOW", "args": conditions}
        profile = self.file("p.json", {"defaultAction": "SCMP_ACT_ERRNO", "syscalls": [
            {"names": ["read"], "action": "SCMP_ACT_ALLOW"}, entry]})
        lines = self.added(self.file("f.bpf", filter_of([0])), profile)
        self.assertIn(f"by entry 1 of syscalls: {json.dumps(entry)}", lines)
        self.assertTrue(any(re.fullmatch(r"argument 2 is [0-9]+ \(0x[0-9a-f]+\): SCMP_CMP_GE 7 \(0x7\) holds", line)
                            for line in lines), lines)
        status, out, _ = self.run_tool("compare", "--json", self.file("f.bpf", filter_of([0])), profile)
        found = json.loads(out)
        self.assertEqual((status, found["reason"], found["entry"], found["definition"]), (1, "entry", 1, entry))
        call = Call(1, arguments=tuple(int(it, 16) for it in found["call"]["arguments"]))
        self.assertEqual(found["path"]["indexes"], StandIn().path(filter_of([0]), call))

    def test_nothing_is_added_to_same(self):
        """Nor is anything run for it but the comparison."""
        tree = self.made_tree('#!/bin/sh\necho "$1" >>"$KEPT"\necho same\n')
        kept = os.path.join(self.folder, "kept")
        done = self.run_words([os.path.join(tree, "tools", "compare"), "--all", self.file("f.bpf", filter_of([0])),
                               self.file("p.json", profile_of("read"))], env={**os.environ, "KEPT": kept})
        self.assertEqual(done, (0, "same\n", ""))
        self.assertEqual(text_of(kept), "--version\ncompare\n")

    def test_run_with_its_path(self):
        name = self.file("f.bpf", filter_of([0]))
        self.assertEqual(self.run_tool("run", "--path", "--nr=write", name)[1].split("\n")[:3],
                         ["ERRNO 1 steps 6", "path 0 1 3 4 6 7", "# the syscall is write (1)"])
        found = self.json_of("run", "--path", "--json", "--nr=write", name)["calls"][0]
        self.assertEqual((found["steps"], found["path"]), (6, {"filter": name, "indexes": [0, 1, 3, 4, 6, 7]}))
        self.assertNotIn("path", self.run_tool("run", "--json", "--nr=write", name)[1])
