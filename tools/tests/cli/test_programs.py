"""tools/check, tools/compile and tools/run; and what the tools have in common: several syscalls at once, JSON, the
files of a stack that are named, names that no syscall has, and the Python that runs them."""
import json
import os
import re
import sys

from support.common import (ALLOW, CORE, EPERM, I386, TABLE, TOP, UNKNOWN_ZERO, Case, bytes_of, completed, filter_of,
                            gate, insn, jeq, load, part, profile_of, ret, text_of, tool)
from scftools.cli.commands import NAMES
from scftools.model import tables

# Allows each call, but behind a test that scf leaves undecided.
UNKNOWN = gate(UNKNOWN_ZERO + jeq(0, 1, 0) + ret(EPERM) + ret(ALLOW))
# A is the number times the number, of which single bits are known. The one number whose square is 49 fails.
SQUARE = gate(insn(0x07, 0) + insn(0x2C, 0) + jeq(49, 0, 1) + ret(EPERM) + ret(ALLOW))
# Modules that Debian's python3-minimal lacks, hidden from a tool that is run as its file is.
LACKING = """import runpy, sys
class Lacking:
    def find_spec(self, name, path=None, target=None):
        if name.partition(".")[0] in {"json", "ctypes", "difflib", "html", "mmap", "resource", "shlex"}:
            raise ModuleNotFoundError("No module named " + name, name=name)
sys.meta_path.insert(0, Lacking())
sys.argv[:1] = []
runpy.run_path(sys.argv[0], run_name="__main__")
"""
LOST = "# the profile's default allows syscalls: the rules for these names are lost\n"


class CheckAndCompile(Case):
    def test_one_and_several(self):
        good, bad, cut = (self.file(name, data) for name, data in (
            ("good.bpf", ret(ALLOW)), ("bad.bpf", jeq(0, 9, 0) + ret(ALLOW)), ("cut.bpf", b"\6\0")))
        self.assertEqual(self.output_of(0, "check", good), "accepted 1\n")
        out = self.output_of(1, "check", bad)
        self.assertTrue(out.startswith("fault filter Jump at 0\n# This jump leaves the filter"), out)
        self.assertNotIn("bad.bpf", out)
        out = self.output_of(1, "check", good, bad)
        self.assertTrue(out.startswith(f"{good}: accepted 1\n{bad}: fault filter Jump at 0\n# This jump"), out)
        self.assertEqual(self.run_tool("check", bad, cut)[0], 1)
        self.assertEqual(self.run_tool("check", good, cut)[0], 2)

    def test_it_is_the_filter_of_scf(self):
        given = part("profile", profile_of("read", "openat")) + part("table", bytes_of(TABLE))
        expected = completed([*CORE, "compile"], given, check=True).stdout
        self.assertEqual(self.compile(self.file("p.json", profile_of("read", "openat"))), (0, expected, ""))
        self.assertEqual(self.compile("-", given=profile_of("read", "openat")), (0, expected, ""))
        table = self.file("own.table", b"look 0\n")
        status, out, err = self.compile("--table", table, self.file("q.json", profile_of("look")))
        self.assertEqual((status, err), (0, ""))
        self.assertEqual(self.run_tool("run", "--nr", "0", self.file("look.bpf", out))[1].split("\n")[0][:5], "ALLOW")

    def test_what_was_left_out_is_said(self):
        denies = b'{"defaultAction":"SCMP_ACT_ALLOW","architectures":["SCMP_ARCH_X86_64","SCMP_ARCH_X86"],' \
                 b'"syscalls":[{"names":["umont2","waitpid"],"action":"SCMP_ACT_ERRNO"}]}'
        unknown = ("compile: no known syscall is named umont2; the nearest name in the table is umount2\n"
                   f"{LOST.replace('# ', 'compile: ')}")
        kills = "the filter kills a process that makes such a syscall\n"
        # it says of the filter what the filter does: waitpid is a syscall of i386 alone
        for words, says, waitpid in (
                ([], "compile: names in the profile that were skipped because no table has them: 1\n" + unknown,
                 "ERRNO"),
                (["--native"], "compile: names in the profile that were skipped because no table has them: "
                 f"2\n{unknown}compile: --native leaves out SCMP_ARCH_X86, which the profile also names: {kills}",
                 "KILL_PROCESS")):
            status, out, err = self.compile(*words, self.file("p.json", denies))
            self.assertEqual((status, len(out) % 8, err), (0, 0, says))
            self.assertEqual(self.run_tool("run", "--arch", "0x40000003", "--nr", "7", self.file("made.bpf", out))[
                1].split()[0], waitpid)
        for names, says in ((("X86_64",), ""), (("X86_64", "ARM"), ""), (("X32", "X86_64", "X86"), ""),
                            (("X86_64", "MIPS"), "compile: the profile's other architectures aren't judged, since scf "
                             f"has no table of them: {kills}")):
            given = {"defaultAction": "SCMP_ACT_ALLOW", "architectures": [f"SCMP_ARCH_{name}" for name in names]}
            self.assertEqual(self.compile(self.file("p.json", given))[2], says)

    def test_refusals_go_to_standard_error(self):
        table = self.file("t", b"read\n")
        for words, profile, says in (([], b"{", "fault profile Json\ncompile: the JSON is malformed at line 1"),
                                     ([], b'{"defaultAction":"ALLOW"}', "fault profile Action\ncompile: An action"),
                                     (["--table", table], profile_of("read"), "fault table Form line 1\n")):
            status, out, err = self.compile(*words, self.file("p.json", profile))
            self.assertEqual((status, out), (2, b""))
            self.assertTrue(err.startswith(f"compile: {says}"), err)


class Calls(Case):
    """The calls that a tool is given, of which one run answers several."""

    def setUp(self):
        super().setUp()
        self.filter = self.file("f.bpf", filter_of([0]))

    def test_a_file_without_a_call(self):
        """Number 0 is answered of standard input alone, as by the program."""
        for words in (("run", self.filter), ("run", "--path", self.filter), ("decide", self.filter, self.filter),
                      ("decide", "--a0=1", self.filter), ("run", "-")):
            self.is_refused("no syscall is given: ", *words, given=filter_of([0]))
        for name, steps in (("run", " steps 6"), ("decide", "")):
            self.assertEqual(self.run_tool(name, given=filter_of([0]))[:2], (0, f"ALLOW 0{steps}\n"))

    def test_by_options(self):
        self.assertEqual(self.output_of(0, "run", "--nr", "read", "--nr=1", self.filter),
                         "ALLOW 0 steps 6\n# the syscall is read (0)\n# ALLOW: the syscall is executed\n"
                         "ERRNO 1 steps 6\n# the syscall is write (1)\n# ERRNO 1: the syscall fails with EPERM\n")

    def test_by_a_file(self):
        asks = self.file("asks.bpf", load(16) + jeq(7, 0, 1) + ret(ALLOW) + ret(EPERM))
        calls = self.file("calls", "# arguments\nread 7\n\n 1   0x7\nwrite\nclose 8 7\n")
        out = self.output_of(0, "decide", "--calls-from", calls, "--a0=9", "--nr", "mmap", asks)
        self.assertEqual([line for line in out.split("\n") if line and line[0] != "#"],
                         ["ERRNO 1", "ALLOW 0", "ALLOW 0", "ERRNO 1", "ERRNO 1"])
        self.assertEqual(re.findall(r"# the syscall is (\w+)", out), ["mmap", "read", "write", "write", "close"])
        self.assertEqual(self.output_of(0, "decide", "--calls-from", self.file("none", ""), asks), "")

    def test_wrong_lines(self):
        for text, says in (("raed\n", "the table has no syscall 'raed'; the nearest name is 'read'"),
                           ("read 1 2 3 4 5 6 7\n", "isn't a syscall and up to six numbers"),
                           ("read\0\n", "isn't a syscall and up to six numbers"),
                           ("9" * 300, "isn't a syscall and up to six numbers"), ("read 1x\n", "fault number a0"),
                           ("read x\n", "no constant is known"), ("99999999999\nread\n", "fault number nr")):
            status, out, err = self.run_tool("decide", "--calls-from", self.file("calls", text), self.filter)
            self.assertEqual(status, 2, text)
            self.assertIn(says, out + err)

    def test_the_worst_status(self):
        """A wrong number is said in its place, and the other calls are answered."""
        out = self.of_status(2, self.run_tool("decide", "--nr", "99999999999", "--nr", "read", self.filter))
        self.assertTrue(out.startswith("fault number nr\n# The option's text"), out)
        self.assertIn("\nALLOW 0\n# the syscall is read (0)\n", out)

    def test_many_calls_take_one_tool(self):
        """scf is started once for each call, and nothing else."""
        tree = self.made_tree("#!/bin/sh\necho \"$@\" >>\"$KEPT\"\necho ALLOW 0\n")
        path = os.path.join(self.folder, "kept")
        words = [word for number in range(29) for word in ("--nr", str(number))]
        self.assertEqual(self.run_words([os.path.join(tree, "tools", "decide"), *words, self.filter],
                                        env={**os.environ, "KEPT": path})[0], 0)
        self.assertEqual(text_of(path), "".join(f"decide --nr={number} --path\n" for number in range(29)))


class WhichFilter(Case):
    """Which of several filters a fault, an undecided place or an answer is of."""

    def setUp(self):
        super().setUp()
        self.allow, self.one, self.two = (self.file(name, data) for name, data in (
            ("allow.bpf", ret(ALLOW)), ("one.bpf", ret(0x00050001)), ("two.bpf", ret(0x00050002))))
        self.profile = self.file("p.json", b'{"defaultAction":"SCMP_ACT_ALLOW"}')

    def test_the_answer(self):
        for stack, answer, says in (
                ((self.allow, self.one, self.two), "ERRNO 2",
                 f"# the filter that answers so is {self.two}\n# the path in {self.two}: 0\n"),
                ((self.one, self.allow, self.one), "ERRNO 1",
                 f"# the filters that answer so are {self.one} and {self.one}\n# the path in {self.one}: 0\n"),
                ((self.one, self.one), "ERRNO 1", f"# both filters answer so\n# the path in {self.one}: 0\n"),
                ([self.allow] * 3, "ALLOW 0", f"# all 3 filters answer so\n# the path in {self.allow}: 0\n"),
                ((self.one,), "ERRNO 1", "# the path in the filter: 0\n")):
            out = self.begins(0, answer, self.run_tool("decide", "--nr=0", *stack))
            self.assertTrue(out.endswith(f"\n{says}"), out)

    def test_a_fault(self):
        bad = self.file("bad.bpf", jeq(0, 9, 0) + ret(ALLOW))
        for words in (("compare", self.allow, bad, self.one, self.profile),
                      ("decide", "--nr=0", self.allow, bad, self.one)):
            out = self.begins(2, "fault filter Jump at 0", self.run_tool(*words))
            self.assertRegex(out, rf"\A.*\n# This jump(.|\n)*\n# the filter is {re.escape(bad)}\n\Z")
        self.assertNotIn("bad.bpf", self.run_tool("compare", bad, self.profile)[1])

    def test_a_stack_that_is_too_long(self):
        long = [self.file(f"{at}.bpf", ret(ALLOW) * 4096) for at in range(8)]
        for words in (("decide", "--nr=0", *long), ("compare", *long, self.profile)):
            out = self.begins(2, "fault stack TooMany total 32796", self.run_tool(*words))
            self.assertTrue(out.endswith(f"# the filter is {long[7]}\n"), out)

    def test_an_undecided_place(self):
        unknown, square = self.file("unknown.bpf", UNKNOWN), self.file("square.bpf", SQUARE)
        place = self.run_tool("compare", "--limit=100000", unknown, self.profile)[1].split("\n")[0].split(" ")[-1]
        # that of ERRNO 1, which no call gets
        self.assertEqual(int(place), len(UNKNOWN) // 8 - 2)
        twice = self.file("twice.bpf", UNKNOWN)
        for stack, alone in (((self.allow, unknown, self.allow), [unknown]), ((unknown, twice), [unknown, twice])):
            status, out, _ = self.run_tool("compare", "--limit=100000", *stack, self.profile)
            self.assertEqual((status, out.split(" ")[0]), (4, "undecided"))
            self.assertTrue(out.endswith("".join(f"# alone, {path} is undecided at {place}\n" for path in alone)), out)
        value = self.json_of("compare", "--json", "--limit=100000", self.allow, unknown, self.profile)
        self.assertEqual(value["files"], [unknown])
        status, out, _ = self.run_tool("compare", self.allow, square, self.allow, self.profile)
        self.assertEqual((status, out.split(" arch ")[0]), (1, "differs\ncall nr 7"))
        self.assertNotIn("# alone, ", out)


class Profiles(Case):
    """Names of a profile that the table doesn't have."""

    def setUp(self):
        super().setUp()
        self.same = self.file("same.bpf", filter_of([0]))

    def added(self, names, *words, default="SCMP_ACT_ERRNO"):
        out = self.run_tool("compare", *words, self.same, self.file("p.json", profile_of(*names, default=default)))[1]
        return [line for line in out.split("\n") if line.startswith("# ")]

    def test_names_that_no_table_has(self):
        skipped = "# names in the profile that were skipped because no table has them: "
        self.assertEqual(self.added(["read", "waitpid", "_llseek"]),
                         [f"{skipped}2, all of them syscalls of other architectures"])
        self.assertEqual(self.added(["read", "umont2", "waitpid", "raed", "gone", "frobnicate"]),
                         [f"{skipped}5",
                          "# no known syscall is named umont2; the nearest name in the table is umount2",
                          "# no known syscall is named raed; the nearest name in the table is read",
                          "# no known syscall is named gone",
                          "# no known syscall is named frobnicate"])
        many = self.added(["read", *(f"x{at}_y" for at in range(30))])
        self.assertEqual((len(many), many[-1]), (22, "# more such names: 10"))

    def test_rules_that_are_lost(self):
        """Where the default lets calls through, a name that is skipped is a rule that isn't there."""
        for action, is_lost in (("ALLOW", True), ("LOG", True), ("ERRNO", False), ("KILL", False), ("TRACE", False)):
            for name, counts in (("umont2", is_lost), ("waitpid", False)):
                added = self.added(["read", name], default=f"SCMP_ACT_{action}")
                self.assertEqual(LOST.rstrip() in added, counts, (action, name))

    def test_names_that_a_table_of_ones_own_leaves_out(self):
        table = self.file("own.table", b"read 0\n")
        self.assertIn("# write is an x86-64 syscall that this table leaves out",
                      self.added(["read", "write"], "--table", table))
        self.assertIn(LOST.rstrip(), self.added(["read", "write"], "--table", table, default="SCMP_ACT_ALLOW"))

    def test_hostile_names_take_no_time(self):
        names = [f"{at:0900}" for at in range(4000)]
        self.assertEqual(len(self.added(["read", *names])), 22)
        self.assertIsNone(tables.nearest("read" * 1000, tables.read_table(TABLE)))


class Objects(Case):
    """--json: one object that says what the lines say."""

    def test_compare(self):
        same, wrong = self.file("same.bpf", filter_of([0])), self.file("wrong.bpf", filter_of([0, 231]))
        profile = self.file("p.json", profile_of("read", "waitpid", "umont2").replace(
            b"{", b'{"architectures":["SCMP_ARCH_X86_64","SCMP_ARCH_X86"],', 1))

        def found(*words):
            status, out, err = self.run_tool("compare", "--json", *words)
            self.assertEqual((err, out.count("\n"), out[-1]), ("", 1, "\n"))
            self.assertEqual(json.loads(out)["status"], status)
            return {name: value for name, value in json.loads(out).items() if name != "schema"}

        left_out = {"skipped": ["waitpid", "umont2"], "other_architectures": ["SCMP_ARCH_X86"],
                    "unknown": [{"name": "umont2", "nearest": "umount2"}]}
        foreign = {"foreign": [{"kind": kind, "is_decided": True, "not_denied": []} for kind in ("i386", "x32")]}
        alone = self.file("alone.json", profile_of("read", "waitpid", "umont2"))
        of_i386 = found(same, profile)
        self.assertEqual({name: of_i386[name] for name in ("status", "scope", "verdict", "architectures", "skipped")},
                         {"status": 1, "scope": "listed", "verdict": "differs", "skipped": ["umont2"],
                          "architectures": ["SCMP_ARCH_X86_64", "SCMP_ARCH_X86"]})
        self.assertEqual((of_i386["call"]["architecture"], of_i386["filter"], of_i386["profile"]["action"]),
                         (hex(I386), {"action": "KILL_PROCESS", "data": 0}, "ALLOW"))
        call = {"number": 231, "names": ["exit_group"], "c": "exit_group(0)", "architecture": "0xc000003e",
                "pointer": "0x0", "arguments": ["0x0"] * 6}
        sides = {"call": call, "filter": {"action": "ALLOW", "data": 0},
                 "profile": {"action": "ERRNO", "data": 1, "errno": "EPERM"}}
        why = {"reason": "default", "path": {"filter": wrong, "indexes": [0, 1, 3, 4, 6, 7, 9]}}
        line = {"number": 231, "names": ["exit_group"], "verdict": "differs", **sides}
        relations = {"no_more": "more", "no_less": "no less"}
        for scope, given, member in (("all", alone, "other_architectures"), ("native", profile, "foreign")):
            both = {"scope": scope, **left_out, member: []}
            self.assertEqual(found(f"--{scope}", same, given), {"status": 0, "verdict": "same", "calls": [], **both})
            self.assertEqual(found(f"--{scope}", wrong, given), {
                "status": 1, "verdict": "differs", **sides, **why, **relations, "calls": [line], **both})
        self.assertEqual(found("--calls", wrong, alone),
                         {"status": 1, "scope": "calls", "verdict": "differs", **relations, "calls": [line], **left_out,
                          "other_architectures": [], **foreign})
        of_both = found("--calls", wrong, profile)
        self.assertEqual((of_both["calls"][0], of_both["other_architectures"], of_both["foreign"]),
                         (line, [], foreign["foreign"][1:]))
        self.assertEqual({call.get("architecture") for call in of_both["calls"]}, {None, "i386"})
        jump = found(same, self.file("bad.bpf", jeq(0, 9, 0) + ret(ALLOW)), profile)
        self.assertEqual((jump["verdict"], jump["files"]), (None, [os.path.join(self.folder, "bad.bpf")]))
        self.assertEqual({key: jump["fault"][key] for key in ("source", "kind", "numbers")},
                         {"source": "filter", "kind": "Jump", "numbers": {"at": 0}})
        self.assertTrue(jump["fault"]["sentences"][0].startswith("This jump leaves the filter"))
        undecided = found("--limit=100000", self.file("unknown.bpf", UNKNOWN),
                          self.file("q.json", b'{"defaultAction":"SCMP_ACT_ALLOW"}'))
        self.assertEqual((undecided["verdict"], undecided["status"]), ("undecided", 4))
        self.assertIsInstance(undecided["at"], int)

    def test_decide_and_run(self):
        item, two = self.file("one.bpf", ret(0x00050001)), self.file("two.bpf", ret(0x00050002))
        call = {"number": 0, "names": ["read"], "c": "read(7, NULL, 0)", "architecture": "0xc000003e", "pointer": "0x0",
                "arguments": ["0x7", *["0x0"] * 5]}
        answer = {"action": "ERRNO", "data": 2, "errno": "ENOENT", "does": "the syscall fails with ENOENT"}
        self.assertEqual(json.loads(self.output_of(0, "decide", "--nr=0", "--json", "--a0=7", item, two)), {
            "schema": 3, "status": 0, "calls": [{"status": 0, "call": call, "answer": answer, "filters": [two],
                                                 "path": {"filter": two, "indexes": [0]}}]})
        self.assertEqual(self.run_tool("run", "--json", "--a0=7", "--nr", "read", "--nr", "x", two)[0], 2)
        out = self.of_status(2, self.run_tool("run", "--json", "--a0=7", "--nr=read", "--nr=99999999999", two))
        first, second = json.loads(out)["calls"]
        self.assertEqual(first, {"status": 0, "call": call, "answer": answer, "steps": 1})
        self.assertEqual((second["status"], second["fault"]["source"], second["fault"]["kind"]), (2, "number", "nr"))

    def test_names_are_safe(self):
        profile = self.file("p.json", profile_of("read", "\x1b[2J\x9b\x7f\n"))
        out = self.run_tool("compare", "--json", self.file("f.bpf", filter_of([0])), profile)[1]
        self.assertTrue(out[:-1].isprintable() and out.isascii(), out)
        self.assertEqual(json.loads(out)["skipped"], ["\x1b[2J\x9b\x7f\n"])


class Programs(Case):
    """How the tools start, and the Pythons that lack what they need."""

    def test_a_name_of_a_stranger(self):
        link = os.path.join(self.folder, "\x1b[2J%s\\1")
        os.symlink(tool("check"), link)
        status, out, err = self.run_words([link, "--help"])
        self.assertEqual((status, err, out.split("\n")[0]), (0, "", "usage: \\x1b[2J%s\\1 [--json] FILTER.."))

    def test_nothing_of_the_user_is_imported(self):
        """A module of the same name beside the tool's user, or in PYTHONPATH, isn't read: the tools run as root."""
        for name in ("argparse", "os", "re", "scftools", "sitecustomize", "usercustomize"):
            self.file(f"{name}.py", "import sys\nsys.exit(77)\n")
        given = self.file("f.bpf", filter_of([0]))
        for name in ("check", "surface", "list"):
            done = self.run_tool(name, given, env={**os.environ, "PYTHONPATH": self.folder, "PYTHONSTARTUP":
                                                   f"{self.folder}/os.py", "PYTHONHOME": self.folder})
            self.assertEqual((done[0], done[2]), (0, ""), name)
            # nor beside a link to the tool
            link = os.path.join(self.folder, name)
            os.symlink(tool(name), link)
            self.assertEqual(self.run_words([link, given], cwd="/")[::2], (0, ""), name)

    def test_what_is_imported_at_start(self):
        """No module that only some runs need."""
        script = ("import sys\nsys.path.append(sys.argv[1])\nimport scftools.report.compare, scftools.cli.words\n"
                  "late = {'difflib', 'subprocess', 'tempfile', 'ctypes', 'typing', 'inspect', 'dataclasses'}\n"
                  "print(*sorted(late & set(sys.modules)))")
        done = self.run_words([sys.executable, "-IS", "-c", script, os.path.join(TOP, "tools")])
        self.assertEqual(done, (0, "\n", ""))

    def test_python3_minimal(self):
        starts = self.file("lacking.py", LACKING)
        for name in NAMES:
            self.assertEqual(self.run_words([sys.executable, "-IS", starts, tool(name), "x", "y"]), (
                125, "", f"{name}: the tools need Python's whole standard library, and this Python lacks json: install "
                "the package python3 (python3-minimal isn't enough)\n"))

    def test_an_old_python(self):
        """Even one that can't read the tools' modules."""
        starts = self.file("old.py", "import runpy, sys\nsys.version_info = (3, 6, 8)\nsys.argv[:1] = []\n"
                                     "runpy.run_path(sys.argv[0], run_name='__main__')\n")
        self.assertEqual(self.run_words([sys.executable, "-IS", starts, tool("lint"), "x"]),
                         (125, "", "lint: the tools need Python 3.9 or later\n"))
