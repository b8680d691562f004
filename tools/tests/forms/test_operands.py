"""What a word of a command line names: a file, the filters of a process, or a unit's profile."""
import json
import os
from unittest import mock

from support.common import TABLE, Case, filter_of, profile_of
from support.confined import NEWEST, OLDEST, Confined, here
from scftools.base import program
from scftools.forms import operands, profile_inputs
from scfhost import hold, processes

# What `systemctl show` prints of a unit that denies ptrace.
SHOWN = "Id=box.service\nLoadState=loaded\nSystemCallFilter=~ptrace:EPERM\nSystemCallErrorNumber=1\nSystemCallLog=~\n"


class Files(Case):
    def test_the_contents_of_a_file_say_what_it_is(self):
        for name, data, kind in (("a", filter_of([0]), list), ("b", b"ret #0x7fff0000\n", list),
                                 ("c", profile_of("read"), profile_inputs.ProfileInput),
                                 ("d", b"2\nallowlist\nread\n", profile_inputs.ProfileInput),
                                 ("pid:1", filter_of([0]), list),
                                 ("unit:a", profile_of("read"), profile_inputs.ProfileInput)):
            with self.subTest(name), mock.patch.object(program, "say"):
                self.assertIs(type(operands.read([self.file(name, data)])), kind)

    def test_a_profile_stands_for_its_filter_where_that_is_wanted(self):
        profile, filter_ = self.file("p.json", profile_of("read")), self.file("f.bpf", filter_of([0]))
        of_profile, of_file = operands.read_stacks([profile, filter_], compiles=True)
        self.assertEqual((of_profile.name, of_file.data), (profile, filter_of([0])))
        made = self.file("made.bpf", of_profile.data)
        self.assertEqual(self.run_tool("compare", "--table", TABLE, made, profile)[0], 0)
        self.assertRaises(program.ToolError, operands.read_stacks, [profile])

    def test_what_is_refused(self):
        filter_, profile = self.file("f.bpf", filter_of([0])), self.file("p.json", profile_of("read"))
        no_unit = "isn't the name of a unit"
        for words, says in ((["surface", "pid:x"], "'x' isn't a process ID"), (["surface", "pid:"], "'' isn't a"),
                            (["surface", "pid:0"], "'0' isn't a process"),
                            (["surface", "pid:1", filter_], "stands alone"), (["lint", "unit:"], no_unit),
                            (["lint", "pid:1"], "scf profile-of pid:1"), (["surface", "unit:*"], no_unit),
                            (["why", "type=1326", profile, "pid:"], "isn't a process")):
            with self.subTest(words):
                self.is_refused(says, *words)


    def test_a_process_that_waits_for_a_supervisor(self):
        """Whichever side it is, --force stops it, and that is told where it is an option."""
        def look_at_process(_kernel, _number, is_forced):
            raise hold.Waiting("forced" if is_forced else "it waits")

        filter_ = self.file("f.bpf", filter_of([0]))
        with mock.patch.object(processes, "look_at_process", look_at_process):
            for words in (["surface", "pid:1"], ["surface", filter_, "--beside", "pid:1"], ["check", "pid:1"],
                          ["list", "pid:1"], ["decide", "pid:1", "read"], ["profile-of", "pid:1"],
                          ["compare", "pid:1", filter_], ["compare", filter_, "pid:1"],
                          ["compare", filter_, "--beside", "pid:1"], ["diff", "pid:1", filter_],
                          ["diff", filter_, "pid:1"]):
                with self.subTest(words):
                    self.is_refusal("it waits (--force stops it)\n", self.run_tool(*words))
                    self.is_refusal("forced (--force stops it)\n", self.run_tool(words[0], "--force", *words[1:]))
            self.is_refusal("it waits\n", self.run_tool("why", "type=1326", "pid:1"))
        for words in (["surface", filter_], ["compare", filter_, filter_], ["diff", filter_, filter_]):
            self.is_refused("--force needs a process", words[0], "--force", *words[1:])


class Processes(Confined):
    @here
    def test_the_stacks_of_a_process(self):
        child = self.child([OLDEST, NEWEST], [])
        inspection = operands.read([f"pid:{child.pid}"])
        self.assertEqual([(stack.filters, stack.threads) for stack in inspection.stacks],
                         [((OLDEST, NEWEST), {child.pid: child.threads[:1]}), ((), {child.pid: child.threads[1:]})])
        named = self.run_tool("surface", f"pid:{child.pid}")
        self.assertEqual(named, self.run_tool("surface", "--pid", str(child.pid)))
        self.assertEqual(named[0], 1)
        self.file(f"pid:{child.pid}", OLDEST)
        self.assertEqual(self.run_tool("surface", f"./pid:{child.pid}"),
                         self.run_tool("surface", self.file("f", OLDEST)))

    @here
    def test_each_stack_has_a_block(self):
        """The worst first: a thread without a filter is unconfined, status 1."""
        child = self.child([OLDEST, NEWEST], [])
        word = f"pid:{child.pid}"
        for words, begins in ((["check", word], "0.bpf: accepted 1\n1.bpf: accepted 4\n"),
                              (["list", word], "# 0.bpf\n0  ret #0x7fff0000  // ALLOW\n# 1.bpf\n0  ld [0] "),
                              (["list", "--plain", word], "# 0.bpf\nret #0x7fff0000\n# 1.bpf\nld [0]\n"),
                              (["decide", word, hex(0x0FFFFFFF)], "ERRNO 1\n"),
                              (["decide", "--expect", self.file("rows", "read = ALLOW\n"), word],
                               "# rows: 1; answered otherwise than expected: 0\n"),
                              (["surface", "--regions", word], "ERRNO 1 (EPERM) at 1:2: "),
                              (["surface", word], "allowed 383, depends 0, denied 0\ni386: allowed 461"),
                              (["profile-of", "--arch", "x86_64", word], "")):
            with self.subTest(words):
                status, out, _ = self.run_tool(*words)
                unconfined, confined = out.split("\n\n", 1)
                self.assertEqual((status, unconfined.split("\n")[0]), (1, "unconfined"))
                self.assertTrue(unconfined.endswith("it isn't confined, and every syscall is allowed"), unconfined)
                self.assertEqual(confined[:len(begins)], begins)
                self.assertIn("has 2 filters, of 1, 4 instructions", confined)
                if words[0] != "list" or words[1] != "--plain":
                    stacks = self.json_of(words[0], "--json", *words[1:])["stacks"]
                    self.assertEqual([stack["confined"] for stack in stacks], ["not", "by filters"])

    @here
    def test_the_profile_of_a_process_is_printed_alone(self):
        child = self.child([OLDEST])
        status, out, err = self.run_tool("profile-of", f"pid:{child.pid}")
        self.assertEqual((status, json.loads(out)["defaultAction"]), (0, "SCMP_ACT_ALLOW"))
        self.assertIn("has 1 filter, of 1 instructions", err)

    @here
    def test_the_only_stack_of_a_process(self):
        child, of_two = self.child([OLDEST]), self.child([OLDEST], [NEWEST])
        self.assertEqual([item.data for item in operands.read_stack([f"pid:{child.pid}"])], [OLDEST])
        with self.assertRaises(program.ToolError) as raised:
            operands.read_stack([f"pid:{of_two.pid}"])
        self.assertEqual(raised.exception.status, program.UNKNOWN)


class Units(Case):
    def test_a_unit_stands_where_a_profile_does(self):
        os.chmod(self.file("bin/systemctl", f"#!/bin/sh\ncat <<'END'\n{SHOWN}END\n"), 0o755)
        env = {**os.environ, "PATH": f"{self.folder}/bin:{os.environ['PATH']}"}
        for words, says in ((["ask", "--nr", "ptrace", "unit:box.service"], "ERRNO 1 entry 0\n"),
                            (["lint", "unit:box.service"], "# findings"),
                            (["surface", "unit:box.service"], "denied 1")):
            with self.subTest(words):
                self.assertIn(says, self.output_of(0, *words, env=env))
