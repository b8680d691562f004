"""./test, in a made tree with a kit that stands in for rt; and a run that takes too much of a processor fails."""
import ctypes
import os
import shutil
import signal
import subprocess
import sys

from support.common import PATIENCE, TOP, Case, text_of

# Prints what it is told, and makes what the gate takes from it.
RT = """#!/bin/sh
[ "$1" = ci ] || exit 1
mkdir -p crates/scf/out && touch crates/scf/out/scf
printf '%s\\n' "$CI"
exit "${CI_STATUS-0}"
"""
FIRST = "import unittest\n\n\nclass Some(unittest.TestCase):\n"
WELL = FIRST + "    def test_well(self):\n        pass\n"
MIXED = """
    def test_wrong(self):
        self.assertEqual(1, 2)

    def test_error(self):
        raise ValueError

    @unittest.expectedFailure
    def test_expected(self):
        self.assertEqual(1, 2)

    def test_skipped(self):
        self.skipTest("there is no such thing here")
"""


class Gate(Case):
    def setUp(self):
        super().setUp()
        self.tree = os.path.join(self.folder, "tree")
        for name in ("scf_insn", "scf_machine", "scf"):
            os.makedirs(os.path.join(self.tree, "crates", name))
        shutil.copy2(os.path.join(TOP, "test"), self.tree)
        self.script("bin/rt", RT)
        self.script("tree/library/build", "#!/bin/sh\n")
        self.script("tree/dev/must-fail", "#!/bin/sh\necho '3 passed, 0 failed'\n")
        self.room = os.path.join(self.folder, "room")
        os.mkdir(self.room)

    def script(self, name, text):
        os.chmod(self.file(name, text), 0o755)

    def environment(self, **more):
        return {**os.environ, "PATH": f"{self.folder}/bin:{os.environ['PATH']}", "TMPDIR": self.room, **more}

    def gate(self, first=WELL, second=WELL, ci="7 passed, 0 failed", injection="echo '4 passed, 0 failed'\n", **more):
        """The status and the lines of ./test, with these modules of tests."""
        self.file("tree/conformance/test_first.py", first)
        self.file("tree/tools/tests/room/test_second.py", second)
        self.script("tree/dev/fault-injection", f"#!/bin/sh\n{injection}")
        status, out, _ = self.run_words([os.path.join(self.tree, "test")], env=self.environment(CI=ci, **more))
        return status, out.splitlines()

    def test_all_are_counted(self):
        status, lines = self.gate(ci="7 passed, 0 failed")
        self.assertEqual((status, lines[-1]), (0, "18 passed, 0 failed"))
        self.assertEqual(sorted(line for line in lines if not line.startswith("test: ")),
                         ["18 passed, 0 failed", "3 passed, 0 failed", "4 passed, 0 failed", "7 passed, 0 failed"])
        self.assertRegex(lines[-2], r"\Atest: processor minutes: (\w[\w /-]* [0-9]+\.[0-9], ){4}")

    def test_it_says_how_far_it_is(self):
        """Of a crate that is proved a line is shown, of one that isn't all that was printed."""
        proved = "== scf_insn\nfn f: proved\nlogic=proved\nrt: scf_insn proved"
        refused = "== scf_insn\nfn f: not proved\nrt: scf_insn NOT PROVED"
        self.assertIn("scf_insn: proved: crate 1 of 3", "\n".join(self.gate(ci=f"{proved}\n7 passed, 0 failed")[1]))
        log = "rt: scf_insn is kept: an earlier run proved it\n1 passed, 0 failed"
        self.assertIn("scf_insn: proved by an earlier run: crate 1 of 3", "\n".join(self.gate(ci=log)[1]))
        self.assertNotIn("fn f: proved", self.gate(ci=f"{proved}\n7 passed, 0 failed")[1])
        status, lines = self.gate(ci=f"{refused}\n0 passed, 1 failed", CI_STATUS="1")
        self.assertEqual((status, lines[-1]), (1, "0 passed, 1 failed"))
        self.assertIn("fn f: not proved", lines)
        self.assertIn("step 3 of 3: dev/fault-injection", "\n".join(self.gate()[1]))

    def test_the_program_of_the_gate_is_put_in_place(self):
        """`rt ci` works in a copy, without what was built here, and the later steps use its program."""
        self.file("tree/crates/scf/out/scf", "old\n")
        self.script("bin/rt", "#!/bin/sh\n[ -e crates/scf/out ] && exit 1\n"
                    "mkdir crates/scf/out\necho new >crates/scf/out/scf\n"
                    "cat \"$HELD\"\necho '1 passed, 0 failed'\n")
        held = os.path.join(self.tree, "crates/scf/out/scf")
        self.assertIn("old", self.gate(HELD=held)[1])
        self.assertEqual(text_of(held), "new\n")

    def test_modules_are_counted_together_and_a_failed_one_is_shown(self):
        status, lines = self.gate(WELL, WELL + MIXED)
        self.assertEqual((status, lines[-1]), (1, "19 passed, 2 failed, 1 skipped"))
        self.assertIn("AssertionError: 1 != 2", lines)
        self.assertTrue([line for line in lines if line.endswith("... skipped 'there is no such thing here'")])

    def test_a_module_that_fails_runs_once_more_by_itself(self):
        """It is shown the first time, too; its second run counts, when no other module runs any more."""
        begun = os.path.join(self.folder, "begun")
        second = (f"import os\nAGAIN = os.path.exists({begun!r})\nopen({begun!r}, 'w').close()\n{FIRST}"
                  "    def test_the_second_run(self):\n        self.assertTrue(AGAIN)\n")
        status, lines = self.gate(WELL, second)
        self.assertEqual((status, lines[-1]), (0, "18 passed, 0 failed"))
        self.assertIn("AssertionError: False is not true", lines)
        self.assertEqual([line for line in lines if "test_second" in line and "by itself" in line][0].split(" (")[0],
                         "test: test_second: 1 passed, 0 failed: by itself")

    def test_a_module_that_ends_early_or_has_no_test_is_a_failure(self):
        """And a skipped test is none."""
        skipped = FIRST + "    def test_it(self):\n        self.skipTest('no such thing')\n"
        for text, status, last in ((skipped, 0, "17 passed, 0 failed, 1 skipped"), *((text, 1, "1[67] passed, 1 failed")
                for text in ("", "x = 1 /\n", "import os\nos._exit(0)\n", "import os\nos.kill(os.getpid(), 9)\n"))):
            actual, lines = self.gate(WELL, text)
            self.assertEqual(actual, status, text)
            self.assertRegex(lines[-1], f"^{last}$")

    def test_failures_of_each_step_are_counted(self):
        status, lines = self.gate(ci="5 passed, 2 failed", CI_STATUS="1")
        self.assertEqual((status, lines[-1]), (1, "5 passed, 2 failed"))
        status, lines = self.gate(injection="echo '1 passed, 2 failed'\nexit 1\n")
        self.assertEqual((status, lines[-1]), (1, "15 passed, 2 failed"))
        self.script("tree/dev/must-fail", "#!/bin/sh\necho '2 passed, 1 failed'\nexit 1\n")
        self.assertEqual(self.gate()[1][-1], "17 passed, 1 failed")
        self.script("tree/library/build", "#!/bin/sh\n[ \"$1\" = llvm ]\n")
        self.assertEqual(self.gate()[1][-1], "7 passed, 1 failed")

    def test_a_crate_that_is_not_proved_ends_the_build_beside_it(self):
        self.script("tree/library/build", "#!/bin/sh\ntouch begun\nsleep 3600\n")
        self.script("bin/rt", "#!/bin/sh\nuntil [ -e \"$BEGUN\" ]; do sleep 0.1; done\n"
                    "echo '4 passed, 1 failed'\nexit 1\n")
        self.assertEqual(self.gate(BEGUN=os.path.join(self.tree, "begun"))[1][-1], "4 passed, 1 failed")

    def test_a_status_without_a_count_is_a_failure(self):
        for ci, ended, last in (("7 passed, 0 failed", "3", "7 passed, 1 failed"),
                                ("nothing", "0", "0 passed, 1 failed"), ("", "2", "0 passed, 1 failed")):
            status, lines = self.gate(ci=ci, CI_STATUS=ended)
            self.assertEqual((status, lines[-1]), (1, last), ci)
        self.assertEqual(self.gate(injection="exit 1\n")[1][-1], "14 passed, 1 failed")

    def test_a_folder_for_temporary_files_with_another_name(self):
        for name in (b"a\xff", b"a\nb", b"a b:c"):
            room = os.path.join(os.fsencode(self.folder), name)
            os.mkdir(room)
            status, lines = self.gate(TMPDIR=os.fsdecode(room))
            self.assertEqual((status, lines[-1]), (0, "18 passed, 0 failed"))
            self.assertEqual(os.listdir(room), [])

    def test_output_comes_as_it_is_printed_and_an_interrupt_leaves_nothing(self):
        """The kit prints a line, then works for an hour; the kernel may give a signal to any thread."""
        self.script("bin/rt", "#!/bin/sh\necho early\ntouch \"$TMPDIR/begun\"\nsleep 3600\n")
        for number, thread in ((signal.SIGINT, 0), (signal.SIGTERM, 0), (signal.SIGTERM, 1)):
            with subprocess.Popen([os.path.join(self.tree, "test")], env=self.environment(), stdout=subprocess.PIPE,
                                  stderr=subprocess.DEVNULL) as gate:
                self.assertIn(b"step 1 of 3", gate.stdout.readline())
                self.assertIn(b"early\n", iter(gate.stdout.readline, b""))  # (beside it bugs are planted)
                threads = sorted(map(int, os.listdir(f"/proc/{gate.pid}/task")))
                self.assertEqual(ctypes.CDLL(None).tgkill(gate.pid, threads[thread], number), 0)
                self.assertEqual(gate.wait(PATIENCE), 128 + number)
            self.assertEqual(os.listdir(self.room), [])

    def test_a_run_that_takes_more_seconds_fails(self):
        """One that doesn't end, and two processes that take more together and not alone."""
        two = "import os, time\nother = os.fork()\nwhile time.process_time() < 0.7:\n    pass\nother and os.wait()\n"
        for script in ("while True:\n    pass\n", two):
            self.assertRaises(self.failureException, self.run_words, [sys.executable, "-c", script], seconds=1)
