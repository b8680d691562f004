"""conformance/kernel: the running kernel does what scf says; a change planted in what scf says is seen; what differs
is kept and can be repeated; where nothing can be asked, that is said."""
import ctypes
import functools
import json
import os
import random
import re
import shutil
import struct
import subprocess
import sys
import unittest
from unittest import mock

HERE = os.path.dirname(os.path.abspath(__file__))
TOOLS = os.path.join(os.path.dirname(HERE), "tools")
sys.path[:0] = [os.path.join(TOOLS, "tests"), TOOLS]

import kernel_cases  # noqa: E402
import kernel_child  # noqa: E402
import kernel_exceptions  # noqa: E402
import kernel_profiles  # noqa: E402
import kernel_programs as programs  # noqa: E402
import kernel_regions  # noqa: E402
from kernel_child import Setting  # noqa: E402
from scftools.base.values import replace  # noqa: E402
from scftools.model.answers import ALLOW as ALLOWED, DENIED, I386_NUMBER, X86_64, Answer  # noqa: E402
from scftools.model.calls import Call  # noqa: E402
from scftools.ask import regions  # noqa: E402
from scftools.forms import strace, strace_reader  # noqa: E402
from support.common import ALLOW, Case, insn, jeq, load, ret, sample, taken  # noqa: E402
from support.stand_in import OF_ANSWERS, OF_CHECKER, StandIn  # noqa: E402

PROGRAM = os.path.join(HERE, "kernel")
# linux/prctl.h, linux/seccomp.h
PR_SET_NO_NEW_PRIVS, PR_SET_SECCOMP, SECCOMP_MODE_FILTER = 38, 22, 2
NR_SECCOMP, NR_PTRACE = 317, 101
WORD = 1 << 32
# The most seconds of one processor that syscalls take: 17 are measured, 35 on a machine that does much else. Most of
# them go to the starts of some ten thousand processes, which slow machines are slowest at.
MOST_SECONDS = 700


def filtered(data):
    """What a child does before it runs a tool: it installs this filter."""
    room = ctypes.create_string_buffer(data, len(data))
    header = ctypes.create_string_buffer(struct.pack("<HxxxxxxQ", len(data) // 8, ctypes.addressof(room)))
    library = ctypes.CDLL(None)

    def install(_=room):
        library.prctl(PR_SET_NO_NEW_PRIVS, 1, 0, 0, 0)
        if library.prctl(PR_SET_SECCOMP, SECCOMP_MODE_FILTER, ctypes.byref(header), 0, 0):
            os._exit(99)
    return install


def refusing(number, answer=0x00050001):
    """A filter that refuses the calls of one number."""
    return load(0) + jeq(number, 0, 1) + ret(answer) + ret(ALLOW)


class Remembering(kernel_child.Kernel):
    """The kernel, asked once for what is asked for each change that is planted."""

    def __init__(self):
        super().__init__()
        self.came = {}

    def ask(self, filters, calls, setting=Setting()):
        key = (tuple(filters), tuple(calls), setting)
        if key not in self.came:
            self.came[key] = super().ask(filters, calls, setting)
        return self.came[key]


@functools.cache
def the_kernel():
    """One for all tests of this process, since its memory has a fixed place; a SkipTest where there is none."""
    try:
        return Remembering()
    except kernel_child.Unavailable as why:
        raise unittest.SkipTest(str(why)) from why


class Asked(Case):
    """Asks the kernel as conformance/kernel does."""

    def asked(self, *words, **settings):
        status, out, err = self.run_words([PROGRAM, *words], **settings)
        self.assertEqual(err, "")
        if status == 4 and "preexec_fn" not in settings:
            self.skipTest(out.split("\n")[0])
        return status, out.split("\n")[:-1]


class Gate(Asked):
    """What the gate asks: programs where other filters stand already, which answer syscalls too, and all else."""

    def test_programs_behind_another_filter(self):
        status, lines = self.asked("--programs=500", "--filters=1", "--seed=1", preexec_fn=filtered(ret(ALLOW)))
        self.assertEqual(status, 0, lines)
        self.assertGreater(int(re.match("programs: ([0-9]+);", lines[1])[1]), 2000)
        for kind in ("accepted", "Empty", "TooLong", "Code", "Load", "Scratch", "Divisor", "Shift", "Jump",
                     "LastNotReturn", "Unset"):
            self.assertRegex(lines[1], rf"[ ;,:] [1-9][0-9]* {kind}\b")
        self.assertIn("skipped: syscalls: this process already has filters, which answer them too", lines)
        self.assertRegex(lines[-1], r"^[1-9][0-9]* passed, 0 failed, 1 skipped$")

    def test_the_kernel_does_what_scf_says(self):
        before = taken()
        status, lines = self.asked("--programs=0", "--seed=1")
        seconds = taken() - before
        self.assertEqual(status, 0, lines)
        self.assertRegex(lines[-1], r"^[1-9][0-9]* passed, 0 failed(, [0-9]+ skipped)?$")
        matches = (re.match("([a-z0-9 ]+): ([0-9]+);", line) for line in lines)
        counts = {each[1]: int(each[2]) for each in matches if each}
        if not any(line.startswith("skipped: calls:") for line in lines):
            self.assertGreater(counts["filters and stacks"], 200)
            self.assertEqual(counts["profiles"], 50)
        if not any("i386 gate" in line or line.startswith("skipped: syscalls:") for line in lines):
            calls = next(re.search("calls: ([0-9]+);", line) for line in lines if line.startswith("filters for i386"))
            self.assertGreater(int(calls[1]), 2000)
        self.assertEqual(sum(line.startswith("otherwise: ") for line in lines), len(kernel_exceptions.ROWS))
        self.assertLess(seconds, MOST_SECONDS)
        self.assertEqual(os.listdir(self.folder), [])

    def test_rows_of_the_document_are_those_that_are_tried(self):
        with open(os.path.join(HERE, "README.md"), encoding="utf-8") as file:
            text = file.read().split("## Where the kernel differs")[1]
        rows = re.findall(r"^\| ([^|]+?) \|", text.split("\n## ")[0], re.M)
        self.assertEqual(rows[1:], list(kernel_exceptions.ROWS))


# Programs that load filters, each with words by which it does so without a network and ends; and how strace shows them.
LOADING = (("man", "-P", "cat", "ls"), ("chronyd", "-Q", "-F", "1", "-t", "1", "server 127.0.0.1"),
           ("tor", "--Sandbox", "1", "--DisableNetwork", "1", "--SocksPort", "0", "--DataDirectory", "{folder}/tor",
            "-f", "{folder}/none"),
           ("firejail", "--noprofile", "--quiet", "--seccomp", "true"))
STRACE = ("strace", "-f", "-v", "-e", f"trace={strace_reader.TRACED_CALLS}", "-e", "signal=none", "-o")
# Answers to numbers whose syscalls would end or change the child if they were executed.
EACH = {231: ALLOW, 59: 0x7FFC0000, 57: 0x7FF00007, 9: 0x7FC00000, 11: 0x00050001, 3: 0x0005FFFF, 1: 0x00030005,
        0: 0x00000000, 60: 0x80000000, 62: 0x7FBF0000, 63: 0x7FFB0000}


class Regions(Asked):
    """A record of each region of a filter, on the running kernel."""

    def loaded_by(self, words):
        """The stacks of filters that a program loads, each as files."""
        log = os.path.join(self.folder, "log")
        # (strace goes on as long as the program, and tor may stay after SIGTERM)
        program = [word.format(folder=self.folder) for word in words]
        subprocess.run([*STRACE, log, "timeout", "--signal=KILL", "3", *program],
                       stdin=subprocess.DEVNULL, stdout=subprocess.DEVNULL, stderr=subprocess.DEVNULL, check=False)
        stacks = strace_reader.stacks_in(strace.log_lines(log, strace_reader.LONGEST_LOAD))
        return [[self.file(f"{words[0]}.{stack}.{at}", data) for at, data in enumerate(filters)]
                for stack, filters in enumerate(stacks)]

    def test_filters_of_programs(self):
        self.file("none", b"")
        there = [words for words in LOADING if shutil.which("strace") and shutil.which(words[0])]
        stacks = [names for words in there for names in self.loaded_by(words)]
        if not stacks:
            self.skipTest("no program here loads a filter under strace")
        status, lines = self.asked(*(word for names in stacks for word in ("--regions", *names)))
        self.assertEqual((status, lines[-1]), (0, f"{len(stacks)} passed, 0 failed"), lines)
        for line in lines[1:-1]:
            count, tried = map(int, re.search(": ([0-9]+) regions, tried ([0-9]+): ", line).groups())
            left_out = sum(map(int, re.findall("(?:^|, )([0-9]+) ", line.partition("; left out: ")[2])))
            self.assertEqual(tried + left_out, count, line)
            self.assertGreater(tried, 0.9 * count, line)

    def test_each_answer(self):
        """By the number, and by a word of each kind; nothing is executed."""
        tests = b"".join(jeq(number, 0, 1) + ret(answer) for number, answer in EACH.items())
        by_words = (load(16) + jeq(7, 0, 1) + ret(0x00050002) + load(20) + jeq(9, 0, 1) + ret(0x00050003)
                    + load(8) + jeq((kernel_child.SITE + 2) % WORD, 0, 1) + ret(0x00050004) + ret(ALLOW))
        for_i386 = load(4) + jeq(I386_NUMBER, 0, 1) + ret(0x00050026)
        trial = kernel_regions.Trial(the_kernel(), [load(0) + tests + for_i386 + by_words], True)
        self.assertEqual(trial.differences, [])
        self.assertLessEqual({"ALLOW", "LOG", "TRACE", "USER_NOTIF", "ERRNO", "TRAP", "KILL_THREAD", "KILL_PROCESS",
                              "UNNAMED"}, set(trial.tried))
        self.assertEqual(sum(trial.tried.values()) + sum(trial.left_out.values()), len(trial.regions))

    def test_what_differs_is_seen(self):
        """Regions that have the answer of another one."""
        data = refusing(9)
        right = regions.regions_of_filters([data])
        wrong = [regions.Region(region.line, ALLOWED, region.entry, True, region.words,
                                str(kernel_cases.line_of(region.call))) for region in right]
        with mock.patch.object(regions, "regions_of_filters", lambda _: wrong):
            trial = kernel_regions.Trial(the_kernel(), [data], True)
        self.assertEqual(len(trial.differences), 1)
        self.assertRegex(trial.differences[0], r"nr 9 .*: scf says ALLOW, the kernel: returns -1\Z")

    def test_what_is_left_out(self):
        """What no process does here, and what isn't known; it is counted by its reason."""
        one_or_other = ret(0x00050001) + ret(0x00050002)
        for code, why in ((load(4) + jeq(0xC00000B7, 0, 1) + one_or_other,
                           "architectures whose syscalls no process makes here"),
                          (load(0) + jeq(0x80000001, 0, 1) + one_or_other, "numbers that no process has"),
                          (load(8) + jeq(7, 0, 1) + one_or_other, "places from which no call is made here"),
                          (load(0) + jeq(NR_SECCOMP, 0, 1) + ret(ALLOW) + ret(0x00050002),
                           "the syscall that loads filters, where it is executed"),
                          (load(0) + insn(0x16, 0), "answers that aren't known")):
            trial = kernel_regions.Trial(the_kernel(), [code], True)
            self.assertEqual(trial.differences, [])
            self.assertIn(why, trial.left_out, trial.describe())


# Actions without a name, on both sides of each that linux/seccomp.h names.
WITHOUT_A_NAME = (0x00010000, 0x00020000, 0x00040000, 0x00060000, 0x7FBF0000, 0x7FC10000, 0x7FEF0000, 0x7FF10000,
                  0x7FFB0000, 0x7FFD0000, 0x7FFE0000, 0x80010000, 0xFFFF0000)


class Dispositions(unittest.TestCase):
    """What becomes of a syscall by an answer: what the kernel does, and what the tools say."""

    def test_an_action_without_a_name_ends_the_process(self):
        kernel = the_kernel()
        getpid = kernel_child.call_at(kernel_child.SITE, 39, ())
        for action in WITHOUT_A_NAME:
            with self.subTest(action=hex(action)):
                self.assertEqual(kernel.ask([ret(action | 5)], [getpid]).texts, [kernel_child.PROCESS_ENDS])
                answer = Answer.read(StandIn().printed(action | 5))
                self.assertEqual((answer.denies, answer.allows, answer.disposition), (True, False, DENIED))
                self.assertIn("the process is killed", answer.does())


class Changed(StandIn):
    """A stand-in for scf that is given other calls than those that are made."""

    def __init__(self, change):
        super().__init__()
        self.change = change

    def run(self, data, call):
        return super().run(data, self.change(call))

    def decide(self, filters, call):
        return super().decide(filters, self.change(call))


class Planted(unittest.TestCase):
    """A stand-in for scf, in which a change is planted, is found out."""

    @classmethod
    def setUpClass(cls):
        cls.kernel = the_kernel()
        try:
            cls.abilities = kernel_cases.abilities(cls.kernel)
        except kernel_child.Unavailable as why:
            raise unittest.SkipTest(str(why)) from why
        if cls.abilities.filtered:
            raise unittest.SkipTest("this process has filters already")
        calls = programs.Calls(cls.abilities.i386, cls.abilities.x32)
        packed = programs.packed
        cls.filters = [kernel_cases.Case("filter", [packed(program)], calls.of_corners(random.Random(f"{place}"), 12))
                       for place, program in enumerate(programs.chosen_filters())]
        cls.stacks = [kernel_cases.Case("stack", [*map(packed, stack)], calls.many(random.Random(f"{place}"), stack, 1))
                      for place, stack in enumerate(programs.chosen_stacks())]
        cls.programs = [kernel_cases.Case("program", [packed(program)]) for program in programs.chosen_programs()][::-1]

    def programs_differ(self, plant):
        """Whether any of the chosen programs is seen to differ."""
        asking = kernel_cases.Asking(self.kernel, StandIn(plant))
        return any(asking.programs(self.programs[at:at + 100]) for at in range(0, len(self.programs), 100))

    def calls_differ(self, plant):
        """Whether any call under the chosen filters and stacks is."""
        asking = kernel_cases.Asking(self.kernel, StandIn(plant))
        return any(asking.calls(case) for case in (*self.filters, *self.stacks))

    def test_what_is_planted_is_seen(self):
        for plants, differ in ((OF_ANSWERS, self.calls_differ), (OF_CHECKER, self.programs_differ)):
            for plant in plants:
                with self.subTest(plant):
                    self.assertTrue(differ(plant))

    def test_nothing_is_seen_where_nothing_is_planted(self):
        self.assertFalse(self.programs_differ(None))
        self.assertFalse(self.calls_differ(None))

    def test_whole_registers_of_i386_calls(self):
        """A stand-in that takes their low halves alone, or another architecture for theirs, is found out."""
        if not self.abilities.i386:
            self.skipTest("there is no i386 gate")
        maker, cases = programs.I386Calls(True, self.abilities.x32), []
        for place in range(20):
            made = programs.i386_filter(random.Random(f"{place}"))
            cases.append(kernel_cases.Case("i386", [programs.packed(made)],
                                           maker.many(random.Random(f"{place}"), [made], 12)))
        changes = ((lambda call: call, False), (lambda call: replace(call, architecture=X86_64), True),
                   (lambda call: replace(call, arguments=tuple(value % WORD for value in call.arguments)), True))
        for change, differs in changes:
            asking = kernel_cases.Asking(self.kernel, Changed(change))
            self.assertEqual(any(asking.calls(case) for case in cases), differs)

    def test_a_listener_and_a_tracer_are_told(self):
        notify, trace = ret(0x7FC00000), ret(0x7FF00007)
        calls = [kernel_child.call_at(site, number, (1 << 63, 2, 3, 4, 5, 6))
                 for site, number in ((kernel_child.SITE, 39), (kernel_child.SITE, 400000), (kernel_child.SITE, 110))]
        asking = kernel_cases.Asking(self.kernel, StandIn())
        for filters, setting in (([notify], Setting(listener=0)), ([trace], Setting(traced=True))):
            with self.subTest(setting):
                if not (self.abilities.listener if setting.listener == 0 else self.abilities.tracer):
                    self.skipTest("it can't be there")
                texts = self.kernel.ask(filters, calls, setting).texts
                self.assertEqual(len(texts), 3)
                for text in texts:
                    self.assertRegex(text, r"^the (listener is told nr 0x[0-9a-f]+ arch 0xc000003e ip 0x5c0f1e00402 "
                                           r"args 0x8000000000000000 0x2 0x3 0x4 0x5 0x6|tracer is told 7), returns ")
                case = kernel_cases.Case("it", filters, calls, setting)
                self.assertEqual(asking.calls(case), [])
                # another setting isn't taken for this one
                case.setting = Setting()
                self.assertEqual(asking.calls(case), [])
                self.assertEqual(self.kernel.ask(filters, calls).texts, ["returns -38"] * 3)

    def test_of_equal_ranks_the_newest_has_the_listener(self):
        if not self.abilities.listener:
            self.skipTest("there is no listener")
        older = programs.packed([*programs.LETS_INSTALL, programs.Insn(programs.RET, 0x7FC00001)])
        call = kernel_child.call_at(kernel_child.SITE, 400000, ())
        for listener, begins in ((0, "returns -38"), (1, "the listener is told")):
            came = self.kernel.ask([older, ret(0x7FC00002)], [call], Setting(listener=listener))
            self.assertTrue(came.texts[0].startswith(begins), came)

    def test_an_end_of_the_thread_is_told_from_one_of_the_process(self):
        calls = [kernel_child.call_at(kernel_child.SITE, 39, ())] * 2
        for answer, text in ((0x00000005, "the thread ends"), (0x80000005, "the process ends")):
            self.assertEqual(self.kernel.ask([ret(answer)], calls).texts, [text])


# A program of i386: it installs the filter on standard input, makes a syscall that no kernel has by `int 0x80` and by
# libc, and prints what comes of each.
OF_I386 = sample("i386_record.c")


@unittest.skipUnless(shutil.which("cc"), "there is no C compiler here")
class OfI386(Case):
    def test_what_a_filter_sees_of_a_program(self):
        """The architecture of linux/audit.h, and registers whose upper halves are 0."""
        program = os.path.join(self.folder, "of_i386")
        if self.run_words(["cc", "-m32", "-x", "c", "-o", program, "-"], OF_I386.encode())[0]:
            self.skipTest("no program of i386 can be built here")
        arguments = (0xFFFFFFFF, 0x80000000, 0x7FFFFFFF, 0xFFFFFFFE, 0x80000001, 0xDEADBEEF)
        words = [(1, 0x40000003), *((4 + 2 * at, value) for at, value in enumerate(arguments)),
                 *((5 + 2 * at, 0) for at in range(6))]
        wrong = 2 * len(words)
        tests = b"".join(load(4 * word) + jeq(value, 0, wrong - 2 * at - 1) for at, (word, value) in enumerate(words))
        data = load(0) + jeq(400000, 1, 0) + ret(ALLOW) + tests + ret(0x00050007) + ret(0x00050008)
        try:
            status, out, err = self.run_words([program], data)
        except OSError as error:
            self.skipTest(f"the kernel runs no program of i386: {error.strerror}")
        if status == 1:
            self.skipTest("the kernel doesn't let a process install filters")
        self.assertEqual((status, out, err), (0, "7 -1 7\n", ""))


class Reading(unittest.TestCase):
    """The small reading of profiles, by worked cases."""

    def test_each_operator_at_both_sides_of_its_border(self):
        big = 1 << 63
        rows = [("NE", big, 0, {big: False, big + 1: True, 0: True}), ("EQ", big, 0, {big: True, big - 1: False}),
                ("LT", big, 0, {big - 1: True, big: False, 1: True}), ("LE", big, 0, {big: True, big + 1: False}),
                ("GT", big, 0, {big + 1: True, big: False, 1: False}), ("GE", big, 0, {big: True, big - 1: False}),
                ("MASKED_EQ", 0xF0, 0x3F, {0x30: True, 0xFF3A: True, 0x40: False}),
                ("MASKED_EQ", big, 0, {0: True, big: False, big - 1: True})]
        for op, value, two, arguments in rows:
            for argument, wanted in arguments.items():
                condition = {"index": 2, "op": f"SCMP_CMP_{op}", "value": value, "valueTwo": two}
                self.assertEqual(kernel_profiles.holds(condition, (0, 0, argument, 0, 0, 0)), wanted, (op, argument))

    def test_an_entry_and_the_default(self):
        def equal(index, value):
            return {"index": index, "value": value, "op": "SCMP_CMP_EQ"}

        profile = json.dumps({"defaultAction": "SCMP_ACT_ERRNO", "defaultErrnoRet": 38, "syscalls": [
            {"names": ["t400000", "no"], "action": "SCMP_ACT_TRACE", "args": [equal(0, 1), equal(1, 1)]},
            {"names": ["t400000"], "action": "SCMP_ACT_TRACE", "args": [equal(5, 9)]},
            {"names": ["getpid"], "action": "SCMP_ACT_KILL"}]}).encode()
        rows = [(400000, (1, 1, 0, 0, 0, 0), "TRACE", 1), (400000, (1, 0, 0, 0, 0, 0), "ERRNO", 38),
                (400000, (0, 0, 0, 0, 0, 9), "TRACE", 1), (39, (0,) * 6, "KILL_THREAD", 0),
                (400001, (0,) * 6, "ERRNO", 38), (0x40000000, (0,) * 6, "KILL_PROCESS", 0)]
        for number, arguments, action, data in rows:
            answer = kernel_profiles.answer_of(profile, Call(number, arguments=arguments))
            self.assertEqual(answer, Answer(action, data))
        self.assertEqual(kernel_profiles.answer_of(profile, Call(39, 0x40000003)), Answer("KILL_PROCESS", 0))


class Kept(Asked):
    def case(self, place="case", **parts):
        folder = os.path.join(self.folder, place)
        case = {"name": "it", "filters": [ret(0x00050007)], "calls": [kernel_child.call_at(kernel_child.SITE, 39, ())]}
        kernel_cases.Case(**{**case, **parts}).keep(folder, ["a line"])
        return folder

    def test_a_case_is_repeated(self):
        profile = b'{"defaultAction": "SCMP_ACT_TRAP", "syscalls": [{"names": ["getpid"], "action": "SCMP_ACT_LOG"}]}'
        wanted = ["it: the kernel does what scf says", "1 passed, 0 failed"]
        for place, parts in enumerate(({}, {"calls": []}, {"filters": [insn(0x94, 1)], "calls": []},
                                       {"setting": Setting(traced=True)}, {"setting": Setting(listener=0)},
                                       {"filters": [], "profile": profile})):
            status, lines = self.asked("--repeat", self.case(f"{place}", **parts))
            self.assertEqual((status, lines[1:]), (0, wanted), parts)

    def test_a_folder_that_holds_no_case(self):
        folder = self.case()
        os.remove(os.path.join(folder, "0.bpf"))
        for name in (folder, self.folder, os.path.join(self.folder, "none")):
            status, out, err = self.run_words([PROGRAM, "--repeat", name])
            self.assertEqual(status, 2, out)
            self.assertIn("holds no case", err)

    def test_members_that_no_case_has(self):
        line = kernel_cases.line_of(kernel_child.call_at(kernel_child.SITE, 39, ()))
        rows = [{"name": value} for value in ("\ud800", "a\nb", 1)]
        rows += [{"filters": value} for value in (0, -1, 9, 1 << 70, True, 1.0, "1", None)]
        rows += [{"calls": value} for value in ("", {}, [1], ["call"], [line] * 25)]
        rows += [{"calls": [line.replace(*change)]} for change in (
            ("nr 39 ", f"nr {(1 << 32) + 39} "), ("nr 39 ", "nr 60 "), ("0xc000003e", "0x0"),
            ("0xc000003e", "0x40000003"), ("ip 0x5", "ip 0x6"), ("args 0x0", f"args {1 << 64:#x}"))]
        rows += [{"traced": "x"}, {"traced": 0}, {"traced": True, "listener": 0}, {"profile": None}, {"profile": True}]
        rows += [{"listener": value} for value in ("y", 1, -1, False, 0.0)]
        folder = self.case()
        with open(os.path.join(folder, "case.json"), encoding="utf-8") as file:
            case = json.load(file)
        texts = [json.dumps({**case, **row}) for row in rows]
        texts += [json.dumps({name: case[name] for name in case if name != left_out}) for left_out in case]
        for text in (*texts, "[" * 100000, "[]", "1", "{", b"\xff"):
            with self.subTest(text[:200]):
                self.file("case/case.json", text)
                self.assertRaises((ValueError, LookupError, TypeError, RecursionError), kernel_cases.Case.read, folder)
        self.file("case/case.json", json.dumps(case))
        self.assertEqual(kernel_cases.Case.read(folder).filters, [ret(0x00050007)])

    def test_such_members_are_no_traceback(self):
        for place, (parts, name, data) in enumerate((
                ({}, "case.json", "[" * 100000), ({"name": "\ud800"}, "said", b""), ({}, "0.bpf", bytes(8 << 16)),
                ({"filters": [], "calls": []}, "said", b""), ({"filters": [ret(0)] * 2, "calls": []}, "said", b""),
                ({"setting": Setting("x", "y")}, "said", b""), ({"calls": [Call(0)]}, "said", b""),
                ({"filters": [], "profile": b'{"defaultAction": "SCMP_ACT_ALLOW"}'}, "said", b""))):
            folder = self.case(f"{place}", **parts)
            self.file(f"{place}/{name}", data)
            status, out, err = self.run_words([PROGRAM, "--repeat", folder])
            self.assertEqual(status, 2, (place, out, err))
            self.assertRegex(err, r"^kernel: '.*' holds no case: .*\n$", place)

    def test_what_differs_is_printed_and_kept(self):
        """A program that says the same of each filter stands in for scf."""
        tree = self.made_tree('#!/bin/sh\ncase $1 in check) echo "accepted 1" ;; *) echo "ERRNO 8" ;; esac\n')
        words = [os.path.join(tree, "conformance", "kernel"), "--repeat"]
        status, out, err = self.run_words([*words, self.case()])
        self.assertEqual((status, err), (1, ""), out)
        self.assertEqual(out.split("\n")[1:-1], [
            "call nr 39 arch 0xc000003e ip 0x5c0f1e00402 args 0x0 0x0 0x0 0x0 0x0 0x0", "scf: ERRNO 8",
            "so that it comes: returns -8", "the kernel: returns -7", "0 passed, 1 failed"])
        status, out, err = self.run_words([*words, self.case("bad", filters=[ret(0) + insn(0x94, 1)], calls=[])])
        self.assertEqual((status, err), (1, ""), out)
        self.assertEqual(out.split("\n")[1:-1], [
            "scf check: accepted 1", "the kernel: refuses the filter with errno 22", "0 passed, 1 failed"])
        few = ["--programs=0", "--filters=1", "--i386=0", "--profiles=0", "--calls=1", "--seed=x"]
        status, out, err = self.run_words([words[0], *few])
        self.assertEqual((status, err), (1, ""), out)
        folder = os.path.join(self.folder, "kernel-failures-x")
        name = sorted(os.listdir(folder))[0]
        self.assertEqual(sorted(os.listdir(os.path.join(folder, name))), ["0.bpf", "case.json", "said"])
        with open(os.path.join(folder, name, "said"), encoding="utf-8") as file:
            self.assertIn(f"repeat it by: conformance/kernel --repeat kernel-failures-x/{name}\n", file.read())
        self.assertIn(f"    kept in kernel-failures-x/{name}", out.split("\n"))
        status, out, err = self.run_words([words[0], *few, "--failures", b"\xff"])
        self.assertEqual((status, err), (1, ""), out)
        with open(os.path.join(os.fsencode(self.folder), b"\xff", name.encode(), b"said"), "rb") as file:
            self.assertIn(b"--repeat \xff/%s\n" % name.encode(), file.read())
        status, lines = self.asked("--repeat", os.path.join(folder, name))
        self.assertEqual((status, lines[-1]), (0, "1 passed, 0 failed"), lines)


class LeftOut(Asked):
    def test_no_filter_can_be_installed(self):
        status, lines = self.asked(preexec_fn=filtered(refusing(NR_SECCOMP)))
        self.assertEqual((status, lines), (4, [
            "skipped: the kernel doesn't let this process install filters: Operation not permitted",
            "0 passed, 0 failed, 1 skipped"]))

    def test_no_tracer_is_allowed(self):
        status, lines = self.asked("--programs=0", preexec_fn=filtered(refusing(NR_PTRACE)))
        self.assertEqual((status, lines[1:]), (0, [
            "skipped: a tracer, which isn't allowed here",
            "skipped: syscalls: this process already has filters, which answer them too",
            "0 passed, 0 failed, 2 skipped"]))


class Words(Case):
    def test_usage(self):
        status, out, err = self.run_words([PROGRAM, "--help"])
        self.assertEqual((status, err), (0, ""))
        self.assertIn("usage: kernel", out)
        os.mkdir(os.path.join(self.folder, "full"))
        self.file("full/x", b"")
        for words in (["--no-such-option"], ["--programs=x"], ["--programs=-1"], ["--calls=25"], ["--seed=a/b"],
                      ["--failures=full"], ["word"]):
            status, out, err = self.run_words([PROGRAM, *words])
            self.assertEqual((status, out), (2, ""), words)
            self.assertIn("kernel", err)

    def test_any_word_is_a_seed(self):
        for seed in (b"\xff", b"\xed\xa0\x80", "\u2115\n", ""):
            status, out, err = self.run_words([PROGRAM, "--seed", seed, "--programs=0", "--filters=0", "--i386=1",
                                               "--profiles=1"])
            self.assertIn((status, err), ((0, ""), (4, "")), out)

    def test_closed_output(self):
        self.assertEqual(self.closed_output("../conformance/kernel", "--programs=0", "--filters=0", "--i386=0",
                                            "--profiles=0")[0], 2)
