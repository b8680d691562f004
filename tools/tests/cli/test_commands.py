"""The command scf: what the program answers and what a tool, the list of commands, help, examples, and the
completion of shells."""
import errno
import json
import os
import pty
import re
import shutil
import subprocess
import unittest
from unittest import mock

from support.common import (CORE, PROGRAM, SCF, TABLE, TOOLS, TOP, Case, bytes_of, completed, filter_of, for_developers,
                            jeq, load, module, part, profile_of, ret, text_of)
from support.confined import OLDEST, Confined, here
from scftools.cli import commands

LIST = text_of(TOP, "tables", "commands")
# Words that a tool refuses by themselves, and what it says of some.
WRONG_WORDS = {
    "answers": [], "ask": [("one", "two"), ("--table=-", "-")], "audit": [("--baseline", "profile.json")],
    "bundle": [()], "call-table": [("a", "b"), ("--comment",), ("--comment", "two\nlines"), ("--libseccomp", "a"),
                                   ("-", "-")],
    "check": [("--json=1",)], "compare": [("one.bpf",)],
    "compare-profiles": [("one",), ("--no-more", "--no-less", "a", "b"), ("-", "-"), ("--caps", "NO_SUCH", "a", "b"),
                         ("--kernel", "six", "a", "b"), ("--arch", "arm", "a", "b"), ("--table=-", "-", "b")],
    "compile": [("one", "two")], "decide": [("--nr",), ("none.bpf",), ("-", "-"), ("--table", "-", "-")],
    "explain": [("no", "such", "line"), ("a page fault in kernel mode",), ("fault x Y",), ("299",)],
    "filters-of": [("1",), ("out",), ("--log", "x"), ("--log", "x", "1", "out"), ("1", "out", "--", "true"), ()],
    "lint": [(), ("--table=-", "-")], "list": [()],
    "needs": [("a",), ("--profile", "--json", "a", "b"), ("--kubernetes", "a", "log", "p")],
    "oci-hook": [("x",), ("--policy", "less"), ("--wait", "61"), ("--wait", "nan"), ("--wait", "-1"), ("--table", "-")],
    "profile-of": [(), ("--no-more", "--no-less", "x"), ("-", "-"), ("--json", "--kubernetes", "a", "f")],
    "resolve-profile": [(), ("--caps", "NO_SUCH", "-"), ("--kernel", "six", "-"), ("--arch", "arm", "-"),
                        ("--kubernetes", "A", "p")],
    "run": [("one", "two")],
    "surface": [(), ("--pid", "x"), ("--pid", "0"), ("--pid", "1", "f"), ("--pid", str(2**31 - 1)), ("--beside", "f"),
                ("--table=-", "-"), ("-", "--beside", "-"), ("--arch", "i386", "f", "--beside", "f")],
    "unit-profile": [()], "verify-process": [("1",)],
    "why": [(), ("--pid", "1", "--core", "x"), ("--pid", "x"), ("--pid", "0"), ("-", "-")],
}
ONE_INPUT = "only one input can be '-'"
SAID_OF_WRONG_WORDS = {
    ("ask", "--table=-", "-"): ONE_INPUT, ("lint", "--table=-", "-"): ONE_INPUT, ("call-table", "-", "-"): ONE_INPUT,
    **{("filters-of", *words): "give PID FOLDER, [FOLDER] -- PROGRAM, or --log LOG FOLDER"
       for words in WRONG_WORDS["filters-of"][1:]},
    ("needs", "--profile", "--json", "a", "b"): "leave out --json",
    ("surface", "--arch", "i386", "f", "--beside", "f"): "either --arch or --beside",
}


class Dispatch(Case):
    def setUp(self):
        super().setUp()
        self.filter, self.profile = self.file("f.bpf", filter_of([0])), self.file("p.json", profile_of("read"))
        self.compilation = part("profile", profile_of("read")) + part("table", bytes_of(TABLE))
        self.bundle = part("filter", filter_of([0])) + self.compilation

    def scf(self, *words, given=b"", **settings):
        return self.run_words([SCF, *words], given, **settings)

    def terminal(self):
        """Our end of a terminal, and theirs."""
        ends = pty.openpty()
        for end in ends:
            self.addCleanup(os.close, end)
        return ends

    def same(self, first, second, words, given, **settings):
        """Two commands end alike with some words, and print and say the same bytes."""
        done = [completed([*command, *words], given, cwd=self.folder, **settings) for command in (first, second)]
        self.assertEqual(*((item.returncode, item.stdout, item.stderr) for item in done), words)

    def test_core_is_the_program(self):
        """It prints what the program does, and needs nothing of the path."""
        for words, given in ((["compare", "--native", "--limit", "9"], self.bundle), (["run", "--nr", "read"], b""),
                             (["compare", "--help"], b""), (["run", "--no-such", "1"], b""), ([], b""),
                             (["check"], filter_of([0])), (["--version"], b""), (["--no-such"], b""),
                             (["check", "-h"], b"")):
            self.same([PROGRAM], CORE, words, given, env={"PATH": "/nowhere"})

    def test_without_a_file_the_program_answers_standard_input(self):
        """Its lines and its status, and nothing else."""
        profile, filter_, compilation = profile_of("read"), filter_of([0]), self.compilation
        for words, given in ((["check"], filter_), (["run"], filter_), (["run", "--nr", "1"], filter_),
                             (["dis"], filter_), (["run", "--nr=0x1", "--path"], filter_), (["asm"], b"ret a\n"),
                             (["asm"], b"no\n"),
                             (["decide"], part("filter", filter_)), (["decide", "--nr", "1"], part("filter", filter_)),
                             (["decide"], b""), (["compare"], self.bundle), (["compare", "--native"], self.bundle),
                             (["compare", "--architectures"], self.bundle), (["compare", "--no-more"], self.bundle),
                             (["compare", "--disposition", "--calls"], self.bundle), (["compare", "--limit", "9"], b""),
                             (["compare", "--nr-from=1", "--nr-to=9"], self.bundle), (["compare", "--limit=x"], b""),
                             (["compare", "--calls", "--total-limit", "9", "--splits", "0"], self.bundle),
                             (["compare", "--beside"], part("filter", filter_) + part("beside", filter_)),
                             (["compile"], compilation), (["compile", "--architectures"], compilation),
                             (["ask"], compilation), (["ask", "--nr", "1", "--architectures"], compilation),
                             (["run", "--nr", "4294967296"], filter_), (["run", "--a0", "0x"], filter_),
                             (["decide"], b"filter 8\r\n"), (["ask"], b"profile 123456789\n"), (["compile"], b"")):
            self.same(CORE, [SCF], words, given)
        # with names, and a filter or a profile in place of a bundle
        for words, given, out in ((["run", "--nr", "read"], filter_, "ALLOW 0 steps 6\n"),
                                  (["run", "--nr", "read,write"], filter_, "ALLOW 0 steps 6\nERRNO 1 steps 6\n"),
                                  (["run", "--arch", "i386"], filter_, "KILL_PROCESS 0 steps 3\n"),
                                  (["decide", "--nr", "write"], part("filter", filter_), "ERRNO 1\n"),
                                  (["decide", "--nr", "write"], filter_, "ERRNO 1\n"),
                                  (["ask", "--nr", "read"], compilation, "ALLOW 0 entry 0\n"),
                                  (["ask", "--nr", "read"], profile, "ALLOW 0 entry 0\n")):
            self.assertEqual(self.scf(*words, given=given), (0, out, ""), words)
        self.assertEqual(completed([SCF, "compile"], profile, check=True).stdout,
                         completed([*CORE, "compile"], compilation, check=True).stdout)
        self.assertEqual(json.loads(self.scf("check", "--json", given=filter_)[1])["filters"],
                         [{"file": "-", "status": 0, "instructions": 9}])

    def test_several_syscalls_in_a_word(self):
        filter_, profile = self.file("f.bpf", filter_of([0, 1])), self.file("p.json", profile_of("read", "write"))
        for command, path in (("decide", filter_), ("run", filter_), ("ask", profile)):
            self.assertEqual(self.scf(command, "--nr", "read,write", path)[1].count("# the syscall is "), 2, command)

    def test_files_are_explained(self):
        for words in (["check", self.filter], ["compare", self.filter, self.profile], ["run", "--nr", "read", "f.bpf"],
                      ["decide", "--nr=read", "f.bpf"], ["compare", "--no-more", "f.bpf", "p.json"],
                      ["compare", "--json", "f.bpf", "p.json"], ["ask", "--table", TABLE, "--nr", "read", "p.json"],
                      ["check", "no-such-file"], ["compare", "--", "f.bpf", "p.json"], ["lint", "p.json"],
                      ["list", "f.bpf"], ["compare", "--limit", "100", "f.bpf", "p.json"]):
            status, out, err = self.run_words([os.path.join(TOP, "tools", words[0]), *words[1:]])
            self.assertEqual(self.scf(*words), (status, out, err.replace(f"{words[0]}: ", f"scf {words[0]}: ")), words)
        self.assertEqual(self.scf("check", "-", given=filter_of([0])), (0, "accepted 9\n", ""))
        self.assertEqual(self.scf("dis", "f.bpf"), self.scf("dis", given=filter_of([0])))

    def test_other_names(self):
        """Each is the same as the words that its row has, and takes the words that it took before."""
        self.file("f.s", "ld [0]; jeq #41, no, yes; no: ret #0x50001; yes: ret #0x7fff0000")
        self.file("engine.json", '{"defaultAction": "SCMP_ACT_ERRNO", "syscalls": [{"name": "read", "action": '
                                 '"SCMP_ACT_ALLOW", "includes": {"caps": ["CAP_KILL"]}}]}')
        for old, new in ((["run", "--nr", "read", "--path", "f.bpf"], ["decide", "--steps", "--path", "f.bpf", "read"]),
                         (["run", "--calls-from", "-", "f.bpf"], ["decide", "--steps", "--calls-from", "-", "f.bpf"]),
                         (["ask", "--nr", "read", "p.json"], ["decide", "p.json", "read"]),
                         (["ask", "--json", "--nr", "socket", "--a0", "3", "p.json"],
                          ["decide", "--json", "p.json", "socket", "3"]),
                         (["answers", "--examples", "f.bpf"], ["surface", "--regions", "--examples", "f.bpf"]),
                         (["answers", "--json", "f.bpf"], ["surface", "--json", "--regions", "f.bpf"]),
                         (["dis", "f.s"], ["list", "--plain", "f.s"]), (["asm", "f.s"], ["compile", "f.s"]),
                         (["resolve-profile", "--caps", "KILL", "engine.json"],
                          ["profile-of", "--caps", "KILL", "engine.json"]),
                         (["explain", "fault", "filter", "Empty"], ["help", "fault", "filter", "Empty"]),
                         (["verify-process", "1", "none"], ["verify", "1", "none"])):
            with self.subTest(old[0]):
                first, second = (completed([SCF, *words], b"read\nwrite 1\n", cwd=self.folder) for words in (old, new))
                self.assertEqual((first.returncode, first.stdout, first.stderr.replace(old[0].encode(), b"NAME")), (
                    second.returncode, second.stdout, second.stderr.replace(new[0].encode(), b"NAME")))
                self.assertEqual((first.returncode, first.stdout), (2, b"") if old[1] == "1" else (0, mock.ANY))
                self.assertIn(f"The same as scf {commands.ALIASES[old[0]]}.",
                              " ".join(self.scf(old[0], "--help")[1].split()))

    def test_a_call_stands_behind_the_input(self):
        """As a line of --calls-from has it."""
        self.file("one.bpf", load(0) + jeq(41, 0, 3) + load(16) + jeq(2, 0, 1) + ret(0x50061) + ret(0x7FFF0000))
        for words, printed in (("one.bpf socket AF_INET", "ERRNO 97\n"), ("one.bpf socket 2 1", "ERRNO 97\n"),
                               ("one.bpf 41 AF_UNIX", "ALLOW 0\n"), ("--arch i386 one.bpf read", "ALLOW 0\n"),
                               ("p.json read", "ALLOW 0 entry 0\n"), ("p.json write -1", "ERRNO 1 default\n"),
                               ("--steps one.bpf write", "ALLOW 0 steps 3\n")):
            with self.subTest(words):
                status, out, err = self.scf("decide", *words.split())
                self.assertEqual((status, out[:len(printed)], err), (0, printed, ""))
        for words, says in (("f.bpf f.bpf", "is a file, and several filters go with --nr"),
                            ("f.bpf read 1 2 3 4 5 6 7", "at most six arguments"),
                            ("--native f.bpf read", "--native speaks of a profile"),
                            ("--path f.bpf read", "--path goes with --steps"),
                            ("--steps --nr 1 f.bpf f.bpf", "the instructions of one filter")):
            with self.subTest(words):
                self.is_refusal(says, self.scf("decide", *words.split()))

    def test_help_and_usage_errors_are_the_same_everywhere(self):
        """Whatever standard input is, and where the program was never built."""
        tree = self.made_tree("#!/bin/sh\nexit 99\n")
        shutil.copy2(SCF, tree)
        theirs = self.terminal()[1]
        for command, words, status in (("run", ["--help"], 0), ("asm", ["-h"], 0), ("compare", ["--version"], 0),
                                       ("decide", ["--no-such"], 2), ("run", ["--nr"], 2), ("dis", ["--no-such"], 2),
                                       ("compile", ["--help"], 0)):
            done = [self.run_words([os.path.join(top, "scf"), command, *words], given=given, cwd=self.folder)
                    for top in (TOP, tree) for given in (theirs, subprocess.DEVNULL, filter_of([0]))]
            self.assertEqual((done, done[0][0]), (done[:1] * 6, status), (command, words))
        self.assertEqual(self.scf("--version"), self.run_words([*CORE, "--version"]))

    def test_without_a_file_at_a_terminal(self):
        theirs = self.terminal()[1]
        for command, names in (("compare", "ACTUAL, WANTED"), ("check", "FILTER"), ("run", "X"), ("dis", "FILTER"),
                               ("decide", "X"), ("ask", "X"), ("compile", "PROFILE")):
            self.is_refusal(f"scf {command}: the following arguments are required: {names}\n",
                            self.scf(command, given=theirs))
        for words in (["compare", "f.bpf"], ["compare", "--json"]):
            self.assertIn("arguments are required: ", self.scf(*words, given=self.bundle)[2])
        self.assertIn("--nr-from goes with a bundle", self.scf("compare", "--nr-from=1", "f.bpf", "p.json")[2])

    def test_no_filter_is_printed_on_a_terminal(self):
        ours, theirs = self.terminal()
        self.file("text", b"ret a\n")
        for words, given in ((["asm"], b"ret a\n"), (["asm", "text"], b""), (["compile"], self.compilation),
                             (["compile", "p.json"], b"")):
            self.is_refusal(f"scf {words[0]}: a filter isn't text: redirect the output into a file\n",
                            self.scf(*words, given=given, stdout=theirs))
        self.assertEqual(self.scf("compile", given=self.compilation, stdout=subprocess.DEVNULL)[0], 0)
        self.assertEqual(self.scf("asm", "--help", stdout=theirs)[0], 0)
        self.assertNotIn(b"\0", os.read(ours, 9999))

    def test_without_python(self):
        """The program's words need none, and a tool says what it lacks."""
        tools = os.path.join(self.folder, "bin")
        os.makedirs(tools)
        for name in ("cat", "sed", "readlink"):
            os.symlink(shutil.which(name), os.path.join(tools, name))
        env = {"PATH": tools}
        self.assertEqual(self.scf("check", given=ret(0), env=env), (0, "accepted 1\n", ""))
        self.assertEqual(self.scf("lint", "p.json", env=env), (125, "", "scf: lint needs python3\n"))
        self.assertEqual(self.scf("help", env=env), (0, LIST, ""))
        self.assertEqual(self.scf("lnt", env=env), (2, "", "scf: 'lnt' isn't a command: see scf help\n"))

    def test_color(self):
        self.file("q.json", profile_of())
        green = "\x1b[1;32msame\x1b[0m\n"
        words = [SCF, "compare", "f.bpf", "p.json"]
        self.assertEqual(self.run_words(words)[1], "same\n")
        for always in (["--color=always"], ["--color", "always"]):
            self.assertEqual(self.run_words([*words, *always])[1], green)
        self.assertEqual(self.run_words([*words, "--color=blue"])[0], 2)
        out = self.run_words([SCF, "compare", "--color=always", "f.bpf", "q.json"])[1].split("\n")
        self.assertEqual(out[0], "\x1b[1;31mdiffers\x1b[0m")
        self.assertTrue(all(re.fullmatch(r"\x1b\[2m# .*\x1b\[0m", line) for line in out[4:-1]), out)
        ours, theirs = self.terminal()
        env = {name: value for name, value in os.environ.items() if name != "NO_COLOR"}
        for more, printed in (({}, green), ({"NO_COLOR": "1"}, "same\n")):
            self.run_words(words, stdout=theirs, env={**env, **more})
            self.assertEqual(os.read(ours, 99).decode().replace("\r", ""), printed)


class Help(Case):
    def scf(self, *words):
        return self.run_words([SCF, *words])

    def test_the_list(self):
        self.assertEqual(self.scf(), (2, LIST, ""))
        self.assertEqual(self.scf("version"), self.scf("--version"))
        for words in (["help"], ["--help"], ["-h"], ["help", "help"]):
            self.assertEqual(self.scf(*words), (0, LIST, ""))
        with open("/dev/full", "wb") as full:
            self.assertEqual(self.run_words([SCF, "help"], stdout=full)[0], 2)

    def test_each_command_stands_in_the_list_once_which_fits_a_screen(self):
        self.assertEqual(re.findall(r"(?m)^  ([a-z-]+) +\S.*$", LIST), [*commands.COMMANDS, "core"])
        self.assertEqual(sorted(re.findall(r"[a-z-]+(?= |\n)", LIST.partition("Other names: ")[2].replace(
            "; rarely needed:", ""))), sorted([*commands.ALIASES, *commands.OTHERS]))
        self.assertLessEqual(LIST.count("\n"), 24)
        self.assertLessEqual(max(map(len, LIST.split("\n"))), 80)
        links = [name for name in os.listdir(os.path.join(TOP, "tools"))
                 if os.path.islink(os.path.join(TOP, "tools", name))]
        self.assertEqual(sorted(links), TOOLS)

    def test_each_command_has_help_that_names_it_and_its_options(self):
        """In the usage `--a0 N .. --a5 N` stands for those between, too."""
        left_out = {"--help", "--version", "--color", *(f"--a{at}" for at in range(1, 5))}
        for name in sorted({*TOOLS} - {"help"}):
            with self.subTest(name):
                out = self.out_of(0, self.scf("help", name))
                self.assertRegex(out, rf"(?m)^usage: scf {name}\b")
                self.assertEqual(self.scf(name, "--help")[1], out)
                usage, _, remaining = out.partition("\n\n")
                options = {*re.findall(r"(?m)^  (?:-h, )?(--[a-z0-9-]+)", remaining)}
                if name != "bundle":
                    self.assertEqual({*re.findall(r"--[a-z0-9-]+", usage)}, options - left_out)
                    self.assertLessEqual(max(map(len, usage.split("\n"))), 100)

    def test_h_is_short(self):
        """It has the usage, at most five options, and the examples of --help."""
        for name in ("compare", "audit", "asm"):
            (status, short, _), whole = self.scf(name, "-h"), self.scf(name, "--help")[1]
            self.assertEqual((status, short.partition("\n\n")[0]), (0, whole.partition("\n\n")[0]), name)
            self.assertLessEqual(len(re.findall(r"(?m)^  --", short)), 5, name)
            self.assertEqual(short.partition("\nexamples:\n")[2], whole.partition("\nexamples:\n")[2], name)
            self.assertIn(f"scf {name} --help has all.\n", short)

    def test_wrong_words(self):
        for name, rows in WRONG_WORDS.items():
            for words in (("--no-such-option",), *rows):
                with self.subTest(name, words=words):
                    self.is_refused(SAID_OF_WRONG_WORDS.get((name, *words), f"{name}: "), name, *words)

    def test_a_wrong_option_names_the_nearest(self):
        for words, near in ((["compare", "--no-mor", "a", "b"], "--no-more"), (["lint", "--strcit", "p"], "--strict"),
                            (["surface", "--condition", "f"], "--conditions"), (["run", "--Path"], "--path"),
                            (["check", "--jsn=1"], "--json"), (["lint", "--strcit"], "--strict"),
                            (["diff", "--jsno", "a"], "--json")):
            self.is_refusal(f"; the nearest is {near}\n", self.scf(*words))
        self.is_refusal("unrecognized arguments: --zzz\n", self.scf("run", "--zzz"))

    def test_a_wrong_word_names_the_nearest(self):
        for word, near in (("comapre", "compare"), ("compare-profile", "compare-profiles"), ("verfy", "verify"),
                           ("List", "list"), ("filters_of", "filters-of"), ("surfaces", "surface"),
                           ("COMPARE", "compare"), *commands.SLIPS.items()):
            for words in ([word], [word, "x"]):
                self.assertEqual(self.scf(*words),
                                 (2, "", f"scf: '{word}' isn't a command; the nearest is '{near}': see scf help\n"))
            self.assertEqual(self.scf("help", word), (
                2, "", f"scf help: '{word}' isn't a command, nor a line or status of scf; the nearest command is "
                f"'{near}': see scf help\n"))
        self.assertEqual(self.scf("\x1b[2J"), (2, "", "scf: that word isn't a command: see scf help\n"))

    def test_an_input_in_place_of_a_command_names_one(self):
        self.file("f.bpf", filter_of([0]))
        self.file("p.json", profile_of("read"))
        for words, says in (("f.bpf", "scf surface FILE"), ("./p.json", "scf surface FILE"),
                            ("pid:1", "scf surface pid:.."), ("unit:web.service", "scf surface unit:.."),
                            ("lint f.bpf", "`scf profile-of` prints its profile"),
                            ("list p.json", "`scf compile` makes the filter of one"),
                            ("compile pid:1", "`scf profile-of pid:1` prints"), ("check unit:a", "./unit:a is one"),
                            ("why p.json", "hand it over as standard input"),
                            ("profile-of p.json pid:1", "stands alone")):
            with self.subTest(words):
                self.is_refusal(says, self.scf(*words.split()))
        self.file("test/f.bpf", filter_of([0]))
        self.assertIn("the nearest is 'decide'", self.scf("test")[2])
        self.assertEqual(self.scf("--help", "list"), self.scf("help", "list"))
        self.assertEqual(self.scf("-V"), self.scf("--version"))
        for word in ("qqq", "scftools", "tests", "../scf", "plain_profile"):
            self.assertEqual(self.scf(word)[:2], (2, ""))


class Examples(Confined):
    """Each tool's examples, in a folder that has what they name."""

    def setUp(self):
        super().setUp()
        for name, names in (("profile", ["read", "openat"]), ("old", ["read", "openat"]), ("new", ["read"]),
                            ("engine", ["read"])):
            self.file(f"{name}.json", profile_of(*names))
        for name, allowed in (("filter", [0, 257]), ("old", [0, 257]), ("new", [0])):
            self.file(f"{name}.bpf", filter_of(allowed))
        self.file("log", "read(0, \"\", 9) = 0\n")
        self.file("rows", "read = ALLOW\nwrite = ERRNO EPERM\n")
        self.file("strace.log", "prctl(PR_SET_SECCOMP, SECCOMP_MODE_FILTER, {len=1, filter=["
                                "BPF_STMT(BPF_RET|BPF_K, SECCOMP_RET_ALLOW)]}) = 0\n")
        self.file("unistd_64.h", "#define __NR_read 0\n")
        self.file("counts", "read 9\n")
        self.file("filter.s", "ld [0]\njeq #41, no, yes\nno: ret #0x50001\nyes: ret #0x7fff0000\n")
        shutil.copy2(TABLE, self.folder)

    def run_examples(self, name, **more):
        actual = re.findall(r"(?m)^    (scf .*)$", module(name).__doc__.partition("\nExamples:\n")[2])
        self.assertEqual(len(actual), 3, name)
        for line in actual:
            with self.subTest(line):
                status, out, err = self.run_line(line, **more)
                self.assertIn(status, (0, 1, 4), out + err)
                self.assertNotRegex(out, r"(?m)^fault ")

    def test_those_of_files(self):
        for name in sorted({*TOOLS} - {"audit", "verify", "filters-of", *commands.ALIASES}):
            self.run_examples(name)

    @here
    def test_those_of_a_process(self):
        for name in ("audit", "filters-of", "verify"):
            self.run_examples(name, PID=str(self.child([OLDEST]).pid))


@unittest.skipUnless(shutil.which("git"), "there is no git here")
class Hook(Case):
    """contrib/pre-commit: the profiles of a commit, or those that it is given, are linted."""

    def committed(self, text, *words):
        os.makedirs(os.path.join(self.folder, "repository"), exist_ok=True)
        self.file("repository/a seccomp.json", text)
        script = f"cd {self.folder}/repository && git init -q . && git add -A && {' '.join(words) or '$HOOK'}"
        return self.run_line(script, HOOK=os.path.join(TOP, "contrib", "pre-commit"), GIT_CONFIG_GLOBAL=os.devnull)

    def test_a_commit(self):
        profile = {"defaultAction": "SCMP_ACT_ERRNO", "syscalls": [{"names": ["read"], "action": "SCMP_ACT_ALLOW"}]}
        self.begins(0, "# a seccomp.json", self.committed(json.dumps(profile)))
        profile["syscalls"][0]["args"] = [{"index": 0, "value": 0, "op": "SCMP_CMP_MASKED_EQ"}]
        for words in ((), ("$HOOK", "'a seccomp.json'")):
            status, out, _ = self.committed(json.dumps(profile), *words)
            self.assertNotEqual(status, 0)
            self.assertIn("# a seccomp.json\nerror always-met: entry 0", out)
        self.assertEqual(self.committed("{}", "git mv 'a seccomp.json' other.json && $HOOK")[:2], (0, ""))

    def test_what_git_commits(self):
        """Git makes no commit while one of two profiles has a name in which two letters are exchanged."""
        commit = ("ln -sf $HOOK .git/hooks/pre-commit && git -c user.name=a -c user.email=a@b commit -qm x && "
                  "git log --oneline | wc -l")
        os.makedirs(os.path.join(self.folder, "repository"))
        self.file("repository/seccomp.json", '{"defaultAction": "SCMP_ACT_ERRNO"}')
        for name, ended in (("ptrcae", (1, "")), ("ptrace", (0, "1\n"))):
            profile = {"defaultAction": "SCMP_ACT_ALLOW", "syscalls": [{"names": [name], "action": "SCMP_ACT_ERRNO"}]}
            status, out, err = self.committed(json.dumps(profile), commit)
            self.assertEqual((status, out, "error unknown-name: entry 0" in err), (*ended, name == "ptrcae"), err)


class Completion(Case):
    def setUp(self):
        super().setUp()
        self.paths = [os.path.join(self.folder, f"scf.{name}") for name in ("bash", "zsh", "fish")]
        self.assertEqual(self.run_words([for_developers("completion"), *self.paths]), (0, "", ""))

    def completed(self, *words):
        """What bash proposes for the last of some words."""
        script = 'source "$1"; shift; COMP_WORDS=("$@"); COMP_CWORD=$(($# - 1)); _scf; printf "%s\\n" "${COMPREPLY[@]}"'
        return set(self.run_words(["bash", "-c", script, "bash", self.paths[0], *words])[1].split())

    def units(self):
        """A command systemctl that knows three units."""
        known = "a.service enabled x\\nb@.service static -\\nc.socket - -\\n"
        os.chmod(self.file("systemctl", f"#!/bin/sh\nprintf '{known}'\n"), 0o755)
        return mock.patch.dict(os.environ, PATH=f"{self.folder}:{os.environ['PATH']}")

    def test_bash(self):
        """Commands, options, and their values: constants, capabilities, lists, choices, processes, units and files."""
        self.assertEqual(self.completed("scf", ""), {*TOOLS})
        self.assertEqual(self.completed("scf", "help", "compa"), {"compare", "compare-profiles"})
        self.file("a file.bpf", b"")
        for words, values in ((["compare", "--no"], {"--no-more", "--no-less"}),
                              (["decide", "--nr", "renameat"], {"renameat", "renameat2"}),
                              (["decide", "--nr", "=", "renameat"], {"renameat", "renameat2"}),
                              (["decide", "--nr", "=", "read,renameat"], {"read,renameat", "read,renameat2"}),
                              (["decide", "--a0", "AF_INE"], {"AF_INET", "AF_INET6"}),
                              (["ask", "--arch", "i38"], {"i386"}), (["lint", "--except", "x3"], {"x32"}),
                              (["compile", "--caps", "docker,CAP_SYS_A"], {"docker,CAP_SYS_ADMIN"}),
                              (["compare", "--table", "a"], {"a", "file.bpf"}),
                              (["unit-profile", "--errno", "EP"],
                               {item for item in errno.errorcode.values() if item.startswith("EP")})):
            self.assertEqual(self.completed("scf", *words), values, words)
            self.assertEqual(self.completed(f"/usr/bin/scf-{words[0]}", *words[1:]), values, words)
        for words in (["filters-of", "--thread", str(os.getpid())], ["verify-process", str(os.getpid())]):
            self.assertIn(str(os.getpid()), self.completed("scf", *words))
        with self.units():
            self.assertEqual(self.completed("scf", "unit-profile", ""), {"a.service", "b@.service", "c.socket"})
            self.assertEqual(self.completed("scf", "unit-profile", "--json", "b"), {"b@.service"})

    def test_inputs_that_are_no_files(self):
        """`pid:N` and `unit:NAME`, which bash takes apart, of the commands that take them."""
        self.file("pages.bpf", b"")
        number = str(os.getpid())
        for words, values in ((["surface", "p"], {"pages.bpf", "pid:"}), (["lint", "p"], {"pages.bpf"}),
                              (["compare", "pid", ":", number], {number}), (["lint", "pid", ":", number], set()),
                              (["list", "u"], set()), (["compile", "u"], {"unit:"}), (["compile", "pi"], set()),
                              (["diff", "old.bpf", "unit", ":", "b"], {"b@.service"})):
            with self.subTest(words), self.units():
                # (the number of another process may begin so, too)
                completed = self.completed("scf", *words)
                self.assertEqual({each for each in completed if each == number or not each.startswith(number)}, values)

    @unittest.skipUnless(shutil.which("zsh"), "there is no zsh here")
    def test_values_in_zsh(self):
        """The words of `--nr=`, by stand-ins for zsh's own functions, which need a terminal."""
        script = ('_arguments() { print -rl -- "$@" }; _files() { }; compset() { }; compadd() { print -rl -- "$@" }; '
                  'service=$2 words=($2 $3) CURRENT=3; source $1; for name in ${(k)functions[(I)_scf_values_*]}; do '
                  'print -r -- "# $name"; $name; done')
        for words in (["scf", "decide"], ["scf-decide", ""]):
            out = self.run_words(["zsh", "-fc", script, "zsh", self.paths[1], *words])[1]
            name = re.search(r"(?m)^\*--nr=\[.*\]:value:(_scf_values_\d+)$", out)[1]
            self.assertIn("\nrenameat2\n", out.partition(f"# {name}\n")[2].partition("\n# ")[0])
            self.assertIn("\n*:argument: _scf_inputs pid\\: unit\\:\n", out)

    def test_every_option_of_a_tool(self):
        for name in sorted({*TOOLS} - {"bundle", "help"}):
            options = set(re.findall(r"(?m)^  (?:-h, )?(--[a-z0-9-]+)", self.run_words([SCF, "help", name])[1]))
            self.assertEqual(self.completed("scf", name, "--"), options, name)

    def test_other_shells_read_theirs(self):
        for shell, path in zip(("bash", "zsh", "fish"), self.paths):
            if shutil.which(shell):
                self.assertEqual(self.run_words([shell, "-n", path]), (0, "", ""))
        if shutil.which("fish"):
            out = self.run_words(["fish", "-c", f"source {self.paths[2]}; complete -C 'scf compare --no-'"])[1]
            self.assertEqual(re.findall(r"(?m)^--no-\w+", out), ["--no-less", "--no-more"])
            for line, values in (("scf-compare --no-", ["--no-less", "--no-more"]),
                                 ("scf decide --a0 AF_INET6", ["AF_INET6"]),
                                 ("scf-decide --nr=read,renameat2", ["--nr=read,renameat2"]),
                                 (f"scf verify-process {os.getpid()}", [str(os.getpid())]),
                                 ("scf surface pid", ["pid:"]),
                                 (f"scf surface pid:{os.getpid()}", [f"pid:{os.getpid()}"])):
                out = self.run_words(["fish", "-c", f"source {self.paths[2]}; complete -C '{line}'"])[1]
                self.assertEqual([it.split("\t")[0] for it in out.splitlines()], values)
