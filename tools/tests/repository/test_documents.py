"""The documents: docs/FAULTS.md and scf.h against the proved rows of faults, and against printed lines; the blocks of
README.md, docs/TUTORIAL.md and docs/RECIPES.md, the manual pages, statuses, and that what docs/TRUST.md and
docs/ARCHITECTURE.md name is there."""
import glob
import itertools
import json
import os
import re
import shutil
import unittest

from support.common import (ALLOW, CORE, PROGRAM, TABLE, TOOLS, TOP, Case, bytes_of, completed, filter_of,
                            for_developers, insn, jeq, load, module, part, profile_of, ret, text_of)
from program import test_answers, test_largest, test_profiles
from support.on_parts import assembled, each_of

# Of a row of faults: a source or a kind with its number in scf.h, and a kind between its status and its numbers.
NAME, KIND = r'\(codes "(\w+)", (\d+)\)', r'\(\s*(\w+),\s+\(codes "(\w+)", (\d+)\),\s+([^=]*?),?\s*\)'
STATUSES = {"Refused": 1, "CommandLine": 2, "Failed": 3}


def fault_rows():
    """scf_tool's faults: for each (source, kind) the numbers in scf.h, or 0, the names of its own, and the status."""
    text = text_of(TOP, "crates", "scf_tool", "specs", "Faults.antt")
    for word, name in re.findall(r'^(\w+) = (\(codes "\w+", \d+\))$', text, re.M):
        text = re.sub(rf"\b{word}\b", name, text)
    kinds, actual = re.findall(rf"^(\w+_kind) [^=]+=\s+{KIND}$", text, re.M), {}
    beside = re.search(rf"fault.beside then {NAME}", text).groups()
    for of, *source, function, status, kind, number, numbers in re.findall(
            rf"^(\w+)_row [^=]+=\s+\({NAME}, (?:(\w+) fault|{KIND})\)$", text, re.M):
        own = [row[1:] for row in kinds if row[0] == function] or [(status, kind, number, numbers)]
        for name, place in (source, beside) if of == "verify" else (source,):
            for status, kind, number, numbers in own:
                names = ["entry"] if numbers == "in_entry entry" else re.findall(r'codes "(\w+)"', numbers)
                actual.setdefault((name, kind), ((int(place), int(number)), names, STATUSES[status]))
    return actual


def rows():
    """The faults of docs/FAULTS.md: for each (source, kind) the names of its numbers, and its sentences."""
    actual = {}
    for row in re.split(r"^(?=- )", text_of(TOP, "docs", "FAULTS.md"), flags=re.M)[1:]:
        lines, *sentences = row.partition("\n\n")[0].rstrip().split("\n  ")
        words = re.sub(r"[][`]", "", lines).split()[1:]
        for key in itertools.product(words[1].split("|"), words[2].split("|")) if words[0] == "fault" else ():
            if key in actual:
                raise AssertionError(f"two rows for {key}")
            actual[key] = ([word for word in words[3:] if word != "N"], sentences)
    return actual


def status_of(source, kind):
    """The exit status of a fault, as the page says it."""
    if source in ("input", "bundle") or kind in ("Read", "Truncated", "Memory") or \
            kind == "TooLong" and source != "text":
        return 3
    return 2 if source in ("number", "command") else 1


def options(command):
    return re.findall(r"--([a-z0-9-]+) <NUMBER>", completed([*CORE, command, "--help"]).stdout.decode())


class Faults(Case):
    def test_the_page_and_the_header_have_each_row(self):
        """The page has of `beside` what a filter may have, and no command without a word, which clap refuses."""
        proved = fault_rows()
        printed = {key: row[1:] for key, row in proved.items() if key != ("command", "NoCommand") and (
            key[0] != "beside" or proved.keys() & {("filter", key[1]), ("stack", key[1])})}
        printed |= {("number", name): ([], 2) for word in ("run", "decide", "compare") for name in options(word)}
        self.assertEqual({key: (names, status_of(*key)) for key, (names, _) in rows().items()}, printed)
        for at, enum in enumerate(("SOURCE", "KIND")):
            numbers = re.findall(rf"^ +SCF_{enum}_(\w+) = (\d+)", text_of(TOP, "library", "scf.h"), re.M)
            self.assertEqual(sorted((name.replace("_", ""), int(number)) for name, number in numbers),
                             sorted({(key[at].upper(), row[0][at]) for key, row in proved.items() if row[0][at]}))

    def test_each_row_says_when_and_what_to_do(self):
        for key, (_, sentences) in rows().items():
            self.assertEqual(len(sentences), 2, key)
            for sentence in sentences:
                self.assertRegex(sentence, r"^[A-Z`].*\.$", key)

    def test_printed_lines_and_statuses_are_those_of_the_rows(self):
        """Made inputs that give each kind but Read, Memory and that of the largest input: line, status, sentence."""
        table = part("table", bytes_of(TABLE))

        def with_table(profile):
            return part("profile", profile.encode() if isinstance(profile, str) else profile) + table

        filters = [(insn(code, k, jt, jf) + ret(0), fault) for code, jt, jf, k, fault in test_answers.REFUSED_FIRST]
        filters += [(assembled(text), fault) for text, fault in test_answers.REFUSED]
        profiles = [*each_of(test_profiles.PROFILES),
                    *((test_profiles.with_entries(text), fault) for text, fault in each_of(test_profiles.ENTRIES)),
                    *((test_profiles.with_args(text), fault) for text, fault in each_of(test_profiles.ARGS))]
        # 8000 conditions, each of a wide value of its own
        many = [{"names": ["read"], "action": "SCMP_ACT_LOG", "args": [
            {"index": at, "value": number, "op": "SCMP_CMP_GT"} for at in range(2)]}
            for number in range(2**40, 2**40 + 4000)]
        cases = [
            *((["check"], data, f"fault filter {fault}") for data, fault in filters),
            *((["asm"], text.encode(), f"fault text {fault}") for text, fault in each_of(test_answers.FAULTS)),
            *((["compile"], part("profile", b"{}") + part("table", text.encode()), f"fault table {fault}")
              for text, fault in each_of(test_profiles.TABLES) if fault),
            *((["compile"], part("profile", profile if isinstance(profile, bytes) else profile.encode())
               + part("table", b"a 1\nb 2\nc 3\nd 5\ne 5\n"), f"fault profile {fault}") for profile, fault in profiles),
            (["decide"], b"filter x\n", "fault bundle Header offset 0"),
            (["decide"], b"filter 9\nx", "fault bundle Short offset 0"),
            (["decide"], part("table", b""), "fault bundle Parts"),
            (["run"], b"12345678123", "fault filter Truncated offset 8"),
            (["check"], bytes(32769), "fault filter TooLong"),
            (["asm"], b"ret a\n" * 4097, "fault text TooLong line 4097"),
            (["compare"], part("filter", ret(0)) + part("profile", b"{}") + part("table", b" " * 4194305),
             "fault table TooLong"),
            (["compare"], part("filter", ret(0)) + with_table(b" " * 4194305), "fault profile TooLong"),
            (["compile", "--architectures"],
             with_table('{"defaultAction":"SCMP_ACT_ALLOW"}') + part("table-arm", b""),
             "fault profile NotListed table 1"),
            (["compile"], with_table(profile_of(*["read"] * 4097)), "fault profile TooMany"),
            (["compile"], with_table(json.dumps({"defaultAction": "SCMP_ACT_ALLOW", "syscalls": many})),
             "fault compile TooLarge"),
            (["decide"], part("filter", ret(0) * 4096) * 8, "fault stack TooMany total 32796"),
            (["run", "--nr", "x"], b"", "fault number nr"),
            (["decide", "--arch", "4294967296"], b"", "fault number arch"),
            (["run", "--a5", "18446744073709551616"], b"", "fault number a5"),
            (["compare", "--limit", "0x"], b"", "fault number limit"),
            (["compare", "--native", "--calls"], b"", "fault command Flags"),
            (["compare", "--nr-from", "5", "--nr-to", "4"], b"", "fault command Range"),
            (["compare", "--calls"], part("filter", b"") + part("profile", b"") + part("table", b""),
             "fault command Calls"),
            (["compare", "--reading", "youki"], b"", "fault command Reading"),
        ]
        cases += [(["compare", "--beside"], part("beside", given), line.replace("fault filter", "fault beside", 1))
                  for _, given, line in cases if line.startswith("fault filter")]
        cases.append((["compare", "--beside"], part("beside", ret(0) * 4096) * 8, "fault beside TooMany total 32796"))
        seen = set()
        for words, given, line in cases:
            key = tuple(line.split()[1:3])
            if key in seen and key[0] != "number":
                continue
            with self.subTest(line=line):
                status, out, _ = self.run_words([*CORE, *words], given)
                seen.add(key)
                self.assertEqual(out.split("\n")[0], line)
                self.assertEqual(status, status_of(*key))
                self.assertEqual(self.run_tool("explain", line)[1].split("\n")[:2], rows()[key][1])
        unseen = {key for key in rows() if key not in seen and key[1] not in ("Memory", "Read") and key[0] != "number"}
        self.assertEqual(unseen, {("input", "TooLong")})


# How a line of scf's output begins that stands as a comment behind a command.
OUTPUT = (
    r"(?:ALLOW|LOG|TRACE|USER_NOTIF|ERRNO|TRAP|KILL_THREAD|KILL_PROCESS|UNNAMED|"
    r"same|differs|undecided|unfinished|accepted|fault)\b[^;,]*$"
)


def blocks_of(text):
    """The shell blocks of a document, each with the block of output that follows it, if one does."""
    actual = re.findall(r"^```(\w*)\n(.*?)^```$\n?(\n(?=```\n))?", text, re.M | re.S)
    for at, (language, body, is_followed) in enumerate(actual):
        if language == "sh":
            follows = actual[at + 1] if is_followed and at + 1 < len(actual) and not actual[at + 1][0] else None
            yield body, follows[1] if follows else None


def commands_of(block):
    """The commands of a block: a line, with what it continues and the text that it hands over."""
    lines = iter(block.splitlines(keepends=True))
    for line in lines:
        command = line
        while command.endswith("\\\n"):
            command += next(lines)
        for end in re.findall(r"<<-?\s*'?(\w+)'?", command):
            for held in lines:
                command += held
                if held.strip() == end:
                    break
        if command.strip():
            yield command


class Page(Case):
    """A page's commands, as they stand, in a folder that has the launcher and the tools."""

    def setUp(self):
        super().setUp()
        for name in ("scf", "tools", "tables", "docs", "crates"):
            os.symlink(os.path.join(TOP, name), os.path.join(self.folder, name))
        os.chmod(self.file("test", "#!/bin/sh\necho '0 passed, 0 failed'\n"), 0o755)
        self.env = {**os.environ, "PATH": f"{self.folder}:{os.environ['PATH']}", "TMPDIR": self.folder}


class Blocks(Page):
    """The shell blocks (```sh) of README.md and docs/TUTORIAL.md.

    Behind a command its first line of output may stand as a comment. What the other commands of a block print is the
    block without a language that follows at once, if one does.
    """

    def check_blocks(self, *path):
        """Runs the blocks of a page, all commands of one in one shell: how many outputs were compared."""
        compared = 0
        for block, output in blocks_of(text_of(TOP, *path)):
            commands, remaining = list(commands_of(block)), ""
            script = "".join(f"{command}printf '\\nstatus %s of command {at}\\n' \"$?\"\n" for at,
                             command in enumerate(commands))
            done = completed(["sh"], script.encode(), cwd=self.folder)
            printed = re.split(r"\nstatus ([0-9]+) of command [0-9]+\n", done.stdout.decode())
            self.assertEqual(len(printed), 2 * len(commands) + 1, done.stderr.decode())
            for command, shown, status in zip(commands, printed[::2], map(int, printed[1::2])):
                # (a command that shows what it says on standard error may refuse its words)
                self.assertIn(status, (0, 1, 4, 2)[:3 + ("2>&1\n" in command)], f"{command}{done.stderr.decode()}")
                text = re.search(rf"\s#\s(?:.*: )?({OUTPUT})", command.split("\n")[0])
                if text:
                    self.assertEqual(shown.split("\n")[0], text[1].strip(), command)
                    compared += 1
                else:
                    remaining += shown
            if output is not None:
                self.assertEqual(remaining, output)
                compared += 1
        return compared

    def test_readme(self):
        self.assertGreaterEqual(self.check_blocks("README.md"), 2)
        self.assertLessEqual(text_of(TOP, "README.md").count("\n"), 140)

    def test_tutorial(self):
        self.assertGreaterEqual(self.check_blocks("docs", "TUTORIAL.md"), 8)


class Names(unittest.TestCase):
    """What the documents name."""

    def test_each_name_stands_in_the_sources(self):
        words = set()
        for top in ("crates", "library", "tools", "bench"):
            for at, folders, files in os.walk(os.path.join(TOP, top)):
                folders[:] = [name for name in folders if name not in ("out", "tests")]
                words.update(re.findall(r"\w+", " ".join([at, *files])))
                for name in files:
                    if name.endswith((".rt", ".antt", ".h")) or name == "run":
                        words.update(re.findall(r"\w+", text_of(TOP, at, name)))
        for page in ("TRUST.md", "ARCHITECTURE.md", "DECISIONS.md"):
            for name in re.findall(r"`([a-z]+(?:_[a-z0-9]+)+|[A-Z]\w+)`", text_of(TOP, "docs", page)):
                self.assertIn(name, words, page)

    # What docs/ARCHITECTURE.md says how to add, and how files name the example of each.
    ADDED = {"An architecture": r'(?m)\bArm\b|arch_arm\b|table-arm\b|(?:\b|_)ARM\b|"arm"|^    arm,$',
             "An action": r'\bTrap\b|(?i:ret_trap)\b|"(?:[A-Z_]+ )*TRAP[" ]|\bKILL_THREAD, TRAP,',
             "A fault": r"\bEmptyNames\b|_EMPTY_NAMES\b"}

    def test_what_is_touched_for_an_architecture_an_action_and_a_fault(self):
        """Each file that names the example stands in the item, and each file of the item is there."""
        page, places = text_of(TOP, "docs", "ARCHITECTURE.md"), ("crates", "tools", "library", "")
        paths = [path for pattern in ("tools/scf*/**/*.py", "library/*.[ch]*", "library/go/*.go", "library/*/scf/*.py",
                                      "library/rust/src/*.rs", "docs/*.json", "crates/*/src/**/*.rt",
                                      "crates/*/specs/**/*.antt", "crates/*/proofs/**/*.antt")
                 for path in glob.glob(os.path.join(TOP, pattern), recursive=True)]
        sources = {path: text_of(TOP, path) for path in paths if not re.search("_tests?[/.]|/commands/", path)}
        for what, pattern in self.ADDED.items():
            item = re.search(rf"^\*\*{what}\*\*.*?(?=^\*\*)", page, re.M | re.S)[0]
            listed = set()
            for name in re.findall(r"[\w/.]+\.(?:rt|antt|py|hpp|h|c|go|rs|json)\b", item):
                there = [path for path in (os.path.join(TOP, place, name) for place in places) if os.path.isfile(path)]
                self.assertEqual(len(there), 1, name)
                listed.add(there[0])
            named = {path for path, text in sources.items() if re.search(pattern, text)}
            self.assertGreater(len(named), 8)
            self.assertEqual(named - listed, set(), what)

    def test_each_file_of_definitions_says_what_it_defines(self):
        for path in glob.glob(os.path.join(TOP, "crates", "*", "specs", "*.antt")):
            if os.path.basename(path) not in ("Lib.antt", "internal.antt"):
                with open(path, encoding="utf-8") as file:
                    self.assertRegex(file.readline(), r"^-- [A-Z]", path)


# Programs that the pages run as root; another line that begins with `# ` was printed by a tool.
AS_ROOT = ("apt", "ausearch", "make", "mkdir", "podman", "scf", "strace", "systemctl")
# Where Debian's golang-github-containers-common, which podman recommends, puts the profile of podman.
PODMANS = "/usr/share/containers/seccomp.json"


def console_of(*path):
    """The commands of a page's blocks ```console: whether root runs each, the command, and the lines it prints."""
    commands = []
    for body in re.findall(r"^```console\n(.*?)^```$", text_of(TOP, *path), re.M | re.S):
        for line in body.splitlines():
            is_root = line.startswith("# ") and line.split()[1] in AS_ROOT
            if is_root or line.startswith("$ "):
                commands.append((is_root, line[2:], []))
            else:
                commands[-1][2].append(line)
    return commands


class Consoles(Page):
    """The commands at `$` of the pages whose inputs and programs are here, as they stand: what they print, and in it
    `...` for any lines. Those at `#` change the machine, and are only looked at for their options."""

    def setUp(self):
        super().setUp()
        adds = load(16) + insn(0x54, 0x3FFF) + insn(0x07, 0) + load(24) + insn(0x54, 0x3FFF) + insn(0x0C, 0)
        turned = load(24) + insn(0x54, 0x3FFF) + insn(0x07, 0) + load(16) + insn(0x54, 0x3FFF) + insn(0x0C, 0)
        tests = jeq(2047, 0, 1) + ret(ALLOW) + ret(0x00050001)
        for name, data in (("sum", adds + tests), ("other-sum", turned + tests), ("sandbox", filter_of([0])),
                           ("old", filter_of([0])), ("new", filter_of([0, 1])), ("0", filter_of([0, 1])),
                           ("1", filter_of([0]))):
            self.file(f"{name}.bpf", data)
        for name, allowed in (("docker", ["read", "write"]), ("old", ["read"]), ("new", ["read", "write"]),
                              ("profile", ["read"])):
            self.file(f"{name}.json", profile_of(*allowed))

    def can_run(self, command):
        programs = re.findall(r"(?:^|[|;] *)([\w.-]+)", re.sub(r"'[^']*'", "''", command))
        needed = re.findall(r"(?<![\w/])/[\w./-]+", command)
        return all(map(os.path.exists, needed)) and all(
            name == "scf" or shutil.which(name) for name in programs) and "/program" not in command

    def check_console(self, *path):
        """Runs the commands of a page: how many ran, and how many outputs were compared."""
        ran, compared, unmade = 0, 0, set()
        for is_root, command, lines in console_of(*path):
            if is_root or not self.can_run(command) or any(name in command for name in unmade):
                unmade.update(re.findall(r">(\S+)", command))
                continue
            status, out, _ = self.run_words(["sh", "-c", f"exec 2>&1; {command}"], env=self.env)
            self.assertIn(status, (0, 1, 4), f"{command}: {out}")
            ran += 1
            if lines:
                pattern = "".join("(?:.*\n)*" if line == "..." else re.escape(f"{line}\n") for line in lines)
                self.assertRegex(out, rf"\A{pattern}\Z", command)
                compared += 1
        return ran, compared

    def test_recipes(self):
        """And the block for continuous integration, which is a script of its own."""
        ran, compared = self.check_console("docs", "RECIPES.md")
        self.assertGreaterEqual((ran, compared), (10, 4) if os.path.exists(PODMANS) else (7, 1))
        for block, _ in blocks_of(text_of(TOP, "docs", "RECIPES.md")):
            self.assertEqual(self.run_words(["sh", "-c", block], env=self.env),
                             (0, "allows nothing that the profile denies, on this ABI or another\n", ""))

    @unittest.skipUnless(os.path.exists(PODMANS), "podman's profile isn't here")
    def test_runtimes(self):
        self.assertEqual(self.check_console("docs", "RUNTIMES.md"), (2, 0))

    def test_each_tool_is_there_and_takes_its_options(self):
        """Each option of a command's own, behind which `$(..)` has others'."""
        actual, names = set(), "|".join(sorted(TOOLS, key=len, reverse=True))
        text = "".join(text_of(TOP, path) for path in ("docs/RECIPES.md", "docs/OPERATIONS.md", "README.md"))
        for body in re.findall(r"^```\w+\n(.*?)^```$", text, re.M | re.S) + re.findall(r"`([^`\n]+)`", text):
            count = 1
            while count:
                body, count = re.subn(r"\$\([^()]*\)", "", body)
            actual.update((name, tuple(re.findall(r"(?<= )--[a-z0-9-]+", remaining))) for name, remaining in
                          re.findall(rf"\b(?:tools/|scf[- ])({names})\b([^\n|;&]*)", body))
        self.assertGreater(len(actual), 30)
        for name, options_of_command in sorted(actual):
            with self.subTest(name):
                out = self.of_status(0, self.run_tool(name, "--help"))
                for option in options_of_command:
                    self.assertRegex(out, rf"{option}\b(?!-)")

    def test_descriptors_of_one_digit(self):
        """Of `10<file` POSIX leaves to the shell what it is (Shell Command Language, 2.7); to dash it is two words."""
        for name in ("RECIPES", "OPERATIONS", "TUTORIAL"):
            self.assertNotRegex(text_of(TOP, "docs", f"{name}.md"), r"\s[0-9]{2,}[<>]")


class Manual(Case):
    """docs/scf.1."""

    def text(self):
        return text_of(TOP, "docs", "scf.1")

    @unittest.skipUnless(shutil.which("groff"), "there is no groff here")
    def test_it_is_shown_without_a_warning(self):
        done = completed(["groff", "-man", "-ww", "-Tascii", os.path.join(TOP, "docs", "scf.1")])
        self.assertEqual((done.returncode, done.stderr.decode()), (0, ""))
        shown = re.sub(r"\x1b\[[0-9;]*m|.\x08", "", done.stdout.decode())
        for heading in ("NAME", "SYNOPSIS", "COMMANDS OF THE PROGRAM", "OPTIONS", "EXIT STATUS", "EXAMPLES"):
            self.assertIn(f"\n{heading}\n", shown)

    def test_every_command_and_option_stands_there(self):
        text = self.text().replace("\\-", "-").replace("\\", "")
        commands = re.findall(r"^  ([a-z]+) ", completed([PROGRAM, "--help"]).stdout.decode(), re.M)
        self.assertIn("compare", commands)
        for command in commands:
            self.assertRegex(text, rf"(?m)^\.B[R]? {command}\b", command)
            said = self.run_words([*CORE, command, "--help"])[1]
            for option in set(re.findall("(?m)^ +(?:-., )?--([a-z0-9-]+)", said)) - {"a1", "a2", "a3", "a4"}:
                self.assertRegex(text, rf"--{option}(?![a-z0-9-])", command)
        for option in ("--native", "--calls", "--no-more", "--no-less", "--path"):
            self.assertIn(option, text)
        for status in (0, 1, 2, 3, 4, 70, 125):
            self.assertRegex(text, rf"(?m)^\.B {status}$", status)

    def test_the_examples(self):
        self.file("profile.json", profile_of("read", "openat"))
        shown = self.text().replace("\\-", "-").partition(".SH EXAMPLES\n.nf\n")[2].partition("\n.fi\n")[0].split("\n")
        self.assertGreaterEqual(len(shown), 5)
        for line in shown:
            self.out_of(0, self.run_line(line))


class ManualOfTools(Case):
    """The pages that dev/manual makes of the tools' docstrings and help."""

    def setUp(self):
        super().setUp()
        self.assertEqual(self.run_words([for_developers("manual"), self.folder]), (0, "", ""))

    def test_each_tool_has_a_page_with_its_options_needs_and_examples(self):
        for name in TOOLS:
            page, shown = self.page(name), self.of_status(0, self.run_tool(name, "--help"))
            for option in re.findall(r"^  (?:-\w, )?(--[a-z0-9-]+)", shown, re.M):
                self.assertRegex(page, rf"(?m)^\.B .*{option}\b", name)
            notes = page.partition(".SH NOTES\n")[2].partition(".SH EXIT STATUS\n")[0]
            self.assertEqual("CAP_SYS_PTRACE" in notes, "CAP_SYS_PTRACE" in shown, name)
            examples = re.findall("(?m)^    (.*)$", module(name).__doc__.partition("\nExamples:\n")[2])
            self.assertIn("\n".join([".SH EXAMPLES", ".nf", *examples, ".fi"]), page)
        self.assertIn("EINTR", self.page("audit"))

    def test_lists_and_statuses_are_in_the_pages(self):
        for name, item, printed in (("lint", r"(?m)^    (\S+)", r"\.TP\n\.B (\S+)\n"),
                                    ("needs", r"(?m)^    - (\S+)", r"\.IP \\\(bu 2\n(\S+)")):
            items = re.findall(item, module(name).__doc__.split("\n\n", 2)[2].partition("\nExamples:\n")[0])
            description, _, remaining = self.page(name).partition(".SH OPTIONS")
            self.assertGreater(len(items), 4)
            self.assertEqual(re.findall(printed, description), items, name)
            self.assertRegex(remaining, r"(?m)^\.SH EXIT STATUS\n\.PP\n(Exit status: |The exit status is )", name)

    def page(self, name):
        return text_of(self.folder, f"scf-{name}.1").replace("\\-", "-").replace("\\e", "\\")

    def test_the_page_of_the_assembler_has_each_of_its_mnemonics(self):
        page = self.page("asm")
        for line in test_largest.LISTED.values():
            self.assertRegex(page, rf"\b{line.split()[0]}\b")

    @unittest.skipUnless(shutil.which("groff"), "there is no groff here")
    def test_they_are_shown_without_a_warning(self):
        for name in TOOLS:
            done = completed(["groff", "-man", "-ww", "-Kutf8", "-Tutf8", f"{self.folder}/scf-{name}.1"])
            self.assertEqual((done.returncode, done.stderr.decode()), (0, ""), name)
