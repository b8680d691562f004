"""tools/compare-profiles: the calls that a new profile answers otherwise, held against a small reading of the JSON."""
import json
import os
import random
import unittest
from unittest import mock

from support.common import Case, ret, tool
from support.confined import ended, started
from report.test_why import reading
import kernel_profiles
from kernel_profiles import answer_of
from scftools.model import tables
from scftools.model.calls import Call
from scftools.ask import client
from scftools.forms.profile_inputs import ProfileInput
from scftools.report import changes, compare

ALLOW, ERRNO = "SCMP_ACT_ALLOW", "SCMP_ACT_ERRNO"
NOT_40 = [{"index": 0, "value": 40, "op": "SCMP_CMP_NE"}]
IS_41 = [{"index": 0, "value": 41, "op": "SCMP_CMP_EQ"}]
NO_ARGUMENTS = "args 0x0 0x0 0x0 0x0 0x0 0x0"
MORE, LESS, OTHERWISE = "more", "less", "otherwise"


def profile(*entries, default=ERRNO, **members):
    """A profile of entries, each names, an action and more."""
    return json.dumps({"defaultAction": default, **members, "syscalls": [
        {"names": names.split(), "action": f"SCMP_ACT_{action}", **more} for names, action, more in entries]})


READ_WRITE = profile(("read write", "ALLOW", {}))


def degree(answer):
    return ("denied", "delegated", "allowed").index(answer.disposition)


class Pair(Case):
    """Two profiles beside each other."""

    def lines(self, old, new, *words):
        """The status and the lines, and what is said on standard error."""
        names = self.file("old.json", old), self.file("new.json", new)
        status, out, err = self.run_tool("compare-profiles", *words, *names)
        return status, out.splitlines(), err.splitlines()


class Program(Pair):
    def compared(self, *words):
        *done, err = self.lines(*words)
        self.assertEqual(err, [])
        return tuple(done)

    def test_the_same(self):
        """By other entries, and in another order."""
        for new in (READ_WRITE, profile(("write", "ALLOW", {}), ("read", "ALLOW", {})),
                    profile(("read write", "ALLOW", {}), ("mount", "ERRNO", {"errnoRet": 1}))):
            self.assertEqual(self.compared(READ_WRITE, new), (0, ["same", "more 0, less 0, otherwise 0"]))

    def test_more_less_and_otherwise(self):
        """What is let through further comes first; each line has both answers and what gives them."""
        new = profile(("read", "LOG", {}), ("mount", "ALLOW", {}), ("open", "ERRNO", {"errnoRet": 38}))
        self.assertEqual(self.compared(READ_WRITE, new), (1, [
            "differs", "more 1, less 1, otherwise 2",
            "# syscalls for which the new profile is more permissive: 1",
            f"165 mount more {NO_ARGUMENTS} old ERRNO 1 default new ALLOW entry 1",
            "# syscalls for which the new profile is stricter: 1",
            f"1 write less {NO_ARGUMENTS} old ALLOW entry 0 new ERRNO 1 default",
            "# syscalls that get another answer, neither more permissive nor stricter: 2",
            f"0 read otherwise {NO_ARGUMENTS} old ALLOW entry 0 new LOG entry 0",
            f"2 open otherwise {NO_ARGUMENTS} old ERRNO 1 default new ERRNO 38 entry 2",
            '# old: entry 0 of syscalls: {"names": ["read", "write"], "action": "SCMP_ACT_ALLOW"}',
            "# old: default: ERRNO 1: the syscall fails with EPERM",
            '# new: entry 0 of syscalls: {"names": ["read"], "action": "SCMP_ACT_LOG"}',
            '# new: entry 1 of syscalls: {"names": ["mount"], "action": "SCMP_ACT_ALLOW"}',
            '# new: entry 2 of syscalls: {"names": ["open"], "action": "SCMP_ACT_ERRNO", "errnoRet": 38}',
            "# new: default: ERRNO 1: the syscall fails with EPERM"]))

    def test_a_call_that_is_answered_more_and_less_permissively(self):
        old, new = (profile(("socket", "ALLOW", {"args": args})) for args in (NOT_40, IS_41))
        status, lines = self.compared(profile(("socket", "ALLOW", {"args": [{**IS_41[0], "value": 40}]})),
                                      profile(("socket", "ALLOW", {"args": NOT_40})))
        self.assertEqual((status, lines[1]), (1, "more 1, less 1, otherwise 0"))
        self.assertTrue(lines[3].startswith("41 socket more args 0x"), lines)
        self.assertTrue(lines[3].endswith(" old ERRNO 1 default new ALLOW entry 0"), lines)
        self.assertRegex(lines[4], r"\A# new: argument 0 is [0-9]+ \(0x[0-9a-f]+\): SCMP_CMP_NE 40 \(0x28\) holds\Z")
        self.assertIn("41 socket less args 0x28 0x0 0x0 0x0 0x0 0x0 old ALLOW entry 0 new ERRNO 1 default", lines)
        self.assertIn("# old: argument 0 is 40 (0x28): SCMP_CMP_EQ 40 (0x28) holds", lines)
        self.assertEqual(self.compared(old, new)[1][1], "more 0, less 1, otherwise 0")
        self.assertEqual(self.compared(new, old)[1][1], "more 1, less 0, otherwise 0")

    def test_relations(self):
        for new, no_more, no_less in ((profile(("read", "ALLOW", {})), 0, 1),
                                      (profile(("read write mount", "ALLOW", {})), 1, 0),
                                      (profile(("read mount", "ALLOW", {})), 1, 1),
                                      (profile(("read write", "LOG", {})), 0, 0),
                                      (profile(("read write", "ALLOW", {}), default="SCMP_ACT_TRACE"), 1, 0)):
            for words, status, says in (((), 1, "differs"), (("--no-more",), no_more, ("no more", "more")[no_more]),
                                        (("--no-less",), no_less, ("no less", "less")[no_less])):
                actual, lines = self.compared(READ_WRITE, new, *words)
                self.assertEqual((actual, lines[0]), (status, says), (new, words))

    def test_numbers_without_a_name(self):
        status, lines = self.compared(READ_WRITE, profile(("read write", "ALLOW", {}), defaultErrnoRet=38), "--table",
                                      self.file("t", b"read 0\nwrite 1\n"))
        self.assertEqual((status, lines), (1, ["differs", "more 0, less 0, otherwise 0",
                                               "# numbers that the table doesn't name get the defaults, for example:",
                                               f"2 otherwise {NO_ARGUMENTS} old ERRNO 1 default new ERRNO 38 default",
                                               "# old: default: ERRNO 1: the syscall fails with EPERM",
                                               "# new: default: ERRNO 38: the syscall fails with ENOSYS"]))
        for default, kind in (("SCMP_ACT_ALLOW", MORE), ("SCMP_ACT_TRACE", MORE), ("SCMP_ACT_KILL", OTHERWISE)):
            status, lines = self.compared(READ_WRITE, profile(("read write", "ALLOW", {}), default=default), "--table",
                                          self.file("t", b"read 0\nwrite 1\n"), "--json")
            self.assertEqual(json.loads(lines[0])["unnamed"]["change"], kind)
        self.assertEqual(json.loads(lines[0])["changes"], [])

    def test_names_and_architectures_that_are_left_out(self):
        hostile = "\x1b[2J\n0 read more"
        old = profile(("read waitpid umont2", "ALLOW", {}), architectures=["SCMP_ARCH_X86_64", "SCMP_ARCH_MIPS"])
        others = ["SCMP_ARCH_X86_64", "SCMP_ARCH_S390", "\x9b\n# same"]
        new = json.dumps({"defaultAction": ERRNO, "architectures": others,
                          "syscalls": [{"names": ["read", "waitpid", hostile], "action": ALLOW}]})
        status, lines = self.compared(old, new)
        self.assertEqual((status, lines), (0, [
            "same", "more 0, less 0, otherwise 0",
            "# names that were skipped because no table has them: 2 in the old profile, 2 in the new one",
            "# only in the old one: umont2", "# only in the new one: \\x1b[2J\\x0a0 read more",
            "# other architectures, not compared: 1 in the old profile, 2 in the new one",
            "# only in the old one: SCMP_ARCH_MIPS",
            "# only in the new one: SCMP_ARCH_S390, \\xc2\\x9b\\x0a# same"]))
        report = json.loads(self.compared(old, new, "--json")[1][0])
        self.assertEqual(report["skipped"], {"old": ["waitpid", "umont2"], "new": ["waitpid", hostile]})
        many = profile((" ".join(["read", *(f"x{at}" for at in range(25))]), "ALLOW", {}))
        self.assertEqual(self.compared(many, profile(("read", "ALLOW", {})))[1][-1],
                         f"# only in the old one: {', '.join(f'x{at}' for at in range(20))} and 5 more")

    def test_each_architecture(self):
        """Changes on i386 alone, and an architecture that only one profile names."""
        both = {"architectures": ["SCMP_ARCH_X86_64", "SCMP_ARCH_X86"]}
        old = profile(("read waitpid", "ALLOW", {}), **both)
        new = profile(("read waitpid", "ALLOW", {}), ("waitpid", "ALLOW", {}), **both)
        self.assertEqual(self.compared(old, new)[0], 0)
        new = profile(("read", "ALLOW", {}), **both)
        status, lines = self.compared(old, new)
        self.assertEqual((status, lines[:4]), (1, [
            "differs", "more 0, less 1, otherwise 0", "# syscalls for which the new profile is stricter: 1",
            "i386 7 waitpid less args 0x0 0x0 0x0 0x0 0x0 0x0 old ALLOW entry 0 new ERRNO 1 default"]))
        self.assertEqual(self.compared(old, new, "--native")[1][0], "same")
        report = json.loads(self.compared(old, new, "--json")[1][0])
        self.assertEqual([(change["architecture"], change["number"]) for change in report["changes"]], [("i386", 7)])
        alone = profile(("read", "ALLOW", {}), architectures=["SCMP_ARCH_X86_64"])
        names = tables.architecture_table("SCMP_ARCH_X86").numbers()
        for old_path, new_path, word, kind, answers in (
                (new, alone, "old", LESS, "old ALLOW entry 0 new KILL_PROCESS foreign"),
                (alone, new, "new", MORE, "old KILL_PROCESS foreign new ALLOW entry 0")):
            status, lines = self.compared(old_path, new_path)
            self.assertEqual((status, lines[0]), (1, "differs"))
            self.assertEqual(lines[1],
                             f"more {int(kind == MORE)}, less {int(kind == LESS)}, otherwise {len(names) - 1}")
            self.assertEqual(lines[3], f"i386 3 read {kind} {NO_ARGUMENTS} {answers}")
            self.assertFalse([line for line in lines if line.startswith(f"# {word}: default: KILL")], lines)
            self.assertIn(f"# only the {word} profile names SCMP_ARCH_X86: the {'new' if word == 'old' else 'old'} one "
                          "kills a process that makes such a syscall", lines)
            self.assertEqual(self.compared(old_path, new_path, "--no-more")[0], 0 if word == "old" else 1)

    def test_a_strangers_entry(self):
        """It is one line, without a control character, and bounded."""
        names = ["mount", "\x1b[2J\n# all is well\n0 read more", "y" * 5000]
        status, lines = self.compared(READ_WRITE, json.dumps({"defaultAction": ERRNO, "syscalls": [
            {"names": ["read", "write"], "action": ALLOW}, {"names": names, "action": ALLOW, "comment": "\x9b"}]}))
        self.assertEqual((status, lines[1]), (1, "more 1, less 0, otherwise 0"))
        self.assertTrue(all(line.isprintable() for line in lines), lines)
        entry = next(line for line in lines if line.startswith("# new: entry 1"))
        self.assertLess(len(entry), 500)
        self.assertEqual([line for line in lines[2:] if not line.startswith("# ")],
                         [f"165 mount more {NO_ARGUMENTS} old ERRNO 1 default new ALLOW entry 1"])

    def test_json(self):
        new = profile(("read", "ALLOW", {}), ("socket", "ALLOW", {"args": NOT_40}))
        status, lines = self.compared(READ_WRITE, new, "--json")
        self.assertEqual((status, len(lines)), (1, 1))
        report = json.loads(lines[0])
        self.assertNotIn("relation", report)
        self.assertEqual({key: report[key] for key in ("status", "verdict", "counts", "unnamed")}, {
            "status": 1, "verdict": "differs", "unnamed": None,
            "counts": {MORE: 1, LESS: 1, OTHERWISE: 0, "undecided": 0, "unfinished": 0}})
        more, less = report["changes"]
        self.assertEqual([more[key] for key in ("number", "names", "change")], [41, ["socket"], MORE])
        self.assertEqual((more["old"]["reason"], more["new"]["reason"], more["new"]["entry"]), ("default", "entry", 1))
        self.assertEqual(more["new"]["definition"], json.loads(new)["syscalls"][1])
        self.assertEqual(len(more["new"]["conditions_met"]), 1)
        self.assertEqual(less["old"]["answer"], {"action": "ALLOW", "data": 0, "does": "the syscall is executed"})
        self.assertEqual(less["call"]["names"], ["write"])

    def test_a_whole_config_and_standard_input(self):
        config = json.dumps({"ociVersion": "1.0.2", "linux": {"seccomp": json.loads(READ_WRITE)}})
        self.begins(0, "same", self.run_tool("compare-profiles", "-", self.file("p", READ_WRITE),
                                             given=config.encode()))

    def test_refusals(self):
        """Whose fault it is; the kinds are those of docs/FAULTS.md."""
        for text, line in (("{", "fault profile Json"), ('{"defaultAction":"ALLOW"}', "fault profile Action"),
                           (profile(("read", "ALLOW", {}), ("read", "LOG", {})),
                            "fault profile Conflict number 0 first 0 second 1")):
            for old, new, side in ((text, READ_WRITE, "old"), (READ_WRITE, text, "new")):
                status, lines = self.compared(old, new)
                self.assertEqual((status, lines[0], lines[-1]), (2, line, f"# it is the {side} profile"))
                self.assertTrue(all(line.startswith("# ") for line in lines[1:]), lines)
                report = json.loads(self.compared(old, new, "--json")[1][0])
                self.assertEqual((report["status"], report["verdict"], report["fault"]["side"]), (2, None, side))
        for words, line in ((("--table", self.file("t", b"read\n")), "fault table Form line 1"),
                            (("--limit", "x"), "fault number limit")):
            status, lines = self.compared(READ_WRITE, READ_WRITE, *words)
            self.assertEqual((status, lines[0]), (2, line))

    def test_unfinished(self):
        status, lines = self.compared(READ_WRITE, READ_WRITE, "--limit", "0", "--table",
                                      self.file("t", b"read 0\nwrite 1\n"))
        self.assertEqual((status, lines[0], lines[1]), (4, "unfinished", "more 0, less 0, otherwise 0, unfinished 2"))
        self.assertIn("0 read unfinished", lines)

    def test_undecided(self):
        """Where scf decides nothing, nothing is guessed of the calls."""
        says = {"answers": (4, "unfinished"), "ask": (0, "ALLOW 0 entry 0"), "compare --calls": (
            1, f"differs\n1 write differs {NO_ARGUMENTS} filter ALLOW 0 profile ERRNO 1"),
                "compare": (4, "undecided at 3")}

        def run(words, *_):
            status, text = next(says[words_of] for words_of in says if " ".join(words).startswith(words_of))
            return client.Run(status, f"{text}\n".encode())

        given, table = ProfileInput(READ_WRITE.encode()), tables.read_table(None)
        with mock.patch.object(client, "run_scf", run):
            made = []
            for relation in ("same", "no more"):
                pair = compare.pair_of(given, given, table, relation, is_diff=True)
                made.append(changes.changes_of(pair, pair.run()[1]))
            lines = [*changes.change_lines(made[0])]
        self.assertEqual(lines[:4], ["differs", "more 0, less 0, otherwise 0, undecided 1",
                                     "# syscalls that are undecided: 1",
                                     f"1 write undecided {NO_ARGUMENTS} old ALLOW entry 0 new ALLOW entry 0"])
        self.assertEqual(lines[-1], "# not known: allow more splits and steps, --splits N --limit N")
        self.assertEqual([each.verdict.word for each in made], ["differs", "undecided"])


class Engines(Pair):
    """Profiles as engines ship them."""

    MAP = [{"architecture": "SCMP_ARCH_X86_64", "subArchitectures": []}]
    OLD = {"defaultAction": ERRNO, "archMap": MAP, "syscalls": [
        {"names": ["read"], "action": ALLOW},
        {"names": ["mount"], "action": ALLOW, "includes": {"caps": ["CAP_SYS_ADMIN"]}},
        {"names": ["ptrace"], "action": ALLOW, "includes": {"minKernel": "4.8"}}]}
    NEW = {**OLD, "syscalls": [*OLD["syscalls"], {"name": "write", "action": ALLOW},
                               {"names": ["reboot"], "action": ALLOW, "includes": {"caps": ["CAP_SYS_BOOT"]}}]}

    def compared(self, *words, old=None, new=None):
        """The names of the syscalls that differ."""
        status, lines, err = self.lines(old or self.OLD, new or self.NEW, *words)
        return status, [line.split()[1] for line in lines if line[:1].isdigit()], err

    def test_the_options_resolve_both(self):
        """The same profile by itself is the same, whatever it leaves out; what is left out of one alone is said."""
        for words, expected in ((["--caps", "none"], ["write"]), (["--caps", "SYS_BOOT"], ["write", "reboot"]),
                                (["--kernel", "4.0"], ["write"]), (["--arch-map", "native"], ["write"]),
                                (["--keep-first"], ["write"])):
            self.assertEqual(self.compared(*words)[:2], (1, expected), words)
        for words in (["--caps", "none"], ["--caps", "docker,SYS_ADMIN", "--kernel", "6.1"]):
            self.assertEqual(self.compared(*words, new=self.OLD), (0, [], []))
        self.assertEqual(self.compared("--caps", "none")[2],
                         ["compare-profiles: new: entry 4 (reboot) left out: only with CAP_SYS_BOOT"])
        twice = {"defaultAction": ERRNO, "syscalls": [{"names": ["read"], "action": ALLOW},
                                                      {"names": ["read"], "action": "SCMP_ACT_LOG"}]}
        self.assertEqual(self.compared("--keep-first", old=twice, new={**twice, "syscalls": twice["syscalls"][:1]})[:2],
                         (0, []))

    def test_without_an_option_scf_refuses_an_engines_form(self):
        status, lines, err = self.lines(self.OLD, self.OLD)
        self.assertEqual((status, lines[0], lines[-2:], err), (2, "fault profile EngineForm", [
            "# it is the old profile", "# --caps and the like resolve both profiles as an engine does"], []))

    def test_what_the_engines_refuse(self):
        status, lines, (err,) = self.lines(self.OLD, {"defaultAction": ERRNO, "syscalls": 1}, "--caps", "none")
        self.assertEqual((status, lines), (2, []))
        self.assertRegex(err, r"\Acompare-profiles: .*new\.json: .+\Z")


class Runtimes(Pair):
    """Profiles as a runtime applies them, and entries by their index in the user's files."""

    def test_entries_are_called_as_in_the_file(self):
        old = {"defaultAction": ERRNO, "syscalls": [
            {"names": ["mount"], "action": ALLOW, "includes": {"caps": ["CAP_SYS_ADMIN"]}},
            {"names": ["read", "write"], "action": ALLOW}]}
        new = {**old, "syscalls": [*old["syscalls"][:1], {"names": ["read"], "action": ALLOW}]}
        for words in (("--caps", "none"), ("--runtime", "docker"), ("--engine", "podman"),
                      ("--keep-first", "--caps=none")):
            status, lines, _ = self.lines(old, new, *words)
            self.assertIn(f"1 write less {NO_ARGUMENTS} old ALLOW entry 1 new ERRNO 1 default", lines)
            self.assertIn('# old: entry 1 of syscalls: {"names": ["read", "write"], "action": "SCMP_ACT_ALLOW"}', lines)
            report = json.loads(self.lines(old, new, "--json", *words)[1][0])
            self.assertEqual((status, report["changes"][0]["old"]["entry"]), (1, 1))

    def test_entries_that_count_for_nothing(self):
        given = {"defaultAction": ERRNO, "syscalls": [{"names": ["mkdir"], "action": ALLOW}]}
        two = {**given, "syscalls": [{"names": ["mkdir"], "action": ERRNO, "errnoRet": 1}, *given["syscalls"]]}
        for runtime in ("runc", "crun"):
            status, lines, err = self.lines(given, two, "--runtime", runtime)
            self.assertEqual((status, lines[0], err), (0, "same", [
                f"compare-profiles: new: {runtime} leaves out entry 0 (mkdir): its answer is the default's"]))
        self.assertEqual(self.lines(given, two)[1][0], "fault profile Conflict number 83 first 0 second 1")
        self.assertEqual(self.lines(given, {**given, "archMap": Engines.MAP}, "--runtime", "crun")[0], 2)

    def test_entries_that_conflict_are_called_as_in_the_file(self):
        """What libseccomp makes of two answers by conditions isn't said."""
        old = {"defaultAction": ERRNO, "syscalls": [
            {"names": ["mkdir"], "action": ERRNO}, {"names": ["rmdir"], "action": ALLOW},
            {"names": ["mkdir"], "action": ALLOW, "args": NOT_40}, {"names": ["mkdir"], "action": ERRNO, "errnoRet": 2,
                                                                    "args": IS_41}]}
        good = {**old, "syscalls": old["syscalls"][:2]}
        for old_path, new_path, side in ((old, good, "old"), (good, old, "new")):
            status, lines, _ = self.lines(old_path, new_path, "--runtime", "runc")
            self.assertEqual((status, lines[0], lines[-2:]), (2, "fault profile Conflict number 83 first 2 second 3", [
                "# in the original file that is entry 2 (mkdir) and entry 3 (mkdir)",
                f"# it is the {side} profile"]))
        if os.geteuid():
            return
        child, _ = started([[self.file("f.bpf", ret(0x7FFF0000))]])
        self.addCleanup(ended, child)
        out = self.run_tool("verify-process", "--runtime", "crun", str(child.pid), self.file("p", old))[1]
        self.assertIn("\n# in the original file that is entry 2 (mkdir) and entry 3 (mkdir)\n", out)

    def test_what_runc_answers_by_enosys(self):
        """From behind the greatest that a profile names on; a profile that names a greater one has more defaults."""
        table = self.file("t", b"read 0\nmkdir 83\nlchown 94\nutime 132\nmseal 462\nclone3 435\nfutex_waitv 449\n")
        x86_64 = {"defaultAction": ERRNO, "architectures": ["SCMP_ARCH_X86_64"]}
        old = {**x86_64, "syscalls": [{"names": ["read", "lchown"], "action": ALLOW}]}
        new = {**x86_64, "syscalls": [{"names": ["read", "lchown", "clone3"], "action": ALLOW}]}
        status, lines, _ = self.lines(old, new, "--runtime", "runc", "--table", table)
        self.assertEqual((status, lines[:6]), (1, [
            "differs", "more 1, less 0, otherwise 1",
            "# syscalls for which the new profile is more permissive: 1",
            f"435 clone3 more {NO_ARGUMENTS} old ERRNO 38 stub new ALLOW entry 0",
            "# syscalls that get another answer, neither more permissive nor stricter: 1",
            f"132 utime otherwise {NO_ARGUMENTS} old ERRNO 38 stub new ERRNO 1 default"]))
        self.assertIn("# old: the ENOSYS that runc puts before the filter", lines)
        report = json.loads(self.lines(old, new, "--runtime", "runc", "--table", table, "--json")[1][0])
        self.assertEqual(report["changes"][0]["old"], {"answer": {
            "action": "ERRNO", "data": 38, "errno": "ENOSYS", "does": "the syscall fails with ENOSYS"},
            "reason": "stub"})
        status, lines, _ = self.lines(old, new, "--runtime", "crun", "--table", table)
        self.assertEqual(lines[:2], ["differs", "more 1, less 0, otherwise 0"])
        # above both stubs the defaults are no difference, and below them they are
        trap = {**old, "defaultAction": "SCMP_ACT_TRAP"}
        changed = [line.split()[1] for line in self.lines(old, trap, "--runtime", "runc", "--table", table)[1]
                   if line[:1].isdigit()]
        self.assertEqual(changed, ["mkdir", "otherwise"])
        whole = self.file("whole",
                          b"".join(b"n%d %d\n" % (number, number) for number in range(1, 94)) + b"read 0\nlchown 94\n")
        names = ["read", "lchown", *(f"n{number}" for number in range(1, 94))]
        every = {**x86_64, "syscalls": [{"names": names, "action": ALLOW}]}
        self.assertEqual(self.lines(every, every, "--runtime", "runc", "--table", whole)[:2][1][0], "same")

    def test_many_skipped_names_and_many_changes(self):
        """What grew with the square of the names, or read both profiles for each change, takes seconds."""
        names = list(tables.read_table(None).names())
        skipped = [profile((" ".join(["read", *(f"{letter}{at}" for at in range(20000))]), "ALLOW", {}))
                   for letter in "ab"]
        comment = "x" * ((4 << 20) - 60000)
        changed = [profile(*((name, action, {}) for name in names), comment=comment) for action in ("ALLOW", "LOG")]
        for (old, new), status in ((skipped, 0), (changed, 1)):
            words = [tool("compare-profiles"), self.file("a", old), self.file("b", new)]
            self.assertEqual(self.run_words(words, seconds=60)[0], status)


class RandomProfiles(unittest.TestCase):
    """Two profiles beside a small reading of their JSON."""

    def test_each_call_at_the_corners(self):
        """No sampled call changes otherwise than is said; what is shown is so, by the entries that are named."""
        random_of, table, seen = random.Random(36), tables.Table(kernel_profiles.table_text()), set()
        for _ in range(25):
            old = kernel_profiles.random_profile(random_of)
            new = self.changed(random_of, old)
            if random_of.random() < 0.2:
                new = kernel_profiles.random_profile(random_of)
            pair = compare.pair_of(ProfileInput(new), ProfileInput(old), table, "same", is_diff=True)
            profile_changes = changes.changes_of(pair, pair.run()[1])
            kinds = {}
            for change in profile_changes.calls:
                kinds.setdefault(change.number, set()).add(change.kind)
                self.is_shown(change, old, new)
                seen.add(change.kind)
            for number in set(kernel_profiles.TABLE.values()):
                self.is_said(random_of, number, kinds.get(number, set()), old, new)
            self.assertEqual(profile_changes.verdict.fails, bool(kinds) or profile_changes.unnamed is not None)
        self.assertEqual(seen, {MORE, LESS, OTHERWISE})

    def changed(self, random_of, profile_text):
        """A profile with an entry less, or with another default."""
        made = json.loads(profile_text)
        if made["syscalls"] and random_of.random() < 0.8:
            del made["syscalls"][random_of.randrange(len(made["syscalls"]))]
        else:
            made.pop("defaultErrnoRet", None)
            made["defaultAction"] = random_of.choice(("SCMP_ACT_LOG", "SCMP_ACT_TRAP", "SCMP_ACT_NOTIFY"))
        return json.dumps(made).encode()

    def is_shown(self, change, old, new):
        both = {"old": old, "new": new}
        for side, reason in change.reasons.items():
            self.assertEqual(reason.answer, answer_of(both[side], change.call))
            self.assertEqual(reason.entry, reading(both[side], change.call)[1])
        before, after = (degree(change.reasons[side].answer) for side in ("old", "new"))
        self.assertNotEqual(change.reasons["old"].answer, change.reasons["new"].answer)
        self.assertEqual(change.kind, MORE if before < after else LESS if before > after else OTHERWISE)

    def is_said(self, random_of, number, kinds, old, new):
        """The kinds of the sampled calls of a number are among those that are said of it."""
        constants = [kernel_profiles.constants(given) for given in (old, new)]
        for _ in range(30):
            values = [random_of.choice(sorted(set().union(*(constants_of_one.get(at, constants_of_one[-1])
                                                            for constants_of_one in constants))))
                      for at in range(6)]
            call = Call(number, arguments=tuple(values))
            before, after = answer_of(old, call), answer_of(new, call)
            if degree(before) != degree(after):
                self.assertIn(MORE if degree(before) < degree(after) else LESS, kinds, (old, new, call))
            elif before != after:
                self.assertTrue(kinds, (old, new, call))
