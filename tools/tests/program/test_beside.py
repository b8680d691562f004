"""Two stacks of filters beside each other, by the tools: the lines that explain a difference, and a process beside
filters that were saved. The verdicts on drawn stacks are test_comparisons'."""
import json
import os

from support.common import (ALLOW, ENOSYS, EPERM, KILL_PROCESS, LOG, X32, X86_64, Case, filter_of, insn, jeq, jge, load,
                            profile_of, ret)
from support.confined import NEWEST, OLDEST, Confined, here

READ, WRITE, CLONE = 0, 1, 56


def clone_of(flags, answer=EPERM, otherwise=ALLOW):
    """Denies clone with any of some flags."""
    return load(4) + jeq(X86_64, 1, 0) + ret(KILL_PROCESS) + load(0) + jeq(CLONE, 0, 3) + load(16) \
        + insn(0x45, flags, 0, 1) + ret(answer) + ret(otherwise)


class Tools(Case):
    """compare --beside and diff."""

    def test_equal_stacks_are_the_same_without_a_step(self):
        """Whatever the filters are, and each relation holds; what isn't a filter is still refused."""
        bits = load(16) + b"".join(insn(0x45, 1 << at % 32, 0, 1) for at in range(4080)) + ret(ALLOW) * 2
        first, second = self.file("one.bpf", bits), self.file("other.bpf", bits)
        for words, verdict in (((), "same"), (("--no-more",), "no more"), (("--calls",), "same"),
                               (("--disposition", "--native"), "same disposition")):
            for limit in ((), ("--limit", "0"), ("--limit", "10")):
                self.assertEqual(self.told("diff", *words, *limit, first, second, seconds=5), (0, [verdict]))
        self.assertEqual(self.told("compare", "--limit", "0", first, first, "--beside", first, first), (0, ["same"]))
        bad = self.file("bad.bpf", ret(ALLOW)[:-1])
        self.assertEqual(self.run_tool("diff", bad, bad)[1].split("\n")[0], "fault filter Truncated offset 0")
        self.assertEqual(self.run_tool("diff", "--limit", "x", first, first)[0], 2)

    def test_a_difference_of_each_kind(self):
        """A condition of clone, ENOSYS for EPERM, LOG for ALLOW."""
        first = self.file("1.bpf", clone_of(0x10000000))
        for name, second, both in (("condition", clone_of(0x30000000), {"ERRNO 1", "ALLOW 0"}),
                                   ("errno", clone_of(0x10000000, ENOSYS), {"ERRNO 1", "ERRNO 38"}),
                                   ("log", clone_of(0x10000000, EPERM, LOG), {"ALLOW 0", "LOG 0"})):
            path = self.file(f"{name}.bpf", second)
            for words in (("compare", first, "--beside", path), ("diff", first, path)):
                status, lines = self.told(*words)
                self.assertEqual((status, lines[0]), (1, "differs"), words)
                self.assertEqual({line.partition(" ")[2] for line in lines[2:4]}, both)
                self.assertIn(f"# the last tests on the path in {first}:", lines)
                self.assertIn(f"# the last tests on the path in {path}:", lines)
            status, lines = self.told("surface", first, "--beside", path)
            self.assertEqual((status, lines.count("syscalls that differ: 0")), (1, 0), name)

    def test_which_is_more_permissive(self):
        less, more = self.file("1.bpf", filter_of([READ])), self.file("2.bpf", filter_of([READ, WRITE]))
        status, lines = self.told("compare", less, "--beside", more)
        self.assertEqual((status, lines[4]), (1, "# it is stricter, and never more permissive than the other filter"))
        self.assertEqual(lines[-2:], ["# syscalls in the table that differ: 1",
                                      "# 1 write differs args 0x0 0x0 0x0 0x0 0x0 0x0 filter ERRNO 1 beside ALLOW 0"])
        status, lines = self.told("diff", less, more)
        self.assertEqual((status, lines[4]), (1, "# it is more permissive, and never stricter than the old filter"))
        errno = self.file("3.bpf", filter_of([READ]).replace(ret(EPERM), ret(ENOSYS)))
        self.assertEqual(self.told("diff", "--disposition", less, errno), (0, ["same disposition"]))
        self.assertEqual(self.told("diff", less, errno)[1][4],
                         "# it is neither more permissive nor stricter than the old filter: only the answers differ")

    def test_an_old_one_judges_a_new_one(self):
        """As by compare-profiles of the profiles that say the same, and the lines tell both by their age."""
        less, more = self.file("1.bpf", filter_of([READ])), self.file("2.bpf", filter_of([READ, WRITE]))
        profiles = {path: self.file(f"{path}.json", profile_of(*names))
                    for path, names in ((less, ["read"]), (more, ["read", "write"]))}
        line = "1 write {} args 0x0 0x0 0x0 0x0 0x0 0x0 old {} new {}"
        for word, old, new, failing in (("--no-more", less, more, "more"), ("--no-less", more, less, "less")):
            self.assertEqual(self.told("diff", word, new, old), (0, [word[2:].replace("-", " ")]))
            status, lines = self.told("diff", word, old, new)
            self.assertEqual((status, lines[0]), (1, failing))
            answers = ("ERRNO 1", "ALLOW 0") if failing == "more" else ("ALLOW 0", "ERRNO 1")
            self.assertEqual(lines[2:4], [f"{age} {answer}" for age, answer in zip(("old", "new"), answers)])
            self.assertIn(f"# the old filter answers {answers[0][:5]}", "\n".join(lines))
            self.assertEqual(lines[-1], f"# {line.format(failing, *answers)}")
            self.assertEqual(self.told("diff", "--calls", word, old, new)[1][1], line.format(failing, *answers))
            for first, second in ((old, new), (new, old)):
                self.assertEqual(self.told("compare-profiles", word, profiles[first], profiles[second])[0],
                                 self.told("diff", word, first, second)[0])

    def test_more_splits_and_steps(self):
        """Two halves are added, in one order and in the other."""
        first, second = (self.file(f"{at}.bpf", load(item[0]) + insn(0x54, 0x3FFF) + insn(0x07, 0) + load(item[1])
                                   + insn(0x54, 0x3FFF) + insn(0x0C, 0) + jeq(0x1234, 0, 1) + ret(ALLOW) + ret(EPERM))
                         for at, item in enumerate(((16, 24), (24, 16))))
        status, lines = self.told("diff", first, second)
        self.assertEqual((status, lines[0], lines[-1]), (
            4, "undecided at 7", "# not known: allow more splits and steps, --splits N --limit N"))
        few = "--limit=100000"
        self.assertEqual(self.told("diff", few, first, second)[0], 4)
        self.assertEqual(self.told("diff", few, "--splits=10000000", first, second)[0], 4)
        self.assertEqual(self.told("diff", "--limit=100000000", "--splits=10000000", first, second), (0, ["same"]))

    def test_json(self):
        first, second = self.file("1.bpf", filter_of([READ])), self.file("2.bpf", filter_of([WRITE]))
        value = self.json_of("diff", "--json", first, second)
        self.assertEqual((value["status"], value["scope"], value["verdict"]), (1, "all", "differs"))
        self.assertEqual({value["old"]["action"], value["new"]["action"]}, {"ALLOW", "ERRNO"})
        self.assertEqual((value["path_old"]["filter"], value["path_new"]["filter"]), (first, second))
        self.assertEqual((value["no_more"], value["no_less"]), ("more", "less"))
        self.assertEqual([(call["number"], call["names"], call["old"]["action"], call["new"]["action"])
                          for call in value["calls"]],
                         [(READ, ["read"], "ALLOW", "ERRNO"), (WRITE, ["write"], "ERRNO", "ALLOW")])
        self.assertEqual(self.json_of("diff", "--json", first, first)["verdict"], "same")

    def test_faults(self):
        good, bad = self.file("1.bpf", filter_of([READ])), self.file("2.bpf", jeq(0, 0, 9) + ret(ALLOW))
        for words, source in (((good, bad), "filter"), ((bad, good), "beside")):
            status, lines = self.told("diff", *words)
            self.assertEqual((status, lines[0].split()[:2]), (2, ["fault", source]))
            self.assertEqual(lines[-1], f"# the filter is {bad}")
        profile = self.file("p.json", b'{"defaultAction": "SCMP_ACT_ALLOW"}')
        for words in ((good, "--beside", good, "--caps", "none"), (good, "--beside"), ("--beside", good),
                      ("-", "--beside", "-")):
            self.assertEqual(self.run_tool("compare", *words)[0], 2, words)
        self.assertEqual(self.run_tool("diff", good)[0], 2)
        self.assertEqual(self.told("diff", good, profile)[1][0], "differs")

    def test_disposition_of_a_profile(self):
        profile = self.file("p.json", {"defaultAction": "SCMP_ACT_ERRNO", "syscalls": [
            {"names": ["read"], "action": "SCMP_ACT_LOG"}]})
        first = self.file("1.bpf", filter_of([READ]))
        self.assertEqual(self.told("compare", "--disposition", first, profile), (0, ["same disposition"]))
        self.assertEqual(self.told("compare", first, profile)[1][0], "differs")

    def test_the_most_telling_syscall_is_shown(self):
        """A native one with a name that one side allows and the other denies, before x32 numbers without a name; where
        there is none scf's own example stays."""
        def filter_file(name, x32, own=b""):
            return self.file(name, load(4) + jeq(X86_64, 1, 0) + ret(KILL_PROCESS) + load(0) + jge(X32, 0, 1) + ret(x32)
                             + own + ret(ALLOW))

        chroot = jeq(161, 0, 1) + ret(EPERM)
        one, other, alike = filter_file("1", ALLOW, chroot), filter_file("2", KILL_PROCESS), filter_file("3", ALLOW)
        shown = ["call nr 161 arch 0xc000003e ip 0x0 args 0x0 0x0 0x0 0x0 0x0 0x0", "filter ERRNO 1"]
        for words in ([], ["--no-less"]):
            out = self.run_tool("diff", *words, other, one)[1].split("\n")
            self.assertEqual(out[1:4], [shown[0], "old ALLOW 0", "new ERRNO 1"])
            self.assertIn("# the syscall is chroot (161)", out)
            found = self.json_of("diff", "--json", *words, other, one)
            self.assertEqual((found["call"]["names"], found["new"]["action"]), (["chroot"], "ERRNO"))
        for words, first in (([], alike), (["--no-more"], one)):
            out = self.run_tool("diff", *words, other, first)[1].split("\n")
            self.assertEqual(out[1], shown[0].replace("161", str(X32)))
        profile = self.file("p.json", {"defaultAction": "SCMP_ACT_ALLOW", "syscalls": []})
        self.assertEqual(self.run_tool("compare", "--all", one, profile)[1].split("\n")[1:4],
                         [*shown, "profile ALLOW 0"])


class Saved(Confined):
    """A process beside filters that were saved."""

    @here
    def test_process(self):
        child = self.child([OLDEST, NEWEST])
        folder = os.path.join(self.folder, "saved")
        self.assertEqual(self.run_tool("filters-of", str(child.pid), folder)[0], 0)
        status, lines = self.told("verify-process", str(child.pid), "--beside", folder)
        self.assertEqual((status, lines[0]), (0, "same"))
        self.assertRegex(lines[1], rf"\A# process {child.pid} \(.*\) has ")
        os.remove(os.path.join(folder, "1.bpf"))
        value = json.loads(self.output_of(1, "verify-process", "--json", str(child.pid), "--beside", folder))
        self.assertEqual((value["verdict"], value["stacks"][0]["no_more"]), ("differs", "no more"))
        self.assertEqual(value["stacks"][0]["processes"][0]["process"], child.pid)

    @here
    def test_usage(self):
        child = self.child([OLDEST])
        status, _, err = self.run_tool("verify-process", str(child.pid), "--beside", self.folder)
        self.assertEqual((status, "has no *.bpf" in err), (2, True))
        self.assertEqual(self.run_tool("verify-process", "--runtime", "runc", str(child.pid), "--beside", "x")[0], 2)
