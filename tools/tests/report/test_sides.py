"""scf compare and scf diff of filters, profiles and processes, whichever side they are."""
import os

from support.common import ALLOW, EPERM, Case, filter_of, jeq, load, profile_of, ret
from support.confined import Confined, here

READ, WRITE = 0, 1
# What each side is called in the lines: of compare the one that is judged is the first, and of diff the last.
COMPARED = {("bpf", "bpf"): ("filter", "beside"), ("bpf", "json"): ("filter", "profile"),
            ("json", "bpf"): ("profile", "filter"), ("json", "json"): ("profile", "beside")}
NO_MORE, NO_LESS, SAME = "--no-more", "--no-less", ""


class Sides(Case):
    """A side allows read, or also write."""

    def setUp(self):
        super().setUp()
        for name, numbers, names in (("few", [READ], ["read"]), ("many", [READ, WRITE], ["read", "write"])):
            self.file(f"{name}.bpf", filter_of(numbers))
            self.file(f"{name}.json", profile_of(*names))

    def path(self, name, kind):
        return os.path.join(self.folder, f"{name}.{kind}")

    def test_each_pair(self):
        """Denied is less than allowed."""
        answers = {"few": "ERRNO 1", "many": "ALLOW 0"}
        for kinds, names in COMPARED.items():
            for first, second, option, verdict in (
                    ("few", "few", SAME, "same"), ("many", "few", SAME, "differs"), ("few", "many", SAME, "differs"),
                    ("few", "many", NO_MORE, "no more"), ("many", "few", NO_MORE, "more"),
                    ("many", "few", NO_LESS, "no less"), ("few", "many", NO_LESS, "less")):
                judged, by = self.path(first, kinds[0]), self.path(second, kinds[1])
                fails = verdict in ("differs", "more", "less")
                with self.subTest(kinds=kinds, option=option, verdict=verdict):
                    status, out, err = self.run_tool("compare", *filter(None, [option]), judged, by)
                    lines = out.split("\n")
                    self.assertEqual((status, err, lines[0]), (int(fails), "", verdict))
                    if fails:
                        self.assertTrue(lines[1].startswith("call nr 1 arch 0xc000003e "), lines[1])
                        shown = [f"{names[0]} {answers[first]}", f"{names[1]} {answers[second]}"]
                        self.assertEqual(lines[2:4], shown)
                        self.assertIn(f"# 1 write {verdict} args 0x0 0x0 0x0 0x0 0x0 0x0 {' '.join(shown)}", lines)

    def test_each_pair_by_age(self):
        """diff judges the new side by the old one; of two profiles each change has its line."""
        for kinds in COMPARED:
            for option, verdict, status in ((SAME, "differs", 1), (NO_MORE, "more", 1), (NO_LESS, "no less", 0)):
                with self.subTest(kinds=kinds, option=option):
                    words = *filter(None, [option]), self.path("few", kinds[0]), self.path("many", kinds[1])
                    actual, out, err = self.run_tool("diff", *words)
                    self.assertEqual((actual, err, out.split("\n")[0]), (status, "", verdict))
                    value = self.json_of("diff", "--json", *words)
                    self.assertEqual((value["status"], value["verdict"]), (status, verdict))
                    if kinds == ("json", "json"):
                        self.assertIn("1 write more args 0x0 0x0 0x0 0x0 0x0 0x0 old ERRNO 1 default new ALLOW entry 0",
                                      out)
                        self.assertEqual([change["change"] for change in value["changes"]], ["more"])
                    elif status:
                        self.assertIn("\nold ERRNO 1\nnew ALLOW 0\n", out)
                        self.assertEqual((value["old"]["action"], value["new"]["action"]), ("ERRNO", "ALLOW"))

    def test_what_gives_each_answer(self):
        """The entry of a profile and the path of a filter, in objects, too."""
        for judged, by, member, reason in (("few.json", "many.bpf", "profile", "default"),
                                           ("many.json", "few.bpf", "profile", "entry"),
                                           ("few.json", "many.json", "beside", "entry")):
            with self.subTest(judged=judged, by=by):
                value = self.json_of("compare", "--json", *(os.path.join(self.folder, name) for name in (judged, by)))
                found = value if "path" in value else value[member]
                self.assertEqual(found["reason"], reason)
                self.assertEqual("path" in value, by.endswith("bpf"))

    def test_what_is_refused(self):
        few, bad = self.path("few", "bpf"), self.file("bad.json", b'{"defaultAction": "ALLOW"}')
        profile = self.path("few", "json")
        for words, says in ((("compare", few, bad), "fault profile Action\n"),
                            (("compare", bad, few), "fault profile Action\n"),
                            (("compare", profile, bad), "# it is the other profile\n"),
                            (("diff", bad, few), "fault profile Action\n"),
                            (("diff", bad, profile), "# it is the old profile\n"),
                            (("compare", "--runtime=runc", few, few), "speaks of a profile"),
                            (("compare", profile, few, few), "not a filter"),
                            (("compare", few), "are required: WANTED"),
                            (("compare", few, "none"), "there is no file 'none'"),
                            (("diff", "--caps=none", few, few), "neither OLD nor NEW is a profile")):
            with self.subTest(words=words):
                status, out, err = self.run_tool(*words)
                self.assertEqual(status, 2)
                self.assertIn(says, out + err)

    def test_an_architecture_that_one_profile_alone_names(self):
        """The other one kills for it."""
        both = self.file("both.json", {"defaultAction": "SCMP_ACT_ERRNO", "architectures": [
            "SCMP_ARCH_X86_64", "SCMP_ARCH_X86"], "syscalls": [{"names": ["read"], "action": "SCMP_ACT_ALLOW"}]})
        native = self.file("native.json", {"defaultAction": "SCMP_ACT_ERRNO", "architectures": [
            "SCMP_ARCH_X86_64"], "syscalls": [{"names": ["read"], "action": "SCMP_ACT_ALLOW"}]})
        for words, verdict in (((both, native), "differs"), ((NO_MORE, native, both), "no more"),
                               ((NO_MORE, both, native), "more"), (("--native", both, native), "same")):
            with self.subTest(words=words):
                self.assertEqual(self.run_tool("compare", *words)[1].split("\n")[0], verdict)


class Processes(Confined):
    @here
    def test_a_process_on_either_side(self):
        denies_mount = load(0) + jeq(165, 0, 1) + ret(EPERM) + ret(ALLOW)
        child = self.child([denies_mount])
        name = f"pid:{child.pid}"
        profile = self.file("p.json", {"defaultAction": "SCMP_ACT_ALLOW", "architectures": [
            "SCMP_ARCH_X86_64", "SCMP_ARCH_X86", "SCMP_ARCH_X32"], "syscalls": [
                {"names": ["mount"], "action": "SCMP_ACT_ERRNO"}]})
        stack = self.file("f.bpf", denies_mount)
        for words in (("compare", name, stack), ("compare", stack, name), ("diff", stack, name),
                      ("compare", "--native", name, profile), ("compare", "--native", profile, name)):
            with self.subTest(words=words):
                self.begins(0, "same", self.run_tool(*words))
        value = self.json_of("compare", "--json", name, stack)
        self.assertEqual([(each["status"], each["verdict"], each["confined"]) for each in value["stacks"]],
                         [(0, "same", "by filters")])
        self.begins(1, "unconfined", self.run_tool("compare", f"pid:{os.getpid()}", stack))
