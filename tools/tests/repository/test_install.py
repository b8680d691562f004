"""make install and make uninstall."""
import glob
import json
import os
import re
import shutil
import stat
import subprocess
import tempfile

from support.common import TOOLS, TOP, Case, bytes_of, filter_of, profile_of, text_of

MODULES = sorted(os.path.relpath(path, os.path.join(TOP, "tools"))
                 for path in glob.glob(os.path.join(TOP, "tools", "scf*", "**", "*.py"), recursive=True))
TABLES = os.listdir(os.path.join(TOP, "tables"))
DOCUMENTS = ["LICENSE", "README.md", "CONTRIBUTING.md", "CONFORMANCE.md", "scf.schema.json",
             *(name for name in os.listdir(os.path.join(TOP, "docs")) if name.endswith((".md", ".png")))]


class Install(Case):
    @classmethod
    def setUpClass(cls):
        """Installs it once, by a user whose files nobody else reads."""
        folder = tempfile.mkdtemp()
        cls.addClassCleanup(shutil.rmtree, folder)
        cls.once = os.path.join(folder, "once")
        subprocess.run(["sh", "-c", 'umask 077; exec "$@"', "sh", "make", "-s", "-C", TOP, "install",
                        f"PREFIX={cls.once}"], check=True)

    def setUp(self):
        super().setUp()
        self.prefix = os.path.join(self.folder, "a prefix")

    def installed(self):
        """Copies what is installed, which may be moved."""
        shutil.copytree(self.once, self.prefix, symlinks=True)

    def make(self, goal, *words):
        done = self.run_words(["make", "-s", "-C", TOP, goal, *(words or (f"PREFIX={self.prefix}",))])
        self.assertEqual(done[0], 0, done)

    def files(self):
        """What stands below the prefix, but for what Python keeps of modules."""
        return sorted(os.path.relpath(os.path.join(at, name), self.prefix) for at, _, names in os.walk(self.prefix)
                      for name in names if not name.endswith(".pyc"))

    def whole(self, zsh="site-functions"):
        return sorted(["bin/scf", *(f"bin/scf-{name}" for name in TOOLS), "lib/scf/program/scf",
                       *(f"share/bash-completion/completions/scf{name}" for name in ["", *map("-{}".format, TOOLS)]),
                       *(f"share/fish/vendor_completions.d/scf{name}.fish" for name in ["", *map("-{}".format, TOOLS)]),
                       f"share/zsh/{zsh}/_scf",
                       *(f"lib/scf/tools/{name}" for name in ["start", *TOOLS]),
                       *(f"lib/scf/tools/{name}" for name in MODULES),
                       *(f"lib/scf/tables/{name}" for name in TABLES), "lib/scf/docs/FAULTS.md",
                       *(f"share/doc/scf/{item}" for item in DOCUMENTS), "share/man/man1/scf.1",
                       "share/scf/hooks.d/scf.json", "share/scf/prometheus/scf.rules.yml",
                       *(f"lib/systemd/system/scf-audit.{name}" for name in ("service", "timer")),
                       *(f"share/man/man1/scf-{name}.1" for name in TOOLS)])

    def run_installed(self, *words, given=b""):
        return self.run_words(words, given, env={**os.environ, "PATH": f"{self.prefix}/bin:{os.environ['PATH']}"})

    def test_each_page_that_the_readme_or_a_tool_names_is_installed(self):
        folder = os.path.join(self.once, "share", "doc", "scf")
        links = re.findall(r"\]\(([^)#]+)", text_of(folder, "README.md"))
        self.assertIn("TUTORIAL.md", links)
        self.assertEqual([link for link in links if not os.path.isfile(os.path.join(folder, link))], [])
        named = set()
        for name in MODULES:
            named.update(re.findall(r"[A-Z]+\.md", text_of(TOP, "tools", name)))
        self.assertIn("JSON.md", named)
        self.assertEqual(named - {*DOCUMENTS}, set())

    def test_an_older_installation_is_replaced_whole_moved_and_used_from_any_folder(self):
        self.installed()
        self.file("a prefix/lib/scf/tools/former", b"")
        self.file("a prefix/lib/scf/tools/scftools/former.py", b"")
        self.file("a prefix/lib/scf/tools/list", b"older\n")
        os.symlink("../lib/scf/tools/former", os.path.join(self.prefix, "bin/scf-former"))
        self.make("install")
        self.assertEqual(self.files(), self.whole())
        self.assertEqual(self.run_installed("scf-list", "--version")[0], 0)
        moved = os.path.join(self.folder, "moved")
        os.rename(self.prefix, moved)
        self.prefix = moved
        self.file("f.bpf", filter_of([0, 1, 231]))
        self.file("p.json", profile_of("read", "write"))
        self.assertEqual(self.run_installed("scf", "check", given=filter_of([])), (0, "accepted 8\n", ""))
        for words in (["scf-compare"], ["scf", "compare"]):
            self.assertIn("exit_group (231)", self.out_of(1, self.run_installed(*words, "f.bpf", "p.json")))
        self.assertIn("usage: scf lint ", self.run_installed("scf", "help", "lint")[1])
        self.assertIn("usage: scf asm ", self.run_installed("scf", "help", "asm")[1])
        self.assertEqual(self.run_installed("scf-run", given=b"x")[:2], (3, "fault filter Truncated offset 0\n"))
        self.assertEqual(self.run_installed("scf-explain", "fault", "filter", "Empty")[0], 0)

    def test_each_tool_has_help_a_version_and_a_page_and_names_itself_as_it_was_called(self):
        self.installed()
        version = self.run_installed("scf", "--version")[1].strip()
        for name in TOOLS:
            with self.subTest(name):
                self.assertIn(f"usage: scf-{name} ", self.out_of(0, self.run_installed(f"scf-{name}", "--help")))
                self.assertIn(version, self.out_of(0, self.run_installed(f"scf-{name}", "--version")))
                self.is_refusal(f"scf-{name}: ", self.run_installed(f"scf-{name}", "--no-such-option"))

    def test_nothing_that_stands_beside_it_runs_or_is_read(self):
        self.installed()
        for name in ("build", "crates/scf/out/scf", "program/scf", "tools/check", "tools/scftools/launch.py"):
            os.chmod(self.file(f"a prefix/bin/{name}", "#!/bin/sh\necho a stranger\n"), 0o755)
        self.file("a prefix/bin/tables/commands", "a stranger\n")
        for words in (["help"], ["check", self.file("f", filter_of([]))], ["--version"], ["nothing"], []):
            _, out, err = self.run_installed("scf", *words)
            self.assertNotIn("stranger", out + err, words)
        os.remove(os.path.join(self.prefix, "lib/scf/program/scf"))
        status, out, err = self.run_installed("scf", "core", "--version")
        self.assertEqual((status, out), (125, ""), err)

    def staged(self, prefix):
        """The folder below which it is installed for a prefix; its unit and hook name what is installed."""
        stage = os.path.join(self.folder, "stage")
        self.make("install", f"PREFIX={prefix}", f"DESTDIR={stage}")
        unit = re.findall(r"(?m)^ExecStart=(\S+)", text_of(f"{stage}{prefix}/lib/systemd/system/scf-audit.service"))
        hook = json.loads(text_of(f"{stage}{prefix}/share/scf/hooks.d/scf.json"))["hook"]
        self.assertEqual((unit, hook["path"]), ([f"{prefix}/bin/scf-audit"], f"{prefix}/bin/scf-oci-hook"))
        for path in (*unit, hook["path"]):
            self.assertTrue(os.access(f"{stage}{path}", os.X_OK), path)
        return stage

    def test_a_prefix_of_odd_letters(self):
        self.staged("/opt/a&b|c")

    def test_the_daemon_set_starts_on_nodes_without_some_of_its_folders(self):
        """Kubernetes mounts a folder that isn't there only if it may make it; /run is on each."""
        with open(os.path.join(TOP, "contrib", "daemonset.yaml"), encoding="utf-8") as file:
            types = dict(re.findall(r"hostPath: \{path: ([^,}]+)(?:, type: (\w+))?\}", file.read()))
        self.assertEqual(types.pop("/run"), "Directory")
        self.assertEqual({*types.values()}, {"DirectoryOrCreate"})
        self.assertEqual(len(types), 3)

    def test_the_hook_is_what_the_tool_prints(self):
        """But for the place that it is installed at."""
        self.prefix = self.once
        hook = json.loads(text_of(f"{self.prefix}/share/scf/hooks.d/scf.json"))
        printed = self.run_installed("scf-oci-hook", "--print-hook", *hook["hook"]["args"][1:])[1]
        self.assertEqual(json.loads(printed), hook)

    def test_every_user_may_use_it_whatever_the_umask(self):
        for at, folders, names in os.walk(os.path.join(self.once, "lib")):
            for name in (*folders, *names):
                mode = stat.S_IMODE(os.lstat(os.path.join(at, name)).st_mode)
                place = os.path.relpath(os.path.join(at, name), self.once)
                is_program = place in ("lib/scf/program/scf", "lib/scf/tools/start")
                if not os.path.islink(os.path.join(at, name)):
                    self.assertEqual(mode, 0o755 if name in folders or is_program else 0o644, place)

    def test_python_need_not_compile_the_modules_again(self):
        self.installed()
        folder = os.path.join(self.prefix, "lib/scf/tools")

        def compiled():
            return {path: os.stat(path).st_mtime_ns for path in glob.glob(f"{folder}/**/*.pyc", recursive=True)}

        before = compiled()
        self.assertEqual(sorted(os.path.relpath(re.sub(r"__pycache__/(\w+)\..*", r"\1.py", path), folder)
                                for path in before), MODULES)
        self.run_installed("scf-check", self.file("f", filter_of([])))
        self.assertEqual(compiled(), before)

    def test_uninstall_leaves_what_is_not_ours_and_nothing_else(self):
        self.installed()
        self.file("a prefix/lib/scf/tools/scftools/base/__pycache__/program.cpython-399.pyc", b"x")
        self.file("a prefix/bin/scf-mine", b"")
        self.file("a prefix/share/man/man1/other.1", b"")
        for _ in range(2):
            self.make("uninstall")
            self.assertEqual(self.files(), ["bin/scf-mine", "share/man/man1/other.1"])
        for name in ("lib/scf", "share/doc/scf", "share/scf"):
            self.assertFalse(os.path.exists(os.path.join(self.prefix, name)))

    def test_below_another_folder_for_a_package(self):
        stage = self.staged("/usr")
        self.assertEqual(os.listdir(stage), ["usr"])
        self.prefix = os.path.join(stage, "usr")
        self.assertEqual(self.files(), self.whole("vendor-completions"))
        for at, _, names in os.walk(self.prefix):
            for name in names:
                path = os.path.join(at, name)
                if os.path.islink(path):
                    self.assertFalse(os.path.isabs(os.readlink(path)), path)
                    continue
                self.assertNotIn(self.folder.encode(), bytes_of(path), path)
        self.assertEqual(self.run_installed("scf", "check", given=filter_of([]))[0], 0)
        self.make("uninstall", "PREFIX=/usr", f"DESTDIR={stage}")
        self.assertEqual(self.files(), [])
