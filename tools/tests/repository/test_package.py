"""dev/package: the Debian packages and the archive, which run where they are unpacked; RPM packages, and an image."""
import filecmp
import fnmatch
import glob
import os
import re
import shlex
import shutil
import sys
import tarfile
import tempfile
import unittest

from support.common import ALLOW, TOP, Case, completed, for_developers, profile_of, ret, text_of
from repository.test_library import CALLS

HAS_OBJECT = os.path.exists(os.path.join(TOP, "crates", "scf", "out", "scf.o"))
VERSION = text_of(TOP, "VERSION").strip()
PAGES = {f"{name}.3" for name in ("libscf", *sorted(CALLS))}


class Package(Case):
    @classmethod
    def setUpClass(cls):
        cls.once = tempfile.mkdtemp()
        cls.addClassCleanup(shutil.rmtree, cls.once)

    def debian_packages(self):
        """Those of this tree, which are made once."""
        made = sorted(glob.glob(f"{self.once}/*.deb"), key=lambda path: "/scf_" not in path)
        return made or self.made("deb", self.once)

    def made(self, what, folder="made", top=TOP):
        """The files that dev/package writes."""
        env = {**os.environ, "SOURCE_DATE_EPOCH": "1700000000"}
        return self.out_of(0, self.run_words([os.path.join(top, "dev", "package"), what, folder], env=env)).splitlines()

    def copy_of_tree(self):
        """The tree as it is built, in another folder."""
        folder = os.path.join(self.folder, "another", "folder")
        outs = [os.path.join(*item) for item in (("crates", "scf", "out"), ("library", "out"))]

        def left_out(at, names):
            inside = os.path.relpath(at, TOP)
            return {name for name in names
                    if name in (".git", "__pycache__", "dist", "rattle") or name.endswith(".lock")
                    or name == "out" and os.path.join(inside, name) not in outs
                    or inside == outs[0] and name not in ("scf", "scf.o")}
        shutil.copytree(TOP, folder, symlinks=True, ignore=left_out)
        return folder

    def example(self, folder):
        """A profile is compiled and compared, and one filter more is told from it, by what is unpacked in a folder."""
        profile = self.file("profile.json", profile_of("read", "write"))
        status, compiled, err = self.run_bytes([os.path.join(folder, "bin", "scf-compile"), profile])
        self.assertEqual((status, err), (0, b""))
        compare = os.path.join(folder, "bin", "scf-compare")
        self.assertEqual(self.run_words([compare, self.file("own.bpf", compiled), profile])[:2], (0, "same\n"))
        self.assertEqual(self.run_words([compare, self.file("all.bpf", ret(ALLOW)), profile])[0], 1)
        self.assertEqual(self.run_words([os.path.join(folder, "bin", "scf"), "check"], ret(ALLOW)),
                         (0, "accepted 1\n", ""))

    def run_bytes(self, words):
        done = completed(words, cwd=self.folder)
        return done.returncode, done.stdout, done.stderr

    @unittest.skipUnless(shutil.which("dpkg-deb"), "there is no dpkg-deb here")
    def test_the_debian_package(self):
        made, *library = self.debian_packages()
        again = self.made("deb", "again", self.copy_of_tree())
        names = [os.path.basename(item) for item in again]
        self.assertEqual(filecmp.cmpfiles(os.path.dirname(made), os.path.dirname(again[0]), names, shallow=False),
                         (names, [], []))
        self.packages_of_the_library(library)
        fields = dict(line.split(": ", 1) for line in self.run_words(["dpkg-deb", "-f", made])[1].splitlines()
                      if re.match(r"\w", line))
        self.assertEqual((fields["Package"], fields["Architecture"]), ("scf", "amd64"))
        self.assertRegex(fields["Depends"], r"^libc6 \(>= 2\.\d+\), python3 \(>= 3\.9\)$")
        root = os.path.join(self.folder, "root")
        self.assertEqual(self.run_words(["dpkg-deb", "-R", made, root])[0], 0)
        self.assertEqual(self.run_words(["md5sum", "--quiet", "-c", "DEBIAN/md5sums"], cwd=root), (0, "", ""))
        for name in ("copyright", "changelog.Debian.gz", "LICENCES.md", "README.md"):
            self.assertTrue(os.path.isfile(os.path.join(root, "usr", "share", "doc", "scf", name)), name)
        self.licences(os.path.join(root, "usr", "share", "doc", "scf"), {"clap", "strsim", "json", "core"})
        self.assertTrue(os.path.isfile(os.path.join(root, "usr", "share", "man", "man1", "scf-compare.1.gz")))
        with open(os.path.join(root, "usr", "lib", "scf", "tools", "compare"), "rb") as tool:
            self.assertEqual(tool.readline(), b"#!/usr/bin/python3 -IS\n")
        self.assertEqual(set(re.findall(r"(\S+) -IS", text_of(root, "usr", "bin", "scf"))), {"/usr/bin/python3"})
        self.places(os.path.join(root, "usr"), "/usr")
        self.example(os.path.join(root, "usr"))

    def licences(self, folder, parts):
        """The copyright file names these parts of the kit, if any, and says that the kit states no licence for some."""
        text = text_of(folder, "copyright")
        for part in ("clap", "strsim", "json", "core"):
            self.assertEqual(bool(re.search(rf"(?m)^ {part}\b.*; licence: ", text)), part in parts, part)
        self.assertEqual("none stated" in text, bool(parts))

    @unittest.skipUnless(shutil.which("lintian"), "there is no lintian here")
    def test_lintian_finds_nothing(self):
        """No error and no warning; the maintainer's address is a placeholder, but well formed."""
        done = self.run_words(["lintian", "--allow-root", "--fail-on", "error,warning", *self.debian_packages()])
        self.assertEqual(done[:2], (0, ""), done)

    def test_the_spec_has_each_installed_file_in_one_package(self):
        """rpmbuild refuses a file that none of its packages has."""
        root = os.path.join(self.folder, "root")
        macros = {"buildroot": root, "_prefix": "/usr", "_bindir": "/usr/bin", "_libdir": "/usr/lib64",
                  "_datadir": "/usr/share", "_includedir": "/usr/include", "_mandir": "/usr/share/man",
                  "python3_sitelib": "/usr/lib/python3/site-packages"}
        spec = re.sub(r"%{(\w+)}", lambda match: macros.get(match[1], match[0]), text_of(TOP, "contrib", "scf.spec"))
        patterns = re.findall(r"(?m)^/.*", spec)
        self.assertEqual(self.run_words(shlex.split(re.search(r"(?m)^make .*", spec)[0]), cwd=TOP)[0], 0)
        installed = [os.path.join(at, name)[len(root):] for at, _, names in os.walk(root) for name in names]
        owners = {path: [pattern for pattern in patterns
                         if path.startswith(f"{pattern}/") or fnmatch.fnmatchcase(path, pattern)] for path in installed}
        self.assertEqual({path: owning for path, owning in owners.items() if len(owning) != 1}, {})
        self.assertEqual(set(patterns), {owning[0] for owning in owners.values()})

    @unittest.skipUnless(shutil.which("rpmbuild"), "there is no rpmbuild here")
    def test_the_rpm_packages(self):
        top, tree = os.path.join(self.folder, "rpm"), self.copy_of_tree()
        status, out, err = self.run_words(["rpmbuild", "-bb", "--quiet", "--build-in-place", f"-D_topdir {top}",
                                           "contrib/scf.spec"], cwd=tree)
        self.assertEqual(status, 0, (out, err))
        made = {os.path.basename(path): self.run_words(["rpm", "-qlp", path])[1].split() for path in (
            os.path.join(at, name) for at, _, names in os.walk(os.path.join(top, "RPMS")) for name in names)}
        end = f"-{VERSION}-1.x86_64.rpm"
        self.assertEqual(set(made), {f"{name}{end}" for name in ("scf", "libscf", "libscf-devel")}
                         | {f"python3-scf-{VERSION}-1.noarch.rpm"})
        self.assertIn("/usr/bin/scf-compare", made[f"scf{end}"])
        self.assertEqual({os.path.basename(item) for item in made[f"libscf{end}"]} - {"libscf", f"libscf-{VERSION}"},
                         {"libscf.so.0", "LICENSE", "LICENCES.md"})
        self.assertLessEqual({"/usr/include/scf.h", "/usr/share/man/man3/scf_check.3.gz"}, {
            f"{item}.gz" if item.endswith(".3") else item for item in made[f"libscf-devel{end}"]})

    @unittest.skipUnless(shutil.which("podman") and os.geteuid() == 0, "there is no podman here, or no root")
    def test_an_image_of_the_program(self):
        """Of a stand-in for the program, that is linked statically as well."""
        self.skip_if(self.run_words(["podman", "info"])[0], "podman doesn't work here")
        name = f"scf-{VERSION}-x86_64"
        program = self.file(f"{name}/lib/scf/program/scf.c", '#include <stdio.h>\nint main() { puts("stands in"); }\n')
        self.assertEqual(self.run_words(["cc", "-static", "-o", program[:-2], program])[0], 0)
        os.mkdir(os.path.join(self.folder, "dist"))
        self.assertEqual(self.run_words(["tar", "cJf", f"dist/{name}.tar.xz", name])[0], 0)
        for file in (".containerignore", "contrib/Containerfile"):
            shutil.copy(os.path.join(TOP, file), self.folder)
        image = f"localhost/scf-test-{os.getpid()}"
        build = ["podman", "build", "--quiet", "--layers=false", "--target", "program", "--build-arg",
                 f"VERSION={VERSION}", "--tag", image, "--file", "Containerfile", "."]
        status, out, err = self.run_words(build)
        self.assertEqual(status, 0, (out, err))
        self.addCleanup(self.run_words, ["podman", "rmi", "--force", image])
        layers = f"podman save {image} | tar xO --wildcards '*.tar' | tar t --ignore-zeros"
        self.assertEqual(self.run_bytes(["sh", "-c", layers])[1].split(), [b"scf"])

    def places(self, root, prefix):
        """The unit and the hook below a folder name the programs below this prefix."""
        for path, name in (("lib/systemd/system/scf-audit.service", "scf-audit"),
                           ("share/scf/hooks.d/scf.json", "scf-oci-hook")):
            self.assertEqual(re.findall(rf"/[a-z0-9./_-]*/bin/{name}\b", text_of(root, path)), [f"{prefix}/bin/{name}"])

    def packages_of_the_library(self, made):
        """The packages of libscf have these files, and a program is compiled and run with what they unpack."""
        lib, root = "usr/lib/x86_64-linux-gnu", os.path.join(self.folder, "library")
        pages = {f"usr/share/man/man3/{item}.gz" for item in PAGES}
        documents = {f"usr/share/doc/libscf-dev/{name}"
                     for name in ("LICENCES.md", "LIBRARY.md", "FAULTS.md", "runtime.c")}
        for package, needs, wanted in (
                ("libscf0", "libc6 ", {f"{lib}/libscf.so.0"}),
                ("libscf-dev", "libscf0 (= ", {
                    f"{lib}/libscf.a", f"{lib}/libscf.so", f"{lib}/pkgconfig/scf.pc", "usr/include/scf.h",
                    "usr/include/scf.hpp", *pages, *documents}),
                ("python3-scf", f"libscf0 (>= {VERSION}), python3 ",
                 {f"usr/lib/python3/dist-packages/scf/{name}" for name in ("__init__.py", "py.typed")})):
            path, = (item for item in made if os.path.basename(item).startswith(f"{package}_"))
            self.assertTrue(self.run_words(["dpkg-deb", "-f", path, "Depends"])[1].startswith(needs), package)
            listed = self.run_words(["dpkg-deb", "-c", path])[1].splitlines()
            names = {line.split()[5].removeprefix("./") for line in listed if not line.startswith("d")}
            notices = {f"usr/share/doc/{package}/{name}" for name in ("copyright", "changelog.Debian.gz")}
            self.assertEqual(names, wanted | notices)
            self.assertEqual(self.run_words(["dpkg-deb", "-x", path, root])[0], 0)
            self.licences(f"{root}/usr/share/doc/{package}", {"json", "core"} if package != "python3-scf" else set())
        self.file("version.c", "#include <scf.h>\nint main(void) { return scf_version() != SCF_VERSION; }\n")
        folder = os.path.join(root, lib)
        self.assertEqual(self.run_words(["cc", "-o", "version", "version.c", f"-I{root}/usr/include", f"-L{folder}",
                                         "-lscf"]), (0, "", ""))
        env = {**os.environ, "LD_LIBRARY_PATH": folder, "PYTHONPATH": f"{root}/usr/lib/python3/dist-packages"}
        self.assertEqual(self.run_words(["./version"], env=env), (0, "", ""))
        words = [sys.executable, "-B", "-c", f"import scf; print(scf.check({ret(ALLOW)!r}))"]
        self.assertEqual(self.run_words(words, env=env), (0, "1\n", ""))

    @unittest.skipUnless(HAS_OBJECT, "the object file of scf wasn't kept here")
    def test_the_archive(self):
        made, = self.made("dist")
        with tarfile.open(made) as archive:
            self.assertEqual({(item.uid, item.gid, item.mtime) for item in archive}, {(0, 0, 1700000000)})
            archive.extractall(self.folder)
        folder = os.path.join(self.folder, f"scf-{VERSION}-x86_64")
        self.assertEqual(self.run_words(["sha256sum", "--quiet", "-c", "SHA256SUMS"], cwd=folder), (0, "", ""))
        self.assertEqual(self.run_words(["sha256sum", "--quiet", "-c", f"{made}.sha256"], cwd=os.path.dirname(made)),
                         (0, "", ""))
        with open(os.path.join(folder, "SHA256SUMS"), encoding="utf-8") as file:
            summed = {line.rstrip("\n").split("  ")[1] for line in file}
        listed = set(re.findall(r"^FileName: \./(.*)$", text_of(folder, "scf.spdx"), re.M))
        self.assertEqual(listed | {"scf.spdx"}, summed)
        # (it has no dynamic section)
        program = os.path.join(folder, "lib", "scf", "program", "scf")
        self.assertNotIn("NEEDED", self.run_words(["readelf", "-d", program])[1])
        self.assertLessEqual({"include/scf.h", "lib/libscf.a", "lib/libscf.so.0", "lib/pkgconfig/scf.pc",
                              "lib/python3/dist-packages/scf/__init__.py", "share/man/man3/scf_check.3"}, listed)
        self.places(folder, "/usr/local")
        self.example(folder)

    def test_usage(self):
        for words in ((), ("rpm", "made"), ("deb",)):
            self.assertEqual(self.run_words([for_developers("package"), *words])[0], 2)
