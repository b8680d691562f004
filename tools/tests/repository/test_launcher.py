"""./scf and ./build, in a made tree with a kit that stands in for rt."""
import os
import re
import shutil
import signal
import subprocess

from support.common import PATIENCE, TOP, Case, comes, text_of

# Notes where and how it was asked, and prints what it is told; a program that it builds prints its source and words.
RT = """#!/bin/sh
echo "${PWD##*/} $*" >>"$ASKED"
case ${PWD##*/} in ${PROVES-}) printf '%s' "${PRINTS-}" ;; esac
[ "${PWD##*/}" != "${FAILS-}" ] || exit 1
[ "$1" = run ] || exit 0
mkdir -p out && printf '#!/bin/sh\\necho "%s" "$@"\\n' "$(cat src/main.rt)" >out/scf && chmod +x out/scf
cat >/dev/null; exec out/scf --help
"""


class Launcher(Case):
    def setUp(self):
        super().setUp()
        self.tree = os.path.join(self.folder, "tree")
        os.makedirs(os.path.join(self.tree, "dev"))
        for name in ("scf", "build", "dev/build-crate"):
            shutil.copy2(os.path.join(TOP, name), os.path.join(self.tree, name))
        self.file("tree/crates/scf/src/main.rt", "one")
        for name in ("low", "middle", "aside"):
            os.makedirs(os.path.join(self.tree, "crates", name))
        self.file("tree/crates.txt",
                  "# NAME: what it stands on\nlow: thiserror\naside: low\nmiddle: low json\nscf: middle\n")
        os.chmod(self.file("kit/rt", RT), 0o755)
        self.room = os.path.join(self.folder, "room")
        os.mkdir(self.room)
        self.env = {"PATH": f"{self.folder}/kit:/usr/bin:/bin", "ASKED": os.path.join(self.folder, "asked"),
                    "TMPDIR": self.room}

    def run_here(self, name, *words, **more):
        return self.run_words([os.path.join(self.tree, name), *words], env={**self.env, **more})

    def asked(self):
        return text_of(self.env["ASKED"]).splitlines()

    def test_scf_is_built_where_it_never_was(self):
        status, out, err = self.run_here("scf", "core", "check", "--b c")
        self.assertEqual((status, out), (0, "one check --b c\n"))
        self.assertEqual(err, "build: proving and building scf; the first time this may take an hour\n")
        self.assertEqual(self.run_here("scf", "dis"), (0, "one dis\n", ""))
        self.assertEqual(self.asked(), ["low lib", "middle lib", "scf run -- --help"])

    def test_the_libraries_below_a_crate(self):
        status, out, err = self.run_here("build", "middle", PROVES="low", PRINTS=self.PRINTED)
        self.assertEqual((status, out), (0, ""))
        self.assertEqual(re.sub(r"\([0-9]+ s\)", "(N s)", err).splitlines(), [
            "build: proving and building middle; the first time this may take an hour",
            "build: low: proved: crate 1 of 1 (N s)"])
        self.assertEqual(self.asked(), ["low lib"])

    def test_one_crate_after_another(self):
        """Each behind its libraries, by as many processes as the kit or RT_JOBS says."""
        self.file("tree/crates.txt", "low: thiserror\naside: low\nmiddle: low json\nscf: middle aside\n")
        for jobs, words in (({}, "lib"), ({"RT_JOBS": "3"}, "lib --jobs 3")):
            status, _, err = self.run_here("build", PROVES="*", PRINTS=self.PRINTED, **jobs)
            self.assertEqual(status, 0)
            asked = self.asked()
            self.assertEqual((asked[0], sorted(asked[1:3]), asked[3]),
                             (f"low {words}", [f"aside {words}", f"middle {words}"], "scf run -- --help"))
            self.assertRegex(err, r"\n(build: (aside|middle): proved: crate [23] of 4 \([0-9]+ s\)\n){2}"
                                  r"build: scf: proved: crate 4 of 4 \([0-9]+ s\)\n\Z")
            os.unlink(self.env["ASKED"])

    def test_an_interrupt_leaves_nothing(self):
        """The kit would work for an hour."""
        os.chmod(self.file("kit/rt", '#!/bin/sh\necho $$ >"$ASKED"\nexec sleep 3600\n'), 0o755)
        for number in (signal.SIGINT, signal.SIGTERM, signal.SIGHUP):
            with subprocess.Popen([os.path.join(self.tree, "build")], env=self.env, stderr=subprocess.DEVNULL) as build:
                comes(lambda: os.path.exists(self.env["ASKED"]) and self.asked())
                build.send_signal(number)
                self.assertEqual(build.wait(PATIENCE), 130 if number == signal.SIGINT else 143)
            self.assertEqual(os.listdir(self.room), [])
            (process,) = self.asked()
            self.assertRaises(ProcessLookupError, os.kill, int(process), 0)
            os.unlink(self.env["ASKED"])

    def test_build_has_the_kit_build_again(self):
        self.run_here("scf", "check")
        self.file("tree/crates/scf/src/main.rt", "two")
        self.assertEqual(self.run_here("scf", "check")[1], "one check\n")
        self.assertEqual(self.run_here("build"), (0, "", ""))
        self.assertEqual(self.run_here("scf", "check")[1], "two check\n")

    # What the kit prints of a crate that it proves.
    PRINTED = """rt: chose --jobs 4 for low
so far: 0 of 2 functions checked; the verdict comes last
fn low::first: proved
library std: modules loaded=317 checked=0
crate low: modules loaded=27 checked=27
logic=proved functions=2 sum=dac8208d650f15bf incremental=trusted
"""

    def test_each_crate_that_is_proved_has_a_line(self):
        """And what the kit prints of a crate that isn't is in a log, which stays."""
        status, out, err = self.run_here("build", PROVES="[ls]*", PRINTS=self.PRINTED)
        self.assertEqual((status, out), (0, ""))
        self.assertEqual(re.sub(r"\([0-9]+ s\)", "(N s)", err).splitlines(), [
            "build: proving and building scf; the first time this may take an hour",
            "build: low: proved: crate 1 of 3 (N s)", "build: scf: proved: crate 3 of 3 (N s)"])
        self.assertEqual(os.listdir(self.room), [])
        refused = "fn middle::third: not proved\nlogic=not-proved\n"
        status, out, err = self.run_here("build", PROVES="middle", PRINTS=refused, FAILS="middle")
        self.assertEqual((status, out), (125, ""))
        log, = os.listdir(self.room)
        self.assertEqual(err.splitlines(), [f"build: middle wasn't built: see {self.room}/{log}"])
        self.assertEqual(text_of(self.room, log), refused)

    def test_its_input_is_not_read_by_the_build(self):
        self.file("tree/crates/scf/src/main.rt", "$(cat)")
        self.assertEqual(self.run_words([os.path.join(self.tree, "scf"), "dis"], b"mine", env=self.env)[:2],
                         (0, "mine dis\n"))

    def test_without_a_kit_what_was_built_runs(self):
        self.run_here("scf", "check")
        self.assertEqual(self.run_here("scf", "dis", PATH="/usr/bin:/bin"), (0, "one dis\n", ""))

    def test_status_125(self):
        self.assertEqual(self.run_here("scf", "check", PATH="/usr/bin:/bin"),
                         (125, "", "build: rt, the Rattle kit's command, isn't on the PATH\n"))
        status, out, err = self.run_here("scf", "check", FAILS="scf")
        self.assertEqual((status, out), (125, ""))
        self.assertRegex(err, "(?m)^build: scf wasn't built: see /.+\n\\Z")

    def test_through_links(self):
        self.run_here("scf", "check")
        os.makedirs(os.path.join(self.folder, "links", "scf"))
        os.symlink("../../tree/scf", os.path.join(self.folder, "links", "scf", "far"))
        os.symlink("links/scf/far", os.path.join(self.folder, "near"))
        for words in ([os.path.join(self.folder, "near")], ["./near"], ["sh", os.path.join("tree", "scf")]):
            self.assertEqual(self.run_words([*words, "dis"], env=self.env), (0, "one dis\n", ""))
        env = {**self.env, "PATH": f"{self.folder}:{self.env['PATH']}"}
        self.assertEqual(self.run_words(["near", "dis"], env=env), (0, "one dis\n", ""))
        status, out, _ = self.run_words(["sh", "-c", "CDPATH=/ sh tree/build && tree/scf dis"], env=self.env)
        self.assertEqual((status, out), (0, "one dis\n"))
