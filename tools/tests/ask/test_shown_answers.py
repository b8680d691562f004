"""What the tools show of a call is answered again by the filters that were given: where that isn't what would be shown,
it is an internal error, and no verdict."""
import json
import os
import stat
from unittest import mock

from support.common import PROGRAM, Case, filter_of, profile_of
from support.confined import Confined, here
from host.test_filters_of import MOUNT, refuses, refusing
from scftools.base import program
from scftools.model import tables
from scftools.ask import client
from scftools.ask.client import Run
from scftools.forms.filters import Filter, Stack
from scftools.forms.profile_inputs import ProfileInput
from scftools.report import compare
from scfhost import audit, audit_rows
from scfhost.expectations import Options
from scfhost.verify import Request

# Stands in for scf: a comparison says that mount is answered otherwise than any filter here does.
LIES = f"""#!/bin/sh
[ "$1" = compare ] || exec {PROGRAM} "$@"
case " $* " in
*" --calls "*) printf 'differs\\n165 mount differs args 0x0 0x0 0x0 0x0 0x0 0x0 filter TRAP 7 %s ALLOW 0\\n' "$SIDE" ;;
*)
    printf 'differs\\ncall nr 165 arch 0xc000003e ip 0x0 args 0x0 0x0 0x0 0x0 0x0 0x0\\n'
    printf 'filter TRAP 7\\n%s ALLOW 0\\n' "$SIDE" ;;
esac
exit 1
"""
SAYS = ("internal error: the filters answer ERRNO 1 where TRAP 7 would be shown, to --nr=0xa5 --arch=0xc000003e "
        "--ip=0x0 --a0=0x0 --a1=0x0 --a2=0x0 --a3=0x0 --a4=0x0 --a5=0x0; please report it")


class Tools(Confined):
    """Each tool that compares, with a program that says what isn't so."""

    def setUp(self):
        super().setUp()
        self.tree = self.made_tree(LIES)
        self.filter = self.file("f.bpf", refusing(MOUNT))
        self.other = self.file("others/f.bpf", refusing(MOUNT, MOUNT + 1))
        # (where all is the same, no record is shown)
        self.profile = self.file("p.json", refuses("mount", "swapon"))

    def run_lying(self, name, *words, given=b"", side="profile"):
        path = os.path.join(self.tree, "tools", name)
        self.assertTrue(os.stat(path).st_mode & stat.S_IXUSR)
        return self.run_words([path, *words], given, env={**os.environ, "SIDE": side})

    def fails(self, name, *words, **more):
        self.assertEqual(self.run_lying(name, *words, **more), (70, "", f"{name}: {SAYS}\n"))

    def test_compare_and_diff(self):
        for words in ((), ("--native",), ("--calls",), ("--all",), ("--json",), ("--no-more",)):
            self.fails("compare", *words, self.filter, self.profile)
            self.fails("compare", *words, self.filter, "--beside", self.other, side="beside")
            if words != ("--all",):
                self.fails("diff", *words, self.filter, self.other, side="beside")
        self.fails("compare", self.filter, self.other, self.profile)

    @here
    def test_verify_process_and_oci_hook(self):
        child = self.child([refusing(MOUNT)])
        for words in ((), ("--json",), ("--calls",)):
            self.fails("verify-process", *words, str(child.pid), self.profile)
        self.fails("verify-process", str(child.pid), "--beside", f"{self.folder}/others", side="beside")
        config = {"ociVersion": "1.0.2", "linux": {"seccomp": json.loads(refuses("mount", "swapon"))}}
        self.file("box/config.json", config)
        state = {"ociVersion": "1.0.2", "id": "box", "status": "running", "pid": child.pid,
                 "bundle": f"{self.folder}/box"}
        status, out, err = self.run_lying("oci-hook", given=json.dumps(state).encode())
        self.assertEqual((status, out), (70, ""))
        self.assertEqual(err.splitlines(), [
            "oci-hook: container box: unknown whether it is confined as configured", f"oci-hook: {SAYS}"])


class Modules(Case):
    """The one place in which comparisons are checked, and what becomes of them in an audit."""

    def test_both_sides_of_a_difference(self):
        left, right = ([Filter("f", filter_of(numbers))] for numbers in ([0], [0, 1]))
        table = tables.read_table(None)
        lines = "differs\ncall nr 1 arch 0xc000003e ip 0x0 args 0x0 0x0 0x0 0x0 0x0 0x0\n"
        run = client.run_scf
        for filters, beside, is_true in (("ERRNO 1", "ALLOW 0", True), ("ERRNO 1", "ALLOW 1", False),
                                         ("ERRNO 2", "ALLOW 0", False)):
            text = f"{lines}filter {filters}\nbeside {beside}\n".encode()
            with mock.patch.object(client, "run_scf", lambda words, *more_words, text=text, **more: Run(1, text)
                                   if words[0] == "compare" else run(words, *more_words, **more)):
                comparison = compare.StackComparison(left, right, table)
                if is_true:
                    self.assertEqual(comparison.run()[1].verdict.word, "differs")
                else:
                    self.assertRaises(program.InternalError, comparison.run)

    def test_an_audit(self):
        """It goes on: nothing is known of that row."""
        stack = Stack((filter_of([0]),), False)
        text = (b"differs\ncall nr 1 arch 0xc000003e ip 0x0 args 0x0 0x0 0x0 0x0 0x0 0x0\nfilter ALLOW 0\n"
                b"profile ALLOW 0\n")
        table = tables.read_table(None)
        run, judge = client.run_scf, audit.Judges(Options(table))
        with mock.patch.object(client, "run_scf", lambda words, *more_words, **more: Run(1, text)
                               if words[0] == "compare" else run(words, *more_words, **more)):
            asked = Request(ProfileInput(profile_of("read", "write")), table)
            block = judge.judgement(stack, audit_rows.Expectation(asked))
        self.assertEqual((block.verdict, block.why[:42]),
                         (audit_rows.NOT_KNOWN, "internal error: the filters answer ERRNO 1"))
