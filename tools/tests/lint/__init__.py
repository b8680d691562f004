"""Tests of `lint`: what it finds in a profile, and that it is so."""
import json

from support.common import Case
from scftools.lint.findings import FINDING_KINDS


class Linted(Case):
    def run_lint(self, given, *words, **settings):
        text = given if isinstance(given, bytes) else json.dumps(given).encode()
        return self.run_tool("lint", *words, self.file("p.json", text), **settings)

    def found(self, given, *words, kinds=(), status=0):
        """The findings of some kinds, without their grades, which are those of their kinds."""
        ended, out, err = self.run_lint(given, "--json", *words)
        self.assertEqual((ended, err), (status, ""))
        findings = [it for it in json.loads(out)["findings"] if it["kind"] in kinds]
        for it in findings:
            self.assertIn(it.pop("grade"), (FINDING_KINDS[it["kind"]], "error" * (it["kind"] == "unknown-name")))
        return findings
