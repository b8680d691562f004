"""Says of each container, systemd unit and other confined program of this machine whether it is confined as configured.

    scf audit [--expect FILE] [--baseline no-more:FILE] [--allow-unconfined] [--force]
              [--programs] [--runtime-root FOLDER] [--json | --json-lines] [--since FILE]
              [--prometheus FILE] [--html FILE] [--watch SECONDS] [--native] [--limit N]
              [--splits N] [--table FILE]

All processes are read in one pass. Those with a filter are stopped for a moment, one after another, and their filters
are compared with what is configured, each distinct stack with each distinct profile once. A container's profile is that
of its config.json, as its runtime applies it; a unit's is what `scf unit-profile` prints; that of a snap's programs is
in the rules that snapd keeps of them, and that of a sandbox of firejail in its profile. --expect takes one profile for
all instead. Nothing is configured for other programs, of which there is a row for each executable with a filter; unless
one is weaker than the baseline, unconfined or not known, these rows are only counted, and listed by --programs.

Each row has a verdict. `unconfined though configured`: some thread has no filter. `unconfined by configuration`: so it
is configured. `weaker`: some syscall is more permissive than configured, and one is shown. `not known`: and why.
`otherwise`: nothing is more or less permissive, but some answers differ, such as the errno. `stricter`: nothing is more
permissive. `as configured`: every syscall gets the profile's answer, of each architecture that the profile names and
scf has a table of, or with --native of x86-64 alone; a line says which weren't compared. The unconfined stand first.
With --baseline a row is also weaker if it allows more than the profile FILE. A profile denies all syscalls of another
ABI of the machine, such as i386 or x32 on x86-64, that it doesn't name; --native doesn't ask about these.

Containers are known by the files of runc, crun, containerd, Docker, podman and CRI-O. --runtime-root is a folder that
was given to a runtime as --root, may have wildcards, and may be given several times. What users describe or run has
rows `of user N`, of their processes alone, which come last and have some seconds. A line says what wasn't looked at.

--json prints one object, and --json-lines an object for each row and a last one for the whole; both have all rows.
--since compares with an object that --json printed, and says which rows are new or gone, or have another verdict:
in lines, in the member `since`, and on the page. --prometheus writes metrics for the textfile collector of
node_exporter, and --html a page without scripts, which also shows what each distinct stack allows. Both replace FILE at
once. --watch audits again and again, and after the first time prints a line for each change.

Exit status: 0 nothing is unconfined or weaker than configured; 1 something of root's is (with --allow-unconfined what
is unconfined by configuration doesn't count); 4 something of a user's is, or something isn't known or wasn't looked at.

Examples:

    scf audit
    scf audit --json
    scf audit --json >before.json; scf audit --since before.json
"""
import json
import time

from scftools.base import inputs, output, program
from scftools.model import tables
from scftools.ask import verdicts
from scftools.cli import words
from scftools.forms import profile_inputs
from .. import audit, audit_output, expectations, processes

BASELINE = "no-more:"


def read_words():
    parser = words.Parser(__doc__, processes.NEEDS)
    parser.value("--expect", "FILE", "a resolved profile or a config.json that all should have")
    parser.value("--baseline", "no-more:FILE", "a resolved profile that no row may exceed")
    parser.flag("--allow-unconfined", "don't count what is unconfined by configuration")
    parser.add("--force")
    parser.flag("--programs", "list the programs without a configuration, too")
    parser.value("--runtime-root", "FOLDER", "where a runtime keeps its containers, as given to its own --root",
                 action="append", default=[])
    form = parser.add_mutually_exclusive_group()
    form.add_argument("--json", **words.SHARED["--json"])
    form.add_argument("--json-lines", action="store_true", help="print an object for each row, and one for the whole")
    parser.value("--prometheus", "FILE", "write metrics in Prometheus's text format")
    parser.value("--html", "FILE", "write a page of HTML")
    parser.value("--since", "FILE", "say what changed since an object that --json printed")
    parser.value("--watch", "SECONDS", "audit again and again, with this pause", type=words.seconds)
    parser.add("--native", "--limit", "--splits", "--table")
    given = parser.parse_args()
    parser.reject((given.baseline is not None and not given.baseline.startswith(BASELINE),
                   f"--baseline takes {BASELINE}FILE"),
                  (given.watch is not None and not 0.1 <= given.watch <= 86400, "--watch takes 0.1 to 86400 seconds"))
    given.baseline = None if given.baseline is None else given.baseline[len(BASELINE):]
    parser.one_standard_input([given.expect, given.baseline, given.since, given.table])
    return given


def earlier_in(name):
    if name is None:
        return None
    try:
        return audit_output.Earlier.of_object(json.loads(inputs.read_whole(name, "object")))
    except (ValueError, RecursionError) as why:
        raise program.ToolError(f"{inputs.label(name)} isn't an object that --json printed") from why


def main():
    given = read_words()
    table = tables.read_table(given.table)
    expected, baseline = (
        None if name is None else (name, profile_inputs.profile_in(profile_inputs.read_text(name), name, True).data)
        for name in (given.expect, given.baseline))
    options = expectations.Options(table, expected, baseline, given.force, given.allow_unconfined,
                                   tuple(given.runtime_root), verdicts.NATIVE_SCOPE if given.native else None,
                                   given.html is not None)
    earlier, before = earlier_in(given.since), None
    options.check()
    judges = audit.Judges(options)
    while True:
        report = processes.read_or_end(lambda: audit.audit_machine(options, judges), given.json)
        if given.prometheus is not None:
            output.replace_file(given.prometheus, audit_output.metrics(report))
        if given.html is not None:
            output.replace_file(given.html, audit_output.page(report, table, earlier))
        if given.json:
            output.put_json(audit_output.audit_json(report, table, earlier))
        elif given.json_lines:
            for value in audit_output.json_lines(report, table, earlier) if before is None else \
                    audit_output.changes(before, report):
                output.put_json(value)
        elif before is None:
            output.put_lines(audit_output.audit_lines(report, table, given.programs, earlier))
        else:
            output.put_lines(map(audit_output.change_text, audit_output.changes(before, report, given.programs)))
        output.flush()
        if given.watch is None:
            return report.status
        before = audit_output.Earlier.of(report)
        time.sleep(given.watch)
