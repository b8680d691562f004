"""Says whether filters or a profile answer every syscall as wanted, and if not, which differ and why.

    scf compare [--native|--all|--calls] [--no-more|--no-less|--disposition] [--limit N]
                [--splits N] [--strict] [--runtime runc|crun|docker|podman|sandbox]
                [--table FILE] [--caps LIST] [--machine NAME] [--force] [--verbose] [--json]
                [--html FILE] [--also PROFILE ..] ACTUAL.. WANTED
    scf compare [OPTION ..] ACTUAL.. --beside FILTER..

The last word is WANTED, and all before it are ACTUAL. Each is filters or a profile: a filter as `scf check` takes it,
several of which form a stack, oldest first; pid:N, the filters of a process; a resolved OCI seccomp profile, or another
one as `scf ask` takes it; or unit:NAME, the profile of a unit. One file may be `-` for standard input. A WANTED of
several filters stands behind --beside.

The first lines are scf's; the lines after them are marked by `# `. If the sides differ, these show the syscall, the
entry of a profile that decides it with the conditions that it meets, and the last tests on its path through a filter,
at most 12; then each syscall in the tables that differs, as with --calls, with its architecture before it if that isn't
x86-64. With --json one object says the same; --html also writes it as a page without scripts, which replaces FILE at
once and names each input with its SHA-256. Each distinct stack of a process has a block; a thread without a filter is
`unconfined`.

If one side is a profile, the syscalls of each architecture that it names are compared, as far as scf has a table of it
(`scf call-table -h` names those); if both are, those of either. A profile without a list is for x86-64. A runtime kills
a program that makes a syscall of another ABI of the machine, such as i386 or x32 on x86-64, that the profile doesn't
name: the filters must deny all of these, by whatever answer, or they differ (with --no-more, allow more). --also gives
another profile of the same unit, for other architectures, and all are judged. --native compares x86-64's syscalls
alone, and --calls each syscall that a table names by itself. --all compares each possible record, as filters beside
filters are compared; if one differs on an architecture that the profile names and scf has no table of, the first line
is `undetermined: the profile is for this architecture, too`. --table FILE takes the place of x86-64's table.

Without --limit all comparisons together have 6 seconds of CPU time. What isn't decided by then is `unfinished`. What
tests leave `undecided` takes more splits: --splits N.

KILL_PROCESS, KILL_THREAD, TRAP and ERRNO deny a syscall, USER_NOTIF and TRACE delegate it to a supervisor or tracer,
LOG and ALLOW allow it. Denied < delegated < allowed: --no-more asks whether ACTUAL is nowhere more permissive than
WANTED, --no-less whether it is nowhere stricter, --disposition whether both sides deny, delegate and allow the same,
whatever the errno or other data. Without any, the first added line says if ACTUAL is nowhere more permissive.

With --runtime a profile is read as that runtime reads it (RUNTIMES.md). runc's filters also fail syscalls whose numbers
are above all that the profile names with ENOSYS: if these do so at the first of them, all are expected to.

Without files scf answers a bundle on standard input (see `scf bundle` and scf(1)), and nothing is added to its lines.
Then all records are compared unless --native or --calls, or --architectures, which takes the tables in the bundle.

Exit status: 0 same, no more or no less; 1 differs, more or less, or a thread has no filter; 4 undecided, undetermined
or unfinished.

Examples:

    scf compare filter.bpf profile.json
    scf compare --no-more old.bpf new.bpf profile.json
    scf compare old.bpf --beside new.bpf
"""
import sys

from ..base import inputs, output
from ..model import profiles, tables
from ..ask import verdicts
from ..cli import words
from ..forms import operands, runtimes
from ..forms.profile_inputs import ProfileInput
from ..report import blocks, compare
from ..report.compare_output import Judgement, comparison_notes

ACTUAL = f"{words.FILTER_HELP}; of several the oldest first; or a profile, pid:N or unit:NAME; - is standard input"


def read_words():
    parser = words.Parser(__doc__, command="compare")
    parser.scope("x86-64 syscalls alone, whatever architectures a profile names",
                 "all syscalls, also those of other ABIs [default without a profile]")
    parser.relation("only check that ACTUAL is nowhere {} than WANTED", True)
    parser.add("--limit", "--splits", "--strict", "--table", "--verbose", "--caps", "--machine", "--force", "--json",
               "--html")
    parser.add("--architectures", "--reading", "--total-limit", "--nr-from", "--nr-to")
    runtimes.add_option(parser, is_sandboxes=True)
    parser.value("--beside", "FILTER", "these filters are WANTED, oldest first, and all others ACTUAL", nargs="*")
    parser.add("--also")
    parser.add("filters", metavar="ACTUAL", help=ACTUAL)
    if not any(word.partition("=")[0] == "--beside" for word in sys.argv):
        parser.value("profile", "WANTED", "a profile or a filter, pid:N or unit:NAME; - is standard input")
    options = parser.parse_args()
    others = [options.profile, *options.also] if options.beside is None else options.beside
    has_process = operands.has_process(*options.filters)
    parser.reject(
        (options.beside == [], "argument --beside: expected at least one argument"),
        (options.also and options.scope in (verdicts.NATIVE_SCOPE, verdicts.ALL),
         "--also is for other architectures' profiles, and --native and --all take one alone"),
        (options.force and not operands.has_process(*options.filters, *others), "--force needs a process"),
        (options.html and has_process, "--html shows one comparison, and a process may have several stacks"))
    parser.one_standard_input([*options.filters, *others, options.table])
    runtimes.words_of(options)
    return parser, options


def main():
    parser, options = read_words()
    inputs.kept = {} if options.html is not None else None
    actual = operands.read(options.filters, options)
    # (filters, or the profiles of a unit)
    if options.beside is not None or operands.has_process(options.profile):
        wanted = [operands.read_stack(options.beside or [options.profile], options)]
    else:
        given = operands.read([options.profile], options)
        wanted = [given] if isinstance(given, list) else [
            part for side in (given, *(operands.read([name], options) for name in options.also)) for part in side.parts]
    table = tables.read_table(options.table)
    if not any(isinstance(side, ProfileInput) for side in (actual, *wanted)):
        parser.reject(*((getattr(options, name), f"--{name} speaks of a profile, and no side is one")
                        for name in ("caps", "verbose", "strict", "runtime", "machine", "also")))
    elsewhere = profiles.elsewhere_of([each.data for each in wanted if isinstance(each, ProfileInput)]) or [()]

    def judge(side):
        judgement = Judgement.of([compare.pair_of(
            side, each, table, options.relation, options.scope == verdicts.NATIVE_SCOPE, elsewhere=names)
            for each, names in zip(wanted, elsewhere)], options.scope)
        if options.html is not None:
            from ..report import pages  # pylint: disable=import-outside-toplevel

            comparison, report = judgement.comparison, judgement.report
            output.replace_file(options.html, pages.comparison_page(
                comparison, comparison.printed(report), [*comparison_notes(comparison, report, judgement.scope)]))
        return judgement.block(options.verbose)

    return blocks.put_blocks(actual, judge, options.json)
