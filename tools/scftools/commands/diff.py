"""Says whether an old and a new filter or profile answer every syscall alike, and if not, which differ.

    scf diff [--native|--calls] [--no-more|--no-less|--disposition]
             [--runtime runc|crun|docker|podman|sandbox]
             [--engine docker|docker-20.10|podman] [--caps LIST] [--kernel X.Y]
             [--machine NAME] [--arch-map native|all] [--ignore MEMBER ..]
             [--keep-first] [--profiles] [--limit N] [--splits N] [--table FILE]
             [--force] [--json] OLD NEW

OLD and NEW are each a filter as `scf check` takes it, a profile as `scf compare` takes it, pid:N, which stands for the
filters of a process, or unit:NAME, the profile of a unit; one of them may be `-` for standard input. NEW is judged by
OLD: --no-more asks whether NEW is nowhere more permissive than OLD, --no-less whether it is nowhere stricter.

Filters and a filter beside a profile are compared as by `scf compare`: if they differ, the lines show a syscall and
what OLD (`old`) and NEW (`new`) answer, and those marked by `# ` what gives each answer and the syscalls that differ.

Two profiles are compared syscall by syscall, in each architecture that one of them names; the other one kills there.
First comes the verdict, and the number of changes of each kind. Then the changes: those where NEW is more permissive
(`more`), those where it is stricter (`less`; some are both), and those that only get another answer (`otherwise`). Each
has a line: the architecture if it isn't x86-64, the number, the names, the kind, the arguments of an example, and for
both profiles the answer to it and what gives it, as `scf ask` says. Lines marked by `# ` add the conditions that the
example meets, and at the end the entries.

With --engine, --caps, --kernel, --machine, --arch-map, --ignore or --keep-first profiles are an engine's own, and are
resolved for one container as by `scf resolve-profile`. With --runtime they are read as that runtime reads them, and the
numbers that runc answers with ENOSYS, above all that a profile names, count too; they are called `stub`. What is left
out of one profile alone goes to standard error. Entries are always numbered by their index in OLD and NEW.

Exit status: 0 same, no more or no less; 1 differs, more or less, or a thread has no filter; 4 undecided or unfinished.

Examples:

    scf diff old.bpf new.bpf
    scf diff --no-more old.json new.json
    scf diff --runtime podman --json old.json new.json
"""
from ..base import program
from ..base.values import replace
from ..model import profiles, tables
from ..ask import verdicts
from ..cli import words
from ..forms import engines, filters, operands, profile_inputs, runtimes
from ..forms.profile_inputs import ProfileInput
from ..report import blocks, changes, compare
from ..report.compare_output import Judgement


def side_of(path, options):
    """What a word names: filters, or a profile, as it is or as an engine or a runtime makes it, and what that lacks."""
    if operands.has_process(path) and not options.profiles:
        return operands.read([path], options), []
    data = profile_inputs.read_text(path, "engine's profile" if options.is_made else None)
    if not options.profiles and not profile_inputs.looks_like_profile(data):
        return [filters.filter_in(path, data)], []
    if not options.is_made:
        return profile_inputs.profile_in(data, path, is_runtimes=True).read_by(options.runtime), []
    try:
        value = engines.parse_json(profile_inputs.plain(data, path))
        given = runtimes.applied(value, options.runtime, options.setting) if options.runtime is not None else \
            profile_inputs.resolved(value, options.setting, options.keep_first)
        return given, [*engines.at_most(given.notes), *given.remarks]
    except profiles.Refused as why:
        raise program.ToolError(f"{path}: {why}") from why


def main():
    parser = words.Parser(__doc__)
    parser.scope("x86-64 syscalls alone, whatever architectures a profile names")
    parser.relation("only check that NEW is nowhere {} than OLD", True)
    runtimes.add_options(parser, is_sandboxes=True)
    parser.flag("--keep-first", "OLD and NEW are an engine's own: if two entries without conditions answer a syscall, "
                                "keep the first")
    parser.flag("--profiles", "read both as profiles, whatever they look like")
    parser.add("--machine", "--limit", "--splits", "--table", "--force", "--json")
    parser.value("old", "OLD", "a filter or a profile, pid:N or unit:NAME; - is standard input")
    parser.value("new", "NEW", "what is judged by it")
    options = parser.parse_args()
    is_engines = options.keep_first or runtimes.is_engines(options)
    parser.reject((options.runtime == profiles.SANDBOX and is_engines, "--runtime sandbox reads no engine's profile"),
                  (options.force and not operands.has_process(options.old, options.new), "--force needs a process"))
    parser.one_standard_input([options.old, options.new, options.table])
    options.is_made = options.runtime in runtimes.RUNTIMES or is_engines
    options.setting = runtimes.setting_of_words(options, parser)
    (old, of_old), (new, of_new) = (side_of(path, options) for path in (options.old, options.new))
    # (what is left out of both is no change)
    for side, notes, others in ((changes.OLD, of_old, of_new), (changes.NEW, of_new, of_old)):
        program.say(*(f"{side}: {note}" for note in notes if note not in others))
    old = old if isinstance(old, (list, ProfileInput)) else operands.the_stack(old)
    table, is_native = tables.read_table(options.table), options.scope == verdicts.NATIVE_SCOPE
    if options.is_made and not any(isinstance(side, ProfileInput) for side in (old, new)):
        parser.error("neither OLD nor NEW is a profile, of which an option speaks")

    def judge(side):
        return Judgement.of([compare.pair_of(side, old, table, options.relation, is_native, is_diff=True)],
                            options.scope)

    if isinstance(old, ProfileInput) and isinstance(new, ProfileInput) and options.scope != verdicts.CALLS:
        judgement = judge(new)
        if judgement.first.verdict is not None:
            found = changes.changes_of(judgement.comparison, judgement.first)
            return blocks.put_block(blocks.Block(found.verdict.status, lambda: changes.change_lines(found),
                                                 lambda: changes.changes_json(found)), options.json)
        # (scf doesn't compare them)
        whole, shown = judgement.block(), ("relation", "verdict", "fault")
        return blocks.put_block(replace(whole, members=lambda: {
            name: value for name, value in whole.members().items() if name in shown}), options.json)
    return blocks.put_blocks(new, lambda side: judge(side).block(), options.json)
