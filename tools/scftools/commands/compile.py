"""Prints a filter that answers every syscall as a profile says, or that a text in scf's assembler spells.

    scf compile [--native] [--strict] [--runtime runc|crun|docker|podman|sandbox] [--json]
                [--hot FILE [--no-bitmap]] [--table FILE] [--caps LIST] [--machine NAME]
                PROFILE >FILTER
    scf compile [--as assembler] [--json] TEXT >FILTER

PROFILE is a resolved OCI seccomp profile, or another one as `scf decide` takes it: a file, a pipe, or `-` for standard
input, or a unit's (unit:NAME). The filter answers the syscalls of each architecture that the profile names, as far as
scf has a table of it, with --native x86-64's alone, and kills a process that makes any other. Standard output is the
raw filter alone; what was left out of the profile, and what a refusal means, go to standard error. So does a line on
members that nothing reads, such as "arg" in place of "args", without which an entry has no conditions; with --strict
such a profile is refused. With --runtime the filter answers as the profile that this runtime reads (RUNTIMES.md); with
runc it fails syscalls whose numbers are above all that the profile names with ENOSYS, as runc's own filter does.
Without a PROFILE standard input is read: a profile, or a bundle, to whose filter or fault nothing is added.

With --hot the syscalls that FILE counts take fewer steps; the answers, and the bounds on the filter's size and steps,
stay the same. FILE has lines NAME COUNT, as `scf needs --counts` prints them, and for another architecture than x86-64,
or than the first that PROFILE lists, ARCH NAME COUNT. Linux from 5.11 on allows a syscall that the filter always allows
without running it, but for x32 and mips; the counts of these are left out, unless --no-bitmap says that the kernel is
older.

TEXT is known by its first word; with --as assembler it is one whatever it begins with. It is ASCII. A newline or `;`
ends a statement, and `//` begins a comment, which ends with the line. A statement is an instruction, a label with `:`
behind it, or both. Mnemonics are in small letters, and numbers decimal, or hexadecimal after 0x. The filter isn't
checked: use `scf check`. These are the instructions, with the accumulator A, the index register X and the scratch words
M[0] to M[15]:

    ld [0]                load the word at this offset of struct seccomp_data into A
    ld #1, ldx #1         load a constant into A; into X
    ld len, ldx len       load the length of struct seccomp_data, 64, into A; into X
    ld M[1], ldx M[1]     load a scratch word into A; into X
    st M[1], stx M[1]     store A; store X
    add #1, add x         add a constant to A; add X to A
                          (sub, mul, div, or, and, lsh, rsh and xor alike)
    neg                   negate A
    tax, txa              copy A to X; copy X to A
    jeq #41, yes, no      go to the label yes if A equals a constant, else to the label no
                          (jgt, jge and jset, for a common bit, alike, and each also with x)
    ja end                go to the label end
    ret #0x7fff0000       return a constant, here ALLOW
    ret a                 return A
    raw 0x6, 0, 0, 0x0    any instruction, by its code, jt, jf and k

All jumps go forwards. In place of a label a number says how many instructions are skipped.

Exit status: 0 success.

Examples:

    scf compile profile.json >filter.bpf
    scf compile --caps docker --machine arm64 engine.json >arm64.bpf
    scf compile filter.s | scf surface -
"""
from collections import Counter

from ..base import inputs, output, program
from ..base.values import Pattern, by_key
from ..model import bundles, tables
from ..model.answers import ALLOW
from ..model.architectures import JUDGED
from ..ask import client, explanation, regions, verdicts
from ..ask.client import Fault
from ..cli import words
from ..forms import filters, refusals, runtimes

# A line of counts: NAME COUNT, or ARCH NAME COUNT; the greatest number that scf takes in a table, and so of counts.
LINE = Pattern(r"(?:([a-z0-9-]+)[ \t]+)?([A-Za-z_][A-Za-z0-9_]*)[ \t]+([0-9]{1,18})")
BY_NAME, GREATEST = {architecture.name: architecture for architecture in JUDGED.values()}, (1 << 30) - 1
UNKNOWN = "names in the counts that were skipped because no table has them"


def without_allowed(counts, profile, judged):
    """The counts of what a filter runs for. Linux from 5.11 on answers syscalls that a filter always allows from a
    bitmap and doesn't run the filter (kernel/seccomp.c, seccomp_cache_check_allow), where it has one: these take no
    step. All of the counts, if scf doesn't list the regions of the profile."""
    try:
        listed = regions.regions_of_profile(profile, judged)
    except client.Refusal:
        return counts
    numbers = {architecture: regions.Numbers(listed, architecture) for architecture, _ in counts}
    return {(architecture, name): count for (architecture, name), count in counts.items() if not architecture.has_bitmap
            or {region.answer for region in numbers[architecture].of(judged.of[architecture.oci].number_of(name))}
            != {ALLOW}}


def read_counts(file, profile, judged, has_bitmap):
    """The parts of a bundle with the counts of a file, divided if they are too great for scf; for a kernel with a
    bitmap without the syscalls that the profile always allows there. Lines without ARCH are of the first of the tables;
    syscalls that no table has are reported."""
    counts, unknown = Counter(), {}
    text = inputs.read_whole(file, "counts").decode("utf-8", "surrogateescape")
    for number, line in enumerate(map(str.strip, text.split("\n")), 1):
        match = LINE.fullmatch(line)
        architecture = BY_NAME.get(match[1] or JUDGED[next(iter(judged.of))].name) if match else None
        if architecture:
            name, table = match[2], judged.of.get(architecture.oci)
            if table is None or table.number_of(name) is None:
                unknown[architecture.marked(name)] = None
            else:
                counts[architecture, name] += int(match[3])
        elif line and not line.startswith("#"):
            raise program.ToolError(f"line {number} of {inputs.label(file)} is neither NAME COUNT nor ARCH NAME COUNT: "
                                    f"'{output.escaped(output.cut(line))}'")
    if unknown:
        program.say(f"{UNKNOWN}: {output.some(list(unknown), tables.MOST_LISTED)}")
    if has_bitmap and counts:
        counts = without_allowed(counts, profile, judged)
    divisor = max(counts.values(), default=0) // GREATEST + 1
    # (a count above 0 stays so)
    lines = by_key((architecture, f"{name} {(count + divisor - 1) // divisor}\n")
                   for (architecture, name), count in counts.items())
    return [(f"counts-{architecture.kind}", "".join(its).encode()) for architecture, its in lines.items()]


def put(done, options, code, sentences=(), **members):
    """Prints a filter, or why scf refuses its source; the status."""
    fault = None if done.status == program.SUCCESS else Fault.read(done.line)
    if options.json and fault:
        output.put_json({"status": done.status, "fault": fault.as_json(sentences)})
    elif done.status != program.SUCCESS:
        program.say(done.line, *sentences)
    elif options.json:
        output.put_json({"status": done.status, "instructions": len(code) // 8, "hex": code.hex(), **members})
    else:
        output.put(code)
    return done.status


def main():
    parser = words.Parser(__doc__, command=lambda options: "compile" if options.kind is None else "asm")
    parser.add("--native", "--strict", "--json", "--table", "--caps", "--machine")
    parser.add("--as", choices=("assembler",))
    parser.value("--hot", "FILE",
                 "how often syscalls are called, as `scf needs --counts` prints it; - is standard input")
    parser.flag("--no-bitmap",
                "count syscalls that are always allowed, too: for Linux before 5.11, which runs the filter")
    parser.add("--architectures", "--reading", "--left-out", "profile")
    runtimes.add_option(parser, is_sandboxes=True)
    options = parser.parse_args()
    parser.one_standard_input([options.profile, options.table, options.hot])
    if not options.json:
        parser.keep_off_terminal()
    data = inputs.read_input(options.profile, "text") if options.kind else runtimes.text_of(options.profile, options)
    if options.kind or data.isascii() and filters.is_assembler(data.decode("ascii")):
        words.refuse(options, ("native", "strict", "runtime", "caps", "machine", "hot"),
                     f"speaks of a profile, and '{options.profile}' is an assembler's text")
        done = client.run_scf(["asm"], data)
        sentences = () if done.status == program.SUCCESS else [
            *filters.wrong_word(data.decode("latin-1"), Fault.read(done.line)), *explanation.explain_line(done.line)]
        return put(done, options, done.out, sentences)
    profile = runtimes.input_in(data, options.profile, options, options.strict)
    judged = profile.judged(tables.read_table(options.table), options.native)
    hot = [] if options.hot is None else read_counts(options.hot, profile.data, judged, not options.no_bitmap)
    done = client.run_scf(["compile", "--left-out", *judged.words],
                          bundles.profile_bundle(profile.data, judged, counts=hot))
    fault = None if done.status == program.SUCCESS else Fault.read(done.line)
    if fault:
        return put(done, options, b"", list(refusals.sentences(fault, profile.data, judged, profile.origins)))
    report, code = verdicts.behind_left_out(done.out)
    put(done, options, code, skipped=list(report.skipped), other_architectures=list(report.architectures))
    if options.json:
        return done.status
    output.flush()
    program.say(*explanation.explain_skipped(report, judged, profile.data),
                *(f"{line}: the filter kills a process that makes such a syscall"
                  for line in explanation.explain_architectures(report)))
    return done.status
