"""Says what happens to a syscall under filters, a profile or a process, and what gives the answer.

    scf decide [OPTIONS] X CALL [ARGUMENT ..]
    scf decide [--nr NUMBER|NAME] .. [--calls-from FILE] [--arch ARCH] [--ip N] [--a0 N] ..
               [--a5 N] [--table FILE] [--json] [--steps [--path]] [--force] X [FILTER ..]
    scf decide .. [--native] [--strict] [--runtime runc|crun|docker|podman|sandbox] [--caps LIST]
               [--machine NAME] [--as profile] PROFILE [CALL ..]
    scf decide --expect ROWS .. X [FILTER ..]

X is a filter, a profile, pid:N for the filters of a process, each distinct stack of its threads a block, or unit:NAME
for the profile of a unit; a file may be a pipe, and one input `-` for standard input. CALL is a syscall by its number,
or by its name in the table; with --arch by its name in that architecture's. An ARGUMENT, from the first on, is a
number, which may be negative, or constants of C joined by `|`, such as CLONE_NEWUSER|SIGCHLD. More FILTERs, the oldest
first, go with --nr, --calls-from or --expect. A line of --calls-from is a CALL with its ARGUMENTs; a line that begins
with `#` is a comment. So it is in ROWS, of at most 65536 rows, where `=` and the answer follow that is expected, such
as `socket AF_NETLINK SOCK_RAW = ERRNO EPERM` or `read = ALLOW`; an action alone is met with any data. Only the rows
with another answer are printed, and how many rows there are.

For each syscall scf's line comes first; the lines after it are marked by `# `: the syscall, what the answer does, which
of several filters gives it, and the path through that filter, the indexes of the instructions that ran, from 0 on (3-7
stands for three or more in a row). If several filters give the answer, it is the path through the newest of them, whose
answer the kernel takes; if all of them allow the syscall, through the one that runs the most instructions. With --steps
scf's line says how many instructions of one filter ran; with --path scf's next line has their indexes.

A profile is a resolved OCI seccomp profile, a config.json that holds one, a SeccompProfile of Kubernetes (JSON or
YAML), or a list of LXC, snapd or firejail. With --caps it is an engine's own, which is resolved as by `scf profile-of
--keep-first`, with --machine for another machine. All tools that take profiles take them so. With --runtime it is read
as that runtime reads it (RUNTIMES.md), and with runc's ENOSYS for newer syscalls. scf's line has the answer, and
`entry N`, `default`, `foreign` or `stub`, runc's ENOSYS; then come the entry as JSON on one line (N is its index in
`syscalls`, from 0 on; at most 400 characters are shown), and which of its conditions the syscall meets, with the values
of its arguments. Syscalls of each architecture that the profile names are answered, as far as scf has a table of it;
with --native x86-64's alone. For another one that the profile names the answer is `undetermined`. With --steps or
--expect a profile stands for the filter that scf compiles of it.

Without an X standard input is read, one filter or a bundle, of a profile with --as profile, and nothing is added to
scf's lines.

The exit status is the worst of all syscalls: 0 success, 1 with --expect a row is answered otherwise, or a thread has no
filter, 4 undetermined.

Examples:

    scf decide filter.bpf socket AF_INET
    scf decide --nr openat --nr 435 old.bpf new.bpf
    scf decide --expect rows filter.bpf
"""
import os

from ..base import inputs, output, program
from ..model import tables
from ..cli import words
from ..forms import operands, runtimes
from ..forms.profile_inputs import ProfileInput
from ..report import decisions
from ..report.blocks import put_block, put_blocks


def read_words():
    parser = words.Parser(__doc__, command=lambda options: "run" if options.steps else
                          "ask" if options.kind is not None else "decide")
    decisions.add_options(parser)
    parser.value("--expect", "ROWS", "check rows of syscalls, each with `=` and its answer; - is standard input")
    parser.flag("--steps", "say how many instructions of one filter ran")
    parser.flag("--path", "with --steps, print the indexes of these instructions")
    parser.add("--as", choices=("profile",))
    parser.add("--native", "--strict", "--caps", "--machine", "--force", "--architectures", "--reading")
    runtimes.add_option(parser, is_sandboxes=True)
    parser.value("words", "X", "a filter, a profile, pid:N or unit:NAME; - is standard input; then the syscall and its "
                               "arguments, or more filters", nargs="+")
    options = parser.parse_args()
    if not options.nr and options.calls_from is None and options.expect is None:
        options.words, options.call = options.words[:1], options.words[1:]
    parser.reject((options.expect is not None and (options.nr or options.calls_from),
                   "--expect takes the syscalls from its rows: leave out --nr and --calls-from"),
                  (options.path and not options.steps, "--path goes with --steps"),
                  (options.steps and len(options.words) > 1, "--steps counts the instructions of one filter"))
    parser.one_standard_input([*options.words, *options.call, options.table, options.calls_from, options.expect])
    return options


def read_input(options):
    """The stack of filters, the profile or the process that a command line names."""
    if options.kind is not None:
        name = options.words[0]
        return runtimes.input_in(runtimes.text_of(name, options), name, options, options.strict)
    given = operands.read(options.words, options)
    if not isinstance(given, ProfileInput):
        words.refuse(options, ("native", "strict", "runtime", "caps", "machine"),
                     f"speaks of a profile, and '{options.words[0]}' is none")
    elif options.steps or options.expect is not None:
        return [operands.compiled(options.words[0], given)]
    return given


def main():
    options = read_words()
    table = tables.read_table(options.table)
    given = read_input(options)

    def judge(stack):
        if options.expect is not None:
            return decisions.unmet_block(options, table, stack)
        if options.steps and len(stack) > 1:
            raise program.ToolError("--steps counts the instructions of one filter, and there are several")
        return decisions.replies([decisions.of_run(stack[0], query, table, options.path) if options.steps else
                                  decisions.stack_decisions(stack, query, table)
                                  for query in decisions.queries(options, table)])

    if not isinstance(given, ProfileInput):
        # (of standard input alone number 0 is answered, as by the program)
        is_missing = output.has_notes and not options.nr and not options.call and options.calls_from is None
        if is_missing and options.expect is None:
            raise program.ToolError("no syscall is given: name it behind the input, with its arguments, or several "
                                    "with --nr NUMBER|NAME or --calls-from FILE")
        if options.call and os.path.exists(options.call[0]):
            raise program.ToolError(f"no syscall is given: {inputs.label(options.call[0])} is a file, and several "
                                    "filters go with --nr NUMBER|NAME")
        if len(options.call) > 7:
            raise program.ToolError("a syscall has at most six arguments; more filters than one go with --nr")
        return put_blocks(given, judge, options.json)
    judged = given.judged(table, options.native)
    return put_block(decisions.replies([decisions.profile_decisions(given, query, judged, table)
                                        for query in decisions.queries(options, table)]), options.json)
