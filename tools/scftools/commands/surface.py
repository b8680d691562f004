"""Says for each syscall whether filters allow, delegate or deny it, or on what that depends.

    scf surface [--arch ARCH] [--machine NAME] [--conditions | --examples] [--limit N]
                [--splits N] [--table FILE] [--caps LIST] [--json] [--html FILE] FILTER..
                [--beside OTHER..]
    scf surface .. [--force] pid:PID|--pid PID [--beside OTHER..]
    scf surface --regions [--arch ARCH] [--examples] [--limit N] [--table FILE] [--json] FILTER..

The FILTERs form one stack, oldest first; pid:PID is that of a running process, as the kernel keeps it, and each
distinct stack of its threads has a block of its own. A profile, as `scf decide` takes it, or a unit's (unit:NAME),
stands for the filter that scf compiles of it. Each syscall in the table is always allowed, always denied, always
delegated (to a supervisor or tracer), or it depends on the arguments; then an example of each is shown. The first line
counts them; a line before it names a filter that is for another machine. The next lines say whether any syscall of
another ABI of the machine is allowed, with the same counts of an ABI of which one is, and how many numbers that the
table doesn't name are allowed; and how many of the syscalls that make a sandbox useless (tables/dangerous.calls) are
allowed, denied and so on, with the names of those that aren't denied. With --machine arm64 all this is said of aarch64
and arm, with --arch of that architecture alone. Then come the syscalls by purpose (tables/calls.groups), on a terminal
as a table, otherwise a line each: the group, the disposition, the number, the names, and an answer. --beside shows the
syscalls that differ under another stack of filters; it stands last. --html writes the same as a page without scripts,
which replaces FILE at once: it says which inputs it is of, each with its SHA-256, and the conditions as --conditions
does.

With --conditions a syscall with several answers has them all instead of examples, with the conditions on its arguments:

    socket denied (EINVAL) where domain == AF_NETLINK and protocol == NETLINK_AUDIT, else allowed

Arguments have the names of their manual page, or are a0 to a5; they are compared as whole registers, those of i386, x32
and arm as lower halves. `prot & ~PROT_READ == 0` allows no bit but PROT_READ, and `sig in {SIGINT, SIGTERM, ..}` is any
of these values. Such a line is printed only if comparisons of scf prove it. If no profile gives an answer, as ALLOW
with data, or the answers take many conditions and the dispositions fewer, the latter alone are told; where no profile
says the conditions, there are examples. Filters that take too many steps have examples alone, and standard error says
that their conditions are `unfinished`; --limit N gives them N steps, if that is more than they have. With --examples
each syscall has a call for each of its regions, with its answer: the sets of records that take one path through the
filters.

With --regions it lists everything that the filters answer: scf proves of each region of records that all of them get
its answer, and each record is in a region. A line has the answer, the filter that gives it (0 is the oldest) with the
index of the instruction, the syscalls, and the conditions on their arguments, which hold together:

    ERRNO 22 (EINVAL) at 0:364: socket where domain == AF_NETLINK and protocol == 9

Regions that have the same answer at the same instruction under the same conditions are one line; `(u32)a0` is the lower
half of a register, `a0 >> 32` the upper one, and `ip` the instruction pointer. Where a test isn't decided, the regions
behind it are `open`: a record that meets several of them gets the answer of one, and none may meet one of them. The
answer `unknown` is computed. With --examples a line after each, marked by `# `, has a syscall of the region, if one is
found. Without a FILTER standard input is read: one filter, or a bundle, also of a profile, for which the program's own
lines are printed.

Each disposition is proved: by the regions of all records, as --regions lists them, which also have the examples;
where a test isn't decided, by comparisons of scf with profiles that deny, allow or delegate everything. If scf can't
decide, the line says `undecided` or `unfinished`, with the examples that were found. KILL_PROCESS, KILL_THREAD, TRAP
and ERRNO deny a syscall, USER_NOTIF and TRACE delegate it, LOG and ALLOW allow it.

Exit status: 0 everything is decided; 1 a thread has no filter, or with --beside they differ; 4 something is undecided.

Examples:

    scf surface filter.bpf
    scf surface old.bpf --beside new.bpf
    scf surface --caps docker --machine arm64 engine.json
"""
import os
import sys
import types

from ..base import inputs, output
from ..base.values import unless_refused
from ..model import architectures, tables
from ..ask import client, questions
from ..cli import words
from ..forms import engines, operands
from ..report.blocks import put_blocks


def read_words():
    needs = ""
    if "--help" in sys.argv:
        from scfhost import processes  # pylint: disable=import-outside-toplevel

        needs = processes.NEEDS.replace("This needs", "A process needs", 1)
    parser = words.Parser(__doc__, needs, lambda options: "answers" if options.regions else None)
    parser.flag("--regions", "list everything that the filters answer")
    parser.flag("--conditions", "say which arguments get which answer, instead of examples")
    parser.value("--beside", "OTHER", "show the syscalls that differ under these filters, oldest first; stands last",
                 nargs="+", default=[])
    parser.value("--pid", "PID", "the filters of this process, as pid:PID names them")
    parser.add("--arch")
    parser.add("--machine", help="the machine whose syscalls are looked at, and for whose containers an engine's "
                                 "profile is resolved [default: this one]")
    parser.flag("--examples", "show a call for each region, with its answer")
    parser.add("--force", "--limit", "--splits")
    parser.add("--table", help=words.OWN_TABLE)
    parser.add("--caps", "--json", "--html", "--architectures", "--nr-from", "--nr-to")
    parser.value("filters", "FILTER",
                 "a filter, of several the oldest first, a profile, or pid:PID; - is standard input", nargs="*")
    options = parser.parse_args()
    if options.pid is not None:
        from scfhost import processes  # pylint: disable=import-outside-toplevel

        options.filters.append(f"pid:{processes.number_in(options.pid)}")
    parser.reject(
        (options.beside and (options.arch is not None or options.machine not in (None, "amd64")),
         "give either --arch or --beside, which compares the syscalls of all architectures of this machine"),
        (options.regions and (options.conditions or options.beside or options.html),
         "--regions goes without --conditions, --beside and --html"),
        (options.conditions and options.examples, "give either --conditions or --examples"),
        (options.force and not operands.has_process(*options.filters, *options.beside), "--force needs a process"))
    parser.one_standard_input([*options.filters, *options.beside, options.table])
    return options


def main():
    options = read_words()
    inputs.kept = {} if options.html is not None else None
    machine = engines.MACHINE_NAMES.get(options.machine, architectures.machine_architecture())
    architecture = architectures.judged_in(options.arch or machine)
    of_engine = types.SimpleNamespace(caps=options.caps, machine=options.caps and options.machine, force=options.force,
                                      json=options.json)
    given = operands.read_stacks(options.filters, of_engine, compiles=True)
    table = tables.read_table(options.table, architecture)
    if options.regions:
        from ..report import region_output  # pylint: disable=import-outside-toplevel

        return put_blocks(given, lambda stack: region_output.of_stack(
            stack, table, architecture, options.examples), options.json)
    from ..report import surface_output  # pylint: disable=import-outside-toplevel

    beside = operands.read_stack(options.beside, of_engine, compiles=True)
    size, made = unless_refused(None, os.get_terminal_size, 1), []
    # (a terminal may not report its width)
    width = size and (size.columns or 80)

    def judge(stack):
        made.append(surface_output.StackSurface(
            stack, beside, table, architecture, architecture.oci == machine and machine in questions.OF_MACHINES,
            options.conditions, options.examples))
        return made[-1].block(width)

    status = put_blocks(given, judge, options.json)
    if options.html is not None:
        from ..report import pages  # pylint: disable=import-outside-toplevel

        made.sort(key=lambda surface: client.rank(surface.status))
        output.replace_file(options.html, pages.surfaces_page(made, table, beside))
    return status
