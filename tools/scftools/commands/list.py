"""Lists a filter with the indexes of its instructions, the targets of its jumps, and names of syscalls.

    scf list [--plain|--dot|--json] [--nr NUMBER|NAME] [--arch ARCH] [--ip N] [--a0 N] ..
             [--a5 N] [--table FILE] [--force] FILTER

FILTER is a filter as `scf check` takes it, accepted or not: a file, a pipe, or `-` for standard input; or pid:N, all
filters of a process, each distinct stack of its threads a block. Each line has the index of an instruction, from 0 on,
the instruction as the assembler of `scf compile` takes it, and after `//` what it means: the targets of a jump, the
field that a load reads, the name of an answer, the syscall's name at a test of the number, and the architecture at a
test of that. A test counts as one of the number if A holds the number on every path to it. Syscalls have the names of
the architecture that the paths to the test have found, as in `exit of i386`; if they have found two or three, the names
of each; if they have found none, those of x86-64 and x32.

If a syscall is given, the instructions that run on it (`scf decide`) are marked by `>`, and the syscall and its answer
follow the listing in lines marked by `# `; a filter that can't be run is refused.

--plain prints the instructions alone, as scf does, which `scf compile` makes the filter of again; one with an unknown
code, or with something in a field that its code doesn't use, is printed as `raw` with its four fields. Without a FILTER
a raw one is read from standard input then.

--dot prints the control flow as a graph for graphviz, as in `scf list --dot FILTER | dot -Tsvg >filter.svg`: tests of
one word after another are one node, with the ranges of values that lead to each target, and all returns of an answer
are one. If a syscall is given, its path is red.

Exit status: 0 success; 1 a thread has no filter.

Examples:

    scf list filter.bpf
    scf list --nr socket --a0 AF_INET filter.bpf
    scf list --plain filter.bpf >filter.txt
"""
from ..base import output, program
from ..model import tables
from ..ask import client, explanation
from ..cli import words
from ..forms import operands
from ..report import decisions, flow_graph, listing
from ..report.blocks import Block, of_fault, put_blocks


def listed(bpf_filter, options, table, query):
    """The listing of a filter."""
    data = bpf_filter.data
    done = client.run_scf(["dis"], data)
    if options.plain:
        return Block(done.status, lambda: [*done.lines, *output.notes(explanation.explain_line(done.line))])
    if done.status != program.SUCCESS:
        return of_fault(done.status, done.line)
    path = listing.path_of(bpf_filter, query.words()) if query is not None else None
    if path is not None and path.decision.answer is None:
        return of_fault(path.status, path.decision.line)
    explained = list(enumerate(zip(done.lines, listing.meanings(data, table))))
    indexes = path.indexes if path else ()

    def lines():
        shown = list(listing.listing_lines(explained, len(explained)))
        if options.dot:
            return flow_graph.Graph(data).text(shown, table, indexes).splitlines()
        on_path = frozenset(indexes)
        return shown if path is None else [
            *(f"{'>' if index in on_path else ' '} {line}" for index, line in enumerate(shown)),
            *output.notes(explanation.explain_answer(query.call, path.decision.answer, table))]

    def members():
        of_call = {} if path is None else {"call": query.call.as_json(table), "path": path.as_json(),
                                           "answer": path.decision.answer.as_json(explains=True)}
        return {"instructions": [{"index": index, "text": line, "meaning": meaning}
                                 for index, (line, meaning) in explained], **of_call}

    return Block(path.status if path else done.status, lines, members)


def of_stack(stack, options, table, query):
    """The listings of the filters of a stack, each of several after its name."""
    blocks = [listed(bpf_filter, options, table, query) for bpf_filter in stack]
    if len(blocks) == 1:
        return blocks[0]
    if options.dot:
        raise program.ToolError("--dot draws one filter, and there are several")
    named = list(zip((bpf_filter.name for bpf_filter in stack), blocks))
    return Block(client.worst(block.status for block in blocks),
                 lambda: [line for name, block in named for line in (f"# {name}", *block.lines())],
                 lambda: {"listings": [{"file": name, "status": block.status, **block.members()}
                                       for name, block in named]})


def main():
    parser = words.Parser(__doc__, command=lambda options: "dis" if options.plain else None)
    parser.value("--nr", "NUMBER|NAME",
                 "mark the instructions that run on this syscall, by number or by name [default: 0]")
    decisions.add_numbers(parser)
    parser.flag("--plain", "print the instructions alone, as scf does")
    parser.flag("--dot", "print the control flow as a graph for graphviz")
    parser.add("--json", "--table", "--force", "filter")
    options = parser.parse_args()
    parser.one_standard_input([options.filter, options.table])
    parser.reject((options.plain + options.dot + options.json > 1, "give one of --plain, --dot and --json"))
    table = tables.read_table(options.table)
    numbering = decisions.Numbering(options, table)
    query = None if options.nr is None and not numbering.fields else \
        numbering.query("0" if options.nr is None else options.nr)
    given = operands.read_stacks([options.filter], options)
    parser.reject((options.plain and query is not None, "--plain marks no instructions"))
    return put_blocks(given, lambda stack: of_stack(stack, options, table, query), options.json)
