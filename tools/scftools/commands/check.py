"""Says whether the kernel accepts filters, and of a fault what it means and what to do.

    scf check [--json] FILTER..
    scf check [--json] [--force] pid:N

Each FILTER may be a file or a pipe, and one of them `-` for standard input. Its contents say whether it is a raw filter
or text: hexadecimal (as xxd, `xxd -p` and `hexdump -C` print it), a C array (`{ 0x20, 0, 0, 4 },`, BPF_STMT and
BPF_JUMP, or bytes), a C file with one array of struct sock_filter, decimals of `tcpdump -ddd`, or scf's assembler text.
Which text a filter was read from is said on standard error; what is known to be no filter is refused. All tools that
take filters take them so.

pid:N stands for the filters of a process, each distinct stack of its threads a block.

For each of them scf's line comes first, after its name if there are several; the lines after it are marked by `# `:
what a fault is and what to do about it. Without a FILTER scf reads a raw one from standard input, and nothing is added
to its line.

The exit status is the worst of all filters: 0 accepted, 1 not.

Examples:

    scf check filter.bpf
    scf check *.bpf
    scf check --json filter.bpf
"""
from ..base import output, program
from ..ask import client, explanation
from ..cli import words
from ..forms import filters, operands
from ..report.blocks import Block, put_block, put_blocks


def checked(name, data, is_alone):
    """What scf says of a filter, and that as an object."""
    done = client.run_scf(["check"], data)
    fault = client.Fault.read(done.line)
    members = {"fault": fault.as_json(explanation.explain_fault(fault))} if fault else {"instructions": len(data) // 8}
    # (what the kernel would refuse a filter for is an answer, and no trouble)
    status = done.scf_status if done.scf_status == program.NEGATIVE else done.status
    return Block(status, lambda: [done.line if is_alone else f"{name}: {done.line}",
                                  *output.notes(explanation.explain_line(done.line))],
                 lambda: {"file": name, "status": status, **members})


def whole(blocks, member="filters"):
    """What is said of several filters, as this member of an object."""
    return Block(client.worst(block.status for block in blocks),
                 lambda: [line for block in blocks for line in block.lines()],
                 lambda: {member: [block.members() for block in blocks]})


def main():
    parser = words.Parser(__doc__, command="check")
    parser.add("--json", "--force", "filters")
    options = parser.parse_args()
    parser.one_standard_input(options.filters)
    if len(options.filters) == 1 and operands.has_process(*options.filters):
        return put_blocks(operands.read(options.filters, options), lambda stack: whole(
            [checked(bpf_filter.name, bpf_filter.data, len(stack) == 1) for bpf_filter in stack], "checked"),
                          options.json)
    blocks = []
    for name in options.filters:
        blocks.append(checked(name, filters.read_filter(name).data, len(options.filters) == 1))
        output.put_lines(blocks[-1].lines() if not options.json else [])
    return put_block(whole(blocks), True) if options.json else whole(blocks).status
