"""Prints a bundle: several files as one, which is how scf reads them, since it opens none itself.

    scf bundle KIND FILE [KIND FILE ..]

KIND is filter, profile or table, or for scf's `--architectures` table-x86, table-aarch64 or the like, the table of
SCMP_ARCH_X86, SCMP_ARCH_AARCH64 ..; for `scf compare` beside, a filter of the other side (with --beside), or
beside-profile, a profile beside the first. FILE is a file or a pipe, by whatever name (/dev/stdin is standard input,
`-` a file of that name). A stub-table, stub-table-x86 or the like is a decimal number without a line end: from it on
runc's stub answers the numbers of that table's architecture with ENOSYS. A counts-table, counts-table-x86 or the like
has lines NAME COUNT: `scf compile` has frequent syscalls take fewer steps. Each part is a header, `KIND COUNT` and a
newline, and then the COUNT bytes of its file. The parts stand in the order of the arguments.

scf compares a bundle over all records, unless --architectures is given; `scf compare` compares files on each
architecture that the profile names. So the same filter and profile can be `same` by files and `differs` by a bundle.

Exit status: 0 success. If a file can't be read, nothing is printed.

Examples:

    scf bundle filter filter.bpf profile profile.json table x86_64.table | scf compare
    scf bundle filter old.bpf filter new.bpf | scf decide --nr 257
    scf bundle profile profile.json table x86_64.table | scf compile >profile.bpf
"""
import os
import sys

from ..base import inputs, output, program
from ..model import bundles


def parts_of(words):
    """The kinds and bytes of the parts, each file read once, so that a pipe has a length."""
    length = 0
    for kind, name in zip(words[::2], words[1::2]):
        form = "filter" if kind == bundles.BESIDE else kind.removeprefix("beside-").partition("-")[0]
        data = inputs.read_whole(os.path.join(".", name) if name == "-" else name, form)
        if form == "stub" and not (data.isdigit() and int(data) < 1 << 32):
            raise program.ToolError(f"{inputs.label(name)} isn't a {kind}: one decimal number below 4294967296, "
                                    "without a line end, as `printf 449` prints it")
        length += len(data)
        if length > bundles.LONGEST_BUNDLE:
            raise program.ToolError(f"the files have more than {bundles.LONGEST_BUNDLE} bytes together, the most that "
                                    "scf reads")
        yield kind, data


def main():
    words = sys.argv[1:]
    wrong = [kind for kind in words[::2] if kind not in bundles.PART_KINDS]
    if words[:1] in (["--help"], ["-h"]):
        # the docstring, its usage first, under the name by which the tool was called
        summary, usage, *paragraphs = __doc__.split("\n\n")
        usage = usage.strip().replace("scf bundle", output.escaped(program.name()), 1)
        output.put("\n\n".join([f"usage: {usage}", summary, *paragraphs]))
    elif words == ["--version"]:
        output.put_line(program.version())
    elif not words or len(words) % 2:
        raise program.ToolError(f"{'a KIND without a FILE' if words else 'no KIND and no FILE given'}; see --help")
    elif wrong:
        raise program.ToolError(f"'{wrong[0]}' isn't a KIND (filter, profile, beside, beside-profile, table, "
                                "table-x86 .., stub-table .., counts-table ..); see --help")
    else:
        output.put(bundles.bundle(list(parts_of(words))))
    return program.SUCCESS
