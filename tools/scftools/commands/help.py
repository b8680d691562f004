"""Shows the page of a command, or says what a line of scf or an exit status means, and what to do about it.

    scf help [COMMAND]
    scf help [--table FILE] LINE ..
    scf explain [--table FILE] [LINE ..]

LINE is a fault, a verdict, an answer or what gives it, whether a syscall is allowed, delegated or denied, the syscall
that shows a difference, a finding of `scf lint`, or an exit status; what a log puts before it doesn't matter. Faults
are explained by the sentences of docs/FAULTS.md, and syscalls have the names of FILE. Without a LINE standard input is
copied, and below each line that scf can explain stands what it means, marked by `# `:

    scf compare <bundle | scf explain

Exit status: 0 a line is explained, 2 none is.

Examples:

    scf help fault filter Empty
    scf help "no more"
    scf help 4
"""
import os

from ..base import inputs, output, program
from ..model import tables
from ..cli import commands, words
from ..logs import meanings


def main():
    parser = words.Parser(__doc__)
    parser.add("--table", help="the syscall table [default: tables/x86_64.table]")
    parser.value("line", "LINE", "a line [default: those of standard input]", nargs="*")
    options = parser.parse_args()
    table = tables.read_table(options.table)
    if options.line:
        sentences = meanings.meaning_of(" ".join(options.line), table)
        if not sentences and parser.called == "help" and len(options.line) == 1:
            near = commands.nearest(options.line[0])
            raise program.ToolError(f"'{options.line[0]}' isn't a command, nor a line or status of scf"
                                    + (f"; the nearest command is '{near}'" if near else "") + ": see scf help")
        if not sentences:
            raise program.ToolError("scf prints no such line, and has no such exit status: see scf help")
        output.put_lines(sentences)
        return program.SUCCESS
    parser.reject((os.isatty(0), "the following arguments are required: LINE"))
    is_explained = False
    for line in inputs.read_whole("-", "text").decode("utf-8", "surrogateescape").splitlines():
        sentences = meanings.meaning_of(line, table)
        is_explained = is_explained or bool(sentences)
        output.put_lines([line, *output.notes(sentences)])
    return program.SUCCESS if is_explained else program.TROUBLE
