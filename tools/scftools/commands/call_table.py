"""Prints a syscall table: a line `NAME NUMBER` for each syscall in a kernel header.

    scf call-table [--architecture NAME] [--comment TEXT] [HEADER ..]
    scf call-table [--comment TEXT] --libseccomp

HEADER is a header with lines `#define __NR_NAME NUMBER`, such as /usr/include/x86_64-linux-gnu/asm/unistd_64.h, or the
table in the kernel's source, arch/x86/entry/syscalls/syscall_64.tbl, whose rows have a number, an ABI (common, 64 or
x32), a name and entry points. Without HEADER, or if it is `-`, standard input is read. Comments are skipped, and so are
`__NR_syscalls`, which is a count, and the rows of x32. --libseccomp prints the syscalls that the installed libseccomp
knows, so that an engine can be judged by the names that its own library has. --comment begins the table with the line
`# TEXT`, which scf skips.

Headers for --architecture are asm/unistd_32.h, asm/unistd_x32.h (the table has its numbers without 0x40000000),
asm/unistd_64.h of arm64, riscv, powerpc and loongarch, asm/unistd_o32.h, unistd_n64.h and unistd_n32.h of mips, and
both asm/unistd-eabi.h and asm/unistd.h of arm. Debian's linux-libc-dev has all of them since 6.12, below
/usr/lib/linux/uapi.

Exit status: 0 success.

Examples:

    scf call-table unistd_64.h >x86_64.table
    scf call-table --comment 'of this kernel' - <unistd_64.h
    scf call-table unistd_64.h | scf compile --table - profile.json >profile.bpf
"""
import re

from ..base import inputs, output, program
from ..base.values import Pattern
from ..model import architectures, libseccomp
from ..model.answers import FIRST_X32
from ..model.constants import C_IDENTIFIER
from ..cli import words

# A number, one with something added to it, or another syscall's name.
VALUE = r"([0-9]+)|\([ \t]*(\w+)[ \t]*\+[ \t]*([0-9]+)[ \t]*\)|__NR_([A-Za-z_]\w*)"
DEFINE = Pattern(rf"^[ \t]*#[ \t]*define[ \t]+__(?:ARM_)?NR_([A-Za-z_]\w*)[ \t]+(?:{VALUE})[ \t\r\f\v]*$", re.M | re.A)
HEADER_COMMENT = Pattern(r"/\*.*?(?:\*/|\Z)|//[^\n]*", re.S)
# The first row that isn't empty and no comment.
FIRST_LINE = Pattern(r"^[ \t\r]*([^ \t\r\n#][^\n]*)", re.M)
# A count, numbers that mips reserves, and names in capital letters, such as SYSCALL_BASE, are no syscalls.
NO_SYSCALL = Pattern(r"syscalls|(?:reserved|unused)[0-9]+|[^a-z]*")


def add(calls, name, digits, base=0, at=""):
    digits = digits.lstrip("0") or "0"
    number = base + int(digits) if len(digits) <= 10 else FIRST_X32
    if number >= FIRST_X32:
        raise program.ToolError(f"{at}the number of {name} isn't below {FIRST_X32}")
    if calls.setdefault(name, number) != number:
        raise program.ToolError(f"{at}{name} has two numbers, {calls[name]} and {number}")


def of_source_table(text, abis):
    """The syscalls in rows of syscall_64.tbl of these ABIs: `common` and `64` on x86-64, `common` and `x32` on x32."""
    calls = {}
    for line, row in enumerate(text.split("\n"), 1):
        fields = row.split("#", 1)[0].split(None, 3)
        if not fields:
            continue
        if len(fields) < 3 or not re.fullmatch(r"[0-9]+", fields[0], re.A):
            raise program.ToolError(f"line {line} has no number, ABI and name: '{row[:80]}'")
        if fields[1] not in ("common", "64", "x32"):
            raise program.ToolError(f"line {line}: the ABI '{fields[1][:80]}' isn't common, 64 or x32")
        if not C_IDENTIFIER.fullmatch(fields[2]):
            raise program.ToolError(f"line {line}: '{fields[2][:80]}' isn't a name")
        if fields[1] in abis:
            add(calls, fields[2], fields[0], 0, f"line {line}: ")
    return calls


def calls_of(data, architecture):
    """The syscalls of an architecture in a header's lines `#define __NR_NAME NUMBER`, or if it has none in a table."""
    text, row = data.decode("utf-8", "surrogateescape"), architectures.BY_SOURCE[architecture]
    bare = HEADER_COMMENT.sub(lambda match: "\n" if "\n" in match[0] else " ", text)
    calls, bases = {}, dict(row.bases)
    for name, digits, base, more, alias in DEFINE.findall(bare):
        if NO_SYSCALL.fullmatch(name):
            continue
        if digits:
            add(calls, name, digits)
        elif base in bases:
            add(calls, name, more, bases[base])
        elif row.has_aliases and alias in calls:
            add(calls, name, str(calls[alias]))
    first = FIRST_LINE.search(text)
    if not calls and row.abis and first and re.match(r"[0-9]+[ \t]+[A-Za-z0-9]+[ \t]", first[1]):
        calls = of_source_table(text, row.abis)
    if not calls:
        raise program.ToolError("the header has no syscall: no line `#define __NR_NAME NUMBER`, and no row `NUMBER ABI "
                                "NAME` as in syscall_64.tbl")
    return calls


def main():
    parser = words.Parser(__doc__)
    parser.value("--comment", "TEXT", "begin with the line `# TEXT`")
    parser.flag("--libseccomp", "the syscalls that the installed libseccomp knows")
    parser.value("--architecture", "NAME",
                 f"whose syscalls the header has: {', '.join(architectures.BY_SOURCE)} [default: x86_64]",
                 choices=tuple(architectures.BY_SOURCE), default="x86_64")
    parser.value("headers", "HEADER", "a kernel header, or syscall_64.tbl; - is standard input [default: -]", nargs="*")
    options = parser.parse_args()
    parser.one_standard_input(options.headers)
    parser.reject((options.comment and re.search("[\n\r]", options.comment), "the comment has more than one line"),
                  (options.libseccomp and (options.headers or options.architecture != "x86_64"),
                   "--libseccomp takes no HEADER, and prints x86-64's syscalls"))
    comment = options.comment
    if options.libseccomp:
        library = libseccomp.Library()
        # (x86-64's numbers end far below)
        named = ((library.name_of(number), number) for number in range(4096))
        calls = {name: number for name, number in named if name}
        comment = comment or f"The x86-64 syscalls that libseccomp {library.version} knows."
    else:
        text = b"\n".join(inputs.read_whole(name, "header") for name in options.headers or ["-"])
        calls = calls_of(text, options.architecture)
    output.put_lines([*[f"# {comment}"] * bool(comment), *(f"{name} {number}" for name, number in calls.items())])
    return program.SUCCESS
