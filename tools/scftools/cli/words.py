"""The command line of a tool. Usage errors are printed safely, under the name by which the tool was called.

If a tool is given no file, the proved program answers standard input, and nothing is added to its lines and statuses.
The program takes a filter, or a bundle of several inputs. In place of a bundle, `decide` and `answers` also take a
filter alone, and `ask` and `compile` a profile alone, as they do a file.
"""
from __future__ import annotations

import os
import re
import sys
import types
from collections.abc import Callable, Iterable

from ..base import inputs, output, program
from ..base.values import Any, NoReturn, Pattern
from ..model import architectures, bundles, tables
from ..model.architectures import JUDGED
from ..ask import client, verdicts
from . import commands

# argparse imports gettext, and looks for translations of its messages at each start: the tools have none.
sys.modules.setdefault("gettext", types.SimpleNamespace(  # type: ignore
    gettext=str, ngettext=lambda singular, several, count: singular if count == 1 else several))

import argparse  # noqa: E402 pylint: disable=wrong-import-position


ARCH_HELP = ("the architecture of the syscalls{}, and of the table if none is given: "
             f"{', '.join(architectures.names_of(list(JUDGED)))}, or a number of linux/audit.h, as the audit log has "
             "it [default: this machine's{}]")
OWN_TABLE = "the syscall table; - is standard input [default: that of the architecture]"
FILTER_HELP = "a filter: raw, or text (hexadecimal, a C array, tcpdump -ddd, scf's assembler)"
# Options that few need, which -h leaves out, and the most others that it shows.
COMMON, MOST_IN_SHORT = {"-h", "--help", "--color", "--limit", "--splits", "--strict", "--table", "--version"}, 5
OBJECT_NAME, LONGEST_OBJECT_NAME = Pattern(r"[a-z0-9]([-a-z0-9]*[a-z0-9])?(\.[a-z0-9]([-a-z0-9]*[a-z0-9])?)*"), 253
# What the statuses of each tool have in common.
OTHER_STATUSES = ("It is 2 if anything can't be read, is refused or is misspelt, or the output can't be written; 70 "
                  "after an internal error; 125 if scf can't be run.")
# Options that only a bundle has, which scf(1) describes.
OF_BUNDLES = ("--architectures", "--reading", "--total-limit", "--nr-from", "--nr-to", "--left-out")
# The options of the program's commands, but for those that give a record.
OF_PROGRAM = {
    "answers": ("--native", "--examples", "--limit", "--architectures", "--reading", "--nr-from", "--nr-to"),
    "ask": ("--architectures", "--reading"), "asm": (), "check": (), "dis": (), "decide": (), "run": ("--path",),
    "compile": ("--architectures", "--reading", "--left-out"),
    "compare": ("--native", "--calls", "--no-more", "--no-less", "--disposition", "--limit", "--splits", "--beside",
                *OF_BUNDLES[:-1])}
# Options of tools that give a record, say which of the program's commands it is, or have no part in it.
WITHOUT_WORDS = ("--nr", "--arch", "--ip", *(f"--a{index}" for index in range(6)),
                 "--all", "--as", "--color", "--plain", "--regions", "--steps", "--table")
# The commands that also take one of the files of a bundle alone.
OF_ONE_FILE = ("answers", "ask", "compile", "decide")


def _object_name(text: str) -> str:
    """A name of Kubernetes' objects (RFC 1123, section 2.1)."""
    if len(text) > LONGEST_OBJECT_NAME or not OBJECT_NAME.fullmatch(text):
        raise argparse.ArgumentTypeError(f"'{text}' isn't a name of small letters, digits, '-' and '.'")
    return text


# What several tools take; first options without a value (`--all` is an old name of others, which stays for scripts).
FLAGS = {
    **dict.fromkeys(("--all", "--architectures", "--left-out"), argparse.SUPPRESS),
    "--force": "also stop threads that wait for a seccomp supervisor, which then gets their syscalls a second time",
    "--json": "print one JSON object instead of lines (JSON.md says what it holds)",
    "--keep-first": "if two entries without conditions answer a syscall, keep the first whose answer isn't the "
                    "default's, as runc and crun do",
    "--native": "x86-64 alone, whatever architectures the profile names",
    "--strict": "refuse a profile with members that nothing reads, which may be misspelt",
    "--verbose": "list the names in the profile that were skipped, not only their count"}
SHARED: dict[str, dict[str, Any]] = {
    **{name: {"action": "store_true", "help": text} for name, text in FLAGS.items()},
    "--arch": {"metavar": "ARCH", "help": ARCH_HELP.format("", "")},
    **{name: {"metavar": "N", "help": argparse.SUPPRESS}
       for name in ("--nr-from", "--nr-to", "--reading", "--total-limit")},
    "--as": {"dest": "kind", "help": "what the input is, whatever it looks like"},
    "--also": {"metavar": "PROFILE", "action": "append", "default": [],
               "help": "another profile of the same unit, for other architectures; may be given several times"},
    "--caps": {"metavar": "LIST",
               "help": "PROFILE is an engine's own: resolve it, as resolve-profile does, for a container with these "
                       "capabilities: docker, podman, none or a list such as CAP_KILL,SYS_ADMIN"},
    "--html": {"metavar": "FILE", "help": "also write a page of HTML"},
    "--kubernetes": {"metavar": "NAME", "type": _object_name,
                     "help": "print a SeccompProfile of Kubernetes' Security Profiles Operator by this name"},
    # (no limit is the greatest one, which scf never reaches; scf says if a text is no number)
    **{f"--{name}": {"metavar": "N", "help": text, "type": lambda text: str((1 << 64) - 1) if text == "none" else text}
       for name, text in client.LIMIT_OPTIONS.items()},
    "--machine": {"choices": tuple(row.machine for row in JUDGED.values() if row.machine), "metavar": "NAME",
                  "help": "resolve an engine's profile for this machine, by Go's name of it: "
                          f"{', '.join(row.machine for row in JUDGED.values() if row.machine)} [default: this one]"},
    "--table": {"metavar": "FILE",
                "help": "the table of x86-64's syscalls; - is standard input [default: tables/x86_64.table]"},
    "filter": {"metavar": "FILTER", "help": f"{FILTER_HELP}; - is standard input"},
    "filters": {"metavar": "FILTER", "nargs": "+",
                "help": f"{FILTER_HELP}; of several the oldest first; - is standard input"},
    "profile": {"metavar": "PROFILE", "help": "a resolved profile, or a config.json; - is standard input"},
}


def refuse(options: Any, names: Iterable[str], why: str) -> None:
    """Ends the tool if an option is given that doesn't go with its input."""
    for name in names:
        if getattr(options, name):
            raise program.ToolError(f"--{name.replace('_', '-')} {why}")


def seconds(text: str) -> float:
    """The number of seconds that an option has."""
    try:
        return float(text)
    except ValueError:
        raise argparse.ArgumentTypeError(f"'{text}' isn't a number of seconds") from None


def _is_bundle() -> bool:
    """Whether standard input is a bundle, which it holds again afterwards; or can't be read, which the program says."""
    try:
        data = inputs.read_input("-", "bundle")
    except program.ToolError:
        return True
    file = client.memory_file(data)
    os.dup2(file, 0)
    os.close(file)
    return not data or len(data) > bundles.LONGEST_BUNDLE or bundles.BEGINNING.match(data) is not None


class Ending(argparse.Action):
    """An option that has the tool print something and end."""

    def __init__(self, option_strings: list[str], dest: str, put: Callable[[], None], **shown: Any):
        super().__init__(option_strings, dest, nargs=0, default=argparse.SUPPRESS, **shown)
        self.put = put

    def __call__(self, parser: argparse.ArgumentParser, *_: Any) -> None:
        self.put()
        parser.exit()


class Formatter(argparse.HelpFormatter):
    """The form of help: paragraphs stay apart."""

    def _fill_text(self, text: str, width: int, indent: str) -> str:
        return "\n\n".join(super(Formatter, self)._fill_text(part, width, indent) for part in text.split("\n\n"))


class Parser(argparse.ArgumentParser):
    """The command line of a tool, whose docstring has what it does, its usage, its statuses and its examples. `needs`
    says what it needs beside its words; `command` is the program's command that answers standard input if no file is
    given, by the options, `record_words` that command's options for the record that the words give."""

    def __init__(self, doc: str, needs: str = "", command: str | Callable[[Any], str | None] | None = None):
        self.command, self.record_words = command, lambda options: []
        self.called = commands.name_at(sys.argv[0])
        # what the tool is the same as, if it is called by another name: a command and words
        self.alias = commands.ALIASES.get(self.called or "", "").split()
        text, _, examples = doc.partition("\nExamples:\n")
        (summary, usage, *paragraphs), name = text.split("\n\n"), output.escaped(program.name())
        if self.alias:
            summary = f"{commands.same_as(self.called).capitalize()}. {summary}"
        statuses = [f"{text} {OTHER_STATUSES}" for text in paragraphs
                    if text.startswith(("Exit status:", "The exit status is"))]
        # (a percent sign would be argparse's)
        usage = re.sub(r"(?m)^    (?:scf )?[\w/-]+", lambda _: f"    {name}", usage)
        longer = " " * sum(len(self.called or "") - len(command) for command in self.alias[:1])
        usage = re.sub("(?m)^   (?=( {5})?)", lambda match: " " * len("usage:") + longer * bool(match[1]), usage)
        # (with a fixed width no tool asks the terminal for it at the start)
        super().__init__(prog=name, usage=usage.strip().replace("%", "%%"), description=summary,
                         epilog="\n\n".join([*filter(None, [needs]), *statuses]), allow_abbrev=False, add_help=False,
                         formatter_class=lambda prog: Formatter(prog, width=100))
        self.examples = re.findall(r"(?m)^    (.*)$", examples)
        self.add_argument("-h", action=Ending, put=lambda: self.print_help(is_short=True),
                          help="show the usage, some options and the examples")
        self.add_argument("--help", action="help", help="show all and exit")
        self.add_argument("--version", action=Ending, put=lambda: output.put_line(program.version()),
                          help="print the version and exit")
        self.add_argument("--color", choices=("auto", "always", "never"), default="auto",
                          help="whether verdicts are coloured [default: auto, at a terminal unless NO_COLOR is set]")

    def parse_args(self, given: Any = None, namespace: Any = None) -> Any:
        before = (word for word in self.alias[1:] if not word.endswith(":"))
        given = [*before, *(sys.argv[1:] if given is None else given)]
        files = [argument for argument in self._actions if not argument.option_strings]
        for argument in files if self.command is not None else ():
            # (argparse would ask for files)
            argument.required = False
        options = super().parse_args(given, namespace)
        prefix = commands.before_inputs(self.called)
        for argument in files if prefix else ():
            setattr(options, argument.dest, [prefix + name for name in getattr(options, argument.dest)])
        output.color = options.color
        client.limits = {name: getattr(options, name) for name in client.LIMIT_OPTIONS
                         if getattr(options, name, None) is not None}
        if self.command is not None and getattr(options, "pid", None) is None:
            self.command = self.command if isinstance(self.command, str) else self.command(options)
            self.take_standard_input(options, files)
        return options

    def given_options(self, options: Any) -> dict[str, list[str]]:
        """The options of a command line, each with its values."""
        given = {}
        for action in self._actions:
            value = getattr(options, action.dest, None)
            if action.option_strings and value not in (None, action.default) and action.const in (None, value):
                given[action.option_strings[-1]] = [] if action.nargs == 0 else \
                    value if isinstance(value, list) else [value]
        return given

    def program_words(self, options: Any) -> list[str] | None:
        """The program's words for a command line, None if it has no such."""
        words = []
        for flag, values in self.given_options(options).items():
            if flag in OF_PROGRAM[self.command] and len(values) < 2:
                words += [f"{flag}={values[0]}" if values else flag]
            elif flag not in WITHOUT_WORDS:
                return None
        record = self.record_words(options)
        return None if record is None else [*words, *record]

    def take_standard_input(self, options: Any, files: list[argparse.Action]) -> None:
        """If no file is given, becomes the program, or has the tool take standard input as the file."""
        missing = [action for action in files if getattr(options, action.dest) in (None, [])]
        if not missing:
            self.reject(*((flag in OF_BUNDLES, f"{flag} goes with a bundle on standard input, and not with files")
                          for flag in self.given_options(options)))
            return
        takes_input = self.command is not None and not os.isatty(0)
        words = self.program_words(options) if takes_input and len(missing) == len(files) else None
        if words is not None and (self.command not in OF_ONE_FILE or _is_bundle()):
            if self.command in ("asm", "compile"):
                self.keep_off_terminal()
            client.become([self.command, *words])
        if len(files) > 1 or not takes_input:
            self.error(f"the following arguments are required: {', '.join(action.metavar for action in missing)}")
        setattr(options, files[0].dest, "-" if files[0].nargs is None else ["-"])
        output.has_notes, client.keeps_statuses = False, True

    def error(self, message: str) -> NoReturn:
        try:
            if sys.stderr is not None:
                self.print_usage(sys.stderr)
        except (OSError, AttributeError):
            pass
        if message.startswith(("unrecognized arguments: -", "the following arguments are required: ")):
            # (where words are unknown or too few, an option may be misspelt)
            options = sys.argv[1:sys.argv.index("--")] if "--" in sys.argv else sys.argv[1:]
            flags = self._option_string_actions
            wrong = next((word for word in (word.partition("=")[0] for word in options)
                          if re.fullmatch("--?[A-Za-z][A-Za-z0-9-]+", word) and word not in flags), None)
            if wrong is not None:
                near = tables.most_like(wrong.lower(), [flag for flag, action in flags.items()
                                                        if action.help != argparse.SUPPRESS])
                message = f"unrecognized arguments: {wrong}" + (f"; the nearest is {near}" if near else "")
        raise program.ToolError(message)

    def print_help(self, file: Any = None, is_short: bool = False) -> None:
        """Prints the help like any other output: on request with few options."""
        formatter = self._get_formatter()
        if is_short:
            shown = [action for action in self._actions if action.help != argparse.SUPPRESS
                     and not COMMON.intersection(action.option_strings)]
            files = [action for action in shown if not action.option_strings]
            options = [action for action in shown if action.option_strings]
            formatter.add_usage(self.usage, self._actions, [])
            formatter.add_text(self.description)
            formatter.start_section("options")
            formatter.add_arguments([*files, *options[:MOST_IN_SHORT]])
            formatter.end_section()
            formatter.add_text(f"{self.prog} --help has all.")
        output.put((formatter if is_short else self).format_help())
        if self.examples:
            output.put("".join(["\nexamples:\n", *(f"  {example}\n" for example in self.examples)]))

    def add(self, *names: str, **changed: Any) -> None:
        """Adds options and arguments of SHARED, on request with another text of help."""
        for name in names:
            self.add_argument(name, **{**SHARED[name], **changed})

    def flag(self, name: str, text: str) -> None:
        """Adds an option without a value, and what is said of it."""
        self.add_argument(name, action="store_true", help=text)

    def value(self, name: str, metavar: str | None, text: str, **more: Any) -> None:
        """Adds an option or argument, what its value is called, and what is said of it."""
        self.add_argument(name, metavar=metavar, help=text, **more)

    def reject(self, *rows: tuple[object, str]) -> None:
        """Rejects a command line of which one of these is so, by the text beside it."""
        for is_so, text in rows:
            if is_so:
                self.error(text)

    def one_of(self, dest: str, default: str | None, *flags: tuple[str, str, str]) -> None:
        """Adds flags that exclude each other, each with what it stands for and its help; but those without help."""
        group = self.add_mutually_exclusive_group()
        for flag, value, text in flags:
            if text:
                group.add_argument(flag, dest=dest, action="store_const", const=value, default=default, help=text)

    def scope(self, native: str, of_all: str = "") -> None:
        """Adds `--native` and `--calls`, on request `--all`."""
        self.one_of("scope", None, ("--native", verdicts.NATIVE_SCOPE, native), ("--all", verdicts.ALL, of_all),
                    ("--calls", verdicts.CALLS, "each syscall that a table names by itself, and no other"))

    def relation(self, text: str = "only check that nothing is {} than the profile", has_all: bool = False) -> None:
        """Adds `--no-more` and `--no-less`, on request `--disposition`."""
        self.one_of("relation", verdicts.SAME, ("--no-more", verdicts.NO_MORE, text.format("more permissive")),
                    ("--no-less", verdicts.NO_LESS, text.format("stricter")),
                    ("--disposition", verdicts.SAME_DISPOSITION,
                     "only check that both sides deny, delegate and allow the same" * has_all))

    def keep_off_terminal(self) -> None:
        """Rejects to print a filter on a terminal."""
        self.reject((sys.stdout is not None and sys.stdout.isatty(),
                     "a filter isn't text: redirect the output into a file"))

    def one_standard_input(self, names: Iterable[str | None]) -> None:
        """Rejects a command line that names standard input twice."""
        self.reject((list(names).count("-") > 1, "only one input can be '-', standard input"))
