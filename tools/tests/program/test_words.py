"""Words that name no command to be run: the text of help, and of one fault of each kind of the command line, as clap
writes them."""
from support.on_parts import OnProgram, ran

# Words, what is printed, and the status.
WORDS = (
    (["--help"],
     "Checks, runs, lists, assembles, compiles and compares seccomp filters for x86-64. "
     "Input comes on standard input.\n"
     "\n"
     "Usage: scf <COMMAND>\n"
     "\n"
     "Commands:\n"
     "  check    Checks a filter\n"
     "  run      Runs a filter on a call\n"
     "  decide   Runs a bundle of filters on a call\n"
     "  dis      Lists a filter, which isn't checked\n"
     "  asm      Assembles a text, which isn't checked\n"
     "  compile  Compiles a bundle of a profile and a table\n"
     "  compare  Compares a bundle of filters, a profile and a table\n"
     "  ask      Says what a profile answers to a call, and why, of a bundle with a table\n"
     "  answers  Lists what filters, or a profile with a table, answer to every call, by regions of calls\n"
     "  help     Print this message or the help of the given subcommand(s)\n"
     "\n"
     "Options:\n"
     "  -h, --help     Print help\n"
     "  -V, --version  Print version\n", 0),
    (["run", "--help"],
     "Runs a filter on a call\n"
     "\n"
     "Usage: scf run [OPTIONS]\n"
     "\n"
     "Options:\n"
     "      --nr <NUMBER>    The number of the call [default: 0]\n"
     "      --arch <NUMBER>  The architecture [default: 0xc000003e, x86-64]\n"
     "      --ip <NUMBER>    The instruction pointer [default: 0]\n"
     "      --a0 <NUMBER>    Argument 0 [default: 0]\n"
     "      --a1 <NUMBER>    Argument 1 [default: 0]\n"
     "      --a2 <NUMBER>    Argument 2 [default: 0]\n"
     "      --a3 <NUMBER>    Argument 3 [default: 0]\n"
     "      --a4 <NUMBER>    Argument 4 [default: 0]\n"
     "      --a5 <NUMBER>    Argument 5 [default: 0]\n"
     "      --path           Also the indices of the instructions on the way\n"
     "  -h, --help           Print help\n", 0),
    (["compare", "--help"],
     "Compares a bundle of filters, a profile and a table\n"
     "\n"
     "Usage: scf compare [OPTIONS]\n"
     "\n"
     "Options:\n"
     "      --limit <NUMBER>        The most steps of a comparison [default: 1000000]\n"
     "      --total-limit <NUMBER>  With --calls, the most steps of all its comparisons together [default: 10000000]\n"
     "      --splits <NUMBER>       The most splits of a comparison that tests leave undecided; 2^64-1 for no limit "
     "[default: 10000]\n"
     "      --nr-from <NUMBER>      Only calls of x86-64, or of each of --architectures, with at least this number; "
     "not with --calls\n"
     "      --nr-to <NUMBER>        Only calls of x86-64, or of each of --architectures, with at most this number; not "
     "with --calls\n"
     "      --reading <READING>     How a profile is read: by its words (`strict`), as `runc` or `crun` does, or as a "
     "`sandbox` [default: strict]\n"
     "      --native                Only calls of x86-64 with numbers below 0x40000000\n"
     "      --calls                 Each named call by itself, and a line for each that isn't the same; not with "
     "--native\n"
     "      --no-more               Whether the filters are nowhere more permissive than the profile\n"
     "      --no-less               Whether they are nowhere less permissive; not with --no-more\n"
     "      --disposition           Whether both deny, delegate and allow alike; not with --no-more or --no-less\n"
     "      --beside                With parts `beside`, other filters, in place of a profile\n"
     "      --architectures         Only calls of architectures with a table: parts `table`, `table-x86` ..; not with "
     "--native or --beside\n"
     "  -h, --help                  Print help\n", 0),
    (["--version"], "scf 0.1.0\n", 0),
)
# Words that are refused, and what is said of them; the usage, if it is shown; and how all of these end.
REFUSED = (
    ([], "'scf' requires a subcommand but one was not provided\n"
     "  [subcommands: check, run, decide, dis, asm, compile, compare, ask, answers, help]", "scf <COMMAND>"),
    (["frobnicate"], "unrecognized subcommand 'frobnicate'", "scf <COMMAND>"),
    (["run", "--nr", "-1"], "unexpected argument '-1' found", "scf run [OPTIONS]"),
    (["check", "--nr", "1"], "unexpected argument '--nr' found", "scf check"),
    (["run", "--nr"], "a value is required for '--nr <NUMBER>' but none was supplied", None),
    (["run", "--nr", "1", "--nr", "2"], "the argument '--nr <NUMBER>' cannot be used multiple times",
     "scf run [OPTIONS]"),
    # A flag given twice, and with a text.
    *((["compare", flag, flag], f"the argument '{flag}' cannot be used multiple times", "scf compare [OPTIONS]")
      for flag in ("--native", "--calls")),
    *((["compare", f"{flag}=1"], f"unexpected value '1' for '{flag}' found; no more were expected",
       f"scf compare {flag}") for flag in ("--native", "--calls")),
)
MORE = "\n\nFor more information, try '--help'.\n"


class Words(OnProgram):
    def test_words(self):
        for words, text, status in WORDS:
            self.prints(words, b"", text, status)
        for words, text, usage in REFUSED:
            self.prints(words, b"", f"error: {text}" + (f"\n\nUsage: {usage}" if usage else "") + MORE, 2)
        self.prints(["run", b"\xff"], b"", "error: invalid UTF-8 was detected in one or more arguments\n", 2)

    def test_other_options(self):
        """Each command that takes no option refuses one, and `compare` those of a call."""
        for command in ("check", "dis", "asm", "compile", "compare"):
            out, status = ran([command, "--a0", "1"])
            self.assertTrue(out.startswith(b"error: unexpected argument '--a0' found\n"), out)
            self.assertEqual(status, 2, command)
