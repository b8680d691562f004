"""Runs a program under strace, and writes a log of its syscalls that `scf needs` reads, or the least profile.

    scf record [--profile BASE [--widen] [--runtime runc|crun]] [FILE] -- PROGRAM [ARGUMENT ..]

The program has the terminal, input and output as ever, and runs to its end; what it starts is recorded, too. FILE,
which is overwritten, gets what `strace -f -n -e raw=all --quiet=attach -o FILE PROGRAM ..` writes: each syscall with
its number and its registers whole, so that `needs` knows both halves of each argument. `scf needs FILE PROFILE` reads
it, and has options for the runtime that starts the program and for another architecture. Without FILE it is a new
file here, called by the program: ls.log, or with --profile ls.json; standard error says so. A FILE.json without
--profile is refused, since it would lose its profile.

With --profile FILE gets, in place of the log, the smallest profile that allows what was recorded, as `needs --profile`
makes it of BASE, with --widen and --runtime as there; what isn't in it goes to standard error. Only what the program
did in this run is recorded: run whatever it has to be able to do.

A traced program gets no privileges of set-user-ID, set-group-ID or file capabilities, unless root traces it, and it is
slower.

Exit status: the program's, or the signal that ended it; 1 BASE denies what a program needs that ended with 0; 4 whether
BASE allows what was recorded isn't proved; 125 strace isn't installed; 126 PROGRAM isn't executable; 127 there is no
PROGRAM.

Examples:

    scf record log -- ls -l /
    scf record --profile profile.json least.json -- ls -l /
    scf record -- ls / && scf needs ls.log profile.json
"""
import os
import sys
import tempfile

from ..base import output, program
from ..model import profiles
from ..ask import client
from ..cli import words
from ..forms import refusals, runtimes
from ..logs import least_profile, requirements, tracing

RECORDING_OPTIONS = ("-f", "-n", "-e", "raw=all", "--quiet=attach")


def main():
    parser = words.Parser(__doc__)
    parser.value("--profile", "BASE", "write the smallest profile that allows what was recorded, with BASE's default "
                                      "and architectures")
    parser.flag("--widen", "allow in it what was recorded and BASE denies")
    parser.add_argument("--runtime", choices=tuple(runtimes.OWN_CALLS), help=requirements.RUNTIME_HELP)
    parser.value("file", "FILE", "the log, or with --profile the new profile [default: PROGRAM.log or PROGRAM.json]",
                 nargs="?")
    own_words, traced = tracing.split(sys.argv[1:])
    if not traced:
        tracing.check_separated(parser, own_words, "record")
    options = parser.parse_args(own_words)
    parser.reject((not traced, "no program is given: it stands behind --"),
                  (options.profile is None and (options.widen or options.runtime),
                   "--widen and --runtime go with --profile"),
                  (options.profile is None and (options.file or "").endswith(".json"),
                   f"'{options.file}' would get the log, not a profile: --profile BASE makes one"))
    if options.file is None:
        options.file = tracing.new_name(traced, ".log" if options.profile is None else ".json")
        program.say(f"writes {options.file}")
    # (before the program runs for nothing)
    os.close(os.open(options.file, os.O_WRONLY | os.O_CREAT | os.O_CLOEXEC, 0o666))
    if options.profile is None:
        return tracing.end_as(tracing.run_traced(options.file, RECORDING_OPTIONS, traced))
    profile = runtimes.read_profile(options.profile).data
    judges = requirements.Judges(profiles.read_as(profile, options.runtime or profiles.STRICT), None, None)
    try:
        judges.of(judges.own.oci)
        with tempfile.TemporaryDirectory(prefix="scf-record-") as folder:
            log = os.path.join(folder, "log")
            ended = tracing.run_traced(log, RECORDING_OPTIONS, traced)
            needs = requirements.read_needs([log], judges, options.runtime)
        status, text, remarks = least_profile.make(needs, options.widen)
        with open(options.file, "w", encoding="utf-8") as file:
            file.write(text)
        program.say(*remarks)
        return tracing.end_as(ended or (status if status == program.NEGATIVE else program.SUCCESS))
    except client.Refusal as why:
        output.put_lines(refusals.lines_of(why, judges.profile, judges.listed))
        return why.status
