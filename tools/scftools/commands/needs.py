"""Says which syscalls of a program a profile wouldn't allow, from logs of its syscalls.

    scf needs [--profile | --widen | --counts] [--kubernetes NAME] [--runtime runc|crun]
              [--arch ARCH] [--limit N] [--splits N] [--table FILE] [--caps LIST] [--json]
              LOG.. PROFILE

A LOG is what `scf record LOG -- PROGRAM ..` or `strace -f --quiet=none -o LOG PROGRAM ..` wrote, or what strace wrote
to standard error, with any options; without --quiet=none or -n a log file doesn't say which processes run in 32-bit
mode. Or it is one of these:

    - audit records of seccomp, as of a profile with SCMP_ACT_LOG, or of syscalls, as `auditctl -a exit,always -S all`
      writes them: the kernel's log, which may lack records beyond its rate limit, journald's, auditd's, or
      `ausearch --raw`;
    - `perf trace PROGRAM ..`, `perf trace -s`, or `perf script` of raw_syscalls:sys_enter, as the kernel's trace_pipe
      has it;
    - a map of `bpftrace -e 'tracepoint:raw_syscalls:sys_enter /pid == cpid/ { @[args->id] = count(); }' -c PROGRAM`, or
      of tracepoint:syscalls:sys_enter_* by `probe`;
    - sysdig's lines;
    - a profile that was made of a log, as oci-seccomp-bpf-hook's, or Kubernetes' recorded SeccompProfile: what it
      allows.

PROFILE is a resolved OCI seccomp profile, or another one as `scf decide` takes it. Each may be a file or a pipe, and
one of them `-` for standard input. Each syscall that the profile doesn't allow has a line: its number and name, the
arguments that a condition tests, and scf's answer with the reason (`scf decide`). Lines after it, marked by `# `, say
where it stands in the logs.

Each syscall is judged in the architecture of the process that makes it. Audit records name it, and strace says which
processes don't run in the machine's 64-bit mode. All else is taken as of this machine's own architecture, or, if
PROFILE doesn't list that, of the first that it lists; --arch names another one, and --table is its table. A line about
a syscall of another architecture than x86-64 begins with its name. If PROFILE doesn't list an architecture, none of its
syscalls is allowed: engines' filters kill for them, and scf's answer is `KILL_PROCESS 0 foreign`. strace prints what an
i386 program does by socketcall or ipc by its own name, such as socket; without -n both syscalls are judged.

An argument is known from strace if it is printed as a number or by names of tables/arguments.symbols, such as AF_INET
and CLONE_NEWUSER|SIGCHLD; `strace -X raw` prints numbers in place of names. A log of `record` has whole registers.
strace's own log has only the lower half of many arguments: if bit 31 is set, the upper half is tried both as zero and
as the sign, otherwise it is taken as zero. sys_enter has all arguments, audit records of syscalls the first four, and
the other logs none. If a condition tests an argument that isn't known, all of its values are judged: `depends on arg N`
means that the syscall is allowed with some and not with others, and shows both. On an architecture whose arguments have
32 bits, such as i386, x32 and arm, conditions compare these alone. Syscalls of an architecture that scf has no table
of, names that a table doesn't have, and lines that can't be read aren't judged, and are reported so. sysdig has one
name for some syscalls, such as pipe and pipe2: they aren't judged.

If a log of strace shows a filter being loaded, as that of a container's start does, only processes and threads that
loaded it, or were made by one that did, are judged, and from then on. So it is where a program loads filters itself.

--profile prints the smallest profile that allows what the logs need, for their architectures: each syscall by its name,
with the values of the arguments that PROFILE's conditions test, or under these conditions where the values aren't
known; all else gets PROFILE's default, or SCMP_ACT_ERRNO if that allows. It allows nothing that PROFILE doesn't: scf
has proved that. What the logs need and PROFILE denies is a line each on standard error, and the status 1; what fails in
the log as PROFILE answers is left out. Where PROFILE answers ENOSYS to clone3 or faccessat2, so that libc calls clone
or faccessat, that stays, with PROFILE's conditions on the older one. As far as PROFILE allows them the profile also has
restart_syscall, rt_sigreturn, exit and exit_group, and with syscalls of an architecture that has it, such as i386,
sigreturn: a process calls these to continue after a stop or a signal and to end, which the log may not show.

--widen prints that profile with what the logs need and PROFILE denies, each said on standard error: also a value whose
upper half the log doesn't show, either way, and of a log that shows a filter being loaded what failed as PROFILE
answers.

--counts prints how often the logs have each syscall, the most frequent first: lines NAME COUNT, as `scf compile --hot`
reads them. What isn't counted goes to standard error.

--runtime adds what the container runtime itself calls behind the filter before it executes the program: without these
no container starts. PROFILE is then read as that runtime reads it (RUNTIMES.md), so that a container's config.json is
no conflict.

    scf record log -- ls / && scf needs log profile.json
    scf needs --profile --runtime runc log profile.json >least.json

Exit status: 0 every syscall is allowed; 1 one isn't; 4 none is denied, but one depends or wasn't judged, or the log has
none. With --counts it is 0, or 4 if something in the log wasn't judged; with --widen 1 only for syscalls without a name
or of an architecture that PROFILE doesn't list.

Examples:

    scf needs log profile.json
    scf needs --profile --runtime runc log profile.json >smaller.json
    scf needs --counts log profile.json >counts
"""
import json

from ..base import output, program
from ..model import architectures, profiles
from ..ask import client
from ..cli import words
from ..forms import kubernetes, refusals, runtimes, strace
from ..report.blocks import Block, put_block
from ..logs import least_profile, requirements


def read_words():
    parser = words.Parser(__doc__)
    parser.add_argument("--profile", dest="least", action="store_true",
                        help="print the smallest profile that allows the syscalls of the log")
    parser.flag("--widen", "print the smallest profile with what the log needs and PROFILE denies")
    parser.flag("--counts", "print how often the log has each syscall, for `scf compile --hot`")
    parser.add("--arch", help=words.ARCH_HELP.format(" of a log that doesn't say it",
                                                     ", or the first that PROFILE lists"))
    parser.add("--kubernetes", "--limit", "--splits")
    parser.add("--table", help=words.OWN_TABLE)
    parser.add("--caps", "--json")
    parser.add_argument("--runtime", choices=tuple(runtimes.OWN_CALLS), help=requirements.RUNTIME_HELP)
    parser.value("logs", "LOG", "the output of strace -f, perf trace, bpftrace, sysdig or auditd; - is standard input",
                 nargs="+")
    parser.add("profile")
    options = parser.parse_args()
    options.least = options.least or options.widen
    parser.reject((options.kubernetes is not None and not options.least, "--kubernetes goes with --profile"),
                  (options.least and options.json, "--profile prints JSON already: leave out --json"),
                  (options.counts and (options.least or options.json),
                   "--counts goes neither with --profile nor with --json"))
    parser.one_standard_input([*options.logs, options.profile, options.table])
    return options


def main():
    options = read_words()
    named = None if options.arch is None else architectures.judged_in(options.arch)
    profile = runtimes.read_profile(options.profile, options.caps).data
    if strace.is_log(profile):
        raise program.ToolError(f"'{options.profile}' is a strace log, not a profile: LOG comes before PROFILE")
    judges = requirements.Judges(profiles.read_as(profile, options.runtime or profiles.STRICT), named, options.table)
    try:
        needs = requirements.read_needs(options.logs, judges, options.runtime)
        if options.least:
            status, text, remarks = least_profile.make(needs, options.widen)
            if options.kubernetes is not None:
                text = kubernetes.printed(json.loads(text), options.kubernetes)
            output.put(text)
        elif options.counts:
            status, remarks = program.UNKNOWN if needs.isnt_whole else program.SUCCESS, requirements.log_remarks(needs)
            output.put_lines(requirements.count_lines(needs))
        else:
            remarks = ()
            status = put_block(Block(needs.status, lambda: requirements.needs_lines(needs),
                                     lambda: requirements.needs_json(needs)), options.json)
        output.flush()
        program.say(*remarks)
        return status
    except client.Refusal as why:
        output.put_lines(refusals.lines_of(why, judges.profile, judges.listed))
        return why.status
