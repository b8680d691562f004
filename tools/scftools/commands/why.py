"""Says why a syscall was denied, delegated or logged: by which entry of a profile, and which tests of a filter.

    scf why [--native] [--runtime runc|crun|docker|podman|sandbox] [--limit N] [--splits N]
            [--table FILE] [--caps LIST] [--every] [--json] LINE|- [PROFILE|FILTER ..]
    scf why .. --pid PID [PROFILE|FILTER ..]
    scf why .. --core FILE [PROFILE|FILTER ..]

LINE is what was logged when it happened, and `-` is standard input, with any number of lines:

    - an audit record of seccomp, in the kernel's log (dmesg), in journald's, in auditd's or as ausearch prints it, and
      behind nothing but what these put before it, since other messages have words that processes choose; or an entry
      that `journalctl -o json` prints, of the kernel or of audit;
    - what strace wrote: a whole log, or the end of one, with the syscalls that failed, and SIGSYS;
    - what `coredumpctl info` or `coredumpctl --json=short` prints, which has no syscall: each core that has one is
      named.

--pid takes the records of a process from this machine's kernel log and auditd's; while it runs, and no file is given,
also its filters. --core takes a core that SIGSYS left, which has the arguments; `-` is standard input.

PROFILE is a profile as `scf decide` takes it, or a unit's (unit:NAME); with --caps its entries are numbered as in the
resolved one. --runtime reads it as that container runtime does (RUNTIMES.md), so that a container's config.json is no
conflict. The FILTERs are those of the process, oldest first, as `scf filters-of` takes them, or pid:PID for those of
one that runs. One profile and any number of filters may be given, in any order; each may be a pipe. For each syscall
there are lines marked by `# `: the process, the syscall, the action, and what isn't known of them; scf's answer for the
profile (`scf decide`) with the entry, and that for the filters (`scf decide`) with the last tests on the path; and
whether either answers so. If not, another filter of the process gave the answer, since the strictest of all counts, or
it isn't under this profile. At the end stand changes of the profile that allow the syscall: with the arguments that are
known, but for addresses, and with all that the entry denies. scf has proved of each that no other answer to an x86-64
syscall changes. With --native the profile is judged for x86-64 alone, otherwise for each architecture that it names.

A strace log is judged by each SIGSYS in it, and by each syscall that failed as PROFILE, or else the FILTERs, answer to
it. The failed ones are counted by syscall and entry, and the most telling stand first: the last one of a process that
ended with a failure, then those that were tried least often, since libraries try some again and again and ignore the
failure. Five are shown, and the others counted; --every shows each. The changes of the profile are then those that
allow what all of a count have in common. If the log shows a filter being loaded (seccomp, prctl), only processes and
threads that loaded it, or were made by one that did, are judged, and from then on. What failed with EPERM though
PROFILE allows it is named at the end: the kernel itself answers so if a process lacks a capability. If the profile
denies none of them, the last syscall is judged, if it failed.

A record doesn't have the arguments. If the profile or the filters test them, all of their values are judged, and a call
that is answered as the record says is shown as an example. Nor does it have the data of an action: an errno
isn't known from it. The kernel logs KILL_THREAD, KILL_PROCESS, LOG and actions without a name; another action only if
the filter was loaded with SECCOMP_FILTER_FLAG_LOG (`flags` of a profile); and each only if it is in
/proc/sys/kernel/seccomp/actions_logged. Its own log may lack records, since it drops those beyond its rate limit
(kernel.printk_ratelimit); auditd takes all. The number -1 is what a tracer sets to skip a syscall.

    scf why "$(dmesg | grep type=1326 | tail -n 1)" profile.json
    ulimit -c unlimited; ./program; scf why --core core profile.json
    strace -f -o log ./program; scf why --every - profile.json <log

Exit status: 0 each syscall is answered as it was logged; 1 one isn't; 4 it isn't known, or no syscall was logged.

Examples:

    scf why "$(dmesg | grep type=1326 | tail -n 1)" profile.json
    scf why - profile.json filter.bpf <log
    scf why --every - profile.json <log
"""
import itertools
import os
import re
import types

from ..base import program
from ..model import profiles, tables
from ..model.architectures import NATIVE
from ..cli import words
from ..forms import operands, runtimes, strace
from ..forms.profile_inputs import ProfileInput
from ..report.blocks import Block, put_block
from ..logs import audit_records, cause_report, causes, events

# By how many seconds the clock may differ between a record and the start of a process.
TOLERANCE = 2.0


def read_files(names, table, options):
    """The profile and the filters among some files, told apart by their first bytes: a profile is an object."""
    profile, stack = None, []
    runtime = runtimes.RUNTIMES.get(options.runtime)
    reading = runtime.program if runtime is not None else options.runtime or profiles.STRICT
    for name in names:
        given = operands.read_stack([name]) if operands.has_process(name) else \
            operands.read([name], types.SimpleNamespace(caps=options.caps))
        if not isinstance(given, ProfileInput):
            stack += given
        elif profile is not None:
            raise program.ToolError(f"'{name}' is a second profile: give one, and filters")
        else:
            profile = profiles.read_as(given.data, reading)
    own_tables = tables.Tables({NATIVE: table}, reading)
    return causes.Inputs(own_tables, profile, stack, options.native)


def lacking(process):
    """The lines for a process without a record."""
    logged = audit_records.actions_logged()
    return [f"neither the kernel's log nor auditd's has a record of process {process}",
            "the kernel logs ERRNO, TRAP, TRACE and USER_NOTIF only if the filter was loaded with "
            "SECCOMP_FILTER_FLAG_LOG",
            audit_records.RATE_LIMITED,
            "the kernel doesn't say which actions it logs" if logged is None else
            f"of all actions this kernel logs {logged or 'none'} ({audit_records.ACTIONS_LOGGED})",
            f"auditd takes the records where it runs: ausearch -m SECCOMP -p {process} --raw prints older ones, too"]


def of_process(options, files, table):
    """The records of a process, not of an earlier one by its number, and files; without any its filters, if it runs."""
    from scfhost import ptrace  # pylint: disable=import-outside-toplevel

    ticks, boot = ptrace.ticks_at_start(options.pid), re.search(rb"(?m)^btime (\d+)$", ptrace.contents("/proc/stat"))
    # (in seconds since 1970; None if the process has ended)
    begun = None if ticks is None or boot is None else int(boot[1]) + ticks / os.sysconf("SC_CLK_TCK")
    since = None if begun is None else begun - TOLERANCE
    # (auditd takes the kernel's records where it runs)
    of_auditd = strace.log_lines(audit_records.AUDITD_LOG) if os.path.exists(audit_records.AUDITD_LOG) else ()
    records = itertools.chain(audit_records.kernel_lines(), of_auditd)
    log = events.read_events((line for line in records if audit_records.is_of(line, options.pid, since)), table)
    if not options.words:
        is_wanted = begun is not None and log.events
        files = causes.Inputs(files.tables, None, operands.read_stack([f"pid:{options.pid}"]) if is_wanted else [])
    return log, files


def main():
    parser = words.Parser(__doc__)
    group = parser.add_mutually_exclusive_group()
    group.add_argument("--pid", metavar="PID", help="take this process's records from the kernel's log and auditd's")
    group.add_argument("--core", metavar="FILE", help="take the syscall from a core; - is standard input")
    parser.flag("--every", "show every denied syscall of a strace log, not the most telling ones alone")
    parser.add("--all", dest="every")
    parser.add("--limit", "--splits", "--native", "--table", "--caps", "--json")
    runtimes.add_option(parser, is_sandboxes=True)
    parser.value("words", "LINE|PROFILE|FILTER", "without --pid and --core first what was logged, or - for standard "
                 "input; then a profile and the filters of the process, oldest first", nargs="*")
    options = parser.parse_args()
    options.line = None
    if options.pid is None and options.core is None:
        parser.reject((not options.words, "LINE is missing: what was logged, or - for standard input"))
        options.line, *options.words = options.words
        parser.reject((os.path.exists(options.line) and options.line != "-" and "=" not in options.line,
                       f"'{options.line}' is a file: hand it over as standard input: - <'{options.line}'"))
    if options.pid is not None:
        from scfhost import processes  # pylint: disable=import-outside-toplevel

        options.pid = processes.number_in(options.pid)
    parser.one_standard_input([options.line, options.core, options.table, *options.words])
    table = tables.read_table(options.table)
    files = read_files(options.words, table, options)
    if options.core is not None:
        from ..logs import cores  # pylint: disable=import-outside-toplevel

        log = events.EventLog()
        log.add(cores.read_core(options.core))
    elif options.pid is not None:
        log, files = of_process(options, files, table)
    else:
        lines = strace.log_lines("-") if options.line == "-" else options.line.split("\n")
        log = events.read_events(lines, table)
    report = cause_report.log_report(log, files, options.every)
    if options.pid is not None:
        report.lacking = lacking(options.pid)
    return put_block(Block(report.status, report.lines, report.as_json), options.json)
