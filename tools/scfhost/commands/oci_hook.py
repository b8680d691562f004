"""A poststart hook for OCI runtimes: says whether a container is confined as configured.

    scf oci-hook [--runtime runc|crun|docker|podman] [--policy same|no-more] [--kill]
                 [--keep-first] [--allow-unconfined] [--dry-run] [--force] [--wait SECONDS]
                 [--deadline SECONDS] [--native] [--limit N] [--splits N] [--table FILE]
                 [--json] <STATE
    scf oci-hook --print-hook [OPTION ..] >scf.json

A runtime starts a hook with the container's state on standard input. The profile is `linux.seccomp` of config.json in
the bundle, with --runtime as that runtime applies it, and the filters are read from the kernel as by
`scf filters-of`, for all processes of the container. The syscalls of each architecture that the profile names are
compared, as far as scf has a table of it, with --native x86-64's alone. With the policy `same` each must be answered as
the profile says, with `no-more` none more permissively; those of another ABI of the machine that it doesn't name must
be denied, as by `scf compare`. The result goes to standard error and to the system log, or with --json as one object to
standard output and to the log. A container whose configuration has no profile is unconfined by configuration, and is
rejected too, except with --allow-unconfined.

--kill kills the container unless it is known to be confined, and only then says why. It also kills it if that isn't
known at the deadline, if this tool is stopped or ended before it knows, and if its own options are wrong. runc ends a
container whose hook fails; crun lets it run on, and so needs --kill. The processes of a container are those of its PID
namespace, or, if that isn't its own, those of its control group, or else those that descend from its first process.

--dry-run only reports: the status is 0, and nothing is killed, whatever is found; a line says what would have been
done.

If the runtime says that the container is `created`, as runc does, its program isn't executed yet, and of its first
process only the main thread, which will execute it, is read. A process without a filter is read again for some time,
since a runtime may call its hooks before the filter is loaded.

--print-hook prints a file for hooks.d (oci-hooks(5)) that has podman call this tool with the other options for each
container, and wait longer for it than its own limits allow it to take.

Exit status: 0 confined as configured, 1 not, 4 undecided or not known at the deadline.

Examples:

    scf oci-hook --print-hook --kill >scf.json
    scf oci-hook --print-hook --runtime crun --policy no-more >scf.json
    scf oci-hook --print-hook --dry-run >scf.json
"""
import os
import sys

from scftools.base import output, program
from scftools.model import tables
from scftools.ask import verdicts
from scftools.cli import words
from scftools.forms import runtimes
from .. import hooks, processes, verify

RELATION_OF_POLICY = {"same": verdicts.SAME, "no-more": verdicts.NO_MORE}


def read_words():
    parser = words.Parser(__doc__, processes.NEEDS)
    parser.add_argument("--policy", choices=tuple(RELATION_OF_POLICY), default="same",
                        help="whether each syscall is answered as the profile says, or none more permissively "
                             "[default: same]")
    parser.flag("--kill", "kill the container unless it is known to be confined, before the reason is reported")
    whose = parser.add_mutually_exclusive_group()
    runtimes.add_option(whose)
    whose.add_argument("--keep-first", **words.SHARED["--keep-first"])
    parser.flag("--allow-unconfined", "accept a container whose configuration has no profile")
    parser.value("--wait", "SECONDS", "how long to wait for a process to get a filter, at most 60 [default: 1]",
                 type=words.seconds, default=1.0)
    parser.value("--deadline", "SECONDS", "how long the check may take beyond --wait, at most "
                 f"{hooks.DEADLINE * 10:g}; then it is undecided [default: {hooks.DEADLINE:g}]",
                 type=words.seconds, default=hooks.DEADLINE)
    parser.flag("--dry-run", "only report: end with status 0 and kill nothing, whatever is found")
    parser.add("--force", "--native", "--limit", "--splits")
    parser.add("--table", help="the syscall table [default: tables/x86_64.table]")
    parser.add("--json")
    parser.flag("--print-hook", "print a hooks.d file with the other options")
    options = parser.parse_args()
    limits = (options.wait, 60), (options.deadline, hooks.DEADLINE * 10)
    parser.reject(*((not 0 <= seconds <= most, f"'{seconds}' isn't a number of seconds from 0 to {most:g}")
                    for seconds, most in limits),
                  (options.table == "-", "the table can't be '-': standard input is the container's state"))
    return options


def judge(options, process):
    """Whether the container is confined as its configuration says."""
    config = hooks.configuration_of(process.container)
    if config is None:
        is_confined = process.kernel.status_of(process.container.pid).get("Seccomp") == "2"
        which = "the container's first process has a filter that isn't its runtime's" if is_confined else \
            "the container isn't confined"
        return hooks.plain_finding(f"the configuration has no seccomp profile: {which}", program.SUCCESS
                                   if options.allow_unconfined else program.NEGATIVE, hooks.UNSTATED)
    asked = verify.request_of(config, options.runtime, tables.read_table(options.table),
                              verdicts.NATIVE_SCOPE if options.native else None, RELATION_OF_POLICY[options.policy],
                              keeps_first=options.keep_first)
    return hooks.finding_of(process.confined(options.wait, options.force), asked, process)


def examine(judge_process, seconds, kills, is_json):
    """Reads the container's state, examines the container, and says what is found: the status."""
    container, killed = None, []
    try:
        container = hooks.container_of(hooks.state(min(seconds, hooks.STATE_SECONDS)))
        examination = hooks.Examination(hooks.ContainerProcess(container), seconds, kills)
        result = examination.result(lambda: judge_process(examination.process), is_json)
        killed = examination.killed
    except hooks.ContainerError as why:
        result = hooks.plain_finding(str(why))
    lines = [hooks.verdict_line(container, result), *(kill.line for kill in killed), *result.lines()]
    if is_dry_run():
        killing = ", and the container would be killed" if "--kill" in sys.argv[1:] else ""
        lines.append("dry run: the status is 0 without --dry-run, too" if result.status == program.SUCCESS else
                     f"dry run: without --dry-run the status would be {result.status}{killing}")
    if is_json:
        name = None if container is None else output.escaped(container.name)
        output.put_json({**result.value(), "id": name, "killed": any(kill.is_so for kill in killed),
                         **({"dry_run": True} if is_dry_run() else {})})
        output.flush()
    else:
        program.say(*lines)
    hooks.write_log(program.name(), result.status, lines)
    return result.status


def is_hook_with(option):
    """Whether a runtime calls this tool with an option, whatever the other words are."""
    return option in sys.argv[1:] and "--print-hook" not in sys.argv[1:] and not os.isatty(0)


def is_dry_run():
    return is_hook_with("--dry-run")


def main():
    try:
        options = read_words()
    except program.ToolError as why:
        if is_dry_run():
            program.say(f"dry run: usage error: {why}")
            return program.SUCCESS
        if not is_hook_with("--kill"):
            raise
        wrong = hooks.plain_finding(f"usage error: {why}")
        program.say(str(why))
        examine(lambda _: wrong, hooks.DEADLINE, True, False)
        return program.TROUBLE
    seconds = options.wait + options.deadline
    if options.print_hook:
        output.put(hooks.hook_file(os.path.abspath(sys.argv[0]), sys.argv[1:], seconds))
        return program.SUCCESS
    kills = options.kill and not options.dry_run
    status = examine(lambda process: judge(options, process), seconds, kills, options.json)
    return program.SUCCESS if is_dry_run() else status
