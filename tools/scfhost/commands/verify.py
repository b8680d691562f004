"""Says whether the filters of a running process or container answer syscalls as a profile does.

    scf verify [--native|--calls] [--no-more|--no-less] [--container] [--force]
               [--runtime runc|crun|docker|podman] [--engine docker|docker-20.10|podman]
               [--caps LIST] [--kernel X.Y] [--arch-map native|all] [--ignore MEMBER ..]
               [--limit N] [--splits N] [--strict] [--table FILE] [--verbose] [--json]
               [--also PROFILE ..] PID PROFILE
    scf verify .. [--user UID] CONTAINER [PROFILE]
    scf verify [--native|--calls] [--no-more|--no-less] [--container] [--force]
               [--limit N] [--splits N] [--table FILE] [--json]
               PID|CONTAINER --beside FOLDER

The filters are read from the kernel as by `scf filters-of`, for all threads of the process, and compared with the
profile as by `scf compare`, which shows why a syscall differs. Filters belong to threads. Each distinct stack has a
block of its own, with the threads that have it, the worst first; a thread without a filter isn't confined, and counts
as one that differs.

With --container these are the threads of all processes in the container of PID: those of the container's control group
and of the groups in it, in any hierarchy of cgroups, or, if PID is in the root group, those of its PID namespace. The
container's group is that of PID or one above: the one that a runtime mounts or names for it, or that in which systemd
makes init.scope and system.slice. If other processes of the PID namespace are in groups that can't be known to be a
container's, status 0 becomes 4. In a cgroup namespace other than the initial one only a group below the namespace's
root can be known.

CONTAINER is the name of one of root's containers, or the beginning of its ID, as runc, crun or an engine tells them;
with --user that of a user's. All of its processes are read, as with --container. Without a PROFILE they are compared
with what the container's own configuration says, as its runtime reads it, and the first line names the container, its
ID, its engine and its config.json. If that has no profile, the container is `unconfined by configuration`.

--no-more and --no-less ask what they ask of `scf compare`: `more` and `less` count as `differs`.

With --runtime PROFILE is read as the container's runtime reads it, which skips an entry whose answer is the default's
and takes the first of two. runc answers the numbers of an architecture above all that the profile names with ENOSYS, so
these count as `same`, too. With `docker` and `podman` PROFILE may be the engine's own, which is resolved as by
`scf profile-of`, for --kernel and --caps, or without --caps for the bounding set of PID; a whole config.json is
resolved already.

PROFILE may be a container's config.json. If that has no profile, nothing is configured: as `scf audit` says it, a
process without a filter is then `unconfined by configuration`, and one beside a configured profile `unconfined though
configured`; one with filters is compared with a profile that allows every syscall. A config.json that is known to be
that of another container is a usage error.

With --beside the filters are compared with those that `scf filters-of` wrote into FOLDER, from this process before an
upgrade or from another one, over each possible record unless --native.

With a profile the syscalls of each architecture that it names are compared, as far as scf has a table of it; with
--native x86-64's alone, and with --calls each that a table names by itself. As by `scf compare`, all syscalls of
another ABI of the machine that the profile doesn't name must be denied, unless --native or --no-less is given; --also
gives the other profile of a unit that has two (`scf profile-of --arch i386 unit:UNIT`); a PROFILE unit:UNIT has both.

The exit status is the worst of all stacks, 1 before 2 before 4 before 0: 0 same, no more or no less, 1 differs, more,
less or not confined, 4 undecided or unfinished.

Examples:

    scf verify "$PID" profile.json
    scf verify --no-more --json "$PID" profile.json
    scf verify "$PID" --beside filters
"""
import json
import os
import sys

from scftools.base import child, inputs, output, program
from scftools.base.values import replace
from scftools.model import profiles, tables
from scftools.ask import verdicts
from scftools.cli import words
from scftools.forms import engines, profile_inputs, runtimes
from .. import audit, configurations, container_files, containers, processes, units, verify
from ..machine import Snapshot


def read_words():
    parser = words.Parser(__doc__, processes.NEEDS)
    parser.scope("x86-64 syscalls alone, whatever architectures the profile names")
    parser.flag("--container", "all processes in the container of PID")
    parser.add("--all", dest="container")
    parser.add("--force")
    parser.relation()
    runtimes.add_options(parser, without_caps="the bounding set of PID")
    parser.add("--also", "--limit", "--splits", "--strict", "--table", "--verbose", "--json")
    parser.value("--user", "UID", "CONTAINER is one of this user's", type=int)
    parser.value("pid", "PID|CONTAINER",
                 "a process, or a thread of it; or the name of a container or the beginning of its ID")
    parser.value("--beside", "FOLDER", "compare with the filters that filters-of wrote")
    if not any(word.partition("=")[0] == "--beside" for word in sys.argv):
        parser.value("profile", "PROFILE", "a resolved profile, or a config.json; with --runtime also an engine's; - "
                     "is standard input [default: the container's own configuration]", nargs="?")
    options = parser.parse_args()
    options.pid = options.pid.removeprefix(inputs.PROCESS)
    options.name = None if not options.pid.strip("0123456789") else options.pid
    options.profile = None if options.beside is not None else options.profile
    parser.reject(
        (options.name is None and options.beside is None and options.profile is None,
         "the following arguments are required: PROFILE"),
        (options.name is None and options.user is not None, "--user goes with the name of a container"),
        (options.beside is not None and (options.runtime or options.verbose or options.strict or options.also),
         "--runtime, --verbose, --strict and --also speak of a profile, and --beside has none"),
        (options.also and options.scope == verdicts.NATIVE_SCOPE,
         "--also is for other architectures' profiles, and --native takes one alone"),
        (options.runtime is None and runtimes.is_engines(options),
         "--engine, --caps, --kernel, --arch-map and --ignore need --runtime"))
    options.setting = runtimes.setting_of_words(options, parser)
    options.pid = processes.number_in(options.pid) if options.name is None else None
    parser.one_standard_input([options.profile, *options.also, options.table])
    return options


def container_named(owned, name, user):
    """The one of some containers by a name, or by the beginning of its ID."""
    fitting = [found for found in owned if name in (found.name, found.identifier)] or \
        [found for found in owned if found.identifier.startswith(name)]
    if len(fitting) == 1:
        return fitting[0]
    if name.startswith(inputs.UNIT) or name.rpartition(".")[2] in units.SECTIONS:
        raise program.ToolError(f"'{name}' is a unit: its process is what `systemctl show -p MainPID --value UNIT` "
                                "prints, and its profile is unit:UNIT")
    whose = "root" if user is None else f"user {user}"
    listed = ", ".join(f"{found.identifier[:12]} ({found.name})" if found.name else found.identifier[:12]
                       for found in fitting or owned)
    count, those = ("several containers", "these") if fitting else ("no container", "those that run")
    raise program.ToolError(f"'{name}' isn't a process ID, and {count} of {whose} {'have' if fitting else 'has'} that "
                            f"name or an ID that begins so; {those}: {listed or 'none'}")


def is_configured(data, name, kernel, pid):
    """Whether a configuration has a profile; None of what is no configuration. Ends the tool where it isn't that of the
    process, or runtimes read it otherwise than it is spelled."""
    try:
        value = configurations.configuration_in(data)
        if value is None:
            return None
        why_not = configurations.why_not_its(kernel, pid, value)
        if why_not is not None:
            raise program.ToolError(f"{why_not}: `podman inspect -f '{{{{.State.Pid}}}} {{{{.OCIConfigPath}}}}' NAME` "
                                    "prints the first process of a container and its configuration")
        return configurations.seccomp_in(value, name) is not None
    except configurations.ContainerError as why:
        raise program.ToolError(f"{inputs.label(name)}: {why}") from why


def read_profile(name, is_engines):
    """The bytes of a profile's or a configuration's file."""
    if name.startswith(inputs.UNIT):
        return profile_inputs.read_text(name)
    if not name:
        raise program.ToolError("the name of PROFILE is empty: the command that should print it printed nothing")
    if os.path.exists(os.path.join(name, configurations.CONFIG)):
        raise program.ToolError(f"'{name}' is a bundle's folder: take the file {configurations.CONFIG} in it")
    try:
        return inputs.read_whole(name, "engine's profile") if is_engines else inputs.read_input(name, "profile")
    except program.ToolError as why:
        if not isinstance(why.__cause__, FileNotFoundError) or os.path.basename(name) != configurations.CONFIG:
            raise
        raise program.ToolError(f"{why}: the container has ended, or was removed; of one that runs `podman inspect -f "
                                f"'{{{{.OCIConfigPath}}}}' NAME` prints it") from why


def profiles_in(data, name, options, kernel):
    """The profiles in what was read of a file, as the container's runtime applies them: without `--caps` for the
    capabilities of the process's bounding set, which are those that the engine gave the container."""
    if options.runtime is None:
        return profile_inputs.profile_in(data, name, is_runtimes=True, is_strict=options.strict).parts
    setting, bounding = options.setting, kernel.status_of(options.pid).get("CapBnd")
    if options.caps is None and bounding is not None:
        setting = replace(setting, capabilities=engines.capabilities_in(int(bounding, 16)),
                          source="the process's bounding set")
    return [runtimes.applied_in(data, name, options.runtime, setting, options.strict)]


def request_of(options, kernel, named):
    """How each stack is compared, and with what."""
    settings = tables.read_table(options.table), options.scope, options.relation
    if options.beside is not None:
        return verify.Request(profile_inputs.ProfileInput(b""), *settings, saved=verify.read_saved(options.beside))
    if options.profile is None:
        # (as the container's own configuration says)
        if named.why is not None:
            raise program.ToolError(f"the configuration of container {named.identifier}: {named.why}; give a PROFILE")
        if named.seccomp is None:
            return verify.nothing_request(*settings, configured=False)
        return verify.request_of(json.loads(named.seccomp), named.runtime, *settings, configured=True)
    data = read_profile(options.profile, options.runtime is not None)
    configured = is_configured(data, options.profile, kernel, options.pid)
    if configured is False:
        return verify.nothing_request(*settings, configured=False)
    unit = profiles_in(data, options.profile, options, kernel)
    for name in options.also:
        unit += profiles_in(read_profile(name, options.runtime is not None), name, options, kernel)
    request, *others = (
        verify.Request(given, *settings, elsewhere)
        for given, elsewhere in zip(unit, profiles.elsewhere_of([given.data for given in unit])))
    is_known = options.runtime is not None or configured and request.is_accepted
    return replace(request, others=tuple(others), configured=configured if is_known else None)


def other_runtime(options, kernel, verification):
    """The line, where filters aren't as configured, that another runtime than was said reads the configuration."""
    if verification.request.configured and verification.is_refuted and options.profile is not None:
        those = [*configurations.identifiers_of(kernel, options.pid), *configurations.identifiers_in(options.profile)]
        yield from filter(None, [configurations.other_runtime(those, options.runtime)])


def main():
    options = read_words()
    kernel, named = processes.Kernel(), None
    if options.name is not None:
        described = container_files.described_containers(kernel, Snapshot(), (), child.Budget(audit.SECONDS_OF_FILES))
        named = container_named([each for each in described if each.user == options.user], options.name, options.user)
        options.pid, options.container = named.first, True
    request = request_of(options, kernel, named)

    def read():
        if not options.container:
            return None, processes.look_at_process(kernel, options.pid, is_forced=options.force)
        container = processes.container_of(kernel, processes.process_of(kernel, options.pid))
        return container, processes.look_at_container(kernel, container, is_forced=options.force)

    container, inspection = processes.read_or_end(read, options.json)
    others = None if container is None else containers.others_note(kernel, container)
    verification = verify.Verification(inspection, request, others)
    remarks = [*request.remarks, *other_runtime(options, kernel, verification)]
    if options.json:
        value = {**verification.as_json(container and container.description), "not_checked": others}
        if options.runtime is not None or remarks:
            value["remarks"] = remarks
        if named is not None:
            value["named"] = {"name": named.name, "id": named.identifier, "engine": named.engine,
                              "config": named.config}
        output.put_json(value)
        return verification.status
    if named is not None:
        output.put_line(f"container {named.name or options.name} ({named.identifier}), {named.engine}, {named.config}")
    output.put_lines(verification.lines(options.verbose))
    whole = None if container is None else \
        f"the container is {container.description}; its processes that were checked: {len(inspection.names)}"
    output.put_lines(output.notes(filter(None, (*remarks, others, whole))))
    return verification.status
