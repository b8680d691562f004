"""Prints the profile of filters, of a process, of an engine's list or of a unit, as an OCI seccomp profile.

    scf profile-of [--arch ARCH|--runtime RUNTIME] [--no-more|--no-less]
                   [--json|--kubernetes NAME] [--limit N] [--splits N] [--table FILE]
                   [--force] FILTER..|pid:N >PROFILE
    scf profile-of [--as profile] [--engine docker|docker-20.10|podman]
                   [--runtime runc|crun|docker|podman] [--caps LIST|docker|podman|none]
                   [--machine NAME] [--kernel X.Y] [--arch-map native|all]
                   [--ignore MEMBER ..] [--keep-first] [--multiplexed]
                   [--json|--kubernetes NAME] ENGINE-PROFILE
    scf profile-of [--json|--kubernetes NAME] [--arch ARCH] unit:UNIT
    scf profile-of [--json|--kubernetes NAME] --set LIST .. [--errno ERRNO]
                   [--architectures LIST] [--log LIST ..]

The FILTERs form one stack, oldest first; pid:N stands for those of a process, each distinct stack of its threads a
block; `scf filters-of` writes them to files. Before a profile is printed, scf proves that it answers every syscall of
each architecture that it lists as the filters do; `scf compare FILTER.. PROFILE` says `same` of it again.

A profile has an entry for each answer and the syscalls that always get it, and entries with conditions on arguments.
Ranges and bits that no operator compares as a whole are several entries, each with a mask. Numbers that the table
doesn't name get the default action.

The profile is for this machine's own architecture, such as x86-64. It also lists each other one of scf's tables for
which scf proves the same, with entries for names that x86-64 lacks; but none whose syscalls the filters all kill.
Standard error names those that it lists, and others of which the filters allow some syscall. With --arch the profile is
for one architecture alone; where its arguments have 32 bits, conditions are on the lower half.

TRAP with data, as browsers' filters have it, is written as errnoRet beside SCMP_ACT_TRAP, and a remark says so, since
--runtime sandbox alone reads that; with --runtime or --kubernetes the data is left out.

Some filters answer as no profile can: by the instruction pointer, by two arguments that they compare with each other,
or with data that a profile has no place for. Then the output is two profiles, and not JSON as a whole: the nearest that
is nowhere stricter than the filters, and the nearest that is nowhere more permissive. This is proved. Lines marked by
`# ` say which syscalls get another answer, and why, with an example where the profile is more permissive or stricter.
If one profile is both, it is printed alone, and standard error says so: runc's filters have such a one, since no
profile says their ENOSYS. With --no-less only the first profile is printed, with --no-more the second.

If filters take too many steps to follow, the output says `unfinished`, and has the profiles that are proved all the
same; --limit N gives them N steps, if that is more than they have. Those of chromium and firefox take fewer; but their
profiles have so many entries that `compile` has no room for them in a filter: they are there to be read and compared.

With --runtime the profile is one that this runtime loads: it is compared as the runtime reads it, and runc's ENOSYS for
numbers above all that a profile names, which no profile says, is expected of the filters.

A container engine's own profile has entries that hold only with some capabilities, on some architectures or from some
kernel on (`includes`, `excludes`), an `archMap`, entries with a single `name`, and errnos by name. The engine resolves
them for one container before it passes the profile to the runtime; so does this command for this machine, or with
--machine for another one. scf reads such a resolved profile; its masks may be wide, so it needn't be plain in the sense
of scf's theorem. ENGINE-PROFILE is a file, a pipe, or `-` for standard input; a whole config.json is read too, and
lists of LXC, snapd and firejail. What is left out, and why, goes to standard error.

The rules are those of moby (profiles/seccomp) and of containers-common (pkg/seccomp), which agree with these
exceptions: only moby knows `minKernel`, and only containers-common `errno` and `defaultErrno`, which take precedence
over the numbers; moby 20.10 doesn't know `defaultErrnoRet`, `flags` and the listener. --engine says whose rules apply;
without it, all members that one of them knows are read. A member of an entry that no engine knows may be a condition,
and is refused without --ignore.

With --runtime it is the profile as that runtime is given it, without the names that this machine's libseccomp doesn't
know. `docker` is the engine with runc, `podman` with crun; `runc` and `crun` alone take a resolved profile, or an
engine's with --engine, such as podman's where podman runs its containers by runc. Entries that a runtime reads
otherwise than by their words (RUNTIMES.md) are printed as they are, and a note says how it reads them. With --runtime
runc or crun `scf compare`, `decide`, `compile` and `lint` read them so, too; without --runtime the tools go by the
words, and may refuse them as Conflict or RepeatedIndex. runc also answers the numbers above all that the profile names
with ENOSYS; a profile can't express that, so a note says it.

Some profiles give a syscall two answers, both without conditions. Read by its words such a profile is refused as a
conflict; runc and crun leave out an entry whose answer is the default's, and keep the first of the others. --keep-first
drops the name from all other entries without conditions, so that tools without --runtime take the profile.

On i386, ppc64le and mipsel 32 syscalls such as socket and shmat are also made by socketcall and ipc. libseccomp gives
each rule of one of them a second rule: socketcall or ipc with its number as argument 0, in place of a condition on
argument 0. --multiplexed adds these entries if the profile names one of these architectures; an entry of socketcall or
ipc without conditions covers them. If a syscall has two answers that differ by argument 0 alone, they conflict there,
and runc and crun refuse the profile.

The profile of a unit says what all filters answer together that systemd adds for its settings: SystemCallFilter=,
SystemCallErrorNumber=, SystemCallArchitectures=, SystemCallLog=, RestrictNamespaces=, RestrictAddressFamilies=,
MemoryDenyWriteExecute=, RestrictRealtime=, RestrictSUIDSGID=, LockPersonality=, ProtectClock=, ProtectHostname=,
ProtectKernelModules=, ProtectKernelLogs=, ProtectKernelTunables= and PrivateDevices=; systemd.exec(5) says what they
mean. They are those that `systemctl show` prints. With --set they are given: each LIST is an assignment of
SystemCallFilter=, in order, such as '@system-service' or '~@mount ptrace:EPERM', and the groups are those of
`systemd-analyze syscall-filter`. What is left out, and why, goes to standard error.

`scf verify` tells whether a unit's main process is confined so. On i386 systemd applies RestrictAddressFamilies= not at
all, and MemoryDenyWriteExecute= to other syscalls. One profile can't say that of a unit that permits i386 syscalls: the
one that is printed leaves i386 out, and --arch i386 prints the profile for it, which `scf compare` and `scf verify`
take by --also.

The rules of RestrictNamespaces= and of the settings after it are those of systemd 252.39 and 257.13, and of later ones
of these series; if another version runs, a line on standard error says so. From 254 on MemoryDenyWriteExecute= adds no
filter where the kernel has PR_SET_MDWE. From 257.13 on SystemCallFilter= allows write(2), and an allow-list denies by
ENOSYS what isn't in @known. A command that systemd starts with full privileges (`+`) has no filter.

`systemctl show` doesn't print which syscalls an allow-list denies with an errno of their own, such as ~clone3:EINVAL:
these are read from the unit's files. With --set, as in systemd, a name that the installed libseccomp doesn't know is
left out. The name of another architecture's syscall stays in the profile, and scf skips it.

Exit status: 0 the profile is proved, or made; 1 a thread has no filter; 4 no profile answers as the filters do (the
nearest ones are printed), scf can't decide, or what a list or a unit's files state isn't known.

Examples:

    scf profile-of filter.bpf
    scf profile-of --no-more old.bpf new.bpf >stricter.json
    scf profile-of --runtime podman --caps podman,NET_RAW engine.json >profile.json
"""
import json

from ..base import inputs, output, program
from ..base.values import replace
from ..model import architectures, libseccomp, tables
from ..ask import explanation, verdicts
from ..ask.client import Refusal
from ..cli import words
from ..forms import engines, filters, kubernetes, operands, profile_inputs, runtimes
from ..forms.filters import Inspection
from ..report import profile_of
from ..report.blocks import Block, of_threads, put_blocks

# The options that each kind of input has alone.
OF_FILTERS = ("arch", "limit", "splits", "table", "force")
OF_ENGINES = ("engine", "caps", "machine", "kernel", "arch_map", "ignore", "keep_first", "multiplexed")


def read_words():
    parser = words.Parser(__doc__)
    parser.add("--arch")
    parser.relation("print the nearest profile that is nowhere {} than the filters")
    parser.add("--json", "--kubernetes", "--limit", "--splits")
    parser.add("--table", help=words.OWN_TABLE)
    parser.add("--force")
    parser.add("--as", choices=("profile",))
    runtimes.add_options(parser)
    parser.add("--machine", "--keep-first")
    parser.flag("--multiplexed",
                "add the rules of socketcall and ipc that libseccomp makes for i386, ppc64le and mipsel")
    parser.value("--set", "LIST", "assignments of SystemCallFilter=, in order", nargs="+")
    parser.value("--errno", "ERRNO", "with --set: SystemCallErrorNumber= [default: kill]")
    parser.value("--architectures", "LIST", "with --set: SystemCallArchitectures= [default: none]",
                 dest="unit_architectures")
    parser.value("--log", "LIST", "with --set: assignments of SystemCallLog=", nargs="+")
    parser.value("inputs", "FILTER|PROFILE|unit:UNIT",
                 "filters, the oldest first, pid:N, an engine's profile, or a unit; - is standard input", nargs="*")
    options = parser.parse_args()
    is_of_lists = options.set is not None
    parser.reject(
        (bool(options.inputs) == is_of_lists, "give filters, a profile, pid:N or unit:UNIT, or --set and lists"),
        (not is_of_lists and any(getattr(options, name) is not None for name in ("errno", "unit_architectures", "log")),
         "--errno, --architectures and --log go with --set"),
        (len(options.inputs) > 1 and any(name.startswith(inputs.UNIT) for name in options.inputs),
         "a unit stands alone"),
        (is_of_lists and options.arch is not None,
         "--arch needs a unit: --set states the same for all architectures"),
        (options.json and options.kubernetes is not None, "give either --json or --kubernetes"))
    options.setting = runtimes.setting_of_words(options, parser)
    parser.one_standard_input([*options.inputs, options.table])
    return options


def put_profile(text, profile, options, remarks):
    """Prints a profile that was made of another one, or of a unit."""
    if options.json:
        output.put_json({"status": program.SUCCESS, "profile": profile, "remarks": remarks})
    else:
        output.put(text if options.kubernetes is None else kubernetes.printed(profile, options.kubernetes))
    return program.SUCCESS


def of_engine(data, options):
    """Prints what an engine, and the runtime that it uses, make of a profile."""
    words.refuse(options, OF_FILTERS, "speaks of filters, and this is a profile")
    if options.relation != verdicts.SAME:
        raise program.ToolError("--no-more and --no-less speak of filters, and this is a profile")
    remarks = []
    say = (lambda *texts: remarks.extend(texts)) if options.json else program.say
    value = engines.parse_json(data)
    setting = replace(options.setting, keeps_comments=getattr(data, "has_comments", False))
    if options.runtime is not None:
        given = runtimes.applied(value, options.runtime, setting, options.keep_first)
        say(*given.describe())
        profile = given.profile
    else:
        resolver = engines.Resolver(setting)
        try:
            profile = resolver.resolved(value, options.keep_first)
        finally:
            # (what is noted before it is refused)
            say(*engines.at_most(resolver.notes))
    if options.multiplexed:
        profile, _ = libseccomp.with_rules(profile, say)
    return put_profile(engines.printed(profile), profile, options, remarks)


def of_unit(options):
    """Prints what the settings of a unit, or those that are given, describe."""
    from scfhost import units  # pylint: disable=import-outside-toplevel

    words.refuse(options, (*OF_FILTERS[1:], *OF_ENGINES), "doesn't speak of a unit")
    remarks = []
    say = remarks.append if options.json else program.say
    name = options.inputs[0].removeprefix(inputs.UNIT) if options.inputs else None
    data = units.profile_of_unit(name, say, options)
    return put_profile(data, json.loads(data), options, remarks)


def judge(stack, options, architecture, table):
    """The profile of a stack of filters; remarks go to standard error."""
    others = [name for name in architectures.JUDGED if name != architecture.oci] if options.arch is None else []
    has_trap_data = options.runtime is None and options.kubernetes is None
    try:
        result = profile_of.of_filters(stack, options.relation, table, architecture, options.runtime, others,
                                       has_trap_data)
        text = result.text if options.kubernetes is None or result.status != program.SUCCESS else \
            kubernetes.printed(result.profiles[0].profile, options.kubernetes)
    except Refusal as why:
        sentences = [*explanation.explain_line(why.line)]
        if not options.json:
            program.say(why.line, *sentences)
        members = {"fault": why.fault.as_json(sentences)} if why.fault is not None else {}
        return Block(why.status, members=lambda: members)
    if options.json:
        remarks = [line[2:] for line in result.text.split("\n") if line.startswith("# ")]
        return Block(result.status, members=lambda: {"remarks": [*remarks, *result.remarks], "profiles": [
            {"relations": list(proved.relations), "profile": proved.profile} for proved in result.profiles]})
    program.say(*result.remarks)
    return Block(result.status, text.splitlines)


def main():
    options = read_words()
    if options.set is not None or options.inputs[0].startswith(inputs.UNIT):
        return of_unit(options)
    name, *others = options.inputs
    if others or operands.has_process(name):
        given = operands.read_stacks(options.inputs, options)
    else:
        data = inputs.read_input(name, "profile")
        if options.kind is not None or profile_inputs.looks_like_profile(data):
            return of_engine(profile_inputs.plain(inputs.whole(data, name, "engine's profile"), name), options)
        given = [filters.filter_in(name, data)]
    words.refuse(options, OF_ENGINES, "speaks of an engine's profile, and this is a filter")
    if options.runtime is not None and options.arch is not None:
        raise program.ToolError("give either --arch or --runtime, which confines this machine's syscalls whatever a "
                                "profile lists")
    architecture = architectures.judged_in(options.arch)
    table = tables.read_table(options.table, architecture)
    if isinstance(given, Inspection) and len(given.stacks) == 1 and given.stacks[0].filters and not options.json:
        # (so that standard output is the profile alone)
        program.say(*of_threads(given.stacks[0], given), *given.notes)
        given = given.stacks[0].named
    return put_blocks(given, lambda stack: judge(stack, options, architecture, table), options.json)
