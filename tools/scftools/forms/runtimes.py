"""Container runtimes: what decides beside a profile's words how runc and crun read it.

scf reads a profile as they do (`--reading`; RUNTIMES.md has the rules). The tools know the rest: which engine
resolves the profile before, what a runtime refuses beside it, the names that this machine's libseccomp knows, its rules
of socketcall and ipc, and where runc's stub begins.
"""
from __future__ import annotations

import functools
import json
import os
import types
from collections.abc import Iterator, Sequence

from ..base import inputs, program
from ..base.values import Any, by_key, dataclass, replace
from ..model import architectures, libseccomp, profiles, tables
from ..model.answers import MAX_ERRNO, Answer
from ..model.architectures import JUDGED, LITTLE_ENDIAN, NATIVE, NUMBERS, PREFIX
from ..model.profiles import FLAGS, SANDBOX, Refused
from ..cli.words import Parser
from . import engines, profile_inputs
from .engines import Origin, Setting, answer_of, excerpt, excerpts
from .profile_inputs import ProfileInput

RUNC, CRUN = "runc", "crun"
ERRNO, NOTIFY = "SCMP_ACT_ERRNO", "SCMP_ACT_NOTIFY"
# Actions of a default beside which runc's stub isn't put before the filter (isAllowAction of patchbpf).
WITHOUT_STUB = ("SCMP_ACT_ALLOW", "SCMP_ACT_LOG", "SCMP_ACT_TRACE")
# The most conditions of an entry that crun reads.
CRUN_CONDITIONS = 6
# Where runc is beside $PATH, and how long it may take to say what it takes, in seconds.
SYSTEM_FOLDERS, RUNC_SECONDS = "/usr/sbin:/usr/local/sbin", 10


# Of each runtime the version that was tried, and what it takes in the members of a profile that depend on it.
TRIED: dict[str, tuple[str, dict[str, Sequence[str]]]] = {
    RUNC: ("1.1.5", {"flags": (), "architectures": [name for name in NUMBERS if name.removeprefix(PREFIX) not in (
        "LOONGARCH64", "M68K", "PARISC", "PARISC64", "RISCV64", "SH", "SHEB")]}),
    CRUN: ("1.8.1", {"flags": FLAGS, "architectures": list(NUMBERS)})}


@functools.lru_cache(None)
def taken_by(program_name: str) -> tuple[str, dict[str, Sequence[str]]]:
    """The same of the installed runc, as `runc features` says (OCI's features-linux.md); else of the tried version."""
    import subprocess  # pylint: disable=import-outside-toplevel

    if program_name != RUNC:
        return TRIED[program_name]
    path = f"{os.environ.get('PATH', os.defpath)}:{SYSTEM_FOLDERS}"
    try:
        done = subprocess.run([RUNC, "features"], stdin=subprocess.DEVNULL, stdout=subprocess.PIPE, check=True,
                              stderr=subprocess.DEVNULL, timeout=RUNC_SECONDS, env={**os.environ, "PATH": path})
        features = json.loads(done.stdout)
        takes = features["linux"]["seccomp"]
        return features["annotations"]["org.opencontainers.runc.version"], {
            "flags": takes.get("supportedFlags") or (), "architectures": takes["archs"]}
    except (OSError, ValueError, LookupError, TypeError, subprocess.SubprocessError):
        return TRIED[RUNC]


@dataclass(frozen=True)
class Runtime:
    """A runtime by its users' name: the program, which names scf's reading, and the engine that resolves before."""

    name: str
    program: str
    engine: str | None = None


class OwnCalls:
    """What a runtime's program itself calls behind the filter before it executes the container's: as of which version;
    the calls without which no container starts if they are denied, or if they are answered by a kill; those of which
    the same is true without noNewPrivileges, where the filter is loaded earlier; and others."""

    def __init__(self, version: str, *listed: str):
        self.version, kinds = version, [names.split() for names in listed]
        self.denied, self.killed, self.denied_early, self.killed_early, _ = kinds
        self.names = sorted(sum(kinds, []))


# From the kernel's records of containers under a profile that logs, with and without noNewPrivileges, as root and as a
# user, with and without a terminal, and created and started by podman, and from the starts of containers under profiles
# that deny one of the calls, by EPERM, ENOSYS and a kill. runc is written in Go, whose own calls come and go; crun
# waits for the start in pselect6 and read.
OWN_CALLS = {
    RUNC: OwnCalls("1.1.5", "close execve fstatfs getdents64 openat write", "epoll_ctl getpid", "capget capset chdir "
                   "fstat getcwd getppid newfstatat prctl read setgid setgroups setuid", "faccessat2 fcntl",
                   "fchown futex"),
    CRUN: OwnCalls("1.8.1", "execve", "close", "capset prctl rt_sigaction rt_sigprocmask setresgid setresuid write",
                   "", "pselect6 read")}
RUNTIMES = {runtime.name: runtime
            for runtime in (Runtime(RUNC, RUNC), Runtime(CRUN, CRUN), Runtime("docker", RUNC, "docker"),
                            Runtime("podman", CRUN, "podman"))}
RUNTIME_HELP = ("read the profile as this runtime does (RUNTIMES.md): runc, crun: a container's config.json; docker, "
                "podman: also the engine's own list")


def add_option(parser: Parser, is_sandboxes: bool = False) -> None:
    """Adds `--runtime`; with the reading of a profile that says what a program's own sandbox answers."""
    parser.add_argument("--runtime", choices=(*RUNTIMES, *[SANDBOX] * is_sandboxes), help=RUNTIME_HELP)


def add_options(parser: Parser, without_caps: str = "podman for podman, or docker", is_sandboxes: bool = False) -> None:
    """Adds `--runtime`, and what says how an engine resolves a profile; without `--caps` for which capabilities."""
    add_option(parser, is_sandboxes)
    parser.value("--engine", None, "the engine whose rules resolve the profile: Docker since 23.0, Docker 20.10 or "
                 "podman [default: that of --runtime, or all members that one of them reads]",
                 choices=tuple(engines.ENGINES))
    parser.value("--caps", "LIST", "the container's capabilities, such as CAP_KILL,SYS_ADMIN; docker, podman and none "
                 f"are sets, as in docker,SYS_ADMIN [default: {without_caps}]")
    parser.value("--kernel", "X.Y", "the kernel that the engine runs on [default: this one]")
    parser.value("--arch-map", None, "which architectures of archMap are passed on: the machine's own, or all "
                 "[default: all, as the engine does]", choices=("native", "all"))
    parser.value("--ignore", "MEMBER", "ignore a member of entries that no engine reads, which may be a condition",
                 action="append")


def is_engines(options: Any) -> bool:
    return any(getattr(options, name, None) is not None
               for name in ("engine", "caps", "kernel", "arch_map", "ignore", "machine"))


def setting_of_words(options: Any, parser: Parser) -> Setting:
    engine = options.engine or (RUNTIMES[options.runtime].engine if options.runtime in RUNTIMES else None)
    caps = options.caps if options.caps is not None else "podman" if engine == "podman" else "docker"
    try:
        return replace(engines.setting_of(caps, engine, getattr(options, "machine", None), options.kernel),
                       is_native=options.arch_map == "native", ignored=options.ignore or ())
    except Refused as why:
        parser.error(str(why))


def _short_errno(holder: dict[str, Any], name: str) -> dict[str, int]:
    """The member of an errno, of which libseccomp takes 16 bits."""
    return {} if holder.get(name) is None else {name: holder[name] & 0xFFFF}


class _Application:
    """Makes what a runtime is given of a profile that was resolved in a setting."""

    def __init__(self, runtime: Runtime, setting: Setting):
        self.runtime, self.setting, self.native = runtime, setting, engines.MACHINE_NAMES[setting.machine]
        self.is_runc = runtime.program == RUNC
        self.most_conditions = None if self.is_runc else CRUN_CONDITIONS
        self.library = libseccomp.installed()
        # a name's number on an architecture: by the library, or without one by the tables
        self.number_of = _number_in_tables if self.library is None else self.library.number_of
        self.remarks: list[str] = []
        self.unknown: dict[str, None] = {}

    def refuse(self, why: str) -> None:
        raise Refused(f"{self.runtime.program} refuses the profile: {why}")

    def check_action(self, action: str, number: int | None, where: str) -> None:
        """Refuses an action, or its errno, that the runtime or libseccomp refuses."""
        if action not in profiles.OCI_ACTIONS:
            self.refuse(f"{where} has an unknown action: '{excerpt(action)}'")
        if number is None:
            return
        if action not in profiles.WITH_ERRNO:
            if not self.is_runc:
                self.refuse(f"{where} has an errno beside {action}")
            if not any(remark.startswith("an errno") for remark in self.remarks):
                self.remarks.append("an errno beside an action that takes none is ignored: the first is that of "
                                    f"{where}")
        elif not self.is_runc and number >= 1 << 32:
            self.refuse(f"the errno {number} of {where}")
        elif action == ERRNO and number & 0xFFFF >= MAX_ERRNO:
            self.refuse(f"libseccomp takes no errno above {MAX_ERRNO - 1}, and {where} has {number & 0xFFFF}")

    def check_members(self, given: dict[str, Any]) -> None:
        """Refuses architectures and flags that libseccomp or the runtime refuses."""
        for name in given.get("architectures", ()):
            if name not in NUMBERS:
                self.refuse(f"it knows no architecture '{excerpt(name)}'")
            if not NUMBERS[name] & LITTLE_ENDIAN:
                self.refuse(f"libseccomp takes no big-endian architecture, as {name}, beside {self.native}")
            if self.library is not None and not self.library.has_architecture(name):
                self.refuse(f"this machine's libseccomp {self.library.version} doesn't know {name}")
        for member, taken in TRIED[self.runtime.program][1].items():
            for name in (name for name in given.get(member, ()) if name not in taken):
                version, takes = taken_by(self.runtime.program)
                if name not in takes[member]:
                    self.refuse(f"version {version} doesn't take '{excerpt(name)}' in {member}")

    def entry_of(self, entry: dict[str, Any], where: str) -> dict[str, Any]:
        """An entry as libseccomp is given it, without the names that it doesn't know; and of an errno the 16 bits."""
        self.check_action(entry["action"], entry.get("errnoRet"), where)
        if self.is_runc and "" in entry["names"]:
            self.refuse(f"a name of {where} is empty")
        numbers = {name: self.number_of(name, self.native) for name in entry["names"]}
        self.unknown.update({name: None for name, number in numbers.items() if number is None})
        count, most = len(entry.get("args", ())), self.most_conditions
        if most is not None and count > most:
            self.remarks.append(f"{where} has {count} conditions, of which crun takes the first {most}")
        names = [name for name, number in numbers.items() if number is not None]
        return {**entry, "names": names, **_short_errno(entry, "errnoRet")}

    def notes_on(self, profile: dict[str, Any], origins: Sequence[Origin]) -> Iterator[str]:
        """Which entries the runtime reads otherwise than by their words (Readings.antt has the rules)."""
        who, default = self.runtime.program, answer_of(profile["defaultAction"], profile.get("defaultErrnoRet"))
        handed: list[tuple[Sequence[str], Answer, Origin]] = []
        unconditional: dict[str, tuple[Answer, Origin]] = {}
        for entry, origin in zip(profile["syscalls"], origins):
            answer = answer_of(entry["action"], entry.get("errnoRet"))
            if answer == default:
                yield f"{who} leaves out {origin.describe()}: its answer is the default's"
                continue
            handed.append((entry["names"], answer, origin))
            conditions = entry.get("args", [])[:self.most_conditions]
            is_repeated = len({condition.get("index", 0) for condition in conditions}) < len(conditions)
            if is_repeated:
                yield f"{who} reads the conditions of {origin.describe()} as alternatives: two are on one argument"
            # those that every syscall meets, since they compare nothing: masks without a bit
            are_met = [condition.get("op") == "SCMP_CMP_MASKED_EQ" and not condition.get("value")
                       for condition in conditions]
            if any(are_met) if is_repeated else all(are_met):
                for name in entry["names"]:
                    unconditional.setdefault(name, (answer, origin))
        for names, answer, origin in handed:
            covering = ((name, *unconditional.get(name, (answer, origin))) for name in names)
            covered = by_key((first.index, name) for name, first_answer, first in covering if first_answer != answer)
            for index, covered_names in covered.items():
                yield (f"{who} leaves {excerpts(covered_names)} out of entry {origin.index}: entry {index}, which has "
                       "no conditions, covers all such syscalls")

    def stub_of(self, profile: dict[str, Any]) -> dict[str, int]:
        """By architecture the least number of a record that runc answers with ENOSYS (findLastSyscalls of patchbpf)."""
        if not self.is_runc or profile["defaultAction"] in WITHOUT_STUB:
            return {}
        names = {name for entry in profile["syscalls"] for name in entry["names"]}
        greatest = {architecture: max([self.number_of(name, architecture) or 0 for name in names], default=0)
                    for architecture in JUDGED if architecture in profile.get("architectures", ())}
        return {architecture: number + 1 for architecture, number in greatest.items() if number > 0}

    def read_as(self, handed: dict[str, Any]) -> profiles.DerivedProfile:
        """The text of a profile that the runtime reads, and of which names libseccomp makes no rule where."""
        data = profiles.DerivedProfile(engines.to_bytes(handed))
        data.reading = self.runtime.program
        names = {name for entry in handed["syscalls"] for name in entry["names"]}
        confined = {self.native, architectures.machine_architecture(), *handed.get("architectures", ())}
        for architecture in confined.intersection(JUDGED):
            table = tables.architecture_table(architecture) or tables.Table(b"")
            absent = frozenset(name for name in names.intersection(table.names())
                               if (self.number_of(name, architecture) or 0) < 0
                               and not libseccomp.is_multiplexed(name, architecture))
            if absent:
                data.absent = {**data.absent, architecture: absent}
        return data

    def run(self, resolved: ProfileInput) -> ProfileInput:
        """A resolved profile as the runtime is given it. Raises Refused."""
        profile, origins = resolved.profile, resolved.origins or ()
        self.check_action(profile["defaultAction"], profile.get("defaultErrnoRet"), "the default")
        if self.is_runc:
            # a supervisor answers NOTIFY's calls
            if profile["defaultAction"] == NOTIFY:
                self.refuse(f"{NOTIFY} can't be the default action")
            for entry, origin in zip(profile["syscalls"], origins):
                if entry["action"] == NOTIFY and "write" in entry["names"]:
                    self.refuse(f"entry {origin.index} has write with {NOTIFY}")
                if entry["action"] == NOTIFY and "listenerPath" not in profile:
                    self.refuse(f"it has {NOTIFY} and no listenerPath")
        entries = [(self.entry_of(entry, f"entry {origin.index}"), origin)
                   for entry, origin in zip(profile["syscalls"], origins)]
        given = {**profile, **_short_errno(profile, "defaultErrnoRet"),
                 "syscalls": [entry for entry, _ in entries if entry["names"]]}
        if not self.is_runc and "architectures" in profile:
            # crun takes them in small letters, and without the prefix
            given["architectures"] = [PREFIX + name.removeprefix(PREFIX).upper() for name in profile["architectures"]]
        self.check_members(given)
        if given.get("architectures") and self.native not in given["architectures"]:
            self.remarks.append(f"{JUDGED[self.native].name} syscalls are confined too, though architectures lacks "
                                f"{self.native}")
        if self.library is None:
            self.remarks.append("libseccomp.so.2 isn't installed: names that the runtime's own doesn't know may be "
                                "left in")
        elif self.unknown:
            self.remarks.append(f"left out, since this machine's libseccomp {self.library.version} doesn't know "
                                f"them: {excerpts(list(self.unknown))}")
        handed, places = libseccomp.with_rules(given, most=self.most_conditions)
        given_origins = [origin for entry, origin in entries if entry["names"]]
        if self.setting.engine is not None and self.setting.source is not None:
            names = ", ".join(capability[4:] for capability in self.setting.capabilities) or "none"
            self.remarks.append(f"resolved for the capabilities of {self.setting.source}: {names}")
        notes = dict.fromkeys([*resolved.notes[:engines.MAX_NOTES], *self.notes_on(given, given_origins)])
        return ProfileInput(self.read_as(handed), [given_origins[place] for place in places], self.stub_of(given),
                            origins, self.runtime, given, self.remarks, list(notes))


def _number_in_tables(name: str, architecture: str) -> int | None:
    """A name's number in a table of scf's, as in a record; below 0 if only other tables have it, None if none has."""
    native = tables.architecture_table(NATIVE) or tables.Table(b"")
    numbers = tables.architecture_tables(JUDGED, native).numbers_of(name)
    if architecture in numbers:
        return JUDGED[architecture].first + numbers[architecture]
    return -1 if numbers else None


def _refuse_engines(seccomp: Any, program_name: str) -> None:
    """Refuses what only engines read, where there is none."""
    top = seccomp if isinstance(seccomp, dict) else {}
    entries = [entry for _, entry in profiles.objects_in(top, "syscalls")]
    unread = [name for name in ("archMap", "defaultErrno") if top.get(name)]
    unread += [name for name in ("includes", "excludes", "name", "errno") if any(entry.get(name) for entry in entries)]
    if unread:
        engine = "podman" if program_name == RUNC else "docker"
        raise Refused(f"{program_name} doesn't read {unread[0]}: it is an engine's profile, which --runtime docker "
                      "resolves for runc, --runtime podman for crun, and `scf resolve-profile --engine "
                      f"{engine} --runtime {program_name}` for {engine} with {program_name}")


def applied(value: Any, name: str, setting: Setting | None = None, keeps_first: bool = False) -> ProfileInput:
    """The profile as the runtime of a name is given it, of a profile's value, or of a whole config.json, that
    `engines.parse_json` read; on request without later answers to a syscall. Raises Refused if the runtime, or the
    engine before it, refuses it or reads it otherwise than it is spelled."""
    runtime = RUNTIMES[name]
    setting = setting or engines.setting_of(None, runtime.engine)
    is_config = isinstance(value, dict) and value.get("linux") is not None
    if is_config and value.get("defaultAction") is not None:
        raise Refused("both defaultAction and linux are at the top: is it a profile or a config.json?")
    if is_config or setting.engine is None:
        # of a whole config.json the engine has done its part, and the other members aren't read
        setting = replace(setting, engine=None, ignored=None)
        _refuse_engines(engines.seccomp_of(value), runtime.program)
    return _Application(runtime, setting).run(profile_inputs.resolved(value, setting, keeps_first))


def as_read(value: dict[str, Any], reading: str) -> ProfileInput:
    """A resolved profile of this value in a reading: with the rules and the stub that its runtime makes."""
    is_by_words = reading in profiles.BY_WORDS
    return ProfileInput(profiles.read_as(engines.to_bytes(value), reading)) if is_by_words else applied(value, reading)


def applied_in(data: bytes, path: str, name: str | None, setting: Setting, is_strict: bool | None) -> ProfileInput:
    """The profile that was read of a file, as a runtime is given it, or without one as an engine resolves it; ends the
    tool where it refuses it, or if strict for members that nothing reads; without a word on these if that is None."""
    data = profile_inputs.plain(data, path)
    try:
        value = engines.parse_json(data)
        given = profile_inputs.resolved(value, setting, True) if name is None else applied(value, name, setting)
    except Refused as why:
        raise program.ToolError(f"{inputs.label(path)}: {why}") from why
    if name is not None and is_strict is not None:
        profile_inputs.tell_unread(data, path, is_strict)
    return given


def words_of(options: Any) -> tuple[Runtime | None, str | None, str | None]:
    """The runtime, capabilities and machine by which a command line has profiles read, if they go together."""
    name, caps, machine = (getattr(options, word, None) for word in ("runtime", "caps", "machine"))
    runtime = RUNTIMES.get(name)
    has_engine = runtime is not None and runtime.engine is not None
    if machine is not None and caps is None and not has_engine:
        raise program.ToolError("--machine goes with an engine's profile: give --caps, or --runtime docker or podman, "
                                "too")
    if caps is not None and name is not None and not has_engine:
        how = "" if runtime is None else f": `scf resolve-profile --runtime {name} --engine .. --caps ..` makes it"
        raise program.ToolError(f"--caps resolves an engine's profile, and --runtime {name} takes a resolved one{how}")
    return runtime, caps, machine


def text_of(name: str, options: Any) -> bytes:
    """The text of a profile. Of a text that is too long scf says so, if it gets it."""
    return profile_inputs.read_text(name, None if words_of(options)[:2] == (None, None) else "profile")


def input_in(data: bytes, name: str, options: Any, is_strict: bool | None = False) -> ProfileInput:
    """The profile in what was read of an input, as a command line has it read; prints what is to be known of that. If
    `is_strict` is None, members that nothing reads, and that only engines do, are neither told nor refused."""
    runtime, caps, machine = words_of(options)
    if runtime is None and caps is None:
        given = ProfileInput(data) if is_strict is None else profile_inputs.profile_in(data, name, False, is_strict)
        return given.read_by(getattr(options, "runtime", None))
    data = inputs.whole(data, name, "profile")
    # (what is no profile of an engine's is told before its capabilities)
    data = data if runtime is not None else profile_inputs.plain(data, name)
    setting = engines.setting_of(caps, runtime and runtime.engine, machine)
    given = applied_in(data, name, runtime and runtime.name, setting, is_strict)
    if runtime is None:
        more = "" if machine is None else f" --machine {machine}"
        given = replace(given, notes=(), remarks=[
            f"{inputs.label(name)} is resolved as by resolve-profile --keep-first --caps {caps}{more}, which says what "
            f"is left out; entries that remain: {len(given.profile['syscalls'])}"])
    program.say(*given.describe())
    return given


def read_profile(name: str, caps: str | None = None) -> ProfileInput:
    """A profile by its words, or an engine's for a container with these capabilities."""
    data = profile_inputs.read_text(name, None if caps is None else "engine's profile")
    return input_in(data, name, types.SimpleNamespace(caps=caps))
