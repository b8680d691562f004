"""systemd units: their syscall settings, as systemd shows them, and the profiles of these: what all filters answer
together that systemd adds.

The rules are those of systemd.exec(5). SystemCallFilter= is a list of what is allowed, or after `~` of what is denied,
by SystemCallErrorNumber= or by an errno of its own. SystemCallLog= is a list of what is logged, or after `~` of what
isn't. SystemCallArchitectures= are the architectures of which calls are permitted, beside the native one; where it is
empty, all of them are. What other settings deny stands in unit_restrictions.py. They may deny something else on i386
than on x86-64 and x32, which one profile can't say: then there are two.
"""
from __future__ import annotations

import functools
import itertools
import json
import os
from collections.abc import Callable, Collection, Iterator, Sequence

from scftools.base import output, program
from scftools.base.values import Any, by_key, dataclass, field, unless_refused
from scftools.model import architectures, libseccomp
from scftools.model.answers import ALLOW, ENOSYS, KILL_PROCESS, Answer
from scftools.model.architectures import NATIVE
from scftools.model.profiles import DerivedProfile
from scftools.ask.explanation import join_names
from scftools.forms.lists import unit_restrictions
from scftools.forms.lists.sandbox_rules import Policy, Rule
from scftools.forms.lists.unit_restrictions import (
    KILL_NUMBERS, Alternative, Restriction, SettingError, answer_of_errno)

PROPERTIES = ("Id", "MainPID", "LoadState", "NeedDaemonReload", "FragmentPath", "DropInPaths", "SystemCallFilter",
              "SystemCallErrorNumber", "SystemCallArchitectures", "SystemCallLog",
              *unit_restrictions.RESTRICTION_PROPERTIES)
# The manager's version, which is added to what a unit shows; and the first one that is known to allow write(2) in each
# list, and in an allow-list to deny what systemd doesn't know by ENOSYS (apply_syscall_filter of exec-invoke.c, and
# override_default_action of seccomp-util.c).
MANAGER_VERSION, WITH_ENOSYS = "Version", (257, 13)
# The sections of those units that run processes (systemd.exec(5)).
SECTIONS = {kind: f"[{kind.capitalize()}]" for kind in ("service", "socket", "mount", "swap")}
# What each allow-list has beside what it names.
IMPLIED = "@default"
# The names of ConditionArchitecture= and SystemCallArchitectures=, and those of the OCI specification.
OCI_NAMES = {name: f"SCMP_ARCH_{oci}" for name, oci in (
    ("native", "X86_64"), ("x86-64", "X86_64"), ("x86", "X86"), ("x32", "X32"), ("arm", "ARM"), ("arm64", "AARCH64"),
    ("loongarch64", "LOONGARCH64"), ("mips", "MIPS"), ("mips64", "MIPS64"), ("mips64-n32", "MIPS64N32"),
    ("mips-le", "MIPSEL"), ("mips64-le", "MIPSEL64"), ("mips64-le-n32", "MIPSEL64N32"), ("parisc", "PARISC"),
    ("parisc64", "PARISC64"), ("ppc", "PPC"), ("ppc64", "PPC64"), ("ppc64-le", "PPC64LE"), ("riscv64", "RISCV64"),
    ("s390", "S390"), ("s390x", "S390X"))}
# What an x86-64 kernel runs, of which systemd filters each.
LOCAL = (NATIVE, "SCMP_ARCH_X86", "SCMP_ARCH_X32")
# The most bytes of what a command of systemd prints, and the deepest nesting of groups.
MOST_PRINTED_BYTES, DEEPEST_GROUP = 1 << 20, 16
# The most bytes of a unit's file, and the most names that are listed as left out.
MOST_FILE_BYTES, MOST_TOLD = 1 << 20, 20


@dataclass
class CallList:
    """The calls of SystemCallFilter= or SystemCallLog=, each with an answer of its own or None. A list that is inverted
    names what is denied, or isn't logged. In one that isn't, a call with an answer is denied."""

    is_inverted: bool
    calls: dict[str, Answer | None] = field(default_factory=dict)


@dataclass
class UnitSettings:
    """A unit's settings; lists that aren't set are None."""

    filter: CallList | None
    refusal: Answer = KILL_PROCESS
    architectures: Sequence[str] = ()
    log: CallList | None = None
    # other settings that deny something, each with its text, and the version of systemd
    restrictions: dict[str, str] = field(default_factory=dict)
    version: str = ""
    # of an allow-list the names that `refusal` is for, while others get ENOSYS; None if it is for all
    known_names: Collection[str] | None = None

    @property
    def have_filters(self) -> bool:
        """Whether systemd adds any filter for them."""
        return bool(self.filter is not None or self.log is not None or self.restrictions
                    or set(LOCAL) - set(self.architectures))

    @property
    def doubt(self) -> str | None:
        """Why a process may have other filters than these settings tell, if it may."""
        if not self.restrictions or unit_restrictions.is_modelled(self.version):
            return None
        names = ", ".join(f"{name}=" for name in self.restrictions)
        version = f"systemd {self.version[:64]}" if self.version else "a systemd of unknown version"
        return f"the rules of {names} are known of systemd {unit_restrictions.VERSIONS}, and this is {version}"

    def answer_of(self, name: str | None, first: str | None = None) -> Answer:
        """The lists' answer to a syscall, whose name is None if none has it. A list that has `first` goes by that."""
        if self.filter is not None:
            listed_name = first if first in self.filter.calls else name
            errno_answer = self.filter.calls.get(listed_name) if listed_name is not None else None
            if errno_answer is not None or (listed_name in self.filter.calls) == self.filter.is_inverted:
                is_known = self.known_names is None or listed_name in self.known_names
                return errno_answer or (self.refusal if is_known else ENOSYS)
        is_logged = self.log is not None and (name in self.log.calls or first in self.log.calls) != self.log.is_inverted
        return Answer("LOG", 0) if is_logged else ALLOW


def architectures_of(text: str) -> list[str]:
    """The architectures of a profile by SystemCallArchitectures=: the native one, and those that it names."""
    words = text.split()
    for word in words:
        if word not in OCI_NAMES:
            raise SettingError(f"'{word[:64]}' isn't an architecture")
    return list(dict.fromkeys([NATIVE, *(OCI_NAMES[word] for word in words)])) if words else list(LOCAL)


class ListReader:
    """Reads lists of syscalls; asks for groups if a list names one, and reports what is left out. A name that systemd's
    libseccomp doesn't know is left out, as systemd does; without a libseccomp, none is."""

    def __init__(self, groups: Callable[[], dict[str, list[str]]], tell: Callable[[str], None],
                 is_call: Callable[[str], bool] = lambda name: True, is_lenient: bool = False) -> None:
        self.groups = functools.cache(groups)
        self.tell = tell
        self.is_call = is_call
        # whether a word that systemd leaves out is left out, and not refused
        self.is_lenient = is_lenient
        # the names that are left out, in their order
        self.unknown_names: dict[str, None] = {}

    def calls_of(self, name: str, depth: int = 0) -> Iterator[str]:
        """The calls of a name, which may be a group's."""
        if not name.startswith("@") and self.is_call(name):
            yield name
        elif not name.startswith("@"):
            self.unknown_names[name] = None
        elif name not in self.groups():
            self.tell(f"{name} left out: systemd knows no such group")
        elif depth > DEEPEST_GROUP:
            raise SettingError(f"the group {name} is nested too deep")
        else:
            for member in self.groups()[name]:
                yield from self.calls_of(member, depth + 1)

    def known_calls(self) -> list[str]:
        """The calls of x86-64 that systemd knows: those of @known, but not of the groups in it."""
        number_of = libseccomp.Library().number_of
        return [name for name in self.groups().get("@known", ())
                if (number := number_of(name)) is not None and number >= 0]

    def add(self, call_list: CallList, word: str, is_inverted: bool) -> None:
        """Adds a word of a list to what was listed before, or takes it away, as systemd merges assignments."""
        name, colon, text = word.partition(":")
        if colon and not is_inverted:
            self.tell(f"{word} left out: a syscall that is allowed takes no errno")
            return
        try:
            errno_answer = answer_of_errno(text) if colon else None
        except SettingError as why:
            if not self.is_lenient:
                raise
            self.tell(f"{word} left out: {why}")
            return
        for call in self.calls_of(name):
            if is_inverted == call_list.is_inverted or errno_answer is not None:
                call_list.calls[call] = errno_answer
            else:
                call_list.calls.pop(call, None)

    def assigned(self, values: Sequence[str], implied: Sequence[str] = (IMPLIED,)) -> CallList | None:
        """The list of several assignments in their order: the first one says of which kind it is."""
        call_list = None
        for value in values:
            if not value.strip():
                call_list = None
                continue
            is_inverted = value.startswith("~")
            words = value[is_inverted:].split()
            if call_list is None:
                call_list = CallList(is_inverted)
                words[:0] = () if is_inverted else implied
            for word in words:
                self.add(call_list, word, is_inverted)
        return call_list if call_list is None or call_list.calls or not call_list.is_inverted else None

    def tell_unknown(self) -> None:
        """Reports the names that were left out, since libseccomp doesn't know them."""
        if self.unknown_names:
            self.tell("left out, as by systemd, since libseccomp doesn't know them: "
                      + output.some(list(self.unknown_names), MOST_TOLD))

    def shown(self, text: str) -> CallList | None:
        """The list that `systemctl show` prints, in which groups are resolved; `~` alone is one that isn't set."""
        return self.assigned([text], ()) if text != "" else CallList(False)


def printed_by(words: Sequence[str]) -> str:
    import subprocess  # pylint: disable=import-outside-toplevel

    try:
        # (the last one for a container of the machine)
        done = subprocess.run(words, stdin=subprocess.DEVNULL, capture_output=True, check=False, env={
            **os.environ, "LC_ALL": "C", "SYSTEMD_COLORS": "0", "SYSTEMD_IGNORE_CHROOT": "1"})
    except OSError as error:
        raise program.ToolError(f"{words[0]} can't be run: {error.strerror}") from error
    if done.returncode:
        message = done.stderr.decode("utf-8", "backslashreplace").strip().split("\n")[0]
        raise program.ToolError(f"{words[0]} ended with status {done.returncode}" + (f": {message}" if message else ""))
    if len(done.stdout) > MOST_PRINTED_BYTES:
        raise program.ToolError(f"{words[0]} printed more than {MOST_PRINTED_BYTES} bytes")
    return done.stdout.decode("utf-8", "surrogateescape")


def all_groups() -> dict[str, list[str]]:
    """The groups of calls that `systemd-analyze syscall-filter` prints; a group may name others."""
    groups: dict[str, list[str]] = {}
    members: list[str] = []
    for line in printed_by(["systemd-analyze", "--no-pager", "syscall-filter"]).split("\n"):
        word = line.strip()
        if line.startswith("@"):
            members = groups.setdefault(word, [])
        elif word and not word.startswith("#"):
            members.append(word)
    return groups


def assignments_of(text: str, section: str, setting: str) -> Iterator[str]:
    """The values that a unit's file assigns to a setting of a section, in their order (systemd.syntax(7))."""
    begun, current = "", ""
    for line in text.split("\n"):
        if line.lstrip().startswith(("#", ";")):
            continue
        whole, begun = begun + line, ""
        if (len(whole) - len(whole.rstrip("\\"))) % 2:
            begun = f"{whole[:-1]} "
            continue
        name, equals, value = (part.strip() for part in whole.partition("="))
        if name.startswith("["):
            current = whole.strip()
        elif equals and name == setting and current == section:
            yield value


def files_of(shown: dict[str, str]) -> Iterator[str]:
    """The texts of a unit's files as systemd read them: its own, then drop-ins. Raises ValueError, as `denied_by`."""
    import shlex  # pylint: disable=import-outside-toplevel

    # (a tool in a container has another root than the machine; only root may look, and others see other processes)
    root = "" if unless_refused(True, os.path.samefile, "/proc/1/root", "/") else "/proc/1/root"
    for path in [shown.get("FragmentPath", ""), *shlex.split(shown.get("DropInPaths", ""))]:
        try:
            with open(root + path, "rb") as file:
                data = file.read(MOST_FILE_BYTES + 1)
        except OSError as error:
            raise ValueError(f"'{output.escaped(path)}' can't be read: {error.strerror}") from error
        if len(data) > MOST_FILE_BYTES:
            raise ValueError(f"'{output.escaped(path)}' has more than {MOST_FILE_BYTES} bytes")
        yield data.decode("utf-8", "surrogateescape")


def denied_by(shown: dict[str, str], allowed: CallList, reader: ListReader) -> dict[str, Answer | None]:
    """The syscalls that an allow-list denies with an errno of their own, as in `SystemCallFilter=~clone3:EINVAL`.
    systemd doesn't show them (property_get_syscall_filter of its core/dbus-execute.c), so the unit's files are read."""
    if shown.get("NeedDaemonReload") != "no":
        raise ValueError("its files changed since systemd read them; run systemctl daemon-reload")
    section = SECTIONS.get(shown.get("Id", "").rpartition(".")[2], "")
    values = [value for text in files_of(shown) for value in assignments_of(text, section, "SystemCallFilter")]
    if not any(value.startswith("~") and ":" in value for value in values):
        return {}
    lenient = ListReader(reader.groups, reader.tell, libseccomp.Library().knows, is_lenient=True)
    listed = lenient.assigned(values)
    lenient.tell_unknown()
    calls = listed.calls if listed is not None else {}
    answers = {call: answer for call, answer in calls.items() if answer is not None}
    if listed is None or listed.is_inverted or not allowed.calls.keys() <= calls.keys() - answers.keys():
        raise ValueError("the list in its files differs from the one that systemd shows")
    return answers


def _blocks(text: str) -> list[dict[str, str]]:
    return [{name: value for name, equals, value in (line.partition("=") for line in block.split("\n")) if equals}
            for block in text.split("\n\n")]


def shown_by_systemctl(names: Sequence[str]) -> list[dict[str, str]]:
    """The properties that systemctl shows of some units, by their names."""
    show = ["systemctl", "--no-pager", "show"]
    units = _blocks(printed_by([*show, *(f"--property={name}" for name in PROPERTIES), "--", *names]))
    if any(unit.get("SystemCallFilter", "~") != "~" or unit_restrictions.texts_in(unit) for unit in units):
        version = _blocks(printed_by([*show, f"--property={MANAGER_VERSION}"]))[0].get(MANAGER_VERSION, "")
        units = [{**properties, MANAGER_VERSION: version} for properties in units]
    return units


def settings_in(shown: dict[str, str], unit: str, reader: ListReader) -> UnitSettings:
    if shown.get("LoadState", "loaded") != "loaded":
        raise program.ToolError(f"the unit {unit} isn't loaded: {shown['LoadState']}")
    if "SystemCallFilter" not in shown:
        raise program.ToolError(f"the unit {unit} runs no processes of its own: it has no SystemCallFilter")
    call_list = reader.shown(shown["SystemCallFilter"])
    if call_list is not None and not call_list.is_inverted:
        try:
            call_list.calls.update(denied_by(shown, call_list, reader))
        except ValueError as why:
            raise program.ToolError("systemctl show doesn't print which syscalls the allow-list denies with an errno "
                                    f"of their own, and the unit's files don't say it: {why}",
                                    program.UNKNOWN) from why
    version, known_names = shown.get(MANAGER_VERSION, ""), None
    if call_list is not None and (unit_restrictions.numbers_of(version) or (0, 0)) >= WITH_ENOSYS:
        if call_list.is_inverted:
            call_list.calls.pop("write", None)
        else:
            call_list.calls["write"] = None
            known_names = reader.known_calls()
    settings = UnitSettings(call_list, answer_of_errno(shown.get("SystemCallErrorNumber", ""), KILL_NUMBERS),
                            architectures_of(shown.get("SystemCallArchitectures", "")),
                            reader.shown(shown.get("SystemCallLog", "~")), unit_restrictions.set_in(shown), version,
                            known_names)
    if "MemoryDenyWriteExecute" in settings.restrictions and unit_restrictions.is_by_prctl(version):
        del settings.restrictions["MemoryDenyWriteExecute"]
        reader.tell("MemoryDenyWriteExecute= is applied by prctl(2), and has no filter")
    return settings


def groups_of(settings: UnitSettings) -> list[list[str]]:
    """The architectures that a unit permits, together with those on which the same is denied; the native one first."""
    return list(by_key((repr(unit_restrictions.rules_of(settings.restrictions, oci)), oci)
                       for oci in settings.architectures).values())


def _answers_to(settings: UnitSettings, name: str, restriction: Restriction | None,
                is_multiplexer: bool) -> Iterator[tuple[Answer, Alternative]]:
    """The answers to a syscall with their conditions: the lists answer what they deny, and a restriction the rest.
    Where no list names i386's socketcall or ipc, libseccomp adds the rules of what these are called for, by argument
    0."""
    answer, allowed = settings.answer_of(name), [()]
    if is_multiplexer:
        answers = {number: settings.answer_of(call, name) for call, number in libseccomp.CALL_NUMBERS[name].items()}
        others = [number for number in answers if answers[number] != answer]
        yield from ((answers[number], conditions) for number in others
                    for conditions in unit_restrictions.among(0, [number]))
        allowed = unit_restrictions.outside(0, others) if others else allowed
    elif restriction is not None and not answer.denies:
        yield from ((restriction.answer, conditions) for conditions in restriction.denied)
        allowed = restriction.allowed
    yield from ((answer, conditions) for conditions in allowed)


def profile_of(settings: UnitSettings, group: Sequence[str]) -> str:
    """The text of the profile that the settings describe, for architectures of one group."""
    policy = Policy(settings.answer_of(None), architectures=group)
    rules = unit_restrictions.rules_of(settings.restrictions, group[0])
    multiplexers = libseccomp.CALL_NUMBERS if architectures.I386 in group else {}
    lists = [call_list.calls for call_list in (settings.filter, settings.log) if call_list is not None]
    for name in dict.fromkeys(itertools.chain(*lists, settings.known_names or (), rules, multiplexers)):
        answers = _answers_to(settings, name, rules.get(name), name in multiplexers)
        policy.rules += (Rule(name, answer, conditions) for answer, conditions in answers if answer != policy.default)
    return json.dumps(policy.profile(), indent=4) + "\n"


def _settings_of(name: str | None, options: Any, say: Callable[[str], None]) -> UnitSettings:
    """The settings of a unit, as systemctl shows them, or without a name those that a command line says."""
    reader = ListReader(all_groups, say)
    if name is not None:
        if not name or set(name) & set("*?[\0"):
            raise program.ToolError(f"'{name}' isn't the name of a unit")
        settings = settings_in(shown_by_systemctl([name])[0], name, reader)
    else:
        try:
            reader.is_call = libseccomp.Library().knows
        except program.ToolError as why:
            say(f"names that libseccomp doesn't know can't be left out, as systemd may do: {why}")
        settings = UnitSettings(reader.assigned(options.set), answer_of_errno(options.errno or "", KILL_NUMBERS),
                                architectures_of(options.unit_architectures or ""),
                                reader.assigned(options.log or (), ()))
    reader.tell_unknown()
    return settings


def profile_of_unit(name: str | None, say: Callable[[str], None], options: Any = None) -> DerivedProfile:
    """The profile of a unit, or of the settings that a command line says, for the architecture that it says. By default
    it is this one's, and `others` are those for architectures on which something else is denied."""
    wanted = architectures.judged_in((options and options.arch) or NATIVE)
    settings = _settings_of(name, options, say)
    groups = groups_of(settings)
    if options is not None:
        groups = [group for group in groups if wanted.oci in group]
        if not groups:
            raise program.ToolError(f"the unit permits no {wanted.name} syscalls")
        alike, others = (architectures.names_of([oci for oci in LOCAL if oci in settings.architectures
                                                 and (oci in groups[0]) == is_alike]) for is_alike in (True, False))
        if others:
            say(f"the profile is only for {join_names(alike)}: the unit denies other syscalls on {join_names(others)} "
                f"(--arch {others[0]})")
        if settings.filter is None:
            say("there is no SystemCallFilter: every syscall is allowed"
                + (" that no other setting denies" if settings.restrictions else ""))
    first, *others = (profile_of(settings, group).encode() for group in groups)
    if settings.doubt is not None:
        say(settings.doubt)
    profile = DerivedProfile(first)
    profile.others = tuple(others)
    return profile
