"""Profiles as commands take them: a profile or a whole config.json, Kubernetes' SeccompProfile objects (of the Security
Profiles Operator), whose spec is one, lists of other sandboxes, and with --caps an engine's own. What is known to be
something else is refused, and named."""
from __future__ import annotations

import re
from collections.abc import Callable, Iterator, Sequence

from ..base import inputs, output, program
from ..base.values import Any, Pattern, dataclass, field, replace
from ..model import bpf, profiles, tables
from ..model.architectures import JUDGED, NATIVE
from ..model.profiles import SANDBOX, DerivedProfile, Origin
from ..ask.explanation import join_names
from . import engines, kubernetes

# What other commands print of a container, by members that it has, and what to take instead.
INSPECTIONS = (
    ("crictl inspect", (b'"runtimeSpec"', b'"defaultAction"'), "its .info.runtimeSpec, as with jq"),
    ("podman inspect", (b'"HostConfig"', b'"OCIConfigPath"'),
     "the file that `podman inspect -f '{{.OCIConfigPath}}' NAME` names"),
    ("docker inspect", (b'"HostConfig"',), "/run/containerd/io.containerd.runtime.v2.task/moby/ID/config.json, as long "
                                           "as the container runs"))
ID = Pattern(rb'"Id":\s*"([0-9a-f]{64})"')
# A mark, blanks and comments before an object; and how what isn't an object begins that is meant as a profile.
BEFORE_JSON = Pattern(rb"\A(?:\xef\xbb\xbf|\s|#[^\n]*\n|//[^\n]*\n|/\*.*?\*/)*", re.S)
IN_OTHER_FORMS = Pattern(rb'\[\s*\{\s*"|(?:defaultAction|architectures|syscalls):\s')


@dataclass(frozen=True)
class ProfileInput:
    """A profile for scf: as it stands in a file, as an engine resolves it, or as a runtime is given it."""

    data: bytes
    # where each entry of one that was resolved comes from in the user's file
    origins: Sequence[Origin] | None = None
    # by the OCI name of an architecture, the least number of a record that runc answers with ENOSYS
    stub: dict[str, int] = field(default_factory=dict)
    # the entries that an engine passes on to a runtime, also those of which libseccomp knows no name
    passed_on: Sequence[Origin] = ()
    # the runtime, and the profile without names that libseccomp doesn't know, and without libseccomp's rules for i386
    runtime: Any = None
    profile: dict[str, Any] = field(default_factory=dict)
    # what is to be known of the whole; and entry by entry, what an engine left out or the runtime reads otherwise
    remarks: Sequence[str] = ()
    notes: Sequence[str] = ()

    @property
    def places(self) -> list[int] | None:
        """The index of each entry in the user's file, if it was resolved."""
        return None if self.origins is None else [origin.index for origin in self.origins]

    def read_by(self, runtime: str | None) -> ProfileInput:
        """The same, read with TRAP's data if that is what `--runtime` names."""
        return self if runtime != SANDBOX else replace(self, data=profiles.read_as(self.data, SANDBOX))

    @property
    def parts(self) -> list[ProfileInput]:
        """The profile, and those that the file has for other architectures."""
        others = self.data.others if isinstance(self.data, DerivedProfile) else ()
        reading = profiles.reading_of(self.data)
        return [self, *(replace(self, data=profiles.read_as(other, reading)) for other in others)]

    def judged(self, table: tables.Table, is_native: bool, architecture: str = NATIVE) -> tables.Tables:
        """The tables that it is judged by, with this one of an OCI architecture, and how it is read."""
        return replace(tables.tables_of_profile(self.data, table, is_native, architecture), stub=self.stub)

    def stub_notes(self, stub: dict[str, int]) -> Iterator[str]:
        """The notes on a filter that begins with a stub at these numbers."""
        yield stub_note(stub)
        names = {name for entry in self.profile["syscalls"] for name in entry["names"]}
        for architecture, first in stub.items():
            row, table = JUDGED[architecture], tables.architecture_table(architecture) or tables.Table(b"")
            covered = sorted(name for name in names & table.names().keys() if row.first + table.names()[name] >= first)
            if covered:
                yield (f"so it answers {row.name}'s {output.some(covered, engines.MAX_LISTED)}, though the profile "
                       "names them, unless socketcall or ipc makes them: libseccomp tells runc no number of theirs")

    def describe(self) -> Iterator[str]:
        yield from engines.at_most(self.notes)
        yield from self.remarks
        if self.stub:
            first, *more = self.stub_notes(self.stub)
            yield f"not in the profile: {first}"
            yield from more


def stub_note(stub: dict[str, int]) -> str:
    """The note on a filter that begins with runc's stub."""
    firsts = [("" if name == NATIVE else f"of {JUDGED[name].name} ") + f"from {first - JUDGED[name].first} on"
              for name, first in stub.items()]
    return f"runc answers the numbers {join_names(firsts)}, above all that the profile names, with ENOSYS"


def sandbox_of(data: bytes) -> tuple[str, Callable[[bytes], Any]] | None:
    """What the list of a sandbox is called that a text is, and its reader, which makes a `Policy` or raises ToolError;
    None of JSON and of a raw filter."""
    if data.lstrip(b" \t\r\n")[:1] in (b"{", b"[") or b"\0" in data:
        return None
    from .lists import firejail, lxc, snapd  # pylint: disable=import-outside-toplevel

    signs = ((lxc.SIGN, "an LXC policy", lxc.read_lxc_policy),
             (snapd.SIGN, "a snap's seccomp template", snapd.read_snap_template),
             (firejail.SIGN, "a firejail profile", firejail.read_firejail_profile))
    return next(((kind, read) for sign, kind, read in signs if sign.search(data)), None)


def looks_like_profile(data: bytes) -> bool:
    """Whether an input is meant as a profile, not as a filter: an object, which no C array is, if only behind what JSON
    doesn't allow; YAML, or a sandbox's list."""
    if bpf.are_codes(data):
        return False
    text = data if data.startswith(b"{") else BEFORE_JSON.sub(b"", data, 1)
    first = text[1:].lstrip()[:4]
    is_object = text[:1] == b"{" and not (first[:1].isdigit() or first.startswith((b"{", b"(", b"BPF_")))
    return bool(is_object or IN_OTHER_FORMS.match(text) or kubernetes.is_yaml(data) or sandbox_of(data))


def plain(data: bytes, name: str) -> bytes:
    """A profile as runtimes read it: a SeccompProfile's spec, a list's rules, else as it is. Refuses what isn't one."""
    label = inputs.label(name)
    if data.startswith(b"\x7fELF"):
        raise program.ToolError(f"{label} is an ELF file (a program, library or object), not a profile")
    if bpf.are_codes(data):
        raise program.ToolError(f"{label} is a raw filter, not a profile: `scf surface` says what it allows, and "
                                "`scf profile-of` prints its profile")
    for command, members, instead in INSPECTIONS if data.lstrip().startswith((b"[", b"{")) else ():
        if all(member in data for member in members):
            match = ID.search(data)
            instead = instead.replace("/ID/", f"/{match[1].decode()}/") if match else instead
            raise program.ToolError(f"{label} is what `{command}` prints: take {instead}")
    kind, read = sandbox_of(data) or ("", None)
    if read is not None:
        try:
            policy = read(data)
            profile, notes = policy.data(), list(policy.notes())
        except program.ToolError as why:
            raise program.ToolError(f"{label}, {kind}: {why}", why.status) from why
        program.say(f"{label} is {kind}: its rules are the profile", *engines.at_most(notes))
        return profile
    try:
        spec = kubernetes.spec_of(data)
    except profiles.Refused as why:
        raise program.ToolError(f"{label}: {why}") from why
    if spec is None:
        return data
    program.say(f"{label} is a {kubernetes.KIND} of Kubernetes: its spec is the profile")
    profile = DerivedProfile(spec)
    profile.within = "spec"
    return profile


def read_text(name: str, kind: str | None = None) -> bytes:
    """The text of a profile of a file, pipe or unit. One too long is refused if a kind is given, or else by scf."""
    if name.startswith(inputs.UNIT):
        from scfhost import units  # pylint: disable=import-outside-toplevel

        data = units.profile_of_unit(name.removeprefix(inputs.UNIT), program.say)
        inputs.keep(name, data)
        return data
    if name.startswith(inputs.PROCESS):
        raise program.ToolError(f"'{name}' is a process, not a profile: `scf profile-of {name}` prints the profile of "
                                "its filters")
    return inputs.read_input(name, "profile") if kind is None else inputs.read_whole(name, kind)


def tell_unread(data: bytes, path: str, is_strict: bool) -> None:
    """Says which members of a profile aren't read, which may be misspelt; or refuses it."""
    of_spec = ("baseProfileName", "disabled") if isinstance(data, DerivedProfile) else ()
    unread = [member for member in profiles.unread_members(data) if member[1] not in of_spec]
    if not unread:
        return
    where, name, known_names = unread[0]
    near = tables.nearest_member(name, known_names)
    nearest = f"; the nearest is '{near}'" if near is not None else ""
    others = f", and of {len(unread) - 1} more" * (len(unread) > 1)
    remark = f"{inputs.label(path)}: nothing reads the member '{output.cut(name)}' of {where}{others}{nearest}"
    if is_strict:
        raise program.ToolError(remark)
    program.say(remark)


def profile_in(data: bytes, name: str, is_runtimes: bool = False, is_strict: bool = False) -> ProfileInput:
    """The profile in what was read of an input, by its words. Refuses one with members that only podman reads otherwise
    than scf, or, if a runtime is said to apply it, that any program in Go does; and if strict, with members that
    nothing reads. scf itself refuses the other members of engines, and what is too long."""
    if len(data) > inputs.LIMITS["profile"]:
        return ProfileInput(data)
    data = plain(data, name)
    remark = profiles.errno_by_name(data)
    if remark is not None:
        hint = "--runtime podman takes it" if is_runtimes else "scf resolve-profile resolves it"
        raise program.ToolError(f"{remark}, which only podman reads: {hint}")
    misread = profiles.misread_members(data) if is_runtimes else []
    if misread:
        raise program.ToolError(misread[0].describe())
    tell_unread(data, name, is_strict)
    return ProfileInput(data)


def resolved(value: Any, setting: engines.Setting, keeps_first: bool = False) -> ProfileInput:
    """The profile that an engine makes of a value; on request without later answers to a syscall. Raises Refused."""
    resolver = engines.Resolver(setting)
    profile = resolver.resolved(value, keeps_first)
    return ProfileInput(DerivedProfile(engines.to_bytes(profile)), resolver.origins, profile=profile,
                        notes=resolver.notes)
