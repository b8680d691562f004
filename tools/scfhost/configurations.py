"""Containers' configurations (config.json): what is one, what it says of seccomp, whether it is a process's, and what
runc started the container with, as its state.json has that (configs.Seccomp of libcontainer/configs/config.go)."""
from __future__ import annotations

import os
from collections.abc import Sequence

from scftools.base import output, program
from scftools.base.values import Any, Pattern
from scftools.model import architectures, profiles
from scftools.forms import engines, runtimes
from .processes import Kernel
from .ptrace import PROC_PID_INIT_INO

# The configuration in a bundle.
CONFIG = "config.json"
# The identifiers that engines give containers, and how many digits of them they show.
IDENTIFIER, SHORT = Pattern("(?<![0-9a-f])[0-9a-f]{64}(?![0-9a-f])"), 12
# The file that a runtime keeps of a container of root's, in a folder with its identifier below /run/RUNTIME.
STATES = {"runc": "state.json", "crun": "status"}
# The numbers of actions and operators, and libcontainer's names of architectures that aren't OCI's in small letters.
RUNC_ACTIONS = {number: f"SCMP_ACT_{name}" for number, name in enumerate(
    "KILL ERRNO TRAP ALLOW TRACE LOG NOTIFY KILL_THREAD KILL_PROCESS".split(), 1)}
RUNC_OPERATORS = {number: f"SCMP_CMP_{name}" for number, name in enumerate("EQ NE GT GE LT LE MASKED_EQ".split(), 1)}
RUNC_ARCHITECTURES = {"amd64": "X86_64", "arm64": "AARCH64"}


class ContainerError(program.ToolError):
    """Why it is unknown whether a container is confined."""


def part(value: Any, name: str, kind: type) -> Any:
    """A member of an object, an empty one if it isn't of this type."""
    found = value.get(name) if isinstance(value, dict) else None
    return found if isinstance(found, kind) else kind()


def configuration_in(data: bytes) -> dict[str, Any] | None:
    """A container's configuration (config.json) as JSON; None if a text is something else, or can't be read. Raises
    ContainerError if it is a container's state."""
    try:
        value = engines.parse_json(data)
    except profiles.Refused:
        return None
    if not isinstance(value, dict) or value.get("defaultAction") is not None:
        return None
    if "linux" in value or "ociVersion" in value and {"process", "root"} & value.keys():
        return value
    if {"pid", "init_process_pid"} & value.keys():
        bundle = value.get("bundle")
        where = os.path.join(bundle, CONFIG) if isinstance(bundle, str) else f"the {CONFIG} of its bundle"
        raise ContainerError(f"it is a container's state, which says nothing about seccomp: take {where}")
    return None


def seccomp_in(value: Any, name: str) -> dict[str, Any] | None:
    """The seccomp part of a configuration with this name, as a config.json with nothing else in it, or None if it says
    nothing. Runtimes read only `linux.seccomp`, whatever else is in it; runc takes one without an action and without
    syscalls for none (SetupSeccomp of specconv), and crun starts no container with it."""
    linux = member(value, "linux", name)
    seccomp = None if linux is None else member(linux, "seccomp", name)
    says = [profiles.folded(member_name) for member_name in ("defaultAction", "syscalls")]
    is_empty = isinstance(seccomp, dict) and not any(given for member_name, given in seccomp.items()
                                                     if profiles.folded(member_name) in says)
    return None if seccomp is None or is_empty else {"linux": {"seccomp": seccomp}}


def member(value: Any, wanted: str, path: str) -> Any:
    """A member of an object in a configuration; refused if a runtime in Go also reads another one as it."""
    if not isinstance(value, dict):
        raise ContainerError(f"'{path}' isn't a container's configuration")
    if others := [name for name in value if name != wanted and profiles.folded(name) == wanted]:
        raise ContainerError(f"'{path}' has a member '{others[0]}', which runc reads as {wanted} and crun doesn't")
    return value.get(wanted)


def identifiers_in(text: str) -> list[str]:
    return [match[0] for match in IDENTIFIER.finditer(text)]


def identifiers_of(kernel: Kernel, process: int) -> list[str]:
    """The identifiers of containers in the paths of a process's control groups."""
    return [each for group in kernel.groups_of(process).values() for each in identifiers_in(os.fsdecode(group))]


def other_runtime(identifiers: Sequence[str], runtime: str | None) -> str | None:
    """The line on the runtime of a container with one of these identifiers, if its files show another than was said."""
    runtime_program = runtimes.RUNTIMES[runtime].program if runtime is not None else None
    for name, file in STATES.items():
        for folder in (f"/run/{name}/{identifier}" for identifier in identifiers if name != runtime_program):
            if os.path.exists(f"{folder}/{file}"):
                return f"the container's runtime is {name}, by {folder}: --runtime {name} reads the profile as it does"
    return None


def why_not_its(kernel: Kernel, process: int, config: dict[str, Any]) -> str | None:
    """Why a configuration isn't that of the container that a process is in; None if it may be. A container's identifier
    stands in the path that its configuration gives its control group, and in that of the groups of its processes; and
    where a configuration makes a PID namespace, its processes aren't in the machine's own."""
    linux, who = part(config, "linux", dict), f"process {process} ({output.escaped(kernel.name_of(process))})"
    stated, actual = identifiers_in(part(linux, "cgroupsPath", str)), identifiers_of(kernel, process)
    if stated and actual and stated[-1] not in actual:
        return (f"the configuration is that of the container {stated[-1][:SHORT]}, and {who} is in the container "
                f"{actual[-1][:SHORT]}")
    if {"type": "pid"} in part(linux, "namespaces", list) and \
            [inode for _, inode in kernel.namespaces_of(process)] == [PROC_PID_INIT_INO]:
        return f"{who} is in no container with this configuration, which has a PID namespace of its own"
    return None


def as_started(configuration: Any, state: Any) -> Any:
    """A configuration, with the seccomp settings in a state.json if these are others."""
    linux = configuration.get("linux") or {} if isinstance(configuration, dict) else {}
    try:
        started = _started_seccomp(state["config"]["seccomp"])
        if _comparable(started) == _comparable(linux.get("seccomp")):
            return configuration
    except (LookupError, TypeError, AttributeError):
        return configuration
    return {**configuration, "linux": {**linux, "seccomp": started}}


def _started_seccomp(settings: Any) -> dict[str, Any] | None:
    """The settings of a state.json, as a config.json has them; None if the container has none."""
    if settings is None:
        return None
    entries = [_without_empty({
        "names": [call["name"]], "action": RUNC_ACTIONS[call["action"]], "errnoRet": call.get("errnoRet"),
        "args": [{"index": condition["index"], "value": condition["value"], "valueTwo": condition["value_two"],
                  "op": RUNC_OPERATORS[condition["op"]]} for condition in call["args"] or ()]})
               for call in settings["syscalls"] or ()]
    names = [architectures.PREFIX + RUNC_ARCHITECTURES.get(name, name.upper())
             for name in settings["architectures"] or ()]
    return {**_without_empty({"defaultAction": RUNC_ACTIONS[settings["default_action"]], "architectures": names,
                              "defaultErrnoRet": settings.get("default_errno_ret")}), "syscalls": entries}


def _without_empty(members: dict[str, Any]) -> dict[str, Any]:
    return {name: value for name, value in members.items() if value not in (None, [])}


def _comparable(seccomp: Any) -> object:
    """All of some settings that decides what a filter answers."""
    if not seccomp:
        return None
    rules = [(name, entry.get("action"), entry.get("errnoRet"),
              tuple((condition.get("index", 0), condition.get("value", 0), condition.get("valueTwo", 0),
                     condition.get("op")) for condition in entry.get("args") or ()))
             for entry in seccomp.get("syscalls") or () for name in entry.get("names") or ()]
    return (seccomp.get("defaultAction"), seccomp.get("defaultErrnoRet"), seccomp.get("architectures") or [], rules)
