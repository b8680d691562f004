"""SeccompProfile objects of Kubernetes' Security Profiles Operator: as JSON or YAML they are read, and made of resolved
profiles.

The members of a spec are those of SeccompProfileSpec (api/seccompprofile/v1beta1 of the operator), which has no errno
of the default, and whose numbers are signed 64-bit integers; an errno of 0 is left out of what the operator writes.
"""
from __future__ import annotations

import json
import os
import re
import sys
from ..base.values import Any
from ..model.answers import Answer
from ..model.profiles import OCI_ACTIONS, Refused
from . import engines

API, KIND = "security-profiles-operator.x-k8s.io/v1beta1", "SeccompProfile"
SPEC_MEMBERS = ("defaultAction", "architectures", "listenerPath", "listenerMetadata", "syscalls", "flags")
ENTRY_MEMBERS = ("names", "action", "errnoRet", "args")
# The most bytes of YAML, which takes a Python reader four seconds, and 350 times its size; real ones have a tenth.
LONGEST_YAML = 1 << 18
# Where distributions put PyYAML. The tools don't look where others than root may write.
YAML_FOLDERS = ("/usr/lib/python3/dist-packages",
                *(f"/usr/{folder}/python{sys.version_info[0]}.{sys.version_info[1]}/site-packages"
                  for folder in ("lib", "lib64")))
NO_YAML = ("it is YAML, and PyYAML isn't installed (Debian's python3-yaml): convert it to JSON, as `kubectl get -o "
           "json` does")
# The types of YAML 1.1 that JSON has.
TAG = "tag:yaml.org,2002:"
YAML_CONSTANTS = {"true": True, "false": False, "null": None, "~": None, "": None}


def printed(profile: dict[str, Any], name: str) -> str:
    """The JSON of an object by this name, whose spec is a profile. Raises Refused where an object can't state it."""
    entries = profile.get("syscalls") or []
    answers = [(f"entry {at}", entry["action"], entry.get("errnoRet")) for at, entry in enumerate(entries)]
    for where, action, number in (("the default", profile["defaultAction"], profile.get("defaultErrnoRet")), *answers):
        if action not in OCI_ACTIONS:
            raise Refused(f"{where} has an action that a {KIND} doesn't have")
        is_left_out = number == 0 or where == "the default"
        if is_left_out and Answer.of_profile(action, number) != Answer.of_profile(action, None):
            raise Refused(f"{where} has the errno {number}, which a {KIND} can't state")
    for at, entry in enumerate(entries):
        for condition in entry.get("args") or []:
            if max(condition.get("value") or 0, condition.get("valueTwo") or 0) >= 1 << 63:
                raise Refused(f"entry {at} compares with more than 2^63-1, which a {KIND} can't state")
    spec = {member: profile[member] for member in SPEC_MEMBERS if member in profile}
    spec["syscalls"] = [{member: entry[member] for member in ENTRY_MEMBERS if member in entry} for entry in entries]
    return json.dumps({"apiVersion": API, "kind": KIND, "metadata": {"name": name}, "spec": spec}, indent=4) + "\n"


def is_yaml(data: bytes) -> bool:
    return not data.lstrip().startswith((b"{", b"[")) and all(
        re.search(rb"^" + member + rb":", data, re.M) for member in (b"apiVersion", b"kind"))


def _module() -> Any:
    """PyYAML, from a folder of the system where only root may write; None if none has it."""
    from importlib import machinery, util  # pylint: disable=import-outside-toplevel

    for folder in YAML_FOLDERS:
        spec = machinery.PathFinder.find_spec("yaml", [folder])
        state = os.stat(folder) if spec is not None else None
        if state is not None and not state.st_uid and not state.st_mode & 0o022:
            module = sys.modules["yaml"] = util.module_from_spec(spec)
            spec.loader.exec_module(module)
            return module
    return None


def _value(node: Any, seen: set[int]) -> Any:
    """A node as JSON has it; one that is there twice, by an alias, is refused."""
    if id(node) in seen:
        raise Refused("the YAML has aliases, which may stand for more than a profile can have")
    seen.add(id(node))
    if node.id == "scalar":
        kind, text = node.tag.removeprefix(TAG), node.value
        if kind == "str":
            return text
        if kind in ("bool", "null") and text.lower() in YAML_CONSTANTS:
            return YAML_CONSTANTS[text.lower()]
        if kind == "int" and re.fullmatch("0|-?[1-9][0-9]{0,20}|0x[0-9a-fA-F]{1,16}", text):
            return int(text, 0)
        raise Refused(f"line {node.start_mark.line + 1} of the YAML has a value that JSON doesn't have: "
                      f"'{engines.excerpt(text)}'")
    if node.id == "sequence":
        return [_value(item, seen) for item in node.value]
    pairs = [(_value(key, seen), _value(value, seen)) for key, value in node.value]
    if not all(isinstance(key, str) for key, _ in pairs):
        raise Refused(f"line {node.start_mark.line + 1} of the YAML has a member whose name isn't a string")
    return engines.members(pairs)


def _of_yaml(data: bytes) -> Any:
    if len(data) > LONGEST_YAML:
        raise Refused(f"the YAML has more than {LONGEST_YAML} bytes")
    yaml = _module()
    if yaml is None:
        raise Refused(NO_YAML)
    try:
        return _value(yaml.compose(data.decode("utf-8"), Loader=yaml.SafeLoader), set())
    except UnicodeDecodeError as error:
        raise Refused("the YAML isn't UTF-8") from error
    except yaml.YAMLError as error:
        mark = getattr(error, "problem_mark", None)
        where = f" at line {mark.line + 1}, column {mark.column + 1}" if mark is not None else ""
        why = getattr(error, "problem", None) or "it has no value"
        raise Refused(f"the YAML is malformed{where}: {why}") from error
    except (RecursionError, AttributeError) as error:
        raise Refused("the YAML has no value, or is nested too deep") from error


def spec_of(data: bytes) -> bytes | None:
    """The profile in such an object, as JSON; None if a text isn't an object of Kubernetes. Raises Refused if it can't
    be read, or stands for more than it says."""
    is_object = b'"apiVersion"' in data and b'"kind"' in data
    value = _of_yaml(data) if is_yaml(data) else engines.parse_json(data) if is_object else None
    if not isinstance(value, dict) or "kind" not in value or "apiVersion" not in value:
        return None
    if value["kind"] != KIND:
        raise Refused(f"it is a Kubernetes object of the kind {engines.excerpt(value['kind'])}, not {KIND}")
    spec = value.get("spec")
    if not isinstance(spec, dict):
        raise Refused(f"the {KIND} has no spec")
    if spec.get("baseProfileName"):
        raise Refused(f"the operator adds the syscalls of the profile {engines.excerpt(spec['baseProfileName'])} "
                      f"(baseProfileName): take the file that it writes on a node, below "
                      f"/var/lib/kubelet/seccomp/operator")
    if spec.get("disabled") is True:
        raise Refused("the profile is disabled")
    return engines.to_bytes(spec)
