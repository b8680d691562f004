"""The sandboxes that run on this machine, and the lists of syscalls that confine them, by files of root's own.

A configuration of LXC names a policy (lxc.container.conf(5)). firejail keeps the path of each sandbox's profile in a
file that is called by the number of the process that started the sandbox. snap-confine loads what snap-seccomp made of
a program's rules, which snapd keeps by the program's security tag, and a filter that all snaps have (snap-confine(8));
snapd names control groups by the tag: those of services, and with a UUID those of what users start.
"""
from __future__ import annotations

import contextlib
import itertools
import os
from collections.abc import Iterator

from scftools.base.values import Pattern, dataclass
from scftools.forms.lists import firejail
from scftools.forms.lists.sandbox_rules import MOST_LIST_BYTES, Policy, UnknownRules
from . import owned_files
from .machine import Process, inherited
from .owned_files import UnreadableFile
from .ptrace import Kernel, contents

# Where root's containers of LXC have their folders; the most bytes of a file of one, and how many it may include.
LXC_CONTAINERS, MOST_CONFIG_BYTES, MOST_FILES = "/var/lib/lxc", 1 << 18, 64
# The most names of a folder that are read.
MOST_NAMES = 1 << 16
# Where firejail's files are, and the most bytes of a path.
FIREJAIL_SANDBOXES, MOST_PATH = "/run/firejail/profile", 4096
# By how many seconds the time of a file may seem to be before the start of the process that wrote it.
SLACK = 2.0
# How options of firejail begin that state more than a profile, or that it isn't read.
STATING = Pattern(rb"--(?:seccomp|protocol|memory-deny-write-execute|restrict-namespaces|allow-debuggers|ignore|"
                  rb"noprofile)")
# Where snapd keeps the rules of each tag, and the filter of all snaps, of at most so many bytes.
SNAP_RULES, OF_ALL_SNAPS, MOST_OF_FILTER = "/var/lib/snapd/seccomp/bpf", "global.bin", 1 << 15
TAGGED_GROUP = Pattern(rb"(snap\.[a-z0-9_-]{1,80}(?:\.[A-Za-z0-9-]{1,80}){1,2})"
                       rb"(?:\.service|[.-][0-9a-f]{8}(?:-[0-9a-f]{4}){3}-[0-9a-f]{12}\.scope)")


def _names_in(folder: str) -> list[str]:
    """The names in a folder of root's, none if it can't be read, or is a user's."""
    try:
        return owned_files.names_in(folder, MOST_NAMES)[0] if owned_files.writer_of(folder) is None else []
    except UnreadableFile:
        return []


def lxc_policy(path: str) -> str | None:
    """The path of the policy that a configuration names last, if it names one. Raises UnreadableFile."""
    return [None, *_lxc_policies(path, itertools.count(1))][-1] or None


def _lxc_policies(path: str, files: Iterator[int]) -> Iterator[str]:
    """The policies that a file and those that it includes name; `files` counts these."""
    if next(files) > MOST_FILES:
        raise UnreadableFile(f"'{path}' is included after too many others")
    for line in owned_files.read_own(path, MOST_CONFIG_BYTES).decode("utf-8", "surrogateescape").split("\n"):
        name, equals, value = (part.strip() for part in line.partition("="))
        for included in _included(value) if equals and name == "lxc.include" else ():
            yield from _lxc_policies(included, files)
        if equals and name in ("lxc.seccomp.profile", "lxc.seccomp"):
            yield value


def _included(path: str) -> list[str]:
    """The file that an include names, or the files of a folder whose names end in .conf."""
    try:
        if owned_files.writer_of(path) is not None or not os.path.isdir(path):
            return [path]
    except UnreadableFile:
        # (that is said where it is read)
        return [path]
    return [os.path.join(path, name) for name in _names_in(path) if name.endswith(".conf")]


@dataclass(frozen=True)
class Firejail:
    """A sandbox of firejail: the process that started it, and its profile."""

    number: int
    profile: str

    def policy(self) -> Policy:
        """The rules of its profile. Raises ListError or UnreadableFile if they can't be known."""
        words = itertools.takewhile(b"--".__ne__, contents(f"/proc/{self.number}/cmdline").split(b"\0"))
        option = next((word for word in words if STATING.match(word)), None)
        if option is not None:
            raise UnknownRules(f"firejail was given {option.decode('utf-8', 'backslashreplace')}")
        return firejail.read_firejail_profile(owned_files.read_own(self.profile, MOST_LIST_BYTES))


def firejails_of(processes: dict[int, Process]) -> dict[int, Firejail | None]:
    """The sandbox of each process: that of its nearest ancestor that started one. A file tells of none if it isn't
    root's, has no path, or is that of an earlier process with this number."""
    sandboxes: dict[int, Firejail] = {}
    by_name = {str(process.number): process for process in processes.values()}
    for name in filter(by_name.__contains__, _names_in(FIREJAIL_SANDBOXES)):
        process, file = by_name[name], os.path.join(FIREJAIL_SANDBOXES, name)
        with contextlib.suppress(UnreadableFile, OSError):
            path = os.fsdecode(owned_files.read_own(file, MOST_PATH).rstrip(b"\n"))
            if path.startswith("/") and os.stat(file).st_mtime >= process.started_at - SLACK:
                sandboxes[process.number] = Firejail(process.number, path)
    return inherited(processes, sandboxes)


def filter_of_all_snaps() -> bytes:
    """The filter that each program of a snap has beside its own; none if it can't be read."""
    try:
        return owned_files.read_own(os.path.join(SNAP_RULES, OF_ALL_SNAPS), MOST_OF_FILTER)
    except UnreadableFile:
        return b""


def snap_tags() -> frozenset[str]:
    """The security tags of this machine's snaps."""
    return frozenset(name.removesuffix(".src") for name in _names_in(SNAP_RULES) if name.endswith(".src"))


def snap_tag_of(kernel: Kernel, process: Process) -> tuple[str | None, int | None]:
    """The security tag by which a process's control group is called, and whose group or process it is, None: root's."""
    for hierarchy, path in process.groups.items():
        match = next(filter(None, map(TAGGED_GROUP.fullmatch, path.split(b"/"))), None)
        if match:
            return match[1].decode(), kernel.group_owner(hierarchy, path) or process.owner or None
    return None, None
