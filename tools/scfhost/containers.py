"""Containers: which processes belong to one, by control groups (cgroups(7)) and namespaces.

A process may be in a group below its container's: systemd puts itself into init.scope, and its services beside that.
The container's own group is the highest one that is known to be a container's: the root of a mount of control groups
that the process sees (a runtime mounts the container's own group, and no other), a name that a runtime gives, or
systemd's names for sibling groups. If there is none, it is the process's.
"""
from __future__ import annotations

import os
from collections.abc import Callable, Iterator, Sequence

from scftools.base import output
from scftools.base.values import Pattern, dataclass
from .hold import Unreadable
from .ptrace import Kernel, has_ended

# The cgroup hierarchies in which a container is searched for, in this order: that of version 2, which names no
# controllers, and of version 1 those of systemd and of the pids controller.
HIERARCHIES = ("", "name=systemd", "pids")
# How runtimes name the group of a container: by its identifier of 64 hexadecimal digits, alone or as in libpod-ID,
# docker-ID.scope, cri-containerd-ID.scope and crio-ID.scope; podman's has the container in a group below. runc and crun
# by themselves make NAME.scope of a name; LXC and systemd-nspawn name what is the container's beside what is their own,
# and the group of conmon, which watches a container of podman or CRI-O, isn't the container's, nor is that of a pod of
# podman's, which is called by the pod's identifier alone.
CONTAINER_GROUP = Pattern(
    rb".*/(?![a-z]+-conmon-)(?:(?:[a-z-]+-|(?<!/libpod_parent/))[0-9a-f]{64}(?:\.scope)?(?:/container)?|"
    rb"(?:runc|crun)-[^/]+\.scope(?:/container)?|"
    rb"lxc\.payload[./][^/]+|(?:machine-[^/]+\.scope|systemd-nspawn@[^/]+\.service)/payload)(?=/|\Z)")
# systemd's groups (systemd.special(7)) if they aren't at the top, and aren't those of a user's service manager.
MANAGER_OF_CONTAINER = Pattern(rb"(/.*?[^/])/(?:init\.scope|system\.slice)(?:/|\Z)")
MANAGER_OF_A_USER = Pattern(rb".*/user@[^/]*\.service")
# At most so many processes that weren't checked are listed.
MOST_SHOWN = 5


def is_within(path: bytes, group: bytes) -> bool:
    """Whether a control group is another one, or below it."""
    return (path + b"/").startswith(group + b"/")


@dataclass(frozen=True)
class Group:
    """A control group that is taken for the container's own."""

    hierarchy: str
    path: bytes
    # whether it is known to be a container's
    is_of_container: bool
    # the container's groups, by their hierarchies: of version 1 there are several
    paths: dict[str, bytes]

    @classmethod
    def of(cls, hierarchy: str, paths: dict[str, bytes], groups: dict[str, bytes], is_of_container: bool) -> Group:
        """The group of a container given its paths in some hierarchies, and the groups of one of its processes: in a
        further hierarchy it has the same path if that process is there, too."""
        path = paths[hierarchy]
        same = {name: path for name, its_path in groups.items() if is_within(its_path, path)}
        return cls(hierarchy, path, is_of_container, {**same, **paths})

    def has(self, groups: dict[str, bytes]) -> bool:
        """Whether a process with these groups, by their hierarchies, is in it or in a group below, in any hierarchy: in
        version 1 a process may be moved out of the container's group in one of them and stay there in another."""
        return any(is_within(groups.get(name, b""), path) for name, path in self.paths.items())


@dataclass
class Container:
    # The path of their control group; None if they share a PID namespace instead.
    group: bytes | None
    processes: Callable[[], list[int]]
    # Those of the PID namespace in other groups, of which nothing tells whether they are the container's.
    others: Callable[[], list[int]] = list
    # Whether the kernel ends them with the first one, and what is to be known of which they are.
    end_together: bool = False
    remarks: Sequence[str] = ()

    @property
    def description(self) -> str:
        return "a PID namespace" if self.group is None else f"the control group {output.escaped(self.group)}"


def why_no_group(process: int, path: bytes) -> str:
    return (f"the container of process {process} is unknown: this tool is in a cgroup namespace of its own, which "
            f"shows the control group of the process as {output.escaped(path)}: run it in the initial one")


def groups_of(kernel: Kernel, process: int) -> dict[str, bytes]:
    """The control groups of a process, by the controllers of their hierarchies: if its main thread has ended, which the
    kernel shows in the root group of each hierarchy of version 1, those of another thread."""
    if has_ended(kernel.status_of(process)):
        alive = (thread for thread in kernel.threads_of(process) if not has_ended(kernel.status_of(thread)))
        process = next(alive, process)
    return kernel.groups_of(process)


def known_groups(roots: Sequence[bytes], path: bytes) -> Iterator[bytes]:
    """The groups at or above a process's that are known to be a container's, given the roots that it sees mounted."""
    yield from (root for root in roots if root != b"/" and is_within(path, root))
    if named := CONTAINER_GROUP.match(path):
        yield named[0]
    if (below := MANAGER_OF_CONTAINER.match(path)) and not MANAGER_OF_A_USER.fullmatch(below[1]):
        yield below[1]


def group_of(kernel: Kernel, process: int) -> Group | None:
    """The control group of a process's container, or None if the process is in the root group. In a cgroup namespace
    the kernel shows its root as `/`, whichever group that is, and groups outside as `/..`."""
    groups, roots = groups_of(kernel, process), kernel.mounted_groups(process)
    inside = [name for name in HIERARCHIES if groups.get(name, b"/") != b"/"]
    for path in (groups[name] for name in inside):
        if path.startswith(b"/../") or path == b"/..":
            raise Unreadable(why_no_group(process, path))
    paths = {name: min(known_groups(roots, path), key=len, default=b"") for name, path in groups.items()}
    for name in (hierarchy for hierarchy in (*HIERARCHIES, *groups) if paths.get(hierarchy)):
        return Group.of(name, {hierarchy: path for hierarchy, path in paths.items() if path}, groups, True)
    if inside:
        return Group.of(inside[0], {inside[0]: groups[inside[0]]}, groups, False)
    if any(name in groups for name in HIERARCHIES) and not kernel.is_root_the_first():
        raise Unreadable(why_no_group(process, b"/"))
    return None


def container_of(kernel: Kernel, process: int) -> Container:
    """The processes in or below the group of a process's container; if that is the root, those in its PID namespace."""
    group = group_of(kernel, process)
    space, tools_space = kernel.namespaces_of(process)[:1], kernel.namespaces_of(os.getpid())[:1]
    has_space = bool(space) and space != tools_space

    def in_space() -> list[int]:
        return [number for number in kernel.processes() if has_space and space[0] in kernel.namespaces_of(number)]

    def is_in_group(number: int) -> bool:
        return group is not None and group.has(groups_of(kernel, number))

    if group is not None:
        return Container(group.path, lambda: list(filter(is_in_group, kernel.processes())), lambda: [
            number for number in in_space() if not is_in_group(number) and is_unknown(kernel, number)])
    if not has_space:
        raise Unreadable(f"process {process} is in no container: its control group is the root, and its PID namespace "
                         f"this tool's")
    return Container(None, in_space)


def is_unknown(kernel: Kernel, process: int) -> bool:
    """Whether the container of a process can't be known."""
    try:
        group = group_of(kernel, process)
    except Unreadable:
        return True
    return group is None or not group.is_of_container


def others_note(kernel: Kernel, container: Container) -> str | None:
    """The line about processes that may also be the container's, and aren't checked."""
    if not (others := container.others()):
        return None
    shown = output.some([f"{number} ({output.escaped(kernel.name_of(number))})" for number in others], MOST_SHOWN)
    return (f"processes of its PID namespace in other control groups weren't checked: {shown}; whether they are the "
            f"container's can't be known")
