"""Containers as the files of their runtimes and engines describe them, and which container or unit a process is of.

runc and crun keep a folder for each container, in which they name its first process and its bundle; the bundle holds
config.json, which the engine wrote. podman, CRI-O, containerd and Docker keep names, images and pods beside it. What a
user could have written describes only processes of that user, and no process that root's files or a unit's settings
speak of. It is read by a child that has that user's rights (`child`), so it has nothing that the user can't read.

A container's own control group is the one that its runtime's file states, or that a runtime names so; of a container
without one, the processes are those of its PID namespace, or else its first process and that one's descendants.
"""
from __future__ import annotations

import json
import os
from collections.abc import Callable, Iterable, Iterator, Sequence

from scftools.base import child
from scftools.base.values import Any, Pattern, dataclass, replace
from scftools.model import profiles
from scftools.forms import engines
from . import configurations, containers, owned_files
from .configurations import part
from .machine import Process, Snapshot, inherited
from .owned_files import Absent, UnreadableFile
from .ptrace import Kernel, ticks_at_start

# Where runtimes keep the folders of containers: runc and crun for root, containerd and Docker by namespaces, and both
# for each user in a folder called by the user's ID.
ROOTS = ("/run/runc", "/run/crun", "/run/containerd/runc/*", "/run/docker/runtime-runc/*")
OF_USERS, ROOTS_OF_USERS = "/run/user", ("runc", "crun")
# systemd's slices of users (systemd.special(7)), in which these may make groups.
SLICE_OF_A_USER = Pattern(rb"/user\.slice/user-[0-9]+\.slice/")
# Bundles of containerd, also one that k3s or Docker starts, by clients; and of the storage of podman and CRI-O.
CONTAINERD = ("/run/containerd", "/run/k3s/containerd", "/run/docker/containerd/daemon")
TASK_BUNDLE = Pattern(r"/.*/io\.containerd\.runtime\.v2\.task/([^/]+)/[^/]+/?")
STORAGE_BUNDLE = Pattern(r"(.*-containers)/([0-9a-f]{64})/userdata/?")
DOCKER_CONTAINERS = "/var/lib/docker/containers"
# What engines write about a container into its config.json (annotations).
MANAGER = {"libpod": "podman", "cri-o": "CRI-O"}
NAME_ANNOTATIONS = ("io.kubernetes.container.name", "io.kubernetes.cri.container-name",
                    "io.kubernetes.cri-o.ContainerName", "io.podman.annotations.name")
IMAGE_ANNOTATIONS = ("io.kubernetes.cri.image-name", "io.kubernetes.cri-o.ImageName")
POD_ANNOTATIONS = (("io.kubernetes.pod.namespace", "io.kubernetes.pod.name"),
                   ("io.kubernetes.cri.sandbox-namespace", "io.kubernetes.cri.sandbox-name"))
SANDBOX_ANNOTATIONS = ("io.kubernetes.cri-o.SandboxID", "io.kubernetes.cri.sandbox-id")
# The most bytes of a file of a runtime or an engine; storage has one for all containers.
MOST_BYTES = 1 << 22
# The most folders of containers of a user that are looked at.
MOST_OF_A_USER = 200
# The units that run processes of their own (systemd.exec(5)), as the name of a control group has them; systemd puts `_`
# before a name that would mean something else there (cg_escape of its basic/cgroup-util.c).
UNIT_GROUP = Pattern(rb"_?([A-Za-z0-9:_.\\@-]{1,255}\.(?:service|socket|mount|swap))")
# The hierarchies in which systemd makes the groups of units.
SYSTEMD_HIERARCHIES = ("name=systemd", "")
# The name or identifier in the name of a container's group, after what its engine puts before it; and whose it is.
GROUP_IDENTIFIER = Pattern(rb"(?:(libpod|docker|cri-containerd|crio|runc|crun|machine|lxc\.payload)[-.])?(.+?)"
                           rb"(?:\.scope)?")
ENGINE_OF_PREFIX = {b"libpod": "podman", b"docker": "Docker", b"cri-containerd": "containerd", b"crio": "CRI-O",
                    b"machine": "systemd-nspawn", b"lxc.payload": "LXC", b"runc": "runc", b"crun": "crun"}


@dataclass(frozen=True)
class ContainerDescription:
    """A container as files describe it; what they don't say is None."""

    identifier: str
    # podman, CRI-O, Docker, containerd, or the runtime if no engine is known
    engine: str
    # runc or crun
    runtime: str | None
    # the number of its first process
    first: int
    # the path of its config.json, and what that holds, or why it isn't known
    config: str
    # the seccomp settings in it, as a config.json with nothing else, or why they aren't known
    seccomp: str | None = None
    why: str | None = None
    # whether these aren't those that the container was started with, which are judged
    has_changed: bool = False
    name: str | None = None
    image: str | None = None
    pod: str | None = None
    # the folder of its runtime's files, and the control groups that these state, as paths or ends of paths
    folder: str = ""
    groups: tuple[bytes, ...] = ()
    # the ID of the user who alone describes it; None if root does
    user: int | None = None
    # when its first process started, if its runtime's file says so
    started: int | None = None


def _text(value: Any, *names: str) -> str | None:
    """The first of some members of an object that is a text with a letter."""
    return next(filter(None, (part(value, name, str) for name in names)), None)


def _is_of_user(kernel: Kernel, process: int, user: int) -> bool:
    """Whether a process is a user's: it runs as that user, or in a user namespace of that user."""
    shown = kernel.status_of(process).get("Uid", "").split()
    return shown[:2] == [str(user)] * 2 or user != 0 and kernel.makers_of_namespaces(process)[:1] == [user]


# What a child answers: a container, with the number of its settings, which are answered before, each once; a line on
# what can't be read; a note; and a folder of a user who reads it.
CONTAINER = {"identifier": str, "engine": str, "runtime": (str, None), "first": int, "started": (int, None),
             "config": str, "seccomp": (int, None), "why": (str, None), "has_changed": bool, "name": (str, None),
             "image": (str, None), "pod": (str, None), "folder": str, "groups": [str]}
ANSWER = (CONTAINER, {"settings": str}, {"left_out": str}, {"note": str}, {"user": int, "folder": str})


class Reader:
    """Reads files of containers in a child, and sends what they say: root's own, or all that its user may read."""

    def __init__(self, send: child.Send, is_root: bool) -> None:
        self.send, self.read = send, owned_files.read_own if is_root else owned_files.read_file
        # the containers in the storage of podman or CRI-O, by its folder and their identifiers
        self.stored: dict[str, dict[str, Any]] = {}
        self.settings: dict[str | None, int | None] = {None: None}
        self.unread: list[str] = []

    def object_in(self, path: str) -> Any:
        """The JSON of a file, or None if it can't be read or isn't JSON."""
        try:
            return json.loads(self.read(path, MOST_BYTES).decode("utf-8"))
        except (UnreadableFile, ValueError, RecursionError):
            return None

    def state_in(self, folder: str) -> tuple[ContainerDescription, Any] | None:
        """The container of a runtime's folder, and its state.json; raises UnreadableFile of what is no runtime's."""
        for runtime, name in configurations.STATES.items():
            path = os.path.join(folder, name)
            try:
                value = json.loads(self.read(path, MOST_BYTES).decode("utf-8"))
            except Absent:
                continue
            except (ValueError, RecursionError) as error:
                raise UnreadableFile(f"'{path}' isn't JSON") from error
            if not isinstance(value, dict):
                raise UnreadableFile(f"'{path}' isn't an object")
            if runtime == "runc":
                first, started = value.get("init_process_pid"), value.get("init_process_start")
                groups = part(value, "cgroup_paths", dict).values()
                labels = part(part(value, "config", dict), "labels", list)
                bundles = (label for label in labels if isinstance(label, str) and label.startswith("bundle="))
                bundle = next(bundles, "").removeprefix("bundle=")
            else:
                first, started, bundle = value.get("pid"), value.get("process-start-time"), _text(value, "bundle")
                groups = [value.get("cgroup-path")]
            paths = tuple(group.encode("utf-8", "backslashreplace") for group in groups
                          if isinstance(group, str) and group.strip("/"))
            config = os.path.join(bundle, "config.json") if bundle and bundle.startswith("/") else ""
            return ContainerDescription(os.path.basename(folder), runtime, runtime, first, config, folder=folder,
                                        groups=paths, started=started), value if runtime == "runc" else None
        return None

    def of_engine(self, folder: str) -> tuple[ContainerDescription, Any] | None:
        """The container of a bundle of containerd's, of which only an engine's own files are known."""
        try:
            first = int(self.read(os.path.join(folder, "init.pid"), MOST_BYTES)[:12])
        except Absent:
            return None
        return ContainerDescription(os.path.basename(folder), "containerd", None, first,
                                    os.path.join(folder, "config.json"), folder=folder), None

    def add(self, read: Callable[[str], tuple[ContainerDescription, Any] | None], folder: str) -> None:
        """Sends what is read of a folder; whatever is raised meanwhile concerns no other container."""
        try:
            found = read(folder)
            if found is None or not _number(found[0].first):
                return
            container = self.with_config(*found)
            if container.seccomp not in self.settings:
                self.settings[container.seccomp] = len(self.settings) - 1
                self.send({"settings": container.seccomp})
            self.send({**{name: getattr(container, name) for name in CONTAINER},
                       "seccomp": self.settings[container.seccomp], "started": _number(container.started),
                       "groups": list(map(os.fsdecode, container.groups))})
        except UnreadableFile as why:
            self.unread.append(str(why))
        except Exception as error:  # pylint: disable=broad-exception-caught
            self.unread.append(f"'{folder}' can't be read: {type(error).__name__}")

    def add_all(self, folder: str) -> None:
        try:
            names, is_all = owned_files.names_in(folder, MOST_OF_A_USER)
        except UnreadableFile as why:
            self.unread.append(str(why))
            return
        for name in names:
            self.add(self.state_in, os.path.join(folder, name))
        if not is_all:
            self.send({"left_out": f"all but {MOST_OF_A_USER} of the folders of containers in {folder}"})

    def with_config(self, container: ContainerDescription, state: Any) -> ContainerDescription:
        """The container with what its config.json says, as it was started, or with the reason why that isn't known."""
        if not container.config:
            return replace(container, why="its runtime's files name no bundle")
        try:
            configuration = engines.parse_json(self.read(container.config, MOST_BYTES))
            started = configurations.as_started(configuration, state)
            container = replace(self.with_engine(container, configuration), has_changed=started is not configuration)
            seccomp = configurations.seccomp_in(started, container.config)
            return replace(container, seccomp=None if seccomp is None else json.dumps(seccomp))
        except (UnreadableFile, configurations.ContainerError) as why:
            return replace(container, why=str(why))
        except profiles.Refused as why:
            return replace(container, why=f"'{container.config}': {why}")
        except Exception as error:  # pylint: disable=broad-exception-caught
            return replace(container, why=f"'{container.config}' can't be read: {type(error).__name__}")

    def with_engine(self, container: ContainerDescription, configuration: Any) -> ContainerDescription:
        """The container with the name, image and pod that its engine gives it."""
        annotations = configuration.get("annotations") if isinstance(configuration, dict) else None
        bundle = os.path.dirname(container.config)
        task, storage = TASK_BUNDLE.fullmatch(bundle), STORAGE_BUNDLE.fullmatch(bundle)
        engine = MANAGER.get(_text(annotations, "io.container.manager") or "")
        name, image = _text(annotations, *NAME_ANNOTATIONS), _text(annotations, *IMAGE_ANNOTATIONS)
        if storage:
            engine = engine or "podman"
            stored = self.in_storage(storage[1], storage[2])
            name, image = name or stored[0], image or stored[1]
        elif task and task[1] == "moby":
            engine = "Docker"
            value = self.object_in(os.path.join(DOCKER_CONTAINERS, container.identifier, "config.v2.json"))
            name = (_text(value, "Name") or "").removeprefix("/") or None
            image = _text(part(value, "Config", dict), "Image")
        elif task:
            engine = "containerd"
        pods = ((_text(annotations, space) or "", _text(annotations, pod)) for space, pod in POD_ANNOTATIONS)
        pod = next((f"{space}/{pod}" for space, pod in pods if pod), None) or _text(annotations, *SANDBOX_ANNOTATIONS)
        return replace(container, engine=engine or container.engine, name=name, image=image, pod=pod)

    def in_storage(self, folder: str, identifier: str) -> tuple[str | None, str | None]:
        """The name and the image of a container in a storage, which is read once."""
        if folder not in self.stored:
            listed = self.object_in(os.path.join(folder, "containers.json"))
            self.stored[folder] = {entry["id"]: entry for entry in (listed if isinstance(listed, list) else ())
                                   if _text(entry, "id")}
        entry = self.stored[folder].get(identifier, {})
        try:
            metadata = json.loads(entry.get("metadata") or "null")
        except (ValueError, TypeError, RecursionError):
            metadata = None
        names = part(entry, "names", list)
        return names[0] if names and isinstance(names[0], str) else None, _text(metadata, "image-name")


def _number(value: Any) -> int | None:
    """A value that may be the number or the start of a process."""
    return value if type(value) is int and 0 < value < 1 << 62 else None


def _send_roots(send: child.Send, more_roots: Sequence[str]) -> None:
    """Sends the containers that root's own files describe, and the folders of users."""
    import glob  # pylint: disable=import-outside-toplevel

    reader = Reader(send, True)
    for pattern, read in (*((f"{root}/*", reader.state_in) for root in ROOTS),
                          *((f"{root}/io.containerd.runtime.v2.task/*/*", reader.of_engine) for root in CONTAINERD)):
        for folder in sorted(glob.glob(pattern)):
            reader.add(read, folder)
    owned_files.leave_users_mounts()
    places = []
    for root in more_roots:
        folders = sorted(glob.glob(os.path.abspath(root)))
        places += folders
        if not folders:
            send({"note": f"no folder is --runtime-root {root}"})
    places += [os.path.join(OF_USERS, user, root) for user in owned_files.names_in(OF_USERS, 1 << 16)[0]
               for root in ROOTS_OF_USERS]
    for place in places:
        try:
            user = owned_files.writer_of(place)
        except Absent:
            continue
        if user is None:
            reader.add_all(place)
        elif user == owned_files.ANYONE:
            reader.unread.append(f"'{place}' may be changed by any user")
        else:
            send({"user": user, "folder": place})
    for line in reader.unread:
        send({"left_out": line})


def _send_users(send: child.Send, user: int, folders: Sequence[str]) -> None:
    owned_files.leave_users_mounts()
    child.become(user)
    reader = Reader(send, False)
    for folder in folders:
        reader.add_all(folder)
    if reader.unread:
        send({"left_out": f"{len(reader.unread)} of the folders of containers: {reader.unread[0]}"})


def described_containers(kernel: Kernel, snapshot: Snapshot, more_roots: Sequence[str],
                         budget: child.Budget) -> list[ContainerDescription]:
    """The containers that run, each once, those of root's own files first; `more_roots` are further folders."""
    by_first: dict[int, ContainerDescription] = {}
    folders_of_users: dict[int, list[str]] = {}

    def ask(work: child.Work, seconds: float, user: int | None) -> None:
        """Takes the answers of a child that reads root's files, or a user's."""
        settings: list[str] = []

        def receive(value: Any) -> None:
            value = child.checked(value, ANSWER)
            if "identifier" in value:
                container = ContainerDescription(**{
                    **value, "seccomp": None if value["seccomp"] is None else settings[value["seccomp"]], "user": user,
                    "groups": tuple(map(os.fsencode, value["groups"]))})
                ticks = ticks_at_start(container.first)
                if ticks is not None and container.started in (None, ticks) and (
                        user is None or _is_of_user(kernel, container.first, user)):
                    by_first.setdefault(container.first, container)
            elif "settings" in value:
                settings.append(value["settings"])
            elif "left_out" in value:
                snapshot.leave_out(value["left_out"], user)
            elif user is None and "note" in value:
                snapshot.notes.append(value["note"])
            elif user is None:
                folders_of_users.setdefault(value["user"], []).append(value["folder"])

        for why in child.ask_each([work], [(0, seconds)], lambda _, value: receive(value)).values():
            snapshot.leave_out(f"the folders of containers can't be read: {why}", user)

    ask(lambda send, _: _send_roots(send, more_roots), child.LONGEST, None)
    for (user, folders), seconds in budget.shares(sorted(folders_of_users.items())):
        ask(lambda send, _, user=user, folders=folders: _send_users(send, user, folders), seconds, user)
    return list(by_first.values())


def _named_group(process: Process) -> containers.Group | None:
    """The control group that a runtime names as a container's, at or above a process's."""
    for hierarchy in containers.HIERARCHIES:
        if match := containers.CONTAINER_GROUP.match(process.groups.get(hierarchy, b"")):
            return containers.Group.of(hierarchy, {hierarchy: match[0]}, process.groups, True)
    return None


def own_group_of(kernel: Kernel, container: ContainerDescription, process: Process) -> containers.Group | None:
    """The control group of a container, given its first process: the one that its runtime's file states, if the process
    is in it or below. One that has this tool or the machine's first process in it isn't its own: it was started without
    one. What a user's file states isn't believed: it could be a group of others."""
    paths: dict[str, bytes] = {}
    for hierarchy in (*containers.HIERARCHIES, *process.groups) if container.user is None else ():
        path = process.groups.get(hierarchy, b"/")
        while path not in (b"/", b"") and hierarchy not in paths:
            if any(group.endswith(path) for group in container.groups):
                paths[hierarchy] = path
            path = path.rpartition(b"/")[0]
    group = containers.Group.of(next(iter(paths)), paths, process.groups, True) if paths else _named_group(process)
    is_others = group is not None and any(group.has(kernel.groups_of(number)) for number in (1, os.getpid()))
    return None if is_others else group


class ContainerPlaces:
    """Where some containers are: in control groups, in PID namespaces, or else below their first processes."""

    def __init__(self, kernel: Kernel, described: Iterable[ContainerDescription],
                 processes: dict[int, Process]) -> None:
        # their own groups, by their first processes
        self.groups: dict[int, containers.Group] = {}
        self.by_group: dict[tuple[str, bytes], list[ContainerDescription]] = {}
        self.by_space: dict[tuple[int, int], ContainerDescription] = {}
        firsts: dict[int, ContainerDescription] = {}
        # (of two that name one, the first)
        for container in described:
            first = processes[container.first]
            group = own_group_of(kernel, container, first)
            if group is not None:
                self.groups[first.number] = group
            for each in group.paths.items() if group is not None else ():
                self.by_group.setdefault(each, []).append(container)
            if first.inner == 1 and len(first.spaces) > 1:
                self.by_space.setdefault(first.spaces[0], container)
            firsts.setdefault(first.number, container)
        # how many names the paths of these groups have
        self.depths = {path.count(b"/") for _, path in self.by_group}
        self.by_ancestor = inherited(processes, firsts)

    def containers_of(self, process: Process) -> Iterator[ContainerDescription]:
        """The containers that a process may be of, the most likely one first: of groups the innermost."""
        found = []
        for hierarchy, path in process.groups.items() if self.depths else ():
            names = path.split(b"/", max(self.depths) + 1)
            for depth in self.depths:
                if depth < len(names):
                    found += self.by_group.get((hierarchy, b"/".join(names[:depth + 1])), ())
        yield from sorted(found, key=lambda container: -len(self.groups[container.first].path))
        yield from (self.by_space[space] for space in process.spaces if space in self.by_space)
        yield from filter(None, [self.by_ancestor[process.number]])


class Membership:
    def __init__(self, kernel: Kernel, descriptions: Iterable[ContainerDescription],
                 processes: dict[int, Process]) -> None:
        self.kernel = kernel
        running = [container for container in descriptions if container.first in processes]
        self.of_root, self.of_users = (ContainerPlaces(kernel, [
            container for container in running if (container.user is None) == is_root], processes)
            for is_root in (True, False))
        # the groups of pods, by the containers in them
        self.pods = {group.path.rpartition(b"/")[0] for group in self.of_root.groups.values()}

    def container_of(self, process: Process, is_stated: bool = False) -> ContainerDescription | None:
        """The container of a process, None if it is of none. What root's files say comes first; then the unit of which
        the process is, if it states how its processes are confined, or that isn't known (`is_stated`); then the name of
        a group that only root can have made; then what users' files say, of their own processes; and then the name of a
        user's group, but in no unit of the system."""
        container = next(self.of_root.containers_of(process), None)
        if container is not None or is_stated:
            return container
        named = named_container(process, self.kernel)
        if named is not None and named.groups[0] in self.pods:
            named = None
        if named is not None and not SLICE_OF_A_USER.match(named.groups[0]):
            if named.user is None:
                return named
            named = named if unit_of(process) is None else None
        return next((container for container in self.of_users.containers_of(process)
                     if _is_of_user(self.kernel, process.number, container.user)), named)


def named_container(process: Process, kernel: Kernel) -> ContainerDescription | None:
    """The container of a process that only the name of its control group tells; of a user who owns the group or one
    above it, and so may have named it."""
    if (group := _named_group(process)) is None:
        return None
    parts = [part for part in group.path.split(b"/") if part not in (b"", b"container", b"payload")]
    named = GROUP_IDENTIFIER.fullmatch(parts[-1])
    prefix, identifier = (named[1], named[2]) if named else (None, parts[-1])
    engine = ENGINE_OF_PREFIX.get(prefix or b"", "unknown")
    return ContainerDescription(identifier.decode("utf-8", "surrogateescape"), engine, None, process.number, "",
                                why="no file of a runtime describes it", groups=(group.path,),
                                user=kernel.group_owner(group.hierarchy, group.path))


def unit_of(process: Process) -> str | None:
    """The system's unit of a process, as the name of its control group tells."""
    for hierarchy in SYSTEMD_HIERARCHIES:
        parts = process.groups.get(hierarchy, b"").split(b"/")[1:]
        if match := UNIT_GROUP.fullmatch(next((part for part in parts if not part.endswith(b".slice")), b"")):
            return match[1].decode("ascii")
    return None
