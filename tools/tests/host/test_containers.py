"""scfhost.containers: the container's own control group, as runtimes and systemd name and mount it."""
import unittest
import unittest.mock

from support.common import Case
from support.confined import FakeKernel, processes, ptrace
from scfhost import containers

IDENTIFIER = "0123456789abcdef" * 4
# The group of a process, and the container's: as the documents of the runtimes show them (podman-run(1) --cgroups,
# Kubernetes' cgroup drivers, systemd-nspawn(1), lxc.container.conf(5)); None where no name tells it.
NAMES = {
    "/machine.slice/libpod-ID.scope/container": "/machine.slice/libpod-ID.scope/container",
    "/machine.slice/libpod-ID.scope/container/init.scope": "/machine.slice/libpod-ID.scope/container",
    "/user.slice/user-1000.slice/user@1000.service/user.slice/libpod-ID.scope/container/system.slice/x.service":
        "/user.slice/user-1000.slice/user@1000.service/user.slice/libpod-ID.scope/container",
    "/libpod_parent/libpod-ID": "/libpod_parent/libpod-ID",
    "/system.slice/docker-ID.scope": "/system.slice/docker-ID.scope",
    "/system.slice/docker-ID.scope/system.slice/x.service": "/system.slice/docker-ID.scope",
    "/docker/ID/init.scope": "/docker/ID",
    "/kubepods.slice/kubepods-pod12.slice/cri-containerd-ID.scope/a/b":
        "/kubepods.slice/kubepods-pod12.slice/cri-containerd-ID.scope",
    "/kubepods.slice/kubepods-pod12.slice/crio-ID.scope": "/kubepods.slice/kubepods-pod12.slice/crio-ID.scope",
    "/kubepods/burstable/pod12/ID": "/kubepods/burstable/pod12/ID",
    "/system.slice/runc-box.scope/first": "/system.slice/runc-box.scope",
    "/machine.slice/machine-box.scope/payload/init.scope": "/machine.slice/machine-box.scope/payload",
    "/machine.slice/systemd-nspawn@box.service/payload/system.slice/x.service":
        "/machine.slice/systemd-nspawn@box.service/payload",
    "/lxc.payload.box/init.scope": "/lxc.payload.box",
    # a pod of podman's, and what watches its containers
    "/libpod_parent/ID/libpod-ID/x": "/libpod_parent/ID/libpod-ID",
    "/libpod_parent/ID/conmon": None,
    "/libpod_parent/ID": None,
    # a container in a container
    "/docker/ID/docker/ID/init.scope": "/docker/ID/docker/ID",
    "/box/init.scope": "/box",
    # no containers: systemd's own groups, and one that says nothing
    "/init.scope": None,
    "/system.slice/x.service": None,
    "/user.slice/user-1000.slice/user@1000.service/init.scope": None,
    "/user.slice/user-1000.slice/session-1.scope": None,
    "/box/inner": None,
}


class Groups(Case):
    def group_of(self, path, roots=(b"/",)):
        kernel = FakeKernel()
        kernel.groups_of, kernel.mounted_groups = lambda _: {"": path.encode()}, lambda _: list(roots)
        return containers.group_of(kernel, 7)

    def test_names(self):
        for path, expected in NAMES.items():
            path, expected = path.replace("ID", IDENTIFIER), (expected or path).replace("ID", IDENTIFIER)
            with self.subTest(path):
                actual = self.group_of(path)
                self.assertEqual((actual.path.decode(), actual.is_of_container),
                                 (expected, NAMES[path.replace(IDENTIFIER, "ID")] is not None))

    def test_mounts(self):
        """A runtime mounts the container's own group; what isn't above the process says nothing."""
        for path, roots, expected in (("/box/inner/most", ["/box"], "/box"),
                                      ("/box/inner", ["/box/inner", "/box"], "/box"),
                                      ("/box", ["/box"], "/box"), ("/box/inner", ["/bo", "/", "/../x"], None),
                                      (f"/box/docker/{IDENTIFIER}/a", ["/box"], "/box")):
            actual = self.group_of(path, [root.encode() for root in roots])
            self.assertEqual((actual.path.decode(), actual.is_of_container), (expected or path, expected is not None))

    def test_some_hierarchies(self):
        """A process that was moved out of the container's group in some hierarchies of version 1 is still in it in
        others: in any of them it is the container's."""
        names = ("name=systemd", "pids", "cpu", "memory")
        inside = {7: names, 8: ("pids",), 9: ("pids", "cpu", "memory"), 10: ("memory",), 11: ()}
        groups = {item: {name: b"/x/box/a" if name in hierarchies else b"/x/boxer" for name in names}
                  for item, hierarchies in inside.items()}
        kernel = FakeKernel()
        kernel.processes, kernel.groups_of = lambda: list(groups), lambda number: groups[number]
        kernel.mounted_groups = lambda _: [b"/x/box"]
        for process in (7, 9):
            self.assertEqual(containers.container_of(kernel, process).processes(), [7, 8, 9, 10], process)
        # the container's group has another path in another hierarchy
        groups = {7: {"name=systemd": b"/x/box", "pids": f"/docker/{IDENTIFIER}".encode()},
                  8: {"name=systemd": b"/", "pids": f"/docker/{IDENTIFIER}/a".encode()}, 9: {"pids": b"/docker"}}
        self.assertEqual(containers.container_of(kernel, 7).processes(), [7, 8])

    def test_a_main_thread_that_has_ended(self):
        """The kernel shows it in the root group; the groups of a thread that runs count."""
        states, kernel = {7: "S", 8: "Z", 9: "S", 10: "Z", 11: "Z"}, FakeKernel()
        kernel.processes, kernel.threads_of = lambda: [7, 8, 10], lambda number: [number, number + 1]
        kernel.status_of = lambda number: {"State": f"{states.get(number, 'S')} (x)"}
        kernel.groups_of = lambda number: {"pids": b"/" if states[number] == "Z" else b"/box"}
        self.assertEqual(containers.container_of(kernel, 7).processes(), [7, 8])

    def test_mounts_of_a_process(self):
        text = (b"78 77 0:45 / /sys/fs/cgroup rw - tmpfs tmpfs rw\n79 78 0:29 /a\\040b\\134 /sys/fs/cgroup/cpu ro "
                b"shared:1 master:2 - cgroup cgroup rw,cpu\n80 78 0:30 /c /sys/fs/cgroup ro - cgroup2 cgroup rw\n"
                b"x - cgroup \n")
        with unittest.mock.patch.object(ptrace, "contents", return_value=text):
            self.assertEqual(processes.Kernel().mounted_groups(7), [b"/a b\\", b"/c"])

    def test_other_processes_of_its_namespace(self):
        """Those of which nothing tells whose they are, but not those of another container."""
        path, second = f"/docker/{IDENTIFIER}", f"/docker/{IDENTIFIER[::-1]}"
        groups = {7: path, 8: f"{path}/a", 9: second, 10: "/", 11: "/user.slice/x", 12: "/user.slice/x", 13: "/../y"}
        kernel = FakeKernel()
        kernel.processes, kernel.groups_of = lambda: list(groups), lambda number: {"": groups[number].encode()}
        kernel.namespaces_of = lambda number: [(1, 1)] if number in (12, containers.os.getpid()) else [(1, 7), (1, 1)]
        container = containers.container_of(kernel, 7)
        self.assertEqual((container.processes(), container.others()), ([7, 8], [10, 11, 13]))
        self.assertIn("10 (fake), 11 (fake), 13 (fake); whether", containers.others_note(kernel, container))
        # it shares the tool's namespace
        kernel.namespaces_of = lambda _: [(1, 1)]
        container = containers.container_of(kernel, 7)
        self.assertEqual((container.processes(), containers.others_note(kernel, container)), ([7, 8], None))
