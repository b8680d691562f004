"""tools/verify-process beside a container's config.json: where nothing is configured, and of users' mistakes."""
import json
import os
import unittest
from unittest import mock

from support.confined import FakeKernel, here
from host.test_filters_of import MOUNT, Confined, comments, refuses, refusing
from scftools.base import program
from scfhost import configurations, containers
from scfhost.commands import verify
from scfhost.container_files import ContainerDescription

ONE, TWO = "01" * 32, "ef" * 32
BY_CONFIGURATION, THOUGH = "unconfined by configuration", "unconfined though configured"
NOTHING = ("nothing is configured (linux.seccomp), as with --privileged and seccomp=unconfined; that counts as a "
           "profile that allows every syscall")
# runc 1.1 starts a container without seccomp for each of these, and crun 1.8 for each that it takes.
WITHOUT = ({"linux": {}}, {"linux": {"seccomp": None}}, {"ociVersion": "1.0.2", "linux": None},
           {"ociVersion": "1.0.2", "process": {"args": ["true"]}}, {"linux": {"seccomp": {}}},
           {"linux": {"seccomp": {"architectures": ["SCMP_ARCH_X86_64"], "defaultAction": "", "syscalls": []}}})
RUNTIMES = ((), ("--runtime", "podman"), ("--runtime", "docker"), ("--runtime", "runc"), ("--runtime", "crun"))


def config(*names, **members):
    """A configuration whose profile refuses these calls."""
    seccomp = {**json.loads(refuses(*names)), "architectures": ["SCMP_ARCH_X86_64"]}
    return {"ociVersion": "1.0.2", "linux": {"seccomp": seccomp, **members}}


@here
class Configurations(Confined):
    def verify(self, child, given, *words):
        path = self.file("config.json", given)
        status, out, err = self.run_tool("verify-process", *words, str(child.pid), path)
        self.assertEqual(err, "")
        return status, out

    def test_nothing_is_configured_and_no_filter_is_there(self):
        child = self.child([])
        for given in WITHOUT:
            for words in RUNTIMES:
                out = self.begins(1, BY_CONFIGURATION, self.verify(child, given, *words))
                self.assertIn(f"# process {child.pid} (", out)
                self.assertIn(f"# {NOTHING}\n", out)
                status, out = self.verify(child, given, "--json", *words)
                value = json.loads(out)
                self.assertEqual((status, value["status"], value["verdict"], value["stacks"][0]["verdict"],
                                  value["remarks"]), (1, 1, BY_CONFIGURATION, BY_CONFIGURATION, [NOTHING]))
        for words in (("--no-more",), ("--no-less",), ("--calls",), ("--native",)):
            self.assertEqual(self.verify(child, WITHOUT[0], *words)[0], 1, words)

    def test_nothing_is_configured_and_a_filter_is_there(self):
        """It is stricter than what is configured; `audit` says so, too."""
        child = self.child([refusing(MOUNT)])
        for words in RUNTIMES:
            status, out = self.verify(child, WITHOUT[0], *words)
            self.assertEqual((status, out.splitlines()[0], out.splitlines()[2:4]),
                             (1, "differs", ["filter ERRNO 1", "profile ALLOW 0"]))
            self.assertIn("it is stricter, and never more permissive than the profile", comments(out))
            self.assertIn(NOTHING, comments(out))
            self.assertEqual(self.verify(child, WITHOUT[0], "--no-more", *words)[1].splitlines()[0], "no more")
            value = json.loads(self.verify(child, WITHOUT[0], "--json", *words)[1])
            self.assertEqual((value["verdict"], value["stacks"][0]["no_more"], value["remarks"]),
                             ("differs", "no more", [NOTHING]))

    def test_something_is_configured_and_no_filter_is_there(self):
        child = self.child([])
        for words in RUNTIMES:
            status, out = self.verify(child, config("mount"), *words)
            self.assertEqual((status, out.splitlines()[0]), (1, THOUGH))
            self.assertNotIn(NOTHING, out)
            value = json.loads(self.verify(child, config("mount"), "--json", *words)[1])
            self.assertEqual((value["status"], value["verdict"]), (1, THOUGH))

    def test_two_answers_to_a_syscall(self):
        """As the default profiles of engines have: the runtimes take them."""
        given = config("mount")
        given["linux"]["seccomp"]["syscalls"].append({"names": ["mount"], "action": "SCMP_ACT_TRAP"})
        child = self.child([])
        for words in RUNTIMES:
            self.begins(1, THOUGH, self.verify(child, given, *words))

    def test_a_thread_beside_others(self):
        child = self.child([refusing(MOUNT)], [])
        for given, word in ((config("mount"), THOUGH), ({"linux": {}}, BY_CONFIGURATION)):
            out = self.of_status(1, self.verify(child, given))
            self.assertIn(word, out.splitlines())
            value = json.loads(self.verify(child, given, "--json")[1])
            self.assertIn(word, [stack["verdict"] for stack in value["stacks"]])

    def test_a_profile_alone_configures_nothing(self):
        """A profile isn't a container's configuration: nothing is said of one."""
        child = self.child([])
        path = self.file("p.json", refuses("mount"))
        status, out, _ = self.run_tool("verify-process", str(child.pid), path)
        self.assertEqual((status, len(out.splitlines())), (1, 1), out)
        value = self.json_of("verify-process", "--json", str(child.pid), path)
        self.assertEqual(value["verdict"], "unconfined")

    def test_what_only_some_runtimes_read(self):
        child = self.child([])
        for given, says in (({"linux": {"Seccomp": {}}}, "has a member 'Seccomp', which runc reads as seccomp"),
                            ({"ociVersion": "1", "process": {}, "Linux": {}},
                             "has a member 'Linux', which runc reads as linux"),
                            ({"linux": 7}, "isn't a container's configuration"),
                            ({"linux": {"seccomp": {"DefaultAction": "SCMP_ACT_ALLOW"}}}, "'DefaultAction'"),
                            # what `runc state` prints, and the files that runc and crun keep
                            ({"ociVersion": "1.0.2", "id": "x", "pid": 7, "status": "running", "bundle": "/b"},
                             "it is a container's state, which says nothing about seccomp: take /b/config.json\n"),
                            ({"id": "x", "init_process_pid": 7, "config": {}},
                             "it is a container's state, which says nothing about seccomp: take the config.json of its "
                             "bundle\n"), ({"pid": 7, "bundle": "/b"}, "take /b/config.json\n")):
            path = self.file("config.json", given)
            for words in RUNTIMES:
                self.is_refused(says, "verify-process", *words, str(child.pid), path)

    def test_a_profile_that_is_refused(self):
        """Nothing is said of a configuration that no runtime takes."""
        child = self.child([])
        for seccomp in (7, {"syscalls": [{}]}, {"defaultAction": "SCMP_ACT_X"}):
            path = self.file("config.json", {"linux": {"seccomp": seccomp}})
            status, out, err = self.run_tool("verify-process", str(child.pid), path)
            self.assertEqual((status, out), (1, f"# process {child.pid} (python3) has no filter: it isn't confined, "
                                                "and every syscall is allowed\n"), err)
            for words in RUNTIMES[1:]:
                self.assertEqual(self.run_tool("verify-process", *words, str(child.pid), path)[:2], (2, ""))

    def test_a_filter_that_the_configuration_of_a_hook_lacks(self):
        """The hook doesn't say that it isn't there."""
        state = {"ociVersion": "1.0.2", "id": "box", "status": "running", "bundle": self.folder}
        self.file("config.json", WITHOUT[0])
        for filters, says in (([], "the container isn't confined"),
                              ([refusing(MOUNT)], "the container's first process has a filter that isn't its "
                                                  "runtime's")):
            given = json.dumps({**state, "pid": self.child(filters).pid}).encode()
            status, _, err = self.run_tool("oci-hook", "--wait=0", given=given)
            self.assertEqual(status, 1)
            self.assertIn(f"oci-hook: the configuration has no seccomp profile: {says}\n", err)


class Owners(unittest.TestCase):
    """Which process a configuration is known not to be of, by the groups and namespaces of the process; the runtime
    that a container really has; and a container by its name, or by the beginning of its ID."""

    def why_not(self, groups, linux, spaces=((4, 0xEFFFFFFC),)):
        kernel = FakeKernel()
        kernel.groups_of = lambda _: {"": groups.encode()}
        kernel.namespaces_of, kernel.name_of = lambda _: list(spaces), lambda _: b"sl\x1beep"
        return configurations.why_not_its(kernel, 7, {"linux": linux})

    def test_identifiers(self):
        """As podman and Docker state a group, by either driver, and as the kernel shows the process's."""
        for stated in (f"/libpod_parent/libpod-{ONE}", f"machine.slice:libpod:{ONE}", f"/docker/{ONE}",
                       f"/kubepods/pod{TWO}/{ONE}"):
            for shown in (f"/libpod_parent/libpod-{TWO}", f"/machine.slice/libpod-{TWO}.scope/container",
                          f"/docker/{TWO}/init.scope"):
                self.assertEqual(self.why_not(shown, {"cgroupsPath": stated}),
                                 "the configuration is that of the container 010101010101, and process 7 (sl\\x1beep) "
                                 "is in the container efefefefefef")
                self.assertIsNone(self.why_not(shown.replace(TWO, ONE), {"cgroupsPath": stated}))
            # a container in a container, and a process whose group names none
            self.assertIsNone(self.why_not(f"/docker/{TWO}/docker/{ONE}", {"cgroupsPath": stated}))
            self.assertIsNone(self.why_not("/", {"cgroupsPath": stated}))
        for linux in ({}, {"cgroupsPath": 7}, {"cgroupsPath": "/box"}, {"namespaces": 7}, None):
            self.assertIsNone(self.why_not(f"/docker/{TWO}", linux))

    def test_namespaces(self):
        """conmon, and the number of a process in the container taken for one of the machine's."""
        made = {"namespaces": [{"type": "mount"}, {"type": "pid"}]}
        self.assertEqual(self.why_not("/", made), "process 7 (sl\\x1beep) is in no container with this configuration, "
                                                  "which has a PID namespace of its own")
        for linux, spaces in ((made, [(4, 0xF0000001), (4, 0xEFFFFFFC)]), (made, [(4, 0xF0000001)]), (made, []),
                              ({"namespaces": [{"type": "pid", "path": "/proc/1/ns/pid"}]}, [(4, 0xEFFFFFFC)]),
                              ({"namespaces": [{"type": "mount"}]}, [(4, 0xEFFFFFFC)])):
            self.assertIsNone(self.why_not("/", linux, spaces))

    def test_the_folders_of_runtimes(self):
        """Those that runc and crun keep for root."""
        def other(actual, runtime):
            with mock.patch("os.path.exists", lambda path: path == actual):
                return configurations.other_runtime([TWO, ONE], runtime)

        for name, state in (("runc", f"/run/runc/{ONE}/state.json"), ("crun", f"/run/crun/{ONE}/status")):
            for runtime in (None, "runc", "crun", "docker", "podman"):
                is_it = runtime in {"runc": ("runc", "docker"), "crun": ("crun", "podman")}[name]
                self.assertEqual(other(state, runtime), None if is_it else (
                    f"the container's runtime is {name}, by /run/{name}/{ONE}: --runtime {name} reads the profile as "
                    "it does"))
        self.assertIsNone(other("/run/runc/x/state.json", "crun"))

    def test_names_of_none_or_several(self):
        made = [ContainerDescription(identifier, "podman", "crun", 1, "config.json", name=name) for identifier, name in
                (("abc1" + "0" * 60, "box"), ("abd2" + "0" * 60, "web"), ("bo" + "0" * 62, None), ("abc1", "ab"))]
        for word, found in (("box", 0), ("web", 1), ("abd", 1), ("bo", 2), ("bo0", 2), ("abc1", 3), ("ab", 3),
                            ("abc10", 0)):
            with self.subTest(word):
                self.assertIs(verify.container_named(made, word, None), made[found])
        for word, user, says in (
                ("a", None, "'a' isn't a process ID, and several containers of root have that name or an ID that "
                 "begins so; these: abc100000000 (box), abd200000000 (web), abc1 (ab)"),
                *((unit, None, f"'{unit}' is a unit: its process is what `systemctl show -p MainPID --value UNIT` "
                               "prints, and its profile is unit:UNIT") for unit in ("unit:x", "x.service", "-.mount")),
                ("none", 1000, "'none' isn't a process ID, and no container of user 1000 has that name or an ID that "
                 "begins so; those that run: abc100000000 (box), abd200000000 (web), bo0000000000, abc1 (ab)")):
            with self.subTest(word), self.assertRaises(program.ToolError) as raised:
                verify.container_named(made, word, user)
            self.assertEqual((str(raised.exception), raised.exception.status), (says, program.TROUBLE))


@here
class Named(Confined):
    """A container that is named, as audit finds it; the look-up itself is audit's."""

    def find(self, child, identifier, configuration, name=None):
        """Lets a child be the process of the one container, with the settings as audit's children answer them."""
        seccomp = configurations.seccomp_in(configuration, "/box/config.json")
        found = ContainerDescription(identifier, "podman", "crun", child.pid, "/box/config.json",
                                     None if seccomp is None else json.dumps(seccomp), name=name)
        self.patched(verify.container_files, "described_containers", lambda *_: [found])
        self.patched(verify.processes, "container_of", lambda *_: containers.Container(b"/box", lambda: [child.pid]))

    def test_its_own_configuration_is_what_counts(self):
        child = self.child([refusing(MOUNT)])
        for profile, words, status, says in (
                (config("mount"), (), 0, "same"), (config("mount", "ptrace"), ("--no-more",), 1, "more"),
                ({"linux": {}}, (), 1, "differs"),
                ({"linux": {}}, (self.file("p.json", refuses("mount")),), 0, "same")):
            with self.subTest(profile, words=words):
                self.find(child, ONE, profile, "box")
                actual, out, err = self.run_tool("verify", "box", *words)
                self.assertEqual((actual, out.splitlines()[:2], err),
                                 (status, [f"container box ({ONE}), podman, /box/config.json", says], ""))

    def test_without_a_profile_it_is_unconfined_by_configuration(self):
        self.find(self.child([]), TWO, {"linux": {}})
        status, out, _ = self.run_tool("verify", TWO[:6])
        self.assertEqual((status, out.splitlines()[:2]),
                         (1, [f"container {TWO[:6]} ({TWO}), podman, /box/config.json", BY_CONFIGURATION]))
        value = self.json_of("verify", "--json", TWO[:6])
        self.assertEqual((value["verdict"], value["named"]), (BY_CONFIGURATION, {
            "name": None, "id": TWO, "engine": "podman", "config": "/box/config.json"}))


class Mistakes(Confined):
    """What users type in place of a process and of a configuration: the line says what to do."""

    def says(self, *words):
        status, out, err = self.run_tool("verify-process", "--runtime", "podman", "--", *words)
        self.assertEqual((status, out), (2, ""), words)
        return err.splitlines()[-1]

    def test_a_process(self):
        path = self.file("p.json", refuses("mount"))
        for word, says in (("9" * 11, "'99999999999' isn't a process ID: for a container `podman inspect -f '{{.State."
                                      "Pid}}' NAME` prints it, as docker does, for a unit `systemctl show -p MainPID "
                                      "--value NAME`"),
                           ("", "'' isn't a process ID: the command that should print one printed nothing"),
                           ("0", "'0' isn't a process ID: it is what `podman inspect` prints of a container that "
                                 "doesn't run, and systemctl of a unit")):
            self.assertEqual(self.says(word, path), f"verify-process: {says}")

    def test_a_configuration(self):
        process = str(os.getpid())
        self.assertEqual(self.says(process, ""), "verify-process: the name of PROFILE is empty: the command that "
                                                 "should print it printed nothing")
        path = os.path.join(self.folder, "none", "config.json")
        self.assertEqual(self.says(process, path),
                         f"verify-process: there is no file '{path}': the container has ended, or was removed; of one "
                         "that runs `podman inspect -f '{{.OCIConfigPath}}' NAME` prints it")
        # what isn't a folder, and so no file in it either, is another matter
        self.file("folder", b"")
        self.assertNotIn("has ended", self.says(process, f"{self.folder}/folder/config.json"))
        self.file("bundle/config.json", "{}")
        path = f"{self.folder}/bundle"
        self.assertEqual(self.says(process, path), f"verify-process: '{path}' is a bundle's folder: take the file "
                                                   "config.json in it")
        self.assertEqual(self.says(process, f"{self.folder}/p.json"),
                         f"verify-process: there is no file '{self.folder}/p.json'")

    @here
    def test_the_configuration_of_another_container(self):
        child = self.child([])
        path = self.file("config.json", config("mount", namespaces=[{"type": "pid"}]))
        with open("/proc/self/ns/pid", "rb") as file:
            is_first = os.fstat(file.fileno()).st_ino == 0xEFFFFFFC
        self.skip_if(not is_first, "this isn't the machine's own PID namespace")
        self.assertIn(" is in no container with this configuration, which has a PID namespace of its own: `podman "
                      "inspect -f '{{.State.Pid}} {{.OCIConfigPath}}' NAME` prints", self.says(str(child.pid), path))
