"""tools/oci-hook in containers of a real runc, crun and podman, where they are and start containers."""
import contextlib
import glob
import json
import os
import re
import shutil
import signal
import subprocess
import time

from support.common import TOP, comes, text_of, tool
from support.confined import here
from support.containers import ALONE, Box, said
from support.own_machine import make_rootfs, podman_settings, spec_of
from host.test_filters_of import ROOT, refuses
from host.test_oci_hook import Hook, processes
from host.test_processes import EXECUTE
from forms.test_runtimes import MOBY, PODMAN
from scfhost import ptrace

LOADED = {"defaultAction": "SCMP_ACT_ALLOW", "architectures": ["SCMP_ARCH_X86_64"],
          "syscalls": [{"names": ["mount", "ptrace"], "action": "SCMP_ACT_ERRNO", "errnoRet": 1}]}
PATH = {"env": [f"PATH={os.environ['PATH']}"]}


def state_of(pid):
    return processes.Kernel().status_of(pid).get("State", "Z")[0]


def has_ended(pid):
    return state_of(pid) in "ZX"


@here
@ROOT
class Containers(Hook):
    """Containers that a runtime makes of a bundle."""

    def configuration(self, loaded, stated, words, args=("sleep", "1000"), shared=(), hooks=None, **settings):
        """A configuration with a profile, whose hook finds another one that is stated in its place."""
        config = spec_of(self.box.where, args)
        config["linux"]["namespaces"] = [namespace for namespace in config["linux"]["namespaces"]
                                         if namespace["type"] not in shared]
        config["linux"]["seccomp"] = stated
        second = self.file("other.json", config)
        config["linux"]["seccomp"] = loaded
        config["hooks"] = {**(hooks or {}), "poststart": [
            {"path": shutil.which("cp"), "args": ["cp", second, self.box.config], **PATH},
            # a runtime may take long to load the filter
            {"path": tool("oci-hook"), "args": ["oci-hook", "--wait=30", *words], **PATH, **settings}]}
        return config

    @contextlib.contextmanager
    def container(self, runtime, loaded=None, stated=None, *words, **settings):
        """A container: how the runtime ended, what was said, and the process, None where there is none."""
        loaded = LOADED if loaded is None else loaded
        with contextlib.closing(Box(runtime)) as self.box:
            made = self.box.make(self.configuration(loaded, loaded if stated is None else stated, words, **settings))
            if made[0] and "oci-hook" not in made[1]:
                self.skipTest(f"{runtime} starts no container here: {made[1].strip()}")
            yield made

    def by_hand(self, *words):
        """The hook, called with the state of a container that runs."""
        status, _, err = self.run_tool("oci-hook", *words, given=self.box.call("state", self.box.name)[1].encode())
        return status, self.lines(err)

    def is_same(self, pid, profile, *words):
        """verify-process says it plainly."""
        out = self.begins(0, "same", self.run_tool("verify-process", "--all", *words, str(pid), profile))
        self.assertFalse([line for line in out.split("\n") if "differ" in line], out)

    def called(self, *words):
        """The processes that were called so."""
        wanted = b"".join(word.encode() + b"\0" for word in words)
        return [item for item in ptrace.numbers_in("/proc") if ptrace.contents(f"/proc/{item}/cmdline") == wanted
                and not has_ended(item)]

    def runs(self, pid):
        """Whether a process runs, a moment later too."""
        time.sleep(0.3)
        return pid is not None and not has_ended(pid)


class Runtimes(Containers):
    def test_runc_refuses_one_that_is_not(self):
        """A container whose hook fails."""
        value = json.loads(refuses("mount", "chroot"))
        with self.container("runc", LOADED, value) as (status, message, pid):
            self.assertEqual(status, 1, message)
            self.assertIn(f"container {self.box.name}: not confined as configured (differs)", message)
            self.assertTrue(pid is None or comes(lambda: has_ended(pid)))
        with self.container("runc", LOADED, json.loads(refuses("mount")), "--policy", "no-more") as result:
            status, message, pid = result
            self.assertEqual((status, self.runs(pid)), (0, True), message)

    def test_crun_lets_one_run_that_is_not(self):
        """But for --kill."""
        value = json.loads(refuses("mount", "chroot"))
        with self.container("crun", LOADED, value) as (status, message, pid):
            self.assertEqual((status, self.runs(pid)), (0, True), message)
        with self.container("crun", LOADED, value, "--kill") as (status, message, pid):
            self.assertTrue(comes(lambda: has_ended(pid)), message)

    def test_the_default_profiles(self):
        """What is loaded of them is plainly the same by --runtime, by the hook and by verify-process."""
        for engine, path in (("docker", MOBY), ("podman", PODMAN)):
            self.skip_if(not os.path.exists(path), f"there is no {path} here")
            resolved = self.json_of("resolve-profile", "--engine", engine, path)
            for runtime in ("runc", "crun"):
                with self.subTest(f"{engine}'s by {runtime}"), self.container(
                        runtime, resolved, resolved, "--kill", f"--runtime={runtime}") as (status, message, pid):
                    self.assertEqual((status, self.runs(pid)), (0, True), message)
                    self.is_same(pid, self.box.config, "--runtime", runtime)

    def test_one_that_is_confined(self):
        """It runs on; all its processes are looked at, also those that were brought in."""
        for runtime in ("runc", "crun"):
            with self.subTest(runtime), self.container(runtime, None, None, "--kill") as (status, message, pid):
                self.assertEqual(status, 0, message)
                self.box.call("exec", "--detach", self.box.name, "sleep", "999")
                lines = self.of_status(0, self.by_hand("--kill"))
                named = [line for line in lines if re.fullmatch(r"# process \d+ \(sleep\) has 1 filter, .*", line)]
                self.assertEqual(len(named), 2, lines)
                self.assertTrue(self.runs(pid))

    def test_a_process_begun_before_the_filter(self):
        """By a hook of the configuration, within the container; runc would wait for its end."""
        # (crun goes on to another root once the shell has ended: by then the process has loaded its library)
        begin = {"createContainer": [{"path": "/bin/sh", **PATH, "args": [
            "sh", "-c", "sleep 998 </dev/null >/dev/null 2>&1 & sleep 1"]}]}
        with self.begun("--wait=0.2", loaded=LOADED, hooks=begin) as pid:
            self.assertTrue(self.runs(pid))
            self.assertEqual(len(self.called("sleep", "998")), 1)
        with self.begun("--kill", "--wait=0.2", loaded=LOADED, hooks=begin) as pid:
            self.assertTrue(comes(lambda: has_ended(pid)))
            self.assertEqual(self.called("sleep", "998"), [])

    def test_one_without_a_pid_namespace(self):
        """Its processes are those of its control group; all are looked at, and all are killed."""
        begin = ["sh", "-c", "sleep 997 & sleep 997 & exec sleep 997"]
        for runtime in ("runc", "crun"):
            with self.subTest(runtime), self.container(runtime, shared=["pid"], args=begin) as (status, message, pid):
                self.assertEqual(status, 0, message)
                self.assertTrue(comes(lambda: len(self.called("sleep", "997")) == 3))
                actual = self.called("sleep", "997")
                status, lines = self.by_hand()
                named = [line for line in lines if line.startswith("# process ")]
                self.assertEqual((status, len(named)), (0, 3), lines)
                config = json.loads(text_of(self.box.config))
                config["linux"]["seccomp"] = json.loads(refuses("chroot"))
                self.box.configure(config)
                status, lines = self.by_hand("--kill")
                self.assertEqual((status, lines[1]), (1, f"process {pid} was killed, and 2 more of the container"))
                self.assertTrue(comes(lambda: all(map(has_ended, actual))))

    def test_one_that_is_paused(self):
        """Nothing hangs, and it doesn't survive being let on."""
        with self.container("runc") as (status, message, pid):
            self.assertEqual(status, 0, message)
            status, message = self.box.call("pause", self.box.name)
            self.skip_if(status, f"runc pauses no container here: {message.strip()}")
            began = time.monotonic()
            status, lines = self.by_hand("--kill", "--wait=0", "--deadline=1")
            self.assertLess(time.monotonic() - began, 30)
            if status:
                self.assertIn(str(pid), lines[1])
                self.box.call("resume", self.box.name)
                self.assertTrue(comes(lambda: has_ended(pid)))
            else:
                self.assertEqual(lines[1], "same")

    def test_one_that_ends_at_once(self):
        for runtime in ("runc", "crun"):
            with self.subTest(runtime), self.container(runtime, None, None, "--kill", args=["true"]) as result:
                _, message, pid = result
                self.assertTrue(pid is None or comes(lambda: has_ended(pid)), message)

    @contextlib.contextmanager
    def begun(self, *words, program=None, **settings):
        """A container that crun creates and then starts, as podman has it do: crun says nothing of a hook that fails,
        or that it ends at its timeout, and lets the container run on. Its process, once crun has done all."""
        with contextlib.closing(Box("crun")) as self.box:
            if program is not None:
                shutil.copy(program, f"{self.box.where}/rootfs/bin")
            status, message, pid = self.box.make(self.configuration(stated=LOADED, words=words, **settings), "create")
            self.skip_if(status, f"crun creates no container here: {message.strip()}")
            # (where a hook kills the container early, crun may write to one that is gone)
            status, _ = self.box.call("start", self.box.name)
            self.assertTrue(status == 0 or "--kill" in words and status == -signal.SIGPIPE, status)
            yield pid

    def test_one_whose_hook_is_ended_by_its_timeout(self):
        """crun ends the hook while that waits for a filter: the container is killed nevertheless."""
        with self.begun(timeout=10, loaded=None, args=["sleep", "996"]) as pid:
            self.assertTrue(self.runs(pid))
        with self.begun("--kill", timeout=10, loaded=None, args=["sleep", "996"]) as pid:
            self.assertTrue(comes(lambda: has_ended(pid)))

    def test_one_that_executes_itself_again_and_again(self):
        """From one of its many threads, which keeps who stops them waiting."""
        program = self.built(EXECUTE, "-static", "-pthread")
        value = json.loads(refuses("chroot"))
        args = ["/bin/program", "200", "1000"]
        with self.begun("--kill", "--deadline=2", "--wait=0", program=program, loaded=value, args=args) as pid:
            self.assertTrue(comes(lambda: has_ended(pid)))


class Podman(Containers):
    """Podman with runc and with crun: the default profile of its own."""

    def setUp(self):
        super().setUp()
        self.needs("busybox")
        self.name, self.where = f"scf-hook-{os.getpid()}", os.path.join(self.folder, "box")
        self.parent = "--cgroup-parent", f"/{self.name}"
        make_rootfs(self.where)
        self.addCleanup(self.remove_groups)

    def podman(self, *words):
        settings = podman_settings(self, f"{self.folder}/podman/run")
        return said([*ALONE, "podman", *words], env={**os.environ, **settings})

    def started(self, options, name, *words):
        """A container of podman with these options and words of `run`: its identifier, first process, configuration."""
        self.addCleanup(self.podman, "rm", "--force", "--time", "0", name)
        status, message = self.podman(*options, "run", "--detach", "--name", name, *words, "--rootfs",
                                      f"{self.where}/rootfs", "sleep", "1000")
        self.skip_if(status and "oci-hook" not in message, f"podman starts no container here: {message.strip()}")
        self.assertEqual(status, 0, message)
        return self.podman("inspect", "--format", "{{.Id}} {{.State.Pid}} {{.OCIConfigPath}}", name)[1].split()

    def test_the_default_profile(self):
        self.needs("podman", "runc", "crun")
        for runtime in ("runc", "crun"):
            with self.subTest(runtime):
                self.file("hooks/scf.json", self.run_tool("oci-hook", "--print-hook", "--kill", "--runtime",
                                                          runtime)[1])
                options = "--hooks-dir", f"{self.folder}/hooks", "--runtime", shutil.which(runtime)
                _, pid, config = self.started(options, f"{self.name}-{runtime}", *self.parent)
                self.assertTrue(self.runs(int(pid)))
                self.is_same(pid, config, "--runtime", runtime)
                if runtime == "crun":
                    held = json.loads(text_of(config))["process"]["capabilities"]["bounding"]
                    self.is_same(pid, PODMAN, "--runtime", "podman", "--caps", ",".join(held))

    def says(self, runtime, identifier, pid, path, expected):
        """What each gate says of a container: whether it is confined by its configuration, or unconfined by that."""
        status, word = (0, "same") if expected == "as configured" else (1, expected)
        for given in ((), ("--all",), ("--no-more",)):
            actual, out, err = self.run_tool("verify-process", "--runtime", runtime, *given, pid, path)
            self.assertEqual((actual, out.splitlines()[0], err), (
                status, "no more" if given == ("--no-more",) and word == "same" else word, ""))
        actual = self.json_of("verify-process", "--runtime", runtime, "--json", pid, path)
        self.assertEqual((actual["status"], actual["verdict"]), (status, word))
        rows = self.json_of("audit", "--json")["rows"]
        rows = [row for row in rows if row.get("id") == identifier]
        self.assertEqual([row["verdict"] for row in rows], [expected], rows)
        actual, out, err = self.run_tool("filters-of", pid, f"filters-{identifier}")
        self.assertEqual((actual, len(out.splitlines()), err), (0, 1, "") if word == "same" else
                         (1, 0, f"filters-of: process {pid} has no filter\n"))
        state = json.dumps({"ociVersion": "1.0.2", "id": identifier, "status": "running", "pid": int(pid),
                            "bundle": os.path.dirname(path)})
        actual, _, err = self.run_tool("oci-hook", "--runtime", runtime, "--wait=0", given=state.encode())
        self.assertEqual((actual, self.lines(err)[0].partition(": ")[2]), (
            status, "confined as configured (same)" if word == "same" else word))

    def test_with_and_without_a_profile(self):
        """A container, one in a pod, a privileged one, and one without a profile, by both runtimes."""
        self.needs("podman", "runc", "crun")
        pod, parent = f"{self.name}-pod", self.parent
        self.addCleanup(self.podman, "pod", "rm", "--force", pod)
        status, message = self.podman("pod", "create", "--infra=false", "--name", pod, *parent)
        self.skip_if(status, f"podman makes no pod here: {message.strip()}")
        actual = []
        for runtime, name, words, expected in (
                ("crun", "plain", parent, "as configured"), ("crun", "in", ("--pod", pod), "as configured"),
                ("crun", "all", ("--privileged", *parent), "unconfined by configuration"),
                ("crun", "open", ("--security-opt", "seccomp=unconfined", *parent), "unconfined by configuration"),
                ("runc", "runc", parent, "as configured"),
                ("runc", "runc-all", ("--privileged", *parent), "unconfined by configuration")):
            with self.subTest(name):
                options = "--runtime", shutil.which(runtime)
                identifier, pid, path = self.started(options, f"{self.name}-{name}", *words)
                self.says("podman" if runtime == "crun" else runtime, identifier, pid, path, expected)
                actual.append((identifier, pid, path))
        # the configuration of another container
        for (first, pid, _), (second, _, path) in zip(actual, actual[1:]):
            status, out, err = self.run_tool("verify-process", "--runtime", "podman", pid, path)
            self.assertEqual((status, out), (2, ""))
            self.assertIn(f"the configuration is that of the container {second[:12]}, and process {pid} (sleep) is in "
                          f"the container {first[:12]}: `podman inspect", err)

    def test_the_installed_hook(self):
        """A default container starts with what make install puts for hooks.d, which finds it confined as configured."""
        self.needs("podman")
        prefix = f"{self.folder}/prefix"
        subprocess.run(["make", "-s", "-C", TOP, "install", f"PREFIX={prefix}"], check=True)
        identifier, pid, path = self.started(("--hooks-dir", f"{prefix}/share/scf/hooks.d"), self.name, *self.parent)
        hook = json.loads(text_of(f"{prefix}/share/scf/hooks.d/scf.json"))["hook"]
        state = {"ociVersion": "1.0.2", "id": identifier, "status": "running", "pid": int(pid),
                 "bundle": os.path.dirname(path)}
        status, out, err = self.run_words([hook["path"], *hook["args"][1:]], json.dumps(state).encode())
        self.assertEqual((status, out), (0, ""))
        self.assertRegex(err, "(?m)^scf-oci-hook: same$")
        self.assertIn("dry run: the status is 0 without --dry-run, too\n", err)

    def remove_groups(self):
        """Podman leaves the control group that holds its containers'."""
        for path in glob.glob(f"/sys/fs/cgroup/{self.name}") + glob.glob(f"/sys/fs/cgroup/*/{self.name}"):
            for inner in [*glob.glob(f"{path}/*/"), path]:
                with contextlib.suppress(OSError):
                    os.rmdir(inner)
