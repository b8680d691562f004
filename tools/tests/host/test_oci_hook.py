"""tools/oci-hook: states and bundles made here, with a child of the test as the container's process."""
import json
import os
import signal
import subprocess
import threading
import time
from unittest import mock

from support.common import ALLOW, PATIENCE, comes, completed, gate, insn, jeq, load, ret, tool
from support.confined import Confined, FakeKernel, children_of, here, let_on, status_of
from host.test_filters_of import MOUNT, UMOUNT2, refuses, refusing
from scftools.base import program
from scftools.model import tables
from scfhost import hold, hooks, processes, verify

NO_MEMBER = object()


class Hook(Confined):
    """A hook that is called as a runtime calls it."""

    def bundle(self, profile, name="bundle"):
        """A bundle with this profile, the text of one, or a whole text where it is bytes; without one where None."""
        if not isinstance(profile, bytes):
            linux = {} if profile is None else {"seccomp": json.loads(profile)}
            profile = json.dumps({"ociVersion": "1.0.2", "process": {"args": ["true"]}, "linux": linux}).encode()
        return os.path.dirname(self.file(f"{name}/config.json", profile))

    def state(self, process, where, **members):
        state = {"ociVersion": "1.0.2", "id": "box", "status": "running", "pid": process, "bundle": where, **members}
        return json.dumps({name: value for name, value in state.items() if value is not NO_MEMBER}).encode()

    def hook(self, child, profile, *words, **members):
        """The status, and the lines on standard error without the name of the tool before them."""
        state = self.state(child.pid, self.bundle(profile), **members)
        status, out, err = self.run_tool("oci-hook", *words, given=state)
        self.assertEqual(out, "")
        return status, self.lines(err)

    def lines(self, err):
        """Each line is the tool's own."""
        self.assertTrue(err.endswith("\n") and "\x1b" not in err, err)
        lines = err.split("\n")[:-1]
        for line in lines:
            self.assertTrue(line.startswith("oci-hook: "), err)
        return [line[10:] for line in lines]

    def fails(self, given, says, *words, at=1):
        status, out, err = self.run_tool("oci-hook", *words, given=given)
        self.assertEqual((status, out), (2, ""), err)
        lines = self.lines(err)
        self.assertTrue(lines[0].endswith(": unknown whether it is confined as configured"), lines)
        self.assertIn(says, lines[at])
        return lines


class OfStates(Hook):
    """What the runtime says."""

    def test_states_that_are_none(self):
        bundle = self.bundle(refuses("mount"))
        for given, says in ((b"", "isn't JSON"), (b"{", "isn't JSON"), (b"\xff", "isn't JSON"),
                            (b"[" * 100000, "isn't JSON"), (b"[]", "isn't an object"),
                            (self.state(1, bundle, ociVersion=NO_MEMBER), "has no ociVersion"),
                            (self.state(1, bundle, id=NO_MEMBER), "has no id"),
                            (self.state(1, bundle, id=7), "has no id"),
                            (self.state(1, bundle, status=NO_MEMBER), "has no status"),
                            (self.state(1, bundle, bundle=""), "has no bundle"),
                            (self.state(1, "here"), "the bundle of container box isn't an absolute path"),
                            (self.state(1, "/a\0b"), "the bundle of container box isn't an absolute path"),
                            *((self.state(pid, bundle), "the state of container box has no pid")
                              for pid in (NO_MEMBER, 0, -1, "1", 1.5, True, 2**31, None)),
                            (b" " * (1 << 20 | 1), "has more than")):
            self.fails(given, says, "--kill")

    def test_it_is_killed_whatever_fails(self):
        """Also where the folder or a member of the configuration has half a pair of surrogates."""
        twice = self.folder + "/twice"
        self.file("twice/config.json", b'{"\\ud800":1,"\\ud800":2}')
        for bundle, says in (("/b\ud800", "there is no file '/b\\xed\\xa0\\x80/config.json'"),
                             (twice, "the member '\\xed\\xa0\\x80' is repeated")):
            child = self.alongside("sleep", "1000")
            status, _, err = self.run_tool("oci-hook", "--kill", given=self.state(child.pid, bundle, id="a\udfff"))
            self.assertEqual((status, child.wait()), (2, -signal.SIGKILL), err)
            self.assertIn("container a\\xed\\xbf\\xbf", err)
            self.assertIn(says, err)
        actual = hooks.run_safely(lambda: {}["none"])
        self.assertEqual((actual.status, actual.verdict), (70, None))
        self.assertRegex(actual.lines()[0], "^internal error: .* itself failed: KeyError; please report it$")

    @here
    def test_a_process_that_has_ended(self):
        gone, zombie = subprocess.Popen(["true"]), self.child([refusing(MOUNT)])
        gone.wait()
        self.fails(self.state(gone.pid, self.bundle(refuses("mount"))), f"there is no process {gone.pid}", "--kill")
        zombie.kill()
        self.wait_for(zombie.pid, "Z")
        lines = self.fails(self.state(zombie.pid, self.bundle(refuses("mount"))), "has ended already", "--kill")
        self.assertIn(f"process {zombie.pid} is a zombie: it has ended", lines[2])

    def test_hostile_names(self):
        """Of a container, of a bundle: no line is forged, and nothing reaches a terminal."""
        name = "\x1b[2J\noci-hook: container box: confined as configured (same)\r\u202e"
        shown = "\\x1b[2J\\x0aoci-hook: container box: confined as configured (same)\\x0d\\xe2\\x80\\xae"
        for members, at in (({"id": name}, 0), ({"bundle": f"/{name}"}, 1), ({"pid": 0, "id": name}, 1)):
            lines = self.fails(self.state(os.getpid(), "/none", **members), "")
            self.assertEqual(len(lines), 2)
            self.assertIn(shown, lines[at])
        value = self.json_of("oci-hook", "--json", given=self.state(os.getpid(), "/none", id=name))
        self.assertEqual((value["id"], value["status"]), (shown, 2))

    def test_the_file_for_hooks(self):
        """As oci-hooks(5) has it; the words are those that the hook is called with."""
        words = ["--policy", "no-more", "--keep-first", "--kill"]
        value = json.loads(self.output_of(0, "oci-hook", "--print-hook", *words))
        self.assertEqual((value["version"], value["when"], value["stages"]), ("1.0.0", {"always": True}, ["poststart"]))
        self.assertEqual((value["hook"]["path"], value["hook"]["args"]), (tool("oci-hook"), ["oci-hook", *words]))
        self.assertRegex(value["hook"]["env"][0], "^PATH=/")
        self.assertEqual(set(value), {"version", "when", "stages", "hook"})
        done = completed([value["hook"]["path"], *value["hook"]["args"][1:]], b"{}",
                         env=dict(item.split("=", 1) for item in value["hook"]["env"]))
        self.assertEqual(done.returncode, 2, done.stderr)
        read, write = os.pipe()
        for file in (read, write):
            self.addCleanup(os.close, file)
        for words in (["--wait", "x"], ["--kill", "--wait", "x"]):
            self.assertEqual(self.run_tool("oci-hook", "--print-hook", *words, given=read)[0], 2)

    def printed_hook(self, *words):
        return json.loads(self.output_of(0, "oci-hook", "--print-hook", *words))["hook"]

    def test_the_timeout_of_the_file_for_hooks(self):
        """It is a whole number, and leaves time to stop the threads and to compare after the wait."""
        for words, wait, deadline in (((), 1, hooks.DEADLINE), (("--wait", "0"), 0, hooks.DEADLINE),
                                      (("--wait=0.5", "--deadline=300"), 0.5, 300),
                                      (("--kill", "--wait", "60", "--deadline", "0.1"), 60, 0.1)):
            timeout = self.printed_hook(*words)["timeout"]
            self.assertIs(type(timeout), int)
            self.assertGreater(timeout, wait + deadline + hooks.STATE_SECONDS + hooks.KILL_SECONDS
                               + hooks.EXPLANATION_SECONDS + hooks.GRACE)
        self.assertGreater(hooks.DEADLINE, 2 * processes.PATIENCE)

    def test_the_table_of_the_file_for_hooks(self):
        """A runtime calls the hook elsewhere: the path is the absolute one."""
        path = os.path.join(os.path.realpath(self.folder), "x/a.table")
        for words, printed in ((("--table", "x/a.table", "--kill"), ["--table", path, "--kill"]),
                               (("--table=./x/a.table",), [f"--table={path}"]),
                               (("--table", "/x/a.table"), ["--table", "/x/a.table"])):
            self.assertEqual(self.printed_hook(*words)["args"], ["oci-hook", *printed])


@here
class OfProcesses(Hook):
    """What the process has, beside the bundle's config.json."""

    def test_policies(self):
        for numbers, policy, status, verdict in (
                ((MOUNT,), "same", 0, "same"), ((MOUNT, UMOUNT2), "same", 1, "differs"),
                ((MOUNT,), "no-more", 0, "no more"), ((MOUNT, UMOUNT2), "no-more", 0, "no more"),
                ((UMOUNT2,), "no-more", 1, "more")):
            child = self.child([refusing(*numbers)])
            lines = self.of_status(status, self.hook(child, refuses("mount"), "--policy", policy))
            word = "not confined" if status else "confined"
            self.assertEqual(lines[:2], [f"container box: {word} as configured ({verdict})", verdict])
            self.assertIn(f"# process {child.pid} (", lines[-2])
            self.runs_on(child)

    def test_what_differs_is_shown(self):
        status, lines = self.hook(self.child([refusing(UMOUNT2)]), refuses("mount"), "--policy=no-more")
        self.assertEqual((status, lines[2:5]), (1, ["call nr 165 arch 0xc000003e ip 0x0 args 0x0 0x0 0x0 0x0 0x0 0x0",
                                                    "filter ALLOW 0", "profile ERRNO 1"]))
        self.assertIn("# the syscall is mount (165)", lines)

    def test_a_process_without_a_filter(self):
        """It is waited for."""
        began = time.monotonic()
        status, lines = self.hook(self.child([]), refuses("mount"), "--wait=1.5")
        self.assertGreater(time.monotonic() - began, 1.5)
        self.assertEqual((status, lines[0]), (1, "container box: not confined as configured (unconfined)"))
        self.assertIn("has no filter: it isn't confined", lines[1])

    def test_a_filter_that_comes_later(self):
        child, late = self.child([]), self.file("late", refusing(MOUNT))
        begun = threading.Timer(0.5, lambda: self.do(child, f"confine([{late!r}])"))
        begun.start()
        self.assertEqual(self.hook(child, refuses("mount"), "--wait=60")[0], 0)
        begun.join()

    def test_before_the_program_is_executed(self):
        """Of a container that is created only the main thread counts; of one that runs, all do."""
        child = self.child([refusing(MOUNT)], [], [refusing(UMOUNT2)])
        self.assertEqual(self.hook(child, refuses("mount"), "--wait=0", status="created")[0], 0)
        status, lines = self.hook(child, refuses("mount"), "--wait=0")
        self.assertEqual((status, lines[0]), (1, "container box: not confined as configured (unconfined)"))
        child = self.child([refusing(UMOUNT2)], [refusing(MOUNT)])
        self.assertEqual(self.hook(child, refuses("mount"), status="created")[0], 1)

    def test_dry_run(self):
        """It only reports, also where its own words are wrong, and whatever fails."""
        child = self.child([refusing(UMOUNT2)])
        for profile, words, first, last in (
                (refuses("umount2"), (), "confined as configured (same)", "the status is 0 without --dry-run, too"),
                (refuses("mount"), (), "not confined as configured (differs)",
                 "without --dry-run the status would be 1"),
                (refuses("mount"), ("--kill",), "not confined as configured (differs)",
                 "without --dry-run the status would be 1, and the container would be killed"),
                (b"{", ("--kill",), "unknown whether it is confined as configured",
                 "without --dry-run the status would be 2, and the container would be killed")):
            status, lines = self.hook(child, profile, "--dry-run", *words)
            self.assertEqual((status, lines[0], lines[-1]), (0, f"container box: {first}", f"dry run: {last}"))
        given = self.state(child.pid, self.bundle(refuses("mount")))
        status, _, err = self.run_tool("oci-hook", "--kill", "--dry-run", "--wait=x", given=given)
        self.assertEqual(status, 0)
        self.assertIn("oci-hook: dry run: usage error: ", err)
        self.runs_on(child)
        status, out, _ = self.run_tool("oci-hook", "--dry-run", "--json", given=given)
        self.assertEqual((status, json.loads(out)["status"], json.loads(out)["dry_run"]), (0, 1, True))
        self.assertEqual(self.run_tool("oci-hook", "--print-hook", "--dry-run", "--wait", "x")[0], 2)

    def test_statuses(self):
        """With --kill it is killed wherever it isn't known to be confined as configured, and else runs on."""
        for profile, words, wanted in (
                (refuses("umount2"), (), 0), (refuses("mount"), (), 1), (refuses("umount2"), ("--limit=0",), 4),
                (refuses("umount2", architectures=7), (), 2), (b'{"linux":{"seccomp":{}}}', (), 1), (b"{", (), 2),
                (b"[]", (), 2), (b'{"linux":7}', (), 2), (b'{"ociVersion":"1.0.2"}', (), 1), (None, (), 1),
                (None, ("--allow-unconfined",), 0), (refuses("mount"), ("--allow-unconfined",), 1)):
            child = self.child([refusing(UMOUNT2)])
            self.assertEqual(self.hook(child, profile, *words)[0], wanted, profile)
            self.runs_on(child)
            lines = self.of_status(wanted, self.hook(child, profile, *words, "--kill"))
            if wanted:
                self.assertEqual(lines[1], f"process {child.pid} was killed")
                self.assertEqual(child.wait(PATIENCE), -signal.SIGKILL)
            else:
                self.runs_on(child)
        self.fails(self.state(os.getpid(), os.path.join(self.folder, "none")), "there is no file '")
        self.fails(self.state(os.getpid(), self.bundle(b" " * (1 << 22 | 1))), "has more than")

    def test_wrong_words(self):
        """A misspelt option lets nothing run that isn't known to be confined."""
        for words, status in ((["--polcy=same"], 0), (["--kill", "--polcy=same"], -signal.SIGKILL)):
            child = self.child([refusing(MOUNT)])
            actual, _, err = self.run_tool("oci-hook", *words, given=self.state(child.pid, self.bundle(
                refuses("mount"))))
            self.assertEqual(actual, 2)
            self.assertIn("unrecognized arguments: --polcy; the nearest is --policy", err)
            if not status:
                self.assertNotIn("container box", err)
                self.runs_on(child)
                child.stdin.close()
            self.assertEqual(child.wait(PATIENCE), status)

    def test_no_program(self):
        child = self.child([refusing(MOUNT)])
        tree = self.made_tree("#!/bin/sh\necho 'no compiler' >&2\nexit 125\n")
        status, _, err = self.run_words([f"{tree}/tools/oci-hook", "--kill"], self.state(child.pid, self.bundle(
            refuses("mount"))))
        self.assertEqual((status, child.wait(PATIENCE)), (125, -signal.SIGKILL), err)
        self.assertIn("no compiler\n", err)

    def test_others_that_cannot_be_told(self):
        """Of a process it can't be known whether it is the container's, too."""
        child = self.child([refusing(MOUNT)])
        process = hooks.ContainerProcess(hooks.container_of(self.state(child.pid, self.bundle(refuses("mount")))))
        table = tables.read_table(None)
        asked = verify.request_of(hooks.configuration_of(process.container), None, table)
        for others, expected in (([], (0, "same")), ([os.getpid()], (4, None))):
            process.members = processes.Container(None, list, lambda item=others: item)
            finding = hooks.finding_of(process.confined(0, False), asked, process)
            self.assertEqual((finding.status, finding.verdict), expected)
            self.assertEqual("weren't checked" in "".join(finding.lines()), bool(others))

    def test_members_that_are_one_in_go(self):
        """What runc reads as the profile, and crun doesn't, is refused."""
        value = json.loads(refuses("mount"))
        for config in ({"linux": {"seccomp": value}, "Linux": {}}, {"linux": {"seccomp": value, "\u017feccomp": value}},
                       {"LINUX": {"seccomp": value}}):
            lines = self.of_status(2, self.hook(self.child([refusing(MOUNT)]), json.dumps(config).encode()))
            self.assertIn("which runc reads as", lines[1])

    def test_a_profile_beside_the_one_that_runtimes_read(self):
        """They read `linux.seccomp` alone."""
        other_profile, profile = json.loads(refuses("umount2")), json.loads(refuses("mount"))
        for config, status in (({**other_profile, "linux": {"seccomp": profile}}, 0),
                               ({**profile, "linux": {"seccomp": other_profile}}, 1),
                               (profile, 1), ({"linux": {**profile, "seccomp": {"linux": {"seccomp": profile}}}}, 1)):
            for words in ((), ("--keep-first",)):
                actual, lines = self.hook(self.child([refusing(MOUNT)]), json.dumps(config).encode(), *words)
                if status == 0:
                    self.assertEqual(actual, 0, lines)
                else:
                    self.assertNotEqual(actual, 0, lines)
        self.assertEqual(self.hook(self.child([refusing(MOUNT)]), json.dumps(profile).encode())[1][0],
                         "container box: unconfined by configuration")

    def test_a_configuration_that_is_no_file(self):
        bundle = os.path.join(self.folder, "odd")
        os.mkdir(bundle)
        path = f"{bundle}/config.json"
        for make, says in ((os.mkfifo, "isn't a regular file"), (os.mkdir, "is a folder"),
                           (lambda path: os.symlink("/dev/zero", path), "isn't a regular file")):
            make(path)
            child = self.child([refusing(MOUNT)])
            self.fails(self.state(child.pid, bundle), says, "--kill", at=2)
            self.assertEqual(child.wait(PATIENCE), -signal.SIGKILL)
            (os.rmdir if os.path.isdir(path) else os.remove)(path)

    def test_a_process_begun_before_the_filter(self):
        """It isn't confined, though the first process is; both are killed."""
        child, late = self.child([]), self.file("late", refusing(MOUNT))
        self.do(child, f"import subprocess; print(subprocess.Popen(['sleep', '1000']).pid, flush=True); "
                       f"confine([{late!r}]); print('confined', flush=True)")
        second = int(child.stdout.readline())
        self.addCleanup(comes, lambda: not os.path.exists(f"/proc/{second}"))
        self.assertEqual(child.stdout.readline(), "confined\n")
        status, lines = self.hook(child, refuses("mount"), "--wait=0", "--kill")
        self.assertEqual((status, lines[:2]), (1, ["container box: not confined as configured (unconfined)",
                                                   f"process {child.pid} was killed, and 1 more of the container"]))
        self.assertIn(f"# process {second} (sleep) has no filter: it isn't confined, and every syscall is allowed",
                      lines)
        self.assertEqual(child.wait(PATIENCE), -signal.SIGKILL)
        self.assertTrue(comes(lambda: not os.path.exists(f"/proc/{second}")))

    def test_two_answers_to_one_call(self):
        profile = json.dumps({"defaultAction": "SCMP_ACT_ALLOW", "syscalls": [
            {"names": ["mount"], "action": "SCMP_ACT_ERRNO"}, {"names": ["mount"], "action": "SCMP_ACT_TRAP"}]})
        child = self.child([refusing(MOUNT)])
        status, lines = self.hook(child, profile)
        self.assertEqual((status, lines[:2]), (2, ["container box: unknown whether it is confined as configured",
                                                   "fault profile Conflict number 165 first 0 second 1"]))
        for words in (["--keep-first"], ["--runtime=runc"], ["--runtime=crun"]):
            self.assertEqual(self.hook(child, profile, *words)[0], 0, words)

    def test_json(self):
        child = self.child([refusing(UMOUNT2)])
        for profile, words, verdict, status in ((refuses("umount2"), (), "same", 0), (refuses("mount"), (), "differs",
                                                1), (None, (), "unstated", 1), (b"{", ("--kill",), None, 2)):
            actual, out, err = self.run_tool("oci-hook", "--json", *words,
                                             given=self.state(child.pid, self.bundle(profile)))
            value = json.loads(out)
            self.assertEqual((actual, err, value["status"], value["verdict"], value["id"], value["killed"]),
                             (status, "", status, verdict, "box", bool(words)))
        self.assertEqual(child.wait(PATIENCE), -signal.SIGKILL)

    def test_names_of_a_stranger_in_the_profile(self):
        lines = self.of_status(0, self.hook(self.child([refusing(MOUNT)]), refuses("mount", "\x1b[2J\nsame")))
        self.assertIn("# no known syscall is named \\x1b[2J\\x0asame", lines)
        self.assertFalse([line for line in lines if line.startswith("skipped ")])


def slow(count):
    """A filter that is known at once to allow mount, and slow to explain: other calls go both ways at many tests."""
    tests = b"".join(load(16 + 8 * (at % 6)) + insn(0x24, 2 * at + 3) + insn(0x45, 1 << at % 31, 1, 0) + insn(0x05, 0)
                     for at in range(count))
    return gate(jeq(MOUNT, 0, 1) + ret(ALLOW) + tests + ret(ALLOW))


@here
class OfTime(Hook):
    """Nothing that the hook or the container does keeps a container that isn't known to be confined running."""

    def begin(self, child, *words, profile=refuses("mount"), **settings):
        """A hook that is begun and given the state of a child."""
        hook = self.alongside(tool("oci-hook"), *words, stdin=subprocess.PIPE, stdout=subprocess.DEVNULL,
                              stderr=subprocess.PIPE, **settings)
        hook.stdin.write(self.state(child.pid, self.bundle(profile)))
        hook.stdin.close()
        return hook

    def is_watched(self, hook):
        """Waits until a hook has begun its watchdog and its worker, in process groups of their own."""
        self.assertTrue(comes(lambda: len(children_of(hook.pid)) == 2 and
                              [*map(os.getpgid, children_of(hook.pid))] == children_of(hook.pid)))

    def is_killed(self, child, seconds):
        began = time.monotonic()
        self.assertEqual(child.wait(PATIENCE), -signal.SIGKILL)
        self.assertLess(time.monotonic() - began, seconds)

    def is_let_on(self, child, fifo):
        """Lets a child go on once the one that reads the pipe isn't held any more."""
        self.assertTrue(comes(lambda: let_on(fifo) or status_of(child.pid)["State"][0] != "D"))

    def test_a_look_that_does_not_end(self):
        """A thread doesn't stop: at the deadline it is undecided."""
        child, fifo = self.stuck([refusing(MOUNT)])
        hook = self.begin(child, "--kill", "--deadline=0.5", "--wait=0")
        self.assertEqual(hook.wait(PATIENCE), 4)
        lines = self.lines(hook.stderr.read().decode())
        self.assertEqual(lines[::2], ["container box: unknown whether it is confined as configured",
                                      "undecided after 0.5 seconds"])
        # (the kernel ends a process in vfork(2) as soon as its child is out of it)
        self.assertIn(f"process {child.pid}", lines[1])
        self.is_let_on(child, fifo)
        self.is_killed(child, 30)

    def test_the_deadline_without_kill(self):
        child, fifo = self.stuck([refusing(MOUNT)])
        self.assertEqual(self.begin(child, "--deadline=0.5", "--wait=0").wait(PATIENCE), 4)
        self.is_let_on(child, fifo)
        self.let_go(child)
        self.runs_on(child)

    def test_the_hook_is_ended(self):
        """As a runtime ends it at its timeout; the container is killed at once."""
        for number in (signal.SIGKILL, signal.SIGTERM):
            child = self.child([])
            hook = self.begin(child, "--kill", "--wait=60")
            self.is_watched(hook)
            hook.send_signal(number)
            self.is_killed(child, 20)
            message = self.lines(hook.stderr.read().decode())
            # (and nothing of the worker's)
            self.assertEqual(message, [f"container box: the hook was ended or stopped: process {child.pid} was killed"])
            self.assertEqual(hook.wait(PATIENCE), -number)

    def test_the_worker_ends_with_the_hook(self):
        child = self.child([])
        hook = self.begin(child, "--wait=60")
        self.assertTrue(comes(lambda: children_of(hook.pid)))
        worker, = children_of(hook.pid)
        hook.kill()
        hook.wait()
        self.assertTrue(comes(lambda: processes.Kernel().status_of(worker).get("State", "Z")[0] in "ZX"))
        self.runs_on(child)

    def test_the_hook_is_stopped(self):
        """It, and all of its process group."""
        child = self.child([])
        hook = self.begin(child, "--kill", "--wait=0.5", "--deadline=0.5", start_new_session=True)
        self.is_watched(hook)
        os.killpg(hook.pid, signal.SIGSTOP)
        self.is_killed(child, 20)
        self.assertEqual(hook.wait(PATIENCE), -signal.SIGKILL)

    def test_the_worker_is_ended(self):
        child = self.child([])
        hook = self.begin(child, "--kill", "--wait=60")
        self.is_watched(hook)
        os.kill(children_of(hook.pid)[1], signal.SIGKILL)
        self.assertEqual(hook.wait(PATIENCE), 2)
        self.is_killed(child, 20)
        self.assertIn("the check ended with signal 9", hook.stderr.read().decode())

    def test_a_confined_one_runs_on(self):
        """Also behind the deadline of the watchdog, which is dismissed."""
        child = self.child([refusing(MOUNT)])
        hook = self.begin(child, "--kill", "--wait=0", "--deadline=10")
        self.assertEqual(hook.wait(PATIENCE), 0, hook.stderr.read())
        time.sleep(10.1 + hooks.GRACE)
        self.runs_on(child)

    def test_it_is_killed_before_it_is_explained(self):
        child = self.child([slow(100)])
        hook = self.begin(child, "--kill")
        self.is_killed(child, 20)
        self.assertIsNone(hook.poll())

    def test_an_explanation_that_takes_too_long(self):
        child = self.alongside("sleep", "1000")
        process = hooks.ContainerProcess(hooks.container_of(self.state(child.pid, "/none")))
        examination = hooks.Examination(process, 60, True)
        with mock.patch.object(hooks, "EXPLANATION_SECONDS", 0.1):
            actual = examination.result(lambda: hooks.HookResult(1, "differs", lambda: time.sleep(5), dict), True)
        self.assertEqual((actual.status, actual.verdict, actual.value()), (1, "differs", {
            "status": 1, "scope": "native", "verdict": "differs"}))
        self.assertEqual(actual.lines(), ["no explanation: it takes longer than 0.1 seconds"])
        self.assertEqual(examination.killed, [hooks.Kill(True, f"process {child.pid} was killed")])
        self.is_killed(child, 20)

    def test_no_standard_input(self):
        """A pipe that nobody writes to or closes; one that never ends; none."""
        read, write = os.pipe()
        for file in (read, write):
            self.addCleanup(os.close, file)
        for given, deadline, says in ((read, "0.2", "didn't come on standard input within 0.2 seconds"),
                                      (os.open("/dev/zero", os.O_RDONLY), "60", "has more than 1048576 bytes")):
            status, _, err = self.run_tool("oci-hook", "--kill", f"--deadline={deadline}", "--wait=0", given=given)
            self.assertEqual(status, 2)
            self.assertIn(says, err)
        done = completed(["sh", "-c", 'exec "$0" "$@" <&-', tool("oci-hook"), "--kill"])
        self.assertEqual(done.returncode, 2)
        self.assertIn(b"the state standard input can't be read: Bad file descriptor", done.stderr)


class Inside(Hook):
    """What a runtime, a kernel or a log would have to be brought to do."""

    def process(self, **members):
        return hooks.ContainerProcess(hooks.container_of(self.state(os.getpid(), "/none", **members)))

    def test_another_process_with_the_number(self):
        """Where the one that the runtime meant has ended, what the other one has doesn't count, and it isn't killed."""
        child = subprocess.Popen(["sleep", "1000"])
        process = self.process(pid=child.pid)
        child.kill()
        child.wait()
        kernel = FakeKernel([refusing(MOUNT)])
        kernel.threads_of = lambda _: [child.pid]
        process.kernel, process.members = kernel, processes.Container(None, lambda: [child.pid])
        self.assertEqual(self.text_of_error(processes.Unreadable, process.confined, 0, False),
                         f"process {child.pid} has ended")
        with mock.patch("os.kill") as kill:
            self.assertEqual(process.kill(), hooks.Kill(False, f"process {child.pid} has ended already"))
        kill.assert_not_called()

    def test_descendants(self):
        """Each the child of the one before, in whichever order they are listed; numbers that were given again end."""
        for first, parents, expected in ((2, {2: 1, **{at: at - 1 for at in range(3, 3000)}}, [*range(2, 3000)]),
                                         (9, {9: 1, 7: 8, 8: 9, 5: 1}, [9, 8, 7]), (2, {2: 3, 3: 2}, [2, 3])):
            kernel = mock.Mock(**{"processes.return_value": [*parents],
                                  "status_of.side_effect": lambda number, it=parents: {"PPid": str(it[number])}})
            self.assertEqual(hooks.descendants(kernel, first), expected)

    def test_a_process_that_does_not_end_at_once(self):
        """One that is killed while it is frozen: the watchdog leaves the hook the time to say so."""
        self.assertGreater(hooks.GRACE, hooks.KILL_SECONDS + 1)
        child = self.alongside("sleep", "1000")
        process = self.process(pid=child.pid)
        with mock.patch.object(hooks, "send_signal"), mock.patch.object(hooks, "KILL_SECONDS", 0.1):
            hooks.send_signal.return_value = None
            self.assertEqual(process.kill(), hooks.Kill(True, f"SIGKILL was sent to process {child.pid}; it hasn't "
                                                                f"ended yet"))

    def test_whatever_fails(self):
        """It is said, and isn't taken for a process that is confined."""
        for error, says in ((MemoryError(), "out of memory"),
                            (OSError(5, "failed"), "the container can't be inspected: failed"),
                            (program.ToolError("no scf", program.NOT_BUILT), "no scf"),
                            (hooks.ContainerError("no"), "no"),
                            (hold.Waiting("it waits"), "it waits (--force stops it)"),
                            (processes.Unreadable("it can't"), "it can't"),
                            (processes.Interrupted(15), "the check was ended by SIGTERM")):
            result = hooks.run_safely(mock.Mock(side_effect=error))
            status = 125 if says == "no scf" else 2
            self.assertEqual((result.status, result.lines(), result.value()["verdict"]), (status, [says], None))

    def test_the_log(self):
        """A line each, escaped; as an error where the process isn't known to be confined."""
        for status, level in ((0, 6), (1, 3), (3, 3)):
            with mock.patch("syslog.syslog") as log, mock.patch("syslog.openlog") as opened:
                hooks.write_log("oci-hook", status, ["differs", "# \x1b[2J\n%s"])
            self.assertEqual([call.args for call in log.call_args_list], [(level, "differs"),
                                                                          (level, "# \\x1b[2J\\x0a%s")])
            self.assertEqual(opened.call_args.args[0], "oci-hook")
