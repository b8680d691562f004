"""tools/filters-of and tools/verify-process, on processes of the test's own; what they ask of a kernel is tried in
test_processes."""
import glob
import json
import os
import signal
import subprocess
import sys
import time
import unittest

from support.common import (ALLOW, CONFINED, EPERM, I386, PATIENCE, TABLE, bytes_of, comes, gate, jeq, load, module,
                            profile_of, ret, text_of, tool)
from support.confined import CHILD, NEWEST, OLDEST, OTHER, Confined, children_of, ended, here, processes, status_of
from support.containers import Box
from support.own_machine import remove_groups, spec_of
from scftools.forms import filters
from scftools.forms.filters import Stack
from scfhost import containers

filters_of = module("filters-of")
ALLOWS_ALL = b'{"defaultAction":"SCMP_ACT_ALLOW","architectures":["SCMP_ARCH_X86_64","SCMP_ARCH_X86","SCMP_ARCH_X32"]}'
MOUNT, UMOUNT2 = 165, 166
ROOT = unittest.skipIf(os.geteuid(), "only root may do this")


def refusing(*numbers):
    """A filter that refuses these native calls and all foreign ones, and lets a test's process do the rest."""
    return gate(b"".join(jeq(number, len(numbers) - at, 0) for at, number in enumerate(numbers)) + ret(ALLOW)
                + ret(EPERM))


def refuses(*names, **members):
    """A profile that refuses these calls."""
    return json.dumps({"defaultAction": "SCMP_ACT_ALLOW", **members,
                       "syscalls": [{"names": list(names), "action": "SCMP_ACT_ERRNO"}]})


def comments(out):
    return [line[2:] for line in out.split("\n") if line.startswith("# ")]


class Programs(Confined):
    """Both tools, as far as they are alike."""

    def test_usage(self):
        for name in ("filters-of", "verify-process"):
            out = self.run_tool(name, "--help")[1]
            for word in ("EINTR", "epoll_wait", "CAP_SYS_ADMIN", "restart_syscall(2)", "--force"):
                self.assertIn(word, out)
        for name, *before in (("filters-of",), ("verify-process", "--")):
            for pid in ("0", "-1", "x", "1.5", "4294967296", "²", "9" * 5000, "\x1b[2J\n"):
                done = self.run_tool(name, *before, pid, "out")
                self.is_refusal("isn't a process ID", done)
                self.assertNotIn("\x1b", done[2])
        self.assertEqual(self.run_tool("filters-of", "--thread", "0", "1", "out")[0], 2)
        self.assertEqual(self.run_tool("verify-process", "--native", "--calls", "1", "p")[0], 2)

    @here
    def test_a_process_that_has_ended(self):
        """Also a zombie. With --json it is an object that says so, and the line on standard error is as ever."""
        gone, zombie = subprocess.Popen(["true"]), self.child([OLDEST])
        gone.wait()
        zombie.kill()
        self.wait_for(zombie.pid, "Z")
        profile = self.file("p", ALLOWS_ALL)
        is_gone = f"there is no process {gone.pid}: it has ended, or that is its number in another PID namespace"
        is_zombie = f"process {zombie.pid} is a zombie: it has ended, and waits for its parent"
        for pid, why in ((str(gone.pid), is_gone), (str(zombie.pid), is_zombie)):
            for name, *words in (("filters-of", pid, "out"), ("verify-process", pid, profile)):
                self.assertEqual(self.run_tool(name, *words), (2, "", f"{name}: {why}\n"))
            for name, *words in (("verify-process", pid, profile), ("surface", "--pid", pid)):
                status, out, err = self.run_tool(name, "--json", *words)
                self.assertEqual((status, err), (2, f"{name}: {why}\n"))
                self.assertEqual(json.loads(out), {"status": 2, "verdict": None, "stacks": [], "why": why, "schema": 3})
        self.assertEqual(self.run_tool("verify-process", "--all", str(gone.pid), profile),
                         (2, "", f"verify-process: {is_gone}\n"))

    @here
    def test_the_first_process_of_a_namespace(self):
        """It is looked at as any other; a process without a filter isn't confined."""
        self.needs("unshare")
        script = f"{tool('verify-process')} 1 {self.file('p', ALLOWS_ALL)}; echo status $?; {tool('filters-of')} 1 out"
        status, out, err = self.run_words(["unshare", "--pid", "--fork", "--mount-proc", "sh", "-c", script])
        self.skip_if(err.startswith("unshare:"), err)
        self.assertEqual(out, "# process 1 (sh) has no filter: it isn't confined, and every syscall is allowed\n"
                              "status 1\n")
        self.assertEqual((status, err), (1, "filters-of: process 1 has no filter\n"))

    @here
    def test_without_rights(self):
        self.skip_if(not os.access("/usr/bin/python3", os.X_OK), "there is no Python that every user may run")
        child, tree = self.child([OLDEST]), self.made_tree("#!/bin/sh\nexit 125\n")
        for folder in (self.folder, tree):
            os.chmod(folder, 0o755)
        done = self.run_words([f"{tree}/tools/filters-of", str(child.pid), "out"], user=65534, group=65534,
                              extra_groups=[], env={"PATH": "/usr/bin:/bin"})
        self.assertEqual(done, (2, "", "filters-of: the kernel shows filters only to a process with CAP_SYS_ADMIN: run "
                                       "this as root, outside of containers\n"))

    @here
    def test_under_a_filter_itself(self):
        child = self.child([OLDEST])
        self.is_refusal("this tool runs under a filter itself", self.run_words(
            [sys.executable, "-c", CONFINED, self.file("own", OLDEST), tool("filters-of"), str(child.pid), "out"]))

    def holding(self, child, number, does):
        """A tool that holds a child, and gets a signal, which it was started to heed or to ignore: whoever runs the
        tests may do either, as nohup does."""
        held = subprocess.Popen([tool("filters-of"), str(child.pid), "out"], stdout=subprocess.PIPE,
                                stderr=subprocess.PIPE, text=True, cwd=self.folder,
                                preexec_fn=lambda: signal.signal(number, does))
        self.assertTrue(comes(lambda: status_of(child.pid)["TracerPid"] != "0"))
        held.send_signal(number)
        return held

    @here
    def test_a_signal_while_threads_are_held(self):
        """The tool ends by it, says so, and the process runs on; a signal that is ignored ends nothing."""
        child, fifo = self.stuck([OLDEST], [OLDEST])
        for number in (signal.SIGTERM, signal.SIGINT, signal.SIGHUP):
            held = self.holding(child, number, signal.SIG_DFL)
            out, err = held.communicate(timeout=PATIENCE)
            # so it was ended by the signal, and not since the child didn't stop, which it says after some seconds
            self.assertEqual((held.returncode, out, err),
                             (-number, "", f"filters-of: ended by {number.name}; all stopped threads continue\n"))
            self.let_go(child)
        held = self.holding(child, signal.SIGHUP, signal.SIG_IGN)
        with open(fifo, "wb"):
            self.assertEqual(held.communicate(timeout=PATIENCE), ("out/0.bpf\n", ""))
        self.wait_for(child.pid, "S")
        self.runs_on(child)

    @here
    def test_a_closed_and_a_full_output(self):
        child = self.child([OLDEST])
        profile = self.file("p", ALLOWS_ALL)
        for name, last in (("filters-of", "full"), ("verify-process", profile)):
            status, _, err = self.closed_output(name, str(child.pid), last)
            self.assertEqual((status, err), (2, f"{name}: the output failed: No space left on device\n"))
        read, write = os.pipe()
        os.close(read)
        for name, last in (("filters-of", "closed"), ("verify-process", profile)):
            self.assertEqual(self.run_tool(name, str(child.pid), last, stdout=write)[::2], (-signal.SIGPIPE, ""))
        os.close(write)
        self.runs_on(child)


class FiltersOf(Confined):
    def filters_of(self, child, *words):
        return self.run_tool("filters-of", *words, str(child.pid), "out")

    def read(self, name):
        return bytes_of(self.folder, name)

    @here
    def test_the_oldest_first(self):
        """More than ten filters are named in their order, too."""
        for given, first in (([OLDEST, NEWEST], "0.bpf"), ([ret(ALLOW) * (at + 1) for at in range(11)], "00.bpf")):
            child, folder = self.child(given, given), f"a/{len(given)}"
            names = self.output_of(0, "filters-of", str(child.pid), folder).split("\n")[:-1]
            self.assertEqual((names, names[0]), (sorted(names), f"{folder}/{first}"))
            self.assertEqual([self.read(name) for name in names], given)
            self.runs_on(child)

    @here
    def test_threads_that_differ(self):
        """They have as many filters of as many instructions, and others: that is said, and one can be taken."""
        child = self.child([OLDEST, NEWEST], [OLDEST, OTHER], [])
        main, second, free = child.threads
        # (the kernel may begin again with small numbers between two of them)
        stacks = "; ".join(f"thread {thread}: {'no filter' if thread == free else '2 filters, of 1, 4 instructions'}"
                           for thread in sorted(child.threads))
        for number in child.threads:
            # (a thread's number stands for its process)
            self.assertEqual(self.run_tool("filters-of", str(number), "out"), (
                2, "", f"filters-of: the threads of process {main} don't have the same filters; {stacks}; --thread "
                       f"takes those of one thread\n"))
        self.assertFalse(os.path.exists(os.path.join(self.folder, "out")))
        self.assertEqual(self.filters_of(child, "--thread", str(second)), (0, "out/0.bpf\nout/1.bpf\n", ""))
        self.assertEqual(self.read("out/1.bpf"), OTHER)
        self.assertEqual(self.run_tool("filters-of", f"--thread={free}", str(main), "none"),
                         (1, "", f"filters-of: thread {free} of process {main} has no filter\n"))
        self.assertEqual(self.run_tool("filters-of", f"--thread={os.getpid()}", str(main), "none"),
                         (2, "", f"filters-of: process {main} has no thread {os.getpid()}\n"))
        self.runs_on(child)

    @here
    def test_a_process_without_filters(self):
        child = self.child([], [])
        self.assertEqual(self.filters_of(child), (1, "", f"filters-of: process {child.pid} has no filter\n"))
        self.assertFalse(os.path.exists(os.path.join(self.folder, "out")))
        self.runs_on(child)

    @here
    def test_folders(self):
        child = self.child([OLDEST])
        pid = str(child.pid)
        self.file("held/7.bpf", b"old")
        os.symlink("nothing", os.path.join(self.folder, "held/link"))
        for folder in ("held", self.file("file", b"")):
            self.is_refused(folder, "filters-of", pid, folder)
        status, _, err = self.run_tool("filters-of", pid, "/proc/nothing/is/made/here")
        self.assertEqual(status, 2)
        self.assertTrue(err.startswith("filters-of: '/proc/nothing"), err)
        self.runs_on(child)

    def test_no_file_is_written_over(self):
        """Also where one comes behind the look at the folder; then none of the filters is left there."""
        self.file("out/1.bpf", b"old")
        with self.assertRaises(FileExistsError):
            filters_of.write(Stack((OLDEST, NEWEST), False).named, os.path.join(self.folder, "out"))
        self.assertEqual(glob.glob(os.path.join(self.folder, "out/*")), [os.path.join(self.folder, "out/1.bpf")])
        self.assertEqual(self.read("out/1.bpf"), b"old")

    def test_a_link_in_the_place_of_the_folder_is_not_followed(self):
        os.mkdir(f"{self.folder}/out"), os.mkdir(f"{self.folder}/other")

        class Meanwhile:
            """A filter at whose writing the folder is replaced by a link to another one."""

            name = "0.bpf"

            @property
            def data(_):
                os.rename(f"{self.folder}/out", f"{self.folder}/moved")
                os.symlink("other", f"{self.folder}/out")
                return OLDEST

        filters_of.write([Meanwhile(), filters.Filter("1.bpf", NEWEST)], f"{self.folder}/out")
        self.assertEqual((sorted(os.listdir(f"{self.folder}/moved")), os.listdir(f"{self.folder}/other")),
                         (["0.bpf", "1.bpf"], []))


class VerifyProcess(Confined):
    def verify(self, child, profile, *words):
        """Asked again while an audit of the machine, which another test may run, traces the process."""
        for _ in range(PATIENCE):
            status, out, err = self.run_tool("verify-process", *words, str(child.pid), self.file("p", profile))
            if "is already traced by process" not in err:
                break
            time.sleep(1)
        self.assertEqual(err, "")
        return status, out

    def called(self, child):
        return f"process {child.pid} ({text_of(f'/proc/{child.pid}/comm').strip()})"

    @here
    def test_one_stack(self):
        child = self.child([OLDEST, load(0) + jeq(1, 0, 1) + ret(ALLOW) + ret(ALLOW)])
        out = self.begins(0, "same", self.verify(child, ALLOWS_ALL))
        self.assertEqual(comments(out)[-1], f"{self.called(child)} has 2 filters, of 1, 4 instructions")
        out = self.of_status(1, self.verify(child, profile_of("read")))
        self.assertTrue(out.startswith("differs\ncall nr "), out)
        self.assertIn("the filters answer ALLOW: the syscall is executed", comments(out))
        self.runs_on(child)

    @here
    def test_which_filter_is_shown(self):
        """It is called as `filters-of` calls its file. The kernel takes an answer from the newest filter that gives it,
        and ALLOW from none: then the one is shown that looks at the call."""
        child = self.child([refusing(MOUNT), OLDEST])
        out = self.of_status(1, self.verify(child, ALLOWS_ALL))
        self.assertIn("\n# the last tests on the path in 0.bpf:\n", out)
        out = self.begins(1, "more", self.verify(child, refuses("umount2"), "--no-more"))
        self.assertIn("\n# the last tests on the path in 0.bpf:\n", out)
        self.assertEqual(self.run_tool("filters-of", str(child.pid), "out")[1], "out/0.bpf\nout/1.bpf\n")
        child = self.child([refusing(MOUNT), refusing(MOUNT)])
        out = self.verify(child, ALLOWS_ALL)[1]
        self.assertIn("\n# the last tests on the path in 1.bpf:\n", out)

    @here
    def test_threads_that_differ(self):
        """One without a filter comes first, and then one of as many filters of as many instructions, which lets more
        through."""
        strict, lax = refusing(MOUNT), refusing(UMOUNT2)
        child = self.child([strict], [lax], [strict], [])
        main, lax_thread, alike, free = child.threads
        status, out = self.verify(child, refuses("mount"))
        unconfined, differs, same = out.split("\n\n")
        self.assertEqual((status, differs.split("\n")[0], same.split("\n")[0]), (1, "differs", "same"))
        self.assertEqual(unconfined, f"# thread {free} of {self.called(child)} has no filter: it isn't confined, and "
                                     f"every syscall is allowed")
        self.assertEqual(comments(differs)[-1],
                         f"thread {lax_thread} of {self.called(child)} has 1 filter, of {len(lax) // 8} instructions")
        self.assertEqual(comments(same)[-1],
                         f"threads {min(main, alike)}, {max(main, alike)} of {self.called(child)} have 1 filter, of "
                         f"{len(strict) // 8} instructions")
        self.runs_on(child)

    @here
    def test_the_worst_status(self):
        """Differs before unfinished before same; the blocks in that order, and what was skipped once."""
        many = load(16) + b"".join(jeq(number, 59 - number, 0) for number in range(60)) + ret(ALLOW)
        profile = refuses("riscv_flush_icache")
        child = self.child([OLDEST], [many], [load(0) + jeq(MOUNT, 0, 1) + ret(EPERM) + ret(ALLOW)])
        status, out = self.verify(child, profile, "--native", "--limit", "30")
        self.assertEqual((status, [block.split("\n")[0] for block in out.split("\n\n")]),
                         (1, ["differs", "unfinished", "same"]))
        self.assertNotIn("skipped riscv_flush_icache\n", out)
        self.assertEqual(out.count("# names in the profile that were skipped"), 1)
        out = self.verify(child, profile, "--native", "--limit", "30", "--verbose")[1]
        self.assertEqual(out.count("skipped riscv_flush_icache\n"), 1)
        child = self.child([OLDEST], [many])
        status, out = self.verify(child, profile, "--native", "--limit", "30")
        self.assertEqual((status, [block.split("\n")[0] for block in out.split("\n\n")]), (4, ["unfinished", "same"]))

    @here
    def test_a_refused_profile_is_told_once(self):
        status, out = self.verify(self.child([refusing(MOUNT)], [refusing(UMOUNT2)], []), "{")
        self.assertEqual((status, out.count("fault profile Json\n")), (1, 1))
        self.assertIn("isn't confined", out)

    @here
    def test_strict_mode(self):
        child = self.strict_child()
        self.assertEqual(self.verify(child, ALLOWS_ALL),
                         (4, f"# {self.called(child)} has no filter, but seccomp's strict mode\n"))
        self.assertEqual(json.loads(self.verify(child, ALLOWS_ALL, "--json")[1])["verdict"], "strict")
        self.assertEqual(self.run_tool("filters-of", str(child.pid), "out")[0], 1)

    @here
    def test_other_abis(self):
        """What the profile doesn't name must be denied, unless x86-64 alone is asked about."""
        untested = load(0) + jeq(MOUNT, 0, 1) + ret(EPERM) + ret(ALLOW)
        child, named = self.child([untested]), refuses("mount", architectures=["SCMP_ARCH_X86_64", "SCMP_ARCH_X86"])
        self.assertEqual(self.verify(child, named, "--native")[1].split("\n")[0], "same")
        out = self.begins(1, "differs", self.verify(child, named))
        self.assertIn("x32: some syscalls are allowed, such as read (0x40000000 + 0): ALLOW; the profile doesn't name "
                      "SCMP_ARCH_X32", comments(out))
        logs_one = (load(4) + jeq(I386, 0, 4) + load(0) + jeq(3, 0, 1) + ret(0x7FFC0000) + ret(EPERM) + refusing(MOUNT))
        status, out = self.verify(self.child([logs_one]), refuses("mount"))
        self.assertEqual((status, out.split("\n")[:4]), (1, [
            "differs", "call nr 3 arch 0x40000003 ip 0x0 args 0x0 0x0 0x0 0x0 0x0 0x0", "filter LOG 0",
            "profile KILL_PROCESS 0"]))
        self.assertIn("i386: some syscalls are allowed, such as read (3): LOG; the profile doesn't name SCMP_ARCH_X86",
                      comments(out))
        of_i386 = self.file("i386.json", {"defaultAction": "SCMP_ACT_ERRNO", "architectures": ["SCMP_ARCH_X86"],
                                          "syscalls": [{"names": ["read"], "action": "SCMP_ACT_LOG"}]})
        self.begins(0, "same", self.verify(self.child([logs_one]), refuses("mount"), "--also", of_i386))

    @here
    def test_named_calls_alone(self):
        """A call that no name has makes no difference. All threads are alike here, and are counted."""
        child = self.child(*[[refusing(MOUNT, 0x3FFFFFFF)]] * 2)
        self.assertEqual(self.verify(child, refuses("mount"))[0], 1)
        out = self.begins(0, "same", self.verify(child, refuses("mount"), "--calls"))
        self.assertEqual((out.count("same\n"), comments(out)[-1]),
                         (1, f"{self.called(child)} has 1 filter, of 10 instructions, in each of its 2 threads"))

    @here
    def test_json(self):
        child = self.child([refusing(MOUNT)], [refusing(UMOUNT2)], [])
        status, out = self.verify(child, refuses("mount", "umont2"), "--json")
        value = json.loads(out)
        self.assertEqual((status, value["status"], value["scope"], value["container"]), (1, 1, "native", None))
        unconfined, differs, same = value["stacks"]
        self.assertEqual([value["verdict"], *(stack["verdict"] for stack in value["stacks"])],
                         ["unconfined", "unconfined", "differs", "same"])
        self.assertEqual([stack["processes"][0]["threads"] for stack in (same, differs, unconfined)],
                         [[thread] for thread in child.threads])
        self.assertEqual(differs["call"]["names"], ["umount2"])
        self.assertEqual(differs["filter"], {"action": "ERRNO", "data": 1, "errno": "EPERM"})
        self.assertEqual(differs["profile"], {"action": "ALLOW", "data": 0})
        self.assertEqual((same["skipped"], same["filters"]), (["umont2"], [9]))
        self.assertEqual([kind["not_denied"] for kind in same["foreign"]], [[], []])
        self.assertEqual(same["processes"][0]["process"], child.pid)

    @here
    def test_a_name_of_a_stranger(self):
        child = self.child([OLDEST])
        self.do(child, r"library.prctl(15, b'\x1b[2J\nsame\r\xff'); print(1, flush=True)")
        self.assertEqual(child.stdout.readline(), "1\n")
        status, out = self.verify(child, ALLOWS_ALL)
        self.assertEqual((status, comments(out)[-1]),
                         (0, f"process {child.pid} (\\x1b[2J\\x0asame\\x0d\\xff) has 1 filter, of 1 instructions"))
        self.assertNotIn("\x1b", out)

    @here
    def test_the_name_is_read_while_the_process_is_held(self):
        child = self.child([OLDEST])
        self.do(child, "import signal; library.prctl(15, b'before'); "
                       "signal.signal(signal.SIGUSR1, lambda *_: library.prctl(15, b'behind')); print(1, flush=True)")
        self.assertEqual(child.stdout.readline(), "1\n")
        tree = self.made_tree("#!/bin/sh\n[ $1 != answers ] || { echo unfinished; exit 4; }\n"
                              f"cat >/dev/null\nkill -USR1 {child.pid}\n"
                              f"while [ \"$(cat /proc/{child.pid}/comm)\" = before ]; do sleep 0.01; done\necho same\n")
        status, out, _ = self.run_words([f"{tree}/tools/verify-process", str(child.pid), self.file("p", ALLOWS_ALL)])
        self.assertEqual((status, comments(out)[-1]),
                         (0, f"process {child.pid} (before) has 1 filter, of 1 instructions"))
        self.assertEqual(self.called(child), f"process {child.pid} (behind)")


class Containers(Confined):
    """--all, on a PID namespace, on a control group, and on a container of a runtime."""

    def verify(self, pid, profile, *words):
        return self.run_tool("verify-process", *words, str(pid), self.file("p", profile))

    def skip_in_a_group(self, pid):
        kernel = processes.Kernel()
        if any(kernel.groups_of(pid).get(name, b"/") != b"/" for name in containers.HIERARCHIES):
            self.skipTest("the tests run in a control group of their own")
        self.skip_if(not kernel.is_root_the_first(), "the tests run in a cgroup namespace of their own")

    def child_in_a_namespace(self):
        """A child whose own child is the first process of a PID namespace, and that one's number."""
        self.needs("unshare")
        child = subprocess.Popen(["unshare", "--pid", "--fork", "--kill-child", sys.executable, "-c", CHILD, "[[]]"],
                                 stdin=subprocess.PIPE, stdout=subprocess.PIPE, text=True)
        self.addCleanup(ended, child)
        self.skip_if(child.stdout.readline() != "1\n", "no PID namespace can be made here")
        first = children_of(child.pid)[0]
        self.skip_in_a_group(first)
        return child, first

    @here
    def test_no_container(self):
        child = self.child([OLDEST])
        self.skip_in_a_group(child.pid)
        self.is_refusal(f"process {child.pid} is in no container", self.verify(child.pid, ALLOWS_ALL, "--all"))

    @here
    @ROOT
    def test_a_namespace(self):
        strict, lax = (self.file(name, refusing(number)) for name, number in (("kept", MOUNT), ("lax", UMOUNT2)))
        child, first = self.child_in_a_namespace()
        self.do(child, f"(os.fork() or (confine([{lax!r}]), time.sleep(1000))); confine([{strict!r}]); "
                       f"print(2, flush=True)")
        self.assertEqual(child.stdout.readline(), "2\n")
        second = children_of(first)[0]
        self.wait_for(second, "S")
        out = self.out_of(1, self.verify(first, refuses("mount"), "--all"))
        blocks = out.split("\n\n")
        self.assertEqual([block.split("\n")[0] for block in blocks], ["differs", "same"])
        self.assertIn(f"# process {second} (", blocks[0])
        self.assertIn(f"# process {first} (", blocks[1])
        self.assertEqual(comments(out)[-1], "the container is a PID namespace; its processes that were checked: 2")
        value = json.loads(self.verify(first, refuses("mount"), "--all", "--json")[1])
        self.assertEqual((value["status"], value["verdict"], value["container"]), (1, "differs", "a PID namespace"))
        self.assertEqual([stack["processes"][0]["process"] for stack in value["stacks"]], [second, first])
        self.assertEqual(self.verify(first, refuses("mount"))[0], 0)

    def grouped(self, *places):
        """Puts processes into a control group of the test's own and into groups below it; gives its path.

        Each place is a child, the name of its group below, and the number of the process."""
        tops = ("/sys/fs/cgroup", "/sys/fs/cgroup/unified")
        top = next((folder for folder in tops if os.path.exists(f"{folder}/cgroup.procs")), None)
        group = f"{top}/scf-test-{os.getpid()}"
        self.addCleanup(self.without, [child for child, _, _ in places], group)
        try:
            for _, name, number in places:
                os.makedirs(f"{group}/{name}", exist_ok=True)
                with open(f"{group}/{name}/cgroup.procs", "w", encoding="ascii") as file:
                    file.write(str(number))
        except (OSError, TypeError) as error:
            self.skipTest(f"no control group can be made here: {error}")
        return f"/scf-test-{os.getpid()}"

    @here
    @ROOT
    def test_control_groups(self):
        """A process's own and those below; and of a systemd in a container, which is in one beside those of its
        services, these, too."""
        children = [self.child([refusing(MOUNT)]), self.child([refusing(UMOUNT2)])]
        for names, count in ((("init.scope", "system.slice/x.service"), 2), (("", "inner"), 1)):
            group = self.grouped(*((child, name, child.pid) for child, name in zip(children, names)))
            for child in children[:count]:
                out = self.out_of(1, self.verify(child.pid, refuses("mount"), "--all"))
                self.assertEqual([block.split("\n")[0] for block in out.split("\n\n")], ["differs", "same"])
                self.assertEqual(comments(out)[-1], f"the container is the control group {group}; its processes that "
                                                    f"were checked: 2")
        self.begins(0, "same", self.verify(children[1].pid, refuses("umount2"), "--all"))
        for child in children:
            self.runs_on(child)

    @here
    @ROOT
    def test_processes_of_its_namespace_in_other_groups(self):
        """Nothing tells whether they are the container's: it isn't said that it is confined."""
        name = self.file("kept", refusing(MOUNT))
        child, first = self.child_in_a_namespace()
        self.do(child, f"confine([{name!r}]); os.fork() or time.sleep(1000); print(2, flush=True)")
        self.assertEqual(child.stdout.readline(), "2\n")
        second = children_of(first)[0]
        group = self.grouped((child, "inner", first))
        status, out, err = self.verify(first, refuses("mount"), "--all")
        note = (f"processes of its PID namespace in other control groups weren't checked: {second} "
                f"({text_of(f'/proc/{second}/comm').strip()}); whether they are the container's can't be known")
        self.assertEqual((status, err, comments(out)[-2:]),
                         (4, "", [note, f"the container is the control group {group}/inner; its processes that "
                                        f"were checked: 1"]))
        value = json.loads(self.verify(first, refuses("mount"), "--all", "--json")[1])
        self.assertEqual((value["status"], value["verdict"], value["not_checked"]), (4, None, note))
        # where both are, all is known
        self.grouped((child, "inner", second))
        self.assertEqual(self.verify(first, refuses("mount"), "--all")[0], 0)

    def without(self, children, group):
        for child in children:
            child.kill()
            child.wait()
        comes(lambda: not remove_groups(group))

    def container(self, profile):
        """A container that runc starts with this profile, and the number of its process."""
        box = Box("runc")
        self.addCleanup(box.close)
        config = spec_of(box.where, ["busybox", "sleep", "1000"])
        config["linux"]["seccomp"] = profile
        status, message, pid = box.make(config)
        self.skip_if(status, f"no container can be started here: {message.strip()}")
        return box, pid

    @here
    @ROOT
    def test_a_container(self):
        """A list of what is allowed: runc refuses newer calls by ENOSYS, and that comes first; more that differs is
        told before it."""
        names = [line.split() for line in text_of(TABLE).splitlines() if line and not line.startswith("#")]
        # the names that runc's library has known for long
        allowed = [name for name, number in names if int(number) <= 334 or 424 <= int(number) <= 439]
        allowed = [name for name in allowed if name not in ("mount", "ptrace")]
        profile = {"defaultAction": "SCMP_ACT_ERRNO", "defaultErrnoRet": 1, "architectures": ["SCMP_ARCH_X86_64"],
                   "syscalls": [{"names": allowed, "action": "SCMP_ACT_ALLOW"}]}
        _, pid = self.container(profile)
        out = self.out_of(1, self.verify(pid, json.dumps(profile)))
        self.assertEqual(out.split("\n")[:4],
                         ["differs", "call nr 440 arch 0xc000003e ip 0x0 args 0x0 0x0 0x0 0x0 0x0 0x0",
                          "filter ERRNO 38", "profile ERRNO 1"])
        dispositions, first = comments(out)[:2]
        self.assertEqual(dispositions, "it is neither more permissive nor stricter than the profile: only the answers "
                                       "differ")
        self.assertTrue(first.startswith("only syscalls with numbers above all that the profile names differ, the "
                                         "first is process_madvise (440)"), first)
        self.assertIn(f"# process {pid} (busybox) has 1 filter, of ", out)
        profile["syscalls"][0]["names"] = [name for name in allowed if name != "chroot"] + ["mount"]
        out = self.of_status(1, self.verify(pid, json.dumps(profile)))
        notes = comments(out)
        self.assertEqual(notes[0], "syscalls in the table that differ: 2")
        self.assertEqual([line.split()[:2] for line in notes[1:3]], [["161", "chroot"], ["165", "mount"]])
        self.assertTrue(notes[3].startswith("syscalls with numbers above all that the profile names"), notes)
        out = self.out_of(1, self.verify(pid, json.dumps(profile), "--all"))
        self.assertIn("its processes that were checked: 1", out)

    @here
    @ROOT
    def test_a_container_whose_processes_are_in_groups_of_their_own(self):
        """The container's own group is the one that its runtime mounted; its own config.json is a profile, too."""
        box, pid = self.container(json.loads(refuses("mount", "ptrace", architectures=["SCMP_ARCH_X86_64"])))
        self.assertEqual(box.call("exec", "--detach", box.name, "busybox", "sleep", "1000")[0], 0)
        kernel = processes.Kernel()
        groups = kernel.groups_of(pid)
        hierarchy = next((name for name in containers.HIERARCHIES if groups.get(name, b"/") != b"/"), None)
        folder = {"": "unified", "name=systemd": "systemd"}.get(hierarchy, str(hierarchy))
        tops = (f"/sys/fs/cgroup/{folder}", "/sys/fs/cgroup")
        top = next((path for path in tops if os.path.exists(f"{path}/cgroup.procs")), None)
        group = groups[hierarchy].decode()
        if top is None or not os.path.isdir(f"{top}{group}"):
            self.skipTest("the container has no control group of its own here")
        os.mkdir(f"{top}{group}/first")
        with open(f"{top}{group}/first/cgroup.procs", "w", encoding="ascii") as file:
            file.write(str(pid))
        status, out, err = self.run_tool("verify-process", "--all", str(pid), box.config)
        self.assertEqual((status, err, comments(out)[-1]),
                         (0, "", f"the container is the control group {group}; its processes that were checked: 2"))
