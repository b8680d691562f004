"""tools/audit: a machine's containers, units and other confined programs, with real processes and containers."""
import glob
import json
import os
import re
import shutil
import subprocess
import time
import unittest
from unittest import mock

from support.common import (ALLOW, EPERM, TOP, Case, comes, completed, filter_of, gate, jeq, load, profile_of,
                            ret, text_of, tool)
from support import json_schema
from support.confined import processes
from support.own_machine import OwnMachine, Systemd, podman_settings
from scftools.base import output
from scftools.base.values import replace
from scftools.model import tables
from scftools.model.profiles import not_compared_of
from scfhost import audit, audit_output, audit_rows, container_files, machine, machine_pass, sandbox_programs
from scftools.forms.filters import Stack
from scfhost.expectations import Expectations, Options, RowMaker

# What is configured for containers, the same with another errno, and with one syscall more that is denied.
STATED = {"defaultAction": "SCMP_ACT_ALLOW", "architectures": ["SCMP_ARCH_X86_64"],
          "syscalls": [{"names": ["mount", "ptrace"], "action": "SCMP_ACT_ERRNO", "errnoRet": 1}]}
OTHER_ERRNO = {**STATED, "syscalls": [{"names": ["mount", "ptrace"], "action": "SCMP_ACT_ERRNO", "errnoRet": 13}]}
STRICTER = {**STATED, "syscalls": [{"names": ["mount", "ptrace", "chroot"], "action": "SCMP_ACT_ERRNO", "errnoRet": 1}]}


# Enters the control groups that it is called with, and ends its main thread; another one stays, without a filter.
WITHOUT_MAIN = """
import ctypes, os, sys, threading, time
for path in sys.argv[1:]:
    with open(path + \"/cgroup.procs\", \"w\") as file:
        file.write(str(os.getpid()))
threading.Thread(target=time.sleep, args=(1000,)).start()
print(os.getpid(), flush=True)
for file in (0, 1, 2):
    os.close(file)
ctypes.CDLL(None).syscall(60, 0)
"""


# Mounts a file system in user space (fuse(4)) that answers nothing.
HANGING = """
import ctypes, os, sys, time
file = os.open(\"/dev/fuse\", os.O_RDWR)
words = b\"fd=%d,rootmode=40000,user_id=12345,group_id=12345,allow_other\" % file
print(ctypes.CDLL(None).mount(b\"x\", os.fsencode(sys.argv[1]), b\"fuse\", 0, words), flush=True)
for it in (0, 1, 2):
    os.close(it)
time.sleep(1000)
"""
# How the output of verify-process begins beside a process that isn't confined.
NO_FILTER = r"\A(unconfined though configured\n)?# process {} \({}\) has no filter: it isn't confined"


# Changes the seccomp settings in a state.json of runc, if it is there, to those of standard input.
RESTATE = """
import json, os, sys
if os.path.exists(sys.argv[1]):
    with open(sys.argv[1]) as file:
        state = json.load(file)
    state["config"]["seccomp"] = json.load(sys.stdin)
    with open(sys.argv[1], "w") as file:
        json.dump(state, file)
"""


class Audited:
    """What the tool says of a machine."""

    def audit(self, *words, status=None, **env):
        """The object that is printed."""
        ended_with, out, err = self.on(tool("audit"), "--json", *words, **env)
        self.assertFalse(err, err)
        self.assertIn(ended_with, (1, 4) if status is None else (status,))
        value = json.loads(out)
        self.assertEqual(value["status"], ended_with)
        return value

    def rows(self, *words, status=None, **env):
        """The rows by their kind and name."""
        return {(row["kind"], row["name"]): row for row in self.audit(*words, status=status, **env)["rows"]}

    def restate(self, name, seccomp, keeps=False):
        """Changes what a container's configuration says after its start, and unless `keeps` what runc keeps of it."""
        names = [] if seccomp is None else [name[10:].lower().replace("x86_64", "amd64")
                                            for name in seccomp.get("architectures", ())]
        started = None if seccomp is None else {"default_action": 4, "architectures": names, "syscalls": [
            {"name": called, "action": 2, "errnoRet": entry["errnoRet"], "args": []}
            for entry in seccomp["syscalls"] for called in entry["names"]]}
        if not keeps:
            self.on("/usr/bin/python3", "-c", RESTATE, f"/run/runc/{name}/state.json",
                    given=json.dumps(started).encode())
        path = os.path.join(self.folder, "bundles", name, "config.json")
        config = json.loads(text_of(path))
        config["linux"].pop("seccomp", None)
        config["linux"].update({} if seccomp is None else {"seccomp": seccomp})
        self.file(path, config)

    def enters(self, number, hierarchy, path, owner=0):
        """Puts a process into a new group of a hierarchy of version 1, in a folder of this owner."""
        if not os.path.ismount(f"/sys/fs/cgroup/{hierarchy}"):
            self.skipTest(f"there is no hierarchy {hierarchy} of control groups of version 1 here")
        group = f"/sys/fs/cgroup/{hierarchy}/{self.group}/{path}"
        os.makedirs(group)
        os.chown(os.path.dirname(group), owner, owner)
        self.assertEqual(self.on("sh", "-c", f"echo {number} >{group}/cgroup.procs")[0], 0)

    def start_users(self):
        """Starts a container of a user who isn't root."""
        where = self.bundle("mine", STATED, change=rootless)
        os.chmod(self.folder, 0o755)
        self.on("sh", "-c", f"mkdir -p /run/user && mkdir -m 700 /run/user/12345 && chown 12345:12345 /run/user/12345; "
                            f"chown -R 12345:12345 {where}")
        self.container_in(where, ["setpriv", "--reuid=12345", "--regid=12345", "--clear-groups", "crun"], "mine",
                          XDG_RUNTIME_DIR="/run/user/12345", HOME="/")

    def container_in(self, where, words, name, **env):
        """Starts a container of crun, without a control group."""
        status, out, err = self.on(*words, "--cgroup-manager=disabled", "run", "--detach", "--bundle", where, name,
                                   **env)
        self.skip_if(status, f"crun starts no container here: {(out + err).strip()}")


class Programs(Audited, OwnMachine):
    def test_confined_programs(self):
        """Each executable with a filter has a row, with the processes of each stack; the others are counted."""
        first, two = filter_of([0, 1, 317]), filter_of([0, 1, 2])
        numbers = self.crowd(("alpha", [first], 3, 1), ("beta", [first, two], 2, 2), ("gamma", [], 4, 1))
        value = self.audit()
        (row,) = value["rows"]
        self.assertEqual((row["kind"], row["verdict"]), ("program", "stricter"))
        self.assertEqual(row["name"], os.path.realpath("/usr/bin/python3"))
        parts = {tuple(value["stacks"][part["stack"]]["filters"]): part for part in row["parts"]}
        self.assertEqual({lengths: sorted(process["process"] for process in part["processes"])
                          for lengths, part in parts.items()},
                         {(len(first) // 8,): numbers[:3], (len(first) // 8, len(two) // 8): numbers[3:5]})
        self.assertEqual([process["threads"] for process in parts[len(first) // 8, len(two) // 8]["processes"]], [2, 2])
        # those without a filter, the first process of the machine, and the audit's shell, if there is one
        self.assertEqual(value["processes"], {"confined": 5, "unconfined": 5, "unread": 0})
        self.assertEqual(value["left_out"], ["processes outside of the PID namespace that this tool runs in"])
        for number in numbers:
            self.assertEqual(self.on("cat", f"/proc/{number}/wchan")[0], 0)
            self.assertTrue(comes(lambda it=number: "TracerPid:\t0\n" in self.on("cat", f"/proc/{it}/status")[1]))

    def test_since_an_earlier_audit(self):
        """Of programs without a configuration the lines have only the count; the object has all changes."""
        self.crowd(("alpha", [filter_of([0])], 1, 1))
        value = self.audit()
        name = value["rows"][0]["name"]
        value["rows"][0]["id"] = value["rows"][0]["name"] = "/bin/gone"
        path = self.file("earlier.json", value)
        since = self.audit("--since", path)["since"]
        self.assertEqual((since["time"], [(change["change"], change["row"]) for change in since["changes"]]),
                         (value["time"], [("new", f"program {name}"), ("gone", "program /bin/gone")]))
        out = self.out_of(4, self.on(tool("audit"), "--since", path))
        for line in (f"# nothing changed since {value['time']}", "# other confined programs: stricter 1; without a "
                     "configuration, and listed by --programs: 1"):
            self.assertIn(line, out.splitlines())
        self.assertNotIn(name, out)

    def test_many_threads_and_hostile_names(self):
        """A process with many threads, and names that try to be lines and labels: each is one text."""
        hostile = ["x\n# done", 'a"} 1\nb', "\x1b[2J", "y\\", "\udcff"]
        self.crowd(("many", [filter_of([0])], 1, 300), *((item, [filter_of([0])], 1, 1) for item in hostile))
        (row,) = self.audit()["rows"]
        (part,) = row["parts"]
        self.assertEqual([process["threads"] for process in part["processes"]], [300, 1, 1, 1, 1, 1])
        self.assertEqual([process["name"] for process in part["processes"]],
                         ["many", "x\\x0a# done", 'a"} 1\\x0ab', "\\x1b[2J", "y\\", "\\xff"])
        out = self.out_of(4, self.on(tool("audit"), "--programs"))
        self.assertEqual({line[:10] for line in out.splitlines() if line[:2] != "# "}, {"stricter: "}, out)
        self.assertTrue(out.replace("\n", "").isprintable())

    def test_one_that_cannot_be_stopped(self):
        """It doesn't keep the others from being read."""
        freezer = f"/sys/fs/cgroup/freezer/{self.group}/frozen"
        numbers = self.crowd(("warm", [filter_of([0])], 2, 1), ("cold", [filter_of([0])], 1, 2))
        self.skip_if(not os.path.ismount("/sys/fs/cgroup/freezer"), "no control group of version 1 can be frozen here")
        os.makedirs(freezer)
        script = f"echo {numbers[2]} >{freezer}/cgroup.procs && echo FROZEN >{freezer}/freezer.state"
        self.assertEqual(self.on("sh", "-c", script)[0], 0)
        self.addCleanup(self.on, "sh", "-c", f"echo THAWED >{freezer}/freezer.state")
        (row,) = self.audit(status=4)["rows"]
        self.assertEqual((row["verdict"], [part["verdict"] for part in row["parts"]]),
                         ("not known", ["not known", "stricter"]))
        self.assertIn("its control group is frozen", row["parts"][0]["why"])
        self.assertEqual([process["process"] for process in row["parts"][0]["processes"]], numbers[2:])
        self.on("sh", "-c", f"echo THAWED >{freezer}/freezer.state")
        self.assertEqual(self.audit(status=4)["rows"][0]["verdict"], "stricter")

    def test_what_is_expected_of_all(self):
        """--expect and --baseline: of programs, too."""
        self.crowd(("alpha", [filter_of([0, 1], foreign=EPERM)], 1, 1))
        for names, expected, baseline in ((["read", "write"], "as configured", "stricter"),
                                          (["read", "write", "close"], "stricter", "stricter"),
                                          (["read"], "weaker", "weaker")):
            profile = self.file("profile.json", profile_of(*names))
            self.assertEqual(self.audit("--expect", profile)["rows"][0]["verdict"], expected, names)
            row = self.audit("--baseline", f"no-more:{profile}")["rows"][0]
            self.assertEqual(row["verdict"], baseline, names)
        self.assertEqual((row["parts"][0]["call"]["names"], row["parts"][0]["baseline"]), (["write"], True))
        (part,) = row["parts"]
        self.assertEqual((part["filter"]["action"], part["profile"]["action"]), ("ALLOW", "ERRNO"))


class Containers(Audited, OwnMachine):
    def test_each_verdict(self):
        """Containers of runc and crun; what their configurations say is changed after their start."""
        self.container("runc", "same", STATED)
        self.container("crun", "more", STATED, change=lambda config: config["linux"].pop("cgroupsPath"))
        self.container("runc", "errno", STATED)
        self.container("runc", "less", STRICTER)
        self.container("runc", "open", None)
        self.container("runc", "lost", None)
        for name, stated in (("more", STRICTER), ("errno", OTHER_ERRNO), ("less", STATED), ("lost", STATED)):
            self.restate(name, stated)
        rows = self.rows()
        self.assertEqual({name: row["verdict"] for (_, name), row in rows.items()},
                         {"same": "as configured", "more": "weaker", "errno": "otherwise", "less": "stricter",
                          "open": "unconfined by configuration", "lost": "unconfined though configured"})
        self.assertEqual([name for _, name in rows][:2], ["lost", "open"])
        self.assertEqual({(row["engine"], row["runtime"]) for row in rows.values()},
                         {("runc", "runc"), ("crun", "crun")})
        (part,) = rows["container", "more"]["parts"]
        self.assertEqual((part["call"]["names"], part["filter"]["action"], part["profile"]),
                         (["chroot"], "ALLOW", {"action": "ERRNO", "data": 1, "errno": "EPERM"}))
        self.assertEqual(rows["container", "same"]["profile"]["source"], f"{self.folder}/bundles/same/config.json")

    def test_a_configuration_that_changed(self):
        """A container of runc is judged by what it was started with, which runc keeps."""
        entries = [*STATED["syscalls"], {"names": ["swapon"], "action": "SCMP_ACT_KILL_PROCESS", "args": [
            {"index": 1, "value": 7, "valueTwo": 3, "op": "SCMP_CMP_MASKED_EQ"},
            {"index": 0, "value": 7, "op": "SCMP_CMP_NE"}]}, {"names": ["swapoff"], "action": "SCMP_ACT_LOG"}]
        stated = {**STATED, "syscalls": entries}
        self.container("runc", "same", stated)
        self.container("runc", "more", stated)
        self.container("runc", "open", None)
        for name in ("more", "open"):
            self.restate(name, STRICTER, keeps=True)
        rows = {name: row for (_, name), row in self.rows("--allow-unconfined", status=4).items()}
        self.assertEqual({name: (row["verdict"], row["profile"].get("changed")) for name, row in rows.items()}, {
            "same": ("as configured", None), "more": ("as configured", True),
            "open": ("unconfined by configuration", True)})
        lines = self.on(tool("audit"))[1]
        for name in ("more", "open"):
            self.assertIn(f"\n    {self.folder}/bundles/{name}/config.json has changed: judged is the profile that "
                          "the container was started with\n", lines)
        self.assertNotIn("bundles/same/config.json", lines)

    def test_one_of_lxc(self):
        """Its configuration, and the policy that this names through a file that it includes."""
        self.needs("lxc-start")
        where = "/var/lib/lxc/scf-web"
        policy = self.file("policy", "2\ndenylist\nmount errno 1\nsocket errno 1 [0,16,==]\n")
        included = self.file("more.conf", f"lxc.seccomp.profile = {policy}\n")
        config = ("lxc.net.0.type = none\nlxc.rootfs.path = dir:{0}/root\nlxc.mount.auto = proc:mixed\n"
                  "lxc.mount.entry = /usr usr none bind,ro 0 0\nlxc.pty.max = 1\nlxc.init.cmd = /usr/bin/sleep 1000\n"
                  "lxc.include = {1}\n").format(where, included)
        script = (f"mount -t tmpfs tmpfs /var/lib/lxc && cd {os.path.dirname(where)} && mkdir -p scf-web/root/usr "
                  "scf-web/root/proc scf-web/root/dev scf-web/root/sys && cat >scf-web/config && "
                  "for it in bin lib lib64 sbin; do ln -s usr/$it scf-web/root/$it; done; "
                  "lxc-start -d -n scf-web && lxc-wait -n scf-web -s RUNNING -t 10")
        status, out, err = self.on("sh", "-c", script, given=config.encode())
        self.skip_if(status, f"LXC starts no container here: {out + err}")
        self.addCleanup(self.on, "lxc-stop", "-k", "-n", "scf-web")
        row = self.rows("--allow-unconfined")["container", "scf-web"]
        self.assertEqual((row["engine"], row["verdict"], row["profile"]["source"]), ("LXC", "as configured", policy))
        self.file("policy", "2\ndenylist\nmount errno 1\nsync errno 1\n")
        row = self.rows("--allow-unconfined", status=1)["container", "scf-web"]
        self.assertEqual((row["verdict"], row["parts"][0]["call"]["names"]), ("weaker", ["sync"]))
        self.file("policy", "2\ndenylist\nmount log\n")
        row = self.rows("--allow-unconfined", status=4)["container", "scf-web"]
        self.assertIn("line 3: 'log' isn't an action of LXC", row["profile"]["why"])

    def test_processes_brought_in(self):
        """One that enters a container without its filter is unconfined though configured."""
        self.container("runc", "box", STATED)
        pid = self.audit()["rows"][0]["parts"][0]["processes"][0]["process"]
        script = (f"nsenter --target {pid} --pid --mount sleep 1000 >/dev/null 2>&1 & "
                  "until [ $(grep -lx sleep /proc/[0-9]*/comm | wc -l) -ge 2 ]; do sleep 0.05; done")
        self.skip_if(self.on("timeout", "300", "sh", "-c", script)[0], "nothing can be brought into a container here")
        (row,) = self.audit(status=1)["rows"]
        self.assertEqual((row["verdict"], [part["verdict"] for part in row["parts"]]),
                         ("unconfined though configured", ["unconfined though configured", "as configured"]))

    def groups_of(self, name):
        """The folders of a container's control groups, by their hierarchies."""
        folders = {os.path.basename(os.path.dirname(os.path.dirname(path))): path
                   for path in glob.glob(f"/sys/fs/cgroup/*/{self.group}/{name}")}
        self.skip_if(not {"pids", "systemd"} <= folders.keys(), "there are no control groups of version 1 here")
        return folders

    def verify_all(self, name):
        """What verify-process --all says of a container, given its process."""
        pid = next(process for row in self.audit()["rows"] if row["name"] == name for part in row["parts"]
                   if part["stack"] is not None for process in part["processes"])["process"]
        return self.on(tool("verify-process"), "--all", "--runtime", "runc", str(pid),
                       f"{self.folder}/bundles/{name}/config.json")

    def test_in_some_hierarchies(self):
        """A process without a filter that is in the container's group of some hierarchies, and not of others."""
        self.container("runc", "box", STATED)
        groups = self.groups_of("box")
        (number,) = self.crowd(("alpha", [], 1, 1))
        for names in (["pids"], ["pids", "cpu", "memory"]):
            for name in filter(groups.get, names):
                self.assertEqual(self.on("sh", "-c", f"echo {number} >{groups[name]}/cgroup.procs")[0], 0, name)
            (row,) = self.audit(status=1)["rows"]
            self.assertEqual((row["verdict"], row["parts"][0]["processes"][0]["process"]),
                             ("unconfined though configured", number))
            out = self.of_status(1, self.verify_all("box"))
            self.assertRegex(out, NO_FILTER.format(number, "alpha"))

    def test_a_main_thread_that_has_ended(self):
        """The process's other threads are the container's, though the kernel shows it as a zombie in the root group."""
        self.container("runc", "box", STATED)
        out = f"{self.folder}/number"
        script = (f"/usr/bin/python3 -c '{WITHOUT_MAIN}' {' '.join(self.groups_of('box').values())} >{out} & "
                  f"until grep -qs 'State:.Z' /proc/$(cat {out})/status; do sleep 0.05; done; cat {out}")
        number = int(self.on("timeout", "300", "sh", "-c", script)[1])
        (row,) = self.audit(status=1)["rows"]
        (process,) = row["parts"][0]["processes"]
        self.assertEqual((row["verdict"], process["process"], process["threads"]),
                         ("unconfined though configured", number, 1))
        out = self.of_status(1, self.verify_all("box"))
        self.assertRegex(out, NO_FILTER.format(number, "python3"))

    def test_one_of_a_user(self):
        """A container that crun makes for a user who isn't root, with a user namespace and no control group."""
        self.runtime("crun")
        self.start_users()
        rows = self.rows()
        self.assertEqual({name: (row["verdict"], row["users"]) for name, row in rows.items()},
                         {("container", "mine"): ("as configured", [12345])})

    def test_files_that_raise(self):
        """A container whose files hold what no runtime writes isn't known; the others are looked at."""
        self.container("runc", "box", STATED)
        numbers = self.crowd(*((name, [filter_of([0])], 1, 1) for name in ("alpha", "beta", "gamma")))
        config = self.file("odd/config.json", {"linux": {"seccomp": {
            "defaultAction": "SCMP_ACT_ALLOW", "syscalls": 5}}})
        states = {"runc/labels/state.json": {"init_process_pid": numbers[0], "config": {"labels": 5}},
                  "runc/text/state.json": {"init_process_pid": numbers[1], "cgroup_paths": {"a": "\ud800"}},
                  "crun/config/status": {"pid": numbers[2], "bundle": os.path.dirname(config)},
                  "crun/list/status": [], "crun/number/status": {"pid": 10**400}}
        for name, state in states.items():
            self.on("sh", "-c", f"mkdir -p /run/{os.path.dirname(name)}; cat >/run/{name}",
                    given=json.dumps(state).encode())
        value = self.audit(status=4)
        rows = {row["name"]: row for row in value["rows"]}
        self.assertEqual({name: row["verdict"] for name, row in rows.items()}, {
            "box": "as configured", **dict.fromkeys(("labels", "text", "config"), "not known")})
        self.assertIn("'/run/crun/list/status' isn't an object", value["left_out"])
        self.assertIn("name no bundle", rows["labels"]["profile"]["why"])
        self.assertEqual(rows["config"]["profile"]["source"], config)

    def test_one_name_of_two_engines(self):
        """Each container has a row, though both have the same name."""
        self.container("runc", "web", STATED)
        rows = self.audit()["rows"]
        pid = rows[0]["parts"][0]["processes"][0]["process"]
        status, out, err = self.on("runc", "--root", "/run/containerd/runc/k8s.io", "run", "--detach", "--bundle",
                                   self.bundle("other", None), "web")
        self.skip_if(status, f"runc starts no second container here: {(out + err).strip()}")
        rows = self.audit(status=1)["rows"]
        self.assertEqual([(row["name"], row["verdict"]) for row in rows],
                         [("web", "unconfined by configuration"), ("web", "as configured")])
        self.assertEqual(rows[1]["parts"][0]["processes"][0]["process"], pid)
        self.assertEqual(len({row["id"] for row in rows}), 2)


class Users(Audited, OwnMachine):
    """What users' files and processes say, and what they can't."""

    USER = 12345

    def setUp(self):
        super().setUp()
        os.chmod(self.folder, 0o755)
        self.on("sh", "-c", f"mkdir -m 755 /run/user/{self.USER}; chown {self.USER} /run/user/{self.USER}")

    def process(self, name):
        """Starts a process of the user's: its number."""
        script = f"setpriv --reuid={self.USER} --regid={self.USER} --clear-groups sleep 1000 >/dev/null 2>&1 & echo $!"
        number = int(self.on("sh", "-c", script)[1])
        self.assertEqual(self.on("sh", "-c", f"until grep -qx sleep /proc/{number}/comm; do sleep 0.01; done")[0], 0)
        return number

    def says(self, name, process, bundle, **settings):
        """The user writes a file of crun's about a container."""
        folder = f"/run/user/{self.USER}/crun/{name}"
        state = json.dumps({"pid": process, "bundle": bundle, "cgroup-path": "/", **settings})
        self.assertEqual(self.on("sh", "-c", f"mkdir -p {folder}; cat >{folder}/status; chown -R {self.USER} "
                                             f"/run/user/{self.USER}/crun", given=state.encode())[0], 0)

    def users_bundle(self, name="theirs", seccomp=None, text=None):
        """A bundle of the user's."""
        path = self.file(f"{name}/config.json", json.dumps(
            {"linux": {} if seccomp is None else {"seccomp": seccomp}}) if text is None else text)
        for place in (path, os.path.dirname(path)):
            os.chown(place, self.USER, self.USER)
        return os.path.dirname(path)

    def test_a_row_of_root(self):
        """A user with an older process gives a container the identifier of root's, and one that isn't confined."""
        number = self.process("old")
        self.container("runc", "web", None)
        self.restate("web", STATED)
        self.says("web", number, self.users_bundle())
        for words in ((), ("--allow-unconfined",)):
            rows = self.audit(*words, status=1)["rows"]
            self.assertIn(f"container web (crun, of user {self.USER}): 1 process\n", self.on(tool("audit"))[1])
            self.assertEqual([(row["name"], row["verdict"]) for row in rows], [
                ("web", "unconfined though configured"), ("web", "unconfined by configuration")])
            self.assertEqual([row["id"] for row in rows], ["web", f"user {self.USER}: web"])
            self.assertEqual([row["user"] for row in rows], [None, self.USER])

    def test_a_name_of_a_group(self):
        """A group that is named as an engine names that of root's container is another row."""
        (number,) = self.crowd(("alpha", [], 1, 1))
        self.container("runc", IDENTIFIER, None)
        self.restate(IDENTIFIER, STATED)
        self.enters(number, "pids", f"mine/libpod-{IDENTIFIER}.scope")
        rows = self.audit("--allow-unconfined", status=1)["rows"]
        self.assertEqual({(row["engine"], row["verdict"]) for row in rows},
                         {("runc", "unconfined though configured"), ("podman", "not known")})
        self.assertEqual([row["profile"].get("why") for row in rows], [None, "no file of a runtime describes it"])
        ids = {row["engine"]: row["id"] for row in rows}
        self.assertEqual(ids["runc"], IDENTIFIER)
        self.assertTrue(ids["podman"].startswith(f"{IDENTIFIER} of /{self.group}/mine/libpod-"), ids)

    def test_a_name_of_a_group_of_a_user(self):
        """A container that only such a name tells is said to be of the user who could have made the group."""
        self.enters(self.process("x"), "pids", f"given/libpod-{IDENTIFIER}.scope", self.USER)
        (row,) = self.audit()["rows"]
        self.assertEqual((row["id"], row["user"], row["verdict"]),
                         (f"user {self.USER}: {IDENTIFIER}", self.USER, "not known"))

    def test_processes_of_others(self):
        """A user's file that names a process of root, or the first one; a pipe; and a link to what anybody may read."""
        numbers = self.crowd(("alpha", [filter_of([0])], 1, 1))
        self.says("a", numbers[0], self.users_bundle())
        self.process("x")
        self.says("d", 1, self.users_bundle())
        state = self.file("state", {"pid": numbers[0], "bundle": self.folder})
        script = f"mkdir b c; mkfifo b/status; ln -s {state} c/status; chown -hR {self.USER} ."
        self.assertEqual(self.on("sh", "-c", f"cd /run/user/{self.USER}/crun && {script}")[0], 0)
        value = self.audit(status=4)
        self.assertEqual([row["kind"] for row in value["rows"]], ["program"])
        self.assertIn(f"of user {self.USER}: 1 of the folders of containers: '/run/user/{self.USER}/crun/b/status' "
                      f"isn't a regular file", value["left_out"])

    def test_a_process_in_a_container_of_root(self):
        """One that runs as the user, in a container that root's files describe: it stays there."""
        number = self.process("old")
        self.container("runc", "web", STATED)
        groups = glob.glob(f"/sys/fs/cgroup/pids/{self.group}/web")
        self.skip_if(not groups, "there are no control groups of version 1 here")
        self.assertEqual(self.on("sh", "-c", f"echo {number} >{groups[0]}/cgroup.procs")[0], 0)
        self.says("mine", number, self.users_bundle())
        (row,) = self.audit("--allow-unconfined", status=1)["rows"]
        self.assertEqual((row["name"], row["verdict"], row["user"]), ("web", "unconfined though configured", None))
        # the first process of a container of root's
        self.on("kill", "-9", str(number))
        self.container("runc", "inner", None, change=lambda config: config["process"].update(
            user={"uid": self.USER, "gid": self.USER}))
        self.restate("inner", STATED)
        rows = {row["name"]: row for row in self.audit(status=1)["rows"]}
        self.says("mine", rows["inner"]["parts"][0]["processes"][0]["process"], self.users_bundle())
        rows = {row["name"]: row for row in self.audit("--allow-unconfined", status=1)["rows"]}
        self.assertEqual((set(rows), rows["inner"]["verdict"]), ({"web", "inner"}, "unconfined though configured"))

    def test_a_configuration_that_a_user_may_change(self):
        """What root runs says that it isn't known, and not what the user wrote."""
        self.container("runc", "web", None)
        for path in (f"{self.folder}/bundles/web", f"{self.folder}/bundles/web/config.json"):
            os.chown(path, self.USER, self.USER)
        (row,) = self.audit(status=1)["rows"]
        self.assertEqual(row["verdict"], "not known")
        self.assertTrue(row["profile"]["why"].endswith(f"config.json' may be changed by user {self.USER}"), row)

    def test_a_file_system_that_does_not_answer(self):
        """A user's own, as the folder of containers or on the way to root's configuration: nothing waits for it."""
        for name in ("web", "other"):
            self.container("runc", name, STATED)
        for where in (f"/run/user/{self.USER}/crun", f"{self.folder}/bundles/other"):
            script = (f"mkdir -p {where}; timeout 1000 /usr/bin/python3 -c '{HANGING}' {where} >{where}.out & "
                      f"until [ -s {where}.out ] || ! kill -0 $!; do sleep 0.05; done; cat {where}.out")
            if self.on("timeout", "300", "sh", "-c", script)[1] != "0\n":
                self.skipTest("no file system in user space can be mounted here")
            self.addCleanup(self.on, "umount", "-l", where)
        value = self.audit(status=4)
        self.assertEqual([(row["name"], row["verdict"]) for row in value["rows"]],
                         [("other", "not known"), ("web", "as configured")])
        self.assertTrue(value["rows"][0]["profile"]["why"].endswith(f"may be changed by user {self.USER}"))

def rootless(config):
    """Changes a configuration for a user who isn't root, as `runc spec --rootless` does."""
    config["linux"].pop("cgroupsPath")
    config["linux"].pop("resources", None)
    config["linux"]["namespaces"] = [namespace for namespace in config["linux"]["namespaces"]
                                     if namespace["type"] not in ("network", "cgroup")] + [{"type": "user"}]
    config["linux"]["uidMappings"] = config["linux"]["gidMappings"] = [{"containerID": 0, "hostID": 12345, "size": 1}]
    config["mounts"] = [mount for mount in config["mounts"] if mount["destination"] in ("/proc", "/dev", "/dev/shm")]


class Units(Audited, OwnMachine):
    """Units of systemd, whose processes are in groups as systemd names them, and a stand-in for systemctl."""

    def unit(self, name, filters):
        """Starts a process of a unit."""
        self.enters(*self.crowd((name[:15], filters, 1, 1)), "systemd", f"x.slice/{name}")

    @property
    def group(self):
        return f"scf-audit-{os.getpid()}.slice"

    def test_units(self):
        self.unit("same.service", [filter_of([0, 1, 231])])
        self.unit("more.service", [filter_of([0, 1, 231, 101])])
        self.unit("none.service", [])
        self.unit("lost.service", [])
        self.unit("gone.service", [filter_of([0])])
        shown = {"same": "read write exit_group", "more": "read write exit_group", "none": "~", "lost": "read"}
        text = "\n\n".join(f"Id={name}.service\nLoadState=loaded\nNeedDaemonReload=no\nFragmentPath="
                           f"{self.file(name, '')}\nDropInPaths=\nSystemCallFilter={calls}\nSystemCallErrorNumber=1\n"
                           f"SystemCallArchitectures={'native' if calls != '~' else ''}\nSystemCallLog=~"
                           for name, calls in shown.items())
        path = self.file("bin/systemctl", f"#!/bin/sh\ncat <<'END'\n{text}\nEND\n")
        os.chmod(path, 0o755)
        rows = self.rows(PATH=f"{self.folder}/bin:/usr/bin:/bin")
        self.assertEqual({name: row["verdict"] for (_, name), row in rows.items()},
                         {"lost.service": "unconfined though configured", "none.service": "unconfined by configuration",
                          "more.service": "weaker", "gone.service": "not known", "same.service": "as configured"})
        self.assertEqual({kind for kind, _ in rows}, {"unit"})
        (part,) = rows["unit", "more.service"]["parts"]
        self.assertEqual(part["call"]["names"], ["ptrace"])
        # without systemd nothing is known of them, but that two aren't confined
        path = self.file("bin/systemctl", "#!/bin/sh\necho no bus >&2\nexit 1\n")
        rows = self.rows(PATH=f"{self.folder}/bin:/usr/bin:/bin")
        self.assertEqual({row["verdict"] for row in rows.values()}, {"not known"})
        self.assertEqual([name for (_, name), row in rows.items() if row["is_unconfined"]],
                         ["lost.service", "none.service"])
        self.assertIn("no bus", rows["unit", "same.service"]["profile"]["why"])


UNIT = """[Unit]
DefaultDependencies=no
[Service]
ExecStart=/bin/sleep 1000
{}
"""


class Podman(Audited):
    """A podman with folders of its own."""

    def podman(self, *words):
        return self.on("podman", "--runtime", "runc", *words, **podman_settings(self, "/run/podman-of-tests"))


class Pods(Podman, OwnMachine):
    def test_a_pod(self):
        """Its containers have rows, and no other row has what watches them, which is in the pod's group on cgroupfs."""
        self.runtime("podman")
        rootfs = f"{self.bundle('pod', None)}/rootfs"
        self.on("tar", "-C", rootfs, "-cf", f"{self.folder}/rootfs.tar", ".")
        first = ("--infra-image", "first", "--infra-command", "sleep 1000", "--share", "ipc")
        for words in (("import", f"{self.folder}/rootfs.tar", "first"),
                      ("pod", "create", "--name", "two", "--cgroup-parent", f"/{self.group}", *first),
                      ("run", "--detach", "--pod", "two", "--name", "front", "--rootfs", rootfs, "sleep", "1000")):
            status, _, err = self.podman(*words)
            self.skip_if(status, f"podman starts no pod here: {err.strip()}")
        watching = self.on("sh", "-c", "grep -lx conmon /proc/[0-9]*/comm | cut -d / -f 3")[1].split()
        groups = "".join(self.on("cat", f"/proc/{process_id}/cgroup")[1] for process_id in watching)
        self.assertRegex(groups, f"/{self.group}/[0-9a-f]{{64}}/conmon\n")
        rows = self.audit("--allow-unconfined", status=4)["rows"]
        self.assertEqual([row["verdict"] for row in rows], ["as configured"] * 2, rows)
        self.assertEqual({row["name"][-5:] for row in rows}, {"front", "infra"})


class Node(Podman, Systemd):
    """A machine with all of it: units of a real systemd, containers of runc, crun, podman and a user, and others."""

    UNITS = {f"scf-{name}.service": UNIT.format(setting) for name, setting in (
        ("same", "SystemCallFilter=~mount ptrace"), ("more", "SystemCallFilter=~mount"), ("none", ""))}

    def start_units(self):
        """Starts the units; what one of them states is changed after that."""
        for name in self.UNITS:
            self.assertEqual(self.on("systemctl", "start", name)[0], 0, name)
        self.file("units/scf-more.service", UNIT.format("SystemCallFilter=~mount chroot"))
        self.assertEqual(self.on("systemctl", "daemon-reload")[0], 0)

    def start_pod(self):
        """Starts a pod of two in podman, a container with a capability more, and one without a profile."""
        rootfs = f"{self.bundle('pod', None)}/rootfs"
        self.skip_if(self.podman("pod", "create", "--infra=false", "--name", "two")[0], "podman makes no pod here")
        for name, words in (("front", ["--pod", "two"]), ("back", ["--pod", "two"]),
                            ("admin", ["--cap-add", "SYS_ADMIN"]), ("free", ["--security-opt", "seccomp=unconfined"])):
            self.addCleanup(self.podman, "rm", "--force", "--time", "0", name)
            status, _, err = self.podman("run", "--detach", "--name", name, *words, "--rootfs", rootfs, "sleep", "1000")
            self.skip_if(status, f"podman starts no container here: {err}")

    def test_each(self):
        for name in ("runc", "crun", "podman"):
            self.runtime(name)
        self.start_units()
        self.container("runc", "box", STATED)
        self.container_in(self.bundle("open", None), ["crun"], "open")
        self.start_users()
        self.start_pod()
        numbers = self.crowd(*((f"crowd{number}", [filter_of([0, number])], 10, 1) for number in range(1, 21)))
        rows = self.rows(status=1)
        self.assertEqual({name: row["verdict"] for (_, name), row in rows.items()}, {
            "scf-same.service": "as configured", "scf-more.service": "weaker",
            "scf-none.service": "unconfined by configuration", "box": "as configured",
            "open": "unconfined by configuration", "mine": "as configured", "front": "as configured",
            "back": "as configured", "admin": "as configured", "free": "unconfined by configuration",
            os.path.realpath("/usr/bin/python3"): "stricter"})
        self.assertEqual({name: row["engine"] for (kind, name), row in rows.items() if kind == "container"}, {
            "box": "runc", "open": "crun", "mine": "crun",
            **dict.fromkeys(("front", "back", "admin", "free"), "podman")})
        pods = {rows["container", name]["pod"] for name in ("front", "back")}
        self.assertEqual((len(pods), None in pods, rows["container", "admin"]["pod"]), (1, False, None))
        self.assertEqual(["CAP_SYS_ADMIN" in rows["container", name]["capabilities"] for name in ("admin", "front")],
                         [True, False])
        (call,) = [part["call"] for part in rows["unit", "scf-more.service"]["parts"]]
        self.assertEqual(call["names"], ["chroot"])
        (row,) = [row for (kind, _), row in rows.items() if kind == "program"]
        numbers_of_row = sorted(process["process"] for part in row["parts"] for process in part["processes"])
        self.assertEqual((len(row["parts"]), numbers_of_row), (20, sorted(numbers)))


class Service(Audited, Systemd):
    """The service of contrib/systemd, with its restrictions, under a real systemd."""

    # (nothing else of the system is started)
    UNITS = {"scf-audit.service": text_of(TOP, "contrib", "systemd", "scf-audit.service"),
             "scf-audit.service.d/alone.conf": "[Unit]\nDefaultDependencies=no\n",
             "scf-same.service": UNIT.format("SystemCallFilter=~mount")}

    def started(self):
        """Starts the service: how its program ended, and whether that counts as a success."""
        self.on("systemctl", "start", "scf-audit.service")
        return self.on("systemctl", "show", "scf-audit.service", "--property=ExecMainStatus,Result")[1].split()

    def test_it(self):
        where = os.path.join(self.folder, "metrics")
        # (this folder may be in /tmp)
        self.file("units/scf-audit.service.d/here.conf",
                  f"[Service]\nPrivateTmp=no\nReadWritePaths=-{where}\nExecStart=\n"
                  f"ExecStart={tool('audit')} --allow-unconfined --prometheus {where}/scf.prom\n")
        for words in (("daemon-reload",), ("start", "scf-same.service")):
            self.assertEqual(self.on("systemctl", *words)[0], 0, words)
        # without node_exporter's folder the tool says so, and not systemd
        self.assertEqual(sorted(self.started()), ["ExecMainStatus=2", "Result=exit-code"])
        os.mkdir(where)
        # (what has ended well isn't remembered)
        self.assertIn("Result=success", self.started())
        text = text_of(f"{where}/scf.prom")
        for line in ('scf_unit_verdict{unit="scf-same.service",user="",verdict="as configured"} 1',
                     "scf_audit_status 4"):
            self.assertIn(f"\n{line}\n", text)


IDENTIFIER = "0123456789abcdef" * 4


def process(number=7, name=b"fake", groups=None, **settings):
    """A process as /proc might describe it."""
    given = {"parent": 1, "executable": b"/bin/fake", "user": 0, "spaces": ((1, 1),), "inner": number,
             "capabilities": 0, "has_no_new_privileges": True, "threads": (number,), "is_confined": True,
             "is_stuck": False, "owner": settings.get("user", 0), "start": 0, **settings}
    return machine.Process(number=number, name=name, groups=groups or {}, **given)


class Belonging(Case):
    """To which unit or container a process belongs, by the names of control groups."""

    def test_units(self):
        for path, expected in (("/system.slice/ssh.service", "ssh.service"),
                               ("/system.slice/system-getty.slice/getty@tty1.service", "getty@tty1.service"),
                               ("/user.slice/user-1000.slice/user@1000.service/app.slice/x.service",
                                "user@1000.service"),
                               ("/system.slice/_cpu.service/inner", "cpu.service"),
                               ("/system.slice/dev-hugepages.mount", "dev-hugepages.mount"),
                               ("/user.slice/user-1000.slice/session-3.scope", None), ("/init.scope", None),
                               ("/", None), ("/box/ssh.service", None), ("/../ssh.service", None),
                               ("/system.slice/a\nb.service", None)):
            for hierarchy in ("", "name=systemd"):
                self.assertEqual(container_files.unit_of(process(groups={hierarchy: path.encode()})), expected, path)

    kernel = mock.Mock(group_owner=lambda *_: None)

    def test_containers_that_only_a_name_tells(self):
        for path, engine, name in ((f"/machine.slice/libpod-{IDENTIFIER}.scope/container", "podman", IDENTIFIER),
                                   (f"/docker/{IDENTIFIER}", "unknown", IDENTIFIER),
                                   (f"/system.slice/docker-{IDENTIFIER}.scope/init.scope", "Docker", IDENTIFIER),
                                   (f"/kubepods.slice/a.slice/cri-containerd-{IDENTIFIER}.scope", "containerd",
                                    IDENTIFIER), (f"/kubepods.slice/crio-{IDENTIFIER}.scope", "CRI-O", IDENTIFIER),
                                   ("/system.slice/runc-box.scope", "runc", "box"),
                                   ("/lxc.payload.box/init.scope", "LXC", "box"),
                                   ("/machine.slice/machine-box.scope/payload", "systemd-nspawn", "box")):
            container = container_files.named_container(process(groups={"": path.encode()}), self.kernel)
            self.assertEqual((container.engine, container.identifier), (engine, name), path)
        for path in ("/system.slice/x.service", f"/machine.slice/libpod-conmon-{IDENTIFIER}.scope",
                     f"/system.slice/crio-conmon-{IDENTIFIER}.scope"):
            self.assertIsNone(container_files.named_container(process(groups={"": path.encode()}), self.kernel), path)

    def test_files_that_include_each_other(self):
        """A configuration of LXC names its policy last, through some files, but not without end."""
        names = [f"{self.folder}/{at}" for at in range(70)]
        for at, name in enumerate(names):
            self.file(name, f"lxc.include = {(names + names)[at + 1]}\n")
        self.file(names[30], "lxc.seccomp.profile = /policy\n")
        self.assertEqual(sandbox_programs.lxc_policy(names[0]), "/policy")
        said = self.text_of_error(container_files.UnreadableFile, sandbox_programs.lxc_policy, names[31])
        self.assertIn("is included after too many others", said)


class Firejail(Case):
    """Programs that firejail confines, by its own files on the profiles of sandboxes."""

    def setUp(self):
        super().setUp()
        self.patched(sandbox_programs, "FIREJAIL_SANDBOXES", os.path.join(self.folder, "profile"))
        self.profile = self.file("p.profile", "seccomp.drop mkdir\n")

    def started(self, *words):
        """A process with these words, in place of firejail's, and the sandbox that it started."""
        child = self.alongside("sh", "-c", "echo; read x", *words, stdin=subprocess.PIPE, stdout=subprocess.PIPE)
        # (while it is being executed, the kernel has no words of it yet)
        child.stdout.readline()
        self.file(f"profile/{child.pid}", f"{self.profile}\n")
        return sandbox_programs.firejails_of({child.pid: process(child.pid)})[child.pid]

    def test_whose_a_process_is(self):
        for name, path in (("5", self.profile), ("7", "p"), ("x", self.profile), ("9", self.profile)):
            self.file(f"profile/{name}", f"{path}\n")
        parents = {1: 1, 5: 1, 6: 5, 7: 6, 8: 1}
        processes = {number: process(number, parent=parent) for number, parent in parents.items()}
        sandboxes = sandbox_programs.firejails_of(processes)
        self.assertEqual({number: sandbox.number for number, sandbox in sandboxes.items()
                          if number in processes and sandbox is not None}, {5: 5, 6: 5, 7: 5})
        os.chown(os.path.join(self.folder, "profile", "5"), 12345, 12345)
        self.assertEqual({*sandbox_programs.firejails_of(processes).values()}, {None})

    def test_the_file_of_an_earlier_process(self):
        """It was written before the process with its number started, so it isn't that one's."""
        path = self.file("profile/5", f"{self.profile}\n")
        now = int(time.clock_gettime(time.CLOCK_BOOTTIME) * os.sysconf("SC_CLK_TCK"))
        for ago, is_its in ((0, True), (3600, False)):
            os.utime(path, (time.time() - ago,) * 2)
            self.assertEqual(sandbox_programs.firejails_of({5: process(5, start=now)})[5] is not None, is_its)

    def test_what_is_expected(self):
        expectations = Expectations(Options(tables.read_table(None)))
        expected = expectations.of_firejail(self.started("--profile=p", "--", "--seccomp.drop=rmdir"))
        data = expected.asked.profile.data
        self.assertEqual((expected.source, not_compared_of(data)), (self.profile, ("SCMP_ARCH_X86",)))
        self.assertEqual(json.loads(data)["syscalls"], [
            {"names": ["mkdir"], "action": "SCMP_ACT_ERRNO", "errnoRet": 1, "comment": "line 1"}])
        expected = expectations.of_firejail(self.started("--profile=p", "--seccomp.drop=rmdir"))
        self.assertEqual((expected.asked, expected.why), (None, "firejail was given --seccomp.drop=rmdir"))
        os.chown(self.profile, 12345, 12345)
        expected = expectations.of_firejail(self.started())
        self.assertEqual((expected.asked, expected.why), (None, f"'{self.profile}' may be changed by user 12345"))


class Snaps(Case):
    """Programs of snaps, by the names of their control groups and snapd's files."""

    UUID = "0e5d3b6c-7c43-4d5e-8a51-0123456789ab"
    # What snap-confine loads beside each snap's own filter, in short: no TIOCSTI.
    OF_ALL = gate(jeq(16, 0, 3) + load(24) + jeq(0x5412, 0, 1) + ret(EPERM) + ret(ALLOW))
    RULES = "# snap-seccomp version information:\n# x\nread\nwrite\n"

    def setUp(self):
        super().setUp()
        self.patched(sandbox_programs, "SNAP_RULES", self.folder)
        self.file("snap.web.run.src", self.RULES)
        self.file("snap.classic.run.src", "@unrestricted\n")
        self.file("global.bin", self.OF_ALL)
        self.expectations = Expectations(Options(tables.read_table(None)))
        self.kernel = mock.Mock()
        self.kernel.group_owner.return_value = None

    def test_the_names_of_groups(self):
        in_slice = "/user.slice/user-1000.slice/user@1000.service/app.slice"
        for path, tag in ((f"{in_slice}/snap.web.run.{self.UUID}.scope", "snap.web.run"),
                          (f"{in_slice}/snap.web.run-{self.UUID}.scope", "snap.web.run"),
                          (f"{in_slice}/snap.web_2.hook.install.{self.UUID}.scope", "snap.web_2.hook.install"),
                          ("/system.slice/snap.web.run.service", "snap.web.run"),
                          ("/system.slice/snap.web.run.service/inner", "snap.web.run"),
                          ("/system.slice/snapd.service", None), (f"{in_slice}/snap.web.scope", None),
                          ("/system.slice/snap.web.run.timer", None), ("/", None)):
            actual = sandbox_programs.snap_tag_of(self.kernel, process(groups={"": path.encode()}))
            self.assertEqual(actual, (tag, None), path)
        self.assertEqual(sandbox_programs.snap_tags(), {"snap.web.run", "snap.classic.run"})

    def test_what_is_expected(self):
        expected = self.expectations.of_snap("snap.web.run")
        self.assertEqual((expected.source, expected.beside),
                         (os.path.join(self.folder, "snap.web.run.src"), self.OF_ALL))
        self.assertEqual(json.loads(expected.asked.profile.data)["syscalls"], [
            {"names": ["read", "write"], "action": "SCMP_ACT_ALLOW", "comment": "lines 3-4"}])
        self.assertIsNone(self.expectations.of_snap("snap.classic.run"))
        self.file("snap.odd.run.src", self.RULES + "~read\n")
        self.assertIn("line 5: '~read' is denied", self.expectations.of_snap("snap.odd.run").why)
        os.chmod(os.path.join(self.folder, "snap.web.run.src"), 0o666)
        self.assertTrue(Expectations(self.expectations.options).of_snap("snap.web.run").why.endswith(
            "may be changed by any user"))

    def test_verdicts(self):
        """The filter of all snaps makes nothing stricter than configured; a filter that allows more is weaker."""
        expected, judge = self.expectations.of_snap("snap.web.run"), audit.Judges(self.expectations.options)
        compiled = self.compile(self.file("p.json", expected.asked.profile.data))[1]
        for filters, verdict in (((compiled, self.OF_ALL), "as configured"), ((compiled,), "as configured"),
                                 ((self.OF_ALL,), "weaker"), ((gate(ret(ALLOW)), self.OF_ALL), "weaker"),
                                 ((compiled, gate(ret(EPERM))), "stricter")):
            self.assertEqual(judge.judge_all(Stack(filters, False), expected).verdict, verdict)

    def test_rows(self):
        """A snap's processes are one row, before the unit that they are in; an unrestricted one has none."""
        group = f"/user.slice/user-1000.slice/user@1000.service/app.slice/snap.{{}}.run.{self.UUID}.scope"
        every = {number: process(number, groups={"": group.format(name).encode()}, is_confined=False)
                 for number, name in ((7, "web"), (8, "web"), (9, "classic"))}
        self.assertEqual(self.rows_of(every), [("program", None, "snap.web.run", [7, 8]),
                                               ("unit", None, "user@1000.service", [9])])

    def rows_of(self, every):
        """The rows of some processes: kind, user, key and processes."""
        with mock.patch.object(self.expectations, "of_units", lambda names: {name: audit_rows.Expectation()
                                                                             for name in names}):
            rows = RowMaker(self.kernel, machine.Snapshot(processes=every), self.expectations, []).rows()
        return [(row.kind, row.user, row.key, [each.number for each in row.processes]) for row in rows]

    def test_whose_group_it_is(self):
        """A user's group that is called as one of root's service doesn't make the user's process that service's."""
        path = f"/user.slice/user-1000.slice/user@1000.service/app.slice/snap.web.run-{self.UUID}.scope"
        every = {7: process(7, groups={"": b"/system.slice/snap.web.run.service"}),
                 8: process(8, groups={"": path.encode()}, user=1000), 9: process(9, groups={"": path.encode()})}
        self.kernel.group_owner.side_effect = lambda _, path: 1000 if b"user@1000" in path else None
        self.assertEqual(self.rows_of(every), [("program", None, "snap.web.run", [7]),
                                               ("program", 1000, "snap.web.run", [8, 9])])


class WhoseRows(Snaps):
    """Rows of programs and units: those of one user aren't those of another, nor root's."""

    def test_programs(self):
        every = {7: process(7), 8: process(8, user=1000), 9: process(9, user=1001), 10: process(10, user=1000)}
        self.assertEqual(self.rows_of(every), [("program", user, "/bin/fake", numbers) for user, numbers in (
            (None, [7]), (1000, [8, 10]), (1001, [9]))])

    def test_units(self):
        """What the system's users run in a unit is the unit's own, and so is what its main process's user runs."""
        groups = {"": b"/system.slice/cron.service"}
        every = {number: process(number, groups=groups, user=user)
                 for number, user in ((7, 0), (8, 33), (9, 1000), (10, 61200), (11, 1001))}
        self.assertEqual(self.rows_of(every), [("unit", user, "cron.service", numbers) for user, numbers in (
            (None, [7, 8, 10]), (1000, [9]), (1001, [11]))])
        self.expectations.main_processes = {"cron.service": 11}
        self.assertEqual(self.rows_of(every)[0], ("unit", None, "cron.service", [7, 8, 10, 11]))
        groups = {"": b"/user.slice/user-1000.slice/user@1000.service/init.scope"}
        self.expectations.main_processes = {"user@1000.service": 7}
        self.assertEqual(self.rows_of({7: process(7, groups=groups, user=1000)}),
                         [("unit", 1000, "user@1000.service", [7])])


class Descriptions(Case):
    """Whose a process is if several descriptions speak of it: root's, a user's, a unit's, and the name of a group."""

    USER = 12345
    OWN = f"/user.slice/user-{USER}.slice/user@{USER}.service/user.slice/libpod-{IDENTIFIER}.scope"

    def belongs(self, path, *described, is_stated=False, number=7, neighbour=(8, "/"), user=USER, real=None, owner=None,
                **settings):
        """The name of the container of a process in this group, beside another process of the user's; descriptions are
        of a name, a first process and a user, and may state a group."""
        kernel = mock.Mock()
        kernel.groups_of.side_effect = lambda _: {"": b"/init.scope"}
        kernel.group_owner.side_effect = lambda *_: owner
        kernel.makers_of_namespaces.return_value = []
        kernel.status_of.side_effect = lambda number: {
            "Uid": f"{every[number].user if real is None else real}\t{every[number].user}\t0\t0"}
        every = {number: process(number, groups={"": path.encode()}, user=user, **settings),
                 neighbour[0]: process(neighbour[0], groups={"": neighbour[1].encode()}, user=self.USER)}
        made = [container_files.ContainerDescription(name, "crun", "crun", first, "", folder=f"/{name}", user=its_user,
                                                     groups=tuple(group.encode() for group in groups))
                for name, first, its_user, *groups in described]
        members = container_files.Membership(kernel, made, every)
        container = members.container_of(every[number], is_stated)
        return None if container is None else container.identifier

    def test_each(self):
        root, user, name = ("root", 7, None), ("user", 7, self.USER), f"libpod-{IDENTIFIER}.scope"
        of_user, stated = {"owner": self.USER}, {"is_stated": True}
        in_unit, pod = f"/system.slice/x.service/libpod-{IDENTIFIER}", f"/mine/{IDENTIFIER}"
        inside = {"number": 8, "neighbour": (7, f"{pod}/libpod-x")}
        for path, described, settings, expected in (
                ("/", (root, user), {}, "root"), ("/", (user, root), {}, "root"), ("/", (user,), {}, "user"),
                # another user's process, and one that runs as root, as sudo does
                ("/", (user,), {"user": 1}, None), ("/", (user,), {"user": 0}, None),
                ("/", (user,), {"user": 0, "real": self.USER}, None),
                # a descendant of the user's first process, in a namespace of a container of root's
                ("/", (user, root), {"spaces": ((1, 5), (1, 1)), "inner": 1}, "root"),
                ("/", (("user", 8, self.USER),), {"parent": 8}, "user"),
                # a group that a user states isn't believed, and a named one only in the slices of users
                ("/x", (("user", 8, self.USER, "/x"),), {"neighbour": (8, "/x")}, None),
                ("/x", (("root", 7, None, "/x"),), {}, "root"), (f"/machine.slice/{name}", (user,), {}, IDENTIFIER),
                (self.OWN, (user,), {}, "user"), (self.OWN, (user,), {"user": 1}, IDENTIFIER),
                (self.OWN, (), {}, IDENTIFIER),
                # a group that a user made outside of users' slices takes no process from a unit of the system
                (f"/mine/{name}", (), of_user, IDENTIFIER), (f"/mine/{name}", (user,), of_user, "user"),
                (f"{in_unit}.scope", (), of_user, None), (f"{in_unit}.scope", (), {}, IDENTIFIER),
                # what a unit states is for its processes, whatever users say and groups are called; not for containers
                (in_unit, (), stated, None), (in_unit, (user,), stated, None), (in_unit, (root,), stated, "root"),
                (in_unit, (), {}, IDENTIFIER), (in_unit, (user,), {}, IDENTIFIER), (in_unit, (root,), {}, "root"),
                # the group of a pod, in which root's containers have groups, isn't a container's, wherever it is
                (f"{pod}/conmon", (("root", 7, None, f"{pod}/libpod-x"),), inside, None),
                (f"{pod}/conmon", (), inside, IDENTIFIER)):
            with self.subTest(path, described=described, **settings):
                self.assertEqual(self.belongs(path, *described, **settings), expected)


class Files(unittest.TestCase):
    """What the annotations of engines say of a container (pkg/cri/annotations of containerd, pkg/annotations of CRI-O,
    libpod/annotations.go of podman), by where these keep their bundles."""

    def test_each_engine(self):
        cri = {f"io.kubernetes.cri.{name}": item for name, item in (
            ("container-type", "container"), ("container-name", "web"), ("image-name", "docker.io/library/nginx:1"),
            ("sandbox-id", "ab" * 32), ("sandbox-name", "web-1"), ("sandbox-namespace", "default"))}
        crio = {"io.container.manager": "cri-o", "io.kubernetes.container.name": "web",
                "io.kubernetes.cri-o.ImageName": "docker.io/library/nginx:1", "io.kubernetes.pod.name": "web-1",
                "io.kubernetes.pod.namespace": "default", "io.kubernetes.cri-o.SandboxID": "ab" * 32}
        libpod = {"io.container.manager": "libpod", "io.kubernetes.cri-o.SandboxID": "ab" * 32}
        task, overlay = "containerd/io.containerd.runtime.v2.task", "containers/storage/overlay-containers"
        web = "web", "docker.io/library/nginx:1", "default/web-1"
        for bundle, annotations, expected in (
                (f"/run/{task}/k8s.io/{IDENTIFIER}", cri, ("containerd", *web)),
                (f"/run/k3s/{task}/k8s.io/{IDENTIFIER}", cri, ("containerd", *web)),
                (f"/run/{task}/default/box", {}, ("containerd", None, None, None)),
                (f"/run/{overlay}/{IDENTIFIER}/userdata", crio, ("CRI-O", *web)),
                (f"/var/lib/{overlay}/{IDENTIFIER}/userdata", libpod, ("podman", None, None, "ab" * 32))):
            with self.subTest(bundle):
                container = container_files.ContainerDescription(IDENTIFIER, "runc", "runc", 7, f"{bundle}/config.json")
                reader = container_files.Reader(print, is_root=True)
                described = reader.with_engine(container, {"annotations": annotations})
                self.assertEqual((described.engine, described.name, described.image, described.pod), expected)


class Kept(Case):
    """Which verdicts are taken for another row."""

    def setUp(self):
        super().setUp()
        self.judges, self.asked = audit.Judges(Options(tables.read_table(None))), []
        self.patched(audit.child, "ask_each", self.ask_each)
        self.copies = machine_pass.Copies(processes.Kernel(), (), False)
        self.copies.stacks = {None: Stack((filter_of([0]),), False, {7: [7]})}

    def task(self, is_root):
        row = audit_rows.AuditRow(audit_rows.UNIT, "x", [mock.Mock(number=7)], audit_rows.Expectation())
        return audit.Task(None if is_root else 12345, [row], self.copies, {})

    def ask_each(self, works, turns, receive, _):
        for at, _ in turns:
            self.asked.append(works[at])
            self.answer(lambda value, at=at: receive(at, value))
        return {}

    def answer(self, receive):
        receive({"row": 0, "stack": 0, "judgement": {
            "verdict": self.verdict, "why": None, "shown": [], "not_compared": [], "lines": [], "architecture": None,
            "is_of_baseline": False, "digest": "ab"}})

    def judged(self, verdict, is_root):
        self.verdict = verdict
        task = self.task(is_root)
        self.assertEqual(self.judges.judge([task], audit.child.Budget(1.0)), {})
        return task.parts[0][0].judgement.verdict

    def test_whose_they_are(self):
        """Those on a user's things aren't taken for anything, the others for any row, but for what isn't known."""
        self.assertEqual([self.judged("weaker", False), self.judged("not known", True), self.judged("stricter", True)],
                         ["weaker", "not known", "stricter"])
        self.assertEqual(len(self.asked), 3)
        self.assertEqual([self.judged("weaker", is_root) for is_root in (True, False)], ["stricter"] * 2)
        self.assertEqual(len(self.asked), 3)

    def test_whose_surfaces_they_are(self):
        """What a user's child says of a stack isn't taken for what root's stack of the same digest allows."""
        assessor = audit.Assessor(processes.Kernel(), machine.Snapshot(), self.judges, None)
        of_user, of_root = (assessor.task(user, []).surfaces_of for user in (12345, None))
        of_user["ab"] = "forged"
        task = self.task(True)
        task.surfaces_of = of_root
        task.begin()
        self.judges.keep(task)
        self.assertEqual((of_root, self.judges.surfaces), ({}, {}))

    def test_answers_of_another_form(self):
        task, self.verdict = self.task(True), "fine"
        with self.assertRaises(ValueError):
            self.judges.judge([task], audit.child.Budget(1.0))
        self.assertEqual((task.parts[0][0].judgement, self.judges.known), (None, {}))


def unit(name, verdict="weaker", why=None, threads=(), kind=audit_rows.UNIT, expected=None):
    """A row of threads without filters."""
    part = audit_rows.RowPart(dict(threads), audit_rows.StackJudgement(verdict, why))
    return audit_rows.AuditRow(kind, name, [], expected or audit_rows.Expectation(), parts=[part])


class Output(Case):
    """What is written of rows whose names are hostile."""

    def setUp(self):
        super().setUp()
        self.table = tables.read_table(None)
        container = container_files.ContainerDescription("ab" * 32, "podman", "crun", 7, "/c", name='a"} 1\nb\\',
                                                         image="i\x1b[0m")
        self.row = audit_rows.AuditRow(audit_rows.CONTAINER, container.identifier, [process(name=b"x\n# y")],
                                       audit_rows.Expectation(), container)
        judgement = audit_rows.StackJudgement(audit_rows.NOT_KNOWN, "it\nis", digest="cd" * 32)
        self.row.parts = [audit_rows.RowPart({7: [7]}, judgement, (9,))]
        self.audit = audit_rows.Audit([self.row], machine.Snapshot({7: self.row.processes[0]}), 0.0, 1.5)

    def test_lines_and_json(self):
        for line in audit_output.audit_lines(self.audit, self.table):
            self.assertIn(line[:4], ("not ", "    ", "# co", "# un", "# ot", "# pr"))
        value = audit_output.audit_json(self.audit, self.table)
        self.assertEqual((value["status"], value["time"], value["rows"][0]["name"]),
                         (4, "1970-01-01T00:00:00Z", 'a"} 1\\x0ab\\'))
        self.assertEqual([*audit_output.json_lines(self.audit, self.table)][0], value["rows"][0])

    def test_metrics(self):
        """Each line is a comment or a sample; a label's value is escaped as the text format has it."""
        text = audit_output.metrics(self.audit)
        sample = re.compile(r'[a-z_]+(?:\{(?:[a-z]+="(?:[^"\\\n]|\\["\\n])*",?)+\})? [0-9.]+')
        for line in text.splitlines():
            self.assertTrue(line.startswith(("# HELP ", "# TYPE ")) or sample.fullmatch(line), line)
        self.assertIn('scf_container_verdict{id="' + "ab" * 32 + '",name="a\\"} 1\\\\x0ab\\\\\\\\",engine="podman",'
                      'image="i\\\\x1b[0m",pod="",user="",verdict="not known"} 1\n', text)
        self.assertIn("\nscf_audit_seconds 1.500\n", text)
        self.assertIn('\nscf_not_looked_at{user=""} 0\n', text)
        for line, user in (("no filters could be read", None), ("x", None), ("y", 5), ("z", 5)):
            self.audit.snapshot.leave_out(line, user)
        self.assertIn('\nscf_not_looked_at{user=""} 2\nscf_not_looked_at{user="5"} 1\n',
                      audit_output.metrics(self.audit))

    def test_labels(self):
        """Each name has a label of its own, of some length, from which Prometheus reads it back."""
        long = "x" * (1 << 20)
        names = ["a\nb", "a\\nb", "a\\x0ab", "a\\\\x0ab", "\udcff", "\\xff", "\xff", "\ud800", "\\", '"', '\\"', "x",
                 long, f"{long}y", long[:256], long[:257], "\n" * 257, "\n" * 258]
        label = re.compile(r'name="((?:[^"\\\n]|\\["\\n])*)",engine=')
        labels = [label.search(self.metrics_of(name))[1] for name in names]
        self.assertEqual(len({*labels}), len(names))
        self.assertTrue(all(label.isprintable() for label in labels))
        self.assertLess(max(map(len, labels)), 2000)
        self.assertEqual(labels[:3], ["a\\\\x0ab", "a\\\\\\\\nb", "a\\\\\\\\x0ab"])

    def metrics_of(self, name):
        """The metrics where the container has this name."""
        self.row.container = replace(self.row.container, name=name)
        return audit_output.metrics(self.audit)

    def test_a_line_has_no_more_than_some_of_a_name(self):
        self.row.container = replace(self.row.container, name="x" * (1 << 20), image="y" * (1 << 20))
        self.assertLess(max(map(len, audit_output.audit_lines(self.audit, self.table))), 1000)

    @unittest.skipUnless(shutil.which("promtool"), "there is no promtool here")
    def test_metrics_by_promtool(self):
        done = completed(["promtool", "check", "metrics"], audit_output.metrics(self.audit).encode(),
                         stderr=subprocess.STDOUT)
        self.assertEqual((done.returncode, done.stdout), (0, b""))

    @unittest.skipUnless(shutil.which("promtool"), "there is no promtool here")
    def test_alerts_by_promtool(self):
        """contrib's rules on these metrics: those alerts come that have to, as where the audit sees nothing."""
        rules = os.path.join(TOP, "contrib", "prometheus", "scf.rules.yml")
        self.assertIn("SUCCESS: 5 rules found", self.run_words(["promtool", "check", "rules", rules])[1])
        for rows, left_out, step, alerts in (
                ([], [], 60, []), ([], ["no filters could be read"], 60, ["ScfNotLookedAt"]),
                ([], [], 0, ["ScfAuditStale"]), ([self.row], [], 60, ["ScfNotKnown"]),
                (None, [], 60, ["ScfAuditAbsent"]),
                ([self.row, unit("a.service")], [], 60, ["ScfNotConfinedAsConfigured", "ScfNotKnown"])):
            self.audit.rows = rows or []
            self.audit.snapshot = machine.Snapshot(left_out_of={None: left_out} if left_out else {})
            text = "" if rows is None else audit_output.metrics(self.audit)
            series = [{"series": name, "values": f"0+{step}x60" if name == "scf_audit_timestamp_seconds" else
                       f"{value}x60"} for name, _, value in (line.rpartition(" ") for line in text.splitlines())
                      if name[:1] not in ("", "#")]
            self.file("test.json", {"rule_files": [rules], "evaluation_interval": "1m", "tests": [{
                "interval": "1m", "input_series": series, "promql_expr_test": [{
                    "expr": 'count by (alertname) (ALERTS{alertstate="firing"})', "eval_time": "50m",
                    "exp_samples": [{"labels": f'{{alertname="{alert}"}}', "value": 1} for alert in alerts]}]}]})
            status, out, err = self.run_words(["promtool", "test", "rules", "test.json"])
            self.assertEqual(status, 0, (alerts, out, err))

    def test_a_file_is_replaced_at_once(self):
        path = self.file("out.prom", "old")
        output.replace_file(path, "new")
        self.assertEqual((text_of(path), os.listdir(self.folder)), ("new", ["out.prom"]))
        with self.assertRaises(FileNotFoundError):
            output.replace_file(os.path.join(self.folder, "none", "out.prom"), "new")

    def test_a_link_that_is_put_into_the_folder_meanwhile_is_not_followed(self):
        secret, folder = self.file("secret", "s"), os.path.dirname(self.file("own/x", ""))
        path = f"{self.folder}/own/out"
        os.chmod(secret, 0o600)

        class Meanwhile(str):
            """A text at whose writing all files of the folder become links to another file."""

            def encode(self, *words):
                for name in os.listdir(folder):
                    os.unlink(f"{folder}/{name}")
                    os.symlink(secret, f"{folder}/{name}")
                return str.encode(self, *words)

        output.replace_file(path, Meanwhile("new"))
        self.assertEqual((os.stat(secret).st_mode & 0o777, os.path.getsize(secret)), (0o600, 1))
        output.replace_file(path, "new")
        self.assertEqual((os.path.islink(path), os.stat(path).st_mode & 0o777), (False, 0o644))

    def test_changes(self):
        """Rows that are new, gone, or have another verdict, in lines and objects; a key is a container's identifier."""
        earlier = audit_output.Earlier.of_object({"time": "yes\nterday", "rows": [
            {"kind": "container", "name": "gone", "verdict": "weaker"},
            {"kind": "container", "name": "x", "id": "ab" * 32, "verdict": "as configured"},
            {"kind": "unit", "name": "a.service", "verdict": "weaker"}]})
        self.audit.rows += [unit("a.service"), unit("b.service")]
        changes = [*audit_output.changes(earlier, self.audit)]
        self.assertEqual([(change["change"], change["verdict"], change["was"]) for change in changes], [
            ("changed", "not known", "as configured"), ("new", "weaker", None), ("gone", None, "weaker")])
        name = "container a\"} 1\\x0ab\\ (podman, i\\x1b[0m, abababababab)"
        self.assertEqual([*map(audit_output.change_text, changes)], [
            f"1970-01-01T00:00:00Z not known: {name} (was as configured)",
            "1970-01-01T00:00:00Z weaker: unit b.service",
            "1970-01-01T00:00:00Z gone: container gone (was weaker)"])
        printed = audit_output.audit_lines(self.audit, self.table, earlier=earlier)
        lines = [line for line in printed if " since " in line]
        self.assertEqual(lines, [f"# changed since yes\\x0aterday: {name}: not known (was as configured)",
                                 "# new since yes\\x0aterday: unit b.service: weaker",
                                 "# gone since yes\\x0aterday: container gone (was weaker)"])
        value = audit_output.audit_json(self.audit, self.table, earlier)
        self.assertEqual(value["since"], {"time": "yes\\x0aterday", "changes": changes})
        for name, each in (("audit", value), *(("audit-lines", change) for change in changes)):
            self.assertEqual([*json_schema.faults({"schema": 3, **each}, {"$ref": f"#/$defs/{name}"}, name)], [])

    def test_a_user_is_part_of_what_a_row_is(self):
        """A user's container of the name of root's that has ended isn't that one, nor is a user's unit."""
        earlier = audit_output.Earlier.of(self.audit)
        self.row.user = 5
        changes = [(change["change"], change["row"][-35:]) for change in audit_output.changes(earlier, self.audit)]
        self.assertEqual(changes, [("new", "an, of user 5, i\\x1b[0m, abababababab)"[-35:]),
                                   ("gone", "b\\ (podman, i\\x1b[0m, abababababab)"[-35:])])
        value = audit_output.audit_json(self.audit, self.table)
        self.assertEqual((value["rows"][0]["id"], value["rows"][0]["user"]), (f"user 5: {'ab' * 32}", 5))
        self.assertEqual([*audit_output.changes(audit_output.Earlier.of_object(value), self.audit)], [])
        self.assertIn('pod="",user="5",verdict="not known"} 1\n', audit_output.metrics(self.audit))

    def test_programs_are_counted(self):
        """Those that don't bear on the status are listed by --programs alone, and so are their changes."""
        stated = audit_rows.Expectation(source="x", dropped="x")
        self.audit.rows = [unit(name, verdict, kind=audit_rows.OTHER_PROGRAM, expected=expected)
                           for name, verdict, expected in (("fine", "stricter", None), ("worse", "weaker", None),
                                                           ("stated", "stricter", stated))]
        gone = {"kind": "program", "verdict": "stricter", "profile": {"source": None, "sha256": None}}
        earlier = audit_output.Earlier.of_object({
            "time": "T", "rows": [{**gone, "name": "gone"}, {**gone, "name": "worse"}]})
        for lists_all, names, changed in ((False, ["worse", "stated"], ["worse", "stated"]),
                                          (True, ["fine", "worse", "stated"], ["fine", "worse", "stated", "gone"])):
            lines = [*audit_output.audit_lines(self.audit, self.table, lists_all, earlier)]
            self.assertEqual([line.split()[2].rstrip(":") for line in lines if line[0] not in " #"], names)
            self.assertEqual([line.split()[5].rstrip(":") for line in lines if " since " in line], changed)
            count = "; without a configuration, and listed by --programs: 1"
            self.assertIn(f"# other confined programs: weaker 1, stricter 2{'' if lists_all else count}", lines)
        self.assertEqual(len(audit_output.audit_json(self.audit, self.table)["rows"]), 3)

    def test_a_reason_stands_once(self):
        self.audit.rows = [unit(name, "not known", why, {7: [7]})
                           for name, why in zip("abcd", ("slow", "slow", "late", None))]
        lines = [line.split(": ", 2)[2] for line in audit_output.audit_lines(self.audit, self.table) if line[0] == " "]
        self.assertEqual(lines, ["slow", "as for unit a", "late"])

    def test_status(self):
        """1 before 4 before 0; what is unconfined by configuration counts, unless it is allowed."""
        def status(*verdicts, allows=False, left_out=()):
            snapshot = machine.Snapshot(left_out_of={None: list(left_out)} if left_out else {})
            return audit_rows.Audit([unit("x", verdict) for verdict in verdicts], snapshot, 0.0,
                                    allows_unconfined=allows).status

        by_configuration, though_configured = "unconfined by configuration", "unconfined though configured"
        for verdict, expected in (("as configured", 0), ("stricter", 0), ("otherwise", 0), ("not known", 4),
                                  ("weaker", 1), (by_configuration, 1), (though_configured, 1)):
            self.assertEqual(status("as configured", verdict), expected, verdict)
        self.assertEqual([status("not known", "weaker"), status(by_configuration, allows=True),
                          status(though_configured, allows=True), status("as configured", left_out=["x"]), status()],
                         [1, 0, 1, 4, 0])


class Words(Case):
    def test_members_of_other_types(self):
        """What no engine writes is refused by a line, whatever runtime applies it."""
        seccomp = {"defaultAction": "SCMP_ACT_ALLOW", "syscalls": 5}
        for value in ({"linux": {"seccomp": seccomp}}, seccomp):
            name = self.file("config.json", value)
            for runtime in ("runc", "crun", "docker", "podman"):
                for words in (("resolve-profile", "--runtime", runtime, name),
                              ("verify-process", "--runtime", runtime, str(os.getpid()), name)):
                    status, out, err = self.run_tool(*words)
                    self.assertEqual((status, out, err.count("\n")), (2, "", 1), words)
                    self.assertIn("syscalls isn't a list", err)

    def test_an_earlier_object(self):
        for text in ("{", "[]", "{}", '{"rows": [{}]}', '{"rows": [{"kind": 1}]}'):
            for words in ((), ("--html", "x"), ("--json",)):
                self.is_refused("a.json' isn't an object that --json printed", "audit", *words, "--since",
                                self.file("a.json", text))

    def test_what_scf_refuses(self):
        """It is said before anything is looked at."""
        for text, says in (("x", "fault profile Json: .* at line 1, column 1: "),
                           ('{"defaultAction": "SCMP_ACT_FOO"}', "fault profile Action: .* at line 1, column 19")):
            name = self.file("p.json", text)
            for words in (("--expect", name), ("--baseline", f"no-more:{name}")):
                status, out, err = self.run_tool("audit", *words)
                self.assertEqual((status, out), (2, ""), words)
                self.assertRegex(err, f"\\Aaudit: '{name}': {says}")
        self.is_refused("audit: fault number limit:", "audit", "--limit", "x")
        self.is_refused("audit: fault table Form line 1:", "audit", "--table", self.file("t", "x y z\n"))

    def test_what_runtimes_accept(self):
        """Two answers to a syscall are no reason to look at nothing."""
        name = self.file("p.json", {"defaultAction": "SCMP_ACT_ALLOW", "syscalls": [
            {"names": ["mount"], "action": name} for name in ("SCMP_ACT_ERRNO", "SCMP_ACT_LOG")]})
        self.assertIn(self.run_tool("audit", "--expect", name)[0], (0, 1, 4))

    def test_places_that_are_not_there(self):
        self.is_refused(f"audit: '{self.folder}': Is a directory\n", "audit", "--html", self.folder)
        self.assertEqual(os.listdir(self.folder), [])
        out = self.run_tool("audit", "--runtime-root", f"{self.folder}/no*")[1]
        self.assertTrue(out.endswith(f"# no folder is --runtime-root {self.folder}/no*\n"), out)

    def test_usage(self):
        self.assertIn(": argument --watch: 'x' isn't a number of seconds\n", self.run_tool("audit", "--watch", "x")[2])
        for words in (("--watch", "0"), ("--json", "--json-lines"), ("x",), ("--expect", "none"),
                      ("--baseline", "no-more:none"), ("--expect", "-", "--baseline", "no-more:-")):
            status, out, err = self.run_tool("audit", *words)
            self.assertEqual((status, out), (2, ""), words)
            self.assertRegex(err, r"audit: [^\n]*\n\Z")
