"""A machine of its own for tests: PID, mount and UTS namespaces with a /run of their own, in which containers, units
and other processes are started. When its first process ends, the kernel ends all others, and nothing of them stays."""
import contextlib
import glob
import json
import os
import shutil
import signal
import subprocess
import tempfile
import time
import unittest

from . import json_schema
from .common import LOADER, PATIENCE, Case, comes, text_of
from .confined import children_of, here

BUSYBOX = shutil.which("busybox")
ROOT = unittest.skipIf(os.getuid(), "only root makes namespaces")
# Starts processes: its words are a JSON list of a name, the names of filters' files, and how many processes with how
# many threads. Each process waits in read(2), which its filters must allow. It prints their numbers, and ends.
CROWD = LOADER + r"""
threading.stack_size(1 << 16)
read, write = os.pipe()
def status_of(number):
    return dict(it.split(":\t", 1) for it in open(f"/proc/{number}/status", errors="replace") if ":\t" in it)
def be(name, files, threads):
    library.prctl(15, name.encode("utf-8", "surrogateescape"), 0, 0, 0)
    for _ in range(threads - 1):
        threading.Thread(target=os.read, args=(read, 1), daemon=True).start()
    for file in (0, 1, 2):
        os.close(file)
    for data in [open(it, "rb").read() for it in files]:
        # SECCOMP_FILTER_FLAG_TSYNC
        if load(data, 1):
            os._exit(1)
    os.read(read, 1)
numbers = []
for name, files, count, threads in json.loads(sys.argv[1]):
    for _ in range(count):
        number = os.fork()
        if not number:
            be(name, files, threads)
        numbers.append(number)
        until = time.monotonic() + 60
        while True:
            status = status_of(number)
            if (status["Seccomp_filters"], status["Threads"]) == (f"{len(files)}\n", f"{threads}\n") and \
                    status["State"][0] == "S":
                break
            assert time.monotonic() < until and status["State"][0] not in "XZ", status
            time.sleep(0.001)
print(json.dumps(numbers))
"""


# Limits that nobody needs a capability for, and folders and locks of podman's own.
PODMAN_CONF = """[containers]
netns = "none"
default_ulimits = ["nofile=1024:1024", "nproc=1000:1000"]
pids_limit = 0
[engine]
cgroup_manager = "cgroupfs"
events_logger = "none"
lock_type = "file"
tmp_dir = "{0}/tmp"
static_dir = "{0}/static"
volume_path = "{0}/volumes"
"""
PODMAN_STORAGE_CONF = """[storage]
driver = "vfs"
graphroot = "{0}/root"
runroot = "{1}"
"""


def podman_settings(case, run_root):
    """The environment in which podman keeps all that it has in a test's folder."""
    return {f"CONTAINERS_{name}": case.file(f"podman/{name}", text.format(f"{case.folder}/podman", run_root))
            for name, text in (("CONF", PODMAN_CONF), ("STORAGE_CONF", PODMAN_STORAGE_CONF))}


def make_rootfs(where):
    """Makes the root file system of a bundle in a folder, with busybox."""
    for folder in ("bin", "proc", "dev", "sys", "tmp", "etc", "run"):
        os.makedirs(f"{where}/rootfs/{folder}")
    shutil.copy2(BUSYBOX, f"{where}/rootfs/bin/busybox")
    for link in ("sh", "sleep", "true"):
        os.symlink("busybox", f"{where}/rootfs/bin/{link}")


def spec_of(where, args):
    """The configuration that a runtime makes for a bundle in a folder, which runs these words."""
    subprocess.run([shutil.which("runc") or shutil.which("crun"), "spec"], cwd=where, check=True)
    config = json.loads(text_of(f"{where}/config.json"))
    config["process"].update(terminal=False, args=list(args), rlimits=[])
    return config


def remove_groups(top):
    """Removes a control group and those below; whether it is still there."""
    for path, _, _ in os.walk(top, topdown=False):
        with contextlib.suppress(OSError):
            os.rmdir(path)
    return os.path.exists(top)


class Machine(Case):
    """Tests on a machine, which `boot` starts: a process whose only child is the first one there."""

    # The namespaces that a command enters.
    NAMESPACES = "-p -m -u"

    def first(self):
        """The number of the first process, 0 where there is none."""
        return (children_of(self.boot.pid) or [0])[0]

    def on(self, *words, given=b"", **env):
        """Runs a command on the machine: its status, and what it printed."""
        first = self.first()
        if not first:
            return 1, "", ""
        # (what a command starts and leaves behind would keep a pipe open)
        enter = ["nsenter", "-t", str(first), *self.NAMESPACES.split()]
        with tempfile.TemporaryFile() as out, tempfile.TemporaryFile() as err:
            done = subprocess.run([*enter, *words], input=given, stdout=out, stderr=err, env={**os.environ, **env},
                                  check=False, timeout=PATIENCE)
            for file in (out, err):
                file.seek(0)
            out, err = (file.read().decode("utf-8", "replace") for file in (out, err))
        self.assertEqual(list(json_schema.faults_of_output(words, out, done.returncode)), [], words)
        return done.returncode, out, err

    def end(self):
        """Ends all of its processes."""
        first = self.first()
        if first:
            os.kill(first, signal.SIGKILL)
        self.boot.kill()
        self.boot.wait()

    @property
    def group(self):
        """The control group of its containers."""
        return f"scf-audit-{os.getpid()}"

    def crowd(self, *groups):
        """Starts processes, each group with a name, filters, a number of processes and of threads; their numbers."""
        named = [(name, [self.file(f"crowd/{at}.{index}", data) for index, data in enumerate(filters)], count, threads)
                 for at, (name, filters, count, threads) in enumerate(groups)]
        status, out, err = self.on("/usr/bin/python3", "-c", CROWD, json.dumps(named))
        self.assertEqual(status, 0, err)
        return json.loads(out)

    def runtime(self, name):
        """A runtime's command; skips the test where it isn't there."""
        self.needs("busybox", name)
        return [name]

    def bundle(self, name, seccomp, change=lambda config: None, args=("sleep", "1000")):
        """A bundle whose configuration has this profile, or none."""
        where = os.path.join(self.folder, "bundles", name)
        make_rootfs(where)
        config = spec_of(where, args)
        config["linux"]["cgroupsPath"] = f"/{self.group}/{name}"
        config["linux"].pop("seccomp", None)
        if seccomp is not None:
            config["linux"]["seccomp"] = seccomp
        change(config)
        self.file(f"bundles/{name}/config.json", config)
        return where

    def container(self, runtime, name, seccomp, **settings):
        """Starts a container; skips the test where the runtime starts none."""
        words = self.runtime(runtime)
        where = self.bundle(name, seccomp, **settings)
        status, out, err = self.on(*words, "run", "--detach", "--bundle", where, name)
        self.skip_if(status, f"{runtime} starts no container here: {(out + err).strip()}")


@here
@ROOT
class OwnMachine(Machine):
    """Tests on a machine of its own."""

    BOOT = ("mount -t tmpfs tmpfs /run && mkdir -p /run/user; umount /sys/fs/cgroup/unified 2>/dev/null; "
            "hostname audited; echo ready; exec sleep infinity")

    def setUp(self):
        super().setUp()
        self.needs("unshare")
        self.boot = subprocess.Popen(
            ["unshare", "--pid", "--mount", "--uts", "--fork", "--mount-proc", "--kill-child", "sh", "-c", self.BOOT],
            stdin=subprocess.DEVNULL, stdout=subprocess.PIPE, stderr=subprocess.PIPE, text=True)
        self.addCleanup(self.end)
        if self.boot.stdout.readline() != "ready\n":
            self.skipTest(f"no namespaces can be made here: {self.boot.stderr.read()}")

    def end(self):
        """Also removes the control groups that they were in, once they have left them."""
        super().end()
        self.boot.communicate()
        comes(lambda: not any(map(remove_groups, [f"/sys/fs/cgroup/{self.group}",
                                                  *glob.glob(f"/sys/fs/cgroup/*/{self.group}")])))


SYSTEMD = "/lib/systemd/systemd"
# Makes systemd the first process of namespaces of its own, which sees one folder of cgroups and our units.
BOOT = """
echo $$ >"$1/cgroup.procs" && exec unshare --kill-child -p --fork -m -u -i -n --cgroup --mount-proc sh -c '
    mount -t tmpfs none /run && mount -t tmpfs none /sys/fs/cgroup && mount -t cgroup2 none /sys/fs/cgroup &&
    exec env container=scf SYSTEMD_UNIT_PATH="$1": "$2" --system --unit=scf-none.target' boot "$2" "$3"
"""


@unittest.skipUnless(os.geteuid() == 0 and os.path.exists(SYSTEMD), "needs root and systemd")
class Systemd(Machine):
    """Tests in namespaces of which a real systemd is the first process."""

    NAMESPACES = "-m -u -i -n -p -C"
    # its unit files
    UNITS = {}

    def setUp(self):
        super().setUp()
        for name, text in {"scf-none.target": "[Unit]\nDefaultDependencies=no\n", **self.UNITS}.items():
            self.file(f"units/{name}", text)
        # (what a system starts at its boot would empty /tmp, which is this one's: a unit that wants it doesn't start)
        for name in ("sysinit.target", "basic.target", "systemd-tmpfiles-setup.service", "systemd-sysctl.service"):
            os.symlink("/dev/null", f"{self.folder}/units/{name}")
        self.cgroup = self.made_cgroup()
        self.boot = subprocess.Popen(["sh", "-c", BOOT, "boot", self.cgroup, f"{self.folder}/units", SYSTEMD],
                                     stdin=subprocess.DEVNULL, stdout=subprocess.DEVNULL, stderr=subprocess.DEVNULL)
        self.addCleanup(self.end)
        until = time.monotonic() + 20
        while self.on("systemctl", "show", "--property=Version")[0]:
            if time.monotonic() > until or self.boot.poll() is not None:
                self.skipTest("systemd can't be the first process of namespaces here")
            time.sleep(0.05)

    def made_cgroup(self):
        mounts = [line.split()[1] for line in text_of("/proc/mounts").splitlines() if line.split()[2] == "cgroup2"]
        self.skip_if(not mounts, "there are no cgroups of version 2 here")
        try:
            path = tempfile.mkdtemp(prefix="scf-systemd-", dir=mounts[0])
        except OSError as error:
            self.skipTest(f"no cgroup can be made here: {error.strerror}")
        self.addCleanup(comes, lambda: not remove_groups(path))
        return path
