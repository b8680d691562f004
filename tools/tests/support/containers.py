"""Containers that runc or crun makes on this machine, beside the processes of a test."""
import contextlib
import json
import os
import shutil
import subprocess
import tempfile
import unittest

from .common import text_of
from .own_machine import make_rootfs

# crun takes no mix of both versions of control groups: it is run where there is none.
HYBRID = "/sys/fs/cgroup/unified"
WITHOUT = ["unshare", "--mount", "--propagation", "private", "sh", "-c", f'umount {HYBRID}; exec "$@"', "sh"]
ALONE = WITHOUT if os.path.ismount(HYBRID) else []
# What needs longer hangs.
SECONDS = 600


def said(words, **settings):
    """A run of which a container may keep the output open: the status, and what was said."""
    with tempfile.TemporaryFile() as message:
        done = subprocess.run(words, check=False, timeout=SECONDS, **{
            "stdin": subprocess.DEVNULL, "stdout": message, "stderr": message, **settings})
        message.seek(0)
        return done.returncode, message.read().decode(errors="replace")


class Box:
    """A bundle with busybox in a folder of its own, and the container that a runtime makes of it."""

    def __init__(self, runtime):
        if os.geteuid() or not all(map(shutil.which, ("busybox", runtime))):
            raise unittest.SkipTest(f"needs root, busybox and {runtime}")
        self.where = tempfile.mkdtemp(prefix="scf-box-")
        self.name, self.config = os.path.basename(self.where), f"{self.where}/config.json"
        self.words = [*(ALONE if runtime == "crun" else []), runtime, "--root", f"{self.where}/root"]
        make_rootfs(self.where)

    def configure(self, config):
        with open(self.config, "w", encoding="utf-8") as file:
            json.dump(config, file)

    def call(self, *words, before=(), **settings):
        """Calls the runtime."""
        return said([*before, *self.words, *words], **settings)

    def make(self, config, *words, **settings):
        """Has the runtime make the container, by default run it: status, what was said, and its process if any."""
        self.configure(config)
        status, message = self.call(*(words or ("run", "--detach")), "--bundle", self.where, "--pid-file",
                                    f"{self.where}/pid", self.name, **settings)
        return status, message, int(text_of(self.where, "pid")) if os.path.exists(f"{self.where}/pid") else None

    def close(self):
        # (one that is paused can't be ended)
        for words in (("resume",), ("delete", "--force")):
            self.call(*words, self.name)
        shutil.rmtree(self.where, ignore_errors=True)


@contextlib.contextmanager
def container(runtime, config):
    """A container with this configuration: its process, or None and why the runtime makes none."""
    with contextlib.closing(Box(runtime)) as box:
        status, message, process = box.make(config)
        yield None if status else process, message
