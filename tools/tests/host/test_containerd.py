"""Containers of a real containerd, where it is: what audit, verify-process and a hook say of them."""
import json
import os
import shutil
import unittest

from support.common import text_of, tool
from support.own_machine import OwnMachine
from host.test_audit import STATED, STRICTER, Audited

# The plugins that need what a machine of its own lacks.
CONFIG = """version = 2
root = "{0}/containerd"
state = "/run/containerd"
disabled_plugins = ["io.containerd.grpc.v1.cri", "io.containerd.snapshotter.v1.btrfs"]
"""
SERVE = ("containerd --config {0}/config.toml >{0}/containerd.log 2>&1 & "
         "for _ in $(seq 600); do ctr version >/dev/null 2>&1 && exit 0; sleep 0.1; done; exit 1")
# What Kubernetes has containerd write into a container's configuration (pkg/cri/annotations).
KUBERNETES = {"container-type": "container", "container-name": "web", "image-name": "docker.io/library/nginx:1",
              "sandbox-name": "web-1", "sandbox-namespace": "default"}


@unittest.skipUnless(shutil.which("containerd") and shutil.which("ctr"), "there is no containerd here")
class Containerd(Audited, OwnMachine):
    def setUp(self):
        super().setUp()
        self.runtime("runc")
        self.file("config.toml", CONFIG.format(self.folder))
        self.skip_if(self.on("sh", "-c", SERVE.format(self.folder))[0], "containerd doesn't start here")

    def started(self, name, *words):
        """Starts a container: the path of its configuration."""
        status, out, err = self.on("ctr", "run", "--detach", "--cgroup", f"/{self.group}/{name}", *words, "--rootfs",
                                   f"{self.bundle(name, None)}/rootfs", name, "/bin/sleep", "1000")
        self.skip_if(status, f"containerd starts no container here: {(out + err).strip()}")
        return f"/run/containerd/io.containerd.runtime.v2.task/default/{name}/config.json"

    def test_each_verdict(self):
        stated = self.file("stated.json", STATED)
        self.started("open")
        paths = {name: self.started(name, "--seccomp", "--seccomp-profile", stated) for name in ("same", "more")}
        annotations = [word for name, item in KUBERNETES.items() for word in
                       ("--annotation", f"io.kubernetes.cri.{name}={item}")]
        self.started("0" * 64, "--seccomp", *annotations)
        config = json.loads(self.on("cat", paths["more"])[1])
        config["linux"]["seccomp"] = STRICTER
        self.on("sh", "-c", f"cat >{paths['more']}", given=json.dumps(config).encode())
        rows = self.rows()
        self.assertEqual({name: row["verdict"] for (_, name), row in rows.items()},
                         {"open": "unconfined by configuration", "same": "as configured", "more": "as configured",
                          "web": "as configured"})
        # (runc keeps what it was started with)
        self.assertEqual({name for (_, name), row in rows.items() if row["profile"].get("changed")}, {"more"})
        self.assertEqual({(row["engine"], row["runtime"]) for row in rows.values()}, {("containerd", "runc")})
        web = rows["container", "web"]
        self.assertEqual((web["id"], web["image"], web["pod"]), ("0" * 64, KUBERNETES["image-name"], "default/web-1"))
        for name, status in (("same", 0), ("more", 1)):
            pid = rows["container", name]["parts"][0]["processes"][0]["process"]
            actual = self.on(tool("verify-process"), "--runtime", "runc", "--all", str(pid), paths[name])
            self.assertEqual((actual[0], actual[2]), (status, ""), actual)
            self.assertIn(f"# the container is the control group /{self.group}/{name}; ", actual[1])

    def test_a_hook(self):
        """One in the configuration lets a container run that is confined as configured, and no other."""
        config = json.loads(self.on("cat", self.started("first", "--seccomp"))[1])
        for name, seccomp, status, says in (("same", config["linux"]["seccomp"], 0, "confined as configured (same)"),
                                            ("open", None, 1, "unconfined by configuration")):
            config["root"]["path"] = f"{self.bundle(name, None)}/rootfs"
            config["linux"].update(cgroupsPath=f"/{self.group}/{name}", seccomp=seccomp)
            words = f"{tool('oci-hook')} --runtime runc --kill >{self.folder}/{name}.said 2>&1"
            config["hooks"] = {"poststart": [{"path": "/bin/sh", "args": ["sh", "-c", words], "timeout": 62,
                                              "env": [f"PATH={os.environ['PATH']}"]}]}
            path = self.file(f"{name}.json", config)
            self.assertEqual(self.on("ctr", "run", "--detach", "--config", path, name)[0], status)
            said = text_of(f"{self.folder}/{name}.said").splitlines()
            self.assertEqual(said[0], f"oci-hook: container {name}: {says}")
