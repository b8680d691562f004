"""One answer of each gate to the same filters and profile: compare, verify-process, oci-hook, audit and diff, in
containers of a real runc and crun, and under bwrap; of podman's containers in test_hook_containers."""
import json
import os
import shutil

from support.common import comes, tool
from support.own_machine import OwnMachine
from host.test_audit import Audited

ABIS = NATIVE, I386, X32 = "SCMP_ARCH_X86_64", "SCMP_ARCH_X86", "SCMP_ARCH_X32"
# What audit says where the others say that nothing is allowed that the profile denies, or that something is.
AUDITED = {"no more": "as configured", "more": "weaker"}


def denying(*architectures):
    """A profile that denies mount and ptrace, for some architectures, or without a list."""
    return {"defaultAction": "SCMP_ACT_ALLOW", **({"architectures": list(architectures)} if architectures else {}),
            "syscalls": [{"names": ["mount", "ptrace"], "action": "SCMP_ACT_ERRNO", "errnoRet": 1}]}


# By name: the runtime, the profile that it loads, the one that is stated later, the row whose filter is as that says,
# what is said then. For what a list doesn't name libseccomp's filters kill the thread, and the profile the process.
ROWS = {"all-listed": ("runc", denying(*ABIS), denying(*ABIS), "all-listed", "no more"),
        "one-listed": ("crun", denying(NATIVE), denying(NATIVE), "one-listed", "no more"),
        "no-list": ("runc", denying(NATIVE), denying(), "one-listed", "no more"),
        "i386-open": ("runc", denying(NATIVE, I386), denying(NATIVE), "no-list", "more"),
        "x32-open": ("crun", denying(NATIVE, X32), denying(NATIVE, I386), "i386-open", "more"),
        "all-open": ("crun", denying(*ABIS), denying(), "one-listed", "more")}


class Gates(Audited, OwnMachine):
    def said(self, name, *words, **more):
        """The first line and the status of a tool."""
        status, out, err = self.on(tool(name), *words, **more)
        return (out or err).split("\n")[0], status

    def saved(self, pid):
        """The files of a process's filters."""
        folder = os.path.join(self.folder, f"saved-{pid}")
        if not os.path.exists(folder):
            status, _, err = self.on(tool("filters-of"), str(pid), folder)
            self.assertEqual(status, 0, err)
        return sorted(os.path.join(folder, name) for name in os.listdir(folder))

    def compiled(self, profile, *words):
        """The filter that scf makes of a profile."""
        path = f"{profile}.bpf"
        status, _, err = self.on("sh", "-c", f'exec "$@" >{path}', "sh", tool("compile"), *words, profile)
        self.assertEqual(status, 0, err)
        return path

    def of_process(self, pid, profile, *words):
        """What compare and verify-process say of a process."""
        return {"compare": self.said("compare", *words, *self.saved(pid), profile),
                "verify-process": self.said("verify-process", *words, str(pid), profile)}

    def audited(self, *words):
        """The verdicts of an audit by the names and the identifiers of rows."""
        rows = json.loads(self.on(tool("audit"), "--json", *words)[1])["rows"]
        return {name: row["verdict"] for row in rows for name in (row["name"], row.get("id"))}

    def of_hook(self, state, *words):
        """What the hook says of a container, given its state."""
        given = {"ociVersion": "1.0.2", **{name: state[name] for name in ("id", "status", "pid", "bundle")}}
        status, out, _ = self.on(tool("oci-hook"), "--json", "--wait=0", *words, given=json.dumps(given).encode())
        return json.loads(out)["verdict"], status

    def test_containers(self):
        for name, (runtime, loaded, *_) in ROWS.items():
            self.container(runtime, name, loaded)
        for name, (_, _, stated, *_) in ROWS.items():
            self.restate(name, stated)
        states = {name: json.loads(self.on(runtime, "state", name)[1]) for name, (runtime, *_) in ROWS.items()}
        audited, saved = self.audited(), {name: self.saved(state["pid"]) for name, state in states.items()}
        for name, (*_, as_stated, word) in ROWS.items():
            state, config = states[name], os.path.join(states[name]["bundle"], "config.json")
            answers = {**self.of_process(state["pid"], config, "--no-more"),
                       "oci-hook": self.of_hook(state, "--policy=no-more"),
                       "diff": self.said("diff", "--no-more", *saved[as_stated], *saved[name])}
            with self.subTest(name):
                self.assertEqual(answers, dict.fromkeys(answers, (word, int(word == "more"))))
                self.assertEqual(audited[name], AUDITED[word])

    def test_a_sandbox(self):
        """bwrap, which loads what scf made of a profile; nothing is configured for it but what an audit expects."""
        self.needs("bwrap")
        loaded, stated = (self.file(f"{name}.json", profile) for name, profile in (
            ("loaded", denying(NATIVE, I386)), ("stated", denying(NATIVE))))
        self.on("sh", "-c", f"bwrap --bind / / --seccomp 9 sleep 1234 9<{self.compiled(loaded)} >/dev/null 2>&1 &")
        self.assertTrue(comes(lambda: self.on("pgrep", "-xf", "sleep 1234")[0] == 0))
        pid = self.on("pgrep", "-xf", "sleep 1234")[1].split()[0]
        for profile, word in ((loaded, "no more"), (stated, "more")):
            answers = {**self.of_process(pid, profile, "--no-more"),
                       "diff": self.said("diff", "--no-more", self.compiled(profile), *self.saved(pid))}
            self.assertEqual(answers, dict.fromkeys(answers, (word, int(word == "more"))))
            self.assertEqual(self.audited("--expect", profile)[shutil.which("sleep")], AUDITED[word])
