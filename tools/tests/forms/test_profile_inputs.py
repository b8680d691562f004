"""Profiles as commands take them: Kubernetes' objects, printed, too, engines' own with --caps; and what is refused."""
import json
import os
import subprocess
import unittest

from support.common import Case, completed, filter_of, profile_of, sample, tool
from support.oci import ALLOW, ERRNO, condition, entry
from scftools.model import profiles
from scftools.cli.words import SHARED, argparse
from scftools.forms import kubernetes

# As the documentation of the Security Profiles Operator has them.
YAML = sample("operator.yaml")
SPEC = {"defaultAction": ERRNO, "architectures": ["SCMP_ARCH_X86_64"], "syscalls": [
    entry("read", "write", "exit_group"), entry("socket", args=[{"index": 0, "value": 40, "op": "SCMP_CMP_NE"}])]}
OBJECT = {"apiVersion": "security-profiles-operator.x-k8s.io/v1beta1", "kind": "SeccompProfile", "spec": SPEC}
READS = {"defaultAction": ERRNO, "syscalls": [entry("read")]}
HAS_YAML = any(os.path.exists(os.path.join(folder, "yaml")) for folder in kubernetes.YAML_FOLDERS)


class Unread(Case):
    """Members that nothing reads, which leave an entry without its conditions, or a profile without its entries."""

    def test_misspelt_members(self):
        first, with_mask = SPEC["syscalls"][0], entry("socket", args=[{**SPEC["syscalls"][1]["args"][0], "mask": 1}])
        allows = self.file("f.bpf", filter_of([0]))
        for profile, says in (
                ({"defaultAction": ERRNO, "syscalls": [first, entry("socket", arg=with_mask["args"])]},
                 "'arg' of entry 1; the nearest is 'args'"),
                ({"defaultAction": ALLOW, "sycalls": []}, "'sycalls' of the profile; the nearest is 'syscalls'"),
                ({"defaultAction": ERRNO, "syscalls": [first, with_mask]}, "'mask' of entry 1: args 0"),
                ({"defaultAction": ERRNO, "syscalls": [with_mask], "x": 1}, "'x' of the profile, and of 1 more")):
            remark = f": 'p.json': nothing reads the member {says}\n"
            self.file("p.json", profile)
            for words in (("ask", "--nr=0"), ("compare", allows), ("needs", self.file("log", "read() = 0\n"))):
                status, out, err = self.run_tool(*words, "p.json")
                self.assertIn(status, (0, 1), words)
                self.assertIn(remark, err, words)
                self.assertNotEqual(out, "", words)
            status, _, err = self.run_tool("compile", "p.json", stdout=subprocess.DEVNULL)
            self.assertEqual((status, err.count(remark)), (0, 1))
            for words in (("ask",), ("compare", allows), ("compile",), ("verify-process", "1"),
                          ("verify-process", "--runtime=runc", "1")):
                status, out, err = self.run_tool(words[0], "--strict", *words[1:], "p.json")
                self.assertEqual((status, out, err), (2, "", words[0] + remark), words)

    def test_what_is_read_is_not_told(self):
        """Nor a comment, nor what engines and a container's other settings have."""
        whole = {"ociVersion": "1.0", "process": {"x": 1}, "linux": {"y": 1, "seccomp": {
            **SPEC, "comment": "mine", "flags": ["SECCOMP_FILTER_FLAG_LOG"], "listenerPath": "/x"}}}
        for value in (SPEC, {**SPEC, "archMap": []}, whole, {**OBJECT, "spec": {**SPEC, "disabled": False}}):
            status, _, err = self.run_tool("compile", "--strict", self.file("p.json", value), stdout=subprocess.DEVNULL)
            self.assertNotIn("nothing reads", err)
            self.assertEqual(status, 0, err)


class Others(Case):
    """What is known to be no profile is named, by each tool."""

    def test_what_is_no_profile(self):
        raw, profile = self.file("f.bpf", filter_of([0])), self.file("p.json", profile_of("read"))
        elf = self.file("elf", b"\x7fELF\2\1\1\0" + bytes(56))
        docker = self.file("docker.json", b'[{"Id": "%s", "HostConfig": {}}]' % (b"0a" * 32))
        podman = self.file("podman.json", b'[{"Id": "%s", "HostConfig": {}, "OCIConfigPath": "/x"}]' % (b"0a" * 32))
        cri = self.file("cri.json", b'{"info": {"runtimeSpec": {"linux": {"seccomp": {"defaultAction": "X"}}}}}')
        task = "/run/containerd/io.containerd.runtime.v2.task/moby"
        for path, says in ((raw, "is a raw filter, not a profile: `scf surface` says what it allows"),
                           (elf, "ELF file"),
                           (docker, f"is what `docker inspect` prints: take {task}/{'0a' * 32}/config.json"),
                           (podman, "is what `podman inspect` prints: take the file that `podman inspect -f "
                                    "'{{.OCIConfigPath}}' NAME` names"), (cri, "take its .info.runtimeSpec")):
            # (a filter may also be what is wanted)
            for words in (*[("compare", raw, path)] * (path not in (raw, elf)), ("ask", path), ("compile", path),
                          ("lint", path), ("resolve-profile", path), ("compare-profiles", profile, path)):
                status, out, err = self.run_tool(*words, stdout=subprocess.PIPE)
                self.assertEqual((status, out, err.count("\n")), (2, "", 1), (words, out, err))
                self.assertIn(says, err)


class Kubernetes(Case):
    def is_plain(self, path):
        """Each tool takes an object as it takes its spec."""
        plain = self.file("plain.json", SPEC)
        for words in (("ask", "--nr=socket", "--a0=AF_VSOCK"), ("compile",), ("lint",), ("resolve-profile",)):
            done = [completed([tool(words[0]), *words[1:], path_given]) for path_given in (plain, path)]
            self.assertEqual([completed.returncode for completed in done], [0, 0], words)
            self.assertEqual(done[0].stdout, done[1].stdout, words)
            self.assertIn(f"{words[0]}: '{path}' is a SeccompProfile of Kubernetes: its spec is the profile\n",
                          done[1].stderr.decode())

    def test_json(self):
        self.is_plain(self.file("object.json", OBJECT))

    @unittest.skipUnless(HAS_YAML, "there is no PyYAML here")
    def test_yaml(self):
        self.is_plain(self.file("object.yaml", YAML))
        self.assertEqual(json.loads(kubernetes.spec_of(YAML.encode())), SPEC)

    def test_without_pyyaml(self):
        os.chmod(self.folder, 0o777)
        self.file("yaml.py", "")
        self.patched(kubernetes, "YAML_FOLDERS", ("/nonexistent", self.folder))
        self.assertIn("PyYAML isn't installed (Debian's python3-yaml)",
                      self.text_of_error(profiles.Refused, kubernetes.spec_of, YAML.encode()))

    @unittest.skipUnless(HAS_YAML, "there is no PyYAML here")
    def test_yaml_that_is_refused(self):
        for old, new, says in (("index: 0", "index: 1.5", "line 20 of the YAML has a value that JSON doesn't have"),
                               ("names: [socket]", "names: &it [socket]\n    comment: *it", "has aliases"),
                               ("0x28", "010", "a value that JSON doesn't have: '010'"),
                               ("0x28", "1:30", "a value that JSON doesn't have: '1:30'"),
                               ("spec:", "spec:\n  syscalls: []", "the member 'syscalls' is repeated"),
                               ("kind: SeccompProfile", "kind: Pod", "it is a Kubernetes object of the kind Pod, not"),
                               ("names: [socket]", "names: [socket", "the YAML is malformed at line 1"),
                               ("  name: profile1", "  ? [a]\n  : 1", "a member whose name isn't a string"),
                               ("spec:", "spec:\n  baseProfileName: runc", "adds the syscalls of the profile runc"),
                               ("spec:", "spec:\n  disabled: true", "the profile is disabled"),
                               ("profile1", "!!python/object:os.system x", "a value that JSON doesn't have"),
                               ("profile1", "[" * 3000, "nested too deep")):
            self.assertIn(old, YAML)
            status, out, err = self.run_tool("ask", self.file("object.yaml", YAML.replace(old, new, 1)))
            self.assertEqual((status, out, err.count("\n")), (2, "", 1), new[:30])
            self.assertIn(says, err)
        many = YAML + "".join(f"  - {{action: SCMP_ACT_ALLOW, names: [a{at}]}}\n" for at in range(7000))
        self.assertIn("the YAML has more than 262144 bytes", self.run_tool("ask", self.file("many.yaml", many))[2])
        self.assertIn("found another document", self.run_tool("ask", self.file("two.yaml", YAML * 2))[2])

    def test_other_json_is_left_alone(self):
        """A comment of a profile may be anything."""
        for comment in ("SeccompProfile", '"apiVersion" "kind"'):
            text = json.dumps({"defaultAction": ERRNO, "comment": comment, "syscalls": []})
            self.assertIsNone(kubernetes.spec_of(text.encode()))
        for kind, says in (("Pod", "of the kind Pod, not SeccompProfile"), ("List", "of the kind List")):
            self.assertIn(says, self.run_tool("ask", self.file("o.json", {**OBJECT, "kind": kind}))[2])


class Objects(Case):
    """SeccompProfile objects that commands print."""

    def test_what_is_printed(self):
        """The object of the operator's documentation; members of a spec that it doesn't have aren't printed."""
        profile = {**SPEC, "defaultErrnoRet": 1, "syscalls": [{**SPEC["syscalls"][0], "comment": "line 1"},
                                                              SPEC["syscalls"][1]]}
        text = kubernetes.printed(profile, "profile1")
        self.assertEqual(json.loads(text), {**OBJECT, "metadata": {"name": "profile1"}})
        self.assertEqual(json.loads(kubernetes.spec_of(text.encode())), SPEC)

    def test_what_no_object_states(self):
        call = entry("read")
        for profile, says in (
                ({**READS, "defaultErrnoRet": 38}, "the default has the errno 38, which a SeccompProfile can't state"),
                ({**READS, "syscalls": [entry("read", action=ERRNO, errnoRet=0)]},
                 "entry 0 has the errno 0, which a SeccompProfile can't state"),
                ({**READS, "syscalls": [call, entry("read", args=[condition(0, "LE", 1 << 63)])]},
                 "entry 1 compares with more than 2^63-1, which a SeccompProfile can't state"),
                ({**READS, "defaultAction": "SCMP_ACT_X"}, "the default has an action that a SeccompProfile doesn't "
                                                           "have")):
            self.assertEqual(self.text_of_error(profiles.Refused, kubernetes.printed, profile, "a"), says)
        self.is_refused("the default has the errno 38", "resolve-profile", "--kubernetes", "a",
                        self.file("p.json", {**READS, "defaultErrnoRet": 38}))
        for profile in (READS, {**READS, "defaultErrnoRet": 1}, {**READS, "defaultAction": "SCMP_ACT_LOG"},
                        {**READS, "syscalls": [entry("read", action=ERRNO, errnoRet=38)]},
                        {**READS, "syscalls": [entry("read", args=[condition(0, "LE", (1 << 63) - 1)])]}):
            kubernetes.printed(profile, "a")

    def test_names(self):
        read = SHARED["--kubernetes"]["type"]
        for name in ("a", "a-b.c0", "a" * 253):
            self.assertEqual(read(name), name)
        for name in ("", "A", "a_b", "-a", "a-", "a..b", "a.-b", "a" * 254, "a\n"):
            with self.assertRaises(argparse.ArgumentTypeError, msg=name):
                read(name)

    def test_each_prints_one(self):
        """What a command prints is read again as what it prints without the option."""
        log = self.file("log", "read(0, 1, 2) = 0\nsocket(AF_INET, 1, 0) = 3\n")
        profile, filter_ = self.file("p.json", SPEC), self.file("f.bpf", filter_of([0, 1]))
        for words in (("needs", "--profile", log, profile), ("profile-of", filter_), ("resolve-profile", profile)):
            plain = self.run_tool(*words)
            status, out, err = self.run_tool(words[0], "--kubernetes", "a.b", *words[1:])
            self.assertEqual((status, err), (plain[0], plain[2]), words)
            value = json.loads(out)
            self.assertEqual((value["kind"], value["metadata"]), ("SeccompProfile", {"name": "a.b"}))
            expected = {name: it for name, it in json.loads(plain[1]).items() if name != "defaultErrnoRet"}
            self.assertEqual(value["spec"], expected, words)

    def test_recordings(self):
        """A recorded object is a log of what it allows."""
        profile = self.file("p.json", READS)
        yaml = [YAML, YAML.removeprefix("---\n")] if HAS_YAML else []
        for name, text in enumerate([json.dumps(OBJECT), *yaml]):
            status, out, err = self.run_tool("needs", self.file(str(name), text), profile)
            self.assertEqual((status, [line.split()[1] for line in out.splitlines() if line[0] != "#"]),
                             (1, ["write", "socket", "exit_group"]), (out, err))
        status, _, err = self.run_tool("needs", self.file("o.json", {**OBJECT, "kind": "Pod"}), profile)
        self.assertEqual((status, "it is a Kubernetes object of the kind Pod" in err), (2, True))


# What the kernel logs of a syscall that a filter denied.
DENIED_MOUNT = ("audit: type=1326 audit(1700000000.000:7): auid=0 uid=0 gid=0 ses=1 pid=9 comm=\"x\" exe=\"/x\" sig=0 "
                "arch=c000003e syscall=165 compat=0 ip=0x7f0000000000 code=0x50000")


class Caps(Case):
    """--caps: what resolve-profile makes of an engine's profile, in each command."""

    ENGINE = {"defaultAction": ERRNO, "archMap": [{"architecture": "SCMP_ARCH_X86_64", "subArchitectures": []}],
              "syscalls": [entry("read", "exit_group"), entry("bpf", includes={"caps": ["CAP_BPF"]}),
                           entry("read", action="SCMP_ACT_LOG"), entry("mount", includes={"caps": ["CAP_SYS_ADMIN"]})]}

    def setUp(self):
        super().setUp()
        self.engine = self.file("engine.json", self.ENGINE)

    def test_each_command(self):
        log = self.file("log", "1 mount(1) = 0\n")
        compiled = {}
        for caps in ("none", "SYS_ADMIN"):
            done = self.run_tool("resolve-profile", "--keep-first", "--caps", caps, self.engine)
            resolved = self.file(f"{caps}.json", done[1])
            for words in (("ask", "--nr=mount"), ("compile",), ("needs", log), ("lint",), ("why", DENIED_MOUNT)):
                by_caps = completed([tool(words[0]), "--caps", caps, *words[1:], self.engine])
                plain = completed([tool(words[0]), *words[1:], resolved])
                self.assertEqual(by_caps.returncode, plain.returncode, words)
                if words[0] != "ask":
                    # (lint tells entries by their places in the engine's file)
                    self.assertEqual(by_caps.stdout.replace(b"entry 3", b"entry 1"), plain.stdout, words)
                self.assertEqual(by_caps.stderr.decode().split("\n")[0],
                                 f"{words[0]}: '{self.engine}' is resolved as by resolve-profile --keep-first --caps "
                                 f"{caps}, which says what is left out; entries that remain: "
                                 f"{2 if caps == 'SYS_ADMIN' else 1}")
                compiled[caps] = by_caps.stdout if words[0] == "compile" else compiled.get(caps)
        path = self.file("f.bpf", compiled["SYS_ADMIN"])
        self.assertEqual(self.run_tool("compare", "--caps=SYS_ADMIN", path, self.engine)[:2], (0, "same\n"))
        self.begins(1, "differs", self.run_tool("compare", "--caps=none", path, self.engine))

    def test_another_machine(self):
        """What an engine passes on there: the architectures and the entries of arm64 (moby's `arches`)."""
        arm = ["arm64"]
        engine = self.file("m.json", {
            "defaultAction": ERRNO, "defaultErrnoRet": 1,
            "archMap": [{"architecture": "SCMP_ARCH_X86_64", "subArchitectures": []},
                        {"architecture": "SCMP_ARCH_AARCH64", "subArchitectures": ["SCMP_ARCH_ARM"]}],
            "syscalls": [entry("read", includes={"arches": arm}), entry("write", excludes={"arches": arm})]})
        words = ("--caps=none", "--machine=arm64")
        # numbers of asm/unistd_64.h of arm64
        for name, answer in (("read", "ALLOW 0 entry 0"), ("write", "ERRNO 1 default")):
            out = self.run_tool("ask", *words, "--arch=aarch64", "--nr", name, engine)[1]
            self.assertEqual(out.split("\n")[0], answer)
        self.assertEqual(self.run_tool("ask", *words, "--nr=write", engine)[1].split("\n")[0], "KILL_PROCESS 0 foreign")
        path, said = self.file("f.bpf", b""), self.compile(*words, engine)[2]
        self.assertIn("--caps none --machine arm64, which says", said)
        self.assertEqual(self.run_tool("compare", *words, path, engine)[1].split("\n")[0], "same")
        self.assertEqual(self.run_tool("compare", "--caps=none", path, engine)[1].split("\n")[0], "differs")
        plain = self.file("p.json", self.run_tool("resolve-profile", *words, engine)[1])
        self.assertEqual(self.run_tool("lint", *words, engine)[1], self.run_tool("lint", plain)[1])
        self.assertEqual(self.run_tool("compare-profiles", *words, engine, engine)[0], 0)
        for command in ("ask", "compile", "lint", "compare"):
            files = [path, engine] if command == "compare" else [engine]
            self.is_refused("--machine goes with an engine's profile", command, "--machine=arm64", *files)

    def test_entries_have_their_places_in_the_file(self):
        out = self.run_tool("ask", "--caps=SYS_ADMIN", "--nr=mount", self.engine)[1]
        self.assertIn("# by entry 3 of syscalls: ", out)
        report = self.json_of("ask", "--caps=SYS_ADMIN", "--nr=mount", "--json", self.engine)
        self.assertEqual(report["calls"][0]["entry"], 3)

    def test_what_is_refused(self):
        for words, status, says in ((("--caps=SYS_ADMINN",), 2, "'SYS_ADMINN' isn't a capability"),
                                    (("--caps=",), 0, ""), ((), 2, "fault profile EngineForm\n")):
            done = self.run_tool("ask", "--nr=0", *words, self.engine)
            self.assertEqual(done[0], status)
            self.assertIn(says, done[1] + done[2])
        self.assertIn("isn't JSON", self.run_tool("ask", "--caps=none", self.file("x", "{"))[2])

    def test_made_profiles_have_no_lines(self):
        """A line of what a tool made of a file would be none of that file."""
        wrong = {**OBJECT, "spec": {**SPEC, "defaultAction": "ALLOW"}}
        self.assertIn('# spec.defaultAction is "ALLOW", which is none\n',
                      self.run_tool("ask", "--nr=0", self.file("o.json", wrong))[1])
        given = [entry("bpf", includes={"caps": ["CAP_BPF"]}), entry("read", action="X")]
        engine = self.file("e.json", {"defaultAction": ERRNO, "syscalls": given})
        out = self.run_tool("ask", "--nr=0", "--caps=none", engine)[1]
        self.assertNotIn("line 1", out)
        self.assertIn("in the original file that is entry 1 (read)", out)
