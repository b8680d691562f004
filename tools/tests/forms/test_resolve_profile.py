"""scf resolve-profile: the rules of the engines, on profiles that use each form; and inputs made to hurt: bytes of a
stranger, endless ones, profiles that take long to read."""
import json
import os
import re
import resource

from support.common import Case, tool
from support.measured import MeasuredCase
from support.oci import ALLOW, ERRNO, entry

MAP = [{"architecture": "SCMP_ARCH_AARCH64", "subArchitectures": ["SCMP_ARCH_ARM"]},
       {"architecture": "SCMP_ARCH_X86_64", "subArchitectures": ["SCMP_ARCH_X86", "SCMP_ARCH_X32"]}]
DOCKER = {"CHOWN", "DAC_OVERRIDE", "FSETID", "FOWNER", "MKNOD", "NET_RAW", "SETGID", "SETUID", "SETFCAP", "SETPCAP",
          "NET_BIND_SERVICE", "SYS_CHROOT", "KILL", "AUDIT_WRITE"}
PODMAN = DOCKER - {"MKNOD", "NET_RAW", "AUDIT_WRITE"}
# What any of the runs that hurt may take: seconds of a processor, of which two are measured, and address space. What
# grows with the square of so many digits, members or names takes hours.
SECONDS, MEMORY = 40, 1 << 30
MANY = 4 * 10**6


def engine(*entries, **members):
    return {"defaultAction": ERRNO, **members, "syscalls": list(entries)}


class ResolveProfile(Case):
    def resolved(self, profile, *words):
        status, out, err = self.run_tool("resolve-profile", *words, "-", given=json.dumps(profile).encode())
        self.assertEqual(status, 0, err)
        return json.loads(out), err

    def names(self, profile, *words):
        return [name for it in self.resolved(profile, *words)[0]["syscalls"] for name in it["names"]]

    def refused(self, profile, says, *words):
        given = profile if isinstance(profile, bytes) else json.dumps(profile).encode()
        done = self.run_tool("resolve-profile", *words, "-", given=given)
        self.is_refusal(says, done)
        self.assertIn("resolve-profile: ", done[2])

    def test_what_stays_and_what_goes(self):
        """A plain profile stays. What says nothing goes, as all of a config.json but its profile."""
        plain = engine(entry("read", args=[{"index": 0, "value": 2**64 - 1, "valueTwo": 0, "op": "SCMP_CMP_EQ"}]),
                       entry("write", action=ERRNO, errnoRet=0), defaultErrnoRet=38, architectures=["SCMP_ARCH_X86_64"],
                       flags=["SECCOMP_FILTER_FLAG_LOG"], listenerPath="/run/x", listenerMetadata="m")
        self.assertEqual(self.resolved(plain), (plain, ""))
        nothing = {"comment": "why", "includes": {}, "excludes": {"caps": [], "arches": None}, "args": None,
                   "errnoRet": None}
        for given in (engine({**entry("read"), **nothing}, archMap=[], architectures=[]),
                      engine({"name": "read", "action": ALLOW}),
                      engine({"name": "read", "names": [], "action": ALLOW}),
                      {"ociVersion": "1.0.2", "linux": {"seccomp": engine(entry("read"))}}):
            self.assertEqual(self.resolved(given), (engine(entry("read")), ""))

    def test_capabilities_of_an_entry(self):
        """Includes want all of them, and excludes none."""
        wants = engine(entry("a", includes={"caps": ["CAP_SYS_ADMIN"]}),
                       entry("b", includes={"caps": ["CAP_SYS_ADMIN", "CAP_SYSLOG"]}))
        lacks = engine(entry("a", excludes={"caps": ["CAP_SYS_ADMIN", "CAP_SYSLOG"]}))
        for given, caps, names in (
                (wants, "none", []), (wants, "SYS_ADMIN", ["a"]), (wants, "cap_sys_admin,SYSLOG", ["a", "b"]),
                (wants, "docker,CAP_SYSLOG", []), (wants, "CAP_SYSLOG", []), (lacks, "none", ["a"]),
                (lacks, "SYS_ADMIN", []), (lacks, "SYSLOG", []), (lacks, "KILL", ["a"])):
            self.assertEqual(self.names(given, "--caps", caps), names, caps)
        self.assertIn("entry 1 (b) left out: only with CAP_SYSLOG\n", self.resolved(wants, "--caps", "SYS_ADMIN")[1])
        self.assertIn("entry 0 (a) left out: only without CAP_SYSLOG\n", self.resolved(lacks, "--caps", "SYSLOG")[1])

    def test_names_with_half_a_pair_of_surrogates(self):
        given = engine(entry("mount", "\ud800x", includes={"caps": ["CAP_SYS_ADMIN"]}))
        self.assertEqual(self.resolved(given, "--caps", "none")[1].split(" left out: ")[0],
                         "resolve-profile: entry 0 (mount, \\xed\\xa0\\x80x)")
        self.refused(b'{"\\ud800":1,"\\ud800":2}', "the member '\\xed\\xa0\\x80' is repeated")

    def test_the_sets_of_capabilities(self):
        every = sorted(DOCKER | {"SYS_ADMIN", "SYS_PTRACE", "BPF", "DAC_READ_SEARCH"})
        given = engine(*(entry(name, includes={"caps": [f"CAP_{name}"]}) for name in every))
        for words, names in (((), DOCKER), (("--caps", "docker"), DOCKER), (("--caps", "podman"), PODMAN),
                             (("--caps", "none"), set()), (("--caps", ""), set())):
            self.assertEqual(set(self.names(given, *words)), names)

    def test_architectures_of_an_entry(self):
        given = engine(entry("a", includes={"arches": ["amd64", "x32"]}),
                       entry("b", includes={"arches": ["x32", "x86"]}),
                       entry("c", excludes={"arches": ["amd64"]}), entry("d", excludes={"arches": ["s390", "x86"]}),
                       entry("e", includes={"arches": []}))
        self.assertEqual(self.names(given), ["a", "d", "e"])
        said = self.resolved(given)[1]
        self.assertIn("entry 1 (b) left out: only on x32, x86\n", said)
        self.assertIn("entry 2 (c) left out: not on amd64\n", said)

    def test_the_least_kernel(self):
        given = engine(entry("a", includes={"minKernel": "4.8"}), entry("b", excludes={"minKernel": "4.8"}))
        for kernel, names in (("4.7", ["b"]), ("4.8", ["a"]), ("4.10", ["a"]), ("5.0", ["a"]), ("3.19.8-x", ["b"]),
                              ("6.1.0-18-amd64", ["a"])):
            self.assertEqual(self.names(given, "--kernel", kernel), names, kernel)
        release = [int(it) for it in os.uname().release.split("-")[0].split(".")[:2]]
        self.assertEqual(self.names(given), ["a"] if release >= [4, 8] else ["b"])
        self.assertIn("entry 0 (a) left out: only from kernel 4.8 on\n", self.resolved(given, "--kernel", "4.7")[1])
        self.assertIn("entry 1 (b) left out: only below kernel 4.8\n", self.resolved(given, "--kernel", "4.8")[1])
        for version in ("4", "4.8.1", "x.y", "0.0", 4.8, "4.-1"):
            self.refused(engine(entry("a", includes={"minKernel": version})),
                         "an integer" if version == 4.8 else "a kernel version")

    def test_all_conditions_of_an_entry_hold_together(self):
        given = engine(entry("a", **{"includes": {"caps": ["CAP_SYSLOG"], "arches": ["amd64"], "minKernel": "4.8"},
                                     "excludes": {"caps": ["CAP_BPF"]}}))
        self.assertEqual(self.names(given, "--caps", "SYSLOG", "--kernel", "5.0"), ["a"])
        for words in (("--caps", "none", "--kernel", "5.0"), ("--caps", "SYSLOG,BPF", "--kernel", "5.0"),
                      ("--caps", "SYSLOG", "--kernel", "4.0")):
            self.assertEqual(self.names(given, *words), [])

    def test_the_map_of_architectures(self):
        given = engine(archMap=MAP)
        self.assertEqual(self.resolved(given)[0]["architectures"],
                         ["SCMP_ARCH_X86_64", "SCMP_ARCH_X86", "SCMP_ARCH_X32"])
        self.assertEqual(self.resolved(given, "--arch-map", "all"), self.resolved(given))
        plain, said = self.resolved(given, "--arch-map", "native")
        self.assertEqual((plain["architectures"], said), (["SCMP_ARCH_X86_64"],
            "resolve-profile: architectures left out: SCMP_ARCH_X86, SCMP_ARCH_X32\n"))
        self.assertNotIn("architectures", self.resolved(engine(archMap=MAP[:1]))[0])
        twice = [*MAP, {"architecture": "SCMP_ARCH_X86_64", "subArchitectures": []}]
        self.assertEqual(self.resolved(engine(archMap=twice))[0]["architectures"],
                         ["SCMP_ARCH_X86_64", "SCMP_ARCH_X86", "SCMP_ARCH_X32"])
        self.refused(engine(archMap=MAP, architectures=["SCMP_ARCH_X86_64"]), "both architectures and archMap")
        self.refused(engine(architectures=["SCMP_ARCH_ARM"]), "isn't for SCMP_ARCH_X86_64", "--arch-map", "native")
        self.assertEqual(self.resolved(engine(architectures=["SCMP_ARCH_ARM"]))[0]["architectures"], ["SCMP_ARCH_ARM"])

    def test_another_machine(self):
        """Engines call it arm64; its own syscalls are AARCH64's."""
        given = engine(entry("a", includes={"arches": ["arm64"]}), entry("b", excludes={"arches": ["arm64"]}),
                       entry("c", includes={"arches": ["arm", "arm64"]}), archMap=MAP)
        found, said = self.resolved(given, "--machine", "arm64")
        self.assertEqual(found["architectures"], ["SCMP_ARCH_AARCH64", "SCMP_ARCH_ARM"])
        self.assertEqual([it["names"] for it in found["syscalls"]], [["a"], ["c"]])
        self.assertIn("entry 1 (b) left out: not on arm64\n", said)
        self.assertEqual(self.names(given, "--machine", "amd64"), ["b"])
        self.assertEqual(self.resolved(given, "--machine", "arm64", "--arch-map", "native")[0]["architectures"],
                         ["SCMP_ARCH_AARCH64"])
        applied, said = self.resolved(given, "--machine", "arm64", "--runtime", "docker")
        self.assertEqual(applied["architectures"], ["SCMP_ARCH_AARCH64", "SCMP_ARCH_ARM"])
        self.assertNotIn("x86-64", said)

    def test_other_little_endian_machines(self):
        """Engines call them by Go's names (GOARCH), of which loong64's OCI name is SCMP_ARCH_LOONGARCH64."""
        for machine, oci in (("riscv64", "RISCV64"), ("ppc64le", "PPC64LE"), ("mipsle", "MIPSEL"),
                             ("mips64le", "MIPSEL64"), ("mips64p32le", "MIPSEL64N32"), ("loong64", "LOONGARCH64")):
            own = {"architecture": f"SCMP_ARCH_{oci}", "subArchitectures": []}
            resolved, _ = self.resolved(engine(entry("a", includes={"arches": [machine]}),
                                               entry("b", includes={"arches": ["amd64"]}), archMap=[*MAP, own]),
                                        "--machine", machine)
            self.assertEqual((resolved["architectures"], [entry["names"] for entry in resolved["syscalls"]]),
                             ([f"SCMP_ARCH_{oci}"], [["a"]]))

    def test_an_entrys_names(self):
        self.refused(engine({"name": "read", "names": ["write"], "action": ALLOW}), "both name and names")
        for nothing in ({"action": ALLOW}, {"names": [], "action": ALLOW},
                        {"names": None, "name": "", "action": ALLOW}):
            self.assertEqual(self.resolved(engine(entry("read"), nothing)), (
                engine(entry("read")), "resolve-profile: entry 1 left out: it has no name\n"))

    def test_errnos_by_name(self):
        given = engine(entry("a", action=ERRNO, errno="ENOSYS"), entry("b", action=ERRNO, errno="EPERM", errnoRet=1),
                       entry("c", action=ERRNO, errno="", errnoRet=22),
                       entry("d", action=ERRNO, errno="95"), defaultErrno="ENOSYS", defaultErrnoRet=38)
        plain, said = self.resolved(given)
        self.assertEqual([it["errnoRet"] for it in plain["syscalls"]], [38, 1, 22, 95])
        self.assertEqual((plain["defaultErrnoRet"], said), (38, ""))
        plain, said = self.resolved(engine(entry("a", action=ERRNO, errno="EPERM", errnoRet=22)))
        self.assertEqual((plain["syscalls"][0]["errnoRet"], said),
                         (1, "resolve-profile: entry 0: errno 'EPERM' is used, not errnoRet 22\n"))
        plain, _ = self.resolved(engine(*(entry("a", action=ERRNO, errno=name) for name in
                                       ("EAGAIN", "EDEADLK", "EOPNOTSUPP", "ENOTSUP", "0038"))))
        self.assertEqual([it["errnoRet"] for it in plain["syscalls"]], [11, 35, 95, 95, 38])
        for name in ("ENOTHING", "EWOULDBLOCK", "EHWPOISON", "4294967296", "+1", "1_0", " 1"):
            self.refused(engine(entry("a", action=ERRNO, errno=name)), f"'{name}' isn't an errno that podman knows")
        self.refused(engine(defaultErrno="-1"), "'-1' isn't an errno")

    def test_the_first_of_two_answers(self):
        condition = [{"index": 0, "value": 1, "op": "SCMP_CMP_EQ"}]
        given = engine(entry("a", "b"), entry("a", "c", action=ERRNO, errnoRet=1), entry("b"),
                       entry("c", action=ERRNO, errnoRet=2), entry("a", action=ERRNO, args=condition))
        self.assertEqual(self.resolved(given)[0], given)
        plain, said = self.resolved(given, "--keep-first")
        # (the answer of entry 1 is the default's, and runtimes leave such an entry out)
        self.assertEqual(plain, engine(entry("a", "b"), entry("b"), entry("c", action=ERRNO, errnoRet=2),
                                       entry("a", action=ERRNO, args=condition)))
        self.assertEqual(said.count("left out of an entry"), 2)
        self.assertIn("resolve-profile: a left out of an entry with SCMP_ACT_ERRNO: another entry has it with "
                      "SCMP_ACT_ALLOW\n", said)
        given = engine(entry("b", action=ERRNO, errnoRet=65537), entry("a", action=ERRNO, errnoRet=2), entry("a", "b"))
        self.assertEqual(self.resolved(given, "--keep-first")[0],
                         engine(entry("a", action=ERRNO, errnoRet=2), entry("b")))

    def test_what_the_engines_refuse(self):
        for given, says in ((b"", "isn't JSON"), (b"{", "isn't JSON"), (b"\xff", "isn't UTF-8"),
                            (b"[" * 100000, "nested too deep"), (b"[]", "the profile isn't an object"),
                            (b'{"defaultAction":"A","defaultAction":"B"}', "'defaultAction' is repeated"),
                            (b'{"syscalls":[]}', "no defaultAction"),
                            (b'{"defaultAction":"A","x":NaN}', "isn't an integer"),
                            (engine(None), "entry 0 isn't an object"), (engine("x"), "entry 0 isn't an object"),
                            ({"defaultAction": "A", "syscalls": {}}, "syscalls isn't a list"),
                            (engine(entry("a", includes=[1])), "includes isn't an object"),
                            (engine(entry("a", includes={"caps": "CAP_KILL"})), "caps isn't a list of strings"),
                            (engine({**entry("a"), "args": {}}), "args isn't a list"),
                            (engine(entry("a", args=[1])), "args 0 isn't an object"),
                            (engine(entry(1)), "names isn't a list of strings"),
                            (engine(archMap={"a": 1}), "archMap isn't a list"),
                            ({"linux": {}}, "linux.seccomp isn't an object"),
                            ({"defaultAction": "A", "Syscalls": []}, "'Syscalls'"),
                            (engine({"Names": ["a"], "action": ALLOW}), "'Names'"),
                            (engine(entry("a", includes={"Caps": ["CAP_KILL"]})), "'Caps'"),
                            (engine(entry("a", args=[{"Index": 0}])), "'Index'")):
            self.refused(given, says)

    def test_the_engine_says_which_members_count(self):
        given = engine(entry("a", includes={"minKernel": "255.0"}), entry("b", action=ERRNO, errno="ENOSYS"),
                       entry("c", excludes={"minKernel": ""}), defaultErrno="ENOENT", defaultErrnoRet=7,
                       flags=["SECCOMP_FILTER_FLAG_LOG"])
        for name, default, names, errno, flags in (("docker", 7, ["b"], None, True),
                                                   ("podman", 2, ["a", "b", "c"], 38, True),
                                                   ("docker-20.10", None, ["b"], None, False)):
            found, said = self.resolved(given, "--engine", name)
            self.assertEqual((found.get("defaultErrnoRet"), "flags" in found), (default, flags), name)
            self.assertEqual([it["names"][0] for it in found["syscalls"]], names)
            self.assertEqual(found["syscalls"][names.index("b")].get("errnoRet"), errno)
            unread = "entry 0: includes: podman doesn't read 'minKernel'" if name == "podman" else \
                f"entry 1: {name} doesn't read 'errno'"
            self.assertEqual(said.count(unread), 1, said)
        self.assertIn("for no kernel, since excludes: minKernel is empty", self.resolved(given)[1])
        self.assertEqual(self.names(engine(entry("a", includes={"minKernel": ""}))), ["a"])
        self.assertEqual(self.names(engine(entry("a", includes={"caps": ["CAP_MKNOD"]})), "--engine", "podman"), [])

    def test_members_that_nothing_reads(self):
        given = engine(entry("a"), {**entry("b"), "requires": {"caps": ["CAP_SYS_ADMIN"]}}, version=2)
        self.refused(given, "entry 1 has a member 'requires', which no engine reads, and which may be a condition: "
                            "--ignore requires ignores it")
        found, said = self.resolved(given, "--ignore", "requires")
        self.assertEqual(found, engine(entry("a"), entry("b")))
        self.assertEqual(said.splitlines(), ["resolve-profile: the profile: nothing reads 'version'",
                                             "resolve-profile: entry 1: nothing reads 'requires'"])
        for inner in (entry("a", includes={"maxKernel": "5.0"}), entry("a", args=[{"index": 0, "not": True}])):
            self.refused(engine(inner), "which may be a condition")
        self.assertEqual(self.resolved(engine(archMap=[{"architecture": "SCMP_ARCH_X86_64", "x": 1}]))[1],
                         "resolve-profile: archMap 0: nothing reads 'x'\n")
        self.refused({"defaultAction": "A", "\u017fyscalls": []},
                     "a member '\\u017fyscalls', which programs in Go read as 'syscalls'")

    def test_a_profile_as_a_runtime_is_given_it(self):
        given = engine(entry("mkdir", action=ERRNO, errnoRet=1), entry("mkdir", "read"),
                       entry("rmdir", includes={"caps": ["CAP_SYS_ADMIN"]}), archMap=MAP)
        found, said = self.resolved(given, "--runtime", "docker")
        handed_on = [entry("mkdir", action=ERRNO, errnoRet=1), entry("mkdir", "read")]
        self.assertEqual(found, {"defaultAction": ERRNO,
                                 "architectures": ["SCMP_ARCH_X86_64", "SCMP_ARCH_X86", "SCMP_ARCH_X32"],
                                 "syscalls": handed_on})
        self.assertEqual(said.splitlines(), [
            "resolve-profile: entry 2 (rmdir) left out: only with CAP_SYS_ADMIN",
            "resolve-profile: runc leaves out entry 0 (mkdir): its answer is the default's",
            "resolve-profile: not in the profile: runc answers the numbers from 84 on, of i386 from 40 "
            "on and of x32 from 84 on, above all that the profile names, "
            "with ENOSYS"])
        self.assertEqual(self.resolved(given, "--runtime", "podman", "--caps", "SYS_ADMIN")[0]["syscalls"],
                         [*handed_on, entry("rmdir")])
        self.assertEqual(self.resolved(given, "--runtime", "docker", "--keep-first")[0]["syscalls"],
                         [entry("mkdir", "read")])
        self.refused(given, "runc doesn't read archMap", "--runtime", "runc")
        self.assertEqual(self.resolved(given, "--runtime", "runc", "--engine", "docker")[0], found)
        self.refused(engine(entry("mkdir", errnoRet=1)), "crun refuses the profile: entry 0 has an errno beside",
                     "--runtime", "crun")
        self.assertEqual(self.run_tool("resolve-profile", "--runtime", "lxc", "-")[0], 2)

    def test_every_tool_refuses_errnos_by_name(self):
        """What only podman reads is refused, as `includes` is, by every tool but lint, which reports it."""
        self.file("f.bpf", b"\x06\0\0\0\0\0\xff\x7f")
        self.file("log", b"")
        for given, says in ((engine(entry("read"), entry("mkdir", action=ERRNO, errno="EACCES")),
                             'entry 1 has errno "EACCES"'),
                            ({"linux": {"seccomp": engine(defaultErrno="ENOSYS", defaultErrnoRet=38)}},
                             'the profile has defaultErrno "ENOSYS"')):
            text = json.dumps(given)
            for data in (text, text.replace('rrno"', 'rrn\\u006f"')):
                self.file("p.json", data)
                for name, words in (("ask", ("--nr=mkdir", "p.json")), ("compare", ("f.bpf", "p.json")),
                                    ("compare-profiles", ("p.json", "p.json")), ("compile", ("p.json",)),
                                    ("needs", ("log", "p.json")), ("verify-process", (str(os.getpid()), "p.json"))):
                    is_runtimes = name in ("compare-profiles", "verify-process")
                    hint = "--runtime podman takes it" if is_runtimes else "scf resolve-profile resolves it"
                    self.assertEqual(self.run_tool(name, *words),
                                     (2, "", f"{name}: {says}, which only podman reads: {hint}\n"))
            found = self.file("r.json", self.resolved(given)[0])
            self.assertEqual(self.run_tool("ask", "--nr=mkdir", found)[0], 0)
        for members in ({"errno": ""}, {"errno": None}, {"comment": "errno"}):
            given = self.file("p.json", engine(entry("mkdir", action=ERRNO, **members), defaultErrno=None))
            self.assertEqual(self.run_tool("ask", "--nr=mkdir", given)[0], 0)


class Hostile(MeasuredCase):
    LIMITS = ((resource.RLIMIT_CPU, SECONDS), (resource.RLIMIT_AS, MEMORY))

    def pieces(self, *pieces):
        """A file of pieces, each some bytes and how often they stand."""
        return self.file("given", b"".join(data * count for data, count in pieces))

    def ends(self, path, status, says, words=("--keep-first",)):
        """What it prints and says that ends so in time and bounded memory, without a traceback or control character."""
        done = self.measured([tool("resolve-profile"), *words, "-"], path)
        text = done.err.decode()
        self.assertIn(done.status, status if isinstance(status, tuple) else (status,), text[-300:])
        self.assertTrue(says in text, text[-300:])
        self.assertNotIn("Traceback", text)
        self.assertTrue(text.replace("\n", "").isprintable())
        return done.out, done.err

    def test_endless_ones(self):
        self.ends("/dev/zero", 2, "has more than 4194304 bytes")
        sparse = self.file("sparse", b"")
        os.truncate(sparse, 10**10)
        self.ends(sparse, 2, "has more than 4194304 bytes")

    def test_long_numbers(self):
        for beginning in (b"", b"-", b"1.", b"1e"):
            given = self.pieces((b'{"defaultAction":"A","x":' + beginning, 1), (b"1", MANY), (b"}", 1))
            self.ends(given, 2, "the number ")

    def test_deep_ones(self):
        self.ends(self.pieces((b"[", MANY)), 2, "nested too deep")
        for depth in (100, 900, 3000, 100000):
            for given in (b'{"defaultAction":"A","flags":%s}', b'{"defaultAction":"A","listenerMetadata":%s}',
                          b'{"defaultAction":"A","syscalls":[{"names":["a"],"action":%s},'
                          b'{"names":["a"],"action":"A"}]}',
                          b'{"defaultAction":"A","defaultErrno":"1","defaultErrnoRet":%s}',
                          b'{"defaultAction":"A","x":%s}'):
                path = self.file("given", given % (b"[" * depth + b"]" * depth))
                # how deep the reader goes is the interpreter's
                if depth == 100 and b'"x"' in given:
                    self.ends(path, 0, "nothing reads 'x'")
                elif depth == 100:
                    self.ends(path, 2, " isn't a")
                elif depth == 100000:
                    self.ends(path, 2, "nested too deep")
                else:
                    self.ends(path, (0, 2), "")

    def test_many_members(self):
        path = self.file("given", b"{" + b"".join(b'"%d":0,' % at for at in range(300000)) + b'"299999":0}')
        self.ends(path, 2, "the member '299999' is repeated in one object")

    def test_many_names(self):
        """Those that are left out are told up to a limit, and counted behind it."""
        count = 500000
        between = b'"b"],"action":"SCMP_ACT_ALLOW"},{"names":['
        given = self.pieces((b'{"defaultAction":"SCMP_ACT_ERRNO","syscalls":[{"names":[', 1), (b'"a",', count),
                            (between, 1), (b'"a",', count), (b'"b"],"action":"SCMP_ACT_LOG"}]}', 1))
        out, err = self.ends(given, 0, f"resolve-profile: {count + 1 - 1000} more such lines\n")
        self.assertEqual(err.count(b"\n"), 1001)
        self.assertEqual(len(re.findall(rb'(?m)^ *"a",$', out)), count)

    def test_many_conditions_of_a_runtime(self):
        condition = b'{"index":0,"op":"SCMP_CMP_EQ","value":1},'
        begin = b'{"defaultAction":"SCMP_ACT_ERRNO","syscalls":[{"names":["read","write"],"action":"SCMP_ACT_LOG",' \
                b'"args":['
        end = b'{"index":0,"op":"SCMP_CMP_EQ","value":1}]},{"names":["read"],"action":"SCMP_ACT_ALLOW"}]}'
        many = self.pieces((begin, 1), (condition, 90000), (end, 1))
        self.ends(many, 0, "", ("--runtime", "runc"))
        self.ends(many, 0, "entry 0 has 90001 conditions, of which crun takes the first 6", ("--runtime", "crun"))

    def test_names_of_a_stranger(self):
        bad = "\x1b[2J\r\nresolve-profile: all is well\n\x9b\u202e" + "x" * 10000
        given = engine(entry(bad, includes={"caps": [bad]}), entry("b", includes={"arches": [bad] * 100}),
                       entry(bad, "\ud800"), entry(bad, action=bad))
        data, _ = self.ends(self.file("given", given), 0,
                            "left out: only with \\x1b[2J\\x0d\\x0aresolve-profile: all is well\\x0a")
        self.assertEqual(json.loads(data)["syscalls"], [{"names": [bad, "\ud800"], "action": ALLOW}])
        self.assertNotIn(b"\x1b", data)
        for given, says in ((engine(**{bad: 0, "Syscalls": 0}), "which programs in Go read as 'syscalls'"),
                            (engine(entry("a", errno=bad)), "isn't an errno"),
                            (b'{"\\u001b":1,"\\u001b":2}', "the member '\\x1b' is repeated"),
                            (b'{"\x1b', "isn't JSON"), (b'{"a":"\xff"}', "isn't UTF-8")):
            self.ends(self.file("given", given), 2, says)

    def test_a_closed_output(self):
        read, write = os.pipe()
        os.close(read)
        path = self.file("p", engine(entry("read")))
        self.assertEqual(self.run_tool("resolve-profile", path, stdout=write)[::2], (-13, ""))
        os.close(write)
