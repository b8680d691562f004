"""What runc and crun make of a profile: their own filters, taken from containers, beside what the tools say of it."""
import json
import os
import unittest
from unittest import mock

from support import oci
from support.common import ALLOW as ALLOWED
from support.common import TABLE, Case, bytes_of, insn, jeq, load, part, ret, stub
from support.confined import ended, started
from support.containers import container
from support.drawn_profiles import drawn_profile
from support.oci import ALLOW, ERRNO, X32, X86, condition, entry
from support.oci import NATIVE as X86_64
from support.second_reading import by_words
from scftools.base import inputs
from scftools.base.values import replace
from scftools.model import libseccomp, profiles, tables
from scftools.model.architectures import JUDGED
from scftools.ask import client, verdicts
from scftools.forms import engines, runtimes
from scftools.forms.filters import Filter
from scftools.forms.profile_inputs import ProfileInput
from scftools.report.compare import Comparison
from scfhost import processes

LOG, TRAP, TRACE = "SCMP_ACT_LOG", "SCMP_ACT_TRAP", "SCMP_ACT_TRACE"
NAMES = sorted(tables.read_table(None).names())
MOBY = "/usr/share/gocode/src/github.com/docker/docker/profiles/seccomp/default.json"
PODMAN = "/usr/share/containers/seccomp.json"
CAPABILITIES = [f"CAP_{name}" for name in engines.SETS["docker"]]


# What a container's program does, whatever else a profile says.
OTHERS = entry(*(name for name in NAMES if name not in ("mkdir", "rmdir", "chroot")))


def profile(*entries, **members):
    return oci.profile(OTHERS, *entries, **{"architectures": [X86_64], **members})


def config(seccomp, capabilities=CAPABILITIES):
    mounts = [{"destination": "/proc", "type": "proc", "source": "proc"},
              {"destination": "/dev", "type": "tmpfs", "source": "tmpfs"}]
    return {"ociVersion": "1.0.2",
            "process": {"user": {"uid": 0, "gid": 0}, "args": ["/bin/sleep", "300"], "env": ["PATH=/bin"], "cwd": "/",
                        "capabilities": {kind: capabilities for kind in ("bounding", "effective", "permitted")}},
            "root": {"path": "rootfs", "readonly": True}, "mounts": mounts,
            "linux": {"namespaces": [{"type": kind} for kind in ("pid", "ipc", "uts", "mount")], "seccomp": seccomp}}


def filters_of(runtime, seccomp):
    """The filters of a container with a profile, oldest first, or why the runtime refuses it."""
    with container(runtime, config(seccomp)) as (process, why):
        if process is None:
            return None, why
        return processes.look_at_process(processes.Kernel(), process).stacks[0].filters, ""


def of_ipc(*more):
    """A profile with i386 calls above all of the others' numbers, which ipc makes, too."""
    i386, native = tables.architecture_table(X86), tables.read_table(None)
    names = [name for name in NAMES if native.number_of(name) <= 334 and (i386.number_of(name) or 0) <= 386]
    return {"defaultAction": ERRNO, "architectures": [X86_64, X86, X32],
            "syscalls": [entry(*names, "semget", "shmat", "msgrcv", *more)]}


def beside(filters, applied):
    """The comparison of filters with a profile as a runtime applies it."""
    return Comparison([Filter("it", data) for data in filters], applied, tables.read_table(None)).run_by_stub()[0]


class Runtimes(Case):
    def compared(self, runtime, seccomp, applied=None, filters=None):
        """The verdict of a container's own filter beside what the tools say that its runtime makes of a profile."""
        applied_profile = applied or runtimes.applied(seccomp, runtime)
        if filters is None:
            filters, why = filters_of(applied_profile.runtime.program, seccomp)
            self.assertIsNotNone(filters, why)
        comparison = beside(filters, applied_profile)
        return comparison.run()[1].printed[0], bool(comparison.right.stub), applied_profile

    def same(self, runtime, *entries, **members):
        given = profile(*entries, **members)
        verdict, _, applied = self.compared(runtime, given)
        self.assertEqual(verdict, "same", (runtime, given["syscalls"][1:]))
        return applied

    def test_which_entries_are_read_otherwise(self):
        """A note on each: of entries with the default's answer, of what an entry without conditions covers, which may
        be one by its masks, and of conditions on one argument."""
        two, nothing = [condition(0, "EQ", 1), condition(0, "EQ", 2)], [condition(0, "MASKED_EQ", 0)]
        given = [entry("mkdir", action=ERRNO, errnoRet=65537), entry("mkdir", args=two), entry("rmdir", args=two[:1]),
                 entry("mkdir", "rmdir", action=TRAP, args=nothing), entry("chroot", args=[*two, *nothing]),
                 entry("rmdir"), entry("chroot", action=TRAP)]
        for runtime in ("runc", "crun"):
            covered = "which has no conditions, covers all such syscalls"
            self.assertEqual(list(self.same(runtime, *given).notes), [
                f"{runtime} leaves out entry 1 (mkdir): its answer is the default's",
                f"{runtime} reads the conditions of entry 2 (mkdir) as alternatives: two are on one argument",
                f"{runtime} reads the conditions of entry 5 (chroot) as alternatives: two are on one argument",
                f"{runtime} leaves mkdir out of entry 2: entry 4, {covered}",
                f"{runtime} leaves rmdir out of entry 3: entry 4, {covered}",
                f"{runtime} leaves rmdir out of entry 6: entry 4, {covered}",
                f"{runtime} leaves chroot out of entry 7: entry 5, {covered}"])
        six = [condition(index, "EQ", index) for index in range(6)]
        self.assertEqual(self.same("crun", entry("mkdir", args=[*six, six[0]])).notes, [])
        self.assertEqual(len(self.same("runc", entry("mkdir", args=[*six, six[0]])).notes), 1)

    def test_the_first_that_is_not_the_defaults(self):
        """What --keep-first makes of a profile is by its words what runtimes load."""
        for given in (profile(entry("mkdir", action=ERRNO), entry("mkdir"), entry("mkdir", action=TRAP)),
                      profile(entry("mkdir", action=ERRNO, errnoRet=2), entry("mkdir"), entry("mkdir", action=ERRNO))):
            first_profile = engines.Resolver(engines.Setting((), (0, 0))).resolved(given, True)
            self.assertEqual(len(first_profile["syscalls"]), 2)
            for runtime in ("runc", "crun"):
                filters, why = filters_of(runtime, given)
                self.assertIsNotNone(filters, why)
                comparison = Comparison([Filter("it", data) for data in filters],
                                        ProfileInput(engines.to_bytes(first_profile)), tables.read_table(None))
                last = comparison.table.number_of("mkdir")
                self.assertTrue(comparison.of_numbers(X86_64, last, last).holds, (runtime, given))

    def test_what_is_said_of_a_conflict(self):
        """Where it was given, --runtime isn't what is advised."""
        name = self.file("p.json", profile(
            entry("mkdir", args=[condition(0, "EQ", 1)]), entry("mkdir", action=TRAP, args=[condition(1, "EQ", 2)])))
        for words in ((), ("--runtime", "runc"), ("--runtime", "crun")):
            status, out, _ = self.run_tool("ask", *words, "--nr=mkdir", name)
            self.assertEqual((status, out.split("\n")[0]), (2, "fault profile Conflict number 83 first 1 second 2"))
            self.assertEqual("with `--runtime`" in out, not words)
            self.assertEqual("".join(words[1:]) + " hands them to libseccomp, which refuses some" in out, bool(words))

    def test_an_errno_beside_an_action_without_one(self):
        for given in (profile(entry("mkdir", errnoRet=5)), profile(default=LOG, defaultErrnoRet=5)):
            verdict, _, applied = self.compared("runc", given)
            self.assertEqual(verdict, "same")
            self.assertIn("an errno beside an action that takes none is ignored", applied.remarks[0])
            self.assertIn("errno value specified", filters_of("crun", given)[1])
            with self.assertRaisesRegex(profiles.Refused, "crun refuses the profile: .* has an errno beside"):
                runtimes.applied(given, "crun")

    def test_the_architectures(self):
        for runtime in ("runc", "crun"):
            applied = self.same(runtime, entry("mkdir"), architectures=[X86])
            self.assertEqual((applied.profile["architectures"], list(applied.stub)),
                             ([X86], [X86] if runtime == "runc" else []))
            self.assertIn(f"lacks {X86_64}", applied.remarks[0])
            applied = self.same(runtime, entry("mkdir"), architectures=[])
            self.assertNotIn("architectures", " ".join(applied.remarks))
        self.assertEqual(self.same("crun", architectures=["x86_64"]).profile["architectures"], [X86_64])

    def test_the_stub_of_runc(self):
        """Its first number on an architecture is that behind the greatest that is named and that libseccomp knows."""
        for names, first in ((["read"], 1), (["write", "lchown", "no_such"], 95), (["pread64", "mkdir"], 84)):
            given = {"defaultAction": TRAP, "architectures": [X86_64], "syscalls": [entry(*names)]}
            self.assertEqual(runtimes.applied(given, "runc").stub, {X86_64: first} if names != ["read"] else {})
        numbers = {tables.read_table(None).number_of(name): name for name in NAMES}
        greatest, library = max(number for number in numbers if number <= 440), libseccomp.Library()
        below = [name for number, name in numbers.items() if number <= greatest]
        firsts = {architecture: 1 + max(library.number_of(name, architecture) or 0 for name in below)
                  for architecture in (X86_64, X86, X32)}
        self.assertEqual((firsts[X86_64], firsts[X32] >> 30), (greatest + 1, 1))
        for default, architectures, with_stub in (
                (ERRNO, [X86_64], [X86_64]), (ERRNO, [X86_64, X86, X32], [X86_64, X86, X32]),
                (ERRNO, [X86, X86_64], [X86_64, X86]), (ERRNO, [X32, X86_64], [X86_64, X32]),
                ("SCMP_ACT_KILL", [X86_64], [X86_64]), (TRAP, [X86], [X86]), (ERRNO, [], []), (LOG, [X86_64], []),
                (ALLOW, [X86_64], [])):
            given = {"defaultAction": default, "architectures": architectures,
                     "syscalls": [entry(*below), entry("mkdir", action=ERRNO, errnoRet=7)]}
            first = {architecture: firsts[architecture] for architecture in with_stub}
            for runtime, its in (("runc", first), ("crun", {})):
                verdict, has_stub, applied = self.compared(runtime, given)
                self.assertEqual((verdict, has_stub, applied.stub), ("same", bool(its), its), given)

    def test_filters_beside_the_stub(self):
        """A stub at another number is none. Of a call above it that is allowed, that call is shown, and not one of
        those that runc answers by ENOSYS; a filter that allows the first of them has no stub."""
        applied = runtimes.applied({"defaultAction": ERRNO, "architectures": [X86_64],
                                  "syscalls": [entry("read", "lchown")]}, "runc")
        self.assertEqual(applied.stub, {X86_64: 95})
        rest = insn(0, 0) + compiled(applied)
        for first in (94, 96):
            comparison = beside([stub(first) + rest], applied)
            status, report = comparison.run(verdicts.NATIVE_SCOPE)
            self.assertEqual((status, report.printed[0], bool(comparison.right.stub), report.verdict.call.number),
                             (1, "differs", first == 94, first))
        for number in (95, 460, 0x3FFFFFFF):
            hole = load(0) + jeq(number, 0, 1) + ret(ALLOWED) + insn(0, 0) + stub(95) + rest
            status, report = beside([hole], applied).run(verdicts.NATIVE_SCOPE)
            self.assertEqual((status, report.printed[0], report.verdict.call.number), (1, "differs", number))
            self.assertEqual((report.printed[2:4]), ["filter ALLOW 0", f"profile ERRNO {1 if number == 95 else 38}"])

    def test_i386_syscalls_that_ipc_makes_too(self):
        """libseccomp tells runc no number of theirs, so its ENOSYS may stand before what the profile says of those that
        are made directly. Where another name makes the bound greater, or another runtime has none, they are allowed."""
        given = of_ipc()
        applied = runtimes.applied(given, "runc")
        self.assertEqual((applied.stub[X86], tables.architecture_table(X86).number_of("semget")), (387, 393))
        self.assertIn("so it answers i386's msgrcv, semget, shmat, though the profile names them, unless socketcall or "
                      "ipc makes them: libseccomp tells runc no number of theirs", applied.describe())
        self.assertNotIn("so it answers", " ".join(runtimes.applied(of_ipc("futex_waitv"), "runc").describe()))
        for more in ((), ("futex_waitv",)):
            for runtime in ("runc", "crun"):
                self.assertEqual(self.compared(runtime, of_ipc(*more))[:2], ("same", runtime == "runc"), more)
        filters, why = filters_of("runc", given)
        self.assertIsNotNone(filters, why)
        comparison = beside(filters, applied)
        for relation in verdicts.SAME, verdicts.NO_MORE, verdicts.NO_LESS:
            for scope in (verdicts.LISTED, verdicts.CALLS):
                status, report = comparison.run(scope, relation)
                self.assertEqual((status, report.printed[0]), (0, relation), scope)
        self.assertEqual(comparison.of_calls(), [])
        # what differs elsewhere is only that
        stubbed = load(0) + jeq(83, 0, 1) + ret(0x00050016) + insn(0, 0) + filters[0]
        comparison = replace(comparison, left=[Filter("it", stubbed)])
        self.assertEqual([comparison.run(None, relation)[1].printed[0] for relation in (verdicts.SAME, verdicts.NO_MORE,
                                                                          verdicts.NO_LESS)],
                         ["differs", "no more", "less"])
        self.assertEqual({(call.architecture.oci, call.number) for call in comparison.of_calls()},
                         {(X86_64, 83), (X86, 83)})

    def test_what_the_runtimes_refuse(self):
        for runtime, given, says in (
                ("runc", profile(entry("mkdir", action=ERRNO, errnoRet=4095)), "above 4094, and entry 1 has 4095"),
                ("crun", profile(entry("mkdir", action=ERRNO, errnoRet=69631)), "above 4094, and entry 1 has 4095"),
                ("crun", profile(entry("mkdir", action=ERRNO, errnoRet=70000)), "above 4094, and entry 1 has 4464"),
                *((runtime, profile(architectures=[X86_64, f"SCMP_ARCH_{name}"]), f"no big-endian architecture, as "
                   f"SCMP_ARCH_{name}, beside {X86_64}") for runtime in ("runc", "crun") for name in ("MIPS", "S390X")),
                ("runc", profile(flags=["SECCOMP_FILTER_FLAG_LOG"]), "version .* 'SECCOMP_FILTER_FLAG_LOG' in flags"),
                ("crun", profile(flags=["SECCOMP_FILTER_FLAG_X"]), "version .* 'SECCOMP_FILTER_FLAG_X' in flags"),
                ("crun", profile(flags=[""]), "version .* '' in flags"),
                ("runc", profile(architectures=[X86_64, "SCMP_ARCH_RISCV64"]), "'SCMP_ARCH_RISCV64' in architectures"),
                ("runc", profile(defaultErrnoRet=5000), "and the default has 5000"),
                ("crun", profile(defaultErrnoRet=5000), "and the default has 5000"),
                ("crun", profile(entry("mkdir", action=ERRNO, errnoRet=2**32 + 1)), "the errno 4294967297 of entry 1"),
                ("runc", profile(entry("mkdir", action="SCMP_ACT_X")), "entry 1 has an unknown action"),
                ("crun", profile(entry("mkdir", action="SCMP_ACT_X")), "entry 1 has an unknown action"),
                ("runc", profile(entry("")), "a name of entry 1 is empty"),
                ("runc", profile(architectures=["x86_64"]), "no architecture 'x86_64'"),
                ("runc", profile(architectures=[X86_64, "X86"]), "no architecture 'X86'"),
                ("runc", profile(architectures=[X86_64, "SCMP_ARCH_FOO"]), "no architecture 'SCMP_ARCH_FOO'"),
                ("crun", profile(architectures=[X86_64, "foo"]), "no architecture 'SCMP_ARCH_FOO'"),
                ("runc", profile(entry("write", action="SCMP_ACT_NOTIFY"), listenerPath="/x"), "entry 1 has write"),
                ("runc", profile(entry("mkdir", action="SCMP_ACT_NOTIFY")), "no listenerPath"),
                ("runc", profile(default="SCMP_ACT_NOTIFY", listenerPath="/x"), "can't be the default action")):
            with self.assertRaisesRegex(profiles.Refused, f"{runtime} refuses the profile: .*{says}"):
                runtimes.applied(given, runtime)
            self.assertIsNone(filters_of(runtime, given)[0], given)
        self.same("runc", entry("mkdir", action=ERRNO, errnoRet=2**32 + 1), entry("mkdir"))
        for runtime in ("runc", "crun"):
            self.same(runtime, entry("mkdir", action=ERRNO, errnoRet=4094), flags=[])
        self.same("crun", flags=list(profiles.FLAGS), architectures=[X86_64, "SCMP_ARCH_RISCV64"])

    def test_what_libseccomp_does_not_know(self):
        library = libseccomp.installed()
        for name in ("LOONGARCH64", "SH") if library is not None and library.version == "2.5.4" else ():
            given = profile(architectures=[X86_64, f"SCMP_ARCH_{name}"])
            for runtime in ("runc", "crun"):
                with self.assertRaisesRegex(engines.Refused, f"libseccomp 2.5.4 doesn't know SCMP_ARCH_{name}"):
                    runtimes.applied(given, runtime)
                self.assertIsNone(filters_of(runtime, given)[0], given)

    def test_what_another_runc_takes(self):
        """A newer one says that it takes flags (features-linux.md of the OCI runtime specification)."""
        said = {"linux": {"seccomp": {"archs": [X86_64], "supportedFlags": ["SECCOMP_FILTER_FLAG_LOG"]}},
                "annotations": {"org.opencontainers.runc.version": "1.2.0"}}
        os.chmod(self.file("runc", f"#!/bin/sh\necho '{json.dumps(said)}'\n"), 0o755)
        given = [profile(flags=[f"SECCOMP_FILTER_FLAG_{name}"]) for name in ("LOG", "TSYNC")]
        self.addCleanup(runtimes.taken_by.cache_clear)
        for path, version in ((self.folder, "1.2.0"), ("/nowhere", "1.1.5")):
            runtimes.taken_by.cache_clear()
            with mock.patch.dict(os.environ, PATH=path), mock.patch.object(runtimes, "SYSTEM_FOLDERS", ""):
                if version == "1.2.0":
                    runtimes.applied(given[0], "runc")
                with self.assertRaisesRegex(engines.Refused, f"version {version} .*_TSYNC' in flags"):
                    runtimes.applied(given[1], "runc")

    def test_the_engines_default_profiles(self):
        for name, path in (("docker", MOBY), ("podman", PODMAN)):
            if not os.path.exists(path):
                continue
            applied = runtimes.applied(engines.parse_json(inputs.read_input(path, "engine's profile")), name)
            # as the engine itself hands it on, its entries without effect among them
            handed_on = engines.Resolver(engines.setting_of(None, name)).resolved(json.loads(bytes_of(path)))
            self.assertEqual(self.compared(name, handed_on, applied)[:2], ("same", name == "docker"), name)

    def test_without_the_library(self):
        library = libseccomp.installed()
        if library is not None:
            self.assertEqual((library.number_of("mkdir"), library.number_of("no_such"), library.number_of("a\0b")),
                             (83, None, None))
            self.assertLess(library.number_of("socketcall"), 0)
        with mock.patch("ctypes.CDLL", side_effect=OSError("none")):
            applied = runtimes.applied(profile(entry("mkdir", "no_such")), "runc")
        self.assertEqual((applied.stub, applied.remarks), ({X86_64: max(tables.read_table(None).numbers()) + 1}, [
            "libseccomp.so.2 isn't installed: names that the runtime's own doesn't know may be left in"]))
        self.assertEqual(applied.profile["syscalls"][1]["names"], ["mkdir"])

    def test_what_only_engines_read(self):
        for member, value in (("archMap", [{"architecture": X86_64}]), ("defaultErrno", "EPERM")):
            with self.assertRaisesRegex(profiles.Refused, f"runc doesn't read {member}: .* --runtime docker .*"
                                        "scf resolve-profile --engine podman --runtime runc"):
                runtimes.applied({"defaultAction": ERRNO, member: value}, "runc")
        for member, value in (("includes", {"caps": ["CAP_X"]}), ("name", "mkdir"), ("errno", "EPERM")):
            with self.assertRaisesRegex(profiles.Refused, f"crun doesn't read {member}: .* --runtime docker"):
                runtimes.applied({"defaultAction": ERRNO, "syscalls": [{**entry("mkdir"), member: value}]}, "crun")
        with self.assertRaisesRegex(profiles.Refused, "both defaultAction and linux"):
            runtimes.applied({"defaultAction": ERRNO, "linux": {"seccomp": profile()}}, "runc")


class Drawn(Case):
    """Profiles drawn at random, as the runtimes load them: refused by both sides, or `same` over all records of each
    architecture, with the stub. scf refuses more, as conflicts."""

    DRAWN = range(140, 340)
    # those that libseccomp refuses (EEXIST), and scf takes
    REFUSED = {280, 335}

    def outcome(self, runtime, given):
        """What the runtime and scf say of a profile."""
        filters, why = filters_of(runtime, given)
        try:
            applied = runtimes.applied(given, runtime)
        except profiles.Refused:
            return "both refuse" if filters is None else "the tools refuse"
        comparison = beside(filters or [ret(ALLOWED)], applied)
        report = comparison.run()[1]
        if report.fault is not None:
            return f"{'both refuse' if filters is None else 'only scf refuses'}: {report.fault.kind}"
        if filters is None:
            self.assertRegex(why, "(?i)file exists")
            return "only the runtime refuses"
        return f"{report.verdict.word}{', without its stub' * (comparison.right.stub != applied.stub)}"

    def test_drawn_profiles(self):
        for runtime in ("runc", "crun"):
            outcomes = {}
            for index in self.DRAWN:
                outcomes.setdefault(self.outcome(runtime, drawn_profile(index)), []).append(index)
            self.assertEqual(set(outcomes.pop("only the runtime refuses")), self.REFUSED)
            alike = [outcomes.pop(outcome, []) for outcome in ("same", "both refuse", "both refuse: Conflict")]
            outcomes.pop("only scf refuses: Conflict")
            self.assertEqual(outcomes, {}, runtime)
            self.assertGreaterEqual(sum(map(len, alike)), 150)
            self.assertGreater(len(alike[0]), len(self.DRAWN) // 2)

    def test_a_second_reading(self):
        """What scf makes of a profile as a runtime reads it is what it makes of one that says so by its words."""
        counts = {"same": 0, "refused": 0}
        for index in self.DRAWN[::2]:
            for runtime in ("runc", "crun"):
                try:
                    applied = runtimes.applied(drawn_profile(index), runtime)
                except profiles.Refused:
                    continue
                judged = tables.tables_of_profile(applied.data, tables.read_table(None))
                for name, table in judged.of.items():
                    words = json.dumps(by_words(json.loads(applied.data), runtime, name, JUDGED[name].bits)).encode()
                    counts[self.compared_readings(applied, replace(judged, of={name: table}), words)] += 1
        self.assertGreater(min(counts.values()), 25)

    def compared_readings(self, applied, judged, words):
        by_its_words = replace(judged, reading="strict")
        scope = ["--architectures"] * judged.is_native
        try:
            filter_ = client.compile_profile(applied.data, judged)
        except client.Refusal as why:
            with self.assertRaises(client.Refusal) as also:
                client.compile_profile(words, by_its_words)
            self.assertEqual((why.fault.kind, also.exception.fault.kind), ("Conflict", "Conflict"))
            return "refused"
        report = verdicts.compared([filter_], words, by_its_words, scope)
        self.assertEqual(report.printed[0], "same", (words, judged.of.keys()))
        return "same"

    def test_what_libseccomp_does_otherwise(self):
        """Where the filter of a runtime isn't what a profile says, however one reads it: that is said, with a call. Of
        each the architecture, the first argument of a call, and the answers of the filter and of the profile."""
        wide = (1 << 32) + 2
        for entries, members, architecture, first, of_filter, of_profile in (
                # an order of one argument and another one beside it are joined: a call that no entry names is allowed
                ((entry("mkdir", args=[condition(0, "GE", 3)]),
                  entry("mkdir", action=TRACE, args=[condition(0, "LE", 1), condition(1, "LE", 1 << 31)])),
                 {}, X86_64, 0, "ALLOW", "ERRNO 1"),
                # and so are two orders, if one is with a value of more than 32 bits
                ((entry("mkdir", action=ERRNO, errnoRet=2, args=[condition(0, "LT", wide)]),
                  entry("mkdir", action=ERRNO, errnoRet=2, args=[condition(0, "LT", 1 << 31)])),
                 {}, X86_64, 1 << 31, "ERRNO 1", "ERRNO 2"),
                ((entry("mkdir", args=[condition(0, "LE", 3)]), entry("mkdir", args=[condition(0, "GT", 1 << 32)])),
                 {}, X86_64, 4, "ALLOW", "ERRNO 1"),
                # runc leaves numbers with bit 31 alone out of x32's, where x86-64 isn't listed
                ((), {"architectures": [X32]}, X32, 0, "ERRNO 1", "ERRNO 38"),
                # a value is cut to 32 bits
                ((entry("mkdir", args=[condition(0, "EQ", wide)]),), {"architectures": [X86_64, X86]}, X86, 2, "ALLOW",
                 "ERRNO 1")):
            for runtime in ("runc", "crun") if entries else ("runc",):
                given = profile(*entries, **members)
                filters, why = filters_of(runtime, given)
                self.assertIsNotNone(filters, why)
                verdict = beside(filters, runtimes.applied(given, runtime)).run()[1].verdict
                self.assertEqual((verdict.call.abi, verdict.call.arguments[0], str(verdict.filters),
                                  str(verdict.profile)), (architecture, first, of_filter, of_profile))

    def test_what_libseccomp_alone_refuses(self):
        """An entry without conditions behind another one, of a syscall that x86-64 lacks."""
        given = profile(entry("ipc", action=ERRNO, errnoRet=38, args=[condition(0, "EQ", 3)]),
                        entry("ipc", action=ERRNO, errnoRet=5), architectures=[X86_64, X86])
        for runtime in ("runc", "crun"):
            self.assertEqual(self.outcome(runtime, given), "only the runtime refuses")

    def test_a_name_without_a_number_on_an_architecture(self):
        """libseccomp makes no rule of it there, though the architecture has it."""
        library = libseccomp.installed()
        if library is None or (library.number_of("map_shadow_stack", X32) or 0) >= 0:
            raise unittest.SkipTest("needs a libseccomp without x32's map_shadow_stack")
        given = profile(entry("mkdir"), architectures=[X86_64, X32])
        self.assertIn("map_shadow_stack", given["syscalls"][0]["names"])
        for runtime in ("runc", "crun"):
            self.assertEqual(self.outcome(runtime, given), "same")


class Tools(Case):
    """compare, ask and compile with --runtime, ask with --reading, on entries that conflict by their words."""

    def setUp(self):
        super().setUp()
        self.given = {"defaultAction": ERRNO, "architectures": [X86_64], "syscalls": [
            entry("mkdir", action=ERRNO, errnoRet=1), entry("mkdir", "read", "lchown"),
            entry("read", action=ERRNO, errnoRet=13),
            entry("rmdir", args=[condition(0, "EQ", value) for value in (1, 2)])]}
        self.path = self.file("p.json", self.given)

    def test_ask(self):
        for runtime, newer in (("runc", "ERRNO 38 stub"), ("crun", "ERRNO 1 default")):
            for call, line in ((("mkdir",), "ALLOW 0 entry 1"), (("read",), "ALLOW 0 entry 1"), (("95",), newer),
                               (("rmdir", "--a0=2"), "ALLOW 0 entry 3"), (("rmdir", "--a0=3"), "ERRNO 1 default")):
                self.begins(0, line, self.run_tool("ask", "--runtime", runtime, "--nr", *call, self.path))
        self.assertEqual(self.run_tool("ask", "--nr", "mkdir", self.path)[1].split("\n")[0],
                         "fault profile RepeatedIndex entry 3")
        out = self.run_tool("ask", "--runtime", "runc", "--nr", "95", self.path)[1]
        self.assertIn("\n# by the ENOSYS that runc puts before the filter\n", out)

    def test_compile_and_compare(self):
        for runtime, other_runtime, word in (("runc", "crun", "differs"), ("crun", "runc", "same")):
            status, _, err = self.compile("--runtime", runtime, self.path)
            self.assertEqual((status, "ENOSYS" in err), (0, runtime == "runc"), err)
            # (a filter without a stub may be runc's)
            for name, verdict in ((runtime, "same"), (other_runtime, word)):
                self.begins(int(verdict == "differs"), verdict,
                            self.run_tool("compare", "--runtime", name, "f.bpf", self.path))
        self.is_refused("crun refuses the profile: libseccomp takes no big-endian", "compile", "--runtime", "crun",
                        self.file("r.json", {**self.given, "architectures": [X86_64, "SCMP_ARCH_S390X"]}))
        self.is_refused("--runtime speaks of a profile", "compare", "f.bpf", "--beside", "f.bpf", "--runtime", "runc")

    def test_an_engines_profile(self):
        given = {**self.given, "architectures": None, "archMap": [{"architecture": X86_64}], "syscalls": [
            {**entry("mount"), "includes": {"caps": ["CAP_SYS_ADMIN"]}}, *self.given["syscalls"]]}
        path = self.file("e.json", given)
        for words, line in (((), "ERRNO 1 default"), (("--caps", "docker,SYS_ADMIN"), "ALLOW 0 entry 0")):
            self.begins(0, line, self.run_tool("ask", "--runtime", "podman", *words, "--nr", "mount", path))
        self.is_refused("'X' isn't a capability", "ask", "--runtime", "podman", "--caps", "X", path)
        for runtime in ("runc", "crun"):
            self.is_refused("takes a resolved one", "ask", "--runtime", runtime, "--caps", "none", path)

    def test_a_bundle(self):
        parts = part("profile", json.dumps(self.given).encode()) + part("table", bytes_of(TABLE)) + \
            part("stub-table", b"95")
        out = self.output_of(0, "ask", "--nr", "95", "--reading", "runc", given=parts)
        self.assertEqual(out, "ERRNO 38 stub\n")


class VerifyProcess(Case):
    """tools/verify-process --runtime on containers."""

    def verify(self, process, given, *words):
        path = given if isinstance(given, str) else self.file("p.json", given)
        status, out, err = self.run_tool("verify-process", *words, str(process), path)
        self.assertNotIn("Traceback", err)
        return status, out, err

    def test_the_default_profile_of_docker(self):
        self.skip_if(not os.path.exists(MOBY), "no profile of Docker's")
        handed_on = engines.Resolver(engines.setting_of(None, "docker")).resolved(json.loads(bytes_of(MOBY)))
        with container("runc", config(handed_on)) as (process, why):
            self.assertIsNotNone(process, why)
            for words in ((), ("--calls",), ("--no-more",), ("--no-less",)):
                status, out, err = self.verify(process, MOBY, "--runtime", "docker", *words)
                first = {"--no-more": "no more", "--no-less": "no less"}.get("".join(words), "same")
                self.assertEqual((status, out.splitlines()[0], err), (0, first, ""))
                stub = ("# runc answers the numbers from 450 on, of i386 from 450 on and of x32 from 548 on, above all "
                        "that the profile names, with ENOSYS\n")
                self.assertEqual(out.count(stub), 1 if first == "same" else 0, out)
            report = json.loads(self.verify(process, MOBY, "--runtime", "docker", "--json")[1])
            # as records have the numbers, so those of x32 with the bit of that ABI
            stubs = {"SCMP_ARCH_X86_64": 450, "SCMP_ARCH_X86": 450, "SCMP_ARCH_X32": 0x40000000 + 548}
            self.assertEqual((report["status"], report["verdict"], report["stacks"][0]["stub"], report["remarks"]),
                             (0, "same", stubs, [f"resolved for the capabilities of the process's bounding set: "
                                                 f"{', '.join(sorted(engines.SETS['docker']))}"]))
            # a whole config.json is resolved already; of another runtime there is no stub
            for given, words, status in ((config(handed_on), ("--runtime", "runc"), 0),
                                         (config(handed_on), ("--runtime", "docker"), 0), (handed_on, (), 1),
                                         (config(handed_on), ("--runtime", "crun"), 1)):
                self.assertEqual(self.verify(process, given, *words)[0], status, words)
            status, out, _ = self.verify(process, MOBY, "--runtime", "docker", "--caps", "docker,SYS_ADMIN")
            self.assertEqual((status, out.splitlines()[0]), (1, "differs"))
            # what an entry is called is what it is called in the file: 13, which is the first with CAP_SYS_ADMIN
            self.assertRegex(out, "\n# by entry 13 of syscalls: ")
            report = json.loads(self.verify(process, MOBY, "--runtime", "docker", "--caps", "docker,SYS_ADMIN",
                                           "--json")[1])
            self.assertEqual(report["stacks"][0]["entry"], 13)

    def test_the_capabilities_of_the_container(self):
        """Without --caps an engine's profile is resolved for what the container has, and not for a default."""
        given = profile({**entry("mkdir"), "includes": {"caps": ["CAP_SYS_TIME"]}},
                        {**entry("rmdir"), "excludes": {"caps": ["CAP_BLOCK_SUSPEND"]}})
        for runtime, engine in (("runc", "docker"), ("crun", "podman")):
            for capabilities in (["CAP_CHOWN", "CAP_SYS_TIME"], ["CAP_BLOCK_SUSPEND"], []):
                setting = engines.Setting(capabilities, (6, 1), False, engine)
                resolved = engines.Resolver(setting).resolved(given)
                with container(runtime, config(resolved, capabilities)) as (process, why):
                    self.assertIsNotNone(process, why)
                    out = self.begins(0, "same", self.verify(process, given, "--runtime", engine))
                    names = ", ".join(capability[4:] for capability in capabilities) or "none"
                    self.assertIn(f"\n# resolved for the capabilities of the process's bounding set: {names}\n", out)
                    has_default = capabilities == []
                    status, out, _ = self.verify(process, given, "--runtime", engine, "--caps", engine)
                    self.assertEqual((status, "bounding set" in out), (0 if has_default else 1, False))
                    out = self.verify(process, config(resolved), "--runtime", engine)[1]
                    self.assertEqual((out.splitlines()[0], "bounding set" in out), ("same", False))

    def test_a_call_above_the_stub_that_is_allowed(self):
        """Beside it, what runc answers by ENOSYS isn't told as what differs."""
        self.skip_if(os.geteuid(), "needs root")
        table, given = tables.read_table(None), {"defaultAction": ERRNO, "architectures": [X86_64]}
        given["syscalls"] = [entry(*(name for name in NAMES if table.number_of(name) <= 449))]
        applied = runtimes.applied(given, "runc")
        stubbed = stub(450) + insn(0, 0) + compiled(applied)
        for number, name in ((460, "lsm_set_self_attr"), (0x3FFFFFFF, None)):
            hole = load(0) + jeq(number, 0, 1) + ret(ALLOWED) + insn(0, 0) + stubbed
            child, _ = started([[self.file("f.bpf", hole)]])
            self.addCleanup(ended, child)
            out = self.begins(1, "differs", self.verify(child.pid, given, "--runtime", "runc"))
            self.assertIn("# by the ENOSYS that runc puts before the filter\n", out)
            named = [name] if name else []
            self.assertEqual([line.split()[2] for line in out.splitlines() if " differs " in line], named)
            applied = json.loads(self.verify(child.pid, given, "--runtime", "runc", "--json")[1])["stacks"][0]
            self.assertEqual((applied["reason"], len(applied["calls"]), "newer" in applied),
                             ("stub", len(named), False))
            child, _ = started([[self.file("f.bpf", stubbed)]])
            self.addCleanup(ended, child)
            self.assertEqual(self.verify(child.pid, given, "--runtime", "runc")[0], 0)

    def test_i386_syscalls_that_ipc_makes_too(self):
        given = of_ipc()
        with container("runc", config(given)) as (process, why):
            self.assertIsNotNone(process, why)
            for words in (("--calls",), ("--json",), ()):
                out = self.out_of(0, self.verify(process, given, "--runtime", "runc", *words))
            self.assertIn("\n# so it answers i386's msgrcv, semget, shmat, though", out)

    def test_usage(self):
        own_pid = str(os.getpid())
        for words in (("--caps", "none", own_pid, "p"), ("--engine", "podman", own_pid, "p"),
                      ("--runtime", "lxc", own_pid, "p"),
                      ("--runtime", "runc", "--caps", "X", own_pid, "p"),
                      ("--runtime", "runc", own_pid, "no_such_file")):
            self.is_refused("verify-process: ", "verify-process", *words)
        for given, says in ((b'{"defaultAction":"SCMP_ACT_ERRNO","archMap":[{}]}', "runc doesn't read archMap"),
                            (b'{"defaultAction":"A"}', "has an unknown action"), (b"{", "isn't JSON"),
                            (b'{"DefaultAction":"SCMP_ACT_ALLOW"}', "which programs in Go read as 'defaultAction'")):
            self.is_refused(says, "verify-process", "--runtime", "runc", own_pid, self.file("p.json", given))


def compiled(given):
    """The filter of a profile on x86-64 as its runtime reads it, without a stub."""
    judged = tables.tables_of_profile(given.data, tables.read_table(None), is_native=True)
    return client.compile_profile(given.data, judged)
