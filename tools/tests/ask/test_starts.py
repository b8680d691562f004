"""How often a tool starts scf where all is well."""
import itertools
import os
from unittest import mock

from support import oci
from support.common import (ALLOW, EPERM, I386, PROGRAM, X86_64, Case, bytes_of, filter_of, insn, jeq, jge, load,
                            profile_of, ret, stub, text_of)
from support.confined import Confined, here
from scftools.model import tables
from scftools.ask import client

# What `lint` finds nothing of.
NAMES = ("read write exit exit_group rt_sigaction rt_sigreturn nanosleep restart_syscall mmap munmap faccessat "
         "faccessat2 mkdir mkdirat unlinkat").split()


def native(*names):
    """A profile that allows some syscalls of x86-64."""
    return oci.profile(oci.entry(*names), architectures=[oci.NATIVE])


class Counting(Case):
    def starts(self, name, *words, status=0, said=""):
        """How often a tool starts scf, but for its version; what it says on standard error."""
        log = self.file("log", "")
        program = self.file("program", f'#!/bin/sh\n[ "$1" = --version ] || echo "$@" >>{log}\nexec {PROGRAM} "$@"\n')
        os.chmod(program, 0o755)
        with mock.patch.object(client, "PROGRAMS", [program]):
            actual, out, err = self.run_tool(name, *words)
        self.assertEqual((actual, err), (status, said), out)
        return len(text_of(log).splitlines())

    def compiled(self, profile):
        """The filter of a profile, and the profile's file."""
        path = self.file("made.json", profile)
        return bytes_of(self.filter_file(path)), path


class Starts(Counting):
    def test_surface(self):
        """Of a filter that allows some syscalls and denies all others, and of one whose answers depend on arguments."""
        by_argument = load(4) + jeq(0xC000003E, 1, 0) + ret(0) + load(0) + jeq(41, 0, 3) + load(16) + \
            jeq(1, 0, 1) + ret(ALLOW) + ret(EPERM)
        for data in (filter_of([0, 1, 41]), by_argument):
            self.assertEqual(self.starts("surface", self.file("f.bpf", data)), 1)
        # a syscall of i386 that is allowed is an answer, too
        for_i386 = load(4) + jeq(I386, 0, 1) + ret(ALLOW) + filter_of([0, 1])
        self.assertEqual(self.starts("surface", self.file("f.bpf", for_i386)), 1)
        # and so is what a list of denied syscalls allows
        denies = filter_of([], default=ALLOW).replace(load(0), load(0) + jeq(101, 0, 1) + ret(EPERM), 1)
        self.assertEqual(self.starts("surface", self.file("f.bpf", denies)), 1)

    def test_surface_beside_another_form(self):
        first, second = (self.file(name, filter_of(numbers)) for name, numbers in (("1", [0, 1]), ("2", [1, 0])))
        self.assertEqual(self.starts("surface", first, "--beside", second), 2)

    def test_profile_of(self):
        """Of a filter that a profile says, and of one with two answers to numbers without a name, as runc's stub makes
        it: the nearest profiles on both sides, each proved once."""
        self.assertEqual(self.starts("profile-of", "--arch", "x86_64", self.file("f.bpf", filter_of([0, 1, 41]))), 2)
        stubbed = filter_of([0, 1]).replace(jeq(0, 2, 0), jge(1000, 0, 1) + ret(0x00050026) + jeq(0, 2, 0), 1)
        self.assertEqual(self.starts("profile-of", "--arch", "x86_64", self.file("f.bpf", stubbed), status=4,
                                     said=mock.ANY), 3)

    def test_profile_of_several_architectures(self):
        """All of them are proved at once; once more without one of which a call, answered again, shows otherwise."""
        data, _ = self.compiled(oci.profile(oci.entry(*NAMES)))
        self.assertEqual(self.starts("profile-of", self.file("f.bpf", data), said="profile-of: the profile covers "
                                     "x86-64, i386 and x32 syscalls\n"), 2)
        # (another answer to each call of i386)
        other = load(4) + jeq(I386, 0, 1) + ret(ALLOW) + data
        self.assertEqual(self.starts("profile-of", self.file("f.bpf", other), said="profile-of: the profile covers "
                                     "x86-64 and x32 syscalls\nprofile-of: i386: some syscalls are allowed, such as "
                                     "restart_syscall (0): ALLOW; --arch i386 prints its profile\n"), 3)

    def test_profile_of_runc(self):
        """The stub is one side's with the profile, so that nothing is compared twice."""
        data, _ = self.compiled(native("read", "openat2"))
        # (runc leaves the numbers of x32 to the filter)
        behind = load(4) + jeq(X86_64, 0, 4) + load(0) + jge(0x40000000, 2, 0) + jge(438, 0, 1) + ret(0x00050026) + data
        for filter_, said in ((data, ""), (behind, "profile-of: runc answers the numbers from 438 on, above all that "
                                                   "the profile names, with ENOSYS\n")):
            self.assertEqual(self.starts("profile-of", "--runtime", "runc", self.file("f.bpf", filter_), said=said), 2)

    def test_lint(self):
        self.assertEqual(self.starts("lint", self.file("p.json", profile_of(*NAMES))), 2)
        # the calls of each architecture are compared by themselves; by which entry ptrace is allowed, the entries say
        several = oci.profile(oci.entry(*NAMES, "sigreturn", "ptrace"))
        self.assertEqual(self.starts("lint", self.file("p.json", several)), 2)

    def test_compare_profiles(self):
        """Both as two sides, where they have the same tables and stubs; else the old one's filter, and its regions."""
        first, second, fewer = (self.file(f"{at}.json", profile_of(*names))
                                for at, names in enumerate((NAMES, NAMES[::-1], NAMES[1:])))
        for words in ([], ["--no-more"], ["--no-less"], ["--json"]):
            self.assertEqual(self.starts("compare-profiles", *words, first, second), 1)
            self.assertEqual(self.starts("compare-profiles", *words, first, fewer, status=words != ["--no-more"]), 1)

        first, other, alike, greater, listed = (self.file(f"{at}.json", profile) for at, profile in enumerate((
            native(*NAMES), native(*NAMES[::-1]), native(*NAMES[1:]), native(*NAMES, "futex_waitv"),
            oci.profile(oci.entry(*NAMES), architectures=[oci.NATIVE, oci.X86]))))
        self.assertEqual(self.starts("compare-profiles", "--runtime", "runc", first, other), 1)
        self.assertEqual(self.starts("compare-profiles", "--runtime", "runc", first, alike, status=1), 1)
        self.assertEqual(self.starts("compare-profiles", "--runtime", "runc", first, greater, status=1), 3)
        self.assertEqual(self.starts("compare-profiles", first, listed, status=1), 3)

    def test_compare(self):
        """What differs, and how, is one answer; the last is the path that is shown. An example that says little is
        replaced, and newer syscalls are told by themselves."""
        numbers = [tables.read_table(None).number_of(name) for name in NAMES]
        more, newer = filter_of([*numbers, 400, 41]), stub(500) + filter_of([*numbers, 400])
        given = self.file("p.json", profile_of(*NAMES))
        for data in (more, newer, load(4) + jeq(I386, 0, 1) + ret(ALLOW) + more):
            name = self.file("f.bpf", data)
            for words in ([], ["--json"], ["--native"], ["--all"], ["--no-more"]):
                self.assertEqual(self.starts("compare", *words, name, given, status=1), 3, words)
        self.assertEqual(self.starts("compare", self.file("f.bpf", filter_of(numbers)), given), 1)

    def test_decide(self):
        """A stack's answer, and the path of each of its filters."""
        files = self.filter_files([ret(EPERM), ret(EPERM), ret(ALLOW)])
        self.assertEqual(self.starts("decide", "--nr=41", *files), 1)

    def test_each_kind_of_side(self):
        """What is the same is one answer; where profiles are involved, their entries are part of it."""
        few, many = ({"bpf": self.file(f"{at}.bpf", filter_of(numbers)),
                      "json": self.file(f"{at}.json", profile_of(*names))}
                     for at, (numbers, names) in enumerate((([0], ["read"]), ([0, 1], ["read", "write"]))))
        for command in ("compare", "diff"):
            for kinds in itertools.product(("bpf", "json"), repeat=2):
                with self.subTest(command=command, kinds=kinds):
                    first, second = kinds
                    self.assertEqual(self.starts(command, few[first], few[second]), 1)
                    self.assertLessEqual(self.starts(command, few[first], many[second], status=1), 3)

    def test_compare_by_runtime(self):
        """With runc's stub as without a runtime; twice more where the filter has none, which is told by the first
        number of it."""
        given, says = self.file("p.json", native("read", "openat2")), (
            "compare: not in the profile: runc answers the numbers from 438 on, above all that the profile names, with "
            "ENOSYS\n")
        for data, status, starts in ((stub(438) + filter_of([0, 437]), 0, 1), (stub(438) + filter_of([0]), 1, 3),
                                     (filter_of([0, 437]), 0, 3), (filter_of([0]), 1, 5)):
            name = self.file("f.bpf", data)
            self.assertEqual(self.starts("compare", "--runtime", "runc", name, given, status=status, said=says), starts)

    def test_diff(self):
        first, second = (self.file(f"{at}.bpf", filter_of(numbers)) for at, numbers in enumerate(([0, 400], [1, 41])))
        for words in ([], ["--json"], ["--native"], ["--no-less"]):
            self.assertEqual(self.starts("diff", *words, first, second, status=1), 3, words)
            self.assertEqual(self.starts("compare", *words, first, second, "--beside", second, status=1), 3, words)

    def test_surface_beside_another_answer(self):
        first, second = (self.file(f"{at}.bpf", filter_of(numbers)) for at, numbers in enumerate(([0, 400], [1, 41])))
        self.assertEqual(self.starts("surface", first, "--beside", second, status=1), 4)


class OfProcesses(Confined, Counting):
    """The first start answers the syscall in which the process waits."""

    @here
    def test_verify_process(self):
        data, path = self.compiled({"defaultAction": "SCMP_ACT_ALLOW", "syscalls": [
            {"names": ["mount"], "action": "SCMP_ACT_ERRNO"}]})
        self.assertEqual(self.starts("verify-process", str(self.child([data]).pid), path), 2)

    @here
    def test_one_of_runc(self):
        """Its filter answers ENOSYS to numbers above all that the profile names."""
        table = tables.read_table(None)
        numbers = (number for number in table.numbers() if number <= 334 and number != 165)
        names = [table.names_of(number)[0] for number in numbers] + ["clone3"]
        data, path = self.compiled(native(*names))
        child = self.child([stub(436) + insn(0, 0) + data])
        self.assertEqual(self.starts("verify-process", "--runtime", "runc", str(child.pid), path), 2)
