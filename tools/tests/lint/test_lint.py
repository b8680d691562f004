"""tools/lint: each kind of finding where it is, and its absence at the border; what is said as proved, beside scf and
the running kernel."""
import json
import os
import random
import re
import subprocess
import sys

from support import seccomp_library
from support.common import LOADER, TABLE, TOP, bytes_of, comes, completed, part, profile_of, taken, text_of
from support.oci import ALLOW, ERRNO, NATIVE, X32, entry
from support.oci import X86 as I386
from support.stand_in import StandIn
from base.test_output import HOSTILE
from forms.test_runtimes import MOBY, PODMAN
from lint import Linted as Checked
import kernel_profiles
from scftools.base import inputs
from scftools.model import constants, libseccomp, tables
from scftools.model.calls import Call
from scftools.ask import client
from scftools.lint import oddities, watchlist
from scftools.lint.findings import FINDING_KINDS

TOP_OF, AARCH64, ARM = (1 << 64) - 1, "SCMP_ARCH_AARCH64", "SCMP_ARCH_ARM"
# What the list of an engine names on x86-64; and the first value that no argument of 32 bits has.
ENGINES, WIDE = [NATIVE, I386, X32], 1 << 32
ACTIONS = ("ALLOW", "LOG", "ERRNO", "TRACE", "TRAP", "NOTIFY", "KILL", "KILL_THREAD", "KILL_PROCESS")
TABLE_TEXT = bytes_of(TABLE)
TABLE_NAMES = [*tables.Table(TABLE_TEXT).names()]


def profile(*entries, default=ERRNO, **members):
    return {"defaultAction": default, "syscalls": list(entries), **members}


class Linted(Checked):
    def report(self, given, *words, status=0):
        """What --json says, whose kinds and entries stand in the lines, too."""
        found, out, err = self.run_lint(given, "--json", *words)
        self.assertEqual((found, err, out.count("\n")), (status, "", 1))
        report = json.loads(out)
        self.assertEqual(report["status"], status)
        lines = self.run_lint(given, *words)[1].split("\n")
        self.assertEqual([line.partition(":")[0] for line in lines if line and not line.startswith(("# ", "fault "))],
                         [f"{it['grade']} {it['kind']}" for it in report["findings"]])
        return report

    def says(self, kinds, members, *rows, words=()):
        """Of profiles, each row its entries, its other members and what is expected: of each finding of some kinds the
        value of a member, or the values of several; and texts that stand in the lines."""
        names = members.split()
        for entries, others, expected, *texts in rows:
            with self.subTest(entries=entries, **others):
                found = self.found(profile(*entries, **others), *words, kinds=kinds)
                values = [tuple(map(it.get, names)) for it in found]
                self.assertEqual(values if len(names) > 1 else [value for value, in values], expected)
                lines = texts and self.run_lint(profile(*entries, **others), *words)[1]
                for text in texts:
                    self.assertIn(text, lines)

    def effects(self, *rows):
        """Each entry that is covered or without effect, as its place, whether all of it is, and why."""
        for entries, others, expected in rows:
            with self.subTest(entries=entries, **others):
                found = self.found(profile(*entries, **others), kinds=("covered", "without-effect"))
                self.assertEqual([(it["entry"], it["is_whole"], it.get("why") or it["by"]) for it in found], expected)


class Usage(Linted):
    def test_nothing(self):
        clean = profile(entry("read", "write", comment="as it is"), defaultErrnoRet=38)
        for words in ((), ("--strict",)):
            self.assertEqual(self.run_lint(clean, *words), (0, "# no findings\n", ""))
        self.assertEqual(self.report(clean, "--strict"), {"schema": 3, "status": 0, "findings": [], "undecided": []})

    def test_strict_and_except(self):
        odd = profile(entry("umont2"), default=ALLOW)
        self.assertEqual(self.run_lint(odd, "--except", "dangerous-call"), (0, (
            "warning unknown-name: entry 0: no known syscall is named umont2; the nearest name in the table is "
            "umount2\nwarning default-allows: SCMP_ACT_ALLOW: a syscall that no entry names is allowed\n"
            "# findings: 2 (warning: 2)\n"), ""))
        self.assertEqual(self.run_lint(odd, "--strict")[0], 1)
        without = ("--except", "unknown-name", "--except=default-allows", "--except=dangerous-call")
        self.assertEqual(self.run_lint(odd, "--strict", *without), (0, "# no findings\n", ""))
        self.is_refusal("invalid choice", self.run_lint(odd, "--except", "everything"))

    def test_inputs(self):
        given = json.dumps(profile(entry("reed")))
        expected = self.run_lint(profile(entry("reed")))
        config = json.dumps({"ociVersion": "1.0.2", "linux": {"seccomp": profile(entry("reed"))}})
        self.assertEqual(self.run_tool("lint", "-", given=given.encode()), expected)
        self.assertEqual(self.run_tool("lint", self.file("config.json", config)), expected)
        self.begins(2, "fault profile TooMany", self.run_tool("lint", "/dev/zero"))

    def test_refusals_are_those_of_compile(self):
        for text in (b"{", b"", b"[]", b'{"defaultAction":"ALLOW"}', json.dumps(profile(entry())).encode(),
                     json.dumps(profile(entry("read", includes={"caps": ["CAP_KILL"]}))).encode(),
                     json.dumps(profile(entry("read", args=[(9, "EQ", 1)]))).encode()):
            status, out, _ = self.run_lint(text)
            expected = self.run_tool("compile", self.file("q.json", text))
            self.assertEqual(status, expected[0])
            self.assertEqual([line.replace("compile: ", "# ", 1) for line in expected[2].split("\n")[1:-1]],
                             [line for line in out.split("\n")[1:-2] if not line.startswith("error unknown-action: ")])
            self.assertEqual(f"compile: {out.split(chr(10))[0]}", expected[2].split("\n")[0])
            self.assertEqual(self.report(text, status=2)["fault"]["source"], "profile")
        self.begins(2, "fault table Form line 1", self.run_lint(profile(), "--table", self.file("t", b"read\n")))
        self.begins(2, "fault number limit", self.run_lint(profile(), "--limit", "x"))

    def test_a_refused_profile_is_not_one_without_findings(self):
        nothing, without = "refused; nothing else was checked", ["--except=conflict", "--except=unknown-name"]
        action, conflict = profile(entry("read"), {"names": ["write"]}), profile(
            entry("reed"), entry("read"), entry("read", action=ERRNO, errnoRet=2))
        for given, words, last in (
                (b"{", (), f"profile is {nothing}"), (b"{", without, f"profile is {nothing}"),
                (action, (), f"profile is {nothing}"), (action, without, f"profile is {nothing}"),
                (conflict, (), "profile is refused; findings that need no comparison: 2"),
                (conflict, without, f"profile is {nothing}"),
                (profile(), ("--table", self.file("t", b"read\n")), f"table is {nothing}")):
            status, out, _ = self.run_lint(given, *words)
            self.assertEqual((status, out.split("\n")[-2]), (2, f"# the {last}"))

    def test_actions_and_operators_that_there_are_not(self):
        """scf names the entry of the first; all of them are found, each with what is like it."""
        given = profile(entry("read", action="SCMP_ACT_ALOW"), entry("write", action="allow"),
                        entry("open", args=[(0, "MASK_EQ", 1)]), entry("close", action="DENY"))
        found = self.found(given, kinds=("unknown-action", "unknown-operator"), status=2)
        self.assertEqual([(it["where"], it["name"], it["nearest"]) for it in found],
                         [("entry 0", "SCMP_ACT_ALOW", ALLOW), ("entry 1", "allow", ALLOW),
                          ("entry 2, condition 0", "SCMP_CMP_MASK_EQ", "SCMP_CMP_MASKED_EQ"),
                          ("entry 3", "DENY", None)])
        self.assertEqual(self.run_lint(given)[1].split("\n")[-2],
                         "# the profile is refused; findings that need no comparison: 4")
        for odd in ([], [[]], [5], 5, [{"action": 5}], [{"action": "x", "args": 5}], [{"args": [5, {"op": 6}]}]):
            self.assertEqual(self.run_lint({"defaultAction": "x", "syscalls": odd})[::2], (2, ""))

    def test_a_filter_that_would_be_too_large(self):
        entries = [entry("socket", args=[(0, "GT", it), (1, "GT", it)]) for it in range(2**40, 2**40 + 1000)]
        out = self.begins(2, "fault compile TooLarge", self.run_lint(profile(entry("reed"), *entries)))
        self.assertIn("\nerror unknown-name: entry 0: no known syscall is named reed; the nearest name in the table is "
                      "read\n", out)

    def test_what_could_not_be_told(self):
        given = profile(entry("read"), entry("read"))
        report = self.report(given, "--limit=0")
        self.assertEqual(report["findings"], [])
        self.assertEqual({it["verdict"] for it in report["undecided"] if it["kind"] == "without-effect"},
                         {"unfinished"})
        self.assertTrue(any(it["kind"] == "dangerous-call" for it in report["undecided"]))
        out = self.run_lint(given, "--limit=0")[1]
        self.assertIn("# warning without-effect: undecided which entries have an effect: unfinished\n", out)
        self.assertTrue(out.split("\n")[-2].startswith("# no findings; undecided: "), out)
        self.report(given, "--limit=0", "--strict", status=4)
        self.report(profile(entry("reed")), "--limit=0", "--strict", status=1)


class Names(Linted):
    def test_names_that_no_call_has(self):
        kinds = ("unknown-name", "other-architectures", "left-out-name")
        self.assertEqual(self.found(profile(entry("read"), entry("umont2", "zzqqzz")), kinds=kinds), [
            {"kind": "unknown-name", "entry": 1, "name": "umont2", "nearest": "umount2",
             "text": "entry 1: no known syscall is named umont2; the nearest name in the table is umount2"},
            {"kind": "unknown-name", "entry": 1, "name": "zzqqzz", "nearest": None,
             "text": "entry 1: no known syscall is named zzqqzz"}])
        self.assertEqual(self.found(profile(entry("read", "umount2"), default=ERRNO), kinds=kinds), [])

    def test_names_of_other_architectures_are_counted(self):
        self.says(("unknown-name", "other-architectures"), "kind count names", (
            [entry("read", "waitpid"), entry("_llseek", "waitpid")], {},
            [("other-architectures", 2, ["waitpid", "_llseek"])], ": 2\n"))

    def test_a_table_of_ones_own(self):
        kinds, table = ("left-out-name", "unknown-name"), ("--table", self.file("own.table", b"read 0\n"))
        self.says(kinds, "kind name", ([entry("read", "write", "wriet")], {}, [
            ("unknown-name", "wriet"), ("left-out-name", "write")]), words=table)
        self.says(kinds, "kind name", ([entry("read", "write")], {}, []))

    def test_a_name_twice_in_an_entry(self):
        self.says(("repeated-name",), "entry names",
                  ([entry("read", "write", "read"), entry("close")], {}, [(0, ["read"])]),
                  ([entry("read", "write", "write", "read")], {}, [(0, ["write", "read"])]),
                  ([entry("read"), entry("read")], {}, []))


class Members(Linted):
    KINDS = ("unread-member", "repeated-member")

    def test_members_that_nothing_reads(self):
        slip = {"index": 0, "op": "SCMP_CMP_EQ", "value": 1, "valueTow": 1}
        is_read = {"flags": ["x"], "listenerPath": "/x", "listenerMetadata": "m", "comment": "c", "defaultErrnoRet": 1,
                   "archMap": [], "architectures": []}
        self.says(self.KINDS, "entry member nearest",
                  ([entry("read"), entry("write", arg=[])], {}, [(1, "arg", "args")]),
                  ([entry("read", flags=["SECCOMP_FILTER_FLAG_LOG"])], {}, [(0, "flags", None)]),
                  ([entry("read")], {"defaultErno": "EPERM"}, [(None, "defaultErno", "defaultErrnoRet")]),
                  ([entry("read", args=[slip])], {}, [(0, "valueTow", "valueTwo")]),
                  ([{**entry("read", comment="c", errnoRet=None, includes={}, excludes={}), "args": None},
                    entry("write", action=ERRNO, errnoRet=2)], is_read, []), ([entry("read", arg=None)], {}, []))

    def test_the_second_value_is_that_of_masks(self):
        second = [(0, "valueTwo", None)]
        self.says(self.KINDS, "entry member nearest", *(
            ([entry("read", args=[(0, *condition)])], {}, expected) for condition, expected in (
                (("EQ", 1, 5), second), (("EQ", 1, 0), []), (("MASKED_EQ", 1, 5), []), (("NE", 1, 1), second),
                (("MASKED_EQ", 1, 0), []))))

    def test_members_that_engines_read(self):
        """Seccomp and Syscall in containers-common's pkg/seccomp/types.go; name in moby's, too."""
        self.says(("engine-member", "unread-member"), "kind entry member", (
            [entry("read", action=ERRNO, errno="EACCES", name="write")], {"defaultErrno": "ENOSYS"},
            [("engine-member", None, "defaultErrno"), ("engine-member", 0, "errno"), ("engine-member", 0, "name")],
            "entry 0: only podman reads errno, an errno's name or its number as a string, and takes it for errnoRet: "))

    def test_members_that_programs_in_go_read_as_others(self):
        """encoding/json folds letters, of which U+017F is an s and U+212A a k."""
        self.says(("folded-member", "unread-member"), "kind member read_as where", *(
            ([entry("read"), entry("write", **{name: ["x"]})], {}, [("folded-member", name, read_as, "entry 1")],
             "which programs in Go read as") for name, read_as in (
                 ("Action", "action"), ("ACTION", "action"), ("arg\u017f", "args"), ("Names", "names"))))
        self.says(("folded-member",), "where member", *(
            ([entry("read", **{name: 1})], {}, []) for name in ("act1on", "\u0130ndex", "commen")), (
                [], {"defau\u017ftAction": 1, "\u017fyscalls": [], "Syscalls": []},
                [("the profile", "\u017fyscalls"), ("the profile", "Syscalls")]))
        # where it is why scf refuses the profile, too
        self.assertIn("folded-member: entry 0 has a member 'Action'", self.begins(
            2, "fault profile Missing entry 0",
            self.run_lint({"defaultAction": ERRNO, "syscalls": [{"names": ["read"], "Action": ALLOW}]})))

    def test_members_that_stand_twice(self):
        """The last is taken; a second list's entries are decoded into those of the first (Decoder in encoding/json)."""
        default = b'{"defaultAction":"SCMP_ACT_ERRNO"'
        text = default + b',"syscalls":[{"names":["read"],"action":"SCMP_ACT_LOG","action":"SCMP_ACT_ALLOW"}]}'
        found = self.found(text, kinds=self.KINDS)
        self.assertEqual([(it["kind"], it["entry"], it["member"]) for it in found], [("repeated-member", 0, "action")])
        self.assertTrue(found[0]["text"].endswith(": action is repeated, and the last one is taken"))
        self.assertEqual(self.run_tool("ask", "--nr=0", self.file("q.json", text))[1].split("\n")[0], "ALLOW 0 entry 0")
        for member, is_list in ((b',"syscalls":[]', True), (b',"flags":[]', False)):
            found = self.found(default + member * 2 + b"}", kinds=self.KINDS)
            self.assertEqual(["programs in Go keep" in it["text"] for it in found], [is_list])


class Defaults(Linted):
    def test_a_default_that_allows(self):
        self.says(("default-allows",), "action", *(
            ([], {"default": f"SCMP_ACT_{action}"}, [f"SCMP_ACT_{action}"] if action in ("ALLOW", "LOG") else [])
            for action in ACTIONS))

    def test_architectures_without_x32(self):
        self.says(("x32",), "architectures", *(
            ([], {"default": ALLOW, "architectures": named}, [named] if is_found else []) for named, is_found in (
                ([NATIVE], True), ([I386, NATIVE], True), (ENGINES, False), ([NATIVE, X32], False), ([], False),
                (None, False), ([NATIVE, AARCH64], True), ([AARCH64], False), ([I386], False))))
        for action in ACTIONS:
            out = self.run_lint(profile(default=f"SCMP_ACT_{action}", architectures=[NATIVE]))[1]
            # what denies answers them as filters that test for them do
            self.assertEqual(f"the default, SCMP_ACT_{action}, allows them" in out, action in ("ALLOW", "LOG"))
            self.assertEqual(f"the default, SCMP_ACT_{action}, answers them" in out, action in ("NOTIFY", "TRACE"))


class Dangerous(Linted):
    def made(self, given):
        return [(name, it["is_always"], it["entry"]) for it in self.found(given, kinds=("dangerous-call",))
                for name in it.get("names") or [it["name"]]]

    def test_the_list(self):
        listed, table = tables.dangerous(), tables.read_table(TABLE)
        self.assertEqual(list(listed), sorted(listed))
        lines = text_of(TOP, "tables", "dangerous.calls").splitlines()
        self.assertEqual(len(listed), sum(not line.startswith("#") for line in lines))
        for name, danger in listed.items():
            self.assertIsNotNone(table.number_of(name), name)
            self.assertGreater(len(danger.reason), 20, name)
        for name in ("ptrace", "bpf", "mount", "kexec_load"):
            self.assertIn(name, listed)

    def test_each_of_them(self):
        names = sorted(tables.dangerous())
        self.assertEqual(self.made(profile(entry(*names))), [(name, True, 0) for name in names])
        self.assertEqual(self.made(profile(default=ALLOW)), [(name, True, None) for name in names])
        self.assertEqual(self.made(profile(entry("read", "fork"))), [])

    def test_the_default_is_one_of_them(self):
        """What the default allows is one finding, with the reasons; what an entry allows stands beside it."""
        names = sorted(tables.dangerous())
        given = profile(entry(*names[3:], action=ERRNO), entry("ptrace", args=[(0, "EQ", 7)], action=ERRNO),
                        default=ALLOW)
        found, = self.found(given, kinds=("dangerous-call",))
        self.assertEqual((found["names"], found["is_always"], found["entry"]), (names[:3], True, None))
        self.assertEqual(found["reasons"], {name: tables.dangerous()[name].reason for name in names[:3]})
        self.assertIn("the default allows 3 syscalls that make a sandbox useless: add_key, bpf and chroot",
                      found["text"])
        given["syscalls"][0]["names"] = names[1:]
        found, = self.found(given, kinds=("dangerous-call",))
        self.assertEqual((found["name"], found["entry"]), (names[0], None))

    def test_user_namespaces(self):
        """CLONE_NEWUSER in linux/sched.h; what clone3 is asked for stands in memory."""
        new_user = 0x10000000
        for name in ("clone", "unshare"):
            for args, is_found in (((), True), ([(0, "MASKED_EQ", new_user, 0)], False), ([(0, "EQ", 17)], False),
                                   ([(0, "MASKED_EQ", 0x7E020000, 0)], False),
                                   ([(0, "MASKED_EQ", 0x6E020000, 0)], True),
                                   ([(0, "EQ", new_user | 17)], True), ([(1, "EQ", 0)], True)):
                found = self.found(profile(entry(name, args=args)), kinds=("dangerous-call",))
                self.assertEqual([it["name"] for it in found], [name] * is_found, args)
                for it in found:
                    self.assertTrue(int(it["arguments"][0], 16) & new_user)
        self.assertEqual(self.made(profile(entry("clone3"))), [("clone3", True, 0)])
        self.assertEqual(self.made(profile(entry("clone3", action=ERRNO, errnoRet=38))), [])

    def test_what_is_made(self):
        for action in ACTIONS:
            found = self.made(profile(entry("ptrace", action=f"SCMP_ACT_{action}")))
            self.assertEqual(found, [("ptrace", True, 0)] if action in ("ALLOW", "LOG") else [], action)

    def test_some_arguments(self):
        given = profile(entry("read"), entry("ptrace", args=[(0, "EQ", 7), (3, "GT", 9)]))
        found, = self.found(given, kinds=("dangerous-call",))
        self.assertEqual((found["name"], found["is_always"], found["entry"]), ("ptrace", False, 1))
        arguments = [int(it, 16) for it in found["arguments"]]
        self.assertEqual(arguments[0], 7)
        self.assertGreater(arguments[3], 9)
        self.assertIn("ptrace (101) is allowed with some arguments, such as 0x7 ", found["text"])
        both = profile(entry("ptrace", args=[(0, "LT", 7)]), entry("ptrace", args=[(0, "GE", 7)]))
        self.assertEqual([it[:2] for it in self.made(both)], [("ptrace", True)])
        delegated = profile(entry("ptrace", args=[(0, "LT", 7)]),
                            entry("ptrace", action="SCMP_ACT_TRACE", args=[(0, "GE", 7)]))
        self.assertEqual(self.made(delegated), [("ptrace", False, 0)])
        self.assertEqual(self.made(profile(entry("ptrace", args=[(0, "LT", 0)]))), [])


class Running(Linted):
    """Syscalls in processes of this kernel, behind the filter of a profile."""

    def setUp(self):
        super().setUp()
        if not os.path.exists("/proc/self/syscall") or os.uname().machine != "x86_64":
            self.skipTest("this isn't Linux on x86-64")

    def compiled(self, given):
        text = json.dumps(given).encode()
        return client.run_scf(["compile"], part("profile", text) + part("table", TABLE_TEXT)).out

    def run_python(self, given, code):
        """How a Python ends that runs this code behind the filter of a profile."""
        text = f"{LOADER}import signal\nassert load({self.compiled(given)!r}) == 0\n{code}"
        return completed([sys.executable, "-IS", "-c", text])

    def results(self, given, calls):
        """What syscalls return, each a number and arguments, and their errnos."""
        code = (f"for call in {calls}:\n    ctypes.set_errno(0)\n"
                "    print(library.syscall(*map(ctypes.c_ulong, call)), ctypes.get_errno())")
        return [tuple(map(int, line.split())) for line in self.run_python(given, code).stdout.splitlines()]


# Makes each syscall of a list, whose texts are the bytes of buffers, in a child of its own, behind a raw filter, and
# prints the child's number; at the end of its input how each ended: by its errno, or killed.
CHILDREN = LOADER + """
kept, pids = [], []
def value(it):
    if not isinstance(it, str):
        return ctypes.c_ulong(it & 2**64 - 1)
    kept.append(ctypes.create_string_buffer(bytes.fromhex(it)))
    return kept[-1]
for number, *args in json.loads(sys.argv[2]):
    pids.append(os.fork())
    if not pids[-1]:
        args = [value(it) for it in args]
        ctypes.set_errno(255 if load(bytes.fromhex(sys.argv[1])) else 0)
        library.syscall(ctypes.c_long(number), *args)
        os._exit(ctypes.get_errno())
    print(pids[-1], flush=True)
sys.stdin.read()
for pid in pids:
    os.kill(pid, 9)
    print(os.waitpid(pid, 0)[1])
"""


def seconds(count):
    """A struct timespec."""
    return count.to_bytes(8, "little").hex() + "00" * 8


class Restart(Running):
    """What the kernel goes on with by restart_syscall after a stop, and that the profile says so."""

    # name, what is special, its arguments; a wait of minutes, which ends only by what is tried
    LONG = seconds(600)
    WAITS = (("nanosleep", "", LONG, 0), ("clock_nanosleep", "", 1, 0, LONG, 0),
             ("clock_nanosleep", "until a time", 1, 1, seconds(1 << 32), 0), ("poll", "", 0, 0, 600000),
             ("poll", "without end", 0, 0, -1), ("ppoll", "", 0, 0, LONG, 0, 8), ("select", "", 0, 0, 0, 0, LONG),
             ("pselect6", "", 0, 0, 0, 0, LONG, 0), ("futex", "", "00000000", 0, 0, LONG, 0, 0),
             ("futex", "bits", "00000000", 9, 0, seconds(1 << 32), 0, -1),
             ("futex", "without end", "00000000", 0, 0, 0, 0, 0), ("pause", ""),
             ("rt_sigtimedwait", "", "00" * 8, 0, LONG, 8))

    @staticmethod
    def is_in(pid, number, states):
        found = text_of(f"/proc/{pid}/stat").rpartition(") ")[2][0]
        return found in states and (found != "S" or text_of(f"/proc/{pid}/syscall").split()[0] == str(number))

    def test_what_the_kernel_restarts(self):
        table, waits = tables.read_table(TABLE), self.WAITS
        given = profile(entry("restart_syscall", action=ERRNO, errnoRet=77), default=ALLOW)
        numbers = [table.number_of(name) for name, *_ in waits]
        calls = [(number, *args) for number, (_, _, *args) in zip(numbers, waits)]
        child = subprocess.Popen([sys.executable, "-IS", "-c", CHILDREN, self.compiled(given).hex(),
                                  json.dumps(calls)], stdin=subprocess.PIPE, stdout=subprocess.PIPE)
        self.addCleanup(child.communicate)
        pids = [int(child.stdout.readline()) for _ in calls]
        for pid, number in zip(pids, numbers):
            self.assertTrue(comes(lambda pid=pid, number=number: self.is_in(pid, number, "S")), number)
        for pid in pids:
            os.kill(pid, 19)
            self.assertTrue(comes(lambda pid=pid: self.is_in(pid, None, "T")))
            os.kill(pid, 18)
        for pid, number in zip(pids, numbers):
            self.assertTrue(comes(lambda pid=pid, number=number: self.is_in(pid, number, "SZ")))
        ended = child.communicate()[0].split()
        restarted = {(name, what) for status, (name, what, *_) in zip(ended, waits) if int(status) == 77 << 8}
        self.assertEqual(restarted, {("nanosleep", ""), ("clock_nanosleep", ""), ("poll", ""), ("poll", "without end"),
                                     ("futex", ""), ("futex", "bits")})
        self.assertEqual({name for name, _ in restarted},
                         {name for name, _ in watchlist.RESTARTED if table.number_of(name) is not None})

    def test_a_profile_without_it(self):
        every = ["nanosleep", "clock_nanosleep", "poll", "futex"]
        self.says(("no-restart",), "names", ([entry("restart_syscall", action=ERRNO)], {"default": ALLOW}, [every]),
                  ([entry("restart_syscall", *every)], {}, []),
                  ([entry("ppoll", "select", "read", "pause", "epoll_wait")], {}, []),
                  *(([entry(name)], {}, [[name]]) for name in every),
                  *(([entry(name), entry("restart_syscall", action=f"SCMP_ACT_{action}")], {}, [[name]] * is_found)
                    for name in every for action, is_found in (("ALLOW", False), ("LOG", False), ("KILL", True),
                                                               ("TRACE", True), ("NOTIFY", True), ("TRAP", True))),
                  # it has the arguments of the syscall that it goes on with, so that none may be asked for
                  ([entry("poll"), entry("restart_syscall", args=[(0, "EQ", 0)])], {}, [["poll"]]))

    def test_only_what_may_be_restarted(self):
        self.says(("no-restart",), "names", *(
            ([entry(name, args=args)], {}, [[name]] * is_found) for name, args, is_found in (
                ("futex", [(1, "EQ", 129)], False), ("futex", [(1, "EQ", 128)], True),
                ("futex", [(1, "EQ", 137)], True), ("futex", [(3, "EQ", 0)], False),
                ("clock_nanosleep", [(1, "EQ", 1)], False), ("clock_nanosleep", [(1, "EQ", 0)], True))), (
            [entry("poll", "nanosleep")], {"default": "SCMP_ACT_KILL_PROCESS"}, [["nanosleep", "poll"]],
            "no-restart: nanosleep and poll are allowed, and restart_syscall (219) is not: a thread stopped in such a "
            "syscall, by SIGSTOP or a debugger, calls it to continue, and is answered by the default KILL_PROCESS: the "
            "process is killed\n"))


class Partners(Running):
    """Syscalls that others need, in processes of this machine's libc."""

    def lacking(self, given, kind):
        return [it.get("names") or it["name"] for it in self.found(given, kinds=(kind,))]

    def test_a_handler_ends_by_sigreturn(self):
        given = profile(entry("rt_sigreturn", action="SCMP_ACT_KILL_PROCESS"), default=ALLOW)
        code = "signal.signal(signal.SIGUSR1, lambda *_: None); os.kill(os.getpid(), signal.SIGUSR1); print('ended')"
        self.assertEqual(self.run_python(given, code).returncode, -31)
        self.assertEqual(self.lacking(given, "no-return"), [["rt_sigaction"]])
        for names, expected in ((("rt_sigaction",), [["rt_sigaction"]]), (("rt_sigaction", "rt_sigreturn"), []),
                                (("read",), [])):
            self.assertEqual(self.lacking(profile(entry(*names)), "no-return"), expected)

    def test_libc_makes_clone_only_after_enosys(self):
        name, _, version = (os.confstr("CS_GNU_LIBC_VERSION") or "").partition(" ")
        if name != "glibc" or tuple(map(int, version.split(".")[:2])) < (2, 34):
            self.skipTest("this libc doesn't make clone3")
        code = "thread = threading.Thread(target=print, args=('ran',)); thread.start(); thread.join()"
        for number in (1, 22, 38):
            given = profile(entry("clone3", action=ERRNO, errnoRet=number), default=ALLOW)
            self.assertEqual(self.run_python(given, code).stdout, b"ran\n" * (number == 38), number)
            self.assertEqual(self.lacking(given, "no-fallback"), ["clone3"] * (number != 38), number)

    def test_where_libc_does_not_get_the_older_syscall_either(self):
        threads = entry("clone", args=[(0, "MASKED_EQ", 0x7E020000, 0)])
        for given, expected in ((profile(entry("read")), []), (profile(threads), ["clone3"]),
                                (profile(threads, entry("clone3")), []), (profile(threads, defaultErrnoRet=38), []),
                                (profile(threads, default="SCMP_ACT_KILL"), ["clone3"]),
                                (profile(threads, default="SCMP_ACT_TRACE"), []),
                                (profile(entry("clone", args=[(0, "EQ", 0)])), []),
                                (profile(entry("faccessat")), ["faccessat2"]),
                                (profile(entry("faccessat", "faccessat2")), [])):
            self.assertEqual(self.lacking(given, "no-fallback"), expected, given)


class Errnos(Running):
    """Errnos beside what a process gets of this kernel."""

    def odd(self, *numbers, **members):
        return [(it.get("entry"), it["errno"]) for it in self.found(
            profile(*(entry("read", action=ERRNO, errnoRet=it, args=[(0, "EQ", it)]) for it in numbers), **members),
            kinds=("odd-errno",))]

    def test_which_are_odd(self):
        last = max(map(int, re.findall(r"#define\s+E\w+\s+([0-9]+)", text_of("/usr/include/asm-generic/errno.h"))))
        self.assertEqual(last, oddities.LAST_ERRNO)
        self.assertEqual(self.odd(0, 1, 38, last, last + 1, 511, 512, 516, 4094, 4095, 4096, 65535),
                         list(zip((0, *range(4, 12)), (0, last + 1, 511, 512, 516, 4094, 4095, 4096, 65535))))
        self.assertEqual(self.odd(defaultErrnoRet=0), [(None, 0)])
        traced = profile(entry("read", action="SCMP_ACT_TRACE", errnoRet=0), entry("write", action=ERRNO))
        self.assertEqual(self.found(traced, kinds=("odd-errno",)), [])

    def test_what_a_process_gets(self):
        """getppid with an argument, which it doesn't read, and which here is the errno that its entry gives."""
        wanted = (0, 1, 133, 134, 512, 513, 514, 515, 516, 4094, 4095, 4096, 65535)
        entries = [entry("getppid", action=ERRNO, errnoRet=it, args=[(0, "EQ", it)]) for it in wanted]
        number = tables.read_table(TABLE).number_of("getppid")
        found = self.results(profile(*entries, default=ALLOW), [(number, it) for it in wanted])
        self.assertEqual(found, [(-1, min(it, 4095)) if it else (0, 0) for it in wanted])


class Supervisors(Running):
    def test_actions_that_wait(self):
        for action in (f"SCMP_ACT_{action}" for action in ACTIONS):
            entries, is_traced = [entry("read"), entry("write", action=action)], action == "SCMP_ACT_TRACE"
            self.says(("no-supervisor",), "entry action",
                      (entries, {}, [(1, action)] * (is_traced or action == "SCMP_ACT_NOTIFY")),
                      (entries, {"listenerPath": "/run/x"}, [(1, action)] * is_traced))
        self.assertIn("no-supervisor: the default: SCMP_ACT_TRACE needs a tracer with PTRACE_O_TRACESECCOMP: without "
                      "one the syscall fails with ENOSYS\n", self.run_lint(profile(default="SCMP_ACT_TRACE"))[1])

    def test_without_a_supervisor_it_is_enosys(self):
        number = tables.read_table(TABLE).number_of("getppid")
        for action in ("TRACE", "NOTIFY"):
            given = profile(entry("getppid", action=f"SCMP_ACT_{action}"), default=ALLOW)
            self.assertEqual(self.results(given, [(number,)]), [(-1, 38)])


class Architectures(Linted):
    def test_names_that_the_specification_does_not_have(self):
        near = {"SCMP_ARCH_AMD64": NATIVE, "x86": I386, "SCMP_ARCH_ARM64": AARCH64, "SCMP_ARCH_NONSENSE": None}
        self.says(("unknown-architecture",), "name nearest",
                  ([], {"architectures": [NATIVE, I386, X32, AARCH64, "SCMP_ARCH_RISCV64"]}, []),
                  ([], {"architectures": [NATIVE, *near]}, list(near.items())))

    def test_flags_that_it_does_not_have(self):
        names = [f"SECCOMP_FILTER_FLAG_{it}" for it in ("TSYNC", "LOG", "SPEC_ALLOW", "WAIT_KILLABLE_RECV")]
        self.says(("unknown-flag",), "name nearest", ([], {"flags": names}, []),
                  ([], {"flags": ["SECCOMP_FILTER_FLAG_LOGG", "nothing"]},
                   [("SECCOMP_FILTER_FLAG_LOGG", names[1]), ("nothing", None)]),
                  *(([], {"flags": odd}, []) for odd in ("text", 5, [5], {}, None)))


class Arguments(Linted):
    """Conditions beside what the kernel does with an argument."""

    KINDS = ("no-such-argument", "pointer-argument")

    def test_arguments_that_a_syscall_does_not_have(self):
        self.says(self.KINDS, "kind entry names", (
            [entry("personality", args=[(1, "EQ", 8)]), entry("socket", args=[(2, "EQ", 0)]),
             entry("socket", "getpid", "dup", args=[(3, "EQ", 1)])], {},
            [("no-such-argument", 0, ["personality"]), ("no-such-argument", 2, ["socket", "getpid", "dup"])]))

    def test_addresses(self):
        null = ("EQ", 0), ("NE", 0), ("GT", 0), ("LE", 0), ("LT", 1), ("GE", 1), ("MASKED_EQ", TOP_OF, 0)
        values = ("EQ", 1), ("NE", 8), ("GT", 5), ("MASKED_EQ", 4095, 0)
        self.says(self.KINDS, "kind entry names",
                  ([entry("openat", args=[(1, "EQ", 0x7F0000)]), entry("openat", args=[(2, "EQ", 0)])], {},
                   [("pointer-argument", 0, ["openat"])]),
                  *(([entry("sendto", args=[(4, *each)])], {}, [("pointer-argument", 0, ["sendto"])] * (each in values))
                    for each in (*null, *values)))

    def test_conditions_that_always_hold(self):
        self.says(("always-met", "odd-mask"), "kind", *(
            ([entry("clone", args=[(0, *condition)])], {}, [kind] * (kind is not None)) for condition, kind in (
                (("GE", 0), "always-met"), (("LE", TOP_OF), "always-met"), (("GE", 1), None),
                (("LE", TOP_OF - 1), None), (("MASKED_EQ", 0, 0), "always-met"),
                (("MASKED_EQ", 0, 0x7E020000), "always-met"), (("MASKED_EQ", 0x7E020000, 0), None),
                (("MASKED_EQ", 0xF0, 0x0F), "odd-mask"), (("MASKED_EQ", 0xF0, 0x30), None))))
        self.assertIn("they may be swapped", self.run_lint(profile(entry("clone", args=[(0, "MASKED_EQ", 0, 1)])))[1])

    def test_entries_of_which_each_call_meets_one(self):
        self.says(("always-met",), "entries", *(
            ([entry("socket", args=args, action=action) for args in conditions], {"default": default}, expected)
            for conditions, action, default, expected in (
                (([(0, "NE", 40)], [(0, "NE", 16)]), ALLOW, ERRNO, [[0, 1]]),
                (([(0, "NE", 40), (1, "EQ", 1)], [(0, "NE", 16)]), ALLOW, ERRNO, []),
                (([(0, "NE", 40)], [(1, "NE", 16)]), ALLOW, ERRNO, []),
                (([(0, "LT", 40)], [(0, "GE", 40)]), ALLOW, ERRNO, [[0, 1]]),
                (([(0, "LT", 40)], [(0, "GT", 40)], [(0, "EQ", 40)]), ALLOW, ERRNO, [[0, 1, 2]]),
                (([(0, "LT", 40)], [(0, "GT", 40)], [(1, "EQ", 40)]), ALLOW, ERRNO, []),
                (([(0, "NE", 40)], [(0, "NE", 16)]), ERRNO, ALLOW, [[0, 1]]),
                # an entry without conditions covers the others
                (([(0, "NE", 40)], []), ALLOW, ERRNO, []))),
            ([entry("socket", args=[(0, "EQ", 40)]), entry("socket", args=[(0, "NE", 40)], action="SCMP_ACT_LOG")],
             {}, []))

    def test_entries_that_would_be_too_many(self):
        """Entries as the default need no instruction, and as many that allow need more than a filter has."""
        given = profile(*(entry("socket", args=[(0, "GT", it), (1, "GT", it)], action=ERRNO)
                          for it in range(2**40, 2**40 + 900)))
        report = self.report(given)
        self.assertNotIn("fault", report)
        # a socket call with zeros meets none
        self.assertNotIn("always-met", [it["kind"] for it in (*report["findings"], *report["undecided"])])

    def test_the_list_beside_the_kernel(self):
        """What this kernel's tracepoints say of its syscalls."""
        if not os.path.isdir("/sys/kernel/tracing") or os.geteuid():
            self.skipTest("only root reads the kernel's tracepoints")
        done = completed(["unshare", "-m", "sh", "-c", 'mount -t tracefs none "$0" && cd "$0/events/syscalls" && '
                          "cat sys_enter_*/format", self.folder])
        self.skip_if(done.returncode, "this kernel has no tracepoints of syscalls")
        listed, whole = constants.kinds(), {"unsigned long", "long", "size_t", "loff_t", "off_t", "u64", "__u64",
                                            "aio_context_t"}
        # the kernel's function has another name
        called = {"newstat": "stat", "newlstat": "lstat", "newfstat": "fstat", "newuname": "uname",
                  "sendfile64": "sendfile", "umount": "umount2"}
        seen = 0
        for text in done.stdout.decode().split("name: sys_enter_")[1:]:
            name = text.split("\n", 1)[0]
            name = called.get(name, name)
            fields = re.findall(r"field:([^;]*?)\w+;\toffset:(?:1[6-9]|[2-9][0-9]);", text)
            kinds = "".join("p" if "*" in it or it.strip().startswith(("cap_user", "const cap_user")) else
                            "w" if it.replace("const ", "").strip() in whole else "i" for it in fields)
            if name in listed:
                seen += 1
                # an address or a number by the operation
                self.assertEqual(listed[name], "piiwpi" if name == "futex" else kinds, name)
        self.assertGreater(seen, 300)

    def test_each_name_once(self):
        table = tables.read_table(TABLE)
        lines = text_of(TOP, "tables", "x86_64.arguments").splitlines()
        names = [name for line in lines if not line.startswith("#") for name in line.split()[1:]]
        self.assertEqual(len(names), len(set(names)))
        self.assertEqual([name for name in names if table.number_of(name) is None], [])


class HighHalf(Running):
    """Denials that a bit in the upper half of a register evades."""

    def test_denials(self):
        def ioctl(*condition, action=ERRNO):
            return entry("ioctl", action=action, args=[(1, *condition)])

        allows = {"default": ALLOW}
        self.says(("high-half",), "name argument denied allowed",
                  ([ioctl("EQ", 0x5412)], allows, [("ioctl", 1, "0x5412", "0x100005412")]),
                  ([entry("socket", args=[(0, "NE", 40)])], {}, [("socket", 0, "0x28", "0x100000028")]),
                  ([entry("socket", args=[(0, "EQ", 40)])], {}, []),
                  ([ioctl("MASKED_EQ", 2**32 - 1, 0x5412)], allows, []),
                  # a whole register, the default that denies all, and what is delegated, which isn't denied
                  ([entry("prctl", action=ERRNO, args=[(1, "EQ", 4)])], allows, []),
                  ([entry("personality", args=[(0, "EQ", 0xFFFFFFFF)])], {}, []),
                  ([ioctl("EQ", 4, action="SCMP_ACT_TRACE")], allows, []))

    def test_with_other_conditions(self):
        both = entry("socket", action=ERRNO, args=[(0, "EQ", 16), (2, "EQ", 9)])
        (found,) = self.found(profile(both, default=ALLOW), kinds=("high-half",))
        self.assertEqual((found["argument"], found["others"], found["also"]), (0, {"2": "0x9"}, [2]))
        self.assertIn("socket (41) is denied with 0x10 as argument 0, beside 0x9 as argument 2 (ERRNO 1), and allowed "
                      "with 0x100000010 by the default: ", found["text"])
        self.assertTrue(found["text"].endswith("the same syscall for both; the same of argument 2"), found["text"])

    def test_values_of_more_than_32_bits(self):
        self.says(("high-half",), "entry names",
                  ([entry("openat", args=[(0, "EQ", 2**64 - 100)])], {}, [(0, ["openat"])]),
                  ([entry("mmap", args=[(3, "EQ", 2**64 - 100)])], {}, []))

    def test_a_process(self):
        """personality(0xffffffff) asks for the persona and sets none."""
        given = profile(entry("personality", action=ERRNO, errnoRet=77, args=[(0, "EQ", 0xFFFFFFFF)]), default=ALLOW)
        self.says(("high-half",), "name argument denied allowed", (
            given["syscalls"], {"default": ALLOW}, [("personality", 0, "0xffffffff", "0x1ffffffff")]))
        number = tables.read_table(TABLE).number_of("personality")
        found = self.results(given, [(number, 0xFFFFFFFF), (number, 0x1FFFFFFFF)])
        self.assertEqual(found[0], (-1, 77))
        self.assertEqual(found[1][1], 0)


class Siblings(Linted):
    """Denials that another syscall makes void."""

    def test_the_list(self):
        table = tables.read_table(TABLE)
        for name, others in watchlist.SIBLINGS.items():
            for one in (name, *others.split()):
                self.assertIsNotNone(table.number_of(one), one)

    def test_denials(self):
        deny, allows = {"action": ERRNO, "errnoRet": 1}, {"default": ALLOW}
        killed = entry("mkdir", action="SCMP_ACT_KILL")
        self.says(("sibling-allowed",), "entry name allowed",
                  ([entry("mkdir", "open", **deny)], allows,
                   [(0, "mkdir", ["mkdirat"]), (0, "open", ["openat", "openat2"])]),
                  ([entry("mkdir", "mkdirat", **deny), entry("open", "openat", **deny)], allows,
                   [(1, "open", ["openat2"])]),
                  ([killed, entry("mkdirat")], {}, [(0, "mkdir", ["mkdirat"])]),
                  *(([one], allows, []) for one in (
                      entry("mkdir", action=ERRNO, errnoRet=38), entry("mkdir", action="SCMP_ACT_TRACE"),
                      entry("mkdir", args=[(1, "EQ", 0)], **deny), entry("mkdirat", **deny), entry("close", **deny))),
                  # by the default, which wasn't written for it
                  ([entry("mkdirat")], {}, []), ([killed, entry("mkdirat", args=[(0, "EQ", 3)])], {}, []))


class Effects(Linted):
    def test_as_the_default(self):
        default = [(0, True, "default")]
        self.effects(([entry("read"), entry("write", "close", action=ERRNO)], {}, [(1, True, "default")]),
                     ([entry("read", action=ERRNO, errnoRet=1)], {}, default),
                     ([entry("read", action=ERRNO, errnoRet=2)], {}, []),
                     ([entry("read", action=ERRNO, errnoRet=2)], {"defaultErrnoRet": 2}, default),
                     ([entry("read", action="SCMP_ACT_KILL_THREAD")], {"default": "SCMP_ACT_KILL"}, default),
                     ([entry("read", action="SCMP_ACT_KILL_PROCESS")], {"default": "SCMP_ACT_KILL"}, []))

    def test_covered(self):
        self.effects(([entry("read", "write"), entry("read")], {}, [(1, True, 0)]),
                     ([entry("read"), entry("read", "write")], {}, [(0, True, 1)]),
                     ([entry("read", "write"), entry("read", "close")], {}, [(1, False, 0)]),
                     ([entry("read"), entry("read", args=[(0, "EQ", 5)])], {}, [(1, True, 0)]),
                     # of two that are alike the later is told, and not both, which can't be left out together
                     ([entry("read"), entry("write"), entry("read")], {}, [(2, True, 0)]))
        for wide, narrow, is_covered in (((0, "LE", 5), (0, "LT", 6), True), ((0, "LE", 5), (0, "LE", 6), False),
                                         ((0, "NE", 5), (0, "GT", 5), True), ((0, "NE", 5), (0, "GE", 5), False),
                                         ((0, "MASKED_EQ", 4, 4), (0, "EQ", 12), True),
                                         ((0, "MASKED_EQ", 4, 4), (0, "EQ", 8), False),
                                         ((0, "EQ", 5), (1, "EQ", 5), False)):
            with self.subTest(wide=wide, narrow=narrow):
                given = profile(entry("read", args=[wide]), entry("read", args=[narrow]))
                self.assertEqual([it["by"] for it in self.found(given, kinds=("covered",)) if it["entry"] == 1],
                                 [0] * is_covered)

    def test_together(self):
        halves = [entry("read", args=[(0, operator, 5)]) for operator in ("LT", "GE")]
        gap = [entry("read", args=[(0, operator, 5)]) for operator in ("LT", "GT")]
        self.effects(([*halves, entry("read")], {}, [(2, True, "together")]),
                     ([entry("read"), *halves], {}, [(1, True, 0), (2, True, 0)]),
                     ([*gap, entry("read")], {}, [(0, True, 2), (1, True, 2)]))

    def test_no_call_meets_it(self):
        """Names of other architectures have an effect there."""
        self.effects(*(([entry("read"), entry("write", args=[condition])], {}, expected) for condition, expected in (
            ((0, "LT", 0), [(1, True, "none")]), ((0, "LE", 0), []), ((5, "GT", TOP_OF), [(1, True, "none")]),
            ((5, "GE", TOP_OF), []))), ([entry("read"), entry("read", "waitpid")], {}, [(1, False, 0)]),
                     ([entry("read"), entry("waitpid", "umont2")], {}, []))

    def test_what_is_said_behind_them(self):
        same = "# scf proves the profile the same without all that is covered or without effect\n"
        self.assertIn(same, self.run_lint(profile(entry("read"), entry("read")))[1])
        self.assertNotIn(same, self.run_lint(profile(entry("read"), entry("reed")))[1])
        self.assertEqual(self.report(profile(entry("read"), entry("read")))["verdict"], "same")

class Conflicts(Linted):
    def conflict(self, *args):
        """The arguments that are shown of two entries with these conditions, and the fault; None where they agree."""
        entries = [entry("read", "socket", args=args[0]), entry("write"),
                   entry("socket", action="SCMP_ACT_LOG", args=args[1])]
        status, out, _ = self.run_lint(profile(*entries), "--json")
        report = json.loads(out)
        found = [it for it in report["findings"] if it["kind"] == "conflict"]
        self.assertEqual((status, "fault" in report), (2, True) if found else (0, False))
        if not found:
            return None
        self.assertEqual(report["fault"]["numbers"], {"number": 41, "first": 0, "second": 2})
        self.assertEqual([(it["first"], it["second"], it["name"]) for it in found], [(0, 2, "socket")])
        self.assertEqual(found[0]["call"]["number"], 41)
        arguments = [int(it, 16) for it in found[0]["call"]["arguments"]]
        for condition in (*entries[0].get("args", []), *entries[2].get("args", [])):
            self.assertTrue(kernel_profiles.holds(condition, arguments), (condition, arguments))
        return arguments

    def test_whether_a_call_meets_both(self):
        for first, second, is_met in (
                ((), (), True), ([(0, "EQ", 5)], (), True), ((), [(3, "GT", 7)], True),
                ([(0, "LE", 5)], [(0, "GE", 5)], True), ([(0, "NE", 5)], [(0, "NE", 6), (1, "EQ", TOP_OF)], True),
                ([(0, "EQ", 5)], [(1, "EQ", 6)], True), ([(0, "EQ", 5)], [(0, "EQ", 6)], False),
                ([(0, "LT", 5)], [(0, "GE", 5)], False), ([(0, "MASKED_EQ", 1, 1)], [(0, "MASKED_EQ", 1, 0)], False),
                ([(0, "MASKED_EQ", 0xF0, 0x30)], [(0, "MASKED_EQ", 0x0F, 0x05)], True)):
            self.assertEqual(self.conflict(first, second) is not None, is_met, (first, second))

    def test_its_lines(self):
        given = profile(entry("socket", "umont2"), entry("socket", action=ERRNO, errnoRet=2))
        lines = self.begins(2, "fault profile Conflict number 41 first 0 second 1", self.run_lint(given)).split("\n")
        self.assertTrue(lines[1].startswith("# Two entries"), lines[1])
        self.assertIn("error conflict: entries 0 and 1 answer socket (41) by ALLOW and by ERRNO 2: arguments 0x0 0x0 "
                      "0x0 0x0 0x0 0x0 meet both", lines)
        self.assertEqual(sum(line.startswith("warning unknown-name: ") for line in lines), 1)

    def test_several(self):
        entries = [entry("read"), entry("read", action="SCMP_ACT_LOG"), entry("read", "write", action="SCMP_ACT_TRAP"),
                   entry("write")]
        found = self.found(profile(*entries), kinds=("conflict",), status=2)
        self.assertEqual([(it["first"], it["second"]) for it in found], [(0, 1), (0, 2), (1, 2), (2, 3)])


class Several(Linted):
    """Profiles for other architectures than x86-64, and for several: numbers by asm/unistd.h of each, arguments of 32
    bits on i386, x32 and arm."""

    EACH = ["x86-64", "i386", "x32"]

    def on(self, kind, *rows, words=(), status=0, **members):
        """Of profiles, each row its architectures, its entries, and of each finding of a kind how its text begins and
        of which architectures it is true."""
        for architectures, entries, expected in rows:
            with self.subTest(architectures=architectures, entries=entries):
                found = self.found(profile(*entries, architectures=architectures, **members), *words, kinds=(kind,),
                                   status=status)
                texts = [text for text, _ in expected]
                self.assertEqual([(it["text"][:len(text)], it["architectures"]) for it, text in
                                  zip(found, [*texts, *[""] * len(found)])], expected)

    def test_aarch64_and_arm(self):
        """They have ptrace as 117 and 26; open and poll are arm's alone, and arch_prctl neither has."""
        given = profile(entry("read", "ptrace", "poll", "restart_syscall"), entry("open"), entry("arch_prctl"),
                        entry("read"), architectures=[AARCH64, ARM])
        report = self.report(given)
        self.assertEqual([(it["kind"], it.get("entry"), it.get("architectures")) for it in report["findings"]], [
            ("other-architectures", None, None), ("unlisted", 2, ["x86-64", "i386", "x32"]), ("covered", 3, None),
            ("dangerous-call", 0, ["aarch64", "arm"])])
        self.assertEqual((report["findings"][0]["names"], report["verdict"]), (["arch_prctl"], "same"))
        self.assertIn("\nwarning dangerous-call: ptrace (117) is allowed by entry 0: it ", self.run_lint(given)[1])

    def test_aarch64_alone(self):
        self.assertEqual(self.run_lint(profile(entry("read", "openat"), architectures=[AARCH64])),
                         (0, "# no findings\n", ""))
        kinds = ("left-out-name", "unknown-name", "other-architectures", "unlisted")
        found = self.found(profile(entry("read", "open", "opemat"), architectures=[AARCH64]), kinds=kinds)
        self.assertEqual([(it["kind"], it.get("name"), it.get("nearest"), it.get("names")) for it in found], [
            ("unknown-name", "opemat", "openat", None), ("other-architectures", None, None, ["open"]),
            ("unlisted", None, None, ["open"])])

    def test_i386_alone(self):
        """A value of more than 32 bits is one that no argument has, and each is up to the greatest of 32."""
        entries = [entry("waitpid"), entry("waitpid", "ptrace"), entry("personality", args=[(0, "EQ", WIDE)]),
                   entry("umask", args=[(0, "LE", WIDE - 1)])]
        report = self.report(profile(*entries, architectures=[I386]))
        found = [(it["kind"], it.get("entry"), it.get("by") or it.get("why")) for it in report["findings"]]
        self.assertEqual(found, [("wide", 2, None), ("always-met", 3, None), ("covered", 0, 1),
                                 ("without-effect", 2, "none"), ("dangerous-call", 1, None)])
        self.on("dangerous-call", ([I386], entries, [("ptrace (26) is allowed by entry 1: it ", ["i386"])]))

    def test_an_entry_that_has_an_effect_on_one_of_them(self):
        """waitpid is i386's alone; no i386 call meets what is said of greater numbers."""
        later, twice = [entry("read"), entry("read", "waitpid")], [entry("waitpid"), entry("waitpid")]
        halves = [entry("umask", args=[(0, "LT", WIDE)]), entry("umask")]
        wide = [entry("umask", args=[(0, "GE", WIDE)])]
        # the last entry has all but 7, and what no other entry has, such as 500
        most = [("EQ", it) for it in range(6, 18)] + [("LE", 5), ("GE", 1000), ("NE", 7)]
        self.effects(*((entries, {"architectures": architectures}, expected) for entries, architectures, expected in (
            (later, [NATIVE], [(1, False, 0)]), (later, ENGINES, [(0, True, 1)]), (twice, [NATIVE, X32], []),
            (twice, ENGINES, [(1, True, 0)]), ([entry("read"), entry("waitpid")], ENGINES, []),
            (halves, [NATIVE], [(0, True, 1)]), (halves, ENGINES, [(0, True, 1)]),
            (halves, [AARCH64, ARM], [(0, True, 1)]), (halves, [I386], [(1, True, 0)]), (wide, ENGINES, []),
            (wide, [I386, X32, ARM], [(0, True, "none")]),
            ([entry("read", args=[(0, it, 5)]) for it in ("LT", "GE")] + [entry("read")], ENGINES,
             [(2, True, "together")]),
            ([entry("read", args=[(0, *it)]) for it in most], ENGINES,
             [(at, True, 14) for at in range(14) if most[at] != ("EQ", 7)]))))

    def test_a_dangerous_call_on_one_of_them(self):
        """By a table without ptrace, and for arguments that no call of 32 bits has."""
        own, ptrace = self.file("own.table", b"read 0\n"), [entry("ptrace")]
        wide = [entry("ptrace", args=[(0, "EQ", WIDE + 1)])]
        self.on("dangerous-call", (ENGINES, ptrace, [("ptrace (101) is allowed by entry 0: it ", self.EACH)]),
                (ENGINES, wide, [("ptrace (101) of x86-64 is allowed with some arguments, such as 0x100000001 0x0 0x0 "
                                  "0x0 0x0 0x0, by entry 0: it ", ["x86-64"])]), ([I386], wide, []))
        self.on("dangerous-call", ([NATIVE, X32], ptrace, [
            ("ptrace (0x40000000 + 521) of x32 is allowed by entry 0: it ", ["x32"])]), words=[f"--table={own}"])
        texts = [it["text"] for it in self.found(profile(*ptrace, architectures=ENGINES), f"--table={own}",
                                                 kinds=("dangerous-call",))]
        self.assertEqual([(it.partition(": ")[0], it.rpartition("; ")[2]) for it in texts],
                         [("ptrace (26) of i386 is allowed by entry 0", "the same on x32")])

    def test_a_dangerous_call_always_or_with_some_arguments(self):
        given = profile(entry("ptrace", action=ERRNO, args=[(0, "GE", WIDE)]), default=ALLOW, architectures=ENGINES)
        found = [it for it in self.found(given, kinds=("dangerous-call",))
                 if "ptrace" in (it.get("name"), *it.get("names", ()))]
        self.assertEqual([(it["is_always"], it["architectures"]) for it in found],
                         [(False, ["x86-64"]), (True, ["i386", "x32"])])
        self.assertIn("\nwarning dangerous-call: ptrace (101) of x86-64 is allowed with some arguments, ",
                      self.run_lint(given)[1])

    def test_what_could_not_be_told(self):
        """It is said once, as what is told is."""
        given = profile(entry("ptrace", "nanosleep"), architectures=ENGINES)
        undecided = [it for it in self.report(given, "--limit=0", "--strict", status=4)["undecided"]
                     if it.get("name") == "ptrace" or it["kind"] == "no-restart"]
        self.assertEqual([(it["text"], it["architectures"]) for it in undecided], [
            ("undecided whether ptrace (101) is allowed: unfinished", self.EACH),
            ("undecided whether restart_syscall (219) is always allowed", self.EACH)])

    def test_findings_on_x86_64_alone_name_no_architecture(self):
        given = profile(entry("ptrace", "poll"), entry("personality", args=[(1, "EQ", 8)]))
        for words, listed in (((), []), ((), [NATIVE]), (("--native",), ENGINES)):
            for it in self.report({**given, "architectures": listed}, *words)["findings"]:
                self.assertEqual("architectures" in it, it["kind"] == "x32", it)

    def test_syscalls_that_others_need(self):
        """sigreturn is i386's 119 and arm's; aarch64 has no poll; restart_syscall is 128 on aarch64, and 0 on arm."""
        handlers, both = entry("rt_sigaction", "rt_sigreturn"), [AARCH64, ARM]
        # the table of powerpc has it for processes of 32 bits
        self.on("no-return", ([NATIVE], [handlers], []), (ENGINES, [handlers, entry("sigreturn")], []),
                (ENGINES, [handlers], [("rt_sigaction is allowed, and sigreturn (119) of i386 is not: ", ["i386"])]),
                (["SCMP_ARCH_PPC64LE"], [handlers], []), ([AARCH64], [handlers], []),
                (["SCMP_ARCH_MIPSEL"], [handlers], [("rt_sigaction is allowed, and sigreturn (4119", ["mipsel"])]))
        self.on("no-restart", *((both, [entry(name)], [
            (f"{name} is allowed, and restart_syscall ({number}", owners)]) for name, number, owners in (
                ("nanosleep", "128", ["aarch64", "arm"]), ("poll", "0) of arm", ["arm"]),
                ("futex_time64", "0) of arm", ["arm"]))))

    def test_what_libc_calls_instead(self):
        threads = [entry("clone", args=[(0, "MASKED_EQ", 0x7E020000, 0)])]
        self.on("no-fallback", *((architectures, threads, [("clone3 (435) is answered", owners)])
                                 for architectures, owners in ((ENGINES, self.EACH), ([I386], ["i386"]),
                                                               ([AARCH64, ARM], ["aarch64", "arm"]))))

    def test_denials_that_others_make_void(self):
        """aarch64 has no mkdir."""
        mkdir, renameat = ([entry(name, action=ERRNO, errnoRet=1)] for name in ("mkdir", "renameat"))
        self.on("sibling-allowed", (ENGINES, mkdir, [("mkdir is denied by entry 0 (ERRNO 1), and ", self.EACH)]),
                ([AARCH64, ARM], mkdir, [("mkdir is denied on arm by entry 0 (ERRNO 1), and ", ["arm"])]),
                ([AARCH64], mkdir, []), ([AARCH64, ARM], renameat, [
                    ("renameat is denied by entry 0 (ERRNO 1), and ", ["aarch64", "arm"])]), default=ALLOW)

    def test_entries_that_conflict_on_one_of_them(self):
        """By a name of i386, and by values that only arguments of 64 bits have; personality is 135, 136 and 92."""
        log, wide = {"action": "SCMP_ACT_LOG"}, ((0, "GE", WIDE), (0, "EQ", WIDE + 7))
        names = entry("read"), entry("waitpid"), entry("waitpid", args=[(1, "EQ", 7)], **log)
        values = entry("read"), entry("personality", args=wide[:1]), entry("personality", args=wide[1:], **log)
        for entries, architectures, called, number, arguments in (
                (names, ENGINES, "waitpid (7) of i386", 7, "0x0 0x7 0x0 0x0 0x0 0x0"),
                (names, [I386], "waitpid (7)", 7, "0x0 0x7 0x0 0x0 0x0 0x0"),
                (values, ENGINES, "personality (135) of x86-64", 135, "0x100000007 0x0 0x0 0x0 0x0 0x0"),
                (values, [AARCH64, ARM], "personality (92) of aarch64", 92, "0x100000007 0x0 0x0 0x0 0x0 0x0")):
            out = self.begins(2, f"fault profile Conflict number {number} first 1 second 2",
                              self.run_lint(profile(*entries, architectures=architectures)))
            self.assertIn(f"\nerror conflict: entries 1 and 2 answer {called} by ALLOW and by LOG: arguments "
                          f"{arguments} meet both\n", out)
        for entries, architectures in ((names, [NATIVE, X32]), (values, [I386, X32, ARM])):
            self.assertEqual(self.found(profile(*entries, architectures=architectures), kinds=("conflict",)), [])
        found, = self.found(profile(*names, architectures=ENGINES), kinds=("conflict",), status=2)
        self.assertEqual((found["call"]["number"], found["call"]["architecture"], found["architectures"]),
                         (7, "0x40000003", ["i386"]))
        self.on("conflict", (ENGINES, [entry("read"), entry("read", **log)], [
            ("entries 0 and 1 answer read (0) by ALLOW and by LOG: ", self.EACH)]), status=2)

    def test_arguments(self):
        """i386 takes the offset of pread64 in two arguments, and an aarch64 process its clone's in another order."""
        kinds = ("no-such-argument", "pointer-argument")
        for name, index, architectures, text, owners in (
                ("personality", 1, ENGINES, "(the first is 0), and", self.EACH), ("pread64", 4, [I386], "", None),
                ("pread64", 4, ENGINES, "(the first is 0) on x86-64 and x32, and", ["x86-64", "x32"]),
                ("clone", 3, [NATIVE, AARCH64], "clone on x86-64 is", ["x86-64"]), ("clone", 3, [AARCH64], "", None),
                ("mmap", 2, [I386], "", None), ("openat", 1, [AARCH64, ARM], "openat is", ["aarch64", "arm"])):
            found = self.found(profile(entry(name, args=[(index, "EQ", 8)]), architectures=architectures), kinds=kinds)
            self.assertEqual([(it["architectures"], text in it["text"]) for it in found],
                             [(owners, True)] * (owners is not None), name)
        null = [entry("openat", args=[(1, "MASKED_EQ", WIDE - 1, 0)])]
        self.says(kinds, "entry", (null, {"architectures": ENGINES}, [0]), (null, {"architectures": [I386]}, []))
        for oci, names in constants.OTHER_KINDS.items():
            for name in names:
                self.assertIsNotNone(tables.read_table(TABLE).number_of(name), name)
                self.assertTrue(oci != I386 or tables.architecture_table(oci).number_of(name), name)

    def test_conditions_that_always_hold_on_all(self):
        """Up to 2^32-1 each argument of 32 bits is, and not each of 64."""
        for condition, is_for_32 in (((0, "LE", WIDE - 1), True), ((0, "LT", WIDE), True), ((0, "NE", WIDE), True),
                                     ((0, "MASKED_EQ", WIDE, 1), True), ((0, "LE", WIDE - 2), False),
                                     ((0, "LT", WIDE - 1), False), ((0, "NE", WIDE - 1), False),
                                     ((0, "MASKED_EQ", WIDE, WIDE), False), ((0, "EQ", WIDE), False)):
            self.says(("always-met",), "entry", *(
                ([entry("umask", args=[condition])], {"architectures": architectures}, [0] * is_found)
                for architectures, is_found in (([I386, ARM], is_for_32), (ENGINES, False), ([AARCH64], False))))

    def test_entries_of_which_each_call_meets_one_on_all(self):
        def of(architectures, *conditions):
            given = profile(*(entry("socket", args=[it]) for it in conditions), architectures=architectures)
            return [it["entries"] for it in self.found(given, kinds=("always-met",)) if "entries" in it]
        other, wide = ((0, "NE", 40), (0, "NE", 16)), ((0, "LT", WIDE), (1, "EQ", 5))
        for architectures in (ENGINES, [AARCH64, ARM], [I386]):
            self.assertEqual(of(architectures, *other), [[0, 1]])
        # a short search tries no value above the first ones
        many = [(0, "EQ", it) for it in range(1, 13)] + [(0, "LT", WIDE)]
        for architectures, is_found in ((ENGINES, False), ([I386, X32], True)):
            self.assertEqual(of(architectures, *wide), [[0, 1]] * is_found)
            self.assertEqual(of(architectures, *many), [list(range(13))] * is_found)

    def test_upper_halves(self):
        """ioctl is 16 on x86-64, and 29 on aarch64; arguments of i386, x32 and arm have none."""
        ioctl, of_one = [entry("ioctl", action=ERRNO, args=[(1, "EQ", 0x5412)])], [("ioctl (16) is", ["x86-64"])]
        self.on("high-half", (ENGINES, ioctl, of_one), ([AARCH64, ARM], ioctl, [("ioctl (29) is", ["aarch64"])]),
                ([NATIVE, AARCH64], ioctl, [("ioctl (16) is", ["x86-64", "aarch64"])]), ([I386], ioctl, []),
                ([I386, AARCH64], ioctl, [("ioctl (29) of aarch64 is", ["aarch64"])]), default=ALLOW)
        openat = [entry("openat", args=[(0, "EQ", TOP_OF - 99)])]
        self.on("high-half", (ENGINES, openat, [("", ["x86-64"])]), ([I386, X32], openat, []))


# Values of conditions, and arguments: each value, some on both sides, and some of both parities, with and without 2^32.
EDGES = (0, 1, 5, WIDE - 1, WIDE, WIDE + 6, TOP_OF)
GRID = sorted({it + step for it in EDGES for step in range(-2, 3) if 0 <= it + step <= TOP_OF} |
              {2 * WIDE + at + step for at in (0, WIDE) for step in (0, 1)})


class BesideSeveral(Linted):
    """Random profiles for one architecture or several: what is told is without effect on all of them, each by itself
    and all together, and nothing else is, as their entries are read here for arguments at which a condition may
    change."""

    CONDITIONS = [(op, value) for op in ("EQ", "NE", "LT", "LE", "GT", "GE") for value in EDGES]
    CONDITIONS += [("MASKED_EQ", mask, two) for mask in (1, WIDE) for two in (0, mask)]
    HAVE = {"read": (NATIVE, I386, X32, AARCH64), "waitpid": (I386,), "poll": (NATIVE, I386, X32)}

    def random_profile(self, random_of):
        made = []
        for _ in range(random_of.randint(2, 5)):
            indices = random_of.sample((0, 1), random_of.randint(0, 2))
            args = [(index, *random_of.choice(self.CONDITIONS)) for index in indices]
            made.append(entry(*random_of.sample(sorted(self.HAVE), random_of.randint(1, 3)), args=args))
        # (it answers as the default)
        return made + [entry("close", action=ERRNO)] * (random_of.random() < 0.3)

    def answers(self, entries, architectures):
        """Of each syscall the arguments that are allowed."""
        found = set()
        for name, having in self.HAVE.items():
            conditions = [it.get("args", []) for it in entries if name in it["names"]]
            for bits in {64 if it in (NATIVE, AARCH64) else 32 for it in having if it in architectures}:
                grid = [it for it in GRID if it < 1 << bits]
                found |= {(name, bits, one, two) for one in grid for two in grid if any(
                    all(kernel_profiles.holds(it, (one, two)) for it in its) for its in conditions)}
        return found

    @staticmethod
    def without(entries, gone):
        return [{**it, "names": [name for name in it["names"] if (place, name) not in gone]}
                for place, it in enumerate(entries)]

    def test_random_profiles(self):
        random_of, told, kept = random.Random(13), 0, 0
        for _ in range(20):
            entries = self.random_profile(random_of)
            architectures = random_of.choice((ENGINES, [NATIVE, I386], [NATIVE], [I386], [AARCH64], [I386, AARCH64]))
            found = self.found(profile(*entries, architectures=architectures), kinds=("covered", "without-effect"))
            gone = {(it["entry"], name) for it in found for name in it["names"]}
            expected = self.answers(entries, architectures)
            for at in ((place, name) for place, it in enumerate(entries) for name in it["names"]):
                with self.subTest(entries=entries, architectures=architectures, at=at):
                    is_needless = at in gone or not {*self.HAVE.get(at[1], architectures)} & {*architectures}
                    left = self.answers(self.without(entries, gone | {at}), architectures)
                    self.assertEqual(left == expected, is_needless)
                    kept += not is_needless
            told += len(gone)
        self.assertGreater(min(told, kept), 10)


class Hostile(Linted):
    def test_names(self):
        for name, shown in HOSTILE.items():
            given = profile(entry("read", name), entry("write", **{f"{name}x": 1}),
                            architectures=["SCMP_ARCH_X86_64", name])
            out = self.out_of(0, self.run_lint(given))
            lines = out.split("\n")[:-1]
            self.assertTrue(all(line.isprintable() for line in lines), out)
            self.assertEqual([line.partition(":")[0] for line in lines], [
                "error unread-member", "warning unknown-name", "warning unknown-architecture", "# findings"])
            self.assertIn(shown[:40], lines[1])
            self.assertIn(shown[:40], lines[2])
            report = self.report(given)
            self.assertEqual([it["member"] for it in report["findings"] if "member" in it], [f"{name}x"])
            self.assertEqual([it["name"] for it in report["findings"] if "name" in it], [name] * 2)
            self.assertTrue(self.run_lint(given, "--json")[1][:-1].isascii())

    def test_large_profiles_take_no_time(self):
        """Two seconds are measured, with up to two runs of scf for each entry; one for each pair would take minutes."""
        names = list(tables.read_table(TABLE).names())
        many = [profile(*(entry(name, action=ERRNO) for name in names * 10)),
                profile(*(entry("read", args=[(0, "EQ", it)]) for it in range(300))),
                profile(*(entry("read", args=[(0, "MASKED_EQ", it * 2654435761, it)]) for it in range(300))),
                profile(*(entry("read", action=f"SCMP_ACT_{'ALLOW' if it % 2 else 'LOG'}", args=[(0, "NE", it)])
                          for it in range(4000))),
                profile(entry(*(f"x{it:0900}" for it in range(4000)), "read")),
                profile(entry("read", **{f"m{it}": 1 for it in range(4000)}))]
        for given in many:
            _, out, err = self.run_lint(given, seconds=60)
            self.assertEqual(err, "")
            self.assertIn("\n# ", f"\n{out}")

    def test_text_that_python_reads_otherwise(self):
        """Numbers past all range, halves of surrogate pairs: scf's fault, or a report; no traceback."""
        for text in (b'{"defaultAction":"SCMP_ACT_ALLOW","x":%s}' % (b"9" * 5000),
                     b'{"defaultAction":"SCMP_ACT_ALLOW","x":1e999}',
                     b'{"defaultAction":"SCMP_ACT_ALLOW","x":"\\ud800"}',
                     b'{"defaultAction":"SCMP_ACT_ALLOW","x":%s}' % (b"[" * 120 + b"]" * 120),
                     b'{"defaultAction":"SCMP_ACT_ALLOW","x":%s}' % (b"[" * 5000 + b"]" * 5000), b"\xff" * 100):
            status, out, err = self.run_lint(text, "--except=dangerous-call")
            self.assertIn(status, (0, 2))
            self.assertEqual(err, "")
            self.assertTrue(all(line.isprintable() for line in out.split("\n")))

    def test_a_list_as_long_as_a_containers(self):
        """Some 350 names and conditions of one call; within the time that is promised, by far."""
        named = sorted(tables.read_table(TABLE).names())
        names = [it for it in named if it not in ("personality", "clone", "clone3")][:346]
        given = profile(entry(*names), *(entry("personality", args=[(0, "EQ", it)]) for it in (0, 8, 131072, 131080)),
                        entry("clone", args=[(0, "MASKED_EQ", 2114060288, 0)]),
                        entry("clone3", action=ERRNO, errnoRet=38), default="SCMP_ACT_KILL_PROCESS")
        before = taken()
        self.assertEqual(self.found(given, kinds=("covered", "without-effect")), [])
        self.assertLess(taken() - before, 60)
        given["syscalls"].append(entry("personality", "read"))
        self.assertEqual([(it["entry"], it["names"]) for it in self.found(given, kinds=("covered", "without-effect"))],
                         [*((it, ["personality"]) for it in range(1, 5)), (7, ["read"])])
        self.assertEqual(self.run_lint(profile_of("read"))[1], "# no findings\n")


class Runtimes(Linted):
    """Profiles as runc and crun read them (RUNTIMES.md), which by their words are refused or mean something else."""

    def of_runtime(self, given, runtime, *words, kinds=("covered", "without-effect"), status=0):
        """The findings of some kinds, and what is said on standard error."""
        ended, out, err = self.run_lint(given, "--json", "--runtime", runtime, *words)
        self.assertEqual(ended, status, out + err)
        return [it for it in json.loads(out)["findings"] if it["kind"] in kinds] if out else [], err

    def test_two_answers(self):
        """The one without conditions counts, the first of two such; an entry whose answer is the default's does not."""
        equal, unlike = [(0, "EQ", 7)], [(0, "NE", 7)]
        for entries, needless in (
                ((entry("dup"), entry("dup", action="SCMP_ACT_TRAP")), [(1, "instead", [0])]),
                ((entry("dup", args=equal), entry("dup", action="SCMP_ACT_TRAP")), [(0, "instead", [1])]),
                ((entry("dup", args=equal), entry("dup", args=unlike), entry("dup", action="SCMP_ACT_LOG")),
                 [(0, "instead", [2]), (1, "instead", [2])]),
                ((entry("dup", action=ERRNO), entry("dup")), [(0, "default", [])]),
                ((entry("dup", action=ERRNO), entry("dup", args=equal)), [(0, "default", [])])):
            self.assertEqual(self.report(profile(*entries), status=2)["fault"]["kind"], "Conflict")
            for runtime in ("runc", "crun"):
                findings, err = self.of_runtime(profile(*entries, entry("dup3")), runtime)
                self.assertEqual([(it["entry"], it["why"], it["others"]) for it in findings], needless, entries)
                self.assertIn(f"lint: {runtime} leaves ", err)
        given = profile(entry("dup", "dup2"), entry("dup", "dup3", action="SCMP_ACT_LOG"))
        out = self.run_lint(given, "--runtime=crun")[1]
        self.assertIn("without-effect: entry 1: entry 0, which has no conditions, answers dup instead\n", out)
        self.assertIn("\n# scf proves the profile the same without all that is covered or without effect\n", out)

    def test_what_stays_a_conflict(self):
        """Conditions that a call meets both; not beside an entry without conditions, or one that is left out."""
        given = profile(entry("dup", args=[(0, "LE", 7)]), entry("dup", action="SCMP_ACT_LOG", args=[(0, "GE", 7)]),
                        entry("dup2"), entry("dup2", action="SCMP_ACT_LOG", args=[(0, "GE", 7)]),
                        entry("dup", action=ERRNO, args=[(0, "EQ", 7)]))
        findings, _ = self.of_runtime(given, "crun", kinds=("conflict",), status=2)
        self.assertEqual([(it["first"], it["second"], it["call"]["arguments"][0]) for it in findings], [(0, 1, "0x7")])
        self.assertGreater(len(self.found(given, kinds=("conflict",), status=2)), 1)

    def test_two_conditions_on_one_argument(self):
        """They are alternatives: another entry with one of them is covered, and `not 2` beside `not 3` holds always."""
        given = profile(entry("dup", args=[(0, "EQ", 2), (0, "EQ", 3)]), entry("dup", args=[(0, "EQ", 3)]),
                        entry("dup2", args=[(0, "NE", 2), (0, "NE", 3)]), entry("dup2", args=[(1, "EQ", 3)]))
        self.assertEqual(self.report(given, status=2)["fault"]["kind"], "RepeatedIndex")
        findings, _ = self.of_runtime(given, "runc")
        self.assertEqual([(it["entry"], it["by"]) for it in findings], [(1, 0), (3, 2)])

    def test_a_profile_under_which_a_runtime_starts_nothing(self):
        """By what the runtime calls itself behind the filter; of a kill more of that counts."""
        few, most = entry("read", "write", "execve"), [name for name in TABLE_NAMES if name not in ("getpid", "close")]
        for rules, default, runtime, text in (
                (few, ERRNO, "runc", "runc 1.1.5 starts nothing: it calls close, fstatfs, getdents64 and openat itself "
                                     "behind the filter, which the profile denies"),
                (few, ERRNO, "docker", "runc 1.1.5 starts nothing: it calls close, fstatfs, getdents64 and openat "),
                (few, ERRNO, "crun", "crun 1.8.1 starts nothing without noNewPrivileges: it calls capset, prctl, "),
                (few, "SCMP_ACT_KILL_PROCESS", "crun", "crun 1.8.1 starts nothing: it calls close itself "),
                (entry(*most), "SCMP_ACT_KILL", "runc", "runc 1.1.5 starts nothing: it calls close and getpid itself "),
                (entry(*most, "close"), ERRNO, "runc", None), (few, ERRNO, "sandbox", None)):
            given = profile(rules, default=default, architectures=[NATIVE])
            lines = [line for line in self.run_lint(given, "--runtime", runtime)[1].split("\n") if "no-start" in line]
            self.assertEqual(bool(lines), text is not None)
            self.assertTrue(text is None or lines[0].startswith(f"error no-start: {text}"), lines)
        self.assertEqual(self.run_lint(profile(few), "--runtime", "runc", "--fail-on", "error")[0], 1)

    def test_what_a_runtime_refuses(self):
        given = profile(entry("dup", errnoRet=5))
        self.assertEqual(self.report(given, status=2)["fault"]["kind"], "Errno")
        self.assertEqual(self.of_runtime(given, "runc")[0], [])
        self.is_refusal("crun refuses the profile: entry 0 has an errno beside SCMP_ACT_ALLOW",
                        self.run_lint(given, "--runtime", "crun"))
        for words in (("--runtime=runc", "--caps=docker"), ("--runtime=crun", "--machine=arm64"), ("--machine=arm64",)):
            self.assertEqual(self.run_lint(given, *words)[:2], (2, ""))

    def test_the_stub(self):
        """runc answers ENOSYS behind the greatest number that is named: its entry has an effect even where the default
        answers the same, and what isn't named behind it isn't the default's."""
        given = profile(entry("read", "nanosleep"), entry("dup2", "poll", action=ERRNO), architectures=[NATIVE])
        given["syscalls"][1]["names"].append("wait4")
        needless = {"runc": [(1, ["dup2", "poll"])], "crun": [(1, ["dup2", "poll", "wait4"])]}
        for runtime, names in needless.items():
            findings, _ = self.of_runtime(given, runtime)
            self.assertEqual([(it["entry"], it["names"]) for it in findings], names)
        said = [self.run_lint(given, "--runtime", runtime)[1] for runtime in needless]
        self.assertIn("and restart_syscall (219) is not: a thread stopped in such a syscall, by SIGSTOP or a debugger, "
                      "calls it to continue, and is answered by the ENOSYS that runc puts before the filter ERRNO 38",
                      said[0])
        self.assertIn("and is answered by the default ERRNO 1", said[1])

    def test_what_is_odd_in_the_text(self):
        """Names, members and comments are those of the file, though the runtime doesn't read them."""
        given = {"ociVersion": "1.0.2", "linux": {"seccomp": profile(
            entry("reed", arg=1), entry("mount", comment="lint: ignore dangerous-call"), entry("ptrace"))}}
        for runtime in ("runc", "crun"):
            findings, _ = self.of_runtime(given, runtime, kinds=tuple(FINDING_KINDS))
            self.assertEqual([(it["kind"], it.get("entry")) for it in findings],
                             [("unread-member", 0), ("unknown-name", 0), ("dangerous-call", 2), ("no-start", None)])

    def test_entries_of_an_engines_list(self):
        """They have the numbers that they have in the file, with --caps and with --runtime, also in SARIF."""
        given = {"defaultAction": ERRNO, "archMap": [{"architecture": NATIVE, "subArchitectures": [I386]}]}
        given["syscalls"] = [
            {**entry("mount"), "includes": {"caps": ["CAP_SYS_ADMIN"]}},
            entry("socket", args=[(0, "EQ", 2)]), entry("socketcall"), entry("ptrace"), entry("ptrace"), entry("reed"),
            {**entry("chroot", comment="lint: ignore dangerous-call"), "includes": {"caps": ["CAP_SYS_CHROOT"]}}]
        text = json.dumps(given, indent=1).encode()
        lines = text.decode().split("\n")
        for words in (("--caps=docker",), ("--runtime=docker",), ("--runtime=podman",)):
            out = self.of_status(0, self.run_lint(text, "--json", *words))
            starts = [] if words == ("--caps=docker",) else [("no-start", None)]
            self.assertEqual([(it["kind"], it.get("entry")) for it in json.loads(out)["findings"]],
                             [("unknown-name", 5), ("covered", 4), ("dangerous-call", 3), *starts], words)
            results = json.loads(self.run_lint(text, "--sarif", *words)[1])["runs"][0]["results"]
            first = next(it for it in results if it["ruleId"] == "dangerous-call")
            line = first["locations"][0]["physicalLocation"]["region"]["startLine"]
            self.assertIn('"ptrace"', "".join(lines[line:line + 3]))
            self.assertNotIn('"ptrace"', "".join(lines[line + 3:line + 5]))

    @seccomp_library.NEEDED
    def test_lists_of_engines(self):
        """None is a conflict for its runtime; what scf calls needless is that to libseccomp, too: a second machine runs
        the filters that it makes of the list, and of the list without."""
        for path, engine, runtime in ((PODMAN, "podman", "crun"), (PODMAN, "podman", "runc"), (MOBY, "docker", "runc")):
            self.skip_if(not os.path.exists(path), f"there is no {path}")
            resolved = self.json_of("resolve-profile", "--engine", engine, "--caps", engine, path)
            config = {"ociVersion": "1.0.2", "linux": {"seccomp": resolved}}
            findings, _ = self.of_runtime(config, runtime)
            if engine == "podman":
                self.assertEqual(self.report(config, status=2)["fault"]["kind"], "Conflict")
                self.assertIn((["setns"], "instead"), [(it["names"], it.get("why")) for it in findings])
            gone = {(it["entry"], name) for it in findings for name in it["names"]}
            kept = [{**each, "names": [name for name in each["names"] if (at, name) not in gone]}
                    for at, each in enumerate(resolved["syscalls"])]
            library, machine = seccomp_library.Library(), StandIn()
            filters = [library.filter_of({**resolved, "syscalls": entries}) for entries in (resolved["syscalls"], kept)]
            for number, architecture in [(number, 0xC000003E) for number in range(460)] + \
                    [(number, 0x40000003) for number in range(460)]:
                for arguments in ((0,) * 6, (16, 0, 9, 0, 0, 0)):
                    call = Call(number, architecture, 0, arguments)
                    self.assertEqual(*(machine.run(data, call) for data in filters), call)


class Gate(Linted):
    """What a CI job asks for: grades, what is ignored, SARIF."""

    ODD = profile(entry("read", "reed"), entry("socket", args=((0, "NE", 40),)), entry("ptrace", action=ERRNO))

    def kinds(self, given, *words, status=0, **settings):
        out = self.of_status(status, self.run_lint(given, "--json", *words, **settings))
        return [it["kind"] for it in json.loads(out)["findings"]]

    def test_grades(self):
        style, weak = profile(entry("read", "read")), profile(entry("socket", args=((0, "NE", 40),)))
        for given, statuses in ((profile(), (0, 0, 0)), (style, (0, 0, 1)), (weak, (1, 1, 1)),
                                (profile(entry("rread")), (0, 1, 1)), (profile(entry("reed")), (1, 1, 1))):
            for grade, status in zip(("error", "warning", "note"), statuses):
                self.assertEqual(self.run_lint(given, "--fail-on", grade)[0], status, (given, grade))
            self.assertEqual(self.run_lint(given, "--strict")[0], statuses[-1])
        weak["syscalls"].append(entry("rread"))
        self.assertIn("\n# findings: 2 (error: 1, warning: 1)\n", self.run_lint(weak)[1])
        self.assertEqual(self.run_lint(weak, "--strict", "--fail-on=error")[:2], (2, ""))

    def test_misspelt_names(self):
        """An error where one letter differs, or two neighbours are exchanged; no digit, which newer syscalls have."""
        error, warning = ("ptrcae", "reed", "opne", "dpu", "exeecve"[1:]), ("umont2", "rread", "clone4", "PTRACE", "xy")
        for names, grade in ((error, "error"), (warning, "warning")):
            for default, action in ((ERRNO, ALLOW), (ALLOW, ERRNO)):
                given = profile(*(entry(name, action=action) for name in names), default=default)
                found = [it for it in self.report(given)["findings"] if it["kind"] == "unknown-name"]
                self.assertEqual([(it["name"], it["grade"]) for it in found], [(name, grade) for name in names])
        many = profile(entry(*(f"no_such_{at}" for at in range(150)), "ptrcae"))
        many = self.report(many, "--fail-on=error", status=1)
        self.assertEqual((many["findings"][0]["name"], many["findings"][0]["nearest"]), ("ptrcae", "ptrace"))

    def test_names_that_are_known(self):
        """None of libseccomp's is misspelt: those that the installed one resolves, and those that 2.6.0 is known to
        add, listed without its file at hand; nor has an engine's list one."""
        newer = ("cachestat fchmodat2 futex_requeue futex_wait futex_wake getxattrat listmount listxattrat "
                 "lsm_get_self_attr lsm_list_modules lsm_set_self_attr map_shadow_stack mseal removexattrat "
                 "riscv_hwprobe set_mempolicy_home_node setxattrat statmount uretprobe").split()
        library = libseccomp.installed()
        known = {} if library is None else dict.fromkeys(filter(None, map(library.name_of, range(-11000, 7000))))
        given = profile(entry(*newer, *known))
        self.assertEqual([it for it in self.report(given)["findings"] if it["kind"] == "unknown-name"], [])
        for path in filter(os.path.exists, (PODMAN, MOBY)):
            listed = [name for listed in json.loads(inputs.read_input(path, "profile"))["syscalls"]
                      for name in (listed.get("names") or [listed["name"]])]
            found = self.report(profile(entry(*dict.fromkeys(listed))))["findings"]
            self.assertEqual([it for it in found if it["kind"] == "unknown-name"], [], path)

    def test_several_profiles(self):
        """One run: each has its name before; the status is the worst, and a log of SARIF has one run of all."""
        names = [self.file(name, given) for name, given in (
            ("a.json", profile(entry("read"))), ("b.json", profile(entry("ptrcae"))), ("c.json", {}))]
        self.file(".scf-lint.json", b'{"findings": [{"kind": "unknown-architecture"}]}')
        single = [self.run_tool("lint", "--fail-on=error", name)[:2] for name in names]
        status, out, _ = self.run_tool("lint", "--fail-on=error", *names[:2])
        self.assertEqual((status, out), (1, "".join(f"# {name}\n{printed}" for name, (_, printed)
                                                    in zip(names, single[:2]))))
        self.assertEqual([status for status, _ in single], [0, 1, 2])
        report = self.json_of("lint", "--json", "--fail-on=error", *names)
        self.assertEqual((report["status"], [(it["file"], it["status"]) for it in report["profiles"]]),
                         (1, [*zip(names, (0, 1, 2))]))
        run, = self.json_of("lint", "--sarif", *names)["runs"]
        uris = [os.path.basename(name) for name in names]
        result, = run["results"]
        self.assertEqual((result["ruleId"], result["level"]), ("unknown-name", "error"))
        self.assertEqual(result["locations"][0]["physicalLocation"]["artifactLocation"]["uri"], uris[1])
        invocation, = run["invocations"]
        self.assertEqual((invocation["executionSuccessful"],
                          [it["locations"][0]["physicalLocation"]["artifactLocation"]["uri"]
                           for it in invocation["toolExecutionNotifications"]]), (False, uris[2:]))

    def test_what_is_ignored(self):
        """What an earlier run printed leaves only what is new; a member that differs ignores nothing."""
        before = self.file("before.json", self.run_lint(self.ODD, "--json")[1].encode())
        self.assertGreater(len(self.kinds(self.ODD)), 1)
        self.assertEqual(self.kinds(self.ODD, "--ignore", before, "--strict"), [])
        self.assertRegex(self.run_lint(self.ODD, "--ignore", before)[1], r"\n# no findings; ignored: [2-9]\n\Z")
        newer = {**self.ODD, "syscalls": [*self.ODD["syscalls"], entry("mount")]}
        self.assertEqual(self.kinds(newer, "--ignore", before), ["dangerous-call"])
        one = self.file("one.json", b'{"findings": [{"kind": "unknown-name", "name": "rd", "comment": "none"}]}')
        _, out, err = self.run_lint(self.ODD, "--ignore", one)
        self.assertIn("unknown-name: ", out)
        self.assertIn("lint: ignored, but not found: 1, first {", err)
        self.file(".scf-lint.json", b'{"findings": [{"kind": "unknown-name", "name": "reed"}]}')
        self.assertNotIn("unknown-name", self.kinds(self.ODD))
        for bad in (b"", b"[]", b"{}", b'{"findings": [{}]}', b'{"findings": [{"kind": "no-such"}]}'):
            self.assertEqual(self.run_lint(self.ODD, "--ignore", self.file("bad.json", bad))[:2], (2, ""))

    def test_an_entry_says_what_to_ignore_of_it(self):
        for comment, is_there in ((None, True), ("lint: ignore unknown-name", False), ("lint: ignore covered", True),
                                  ("names of newer kernels; lint: ignore covered unknown-name", False)):
            given = profile(entry("read", "reed", **({"comment": comment} if comment else {})))
            self.assertEqual("unknown-name" in self.kinds(given), is_there, comment)

    def test_sarif(self):
        """Required members and levels as in section 3 of SARIF 2.1.0; a region is where the entry begins."""
        text = json.dumps(self.ODD, indent=2).encode()
        for data in (text, b'{"linux": {"seccomp": ' + text + b"}}"):
            log = json.loads(self.out_of(0, self.run_lint(data, "--sarif")))
            run, = log["runs"]
            self.assertEqual((set(log), log["version"]), ({"$schema", "version", "runs"}, "2.1.0"))
            rules = {it["id"]: it for it in run["tool"]["driver"]["rules"]}
            self.assertEqual(set(rules), set(FINDING_KINDS))
            self.assertTrue(all(it["shortDescription"]["text"] for it in rules.values()))
            lines = data.decode().split("\n")
            places = {}
            for result in run["results"]:
                self.assertIn(result["level"], ("error", "warning", "note"))
                region = result["locations"][0]["physicalLocation"]["region"]
                places[result["ruleId"]] = lines[region["startLine"] - 1][region["startColumn"] - 1:]
                if result["ruleId"] != "unknown-name":
                    self.assertEqual(result["level"], rules[result["ruleId"]]["defaultConfiguration"]["level"])
            first = next(at for at, line in enumerate(lines) if "reed" in line)
            self.assertEqual(places["unknown-name"], "{")
            self.assertEqual(run["results"][[it["ruleId"] for it in run["results"]].index("unknown-name")]
                             ["locations"][0]["physicalLocation"]["region"]["startLine"], first - 2)
            self.assertEqual(places["high-half"][:1], "{")
        log = json.loads(self.run_lint(b"{}", "--sarif")[1])
        self.assertEqual(log["runs"][0]["invocations"][0]["executionSuccessful"], False)
        self.assertIn("fault profile Missing", json.dumps(log))

    def test_sarif_by_another_reader(self):
        """Go structs of SARIF's schema take all members."""
        folder = "/usr/share/gocode/src/github.com/haya14busa/go-sarif/sarif"
        self.skip_if(not os.path.isdir(folder), "golang-github-haya14busa-go-sarif-dev isn't installed")
        source = """package main
import ("encoding/json"; "os"; "github.com/haya14busa/go-sarif/sarif")
func main() {
	reader := json.NewDecoder(os.Stdin)
	reader.DisallowUnknownFields()
	var log sarif.Sarif
	if err := reader.Decode(&log); err != nil { panic(err) }
}
"""
        self.file("main.go", source.encode())
        env = {**os.environ, "GOPATH": "/usr/share/gocode", "GO111MODULE": "off", "GOCACHE": self.folder}
        out = self.run_lint(self.ODD, "--sarif")[1]
        done = completed(["go", "run", "main.go"], out.encode(), cwd=self.folder, env=env)
        self.assertEqual(done.returncode, 0, done.stderr)
