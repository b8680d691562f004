"""tools/unit-profile: the settings of systemd.exec(5), by stand-ins that print what systemd 252 prints, and by the
filters of a real systemd."""
import ctypes.util
import html
import json
import os
import re
import shutil
import unittest

from support.common import CORE, SCF, TABLE, Case, part, sample, text_of, tool
from support.own_machine import Systemd
from support.several import OPERATORS
from scftools.forms.lists import unit_restrictions
from scfhost import units
from host.test_audit import Audited

ALLOW, ERRNO, KILL, LOG = (f"SCMP_ACT_{name}" for name in ("ALLOW", "ERRNO", "KILL_PROCESS", "LOG"))
OPEN, EPERM, ENOSYS, NO_FAMILY = (ALLOW, None), (ERRNO, 1), (ERRNO, 38), (ERRNO, 97)
# The settings that add filters beside SystemCall* (systemd.exec(5), NoNewPrivileges=).
OTHERS = ("LockPersonality", "MemoryDenyWriteExecute", "PrivateDevices", "ProtectClock", "ProtectHostname",
          "ProtectKernelLogs", "ProtectKernelModules", "ProtectKernelTunables", "RestrictAddressFamilies",
          "RestrictNamespaces", "RestrictRealtime", "RestrictSUIDSGID")
# The flags of namespaces (linux/sched.h).
CGROUP, IPC, NET, MNT, PID, USER, UTS, TIME = (0x2000000, 0x8000000, 0x40000000, 0x20000, 0x20000000, 0x10000000,
                                               0x4000000, 0x80)
# What settings answer, from src/shared/seccomp-util.c of systemd 252.39: each a syscall with its first arguments.
ANSWERS = (
    ("RestrictNamespaces", "yes", {
        EPERM: [("clone", flag | 17) for flag in (CGROUP, IPC, NET, MNT, PID, USER, UTS, TIME)]
        + [("unshare", flag) for flag in (CGROUP, IPC, NET, MNT, PID, USER, UTS, TIME)]
        + [("setns", 3, 0), ("setns", 3, NET), ("unshare", 1 << 40 | NET)],
        ENOSYS: [("clone3",)], OPEN: [("clone", 17), ("clone", 0x3d0f00), ("unshare", 0x400), ("clone", 1 << 63)]}),
    ("RestrictNamespaces", "net user", {
        EPERM: [("clone", NET | MNT), ("clone", TIME), ("unshare", PID), ("setns", 3, 0), ("setns", 3, UTS),
                ("setns", 3, UTS | USER), ("setns", 3, TIME)], ENOSYS: [("clone3",)],
        OPEN: [("clone", NET | USER | 17), ("unshare", NET), ("unshare", 0), ("setns", 3, NET), ("setns", 3, USER),
               ("setns", 3, 1 << 63), ("setns", 3, 1)]}),
    ("RestrictAddressFamilies", "AF_INET AF_INET6 AF_UNIX", {
        NO_FAMILY: [("socket", item) for item in (0, 3, 9, 11, 16, 45, 46, 1 << 32, (1 << 64) - 1)],
        OPEN: [("socket", 1), ("socket", 2), ("socket", 10), ("socketpair", 16)]}),
    ("RestrictAddressFamilies", "~AF_NETLINK AF_PACKET AF_ALG", {
        NO_FAMILY: [("socket", 16), ("socket", 17), ("socket", 38)],
        OPEN: [("socket", item) for item in (0, 1, 15, 18, 37, 39, 46, 1 << 32 | 16)]}),
    ("RestrictAddressFamilies", "~AF_PACKET", {NO_FAMILY: [("socket", 17)], OPEN: [("socket", 16), ("socket", 18)]}),
    ("RestrictAddressFamilies", "", {NO_FAMILY: [("socket", 0), ("socket", 1)]}),
    ("MemoryDenyWriteExecute", "yes", {
        EPERM: [("mmap", 0, 0, 6), ("mmap", 0, 0, 7), ("mprotect", 0, 0, 4), ("pkey_mprotect", 0, 0, 5),
                ("shmat", 0, 0, 0x8000)],
        OPEN: [("mmap", 0, 0, 4), ("mmap", 0, 0, 3), ("mprotect", 0, 0, 3), ("shmat", 0, 0, 0x4000)]}),
    ("RestrictRealtime", "yes", {
        EPERM: [("sched_setscheduler", 0, item) for item in (1, 2, 4, 6, 7, 1 << 32, 0x40000001, (1 << 64) - 1)],
        OPEN: [("sched_setscheduler", 0, number) for number in (0, 3, 5)] + [("sched_setattr", 0, 1)]}),
    ("RestrictSUIDSGID", "yes", {
        EPERM: [("chmod", 0, 0o4755), ("fchmod", 0, 0o2000), ("creat", 0, 0o6000), ("mkdir", 0, 0o2755),
                ("mknod", 0, 0o104000), ("fchmodat", 0, 0, 0o4000), ("fchmodat2", 0, 0, 0o2000),
                ("mkdirat", 0, 0, 0o2000), ("mknodat", 0, 0, 0o4000), ("open", 0, 0o101, 0o4000),
                ("openat", 0, 0, 0o100, 0o2644)], ENOSYS: [("openat2",)],
        OPEN: [("chmod", 0, 0o1777), ("mknod", 0, 0o100644), ("open", 0, 1, 0o4000), ("open", 0, 0o100, 0o1644),
               ("openat", 0, 0, 0, 0o6000), ("mkdirat", 0, 0o4000, 0)]}),
    ("LockPersonality", "yes", {EPERM: [("personality", number) for number in (8, 0x40000, 0xffffffff)],
                                OPEN: [("personality", 0)]}),
    ("ProtectClock", "yes", {EPERM: [("adjtimex",), ("clock_adjtime",), ("clock_adjtime64",), ("clock_settime",),
                                     ("clock_settime64",), ("settimeofday",)], OPEN: [("clock_gettime",)]}),
    ("ProtectHostname", "yes", {EPERM: [("sethostname",), ("setdomainname",)], OPEN: [("uname",)]}),
    ("ProtectKernelModules", "yes", {EPERM: [("init_module",), ("finit_module",), ("delete_module",)]}),
    ("ProtectKernelLogs", "yes", {EPERM: [("syslog",)]}), ("ProtectKernelTunables", "yes", {EPERM: [("_sysctl",)]}),
    ("PrivateDevices", "yes", {EPERM: [("iopl",), ("ioperm",)], OPEN: [("ioctl",)]}))
NATIVE, ALL = ["SCMP_ARCH_X86_64"], ["SCMP_ARCH_X86_64", "SCMP_ARCH_X86", "SCMP_ARCH_X32"]
# What `systemctl show` prints of an error number that isn't set: INT_MAX - 1.
KILLED = "2147483646"
# As `systemd-analyze syscall-filter` prints sets; behind them it tells of calls of the kernel that no set has.
GROUPS = sample("syscall_filter.txt")


class UnitProfile(Case):
    def setUp(self):
        super().setUp()
        self.stand_in("systemd-analyze", f"cat <<'END'\n{GROUPS}END")
        self.env = {**os.environ, "PATH": f"{self.folder}/bin:{os.environ['PATH']}"}

    def stand_in(self, name, script):
        path = self.file(f"bin/{name}", f"#!/bin/sh\nprintf '%s\\n' \"$@\" >>'{self.folder}/{name}.words'\n{script}\n")
        os.chmod(path, 0o755)

    def shows(self, *lines, **members):
        """Has systemctl show these settings of a unit."""
        actual = {"Id": "box.service", "LoadState": "loaded", "NeedDaemonReload": "no", "DropInPaths": "",
                  "FragmentPath": self.unit_file("box.service", ""), "SystemCallFilter": "~",
                  "SystemCallArchitectures": "", "SystemCallErrorNumber": KILLED, "SystemCallLog": "~", **members}
        text = "".join(f"{name}={value}\n" for name, value in actual.items() if value is not None)
        # (in a container of the machine it would ignore its command otherwise)
        self.stand_in("systemctl", f"[ $SYSTEMD_IGNORE_CHROOT = 1 ] || exit 0\ncat <<'END'\n{text}END")

    def unit_file(self, name, text):
        return self.file(f"units/{name}", text)

    def printed(self, *words):
        """The profile by these words, with its calls by their answers, and what is said."""
        status, out, err = self.run_tool("unit-profile", *words, env=self.env)
        self.assertEqual(status, 0, err)
        value = json.loads(out)
        calls = {(entry["action"], entry.get("errnoRet")): set(entry["names"]) for entry in value["syscalls"]}
        self.assertEqual(len(calls), len(value["syscalls"]))
        return (value["defaultAction"], value.get("defaultErrnoRet")), calls, value["architectures"], err

    def of_unit(self, **members):
        self.shows(**members)
        return self.printed("box.service")

    def refused(self, status, says, *words):
        actual, out, err = self.run_tool("unit-profile", *words, env=self.env)
        self.assertEqual((actual, out), (status, ""), err)
        self.assertRegex(err, r"unit-profile: [^\n\x1b]*\n\Z")
        self.assertIn(says, err)

    def test_usage(self):
        for words in (("a.service", "--errno", "1"), ("a.service", "--architectures", "x86"), ("a*",), ("",),
                      ("--arch", "i386", "--set", "read"), ("--arch", "mips", "a.service"),
                      ("a.service", "--log", "read"), ("a.service", "b.service"), ("--errno", "EPERM")):
            self.refused(2, "unit-profile: ", *words)

    def test_what_systemd_is_asked(self):
        self.of_unit(SystemCallFilter="read")
        asked = text_of(self.folder, "systemctl.words").split("\n")[:-1]
        self.assertEqual(asked[-3:], ["--no-pager", "show", "--property=Version"])
        asked = asked[:-3]
        self.assertEqual((asked[:2], asked[-2:]), (["--no-pager", "show"], ["--", "box.service"]))
        self.assertEqual(sorted(asked[2:-2]), sorted(f"--property={name}" for name in (
            "DropInPaths", "FragmentPath", "Id", "LoadState", "MainPID", "NeedDaemonReload", "Personality",
            "SystemCallArchitectures", "SystemCallErrorNumber", "SystemCallFilter", "SystemCallLog", *OTHERS)))
        self.assertFalse(os.path.exists(os.path.join(self.folder, "systemd-analyze.words")))

    def test_lists(self):
        """What a unit allows, what it denies, and none."""
        denies = "~add_key:4094 keyctl:0 mount ptrace:E2BIG reboot:EACCES swapon:kill"
        says = "unit-profile: there is no SystemCallFilter: every syscall is allowed\n"
        for calls, number, default, answers, said in (
                *(("_llseek read write", number, default, {OPEN: {"_llseek", "read", "write"}}, "")
                  for number, default in ((KILLED, (KILL, None)), ("0", (KILL, None)), ("1", EPERM),
                                          ("4095", (ERRNO, 4095)))),
                (denies, "7", OPEN, {(ERRNO, 4094): {"add_key"}, (ERRNO, 0): {"keyctl"}, (ERRNO, 13): {"reboot"},
                                     (ERRNO, 7): {"mount", "ptrace"}, (KILL, None): {"swapon"}}, ""),
                ("~mount swapon:EPERM", KILLED, OPEN, {(KILL, None): {"mount"}, EPERM: {"swapon"}}, ""),
                ("~", KILLED, OPEN, {}, says), ("~", "1", OPEN, {}, says), ("", KILLED, (KILL, None), {}, "")):
            self.assertEqual(self.of_unit(SystemCallFilter=calls, SystemCallErrorNumber=number),
                             (default, answers, ALL, said), calls)

    def denied(self, *texts, **members):
        """What a unit denies by an errno of their own whose file and drop-ins have these texts."""
        paths = [self.unit_file(f"{at} unit.conf", text) for at, text in enumerate(texts)]
        status, calls, _, err = self.of_unit(**{"SystemCallFilter": "read write", "FragmentPath": paths[0],
                                                "DropInPaths": " ".join(f'"{path}"' for path in paths[1:]), **members})
        self.assertEqual(status, (KILL, None))
        self.assertEqual(calls.pop((ALLOW, None)), {"read", "write"})
        return calls, err

    def test_what_an_allowing_unit_denies_by_an_errno(self):
        """systemctl show leaves that out; files and drop-ins by systemd.syntax(7)."""
        actual = {(ERRNO, 22): {"clone3"}}
        for texts in (("[Service]\nSystemCallFilter=read write\nSystemCallFilter=~clone3:EINVAL\n",),
                      ("[Service]\nSystemCallFilter=@inner\n", "[Service]\nSystemCallFilter = ~clone3:EINVAL \n"),
                      ("[Service]\nSystemCallFilter=@inner mount\n[Unit]\nSystemCallFilter=~mount:E2BIG\n"
                       "[Service]\n#SystemCallFilter=~mount:E2BIG\n ; SystemCallFilter=\n"
                       "SystemCallFilter=~\\\n# a comment\n "
                       " clone3:EINVAL\\\n mount\n",),
                      ("[Service]\nSystemCallFilter=mount\nSystemCallFilter=~mount:E2BIG\n",
                       "[Service]\nSystemCallFilter=\nSystemCallFilter=@inner\nSystemCallFilter=~clone3:22\n"),
                      ("[Service]\nSystemCallFilter=@inner\nSystemCallFilter=~clone3:EINVAL mount:E2BIG read:1\n",
                       "[Service]\nSystemCallFilter=mount read\nSystemCallFilter=~mount\n")):
            self.assertEqual(self.denied(*texts), (actual, ""), texts)
        self.assertEqual(self.denied("[Service]\nSystemCallFilter=@inner\nSystemCallFilter=~mount:08 clone3:22\n"),
                         (actual, "unit-profile: mount:08 left out: '08' isn't an errno\n"))
        self.assertEqual(self.denied("[Service]\nSystemCallFilter=@inner\n[Socket]\nSystemCallFilter=~clone3:22\n"),
                         ({}, ""))

    def test_what_can_not_be_known_of_a_unit(self):
        changed = "its files changed since systemd read them"
        for members, says in (({"NeedDaemonReload": "yes"}, changed), ({"NeedDaemonReload": None}, changed),
                              ({"FragmentPath": "/none/box.service"}, "'/none/box.service' can't be read: No"),
                              ({"FragmentPath": ""}, "'' can't be read"), ({"DropInPaths": '"'}, "No closing"),
                              ({"FragmentPath": self.unit_file("u", "[Service]\nSystemCallFilter=mount\n"
                                                               "SystemCallFilter=~clone3:EINVAL")},
                                                               "the list in its files differs"),
                              ({"FragmentPath": self.unit_file("v", "[Service]\nSystemCallFilter=~clone3:EINVAL")},
                               "the list in its files differs")):
            self.shows(SystemCallFilter="read", **members)
            self.refused(4, "systemctl show doesn't print which syscalls the allow-list denies with an errno of their",
                         "box.service")
            self.refused(4, says, "box.service")
            # a list of denied calls is shown whole
            self.shows(SystemCallFilter="~read", **members)
            self.assertEqual(self.printed("box.service")[0], (ALLOW, None))

    def test_numbers_of_errnos(self):
        """As strtol(3) reads them with base 0, and safe_atoi of systemd 252, which knows 0b and 0o, too."""
        for text, number in (("010", 8), ("0x10", 16), ("0b11", 3), ("0o17", 15), ("00", 0), ("+7", 7), ("-0", 0),
                             ("EHWPOISON", 133), ("EWOULDBLOCK", 11), ("ENOTSUP", 95)):
            self.assertEqual(self.printed("--set", f"~read:{text}")[1], {(ERRNO, number): {"read"}}, text)
        self.assertEqual(self.printed("--set", "~read", "--errno", "010")[1], {(ERRNO, 8): {"read"}})
        for text in ("08", "0x", "1_0", "0b2", "-1", "4096", "EHWPOISON1", "\u0663", "", "ENOTHING", "errorcode"):
            self.refused(2, f"'{text}' isn't an errno", "--set", f"~read:{text}")
        self.refused(2, "isn't an errno", "--set", f"~read:{'9' * 5000}")

    @unittest.skipUnless(ctypes.util.find_library("seccomp"), "there is no libseccomp here")
    def test_names_that_libseccomp_does_not_know(self):
        says = "unit-profile: left out, as by systemd, since libseccomp doesn't know them: no_such_call\n"
        self.assertEqual(self.printed("--set", "~no_such_call mount _llseek")[1::2], ({(KILL, None): {
            "mount", "_llseek"}}, says))
        self.assertEqual(self.printed("--set", "no_such_call read")[1::2], (
            {(ALLOW, None): {"brk", "exit_group", "read"}}, says))
        many = self.printed("--set", "~" + " ".join(f"no_such_{at}" for at in range(30)))[3]
        self.assertIn("no_such_19 and 10 more\n", many)
        # what Debian's resolver says of a name; it asks the library itself
        if shutil.which("scmp_sys_resolver"):
            for name in ("mseal", "listmount", "fchmodat2", "cachestat", "clone3"):
                is_known = self.run_words(["scmp_sys_resolver", name])[1].strip() != "-1"
                self.assertEqual(bool(self.printed("--set", f"~{name}")[1]), is_known, name)

    def test_architectures(self):
        for shown, expected in (("", ALL), ("native", NATIVE), ("x86-64", NATIVE), ("x32 x86", [*NATIVE, ALL[2],
                                ALL[1]]), ("arm64", [*NATIVE, "SCMP_ARCH_AARCH64"]),
                                ("native mips64-le-n32", [*NATIVE, "SCMP_ARCH_MIPSEL64N32"])):
            self.assertEqual(self.of_unit(SystemCallArchitectures=shown)[2], expected)

    def test_what_is_logged(self):
        """A call that is made is logged where the list says so; one that is denied stays denied."""
        for calls, log, expected in (
                ("read openat", "openat mount", ((KILL, None), {(ALLOW, None): {"read"}, (LOG, None): {"openat"}})),
                ("read openat", "~read mount", ((KILL, None), {(ALLOW, None): {"read"}, (LOG, None): {"openat"}})),
                ("~mount:EPERM", "openat mount", ((ALLOW, None), {(LOG, None): {"openat"}, (ERRNO, 1): {"mount"}})),
                ("~mount", "~read mount", ((LOG, None), {(ALLOW, None): {"read"}, (KILL, None): {"mount"}})),
                ("~", "read", ((ALLOW, None), {(LOG, None): {"read"}}))):
            self.assertEqual(self.of_unit(SystemCallFilter=calls, SystemCallLog=log)[:2], expected, (calls, log))

    def test_assignments(self):
        """The first says of which kind the list is, and later ones add to it or take away."""
        implied = {"brk", "exit_group"}
        for lists, default, calls in (
                (["mount read"], KILL, {(ALLOW, None): implied | {"mount", "read"}}),
                (["@outer", "~write brk"], KILL, {(ALLOW, None): {"exit_group", "read", "openat"}}),
                (["~@outer"], ALLOW, {(KILL, None): {"read", "write", "openat"}}),
                (["~@outer", "write mount"], ALLOW, {(KILL, None): {"read", "openat"}}),
                (["~mount @inner:EACCES", "~mount:1"], ALLOW, {(ERRNO, 13): {"read", "write"}, (ERRNO, 1): {"mount"}}),
                (["read", "~@inner:EACCES mount:ENOENT"], KILL, {
                    (ALLOW, None): implied, (ERRNO, 13): {"read", "write"}, (ERRNO, 2): {"mount"}}),
                (["read", "", "~mount"], ALLOW, {(KILL, None): {"mount"}}),
                (["~read:kill", "~"], ALLOW, {(KILL, None): {"read"}})):
            self.assertEqual(self.printed("--set", *lists), ((default, None), calls, ALL, ""), lists)
        # what systemd ignores
        for words, says in (("read @none", "@none left out: systemd knows no such group"),
                            ("read mount:EPERM", "mount:EPERM left out: a syscall that is allowed takes no errno")):
            self.assertEqual(self.printed("--set", words), ((KILL, None), {(ALLOW, None): implied | {"read"}}, ALL,
                                                            f"unit-profile: {says}\n"))
        for lists in ([""], ["read", ""], ["~"]):
            self.assertEqual(self.printed("--set", *lists)[:2], ((ALLOW, None), {}))
        self.assertEqual(self.printed("--set", "read", "--errno", "EPERM", "--architectures", "native x86", "--log",
                                      "brk", "~mount"),
                         ((ERRNO, 1), {(ALLOW, None): {"exit_group", "read"}, (LOG, None): {"brk"}}, ALL[:2], ""))

    def answered(self, *words):
        """The profile by these words, as a function of a syscall and its arguments, and what is said."""
        status, out, err = self.run_tool("unit-profile", *words, env=self.env)
        self.assertEqual(status, 0, err)
        profile = json.loads(out)

        def answer(name, *arguments):
            values = [*arguments, *[0] * 6]
            answers = {(entry["action"], entry.get("errnoRet")) for entry in profile["syscalls"]
                       if name in entry["names"] and all(
                           OPERATORS[condition["op"].removeprefix("SCMP_CMP_")](
                               values[condition["index"]], condition["value"], condition["valueTwo"])
                           for condition in entry.get("args", ()))}
            self.assertLessEqual(len(answers), 1, (name, arguments))
            return next(iter(answers), (profile["defaultAction"], profile.get("defaultErrnoRet")))

        return answer, profile["architectures"], err

    def with_setting(self, name, text, **members):
        """Has systemctl show a setting; the version is asked for only then."""
        self.shows(**{name: text, "Version": "252.39-1~deb12u2", **members})

    def test_other_settings(self):
        """Each by itself, and beside lists of what is allowed: what these deny they answer."""
        for name, text, answers in ANSWERS:
            every = sorted({call[0] for calls in answers.values() for call in calls})
            first = every[0]
            for calls, number, others, unless_denied in (
                    ("~", KILLED, OPEN, None), (f"~{first}:E2BIG", KILLED, OPEN, (ERRNO, 7)),
                    (" ".join(every), "1", EPERM, None), (" ".join(every), KILLED, (KILL, None), None),
                    (" ".join(every[1:]) or "read", "13", (ERRNO, 13), (ERRNO, 13))):
                self.with_setting(name, text, SystemCallFilter=calls, SystemCallErrorNumber=number)
                answer, _, err = self.answered("box.service")
                self.assertNotIn("252", err)
                for expected, given in answers.items():
                    for call in given:
                        shown = unless_denied if unless_denied is not None and call[0] == first else expected
                        self.assertEqual(answer(*call), shown, (name, text, calls, call))
                self.assertEqual(answer("getpid"), others)
        self.with_setting("ProtectHostname", "yes", SystemCallLog="sethostname uname")
        answer = self.answered("box.service")[0]
        self.assertEqual([answer(name) for name in ("sethostname", "uname", "read")], [EPERM, (LOG, None), OPEN])

    def test_whether_there_are_filters(self):
        """SystemCallArchitectures= adds one only if it leaves out an architecture of the kernel."""
        others = [({name: text}, True) for name, text, _ in ANSWERS]
        are_off = {**dict.fromkeys(OTHERS, "no"), "RestrictAddressFamilies": "~", "Personality": "x86"}
        for members, expected in (({}, False), (are_off, False), ({"SystemCallArchitectures": "x86 x32"}, False),
                                  ({"SystemCallArchitectures": "native"}, True), ({"SystemCallFilter": "read"}, True),
                                  ({"SystemCallLog": "read"}, True), *others):
            shown = {"SystemCallFilter": "~", "NeedDaemonReload": "no", "FragmentPath": self.unit_file("u", ""),
                     **members}
            settings = units.settings_in(shown, "box.service", units.ListReader(dict, self.fail))
            self.assertEqual(settings.have_filters, expected, members)

    def test_personality(self):
        """PER_LINUX and PER_LINUX32 (linux/personality.h); what others are called isn't x86-64's."""
        for text, number in (("", 0), ("x86-64", 0), ("x86", 8)):
            self.with_setting("LockPersonality", "yes", Personality=text)
            answer = self.answered("box.service")[0]
            self.assertEqual([number for number in range(64) if answer("personality", number) == OPEN], [number])

    def test_what_differs_on_i386(self):
        """There socketcall(2) can't be looked at, mmap(2) is denied as a whole, and mmap2 as mmap elsewhere."""
        for name, text, on_i386 in (
                ("RestrictAddressFamilies", "AF_UNIX", {OPEN: [("socket", 2), ("socketcall", 1)]}),
                ("MemoryDenyWriteExecute", "yes", {
                    EPERM: [("mmap",), ("mmap2", 0, 0, 6), ("mprotect", 0, 0, 4), ("pkey_mprotect", 0, 0, 4)],
                    OPEN: [("mmap2", 0, 0, 5), ("shmat", 0, 0, 0x8000)]})):
            self.with_setting(name, text)
            _, listed, err = self.answered("box.service")
            self.assertEqual(listed, [ALL[0], ALL[2]])
            self.assertIn("only for x86-64 and x32: the unit denies other syscalls on i386 (--arch i386)", err)
            answer, listed, err = self.answered("--arch", "i386", "box.service")
            self.assertEqual(listed, ALL[1:2])
            self.assertIn("on x86-64 and x32 (--arch x86-64)", err)
            for expected, calls in on_i386.items():
                self.assertEqual({answer(*call) for call in calls}, {expected}, name)
            self.assertEqual(self.answered("--arch", "x32", "box.service")[1], [ALL[0], ALL[2]])
            # where its syscalls aren't permitted
            self.with_setting(name, text, SystemCallArchitectures="native")
            self.assertEqual(self.answered("box.service")[1], NATIVE)
            self.refused(2, "the unit permits no i386 syscalls", "--arch", "i386", "box.service")
        self.with_setting("RestrictNamespaces", "yes")
        self.assertEqual(self.answered("--arch", "i386", "box.service")[1], ALL)

    def test_what_socketcall_and_ipc_make(self):
        """On i386 a rule of socket is also one of socketcall with SYS_SOCKET, 1 (linux/net.h), and that of shmat one
        of ipc with SHMAT, 21 (linux/ipc.h), unless the list has socketcall or ipc itself."""
        killed, logged = (KILL, None), (LOG, None)
        for calls, log, answers in (
                ("~socket shmat:E2BIG", "~", {("socketcall", 1): killed, ("socketcall", 2): OPEN, ("socket",): killed,
                                              ("ipc", 21): (ERRNO, 7), ("ipc", 22): OPEN, ("socketcall", 0): OPEN}),
                ("bind socket", "~", {("socketcall", 1): OPEN, ("socketcall", 2): OPEN, ("socketcall", 3): killed}),
                ("socket socketcall", "~", {("socketcall", 1): OPEN, ("socketcall", 3): OPEN}),
                ("~socket socketcall:E2BIG", "~", {("socketcall", 1): (ERRNO, 7), ("socketcall", 2): (ERRNO, 7)}),
                ("~", "socket", {("socketcall", 1): logged, ("socketcall", 2): OPEN}),
                ("~", "~socket", {("socketcall", 1): OPEN, ("socketcall", 2): logged, ("socketcall", 0): logged}),
                ("socketcall", "socket", {("socketcall", 1): logged, ("socketcall", 2): OPEN}),
                ("~socket", "socketcall", {("socketcall", 1): killed, ("socketcall", 2): logged})):
            self.shows(SystemCallFilter=calls, SystemCallLog=log)
            answer = self.answered("box.service")[0]
            self.assertEqual({item: answer(*item) for item in answers}, answers, (calls, log))
        self.shows(SystemCallFilter="~socket", SystemCallArchitectures="native")
        self.assertEqual(self.printed("box.service")[1], {killed: {"socket"}})

    def test_a_systemd_of_another_version(self):
        says = "the rules of RestrictNamespaces=, ProtectClock= are known of systemd 252.39 and 257.13, and this is "
        for version, shown in (("252.38-1~deb12u1", "systemd 252.38-1~deb12u1"), ("257.9-1", "systemd 257.9-1"),
                               ("252", "systemd 252"), ("252-46.el9", "systemd 252-46.el9"),
                               ("2520.39", "systemd 2520.39"), (None, "a systemd of unknown version")):
            self.with_setting("RestrictNamespaces", "yes", ProtectClock="yes", Version=version)
            self.assertIn(f"unit-profile: {says}{shown}\n", self.answered("box.service")[2])
        for version in ("252.39-1~deb12u2", "252.40", "252.100", "257.13-1~deb13u1"):
            self.with_setting("RestrictNamespaces", "yes", Version=version)
            self.assertNotIn("are known of", self.answered("box.service")[2])

    def test_what_the_kernel_does_without_a_filter(self):
        """From 254 on MemoryDenyWriteExecute= takes PR_SET_MDWE where the kernel has it (NEWS of systemd 254)."""
        without = ctypes.CDLL(None).prctl(66, 0, 0, 0, 0) >= 0
        for version, is_newer in (("252.39-1~deb12u2", False), ("253.15", False), ("254.26-1~bpo12+1", True),
                                  ("254~rc1", True), ("257.13-1~deb13u1", True), ("", False)):
            self.with_setting("MemoryDenyWriteExecute", "yes", Version=version)
            answer, listed, err = self.answered("box.service")
            if is_newer and without:
                self.assertEqual((answer("mprotect", 0, 0, 4), listed), (OPEN, ALL))
                self.assertIn("MemoryDenyWriteExecute= is applied by prctl(2), and has no filter", err)
            else:
                self.assertEqual((answer("mprotect", 0, 0, 4), listed), (EPERM, [ALL[0], ALL[2]]))

    @unittest.skipUnless(ctypes.util.find_library("seccomp"), "there is no libseccomp here")
    def test_what_newer_versions_do_not_know(self):
        """257.13 allows write(2), and denies by ENOSYS what @known doesn't have by itself, or only i386 has
        (override_default_action of its seccomp-util.c)."""
        groups = f"{GROUPS}\n@known\n    @inner\n    brk\n    mount\n    read\n    socket\n    write\n    _llseek\n"
        self.stand_in("systemd-analyze", f"cat <<'END'\n{groups}END")
        for number, denied in ((KILLED, (KILL, None)), ("1", EPERM)):
            self.shows(SystemCallFilter="brk openat", SystemCallErrorNumber=number, Version="257.13-1~deb13u1")
            answer = self.answered("box.service")[0]
            calls = {"brk": OPEN, "openat": OPEN, "write": OPEN, "mount": denied, "read": denied, "chroot": ENOSYS,
                     "_llseek": ENOSYS, "ipc": ENOSYS, "no_such_call": ENOSYS}
            self.assertEqual({call: answer(call) for call in calls}, calls)
            self.assertEqual([answer("socketcall", number) for number in (0, 1, 2)], [ENOSYS, denied, ENOSYS])
        self.shows(SystemCallFilter="~mount write", Version="257.13-1~deb13u1")
        self.assertEqual(self.printed("box.service")[:2], (OPEN, {(KILL, None): {"mount"}}))
        self.shows(SystemCallFilter="brk", Version="252.39-1~deb12u2")
        self.assertEqual(self.printed("box.service")[:2], ((KILL, None), {OPEN: {"brk"}}))

    def test_settings_that_are_not_known(self):
        for name, text, says in (("RestrictNamespaces", "net none", "'net none' aren't namespaces"),
                                 ("RestrictAddressFamilies", "AF_NONE", "'AF_NONE' aren't address families"),
                                 ("RestrictAddressFamilies", "~PROT_READ", "'~PROT_READ' aren't address families"),
                                 ("ProtectHostname", "private", "ProtectHostname=private isn't yes or no")):
            self.with_setting(name, text)
            self.refused(2, says, "box.service")
        self.with_setting("LockPersonality", "yes", Personality="s390x \x1b[2J")
        self.refused(2, "'s390x \\x1b[2J' isn't a personality of x86-64", "box.service")

    def test_what_is_refused(self):
        for words, says in ((("--set", "read", "--errno=-1"), "'-1' isn't an errno"),
                            (("--set", "read", "--architectures", "x86 \x1b[2J"), "'\\x1b[2J' isn't an architecture"),
                            (("--set", "@round"), "the group @round is nested too deep")):
            self.refused(2, says, *words)

    def test_units_that_are_not_there(self):
        self.shows(LoadState="not-found")
        self.refused(2, "the unit box isn't loaded: not-found", "box")
        self.shows(SystemCallFilter=None)
        self.refused(2, "the unit box.target runs no processes of its own", "box.target")
        self.stand_in("systemctl", "echo 'Failed to \033[2Jconnect to bus' >&2; exit 1")
        self.refused(2, "systemctl ended with status 1: Failed to \\x1b[2Jconnect to bus", "box")
        self.stand_in("systemctl", "yes LoadState=loaded | head -c 2000000")
        self.refused(2, "printed more than", "box")
        self.env["PATH"] = f"{self.folder}/none"
        path = self.run_words(["/usr/bin/python3", "-IS", "-c", "1"])[0]
        if path == 0:
            done = self.run_words(["/usr/bin/python3", "-IS", os.path.join(os.path.dirname(SCF), "tools",
                                                                        "unit-profile"), "box"], env=self.env)
            self.assertEqual(done, (2, "", "unit-profile: systemctl can't be run: No such file or directory\n"))

    @unittest.skipUnless(shutil.which("systemd-analyze"), "there is no systemd-analyze here")
    def test_the_groups_of_a_real_systemd(self):
        """What systemd.exec(5) says of some groups; @known has all of the others."""
        self.env = dict(os.environ)
        default, calls, _, err = self.printed("--set", "~@mount @reboot:EPERM @no-such-group")
        self.assertEqual((default, err), ((ALLOW, None),
                                          "unit-profile: @no-such-group left out: systemd knows no such group\n"))
        self.assertLessEqual({"mount", "umount2", "chroot", "pivot_root"}, calls[KILL, None])
        self.assertLessEqual({"reboot", "kexec_load"}, calls[ERRNO, 1])
        known_calls = self.printed("--set", "@known")[1][ALLOW, None]
        service = self.printed("--set", "@system-service")[1][ALLOW, None]
        self.assertLess(service, known_calls)
        self.assertLessEqual({"read", "openat", "execve", "exit_group", "nanosleep"}, service)
        self.assertFalse({"mount", "reboot", "swapon", "ptrace", "settimeofday"} & service)

    def test_hostile_names(self):
        """They stay what they are in JSON, and forge nothing."""
        self.shows(SystemCallFilter='read"],"action" \x1b[2J')
        _, out, _ = self.run_tool("unit-profile", "box", env=self.env)
        self.assertNotIn("\x1b", out)
        self.assertEqual(json.loads(out)["syscalls"], [{"names": ['read"],"action"', "\x1b[2J"], "action": ALLOW}])

    def test_scf_loads_what_it_prints(self):
        self.shows(SystemCallFilter="~mount swapon:EPERM nosuchcall", SystemCallLog="read",
                   SystemCallArchitectures="native")
        out = self.run_tool("unit-profile", "box", env=self.env)[1]
        bundle = part("profile", out.encode()) + part("table", text_of(TABLE).encode())
        for name, number, line in (("mount", 165, "KILL_PROCESS 0 entry 0"), ("swapon", 167, "ERRNO 1 entry 1"),
                                   ("read", 0, "LOG 0 entry 2"), ("write", 1, "ALLOW 0 default")):
            self.assertEqual(self.run_words([*CORE, "ask", "--nr", str(number)], bundle)[1].split("\n")[0], line, name)


UNIT = """[Unit]
DefaultDependencies=no
[Service]
Type=exec
ExecStart=/bin/sleep 300
{}
"""
ALLOWING = UNIT.format("""SystemCallFilter=@system-service
SystemCallFilter=~clone3:EINVAL chmod:010 fchmod:EHWPOISON mseal:EPERM chown:08 lchown:+7 %n:ENOENT
SystemCallErrorNumber=EACCES""")
DROP_IN = """[Service]
SystemCallFilter=~mkdir:0x10 \\
# a comment
 rmdir:0b11
"""
DENYING = UNIT.format("""SystemCallFilter=~mseal listmount mount:0 swapoff:E2BIG reboot:0o17 syncfs:kill swapon
SystemCallErrorNumber=010
SystemCallArchitectures=native""")
# Units with each of the other settings, with parts of lists, and with all together.
EVERY = "\n".join(f"{name}={'AF_UNIX AF_INET' if name == 'RestrictAddressFamilies' else 'yes'}" for name in OTHERS)
SETTINGS = {**{name: f"{name}=yes" for name in OTHERS if name != "RestrictAddressFamilies"},
            "families": "RestrictAddressFamilies=AF_UNIX AF_INET AF_INET6",
            "but-families": "RestrictAddressFamilies=~AF_PACKET AF_NETLINK",
            "no-family": "RestrictAddressFamilies=none",
            "namespaces": "RestrictNamespaces=net user", "but-namespaces": "RestrictNamespaces=~user mnt",
            "personality": "LockPersonality=yes\nPersonality=x86", "dynamic": "DynamicUser=yes",
            "native": f"{EVERY}\nSystemCallArchitectures=native\nSystemCallFilter=@system-service\n"
                      "SystemCallErrorNumber=EPERM",
            "allow": f"{EVERY}\nSystemCallFilter=@system-service @clock\nSystemCallFilter=~clone3:EINVAL",
            "deny": f"{EVERY}\nSystemCallFilter=~@mount setns:E2BIG unshare shmat:kill socket:E2BIG\n"
                    "SystemCallLog=sethostname uname"}
NAMES = {f"scf-{name}.service": text for name, text in SETTINGS.items()}
# The same settings, and a command that none of them is applied to.
AS_ROOT = "ExecStart=\nExecStart=+/bin/sleep 300"
FREE = {f"scf-free-{name}.service": f"{SETTINGS.get(name, SETTINGS['families'])}\n{AS_ROOT}" for name in OTHERS}
# As systemctl, but of another version.
ANOTHER = """#!/bin/sh
/usr/bin/systemctl "$@" | sed 's/^Version=.*/Version=253.15/'
"""


class OwnUnits(Systemd):
    """Units of a real systemd."""

    def start(self, *names):
        """Starts units, until each has its process."""
        self.assertEqual(self.on("systemctl", "start", *names)[0], 0)

    def pid_of(self, unit):
        """The unit's process, seen from outside."""
        return text_of(self.cgroup, "system.slice", unit, "cgroup.procs").strip()


class RealSystemd(OwnUnits):
    """The filters of a real systemd's units are what unit-profile says."""

    UNITS = {"scf-allow.service": ALLOWING, "scf-allow.service.d/a.conf": DROP_IN, "scf-deny.service": DENYING}

    def test_units(self):
        for unit in ("scf-allow.service", "scf-deny.service"):
            self.start(unit)
            out = self.of_status(0, self.on(tool("unit-profile"), unit))
            profile = self.file("profile.json", out)
            actual = self.run_tool("verify-process", self.pid_of(unit), profile)
            self.assertEqual((actual[0], actual[1].split("\n")[0]), (0, "same"), actual)
        # what --set states is what the unit states
        lists = re.findall("SystemCallFilter=(.*)", DENYING)
        out = self.run_tool("unit-profile", "--set", *lists, "--errno", "010", "--architectures", "native")[1]
        actual = self.run_tool("verify-process", self.pid_of("scf-deny.service"), self.file("set.json", out))
        self.assertEqual((actual[0], actual[1].split("\n")[0]), (0, "same"), actual)
        # a file that changed isn't what systemd has read
        self.file("units/scf-allow.service", ALLOWING + "#\n")
        os.utime(f"{self.folder}/units/scf-allow.service", (2000000000, 2000000000))
        status, out, err = self.on(tool("unit-profile"), "scf-allow.service")
        self.assertEqual((status, out), (4, ""))
        self.assertIn("run systemctl daemon-reload", err)


class OtherSettings(Audited, OwnUnits):
    """The filters that a real systemd adds for other settings than SystemCall*."""

    UNITS = {unit: UNIT.format(text) for unit, text in {**NAMES, **FREE}.items()}

    def setUp(self):
        super().setUp()
        version = self.on("systemctl", "show", "--property=Version", "--value")[1].strip()
        self.skip_if(not unit_restrictions.is_modelled(version), f"what systemd {version} denies isn't known")

    def test_profiles(self):
        """On each architecture that a unit permits, the process answers as the profile says."""
        self.start(*NAMES)
        for unit in NAMES:
            process, profiles = self.pid_of(unit), {}
            for name in ("x86-64", "i386", "x32"):
                status, out, err = self.on(tool("unit-profile"), "--arch", name, unit)
                if unit == "scf-native.service" and name != "x86-64":
                    self.assertEqual((status, out), (2, ""), err)
                    continue
                self.assertEqual(status, 0, err)
                profiles.setdefault(out, self.file(f"{name}.json", out))
            for path in profiles.values():
                others = [f"--also={other}" for other in profiles.values() if other != path]
                actual = self.run_tool("verify-process", *others, process, path)
                self.assertEqual((actual[0], actual[1].split("\n")[0]), (0, "same"), (unit, path, actual))

    def change(self, texts):
        """Changes what units state after their start."""
        for name, text in texts.items():
            self.file(f"units/scf-{name}.service", UNIT.format(text))
        self.assertEqual(self.on("systemctl", "daemon-reload")[0], 0)

    def verdicts(self, *words, **settings):
        rows = self.rows(*words, **settings)
        return {name: row["verdict"] for (kind, name), row in rows.items() if kind == "unit"}

    def test_audit(self):
        self.start(*NAMES, *FREE)
        self.assertEqual(self.verdicts(status=1), {**dict.fromkeys(NAMES, "as configured"),
                                                   **dict.fromkeys(FREE, "unconfined though configured")})
        self.assertEqual({self.verdicts("--native")[item] for item in NAMES}, {"as configured"})
        # what is stated is changed: a setting is missing, or less of it is there; one is more; one answers otherwise
        changes = {"ProtectClock": ("ProtectClock=yes\nPrivateDevices=yes", "weaker", "ioperm"),
                   "namespaces": ("RestrictNamespaces=net", "weaker", "clone"),
                   "LockPersonality": ("SystemCallFilter=~mount", "weaker", "mount"),
                   "MemoryDenyWriteExecute": ("MemoryDenyWriteExecute=yes\nSystemCallFilter=~mmap2:EPERM", "weaker",
                                              "mmap2"),
                   "families": ("RestrictAddressFamilies=AF_UNIX", "weaker", "socket"),
                   "RestrictSUIDSGID": ("SystemCallArchitectures=native\nRestrictSUIDSGID=yes", "weaker", None),
                   "native": ("SystemCallArchitectures=native\nProtectClock=yes", "stricter", None),
                   "ProtectHostname": ("SystemCallFilter=~sethostname:E2BIG setdomainname:EPERM", "otherwise", None)}
        self.change({name: text for name, (text, _, _) in changes.items()})
        rows = self.rows(status=1)
        for name, (_, verdict, call) in changes.items():
            row = rows["unit", f"scf-{name}.service"]
            self.assertEqual(row["verdict"], verdict, name)
            if call is not None:
                self.assertIn(call, row["parts"][0]["call"]["names"])
        # the page has the command that shows it
        page = f"{self.folder}/page.html"
        self.assertEqual(self.on(tool("audit"), "--html", page)[0], 1)
        text = html.unescape(text_of(page))
        for words in ("scf-LockPersonality.service", "--arch i386 scf-MemoryDenyWriteExecute.service"):
            self.assertIn(f"scf unit-profile {words} >unit.json", text)

    def test_another_version(self):
        """Whether what differs from what a version denies is wrong in another isn't known."""
        expected = {"scf-ProtectClock.service": "not known", "scf-ProtectHostname.service": "as configured",
                    "scf-free-ProtectClock.service": "unconfined though configured"}
        self.start(*expected)
        self.change({"ProtectClock": "ProtectClock=yes\nPrivateDevices=yes"})
        os.chmod(self.file("bin/systemctl", ANOTHER), 0o755)
        rows = self.rows(status=1, PATH=f"{self.folder}/bin:/usr/bin:/bin")
        self.assertEqual({name: rows["unit", name]["verdict"] for name in expected}, expected)
        (part,) = rows["unit", "scf-ProtectClock.service"]["parts"]
        self.assertEqual(part["why"], "it is weaker, but the rules of ProtectClock=, PrivateDevices= are known of "
                                      "systemd 252.39 and 257.13, and this is systemd 253.15")
