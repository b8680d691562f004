"""Lists of other sandboxes as profiles: LXC's policies, snaps' templates, firejail's profiles; and the filters that
these programs load for them."""
import json
import os
import shutil
import signal
import subprocess
import unittest
from unittest import mock

from support.common import ALLOW, EPERM, Case, bytes_of, completed, jeq, load, ret, text_of

from scftools.model import profiles
from scftools.forms import strace_reader
from scftools.forms.lists import firejail, lxc, sandbox_rules
from scftools.forms.profile_inputs import sandbox_of

NATIVE, I386, X32 = "SCMP_ARCH_X86_64", "SCMP_ARCH_X86", "SCMP_ARCH_X32"
SNAP_SECCOMP = shutil.which("snap-seccomp", path=f"/usr/lib/snapd:{os.environ.get('PATH', '')}")
HAS_STRACE, IS_ROOT = shutil.which("strace") is not None, os.getuid() == 0
SNAP = "# snap-seccomp version information:\n# abc 2.5.4 def bpf-actlog\n"
# What an LXC container needs here: its folders, and the machine's programs.
LXC = """lxc.net.0.type = none
lxc.rootfs.path = dir:{0}/root
lxc.mount.entry = /usr usr none bind,ro 0 0
lxc.mount.auto = proc:mixed
lxc.uts.name = scf
lxc.pty.max = 1
lxc.seccomp.profile = {0}/policy
lxc.init.cmd = /usr/bin/true
"""


def entry(names, action, lines, errno=None, *args):
    made = {"names": names.split(), "action": f"SCMP_ACT_{action}"}
    if errno is not None:
        made["errnoRet"] = errno
    if args:
        made["args"] = [{"index": index, "value": value, "valueTwo": two, "op": f"SCMP_CMP_{op}"}
                        for index, op, value, two in args]
    return {**made, "comment": lines}


class Lists(Case):
    def profile(self, text, *remarks):
        """The profile of a list, with what is said of it beside that it is one."""
        status, out, err = self.run_tool("resolve-profile", self.file("list", text))
        self.assertEqual(status, 0, err)
        self.assertEqual([line.removeprefix("resolve-profile: ") for line in err.splitlines()][1:], list(remarks))
        return json.loads(out)

    def are_refused(self, texts):
        for text, why in texts.items():
            self.is_refused(f": {why}\n", "ask", self.file("list", text))

    def loads(self, text, filters):
        """What a program loads for a list is proved to be what the list's profile answers."""
        self.assertTrue(filters, text)
        self.begins(0, "same", self.run_tool("compare", *self.filter_files(filters), self.file("list", text)))

    def traced(self, words, log="log"):
        """The stacks of filters that processes of a command load, in their order."""
        path = os.path.join(self.folder, log)
        with subprocess.Popen(["strace", "-f", "-v", "-o", path, "-e", "trace=seccomp,prctl", *words],
                              stdin=subprocess.DEVNULL, stdout=subprocess.PIPE, stderr=subprocess.STDOUT,
                              start_new_session=True) as process:
            try:
                messages = process.communicate(timeout=60)[0]
            except subprocess.TimeoutExpired:
                os.killpg(process.pid, signal.SIGKILL)
                raise
        return list(strace_reader.stacks_in(text_of(path).split("\n"))), messages


class Policies(Lists):
    """LXC's: lxc.container.conf(5), and what LXC 5 refuses."""

    def test_the_manual_page(self):
        profile = self.profile("2\ndenylist\nmknod errno 0\nioctl notify\n")
        self.assertEqual(profile, {
            "defaultAction": "SCMP_ACT_ALLOW", "architectures": [NATIVE, I386, X32],
            "syscalls": [entry("mknod", "ERRNO", "line 3", 0), entry("ioctl", "NOTIFY", "line 4")]})
        profile = self.profile("1\nallowlist\n0\n 231 # exit_group\n")
        self.assertEqual(profile, {"defaultAction": "SCMP_ACT_KILL_THREAD", "architectures": [NATIVE], "syscalls": [
            entry("read exit_group", "ALLOW", "lines 3-4")]})

    def test_rules(self):
        """As common.seccomp of LXC has them, with conditions."""
        profile = self.profile("2\nblacklist trap\nreject_force_umount  # may be left out\n[all]\n"
                               "kexec_load errno 1\n\n# a comment\n  # another\nfinit_module errno 1\n"
                               "clone errno 5 [0,0x10,==][1,010,!=]\nswapon kill [1,2,&=,0x3]\nacct\nsync allow\n")
        self.assertEqual(profile["defaultAction"], "SCMP_ACT_TRAP")
        self.assertEqual(profile["syscalls"], [
            entry("umount2", "ERRNO", "line 3", 13, (1, "MASKED_EQ", 1, 1)),
            entry("kexec_load finit_module", "ERRNO", "lines 5, 9", 1),
            entry("clone", "ERRNO", "line 10", 5, (0, "EQ", 16, 0), (1, "NE", 8, 0)),
            entry("swapon", "KILL_THREAD", "line 11", None, (1, "MASKED_EQ", 3, 2)),
            entry("acct", "KILL_THREAD", "line 12"), entry("sync", "ALLOW", "line 13")])

    def test_architectures(self):
        """Sections of other machines are left out; those of this one's hold for all of its architectures."""
        profile = self.profile("2\ndenylist\n[arm]\nread errno 1\n[x86]\nacct errno 1\n[X86_64]\nsync errno 2\n",
                               "line 3: the rules of [arm] are for other machines, and left out",
                               "line 6: LXC applies the rules of [x86] to x86-64, too")
        self.assertEqual([listed["names"] for listed in profile["syscalls"]], [["acct"], ["sync"]])
        profile = self.profile("2\ndenylist\nsocket errno 1\nnosuch errno 1\n",
                               "left out, as by the sandbox, since libseccomp doesn't know them: nosuch",
                               "the profile leaves i386 out: LXC makes no rule of socket there")
        self.assertEqual(profile["architectures"], [NATIVE, X32])

    def test_several_rules_of_a_syscall(self):
        profile = self.profile("2\ndenylist\nmknod errno 1\nmknod errno 2\nacct errno 4 [0,1,==]\nacct errno 5\n",
                               "line 4 has no effect on mknod: line 3 covers it",
                               "line 5 has no effect on acct: line 6 covers it")
        self.assertEqual(profile["syscalls"], [entry("mknod", "ERRNO", "line 3", 1),
                                               entry("acct", "ERRNO", "line 6", 5)])

    def test_what_lxc_refuses(self):
        self.are_refused({
            "2\ndenylist\nread allow\n": "line 3: LXC refuses a rule with the default's answer, ALLOW",
            "2\ndenylist\nread log\n": "line 3: 'log' isn't an action of LXC",
            "2\ndenylist\nread [0,1,==]\n": "line 3: '[0,1,==]' isn't an action of LXC",
            "2\ndenylist\nread errno 1 # [0]\n": "line 3: 'read errno 1 # [0]' isn't a condition",
            "2\ndenylist\nread errno 1 [0,1,==] # x\n": "line 3: '# x]' isn't a condition",
            "2\ndenylist\nread errno 1 [0,1, ==]\n": "line 3: 'read errno 1 [0,1, ==]' isn't a condition",
            "2\ndenylist\nread errno 1 [0,1,==][0,2,==]\n": "line 3: libseccomp refuses two conditions on one argument",
            "2\ndenylist\nread errno 1 [6,1,==]\n": "line 3: 'read errno 1 [6,1,==]' isn't a condition",
            "2\ndenylist\nread errno 4095\n": "line 3: 'errno 4095' isn't an errno up to 4094",
            "2\ndenylist\nread errno -1\n": "line 3: 'errno -1' isn't an errno up to 4094",
            "2\ndenylist\n[foo]\n": "line 3: '[foo]' isn't an architecture of LXC",
            "2\ndenylist\n mknod errno 1\n": "line 3: 'mknod errno 1' isn't an action of LXC",
            "1\ndenylist\n0\n": "line 2: version 1 has allowlists alone",
            "1\nallowlist\n0\n\n1\n": "line 4: it isn't a syscall number",
            "2 x\ndenylist\nread errno 1\n": "line 1: it isn't a version that LXC reads",
            "1\nallowlist\n9999\n": "line 3: no name is known of the syscall 9999, and a profile has names alone"})

    @unittest.skipUnless(IS_ROOT and HAS_STRACE and shutil.which("lxc-start"), "this takes root, strace and LXC")
    def test_what_lxc_loads(self):
        for name in "root/proc root/dev root/sys root/usr containers".split():
            os.makedirs(os.path.join(self.folder, name))
        for name in "bin lib lib64 sbin".split():
            if os.path.islink(f"/{name}"):
                os.symlink(f"usr/{name}", os.path.join(self.folder, "root", name))
        configuration = self.file("container", LXC.format(self.folder))
        common = text_of("/usr/share/lxc/config/common.seccomp")
        for at, text in enumerate((common, "2\ndenylist\n[x86]\nchown32 errno 1\n[all]\numount errno 1\nsocket trap\n"
                                   "swapon errno 9 [0,0x10000000,&=]\nswapoff errno 9 [0,15,SCMP_CMP_MASKED_EQ,0x1]\n"
                                   "mknod errno 1\nmknod errno 2\nmknodat errno 1\nmknodat errno 4 [0,1,==]\n"
                                   "acct errno 4 [0,1,>=]\nacct errno 5\nsync errno5\nsyslog killer\n"
                                   "syncfs errno 4094\n", "2\ndenylist\nsyncfs errno 4095\n")):
            self.file("policy", text)
            stacks, said = self.traced(["lxc-start", "-F", "-n", f"scf-{os.getpid()}-{at}", "-f", configuration, "-P",
                                        os.path.join(self.folder, "containers")])
            if "4095" in text:
                # libseccomp refuses it, and LXC starts nothing
                self.assertEqual(stacks, [], said)
                continue
            self.assertEqual(len(stacks), 1, said)
            self.loads(text, stacks[0])


class Templates(Lists):
    """snapd's: what cmd/snap-seccomp/main.go makes of a line."""

    TEXT = SNAP + ("# a comment\nread\nsocket AF_UNIX - 0\nsetpriority PRIO_PROCESS 0 <=19\nioctl - !TIOCSTI\n"
                   "mknod - |S_IFREG -\nchown - u:root -1\nquotactl Q_GETQUOTA\nsocket PF_INET\nllseek\n"
                   "close  - >=3 <7 >1\nnosuch u:nosuchuser -1 !0\n")

    def test_rules(self):
        found = self.profile(self.TEXT, "left out, as by the sandbox, since libseccomp doesn't know them: llseek, "
                             "nosuch")
        first = {"index": 0, "op": "SCMP_CMP_EQ"}
        socketcall = [it for it in found["syscalls"] if it["names"] == ["socketcall"]]
        self.assertEqual([it["args"][0] for it in socketcall], [{**first, "value": 1}] * 2)
        self.assertEqual([it for it in found["syscalls"] if it not in socketcall], [
            entry("read", "ALLOW", "line 4"),
            entry("socket", "ALLOW", "line 5", None, (0, "EQ", 1, 0), (2, "EQ", 0, 0)),
            entry("setpriority", "ALLOW", "line 6", None, (0, "EQ", 0, 0), (1, "EQ", 0, 0), (2, "LE", 19, 0)),
            entry("ioctl", "ALLOW", "line 7", None, (1, "NE", 0x5412, 0)),
            entry("mknod", "ALLOW", "line 8", None, (1, "MASKED_EQ", 0o100000, 0o100000)),
            entry("chown", "ALLOW", "line 9", None, (1, "MASKED_EQ", 0xFFFFFFFF, 0),
                  (2, "MASKED_EQ", 0xFFFFFFFF, 0xFFFFFFFF)),
            entry("quotactl", "ALLOW", "line 10", None, (0, "EQ", 0x800007, 0)),
            entry("socket", "ALLOW", "line 11", None, (0, "EQ", 2, 0)),
            entry("close", "ALLOW", "line 13", None, (1, "GE", 3, 0), (2, "LT", 7, 0), (3, "GT", 1, 0))])
        self.assertEqual((found["defaultAction"], found["defaultErrnoRet"], found["architectures"]),
                         ("SCMP_ACT_ERRNO", 1, [NATIVE, I386]))

    def test_directives(self):
        self.assertEqual(self.profile("@complain\nread\n")["defaultAction"], "SCMP_ACT_LOG")
        found = self.profile("# x\n\n@unrestricted\nread\n", "it is unrestricted: snap-confine loads no filter")
        self.assertEqual(found, {"defaultAction": "SCMP_ACT_ALLOW", "architectures": [NATIVE], "syscalls": []})

    def test_what_is_refused(self):
        self.are_refused({
            SNAP + "read - - - - - - -\n": "line 3: it has more than 6 arguments",
            SNAP + "read -1\n": "line 3: '-1' isn't a number that snap-seccomp takes of read, or none is known of "
                                "it",
            SNAP + "chown !0\n": "line 3: snap-seccomp compares the arguments of chown only for a value",
            SNAP + "read 4294967296\n": "line 3: '4294967296' isn't a number that snap-seccomp takes of read, or none "
                                        "is known of it",
            SNAP + "~read\n": "line 3: '~read' is denied, which newer snapds do by a second filter: no profile states "
                              "both",
            SNAP + "@nosuch\n": "line 3: '@nosuch' isn't a directive of snap-seccomp", SNAP: "it allows no syscall"})
        status, _, err = self.run_tool("ask", self.file("list", SNAP + "chown u:nosuchuser\n"))
        self.assertEqual(status, 4)
        self.assertIn("line 3: this machine has no user 'nosuchuser'\n", err)

    @unittest.skipUnless(SNAP_SECCOMP, "there is no snap-seccomp here")
    def test_what_snap_seccomp_compiles(self):
        for text in (self.TEXT, "@complain\nread\nwrite 2\n"):
            done = completed([SNAP_SECCOMP, "compile", self.file("source", text), f"{self.folder}/compiled"],
                             stderr=subprocess.STDOUT)
            self.assertEqual(done.returncode, 0, done.stdout)
            self.loads(text, [bytes_of(f"{self.folder}/compiled")])


def groups(group):
    """Groups in place of the installed firejail's."""
    return {"@clock": [159, 305, 227, 164], "@default-keep": [322, 59, 157], "@default": [165],
            "@default-nodebuggers": [165, 101]}[group]


class Profiles(Lists):
    """firejail's: firejail(1), firejail-profile(5), and the filters of firejail 0.9.72."""

    def rules(self, text, default="ALLOW"):
        policy = firejail.read_firejail_profile(text.encode(), groups)
        self.assertEqual(str(policy.default), default)
        return {(rule.name, str(rule.answer)): rule.line for rule in policy.rules if not rule.conditions}, policy

    def test_lists(self):
        rules, _ = self.rules("seccomp.drop utime,mkdir:ENOENT,@clock,!settimeofday,$165,acct:kill\n")
        self.assertEqual(rules, dict.fromkeys([
            ("utime", "ERRNO 1"), ("adjtimex", "ERRNO 1"), ("clock_adjtime", "ERRNO 1"), ("clock_settime", "ERRNO 1"),
            ("mount", "ERRNO 1"), ("mkdir", "ERRNO 2"), ("acct", "KILL_THREAD")], 1))
        rules, _ = self.rules("--seccomp=rmdir,!ptrace\n")
        self.assertEqual(rules, dict.fromkeys([("mount", "ERRNO 1"), ("rmdir", "ERRNO 1")], 1))
        rules, _ = self.rules("# x\nseccomp\nseccomp-error-action kill\n")
        self.assertEqual(rules, dict.fromkeys([("mount", "KILL_THREAD"), ("ptrace", "KILL_THREAD")], 2))
        self.assertEqual(self.rules("allow-debuggers\nseccomp\n")[0], {("mount", "ERRNO 1"): 2})
        rules, _ = self.rules("seccomp rmdir\nseccomp.drop rmdir\nseccomp.keep read,!prctl,mkdir:ENOENT\n", "ERRNO 1")
        self.assertEqual(rules, dict.fromkeys([("execveat", "ALLOW"), ("execve", "ALLOW"), ("read", "ALLOW"),
                                               ("mkdir", "ERRNO 2")], 3))

    def test_lines_that_are_ignored(self):
        rules, policy = self.rules("ignore seccomp.drop acct\nseccomp.drop mkdir\nseccomp.drop acct\n"
                                   "ignore protocol unix\nprotocol unix\nseccomp.32.drop sync\n")
        self.assertEqual(rules, {("mkdir", "ERRNO 1"): 2})
        self.assertIn("line 6: seccomp.32.drop is for i386, which the profile leaves out", policy.remarks)
        _, policy = self.rules("seccomp.drop mkdir,utime:log\n")
        self.assertIn("line 1: firejail leaves utime:log out", policy.remarks)

    def test_files_that_are_included(self):
        self.patched(firejail, "PROFILES", self.folder)
        self.file("a.inc", "seccomp.drop mkdir\ninclude a.local\ninclude gone.inc\n")
        rules, policy = self.rules("# x\ninclude a.inc\n")
        self.assertEqual(rules, {("mkdir", "ERRNO 1"): 2})
        self.assertIn(f"line 2: {self.folder} has no gone.inc", policy.remarks)
        for text, is_one in ((b"# x\ninclude a.inc\n", True), (b"include firefox-common.profile\n", True),
                             (b'#include "a.inc"\n', False), (b"include a b.inc\n", False)):
            self.assertEqual(bool(firejail.SIGN.search(text)), is_one, text)
        self.file("b.inc", "include b.inc\n")
        for text in ("include b.inc\nseccomp\n", "include ../x\n", "include /etc/passwd\n"):
            with self.assertRaises(sandbox_rules.ListError, msg=text):
                self.rules(text)

    def test_the_configuration_of_firejail(self):
        self.patched(firejail, "PROFILES", self.folder)
        self.file("firejail.config", "# seccomp no\nseccomp-error-action ENOSYS\nseccomp yes\n")
        self.assertEqual(self.rules("seccomp.drop mkdir\n")[0], {("mkdir", "ERRNO 38"): 1})
        self.assertEqual(self.rules("seccomp.drop mkdir\nseccomp-error-action kill\n")[0],
                         {("mkdir", "KILL_THREAD"): 1})
        for text in ("seccomp-filter-add !chroot\n", "seccomp no\n"):
            self.file("firejail.config", text)
            with self.assertRaises(sandbox_rules.UnknownRules, msg=text):
                self.rules("seccomp.drop mkdir\n")

    def test_what_is_refused(self):
        self.are_refused({"seccomp.drop nosuch:E\n": "line 1: 'E' isn't an errno",
                          "seccomp.drop a b\n": "line 1: 'a b' isn't a syscall",
                          "seccomp.drop @clock:ENOENT\n": "line 1: firejail refuses an error action behind a group, as "
                                                          "in '@clock:ENOENT'",
                          "protocol unix,foo\n": "line 1: 'foo' isn't a protocol of firejail",
                          "restrict-namespaces foo\n": "line 1: 'foo' aren't namespaces",
                          "seccomp.drop $9999\n": "line 1: no name is known of the syscall 9999, and a profile has "
                                                  "names alone",
                          "seccomp.drop a\nseccomp.foo a\n": "line 2: 'seccomp.foo' isn't a setting of firejail "
                                                             "0.9.72"})
        status, _, err = self.run_tool("ask", self.file("list", "seccomp.drop a\n?HAS_X11: seccomp\n"))
        self.assertEqual((status, "line 2: whether its condition holds isn't known" in err), (4, True))

    def test_i386_is_not_compared_unless_it_is_denied(self):
        """Of filters that allow it, and nothing else."""
        allows = self.file("f.bpf", load(4) + jeq(0x40000003, 0, 1) + ret(ALLOW) + ret(EPERM))
        for more, expected in (("", (0, ["no more", "# i386: not compared, since its rules aren't known", ""])),
                               ("seccomp.block-secondary\n", (1, ["more"]))):
            status, out, _ = self.run_tool("compare", "--no-more", allows,
                                           self.file("list", f"seccomp.drop mkdir\n{more}"))
            self.assertEqual((status, out.split("\n")[:len(expected[1])]), expected)

    @unittest.skipUnless(HAS_STRACE and shutil.which("firejail"), "this takes strace and firejail")
    def test_what_firejail_loads(self):
        """Of each profile the filters of the program; before it, firejail confines helpers of its own."""
        for text in ("seccomp\nprotocol unix,inet\nrestrict-namespaces\n",
                     "seccomp.drop clone3,mmap:ENOENT,socket:ENOENT\nrestrict-namespaces user,net\n"
                     "memory-deny-write-execute\nprotocol unix\nseccomp-error-action kill\n",
                     "seccomp.keep @system-service,!mkdir,rmdir:ENOENT\n",
                     "seccomp rmdir,@chown,$83,!ptrace,mount:kill,utime:log\n",
                     "seccomp.drop mkdir\nseccomp.block-secondary\n",
                     "seccomp.drop mkdir,mount_setattr,@clock,!@clock\nseccomp.block-secondary\n"
                     "seccomp-error-action kill\n",
                     "seccomp.keep @system-service,@default,mount_setattr\nseccomp.block-secondary\n"
                     "seccomp-error-action ENOSYS\n",
                     "seccomp mkdir,mount_setattr\nseccomp.block-secondary\nseccomp-error-action ENOSYS\n",
                     "seccomp.keep @system-service,@default\nprotocol unix\nmemory-deny-write-execute\n"
                     "restrict-namespaces\n"):
            words = [f"--profile={self.file('p.profile', text)}", "--quiet", "--", "/bin/true"]
            stacks, said = self.traced(["firejail", *words])
            self.assertTrue(stacks, said)
            self.loads(text, stacks[-1])
        words = [f"--profile={self.file('p.profile', 'seccomp.drop @clock:ENOENT')}", "--quiet", "--", "/bin/true"]
        self.assertNotEqual(self.run_words(["firejail", *words])[0], 0)


class Readers(unittest.TestCase):
    def test_what_is_no_list(self):
        for text in (b"", b"2\n", b"2\nlist\n", b"read\nwrite\n", b"# a\nread\n", b"seccompx\n", b"{}",
                     b"12\ndenylist\n"):
            self.assertIsNone(sandbox_of(text), text)

    def test_without_libseccomp(self):
        """The tables tell on which architectures a rule counts; a name that they lack stays."""
        for text in (b"2\ndenylist\n[x86]\nchown32 errno 1\n[all]\numount errno 1\nmknod errno 1\n",
                     b"2\ndenylist\nsocket errno 1\nshmat errno 1\n", b"@complain\nread\nsocket AF_UNIX\n"):
            read = sandbox_of(text)[1]
            expected = read(text)
            with mock.patch.object(sandbox_rules.libseccomp, "installed", return_value=None):
                found = read(text)
            self.assertEqual((found.profile(), found.remarks), (expected.profile(), expected.remarks))
        with mock.patch.object(sandbox_rules.libseccomp, "installed", return_value=None):
            found = read(b"@complain\nnosuch\n")
        self.assertEqual((found.profile()["syscalls"][0]["names"], found.remarks), (["nosuch"], []))

    def test_abis_with_other_rules(self):
        """Those of i386 are another profile of LXC's; of firejail they aren't known, unless it denies i386."""
        (other,) = sandbox_of(b"2\ndenylist\n")[1](b"2\ndenylist\nsocket errno 1\n").data().others
        self.assertEqual(profiles.architectures_of(other), (I386,))
        for text, left_out in ((b"seccomp.drop mkdir\n", (I386,)),
                               (b"seccomp.drop mkdir\nseccomp.block-secondary\n", ())):
            self.assertEqual(profiles.not_compared_of(sandbox_of(text)[1](text).data()), left_out)

    def test_letters_that_forge_a_line(self):
        for text in (b"2\ndenylist\nread\rerrno 1\n", b"2\ndenylist\nread\0\n", b"2\ndenylist\n\xc2\x85\n",
                     b"2\ndenylist\n\xff\n", b"2\ndenylist\n" + b"a" * (1 << 15 | 1), b"2\ndenylist\n\xe2\x80\xa8"):
            with self.assertRaises(sandbox_rules.ListError, msg=text):
                lxc.read_lxc_policy(text)
