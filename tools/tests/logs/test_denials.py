"""tools/why: the failed syscalls of a strace log, judged by a profile: counted by syscall and entry, in order."""
import json
import re
import shutil
import sys
import unittest
from unittest import mock

from support.common import LOADER, Case, text_of
from support.oci import ALLOW, ERRNO
from logs import entry, rules, where
from scftools.ask import client
from scftools.forms import strace
from scftools.logs import cause_report, causes, events
from scftools.model import tables

# Loads a filter, and makes calls in the order of its words, each as often as it says, in a child where they begin with
# `child`; then it ends with a status.
UNDER = LOADER + """
def makes(calls):
    for count, *call in calls:
        for _ in range(count):
            library.syscall(*map(ctypes.c_long, call))
name, status, before, of_child, after = sys.argv[1], *map(eval, sys.argv[2:])
makes(before)
if load(open(name, "rb").read()) < 0:
    os._exit(99)
if os.fork() == 0:
    makes(of_child)
    os._exit(0)
os.wait()
makes(after)
os._exit(status)
"""
# asm/unistd_64.h
SOCKET, SETHOSTNAME, CHROOT, UNSHARE = 41, 170, 161, 272
PROFILE = rules(entry("sethostname", "chroot", action=ERRNO, errnoRet=1),
                entry("socket", action=ERRNO, errnoRet=97, args=[where(0, "EQ", 16)]), default=ALLOW)
LOAD = "seccomp(SECCOMP_SET_MODE_FILTER, 0, {len=3, filter=0x7ffd5c1d}) = 0"
# A load for all threads of the process; and how one begins.
FOR_ALL = LOAD.replace(" 0, {", " SECCOMP_FILTER_FLAG_TSYNC, {")
THREAD = "clone(child_stack=0x7f01, flags=CLONE_VM|CLONE_SIGHAND|CLONE_THREAD"
DENIED = 'chroot("/") = -1 EPERM (Operation not permitted)'
HEAD = re.compile(r"# (?:process \d+|a process): the syscall is (\w+) \(\d+\)(?:; such failures: (\d+))?")


class Denials(Case):
    def why(self, log, *words, profile=None):
        given = self.file("p.json", PROFILE if profile is None else profile)
        return self.told("why", *words, "-", given, given=log.encode("latin-1"))

    def denied(self, log, *words, **settings):
        """The status, and each denied syscall with its count, in order."""
        status, lines = self.why(log, *words, **settings)
        heads = [HEAD.fullmatch(line) for line in lines]
        return status, [(head[1], int(head[2] or 1)) for head in heads if head]

    def lines_of(self, *lines, **settings):
        return self.denied("".join(f"{line}\n" for line in lines), **settings)[1]


class Changes(Denials):
    def changes(self, line, *words, **settings):
        """What the changes of a profile allow that are offered for a line."""
        _, lines = self.why(f"{LOAD}\n{line}\n", *words, **settings)
        heads = [re.match("# this change of the profile allows (.*), and no other answer", each) for each in lines]
        return [match[1] for match in heads if match]

    def test_numbers_of_a_run(self):
        """A descriptor or a length isn't a condition, unless an entry tests it; a constant is one."""
        denying = rules(entry("kill", action="SCMP_ACT_ALLOW", args=[where(0, "EQ", 7)]))
        for line, allowed in (("listen(6, 511) = -1 EPERM", ["every listen"]),
                              ("setsockopt(3, SOL_SOCKET, SO_REUSEADDR, [1], 4) = -1 EPERM",
                               ["setsockopt where argument 1 is 0x1 and argument 2 is 0x2", "every setsockopt"]),
                              ("kill(9, SIGTERM) = -1 EPERM",
                               ["kill where argument 0 is 0x9 and argument 1 is 0xf", "every kill"])):
            self.assertEqual(self.changes(f"{line} (Operation not permitted)", profile=denying), allowed)

    def test_an_answer_to_both_values_of_an_argument_is_shown_once(self):
        """Of 0x80045430 the upper half isn't known: strace prints the lower one."""
        profile = rules(entry("ioctl", action="SCMP_ACT_ERRNO"), default="SCMP_ACT_ALLOW")
        _, lines = self.why(f"{LOAD}\nioctl(3, TIOCGPTN, [0]) = -1 EPERM (Operation not permitted)\n", profile=profile)
        self.assertEqual([line for line in lines if line[0] != "#"], ["ERRNO 1 entry 0"])

    def test_what_is_alike_is_judged_once(self):
        """Equal lines are read once, and no run of scf is made for each of those that differ in an argument."""
        table, line = tables.read_table(None), 'chroot("/") = -1 EPERM (Operation not permitted)'
        with mock.patch.object(strace, "registers_in", wraps=strace.registers_in) as read:
            log = events.read_events([f"10 {line}", f"11 {line}"] * 1000, table)
        self.assertEqual((read.call_count, log.failures.count), (2, 2000))
        log = events.read_events([f"chroot({at:#x}) = -1 EPERM (Operation not permitted)" for at in range(500)], table)
        given = causes.Inputs(tables.Tables({tables.NATIVE: table}), json.dumps(PROFILE).encode())
        with mock.patch.object(client, "run_scf", wraps=client.run_scf) as run:
            self.assertEqual([denial.count for denial in cause_report.denials_of(log.failures, given).of], [500])
        self.assertEqual([call.args[0][0] for call in run.call_args_list], ["answers"])

    def test_a_profile_as_a_runtime_reads_it(self):
        """podman's own lists have entries that conflict by their words: crun and runc take the first."""
        profile = rules(entry("setns", action="SCMP_ACT_ALLOW"), entry("setns", action="SCMP_ACT_ERRNO", errnoRet=22))
        line = 'chroot("/") = -1 EPERM (Operation not permitted)'
        for runtime in ("runc", "podman"):
            self.assertEqual(self.changes(line, "--runtime", runtime, profile=profile), ["every chroot"])
        status, lines = self.why(f"{LOAD}\n{line}\n", profile=profile)
        self.assertEqual((status, [each for each in lines if each.startswith("fault ")]),
                         (2, ["fault profile Conflict number 308 first 0 second 1"]))


@unittest.skipUnless(shutil.which("strace"), "there is no strace here")
class Traced(Denials):
    """Programs under a filter, as strace logs them."""

    def traced(self, before, of_child, after, status=0, profile=None):
        filters = self.filter_file(self.file("c.json", PROFILE if profile is None else profile))
        words = map(repr, (status, before, of_child, after))
        return text_of(self.strace("-f", sys.executable, "-ISc", UNDER, filters, *words)[0])

    def test_only_what_the_profile_answers(self):
        """The kernel itself answers to a socket of no family with the errno of the entry for AF_NETLINK."""
        log = self.traced([(2, CHROOT, -1)], [(3, SOCKET, 16, 3, 0), (1, SOCKET, 77, 1, 0)], [(1, UNSHARE, 1)])
        status, lines = self.why(log)
        self.assertEqual((status, [HEAD.fullmatch(line)[1] for line in lines if HEAD.fullmatch(line)]), (0, ["socket"]))
        self.assertRegex("\n".join(lines), "# syscalls that failed: [0-9]+, of which the profile denies 3\n")

    def test_the_changes_repair_it(self):
        """By the changes that are printed of each, one after another, nothing is denied any more."""
        calls = [(1, SOCKET, 16, 3, 0), (1, SOCKET, 16, 2, 15), (1, SETHOSTNAME, 0, -1), (1, CHROOT, 0)]
        profile, seen = PROFILE, []
        for _ in range(3):
            log = self.traced([], [], calls, 1, profile)
            given = self.file("p.json", profile)
            first = self.json_of("why", "--json", "-", given, given=log.encode("latin-1"))["events"][0]
            seen.append(first["call"]["names"][0])
            change = first["changes"][0]
            entries = [dict(entry, names=[name for name in entry["names"] if at not in change["taken_out"]
                                       or name not in first["call"]["names"]])
                       for at, entry in enumerate(profile["syscalls"])]
            profile = {**profile, "syscalls": [entry for entry in entries if entry["names"]] + change["added"]}
        self.assertEqual(sorted(seen), ["chroot", "sethostname", "socket"])
        self.assertEqual(self.denied(self.traced([], [], calls, 1, profile), profile=profile), (4, []))


class Logs(Denials):
    """Which failed syscalls of a log are behind the loading of the filter, and how they are counted."""

    def chroots(self, count, *lines):
        """So many denied chroots are in these lines, where DENIED is one, and LOAD loads a filter."""
        log = [line.replace("DENIED", DENIED).replace("LOAD", LOAD) for line in lines]
        self.assertEqual(self.lines_of(*log), [("chroot", count)] if count else [], lines)

    def test_before_and_behind_the_loading(self):
        self.chroots(2, "7  DENIED", "7  DENIED")
        self.chroots(1, "7  DENIED", "7  LOAD", "7  DENIED")
        for load in ("prctl(PR_SET_SECCOMP, SECCOMP_MODE_FILTER, {len=3, filter=0x7ffd5c1d}) = 0",
                     "seccomp(0x1, 0x2, 0x7ffd5c1d) = 0", "seccomp(SECCOMP_SET_MODE_FILTER, "
                     "SECCOMP_FILTER_FLAG_NEW_LISTENER, {len=3, filter=0x7ffd5c1d}) = 9",
                     # (a filter that is printed whole, longer than what is read of a line)
                     "seccomp(SECCOMP_SET_MODE_FILTER, 0, {len=4096, filter=[" + "BPF_STMT(0, 0), " * 5000):
            self.chroots(0, "7  DENIED", f"7  {load}", "8  DENIED")
        for load in (LOAD.replace("= 0", "= -1 EINVAL (Invalid argument)"), LOAD.replace("= 0", "= 8"),
                     "seccomp(SECCOMP_GET_ACTION_AVAIL, 0, [SECCOMP_RET_LOG]) = 0", "prctl(PR_SET_NO_NEW_PRIVS, 1) = 0",
                     "prctl(PR_SET_SECCOMP, SECCOMP_MODE_STRICT) = 0"):
            self.chroots(2, "7  DENIED", f"7  {load}", "8  DENIED")

    def test_children_are_under_it(self):
        clone = "clone(child_stack=NULL, flags=CLONE_CHILD_SETTID|SIGCHLD)"
        self.chroots(1, "7  LOAD", f"7  {clone} = 8", "8  DENIED", "9  DENIED")
        self.chroots(0, f"7  {clone} = 8", "7  LOAD", "8  DENIED")
        # before strace shows whose child it is
        self.chroots(2, "7  LOAD", "7 vfork( <unfinished ...>", "8  DENIED", "7  <... vfork resumed>) = 8", "8  DENIED")
        # what such a child loads itself stays
        for name, begin in (("vfork", "vfork("), ("clone", THREAD)):
            self.chroots(1, f"7  {begin} <unfinished ...>", "8  LOAD", f"7  <... {name} resumed>) = 8", "8  DENIED")
        # the first process has a number only as long as there are others
        self.chroots(2, "LOAD", f"{clone} = 8", "[pid     8] DENIED", "[pid     7] DENIED")

    def test_numbers_of_a_pid_namespace(self):
        """There a maker gets another number than strace has."""
        self.chroots(1, "7  fork() = 3", "70  getpid() = 3", "7  LOAD", "7  fork() = 4", "71  DENIED", "70  DENIED")
        self.chroots(2, "7  LOAD", "7 fork( <unfinished ...>", "71  DENIED", "7  <... fork resumed>) = 4", "71  DENIED",
                     "72  DENIED")
        # a load for all threads of the process is also for those
        for before in ((f"7  {THREAD}) = 4", "71  getpid() = 3"), (
                f"7  {THREAD} <unfinished ...>", "71  getpid() = 3", "7  <... clone resumed>) = 4")):
            self.chroots(1, *before, f"7  {FOR_ALL}", "71  DENIED")

    def test_threads(self):
        for load, count in ((LOAD, 1), (FOR_ALL, 2)):
            self.chroots(count, f"7  {THREAD}) = 8", f"8  {load}", "8  DENIED", "7  DENIED")
        # a child isn't of the process
        self.chroots(0, "7  fork() = 8", f"8  {FOR_ALL}", "7  DENIED")
        # the thread that executes a program goes on as the process
        execve = ('8  execve("/bin/x", 0x1, 0x2 <unfinished ...>', "7  +++ superseded by execve in pid 8 +++",
                  "7  <... execve resumed>) = 0")
        for loader, count in ((8, 1), (7, 0)):
            self.chroots(count, f"7  {THREAD}) = 8", f"{loader}  LOAD", *execve, "7  DENIED")

    def test_which_one_a_process_ended_after(self):
        socket = "socket(AF_NETLINK, SOCK_RAW, NETLINK_ROUTE) = -1 EAFNOSUPPORT (Address family not supported)"
        for end in ("exited with 1", "killed by SIGABRT (core dumped)"):
            self.assertEqual(self.lines_of(f"7  {DENIED}", f"7  {socket}", f"7  {socket}",
                                           '7  openat(AT_FDCWD, "x", O_RDONLY) = -1 ENOENT (No such file or directory)',
                                           f"7  +++ {end} +++"), [("socket", 2), ("chroot", 1)])
        lines = self.why(f"7  {DENIED}\n7  +++ exited with 1 +++\n")[1]
        self.assertEqual(lines[1], "# it is the last denied syscall of a process that ended with a failure")
        for end in ("exited with 0", ""):
            self.assertEqual(self.lines_of(f"7  {DENIED}", f"7  {socket}", f"7  {socket}", f"7  +++ {end} +++"),
                             [("chroot", 1), ("socket", 2)])
        # of two that were tried once, and by no process that failed, the last
        self.assertEqual(self.lines_of(f"7  {DENIED}", f"7  {socket}"), [("socket", 1), ("chroot", 1)])
        # what a process tried before and tries again is its last, and a thread that ends isn't its end
        self.assertEqual(self.lines_of(f"7  {THREAD}) = 8", f"8  {socket}", f"7  {DENIED}", f"7  {socket}",
                                       "8  +++ exited with 0 +++", "7  +++ exited with 1 +++"),
                         [("socket", 2), ("chroot", 1)])

    def test_by_syscall_and_entry(self):
        """The change allows what all failures by an entry have in common."""
        socket = "7  socket(AF_NETLINK, {}, {}) = -1 EAFNOSUPPORT (Address family not supported)"
        lines = self.why("".join(f"{socket.format(*words)}\n" for words in (
            ("SOCK_RAW", 0), ("SOCK_RAW", 9), ("SOCK_DGRAM", 9))), profile={
                **PROFILE, "syscalls": [entry("socket", action="SCMP_ACT_ERRNO", errnoRet=97)]})[1]
        self.assertEqual([line for line in lines if HEAD.fullmatch(line)],
                         ["# process 7: the syscall is socket (41); such failures: 3"])
        allows = "# this change of the profile allows socket where argument 0 is 0x10, and no other answer changes:"
        self.assertIn(allows, lines)
        # what they have in common is the entry's own condition: the change that allows all of it is the same
        lines = self.why(socket.format("SOCK_RAW", 0) + "\n" + socket.format("SOCK_DGRAM", 9) + "\n")[1]
        self.assertEqual([line for line in lines if "this change" in line], [allows])
        of_inet = entry("socket", action="SCMP_ACT_ERRNO", errnoRet=97, args=[where(0, "EQ", 2)])
        text = "".join(f"7  socket({family}, SOCK_RAW, 0) = -1 EAFNOSUPPORT (x)\n"
                       for family in ("AF_NETLINK", "AF_INET"))
        self.assertEqual(self.denied(text, profile={**PROFILE, "syscalls": [*PROFILE["syscalls"], of_inet]}),
                         (0, [("socket", 1), ("socket", 1)]))

    def test_all(self):
        names = ("acct", "chroot", "swapoff", "umount2", "mkdir", "rmdir", "unlink")
        log = "".join(f'7  {name}("/x") = -1 EPERM (Operation not permitted)\n' * (at + 1)
                      for at, name in enumerate(names))
        profile = {**PROFILE, "syscalls": [entry(*names, action="SCMP_ACT_ERRNO", errnoRet=1)]}
        counted = [(name, at + 1) for at, name in enumerate(names)]
        self.assertEqual(self.denied(log, "--all", profile=profile), (0, counted))
        self.assertEqual(self.denied(log, profile=profile), (0, counted[:5]))
        self.assertEqual(self.why(log, profile=profile)[1][-2:], [
            "# syscalls that failed: 28, of which the profile denies 28",
            "# of these aren't shown, since they tell less (--every shows them): rmdir (84) 6 times, "
            "unlink (87) 7 times"])

    def test_what_another_cause_denied(self):
        log = (f"7  {DENIED}\n" + "7  acct(NULL) = -1 EPERM (Operation not permitted)\n" * 2
               + '7  mkdir("/x", 0777) = -1 EACCES (Permission denied)\n')
        status, lines = self.why(log)
        self.assertEqual((status, lines[-2:]), (0, [
            "# syscalls that failed: 4, of which the profile denies 1",
            "# with EPERM, but not by the profile: acct (163) 2 times: the kernel itself answers so, for example if "
            "the process lacks a capability, or another filter does"]))

    def test_a_profile_that_is_refused(self):
        log = f'7  {DENIED}\n7  read(0, "", 1) = 0\n'
        status, lines = self.why(log, profile={**PROFILE, "defaultAction": "SCMP_ACT"})
        self.assertEqual((status, [line for line in lines if line[:2] != "# "]), (2, ["fault profile Action"]))

    def test_what_scf_leaves_undecided(self):
        status, lines = self.why(f"7  {DENIED}\n7  acct(NULL) = -1 EPERM (Operation not permitted)\n", "--limit=1")
        self.assertEqual((status, lines[-1]), (4, "# syscalls that failed, of which it isn't known: 1"))

    def test_json(self):
        given = self.file("p.json", PROFILE)
        log = (f"7  {DENIED}\n7  {LOAD}\n7  {DENIED}\n7  acct(NULL) = -1 EPERM (Operation not permitted)\n"
               "7  +++ exited with 2 +++\n")
        status, out, err = self.run_tool("why", "--json", "-", given, given=log.encode())
        value = json.loads(out)
        self.assertEqual((status, err, [(each["count"], each["has_ended"]) for each in value["events"]]),
                         (0, "", [(1, True)]))
        others = value["failures"].pop("by_other_cause")
        self.assertEqual([(each["call"]["names"], each["errno"], each["count"]) for each in others], [(["acct"], 1, 1)])
        self.assertEqual(value["failures"], {"count": 2, "denied": 1, "not_shown": [], "unknown": 0, "not_judged": 0,
                                             "before_load": 1})

    def test_many_failures(self):
        """More kinds than are kept are counted, and the answer isn't known then."""
        log = "".join(f"7  socket(AF_NETLINK, SOCK_RAW, {at}) = -1 EAFNOSUPPORT (x)\n" for at in range(1007))
        lines = self.of_status(4, self.why(log))
        self.assertIn("such failures: 1000", lines[0])
        self.assertEqual(lines[-1], "# syscalls that failed with too many different arguments, which aren't judged: 7")
