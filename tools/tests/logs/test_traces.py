"""tools/needs: logs of other programs than strace, each as the program writes it here, beside strace's of the same run;
and what container runtimes call themselves."""
import contextlib
import json
import os
import re
import shutil
import socket
import subprocess
import sys
import unittest

from support.common import CONFINED, Case, bytes_of, completed, profile_of, sample, text_of
from support.containers import Box
from support.oci import ERRNO
from forms.test_runtimes import config
from logs import Listener, entry, read_log, rules
from scftools.model import architectures, tables
from scftools.forms import runtimes
from scftools.logs import least_profile

TIMES = "11/27/26 05:35:00.752"
RECORD = ('pid=7 comm="x" exe="/x" sig=0 arch=c000003e syscall={} compat=0 ip=0x7f code=0x7ffc0000')
SYSCALL = ('type=SYSCALL msg=audit(1795757700.752:4): arch={} syscall={} success=yes exit=3 a0={} a1=7f3 a2=80000 a3=0 '
           'items=1 ppid=1 pid=2 auid=0 comm="ls" exe="/bin/ls" key=(null)')


def calls_of(text, looked_at=()):
    """How often each syscall stands in a log, by its name; and the whole log."""
    found = read_log(text, looked_at, {architectures.NATIVE: tables.read_table(None)})
    calls = {(name, *values) if looked_at else name: seen.count for (_, name, values), seen in found.calls.items()}
    return calls, found


def made_in(text, looked_at=(), own=architectures.NATIVE):
    """The same with the architecture of each syscall, as people call it."""
    known = tables.architecture_tables(architectures.JUDGED, tables.read_table(None)).of
    found = read_log(text, looked_at, known, own)
    return {(architectures.JUDGED[of].name, name, *values): seen.count
            for (of, name, values), seen in found.calls.items()}, found


class Written(Case):
    """What a program does, by strace and by others. Each other log has the same syscalls, as often."""

    PROGRAM = ("ls", "/")

    def written(self, *words, without=(), is_counted=True):
        """The syscalls in a log that a program writes to the file `log`, and of strace's those beside `without`."""
        self.needs(words[0])
        log = os.path.join(self.folder, "log")
        # ls asks what its output is
        traced = self.strace("-f", *self.PROGRAM)[0]
        done = completed(words, cwd=self.folder)
        text = done.stdout.decode("latin-1")
        if os.path.exists(log):
            text = text_of(log)
        self.skip_if(not text, f"{words[0]} may not trace here: {done.stderr[-200:]}")
        expected = calls_of(text_of(traced))[0]
        found, log = calls_of(text)
        expected = {name: count for name, count in expected.items() if name not in without}
        self.assertEqual(found if is_counted else set(found), expected if is_counted else set(expected))
        return text, log

    def test_perf_trace(self):
        # (-s counts what returns, and exit_group doesn't)
        for options, without in (((), ()), (("-s",), ("exit_group",))):
            _, log = self.written("perf", "trace", *options, "-o", "log", *self.PROGRAM, without=without)
            self.assertEqual((log.unjudged["lines"], log.unjudged["lost"]), (0, 0))

    def test_perf_script(self):
        """With all arguments; recording begins with the program's execve, which isn't in it."""
        words = ("sh", "-c", 'perf record -q -o data -e raw_syscalls:sys_enter "$@" >&2; perf script -i data >log',
                 "sh")
        self.needs("perf")
        text, log = self.written(*words, *self.PROGRAM, without=("execve",))
        self.assertEqual(log.unjudged["lines"], 0)
        known = calls_of(text, range(6))[0]
        # openat with AT_FDCWD (linux/fcntl.h) and O_RDONLY|O_CLOEXEC
        self.assertTrue(any(name == "openat" and values[0] == (0xFFFFFF9C,) and values[2] == (0o2000000,)
                            for name, *values in known), known)

    def test_bpftrace(self):
        program = "tracepoint:raw_syscalls:sys_enter /pid == cpid/ { @[args->id] = count(); }"
        self.skip_if(os.geteuid(), "bpftrace needs root")
        # (it begins the program with a file of its own open)
        words = ("-o", "log", "-e", program, "-c", f"{shutil.which(self.PROGRAM[0])} /")
        self.written("bpftrace", *words, is_counted=False)

    def test_records_of_seccomp(self):
        """Of a program under a profile that logs each syscall."""
        try:
            listener = Listener()
        except OSError as error:
            self.skipTest(f"the kernel's audit records can't be heard here: {error.strerror}")
        self.addCleanup(listener.socket.close)
        filters = self.filter_file(self.file("p.json", profile_of(default="SCMP_ACT_LOG")))
        child = subprocess.Popen([sys.executable, "-ISc", CONFINED, filters, shutil.which("true")])
        child.wait()
        # the kernel's thread hands them on when it runs; the last is that of exit_group
        listener.socket.settimeout(30)
        records = []
        with contextlib.suppress(socket.timeout):
            for record in listener.records_of(child.pid):
                records.append(record)
                if " syscall=231 " in record:
                    break
        log = self.file("log", "\n".join(records))
        found = json.loads(self.output_of(1, "needs", "--json", log, self.file("q.json", profile_of())))
        expected = calls_of(text_of(self.strace(shutil.which("true"))[0]))[0]
        self.assertEqual({it["name"]: it["count"] for it in found["calls"]}, expected)
        self.assertEqual(found["not_judged"], {"names": {}, "foreign": 0, "cut": 0, "more": 0, "lines": 0, "lost": 0,
                                               "before_load": 0})


class Lines(unittest.TestCase):
    """Lines in the forms of the programs' sources, and lines that are none."""

    def test_records_of_syscalls(self):
        """audit_log_exit in kernel/auditsc.c of Linux, and what ausearch -i of audit 3.0.9 prints of it."""
        raw = SYSCALL.format("c000003e", 257, "ffffff9c")
        shown = (f'type=SYSCALL msg=audit({TIMES}:4) : arch=x86_64 syscall=openat success=yes exit=3 a0=AT_FDCWD '
                 'a1=0x7f3 a2=O_RDONLY|O_CLOEXEC a3=0x0 items=1 ppid=1 pid=2 auid=root comm=ls exe=/bin/ls key=(null)')
        others = f"type=PATH msg=audit({TIMES}:4) : item=0\ntype=EOE msg=audit(1.0:4): \n----\ntime->Fri Nov 27\n"
        self.assertEqual(calls_of(raw, range(5))[0], {("openat", (0xFFFFFF9C,), (0x7F3,), (0x80000,), (0,), None): 1})
        self.assertEqual(calls_of(shown, range(5))[0], {("openat", None, (0x7F3,), None, (0,), None): 1})
        self.assertEqual((calls_of(others)[0], calls_of(others)[1].unjudged["lines"]), ({}, 0))
        found, log = calls_of(raw.replace("arch=c000003e", "arch=40000003"))
        self.assertEqual((found, log.unjudged["foreign"]), ({}, 1))
        found, log = calls_of(raw.replace("syscall=257", "syscall=x"))
        self.assertEqual((found, log.unjudged["lines"]), ({}, 1))
        self.assertEqual(log.fault, "line 1 can't be read: syscall=x: the table has no such name: print the record "
                                    "without -i")

    def test_records_of_seccomp(self):
        for leader in ("audit: type=1326 audit(1.0:2): ", "[  6.5] audit: type=1326 audit(1.0:2): ",
                       "Nov 27 05:35:00 vm audit[7]: SECCOMP auid=0 ", "type=SECCOMP msg=audit(1.0:2): "):
            self.assertEqual(calls_of(leader + RECORD.format(257))[0], {"openat": 1})
        found, log = calls_of("\n".join(["audit: type=1326 audit(1.0:2): " + RECORD.format(it) for it in (
            0, 0, 999, -1, 0x40000000)] + ["audit: kauditd_printk_skb: 12 callbacks suppressed"]))
        self.assertEqual((found, log.unjudged["lines"], log.unjudged["foreign"], log.unjudged["lost"]),
                         ({"read": 2, "syscall_0x3e7": 1}, 1, 1, 12))

    def test_records_of_other_architectures(self):
        """By linux/audit.h; an x32 number has 0x40000000 added. By the headers openat is 295 on i386, 56 on aarch64 and
        riscv64, 322 on arm, 257 on x32 and 4288 on mipsel."""
        for arch, number, name in (("40000003", 295, "i386"), ("c00000b7", 56, "aarch64"), ("40000028", 322, "arm"),
                                   ("c000003e", 0x40000000 + 257, "x32"), ("i386", "openat", "i386"),
                                   ("aarch64", "openat", "aarch64"), ("c00000f3", 56, "riscv64"),
                                   ("40000008", 4288, "mipsel")):
            for own in (architectures.NATIVE, architectures.AARCH64):
                found, log = made_in(SYSCALL.format(arch, number, "ffffffffffffff9c"), (0, 4), own)
                expected = 0xFFFFFFFFFFFFFF9C if name in ("aarch64", "riscv64") else 0xFFFFFF9C
                self.assertEqual((found, log.unjudged["foreign"]), ({(name, "openat", (expected,), None): 1}, 0))
            record = RECORD.format(number).replace("c000003e", arch)
            self.assertEqual(made_in(f"audit: type=1326 audit(1.0:2): {record}")[0], {(name, "openat"): 1})
        found, log = made_in(SYSCALL.format("40000003", 999, "0") + "\n" + SYSCALL.format("80000016", 56, "0"))
        self.assertEqual((found, log.unjudged["foreign"]), ({("i386", "syscall_0x3e7"): 1}, 1))

    def test_logs_of_another_machine(self):
        """By asm-generic/unistd.h openat is 56, and socket 198."""
        text = ("@[56]: 3\n@[sys_enter_openat]: 2\n x-7 [001] 5.1: sys_enter: NR 198 (10, 3, 9, 0, 0, 0)\n"
                "     0.1 ( 0.1 ms): brk() = 0\n1 05:35:00.2 1 ls (7) > pread fd=3 \n")
        self.assertEqual(made_in(text, (), architectures.AARCH64)[0], {
            ("aarch64", "openat"): 5, ("aarch64", "socket"): 1, ("aarch64", "brk"): 1, ("aarch64", "pread64"): 1})
        # of a machine of x86-64 a number may be x32's
        self.assertEqual(made_in("@[1073741824]: 2\n@[0]: 1")[0], {("x32", "read"): 2, ("x86-64", "read"): 1})

    def test_perf_trace(self):
        """Of a thread whose syscall was interrupted, two lines are one syscall."""
        found, log = calls_of("     0.1 (         ): sleep/7 nanosleep(rqtp: 0x7ff) ...\n"
                              "     0.2 ( 0.1 ms): ls/8 brk() = 0\n"
                              "     9.1 ( 9.0 ms): sleep/7  ... [continued]: nanosleep()) = 0\nLOST 3 events!\n")
        self.assertEqual((found, log.unjudged["lines"], log.unjudged["lost"]), ({"nanosleep": 1, "brk": 1}, 0, 3))
        self.assertEqual(calls_of("     0.1 ( 0.1 ms): brk() = 0")[0], {"brk": 1})
        # a text in an argument is no syscall
        self.assertEqual(calls_of('     0.1 ( 0.1 ms): ls/8 openat(filename: "/7 mount(") = 3')[0], {"openat": 1})

    def test_a_record_in_an_argument_is_none(self):
        """Of whatever type: the syscall in whose arguments it stands isn't left out."""
        for record in (SYSCALL.format("c000003e", 41, "0"), "type=PATH msg=audit(1.0:2): item=0",
                       "audit: type=1326 audit(1.0:2): " + RECORD.format(41),
                       "audit: kauditd_printk_skb: 12 callbacks suppressed"):
            for line in ('     0.1 ( 0.1 ms): ls/8 openat(filename: "/ {}") = 3',
                         "1 05:35:00.1 0 ls (7) > openat dirfd=-100(AT_FDCWD) name=/ {} mode=0"):
                found, log = calls_of(line.format(record))
                self.assertEqual((found, log.unjudged["lines"], log.unjudged["lost"]), ({"openat": 1}, 0, 0),
                                 line.format(record))

    def test_other_programs(self):
        """trace_raw_output_sys_enter of the kernel, as its trace and trace_pipe print it; maps of bpftrace; *%evt.num
        %evt.outputtime %evt.cpu %proc.name (%thread.tid) %evt.dir %evt.type %evt.info (sysdig(8))."""
        pipe = "# tracer: nop\n#\n           <...>-7       [001] .....  5.1: sys_enter: NR 41 (10, 3, 9, 0, 0, 0)\n"
        maps = ("Attaching 2 probes...\n\n@[41]: 3\n@calls[tracepoint:syscalls:sys_enter_openat]: 2\n"
                "@[999]: 1\n@[sys_enter_read]: 1\n@[ls, 41]: 9\n@[x]: 1\n@: 7\n@[1073741824]: 1\n")
        sysdig = ("1 05:35:00.123456789 0 ls (7) > openat dirfd=-100(AT_FDCWD) name=/etc flags=1(O_RDONLY) mode=0 \n"
                  "2 05:35:00.123456789 0 ls (7) < openat fd=3(<d>/etc) dirfd=-100(AT_FDCWD) name=/etc \n"
                  "3 05:35:00.123456799 1 a b (8.9) > pread fd=3 \n4 05:35:00.2 1 ls (7) > switch next=0 \n"
                  "5 05:35:00.2 1 ls (7) > syscall ID=212(set_robust_list) nativeID=273 \n"
                  "6 05:35:00.3 0 ls (7) > pipe \n")
        for text, looked_at, calls, lines, foreign in (
                (pipe, (0, 2), {("socket", (16,), (9,)): 1}, 0, 0),
                (maps, (), {"socket": 3, "openat": 2, "syscall_0x3e7": 1, "read": 1}, 3, 1),
                (sysdig, (), {"openat": 1, "pread64": 1, "set_robust_list": 1, "pipe or pipe2": 1}, 0, 0)):
            found, log = calls_of(text, looked_at)
            self.assertEqual((found, log.unjudged["lines"], log.unjudged["foreign"]), (calls, lines, foreign))

    def test_what_strace_prints_is_no_other_log(self):
        """A text that a program writes may look like any of them."""
        for text in ("audit: type=1326 audit(1.0:2): " + RECORD.format(257), "     0.1 ( 0.1 ms): ls/8 brk() = 0",
                     "1 05:35:00.1 0 ls (7) > mount ", "sys_enter: NR 41 (10, 3, 9, 0, 0, 0)", "@[41]: 3"):
            for leader in ("", "7  ", "[pid 7] ", "05:35:00 "):
                self.assertEqual(calls_of(f'{leader}write(1, "{text}", 300) = 300')[0], {"write": 1})


class Words(Case):
    HOOKS = rules({**entry("read", "openat", comment="", includes={}, excludes={}), "args": []},
                  {**entry("mount", action=ERRNO), "args": []}, architectures=["SCMP_ARCH_X86_64"])

    def test_a_profile_that_was_made_of_a_log(self):
        """As oci-seccomp-bpf-hook 1.2 writes it (the types of containers-common)."""
        for text in (json.dumps(self.HOOKS), "\n\n" + json.dumps(self.HOOKS, indent=2)):
            log, profile = self.file("hook.json", text), self.file("p.json", profile_of("read"))
            out = self.output_of(1, "needs", log, profile)
            self.assertEqual(out.split("\n")[0], "257 openat ERRNO 1 default")
            self.assertIn("allowed 1, not allowed 1, depends 0\n", out)
        self.is_refused("x.json' is a profile that can't be read\n", "needs", self.file("x.json", '{"a\x1b": '),
                        self.file("p.json", profile_of()))

    def test_several_logs(self):
        one = self.file("one", "7  openat(3) = 3\n7  [ Process PID=7 runs in 32 bit mode. ]\n7  brk(0) = 0\n")
        two = self.file("two\x1b", "@[257]: 2\n@[9]: 1\n")
        three = self.file("three", "7  mmap(1) = 0\n")
        out = self.output_of(1, "needs", one, two, three, self.file("p.json", profile_of("read")))
        shown = two.replace("\x1b", "\\x1b")
        self.assertEqual(out, f"9 mmap ERRNO 1 default\n# 2 times, first in line 2 of '{shown}'\n"
                              f"257 openat ERRNO 1 default\n# 3 times, first in line 1 of '{one}'\n"
                              f"i386 45 brk KILL_PROCESS 0 foreign\n# once in line 3 of '{one}'\n"
                              "# i386 syscalls aren't allowed, since the profile doesn't list SCMP_ARCH_X86: engines' "
                              "filters kill for them\n"
                              "# syscalls, each with the arguments that conditions test: allowed 0, not allowed 3, "
                              "depends 0\n")
        status, out, _ = self.run_tool("needs", "--widen", one, two, three, self.file("p.json", profile_of("read")))
        self.assertEqual((status, json.loads(out)["syscalls"][0]["names"][:2]), (1, ["mmap", "openat"]))
        self.assertEqual(self.run_tool("needs", "-", "-", one)[:2], (2, ""))

    def test_before_a_filter_is_loaded(self):
        """Of the log that shows it, as of `why`, only what is made under the filter is judged."""
        one = self.file("one", "read(1) = 1\n")
        load = "7 seccomp(SECCOMP_SET_MODE_FILTER, 0, {len=3, filter=0x7ffd5c1d}) = 0\n"
        two = self.file("two", f"7 open(1) = 3\n7 what(1) = 3\n{load}7 close(3) = 0\n8 write(1) = 1\n"
                               f"7 clone(0, flags=SIGCHLD) = 9\n9 read(3) = 1\n{load}")
        status, out, _ = self.run_tool("needs", "--json", one, two, self.file("p.json", profile_of("read")))
        found = json.loads(out)
        self.assertEqual((status, found["not_judged"]["before_load"]), (1, 4))
        self.assertEqual({it["name"]: it["count"] for it in found["calls"]},
                         {"read": 2, "close": 1, "clone": 1, "seccomp": 1})
        self.assertIn("# syscalls before a filter is loaded, or in a process without one, which aren't judged: 4\n",
                      self.run_tool("needs", one, two, self.file("p.json", profile_of("read")))[1])

    def test_the_kernels_log(self):
        """It may lack records, which auditd's log doesn't."""
        for before, is_of_kernel in (("[    1.000000] audit: type=1326 ", True), ("type=SECCOMP msg=", False),
                                     ("type=1326 msg=", False)):
            log = self.file("log", f"{before}audit(1700000000.1:2): {RECORD.format(0)}\n")
            status, out, _ = self.run_tool("needs", log, self.file("p.json", profile_of("read")))
            self.assertEqual((status, "drops those beyond its rate limit" in out), (0, is_of_kernel))

    def test_what_runtimes_call(self):
        log, profile = self.file("log", "read(1) = 1\n"), self.file("p.json", profile_of("read", "execve", "write"))
        out = self.of_status(1, self.run_tool("needs", "--runtime", "crun", log, profile))
        self.assertIn("126 capset ERRNO 1 default\n# made by crun itself, before it executes the program\n", out)
        for runtime, calls in runtimes.OWN_CALLS.items():
            # x86-64 has no sigreturn
            every = {"read", *calls.names, *least_profile.ALWAYS_CALLED} - {"sigreturn"}
            for word, base, status, names in (
                    ("--widen", profile, 0, every), ("--profile", self.file("e.json", profile_of(*every)), 0, every),
                    ("--profile", profile, 1, every & {"read", "execve", "write"})):
                done = self.run_tool("needs", word, "--runtime", runtime, log, base)
                self.assertEqual((done[0], set(json.loads(done[1])["syscalls"][0]["names"])), (status, names))
                lacking = set() if base != profile else every - {"read", "execve", "write"}
                self.assertEqual(done[2].count("PROFILE denies it"),
                                 len(lacking if word == "--widen" else lacking - {*least_profile.ALWAYS_CALLED}))
        self.assertEqual(self.run_tool("needs", "--runtime", "x", log, profile)[:2], (2, ""))


# Says that it has begun by writev, and ends by exit_group, which are all that it calls.
BEGUN = sample("begun.c")


@unittest.skipUnless(os.geteuid() == 0 and shutil.which("busybox") and shutil.which("strace") and shutil.which("cc"),
                     "needs root, busybox, strace and a C compiler")
class Containers(Case):
    """A container starts under the least profile with what its runtime calls, and not without."""

    def least(self, *words):
        log = self.strace("-f", "busybox", "echo", "begun")[0]
        out = self.of_status(0, self.run_tool("needs", "--widen", *words, log, self.file("p.json", profile_of())))
        return {**json.loads(out), "architectures": ["SCMP_ARCH_X86_64"]}

    def run_container(self, runtime, seccomp, is_created=False, tracer=(), **process):
        """What a container prints, also of one that is created, then started, and of a traced runtime."""
        whole = config(seccomp)
        whole["process"].update({"args": ["/bin/busybox", "echo", "begun"], **process})
        read, write = os.pipe()
        with contextlib.closing(Box(runtime)) as box, os.fdopen(read, encoding="utf-8") as file:
            subprocess.run(["cc", "-O1", "-static", "-nostdlib", "-fno-stack-protector", "-o",
                            f"{box.where}/rootfs/begun", "-x", "c", "-"], input=BEGUN.encode(), check=True)
            done = box.make(whole, "create" if is_created else "run", before=tracer, stdout=write)
            os.close(write)
            if is_created and not done[0]:
                box.call("start", box.name)
            return file.read()

    def tried(self, runtime):
        self.needs(runtime)
        least = self.least("--runtime", runtime)
        for process in ({}, {"noNewPrivileges": True}, {"user": {"uid": 1000, "gid": 1000, "additionalGids": [5]}}):
            for is_created in (False, True):
                self.assertEqual(self.run_container(runtime, least, is_created, **process), "begun\n", process)
        self.assertEqual(self.run_container(runtime, self.least()), "")
        self.dies(runtime)
        self.starts_nothing(runtime)

    def dies(self, runtime):
        """Of the log of a container that dies of its profile `needs` judges what is made under it, as `why` does, and
        makes a profile of it under which the container runs."""
        log = os.path.join(self.folder, "started")
        args = ["/bin/busybox", "sh", "-c", "/bin/busybox mkdir /dev/x && echo begun"]
        table = tables.read_table(None)
        denying = rules(entry(*(name for name in table.names() if name not in ("mkdir", "clone3"))),
                        architectures=["SCMP_ARCH_X86_64"])
        given = self.file("denying.json", denying)
        for _ in range(9):
            self.assertEqual(self.run_container(runtime, denying, tracer=("strace", "-f", "-o", log), args=args), "")
            lines = text_of(log).splitlines()
            # (strace may not see which syscall a process makes that is killed: `needs` says that it can't judge it)
            if not any(" ???" in line for line in lines):
                break
        if not any("mkdir(" in line and "= -1 EPERM" in line for line in lines):
            self.skipTest("strace may not trace a container here")
        why = self.run_tool("why", "--runtime", runtime, "-", given, given=bytes_of(log))[1]
        self.assertIn("the syscall is mkdir (83)", why)
        status, out, _ = self.run_tool("needs", "--runtime", runtime, log, given)
        self.assertEqual((status, [line for line in out.split("\n")[:-1] if line[0] != "#"]),
                         (1, ["83 mkdir ERRNO 1 default"]))
        self.assertGreater(int(re.search("in a process without one, which aren't judged: ([0-9]+)", out)[1]), 100)
        status, out, err = self.run_tool("needs", "--widen", "--runtime", runtime, log, given)
        self.assertEqual((status, "mount" in out), (0, False))
        self.assertEqual(err.count("allowed, though PROFILE denies it: 83 mkdir"), 1)
        self.assertEqual(self.run_container(runtime, json.loads(out), args=args), "begun\n")

    def starts_nothing(self, runtime):
        """`lint` says so of profiles that deny or kill for what the runtime calls, with or without noNewPrivileges."""
        own, killing = runtimes.OWN_CALLS[runtime], "SCMP_ACT_KILL_PROCESS"
        for calls, action, starts in (
                (own.denied, ERRNO, (False, False)), (own.killed, killing, (False, False)),
                (own.killed, ERRNO, (True, True)), (own.denied_early, ERRNO, (False, True)),
                (own.killed_early, killing, (False, True)), (own.killed_early, ERRNO, (True, True))):
            for call in calls[-1:]:
                profile = rules(entry(*(name for name in tables.read_table(None).names() if name != call)),
                                default=action, architectures=["SCMP_ARCH_X86_64"])
                out = self.run_tool("lint", "--runtime", runtime, self.file("l.json", profile))[1]
                where = " without noNewPrivileges" if starts[1] else ""
                self.assertEqual(f"starts nothing{where}: it calls {call} itself" in out, not all(starts), out)
                self.assertEqual("no-start" in out, not all(starts))
                self.assertEqual(tuple(self.run_container(runtime, profile, noNewPrivileges=has, args=["/begun"]) ==
                                       "begun\n" for has in (False, True)), starts, (runtime, call, action))

    def test_runc(self):
        self.tried("runc")

    def test_crun(self):
        self.tried("crun")
