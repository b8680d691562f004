"""tools/record and `filters-of FOLDER -- PROGRAM`: programs under strace, their logs, statuses and signals."""
import json
import os
import pathlib
import shutil
import signal
import subprocess
import sys
import unittest

from support.common import ALLOW, EPERM, LOADER, X86_64, Case, bytes_of, completed, jeq, load, ret, text_of, tool
from logs import entry, read_log, rules, where
from scftools.model.architectures import NATIVE
from scftools.forms import c_arrays, filters, strace, strace_reader

# Filters that allow all but a syscall that nobody makes.
FIRST, SECOND, THIRD = (load(4) + jeq(X86_64, 0, 2) + load(0) + jeq(number, 1, 0) + ret(ALLOW) + ret(EPERM)
                        for number in (1000, 1001, 1002))
# Loads filters by prctl(2) (PR_SET_SECCOMP 22, SECCOMP_MODE_FILTER 2), or with flags by seccomp(2).
LOADING = LOADER + """
libc, load_with_flags = library, load
def load(data, flags=None):
    if flags is not None:
        return load_with_flags(data, flags)
    libc.prctl(38, 1, 0, 0, 0)
    return libc.prctl(22, 2, ctypes.byref(Program(len(data) // 8, data)))
FIRST, SECOND, THIRD = map(bytes.fromhex, sys.argv[1:4])
"""
TSYNC, NEW_LISTENER = 1, 8


def python(script):
    """The words that run a script behind LOADING."""
    return [sys.executable, "-S", "-c", LOADING + script, FIRST.hex(), SECOND.hex(), THIRD.hex()]


@unittest.skipUnless(shutil.which("strace"), "strace isn't installed")
class Traced(Case):
    def trace(self, script, name="log", options=("-f", "-v")):
        """The path of the log of a script of Python's, whose arguments are the filters."""
        log = self.path(name)
        completed(["strace", *options, "-o", log, *python(script)], check=True)
        return log

    def run_python(self, name, script, *words):
        return self.run_tool(name, *words, "--", *python(script))

    def path(self, name):
        return os.path.join(self.folder, name)

    def taken(self, folder="out"):
        files = sorted(os.listdir(os.path.join(self.folder, folder)))
        return [pathlib.Path(self.folder, folder, name).read_bytes() for name in files]


class Filters(Traced):
    def test_one_process(self):
        """Both calls load filters; a load that fails counts for nothing, and a descriptor is success."""
        status, out, err = self.run_python("filters-of", f"""
load(FIRST)
load(b"\\0" * 8)
load(SECOND, {NEW_LISTENER})
print("hello")""", "out")
        self.assertEqual((status, err), (0, ""))
        self.assertEqual(out, "hello\nout/0.bpf\nout/1.bpf\n")
        self.assertEqual(self.taken(), [FIRST, SECOND])

    def test_children_have_what_their_parents_had(self):
        script = """
load(FIRST)
child = os.fork()
if child == 0:
    load(SECOND)
    os._exit(0)
os.waitpid(child, 0)
load(THIRD)
print(child)"""
        status, out, err = self.run_python("filters-of", script, "out")
        self.assertEqual(status, 2)
        self.assertIn("the processes in the program end with different filters", err)
        self.assertIn("--thread takes those of one", err)
        child = out.strip()
        self.assertIn(f"; {child}: 2 filters, of 6, 6 instructions", err)
        stacks = strace_reader.stacks_in(strace.log_lines(self.trace(script), strace_reader.LONGEST_LOAD))
        self.assertEqual(list(stacks), [(FIRST, SECOND), (FIRST, THIRD)])
        (child,), (parent,) = stacks.values()
        self.assertEqual(self.run_tool("filters-of", "--log", "log", "--thread", child, "a")[0], 0)
        self.assertEqual(self.run_tool("filters-of", "--log", "log", "--thread", parent, "b")[0], 0)
        self.assertEqual([self.taken("a"), self.taken("b")], [[FIRST, SECOND], [FIRST, THIRD]])

    def test_threads(self):
        """A filter is the loading thread's alone, but with SECCOMP_FILTER_FLAG_TSYNC that of all."""
        for flags, count in ((0, 2), (TSYNC, 1)):
            log = self.trace(f"""
load(FIRST)
go, done = threading.Event(), threading.Event()
thread = threading.Thread(target=lambda: (done.set(), go.wait()))
thread.start()
done.wait()
load(SECOND, {flags})
go.set()
thread.join()""", f"log{flags}")
            stacks = strace_reader.stacks_in(strace.log_lines(log, strace_reader.LONGEST_LOAD))
            self.assertEqual(sorted(map(len, stacks)), [1, 2][-count:])
            self.assertEqual(sum(map(len, stacks.values())), 2)

    def test_a_process_without_filters_does_not_count(self):
        status, out, _ = self.run_python("filters-of", """
if os.fork() == 0:
    load(FIRST)
    os._exit(0)
os.wait()
sys.exit(5)""", "out")
        self.assertEqual((status, out), (5, "out/0.bpf\n"))
        for words, whose in ((("none",), ""), (("--thread", "7", "none"), " by 7")):
            self.assertEqual(self.run_tool("filters-of", *words, "--", "true"),
                             (1, "", f"filters-of: no filter is loaded{whose} in the program\n"))
        self.assertFalse(os.path.exists(self.path("none")))

    def test_without_a_folder(self):
        """It is called by the program."""
        name = os.path.basename(sys.executable)
        self.assertEqual(self.run_python("filters-of", "load(FIRST)"), (0, f"{name}.filters/0.bpf\n", ""))
        self.assertEqual(self.taken(f"{name}.filters"), [FIRST])
        self.is_refusal(f"the folder '{name}.filters' already has filters\n",
                        self.run_python("filters-of", "load(FIRST)"))

    def test_a_log_as_a_filter(self):
        self.run_python("filters-of", "load(FIRST)", "out")
        for options, text in ((("-v",), None), ((), "it doesn't show the filters whole: strace does with -v")):
            with open(self.trace("load(FIRST)", options=options), "rb") as file:
                data = b"".join(line for line in file if line.startswith((b"prctl(PR_SET_SECCOMP", b"execve(")))
            if text is None:
                form = filters.form_of(data, "x")
                self.assertEqual((form.name, form.data), ("a strace log", FIRST))
            else:
                self.assertRaisesRegex(filters.program.ToolError, text, filters.form_of, data, "x")

    def test_libseccomp(self):
        """What strace shows of libseccomp's loading is what libseccomp writes."""
        script = """
import seccomp
made = seccomp.SyscallFilter(seccomp.ALLOW)
made.add_rule(seccomp.ERRNO(1), "socket", seccomp.Arg(0, seccomp.EQ, 40))
made.add_rule(seccomp.KILL_PROCESS, "ptrace")
made.add_rule(seccomp.TRACE(7), "swapon")
made.add_rule(seccomp.TRAP, "swapoff")
made.add_rule(seccomp.LOG, "reboot")
made.export_bpf(open("exported", "wb"))
made.load()
"""
        if subprocess.run(["/usr/bin/python3", "-c", "import seccomp"], stderr=subprocess.PIPE, check=False).returncode:
            self.skipTest("python3-seccomp isn't installed")
        self.assertEqual(self.run_tool("filters-of", "out", "--", "/usr/bin/python3", "-c", script)[0], 0)
        self.assertEqual(self.taken(), [bytes_of(self.path("exported"))])

    def test_logs_that_say_too_little(self):
        stack = "{len=1, filter=[BPF_STMT(BPF_RET|BPF_K, SECCOMP_RET_ALLOW)]}"
        loads = f"seccomp(SECCOMP_SET_MODE_FILTER, 0, {stack}) = 0"
        self.assertEqual(strace_reader.stacks_in([loads]), {(ret(ALLOW),): [""]})
        self.assertEqual(strace_reader.stacks_in([loads.replace(" = 0", " = -1 EINVAL (Invalid argument)")]), {})
        self.assertEqual(strace_reader.stacks_in([loads.replace(" = 0", " = 7")]), {})
        with self.assertRaisesRegex(c_arrays.NotAnArray, "1 of a filter's 2 instructions"):
            strace_reader.stacks_in([loads.replace("len=1", "len=2")])
        with self.assertRaisesRegex(c_arrays.NotAnArray, "doesn't number each process"):
            strace_reader.stacks_in([loads, f"[pid 7] {loads}"])
        superseded = ["1 clone(child_stack=0, flags=CLONE_VM|CLONE_THREAD <unfinished ...>", f"2 {loads}",
                      "1 <... clone resumed>) = 2", "1 +++ superseded by execve in pid 2 +++",
                      "1 +++ exited with 0 +++"]
        self.assertEqual(strace_reader.stacks_in(superseded), {(ret(ALLOW),): ["1"]})
        # a thread that has no line yet goes on as its process
        early = ["1 clone(child_stack=0, flags=CLONE_VM|CLONE_THREAD) = 2", superseded[3], f"3 {loads}"]
        self.assertEqual(strace_reader.stacks_in(early), {(ret(ALLOW),): ["3"]})

    def test_each_process_counts_once(self):
        """Its end may stand before its maker's result, which in another PID namespace has another number."""
        stack = "{len=1, filter=[BPF_STMT(BPF_RET|BPF_K, SECCOMP_RET_ALLOW)]}"
        loads, end = f"1 seccomp(SECCOMP_SET_MODE_FILTER, 0, {stack}) = 0", " +++ exited with 0 +++"
        for made, child in (("fork()", "2"), ("fork()", "50"), ("clone(flags=CLONE_VM|CLONE_THREAD)", "2")):
            begun = [loads, f"1 {made[:-1]} <unfinished ...>"]
            resumed = f"1 <... {made.partition('(')[0]} resumed>) = 2"
            for lines in ([*begun, f"{child}{end}", resumed],
                          [*begun, f"{child} prctl(1) = 0", resumed, f"{child}{end}"],
                          [loads, f"1 {made} = 2", f"{child}{end}"]):
                with self.subTest(lines):
                    self.assertEqual(strace_reader.stacks_in([*lines, f"1{end}"]), {(ret(ALLOW),): [child, "1"]})
        # one of which the log has no line has its filters, too
        self.assertEqual(strace_reader.stacks_in([loads, "1 fork() = 2", f"1{end}"]), {(ret(ALLOW),): ["1", "2"]})

    def test_a_program_without_dashes(self):
        """Both tools say where it stands."""
        for words, right in ((("filters-of", "true", "out"), "filters-of -- true out"),
                             (("record", "true", "-x"), "record -- true -x"),
                             (("record", "log", "true"), "record log -- true")):
            self.is_refused(f": 'true' is a program, and stands behind --: `scf {right}`\n", *words)


class Recorded(Traced):
    def test_status_and_signals(self):
        self.assertEqual(self.run_tool("record", "log", "--", "sh", "-c", "cat; echo no >&2; exit 7", given=b"in"),
                         (7, "in", "no\n"))
        self.assertEqual(self.run_tool("record", "log", "--", "sh", "-c", "kill -KILL $$")[0], -signal.SIGKILL)
        self.assertEqual(self.run_tool("record", "log", "--", "nosuch"),
                         (127, "", "record: there is no program 'nosuch'\n"))
        self.assertEqual(self.run_tool("record", "log", "--", self.file("text", b"")),
                         (126, "", f"record: '{self.path('text')}' isn't executable\n"))
        self.assertEqual(self.run_tool("record", "a/b", "--", "true")[0], 2)
        for words in (("log",), ("log", "--"), ("--",), ("a", "b", "--", "true")):
            self.assertEqual(self.run_tool("record", *words)[:2], (2, ""))

    def test_a_profile_is_not_lost(self):
        profile = self.file("p.json", b"{}")
        self.is_refused("p.json' would get the log, not a profile: --profile BASE makes one", "record", profile, "--",
                        "touch", "ran")
        self.assertEqual((bytes_of(profile), os.path.exists(os.path.join(self.folder, "ran"))), (b"{}", False))

    def test_without_a_file(self):
        """It is a new one that is called by the program."""
        program = shutil.which("true")
        self.assertEqual(self.run_tool("record", "--", program), (0, "", "record: writes true.log\n"))
        self.assertIn("exit", pathlib.Path(self.path("true.log")).read_text(encoding="utf-8"))
        self.assertEqual(self.run_tool("record", "--", program),
                         (2, "", "record: 'true.log' is there already: name it to write over it, or another one\n"))
        base = self.file("base.json", b'{"defaultAction": "SCMP_ACT_ERRNO"}')
        status, _, err = self.run_tool("record", "--profile", base, "--widen", "--", program)
        self.assertEqual((status, err.split("\n")[0]), (0, "record: writes true.json"))
        entries = json.loads(text_of(self.path("true.json")))["syscalls"]
        self.assertIn("exit_group", [name for entry in entries for name in entry["names"]])

    def test_the_terminal_interrupts_the_program_alone(self):
        script = "trap 'echo caught; exit 3' INT; echo ready; while :; do sleep 0.1; done"
        with subprocess.Popen([tool("record"), self.path("log"), "--", "sh", "-c", script], stdout=subprocess.PIPE,
                              start_new_session=True, cwd=self.folder) as process:
            self.assertEqual(process.stdout.readline(), b"ready\n")
            os.killpg(process.pid, signal.SIGINT)
            self.assertEqual((process.stdout.read(), process.wait()), (b"caught\n", 3))

    def test_registers_are_whole(self):
        """Both halves of an argument are known, whatever bit 31 is: 0x80000000 isn't its sign."""
        script = "libc.syscall(1000, *map(ctypes.c_ulong, (1 << 31, 1 << 63 | 5, 0, 2 ** 64 - 1, 7, 8)))"
        self.assertEqual(self.run_python("record", script, "log")[0], 0)
        log = read_log(text_of(self.path("log")), range(4))
        self.assertIn((NATIVE, "syscall_0x3e8", ((1 << 31,), (1 << 63 | 5,), (0,), (2 ** 64 - 1,))), log.calls)

    def test_least_profile(self):
        base = self.file("base.json", rules(entry("personality", args=[where(0, "EQ", 0xFFFFFFFF)])))
        script = "libc.personality(ctypes.c_ulong(0xFFFFFFFF)); print('ran')"
        status, out, err = self.run_python("record", script, "--profile", base, "least.json")
        self.assertEqual((status, out), (1, "ran\n"))
        self.assertIn("record: needed, and PROFILE denies it: 231 exit_group ERRNO 1 default", err)
        entries = json.loads(text_of(self.path("least.json")))["syscalls"]
        self.assertEqual([entry["names"] for entry in entries], [["personality"]])
        status, out, err = self.run_python("record", script + "; sys.exit(7)", "--profile", base, "least.json")
        self.assertEqual((status, out), (7, "ran\n"))
        for words in (("--widen",), ("--runtime", "crun"), ("--runtime", "x", "--profile", base)):
            self.assertEqual(self.run_python("record", script, *words, "least.json")[:2], (2, ""))
        status, out, err = self.run_python("record", script, "--profile", base, "--widen", "--runtime", "crun",
                                           "least.json")
        self.assertEqual((status, out), (0, "ran\n"), err)
        self.assertIn("PROFILE denies it: 126 capset ERRNO 1 default (made by crun itself, before it executes the "
                      "program)\n", err)
        least = json.loads(text_of(self.path("least.json")))
        entries = {tuple(entry["names"]): entry.get("args") for entry in least["syscalls"]}
        self.assertEqual(entries[("personality",)], [where(0, "EQ", 0xFFFFFFFF)])
        self.assertEqual(least["defaultAction"], "SCMP_ACT_ERRNO")
        status, out, _ = self.run_python("record", "print('ran')", "--profile", self.file("bad", b"{}"), "least.json")
        self.assertEqual((status, out.split("\n")[0]), (2, "fault profile Missing"))
