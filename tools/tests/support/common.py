"""What the tests share: running a tool, made filters, profiles and tables, and which options this scf has."""
import importlib
import json
import os
import resource
import shutil
import struct
import subprocess
import sys
import tempfile
import time
import traceback
import unittest
import warnings
from unittest import mock

from . import json_schema

TOP = os.path.abspath(os.path.join(os.path.dirname(__file__), "..", "..", ".."))
# (some tests read profiles a second way, as those of the kernel do)
sys.path[:0] = [os.path.join(TOP, "tools"), os.path.join(TOP, "conformance")]

from scftools.cli.commands import NAMES, module_of  # noqa: E402

SCF = os.path.join(TOP, "scf")
# The commands, by all of their names.
TOOLS = sorted(NAMES)
# The proved program alone, which is built if it never was.
CORE = [SCF, "core"]
PROGRAM = os.path.join(TOP, "crates", "scf", "out", "scf")
TABLE = os.path.join(TOP, "tables", "x86_64.table")
X86_64, I386 = 0xC000003E, 0x40000003
# The bit of x32 syscall numbers.
X32 = 0x40000000
# linux/seccomp.h
ALLOW, EPERM, ENOSYS, KILL_PROCESS, KILL_THREAD = 0x7FFF0000, 0x00050001, 0x00050026, 0x80000000, 0
TRAP, USER_NOTIF, TRACE, LOG = 0x00030000, 0x7FC00000, 0x7FF00000, 0x7FFC0000
# How long anything is waited for, in seconds, before it counts as something that hangs. It measures nothing: on a slow
# machine that does much else, what takes a minute elsewhere takes a quarter of an hour.
PATIENCE = 900


def tool(name):
    return os.path.join(TOP, "tools", name)


def for_developers(name):
    """A program for those who change scf."""
    return os.path.join(TOP, "dev", name)


def source_of(name):
    """The module of a tool, whose docstring is the tool's manual."""
    return os.path.join(TOP, "tools", *module_of(name).split(".")) + ".py"


def module(name):
    """A tool, imported."""
    return importlib.import_module(module_of(name))


def forked(words, prepare=None):
    """What a child does in place of the start of a tool, whose words these are: it prepares itself, runs the tool's
    module, as this process imported it, and ends. That takes a tenth of the time of a start."""
    main, stdio = module(os.path.basename(words[0])).main, sys.__stdout__

    def run():
        try:
            if prepare is not None:
                prepare()
            os.closerange(3, os.sysconf("SC_OPEN_MAX"))
            warnings.simplefilter("ignore")
            sys.argv = list(map(os.fsdecode, words))
            sys.stdin, sys.stdout, sys.stderr = (
                open(file, mode, encoding=stdio.encoding, errors=errors, closefd=False) for file, mode, errors in (
                    (0, "r", stdio.errors), (1, "w", stdio.errors), (2, "w", "backslashreplace")))
            importlib.import_module("scftools.base.program").start(main)
        except BaseException:
            traceback.print_exc()
        finally:
            os._exit(1)
    return run


def insn(code, k, jt=0, jf=0):
    return struct.pack("<HBBI", code, jt, jf, k)


def load(at):
    return insn(0x20, at)


def jeq(k, jt, jf):
    return insn(0x15, k, jt, jf)


def jge(k, jt, jf):
    return insn(0x35, k, jt, jf)


def jgt(k, jt, jf):
    return insn(0x25, k, jt, jf)


def jset(k, jt, jf):
    return insn(0x45, k, jt, jf)


def ret(k):
    return insn(0x06, k)


# Leaves 0 in A: the low word of the first argument with its lowest bit set, XOR the word, has no other bit. A bit of it
# is known only where the word's is, so answers behind a test of it take more splits than the default.
UNKNOWN_ZERO = load(16) + insn(0x07, 0) + insn(0x44, 1) + insn(0xAC, 0) + insn(0x74, 1)


def gate(native, foreign=KILL_PROCESS):
    """A filter with this answer to foreign architectures and to numbers of x32, before code for other syscalls."""
    return load(4) + jeq(X86_64, 1, 0) + ret(foreign) + load(0) + jge(X32, 0, 1) + ret(foreign) + native


# The same in the fewest instructions, as scf compiles it.
GATE = load(4) + jeq(X86_64, 0, 2) + load(0) + jge(X32, 0, 1) + ret(KILL_PROCESS)


def filter_of(allowed, default=EPERM, foreign=KILL_PROCESS):
    """A filter that allows some numbers."""
    tests = b"".join(jeq(number, len(allowed) - at, 0) for at, number in enumerate(allowed))
    return gate(tests + ret(default) + ret(ALLOW), foreign)


def stub(number, answer=ENOSYS):
    """What runc puts before a filter: numbers from this one on are answered so."""
    return load(0) + jge(number, 0, 1) + ret(answer)


# What a script of Python's begins with that puts its thread under filters: load has the kernel take the bytes of one,
# by seccomp(2) with flags (317, SECCOMP_SET_MODE_FILTER), behind PR_SET_NO_NEW_PRIVS; it returns less than 0 if it
# isn't taken.
LOADER = """
import ctypes, json, os, resource, sys, threading, time
library = ctypes.CDLL(None, use_errno=True)
class Program(ctypes.Structure):
    _fields_ = [("len", ctypes.c_ushort), ("filter", ctypes.c_char_p)]
def load(data, flags=0):
    library.prctl(38, 1, 0, 0, 0)
    return library.syscall(317, 1, flags, ctypes.byref(Program(len(data) // 8, data)))
"""
# Puts itself under the filter in a file, and becomes the program of its other words; status 99: none is taken here.
CONFINED = LOADER + """
if load(open(sys.argv[1], "rb").read()) < 0:
    os._exit(99)
os.execv(sys.argv[2], sys.argv[2:])
"""


def bytes_of(*path):
    """The bytes of a file, by the parts of its path."""
    with open(os.path.join(*path), "rb") as file:
        return file.read()


def text_of(*path):
    return bytes_of(*path).decode("utf-8", "replace")


def rows(path):
    """The words of each line of a table."""
    return [line.split() for line in text_of(path).splitlines() if line[0] != "#"]


def sample(name):
    """A text that tests have as a file in its own language: a program in C, a header, a table."""
    return text_of(TOP, "tools", "tests", "samples", name)


def completed(words, given=b"", **settings):
    """How a command ends on these bytes: its status, and as bytes what it printed and said."""
    if "stdin" not in settings:
        settings["input"] = given
    return subprocess.run(words, **{"stdout": subprocess.PIPE, "stderr": subprocess.PIPE, "timeout": PATIENCE,
                                    "check": False, **settings})


def comes(holds):
    """Whether something holds in the end."""
    until = time.monotonic() + PATIENCE
    while not holds():
        if time.monotonic() > until:
            return False
        time.sleep(0.005)
    return True


def taken():
    """The seconds of a processor that the children took which have ended; other load adds little to them."""
    used = resource.getrusage(resource.RUSAGE_CHILDREN)
    return used.ru_utime + used.ru_stime


def limited(seconds, memory=None):
    """What a child does before it runs a tool: it and all that it runs are ended by SIGXCPU, each once it took so many
    seconds of a processor, and are refused more bytes of address space."""
    def limit():
        resource.setrlimit(resource.RLIMIT_CPU, (seconds, seconds + 1))
        if memory is not None:
            resource.setrlimit(resource.RLIMIT_AS, (memory, memory))
    return limit


def profile_of(*names, default="SCMP_ACT_ERRNO"):
    entries = [{"names": list(names), "action": "SCMP_ACT_ALLOW"}] if names else []
    return json.dumps({"defaultAction": default, "syscalls": entries}).encode()


def part(kind, data):
    return b"%s %d\n" % (kind.encode(), len(data)) + data


class Case(unittest.TestCase):
    """A test in a folder of its own."""

    def setUp(self):
        self.folder = tempfile.mkdtemp()
        self.addCleanup(shutil.rmtree, self.folder, ignore_errors=True)

    def skip_if(self, is_lacking, why):
        """Skips the test where this machine lacks what it needs."""
        if is_lacking:
            self.skipTest(why)

    def needs(self, *programs):
        """Skips the test where one of these programs isn't there."""
        for name in programs:
            self.skip_if(not shutil.which(name), f"there is no {name} here")

    def text_of_error(self, error, call, *words, **settings):
        """The text of an error that a call raises."""
        with self.assertRaises(error, msg=words) as caught:
            call(*words, **settings)
        return str(caught.exception)

    def patched(self, where, name, value):
        """Lets a name of a module or class stand for another value in this test."""
        patch = mock.patch.object(where, name, value)
        patch.start()
        self.addCleanup(patch.stop)

    def alongside(self, *words, **settings):
        """A process with these words, which ends with the test."""
        child = subprocess.Popen(words, **settings)
        self.addCleanup(child.__exit__, None, None, None)
        self.addCleanup(child.kill)
        return child

    def file(self, name, data):
        """A file with these bytes, this text, or another value as JSON."""
        path = os.path.join(self.folder, name)
        os.makedirs(os.path.dirname(path), exist_ok=True)
        text = data if isinstance(data, (bytes, str)) else json.dumps(data)
        with open(path, "wb") as file:
            file.write(text if isinstance(text, bytes) else text.encode())
        return path

    def built(self, source, *words):
        """The program that a C compiler makes of a text; the test is skipped where none does."""
        path = os.path.join(self.folder, "program")
        words = ["cc", "-w", *words, "-x", "c", "-o", path, "-"]
        if not shutil.which("cc") or self.run_words(words, source.encode())[0]:
            self.skipTest("no such program can be built here")
        return path

    def strace(self, *words):
        """The file of the log that strace writes by its own words and a program's, and how it ends; the test is skipped
        where it may not trace."""
        log = os.path.join(self.folder, "strace.log")
        done = subprocess.run(["strace", "-o", log, *words], stdin=subprocess.DEVNULL, stdout=subprocess.PIPE,
                              stderr=subprocess.DEVNULL, cwd=self.folder, check=False)
        self.skip_if(not os.path.exists(log) or not os.path.getsize(log), "strace may not trace here")
        return log, (done.returncode, done.stdout)

    def compile(self, *words, **settings):
        """How `scf compile` ends, the filter that it writes to the file `f.bpf`, and what it says."""
        path = self.file("f.bpf", b"")
        with open(path, "wb") as out:
            status, _, err = self.run_tool("compile", *words, stdout=out, **settings)
        return status, bytes_of(path), err

    def filter_file(self, *words):
        """The file of the filter that scf compiles of a profile."""
        status, _, err = self.compile(*words)
        self.assertEqual(status, 0, err)
        return os.path.join(self.folder, "f.bpf")

    def run_words(self, words, given=b"", seconds=None, **settings):
        """The status, what was printed, and what was said on standard error.

        With `seconds` it fails where it and all that it runs take more of them from the processors. A tool isn't
        started but forked, unless it is to have another environment or more files.
        """
        if not isinstance(given, bytes):
            settings["stdin"] = given
        if seconds is not None:
            settings["preexec_fn"] = limited(seconds + 1)
        if os.path.dirname(words[0]) == os.path.join(TOP, "tools") and not settings.keys() & {"env", "pass_fds"}:
            settings.update(preexec_fn=forked(words, settings.get("preexec_fn")), restore_signals=False)
        before = taken()
        done = completed(words, given, **{"cwd": self.folder, **settings})
        if seconds is not None:
            self.assertLess(taken() - before, seconds, words[:9])
        out = (done.stdout or b"").decode()
        self.assertEqual(list(json_schema.faults_of_output(words, out, done.returncode)), [], words)
        return done.returncode, out, done.stderr.decode()

    def run_line(self, line, **more):
        """Runs a line of a shell, to which `scf` is this one, and which may have more in its environment."""
        env = {**os.environ, "PATH": f"{TOP}:{os.environ['PATH']}", **more}
        return self.run_words(["sh", "-c", line], env=env)

    def run_tool(self, name, *words, given=b"", **settings):
        return self.run_words([tool(name), *words], given, **settings)

    def filter_files(self, filters):
        """The files of some filters."""
        return [self.file(f"{at}.bpf", data) for at, data in enumerate(filters)]

    def json_of(self, *words, **settings):
        """The object that a tool prints."""
        return json.loads(self.run_tool(*words, **settings)[1])

    def of_status(self, status, done):
        """What something printed that ended with a status, whatever it said."""
        self.assertEqual(done[0], status, done)
        return done[1]

    def out_of(self, status, done):
        """What something printed that ended with a status and said nothing else."""
        self.assertEqual((done[0], done[2]), (status, ""), done[1])
        return done[1]

    def begins(self, status, line, done):
        """What something printed that ended with a status; its first line is this one."""
        self.assertEqual((done[0], done[1].split("\n")[0]), (status, line), done)
        return done[1]

    def output_of(self, status, *words, **settings):
        """What a tool prints that ends with a status and says nothing else."""
        return self.out_of(status, self.run_tool(*words, **settings))

    def told(self, *words, **settings):
        """The status of a tool that says nothing on standard error, and the lines that it prints."""
        status, out, err = self.run_tool(*words, **settings)
        self.assertEqual(err, "")
        return status, out.split("\n")[:-1]

    def is_refusal(self, says, done):
        """Something ended with status 2, and said so on standard error alone."""
        self.assertEqual(done[:2], (2, ""), says)
        self.assertIn(says, done[2])

    def is_refused(self, says, *words, **settings):
        """A tool refuses its words, and says so on standard error alone."""
        self.is_refusal(says, self.run_tool(*words, **settings))

    def closed_output(self, name, *words, given=b""):
        """A tool whose output is full."""
        with open("/dev/full", "wb") as full:
            return self.run_tool(name, *words, given=given, stdout=full)

    def made_tree(self, scf):
        """A tree with the tools, the table and the page of faults, and a program that stands in for scf."""
        tree = tempfile.mkdtemp(dir=self.folder)
        for name in ("tools", "conformance", "tables", "docs"):
            shutil.copytree(os.path.join(TOP, name), os.path.join(tree, name), ignore=shutil.ignore_patterns("tests"))
        with open(os.path.join(tree, "scf"), "w", encoding="utf-8") as file:
            # (the tools call it as `scf core`)
            file.write(scf.replace("\n", "\nshift\n", 1))
        os.chmod(file.name, 0o755)
        return tree
