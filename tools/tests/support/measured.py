"""Tests of what commands take: the seconds of a processor and the megabytes of each and of all that it runs."""
import os
import resource
import subprocess
import sys
from typing import NamedTuple

from .common import PATIENCE, TOP, Case

# Starts commands, each said by a line of Python, and tells what each took. A process counts the memory of the one that
# started it, so this one is small; it grows to the size of a tool with the first one, which it forks as `Case` does.
STARTER = """
import os, resource, sys
for line in sys.stdin:
    words, files, folder, limits, seconds, tests = eval(line)
    if tests:
        if tests not in sys.path:
            sys.path.insert(0, tests)
        from support.common import forked
        run = forked(words)
    child = os.fork()
    if child == 0:
        try:
            for at, name in enumerate(files):
                os.dup2(os.open(name, os.O_RDWR if at else os.O_RDONLY), at)
            os.chdir(folder)
            for limit, most in limits:
                resource.setrlimit(limit, (most, most))
            __import__("_signal").alarm(seconds)
            if tests:
                run()
            os.execv(words[0], words)
        finally:
            os._exit(126)
    _, status, used = os.wait4(child, 0)
    print(os.waitstatus_to_exitcode(status), used.ru_utime + used.ru_stime, used.ru_maxrss / 1024, flush=True)
"""


class Measurement(NamedTuple):
    """The status of a command, what it printed, what it said, and what it took."""

    status: int
    out: bytes
    err: bytes
    seconds: float
    megabytes: float


class MeasuredCase(Case):
    # Seconds after which a command and all that it runs are ended, and bytes of address space that they are refused.
    LIMITS = ((resource.RLIMIT_CPU, 60),)

    @classmethod
    def setUpClass(cls):
        cls.starter = subprocess.Popen([sys.executable, "-IS", "-c", STARTER], stdin=subprocess.PIPE,
                                       stdout=subprocess.PIPE, text=True)
        cls.addClassCleanup(cls.starter.communicate)

    def measured(self, words, given=os.devnull):
        """A command on a file as standard input."""
        is_tool = os.path.dirname(words[0]) == os.path.join(TOP, "tools")
        out, err = self.file("printed", b""), self.file("said", b"")
        print(ascii((words, (given, out, err), self.folder, self.LIMITS, PATIENCE, is_tool and f"{TOP}/tools/tests")),
              file=self.starter.stdin, flush=True)
        status, seconds, megabytes = self.starter.stdout.readline().split()
        with open(out, "rb") as printed, open(err, "rb") as said:
            return Measurement(int(status), printed.read(), said.read(), float(seconds), float(megabytes))
