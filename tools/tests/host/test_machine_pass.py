"""scfhost.machine_pass: copies of processes' filters. What makes it wait, or is much to read, is in test_attacks."""
import base64
import os
import subprocess
import unittest
from unittest import mock

from support.common import ALLOW, Case, comes, ret
from support.confined import NEWEST, OLDEST, processes
from support.own_machine import ROOT
from scftools.forms.filters import Inspection, Stack
from scfhost import machine_pass


class Read(unittest.TestCase):
    def test_each_filter_is_kept_once(self):
        """However many threads, stacks and processes have it, and if it was kept before."""
        number, sent = os.getpid(), []
        reader = machine_pass._Reader(0, False, [OLDEST], sent.append)

        def read_threads(kernel, *_):
            # (each time other objects with the same bytes)
            stacks = [Stack(tuple(kernel.keep(bytes(bytearray(data))) for data in filters), False, {number: threads})
                      for filters, threads in (([OLDEST, NEWEST], [7, 8]), ([NEWEST], [9]))]
            return Inspection(stacks, {number: b"x"}, {})

        with mock.patch.object(processes, "read_threads", read_threads):
            reader.read_all([number, number])
        found = {"process": number, "notes": [], "stacks": [
            {"filters": filters, "is_strict": False, "threads": threads} for filters, threads in (
                ([0, 1], [7, 8]), ([1], [9]))]}
        self.assertEqual(sent, [{"filter": base64.b64encode(NEWEST).decode()}, found, found])
        self.assertEqual(machine_pass.MOST_FILTER_BYTES - reader.remaining_bytes, len(OLDEST + NEWEST))


class Ended(unittest.TestCase):
    def test_a_child_that_is_ended(self):
        """What it answered before is kept; what may have ended it is read last the next time."""
        copies = machine_pass.Copies(processes.Kernel(), (6, 7, 8), False)

        def ask_each(_, turns, receive):
            for at, _ in turns:
                receive(at, {"process": 6, "why": "x"})
            return {0: "y"}

        with mock.patch.object(machine_pass.child, "ask_each", ask_each):
            self.assertEqual(machine_pass.read_each([copies], machine_pass.child.Budget(1)), (1, {0: "y"}))
        self.assertEqual((list(copies.waiting), copies.unread), ([8, 7], {6: "x"}))

    def test_answers_of_another_form(self):
        copies = machine_pass.Copies(processes.Kernel(), (7,), False)
        copies.receive({"filter": "BgAAAAAA/38="})
        for value in ({"filter": 1}, {"filter": "x"}, {"process": 8, "stacks": [], "notes": []}, [], {"process": "7"},
                      {"process": 7, "stacks": [{"filters": [1], "is_strict": False, "threads": [7]}], "notes": []},
                      {"process": 7, "stacks": [{"filters": [0], "is_strict": 0, "threads": [7]}], "notes": []}):
            self.assertRaises((TypeError, ValueError, LookupError), copies.receive, value)
            copies.waiting = {7: None}
        self.assertEqual((copies.filters, copies.unread), ([ret(ALLOW)], {}))


@ROOT
class Owners(Case):
    """The user who answers for a process in user namespaces, however deep."""

    def test_owners(self):
        for command in ("exec sleep 1000", "exec unshare -Ur sleep 1000",
                        "exec unshare -Ur unshare -Ur unshare -U sleep 1000"):
            with subprocess.Popen(["setpriv", "--reuid=12345", "--regid=12345", "--clear-groups", "sh", "-c",
                                   command]) as child:
                try:
                    kernel = processes.Kernel()
                    self.assertTrue(comes(lambda: kernel.name_of(child.pid) == b"sleep" or child.poll() is not None))
                    self.skip_if(child.poll() is not None, "a user can make no user namespace here")
                    # (what the process has as its own user is told otherwise in a namespace)
                    self.assertEqual(kernel.owner_of(child.pid, 12345 if "unshare" not in command else 7), 12345)
                finally:
                    child.kill()
