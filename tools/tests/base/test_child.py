"""scftools/base/child.py: what a function in a child process returns and raises, and that it ends in time."""
import fcntl
import os
import signal
import threading
import time
import unittest
from unittest import mock

from support.common import Case, bytes_of, comes
from scftools.base import child, program


class Child(Case):
    def test_results(self):
        for result in (None, 0, b"\0" * (1 << 20), {"a": [1, "\n"]}):
            self.assertEqual(child.run_in_child(lambda result=result: result, 60), result)
        self.assertNotEqual(child.run_in_child(os.getpid, 60), os.getpid())

    def test_exceptions(self):
        for error in (OSError(2, "none"), program.ToolError("no", 3), MemoryError(), KeyError("x")):
            with self.assertRaises(type(error)) as caught:
                child.run_in_child(mock.Mock(side_effect=error), 60)
            self.assertEqual(caught.exception.args, error.args)
            self.assertEqual(getattr(caught.exception, "status", None), getattr(error, "status", None))
        for work, status in ((lambda: os._exit(0), 0), (lambda: os._exit(125), 125),
                             (lambda: os.kill(os.getpid(), signal.SIGKILL), -signal.SIGKILL)):
            with self.assertRaises(child.Died) as caught:
                child.run_in_child(work, 60)
            self.assertEqual(caught.exception.args, (status,))

    def test_who_receives_gives_the_time(self):
        """From a value on the child has so many seconds: here it sleeps beyond them, but not beyond those of before."""
        received = []
        with self.assertRaises(child.Late):
            child.run_in_child(lambda send: (send("a"), time.sleep(10000)), 5000,
                               lambda value: received.append(value) or 0.1)
        self.assertEqual(received, ["a"])

    def test_what_it_sends_is_received_however_it_ends(self):
        def works(send, end=lambda: 7):
            for value in ("a" * (1 << 20), None, {"b": [1]}):
                send(value)
            return end()

        for end, error in ((lambda: 7, None), (lambda: os.kill(os.getpid(), signal.SIGKILL), child.Died),
                           (lambda: time.sleep(1000), child.Late), (lambda: 1 // 0, ZeroDivisionError)):
            received = []
            if error is None:
                self.assertEqual(child.run_in_child(works, 60, received.append), 7)
            else:
                with self.assertRaises(error):
                    child.run_in_child(lambda send, end=end: works(send, end), 1 if error is child.Late else 60,
                                       received.append)
            self.assertEqual(received, ["a" * (1 << 20), None, {"b": [1]}])

    def test_it_ends_in_time(self):
        """Also in a call of the kernel in which only a signal that kills ends it, and where it is stopped."""
        with open(self.file("lock", b""), "rb") as held:
            fcntl.flock(held, fcntl.LOCK_EX)

            def waits():
                with open(held.name, "rb") as file:
                    fcntl.flock(file, fcntl.LOCK_EX)

            for work in (waits, lambda: time.sleep(600), lambda: os.kill(os.getpid(), signal.SIGSTOP)):
                begun = time.monotonic()
                self.assertRaises(child.Late, child.run_in_child, work, 0.2)
                self.assertLess(time.monotonic() - begun, 60)

    def test_its_own_timer_ends_it(self):
        """Where the process that waits for it is stopped, and so can't."""
        ends = os.pipe()

        def waits():
            os.write(ends[1], b"%d" % os.getpid())
            time.sleep(600)

        pid = os.fork()
        if not pid:
            try:
                child.run_in_child(waits, 3)
            finally:
                os._exit(0)
        os.close(ends[1])
        number = int(os.read(ends[0], 10))
        os.kill(pid, signal.SIGSTOP)
        # a zombie, since its parent is stopped
        self.assertTrue(comes(lambda: b"\nState:\tZ" in bytes_of(f"/proc/{number}/status")))
        os.kill(pid, signal.SIGCONT)
        os.waitpid(pid, 0)
        os.close(ends[0])

    def answers(self, work, seconds=600.0):
        """What a child answers, and why there is no more."""
        (values,), lost, _ = self.each([work], seconds)
        return values, lost.get(0)

    def test_answers(self):
        """They are JSON of some bytes."""
        self.assertEqual(self.answers(lambda send: (send([1, "\udcff"]), send({"a": None}))),
                         ([[1, "\udcff"], {"a": None}], None))
        for work in (lambda send: (send([7]), send(["x" * child.MOST_OF_LINE])),
                     lambda send: (send([7]), *(send(["x" * (1 << 20)]) for _ in range(30)))):
            values, why = self.answers(work)
            self.assertEqual((values[0], why), ([7], "it answers too much"))

    def each(self, works, seconds=600.0, turns=None):
        """What one child after another answers to several things, and of which not all, and why."""
        values = [[] for _ in works]
        began, forks, fork = [], [], os.fork

        def forked():
            forks.append(1)
            return fork()

        with mock.patch.object(child.os, "fork", forked):
            lost = child.ask_each([lambda send, _, work=work: work(send) for work in works],
                                  ((at, seconds) for at in range(len(works) if turns is None else turns)),
                                  lambda at, value: values[at].append(value), lambda: began.append(1))
        self.assertEqual(began, [])
        return values, lost, len(forks)

    def test_several_things(self):
        """One child does them; behind one that isn't whole a new one goes on, and nothing else is lost."""
        def seven(send):
            send(7)

        def much(send):
            for _ in range(20):
                send(["x" * (1 << 20)])

        self.assertEqual(self.each([seven, lambda _: None, seven]), ([[7], [], [7]], {}, 1))
        self.assertEqual(self.each([seven] * 3, turns=2), ([[7], [7], []], {}, 1))
        self.assertEqual(self.each([]), ([], {}, 0))
        # (each may answer so much)
        self.assertEqual(self.each([much, much, seven])[1:], ({}, 1))
        bad = {lambda send: (send(1), 1 / 0): "it can't be looked at: ZeroDivisionError",
               lambda send: (send(1), os._exit(0)): "who looks at it was ended",
               lambda send: (send(1), os.kill(os.getpid(), signal.SIGKILL)): "who looks at it was ended",
               lambda send: (send(1), bytearray(1 << 29)): "it takes more than 256 MB of memory",
               lambda send: (send(1), send("no")): "no"}
        for work, why in bad.items():
            self.assertEqual(self.each([seven, work, seven, seven]), ([[7], [1], [7], [7]], {1: why}, 2))
            self.assertEqual(self.each([work, work]), ([[1], [1]], {0: why, 1: why}, 2))
        # (a child that sleeps is late, however slow the machine is)
        lost = self.each([lambda send: send(1), lambda _: time.sleep(10000), lambda send: send(1)], 5.0)
        self.assertEqual(lost[1:], ({1: "it takes longer than 5 seconds"}, 2))

    def test_threads(self):
        """Many fit into the memory of a child, at once and one after another."""
        def work(send):
            for _ in range(3):
                held = threading.Lock()
                with held:
                    threads = [threading.Thread(target=lambda held=held: bytes(100000) and held.acquire() and
                                                held.release(), daemon=True) for _ in range(100)]
                    for thread in threads:
                        thread.start()
                for thread in threads:
                    thread.join()
            send([1])

        self.assertEqual(self.answers(work), ([[1]], None))

    def test_one_that_is_stopped(self):
        """And what it started ends with it."""
        read, write = os.pipe()

        def work(send):
            os.posix_spawn("/bin/sleep", ["sleep", "1000"], {}, file_actions=[(os.POSIX_SPAWN_DUP2, write, 1)])
            send([1])
            os.kill(os.getpid(), signal.SIGSTOP)

        self.assertEqual(self.answers(work, 1.0), ([[1]], "it takes longer than 1 seconds"))
        os.close(write)
        # (nobody has the other end any more)
        self.assertEqual(os.read(read, 1), b"")
        os.close(read)

    @unittest.skipIf(os.getuid(), "only root gives up rights")
    def test_rights_that_are_given_up(self):
        def work(send):
            child.become(12345)
            with open("/proc/self/status", encoding="utf-8") as file:
                status = dict(line.rstrip("\n").split(":\t", 1) for line in file if ":\t" in line)
            send([status[name].strip() for name in ("Uid", "Gid", "Groups", "CapPrm", "CapEff", "NoNewPrivs")])
            send([os.access("/root", os.R_OK), os.stat("/proc/self/mem").st_uid])
            os.setuid(0)

        values, why = self.answers(work)
        self.assertEqual(values, [["\t".join(["12345"] * 4), "\t".join(["65534"] * 4), "", "0" * 16, "0" * 16, "1"],
                                  [False, 0]])
        self.assertEqual(why, "it can't be looked at: PermissionError")

    def test_forms(self):
        form = ({"a": int, "b": [str], "c": (bool, None)}, [int])
        for value in ({"a": 1, "b": [], "c": None}, {"a": -1, "b": ["x"], "c": True}, [], [1, 2]):
            self.assertEqual(child.checked(value, form), value)
        for value in (None, {}, {"a": True, "b": [], "c": None}, {"a": 1, "b": [1], "c": None}, [True], "x",
                      {"a": 1, "b": [], "c": 0}, {"a": 1, "b": [], "c": None, "d": 1}, {"a": 1.0, "b": [], "c": None}):
            self.assertRaises(TypeError, child.checked, value, form)

    def test_shares(self):
        """Each has what the others leave, and no more than its share of the rest."""
        clock, shares = [0.0], []
        with mock.patch.object(child.time, "monotonic", lambda: clock[0]):
            for used, seconds in child.Budget(30.0).shares([0.0, 100.0, 6.0, 0.0]):
                shares.append(seconds)
                clock[0] += min(used, seconds)
        self.assertEqual(shares, [7.5, 10.0, 10.0, 10.0])

    def test_signals_that_end_the_tool_are_handed_on(self):
        """They end the child in order; nothing else is told of them, and those that are ignored are left alone."""

        def waits():
            os.kill(os.getppid(), signal.SIGTERM)
            while True:
                child.look_for_signals()
                time.sleep(0.01)

        came = []
        self.addCleanup(signal.signal, signal.SIGTERM, signal.signal(signal.SIGTERM, lambda *_: came.append(1)))
        with self.assertRaises(child.Interrupted) as caught:
            child.run_in_child(waits, 60)
        self.assertEqual((caught.exception.args, came), ((signal.SIGTERM,), []))
        self.assertEqual(signal.pthread_sigmask(signal.SIG_BLOCK, ()), set())
        # a child that waits for something else than signals is killed
        with mock.patch.object(child, "TO_END", 0.1), self.assertRaises(child.Interrupted):
            child.run_in_child(lambda: os.kill(os.getppid(), signal.SIGTERM) or time.sleep(600), 60)
        signal.signal(signal.SIGTERM, signal.SIG_IGN)
        self.assertRaises(child.Late, child.run_in_child, waits, 0.3)

    def test_where_ended_children_are_not_told(self):
        """SIGCHLD is ignored, which a program inherits."""
        self.addCleanup(signal.signal, signal.SIGCHLD, signal.signal(signal.SIGCHLD, signal.SIG_IGN))
        self.assertEqual(child.run_in_child(lambda: 7, 60), 7)

    def test_a_tool_that_inherits_ignored_signals(self):
        """How its children end is told to it all the same."""
        for words in (("verify-process", "--version"), ("check", self.file("f", bytes.fromhex("06000000 0000ff7f")))):
            self.output_of(0, *words, preexec_fn=lambda: signal.signal(signal.SIGCHLD, signal.SIG_IGN))
