"""scfhost.processes: what is asked of a kernel that is made here, and of this one, on processes of the test's own."""
import errno
import itertools
import os
import signal
import subprocess
import sys
import threading
import time
from unittest import mock

from support.common import ALLOW, PATIENCE, TOP, Case, comes, ret, sample
from support.confined import NEWEST, OLDEST, OTHER, Confined, FakeKernel, here, processes, ptrace, status_of
from scftools.base import child as children
from scftools.forms.filters import threads_text
from scfhost import hold

SEIZE, INTERRUPT, DETACH, GET = (ptrace.PTRACE_SEIZE, ptrace.PTRACE_INTERRUPT, ptrace.PTRACE_DETACH,
                                 ptrace.PTRACE_SECCOMP_GET_FILTER)
STOPPED = 0x80057F
# A look in the process of the test, where it sees what is asked.
here_and_now = mock.patch.object(children, "run_in_child", lambda work, _: work())


class Asked(Case):
    """What is asked of a kernel, and what is said where it refuses."""

    def setUp(self):
        super().setUp()
        for where, name, soon in ((hold, "SURE_AFTER", 0), (hold, "SURE_SOON", 0), (hold, "SURE_TIMES", 4),
                                  (hold, "PAUSE_UNHELD", 0.001), (hold.Hold, "vain_waits", 0)):
            self.patched(where, name, soon)

    def look(self, kernel, process=7, **settings):
        with here_and_now:
            return processes.look_at_process(kernel, process, **settings)

    def refused(self, kernel, says, **settings):
        self.assertIn(says, self.text_of_error(processes.Unreadable, self.look, kernel, **settings))
        self.assertEqual(kernel.held, set())

    def test_filters_oldest_first(self):
        """A signal that came meanwhile is handed on."""
        for states, given in (([None, None, STOPPED], 0), ([signal.SIGUSR1 << 8 | 0x7F], signal.SIGUSR1)):
            kernel = FakeKernel([OLDEST, NEWEST, b""], states=states)
            inspection = self.look(kernel)
            self.assertEqual([(stack.filters, stack.is_strict, stack.threads) for stack in inspection.stacks],
                             [((OLDEST, NEWEST, b""), False, {7: [7]})])
            self.assertEqual((inspection.names, inspection.passed_over), ({7: b"fake"}, {}))
            self.assertEqual([request for request, _, _ in kernel.asked[:2]], [SEIZE, INTERRUPT])
            self.assertEqual(kernel.let_go(), [given])

    def test_threads_that_come_or_go_meanwhile(self):
        """If one ends before it is read, the others are, and one that is begun meanwhile."""
        for fails, listings, threads in (({}, [(7,), (7, 8), (7, 8, 9), (7, 8, 9)], [7, 8, 9]),
                                         ({}, [(7, 8), (7,)], [7]),
                                         ({(GET, 8): errno.ESRCH}, [(7, 8), (7, 8), (7, 9)], [7, 9])):
            kernel = FakeKernel([OLDEST], fails, listings=listings)
            self.assertEqual(self.look(kernel).stacks[0].threads, {7: threads})
            self.assertEqual(kernel.held, set())

    def test_threads_that_never_stop_coming(self):
        kernel, count = FakeKernel([OLDEST]), itertools.count(8)
        kernel.threads_of = lambda _: range(7, next(count))
        self.refused(kernel, "threads came and went for 0.045 seconds", patience=0.05)

    def test_equal_filters_are_one_stack_and_others_are_not(self):
        """None is stopped before all are traced: PTRACE_SEIZE may take long, and where it does nothing is held."""
        kernel = FakeKernel(listings=[(7, 8, 9, 10)])
        by_thread = {7: [NEWEST], 8: [OTHER], 9: [NEWEST], 10: []}
        kernel.filter = lambda thread, *remaining: FakeKernel(by_thread[thread]).filter(thread, *remaining)
        self.assertEqual([(stack.filters, stack.threads) for stack in self.look(kernel).stacks],
                         [((NEWEST,), {7: [7, 9]}), ((OTHER,), {7: [8]}), ((), {7: [10]})])
        asked = [request for request, _, _ in kernel.asked if request in (SEIZE, INTERRUPT)]
        self.assertEqual(asked, [SEIZE] * 4 + [INTERRUPT] * 4)

    def test_a_filter_that_changes_its_length(self):
        for first, second in ((NEWEST, OLDEST), (OLDEST, NEWEST)):
            kernel, kept = FakeKernel(), [FakeKernel([second]), FakeKernel([first])]
            kernel.filter = lambda *words, kept=kept: kept.pop().filter(*words)
            self.refused(kernel, f"changed its length from {len(first) // 8} to {len(second) // 8} while it was read")

    def test_lengths_and_counts(self):
        longest = ret(ALLOW) * 4096
        self.assertEqual(self.look(FakeKernel([longest])).stacks[0].filters, (longest,))
        self.refused(FakeKernel([longest + ret(ALLOW)]), "filter 0 of process 7 has 4097 instructions")
        self.refused(FakeKernel([OLDEST], status={"Seccomp_filters": "2"}),
                     "the kernel counts 2 filters of process 7 and shows 1")
        self.assertEqual(len(self.look(FakeKernel([OLDEST], status={"Seccomp_filters": "1"})).stacks), 1)

    def test_the_process_can_not_be_stopped(self):
        for fails, status, says in (
                (errno.EPERM, {"TracerPid": "12"}, "process 7 is already traced by process 12"),
                (errno.EPERM, {"TracerPid": "0"}, "process 7 can't be stopped (Operation not permitted): run this as"),
                (errno.EACCES, {}, "run this as root"),
                (errno.EPERM, {"State": "Z (zombie)"}, "process 7 is a zombie: it has ended, and waits for its parent"),
                (errno.EIO, {}, "can't be stopped: ")):
            kernel = FakeKernel([OLDEST], {SEIZE: fails}, status=status)
            self.refused(kernel, says)
            self.assertEqual(kernel.let_go(), [])
        kernel = FakeKernel([OLDEST], {SEIZE: errno.EPERM})
        kernel.flags_of = lambda _: hold.PF_KTHREAD
        self.refused(kernel, "process 7 is a kernel thread")
        kernel = FakeKernel([OLDEST], {SEIZE: errno.EPERM})
        kernel.own_status["CapEff"] = f"{1 << hold.CAP_SYS_ADMIN:x}"
        self.refused(kernel, "without CAP_SYS_PTRACE: run this as root")

    def test_a_thread_that_executes_a_program(self):
        """The kernel refuses to trace one that ends or executes a program, or that another tool looks at, for a moment:
        it is listed again. Under its new number the tool may trace it already."""
        for status, errors, count in (({}, iter([errno.EPERM] * 2), 3), ({"TracerPid": "12"}, iter([errno.EPERM]), 2),
                                      ({"TracerPid": str(os.getpid())}, errno.EPERM, 1)):
            kernel = FakeKernel([OLDEST], {SEIZE: errors}, status=status)
            self.assertEqual([stack.threads for stack in self.look(kernel).stacks], [{7: [7]}])
            self.assertEqual([request for request, _, _ in kernel.asked],
                             [SEIZE] * count + [INTERRUPT, GET, GET, GET, DETACH])

    def test_threads_that_another_tool_looks_at(self):
        """None is traced before the first that has another tracer, so that of two tools one has all."""
        kernel = FakeKernel([OLDEST], {SEIZE: iter([errno.EPERM] * 2)}, status={"TracerPid": "12"}, listings=[(7, 8)])
        self.assertEqual([stack.threads for stack in self.look(kernel).stacks], [{7: [7, 8]}])
        self.assertEqual([thread for request, thread, _ in kernel.asked if request == SEIZE], [7, 7, 7, 8])

    def test_threads_that_keep_another_tracer(self):
        """Some are waited for, and the others no more."""
        for count in (*[hold.SURE_TIMES] * hold.MOST_VAIN_WAITS, 1, 1):
            kernel = FakeKernel([OLDEST], {SEIZE: errno.EPERM}, status={"TracerPid": "12"})
            self.refused(kernel, "process 7 is already traced by process 12, and can have only one tracer")
            self.assertEqual([request for request, *_ in kernel.asked], [SEIZE] * count)

    def test_registers_that_can_not_be_set(self):
        """Of a thread in a call that would go on by restart_syscall: it is let go, and that is said."""
        registers = {**FakeKernel().registers(7), "orig_rax": 35, "rax": 2**64 - 516}
        for name, number in (("registers", errno.EIO), ("set_result", errno.EIO)):
            kernel = FakeKernel([OLDEST])
            kernel.registers, kernel.architecture_of_call = lambda _: registers, lambda _: None
            kernel.set_result = lambda *_: None
            setattr(kernel, name, mock.Mock(side_effect=OSError(number, "no")))
            self.refused(kernel, "the registers of process 7 can't be read and set: no")
            self.assertEqual(kernel.let_go(), [0])

    def test_another_machine(self):
        """Nothing is stopped where the registers are others."""
        for patch in (mock.patch("os.uname", return_value=mock.Mock(machine="aarch64")),
                      mock.patch("struct.calcsize", return_value=4)):
            kernel = FakeKernel([OLDEST])
            with patch:
                self.refused(kernel, "can only be inspected on x86-64")
            self.assertEqual(kernel.asked, [])

    def test_a_main_thread_that_has_ended(self):
        """Its process's other threads are looked at."""
        kernel = FakeKernel([OLDEST], {(SEIZE, 7): errno.EPERM}, listings=[(7, 8)])
        status_of_thread = kernel.status_of
        kernel.status_of = lambda number: {**status_of_thread(number), "State": "Z (zombie)" if number == 7 else "S"}
        inspection = self.look(kernel)
        self.assertEqual(([stack.threads for stack in inspection.stacks], inspection.passed_over), ([{7: [8]}], {}))

    def test_this_tool_itself_is_not_stopped(self):
        kernel = FakeKernel([OLDEST], listings=[(os.getpid(),)])
        said = self.text_of_error(processes.Unreadable, processes.look_at_process, kernel, os.getpid())
        self.assertIn("is this tool itself", said)
        self.assertEqual(kernel.asked, [])

    def test_the_tool_has_no_right_to_see_filters(self):
        """It is said before any process is stopped."""
        for members, says in (({"CapEff": "0"}, "CAP_SYS_ADMIN: run this as root"),
                              ({"Seccomp": "2"}, "this tool runs under a filter itself")):
            kernel = FakeKernel([OLDEST])
            kernel.own_status.update(members)
            self.refused(kernel, says)
            self.assertEqual(kernel.asked, [])
        kernel = FakeKernel([OLDEST])
        kernel.is_proc_ours = lambda: False
        self.refused(kernel, "/proc isn't mounted")

    def test_the_kernel_does_not_show_the_filters(self):
        for fails, status, says in ((errno.EACCES, {}, "CAP_SYS_ADMIN"),
                                    (errno.EINVAL, {"Seccomp": "2"}, "CONFIG_CHECKPOINT_RESTORE"),
                                    (errno.EMEDIUMTYPE, {}, "filter 0 of process 7 isn't kept as classic BPF"),
                                    (errno.EIO, {}, "doesn't show filters"),
                                    (errno.EFAULT, {}, "filter 0 of process 7 can't be read")):
            kernel = FakeKernel([OLDEST], {GET: fails}, status=status)
            self.refused(kernel, says)
            self.assertEqual(kernel.let_go(), [0], says)

    def test_no_filter_at_all(self):
        for fails, status, is_strict in (({}, {}, False), ({GET: errno.EINVAL}, {"Seccomp": "0"}, False),
                                         ({GET: errno.EINVAL}, {"Seccomp": "1"}, True)):
            inspection = self.look(FakeKernel([], fails, status=status))
            self.assertEqual([(stack.filters, stack.is_strict) for stack in inspection.stacks], [((), is_strict)])

    def test_the_process_ends_or_never_stops(self):
        for fails, state in (({}, 0), ({}, signal.SIGKILL), ({INTERRUPT: errno.ESRCH}, 0), ({SEIZE: errno.ESRCH}, 0),
                             ({GET: errno.ESRCH}, STOPPED)):
            kernel = FakeKernel([OLDEST], fails, states=[state], listings=[(7,), (7,), ()])
            self.assertEqual(self.text_of_error(processes.Unreadable, self.look, kernel), "process 7 has ended")
            self.assertEqual(kernel.let_go(), [0] if GET in fails else [])
        kernel = FakeKernel([OLDEST], states=[None], status={"State": "D (disk sleep)"})
        self.assertEqual(self.text_of_error(processes.Unreadable, self.look, kernel, patience=0.01),
                         "process 7 didn't stop within 0.009 seconds: its state is D (disk sleep)")

    def test_one_that_does_not_stop_does_not_hold_the_others(self):
        """The others are let go while it is waited for, and stopped again."""
        kernel = FakeKernel([OLDEST], listings=[(7, 8)])
        states = {7: iter([STOPPED] * 9), 8: iter([None] * 2 + [STOPPED] * 9)}
        kernel.wait = lambda thread: next(states[thread])
        with mock.patch.object(hold, "HELD_FOR_ONE", 0):
            inspection = self.look(kernel)
        self.assertEqual(inspection.stacks[0].threads, {7: [7, 8]})
        asked = [(request, thread) for request, thread, _ in kernel.asked if request in (SEIZE, DETACH)]
        self.assertEqual(asked[:4], [(SEIZE, 7), (SEIZE, 8), (DETACH, 7), (SEIZE, 7)])
        self.assertEqual(kernel.held, set())

    def test_an_exception_lets_all_go(self):
        for error in (KeyboardInterrupt(), MemoryError(), ValueError()):
            kernel = FakeKernel([OLDEST], listings=[(7, 8, 9)])
            kernel.name_of = mock.Mock(side_effect=error)
            self.assertRaises(type(error), self.look, kernel)
            self.assertEqual((kernel.held, kernel.let_go()), (set(), [0, 0, 0]))
            self.assertEqual(signal.pthread_sigmask(signal.SIG_BLOCK, ()), set())

    def test_threads_are_waited_for_whatever_they_are(self):
        for actual, state in (((0, 0), None), ((7, STOPPED), STOPPED), (ChildProcessError(errno.ECHILD, "none"), 0)):
            with mock.patch("os.waitpid", side_effect=[actual]) as wait:
                self.assertEqual(processes.Kernel().wait(7), state)
            wait.assert_called_once_with(7, 0x40000000 | os.WNOHANG)

    def test_containers(self):
        groups = {7: {"": b"/", "name=systemd": b"/box", "pids": b"/other"}, 8: {"name=systemd": b"/box/inner"},
                  9: {"name=systemd": b"/boxes"}, 10: {"pids": b"/box"}, 11: {}}
        kernel = FakeKernel([OLDEST])
        kernel.processes, kernel.groups_of = lambda: list(groups), groups.get
        container = processes.container_of(kernel, 7)
        self.assertEqual((container.group, container.processes()), (b"/box", [7, 8]))
        kernel.groups_of = lambda _: {"": b"/", "memory": b"/box"}
        spaces = {7: [(1, 7), (1, 1)], 8: [(1, 8), (1, 7), (1, 1)], os.getpid(): [(1, 1)]}
        kernel.processes, kernel.namespaces_of = lambda: list(spaces), spaces.get
        container = processes.container_of(kernel, 7)
        self.assertEqual((container.group, container.processes()), (None, [7, 8]))
        spaces[7] = [(1, 1)]
        said = self.text_of_error(processes.Unreadable, processes.container_of, kernel, 7)
        self.assertIn("process 7 is in no container", said)

    def test_containers_in_a_cgroup_namespace(self):
        """Its root may be any group, and what is outside of it isn't known; what is below it is."""
        groups = {7: b"/..", 8: b"/", 9: b"/b", 10: b"/b/c", 11: b"/../other", 12: b"/..b", 13: b"/../../b"}
        kernel = FakeKernel([OLDEST])
        kernel.is_root_the_first = lambda: False
        kernel.processes, kernel.namespaces_of = lambda: list(groups), lambda _: [(1, 1)]
        kernel.groups_of = lambda number: {"": b"/", "name=systemd": groups.get(number, b"/")}
        for process in (7, 8, 11, 13):
            for space in ([(1, 1)], [(1, 7), (1, 1)]):
                kernel.namespaces_of = lambda number, space=space: [(1, 1)] if number == os.getpid() else space
                said = self.text_of_error(processes.Unreadable, processes.container_of, kernel, process)
                self.assertIn(f"the container of process {process} is unknown: ", said)
                self.assertIn(f" as {groups[process].decode()}: ", said)
        for process, members in ((9, [9, 10]), (10, [10]), (12, [12])):
            container = processes.container_of(kernel, process)
            self.assertEqual((container.group, container.processes()), (groups[process], members))
        # where the kernel lists no control group, the PID namespace is asked
        kernel.groups_of = lambda _: {}
        kernel.namespaces_of = lambda number: [(1, 1)] if number == os.getpid() else [(1, 7)]
        self.assertIsNone(processes.container_of(kernel, 7).group)

    def test_whether_the_root_group_is_the_first(self):
        for actual, is_first in ((mock.Mock(st_ino=0xEFFFFFFB), True), (mock.Mock(st_ino=0xF0000001), False),
                                 (OSError(errno.ENOENT, "none"), True), (OSError(errno.EACCES, "no"), False)):
            with mock.patch("os.stat", side_effect=[actual]):
                self.assertEqual(processes.Kernel().is_root_the_first(), is_first)

    def test_the_name_of_a_group_is_a_stranger_s(self):
        group = b"/\x1b[2J\xff/box"
        self.assertEqual(processes.Container(group, list).description, "the control group /\\x1b[2J\\xff/box")
        with mock.patch.object(ptrace, "contents", return_value=b"0::/a:b\n3:cpu,cpuacct:" + group + b"\nx\n"):
            self.assertEqual(processes.Kernel().groups_of(7), {"": b"/a:b", "cpu": group, "cpuacct": group})

    def test_numbers_told(self):
        for threads, text in (([7], "thread 7"), ([7, 8], "threads 7, 8"), ([7, 8, 9, 11], "threads 7 to 9, 11"),
                              ([1, 3, 4, 5, 6], "threads 1, 3 to 6")):
            self.assertEqual(threads_text(threads), text)


@here
class Real(Confined):
    """On this machine's kernel."""

    def look(self, child, **settings):
        return processes.look_at_process(processes.Kernel(), child.pid, patience=PATIENCE, **settings)

    @staticmethod
    def trying(child, *words):
        return [sys.executable, "-c", TRY, os.path.join(TOP, "tools"), str(child.pid), *words]

    def test_threads_that_come_while_others_are_stopped(self):
        """While all are held the process has just the threads that are found, though it begins one after another."""
        child = self.child([OLDEST])
        self.do(child, "exec('def more():\\n    for _ in range(400):\\n        "
                       "threading.Thread(target=time.sleep, args=(1000,), daemon=True).start()\\n"
                       "threading.Thread(target=more, daemon=True).start()')")
        kernel, held = processes.Kernel(), []
        name_of = kernel.name_of
        kernel.name_of = lambda number: held.append(kernel.threads_of(number)) or name_of(number)
        until = time.monotonic() + PATIENCE
        # five times, and until some are begun
        while (len(held) < 5 or len(held[-1]) == 1) and time.monotonic() < until:
            time.sleep(0.005)
            with here_and_now:
                inspection = processes.look_at_process(kernel, child.pid, patience=PATIENCE)
            self.assertEqual([stack.threads for stack in inspection.stacks], [{child.pid: held[-1]}])
        self.assertGreater(len(held[-1]), 1)

    def test_a_thread_of_the_kernel(self):
        kernel = processes.Kernel()
        is_of_kernel = (process for process in kernel.processes() if kernel.flags_of(process) & hold.PF_KTHREAD)
        number = next(is_of_kernel, None)
        self.skip_if(number is None, "no kernel thread is seen here")
        self.assertEqual(self.text_of_error(processes.Unreadable, processes.look_at_process, kernel, number),
                         f"process {number} is a kernel thread, which makes no syscalls")

    def test_a_process_that_is_traced_already(self):
        child = self.child([OLDEST])
        kernel = processes.Kernel()
        kernel.ptrace(SEIZE, child.pid, None, None)
        self.assertIn(f"process {child.pid} is already traced by process {os.getpid()}",
                      self.out_of(0, self.run_words(self.trying(child))))
        kernel.ptrace(INTERRUPT, child.pid, None, None)
        os.waitpid(child.pid, ptrace.WALL)
        kernel.ptrace(DETACH, child.pid, None, None)
        self.runs_on(child)

    def test_a_stopped_process_stays_stopped(self):
        child = self.child([OLDEST], [OLDEST])
        child.send_signal(signal.SIGSTOP)
        self.wait_for(child.pid, "T")
        self.assertEqual(len(self.look(child).stacks), 1)
        self.wait_for(child.pid, "T")
        self.wait_for(child.threads[1], "T")
        child.send_signal(signal.SIGCONT)
        self.wait_for(child.pid, "S")
        self.runs_on(child)

    def test_signals_of_the_process_come(self):
        """One after another, while it is stopped again and again: none is lost, and none comes twice."""
        child = self.child([OLDEST])
        # the handler of the interpreter writes the signal's number, 10, which is a line end
        self.do(child, "import signal; os.set_blocking(1, False); signal.signal(signal.SIGUSR1, lambda *_: None); "
                       "signal.set_wakeup_fd(1)")
        self.runs_on(child)
        came = []

        def send():
            # Popen.send_signal waits for the child, and so would take its stops away from the tool
            for _ in range(300):
                os.kill(child.pid, signal.SIGUSR1)
                came.append(child.stdout.readline())

        sender = threading.Thread(target=send, daemon=True)
        sender.start()
        until = time.monotonic() + PATIENCE
        while sender.is_alive() and time.monotonic() < until:
            self.look(child)
        self.assertEqual(came, ["\n"] * 300)
        self.runs_on(child)

    def test_one_that_waits_for_its_child_in_vfork(self):
        """It stops no sooner than the child runs on: that is said, and both run on."""
        child, fifo = self.stuck([OLDEST])
        message = self.out_of(0, self.run_words(self.trying(child, "200", "0.01")))
        self.assertRegex(message, rf"\Aprocess {child.pid} didn't stop within 2 seconds: its state is D "
                               r"\(disk sleep\)\n\Z")
        with open(fifo, "wb"):
            self.wait_for(child.pid, "S")
            self.runs_on(child)

    def test_one_that_executes_programs_meanwhile(self):
        """Again and again, from a thread that isn't the main one, which the kernel lets it do once all others have
        ended, and those that are traced have been waited for."""
        program = self.built(EXECUTE, "-pthread")
        for words in (["60", "1000"], ["3", "0"]):
            child = self.alongside(program, *words)
            for _ in range(15):
                inspection = processes.look_at_process(processes.Kernel(), child.pid, patience=PATIENCE)
                self.assertEqual([stack.filters for stack in inspection.stacks], [()])
            self.assertIsNone(child.poll())

    def test_a_program_that_is_executed_for_ever(self):
        """PTRACE_SEIZE doesn't return before it is: the look ends in time, and the process runs on."""
        child = self.child([OLDEST], [OLDEST])
        second, kernel = child.threads[1], processes.Kernel()
        kernel.ptrace(SEIZE, second, None, None)
        self.do(child, "threading.Thread(target=os.execv, args=('/bin/sleep', ['sleep', '1000'])).start()")
        # the thread has ended, and isn't waited for
        self.wait_for(second, "Z")
        begun = time.monotonic()
        said = self.text_of_error(processes.Unreadable, processes.look_at_process, kernel, child.pid, patience=0.5)
        self.assertLess(time.monotonic() - begun, PATIENCE)
        self.assertEqual(said, "the threads couldn't be read within 0.5 seconds: the kernel makes a tracer wait, as "
                               "for a thread that executes a program; all stopped threads continue")
        os.waitpid(second, ptrace.WALL)
        self.assertTrue(comes(lambda: kernel.name_of(child.pid) == b"sleep"))
        self.let_go(child)

    def held(self, *words):
        """A process that looks at a child which doesn't stop, with a thread of it held, and that thread."""
        child, _ = self.stuck([OLDEST], [OLDEST])
        looks = self.alongside(*self.trying(child, *words), stdout=subprocess.PIPE, text=True)
        self.assertTrue(comes(lambda: status_of(child.threads[1])["TracerPid"] != "0"))
        return child, looks

    def goes_on(self, child):
        self.let_go(child)
        self.wait_for(child.threads[1], "S")

    def test_a_tool_that_is_stopped(self):
        """What it held runs on."""
        child, looks = self.held("200", "0.01")
        looks.send_signal(signal.SIGSTOP)
        self.wait_for(looks.pid, "T")
        self.goes_on(child)
        looks.send_signal(signal.SIGCONT)
        self.assertIn("didn't stop within 2 seconds", looks.communicate()[0])

    def test_a_tool_that_is_killed(self):
        child, looks = self.held(str(PATIENCE))
        looks.kill()
        self.goes_on(child)

    def test_a_tool_whose_child_is_stopped(self):
        child, looks = self.held("6")
        os.kill(int(status_of(child.threads[1])["TracerPid"]), signal.SIGSTOP)
        self.assertEqual(looks.communicate()[0], "the threads couldn't be read within 6 seconds; all stopped threads "
                         "continue\n")
        self.goes_on(child)

    def test_what_calls_end_early(self):
        """What is said of calls that a stop ends with EINTR, and of one that goes on."""
        for call, end in (("library.epoll_wait(library.epoll_create(1), ctypes.create_string_buffer(12), 1, -1)", "4"),
                          ("pair = socket.socketpair(); pair[0].setsockopt(socket.SOL_SOCKET, socket.SO_RCVTIMEO, "
                           "struct.pack('qq', 1000, 0)); "
                           "library.recv(pair[0].fileno(), ctypes.create_string_buffer(1), 1, 0)", "4"),
                          ("library.usleep(300000)", "0")):
            child = self.child([OLDEST])
            self.do(child, f"import socket, struct; ctypes.set_errno(0); print('begins', flush=True); {call}; "
                           f"print(ctypes.get_errno(), flush=True)")
            # from then on it sleeps in this call alone
            self.assertEqual(child.stdout.readline(), "begins\n")
            self.wait_for(child.pid, "S")
            self.look(child)
            self.assertEqual(child.stdout.readline(), f"{end}\n", call)


# Begins threads, and executes itself from one of them; its words are their count and microseconds.
EXECUTE = sample("execute.c")
# Tries to look at a process, and prints what is said.
TRY = """
import sys
sys.path.insert(0, sys.argv[1])
from scfhost import processes
try:
    # (to stop threads takes so much of the time at most)
    processes.TO_STOP = float((sys.argv[4:] or [processes.TO_STOP])[0])
    processes.look_at_process(processes.Kernel(), int(sys.argv[2]), patience=float((sys.argv[3:] or ["10"])[0]))
except processes.Unreadable as why:
    print(why)
"""
