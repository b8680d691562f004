"""tools/decide --expect: rows of syscalls with the answers that are expected, against a second machine."""
import json
import random
from unittest import mock

from support.common import ALLOW, EPERM, I386, KILL_PROCESS, X86_64, filter_of, insn, jeq, load, ret
from support.stand_in import StandIn
from ask.test_starts import Counting
from scftools.model.calls import Call
from scftools.report import decisions

# socket of AF_NETLINK is denied, another architecture's syscalls kill.
DATA = (load(4) + jeq(X86_64, 1, 0) + ret(KILL_PROCESS) + load(0) + jeq(41, 0, 2) + load(16) + jeq(16, 1, 0)
        + ret(ALLOW) + ret(EPERM))
# The answer to the numbers of sockets is computed from an argument.
COMPUTED = load(0) + jeq(41, 0, 3) + load(16) + insn(0x44, 0x50000) + insn(0x16, 0) + ret(ALLOW)
# The square of an argument is compared, which scf leaves undecided.
SQUARE = (load(0) + jeq(41, 0, 6) + load(16) + insn(0x07, 0) + insn(0x2C, 0) + jeq(289, 0, 1) + ret(EPERM)
          + ret(KILL_PROCESS) + ret(ALLOW))


class Expectations(Counting):
    def decided(self, rows, *words, data=DATA, **settings):
        words = [*words, "--expect", self.file("rows", rows), self.file("f.bpf", data)]
        status, out, err = self.run_tool("decide", *words, **settings)
        return status, out.split("\n")[:-1], err

    def test_answers_of_a_second_machine(self):
        """Rows with its answers are met, and each with another answer is printed."""
        random_of, machine = random.Random(7), StandIn()
        for data in (DATA, COMPUTED, SQUARE, filter_of(range(0, 90, 3))):
            calls = [Call(random_of.choice((0, 1, 41, 41, 42, 1 << 30)),
                          arguments=(random_of.choice((16, 17, 1 << 32)), *[0] * 5)) for _ in range(40)]
            rows = [(" ".join([str(it.number), str(it.arguments[0])]), machine.run(data, it)) for it in calls]
            text = "".join(f"{call} = {answer}\n" for call, answer in rows)
            self.assertEqual(self.decided(text, data=data),
                             (0, ["# rows: 40; answered otherwise than expected: 0"], ""))
            status, lines, _ = self.decided("".join(f"{call} = TRAP 9\n" for call, _ in rows), data=data)
            self.assertEqual((status, lines[-1]), (1, "# rows: 40; answered otherwise than expected: 40"))
            for at, (line, (call, answer)) in enumerate(zip(lines, rows), 1):
                shown = answer.removesuffix(" 0") if answer.split()[0] != "ERRNO" else answer
                self.assertEqual(line, f"line {at}: {call} is answered by {shown}, not by TRAP 9")

    def test_forms_of_rows(self):
        rows = ("# a comment\n\nsocket AF_NETLINK SOCK_RAW = ERRNO EPERM\n  socket AF_INET|0x0 = ALLOW \n"
                "socket 16=ERRNO 1\nsocket 16 = ERRNO\nsocket 16 = ERRNO 2\nsocket = ERRNO 0x1\n"
                "__NR_read 1 2 3 4 5 -6 = ALLOW 0\n")
        self.assertEqual(self.decided(rows), (1, ["line 7: socket 16 is answered by ERRNO 1, not by ERRNO 2",
                                                  "line 8: socket is answered by ALLOW, not by ERRNO 1",
                                                  "# rows: 7; answered otherwise than expected: 2"], ""))
        for words, row in ((("--arch=i386",), "socket = KILL_PROCESS"), (("--a0=16",), "socket = ERRNO 1"),
                           (("--a0=16",), "socket 2 = ALLOW"), ((f"--arch={I386:#x}",), "41 16 = KILL_PROCESS"),
                           (("--arch=0x1234",), "41 = KILL_PROCESS")):
            self.assertEqual(self.decided(row, *words)[:1], (0,), row)

    def test_json(self):
        status, lines, _ = self.decided("read = LOG\nread = ALLOW\n", "--json")
        found = json.loads(lines[0])
        self.assertEqual((status, found["status"], found["rows"], len(found["calls"])), (1, 1, 2, 1))
        row = found["calls"][0]
        self.assertEqual((row["call"]["names"], row["answer"], row["expected"], row["line"]),
                         (["read"], {"action": "ALLOW", "data": 0}, {"action": "LOG", "data": None}, 1))

    def test_many_rows_by_one_start(self):
        rows = self.file("rows", "".join(f"socket {it % 40} {it} = {'ERRNO 1' if it % 40 == 16 else 'ALLOW'}\n"
                                         for it in range(5000)))
        self.assertEqual(self.starts("decide", "--expect", rows, self.file("f.bpf", DATA)), 1)

    def test_more_rows_than_a_file_may_have(self):
        with mock.patch.object(decisions, "MOST_ROWS", 2):
            self.assertEqual(self.decided("read = ALLOW\n# other\nread = ALLOW\n")[0], 0)
            self.assertEqual(self.decided("read = ALLOW\n" * 3)[::2], (2, "decide: the file has more than 2 rows\n"))
        self.assertEqual(self.run_tool("decide", "--expect", "/dev/zero", self.file("f.bpf", DATA)),
                         (2, "", "decide: the file of rows '/dev/zero' has more than 16777216 bytes\n"))

    def test_what_is_refused(self):
        for rows, says in (("read ALLOW\n", "line 1 of the rows isn't a syscall"),
                           ("\nread = ALOW", "line 2 of the rows has"), ("= ALLOW", "isn't a syscall"),
                           ("read 1 2 3 4 5 6 7 = ALLOW", "isn't a syscall"),
                           ("read = ERRNO EPREM", "whose data isn't a number"), ("read = TRAP EPERM", "isn't a number"),
                           ("raed = ALLOW", "the nearest name is 'read'"), ("read AF_NETLNK = ALLOW", "no constant"),
                           ("x" * 70000, "line 1 of the rows has more than 65536 bytes")):
            status, lines, err = self.decided(rows)
            self.assertEqual((status, lines), (2, []), rows[:99])
            self.assertIn(says, err)
        self.assertEqual(self.decided("read = ALLOW", "--nr=0")[0], 2)
        status, lines, err = self.decided("read = ALLOW", data=jeq(0, 9, 0) + ret(ALLOW))
        self.assertEqual((status, lines[0], err), (2, "fault filter Jump at 0", ""))
        status, lines, err = self.decided("read = ALLOW", "--json", data=jeq(0, 9, 0) + ret(ALLOW))
        self.assertEqual((status, json.loads(lines[0])["calls"][0]["fault"]["kind"]), (2, "Jump"))
