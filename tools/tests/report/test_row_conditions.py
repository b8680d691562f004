"""tools/surface --conditions: which arguments get which answer, beside another machine of filters; and the names of
arguments and values."""
import json
import os
import random
import re

from support import several
from support.common import ALLOW, EPERM, KILL_PROCESS, Case, jeq, jge, load, ret
from support.stand_in import StandIn
from report.test_profile_of import (AARCH64, ARM, FILES, HOLDS, NATIVE, OWN, TRAP, X32_NAME, X86, Drawn, compiled, jset,
                                    of_numbers, of_records, tests_of, where)
from scftools.model import answers, constants, tables
from scftools.model.calls import Call
from scftools.report import condition_texts

EINVAL = 0x00050000 | 22
AUDIT = where(0, "SCMP_CMP_EQ", 16, 0, where(2, "SCMP_CMP_EQ", 9, 0, ret(EINVAL), ret(ALLOW)), ret(ALLOW))
NAMESPACES, WORD = 0x7E020000, (1 << 64) - 1
# The dispositions in the JSON of surface, the strictest first.
RANKS = ("denied", "delegated", "allowed")


class Lines(Case):
    def shown(self, filters, *words, table=OWN):
        status, out, err = self.run_tool("surface", "--conditions", "--table", self.file("own.table", table), *words,
                                         *self.filter_files(filters))
        self.assertEqual(err, "")
        return status, out

    def is_said(self, code, text, number=41, table=OWN):
        """What is said of a number that this code answers."""
        out = self.of_status(0, self.shown([of_numbers({number: code}, ALLOW)], table=table))
        self.assertIn(f" {number} {text}\n", out)

    def test_names(self):
        """Arguments and values have the names of the manual pages and headers, where they are known."""
        self.is_said(AUDIT, "socket denied (EINVAL) where domain == AF_NETLINK and protocol == NETLINK_AUDIT, else "
                            "allowed")
        # a protocol has its name only beside its domain
        self.is_said(where(2, "SCMP_CMP_EQ", 9, 0, ret(EINVAL), ret(ALLOW)),
                     "socket denied (EINVAL) where protocol == 9, else allowed")
        self.is_said(where(1, "SCMP_CMP_EQ", 1, 0, ret(EINVAL), ret(ALLOW)),
                     "socket denied (EINVAL) where type == SOCK_STREAM, else allowed")
        self.is_said(where(5, "SCMP_CMP_GE", 77, 0, ret(0x7FF00007), ret(0x7FFC0000)),
                     "socket allowed (LOG) where a5 <= 0x4c, else delegated (TRACE 7)")

    def test_bits(self):
        """Bits of a mask have names if each has one; a half is a mask."""
        code = where(0, "SCMP_CMP_MASKED_EQ", NAMESPACES, 0, ret(ALLOW), ret(EPERM))
        out = self.of_status(0, self.shown([of_numbers({272: code}, ALLOW)], table="unshare 272\n"))
        match = re.search(r"unshare allowed where flags & \(([A-Z_|]+)\) == 0, else denied \(EPERM\)\n", out)
        # linux/sched.h: the flags of all namespaces but that of time, which is a bit of CSIGNAL
        self.assertEqual(set(match[1].split("|")), {f"CLONE_NEW{flag}" for flag in
                                                    ("NS", "CGROUP", "UTS", "IPC", "USER", "PID", "NET")})
        # O_RDONLY is no bit (asm-generic/fcntl.h)
        code = where(1, "SCMP_CMP_MASKED_EQ", 0x40, 0x40, ret(EPERM), ret(ALLOW))
        self.is_said(code, "open denied (EPERM) where flags & O_CREAT == O_CREAT, else allowed", 2, "open 2\n")
        self.is_said(load(16) + jeq(2, 0, 1) + ret(ALLOW) + ret(EPERM),
                     "socket allowed where domain & 0xffffffff == AF_INET, else denied (EPERM)")

    def is_allowed(self, name, number, text, code):
        """What is said of a syscall that this code answers."""
        self.is_said(code, f"{name} allowed where {text}, else denied (EPERM)", number, table=f"{name} {number}\n")

    def test_masks_as_people_write_them(self):
        """By the bits that they lack, where these are fewer; bits that have no name take no other's name away."""
        # SOCK_CLOEXEC and SOCK_NONBLOCK of socket(2)
        free = os.O_CLOEXEC | os.O_NONBLOCK
        for name, number, index, op, value, two, text in (
                ("socket", 41, 1, "SCMP_CMP_MASKED_EQ", WORD ^ free, 1,
                 "type & ~(SOCK_NONBLOCK|SOCK_CLOEXEC) == SOCK_STREAM"),
                ("socket", 41, 1, "SCMP_CMP_MASKED_EQ", WORD ^ free, 0, "type & ~(SOCK_NONBLOCK|SOCK_CLOEXEC) == 0"),
                ("unshare", 272, 0, "SCMP_CMP_MASKED_EQ", 0x10000001, 0, "flags & (CLONE_NEWUSER|0x1) == 0"),
                ("unshare", 272, 0, "SCMP_CMP_MASKED_EQ", WORD ^ 0x10000001, 0, "flags & ~(CLONE_NEWUSER|0x1) == 0"),
                ("mprotect", 10, 2, "SCMP_CMP_LE", 3, 0, "prot & ~(PROT_READ|PROT_WRITE) == 0"),
                ("mprotect", 10, 1, "SCMP_CMP_LE", 3, 0, "a1 <= 3"),
                ("mprotect", 10, 2, "SCMP_CMP_LE", 4, 0, "prot <= 4"),
                # sys/stat.h, linux/sockios.h, sys/mman.h: one bit without a name takes away no other's
                ("fchmod", 91, 1, "SCMP_CMP_MASKED_EQ", 0o6000, 0, "mode & (S_ISUID|S_ISGID) == 0"),
                ("ioctl", 16, 1, "SCMP_CMP_EQ", 0x8946, 0, "request == SIOCETHTOOL"),
                ("mmap", 9, 3, "SCMP_CMP_EQ", 0x8000022, 0, "flags == (MAP_PRIVATE|MAP_ANONYMOUS|0x8000000)"),
                ("recvmsg", 47, 2, "SCMP_CMP_MASKED_EQ", WORD ^ 0x42, 0, "flags & ~(MSG_PEEK|MSG_DONTWAIT) == 0"),
                # a mask that leaves bits free that aren't flags is a set of values
                ("tgkill", 234, 2, "SCMP_CMP_MASKED_EQ", WORD ^ 0x10, 1, "sig in {SIGHUP, SIGCHLD}"),
                ("tgkill", 234, 2, "SCMP_CMP_MASKED_EQ", 0xFFFFFFEF, 1, "sig & 0xffffffff in {SIGHUP, SIGCHLD}")):
            self.is_allowed(name, number, text, where(index, op, value, two, ret(ALLOW), ret(EPERM)))

    def test_sets_of_values(self):
        """Several alternatives on one argument are its values, where these are few."""
        for values, text in (((1, 2, 9), "sig == SIGHUP or sig == SIGINT or sig == SIGKILL"),
                             ((1, 17, 2, 10, 4, 12, 15), "sig in {SIGHUP, SIGINT, SIGILL, SIGUSR1, SIGUSR2, SIGTERM, "
                                                         "SIGCHLD}")):
            tests = b"".join(jeq(value, 0, 1) + ret(ALLOW) for value in values)
            self.is_allowed("kill", 62, text, load(28) + jeq(0, 1, 0) + ret(EPERM) + load(24) + tests + ret(EPERM))

    def test_options_by_level(self):
        """The options of a socket have the names of their level (socket(7), tcp(7))."""
        for level, option, text in ((1, 15, "level == SOL_SOCKET and optname == SO_REUSEPORT"),
                                    (6, 1, "level == IPPROTO_TCP and optname == TCP_NODELAY"),
                                    (77, 1, "level == 0x4d and optname == 1")):
            of_option = where(2, "SCMP_CMP_EQ", option, 0, ret(ALLOW), ret(EPERM))
            self.is_allowed("setsockopt", 54, text, where(1, "SCMP_CMP_EQ", level, 0, of_option, ret(EPERM)))

    def test_answers_of_one_disposition(self):
        """They are told apart, too, but for data that no profile says: then the dispositions are told."""
        self.is_said(where(0, "SCMP_CMP_NE", 1, 0, ret(0x00050000 | 97), ret(0x00050000)),
                     "socket denied (ERRNO 0) where domain == AF_UNIX, else denied (EAFNOSUPPORT)")
        for answer, others in ((KILL_PROCESS | 9, ", else denied"),
                               (TRAP | 9, "; denied (EPERM) where domain != AF_UNIX and type == SOCK_DGRAM, else "
                                          "denied (TRAP 9)")):
            denied = where(1, "SCMP_CMP_EQ", 2, 0, ret(EPERM), ret(answer))
            self.is_said(where(0, "SCMP_CMP_EQ", 1, 0, ret(ALLOW), denied),
                         f"socket allowed where domain == AF_UNIX{others}")

    def test_many_alternatives(self):
        """Those of dispositions, if they are fewer: as chromium answers an upper half that isn't the extended lower
        one."""
        of_low = load(16) + jeq(1, 0, 1) + ret(ALLOW) + ret(TRAP | 1)
        code = load(20) + jeq(0, 4, 0) + jeq(0xFFFFFFFF, 0, 2) + load(16) + jset(1 << 31, 1, 0) + ret(TRAP | 2) + of_low
        self.is_said(code, "socket allowed where domain == AF_UNIX, else denied")

    def test_what_no_condition_tests_has_examples(self):
        pointer = load(8) + jeq(7, 0, 1) + ret(ALLOW) + ret(EPERM)
        out = self.of_status(0, self.shown([of_numbers({41: pointer}, ALLOW)]))
        self.assertRegex(out, r" 41 socket allowed ip 0x\w+ args .* denied args 0x0 ")

    def test_nothing_is_said_that_is_not_proved(self):
        """Without a step scf proves nothing, and no conditions are printed."""
        status, out, err = self.run_tool("surface", "--conditions", "--limit", "0",
                                         self.file("f", of_numbers({41: AUDIT}, ALLOW)))
        self.assertEqual((status, err.split(":")[:3]), (4, ["surface", " conditions", " unfinished"]))
        self.assertNotIn(" where ", out)

    def are_answered(self, out, filters, calls, bits=64):
        """How many syscalls have conditions; each of these calls gets the answer that they say."""
        rows = {row["number"]: row["conditions"] for row in json.loads(out)["calls"] if "conditions" in row}
        for number, call in calls:
            if number in rows:
                ours = answers.Answer.read(StandIn().decide(filters, call))
                theirs = self.answer_of(rows[number], [value % (1 << bits) for value in call.arguments])
                self.assertEqual(theirs.get("answer", ours.as_json()), ours.as_json(), call)
                self.assertEqual(RANKS.index(theirs["disposition"]), several.disposition(ours.word), call)
        return len(rows)

    def test_drawn(self):
        seen = 0
        for seed in range(100, 120):
            drawn = Drawn(seed)
            filters = drawn.filters()
            seen += self.are_answered(self.shown(filters, "--json")[1], filters,
                                      [(call.number, call) for call in drawn.records(filters)])
        self.assertGreater(seen, 15)

    def is_said_of(self, name, number, code, text):
        """What is said of a number of an architecture, which this code answers."""
        data = of_records({name: tests_of({several.ARCHITECTURES[name][1] + number: code}, EPERM)})
        out = self.of_status(0, self.shown([data], "--arch", FILES[name], table=f"{text.split()[0]} {number}\n"))
        self.assertIn(f" depends {number} {text}", out)

    def test_other_architectures(self):
        """Of an argument with 32 bits a condition says the lower half."""
        low = load(16) + jeq(2, 0, 1) + ret(ALLOW) + ret(EPERM)
        for name, number in ((X86, 359), (X32_NAME, 41), (ARM, 281)):
            self.is_said_of(name, number, low, "socket allowed where domain == AF_INET, else denied (EPERM)\n")
            self.is_said_of(name, number, load(24) + jge(9, 0, 1) + ret(ALLOW) + ret(EPERM),
                            "socket denied (EPERM) where type <= 8, else allowed\n")
        self.is_said_of(AARCH64, 198, low, "socket allowed where domain & 0xffffffff == AF_INET, else denied (EPERM)\n")
        # no condition is on the upper half
        self.is_said_of(X86, 359, load(20) + jeq(2, 0, 1) + ret(ALLOW) + ret(EPERM),
                        "socket allowed args 0x200000000 0x0 0x0 0x0 0x0 0x0 ALLOW denied args ")

    def test_names_of_other_architectures(self):
        """A constant is named where it is what it is on x86-64, as O_DIRECTORY isn't on arm and aarch64 (asm/fcntl.h).
        The arguments of i386's mmap are in memory."""
        flag = where(2, "SCMP_CMP_MASKED_EQ", 0x10000, 0x10000, ret(EPERM), ret(ALLOW))
        low = load(32) + jset(0x10000, 0, 1) + ret(EPERM) + ret(ALLOW)
        for name, number, code, shown in ((NATIVE, 257, flag, "O_DIRECTORY"), (AARCH64, 56, flag, "0x10000"),
                                          (X86, 295, low, "O_DIRECTORY"), (ARM, 322, low, "0x10000")):
            self.is_said_of(name, number, code,
                            f"openat denied (EPERM) where flags & {shown} == {shown}, else allowed\n")
        prot = load(32) + jeq(4, 0, 1) + ret(EPERM) + ret(ALLOW)
        self.is_said_of(X86, 90, prot, "mmap denied (EPERM) where a2 == 4, else allowed\n")
        self.is_said_of(X86, 125, prot, "mprotect denied (EPERM) where prot == PROT_EXEC, else allowed\n")

    def test_drawn_of_other_architectures(self):
        """Whatever the upper halves of their arguments are."""
        seen = 0
        for seed in range(12):
            source = random.Random(f"conditions {seed}")
            reading = several.draw(source)
            data = b"" if reading.fault() else compiled(reading)
            for name in reading.rules if data else ():
                arch, first, _, bits, _, table = several.ARCHITECTURES[name]
                own_table = "".join(f"{syscall} {number}\n" for syscall, number in table.items())
                out = self.shown([data], "--arch", FILES[name], "--json", table=own_table)[1]
                calls = [(number - first, Call(number, arch, 0, tuple(values)))
                         for _, number, values in reading.records(name, source, 20)]
                seen += self.are_answered(out, [data], calls, bits)
        self.assertGreater(seen, 8)

    def answer_of(self, conditions, arguments):
        """The answer that conditions say of some arguments; no two that hold say another one."""
        def holds(condition):
            return HOLDS[condition["op"]](arguments[condition["index"]], condition["value"],
                                          condition.get("valueTwo", 0))

        met = [part for part in conditions["where"]
               if any(all(map(holds, alternative)) for alternative in part["any_of"])]
        self.assertLess(len(met), 2)
        return met[0] if met else conditions["else"]


class Names(Case):
    """tables/argument.names."""

    def test_each_line(self):
        """Syscalls of the table, and no more arguments than they have."""
        table, kinds = tables.read_table(None), constants.kinds()
        for syscall, names in condition_texts.argument_names().items():
            self.assertIsNotNone(table.number_of(syscall), syscall)
            self.assertLessEqual(len(names), len(kinds[syscall]), syscall)
