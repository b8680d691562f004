"""tools/profile-of: profiles of filters, each beside another machine of filters and another reader of profiles."""
import json
import operator
import os
import random
import re
from unittest import mock

from support import several
from support.common import (ALLOW, EPERM, KILL_PROCESS, KILL_THREAD, LOG, TOP, TRACE, TRAP, USER_NOTIF, X32, X86_64,
                            Case, gate, insn, jeq, jge, jgt, jset, load, ret, text_of)
from support.judged import by_disposition
from support.seccomp_library import NEEDED, Library
from support.stand_in import StandIn, unpacked
from scftools.model import bundles
from scftools.model.calls import Call
from scftools.ask import client
from scftools.report.profile_of import TRAP_DATA_TEXT

MOST = (1 << 64) - 1
NAMES = {"read": 0, "write": 1, "ioctl": 16, "socket": 41, "personality": 135}
OWN = "".join(f"{name} {number}\n" for name, number in NAMES.items())
SAID, SANDBOX = f"profile-of: {TRAP_DATA_TEXT}\n", ("--runtime", "sandbox")
# Answers by the instruction pointer, and by two arguments.
POINTER = load(8) + jeq(7, 0, 1) + ret(ALLOW) + ret(EPERM)
PAIR = load(24) + insn(0x07, 0) + load(16) + insn(0x1D, 0, 0, 1) + ret(ALLOW) + ret(EPERM)
HOLDS = {f"SCMP_CMP_{name}": holds for name, holds in several.OPERATORS.items()}


def of_numbers(codes, default):
    """Answers each of these numbers by a piece of code, and all others so."""
    return gate(b"".join(jeq(number, 0, len(code) // 8) + code for number, code in codes.items()) + ret(default))


def has_trap_data(profile):
    return re.search('SCMP_ACT_TRAP", "(errnoRet|defaultErrnoRet)', json.dumps(profile)) is not None


def corners(filters):
    """Words at which a test of the filters may change."""
    values = {0, 1, 0xFFFFFFFF}
    for data in filters:
        for code, _, _, k in unpacked(data):
            if code & 7 in (4, 5) and code != 5 and k not in (X86_64, X32):
                values.update(value & 0xFFFFFFFF for value in (k - 1, k, k + 1, ~k))
    return sorted(values)


def profiles_in(text):
    """The profiles in a tool's output, among lines that it adds."""
    return [json.loads(printed) for printed in re.findall(r"(?ms)^\{$.*?^\}$", text)]


def remarks_in(out, err):
    """What is said of two profiles, among which it stands, or of one, which is printed alone."""
    return out if len(profiles_in(out)) != 1 else err.replace("profile-of: ", "# ")


def where(index, op, value, two, left, right):
    """Goes left where a condition on an argument holds, else right, as libseccomp tests both halves."""
    low, size = 16 + 8 * index, len(left) // 8
    masks = (b"", b"")
    if op == "SCMP_CMP_MASKED_EQ":
        masks, value = (insn(0x54, value >> 32), insn(0x54, value & 0xFFFFFFFF)), two & value
    elif op in ("SCMP_CMP_NE", "SCMP_CMP_LT", "SCMP_CMP_LE"):
        opposite = {"SCMP_CMP_NE": "SCMP_CMP_EQ", "SCMP_CMP_LT": "SCMP_CMP_GE", "SCMP_CMP_LE": "SCMP_CMP_GT"}[op]
        return where(index, opposite, value, 0, right, left)
    high, value = value >> 32, value & 0xFFFFFFFF
    if op in ("SCMP_CMP_EQ", "SCMP_CMP_MASKED_EQ"):
        behind = load(low) + masks[1] + jeq(value, 0, size)
        return load(low + 4) + masks[0] + jeq(high, 0, len(behind) // 8 + size) + behind + left + right
    behind = load(low) + {"SCMP_CMP_GT": jgt, "SCMP_CMP_GE": jge}[op](value, 0, size)
    return load(low + 4) + jgt(high, 3, 0) + jeq(high, 0, 2 + size) + behind + left + right


def compiled(reading):
    """scf's filter of a drawn profile."""
    parts = [("profile", several.text(reading.profile)), *several.tables_of(reading.given)]
    return client.run_scf(["compile", "--architectures"], bundles.bundle(parts)).out


class Drawn:
    """Filters that are drawn: trees of tests of arguments, below tests of the number."""

    def __init__(self, seed):
        self.random = random.Random(seed)

    def answer(self):
        answers = (ALLOW, EPERM, 0x00050000 | 38, KILL_PROCESS, LOG, TRACE | 7)
        return ret(self.random.choice((TRAP | 9, 0x12340000, ALLOW | 1) if self.random.random() < 0.03 else answers))

    def value(self):
        return self.random.choice((0, 1, 2, 3, 9, 16, 0x20000, 0xFFFFFFFF, self.random.getrandbits(32)))

    def of_words(self, left, right):
        """A test of a half of an argument, perhaps masked; or one that no profile makes."""
        if self.random.random() < 0.1:
            code = self.random.choice((load(8), load(24) + insn(0x07, 0) + load(16)))
            return code + insn(self.random.choice((0x1D, 0x2D)), 0, 0, len(left) // 8) + left + right
        code = load(self.random.choice((16, 16, 24)) + self.random.choice((0, 0, 4)))
        if self.random.random() < 0.4:
            code += insn(self.random.choice((0x54, 0x44, 0xA4, 0x04)), self.random.choice((3, 0xFF, 0x7E020000)))
        made = self.random.choice((jeq, jeq, jgt, jge, jset))
        return code + made(self.value(), 0, len(left) // 8) + left + right

    def tree(self, depth):
        if depth == 0 or self.random.random() < 0.15:
            return self.answer()
        left, right = self.tree(depth - 1), self.tree(depth - 1)
        if self.random.random() < 0.3:
            return self.of_words(left, right)
        value = self.random.choice((0, 0, 0, 0xFFFFFFFF)) << 32 | self.value()
        return where(self.random.choice((0, 0, 1, 2)), self.random.choice(sorted(HOLDS)), value, self.value(), left,
                     right)

    def filter(self):
        chosen = self.random.sample(sorted(NAMES.values()), 3)
        return of_numbers({number: self.tree(self.random.choice((1, 2, 3))) for number in chosen},
                          self.random.choice((EPERM, KILL_PROCESS, ALLOW)))

    def filters(self):
        return [self.filter() for _ in range(self.random.choice((1, 1, 1, 2)))]

    def records(self, filters):
        """Calls of the named numbers, at corners of the tests and elsewhere."""
        words = corners(filters)

        def argument():
            high = self.random.choice((0, 0, 0, 0xFFFFFFFF, *words[:4], self.random.choice(words)))
            return high << 32 | self.random.choice((self.random.choice(words), self.random.getrandbits(32)))

        for number in NAMES.values():
            for _ in range(100):
                arguments = tuple(argument() for _ in range(3)) + (0, 0, 0)
                yield Call(number, X86_64, self.random.choice((0, self.random.getrandbits(64))), arguments)


def entry(answer, *names, **condition):
    """An entry of a profile as the tool prints it."""
    action, _, errno = answer.partition(" ")
    members = {"names": list(names), "action": f"SCMP_ACT_{action}", **({"errnoRet": int(errno)} if errno else {})}
    return {**members, "args": [condition]} if condition else members


def members_of_default(answer):
    """The members of a profile that give a default answer."""
    action, _, errno = answer.partition(" ")
    return {"defaultAction": f"SCMP_ACT_{action}", **({"defaultErrnoRet": int(errno)} if errno else {})}


class Profiles(Case):
    """What the tool prints for made and drawn filters."""

    def setUp(self):
        super().setUp()
        self.table = self.file("own.table", OWN)

    def run_on(self, filters, *words, **settings):
        return self.run_tool("profile-of", "--table", self.table, *words, *self.filter_files(filters), **settings)

    def is_read(self, filters, default, *entries, words=(), runtime=(), said=""):
        """The whole profile of filters, which are answered by it, on request as a runtime reads it."""
        status, out, err = self.run_on(filters, *words)
        self.assertEqual((status, err), (0, said))
        self.assertEqual(json.loads(out), {**members_of_default(default), "architectures": ["SCMP_ARCH_X86_64"],
                                           "syscalls": list(entries)})
        profile = self.file("printed.json", out)
        words = (*runtime, "--table", self.table, *self.filter_files(filters), profile)
        self.assertEqual(self.run_tool("compare", *words)[:2], (0, "same\n"))

    def is_judged(self, filters, profile, holds, calls):
        """The relation between the words of the filters and of the profile, at each call."""
        reading = several.Reading(profile, [NATIVE], {NATIVE: NAMES})
        for call in calls:
            ours, theirs = StandIn().decision(filters, call), reading.answer(X86_64, call.number, call.arguments)[0]
            self.assertTrue(holds(ours, theirs), (call, hex(ours), hex(theirs), profile))

    def test_drawn(self):
        """The profile answers as the filters, or one is nowhere stricter and the other nowhere more permissive."""
        counts = {0: 0, 4: 0}
        for seed in range(16):
            drawn = Drawn(seed)
            filters = drawn.filters()
            status, out, err = self.run_on(filters, "--limit", "100000")
            counts[status] += 1
            profiles, records = profiles_in(out), list(drawn.records(filters))
            if status == 0 or len(profiles) == 2:
                self.assertEqual(err, SAID if status == 0 and has_trap_data(profiles[0]) else "")
            if status == 0:
                self.is_judged(filters, profiles[0], operator.eq, records)
            else:
                self.assertIn(len(profiles), (1, 2))
                self.is_judged(filters, profiles[0], by_disposition(operator.le), records)
                self.is_judged(filters, profiles[-1], by_disposition(operator.ge), records)
        self.assertGreater(counts[0], 5)
        self.assertGreater(counts[4], 2)

    def test_names_and_answers(self):
        """An entry for each answer but the default's, which is that of numbers without a name."""
        self.is_read([of_numbers({0: ret(ALLOW), 1: ret(ALLOW), 41: ret(0x00050000 | 22), 135: ret(TRACE | 7),
                                  16: ret(USER_NOTIF)}, KILL_PROCESS)], "KILL_PROCESS",
                     entry("ALLOW", "read", "write"), entry("NOTIFY", "ioctl"), entry("TRACE 7", "personality"),
                     entry("ERRNO 22", "socket"))
        self.is_read([gate(ret(TRAP))], "TRAP")
        self.is_read([gate(ret(LOG))], "LOG")
        self.is_read([of_numbers({0: ret(KILL_THREAD)}, TRACE | 65535)], "TRACE 65535", entry("KILL_THREAD", "read"))

    def test_each_operator(self):
        """What libseccomp makes of a condition is read back as that condition."""
        value = 0x1_0000_0010
        for op in sorted(HOLDS):
            more = {"valueTwo": 16} if op == "SCMP_CMP_MASKED_EQ" else {}
            code = where(1, op, value, 16, ret(ALLOW), ret(EPERM))
            shown = {"SCMP_CMP_LT": ("SCMP_CMP_LE", value - 1), "SCMP_CMP_GT": ("SCMP_CMP_GE", value + 1)}
            shown_op, shown_value = shown.get(op, (op, value))
            with self.subTest(op):
                self.is_read([of_numbers({41: code}, EPERM)], "ERRNO 1",
                             entry("ALLOW", "socket", index=1, value=shown_value, **more, op=shown_op))

    def test_halves_and_bits(self):
        """A test of a half, or of some bits, is a mask; any of some bits is an entry for each."""
        masked = {"index": 0, "op": "SCMP_CMP_MASKED_EQ"}
        self.is_read([of_numbers({41: load(16) + jeq(10, 0, 1) + ret(ALLOW) + ret(EPERM)}, EPERM)], "ERRNO 1",
                     entry("ALLOW", "socket", value=0xFFFFFFFF, valueTwo=10, **masked))
        self.is_read([of_numbers({41: load(16) + jset(6, 0, 1) + ret(ALLOW) + ret(EPERM)}, EPERM)], "ERRNO 1",
                     *(entry("ALLOW", "socket", value=bit, valueTwo=bit, **masked) for bit in (2, 4)))
        # from 6 to 15: 6 and 7, and 8 to 15
        at_most = where(0, "SCMP_CMP_LE", 15, 0, ret(ALLOW), ret(EPERM))
        self.is_read([of_numbers({41: where(0, "SCMP_CMP_GE", 6, 0, at_most, ret(EPERM))}, EPERM)], "ERRNO 1",
                     entry("ALLOW", "socket", value=MOST - 1, valueTwo=6, **masked),
                     entry("ALLOW", "socket", value=MOST - 7, valueTwo=8, **masked))

    def test_values_or_masks(self):
        """Some values are listed, though a mask would join them; many are joined."""
        def any_of(values):
            tests = b"".join(jeq(value, len(values) - at, 0) for at, value in enumerate(values))
            return load(20) + jeq(0, 0, len(values) + 1) + load(16) + tests + ret(EPERM) + ret(ALLOW)

        values = (0, 8, 0x20000, 0x20008, 0xFFFFFFFF)
        self.is_read([of_numbers({135: any_of(values)}, EPERM)], "ERRNO 1",
                     *(entry("ALLOW", "personality", index=0, value=value, op="SCMP_CMP_EQ") for value in values))
        self.is_read([of_numbers({135: any_of(range(3, 67, 4))}, EPERM)], "ERRNO 1",
                     entry("ALLOW", "personality", index=0, value=MOST - 60, valueTwo=3, op="SCMP_CMP_MASKED_EQ"))
        # none of some bits, and not 0
        code = where(0, "SCMP_CMP_EQ", 0, 0, ret(EPERM), load(16) + jset(0x7E020000, 0, 1) + ret(EPERM) + ret(ALLOW))
        status, out, err = self.run_on([of_numbers({135: code}, ALLOW)])
        self.assertEqual((status, err, len(json.loads(out)["syscalls"])), (0, "", 8))

    def test_several_arguments(self):
        """Conditions that hold together are one entry; so is one that several syscalls have."""
        def denied_for(number):
            return where(0, "SCMP_CMP_EQ", 16, 0, where(2, "SCMP_CMP_EQ", number, 0, ret(0x00050000 | 22), ret(ALLOW)),
                         ret(ALLOW))

        self.is_read([of_numbers({41: denied_for(9), 16: denied_for(9)}, ALLOW)], "ALLOW",
                     {**entry("ERRNO 22", "ioctl", "socket"),
                      "args": [{"index": 0, "value": 16, "op": "SCMP_CMP_EQ"},
                               {"index": 2, "value": 9, "op": "SCMP_CMP_EQ"}]})

    def test_a_stack(self):
        """The strictest answer counts, and of equal actions the newest filter's."""
        self.is_read([of_numbers({0: ret(EPERM), 41: ret(EPERM)}, ALLOW), of_numbers({0: ret(0x00050000 | 38)}, ALLOW),
                      of_numbers({1: ret(LOG), 41: ret(KILL_THREAD)}, ALLOW)], "ALLOW",
                     entry("LOG", "write"), entry("ERRNO 38", "read"), entry("KILL_THREAD", "socket"))

    def is_bounded(self, filters, *says):
        """Profiles on both sides; and what is said of them."""
        status, out, err = self.run_on(filters)
        profiles = profiles_in(out)
        self.assertEqual((status, "# " in out, err == ""), (4, len(profiles) == 2, len(profiles) == 2))
        for text in ("# no profile was found that scf proves to answer as the filters do\n", *says):
            self.assertIn(text, remarks_in(out, err))
        for relation, profile in (("--no-more", profiles[0]), ("--no-less", profiles[-1])):
            words = (*(SANDBOX if has_trap_data(profile) else ()), "--table", self.table, relation)
            self.assertEqual(self.run_tool("compare", *words, *self.filter_files(filters),
                                           self.file("bound.json", profile))[0], 0)
        return profiles

    def test_data_that_no_profile_says(self):
        """One profile is on both sides, since only the answer's data differs. Profiles on both sides have data that one
        says, too, and a remark."""
        profiles = self.is_bounded([of_numbers({41: ret(ALLOW | 9)}, EPERM)],
                                   "# proved: nowhere stricter and nowhere more permissive than the filters\n"
                                   "# only other answers, since no profile gives ALLOW 9: socket\n")
        self.assertEqual([given["syscalls"] for given in profiles], [[entry("ALLOW", "socket")]])
        profiles = self.is_bounded([of_numbers({41: POINTER, 0: ret(TRAP | 9)}, KILL_PROCESS)],
                                   SAID.replace("profile-of: ", "# "))
        self.assertEqual([entry("TRAP 9", "read") in given["syscalls"] for given in profiles], [True, True])

    def test_a_browsers_filter(self):
        """TRAP with data, also as the default, is errnoRet, which a sandbox's reading alone takes as such."""
        pairs = where(1, "SCMP_CMP_EQ", 2, 0, ret(TRAP | 0xFFFF), ret(EPERM))
        for filters, default, entries in (
                ([of_numbers({41: ret(TRAP | 9), 0: ret(ALLOW)}, TRAP | 1)], "TRAP 1",
                 [entry("ALLOW", "read"), entry("TRAP 9", "socket")]),
                ([of_numbers({41: pairs, 1: ret(TRAP)}, ALLOW)], "ALLOW",
                 [entry("TRAP", "write"), entry("TRAP 65535", "socket", index=1, value=2, op="SCMP_CMP_EQ"),
                  entry("ERRNO 1", "socket", index=1, value=2, op="SCMP_CMP_NE")])):
            self.is_read(filters, default, *entries, runtime=SANDBOX, said=SAID)
            for runtime, line in (((), "fault profile Errno"), (("--runtime", "crun"), "crun refuses"),
                                  (("--runtime", "runc"), "differs")):
                done = self.run_tool("compare", *runtime, "--table", self.table, self.file("0.bpf", filters[0]),
                                     self.file("printed.json", self.run_on(filters)[1]))
                self.assertNotEqual(done[0], 0)
                self.assertIn(line, done[1] + done[2])
        # no runtime reads the data, and so not what is for one
        for words in (("--runtime", "crun"), ("--kubernetes", "x")):
            status, out, err = self.run_on([of_numbers({41: ret(TRAP | 9)}, ALLOW)], *words)
            self.assertEqual(status, 4)
            self.assertIn("# only other answers, since no profile gives TRAP 9: socket\n", remarks_in(out, err))
            self.assertEqual([given["syscalls"] for given in profiles_in(out)], [[entry("TRAP", "socket")]])

    def test_arguments_that_a_browser_tests(self):
        """As chromium's filters do: what else clone may get, and an upper half that isn't the extended lower one, each
        in the fewest entries. Values that differ from one with another answer in a bit each have an entry each."""
        # linux/sched.h
        vm, vfork, thread, of_pthread = 0x100, 0x4000, 0x10000, 0x3D0F00
        forks = where(0, "SCMP_CMP_MASKED_EQ", vm | thread, 0, ret(EPERM), where(
            0, "SCMP_CMP_MASKED_EQ", vm | vfork, vm | vfork, ret(EPERM), ret(TRAP | 4)))
        of_clone = where(0, "SCMP_CMP_EQ", of_pthread, 0, ret(ALLOW), forks)
        is_negative = load(20) + jeq(0xFFFFFFFF, 0, 3) + load(16) + jset(1 << 31, 0, 1) + ret(ALLOW) + ret(TRAP | 2)
        of_int = load(20) + jeq(0, 0, 1) + ret(ALLOW) + is_negative
        filters = [of_numbers({135: of_clone, 41: of_int}, TRAP | 1)]
        status, out, err = self.run_on(filters, seconds=60)
        self.assertEqual((status, err), (0, SAID))
        profile = json.loads(out)
        counts = {(name, errno): sum(entry["names"] == [name] and entry.get("errnoRet") == errno
                                     for entry in profile["syscalls"]) for name, errno in (
            ("personality", None), ("personality", 1), ("personality", 4), ("socket", None), ("socket", 2))}
        self.assertEqual(list(counts.values()), [1, 2, 63, 2, 33])
        self.is_judged(filters, profile, operator.eq, (
            Call(NAMES[name], X86_64, 0, (value ^ 1 << low ^ 1 << high, *[0] * 5))
            for name in ("personality", "socket") for value in (of_pthread, MOST, 0, vm, thread)
            for high in range(64) for low in range(high + 1)))

    def test_the_instruction_pointer_and_two_arguments(self):
        """Between what a call always gets and what it may get."""
        profiles = self.is_bounded([of_numbers({41: POINTER}, KILL_PROCESS)],
                                "# socket: its answer depends on the instruction pointer\n")
        self.assertEqual([given["syscalls"] for given in profiles],
                         [[entry("ALLOW", "socket")], [entry("ERRNO 1", "socket")]])
        both = where(2, "SCMP_CMP_EQ", 3, 0, PAIR, ret(EPERM))
        profiles = self.is_bounded([of_numbers({41: both}, EPERM)], "# socket: its answer depends on a comparison or "
                                "computation that no operator makes\n")
        self.assertEqual([given["syscalls"] for given in profiles],
                         [[entry("ALLOW", "socket", index=2, value=3, op="SCMP_CMP_EQ")], []])

    def test_an_argument_compared_with_a_known_one(self):
        """The second argument is 3 where the first one's low half is compared with it."""
        both = where(1, "SCMP_CMP_EQ", 3, 0, PAIR, ret(EPERM))
        self.is_read([of_numbers({41: both}, EPERM)], "ERRNO 1", {
            **entry("ALLOW", "socket"),
            "args": [{"index": 0, "value": 0xFFFFFFFF, "valueTwo": 3, "op": "SCMP_CMP_MASKED_EQ"},
                     {"index": 1, "value": 3, "op": "SCMP_CMP_EQ"}]})

    def test_one_side(self):
        """With an option one profile is printed, as JSON, and what is said of it goes to standard error."""
        for word, answer in (("--no-less", "ALLOW"), ("--no-more", "ERRNO 1")):
            status, out, err = self.run_on([of_numbers({41: POINTER}, KILL_PROCESS)], word)
            self.assertEqual((status, json.loads(out)["syscalls"]), (0, [entry(answer, "socket")]))
            self.assertIn("socket: its answer depends on the instruction pointer\n", err)
        self.is_read([of_numbers({0: ret(EPERM)}, ALLOW)], "ALLOW", entry("ERRNO 1", "read"), words=("--no-more",))

    def test_numbers_without_a_name(self):
        """A profile gives them its default; if they differ, that is said."""
        profiles = self.is_bounded([of_numbers({7: ret(ALLOW), 0: ret(ALLOW)}, EPERM)],
                                   "# numbers that the table doesn't name differ, such as 2: filter ERRNO 1 "
                                   "profile ALLOW\n")
        self.assertEqual([given["defaultAction"] for given in profiles], ["SCMP_ACT_ALLOW", "SCMP_ACT_ERRNO"])

    def test_the_stub_of_runc(self):
        """Numbers above all that the profile names get ENOSYS from runc, whatever the profile says."""
        stubbed = gate(jge(136, 0, 1) + ret(0x00050000 | 38) + jeq(0, 0, 1) + ret(ALLOW) + ret(EPERM))
        status, out, err = self.run_on([stubbed], "--runtime", "runc")
        self.assertEqual((status, err), (0, "profile-of: runc answers the numbers from 136 on, above all that the "
                                            "profile names, with ENOSYS\n"))
        # the greatest number below is named, so that the stub begins there
        self.assertEqual(json.loads(out)["syscalls"], [entry("ALLOW", "read"), entry("ERRNO 1", "personality")])
        status, out, err = self.run_on([stubbed])
        self.assertEqual((status, json.loads(out)["syscalls"]), (4, [entry("ALLOW", "read")]))
        self.assertIn("profile-of: if runc loaded the filter, --runtime runc expects the ENOSYS that it adds\n", err)

    def test_refusals(self):
        for data, table, says in ((jeq(0, 9, 0) + ret(ALLOW), OWN, "fault filter Jump at 0\nprofile-of: This jump"),
                                  (b"\6\0", OWN, "fault filter Truncated"),
                                  (ret(ALLOW), "read\n", "fault table Form line 1\n")):
            self.table = self.file("own.table", table)
            self.is_refusal(f"profile-of: {says}", self.run_on([data]))
        self.table = self.file("own.table", OWN)
        self.assertEqual(self.run_on([ret(ALLOW)], "--limit", "x")[0], 2)

    def test_an_argument_beside_many_values(self):
        """Each value has an errno of its own, whatever the number: what is known of one number is known of all."""
        code = b"".join(load(16) + jeq(7 * at + 1, 0, 1) + ret(0x00050000 | at + 1) for at in range(100)) + ret(ALLOW)
        name = self.file("f.bpf", code)
        for words in (("profile-of",), ("surface", "--conditions")):
            status, _, err = self.run_tool(*words, name, seconds=20)
            self.assertIn(status, (0, 4), err)

    def test_steps_that_run_out(self):
        """It is unfinished, and says how it gets more."""
        drawn = random.Random(1)
        code = b"".join(load(16 + 4 * (at % 12)) + insn(0x54, drawn.getrandbits(32)) + jeq(at, 0, 1) +
                        ret(0x00050000 | at + 1) for at in range(1000)) + ret(ALLOW)
        unfinished = "unfinished: it takes too many steps to follow the filters: --limit N gives more than 1048576\n"
        status, out, err = self.run_on([code], seconds=20)
        self.assertEqual(status, 4)
        self.assertIn(unfinished, out + err)
        status, out, err = self.run_tool("surface", "--conditions", "--table", self.table, self.file("f.bpf", code),
                                         seconds=20)
        self.assertEqual(status, 4)
        self.assertIn(f"surface: conditions: {unfinished}", err)

    def test_what_computes_too_much(self):
        """It ends soon, and says what is proved."""
        many = b"".join(load(16 + 8 * (at % 6)) + insn(0x0C, 0) + insn(0x07, 0) + jset(1 << at % 32, 0, 1)
                        + insn(0x87, 0) for at in range(600))
        status, out, err = self.run_on([gate(many + jset(1, 0, 1) + ret(ALLOW) + ret(EPERM))], seconds=60)
        self.assertEqual(status, 4)
        self.assertIn("# no profile was found", remarks_in(out, err))


NATIVE, X86, X32_NAME, AARCH64, ARM = list(several.ARCHITECTURES)[:5]
FILES = {name: name.removeprefix("SCMP_ARCH_").lower() for name in several.ARCHITECTURES} | {X86: "i386"}
EACH = ("the profile covers x86-64, i386, x32, aarch64, arm, riscv64, ppc64le, mipsel, mipsel64, mipsel64n32 and "
        "loongarch64 syscalls")


def table_of(name):
    """The names of a table that comes with scf."""
    lines = text_of(os.path.join(TOP, "tables", f"{FILES[name]}.table")).splitlines()
    return {syscall: int(number) for syscall, number in (line.split() for line in lines if line[0] != "#")}


# The second reading of profiles, with these tables.
WITH_TABLES = {name: (*row[:5], table_of(name)) for name, row in several.ARCHITECTURES.items()}


def of_records(codes):
    """Answers the records of each architecture by a piece of code that has the number loaded, and kills all others."""
    pieces = b""
    for name, code in codes.items():
        arch, first, last = several.ARCHITECTURES[name][:3]
        if arch == X86_64:
            # a jump over the code if the number isn't the architecture's
            code = jge(first, 0, 1) + jgt(last, 0, 1) + insn(5, len(code) // 8) + code
        code = load(0) + code
        pieces += load(4) + jeq(arch, 1, 0) + insn(5, len(code) // 8) + code
    return pieces + ret(KILL_PROCESS)


def tests_of(codes, default):
    """Answers each of these numbers by a piece of code, and all others so."""
    return b"".join(jeq(number, 0, len(code) // 8) + code for number, code in codes.items()) + ret(default)


class OtherArchitectures(Case):
    """The profile of each architecture, and those that one profile covers."""

    def printed(self, data, *words):
        """The status, the profile, and what is said of it."""
        status, out, err = self.run_tool("profile-of", *words, self.file("f.bpf", data))
        return status, json.loads(out) if status == 0 else out, err

    def is_read(self, data, name, default, *entries, said=""):
        """The whole profile of one architecture, which scf compares again."""
        status, profile, err = self.printed(data, "--arch", FILES[name])
        self.assertEqual((status, err), (0, said))
        self.assertEqual(profile, {**members_of_default(default), "architectures": [name], "syscalls": list(entries)})
        native = ["--native"] if name == NATIVE else []
        done = self.run_tool("compare", *native, self.file("f.bpf", data), self.file("p.json", profile))
        self.assertEqual((done[0], done[1].splitlines()[0]), (0, "same"))

    def covers(self, data, names, *entries, default="ERRNO 1", said=(), words=()):
        """The architectures that the profile covers, its entries, and what is said of others."""
        status, profile, err = self.printed(data, *words)
        self.assertEqual((status, profile), (0, {**members_of_default(default), "architectures": list(names),
                                               "syscalls": list(entries)}))
        self.assertEqual(err.splitlines(), [f"profile-of: {line}" for line in said])
        if not words:
            done = self.run_tool("compare", self.file("f.bpf", data), self.file("p.json", profile))
            # (a profile that leaves an open ABI of its machine out denies that)
            is_open = any(line.startswith("i386: ") for line in said)
            self.assertEqual((done[0], done[1].splitlines()[0]), (1, "differs") if is_open else (0, "same"))

    def test_one_architecture(self):
        """Numbers are those of its table, and the profile is for it alone."""
        for name, first, read in ((X86, 0, 3), (X32_NAME, X32, 0), (AARCH64, 0, 63), (ARM, 0, 3)):
            with self.subTest(name):
                data = of_records({NATIVE: ret(ALLOW), name: tests_of({first + read: ret(ALLOW)}, EPERM)})
                self.is_read(data, name, "ERRNO 1", entry("ALLOW", "read"))
                self.is_read(data, NATIVE, "ALLOW")
        # x86-64's numbers aren't x32's
        self.is_read(of_records({NATIVE: ret(ALLOW)}), X32_NAME, "KILL_PROCESS")

    def test_halves(self):
        """Of an argument with 32 bits a condition compares the lower half, with one of 64 bits all of it."""
        low = load(16) + jeq(2, 0, 1) + ret(ALLOW) + ret(EPERM)
        of_32 = {"index": 0, "value": 2, "op": "SCMP_CMP_EQ"}
        of_64 = {"index": 0, "value": 0xFFFFFFFF, "valueTwo": 2, "op": "SCMP_CMP_MASKED_EQ"}
        for name, number, condition in ((X86, 359, of_32), (X32_NAME, X32 + 41, of_32), (ARM, 281, of_32),
                                        (NATIVE, 41, of_64), (AARCH64, 198, of_64)):
            with self.subTest(name):
                self.is_read(of_records({name: tests_of({number: low}, EPERM)}), name, "ERRNO 1",
                             entry("ALLOW", "socket", **condition))

    def test_operators_of_32_bits(self):
        """What each operator tests of the lower half is read back as that condition."""
        # the last one from 6 to 15: 6 and 7, and 8 to 15
        for code, *conditions in (
                (jeq(16, 1, 0), ("NE", 16)), (jge(16, 0, 1), ("GE", 16)), (jgt(16, 1, 0), ("LE", 16)),
                (insn(0x54, 0xF0) + jeq(16, 0, 1), ("MASKED_EQ", 0xF0, 16)),
                (jge(6, 0, 2) + jgt(15, 1, 0), ("MASKED_EQ", 0xFFFFFFFE, 6), ("MASKED_EQ", 0xFFFFFFF8, 8))):
            with self.subTest(conditions):
                data = of_records({X86: tests_of({359: load(24) + code + ret(ALLOW) + ret(EPERM)}, EPERM)})
                self.is_read(data, X86, "ERRNO 1", *(
                    entry("ALLOW", "socket", index=1, value=value, **({"valueTwo": two[0]} if two else {}),
                          op=f"SCMP_CMP_{op}") for op, value, *two in conditions))

    def test_upper_halves(self):
        """No condition of an architecture with 32 bits tests them."""
        high = load(20) + jeq(0, 0, 1) + ret(ALLOW) + ret(EPERM)
        status, out, err = self.printed(of_records({X86: tests_of({359: high}, EPERM)}), "--arch", "i386")
        self.assertEqual((status, err), (4, ""))
        self.assertIn("# socket: its answer depends on the upper half of an argument\n", out)
        profiles = profiles_in(out)
        self.assertEqual([(given["architectures"], given["syscalls"]) for given in profiles],
                         [([X86], [entry("ALLOW", "socket")]), ([X86], [])])
        self.is_read(of_records({AARCH64: tests_of({198: high}, EPERM)}), AARCH64, "ERRNO 1",
                     entry("ALLOW", "socket", index=0, value=0xFFFFFFFF, op="SCMP_CMP_LE"))

    def test_drawn(self):
        """The profile of each architecture, beside the second reading, at records with all kinds of upper halves."""
        seen, tables = 0, {name: self.file(f"{name}.table", part) for name in several.ARCHITECTURES
                           for _, part in several.tables_of([name])}
        for seed in range(12):
            source = random.Random(f"profile-of {seed}")
            reading = several.draw(source)
            if reading.fault():
                continue
            data = compiled(reading)
            for name in reading.rules:
                status, profile, _ = self.printed(data, "--arch", FILES[name], "--table", tables[name])
                self.assertEqual(status, 0, (seed, name))
                self.is_judged(data, profile, [name], reading.records(name, source, 20))
                seen += 1
        self.assertGreater(seen, 12)

    def is_judged(self, data, profile, judged, records):
        """A filter answers records as a profile does for these architectures, beside the second reading."""
        reading = several.Reading(profile, judged)
        for arch, number, values in records:
            ours = StandIn().decision([data], Call(number, arch, 0, tuple(values)))
            theirs, _ = reading.answer(arch, number, values)
            self.assertEqual(ours, theirs, (profile, hex(arch), number, values))

    def test_several(self):
        """Names that x86-64 lacks have entries of their own; an engine's filter is for three architectures at once."""
        allows_one = jeq(1, 0, 1) + ret(ALLOW) + ret(EPERM)
        data = of_records({NATIVE: tests_of({0: ret(ALLOW)}, EPERM),
                           X86: tests_of({3: ret(ALLOW), 102: load(16) + allows_one}, EPERM),
                           X32_NAME: tests_of({X32: ret(ALLOW)}, EPERM)})
        self.covers(data, [NATIVE, X86, X32_NAME], entry("ALLOW", "read"),
                    entry("ALLOW", "socketcall", index=0, value=1, op="SCMP_CMP_EQ"),
                    said=["the profile covers x86-64, i386 and x32 syscalls"])
        # a filter that doesn't look at the architecture
        self.covers(ret(TRAP), several.ARCHITECTURES, default="TRAP", said=[EACH])

    def test_one_that_differs(self):
        """It isn't listed, and that is said; --arch gives its profile."""
        data = of_records({NATIVE: tests_of({0: ret(ALLOW)}, EPERM), X86: tests_of({4: ret(ALLOW)}, EPERM),
                           X32_NAME: tests_of({X32: ret(ALLOW)}, EPERM), AARCH64: tests_of({63: ret(ALLOW)}, EPERM)})
        self.covers(data, [NATIVE, X32_NAME, AARCH64], entry("ALLOW", "read"),
                    said=["the profile covers x86-64, x32 and aarch64 syscalls",
                          "i386: some syscalls are allowed, such as write (4): ALLOW; --arch i386 prints its profile"])
        self.is_read(data, X86, "ERRNO 1", entry("ALLOW", "write"))
        # one whose syscalls are all denied isn't mentioned
        data = of_records({NATIVE: tests_of({0: ret(ALLOW)}, EPERM), X86: ret(EPERM),
                           ARM: tests_of({9: ret(TRACE)}, EPERM)})
        self.covers(data, [NATIVE], entry("ALLOW", "read"),
                    said=["the profile covers x86-64 syscalls",
                          "arm: not every syscall is denied, such as link (9): TRACE 0; --arch arm prints its profile"])

    def test_one_that_differs_by_a_name_of_two(self):
        """A name that i386 and arm have, and x86-64 lacks, answers for the first."""
        stat64 = {195: ret(ALLOW)}
        data = of_records({NATIVE: ret(EPERM), X86: tests_of(stat64, EPERM), ARM: tests_of(stat64, EPERM)})
        self.covers(data, [NATIVE, X86, ARM], entry("ALLOW", "stat64"),
                    said=["the profile covers x86-64, i386 and arm syscalls"])
        data = of_records({NATIVE: ret(EPERM), X86: tests_of(stat64, EPERM), ARM: tests_of({196: ret(ALLOW)}, EPERM)})
        self.covers(data, [NATIVE, X86], entry("ALLOW", "stat64"),
                    said=["the profile covers x86-64 and i386 syscalls", "arm: some syscalls are allowed, such as "
                          "lstat64 (196): ALLOW; --arch arm prints its profile"])

    def test_what_is_killed(self):
        """An architecture whose syscalls are all killed isn't listed, whatever the default is."""
        for kill, default in ((KILL_PROCESS, "KILL_PROCESS"), (KILL_THREAD, "KILL_THREAD")):
            data = of_records({NATIVE: tests_of({0: ret(ALLOW)}, kill), X86: ret(KILL_THREAD)})
            self.covers(data, [NATIVE], entry("ALLOW", "read"), default=default)
            self.covers(ret(kill), [NATIVE], default=default)

    def test_both_sides(self):
        """Profiles on both sides are for one architecture, and those of others are told."""
        data = of_records({NATIVE: tests_of({0: ret(ALLOW | 9)}, EPERM), X86: ret(ALLOW)})
        status, out, err = self.printed(data)
        self.assertEqual(status, 4)
        self.assertIn("# the profile covers x86-64 syscalls\n# i386: some syscalls are allowed, such as ",
                      remarks_in(out, err))
        status, profile, err = self.printed(data, "--no-more")
        self.assertEqual((status, profile["architectures"]), (0, [NATIVE]))
        self.assertIn("profile-of: i386: some syscalls are allowed, such as ", err)

    def test_the_stub_of_runc(self):
        """It begins at a number of its own in each architecture: after that of faccessat2, on x32 of execve."""
        enosys = ret(0x00050000 | 38)
        data = of_records({NATIVE: jge(440, 0, 1) + enosys + tests_of({0: ret(ALLOW), 59: ret(ALLOW)}, EPERM),
                           X86: jge(440, 0, 1) + enosys + tests_of({3: ret(ALLOW), 11: ret(ALLOW)}, EPERM),
                           X32_NAME: jge(X32 + 521, 0, 1) + enosys + tests_of({X32: ret(ALLOW), X32 + 520: ret(ALLOW)},
                                                                              EPERM)})
        self.covers(data, [NATIVE, X86, X32_NAME], entry("ALLOW", "execve", "read"), entry("ERRNO 1", "faccessat2"),
                    words=("--runtime", "runc"),
                    said=["the profile covers x86-64, i386 and x32 syscalls",
                          "runc answers the numbers from 440 on, of i386 from 440 on and of x32 from 521 on, above all "
                          "that the profile names, with ENOSYS"])

    @mock.patch.dict(several.ARCHITECTURES, WITH_TABLES)
    @mock.patch.object(several, "NAMES", sorted({name for row in WITH_TABLES.values() for name in row[5]}))
    def test_drawn_for_several(self):
        """A filter that one profile answers as is read back in each architecture of that, beside the second reading."""
        seen, seed = 0, 0
        while seen < 6:
            seed += 1
            source = random.Random(f"several of {seed}")
            reading = several.draw(source)
            judged = list(reading.rules)
            if NATIVE not in judged or reading.default in (several.KILLS, several.ACTIONS["KILL"]) or reading.fault():
                continue
            data = compiled(reading)
            status, profile, _ = self.printed(data)
            self.assertEqual((status, profile["architectures"]), (0, judged), seed)
            for name in judged:
                self.is_judged(data, profile, judged, reading.records(name, source, 10))
            seen += 1

    @NEEDED
    def test_libseccomp(self):
        """It adds to a rule of a socket's syscall one of i386's socketcall, by the number of linux/net.h in place of a
        condition on argument 0."""
        profile = {"defaultAction": "SCMP_ACT_ERRNO", "architectures": [NATIVE, X86, X32_NAME], "syscalls": [
            entry("ALLOW", "read", "waitpid"),
            entry("ALLOW", "socket", index=0, value=2, op="SCMP_CMP_EQ"),
            entry("ERRNO 22", "accept4", index=3, value=0, op="SCMP_CMP_NE")]}
        read, socket, accept4 = profile["syscalls"]
        of_accept4 = {**accept4, "names": ["socketcall"],
                      "args": [{"index": 0, "value": 18, "op": "SCMP_CMP_EQ"}, *accept4["args"]]}
        self.covers(Library().filter_of(profile), profile["architectures"], read, socket,
                    entry("ALLOW", "socketcall", index=0, value=1, op="SCMP_CMP_EQ"), accept4, of_accept4,
                    said=["the profile covers x86-64, i386 and x32 syscalls"])

    def test_usage(self):
        path = self.file("f.bpf", ret(ALLOW))
        for words, says in ((["--arch", "i386", "--runtime", "runc"], "give either --arch or --runtime"),
                            (["--arch", "sh"], "no table of the architecture 'sh'"),
                            (["--arch", "mips"], "SCMP_ARCH_MIPS is big-endian")):
            self.is_refused(says, "profile-of", *words, path)
        # a table is the architecture's
        own_table = self.file("own.table", "mine 7\n")
        data = of_records({X86: tests_of({7: ret(ALLOW)}, EPERM)})
        status, profile, _ = self.printed(data, "--arch", "i386", "--table", own_table)
        self.assertEqual((status, profile["syscalls"]), (0, [entry("ALLOW", "mine")]))
