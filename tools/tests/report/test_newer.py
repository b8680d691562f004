"""Calls with greater numbers than all that a profile names, which a filter refuses otherwise than its profile, as runc
makes them; and filters that differ elsewhere, too."""

from support.common import ALLOW, EPERM, Case, filter_of, gate, jeq, load, profile_of, ret, stub

SAID = "syscalls with numbers above all that the profile names differ, the first is"
ONLY_ANSWERS = "it is neither more permissive nor stricter than the profile: only the answers differ"
BOTH = "; both sides deny them, the filter with ERRNO 38 (ENOSYS) and the profile with ERRNO 1 (EPERM)"
# The numbers of the table's last calls, and the count of its calls from 450 on.
CACHESTAT, LAST, COUNT_FROM_450 = 451, 469, 20


class Newer(Case):
    def setUp(self):
        super().setUp()
        # 449 is the greatest number that it names
        self.profile = self.file("p.json", profile_of("read", "write", "futex_waitv"))
        self.rules = [0, 1, 449]

    def added(self, *codes, scope="--native", profile=None):
        """The verdict's call, and what is added behind scf's lines."""
        names = [self.file(f"{at}.bpf", code) for at, code in enumerate(codes)]
        status, lines = self.told("compare", scope, *names, profile or self.profile)
        self.assertEqual((status, lines[0]), (1, "differs"))
        return lines[1], [line[2:] for line in lines if line.startswith("# ")]

    def test_only_newer_calls(self):
        call, added = self.added(stub(450) + filter_of(self.rules))
        self.assertTrue(call.startswith("call nr 450 "))
        self.assertEqual(added[:8], [ONLY_ANSWERS, f"only {SAID} set_mempolicy_home_node (450){BOTH}",
                                     f"syscalls in the table among these: {COUNT_FROM_450}",
                                     "the syscall is set_mempolicy_home_node (450)",
                                     "the filter answers ERRNO 38: the syscall fails with ENOSYS",
                                     "the profile answers ERRNO 1: the syscall fails with EPERM", "by the default",
                                     "the last tests on the path in the filter:"])
        self.assertRegex(added[-1], r"^ *[0-9]+  ret #0x50026 +// ERRNO 38 \(ENOSYS\)$")

    def test_the_first_of_them_is_told(self):
        """Whatever call scf shows: the filter answers as the profile between the greatest number and the first."""
        for first in (450, 451, 460, 469, 1000, 2**30 - 1):
            _, added = self.added(stub(first) + filter_of(self.rules))
            name = {450: "set_mempolicy_home_node (450)", 451: "cachestat (451)", 460: "lsm_set_self_attr (460)",
                    469: "file_setattr (469)"}.get(first, f"number {first}, which the table doesn't name")
            self.assertEqual(added[:2], [ONLY_ANSWERS, f"only {SAID} {name}{BOTH}"])

    def test_of_several_filters(self):
        allow = load(0) + ret(ALLOW)
        _, added = self.added(allow, stub(450) + filter_of(self.rules), allow)
        self.assertEqual(added[0], ONLY_ANSWERS.replace("it is", "they are"))
        self.assertTrue(added[1].startswith(f"only {SAID} set_mempolicy_home_node (450)"), added)

    def test_others_come_first_and_are_counted_apart(self):
        """400 has no name: it is told by the call and both answers."""
        differs = "41 socket differs args 0x0 0x0 0x0 0x0 0x0 0x0 filter ALLOW 0 profile ERRNO 1"
        for number, lines in ((41, ["syscalls in the table that differ: 1", differs]),
                              (400, ["the syscall is number 400, which the table doesn't name",
                                     "the filter answers ALLOW: the syscall is executed"])):
            _, added = self.added(stub(450) + filter_of([*self.rules, number]))
            place, other_place = added.index(f"{SAID} set_mempolicy_home_node (450){BOTH}"), added.index(lines[0])
            self.assertLess(other_place, place)
            self.assertEqual(added[other_place:other_place + 2], lines)
            self.assertEqual(added[place + 1], f"syscalls in the table among these: {COUNT_FROM_450}")

    def test_what_is_not_said_to_be_denied(self):
        """Newer calls that are let through, or one of them, if only for some arguments; one that is refused in a third
        way for some, behind a stub, or by ENOSYS without one; and those that a profile lets through."""
        lax = self.file("lax.json", b'{"defaultAction":"SCMP_ACT_ALLOW","syscalls":[{"names":["read"],'
                                    b'"action":"SCMP_ACT_ERRNO"}]}')
        rows = [(stub(450, ALLOW), None), (gate(stub(450) + jeq(0, 0, 1) + ret(EPERM) + ret(ALLOW)), lax),
                *((load(0) + jeq(number, 0, 1) + ret(ALLOW) + stub(450), None) for number in (500, LAST)),
                *((load(0) + jeq(number, 0, 3) + load(16) + jeq(7, 0, 1) + ret(answer) + before, None)
                  for answer, before in ((ALLOW, stub(450)), (0x00050016, stub(450)), (0x7FC00000, stub(450)),
                                         (0x00050026, b"")) for number in (450, CACHESTAT, LAST, 500, 2**30 - 1))]
        for at, (code, profile) in enumerate(rows):
            for scope in ("--native", "--calls")[:1 + (at < 4)]:
                _, added = self.added(code + filter_of(self.rules), scope=scope, profile=profile)
                self.assertFalse(any(SAID in line for line in added), (code, added))

    def test_calls_by_name(self):
        _, added = self.added(stub(450) + filter_of(self.rules), scope="--calls")
        newer = [f"{SAID} set_mempolicy_home_node (450); both sides deny them, the filter with ERRNO 38 (ENOSYS) and "
                 "the profile with ERRNO 1 (EPERM)", f"syscalls in the table among these: {COUNT_FROM_450}"]
        self.assertEqual(added, [f"over the syscalls in the table: {ONLY_ANSWERS}", f"only {newer[0]}", newer[1]])
        _, added = self.added(stub(450) + filter_of([*self.rules, 41, 42]), scope="--calls")
        self.assertEqual(added, newer)

    def test_a_long_filter(self):
        """They are told apart by their numbers alone, also of the longest filter that a kernel takes."""
        code = stub(450) + filter_of(self.rules)
        _, added = self.added(load(0) * (4096 - len(code) // 8) + code)
        self.assertTrue(any(SAID in line for line in added), added)
        self.assertIn(f"syscalls in the table among these: {COUNT_FROM_450}", added)

    def test_json(self):
        name = self.file("f.bpf", stub(CACHESTAT) + filter_of(self.rules))
        report = self.json_of("compare", "--native", "--json", name, self.profile)
        self.assertEqual(report["newer"], {
            "first": CACHESTAT, "firsts": {"SCMP_ARCH_X86_64": CACHESTAT}, "are_all": True,
            "filter": {"action": "ERRNO", "data": 38, "errno": "ENOSYS"},
            "profile": {"action": "ERRNO", "data": 1, "errno": "EPERM"}})
        name = self.file("g.bpf", stub(CACHESTAT) + filter_of([*self.rules, 41]))
        report = self.json_of("compare", "--native", "--json", name, self.profile)
        self.assertFalse(report["newer"]["are_all"])
