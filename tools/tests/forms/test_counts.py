"""Filters compiled by how often syscalls are called: parts `counts-table`, `compile --hot` and `needs --counts`."""
import json
import os

from support.common import X86_64, Case, filter_of, part, profile_of
from support.on_parts import OnProgram, a_profile, a_table, bundle, ran
from support.oci import ERRNO, condition, entry
from support.worked import allowing
from scftools.model import tables
from scftools.model.architectures import AARCH64, I386, JUDGED, NATIVE

# Blocks of four numbers, each block a range, and so is the number between two.
NUMBERS = [number for number in range(300) if number % 5]
PROFILE, TABLE = allowing(NUMBERS)
PARTS = bundle([a_profile(PROFILE), a_table(TABLE)])
LISTS_BOTH = '{"architectures":["SCMP_ARCH_X86_64","SCMP_ARCH_X86"],' + PROFILE[1:]
BOTH = bundle([a_profile(LISTS_BOTH), a_table(TABLE)]) + part("table-x86", TABLE.encode())
EACH = "--architectures"
# The first and the last number of blocks; HOT is called most.
HOT, MIX = 104, {"c31": 5, "c104": 900, "c236": 80}
# 8, 2 for each of eight binary digits of 240, and 2 for the rule; 8, and 4 for each number and 2 for its rule.
SEARCH_BOUND, SIZE_BOUND = 26, 8 + 6 * 240


def counts(entries, kind="counts-table"):
    return part(kind, "".join(f"{name} {count}\n" for name, count in entries.items()).encode())


def compiled(given, *words):
    out, status = ran(["compile", *words], given)
    if status:
        raise AssertionError(out)
    return out


def steps(filter_, number, architecture=X86_64):
    out, _ = ran(["run", "--nr", str(number), "--arch", hex(architecture)], filter_)
    return int(out.split()[-1])


def mean(filter_):
    return sum(count * steps(filter_, int(name[1:])) for name, count in MIX.items()) / sum(MIX.values())


class Parts(OnProgram):
    def test_answers_and_bounds_stay(self):
        """Whatever the counts are, also of a name that no rule has."""
        plain = compiled(PARTS)
        for entries in (MIX, {}, {"c1": 1}, {"c299": (1 << 30) - 1}, {f"c{number}": number for number in NUMBERS}):
            filter_ = compiled(PARTS + counts(entries))
            self.assertLessEqual(len(filter_), 8 * SIZE_BOUND)
            self.prints(["compare", "--beside"], part("filter", plain) + part("beside", filter_), "same\n")
            self.assertLessEqual(max(steps(filter_, number) for number in range(302)), SEARCH_BOUND)

    def test_frequent_syscalls_take_fewer_steps(self):
        plain, filter_ = compiled(PARTS), compiled(PARTS + counts(MIX))
        self.assertLess(mean(filter_), mean(plain) - 3)
        least = steps(filter_, HOT)
        self.assertEqual({number for number in range(300) if steps(filter_, number) <= least}, {101, 102, 103, 104})

    def test_a_number_without_rules_counts_for_its_range(self):
        """One between two blocks."""
        table = part("table", (TABLE + "hot 105\n").encode())
        given = part("profile", PROFILE.encode()) + table
        self.assertLess(steps(compiled(given + counts({"hot": 1})), 105), steps(compiled(given), 105))

    def test_counts_that_say_nothing(self):
        """None, names that the table lacks, counts of 0, and the same for each number with rules."""
        plain = compiled(PARTS)
        for entries in ({}, {"absent": 9}, {"c31": 0}, {f"c{number}": 7 for number in NUMBERS}):
            self.assertEqual(compiled(PARTS + counts(entries)), plain, entries)

    def test_counts_are_of_one_architecture(self):
        plain, filter_ = compiled(BOTH, EACH), compiled(BOTH + counts(MIX, "counts-table-x86"), EACH)
        self.prints(["compare", "--beside"], part("filter", plain) + part("beside", filter_), "same\n")
        for architecture, is_counted in ((X86_64, False), (JUDGED[I386].number, True)):
            before, after = ([steps(each, number, architecture) for number in range(302)] for each in (plain, filter_))
            self.assertEqual(before != after, is_counted)
            self.assertEqual(after[HOT] < before[HOT], is_counted)

    def test_parts_that_are_refused(self):
        for text in (b"c31", b"c31 -1\n", b"c31 1073741824\n", b"c31 1\nc31 2\n", b"x86 c31 1\n"):
            self.prints(["compile"], PARTS + part("counts-table", text), "fault bundle Parts\n", 3)
        self.prints(["decide"], part("filter", filter_of([0])) + counts(MIX), "fault bundle Parts\n", 3)
        of_i386 = counts(MIX, "counts-table-x86")
        self.prints(["compile"], PARTS + of_i386, f"fault bundle Header offset {len(PARTS)}\n", 3)

    def test_other_commands_pass_them_over(self):
        self.assertEqual(ran(["ask", "--nr=31"], PARTS + counts(MIX)), ran(["ask", "--nr=31"], PARTS))


class Hot(Case):
    """The tool."""

    def setUp(self):
        super().setUp()
        self.profile, self.table = self.file("p.json", PROFILE), self.file("t", TABLE)

    def compiled(self, text, *words, profile=None):
        """The status, the filter and what is said of it; by default all that the profile allows is counted."""
        return self.compile(*(words or ("--no-bitmap",)), "--hot", self.file("hot", text), f"--table={self.table}",
                            profile or self.profile)

    def test_lines(self):
        """Comments, blanks, names that stand twice, and counts that are too great for scf."""
        for text, entries in (("c31 5\nc104 900\nc236 80\n", MIX), ("# a\n\n c31\t5\r\nc104 0900\nc236 80", MIX),
                              ("c104 899\nc31 5\nc236 80\nc104 1\n", MIX), ("", {}),
                              ("c31 5000000000\nc236 80000000000\nc104 900000000000", MIX)):
            self.assertEqual(self.compiled(text), (0, compiled(PARTS + counts(entries)), ""), text)

    def test_syscalls_that_linux_always_allows(self):
        """They aren't counted; one with a condition or another answer is, and all are for a kernel without a bitmap."""
        text = json.dumps({"defaultAction": ERRNO, "syscalls": [
            entry("c31", "c104"), entry("c236", args=[condition(0, "EQ", 1)]), entry("c237", action="SCMP_ACT_LOG")]})
        path, parts = self.file("q.json", text), bundle([a_profile(text), a_table(TABLE)])
        every = {"c31": 5, "c104": 900, "c236": 80, "c237": 40, "c238": 30}
        lines = "".join(f"{name} {count}\n" for name, count in every.items())
        run = {name: every[name] for name in ("c236", "c237", "c238")}
        self.assertEqual(self.compiled(lines, "--native", profile=path), (0, compiled(parts + counts(run)), ""))
        self.assertEqual(self.compiled(lines, "--native", "--no-bitmap", profile=path),
                         (0, compiled(parts + counts(every)), ""))
        self.assertNotEqual(compiled(parts + counts(run)), compiled(parts + counts(every)))

    def test_architectures_without_a_bitmap(self):
        """SECCOMP_ARCH_NATIVE and SECCOMP_ARCH_COMPAT in asm/seccomp.h of Linux 6.1: mips has none, x32 neither."""
        self.assertEqual({row.name for row in JUDGED.values() if not row.has_bitmap},
                         {"x32", "mipsel", "mipsel64", "mipsel64n32"})

    def test_bad_lines(self):
        for number, line in ((1, "c31"), (1, "c31 x"), (1, "c31 -1"), (2, "c31 1 2"), (2, "i387 c31 1"), (3, "1 c31"),
                             (1, "c31 " + "9" * 19), (1, "c-30 1")):
            status, out, err = self.compiled("c31 1\n" * (number - 1) + line + "\n")
            self.assertEqual((status, out), (2, b""), line)
            self.assertEqual(err, f"compile: line {number} of '{self.folder}/hot' is neither NAME COUNT nor ARCH NAME "
                                  f"COUNT: '{line}'\n")
        self.assertEqual(self.run_tool("compile", "--hot", "-", "-", given=b"")[0], 2)
        self.assertEqual(self.run_tool("compile", "--hot", "none", self.profile)[0], 2)

    def test_unknown_names(self):
        status, filter_, err = self.compiled("c31 1\nabsent 9\ni386 c31 7\nabsent 2\n")
        self.assertEqual((status, filter_), (0, compiled(PARTS + counts({"c31": 1}))))
        self.assertEqual(err, "compile: names in the counts that were skipped because no table has them: absent, "
                              "i386 c31\n")

    def steps_of_execve(self, text, listed):
        """The steps in some architectures, by counts."""
        names = ["execve", *list(tables.read_table(None).names())[::3]]
        profile = {**json.loads(profile_of(*names)), "architectures": listed}
        hot, path = self.file("hot", text), self.file("p.json", profile)
        out = self.output_of(0, "compile", "--json", "--no-bitmap", "--hot", hot, path)
        filter_ = bytes.fromhex(json.loads(out)["hex"])
        return [steps(filter_, tables.architecture_table(name).number_of("execve"), JUDGED[name].number)
                for name in listed]

    def test_several_architectures(self):
        """Each line counts in its architecture; without a name it is of the first that the profile lists."""
        listed = [NATIVE, I386, AARCH64]
        plain = self.steps_of_execve("", listed)
        for index, text in enumerate(("execve 9\n", "i386 execve 9\n", "aarch64 execve 9\n")):
            hot = self.steps_of_execve(text, listed)
            self.assertLess(hot[index], plain[index])
            self.assertEqual((hot[:index], hot[index + 1:]), (plain[:index], plain[index + 1:]))
        unmarked, marked, none = (self.steps_of_execve(text, [AARCH64])
                                  for text in ("execve 9\n", "aarch64 execve 9\n", ""))
        self.assertEqual(unmarked, marked)
        self.assertLess(unmarked, none)


class Needs(Case):
    def test_counts_of_a_log(self):
        log = self.file("log", "".join(["7 read(3) = 0\n"] * 3 + ["7 write(1) = 0\n", "7 close(3) = 0\n"]))
        out = self.output_of(0, "needs", "--counts", log, self.file("p.json", profile_of("read")))
        self.assertEqual(out, "read 3\nclose 1\nwrite 1\n")
        hot, profile = self.file("hot", out), os.path.join(self.folder, "p.json")
        self.assertEqual(self.run_tool("compile", "--json", "--hot", hot, profile)[::2], (0, ""))
        for word in ("--profile", "--json"):
            self.assertEqual(self.run_tool("needs", "--counts", word, "log", "p.json")[0], 2)
