"""tools/call-table, and the tables that come with scf."""
import ctypes.util
import os
import unittest

from support.common import TABLE, TOP, X32, Case, limited, rows, sample, text_of, tool
from scftools.model import architectures, libseccomp, tables

HEADER = sample("unistd_64.h")


# Rows of arch/x86/entry/syscalls/syscall_64.tbl, as the kernel's source has them.
SOURCE = sample("syscall_64.tbl")
LIMIT = 4194304
HEADERS = "/usr/include/x86_64-linux-gnu/asm"
# As Debian's linux-libc-dev 6.12 has asm/unistd_x32.h, and asm/unistd-eabi.h and asm/unistd.h of arm.
OF_X32 = """#define __X32_SYSCALL_BIT\t0x40000000
#define __NR_read (__X32_SYSCALL_BIT + 0)
#define __NR_execve (__X32_SYSCALL_BIT + 520)
"""
OF_ARM_EABI = """#define __NR_restart_syscall (__NR_SYSCALL_BASE + 0)
#define __NR_arm_sync_file_range (__NR_SYSCALL_BASE + 341)
"""
OF_ARM = """#define __NR_OABI_SYSCALL_BASE\t0x900000
#define __NR_SYSCALL_MASK\t0x0fffff
#if defined(__thumb__) || defined(__ARM_EABI__)
#define __NR_SYSCALL_BASE\t0
#include <asm/unistd-eabi.h>
#else
#define __NR_SYSCALL_BASE\t__NR_OABI_SYSCALL_BASE
#endif
#define __NR_sync_file_range2\t\t__NR_arm_sync_file_range
#define __ARM_NR_BASE\t\t\t(__NR_SYSCALL_BASE+0x0f0000)
#define __ARM_NR_breakpoint\t\t(__ARM_NR_BASE+1)
#define __ARM_NR_set_tls\t\t(__ARM_NR_BASE+5)
"""


class CallTable(Case):
    def test_what_a_header_numbers(self):
        table = "read 0\nwrite 1\nafter 3\nspaced 4\ntabbed 5\n"
        self.assertEqual(self.run_tool("call-table", self.file("h", HEADER)), (0, table, ""))
        self.assertEqual(self.run_tool("call-table", given=HEADER.encode()), (0, table, ""))
        self.assertEqual(self.run_tool("call-table", "-", given=HEADER.encode()), (0, table, ""))
        self.assertEqual(self.run_tool("call-table", "--comment", "of 6.1", given=HEADER.encode()),
                         (0, "# of 6.1\n" + table, ""))
        self.assertEqual(self.run_tool("call-table", given=HEADER.replace("\n", "\r\n").encode()), (0, table, ""))

    def test_what_the_table_of_the_source_numbers(self):
        table = "read 0\nexit 60\nuselib 134\nuretprobe 335\nfile_setattr 469\n"
        self.assertEqual(self.run_tool("call-table", self.file("syscall_64.tbl", SOURCE)), (0, table, ""))
        self.assertEqual(self.run_tool("call-table", "--comment", "of it", given=SOURCE.encode()),
                         (0, "# of it\n" + table, ""))

    def test_other_architectures(self):
        def printed(name, *texts):
            files = [self.file(f"{at}.h", text) for at, text in enumerate(texts)]
            return self.run_tool("call-table", "--architecture", name, *files)

        self.assertEqual(printed("x32", OF_X32), (0, "read 0\nexecve 520\n", ""))
        arm = "restart_syscall 0\narm_sync_file_range 341\nsync_file_range2 341\nbreakpoint 983041\nset_tls 983045\n"
        self.assertEqual(printed("arm", OF_ARM_EABI, OF_ARM), (0, arm, ""))
        for name in ("i386", "aarch64"):
            self.assertEqual(printed(name, "#define __NR_exit 1\n"), (0, "exit 1\n", ""))
        self.assertEqual(printed("x32", SOURCE)[:2],
                         (0, "read 0\nexit 60\nfile_setattr 469\nrt_sigaction 512\npwritev2 547\n"))
        # x86-64's have nothing added, and those of one aren't taken for another's
        for name, text in (("x86_64", OF_X32), ("x86_64", OF_ARM_EABI), ("x32", OF_ARM_EABI), ("i386", SOURCE)):
            self.is_refusal("has no syscall", printed(name, text))
        self.assertEqual(self.run_tool("call-table", "--architecture", "mips")[:2], (2, ""))

    def refuses(self, given, message):
        done = self.run_tool("call-table", given=given)
        self.is_refusal(message, done)
        self.assertRegex(done[2], r"^call-table: [ -~]*\n$")

    def test_a_wrong_table_of_the_source(self):
        self.refuses(b"0 common read sys_read\n1 i386 exit sys_exit\n",
                     "line 2: the ABI 'i386' isn't common, 64 or x32")
        self.refuses(b"0 common read sys_read\nx common exit sys_exit\n", "line 2 has no number, ABI and name")
        self.refuses(b"0 common read sys_read\n1 common\n", "line 2 has no number, ABI and name: '1 common'")
        self.refuses(b"0 common read sys_read\n1 common a\x1b[2Jb sys\n", r"line 2: 'a\x1b[2Jb' isn't a name")
        self.refuses(b"0 common read sys_read\n1 common \xff\xfe sys\n", r"'\xff\xfe' isn't a name")
        self.refuses(b"0 common read sys_read\n1 common read sys_read\n", "line 2: read has two numbers, 0 and 1")
        self.refuses(b"1073741824 common read sys_read\n", "line 1: the number of read isn't below 1073741824")
        self.refuses(b"9" * 5000 + b" common read sys_read\n", "line 1: the number of read isn't below 1073741824")
        self.refuses(b"\n\n#\n\n0 common read sys_read\n\n\n1 common\n", "line 8 has no number, ABI and name")

    def test_many_digits(self):
        """More than Python makes a number of (4300)."""
        for given in (b"#define __NR_read %s7\n", b"%s7 common read sys_read\n"):
            self.assertEqual(self.run_tool("call-table", given=given % (b"0" * 5000)), (0, "read 7\n", ""))
            self.refuses(given % (b"1" * 5000), "the number of read isn't below 1073741824")

    def test_a_wrong_header(self):
        for given in (b"", b"#define __NR_syscalls 3\n", b"/* #define __NR_a 1 */\n", b"\x7fELF\0\0", b"read 0\n",
                      b"/* #define __NR_a 1\n", b"\n" * 1000):
            self.refuses(given, "has no syscall")
        self.refuses(b"#define __NR_read 0\n#define __NR_read 1\n", "read has two numbers, 0 and 1")
        self.assertEqual(self.run_tool("call-table", given=b"#define __NR_a 1\n#define __NR_a 1\n"), (0, "a 1\n", ""))

    def test_inputs_without_an_end(self):
        for path in ("/dev/zero", "/dev/urandom"):
            # a tenth of a second is measured; one that reads on is ended, or refused more memory
            self.is_refused(f"more than {LIMIT} bytes", "call-table", path, preexec_fn=limited(20, 2 << 30))

    def test_the_longest_input(self):
        """In time that doesn't grow with the square of its length, which would be hours; two seconds are measured."""
        for given in (b"/" * LIMIT, b" " * LIMIT, b"\n" * LIMIT, b"#" * LIMIT, b"/*" * (LIMIT // 2),
                      b"1 " * (LIMIT // 2), b"1 common " * (LIMIT // 9), b"#define __NR_" + b"a" * (LIMIT - 13),
                      b"\r\n" * (LIMIT // 2), b"#\n" * (LIMIT // 2), b" \n" * (LIMIT // 2 - 9) + b"1 common\n"):
            # 300 MB are measured
            status, out, err = self.run_tool("call-table", given=given, preexec_fn=limited(40, 500 << 20))
            self.assertEqual((status, out, err.count("\n")), (2, "", 1), given[:20])
        row = b"#define __NR_read 0\n"
        self.assertEqual(self.run_tool("call-table", given=row + b" " * (LIMIT - len(row))), (0, "read 0\n", ""))
        self.refuses(row + b" " * (LIMIT + 1 - len(row)), f"more than {LIMIT} bytes")

    def test_no_file(self):
        for name in ("none", self.folder):
            self.is_refused(name, "call-table", name)

    @unittest.skipUnless(ctypes.util.find_library("seccomp"), "there is no libseccomp here")
    def test_what_libseccomp_knows(self):
        lines = self.output_of(0, "call-table", "--libseccomp").splitlines()
        self.assertRegex(lines[0], r"^# The x86-64 syscalls that libseccomp [0-9]+\.[0-9]+\.[0-9]+ knows\.$")
        actual = {line.split(" ")[0]: line for line in text_of(TABLE).splitlines()}
        rows = lines[1:]
        self.assertEqual(rows, sorted(rows, key=lambda row: int(row.split(" ")[1])))
        self.assertGreater(len(rows), 300)
        # what this library knows and the table doesn't came after the table
        unlike = [row for row in rows if actual.get(row.split(" ")[0]) != row]
        self.assertEqual([row for row in unlike if int(row.split(" ")[1]) <= 469], [])
        self.assertIn("read 0", rows)
        self.assertIn("pidfd_getfd 438", rows)
        self.assertEqual(self.output_of(0, "call-table", "--libseccomp", "--comment", "mine").splitlines()[0], "# mine")


class Table(Case):
    """tables/x86_64.table."""

    # What Linux 6.18 has and 6.1 hadn't (arch/x86/entry/syscalls/syscall_64.tbl).
    NEWER = """uretprobe 335, uprobe 336, cachestat 451, fchmodat2 452, map_shadow_stack 453, futex_wake 454,
        futex_wait 455, futex_requeue 456, statmount 457, listmount 458, lsm_get_self_attr 459, lsm_set_self_attr 460,
        lsm_list_modules 461, mseal 462, setxattrat 463, getxattrat 464, listxattrat 465, removexattrat 466,
        open_tree_attr 467, file_getattr 468, file_setattr 469"""

    def lines(self):
        return text_of(TABLE).split("\n")

    def test_what_came_since(self):
        self.assertRegex(self.lines()[0], r"^# .*syscall_64\.tbl of Linux 6\.18\.$")
        newer = [line.strip() for line in self.NEWER.replace("\n", " ").split(",")]
        rows = [line for line in self.lines() if line and line[0] != "#"]
        self.assertEqual(rows, sorted(rows, key=lambda row: int(row.split(" ")[1])))
        self.assertEqual((set(newer) - set(rows), len(newer), len(rows)), (set(), 21, 383))

    def test_it_is_what_the_tool_makes(self):
        header = "".join(f"#define __NR_{name} {number}\n" for name,
                         number in (line.split() for line in self.lines()[1:] if line))
        self.assertEqual(self.run_words([tool("call-table"), "--comment", self.lines()[0][2:]], header.encode()),
                         (0, "\n".join(self.lines()), ""))


class OtherTables(Case):
    """The tables of other architectures."""

    # What libseccomp 2.5.4 lacks though it knows greater numbers: x86-64's alone, which x32's header has, too, a second
    # name of a number, and what Linux 6.4 added.
    LACKING = {"X32": {"uretprobe", "uprobe", "map_shadow_stack"}, "ARM": {"sync_file_range2"},
               "RISCV64": {"riscv_hwprobe"}}

    @unittest.skipUnless(ctypes.util.find_library("seccomp"), "there is no libseccomp here")
    def test_libseccomp_says_the_same(self):
        """What scmp_sys_resolver prints; only what is newer than the other stands in one alone."""
        library = libseccomp.Library()
        # mips counts from a number of its own
        for name, least, base in (("X86", 430, 0), ("X32", 350, 0), ("AARCH64", 300, 0), ("ARM", 400, 0),
                                  ("RISCV64", 300, 0), ("PPC64LE", 380, 0), ("MIPSEL", 400, 4000),
                                  ("MIPSEL64", 340, 5000), ("MIPSEL64N32", 360, 6000)):
            oci, bit = f"SCMP_ARCH_{name}", X32 if name == "X32" else 0
            table = tables.architecture_table(oci)
            its = {number: library.name_of(number | bit, oci)
                   for number in (*range(base, base + 1000), *range(0xF0000, 0xF0010))}
            its = {number: each for number, each in its.items() if each is not None}
            self.assertGreater(len(its), least, name)
            # all count the newest ones alike, below x32's own from 512 on
            highest_known, newest = (max(number for number in numbers if number < base + 512)
                                     for numbers in (its, table.numbers()))
            self.assertEqual({number: each for number, each in its.items() if each not in table.names_of(number)
                              and not newest < number < base + 512}, {}, name)
            alone = {each for each in table.names() if table.number_of(each) <= highest_known} - set(its.values())
            self.assertEqual(alone - self.LACKING.get(name, set()), set(), name)
            # numbers below 0 are libseccomp's own, for names that it knows of other architectures
            theirs = {each: library.number_of(each, oci) for each in table.names() if library.knows(each)}
            self.assertEqual({each: number for each, number in theirs.items()
                              if number >= 0 and number != table.number_of(each) | bit}, {}, name)

    @unittest.skipUnless(os.path.exists(f"{HEADERS}/unistd_x32.h"), "there are no kernel headers here")
    def test_the_headers_here_say_the_same(self):
        for name, header in (("x86_64", "unistd_64.h"), ("i386", "unistd_32.h"), ("x32", "unistd_x32.h")):
            made = self.run_tool("call-table", "--architecture", name, f"{HEADERS}/{header}")
            here = [line.split() for line in made[1].split("\n") if line]
            self.assertGreater(len(here), 340)
            table = dict(rows(os.path.join(TOP, "tables", f"{name}.table")))
            self.assertEqual([row for row in here if table.get(row[0], row[1]) != row[1]], [])
            self.assertLess(len([row for row in here if row[0] not in table]), 2)

    def test_three_have_the_numbers_of_asm_generic(self):
        """libseccomp 2.5.4 doesn't know loongarch64; what aarch64 and riscv64 have, too, has the same number there."""
        numbers = {name: dict(rows(os.path.join(TOP, "tables", f"{name}.table")))
                   for name in ("aarch64", "riscv64", "loongarch64")}
        for name in ("riscv64", "loongarch64"):
            shared = {call for call in numbers[name] if call in numbers["aarch64"]}
            self.assertGreater(len(shared), 315)
            self.assertEqual([call for call in shared if numbers[name][call] != numbers["aarch64"][call]], [])
            self.assertEqual([call for call in numbers[name] if call not in shared and "riscv" not in call], [])

    def test_their_names_are_known(self):
        """Each is one of x86-64, or stands among those that only other architectures have."""
        # of Linux 7.2, which is newer than x86-64's table
        newer = {"listns", "rseq_slice_yield"}
        known_names = {row[0] for row in rows(TABLE)} | tables.names_elsewhere() | newer
        for path in [item.file for item in architectures.JUDGED.values() if item.oci != architectures.NATIVE]:
            self.assertEqual({row[0] for row in rows(path)} - known_names, set(), path)
            self.assertRegex(text_of(path), r"\A# The syscalls of \w+, from \S+\.h .*linux-libc-dev 7\.2\.12")


class OtherArchitectures(Case):
    """tables/other_architectures.names."""

    # What containers-common 0.50.1 and 0.67.1, moby 20.10.24 and 28.5.2, and systemd's units name, and x86-64 lacks.
    NAMED = sample("names_of_others.txt")

    def lines(self):
        return text_of(TOP, "tables", "other_architectures.names").split("\n")

    def test_comments_and_names(self):
        lines = self.lines()
        self.assertEqual(lines.pop(), "")
        self.assertRegex(" ".join(line for line in lines if line.startswith("#")), r"asm/unistd\S* of Linux [0-9]")
        names = [line for line in lines if not line.startswith("#")]
        self.assertEqual(names, sorted(set(names)))
        for name in names:
            self.assertRegex(name, r"^[a-z0-9_]+$")

    def test_it_has_none_of_x86_64_and_all_that_engines_name(self):
        self.assertEqual({row[0] for row in rows(TABLE)} & set(self.lines()), set())
        self.assertEqual(set(self.NAMED.split()) - set(self.lines()), set())
        self.assertEqual({"umont2", "reed", "syscalls", "BASE"} & set(self.lines()), set())
