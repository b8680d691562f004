"""Architectures on the command line: by which names and numbers `--arch` takes them, and what a call is there."""
import os
import re
import unittest

from support.common import ALLOW, EPERM, I386, TOP, X32, X86_64, Case, jeq, load, ret, text_of
from scftools.base import program
from scftools.model import architectures

AUDIT, MACHINES = "/usr/include/linux/audit.h", "/usr/include/linux/elf-em.h"
# Each answers ERRNO 1 to one architecture, and allows all else.
I386_ALONE, AARCH64_ALONE = (load(4) + jeq(number, 0, 1) + ret(EPERM) + ret(ALLOW) for number in (I386, 0xC00000B7))
NUMBER_41_OF_X32 = load(0) + jeq(X32 + 41, 0, 1) + ret(EPERM) + ret(ALLOW)
# libseccomp's names of what the kernel's header calls otherwise; its x32 is x86-64's in a call's record.
NAMED = {"X86": "I386", "X32": "X86_64", "SHEB": "SH", "SH": "SHEL"}


def numbers_of_headers():
    """AUDIT_ARCH_.. as linux/audit.h defines it."""
    with open(AUDIT, encoding="ascii") as audit, open(MACHINES, encoding="ascii") as machines:
        text = audit.read().replace("\\\n", " ")
        values = dict(re.findall(r"#define\s+(EM_\w+)\s+(\d+)", machines.read()))
    values.update(re.findall(r"#define\s+(__AUDIT_ARCH_\w+)\s+(0x[0-9a-f]+)", text))
    actual = {}
    for name, parts in re.findall(r"#define\s+AUDIT_ARCH_(\w+)\s+\(([^)]*)\)", text):
        parts = [part.strip() for part in parts.split("|")]
        if all(part in values for part in parts):
            actual[name] = sum(int(values[part], 0) for part in parts)
    return actual


class Numbers(Case):
    @unittest.skipUnless(os.path.exists(AUDIT) and os.path.exists(MACHINES), "there are no kernel headers here")
    def test_they_are_those_of_the_kernels_header(self):
        header = numbers_of_headers()
        self.assertEqual(header["X86_64"], X86_64)
        for name, number in architectures.NUMBERS.items():
            name = name.replace("SCMP_ARCH_", "")
            if NAMED.get(name, name) in header:
                self.assertEqual(number, header[NAMED.get(name, name)], name)
        self.assertGreater(len(set(header.values()) & set(architectures.NUMBERS.values())), 15)

    def test_the_forms(self):
        for text, number in (("i386", I386), ("I386", I386), ("x86", I386), ("SCMP_ARCH_X86", I386),
                             ("AUDIT_ARCH_I386", I386), ("0x40000003", I386), ("1073741827", I386),
                             ("x86_64", X86_64), ("x86-64", X86_64), ("c000003e", X86_64), ("C000003E", X86_64),
                             ("x32", X86_64), ("SCMP_ARCH_X32", X86_64), ("aarch64", 0xC00000B7),
                             ("arm64", 0xC00000B7), ("c00000b7", 0xC00000B7), ("riscv64", 0xC00000F3),
                             ("ppc64le", 0xC0000015), ("mipsel", 0x40000008), ("mipsel64", 0xC0000008),
                             ("AUDIT_ARCH_MIPSEL64N32", 0xE0000008), ("SCMP_ARCH_LOONGARCH64", 0xC0000102), ("f", 15),
                             ("0", 0), ("20", 20)):
            self.assertEqual(int(architectures.number_in(text), 0), number, text)

    def test_the_forms_of_one_that_is_judged(self):
        """A number of linux/audit.h stands for the architecture too; that of x86-64 and x32 for x86-64."""
        for text, name in (("x86-64", "x86-64"), ("c000003e", "x86-64"), ("0xC000003E", "x86-64"), ("x32", "x32"),
                           ("3221225655", "aarch64"), ("0x40000003", "i386"), ("c0000102", "loongarch64")):
            self.assertEqual(architectures.judged_in(text).name, name, text)
        for text, says in (("abc", "no table of the architecture 'abc'"), ("0", "no table of the architecture '0'"),
                           ("i387", "no table of the architecture 'i387'"), ("0x80000016", "S390X is big-endian"),
                           ("40000003", "is ambiguous")):
            self.assertIn(says, self.text_of_error(program.ToolError, architectures.judged_in, text))

    def test_what_is_ambiguous_unknown_or_big_endian(self):
        big_endian = "is big-endian: its filters and records have another byte order, which scf doesn't read"
        for text, says in (("40000003", "write 0x40000003 for SCMP_ARCH_X86, as the audit log has it, or 0x2625a03 "
                                        "for the decimal number"),
                           ("40000028", "0x40000028 for SCMP_ARCH_ARM"), ("80000016", "0x80000016 for SCMP_ARCH_S390X"),
                           ("i387", "unknown architecture 'i387'"), ("SCMP_ARCH_", "unknown architecture"),
                           *((name, f"{oci} {big_endian}") for name, oci in (
                               ("s390x", "SCMP_ARCH_S390X"), ("s390", "SCMP_ARCH_S390"), ("ppc64", "SCMP_ARCH_PPC64"),
                               ("ppc", "SCMP_ARCH_PPC"), ("AUDIT_ARCH_MIPS", "SCMP_ARCH_MIPS"),
                               ("mips64", "SCMP_ARCH_MIPS64"), ("mips64n32", "SCMP_ARCH_MIPS64N32"),
                               ("SCMP_ARCH_PARISC", "SCMP_ARCH_PARISC")))):
            with self.assertRaises(program.ToolError) as caught:
                architectures.number_in(text)
            self.assertIn(says, str(caught.exception))
            self.assertEqual(caught.exception.status, 2)


class Sources(unittest.TestCase):
    """The rows of the verified core, of libscf and of its bindings are those of the tools, in their order."""

    def held(self, pattern, *path):
        """What a pattern has in a file, small letters and digits alone."""
        text = text_of(TOP, *path)
        return [re.sub("[^a-z0-9]", "", found.lower()) for found in re.findall(pattern, text, re.M)]

    def test_names(self):
        rows = architectures.JUDGED.values()
        names = [row.oci.removeprefix(architectures.PREFIX).lower().replace("_", "") for row in rows]
        for pattern, path in ((r'^row_of .*\(codes "SCMP_ARCH_(\w+)"\)', "crates/scf_insn/specs/Architectures.antt"),
                              (r'"SCMP_ARCH_(\w+)"', "crates/scf_insn/src/architecture.rt"),
                              (r"^    SCF_TABLE_(\w+) = ", "library/scf.h"),
                              (r"ROW\((\w+), ", "library/architectures.h"),
                              (r'\{"(\w+)", 0x', "library/go/scf.go"),
                              (r"(\w+)(?=(?:, \w+)*\]\.map\(own\))", "library/rust/src/lib.rs")):
            self.assertEqual(self.held(pattern, path), names, path)
        self.assertEqual(self.held(r"ROW\(\w+, (\w+), ", "library/architectures.h"),
                         [row.source_name.replace("_", "") for row in rows])

    def test_numbers(self):
        numbers = [f"{row.number:08x}" for row in architectures.JUDGED.values()]
        own = self.held(r"^pub const AUDIT_ARCH_X86_64: u32 = 0x(\w+);", "crates/scf_insn/src/kernel.rt")
        others = self.held(r"^ +\w+ 0x(\w+) Bits", "crates/scf_insn/src/architecture.rt")
        self.assertEqual({*own, *others}, set(numbers))
        self.assertEqual(self.held(r'\{"\w+", 0x(\w+)\}', "library/go/scf.go"), numbers)


class Words(Case):
    """decide, run, ask and list."""

    def setUp(self):
        super().setUp()
        self.i386, self.aarch64, self.x32 = (self.file(f"{at}.bpf", data) for at, data in enumerate(
            (I386_ALONE, AARCH64_ALONE, NUMBER_41_OF_X32)))
        self.profile = self.file("p.json", b'{"defaultAction":"SCMP_ACT_ALLOW"}')

    def answer(self, *words):
        return self.output_of(0, "decide", *words).split("\n")[0]

    def test_names_and_audits_hexadecimal(self):
        self.assertEqual(self.answer("--arch", "i386", "--nr=41", self.i386), "ERRNO 1")
        self.assertEqual(self.answer("--arch=c00000b7", "--nr=41", self.aarch64), "ERRNO 1")
        self.is_refused("--arch 40000003 is ambiguous: write 0x40000003 for SCMP_ARCH_X86", "decide", "--arch=40000003",
                        "--nr=41", self.i386)
        self.begins(2, "fault number arch", self.run_tool("decide", "--nr=0", "--arch", "0x1ffffffff", self.i386))

    def test_an_x32_number_has_its_bit(self):
        for number in ("41", "0x40000029"):
            self.assertEqual(self.answer("--arch=x32", "--nr", number, self.x32), "ERRNO 1")
        self.assertEqual(self.answer("--nr", "41", self.x32), "ALLOW 0")
        value = self.json_of("decide", "--nr=0", "--json", "--arch=x32", self.x32)
        self.assertEqual(value["calls"][0]["call"]["number"], X32)

    def test_a_name_is_that_of_the_architecture(self):
        """As asm/unistd*.h have them: socket is 359 on i386, 41 of x32, and 198 on aarch64."""
        calls = self.file("calls", b"socket 2\n")
        for word in ("0", "sh", "0xffffffff"):
            for words in (("decide", "--nr=socket", self.i386), ("run", "--nr=socket", self.i386),
                          ("list", "--nr=socket", self.i386), ("ask", "--nr=socket", self.profile),
                          ("decide", "--calls-from", calls, self.i386)):
                self.is_refused(f"there is no table of --arch {word}: give the number of 'socket'", words[0], "--arch",
                                word, *words[1:])
        for word, name, number in (("i386", "SYS_read", 3), ("x32", "execve", X32 + 520), ("x32", "__NR_read", X32),
                                   ("aarch64", "openat", 56), ("arm", "set_tls", 0xF0005),
                                   ("arm", "sync_file_range2", 341)):
            value = self.json_of("decide", "--json", "--arch", word, "--nr", name, self.i386)["calls"][0]["call"]
            self.assertEqual(value["number"], number)
            self.assertIn(re.sub("^(SYS|__NR)_", "", name), value["names"])
        for word, number in (("i386", 359), ("0x40000003", 359), ("x32", X32 + 41), ("aarch64", 198), ("arm", 281)):
            for words in (("decide", "--nr=socket", self.i386), ("run", "--nr=socket", self.i386),
                          ("ask", "--nr=socket", self.profile), ("decide", "--calls-from", calls, self.i386)):
                value = self.json_of(words[0], "--json", "--arch", word, *words[1:])
                self.assertEqual(value["calls"][0]["call"]["number"], number, (word, words))
            shown = "0x40000000 + 41" if word == "x32" else f"{number}"
            self.assertIn(f"# the syscall is socket ({shown})",
                          self.run_tool("list", "--nr=socket", "--arch", word, self.i386)[1])
        for word in ("x86_64", "SCMP_ARCH_X86_64", "0xc000003e", "3221225534", "c000003e"):
            self.assertEqual(self.answer("--nr=socket", "--arch", word, self.i386), "ALLOW 0", word)

    def test_how_they_are_shown(self):
        skipped = "number -1, which a tracer sets to skip a syscall"
        for words, shown in ((("--nr", "-1"), skipped), (("--nr=0xffffffff",), skipped),
                             (("--nr=0xfffffffe",), "number 4294967294 (0xfffffffe), which no syscall has"),
                             (("--arch=i386", "--nr=102"), "socketcall (102) of the architecture i386"),
                             (("--arch=i386", "--nr=9999"), "number 9999 of the architecture i386"),
                             (("--arch=arm", "--nr=0xf0002"), "cacheflush (983042) of the architecture arm"),
                             (("--arch=x32", "--nr=520"), "execve (0x40000000 + 520), an x32 syscall"),
                             (("--arch=x32", "--nr=500"), "number 1073742324 (0x40000000 + 500), an x32 syscall"),
                             (("--arch=mipsel", "--nr=read"), "read (4003) of the architecture mipsel"),
                             (("--arch=sh", "--nr=1"), "number 1 of the architecture 0x4000002a")):
            self.assertIn(f"# the syscall is {shown}\n", self.run_tool("decide", *words, self.x32)[1])

    def test_a_name_that_is_not_there(self):
        for words, says in ((("--arch=i386", "--nr=socketcal"), "i386's table has no syscall 'socketcal'; the nearest "
                                                                "name is 'socketcall'"),
                            (("--nr=SYS_raed",), "the table has no syscall 'SYS_raed'; the nearest name is 'read'"),
                            (("--nr=READ",), "the table has no syscall 'READ'; the nearest name is 'read'"),
                            (("--arch=s390x", "--nr=1"), "SCMP_ARCH_S390X is big-endian")):
            self.is_refused(says, "decide", *words, self.x32)
