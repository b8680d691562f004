"""Filters in other forms than their bytes, and files that are none: what each tool takes them for."""
import os
import shutil
import struct
import unittest

from support.common import (ALLOW, CORE, EPERM, Case, completed, filter_of, insn, jeq, load, part, profile_of, ret,
                            sample)
from scftools.base import program
from scftools.forms import c_arrays, filters

FILTER = filter_of([0, 1, 231])
ROWS = list(struct.iter_unpack("<HBBI", FILTER))
ARRAY = "".join(f"{{ {code:#x}, {jt}, {jf}, {k:#010x} }},\n" for code, jt, jf, k in ROWS)
DECIMALS = f"{len(ROWS)}\n" + "".join(f"{code} {jt} {jf} {k}\n" for code, jt, jf, k in ROWS)
# What C programs write: the header's macros and constants.
MACROS = sample("filter_macros.inc")
DECLARED = "static const struct sock_filter filter[] = {%s};\n" % MACROS
INCLUDES = sample("filter_includes.h")
# A program with macros of its own, which names what the headers have, in part again, and writes its filter.
WHOLE = INCLUDES + sample("whole_filter.c")


def dumped(*words):
    return completed(words, FILTER, check=True).stdout.decode()


class Texts(Case):
    """Each form gives the bytes that it was made of."""

    def is_read(self, text, name, data=FILTER):
        form = filters.form_of(text.encode(), "it")
        self.assertIsNotNone(form, text[:60])
        self.assertEqual((form.name, form.data), (name, data), text[:60])

    def test_hexadecimal(self):
        for text in (FILTER.hex(), FILTER.hex(" ").upper() + "\n", FILTER.hex("\n", 8),
                     '"' + "".join(f"\\x{byte:02X}" for byte in FILTER) + '"\n'):
            self.is_read(text, filters.HEXADECIMAL_TEXT)
        for words in (("xxd", "-p"), ("xxd",), ("hexdump", "-vC"), ("od", "-An", "-v", "-tx1")):
            if shutil.which(words[0]):
                self.is_read(dumped(*words), filters.HEXADECIMAL_TEXT)

    def test_white_space_is_asciis(self):
        """No form has other blanks: U+2003 and U+0085 between digits are no text of a filter."""
        for blank in "\u2003\u0085":
            for text in (FILTER.hex(" ", 8).replace(" ", blank), DECIMALS.replace(" ", blank)):
                self.assertIsNone(filters.form_of(text.encode(), "it"), ascii(blank))

    def test_lines_that_a_dump_leaves_out(self):
        """hexdump prints `*` for lines that are repeated: that isn't the whole filter."""
        lines = [f"{at:08x}  {bytes(16).hex(' ')}  |................|" for at in (0, 16, 48)]
        self.assertIsNotNone(filters.form_of("\n".join(lines[:2]).encode(), "it"))
        for text in (lines[:1] + ["*"] + lines[2:], lines, lines[1:2], lines[:2] + ["00000030"]):
            self.assertIsNone(filters.form_of("\n".join(text).encode(), "it"))
        self.assertIsNotNone(filters.form_of("\n".join(lines[:2] + ["00000020"]).encode(), "it"))

    @unittest.skipUnless(shutil.which("xxd"), "there is no xxd here")
    def test_words_of_the_other_order(self):
        """`xxd -e` prints words of 32 bits, which aren't the bytes in their order, though they look like them."""
        self.is_read(dumped("xxd", "-g", "4"), filters.HEXADECIMAL_TEXT)
        self.assertIsNone(filters.form_of(dumped("xxd", "-e").encode(), "it"))

    def test_decimals(self):
        self.is_read(DECIMALS, filters.DECIMALS)
        self.is_read(DECIMALS.replace("\n", ",") + "\n", filters.DECIMALS)
        for text in (DECIMALS.replace("\n", "\n1 ", 1), "2\n6 0 0 1\n", "1\n6 0 256 0\n", "1\n6 0 0 4294967296\n",
                     "1\n6 0 0 " + "9" * 5000, "0\n"):
            self.assertIsNone(filters.form_of(text.encode(), "it"), text[:30])

    def test_arrays(self):
        self.is_read(ARRAY, filters.ARRAY)
        self.is_read("{" + ARRAY + "}", filters.ARRAY)
        self.is_read(f"struct sock_filter x[{len(ROWS)}] = {{\n{ARRAY}}};\n", filters.ARRAY)
        self.is_read("#include <linux/filter.h>\nstatic struct sock_filter f[] = {" + ARRAY + "};", filters.ARRAY)
        self.is_read("{ 0x06, 0, 0, 0x7fff0000 }", filters.ARRAY, ret(ALLOW))
        self.is_read(", ".join(f"0x{byte:02x}" for byte in FILTER), filters.ARRAY)
        self.is_read("unsigned char f_bpf[] = {\n" + ",".join(f"0x{byte:02x}" for byte in FILTER)
                     + "\n};\nunsigned int f_bpf_len = 96;\n", filters.ARRAY)
        if shutil.which("xxd"):
            self.is_read(dumped("xxd", "-i"), filters.ARRAY)

    @unittest.skipUnless(shutil.which("cc"), "there is no C compiler here")
    def test_arrays_are_what_a_compiler_makes_of_them(self):
        source = self.file("f.c", INCLUDES + DECLARED
                           + "int main(void) { return write(1, filter, sizeof filter) < 0; }\n")
        program_of_it = os.path.join(self.folder, "f")
        status, _, err = self.run_words(["cc", "-w", "-o", program_of_it, source])
        self.assertEqual(status, 0, err)
        made = completed([program_of_it], check=True).stdout
        self.assertEqual(len(made), 13 * 8)
        for text in (DECLARED, MACROS, "{" + MACROS + "}"):
            self.is_read(text, filters.ARRAY, made)
        expanded = completed(["cc", "-E", "-P", source], check=True).stdout.decode()
        remaining = expanded.split("sock_filter filter")[-1].split("int main")[0]
        self.is_read(f"static const struct sock_filter filter{remaining}", filters.ARRAY, made)

    @unittest.skipUnless(shutil.which("cc"), "there is no C compiler here")
    def test_the_array_of_a_whole_file(self):
        source, program_of_it = self.file("f.c", WHOLE), os.path.join(self.folder, "f")
        self.assertEqual(self.run_words(["cc", "-w", "-o", program_of_it, source])[::2], (0, ""))
        made = completed([program_of_it], check=True).stdout
        self.assertEqual(len(made), 8 * 8)
        for text in (WHOLE, WHOLE.replace("\n", "\r\n"), WHOLE.replace("filter[] =", "filter[8] =")):
            self.is_read(text, filters.ARRAY, made)
        literal = WHOLE.replace("struct sock_filter filter[] = {",
                                "struct sock_fprog p = { 8, (struct sock_filter[]) {")
        self.is_read(literal.replace("DENIED),\n    };", "DENIED),\n    } };"), filters.ARRAY, made)
        for words in (["-E"], ["-E", "-P"]):
            self.is_read(completed(["cc", *words, source], check=True).stdout.decode(), filters.ARRAY, made)
        for words in (["check"], ["surface"], ["compare", self.file("f.bpf", made), "--beside"]):
            self.assertIn(f"'{source}' is read as a C array, instructions: 8\n", self.run_tool(*words, source)[2])

    def test_files_that_only_a_compiler_reads(self):
        array = "struct sock_filter f[] = { BPF_STMT(BPF_RET | BPF_K, X) };\n"
        many = "".join(f"#define X{at}(a) X{at + 1}(a) X{at + 1}(a)\n" for at in range(31))
        for text, says in ((array * 2, "it has 2 arrays of struct sock_filter"),
                           ("int x;\n" + array, "'X' is no constant"),
                           (f"#ifdef A\n#define X 1\n#else\n#define X 2\n#endif\n{array}", "'X' is defined more than"),
                           (f"#define X 1\n#undef X\n{array}", "'X' is defined more than once"),
                           (array.replace("{ ", "{\n#if A\n").replace(" }", "\n#endif\n}"), "`cc -E` prints those"),
                           ("#define EPERM 2\n" + array.replace("X", "EPERM"), "'EPERM' is 2, which it isn't"),
                           (f"#define X Y(1, 2)\n#define Y(a) a\n{array}", "'Y' takes 1 arguments, not 2"),
                           (f"#define X Y((1\n#define Y(a) a\n{array}", "a '(' isn't closed"),
                           (many.replace("(a)", "") + array.replace("X", "X0"), "too long"),
                           (many + array.replace("X", f"X0({'1' * 500})"), "too long"),
                           ("".join(f"#define X{at} X{at + 1}\n" for at in range(99))
                            + array.replace("X", "X0"), "too deep"),
                           (f"#define X(a) {'a ' * 9999}\n" + array.replace("X", f"X({'1' * 9999})"), "too long"),
                           (array.replace("[]", "[3]").replace("X", "1"), "its array has 1 of 3 instructions"),
                           (array.replace("};", ""), "a '{' isn't closed")):
            with self.subTest(says=says):
                self.assertIn(says, self.text_of_error(program.ToolError, filters.form_of, text.encode(), "it"))

    def test_arrays_that_only_a_compiler_reads(self):
        for text, says in (("BPF_STMT(BPF_RET, MY_ANSWER)", "'MY_ANSWER' is no constant"),
                           ("struct sock_filter f[] = { ALLOW(read), };", "'ALLOW(read)' isn't an instruction"),
                           ("{ 6, 0, 0 }, { 6, 0, 0, 0 }", "isn't an instruction"), ("{ 6, 0, 300, 0 },", "jf 0x12c"),
                           ("{ 6, 0, 0, 1 << 99 },", "1 can't be shifted by 99"),
                           ("{ 6, 0, 0, (1 },", "isn't an instruction"),
                           ("{ 6, 0, 0, ~0u >> 4 },", "-1 can't be shifted by 4"),
                           ("{ 6, 0, 0, 1 } x", "isn't an instruction"), ("{ 6, 0, 0, 0x1ffffffff },", "too large"),
                           ("unsigned char f[] = { 6, 0, 0, 0, 0, 0, 0, 0 }; int x;", "text follows the array"),
                           ("{ 6, 0, 0, __NR_raed },", "'__NR_raed' is no constant"), ("0x06, 0x00,", "multiple of 8"),
                           ("{ " + "(" * 999 + "6" + ")" * 999 + ", 0, 0, 0 },", "nested too deep")):
            self.assertIn(says, self.text_of_error(program.ToolError, filters.form_of, text.encode(), "it"))

    def test_assembler(self):
        self.is_read(completed([*CORE, "dis"], FILTER, check=True).stdout.decode(), filters.ASSEMBLER)
        self.is_read("// a comment\n start: ret #0x7fff0000", filters.ASSEMBLER, ret(ALLOW))
        self.assertIn("it begins as scf's assembler text, but isn't one: fault text Operand line 2: the statement is "
                      "'ret #x'", self.text_of_error(program.ToolError, filters.form_of, b"ld [4]\nret #x\n", "it"))

    def test_the_word_that_an_assembler_text_has_wrong(self):
        for text, says in (("ld [0]\njeqq #41, a, b // c\na: b: ret a", "'jeqq' is no mnemonic; the nearest is 'jeq'"),
                           ("top: ret a; LD [0]", "'LD' is no mnemonic; the nearest is 'ld'"),
                           ("7", "'7' is no mnemonic"),
                           ("ld [0]\njeq x, don, 0\ndone: ret #1", "'don' is no label; the nearest is 'done'"),
                           ("a: ret #1\na: ret #1", "'a' is a label twice"), ("ld [0]; jeq #1", None),
                           ("ld [0]\nend: jeq #41, end2", "the statement is 'jeq #41, end2'")):
            status, out, err = self.run_tool("asm", self.file("f.s", text))
            # (behind it stand the two sentences of the fault)
            self.assertEqual((status, out, err.split("\n")[1:-3]), (2, "", [f"asm: {says}"] if says else []))

    def test_two_readings_are_refused(self):
        """This is hexadecimal digits in pairs, and a count with rows of decimals."""
        both = b"0000000000000004\n" + b"20 10 10 10\n" * 4
        self.assertEqual(len(bytes.fromhex(both.decode())), 24)
        self.assertIn("can be read as hexadecimal text and as decimals of tcpdump -ddd",
                      self.text_of_error(program.ToolError, filters.form_of, both, "it"))

    def test_values_of_expressions(self):
        for text, value in (("1 | 2 & 3", 3), ("1 + 2 << 3", 24), ("~0 & 0xff", 255), ("010", 8), ("-1", (1 << 64) - 1),
                            ("(1 | 2) + 4", 7), ("0x10U - 6", 10), ("7 - 2 - 1", 4), ("EPERM", 1), ("1 << 2 | 1", 5)):
            self.assertEqual(c_arrays.value_of(text), value, text)
        self.assertEqual(EPERM, c_arrays.value_of("SECCOMP_RET_ERRNO | EPERM"))
        self.assertEqual(jeq(1, 0, 0), insn(c_arrays.value_of("BPF_JMP | BPF_JEQ"), 1))


class Raw(Case):
    """A raw filter stays one, whatever its bytes."""

    def test_text_in_constants(self):
        """Filters whose constants and jumps are letters, and which have no other letters than texts may have."""
        for data in (load(0x20202020), insn(0x20, 0x7D7B2220, 0x22, 0x7B), insn(0x06, 0x464C457F), ret(0x30303030) * 9,
                     insn(0x00, 0x0A0A3130, 0x31, 0x30), insn(0x20, 0x0A0A0A0A, 0x0A, 0x0A)):
            self.assertIsNone(filters.form_of(data, "it"))
            path = self.file("f.bpf", data)
            expected = completed([*CORE, "dis"], data, check=True).stdout.decode()
            self.assertIn(expected.split("\n")[0], self.output_of(0, "list", path))

    def test_other_bytes_go_to_scf(self):
        for data, line in ((b"", "fault filter Empty"), (bytes(32769), "fault filter TooLong"),
                           (b"\n" * 8, "fault filter Code at 0"), (b"\xff\xfe" * 8, "fault filter Code at 0"),
                           (b"6\0", "fault filter Truncated offset 0")):
            _, out, err = self.run_tool("check", self.file("f.bpf", data))
            self.assertEqual((out.split("\n")[0], err), (line, ""), data[:9])


class Tools(Case):
    """Each tool that takes filters takes the forms, and names what is none."""

    def setUp(self):
        super().setUp()
        self.raw = self.file("f.bpf", FILTER)
        self.profile = self.file("p.json", profile_of("read", "write", "exit_group"))

    def test_each_tool(self):
        texts = {"hex": FILTER.hex("\n", 8), "array": ARRAY, "decimals": DECIMALS}
        for words in (("check",), ("decide", "--nr=read"), ("run", "--nr=read"), ("list",), ("surface", "--limit=9")):
            expected = self.run_tool(*words, self.raw)
            for name, text in texts.items():
                path = self.file(name, text)
                status, out, err = self.run_tool(*words, path)
                self.assertEqual((status, out), expected[:2], (words, name))
                self.assertRegex(err, rf"^{words[0]}: '{path}' is read as [\w' -]+, instructions: 11\n$")
        self.assertEqual(self.run_tool("compare", "-", self.profile, given=ARRAY.encode()),
                         (0, "same\n", "compare: standard input is read as a C array, instructions: 11\n"))

    def test_what_is_no_filter(self):
        bundle = part("filter", FILTER)
        elf = b"\x7fELF\2\1\1\0" + bytes(56)
        for data, says in ((elf, "is an ELF file (a program, library or object), not a filter"),
                           (profile_of("read"), "is JSON, not a filter: `scf surface` and `scf decide` take profiles, "
                                                "too, and `scf compile` makes the filter of one"),
                           (b"[]", "is JSON"), (b"[{\"Id\": 1}]", "is JSON"),
                           (b"\x1f\x8b\x08\0\0\0\0\0", "compressed by gzip"),
                           (bundle, "is a bundle"), (b"apiVersion: v1\nkind: Pod\n", "is YAML"),
                           (b" line  CODE  JT   JF      K\n=====\n 0000: 0x20 0x00 0x00 0x00000004  A = arch\n",
                            "is a disassembly of seccomp-tools, not a filter: `seccomp-tools dump -f raw` writes"),
                           (b"#\n# pseudo filter code start\n#\n", "libseccomp's pseudo code"),
                           (struct.pack(">HBBIHBBI", 0x20, 0, 0, 4, 0x06, 0, 0, ALLOW),
                            "is a filter of a big-endian machine: scf doesn't read its byte order"),
                           (b"%PDF-1.7\n", "is a PDF, not a filter"), (b"PK\3\4", "is a zip file, not a filter: un"),
                           (b"\x89PNG\r\n\x1a\n", "is a picture"), (b"\xff\xd8\xff\xe0", "is a picture"),
                           (b"GIF89a", "is a picture"), (b"BM\x46\0\0\0\0\0\0\0", "is a picture"),
                           ("un café\n".encode(), "is text, in none of the forms of a filter"),
                           (b"hello\n", "is text, in none of the forms of a filter"),
                           (b"0  ld [4]  // the architecture\n", "is a listing of `scf list`"),
                           (b">  0  ld [4]  // the architecture\n", "is a listing of `scf list`")):
            path = self.file("x", data)
            for words in (("check", path), ("compare", path, path, self.profile), ("list", path),
                          ("decide", "--nr", "0", path, path)):
                status, out, err = self.run_tool(*words)
                self.assertEqual((status, out, err.count("\n")), (2, "", 1), words)
                self.assertIn(f"{words[0]}: '{path}' ", err)
                self.assertIn(says, err)
