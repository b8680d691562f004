"""libscf, as library/build made it: its names and layouts, its bindings, what it does without memory, and that it
answers as the program does."""
import importlib.util
import itertools
import json
import os
import random
import re
import shlex
import shutil
import sys
import tempfile
import unittest
import zipfile
from unittest import mock

from support.common import (ALLOW, EPERM, I386, KILL_PROCESS, TOP, X32, X86_64, Case, completed, filter_of,
                            gate, insn, jeq, jge, load, part, profile_of, ret, text_of)
from support.on_parts import CLONE_BY_AND, assembled
from support.stand_in import StandIn
from repository.test_documents import rows

LIBRARY = os.path.join(TOP, "library")
OUT = os.path.join(LIBRARY, "out")
PROGRAM = os.path.join(TOP, "crates", "scf", "out", "scf")
CALLS = {f"scf_{name}" for name in ("check", "run", "trace", "decide", "assemble", "list", "compile", "ask", "compare",
                                    "answers", "version", "load", "table", "fault_text", "call_text")}
# The version of scf that brought each call, which its symbol has.
BROUGHT = {"SCF_0.1": CALLS}
STRICT = ["-Wall", "-Wextra", "-Wpedantic", "-Werror", "-Wno-unused-function", "-Wno-unused-variable"]


def python_module(folder=OUT):
    """The module scf, over the library of this folder."""
    spec = importlib.util.spec_from_file_location("scf", os.path.join(LIBRARY, "python", "scf", "__init__.py"))
    module = importlib.util.module_from_spec(spec)
    with mock.patch.dict(os.environ, LIBSCF=os.path.join(folder, "libscf.so.0")), \
            mock.patch.dict(sys.modules, scf=module):
        spec.loader.exec_module(module)
    return module


def snake(name):
    """A name of docs/FAULTS.md as scf.h has it: NoX8664 is NO_X8664."""
    return re.sub(r"(?<=[a-z])(?=[A-Z])", "_", name).upper()


def header_numbers(prefix):
    """The numbers of an enum of scf.h, by their names without the prefix."""
    return {name: int(number) for name, number in
            re.findall(rf"^ +SCF_{prefix}(\w+) = (\d+)", text_of(LIBRARY, "scf.h"), re.M)}


ENUMS = ("source", "kind", "verdict", "relation", "reason", "architecture", "reading", "fact")


def plain(numbers):
    """Numbers by their names, without case, low lines, what each language puts before them, and what means nothing."""
    made = {re.sub(r"^(scf|source|kind|by|table)*(?=.)", "", name.lower().replace("_", "")): int(number)
            for name, number in numbers}
    return {name: number for name, number in made.items() if name not in ("none", "noverdict", "noreason")}


def numbers_of_header():
    header = text_of(LIBRARY, "scf.h")
    bodies = {name: re.search(rf"enum scf_{name}(?:_kind)? {{.*?}};", header, re.S)[0] for name in ENUMS}
    return {name: plain(re.findall(r"(SCF_\w+) = (\d+)", body)) for name, body in bodies.items()}


def numbers_of_python():
    module = python_module()
    return {name: plain((member.name, member.value) for member in getattr(module, name.title()))
            for name in ENUMS if name != "fact"}


def numbers_of_go():
    blocks = re.findall(r"const \(\n\t(\w+) +(\w+) += iota( \+ 1)?(.*?)\n\)", text_of(LIBRARY, "go", "scf.go"), re.S)
    return {kind.lower().removesuffix("kind") or "kind":
            plain(zip([first, *re.findall(r"(?m)^\t(\w+)", rest)], itertools.count(1 if plus else 0)))
            for first, kind, plus, rest in blocks}


def numbers_of_rust():
    text = "".join(text_of(LIBRARY, "rust", "src", f"{file}.rs") for file in ("fault", "lib", "compare"))
    lists = {name: zip(names.split(), itertools.count(1)) for name, names in
             re.findall(r"\n    (Source|Kind): ([\w\s]+);", text)}
    enums = {name: re.findall(r"(?m)^ +(\w+) = (\d+),", body) for name, body in
             re.findall(r"pub enum (Relation|Architecture|Reading) {(.*?)\n}", text, re.S)}
    return {name.lower(): plain(numbers) for name, numbers in {**lists, **enums}.items()}


def numbers_of_cpp():
    enums = re.findall(r"enum class (\w+) : std::uint32_t {\s+(\w+)( = 1)?(.*?)\s};", text_of(LIBRARY, "scf.hpp"), re.S)
    return {name: plain(zip([first, *re.findall(r"\w+", rest)], itertools.count(1 if one else 0)))
            for name, first, one, rest in enums if name != "status"}


class Built(Case):
    """A test that makes programs in its folder, over the archive or the shared object."""

    ARCHIVE, SHARED = [os.path.join(OUT, "libscf.a")], [f"-L{OUT}", "-lscf"]
    # The objects that were compiled, by how.
    objects = {}

    @classmethod
    def setUpClass(cls):
        cls.objects_folder = tempfile.mkdtemp()
        cls.addClassCleanup(shutil.rmtree, cls.objects_folder)
        cls.addClassCleanup(cls.objects.clear)

    def compiled(self, name, compiler, flags):
        """The object of a file, which is compiled once."""
        key = name, *compiler, *flags
        if key not in self.objects:
            made = os.path.join(self.objects_folder, f"{len(self.objects)}.o")
            self.assertEqual(self.run_words([*compiler, *STRICT, *flags, "-O1", "-g", f"-I{LIBRARY}", "-c", "-o", made,
                                             os.path.join(LIBRARY, name)]), (0, "", ""), name)
            self.objects[key] = made
        return self.objects[key]

    def linked(self, name, *words, compiler=("gcc", "-std=c99"), flags=()):
        """A program of a file."""
        out = os.path.join(self.folder, os.path.splitext(os.path.basename(name))[0])
        done = self.run_words([compiler[0], *flags, "-o", out, self.compiled(name, compiler, flags), *words])
        self.assertEqual(done, (0, "", ""), name)
        return out

    def runs(self, *words, **env):
        return self.out_of(0, self.run_words(words, env={**os.environ, "LD_LIBRARY_PATH": OUT, **env}))


class Interface(Built):
    def test_the_shared_object_has_the_calls_and_nothing_else(self):
        shared = os.path.join(OUT, "libscf.so.0")
        names = self.runs("nm", "-D", "--defined-only", shared).split("\n")
        self.assertEqual({line.split()[-1] for line in names if line},
                         {f"{name}@@{version}" for version, calls in BROUGHT.items() for name in calls} | {*BROUGHT})
        self.assertEqual(re.findall(r"\((NEEDED|SONAME|TEXTREL)\).*?\[?(\S+?)\]?$", self.runs("readelf", "-dW", shared),
                                    re.M), [("NEEDED", "libc.so.6"), ("SONAME", "libscf.so.0")])
        # what may be written before it is made read-only
        sections = re.findall(r"^ +\[ *\d+\] (\S+) +\S+ +\S+ +\S+ +(\S+) +\S+ +([A-Z]*W[A-Z]*) ",
                              self.runs("readelf", "-SW", shared), re.M)
        written = {name for name, size, _ in sections if int(size, 16)}
        self.assertEqual(written - {".dynamic", ".got", ".data.rel.ro"}, set())
        self.assertNotIn("RWE", self.runs("readelf", "-lW", shared).replace(" ", ""))
        undefined = {line.split()[-1].split("@")[0] for line in self.runs("nm", "-D", "-u", shared).split("\n") if line}
        # (scf_load's, and those of scf_fault_text and scf_call_text)
        self.assertEqual(undefined - {"memcpy", "memmove", "memset", "memcmp", "bcmp", "strlen"},
                         {"malloc", "realloc", "free", "prctl", "syscall", "__errno_location",
                          "memchr", "snprintf", "strcspn", "strtoul"})

    def test_the_archive_has_the_calls_and_nothing_else(self):
        names = self.runs("nm", "-g", "--defined-only", os.path.join(OUT, "libscf.a")).split("\n")
        self.assertEqual({line.split()[-1] for line in names if " T " in line}, CALLS)
        self.assertEqual([line for line in names if re.match(r"[0-9a-f]+ [^T] ", line)], [])

    def test_it_needs_no_newer_processor(self):
        """The code has no instruction that the first processors of x86-64 lack, as popcnt and those of SSE3 and on."""
        code = self.runs("objdump", "-d", "--no-show-raw-insn", os.path.join(OUT, "libscf.so.0"))
        # (the first run tzcnt as bsf, and the compiler knows)
        newer = (r"\t(popcnt|lzcnt|andn|bextr|bls\w+|pext|pdep|mulx|rorx|sarx|shlx|shrx|v\w+|pshufb|palignr|ptest|"
                 r"crc32|movbe|p(?:min|max)(?:s[bd]|u[wd])|pabs\w|phadd\w+|pmulld|pinsr[bdq]|pextr[bdq]|pmov[sz]x\w+|"
                 r"round\w+)\b")
        self.assertEqual(set(re.findall(newer, code)), set())

    def test_layouts(self):
        module = python_module()
        lines = self.runs(self.linked("tests/layout.c")).strip().split("\n")
        for line in lines:
            name, size, *fields = line.split()
            kind = getattr(module, "_" + "".join(it.title() for it in name.split("_")))
            import ctypes  # pylint: disable=import-outside-toplevel
            self.assertEqual((ctypes.sizeof(kind), [it for field, _ in kind._fields_
                                                    for it in (field, str(getattr(kind, field).offset))]),
                             (int(size), fields), name)
        self.assertEqual(len(lines), 16)

    def test_each_fault_has_the_text_of_the_page(self):
        scf, sources = python_module(), {name.lower() for name in header_numbers("SOURCE_")}
        rows_of_library = {key: row for key, row in rows().items() if key[0] in sources}
        for (source, kind), (names, sentences) in rows_of_library.items():
            numbers = (7, 8, 9)[:len(names)] + (0,) * (3 - len(names))
            fault = scf.Refused(scf.Source[source.upper()], scf.Kind[snake(kind)], numbers)
            line = " ".join(["fault", source, kind, *(it for name, number in zip(names, numbers)
                                                      for it in (name, str(number)))])
            self.assertEqual(str(fault), f"{line}\n{sentences[0]}".replace("`", ""))

    def test_the_numbers_of_the_bindings_are_those_of_the_header(self):
        header = numbers_of_header()
        for enums_of, count in ((numbers_of_python, 7), (numbers_of_go, 8), (numbers_of_rust, 5), (numbers_of_cpp, 5)):
            enums = enums_of()
            self.assertEqual(enums, {name: header[name] for name in enums})
            self.assertEqual(len(enums), count)
        # and what Go prints of a kind
        names = re.search(r"Fields\(`(.*?)`", text_of(LIBRARY, "go", "scf.go"), re.S)[1].split()
        self.assertEqual([snake(name) for name in names], [*header_numbers("KIND_")])

    def test_the_audit_values_of_the_bindings_are_those_of_the_header(self):
        """Which tests/layout.c compares with linux/audit.h."""
        header = text_of(LIBRARY, "scf.h").replace("SCF_AUDIT_X32 SCF_AUDIT_X86_64", "SCF_AUDIT_X32 0xc000003eu")
        wanted = {name: int(number, 16) for name, number in re.findall(r"SCF_AUDIT_(\w+) (0x[0-9a-f]+)u", header)}
        self.assertEqual({member.name: member.audit for member in python_module().Architecture}, wanted)
        values = re.findall(r'{"\w+", (0x[0-9a-f]+)}', text_of(LIBRARY, "go", "scf.go"))
        self.assertEqual([int(value, 16) for value in values], [*wanted.values()])

    def test_one_file_has_the_version(self):
        version = text_of(TOP, "VERSION").strip()
        self.assertEqual(".".join(re.findall(r"define SCF_VERSION_[MP]\w+ (\d+)", text_of(LIBRARY, "scf.h"))), version)
        for path, line in ((("rust", "Cargo.toml"), 'version = "{}"'), (("python", "pyproject.toml"), 'version = "{}"'),
                           (("scf-uninstalled.pc",), "Version: {}")):
            self.assertIn(line.format(version), text_of(LIBRARY, *path).splitlines())
        for words in (["--version"], ["core", "--version"]):
            self.assertEqual(self.runs(os.path.join(TOP, "scf"), *words), f"scf {version}\n")
        self.assertEqual(".".join(map(str, python_module().version())), version)
        # a call's symbol has a version up to this one
        for brought in BROUGHT:
            self.assertLessEqual([*map(int, brought.removeprefix("SCF_").split("."))], [*map(int, version.split("."))])

    def test_its_tables_are_the_files(self):
        scf = python_module()
        names = {"X86": "i386"}
        for architecture in scf.Architecture:
            name = names.get(architecture.name, architecture.name.lower())
            self.assertEqual(scf.table(architecture), text_of(TOP, "tables", f"{name}.table").encode(), name)

    def test_a_loaded_filter(self):
        program = self.linked("tests/load.c", *self.ARCHIVE, "-pthread", compiler=["gcc", "-std=gnu99"])
        self.assertEqual(self.runs(program), "loaded\n")

    def test_the_compiler_warns(self):
        for text, warning in (("scf_check(filter, 1, &count, &fault);", "unused-result"),
                              ("return scf_check(filter, 1, NULL, &fault);", "nonnull"),
                              ("return scf_check(filter, 2, &count, &fault);", "stringop-overread")):
            self.file("misused.c", "#include <scf.h>\nint main(void) { size_t count; struct scf_fault fault; "
                                   f"uint8_t filter[1] = {{0}}; {text} }}\n")
            err = self.run_words(["gcc", "-O1", "-Wall", "-Werror", f"-I{LIBRARY}", "-c", "misused.c"])[2]
            self.assertIn(f"-Werror={warning}", err)

    @unittest.skipUnless(shutil.which("man"), "there is no man here")
    def test_each_call_has_a_page(self):
        self.runs(os.path.join(LIBRARY, "manual"), self.folder)
        self.assertEqual({*os.listdir(self.folder)}, {f"{name}.3" for name in (*CALLS, "libscf")})
        for name in os.listdir(self.folder):
            words = ["man", "--warnings", "-E", "UTF-8", "-l", "-Tutf8", os.path.join(self.folder, name)]
            shown = self.runs(*words, MANWIDTH="200", LC_ALL="C.UTF-8")
            if name != "libscf.3":
                self.assertRegex(shown, rf"\n +\S[^\n]*[ *]{name[:-2]}\(")

    def test_it_is_found_by_pkg_config_where_it_is_installed(self):
        for name in ("a-prefix", "a prefix", "a&prefix|b"):
            prefix = os.path.join(self.folder, name)
            words = ["make", "-s", "-C", TOP, f"PREFIX={prefix}"]
            self.runs(*words, "install-lib")
            files = {os.path.relpath(os.path.join(at, file), prefix) for at, _, names in os.walk(prefix)
                     for file in names}
            self.assertEqual(files, {"include/scf.h", "include/scf.hpp", "lib/libscf.a", "lib/libscf.so",
                                     "lib/libscf.so.0", "lib/pkgconfig/scf.pc",
                                     *(f"lib/python3/dist-packages/scf/{file}" for file in ("__init__.py", "py.typed")),
                                     *(f"share/man/man3/{page}.3" for page in (*CALLS, "libscf")),
                                     *(f"share/doc/libscf/{file}" for file in ("LICENSE", "LICENCES.md", "LIBRARY.md",
                                                                               "FAULTS.md", "runtime.c"))})
            env = {"PKG_CONFIG_PATH": f"{prefix}/lib/pkgconfig"}
            flags = shlex.split(self.runs("pkg-config", "--cflags", "--libs", "scf", **env))
            self.assertEqual(flags, [f"-I{prefix}/include", f"-L{prefix}/lib", "-lscf"])
            self.assertEqual(self.runs("pkg-config", "--modversion", "scf", **env), text_of(TOP, "VERSION"))
            if " " not in name:
                self.assertIn("\nlibdir=${prefix}/lib\n", text_of(prefix, "lib", "pkgconfig", "scf.pc"))
            self.file(f"{name}/share/man/man3/scf_other.3", b"")
            self.runs(*words, "uninstall-lib")
            self.assertEqual([names for _, _, names in os.walk(prefix) if names], [["scf_other.3"]])

    def test_the_code_of_the_page(self):
        """Each piece is compiled as the body of a function."""
        body, = re.findall(r"```c\n(.*?)```", text_of(TOP, "docs", "LIBRARY.md"), re.S)
        cpp, = re.findall(r"```cpp\n(.*?)```", text_of(TOP, "docs", "LIBRARY.md"), re.S)
        given = "const uint8_t *filter, size_t len, const uint8_t *profile, size_t profile_len"
        self.file("page.c", f"#include <scf.h>\nint prove({given});\nint prove({given}) {{\n{body}return -1;\n}}\n")
        self.file("page.cpp", "#include <scf.hpp>\nint prove(std::span<const std::uint8_t> filter, "
                              f"std::string_view json) {{\n{cpp}return -1;\n}}\n")
        for words in (["gcc", "-std=c99", "page.c"], ["g++", "-std=c++20", "page.cpp"]):
            self.assertEqual(self.run_words([*words, *STRICT, f"-I{LIBRARY}", "-c", "-o", "page.o"]), (0, "", ""))

    def test_the_example(self):
        """A config.json that no reading but a runtime's takes, since two entries have one syscall; a changed filter."""
        program = self.linked("example/runtime.c", *self.ARCHIVE, compiler=["gcc", "-std=gnu11"])
        allowed = {"defaultAction": "SCMP_ACT_ALLOW", "architectures": ["SCMP_ARCH_X86_64", "SCMP_ARCH_X86"],
                   "syscalls": [{"names": ["socket"], "action": "SCMP_ACT_ERRNO"},
                                {"names": ["socket"], "action": "SCMP_ACT_ALLOW"}]}
        config = self.file("config.json", {"linux": {"seccomp": allowed}})
        denied = "import socket\ntry: socket.socket()\nexcept OSError as error: print(error.errno)\n"
        for reading in ("runc", "crun"):
            self.assertEqual(self.runs(program, "--reading", reading, config, sys.executable, "-c", denied), "1\n")
        self.assertIn("fault profile Conflict number 41 ", self.run_words([program, config, "true"])[2])
        wrong = self.file("wrong.bpf", ret(ALLOW))
        done = self.run_words([program, "--reading", "runc", "--filter", wrong, config, "true"])
        self.assertEqual(done[:2], (1, ""))
        self.assertRegex(done[2], r"^the filter answers socket\(.*\) of x86-64 by 0x7fff0000, "
                                  r"and the profile by 0x00050001$")
        self.assertEqual(self.runs(program, "--reading", "runc", "--stub", "449", config, "true"), "")

    def test_the_example_beside_what_the_profile_does_not_list(self):
        """A profile allows all of what it lists; a filter of it, such as libseccomp's, which gives the default to the
        number -1, and others that allow more, or leave something open."""
        program = self.linked("example/runtime.c", *self.ARCHIVE, compiler=["gcc", "-std=gnu11"])
        own, foreign = gate(ret(ALLOW)), load(4) + jeq(X86_64, 1, 0) + ret(KILL_PROCESS)
        more = "by 0x7fff0000, and the profile by 0x80000000\n"
        for names, data, says in (
                (["X86_64"], own, ""),
                (["X86_64"], foreign + load(0) + jge(X32, 0, 2) + jeq((1 << 32) - 1, 1, 0) + ret(KILL_PROCESS)
                 + ret(ALLOW), ""),
                (["X86_64"], load(4) + jeq(I386, 0, 1) + ret(ALLOW) + own, f" of i386 {more}"),
                (["X86_64"], foreign + ret(ALLOW), f" of x32 {more}"),
                (["X86_64", "S390X"], own, "an architecture that is listed has no table\n"),
                # (it denies exit_group)
                (["ARM"], load(4) + jeq(X86_64, 0, 3) + load(0) + jeq(231, 0, 1) + ret(EPERM) + ret(ALLOW),
                 f" of x86-64 {more}")):
            profile = {"defaultAction": "SCMP_ACT_ALLOW", "architectures": [f"SCMP_ARCH_{name}" for name in names]}
            status, _, err = self.run_words([program, "--filter", self.file("filter.bpf", data),
                                             self.file("config.json", profile), "true"])
            with self.subTest(names=names, says=says):
                self.assertEqual((status, err[-len(says):] if says else err), (1 if says else 0, says))


class Languages(Built):
    """The same tests in each language, over the shared object or the archive."""

    def test_c_and_cpp(self):
        for compiler in (["gcc", "-std=c99"], ["g++", "-x", "c++", "-std=c++11"], ["clang", "-std=c99"]):
            if shutil.which(compiler[0]) is None:
                continue
            for kind, linked in (("archive", self.ARCHIVE), ("shared", self.SHARED)):
                with self.subTest(compiler=compiler[0], linked=kind):
                    program = self.linked("tests/calls.c", *linked, compiler=compiler)
                    self.assertRegex(self.runs(program), r"^\d{3} checks\n$")

    def test_by_the_kits_own_compiler(self):
        program = self.linked("tests/calls.c", os.path.join(OUT, "rattle", "libscf.a"))
        self.assertRegex(self.runs(program), r"^\d{3} checks\n$")

    @unittest.skipUnless(shutil.which("clang"), "there is no clang here")
    def test_with_sanitizers(self):
        flags = ["-fsanitize=address,undefined", "-fno-sanitize-recover=all"]
        empty = self.file("empty.c", "int main(void) { return 0; }\n")
        if self.run_words(["clang", *flags, "-o", os.path.join(self.folder, "empty"), empty])[0]:
            self.skipTest("clang has no sanitizers here")
        program = self.linked("tests/calls.c", *self.ARCHIVE, compiler=["clang", "-std=c99"], flags=flags)
        self.assertRegex(self.runs(program), r"^\d{3} checks\n$")

    def test_cpp_20(self):
        for compiler in ("g++", "clang++"):
            if shutil.which(compiler) is not None:
                program = self.linked("tests/calls.cpp", *self.ARCHIVE,
                                      compiler=[compiler, "-std=c++20", "-fno-exceptions"])
                self.assertRegex(self.runs(program), r"^\d{2} checks\n$")

    def test_each_allocation_fails_in_turn_and_calls_run_side_by_side(self):
        """Of a filter, a profile that it doesn't answer as, and a table."""
        profile = {**json.loads(profile_of("read", "write", "socket", "absent")),
                   "architectures": ["SCMP_ARCH_X86_64", "SCMP_ARCH_X86"]}
        parties = (self.file("own.bpf", filter_of([0, 1, 231])), self.file("own.json", profile),
                   self.file("own.table", "read 0\nwrite 1\nsocket 41\nexit_group 231\nclone 56\n"))
        wraps = [f"-Wl,--wrap={name}" for name in ("malloc", "realloc", "free")]
        for folder in (OUT, os.path.join(OUT, "rattle")):
            with self.subTest(folder):
                program = self.linked("tests/memory.c", os.path.join(folder, "libscf.a"), "-pthread", *wraps,
                                      compiler=["gcc", "-std=gnu99"])
                self.assertRegex(self.runs(program, *parties), r"^\d{4,} checks\n$")


class Bindings(Built):
    """The README of each binding: its program, which prints what it says, and its commands."""

    PROFILE = profile_of("read", "write", "exit_group")

    def setUp(self):
        super().setUp()
        self.tree = os.path.join(self.folder, "library")
        shutil.copytree(LIBRARY, self.tree, symlinks=True,
                        ignore=shutil.ignore_patterns("rattle", "target", "__pycache__"))
        shutil.copy(os.path.join(TOP, "LICENSE"), self.folder)
        self.env = {**os.environ, "PKG_CONFIG_PATH": self.tree, "LD_LIBRARY_PATH": f"{self.tree}/out",
                    "PYTHONDONTWRITEBYTECODE": "1", "GOFLAGS": "-mod=mod", "GOPROXY": "off",
                    "GOCACHE": os.path.join(self.folder, "cache"), "CARGO_NET_OFFLINE": "true",
                    "RUSTFLAGS": "-Dwarnings"}
        self.file("program/profile.json", self.PROFILE)

    def code(self, language, kind="sh"):
        return "".join(re.findall(rf"```{kind}\n(.*?)```", text_of(LIBRARY, language, "README.md"), re.S))

    def run_commands(self, language, **env):
        """The commands work as they are written, with no more than a shell has."""
        env = {**self.env, **env}
        del env["PKG_CONFIG_PATH"], env["LD_LIBRARY_PATH"]
        done = self.run_words(["sh", "-c", self.code(language)], env=env, cwd=os.path.join(self.tree, language))
        self.assertEqual(done[0], 0, done)
        return done

    def check_printed_line(self, printed, line, language, kind):
        comment = re.search(r"(?:#|//) (ERRNO 1.*)", self.code(language, kind))[1]
        self.assertEqual(printed.splitlines()[line], comment)

    def program(self, name, text, *words):
        """What a program prints, in the folder that has the profile."""
        self.file(f"program/{name}", text)
        done = self.run_words(words, env=self.env, cwd=os.path.join(self.folder, "program"))
        self.assertEqual(done[0], 0, done)
        return done[1]

    def test_python(self):
        self.run_commands("python")
        self.env.update(PYTHONPATH=f"{self.tree}/python")
        printed = self.program("readme.py", self.code("python", "python"), sys.executable, "readme.py")
        self.check_printed_line(printed, 1, "python", "python")
        if shutil.which("mypy"):
            words = ["mypy", "--strict", "--cache-dir", self.folder, "readme.py", f"{self.tree}/python/scf"]
            done = self.run_words(words, env={**self.env, "MYPYPATH": f"{self.tree}/python"},
                                  cwd=os.path.join(self.folder, "program"))
            self.assertEqual((done[0], done[2]), (0, ""), done)

    def test_a_wheel(self):
        folder = os.path.join(self.folder, "wheels")
        needed = "import setuptools, wheel, pip"
        python = next((path for path in (sys.executable, "/usr/bin/python3")
                       if os.path.exists(path) and not self.run_words([path, "-c", needed])[0]), None)
        self.skip_if(python is None, f"no Python can {needed} here")
        pip = [python, "-m", "pip", "--quiet", "--no-cache-dir", "--disable-pip-version-check"]
        done = self.run_words([*pip, "wheel", "--no-index", "--no-deps", "--no-build-isolation", "-w", folder, "."],
                              cwd=f"{self.tree}/python")
        self.assertEqual(done[0], 0, done)
        wheel, = os.listdir(folder)
        self.assertEqual(wheel, f"scf-{text_of(TOP, 'VERSION').strip()}-py3-none-any.whl")
        with zipfile.ZipFile(os.path.join(folder, wheel)) as file:
            names = {re.sub(r"scf-[0-9.]+dist-info", "about", name) for name in file.namelist()}
        self.assertEqual(names, {"scf/__init__.py", "scf/py.typed", *(
            f"about/{name}" for name in ("LICENSE", "METADATA", "RECORD", "WHEEL", "top_level.txt"))})

    @unittest.skipUnless(shutil.which("cargo"), "there is no cargo here")
    def test_rust(self):
        self.run_commands("rust")
        folder = f"{self.tree}/rust"
        self.file("library/rust/examples/readme.rs", self.code("rust", "rust"))
        example = ["cargo", "run", "--offline", "--quiet", "--manifest-path", f"{folder}/Cargo.toml",
                   "--example", "readme"]
        printed = self.program("readme.rs", "", *example)
        self.check_printed_line(printed, 1, "rust", "rust")
        self.assertEqual(self.program("readme.rs", "", *example, "--features", "dynamic"), printed)
        shared = self.run_words(["ldd", f"{folder}/target/debug/examples/readme"], env=self.env)[1]
        self.assertIn(f"libscf.so.0 => {self.tree}/out/", shared)
        os.remove(f"{folder}/examples/readme.rs")
        status, out, err = self.run_words(["cargo", "package", "--offline", "--allow-dirty"], env=self.env, cwd=folder)
        self.assertEqual((status, out), (0, ""), err)
        self.assertNotIn("warning", err)
        package = f"{folder}/target/package/scf-{text_of(TOP, 'VERSION').strip()}.crate"
        self.assertIn("/LICENSE\n", self.runs("tar", "tf", package))
        if shutil.which("rustfmt"):
            words = ["rustfmt", "--edition", "2021", "--check", "build.rs", "src/lib.rs", "tests/calls.rs"]
            self.assertEqual(self.run_words(words, cwd=folder), (0, "", ""))

    @unittest.skipUnless(os.path.exists("/usr/bin/cargo"), "there is no cargo of Debian's here")
    def test_rust_of_debian(self):
        """Debian 12 has the oldest that Cargo.toml allows."""
        self.run_commands("rust", PATH="/usr/bin:/bin")

    @unittest.skipUnless(shutil.which("go") and shutil.which("pkg-config"), "there is no go here")
    def test_go(self):
        self.run_commands("go")
        folder = f"{self.tree}/go"
        for words, env in ((["go", "vet", "."], {}), (["go", "vet", "."], {"CGO_ENABLED": "0"}),
                           (["go", "test", "."], {"CGO_ENABLED": "0"})):
            done = self.run_words(words, cwd=folder, env={**self.env, **env})
            self.assertEqual(done[0], 0, done)
        self.assertEqual(self.runs("gofmt", "-l", folder), "")
        module = re.search(r"(?m)^module (.*)", text_of(folder, "go.mod"))[1]
        self.file("program/go.mod", f"module program\nrequire {module} v0.0.0\nreplace {module} => {folder}\n")
        self.program("main.go", self.code("go", "go"), "go", "vet", ".")
        self.check_printed_line(self.program("main.go", self.code("go", "go"), "go", "run", "."), 0, "go", "go")


# ---- the library beside the program

RELATIONS = [[], ["--no-more"], ["--no-less"], ["--disposition"]]
SCRATCH = (load(0) + insn(2, 3) + insn(0x61, 3) + insn(0x0C, 0) + insn(0x64, 2) + insn(0x45, 4, 0, 1) + ret(ALLOW)
           + insn(0x16, 0))
SPELLED = b"ld [0]\njeq #41, no, yes\nyes: ret #0x7fff0000\nno: ret #0x50001\n"
CONDITIONS = json.dumps({
    "defaultAction": "SCMP_ACT_ERRNO", "defaultErrnoRet": 38, "architectures": ["SCMP_ARCH_X86_64", "SCMP_ARCH_X32"],
    "syscalls": [{"names": ["read", "absent"], "action": "SCMP_ACT_ALLOW"},
                 {"names": ["socket"], "action": "SCMP_ACT_LOG", "args": [
                     {"index": 0, "value": 40, "op": "SCMP_CMP_NE"}]},
                 {"names": ["clone"], "action": "SCMP_ACT_ALLOW", "args": [
                     {"index": 0, "value": 2114060288, "valueTwo": 0, "op": "SCMP_CMP_MASKED_EQ"}]}]}).encode()
SEVERAL = CONDITIONS.replace(b'"SCMP_ARCH_X32"', b'"SCMP_ARCH_X32", "SCMP_ARCH_X86"')
NAMES = b"read 0\nwrite 1\nsocket 41\nclone 56\nexit_group 231\n"


def region_line(scf, region, is_of_profile):
    """The line that `scf answers` prints of a region."""
    reason, entry = region.place
    place = f"at {reason}:{entry}"
    if is_of_profile:
        place = f"entry {entry}" if reason == scf.Reason.ENTRY else scf.Reason(reason).name.lower()
    sets = {}
    for fact in region.facts:
        text = hex(fact.low) if fact.low == fact.high else f"{fact.low:#x}-{fact.high:#x}"
        if fact.kind == 1:
            sets.setdefault(fact.word, [[], ""])[0].append(text)
        else:
            sets.setdefault(fact.word, [[], ""])[1] += f"{'&' if fact.kind == 2 else '!'}{fact.low:#x}={fact.high:#x}"
    answer = "unknown" if region.answer is None else StandIn().printed(region.answer)
    words = [f"w{word} {','.join(intervals)}{bits}" for word, (intervals, bits) in sets.items()]
    return " ".join([answer, place, *([] if region.is_exact else ["open"]), *words])


class Alike(Case):
    """What the library answers to inputs that were changed at random, and what the program prints of them."""

    COUNT = 2000

    def setUp(self):
        super().setUp()
        self.random = random.Random(1)

    def changed(self, data):
        """The bytes, most of the time with a few of them changed."""
        data = bytearray(data)
        for _ in range(self.random.choice((0, 0, 0, 0, 1, 1, 3))):
            at = self.random.randrange(len(data) + 1)
            how = self.random.randrange(6)
            if how == 0:
                del data[at:at + self.random.choice((1, 2, 8, 64))]
            elif how == 1:
                data[at:at] = data[self.random.randrange(len(data) + 1):][:self.random.choice((1, 8, 16))]
            elif at < len(data):
                data[at] = (data[at] ^ 1 << self.random.randrange(8) if how < 5
                            else self.random.choice(b'0129"{}[],x \n\x00\xff'))
        return bytes(data)

    def filters(self, most=2):
        made = (filter_of([0, 1, 231]), assembled(CLONE_BY_AND[1]), SCRATCH, ret(ALLOW), ret(EPERM),
                filter_of([0], foreign=EPERM))
        return [self.changed(self.random.choice(made)) for _ in range(self.random.randrange(1, most + 1))]

    def profile(self):
        return self.changed(self.random.choice((CONDITIONS, profile_of("read", "write", "exit_group"))))

    def table(self):
        return NAMES if self.random.randrange(4) else self.changed(NAMES)

    def cases(self):
        """The program's words and input, and a function of the library's module that makes the same line and status."""
        pick = self.random
        for kind in itertools.cycle(("check", "run", "path", "dis", "asm", "decide", "compile", "ask", "compare",
                                     "beside", "calls", "answers", "compare", "beside", "compile", "ask", "compare",
                                     "answers of filters")):
            call = {"nr": pick.choice((0, 1, 41, 56, 1 << 31)), "args": (pick.choice((0, 16, 40, 0x7E020000)),)}
            words = ["--nr", str(call["nr"]), "--a0", str(call["args"][0])]
            yield getattr(self, f"case_{kind.replace(' ', '_')}")(call, words)

    def case_check(self, _call, _words):
        filter, = self.filters(1)
        return ["check"], filter, lambda scf: (f"accepted {scf.check(filter)}\n", 0)

    def case_run(self, call, words):
        filter, = self.filters(1)

        def made(scf):
            answer, steps = scf.run(filter, scf.Call(**call))
            return f"{StandIn().printed(answer)} steps {steps}\n", 0
        return ["run", *words], filter, made

    def case_path(self, call, words):
        filter, = self.filters(1)

        def made(scf):
            answer, path = scf.trace(filter, scf.Call(**call))
            return f"{StandIn().printed(answer)} steps {len(path)}\npath {' '.join(map(str, path))}\n", 0
        return ["run", "--path", *words], filter, made

    def case_dis(self, _call, _words):
        filter, = self.filters(1)
        return ["dis"], filter, lambda scf: (scf.listing(filter), 0)

    def case_asm(self, _call, _words):
        text = self.changed(SPELLED)
        return ["asm"], text, lambda scf: (scf.assemble(text), 0)

    def case_decide(self, call, words):
        filters = self.filters()

        def made(scf):
            answer, filter, index = scf.decide(filters, scf.Call(**call))
            answers = [scf.trace(own, scf.Call(**call)) for own in filters]
            self.assertEqual((answers[filter].answer, answers[filter].path[-1]), (answer, index))
            self.assertNotIn(answer, [own.answer for own in answers[filter + 1:]])
            return f"{StandIn().printed(answer)}\n", 0
        return ["decide", *words], b"".join(part("filter", it) for it in filters), made

    def several(self):
        """A profile and tables of some architectures, in the program's order: the parts, and that for the module."""
        kinds = {"X86_64": "table", "X86": "table-x86", "X32": "table-x32", "ARM": "table-arm"}
        profile = self.changed(self.random.choice((SEVERAL, SEVERAL, CONDITIONS)))
        names = self.random.sample(list(kinds)[:self.random.choice((3, 3, 4))], self.random.randrange(1, 4))
        tables = {name: self.table() for name in kinds if name in names}
        given = part("profile", profile) + b"".join(part(kinds[name], table) for name, table in tables.items())
        return given, lambda scf: (scf.Profile(profile),
                                   [scf.Table(scf.Architecture[name], table) for name, table in tables.items()])

    def case_compile(self, _call, _words):
        given, profile = self.several()
        return ["compile", "--architectures"], given, lambda scf: (scf.compile(*profile(scf)), 0)

    def case_ask(self, call, words):
        (given, profile), arch = self.several(), self.random.choice((X86_64, I386))

        def made(scf):
            answer, reason, entry, _ = scf.ask(*profile(scf), scf.Call(**call, arch=arch))
            return f"{StandIn().printed(answer)} {reason.name.lower()}{'' if entry is None else f' {entry}'}\n", 0
        return ["ask", "--architectures", *words, "--arch", str(arch)], given, made

    def compared(self, words, given, sides, scope):
        relation, limit = self.random.randrange(4), self.random.choice((1000000, 1000000, 3))

        def made(scf):
            left, right, tables = sides(scf)
            comparison = scf.compare(left, right, tables, scope(scf), scf.Relation(relation), limit)
            return comparison.report, {"HOLDS": 0, "FAILS": 1}.get(comparison.finding.verdict.name, 4)
        return ["compare", *words, *RELATIONS[relation], "--limit", str(limit)], given, made

    def filters_and_profile(self):
        filters, (given, profile) = self.filters(), self.several()
        given = b"".join(part("filter", data) for data in filters) + given
        return given, lambda scf: (scf.Filters(filters), *profile(scf))

    def case_compare(self, _call, _words):
        given, sides = self.filters_and_profile()
        return self.compared(["--architectures"], given, sides, lambda scf: scf.EACH_ARCHITECTURE)

    def case_beside(self, _call, _words):
        filters, others = self.filters(), self.filters()
        given = b"".join(part("filter", data) for data in filters) + b"".join(part("beside", data) for data in others)
        words, scope = self.random.choice((
            ([], lambda scf: scf.ALL), (["--nr-to=41"], lambda scf: scf.Scope.numbers(0, 41))))
        return self.compared(["--beside", *words], given,
                             lambda scf: (scf.Filters(filters), scf.Filters(others), ()), scope)

    def case_calls(self, _call, _words):
        """Of these the first word of the program's output, and of each line of a syscall, is what is compared."""
        filters, profile, table = self.filters(), self.profile(), self.table()
        given = b"".join(part("filter", data) for data in filters) + part("profile", profile) + part("table", table)
        relation = self.random.randrange(4)

        def made(scf):
            tables = [scf.Table(scf.Architecture.X86_64, table)]
            comparison = scf.compare(scf.Filters(filters), scf.Profile(profile), tables, scf.EACH_CALL,
                                     scf.Relation(relation))
            failed = [records.nr for records in comparison.each if records.finding.verdict == scf.Verdict.FAILS]
            verdicts = {records.finding.verdict.name for records in comparison.each}
            return failed, 1 if failed else 4 if verdicts - {"HOLDS"} else 0
        return ["compare", "--architectures", "--calls", *RELATIONS[relation]], given, made

    def listed(self, words, given, side):
        """All that a side answers: the program's lines but for the count of steps."""
        def made(scf):
            listing = scf.answers(*side(scf))
            is_of_profile = isinstance(side(scf)[0], scf.Profile)
            lines = [region_line(scf, region, is_of_profile) for region in listing.regions]
            return "".join(f"{line}\n" for line in [*lines, f"regions {len(lines)} steps"]), 0
        return ["answers", *words], given, made

    def case_answers(self, _call, _words):
        given, profile = self.several()
        return self.listed(["--architectures"], given, lambda scf: (*profile(scf), scf.EACH_ARCHITECTURE))

    def case_answers_of_filters(self, _call, _words):
        filters = self.filters()
        return self.listed([], b"".join(part("filter", data) for data in filters),
                           lambda scf: (scf.Filters(filters), (), scf.ALL))

    @staticmethod
    def of_program(words, text):
        """What of the program's output the library has, too."""
        if words[0] == "answers":
            return re.sub(rb"( steps) [0-9]+\n$", rb"\1\n", text)
        if "--calls" in words and not text.startswith(b"fault "):
            lines = [line.split() for line in text.splitlines()]
            return [int(line[0]) for line in lines if line[0].isdigit() and {b"call", b"args"} & set(line)]
        return text

    def of_library(self, scf, made):
        """What the program would print, and its status, as the library answers."""
        try:
            text, status = made(scf)
        except scf.Refused as refused:
            text = str(refused).split("\n", maxsplit=1)[0] + "\n"
            kind, source = refused.kind.name, refused.source.name
            is_input = kind == "TRUNCATED" or kind == "TOO_LONG" and source != "TEXT"
            status = 3 if is_input else 1
        except ValueError:
            text, status = "fault command Calls\n", 2
        return text.encode("utf-8", "surrogateescape") if isinstance(text, str) else text, status

    def test_changed_inputs(self):
        modules = [python_module(), python_module(os.path.join(OUT, "rattle"))]
        refused = compared = 0
        for words, given, made in itertools.islice(self.cases(), self.COUNT):
            done = completed([PROGRAM, *words], given)
            printed = self.of_program(words, done.stdout)
            for scf in modules:
                self.assertEqual(self.of_library(scf, made), (printed, done.returncode), (words, given))
            refused += done.stdout.startswith(b"fault ")
            compared += words[0] in ("compare", "answers") and not done.stdout.startswith(b"fault ")
        self.assertGreater(refused, self.COUNT // 8)
        self.assertGreater(compared, self.COUNT // 8)
