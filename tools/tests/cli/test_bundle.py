"""tools/bundle."""
import os
import threading

from support.common import SCF, TABLE, Case, filter_of, profile_of, tool
from scftools.model import bundles


class Bundle(Case):
    def test_a_bundle_is_compared_over_all_records_and_files_are_not(self):
        """As --help says: this filter denies i386's syscalls by another answer than the profile, which has no i386."""
        allows = self.file("f.bpf", filter_of([0], foreign=0x00050001))
        profile = self.file("p.json", profile_of("read"))
        self.assertIn("can be `same` by files and `differs` by a bundle", self.run_tool("bundle", "--help")[1])
        self.assertEqual(self.run_tool("compare", allows, profile)[1].split("\n")[0], "same")
        words = ["sh", "-c", '"$0" filter "$1" profile "$2" table "$3" | "$4" compare', tool("bundle"), allows, profile]
        self.assertEqual(self.run_words([*words, TABLE, SCF])[1].split("\n")[0], "differs")

    def test_parts_in_the_order_of_the_words(self):
        a, b = self.file("a", b"one\n"), self.file("b", b"")
        self.assertEqual(self.run_tool("bundle", "filter", b, "profile", a, "table", a),
                         (0, "filter 0\nprofile 4\none\ntable 4\none\n", ""))

    def test_each_kind(self):
        """Also those of the other side, tables of each architecture, and stubs: numbers without a line end."""
        for kind in bundles.PART_KINDS:
            self.assertEqual(self.run_tool("bundle", kind, self.file("a", b"7")), (0, f"{kind} 1\n7", ""))
        one = self.file("one.bpf", filter_of([0]))
        self.assertEqual(self.run_words(["sh", "-c", '"$0" filter "$1" beside "$1" | "$2" compare --beside',
                                         tool("bundle"), one, SCF])[:2], (0, "same\n"))
        for architecture in ("", "-x86", "-x32", "-aarch64", "-arm"):
            for kind, most in (("table", 4194304), ("stub-table", 1024)):
                for text in (b"0", b"4294967295", b"0" * (most - 1) + b"7"):
                    self.assertEqual(self.run_tool("bundle", kind + architecture, self.file("a", text)),
                                     (0, f"{kind}{architecture} {len(text)}\n{text.decode()}", ""))
        for text in (b"", b"449\n", b" 449", b"0x1c1", b"-1", b"4294967296", "٣".encode()):
            self.is_refused("isn't a stub-table-x86: one decimal number below 4294967296, without a line end", "bundle",
                            "stub-table-x86", self.file("a", text))

    def test_names_that_look_like_options(self):
        for name in ("-", "-n", "--", "a b", "*"):
            self.file(name, name.encode())
            self.assertEqual(self.run_tool("bundle", "filter", name), (0, f"filter {len(name)}\n{name}", ""))

    def test_pipe(self):
        self.assertEqual(self.output_of(0, "bundle", "filter", "/dev/stdin", "table", self.file("t", b"x 1\n"),
                                        given=b"\0\1"), "filter 2\n\0\1table 4\nx 1\n")
        os.mkfifo(os.path.join(self.folder, "pipe"))
        writer = threading.Thread(target=self.file, args=("pipe", b"y" * 100000))
        writer.start()
        out = self.output_of(0, "bundle", "profile", "pipe")
        writer.join()
        self.assertEqual(out, "profile 100000\n" + "y" * 100000)

    def test_wrong_words_print_nothing(self):
        good = self.file("good", b"x")
        for words in (("filter",), ("filter", good, "profile"), ("flter", good), ("filter", good, "table", "none"),
                      ("filter", "none"), ("filter", self.folder), ("filter", good, "filter", self.folder)):
            self.is_refused("bundle: ", "bundle", *words)

    def test_too_long(self):
        """Each kind has the limit that scf has for it, and all together the one of scf's input."""
        for kind, limit in (("filter", 32768), ("profile", 4194304), ("table", 4194304), ("stub-table", 1024)):
            path = self.file("long", b"0" * limit)
            self.assertEqual(self.run_tool("bundle", kind, path)[0::2], (0, ""))
            with open(path, "ab") as file:
                file.write(b"\0")
            self.is_refused(f"the {kind.partition('-')[0]} '{path}' has more than {limit} bytes", "bundle", kind, path)
        whole = self.file("whole", bytes(4194304))
        self.is_refused("more than 16777216 bytes together", "bundle", *["profile", whole] * 4, "table",
                        self.file("one", b"x"))
