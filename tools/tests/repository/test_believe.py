"""dev/believe, on a made tree of two crates, and the lists of docs/trusted-base.txt against the sources."""
import os
import re
import sys

from support.common import TOP, Case, for_developers, sample, text_of

sys.path.append(os.path.join(TOP, "dev"))
import sources  # noqa: E402

# The files of the tree, each behind a line with its path.
FILES = dict(re.findall(r"(?ms)^==> (\S+) <==\n(.*?)(?=^==> |\Z)", sample("believe.txt")))
WORDS, FINE, ALIKE = (f"crates/{path}.antt" for path in ("low/specs/Words", "low/specs/Fine", "top/specs/Alike"))
LOW, BY_KINDS, IS_FINE = f"{WORDS}:7-10 low", f"{WORDS}:25-26 by_kinds", f"{FINE}:6-9 IsFine"
KIND, PART = "crates/low/src/kind.rt:3-9 Kind", "crates/low/src/part.rt:1-4 Part"


class Believe(Case):
    def tree(self, **changed):
        for name, text in {**FILES, **changed}.items():
            self.file(f"tree/{name}", text)
        return os.path.join(self.folder, "tree")

    def believe(self, *words, **changed):
        return self.run_words([for_developers("believe"), "--repository", self.tree(**changed), *words])

    def test_what_a_clause_stands_on(self):
        """The second and the first of these clauses cite `of_kind` as a definition and as a field of a record, which is
        not cited. A method stands on its data, over crates and traits."""
        no_types, types = "0 types, 0 lines of the code", "2 types, 11 lines of the code"
        for words, stands_on, count in (
                (["low::made", "fine"], [IS_FINE, LOW, BY_KINDS, KIND, PART],
                 f"low::made, clause fine: 3 definitions, 10 lines; beside them {types}"),
                (["low::made", "kind"], [LOW, f"{WORDS}:21-23 of_kind", KIND, PART],
                 f"low::made, clause kind: 2 definitions, 7 lines; beside them {types}"),
                (["low::made", "small"], [],
                 f"low::made, clause small: 0 definitions, 0 lines; beside them {no_types}"),
                *(([call], [f"{WORDS}:16-19 Outcome"], f"low::Made::get: 1 definition, 4 lines; beside them {no_types}")
                  for call in ("get", "Made::get", "low::Made::get")),
                (["put"], [IS_FINE, LOW, BY_KINDS, f"{ALIKE}:3-4 Alike", KIND, PART],
                 f"top::Store::put: 4 definitions, 12 lines; beside them {types}")):
            self.assertEqual(self.out_of(0, self.believe(*words)).splitlines(), [*stands_on, count])
        self.begins(0, "crates/top/src/calls.rt:3-8 Store", self.believe("stored"))

    def test_definitions_with_parameters_in_common(self):
        text = ("use Rattle.low.specs.Fine.{IsFine}\n\nabbrev pub Alike : Type 0\nAlike = Inside 1\n\n"
                "module _ (n : ℕ) where\n  -- the number is fine\n  abbrev pub Inside : Type 0\n  Inside = IsFine n\n")
        out = self.out_of(0, self.believe("top::made", **{"crates/top/specs/Alike.antt": text}))
        self.assertEqual(out.splitlines()[3:5], [f"{ALIKE}:3-4 Alike", f"{ALIKE}:7-9 Inside"])

    def test_a_call_for_c(self):
        calls = "crates/top/src/calls.rt"
        exported = FILES[calls].replace("pub fn made(n", '#[unsafe(no_mangle)]\npub extern "C" fn top_made(n')
        out = self.out_of(0, self.believe("top_made", **{
            calls: exported, "crates/top/src/lib.rt": "mod calls;\n\npub use calls::{top_made, Store, stored};\n"}))
        self.assertIn(f"{ALIKE}:3-4 Alike\n", out)

    def test_wrong_words(self):
        for words, message in ((["none"], "there is no public call 'none'"),
                            (["made"], "'made' is one of low::made, top::made"),
                            (["low::made", "none"], "low::made has no clause 'none'"),
                            ([], "either a CALL, a --page or --all"), (["a", "b", "c"], "unrecognized"),
                            (["a", "--page", "b"], "either a CALL"), (["a", "--write"], "either a CALL"),
                            (["--page", "none"], "No such file"), (["\udcff"], r"no public call '\udcff'")):
            done = self.believe(*words)
            self.is_refusal(message, done)
            self.assertNotIn("Traceback", done[2])

    def test_a_public_clause_stands_on_no_internal_definition(self):
        """Neither by its own names nor by those of a definition, an operator or a whole path."""
        inner = {"crates/low/specs/internal/States.antt": "-- Private.\nabbrev pub IsState : ℕ → Type 0\n"
                 "abbrev pub ◌~~◌ : ℕ → ℕ → Type 0\n"}
        self.assertEqual(self.believe("--all", **inner), (0, "", ""))
        calls, fine = "crates/low/src/calls.rt", FILES["crates/low/specs/Fine.antt"]
        imports = "ghost use Rattle.low.specs.internal.States.{IsState, ◌~~◌};\n" + FILES[calls]
        private = imports + "\nfn own() -> u32\n    ensures { IsState 1 }\n{\n    1\n}\n"
        self.assertEqual(self.believe("--all", **inner, **{calls: private}), (0, "", ""))
        message = "stands on {} of crates/low/specs/internal/States.antt, which is internal"
        named = "names an internal definition"
        for name, text, *wanted in (
                (calls, imports.replace("IsFine result", "IsState result"), "low::made", message.format("IsState")),
                (calls, imports.replace("n < 7", "n ~~ 7"), "low::made", message.format("◌~~◌")),
                (calls, imports.replace("{ Outcome }", "{ IsState 1 }"), "low::Made::get", message.format("IsState")),
                (calls, FILES[calls].replace("n < 7", "Rattle.low.specs.internal.States.IsState n"), "low::made",
                 named),
                ("crates/low/specs/Fine.antt", fine.replace("words.by_kinds n ≡", "states.IsState n ×").replace(
                    "as words", "as words\nuse Rattle.low.specs.internal.States as states"), "low::made",
                 message.format("IsState"))):
            with self.subTest(name + wanted[1]):
                self.assertIn(" ".join(wanted) + "\n", self.out_of(1, self.believe("--all", **inner, **{name: text})))
                self.assertEqual(self.believe(wanted[0], **inner, **{name: text})[:2], (1, ""))

    def test_an_operator_is_a_definition_too(self):
        fine = FILES["crates/low/specs/Fine.antt"].replace("half n ≡ n", "half n ~~ n").replace("-- A number", """
abbrev pub ◌~~◌ : ℕ → ℕ → Type 0
a ~~ b = a ≡ b

-- A number""")
        self.assertIn("Fine.antt:7-8 ◌~~◌\n", self.believe("low::made", "fine", **{FINE: fine})[1])

    PAGE = "# A page\n\n<!-- believe low::made fine -->\n{}<!-- end -->\n\n{}More.\n"
    LISTS = ("\n- low/specs/Words.antt: `low`, `by_kinds` (6 lines)\n- low/specs/Fine.antt: `IsFine` (4 lines)\n\n"
             "Together 3 definitions, 10 lines.\n\n")
    OTHERS = "<!-- believe all other calls -->\n{}<!-- end -->\n\n"
    OTHER_LISTS = ("\n- low/specs/Words.antt: `Outcome`, `of_kind` (7 lines)\n"
                   "- top/specs/Alike.antt: `Alike` (2 lines)\n\nTogether 3 definitions, 9 lines.\n\n")
    WHOLE = PAGE.format(LISTS, OTHERS.format(OTHER_LISTS))

    def test_a_page(self):
        path = self.file("page.md", self.PAGE.format("", self.OTHERS.format("")))
        out = self.out_of(1, self.believe("--page", path))
        self.assertIn("+- low/specs/Fine.antt: `IsFine` (4 lines)\n", out)
        self.assertIn("+- top/specs/Alike.antt: `Alike` (2 lines)\n", out)
        self.assertEqual(self.believe("--page", path, "--write"), (0, "", ""))
        self.assertEqual(text_of(path), self.WHOLE)
        self.assertEqual(self.believe("--page", path), (0, "", ""))
        for name, old, new in ((FINE, "by_kinds", "low"), (WORDS, "-- of a word\n", "")):
            self.assertEqual(self.believe("--page", path, **{name: FILES[name].replace(old, new)})[0], 1, name)

    def test_what_no_list_of_a_page_has(self):
        """What stands behind a public clause has to stand in a list, whose mark is a call's or of all other calls."""
        path = self.file("page.md", self.PAGE.format(self.LISTS, ""))
        messages = [f"{call} stands on {name} of {file}, which no list has" for call, name, file in (
            ("low::Made::get", "Outcome", WORDS), ("low::made", "of_kind", WORDS),
            ("top::Store::put", "Alike", ALIKE))]
        for words in ([], ["--write"]):
            status, out, err = self.believe("--page", path, *words)
            self.assertEqual((status, out.splitlines(), err), (1, messages, ""))
        calls = "".join(f"<!-- believe {call} -->\n<!-- end -->\n" for call in
                        ("low::made beside low::made fine", "get", "put beside low::made fine"))
        path = self.file("page.md", self.PAGE.format(self.LISTS, calls))
        self.assertEqual(self.believe("--page", path, "--write"), (0, "", ""))
        # a list beside another one has only what that one hasn't, so that both are wanted
        path = self.file("page.md", calls)
        out = self.out_of(1, self.believe("--page", path, "--write"))
        self.assertIn("low::made stands on IsFine of crates/low/specs/Fine.antt, which no list has\n", out)

    def test_lists_beside_others_and_of_files_alone(self):
        others = self.OTHERS.format("\n- low/specs/Words.antt: `low`, `Outcome`, `of_kind`, `by_kinds` (13 lines)\n"
                                    "- low/specs/Fine.antt: `IsFine` (4 lines)\n\n"
                                    "Together 5 definitions, 17 lines.\n\n")
        beside = self.PAGE.replace("low::made fine", "put beside low::made fine")
        path = self.file("page.md", beside.format("\n- top/specs/Alike.antt: `Alike` (2 lines)\n\n"
                                                  "Together 1 definition, 2 lines.\n\n", others))
        self.assertEqual(self.believe("--page", path), (0, "", ""))
        brief = self.WHOLE.replace("believe ", "believe files of ")
        for names in ("`low`, `by_kinds`", "`Outcome`, `of_kind`"):
            brief = brief.replace(names, "2 definitions")
        path = self.file("page.md", re.sub("`(IsFine|Alike)`", "1 definition", brief))
        self.assertEqual(self.believe("--page", path), (0, "", ""))

    def test_a_page_and_sources_that_are_not_utf_8(self):
        page = self.file("page.md", b"a\xff\n")
        for words, sources_of in ((["--page", page], {}), (["--page", page, "--write"], {}),
                                  (["low::made"], {FINE: b"\xff"})):
            status, out, err = self.believe(*words, **sources_of)
            self.assertEqual((status, out), (2, ""))
            self.assertRegex(err, r"^believe: a file isn't UTF-8: .*\n$")

    def test_a_page_without_an_end(self):
        path = self.file("page.md", "<!-- believe low::made fine -->\n\nMore.\n")
        status, _, err = self.believe("--page", path, "--write")
        self.assertEqual(status, 2)
        self.assertIn("has no line <!-- end --> behind it", err)
        self.assertIn("More.", text_of(path))


class TrustedBase(Case):
    """docs/trusted-base.txt."""

    def page(self):
        return text_of(TOP, "docs", "trusted-base.txt")

    def test_no_public_contract_of_this_repository_stands_on_an_internal_definition(self):
        self.assertEqual(self.run_words([for_developers("believe"), "--all"]), (0, "", ""))

    def test_its_lists_are_what_the_sources_have(self):
        """Where this fails, `dev/believe --page docs/trusted-base.txt --write` writes the lists anew."""
        page = os.path.join(TOP, "docs", "trusted-base.txt")
        self.assertEqual(self.run_words([for_developers("believe"), "--page", page]), (0, "", ""))

    def test_it_has_a_list_for_each_part_of_the_headline(self):
        for call in ("compare_stack holds", "check safe beside compare_stack holds",
                     "files of run_command beside verify_stack answer"):
            self.assertEqual(self.page().count(f"<!-- believe {call} -->"), 1, call)
        listed = re.search(r"<!-- believe compare_stack holds -->(.*?)<!-- end -->", self.page(), re.S)[1]
        for name in ("IsTrueOfStack", "IsFirstLeast", "rank_of", "AnswersRelated", "IsInScope", "IsRecord"):
            self.assertIn(f"`{name}`", listed)
        self.assertNotIn("`Conflicts`", listed)

    def test_what_the_page_on_trust_says_to_read_stands_in_a_list(self):
        lists = " ".join(re.findall(r"<!-- believe .*?<!-- end -->", self.page(), re.S))
        paragraphs = re.findall(r"^Read: .*$", text_of(TOP, "docs", "TRUST.md"), re.M)
        self.assertEqual(len(paragraphs), 3)
        for name in re.findall(r"`(\w+)`", " ".join(paragraphs)):
            self.assertIn(f"`{name}`", lists)

    def test_each_public_call_stands_in_the_list_of_the_page_on_trust(self):
        """By its own name or by that of its type, in the list of its crate."""
        lists = text_of(TOP, "docs", "TRUST.md").partition("## Every public call")[2]
        rows = dict(re.findall(r"^### (\w+)\n(.*?)(?=^### |\Z)", lists, re.M | re.S))
        self.assertGreater(len(rows), 9)
        repository = sources.Repository()
        for crate in rows:
            listed = set(re.findall(r"`(?:\w+::)*(\w+)`", rows[crate]))
            folder = os.path.join(TOP, "crates", crate)
            for path, names in sources.exported_by(folder).items():
                file = repository.file(crate, os.path.relpath(path, folder))
                for call, _ in sources.calls_of(file.text, names):
                    self.assertTrue(listed.intersection(call.split("::")), f"{crate}: {call}")
