"""The pages of HTML that audit, surface and compare write."""
import base64
import hashlib
import html.parser
import os
import re
import shutil
import unittest

from support.common import ALLOW, EPERM, Case, completed, filter_of, gate, insn, jeq, load, profile_of, ret, text_of
from host.test_audit import process, unit
from scftools.model import tables
from scftools.ask import verdicts
from scftools.forms.filters import Stack
from scftools.forms.profile_inputs import ProfileInput
from scftools.report import compare, compare_output, pages, surfaces
from scfhost import audit_output, audit_rows, container_files, machine

# The elements that a page has, and their attributes.
TAGS = {"html": {"lang"}, "head": set(), "meta": {"charset", "http-equiv", "content", "name"}, "title": set(),
        "style": set(), "body": set(),
        **{name: {"class", "id"} for name in "h1 h2 h3 p ul li code pre span div".split()},
        "strong": {"class"}, "code": {"class", "title"}, "details": set(), "summary": set(), "table": {"class"},
        "thead": set(), "tbody": set(), "tr": set(), "th": {"scope"}, "td": {"data-label"}, "a": {"href"}}
HOSTILE = '"><script>alert(1)</script><img src=x onerror=alert(1)>&lt;\n\x1b[2J\u202e\udcff'
CHROMIUM = shutil.which("chromium")


class Page(html.parser.HTMLParser):
    """A page, of which each element is one that pages have."""

    def __init__(self, text, case):
        super().__init__()
        self.case, self.ids, self.targets, self.texts, self.policy, self.open = case, set(), set(), [], None, []
        self.style = re.search(r"<style>(.*?)</style>", text, re.S)[1]
        self.feed(text)
        self.close()
        case.assertEqual(self.open, [])

    def handle_starttag(self, tag, attrs):
        self.case.assertIn(tag, TAGS)
        attributes = dict(attrs)
        self.case.assertLessEqual(set(attributes), TAGS[tag], tag)
        self.ids |= {attributes["id"]} if "id" in attributes else set()
        if tag == "a":
            self.case.assertTrue(attributes["href"].startswith("#"))
            self.targets.add(attributes["href"][1:])
        if attributes.get("http-equiv") == "Content-Security-Policy":
            self.policy = attributes["content"]
        if tag != "meta":
            self.open.append(tag)

    def handle_endtag(self, tag):
        self.case.assertEqual(self.open.pop(), tag)

    def handle_data(self, data):
        self.texts.append(data)

    def check(self):
        """Its policy allows its style and nothing else; each link leads to a place in it."""
        digest = base64.b64encode(hashlib.sha256(self.style.encode()).digest()).decode()
        self.case.assertEqual(self.policy, f"default-src 'none'; style-src 'sha256-{digest}'; base-uri 'none'; "
                                           "form-action 'none'")
        self.case.assertLessEqual(self.targets, self.ids)
        self.case.assertNotRegex(self.style, r"url\(|@import")
        return "".join(self.texts)


class Pages(Case):
    def made(self):
        """A page of an audit in which all names are hostile."""
        table = tables.read_table(None)
        container = container_files.ContainerDescription("i" * 64, "podman", "crun", 7, HOSTILE, name=HOSTILE,
                                                         image=HOSTILE, pod=HOSTILE)
        stack = Stack((filter_of([0, 41]),), False, {7: [7]})
        seven, eight = process(name=os.fsencode(HOSTILE)), process(8)
        asked = compare.Comparison(stack.named, ProfileInput(profile_of("read")), table)
        verdict = asked.run(verdicts.NATIVE_SCOPE, verdicts.NO_MORE)[1].verdict
        rows = [audit_rows.AuditRow(audit_rows.CONTAINER, container.identifier, [seven],
                                    audit_rows.Expectation(source=HOSTILE),
                               container),
                audit_rows.AuditRow(audit_rows.UNIT, "a.service", [eight], audit_rows.Expectation(why=HOSTILE))]
        weaker = audit_rows.StackJudgement(audit_rows.WEAKER, shown=verdict, digest="ab" * 32,
                                           lines=tuple(compare_output.difference_lines(asked, verdict)))
        rows[0].parts = [audit_rows.RowPart({7: [7]}, weaker, (10,))]
        rows[1].parts = [audit_rows.RowPart({8: [8]}, audit_rows.StackJudgement(audit_rows.NOT_KNOWN, HOSTILE,
                                                                                is_unconfined=True))]
        snapshot = machine.Snapshot({7: seven, 8: eight}, {None: [HOSTILE]})
        surface = pages.ShownSurface.of(surfaces.surface_of_filters(stack.filters, table))
        report = audit_rows.Audit(rows, snapshot, 0.0, surfaces={"ab" * 32: surface})
        was = audit_output.EarlierRow(HOSTILE, "weaker", False)
        earlier = audit_output.Earlier(HOSTILE, {("unit", None, HOSTILE): was})
        return audit_output.page(report, table, earlier)

    def test_an_audit(self):
        text = Page(self.made(), self).check()
        shown = HOSTILE.replace("\n", "\\x0a").replace("\x1b", "\\x1b").replace("\u202e", "\\xe2\\x80\\xae").replace(
            "\udcff", "\\xff")
        self.assertGreater(text.count(shown), 6)
        for expected in ("syscall(SYS_socket, 0x0, 0x0, 0x0, 0x0, 0x0, 0x0);", "the filters answer ALLOW",
                         "the profile answers ERRNO 1: the syscall fails with EPERM", "by the default",
                         "some: 1 allowed of ", "all denied", "scf verify-process --no-more --runtime crun 7 ",
                         "(was weaker)", "unconfined"):
            self.assertIn(expected, text)

    def shown(self, *rows):
        """The text of a page with these rows."""
        made = audit_rows.Audit(list(rows), machine.Snapshot(), 0.0)
        return Page(audit_output.page(made, tables.read_table(None)), self).check()

    def test_a_reason_stands_once(self):
        text = self.shown(*(unit(name, "not known", "slow", {8: [8]}) for name in "ab"))
        self.assertIn("not known unit a, unit b", text)
        self.assertEqual(text[text.index("What shows the verdicts"):].count("slow"), 1)

    def test_what_is_configured(self):
        """It is known that nothing is, or not known what."""
        for expected, says in ((audit_rows.Expectation(), "nothing is configured"),
                               (audit_rows.Expectation(why="no bus"), "what is configured isn't known: no bus"),
                               (audit_rows.Expectation(source="systemctl", why="no bus"), "systemctl no bus")):
            text = self.shown(unit("a.service", "not known", expected=expected))
            self.assertIn(says, text)
            self.assertEqual("nothing is configured" in text, says == "nothing is configured")

    def test_nothing_to_show(self):
        text = self.shown()
        self.assertIn("There is no container, no unit, and no other program with a filter.", text)
        self.assertNotIn("Dangerous syscalls", text)

    def test_a_surface_and_a_comparison(self):
        # clone (56) is denied with CLONE_NEWUSER
        data = gate(jeq(56, 0, 4) + load(16) + insn(0x45, 0x10000000, 0, 1) + ret(EPERM) + ret(ALLOW) + ret(EPERM))
        first, two = self.file("one.bpf", data), self.file("<two>.bpf", filter_of([0]))
        path = os.path.join(self.folder, "page.html")
        self.assertEqual(self.run_tool("surface", "--html", path, first, "--beside", two)[0], 1)
        text = Page(text_of(path), self).check()
        self.assertIn("some: 1 depends of ", text)
        self.assertIn("clonedenied where flags & CLONE_NEWUSERdenied", text)
        self.assertIn("denied (EPERM) where flags & CLONE_NEWUSER == CLONE_NEWUSER, else allowed", text)
        self.assertIn(f"surface {first} --beside '{two}'", text)
        for content in (data, filter_of([0])):
            self.assertIn(hashlib.sha256(content).hexdigest(), text)
        profile = self.file("p&q.json", profile_of("read", "write"))
        status, out, _ = self.run_tool("compare", f"--html={path}", "-", profile, given=filter_of([0]))
        text = Page(text_of(path), self).check()
        self.assertEqual(status, 1)
        self.assertIn(out, text + "\n")
        self.assertIn("syscall(SYS_write, ", text)
        self.assertIn(f"compare - '{profile}'", text)
        self.assertIn(hashlib.sha256(profile_of("read", "write")).hexdigest(), text)
        self.assertIn(f"standard input: SHA-256 {hashlib.sha256(filter_of([0])).hexdigest()}", text)
        for name in ("surface", "compare"):
            words = [first, self.file("p.json", profile_of("read"))] if name == "compare" else [first]
            status, _, err = self.run_tool(name, "--html", f"{self.folder}/none/x.html", *words)
            self.assertEqual((status, err), (2, f"{name}: '{self.folder}/none/x.html': No such file or directory\n"))

    @unittest.skipUnless(CHROMIUM, "there is no chromium here")
    def test_in_a_browser(self):
        """It logs nothing of the page, and shows it with its own style."""
        path = self.file("page.html", self.made())
        done = completed([CHROMIUM, "--headless", "--no-sandbox", "--disable-gpu", "--enable-logging=stderr",
                          f"--user-data-dir={self.folder}/browser", "--dump-dom", f"file://{path}"])
        self.assertEqual(done.returncode, 0)
        self.assertNotIn(b"CONSOLE", done.stderr)
        self.assertIn(b"<strong class=\"long\">\"&gt;&lt;script&gt;alert(1)&lt;/script&gt;", done.stdout)
