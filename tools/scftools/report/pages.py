"""Pages of HTML: of a comparison, with the call that shows a difference in C, and of what stacks of filters allow.

A page stands alone: it has no scripts, and a Content-Security-Policy that allows none, nor anything from elsewhere. All
text is escaped here; what is made of other pieces is a `Markup`.
"""
from __future__ import annotations

import base64
import functools
import hashlib
import html
import shlex
import sys
import time
from collections import Counter
from collections.abc import Iterable, Iterator, Sequence

from ..base import inputs, output, program
from ..base.values import Any, dataclass
from ..model import tables
from ..model.answers import ALLOWED, DELEGATED, DENIED, DEPENDS
from ..model.calls import Call
from ..model.tables import Table
from ..ask import client
from ..ask.verdicts import Report
from ..forms.filters import Filter
from . import row_conditions, surface_output
from .compare import Pair
from .surface_output import StackSurface
from .surfaces import Surface

# What stands before conditions.
WHERE = " where "

STYLE = """
:root { color-scheme: light dark; --text: #1c1c1c; --page: #fdfdfc; --faint: #5c5c5c; --line: #cfcfca; --band: #f1f1ee;
  --bad: #a3140f; --warn: #7a4b00; --good: #1b5e2b; --link: #0b4f9e; }
@media (prefers-color-scheme: dark) {
  :root { --text: #e6e6e3; --page: #161716; --faint: #a5a5a0; --line: #3d3f3d; --band: #212321; --bad: #ff8f86;
    --warn: #f0bd6a; --good: #86d594; --link: #8abcff; } }
* { box-sizing: border-box; }
body { margin: 0 auto; max-width: 90rem; padding: 1rem; font: 1rem/1.45 system-ui, sans-serif; color: var(--text);
  background: var(--page); overflow-wrap: break-word; }
.long, h1, h3, .rows { overflow-wrap: anywhere; } .rows { table-layout: fixed; } .rows ul { padding-left: 1rem; }
h1 { font-size: 1.5rem; margin: 0 0 .5rem; } h2 { font-size: 1.2rem; margin: 2rem 0 .5rem; }
h3 { font-size: 1rem; margin: 1rem 0 .25rem; }
p, ul, dl { margin: .4rem 0; } ul { padding-left: 1.2rem; } dt { color: var(--faint); } dd { margin: 0 0 .3rem 0; }
a { color: var(--link); } small, .faint { color: var(--faint); }
code, pre { font: .875rem/1.4 ui-monospace, monospace; }
pre { white-space: pre-wrap; background: var(--band); padding: .6rem; border-radius: .3rem; margin: .4rem 0;
  overflow-wrap: anywhere; }
table { border-collapse: collapse; width: 100%; } th, td { text-align: left; vertical-align: top;
  padding: .35rem .6rem; border-bottom: 1px solid var(--line); } thead th { background: var(--band); }
.scroll { overflow-x: auto; } .scroll td, .scroll th { min-width: 8rem; line-height: 1.5rem; padding: .375rem .625rem; }
table.scroll { border-collapse: separate; border-spacing: 0; }
.scroll td:first-child, .scroll th:first-child { position: sticky; left: 0; min-width: 0; white-space: nowrap; }
.scroll td:first-child { background: var(--page); }
.bad { color: var(--bad); font-weight: 600; } .warn { color: var(--warn); font-weight: 600; }
.good { color: var(--good); font-weight: 600; }
details { margin: .25rem 0; } summary { cursor: pointer; }
@media (min-width: 60rem) {
  .rows th:nth-child(4) { width: 22%; } .rows th:last-child:nth-child(-n+4) { width: 50%; }
  .rows th:nth-child(n+6) { width: 8.5rem; } }
@media (max-width: 60rem) {
  .rows thead { display: none; } .rows, .rows tbody { display: block; }
  .rows tr, .rows td { display: block; border: 0; padding: .1rem 0; }
  .rows tr { border-bottom: 1px solid var(--line); padding: .6rem 0; }
  .rows td:empty { display: none; }
  .rows td[data-label]::before { content: attr(data-label) ": "; color: var(--faint); } }
"""


class Markup(str):
    """Text that is HTML already."""


def escaped(text: object) -> Markup:
    """Text as HTML, in which control characters are shown as their bytes; what is HTML already stays."""
    return text if isinstance(text, Markup) else _escaped(str(text))


@functools.lru_cache(1 << 12)
def _escaped(text: str) -> Markup:
    return Markup(html.escape(output.escaped(text)))


def joined(pieces: Iterable[object], between: str = "") -> Markup:
    return Markup(between.join(escaped(piece) for piece in pieces))


def tag(name: str, *pieces: object, **attributes: object) -> Markup:
    """An element. An attribute is written `class_` for `class`, and `data_label` for `data-label`; None is left out."""
    shown = "".join(f' {attribute.rstrip("_").replace("_", "-")}="{escaped(value)}"'
                    for attribute, value in attributes.items() if value is not None)
    return Markup(f"<{name}{shown}>{joined(pieces)}</{name}>")


def listed(items: Iterable[object]) -> Markup:
    """A list of items; nothing without any."""
    elements = [tag("li", item) for item in items]
    return tag("ul", *elements) if elements else Markup("")


def table(head: Iterable[object], rows: Iterable[Iterable[object]], kind: str) -> Markup:
    """A table: of kind `rows` these are blocks with labels on a narrow screen, of kind `scroll` it scrolls."""
    names = list(head)
    body = [tag("tr", *(tag("td", cell, data_label=name if kind == "rows" else None)
                        for name, cell in zip(names, row))) for row in rows]
    headings = tag("tr", *(tag("th", heading, scope="col") for heading in names))
    made = tag("table", tag("thead", headings), tag("tbody", *body), class_=kind)
    return tag("div", made, class_="scroll") if kind == "scroll" else made


def preformatted(lines: Iterable[object]) -> Markup:
    return tag("pre", joined(lines, "\n"))


def document(title: str, *pieces: object) -> str:
    digest = base64.b64encode(hashlib.sha256(STYLE.encode()).digest()).decode()
    policy = f"default-src 'none'; style-src 'sha256-{digest}'; base-uri 'none'; form-action 'none'"
    return ("<!DOCTYPE html>\n<html lang=\"en\">\n<head>\n<meta charset=\"utf-8\">\n"
            f"<meta http-equiv=\"Content-Security-Policy\" content=\"{escaped(policy)}\">\n"
            "<meta name=\"viewport\" content=\"width=device-width, initial-scale=1\">\n"
            f"<title>{escaped(title)}</title>\n<style>{STYLE}</style>\n</head>\n<body>\n"
            + "\n".join(escaped(piece) for piece in pieces) + "\n</body>\n</html>\n")


def _made_by() -> Iterator[Markup]:
    """When a page is made, by which scf, of which inputs, and by which command, without what writes the page."""
    at, version = output.time_text(time.time()), client.run_scf(["--version"]).text.strip()
    words = [word for at, word in enumerate(sys.argv[1:]) if sys.argv[at] != "--html" and word not in
             ("--html", "--json") and not word.startswith("--html=")]
    yield tag("p", f"{at} · {version}")
    yield listed(joined([inputs.label(name).strip("'"), ": SHA-256 ", tag(
        "code", hashlib.sha256(data).hexdigest(), class_="long")]) for name, data in (inputs.kept or {}).items())
    # (as a shell takes them)
    quoted = [shlex.quote(word) if output.escaped(word) == word else
              "$'" + output.escaped(word.replace("\\", "\\\\").replace("'", "\\'")) + "'" for word in words]
    yield preformatted([" ".join([program.name(), *quoted])])


def c_call(call: Call, table: Table) -> str:
    """A syscall as a statement in C; one of another ABI as a comment, since only assembly makes it."""
    names = table.names_of(call.number) if call.is_native else []
    arguments = ", ".join(f"{argument:#x}" for argument in call.arguments)
    if not call.is_native:
        return f"/* {call.describe(table)}, with {arguments} */"
    return f"syscall({f'SYS_{names[0]}' if names else call.number}, {arguments});"


def comparison_page(comparison: Pair, report: Report, added: Sequence[str]) -> str:
    """The page of a comparison, with the lines that `scf compare` adds."""
    verdict = report.verdict
    word = comparison.word(verdict.word) if verdict is not None else report.lines[0] if report.lines else "nothing"
    colour = "good" if verdict is not None and verdict.holds else "bad"
    shown = [preformatted([c_call(verdict.call, comparison.table)])] if verdict is not None and verdict.call else []
    return document(f"comparison: {word}", tag("h1", tag("span", word, class_=colour)), *_made_by(), *shown,
                    preformatted([*report.brief, *(f"# {line}" for line in added)]),
                    tag("p", "The first lines are scf's: the verdict is proved for all syscalls that are compared. The "
                             "others explain it.", class_="faint"))


@dataclass(frozen=True)
class ShownRow:
    """A syscall on a page: its names, what holds of it, and what decides: conditions, of a dangerous one first of those
    calls that are dangerous, or else examples."""

    names: Sequence[str]
    said: str
    details: Sequence[str]

    @property
    def by_conditions(self) -> str | None:
        """The first of its conditions, if it has any."""
        return next((detail for detail in self.details if WHERE in detail), None)


@dataclass(frozen=True)
class ShownSurface:
    """What a stack allows, as a page shows it: the lines on all of it, and its syscalls."""

    whole: Sequence[str]
    rows: Sequence[ShownRow]

    @classmethod
    def of(cls, surface: Surface) -> ShownSurface:
        """That of a surface, which gets conditions where scf proves them."""
        if not any(row.conditions for row in surface.rows):
            row_conditions.add(surface)
        of_dangers = {danger["number"]: [f"{danger['disposition']}{WHERE}{danger['where']}"]
                      for danger in surface_output.dangers(surface) if "where" in danger}
        return cls(surface_output.whole_lines(surface), [ShownRow(
            row.names, row.said, of_dangers.get(row.number, []) + surface_output.details(row)) for row in surface.rows])

    @classmethod
    def of_json(cls, value: Any) -> ShownSurface:
        return cls(value["whole"], [ShownRow(**row) for row in value["rows"]])

    def as_json(self) -> dict[str, object]:
        return {"whole": self.whole, "rows": [*map(vars, self.rows)]}


@dataclass(frozen=True)
class Named:
    """What a stack allows, None if scf refuses it or that wasn't looked at, with what the page calls it."""

    name: str
    shown: ShownSurface | None
    description: str
    digest: str | None = None

    @property
    def anchor(self) -> str:
        return self.name.replace(" ", "-")


def _cell(rows: Sequence[ShownRow]) -> str:
    words = ALLOWED, DEPENDS, DELEGATED, DENIED
    counts = Counter(row.said if row.said in words else "not known" for row in rows)
    if len(counts) == 1 and rows[0].said in (ALLOWED, DENIED):
        return f"all {rows[0].said}"
    shown = [f"{counts[word]} {word}" for word in (*words[:-1], "not known") if counts[word]]
    return f"some: {', '.join(shown)} of {len(rows)}"


def stack(named: Named) -> Iterator[Markup]:
    """All syscalls of a stack, group by group, each with what decides."""
    yield tag("h3", f"{named.name}: ", named.description, id=named.anchor)
    if named.digest is not None:
        yield tag("p", "SHA-256 ", tag("code", named.digest, class_="long"))
    if named.shown is None:
        yield tag("p", "It isn't known: scf refuses this stack, or looking at it takes too long.")
        return
    yield listed(named.shown.whole)
    for group, rows in surface_output.grouped(named.shown.rows).items():
        calls = listed(joined([tag("code", " or ".join(row.names)), " ", "; ".join(
            [row.said] * (row.by_conditions is None) + list(row.details))]) for row in rows)
        yield tag("details", tag("summary", f"{group}: {_cell(rows)}"), tag("div", calls, id=f"{named.anchor}-{group}"))


def matrix(stacks: Sequence[Named]) -> Iterator[Markup]:
    """Groups of syscalls by stacks."""
    yield tag("h2", "Groups of syscalls by stack")
    by_stack = [surface_output.grouped(named.shown.rows if named.shown is not None else ()) for named in stacks]
    head = ["group", *(tag("a", named.name, href=f"#{named.anchor}") for named in stacks)]
    lines = [[group, *(tag("a", _cell(rows[group]), href=f"#{named.anchor}-{group}") if group in rows else DENIED
                       for named, rows in zip(stacks, by_stack))]
             for group in surface_output.grouped(row for rows in by_stack for its in rows.values() for row in its)]
    yield table(head, lines, "scroll")


def dangerous(stacks: Sequence[Named], table_of: Table) -> Iterator[Markup]:
    """The dangerous syscalls by stacks."""
    yield tag("h2", "Dangerous syscalls by stack")
    rows_of = [{name: row for row in named.shown.rows for name in row.names} if named.shown is not None else {}
               for named in stacks]
    lines: list[list[object]] = []
    denied: list[str] = []
    for name, danger in tables.dangerous().items():
        shown = [rows[name].by_conditions or rows[name].said if name in rows else "not known" for rows in rows_of]
        if table_of.number_of(name) is not None and {*shown} == {DENIED}:
            denied.append(name)
        elif table_of.number_of(name) is not None:
            classes = ["good" if text.startswith(DENIED) and ", else " not in text else "warn" for text in shown]
            lines.append([tag("code", name), *(tag("span", text, class_=word) for text, word in zip(shown, classes)),
                          danger.reason])
    if lines:
        head = ["syscall", *(named.name for named in stacks), "why it is dangerous"]
        yield table(head, lines, "rows" if len(stacks) <= 2 else "scroll")
    if denied:
        yield tag("p", f"Always denied{' by every stack' * (len(stacks) > 1)}: ", tag("code", ", ".join(denied)), ".")


def surfaces_page(blocks: Sequence[StackSurface], table_of: Table, beside: Sequence[Filter]) -> str:
    """The page of the stacks of `scf surface`, and those that they are compared with."""
    blocks, stacks = [block for block in blocks if block.filters], []
    for at, block in enumerate(blocks):
        sides = [("", block.filters, block.surface)]
        if block.beside is not None:
            sides.append(("beside ", beside, block.beside.sides[1]))
        for before, filters, surface in sides:
            names = [bpf_filter.name for bpf_filter in filters]
            name = f"stack {at}" if len(blocks) > 1 else output.some(names, 1)
            stacks.append(Named(before + name, surface and ShownSurface.of(surface), ", ".join(names)))
    return document("What these filters allow", tag("h1", "What these filters allow"), *_made_by(),
                    tag("p", "scf has proved for all x86-64 syscalls and arguments what is allowed, delegated or "
                             "denied, and under which conditions.", class_="faint"), *dangerous(stacks, table_of),
                    *matrix(stacks), tag("h2", "Syscalls by stack"),
                    *(piece for named in stacks for piece in stack(named)))
