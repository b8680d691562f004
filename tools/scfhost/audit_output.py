"""An audit as lines, as JSON, as metrics for Prometheus, and as a page of HTML: what there is, a verdict for each
container, unit and program, what each distinct stack allows, and for each bad verdict a call that shows it."""
from __future__ import annotations

import os
import re
import shlex
from collections import Counter
from collections.abc import Iterable, Iterator

from scftools.base import output
from scftools.base.values import Any, by_key, dataclass
from scftools.model.tables import Table
from scftools.ask import client
from scftools.ask.verdicts import OTHERWISE
from scftools.report import pages
from scftools.report.pages import Markup, Named, c_call, joined, listed, preformatted, tag
from .audit_rows import (AS_CONFIGURED, AUDIT_VERDICTS, CONTAINER, NOT_KNOWN, OTHER_PROGRAM, ROW_KINDS, STRICTER, UNIT,
                         WEAKER, Audit, AuditRow, RowPart, StackJudgement, is_only_counted)

# At most so many processes of a row are named in a line, and so many characters of a name are printed.
MOST_PROCESSES, MOST_OF_NAME = 3, 200
PLURALS = {CONTAINER: "containers", UNIT: "units", OTHER_PROGRAM: "other confined programs"}
PROVED = ("Each comparison of a stack of filters with a profile is proved for all x86-64 syscalls and arguments by "
          "scf; what the files of runtimes and systemd say, and which process belongs to what, isn't.")
VERDICT_CLASSES = {AS_CONFIGURED: "good", STRICTER: "good", OTHERWISE: "warn", NOT_KNOWN: "warn"}
COLUMNS = ("verdict", "what", "engine, image", "profile", "filters", "capabilities", "NoNewPrivs", "processes")
# The digits of a hash that are shown, and the most stacks of a row that are shown unfolded.
DIGITS, FEW = 12, 3


def short(identifier: str) -> str:
    return identifier[:12] if re.fullmatch("[0-9a-f]{64}", identifier) else identifier


def whose(row: AuditRow) -> list[str]:
    """The user whose a row is, and of a container where it is described, if one before it has the same identifier."""
    phrases = [] if row.user is None else [f"of user {row.user}"]
    return phrases if row.container is None or row.key == row.container.identifier else [*phrases, row.place]


def about(row: AuditRow) -> list[str]:
    """The details that stand behind a name."""
    container = row.container
    if container is None:
        return whose(row)
    details = [container.engine, *whose(row), container.image, f"pod {short(container.pod)}" if container.pod else None,
               short(container.identifier) if container.name is not None else None]
    return [output.cut(detail, MOST_OF_NAME) for detail in details if detail]


def row_text(row: AuditRow) -> str:
    details = about(row)
    name = output.cut(short(row.key) if row.name == row.key else row.name, MOST_OF_NAME)
    return f"{row.kind} {name}" + (f" ({', '.join(details)})" if details else "")


def judgement_text(judgement: StackJudgement, table: Table) -> str:
    """The evidence of a verdict: why it isn't known, or a call with both answers."""
    than = "the baseline" if judgement.is_of_baseline else "the profile"
    if judgement.shown is None or judgement.shown.call is None:
        return judgement.why or ""
    call = judgement.shown.call
    arguments = " ".join(map(hex, call.arguments))
    pointer = f" at {call.pointer:#x}" if call.pointer else ""
    return (f"{call.describe(table)} with {arguments}{pointer} is answered {judgement.shown.filters}, by {than} "
            f"{judgement.shown.profile}")


def row_lines(row: AuditRow, table: Table, row_of_reason: dict[tuple[int | None, str], str]) -> Iterator[str]:
    """A line for a row, and for each further verdict in it one more. A reason that stands at an earlier row of the same
    user isn't repeated: `row_of_reason` has the rows by their users and reasons."""
    count = len(row.processes)
    yield f"{row.verdict}: {row_text(row)}: {count} process{'es' * (count != 1)}"
    if row.container is not None and row.container.has_changed:
        yield (f"    {output.escaped(row.container.config)} has changed: judged is the profile that the container was "
               "started with")
    firsts: dict[str, RowPart] = {}
    for part in row.parts:
        firsts.setdefault(part.judgement.verdict, part)
    names = row.names
    for verdict, part in firsts.items():
        text = judgement_text(part.judgement, table) if verdict != STRICTER else ""
        if not text and len(firsts) == 1:
            continue
        if text and part.judgement.shown is None:
            earlier = row_of_reason.setdefault((row.user, text), row_text(row))
            text = text if earlier == row_text(row) else f"as for {earlier}"
        shown = output.some([f"{number} ({output.escaped(names.get(number, b''))})" for number in part.threads],
                            MOST_PROCESSES)
        yield f"    {verdict}: process{'es' * (len(part.threads) > 1)} {shown}" + (f": {text}" if text else "")


def summary(audit: Audit, unlisted: int = 0) -> Iterator[str]:
    """The last lines: how many rows have each verdict, or aren't listed; what there is, and what wasn't looked at."""
    for kind in ROW_KINDS:
        counts = [(verdict, audit.counts[kind, verdict]) for verdict in AUDIT_VERDICTS]
        text = ", ".join(f"{verdict} {count}" for verdict, count in counts if count) or "none"
        more = f"; without a configuration, and listed by --programs: {unlisted}"
        yield f"{PLURALS[kind]}: {text}{more if unlisted and kind == OTHER_PROGRAM else ''}"
    yield (f"processes: confined {len(audit.confined)}, unconfined {len(audit.unconfined)}; distinct stacks: "
           f"{len(audit.stacks)}; seconds: {audit.seconds:.2f}")
    named = sorted({name for row in audit.rows for part in row.parts for name in part.judgement.not_compared})
    if named:
        yield f"not compared: syscalls of {', '.join(named)}, beside those of SCMP_ARCH_X86_64"
    yield from (f"not looked at: {line}" for line in audit.left_out)
    yield from audit.snapshot.notes


def audit_lines(audit: Audit, table: Table, lists_all: bool = True, earlier: Earlier | None = None) -> Iterator[str]:
    """The rows, without the programs that are only counted unless `lists_all`; the changes; and the summary."""
    listed = [row for row in audit.rows if lists_all or not row.is_only_counted]
    row_of_reason: dict[tuple[int | None, str], str] = {}
    for row in listed:
        yield from row_lines(row, table, row_of_reason)
    if earlier is not None:
        since = f"since {output.escaped(earlier.time)}"
        lines = [f"{change['change']} {since}: {change['row']}"
                 + (f": {change['verdict']}" if change["verdict"] is not None else "") + _was(change)
                 for change in changes(earlier, audit, lists_all)]
        yield from (f"# {line}" for line in lines or [f"nothing changed {since}"])
    yield from (f"# {line}" for line in summary(audit, len(audit.rows) - len(listed)))


@dataclass(frozen=True)
class EarlierRow:
    text: str
    verdict: str
    is_only_counted: bool


@dataclass(frozen=True)
class Earlier:
    """An earlier audit: its time, and its rows by their kinds, users and IDs."""

    time: str
    rows: dict[tuple[str, int | None, str], EarlierRow]

    @classmethod
    def of(cls, audit: Audit) -> Earlier:
        return cls(output.time_text(audit.time), {(row.kind, row.user, row.id): EarlierRow(
            output.escaped(row_text(row)), row.verdict, row.is_only_counted) for row in audit.rows})

    @classmethod
    def of_object(cls, value: Any) -> Earlier:
        """The audit of an object that --json printed; raises ValueError if it isn't one."""
        if not isinstance(value, dict) or not isinstance(value.get("rows"), list):
            raise ValueError("there are no rows")
        rows = {}
        for row in value["rows"]:
            texts = [row.get(name) for name in ("kind", "name", "verdict")] if isinstance(row, dict) else [None]
            if not all(isinstance(text, str) for text in texts):
                raise ValueError("a row is malformed")
            key, user, (kind, name, verdict) = row.get("id"), row.get("user"), texts
            is_stated = row.get("profile") != {"source": None, "sha256": None}
            whose_row = f" (of user {user})" if isinstance(user, int) else ""
            rows[kind, user if isinstance(user, int) else None, key if isinstance(key, str) else name] = EarlierRow(
                f"{kind} {name}{whose_row}", verdict, is_only_counted(kind, is_stated, verdict))
        return cls(str(value.get("time", "an earlier audit")), rows)


def changes(earlier: Earlier, audit: Audit, lists_all: bool = True) -> Iterator[dict[str, object]]:
    """Rows that are new, gone, or have another verdict; without programs that are only counted unless `lists_all`."""
    now = Earlier.of(audit)
    for key in {**now.rows, **earlier.rows}:
        verdict, was = (rows[key].verdict if key in rows else None for rows in (now.rows, earlier.rows))
        rows = [rows[key] for rows in (now.rows, earlier.rows) if key in rows]
        if verdict == was or not lists_all and all(row.is_only_counted for row in rows):
            continue
        yield {"time": now.time, "change": "new" if was is None else "gone" if verdict is None else "changed",
               "kind": key[0], "row": output.escaped(rows[0].text), "verdict": verdict, "was": was}


def change_text(change: dict[str, object]) -> str:
    return f"{change['time']} {change['verdict'] or 'gone'}: {change['row']}{_was(change)}"


def _was(change: dict[str, object]) -> str:
    return f" (was {change['was']})" if change["was"] is not None else ""


def _part_json(part: RowPart, row: AuditRow, numbers: dict[str | None, int], table: Table) -> dict[str, object]:
    names, judgement, shown = row.names, part.judgement, part.judgement.shown
    is_shown = shown is not None and None not in (shown.call, shown.filters, shown.profile)
    members = {"verdict": judgement.verdict, "why": _escaped(judgement.why),
               **(shown.as_json(table) if is_shown else {}), "baseline": judgement.is_of_baseline or None,
               "not_compared": list(judgement.not_compared) or None}
    return {**{name: member for name, member in members.items() if member is not None},
            "stack": numbers.get(part.judgement.digest), "is_unconfined": judgement.is_unconfined,
            "processes": [{"process": process, "name": output.escaped(names.get(process, b"")),
                           "threads": len(threads)} for process, threads in part.threads.items()]}


def _escaped(text: str | None) -> str | None:
    return None if text is None else output.escaped(text)


def row_json(row: AuditRow, numbers: dict[str | None, int], table: Table) -> dict[str, object]:
    """A row; `numbers` are the indexes of stacks by their digests."""
    container, expected = row.container, row.expected
    described = () if container is None else ("engine", "runtime", "image", "pod")
    return {"kind": row.kind, "name": output.escaped(row.name), "id": row.id, "user": row.user,
            "verdict": row.verdict, "is_unconfined": row.worst.is_unconfined,
            **{name: _escaped(getattr(container, name)) for name in described},
            "profile": {"source": _escaped(expected.source), "sha256": expected.digest,
                        **({"why": _escaped(expected.why)} if expected.why is not None else {}),
                        **({"changed": True} if container is not None and container.has_changed else {})},
            "capabilities": row.capabilities, "no_new_privileges": row.has_no_new_privileges,
            "users": sorted({process.user for process in row.processes}),
            "parts": [_part_json(part, row, numbers, table) for part in row.parts]}


def audit_json(audit: Audit, table: Table, earlier: Earlier | None = None) -> dict[str, object]:
    *rows, head = json_lines(audit, table, earlier)
    return {**head, "rows": rows}


def json_lines(audit: Audit, table: Table, earlier: Earlier | None = None) -> Iterator[dict[str, object]]:
    """An object for each row, and the last one for the whole."""
    numbers, system = audit.stack_numbers, os.uname()
    yield from (row_json(row, numbers, table) for row in audit.rows)
    since = {} if earlier is None else {"since": {
        "time": output.escaped(earlier.time), "changes": [*changes(earlier, audit)]}}
    yield {"status": audit.status, "host": system.nodename, "kernel": system.release,
           "time": output.time_text(audit.time), "seconds": round(audit.seconds, 3),
           "verdicts": {kind: {verdict: audit.counts[kind, verdict] for verdict in AUDIT_VERDICTS}
                        for kind in ROW_KINDS},
           "processes": {"confined": len(audit.confined), "unconfined": len(audit.unconfined),
                         "unread": len(audit.unread)},
           "left_out": [output.escaped(line) for line in audit.left_out],
           "notes": [output.escaped(note) for note in audit.snapshot.notes], **since,
           "stacks": [{"sha256": digest, "filters": list(stack.lengths)} for digest, stack in audit.stacks.items()]}


def _metrics(audit: Audit) -> Iterator[output.Metric]:
    """Each has a label for the user whose things it is about, empty for root, but for those on the audit itself."""
    def by_user(numbers: Iterable[int]) -> Counter[int | None]:
        return Counter(process.owner or None for process in map(audit.snapshot.processes.get, numbers) if process)

    yield "scf_container_verdict", "The verdict on a container; the label says which.", [
        ([("id", row.key), ("name", row.name), ("engine", row.container.engine), ("image", row.container.image),
          ("pod", row.container.pod), ("user", row.user), ("verdict", row.verdict)], 1)
        for row in audit.rows if row.kind == CONTAINER and row.container is not None]
    yield "scf_unit_verdict", "The verdict on a systemd unit; the label says which.", [
        ([("unit", row.key), ("user", row.user), ("verdict", row.verdict)], 1)
        for row in audit.rows if row.kind == UNIT]
    counts = Counter((row.user, row.kind, row.verdict) for row in audit.rows)
    yield "scf_audit_rows", "How many rows of a kind have a verdict.", [
        ([("kind", kind), ("user", user), ("verdict", verdict)], counts[user, kind, verdict])
        for user in (None, *sorted({row.user for row in audit.rows} - {None}))
        for kind in ROW_KINDS for verdict in AUDIT_VERDICTS if user is None or counts[user, kind, verdict]]
    stacks = {(row.user, part.judgement.digest) for row in audit.rows for part in row.parts}
    for name, help_text, of_user in (
            ("unconfined_processes", "Processes with a thread that has no seccomp filter.", by_user(audit.unconfined)),
            ("confined_processes", "Processes with a thread that has a seccomp filter.", by_user(audit.confined)),
            ("unread_processes", "Confined processes whose filters could not be read.", by_user(audit.unread)),
            ("distinct_stacks", "Distinct stacks of filters.", Counter(user for user, digest in stacks if digest)),
            ("not_looked_at", "What could not be looked at, each thing a line of scf audit.",
             Counter({user: len(lines) for user, lines in audit.snapshot.left_out.items()}))):
        users = (None, *sorted(of_user.keys() - {None}))
        yield f"scf_{name}", help_text, [([("user", user)], of_user[user]) for user in users]
    for name, help_text, value in (
            ("audit_status", "The exit status: 0 as configured, 1 weaker or unconfined, 4 something is not known.",
             audit.status),
            ("audit_seconds", "How long the audit took.", f"{audit.seconds:.3f}"),
            ("audit_timestamp_seconds", "When the audit began, in seconds since 1970.", f"{audit.time:.3f}")):
        yield f"scf_{name}", help_text, [([], value)]


def metrics(audit: Audit) -> str:
    return output.prometheus(_metrics(audit))


def _coloured(verdict: str) -> Markup:
    return tag("span", verdict, class_=VERDICT_CLASSES.get(verdict, "bad"))


def repeat(row: AuditRow, part: RowPart) -> list[str]:
    """The commands that repeat a comparison of a row's part."""
    process = next(iter(part.threads), None)
    if process is None or row.expected.source is None:
        return []
    relation = "--no-more " if part.judgement.verdict == WEAKER else ""
    if row.kind == UNIT:
        architecture = part.judgement.architecture
        arch = f"--arch {architecture} " if architecture is not None else ""
        return [f"scf unit-profile {arch}{shlex.quote(row.key)} >unit.json",
                f"scf verify-process {relation}{process} unit.json"]
    runtime = f"--runtime {row.container.runtime} " if row.container is not None and row.container.runtime else ""
    return [f"scf verify-process {relation}{runtime}{process} {shlex.quote(row.expected.source)}"]


def _stacks_of(row: AuditRow, numbers: dict[str | None, int]) -> Markup:
    """The distinct stacks of a row's threads, each with its verdict if they have several."""
    has_several = len({part.judgement.verdict for part in row.parts}) > 1
    items = []
    for part in row.parts:
        at = numbers.get(part.judgement.digest)
        shown = part.judgement.why or part.description if at is None else \
            joined([tag("a", f"stack {at}", href=f"#stack-{at}"), f": {part.description}"])
        items.append(joined([f"{part.judgement.verdict}: " if has_several else "", shown]))
    return listed(items) if len(items) <= FEW else tag("details", tag("summary", f"{len(items)} stacks"), listed(items))


def _row(row: AuditRow, numbers: dict[str | None, int]) -> list[object]:
    capabilities = row.capabilities
    expected, digest = row.expected, row.expected.digest
    source: list[object] = [expected.source or ("nothing is configured" if expected.why is None else
                                                "what is configured isn't known:")]
    source += [" ", tag("code", digest[:DIGITS], title=digest)] if digest else []
    source += [" ", expected.why] if expected.why is not None else []
    processes = [f"{number} {output.escaped(name)}" for number, name in row.names.items()]
    count = f"{len(processes)} process{'es' * (len(processes) != 1)}"
    return [_coloured(row.verdict), joined([row.kind, " ", tag("strong", row.name, class_="long")]),
            ", ".join(about(row)), tag("span", *source, class_="long"), _stacks_of(row, numbers),
            tag("details", tag("summary", str(len(capabilities))), " ".join(capabilities)) if capabilities else "none",
            "yes" if row.has_no_new_privileges else "no",
            tag("details", tag("summary", count), listed(processes))]


def _shown(judgement: StackJudgement, table_of: Table) -> Iterator[Markup]:
    """The evidence of a verdict: the call in C, both answers, the entry and the filter's lines."""
    shown = judgement.shown
    if judgement.why is not None:
        yield tag("p", judgement.why)
    if shown is None or shown.call is None:
        return
    yield preformatted([c_call(shown.call, table_of)])
    than = "the baseline" if judgement.is_of_baseline else "the profile"
    sides = [(answer.describe() if answer is not None else "unknown") for answer in (shown.filters, shown.profile)]
    yield listed((f"the filters answer {sides[0]}", f"{than} answers {sides[1]}"))
    if judgement.lines:
        yield preformatted(judgement.lines)


def _findings(audit: Audit, table_of: Table) -> Iterator[Markup]:
    """The evidence of each verdict that isn't `as configured`; verdicts with the same reason stand together."""
    yield tag("h2", "What shows the verdicts")
    bad = [(row, part) for row in audit.rows for part in row.parts if part.judgement.verdict not in (
        AS_CONFIGURED, STRICTER) and (part.judgement.why is not None or part.judgement.shown is not None)]
    if not bad:
        yield tag("p", "Nothing is weaker than configured, otherwise, or not known.")
    for pairs in by_key(((row.user, part.judgement.verdict, part.judgement.why, part.judgement.shown), (row, part))
                        for row, part in bad).values():
        judgement, names = pairs[0][1].judgement, dict.fromkeys(row_text(row) for row, _ in pairs)
        yield tag("h3", _coloured(judgement.verdict), f" {', '.join(names)}")
        yield from _shown(judgement, table_of)
        if commands := [line for row, part in pairs for line in repeat(row, part)]:
            yield tag("p", "To repeat it:")
            yield preformatted(commands)


def _overview(audit: Audit, earlier: Earlier | None) -> Iterator[Markup]:
    """What there is, what changed since an earlier audit, and the rows."""
    system, version = os.uname(), client.run_scf(["--version"]).text.strip()
    yield tag("h1", f"seccomp audit of {output.escaped(system.nodename)}")
    yield tag("p", f"{output.time_text(audit.time)} · Linux {system.release} · {version} · {audit.seconds:.2f} seconds")
    yield listed(summary(audit))
    yield tag("p", PROVED, class_="faint")
    if earlier is not None:
        yield tag("h2", f"Since {output.escaped(earlier.time)}")
        changed = [joined([_coloured(str(change["verdict"] or "gone")), f" {change['row']}", _was(change) or " (new)"])
                   for change in changes(earlier, audit)]
        yield listed(changed) if changed else tag("p", "No row is new, gone or has another verdict.")
    yield tag("h2", "Containers, units and programs")
    numbers = audit.stack_numbers
    yield pages.table(COLUMNS, [_row(row, numbers) for row in audit.rows], "rows") if audit.rows else \
        tag("p", "There is no container, no unit, and no other program with a filter.")


def _stacks(audit: Audit, table_of: Table) -> Iterator[Markup]:
    stacks = [Named(f"stack {at}", audit.surfaces.get(digest), stack.description, digest)
              for at, (digest, stack) in enumerate(audit.stacks.items())]
    if stacks:
        yield from pages.matrix(stacks)
        yield from pages.dangerous(stacks, table_of)
        yield tag("h2", "Distinct stacks")
    for stack in stacks:
        yield from pages.stack(stack)


def page(audit: Audit, table_of: Table, earlier: Earlier | None = None) -> str:
    return pages.document(f"seccomp audit of {os.uname().nodename}", *_overview(audit, earlier),
                          *_findings(audit, table_of), *_stacks(audit, table_of))
