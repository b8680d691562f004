"""An audit of a machine: a row for each container, each systemd unit and each other confined program, and a verdict on
whether its processes are confined as configured.

The expected profile of a container is that of its config.json as its runtime applies it, that of a unit is what its
settings state, and of other programs nothing is expected. For all rows of root's, one after another, and for each user,
one child copies filters and another one, with no rights, judges them (`child`), within some seconds: root's first.
"""
from __future__ import annotations

import json
import os
import time
from collections.abc import Iterable, Iterator, Sequence
from itertools import islice

from scftools.base import child, output, program
from scftools.base.values import Any, by_key, replace
from scftools.model import architectures, tables
from scftools.model.bundles import stack_bundle
from scftools.model.profiles import not_compared_of
from scftools.ask import client, verdicts
from scftools.ask.verdicts import NO_LESS, NO_MORE, OTHERWISE, SAME, Verdict
from scftools.forms.filters import Stack
from scftools.report import compare_output, surfaces
from scftools.report.compare import Pair
from scftools.report.pages import ShownSurface
from . import hold, machine, machine_pass, verify
from .audit_rows import (AS_CONFIGURED, AUDIT_VERDICTS, BY_CONFIGURATION, NOT_KNOWN, STRICTER, UNCONFINED_THOUGH,
                         WEAKER, Audit, AuditRow, Expectation, RowPart, StackJudgement)
from .container_files import described_containers
from .expectations import Expectations, Options, RowMaker, of_settings
from .processes import Kernel
from .ptrace import ticks_at_start

# How long a process may take to load its filter after its container or unit starts, in seconds.
TO_CONFINE = 0.5
# How long all rows of root may take, all users' files, and all users' rows.
SECONDS_OF_ROOT, SECONDS_OF_FILES, SECONDS_OF_USERS = 60.0, 10.0, 20.0
# Of several verdicts on the filters of one stack the first of these is that on all of them.
WORST_FIRST = (WEAKER, NOT_KNOWN, STRICTER, OTHERWISE, AS_CONFIGURED)
# The most verdicts that are kept for the next audit, and the most lines that explain one.
MOST_KEPT, MOST_LINES = 5000, 100
# How much of a child's time scf may take with all steps.
SHARE_OF_SCF = 0.6
# What a child answers: a row's expected profile, or why it isn't known; the verdict on a row's stack; what one allows.
JUDGEMENT = {"verdict": str, "why": (str, None), "shown": [str], "not_compared": [str], "lines": [str],
             "architecture": (str, None), "is_of_baseline": bool, "digest": str}
ANSWER = ({"row": int, "digest": (str, None), "why": (str, None)}, {"row": int, "stack": int, "judgement": JUDGEMENT},
          {"stack": int, "whole": [str], "rows": [{"names": [str], "said": str, "details": [str]}]})


def _begin() -> None:
    """What a child that judges does first."""
    if (path := client.built_program()) is not None:
        # (it may be where only root can look for it)
        file = os.open(path, os.O_PATH)
        os.set_inheritable(file, True)
        client.PROGRAMS = (f"/proc/self/fd/{file}",)
    child.become(child.NOBODY)


class Task:
    """A row of root's, or all rows of a user's; what stacks allow is kept by the SHA-256 of their bundles."""

    def __init__(self, user: int | None, rows: Sequence[AuditRow], copies: machine_pass.Copies,
                 surfaces_of: dict[str, ShownSurface]) -> None:
        self.user, self.rows, self.copies, self.surfaces_of = user, rows, copies, surfaces_of
        self.keys = [row.expected.key for row in rows]
        # of each row the parts by the indexes of their stacks
        self.parts: list[dict[int, RowPart]] = [{} for _ in rows]

    def begin(self) -> None:
        """Before the stacks are judged that were copied."""
        self.digests: dict[int, str] = {}
        self.stacks = list(self.copies.stacks.values())
        filters = {data: output.sha256(data) for stack in self.stacks for data in stack.filters}
        self.stack_keys = [output.sha256("".join(map(filters.get, stack.filters)).encode()) for stack in self.stacks]
        of_row = {process.number: parts for row, parts in zip(self.rows, self.parts) for process in row.processes}
        for index, stack in enumerate(self.stacks):
            lengths = tuple(len(data) // 8 for data in stack.filters)
            for number, threads in stack.threads.items():
                part = of_row[number].setdefault(index, RowPart({}, None, lengths, stack.is_strict))
                part.threads[number] = threads

    def receive(self, value: Any) -> None:
        value = child.checked(value, ANSWER)
        if "whole" in value:
            self.surfaces_of.setdefault(self.digests[value["stack"]], ShownSurface.of_json(value))
        elif "stack" not in value:
            row = self.rows[value["row"]]
            row.expected = replace(row.expected, dropped=value["digest"], why=value["why"])
        elif (part := self.parts[value["row"]][value["stack"]]).lengths and part.judgement is None:
            judged = value["judgement"]
            if judged["verdict"] not in AUDIT_VERDICTS:
                raise ValueError(judged["verdict"])
            shown = verdicts.report("\n".join(judged["shown"])).verdict if judged["shown"] else None
            lists = {name: tuple(judged[name]) for name in ("lines", "not_compared")}
            self.digests[value["stack"]] = judged["digest"]
            part.judgement = StackJudgement(**{**judged, **lists, "shown": shown})

    def waits(self, at: int) -> bool:
        """Whether a child has to judge something of a row."""
        return self.rows[at].expected.is_unresolved or any(
            part.judgement is None and part.lengths for part in self.parts[at].values())

    @property
    def is_over(self) -> bool:
        return not any(map(self.waits, range(len(self.rows))))


class Judges:
    """Has children judge rows. Verdicts on root's rows are kept, and none of a user's."""

    def __init__(self, options: Options) -> None:
        self.options = options
        # the verdicts, by what is expected and stacks; the SHA-256 of what settings mean; and what stacks allow
        self.known: dict[tuple[str, str], StackJudgement] = {}
        self.resolved: dict[str, str] = {}
        self.surfaces: dict[str, ShownSurface] = {}
        # what settings mean, only in a child
        self.meanings: dict[str, Expectation] = {}

    def judge(self, tasks: Sequence[Task], budget: child.Budget) -> dict[int, str]:
        """Adds the verdicts that rows wait for, and what stacks allow; says of which some still wait, and why."""
        lacking = [at for at, task in enumerate(tasks) if self.lacks(task)]
        works = [lambda send, seconds, task=task: self.send_all(task, send, seconds) for task in tasks]
        lost = child.ask_each(works, budget.shares(lacking), lambda at, value: tasks[at].receive(value), _begin)
        if len(self.known) > MOST_KEPT:
            for kept in (self.known, self.resolved, self.surfaces):
                kept.clear()
        for task in tasks:
            self.keep(task)
        return {at: why for at, why in lost.items() if not tasks[at].is_over}

    def lacks(self, of: Task) -> bool:
        """Whether something is to be found out that isn't known from rows of root's."""
        of.begin()
        for row, key, parts in zip(of.rows, of.keys, of.parts):
            if row.expected.is_unresolved and key in self.resolved:
                row.expected = replace(row.expected, dropped=self.resolved[key])
            for number, part in parts.items():
                part.judgement = part.judgement or self.known.get((key, of.stack_keys[number]))
                of.digests.update({number: part.judgement.digest} if part.judgement is not None else {})
        of.surfaces_of.update((each, self.surfaces[each]) for each in of.digests.values() if each in self.surfaces)
        return not of.is_over or self.options.has_surfaces and not of.surfaces_of.keys() >= {*of.digests.values()}

    def keep(self, of: Task) -> None:
        """Keeps what was found out of a row of root's."""
        self.surfaces.update(of.surfaces_of if of.user is None else {})
        for row, key, parts in zip(of.rows, of.keys, of.parts) if of.user is None else ():
            if row.expected.dropped is not None:
                self.resolved[key] = row.expected.dropped
            self.known.update(((key, of.stack_keys[number]), part.judgement) for number, part in parts.items()
                              if part.judgement is not None and part.judgement.verdict != NOT_KNOWN)

    def send_all(self, of: Task, send: child.Send, seconds: float) -> None:
        """Judges, in a child, what waits, and sends that."""
        client.begin_limits(seconds * SHARE_OF_SCF, False)
        digests = {}
        for at, (row, key, parts) in enumerate(zip(of.rows, of.keys, of.parts)):
            expected = row.expected
            if of.waits(at) and expected.settings is not None:
                if key not in self.meanings:
                    self.meanings[key] = of_settings(json.loads(expected.settings), expected.runtime, expected.source,
                                                     self.options)
                expected = self.meanings[key]
                send({"row": at, "digest": expected.digest, "why": expected.why})
            for number in (number for number, part in parts.items() if part.lengths):
                judgement = parts[number].judgement
                if judgement is None:
                    stack, its_key = of.stacks[number], (key, of.stack_keys[number])
                    if its_key not in self.known:
                        self.known[its_key] = replace(self.judgement(stack, expected),
                                                      digest=output.sha256(stack_bundle(stack.filters)))
                    judgement = self.known[its_key]
                    shown = [] if judgement.shown is None else verdicts.Report.of(judgement.shown).lines
                    send({"row": at, "stack": number, "judgement": {
                        **{name: getattr(judgement, name) for name in JUDGEMENT}, "shown": shown}})
                digests[number] = judgement.digest
        for number, digest in digests.items() if self.options.has_surfaces else ():
            if digest not in of.surfaces_of:
                surface = ShownSurface.of(surfaces.surface_of_filters(of.stacks[number].filters, self.options.table))
                of.surfaces_of[digest] = surface
                send({"stack": number, **surface.as_json()})

    def judgement(self, stack: Stack, expected: Expectation) -> StackJudgement:
        """The verdict on a stack with filters; whatever is raised meanwhile, it isn't known."""
        try:
            judgement = self.judge_all(stack, expected)
            if self.options.baseline is None:
                return judgement
            least = self.judge_by(stack, self.options.request(self.options.baseline[1], NO_MORE), NO_MORE)
            is_worse = least.verdict in (WEAKER, NOT_KNOWN) and least.order < judgement.order
            return replace(least, is_of_baseline=True) if is_worse else judgement
        except program.ToolError as why:
            return StackJudgement(NOT_KNOWN, str(why))
        except Exception as error:  # pylint: disable=broad-exception-caught
            return StackJudgement(NOT_KNOWN, f"it can't be compared: {type(error).__name__}")

    def judge_all(self, stack: Stack, expected: Expectation) -> StackJudgement:
        """The verdict beside all that is expected."""
        if expected.why is not None:
            return StackJudgement(NOT_KNOWN, f"what is configured isn't known: {expected.why}")
        filters = tuple(data for data in stack.filters if data != expected.beside)
        stack = replace(stack, filters=filters) if filters else stack
        judgements = (self.judge_by(stack, asked) for asked in (expected.asked.parts if expected.asked else (None,)))
        worst = min(judgements, key=lambda judgement: WORST_FIRST.index(judgement.verdict))
        if expected.doubt is None or worst.verdict in (NOT_KNOWN, AS_CONFIGURED):
            return worst
        return replace(worst, verdict=NOT_KNOWN, why=f"it is {worst.verdict}, but {expected.doubt}")

    def judge_by(self, stack: Stack, asked: verify.Request | None, relation: str = SAME) -> StackJudgement:
        """The verdict beside a profile, or where nothing is configured."""
        comparison = (asked or verify.nothing_request(self.options.table)).comparison(stack.named, relation)
        # (one of which nothing is shown needs no second look)
        verdict = comparison.known_verdict(comparison.scope, relation) if asked is None else None
        if verdict is None:
            comparison, _, report = comparison.run_by_stub()
            verdict = report.verdict
            if verdict is None:
                return StackJudgement(NOT_KNOWN, f"scf says: {report.lines[0] if report.lines else 'nothing'}")
        judgement = self._of_verdict(comparison, verdict)
        if asked is None:
            # (the call that shows it would be answered by no profile of a user)
            return replace(judgement, shown=None, lines=())
        names = comparison.left_out[-1].architectures
        is_i386 = list(comparison.tables.of) == [architectures.I386]
        return replace(judgement, not_compared=(*names, *not_compared_of(asked.profile.data)),
                       architecture="i386" if is_i386 else None)

    def _of_verdict(self, comparison: Pair, verdict: Verdict) -> StackJudgement:
        """The verdict on what is judged: if some syscalls differ, whether any is more permissive, or any stricter."""
        if verdict.holds:
            return StackJudgement(AS_CONFIGURED)
        for word, relation in ((WEAKER, NO_MORE), (STRICTER, NO_LESS)) if verdict.fails else ():
            found = verdict if relation == comparison.relation else comparison.verdict(comparison.scope, relation)
            if found is None or not found.holds:
                return self._shown(word, found, comparison)
        return self._shown(OTHERWISE, verdict, comparison)

    def _shown(self, word: str, shown: Verdict | None, comparison: Pair) -> StackJudgement:
        """The verdict with this word that scf's shows; it isn't known if that isn't."""
        if shown is None or not shown.fails:
            at = f" at {shown.at}" if shown is not None and shown.at is not None else ""
            return StackJudgement(NOT_KNOWN, f"scf says: {'nothing' if shown is None else shown.word}{at}")
        has_lines = self.options.has_surfaces and shown.call is not None
        lines = compare_output.difference_lines(comparison, shown) if has_lines else ()
        return StackJudgement(word, shown=shown, lines=tuple(islice(lines, MOST_LINES)))


class Assessor:
    """Looks at rows: first at root's, one by one, then at each user's."""

    def __init__(self, kernel: Kernel, snapshot: machine.Snapshot, judges: Judges, why: str | None) -> None:
        self.kernel, self.snapshot, self.judges, self.why = kernel, snapshot, judges, why
        self.of_root, self.of_users = child.Budget(SECONDS_OF_ROOT), child.Budget(SECONDS_OF_USERS)
        # what stacks allow, by their digests, as it was found out of whose rows
        self.surfaces: dict[int | None, dict[str, ShownSurface]] = {}

    def fill(self, rows: Iterable[AuditRow]) -> None:
        """Adds the parts of rows. What takes longer than its share has what others left, in the end."""
        by_user = by_key((row.user, row) for row in rows)
        of_root = [self.task(None, [row]) for row in by_user.pop(None, ())]
        of_users = [self.task(user, by_user[user]) for user in sorted(by_user)]
        for budget, batches in ((self.of_root, [of_root]), (self.of_users, [[task] for task in of_users])):
            for _ in range(2):
                late = [self.look(tasks, child.Budget(seconds))
                        for tasks, seconds in budget.shares(filter(None, batches), budget.remaining)]
                batches = late if budget.remaining > 0 else []
        self.snapshot.notes += [note for task in of_root for note in task.copies.notes]

    def task(self, user: int | None, rows: list[AuditRow]) -> Task:
        # (those that may take long come last)
        confined = sorted((process for row in rows for process in row.processes if process.is_confined),
                          key=lambda process: (process.is_stuck, len(process.threads), process.number))
        numbers = [process.number for process in confined]
        copies = machine_pass.Copies(self.kernel, numbers, self.judges.options.is_forced)
        return Task(user, rows, copies, self.surfaces.setdefault(user, {}))

    def look(self, tasks: Sequence[Task], budget: child.Budget) -> list[Task]:
        """Looks at what is left of tasks, at once at as many as have few bytes of filters; those that came too late."""
        late: list[Task] = []
        while tasks:
            began, count, whys = time.monotonic(), len(tasks), {}
            if self.why is None and any(task.copies.waiting for task in tasks):
                half = child.Budget(budget.remaining / 2)
                count, whys = machine_pass.read_each([task.copies for task in tasks], half)
            share = (budget.remaining + began - time.monotonic()) * count / len(tasks)
            judging = self.judges.judge(tasks[:count], child.Budget(share))
            late += [task for at, task in enumerate(tasks[:count])
                     if self.is_late(task, whys.get(at, self.why), judging.get(at))]
            budget.remaining += began - time.monotonic()
            tasks = tasks[count:]
        return late

    def is_late(self, task: Task, why: str | None, judging: str | None) -> bool:
        """Adds the parts of a task's rows; whether it has some for which the time wasn't enough, by these reasons."""
        for row, parts in zip(task.rows, task.parts):
            waiting = {**dict.fromkeys(task.copies.waiting, why), **task.copies.unread}
            row.parts = [RowPart({process.number: []}, StackJudgement(NOT_KNOWN, waiting[process.number]))
                         for process in row.processes if process.number in waiting
                         and ticks_at_start(process.number) == process.start]
            row.parts += self.parts_of(row, parts.values(), judging)
            row.parts.sort(key=lambda part: part.judgement.order)
            alive = {number for part in row.parts for number in part.threads}
            for process in row.processes:
                if process.number not in alive:
                    self.snapshot.processes.pop(process.number, None)
            row.processes = [process for process in row.processes if process.number in alive]
        is_late = self.why is None and (why or judging) is not None
        if is_late and task.user is not None:
            self.snapshot.leave_out("not all of its rows could be looked at", task.user)
        if not is_late:
            task.copies.forget()
        return is_late

    def parts_of(self, row: AuditRow, parts: Iterable[RowPart], judging: str | None) -> Iterator[RowPart]:
        """The parts of a row, each with a verdict; `judging` says why some aren't judged."""
        plain = {process.number: list(process.threads) for process in row.processes if not process.is_confined}
        for part in parts:
            if not part.lengths and not part.is_strict:
                plain.update(part.threads)
                continue
            why = judging if part.lengths else "it is in seccomp's strict mode, which no profile expresses"
            yield replace(part, threads=dict(sorted(part.threads.items())),
                          judgement=part.judgement or StackJudgement(NOT_KNOWN, why))
        if plain:
            verdict = UNCONFINED_THOUGH if row.expected.is_stated else BY_CONFIGURATION
            why = row.expected.why or ("it isn't looked at" if row.expected.is_unresolved else None)
            if why is not None:
                verdict, why = NOT_KNOWN, f"it isn't confined, and what is configured isn't known: {why}"
            yield RowPart(dict(sorted(plain.items())), StackJudgement(verdict, why, is_unconfined=True))

    def look_again(self, rows: Iterable[AuditRow]) -> None:
        """Reads those processes again that have no filter though one is configured, since they may just be starting."""
        if not (early := [row for row in rows if row.verdict == UNCONFINED_THOUGH]):
            return
        time.sleep(TO_CONFINE)
        for row in early:
            before, row.processes = row.processes, []
            for process in before:
                now = machine.process_of_number(self.kernel, process.number)
                self.snapshot.processes.pop(process.number, None)
                # (it may have ended, and another one may have its number)
                if now is not None and now.start == process.start:
                    self.snapshot.processes[process.number] = now
                    row.processes.append(now)
        self.fill(early)


def audit_machine(options: Options, judges: Judges) -> Audit:
    """Audits the machine; `judges` keeps its results for the next time."""
    began, now, kernel = time.monotonic(), time.time(), Kernel()
    for name in architectures.JUDGED:
        # (who judges may not be able to read them)
        tables.architecture_table(name)
    why = hold.why_no_filters(kernel)
    snapshot = machine.read_machine(kernel, why)
    containers = described_containers(kernel, snapshot, options.roots, child.Budget(SECONDS_OF_FILES))
    maker = RowMaker(kernel, snapshot, Expectations(options), containers)
    turnover = machine.Turnover(kernel, maker.members.of_root.groups)
    turnover.look()
    rows = maker.rows()
    assessor = Assessor(kernel, snapshot, judges, why)
    assessor.fill(rows)
    turnover.look()
    assessor.look_again([row for row in rows if row.parts])
    turnover.look()
    for row in rows:
        first = row.container.first if row.container is not None and row.user is None else 0
        if turnover.gone[first] >= machine.LOOKS and row.parts:
            row.parts.append(RowPart({first: [first]}, StackJudgement(NOT_KNOWN, machine.COMES_AND_GOES)))
            row.parts.sort(key=lambda part: part.judgement.order)
    rows = sorted((row for row in rows if row.parts), key=lambda row: row.order)
    of_root = {part.judgement.digest for row in rows if row.user is None for part in row.parts}
    surfaces = {digest: surface for user, found in assessor.surfaces.items() for digest, surface in found.items()
                if user is None or digest not in of_root}
    return Audit(rows, snapshot, now, time.monotonic() - began, options.allows_unconfined, surfaces)
