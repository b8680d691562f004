"""Profiles of filters: what filters answer to the syscalls of an architecture, as a profile that scf proves to answer
the same; and which other architectures it also says so of.

Where no profile can say it there are two: the nearest that is nowhere stricter than the filters, and the nearest that
is nowhere more permissive. What is drafted here is printed only if scf has proved it.
"""
from __future__ import annotations

import functools
from collections import Counter
from collections.abc import Iterable, Iterator, Sequence

from ..base import output, program
from ..base.values import Any, by_key, dataclass, replace
from ..model import architectures, constants, profiles, tables
from ..model.answers import ACTIONS_WITH_DATA, DISPOSITIONS, ENOSYS, FIRST_X32, Answer
from ..model.architectures import JUDGED, Architecture
from ..model.argument_sets import EMPTY_SET, FIRST_UNTESTED, FULL_SET, MOST_STEPS, Sets, Steps, TooMany
from ..model.profiles import SANDBOX, STRICT, TRAP
from ..ask import answer_sets, client, questions, regions
from ..ask.answer_sets import FIRST_OPEN, FIRST_UPPER, Answers
from ..ask.explanation import join_names
from ..ask.questions import EVERYTHING, NOTHING, Asker
from ..ask.regions import Numbers, Region
from ..ask.verdicts import NO_LESS, NO_MORE, SAME, NamedCall, Report
from ..forms import engines, profile_inputs, runtimes
from ..forms.filters import Filter
from ..forms.profile_inputs import ProfileInput
from .compare import TURNED, Comparison
from .covers import Alternative, Covers

TRAP_DATA_TEXT = "errnoRet beside SCMP_ACT_TRAP is its data: --runtime sandbox reads it, and no container runtime"
UNFINISHED_TEXT = "unfinished: it takes too many steps to follow the filters: --limit N gives more than {}"
# How far a draft may be from the filters: it says all that a profile can; one answer for all calls of a number that the
# filters give to some of them; the utmost answer.
EXACT, CONSTANT, UTMOST = range(3)


def nearest(word: int | None, is_permissive: bool, has_trap_data: bool) -> Answer:
    """The answer of a profile, which may have TRAP's data, that is nearest to a filter's, with the same disposition."""
    if word is None:
        return EVERYTHING if is_permissive else NOTHING
    answer = Answer.of_word(word)
    if answer.action == "UNNAMED":
        return NOTHING
    is_said = not answer.data or answer.action in ACTIONS_WITH_DATA or has_trap_data and answer.oci == TRAP
    return answer if is_said else Answer(answer.action, 0)


def entry_of(names: Sequence[str], answer: Answer, alternative: Alternative) -> dict[str, object]:
    args = [{name: value for name, value in condition.as_json().items()
             if name != "valueTwo" or condition.op == "SCMP_CMP_MASKED_EQ"} for condition in alternative]
    return {"names": list(names), **answer.members(), **({"args": args} if args else {})}


class FilterAnswers:
    """Filters, oldest first, with their regions, None if unfinished: their answers to an architecture's numbers, those
    in its table and those at which tests change. And what their profile is for: the name of the runtime that reads it,
    the OCI names of other architectures that it may list, and whether TRAP may have data. The steps in which they are
    followed are as many as --limit gives, if they are more than without."""

    def __init__(self, filters: Sequence[Filter], filter_regions: Sequence[Region] | None, table: tables.Table,
                 architecture: Architecture, runtime: str | None = None, others: Sequence[str] = (),
                 has_trap_data: bool = False, steps: Steps | None = None):
        self.filters, self.regions, self.table, self.architecture = filters, filter_regions, table, architecture
        self.runtime, self.others, self.has_trap_data = runtime, others, has_trap_data
        self.steps = steps or Steps(max(MOST_STEPS, constants.number_in(client.limits.get("limit", "")) or 0))
        self.sets, numbers = Sets(architecture.bits, self.steps), Numbers(filter_regions, architecture)
        firsts = (low - architecture.first for low, _, _ in numbers.ranges or ())
        self.numbers = sorted({*table.numbers(), *(first for first in firsts if first < FIRST_X32),
                               *(first for first, _ in questions.gaps(table, architecture))})
        # whether they weren't followed to their end, and nothing is known
        self.is_unfinished = filter_regions is None
        try:
            self.answers = answer_sets.of_numbers(self.sets, numbers, [architecture.first + at for at in self.numbers])
        except TooMany:
            self.sets, self.is_unfinished = Sets(architecture.bits, Steps()), True
        if self.is_unfinished:
            self.answers = [((None, FULL_SET),)] * len(self.numbers)
        self.covers = Covers(self.sets)
        self.parts, self.untested = map(functools.lru_cache(None), (self._parts, self._untested))
        is_runc = runtime is not None and runtimes.RUNTIMES[runtime].program == runtimes.RUNC
        # the least number that runc's stub answers, or one that no table has
        self.end = self.stub_end if is_runc else FIRST_X32

    @property
    def stub_end(self) -> int:
        """The number from which on all get ENOSYS, or one that no table has."""
        stub = ((ENOSYS.word, FULL_SET),)
        count = next((at for at in range(len(self.numbers), 0, -1) if self.answers[at - 1] != stub), 0)
        return self.numbers[count] if 0 < count < len(self.numbers) else FIRST_X32

    def numbered(self, are_named: bool) -> list[tuple[int, Answers]]:
        """The numbers that the table names, or doesn't, each with its answers."""
        return [(number, answers) for number, answers in zip(self.numbers, self.answers)
                if number < self.end and bool(self.table.names_of(number)) == are_named]

    def _parts(self, answers: Answers, is_permissive: bool) -> dict[Answer, int]:
        """A profile's answers to the calls of a number with their arguments, the utmost first. Raises TooMany."""
        order = sorted(((nearest(word, is_permissive, self.has_trap_data), arguments) for word, arguments in answers),
                       key=lambda part: DISPOSITIONS.index(part[0].disposition), reverse=is_permissive)
        remaining, parts = FULL_SET, {}
        for answer, arguments in order:
            answered = self.sets.both(remaining, self.sets.possible(arguments))
            if answered:
                parts[answer] = self.sets.either(parts.get(answer, EMPTY_SET), answered)
                remaining = self.sets.without(remaining, answered)
        return parts

    def unsaid(self, answers: Answers) -> Answer | None:
        """An answer to the calls of a number that no profile gives, such as ALLOW with data."""
        known = (Answer.of_word(word) for word, _ in answers if word is not None)
        return next((answer for answer in known if answer != nearest(answer.word, True, self.has_trap_data)), None)

    def _untested(self, answers: Answers) -> str | None:
        """Why the answers to a number depend on something that no condition tests, or None. Raises TooMany."""
        if self.is_unfinished:
            return "it is unfinished"
        if any(word is None for word, _ in answers):
            return "its answer is computed"
        variables = set().union(*(self.sets.variables(arguments) for _, arguments in answers))
        if any(FIRST_UNTESTED <= variable < FIRST_UPPER for variable in variables):
            return "its answer depends on the instruction pointer"
        greatest = max(variables, default=0)
        if greatest >= FIRST_OPEN:
            return "its answer depends on a comparison or computation that no operator makes"
        return "its answer depends on the upper half of an argument" if greatest >= FIRST_UPPER else None

    def why_not(self, answers: Answers, default: Answer) -> str | None:
        """Why no profile with a default answers the calls of a number so, or None."""
        unsaid = self.unsaid(answers)
        why = f"no profile gives {unsaid}" if unsaid is not None else self.untested(answers)
        return f"to find its entries takes too many steps: --limit N gives more than {self.sets.steps.most}" \
            if why is None and not self.has_entries(answers, default) else why

    def has_entries(self, answers: Answers, default: Answer) -> bool:
        """Whether entries beside a default give the answers to the calls of a number."""
        return None not in self.covers_beside(self.parts(answers, True), default).values()

    def covers_beside(self, parts: dict[Answer, int], default: Answer) -> dict[Answer, list[Alternative] | None]:
        """The alternatives of each answer but the default; None for one that needs too many."""
        return {answer: self.covers.of_set(arguments) for answer, arguments in parts.items() if answer != default}

    def comparison(self, profile: dict[str, object], relation: str = SAME) -> Comparison:
        """The comparison of the filters with a profile, for the same relation with the stub that they have."""
        # (a profile is no less permissive than the filters if these are no more so)
        given = ProfileInput(profiles.read_as(engines.to_bytes(profile), reading_of(profile)))
        if self.runtime is not None:
            given = runtimes.applied(engines.parse_json(given.data), self.runtime)
            given = given if relation == SAME and self.end != FIRST_X32 else replace(given, stub={})
        return Comparison(self.filters, given, self.table, TURNED.get(relation, relation),
                          architecture=self.architecture.oci, elsewhere=questions.ABI_NAMES)

    def compared(self, profile: dict[str, object], relation: str = SAME) -> Report:
        """scf's report on whether a profile has this relation to the filters, in each architecture that it lists.
        Raises Refusal if scf refuses the filters, the table or the limit."""
        status, report = self.comparison(profile, relation).run_unchecked()
        if report.fault is not None and report.fault.source != "profile":
            raise client.Refusal(report.fault.line, status)
        return report

    def calls(self, profile: dict[str, object], relation: str) -> list[NamedCall]:
        """The syscalls in the table of which this relation isn't proved, of a profile that scf takes."""
        return self.comparison(profile, relation).calls_of(self.architecture.oci)


class Draft:
    """A profile that is nowhere stricter, or nowhere more permissive, than the filters are thought to be."""

    def __init__(self, filters: FilterAnswers, is_permissive: bool):
        self.filters, self.is_permissive = filters, is_permissive
        self.utmost = EVERYTHING if is_permissive else NOTHING
        # how far it is from the filters, by number; None stands for the numbers that the table doesn't name
        self.levels: dict[int | None, int] = {}

    def default(self) -> Answer:
        """The default: of the utmost answers to numbers without a name the one that most numbers get."""
        if self.levels.get(None):
            return self.utmost
        firsts = (self._first(answers) for _, answers in self.filters.numbered(False))
        by_rank = by_key((DISPOSITIONS.index(first.disposition), first) for first in firsts)
        able = by_rank[(max if self.is_permissive else min)(by_rank)] if by_rank else [self.utmost]
        counts = Counter(map(self._first, self.filters.answers))
        return max(able, key=lambda answer: counts[answer])

    def _first(self, answers: Answers) -> Answer:
        """The utmost of a number's answers."""
        return next(iter(self.filters.parts(answers, self.is_permissive)))

    def _alternatives(self, numbers: Iterable[int], answers: Answers, level: int,
                      default: Answer) -> Iterator[tuple[Answer, Alternative]]:
        """The entries for some numbers with these answers."""
        if level == EXACT:
            covers = self.filters.covers_beside(self.filters.parts(answers, self.is_permissive), default)
            if None not in covers.values():
                yield from ((answer, alternative) for answer, alternatives in covers.items()
                            for alternative in alternatives or ())
                return
            self.levels.update(dict.fromkeys(numbers, CONSTANT))
        answer = self.utmost if level == UTMOST else self._first(answers)
        if answer != default:
            yield answer, ()

    def profile(self, others: Sequence[FilterAnswers] = ()) -> dict[str, object]:
        """The profile, which also lists other architectures, with those names that it and the ones before lack."""
        drafts = [self, *(Draft(filters, self.is_permissive) for filters in others)]
        default, known_names = self.default(), set()
        # the names of each entry
        entries: dict[tuple[Answer, Alternative], list[str]] = {}
        for draft in drafts:
            table = draft.filters.table
            # the numbers that get the same entries
            alike: dict[tuple[Answers, int], dict[int, str]] = {}
            for number, answers in draft.filters.numbered(True):
                if known_names.isdisjoint(table.names_of(number)):
                    alike.setdefault((answers, draft.levels.get(number, EXACT)), {})[number] = table.names_of(number)[0]
            for (answers, level), names in alike.items():
                for answer, alternative in draft._alternatives(names, answers, level, default):
                    entries.setdefault((answer, alternative), []).extend(names.values())
            last = table.names_of(draft.filters.end - 1)
            if last and not any(last[0] in names for names in entries.values()):
                # runc's stub begins after the greatest number that a profile names
                entries.setdefault((default, ()), []).append(last[0])
            known_names.update(table.names())
        order = sorted(entries, key=lambda key: (bool(key[1]), -DISPOSITIONS.index(key[0].disposition)))
        listed = [entry_of(sorted(entries[key]), *key) for key in order]
        return {**default.default(), "architectures": [draft.filters.architecture.oci for draft in drafts],
                "syscalls": listed}


RELATION_TEXTS = {NO_LESS: "nowhere stricter", NO_MORE: "nowhere more permissive"}
# How a profile is, or may be, on the other side of the filters.
FARTHER = {NO_LESS: "more permissive", NO_MORE: "stricter"}


@dataclass(frozen=True)
class ProvedProfile:
    """A profile that scf proved to have relations to filters, and the calls not proved to get the same answer."""

    profile: dict[str, Any]
    relations: tuple[str, ...]
    calls: Sequence[NamedCall] = ()

    @property
    def default(self) -> Answer:
        return Answer.of_profile(str(self.profile["defaultAction"]), self.profile.get("defaultErrnoRet"))

    @property
    def reading_remarks(self) -> list[str]:
        """How it must be read, if not by its words."""
        return [] if reading_of(self.profile) == STRICT else [TRAP_DATA_TEXT]


def reading_of(profile: dict[str, object]) -> str:
    """How a profile is read that was drafted: by its words, unless it has TRAP's data."""
    holders = [(profile["defaultAction"], "defaultErrnoRet" in profile),
               *((entry["action"], "errnoRet" in entry) for entry in profile["syscalls"])]
    return SANDBOX if (TRAP, True) in holders else STRICT


def _same(answers: FilterAnswers) -> ProvedProfile | None:
    """The profile that answers as the filters do, and the other architectures that it lists, if scf proves it."""
    draft = Draft(answers, True)
    default = draft.default()
    named, unnamed = ({each for _, each in answers.numbered(are_named)} for are_named in (True, False))
    # (no answer is one that profiles lack, the entries of each syscall are found, and all other numbers get one answer)
    if any(answers.unsaid(each) is not None for each in named | unnamed) or \
            any(answers.parts(each, True) != {default: FULL_SET} for each in unnamed) or \
            not all(answers.has_entries(each, default) for each in named):
        return None
    # of each other architecture, but those of which the filters kill every syscall
    others = []
    for architecture, table in ((JUDGED[name], tables.architecture_table(name)) for name in answers.others):
        ranges = Numbers(answers.regions, architecture).ranges
        are_killed = ranges is not None and all(
            region.answer is not None and region.answer.action.startswith("KILL")
            for _, _, here in ranges for region in here)
        if table is not None and not are_killed:
            others.append(FilterAnswers(answers.filters, answers.regions, table, architecture, answers.runtime,
                                        has_trap_data=answers.has_trap_data, steps=answers.steps))
    while True:
        profile = draft.profile(others)
        report = answers.compared(profile)
        if report.verdict is not None and report.verdict.holds:
            return ProvedProfile(profile, (SAME,))
        failing = None if report.verdict is None or report.verdict.call is None else report.verdict.call.abi
        if not others or failing == answers.architecture.oci:
            return None
        remaining = [each for each in others if each.architecture.oci != failing]
        others = remaining if len(remaining) < len(others) else others[:-1]


def _bound(answers: FilterAnswers, relation: str) -> ProvedProfile | None:
    """The nearest profile that scf proves to be no less, or no more, permissive than the filters."""
    draft = Draft(answers, relation == NO_LESS)
    # in each turn some numbers get a level more
    for _ in range(2 * UTMOST + 1):
        if not client.has_time():
            break
        profile = draft.profile()
        report = answers.compared(profile, relation)
        if report.verdict is not None and report.verdict.holds:
            default = draft.default()
            # whether some syscall in the table may get another answer than by the filters, or isn't looked at
            differs = any(number >= answers.end for number in answers.table.numbers()) or any(
                draft.levels.get(number) or answers.why_not(each, default) for number, each in answers.numbered(True))
            return ProvedProfile(profile, (relation,), answers.calls(profile, SAME) if differs else [])
        failed = {call.number for call in answers.calls(profile, relation)} if report.fault is None else \
            {number for number, number_answers in answers.numbered(True) if len(number_answers) > 1}
        draft.levels.update({number: min(draft.levels.get(number, EXACT) + 1, UTMOST) for number in failed or [None]})
    return None


def _differences(answers: FilterAnswers, proved: ProvedProfile) -> Iterator[str]:
    """How a profile differs from the filters: each syscall by scf's line, and why no profile answers so."""
    yield f"proved: {' and '.join(RELATION_TEXTS[relation] for relation in proved.relations)} than the filters"
    # (of numbers that runc's stub answers nothing is known)
    whys = {number: "scf doesn't prove more" for number in answers.table.numbers()}
    for number, number_answers in answers.numbered(True):
        whys[number] = answers.why_not(number_answers, proved.default) or whys[number]
    farther: list[NamedCall] = []
    if len(proved.relations) == 1:
        relation = proved.relations[0]
        farther = answers.calls(proved.profile, TURNED[relation]) if proved.calls else []
        yield f"syscalls in the table for which the profile is, or may be, {FARTHER[relation]}: {len(farther)}"
    for call in farther:
        yield call.line
        yield f"{call.names[0]}: {whys[call.number]}"
    numbers = {call.number for call in farther}
    alike = by_key((f"only other answers, since {whys[call.number]}" if call.verdict.fails else
                    f"as permissive, but not proved to get the same answers ({call.verdict.word})", call.names[0])
                   for call in proved.calls if call.number not in numbers)
    yield from (f"{how}: {', '.join(names)}" for how, names in alike.items())
    for number, word, arguments in ((number, *part) for number, parts in answers.numbered(False) for part in parts):
        is_known = word is not None and all(variable < FIRST_OPEN for variable in answers.sets.variables(arguments))
        if is_known and Answer.of_word(word) != proved.default:
            yield (f"numbers that the table doesn't name differ, such as {number}: filter {Answer.of_word(word)} "
                   f"profile {proved.default}")
            break


def _covered(answers: FilterAnswers, *proved: ProvedProfile) -> Iterator[str]:
    """The architectures that profiles list, if several, and others whose syscalls aren't all proved to be denied."""
    listed = proved[0].profile["architectures"] if proved else [answers.architecture.oci]
    data = [bpf_filter.data for bpf_filter in answers.filters]
    accesses = [questions.abi_access(data, answers.regions, JUDGED[oci]) for oci in answers.others if oci not in listed]
    others = [f"{access.describe()}; --arch {access.abi.name} prints its profile" for access in accesses
              if not access.are_denied]
    if others or len(listed) > 1:
        who = "the profile covers" if len(proved) == 1 else "the profiles cover"
        yield f"{who} {join_names(architectures.names_of(listed))} syscalls"
    yield from others


@dataclass(frozen=True)
class Result:
    """The tool's status and output, its lines on standard error, and the profiles in the output."""

    status: int
    text: str
    remarks: Sequence[str]
    profiles: Sequence[ProvedProfile] = ()


def _both_sides(answers: FilterAnswers, bounds: Sequence[ProvedProfile]) -> Iterator[str]:
    """The nearest profiles on both sides of the filters, each after lines about it."""
    yield "# no profile was found that scf proves to answer as the filters do"
    if answers.is_unfinished:
        yield f"# {UNFINISHED_TEXT.format(answers.steps.most)}"
    if answers.runtime is None and answers.stub_end != FIRST_X32:
        yield "# if runc loaded the filter, --runtime runc expects the ENOSYS that it adds"
    yield from output.notes(_covered(answers, *bounds))
    yield from output.notes(dict.fromkeys(remark for bound in bounds for remark in bound.reading_remarks))
    for bound in bounds:
        yield from output.notes(_differences(answers, bound))
        yield engines.printed(bound.profile).rstrip("\n")
    for relation in (NO_LESS, NO_MORE):
        if not any(relation in bound.relations for bound in bounds):
            yield f"# no profile was found that is {RELATION_TEXTS[relation]} than the filters"


def of_filters(filters: Sequence[Filter], relation: str, table: tables.Table, architecture: Architecture,
               runtime: str | None, others: Sequence[str], has_trap_data: bool) -> Result:
    """The profile of filters, or the nearest of another relation. Raises Refusal if scf refuses them or the table."""
    data = [bpf_filter.data for bpf_filter in filters]
    filter_regions = regions.regions_of_filters(data)
    Asker(data, architecture).check(table)
    answers = FilterAnswers(filters, filter_regions, table, architecture, runtime, others, has_trap_data)
    try:
        same = _same(answers)
        if same is not None:
            stub = answers.comparison(same.profile).right.stub
            notes = [profile_inputs.stub_note(stub)] if stub else []
            return Result(program.SUCCESS, engines.printed(same.profile),
                          [*same.reading_remarks, *_covered(answers, same), *notes], [same])
        if relation != SAME:
            bound = _bound(answers, relation)
            if bound is None:
                return Result(program.UNKNOWN, "", [
                    f"no profile was found that scf proves to be {RELATION_TEXTS[relation]} than the filters"])
            remarks = [*_differences(answers, bound), *bound.reading_remarks, *_covered(answers, bound)]
            return Result(program.SUCCESS, engines.printed(bound.profile), remarks, [bound])
        bounds = [*filter(None, (_bound(answers, each) for each in (NO_LESS, NO_MORE)))]
        if len(bounds) == 2 and bounds[0].profile == bounds[1].profile:
            # one that is on both sides stands once
            bounds = [replace(bounds[0], relations=(NO_LESS, NO_MORE))]
        lines = list(_both_sides(answers, bounds))
    except TooMany:
        return Result(program.UNKNOWN, "", [UNFINISHED_TEXT.format(answers.steps.most)])
    remarks = [line[2:] for line in lines if line.startswith("# ")]
    return Result(program.UNKNOWN, engines.printed(bounds[0].profile), remarks, bounds) if len(bounds) == 1 else \
        Result(program.UNKNOWN, "".join(f"{line}\n" for line in lines), [], bounds)
