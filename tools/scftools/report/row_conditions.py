"""Conditions of a surface's rows: which arguments of a syscall get which answer, where scf proves it."""
from __future__ import annotations

import functools
import json
from collections.abc import Sequence

from ..base.values import dataclass
from ..model import profiles
from ..model.answers import ERRNOS, Answer
from ..model.architectures import Architecture
from ..model.argument_sets import EMPTY_SET, TooMany
from ..ask.answer_sets import Answers
from ..ask.client import Refusal
from ..ask.questions import EVERYTHING, NOTHING, Asker
from ..ask.verdicts import NO_LESS, NO_MORE, SAME
from ..forms.filters import Filter
from .condition_texts import alternatives_text
from .covers import Alternative
from .profile_of import UNFINISHED_TEXT, FilterAnswers, entry_of
from .surfaces import Row, Surface

# The most answers of a syscall of which one is sought that stands for all other arguments; and the most alternatives
# that are printed beside it, if those of dispositions are fewer.
MOST_PARTS, MOST_PRINTED_CONDITIONS = 512, 16
# For each disposition the answer that stands for all of it.
ANSWERS = {answer.disposition: answer for answer in (EVERYTHING, Answer("TRACE", 0), NOTHING)}


@dataclass(frozen=True)
class Conditions:
    """The answers to all calls of an architecture's syscall: one for each of some alternatives, and one for all other
    arguments. If not whole, each stands for all answers of its disposition: no profile gives the filters' own."""

    names: Sequence[str]
    parts: Sequence[tuple[Answer, Sequence[Alternative]]]
    otherwise: Answer
    is_whole: bool
    architecture: Architecture

    def _answer_text(self, answer: Answer) -> str:
        """A disposition, with what else is to be known of an answer."""
        if not self.is_whole or answer.action == "ALLOW":
            return answer.disposition
        is_errno = answer.action == "ERRNO"
        return f"{answer.disposition} ({ERRNOS.get(answer.data, answer) if is_errno else answer})"

    def describe(self) -> str:
        parts = [f"{self._answer_text(answer)} where "
                 f"{alternatives_text(alternatives, self.names[0], self.architecture)}"
                 for answer, alternatives in self.parts]
        return f"{'; '.join(parts)}, else {self._answer_text(self.otherwise)}"

    def _json_of(self, answer: Answer) -> dict[str, object]:
        return {"disposition": answer.disposition, **({"answer": answer.as_json()} if self.is_whole else {})}

    def as_json(self) -> dict[str, object]:
        return {"where": [{**self._json_of(answer),
                           "any_of": [entry_of((), answer, alternative)["args"] for alternative in alternatives]}
                          for answer, alternatives in self.parts], "else": self._json_of(self.otherwise)}


def _fewest(answers: FilterAnswers, parts: dict[Answer, int]) -> tuple[Answer, dict[Answer, Sequence[Alternative]]]:
    """The answer to all other arguments, such that the others take few alternatives, and these; none if too many."""
    best: tuple[Answer, dict[Answer, Sequence[Alternative]]] = NOTHING, {}
    if len(parts) > MOST_PARTS:
        return best
    for otherwise in sorted(parts, key=lambda answer: -answers.sets.weight(parts[answer])):
        covers = answers.covers_beside(parts, otherwise)
        fitting = {answer: alternatives for answer, alternatives in covers.items() if alternatives is not None}
        if len(fitting) + 1 < len(covers):
            # (only one of those that take too many could be all other arguments)
            break
        count, least = (sum(map(len, alternatives.values())) for alternatives in (fitting, best[1]))
        if len(fitting) == len(covers) and (not best[1] or count < least):
            best = otherwise, fitting
        if best[1] and count <= MOST_PRINTED_CONDITIONS:
            break
    return best


def _of_answers(answers: FilterAnswers, number_answers: Answers) -> \
        tuple[Answer, dict[Answer, Sequence[Alternative]], bool] | None:
    """The answer to all other arguments, the alternatives of the others, and whether they are whole, of a number that
    has several answers, or dispositions; None if a profile can't say them."""
    if answers.untested(number_answers) is not None:
        return None
    parts, is_whole = answers.parts(number_answers, True), answers.unsaid(number_answers) is None
    otherwise, others = _fewest(answers, parts) if is_whole else (NOTHING, {})
    if not 0 < sum(map(len, others.values())) <= MOST_PRINTED_CONDITIONS:
        dispositions: dict[Answer, int] = {}
        for answer, arguments in parts.items():
            utmost = ANSWERS[answer.disposition]
            dispositions[utmost] = answers.sets.either(dispositions.get(utmost, EMPTY_SET), arguments)
        of_dispositions = _fewest(answers, dispositions)
        if of_dispositions[1]:
            return *of_dispositions, False
    return (otherwise, others, True) if others else None


def _proved(asker: Asker, drafts: Sequence[tuple[Row, Conditions]]) -> set[int]:
    """The numbers for which scf proves these conditions, which have one answer otherwise; none if they are too many."""
    entries = [entry_of(conditions.names[:1], answer, alternative) for _, conditions in drafts
               for answer, alternatives in conditions.parts for alternative in alternatives]
    table = "".join(f"{conditions.names[0]} {row.number}\n" for row, conditions in drafts).encode()
    profile = {**drafts[0][1].otherwise.default(), "architectures": [asker.architecture.oci], "syscalls": entries}
    data = profiles.read_as(json.dumps(profile).encode(), profiles.SANDBOX)
    try:
        return {row.number for row, _ in drafts}.difference(
            call.number for relation in ((SAME,) if drafts[0][1].is_whole else (NO_MORE, NO_LESS))
            for call in asker.of_calls(data, relation, table).calls)
    except Refusal:
        return set()


def add(surface: Surface) -> list[str]:
    """Adds proved conditions to a surface's rows with several answers; a line if runs weren't followed to an end."""
    asker = surface.asker
    answers = FilterAnswers([Filter("", data) for data in asker.filters], surface.regions, surface.table,
                            asker.architecture, has_trap_data=True)
    unfinished = [f"conditions: {UNFINISHED_TEXT.format(answers.steps.most)}"]
    of_number, found = dict(answers.numbered(True)), functools.lru_cache(None)(functools.partial(_of_answers, answers))
    groups: dict[tuple[Answer, bool], list[tuple[Row, Conditions]]] = {}
    try:
        for row in surface.rows:
            draft = found(of_number[row.number])
            if draft is not None:
                otherwise, others, is_whole = draft
                groups.setdefault((otherwise, is_whole), []).append((row, Conditions(
                    row.names, [*others.items()], otherwise, is_whole, answers.architecture)))
    except TooMany:
        return unfinished
    for drafts in groups.values():
        proved = _proved(asker, drafts)
        for row, conditions in drafts:
            row.conditions = conditions if row.number in proved else None
    return unfinished if answers.is_unfinished else []
