"""What scf says of filters and calls, beside what the running kernel does with them."""
from __future__ import annotations

import json
import os
from collections import Counter
from collections.abc import Sequence
from dataclasses import dataclass, field
from errno import EINVAL, ENOSYS
from typing import Any

import kernel_child
import kernel_profiles
from kernel_child import Kernel, Setting
from kernel_programs import HARMLESS, Calls
from scftools.model import bundles, tables
from scftools.model.answers import I386_NUMBER, MAX_ERRNO, X86_64, Answer
from scftools.model.calls import Call
from scftools.ask import client

# So many programs that scf refuses are handed to one child: none of them leaves anything behind.
TOGETHER = 32
# A case has at most so many filters and calls, and a filter so many bytes, of which the kernel is told the count of
# instructions in 16 bits.
MOST_FILTERS, MOST_CALLS, MOST_BYTES = 8, 24, 8 * 0xFFFF


class Scf:
    """What scf says: its commands."""

    def check(self, data: bytes) -> str:
        return client.run_scf(["check"], data).lines[0]

    def run(self, data: bytes, call: Call) -> str:
        """The answer, without the steps."""
        return client.run_scf(["run", *call.words()], data).lines[0].split(" steps ")[0]

    def decide(self, filters: Sequence[bytes], call: Call) -> str:
        return client.run_scf(["decide", *call.words()], bundles.stack_bundle(filters)).lines[0]

    def compile(self, profile: bytes, table: bytes) -> bytes | str:
        """The filter, or the line that refuses the profile."""
        done = client.run_scf(["compile"], bundles.profile_bundle(
            profile, tables.Tables({tables.NATIVE: tables.Table(table)})))
        return done.lines[0] if done.status else done.out


@dataclass
class Case:
    """Filters and the calls that are made under them; or a profile, whose filter scf compiles."""
    name: str
    filters: list[bytes]
    calls: list[Call] = field(default_factory=list)
    setting: Setting = Setting()
    profile: bytes | None = None

    def keep(self, folder: str, lines: Sequence[str]) -> None:
        """Writes the case and what was said of it into a folder, from which it can be repeated."""
        os.makedirs(folder)
        files = {f"{place}.bpf": data for place, data in enumerate(self.filters)}
        if self.profile is not None:
            files.update({"profile.json": self.profile, "table": kernel_profiles.table_text()})
        case = {"name": self.name, "filters": len(self.filters), "traced": self.setting.traced,
                "listener": self.setting.listener, "profile": self.profile is not None,
                "calls": [line_of(call) for call in self.calls]}
        files["case.json"] = json.dumps(case, indent=1).encode()
        files["said"] = "".join(f"{line}\n" for line in lines).encode("utf-8", "surrogateescape")
        for name, data in files.items():
            with open(os.path.join(folder, name), "wb") as file:
                file.write(data)

    @classmethod
    def read(cls, folder: str) -> Case:
        """The case of a folder; an OSError, or what a wrong text or type raises, where it holds none."""
        def contents(name: str) -> bytes:
            with open(os.path.join(folder, name), "rb") as file:
                return file.read()

        case = json.loads(contents("case.json"))
        calls = calls_of_kept(case)
        filters = [contents(f"{place}.bpf") for place in range(case["filters"])]
        if any(len(data) % 8 or len(data) > MOST_BYTES for data in filters):
            raise ValueError("a filter has no length of one")
        profile = contents("profile.json") if case["profile"] else None
        for call in calls if profile is not None else ():
            # one that the small reading can't read is none
            kernel_profiles.answer_of(profile, call)
        return cls(case["name"], filters, calls, Setting(case["traced"], case["listener"]), profile)


def calls_of_kept(case: dict[str, Any]) -> list[Call]:
    """The calls of a kept case; a ValueError where a member isn't of its type, or not in its range."""
    count, listener, has_profile = case["filters"], case["listener"], case["profile"]

    def refuse_unless(holds: bool, member: str) -> None:
        if not holds:
            raise ValueError(f"its member {member} isn't as it is kept")

    refuse_unless(isinstance(case["name"], str) and case["name"].isprintable(), "name")
    refuse_unless(isinstance(has_profile, bool), "profile")
    counts = range(1) if has_profile else range(1, MOST_FILTERS + 1)
    refuse_unless(is_one_of(count, counts), "filters")
    refuse_unless(isinstance(case["traced"], bool), "traced")
    places = range(0 if case["traced"] else count or 1)
    refuse_unless(listener is None or is_one_of(listener, places), "listener")
    refuse_unless(isinstance(case["calls"], list), "calls")
    calls = [Call.read(line) for line in case["calls"]]
    # without calls it is a program
    refuse_unless(len(calls) in range(0 if count == 1 else 1, MOST_CALLS + 1), "calls")
    calls_made = [call for call in calls if call is not None and is_made(call)]
    refuse_unless(len(calls_made) == len(calls), "calls")
    return calls_made


def is_one_of(value: Any, numbers: range) -> bool:
    return isinstance(value, int) and not isinstance(value, bool) and value in numbers


def is_made(call: Call) -> bool:
    """Whether a child makes this call: at one of its places, and one that does nothing."""
    site = call.pointer - 2
    return (site in kernel_child.SITES and call == kernel_child.call_at(site, call.number, call.arguments)
            and call.number < 1 << 32 and all(argument < 1 << 64 for argument in call.arguments)
            and Calls(True, False).does_nothing(site, call.number))


def line_of(call: Call) -> str:
    return (f"call nr {call.number} arch {call.architecture:#x} ip {call.pointer:#x} args "
            f"{' '.join(map(hex, call.arguments))}")


def is_taken(line: str) -> bool:
    return line.startswith("accepted ")


def kind_of(line: str) -> str:
    """The kind of a fault of the checker."""
    return line.split()[2]


class Asking:
    """Asks scf and the kernel the same, and counts what comes of it."""

    def __init__(self, kernel: Kernel, scf: Scf) -> None:
        self.kernel = kernel
        self.scf = scf
        self.checked: Counter[str] = Counter()
        self.came: Counter[str] = Counter()

    def programs(self, cases: Sequence[Case]) -> list[tuple[Case, list[str]]]:
        """Which programs the kernel takes otherwise than scf, with what was said of each."""
        wrong, refused = [], []
        for case in cases:
            line = self.scf.check(case.filters[0])
            self.checked["accepted" if is_taken(line) else kind_of(line)] += 1
            if is_taken(line):
                wrong += self._installed([(case, line)], 0)
            else:
                refused.append((case, line))
        for begin in range(0, len(refused), TOGETHER):
            wrong += self._installed(refused[begin:begin + TOGETHER], -EINVAL)
        return wrong

    def _installed(self, checked: Sequence[tuple[Case, str]], wanted: int) -> list[tuple[Case, list[str]]]:
        came = self.kernel.ask([case.filters[0] for case, _ in checked], [])
        return [(case, [f"scf check: {line}", f"the kernel: {result_text(answer)}"])
                for (case, line), answer in zip(checked, came.installed) if answer != wanted]

    def calls(self, case: Case) -> list[str]:
        """What comes of the calls otherwise than scf, or the reading of the profile, says; a line each."""
        filters = case.filters
        if case.profile is not None:
            compiled = self.scf.compile(case.profile, kernel_profiles.table_text())
            if isinstance(compiled, str):
                return [f"scf compile: {compiled}"]
            filters = [compiled]
        answers: list[Answer] = []
        for place, call in enumerate(case.calls):
            answer = self._answer(case, filters, call, place)
            if isinstance(answer, str):
                return [line_of(call), f"scf: {answer}"]
            answers.append(answer)
        return self._differences(case, filters, answers)

    def _answer(self, case: Case, filters: Sequence[bytes], call: Call, place: int) -> Answer | str:
        """What is said of a call, or a line that isn't an answer. scf says it of a filter by two commands in turn."""
        if case.profile is not None:
            return kernel_profiles.answer_of(case.profile, call)
        is_run = len(filters) == 1 and place % 2 == 1
        line = self.scf.run(filters[0], call) if is_run else self.scf.decide(filters, call)
        return Answer.read(line) or line

    def _differences(self, case: Case, filters: Sequence[bytes], answers: Sequence[Answer]) -> list[str]:
        done = 0
        wrong: list[str] = []
        while done < len(case.calls) and not wrong:
            came = self.kernel.ask(filters, case.calls[done:], case.setting)
            if not came.texts or any(answer is None or answer < 0 for answer in came.installed):
                return [f"the kernel: {result_text(answer)}" for answer in came.installed]
            for place, text in enumerate(came.texts):
                call, answer = case.calls[done + place], answers[done + place]
                wanted = self._comes(case, filters, call, answer, place, came.process)
                self.came[kind_of_text(text)] += 1
                if text != wanted:
                    wrong += [line_of(call), f"scf: {answer}", f"so that it comes: {wanted}", f"the kernel: {text}"]
            done += len(came.texts)
        return wrong

    def _comes(self, case: Case, filters: Sequence[bytes], call: Call, answer: Answer, place: int, process: int) -> str:
        """What comes back from a call with this answer (seccomp(2)), at this place of a process's list."""
        made = kernel_child.returns(value_of(call, process))
        if answer.action in ("ALLOW", "LOG"):
            return made
        if answer.action == "ERRNO":
            return kernel_child.returns(-min(answer.data, MAX_ERRNO))
        if answer.action == "TRAP":
            return kernel_child.signals(answer.data, call)
        if answer.action == "TRACE":
            unseen = kernel_child.returns(-ENOSYS)
            return kernel_child.tracer_told(answer.data) + made if case.setting.traced else unseen
        if answer.action == "USER_NOTIF":
            if case.setting.listener is None or self._decider(filters, call) != case.setting.listener:
                return kernel_child.returns(-ENOSYS)
            value, error, goes_on = kernel_child.listener_answer(place)
            return kernel_child.listener_told(call) + (made if goes_on else kernel_child.returns(error or value))
        return kernel_child.THREAD_ENDS if answer.action == "KILL_THREAD" else kernel_child.PROCESS_ENDS

    def _decider(self, filters: Sequence[bytes], call: Call) -> int:
        """The place of the filter that decides: of those of least rank the newest."""
        if len(filters) == 1:
            return 0
        ranks = []
        for data in filters:
            answer = Answer.read(self.scf.run(data, call))
            high = answer.word >> 16 if answer else 0
            ranks.append(high - 0x10000 if high >> 15 else high)
        return max(place for place, rank in enumerate(ranks) if rank == min(ranks))


def result_text(answer: int | None) -> str:
    """What the kernel did with a filter."""
    if answer is None:
        return "wasn't asked about the filter"
    return "takes the filter" if answer >= 0 else f"refuses the filter with errno {-answer}"


def kind_of_text(text: str) -> str:
    """What came, without its numbers."""
    for begin, kind in (("the listener", "a listener's event"), ("the tracer", "a tracer's event"),
                        ("SIGSYS", "SIGSYS"), (f"returns -{ENOSYS}", "ENOSYS"), ("returns -", "an errno")):
        if text.startswith(begin):
            return kind
    return "a value" if text.startswith("returns") else text


def value_of(call: Call, process: int) -> int:
    """What a call that does nothing gives where it is made."""
    names = {number: name for name, number in HARMLESS[call.architecture].items()}
    values = {"getpid": process, "gettid": process, "getppid": os.getpid()}
    return values.get(names.get(call.number, ""), -ENOSYS)


@dataclass(frozen=True)
class Abilities:
    """What the running kernel has, as far as it is asked here."""
    i386: bool
    x32: bool
    tracer: bool
    listener: bool
    # other filters stand before those of this tool
    filtered: bool


def abilities(kernel: Kernel) -> Abilities:
    """Finds out what can be asked; refused where no filter can be installed."""
    allow = b"\x06\0\0\0\0\0\xff\x7f"
    came = kernel.ask([allow], [])
    if came.installed != [0]:
        raise kernel_child.Unavailable("the kernel doesn't let this process install filters: "
                                       + os.strerror(-(came.installed[0] or 0)))

    def makes(site: int, number: int) -> bool:
        came = kernel.ask([], [kernel_child.call_at(site, number, ())])
        return came.texts == [kernel_child.returns(came.process)]

    getpid = HARMLESS[X86_64]["getpid"]
    strange = kernel.ask([], [kernel_child.call_at(kernel_child.SITE, 400000, ())]).texts
    trace, notify = (number.to_bytes(4, "little") for number in (0x7FF00001, 0x7FC00000))
    call = kernel_child.call_at(kernel_child.SITE, getpid, ())
    traced = kernel.ask([allow[:4] + trace], [call], Setting(traced=True)).texts
    listened = kernel.ask([allow[:4] + notify], [call], Setting(listener=0)).texts
    return Abilities(makes(kernel_child.GATE, HARMLESS[I386_NUMBER]["getpid"]),
                     makes(kernel_child.SITE, 0x40000000 + getpid),
                     traced != [] and traced[0].startswith("the tracer"),
                     listened != [] and listened[0].startswith("the listener"),
                     has_filters() or strange != [kernel_child.returns(-ENOSYS)]
                     or not makes(kernel_child.SITE, getpid))


def has_filters() -> bool:
    """Whether this process has filters already (proc(5), the field Seccomp)."""
    try:
        with open("/proc/self/status", encoding="ascii", errors="replace") as file:
            modes = [line.split()[1] for line in file if line.startswith("Seccomp:")]
    except OSError:
        return False
    return modes not in ([], ["0"])
