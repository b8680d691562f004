"""firejail's profiles, as far as they state what syscalls its filters deny (firejail-profile(5)); a line may also be an
option of firejail(1), as --seccomp.drop=LIST.

The rules are those of firejail 0.9.72 for x86-64 alone. Its main filter goes by seccomp.keep, else by seccomp.drop,
else by seccomp; the filters of protocol, memory-deny-write-execute and restrict-namespaces are loaded beside it. They
look at the lower half of an argument. The groups are those of the installed firejail. Files that a profile
includes are read from /etc/firejail.
"""
from __future__ import annotations

import functools
import os
import re
from collections.abc import Callable, Iterator

from ...base.values import Pattern, unless_refused
from ...model import constants
from ...model.answers import ALLOW, ENOSYS, Answer
from ...model.architectures import I386
from ...model.bpf import INSTRUCTION, JEQ, JUMP
from ...model.entries import LOW_HALF, Condition
from . import sandbox_rules
from .sandbox_rules import KILL, LOG, ListError, Policy, Rule, UnknownRules, error_at
from .unit_restrictions import (
    EPERM, NAMESPACES, Restriction, SettingError, among, answer_of_errno, masked, with_all, with_any)

ENOTSUP = Answer("ERRNO", 95)
SETTINGS = ("seccomp", "seccomp.drop", "seccomp.keep", "seccomp.block-secondary", "seccomp-error-action", "protocol",
            "memory-deny-write-execute", "restrict-namespaces")
IGNORABLE = (*SETTINGS, "include", "allow-debuggers")
SIGN = Pattern(rb"(?m)^(?:--)?(?:seccomp(?:\.(?:32\.)?(?:drop|keep)|\.32|\.block-secondary)?|protocol|"
               rb"memory-deny-write-execute|restrict-namespaces)(?:[ =][^\n]*)?$|"
               rb"^include [^\n /]+\.(?:inc|local|profile)$")
# Where firejail keeps the files that profiles include and its configuration, and its compiler of filters.
PROFILES, CONFIGURATION = "/etc/firejail", "firejail.config"
COMPILERS = tuple(f"/usr/{path}/firejail/fseccomp" for path in ("lib/x86_64-linux-gnu", "lib", "lib64", "local/lib"))
# The most nested includes, files, and words of a line that `ignore` compares; the compiler's seconds and bytes.
DEEPEST_INCLUDE, MOST_INCLUDED, MOST_IGNORED, COMPILER_SECONDS, MOST_FILTER_BYTES = 16, 64, 8, 10, 1 << 15
# The instructions of its filters before those of syscalls, of which each compares a number.
HEAD_INSTRUCTIONS = 7
# The groups that seccomp.keep allows in any case, and that are denied without a list.
ALWAYS_ALLOWED, DENIED_GROUP, DENIED_WITHOUT_DEBUGGERS = "@default-keep", "@default", "@default-nodebuggers"
FAMILIES = {"unix": "AF_UNIX", "inet": "AF_INET", "inet6": "AF_INET6",
            "netlink": "AF_NETLINK", "packet": "AF_PACKET", "bluetooth": "AF_BLUETOOTH"}
# The bits of the lower half of an argument.
BITS = range(32)
# Actions, the strictest first (seccomp(2)).
ORDER = ("KILL_THREAD", "ERRNO", "LOG", "ALLOW")


def _contents(path: str, most: int) -> bytes:
    with open(path, "rb") as file:
        data = file.read(most + 1)
    if len(data) > most:
        raise ListError(f"'{path}' has more than {most} bytes")
    return data


def _compiled(*words: str) -> tuple[int, bytes]:
    """The status of the installed firejail's compiler, and what it prints."""
    import subprocess  # pylint: disable=import-outside-toplevel

    compiler = next((path for path in COMPILERS if os.access(path, os.X_OK)), None)
    if compiler is None:
        raise UnknownRules("it names a group of firejail, which isn't installed")
    try:
        done = subprocess.run([compiler, *words], stdin=subprocess.DEVNULL, check=False, stdout=subprocess.PIPE,
                              stderr=subprocess.DEVNULL, timeout=COMPILER_SECONDS)
    except (OSError, subprocess.TimeoutExpired) as error:
        raise UnknownRules(f"'{compiler}' can't be run") from error
    return done.returncode, done.stdout


def table_names() -> frozenset[str] | None:
    """The names that the installed firejail knows, None where there is none."""
    try:
        return frozenset(line.rpartition("- ")[2] for line in _compiled("debug-syscalls")[1].decode().splitlines())
    except UnknownRules:
        return None


def group_numbers(group: str) -> list[int]:
    """A group's syscalls: the installed firejail compiles a filter that denies them, and one for those it needs."""
    import tempfile  # pylint: disable=import-outside-toplevel

    with tempfile.TemporaryDirectory() as folder:
        paths = [os.path.join(folder, name) for name in ("first", "second")]
        status, _ = _compiled("drop", *paths, group)
        filters = [_contents(path, MOST_FILTER_BYTES) for path in paths if os.path.exists(path)]
    if status:
        raise ListError(f"'{group}' isn't a group of the installed firejail")
    instructions = [each for data in filters for each in [*INSTRUCTION.iter_unpack(data)][HEAD_INSTRUCTIONS:]]
    return list(dict.fromkeys(k for code, _, _, k in instructions if code == JUMP | JEQ))


class ProfileReader:
    """What a profile and its includes state, each setting with its line; lists, by the names that firejail knows."""

    def __init__(self, ask: Callable[[str], list[int]] = group_numbers):
        self.settings: dict[str, tuple[str, int]] = {}
        self.allows_debuggers = False
        self.remarks: list[str] = []
        # what lines are ignored, and how many files were included
        self._ignored: set[str] = set()
        self._included = 0
        # the numbers of a group, which are asked for once, and the names, None if they aren't known
        self._numbers_of, self.known = functools.lru_cache(None)(ask), table_names()

    def _contents_of(self, name: str, at: int) -> bytes:
        """The contents of a file that a profile includes; nothing of one that isn't there, as firejail goes on then."""
        self._included += 1
        if self._included > MOST_INCLUDED:
            raise ListError(f"it includes more than {MOST_INCLUDED} files")
        name = name.replace("${CFG}/", "").removeprefix(f"{PROFILES}/")
        if not re.fullmatch(r"[A-Za-z0-9_+-][A-Za-z0-9_.+-]{0,200}", name):
            raise error_at(at, f"only files of {PROFILES} are included, not '{name}'")
        try:
            return _contents(os.path.join(PROFILES, name), sandbox_rules.MOST_LIST_BYTES)
        except FileNotFoundError:
            if not name.endswith(".local"):
                self.remarks.append(f"line {at}: {PROFILES} has no {name}")
            return b""
        except OSError as error:
            raise error_at(at, f"'{name}' can't be read: {error.strerror}") from error

    def read(self, data: bytes, outer: int | None = None, depth: int = 0) -> None:
        """Reads the lines of a file, which the line `outer` of the profile includes."""
        if depth > DEEPEST_INCLUDE:
            raise ListError("files include each other too deep")
        for number, line in sandbox_rules.lines_of(data):
            at = number if outer is None else outer
            name, _, value = re.sub(r"\s+", " ", line.strip()).removeprefix("--").replace("=", " ", 1).partition(" ")
            if not name or name.startswith("#"):
                continue
            if name.startswith("?") and any(word in value for word in ("seccomp", "protocol")):
                raise error_at(at, "whether its condition holds isn't known", UnknownRules)
            # (a line is ignored whose first words are those behind `ignore`)
            words = f"{name} {value}".split()[:MOST_IGNORED] if name in IGNORABLE else ()
            if any(" ".join(words[:count]) in self._ignored for count in range(1, len(words) + 1)):
                continue
            if name == "include":
                self.read(self._contents_of(value, at), at, depth + 1)
            elif name == "ignore":
                self._ignored.add(value)
            elif name == "allow-debuggers":
                self.allows_debuggers = True
            elif name in SETTINGS:
                self.settings[name] = value, at
            elif name.startswith("seccomp.32"):
                self.remarks.append(f"line {at}: {name} is for i386, which the profile leaves out")
            elif name.startswith("seccomp"):
                raise error_at(at, f"'{name}' isn't a setting of firejail 0.9.72")

    def _names_of(self, word: str, at: int) -> list[str]:
        """The names of a word: a group's, a number's behind `$`, or its own; none that firejail's table lacks."""
        if not re.fullmatch(r"@[a-z-]{1,64}|\$[0-9]{1,9}|\w{1,64}", word, re.A):
            raise error_at(at, f"'{word}' isn't a syscall")
        if word[0] not in "@$":
            return [word] if self.known is None or word in self.known else []
        numbers = self._numbers_of(word) if word[0] == "@" else [int(word[1:])]
        return [sandbox_rules.name_of(number, at) for number in numbers]

    def _answers_in(self, text: str, at: int, plain: Answer, negated: Answer) -> dict[str, Answer]:
        """The answers of a list: of a name behind `!`, or with an errno, before those of other names."""
        exceptions: dict[str, Answer] = {}
        others: dict[str, Answer] = {}
        for word in filter(None, text.split(",")):
            name, colon, action = word.removeprefix("!").partition(":")
            if word.startswith("@") and colon:
                raise error_at(at, f"firejail refuses an error action behind a group, as in '{word}'")
            if action == "log" or word.startswith("!@"):
                self.remarks.append(f"line {at}: firejail leaves {word} out")
                continue
            answer = _answer_of(action, at) if colon else negated if word.startswith("!") else plain
            names, named = exceptions if colon or word.startswith("!") else others, self._names_of(name, at)
            if not named:
                self.remarks.append(f"line {at}: firejail leaves {word} out, since its table lacks it")
            for called in named:
                names.setdefault(called, answer)
        return {**others, **exceptions}

    def main_list(self, answer: Answer) -> tuple[Answer, dict[str, Answer], int]:
        """The default of the main filter, its answers by names, and the line that they stand on."""
        of = self.settings
        if "seccomp.keep" in of:
            text, at = of["seccomp.keep"]
            always = dict.fromkeys(self._names_of(ALWAYS_ALLOWED, at), ALLOW)
            return answer, {**always, **self._answers_in(text, at, ALLOW, answer)}, at
        if "seccomp.drop" in of:
            text, at = of["seccomp.drop"]
        else:
            text, at = of.get("seccomp") or of.get("seccomp.block-secondary") or ("", 0)
            group = DENIED_GROUP if self.allows_debuggers else DENIED_WITHOUT_DEBUGGERS
            text = f"{group},{text}" if "seccomp" in of else group if at else ""
        return ALLOW, self._answers_in(text, at, answer, ALLOW), at


def _answer_of(text: str, at: int) -> Answer:
    try:
        return {"kill": KILL, "log": LOG}.get(text.lower()) or answer_of_errno(text)
    except SettingError as why:
        raise error_at(at, str(why)) from why


def _families(text: str, at: int) -> Restriction:
    """Denies a socket whose family isn't one of a list: one with another value below 64, or a higher bit."""
    values = []
    for word in text.split(","):
        if word not in FAMILIES:
            raise error_at(at, f"'{word}' isn't a protocol of firejail")
        values.append(constants.numbers()[FAMILIES[word]])
    others = [masked(0, LOW_HALF, value) for value in range(1 << 6) if value not in values]
    return Restriction(ENOTSUP, [*others, *(masked(0, 1 << bit, 1 << bit) for bit in BITS[6:])],
                       [masked(0, LOW_HALF, value) for value in sorted(values)])


def _namespaces(text: str, at: int, answer: Answer) -> dict[str, Restriction]:
    """Denies making or joining some namespaces, or any."""
    words = text.split(",") if text else list(NAMESPACES)
    if not set(words) <= NAMESPACES.keys():
        raise error_at(at, f"'{text}' aren't namespaces")
    flags, no_flag = sorted({constants.numbers()[NAMESPACES[word]] for word in words}), masked(1, LOW_HALF, 0)
    of_clone = [flag for flag in flags if flag != constants.numbers()["CLONE_NEWTIME"]]
    entered = [masked(1, sum(flags) | 1 << bit, 1 << bit) for bit in BITS if 1 << bit not in flags]
    return {"clone": with_any(0, of_clone, answer), "clone3": Restriction(ENOSYS),
            "unshare": with_any(0, flags, answer),
            "setns": Restriction(answer, [*with_any(1, flags).denied, no_flag], entered)}


def _personality(answer: Answer) -> dict[str, Restriction]:
    """Denies another personality than 0 and 0xffffffff, which asks for the present one: of the lower half some bit is
    set and the next one isn't, or it has more bits."""
    mixed = [masked(0, 1 << bit | 1 << (bit + 1) % len(BITS), 1 << bit) for bit in BITS]
    denied = [*mixed, (Condition(0, "SCMP_CMP_GT", LOW_HALF, 0),)]
    return {"personality": Restriction(answer, denied, among(0, (0, LOW_HALF)))}


def _memory(answer: Answer) -> dict[str, Restriction]:
    """Denies memory that is to be written and executed."""
    write, execute, attach = (constants.numbers()[name] for name in ("PROT_WRITE", "PROT_EXEC", "SHM_EXEC"))
    return {"mmap": with_all(2, (write, execute), answer),
            **dict.fromkeys(("mprotect", "pkey_mprotect"), with_any(2, [execute], answer)),
            "shmat": with_any(2, [attach], answer), "memfd_create": Restriction(answer)}


def _rules_of(name: str, main: tuple[Answer, int], restricted: tuple[Restriction, int] | None) -> Iterator[Rule]:
    """The rules of a syscall that one or two filters answer: the stricter answer counts, and of two errnos that of the
    newer filter, which is the one of protocol, else the main one."""
    (answer, at), (restriction, restricted_at) = main, restricted or (None, 0)
    denies = restriction is not None and (ORDER.index(restriction.answer.action) < ORDER.index(answer.action) or
                                          restriction.answer.action == answer.action and name == "socket")
    if not denies:
        yield Rule(name, answer, (), at)
        return
    yield from (Rule(name, restriction.answer, conditions, restricted_at) for conditions in restriction.denied)
    yield from (Rule(name, answer, conditions, at or restricted_at) for conditions in restriction.allowed)


def _global_action() -> str:
    """The error action of the machine's configuration. Raises UnknownRules if that changes the filters otherwise."""
    action = "EPERM"
    path = os.path.join(PROFILES, CONFIGURATION)
    data = unless_refused(b"", _contents, path, sandbox_rules.MOST_LIST_BYTES)
    for line in data.decode("utf-8", "replace").split("\n"):
        name, _, value = line.strip().partition(" ")
        if name == "seccomp-error-action":
            action = value.strip()
        elif name == "seccomp-filter-add" or name == "seccomp" and value.strip() == "no":
            raise UnknownRules(f"{CONFIGURATION} has {name}, which changes the filters")
    return action


def read_firejail_profile(data: bytes, ask: Callable[[str], list[int]] = group_numbers) -> Policy:
    reader = ProfileReader(ask)
    reader.read(data)
    of = reader.settings
    if not of.keys() - {"seccomp-error-action"}:
        raise ListError("it has no setting of seccomp that counts")
    text, at = of.get("seccomp-error-action") or (_global_action(), 0)
    answer = _answer_of(text, at)
    default, answers, line = reader.main_list(answer)
    # what the filters beside the main one deny
    readers: dict[str, Callable[[str, int], dict[str, Restriction]]] = {
        "protocol": lambda text, at: {"socket": _families(text, at)},
        "memory-deny-write-execute": lambda _, __: _memory(answer),
        "restrict-namespaces": lambda text, at: _namespaces(text, at, answer),
        # (beside these lists firejail takes the filter that it was built with)
        "seccomp.block-secondary": lambda _, __: _personality(
            EPERM if {"seccomp.drop", "seccomp.keep"} & of.keys() else answer)}
    restrictions = {name: (restriction, of[setting][1]) for setting, restrictions_of in readers.items()
                    if setting in of for name, restriction in restrictions_of(*of[setting]).items()}
    policy = Policy(default, remarks=list(dict.fromkeys(reader.remarks)),
                    not_compared=() if "seccomp.block-secondary" in of else (I386,))
    policy.add_known(rule for name in dict.fromkeys([*answers, *restrictions])
                     for rule in _rules_of(name, (answers.get(name, default), line), restrictions.get(name)))
    if reader.known is None:
        policy.remarks.append("firejail isn't installed: names that its table lacks may be left in")
    policy.remarks.append("the profile is for x86-64 alone, and kills i386 and x32 syscalls, which firejail answers "
                          "otherwise")
    return policy
