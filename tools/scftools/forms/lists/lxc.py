"""LXC's policies, the files that lxc.seccomp.profile names (lxc.container.conf(5)), of version 1 and 2.

They are read as LXC 5 reads them (src/lxc/seccomp.c): blanks alone separate words, an action is known by its first
letters, and a section such as [x86] of an architecture that the machine runs is one for all of them. A rule counts on
each of x86-64, i386 and x32 of which libseccomp has a number for its name.
"""
from __future__ import annotations

import re
from collections.abc import Iterator

from ...base.values import Pattern
from ...model import tables
from ...model.answers import ALLOW, MAX_ERRNO, Answer
from ...model.architectures import I386, JUDGED, NATIVE, X32
from ...model.entries import GREATEST_VALUE, Condition
from . import sandbox_rules
from .sandbox_rules import KILL, Policy, Rule, error_at

SIGN = Pattern(rb"\A\s*[12](?![0-9])[^\n]*\n(?:allow|white|deny|black)list")
# The sections of an x86-64 machine's architectures, and those that LXC knows of other machines.
OURS = ("x86", "x32", "x86_64", "all")
OTHERS = ("arm", "arm64", "loongarch64", "riscv64", "ppc", "ppc64", "ppc64le", "mips", "mips64", "mips64n32", "mipsel",
          "mipsel64", "mipsel64n32", "s390x")
LXC_OPERATORS = {"!=": "NE", "<": "LT", "<=": "LE", "==": "EQ", ">=": "GE", ">": "GT", "&=": "MASKED_EQ"}
CONDITION = Pattern(r"[^\[]*\[\s*([+-]?[0-9][0-9a-fA-FxX]*),([^,]{1,23}),([^0-9^,]{1,30})(?:,([^,]{1,23}))?")
LXC_ACTIONS = {"kill": KILL, "allow": ALLOW, "trap": Answer("TRAP", 0), "notify": Answer("USER_NOTIF", 0)}
# What reject_force_umount stands for: umount2 with MNT_FORCE (sys/mount.h) fails with EACCES.
FORCE_UMOUNT, EACCES, MNT_FORCE = "reject_force_umount", Answer("ERRNO", 13), 1


def _number(text: str, at: int) -> int:
    """A number as strtoull(3) reads it."""
    text = text.strip()
    match = re.fullmatch(r"\+?(0[xX][0-9a-fA-F]{1,16}|0[0-7]{0,22}|[1-9][0-9]{0,19})", text)
    value = int(re.sub("^0(?=[0-7])", "0o", match[1]), 0) if match else GREATEST_VALUE + 1
    if value > GREATEST_VALUE:
        raise error_at(at, f"'{text}' isn't a number")
    return value


def _action(text: str, at: int) -> Answer:
    text = text.lstrip(" ")
    if text.startswith("errno"):
        match = re.match(r"\s*\+?([0-9]{1,9})", text[5:])
        # (libseccomp has `< MAX_ERRNO`)
        if match is None or int(match[1]) >= MAX_ERRNO:
            raise error_at(at, f"'{text}' isn't an errno up to {MAX_ERRNO - 1}")
        return Answer("ERRNO", int(match[1]))
    answer = next((answer for word, answer in LXC_ACTIONS.items() if text.startswith(word)), None)
    if answer is None:
        raise error_at(at, f"'{text}' isn't an action of LXC")
    return answer


def _conditions(line: str, at: int) -> tuple[Condition, ...]:
    conditions = []
    for text in [piece for piece in line.split("]") if piece][:6] if "[" in line else ():
        match = CONDITION.match(text)
        index = _number(match[1], at) if match else 6
        operator = LXC_OPERATORS.get(match[3], match[3].removeprefix("SCMP_CMP_")) if match else ""
        if index >= 6 or operator not in LXC_OPERATORS.values():
            raise error_at(at, f"'{text.strip()}]' isn't a condition")
        value, mask = _number(match[2], at), _number(match[4] or "0", at)
        # of a mask LXC's `value` is what the masked argument is compared with
        first, second = (mask, value) if operator == "MASKED_EQ" else (value, 0)
        conditions.append(Condition(index, f"SCMP_CMP_{operator}", first, second))
    if len({condition.index for condition in conditions}) < len(conditions):
        raise error_at(at, "libseccomp refuses two conditions on one argument")
    return tuple(conditions)


def _rules(lines: list[tuple[int, str]], default: Answer, policy: Policy) -> Iterator[tuple[Rule, str]]:
    """The rules of version 2, each with its section, as [x86], empty for all; one without an action has the default."""
    section, is_ours = "", True
    for at, line in lines:
        if line.startswith("#") or not line:
            continue
        if line.startswith("["):
            name = line.strip("[]").lower()
            if not re.fullmatch(r"\[\w+\]", line) or name not in (*OURS, *OTHERS):
                raise error_at(at, f"'{line}' isn't an architecture of LXC")
            section, is_ours = ("" if name == "all" else line), name in OURS
            if not is_ours:
                policy.remarks.append(f"line {at}: the rules of {line} are for other machines, and left out")
            continue
        if not is_ours:
            continue
        name, _, action = line.partition(" ")
        action = action.lstrip(" ")
        answer = default if not action or action.startswith("#") else _action(action, at)
        if not name:
            continue
        rule = Rule(name, answer, _conditions(line, at), at)
        if name.startswith(FORCE_UMOUNT):
            rule = Rule("umount2", EACCES, (Condition(1, "SCMP_CMP_MASKED_EQ", MNT_FORCE, MNT_FORCE),), at)
        yield rule, section


def _add(policy: Policy, rules: list[tuple[Rule, str]]) -> None:
    """Adds the rules, and the architectures on which all of them count, or that have none of their names."""
    number_of, without = sandbox_rules.knows(), {I386: [], X32: []}
    for rule, section in rules:
        if number_of(rule.name, NATIVE) is None:
            continue
        if rule.answer == policy.default:
            raise error_at(rule.line, f"LXC refuses a rule with the default's answer, {rule.answer}")
        for oci, names in without.items():
            table, number = tables.architecture_table(oci), number_of(rule.name, oci)
            if number is None or number < 0 and table is not None and table.number_of(rule.name) is not None:
                names.append(rule.name)
        if section and section.lower() != "[x86_64]":
            policy.remarks.append(f"line {rule.line}: LXC applies the rules of {section} to x86-64, too")
    policy.add_known(rule for rule, _ in rules)
    policy.architectures = [NATIVE, *(oci for oci, names in without.items() if not names)]
    for oci, names in without.items():
        if names:
            rules_there = [rule for rule in policy.rules if rule.name not in names]
            policy.others.append(Policy(policy.default, rules_there, [oci]))
            policy.remarks.append(f"the profile leaves {JUDGED[oci].name} out: LXC makes no rule of {names[0]} there")


def read_lxc_policy(data: bytes) -> Policy:
    (_, version), (_, head), *lines = sandbox_rules.lines_of(data)
    if lines and not lines[-1][1]:
        # behind the last newline
        lines.pop()
    if version.strip() not in ("1", "2"):
        raise error_at(1, "it isn't a version that LXC reads")
    is_denylist = head.startswith(("denylist", "blacklist"))
    if version.strip() == "1":
        if is_denylist:
            raise error_at(2, "version 1 has allowlists alone")
        policy = Policy(KILL)
        # a number of x86-64 in each line
        for at, line in lines:
            match = re.match(r"\s*\+?([0-9]{1,9})", line)
            if match is None:
                raise error_at(at, "it isn't a syscall number")
            policy.add(Rule(sandbox_rules.name_of(match[1], at), ALLOW, (), at))
        return policy
    _, blank, action = head.partition(" ")
    policy = Policy(_action(action, 2) if blank else ALLOW if is_denylist else KILL)
    _add(policy, list(_rules(lines, KILL if is_denylist else ALLOW, policy)))
    return policy
