"""The lists of system calls of snaps (/var/lib/snapd/seccomp/bpf/*.src), as snap-seccomp compiles them.

The rules are those of snapd 2.57 (cmd/snap-seccomp/main.go): a line is a syscall that is allowed, with a word for each
argument: `-` for any value, a number or a name of one behind one of the operators below, `|` for bits that are all set,
`u:` and `g:` for the ID of a user and of a group of this machine. All else fails with EPERM; @complain logs it, and
@unrestricted allows everything.
"""
from __future__ import annotations

import grp
import pwd
import re

from ...base.values import Pattern
from ...model import constants
from ...model.answers import ALLOW
from ...model.architectures import I386, NATIVE
from ...model.entries import LOW_HALF, Condition
from . import sandbox_rules
from .sandbox_rules import LOG, ListError, Policy, Rule, UnknownRules, error_at
from .unit_restrictions import EPERM

# How snapd begins such a file; and the directives, each a line of its own, one of which may begin one too.
SIGN = Pattern(rb"\A\s*(?:#[^\n]*\n\s*)*?(?:# snap-seccomp version information:\n|@(?:unrestricted|complain)\s)")
UNRESTRICTED, COMPLAIN = "@unrestricted", "@complain"
# The operators, the longest first.
SNAP_OPERATORS = {">=": "GE", "<=": "LE", "!": "NE", "<": "LT", ">": "GT", "|": "MASKED_EQ", "": "EQ"}
# The syscalls of which snap-seccomp compares the lower half of an argument, which may be negative.
WITH_NEGATIVE = frozenset(
    "chown chown32 fchown fchown32 fchownat lchown lchown32 setgid setgid32 setregid setregid32 setresgid setresgid32 "
    "setreuid setreuid32 setresuid setresuid32 setuid setuid32 copy_file_range".split())
MOST_ARGUMENTS = 6
# Names of snap-seccomp that tables/arguments.symbols lacks: linux/quota.h, linux/dqblk_xfs.h, linux/ptrace.h.
SNAP_CONSTANTS = {"Q_SYNC": 0x800001, "Q_QUOTAON": 0x800002, "Q_QUOTAOFF": 0x800003, "Q_GETFMT": 0x800004,
                  "Q_GETINFO": 0x800005, "Q_SETINFO": 0x800006, "Q_GETQUOTA": 0x800007, "Q_SETQUOTA": 0x800008,
                  "Q_XQUOTAON": 0x5801, "Q_XQUOTAOFF": 0x5802, "Q_XGETQUOTA": 0x5803, "Q_XSETQLIM": 0x5804,
                  "Q_XGETQSTAT": 0x5805, "Q_XQUOTARM": 0x5806, "PTRACE_PEEKUSER": 3, "AF_CONN": 123}


def _identifier(word: str, at: int) -> int:
    """The ID of a user or a group, behind `u:` or `g:`."""
    try:
        return pwd.getpwnam(word[2:]).pw_uid if word.startswith("u:") else grp.getgrnam(word[2:]).gr_gid
    except (KeyError, ValueError) as error:
        raise error_at(at, f"this machine has no {'user' if word.startswith('u:') else 'group'} "
                           f"'{word[2:]}'", UnknownRules) from error


def _number(word: str, name: str, at: int) -> int:
    """The number of an argument's word without its operator."""
    named = SNAP_CONSTANTS.get(word, constants.numbers().get("AF_" + word[3:] if word.startswith("PF_") else word))
    if named is not None:
        return named
    if re.fullmatch("-?[0-9]{1,10}", word):
        value = int(word)
        if 0 <= value <= LOW_HALF and word[0] != "-":
            return value
        if name in WITH_NEGATIVE and -1 << 31 <= value < 1 << 31:
            return value & LOW_HALF
    raise error_at(at, f"'{word}' isn't a number that snap-seccomp takes of {name}, or none is known of it")


def _condition(word: str, index: int, name: str, at: int) -> Condition:
    operator = next(operator for operator in SNAP_OPERATORS if word.startswith(operator))
    value = _identifier(word, at) if word.startswith(("u:", "g:")) else _number(word[len(operator):], name, at)
    if name in WITH_NEGATIVE:
        if operator:
            raise error_at(at, f"snap-seccomp compares the arguments of {name} only for a value")
        return Condition(index, "SCMP_CMP_MASKED_EQ", LOW_HALF, value)
    return Condition(index, f"SCMP_CMP_{SNAP_OPERATORS[operator]}", value, value if operator == "|" else 0)


def read_snap_template(data: bytes) -> Policy:
    lines, number_of, rules = list(sandbox_rules.lines_of(data)), sandbox_rules.knows(), []
    for at, line in lines:
        if line.startswith("#") or not line.strip():
            continue
        name, *arguments = line.split()
        if name.startswith("@"):
            if line.strip() not in (UNRESTRICTED, COMPLAIN):
                raise error_at(at, f"'{name}' isn't a directive of snap-seccomp")
            continue
        if name.startswith("~"):
            raise error_at(at, f"'{name}' is denied, which newer snapds do by a second filter: no profile states both")
        if len(arguments) > MOST_ARGUMENTS:
            raise error_at(at, f"it has more than {MOST_ARGUMENTS} arguments")
        if number_of(name, NATIVE) is None:
            # its arguments aren't looked at
            arguments = []
        conditions = tuple(_condition(word, index, name, at) for index, word in enumerate(arguments) if word != "-")
        rules.append(Rule(name, ALLOW, conditions, at))
    directives = {line.strip() for _, line in lines}
    if UNRESTRICTED in directives:
        return Policy(ALLOW, remarks=["it is unrestricted: snap-confine loads no filter"])
    policy = Policy(LOG if COMPLAIN in directives else EPERM, architectures=(NATIVE, I386), is_multiplexed=True)
    policy.add_known(rules)
    if not policy.rules:
        raise ListError("it allows no syscall")
    return policy
