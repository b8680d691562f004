"""Profiles drawn at random in which a runtime's reading matters: entries that repeat, overlap or answer as the default
does, two conditions on one argument, errnos beside any action, names that nobody knows, and several architectures."""
import random

from scftools.model import tables

ALLOW, ERRNO = "SCMP_ACT_ALLOW", "SCMP_ACT_ERRNO"
X86_64, X86, X32 = "SCMP_ARCH_X86_64", "SCMP_ARCH_X86", "SCMP_ARCH_X32"
# What a container's program doesn't need, and so may be denied: also what socketcall and ipc make, i386's alone, and
# names that no kernel has.
DENIABLE = ("mkdir", "rmdir", "chroot", "swapon", "acct", "personality", "socket", "bind", "semget", "shmat",
            "socketcall", "ipc", "chown32", "memfd_secret", "futex_waitv", "cachestat", "no_such_call",
            "no_call_either")
ACTIONS = ((ALLOW, None), (ALLOW, None), (ALLOW, None), (ERRNO, None), (ERRNO, 1), (ERRNO, 2), (ERRNO, 38),
           (ERRNO, 65537), ("SCMP_ACT_TRAP", None), ("SCMP_ACT_LOG", None), ("SCMP_ACT_KILL", None),
           ("SCMP_ACT_KILL_THREAD", None), ("SCMP_ACT_KILL_PROCESS", None), ("SCMP_ACT_TRACE", 7))
DEFAULTS = ((ERRNO, None), (ERRNO, None), (ERRNO, 1), (ERRNO, 38), ("SCMP_ACT_TRAP", None), ("SCMP_ACT_KILL", None),
            ("SCMP_ACT_KILL_PROCESS", None), ("SCMP_ACT_LOG", None), (ALLOW, None))
ARCHITECTURES = ([X86_64], [X86_64], [X86_64, X86], [X86_64, X86, X32], [X86, X86_64], [X86], [X32, X86_64], [],
                 [X86_64, "SCMP_ARCH_AARCH64"], [X86_64, "SCMP_ARCH_AARCH64", "SCMP_ARCH_ARM"],
                 [X86_64, X86, "SCMP_ARCH_PPC64LE"])
ORDERS, EQUALITIES = ("NE", "LT", "LE", "GE", "GT"), ("EQ", "EQ", "EQ", "MASKED_EQ")
# Values of 32 bits and wider ones. libseccomp cuts these to 32 bits on i386, x32 and arm, and takes two orders of one
# argument for another thing if one is with a wide value: so such a value is in an equality, on 64 bits alone.
VALUES, WIDE = (0, 1, 2, 3, 16, 40, 0xFFFF, 1 << 31, (1 << 32) - 1), (1 << 32, (1 << 32) + 2, (1 << 64) - 1)
OF_64_BITS = (X86_64, "SCMP_ARCH_AARCH64", "SCMP_ARCH_PPC64LE")


def _condition(drawn, index, is_wide):
    op = drawn.choice((*ORDERS, *EQUALITIES))
    value, two = drawn.choice(VALUES), drawn.choice((0, 0, 1, 2, 16))
    if is_wide and op in EQUALITIES and drawn.random() < 0.3:
        value, two = drawn.choice(WIDE), drawn.choice((0, 1 << 32))
    return {"index": index, "op": f"SCMP_CMP_{op}", "value": value, "valueTwo": two}


def _entry(drawn, names, is_wide):
    action, errno = drawn.choice(ACTIONS)
    entry = {"names": drawn.sample(names, drawn.choice((1, 1, 2, 3))), "action": action}
    if drawn.random() < 0.03:
        errno = 5
    if errno is not None:
        entry["errnoRet"] = errno
    indices = [drawn.randrange(drawn.choice((2, 6))) for _ in range(drawn.choice((0, 0, 0, 1, 1, 1, 2, 2, 3)))]
    if drawn.random() < 0.03:
        indices = [drawn.randrange(3) for _ in range(8)]
    if indices:
        entry["args"] = [_condition(drawn, index, is_wide) for index in indices]
    return entry


def drawn_profile(index):
    """The profile with this index, always the same one."""
    drawn = random.Random(f"scf {index}")
    # few names, so that entries meet
    names = drawn.sample(DENIABLE, drawn.choice((2, 3, 6, len(DENIABLE))))
    default, errno = drawn.choice(DEFAULTS)
    architectures = drawn.choice(ARCHITECTURES)
    is_wide = all(name in OF_64_BITS for name in architectures)
    # without an entry that is always handed over, libseccomp 2.5.4 may make a filter that never loads the number
    denied = {"names": ["swapoff"], "action": ERRNO, "errnoRet": 95}
    allowed = sorted(set(tables.read_table(None).names()) - {*DENIABLE, "swapoff"})
    needed = {"names": allowed, "action": ALLOW}
    entries = [denied, needed, *(_entry(drawn, names if len(names) > 3 else [*names, "mkdirat"], is_wide)
                                 for _ in range(drawn.randrange(1, 6)))]
    profile = {"defaultAction": default, "architectures": architectures, "syscalls": entries}
    return profile if errno is None else {**profile, "defaultErrnoRet": errno}
