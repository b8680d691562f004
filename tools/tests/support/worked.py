"""Worked filters, profiles and tables beside those of on_parts, and the effort of a comparison, which is worked out by
its formula and not by scf."""
import json
import math

from .on_parts import a_filter
from .stand_in import unpacked

MOST = (1 << 64) - 1
# Answers, as they are printed.
MADE, FAILS, KILLS = "ALLOW 0", "ERRNO 1", "KILL_PROCESS 0"
# Allows all calls but `read`.
WITHOUT_READ = a_filter("ld [0]; jeq #0, 0, 1; ret #0x50001; ret #0x7fff0000")
SOCKET_TABLE = "socket 41\n"
# Allows all calls but `read` and `write`.
ALL_BUT_TWO = ('{"defaultAction":"SCMP_ACT_ALLOW","syscalls":[{"names":["read","write"],'
               '"action":"SCMP_ACT_ERRNO"}]}')
# Allows `socket` where its first argument isn't 40.
SOCKET_NOT_40 = '''{"defaultAction":"SCMP_ACT_ERRNO","syscalls":[{"names":["socket"],"action":"SCMP_ACT_ALLOW",
    "args":[{"index":0,"value":40,"op":"SCMP_CMP_NE"}]}]}'''
# Conditions that hold of no argument of `read`, and of each of `write`.
EXTREMES = '''{"defaultAction":"SCMP_ACT_ERRNO","syscalls":[
    {"names":["read"],"action":"SCMP_ACT_ALLOW","args":[{"index":0,"value":0,"op":"SCMP_CMP_LT"}]},
    {"names":["write"],"action":"SCMP_ACT_ALLOW",
    "args":[{"index":0,"value":18446744073709551615,"op":"SCMP_CMP_LE"}]}]}'''
# The whole configuration of a container, with a name that tables lack and other architectures.
WHOLE_CONFIG = '''{"ociVersion":"1.0.2","linux":{"seccomp":{"defaultAction":"SCMP_ACT_ERRNO","defaultErrnoRet":38,
    "architectures":["SCMP_ARCH_X86_64","SCMP_ARCH_X86","SCMP_ARCH_X32"],"syscalls":[
    {"names":["read","arm_sync_file_range"],"action":"SCMP_ACT_ALLOW","args":null,"comment":"x","includes":{}}]}}}'''
# Two rules of one call that no call meets both, though they answer differently.
SOCKET_RULES = '''{"defaultAction":"SCMP_ACT_ERRNO","syscalls":[
    {"names":["socket"],"action":"SCMP_ACT_ERRNO","errnoRet":22,
    "args":[{"index":0,"value":16,"op":"SCMP_CMP_EQ"},{"index":2,"value":9,"op":"SCMP_CMP_EQ"}]},
    {"names":["socket"],"action":"SCMP_ACT_ALLOW","args":[{"index":2,"value":9,"op":"SCMP_CMP_NE"}]}]}'''


def refusing(*entries):
    """A profile that lets only these entries through, each with its names and conditions."""
    return json.dumps({"defaultAction": "SCMP_ACT_ERRNO", "syscalls": [
        {"names": names, "action": "SCMP_ACT_ALLOW", "args": conditions} for names, conditions in entries]})


def allowing(numbers):
    """A profile that allows these numbers alone, and its table."""
    return (refusing(([f"c{number}" for number in numbers], [])),
            "".join(f"c{number} {number}\n" for number in numbers))


def size_of_paths(data):
    """The size of a filter's tree of paths, from its last place back."""
    sizes = []
    for code, jt, jf, k in reversed(unpacked(data)):
        if code & 7 == 6:
            size = 1
        elif code == 5:
            size = 1 + sizes[-1 - k]
        elif code & 7 == 5:
            size = 1 + sizes[-1 - jt] + sizes[-1 - jf]
        else:
            size = (2 if code == 0x3C else 1) + sizes[-1]
        sizes.append(size)
    return sizes[-1]


def size_of_rules(counts):
    """The size of the tree of some rules, by the counts of their conditions, from the last one back."""
    size = 1
    for count in reversed(counts):
        behind, size = size, 1
        for _ in range(count):
            size = 3 + 2 * size + 2 * behind
    return size


def spread(profile, table):
    """8, and 1 and the size of its rules for each number."""
    numbers = dict(line.split() for line in table.splitlines())
    counts = {}
    for entry in json.loads(profile).get("syscalls", []):
        for name in entry["names"]:
            if name in numbers:
                counts.setdefault(numbers[name], []).append(len(entry.get("args") or []))
    return 8 + sum(1 + size_of_rules(of) for of in counts.values())


def effort(filters, profile, table):
    """The greatest number of steps that a comparison of filters, as their bytes, with a profile takes."""
    return min(math.prod(map(size_of_paths, filters)) * spread(profile, table), MOST)
