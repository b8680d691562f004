"""A runtime's reading of a profile, made a second time: as a profile that says the same by its words."""
from scftools.model.profiles import OCI_ACTIONS

WITH_ERRNO = ("SCMP_ACT_ERRNO", "SCMP_ACT_TRACE")
KILL_THREAD = ("SCMP_ACT_KILL", "SCMP_ACT_KILL_THREAD")


def _answer(action, number):
    """What libseccomp is given: KILL and KILL_THREAD are one action, and without an errno it is EPERM."""
    assert action in OCI_ACTIONS
    action = KILL_THREAD[1] if action in KILL_THREAD else action
    return action, (1 if number is None else number) if action in WITH_ERRNO else None


def _rules_of(entry, runtime):
    """The conditions of what is handed to libseccomp of an entry, each a list that is to hold as a whole."""
    args = entry.get("args", [])
    args = args[:6] if runtime == "crun" else args
    return [args] if len({arg["index"] for arg in args}) == len(args) else [[arg] for arg in args]


def _compares(condition, bits):
    """Whether libseccomp makes a test of a condition: of a mask without a bit of the argument it makes none."""
    return condition["op"] != "SCMP_CMP_MASKED_EQ" or condition["value"] & (1 << bits) - 1


def by_words(profile, runtime, architecture, bits):
    """The profile of one architecture, whose arguments have so many bits, that says by its words what a runtime makes
    of this one."""
    default = _answer(profile["defaultAction"], profile.get("defaultErrnoRet"))
    rules = [(name, args, _answer(entry["action"], entry.get("errnoRet"))) for entry in profile["syscalls"]
             for args in _rules_of(entry, runtime) for name in entry["names"]]
    rules = [rule for rule in rules if rule[2] != default]
    first = {name: answer for name, args, answer in reversed(rules) if not any(_compares(arg, bits) for arg in args)}
    entries = [{"names": [name], "action": action, **({} if errno is None else {"errnoRet": errno}), "args": args}
               for name, args, (action, errno) in rules if first.get(name, (action, errno)) == (action, errno)]
    errno = {} if default[1] is None else {"defaultErrnoRet": default[1]}
    return {"defaultAction": default[0], **errno, "architectures": [architecture], "syscalls": entries}
