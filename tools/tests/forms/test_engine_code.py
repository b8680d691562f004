"""The tools' reading of profiles beside the engines' own code in Go."""
import json
import os
import random

from support import engine_code
from support.common import Case
from support.oci import ALLOW, ERRNO
from scftools.model import profiles
from scftools.forms import engines

# Each member of a profile by a text in which a mark stands for its name, and what is found by the path of the right
# member in what an engine makes of it: members of the top, members of an entry, and all.
OF_TOP = {"architectures": '%s:["SCMP_ARCH_ARM"]', "syscalls": '%s:[{"names":["a"],"action":"B"}]',
          "archMap": '%s:[{"architecture":"SCMP_ARCH_X86_64","subArchitectures":[]}]',
          "architecture": '"archMap":[{%s:"SCMP_ARCH_X86_64","subArchitectures":[]}]',
          "subArchitectures": '"archMap":[{"architecture":"SCMP_ARCH_X86_64",%s:["S"]}]'}
OF_ENTRY = {"names": '%s:["a"],"action":"B"', "name": '%s:"a","action":"B"', "action": '"names":["a"],%s:"B"',
            **{name: '"names":["a"],"action":"B",' + text for name, text in {
                "errnoRet": "%s:7", "args": '%s:[{"index":1}]', "op": '"args":[{%s:"X"}]',
                **dict.fromkeys(("index", "value", "valueTwo"), '"args":[{%s:1}]'),
                "includes": '%s:{"caps":["CAP_X"]}', "excludes": '%s:{"arches":["amd64"]}',
                "caps": '"includes":{%s:["CAP_X"]}', "arches": '"includes":{%s:["arm"]}'}.items()}}
MEMBERS = {"defaultAction": '{%s:"SCMP_ACT_LOG","syscalls":[{"names":["a"],"action":"B"}]}',
           **{name: '{"defaultAction":"A",' + text + "}" for name, text in OF_TOP.items()},
           **{name: '{"defaultAction":"A","syscalls":[{%s}]}' % text for name, text in OF_ENTRY.items()}}


def spellings(name, drawn):
    """Names that Go may take for a member's: itself, with some letters in the other case or in those beyond ASCII that
    it folds, and with one letter that it doesn't."""
    yield name
    lookalikes = {"s": "\u017f", "S": "\u017f", "k": "\u212a", "K": "\u212a"}
    for _ in range(6):
        yield "".join(drawn.choice((letter, letter.swapcase(), lookalikes.get(letter, letter))) for letter in name)
    at = drawn.randrange(len(name))
    for wrong in ("\u0130", "\u00df", "x", "", "\u0131", "\uff53"):
        yield name[:at] + wrong + name[at + 1:]


class Members(Case):
    def test_members_that_go_reads_as_others(self):
        """What is told of a spelling is what the engine makes of it: the member that it is without it, or not."""
        drawn = random.Random(7)
        asked = [(member, name, engine, text % json.dumps(name)) for member, text in MEMBERS.items()
                 for name in spellings(member, drawn) for engine in ("docker", "podman")]
        right = {(member, engine): engine_code.resolved([(engine, (), text % json.dumps(member))])[0]
                 for member, text in MEMBERS.items() for engine in ("docker", "podman")}
        without = {(member, engine): engine_code.resolved([(engine, (), text % '"-"')])[0]
                   for member, text in MEMBERS.items() for engine in ("docker", "podman")}
        answers = engine_code.resolved([(engine, (), text) for _, _, engine, text in asked])
        seen = set()
        for (member, name, engine, text), answer in zip(asked, answers):
            self.assertNotEqual(right[member, engine], without[member, engine], text)
            members = profiles.misread_members(text.encode())
            is_read = name == member or bool(members)
            self.assertEqual(answer, right[member, engine] if is_read else without[member, engine], text)
            self.assertEqual([member_found.read_as for member_found in members], [member] * len(members))
            seen.add(is_read)
        self.assertEqual(seen, {True, False})

    def test_members_that_stand_twice(self):
        """Of two the last wins; an entry of a second list keeps what the first one's entry had."""
        twice = '{"defaultAction":"A","syscalls":[{"names":["ptrace"],"action":"B"}],"syscalls":[{"action":"C"}]}'
        self.assertEqual(engine_code.resolved([("docker", (), twice)])[0][0]["syscalls"],
                         [{"names": ["ptrace"], "action": "C"}])
        self.assertEqual([member.describe() for member in profiles.misread_members(twice.encode())],
                         ["the profile has the member 'syscalls' more than once: programs in Go take the last"])

    def test_tools_that_speak_of_a_runtime_refuse_them(self):
        """With and without --runtime: what scf reads isn't what the runtime read."""
        for text, says in (('{"defaultAction":"SCMP_ACT_ERRNO","syscalls":[],"\u017fyscalls":[{"names":["ptrace"],'
                            '"action":"SCMP_ACT_ALLOW"}]}', "a member '\\u017fyscalls', which programs in Go read"),
                           ('{"defaultAction":"SCMP_ACT_ERRNO","syscalls":[{"names":["ptrace"],"action":"SCMP_ACT_LOG",'
                            '"Action":"SCMP_ACT_ALLOW"}]}', "entry 0 has a member 'Action', which programs in Go read"),
                           ('{"defaultAction":"SCMP_ACT_ERRNO","defaultAction":"SCMP_ACT_ALLOW"}', "defaultAction'")):
            given = self.file("p.json", text)
            for name, words in (("verify-process", (str(os.getpid()), given)), ("compare-profiles", (given, given)),
                                ("resolve-profile", (given,))):
                for more in ((), ("--runtime", "runc")):
                    self.is_refused(says, name, *more, *words)

    def test_where_a_misread_member_stands(self):
        for text, says in (
                ('{"\u017fyscalls":[]}', "the profile has a member '\\u017fyscalls', which programs in Go read as "
                                         "'syscalls'"),
                ('{"syscalls":[{},{"Action":1,"action":1}]}',
                 "entry 1 has a member 'Action', which programs in Go read as 'action'"),
                ('{"syscalls":[{"args":[{},{"Op":1}]}]}', "entry 0: args 1 has a member 'Op', which programs in Go "
                                                          "read as 'op'"),
                ('{"syscalls":[{"includes":{"min\u212aernel":1}}]}',
                 "entry 0: includes has a member 'min\\u212aernel', which programs in Go read as 'minKernel'"),
                ('{"archMap":[{"Architecture":1}]}', "archMap 0 has a member 'Architecture', which programs in Go read "
                                                     "as 'architecture'"),
                ('{"linux":{"seccomp":{"Flags":[]}}}', "linux: seccomp has a member 'Flags', which programs in Go read "
                                                       "as 'flags'"),
                ('{"Linux":{}}', "the profile has a member 'Linux', which programs in Go read as 'linux'")):
            self.assertEqual([member.describe() for member in profiles.misread_members(text.encode())], [says])
        for text in ('{"annotations":{"a":1,"A":2},"process":{"Names":1},"x":1,"X":2}', "[", "\ud800", "[1]",
                     '{"syscalls":{"Names":1}}', '{"syscalls":[[1],2,null]}', "[" * 100000):
            self.assertEqual(profiles.misread_members(text.encode("utf-8", "surrogatepass")), [], text[:50])


# Values of a member that the engines may read or refuse, by what its value should be.
ODD = (None, True, -1, 1.5, "", "x", [], {}, [None], ["x"], [1], [{}], [[]], {"x": 1}, 2**64, 10**30)
KERNELS = ("", "4.8", "255.255", "256.1", "1.256", "0.0", "0.1", "4", "4.8.1", "4.", ".8", "+4.8", "04.008", "4_0.1",
           " 4.8", "4.8 ", "\u0664.8", "7.0", "6.18", "6.17", "6.19")
NUMBERS = (0, 1, 38, 4095, 5000, 65536, 2**32, 2**63, 2**64 - 1)
ERRNOS = (*sorted(engines.ERRNO_NAMES), "", "EINTR", "EHWPOISON", "EWOULDBLOCK", "eperm", "0", "07", "4294967295",
          "4294967296", "-1", "+1", "1_0", " 1", "0x1", "\u0661", "1" * 40)
CAPABILITIES = ("CAP_KILL", "CAP_SYS_ADMIN", "CAP_CHOWN")


class Draw:
    """Profiles drawn at random, most of them such as engines take, with odd values here and there."""

    def __init__(self, seed):
        self.random = random.Random(seed)

    def pick(self, *values):
        return self.random.choice(values)

    def some(self, *values):
        return [self.pick(*values) for _ in range(self.random.randrange(3))]

    def members(self, **makers):
        """Some of these members, each made by itself, or an odd value in its place."""
        names = [name for name in makers if self.random.random() < 0.5]
        return {name: self.pick(*ODD) if self.random.random() < 0.01 else makers[name]() for name in names}

    def condition(self):
        return self.members(caps=lambda: self.some(*CAPABILITIES), minKernel=lambda: self.pick(*KERNELS),
                            arches=lambda: self.some("amd64", "arm", "x86_64", "x32"))

    def argument(self):
        return self.members(index=lambda: self.pick(*NUMBERS), value=lambda: self.pick(*NUMBERS),
                            valueTwo=lambda: self.pick(*NUMBERS), op=lambda: self.pick("SCMP_CMP_EQ", "x", ""))

    def entry(self):
        made = self.members(errnoRet=lambda: self.pick(*NUMBERS), errno=lambda: self.pick(*ERRNOS),
                            args=lambda: [self.argument() for _ in range(self.random.randrange(3))],
                            comment=lambda: self.pick("x", None), includes=self.condition, excludes=self.condition)
        names = {self.pick("names", "names", "names", "name"): None}
        names = {name: "read" if name == "name" else self.some("read", "write") for name in names}
        if self.random.random() < 0.05:
            names = {"names": ["read"], "name": self.pick("", "write", None)}
        return {**names, "action": self.pick(ALLOW, ERRNO, "x"), **made}

    def profile(self):
        made = self.members(defaultErrnoRet=lambda: self.pick(*NUMBERS), defaultErrno=lambda: self.pick(*ERRNOS),
                            flags=lambda: self.some("SECCOMP_FILTER_FLAG_LOG"), listenerPath=lambda: "/x",
                            listenerMetadata=lambda: "m")
        if self.random.random() < 0.5:
            made["architectures"] = self.some("SCMP_ARCH_X86_64", "SCMP_ARCH_ARM", "x")
        if self.random.random() < 0.5:
            made["archMap"] = [{"architecture": self.pick("SCMP_ARCH_X86_64", "SCMP_ARCH_ARM"),
                                "subArchitectures": self.some("SCMP_ARCH_X86", "x")} for _ in range(2)]
        return {"defaultAction": ERRNO, **made, "syscalls": [self.entry() for _ in range(self.random.randrange(3))]}


def as_go_prints(profile):
    """A resolved profile with all members of conditions, and without entries that name nothing."""
    entries = [{**entry, "args": [{"index": 0, "value": 0, "op": "", **arg} for arg in entry.get("args") or []]}
               for entry in profile.get("syscalls") or [] if entry["names"]]
    for condition in (arg for entry in entries for arg in entry["args"]):
        condition.setdefault("valueTwo", 0)
    return {**{name: value for name, value in profile.items() if value not in ("", [])}, "syscalls": entries}


class Drawn(Case):
    """moby 20.10 and containers-common as Debian has them."""

    def beside(self, engine, given):
        """What the tools and an engine make of profiles: pairs of a resolved profile, or None where it is refused."""
        setting = engines.setting_of("KILL", engine)
        texts = [json.dumps(value) for value in given]
        answers = engine_code.resolved([("podman" if engine == "podman" else "docker", CAPABILITIES[:1], text)
                                        for text in texts])
        for text, (made, refused) in zip(texts, answers):
            try:
                value = engines.parse_json(text.encode())
                resolved = as_go_prints(engines.Resolver(setting).resolved(value))
            except profiles.Refused as why:
                resolved = str(why)
            yield text, resolved, f"refused: {refused}" if refused else as_go_prints(made)

    def is_ours(self, why, text):
        """Whether we refuse on purpose what the engines take: a null in a list, which is an empty text to Go, or which
        they look at in no entry that is left out; numbers that no member has, where nothing reads them; and members
        that may be conditions."""
        is_null = "list of strings" in why or "isn't an object" in why
        return (is_null and "null" in text) or why.startswith("the number ") or "may be a condition" in why

    def alike(self, engine, given):
        seen = {}
        for text, ours, made in self.beside(engine, given):
            if isinstance(made, str):
                self.assertIsInstance(ours, str, (text, made))
            elif not isinstance(ours, str) or not self.is_ours(ours, text):
                self.assertEqual(ours, made, text)
            seen[isinstance(made, str)] = seen.get(isinstance(made, str), 0) + 1
        self.assertGreater(min(seen.get(True, 0), seen.get(False, 0)), len(given) // 20, seen)

    def test_drawn_profiles(self):
        for engine in ("docker-20.10", "podman"):
            draw = Draw(engine)
            self.alike(engine, [draw.profile() for _ in range(4000)])

    def test_each_kernel_errno_and_odd_value(self):
        for engine in ("docker-20.10", "podman"):
            entries = [{"includes": {"minKernel": version}} for version in (*KERNELS, *ODD)]
            entries += [{"excludes": {"minKernel": version}} for version in (*KERNELS, *ODD)]
            entries += [{"errno": value} for value in (*ERRNOS, *ODD)]
            entries += [{name: value} for name in profiles.ENTRY for value in ODD]
            entries += [{"args": [{name: value}]} for name in profiles.ARGUMENT for value in ODD]
            entries += [{"includes": {name: value}} for name in profiles.FILTER for value in ODD]
            given = [{"defaultAction": ERRNO, "syscalls": [{"names": ["a"], "action": ALLOW, **entry}]}
                     for entry in entries]
            given += [{"defaultAction": ERRNO, **{name: value}} for name in profiles.SECCOMP_MEMBERS for value in ODD
                      if name != "defaultAction"]
            given += [{"defaultAction": ERRNO, "defaultErrno": value} for value in ERRNOS]
            self.alike(engine, given)
