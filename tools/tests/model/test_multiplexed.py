"""resolve-profile --multiplexed, beside libseccomp: what its filter answers to i386 calls."""
import json
import os
import random
import re
import unittest

from support.common import I386, TOP, Case, text_of
from support.oci import ALLOW, ERRNO, NATIVE, X32, X86, condition, entry, profile
from support.seccomp_library import NEEDED, Conflict, Library
from support.several import Reading, word_of
from support.stand_in import StandIn, unpacked, words_of
from scftools.model import libseccomp, tables
from scftools.model.calls import Call
from scftools.lint import findings
from scftools.commands import profile_of

HEADERS = {"socketcall": ("/usr/include/linux/net.h", r"^#define SYS_(\w+)\s+(\d+)"),
           "ipc": ("/usr/include/linux/ipc.h", r"^#define ((?:SEM|MSG|SHM)\w+)\s+(\d+)")}
MULTIPLEXERS = {"socketcall": 102, "ipc": 117}
SMALL = (0, 1, 2, 3, 5, 8, 16, 21, 0x80000000, 0xFFFFFFFF)


def reading_of(resolved):
    """What the entries say of i386 calls; those that answer as the default does are none."""
    default = word_of(resolved["defaultAction"], resolved.get("defaultErrnoRet"))
    kept = [each for each in resolved["syscalls"] if word_of(each["action"], each.get("errnoRet")) != default]
    reading = Reading({**resolved, "syscalls": kept}, [X86], {X86: tables.architecture_table(X86).names()})
    assert reading.fault() is None, resolved
    return reading


class Words(Case):
    """What pages and headers say."""

    def test_the_architectures(self):
        """Those whose socketcall and ipc make others' syscalls, and those of whose arguments libseccomp compares 32
        bits (arch-*.c and ARCH_SIZE of libseccomp)."""
        page = text_of(TOP, "docs", "RUNTIMES.md")
        of_page = {word: line for line in page.split("\n") for word in ("`socketcall` and `ipc` make, too", "`wide`")
                   if word in line}
        for names, texts in ((("i386", "ppc64le", "mipsel"), (profile_of.__doc__.partition("also made by")[0], *(
                                 of_page[word] for word in of_page if "ipc" in word))),
                             (("i386", "x32", "arm", "mipsel", "mipsel64n32"), (
                                 findings.meanings()["wide"], of_page["`wide`"]))):
            for text in texts:
                self.assertEqual([name for name in names if not re.search(rf"\b{name}\b", text)], [], text)

    @unittest.skipUnless(all(os.path.exists(path) for path, _ in HEADERS.values()), "there are no kernel headers here")
    def test_the_numbers_are_those_of_the_headers(self):
        for name, (path, pattern) in HEADERS.items():
            numbers = {name.lower(): int(number) for name, number in re.findall(pattern, text_of(path), re.M)}
            self.assertEqual(libseccomp.CALL_NUMBERS[name], numbers)


class Multiplexed(Case):
    def resolved(self, given, *words):
        """The profile with the rules that are added, and what is said."""
        status, out, err = self.run_tool("resolve-profile", "--multiplexed", *words, "-",
                                         given=json.dumps(given).encode())
        self.assertEqual(status, 0, err)
        return json.loads(out), err

    def added(self, given, *words):
        """The entries that are added."""
        return [entry_added
                for entry_added in self.resolved(given, *words)[0]["syscalls"] if entry_added not in given["syscalls"]]

    def test_a_rule_of_each(self):
        first, second = condition(0, "NE", 40), condition(2, "LE", 7)
        given = profile(entry("socket", "read", "shmat", args=[first, second]),
                        entry("accept", errnoRet=5, action=ERRNO))
        self.assertEqual(self.resolved(given), ({**given, "syscalls": [
            given["syscalls"][0],
            entry("socketcall", args=[{"index": 0, "value": 1, "op": "SCMP_CMP_EQ"}, second]),
            entry("ipc", args=[{"index": 0, "value": 21, "op": "SCMP_CMP_EQ"}, second]),
            given["syscalls"][1],
            entry("socketcall", args=[{"index": 0, "value": 5, "op": "SCMP_CMP_EQ"}], errnoRet=5, action=ERRNO)]}, ""))

    def test_what_covers_them(self):
        given = profile(entry("socket"), entry("semop"), entry("socketcall"))
        resolved, remarks = self.resolved(given)
        self.assertEqual(resolved["syscalls"], [*given["syscalls"][:2], entry(
            "ipc", args=[{"index": 0, "value": 1, "op": "SCMP_CMP_EQ"}]), given["syscalls"][2]])
        self.assertEqual(remarks, "resolve-profile: no rule of socketcall is added: an entry without conditions covers "
                               "all of its calls\n")
        # engines pass on none that answers as the default does
        for same in ({}, {"errnoRet": 1}):
            given = profile(entry("socket"), entry("socketcall", action=ERRNO, **same), entry("bind", action=ERRNO))
            self.assertEqual(len(self.added(given)), 1)
        given = profile(entry("socket"), entry("socketcall", action=ERRNO, errnoRet=2), entry("bind", action=ERRNO))
        self.assertEqual(self.added(given), [])

    def test_only_where_there_are_both(self):
        for architectures in ([], [NATIVE], [NATIVE, X32]):
            given = profile(entry("socket"), architectures=architectures)
            resolved, remarks = self.resolved(given)
            self.assertEqual(resolved["syscalls"], given["syscalls"])
            self.assertEqual(remarks, "resolve-profile: no rule of socketcall or ipc is added: architectures has none "
                                      "of SCMP_ARCH_X86, SCMP_ARCH_PPC64LE, SCMP_ARCH_MIPSEL\n")

    def test_with_a_runtime(self):
        """Of two conditions on an argument each is an entry of its own there."""
        given = profile(entry("bind", args=[condition(0, "EQ", 1), condition(1, "EQ", 2), condition(1, "EQ", 3)]),
                        entry("shmdt", action=ERRNO))
        entries = self.resolved(given, "--runtime", "crun")[0]["syscalls"]
        of_i386 = [entry_met["args"] for entry_met in entries if entry_met["names"] == ["socketcall"]]
        number = {"index": 0, "value": 2, "op": "SCMP_CMP_EQ"}
        self.assertEqual(of_i386, [[number], [number, condition(1, "EQ", 2)], [number, condition(1, "EQ", 3)]])
        self.assertEqual(len(entries), 5)

    def test_too_many(self):
        given = profile(entry(*libseccomp.CALL_NUMBERS["socketcall"],
                              args=[condition(1, "NE", value) for value in range(4000)]))
        self.is_refused("the rules of socketcall and ipc have more than 65536 conditions", "resolve-profile",
                        "--multiplexed", "-", given=json.dumps(given).encode())


class RandomProfile:
    """Random profiles of multiplexed syscalls and of others, in which no two entries conflict."""

    def __init__(self, random_of):
        self.random = random_of

    def conditions(self, least=0):
        indices = self.random.sample(range(4), self.random.randint(least, 3))
        return [condition(index, self.random.choice(("NE", "LT", "LE", "EQ", "GE", "GT", "MASKED_EQ")),
                          self.random.choice(SMALL[1:]), self.random.choice(SMALL)) for index in sorted(indices)]

    def profile(self):
        names = [name for numbers in libseccomp.CALL_NUMBERS.values() for name in numbers]
        chosen = self.random.sample(names, self.random.randint(1, 12)) + ["getpid", "personality"]
        entries = [self.entry([name], self.conditions()) for name in chosen]
        for name in MULTIPLEXERS:
            if self.random.random() < 0.3:
                entries.append(self.entry([name], []))
        self.random.shuffle(entries)
        return profile(*entries, defaultErrnoRet=99)

    def entry(self, names, args):
        action = self.random.choice((ALLOW, ALLOW, "SCMP_ACT_LOG", "SCMP_ACT_TRAP", ERRNO, "SCMP_ACT_TRACE"))
        number = {"errnoRet": self.random.choice((1, 38, 99))} if action in (ERRNO, "SCMP_ACT_TRACE") else {}
        return entry(*names, action=action, args=args, **number)

    def calls(self, resolved):
        """i386 calls of its names, about the values of its conditions, some with an upper half."""
        table = tables.architecture_table(X86)
        for entry_read in resolved["syscalls"]:
            numbers = filter(None, map(table.number_of, entry_read["names"]))
            for number in numbers:
                arguments = [self.random.choice(SMALL) for _ in range(6)]
                for arg in entry_read.get("args", ()):
                    arguments[arg["index"]] = (arg["value"] + self.random.choice((0, 0, 0, 1, -1))) % (1 << 32)
                if number in MULTIPLEXERS.values() and self.random.random() < 0.5:
                    arguments[0] = self.random.randint(0, 25)
                arguments[self.random.randrange(6)] |= self.random.choice((0, 0, 1 << 32, 1 << 63))
                yield Call(number, I386, arguments=tuple(arguments))


def with_rules(given):
    return libseccomp.with_rules(given)[0]


def differences(resolved, data, calls):
    """The calls that a filter answers otherwise than the entries say."""
    machine, program, reading = StandIn(), unpacked(data), reading_of(resolved)
    return [call for call in calls if machine.answer(program, words_of(call)) !=
            reading.answer(call.architecture, call.number, call.arguments)[0]]


@NEEDED
class BesideLibseccomp(unittest.TestCase):
    def test_drawn_profiles(self):
        library, count, of_multiplexers = Library(), 0, 0
        for seed in range(400):
            source = RandomProfile(random.Random(f"multiplexed {seed}"))
            given = source.profile()
            # read is without conditions, so that the number is loaded (see lint/test_libseccomp)
            given["syscalls"].append(entry("read"))
            resolved = with_rules(given)
            calls = [call for _ in range(3) for call in source.calls(resolved)]
            self.assertEqual(differences(resolved, library.filter_of(given), calls), [], json.dumps(given))
            count += len(calls)
            of_multiplexers += sum(call.number in MULTIPLEXERS.values() for call in calls)
        self.assertGreater(count, 5000)
        self.assertGreater(of_multiplexers, 2000)

    def test_each_name_has_its_number_there(self):
        """i386's filter answers socketcall or ipc with one number alone, and nothing else does."""
        library, machine, table = Library(), StandIn(), tables.architecture_table(X86)
        every = [name for numbers in libseccomp.CALL_NUMBERS.values() for name in numbers]
        others = [name for name in table.names() if name not in (*every, *MULTIPLEXERS)]
        for name in (*every, *others):
            if not library.knows(name):
                continue
            given = profile(entry(name), *([] if name == "read" else [entry("read", action="SCMP_ACT_LOG")]))
            program, allowed = unpacked(library.filter_of(given)), word_of(ALLOW)
            multiplexed_calls = [(name, number) for name, at in MULTIPLEXERS.items() for number in range(30)
                     if machine.answer(program, words_of(Call(at, I386, arguments=(number, *[0] * 5)))) == allowed]
            self.assertEqual(multiplexed_calls,
                             [(syscall, numbers[name]) for syscall, numbers in libseccomp.CALL_NUMBERS.items()
                                     if name in numbers], name)

    def test_what_it_refuses_is_a_conflict(self):
        """Two answers that differ by argument 0 alone are two of one call there."""
        given = profile(entry("socket", args=[condition(0, "EQ", 2)]),
                        entry("socket", action=ERRNO, errnoRet=5, args=[condition(0, "EQ", 16)]))
        with self.assertRaises(Conflict):
            Library().filter_of(given)
        first, second = [entry_added
                         for entry_added in with_rules(given)["syscalls"] if entry_added["names"] == ["socketcall"]]
        self.assertEqual((first["names"], first["args"]), (second["names"], second["args"]))
        self.assertNotEqual(first["action"], second["action"])
