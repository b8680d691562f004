"""Faults of profiles: which member each is about, and the line and column at which it stands."""
import unittest

from support.common import Case, filter_of, profile_of
from scftools.base import json_places


class Places(Case):
    """A fault of a profile: which member, at which line and column."""

    def said(self, text):
        out = self.of_status(2, self.run_tool("compare", self.file("f.bpf", filter_of([0])), self.file("p.json", text)))
        return out

    def test_each_kind(self):
        entry = '{"names": ["read"], "action": "SCMP_ACT_ALLOW",\n %s}'
        arg = '"args": [{"index": 0, "op": "SCMP_CMP_EQ", "value": 1},\n  %s]'
        ok = entry % '"comment": "x"'
        # texts of the second entry, what is said, and the line and column at which it begins
        for text, says in (
                ('{"action": "SCMP_ACT_ALLOW"}', "syscalls[1] has no names, at line 5, column 2"),
                ('{"names": ["read"]}', "syscalls[1] has no action, at line 5, column 2"),
                ("3", "syscalls[1] is 3, not an object, at line 5, column 2"),
                ('{"names": [], "action": 1}', "syscalls[1].names is empty, at line 5, column 12"),
                ('{"names": ["a", 1], "action": 1}', "syscalls[1].names[1] is 1, not a string, at line 5, column 18"),
                (entry.replace("ALLOW", "ALOW") % '"x": 1',
                 'syscalls[1].action is "SCMP_ACT_ALOW", which is none, at line 5, column 32'),
                (entry % '"errnoRet": 1',
                 "syscalls[1].errnoRet is 1, and SCMP_ACT_ALLOW takes none, at line 6, column 14"),
                (entry.replace("ALLOW", "ERRNO") % '"errnoRet": 65536', "syscalls[1].errnoRet is 65536, at line 6"),
                (entry % '"args": 1', "syscalls[1].args is 1, not an array, at line 6, column 10"),
                (entry % (arg % '{"index": 1, "op": "EQ", "value": 1}'),
                 'syscalls[1].args[1].op is "EQ", which is none, at line 7, column 22'),
                (entry % (arg % '{"index": 6, "op": "EQ"}'), "syscalls[1].args[1].index is 6, at line 7, column 13"),
                (entry % (arg % '{"index": 1, "op": "SCMP_CMP_EQ"}'),
                 "syscalls[1].args[1] has no value, at line 7, column 3"),
                (entry % (arg % '{"index": 1, "op": "SCMP_CMP_EQ", "value": -1}'),
                 "syscalls[1].args[1].value is -1, not a whole number from 0 to 2^64-1, at line 7"),
                (entry % (arg % '{"index": 0, "op": "SCMP_CMP_EQ", "value": 1}'),
                 "syscalls[1].args[1].index is 0, as in an earlier condition of this entry, at line 7, column 13"),
                (entry % '"includes": {"caps": ["A"]}', "syscalls[1].includes is an object, at line 6, column 14"),
                ('{"names": ["read"], "action": "SCMP_ACT_LOG"}',
                 "the entries begin at line 3, column 2 and at line 5, column 2")):
            out = self.said('{"defaultAction": "SCMP_ACT_ERRNO",\n "syscalls": [\n %s,\n %s\n]}' % (ok, text))
            self.assertIn(f"\n# {says}", out, text)

    def test_outside_of_entries(self):
        for text, says in (("{}", "the profile has no defaultAction, at line 1, column 1"),
                           ('\n {"linux": {\n}}',
                            "linux has no seccomp: the container isn't confined, at line 2, column 12"),
                           ('{"linux": {"seccomp": {"defaultAction": "ALLOW"}}}',
                            'linux.seccomp.defaultAction is "ALLOW", which is none, at line 1, column 41'),
                           ('{"defaultAction": "SCMP_ACT_LOG",\n"architectures": ["SCMP_ARCH_MIPS"]}',
                            "architectures lacks SCMP_ARCH_X86_64, at line 2, column 18"),
                           ('{"defaultAction": "SCMP_ACT_LOG", "syscalls": {}}', "syscalls is an object, not an array"),
                           ('{"defaultAction": "SCMP_ACT_LOG", "archMap": [{}]}', "archMap is an array, at line 1"),
                           ('{"defaultAction": "\\u001b[2J\\n"}', '"\\u001b[2J\\n", which is none'),
                           # JSON that is malformed
                           ('{"a": {"b c": [1, 2,\n x]}}', "line 2, column 2: Expecting value (in a[\"b c\"][2])"),
                           ('{"defaultAction": "A"\n "syscalls": []}', "Expecting ',' delimiter (after defaultAction)"),
                           (b'{"a": "\x01"}', "line 1, column 8: "), (b'{"a"\n: tru}', "line 2, column 3: "),
                           (b'{}\n {', "line 2, column 2: "),
                           (b'{\n"a": "\xff"}', "the profile isn't UTF-8 from line 2, column 7 on"),
                           ("{\n\"é\": \"é".encode() + b"\xff\"}",
                            "the profile isn't UTF-8 from line 2, column 8 on"),
                           (b'{"a":\n' + b"[" * 127 + b"]" * 127 + b"}",
                            "at line 2, column 127 the profile is nested more than 127 deep"),
                           (b'{"a": "[[\\"[[' + b"[" * 200 + b'", "b"}', "the JSON is malformed at line 1, column "),
                           ('{"a": [NaN]}', "at line 1, column 8 a[0] is NaN, which isn't a JSON number"),
                           ('{"a": [1, 1e999]}', "at line 1, column 11 a[1] is a number out of range"),
                           ('{"a": "\\ud800"}', "at line 1, column 7 a has an unpaired surrogate")):
            self.assertIn(says, self.said(text))
        self.is_refused("the profile is empty", "compile", self.file("p.json", b" \n"))

    def test_what_people_take_for_json(self):
        """It is named first, and where it stands; a comma by its own place or that of the bracket behind it."""
        for text, says in (('{"a": [1, 2], // all\n}',
                            "it has a comment, which JSON doesn't allow, at line 1, column 15"),
                           ('{"a": {"b": 1 /* one */}}',
                            "it has a comment, which JSON doesn't allow, at line 1, column 15 (after a.b)"),
                           ("# mine\n{}", "it has a comment, which JSON doesn't allow, at line 1, column 1\n"),
                           ('{"a": [1,\n 2,\n ]}', "it has a trailing comma, which JSON doesn't allow, at line "),
                           ('{"a": 1,}', "it has a trailing comma, which JSON doesn't allow, at line 1, column "),
                           ("{'a': 1}", "it has single quotes in place of double ones at line 1, column 2\n"),
                           ('{"a": {"b": \'c\'}}',
                            "it has single quotes in place of double ones at line 1, column 13 (in a.b)"),
                           ("defaultAction: SCMP_ACT_ERRNO\nsyscalls:\n- names: [read]\n",
                            "it is YAML: convert it to JSON, as `yq -o json` does"),
                           ("\ufeff{}", "it has a byte order mark, which JSON doesn't allow, at line 1, column 1")):
            self.assertTrue(self.said(text).startswith(f"fault profile Json\n# {says}"), text)

    def test_a_profile_that_is_too_long(self):
        """Its length is the cause, whatever stands where it is cut."""
        for text in (b'{"apiVersion": "a", "kind": "SeccompProfile",' + b" " * (30 << 20) + b"}",
                     b'{"defaultAction": "A", "x": "' + b"{" * (30 << 20) + b'"}'):
            profile = self.file("long.json", text)
            for words in (("compare", self.file("f.bpf", filter_of([0])), profile), ("ask", profile)):
                status, out, err = self.run_tool(*words)
                self.assertIn((status, out.split("\n")[0]),
                              ((2, "fault profile TooLong"), (2, "fault profile TooMany")))
                self.assertIn("\n# the profile has more than 4194304 bytes\n", out)
                self.assertNotIn("malformed", out + err)

    def test_large_profiles_take_seconds(self):
        text = profile_of(*(f"a{at}" for at in range(200000)))
        out = self.said(text.replace(b'"action": "SCMP_ACT_ALLOW"', b'"action": "X"'))
        self.assertIn('syscalls[0].action is "X", which is none, at line 1', out)


class Paths(unittest.TestCase):
    def test_places(self):
        text = '{"a": [1, {"b": "x]},", "c d": [[], {}]}],\n "a": [0, 2], "e": {"": null}}'
        for path, place in ((["a", 1, "b"], "line 1, column 17"), (["a", 1, "c d", 1], "line 1, column 37"),
                            (["a", 0], "line 2, column 8"), (["e", ""], "line 2, column 25"), ([], "line 1, column 1"),
                            (["f"], None)):
            self.assertEqual(json_places.place_of(text, path), place, path)

    def test_how_they_are_told(self):
        for path, text in ((["syscalls", 3, "args", 0, "op"], "syscalls[3].args[0].op"), ([], ""), (["a b"], '["a b"]'),
                           (["a", "\x1b"], 'a["\\u001b"]'), (["x" * 99], f'["{"x" * 40}.."]'), ([0, 1], "[0][1]")):
            self.assertEqual(json_places.path_text(path), text)
