"""docs/JSON.md and docs/scf.schema.json: each command's object."""
import copy
import itertools
import json
import re
import shlex

from support import json_schema
from support.common import ALLOW, EPERM, SCF, TOOLS, TOP, Case, jeq, load, ret, text_of
from scftools.base import output
from scftools.cli.commands import ALIASES

PAGE = text_of(TOP, "docs", "JSON.md")
# What stands in an example for any object, and for any list.
GAPS = ({"..": None}, [".."])
# Each command line of the page, and what it prints.
EXAMPLES = [(line, json.loads(printed.replace("{..}", json.dumps(GAPS[0])).replace("[..]", json.dumps(GAPS[1]))))
            for line, printed in re.findall(r"(?m)^\$ (scf .*)\n((?:(?!```|\$ ).*\n)+)", PAGE)]
# The commands whose output depends on the machine.
OF_MACHINE = {"audit", "oci-hook", "verify"}


def filled(example, printed):
    """An example with what was printed in place of its gaps."""
    if example in GAPS:
        return printed if type(printed) is type(example) else type(example)()
    if isinstance(example, dict):
        others = printed if isinstance(printed, dict) else {}
        return {name: filled(value, others.get(name)) for name, value in example.items()}
    if isinstance(example, list):
        others = printed if isinstance(printed, list) else []
        return [filled(value, other) for value, other in itertools.zip_longest(example, others[:len(example)])]
    return example


class Page(Case):
    """The page and the schema, in a folder with the files of the page, in which its commands run."""

    def setUp(self):
        super().setUp()
        self.file("filter.bpf", load(0) + jeq(41, 0, 1) + ret(EPERM) + ret(ALLOW))
        self.file("few.table", "socket 41\nbind 49\n")
        self.file("profile.json", '{"defaultAction": "SCMP_ACT_ALLOW", "syscalls": [{"names": ["bind"], '
                                  '"action": "SCMP_ACT_ERRNO"}]}')
        self.file("slip.json", '{"defaultAction": "SCMP_ACT_KILL_PROCESS", "syscalls": [{"names": ["bnid"], '
                               '"action": "SCMP_ACT_ALLOW"}]}')
        self.file("log", "socket(AF_INET, SOCK_STREAM, 0) = 3\nbind(3, 0x7ffd1000, 16) = 0\n")

    def whole_examples(self):
        """Each command line, and what it prints in full."""
        for line, example in EXAMPLES:
            words, printed = shlex.split(line), None
            if words[1] not in OF_MACHINE and "--set" not in words:
                status, out, err = self.run_words([SCF, *words[1:]])
                printed = json.loads(out)
                self.assertEqual((filled(example, printed), status, err), (printed, example["status"], ""), line)
            yield line, filled(example, printed)

    def test_each_example_is_what_its_command_prints(self):
        for line, whole in self.whole_examples():
            faults = json_schema.faults_of_output(shlex.split(line), json.dumps(whole), whole["status"])
            self.assertEqual(list(faults), [], line)

    def test_each_command_stands_in_the_page_and_the_schema(self):
        commands = {name for name in TOOLS if re.search(r"--json\s", self.run_tool(name, "--help")[1])}
        self.assertEqual({shlex.split(line)[1] for line, _ in EXAMPLES}, commands - {*ALIASES})
        self.assertLessEqual(commands, set(json_schema.SCHEMA["$defs"]))
        self.assertIn(f"the version of this page, now {output.SCHEMA_VERSION},", PAGE)
        self.assertEqual(json_schema.SCHEMA["$defs"]["version"], {"const": output.SCHEMA_VERSION})

    def test_each_page_links_to_it(self):
        for path in ("README.md", "docs/OPERATIONS.md", "docs/scf.1", "tables/commands"):
            self.assertIn("JSON.md", text_of(TOP, path), path)

    def faults(self, value, schema):
        return len(list(json_schema.faults(value, schema)))

    def test_each_keyword_of_the_schema(self):
        for schema, good, bad in (
                ({"type": "integer"}, (0, -1), (True, 1.0, "1", None)),
                ({"type": ["string", "null"]}, ("", None), (1, [])),
                ({"type": "number"}, (1, 1.5), ("1", True)),
                ({"const": 2}, (2,), (1, "2")),
                ({"enum": ["a", "b"]}, ("a",), ("c", None)),
                ({"type": "string", "pattern": "^0x[0-9a-f]+$"}, ("0x1f",), ("1f", "0xG")),
                ({"anyOf": [{"type": "integer"}, {"type": "null"}]}, (1, None), ("1",)),
                ({"type": "array", "items": {"type": "integer"}, "minItems": 1, "maxItems": 2}, ([1], [1, 2]),
                 ([], [1, 2, 3], ["1"])),
                ({"type": "object", "required": ["a"], "properties": {"a": {"type": "integer"}, "b": {}}},
                 ({"a": 1}, {"a": 1, "b": None}), ({}, {"a": "1"}, {"a": 1, "c": 2})),
                ({"type": "object", "additionalProperties": {"type": "integer"}}, ({}, {"x": 1}), ({"x": "1"},)),
                ({"allOf": [{"type": "object", "properties": {"a": {"type": "integer"}}},
                            {"type": "object", "properties": {"b": {"type": "integer"}}}]},
                 ({}, {"a": 1, "b": 2}), ({"a": "1"}, {"b": "1"}, {"c": 1})),
                ({"$ref": "#/$defs/answer"}, ({"action": "ALLOW", "data": 0},),
                 ({"action": "allow", "data": 0}, {"action": "ALLOW"}))):
            for value in good:
                self.assertEqual(self.faults(value, schema), 0, (schema, value))
            for value in bad:
                self.assertGreater(self.faults(value, schema), 0, (schema, value))
        self.assertRaises(AssertionError, self.faults, 1, {"minimum": 0})

    def test_a_member_that_the_schema_lacks_or_has_otherwise(self):
        for line, printed in self.whole_examples():
            words = shlex.split(line)
            for change in (lambda value: value.pop("schema"), lambda value: value.update(status="0"),
                           lambda value: value.update(other=[])):
                value = copy.deepcopy(printed)
                change(value)
                self.assertTrue(list(json_schema.faults_of_output(words, json.dumps(value), printed["status"])), line)

    def test_as_another_validator_reads_it(self):
        try:
            import jsonschema
        except ImportError:
            self.skipTest("there is no jsonschema here")
        jsonschema.Draft202012Validator.check_schema(json_schema.SCHEMA)
        for line, printed in self.whole_examples():
            command = shlex.split(line)[1]
            schema = {"$ref": f"#/$defs/{command}", "$defs": json_schema.SCHEMA["$defs"]}
            jsonschema.Draft202012Validator(schema).validate(printed)

