"""scftools/launch.py: a tool that fails by an error of its own ends with no verdict's status, and says so in a line."""
import os

from support.common import TOOLS, TOP, Case, module_of, source_of


class Failing(Case):
    def setUp(self):
        super().setUp()
        self.tree = self.made_tree("#!/bin/sh\nexit 3\n")

    def fails(self, name, text):
        """What a tool prints and says whose module is this text; the status is that of an internal error."""
        with open(os.path.join(self.tree, os.path.relpath(source_of(name), TOP)), "w", encoding="utf-8") as file:
            file.write(text)
        status, out, err = self.run_words([os.path.join(self.tree, "tools", name)])
        self.assertEqual(status, 70, err)
        self.assertRegex(err, rf"\A{name}: [^\n]+\n\Z")
        self.assertTrue(err[:-1].isprintable(), err)
        return out, err

    def test_each_tool(self):
        for name in TOOLS:
            _, err = self.fails(name, "def main():\n    {}['a\\nsame\\x1b[2J']\n")
            self.assertIn(f", at {module_of(name).rpartition('.')[2]}.py, line 2; please report it", err)

    def test_wherever_it_fails(self):
        for text, says in (("raise ValueError('x' * 10 ** 6)\n", "ValueError: xxx"), ("def main(:\n", "SyntaxError: "),
                           ("", "AttributeError: "), ("def main():\n    main()\n", "RecursionError: "),
                           ("import json\ndef main():\n    return json.loads('[')\n", ", at check.py, line 3; "),
                           ("def main():\n    raise UnicodeDecodeError('utf-8', b'\\xff', 0, 1, 'bad')\n", "'utf-8'"),
                           ("def main():\n    raise AssertionError\n", "AssertionError: ")):
            _, err = self.fails("check", text)
            self.assertIn(says, err)
            self.assertLess(len(err), 400)

    def test_what_was_printed_stays(self):
        self.assertEqual(self.fails("check", "from scftools.base import output\n"
                                    "def main():\n    output.put_line('first')\n    1 / 0\n")[0], "first\n")
