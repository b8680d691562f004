"""What tests of the program on bundles share: parts of bundles, worked filters and profiles, and runs of the program.

A part is its kind and its text; that of a filter, or of one beside, is in the assembler's language, and the program
assembles it.
"""
import functools
import os
import re
import subprocess
import unittest

from .common import CORE, PROGRAM, completed, part


def each_of(rows):
    """The items of a table's rows, each with what its row has as its key."""
    return [(item, key) for key, items in rows.items() for item in items]


def a_filter(text):
    return "filter", text


def beside(text):
    """A filter beside others."""
    return "beside", text


def behind_gate(text):
    """A filter that turns other architectures and the numbers of x32 away first, as each compiled profile does."""
    return "filter", GATE + text


def a_profile(text):
    return "profile", text


def a_table(text):
    return "table", text


# Six instructions; the number is loaded behind them.
GATE = "ld [4]; jeq #0xc000003e, 1, 0; ret #0x80000000; ld [0]; jge #0x40000000, 0, 1; ret #0x80000000\n"
ALLOW_ALL = "ret #0x7fff0000"
# Kills the process on calls of other architectures, and allows all others, those of x32 too.
ARCH_GATE = "ld [4]; jeq #0xc000003e, 1, 0; ret #0x80000000; ret #0x7fff0000"
# The mask of CLONE behind the gate: by `and`, by `jset`, and by a `jset` that lacks one of its bits.
CLONE_BY_AND = behind_gate("jeq #56, 0, 3; ld [16]; and #0x7e020000; jeq #0, 1, 0; ret #0x50001; ret #0x7fff0000")
CLONE_BY_JSET = behind_gate("jeq #56, 0, 2; ld [16]; jset #0x7e020000, 0, 1; ret #0x50001; ret #0x7fff0000")
CLONE_BY_FEWER_BITS = behind_gate("jeq #56, 0, 2; ld [16]; jset #0x7c020000, 0, 1; ret #0x50001; ret #0x7fff0000")
# Takes `clone` where none of the bits 0x7e020000 is set in its flags.
CLONE = a_profile('''{"defaultAction":"SCMP_ACT_ERRNO","syscalls":[{"names":["clone"],"action":"SCMP_ACT_ALLOW",
    "args":[{"index":0,"value":2114060288,"op":"SCMP_CMP_MASKED_EQ"}]}]}''')
CLONE_TABLE = a_table("clone 56\n")
DEFAULT_ALLOW = '{"defaultAction":"SCMP_ACT_ALLOW"}'
# Takes every call.
ALL = a_profile(DEFAULT_ALLOW)
# Takes `read`.
ONE_CALL = '{"defaultAction":"SCMP_ACT_ERRNO","syscalls":[{"names":["read"],"action":"SCMP_ACT_ALLOW"}]}'
NO_TABLE = a_table("")
READ_TABLE, READ_WRITE_TABLE = "read 0\n", "read 0\nwrite 1\n"
# Allow every call, the calls that the gate leaves, and every call but number 1.
ALLOW, NATIVE = a_filter(ALLOW_ALL), behind_gate(ALLOW_ALL)
WITHOUT_WRITE = a_filter("ld [0]; jeq #1, 0, 1; ret #0x50001; ret #0x7fff0000")


def ran(words, given=b"", **settings):
    """What the program prints on these bytes, and its status. It says nothing on standard error."""
    done = completed([PROGRAM, *words], given, **settings)
    if done.stderr:
        raise AssertionError(done.stderr)
    return done.stdout, done.returncode


@functools.lru_cache(None)
def assembled(text):
    """The bytes of the filter that a text spells."""
    out, status = ran(["asm"], text.encode())
    if status:
        raise AssertionError((text, out))
    return out


def part_of(kind, text):
    return part(kind, assembled(text) if kind in ("filter", "beside") else text.encode())


def bundle(parts):
    """The bundle of these parts."""
    return b"".join(part_of(*each) for each in parts)


def long_filter(loads):
    """`ld #0` so many times, and then an instruction that answers ALLOW."""
    return assembled("ld #0") * loads + assembled(ALLOW_ALL)


class OnProgram(unittest.TestCase):
    maxDiff = 4000

    @classmethod
    def setUpClass(cls):
        subprocess.run([*CORE, "--version"], stdin=subprocess.DEVNULL, stdout=subprocess.DEVNULL, check=True)

    def prints(self, words, given, text, status=0):
        """What the program prints on these bytes, and its status."""
        wanted = text if isinstance(text, bytes) else text.encode()
        out, ended = ran(words, given)
        about = words, given if len(given) < 1000 else len(given)
        self.assertEqual((out[:2000], len(out), ended), (wanted[:2000], len(wanted), status), about)
        self.assertTrue(out == wanted, about)

    def print_each(self, rows, *before):
        """What the program prints of each row: words; an input, as parts, bytes or a filter's text; a text, in which
        `..` stands for anything; and the status."""
        for words, given, text, status in rows:
            with self.subTest(words=words, given=given):
                data = bundle(given) if isinstance(given, (list, tuple)) else \
                    assembled(given) if isinstance(given, str) else given
                out, ended = ran([*before, *(words.split() if isinstance(words, str) else words)], data)
                if ".." in text:
                    self.assertRegex(out.decode(), rf"(?s)\A{'.*'.join(map(re.escape, text.split('..')))}\Z")
                else:
                    self.assertEqual(out, text if isinstance(text, bytes) else text.encode())
                self.assertEqual(ended, status)

    def refuses(self, words, text):
        """What the program prints of words that it refuses, with status 2; it doesn't wait for an input then."""
        waits, gives = os.pipe()
        try:
            self.assertEqual(ran(words, stdin=waits), (text.encode(), 2), words)
        finally:
            os.close(waits)
            os.close(gives)
