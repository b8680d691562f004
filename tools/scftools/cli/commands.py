"""The commands, their other names, and which module has each; tables/commands is what `scf help` prints of them."""
from __future__ import annotations

import os

# The commands, and those that few need.
COMMANDS = ("compare", "diff", "surface", "decide", "list", "check", "lint", "compile", "profile-of", "needs", "record",
            "why", "filters-of", "verify", "audit", "oci-hook", "help")
OTHERS = {"bundle": "several files as one input, for standard input",
          "call-table": "a syscall table from kernel headers"}
# Commands by their earlier names, and the words that each stands for; one with a colon is put before inputs' names.
ALIASES = {"answers": "surface --regions", "ask": "decide --as profile", "asm": "compile --as assembler",
           "compare-profiles": "diff --profiles", "dis": "list --plain", "explain": "help",
           "resolve-profile": "profile-of --as profile", "run": "decide --steps", "unit-profile": "profile-of unit:",
           "verify-process": "verify"}
NAMES = (*COMMANDS, *ALIASES, *OTHERS)
# The commands of scfhost; scftools has all others.
OF_HOST = ("audit", "filters-of", "oci-hook", "verify")
# What people type in place of a command.
SLIPS = {"validate": "lint", "disassemble": "list", "show": "list", "dump": "filters-of", "generate": "needs",
         "trace": "record", "unit": "profile-of", "test": "decide"}


def module_of(name: str) -> str:
    """The name of the module whose docstring is the command's manual, and whose `main` runs it."""
    command = ALIASES.get(name, name).split()[0]
    return f"{'scfhost' if command in OF_HOST else 'scftools'}.commands.{command.replace('-', '_')}"


def name_at(path: str) -> str | None:
    """The command that a program, or the link by which it is called, is named by; links to links are followed."""
    while os.path.basename(path).removeprefix("scf-") not in NAMES:
        if not os.path.islink(path):
            return None
        path = os.path.join(os.path.dirname(path), os.readlink(path))
    return os.path.basename(path).removeprefix("scf-")


def same_as(name: str) -> str:
    """What a command by another name is."""
    return f"the same as scf {ALIASES[name]}"


def before_inputs(name: str | None) -> str:
    """What a command by another name puts before the names of its inputs."""
    last = ALIASES.get(name or "", "").rpartition(" ")[2]
    return last if last.endswith(":") else ""


def nearest(word: str) -> str | None:
    """The command that a word is likely to mean."""
    from difflib import get_close_matches  # pylint: disable=import-outside-toplevel

    word = word.lower()
    return SLIPS.get(word) or next(iter(get_close_matches(word, (*NAMES, "core"), 1, 0.5)), None)
