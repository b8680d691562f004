"""The filter that libseccomp makes of a resolved profile, as runc and crun ask it for one."""
import ctypes.util
import unittest

from scftools.model import libseccomp
from scftools.model.answers import Answer
from scftools.model.entries import Condition

NEEDED = unittest.skipUnless(ctypes.util.find_library("seccomp"), "there is no libseccomp here")


class Conflict(Exception):
    """It refuses a rule."""


class Library(libseccomp.Library):
    def filter_of(self, profile):
        """The filter of a profile on x86-64; entries that answer as the default aren't handed over."""
        default = Answer.of_profile(profile["defaultAction"], profile.get("defaultErrnoRet"))
        rules = [(name, Answer.of_profile(entry["action"], entry.get("errnoRet")), [
            Condition(each["index"], each["op"], each["value"], each.get("valueTwo", 0))
            for each in entry.get("args", ())]) for entry in profile["syscalls"] for name in entry["names"]]
        data = super().filter_of(default, profile["architectures"], (
            rule for rule in rules if rule[1] != default and self.knows(rule[0])))
        if data is None:
            raise Conflict(profile)
        return data
