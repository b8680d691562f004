"""The engines' own code in Go: Debian's sources of moby and of containers-common, built into a program that resolves
profiles (engines.go), where they and a compiler are there."""
import functools
import json
import os
import shutil
import subprocess
import tempfile
import unittest

SOURCES = "/usr/share/gocode"
PACKAGES = ("github.com/docker/docker/profiles/seccomp", "github.com/containers/common/pkg/seccomp")
SOURCE = os.path.join(os.path.dirname(os.path.abspath(__file__)), "engines.go")
is_there = bool(shutil.which("go")) and all(
    os.path.isdir(os.path.join(SOURCES, "src", package)) for package in PACKAGES)


@functools.lru_cache(None)
def _program():
    """The built program, in a folder that goes with this process."""
    folder = tempfile.TemporaryDirectory(prefix="scf-engines-")
    path = os.path.join(folder.name, "engines")
    settings = {**os.environ, "GO111MODULE": "off", "GOPATH": SOURCES, "GOCACHE": os.path.join(folder.name, "cache"),
                "GOFLAGS": "", "CGO_ENABLED": "1"}
    done = subprocess.run(["go", "build", "-tags", "seccomp", "-o", path, SOURCE], env=settings, check=False,
                          stdin=subprocess.DEVNULL, stdout=subprocess.PIPE, stderr=subprocess.STDOUT)
    return folder, path if done.returncode == 0 else None, done.stdout.decode()


def resolved(requests):
    """For each (engine, capabilities, text of a profile) the profile that the engine makes of it, and why it is
    refused."""
    if not is_there:
        raise unittest.SkipTest("no Go compiler, or no sources of the engines")
    _, path, printed = _program()
    if path is None:
        raise unittest.SkipTest(f"the engines' code can't be built: {printed[-200:]}")
    lines = [json.dumps({"Engine": engine, "Caps": list(capabilities), "Profile": text})
             for engine, capabilities, text in requests]
    done = subprocess.run([path], input="\n".join([*lines, ""]).encode(), stdout=subprocess.PIPE, check=True)
    answers = [json.loads(line) for line in done.stdout.splitlines()]
    return [(answer["Profile"], answer["Refused"]) for answer in answers]
