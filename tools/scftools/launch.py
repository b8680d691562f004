"""Starts a tool: each program tools/NAME is a link to the same few lines, which start the module of the command NAME.

The tools run as root, so nothing is imported from the user's environment, folders or site packages: Python's options -I
and -S see to that, and the import path gets the tools' own folder by its real name.
"""
import gc
import os
import sys

# (status 125: an older Python's own status, 1, would mean that something differs)
if sys.version_info < (3, 9):
    sys.stderr.write("%s: the tools need Python 3.9 or later\n" % os.path.basename(sys.argv[0]))
    sys.exit(125)
# (while modules are loaded the collector finds nothing, and takes some milliseconds)
gc.disable()
from .base import program  # noqa: E402 pylint: disable=wrong-import-position
from .base.values import NoReturn  # noqa: E402 pylint: disable=wrong-import-position
from .cli import commands  # noqa: E402 pylint: disable=wrong-import-position


def start(file: str) -> NoReturn:
    """Runs the tool that this program, or a link to it, is named by, and exits with its status."""

    def run() -> int:
        command = commands.name_at(file)
        if command is None:
            raise program.ToolError("this isn't the name of a command: see scf help")
        main = __import__(commands.module_of(command), fromlist=["main"]).main
        gc.enable()
        return main()

    program.start(run)
