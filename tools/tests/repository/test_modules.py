"""How the modules of the tools import each other: without a cycle, and all of them at the top of a module."""
import ast
import dataclasses
import functools
import glob
import importlib.util
import os
import pickle
import re
import unittest

from support.common import TOP, text_of
from scftools.base import values
from scftools.ask import client

TOOLS = os.path.join(TOP, "tools")
# What is dear to import and rarely needed, and those of our modules that only some runs of a tool need: each is
# imported where it is needed.
# (what takes long is never imported at the start of a tool: Python's dataclasses import inspect)
DEAR = {"dataclasses", "inspect", "typing"}
LATE = {"ast", "ctypes", "difflib", "glob", "hashlib", "importlib", "json", "pickle", "resource", "shlex", "signal",
        "subprocess", "syslog", "tempfile", "threading", "urllib.parse", "scfhost.processes", "scfhost.ptrace",
        "scfhost.units", "scftools.ask.questions", "scftools.ask.regions", "scftools.forms.strace_reader",
        "scftools.forms.lists.firejail", "scftools.forms.lists.lxc", "scftools.forms.lists.snapd",
        "scftools.forms.refusals", "scftools.forms.runtimes", "scftools.logs.cores", "scftools.report.pages",
        "scftools.report.region_output", "scftools.report.row_conditions", "scftools.report.surface_output"}

# The packages of scftools in their order, and what looks at a process or a unit.
ROOMS = "base model ask cli forms report lint logs commands".split()
ASKING_HOST = ("scftools.commands.profile_of", "scftools.commands.surface", "scftools.commands.why",
               "scftools.forms.operands", "scftools.forms.profile_inputs")


@functools.cache
def modules():
    paths = glob.glob(os.path.join(TOOLS, "scf*", "**", "*.py"), recursive=True)
    return sorted(os.path.relpath(path, TOOLS)[:-len(".py")].replace(os.sep, ".") for path in paths)


@functools.cache
def parsed(name):
    return ast.parse(text_of(os.path.join(TOOLS, *name.split(".")) + ".py"))


def imported_from(node, package):
    """What each name of a statement `from .. import ..` is called in the module, and the module that it is or is of."""
    at = importlib.util.resolve_name("." * node.level + (node.module or ""), package)
    for alias in node.names:
        whole = f"{at}.{alias.name}"
        yield alias.asname or alias.name, whole if whole in modules() else at


def imports_of(node, package, is_late=False):
    """The modules that are imported at or below a node, and for each whether a function does it."""
    for child in ast.iter_child_nodes(node):
        if isinstance(child, ast.ImportFrom):
            yield from ((module, is_late) for _, module in imported_from(child, package))
        elif isinstance(child, ast.Import):
            yield from ((name.name, is_late) for name in child.names)
        elif not (isinstance(child, ast.If) and ast.unparse(child.test) == "TYPE_CHECKING"):
            yield from imports_of(child, package, is_late or isinstance(child, ast.FunctionDef))


def imports(name):
    return set(imports_of(parsed(name), name.rpartition(".")[0]))


def cycle_in(graph):
    """The first cycle of a graph, or nothing."""
    done = set()

    def search(node, path):
        if node in path:
            return [*path[path.index(node):], node]
        if node in done:
            return []
        actual = next(filter(None, (search(neighbour, [*path, node]) for neighbour in sorted(graph[node]))), [])
        done.add(node)
        return actual

    return next(filter(None, (search(node, []) for node in sorted(graph))), [])


class Modules(unittest.TestCase):
    def test_there_is_no_cycle(self):
        names = set(modules())
        graph = {name: {imported for imported, _ in imports(name) if imported in names} for name in names}
        self.assertGreater(sum(map(len, graph.values())), 100)
        self.assertEqual(cycle_in(graph), [])

    def test_each_package_uses_only_those_before_it(self):
        """scfhost uses all of scftools, and of that only what looks at a process uses scfhost."""
        for name in modules():
            for used in {imported for imported, _ in imports(name) if imported in modules()}:
                with self.subTest(name, uses=used):
                    if used.startswith("scfhost."):
                        self.assertTrue(name.startswith("scfhost.") or name in ASKING_HOST)
                    elif name.startswith("scftools.") and name != "scftools.launch":
                        self.assertLessEqual(*(ROOMS.index(module.split(".")[1]) for module in (used, name)))

    def test_only_what_is_dear_is_imported_late(self):
        for name in modules():
            self.assertLessEqual({imported for imported, is_late in imports(name) if is_late}, LATE, name)
            self.assertFalse({imported for imported, is_late in imports(name) if not is_late} & DEAR, name)

    def test_what_modules_use_of_others_is_there(self):
        for name in modules():
            nodes = list(ast.walk(parsed(name)))
            called = dict(pair for node in nodes if isinstance(node, ast.ImportFrom)
                          for pair in imported_from(node, name.rpartition(".")[0]) if pair[1].endswith(f".{pair[0]}"))
            for node in nodes:
                if isinstance(node, ast.Attribute) and isinstance(node.value, ast.Name) and node.value.id in called:
                    module = importlib.import_module(called[node.value.id])
                    self.assertTrue(hasattr(module, node.attr), f"{name}, line {node.lineno}: {ast.unparse(node)}")

    def test_each_says_in_its_first_line_what_it_has(self):
        for name in modules():
            self.assertRegex(ast.get_docstring(parsed(name)), r"\A\w.{20}", name)

    def test_scf_is_run_in_one_module(self):
        for name in set(modules()) - {"scftools.ask.client", "scftools.logs.tracing"}:
            self.assertNotIn("posix_spawn", ast.unparse(parsed(name)), name)


class Values(unittest.TestCase):
    """Value classes are like those of Python's dataclasses."""

    def test_they_behave_as_python_s(self):
        for make in (dataclasses, values):
            with self.subTest(make.__name__):
                @make.dataclass(frozen=True)
                class Point:
                    x: int
                    y: int = 2

                @make.dataclass
                class Bag:
                    items: list = make.field(default_factory=list)

                point = Point(1)
                self.assertEqual((point, point.y, hash(point)), (Point(x=1, y=2), 2, hash(Point(1, 2))))
                self.assertNotEqual(point, Point(1, 3))
                self.assertNotEqual(point, (1, 2))
                self.assertEqual(make.replace(point, y=7), Point(1, 7))
                self.assertRegex(repr(point), r"Point\(x=1, y=2\)$")
                with self.assertRaises(AttributeError):
                    point.x = 3
                for given, named in (((), {}), ((1, 2, 3), {}), ((1,), {"x": 1}), ((1,), {"z": 1})):
                    self.assertRaises(TypeError, Point, *given, **named)
                bag = Bag()
                bag.items.append(1)
                self.assertEqual(Bag(), Bag([]))
                bag.items = [2]
                self.assertEqual(bag, Bag([2]))
                self.assertRaises(TypeError, hash, bag)

    def test_patterns_are_compiled_when_they_are_used(self):
        pattern = values.Pattern("(A)(b)", re.I)
        self.assertEqual((pattern.fullmatch("aB")[2], pattern.sub(r"\2\1", "abc"), pattern.groups), ("B", "bac", 2))
        with self.assertRaises(re.error):
            values.Pattern("(").match("x")

    def test_they_are_pickled(self):
        fault = client.Fault.read("fault profile Conflict number 41 first 0 second 1")
        self.assertEqual(pickle.loads(pickle.dumps(fault)), fault)
