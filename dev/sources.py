"""The sources as dev/believe reads them: the functions that a crate exports, their clauses, and the definitions on
which a clause stands.

Nothing is known here of types; names are followed as the imports of a file tell them.
"""
from __future__ import annotations

import functools
import os
import re
from collections.abc import Iterator
from dataclasses import dataclass

TOP = os.path.dirname(os.path.dirname(os.path.realpath(__file__)))
ITEM = re.compile(r'^(?P<indent> *)(?P<public>pub )?(?:const |extern "C" )?fn (?P<name>\w+)', re.M)
BLOCK = re.compile(r"^(?P<kind>impl|(?:pub )?trait)\b(?P<head>[^{;]*)\{", re.M)
BRACE = re.compile("[{}]")
CLAUSE = re.compile(r"\b(?:requires|ensures)(?:[ \t]+(?P<name>\w+))?\s*(?=\{)")
NAME = r"[^\s(){}\[\],.;:]+"
QUALIFIED = re.compile(rf"{NAME}(?:\.{NAME})*")
# An import of a definition, or of a module by another name, in a file of definitions or of code.
USE = re.compile(r"^[ \t]*(?:ghost |pub )?use Rattle\.(?P<path>[\w.]+?)(?:\.\{(?P<names>[^}]*)\})?"
                 r"(?: as (?P<as>\w+))?;?[ \t]*$", re.M)
# A definition, also one below the line `module _ (..) where`, by which several have the same parameters.
DEFINITION = re.compile(r"^(?:  (?=\w+ pub |pub (?:record|data) ))?(?:(?:abbrev|unfoldable|opaque) )?"
                        r"pub (?:record |data )?(?!mod\b)(?P<name>[^\s(:]+)", re.M)
PARAMETERS = re.compile(r"^module _ ", re.M)
CONSTRUCTOR = re.compile(r"^  (?:pub )?(?P<name>[^\s:]+) :", re.M)
TYPE = re.compile(r"^(?:pub(?:\([^)]*\))? )?(?:struct|enum|trait|type) (?P<name>\w+)", re.M)
RUST_USE = re.compile(r"^(?:pub )?use (?P<path>[\w:]+?)(?:::\{(?P<names>[^}]*)\}|::(?P<name>\w+))?(?: as \w+)?;", re.M)
HANDED_ON = re.compile(r"^pub use (?:crate::|self::)?([\w:]+?)(?:::\{([^}]*)\}|::(\w+|\*))(?: as \w+)?;", re.M)


def text_of(path: str) -> str:
    with open(path, encoding="utf-8") as file:
        return file.read()


def without_comments(text: str, mark: str) -> str:
    """The text with its comments blanked, each line in its place."""
    return re.sub(re.escape(mark) + r"[^\n]*", lambda match: " " * len(match[0]), text)


def line_of(text: str, at: int) -> int:
    return text.count("\n", 0, at) + 1


def closing(text: str, at: int) -> int:
    """Behind the brace that closes the one at this place."""
    depth = 0
    for brace in BRACE.finditer(text, at):
        depth += 1 if brace[0] == "{" else -1
        if depth == 0:
            return brace.end()
    return len(text)


def named(listed: str) -> dict[str, str]:
    """The names of a list in braces: what each is called here, and where it comes from."""
    sources = {}
    for item in listed.split(","):
        if item.strip():
            name, _, here = item.strip().partition(" as ")
            sources[(here or name).strip()] = name.strip()
    return sources


def exports_of(folder: str, path: str, wanted: set[str] | None = None) -> list[tuple[str, set[str] | None]]:
    """The exports of a file: pairs of a file and the names in it that are exported, None for all."""
    text = without_comments(text_of(path), "//")
    exported: list[tuple[str, set[str] | None]] = []
    for use in HANDED_ON.finditer(text):
        names = {"*"} if use[3] == "*" else set(named(use[2] or use[3]).values())
        if wanted is None or "*" in names or names & wanted:
            exported.append((use[1], None if "*" in names else names if wanted is None else names & wanted))
    for module in re.finditer(r"^pub mod (\w+);", text, re.M):
        if wanted is None:
            exported.append((module[1], None))
    pairs = []
    for module, names in exported:
        target = os.path.join(folder, *module.split("::")) + ".rt"
        if os.path.isfile(target):
            pairs.append((target, names))
            pairs += exports_of(target[:-3], target, names)
    return pairs


def exported_by(crate: str) -> dict[str, set[str] | None]:
    """The files of a crate's folder whose names are exported: which ones, None for all."""
    library = os.path.join(crate, "src", "lib.rt")
    exported: dict[str, set[str] | None] = {}
    for path, names in exports_of(os.path.join(crate, "src"), library) if os.path.isfile(library) else ():
        before = exported.get(path, set())
        exported[path] = None if names is None or before is None else before | names
    return exported


def calls_of(text: str, names: set[str] | None) -> Iterator[tuple[str, int]]:
    """The exported functions of a file, where these names of it are (None for all): their names, those of methods
    behind the name of a type or trait as in `Program::insns`, and their places."""
    blocks = [(match.start(), closing(text, match.end() - 1), match["kind"], match["head"])
              for match in BLOCK.finditer(text)]
    for match in ITEM.finditer(text):
        around = [block for block in blocks if block[0] <= match.start() < block[1]]
        behind = ""
        if not around:
            is_exported = match["public"] and (names is None or match["name"] in names)
        else:
            _, _, kind, head = around[-1]
            head = re.sub(r"^\s*<[^{]*?>\s+", " ", head)
            owner = re.search(r"\w+", head.split(" for ")[-1] if kind == "impl" else head)
            behind = f"{owner[0]}::" if owner else ""
            is_of_export = names is None or (owner and owner[0] in names)
            is_exported = is_of_export and (match["public"] if kind == "impl" else kind == "pub trait")
        if is_exported:
            yield behind + match["name"], match.end()


@dataclass(frozen=True)
class Clause:
    """A clause of a function: its name, its place and its text with the braces."""

    name: str
    place: int
    text: str


def clauses_of(text: str, at: int) -> Iterator[Clause]:
    """The clauses of the function whose name ends here."""
    depth = 0
    while at < len(text):
        clause = CLAUSE.match(text, at) if depth == 0 else None
        if clause:
            end = closing(text, clause.end())
            yield Clause(clause["name"] or "", clause.end(), text[clause.end():end])
            at = end
            continue
        if depth == 0 and text[at] in "{;":
            return
        depth += {"(": 1, "[": 1, ")": -1, "]": -1}.get(text[at], 0)
        at += 1


@dataclass(frozen=True)
class Definition:
    """A definition of specs/, or a type of the code that definitions speak of: where it stands and its text."""

    crate: str
    name: str
    path: str
    first: int
    last: int
    text: str

    @property
    def lines(self) -> int:
        return self.last - self.first + 1


class File:
    """A file of definitions or of code: what it defines, and what its names are imported from."""

    def __init__(self, crate: str, path: str):
        self.crate, self.path = crate, path
        self.is_spec = path.endswith(".antt")
        whole = text_of(path)
        self.lines = whole.split("\n")
        self.text = without_comments(whole, "--" if self.is_spec else "//")
        self.imports = dict(self._imports())
        self.definitions = dict(self._definitions() if self.is_spec else self._types())

    def _imports(self) -> Iterator[tuple[str, tuple[str, str | None]]]:
        for use in USE.finditer(self.text):
            if use["names"] is None:
                yield use["as"] or use["path"].split(".")[-1], (use["path"], None)
            for here, name in named(use["names"] or "").items():
                yield here, (use["path"], name)

    def _made(self, name: str, start: int, end: int) -> Definition:
        """A definition with the lines of its comment, which stands right above it."""
        text = self.text[start:end].rstrip()
        first = line_of(self.text, start)
        last = first + text.count("\n")
        while first > 1 and re.match(r" *(?:--|///|#\[)", self.lines[first - 2]):
            first -= 1
        return Definition(self.crate, name, self.path, first, last, text)

    def _definitions(self) -> Iterator[tuple[str, Definition]]:
        starts = list(DEFINITION.finditer(self.text))
        for match, after in zip(starts, [*starts[1:], None]):
            end = after.start() if after else len(self.text)
            parameters = PARAMETERS.search(self.text, match.end(), end)
            made = self._made(match["name"], match.start(), parameters.start() if parameters else end)
            yield made.name, made
            if re.match(r"pub data\b", made.text):
                for constructor in CONSTRUCTOR.finditer(made.text):
                    yield constructor["name"], made

    def _types(self) -> Iterator[tuple[str, Definition]]:
        for match in TYPE.finditer(self.text):
            end = re.compile(r"[;{]").search(self.text, match.end())
            stop = closing(self.text, end.start()) if end and end[0] == "{" else end.end() if end else len(self.text)
            yield match["name"], self._made(match["name"], match.start(), stop)


class Repository:
    """The crates of a repository, and what their names stand for."""

    def __init__(self, top: str = TOP):
        self.top = top
        self.crates = sorted(os.listdir(os.path.join(top, "crates")))
        self.file = functools.lru_cache(None)(self._file)

    def _file(self, crate: str, path: str) -> File | None:
        whole = os.path.join(self.top, "crates", crate, path)
        return File(crate, whole) if os.path.isfile(whole) else None

    def rank(self, crate: str) -> int:
        """The place of a crate in crates.txt, where each stands behind those that it stands on."""
        path = os.path.join(self.top, "crates.txt")
        listed = re.findall(r"^(\w+):", text_of(path), re.M) if os.path.isfile(path) else []
        return listed.index(crate) if crate in listed else len(listed)

    def shown(self, path: str) -> str:
        return os.path.relpath(path, self.top)

    @functools.lru_cache(None)
    def types(self, crate: str) -> dict[str, Definition]:
        """The types of a crate's code by name."""
        definitions: dict[str, Definition] = {}
        source = os.path.join(self.top, "crates", crate, "src")
        for folder, _, names in sorted(os.walk(source)):
            for name in sorted(names):
                if name.endswith(".rt"):
                    file = self.file(crate, os.path.relpath(os.path.join(folder, name), os.path.join(source, "..")))
                    for type_name, made in file.definitions.items() if file else ():
                        definitions.setdefault(type_name, made)
        return definitions

    def imported(self, path: str, name: str | None) -> Definition | File | None:
        """The definition, the type of the code, or the file of definitions that an import stands for."""
        crate, *steps = path.split(".")
        if crate not in self.crates or steps[:1] != ["specs"]:
            return None
        steps = steps[1:]
        if steps[:1] == ["declared"]:
            steps = [step for step in steps[1:] if step not in ("TheVariants", "Ghosts")]
            file = self.file(crate, os.path.join("src", *steps[:-1]) + ".rt") if len(steps) > 1 else None
            return file.definitions.get(steps[-1]) if file else None
        file = self.file(crate, os.path.join("specs", *steps) + ".antt")
        return file if file is None or name is None else file.definitions.get(name)

    def meant(self, file: File, name: str) -> Definition | None:
        """The definition that a name of a file stands for; the name may stand behind that of a module."""
        first, *inner = name.split(".")
        stands_for: Definition | File | None = file.definitions.get(first)
        if stands_for is None and first in file.imports:
            stands_for = self.imported(*file.imports[first])
        if isinstance(stands_for, File):
            return stands_for.definitions.get(inner[0]) if inner else None
        return stands_for

    def type_meant(self, file: File, name: str) -> Definition | None:
        """The type that a name in a file of the code stands for."""
        if name in file.definitions:
            return file.definitions[name]
        for use in RUST_USE.finditer(file.text):
            names = named(use["names"] or use["name"] or "")
            if name in names:
                crate = use["path"].split("::")[0]
                crate = file.crate if crate in ("crate", "super", "self") else crate
                return self.types(crate).get(names[name]) if crate in self.crates else None
        return None

    def cited(self, file: File, text: str) -> dict[str, Definition]:
        """The definitions that a text of a file cites, by where they stand. A variable with the name of a definition
        counts as that one, so that none is missing."""
        definitions = {}
        words = set(QUALIFIED.findall(text))
        # an operator's marks stand between its operands
        operators = {operator for operator in (*file.definitions, *file.imports)
                     if words.issuperset(operator.strip("◌").split("◌"))}
        for name in words | operators:
            made = self.meant(file, name)
            if made:
                definitions[f"{made.path}:{made.first}"] = made
        return definitions

    @functools.lru_cache(None)
    def stands_on(self, made: Definition) -> dict[str, Definition]:
        """The definitions that a definition cites."""
        file = self.file(made.crate, os.path.relpath(made.path, os.path.join(self.top, "crates", made.crate)))
        if file.is_spec:
            # a field of a record isn't cited by its own name
            return self.cited(file, re.sub(r"(?m)^  (?:pub )?[^\s:]+ :", " ", made.text))
        definitions = {}
        for name in set(re.findall(r"\b[A-Z]\w*", made.text)):
            definition = self.type_meant(file, name)
            if definition:
                definitions[f"{definition.path}:{definition.first}"] = definition
        return definitions

    def closure(self, definitions: dict[str, Definition]) -> dict[str, Definition]:
        """These definitions and all on which they stand."""
        pending = list(definitions.values())
        definitions = dict(definitions)
        while pending:
            for key, made in self.stands_on(pending.pop()).items():
                if key not in definitions:
                    definitions[key] = made
                    pending.append(made)
        return definitions
