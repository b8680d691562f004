"""Where values stand in a JSON text: lines and columns, and paths such as syscalls[3].args[0].op."""
from __future__ import annotations

import json
import re
from collections.abc import Collection, Iterator, Sequence

from .values import Pattern

# How a token begins: a string, and others, which end here; and in a string an escape, or the quote that ends it.
JSON_TOKEN, IN_STRING = Pattern(r'"|[\[\]{},:]|[^\s\[\]{},:"]+'), Pattern(r'\\.|"', re.S)
MEMBER_NAME = Pattern(r"[A-Za-z_]\w*", re.A)
# At most so many characters of a member's name are printed; and so many tokens are read, which no honest profile has.
LONGEST_STEP, MOST_TOKENS = 40, 1 << 20

# The names of members and the indexes in arrays that lead to a value.
Path = Sequence["str | int"]


def path_text(path: Path) -> str:
    """A path as JavaScript has it; of the whole text nothing."""
    text = ""
    for step in path:
        if isinstance(step, int):
            text += f"[{step}]"
        elif MEMBER_NAME.fullmatch(step) and len(step) <= LONGEST_STEP:
            text += f".{step}" if text else step
        else:
            shown = step if len(step) <= LONGEST_STEP else f"{step[:LONGEST_STEP]}.."
            text += f"[{json.dumps(shown)}]"
    return text


def line_and_column(text: str, at: int) -> tuple[int, int]:
    """The line and the column of a character, each from 1 on."""
    return text.count("\n", 0, at) + 1, at - (text.rfind("\n", 0, at) + 1) + 1


def place(text: str, at: int) -> str:
    """The line and the column of a character, in words."""
    return "line {}, column {}".format(*line_and_column(text, at))


class TooManyTokens(Exception):
    """The text has more than MOST_TOKENS tokens."""


def tokens(text: str) -> Iterator[tuple[int, str]]:
    """The tokens of a text, each with its index. Raises TooManyTokens."""
    end = 0
    for _ in range(MOST_TOKENS):
        match = JSON_TOKEN.search(text, end)
        if not match:
            return
        begin, end = match.span()
        if text[begin] == '"':
            # (a text may end in a string)
            end = next((match.end() for match in IN_STRING.finditer(text, begin + 1) if match[0] == '"'), len(text))
        yield begin, text[begin:end]
    raise TooManyTokens


def values(text: str) -> Iterator[tuple[int, list[str | int], str]]:
    """Each value of a text in order: where it begins, its path, which changes with the next one, and its first token. A
    text that isn't JSON is followed as far as that makes sense. Raises TooManyTokens."""
    # of each object and array that is open its bracket, and in `path` the member or the index
    open_in: list[str] = []
    path: list[str | int] = []
    is_name = False
    for begin, token in tokens(text):
        if token == ",":
            if open_in and open_in[-1] == "[":
                path[-1] = int(path[-1]) + 1
            is_name = bool(open_in) and open_in[-1] == "{"
        elif token in "]}" and open_in:
            open_in.pop()
            path.pop()
            is_name = False
        elif is_name and token[0] == '"':
            is_name = False
            try:
                path[-1] = json.loads(token)
            except ValueError:
                path[-1] = token
        elif token not in ":]}":
            yield begin, path, token
            if token in "[{":
                open_in.append(token)
                path.append(0 if token == "[" else "")
                is_name = token == "{"


def indexes_of(text: str, paths: Collection[Path]) -> dict[Path, int]:
    """Where the values at some paths begin, as far as they are found; of a member that is repeated, the last."""
    try:
        return {tuple(here): begin for begin, here, _ in values(text) if tuple(here) in paths}
    except TooManyTokens:
        return {}


def place_of(text: str, path: Path) -> str | None:
    """The line and the column of the value at a path, None if it isn't found."""
    at = indexes_of(text, {tuple(path)}).get(tuple(path))
    return None if at is None else place(text, at)


def where_in(text: str, at: int) -> str:
    """The member that a character is in or after, as "in syscalls[3].args"; nothing at the top, or if none is found."""
    word = ""
    path: list[str | int] = []
    try:
        for begin, here, token in values(text):
            if begin > at:
                break
            is_over = token not in ("[", "{") and begin + len(token) <= at
            word, path = "after" if is_over else "in", here.copy()
    except TooManyTokens:
        return ""
    # (of a member whose name isn't read)
    path = path[:-1] if path[-1:] == [""] else path
    return f"{word} {path_text(path)}" if path else ""
