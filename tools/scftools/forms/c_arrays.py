"""Filters as C arrays: of struct sock_filter, `{ 0x20, 0, 0, 4 },` or BPF_STMT and BPF_JUMP, also that of a whole file
with the macros that it defines itself, and once; and of bytes."""
from __future__ import annotations

import functools
import itertools
import operator
import re
from collections.abc import Iterable, Iterator, Sequence

from ..base.values import Any
from ..model import bpf, constants, tables

# (patterns are compiled when they are first used, which is rare; a comment may lack its end)
C_COMMENT = r"(?s)/\*.*?(\*/|\Z)|//[^\n]*|\"(?:\\.|[^\"\\\n])*\"|'(?:\\.|[^'\\\n])*'"
# Lines at the beginning that a compiler needs, and where `cc -E` says what a line is of.
INCLUDES, LINE_MARK = r"\A(?:\s*#[ \t]*include[^\n]*)+", r"(?m)^# [0-9][^\n]*"
# How an array of instructions begins in a file, up to its braces, and its length: a variable, or a value by itself.
OF_INSTRUCTIONS = (r"\bstruct\s+sock_filter\b\s*(?:\w+\s*\[([^][{};]{0,40})\]\s*=|\[([^][{};]{0,40})\]\s*\))\s*\{")
# What may stand before an array of bytes and behind it: `unsigned char f[] =`, `unsigned int length = 8;`.
HEAD = r"[A-Za-z_][\w\s]{0,200}\[[\w\s]{0,40}\]\s*=\s*(?={)"
ARRAY_TAIL = r"\s*;(?:\s*(?:[A-Za-z_]\w*\s+){1,6}=\s*\d+\s*;)?\s*"
CAST = r"\(\s*(?:(?:unsigned|short|int|long|char|__u(?:8|16|32)|uint(?:8|16|32)_t)\s*)+\)"
OFFSET = (r"(?:__builtin_)?offsetof\s*\(\s*struct\s+seccomp_data\s*,\s*(nr|arch|instruction_pointer|"
          r"args\s*\[\s*([0-5])\s*\])\s*\)")
# linux/seccomp.h: struct seccomp_data
FIELDS = {"nr": 0, "arch": 4, "instruction_pointer": 8}
MACRO = r"(?s)(BPF_STMT|BPF_JUMP)\s*\((.*)\)"
C_TOKEN = r"\s*(?:(0[xX][0-9a-fA-F]{1,40}|[0-9]{1,40})[uUlL]*\b|([A-Za-z_]\w*)|(<<|>>|[-|&+~()])|(\S))"
# The operators, by the names of Python's syntax trees.
SHIFTS = (operator.lshift, operator.rshift)
OPERATIONS = {"BitOr": operator.or_, "BitAnd": operator.and_, "LShift": SHIFTS[0], "RShift": SHIFTS[1],
              "Add": operator.add, "Sub": operator.sub, "Invert": operator.invert, "USub": operator.neg}
X32_BIT = {"__X32_SYSCALL_BIT": 0x40000000, "X32_SYSCALL_BIT": 0x40000000}
# The most numbers, operators and brackets of an expression; the most instructions that are read: one too many.
LONGEST_EXPRESSION, MOST_ROWS = 99, bpf.BPF_MAXINSNS + 1
DEFINITION = r"(?m)^[ \t]*#[ \t]*(define|undef)[ \t]+([A-Za-z_]\w*)(\([^()\n]*\))?[ \t]*([^\n]*)"
NAME, OPENING = r"\b[A-Za-z_]\w*", r"\s*\("
# The most characters that macros may stand for, and how deep they may be nested.
LONGEST_EXPANSION, DEEPEST, TOO_LONG = 1 << 20, 32, "its macros are too long, or nested too deep"


class NotAnArray(Exception):
    """A text isn't an array of instructions, or has something that only a compiler knows."""


def elements_of(text: str) -> Iterator[str]:
    """The elements of a list, which commas outside of brackets separate; the last comma may end it."""
    depth = begun = 0
    for match in re.finditer(r"[(){}\[\],]", text):
        if match[0] == ",":
            if not depth:
                yield text[begun:match.start()].strip()
                begun = match.end()
        else:
            depth += 1 if match[0] in "({[" else -1
    if text[begun:].strip():
        yield text[begun:].strip()


def closing(text: str, at: int, marks: str) -> int:
    """The index of the bracket that closes one, behind which the index stands."""
    depth = 1
    for mark in re.compile(f"[{re.escape(marks)}]").finditer(text, at):
        depth += 1 if mark[0] == marks[0] else -1
        if not depth:
            return mark.start()
    raise NotAnArray(f"a '{marks[0]}' isn't closed")


class Macros:
    """The macros in a text, which may define constants of the headers only as they are."""

    def __init__(self, text: str):
        self._room = LONGEST_EXPANSION
        # the parameters, None without brackets, and the text; None of a macro that is defined more than once
        self._of: dict[str, tuple[list[str] | None, str] | None] = {}
        for how, name, parameters, body in re.findall(DEFINITION, text):
            own = ([*elements_of(parameters[1:-1])] if parameters else None, body.strip())
            self._of[name] = own if how == "define" and self._of.get(name, own) == own else None

    def expanded(self, text: str, outer: tuple[str, ...] = ()) -> str:
        """A text with what its macros stand for."""
        pieces, at = [], 0
        for match in re.finditer(NAME, text):
            name = match[0]
            if match.start() < at or name in outer or name not in self._of:
                continue
            definition = self._of[name]
            if definition is None:
                raise NotAnArray(f"'{name[:40]}' is defined more than once, and only a compiler knows which one counts")
            parameters, body = definition
            opening, end = re.compile(OPENING).match(text, match.end()), match.end()
            if parameters is not None:
                if opening is None:
                    continue
                end = closing(text, opening.end(), "()")
                arguments = [*elements_of(text[opening.end():end])]
                if len(arguments) != len(parameters):
                    raise NotAnArray(f"'{name[:40]}' takes {len(parameters)} arguments, not {len(arguments)}")
                if len(body) * (1 + max(map(len, arguments), default=0)) > LONGEST_EXPANSION:
                    raise NotAnArray(TOO_LONG)
                values, end = dict(zip(parameters, arguments)), end + 1
                # `##` joins what stands beside it
                body = re.sub(r"\s*##\s*", "", re.sub(NAME, lambda word: values.get(word[0], word[0]), body))
            self._room -= len(body) + 1
            if self._room < 0 or len(outer) > DEEPEST:
                raise NotAnArray(TOO_LONG)
            value, known = self.expanded(body, (*outer, name)), _known_number(name)
            if known is not None and value_of(value) != known:
                raise NotAnArray(f"'{name[:40]}' is {value[:40]}, which it isn't in the kernel's headers")
            pieces += text[at:match.start()], value
            at = end
        return "".join([*pieces, text[at:]])


def _known_number(name: str) -> int | None:
    """A constant of the headers, or the number of a syscall."""
    bare = re.sub("^(?:SYS_|__NR_)", "", name)
    return X32_BIT.get(name, constants.numbers().get(name)) if bare == name else tables.read_table(None).number_of(bare)


def _words(text: str) -> Iterator[str]:
    """The numbers, constants and operators of an expression, as Python has them."""
    bare = re.sub(OFFSET, lambda match: str(16 + 8 * int(match[2]) if match[2] else FIELDS[match[1]]),
                  re.sub(CAST, "", text)).strip()
    for match in re.finditer(C_TOKEN, bare):
        number, name, operator_of, other = match.groups()
        if other:
            raise NotAnArray(f"'{bare[match.start():match.start() + 20].strip()}' isn't a constant expression")
        base = 16 if number and number[:2].lower() == "0x" else 8 if number and re.fullmatch("0[0-7]+", number) else 10
        known = _known_number(name) if name else None
        if name and known is None:
            raise NotAnArray(f"'{name[:40]}' is no constant that this tool knows")
        yield operator_of or str(int(number, base) if number else known)


@functools.lru_cache(1024)
def value_of(text: str) -> int:
    """The value of a constant expression of C, modulo 2^64. Python binds its operators as C does."""
    import ast  # pylint: disable=import-outside-toplevel

    def value(node: Any) -> int:
        if isinstance(node, ast.Constant):
            return node.value
        operation = OPERATIONS.get(type(getattr(node, "op", None)).__name__)
        if operation is None:
            raise NotAnArray(f"'{text[:60]}' isn't a constant expression")
        parts = list(map(value, [node.operand] if isinstance(node, ast.UnaryOp) else [node.left, node.right]))
        if operation in SHIFTS and (not 0 <= parts[1] < 64 or parts[0] < 0):
            raise NotAnArray(f"{parts[0]} can't be shifted by {parts[1]}")
        return operation(*parts)

    words = list(itertools.islice(_words(text), LONGEST_EXPRESSION + 1))
    if len(words) > LONGEST_EXPRESSION:
        raise NotAnArray("an expression is too long, or nested too deep")
    try:
        return value(ast.parse(" ".join(words), mode="eval").body) % (1 << 64)
    except SyntaxError as error:
        raise NotAnArray(f"'{text[:60]}' isn't a constant expression") from error


def _fields(text: str) -> tuple[int, int, int, int]:
    """The values of the four fields of an element, by its form."""
    macro = re.fullmatch(MACRO, text)
    fields = list(elements_of(macro[2] if macro else text[1:-1]))
    if macro and macro[1] == "BPF_STMT" and len(fields) == 2:
        fields[1:1] = "0", "0"
    elif macro and macro[1] == "BPF_JUMP" and len(fields) == 4:
        fields.append(fields.pop(1))
    elif macro or text[:1] != "{" or text[-1:] != "}" or len(fields) != 4:
        raise NotAnArray(f"'{text[:60]}' isn't an instruction: {{ code, jt, jf, k }}, BPF_STMT or BPF_JUMP")
    values = list(map(value_of, fields))
    # a number of 32 bits, which `~` and `-` make negative here
    values[3] %= 1 << 32 if values[3] >= (1 << 64) - (1 << 32) else 1 << 64
    for name, value, end in zip(("code", "jt", "jf", "k"), values, (1 << 16, 1 << 8, 1 << 8, 1 << 32)):
        if value >= end:
            raise NotAnArray(f"{name} {value:#x} of '{text[:60]}' is too large")
    return values[0], values[1], values[2], values[3]


def _elements(text: str) -> list[str]:
    """The elements of the one array of instructions in a text, or of the array that it is."""
    begins = list(re.finditer(OF_INSTRUCTIONS, text))
    if len(begins) > 1:
        raise NotAnArray(f"it has {len(begins)} arrays of struct sock_filter: give one")
    for begin in begins:
        array, length = text[begin.end():closing(text, begin.end(), "{}")], (begin[1] or begin[2] or "").strip()
        if re.search(r"(?m)^[ \t]*#", array):
            raise NotAnArray("its array has lines that a compiler may leave out: `cc -E` prints those that count")
        elements = list(elements_of(Macros(text).expanded(array)))
        if re.fullmatch("[0-9]+", length) and length != str(len(elements)):
            raise NotAnArray(f"its array has {len(elements)} of {length} instructions")
        return elements
    text = re.sub(INCLUDES, "", text).strip()
    head = re.match(HEAD, text)
    if head:
        end = text.rfind("}") + 1
        if not re.fullmatch(ARRAY_TAIL, text[end:]):
            raise NotAnArray(f"text follows the array: '{text[end:end + 40].strip()}'")
        text = text[head.end():end].strip()
    pieces = list(elements_of(text))
    if len(pieces) == 1 and pieces[0][:1] == "{" and pieces[0][-1:] == "}":
        inner = list(elements_of(pieces[0][1:-1]))
        # braces around all elements, or one instruction
        return inner if head or len(inner) != 4 or inner[0][:1] in ("{", "B") else pieces
    return pieces


def _without_comments(text: str) -> str:
    """A text without comments, quotes and broken lines; a comment without an end, which no array has, stays."""
    return re.sub(LINE_MARK, "", re.sub(C_COMMENT, lambda match: match[0] if match[1] == "" else " ",
                                        re.sub(r"\\\r?\n", " ", text))).strip()


def packed(rows: Iterable[Sequence[int]]) -> bytes:
    """The bytes of instructions, each a code, jt, jf and k."""
    return b"".join(itertools.starmap(bpf.INSTRUCTION.pack, rows))


def looks_like_array(text: str) -> bool:
    bare = _without_comments(text)
    start = re.sub(INCLUDES, "", bare).strip()
    row = re.match(r"\{\s*(?:[{(0-9]|BPF_)|BPF_(?:STMT|JUMP)\b|0x[0-9a-fA-F]{2}\s*,", start)
    return bool(row or re.match(HEAD, start) or re.search(OF_INSTRUCTIONS, bare))


def bytes_in(text: str) -> bytes:
    """The bytes of an array of instructions, at most MOST_ROWS, or of one of bytes. Raises NotAnArray."""
    elements = _elements(_without_comments(text))
    if elements and all(re.fullmatch("0[xX][0-9a-fA-F]{1,2}|[0-9]{1,3}", element) for element in elements):
        values = [int(element, 0 if element[:2].lower() == "0x" else 10) for element in elements]
        if max(values) > 255 or len(values) % 8:
            raise NotAnArray("the bytes aren't a multiple of 8, each below 256")
        return bytes(values)
    return packed(map(_fields, elements[:MOST_ROWS]))
