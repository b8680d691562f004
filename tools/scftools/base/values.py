"""What takes Python's own modules long at a tool's start: value classes, patterns, and the types `Any` and `NoReturn`;
a value for what the system refuses; and values by their keys.

`dataclass`, `field` and `replace` are those of the module `dataclasses`, as far as the tools need them. That imports
`inspect` and compiles methods for each class; here the methods of all classes are the same few functions. The types are
only for who reads or checks them.
"""
from __future__ import annotations

import functools
import re

TYPE_CHECKING = False
if TYPE_CHECKING:
    from collections.abc import Callable, Iterable
    from dataclasses import dataclass, field, replace
    from typing import Any, NoReturn
else:
    Any = NoReturn = object


class Pattern:
    """A regular expression, which is compiled when it is first used."""

    def __init__(self, text: str | bytes, flags: int = 0):
        self.pattern, self._flags = text, flags

    def __getattr__(self, name: str) -> Any:
        compiled = re.compile(self.pattern, self._flags)
        self.__dict__.update((name, getattr(compiled, name))
                             for name in ("finditer", "fullmatch", "match", "search", "sub"))
        return getattr(compiled, name)


def unless_refused(default: Any, call: Callable[..., Any], *words: Any, **settings: Any) -> Any:
    """What a call of the system gives, or the default where the system refuses it."""
    try:
        return call(*words, **settings)
    except OSError:
        return default


def by_key(pairs: Iterable[tuple[Any, Any]]) -> dict[Any, list[Any]]:
    """The values of each key, in order."""
    lists: dict[Any, list[Any]] = {}
    for key, value in pairs:
        lists.setdefault(key, []).append(value)
    return lists


def _init(self: Any, *given: object, **named: object) -> None:
    names, members = self.__match_args__, self.__dict__
    members.update(zip(names, given))
    if not named and len(given) == len(names):
        return
    is_wrong = len(given) > len(names) or not members.keys().isdisjoint(named)
    members.update(named)
    # (a member's maker is a partial: see field)
    members.update({name: default() if isinstance(default, functools.partial) else default
                    for name, default in self.__defaults__.items() if name not in members})
    if is_wrong or members.keys() != self.__names__:
        raise TypeError(f"{type(self).__name__} takes {', '.join(names)}")


def _members(self: Any) -> tuple[object, ...]:
    return tuple(map(self.__dict__.__getitem__, self.__match_args__))


def _eq(self: Any, other: object) -> bool:
    return _members(self) == _members(other) if type(other) is type(self) else NotImplemented


def _repr(self: Any) -> str:
    return f"{type(self).__name__}({', '.join(f'{name}={self.__dict__[name]!r}' for name in self.__match_args__)})"


def _set(self: Any, name: str, value: object) -> None:
    raise AttributeError(f"{type(self).__name__} is frozen: {name}")


if not TYPE_CHECKING:
    def field(default_factory):
        return functools.partial(default_factory)

    def dataclass(cls=None, frozen=False):
        if cls is None:
            return lambda class_body: dataclass(class_body, frozen)
        cls.__match_args__, cls.__names__ = tuple(cls.__annotations__), frozenset(cls.__annotations__)
        cls.__defaults__ = {name: cls.__dict__[name] for name in cls.__annotations__ if name in cls.__dict__}
        cls.__init__, cls.__eq__, cls.__repr__ = _init, _eq, _repr
        cls.__hash__ = (lambda self: hash(_members(self))) if frozen else None
        if frozen:
            cls.__setattr__ = _set
        return cls

    def replace(value, **changed):
        kept = [changed.pop(name) if name in changed else value.__dict__[name] for name in value.__match_args__]
        return type(value)(*kept, **changed)
