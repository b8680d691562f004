"""Bundles: several inputs as one, which is how scf reads them, since it opens no file itself."""
from __future__ import annotations

from collections.abc import Iterable, Sequence

from ..base.values import Pattern
from .architectures import JUDGED
from .tables import Tables

TABLES = tuple(architecture.kind for architecture in JUDGED.values())
# The kinds of a filter and of a profile of the other side: `scf compare` reads them, filters with --beside.
BESIDE, BESIDE_PROFILE = "beside", "beside-profile"
# (of a table's architecture the first number that runc's stub answers, and how often its syscalls are called)
PART_KINDS = ("filter", "profile", BESIDE, BESIDE_PROFILE, *TABLES, *(f"stub-{table}" for table in TABLES),
              *(f"counts-{table}" for table in TABLES))
# The most bytes that scf reads; it refuses a longer bundle.
LONGEST_BUNDLE = 1 << 24
# How a bundle begins, and no filter, no text of one and no profile does.
BEGINNING = Pattern(f"(?:{'|'.join(PART_KINDS)}) ".encode())


def bundle(parts: Iterable[tuple[str, bytes]]) -> bytes:
    """The parts, each after a header with its kind and its length in bytes."""
    pieces: list[bytes] = []
    length = 0
    for kind, data in parts:
        pieces += b"%s %d\n" % (kind.encode(), len(data)), data
        length += len(pieces[-2]) + len(data)
        if length > LONGEST_BUNDLE:
            break
    return b"".join(pieces)


def stack_bundle(filters: Sequence[bytes]) -> bytes:
    """The bundle for `scf decide`: filters, oldest first."""
    return bundle(("filter", data) for data in filters)


def profile_bundle(profile: bytes, tables: Tables, filters: Sequence[bytes] = (),
                   counts: Iterable[tuple[str, bytes]] = ()) -> bytes:
    """The bundle of a profile and tables, with filters, oldest first, or with how often syscalls are called."""
    return bundle([*(("filter", data) for data in filters), ("profile", profile), *tables.parts, *counts])
