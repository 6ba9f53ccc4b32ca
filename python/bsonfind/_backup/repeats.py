"""The `_id`s that several documents of a dump have, in memory that does not grow with it."""

from __future__ import annotations

from contextlib import AbstractContextManager
from fractions import Fraction
from itertools import groupby
from typing import NamedTuple

from .._dumps.elements import value_at
from .._dumps.paths import is_finite, number_of
from .compare import Sorter

_ID = [b"_id"]


class Repeat(NamedTuple):
    """An `_id`, as its type and its bytes, and how many documents have it."""

    id: bytes
    documents: int


class Repeats(AbstractContextManager["Repeats"]):
    """The ids of documents. They are the same if their bytes are, and numbers if their values are, as those of the index on `_id`."""

    def __init__(self) -> None:
        self._sorter = Sorter()

    def take(self, document: bytes) -> None:
        """Takes the `_id` of a document, if it has one."""
        value = value_at(document, _ID)
        if value:
            self._sorter.add(b"%s\t%s\n" % (_key(value), value.hex().encode()))

    def found(self, most: int) -> tuple[int, list[Repeat]]:
        """How many ids several documents have, and the first of these, this many at most."""
        count, first = 0, list[Repeat]()
        for _, lines in groupby(self._sorter.all(), lambda line: line.partition(b"\t")[0]):
            line, documents = next(lines), 1 + sum(1 for _ in lines)
            if documents > 1:
                count += 1
                if count <= most:
                    first.append(Repeat(bytes.fromhex(line.partition(b"\t")[2].decode()), documents))
        return count, first

    def __exit__(self, *_: object) -> None:
        self._sorter.__exit__()


def _key(value: bytes) -> bytes:
    """What ids that are the same have in common."""
    number = number_of(value)
    if number is None:
        return value.hex().encode()
    return f"n{Fraction(number) if is_finite(number) else float(number)}".encode()
