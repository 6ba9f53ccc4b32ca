"""The fields of documents: their paths, how many of their values are of each type, and what these are like."""

from __future__ import annotations

import json
import random
import re
from typing import Any, Callable, Iterator, NamedTuple, Sequence, Tuple

from .._dumps.elements import ARRAY, DOCUMENT, SIZES, end_of, length_at
from .cells import NAMES, TEXTS, Cell
from .count import TooManyError
from .texts import order_of

# More names below a path become one, and more paths are too many.
MOST_NAMES, MOST_PATHS = 1000, 100_000
# What a document lacks is counted under this name of a type.
MISSING = "missing"
# A name with one of these looks like several names of a path, like elements or like all other names.
_AMBIGUOUS = re.compile(r'[.\[\]"*]')
# What is in place of the number of bytes of a value, in a slot.
_OTHER, _TEXT, _NESTED, _LISTED = -1, -2, -3, -4
_CODES = {DOCUMENT: _NESTED, ARRAY: _LISTED, **dict.fromkeys(TEXTS, _TEXT)}


class Field:
    """What is known of the values at a path."""

    __slots__ = ("cells", "slots", "names", "others", "elements", "seen")

    def __init__(self) -> None:
        # The number of the last document that has it.
        self.seen = 0
        # By the types of values.
        self.cells: dict[int, Cell] = {}
        # The fields of the documents among the values by their names, or the one for all names if there are too many.
        self.names: dict[bytes, Field] = {}
        self.others: Field | None = None
        # The elements of the arrays among the values.
        self.elements: Field | None = None
        # Where a value goes, by the type and the name before it, or of an element by the type.
        self.slots: dict[Any, Slot] = {}

    def below(self) -> Iterator[tuple[str, Field]]:
        """The fields below this one, with what their path has beside that of this one."""
        if self.elements:
            yield "[]", self.elements
        for name, field in self.names.items():
            yield f".{_shown(name.decode())}", field
        if self.others:
            yield ".*", self.others

    def all(self) -> Iterator[Field]:
        yield self
        for _, field in self.below():
            yield from field.all()

    def slot(self, kind: int) -> Slot:
        """Where its values of a type go."""
        cell = self.cells.get(kind)
        if cell is None:
            cell = self.cells[kind] = Cell(kind)
        return cell.waiting.append, self, _CODES.get(kind, max(SIZES[kind], _OTHER))

    def merge(self, other: Field) -> None:
        for kind, cell in other.cells.items():
            if kind in self.cells:
                self.cells[kind].merge(cell)
            else:
                self.cells[kind] = cell
        for name, field in other.names.items():
            if self.others or name in self.names:
                (self.others or self.names[name]).merge(field)
            else:
                self.names[name] = field
        if other.others or len(self.names) > MOST_NAMES:
            self.fold().merge(other.others or Field())
        if other.elements:
            self.elements = self.elements or Field()
            self.elements.merge(other.elements)

    def __getstate__(self) -> tuple[Any, ...]:
        """What another process gets, which finds out by itself where values go."""
        return self.cells, self.names, self.others, self.elements

    def __setstate__(self, state: tuple[Any, ...]) -> None:
        self.slots, self.seen = {}, 0
        self.cells, self.names, self.others, self.elements = state

    def fold(self) -> Field:
        """Makes one field of those of all names, and gives it."""
        self.others = self.others or Field()
        for field in self.names.values():
            self.others.merge(field)
        self.names.clear()
        self.slots.clear()
        return self.others


# What takes a value, its field, and how many bytes the values of the type have, or a number below zero.
Slot = Tuple[Callable[[bytes], None], Field, int]


class Row(NamedTuple):
    """What is printed of a path: how many values are of each type, and the least, the greatest and one of them."""

    path: str
    types: dict[str, int]
    least: bytes | None
    greatest: bytes | None
    example: bytes | None


class Schema:
    """The fields of documents, of all of them or of a sample of this many."""

    def __init__(self, sample: int | None = None) -> None:
        self._root = Field()
        # How many paths there are at most.
        self._paths = 0
        # How many documents there are, and how many were looked at.
        self.documents = self.looked_at = 0
        self._size = sample
        self._sample: list[bytes] = []
        # The same dump has the same sample.
        self._random = random.Random(0).random

    def take(self, documents: Sequence[bytes]) -> None:
        """Looks at some documents, or chooses among them."""
        if self._size is None:
            self.add(Looked(documents))
            return
        for number, document in enumerate(documents, self.documents + 1):
            if len(self._sample) < self._size:
                self._sample.append(document)
            elif (at := int(self._random() * number)) < self._size:
                self._sample[at] = document
        self.documents += len(documents)

    def add(self, looked: Looked) -> None:
        self._merge(looked)
        self.documents += looked.documents

    def _merge(self, looked: Looked) -> None:
        self._root.merge(looked.root)
        self._paths += looked.paths
        if self._paths > MOST_PATHS:
            self._paths = sum(1 for _ in self._root.all()) - 1
            refuse_paths(self._paths)
        self.looked_at += looked.documents

    def rows(self) -> Iterator[Row]:
        """A row of each path, in the order in which they were found, those below a path after it."""
        sample, self._sample = self._sample, []
        self._merge(Looked(sample))
        for rest, field in self._root.below():
            yield from _rows(rest[1:], field, None if field is self._root.others else self.looked_at)


def refuse_paths(paths: int) -> None:
    if paths > MOST_PATHS:
        raise TooManyError(f"the documents have more than {MOST_PATHS:,} paths: --sample N looks at fewer of them")


class Looked:
    """What was found in some documents without a fault: their fields, how many paths these have, and how many documents there were."""

    def __init__(self, documents: Sequence[bytes]) -> None:
        self.root, self.paths, self.documents = Field(), 0, len(documents)
        # How many documents were begun, those in documents too.
        self._begun = 0
        for document in documents:
            self._fields(self.root, document, 4)
        for field in self.root.all():
            for cell in field.cells.values():
                cell.look()

    def _fields(self, field: Field, data: bytes, at: int) -> int:
        """Takes the fields of a document, whose first one begins at a byte, and gives where it ends. Of one name it is the first."""
        slots, find = field.slots, data.find
        self._begun = number = self._begun + 1
        while data[at]:
            start = find(b"\0", at + 1) + 1
            head = data[at:start]
            try:
                append, inner, size = slots[head]
            except KeyError:
                append, inner, size = self._slot(field, head)
            if inner.seen == number and inner is not field.others:
                at = end_of(data, head[0], start)
                continue
            inner.seen = number
            if size >= 0:
                at = start + size
                append(data[start:at])
            elif size == _TEXT:
                at = start + 4 + length_at(data, start)[0]
                append(data[start + 4 : at])
            else:
                at = self._value(append, inner, size, data, head[0], start)
        return at + 1

    def _elements(self, field: Field, data: bytes, at: int) -> int:
        """The same of the elements of an array."""
        field.elements = field.elements or self._new()
        field = field.elements
        slots, find = field.slots, data.find
        while kind := data[at]:
            start = find(b"\0", at + 1) + 1
            try:
                append, _, size = slots[kind]
            except KeyError:
                append, _, size = slots[kind] = field.slot(kind)
            if size >= 0:
                at = start + size
                append(data[start:at])
            elif size == _NESTED:
                append(b"")
                at = self._fields(field, data, start + 4)
            else:
                at = self._value(append, field, size, data, kind, start)
        return at + 1

    def _value(self, append: Callable[[bytes], None], field: Field, size: int, data: bytes, kind: int, start: int) -> int:
        """Takes a value whose bytes are counted, and what is in it, and gives where it ends."""
        if size == _NESTED or size == _LISTED:
            append(b"")
            return (self._fields if size == _NESTED else self._elements)(field, data, start + 4)
        end = end_of(data, kind, start)
        append(data[start + 4 if size == _TEXT else start : end])
        return end

    def _slot(self, field: Field, head: bytes) -> Slot:
        """Where the values go that come after a type and a name, which was new or is not kept."""
        kind, name = head[0], head[1:-1]
        if field.others:
            return field.others.slot(kind)
        if name not in field.names:
            if len(field.names) == MOST_NAMES:
                others = field.fold()
                self.paths = sum(1 for _ in self.root.all()) - 1
                return others.slot(kind)
            field.names[name] = self._new()
        slot = field.slots[head] = field.names[name].slot(kind)
        return slot

    def _new(self) -> Field:
        self.paths += 1
        refuse_paths(self.paths)
        return Field()


def _shown(name: str) -> str:
    """A name as a part of a path: in quotation marks, as JSON has it, where it would be the path of another field."""
    return json.dumps(name, ensure_ascii=False) if _AMBIGUOUS.search(name) else name


def _rows(path: str, field: Field, total: int | None) -> Iterator[Row]:
    """The rows of a field, which as many documents may have, and of those below it. Of elements the number is not known."""
    if not field.cells:
        return  # The elements of arrays that are all empty.
    cells = sorted((it for it in field.cells.values() if it.count), key=lambda cell: -cell.count)
    types = {NAMES[cell.kind]: cell.count for cell in cells}
    missing = 0 if total is None else total - sum(types.values())
    # It has the place that it has by its number.
    types = dict(sorted({**types, MISSING: missing}.items(), key=lambda it: -it[1])) if missing > 0 else types
    firsts = [cell.first for cell in cells if cell.first is not None]
    least = min((it for cell in cells if (it := cell.least) is not None), key=order_of, default=None)
    greatest = max((it for cell in cells if (it := cell.greatest) is not None), key=order_of, default=None)
    yield Row(path, types, least, greatest, firsts[0] if firsts else None)
    documents = field.cells[DOCUMENT].count if DOCUMENT in field.cells else None
    for rest, inner in field.below():
        yield from _rows(f"{path}{rest}", inner, None if inner in (field.elements, field.others) else documents)
