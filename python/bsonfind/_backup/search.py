"""What a text, an id or a UUID is found in: the names and the texts of documents, as a process of Python looks for another one.

Nothing is printed here, and each document was checked before.
"""

from __future__ import annotations

import re
import signal
import sys
import warnings
from contextlib import contextmanager
from importlib import import_module
from typing import Any, Callable, Iterator, NamedTuple

from .._dumps.elements import ARRAY, DOCUMENT, PATTERN, SIZES, end_of, length_at, value_at

_BINARY, _ID, _POINTER, _CODE, _SCOPED = 0x05, 0x07, 0x0C, 0x0D, 0x0F
# The types whose values are texts alone.
_TEXTS = (0x02, _CODE, 0x0E)
# A UUID is of this subtype, or as old drivers wrote it of the other one, with its bytes in some order.
_UUID, _OLD_UUID = 4, 3
_UUID_SIZE = 16
# How many names are known at most, how many bytes of documents are looked at as one text, and how many a path has.
_MOST_NAMES, _BLOCK, _LONGEST_PATH = 10_000, 1 << 16, 1000
# How many looks at the time end a pattern that is at one text.
_LOOKS = 10


class Wanted(NamedTuple):
    """A text or a pattern, and of a text with the form of an id or a UUID the bytes of that; old UUIDs are those of the older subtype."""

    text: str
    is_pattern: bool = False
    ignores_case: bool = False
    id: bytes | None = None
    uuid: bytes | None = None
    old_uuids: tuple[bytes, ...] = ()
    seconds: float = 0.0
    # False where fields are counted alone.
    with_values: bool = True


class Match(NamedTuple):
    """A document with what was found: the bytes of its id, and the path and the value of each field.

    The type of a value is its first byte. That of a document or an array is empty, since what is in it has its own path, and of code
    with scope it is the code. A long path has its beginning alone.
    """

    id: bytes | None
    fields: list[tuple[str, bytes]]


class Found(NamedTuple):
    """In how many documents and fields something was found, each of them unless they are counted, and the paths that took too long."""

    documents: int
    fields: int
    matches: list[Match]
    slow: list[Match]


class _TooLong(Exception):
    """A pattern took too long on a text."""


class Search:
    """The search for one thing in documents."""

    def __init__(self, wanted: Wanted) -> None:
        self._wanted = wanted
        self._text = (wanted.text.casefold() if wanted.ignores_case else wanted.text).encode()
        self._folded = wanted.text.casefold()
        self._pattern = compiled(wanted.text, wanted.ignores_case) if wanted.is_pattern else None
        literal = b"" if wanted.ignores_case else literal_in(self._pattern) if self._pattern else self._text
        # What a document must have one of among its bytes, unless it is looked at in another way.
        self._needles = [it for it in (wanted.id, wanted.uuid, *wanted.old_uuids, literal) if it]
        self._has_bytes = bool(literal)
        # Whether the names that are known match.
        self._names: dict[bytes, bool] = {}
        # The value that is looked at, the one at the last look at the time, and how many times that was the same; 0 is none.
        self._at = self._was_at = self._times = 0
        # The fields of the document that is looked at, and those on which a pattern took too long.
        self._fields: list[tuple[str, bytes]] = []
        self._slow: list[tuple[str, bytes]] = []

    def run(self, data: bytes) -> Found:
        documents = fields = 0
        matches: list[Match] = []
        slow: list[Match] = []
        with _alarm(self._look_at_time, self._wanted.seconds if self._pattern else 0.0):
            for start, end in self._candidates(data):
                self._fields, self._slow = [], []
                self._look(data, start, None, False)
                self._at = 0
                if self._fields or self._slow:
                    number = value_at(data[start:end], [b"_id"])
                    documents += bool(self._fields)
                    fields += len(self._fields)
                    if self._fields and self._wanted.with_values:
                        matches.append(Match(number, self._fields))
                    if self._slow:
                        slow.append(Match(number, self._slow))
        return Found(documents, fields, matches, slow)

    def _candidates(self, data: bytes) -> Iterator[tuple[int, int]]:
        """Where the documents begin and end that are looked at."""
        if self._has_bytes:
            yield from self._with_bytes(data)
        elif self._pattern:
            yield from _documents(data, 0, len(data))
        else:
            # Bytes of other values do not hide a text: before it is a zero or the type of a field, which ends what is no character.
            for start, end in _blocks(data):
                if self._may_match(data[start:end]):
                    yield from (it for it in _documents(data, start, end) if self._may_match(data[it[0] : it[1]]))

    def _may_match(self, data: bytes) -> bool:
        """Whether some documents have a needle among their bytes, or the text where cases are the same."""
        return self._folded in data.decode(errors="replace").casefold() or any(it in data for it in self._needles)

    def _with_bytes(self, data: bytes) -> Iterator[tuple[int, int]]:
        """Where the documents begin and end that have a needle."""
        at, places = 0, [data.find(it) for it in self._needles]
        while any(it >= 0 for it in places):
            nearest = min(it for it in places if it >= 0)
            (length,) = length_at(data, at)
            while at + length <= nearest:
                at += length
                (length,) = length_at(data, at)
            yield at, at + length
            at += length
            places = [data.find(needle, at) if 0 <= place < at else place for place, needle in zip(places, self._needles)]

    def _look(self, data: bytes, at: int, path: bytes | None, is_array: bool) -> None:
        """Looks at the fields of a document or an array that begins there. The names in an array are numbers, and are no texts."""
        names, end = self._names, at + length_at(data, at)[0] - 1
        at += 4
        while at < end:
            kind, zero = data[at], data.index(0, at + 1)
            name = data[at + 1 : zero]
            self._at = start = zero + 1
            is_match = False
            try:
                if not is_array:
                    known = names.get(name)
                    is_match = self._matches_name(name) if known is None else known
                if kind in _TEXTS:
                    stop = start + 4 + length_at(data, start)[0]
                    is_match = is_match or self._matches(data[start + 4 : stop - 1])
                elif (size := SIZES[kind]) >= 0 and kind != _ID:
                    stop = start + size
                else:
                    stop = end_of(data, kind, start)
                    is_match = is_match or self._matches_value(data, kind, start, stop)
            except _TooLong:
                stop = end_of(data, kind, start)
                self._slow.append((_path(path, name), b""))
            if is_match:
                self._fields.append((_path(path, name), self._value(data, kind, start, stop)))
            if kind in (DOCUMENT, ARRAY):
                self._look(data, start, _below(path, name), kind == ARRAY)
            elif kind == _SCOPED:
                self._look(data, start + 8 + length_at(data, start + 4)[0], _below(path, name), False)
            at = stop

    def _value(self, data: bytes, kind: int, start: int, stop: int) -> bytes:
        """A value as a match has it."""
        if kind in (DOCUMENT, ARRAY) or not self._wanted.with_values:
            return b""
        if kind == _SCOPED:
            return bytes([_CODE]) + data[start + 4 : start + 8 + length_at(data, start + 4)[0]]
        return bytes([kind]) + data[start:stop]

    def _matches_name(self, name: bytes) -> bool:
        """Whether a name that is not known matches."""
        if len(self._names) >= _MOST_NAMES:
            self._names.clear()
        self._names[name] = self._matches(name)
        return self._names[name]

    def _matches_value(self, data: bytes, kind: int, start: int, stop: int) -> bool:
        """Whether a value is a text that matches or has one, or is the id or the UUID."""
        if kind == _ID:
            return data[start:stop] == self._wanted.id
        if kind == _BINARY:
            subtype, value = data[start + 4], data[start + 5 : stop]
            is_old = subtype == _OLD_UUID and value in self._wanted.old_uuids
            return len(value) == _UUID_SIZE and (subtype == _UUID and value == self._wanted.uuid or is_old)
        if kind == _POINTER:
            return self._matches(data[start + 4 : stop - 13]) or data[stop - 12 : stop] == self._wanted.id
        if kind == PATTERN:
            return self._matches(data[start : data.index(0, start)])
        return kind == _SCOPED and self._matches(data[start + 8 : start + 7 + length_at(data, start + 4)[0]])

    def _matches(self, text: bytes) -> bool:
        """Whether a text has what is looked for."""
        if self._pattern is not None:
            return self._pattern.search(text.decode()) is not None
        return self._folded in text.decode().casefold() if self._wanted.ignores_case else self._text in text

    def _look_at_time(self, *_: object) -> None:
        """Ends a pattern that is at the same text as all the times before: Python takes a signal meanwhile."""
        self._times = self._times + 1 if self._at == self._was_at else 0
        self._was_at = self._at
        if self._times >= _LOOKS:
            self._times = 0
            raise _TooLong


@contextmanager
def _alarm(ring: Callable[..., None], seconds: float) -> Iterator[None]:
    """Has a function called again and again meanwhile, as often as is needed for a number of seconds; for none never."""
    if not seconds:
        yield
        return
    signal.signal(signal.SIGALRM, ring)
    signal.setitimer(signal.ITIMER_REAL, seconds / _LOOKS, seconds / _LOOKS)
    try:
        yield
    finally:
        signal.setitimer(signal.ITIMER_REAL, 0)


def compiled(text: str, ignores_case: bool) -> re.Pattern[str]:
    """A pattern, of which Python prints no warning, such as that another version of it may read it in another way."""
    with warnings.catch_warnings():
        warnings.simplefilter("ignore")
        return re.compile(text, re.IGNORECASE if ignores_case else 0)


def literal_in(pattern: re.Pattern[str]) -> bytes:
    """A text that all that a pattern matches has, as Python itself reads the pattern; an empty one if none is known."""
    runs = [""]
    try:
        parser: Any = import_module("re._parser" if sys.version_info >= (3, 11) else "sre_parse")
        with warnings.catch_warnings():
            warnings.simplefilter("ignore")  # They were not printed where it was compiled.
            parts = () if pattern.flags & re.IGNORECASE else parser.parse(pattern.pattern, pattern.flags)
        for kind, value in parts:
            runs[-1:] = [runs[-1] + chr(value)] if str(kind) == "LITERAL" else [runs[-1], ""]
        return max(runs, key=len).encode()
    except (ImportError, AttributeError, TypeError, ValueError):
        return b""  # Another Python reads patterns in another way; then each text is looked at.


def _documents(data: bytes, at: int, end: int) -> Iterator[tuple[int, int]]:
    while at < end:
        (length,) = length_at(data, at)
        yield at, at + length
        at += length


def _blocks(data: bytes) -> Iterator[tuple[int, int]]:
    """Where some documents begin and end that are looked at as one text."""
    start = 0
    for _, end in _documents(data, 0, len(data)):
        if end - start >= _BLOCK:
            yield start, end
            start = end
    if start < len(data):
        yield start, len(data)


def _path(path: bytes | None, name: bytes) -> str:
    return _below(path, name).decode(errors="ignore")


def _below(path: bytes | None, name: bytes) -> bytes:
    """The path of a field, by that of the document that it is in, or by none."""
    return (name if path is None else path + b"." + name)[:_LONGEST_PATH]
