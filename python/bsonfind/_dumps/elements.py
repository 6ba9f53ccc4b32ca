"""The elements of a document, as far as their lengths say where they end."""

from __future__ import annotations

import struct
from typing import Iterator, Sequence

# How many bytes the values of a type have; or the first four count, beside all but this many.
_FIXED = {0x01: 8, 0x06: 0, 0x07: 12, 0x08: 1, 0x09: 8, 0x0A: 0, 0x10: 4, 0x11: 8, 0x12: 8, 0x13: 16, 0x7F: 0, 0xFF: 0}
_COUNTED = {0x02: 4, 0x03: 0, 0x04: 0, 0x05: 5, 0x0C: 16, 0x0D: 4, 0x0E: 4, 0x0F: 0}
DOCUMENT, ARRAY, PATTERN = 0x03, 0x04, 0x0B
_KNOWN = {*_FIXED, *_COUNTED, PATTERN}
# How many bytes the values of each type have, by the type; of those that are counted -1 less how many they have beside the count.
# A pattern is neither.
SIZES = [_FIXED.get(kind, ~_COUNTED.get(kind, 0)) for kind in range(0x100)]
# The length, or the count of bytes, that is at a place: one number in a tuple.
length_at = struct.Struct("<i").unpack_from


def value_end(data: bytes, kind: int, at: int) -> int | None:
    """Where a value of a type ends that begins at a byte; None if that is not known, or not in these bytes."""
    try:
        end = end_of(data, kind, at)
    except (ValueError, struct.error):
        return None
    return end if kind in _KNOWN and at <= end <= len(data) else None


def end_of(data: bytes, kind: int, at: int) -> int:
    """Where a value ends that begins at a byte of a document without a fault."""
    size = SIZES[kind]
    if size >= 0:
        return at + size
    if kind == PATTERN:
        return data.index(b"\0", data.index(b"\0", at) + 1) + 1
    return at + int(length_at(data, at)[0]) + ~size


def elements_of(document: bytes) -> Iterator[tuple[bytes, bytes]]:
    """The names of the elements of a document without a fault, and their values, each as its type and its bytes."""
    at = 4
    while kind := document[at]:
        start = document.index(b"\0", at + 1) + 1
        end = end_of(document, kind, start)
        yield document[at + 1 : start - 1], document[at : at + 1] + document[start:end]
        at = end


def value_at(document: bytes, names: Sequence[bytes]) -> bytes | None:
    """The type and the bytes of the value to which names lead, from document to document, by the first of a name; None if none does."""
    at, end = 4, len(document) - 1
    found = b""
    for name in names:
        if found and found[0] != DOCUMENT:
            return None
        while True:
            if at >= end:
                return None
            kind, zero = document[at], document.find(b"\0", at + 1)
            stop = value_end(document, kind, zero + 1) if zero > 0 else None
            if stop is None:
                return None
            if document[at + 1 : zero] == name:
                found = document[at : at + 1] + document[zero + 1 : stop]
                at, end = zero + 5, stop - 1
                break
            at = stop
    return found


def values_at(document: bytes, names: Sequence[bytes]) -> list[bytes]:
    """The types and the bytes of all values to which names lead as in a query: from an array into each document in it, or by its position.

    Of an array at the end these are its elements. A document may have a fault: then they are those before it.
    """
    found: list[bytes] = []
    _follow(document, 4, len(document) - 1, names, found)
    return found


def array_of(values: Sequence[bytes]) -> bytes:
    """The type and the bytes of an array of values."""
    body = b"".join(it[:1] + b"%d\0" % number + it[1:] for number, it in enumerate(values))
    return bytes([ARRAY]) + (len(body) + 5).to_bytes(4, "little") + body + b"\0"


def _elements(data: bytes, at: int, end: int) -> Iterator[tuple[int, bytes, int, int]]:
    """The elements between two places, up to what is none: the type, the name, and where the value begins and ends."""
    while at < end:
        kind, zero = data[at], data.find(b"\0", at + 1)
        stop = value_end(data, kind, zero + 1) if zero > 0 else None
        if stop is None or stop > end:
            return
        yield kind, data[at + 1 : zero], zero + 1, stop
        at = stop


def _follow(data: bytes, at: int, end: int, names: Sequence[bytes], found: list[bytes]) -> None:
    """Follows names from a document, by the first field of the first name."""
    for kind, name, start, stop in _elements(data, at, end):
        if name == names[0]:
            _follow_value(data, kind, start, stop, names[1:], found)
            return


def _follow_value(data: bytes, kind: int, start: int, stop: int, names: Sequence[bytes], found: list[bytes]) -> None:
    elements = list(_elements(data, start + 4, stop - 1)) if kind == ARRAY else []
    if names and kind == DOCUMENT:
        _follow(data, start + 4, stop - 1, names, found)
    elif names:
        for number, (inner, _, begin, end) in enumerate(elements):
            if inner == DOCUMENT:
                _follow(data, begin + 4, end - 1, names, found)
            if names[0] == b"%d" % number:
                _follow_value(data, inner, begin, end, names[1:], found)
    elif elements:
        found += [bytes([inner]) + data[begin:end] for inner, _, begin, end in elements]
    else:
        found.append(bytes([kind]) + data[start:stop])


def document_with(name: bytes, value: bytes) -> bytes:
    """The document that has one field, with a value as `value_at` gives it."""
    return (len(name) + len(value) + 6).to_bytes(4, "little") + value[:1] + name + b"\0" + value[1:] + b"\0"
