"""The values to which a path leads in documents without a fault, in their bytes, and the numbers among values."""

from __future__ import annotations

import re
import struct
from decimal import ROUND_HALF_EVEN, Context, Decimal
from math import isfinite
from typing import Union

from .._errors import ArgumentError
from .elements import ARRAY, DOCUMENT, PATTERN, SIZES, end_of, length_at

# As many names as the program takes.
_MOST_NAMES = 100
# The names that are a position in an array too.
_POSITION = re.compile("0|[1-9][0-9]*", re.ASCII)
# A number as it is: of a double a float, of a decimal128 a Decimal. Python compares them by their values, exactly.
Number = Union[int, float, Decimal]
# The types of numbers in a dump, and the bits of the digits of a decimal128.
DOUBLE, DECIMAL, INTEGERS = 0x01, 0x13, (0x10, 0x12)
_DIGITS = (1 << 113) - 1
# As decimal128 rounds: to 34 digits, and no further than its exponents reach.
DECIMAL128 = Context(prec=34, rounding=ROUND_HALF_EVEN, Emin=-6143, Emax=6144, clamp=1, traps=[])
_double_at = struct.Struct("<d").unpack_from


class Path:
    """The path of a field: names joined by dots, which a query takes too.

    A name leads from a document to its first field of that name, from an array into each document in it, and if it is a number, to
    the element at that position too.
    """

    def __init__(self, text: str, *, has_empty: bool = True) -> None:
        """Whether an empty array has a value, which is itself."""
        names = text.split(".")
        try:
            is_text = b"\0" not in text.encode()
        except UnicodeEncodeError:
            is_text = False  # It has half of a character.
        if not is_text:
            raise ArgumentError(f"not the path of a field: {text!r}")
        if len(names) > _MOST_NAMES or not all(names):
            why = "too many components" if len(names) > _MOST_NAMES else "empty component"
            raise ArgumentError(f'path "{text}": {why}')
        self._text, self._has_empty = text, has_empty
        # The bytes of each name, and the position that it is; no array has -1.
        self._names = [(name.encode() + b"\0", int(name[:20]) if _POSITION.fullmatch(name) else -1) for name in names]

    def __str__(self) -> str:
        return self._text

    def names(self) -> list[bytes]:
        return [name[:-1] for name, _ in self._names]

    def values(self, document: bytes) -> list[bytes]:
        """The values to which it leads, each as its type and its bytes: of an array the elements."""
        found: list[bytes] = []
        self._from_document(document, 4, 0, found)
        return found

    def _from_document(self, data: bytes, at: int, level: int, found: list[bytes]) -> None:
        """Follows the names from one on, from the document whose first field begins at a byte."""
        find, is_name_at, length_of, sizes, names = data.find, data.startswith, length_at, SIZES, self._names
        while True:
            name = names[level][0]
            while (kind := data[at]) and not is_name_at(name, at + 1):
                at = find(b"\0", at + 1) + 1
                size = sizes[kind]
                if size >= 0:
                    at += size
                elif kind == PATTERN:
                    at = end_of(data, kind, at)
                else:
                    at += length_of(data, at)[0] + ~size
            if not kind:
                return
            level, start = level + 1, at + 1 + len(name)
            if level == len(names) and sizes[kind] >= 0:
                found.append(data[at : at + 1] + data[start : start + sizes[kind]])
                return
            if level == len(names) or kind != DOCUMENT:
                self._from_value(data, kind, start, level, found)
                return
            at = start + 4

    def _from_value(self, data: bytes, kind: int, at: int, level: int, found: list[bytes]) -> None:
        """Follows the names from one on, from a value; after the last one it is found, or the elements of an array are."""
        if level < len(self._names):
            if kind == DOCUMENT:
                self._from_document(data, at + 4, level, found)
            elif kind == ARRAY:
                self._from_array(data, at + 4, level, found)
        elif kind == ARRAY and (data[at + 4] or not self._has_empty):
            at, find, sizes = at + 4, data.find, SIZES
            while kind := data[at]:
                start = find(b"\0", at + 1) + 1
                size = sizes[kind]
                end = start + size if size >= 0 else end_of(data, kind, start)
                found.append(data[at : at + 1] + data[start:end])
                at = end
        else:
            found.append(bytes((kind,)) + data[at : end_of(data, kind, at)])

    def _from_array(self, data: bytes, at: int, level: int, found: list[bytes]) -> None:
        """The same from the elements of an array, the first of which begins at a byte."""
        number, position, find = 0, self._names[level][1], data.find
        while kind := data[at]:
            start = find(b"\0", at + 1) + 1
            if kind == DOCUMENT:
                at = start + length_at(data, start)[0]
                self._from_document(data, start + 4, level, found)
            else:
                at = end_of(data, kind, start)
            if number == position:
                self._from_value(data, kind, start, level + 1, found)
            number += 1


def number_of(value: bytes) -> Number | None:
    """The number of a value, whose type is its first byte; None if it is no number."""
    kind = value[0]
    if kind == DOUBLE:
        double: float = _double_at(value, 1)[0]
        return double
    if kind != DECIMAL and kind not in INTEGERS:
        return None
    bits = int.from_bytes(value[1:], "little", signed=True)
    return _decimal_of(bits) if kind == DECIMAL else bits


def key_of(value: bytes) -> object:
    """What values that are equal have in common: numbers of all types are compared by their values. NaN is not equal to itself."""
    number = number_of(value) if value else None
    return value if number is None else number if number == number else "NaN"


def is_finite(number: Number) -> bool:
    return number.is_finite() if isinstance(number, Decimal) else isfinite(number)


def _decimal_of(bits: int) -> Decimal:
    """The number of a decimal128. One with too many digits is zero, and so is one in the other form, whose digits are too many."""
    sign = "-" if bits < 0 else ""
    if bits >> 123 & 0b1111 == 0b1111:
        return Decimal("NaN" if bits >> 122 & 1 else f"{sign}Infinity")
    is_long_form = bits >> 125 & 0b11 == 0b11
    power = (bits >> (111 if is_long_form else 113) & 0x3FFF) - 6176
    digits = 0 if is_long_form or bits & _DIGITS >= 10**34 else bits & _DIGITS
    return Decimal(f"{sign}{digits}E{power}")
