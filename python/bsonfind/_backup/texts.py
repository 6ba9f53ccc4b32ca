"""The texts of values and of rows that commands print, and the order in which MongoDB sorts values."""

from __future__ import annotations

import json
import re
from decimal import Decimal
from typing import Any, Callable, Iterable, Iterator, Sequence, TypeVar

from .._dumps.paths import DECIMAL128, Number, is_finite, number_of
from .._dumps.runs import texts_of_values

T = TypeVar("T")
# The rank of each type where MongoDB sorts values of several. Numbers of all types have one, and so have texts and symbols.
_RANKS = {
    0xFF: 0, 0x06: 1, 0x0A: 1, 0x01: 2, 0x10: 2, 0x12: 2, 0x13: 2, 0x02: 3, 0x0E: 3, 0x03: 4, 0x04: 5, 0x05: 6, 0x07: 7, 0x08: 8,
    0x09: 9, 0x11: 10, 0x0B: 11, 0x0C: 12, 0x0D: 13, 0x0F: 14, 0x7F: 15,
}  # fmt: skip
_DATE, _TIMESTAMP, _BINARY = 0x09, 0x11, 0x05
# The types whose values are documents, or have one in them.
NESTED = (0x03, 0x04, 0x0F)
# What has more digits as a whole number is printed with an exponent.
_MOST_WHOLE = 1 << 63
# What JSON leaves as it is, and a terminal may obey.
_CONTROL = {it: f"\\u{it:04x}" for it in range(0x7F, 0xA0)}
# A byte that is not UTF-8, as Python has it in the name of a file.
_BYTE = re.compile("[\udc80-\udcff]")
# How many values, or bytes of values, are printed by one run.
_MOST_VALUES, _MOST_BYTES = 10_000, 1 << 22


def text_of_number(number: Number) -> str:
    """A number that has no type, since it is equal to some of several: as JSON, or if no double is equal to it, as a decimal128."""
    if not is_finite(number):
        return f'{{"$numberDouble":"{"NaN" if number != number else "Infinity" if number > 0 else "-Infinity"}"}}'
    if isinstance(number, int) or -_MOST_WHOLE <= number < _MOST_WHOLE and number == int(number):
        return str(int(number))
    if float(number) == number:
        return repr(float(number))
    return f'{{"$numberDecimal":"{Decimal(number).normalize(DECIMAL128)}"}}'


def texts(values: Sequence[bytes], program: str) -> Iterator[str]:
    """The texts of values as `dump` prints them, but numbers without their types."""
    for some in batches(values, len):
        others = [it for it in some if number_of(it) is None]
        printed = iter(texts_of_values(others, program))
        for value in some:
            number = number_of(value)
            yield next(printed) if number is None else text_of_number(number)


def visible_json(text: str) -> str:
    """The same JSON without a character that a terminal may obey."""
    return text.translate(_CONTROL)


def line_of_json(row: Any) -> str:
    """A row or a name as JSON. A byte of a name that is not UTF-8 is `\\xff` there, since half of a surrogate is no text for other readers."""
    text = json.dumps(row, ensure_ascii=False)
    if _BYTE.search(text):
        row = json.loads(_BYTE.sub(lambda byte: f"\\\\x{ord(byte[0]) & 0xFF:02x}", text))
    return json.dumps(row)


def batches(items: Iterable[T], size_of: Callable[[T], int]) -> Iterator[list[T]]:
    """Items, as many at once as one run prints."""
    some: list[T] = []
    size = 0
    for it in items:
        some.append(it)
        size += size_of(it)
        if len(some) == _MOST_VALUES or size >= _MOST_BYTES:
            yield some
            some, size = [], 0
    if some:
        yield some


def order_of(value: bytes, text: str = "") -> tuple[object, ...]:
    """What has the order of values of all types: that in which MongoDB sorts them; documents and arrays are sorted by their texts."""
    kind = value[0]
    number = number_of(value)
    inner: object = value[1:]
    if number is not None:
        # NaN is before all others.
        return (_RANKS[kind], 0, 0) if number != number else (_RANKS[kind], 1, number)
    if kind in (_DATE, _TIMESTAMP):
        inner = int.from_bytes(value[1:], "little", signed=kind == _DATE)
    elif kind in NESTED:
        inner = text
    elif kind == _BINARY:
        inner = (len(value), value[5:])
    elif _RANKS[kind] == 3:
        inner = value[5:]
    return _RANKS[kind], 1, inner, kind
