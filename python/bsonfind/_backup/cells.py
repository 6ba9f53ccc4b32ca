"""What is known of the values of one type at a path: how many there are, the least, the greatest and the first."""

from __future__ import annotations

import struct
from typing import Any, Sequence

from .._dumps.paths import DECIMAL, DOUBLE, number_of

# The names of types, as `$type` of a query takes them.
NAMES = {
    0x01: "double", 0x02: "string", 0x03: "object", 0x04: "array", 0x05: "binData", 0x06: "undefined", 0x07: "objectId", 0x08: "bool",
    0x09: "date", 0x0A: "null", 0x0B: "regex", 0x0C: "dbPointer", 0x0D: "javascript", 0x0E: "symbol", 0x0F: "javascriptWithScope",
    0x10: "int", 0x11: "timestamp", 0x12: "long", 0x13: "decimal", 0x7F: "maxKey", 0xFF: "minKey",
}  # fmt: skip
# The types of texts. After their length, their bytes have the order of the texts.
TEXTS = (0x02, 0x0D, 0x0E)
# How values are unpacked whose bytes do not have the order of the values; and the types whose bytes have it.
_UNPACKED = {DOUBLE: "d", 0x09: "q", 0x10: "i", 0x11: "Q", 0x12: "q"}
_AS_BYTES = (*TEXTS, 0x07, 0x08)
# The types whose values are all alike, or are not printed.
_ALIKE = (0x03, 0x04, 0x06, 0x0A, 0x7F, 0xFF)
# How many bytes of a text are kept, and how many characters are printed; a longer value of another type is not kept.
_MOST_KEPT, _MOST_PRINTED, _MOST_VALUE = 256, 60, 64


class Cell:
    """The values of a type at a path. The last ones wait to be looked at together, which is fast: texts without their length."""

    __slots__ = ("kind", "count", "waiting", "_low", "_high", "_first")

    def __init__(self, kind: int) -> None:
        self.kind, self.count = kind, 0
        self.waiting: list[bytes] = []
        # The least and the greatest value, as `_comparable` has them, and the first one.
        self._low: Any = None
        self._high: Any = None
        self._first: bytes | None = None

    def look(self) -> None:
        if not self.waiting:
            return
        if self._first is None:
            self._first = self.waiting[0][:_MOST_KEPT]
        values = self._comparable()
        if values:
            self._widen(self._kept(min(values)), self._kept(max(values)))
        self.count += len(self.waiting)
        self.waiting.clear()

    def merge(self, other: Cell) -> None:
        """Adds what is known of other values of the type."""
        self.look()
        other.look()
        self.count += other.count
        self._first = other._first if self._first is None else self._first
        if other._low is not None:
            self._widen(other._low, other._high)

    def _widen(self, low: Any, high: Any) -> None:
        self._low = low if self._low is None else min(self._low, low)
        self._high = high if self._high is None else max(self._high, high)

    def _comparable(self) -> Sequence[Any]:
        """The values that wait, as what has their order. NaN has none."""
        kind, waiting = self.kind, self.waiting
        if kind in _AS_BYTES:
            return waiting
        if kind in _UNPACKED:
            values = struct.unpack(f"<{len(waiting)}{_UNPACKED[kind]}", b"".join(waiting))
            return [it for it in values if it == it] if kind == DOUBLE else values
        if kind == DECIMAL:
            numbers = [(number_of(b"\x13" + it), it) for it in waiting]
            return [it for it in numbers if it[0] == it[0]]
        return ()

    def _kept(self, value: Any) -> Any:
        """A value, of which no more is kept than is printed."""
        return value[:_MOST_KEPT] if self.kind in TEXTS else value

    @property
    def least(self) -> bytes | None:
        """The least value, as its type and its bytes; None if the values have no order here."""
        return None if self._low is None else self._value(self._low)

    @property
    def greatest(self) -> bytes | None:
        return None if self._high is None else self._value(self._high)

    @property
    def first(self) -> bytes | None:
        """The first value, None if all values of the type are alike, or it is too long."""
        value = self._first
        if value is None or self.kind in _ALIKE or (self.kind not in TEXTS and len(value) > _MOST_VALUE):
            return None
        return self._text(value) if self.kind in TEXTS else bytes((self.kind,)) + value

    def _value(self, value: Any) -> bytes:
        if self.kind in TEXTS:
            return self._text(value)
        data: bytes = value[1] if self.kind == DECIMAL else struct.pack(f"<{_UNPACKED[self.kind]}", value) if self.kind in _UNPACKED else value
        return bytes((self.kind,)) + data

    def _text(self, data: bytes) -> bytes:
        """A text as a value; one with many characters ends with three dots."""
        is_whole = len(data) < _MOST_KEPT
        text = (data[:-1] if is_whole else data).decode(errors="ignore")
        if not is_whole or len(text) > _MOST_PRINTED:
            text = f"{text[:_MOST_PRINTED]}…"
        data = text.encode() + b"\0"
        return bytes((self.kind,)) + len(data).to_bytes(4, "little") + data
