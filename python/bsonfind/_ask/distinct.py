"""The values of a field in documents, each once."""

from __future__ import annotations

import json
from typing import Any

from .._arguments import shown
from .._dumps.elements import ARRAY, DOCUMENT, elements_of
from .._dumps.paths import Path, key_of
from .._dumps.runs import texts_of_values
from .._errors import ArgumentError
from .._run.processes import Group
from .values import Uuids, Values, plain_document, plain_value, uuids_of

_TEXTS = (0x02, 0x0E)
# Code with a scope, which is a document after the code.
_SCOPED = 0x0F


class Distinct:
    """The values at a path in documents, as they are met, of an array each element; equal numbers are one, and a text and a symbol."""

    def __init__(self, key: str, decode: Values, uuids: Uuids) -> None:
        if not (isinstance(key, str) and key):
            raise ArgumentError(f"key is the path of a field, not {shown(key)}")
        if decode not in ("plain", "canonical"):
            raise ArgumentError(f'decode is "plain" or "canonical", not {shown(decode)}')
        self._path, self._decode, self._uuids = Path(key, has_empty=False), decode, uuids_of(uuids)
        self._found: dict[object, bytes] = {}

    def add(self, document: bytes) -> None:
        """Takes the values of a document without a fault, in its bytes."""
        for value in self._path.values(document):
            self._found.setdefault(_compared(value), value)

    def values(self, program: str, group: Group) -> list[Any]:
        """What was taken, of the texts that a run of the program prints."""
        found = list(self._found.values())
        return [self._read(value, json.loads(text)) for value, text in zip(found, texts_of_values(found, program, group))]

    def _read(self, value: bytes, text: Any) -> Any:
        if self._decode == "canonical":
            return text
        # A document stays one, though it may be written as another value.
        return plain_document(text, self._uuids) if value[0] == DOCUMENT else plain_value(text, self._uuids)


def _compared(value: bytes) -> object:
    """What values that are equal have in common, and no others. Each is its type and its bytes."""
    kind = value[0]
    if kind == DOCUMENT:
        return kind, *((name, _compared(it)) for name, it in elements_of(value[1:]))
    if kind == ARRAY:
        return kind, *(_compared(it) for _, it in elements_of(value[1:]))
    if kind == _SCOPED:
        end = 9 + int.from_bytes(value[5:9], "little")
        return kind, value[9:end], _compared(bytes([DOCUMENT]) + value[end:])
    return (_TEXTS, value[1:]) if kind in _TEXTS else key_of(value)
