"""Faults of documents, as the lines of `check` have them."""

from __future__ import annotations

import json
import re
from typing import NamedTuple

# The kinds of faults that are no damage: another program can read such a document.
NO_DAMAGE = ("too deep",)
_LINE = re.compile(r'document (\d+), byte (\d+), path (".*"): (.+)')


class Fault(NamedTuple):
    """The first fault of a document: its number, the byte, the names to it joined by dots, and its kind as a text."""

    document: int
    offset: int
    path: str
    kind: str

    def moved(self, documents: int, offset: int) -> Fault:
        """The same fault where this many documents and bytes are before."""
        return self._replace(document=self.document + documents, offset=self.offset + offset)

    def __str__(self) -> str:
        path = json.dumps(self.path, ensure_ascii=False)
        return f"document {self.document}, byte {self.offset}, path {path}: {self.kind}"


def read_fault(line: str) -> Fault | None:
    """The fault of a line of `check`, None if it is another line."""
    found = _LINE.fullmatch(line)
    if not found:
        return None
    document, offset, path, kind = found.groups()
    return Fault(int(document), int(offset), json.loads(path), kind)
