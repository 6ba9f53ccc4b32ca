"""The command `show`: a document element by element."""

from __future__ import annotations

import argparse

from .._backup.cells import NAMES
from .._backup.show import document_of, show, values_of
from .._run.processes import wide_program
from .arguments import FAULTY, GOOD
from .console import Console, Table


def print_document(words: argparse.Namespace) -> int:
    """Prints each element of a document with its byte in the dump, or the document of those that are sound; gives the status."""
    console = Console()
    wide_program(words.program)
    shown = show(words.file, words.number, words.program)
    if words.bson:
        console.documents([document_of(shown.elements)])
    else:
        rows = ((str(it.offset), it.path, NAMES.get(it.kind or 0, ""), text, it.fault or "") for it, text in values_of(shown, words.program))
        Table(console, ("byte", "path", "type", "value", "fault")).print(rows)
    console.note(f"{shown.size} bytes at byte {shown.offset}: {shown.fault.moved(0, 0) if shown.fault else 'no fault'}")
    return FAULTY if shown.fault else GOOD
