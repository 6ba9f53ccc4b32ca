"""What can be read of the damaged documents of a file: the bad byte, the id, and where other documents continue."""

from __future__ import annotations

from typing import NamedTuple, Sequence

from .._dumps.elements import value_at
from .._dumps.framing import LONGEST
from .._dumps.runs import texts_of_values
from .._dumps.sources import Source
from .._errors import DumpError
from .._faults import Fault
from .._run.processes import Group
from .beginnings import Beginnings, Window
from .texts import visible_json

# The faults of a byte that has a value which it must not have, and those of the length of a document.
_OF_A_BYTE = ("bad boolean", "not UTF-8", "unknown type")
_OF_A_LENGTH = ("bad length", "length cut short")
# How much of a document is read for its id.
_HEAD = 1 << 16
_PIECE = 1 << 20


class Detail(NamedTuple):
    """What is known of a damaged document: the bad byte, the `_id` as text, and a guess of the byte from which other documents continue."""

    value: int | None = None
    id: str | None = None
    goes_on: int | None = None

    def __str__(self) -> str:
        value = "" if self.value is None else f" {self.value:02x}"
        told = "" if self.id is None else f"; _id {visible_json(self.id)}"
        more = "" if self.goes_on is None else f"; documents seem to go on from byte {self.goes_on}"
        return f"{value}{told}{more}"


def is_of_a_length(fault: Fault) -> bool:
    """Whether a fault is that of the length of a document of the dump, after which none is found."""
    return not fault.path and fault.kind in _OF_A_LENGTH


def details_of(source: Source, faults: Sequence[Fault], program: str, group: Group) -> dict[int, Detail]:
    """The details of some faults of a file, in their order, by the numbers of their documents; the file is read again, a pipe has none."""
    details: dict[int, Detail] = {}
    if source.size is None:
        return details
    window, at, number = Window(source.pieces()), 0, 0
    for fault in faults:
        while number < fault.document and (ends := window.document_ends(at, _PIECE, fault.document - number)):
            ends = ends[: fault.document - number]
            at, number = ends[-1], number + len(ends)
            window.drop(at)
        details[fault.document] = _detail(window, fault, at, program, group)
    return details


def _detail(window: Window, fault: Fault, start: int, program: str, group: Group) -> Detail:
    end = None if is_of_a_length(fault) else window.document_end(start)
    window.has(start + _HEAD)
    value = window.byte(fault.offset) if fault.kind in _OF_A_BYTE and fault.offset < window.end else None
    head = window.part(start, min(start + _HEAD, end or window.end))
    beginnings = Beginnings(window, program, group)
    inside, is_part = (None, False) if end is None else beginnings.inside(start, end, fault.kind)
    goes_on = beginnings.after(start, start + 2 * LONGEST) if end is None else None if is_part else inside
    return Detail(value, _id_of(head, program, group), goes_on)


def _id_of(head: bytes, program: str, group: Group) -> str | None:
    """The text of the id of a document; None if it is not the first field, or has a fault itself."""
    value = value_at(head, [b"_id"]) if head[5:9] == b"_id\0" else None
    return None if value is None else text_of_id(value, program, group)


def text_of_id(value: bytes, program: str, group: Group) -> str | None:
    """An id as `dump` prints it, by a document that has it alone; None if it has a fault."""
    try:
        (text,) = texts_of_values([value], program, group)
    except DumpError as error:
        if not error.fault:
            raise
        return None
    return text
