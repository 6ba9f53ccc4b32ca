"""A document element by element, as far as lengths lead, also after what is damaged in it; what is bad is found by runs of `check`."""

from __future__ import annotations

from dataclasses import dataclass, field
from typing import Iterator

from .._dumps.elements import ARRAY, DOCUMENT, document_with, length_at, value_end
from .._dumps.framing import LONGEST, SHORTEST
from .._dumps.runs import all_faults, checking, texts_of_values
from .._dumps.sources import Source
from .._errors import DumpError
from .._faults import Fault
from .._run.processes import Dump
from .beginnings import Window
from .cells import NAMES, TEXTS

# A document in more documents than this is printed as bytes, since `check` finds it too deep; no more bytes than this are printed of what
# no length leads through, and no more characters of a path.
_DEEPEST, _MOST_SHOWN, _LONGEST_PATH = 199, 32, 1000
_PIECE = 1 << 20
_EMPTY = b"\x05\0\0\0\0"


@dataclass
class Element:
    """An element: the byte of its type in the dump, its path, its type and its value, and what is wrong with it, as `check` says.

    A document and an array have elements in place of a value, and what no length leads through has bytes alone.
    """

    offset: int
    path: str
    kind: int | None
    name: bytes
    value: bytes
    fault: str | None = None
    # Whether nothing of it is sound. Of a document with a wrong length its elements may be.
    is_lost: bool = False
    elements: list[Element] = field(default_factory=list)

    @property
    def is_nested(self) -> bool:
        return self.kind in (DOCUMENT, ARRAY)

    def all(self) -> Iterator[Element]:
        """This one, and all that are in it."""
        yield self
        for it in self.elements:
            yield from it.all()

    def sound(self) -> bytes:
        """The field of it, as in a dump, without what is bad in it; nothing if it is bad itself."""
        if self.kind is None or self.is_lost:
            return b""
        value = document_of(self.elements) if self.is_nested else self.value
        return bytes((self.kind,)) + self.name + b"\0" + value


def document_of(elements: list[Element]) -> bytes:
    """The document of what is sound of some elements."""
    body = b"".join(it.sound() for it in elements)
    return (len(body) + SHORTEST).to_bytes(4, "little") + body + b"\0"


@dataclass
class Shown:
    """A document of a dump: where it begins, how many bytes it has, by its length if that is right, its first fault and its elements."""

    offset: int
    size: int
    fault: Fault | None
    elements: list[Element]

    def all(self) -> Iterator[Element]:
        for it in self.elements:
            yield from it.all()


def show(path: str, number: int, program: str) -> Shown:
    """The document of a number, from 0 on. Where a length before it is wrong, or there are fewer, that is a `DumpError`."""
    try:
        at, data, is_whole = _bytes_of(path, number)
    except DumpError as error:
        raise DumpError(f"{path}: {error}", error.fault) from None
    walk, shown = _Walk(data, at), list[Element]()
    size = walk.document(0, len(data), "", shown, 0)
    _look_at(shown, program)
    if not is_whole:
        return Shown(at, len(data) if size is None else size, Fault(number, at, "", "bad length"), shown)
    faults = all_faults(checking(Dump([data]), program), 1)
    return Shown(at, len(data), faults[0].moved(number, at) if faults else None, shown)


def _bytes_of(path: str, number: int) -> tuple[int, bytes, bool]:
    """Where a document begins, its bytes, and whether its length says how many: else they are those that it may have at most."""
    with Source(path) as source:
        window, at, count = Window(source.pieces()), 0, 0
        while count < number and (ends := window.document_ends(at, _PIECE, number - count)):
            ends = ends[: number - count]
            at, count = ends[-1], count + len(ends)
            window.drop(at)
        if count < number or not window.has(at + 1):
            wrong = f"a wrong length at byte {at}" if window.has(at + 1) else window.error or f"{count} documents are there"
            raise DumpError(f"no document {number}: {wrong}")
        end = window.document_end(at)
        if end is None:
            window.has(at + LONGEST)
        return at, window.part(at, window.end if end is None else end), end is not None


class _Walk:
    """The way through the bytes of a document, which begins at a byte of the dump."""

    def __init__(self, data: bytes, offset: int) -> None:
        self._data, self._offset = data, offset

    def document(self, at: int, end: int, path: str, found: list[Element], level: int) -> int | None:
        """Finds the elements of a document that begins there and ends before an end; gives where it ends, None if nothing leads there.

        Where its length is wrong it ends with the zero after its elements.
        """
        data = self._data
        length = length_at(data, at)[0] if at + 4 <= end else 0
        is_known = SHORTEST <= length <= end - at
        stop = at + length if is_known else end
        at += 4
        while at < stop and data[at]:
            start = data.find(b"\0", at + 1, stop) + 1
            if not start:
                return self._rest(at, stop, found, "no name of a field ends in them", is_known)
            kind, name = data[at], data[at + 1 : start - 1]
            below = (f"{path}.{_text(name)}" if path else _text(name))[:_LONGEST_PATH]
            element = Element(self._offset + at, below, kind, name, b"")
            found.append(element)
            after = value_end(data, kind, start)
            if element.is_nested and level < _DEEPEST:
                after = self.document(start, stop - 1, below, element.elements, level + 1)
                element.fault = self._fault_of_length(start, stop - 1)
                if after is None:
                    return stop if is_known else None
            elif after is None or after >= stop:
                element.fault, element.is_lost = "a length leads out of the document" if kind in NAMES else f"unknown type {kind:02x}", True
                return self._rest(start, stop, found, "no length leads through them", is_known)
            else:
                element.value = data[start:after]
                element.fault, element.is_lost = ("too deep", True) if element.is_nested else (None, False)
            at = after
        if at < stop and (at == stop - 1 or not is_known):
            return at + 1
        return self._rest(at, stop, found, "after the last field", is_known)

    def _fault_of_length(self, at: int, end: int) -> str | None:
        length = length_at(self._data, at)[0] if at + 4 <= end else 0
        return None if SHORTEST <= length <= end - at else "bad length"

    def _rest(self, at: int, stop: int, found: list[Element], text: str, is_known: bool) -> int | None:
        """Adds the bytes from a place on to which nothing leads; where the length of their document is known, that leads on."""
        if at < stop:
            told = f"{stop - at} bytes: {text}"
            found.append(Element(self._offset + at, "", None, b"", self._data[at:stop], told))
        return stop if is_known else None


def _look_at(elements: list[Element], program: str) -> None:
    """Notes what `check` finds wrong with elements, each in a document that has it alone."""
    looked = [it for top in elements for it in top.all() if it.kind is not None and not it.is_lost]
    documents = [document_with(it.name, bytes((it.kind or 0,)) + (_EMPTY if it.is_nested else it.value)) for it in looked]
    ends, at = list[int](), 0
    for data in documents:
        ends.append(at := at + len(data))
    for fault in all_faults(checking(Dump([b"".join(documents)]), program), len(documents)):
        it = looked[fault.document]
        begin = ends[fault.document - 1] if fault.document else 0
        # Before it is a length of four bytes, as the type of the element is after the one of its document.
        it.fault, it.is_lost = it.fault or f"{fault.kind} at byte {it.offset + fault.offset - begin - 4}", True


def text_of_bytes(kind: int | None, value: bytes) -> str:
    """Bytes that are no value: those of a text with what is no UTF-8 by its number, and of others the first ones in digits."""
    if kind in TEXTS:
        return '"' + value[4:].rstrip(b"\0").decode(errors="backslashreplace") + '"'
    return value[:_MOST_SHOWN].hex(" ") + (" .." if len(value) > _MOST_SHOWN else "")


def values_of(shown: Shown, program: str) -> Iterator[tuple[Element, str]]:
    """Each element with the text of its value, as `dump` prints it where it is sound."""
    elements = list(shown.all())
    sound = [it for it in elements if it.kind is not None and not it.fault and not it.is_nested]
    texts = iter(texts_of_values([bytes((it.kind or 0,)) + it.value for it in sound], program))
    for it in elements:
        is_sound = it.kind is not None and not it.fault and not it.is_nested
        yield it, next(texts) if is_sound else "" if it.is_nested else text_of_bytes(it.kind, it.value)


def _text(name: bytes) -> str:
    return name.decode(errors="backslashreplace")
