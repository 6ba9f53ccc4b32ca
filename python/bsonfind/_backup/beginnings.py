"""The bytes of a stream that a salvage looks at, and where documents begin in it after a wrong length, which is a guess."""

from __future__ import annotations

import re
from collections import deque
from itertools import chain as joined, islice
from typing import Iterable, Iterator, NamedTuple, Sequence

from .._dumps.elements import PATTERN, SIZES, length_at, value_end
from .._dumps.framing import LONGEST, SHORTEST
from .._dumps.gzip import UnpackError
from .._dumps.runs import checking, faulty_numbers
from .._errors import why
from .._faults import NO_DAMAGE
from .._run.processes import Dump, Group

# From this many documents in a row, or from fewer that end with the file, a place is guessed to be the beginning of a document.
IN_A_ROW = 4
# The type of a first element after the last byte of a length. A document that begins with MinKey or MaxKey is not looked for.
_BEGINNING = re.compile(rb"[\x01-\x13](?<=[\x00\x01].)", re.DOTALL)
# The same after the last byte of a document.
_NEXT_BEGINNING = re.compile(rb"[\x01-\x13](?<=\x00...[\x00\x01].)", re.DOTALL)
_BEFORE = 4
# The types of fields whose value may look like a document: a document, an array, and an int32 that is the number of bytes left.
_LIKE_DOCUMENTS = (b"\x03", b"\x04", b"\x10")
# The bytes of a name that is looked for before a value, and how many.
_OF_NAMES, _LONGEST_NAME = bytes(range(0x20, 0x100)), 256
# The types of first elements, and the last byte of a document without any.
_TYPES = frozenset([*range(0x14), 0x7F, 0xFF])
# This many chains of documents are looked at by one run at most, and this many bytes of their documents; it looks at more of them
# where the last ones are not further away than this.
_MOST_CHAINS, _MOST, _NEAR = 1 << 16, 1 << 22, 1 << 16
# Of this many documents it is known at most what `check` says.
_MOST_KNOWN = 1 << 19
# How many elements of a document are looked at before it is checked: most of what looks like one is none.
_MOST_ELEMENTS = 16
# How many bytes are looked at as one piece, at first and at most.
_FIRST_PIECE, _PIECE = 1 << 12, 1 << 20
# How many bytes are passed at once at most before the next piece is asked for.
_MOST_AT_ONCE = 1 << 20
# How many documents that seem to begin inside of a bad one are looked at together with those in other ones.
_MOST_INSIDE = 4


class Window:
    """The bytes of a stream from a place on, as far as they were asked for."""

    def __init__(self, pieces: Iterator[bytes]) -> None:
        self._pieces = pieces
        self._held, self.start = bytearray(), 0
        # What ended the stream before its end.
        self.error: str | None = None

    @property
    def end(self) -> int:
        """The place after the last byte that was read."""
        return self.start + len(self._held)

    def has(self, end: int) -> bool:
        """Whether the stream reaches that far."""
        while self.start + len(self._held) < end:
            try:
                piece = next(self._pieces, b"")
            except (UnpackError, OSError) as error:
                self.error, piece = why(error), b""
            if not piece:
                return False
            self._held += piece
        return True

    def part(self, start: int, end: int) -> bytes:
        """The bytes there that were read."""
        with memoryview(self._held) as view:
            return view[start - self.start : end - self.start].tobytes()

    def byte(self, at: int) -> int:
        return self._held[at - self.start]

    def put_back(self, start: int, data: bytes) -> None:
        """Takes bytes again that were dropped, from a place on up to the first one that is kept."""
        self._held[:0] = data
        self.start = start

    def drop(self, end: int) -> None:
        """Keeps nothing before a place."""
        if end > self.start:
            del self._held[: end - self.start]
            self.start = end

    def document_end(self, at: int) -> int | None:
        """Where the document ends that begins there, by its length; None if this is wrong."""
        if not self.has(at + SHORTEST):
            return None
        (length,) = length_at(self._held, at - self.start)
        return at + length if SHORTEST <= length <= LONGEST and self.has(at + length) else None

    def document_ends(self, at: int, size: int, most: int) -> list[int]:
        """Where documents end, one after the other, up to a wrong length or beyond this many bytes or documents."""
        ends: list[int] = []
        until = at + size
        while at < until and len(ends) < most and self.document_end(at) is not None:
            held, start, last = self._held, self.start, len(self._held)
            here = at - start
            stop = min(last - 4, until - start, here + _MOST_AT_ONCE)
            while here < stop:
                (length,) = length_at(held, here)
                if not SHORTEST <= length <= LONGEST or here + length > last:
                    break
                here += length
                ends.append(start + here)
            at = start + here
        return ends

    def end_by_elements(self, at: int) -> int | None:
        """Where the document ends that begins there, by its elements, whatever its length is; None if that was not read."""
        held, here = self._held, at - self.start + 4
        while 0 < here < len(held) and held[here]:
            zero = held.find(b"\0", here + 1)
            stop = value_end(held, held[here], zero + 1) if zero > 0 else None
            if stop is None:
                return None
            here = stop
        return self.start + here + 1 if 0 < here < len(held) else None


class Beginnings:
    """The places of a stream from which documents follow one another without damage."""

    def __init__(self, window: Window, program: str, group: Group | None = None) -> None:
        self._window, self._program, self._group = window, program, group
        # What check says of documents, by their places: no fault, or one that is no damage, or damage. What ends before a place as
        # if it were a document is known by both places.
        self._known: dict[object, str | None] = {}
        # How many chains the next run looks at, and the place of the last one.
        self._most, self._last = 1, 0
        # The document that was looked at for its end by its elements, how far it was read, and that end.
        self._walked: tuple[int, int, int | None] = -1, 0, None

    def after(self, start: int, end: int | None = None) -> int | None:
        """Where a document begins after a wrong length and before an end, None if none seems to. What is before that is dropped."""
        at, size = start + 1, min(_FIRST_PIECE, _PIECE)
        while (end is None or at < end) and self._window.has(at + SHORTEST):
            self._window.has(at + size)
            piece = self._window.part(at, min(at + size, self._window.end))
            for beginning in self._undamaged(self._chain(at + it, start) for it in _places(_BEGINNING, piece, 0)):
                return beginning
            # A beginning may go over the end of the piece. The document with the wrong length is kept as long as it may end before one.
            at += len(piece) - _BEFORE
            size = min(4 * size, _PIECE)
            self._window.drop(at - max(_PIECE, _LONGEST_NAME))
        return None

    def inside(self, start: int, end: int, kind: str) -> tuple[int | None, bool]:
        """Where documents begin inside of a bad document, and whether they are a part of it, such as a dump in its binary data.

        They are none, and the length of the bad document is wrong, where others lead on from them to the end or beyond it, or where
        none begins at the end.
        """
        for beginning in self._undamaged(self._inside(start, end, kind)):
            is_end = not self._window.has(end + 1)
            return beginning, not self._reaches(beginning, end) and (is_end or any(True for _ in self._undamaged([self._chain(end)])))
        return None, False

    def look_inside(self, documents: Iterable[tuple[int, int, str]]) -> None:
        """Has what seems to begin inside of several bad documents checked together, so that `inside` starts no run for each."""
        for _ in self._undamaged(self._inside_of_all(documents)):
            pass

    def _inside_of_all(self, documents: Iterable[tuple[int, int, str]]) -> Iterator[Chain | None]:
        for start, end, kind in documents:
            found = list(islice(filter(None, self._inside(start, end, kind)), _MOST_INSIDE))
            yield from found
            if found:
                yield self._chain(end)

    def are_sound(self, start: int, ends: Sequence[int]) -> bool:
        """Whether it is known already that documents, by their beginnings, have no fault."""
        return all(self._known.get(it, "") is None for it in joined([start], ends[:-1]))

    def _inside(self, start: int, end: int, kind: str) -> Iterator[Chain | None]:
        is_whole = kind in NO_DAMAGE
        self._window.has(end + _BEFORE)
        data = self._window.part(start, min(end + _BEFORE, self._window.end))
        for place in _places(_NEXT_BEGINNING if is_whole else _BEGINNING, data, SHORTEST, not is_whole):
            yield self._chain(start + place, start)

    def _reaches(self, at: int, end: int) -> bool:
        """Whether documents lead on from there to a place or beyond it."""
        while at < end:
            after = self._window.document_end(at)
            if after is None:
                return False
            at = after
        return True

    def _chain(self, at: int, start: int | None = None) -> Chain | None:
        """The documents that seem to follow, by their lengths, the types of their first elements and their last bytes.

        Where the bytes before them look like a field, they may be its value, inside the document with a fault that begins at
        `start`. Then this one, as if it ended before them, must have no fault.
        """
        ends: list[int] = []
        end = at
        while len(ends) < IN_A_ROW and (not ends or self._window.has(end + 1)):
            after = self._window.document_end(end)
            if after is None or self._window.byte(after - 1) or self._window.byte(end + 4) not in _TYPES:
                return None
            end = after
            ends.append(end)
        if start is not None and _is_field(self._window.part(max(at - _LONGEST_NAME, self._window.start), at)):
            # By its elements it ends at one place at most.
            if not SHORTEST <= at - start <= LONGEST or start < self._window.start or self._end_by_elements(start) != at:
                return None
            return Chain(at, ends, start)
        return Chain(at, ends)

    def _end_by_elements(self, start: int) -> int | None:
        if self._walked[:2] != (start, self._window.end):
            self._walked = start, self._window.end, self._window.end_by_elements(start)
        return self._walked[2]

    def _undamaged(self, chains: Iterable[Chain | None]) -> Iterator[int]:
        """The places of those chains in which `check` finds no damage. One run looks at one of them at first, then at more."""
        waiting: deque[Chain] = deque()
        coming = filter(None, chains)
        while chain := (next(coming, None) if not waiting else waiting.popleft()):
            if any(it not in self._known for it in chain.documents()):
                self._most = min(2 * self._most, _MOST_CHAINS) if abs(chain.place - self._last) < _NEAR else 1
                held = 0
                while len(waiting) + 1 < self._most and held < _MOST and (more := next(coming, None)):
                    waiting.append(more)
                    held += more.ends[-1] - more.place
                self._last = waiting[-1].place if waiting else chain.place
                self._check([chain, *waiting])
            if all(self._known[it] in (None, *NO_DAMAGE) for it in chain.documents()):
                yield chain.place

    def _check(self, chains: list[Chain]) -> None:
        """Has the documents of chains checked by one run, each once. What it says is kept."""
        if len(self._known) > _MOST_KNOWN:
            self._known.clear()
        documents: dict[object, bytes] = {}
        for chain in chains:
            for key, start, end in zip(chain.documents(), (chain.place, *chain.ends), chain.ends):
                if not (key in documents or key in self._known):
                    documents[key] = self._window.part(start, end)
            if chain.start is not None:
                length = chain.place - chain.start
                documents[chain.start, chain.place] = length.to_bytes(4, "little") + self._window.part(chain.start + 4, chain.place)
        kinds = faulty_numbers(checking(Dump([b"".join(documents.values())]), self._program, self._group), len(documents))
        self._known.update((key, kinds.get(number)) for number, key in enumerate(documents))


def _is_field(before: bytes) -> bool:
    """Whether bytes end with the type and the name of a field whose value may look like a document."""
    return before.endswith(b"\0") and before[:-1].rstrip(_OF_NAMES).endswith(_LIKE_DOCUMENTS)


def _places(pattern: re.Pattern[bytes], data: bytes, first: int, with_values: bool = True) -> Iterator[int]:
    """Where a document may begin in some bytes, by its length, and by its first element and its last byte where these are among them."""
    size = len(data)
    for found in pattern.finditer(data, first + _BEFORE):
        kind_at = found.start()
        at = kind_at - _BEFORE
        (length,) = length_at(data, at)
        if not SHORTEST <= length <= LONGEST:
            continue
        end = at + length
        if end <= size and data[end - 1] or _is_broken(data, kind_at, end):
            continue
        if with_values or not _is_field(data[max(at - _LONGEST_NAME, 0) : at]):
            yield at


def _is_broken(data: bytes, at: int, end: int) -> bool:
    """Whether the first elements of a document, the first of which begins at a place, do not lead to its end, as far as they are here."""
    size = len(data)
    for _ in range(_MOST_ELEMENTS):
        if at >= size:
            return False
        kind = data[at]
        if not kind or kind not in _TYPES:
            return bool(kind) or at + 1 != end
        zero = data.find(b"\0", at + 1, end)
        fixed = SIZES[kind]
        if zero < 0:
            return end <= size
        if fixed >= 0:
            at = zero + 1 + fixed
        elif kind == PATTERN or zero + 5 > size:
            return False
        else:
            length = length_at(data, zero + 1)[0] + ~fixed
            if length < 4:
                return True
            at = zero + 1 + length
        if at >= end:
            return True
    return False


class Chain(NamedTuple):
    """Documents that seem to follow one another from a place on, by their ends, and the beginning of one that must end before them."""

    place: int
    ends: list[int]
    start: int | None = None

    def documents(self) -> list[object]:
        """What each of its documents is known by."""
        before: list[object] = [] if self.start is None else [(self.start, self.place)]
        return [self.place, *self.ends[:-1], *before]
