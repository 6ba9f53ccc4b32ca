"""Parts of a dump, which are split between documents."""

from __future__ import annotations

from dataclasses import dataclass, field
from typing import BinaryIO, Iterator

from .._arguments import File, name_of, name_of_file, whole
from .._errors import DumpError
from .._faults import Fault
from .files import FileState
from .framing import ends_in
from .sources import Source

# What a part has at most where nothing else is asked for; a run of `find` holds its part in memory.
MOST = 1 << 30
# What a file has at most.
LARGEST = (1 << 63) - 1
_PIECE = 1 << 20


@dataclass(frozen=True)
class Part:
    """Some documents of a file: where they begin, how many bytes they have, and the number of the first one.

    Of a file by `mongodump --gzip` the bytes count as unpacked. A part that `plan` made keeps the state of its file, and is
    refused once the file is another one or was written to.
    """

    path: str
    offset: int
    length: int
    first: int
    state: FileState | None = field(default=None, compare=False)

    def __post_init__(self) -> None:
        name_of(self.path)
        for name in ("offset", "length", "first"):
            whole(name, getattr(self, name), 0, LARGEST)

    def __str__(self) -> str:
        return f"{self.path}, the part of {self.length} bytes at byte {self.offset}"

    def pieces(self) -> Iterator[bytes]:
        """The bytes of the part, which is an error where the file no longer has them."""
        left = self.length
        with Source(name_of_file(self.path), is_named=True) as source:
            self._check_state(source.file)
            for piece in self._bytes_of(source):
                yield piece
                left -= len(piece)
            if left:
                raise PartError(self, f"{left} bytes are missing: the file became shorter")
            self._check_state(source.file)

    def _bytes_of(self, source: Source) -> Iterator[bytes]:
        """The bytes of the part, as many as the file has."""
        if source.is_packed:
            yield from _between(source.pieces(), self.offset, self.offset + self.length)
            return
        left = self.length
        source.file.seek(self.offset)
        while left and (piece := source.file.read(min(left, _PIECE))):
            left -= len(piece)
            yield piece

    def _check_state(self, file: BinaryIO) -> None:
        """Refuses a file that is no longer the one that was split."""
        if not self.state:
            return
        now = FileState.of(file)
        if (now.inode, now.device) != (self.state.inode, self.state.device):
            raise PartError(self, "the file was replaced since it was cut")
        if now.size < self.state.size:
            raise PartError(self, f"{self.state.size - now.size} bytes are missing: the file became shorter")
        if now != self.state:
            raise PartError(self, "the file was written to since it was cut")


class PartError(DumpError):
    """A part that could not be asked, and why; the fault counts in the whole file."""

    def __init__(self, part: Part, text: str, fault: Fault | None = None) -> None:
        super().__init__(text, fault)
        self.args = part, text, fault
        self.part = part

    def __str__(self) -> str:
        return f"{self.part}: {self.text}"


def _between(pieces: Iterator[bytes], start: int, end: int) -> Iterator[bytes]:
    """The bytes from one place to another."""
    at = 0
    for piece in pieces:
        if at >= end:
            return
        if at + len(piece) > start:
            yield piece[max(start - at, 0) : end - at]
        at += len(piece)


def plan(path: File, most: int = MOST) -> list[Part]:
    """Splits a file of any size between documents into parts of at most this many bytes; a longer document is a part by itself.

    Nothing but the lengths is looked at. Where one is wrong there is no plan, but a `DumpError` that gives the byte. A file by
    `mongodump --gzip` is unpacked for the plan, and again from its beginning for each part.
    """
    whole("most", most, 1, LARGEST)
    name = name_of(path)
    parts: list[Part] = []
    start = first = at = number = 0
    with Source(name_of_file(name), is_named=True) as source:
        if source.size is None:
            # Each part would open it again.
            raise DumpError(f"{source.name} is no regular file")
        for number, after in enumerate(ends_in(source.pieces())):
            if after - start > most and at > start:
                parts.append(Part(name, start, at - start, first, source.state))
                start, first = at, number
            at = after
    if at > start:
        parts.append(Part(name, start, at - start, first, source.state))
    return parts
