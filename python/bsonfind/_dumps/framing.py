"""The lengths with which the documents of a dump begin."""

from __future__ import annotations

import os
from collections import deque
from itertools import groupby
from operator import itemgetter
from typing import BinaryIO, Callable, Iterable, Iterator

from .._errors import DumpError
from .._faults import Fault
from .elements import length_at

SHORTEST, LONGEST = 5, 16_793_600
# What a run of the program reads at most.
LARGEST_INPUT = 4_294_967_295
_PIECE = 1 << 18


def read_at(file: BinaryIO, at: int, most: int, least: int = 1) -> bytes:
    """Some bytes of a file at a place; an error where the file no longer has this many."""
    piece = os.pread(file.fileno(), most, at)
    if len(piece) < least:
        raise DumpError(f"no bytes at byte {at}: the file became shorter")
    return piece


def read_on(file: BinaryIO, at: int, end: int) -> Iterator[bytes]:
    """The bytes of a file from one place to another. No map of it is made: the system ends a program whose map shrinks."""
    while at < end:
        piece = read_at(file, at, min(_PIECE, end - at))
        at += len(piece)
        yield piece


def ends_in(pieces: Iterable[bytes]) -> Iterator[int]:
    """The place after each document of bytes that pass, by its length alone; a length that is wrong is a `DumpError`."""
    # The bytes from the next length on, how many passed, where the next length is, and where the last document begins.
    held, seen, at, start, number = b"", 0, 0, 0, 0
    for piece in pieces:
        held, seen = held + piece, seen + len(piece)
        while at <= seen:
            if at > start:
                yield at
                start, number = at, number + 1
            if at + 4 > seen:
                break
            (length,) = length_at(held, len(held) - (seen - at))
            if not SHORTEST <= length <= LONGEST:
                raise bad(number, at, "bad length")
            at += length
        held = held[len(held) - (seen - at) :] if at < seen else b""
    if at > seen:
        raise bad(number, start, "bad length")
    if at < seen:
        raise bad(number, at, "length cut short")


def up_to_wrong_length(pieces: Iterable[bytes], left: list[DumpError]) -> Iterator[bytes]:
    """The pieces up to the one with a wrong length, after which none is read: the error is put into a list if more may come."""
    passed: deque[bytes] = deque()

    def noted() -> Iterator[bytes]:
        for piece in pieces:
            passed.append(piece)
            yield piece
        # What is wrong by the end of all pieces leaves none.
        ended.append(True)

    ended: list[bool] = []
    try:
        for _ in ends_in(noted()):
            while len(passed) > 1:
                yield passed.popleft()
    except DumpError as error:
        if not ended:
            left.append(error)
    yield from passed


def documents_taken(pieces: Iterable[bytes], take: Callable[[bytes], None]) -> Iterator[bytes]:
    """The pieces as they pass, whose documents are taken. After a wrong length, which is a fault, none is."""
    # The pieces since the last document, how many bytes they have, and how many are looked at next: a length, or a document. So the
    # pieces of a long one are joined once.
    held, size, needed, is_wrong = list[bytes](), 0, 4, False
    for piece in pieces:
        if not is_wrong:
            held.append(piece)
            size += len(piece)
            if size >= needed:
                data, at = b"".join(held), 0
                while at + needed <= size:
                    (length,) = length_at(data, at)
                    is_wrong = not SHORTEST <= length <= LONGEST
                    if is_wrong or at + length > size:
                        needed = length
                        break
                    take(data[at : at + length])
                    at, needed = at + length, 4
                held, size = [data[at:]], size - at
        yield piece


def inputs(pieces: Iterable[bytes], most: int | None = None) -> Iterator[tuple[int, int, Iterator[bytes]]]:
    """Splits bytes between documents, as they pass, into inputs of at most this many bytes, or of as many as a run can read.

    Each input comes with the offset and the number of its first document, and none follows one that was not read to its end. A longer
    document is an input by itself. Only the lengths are looked at: with a wrong one the last input begins.
    """
    groups, is_read = groupby(_placed(pieces, LARGEST_INPUT if most is None else most), itemgetter(0, 1)), True

    def read(group: Iterator[tuple[int, int, bytes]]) -> Iterator[bytes]:
        nonlocal is_read
        for _, _, piece in group:
            yield piece
        is_read = True

    while is_read and (found := next(groups, None)):
        is_read, (offset, first) = False, found[0]
        yield offset, first, read(found[1])


def _placed(pieces: Iterable[bytes], most: int) -> Iterator[tuple[int, int, bytes]]:
    """The bytes, each with the offset and the number of the first document of its input."""
    # The bytes that are kept, where they begin and how far from there the next document is; and where the input begins.
    held, offset, at, start = b"", 0, 0, 0
    number, first, is_wrong = 0, 0, False
    for piece in pieces:
        held += piece
        last, end = len(held) - 4, start + most - offset
        while at <= last and not is_wrong:
            (length,) = length_at(held, at)
            is_wrong = not SHORTEST <= length <= LONGEST
            if (is_wrong or at + length > end) and offset + at > start:
                if at:
                    yield start, first, held[:at]
                held, offset = held[at:], offset + at
                start, first = offset, number
                last, at, end = last - at, 0, most
            if not is_wrong:
                at += length
                number += 1
        size = len(held) if is_wrong else min(at, len(held))
        if size:
            yield start, first, held[:size]
        held, offset, at = held[size:], offset + size, at - size
    if held:  # They end within a length.
        yield (offset, number, held) if offset > start else (start, first, held)


def bad(number: int, at: int, kind: str) -> DumpError:
    """The error of a document whose length is wrong."""
    return DumpError.at(Fault(number, at, "", kind))
