"""What files of gzip hold, such as those by `mongodump --gzip`."""

from __future__ import annotations

import zlib
from typing import Iterable, Iterator

from .._errors import DumpError

# The most that a piece of a compressed file is unpacked to at once.
_UNPACKED = 1 << 20
# What a file of gzip begins with.
MAGIC = b"\x1f\x8b"
# What zlib takes as the format of gzip.
_GZIP = 31


class UnpackError(DumpError):
    """A compressed file or an archive that is damaged."""

    is_finding = True


def unpacked(pieces: Iterable[bytes]) -> Iterator[bytes]:
    """What the pieces of a file of gzip hold. All bytes before a fault are given, then it is raised."""
    unpack, is_empty = zlib.decompressobj(_GZIP), True
    for piece in pieces:
        is_empty, data = False, b""
        while piece or len(data) == _UNPACKED:
            if unpack.eof:
                # Zeros may be between two parts of the file, and after the last one.
                piece = piece.lstrip(b"\0")
                if not piece:
                    break
                unpack = zlib.decompressobj(_GZIP)
            before = unpack.copy()
            try:
                data = unpack.decompress(piece, _UNPACKED)
            except zlib.error as error:
                yield _before_fault(before, piece)
                raise UnpackError(f"not a sound file of gzip: {str(error).rpartition(': ')[2]}") from None
            if data:
                yield data
            piece = unpack.unused_data if unpack.eof else unpack.unconsumed_tail
    if is_empty:
        raise UnpackError("not a sound file of gzip: it is empty")
    if not unpack.eof:
        raise UnpackError("not a sound file of gzip: it ends too soon")


def is_gzip(head: bytes) -> bool:
    """Whether the first bytes of a file are those of gzip: they can be unpacked, which those of a document that begins alike cannot."""
    try:
        zlib.decompressobj(_GZIP).decompress(head)
    except zlib.error:
        return False
    return head.startswith(MAGIC)


def _before_fault(unpack: zlib._Decompress, piece: bytes) -> bytes:
    """What the most of a faulty piece unpacks to that has no fault by itself."""
    good, bad = 0, len(piece)
    while bad - good > 1:
        middle = (good + bad) // 2
        try:
            unpack.copy().decompress(piece[:middle], _UNPACKED)
            good = middle
        except zlib.error:
            bad = middle
    return unpack.decompress(piece[:good], _UNPACKED)
