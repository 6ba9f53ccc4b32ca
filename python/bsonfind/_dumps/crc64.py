"""CRC-64 by the polynomial of ECMA-182, as Go's `hash/crc64` has it, at the speed of a library.

It is also the check of files of xz, which `lzma` of the standard library reads. So the bytes are given to its decoder as the
content of such a file, in chunks that are not compressed, with the CRC that they should have; the decoder computes the CRC and
compares.
"""

from __future__ import annotations

import struct
import zlib

from .._errors import BsonfindError

# The most bytes of a chunk, and what is before one: of the first, and of those after it.
_CHUNK = 1 << 16
_FIRST, _NEXT = 1, 2
_chunk_header = struct.Struct(">BH").pack


def _with_crc32(data: bytes) -> bytes:
    return data + struct.pack("<I", zlib.crc32(data))


# A file of xz whose check is CRC-64, and in it a block of LZMA2 with a dictionary of 256 KiB.
_BEGINNING = b"\xfd7zXZ\0" + _with_crc32(b"\0\x04") + _with_crc32(b"\x02\0\x21\x01\x0c\0\0\0")


class Crc64:
    """The CRC-64 of bytes that pass."""

    def __init__(self) -> None:
        try:
            import lzma
        except ImportError:
            raise BsonfindError("this Python lacks its module lzma, which a CRC-64 is checked by; unpack --no-crc does without") from None
        self._wrong = lzma.LZMAError
        self._decoder = lzma.LZMADecompressor(lzma.FORMAT_XZ)
        self._decoder.decompress(_BEGINNING)
        self._held, self._kind, self._size = bytearray(), _FIRST, 0

    def add(self, data: memoryview) -> None:
        at, size = 0, len(data)
        while at < size:
            piece = data[at : at + _CHUNK - len(self._held)]
            at += len(piece)
            self._held += piece
            if len(self._held) == _CHUNK:
                self._pass_on()

    def is_of(self, crc: int) -> bool:
        """Whether all bytes together have this CRC. Nothing may follow."""
        if self._held:
            self._pass_on()
        try:
            # The end of the chunks, and zeros up to a multiple of four bytes.
            self._decoder.decompress(bytes(1 + -(self._size + 1) % 4) + struct.pack("<Q", crc))
        except self._wrong:
            return False
        return True

    def _pass_on(self) -> None:
        size = len(self._held)
        self._decoder.decompress(_chunk_header(self._kind, size - 1) + self._held)
        self._kind = _NEXT
        self._size += 3 + size
        self._held.clear()
