"""What a file is that is no dump, by its first bytes: an archive, one of gzip, or a file of another program that may hold a dump."""

from __future__ import annotations

from .archive import MAGIC as ARCHIVE
from .files import HEAD
from .gzip import MAGIC as GZIP

# What the files of other programs begin with, as these say. As the length of a document each is out of range.
_BEGINNINGS = {
    b"PK\x03\x04": "zip", b"PK\x05\x06": "zip", b"PK\x07\x08": "zip", b"7z\xbc\xaf": "7z", b"\x28\xb5\x2f\xfd": "zstd",
    b"\xfd7zX": "xz", b"BZh": "bzip2", b"\x04\x22\x4d\x18": "lz4",
}  # fmt: skip
_KNOWN = (ARCHIVE, *_BEGINNINGS)
# How many bytes say which of these it is; of tar, by POSIX, a header: the name of a file, zeros after it, and a checksum, which is the
# sum of all bytes with spaces in place of its own octal digits.
FEW, _TAR, _NAME, _CHECKSUM = 4, 512, 100, slice(148, 156)
# What the bytes of a name are among: no control characters, and none that UTF-8 does not have.
_OF_NAMES = bytes([*range(0x20, 0x7F), *range(0x80, 0xF8)])


def other_kind(head: bytes) -> str | None:
    """The name of another program whose files begin so; None of a dump, an archive or a file of gzip."""
    for beginning, kind in _BEGINNINGS.items():
        if head.startswith(beginning):
            return kind
    return "tar" if _is_tar(head[:_TAR]) else None


def is_known(head: bytes) -> bool:
    """Whether these bytes say what it is, whatever follows them: of a pipe no more are waited for."""
    if len(head) < FEW or head.startswith(GZIP):
        return len(head) >= HEAD
    return len(head) >= _TAR or head.startswith(_KNOWN) or not _may_be_tar(head)


def _may_be_tar(head: bytes) -> bool:
    """Whether it begins with the name of a file, which zeros follow."""
    name, _, rest = head[:_NAME].partition(b"\0")
    return bool(name) and not name.strip(_OF_NAMES) and not rest.strip(b"\0")


def _is_tar(header: bytes) -> bool:
    field = header[_CHECKSUM]
    digits = field.strip(b"\0 ")
    if len(header) < _TAR or not _may_be_tar(header) or not digits or digits.strip(b"01234567"):
        return False
    return sum(header) - sum(field) + len(field) * ord(" ") == int(digits, 8)
