"""A writer of archives as `mongodump --archive` makes them, which knows nothing of the package."""

from typing import Iterable, List, Sequence, Tuple

from .bson import document, field, int32, string

MAGIC = (0x8199E26D).to_bytes(4, "little")
END = b"\xff\xff\xff\xff"
_ONES = (1 << 64) - 1
# The reflected polynomial of ECMA-182.
_POLYNOMIAL = 0xC96C5795D7870F42


def _entry(byte: int) -> int:
    for _ in range(8):
        byte = byte >> 1 ^ (_POLYNOMIAL if byte & 1 else 0)
    return byte


_TABLE = [_entry(byte) for byte in range(256)]


def crc64(data: bytes) -> int:
    """The CRC-64 of bytes, one at a time."""
    crc = _ONES
    for byte in data:
        crc = _TABLE[(crc ^ byte) & 0xFF] ^ crc >> 8
    return crc ^ _ONES


def header(*left_out: str, version: str = "0.1") -> bytes:
    """The header of an archive."""
    fields = {
        "concurrent_collections": field(0x10, "concurrent_collections", int32(4)),
        "version": string("version", version),
        "server_version": string("server_version", "7.0.14"),
        "tool_version": string("tool_version", "100.10.0"),
    }
    return document(*(value for name, value in fields.items() if name not in left_out))


def listed(database: str, collection: str, metadata: str = "{}", kind: str = "collection", left_out: str = "") -> bytes:
    """What the list says of a collection. The oldest mongodump writes no type."""
    fields = {
        "db": string("db", database),
        "collection": string("collection", collection),
        "metadata": string("metadata", metadata),
        "size": field(0x10, "size", int32(0)),
        "type": string("type", kind),
    }
    return document(*(value for name, value in fields.items() if name != left_out and (name != "type" or kind)))


def block_header(database: str, collection: str, crc: int = 0, is_end: bool = False, left_out: str = "") -> bytes:
    """The header of a block."""
    fields = {
        "db": string("db", database),
        "collection": string("collection", collection),
        "EOF": field(0x08, "EOF", bytes([is_end])),
        "CRC": field(0x12, "CRC", crc.to_bytes(8, "little")),
    }
    return document(*(value for name, value in fields.items() if name != left_out))


def block(database: str, collection: str, documents: bytes) -> bytes:
    """A block with documents."""
    return block_header(database, collection) + documents + END


def end(database: str, collection: str, documents: bytes) -> bytes:
    """The last block of a collection with these documents."""
    return block_header(database, collection, crc64(documents), True) + END


def prelude(*lists: bytes) -> bytes:
    """What is before the blocks."""
    return MAGIC + header() + b"".join(lists) + END


def documents_of(data: bytes) -> List[bytes]:
    """The documents of a dump, by their lengths."""
    found, at = [], 0
    while at < len(data):
        size = int.from_bytes(data[at : at + 4], "little")
        found.append(data[at : at + size])
        at += size
    return found


def archive(collections: Sequence[Tuple[str, str, bytes]], each: int = 50, others: Iterable[bytes] = ()) -> bytes:
    """An archive of collections, whose blocks of this many documents alternate."""
    parts = [prelude(*(listed(database, name, METADATA % name) for database, name, _ in collections), *others)]
    left = [(database, name, data, documents_of(data)) for database, name, data in collections]
    while left:
        more = []
        for database, name, data, documents in left:
            if documents:
                parts.append(block(database, name, b"".join(documents[:each])))
                more.append((database, name, data, documents[each:]))
            else:
                parts.append(end(database, name, data))
        left = more
    return b"".join(parts)


METADATA = '{"indexes":[],"uuid":"","collectionName":"%s","type":"collection"}'
