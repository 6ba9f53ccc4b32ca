"""The frames of an archive: documents of a few fields, ends of blocks, and the documents between them."""

from __future__ import annotations

from itertools import chain
from typing import Iterator, NamedTuple, Union

from .._errors import DumpError
from .elements import length_at, value_end
from .framing import LONGEST, SHORTEST
from .gzip import MAGIC, UnpackError, unpacked

# What is in place of a length after the last document of a block.
_TERMINATOR = -1
Value = Union[str, int, bool]
_INTEGERS = (0x10, 0x12)
_STRING, _BOOLEAN = 0x02, 0x08
_KINDS = {str: "string", int: "integer", bool: "boolean"}
BLOCK = {"db": str, "collection": str, "EOF": bool, "CRC": int}


class Namespace(NamedTuple):
    """A collection of an archive. The oplog has an empty database."""

    database: str
    collection: str

    @classmethod
    def of(cls, name: str) -> Namespace:
        """The collection of a name such as `db.collection`; one without a dot is that of the oplog or the like."""
        database, dot, collection = name.partition(".")
        return cls(database, collection) if dot else cls("", name)

    def __str__(self) -> str:
        return f"{self.database}.{self.collection}" if self.database else self.collection


def plain(pieces: Iterator[bytes]) -> Iterator[bytes]:
    """The bytes of an archive, unpacked where they begin as those of gzip do."""
    joined = joined_pieces(pieces, len(MAGIC))
    first = next(joined, b"")
    pieces = chain([first], joined)
    return unpacked(pieces) if first.startswith(MAGIC) else pieces


def joined_pieces(pieces: Iterator[bytes], least: int) -> Iterator[bytes]:
    """The pieces, of which the first has this many bytes at least, if there are this many."""
    first = b""
    for piece in pieces:
        first += piece
        if len(first) >= least:
            break
    yield first
    yield from pieces


class Reader:
    """Bytes that pass, as documents."""

    def __init__(self, pieces: Iterator[bytes]) -> None:
        self._pieces = pieces
        # What is kept, how much of it was read, and which byte is the first of it.
        self._view, self._at, self._base = memoryview(b""), 0, 0

    @property
    def offset(self) -> int:
        return self._base + self._at

    def is_at_end(self) -> bool:
        return self._at == len(self._view) and not self._more()

    def take(self, size: int, otherwise: str | None = None) -> bytes:
        """This many bytes; fewer are an error."""
        while len(self._view) - self._at < size:
            if not self._more():
                raise DumpError(otherwise) if otherwise else self._cut()
        self._at += size
        return bytes(self._view[self._at - size : self._at])

    def document(self) -> bytes | None:
        """The next document; None in place of the terminator."""
        start = self.offset
        head = self.take(4)
        (length,) = length_at(head)
        if length == _TERMINATOR:
            return None
        if not SHORTEST <= length <= LONGEST:
            raise bad(start, "bad length")
        parts, left = [head], length - 4
        while left:
            # What is announced may never come, so no more is kept than has come.
            if self.is_at_end():
                raise self._cut()
            part = self.take(min(left, len(self._view) - self._at))
            parts.append(part)
            left -= len(part)
        return b"".join(parts)

    def documents(self) -> Iterator[tuple[memoryview, int]]:
        """The documents up to the terminator: as much of them as is there, and how many end in it."""
        # How many bytes of the last document are not there yet.
        left = 0
        while True:
            view, start = self._view, self._at
            size, at, ended = len(view), start + left, int(left > 0)
            last, length = size - 4, SHORTEST
            while at <= last:
                (length,) = length_at(view, at)
                if not SHORTEST <= length <= LONGEST:
                    break
                at += length
                ended += 1
            end = min(at, size)
            self._at = end
            if end > start:
                left = at - end
                yield view[start:end], ended - (left > 0)
            if length == _TERMINATOR:
                self._at += 4
                return
            if not SHORTEST <= length <= LONGEST:
                raise bad(self.offset, "bad length")
            if not self._more():
                raise self._cut()

    def _more(self) -> bool:
        """Has one more piece, and forgets what was read; False if there is none."""
        for piece in self._pieces:
            if piece:
                rest = bytes(self._view[self._at :])
                self._base += self._at
                self._view, self._at = memoryview(rest + piece if rest else piece), 0
                return True
        return False

    def _cut(self) -> UnpackError:
        return bad(self._base + len(self._view), "the archive ends inside a block")


def bad(at: int, text: str) -> UnpackError:
    return UnpackError(f"byte {at}: {text}")


def block_of(header: bytes, start: int) -> tuple[Namespace, int | None]:
    """The collection of a block, by its header, and the CRC at the end of the collection."""
    fields = fields_of(header, start, BLOCK)
    return namespace_in(fields, start), int(fields["CRC"]) if fields["EOF"] else None


def namespace_in(fields: dict[str, Value], start: int) -> Namespace:
    """The collection that a document names, which begins at this byte."""
    database, collection = str(fields["db"]), str(fields["collection"])
    # A directory is named as the database, and must not be another one.
    if database in (".", "..") or "/" in database or "\0" in database:
        raise bad(start, f"no name of a database: {database!r}")
    if not collection or "\0" in collection:
        raise bad(start, f"no name of a collection: {collection!r}")
    return Namespace(database, collection)


def fields_of(data: bytes, start: int, wanted: dict[str, type], **missing: Value) -> dict[str, Value]:
    """The fields of a document that begins at this byte: the named ones, by their types, or what they are if missing."""
    try:
        fields = {**missing, **_read_fields(data)}
    except (ValueError, IndexError):
        raise bad(start, "not a document of strings, numbers and booleans") from None
    for name, kind in wanted.items():
        if name not in fields:
            raise bad(start, f'no field "{name}"')
        if type(fields[name]) is not kind:
            raise bad(start, f'field "{name}": not a {_KINDS[kind]}')
    return fields


def _read_fields(data: bytes) -> dict[str, Value]:
    """All fields of a document. One of another type, and what is no document, is a `ValueError` or an `IndexError`."""
    fields: dict[str, Value] = {}
    at, end = 4, len(data) - 1
    if data[end]:
        raise ValueError
    while at < end:
        kind, after = data[at], data.index(b"\0", at + 1, end)
        name, at = data[at + 1 : after].decode(), value_end(data, kind, after + 1) or 0
        value = data[after + 1 : at]
        if name in fields or not 0 < at <= end:
            raise ValueError
        if kind == _STRING and len(value) > 4 and not value[-1]:
            fields[name] = value[4:-1].decode()
        elif kind == _BOOLEAN and value[0] < 2:
            fields[name] = value[0] == 1
        elif kind in _INTEGERS:
            fields[name] = int.from_bytes(value, "little", signed=True)
        else:
            raise ValueError
    return fields
