"""Archives of `mongodump --archive`: a list of the collections, then blocks with their documents, as they pass.

An archive is read once, in memory of one piece of it. Nothing is looked at but the frames: lengths, names, ends and CRCs.
"""

from __future__ import annotations

import json
from math import isinf
from typing import Any, Collection, Iterator, NamedTuple

from .._errors import DumpError
from .archive_frames import Namespace, Reader, bad, block_of, fields_of, joined_pieces, namespace_in, plain
from .crc64 import Crc64
from .gzip import UnpackError

MAGIC = b"\x6d\xe2\x99\x81"
_NO_ARCHIVE = "not an archive of mongodump"
_VERSION = "0.1"
_HEADER = {"concurrent_collections": int, "version": str, "server_version": str, "tool_version": str}
_LISTED = {"db": str, "collection": str, "metadata": str, "size": int, "type": str}
# This many headers of blocks are kept at most.
_MOST_KNOWN = 1000


class Listed(NamedTuple):
    """What the list of an archive says of a collection. Its metadata is the text of its `.metadata.json`, or empty."""

    namespace: Namespace
    metadata: str
    kind: str

    @property
    def buckets(self) -> Namespace:
        """Where the documents are of a time series."""
        return Namespace(self.namespace.database, f"system.buckets.{self.namespace.collection}")


class Documents(NamedTuple):
    """The next bytes of the documents of a collection, and how many documents end in them."""

    namespace: Namespace
    data: memoryview
    ended: int


class End(NamedTuple):
    """The end of a collection, and what is wrong with it."""

    namespace: Namespace
    error: str | None


class Archive:
    """An archive of which the list is read; then its blocks are, once. What does not fit is an `UnpackError` with the byte, as unpacked."""

    def __init__(self, pieces: Iterator[bytes], with_crc: bool = True) -> None:
        """Reads the list. Whether the pieces are those of a file of gzip is known by the first of them."""
        self._reader = Reader(plain(pieces))
        self._with_crc = with_crc
        if self._reader.take(len(MAGIC), _NO_ARCHIVE) != MAGIC:
            raise DumpError(_NO_ARCHIVE)
        start = self._reader.offset
        version = fields_of(self._document(), start, _HEADER)["version"]
        if version != _VERSION:
            raise bad(start, f"version {version} of archives is not known")
        # The collections that were begun, each with its CRC, and those of which the end was read.
        self._open: dict[Namespace, Crc64 | None] = {}
        self._ended: set[Namespace] = set()
        self.listed: list[Listed] = []
        known: set[Namespace] = set()
        start = self._reader.offset
        while (data := self._reader.document()) is not None:
            fields = fields_of(data, start, _LISTED, type="")
            namespace = namespace_in(fields, start)
            if namespace in known:
                raise bad(start, f"{namespace} is listed twice")
            known.add(namespace)
            metadata = str(fields["metadata"])
            # Of metadata that cannot be read whoever reports it says what is wrong.
            self.listed.append(Listed(namespace, metadata, str(fields["type"]) or kind_of(parsed(metadata)[0])))
            start = self._reader.offset

    def blocks(self, only: Collection[Namespace] | None = None) -> Iterator[Documents | End]:
        """The documents of all collections, or of some, as they come, and the end of each. That one is missing is an error."""
        # What the headers of blocks say, which come again and again.
        known: dict[bytes, tuple[Namespace, int | None]] = {}
        while not self._reader.is_at_end():
            start, header = self._reader.offset, self._document()
            if header not in known:
                if len(known) == _MOST_KNOWN:
                    known.clear()
                known[header] = block_of(header, start)
            namespace, crc = known[header]
            if namespace in self._ended:
                raise bad(start, f"a block of {namespace} after its end")
            is_wanted = only is None or namespace in only
            if namespace not in self._open:
                self._open[namespace] = Crc64() if self._with_crc and is_wanted else None
            found = self._open[namespace]
            if crc is None:
                for data, ended in self._reader.documents():
                    if found:
                        found.add(data)
                    if is_wanted:
                        yield Documents(namespace, data, ended)
                continue
            start = self._reader.offset
            if self._reader.document() is not None:
                raise bad(start, f"a document after the end of {namespace}")
            del self._open[namespace]
            self._ended.add(namespace)
            is_right = found is None or found.is_of(crc & 0xFFFF_FFFF_FFFF_FFFF)
            yield End(namespace, None if is_right else "wrong CRC-64")
        for namespace in self.unended():
            raise bad(self._reader.offset, f"the archive ends before the end of {namespace}")

    def unended(self) -> list[Namespace]:
        """The collections whose end was not read: those that were begun, and then those that are only listed."""
        seen = {*self._open, *self._ended}
        # A view has no documents, and those of a time series may be in another collection.
        left = [it for it in self.listed if it.kind != "view" and it.namespace not in seen]
        return [*self._open, *(it.namespace for it in left if it.kind != "timeseries" or it.buckets not in seen)]

    def _document(self) -> bytes:
        """The document that must be next."""
        start = self._reader.offset
        data = self._reader.document()
        if data is None:
            raise bad(start, "no header of a block")
        return data


def is_archive(head: bytes) -> bool:
    """Whether the first bytes of a file are those of an archive, packed by gzip or not."""
    try:
        return next(joined_pieces(plain(iter([head])), len(MAGIC))).startswith(MAGIC)
    except UnpackError:
        return False


def documents_of(pieces: Iterator[bytes], namespace: Namespace, listed: list[Listed] | None = None) -> Iterator[bytes]:
    """The documents of one collection of an archive, which is read up to the end of that. The list of the archive is put into `listed`."""
    archive = Archive(pieces)
    if listed is not None:
        listed[:] = archive.listed
    for block in archive.blocks([namespace]):
        if isinstance(block, Documents):
            yield bytes(block.data)
        elif block.namespace == namespace:
            if block.error:
                raise UnpackError(f"{namespace}: {block.error}")
            return
    raise DumpError(why_none(archive.listed, namespace))


def why_none(listed: list[Listed], namespace: Namespace) -> str:
    """Why an archive has no documents of a name."""
    found = next((it for it in listed if it.namespace == namespace), None)
    if found and found.kind == "view":
        return f"{namespace} is a view, which has no documents"
    if found and found.kind == "timeseries":
        return f"{namespace} is a time series, whose documents are those of {found.buckets}"
    return f"{namespace} is not in the archive"


def parsed(metadata: str | bytes) -> tuple[dict[str, Any] | None, str | None]:
    """The metadata of a text, or what is wrong with it. Half of a surrogate is U+FFFD, as mongorestore reads it."""
    try:
        found = json.loads(metadata, parse_constant=_refuse, parse_float=_double)
        text = json.dumps(found, ensure_ascii=False)
        if not is_utf8(text):
            found = json.loads(text.encode("utf-16", "surrogatepass").decode("utf-16", "replace"))
    except (ValueError, RecursionError) as error:
        return None, str(error)
    return (found, None) if isinstance(found, dict) else (None, "not a document")


def _refuse(number: str) -> None:
    """Refuses a number that Python reads, and JSON does not have."""
    raise ValueError(f"{number} is no number of JSON")


def _double(number: str) -> float:
    double = float(number)
    if isinf(double):
        raise ValueError(f"{number[:20]} is out of range")
    return double


def is_utf8(text: str) -> bool:
    """Whether a text has no half of a surrogate, by which Python keeps bytes that are not UTF-8 too."""
    try:
        text.encode()
    except UnicodeEncodeError:
        return False
    return True


def kind_of(metadata: dict[str, Any] | None) -> str:
    """What metadata is of: "view", "timeseries", "capped" or "collection". An old mongodump says it by the options alone."""
    found = metadata or {}
    kind, options = found.get("type"), found.get("options")
    keys = options if isinstance(options, dict) else {}
    if kind == "view" or "viewOn" in keys:
        return "view"
    return "timeseries" if kind == "timeseries" or "timeseries" in keys else "capped" if keys.get("capped") else "collection"
