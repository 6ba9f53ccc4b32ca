"""What a backup contains: its collections, as their dumps are counted and as their metadata describes them."""

from __future__ import annotations

import json
import os
import re
from functools import lru_cache
from math import isfinite
from typing import Any, Callable, Iterable, Iterator, NamedTuple, Sequence

from .._ask.values import plain_value
from .._dumps.archive import Listed, kind_of, parsed
from .._dumps.archive_frames import Namespace
from .._dumps.files import INSIDE, member_of, name_in
from .._dumps.sources import Watch
from .audit import audit_dumps
from .backups import collection_of, dumps_of, metadata_below, namespace_of, read_metadata, stem_of_file, stem_wanted
from .reports import Audit, Report
from .texts import line_of_json

COLUMNS = ("database", "collection", "kind", "documents", "bytes", "average", "indexes", "options")
# What the name of the collection begins with that has the documents of a time series.
_BUCKETS = "system.buckets."
# What is between the name of a directory or an archive and that of what is in it.
_IN = re.compile(f"{os.sep}+|{INSIDE}")
# The endings of the names of the two collections of GridFS.
_FILES, _CHUNKS = ".files", ".chunks"
_NUMBERS = {"$numberInt", "$numberLong", "$numberDouble"}
# A double below this one that is a whole number is written without a fraction.
_EXACT = 1 << 53


class Entry(NamedTuple):
    """A collection of a backup, a time series by its buckets, with unpacked bytes. What is not known is None; a view has no documents."""

    file: str
    database: str
    collection: str
    kind: str
    documents: int | None
    bytes: int | None
    indexes: list[Any] | None
    options: dict[str, Any] | None
    # What else the metadata says, such as the UUID of the collection.
    metadata: dict[str, Any] | None

    @property
    def average(self) -> int | None:
        """The bytes of a document, rounded to a whole number."""
        return (2 * (self.bytes or 0) + self.documents) // (2 * self.documents) if self.documents else None

    def as_json(self) -> str:
        return line_of_json({name: getattr(self, name) for name in (*COLUMNS, "metadata", "file")})

    def cells(self) -> list[str]:
        """The columns of a table; what is not known is empty."""
        numbers = ["" if it is None else str(it) for it in (self.documents, self.bytes, self.average)]
        indexes = "; ".join(" ".join(_words_of(it)) for it in self.indexes or () if isinstance(it, dict))
        return [self.database, self.collection, self.kind, *numbers, indexes, _text(self.options) if self.options else ""]


def info_of(names: Sequence[str], jobs: int | None, program: str, watch: Callable[[int, int], Watch]) -> tuple[list[Entry], Audit]:
    """The collections of dumps, archives and directories, in the order of these and then by name, and what their check found."""
    lists: dict[str, list[Listed]] = {}
    done = audit_dumps(dumps_of(names), jobs=jobs, max_faults=1, program=program, watch=watch, take_list=lists.__setitem__)
    archives = [name for name, listed in lists.items() if listed and not member_of(name)]
    inside = {name: [it for it in done.reports if it.name.startswith(name + INSIDE)] for name in archives}
    packed = {it.name for reports in inside.values() for it in reports}
    entries = [entry for name in archives for entry in _of_archive(name, lists[name], inside[name])]
    entries += _of_files([it for it in done.reports if it.name not in packed], names, lists)
    return _ordered(entries, names), done


def _of_archive(archive: str, listed: Iterable[Listed], reports: Iterable[Report]) -> Iterator[Entry]:
    """The collections of an archive, also those that its list has not."""
    left = {it.name: it for it in reports}
    for it in listed:
        names = [name_in(archive, namespace) for namespace in ([it.buckets] if it.kind == "timeseries" else []) + [it.namespace]]
        report = next((left.pop(name) for name in names if name in left), None)
        yield _entry(names[-1], it.namespace, _metadata_of(it), report)
    for name, report in left.items():
        yield _entry(name, Namespace.of(report.namespace or ""), None, report)


def _of_files(reports: Iterable[Report], names: Iterable[str], lists: dict[str, list[Listed]]) -> Iterator[Entry]:
    """The collections of dumps, and those of which metadata alone is below a directory."""

    @lru_cache
    def real(directory: str) -> str:
        return os.path.realpath(directory)

    # The metadata of each dump, by the name of this without an ending, or by its own; a directory may have several names.
    described: dict[str, tuple[str, dict[str, Any]]] = {}
    seen: set[str] = set()
    for directory in filter(os.path.isdir, names):
        for path, metadata, _ in metadata_below(directory):
            inside, base = os.path.split(path)
            if metadata is None or (own := os.path.join(real(inside), base)) in seen:
                continue
            seen.add(own)
            stem = stem_wanted(path, metadata)
            name = own if stem is None else os.path.join(real(inside), stem)
            # That of a time series comes before that of its buckets.
            if name not in described or not base.startswith(_BUCKETS):
                described[name] = path, metadata
    for report in reports:
        if member := member_of(report.name):
            listed = next((it for it in lists.get(report.name, ()) if member.namespace in (it.namespace, it.buckets)), None)
            if listed or not report.error:
                yield _entry(report.name, listed.namespace if listed else member.namespace, listed and _metadata_of(listed), report)
            continue
        inside, base = os.path.split(stem_of_file(report.name))
        path, found = described.pop(os.path.join(real(inside), base), (report.name, None))
        found = read_metadata(report.name)[0] if found is None else found
        if found is not None or report.namespace:
            is_own = path == report.name or kind_of(found) != "timeseries"
            namespace = namespace_of(report.name) if report.namespace and is_own else _namespace_of(path, found)
            yield _entry(report.name, namespace, found, report)
    for path, metadata in described.values():
        yield _entry(path, _namespace_of(path, metadata), metadata, None)


def _metadata_of(listed: Listed) -> dict[str, Any] | None:
    """What the list of an archive says of a collection, None if that cannot be read."""
    metadata, _ = parsed(listed.metadata)
    return None if metadata is None else {"type": listed.kind, **metadata}


def _namespace_of(path: str, metadata: dict[str, Any] | None) -> Namespace:
    """The collection of a file of metadata."""
    return Namespace(os.path.basename(os.path.dirname(os.path.abspath(path))), collection_of(path, metadata))


def _entry(file: str, namespace: Namespace, metadata: dict[str, Any] | None, report: Report | None) -> Entry:
    """A collection by its metadata and the report of its dump, each of which may be missing."""
    kind = kind_of(metadata)
    if kind == "collection" and namespace.collection.startswith(_BUCKETS):
        kind = "timeseries"
    documents = size = None
    if report and report.namespace and (report.whole or report.is_fault or not report.error):
        documents, size = report.whole, report.bytes
    indexes = options = others = None
    if metadata is not None:
        others = _plain(metadata)
        indexes, options = others.pop("indexes", None), others.pop("options", None)
        indexes, options = indexes if isinstance(indexes, list) else [], options if isinstance(options, dict) else {}
    return Entry(file, namespace.database, namespace.collection, kind, documents, size, indexes, options, others)


def _ordered(entries: list[Entry], names: Sequence[str]) -> list[Entry]:
    """The collections by what they are in, and by name. Two that have the names of GridFS are of this kind."""

    places: dict[str, int] = {}
    for number, name in enumerate(names):
        places.setdefault(name.rstrip(os.sep) or os.sep, number)

    def key(entry: Entry) -> tuple[int, str, str]:
        # A file is the one of a name, or is in it, which is a directory or an archive.
        ends = (it.start() for it in _IN.finditer(entry.file))
        among = (places.get(it, len(names)) for it in (entry.file, os.sep, *(entry.file[:end] for end in ends)))
        return min(among), entry.database, entry.collection

    there = {key(it) for it in entries if it.kind == "collection"}
    for number, entry in enumerate(entries):
        for end, other in ((_FILES, _CHUNKS), (_CHUNKS, _FILES)):
            if entry.collection.endswith(end) and {key(entry), (*key(entry)[:2], entry.collection[: -len(end)] + other)} <= there:
                entries[number] = entry._replace(kind="gridfs")
    return sorted(entries, key=key)


def _plain(value: Any) -> Any:
    """A value of metadata, with numbers of JSON in place of those of Extended JSON."""
    return json.loads(json.dumps(value), object_hook=_number)


def _number(value: dict[str, Any]) -> Any:
    """The number of an object of Extended JSON, or else the object; NaN and infinity have none."""
    number = plain_value(value) if value.keys() <= _NUMBERS else value
    if not isinstance(number, float):
        return number
    return value if not isfinite(number) else int(number) if number.is_integer() and abs(number) < _EXACT else number


def _words_of(index: dict[str, Any]) -> Iterator[str]:
    """The name and the key of an index, and what else it is by the options of `createIndexes`."""
    yield f"{index.get('name')} {_text(index.get('key'))}"
    yield from (name for name in ("unique", "sparse", "hidden") if index.get(name))
    if "partialFilterExpression" in index:
        yield f"partial {_text(index['partialFilterExpression'])}"
    if "expireAfterSeconds" in index:
        yield f"TTL {_text(index['expireAfterSeconds'])} s"


def _text(value: Any) -> str:
    return json.dumps(value, ensure_ascii=False, separators=(",", ":"))
