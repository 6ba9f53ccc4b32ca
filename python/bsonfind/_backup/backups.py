"""What a backup holds: its dumps, their collections and the metadata beside them, and what the log of mongodump says of them."""

from __future__ import annotations

import os
import re
import stat
from base64 import urlsafe_b64encode
from dataclasses import dataclass
from hashlib import sha1
from pathlib import PurePath
from typing import Any, Iterable, Iterator
from urllib.parse import quote, unquote

from .._dumps.archive import Listed, kind_of, parsed
from .._dumps.archive_frames import Namespace, joined_pieces
from .._dumps.files import STDIN, file_of, is_whole_archive, member_of
from .._dumps.gzip import unpacked
from .._errors import DumpError, why

OPLOG = Namespace("", "oplog")
_ENDING = re.compile(r"\.bson(\.gz)?$")
_METADATA = re.compile(r"\.metadata\.json(\.gz)?$")
# The names of files that mongodump writes beside dumps.
_BESIDE = re.compile(r"(\.metadata|^prelude)\.json(\.gz)?$")
_PRELUDE = re.compile(r"^prelude\.json(\.gz)?$")
# The names that archives have by custom; below a directory each is known by its first bytes.
_ARCHIVE = re.compile(r"\.archive(\.gz)?$")
# A file that is not whole, as `unpack` leaves it, and any other name by which a file may hold a dump.
_HALF = re.compile(r"\.bson\.part$")
_OTHER = re.compile(r"\.bson(\.(?!bson)\w+)*$", re.IGNORECASE)
# What mongodump does not escape in the name of a collection beside letters, digits and "_.-~"; its longest name of a file without
# an ending, how much of a longer one stays, and what is between that and a hash.
_UNESCAPED, _LONGEST_STEM, _KEPT, _SHORTENED = "$&+:=@", 238, 208, "%24"
# The names of dumps that mongodump writes without a file of metadata beside them, and those of the documents of a time series, whose
# metadata has the name of this.
_BARE = re.compile(r"^(\$admin\..*|system\.indexes)\.bson")
_BUCKETS = "system.buckets."
# How Python keeps bytes that are not UTF-8 in a text.
_BYTES = "surrogateescape"
# What is read of a file of metadata at most: mongodump writes some hundred bytes, and as many for each index.
_LONGEST_METADATA = 1 << 23


@dataclass
class Dump:
    """A dump by its name, with its size; or what could not be found, and why."""

    name: str
    is_below: bool = False
    size: int | None = None
    error: str | None = None
    # Whether that is damage of the backup, as where only the metadata is there.
    is_fault: bool = False
    # What it has in common with other names of the same bytes, None if it was not found.
    file: tuple[object, ...] | None = None


def dumps_of(names: Iterable[str]) -> list[Dump]:
    """The files of these names, and in place of a directory the dumps below it. A name that is met twice is there once.

    Each name of a file with several ones, such as a link, is that of a dump. What cannot be found below a directory is there with
    its error, so that nothing is skipped in silence.
    """
    dumps: dict[tuple[str, str | None], Dump] = {}
    for name in names:
        # A shell names also the files beside dumps.
        error = "no dump: mongodump writes it beside dumps" if _BESIDE.search(os.path.basename(name)) else None
        for dump in dumps_below(name) if name != "-" and os.path.isdir(name) else [Dump(name, error=error)]:
            directory, base = os.path.split(dump.name)
            path = name if name == "-" else os.path.join(os.path.realpath(directory), base)
            first = dumps.setdefault((path, dump.error), dump)
            first.is_below |= dump.is_below
            if first is dump and not dump.error:
                _look_at(dump)
    return list(dumps.values())


def each_once(names: Iterable[str]) -> dict[str, str]:
    """The names, each with the first one of the same file: it is the name itself, unless this file was named before."""
    found: dict[object, str] = {}
    firsts: dict[str, str] = {}
    for name in names:
        dump = Dump(name)
        _look_at(dump)
        firsts[name] = found.setdefault(dump.file or name, name)
    return firsts


def _look_at(dump: Dump) -> None:
    """Notes the size of a file, and what it is. Standard input that is a file is read from where it is, so it is another one."""
    try:
        status = os.fstat(0) if file_of(dump.name) == STDIN else os.stat(file_of(dump.name))
    except OSError as error:
        dump.error = error.strerror
        return
    is_regular, member = stat.S_ISREG(status.st_mode), member_of(dump.name)
    dump.size = status.st_size if is_regular else None
    dump.file = status.st_dev, status.st_ino, member and member.namespace, is_regular and file_of(dump.name) == STDIN


def dumps_below(directory: str) -> Iterator[Dump]:
    """The dumps and archives below a directory, by their names, and what cannot be found there; none at all is an error."""
    waiting: list[str | Dump] = [directory]
    while waiting:
        found = waiting.pop()
        if isinstance(found, Dump):
            yield found
        else:
            waiting += reversed(_found_in(found))


def _found_in(directory: str) -> list[str | Dump]:
    """The dumps and archives in a directory, or what is wrong there, and the names of directories in it."""
    try:
        with os.scandir(directory) as listed:
            entries = sorted(listed, key=lambda entry: entry.name)
    except OSError as error:
        return [Dump(directory, error=f"cannot read the directory: {error.strerror}")]
    stems = {_OTHER.sub("", it.name) for it in entries if _OTHER.search(it.name) and not _METADATA.search(it.name)}
    found: list[str | Dump] = []
    for entry in entries:
        try:
            is_directory = entry.is_dir(follow_symlinks=False)
            it = entry.path if is_directory else _file_among(entry, directory, stems)
        except OSError as error:
            it = Dump(entry.path, error=error.strerror)
        if it:
            found.append(it)
    if not found and not any(_METADATA.search(entry.name) for entry in entries):
        return [Dump(directory, error="no dump is below this directory")]
    return found


def _file_among(entry: os.DirEntry[str], directory: str, stems: set[str]) -> Dump | None:
    """The dump of an entry that is no directory, or what is wrong with it; None of a file that is no dump."""
    if entry.is_dir():
        return Dump(entry.path, error="a link to a directory, which is not followed: name it too")
    if entry.is_symlink() and not os.path.exists(entry.path):
        return Dump(entry.path, error="a link to nothing that can be seen")
    if _ENDING.search(entry.name):
        return Dump(entry.path, is_below=True, error=None if entry.is_file() else "not a regular file")
    if _HALF.search(entry.name):
        return Dump(entry.path, error="not whole: unpack left it so", is_fault=True)
    if _METADATA.search(entry.name):
        return _missing_dump(entry, directory, stems)
    if is_whole_archive(entry.path):
        return Dump(entry.path, is_below=True)
    if _ARCHIVE.search(entry.name):
        return Dump(entry.path, error="no archive, by its first bytes", is_fault=True)
    if _OTHER.search(entry.name):
        return Dump(entry.path, error="not read: the name of a dump ends in .bson or .bson.gz")
    return None


def _missing_dump(entry: os.DirEntry[str], directory: str, stems: set[str]) -> Dump | None:
    """The dump of a file of metadata, if it is not there."""
    stem = _METADATA.sub("", entry.name)
    if stem in stems:
        return None
    metadata, wrong = read_metadata_file(entry.path)
    wanted = stem_wanted(entry.path, metadata)
    # That of a time series which cannot be read is a fault of the documents of this.
    if wanted is None or wanted in stems or wrong and f"{_BUCKETS}{stem}" in stems:
        return None
    return Dump(os.path.join(directory, f"{wanted}.bson"), error=f"missing: only {entry.name} is there", is_fault=True)


def namespace_of(name: str) -> Namespace:
    """The database and the collection whose dump a file is: by its directory, and by the metadata, since long names are shortened."""
    if name == "-":
        return Namespace("", name)
    if is_oplog(name):
        return OPLOG
    member = member_of(name)
    directory, base = os.path.split(os.path.abspath(name))
    stem = member.namespace.collection if member else stem_of_file(base)
    if stem.startswith("$admin."):
        return Namespace.of(_unescaped(stem[1:]))  # The users and roles of one database are dumped beside it.
    return member.namespace if member else Namespace(os.path.basename(directory), collection_of(name, read_metadata(name)[0]))


def place_of(name: str) -> str | None:
    """The directory that has those of the databases, one of which has a dump, or the oplog; None if that is not known."""
    directory, base = os.path.split(name)
    directory = os.path.realpath(directory)
    if is_oplog(name):
        return directory
    return None if base.startswith("$") else os.path.dirname(directory)


def is_inside(place: str, places: set[str]) -> bool:
    return any(str(it) in places for it in PurePath(place).parents)


def stem_of(namespace: Namespace) -> str:
    """The name of a file by mongodump for a collection, without an ending: at the top if the database is empty or begins with "$"."""
    escaped = quote(namespace.collection, _UNESCAPED, errors=_BYTES)
    if len(escaped) > _LONGEST_STEM:
        digest = urlsafe_b64encode(sha1(namespace.collection.encode(errors=_BYTES)).digest()).decode().rstrip("=")
        escaped = f"{escaped[:_KEPT]}{_SHORTENED}{digest}"
    return escaped if is_at_top(namespace) else os.path.join(os.fsdecode(namespace.database.encode(errors=_BYTES)), escaped)


def stem_wanted(path: str, metadata: dict[str, Any] | None) -> str | None:
    """The name without an ending of the dump of this metadata: of a time series that of its buckets, None of a view, which has none."""
    stem, kind = _METADATA.sub("", os.path.basename(path)), kind_of(metadata)
    if kind == "view":
        return None
    if kind != "timeseries" or stem.startswith(_BUCKETS):
        return stem
    return stem_of(Namespace("", f"{_BUCKETS}{collection_of(path, metadata)}"))


def collection_of(path: str, metadata: dict[str, Any] | None) -> str:
    """The name of the collection of a dump or of metadata, by the metadata or else by the name of the file."""
    collection = (metadata or {}).get("collectionName")
    return collection if isinstance(collection, str) else _unescaped(stem_of_file(_METADATA.sub("", os.path.basename(path))))


def _unescaped(stem: str) -> str:
    """The name of which a file has the name; bytes that are not UTF-8 stay as they are in names."""
    return unquote(stem, errors=_BYTES)


def metadata_below(directory: str) -> Iterator[tuple[str, dict[str, Any] | None, str | None]]:
    """The files of metadata below a directory, in the order of their names, with what they say, or what is wrong with them."""
    for inner, _, names in os.walk(directory):
        for path in sorted(os.path.join(inner, it) for it in names if _METADATA.search(it)):
            yield path, *read_metadata_file(path)


def preludes_below(directory: str) -> Iterator[str]:
    """The files below a directory in which mongodump says which versions of it and of the server wrote the dumps."""
    for inner, _, names in os.walk(directory):
        yield from sorted(os.path.join(inner, it) for it in names if _PRELUDE.search(it))


def is_oplog(name: str) -> bool:
    """Whether a file is the oplog of mongodump --oplog: it is beside the directories of databases, without metadata."""
    if member := member_of(name):
        return member.namespace == OPLOG
    directory, base = os.path.split(os.path.abspath(name))
    if base not in ("oplog.bson", "oplog.bson.gz") or metadata_beside(name):
        return False
    try:
        with os.scandir(directory) as entries:
            return any(entry.is_dir() for entry in entries)
    except OSError:
        return False  # Then it is a collection, of which the log must speak.


def is_at_top(namespace: Namespace) -> bool:
    return not namespace.database or namespace.database.startswith("$")


def fault_of_metadata(name: str, is_below: bool) -> str | None:
    """What is wrong with the metadata beside a dump. A file that is named by itself may have none, and so may the oplog and the like."""
    metadata, error = read_metadata(name)
    if error or metadata is not None or not is_below:
        return error
    directory, base = os.path.split(name)
    if base.startswith(_BUCKETS):
        return _fault_of_series(directory, stem_of_file(base))
    return None if _BARE.match(base) or is_oplog(name) else f"no {os.path.basename(_metadata_names(name)[0])} beside it"


def _fault_of_series(directory: str, stem: str) -> str | None:
    """What is wrong with the metadata of a time series, by the name of the file of its documents without an ending."""
    name = os.path.join(directory, stem[len(_BUCKETS) :])
    metadata, error = read_metadata(name)
    if error or metadata is not None:
        return error
    if len(stem) == _LONGEST_STEM and stem[_KEPT:].startswith(_SHORTENED):
        # The name of the file does not say that of the metadata, but that says this one.
        files = ((path, found) for path, found, _ in metadata_below(directory) if os.path.dirname(path) == directory)
        is_there = any(found is not None and stem_wanted(path, found) == stem for path, found in files)
        return None if is_there else "no metadata of its time series beside it"
    return f"no {os.path.basename(_metadata_names(name)[0])} beside it"


def fault_of_listed(listed: Listed) -> str | None:
    """What is wrong with the metadata that an archive has of a collection. That of the oplog and the like is empty."""
    if not listed.metadata:
        collection = listed.namespace.collection
        is_bare = is_at_top(listed.namespace) or collection.startswith(_BUCKETS) or _BARE.match(f"{collection}.bson")
        return None if is_bare else "none in the archive"
    return parsed(listed.metadata)[1]


def stem_of_file(name: str) -> str:
    """The name of the file of a dump, without an ending."""
    return _ENDING.sub("", name)


def stem_of_half(name: str) -> str | None:
    """The same of a file that `unpack` left, since its collection was not whole; None of another one."""
    return _HALF.sub("", name) if _HALF.search(name) else None


def _metadata_names(name: str) -> list[str]:
    stem = stem_of_file(name)
    return [f"{stem}.metadata.json", f"{stem}.metadata.json.gz"]


def metadata_beside(name: str) -> str | None:
    """The file of metadata of a dump, if there is one. Standard input has none."""
    return next((it for it in _metadata_names(name) if name != "-" and os.path.lexists(it)), None)


def read_metadata(name: str) -> tuple[dict[str, Any] | None, str | None]:
    """The metadata of a dump, or what is wrong with it; nothing if there is none."""
    path = metadata_beside(name)
    return (None, None) if path is None else read_metadata_file(path)


def read_metadata_file(path: str) -> tuple[dict[str, Any] | None, str | None]:
    """The metadata of a file, or what is wrong with it."""
    base = os.path.basename(path)
    try:
        # A pipe of this name would be waited for.
        with open(os.open(path, os.O_RDONLY | os.O_NONBLOCK | os.O_CLOEXEC), "rb") as file:
            if not stat.S_ISREG(os.fstat(file.fileno()).st_mode):
                return None, f"{base}: not a regular file"
            data = file.read(_LONGEST_METADATA + 1)
        if path.endswith(".gz"):
            data = next(joined_pieces(unpacked([data]), _LONGEST_METADATA + 1))
        if len(data) > _LONGEST_METADATA:
            return None, f"{base}: more than {_LONGEST_METADATA} bytes"
    except (DumpError, OSError) as error:
        return None, f"{base}: {why(error)}"
    metadata, wrong = parsed(data)
    return metadata, wrong and f"{base}: {wrong}"
