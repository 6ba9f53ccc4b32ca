"""Writes the collections of an archive to files, as mongodump does without `--archive`."""

from __future__ import annotations

import os
from contextlib import ExitStack, nullcontext, suppress
from dataclasses import dataclass
from typing import Callable, ContextManager, Iterator, NamedTuple, Sequence

from .._arguments import File, name_of
from .._dumps.archive import Archive, Documents, End, why_none
from .._dumps.archive_frames import Namespace
from .._dumps.files import member_of
from .._dumps.gzip import UnpackError
from .._dumps.outputs import NewOutput, naming, refuse_there
from .._dumps.sources import Source
from .._errors import ArgumentError, DumpError, FileError, why
from .backups import stem_of

# The endings of a file, and those that it has while it is not whole. The longest name by mongodump has space for them.
_DOCUMENTS = ".bson", ".bson.part"
_METADATA = ".metadata.json", ".metadata.part"


@dataclass
class Collection:
    """A collection of an archive: where its documents and its metadata were written, and how many documents and bytes these are.

    One that is not whole has an `error`, and its file a name that ends in `.part`. So does one that is whole, but whose name something
    else has by now. What was not written is None, such as the file of a view, which has metadata alone.
    """

    name: str
    path: str | None = None
    metadata: str | None = None
    documents: int = 0
    size: int = 0
    error: str | None = None


class Unpacked(NamedTuple):
    """The collections of an archive, and where it could not be read on."""

    collections: list[Collection]
    error: str | None

    @property
    def is_good(self) -> bool:
        """Whether all collections are whole."""
        return not (self.error or any(it.error for it in self.collections))


def unpack(
    archive: File,
    directory: File = "dump",
    *,
    only: Sequence[str] | None = None,
    with_crc: bool = True,
    say: Callable[[str], None] | None = None,
    progress: Callable[[Source], ContextManager[object]] = nullcontext,
) -> Unpacked:
    """Writes the collections of an archive to DIRECTORY/db/collection.bson, each with its `.metadata.json` beside it.

    With `only`, such as `["db.collection"]`, or of the name "ARCHIVE::db.collection", these are written and no others.

    The archive is read once; `-` is standard input. It may be one by `--gzip`. The end of each collection is checked, and its
    CRC-64 unless `with_crc` is false. Files get their names at the end, when all was read. One of a collection that is not whole
    keeps the ending `.part`. Nothing that is there is replaced. `say` gets what the command prints of each collection, at the end.

    What is no archive is a `DumpError`, and so is one whose list of collections is damaged. A file that is there, or that cannot be
    written, is a `FileError`. Then no file is left.
    """
    name, place = name_of(archive), name_of(directory)
    if not place:
        raise ArgumentError("the name of the directory is empty")
    if not (only is None or isinstance(only, (list, tuple)) and only and all(isinstance(it, str) for it in only)):
        raise ArgumentError(f'only has names such as ["db.collection"], not {only!r}')
    if not (isinstance(with_crc, bool) and callable(progress) and (say is None or callable(say))):
        raise ArgumentError("with_crc is True or False, say and progress are functions")
    with ExitStack() as files:
        try:
            source = files.enter_context(Source(name))
            if not source.is_archive:
                source.refuse_others()  # such as a tar, which is named as that
            files.enter_context(progress(source))
            member = member_of(name)
            wanted = None if only is None else [Namespace.of(it) for it in only]
            if member:
                wanted = [member.namespace, *(wanted or [])]
            work = _Unpacking(Archive(source.raw(), with_crc), place, wanted, source.mode, files)
            work.write_all()
        except DumpError as error:
            raise DumpError(f"{name}: {error}", error.fault) from error
        done = work.name_all()
        if say:
            for line in work.lines():
                say(line)
    return done


class _Unpacking:
    """An archive on its way to files."""

    def __init__(self, archive: Archive, directory: str, only: list[Namespace] | None, mode: int | None, stack: ExitStack) -> None:
        self._archive, self._directory, self._mode, self._stack = archive, directory, mode, stack
        # The collections that are written, None if all are; the documents of a time series are in another one.
        self._only: set[Namespace] | None = None
        if only is not None:
            listed = {it.namespace: it for it in archive.listed}
            for namespace in only:
                if namespace not in listed and not any(namespace == it.buckets for it in archive.listed):
                    raise DumpError(why_none(archive.listed, namespace))
            series = [it.buckets for it in archive.listed if it.namespace in only and it.kind == "timeseries"]
            self._only = {*only, *series}
        self._collections: dict[Namespace, Collection] = {}
        # The files of documents and of metadata, by their endings, and those of them that are whole.
        self._files: dict[tuple[Namespace, tuple[str, str]], NewOutput] = {}
        self._whole: list[tuple[NewOutput, Collection]] = []
        self._error: str | None = None

    def write_all(self) -> None:
        """Writes all files. What is there is refused before anything is written, as far as the list says."""
        wanted = [it for it in self._archive.listed if self._is_wanted(it.namespace)]
        for listed in wanted:
            refuse_there(*(self._name(listed.namespace) + ending for ending in (*_DOCUMENTS, *_METADATA)))
        for listed in wanted:
            self._collection(listed.namespace)
            if listed.metadata:
                self._file(listed.namespace, _METADATA).write(listed.metadata.encode())
                self._complete(listed.namespace, _METADATA)
        for block in self._blocks():
            if isinstance(block, Documents):
                self._file(block.namespace).write(block.data)
                collection = self._collections[block.namespace]
                collection.documents += block.ended
                collection.size += len(block.data)
            elif self._is_wanted(block.namespace):
                self._complete(block.namespace, error=block.error)
        for namespace in filter(self._is_wanted, self._archive.unended()):
            self._collection(namespace).error = "no end"
            if (namespace, _DOCUMENTS) in self._files:
                self._file(namespace).complete()

    def _is_wanted(self, namespace: Namespace) -> bool:
        return self._only is None or namespace in self._only

    def _blocks(self) -> Iterator[Documents | End]:
        """The blocks of the archive up to what cannot be read, which is noted."""
        try:
            yield from self._archive.blocks(self._only)
        except (UnpackError, OSError) as error:
            self._error = why(error)

    def _complete(self, namespace: Namespace, endings: tuple[str, str] = _DOCUMENTS, error: str | None = None) -> None:
        """Ends a file, which is whole unless there is an error."""
        file, collection = self._file(namespace, endings), self._collection(namespace)
        file.complete()
        if error:
            collection.error = error
        else:
            self._whole.append((file, collection))

    def _collection(self, namespace: Namespace) -> Collection:
        return self._collections.setdefault(namespace, Collection(str(namespace)))

    def _name(self, namespace: Namespace) -> str:
        """The name of the files of a collection, without an ending."""
        return os.path.join(self._directory, stem_of(namespace))

    def _file(self, namespace: Namespace, endings: tuple[str, str] = _DOCUMENTS) -> NewOutput:
        """A file of a collection, which is made if it is not there, with the directories above it."""
        if (namespace, endings) in self._files:
            return self._files[namespace, endings]
        name = self._name(namespace)
        missing, above = [], os.path.dirname(name)
        while above and not os.path.exists(above):
            missing.append(above)
            above = os.path.dirname(above)
        for directory in reversed(missing):
            with naming(directory):
                os.mkdir(directory)
            self._stack.callback(_remove_empty, directory)
        file = NewOutput(name + endings[0], name + endings[1], self._mode)
        self._stack.enter_context(file)
        self._files[namespace, endings] = file
        self._collection(namespace)
        return file

    def lines(self) -> Iterator[str]:
        for it in self._collections.values():
            error = f"{it.error}: " if it.error else ""
            if it.path:
                yield f"{it.name}: {error}{it.documents} documents to {it.path}"
            elif it.error:
                yield f"{it.name}: {error}no documents"

    def name_all(self) -> Unpacked:
        """Gives all files that are whole their names, unless something else has them by now; from here on none is deleted."""
        for file in self._files.values():
            file.keep()
        for file, collection in self._whole:
            try:
                file.put_in_place()
            except FileError as error:
                collection.error = collection.error or str(error)
        for (namespace, endings), file in self._files.items():
            if endings == _DOCUMENTS:
                self._collections[namespace].path = file.path
            else:
                self._collections[namespace].metadata = file.path
        return Unpacked(list(self._collections.values()), self._error)


def _remove_empty(directory: str) -> None:
    with suppress(OSError):
        os.rmdir(directory)
