"""Takes what is good out of all dumps of a backup: those below a directory, and the collections of archives."""

from __future__ import annotations

import errno
import os
from contextlib import ExitStack, contextmanager
from typing import Callable, ContextManager, Iterator, NamedTuple

from .._dumps.archive import Archive
from .._dumps.archive_frames import Namespace
from .._dumps.files import is_whole_archive, name_in
from .._dumps.outputs import NewOutput, is_same, naming
from .._dumps.sources import Source
from .._errors import ArgumentError, BsonfindError, DumpError, FileError, is_finding, why
from .._run.processes import Group, wide_program
from .backups import dumps_below, metadata_below, preludes_below, stem_of, stem_of_file, stem_of_half
from .salvage import Salvaged, copied
from .salvaging import Salvaging
from .split import split

# The endings of the files that are written of a dump, of those that are not whole yet, and of those of metadata.
_GOOD, _BAD, _PART, _JSON, _METADATA = ".bson", ".bad", ".part", ".json", ".metadata"


class SalvagedBackup(NamedTuple):
    """What was salvaged of each dump, by its name, what is not whole, and what could not be read or written."""

    files: dict[str, Salvaged]
    faults: list[str]
    problems: list[str]

    @property
    def is_good(self) -> bool:
        """Whether no dump has a fault, and all are whole."""
        return not self.faults and all(it.is_good for it in self.files.values())


def salvage_backup(
    name: str, out: str, program: str, say: Callable[[str], None], progress: Callable[[Source], ContextManager[object]]
) -> SalvagedBackup:
    """Copies the good documents of each dump of a directory or an archive to its name below a directory, others to `.bad`, and metadata.

    An archive below the directory has one of its own name. Where something of these names is there, nothing is written.
    """
    if not out or os.path.isdir(name) and (is_same(name, out) or os.path.realpath(out).startswith(os.path.realpath(name) + os.sep)):
        raise ArgumentError("the directory of --out is another one, and not below that of the dumps")
    wide_program(program)
    work = _Salvage(out, program, say, progress)
    if os.path.isdir(name):
        work.take_directory(name)
    else:
        try:
            with Source(name) as source:
                if not source.is_archive:
                    raise ArgumentError(f"{name} is no directory and no archive: give --good and --bad for a dump")
                work.take_archive(source, out)
        except DumpError as error:
            raise DumpError(f"{name}: {error}") from None
    return work.done


class _Salvage:
    """A backup on its way to a directory."""

    def __init__(
        self, out: str, program: str, say: Callable[[str], None], progress: Callable[[Source], ContextManager[object]]
    ) -> None:
        self._out, self._program, self._say, self._progress = out, program, say, progress
        self._group = Group()
        self.done = SalvagedBackup({}, [], [])

    def take_directory(self, directory: str) -> None:
        """Salvages all dumps and archives below a directory."""
        dumps, metadata = list(dumps_below(directory)), list(metadata_below(directory))
        archives = {it.name for it in dumps if is_whole_archive(it.name)}
        # Where each of them goes, without an ending; an archive into a directory of its name.
        places = {it.name: self._place(it.name if it.name in archives else _stem(it.name), directory) for it in dumps}
        beside = [*(path for path, _, wrong in metadata if not wrong), *preludes_below(directory)]
        copies = {path: self._place(path, directory).rpartition(_JSON)[0] + _JSON for path in beside}
        endings = {name: ("",) if name in archives else (_GOOD, _BAD) for name in places}
        self._refuse([*(places[name] + ending for name in places for ending in endings[name]), *copies.values()])
        for dump in dumps:
            with self._noting(dump.name):
                if dump.error and stem_of_half(dump.name) is None:
                    raise DumpError(dump.error)
                with Source(dump.name) as source:
                    if dump.name in archives:
                        self.take_archive(source, places[dump.name])
                    else:
                        with self._progress(source):
                            self._copy(dump.name, source, places[dump.name])
                if dump.error:
                    self._note_fault(f"{dump.name}: {dump.error}")
        self.done.problems.extend(os.path.join(os.path.dirname(path), wrong) for path, _, wrong in metadata if wrong)
        for path in beside:
            with self._noting(path), Source(path) as source:
                self._copy_metadata(source.pieces(), copies[path], source.mode)

    def take_archive(self, source: Source, out: str) -> None:
        """Salvages all collections of an archive, as far as it can be read, each to its name below a directory."""
        with self._noting(source.name), self._progress(source):
            archive = Archive(source.raw())
            stems = [os.path.join(out, stem_of(it.namespace)) for it in archive.listed]
            self._refuse([stem + ending for stem in stems for ending in (_GOOD, _BAD, _METADATA + _JSON)])
            for listed in archive.listed:
                if listed.metadata:
                    name = os.path.join(out, stem_of(listed.namespace)) + _METADATA + _JSON
                    with self._noting(name):
                        self._copy_metadata(iter([listed.metadata.encode()]), name, source.mode)

            def read(namespace: Namespace, documents: Source) -> None:
                name = name_in(source.name, namespace)
                with self._noting(name):
                    self._copy(name, documents, os.path.join(out, stem_of(namespace)), source.mode)

            for end in split(archive, read, self._group):
                if end and end.error:
                    self._note_fault(f"{name_in(source.name, end.namespace)}: {end.error}")

    def _copy(self, name: str, source: Source, stem: str, mode: int | None = None) -> None:
        """Copies the documents of a dump to two files, of which the second one is there only if it is needed."""
        with ExitStack() as files:
            good, bad = (files.enter_context(_new_output(stem, it, it + _PART, mode or source.mode)) for it in (_GOOD, _BAD))
            salvaging = Salvaging(source.pieces(), self._program, self._group)
            done = copied(salvaging, good.write, bad.write, lambda text: self._say(f"{name}: {text}"))
            for output in (good, bad) if done.bad else (good,):
                output.complete()
                output.put_in_place()
        told = f", {done.bad} to {stem}{_BAD}, {done.bytes_left_out} bytes left out" if not done.is_good else ""
        self._say(f"{name}: {done.good} documents to {stem}{_GOOD}{told}")
        self.done.files[name] = done

    def _copy_metadata(self, pieces: Iterator[bytes], name: str, mode: int | None) -> None:
        """Writes a file of metadata, unpacked."""
        stem, ending, _ = name.rpartition(_JSON)
        with _new_output(stem, ending, _PART, mode) as output:
            for piece in pieces:
                output.write(piece)
            output.complete()
            output.put_in_place()

    def _place(self, name: str, directory: str) -> str:
        return os.path.join(self._out, os.path.relpath(name, directory))

    def _refuse(self, names: list[str]) -> None:
        """Refuses the directory where something has one of these names, before anything is written."""
        there = sorted(name for name in names if os.path.lexists(name))
        if there:
            raise FileError(errno.EEXIST, f"{len(there)} files are there already, such as {there[0]}: name another directory", self._out)

    def _note_fault(self, text: str) -> None:
        self._say(text)
        self.done.faults.append(text)

    @contextmanager
    def _noting(self, name: str) -> Iterator[None]:
        """Notes what goes wrong with a file meanwhile."""
        try:
            yield
        except FileError as error:
            self.done.problems.append(str(error))
        except (BsonfindError, OSError) as error:
            if is_finding(error):
                self._note_fault(f"{name}: {why(error)}")
            else:
                self.done.problems.append(f"{name}: {why(error)}")


def _stem(name: str) -> str:
    """The name of the file of a dump, also of one that is not whole, without an ending."""
    return stem_of_half(name) or stem_of_file(name)


def _new_output(stem: str, ending: str, part: str, mode: int | None) -> NewOutput:
    """A new file with these rights, in a directory that is made if it is not there, and its ending while it is not whole."""
    with naming(os.path.dirname(stem)):
        os.makedirs(os.path.dirname(stem), exist_ok=True)
    return NewOutput(stem + ending, stem + part, mode)
