"""Compares the collections of two backups of which one at least is an archive, each read once; all lines are sorted together."""

from __future__ import annotations

import os
import threading
from itertools import groupby
from typing import Callable, Iterator

from .._dumps.archive import Archive
from .._dumps.archive_frames import Namespace
from .._dumps.files import is_whole_archive, name_in
from .._dumps.runs import each_document
from .._dumps.sources import Source
from .._errors import BsonfindError, why
from .._run.processes import Group
from .backups import stem_of
from .compare import NOTHING, CompareError, Comparison, Sorter, alone, compared, each_of, line_of, names_below
from .split import split


def is_of_archives(first: str, second: str) -> bool:
    """Whether one of two names is that of an archive, and the other that of one or of a directory."""
    archives = [is_whole_archive(name) for name in (first, second)]
    return any(archives) and all(is_archive or os.path.isdir(name) for is_archive, name in zip(archives, (first, second)))


def compare_archives(
    first: str, second: str, path: str, program: str, say: Callable[[str], None]
) -> tuple[Comparison, int, list[CompareError]]:
    """The counts of all collections, how many were compared, and what cannot be; `say` gets what differs, after the name of a dump."""
    with Sorter() as sorter:
        one, other = (_Side(name, side, path, program, sorter) for side, name in enumerate((first, second)))
        for it in (one, other):
            it.read()
        lines = groupby(sorter.all(), lambda line: line.partition(b"\t")[0])
        total, count = NOTHING, 0
        key, found = next(lines, (b"", iter(())))
        for name in sorted({*one.documents, *other.documents}, key=_key):
            these: Iterator[bytes] = iter(())
            if key == _key(name):
                these = (line[len(key) + 1 :] for line in found)
            if name not in one.bad and name not in other.bad:
                count += 1
                total += _compared(name, these, one, other, path, program, say)
            if key == _key(name):
                key, found = next(lines, (b"", iter(())))
    return total, count, [*one.problems, *other.problems]


def _compared(
    name: str, lines: Iterator[bytes], one: _Side, other: _Side, path: str, program: str, say: Callable[[str], None]
) -> Comparison:
    """The counts of a dump that both sides have, or one of them."""

    def say_of(text: str) -> None:
        say(f"{name}: {text}")

    if name in one.documents and name in other.documents:
        return compared(lines, (one.documents[name], other.documents[name]), path, program, say_of)
    is_removed = name in one.documents
    return alone((one if is_removed else other).documents[name], is_removed, say_of)


class _Side:
    """One of two backups: how many documents its dumps have, by the names that these have in a directory, and which are bad, and why."""

    def __init__(self, name: str, side: int, path: str, program: str, sorter: Sorter) -> None:
        self._name, self._side, self._program, self._sorter = name, side, program, sorter
        self._names, self._lock = [it.encode() for it in path.split(".")], threading.Lock()
        self.documents: dict[str, int] = {}
        self.bad: set[str] = set()
        self.problems: list[CompareError] = []

    def read(self) -> None:
        """Has all documents sorted."""
        if os.path.isdir(self._name):
            for name, dump in names_below(self._name, self.problems).items():
                self.documents[name] = 0
                try:
                    self.documents[name] = each_of(dump, self._program, self._taking(name))
                except CompareError as error:
                    self.problems.append(error)
                    self.bad.add(name)
        else:
            self._read_archive()

    def _taking(self, name: str) -> Callable[[bytes], None]:
        """What takes the documents of a dump; those of an archive come by threads."""
        key = _key(name)

        def take(document: bytes) -> None:
            line = b"%s\t%s" % (key, line_of(document, self._names, self._side))
            with self._lock:
                self._sorter.add(line)

        return take

    def _read_archive(self) -> None:
        group = Group()

        def read(namespace: Namespace, documents: Source) -> None:
            name = _name_of(namespace)
            self.documents[name] = 0
            try:
                self.documents[name] = each_document(documents, self._program, self._taking(name), group)
            except (BsonfindError, OSError) as error:
                self._note(name, name_in(self._name, namespace), why(error))

        try:
            with Source(self._name) as source:
                for end in split(Archive(source.raw()), read, group):
                    if end:
                        self.documents.setdefault(_name_of(end.namespace), 0)
                        if end.error:
                            self._note(_name_of(end.namespace), name_in(self._name, end.namespace), end.error)
        except (BsonfindError, OSError) as error:
            self.problems.append(CompareError(f"{self._name}: {why(error)}"))
        finally:
            group.end()

    def _note(self, name: str, dump: str, text: str) -> None:
        """Notes why a dump is not compared, once."""
        if name not in self.bad:
            self.problems.append(CompareError(f"{dump}: {text}"))
        self.bad.add(name)


def _name_of(namespace: Namespace) -> str:
    """The name that the dump of a collection has in a directory by mongodump."""
    return f"{stem_of(namespace)}.bson"


def _key(name: str) -> bytes:
    """What the lines of a dump begin with, in the order of names."""
    return os.fsencode(name).hex().encode()
