"""The search for a text, an id or a UUID in all fields of many dumps, also of what is good in damaged ones."""

from __future__ import annotations

import re
from collections import deque
from concurrent.futures import Future, ThreadPoolExecutor
from itertools import chain
from typing import Callable, Generator, Iterator, NamedTuple, Sequence, Union
from uuid import UUID

from .._dumps.archive import Archive
from .._dumps.archive_frames import Namespace
from .._dumps.files import name_in
from .._dumps.runs import texts_of_values
from .._dumps.sources import Source, Watch
from .._errors import BsonfindError, is_finding, why
from .._run.processes import Group, wide_program
from .backups import Dump
from .salvaging import Copied, Salvaging
from .search import Found, Match, Search, Wanted
from .split import split
from .workers import Workers, begun_ahead

# How many files are begun at once at most, and how many bytes one search has.
_MOST_AHEAD, _MOST = 4, 1 << 20
# How many faults of a file are named one by one.
_MOST_FAULTS = 10
_OID = re.compile(r"[0-9a-fA-F]{24}")
_UUID = re.compile(r"[0-9a-fA-F]{8}-(?:[0-9a-fA-F]{4}-){3}[0-9a-fA-F]{12}")


class Row(NamedTuple):
    """A field that was found: its document's id as `dump` prints it, its path, and its value so. A document or an array has none."""

    id: str | None
    path: str
    value: str | None


class Hits(NamedTuple):
    """What was found in some documents of a dump, which is in a file: in how many, in how many fields, and these."""

    file: str
    name: str
    documents: int
    fields: int
    rows: list[Row]


class Problem(NamedTuple):
    """Why a part of a dump was not searched. It is a fault if the dump was read."""

    file: str
    name: str
    text: str
    is_fault: bool


Item = Union[Hits, Problem]


def wanted_of(text: str, ignores_case: bool, with_values: bool) -> Wanted:
    """What is looked for by a text. One with the form of an id or a UUID is that too; old drivers wrote a UUID in one of three orders."""
    oid = bytes.fromhex(text) if _OID.fullmatch(text) else None
    uuid = UUID(text) if _UUID.fullmatch(text) else None
    orders = (uuid.bytes, uuid.bytes[7::-1] + uuid.bytes[:7:-1], uuid.bytes_le) if uuid else ()
    return Wanted(text, False, ignores_case, oid, uuid.bytes if uuid else None, orders, with_values=with_values)


def grep_dumps(
    dumps: Sequence[Dump], wanted: Wanted, jobs: int, program: str, watch: Callable[[int, int], Watch]
) -> Generator[Item, None, None]:
    """What is found in dumps, in their order, in archives as it comes, and what is wrong with them; this many processes search at once."""
    wide_program(program)
    with watch(len(dumps), sum(it.size or 0 for it in dumps)) as progress:
        grep = _Grep(wanted, jobs, program, progress)
        try:
            yield from chain.from_iterable(begun_ahead(map(grep.items, dumps), min(jobs, _MOST_AHEAD)))
        finally:
            grep.end()


class _Grep:
    """The search of dumps. A process looks at some documents while others are read and checked."""

    def __init__(self, wanted: Wanted, jobs: int, program: str, progress: Watch) -> None:
        self._group, self._program, self._progress, self._seconds = Group(), program, progress, wanted.seconds
        self._pool, self._most = ThreadPoolExecutor(jobs), jobs
        self._workers = Workers(Search(wanted).run, self._group)

    def items(self, dump: Dump) -> Iterator[list[Item]]:
        """What is found in a dump, some at once; at first nothing, when its check is begun."""
        name = dump.name
        try:
            if dump.error:
                yield [Problem(name, name, dump.error, dump.is_fault)]
                return
            with Source(name) as source, self._progress.over(source):
                if source.is_archive:
                    yield from self._items_of_archive(name, Archive(source.raw()))
                else:
                    yield from self._search(name, name, source.pieces())
        except (BsonfindError, OSError) as error:
            yield [self._problem(name, name, error)]
        self._progress.add_file()

    def _items_of_archive(self, file: str, archive: Archive) -> Iterator[list[Item]]:
        """The same of the collections of an archive, which are searched side by side, as they come."""
        found: deque[list[Item]] = deque()

        def search(namespace: Namespace, documents: Source) -> None:
            name = name_in(file, namespace)
            try:
                found.extend(self._search(file, name, documents.pieces()))
            except (BsonfindError, OSError) as error:
                found.append([self._problem(file, name, error)])

        try:
            for end in split(archive, search, self._group):
                if end and end.error:
                    found.append([Problem(file, name_in(file, end.namespace), end.error, True)])
                while found:
                    yield found.popleft()
        except (BsonfindError, OSError) as error:
            found.append([self._problem(file, file, error)])
        yield from found

    def _search(self, file: str, name: str, pieces: Iterator[bytes]) -> Iterator[list[Item]]:
        """What is found in the good documents of a dump, and the faults of others."""
        waiting: deque[Future[list[Item]] | list[Item]] = deque()
        faults = 0
        for part in Salvaging(pieces, self._program, self._group, _MOST).parts():
            fault = part.fault if isinstance(part, Copied) else None
            if isinstance(part, Copied) and not fault:
                if part.data:
                    waiting.append(self._pool.submit(self._found, file, name, bytes(part.data)))
                else:
                    yield []
            else:
                faults += bool(fault)
                if not fault or faults <= _MOST_FAULTS:
                    waiting.append([Problem(file, name, str(fault or part), True)])
            if len(waiting) > self._most:
                yield _done(waiting.popleft())
        for it in waiting:
            yield _done(it)
        if faults > _MOST_FAULTS:
            yield [Problem(file, name, f"and {faults - _MOST_FAULTS} more", True)]

    def _found(self, file: str, name: str, data: bytes) -> list[Item]:
        """What is found in some documents, with its texts, and what took too long. Where Python or the program fails, all is ended."""
        try:
            found: Found = self._workers.run(data)
            values = [value for match in (*found.matches, *found.slow) for value in (match.id, *(it for _, it in match.fields)) if value]
            texts = iter(texts_of_values(values, self._program, self._group))
        except BsonfindError as error:
            self._group.end(error)
            raise
        items: list[Item] = [Hits(file, name, found.documents, found.fields, [row for it in found.matches for row in _rows(it, texts)])]
        for slow in (row for it in found.slow for row in _rows(it, texts)):
            at = f'_id {slow.id}, path "{slow.path}"' if slow.id else f'path "{slow.path}"'
            items.append(Problem(file, name, f"{at}: the pattern takes longer than {self._seconds:g} seconds", True))
        return items

    def _problem(self, file: str, name: str, error: BsonfindError | OSError) -> Problem:
        """Why a dump was not searched; where all was ended, that is raised."""
        if self._group.is_ended:
            raise error
        return Problem(file, name, why(error), is_finding(error))

    def end(self) -> None:
        self._group.end()
        self._pool.shutdown(cancel_futures=True)
        self._workers.close()


def _done(items: Future[list[Item]] | list[Item]) -> list[Item]:
    return items.result() if isinstance(items, Future) else items


def _rows(match: Match, texts: Iterator[str]) -> list[Row]:
    """The fields of a document with their texts, of which the first is that of its id."""
    number = next(texts) if match.id else None
    return [Row(number, path, next(texts) if value else None) for path, value in match.fields]
