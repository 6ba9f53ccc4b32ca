"""One query over many dumps, or over some documents that have no fault."""

from __future__ import annotations

from contextlib import contextmanager
from typing import Generator, Iterator, NamedTuple, Sequence

from .._ask.lines import Lines, try_request
from .._ask.requests import Request
from .._dumps.sources import Source
from .._errors import BsonfindError, DumpError
from .._run.processes import Dump as Input, Group
from .backups import Dump
from .workers import begun_ahead

# What one run holds in memory of a larger dump.
MOST_HELD = 1 << 27


class Found(NamedTuple):
    """Documents of a dump, or why it does not give all of them."""

    name: str
    lines: list[bytes]
    error: Exception | None = None


def query_dumps(dumps: Sequence[Dump], request: Request, jobs: int, program: str) -> Generator[Found, None, None]:
    """The documents of dumps that match, in the order of the dumps; this many are asked at once. A refused request is raised."""
    try_request(request, program)
    group = Group()
    try:
        yield from begun_ahead((_answer(dump, request, program, group) for dump in dumps), jobs)
    finally:
        group.end()


def _answer(dump: Dump, request: Request, program: str, group: Group) -> Iterator[Found]:
    """The documents of a dump, after one thing that is empty, which is given when its first run is started."""
    name = dump.name
    try:
        if dump.error:
            raise DumpError(dump.error)
        with Source(name) as source:
            for part in source.inputs(MOST_HELD):
                try:
                    for lines in Lines(part.dump, request, program, group=group).batches():
                        source.check()
                        yield Found(name, lines)
                except DumpError as error:
                    raise error.moved(part.first, part.offset) from None
        yield Found(name, [])
    except (BsonfindError, OSError) as error:
        yield Found(name, [], error)


class Matching:
    """The answer to a query, as `find` gives it. One that is refused is raised at once."""

    # How many bytes of documents are asked at once.
    most = 1 << 24

    def __init__(self, query: str, program: str) -> None:
        self._request, self._program = Request(query), program
        try_request(self._request, program)

    def of(self, documents: list[bytes]) -> list[bytes]:
        """Those of some documents that match."""
        with self._asked(documents) as found:
            return [it for batch in found.batches() for it in batch]

    def count(self, documents: list[bytes]) -> int:
        with self._asked(documents) as found:
            return found.count()

    @contextmanager
    def _asked(self, documents: list[bytes]) -> Iterator[Lines]:
        try:
            yield Lines(Input([b"".join(documents)]), self._request, self._program, is_bson=True)
        except DumpError as error:
            # It counts in these documents, so it has no place in the dump. What a part of it matches is no answer.
            raise BsonfindError(error.text.rpartition(": ")[2]) from None
