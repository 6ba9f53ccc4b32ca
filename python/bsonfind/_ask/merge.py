"""Asks the parts of a dump, each by a run of the program, and makes one answer of what they gave.

    newest = find_parts(plan("orders.bson", 2_500_000_000), {"status": "open"}, sort=[("created", -1)], limit=10, workers=4)

`workers` asks this many parts side by side. In place of that an engine runs the parts by its `map`: a function that applies
another one to each part, and gives the results in the order of the parts. That of an executor does so in threads or processes,
and that of an engine over many machines where the files, this package and the program are:
`lambda ask, parts: client.gather(client.map(ask, parts))` for Dask.

What is found goes from the parts to the whole as the documents are in the dump, byte for byte.
"""

from __future__ import annotations

from concurrent.futures import ThreadPoolExecutor
from contextlib import ExitStack
from functools import partial
from typing import Any, Callable, Iterable, Iterator, NamedTuple, Sequence, TypeVar, overload

from .._arguments import seconds, shown, whole
from .._dumps.parts import Part, PartError
from .._dumps.runs import checking, faults_of, finish_check
from .._errors import ArgumentError, BsonfindError, DumpError, ProgramError
from .._faults import Fault
from .._run.processes import Dump, Group
from .decoding import Decode, Decoding, Dicts, Raw, Texts
from .lines import Lines, try_request
from .requests import Filter, Request, Sort
from .values import Uuids

T = TypeVar("T")
Map = Callable[[Callable[[Part], Any], Sequence[Part]], Iterable[Any]]


class Check(NamedTuple):
    """How many documents there are, and the first fault of each that has one; doubles and decimal128 are none."""

    documents: int
    faults: list[Fault]


# fmt: off
@overload
def find_parts(
    parts: Sequence[Part], filter: Filter | None = None, *, sort: Sort | None = None, skip: int = 0, limit: int = 0,
    workers: int = 1, map: Map | None = None, decode: Dicts = "plain", uuid_representation: Uuids = "standard",
    program: str = "bsonwide", timeout: float | None = None,
) -> list[dict[str, Any]]: ...
@overload
def find_parts(
    parts: Sequence[Part], filter: Filter | None = None, *, sort: Sort | None = None, skip: int = 0, limit: int = 0,
    workers: int = 1, map: Map | None = None, decode: Raw, uuid_representation: Uuids = "standard",
    program: str = "bsonwide", timeout: float | None = None,
) -> list[bytes]: ...
@overload
def find_parts(
    parts: Sequence[Part], filter: Filter | None = None, *, sort: Sort | None = None, skip: int = 0, limit: int = 0,
    workers: int = 1, map: Map | None = None, decode: Callable[[bytes], T], uuid_representation: Uuids = "standard",
    program: str = "bsonwide", timeout: float | None = None,
) -> list[T]: ...
def find_parts(
    parts: Sequence[Part], filter: Filter | None = None, *, sort: Sort | None = None, skip: int = 0, limit: int = 0,
    workers: int = 1, map: Map | None = None, decode: Decode[Any] = "plain", uuid_representation: Uuids = "standard",
    program: str = "bsonwide", timeout: float | None = None,
) -> list[Any]:
    # fmt: on
    """The documents that `find` gives over the parts joined, in its order.

    Each part is asked for its own answer, what they gave is packed and joined, and asked again. A part that fails is a
    `PartError`, and at once ends the others that run in this process; so does a `timeout`, in seconds, for all of it.
    """
    decoding = Decoding(decode, uuid_representation)
    request = Request.of(filter, sort, skip, limit, uuid_representation)
    with _Asking(program, workers, map, timeout) as asking:
        asking.try_request(request)
        packed = asking.each(parts, partial(_packed_answer, request.of_part(), program))
        found = Lines(Dump(packed), request, program, is_bson=decoding.is_of_bytes, group=asking.group)
        texts = Texts(_joined(found), decoding.document_of)
    return [texts.give() for _ in range(texts.left)]


def count_parts(
    parts: Sequence[Part],
    filter: Filter | None = None,
    *,
    workers: int = 1,
    map: Map | None = None,
    uuid_representation: Uuids = "standard",
    program: str = "bsonwide",
    timeout: float | None = None,
) -> int:
    """How many documents of the parts match a filter."""
    request = Request.of(filter, uuids=uuid_representation)
    with _Asking(program, workers, map, timeout) as asking:
        asking.try_request(request)
        counts = asking.each(parts, partial(_count, request, program))
    return sum(counts)


def check_parts(
    parts: Sequence[Part], *, workers: int = 1, map: Map | None = None, program: str = "bsonwide", timeout: float | None = None
) -> Check:
    """Checks each document of the parts. Numbers of documents and bytes of faults are those of the whole file."""
    with _Asking(program, workers, map, timeout) as asking:
        asking.try_request(Request())
        checks = asking.each(parts, partial(_check, program))
    return Check(sum(it.documents for it in checks), [fault for it in checks for fault in it.faults])


class _Asking(ExitStack):
    """The asking of parts: how they are run, and what ends all of them."""

    def __init__(self, program: str, workers: int, map: Map | None, timeout: float | None) -> None:
        super().__init__()
        self._program, self._workers, self._map = program, whole("workers", workers, 1), map
        if not (map is None or callable(map)):
            raise ArgumentError(f"map is a function, not {shown(map)}")
        if map and workers != 1:
            raise ArgumentError("workers and map both say how the parts are run: give one of them")
        self.group = Group()
        self.callback(self.group.end)
        self.enter_context(self.group.within(seconds(timeout)))

    def try_request(self, request: Request) -> None:
        """Asks no documents, so that a refused request or a missing program is reported before any part is asked."""
        try_request(request, self._program, self.group)

    def each(self, parts: Sequence[Part], ask: Callable[[Group, Part], T]) -> list[T]:
        """What each part gives, in their order. Where one fails, or the caller is interrupted, all runs of this process end."""
        all_parts: list[Any] = list(parts) if isinstance(parts, Iterable) else [None]
        if not all(isinstance(it, Part) for it in all_parts):
            raise ArgumentError("parts is a list of parts, as plan makes it")
        try:
            given = list(self._run(partial(_asked, ask, self.group), all_parts))
        except BaseException as error:
            self.group.end()
            if self.group.error and isinstance(error, Exception):
                raise self.group.error from None  # The first part that failed, which ended the others.
            raise
        if [it[0] for it in given if isinstance(it, tuple)] != all_parts:
            raise ProgramError("map did not give a result for each part, in the order of the parts")
        return [result for _, result in given]

    def _run(self, ask: Callable[[Part], T], parts: Sequence[Part]) -> Iterator[T]:
        if self._map:
            given = self._map(ask, parts)
            yield from given if isinstance(given, Iterable) else ()
        elif self._workers == 1:
            yield from (ask(part) for part in parts)
        else:
            with ThreadPoolExecutor(self._workers) as pool:
                try:
                    yield from pool.map(ask, parts)
                except BaseException:
                    self.group.end()
                    raise


def _asked(ask: Callable[[Group, Part], T], group: Group, part: Part) -> tuple[Part, T]:
    """The part with what it gave; where it fails, the others of this process are ended for its error."""
    try:
        return part, ask(group, part)
    except (BsonfindError, OSError) as error:
        ended = group.error
        failed = ended if ended is error and ended else _part_error(part, error)
        group.end(failed)
        raise failed from None


def _part_error(part: Part, error: BsonfindError | OSError) -> PartError:
    """Why a part failed; its fault counts in the whole file."""
    if isinstance(error, PartError):
        return error
    fault = error.fault if isinstance(error, DumpError) else None
    fault = fault and fault.moved(part.first, part.offset)
    return PartError(part, str(fault or error), fault)


def _packed_answer(request: Request, program: str, group: Group, part: Part) -> bytes:
    """The documents of a part that are found, as a dump."""
    found = Lines(Dump(part.pieces()), request, program, is_bson=True, group=group)
    return b"".join(document for batch in found.batches() for document in batch)


def _joined(found: Lines) -> list[bytes]:
    """The answer over what the parts gave. A fault of that has no place in the dump."""
    try:
        return [document for batch in found.batches() for document in batch]
    except DumpError as error:
        if not error.fault:
            raise
        raise DumpError(f"what the parts gave, joined, cannot be asked: {error.fault.kind}") from None


def _count(request: Request, program: str, group: Group, part: Part) -> int:
    return Lines(Dump(part.pieces()), request, program, group=group).count()


def _check(program: str, group: Group, part: Part) -> Check:
    with checking(Dump(part.pieces()), program, group) as run:
        faults = list(faults_of(run))
        documents = finish_check(run)
    return Check(documents, [fault.moved(part.first, part.offset) for fault in faults])
