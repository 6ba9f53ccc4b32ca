"""The answer to one request over a file."""

from __future__ import annotations

import os
from contextlib import AbstractContextManager
from typing import Any, Callable, Iterator, TypeVar, overload

from .._arguments import LONGEST_ARGUMENT, File, argument, name_of, seconds, whole
from .._errors import CancelledError, CursorStateError
from .._run.processes import Group, check_owner
from .decoding import Decode, Decoding, Dicts, Raw, Texts
from .distinct import Distinct
from .lines import Lines
from .plans import now
from .questions import Questions
from .requests import Filter, Request, Sort
from .values import Uuids, Values

T = TypeVar("T")


class Answer(Iterator[T], AbstractContextManager["Answer[T]"]):
    """Documents, as the program prints them.

    Once all are read, `token` leads on to what follows them, None if no document was given yet; and `end` is whether nothing
    does. Leaving or closing the answer ends the program. Where a document cannot be decoded, or the caller is interrupted, the
    next call gives the documents after it; an answer that was interrupted while it read says so by a `CursorStateError`.
    """

    def __init__(self, lines: Lines, decoding: Decoding) -> None:
        self.token: str | None = None
        self.end = False
        self._lines, self._batches = lines, lines.batches()
        self._document_of: Callable[[bytes], T] = decoding.document_of
        self._owner = os.getpid()
        self._texts: Texts[T] = Texts([], self._document_of)
        # False from the moment on when the program is asked for lines until they are kept.
        self._is_known = True

    def __next__(self) -> T:
        check_owner(self._owner)
        while not self._texts.left:
            self._read_on()
        return self._texts.give()

    def _read_on(self) -> None:
        """Reads the next lines; ends the iteration if there are none."""
        if not self._is_known:
            raise CursorStateError("interrupted while documents were read: ask again")
        self._is_known = False
        try:
            batch = next(self._batches)
        except Exception:
            # Nothing has changed of these unless it is the end of the answer.
            self.end, self.token, self._is_known = self._lines.end, self._lines.token, True
            raise
        self._texts = Texts(batch, self._document_of)
        self._is_known = True

    def cancel(self) -> None:
        """Ends the program at once, from any thread: a call that waits for a document gets a `CancelledError`."""
        check_owner(self._owner)
        self._lines.group.end(CancelledError("cancelled"))

    def close(self) -> None:
        """Ends the program; no document follows."""
        check_owner(self._owner)
        self._batches.close()
        self._texts = Texts([], self._document_of)
        self._is_known = True

    def __exit__(self, *_: object) -> None:
        self.close()


# fmt: off
@overload
def find(
    path: File, filter: Filter | None = None, *, sort: Sort | None = None, skip: int = 0, limit: int = 0,
    page: int | None = None, batch_size: int = 0, index: str | None = None, after: str | None = None, decode: Dicts = "plain",
    uuid_representation: Uuids = "standard", program: str = "bsonwide", timeout: float | None = None,
) -> Answer[dict[str, Any]]: ...
@overload
def find(
    path: File, filter: Filter | None = None, *, sort: Sort | None = None, skip: int = 0, limit: int = 0,
    page: int | None = None, batch_size: int = 0, index: str | None = None, after: str | None = None, decode: Raw,
    uuid_representation: Uuids = "standard", program: str = "bsonwide", timeout: float | None = None,
) -> Answer[bytes]: ...
@overload
def find(
    path: File, filter: Filter | None = None, *, sort: Sort | None = None, skip: int = 0, limit: int = 0,
    page: int | None = None, batch_size: int = 0, index: str | None = None, after: str | None = None, decode: Callable[[bytes], T],
    uuid_representation: Uuids = "standard", program: str = "bsonwide", timeout: float | None = None,
) -> Answer[T]: ...
def find(
    path: File, filter: Filter | None = None, *, sort: Sort | None = None, skip: int = 0, limit: int = 0, page: int | None = None,
    batch_size: int = 0, index: str | None = None, after: str | None = None, decode: Decode[Any] = "plain",
    uuid_representation: Uuids = "standard", program: str = "bsonwide", timeout: float | None = None,
) -> Answer[Any]:
    # fmt: on
    """Finds documents of a dump by one run of the program, which begins with the first document that is asked for.

    `page` gives one page of this many documents in place of all, and `after` resumes after the documents that were given
    with this token. `batch_size`, which pymongo takes, changes nothing: documents come as they are found. `index` makes an index
    on a path, and changes no answer. `uuid_representation` says, by pymongo's names, how a `UUID` is asked for, and which values
    are one for `decode="plain"` and `"pymongo"`. Where the whole answer is not there within `timeout` seconds, that is a `TimedOutError`.
    """
    request = Request.of(filter, sort, skip, limit, uuid_representation)
    whole("batch_size", batch_size)
    size = None if page is None else whole("page", page)
    decoding = Decoding(decode, uuid_representation)
    for name, text in (("index", index), ("after", after)):
        if text is not None:
            argument(name, text, LONGEST_ARGUMENT - len(f"--{name}="))
    return Answer(Lines(name_of(path), request, program, decoding.is_of_bytes, size, index, after, timeout=seconds(timeout)), decoding)


# fmt: off
@overload
def find_one(
    path: File, filter: Filter | None = None, *, sort: Sort | None = None, skip: int = 0, decode: Dicts = "plain",
    uuid_representation: Uuids = "standard", program: str = "bsonwide", timeout: float | None = None,
) -> dict[str, Any] | None: ...
@overload
def find_one(
    path: File, filter: Filter | None = None, *, sort: Sort | None = None, skip: int = 0, decode: Raw,
    uuid_representation: Uuids = "standard", program: str = "bsonwide", timeout: float | None = None,
) -> bytes | None: ...
@overload
def find_one(
    path: File, filter: Filter | None = None, *, sort: Sort | None = None, skip: int = 0, decode: Callable[[bytes], T],
    uuid_representation: Uuids = "standard", program: str = "bsonwide", timeout: float | None = None,
) -> T | None: ...
def find_one(
    path: File, filter: Filter | None = None, *, sort: Sort | None = None, skip: int = 0, decode: Decode[Any] = "plain",
    uuid_representation: Uuids = "standard", program: str = "bsonwide", timeout: float | None = None,
) -> Any:
    # fmt: on
    """The first document of an answer, None if it has none."""
    how: dict[str, Any] = {"decode": decode, "uuid_representation": uuid_representation, "program": program, "timeout": timeout}
    with find(path, filter, sort=sort, skip=skip, limit=1, **how) as answer:
        return next(answer, None)


def count_documents(
    path: File,
    filter: Filter | None = None,
    *,
    uuid_representation: Uuids = "standard",
    program: str = "bsonwide",
    timeout: float | None = None,
) -> int:
    """How many documents of a dump match."""
    request = Request.of(filter, uuids=uuid_representation)
    return Lines(name_of(path), request, program, timeout=seconds(timeout)).count()


def distinct(
    path: File,
    key: str,
    filter: Filter | None = None,
    *,
    decode: Values = "plain",
    uuid_representation: Uuids = "standard",
    program: str = "bsonwide",
    timeout: float | None = None,
) -> list[Any]:
    """The values of a field in the documents of a dump that match, each once: of an array each element, and numbers by their values."""
    found, group = Distinct(key, decode, uuid_representation), Group()
    lines = Lines(name_of(path), Request.of(filter, uuids=uuid_representation), program, is_bson=True, group=group)
    with group.within(seconds(timeout)):
        for documents in lines.batches():
            for document in documents:
                found.add(document)
        return found.values(program, group)


def explain(
    path: File,
    filter: Filter | None = None,
    *,
    sort: Sort | None = None,
    skip: int = 0,
    limit: int = 0,
    index: str | None = None,
    uuid_representation: Uuids = "standard",
    program: str = "bsonwide",
    timeout: float | None = None,
) -> dict[str, Any]:
    """How `find` finds its answer, as `Session.explain` says it; `index` makes an index on a path first."""
    request, group = Request.of(filter, sort, skip, limit, uuid_representation), Group()
    if index is not None:
        argument("index", index)
    with group.within(seconds(timeout)), Questions(path, program, group) as questions:
        if index is not None:
            now(questions.create_index(index, False))
        return now(questions.explain(request, "auto"))
