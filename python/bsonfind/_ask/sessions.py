"""Sessions: many requests of one dump, by a run of `serve`."""

from __future__ import annotations

from contextlib import AbstractContextManager
from os import getpid
from typing import Any, Callable, Iterator, TypeVar, overload

from .._arguments import File, seconds
from .._errors import CancelledError, SessionEndedError
from .._run.processes import Group, check_owner
from .decoding import Decode, Decoding, Dicts, Raw
from .distinct import Distinct
from .plans import Plan, now
from .questions import Questions
from .readings import Reading
from .requests import Filter, Hint, Request, Sort, use_of
from .values import Uuids, Values, uuids_of

T = TypeVar("T")
Result = TypeVar("Result")


class Session(AbstractContextManager["Session"]):
    """A dump with its indexes and cursors, kept by a run of the program to the end of the session.

    Threads may share a session, and a cursor belongs to one thread at a time. Another process, such as one by a fork, opens its
    own session: there each call of this one is an `OtherProcessError`. A dump that is refused is a `DumpError` at once, and a
    `SessionEndedError` reports that the program went away later. Over a dump without doubles and decimal128, a second run that
    compares by doubles is started once a request has some. Where a `timeout` is given, no call may take more seconds: a
    `TimedOutError` then ends the session.
    """

    def __init__(
        self, path: File, program: str = "bsonwide", *, timeout: float | None = None, uuid_representation: Uuids = "standard"
    ) -> None:
        """Opens a dump. UUIDs are those of `find`."""
        self._uuids, self._timeout, self._group = uuids_of(uuid_representation), seconds(timeout), Group()
        self._questions = Questions(path, program, self._group, self._timeout)

    # fmt: off
    @overload
    def find(
        self, filter: Filter | None = None, *, sort: Sort | None = None, skip: int = 0, limit: int = 0, batch_size: int = 100,
        hint: Hint | None = None, after: str | None = None, decode: Dicts = "plain",
    ) -> Cursor[dict[str, Any]]: ...
    @overload
    def find(
        self, filter: Filter | None = None, *, sort: Sort | None = None, skip: int = 0, limit: int = 0, batch_size: int = 100,
        hint: Hint | None = None, after: str | None = None, decode: Raw,
    ) -> Cursor[bytes]: ...
    @overload
    def find(
        self, filter: Filter | None = None, *, sort: Sort | None = None, skip: int = 0, limit: int = 0, batch_size: int = 100,
        hint: Hint | None = None, after: str | None = None, decode: Callable[[bytes], T],
    ) -> Cursor[T]: ...
    def find(
        self, filter: Filter | None = None, *, sort: Sort | None = None, skip: int = 0, limit: int = 0, batch_size: int = 100,
        hint: Hint | None = None, after: str | None = None, decode: Decode[Any] = "plain",
    ) -> Cursor[Any]:
        # fmt: on
        """Opens a cursor over an answer, or over what follows a token of the same request.

        Documents are read `batch_size` at a time, or fewer if they are long. `hint` says how they are found, as in pymongo: the path
        of an index, [(PATH, 1)], or {"$natural": 1} for a scan. Without it the program chooses.
        """
        request = Request.of(filter, sort, skip, limit, self._uuids)
        return Cursor(self, Reading(request, use_of(hint), batch_size, after, Decoding(decode, self._uuids)))

    def _do(self, plan_of: Callable[[Questions], Plan[Result]]) -> Result:
        with self._group.within(self._timeout):
            return now(plan_of(self._questions))

    # fmt: off
    @overload
    def find_one(
        self, filter: Filter | None = None, *, sort: Sort | None = None, skip: int = 0, hint: Hint | None = None, decode: Dicts = "plain"
    ) -> dict[str, Any] | None: ...
    @overload
    def find_one(
        self, filter: Filter | None = None, *, sort: Sort | None = None, skip: int = 0, hint: Hint | None = None, decode: Raw
    ) -> bytes | None: ...
    @overload
    def find_one(
        self, filter: Filter | None = None, *, sort: Sort | None = None, skip: int = 0, hint: Hint | None = None,
        decode: Callable[[bytes], T],
    ) -> T | None: ...
    def find_one(
        self, filter: Filter | None = None, *, sort: Sort | None = None, skip: int = 0, hint: Hint | None = None,
        decode: Decode[Any] = "plain",
    ) -> Any:
        # fmt: on
        """The first document of an answer, None if it has none."""
        ask: Callable[..., Cursor[Any]] = self.find
        with self._group.within(self._timeout), ask(filter, sort=sort, skip=skip, limit=1, hint=hint, decode=decode) as cursor:
            return next(cursor, None)

    def count_documents(self, filter: Filter | None = None) -> int:
        """How many documents match."""
        request = Request.of(filter, uuids=self._uuids)
        return self._do(lambda it: it.count(request))

    def distinct(self, key: str, filter: Filter | None = None, *, decode: Values = "plain") -> list[Any]:
        """The values of a field in the documents that match, each once: of an array each element, and numbers by their values."""
        distinct = Distinct(key, decode, self._uuids)
        with self._group.within(self._timeout):
            for document in self.find(filter, decode="bson"):
                distinct.add(document)
            return now(self._questions.call(distinct.values))

    def create_index(self, path: str, sparse: bool = False) -> dict[str, Any]:
        """Makes an index on a path: how many `entries` it has, and whether a document has more than one (`multikey`)."""
        return self._do(lambda it: it.create_index(path, sparse))

    def drop_index(self, path: str) -> None:
        """Drops the index on a path; cursors that were opened by it give the same."""
        self._do(lambda it: it.drop_index(path))

    def explain(
        self, filter: Filter | None = None, *, sort: Sort | None = None, skip: int = 0, limit: int = 0, hint: Hint | None = None
    ) -> dict[str, Any]:
        """How an answer is found: the `plan`, the path of the `index`, and how many `entries`, `documents` and `matches`."""
        request = Request.of(filter, sort, skip, limit, self._uuids)
        return self._do(lambda it: it.explain(request, use_of(hint)))

    def cancel(self) -> None:
        """Ends the session at once, from any thread: a call that waits for a reply gets a `CancelledError`."""
        self._questions.check()
        self._group.end(CancelledError("cancelled"))

    def close(self) -> None:
        """Ends the session."""
        self._questions.check()
        self._group.end(SessionEndedError("the session was closed"))
        self._questions.close()

    def __exit__(self, *_: object) -> None:
        self.close()


class Cursor(Iterator[T], AbstractContextManager["Cursor[T]"]):
    """The documents of an answer, which are asked for a batch at a time.

    A batch that was read is kept as it came. So where a document cannot be decoded, or the caller is interrupted, the next call
    gives the documents after it; a cursor that was interrupted while it read says so by a `CursorStateError`.
    """

    def __init__(self, session: Session, reading: Reading[T]) -> None:
        self._session, self._reading, self._owner = session, reading, getpid()
        session._do(reading.open)

    def __next__(self) -> T:
        check_owner(self._owner)
        reading = self._reading
        if not reading.held.documents.left and not reading.is_at_end:
            self._session._do(reading.read_on)
        documents = reading.held.documents
        if reading.is_closed or not documents.left:
            raise StopIteration
        document: T = documents.give()
        return document

    @property
    def token(self) -> str | None:
        """The token that leads on to what follows the documents that were given; None if none was."""
        return self._session._do(self._reading.token)

    def explain(self) -> dict[str, Any]:
        """How the answer is found, as `Session.explain` says it."""
        return self._session._do(self._reading.explain)

    def close(self) -> None:
        """Closes the cursor: no document follows. Its token stays."""
        check_owner(self._owner)
        self._reading.close()

    def __exit__(self, *_: object) -> None:
        self.close()

    def __del__(self) -> None:
        self._reading.leave()
