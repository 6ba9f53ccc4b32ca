"""The reading of an answer by a cursor of the program, a batch at a time."""

from __future__ import annotations

from functools import partial
from typing import Any, Generic, NamedTuple, TypeVar

from .._arguments import whole
from .._errors import CommandError, CursorStateError, DumpError
from .connections import Command, Connection, kill
from .decoding import Decoding, Parsed, Texts
from .plans import Plan
from .questions import Questions
from .replies import Batch, read_batch
from .requests import Request, Use, text_of

T = TypeVar("T")
# How many bytes of documents a cursor holds at most, unless a single document has more.
MOST_BYTES = 1 << 24
# How many documents are asked for at once where no number is given.
_BATCH = 100
# How many documents are asked for at most while their lengths are not known.
FIRST_BATCH = 1000
# What the program says if no more cursors can be open.
_TOO_MANY = "too many cursors"


class Held(NamedTuple):
    """A batch that was read: its documents, and the tokens before and after it."""

    documents: Texts[Any] | Parsed
    before: str | None
    after: str | None


class Reading(Generic[T]):
    """An answer, as far as it was read. For documents of their bytes the program is asked for their numbers."""

    def __init__(self, request: Request, use: Use, batch_size: int, after: str | None, decoding: Decoding) -> None:
        self._request, self._use, self._decoding = request, use, decoding
        self._batch_size = whole("batch_size", batch_size) or _BATCH
        self._size = min(self._batch_size, FIRST_BATCH)
        # By what it is asked, once that is known, and the number of the cursor there, where one is open.
        self._connection: Connection | None = None
        self._number: int | None = None
        self.is_at_end = self.is_closed = False
        # False from the moment on when the program is asked for a batch until that is kept.
        self._is_known = True
        # A batch that was read, and how many documents were asked for, while there are no documents of it yet.
        self._batch: tuple[Batch, int] | None = None
        self.held = Held(Texts([], bytes), after, after)

    def open(self, questions: Questions) -> Plan[Connection]:
        """Opens a cursor of the program, if that was not done."""
        questions.check()
        if self._connection is None:
            self._connection = yield from questions.ask(self._start)
        return self._connection

    def _start(self, connection: Connection) -> Plan[Connection]:
        """Opens a cursor of the program after the documents that were read."""
        self._number = yield from self._open(connection, self.held.after)
        return connection

    def _open(self, connection: Connection, after: str | None) -> Plan[int]:
        """Opens a cursor of the program over the answer, or over what follows a token; gives its number."""
        if after is None:
            first = [("find", self._request.filter)]
        else:
            first = [("resume", text_of(after)), ("filter", self._request.filter)]
        command = Command.of(*first, *self._request.fields(), ("use", text_of(self._use)))
        number: int = (yield from connection.fields(command, "cursor"))["cursor"]
        return number

    def read_on(self, questions: Questions, most: int | None = None) -> Plan[None]:
        """Reads until there are documents that were not given, at most this many, or none follows."""
        connection = yield from self.open(questions)
        while not self.held.documents.left and not self.is_at_end:
            connection.check_open()
            if not self._is_known:
                raise CursorStateError("interrupted while a batch was read: open another cursor by the token of this one")
            yield from self._read_batch(connection, questions, most or self._batch_size)

    def _read_batch(self, connection: Connection, questions: Questions, most: int) -> Plan[None]:
        while True:
            if self._batch is None:
                self._is_known = False
                try:
                    self._batch = yield from self._read(connection, most)
                except (CommandError, DumpError):
                    self._is_known = True  # A refused command changes nothing, and a dump that was replaced is refused again.
                    raise
                self._is_known = True
            batch, size = self._batch
            # Where this fails the next call makes them of the batch that is kept.
            made = yield from self._made(batch, size, questions)
            self._is_known, self._batch = False, None
            if made:
                break
            yield from self._start_smaller(connection, size)
        self.held = Held(made[0], self.held.after, batch.token)
        if batch.end:
            self._number, self.is_at_end = None, True
        else:
            self._size = max(1, min(self._batch_size, MOST_BYTES // (2 * (made[1] // size + 1))))
        self._is_known = True

    def _read(self, connection: Connection, most: int) -> Plan[tuple[Batch, int]]:
        """The next batch and how many documents were asked for: fewer where this many are too long to be kept."""
        if self._number is None:
            yield from self._start(connection)
        while True:
            assert self._number is not None
            size = min(self._size, most)
            most_bytes = MOST_BYTES if size > 1 else None
            reply = yield from connection.ask(_more(self._number, size, self._decoding.is_of_bytes, most_bytes))
            if reply is not None:
                return read_batch(reply), size
            yield from self._start_smaller(connection, size)

    def _start_smaller(self, connection: Connection, size: int) -> Plan[None]:
        """Has another cursor read a batch of this size in parts. This one may be closed, if the batch was the last."""
        assert self._number is not None
        self._size = max(1, size // 8)
        yield from connection.ask(kill(self._number))
        self._number = None
        yield from self._start(connection)

    def _made(self, batch: Batch, size: int, questions: Questions) -> Plan[tuple[Texts[T] | Parsed, int] | None]:
        """The documents of a batch, and how many bytes they have; None if that is too much to be kept."""
        if isinstance(batch.found, bytes):
            return self._decoding.batch(batch.found), len(batch.found)
        found = yield lambda it: it.work(partial(questions.documents, batch.found, MOST_BYTES if size > 1 else None))
        return None if found is None else (Texts(found, self._decoding.document_of), sum(map(len, found)))

    def explain(self, questions: Questions) -> Plan[dict[str, Any]]:
        connection = yield from self.open(questions)
        return (yield from connection.explain(self._request, self._use))

    def token(self, questions: Questions) -> Plan[str | None]:
        """The token after the documents that were given, None if none was; within a batch another cursor of the program reads to there."""
        connection = yield from self.open(questions)
        documents, before, after = self.held
        if not documents.left:
            return after
        if not documents.given:
            return before
        try:
            number = yield from self._open(connection, before)
        except CommandError as error:
            if error.text != _TOO_MANY or self._number is None:
                raise
            # Its own cursor makes space, and is opened again after the documents that are kept.
            yield from connection.fields(kill(self._number))
            self._number = None
            number = yield from self._open(connection, before)
        reply = yield from connection.ask(_more(number, documents.given, by_number=True))
        assert reply is not None
        batch = read_batch(reply)
        if not batch.end:
            yield from connection.fields(kill(number))
        return batch.token

    def close(self) -> None:
        """Gives no more documents. Those that were given stay so, and the token with them."""
        self.is_closed = self.is_at_end = True
        self.leave()

    def leave(self) -> None:
        """Has the cursor of the program closed before the next command."""
        number, self._number = self._number, None
        if number is not None and self._connection:
            self._connection.leave(number)


def _more(cursor: int, size: int, by_number: bool, most: int | None = None) -> Command:
    """The command that reads from a cursor: documents, or their numbers."""
    places = [("places", "true")] if by_number else []
    return Command.of(("getMore", str(cursor)), ("batch", str(size)), *places, most=most)
