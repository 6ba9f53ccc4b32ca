"""Sessions for asyncio: what `sessions` does, but an event loop carries their plans out, so that no thread waits for a reply."""

from __future__ import annotations

import asyncio
import os
import threading
from functools import partial
from typing import Any, AsyncIterator, Awaitable, Callable, TypeVar, overload

from .._arguments import File, name_of_file, seconds
from .._errors import CancelledError, SessionEndedError
from .._run.processes import Group, check_owner
from .decoding import Decode, Decoding, Dicts, Raw
from .distinct import Distinct
from .plans import PIECE, Plan
from .questions import Questions
from .readings import Reading
from .requests import Filter, Hint, Request, Sort, use_of
from .values import Uuids, Values, uuids_of

T = TypeVar("T")


class AsyncSession:
    """A session whose calls are awaited: `async with AsyncSession("people.bson") as session`.

    Tasks may share a session, and a cursor belongs to one task at a time. A call that is cancelled in the middle of a reply
    ends the session. Otherwise it is a `Session`: a dump that is refused is a `DumpError` at once, and so on. A thread waits while the
    dump is read.
    """

    def __init__(
        self, path: File, program: str = "bsonwide", *, timeout: float | None = None, uuid_representation: Uuids = "standard"
    ) -> None:
        self._uuids, self._owner = uuids_of(uuid_representation), os.getpid()
        self._group, self._loop = Group(), Loop()
        self._timeout = seconds(timeout)
        self._open = partial(Questions, name_of_file(path), program, self._group, self._timeout)
        self._questions: Questions | None = None

    async def open(self) -> AsyncSession:
        """Starts the program, and waits until the dump is read. Of several tasks one does so, and the others wait for it."""
        self._check()
        async with self._loop.opening:
            if self._group.is_ended:
                raise SessionEndedError(str(self._group.error))
            if self._questions is None:
                try:
                    self._questions = await self._loop.work(self._opened)
                except BaseException:
                    self._group.end(SessionEndedError("the dump was not read"))
                    raise
        return self

    def _opened(self) -> Questions:
        """The questions, if the session was not ended meanwhile."""
        questions = self._open()
        if self._group.is_ended:
            questions.close()
            raise self._group.error or SessionEndedError("the session was closed")
        return questions

    def _check(self) -> None:
        """Refuses a call in another process than the one that made the session."""
        check_owner(self._owner)

    async def _do(self, plan_of: Callable[[Questions], Plan[T]]) -> T:
        self._check()
        if self._questions is None:
            raise SessionEndedError(str(self._group.error) if self._group.is_ended else "the session was not opened")
        with self._group.within(self._timeout):
            return await self._loop.do(plan_of(self._questions))

    # fmt: off
    @overload
    def find(
        self, filter: Filter | None = None, *, sort: Sort | None = None, skip: int = 0, limit: int = 0, batch_size: int = 100,
        hint: Hint | None = None, after: str | None = None, decode: Dicts = "plain",
    ) -> AsyncCursor[dict[str, Any]]: ...
    @overload
    def find(
        self, filter: Filter | None = None, *, sort: Sort | None = None, skip: int = 0, limit: int = 0, batch_size: int = 100,
        hint: Hint | None = None, after: str | None = None, decode: Raw,
    ) -> AsyncCursor[bytes]: ...
    @overload
    def find(
        self, filter: Filter | None = None, *, sort: Sort | None = None, skip: int = 0, limit: int = 0, batch_size: int = 100,
        hint: Hint | None = None, after: str | None = None, decode: Callable[[bytes], T],
    ) -> AsyncCursor[T]: ...
    def find(
        self, filter: Filter | None = None, *, sort: Sort | None = None, skip: int = 0, limit: int = 0, batch_size: int = 100,
        hint: Hint | None = None, after: str | None = None, decode: Decode[Any] = "plain",
    ) -> AsyncCursor[Any]:
        # fmt: on
        """A cursor over an answer, or over what follows a token, for `async for`. It is opened by its first document."""
        request = Request.of(filter, sort, skip, limit, self._uuids)
        return AsyncCursor(self, Reading(request, use_of(hint), batch_size, after, Decoding(decode, self._uuids)))

    # fmt: off
    @overload
    async def find_one(
        self, filter: Filter | None = None, *, sort: Sort | None = None, skip: int = 0, hint: Hint | None = None, decode: Dicts = "plain"
    ) -> dict[str, Any] | None: ...
    @overload
    async def find_one(
        self, filter: Filter | None = None, *, sort: Sort | None = None, skip: int = 0, hint: Hint | None = None, decode: Raw
    ) -> bytes | None: ...
    @overload
    async def find_one(
        self, filter: Filter | None = None, *, sort: Sort | None = None, skip: int = 0, hint: Hint | None = None,
        decode: Callable[[bytes], T],
    ) -> T | None: ...
    async def find_one(
        self, filter: Filter | None = None, *, sort: Sort | None = None, skip: int = 0, hint: Hint | None = None,
        decode: Decode[Any] = "plain",
    ) -> Any:
        # fmt: on
        """The first document of an answer, None if it has none."""
        ask: Callable[..., AsyncCursor[Any]] = self.find
        with self._group.within(self._timeout):
            async with ask(filter, sort=sort, skip=skip, limit=1, hint=hint, decode=decode) as cursor:
                async for document in cursor:
                    return document
        return None

    async def count_documents(self, filter: Filter | None = None) -> int:
        """How many documents match."""
        request = Request.of(filter, uuids=self._uuids)
        return await self._do(lambda it: it.count(request))

    async def distinct(self, key: str, filter: Filter | None = None, *, decode: Values = "plain") -> list[Any]:
        """The values of a field in the documents that match, each once: of an array each element, and numbers by their values."""
        distinct = Distinct(key, decode, self._uuids)
        with self._group.within(self._timeout):
            async for document in self.find(filter, decode="bson"):
                distinct.add(document)
        return await self._do(lambda it: it.call(distinct.values))

    async def create_index(self, path: str, sparse: bool = False) -> dict[str, Any]:
        """Makes an index on a path: how many `entries` it has, and whether a document has more than one (`multikey`)."""
        return await self._do(lambda it: it.create_index(path, sparse))

    async def drop_index(self, path: str) -> None:
        """Drops the index on a path; cursors that were opened by it give the same."""
        await self._do(lambda it: it.drop_index(path))

    async def explain(
        self, filter: Filter | None = None, *, sort: Sort | None = None, skip: int = 0, limit: int = 0, hint: Hint | None = None
    ) -> dict[str, Any]:
        """How an answer is found: the `plan`, the path of the `index`, and how many `entries`, `documents` and `matches`."""
        request = Request.of(filter, sort, skip, limit, self._uuids)
        return await self._do(lambda it: it.explain(request, use_of(hint)))

    def cancel(self) -> None:
        """Ends the session at once: a call that waits for a reply gets a `CancelledError` of this package."""
        self._check()
        self._group.end(CancelledError("cancelled"))

    async def close(self) -> None:
        """Ends the session."""
        self._check()
        self._group.end(SessionEndedError("the session was closed"))
        if self._questions:
            async with self._loop.lock:
                await self._loop.work(self._questions.close)

    async def __aenter__(self) -> AsyncSession:
        return await self.open()

    async def __aexit__(self, *_: object) -> None:
        await self.close()


class AsyncCursor(AsyncIterator[T]):
    """The documents of an answer, which are asked for a batch at a time. It keeps what it read as a `Cursor` does."""

    def __init__(self, session: AsyncSession, reading: Reading[T]) -> None:
        self._session, self._reading = session, reading

    async def __anext__(self) -> T:
        self._session._check()
        reading = self._reading
        if not reading.held.documents.left and not reading.is_at_end:
            await self._session._do(reading.read_on)
        documents = reading.held.documents
        if reading.is_closed or not documents.left:
            raise StopAsyncIteration
        document: T = documents.give()
        return document

    @property
    def token(self) -> Awaitable[str | None]:
        """The token that leads on to what follows the documents that were given, which is awaited; None if none was."""
        return self._session._do(self._reading.token)

    async def explain(self) -> dict[str, Any]:
        """How the answer is found, as `AsyncSession.explain` says it."""
        return await self._session._do(self._reading.explain)

    async def close(self) -> None:
        """Closes the cursor: no document follows. Its token stays."""
        self._session._check()
        self._reading.close()

    async def __aenter__(self) -> AsyncCursor[T]:
        return self

    async def __aexit__(self, *_: object) -> None:
        await self.close()

    def __del__(self) -> None:
        self._reading.leave()


class Loop:
    """A transport that waits by an event loop. Tasks may share it: a command has its reply before the next one is sent."""

    def __init__(self) -> None:
        self._lock: asyncio.Lock | None = None
        self._opening: asyncio.Lock | None = None

    async def do(self, plan: Plan[T]) -> T:
        """Carries a plan out. It is closed where the task is cancelled."""
        try:
            step = next(plan)
            while True:
                try:
                    done = await step(self)
                except BaseException as error:  # noqa: BLE001 - the plan says what comes of it
                    step = plan.throw(error)
                else:
                    step = plan.send(done)
        except StopIteration as end:
            result: T = end.value
            return result
        finally:
            plan.close()

    @property
    def lock(self) -> asyncio.Lock:
        """What keeps others from a program meanwhile. It is made once there is an event loop."""
        self._lock = self._lock or asyncio.Lock()
        return self._lock

    @property
    def opening(self) -> asyncio.Lock:
        """What has one task open the session. It is another lock, since `close` ends a session that is being opened."""
        self._opening = self._opening or asyncio.Lock()
        return self._opening

    async def alone(self, _: threading.Lock, plan: Plan[T]) -> T:
        async with self.lock:
            return await self.do(plan)

    async def work(self, call: Callable[[], T]) -> T:
        return await asyncio.get_running_loop().run_in_executor(None, call)

    async def send(self, pipe: int, data: bytes) -> None:
        os.set_blocking(pipe, False)
        loop, rest = asyncio.get_running_loop(), memoryview(data)
        while rest:
            try:
                rest = rest[os.write(pipe, rest) :]
            except BlockingIOError:
                await _ready(pipe, loop.add_writer, loop.remove_writer)

    async def receive(self, pipe: int) -> bytes:
        os.set_blocking(pipe, False)
        loop = asyncio.get_running_loop()
        while True:
            try:
                return os.read(pipe, PIECE)
            except BlockingIOError:
                await _ready(pipe, loop.add_reader, loop.remove_reader)


async def _ready(pipe: int, add: Callable[..., object], remove: Callable[[int], object]) -> None:
    """Waits until a pipe takes or has bytes, or its other end is closed."""
    ready = asyncio.Event()
    add(pipe, ready.set)
    try:
        await ready.wait()
    finally:
        remove(pipe)
