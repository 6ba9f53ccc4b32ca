"""The questions of a session: to a run of `serve` over a dump, and to a second one once a command compares by doubles."""

from __future__ import annotations

import os
import threading
from contextlib import AbstractContextManager, suppress
from typing import Any, Callable, Sequence, TypeVar

from .._arguments import File, name_of_file
from .._dumps.originals import Original, kept
from .._dumps.sources import Source
from .._errors import SessionEndedError
from .._run.processes import Dump, Group, check_owner
from .connections import Connection, NotTaken
from .plans import Plan, now
from .requests import Request, Use

T = TypeVar("T")
# The option of `serve` for sessions by value, which take doubles and decimal128 over a dump that has none.
_BY_VALUE = "--byValue"


class Questions(AbstractContextManager["Questions"]):
    """The connections over a dump: one, and a second one once a command needs it."""

    def __init__(self, path: File, program: str, group: Group, timeout: float | None = None) -> None:
        """Opens a dump, and waits until it is read."""
        self._program, self._group, self._owner = program, group, os.getpid()
        self._source = Source(name_of_file(path), is_named=True)
        self._original: Original | None = None
        self._connections: list[Connection] = []
        # The paths of indexes, and whether these are sparse, for a connection that comes later.
        self._indexes: list[tuple[str, bool]] = []
        # One lock is for what takes long, the other one for what does not.
        self._opening, self._lock = threading.Lock(), threading.Lock()
        try:
            with group.within(timeout):
                self._connections.append(self._first())
        except BaseException:
            group.end(SessionEndedError("the dump was not read"))
            self.close()
            raise

    def _first(self) -> Connection:
        """The connection over the dump as it is. What can be read only once is kept as it passes."""
        source = self._source
        if source.size is not None:
            return self._connect(source.dump())
        with kept(source.pieces()) as (file, passing):
            connection = self._connect(Dump(passing))
            for _ in passing:
                pass  # The program read all of them.
        self._original = Original(file)
        return connection

    def _connect(self, dump: Dump, options: Sequence[str] = ()) -> Connection:
        return Connection(dump, self._program, self._group, self._source.check_name, options)

    def check(self) -> None:
        """Refuses a call in another process than the one that opened the session."""
        check_owner(self._owner)

    def documents(self, numbers: Sequence[int], most: int | None = None) -> list[bytes] | None:
        """The documents of these numbers, as they are in the dump; None if they have more bytes than this."""
        if self._original is None:
            with self._opening:
                self._original = self._original or Original.of(self._source)
        return self._original.documents(numbers, most)

    def ask(self, make: Callable[[Connection], Plan[T]]) -> Plan[T]:
        """What a plan comes to by the connection that takes its commands. Where one refuses a double the other one is asked."""
        self.check()
        with suppress(NotTaken):  # The other one says what comes of it.
            return (yield from make(self._connections[0]))
        if len(self._connections) == 1:
            yield lambda it: it.work(self._open_second)
        return (yield from make(self._connections[1]))

    def _open_second(self) -> None:
        """Opens the connection that compares all numbers by value, with the indexes of the first one."""
        with self._opening:
            if len(self._connections) > 1:
                return
            second = self._connect(self._original.dump if self._original else self._source.dump(), [_BY_VALUE])
            made: list[tuple[str, bool]] = []
            while True:
                with self._lock:
                    if made == self._indexes:
                        self._connections.append(second)
                        return
                    wanted = list(self._indexes)
                for path, _ in made:
                    now(second.drop_index(path))
                for index in wanted:
                    now(second.create_index(*index))
                made = wanted

    def create_index(self, path: str, sparse: bool) -> Plan[dict[str, Any]]:
        self.check()
        made = yield from self._connections[0].create_index(path, sparse)
        with self._lock:
            self._indexes.append((path, sparse))
            others = self._connections[1:]
        for other in others:
            yield from other.create_index(path, sparse)
        return made

    def drop_index(self, path: str) -> Plan[None]:
        self.check()
        yield from self._connections[0].drop_index(path)
        with self._lock:
            self._indexes = [it for it in self._indexes if it[0] != path]
            others = self._connections[1:]
        for other in others:
            yield from other.drop_index(path)

    def explain(self, request: Request, use: Use) -> Plan[dict[str, Any]]:
        return self.ask(lambda connection: connection.explain(request, use))

    def count(self, request: Request) -> Plan[int]:
        matches: int = (yield from self.explain(request, "auto"))["matches"]
        return matches

    def call(self, ask: Callable[[str, Group], T]) -> Plan[T]:
        """What something gives that starts the program by itself, in the group of the session."""
        self.check()
        given: T = yield lambda it: it.work(lambda: ask(self._program, self._group))
        return given

    def close(self) -> None:
        """Ends all connections, and what is read for them meanwhile."""
        self.check()
        for connection in self._connections:
            connection.close()
        if self._original:
            self._original.close()
        self._source.close()

    def __exit__(self, *_: object) -> None:
        self.close()
