"""Processes of Python that work on documents, since one uses one processor."""

from __future__ import annotations

import pickle
import queue
import subprocess
import sys
import threading
from collections import deque
from concurrent.futures import Future, ThreadPoolExecutor
from contextlib import AbstractContextManager
from itertools import chain, islice
from typing import Any, Callable, Generic, Iterable, Iterator, List, TypeVar

from .._errors import BsonfindError, ProgramError
from .._run.processes import Group, Run, close, processors
from . import serving

T = TypeVar("T")
# A process takes the package from where this one has it. Its first path is not the folder at hand, where anyone may have a pickle.py.
_OPTIONS = ("-I", "-S", "-c")
_CODE = f"import pickle, sys; sys.path[:], sys.dont_write_bytecode = pickle.load(sys.stdin.buffer); from {serving.__name__} import serve; serve()"


def begun_ahead(streams: Iterable[Iterator[T]], most: int) -> Iterator[T]:
    """What streams give, one after the other. This many are begun at once: each up to its first item, which waits until it is read."""
    begun: deque[Iterator[T]] = deque()
    for stream in streams:
        begun.append(chain(list(islice(stream, 1)), stream))
        if len(begun) >= most:
            yield from begun.popleft()
    yield from chain.from_iterable(begun)


class Workers:
    """Some processes for one kind of work, each of which is started once it is needed. Threads share them."""

    def __init__(self, work: Callable[[Any], Any], group: Group) -> None:
        """The work is a function that a process finds by its name, or a method of an object that can be copied."""
        self._work, self._group = work, group
        self._all: list[Run] = []
        self._free: queue.SimpleQueue[Run] = queue.SimpleQueue()
        self._lock = threading.Lock()

    def run(self, given: object) -> Any:
        """What the work on this comes to, by a process that is free."""
        try:
            worker = self._free.get_nowait()
        except queue.Empty:
            worker = self._start()
        try:
            pickle.dump(given, worker.stdin, pickle.HIGHEST_PROTOCOL)
            worker.stdin.flush()
            result = pickle.load(worker.stdout)
        except (OSError, EOFError, pickle.UnpicklingError):
            close(worker.stdin)  # It ends, if it has not, and its messages say why.
            raise worker.error() from None
        self._free.put(worker)
        if isinstance(result, BsonfindError):
            raise result
        return result

    def _start(self) -> Run:
        if not sys.executable:
            raise ProgramError("cannot start Python: it is not known where it is")
        # Its names of files are in the encoding of this process.
        mode = ["-X", "utf8"] if sys.flags.utf8_mode else []
        worker = Run([sys.executable, *mode, *_OPTIONS, _CODE], stdin=subprocess.PIPE, group=self._group)
        with self._lock:
            self._all.append(worker)
        for it in ((sys.path, sys.dont_write_bytecode), self._work):
            pickle.dump(it, worker.stdin)
        return worker

    def close(self) -> None:
        for worker in self._all:
            worker.close()


class Spread(Generic[T], AbstractContextManager["Spread[T]"]):
    """Work on documents by a process for each processor, taken in their order. The first wait for others: without them none starts."""

    def __init__(self, work: Callable[[List[bytes]], T], take: Callable[[T], None]) -> None:
        self._work, self._take, self._group, jobs = work, take, Group(), processors()
        self._workers, self._pool, self._most = Workers(work, self._group), ThreadPoolExecutor(jobs), jobs
        self._first: list[bytes] | None = None
        self._ahead: deque[Future[T]] = deque()

    def add(self, documents: list[bytes]) -> None:
        """Has some documents worked on."""
        if self._first is None and not self._ahead:
            self._first = documents
            return
        for some in (documents,) if self._first is None else (self._first, documents):
            self._ahead.append(self._pool.submit(self._workers.run, some))
        self._first = None
        while len(self._ahead) > self._most:
            self._take(self._ahead.popleft().result())

    def take_rest(self) -> None:
        if self._first is not None:
            self._take(self._work(self._first))
        while self._ahead:
            self._take(self._ahead.popleft().result())

    def __exit__(self, *_: object) -> None:
        self._group.end()
        self._pool.shutdown(cancel_futures=True)
        self._workers.close()
