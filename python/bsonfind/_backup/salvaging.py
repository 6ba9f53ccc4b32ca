"""The documents of a stream, those too that have a fault or follow a wrong length, and what is left out of it."""

from __future__ import annotations

from bisect import bisect_left
from collections import deque
from itertools import islice
from typing import Callable, Generator, Iterator, NamedTuple, Union

from .._dumps.runs import all_faults, checking
from .._faults import Fault
from .._run.processes import Dump, Group, Run, processors
from .beginnings import Beginnings, Window

# The bytes that are checked by one run, at first and after damage, and at most; and the documents at most.
_FIRST, _MOST, _MOST_DOCUMENTS = 1 << 16, 1 << 22, 100_000
# This many runs check at once at most.
_MOST_AHEAD = 4
# What is inside of this many bad documents is looked at together.
_MOST_BAD = 1000
# What takes documents, some after the others.
Take = Callable[[Union[bytes, memoryview]], object]


class LeftOut(NamedTuple):
    """Bytes that were left out, from a wrong length up to where a document is guessed to begin, or to the end of the file.

    A length that is wrong may skip other documents, which is known by these alone.
    """

    start: int
    end: int
    is_guess: bool
    passes_over: bool = False

    def __str__(self) -> str:
        over = " that passes over other documents" if self.passes_over else ""
        told = f"wrong length at byte {self.start}{over}: {self.end - self.start} bytes left out"
        if self.is_guess:
            return f"{told}; that a document begins at byte {self.end} is a guess"
        return f"{told}, up to the end"


class Copied(NamedTuple):
    """Documents without a fault, one after the other, or one with its fault."""

    data: bytes | memoryview
    fault: Fault | None = None


class Salvaging:
    """The reading of the documents of a stream, of those too that have a fault or follow a wrong length."""

    def __init__(self, pieces: Iterator[bytes], program: str, group: Group | None = None, most: int | None = None) -> None:
        """One run checks this many bytes at most."""
        self._window, self._program, self._group = Window(pieces), program, group
        self._beginnings = Beginnings(self._window, program, group)
        # How many documents have no fault and how many have one, by now, and what was left out.
        self.good = self.bad = 0
        self.left_out: list[LeftOut] = []
        # Documents that are being checked, how many runs do so at most, and the bytes that the next one checks.
        self._ahead: deque[_Batch] = deque()
        self._most_ahead, self._size, self._most = min(processors(), _MOST_AHEAD), _FIRST, most or _MOST
        # Up to where the bytes of documents that are being checked are kept a second time, to be looked at.
        self._kept = 0

    @property
    def error(self) -> str | None:
        """What ended the stream before its end."""
        return self._window.error

    def parts(self) -> Iterator[Copied | LeftOut | str]:
        """The documents whose length is known, what is left out, and what else is said; at first nothing, when some are being checked."""
        at = 0
        try:
            self._check_ahead(at)
            yield Copied(b"")
            while (batch := self._next(at)) or self._window.has(at + 1):
                if batch:
                    at = yield from self._documents(batch)
                else:
                    found = self._beginnings.after(at)
                    at = yield from self._leave_out(LeftOut(at, self._window.end if found is None else found, found is not None))
                    self._size = _FIRST
        finally:
            while self._ahead:
                self._ahead.pop().close()
        if self._window.error:
            yield f"byte {at}: {self._window.error}; nothing after it can be read"

    def _next(self, at: int) -> _Batch | None:
        """The documents that are next, which are being checked; None if the first length is wrong."""
        while self._ahead and self._ahead[0].ends[-1] <= at:
            self._ahead.popleft().close()
        if self._ahead and not self._ahead[0].go_to(at):
            # They are inside of one that was checked, up to another one that was.
            ends = self._ends_inside(at, self._ahead[0])
            self._window.drop(at)
            return self._batch(at, ends) if ends else None
        self._window.drop(self._ahead[-1].ends[-1] if self._ahead and at >= self._kept else at)
        self._check_ahead(at)
        return self._ahead.popleft() if self._ahead else None

    def _check_ahead(self, at: int) -> None:
        """Starts runs over the documents from there on, one for each processor, up to a wrong length."""
        while len(self._ahead) < self._most_ahead and sum(len(it.data) for it in self._ahead) < self._most * _MOST_AHEAD:
            start = self._ahead[-1].ends[-1] if self._ahead else at
            ends = self._window.document_ends(start, self._size, _MOST_DOCUMENTS)
            if not ends:
                break
            self._ahead.append(self._batch(start, ends))
            if self._window.start == start:
                self._window.drop(ends[-1])
            self._size = min(2 * self._size, self._most)

    def _ends_inside(self, at: int, batch: _Batch) -> list[int]:
        """Where documents end from a place on that is inside of one: up to the beginning or the end of another one, or a wrong length."""
        ends: list[int] = []
        while not batch.begins(at) and at < batch.ends[-1] and (after := self._window.document_end(at)) is not None:
            at = after
            ends.append(at)
        return ends

    def _batch(self, start: int, ends: list[int]) -> _Batch:
        """Documents with their bytes, and the run that checks them, if that is needed."""
        data = self._window.part(start, ends[-1])
        is_known = self._beginnings.are_sound(start, ends)
        return _Batch(start, ends, data, None if is_known else checking(Dump([data]), self._program, self._group))

    def _documents(self, batch: _Batch) -> Generator[Copied | LeftOut | str, None, int]:
        """Documents by whether they have a fault; returns the place after them, or that of what a wrong length skips."""
        start, ends, data = batch.start, batch.ends, memoryview(batch.data)
        faults, number = batch.faults(), batch.passed
        at = ends[number - 1] if number else start
        if faults:
            # What is in and after a bad document is looked at.
            if self._window.start > at:
                self._window.put_back(start, b"".join([batch.data, *(it.data for it in self._ahead)]))
                self._kept = self._ahead[-1].ends[-1] if self._ahead else ends[-1]
        while faults:
            if faults[0].document >= batch.looked_at:
                self._look_inside(batch)
            fault = faults.popleft()
            begin, end = batch.place_of(fault)
            self.good += fault.document - number
            yield Copied(data[at - start : begin - start])
            inside, is_part = self._beginnings.inside(begin, end, fault.kind)
            if is_part:
                yield f"bad document at byte {begin}: documents stand inside it from byte {inside} on, and are copied with it"
            elif inside is not None:
                self._ahead.appendleft(batch)
                return (yield from self._leave_out(LeftOut(begin, inside, True, True)))
            yield Copied(data[begin - start : end - start], self._moved(fault, start))
            self.bad += 1
            at, number = end, fault.document + 1
        self.good += len(ends) - number
        yield Copied(data[at - start :])
        return ends[-1]

    def _look_inside(self, batch: _Batch) -> None:
        """Has what is inside of the next bad documents checked together."""
        some = list(islice(batch.faults(), _MOST_BAD))
        batch.looked_at = some[-1].document + 1
        if len(some) > 1:
            self._beginnings.look_inside((*batch.place_of(it), it.kind) for it in some)

    def _moved(self, fault: Fault, start: int) -> Fault:
        """The fault as it is in the stream, of which some documents begin at a place."""
        return fault._replace(document=self.good + self.bad + len(self.left_out), offset=fault.offset + start)

    def _leave_out(self, left_out: LeftOut) -> Generator[LeftOut, None, int]:
        """Notes what is left out; returns the place after it."""
        self.left_out.append(left_out)
        yield left_out
        return left_out.end


class _Batch:
    """Documents with their places and their bytes, the run that checks them, and how many of them were passed on and looked at."""

    def __init__(self, start: int, ends: list[int], data: bytes, run: Run | None) -> None:
        """Without a run no document has a fault."""
        self.start, self.ends, self.data, self._run = start, ends, data, run
        self.passed = self.looked_at = 0
        self._faults: deque[Fault] = deque()

    def faults(self) -> deque[Fault]:
        """The faults of the documents that were not passed on, once all were checked."""
        if self._run:
            self._faults.extend(it for it in all_faults(self._run, len(self.ends)) if it.document >= self.passed)
            self._run = None
        return self._faults

    def place_of(self, fault: Fault) -> tuple[int, int]:
        """Where a document with a fault begins and ends."""
        return self.ends[fault.document - 1] if fault.document else self.start, self.ends[fault.document]

    def begins(self, at: int) -> bool:
        """Whether one of the documents begins at a place, or the last one ends there."""
        return at == self.start or self.ends[bisect_left(self.ends, at, 0, len(self.ends) - 1)] == at

    def go_to(self, at: int) -> bool:
        """Skips the documents before one that begins at a place; False if none does."""
        if at != self.start:
            number = bisect_left(self.ends, at)
            if number == len(self.ends) or self.ends[number] != at:
                return False
            self.passed = number + 1
            while self._faults and self._faults[0].document < self.passed:
                self._faults.popleft()
        return True

    def close(self) -> None:
        if self._run:
            self._run.close()
