"""The documents of dumps that have no fault, some at once; those with one are in reports, as an audit has them."""

from __future__ import annotations

import os
from collections import deque
from contextlib import closing
from typing import Callable, Iterable, List

from .._dumps.framing import LONGEST, documents_taken, inputs, up_to_wrong_length
from .._dumps.runs import Batches, all_faults, checking
from .._dumps.sources import Source, Watch, up_to_error
from .._errors import DumpError, is_finding, why
from .._run.processes import Dump, Group
from .reports import MOST_FAULTS, Noting, Report

# How many bytes of documents are read at once.
_MOST = 1 << 22
# What takes some documents.
Take = Callable[[List[bytes]], None]


class Reading:
    """The reading of one dump after the other; each has a report."""

    def __init__(self, program: str, most: int | None = None) -> None:
        """At most this many bytes of documents are passed on at once, unless one has more."""
        self._program, self._group, self._most = program, Group(), _MOST if most is None else most
        self.reports: list[Report] = []

    def read(self, name: str, take: Take, watch: Watch) -> Report:
        """Passes on the documents of a dump, some at once."""
        report = Report(name)
        self.reports.append(report)
        try:
            if name != "-" and os.path.isdir(name):
                raise DumpError("it is a directory: name the dumps in it")
            with Source(name) as source, watch.over(source), closing(self._good(source, report)) as batches:
                for documents in batches:
                    take(documents)
        except (DumpError, OSError) as error:
            report.error, report.is_fault = why(error), is_finding(error)
        watch.add_file()
        return report

    def _good(self, source: Source, report: Report) -> Batches:
        """The documents without a fault. While some are taken the next ones are checked."""
        noting, errors, documents, size = Noting(report, MOST_FAULTS), list[Exception](), 0, 0
        ahead: deque[_Batch] = deque()
        passing, left = up_to_error(source.pieces(), errors), list[DumpError]()
        if source.size is None:
            # What comes after a wrong length is not waited for.
            passing = up_to_wrong_length(passing, left)
        try:
            for offset, first, pieces in inputs(passing, self._most):
                data, count = _joined(pieces, self._most)
                size = offset + count
                ahead.append(_Batch(data, offset, first, self._program, self._group))
                if len(ahead) > 1:
                    yield ahead.popleft().good(noting)
            while ahead:
                documents = ahead[0].end
                yield ahead.popleft().good(noting)
        finally:
            for batch in ahead:
                batch.run.close()
            noting.end(documents, left[0].fault.offset if left and left[0].fault else size)
        noting.look(source, self._program, self._group)
        if errors:
            raise errors[0]


class _Batch:
    """Some documents, which are checked meanwhile."""

    def __init__(self, data: bytes, offset: int, first: int, program: str, group: Group) -> None:
        self._documents: list[bytes] = []
        for _ in documents_taken([data], self._documents.append):
            pass
        self._offset, self._first = offset, first
        # What follows the last of them is a document with a wrong length.
        self._count = len(self._documents) + (sum(map(len, self._documents)) < len(data))
        self.end = first + self._count
        self.run = checking(Dump([data]), program, group)

    def good(self, noting: Noting) -> list[bytes]:
        """Those without a fault, once the check has ended."""
        faulty = set()
        for fault in all_faults(self.run, self._count):
            faulty.add(fault.document)
            noting.add(fault.moved(self._first, self._offset))
        return [it for number, it in enumerate(self._documents) if number not in faulty] if faulty else self._documents


def _joined(pieces: Iterable[bytes], most: int) -> tuple[bytes, int]:
    """The bytes of an input, and how many. Of one that has more than documents can have, since a length is wrong, the first ones."""
    kept, size = [], 0
    for piece in pieces:
        if size <= max(most, LONGEST):
            kept.append(piece)
        size += len(piece)
    return b"".join(kept), size
