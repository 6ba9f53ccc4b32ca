"""Runs of `check`, `dump` and `pack` over any dump: the lines that they print, and the line of their counts."""

from __future__ import annotations

import re
from io import BufferedReader
from typing import Callable, Generator, Iterable, Iterator, Sequence

from .._errors import DumpError, ProgramError
from .._faults import Fault, read_fault
from .._run.processes import Dump, Group, Run, wide_program
from .elements import document_with
from .framing import documents_taken, inputs
from .sources import Source

Batches = Generator["list[bytes]", None, None]
_PIECE = 1 << 16
_CHECKED = re.compile(r"(\d+) documents, (\d+) faulty\n")
# The number of a document with a fault, and the kind.
_FAULTY = re.compile(r"^document (\d+), .*: ([^:\n]+)$", re.MULTILINE)
_FOUND = re.compile(r"(\d+) objects found\n")
PACKED = re.compile(r"\d+ objects packed\n")


class Checking:
    """The check of a dump of all types. `documents` is how many were checked by now, and `bytes` how many these have, unpacked."""

    def __init__(self, program: str, group: Group | None = None) -> None:
        self._program, self._group = program, group or Group()
        self.documents = self.bytes = 0

    def faults(self, source: Source, take: Callable[[bytes], None] | None = None) -> Iterator[Fault]:
        """The damage, in the order of the documents, each of which is passed on, if that is asked for."""
        for part in source.inputs():
            pieces, file = part.dump
            if take:
                pieces, file = documents_taken(source.raw() if pieces is None else pieces, take), None
            with checking(Dump(pieces and self._counted(pieces), file), self._program, self._group) as run:
                for fault in faults_of(run):
                    yield fault.moved(self.documents, part.offset)
                self.documents += finish_check(run)
            self.bytes = self.bytes if file is None else source.size or 0

    def _counted(self, pieces: Iterable[bytes]) -> Iterator[bytes]:
        for piece in pieces:
            self.bytes += len(piece)
            yield piece


def faults_of(run: Run) -> Iterator[Fault]:
    """The faults of a dump, in the order of its documents, as a run of `check` finds them."""
    for line in run.stdout:
        fault = read_fault(line.decode().rstrip("\n"))
        if fault:
            yield fault


def finish_check(run: Run, wanted: int | None = None) -> int:
    """Waits for the end of a run of `check`, and gives the number of documents; another than the one that is known is an error."""
    status, counted = run.wait(), _CHECKED.fullmatch(run.messages())
    if not counted or status not in (0, min(1, int(counted.group(2)))):
        raise run.error()
    documents = int(counted.group(1))
    if wanted not in (None, documents):
        raise ProgramError(f"check found {documents} documents in place of {wanted}")
    return documents


def all_faults(run: Run, documents: int) -> list[Fault]:
    """The faults of this many documents, as a run of `check` finds them; once it has ended it is closed."""
    with run:
        faults = list(faults_of(run))
        finish_check(run, documents)
    return faults


def faulty_numbers(run: Run, documents: int) -> dict[int, str]:
    """The kinds of the faults of this many documents by their numbers, as a run of `check` finds them; once it has ended it is closed."""
    with run:
        found = _FAULTY.findall(run.stdout.read().decode())
        finish_check(run, documents)
    return {int(number): kind for number, kind in found}


def checking(dump: Dump, program: str, group: Group | None = None) -> Run:
    """A run that checks some documents of all types."""
    return Run.over(dump, wide_program(program, group), "check", group=group)


def each_document(source: Source, program: str, take: Callable[[bytes], None], group: Group | None = None) -> int:
    """Has the documents of a dump checked as they pass on, before each was read, and gives their number; the first fault is raised."""
    documents = 0
    for offset, first, pieces in inputs(source.pieces()):
        with checking(Dump(documents_taken(pieces, take)), program, group) as run:
            for fault in faults_of(run):
                raise DumpError.at(fault.moved(first, offset))
            documents = first + finish_check(run)
    return documents


def lines_of_documents(documents: Sequence[bytes], program: str, group: Group | None = None) -> list[bytes]:
    """The lines of some documents, by one run. A fault is a `DumpError` that counts in these documents."""
    with Run([wide_program(program, group), "dump", "-"], documents, group=group) as run:
        lines = [line for batch in lines_of(run.stdout) for line in batch]
        if (printed := finish_dump(run)) != len(documents):  # such as after it was killed
            raise ProgramError(f"dump printed {printed} documents in place of {len(documents)}")
    return lines


def texts_of_values(values: Sequence[bytes], program: str, group: Group | None = None) -> list[str]:
    """The texts of values as `dump` prints them, each by a document that has it alone."""
    lines = lines_of_documents([document_with(b"", it) for it in values], program, group) if values else []
    return [line[len('{"":') : -1].decode() for line in lines]


def pack_lines(lines: Iterable[bytes], program: str, group: Group | None = None) -> bytes:
    """The documents of lines, as `pack` makes them."""
    with Run([program, "pack", "-"], lines, group=group) as run:
        data = run.stdout.read()
        run.finish(PACKED)
    return data


def finish_dump(run: Run) -> int:
    """Waits for the end of a run of `dump`, and gives the number of documents; raises the error of a run that did not end well."""
    return int(run.finish(_FOUND).group(1))


def lines_of(pipe: BufferedReader) -> Batches:
    """The lines that a program prints, as they come. Bytes after the last newline are none."""
    parts: list[bytes] = []
    while piece := pipe.read1(_PIECE):
        parts.append(piece)
        if b"\n" in piece:
            *lines, rest = b"".join(parts).split(b"\n")
            parts = [rest]
            yield lines


class Array:
    """One array out of those that runs print: what is between two documents comes in place of the brackets between two runs."""

    def __init__(self, is_pretty: bool) -> None:
        end = b"\n" if is_pretty else b""
        self._opening, self._between, self.closing = b"[" + end, b"," + end, b"]\n" + end
        self._is_begun = self._has_documents = False

    def pieces(self, pipe: BufferedReader) -> Iterator[bytes]:
        """What is printed of the array of a run, as it comes: not the bracket that closes it, which a run that failed does not print."""
        opening, before, held = pipe.read(len(self._opening)), self._between if self._has_documents else b"", b""
        if opening and not self._is_begun:
            yield opening
            self._is_begun = True
        while piece := pipe.read1(_PIECE):
            held += piece
            if len(held) > len(self.closing):
                yield before + held[: -len(self.closing)]
                before, held, self._has_documents = b"", held[-len(self.closing) :], True
        if held and held != self.closing:
            yield before + held
            self._has_documents = True
