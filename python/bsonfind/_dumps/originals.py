"""The documents of a dump by their numbers, as they are in the file, and the file without a name for what can be read only once."""

from __future__ import annotations

import signal
import tempfile
import threading
from array import array
from contextlib import contextmanager
from itertools import islice
from typing import BinaryIO, Iterable, Iterator, Sequence

from .._errors import DumpError, ProgramError
from .._run.processes import Dump
from . import framing
from .files import FileState
from .sources import Source


class Original:
    """The documents of a dump in an open file, and where each of them ends."""

    def __init__(self, file: BinaryIO, is_owner: bool = True) -> None:
        """The file is closed with it, unless it belongs to another."""
        self._file, self._is_owner, self._state = file, is_owner, FileState.of(file)
        # Where documents end, as far as that was asked for.
        self._ends, self._lock = array("Q"), threading.Lock()

    @classmethod
    def of(cls, source: Source) -> Original:
        """Those of a dump. What is packed, or can be read only once, is written to a file without a name."""
        return cls(source.file, is_owner=False) if source.is_plain else cls.of_pieces(source.pieces())

    @classmethod
    def of_pieces(cls, pieces: Iterable[bytes]) -> Original:
        with kept(pieces) as (file, passing):
            for _ in passing:
                pass
        return cls(file)

    @property
    def dump(self) -> Dump:
        self._file.seek(0)
        return Dump(file=self._file)

    def documents(self, numbers: Sequence[int], most: int | None = None) -> list[bytes] | None:
        """The documents of these numbers, as they are; None if they have more bytes than this."""
        last = max(numbers, default=-1)
        with self._lock:
            ends = self._ends
            start = ends[-1] if ends else 0
            more = framing.ends_in(framing.read_on(self._file, start, self._state.size))
            ends.extend(start + end for end in islice(more, max(0, last + 1 - len(ends))))
            if last >= len(ends):
                raise DumpError("the file was written to since it was opened")
        places = [(self._ends[number - 1] if number else 0, self._ends[number]) for number in numbers]
        if most is not None and sum(end - start for start, end in places) > most:
            return None
        found = [framing.read_at(self._file, start, end - start, end - start) for start, end in places]
        self._state.refuse_other(self._file)
        return found

    def close(self) -> None:
        if self._is_owner:
            self._file.close()


@contextmanager
def kept(pieces: Iterable[bytes]) -> Iterator[tuple[BinaryIO, Iterator[bytes]]]:
    """A file without a name, and the pieces, which are written to it as they pass. It is closed where something goes wrong meanwhile."""
    file = temporary_file()
    try:
        yield file, _written(pieces, file)
    except BaseException:
        file.close()
        raise


def _written(pieces: Iterable[bytes], file: BinaryIO) -> Iterator[bytes]:
    for piece in pieces:
        rest = memoryview(piece)
        with _writing():
            while rest:
                # A disk that is full takes a part of it.
                rest = rest[file.write(rest) :]
        yield piece


def temporary_file() -> BinaryIO:
    """A file without a name. Where the system makes none it has a name at first, so that signals wait until it is gone."""
    waiting = signal.pthread_sigmask(signal.SIG_BLOCK, (signal.SIGINT, signal.SIGTERM, signal.SIGHUP))
    try:
        with _writing():
            return tempfile.TemporaryFile(buffering=0)  # type: ignore[return-value]
    finally:
        signal.pthread_sigmask(signal.SIG_SETMASK, waiting)


def in_temporary() -> str:
    """Where files without a name are, and what says so."""
    try:
        return f" in {tempfile.gettempdir()}: TMPDIR names another directory"
    except OSError:
        return ": no directory takes temporary files: TMPDIR names one"


@contextmanager
def _writing() -> Iterator[None]:
    """Has a file without a name that cannot be written say where it would be."""
    try:
        yield
    except OSError as error:
        raise ProgramError(f"cannot write a copy of the dump{in_temporary()}") from error
