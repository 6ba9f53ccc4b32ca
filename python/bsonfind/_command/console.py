"""What the commands of this package print."""

from __future__ import annotations

import sys
import threading
import time
from contextlib import contextmanager

from .._errors import ArgumentError

# As `typing.TYPE_CHECKING`, without `typing`, which takes long to import.
TYPE_CHECKING = False
if TYPE_CHECKING:
    from typing import Callable, Iterable, Iterator, Sequence

    from .._dumps.sources import Source

# What is before a message.
NAME = "bsonkit"
_UNITS = ((10**12, "TB"), (10**9, "GB"), (10**6, "MB"), (10**3, "kB"))
# Characters that a terminal obeys, or that end a line, as they are printed.
_CONTROL = {it: f"\\x{it:02x}" for it in (*range(0x20), *range(0x7F, 0xA0))}
# The seconds between two lines of progress, and those after which one is printed of what mostly takes less.
_TICK, PATIENCE = 0.5, 1.0


class CannotWrite(Exception):
    """Standard output takes no more."""


def visible(text: str) -> str:
    """A line in which no character of the name of a file is a command for the terminal, or the beginning of another line."""
    return text.translate(_CONTROL)


def need_output() -> None:
    """Refuses a standard output that is closed."""
    if sys.stdout is None:
        raise CannotWrite("cannot write: standard output is closed")


def print_text(text: str, end: str = "\n") -> None:
    need_output()
    with _writing():
        print(text, end=end, flush=True)


class Console:
    """Lines of standard output, and on a terminal a line of progress below them. Threads may share it."""

    def __init__(self) -> None:
        self._lock = threading.Lock()
        self.on_terminal = sys.stderr is not None and sys.stderr.isatty()

    def line(self, text: str) -> None:
        with self._lock:
            self._clear()
            print_text(visible(text))

    def documents(self, lines: list[bytes]) -> None:
        with self._lock:
            self._clear()
            with _writing():
                sys.stdout.flush()
                sys.stdout.buffer.writelines(lines)
                sys.stdout.buffer.flush()

    def problem(self, text: str) -> None:
        """Prints what is wrong on standard error."""
        self.note(f"{NAME}: {text}")

    def note(self, text: str) -> None:
        """Prints a line on standard error."""
        with self._lock:
            self._clear()
            if sys.stderr is not None:
                print(visible(text), file=sys.stderr, flush=True)

    def report_beside(self, *outputs: str) -> Callable[[str], None]:
        """What prints a report beside files: on standard error, where one of them is standard output."""
        from .._dumps.outputs import goes_to

        if not any(goes_to(it, 1) for it in outputs):
            return self.line
        for name in outputs:
            if goes_to(name, 2):
                raise ArgumentError(f"{name} is standard output and standard error: the report would be among the documents")
        return self.note

    def progress(self, text: str) -> None:
        """Prints how far it is, in place of what was printed before; nothing where standard error is no terminal."""
        with self._lock:
            self._clear()
            if self.on_terminal:
                print(text, end="", file=sys.stderr, flush=True)

    def _clear(self) -> None:
        if self.on_terminal:
            print("\r\x1b[K", end="", file=sys.stderr, flush=True)


@contextmanager
def _writing() -> Iterator[None]:
    try:
        yield
    except OSError as error:
        raise CannotWrite(f"cannot write: {error.strerror}") from error


class Table:
    """Rows of columns. On a terminal the names of the columns come before the first row."""

    def __init__(self, console: Console, columns: Sequence[str]) -> None:
        self._console = console
        self._header = [columns] if sys.stdout.isatty() else []

    def print(self, rows: Iterable[Sequence[str]]) -> None:
        """Prints rows; a tab or the end of a line in a cell is printed as its number."""
        lines = [row_of(cells) for cells in rows]
        if lines:
            lines[:0] = [row_of(cells) for cells in self._header]
            self._header = []
            self._console.documents(lines)


def table(rows: Sequence[tuple[str, int]]) -> list[str]:
    """The lines of names, each with its count."""
    wide = max(len(name) for name, _ in rows)
    return [f"{name:{wide}} {count:12}" for name, count in rows]


def row_of(cells: Sequence[str]) -> bytes:
    """A line of cells. Names of files are as they are on the disk; what is no UTF-8 and no name of a file is escaped."""
    text = "\t".join(map(visible, cells)) + "\n"
    try:
        return text.encode(errors="surrogateescape")
    except UnicodeEncodeError:
        return text.encode(errors="backslashreplace")


class Progress:
    """How many files and bytes were read, and the time that is left: a line of the console, where it is a terminal."""

    def __init__(self, console: Console | None, files: int = 1, size: int | None = None, after: float = 0.0) -> None:
        """Without a size it is that of the sources that are read. The line is printed after some seconds."""
        self._console = console if console and console.on_terminal else None
        self._files, self._size = files, size
        self._files_read = self._bytes_read = 0
        self._open: set[Source] = set()
        self._lock, self._end = threading.Lock(), threading.Event()
        self._begin, self._after = time.monotonic(), after
        self._ticker = threading.Thread(target=self._tick, daemon=True)

    @contextmanager
    def over(self, source: Source) -> Iterator[None]:
        """Counts what is read of a source meanwhile."""
        with self._lock:
            self._open.add(source)
        try:
            yield
        finally:
            with self._lock:
                self._open.discard(source)
                self._bytes_read += source.size or 0

    def add_file(self) -> None:
        """Counts a file that was read."""
        with self._lock:
            self._files_read += 1
        self._show()

    def __enter__(self) -> Progress:
        if self._console:
            self._ticker.start()
        return self

    def __exit__(self, *_: object) -> None:
        self._end.set()
        if self._console:
            self._ticker.join()
            self._console.progress("")

    def _tick(self) -> None:
        while not self._end.wait(_TICK):
            self._show()

    def _show(self) -> None:
        if self._console and time.monotonic() - self._begin >= self._after:
            with self._lock:
                done = self._bytes_read + sum(source.position() for source in self._open if source.size is not None)
                files = self._files_read
                size = sum(source.size or 0 for source in self._open) if self._size is None else self._size
            told = [f"{files} of {self._files} files"] if self._files > 1 else []
            self._console.progress(", ".join([*told, *progress_of(done, size, time.monotonic() - self._begin)]))


def progress_of(done: int, size: int, seconds: float) -> list[str]:
    """How many bytes of all were read, and how long the others take if they take as long."""
    unit, name = next((it for it in _UNITS if size >= it[0]), (1, "bytes"))
    told = [f"{done / unit:.1f} of {size / unit:.1f} {name}" if unit > 1 else f"{done} of {size} bytes"] if size else []
    if done and seconds >= 1:
        minutes, left = divmod(round(seconds * max(size - done, 0) / done), 60)
        told.append(f"{minutes}:{left:02} left" if minutes < 60 else f"{minutes // 60}:{minutes % 60:02}:{left:02} left")
    return told
