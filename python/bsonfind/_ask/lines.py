"""What answers a request over a dump: lines, documents as they are, or their number. A run of `bsonwide find` prints it."""

from __future__ import annotations

import re
from contextlib import ExitStack, contextmanager
from dataclasses import dataclass, field
from io import BufferedReader
from typing import Any, Callable, Iterator, NamedTuple, Sequence

from .._arguments import File, name_of_file
from .._dumps.framing import documents_taken
from .._dumps.runs import Batches, lines_of
from .._dumps.sources import Source
from .._errors import ArgumentError, ProgramError
from .._run.processes import Dump, Group, Run, file_in_memory, wide_program
from .requests import LONGEST_FILTER, Request

_COUNTED = re.compile(r"(\d+) documents, (end|more)(?:, token (\S+))?\n")
_PIECE = 1 << 16


class Counted(NamedTuple):
    """How many documents were found, whether none follows, and the token that leads on."""

    documents: int
    end: bool
    token: str | None


def counted(run: Run, printed: int | None = None) -> Counted:
    """Waits for the end of a run of `find`, and gives what its line says; another number than was printed is an error, if that is known."""
    documents, end, token = run.finish(_COUNTED).groups()
    if printed not in (None, int(documents)):
        raise ProgramError(f"find printed {printed} documents in place of {documents}")
    return Counted(int(documents), end == "end", token)


def finding(dump: Dump, request: Request, program: str, options: Sequence[str] = (), **how: Any) -> Run:
    """A run of `find`. A filter that is too long for an argument is in a file without a name."""
    wide = wide_program(program, how.get("group"))
    if not request.is_long:
        return Run.over(dump, wide, "find", [*request.words(), *options], **how)
    text = request.filter.encode()
    if len(text) > LONGEST_FILTER:
        raise ArgumentError(f"a filter has at most {LONGEST_FILTER} bytes, not {len(text)}")
    with file_in_memory(wide) as file:
        file.write(text)
        file.flush()
        words = request.words(f"/dev/fd/{file.fileno()}")
        return Run.over(dump, wide, "find", [*words, *options], pass_fds=[file.fileno()], **how)


@dataclass
class Lines:
    """The lines that answer a request over any dump, or with `is_bson` the documents as they are. A file is opened once it is read."""

    _dump: File | Dump
    _request: Request
    _program: str
    is_bson: bool = False
    size: int | None = None
    index: str | None = None
    after: str | None = None
    group: Group = field(default_factory=Group)
    timeout: float | None = None
    # Whether nothing follows the lines, and the token that leads on; known once all are read.
    end: bool = field(default=False, init=False)
    token: str | None = field(default=None, init=False)

    def batches(self) -> Batches:
        """The lines as they come, without their newlines, or documents; at first none, once the program runs. Closing this ends it."""
        number = 0
        with self._running(*(["--bson"] if self.is_bson else [])) as (run, check):
            yield []
            for some in (documents_of if self.is_bson else lines_of)(run.stdout):
                number += len(some)
                check()
                yield some
            found = counted(run, number)
            check()
        self.end, self.token = found.end, found.token

    def count(self) -> int:
        """How many lines there are."""
        with self._running("--count") as (run, check):
            told = run.stdout.read(_PIECE)
            documents = counted(run).documents
            check()
        if told != f"{documents}\n".encode():
            raise ProgramError(f"find printed {told[:60]!r} in place of {documents}")
        return documents

    @contextmanager
    def _running(self, *more: str) -> Iterator[tuple[Run, Callable[[], None]]]:
        """A run of `find`, and what refuses a dump that is no longer as it was when it was opened."""
        options = (("batch", self.size), ("index", self.index), ("after", self.after))
        words = [*(f"--{name}={value}" for name, value in options if value is not None), *more]
        with ExitStack() as files:
            files.enter_context(self.group.within(self.timeout))
            dump: Dump
            check: Callable[[], None] = lambda: None
            if isinstance(self._dump, Dump):
                dump = self._dump
            else:
                source = files.enter_context(Source(name_of_file(self._dump), is_named=True))
                dump, check = source.dump(), source.check
            yield files.enter_context(finding(dump, self._request, self._program, words, group=self.group)), check


def documents_of(pipe: BufferedReader) -> Batches:
    """The documents that a program prints as they are in a dump, as they come. Bytes after the last whole one are none."""
    found: list[bytes] = []
    for _ in documents_taken(iter(lambda: pipe.read1(_PIECE), b""), found.append):
        if found:
            yield found[:]
            found.clear()


def try_request(request: Request, program: str, group: Group | None = None) -> None:
    """Asks no documents, so that a refused request is raised."""
    Lines(Dump(), request, program, group=group or Group()).count()
