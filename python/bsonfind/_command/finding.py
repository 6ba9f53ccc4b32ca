"""The command `find` over a dump that the program does not open itself: one that is packed, comes by a pipe, or is too large for a run."""

from __future__ import annotations

import argparse
import os
import subprocess
import sys
from typing import Iterator, Sequence

from .._ask.lines import counted, finding
from .._ask.requests import Request
from .._dumps.framing import LARGEST_INPUT
from .._dumps.originals import in_temporary, temporary_file
from .._dumps.parts import MOST
from .._dumps.sources import Source
from .._errors import DumpError, ProgramError
from .._run.messages import CANNOT_WRITE
from .._run.processes import Dump, Run
from .console import Console


class Finding:
    """What is requested of a dump on a command line, by a program. The form is its options that say what is printed, none for lines."""

    def __init__(self, words: argparse.Namespace, query: str | None, form: Sequence[str] = ()) -> None:
        self.name, self.program, self.form = words.file, words.program, form
        self.request = Request("{}" if query is None else query, words.sort, words.skip, words.limit)
        self.batch, self.index, self.after = words.batch, words.index, words.after

    def print(self, console: Console) -> bool:
        """Prints what is found; returns whether the dump has no fault."""
        try:
            if any(it.startswith("--fields") for it in self.form):
                self._try()
            with Source(self.name, is_named=True) as source:
                if not source.is_packed and (source.size or 0) > LARGEST_INPUT:
                    self._print_parts(source, console)
                else:
                    self._print_all(source)
        except DumpError as error:
            if not error.is_finding:
                raise
            console.problem(str(error))
            return False
        return True

    def _print_all(self, source: Source) -> None:
        page = [f"--{name}={value}" for name, value in (("batch", self.batch), ("after", self.after)) if value is not None]
        sys.stdout.flush()
        with self._run(source.dump(), self.request, *page, *self.form, stdout=sys.stdout.fileno()) as run:
            counted(run)
            source.check()
            if sys.stderr:
                print(run.messages(), end="", file=sys.stderr)

    def _print_parts(self, source: Source, console: Console) -> None:
        """Asks a file that is too large for one run by parts, and then what these gave, joined in a file without a name."""
        name = f"cannot read {self.name}: it has more than {LARGEST_INPUT} bytes"
        if self.batch is not None or self.after is not None:
            raise DumpError(f"{name}, and is asked by parts: leave --batch and --after out")
        self._try()
        if "--count" in self.form:
            # Only all matches together are skipped and limited.
            matching = sum(self._ask_parts(source, Request(self.request.filter), "--count", subprocess.DEVNULL))
            left = max(matching - self.request.skip, 0)
            documents = min(left, self.request.limit or left)
            console.documents([b"%d\n" % documents])
            console.note(f"{documents} documents, end")
            return
        with temporary_file() as found:
            for _ in self._ask_parts(source, self.request.of_part(), "--bson", found.fileno()):
                pass
            if os.fstat(found.fileno()).st_size > LARGEST_INPUT:
                raise DumpError(f"{name}, and so do the documents that are found: ask for fewer")
            found.seek(0)
            sys.stdout.flush()
            with self._run(Dump(file=found), self.request, *self.form, stdout=sys.stdout.fileno()) as run:
                # It has a token of what was joined, which leads nowhere in the file.
                console.note(f"{counted(run).documents} documents, end")

    def _ask_parts(self, source: Source, request: Request, option: str, stdout: int) -> Iterator[int]:
        """Asks one part after the other, and gives how many documents of each are found."""
        for part in source.inputs(MOST):
            with self._run(part.dump, request, option, stdout=stdout) as run:
                try:
                    yield counted(run).documents
                except DumpError as error:
                    raise error.moved(part.first, part.offset) from None
                except ProgramError as error:
                    if str(error) != CANNOT_WRITE:
                        raise
                    raise ProgramError(f"cannot write what is found{in_temporary()}") from error

    def _try(self) -> None:
        """Asks no documents, so that a refused request, or refused fields, are reported before the dump is read."""
        with self._run(Dump(), self.request, *self.form, stdout=subprocess.DEVNULL) as run:
            counted(run)

    def _run(self, dump: Dump, request: Request, *options: str, stdout: int = subprocess.PIPE) -> Run:
        index = [] if self.index is None else [f"--index={self.index}"]
        return finding(dump, request, self.program, [*index, *options], stdout=stdout)
