"""The commands `check` and `dump` over any dumps: what runs of the program print is one output, as of one run over all. And `pack`."""

from __future__ import annotations

import subprocess
import sys
from typing import Sequence

from .._dumps.runs import Array, Checking, finish_dump
from .._dumps.sources import Source
from .._errors import DumpError, why
from .._run.processes import Dump, Run, wide_program
from .console import Console


class Dumping:
    """The documents of dumps as they are printed: a header of CSV comes once, and an array is one, which is closed if nothing failed."""

    def __init__(self, program: str, options: Sequence[str] = ()) -> None:
        """The options are those of the program; fields that it refuses are refused before a dump is opened."""
        self._wide, self._options = wide_program(program), list(options)
        self._array = Array("--pretty" in options) if "--jsonArray" in options else None
        self._is_begun = False
        if any(it.startswith("--fields") for it in options):
            with self._run(Dump(), subprocess.DEVNULL) as run:
                finish_dump(run)

    def _run(self, dump: Dump, stdout: int) -> Run:
        return Run.over(dump, self._wide, "dump", self._options, stdout=stdout)

    def print_file(self, name: str, console: Console, front: str = "") -> bool:
        """Prints the documents of a dump, and what is said of it after a text; gives whether no document is refused."""
        documents, is_sound = 0, True
        with Source(name, is_named=not front) as source:
            try:
                for part in source.inputs():
                    documents = part.first
                    try:
                        documents += self._print(part.dump, console)
                    except DumpError as error:
                        documents += error.fault.document if error.fault else 0
                        raise error.moved(part.first, part.offset) from None
                if not self._is_begun:
                    self._print(Dump(), console)  # What is before the documents comes also without any.
            except DumpError as error:
                if not error.is_finding:
                    raise
                for it in dict.fromkeys([error, *source.errors]):
                    console.problem(f"{front}{why(it)}")
                is_sound = False
        console.note(f"{front}{documents} objects found")
        return is_sound

    def _print(self, dump: Dump, console: Console) -> int:
        """Has a run print the documents of a dump, and gives their number."""
        sys.stdout.flush()
        self._is_begun = True
        with self._run(dump, subprocess.PIPE if self._array else sys.stdout.fileno()) as run:
            if "--type=csv" in self._options and "--noHeaderLine" not in self._options:
                self._options.append("--noHeaderLine")
            for piece in self._array.pieces(run.stdout) if self._array else ():
                console.documents([piece])
            return finish_dump(run)

    def end(self, console: Console) -> None:
        """Prints what comes after the last document, if nothing failed."""
        if self._array:
            console.documents([self._array.closing])


def check_file(name: str, program: str, console: Console, front: str = "") -> bool:
    """Prints the damage of a dump, as `check` does, each line after a text; gives whether there is none."""
    faulty = 0
    checking, is_sound = Checking(program), True
    with Source(name, is_named=not front) as source:
        try:
            for fault in checking.faults(source):
                faulty += 1
                console.line(f"{front}{fault}")
        except DumpError as error:
            if not error.is_finding:
                raise
            console.problem(f"{front}{error}")
            is_sound = False
    console.note(f"{front}{checking.documents} documents, {faulty} faulty")
    return is_sound and not faulty


def pack_input(wide: str) -> bool:
    """Has a run pack the text of standard input to standard output, and passes on what it says; gives whether all is packed."""
    with Run([wide, "pack", "-"], stdin=0, stdout=1) as run:
        status = run.wait()
        if status < 0:
            raise run.error()
        if sys.stderr:
            print(run.messages(), end="", file=sys.stderr, flush=True)
    return not status
