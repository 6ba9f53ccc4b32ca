"""The files that options name: the one that a query is in, and the one that documents go to in place of standard output."""

from __future__ import annotations

import os
import sys
from contextlib import suppress
from typing import BinaryIO, Callable, Sequence

from .._ask.requests import LONGEST_FILTER
from .._dumps.files import STDIN, file_of
from .._dumps.outputs import Output, is_same, naming
from .._errors import ArgumentError, BsonfindError
from .arguments import GOOD
from .console import CannotWrite, Console


def query_in(name: str) -> str:
    """The text of a query in a file, or on standard input."""
    with naming("standard input" if name == STDIN else name):
        file: BinaryIO
        with open(0 if name == STDIN else name, "rb", closefd=name != STDIN) as file:
            data = file.read(LONGEST_FILTER + 1)
    if len(data) > LONGEST_FILTER:
        raise BsonfindError(f"{name}: a query has at most {LONGEST_FILTER} bytes")
    try:
        return data.decode()
    except UnicodeDecodeError as error:
        raise BsonfindError(f"{name}: not UTF-8 at byte {error.start}") from None


def run_into(name: str, dumps: Sequence[str], command: Callable[[], int]) -> int:
    """Runs a command whose standard output is a new file; gives it its name if the status is 0, and else deletes it."""
    for dump in dumps:
        if os.path.exists(name) and (os.path.samefile(name, 0) if file_of(dump) == STDIN else is_same(name, file_of(dump))):
            raise ArgumentError(f"{name} is the dump")
    with Output(name) as output:
        before = os.dup(1)
        try:
            os.dup2(output.fileno(), 1)
            status = command()
            _flush()
        finally:
            with suppress(OSError):  # What was wrong before is reported.
                sys.stdout.flush()
            os.dup2(before, 1)
            os.close(before)
        if status == GOOD:
            output.complete()
            output.put_in_place()
        else:
            Console().problem(f"{name} is not written, since not all went well")
    return status


def _flush() -> None:
    try:
        sys.stdout.flush()
    except OSError as error:
        raise CannotWrite(f"cannot write: {error.strerror}") from error
