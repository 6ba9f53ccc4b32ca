"""What a process of Python does for another one: work on documents that were checked before. Nothing is printed here."""

from __future__ import annotations

import pickle
import signal
import sys

from .._errors import BsonfindError


def serve() -> None:
    """Does what comes on standard input first to all that comes after it, and writes to standard output what each came to."""
    signal.signal(signal.SIGINT, signal.SIG_IGN)
    work = pickle.load(sys.stdin.buffer)
    while True:
        try:
            given = pickle.load(sys.stdin.buffer)
        except EOFError:
            return
        try:
            result = work(given)
        except BsonfindError as error:
            result = error  # It is raised where the result is read.
        pickle.dump(result, sys.stdout.buffer, pickle.HIGHEST_PROTOCOL)
        sys.stdout.buffer.flush()
