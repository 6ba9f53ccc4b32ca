"""A command as the shell starts it: its standard streams, its signals, and its status."""

from __future__ import annotations

import io
import os
import signal
import sys
import threading
from contextlib import suppress

from .._errors import BsonfindError, CommandError
from .arguments import FAILED, FAULTY, Refused, parser
from .commands import AS_THE_PROGRAM, run
from .console import NAME, CannotWrite, need_output

_INTERRUPTED = 130
# The signals that end a command, its runs and its files.
_ENDING = (signal.SIGTERM, signal.SIGHUP)


def run_command(words: list[str], name: str) -> int:
    """Runs a command, and gives the status. What failed is 1 as of the program, and 2 of a command that has findings."""
    failed = FAILED
    try:
        _prepare_streams()
        try:
            known = parser(name, words).parse_args(words)
            failed = FAULTY if known.command in AS_THE_PROGRAM else FAILED
            need_output()
            status = run(known)
        except SystemExit as end:  # of the usage, or after --help
            status = end.code if isinstance(end.code, int) else FAILED
        _flush()
        return status
    except KeyboardInterrupt:
        return _INTERRUPTED
    except Refused as error:
        return _failed(str(error), FAILED)
    except CommandError as error:
        return _failed(error.line or str(error), failed)  # as the program reports it
    except (CannotWrite, BsonfindError) as error:
        return _failed(str(error), failed)
    except OSError as error:
        return _failed(f"{error.filename}: {error.strerror}" if error.filename else str(error.strerror or error), failed)
    except Exception as error:  # noqa: BLE001 - what was not foreseen is reported too
        return _failed(f"{type(error).__name__}: {error}", failed)


def _prepare_streams() -> None:
    """Opens what is closed of the standard streams, so that no dump is opened in its place, and has names printed as they are.

    A signal that ends a command also ends its runs, and leaves no file. One that is ignored, as by nohup, stays so.
    """
    if threading.current_thread() is threading.main_thread():
        for ending in _ENDING:
            if signal.getsignal(ending) is not signal.SIG_IGN:
                signal.signal(ending, lambda number, _: sys.exit(128 + number))
    for number in range(3):
        try:
            os.fstat(number)
        except OSError:
            # A link by itself: what reads it has an error, by its number and by its names, and not the end of an empty dump.
            os.open("/dev/stdin", os.O_PATH | os.O_NOFOLLOW) if number == 0 else os.open(os.devnull, os.O_RDWR)
    for stream in (sys.stdout, sys.stderr):
        if isinstance(stream, io.TextIOWrapper):
            stream.reconfigure(encoding="utf-8", errors="surrogateescape")


def _flush() -> None:
    """Writes what standard output and standard error have not written yet; what takes no more is an error."""
    for stream in (sys.stdout, sys.stderr):
        try:
            if stream is not None:
                stream.flush()
        except OSError as error:
            raise CannotWrite(f"cannot write: {error.strerror}") from error


def _failed(text: str, status: int) -> int:
    """Reports on standard error why nothing more is done, if it takes that, and gives the status."""
    with suppress(OSError):  # There is no one to report it to.
        if sys.stderr is not None:
            print(f"{NAME}: {text}", file=sys.stderr, flush=True)
    for stream in (sys.stdout, sys.stderr):
        if isinstance(stream, io.TextIOWrapper):
            try:
                stream.flush()
            except OSError:
                # What could not be written is not tried again at the end of Python.
                os.dup2(os.open(os.devnull, os.O_WRONLY), stream.fileno())
    return status
