"""Runs of the program: bytes go in, bytes come out, and what it printed on standard error is read."""

from __future__ import annotations

import fcntl
import io
import os
import re
import select
import subprocess
import threading
import weakref
from contextlib import AbstractContextManager, ExitStack, contextmanager, suppress
from typing import IO, Any, BinaryIO, Iterable, Iterator, NamedTuple, Sequence

from .._errors import ArgumentError, BsonfindError, OtherProcessError, ProgramError, TimedOutError, why
from .messages import error_of
from .program import PATIENCE, answer, silent, wide_beside

# As many bytes as a pipe of Linux holds.
_BUFFER = 1 << 16
# How many seconds a source of bytes that stalls is waited for, once no one reads them.
_PATIENCE = 1.0
_VERSION = re.compile(r"bsonwide (\S+)\n")
# Lines of the loader, such as for LD_PRELOAD, and after the number of the process for LD_DEBUG: they are no messages of the program.
_LOADER = re.compile("^(?:ERROR: ld\\.so: .*| *[0-9]+:\t.*)\n", re.MULTILINE)
# The programs of which it is known that they have the version of the package.
_known: set[str] = set()
_lock = threading.Lock()


class Dump(NamedTuple):
    """What a run reads as a dump: pieces, an open file, or nothing."""

    pieces: Iterable[bytes] | None = None
    file: BinaryIO | None = None


class Unread(Exception):
    """No one reads any more what is read of a source, since the program that it is for has ended."""


class _Feeding(threading.local):
    """The pipe to the program for which this thread reads a source, None if it is for none."""

    pipe: IO[bytes] | None = None


_feeding = _Feeding()


def wait_for_bytes(file: int) -> None:
    """Waits until a file has bytes, or its end. Once the program has ended for which they are read that is an `Unread`."""
    waiting, pipe = select.poll(), _feeding.pipe
    waiting.register(file, select.POLLIN)
    if pipe:
        waiting.register(pipe, select.POLLERR)
    ready = waiting.poll(0)
    if pipe and not ready:
        with suppress(BrokenPipeError):  # It is found below.
            pipe.flush()  # The program may need no more than it gets before others come.
    if any(pipe and it == pipe.fileno() for it, _ in ready or waiting.poll()):
        raise Unread


class Group:
    """Runs that end together. A copy of it in another process, as a pool makes one, begins without runs."""

    def __init__(self) -> None:
        self._lock = threading.Lock()
        self._processes: set[subprocess.Popen[bytes]] = set()
        self.is_ended = False
        # Why it was ended, where that is an error. Each run has it then.
        self.error: BsonfindError | None = None

    def start(self, words: Sequence[str], **streams: Any) -> subprocess.Popen[bytes]:
        """Starts a program. What follows its name is UTF-8 in every locale."""
        with self._lock:
            if self.is_ended:
                raise self.error or ProgramError("not started: what it is for was ended")
            try:
                process = subprocess.Popen([words[0], *(it.encode() for it in words[1:])], **streams)
            except (OSError, TypeError, ValueError) as error:
                raise _start_error(words[0], error) from error
            self._processes.add(process)
            return process

    def leave(self, process: subprocess.Popen[bytes]) -> None:
        with self._lock:
            self._processes.discard(process)

    def end(self, error: BsonfindError | None = None) -> None:
        """Kills what runs, for the first error that is given; nothing is started any more. Any thread may call it."""
        with self._lock:
            self.is_ended = True
            self.error = self.error or error
            for process in self._processes:
                process.kill()

    @contextmanager
    def within(self, timeout: float | None) -> Iterator[None]:
        """Ends the group where what is done meanwhile takes longer than this many seconds."""
        if timeout is None:
            yield
            return
        timer = threading.Timer(timeout, self.end, [TimedOutError(f"no answer within {timeout:g} seconds")])
        timer.daemon = True
        timer.start()
        try:
            yield
        finally:
            timer.cancel()

    def __reduce__(self) -> tuple[type[Group], tuple[()]]:
        return Group, ()


def _start_error(program: object, error: OSError | TypeError | ValueError) -> BsonfindError:
    """Why a program cannot be started; a word that no program takes is an argument of the caller."""
    kind = ProgramError if isinstance(error, OSError) else ArgumentError
    return kind(f"cannot start {program}: {why(error)}")


@contextmanager
def _opening(program: object) -> Iterator[None]:
    """Has an error of what is opened for a program say that it cannot be started."""
    try:
        yield
    except OSError as error:
        if isinstance(error, BsonfindError):
            raise
        raise _start_error(program, error) from error


def file_in_memory(program: object) -> IO[bytes]:
    """A file in memory for a program, so that nothing is too long for a pipe, and no disk is too full for it."""
    with _opening(program):
        return open(os.memfd_create("bsonkit"), "w+b")


class Run(AbstractContextManager["Run"]):
    """A run of the program, which is killed where it has not ended when the run is left."""

    def __init__(
        self,
        words: Sequence[str],
        pieces: Iterable[bytes] | None = None,
        stdin: int | IO[bytes] = subprocess.DEVNULL,
        stdout: int = subprocess.PIPE,
        group: Group | None = None,
        **how: Any,
    ) -> None:
        self._group, self._owner = group or Group(), os.getpid()
        # What writes the pieces, and what was wrong with them.
        self._feeder: threading.Thread | None = None
        self._wrong: Exception | None = None
        self._stderr = file_in_memory(words[0])
        try:
            stdin = stdin if pieces is None else subprocess.PIPE
            self.process = self._group.start(words, stdin=stdin, stdout=stdout, stderr=self._stderr, **how)
        except BaseException:
            self._stderr.close()
            raise
        # The pipes to its standard input and from its standard output, where these are pipes.
        self.stdin: IO[bytes] = self.process.stdin  # type: ignore[assignment]
        self.stdout: io.BufferedReader = self.process.stdout  # type: ignore[assignment]
        # Where nothing refers to the run any more it is closed. Its pipes would stay, and the program wait for their end.
        self._forgotten = weakref.finalize(self, _free, self.process, self._stderr, self._owner)
        if pieces is not None:
            self._feed(pieces, self.stdin)

    @classmethod
    def over(cls, dump: Dump, program: str, command: str, options: Sequence[str] = (), **how: Any) -> Run:
        return cls([program, command, "-", *options], dump.pieces, dump.file or subprocess.DEVNULL, **how)

    @classmethod
    def serving(cls, dump: Dump, program: str, options: Sequence[str], group: Group) -> Run:
        """A run of `serve`, whose commands come by standard input, and the dump by another descriptor. Ctrl-C does not reach it."""
        with _opening(program), ExitStack() as ours:
            if dump.file is not None:
                read = dump.file.fileno()
            else:
                read, write = os.pipe()
                ours.callback(os.close, read)
                pipe = ours.enter_context(open(write, "wb"))
            # What is passed has a number above those of the standard streams.
            passed = fcntl.fcntl(read, fcntl.F_DUPFD_CLOEXEC, 3)
            ours.callback(os.close, passed)
            words = [program, "serve", f"/dev/fd/{passed}", *options]
            run = cls(words, stdin=subprocess.PIPE, group=group, pass_fds=[passed], bufsize=_BUFFER, start_new_session=True)
            if dump.pieces is not None:
                run._feed(dump.pieces, open(os.dup(pipe.fileno()), "wb"))
        return run

    def _feed(self, pieces: Iterable[bytes], pipe: IO[bytes]) -> None:
        """Begins to write pieces to a pipe."""
        try:
            feeder = threading.Thread(target=self._write, args=(pieces, pipe), daemon=True)
            feeder.start()
        except BaseException:
            self.close()
            raise
        self._feeder = feeder

    def _write(self, pieces: Iterable[bytes], pipe: IO[bytes]) -> None:
        """Writes all pieces, or as many as are read, and closes the pipe. After an error the program is killed before it sees an end."""
        _feeding.pipe = pipe
        try:
            for piece in pieces:
                pipe.write(piece)
        except (BrokenPipeError, Unread):
            pass  # The program reads no more, and its end says why.
        except Exception as error:  # noqa: BLE001 - it is raised where the run is waited for
            self._wrong = error
            self.process.kill()
        finally:
            close(pipe)

    def wait(self) -> int:
        """The status, once the run has ended, 0 if another part took it. Raises why its group was ended, or what the pieces raised."""
        status = self.process.wait()
        if self._group.error:
            raise self._group.error
        if self._feeder:
            self._feeder.join()
        if self._wrong:
            raise self._wrong
        return status

    def messages(self) -> str:
        """What the program says on standard error, once the run has ended."""
        self._stderr.seek(0)
        return _LOADER.sub("", self._stderr.read().decode(errors="replace"))

    def finish(self, line: re.Pattern[str]) -> re.Match[str]:
        """Waits for the end, and gives the line with the counts; raises the error of a run that did not end well.

        It ended well only if this line is all that it says. A status of 0 proves nothing, and the line follows an error too.
        """
        status, found = self.wait(), line.fullmatch(self.messages())
        if status or not found:
            raise self.error()
        return found

    def error(self) -> BsonfindError:
        """The error of a run that did not end well."""
        try:
            return error_of(self.wait(), self.messages())
        except BsonfindError as error:
            return error

    def close(self) -> None:
        """Kills the program where it runs, and frees all that was opened. In another process it does nothing."""
        if os.getpid() != self._owner:
            return
        self.process.kill()
        self.process.wait()
        self._group.leave(self.process)
        if self._feeder:
            self._feeder.join(_PATIENCE)
        self._forgotten()

    def __exit__(self, *_: object) -> None:
        self.close()


def _free(process: subprocess.Popen[bytes], stderr: IO[bytes], owner: int) -> None:
    """Kills a program where it runs, and closes what was opened for it. In another process than its owner it does nothing."""
    if os.getpid() == owner:
        process.kill()
        process.wait()
        for stream in filter(None, (process.stdin, process.stdout, stderr)):
            close(stream)


def wide_program(program: object, group: Group | None = None) -> str:
    """The file of `bsonwide` for a program that is named; one that cannot be started or is of another version is refused, once."""
    wide = wide_beside(program)
    with _lock:
        if wide not in _known:
            _refuse_other_version(wide, group)
            _known.add(wide)
    return wide


def _refuse_other_version(wide: str, group: Group | None) -> None:
    from .. import __version__

    late = ProgramError(f"{wide} did not print its version within {PATIENCE} seconds")
    if wide in silent:
        raise late
    with Run([wide, "--version"], group=group) as run:
        said = answer(run.stdout.fileno(), _BUFFER)
        if said is None:
            raise late
        if run.wait() or run.messages():
            raise run.error()
    told = said.decode(errors="replace")
    found = _VERSION.fullmatch(told)
    if not found:
        raise ProgramError(f"{wide} is not bsonwide: it printed {told[:60]!r}")
    if found[1] != __version__:
        raise ProgramError(f"{wide} is of version {found[1]}, and the package of Python of version {__version__}: install one version of both")


def check_owner(owner: int) -> None:
    """Refuses a call in another process than the one with this number, such as after a fork: both would read from one pipe."""
    if os.getpid() != owner:
        raise OtherProcessError(f"opened in process {owner}, used in process {os.getpid()}: open it again in each process")


def close(pipe: IO[bytes]) -> None:
    """Closes a pipe, of which the other end may be gone."""
    with suppress(BrokenPipeError):  # What was not written is not read.
        pipe.close()


def processors() -> int:
    return len(os.sched_getaffinity(0))
