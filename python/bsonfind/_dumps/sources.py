"""The bytes of dumps: of a file of any size, of one that mongodump --gzip wrote, of a pipe or a device."""

from __future__ import annotations

import errno
import os
import select
import stat
from contextlib import AbstractContextManager, contextmanager, nullcontext, suppress
from typing import Any, BinaryIO, ContextManager, Iterable, Iterator, NamedTuple, Protocol

from .._arguments import File, name_of
from .._errors import DumpError
from .._run.processes import Dump, wait_for_bytes
from . import framing, gzip
from .archive import Listed, documents_of, is_archive
from .files import HEAD, INSIDE, STDIN, FileState, member_of
from .kinds import FEW, is_known, other_kind

_PIECE = 1 << 18
# How many milliseconds more bytes of a pipe are waited for, where the first ones do not say what it is.
_PATIENCE = 1000
# Names of open files, which last as long as these.
_OPEN_FILES = ("/dev/", "/proc/")
# What the system says where no more files can be open.
_NO_DESCRIPTOR = (errno.EMFILE, errno.ENFILE)


class Input(NamedTuple):
    """What one run reads of a dump, and the place of its first document."""

    offset: int
    first: int
    dump: Dump


class Source(AbstractContextManager["Source"]):
    """A dump that is open by one descriptor. Its size is that of the file as it is on the disk, None for a pipe or a device.

    The name `-` is that of standard input, which is read from where it is. A file can be read as often as is needed, and is
    refused once it is no longer as it was when it was opened. A pipe with a name is opened once it is read, since that waits.

    What begins as gzip is unpacked, whatever its name is; an archive, and a file of another program such as tar, is refused by what it is.

    The errors do not name it, unless that is asked for: whoever reads many adds the name.
    """

    def __init__(self, path: File, *, is_named: bool = False) -> None:
        self.name, self._is_named = name_of(path), is_named
        self._member = member_of(self.name)
        self._path = self._member.archive if self._member else self.name
        # The whole name of a file, which does not change with the folder that this process is in.
        self._whole_name: str | None = None
        self._file: BinaryIO | None = None
        # The first bytes of a pipe or a device, once they are read and until they are passed on.
        self._kept: bytes | None = None
        self.size: int | None = None
        # What says whether a file is still the same.
        self.state: FileState | None = None
        # The rights of the file, None for a pipe or a device.
        self.mode: int | None = None
        self._start = self._read = 0
        # Of a collection of an archive what the list of this says, once it is read.
        self.listed: list[Listed] = []
        # What went wrong with the file where the last inputs end.
        self.errors: list[Exception] = []
        try:
            self._is_pipe = self._path != STDIN and stat.S_ISFIFO(os.stat(self._path).st_mode)
        except OSError:
            self._is_pipe = False  # Whoever opens it says what is wrong with it.
        if not self._is_pipe:
            status = os.fstat(self.file.fileno())
            if stat.S_ISREG(status.st_mode):
                self._start = os.lseek(self.file.fileno(), 0, os.SEEK_CUR)
                self.size = max(0, status.st_size - self._start)
                self.state, self.mode = FileState.of(self.file), stat.S_IMODE(status.st_mode)
                if self._path != STDIN and not self._path.startswith(_OPEN_FILES):
                    self._whole_name = os.path.abspath(self._path)

    @property
    def file(self) -> BinaryIO:
        """The open file. Where it is named an error is as the program says it."""
        if self._file is None:
            try:
                self._file = _standard_input() if self._path == STDIN else open(self._path, "rb", buffering=0, opener=self._open)
            except OSError as error:
                text = str(error.strerror)
                if self._is_named and self._path == STDIN:
                    text = f"cannot read standard input: {text}"
                elif self._is_named:
                    is_directory = isinstance(error, IsADirectoryError)
                    why = f": {text}" if error.errno in _NO_DESCRIPTOR else ""
                    text = f"cannot read {self.name}: it is a directory" if is_directory else f"cannot open {self.name}{why}"
                raise DumpError(text) from error
        return self._file

    def _open(self, path: str, flags: int) -> int:
        """Opens the file. A pipe is not waited for here but where it is read, so that it is left once no one needs its bytes."""
        return os.open(path, flags | os.O_NONBLOCK if self._is_pipe else flags)

    @property
    def head(self) -> bytes:
        """The first bytes, as many as say what it is. Those of a pipe are waited for, and kept for whoever reads it."""
        if self.size is not None:
            return os.pread(self.file.fileno(), HEAD, self._start)
        if self._kept is None:
            self._kept = b""
            with self._naming():
                # A length that is wrong is reported, though what follows may be late.
                while not is_known(self._kept) and (len(self._kept) < FEW or _has_more(self.file)):
                    piece = read_some(self.file, HEAD - len(self._kept))
                    self._kept += piece
                    if not piece:
                        break
        return self._kept

    @property
    def is_packed(self) -> bool:
        """Whether it is unpacked: a collection of an archive, or what gzip made, by its name or by its first bytes."""
        return self._member is not None or self.name.endswith(".gz") or gzip.is_gzip(self.head)

    @property
    def is_plain(self) -> bool:
        """Whether it is a file that is read as it is, from its beginning."""
        return self.size is not None and not self._start and not self.is_packed

    @property
    def is_archive(self) -> bool:
        """Whether it is an archive, and not one of its collections, by its first bytes."""
        return self._member is None and is_archive(self.head)

    def refuse_others(self) -> None:
        """Refuses what is no dump by its first bytes: an archive, or a file of another program."""
        if self.is_archive:
            raise DumpError(f"an archive: name one of its collections, {self.name}{INSIDE}db.collection, or unpack it")
        if self._member is None:
            _refuse_other(self.head)

    def dump(self) -> Dump:
        if not self.is_plain:
            return Dump(self.pieces())
        self.refuse_others()
        self.file.seek(0)
        return Dump(file=self.file)

    def pieces(self) -> Iterator[bytes]:
        """All bytes of the dump, unpacked where it is packed. One that is damaged is an `UnpackError` after what comes before."""
        if self.size is not None:
            self.refuse_others()
        return self._pieces()

    def _pieces(self) -> Iterator[bytes]:
        """The same; a pipe is waited for once they are read."""
        self.refuse_others()
        if not self.is_packed:
            yield from self.raw()
            return
        pieces = self.unpacked(self.raw())
        for piece in pieces:
            _refuse_other(piece)  # such as a tar that gzip made smaller
            yield piece
            break
        yield from pieces

    def unpacked(self, raw: Iterator[bytes]) -> Iterator[bytes]:
        """The bytes of a dump that is packed, out of those of its file."""
        return documents_of(raw, self._member.namespace, self.listed) if self._member else gzip.unpacked(raw)

    def inputs(self, most: int | None = None) -> Iterator[Input]:
        """What runs read one after the other, at most this many bytes each, or as many as a run can; an error of the file comes last."""
        limit = framing.LARGEST_INPUT if most is None else most
        if self.size is None or self.size > limit or self.is_packed:
            for offset, first, pieces in framing.inputs(up_to_error(self.pieces(), self.errors), limit):
                yield Input(offset, first, Dump(pieces))
            if self.errors:
                raise self.errors[0]
        else:
            self.refuse_others()
            self.file.seek(self._start)
            yield Input(0, 0, Dump(file=self.file))
            self.check()

    def position(self) -> int:
        """How many bytes of the file were read by now, by this process or by a run."""
        is_read = self._file and self.size is not None and not self._file.closed
        return self._read or (self.file.tell() - self._start if is_read else 0)

    def raw(self) -> Iterator[bytes]:
        """All bytes of the file, as they are on the disk."""
        self._read = 0
        if self.size is not None:
            os.lseek(self.file.fileno(), self._start, os.SEEK_SET)
        if self._kept:
            kept, self._kept = self._kept, b""
            yield kept
        with self._naming():
            while piece := read_some(self.file, _PIECE):
                self._read += len(piece)
                yield piece
        if self.size is not None and self._read < self.size:
            raise DumpError(f"no bytes at byte {self._start + self._read}: the file became shorter")
        self.check()

    @contextmanager
    def _naming(self) -> Iterator[None]:
        """Has an error of the system be one of the dump, where that is asked for."""
        try:
            yield
        except OSError as error:
            if not self._is_named:
                raise
            raise DumpError(f"cannot read {self.name}: {error.strerror}") from error

    def check(self) -> None:
        """Refuses a file that is no longer as it was when it was opened, as long as it is open."""
        if self.state and not self.file.closed:
            self.state.refuse_other(self.file)

    def check_name(self) -> None:
        """The same, and refuses a file whose name is that of another one by now, or of none, as where its directory was replaced."""
        self.check()
        if self.state and self._whole_name:
            try:
                found = os.stat(self._whole_name)
            except (FileNotFoundError, NotADirectoryError):
                found = None
            except OSError:
                return  # Such as where this process lost a right since then.
            if not found or (found.st_ino, found.st_dev) != (self.state.inode, self.state.device):
                raise DumpError("the file was replaced, or its directory was moved, since it was opened")

    def close(self) -> None:
        if self._file:
            self._file.close()

    def __exit__(self, *_: object) -> None:
        self.close()


class Watch(Protocol):
    """What learns which sources are read, and how many files were."""

    def over(self, source: Source) -> ContextManager[None]:
        return nullcontext()

    def add_file(self) -> None:
        return None

    def __enter__(self) -> Any:
        return self

    def __exit__(self, *_: object) -> None:
        return None


class Unwatched(Watch):
    """A watch that prints nothing."""


def _refuse_other(head: bytes) -> None:
    if kind := other_kind(head):
        raise DumpError(f"a file of {kind}, and no dump: unpack it, and name the dumps in it")


def _standard_input() -> BinaryIO:
    """Standard input; an error where it is closed or a directory."""
    with suppress(BlockingIOError):  # It can be read later.
        os.read(0, 0)
    return open(0, "rb", buffering=0, closefd=False)


def _has_more(file: BinaryIO) -> bool:
    """Whether more bytes come soon, or the end."""
    waiting = select.poll()
    waiting.register(file, select.POLLIN)
    return bool(waiting.poll(_PATIENCE))


def read_some(file: BinaryIO, most: int) -> bytes:
    """The next bytes of an open file, none at its end. One that does not block, as a pipe that `ssh` left, is waited for too."""
    while True:
        wait_for_bytes(file.fileno())
        piece = file.read(most)
        if piece is not None:
            return piece


def up_to_error(pieces: Iterable[bytes], errors: list[Exception]) -> Iterator[bytes]:
    """The pieces before an error, which is put into a list."""
    try:
        yield from pieces
    except (DumpError, OSError) as error:
        errors.append(error)
