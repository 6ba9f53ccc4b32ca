"""Files that a command writes: they are opened first, written beside their names, and get these at the end."""

from __future__ import annotations

import errno
import os
import stat
from contextlib import AbstractContextManager, contextmanager, suppress
from typing import Iterator, Sequence

from .._errors import ArgumentError, FileError
from .files import file_of

# What a file system says that has no second names of files.
_NO_LINKS = (errno.EPERM, errno.EOPNOTSUPP, errno.ENOSYS)


def refuse_names(dump: str, good: str, bad: str) -> None:
    """Refuses files that are the dump, or one another, by whatever names."""
    good, bad = ("/dev/stdout" if it == "-" else it for it in (good, bad))
    for name in (good, bad):
        # For `-` the dump is the file that standard input has open.
        if os.path.exists(name) and os.path.samefile(name, 0) if dump == "-" else is_same(name, file_of(dump)):
            raise ArgumentError(f"{name} is the dump")
    if is_same(good, bad) and not (os.path.exists(good) and stat.S_ISCHR(os.stat(good).st_mode)):
        raise ArgumentError(f"{good} is named twice")


def is_same(one: str, other: str) -> bool:
    """Whether two names are of one file, or would be."""
    if os.path.exists(one) and os.path.exists(other):
        return os.path.samefile(one, other)
    return os.path.realpath(one) == os.path.realpath(other)


@contextmanager
def naming(name: str) -> Iterator[None]:
    """Has errors of the system name a file as it was given."""
    try:
        yield
    except OSError as error:
        raise FileError(error.errno, error.strerror, name) from None


class Output(AbstractContextManager["Output"]):
    """A file that is written under another name beside it, and gets its name at the end. A device or pipe is written as it is.

    The name `-` is that of standard output.
    """

    def __init__(self, name: str, mode: int | None = None) -> None:
        """A file that is there keeps its owner and its rights; a new one may be given those of what it is a copy of."""
        self.name = name
        self._path = self._beside = os.path.realpath(name)
        with naming(self.name):
            if name == "-":
                self._file = open(os.dup(1), "wb")
                return
            if not name:
                raise OSError(errno.ENOENT, "an empty name")  # such as of a variable that is not set
            if os.path.isdir(name) or name.endswith(os.sep):
                raise OSError(errno.EISDIR, os.strerror(errno.EISDIR))
            there = os.stat(name) if os.path.exists(name) else None
            if there and not stat.S_ISREG(there.st_mode):
                self._path = self._beside = name
                self._file = open(name, "wb")
                return
            if there and _is_standard_output(there):
                raise OSError(errno.EBUSY, "it is standard output", name)
            self._beside = os.path.join(os.path.dirname(self._path), f".{os.urandom(8).hex()}.new")
            self._create(stat.S_IMODE(there.st_mode) if there else mode, there)

    def _create(self, mode: int | None, there: os.stat_result | None = None) -> None:
        """Opens the new file, with these rights; before that no other user can. One that cannot have them is not left.

        It has the owner of the file that it replaces, if this user may give it away.
        """
        self._file = open(self._beside, "xb", opener=None if mode is None else lambda name, flags: os.open(name, flags, 0o600))
        try:
            if there:
                with suppress(PermissionError):  # Then it is this user's, as any new file.
                    os.fchown(self._file.fileno(), there.st_uid, there.st_gid)
            if mode is not None:
                os.fchmod(self._file.fileno(), mode)
        except OSError:
            self._file.close()
            os.unlink(self._beside)
            raise

    def write(self, data: bytes | memoryview) -> None:
        with naming(self.name):
            self._file.write(data)

    def fileno(self) -> int:
        """The descriptor, for what writes to it by itself."""
        return self._file.fileno()

    def complete(self) -> None:
        """Has all bytes on the disk."""
        with naming(self.name):
            self._file.flush()
            if self._beside != self._path:
                os.fsync(self._file.fileno())

    def put_in_place(self) -> None:
        if self._beside != self._path:
            with naming(self.name):
                os.replace(self._beside, self._path)
            self._beside = self._path

    def __exit__(self, kind: object, *_: object) -> None:
        try:
            with naming(self.name):
                self._file.close()
        except FileError:
            if kind is None:
                raise  # Else what was wrong before is raised.
        finally:
            if self._beside != self._path:
                os.unlink(self._beside)


class NewOutput(Output):
    """A file that is written under the name of a part, and gets its own at the end. Nothing may be there of either name."""

    def __init__(self, name: str, part: str, mode: int | None = None) -> None:
        self.name = self._path = name
        self._beside = part
        refuse_there(name, part)
        with naming(self.name):
            self._create(mode)

    @property
    def path(self) -> str:
        return self._beside

    def complete(self) -> None:
        """Has all bytes on the disk, and takes no more."""
        super().complete()
        self._file.close()

    def put_in_place(self) -> None:
        """Gives the file its name, unless something has it by now."""
        with naming(self.name):
            try:
                os.link(self._beside, self.name)
            except OSError as error:
                if error.errno not in _NO_LINKS:
                    raise
                refuse_there(self.name)
                os.rename(self._beside, self.name)
            else:
                os.unlink(self._beside)
        self._beside = self._path = self.name

    def keep(self) -> None:
        """Leaves the file the name that it has, unless it gets its own."""
        self._path = self._beside


def _is_standard_output(there: os.stat_result, numbers: Sequence[int] = (1, 2)) -> bool:
    """Whether a file is what standard output or standard error is written to: it would be replaced, and what is printed lost."""
    for number in numbers:
        try:
            if os.path.samestat(os.fstat(number), there):
                return True
        except OSError:
            continue  # It is closed.
    return False


def goes_to(name: str, number: int) -> bool:
    """Whether what is written to a name comes among what is printed on standard output, 1, or standard error, 2. A device keeps nothing."""
    try:
        there = os.fstat(1) if name == "-" else os.stat(name)
    except OSError:
        return False  # A new file, or what cannot be written.
    return name == "-" and number == 1 or not stat.S_ISCHR(there.st_mode) and _is_standard_output(there, [number])


def refuse_there(*names: str) -> None:
    for name in names:
        if os.path.lexists(name):
            raise FileError(errno.EEXIST, os.strerror(errno.EEXIST), name)
