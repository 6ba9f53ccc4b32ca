"""The files of dumps by their names. ARCHIVE::db.collection is that of one collection of an archive, unless a file has it."""

from __future__ import annotations

import os
from contextlib import suppress
from typing import BinaryIO, NamedTuple

from .._arguments import File, name_of
from .._errors import DumpError
from .archive import is_archive
from .archive_frames import Namespace

# As many bytes as say what a file is.
HEAD = 1 << 12
# What is between the name of an archive and that of a collection in it, and the name of standard input, which may be an archive.
INSIDE, STDIN = "::", "-"


class FileState(NamedTuple):
    """What says whether a file is still the same: its size, its time, its inode and device, and the time of any change of these."""

    size: int
    mtime_ns: int
    inode: int
    device: int
    ctime_ns: int

    @classmethod
    def of(cls, file: BinaryIO) -> FileState:
        """The state of an open file."""
        found = os.fstat(file.fileno())
        return cls(found.st_size, found.st_mtime_ns, found.st_ino, found.st_dev, found.st_ctime_ns)

    def refuse_other(self, file: BinaryIO) -> None:
        """Refuses an open file that is no longer in this state."""
        now = FileState.of(file)
        if now != self:
            is_same = now[:2] == self[:2]
            what = "replaced, or its name or its rights changed," if is_same else "written to"
            raise DumpError(f"the file was {what} since it was opened")


class Member(NamedTuple):
    """A collection of an archive."""

    archive: str
    namespace: Namespace


def member_of(path: File) -> Member | None:
    """The collection of an archive that a name is of, None if it is the name of a file or of nothing that is there."""
    name = name_of(path)
    if INSIDE in name and not os.path.lexists(name):
        # The longest name that an archive has.
        at = name.rfind(INSIDE)
        while at >= 0:
            archive, inside = name[:at], name[at + len(INSIDE) :]
            if inside and (archive == STDIN or os.path.exists(archive) and not os.path.isdir(archive)):
                return Member(archive, Namespace.of(inside))
            at = name.rfind(INSIDE, 0, at)
    return None


def is_whole_archive(path: File) -> bool:
    """Whether a regular file is an archive, by its first bytes. Of a pipe they would be lost."""
    with suppress(OSError):  # Whoever reads it says what is wrong with it.
        if os.path.isfile(path):
            with open(path, "rb", buffering=0) as file:
                return is_archive(file.read(HEAD))
    return False


def name_in(archive: str, namespace: Namespace) -> str:
    return f"{archive}{INSIDE}{namespace}"


def file_of(path: File) -> str:
    """The file that is opened for a name: the archive, where it is that of a collection of one."""
    member = member_of(path)
    return member.archive if member else name_of(path)
