"""The collections of an archive as dumps that pass side by side."""

from __future__ import annotations

import os
from concurrent.futures import Future, ThreadPoolExecutor
from typing import Callable, Iterator

from .._dumps.archive import Archive, Documents, End
from .._dumps.archive_frames import Namespace
from .._dumps.sources import Source
from .._errors import BsonfindError, DumpError, is_finding
from .._run.processes import Group, close

# This many collections may have begun and not ended. mongodump writes four at once, or as many as its option says.
MOST_AT_ONCE = 64
Read = Callable[[Namespace, Source], None]


def split(archive: Archive, read: Read, group: Group) -> Iterator[End | None]:
    """Has each collection of an archive read by a thread. Gives the ends of all, also of those that have none, and None as blocks pass.

    The archive is read once. What is wrong with it is raised at last, when all threads have read what came before; their runs are
    ended where the caller leaves or is interrupted.
    """
    readings: dict[Namespace, _Reading] = {}
    wrong: BsonfindError | OSError | None = None
    with ThreadPoolExecutor(MOST_AT_ONCE) as pool:
        try:
            for block in archive.blocks():
                reading = readings.get(block.namespace)
                if reading is None:
                    if len(readings) == MOST_AT_ONCE:
                        raise DumpError(f"more than {MOST_AT_ONCE} collections at once: unpack it")
                    reading = readings[block.namespace] = _Reading(block.namespace, read, pool)
                if isinstance(block, Documents):
                    try:
                        reading.pipe.write(block.data)
                    except BrokenPipeError:
                        reading.future.result()  # It has ended, and reads no more; an error that ended it is raised.
                    yield None
                else:
                    close(reading.pipe)
                    readings.pop(block.namespace).future.result()
                    yield block
            for reading in readings.values():
                close(reading.pipe)
                reading.future.result()
        except (BsonfindError, OSError) as error:
            wrong = error
        except (GeneratorExit, KeyboardInterrupt, SystemExit):
            group.end()
            raise
        finally:
            for reading in readings.values():
                close(reading.pipe)
    # After a refusal that is no fault of the archive, ends were not looked for.
    for namespace in archive.unended() if wrong is None or is_finding(wrong) else ():
        yield End(namespace, "no end")
    if wrong:
        raise wrong


class _Reading:
    """A thread that reads the documents of a collection from a pipe."""

    def __init__(self, namespace: Namespace, read: Read, pool: ThreadPoolExecutor) -> None:
        output, pipe = os.pipe()
        self.pipe = open(pipe, "wb")
        self.future: Future[None] = pool.submit(_read_all, namespace, read, output)


def _read_all(namespace: Namespace, read: Read, pipe: int) -> None:
    try:
        with Source(f"/dev/fd/{pipe}") as source:
            read(namespace, source)
    finally:
        os.close(pipe)
