"""Runs a program over tests/faults/failing.c, by which growths of memory, reads and writes fail.

For tests/faults/growths.py and tests/faults/devices.py, whose argument is the program. Where there is no C compiler there is no library,
and their tests are passed over.
"""

import fcntl
import itertools
import mmap
import os
import queue
import shutil
import struct
import subprocess
import sys
import tempfile
import time
from collections.abc import Callable, Iterable, Iterator
from concurrent.futures import ThreadPoolExecutor
from contextlib import ExitStack, contextmanager
from pathlib import Path
from typing import NamedTuple, TypeVar

from support import PROGRAM as BUILT
from support import ROOT, Tests

PROGRAM = Path(sys.argv[1]).resolve() if len(sys.argv) > 1 else BUILT
SOURCE = ROOT / "tests/faults/failing.c"
# How many seconds a run may take.
PATIENCE = 60.0
# So many runs side by side.
WORKERS = 4
# The bytes that a pipe is made to hold, and the number of the call that does so.
ROOM = 1 << 20
F_SETPIPE_SZ = 1031
# A word that stands for the name of a pipe.
PIPE = "PIPE"

Result = TypeVar("Result")


class Ran(NamedTuple):
    """How the program ended, and what it wrote."""

    status: int
    out: bytes
    err: bytes

    def __str__(self) -> str:
        """What a failure shows of it."""
        return f"status {self.status}, {len(self.out)} bytes {self.out[:300]!r}, {self.err[:300]!r}"


class Counts(NamedTuple):
    """The struct that the library keeps. Of reads and writes it has one for each of the descriptors 0, 1, 2, and all others."""

    ready: int
    growths: int
    refused: int
    reads: tuple[int, ...]
    given: tuple[int, ...]
    writes: tuple[int, ...]
    taken: tuple[int, ...]


LAYOUT = struct.Struct("19q")


class Unready(Exception):
    """The library was not loaded, so nothing failed."""


def pipe_of(data: bytes) -> int:
    """The end of a pipe from which these bytes are read. They fit into it."""
    ours, theirs = os.pipe()
    if len(data) > 65536:
        fcntl.fcntl(theirs, F_SETPIPE_SZ, ROOM)
    os.write(theirs, data)
    os.close(theirs)
    return ours


def await_stop(run: subprocess.Popen) -> None:
    """Waits until a run has stopped itself, or has ended."""
    until = time.monotonic() + PATIENCE
    while os.waitid(os.P_PID, run.pid, os.WSTOPPED | os.WEXITED | os.WNOWAIT | os.WNOHANG) is None:
        if time.monotonic() > until:
            raise subprocess.TimeoutExpired(run.args, PATIENCE)
        time.sleep(0.0005)


class Failing:
    """Runs the program over the library, several runs side by side, in the directory `room`."""

    def __init__(self, room: Path, library: Path) -> None:
        self.room, self.library = room, library
        self.pool = ThreadPoolExecutor(WORKERS)
        self.runs = itertools.count()
        self.free: queue.SimpleQueue[tuple[Path, mmap.mmap]] = queue.SimpleQueue()
        for worker in range(WORKERS + 1):
            file = room / f"counts{worker}"
            file.write_bytes(bytes(LAYOUT.size))
            with file.open("r+b") as opened:
                self.free.put((file, mmap.mmap(opened.fileno(), LAYOUT.size)))

    @contextmanager
    def started(self, words: Iterable[str], stdin: bytes | Path = b"", pipe: bytes = b"", **how: int) -> Iterator[tuple[subprocess.Popen, Callable[[], Counts]]]:
        """A run, with its counts so far. Standard input is a pipe or a file, and PIPE the name of a pipe that has these bytes.

        Of a word as growth=3 the library is told by the environment.
        """
        file, counts = self.free.get()
        counts[:] = bytes(LAYOUT.size)
        next(self.runs)
        env = {"LD_PRELOAD": str(self.library), "FAILING_COUNTS": str(file), **{f"FAILING_{name.upper()}": str(it) for name, it in how.items()}}

        def told() -> Counts:
            each = LAYOUT.unpack(counts[:])
            return Counts(*each[:3], each[3:7], each[7:11], each[11:15], each[15:])

        with ExitStack() as closing:
            closing.callback(self.free.put, (file, counts))
            source = os.open(stdin, os.O_RDONLY) if isinstance(stdin, Path) else pipe_of(stdin)
            closing.callback(os.close, source)
            handed = []
            if PIPE in words:
                handed = [pipe_of(pipe)]
                closing.callback(os.close, handed[0])
                words = [f"/dev/fd/{handed[0]}" if word == PIPE else word for word in words]
            run = subprocess.Popen(
                [PROGRAM, *words], cwd=self.room, env=env, stdin=source, stdout=subprocess.PIPE, stderr=subprocess.PIPE, pass_fds=handed
            )
            closing.callback(run.communicate)
            closing.callback(run.kill)
            yield run, told

    def run(self, words: Iterable[str], stdin: bytes | Path = b"", pipe: bytes = b"", **how: int) -> tuple[Ran, Counts]:
        """A run to its end."""
        with self.started(words, stdin, pipe, **how) as (run, told):
            out, err = run.communicate(timeout=PATIENCE)
            counts = told()
        if not counts.ready:
            raise Unready(f"{run.args}")
        return Ran(run.returncode, out, err), counts

    def each(self, run: Callable[[int], Result | None]) -> list[Result]:
        """What a function answers for 1, 2 and so on, up to the first None."""
        results: list[Result] = []
        while True:
            numbers = range(len(results) + 1, len(results) + 1 + 2 * WORKERS)
            for result in self.pool.map(run, numbers):
                if result is None:
                    return results
                results.append(result)


def main(tests: Iterable[Callable[[Tests, Failing], None]]) -> int:
    """Compiles the library, and carries out tests over it."""
    counted = Tests()
    with tempfile.TemporaryDirectory() as room:
        library = Path(room, "failing.so")
        if shutil.which("cc") is None:
            print("there is no C compiler: nothing was made to fail")
        else:
            subprocess.run(["cc", "-shared", "-fPIC", "-O2", "-o", library, SOURCE], check=True)
            failing = Failing(Path(room), library)
            for test in tests:
                try:
                    test(counted, failing)
                except (Unready, subprocess.TimeoutExpired) as wrong:
                    counted.want(test.__name__, False, f"{type(wrong).__name__}: {wrong}")
            print(f"{next(failing.runs)} runs")
    print(f"{counted.passed} passed, {counted.failed} failed")
    return 1 if counted.failed else 0
