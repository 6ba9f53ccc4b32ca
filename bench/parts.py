#!/usr/bin/env python3
"""Times the Python package over dumps that it makes: sessions, plans, and answers of parts beside one run over the whole.

usage: bench/parts.py [MEGABYTES ..] [--times N] [--runs N] [--seed N] [--program FILE]

Of each size, 200 megabytes without one, it makes a dump of orders and prints a row for each task:

- a session that gives all documents of a dump of small ones (kind counter), as lines: documents a second;
- a plan of four parts: megabytes a second;
- find_parts over four parts, by four workers, beside one run of `find`: a small answer by a sort with a limit, and all documents. An
  answer is the same, byte for byte, before it is timed.

With --times the parts of a dump are those of a file with N copies of it, one after the other; a run can't read more than 4,294,967,295
bytes, so it is then N times the run over one copy. Seconds are by the clock, the least of N runs (3 without it).
"""

import argparse
import shutil
import subprocess
import sys
import tempfile
import time
from collections.abc import Callable
from pathlib import Path

ROOT = Path(__file__).resolve().parent.parent
sys.path[:0] = [str(ROOT / "python")]

from bsonfind import Part, Session, find_parts, plan
from make_dump import make

PARTS = 4
SORT, LIMIT = [("placed", -1)], 100
# What one run is asked for a small answer, and for all.
SMALL = ["--sort", '{"placed":-1}', "--limit", str(LIMIT)]
MEGABYTE = 1_000_000


def least(runs: int, call: Callable[[], object]) -> float:
    """Return the seconds of the fastest call."""
    seconds = []
    for _ in range(runs):
        started = time.monotonic()
        call()
        seconds.append(time.monotonic() - started)
    return min(seconds)


def one_run(program: str, dump: str, words: list[str]) -> bytes:
    """Return what `find` prints."""
    return subprocess.run([program, "find", dump, *words], stdout=subprocess.PIPE, stderr=subprocess.DEVNULL, check=True).stdout


def asked(program: str, parts: list[Part], **request: object) -> list[bytes]:
    """Return the lines that find_parts gives, all parts at once."""
    return find_parts(parts, workers=PARTS, decode="bytes", program=program, **request)


def time_session(program: str, room: str, seed: int, runs: int) -> None:
    """Print how many small documents a session gives in a second."""
    make(f"{room}/small", 20 * MEGABYTE, seed, "counter")
    with Session(f"{room}/small.bson", program) as session:
        count = sum(1 for _ in session.find(decode="bytes"))
        for size in (100, 1_000, 10_000):
            seconds = least(runs, lambda: sum(1 for _ in session.find(batch_size=size, decode="bytes")))
            print(f"a session gives {count} documents as lines, {size} a batch: {count / seconds:,.0f} a second")


def time_parts(program: str, room: str, size: int, times: int, seed: int, runs: int) -> None:
    """Print what parts of a dump of so many megabytes cost beside one run."""
    name = f"{room}/orders"
    make(name, size * MEGABYTE, seed, "order")
    whole = f"{name}.bson"
    if times > 1:
        whole = f"{room}/many.bson"
        with open(whole, "wb") as file:
            for _ in range(times):
                with open(f"{name}.bson", "rb") as copy:
                    shutil.copyfileobj(copy, file, 1 << 24)
    length = Path(whole).stat().st_size
    most = length // PARTS + 1024
    seconds = least(runs, lambda: plan(whole, most))
    parts = plan(whole, most)
    print(f"{length / MEGABYTE:,.0f} MB of orders: a plan of {len(parts)} parts reads {length / MEGABYTE / seconds:,.0f} MB a second")
    tasks = {"a small answer": (SMALL, {"sort": SORT, "limit": LIMIT}), "all documents": ([], {})}
    for what, (words, request) in tasks.items():
        if times > 1 and not words:
            continue
        if times == 1 and one_run(program, whole, words).splitlines() != asked(program, parts, **request):
            sys.exit(f"{what}: the parts give another answer")
        alone = times * least(runs, lambda: one_run(program, f"{name}.bson", words))
        by_parts = least(runs, lambda: asked(program, parts, **request))
        print(f"{what}: one run {alone:.2f} s, {len(parts)} parts {by_parts:.2f} s: {alone / by_parts:.2f} times as fast")


def main() -> None:
    """Time what the arguments ask for."""
    parser = argparse.ArgumentParser(description="times the Python package", allow_abbrev=False)
    parser.add_argument("megabytes", nargs="*", type=int, default=[200])
    parser.add_argument("--times", type=int, default=1)
    parser.add_argument("--runs", type=int, default=3)
    parser.add_argument("--seed", type=int, default=1)
    parser.add_argument("--program", default=str(ROOT / "bsonfind"))
    given = parser.parse_args()
    with tempfile.TemporaryDirectory(prefix="bsonfind-parts-") as room:
        time_session(given.program, room, given.seed, given.runs)
        for size in given.megabytes:
            time_parts(given.program, room, size, given.times, given.seed, given.runs)


if __name__ == "__main__":
    main()
