#!/usr/bin/env python3
"""Times `python3 -m bsonfind unpack` over archives of two collections that it writes, in megabytes a second.

usage: bench/archives.py [MEGABYTES] [--runs N] [--room DIRECTORY]

Each archive has so many megabytes, 100 without a number; one is also packed by gzip. A row is the fastest of N runs, 3 without it: by
the clock, and by the processor, user and system, each with the CRC-64 and with --no-crc. Files go to a directory for temporary files,
or below --room; /dev/shm leaves the disk out.
"""

import argparse
import gzip
import lzma
import os
import random
import subprocess
import sys
import tempfile
import time
from pathlib import Path

ROOT = Path(__file__).resolve().parent.parent
sys.path[:0] = [str(ROOT / "python")]

from tests.archives import END, block, block_header, listed, prelude
from tests.bson import document, field, text

# The bytes of a document, and how many of a collection stand in a block.
KINDS = {"20,000 bytes": (20_000, 50), "300 bytes": (300, 3_000), "1,000 bytes, each in a block of its own": (1_000, 1)}
# Of these documents the archive is also packed.
PACKED = "20,000 bytes"
MEGABYTE = 1_000_000


def crc64(data: bytes) -> int:
    """The CRC-64 of bytes, which stands before the index of a file of xz."""
    packed = lzma.compress(data, check=lzma.CHECK_CRC64, preset=0)
    at = len(packed) - 12 - 4 * (int.from_bytes(packed[-8:-4], "little") + 1)
    return int.from_bytes(packed[at - 8 : at], "little")


def archive(size: int, each: int, most: int) -> bytes:
    """An archive of random documents of a size, so many in each block, of so many bytes in all."""
    chance = random.Random(size)
    made = [document(field(0x02, "s", text("%0*x" % (size, chance.getrandbits(4 * size))))) for _ in range(each)]
    blocks = max(1, most // (2 * each * len(made[0])))
    documents = b"".join(made)
    parts = [prelude(listed("a", "x"), listed("a", "y"))]
    parts += [block("a", "x", documents) + block("a", "y", documents)] * blocks
    crc = crc64(documents * blocks)
    return b"".join([*parts, *(block_header("a", name, crc, True) + END for name in "xy")])


def run(data: bytes, room: str, words: list[str]) -> tuple[float, float]:
    """The seconds of a run, by the clock and by the processor."""
    with tempfile.TemporaryDirectory(dir=room) as folder:
        path = Path(folder, "archive")
        path.write_bytes(data)
        command = [sys.executable, "-m", "bsonfind", "unpack", str(path), f"{folder}/out", *words]
        env = {**os.environ, "PYTHONPATH": str(ROOT / "python")}
        started = time.monotonic()
        process = subprocess.Popen(command, env=env, stdout=subprocess.DEVNULL, stderr=subprocess.DEVNULL)
        _, status, used = os.wait4(process.pid, 0)
        seconds = time.monotonic() - started
    process.returncode = os.waitstatus_to_exitcode(status)
    if status:
        sys.exit(f"status {process.returncode}: {' '.join(command)}")
    return seconds, used.ru_utime + used.ru_stime


def show(name: str, size: int, data: bytes, words: argparse.Namespace) -> None:
    """Prints the row of an archive that has so many bytes where it is unpacked."""
    rates = []
    for more in ([], ["--no-crc"]):
        runs = [run(data, words.room, more) for _ in range(words.runs)]
        rates.append([size / min(it) / MEGABYTE for it in zip(*runs)])
    print(f"{name:45}", *(f"{rate:12.0f}" for pair in zip(*rates) for rate in pair), flush=True)


def main() -> None:
    parser = argparse.ArgumentParser(description=__doc__.partition("\n")[0])
    parser.add_argument("megabytes", nargs="?", type=int, default=100)
    parser.add_argument("--runs", type=int, default=3)
    parser.add_argument("--room")
    words = parser.parse_args()
    print(f"{'documents of':45}", *(f"{it:>12}" for it in ("clock", "no crc", "processor", "no crc")))
    for name, (size, each) in KINDS.items():
        data = archive(size, each, words.megabytes * MEGABYTE)
        show(name, len(data), data, words)
        if name == PACKED:
            show(f"{name}, gzip", len(data), gzip.compress(data, 1), words)


if __name__ == "__main__":
    main()
