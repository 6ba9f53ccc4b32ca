#!/usr/bin/env python3
"""Times parts of the work within one process, beside the check of the same bytes.

usage: bench/inside.py paths FILE PATH NUMBER [RUNS]
       bench/inside.py session FILE PATH [COUNT [SCANS [RUNS]]]     100,000 by an index, 20 by scans; the best of 5 runs

paths: whether a document has a value at PATH that equals NUMBER, and its order, in a sort by PATH, beside the one before it.
session: an index on PATH is made once; then the documents that have the numbers 0, 1 and so on there are asked for, COUNT times by the
index and SCANS times without, and the first 20 in the order of PATH, as often. A dump of orders (make_dump.py) has these in order_no.
A query is a request, a find and a next; documents are not written.

The programs, bench/paths and bench/session, are Rattle's. They are proved and built in a copy of the tree, which takes some minutes
where the crates below them were not proved before.
"""

import shutil
import subprocess
import sys
import tempfile
from pathlib import Path

ROOT = Path(__file__).resolve().parent.parent


def crates_below(libraries: list[str]) -> dict[str, str]:
    """The lines of crates.txt of some libraries and of all below them, by name."""
    lines = (line for line in (ROOT / "crates.txt").read_text().splitlines() if ":" in line and not line.startswith("#"))
    known = {line.partition(":")[0].split()[0]: line for line in lines}
    found: dict[str, str] = {}
    names = [*libraries]
    while names:
        name = names.pop()
        # The kit's own libraries have no line.
        if name in known and name not in found:
            found[name] = known[name]
            names += known[name].partition(":")[2].split()
    return found


def built(room: Path, program: str, libraries: list[str]) -> Path:
    """The program PROGRAM/main.rt.in, which the gate passes over, built below a room. Its crate is named bd_PROGRAM_bench."""
    name = f"bd_{program}_bench"
    below = crates_below(libraries)
    (room / "crates.txt").write_text("\n".join([*below.values(), f"{name}: {' '.join(libraries)}", ""]))
    for crate in below:
        shutil.copytree(ROOT / "crates" / crate, room / "crates" / crate, ignore=shutil.ignore_patterns("must-fail", "incremental"))
    here = room / "crates" / name
    for part in ("src", "specs", "proofs"):
        (here / part).mkdir(parents=True)
    source = ROOT / "bench" / program
    shutil.copy(source / "main.rt.in", here / "src" / "main.rt")
    specs = sorted(source.glob("*.antt.in"))
    for it in specs:
        shutil.copy(it, here / "specs" / it.name.removesuffix(".in"))
    (here / "specs" / "Lib.antt").write_text("".join(f"pub mod {it.name.removesuffix('.antt.in')}\n" for it in specs))
    (here / "proofs" / "Lib.antt").write_text("")
    subprocess.run(["rt", "run"], cwd=here, check=True, stdout=subprocess.DEVNULL)
    return here / "out" / name


def answers(program: str, libraries: list[str], words: list[str], runs: int) -> list[list[int]]:
    """The numbers that each run prints."""
    with tempfile.TemporaryDirectory() as room:
        path = built(Path(room), program, libraries)
        texts = [subprocess.run([path, *words], check=True, capture_output=True, text=True).stdout.split() for _ in range(runs)]
    if not all(texts):
        sys.exit("the file is no dump, the words are no path and number, or no memory was given")
    return [[int(text) for text in line] for line in texts]


def paths(file: str, path: str, number: str, runs: int) -> None:
    all_of = answers("paths", ["bd_value", "bd_bson", "bd_path"], [file, path, number], runs)
    checked, reached, sorted_by = (min(column) for column in list(zip(*all_of))[:3])
    print(f"check {checked / 1000:.1f} ms")
    print(f"path  {reached / 1000:.1f} ms, {reached / checked:.2f} of it; {all_of[0][3]} documents have the value")
    print(f"order {sorted_by / 1000:.1f} ms, {sorted_by / checked:.2f} of it; {all_of[0][4]} stand after the one before them")


def session(file: str, path: str, count: int, scans: int, runs: int) -> None:
    all_of = answers("session", ["bd_value", "bd_bson", "bd_path", "bd_cursor"], [file, path, str(count), str(scans)], runs)
    read, made, by_index, by_scan, by_walk, by_sort = (min(column) for column in list(zip(*all_of))[:6])
    given = all_of[0][6:]
    print(f"read the dump  {read / 1000:12.1f} ms")
    print(f"make the index {made / 1000:12.1f} ms, {made / read:.2f} of that")
    print(f"by the index   {by_index / count:12.2f} µs a query; {given[0]:,} documents in {count:,} queries")
    print(f"by a scan      {by_scan / scans:12.2f} µs a query; {given[1]:,} documents in {scans:,} queries")
    print(f"a scan takes {by_scan * count / max(by_index, 1) / scans:,.0f} times as long")
    print(f"first 20, walk {by_walk / scans:12.2f} µs a query; {given[2]:,} documents in {scans:,} queries")
    print(f"first 20, sort {by_sort / scans:12.2f} µs a query; {given[3]:,} documents in {scans:,} queries")
    print(f"a sort takes {by_sort / max(by_walk, 1):,.0f} times as long")


def main() -> int:
    match sys.argv[1:]:
        case ["paths", file, path, number, *rest] if len(rest) < 2 and all(map(str.isdecimal, rest)):
            paths(file, path, number, *map(int, rest or ["5"]))
        case ["session", file, path, *rest] if len(rest) < 4 and all(map(str.isdecimal, rest)):
            session(file, path, *map(int, rest + ["100000", "20", "5"][len(rest) :]))
        case _:
            print(__doc__, file=sys.stderr)
            return 2
    return 0


if __name__ == "__main__":
    sys.exit(main())
