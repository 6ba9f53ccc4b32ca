#!/usr/bin/env python3
"""Runs what `make test` does not, before a release: it takes long, or needs what a machine may lack.

usage: tests/release.py [--list] [NAME..]     --list prints the runs and what each needs; NAME, such as `edits`, runs these alone.

The programs are ./bsonfind and ./bsonwide, so `make test` comes first. A run whose needs are missing is not run, and the last lines
name each such run and what it lacks. The line of the sum is 'N passed, M failed'; the status is 0 only if nothing failed.
"""

import argparse
import importlib.util
import os
import re
import shutil
import subprocess
import sys
import time
from collections.abc import Iterator
from typing import NamedTuple

from support import ROOT, SKIPPED


class Run(NamedTuple):
    """A run: its name, its command below the repository, and what it needs: programs, `module:` of Python, `root`."""

    name: str
    command: str
    needs: str = ""


RUNS = [
    Run("edits", "tests/edits.sh --jobs 0", "rt"),
    Run("edits-self-test", "tests/edits.sh --self-test", "rt"),
    Run("lint", "tests/lint.sh"),
    Run("completions", "tests/program/completions.py", "bash zsh fish"),
    Run("numbers", "tests/wide/others.py --count 1000000"),
    Run("mongomock", "tests/wide/mock.py", "module:mongomock module:bson"),
    Run("hostile-bsonfind", "tests/hostile/hostile.py 1800 1 bsonfind"),
    Run("hostile-bsonwide", "tests/hostile/hostile.py 1800 1 bsonwide"),
    Run("malicious-bsonfind", "tests/hostile/malicious.py bsonfind full"),
    Run("malicious-bsonwide", "tests/hostile/malicious.py bsonwide full"),
    Run("engines", "tests/package/engines.py", "parallel ssh module:distributed"),
    Run("frames", "tests/package/frames.py", "module:pandas module:pymongo"),
    Run("archives", "tests/package/dist.py --build", "dpkg-deb lintian objdump root"),
]
SUM = re.compile(r"(\d+) passed, (\d+) failed\n(?:\d+ skipped\n)?\Z")
# A line that says what a run left out.
LEFT_OUT = re.compile(r"^.*\b(?:skipped:|not looked at|not run)\b.*$", re.MULTILINE)


def missing(needs: str) -> Iterator[str]:
    """Yield what this machine lacks."""
    for need in needs.split():
        kind, colon, module = need.partition(":")
        if need == "root":
            has = os.geteuid() == 0
        elif colon:
            has = importlib.util.find_spec(module) is not None
        else:
            has = shutil.which(kind) is not None
        if not has:
            yield f"the Python module {module}" if colon else need


def run(it: Run) -> tuple[int, int, list[str]]:
    """Return how much passed and failed, and what the run left out. A run that does not end with its sum is a failure."""
    print(f"{it.name}: {it.command}", flush=True)
    started = time.monotonic()
    words = it.command.replace("--jobs 0", f"--jobs {len(os.sched_getaffinity(0))}").split()
    ran = subprocess.run(words, cwd=ROOT, stdin=subprocess.DEVNULL, stdout=subprocess.PIPE, stderr=subprocess.STDOUT, text=True, errors="replace")
    if ran.returncode == SKIPPED:
        return 0, 0, [ran.stdout.strip().rpartition("\n")[2]]
    found = SUM.search(ran.stdout)
    passed, failed = (int(found[1]), int(found[2])) if found else (0, 1)
    if ran.returncode and not failed:
        failed = 1
    if failed:
        print(ran.stdout[-8000:])
    print(f"{it.name}: {passed} passed, {failed} failed, {(time.monotonic() - started) / 60:.1f} minutes", flush=True)
    return passed, failed, LEFT_OUT.findall(ran.stdout)


def main() -> int:
    """Run all, or those that are named."""
    parser = argparse.ArgumentParser(usage="tests/release.py [--list] [NAME..]")
    parser.add_argument("--list", action="store_true")
    parser.add_argument("names", nargs="*")
    given = parser.parse_args()
    if unknown := set(given.names) - {it.name for it in RUNS}:
        parser.error(f"no run has the name {', '.join(sorted(unknown))}")
    runs = [it for it in RUNS if not given.names or it.name in given.names]
    if given.list:
        for it in runs:
            print(f"{it.name}\t{it.command}\t{it.needs}")
        return 0
    if not all((ROOT / it).is_file() for it in ("bsonfind", "bsonwide")):
        print("there is no ./bsonfind or no ./bsonwide: make test proves and builds them\n0 passed, 1 failed")
        return 1
    passed = failed = 0
    left_out = []
    for it in runs:
        if lacks := list(missing(it.needs)):
            left_out.append(f"not run: {it.name}, since there is no {', no '.join(lacks)}")
            continue
        well, ill, said = run(it)
        passed, failed = passed + well, failed + ill
        left_out += [f"not run in {it.name}: {line}" for line in said]
    print("\n".join(left_out) if left_out else "nothing was left out")
    print(f"{passed} passed, {failed} failed")
    return 1 if failed else 0


if __name__ == "__main__":
    sys.exit(main())
