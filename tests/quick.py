#!/usr/bin/env python3
"""Runs what needs no proof, side by side, in a few minutes: the looks at crates and pages, and the tests of the package, the rows and
the sessions over the programs that are built (./bsonfind, ./bsonwide) or else installed.

usage: tests/quick.py     A line for each script; of one that fails all that it says. The last line is 'N passed, M failed'.

`make test` passes all tests, and is what counts: these programs may be older than the sources.
"""

import os
import re
import shutil
import subprocess
import sys
import time
from concurrent.futures import ThreadPoolExecutor, as_completed
from pathlib import Path

from support import ROOT

sys.path.insert(0, str(ROOT / "tools"))

import build

Words = list[str]
LOOKS = ["docs/layout.py", "docs/imports.py", "docs/clauses.py", "docs/words.py", "docs/reference.py", "docs/examples.py"]
RUNS = ["docs/usage.py", "rows/rows.py", "program/talk.py"]


def programs() -> Path | None:
    """Return the `bsonfind` to run, which has `bsonwide` beside it; None where there is none."""
    found = [ROOT / "bsonfind", Path(shutil.which("bsonfind") or "/nowhere")]
    return next((it for it in found if os.access(it, os.X_OK) and os.access(it.with_name("bsonwide"), os.X_OK)), None)


def run(words: Words, env: dict[str, str]) -> tuple[str, int, int, str]:
    """Return the name of a script, how much passed and failed, and what it said. One that does not end with a sum is a failure."""
    started = time.monotonic()
    ran = subprocess.run([f"tests/{words[0]}", *words[1:]], cwd=ROOT, env=env, stdin=subprocess.DEVNULL, stdout=subprocess.PIPE,
                         stderr=subprocess.STDOUT, text=True, errors="replace")  # fmt: skip
    found = re.search(r"(\d+) passed, (\d+) failed\n\Z", ran.stdout)
    name = f"{' '.join(words)}, {time.monotonic() - started:.0f} s"
    return (name, int(found[1]), int(found[2]), ran.stdout) if found else (name, 0, 1, ran.stdout)


def main() -> int:
    program = programs()
    scripts = [[it] for it in LOOKS]
    if program:
        state = "nothing is newer" if program.parent == ROOT and build.is_built(build.lines_of_crates()) else "it may be older than the sources"
        print(f"over {program} of {time.strftime('%Y-%m-%d %H:%M', time.localtime(program.stat().st_mtime))}: {state}")
        scripts += [["package/package.py", it.name] for it in sorted((ROOT / "python/tests").rglob("test_*.py"))] + [[it] for it in RUNS]
    else:
        print("no program is built or installed: the package, the rows and the sessions are not tested; make builds both programs")
    passed = failed = 0
    with ThreadPoolExecutor(len(os.sched_getaffinity(0))) as pool:
        for done in as_completed([pool.submit(run, it, {**os.environ, "BSONFIND": str(program)}) for it in scripts]):
            name, well, ill, said = done.result()
            passed, failed = passed + well, failed + ill
            print(f"{name}: {said}" if ill else f"ok: {name}: {well}", flush=True)
            for line in re.findall(r"^.*\bnot (?:looked at|run)\b.*$", said, re.MULTILINE) if not ill else ():
                print(f"  {line}")
    print(f"{passed} passed, {failed} failed")
    return 1 if failed else 0


if __name__ == "__main__":
    sys.exit(main())
