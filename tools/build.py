#!/usr/bin/env python3
"""Proves every crate that the programs stand on, and builds them: ./bsonfind and ./bsonwide.

usage: tools/build.py [--anew]     With --anew everything is proved and built, whatever is kept.

The crates are proved by the gate itself, `rt ci`, over a copy that has them alone: without crates of tests and without edits that
the proofs must refuse. Of a library below `rt ci` loads what is stated, and not how it is proved. Where the kit keeps each crate that
is proved beside the toolchain, a build that was cut off, a later build and the gate take it from there.

Each build that ends adds a line to .build-times: when, how long, on what, and what it proved. The next one begins with this line.
"""

import os
import re
import shutil
import subprocess
import sys
import tempfile
import time
from collections.abc import Iterator
from pathlib import Path

from meter import Meter

ROOT = Path(__file__).resolve().parent.parent
PROGRAMS = ("bsonfind", "bsonwide")
TIMES = ROOT / ".build-times"
CUT_OFF = "cut off: type make again"
KEPT = "each crate that is proved is kept: a build that is cut off resumes"
NEXT = "type ./bsonfind dump examples/shop.bson, or make install, make deb, make test"
# Of a crate, what its proof reads, and what its program is run on.
PARTS = ("src", "specs", "proofs", "args", "stdin", "stdout")


def lines_of_crates() -> dict[str, str]:
    """Return the lines of crates.txt for the programs and the crates that they stand on, by crate."""
    lines = {}
    for line in (ROOT / "crates.txt").read_text(encoding="utf-8").splitlines():
        name, colon, below = line.partition("#")[0].partition(":")
        if colon:
            lines[name.strip()] = below.split()
    wanted = [*PROGRAMS]
    for name in wanted:
        wanted += [below for below in lines[name] if below in lines and below not in wanted]
    return {name: f"{name}: {' '.join(lines[name])}\n" for name in lines if name in wanted}


def files_of(crate: str) -> Iterator[Path]:
    """Yield the files of a crate that a program is made from."""
    for part in PARTS:
        place = ROOT / "crates" / crate / part
        yield from (it for it in place.rglob("*") if it.is_file()) if place.is_dir() else [place] * place.is_file()


def is_built(crates: dict[str, str]) -> bool:
    """Return whether each program is newer than all that they are made from."""
    made_from = [ROOT / "crates.txt", *(file for crate in crates for file in files_of(crate))]
    newest = max(it.stat().st_mtime for it in made_from)
    return all((ROOT / it).is_file() and newest < (ROOT / it).stat().st_mtime for it in PROGRAMS)


def copy_crates(crates: dict[str, str], room: str) -> None:
    """Make a repository of these crates alone."""
    for crate in crates:
        for file in files_of(crate):
            to = Path(room) / file.relative_to(ROOT)
            to.parent.mkdir(parents=True, exist_ok=True)
            shutil.copyfile(file, to)
    Path(room, "crates.txt").write_text("".join(crates.values()), encoding="utf-8")
    shutil.copyfile(ROOT / "HANDLES", Path(room, "HANDLES"))


def machine() -> str:
    """Return the processors that this process may use: how many, and their name where the system tells it."""
    try:
        found = re.search(r"^model name\s*: (.*)$", Path("/proc/cpuinfo").read_text(errors="replace"), re.MULTILINE)
    except OSError:
        found = None
    return f"{len(os.sched_getaffinity(0))} processors{f' ({found[1]})' if found else ''}"


def last_time() -> str:
    """Return how long the last build took, and on what."""
    lines = TIMES.read_text(encoding="utf-8").splitlines() if TIMES.is_file() else []
    return f"the last build here: {lines[-1]}" if lines else "no build has ended here; the first takes 20 to 30 minutes on four idle cores"


def keeps() -> bool:
    """Return whether the kit keeps what the gate proved: then its help knows a gate from nothing."""
    shown = subprocess.run(["rt", "help"], stdin=subprocess.DEVNULL, capture_output=True, text=True, errors="replace")
    return "--anew" in shown.stdout + shown.stderr


def prove(room: str, count: int, anew: bool) -> int:
    """Prove the crates of a repository and build its programs; print a line a crate; return the status."""
    started, done, proved, said = time.monotonic(), 0, 0, []
    words = ["rt", "ci", *(["--anew"] if anew and keeps() else [])]
    none, pipe = subprocess.DEVNULL, subprocess.PIPE
    with subprocess.Popen(words, cwd=room, stdin=none, stdout=pipe, stderr=subprocess.STDOUT, text=True, errors="replace") as run:
        meter = Meter(run.pid)
        try:
            for line in run.stdout or ():
                said.append(line)
                found = re.match(r"rt: (\w+) (proved$|is kept)", line)
                if found:
                    done += 1
                    proved += found[2] == "proved"
                    seconds = meter.seconds()[found[1]]["proof"]
                    took = f"{seconds:.0f} seconds of processor time" if found[2] == "proved" else "proved before"
                    minutes = (time.monotonic() - started) / 60
                    print(f"{found[1]} is proved ({done} of {count}): {took}; {minutes:.1f} minutes so far", flush=True)
        except KeyboardInterrupt:
            # A terminal sends the signal to rt too, which then ends its own processes.
            try:
                run.wait(timeout=5)
            except subprocess.TimeoutExpired:
                run.terminate()
            raise
    if run.returncode < 0:
        print(CUT_OFF)
    elif run.returncode:
        print("".join(said)[-8000:])
        print("not every crate is proved, so no program is built")
    else:
        minutes = (time.monotonic() - started) / 60
        line = f"{time.strftime('%Y-%m-%d')}, {minutes:.1f} minutes on {machine()}; {proved} of {count} crates were proved, the others kept"
        with TIMES.open("a", encoding="utf-8") as times:
            print(line, file=times)
    return run.returncode


def build(crates: dict[str, str], anew: bool) -> int:
    """Prove the crates and leave the programs; return the status."""
    with tempfile.TemporaryDirectory(prefix="bsonfind-build-") as room:
        copy_crates(crates, room)
        status = prove(room, len(crates), anew)
        for program in PROGRAMS if status == 0 else ():
            new = ROOT / f"{program}.new"
            shutil.copyfile(Path(room, "crates", program, "out", program), new)
            os.chmod(new, 0o755)
            os.replace(new, ROOT / program)
    return status


def main(anew: bool) -> int:
    """Build the programs, unless they are built."""
    crates = lines_of_crates()
    built = " and ".join(str(ROOT / it) for it in PROGRAMS)
    if is_built(crates) and not anew:
        print(f"{built} are built, and nothing that they are made from has changed")
        return 0
    if not shutil.which("rt"):
        print("there is no rt on PATH: the Rattle kit has it, and only a build needs it, not an archive of a release")
        return 1
    print(f"proving {len(crates)} crates, each function of them, before the programs are built")
    print(last_time())
    print("make look shows the program in about a minute, with no proof", flush=True)
    if keeps():
        print(KEPT, flush=True)
    try:
        status = build(crates, anew)
    except KeyboardInterrupt:
        print(CUT_OFF)
        return 130
    if status == 0:
        print(f"built: {built}\nnext: {NEXT}")
    return status


if __name__ == "__main__":
    sys.exit(main("--anew" in sys.argv[1:]))
