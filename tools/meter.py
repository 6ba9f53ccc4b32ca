#!/usr/bin/env python3
"""Measures the processor time of a run of `rt`, by crate and by part: its proof, its tests, its edits.

usage: tools/meter.py [--table FILE] COMMAND [ARGUMENT..]     such as tools/meter.py rt ci

The table goes to standard output, or into FILE. It looks at the processes of the command every half second, as /proc shows them, so
what starts and ends between two looks is not counted with its crate, but in the sum. The status is that of the command.
"""

import os
import resource
import subprocess
import sys
import threading
import time
from collections import defaultdict
from pathlib import Path
from typing import TextIO

PARTS = ("proof", "tests", "edits")
TICKS = os.sysconf("SC_CLK_TCK")


class Meter:
    """The seconds of processor time that the checks below a process have taken, by crate and part."""

    def __init__(self, top: int) -> None:
        self.top = top
        # By process and its start: what it is, and its seconds so far.
        self.seen: dict[tuple[str, str], tuple[tuple[str, str] | None, float]] = {}
        self.is_over = threading.Event()
        self.thread = threading.Thread(target=self.watch, daemon=True)
        self.thread.start()

    def watch(self) -> None:
        """Look at all processes until the run is over."""
        while not self.is_over.wait(0.5):
            self.look()

    def look(self) -> None:
        """Note the seconds of each check that runs now."""
        found = {}
        for folder in Path("/proc").glob("[0-9]*"):
            try:
                fields = (folder / "stat").read_text().rpartition(")")[2].split()
                found[folder.name] = fields
            except OSError:
                continue
        for name, fields in found.items():
            above = name
            while above in found and above != str(self.top):
                above = found[above][1]
            if above != str(self.top):
                continue
            key = (name, fields[19])
            kind = self.seen[key][0] if key in self.seen else kind_of(name)
            self.seen[key] = kind, (int(fields[11]) + int(fields[12])) / TICKS

    def seconds(self) -> dict[str, dict[str, float]]:
        """Return the seconds by crate, and of a crate by part."""
        taken: dict[str, dict[str, float]] = defaultdict(lambda: dict.fromkeys(PARTS, 0.0))
        for kind, seconds in list(self.seen.values()):
            if kind:
                taken[kind[0]][kind[1]] += seconds
        return taken


def kind_of(process: str) -> tuple[str, str] | None:
    """Return the crate and the part that a process of the toolchain checks, if it is one."""
    try:
        words = Path("/proc", process, "cmdline").read_bytes().decode(errors="replace").split("\0")
        place = os.readlink(f"/proc/{process}/cwd")
    except OSError:
        return None
    if "--crate-name" not in words:
        return None
    crate = words[words.index("--crate-name") + 1]
    is_edit = "rt-edit" in place or any("rt-edits-" in word for word in words)
    return crate, "edits" if is_edit else "tests" if "--test" in words or crate.endswith("_tests") else "proof"


def main(command: list[str], out: TextIO) -> int:
    """Run the command, and write what each crate took."""
    started = time.monotonic()
    with subprocess.Popen(command) as run:
        meter = Meter(run.pid)
        run.wait()
    meter.is_over.set()
    taken = meter.seconds()
    print(f"\n{'seconds of processor time':30}" + "".join(f"{part:>8}" for part in PARTS), file=out)
    for crate in sorted(taken, key=lambda it: -sum(taken[it].values())):
        print(f"{crate:30}" + "".join(f"{taken[crate][part]:8.0f}" for part in PARTS), file=out)
    sums = {part: sum(it[part] for it in taken.values()) for part in PARTS}
    print(f"{'minutes':30}" + "".join(f"{sums[part] / 60:8.1f}" for part in PARTS), file=out)
    used = resource.getrusage(resource.RUSAGE_CHILDREN)
    whole = (used.ru_utime + used.ru_stime) / 60
    print(f"{whole:.1f} minutes of processor time in all, {(time.monotonic() - started) / 60:.1f} minutes by the clock", file=out)
    return run.returncode


if __name__ == "__main__":
    if sys.argv[1:2] == ["--table"] and sys.argv[3:]:
        with open(sys.argv[2], "w", encoding="utf-8") as table:
            sys.exit(main(sys.argv[3:], table))
    sys.exit(main(sys.argv[1:], sys.stdout) if sys.argv[1:] else __doc__)
