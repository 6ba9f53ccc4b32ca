#!/usr/bin/env python3
"""Runs the tests of a crate of calls that grow with each growth of their memory refused in turn, one a run.

usage: tests/faults/growing_calls.py [PROGRAM]   The last line is 'N passed, M failed'.

PROGRAM is the tests of such a crate, bd_growth_tests or bd_wide_growth_tests, as the gate, or `rt test` in it, proved and built them;
without it those of bd_growth_tests. Of each test the first growth is refused, then the second, and so on until a run meets no refusal;
that run passes too. They run over tests/faults/failing.c; without a C compiler, `cc`, nothing is tested.
"""

import os
import shutil
import subprocess
import sys
import tempfile
from pathlib import Path

sys.path.insert(0, str(Path(__file__).resolve().parents[1]))

from failing import LAYOUT, PATIENCE, SOURCE
from support import ROOT

PROGRAM = ROOT / "crates/bd_growth_tests/out/bd_growth_tests_tests"
# No test has so many growths.
MOST = 100_000


def names_of(program: Path) -> list[str]:
    """The tests of a program."""
    listed = subprocess.run([program, "--list"], check=True, capture_output=True, text=True).stdout
    return [line.removesuffix(": test") for line in listed.splitlines() if line.endswith(": test")]


class Refusing:
    """Runs tests of a program over the library, in the directory `room`."""

    def __init__(self, program: Path, room: Path) -> None:
        self.program, self.library, self.counts = program, room / "failing.so", room / "counts"
        subprocess.run(["cc", "-shared", "-fPIC", "-O2", "-o", self.library, SOURCE], check=True)

    def run(self, name: str, number: int) -> tuple[bool, bool]:
        """Whether a test passes where the growth of that number is refused, and whether it has so many."""
        self.counts.write_bytes(bytes(LAYOUT.size))
        env = {**os.environ, "LD_PRELOAD": str(self.library), "FAILING_COUNTS": str(self.counts), "FAILING_GROWTH": str(number)}
        try:
            ran = subprocess.run([self.program, name], env=env, capture_output=True, text=True, timeout=PATIENCE)
        except subprocess.TimeoutExpired:
            print(f"{name}, growth {number}: it had not ended after {PATIENCE} seconds")
            return False, False
        ready, _, refused, *_ = LAYOUT.unpack(self.counts.read_bytes())
        is_passed = bool(ready) and ran.returncode == 0 and ran.stdout.endswith("test result: ok\n")
        if not is_passed:
            print(f"{name}, growth {number}: {'' if ready else 'not over the library, '}status {ran.returncode}\n{ran.stdout}{ran.stderr}")
        return is_passed, bool(ready and refused)

    def refuse_each(self) -> tuple[int, int]:
        """How many runs passed, and how many failed."""
        passed = failed = 0
        for name in names_of(self.program):
            for number in range(1, MOST):
                is_passed, is_refused = self.run(name, number)
                passed, failed = passed + is_passed, failed + (not is_passed)
                if not is_refused:
                    print(f"{name}: {number - 1} growths")
                    break
        return passed, failed


def main() -> int:
    program = Path(sys.argv[1]) if len(sys.argv) > 1 else PROGRAM
    passed = failed = 0
    if not shutil.which("cc"):
        print("there is no C compiler: no growth was refused")
    elif not program.is_file():
        print(f"{program} is not built: run rt test in its crate")
        failed = 1
    else:
        with tempfile.TemporaryDirectory() as room:
            passed, failed = Refusing(program.resolve(), Path(room)).refuse_each()
        # A program of no tests tests nothing.
        failed += not passed
    print(f"{passed} passed, {failed} failed")
    return 1 if failed else 0


if __name__ == "__main__":
    sys.exit(main())
