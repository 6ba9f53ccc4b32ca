#!/usr/bin/env python3
"""Runs the tests of the package in python, over ./bsonfind or the program of BSONFIND, in an order by chance, so that none needs another.

usage: tests/package/package.py [PATTERN] [--seed N]     Of the files of that name alone, such as test_audit.py, in the order of a seed,
                                                         which is printed. The last line is 'N passed, M failed'.
"""

import argparse
import os
import random
import sys
import unittest
from pathlib import Path
from typing import Iterator

sys.path.insert(0, str(Path(__file__).resolve().parents[1]))

from support import PROGRAM, ROOT

PACKAGE = ROOT / "python"


def tests_in(suite: unittest.TestSuite) -> Iterator[unittest.TestCase]:
    """Return the tests of a suite, one by one."""
    for it in suite:
        yield from tests_in(it) if isinstance(it, unittest.TestSuite) else [it]


def main() -> int:
    words = argparse.ArgumentParser()
    words.add_argument("pattern", nargs="?", default="test*.py")
    words.add_argument("--seed", type=int, default=random.randrange(1 << 32))
    known = words.parse_args()
    os.environ.setdefault("BSONFIND", str(PROGRAM))
    sys.path.insert(0, str(PACKAGE))
    tests = list(tests_in(unittest.defaultTestLoader.discover(str(PACKAGE / "tests"), known.pattern, top_level_dir=str(PACKAGE))))
    print(f"seed {known.seed}", flush=True)
    random.Random(known.seed).shuffle(tests)
    result = unittest.TextTestRunner(stream=sys.stdout).run(unittest.TestSuite(tests))
    failed = len(result.failures) + len(result.errors) + len(result.unexpectedSuccesses)
    passed = result.testsRun - failed - len(result.skipped)
    print(f"{passed} passed, {failed} failed")
    return 1 if failed else 0


if __name__ == "__main__":
    sys.exit(main())
