#!/usr/bin/env python3
"""Looks whether each line of a clause is at most 100 columns wide.

usage: tests/docs/clauses.py
"""
import re
import sys
from pathlib import Path

CRATES = Path(__file__).resolve().parents[2] / "crates"
WIDEST = 100
BEGINS = re.compile(r"\s*(ensures|requires|invariant|decreases|ghost (?!use\b))")


def clauses_of(lines: list[str]) -> list[tuple[int, list[str]]]:
    """Each clause of a source, as the number of its first line and its lines."""
    clauses: list[tuple[int, list[str]]] = []
    is_open = False
    for number, line in enumerate(lines, 1):
        if not is_open and BEGINS.match(line):
            clauses.append((number, []))
            is_open = True
        if is_open:
            clauses[-1][1].append(line)
            text = "".join(clauses[-1][1])
            is_open = text.count("{") > text.count("}")
    return clauses


def main() -> int:
    passed = failed = 0
    for source in sorted(CRATES.glob("*/src/**/*.rt")):
        for first, lines in clauses_of(source.read_text(encoding="utf-8").splitlines()):
            wide = [number for number, line in enumerate(lines, first) if len(line) > WIDEST]
            for number in wide:
                print(f"{source.relative_to(CRATES)}:{number}: a clause is above {WIDEST} columns wide")
            failed += bool(wide)
            passed += not wide
    print(f"{passed} passed, {failed} failed")
    return 1 if failed else 0


if __name__ == "__main__":
    sys.exit(main())
