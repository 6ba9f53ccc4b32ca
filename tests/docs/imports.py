#!/usr/bin/env python3
"""Looks whether each crate imports each name from the crate that owns it, not through a face that shows it again.

usage: tests/docs/imports.py
"""
import re
import sys
from pathlib import Path

CRATES = Path(__file__).resolve().parents[2] / "crates"
USE = re.compile(r"^\s*(pub )?use (\w+)::([\w:]*?)(?:::)?(?:\{([^}]*)\}|(\w+));", re.M)


def names_of(found: re.Match[str]) -> list[str]:
    """The names that a `use` takes in, without what they are called here."""
    return [it.split(" as ")[0].strip() for it in (found[4] or found[5]).split(",") if it.strip()]


def shown_by(crate: str) -> dict[str, str]:
    """The names that the root of a crate shows of other crates, each with its owner."""
    text = (CRATES / crate / "src/lib.rt").read_text(encoding="utf-8")
    return {name: found[2] for found in USE.finditer(text) if found[1] and (CRATES / found[2]).is_dir() for name in names_of(found)}


def main() -> int:
    faces = {it.parents[1].name: shown_by(it.parents[1].name) for it in CRATES.glob("*/src/lib.rt")}
    passed = failed = 0
    for source in sorted(CRATES.glob("*/src/**/*.rt")):
        for found in USE.finditer(source.read_text(encoding="utf-8")):
            for name in names_of(found) if found[2] in faces else []:
                owner = faces[found[2]].get(name)
                if owner:
                    print(f"{source.relative_to(CRATES)}: {name} is imported from {found[2]}, and {owner} owns it")
                    failed += 1
                else:
                    passed += 1
    print(f"{passed} passed, {failed} failed")
    return 1 if failed else 0


if __name__ == "__main__":
    sys.exit(main())
