#!/usr/bin/env python3
"""Looks whether the example in the root of each library is the one that its crate of tests proves and runs.

A library of laws alone needs none, and a face neither: they have nothing to run.

usage: tests/docs/examples.py
"""
import glob
import os
import re
import sys

ROOT = os.path.dirname(os.path.dirname(os.path.dirname(os.path.realpath(__file__))))
SHOWN = re.compile(r"//! An example, which `(\w+)` proves and runs as `examples::(\w+)`:\n//!\n//! ```\n(.*?)//! ```\n", re.S)
MODULES = re.compile(r"^(?:pub )?mod (\w+);", re.M)


def text_of(path):
    with open(f"{ROOT}/crates/{path}", encoding="utf-8") as it:
        return it.read()


def is_proved(tests, name, example):
    """Whether the function of that name has the lines of the example."""
    found = re.search(rf"#\[test\]\nfn {name}\(.*?\n}}\n", text_of(f"{tests}/src/examples.rt"), re.S)
    return bool(found) and "".join(f"    {it[4:]}\n" for it in example.splitlines()) in found[0]


def main():
    failed = passed = 0
    for root in sorted(glob.glob(f"{ROOT}/crates/*/src/lib.rt")):
        crate = root.split("/")[-3]
        text = text_of(f"{crate}/src/lib.rt")
        if crate.endswith("_tests") or MODULES.findall(text) in ([], ["laws"]):
            continue
        shown = SHOWN.search(text)
        if shown and is_proved(*shown.groups()):
            passed += 1
        else:
            print(f"{crate}: {'its example is not the one that is proved' if shown else 'its root shows no example'}")
            failed += 1
    print(f"{passed} passed, {failed} failed")
    return 1 if failed else 0


if __name__ == "__main__":
    sys.exit(main())
