#!/usr/bin/env python3
"""Looks whether `rt fmt` would change a file of the crates. It works on a copy, and proves nothing.

usage: tests/docs/layout.py     The last line is 'N passed, M failed'. Without rt it looks at nothing, and says so.
"""

import filecmp
import shutil
import subprocess
import sys
import tempfile
from concurrent.futures import ThreadPoolExecutor
from pathlib import Path

sys.path.insert(0, str(Path(__file__).resolve().parents[1]))

from support import ROOT, Tests

PARTS = ("src", "specs", "proofs")


def main() -> int:
    tests = Tests()
    if not shutil.which("rt"):
        print("layout: not looked at, since there is no rt")
    with tempfile.TemporaryDirectory() as folder:
        copy = Path(folder)
        shutil.copyfile(ROOT / "crates.txt", copy / "crates.txt")
        for crate in ROOT.glob("crates/*") if shutil.which("rt") else ():
            for part in (it for it in PARTS if (crate / it).is_dir()):
                shutil.copytree(crate / part, copy / "crates" / crate.name / part)

        def laid_out(crate: Path) -> tuple[Path, subprocess.CompletedProcess[str]]:
            return crate, subprocess.run(["rt", "fmt"], cwd=crate, stdin=subprocess.DEVNULL, capture_output=True, text=True, errors="replace")

        with ThreadPoolExecutor() as pool:
            for crate, ran in pool.map(laid_out, sorted(copy.glob("crates/*"))):
                files = [it.relative_to(copy) for it in crate.rglob("*") if it.suffix in (".rt", ".antt")]
                changed = [str(it) for it in files if not filecmp.cmp(copy / it, ROOT / it, shallow=False)]
                said = ", ".join(changed) if changed else ran.stdout + ran.stderr
                tests.want(f"the layout of {crate.name}, by rt fmt", ran.returncode == 0 and not changed, said)
    print(f"{tests.passed} passed, {tests.failed} failed")
    return 1 if tests.failed else 0


if __name__ == "__main__":
    sys.exit(main())
