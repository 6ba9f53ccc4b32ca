"""What the tests share: where the repository and its programs are, what their pages say of their usage, and counts of what passed."""

import os
import re
from pathlib import Path

ROOT = Path(__file__).resolve().parent.parent
# ./bsonfind, or the program of BSONFIND. `bsonwide` stands beside it.
PROGRAM = Path(os.environ.get("BSONFIND") or ROOT / "bsonfind").absolute()
# The status of a script that could run nothing, since the machine lacks what it needs.
SKIPPED = 77


def lines_of_synopsis(program: str) -> list[str]:
    """The command lines of the synopsis of a program's man page, as its usage writes them, without its name; the last is `--help`."""
    page = (ROOT / f"man/{program}.1").read_text(encoding="utf-8")
    synopsis = page.partition(".Sh SYNOPSIS\n")[2].partition("\n.Sh ")[0]
    lines = []
    for line in synopsis.split(".Nm\n")[1:]:
        line = re.sub(r"^\.Op (.*)$", r"[\1]", line, flags=re.MULTILINE)
        line = re.sub(r"\bFl -", "--", re.sub(r"^\.", "", line, flags=re.MULTILINE))
        lines.append(" ".join(re.sub(r"\b(?:Cm|Ar) ", "", line).split()))
    return lines


def usage_of(program: str) -> str:
    """The usage of a program, by the synopsis of its man page."""
    return "".join(f"{'       ' if number else 'usage: '}{program} {line}\n" for number, line in enumerate(lines_of_synopsis(program)[:-1]))


def commands_of(program: str) -> list[str]:
    """The commands of a program, by the synopsis of its man page."""
    return [line.split()[0] for line in lines_of_synopsis(program)[:-1]]


class Tests:
    """Counts what passed."""

    def __init__(self) -> None:
        self.passed = self.failed = 0

    def want(self, name: str, is_so: bool, said: object = "") -> None:
        if is_so:
            self.passed += 1
        else:
            self.failed += 1
            print(f"FAILED: {name}: {said}")
