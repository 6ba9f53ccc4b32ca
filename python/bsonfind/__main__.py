"""The commands `audit`, `salvage` and the others, as `bsonkit` or `python3 -m bsonfind`."""

from __future__ import annotations

import os
import sys

from ._command.program import become_program, take_utf8


def main(words: list[str] | None = None) -> int:
    """Runs a command, and gives the status. Without arguments they are those of this process, which may become the program."""
    if words is None:
        take_utf8()
        become_program(sys.argv[1:])
    from ._command.shell import run_command

    name = "bsonkit" if os.path.basename(sys.argv[0]) == "bsonkit" else "python3 -m bsonfind"
    return run_command(sys.argv[1:] if words is None else words, name)


if __name__ == "__main__":
    sys.exit(main())
