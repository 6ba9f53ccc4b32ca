#!/usr/bin/env python3
"""Compares the usage that `bsonfind` and `bsonwide` print with the synopses of their man pages and with their completions.

usage: tests/docs/usage.py     The last line is 'N passed, M failed'.

- The synopsis has the command lines of the usage, in their order, and then that of `--help`.
- The page has an entry for each command and each option of the usage, and no other.
- The completion of each shell offers each of them, and no other.
"""

import re
import subprocess
import sys
from pathlib import Path

sys.path.insert(0, str(Path(__file__).resolve().parents[1]))

from support import PROGRAM, ROOT, Tests, lines_of_synopsis

PROGRAMS = ("bsonfind", "bsonwide")
# Of each completion the lines, or the parts, that offer commands and options, and these in them.
COMPLETIONS = {
    "{}.bash": (r"(?:compgen -W|options=)\s*'([^']*)'", r"[\w-]+"),
    "_{}": (r"^\t.*$", r"(?<=^\t')[a-z]+(?=:)|(?<=^\t\t')--\w+(?=[\[=])|(?<=\))--\w+(?=[\[=])|(?<=,)--help(?=\})"),
    "{}.fish": (r"^complete .*$", r"(?<=-a )[a-z]+|-l \w+"),
}


def lines_of_usage(program: str) -> list[str]:
    """The command lines of the usage, each on one line without the name of the program."""
    text = subprocess.run([PROGRAM.with_name(program), "--help"], capture_output=True, text=True, check=True).stdout
    return [" ".join(it.split()) for it in re.split(rf"^(?:usage:)?\s+{program} ", text, flags=re.MULTILINE) if it]


def words_of(lines: list[str]) -> set[str]:
    """The commands and the options of command lines."""
    return {it.partition(" ")[0] for it in lines} | set(re.findall(r"--\w+", " ".join(lines)))


def words_of_entries(page: str) -> set[str]:
    """The commands and options that a man page has entries for."""
    entries = re.findall(r"^\.It (?:Cm (\w+)|Fl (?:h , )?-(\w+))", page, re.MULTILINE)
    return {command or f"--{option}" for command, option in entries}


def words_of_completion(program: str, name: str) -> set[str]:
    """The commands and options that a completion names."""
    places, word = COMPLETIONS[name]
    text = (ROOT / "completions" / name.format(program)).read_text(encoding="utf-8")
    found = [it for place in re.findall(places, text, re.MULTILINE) for it in re.findall(word, place)]
    return {it.replace("-l ", "--") for it in found}


def main() -> int:
    tests = Tests()
    for program in PROGRAMS:
        usage = [*lines_of_usage(program), "--help"]
        page = (ROOT / f"man/{program}.1").read_text(encoding="utf-8")
        synopsis = lines_of_synopsis(program)
        tests.want(f"the synopsis of {program}", synopsis == usage, synopsis)
        for what, words in {
            f"the entries of man/{program}.1": words_of_entries(page),
            **{f"completions/{name.format(program)}": words_of_completion(program, name) for name in COMPLETIONS},
        }.items():
            tests.want(f"{what} and the usage", words == words_of(usage), words ^ words_of(usage))
    print(f"{tests.passed} passed, {tests.failed} failed")
    return 1 if tests.failed else 0


if __name__ == "__main__":
    sys.exit(main())
