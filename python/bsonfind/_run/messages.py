"""What the program prints on standard error, as exceptions."""

from __future__ import annotations

import json
import re

from .._errors import BsonfindError, CommandError, DumpError, ProgramError
from .._faults import read_fault

_PREFIX = re.compile("bsonfind: |bsonwide: ")
# The texts of each layer of refusals, from number 1 on; words that only a session prints are left out.
_WORDS = {
    "json": (
        "not JSON", "not a document", "too deep", "bad wrapper", "not in the profile", "number out of range", "zero in a name",
        "text after the document",
    ),
    "filter": ("unknown operator", "not in the profile", "bad operand", "operators and fields mixed", "bad path", "too deep"),
    "path": ("empty component", "too many components"),
    "numbers": ("the types of numbers are not told apart here",),
}  # fmt: skip
_SESSION = {"not a sort": 1, "not a token": 7, "token of another dump or request": 8, "token place past the dump": 9}
_REFUSAL = re.compile(r'(query|sort|index|token): (?:byte (\d+): |place (".*"): )?(.+)')
# What the program says where its output takes no more.
CANNOT_WRITE = "cannot write"
_OF_THE_DUMP = ("cannot open", "cannot read", "input too long", "too many reads")


def error_of(status: int, told: str) -> BsonfindError:
    """The error of a run that did not end well, by its status and what it printed."""
    if status < 0:
        return ProgramError(f"ended by signal {-status}")
    # The last line by which the program reports an error.
    line = next((line[found.end() :] for line in reversed(told.split("\n")) if (found := _PREFIX.match(line))), None)
    if line is None:
        return ProgramError(told.strip() or (f"ended with status {status}" if status else "no count was printed"))
    fault = read_fault(line)
    if fault or line.startswith(_OF_THE_DUMP):
        return DumpError(line, fault)
    return _refusal(line) or ProgramError(line)


def _refusal(line: str) -> CommandError | None:
    """What a run of `find` refuses, with the layer and the number that a session says."""
    found = _REFUSAL.fullmatch(line)
    if not found:
        return None
    option, byte, place, told = found.groups()
    words, _, advice = told.partition("; ")
    layer = "path" if option == "index" else "numbers" if words in _WORDS["numbers"] else "filter" if place else "json"
    where = json.loads(place) if place else int(byte) if byte else None
    if words in _SESSION:
        refused = CommandError("session", _SESSION[words], words)
    elif words in _WORDS[layer]:
        refused = CommandError(layer, _WORDS[layer].index(words) + 1, words, where)
    else:
        return None
    refused.line, refused.advice = line, advice or None
    return refused
