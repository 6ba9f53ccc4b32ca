"""The texts that are read beside dumps, and what the log of mongodump says: its counts, and what did not end as it should."""

from __future__ import annotations

import codecs
import re
from typing import Iterable

from .._arguments import File, name_of
from .._dumps.outputs import naming

# What mongodump says when it begins the documents of a collection, and when it has them; an old one does not say how many they are.
# The name of a database has neither spaces nor dots, so that of the oplog and of a file of metadata is no collection.
_BEGUN = re.compile(r"(?:^|\s)writing (`?[^\s.]+\.\S.*)")
_DONE = re.compile(r"(?:^|\s)done dumping (\S.*?)(?: \(\d+ documents?\))?$")
_FAILED = re.compile(r"(?:^|\s)(?:Failed: |signal \S+ received)")
# What is between the name of a collection, which may have it too, and that of a file; and the end of the name of one of metadata.
_TO, _METADATA = " to ", " metadata"
# The name of a collection has 255 bytes, so it has these words at most this often.
_MOST_TO = 64
_DUMPED, _COUNT = "done dumping ", re.compile(r" \(([0-9]{1,19}) documents?\)")
_OPLOG_DUMPED = re.compile(r"dumped ([0-9]{1,19}) oplog entr(?:y|ies)")
# What a text begins with that is not UTF-8 alone, and what it is then. PowerShell writes UTF-16.
_MARKS = ((codecs.BOM_UTF8, "utf-8"), (codecs.BOM_UTF16_LE, "utf-16-le"), (codecs.BOM_UTF16_BE, "utf-16-be"))
# The documents of a time series are named by one of two names.
_BUCKETS = ".system.buckets."


def text_lines(path: File) -> list[str]:
    """The lines of a file, or of standard input for `-`: in UTF-8, or in UTF-16 if it begins so.

    Bytes that are not UTF-8 stay as they are in names.
    """
    name = name_of(path)
    with naming(name), open(0 if name == "-" else name, "rb", closefd=name != "-") as file:
        data = file.read()
    for mark, encoding in _MARKS:
        if data.startswith(mark):
            data = data[len(mark) :]
            if encoding != "utf-8":
                return data.decode(encoding, "replace").replace("\r\n", "\n").split("\n")
    return data.decode(errors="surrogateescape").split("\n")


def read_log(lines: Iterable[str]) -> dict[str, int]:
    """How many documents of each collection the log of mongodump reports, and at last how many entries of the oplog."""
    documents: dict[str, int] = {}
    oplog: dict[str, int] = {}
    for line in lines:
        told = line.partition(_DUMPED)[2]
        # A name may have the form of a count, which is the last one.
        count = next(reversed([*_COUNT.finditer(told)]), None)
        if count and count.start():
            documents[told[: count.start()].replace("`", "")] = int(count[1])
        elif found := _OPLOG_DUMPED.search(line):
            oplog = {"oplog": int(found[1])}
    return {**documents, **oplog}


def failures_in(lines: Iterable[str]) -> list[str]:
    """The lines by which mongodump failed or was ended, and those by which it began a collection of which no later one says `done`."""
    failures: dict[int, str] = {}
    # The lines by which collections were begun, by each name that one may have.
    begun: dict[str, list[int]] = {}
    for number, line in enumerate(lines, 1):
        text = f"line {number}: {line.rpartition(chr(9))[2].strip()}"
        if found := _DONE.search(line.rstrip()):
            for ended in begun.pop(_plain(found.group(1)), ()):
                failures.pop(ended, None)
        elif (found := _BEGUN.search(line)) and not found.group(1).partition(_TO)[0].endswith(_METADATA):
            failures[number] = f"{text}: no later line says that it is done"
            parts = found.group(1).split(_TO)
            for end in range(1, max(2, min(len(parts), _MOST_TO))):
                begun.setdefault(_plain(_TO.join(parts[:end])), []).append(number)
        elif _FAILED.search(line):
            failures[number] = text
    return list(failures.values())


def _plain(name: str) -> str:
    """A name as it is compared: old versions put it into quotation marks."""
    return name.replace("`", "").replace(_BUCKETS, ".", 1)
