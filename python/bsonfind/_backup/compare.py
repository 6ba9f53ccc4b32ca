"""Compares two dumps, or the dumps of two directories, in memory that does not grow with them: more lines than fit into it are sorted."""

from __future__ import annotations

import heapq
import os
import tempfile
from collections import Counter
from contextlib import AbstractContextManager, suppress
from hashlib import blake2b
from typing import IO, Callable, Iterable, Iterator, NamedTuple, Sequence

from .._dumps.elements import array_of, value_at, values_at
from .._dumps.originals import in_temporary
from .._dumps.paths import Path
from .._dumps.runs import each_document, texts_of_values
from .._dumps.sources import Source
from .._errors import BsonfindError, ProgramError, why
from .backups import dumps_below
from .texts import batches, visible_json

# How documents differ, in the order in which they are counted.
KINDS = ("same", "changed", "removed", "added")
# This many lines, or bytes of lines, are sorted in memory, and this many files of sorted lines are merged at once.
_MOST_LINES, _MOST_BYTES, _MOST_RUNS = 1 << 18, 1 << 25, 64


class CompareError(BsonfindError):
    """Dumps that cannot be compared."""


class Pair(NamedTuple):
    """The names of two dumps of one collection, None if there is none, and the name that both have in their directories."""

    name: str
    first: str | None
    second: str | None


class Comparison(NamedTuple):
    """How many documents two dumps have, and of each kind, how many have the key of another or none, and how many dumps are alone."""

    documents: tuple[int, int]
    kinds: Counter[str]
    repeated: int = 0
    without: int = 0
    alone: int = 0

    @property
    def is_same(self) -> bool:
        """Whether both have the same documents, in whatever order."""
        return not (self.alone or any(self.kinds[kind] for kind in KINDS[1:]))

    def __add__(self, other: Comparison) -> Comparison:  # type: ignore[override]
        first, second = (a + b for a, b in zip(self.documents, other.documents))
        counts = (a + b for a, b in zip(self[2:], other[2:]))
        return Comparison((first, second), self.kinds + other.kinds, *counts)


NOTHING = Comparison((0, 0), Counter())


def pairs_of(first: str, second: str) -> tuple[list[Pair], list[CompareError]]:
    """The pairs of two dumps, or of the dumps below two directories, and what cannot be found there."""
    if not os.path.isdir(first) and not os.path.isdir(second):
        return [Pair(second, first, second)], []
    for name, other in ((first, second), (second, first)):
        if not os.path.isdir(name):
            raise CompareError(f"{name} is no directory, and {other} is one")
    problems: list[CompareError] = []
    a, b = (names_below(directory, problems) for directory in (first, second))
    return [Pair(name, a.get(name), b.get(name)) for name in sorted({*a, *b})], problems


def names_below(directory: str, problems: list[CompareError]) -> dict[str, str]:
    """The dumps below a directory by what both of a pair are named, and what cannot be found there."""
    names: dict[str, str] = {}
    for dump in dumps_below(directory):
        name = os.path.relpath(dump.name, directory)
        name = name[:-3] if name.endswith(".gz") else name
        if dump.error:
            problems.append(CompareError(f"{dump.name}: {dump.error}"))
        elif name in names:
            problems.append(CompareError(f"{dump.name}: {names[name]} is there too"))
        else:
            names[name] = dump.name
    return names


def compare(pair: Pair, path: str, program: str, say: Callable[[str], None]) -> Comparison:
    """Compares the documents of two dumps, which belong together by the value at a path; `say` gets what differs.

    Documents are the same if their bytes are, and so are values. The order of documents does not count, that of fields does. Where
    the path leads through an array to several values, they are one array.
    """
    names = Path(path).names()
    if pair.first is None or pair.second is None:
        return _one_alone(pair, program, say)
    documents = [0, 0]
    with Sorter() as sorter:
        for side, name in enumerate((pair.first, pair.second)):

            def take(document: bytes, side: int = side) -> None:
                sorter.add(line_of(document, names, side))

            documents[side] = each_of(name, program, take)
        return compared(sorter.all(), (documents[0], documents[1]), path, program, say)


def line_of(document: bytes, names: Sequence[bytes], side: int) -> bytes:
    """What is sorted of a document of one of two dumps: the key that names lead to, a digest, and which dump it is.

    The key comes first, in digits, so that lines are sorted by it. Documents without a key come before all others.
    """
    key = _key_of(document, names).hex().encode()
    return b"%s\t%s\t%d\n" % (key, blake2b(document, digest_size=16).hexdigest().encode(), side)


def compared(
    lines: Iterator[bytes], documents: tuple[int, int], path: str, program: str, say: Callable[[str], None]
) -> Comparison:
    """The counts of the sorted lines of two dumps, which have this many documents; `say` gets what differs."""
    counts: Counter[str] = Counter()
    for some in batches(_differences(lines, path, counts), lambda line: len(line[1])):
        values = [bytes.fromhex(key.decode()) for _, key, _ in some if key]
        texts = iter(texts_of_values(values, program))
        for before, key, after in some:
            say(f"{before}{visible_json(next(texts)) if key else ''}{after}")
    repeated, without = counts.pop("repeated", 0), counts.pop("without", 0)
    return Comparison(documents, counts, repeated, without)


def _key_of(document: bytes, names: Sequence[bytes]) -> bytes:
    """The value by which a document belongs to others, which is empty if the path leads to none."""
    value = value_at(document, names)
    if value is None:
        values = values_at(document, names)
        return values[0] if len(values) == 1 else array_of(values) if values else b""
    return value


def _differences(lines: Iterator[bytes], path: str, counts: Counter[str]) -> Iterator[tuple[str, bytes, str]]:
    """What sorted lines of two dumps differ in, each as a text, a key and another text. The documents of each kind are counted."""
    for key, first, second, same in _by_key(lines):
        counts["same"] += same
        if key and same == first == second == 1:
            continue
        removed, added = first - same, second - same
        if not key:
            counts.update(removed=removed, added=added, without=first + second)
            yield f"without {path}: {first} and {second} documents, {removed} removed, {added} added", key, ""
            continue
        if max(first, second) > 1:
            counts["repeated"] += sum(count for count in (first, second) if count > 1)
            yield "repeated ", key, f": {first} and {second} documents"
        changed = min(removed, added)
        for kind, count in (("changed", changed), ("removed", removed - changed), ("added", added - changed)):
            counts[kind] += count
            for _ in range(count):
                yield f"{kind} ", key, ""


def _by_key(lines: Iterator[bytes]) -> Iterator[tuple[bytes, int, int, int]]:
    """Each key of sorted lines, how many documents of it each dump has, and how many are the same: a line has key, digest and dump."""
    key, document = b"", b""
    first = second = same = one = other = 0
    for line in lines:
        found = line[:-2]
        if found != document:
            first, second, same = first + one, second + other, same + min(one, other)
            one = other = 0
            document, found = found, found[: found.index(b"\t")]
            if found != key:
                if first or second:
                    yield key, first, second, same
                key = found
                first = second = same = 0
        if line.endswith(b"0\n"):
            one += 1
        else:
            other += 1
    first, second, same = first + one, second + other, same + min(one, other)
    if first or second:
        yield key, first, second, same


def _one_alone(pair: Pair, program: str, say: Callable[[str], None]) -> Comparison:
    """The counts of a dump that only one of two directories has."""
    name = pair.first if pair.second is None else pair.second
    assert name is not None
    return alone(each_of(name, program, lambda _: None), pair.second is None, say)


def alone(count: int, is_removed: bool, say: Callable[[str], None]) -> Comparison:
    """The counts of a dump with this many documents that only the first of two backups has, or only the second."""
    kind = "removed" if is_removed else "added"
    say(f"{kind} with all of its {count} documents")
    return Comparison((count, 0) if is_removed else (0, count), Counter({kind: count}), alone=1)


def each_of(name: str, program: str, take: Callable[[bytes], None]) -> int:
    """Has the documents of a dump checked as they pass on, and gives their number. What is wrong is raised with its name."""
    try:
        with Source(name) as source:
            return each_document(source, program, take)
    except (BsonfindError, OSError) as error:
        raise CompareError(f"{name}: {why(error)}") from None


def rows(done: Comparison, names: Sequence[str], path: str) -> list[tuple[str, int]]:
    named = f"with the {path} of another", f"without {path}", "dumps of one alone"
    more = zip(named, (done.repeated, done.without, done.alone))
    return [
        *((f"documents in {name}", count) for name, count in zip(names, done.documents)),
        *((kind, done.kinds[kind]) for kind in KINDS),
        *((name, count) for name, count in more if count),
    ]


class Sorter(AbstractContextManager["Sorter"]):
    """Lines that are sorted by way of files without names, in the directory for temporary files."""

    def __init__(self) -> None:
        self._lines: list[bytes] = []
        self._size = 0
        self._runs: list[IO[bytes]] = []

    def add(self, line: bytes) -> None:
        """Takes a line, with its newline."""
        self._lines.append(line)
        self._size += len(line)
        if len(self._lines) >= _MOST_LINES or self._size >= _MOST_BYTES:
            self._lines.sort()
            self._write(self._lines)
            self._lines, self._size = [], 0
            if len(self._runs) == _MOST_RUNS:
                runs, self._runs = self._runs, []
                self._write(heapq.merge(*runs))
                _close(runs)

    def all(self) -> Iterator[bytes]:
        """All lines, in the order of their bytes."""
        self._lines.sort()
        return iter(heapq.merge(*self._runs, self._lines))

    def _write(self, lines: Iterable[bytes]) -> None:
        try:
            run = tempfile.TemporaryFile()
            self._runs.append(run)
            run.writelines(lines)
            run.seek(0)
        except OSError as error:
            raise ProgramError(f"{error.strerror}: cannot sort{in_temporary()}") from error

    def __exit__(self, *_: object) -> None:
        _close(self._runs)


def _close(runs: Iterable[IO[bytes]]) -> None:
    for run in runs:
        with suppress(OSError):  # What was not written is not read.
            run.close()
