"""The commands `count` and `schema`: what they read, and the rows or the lines of JSON that they print."""

from __future__ import annotations

import json
from decimal import Decimal
from functools import partial
from itertools import islice
from typing import Iterable, Iterator, Sequence

from .._backup.backups import each_once
from .._backup.count import Count, Row
from .._backup.reading import Reading, Take
from .._backup.schema import Looked, Row as PathRow, Schema
from .._backup.texts import texts, visible_json
from .._backup.workers import Spread
from .._dumps.paths import Number, Path, is_finite
from .._run.processes import wide_program
from .arguments import FAILED, FAULTY, GOOD
from .console import PATIENCE, Console, Progress, Table

# The columns of a sum, and what is printed of a document without the field.
_OF_SUMS, _MISSING = ("sum", "NaN", "infinite", "other"), "missing"
# How many rows are printed at once.
_MOST_ROWS = 10_000
Cells = Sequence[str]


class Counting:
    """A run of one of the commands over some dumps."""

    def __init__(self, names: Sequence[str], program: str, is_json: bool) -> None:
        self._names, self._program, self._is_json = names, program, is_json
        self._console = Console()
        wide_program(program)

    def count(self, by: Path | None, add: Path | None, query: str | None) -> int:
        """Prints how many documents match, in all or of each value, and gives the status."""
        count, matching = Count(by, add), None
        if query is not None:
            from .._backup.query import Matching

            matching = Matching(query, self._program)
        most = matching.most if matching else None
        if count.is_by or count.is_adding:
            with Spread(partial(Count, by, add), count.merge) as spread:
                status, is_read = self._read(lambda some: spread.add(matching.of(some) if matching else some), most)
                spread.take_rest()
        else:
            status, is_read = self._read(lambda some: count.add(matching.count(some) if matching else len(some)), most)
        if is_read:
            names = (*(("value",) if count.is_by else ()), "count", *(_OF_SUMS if count.is_adding else ()))
            self._print(names, self._counts(count.rows(self._program)))
        return status

    def schema(self, sample: int | None) -> int:
        """Prints the fields of documents, and gives the status."""
        fields = Schema(sample)
        with Spread(Looked, fields.add) as spread:
            status, is_read = self._read(spread.add if sample is None else fields.take)
            spread.take_rest()
        if is_read:
            self._print(("path", "types", "least", "greatest", "example"), self._fields(list(fields.rows())))
            part = "" if fields.looked_at == fields.documents else f"{fields.looked_at} of "
            self._console.note(f"{part}{fields.documents} documents")
        return status

    def _read(self, take: Take, most: int | None = None) -> tuple[int, bool]:
        """Reads the dumps, says what is wrong with them, and gives the status, and whether one was read."""
        reading, status = Reading(self._program, most), GOOD
        firsts = each_once(self._names)
        names = [name for name, first in firsts.items() if name == first]
        with Progress(self._console, len(names), after=PATIENCE) as progress:
            for name in names:
                reading.read(name, take, progress)
        for name, first in firsts.items():
            if name != first:
                self._console.note(f"{name}: the same file as {first}, which counts once")
        for report in reading.reports:
            if not report.is_good:
                for line in report.lines():
                    self._console.problem(f"{report.name}: {line}")
                status = max(status, FAILED if report.error and not report.is_fault else FAULTY)
        return status, any(it.documents or not it.error for it in reading.reports)

    def _print(self, names: Cells, rows: Iterator[Cells]) -> None:
        """Prints rows, some at once. As JSON each is an object, in which a cell that is empty has no name."""
        table = Table(self._console, names)
        while some := list(islice(rows, _MOST_ROWS)):
            if self._is_json:
                objects = (",".join(f'"{name}":{cell}' for name, cell in zip(names, cells) if cell) for cells in some)
                self._console.documents([f"{{{it}}}\n".encode() for it in objects])
            else:
                table.print(some)

    def _counts(self, rows: Sequence[Row]) -> Iterator[Cells]:
        values = texts([row.value for row in rows if row.value], self._program)
        for row in rows:
            value = () if row.value is None else (self._cell(next(values)) if row.value else "" if self._is_json else _MISSING,)
            sums = () if row.sum is None else (self._sum(row.sum.value()), *map(str, (row.sum.nans, row.sum.infinities, row.sum.others)))
            yield (*value, str(row.documents), *sums)

    def _cell(self, value: str) -> str:
        """A value as `dump` prints it, in a table without a character that a terminal may obey."""
        return value if self._is_json else visible_json(value)

    def _sum(self, number: Number) -> str:
        """The text of a sum, which as JSON has its type where that is no number of JSON."""
        text = str(number) if is_finite(number) else "Infinity" if number > 0 else "-Infinity"
        if not self._is_json or isinstance(number, int) or isinstance(number, float) and text[-1].isdigit():
            return text
        return f'{{"${"numberDecimal" if isinstance(number, Decimal) else "numberDouble"}":"{text}"}}'

    def _fields(self, rows: Sequence[PathRow]) -> Iterator[Cells]:
        values = texts([it for row in rows for it in row[2:] if it is not None], self._program)
        for row in rows:
            path = json.dumps(row.path, ensure_ascii=False) if self._is_json else row.path
            types = json.dumps(row.types, separators=(",", ":")) if self._is_json else ", ".join(_shares(row.types))
            yield (path, types, *("" if it is None else self._cell(next(values)) for it in row[2:]))


def _shares(types: dict[str, int]) -> Iterable[str]:
    """The types of values, each with its share of all. Only what is all of them is 100%, and none is 0%."""
    total = sum(types.values())
    for name, count in types.items():
        share = f"{count / total:.1%}".replace(".0%", "%")
        yield f"{name} {share if count == total else '<0.1%' if share == '0%' else '>99.9%' if share == '100%' else share}"
