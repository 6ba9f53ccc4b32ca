"""Documents as the rows of a table, for pandas, pyarrow, DuckDB and csv."""

from __future__ import annotations

import json
from datetime import datetime
from typing import Any, Iterable, Iterator, Mapping
from uuid import UUID

from .._errors import ArgumentError
from .values import WRAPPERS, ObjectId

_INT64 = range(-(1 << 63), 1 << 63)


def to_dicts(documents: Iterable[Mapping[str, Any]]) -> list[dict[str, Any]]:
    """The documents of an answer as rows of a table: with a name for each path, such as `address.city`.

    They are those of `decode="plain"`. Arrays stay, and so do numbers, texts, dates and bytes. An id or a UUID becomes its text, and what
    Python has no plain value for, such as a timestamp, the text of its Extended JSON. Two fields of one path are an `ArgumentError`.
    """
    if isinstance(documents, (str, bytes, Mapping)) or not isinstance(documents, Iterable):
        raise ArgumentError(f"documents are those of an answer, not {documents!r:.60}")
    rows = []
    for document in documents:
        if not isinstance(document, Mapping):
            raise ArgumentError(f'a document is a dict, as decode="plain" gives it, not {document!r:.60}')
        row: dict[str, Any] = {}
        for path, value in _cells(document, ""):
            if path in row:
                raise ArgumentError(f'a document has two fields with the path "{path}"')
            row[path] = value
        rows.append(row)
    return rows


def _cells(document: Mapping[str, Any], before: str) -> Iterator[tuple[str, Any]]:
    """The paths of the fields of a document, after those before them, with their values. An empty document is a value."""
    for name, value in document.items():
        if isinstance(value, dict) and value and not _is_wrapped(value):
            yield from _cells(value, f"{before}{name}.")
        else:
            yield before + name, _cell(value)


def _is_wrapped(value: dict[str, Any]) -> bool:
    return next(iter(value), None) in WRAPPERS


def _cell(value: Any) -> Any:
    """A value that other libraries take; what is in an array is too."""
    if isinstance(value, (ObjectId, UUID)):
        return str(value)
    if isinstance(value, list):
        return [_cell(it) for it in value]
    if isinstance(value, dict):
        return json.dumps(value, ensure_ascii=False) if _is_wrapped(value) else {name: _cell(it) for name, it in value.items()}
    return value


def to_pandas(documents: Iterable[Mapping[str, Any]]) -> Any:
    """The `DataFrame` of the rows of `to_dicts`, which needs pandas.

    No number is rounded: a column of whole numbers has the type `int64`, or `Int64` if a value is missing or null. Doubles are `float64`,
    in which a missing one is NaN, dates `datetime64[ns, UTC]`. A column of other or of several types has the values as they are.
    """
    try:
        import pandas  # type: ignore[import]
    except ImportError:
        raise ArgumentError("to_pandas needs pandas, which this Python has not") from None
    rows = to_dicts(documents)
    names = dict.fromkeys(name for row in rows for name in row)
    columns = {name: [row.get(name) for row in rows] for name in names}
    return pandas.DataFrame({name: _series(pandas, values) for name, values in columns.items()}, index=range(len(rows)))


def _series(pandas: Any, values: list[Any]) -> Any:
    """A column, of the type that keeps its values."""
    there = [it for it in values if it is not None]
    kinds, is_whole = {type(it) for it in there}, len(there) == len(values)
    if kinds == {bool}:
        return pandas.Series(values, dtype="bool" if is_whole else "boolean")
    if kinds == {int} and all(it in _INT64 for it in there):
        return pandas.Series(values, dtype="int64" if is_whole else "Int64")
    if float in kinds and kinds <= {float, int} and all(type(it) is float or float(it) == it for it in there):
        return pandas.Series(values, dtype="float64")
    if kinds == {datetime} and pandas.Timestamp.min.tz_localize("UTC") <= min(there) and max(there) <= pandas.Timestamp.max.tz_localize("UTC"):
        return pandas.to_datetime(pandas.Series(values, dtype=object), utc=True)
    return pandas.Series(values, dtype=object)
