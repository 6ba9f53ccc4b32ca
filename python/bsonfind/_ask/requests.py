"""What is asked of a dump: a filter, a sort, a skip and a limit, as pymongo takes them, as texts that the program takes."""

from __future__ import annotations

import json
import math
from contextlib import suppress
from functools import partial
from typing import Any, Iterable, Mapping, NamedTuple, Sequence, Union

from .._arguments import LONGEST_ARGUMENT, MOST, argument, shown, whole
from .._errors import ArgumentError
from .values import Uuids, extended, uuids_of

Filter = Mapping[str, Any]
Sort = Union[Mapping[str, int], Sequence["tuple[str, int]"]]
# How documents are to be found: by what the program chooses, by each document, or by the index on a path.
Use = Union[str, Mapping[str, str]]
# The same as pymongo has it: the path of an index, by itself or with a direction; or {"$natural": 1} to read each document.
Hint = Union[str, Mapping[str, Any], Sequence["tuple[str, Any]"]]

# A whole number with more of them is refused here: Python does not write it.
_MOST_BITS = 1000
# What the program takes of a filter in a file.
LONGEST_FILTER = 16_777_216
# A longer text is an argument after its option.
_LONGEST_BESIDE = 1000


def _written(value: Any) -> Any:
    """A value with doubles by name where JSON has no number. A name that is no text is refused, and the `Code` of pymongo too."""
    if isinstance(value, Mapping):
        for name in value:
            if not isinstance(name, str):
                raise TypeError(f"the name of a field is a text, not {shown(name)}")
        return {name: _written(it) for name, it in value.items()}
    if isinstance(value, (list, tuple)):
        return [_written(it) for it in value]
    if isinstance(value, int) and value.bit_length() > _MOST_BITS:
        raise ValueError(f"a whole number has at most 64 bits, not {value.bit_length()}")
    if isinstance(value, float) and not math.isfinite(value):
        return {"$numberDouble": "NaN" if math.isnan(value) else "Infinity" if value > 0 else "-Infinity"}
    if isinstance(value, str) and hasattr(value, "scope"):
        raise TypeError(f'code is written as Extended JSON, {{"$code": {json.dumps(value)}}}')
    return value


def text_of(value: Any, uuids: Uuids = "standard") -> str:
    """The JSON of a value. What JSON has no type for, an `ObjectId`, a date, bytes, a UUID, infinity, is written in canonical form."""
    try:
        return json.dumps(_written(value), separators=(",", ":"), default=partial(extended, uuids=uuids))
    except (TypeError, ValueError, OverflowError, RecursionError) as error:
        raise ArgumentError(str(error)) from None


def text_of_pairs(pairs: Iterable[tuple[str, str]]) -> str:
    """The JSON of an object of names and the texts of their values; a name may be there twice."""
    return "{" + ",".join(f"{text_of(name)}:{text}" for name, text in pairs) + "}"


def _pairs_of(sort: Sort | None) -> list[tuple[str, int]]:
    with suppress(TypeError, ValueError):  # They are no pairs.
        if not isinstance(sort, (str, bytes)):
            pairs = [(path, way) for path, way in (sort.items() if isinstance(sort, Mapping) else () if sort is None else sort)]
            if all(isinstance(path, str) for path, _ in pairs):
                return pairs
    raise ArgumentError(f'sort is [("age", -1), ..] or {{"age": -1, ..}}, not {shown(sort)}')


def use_of(hint: Hint | None) -> Use:
    """What `hint` says, as the program takes it."""
    if hint is None:
        return "auto"
    if isinstance(hint, str):
        return {"index": hint}
    try:
        ((path, way),) = hint.items() if isinstance(hint, Mapping) else hint
    except (TypeError, ValueError):
        raise ArgumentError(f'hint is a path, [(PATH, 1)] or {{"$natural": 1}}, not {shown(hint)}: an index is on one path') from None
    if not isinstance(path, str):
        raise ArgumentError(f"the path of a hint is a text, not {shown(path)}")
    if path != "$natural":
        return {"index": path}
    if way != 1:
        raise ArgumentError("documents are read in the order of the dump, not backwards")
    return "scan"


class Request(NamedTuple):
    """The texts of a filter and a sort, how many documents are skipped, and how many are given at most (0 is no limit)."""

    filter: str = "{}"
    sort: str = "{}"
    skip: int = 0
    limit: int = 0

    @classmethod
    def of(
        cls, filter: Filter | None = None, sort: Sort | None = None, skip: int = 0, limit: int = 0, uuids: Uuids = "standard"
    ) -> Request:
        """The request for what pymongo's `Collection.find` is asked by."""
        if not (filter is None or isinstance(filter, Mapping)):
            raise ArgumentError(f'filter is a mapping such as {{"age": 7}}, not {shown(filter)}')
        sort_text = text_of_pairs((path, text_of(way)) for path, way in _pairs_of(sort))
        filter_text = text_of({} if filter is None else filter, uuids_of(uuids))
        return cls(filter_text, sort_text, whole("skip", skip), whole("limit", limit))

    def of_part(self) -> Request:
        """What each part is asked, so that the documents of the answer are among those of the parts."""
        most = self.skip + self.limit
        return self._replace(skip=0, limit=most if self.limit and most <= MOST else 0)

    @property
    def is_long(self) -> bool:
        """Whether no argument can have the filter, so that it goes to a file."""
        return len(self.filter.encode()) > LONGEST_ARGUMENT

    def words(self, file: str | None = None) -> list[str]:
        """The options of `find`, with the file of the filter, if it is in one."""
        query = option("--query", self.filter) if file is None else [f"--queryFile={file}"]
        return [*query, *option("--sort", argument("sort", self.sort)), f"--skip={self.skip}", f"--limit={self.limit}"]

    def fields(self) -> list[tuple[str, str]]:
        """The further fields of a command, with the texts of their values."""
        return [("sort", self.sort), ("skip", str(self.skip)), ("limit", str(self.limit))]


def option(name: str, text: str) -> list[str]:
    """An option with a text, which no program takes for another option."""
    return [f"{name}={text}"] if len(text) < _LONGEST_BESIDE else [name, text]
