#!/usr/bin/env python3
"""Asks random dumps with numbers of all types from Python, by scans and indexes, and compares with a model.

    tests/wide/questions.py [PROGRAM [DUMPS [SEED]]]

The program is `bsonfind`, with `bsonwide` beside it. The model compares all numbers exactly, as MongoDB does, and the documents that are
found must be those of the dump to the byte: by runs of `bsonwide find`, whole, by an index and a page at a time, of parts, as a number,
and by sessions with indexes. A session refuses a query only for the place of a `$type` that names some of the four types of numbers alone,
and a run only for that of one with which two classes of them are not enough. `make test` asks few dumps; without a number there are 20,000.
"""

import random
import struct
import sys
import tempfile
from collections.abc import Callable
from pathlib import Path

sys.path[:0] = [str(Path(__file__).resolve().parents[1]), str(Path(__file__).resolve().parents[2] / "python")]

from model.answers import (
    IN_RUNS, IN_SESSIONS, NUMBERS, BadFilter, Dump, Request, Value, check_filter, encoded, number, obj, path_fault, sort_pairs, string, types_place,
)  # fmt: skip
from model.inputs import Inputs
from model.texts import decimal_in
from support import PROGRAM as BUILT
from support import Tests

from bsonfind import CommandError, Session, count_documents, find, find_parts, plan

PROGRAM = str(Path(sys.argv[1]).resolve()) if len(sys.argv) > 1 else str(BUILT)
DUMPS = int(sys.argv[2]) if len(sys.argv) > 2 else 20_000
SEED = int(sys.argv[3]) if len(sys.argv) > 3 else 58
# How many questions a dump is asked by a session, and by runs.
REQUESTS, RUNS = 12, 2

# Of each kind of dump its numbers: those that doubles equal, amounts with two digits, and all at once.
DOUBLES = [0.0, -0.0, 0.1, 0.5, 1.0, 1.5, 2.0, -1.0, -1.5, 9.99, 3.0, 1e300, -1e300, 5e-324, 2.0**53 - 1, 2.0**53, 2.0**53 + 2, float("inf"), float("-inf"), float("nan")]
DYADIC = ["0", "-0", "0.0", "0.5", "1", "1.0", "1.50", "2E+0", "-1", "3.00", "9007199254740992", "9007199254740994", "Infinity", "-Infinity", "NaN", "1E+2"]
CENTS = ["0", "0.00", "0.10", "0.1", "1", "1.00", "1.50", "2.0", "-1.25", "19.99", "9.99", "3E+0", "90071992547409.93", "-0.01"]
# Of 34 digits: at the double 0.1, which has more, at 2^53 and its neighbours, and the least and greatest.
LONG = [
    "0.1000000000000000055511151231257827", "0.1000000000000000055511151231257828", "9007199254740993", "9007199254740992.000000000000000001",
    "9007199254740991.999999999999999999", "1E-6176", "9.999999999999999999999999999999999E+6144", "-9.999999999999999999999999999999999E+6144",
]  # fmt: skip
WHOLE = [0, 1, 1, 2, 2, 3, 5, -1, 1 << 53, -(1 << 53)]
ANY = [*WHOLE, (1 << 53) + 1, (1 << 53) - 1, (1 << 63) - 1, -(1 << 63)]
WHOLE_DOUBLES = [it for it in DOUBLES if it == it and abs(it) <= 2.0**53 and it == int(it)]


def double(value: float) -> Value:
    return Value("double", struct.pack("<d", value))


def decimal(text: str) -> Value:
    return Value("decimal", decimal_in(text))


# Numbers with fractions, some of which are doubles and some amounts.
MIXED = [*map(double, (0.1, 0.3, 9.99)), *map(decimal, ("0.1", "0.3", "9.99"))]


class WideInputs(Inputs):
    """Makes inputs in which most scalars are numbers of all types."""

    def __init__(self, rng: random.Random) -> None:
        super().__init__(rng)
        self.profile = "doubles"

    def scalar(self) -> Value:
        rng, chosen = self.rng, self.rng.randrange(8)
        if chosen == 0:
            return super().scalar()
        if chosen <= 3:
            whole = rng.choice(ANY if self.profile == "all" else WHOLE)
            return Value("int" if abs(whole) < 1 << 31 and self.chance(0.6) else "long", whole)
        if self.profile == "cents":
            return double(rng.choice([0.0, 0.5, 0.25, 1.0, -1.25, 2.0])) if chosen == 4 else decimal(rng.choice(CENTS))
        if self.profile == "whole":
            return double(rng.choice(WHOLE_DOUBLES)) if chosen <= 6 else decimal(rng.choice(["0", "1.0", "2E+0", "-1.00", "5"]))
        if chosen == 7:
            return decimal(rng.choice([*DYADIC, *CENTS, *LONG] if self.profile == "all" else DYADIC))
        value = rng.choice(DOUBLES)
        return double(value if value == value or self.chance(0.3) else 1.5)

    def types(self) -> Value:
        """Mostly types of numbers, by their names and by their numbers."""
        if self.chance(0.3):
            return super().types()
        chosen = self.rng.sample(sorted(NUMBERS.items()), self.rng.choice([1, 1, 2, 2, 3]))
        named = [string(name) if self.chance(0.7) else number(code) for name, code in chosen]
        return named[0] if len(named) == 1 and self.chance(0.7) else Value("array", tuple(named))

    def operator(self, path: str, depth: int) -> tuple[str, Value]:
        """`$type` more often."""
        return ("$type", self.types()) if self.chance(0.08) else super().operator(path, depth)

    def documents(self) -> list[Value]:
        self.profile = self.rng.choice(["doubles", "doubles", "cents", "whole", "all", "all", "mixed"])
        made = super().documents()
        if self.profile == "mixed":
            made = self.made = [self.mixed(it) for it in made]
        self.kinds = []
        return made

    def mixed(self, value: Value, name: str = "") -> Value:
        """The same, but the numbers below one name are doubles and decimal128 with fractions."""
        if value.kind == "object":
            return obj(*((name, self.mixed(it, name)) for name, it in value.of))
        if value.kind == "array":
            return Value("array", tuple(self.mixed(it, name) for it in value.of))
        return self.rng.choice(MIXED) if name == "b" and value.kind in ("int", "long", "double", "decimal") else value

    def text(self, value: Value) -> str:
        """Doubles are bare here and there, where JSON has them."""
        if value.kind == "double":
            number = struct.unpack("<d", value.of)[0]
            if number == number and abs(number) != float("inf") and self.chance(0.5):
                return repr(number)
        return super().text(value)


NOT_TOLD = "the types of numbers are not told apart here"


class Asking:
    """The comparison of one dump after the other with the model."""

    def __init__(self, rng: random.Random, room: str) -> None:
        self.rng, self.tests, self.room = rng, Tests(), Path(room)
        self.inputs = WideInputs(rng)
        self.refused = 0

    def ask_dump(self, number: int) -> None:
        """Asks a dump by runs, and by a session."""
        documents = self.inputs.documents()
        model, path = Dump(documents), self.room / "dump.bson"
        path.write_bytes(model.bytes)
        for _ in range(RUNS):
            request, texts = self.request()
            self.ask_runs(f"dump {number}, {texts}", model, path, request, texts)
        with Session(path, PROGRAM) as session:
            for _ in range(self.rng.choice([0, 0, 1, 2])):
                index = self.inputs.path()
                if not path_fault(index):
                    try:
                        session.create_index(index, sparse=self.rng.random() < 0.3)
                    except CommandError as error:  # The session has it already.
                        self.tests.want(f"dump {number}: index", error.layer == "session", error)
            for _ in range(REQUESTS):
                request, texts = self.request()
                size, query = self.rng.choice([1, 3, 100]), Raw(texts[0])
                self.ask(
                    f"dump {number}, {texts}", model, request, lambda: list(session.find(query, **asked(request, texts), batch_size=size, decode="bson")), IN_SESSIONS
                )
                if self.rng.random() < 0.3 and not (request.skip or request.limit):
                    self.ask(f"dump {number}, {texts}: count", model, request, lambda: session.count_documents(query), IN_SESSIONS, is_count=True)

    def ask_runs(self, name: str, model: Dump, path: Path, request: Request, texts: tuple[str, str]) -> None:
        """Asks by runs: by a scan, by an index, a page at a time, by parts, and for the count."""
        query, how = Raw(texts[0]), asked(request, texts)

        def pages() -> list[bytes]:
            found, token, end, size = [], None, False, self.rng.choice([1, 2, 50])
            while not end:
                answer = find(path, query, **how, page=size, after=token, decode="bson", program=PROGRAM)
                found += answer
                token, end = answer.token, answer.end
            return found

        def whole(**more: object) -> list[bytes]:
            return list(find(path, query, **how, **more, decode="bson", program=PROGRAM))

        self.ask(f"{name}: a run", model, request, whole, IN_RUNS)
        self.ask(f"{name}: an index", model, request, lambda: whole(index=self.rng.choice(["a", "b", "a.b"])), IN_RUNS)
        self.ask(f"{name}: pages", model, request, pages, IN_RUNS)
        parts = plan(path, self.rng.choice([50, 200, 1000]))
        if types_place(request.query, IN_RUNS) is None:
            self.ask(f"{name}: parts", model, request, lambda: find_parts(parts, query, **how, decode="bson", program=PROGRAM), IN_RUNS)
        if not (request.skip or request.limit or request.sort.of):
            self.ask(f"{name}: count", model, request, lambda: count_documents(path, query, program=PROGRAM), IN_RUNS, is_count=True)

    def request(self) -> tuple[Request, tuple[str, str]]:
        query, sort = self.inputs.filter(), self.inputs.sort()
        request = Request(query, sort, self.rng.choice([0, 0, 0, 1, 2]), self.rng.choice([0, 0, 0, 1, 5]))
        return request, (self.inputs.text(query), self.inputs.text(sort))

    def ask(
        self, name: str, model: Dump, request: Request, answer: Callable[[], object], classes: int, is_count: bool = False
    ) -> None:
        try:
            check_filter(request.query)
            fault = None if is_count or sort_pairs(request.sort) is not None else "sort"
        except BadFilter as error:
            fault = error.number
        try:
            found = answer()
        except CommandError as error:
            if error.layer == "numbers":
                self.refused += 1
                self.tests.want(name, error.place is not None and (error.text, error.place) == (NOT_TOLD, types_place(request.query, classes)), error)
            else:
                told = error.number if error.layer == "filter" else "sort" if error.text == "not a sort" else error.layer
                self.tests.want(name, told == fault or (fault is not None and told in ("json", "path", "sort")), (error, fault))
            return
        # A count has no sort.
        places = None if fault else model.answer(request._replace(sort=obj()) if is_count else request)
        wanted = None if places is None else len(places) if is_count else [encoded(model.documents[place]) for place in places]
        self.tests.want(name, found == wanted, (found, wanted))


class Raw(str):
    """A text of JSON that stands for what it says."""


def asked(request: Request, texts: tuple[str, str]) -> dict[str, object]:
    """What a request has beside its filter."""
    return {"sort": Raw(texts[1]), "skip": request.skip, "limit": request.limit}


def main() -> int:
    import bsonfind._ask.requests as requests

    plain = requests.text_of
    requests.text_of = lambda value, *uuids: str(value) if isinstance(value, Raw) else plain(value, *uuids)
    of = requests.Request.of.__func__

    def raw_of(cls, filter=None, sort=None, skip=0, limit=0, uuids="standard"):  # noqa: ANN001, ANN202
        if isinstance(filter, Raw):
            return requests.Request(str(filter), "{}" if sort is None else str(sort), skip, limit)
        return of(cls, filter, sort, skip, limit, uuids)

    requests.Request.of = classmethod(raw_of)
    with tempfile.TemporaryDirectory() as room:
        asking = Asking(random.Random(SEED), room)
        for dump in range(DUMPS):
            asking.ask_dump(dump)
    print(f"refused {asking.refused} times for types of numbers")
    print(f"{asking.tests.passed} passed, {asking.tests.failed} failed")
    return int(asking.tests.failed > 0)


if __name__ == "__main__":
    sys.exit(main())
