"""How many documents there are, of each value of a field, and the exact sums of the numbers of another field."""

from __future__ import annotations

from decimal import Context, Decimal, Inexact
from fractions import Fraction
from typing import NamedTuple, Sequence

from .._dumps.paths import DECIMAL128, INTEGERS, Number, Path, is_finite, key_of, number_of
from .._errors import BsonfindError
from .texts import NESTED, order_of, texts

# How many values a field may have, and how many bytes of them.
MOST_VALUES, MOST_BYTES = 1_000_000, 1 << 28
# The value of a field that a document does not have.
MISSING = b""
# The digits of all decimal128 are among 13,000: no sum of some is rounded.
_EXACT = Context(prec=20_000, traps=[Inexact])


class TooManyError(BsonfindError):
    """More values, or more paths, than are kept in memory."""


class Sum:
    """The sum of some numbers, and how many values have none: those that are NaN, infinite or no number."""

    __slots__ = ("_whole", "_over", "_under", "_decimals", "nans", "infinities", "others")

    def __init__(self) -> None:
        self._whole = 0
        # The sum of the doubles is a fraction, whose denominator is a power of two; 0 if there is none.
        self._over, self._under = 0, 0
        # The sum of the decimals, with the least of their powers of ten; None if there is none.
        self._decimals: Decimal | None = None
        self.nans = self.infinities = self.others = 0

    def add(self, values: Sequence[bytes]) -> None:
        """Adds values, each of which is its type and its bytes."""
        for value in values:
            if value[0] in INTEGERS:
                self._whole += int.from_bytes(value[1:], "little", signed=True)
                continue
            number = number_of(value)
            if number is None:
                self.others += 1
            elif not is_finite(number):
                self.nans += number != number
                self.infinities += number == number
            elif isinstance(number, Decimal):
                self._add_decimal(number)
            else:
                self._add_double(*number.as_integer_ratio())

    def _add_double(self, over: int, under: int) -> None:
        """Adds a fraction, whose denominator is a power of two."""
        if under > self._under:
            self._over, self._under = self._over * (under // self._under) if self._under else 0, under
        self._over += over if under == self._under else over * (self._under // under)

    def _add_decimal(self, number: Decimal) -> None:
        self._decimals = number if self._decimals is None else _EXACT.add(self._decimals, number)

    def merge(self, other: Sum) -> None:
        self._whole += other._whole
        if other._under:
            self._add_double(other._over, other._under)
        if other._decimals is not None:
            self._add_decimal(other._decimals)
        self.nans += other.nans
        self.infinities += other.infinities
        self.others += other.others

    def value(self) -> Number:
        """The sum, rounded once: an int, or if a decimal128 is in it a Decimal of 34 digits, or if a double is in it a float."""
        exact = self._whole + Fraction(self._over, self._under or 1) + Fraction(self._decimals or 0)
        if self._decimals is not None:
            return _as_decimal(exact, int(self._decimals.as_tuple().exponent))
        if not self._under:
            return self._whole
        try:
            return float(exact)
        except OverflowError:
            return float("inf" if exact > 0 else "-inf")


def _as_decimal(exact: Fraction, power: int) -> Decimal:
    """The nearest decimal128, with a power of ten if it has digits enough for that."""
    nearest = DECIMAL128.divide(Decimal(exact.numerator), Decimal(exact.denominator))
    if nearest.is_finite() and nearest == exact:
        padded = nearest.quantize(Decimal((0, (1,), power)), context=DECIMAL128)
        return padded if padded.is_finite() else nearest
    return nearest


class Row(NamedTuple):
    """How many documents have a value, and the sum of their numbers. Without a field there is no value, and of a missing one MISSING."""

    value: bytes | None
    documents: int
    sum: Sum | None


class Count:
    """Counts documents, all together or by the values at a path, and adds the numbers at another one."""

    def __init__(self, by: Path | None = None, add: Path | None = None, documents: Sequence[bytes] = ()) -> None:
        self._by, self._add = by, add
        self.is_by, self.is_adding = by is not None, add is not None
        self._documents = 0
        self._sum = Sum()
        # How many documents have each value, and the sums of their numbers.
        self._counts: dict[bytes, int] = {}
        self._sums: dict[bytes, Sum] = {}
        self._size = 0
        self.take(documents)

    def add(self, documents: int) -> None:
        self._documents += documents

    def take(self, documents: Sequence[bytes]) -> None:
        self.add(len(documents))
        if self._by:
            self._take_by(documents, self._by)
        elif self._add:
            for document in documents:
                self._sum.add(self._add.values(document))

    def _take_by(self, documents: Sequence[bytes], by: Path) -> None:
        counts, values_at, add = self._counts, by.values, self._add
        for document in documents:
            values = values_at(document)
            if len(values) != 1:
                values = _different(values) or [MISSING]
            for value in values:
                try:
                    counts[value] += 1
                except KeyError:
                    self._begin(value)
            if add and (numbers := add.values(document)):
                for value in values:
                    self._sums[value].add(numbers)

    def _begin(self, value: bytes) -> None:
        """Counts the first document of a value."""
        self._size += len(value)
        if len(self._counts) == MOST_VALUES or self._size > MOST_BYTES:
            raise TooManyError(f"{self._by} has more than {MOST_VALUES:,} values, or {MOST_BYTES:,} bytes of them: --query chooses fewer")
        self._counts[value] = 1
        if self._add:
            self._sums[value] = Sum()

    def merge(self, other: Count) -> None:
        """Adds what other documents came to, which follow those of this one."""
        self._documents += other._documents
        self._sum.merge(other._sum)
        for value, documents in other._counts.items():
            if value not in self._counts:
                self._begin(value)
                documents -= 1
            self._counts[value] += documents
        for value, it in other._sums.items():
            self._sums[value].merge(it)

    def rows(self, program: str) -> list[Row]:
        """A row of each value, those of most documents first, and of equally many in the order of values; without a field one row."""
        if not self._by:
            return [Row(None, self._documents, self._sum if self._add else None)]
        nested = [it for it in self._counts if it and it[0] in NESTED]
        known = dict(zip(nested, texts(nested, program)))
        rows: dict[object, Row] = {}
        for value, documents in self._counts.items():
            key = (value[0], known[value]) if value in known else key_of(value)
            row, it = rows.get(key), self._sums.get(value)
            if row is None:
                rows[key] = Row(value, documents, it)
            else:
                if row.sum and it:
                    row.sum.merge(it)
                rows[key] = row._replace(documents=row.documents + documents)
        order = {row.value: order_of(row.value, known.get(row.value, "")) if row.value else () for row in rows.values()}
        return sorted(rows.values(), key=lambda row: (-row.documents, order[row.value]))


def _different(values: list[bytes]) -> list[bytes]:
    """The first of values that are equal."""
    found: dict[object, bytes] = {}
    for value in values:
        found.setdefault(key_of(value), value)
    return list(found.values())
