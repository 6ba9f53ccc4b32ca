"""Dumps with numbers of all types, for tests of searches."""

from decimal import Decimal

from . import bson
from .bson import document, field, int32


def whole(name: str, value: int) -> bytes:
    """An int32."""
    return field(0x10, name, int32(value))


def double(name: str, value: float) -> bytes:
    """A double."""
    return field(0x01, name, bson.double(value))


def decimal(name: str, coefficient: int, power: int) -> bytes:
    """A decimal128."""
    return field(0x13, name, bson.decimal(coefficient, power))


def array(name: str, *values: bytes) -> bytes:
    """An array of fields; the names of its elements are theirs."""
    return field(0x04, name, document(*values))


def embedded(name: str, *fields: bytes) -> bytes:
    """A document in a document."""
    return field(0x03, name, document(*fields))


def scoped(name: str, *fields: bytes) -> bytes:
    """Code with these fields as its scope."""
    value = int32(2) + b"f\0" + document(*fields)
    return field(0x0F, name, int32(len(value) + 4) + value)


# Goods, of which the prices are of several types, and the names of elements of an array are not their positions.
GOODS = [
    document(whole("_id", 0), double("price", 9.5), decimal("cost", 1999, -2)),
    document(whole("_id", 1), whole("price", 9), decimal("cost", 19, 0)),
    document(whole("_id", 2), double("price", 10.25), decimal("cost", 190, -1)),
    document(whole("_id", 3), array("price", double("7", 1.5), whole("7", 30)), decimal("cost", 5, 1)),
    document(whole("_id", 4), double("price", -0.0), whole("cost", 50)),
    document(whole("_id", 5)),
]
FIRST = '{"_id":{"$numberInt":"0"},"price":{"$numberDouble":"9.5"},"cost":{"$numberDecimal":"19.99"}}'
# Questions of these: a filter, a sort, and the numbers of the documents that are found.
QUESTIONS = (
    ({"price": {"$gt": 9.25}}, None, [0, 2, 3]),
    ({"price": {"$gte": 9, "$lt": 10.25}}, None, [0, 1, 3]),
    ({"price": 9.0}, None, [1]),
    ({"price": {"$gte": 9, "$lt": float("inf")}}, None, [0, 1, 2, 3]),
    ({"price": {"$gt": float("-inf")}}, None, [0, 1, 2, 3, 4]),
    ({"price": {"$in": [float("inf"), float("nan")]}}, None, []),
    ({"price": 0}, None, [4]),
    ({"price": {"$in": [10.25, 30.0, 7]}}, None, [2, 3]),
    ({"price": {"$elemMatch": {"$lt": 2, "$gt": 1.25}}}, None, [3]),
    ({"price.0": 1.5}, None, [3]),
    ({"price": {"$size": 2}}, None, [3]),
    ({"cost": {"$numberDecimal": "19.990"}}, None, [0]),
    # The double 19.99 is a bit less than the decimal128.
    ({"cost": {"$gt": 19.99}}, None, [0, 3, 4]),
    ({"cost": {"$gte": 19, "$lte": 19.99}}, None, [1, 2]),
    ({"cost": {"$lt": 19.99}}, None, [1, 2]),
    ({"cost": {"$lte": Decimal("19.99")}}, None, [0, 1, 2]),
    ({"cost": Decimal("19")}, None, [1, 2]),
    ({"cost": 50.0}, None, [3, 4]),
    ({"_id": {"$gt": 3.5}}, None, [4, 5]),
    ({"~n": {"$exists": True}}, None, []),
    ({"price": {"$exists": True}}, [("price", 1)], [4, 3, 1, 0, 2]),
    ({}, [("price", -1), ("_id", -1)], [3, 2, 0, 1, 4, 5]),
    ({"cost": {"$type": "number"}}, {"cost": 1}, [1, 2, 0, 3, 4]),
)
# Prices which no codes hold: doubles and decimal128 with fractions, at the top, in a document, in arrays and in a scope.
MIXED = [
    document(
        whole("_id", it),
        double("weight", it / 2),
        double("price", it / 10) if it % 2 else decimal("price", it * 10 + 3, -1),
        embedded("in", whole("x", -it), double("price", 0.1), *([] if it == 3 else [decimal("price", 19, -1)])),
        array("list", array("0", decimal("0", 1, -1), double("1", 0.1)), whole("1", it), embedded("2", whole("y", it))),
        scoped("code", double("s", 0.1)) if it % 2 else scoped("code", decimal("s", 1, -1)),
    )
    for it in range(6)
]
