"""What the program should answer, by Python: values, their bytes and texts, paths, filters, answers and indexes.

It is written from the rules alone, in the plainest way: lists of all that a path reaches, answers that are sorted whole. A value
is of a kind, which has the name that $type gives it.
"""

import base64
import hashlib
import json
import math
import re
import struct
from datetime import datetime, timedelta
from decimal import Decimal
from fractions import Fraction
from typing import Callable, Iterator, NamedTuple

INT32 = range(-(1 << 31), 1 << 31)
INT64 = range(-(1 << 63), 1 << 63)
MOST = (1 << 31) - 1  # of a skip, a limit and a batch
NAMES = 100  # of a path
LEVELS = 50  # of a filter


class Value(NamedTuple):
    """A value: of an object its pairs, of an array its elements, of others what their kind wants.

    A double is its eight bytes, and a decimal128 its sixteen.
    """

    kind: str
    of: object = None


Pairs = tuple[tuple[str, Value], ...]

# Each kind with its byte and its class; kinds of one class are compared by their values.
KINDS = {
    "minKey": (0xFF, 0), "undefined": (0x06, 1), "null": (0x0A, 2), "int": (0x10, 3), "long": (0x12, 3), "symbol": (0x0E, 4),
    "string": (0x02, 4), "object": (0x03, 5), "array": (0x04, 6), "binData": (0x05, 7), "objectId": (0x07, 8), "bool": (0x08, 9),
    "date": (0x09, 10), "timestamp": (0x11, 11), "regex": (0x0B, 12), "dbPointer": (0x0C, 13), "javascript": (0x0D, 14),
    "javascriptWithScope": (0x0F, 15), "maxKey": (0x7F, 16),
}  # fmt: skip

# Kinds that `bsonwide` reads alone.
WIDE_KINDS = {"double": (0x01, 3), "decimal": (0x13, 3)}

NULL, UNDEFINED = Value("null"), Value("undefined")


def number(value: int) -> Value:
    """A bare whole number."""
    return Value("int" if value in INT32 else "long", value)


def string(text: str) -> Value:
    return Value("string", text)


def obj(*pairs: tuple[str, Value]) -> Value:
    return Value("object", pairs)


def replaced(value: Value, other: Value) -> Value:
    """The same with another value in place of each double and decimal128."""
    match value.kind:
        case "double" | "decimal":
            return other
        case "object":
            return obj(*((name, replaced(it, other)) for name, it in value.of))
        case "array":
            return Value("array", tuple(replaced(it, other) for it in value.of))
        case "javascriptWithScope":
            return Value(value.kind, (value.of[0], replaced(value.of[1], other)))
    return value


# Values in bytes and in texts.


def byte_and_class(kind: str) -> tuple[int, int]:
    """The byte of a kind, and its class."""
    return KINDS[kind] if kind in KINDS else WIDE_KINDS[kind]


def encoded(value: Value) -> bytes:
    """The bytes of a value, in which the elements of an array have their indexes as names."""

    def little(number: int, size: int = 4) -> bytes:
        return (number & ((1 << 8 * size) - 1)).to_bytes(size, "little")

    def text(it: str) -> bytes:
        return little(len(it.encode()) + 1) + it.encode() + b"\0"

    kind, of = value
    match kind:
        case "object" | "array":
            pairs = of if kind == "object" else [(str(place), element) for place, element in enumerate(of)]
            inside = b"".join(bytes([byte_and_class(it.kind)[0]]) + name.encode() + b"\0" + encoded(it) for name, it in pairs)
            return little(len(inside) + 5) + inside + b"\0"
        case "string" | "symbol" | "javascript":
            return text(of)
        case "int":
            return little(of)
        case "long" | "date":
            return little(of, 8)
        case "objectId" | "double" | "decimal":
            return of
        case "bool":
            return bytes([of])
        case "timestamp":
            return little(of[1]) + little(of[0])
        case "binData":
            subtype, data = of
            data = little(len(data)) + data if subtype == 2 else data
            return little(len(data)) + bytes([subtype]) + data
        case "regex":
            return of[0].encode() + b"\0" + of[1].encode() + b"\0"
        case "dbPointer":
            return text(of[0]) + of[1]
        case "javascriptWithScope":
            inside = text(of[0]) + encoded(of[1])
            return little(len(inside) + 4) + inside
    return b""


def double_of(data: bytes) -> float:
    """The double of 8 bytes."""
    return struct.unpack("<d", data)[0]


def double_text(data: bytes) -> str:
    """As Go's `strconv.FormatFloat(x, 'G', -1, 64)` lays it out, with `.0` where it would have neither point nor power."""
    value = double_of(data)
    if value != value:
        return "NaN"
    sign = "-" if data[7] & 0x80 else ""
    if abs(value) == float("inf"):
        return f"{sign}Infinity"
    if value == 0:
        return f"{sign}0.0"
    # `repr` gives the shortest digits that read back.
    _, digits, power = Decimal(repr(abs(value))).normalize().as_tuple()
    text = "".join(map(str, digits))
    first = int(power) + len(text) - 1
    if not -4 <= first <= 5:
        mantissa = text[0] + ("." + text[1:] if text[1:] else "")
        return f"{sign}{mantissa}E{'-' if first < 0 else '+'}{abs(first):02}"
    if first < 0:
        return f"{sign}0.{'0' * (-first - 1)}{text}"
    whole = text[: first + 1].ljust(first + 1, "0")
    return f"{sign}{whole}.{text[first + 1 :] or '0'}"


def decimal_of(data: bytes) -> Decimal:
    """The decimal128 of 16 bytes."""
    bits = int.from_bytes(data, "little")
    sign = bits >> 127
    five = bits >> 122 & 31
    if five >= 30:
        return Decimal("NaN" if five == 31 else "-Infinity" if sign else "Infinity")
    if five >= 24:
        coefficient, power = 0, bits >> 111 & 0x3FFF
    else:
        coefficient, power = bits & (1 << 113) - 1, bits >> 113 & 0x3FFF
    if coefficient >= 10**34:
        coefficient = 0
    return Decimal((sign, tuple(map(int, str(coefficient))), power - 6176))


def relaxed(value: Value) -> str | None:
    """The relaxed text of a number or a date, as Go's driver writes it; None where it is the canonical text."""
    kind, of = value
    if kind in ("int", "long"):
        return str(of)
    if kind == "double" and math.isfinite(struct.unpack("<d", of)[0]):
        return double_text(of)
    if kind == "date" and 0 <= of < 253_402_300_800_000:
        day = datetime(1970, 1, 1) + timedelta(milliseconds=of)
        fraction = f".{of % 1000:03}".rstrip("0").rstrip(".")
        return f'{{"$date":"{day.strftime("%Y-%m-%dT%H:%M:%S")}{fraction}Z"}}'
    return None


def written(value: Value, is_relaxed: bool = False) -> str:
    """The text of a value, canonical or relaxed."""

    def quoted(text: str) -> str:
        return json.dumps(text, ensure_ascii=False)

    if is_relaxed and (text := relaxed(value)) is not None:
        return text
    kind, of = value
    match kind:
        case "object":
            return "{" + ",".join(f"{quoted(name)}:{written(it, is_relaxed)}" for name, it in of) + "}"
        case "array":
            return "[" + ",".join(written(it, is_relaxed) for it in of) + "]"
        case "string":
            return quoted(of)
        case "bool" | "null":
            return json.dumps(of)
        case "int" | "long":
            return f'{{"$number{kind.title()}":"{of}"}}'
        case "double":
            return f'{{"$numberDouble":"{double_text(of)}"}}'
        case "decimal":
            # Python's text of it is to-scientific-string.
            return f'{{"$numberDecimal":"{decimal_of(of)}"}}'
        case "symbol":
            return f'{{"$symbol":{quoted(of)}}}'
        case "javascript":
            return f'{{"$code":{quoted(of)}}}'
        case "javascriptWithScope":
            return f'{{"$code":{quoted(of[0])},"$scope":{written(of[1], is_relaxed)}}}'
        case "objectId":
            return f'{{"$oid":"{of.hex()}"}}'
        case "date":
            return f'{{"$date":{{"$numberLong":"{of}"}}}}'
        case "timestamp":
            return f'{{"$timestamp":{{"t":{of[0]},"i":{of[1]}}}}}'
        case "binData":
            return f'{{"$binary":{{"base64":"{base64.b64encode(of[1]).decode()}","subType":"{of[0]:02x}"}}}}'
        case "regex":
            return f'{{"$regularExpression":{{"pattern":{quoted(of[0])},"options":{quoted(of[1])}}}}}'
        case "dbPointer":
            return f'{{"$dbPointer":{{"$ref":{quoted(of[0])},"$id":{{"$oid":"{of[1].hex()}"}}}}}}'
        case "minKey" | "maxKey":
            return f'{{"${kind}":1}}'
        case "undefined":
            return '{"$undefined":true}'
    raise AssertionError(kind)


# The order of values, and paths.


def magnitude(value: Value) -> tuple:
    """What a number is compared by, exactly: NaN is the least."""
    of = double_of(value.of) if value.kind == "double" else decimal_of(value.of)
    if of != of:
        return (0, 0)
    return (1, Fraction(of) if abs(of) != float("inf") else float(of))


def rank(value: Value) -> tuple:
    """What a value is compared by: Python's order of these tuples is that of the values."""
    kind, of = value
    rest: object = of
    match kind:
        case "int" | "long":
            rest = (1, of)
        case "double" | "decimal":
            rest = magnitude(value)
        case "string" | "symbol" | "javascript":
            rest = of.encode()
        case "object":
            rest = tuple((byte_and_class(it.kind)[1], name.encode(), rank(it)) for name, it in of)
        case "array":
            rest = tuple(map(rank, of))
        case "binData":
            rest = (len(of[1]) + (4 if of[0] == 2 else 0), *of)
        case "regex":
            rest = (of[0].encode(), of[1].encode())
        case "dbPointer":
            rest = (of[0].encode(), of[1])
        case "javascriptWithScope":
            rest = (of[0].encode(), rank(of[1]))
    return byte_and_class(kind)[1], rest


def path_fault(text: str) -> int | None:
    """1 for an empty name, 2 for too many, which is tried first."""
    names = text.split(".")
    return 2 if len(names) > NAMES else 1 if "" in names else None


def first(pairs: Pairs, name: str) -> Value | None:
    return next((value for it, value in pairs if it == name), None)


def element(elements: tuple[Value, ...], name: str) -> list[Value]:
    """The element whose index a name is, where there is one."""
    return [elements[int(name)]] if re.fullmatch(r"0|[1-9][0-9]*", name, re.ASCII) and len(name) < 10 and int(name) < len(elements) else []


def reach(value: Value, names: list[str]) -> list[Value | None]:
    """What a path reaches; None stands for a field that is missing."""
    if not names:
        return [value]
    kind, of = value
    if kind == "object":
        it = first(of, names[0])
        return [None] if it is None else reach(it, names[1:])
    if kind == "array":
        ends = [end for it in of if it.kind == "object" for end in reach(it, names)]
        return ends + [end for it in element(of, names[0]) for end in reach(it, names[1:])]
    return [None]


def candidates(ends: list[Value | None]) -> Iterator[Value | None]:
    """Each end, and each element of an array among them."""
    for end in ends:
        yield end
        if end is not None and end.kind == "array":
            yield from end.of


def gathered(value: Value, names: list[str], missing: list[Value]) -> list[Value]:
    """The keys of a value on a path, equal ones too, with these in place of a field that is missing."""
    kind, of = value
    if not names:
        return list(of) or [UNDEFINED] if kind == "array" else [value]
    if kind == "object":
        it = first(of, names[0])
        return missing if it is None else gathered(it, names[1:], missing)
    if kind == "array":
        keys = [key for it in of if it.kind == "object" for key in gathered(it, names, missing)]
        return keys + [key for it in element(of, names[0]) for key in gathered(it, names[1:], missing)] or missing
    return missing


def keys(value: Value, path: str, sparse: bool = False) -> list[Value]:
    """The keys of a document on a path, each once; in a sparse index none for a missing field."""
    found: dict[tuple, Value] = {}
    for key in gathered(value, path.split("."), [] if sparse else [NULL]):
        found.setdefault(rank(key), key)
    return list(found.values())


# Filters.

LOGICAL = ("$and", "$or", "$nor")
RELATIONS: dict[str, Callable[[tuple, tuple], bool]] = {
    "$gt": lambda a, b: a > b, "$gte": lambda a, b: a >= b, "$lt": lambda a, b: a < b, "$lte": lambda a, b: a <= b,
}  # fmt: skip
PLAIN = ("$eq", "$ne", *RELATIONS, "$in", "$nin", "$all", "$size", "$exists", "$type")
LEFT_OUT = (
    "$regex", "$options", "$mod", "$expr", "$where", "$text", "$jsonSchema", "$comment", "$geoWithin", "$geoIntersects", "$near",
    "$nearSphere", "$bitsAllSet", "$bitsAnySet", "$bitsAllClear", "$bitsAnyClear", "$ref", "$id", "$db",
)  # fmt: skip
TYPES = {
    1: "double", 2: "string", 3: "object", 4: "array", 5: "binData", 6: "undefined", 7: "objectId", 8: "bool", 9: "date", 10: "null",
    11: "regex", 12: "dbPointer", 13: "javascript", 14: "symbol", 15: "javascriptWithScope", 16: "int", 17: "timestamp", 18: "long",
    19: "decimal", -1: "minKey", 127: "maxKey",
}  # fmt: skip
UNKNOWN, NOT_IN_PROFILE, BAD_OPERAND, MIXED, BAD_PATH, TOO_DEEP = range(1, 7)
FILTER_WORDS = ("unknown operator", "not in the profile", "bad operand", "operators and fields mixed", "bad path", "too deep")


class BadFilter(Exception):
    """The first fault of a filter: its number, and the names to the pair or member that has it."""

    def __init__(self, number: int, place: tuple[str, ...]) -> None:
        super().__init__(number, place)
        self.number, self.place = number, place


def is_whole(value: Value) -> bool:
    return value.kind in ("int", "long")


def has_operators(value: Value) -> bool:
    """Whether it is an object whose first name begins with a dollar sign."""
    return value.kind == "object" and value.of[:1] != () and value.of[0][0].startswith("$")


def is_value_form(body: Value) -> bool:
    """Whether the body of $elemMatch is operators."""
    return has_operators(body) and body.of[0][0] not in LOGICAL


def types_of(operand: Value) -> list[str] | None:
    """The kinds that $type asks for; None where the operand is bad."""
    members = operand.of if operand.kind == "array" else (operand,)
    kinds = []
    for member in members:
        name = TYPES.get(member.of) if is_whole(member) else member.of if member.kind == "string" else None
        if name == "number":
            kinds += ["int", "long", *WIDE_KINDS] if member.kind == "string" else []
        elif name in TYPES.values():
            kinds.append(name)
        else:
            return None
    return kinds if members else None


# The types of numbers by their names and their numbers for `$type`.
NUMBERS = {name: code for code, name in TYPES.items() if name in ("double", "int", "long", "decimal")}


# How many classes of the types of numbers a query may split them into, in a session and in a run.
IN_SESSIONS, IN_RUNS = 1, 2


def types_place(query: Value, classes: int) -> str | None:
    """The place of the first `$type` anywhere in a query that with those before it splits the four types of numbers into more classes."""
    named = []
    for place, types in types_named(query):
        named.append(types)
        if len({tuple(kind in it for it in named) for kind in NUMBERS}) > classes:
            return ".".join(place)
    return None


def types_named(value: Value, place: tuple[str, ...] = ()) -> Iterator[tuple[tuple[str, ...], set[str]]]:
    """Each `$type` anywhere in a value, in the order of its text: the names to it, and the types of numbers that it names."""
    match value.kind:
        case "object":
            pairs = value.of
        case "array":
            pairs = [(str(index), it) for index, it in enumerate(value.of)]
        case "javascriptWithScope":
            pairs = [("$scope", value.of[1])]
        case _:
            return
    for name, it in pairs:
        if name == "$type" and value.kind == "object":
            yield (*place, name), numbers_in(it)
        yield from types_named(it, (*place, name))


def numbers_in(operand: Value) -> set[str]:
    """The types of numbers that an operand of `$type` names."""
    members = [it.of for it in (operand.of if operand.kind == "array" else [operand]) if is_whole(it) or it.kind == "string"]
    return {name for name, code in NUMBERS.items() if name in members or code in members or "number" in members}


def check_filter(document: Value, place: tuple[str, ...] = (), level: int = 1) -> None:
    """Raises the first fault of a document that is no filter."""
    for name, value in document.of:
        at = (*place, name)
        if name in LOGICAL:
            if value.kind != "array" or not value.of:
                raise BadFilter(BAD_OPERAND, at)
            for index, member in enumerate(value.of):
                check_body(member, (*at, str(index)), level)
                check_filter(member, (*at, str(index)), level + 1)
        elif name.startswith("$"):
            raise BadFilter(NOT_IN_PROFILE if name in LEFT_OUT else UNKNOWN, at)
        elif path_fault(name):
            raise BadFilter(BAD_PATH, at)
        elif has_operators(value):
            check_operators(value, at, level)
        elif value.kind == "regex":
            raise BadFilter(NOT_IN_PROFILE, at)


def check_body(body: Value, at: tuple[str, ...], level: int) -> None:
    if body.kind != "object":
        raise BadFilter(BAD_OPERAND, at)
    if level == LEVELS:
        raise BadFilter(TOO_DEEP, at)


def check_operators(document: Value, place: tuple[str, ...], level: int) -> None:
    for name, operand in document.of:
        at = (*place, name)
        if name in PLAIN:
            check_operand(name, operand, at)
        elif name == "$not":
            if not has_operators(operand):
                raise BadFilter(NOT_IN_PROFILE if operand.kind == "regex" else BAD_OPERAND, at)
            check_body(operand, at, level)
            check_operators(operand, at, level + 1)
        elif name == "$elemMatch":
            check_body(operand, at, level)
            (check_operators if is_value_form(operand) else check_filter)(operand, at, level + 1)
        elif not name.startswith("$"):
            raise BadFilter(MIXED, at)
        else:
            raise BadFilter(NOT_IN_PROFILE if name in LEFT_OUT else UNKNOWN, at)


def check_operand(name: str, operand: Value, at: tuple[str, ...]) -> None:
    left_out = {"$ne": ("regex",), **dict.fromkeys(RELATIONS, ("regex", "minKey", "maxKey"))}
    if operand.kind in left_out.get(name, ()):
        raise BadFilter(NOT_IN_PROFILE, at)
    if name in ("$in", "$nin", "$all"):
        if operand.kind != "array":
            raise BadFilter(BAD_OPERAND, at)
        for index, member in enumerate(operand.of):
            if member.kind == "regex" or has_operators(member):
                raise BadFilter(NOT_IN_PROFILE, (*at, str(index)))
    good = {
        "$size": is_whole(operand) and operand.of >= 0,
        "$exists": is_whole(operand) or operand.kind == "bool",
        "$type": types_of(operand) is not None,
    }
    if not good.get(name, True):
        raise BadFilter(BAD_OPERAND, at)


def equals(value: Value | None, other: Value) -> bool:
    return rank(NULL if value is None else value) == rank(other)


def is_related(name: str, value: Value | None, operand: Value) -> bool:
    """Whether a value of the operand's class is in this order to it. NaN is neither less nor greater than a number."""
    mine, its = rank(NULL if value is None else value), rank(operand)
    if mine[0] == its[0] == KINDS["int"][1] and (0, 0) in (mine[1], its[1]):
        return mine == its and name in ("$gte", "$lte")
    return mine[0] == its[0] and RELATIONS[name](mine, its)


def matches(document: Value, query: Value) -> bool:
    """Whether a document matches a filter."""
    for name, value in query.of:
        if name in LOGICAL:
            count = sum(matches(document, member) for member in value.of)
            holds = {"$and": count == len(value.of), "$or": count > 0, "$nor": count == 0}[name]
        else:
            ends = reach(document, name.split("."))
            holds = all_hold(ends, value) if has_operators(value) else holds_of(ends, "$eq", value)
        if not holds:
            return False
    return True


def all_hold(ends: list[Value | None], operators: Value) -> bool:
    return all(holds_of(ends, name, operand) for name, operand in operators.of)


def holds_of(ends: list[Value | None], name: str, operand: Value) -> bool:
    """Whether an operator holds of what a path reaches."""
    among = list(candidates(ends))
    if name in RELATIONS:
        return any(is_related(name, it, operand) for it in among)
    match name:
        case "$eq":
            return any(equals(it, operand) for it in among)
        case "$in":
            return any(equals(it, member) for member in operand.of for it in among)
        case "$all":
            return operand.of != () and all(any(equals(it, member) for it in among) for member in operand.of)
        case "$type":
            return any(it is not None and it.kind in types_of(operand) for it in among)
        case "$size":
            return any(end is not None and end.kind == "array" and len(end.of) == operand.of for end in ends)
        case "$exists":
            return any(end is not None for end in ends) == bool(operand.of)
        case "$elemMatch":
            return any(end is not None and end.kind == "array" and any(suits(it, operand) for it in end.of) for end in ends)
        case "$ne":
            return not holds_of(ends, "$eq", operand)
        case "$nin":
            return not holds_of(ends, "$in", operand)
        case "$not":
            return not all_hold(ends, operand)
    raise AssertionError(name)


def suits(it: Value, body: Value) -> bool:
    """Whether an element of an array meets the body of $elemMatch."""
    if is_value_form(body):
        return all(accepts(it, name, operand) for name, operand in body.of)
    return it.kind == "object" and matches(it, body)


def accepts(it: Value, name: str, operand: Value) -> bool:
    """Whether an operator holds of an element by itself, which is not looked into."""
    if name in RELATIONS:
        return is_related(name, it, operand)
    match name:
        case "$eq":
            return equals(it, operand)
        case "$in":
            return any(equals(it, member) for member in operand.of)
        case "$all":
            return operand.of != () and all(equals(it, member) for member in operand.of)
        case "$type":
            return it.kind in types_of(operand)
        case "$size":
            return it.kind == "array" and len(it.of) == operand.of
        case "$exists":
            return bool(operand.of)
        case "$elemMatch":
            return it.kind == "array" and any(suits(inner, operand) for inner in it.of)
        case "$ne":
            return not equals(it, operand)
        case "$nin":
            return not accepts(it, "$in", operand)
        case "$not":
            return not all(accepts(it, inner, its) for inner, its in operand.of)
    raise AssertionError(name)


# The bounds that a filter gives to an index: whether a key is inside; None where there are none.

Bounds = Callable[[Value], bool]


def conjoined(parts: list[Bounds | None], multikey: bool) -> Bounds | None:
    """The bounds of a conjunction, in its order: in a multikey index the first alone."""
    bounded = [it for it in parts if it is not None]
    if multikey:
        bounded = bounded[:1]
    return (lambda key: all(it(key) for it in bounded)) if bounded else None


def bounds_of(query: Value, names: list[str], multikey: bool) -> Bounds | None:
    return conjoined([bounds_of_pair(name, value, names, multikey) for name, value in query.of], multikey)


def bounds_of_pair(name: str, value: Value, names: list[str], multikey: bool) -> Bounds | None:
    if name in LOGICAL:
        parts = [bounds_of(member, names, multikey) for member in value.of]
        if name == "$and":
            return conjoined(parts, multikey)
        if name == "$nor" or None in parts:
            return None
        return lambda key: any(it(key) for it in parts)
    start = name.split(".")
    if names[: len(start)] != start:
        return None
    operators = value.of if has_operators(value) else (("$eq", value),)
    rest = names[len(start) :]
    return conjoined([bounds_of_operator(it, operand, rest, multikey) for it, operand in operators], multikey)


def bounds_of_operator(name: str, operand: Value, rest: list[str], multikey: bool) -> Bounds | None:
    """The bounds of an operator, by what is left of the path of the index after its own."""
    if rest:
        return bounds_of(operand, rest, multikey) if name == "$elemMatch" and not is_value_form(operand) else None
    if name in RELATIONS:
        return None if operand.kind == "array" else lambda key: is_related(name, key, operand)
    match name:
        case "$eq":
            return bounds_of_equal(operand)
        case "$in":
            members = [bounds_of_equal(it) for it in operand.of]
            return lambda key: any(it(key) for it in members)
        case "$all":
            return conjoined([bounds_of_equal(it) for it in operand.of], multikey) or (lambda _: False)
        case "$type":
            return None if "array" in types_of(operand) else of_classes(types_of(operand))
        case "$exists":
            return None if operand.of else lambda key: key.kind == "null"
        case "$size":
            return None if operand.of else lambda key: key.kind == "undefined"
        case "$elemMatch":
            if not is_value_form(operand):
                return of_classes(["object"])
            return conjoined([bounds_of_element(it, its) for it, its in operand.of], False)
    return None


def bounds_of_equal(value: Value) -> Bounds:
    """Keys that equal a value; of an array its first element too, and undefined of an empty one."""
    wanted = [value, *((*value.of, UNDEFINED)[:1] if value.kind == "array" else ())]
    return lambda key: any(equals(key, it) for it in wanted)


def bounds_of_element(name: str, operand: Value) -> Bounds | None:
    """The bounds of an operator of one element, which is a key."""
    if name in ("$eq", *RELATIONS, "$in", "$all"):
        return lambda key: accepts(key, name, operand)
    return of_classes(types_of(operand)) if name == "$type" else None


def of_classes(kinds: list[str]) -> Bounds:
    classes = {KINDS[kind][1] for kind in kinds if kind in KINDS}
    return lambda key: byte_and_class(key.kind)[1] in classes


# Requests over documents, and their tokens.


def sort_pairs(sort: Value) -> list[tuple[str, int]] | None:
    """The paths and directions of a sort; None where it is none."""
    good = all(is_whole(way) and way.of in (1, -1) and not path_fault(path) for path, way in sort.of)
    distinct = len({path for path, _ in sort.of}) == len(sort.of) <= 4
    return [(path, way.of) for path, way in sort.of] if good and distinct else None


def digest(dump: bytes, text: str) -> bytes:
    """What tokens are tied to: the bytes of a dump, and the text of a request."""
    return hashlib.sha256(hashlib.sha256(dump).digest() + text.encode()).digest()


def token_of(given: int, last: int, tied: bytes, version: int = 1) -> str:
    """The version, how many documents were given, the number of the last one, and the digest, in base64."""
    return base64.b64encode(bytes([version]) + given.to_bytes(8, "little") + last.to_bytes(4, "little") + tied).decode()


class Token(NamedTuple):
    """How many documents were given, the place of the last one, and what it is tied to."""

    given: int
    last: int
    tied: bytes

    def text(self) -> str:
        return token_of(*self)


def read_token(text: str) -> Token | None:
    """The token of a text: standard base64, padded, of 45 bytes, and of version 1."""
    try:
        data = base64.b64decode(text.encode("ascii"), validate=True)
    except ValueError:
        return None
    if len(data) != 45 or data[0] != 1 or base64.b64encode(data).decode() != text:
        return None
    return Token(int.from_bytes(data[1:9], "little"), int.from_bytes(data[9:13], "little"), data[13:])


class Request(NamedTuple):
    """What is asked of a dump, once it is known to be a request."""

    query: Value = obj()
    sort: Value = obj()
    skip: int = 0
    limit: int = 0

    def text(self) -> str:
        """The text to which tokens are tied."""
        ways = obj(*((path, Value("int", way.of)) for path, way in self.sort.of))
        return f'{{"filter":{written(self.query)},"sort":{written(ways)},"skip":{self.skip},"limit":{self.limit}}}'


class Index(NamedTuple):
    """The keys of each document on a path."""

    path: str
    sparse: bool
    keys: list[list[Value]]
    multikey: bool

    @property
    def entries(self) -> int:
        return sum(map(len, self.keys))


class Dump:
    """Documents, and what is found in them."""

    def __init__(self, documents: list[Value], data: bytes | None = None) -> None:
        self.documents = documents
        # Other bytes may be the same documents: names of elements that are not their indexes.
        self.bytes = b"".join(map(encoded, documents)) if data is None else data

    def tied(self, request: Request) -> bytes:
        return digest(self.bytes, request.text())

    def sort_key(self, place: int, path: str, way: int) -> tuple:
        return (min if way == 1 else max)(map(rank, keys(self.documents[place], path)))

    def all(self, request: Request) -> list[int]:
        """The places that match, in the order of the sort."""
        places = [place for place, it in enumerate(self.documents) if matches(it, request.query)]
        # Sorts that keep the order of what is equal, by the last path first.
        for path, way in reversed(sort_pairs(request.sort)):
            places.sort(key=lambda place: self.sort_key(place, path, way))
            if way == -1:
                places = [place for _, run in runs(places, lambda place: self.sort_key(place, path, way)) for place in run]
        return places

    def answer(self, request: Request) -> list[int]:
        return self.all(request)[request.skip :][: request.limit or None]

    def rest(self, request: Request, token: Token) -> list[int]:
        """What follows a token: the place of the token itself has to match no filter."""
        mark = token.last
        ordered = self.all(request._replace(query=obj()))
        after = set(ordered[ordered.index(mark) + 1 :])
        left = [place for place in self.all(request) if place in after]
        return left[: max(request.limit - token.given, 0)] if request.limit else left

    def index(self, path: str, sparse: bool = False) -> Index:
        multikey = any(len(keys(it, path)) > 1 for it in self.documents)
        return Index(path, sparse, [keys(it, path, sparse) for it in self.documents], multikey)


def runs(places: list[int], key: Callable[[int], tuple]) -> list[tuple[tuple, list[int]]]:
    """Places in the order of their keys, as runs of equal keys, the greatest key first."""
    found: dict[tuple, list[int]] = {}
    for place in places:
        found.setdefault(key(place), []).append(place)
    return list(reversed(found.items()))
