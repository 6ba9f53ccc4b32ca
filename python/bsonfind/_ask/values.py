"""Plain values of Python for values of Extended JSON, and the other way."""

from __future__ import annotations

import base64
import re
from datetime import datetime, timedelta, timezone
from decimal import Decimal
from typing import Any, Callable, Literal, Mapping
from uuid import UUID

from .._arguments import shown
from .._errors import ArgumentError

_EPOCH = datetime(1970, 1, 1, tzinfo=timezone.utc)
_HEX = re.compile("[0-9a-f]{24}")
# The texts of numbers as the program prints them. Python reads others too, such as "1_000", which a document of a dump may have.
_WHOLE = re.compile("0|-?[1-9][0-9]*")
_DOUBLE = re.compile(r"-?(?:0|[1-9][0-9]*)\.[0-9]+|-?[1-9](?:\.[0-9]+)?E[+-][0-9]{2,3}|NaN|-?Infinity")
_DECIMAL = re.compile(r"-?(?:0|[1-9][0-9]*)(?:\.[0-9]+)?(?:E[+-][0-9]+)?|NaN|-?Infinity")
_INT32, _INT64 = range(-(1 << 31), 1 << 31), range(-(1 << 63), 1 << 63)
_BASE64 = re.compile("[0-9A-Za-z+/]*={0,2}")
# The names that begin an object which means another value.
WRAPPERS = (
    "$binary", "$code", "$date", "$dbPointer", "$maxKey", "$minKey", "$numberDecimal", "$numberDouble", "$numberInt",
    "$numberLong", "$oid", "$regularExpression", "$scope", "$symbol", "$timestamp", "$undefined", "$uuid",
)  # fmt: skip
# How UUIDs are written, by the names of pymongo: as subtype 04, or by old drivers as subtype 03 with their bytes in some order.
Uuids = Literal["standard", "pythonLegacy", "javaLegacy", "csharpLegacy"]
# How the values of a field are given.
Values = Literal["plain", "canonical"]
# What puts the bytes of a UUID in this order, and back.
_ORDERS: dict[str, Callable[[bytes], bytes]] = {
    "standard": lambda it: it,
    "pythonLegacy": lambda it: it,
    "javaLegacy": lambda it: it[7::-1] + it[:7:-1],
    "csharpLegacy": lambda it: UUID(bytes=it).bytes_le,
}


class ObjectId:
    """An id of MongoDB, by the 24 digits of its text. It may be in a filter."""

    __slots__ = ("_digits",)

    def __init__(self, digits: str) -> None:
        if not isinstance(digits, str) or not _HEX.fullmatch(digits.lower()):
            raise ArgumentError(f"an id has 24 hexadecimal digits, not {shown(digits)}")
        self._digits = digits.lower()

    def __str__(self) -> str:
        return self._digits

    def __repr__(self) -> str:
        return f"ObjectId({self._digits!r})"

    def __eq__(self, other: object) -> bool:
        if not isinstance(other, ObjectId):
            return NotImplemented
        return self._digits == other._digits

    def __lt__(self, other: ObjectId) -> bool:
        return self._digits < other._digits if isinstance(other, ObjectId) else NotImplemented

    def __hash__(self) -> int:
        return hash(self._digits)


def uuids_of(name: Uuids) -> Uuids:
    """A name of `uuid_representation`; others are an `ArgumentError`."""
    if not isinstance(name, str) or name not in _ORDERS:
        raise ArgumentError(f"uuid_representation is one of {', '.join(_ORDERS)}, not {shown(name)}")
    return name


def plain_document(document: dict[str, Any], uuids: Uuids = "standard") -> dict[str, Any]:
    """A document with plain values in place of canonical Extended JSON.

    Whole numbers become `int`, doubles `float`, decimal128 a `Decimal`, dates a `datetime` in UTC, binary data of subtype 0 `bytes`,
    UUIDs of the representation a `UUID`, and ids an `ObjectId`. What Python has no plain value for stays as it is, such as
    `{"$minKey": 1}`, and a date after the year 9999. A document that is written as a value is one, such as `{"$oid": ".."}`.
    """
    return {name: plain_value(value, uuids) for name, value in document.items()}


def plain_value(value: Any, uuids: Uuids = "standard") -> Any:
    """A value as `plain_document` has it."""
    if isinstance(value, dict):
        if len(value) == 1:
            ((name, inner),) = value.items()
            read = _READERS.get(name)
            if read:
                try:
                    return read(inner, uuids)
                except (ValueError, ArithmeticError):
                    return value  # Another document than the value that the name represents, or one without a plain value.
        return plain_document(value, uuids)
    if isinstance(value, list):
        return [plain_value(it, uuids) for it in value]
    return value


def _whole(text: Any, all_of_them: range) -> int:
    number = int(_text(text, _WHOLE))
    if number not in all_of_them:
        raise ValueError
    return number


def _date(inner: Any) -> datetime:
    if not isinstance(inner, dict) or list(inner) != ["$numberLong"]:
        raise ValueError
    return _EPOCH + timedelta(milliseconds=_whole(inner["$numberLong"], _INT64))


def _binary(inner: Any, uuids: Uuids) -> bytes | UUID:
    if not isinstance(inner, dict) or list(inner) != ["base64", "subType"] or inner["subType"] not in ("00", _subtype_of(uuids)):
        raise ValueError
    data = base64.b64decode(_text(inner["base64"], _BASE64), validate=True)
    if inner["subType"] == "00":
        return data
    if len(data) != 16:
        raise ValueError
    return UUID(bytes=_ORDERS[uuids](data))


def _subtype_of(uuids: Uuids) -> str:
    return "04" if uuids == "standard" else "03"


def _text(text: Any, form: re.Pattern[str]) -> str:
    """A text of this form; another one is an error."""
    if not isinstance(text, str) or not form.fullmatch(text):
        raise ValueError
    return text


_READERS: dict[str, Callable[[Any, Uuids], Any]] = {
    "$numberInt": lambda text, _: _whole(text, _INT32),
    "$numberLong": lambda text, _: _whole(text, _INT64),
    "$numberDouble": lambda text, _: float(_text(text, _DOUBLE)),
    "$numberDecimal": lambda text, _: Decimal(_text(text, _DECIMAL)),
    "$oid": lambda text, _: ObjectId(_text(text, _HEX)),
    "$date": lambda inner, _: _date(inner),
    "$binary": _binary,
}


def extended(value: Any, uuids: Uuids = "standard") -> Any:
    """Extended JSON of a value that JSON has no type for: a plain one, or by pymongo one of its types."""
    if isinstance(value, ObjectId):
        return {"$oid": str(value)}
    if isinstance(value, datetime):
        # As pymongo takes it, a time without a zone is one of UTC.
        since = (value if value.tzinfo else value.replace(tzinfo=timezone.utc)) - _EPOCH
        return {"$date": {"$numberLong": str(since // timedelta(milliseconds=1))}}
    if isinstance(value, Decimal):
        return {"$numberDecimal": str(value)}
    if isinstance(value, (bytes, bytearray, memoryview)):
        # Those of pymongo's Binary have another subtype.
        return _wrapped(value, f"{getattr(value, 'subtype', 0):02x}")
    if isinstance(value, UUID):
        return _wrapped(_ORDERS[uuids](value.bytes), _subtype_of(uuids))
    if isinstance(value, Mapping):
        return dict(value)
    try:
        from bson import json_util  # type: ignore[import]
    except ImportError:
        kind = type(value).__name__
        raise TypeError(f"{kind} is none of JSON's types; write it as Extended JSON, or install pymongo") from None
    return json_util.default(value, json_util.CANONICAL_JSON_OPTIONS)


def _wrapped(data: bytes | bytearray | memoryview, subtype: str) -> dict[str, Any]:
    # The bytes of a view may lie apart.
    return {"$binary": {"base64": base64.b64encode(bytes(data)).decode(), "subType": subtype}}
