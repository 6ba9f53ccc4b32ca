"""Texts of Extended JSON read by Python: the document that a text is, or its first fault and the byte of it.

First a text is taken as JSON, from left to right; then the tree that it is, from left to right; last it has to be a document.
Doubles and decimal128, and dates and UUIDs as texts, are read where that is said, as `bsonwide` does; else they are faults, as of
`bsonfind`.
"""

import base64
import re
import struct
from collections.abc import Callable, Iterator
from datetime import datetime, timedelta
from typing import NamedTuple

from model.answers import INT32, INT64, UNDEFINED, Value

BRACKETS, LEVELS = 203, 200
SYNTAX, NOT_A_DOCUMENT, TOO_DEEP, BAD_WRAPPER, NOT_IN_PROFILE, NUMBER_RANGE, NUL_IN_NAME, TRAILING_TEXT = range(1, 9)
TEXT_WORDS = (
    "not JSON", "not a document", "too deep", "bad wrapper", "not in the profile", "number out of range", "zero in a name",
    "text after the document",
)  # fmt: skip
WRAPPERS = (
    "$numberInt", "$numberLong", "$numberDouble", "$numberDecimal", "$oid", "$symbol", "$binary", "$uuid", "$code", "$scope", "$timestamp",
    "$regularExpression", "$dbPointer", "$date", "$minKey", "$maxKey", "$undefined",
)  # fmt: skip
WHITE = " \t\n\r"
WHOLE = re.compile(r"-?(?:0|[1-9][0-9]*)", re.ASCII)
# A number of RFC 8259, and a numeric-string of the decimal128 specification that is finite: a sign, digits, a fraction, an exponent.
NUMBER = re.compile(rf"{WHOLE.pattern}(?:\.[0-9]+)?(?:[eE][+-]?[0-9]+)?", re.ASCII)
DECIMAL = re.compile(r"([+-]?)(?=\.?[0-9])([0-9]*)(?:\.([0-9]*))?(?:[eE]([+-]?)([0-9]+))?", re.ASCII)
WORD_OF_DECIMAL = re.compile(r"([+-]?)(?:(inf|infinity)|nan)", re.ASCII | re.IGNORECASE)
# A date-time of RFC 3339, up to thousandths of a second, and a UUID.
DATE = re.compile(
    r"([0-9]{4})-([0-9]{2})-([0-9]{2})T([0-9]{2}):([0-9]{2}):([0-9]{2})(?:\.([0-9]{1,3}0*))?(?:Z|([+-])([0-9]{2}):?([0-9]{2}))",
    re.ASCII,
)
UUID = re.compile(r"[0-9a-fA-F]{8}(?:-[0-9a-fA-F]{4}){3}-[0-9a-fA-F]{12}", re.ASCII)
# What `bsonwide` says to write in place of a word of mongosh, of a wrapper with other contents, and of a name without quotation marks.
DATE_FORM, BINARY_FORM = 'write {"$date":"2026-10-01T00:00:00Z"}', 'write {"$binary":{"base64":"..","subType":".."}}'
TIMESTAMP_FORM = 'write {"$timestamp":{"t":..,"i":..}}'
FORMS = {f"${it}": f'write {{"${it}":".."}}' for it in ("numberInt", "numberLong", "numberDecimal", "numberDouble")}
WORDS = {
    "ObjectId(": 'write {"$oid":".."}', "ISODate(": DATE_FORM, "Date(": DATE_FORM, "UUID(": 'write {"$uuid":".."}',
    "NumberInt(": FORMS["$numberInt"], "Int32(": FORMS["$numberInt"], "NumberLong(": FORMS["$numberLong"], "Long(": FORMS["$numberLong"],
    "NumberDecimal(": FORMS["$numberDecimal"], "Decimal128(": FORMS["$numberDecimal"], "Double(": FORMS["$numberDouble"],
    "NaN": 'write {"$numberDouble":"NaN"}', "Infinity": 'write {"$numberDouble":"Infinity"}', "Timestamp(": TIMESTAMP_FORM,
    "BinData(": BINARY_FORM, "MinKey": 'write {"$minKey":1}', "MaxKey": 'write {"$maxKey":1}', "/": "regular expressions are not supported",
    "'": "write names and strings in double quotation marks",
}  # fmt: skip
FORMS |= {
    "$oid": 'write {"$oid":".."} with 24 hexadecimal digits', "$date": DATE_FORM, "$timestamp": TIMESTAMP_FORM, "$binary": BINARY_FORM,
    "$uuid": 'write {"$uuid":"00112233-4455-6677-8899-aabbccddeeff"}',
}  # fmt: skip
NAMES = "write names in double quotation marks"
BARE_NAME = re.compile(rb"[A-Za-z0-9_$.\x80-\xff]+[ \t\n\r]*:")
FIRST_NAME = re.compile(rb'\{[ \t\n\r]*"(\$[A-Za-z]+)"')
# A decimal128 has at most so many digits, and its exponent is in this range.
DIGITS, LEAST, GREATEST = 34, -6176, 6111
ESCAPES = {'"': '"', "\\": "\\", "/": "/", "b": "\b", "f": "\f", "n": "\n", "r": "\r", "t": "\t"}


class TextFault(Exception):
    """The first fault of a text: its number, and its byte."""

    def __init__(self, number: int, at: int) -> None:
        super().__init__(number, at)
        self.number, self.at = number, at


class Node(NamedTuple):
    """A value of JSON, and the character at which it begins: of an object names, their places and values."""

    kind: str
    at: int
    of: object = None


class Escaped(str):
    """A text of JSON that is written with an escape."""


class Reader:
    """Goes over a text as JSON. Its places are characters."""

    def __init__(self, text: str) -> None:
        self.text = text
        self.at = 0

    def stop(self, at: int | None = None, number: int = SYNTAX) -> TextFault:
        return TextFault(number, self.at if at is None else at)

    def peek(self) -> str:
        """The next character, an empty text at the end."""
        return self.text[self.at : self.at + 1]

    def white(self) -> str:
        while self.peek() and self.peek() in WHITE:
            self.at += 1
        return self.peek()

    def take(self, wanted: str) -> None:
        for character in wanted:
            if self.peek() != character:
                raise self.stop()
            self.at += 1

    def value(self, depth: int = 0) -> Node:
        next_one, at = self.white(), self.at
        if next_one in ("{", "[") and depth == BRACKETS:
            raise self.stop(number=TOO_DEEP)
        if next_one == "{":
            return Node("object", at, tuple(self.members("}", lambda: self.member(depth + 1))))
        if next_one == "[":
            return Node("array", at, tuple(self.members("]", lambda: self.value(depth + 1))))
        if next_one == '"':
            return Node("string", at, self.string())
        for word, kind in (("true", True), ("false", False), ("null", None)):
            if next_one == word[0]:
                self.take(word)
                return Node("word", at, kind)
        return Node("number", at, self.number())

    def members(self, end: str, member: Callable[[], object]) -> Iterator[object]:
        """What stands between brackets, with commas between."""
        self.at += 1
        if self.white() == end:
            self.at += 1
            return
        while True:
            yield member()
            if self.white() == end:
                self.at += 1
                return
            self.take(",")

    def member(self, depth: int) -> tuple[str, int, Node]:
        self.white()
        at = self.at
        name = self.string()
        self.white()
        self.take(":")
        return name, at, self.value(depth)

    def string(self) -> str:
        self.take('"')
        parts, kind = [], str
        while self.peek() != '"':
            if self.peek() == "\\":
                parts.append(self.escape())
                kind = Escaped
            elif self.peek() < " ":
                raise self.stop()
            else:
                parts.append(self.peek())
                self.at += 1
        self.at += 1
        return kind("".join(parts))

    def escape(self) -> str:
        start = self.at
        self.at += 1
        if self.peek() != "u":
            if self.peek() not in ESCAPES or not self.peek():
                raise self.stop()
            self.at += 1
            return ESCAPES[self.text[self.at - 1]]
        unit = self.unit()
        if unit not in range(0xD800, 0xE000):
            return chr(unit)
        if unit >= 0xDC00:
            raise self.stop(start)
        # A low one has to follow: else the high one is at fault, but where the text ends.
        low = re.compile(r"\\u[dD][c-fC-F][0-9a-fA-F]{2}").match(self.text, self.at)
        if low:
            self.at += 6
            return chr(0x10000 + ((unit - 0xD800) << 10) + int(low[0][2:], 16) - 0xDC00)
        rest = self.text[self.at :]
        raise self.stop(len(self.text) if re.fullmatch(r"|\\|\\u[0-9a-fA-F]{0,3}", rest) else start)

    def unit(self) -> int:
        """The number of four digits."""
        self.at += 1
        for _ in range(4):
            if not re.fullmatch("[0-9a-fA-F]", self.peek()):
                raise self.stop()
            self.at += 1
        return int(self.text[self.at - 4 : self.at], 16)

    def number(self) -> str:
        start = self.at
        if self.peek() == "-":
            self.at += 1
        if self.peek() == "0":
            self.at += 1
        else:
            self.digits()
        if self.peek() == ".":
            self.at += 1
            self.digits()
        if self.peek() in ("e", "E"):
            self.at += 1
            if self.peek() in ("+", "-"):
                self.at += 1
            self.digits()
        return self.text[start : self.at]

    def digits(self) -> None:
        if not re.fullmatch("[0-9]", self.peek()):
            raise self.stop()
        while re.fullmatch("[0-9]", self.peek()):
            self.at += 1


def names_of(node: Node) -> list[str]:
    return [name for name, _, _ in node.of]


def part(node: Node | None, *names: str) -> list[Node]:
    """The values of an object that has these names alone, in this order; of another node none."""
    if node is None or node.kind != "object" or sorted(names_of(node)) != sorted(names):
        return []
    return [next(it for other, _, it in node.of if other == name) for name in names]


def is_wrapper(node: Node) -> bool:
    return node.kind == "object" and names_of(node)[:1] != [] and names_of(node)[0] in WRAPPERS


def value_of(node: Node, level: int, is_wide: bool = False) -> Value:
    """The value of a node, which is at that level where it is a document or an array."""
    if is_wrapper(node):
        return wrapped(node, level, is_wide)
    if node.kind in ("object", "array") and level > LEVELS:
        raise TextFault(TOO_DEEP, node.at)
    match node.kind:
        case "object":
            pairs = []
            for name, at, it in node.of:
                if "\0" in name:
                    raise TextFault(NUL_IN_NAME, at)
                pairs.append((name, value_of(it, level + 1, is_wide)))
            return Value("object", tuple(pairs))
        case "array":
            return Value("array", tuple(value_of(it, level + 1, is_wide) for it in node.of))
        case "string":
            return Value("string", node.of)
        case "word":
            return Value("null") if node.of is None else Value("bool", node.of)
    if not WHOLE.fullmatch(node.of):
        if is_wide:
            return number_in("$numberDouble", node.of, node.at)
        raise TextFault(NOT_IN_PROFILE, node.at)
    number = whole(node.of)
    if number not in INT64:
        raise TextFault(NUMBER_RANGE, node.at)
    return Value("int" if number in INT32 else "long", number)


def whole(text: str) -> int:
    """The number of a text, whose digits may be many: then one that is out of every range."""
    return int(text) if len(text) < 30 else int(text[:30])


def number_in(name: str, text: str, at: int) -> Value:
    """The number that a wrapper's text is, or a bare number as that of a double; its faults are told at a place."""
    made = double_in(text) if name == "$numberDouble" else decimal_in(text)
    if isinstance(made, int):
        raise TextFault(made, at)
    return Value(name.removeprefix("$number").lower(), made)


def double_in(text: str) -> bytes | int:
    """The bytes of the nearest double, or the fault of a text."""
    words = {"NaN": "nan", "Infinity": "inf", "-Infinity": "-inf"}
    if text not in words and not NUMBER.fullmatch(text):
        return BAD_WRAPPER
    # Python's is the nearest, and of two the even one.
    number = float(words.get(text, text))
    return NUMBER_RANGE if abs(number) == float("inf") and text not in words else struct.pack("<d", number)


def decimal_in(text: str) -> bytes | int:
    """The bytes of the decimal128 that is the number of a text, with the nearest exponent of those that it can have, or a fault."""
    word, number = WORD_OF_DECIMAL.fullmatch(text), DECIMAL.fullmatch(text)
    if word:
        return decimal_bytes(word[1] == "-" and word[2] is not None, 0, (0x1E if word[2] else 0x1F) << 9)
    if not number:
        return BAD_WRAPPER
    sign, before, after, power_sign, power = number.groups(default="")
    digits = (before + after).lstrip("0")
    # No text is so long that more digits of an exponent are wanted.
    exponent = int(f"{power_sign}0{power.lstrip('0')[:20]}") - len(after)
    short = digits.rstrip("0")
    if not short:
        return decimal_bytes(sign == "-", 0, min(max(exponent, LEAST), GREATEST) - LEAST)
    # Zeros at its end are digits or are in the exponent: as many are digits as bring it nearest to that of the text.
    last, most = exponent + len(digits) - len(short), DIGITS - len(short)
    nearest = min(max(exponent, LEAST, last - most), GREATEST)
    if not 0 <= last - nearest <= most:
        return NUMBER_RANGE
    return decimal_bytes(sign == "-", int(short) * 10 ** (last - nearest), nearest - LEAST)


def decimal_bytes(is_negative: bool, coefficient: int, biased: int) -> bytes:
    """The bytes of a decimal128, by its coefficient and its exponent plus 6176."""
    return (is_negative << 127 | biased << 113 | coefficient).to_bytes(16, "little")


def wrapped(node: Node, level: int, is_wide: bool) -> Value:
    """The value of an object that begins as a wrapper: its faults are told at its brace."""
    name, _, inside = node.of[0]
    is_number = name in ("$numberDouble", "$numberDecimal")
    is_form = name == "$uuid" or (name == "$date" and inside.kind == "string")
    if (not is_wide and (is_number or is_form)) or (name == "$binary" and inside.kind == "string"):
        raise TextFault(NOT_IN_PROFILE, node.at)
    # The wrapper of a double, a decimal128, a date as text and a UUID is read as it is written: no part of one has an escape.
    if (is_number or is_form) and isinstance(name, Escaped):
        raise TextFault(NOT_IN_PROFILE, node.at)
    if (is_number or is_form) and isinstance(inside.of, Escaped):
        raise TextFault(BAD_WRAPPER, node.at)
    if name in ("$code", "$scope"):
        return code(node, level, is_wide)
    if is_number and len(node.of) == 1 and inside.kind == "string":
        return number_in(name, inside.of, node.at)
    made = (form_in(name, inside) if is_form else made_of(name, inside)) if len(node.of) == 1 else None
    if made is None:
        raise TextFault(BAD_WRAPPER, node.at)
    if made.kind == "regex" and "\0" in "".join(made.of):
        raise TextFault(NUL_IN_NAME, node.at)
    ranges = {"int": INT32, "long": INT64, "date": INT64, "timestamp": range(1 << 32)}
    numbers = made.of if made.kind == "timestamp" else (made.of,)
    if made.kind in ranges and not all(it in ranges[made.kind] for it in numbers):
        raise TextFault(NUMBER_RANGE, node.at)
    return made


def made_of(name: str, inside: Node) -> Value | None:
    """What a wrapper stands for, whose numbers may be out of range; None where it is no such wrapper."""

    def text(node: Node, form: str) -> str | None:
        return node.of if node.kind == "string" and re.fullmatch(form, node.of, re.ASCII | re.DOTALL) else None

    def parts(*names: str) -> list[Node]:
        return part(inside, *names)

    match name:
        case "$numberInt" | "$numberLong" if text(inside, WHOLE.pattern):
            return Value("int" if name == "$numberInt" else "long", whole(inside.of))
        case "$date" if (long := parts("$numberLong")) and text(long[0], WHOLE.pattern):
            return Value("date", whole(long[0].of))
        case "$oid" if text(inside, "[0-9a-fA-F]{24}"):
            return Value("objectId", bytes.fromhex(inside.of))
        case "$symbol" if inside.kind == "string":
            return Value("symbol", inside.of)
        case "$binary" if (both := parts("base64", "subType")) and text(both[1], "[0-9a-fA-F]{1,2}") and both[0].kind == "string":
            data = strict_base64(both[0].of)
            return None if data is None else Value("binData", (int(both[1].of, 16), data))
        case "$timestamp" if (both := parts("t", "i")) and all(it.kind == "number" and WHOLE.fullmatch(it.of) for it in both):
            return Value("timestamp", tuple(whole(it.of) for it in both))
        case "$regularExpression" if (both := parts("pattern", "options")) and all(it.kind == "string" for it in both):
            return Value("regex", tuple(it.of for it in both))
        case "$dbPointer" if (both := parts("$ref", "$id")) and both[0].kind == "string" and (oid := part(both[1], "$oid")) and text(oid[0], "[0-9a-fA-F]{24}"):
            return Value("dbPointer", (both[0].of, bytes.fromhex(oid[0].of)))
        case "$minKey" | "$maxKey" if (inside.kind, inside.of) == ("number", "1"):
            return Value(name[1:])
        case "$undefined" if (inside.kind, inside.of) == ("word", True):
            return UNDEFINED
    return None


def form_in(name: str, inside: Node) -> Value | None:
    """The date or the UUID that a text is, for `bsonwide`; None where it is none."""
    if inside.kind != "string":
        return None
    if name == "$uuid":
        return Value("binData", (4, bytes.fromhex(inside.of.replace("-", "")))) if UUID.fullmatch(inside.of) else None
    made = date_in(inside.of)
    return None if made is None else Value("date", made)


def date_in(text: str) -> int | None:
    """The milliseconds of a text of RFC 3339, by Python's calendar, which begins with year 1: 400 years later the days are the same."""
    form = DATE.fullmatch(text)
    if not form:
        return None
    year, *others = map(int, form.groups()[:6])
    later = 400 if year < 400 else 0
    try:
        moment = datetime(year + later, *others)
    except ValueError:
        return None
    sign, hours, minutes = form[8], int(form[9] or 0), int(form[10] or 0)
    if hours > 23 or minutes > 59:
        return None
    seconds = (moment - datetime(1970, 1, 1)) // timedelta(seconds=1) - later // 400 * 146_097 * 86_400
    return (seconds - (-60 if sign == "-" else 60) * (60 * hours + minutes)) * 1000 + int((form[7] or "").ljust(3, "0")[:3])


def strict_base64(text: str) -> bytes | None:
    try:
        data = base64.b64decode(text.encode("ascii"), validate=True)
    except ValueError:
        return None
    return data if base64.b64encode(data).decode() == text else None


def code(node: Node, level: int, is_wide: bool) -> Value:
    """Code, with or without a scope: the names and the code, then how deep it stands, then what is in the scope."""
    alone, both = part(node, "$code"), part(node, "$code", "$scope")
    texts = alone or both
    if not texts or texts[0].kind != "string":
        raise TextFault(BAD_WRAPPER, node.at)
    if alone:
        return Value("javascript", alone[0].of)
    if level + 1 > LEVELS:
        raise TextFault(TOO_DEEP, node.at)
    scope = value_of(both[1], level + 1, is_wide)
    if scope.kind != "object":
        raise TextFault(BAD_WRAPPER, node.at)
    return Value("javascriptWithScope", (both[0].of, scope))


def read_document(line: bytes, is_wide: bool = False) -> Value:
    """The document that a text is; raises its first fault."""
    try:
        text = line.decode()
    except UnicodeDecodeError as bad:
        raise TextFault(SYNTAX, bad.start) from None
    try:
        reader = Reader(text)
        root = reader.value()
        if reader.white():
            raise reader.stop(number=TRAILING_TEXT)
        value = value_of(root, 1, is_wide)
    except TextFault as fault:
        raise TextFault(fault.number, len(text[: fault.at].encode())) from None
    if value.kind != "object":
        raise TextFault(NOT_A_DOCUMENT, 0)
    return value


def advice(line: bytes, fault: TextFault) -> str | None:
    """What `bsonwide` says to write in place of what a text has at the byte of its fault; None if it says nothing."""
    rest = line[fault.at :]
    if fault.number == SYNTAX:
        # The first byte of `new` could begin `null`.
        word = rest.removeprefix(b"ew ")
        return next((form for it, form in WORDS.items() if word.startswith(it.encode())), NAMES if BARE_NAME.match(rest) else None)
    found = FIRST_NAME.match(rest) if fault.number == BAD_WRAPPER else None
    return FORMS.get(found[1].decode()) if found else None
