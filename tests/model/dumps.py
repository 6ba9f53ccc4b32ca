"""Dumps read by Python: the documents of the bytes, or the first fault of each, from left to right."""

from typing import NamedTuple

from model.answers import KINDS, WIDE_KINDS, Value, written

LONGEST, LEVELS = 16793600, 200
(
    SHORT_LENGTH, BAD_LENGTH, NO_TERMINATOR, UNKNOWN_TYPE, DOUBLE, DECIMAL128, NAME_UNENDED, BAD_UTF8, BAD_STRING_LENGTH, STRING_UNENDED,
    BAD_BOOLEAN, BAD_BINARY_LENGTH, BAD_SCOPE_LENGTH, TOO_DEEP, VALUE_SHORT,
) = range(1, 16)  # fmt: skip
FAULT_WORDS = (
    "length cut short", "bad length", "no terminator", "unknown type", "double", "decimal128", "name not ended", "not UTF-8",
    "bad string length", "string not ended", "bad boolean", "bad binary length", "bad scope length", "too deep", "value cut short",
)  # fmt: skip
TYPES = {byte: kind for kind, (byte, _) in (KINDS | WIDE_KINDS).items()}
SIZES = {"objectId": 12, "bool": 1, "date": 8, "int": 4, "timestamp": 8, "long": 8, "double": 8, "decimal": 16}

Path = tuple[str, ...]


class ByteFault(Exception):
    """The first fault of a document: its kind, its byte, and the names to it."""

    def __init__(self, kind: int, at: int, path: Path) -> None:
        super().__init__(kind, at, path)
        self.kind, self.at, self.path = kind, at, path

    def told(self, document: int) -> str:
        """Its line."""
        return f"document {document}, byte {self.at}, path {written(Value('string', '.'.join(self.path)))}: {FAULT_WORDS[self.kind - 1]}\n"


class Walk:
    """Goes over bytes. What it reads may not pass an end, and is below a path. Doubles and decimal128 are faults, unless it is wide."""

    def __init__(self, data: bytes, is_wide: bool = False) -> None:
        self.data = data
        self.is_wide = is_wide

    def number(self, at: int, size: int = 4, signed: bool = True) -> int:
        return int.from_bytes(self.data[at : at + size], "little", signed=signed)

    def utf8(self, at: int, end: int, path: Path) -> str:
        try:
            return self.data[at:end].decode()
        except UnicodeDecodeError as bad:
            raise ByteFault(BAD_UTF8, at + bad.start, path) from None

    def frame(self, at: int, end: int, path: Path, short: int) -> int:
        """The end of the document there, by its length."""
        if end - at < 4:
            raise ByteFault(short, at, path)
        length = self.number(at)
        if not 5 <= length <= min(LONGEST, end - at):
            raise ByteFault(BAD_LENGTH, at, path)
        return at + length

    def document(self, at: int, end: int, level: int, path: Path, is_array: bool = False) -> tuple[Value, int]:
        """A document or an array, and where it ends."""
        after = self.frame(at, end, path, VALUE_SHORT)
        if self.data[after - 1] != 0:
            raise ByteFault(NO_TERMINATOR, after - 1, path)
        pairs: list[tuple[str, Value]] = []
        at += 4
        while at < after - 1:
            name, value, at = self.element(at, after - 1, level, path, len(pairs) if is_array else None)
            pairs.append((name, value))
        return Value("array", tuple(value for _, value in pairs)) if is_array else Value("object", tuple(pairs)), after

    def element(self, at: int, end: int, level: int, path: Path, place: int | None) -> tuple[str, Value, int]:
        kind = TYPES.get(self.data[at])
        if kind is None:
            raise ByteFault(UNKNOWN_TYPE, at, path)
        zero = self.data.find(0, at + 1, end)
        if zero < 0:
            raise ByteFault(NAME_UNENDED, at + 1, path)
        name = self.utf8(at + 1, zero, path)
        path = (*path, name if place is None else str(place))
        if kind in WIDE_KINDS and not self.is_wide:
            raise ByteFault(DOUBLE if kind == "double" else DECIMAL128, at, path)
        if level + {"object": 1, "array": 1, "javascriptWithScope": 2}.get(kind, 0) > LEVELS:
            raise ByteFault(TOO_DEEP, at, path)
        value, after = self.value(kind, zero + 1, end, level, path)
        return name, value, after

    def value(self, kind: str, at: int, end: int, level: int, path: Path) -> tuple[Value, int]:
        """A value of that kind, and where it ends."""
        match kind:
            case "object" | "array":
                return self.document(at, end, level + 1, path, kind == "array")
            case "string" | "symbol" | "javascript":
                text, after = self.text(at, end, path)
                return Value(kind, text), after
            case "regex":
                pattern, middle = self.text_to_zero(at, end, path)
                options, after = self.text_to_zero(middle, end, path)
                return Value(kind, (pattern, options)), after
            case "binData":
                return self.binary(at, end, path)
            case "dbPointer":
                text, after = self.text(at, end, path)
                return Value(kind, (text, self.fixed(after, 12, end, path))), after + 12
            case "javascriptWithScope":
                return self.code_with_scope(at, end, level, path)
        size = SIZES.get(kind, 0)
        data = self.fixed(at, size, end, path)
        return Value(kind, self.scalar(kind, data, at, path)), at + size

    def fixed(self, at: int, size: int, end: int, path: Path) -> bytes:
        if end - at < size:
            raise ByteFault(VALUE_SHORT, at, path)
        return self.data[at : at + size]

    def scalar(self, kind: str, data: bytes, at: int, path: Path) -> object:
        match kind:
            case "objectId" | "double" | "decimal":
                return data
            case "bool":
                if data[0] > 1:
                    raise ByteFault(BAD_BOOLEAN, at, path)
                return data == b"\1"
            case "timestamp":
                return self.number(at + 4, signed=False), self.number(at, signed=False)
            case "int" | "long" | "date":
                return self.number(at, len(data))
        return None

    def text(self, at: int, end: int, path: Path) -> tuple[str, int]:
        """A text after its length."""
        self.fixed(at, 4, end, path)
        after = at + 4 + self.number(at)
        if not at + 5 <= after <= end:
            raise ByteFault(BAD_STRING_LENGTH, at, path)
        if self.data[after - 1] != 0:
            raise ByteFault(STRING_UNENDED, after - 1, path)
        return self.utf8(at + 4, after - 1, path), after

    def text_to_zero(self, at: int, end: int, path: Path) -> tuple[str, int]:
        zero = self.data.find(0, at, end)
        if zero < 0:
            raise ByteFault(STRING_UNENDED, at, path)
        return self.utf8(at, zero, path), zero + 1

    def binary(self, at: int, end: int, path: Path) -> tuple[Value, int]:
        self.fixed(at, 5, end, path)
        count, subtype, data = self.number(at), self.data[at + 4], at + 5
        if not 0 <= count <= end - data or (subtype == 2 and count < 4):
            raise ByteFault(BAD_BINARY_LENGTH, at, path)
        if subtype == 2 and self.number(data) != count - 4:
            raise ByteFault(BAD_BINARY_LENGTH, data, path)
        return Value("binData", (subtype, self.data[data + (4 if subtype == 2 else 0) : data + count])), data + count

    def code_with_scope(self, at: int, end: int, level: int, path: Path) -> tuple[Value, int]:
        self.fixed(at, 4, end, path)
        after = at + self.number(at)
        if not at + 14 <= after <= end:
            raise ByteFault(BAD_SCOPE_LENGTH, at, path)
        text, scope_at = self.text(at + 4, after, path)
        scope, scope_end = self.document(scope_at, after, level + 2, (*path, "$scope"))
        if scope_end != after:
            raise ByteFault(BAD_SCOPE_LENGTH, at, path)
        return Value("javascriptWithScope", (text, scope)), after


class Read(NamedTuple):
    """What was read of bytes: each document, or its fault."""

    documents: list[Value | ByteFault]

    def good(self) -> list[Value]:
        return [it for it in self.documents if isinstance(it, Value)]

    def faults(self) -> list[str]:
        """Their lines."""
        return [it.told(number) for number, it in enumerate(self.documents) if isinstance(it, ByteFault)]

    def front(self) -> list[Value]:
        """The documents before the first fault."""
        first = next((number for number, it in enumerate(self.documents) if isinstance(it, ByteFault)), len(self.documents))
        return self.documents[:first]


def read_dump(data: bytes, is_wide: bool = False) -> Read:
    """Goes on after a document with a fault, where its length tells its end."""
    documents: list[Value | ByteFault] = []
    walk, at = Walk(data, is_wide), 0
    while at < len(data):
        try:
            end = walk.frame(at, len(data), (), SHORT_LENGTH)
        except ByteFault as fault:
            return Read([*documents, fault])
        try:
            documents.append(walk.document(at, end, 1, ())[0])
        except ByteFault as fault:
            documents.append(fault)
        at = end
    return Read(documents)
