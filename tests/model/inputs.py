"""Random documents, filters, sorts and paths for tests: of few names and small values, so that much matches. And random numbers."""

import base64
import json
import random
import struct

from model.answers import INT32, LEFT_OUT, LOGICAL, MOST, NULL, RELATIONS, TYPES, UNDEFINED, Token, Value, candidates, number, obj, path_fault, reach, string, written
from model.sessions import GREATEST, Find, Session

NAMES = ["a", "a", "a", "b", "b", "c", "0", "1"]
ODD_NAMES = ["", "a.b", "$a", "$gt", "é", "\0", "2", "00", "a" * 40]
TEXTS = ["", "x", "xy", "y", "é", "x\0", "x" * 15, "x" * 16, "x" * 16 + "y", "\ud7ff", "\U0001f600"]
PATHS = ["a", "a", "a", "b", "c", "a.b", "a.a", "b.a", "a.0", "a.1", "a.0.b", "a.b.a", "0", "b.c.0", "a.0.0", "a.00", "a.01", "a.4294967296", "a.18446744073709551616", "none"]
BAD_PATHS = ["", ".", "a.", ".a", "a..b", ".".join(["a"] * 101)]
BYTES = [b"", b"\0", b"\1\2\3", b"\1\2\3\4\5\6\7"]
IDS = [bytes(12), bytes(11) + b"\1", b"\xff" * 12]
# Coefficients at which digits are added or refused: 10^34 is the first of too many digits.
COEFFICIENTS = [0, 1, 5, 10, (1 << 64) - 1, 1 << 64, 10**33, 10**34 - 1, 10**34, (1 << 113) - 1]


def a_double(rng: random.Random) -> bytes:
    """The bytes of a double: half of them are random, the others near the ends of what can be, and near where the form of a text changes."""
    if rng.random() < 0.5:
        return rng.randbytes(8)
    near = rng.choice(
        [
            lambda: 2.0 ** rng.randrange(-1074, 1024),
            lambda: float(f"{rng.choice([1, rng.randrange(1, 10**6)])}e{rng.randrange(-324, 303)}"),
            lambda: 10.0 ** rng.randrange(-8, 10),
            lambda: float(rng.randrange(1 << 54)),
            lambda: round(rng.uniform(0, 10.0 ** rng.randrange(8)), rng.randrange(8)),
            lambda: rng.choice([0.0, 5e-324, 2.2250738585072014e-308, 1.7976931348623157e308, float("inf"), float("nan")]),
        ]
    )()
    (bits,) = struct.unpack("<Q", struct.pack("<d", near))
    return struct.pack("<Q", (bits + rng.randrange(-3, 4) ^ rng.getrandbits(1) << 63) & (1 << 64) - 1)


def a_decimal(rng: random.Random) -> bytes:
    """The bytes of a decimal128, chosen in the same way."""
    if rng.random() < 0.5:
        return rng.randbytes(16)
    coefficient = rng.choice([rng.choice(COEFFICIENTS), 10 ** rng.randrange(35), rng.randrange(10 ** rng.randrange(1, 36))])
    coefficient = max(0, coefficient + rng.randrange(-2, 3)) & (1 << 113) - 1
    # The form changes at a power of 0, and where the first digit is worth 10^-6.
    turn = 6176 - rng.choice([0, 6 + len(str(coefficient)) - 1])
    power = rng.choice([rng.randrange(12288), 0, 12287, turn, turn, turn]) + rng.randrange(-2, 3)
    bits = rng.getrandbits(1) << 127 | (power & 0x3FFF) << 113 | coefficient
    if rng.random() < 0.1:
        bits |= rng.choice([0x60, 0x78, 0x7C, 0x7E]) << 120
    return bits.to_bytes(16, "little")


class Inputs:
    """Makes inputs by a generator of random numbers. Operands are mostly values of the documents that were made last, on few paths.

    Where it is wide some scalars are doubles and decimal128.
    """

    def __init__(self, rng: random.Random, is_wide: bool = False) -> None:
        self.rng = rng
        self.is_wide = is_wide
        self.made: list[Value] = []
        self.paths: list[str] = []
        self.kinds: list[int] = []

    def chance(self, part: float) -> bool:
        return self.rng.random() < part

    def scalar(self) -> Value:
        """A value that is no object and no array: mostly a small number, or of the kinds that these documents mostly have."""
        rng = self.rng
        if self.is_wide and self.chance(0.3):
            return Value("double", a_double(rng)) if self.chance(0.5) else Value("decimal", a_decimal(rng))
        if not self.kinds and self.chance(0.5):
            return Value(rng.choice(["int", "int", "long"]), rng.choice([0, 1, 1, 2, 2, 3, 5, -1]))
        match rng.choice(self.kinds) if self.kinds and self.chance(0.9) else rng.randrange(16):
            case 0 | 1 | 2:
                return string(rng.choice(TEXTS))
            case 3:
                return NULL
            case 4:
                return UNDEFINED
            case 5:
                return Value("bool", self.chance(0.5))
            case 6:
                return Value("symbol", rng.choice(TEXTS))
            case 7:
                return Value("date", rng.choice([-1, 0, 1, 1 << 40]))
            case 8:
                return Value("timestamp", (rng.choice([0, 1, (1 << 32) - 1]), rng.choice([0, 1, (1 << 32) - 1])))
            case 9:
                return Value("binData", (rng.choice([0, 2, 5, 128]), rng.choice(BYTES)))
            case 10:
                return Value("objectId", rng.choice(IDS))
            case 11:
                return Value("regex", (rng.choice(["", "a", "ab"]), rng.choice(["", "i"])))
            case 12:
                return Value("dbPointer", (rng.choice(TEXTS), rng.choice(IDS)))
            case 13:
                return Value("javascript", rng.choice(TEXTS))
            case 14:
                return number(rng.choice([-(1 << 31), (1 << 31) - 1, 1 << 31, -(1 << 63), (1 << 63) - 1]))
        return Value(rng.choice(["minKey", "maxKey"]))

    def value(self, depth: int = 3) -> Value:
        if depth == 0 or self.chance(0.4):
            return self.scalar()
        way = self.rng.random()
        if way < 0.5:
            return Value("array", tuple(self.value(depth - 1) for _ in range(self.rng.choice([0, 1, 1, 2, 2, 3]))))
        if way < 0.97:
            return self.document(depth - 1)
        return Value("javascriptWithScope", (self.rng.choice(TEXTS), self.document(depth - 1)))

    def name(self) -> str:
        return self.rng.choice(ODD_NAMES if self.chance(0.05) else NAMES)

    def document(self, depth: int = 3) -> Value:
        """A document; of a name that is there twice the first counts."""
        pairs = [(self.name(), self.value(depth)) for _ in range(self.rng.choice([0, 1, 1, 2, 2, 3, 4]))]
        # A regular expression has no zero, and a first name of a wrapper would be read as one.
        return obj(*((name.replace("\0", "z"), value) for name, value in pairs))

    def documents(self) -> list[Value]:
        """Documents, of which some are alike, and the paths and kinds that requests mostly have."""
        self.kinds = self.rng.sample(range(16), 2) if self.chance(0.4) else []
        self.paths = []
        self.paths = [self.path() for _ in range(self.rng.choice([1, 2, 3]))]
        made = [self.document() for _ in range(self.rng.choice([0, 1, 3, 8, 8, 20, 40]))]
        self.made = made + [self.rng.choice(made) for _ in made if self.chance(0.2)]
        return self.made

    def path(self) -> str:
        rng = self.rng
        if self.paths and self.chance(0.7):
            return rng.choice(self.paths)
        if self.chance(0.01):
            return rng.choice(BAD_PATHS)
        return ".".join(self.rng.choice(NAMES) for _ in range(rng.choice([1, 2, 3, 4]))) if self.chance(0.3) else rng.choice(PATHS)

    def operand(self, path: str) -> Value:
        """A value, mostly one that a path reaches."""
        if self.made and not path_fault(path) and self.chance(0.7):
            there = [it for it in candidates(reach(self.rng.choice(self.made), path.split("."))) if it is not None]
            if there:
                return self.rng.choice(there)
        return self.value(2)

    def types(self) -> Value:
        rng = self.rng
        one = rng.choice([string(rng.choice([*TYPES.values(), "number", "int", "string"])), number(rng.choice(list(TYPES))), string("null"), number(16)])
        one = rng.choice([number(0), string("x"), NULL]) if self.chance(0.05) else one
        if self.chance(0.6):
            return one
        return Value("array", tuple(it for _ in range(rng.choice([0, 1, 2])) for it in (one, self.types()) if it.kind != "array"))

    def operators(self, path: str, depth: int) -> Value:
        return obj(*(self.operator(path, depth) for _ in range(self.rng.choice([1, 1, 1, 2, 2, 3]))))

    def operator(self, path: str, depth: int) -> tuple[str, Value]:
        """An operator and its operand, which is seldom bad."""
        rng, operand = self.rng, self.operand(path)
        if self.chance(0.01):
            return rng.choice([*LEFT_OUT, *LOGICAL, "$x", "$", "a", ""]), operand
        way = rng.randrange(16)
        if depth and way == 0:
            return "$not", self.operators(path, depth - 1) if self.chance(0.98) else operand
        if depth and way <= 2:
            body = self.filter(depth - 1) if self.chance(0.5) else self.operators(path, depth - 1)
            return "$elemMatch", body if self.chance(0.98) else operand
        match way:
            case 3 | 4:
                members = Value("array", tuple(self.operand(path) for _ in range(rng.choice([0, 1, 2, 3, 8]))))
                return rng.choice(["$in", "$in", "$nin", "$all"]), members if self.chance(0.98) else operand
            case 5:
                return "$size", number(rng.choice([0, 1, 2, 2, 3])) if self.chance(0.98) else operand
            case 6:
                return "$exists", Value("bool", self.chance(0.5)) if self.chance(0.8) else number(rng.choice([0, 1, 1 << 40]))
            case 7:
                return "$type", self.types()
            case 8:
                return "$ne", operand
            case 9 | 10:
                return "$eq", operand
        return rng.choice(list(RELATIONS)), operand

    def filter(self, depth: int = 3) -> Value:
        return obj(*(self.condition(depth) for _ in range(self.rng.choice([0, 1, 1, 1, 2, 2]))))

    def condition(self, depth: int) -> tuple[str, Value]:
        rng, path = self.rng, self.path()
        if depth and self.chance(0.25):
            members = tuple(self.filter(depth - 1) for _ in range(rng.choice([1, 2, 2, 3])))
            members = members if self.chance(0.98) else rng.choice([(), (*members, self.scalar())])
            return rng.choice(LOGICAL), Value("array", members) if self.chance(0.99) else self.scalar()
        if self.chance(0.01):
            return rng.choice(["$gt", "$not", "$where", "$x"]), self.scalar()
        return path, self.operators(path, depth) if self.chance(0.7) else self.operand(path)

    def sort(self) -> Value:
        rng = self.rng
        pairs = [(self.path(), Value(rng.choice(["int", "int", "long"]), rng.choice([1, -1]))) for _ in range(rng.choice([0, 1, 1, 1, 2, 3, 4]))]
        if self.chance(0.03):
            pairs.append((self.path(), rng.choice([number(0), number(2), string("1"), NULL])))
        return obj(*(dict(pairs).items() if self.chance(0.97) else pairs))

    def find(self) -> Find:
        rng = self.rng
        skip, limit, batch = rng.choice([0, 0, 0, 1, 2]), rng.choice([0, 0, 0, 1, 2, 5]), rng.choice([None, None, 0, 1, 1, 2, 3, MOST])
        return Find(self.text(self.filter()), self.text(self.sort()), skip, limit, batch, self.path() if self.chance(0.4) else None)

    def text(self, value: Value) -> str:
        """A text of a value, with numbers that are bare, white space or escapes, here and there."""
        space = self.rng.choice(["", "", "", " ", "\t\r "])
        match value.kind:
            case "object":
                inside = f"{space},".join(f"{space}{self.quoted(name)}{space}:{space}{self.text(it)}" for name, it in value.of)
                return f"{{{inside}{space}}}"
            case "array":
                return f"[{space}" + f"{space},{space}".join(map(self.text, value.of)) + f"{space}]"
            case "string":
                return self.quoted(value.of)
            case "int" | "long" if self.chance(0.5) and (value.of in INT32) == (value.kind == "int"):
                return str(value.of)
        return written(value)

    def quoted(self, text: str) -> str:
        return json.dumps(text, ensure_ascii=self.chance(0.3))

    def bent_token(self, token: str, documents: int) -> str:
        """A token that was given, or another one: of another place or count, with a bit changed, or of another form."""
        rng, data = self.rng, base64.b64decode(token)
        given, tied = int.from_bytes(data[1:9], "little"), data[13:]
        at = rng.randrange(45)
        changed = bytes(byte ^ (1 << rng.randrange(8)) if place == at else byte for place, byte in enumerate(data))
        return rng.choice([
            Token(given, rng.choice([documents, documents + 1, (1 << 32) - 1]), tied).text(),
            Token(given, documents, changed[13:]).text(),
            Token(rng.choice([0, min(given + 1, GREATEST), GREATEST]), rng.randrange(documents + 1), tied).text(),
            Token(given, rng.randrange(documents + 1), tied).text(),
            base64.b64encode(changed).decode(),
            base64.b64encode(bytes([2]) + data[1:]).decode(),
            base64.b64encode(data[:-1]).decode(), base64.b64encode(data + b"\0").decode(), token[:-1], token[:-1] + "=", token + "\n", token.replace("A", "-", 1), "",
        ])  # fmt: skip

    def command(self, session: Session) -> Value:
        """A command that a session mostly takes, over the cursors, indexes and tokens that it has."""
        rng = self.rng
        cursor = number(rng.choice([*session.cursors, session.opened + 1]) if self.chance(0.95) else rng.choice([0, -1, 1 << 40]))
        path = string(rng.choice([self.path(), *(it.path for it in session.indexes)]))
        match rng.randrange(14):
            case 0 | 1:
                pairs = [("createIndex", path), *([("sparse", Value("bool", self.chance(0.7)))] if self.chance(0.4) else [])]
            case 2 if session.indexes:
                pairs = [("dropIndex", path)]
            case 3 | 4:
                pairs = [("find", self.filter()), *self.further(self.sort(), rng.choice([0, 1, 2]), rng.choice([0, 1, 2, 5]), path)]
            case 5 | 6 | 12 | 13:
                pairs = [("explain", self.filter()), *self.further(self.sort(), 0, rng.choice([0, 1]), path)]
            case 7:
                pairs = [("killCursor", cursor)]
            case 8 | 9 if session.tokens:
                token, of = rng.choice(session.tokens)
                of = rng.choice(session.tokens)[1] if self.chance(0.1) else of
                token = token if self.chance(0.7) else self.bent_token(token, len(session.dump.documents))
                pairs = [("resume", string(token)), ("filter", of.query), *self.further(of.sort, of.skip, of.limit, path, 0.0)]
            case _:
                pairs = [("getMore", cursor), ("batch", number(rng.choice([0, 1, 1, 2, 3, 9, MOST, MOST + 1]) if self.chance(0.98) else -1))]
        return obj(*(pairs if self.chance(0.94) else self.bent(pairs)))

    def further(self, sort: Value, skip: int, limit: int, path: Value, left_out: float = 0.3) -> list[tuple[str, Value]]:
        """Fields that say what is wanted, some left out, and by what it is to be found."""
        use = self.rng.choice([string("auto"), string("scan"), obj(("index", path)), obj(("index", path))])
        fields = [("sort", sort), ("skip", number(skip)), ("limit", number(limit))]
        fields = [field for field in fields if not self.chance(left_out)] + ([("use", use)] if self.chance(0.6) else [])
        return self.rng.sample(fields, len(fields))

    def bent(self, pairs: list[tuple[str, Value]]) -> list[tuple[str, Value]]:
        """Fields of which one is missing, is there twice, or has another name or another value."""
        rng, at = self.rng, self.rng.randrange(len(pairs))
        name, value = pairs[at]
        other = rng.choice([[], [(name, value)] * 2, [(rng.choice(["x", "find", "batch", "use", "limit", ""]), value)], [(name, self.value())], [(name, number(1 << 40))]])
        return pairs[:at] + other + pairs[at + 1 :]
