"""What `find` and `serve` should reply, by Python: refusals in their order, cursors with all that they have left, and indexes.

It stands on tests/model/answers.py, and for the lines of `serve` on tests/model/texts.py.
"""

import json
from dataclasses import dataclass
from typing import NamedTuple

from model.answers import (
    FILTER_WORDS, IN_RUNS, MOST, NULL, BadFilter, Dump, Index, Request, Token, Value, bounds_of, check_filter, encoded, is_whole, matches, obj,
    path_fault, read_token, replaced, sort_pairs, string, types_place, written,
)  # fmt: skip
from model.texts import NOT_A_DOCUMENT, TEXT_WORDS, TextFault, advice, read_document

INDEXES, CURSORS = 16, 64
GREATEST = (1 << 64) - 1
NOT_A_SORT, NO_INDEX, INDEX_THERE, TOO_MANY_INDEXES, TOO_MANY_CURSORS, NO_CURSOR, NO_TOKEN, FOREIGN_TOKEN, TOKEN_PLACE, RANGE = range(1, 11)
SESSION_WORDS = (
    "not a sort", "no such index", "index is there", "too many indexes", "too many cursors", "no such cursor", "not a token",
    "token of another dump or request", "token place past the dump", "number out of range",
)  # fmt: skip
PATH_WORDS = ("empty component", "too many components")
COMMAND_WORDS = ("unknown command", "missing field", "unknown field", "repeated field", "bad field")
UNKNOWN_COMMAND, MISSING_FIELD, UNKNOWN_FIELD, REPEATED_FIELD, BAD_FIELD = range(1, 6)
NUMBERS_WORDS = ("the types of numbers are not told apart here",)
# The program that reads doubles and decimal128, and dates and UUIDs as texts.
WIDE = "bsonwide"
WORDS = {"command": COMMAND_WORDS, "path": PATH_WORDS, "session": SESSION_WORDS, "numbers": NUMBERS_WORDS}


class Told(Exception):
    """What `find` tells."""


class Refused(Exception):
    """What a command is refused for, and the place in its filter if that is for a part of it."""

    def __init__(self, layer: str, number: int, place: str | None = None) -> None:
        super().__init__(layer, number, place)
        self.layer, self.number, self.place = layer, number, place


def request_of(query: Value, sort: Value, skip: int, limit: int) -> Request:
    """A request, by the refusals in their order. A double or a decimal128 may be only where a text may be too."""
    check_filter(replaced(query, string("")))
    if sort_pairs(sort) is None:
        raise Refused("session", NOT_A_SORT)
    if max(skip, limit) > MOST:
        raise Refused("session", RANGE)
    return Request(query, sort, skip, limit)


def token_in(text: str) -> Token:
    token = read_token(text)
    if token is None:
        raise Refused("session", NO_TOKEN)
    return token


def check_path(path: str) -> None:
    if fault := path_fault(path):
        raise Refused("path", fault)


def rest_after(dump: Dump, request: Request, token: Token, tied: bytes) -> list[int]:
    """What follows a token, where it is one of this dump and request, whose tokens have this digest."""
    if token.tied != tied:
        raise Refused("session", FOREIGN_TOKEN)
    if token.last >= len(dump.documents):
        raise Refused("session", TOKEN_PLACE)
    return dump.rest(request, token)


@dataclass
class Cursor:
    """What a cursor has left, and where it stands."""

    left: list[int]
    request: Request
    tied: bytes
    token: Token | None = None

    def next(self, size: int) -> tuple[list[int], bool, str | None]:
        """The next places, whether none is left, and the token after them."""
        batch, self.left = self.left[:size], self.left[size:]
        if batch:
            given = min((self.token.given if self.token else 0) + len(batch), GREATEST)
            self.token = Token(given, batch[-1], self.tied)
        return batch, not self.left, self.token.text() if self.token else None


class Plan(NamedTuple):
    """How documents are found: the plan, the path of the index, and how many entries and documents are looked at."""

    name: str
    index: str | None
    entries: int
    documents: int


class Session:
    """A session over a dump."""

    # Of each command the further fields; a field's kind is that of its value.
    FIELDS = {
        "createIndex": ("sparse",), "dropIndex": (), "find": ("sort", "skip", "limit", "use"), "getMore": ("batch",), "killCursor": (),
        "resume": ("filter", "sort", "skip", "limit", "use"), "explain": ("sort", "skip", "limit", "use"),
    }  # fmt: skip
    KINDS = {
        "createIndex": "path", "dropIndex": "path", "find": "document", "resume": "text", "getMore": "count", "killCursor": "count",
        "explain": "document", "sparse": "truth", "filter": "document", "sort": "document", "skip": "count", "limit": "count", "batch": "count", "use": "use",
    }  # fmt: skip

    # Whether doubles and decimal128 are read in a line.
    is_wide = False

    def __init__(self, dump: Dump) -> None:
        self.dump = dump
        self.indexes: list[Index] = []
        self.cursors: dict[int, Cursor] = {}
        self.opened = 0
        # The tokens that were given, with the requests that they are of.
        self.tokens: list[tuple[str, Request]] = []

    def reply(self, line: bytes) -> str:
        """The reply to a line."""
        try:
            command = read_document(line, self.is_wide)
            name = self.check(command)
            fields = dict(reversed(command.of))
            return f'{{"ok":true{getattr(self, name)(fields)}}}'
        except Refused as refused:
            text = WORDS[refused.layer][refused.number - 1]
            place = "" if refused.place is None else f',"place":{json.dumps(refused.place, ensure_ascii=False)}'
            return f'{{"ok":false,"layer":"{refused.layer}","number":{{"$numberInt":"{refused.number}"}},"text":"{text}"{place}}}'
        except TextFault as fault:
            at = "null" if fault.number == NOT_A_DOCUMENT else f'{{"$numberLong":"{fault.at}"}}'
            text = TEXT_WORDS[fault.number - 1]
            return f'{{"ok":false,"layer":"json","number":{{"$numberInt":"{fault.number}"}},"text":"{text}","at":{at}}}'
        except BadFilter as bad:
            place = json.dumps(".".join(bad.place), ensure_ascii=False)
            text = FILTER_WORDS[bad.number - 1]
            return f'{{"ok":false,"layer":"filter","number":{{"$numberInt":"{bad.number}"}},"text":"{text}","place":{place}}}'

    def check(self, command: Value) -> str:
        """The name of a command, whose fields are as they should be."""
        name = command.of[0][0] if command.of else None
        if name not in self.FIELDS:
            raise Refused("command", UNKNOWN_COMMAND)
        seen: set[str] = set()
        for field, value in command.of:
            if field in seen:
                raise Refused("command", REPEATED_FIELD)
            if field not in (name, *self.FIELDS[name]):
                raise Refused("command", UNKNOWN_FIELD)
            if not self.fits(self.KINDS[field], value):
                raise Refused("command", BAD_FIELD)
            seen.add(field)
        if name == "getMore" and "batch" not in seen:
            raise Refused("command", MISSING_FIELD)
        return name

    @staticmethod
    def fits(kind: str, value: Value) -> bool:
        match kind:
            case "path" | "text":
                return value.kind == "string"
            case "truth":
                return value.kind == "bool"
            case "document":
                return value.kind == "object"
            case "count":
                return is_whole(value) and value.of >= 0
        return value in (Value("string", "auto"), Value("string", "scan")) or (
            value.kind == "object" and len(value.of) == 1 and value.of[0][0] == "index" and value.of[0][1].kind == "string"
        )

    def request(self, fields: dict[str, Value], query: str) -> tuple[Request, Value]:
        """The request of a command, and by what it is to be found."""
        sort = fields.get("sort", obj())
        skip, limit = (fields[name].of if name in fields else 0 for name in ("skip", "limit"))
        request = request_of(fields.get(query, obj()), sort, skip, limit)
        use = fields.get("use", Value("string", "auto"))
        if use.kind == "object":
            check_path(use.of[0][1].of)
        return request, use

    def named(self, path: str) -> Index | None:
        return next((it for it in self.indexes if it.path == path), None)

    def check_use(self, use: Value) -> None:
        if use.kind == "object" and not self.named(use.of[0][1].of):
            raise Refused("session", NO_INDEX)

    def plan(self, request: Request, use: Value) -> Plan:
        scan = Plan("scan", None, 0, len(self.dump.documents))
        if use.of == "scan":
            return scan
        sort = sort_pairs(request.sort)
        indexes = self.indexes if use.of == "auto" else [self.named(use.of[0][1].of)]
        for index in indexes:
            if plan := self.by_bounds(request, index):
                return plan
        for index in indexes:
            if not index.sparse and len(sort) == 1 and sort[0][0] == index.path:
                return Plan("walk", index.path, index.entries, len(self.dump.documents))
        if use.of == "auto" or indexes[0].sparse:
            return scan
        return Plan("index", indexes[0].path, indexes[0].entries, len(self.dump.documents))

    def by_bounds(self, request: Request, index: Index) -> Plan | None:
        """What an index finds by the bounds of a filter, where it serves."""
        bounds = bounds_of(request.query, index.path.split("."), index.multikey)
        if bounds is None or (index.sparse and bounds(Value("null"))):
            return None
        inside = [sum(map(bounds, keys)) for keys in index.keys]
        return Plan("index", index.path, sum(inside), sum(1 for count in inside if count))

    def open(self, left: list[int], request: Request, token: Token | None = None) -> str:
        if len(self.cursors) == CURSORS:
            raise Refused("session", TOO_MANY_CURSORS)
        self.opened += 1
        self.cursors[self.opened] = Cursor(left, request, self.dump.tied(request), token)
        return f',"cursor":{{"$numberLong":"{self.opened}"}}'

    # The commands: what follows `ok` in the reply.

    def createIndex(self, fields: dict[str, Value]) -> str:  # noqa: N802
        path, sparse = fields["createIndex"].of, "sparse" in fields and fields["sparse"].of
        check_path(path)
        if self.named(path):
            raise Refused("session", INDEX_THERE)
        if len(self.indexes) == INDEXES:
            raise Refused("session", TOO_MANY_INDEXES)
        index = self.dump.index(path, sparse)
        self.indexes.append(index)
        return f',"entries":{{"$numberLong":"{index.entries}"}},"multikey":{json.dumps(index.multikey)}'

    def dropIndex(self, fields: dict[str, Value]) -> str:  # noqa: N802
        check_path(fields["dropIndex"].of)
        index = self.named(fields["dropIndex"].of)
        if not index:
            raise Refused("session", NO_INDEX)
        self.indexes.remove(index)
        return ""

    def find(self, fields: dict[str, Value]) -> str:
        request, use = self.request(fields, "find")
        self.check_use(use)
        return self.open(self.dump.answer(request), request)

    def resume(self, fields: dict[str, Value]) -> str:
        token = token_in(fields["resume"].of)
        request, use = self.request(fields, "filter")
        left = rest_after(self.dump, request, token, self.dump.tied(request))
        self.check_use(use)
        return self.open(left, request, token)

    def getMore(self, fields: dict[str, Value]) -> str:  # noqa: N802
        cursor = self.cursor(fields["getMore"].of)
        if fields["batch"].of > MOST:
            raise Refused("session", RANGE)
        batch, end, token = cursor.next(fields["batch"].of)
        if token:
            self.tokens.append((token, cursor.request))
        if end:
            del self.cursors[fields["getMore"].of]
        documents = ",".join(written(self.dump.documents[place]) for place in batch)
        return f',"documents":[{documents}],"end":{json.dumps(end)},"token":{json.dumps(token)}'

    def killCursor(self, fields: dict[str, Value]) -> str:  # noqa: N802
        self.cursor(fields["killCursor"].of)
        del self.cursors[fields["killCursor"].of]
        return ""

    def explain(self, fields: dict[str, Value]) -> str:
        request, use = self.request(fields, "explain")
        self.check_use(use)
        plan = self.plan(request, use)
        found = sum(matches(it, request.query) for it in self.dump.documents)
        counts = (("entries", plan.entries), ("documents", plan.documents), ("matches", found))
        index = json.dumps(plan.index, ensure_ascii=False)
        return f',"plan":"{plan.name}","index":{index}' + "".join(f',"{name}":{{"$numberLong":"{count}"}}' for name, count in counts)

    def cursor(self, number: int) -> Cursor:
        if number not in self.cursors:
            raise Refused("session", NO_CURSOR)
        return self.cursors[number]


class Find(NamedTuple):
    """The words of `find`: texts of a query and a sort, and the rest as it is."""

    query: str = "{}"
    sort: str = "{}"
    skip: int = 0
    limit: int = 0
    batch: int | None = None
    index: str | None = None
    after: str | None = None

    def words(self) -> list[str]:
        """Its options; those that say nothing are left out."""
        return [f"--{name}={value}" for name, value in self._asdict().items() if value != self._field_defaults[name]]

    def request(self, program: str = "bsonfind") -> Request:
        values = []
        # A sort has no doubles.
        for name, text, is_wide in (("query", self.query, program == WIDE), ("sort", self.sort, False)):
            try:
                values.append(read_document(text.encode(), is_wide))
            except TextFault as fault:
                byte = "" if fault.number == NOT_A_DOCUMENT else f" byte {fault.at}:"
                raise Told(f"{name}:{byte} {words_of(text.encode(), fault, program)}") from None
        return request_of(*values, self.skip, self.limit)

    def shown(self, dump: Dump, program: str = "bsonfind", fault: str = "") -> tuple[int, bytes, str]:
        """The status, what is written, and what is told, over a dump with this fault, if any.

        Where the query or the dump has a double or a decimal128, the token has no digest: it is that of codes, which no model makes.
        """
        try:
            request = self.request(program)
            if self.index is not None and (number := path_fault(self.index)):
                raise Told(f"index: {PATH_WORDS[number - 1]}")
            token = None if self.after is None else token_in(self.after)
            if fault:
                raise Told(fault)
            by_value = has_numbers(request.query) or any(map(has_numbers, dump.documents))
            if by_value and (place := types_place(request.query, IN_RUNS)) is not None:
                raise Told(f"query: place {json.dumps(place, ensure_ascii=False)}: {NUMBERS_WORDS[0]}")
            tied = b"" if by_value else dump.tied(request)
            left = dump.answer(request) if token is None else rest_after(dump, request, token, tied)
        except Told as told:
            return 1, b"", f"{program}: {told}\n"
        except BadFilter as bad:
            place = json.dumps(".".join(bad.place), ensure_ascii=False)
            return 1, b"", f"{program}: query: place {place}: {FILTER_WORDS[bad.number - 1]}\n"
        except Refused as refused:
            name = "sort" if refused.number == NOT_A_SORT else "token"
            return 1, b"", f"{program}: {name}: {SESSION_WORDS[refused.number - 1]}\n"
        cursor = Cursor(left, request, tied, token)
        places, end, text = cursor.next(len(left) if self.batch is None else self.batch)
        lines = b"".join(written(dump.documents[place]).encode() + b"\n" for place in places)
        return 0, lines, f"{len(places)} documents, {'end' if end else 'more'}{f', token {text}' if text else ''}\n"


def request_text(query: str = "{}", sort: str = "{}", skip: int = 0, limit: int = 0) -> str:
    """The text of a request, to which its tokens are tied."""
    return Find(query, sort, skip, limit).request().text()


def has_numbers(value: Value) -> bool:
    """Whether a value has a double or a decimal128."""
    return replaced(value, NULL) != value


def words_of(text: bytes, fault: TextFault, program: str) -> str:
    """What is wrong with a text; `bsonwide` also says what to write in place of it, if it knows."""
    more = advice(text, fault) if program == WIDE else None
    return f"{TEXT_WORDS[fault.number - 1]}{f'; {more}' if more else ''}"


def packed(text: bytes, program: str = "bsonfind") -> tuple[int, bytes, str]:
    """The status of `pack` of a program, what it writes, and what it tells."""
    documents = []
    for number, line in enumerate(text.split(b"\n"), 1):
        if not line.strip(b" \t\r"):
            continue
        try:
            documents.append(encoded(read_document(line, program == WIDE)))
        except TextFault as fault:
            byte = "" if fault.number == NOT_A_DOCUMENT else f", byte {fault.at}"
            told = f"line {number}{byte}: {words_of(line, fault, program)}"
            return 1, b"".join(documents), f"{program}: {told}\n{len(documents)} objects packed\n"
    return 0, b"".join(documents), f"{len(documents)} objects packed\n"
