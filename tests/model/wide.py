"""What `bsonwide` prints of a dump, by Python: `check` and `dump`, in each layout."""

import json
from uuid import UUID

from model.answers import Value, decimal_of, double_text, written
from model.dumps import Read, read_dump


def check(data: bytes) -> tuple[bytes, bytes, int]:
    """The lines of the faults, with doubles and decimal128 read, the line of counts, and the status."""
    read = read_dump(data, is_wide=True)
    faults = read.faults()
    return "".join(faults).encode(), f"{len(read.documents)} documents, {len(faults)} faulty\n".encode(), int(faults != [])


def dump(
    data: bytes, is_relaxed: bool = False, fields: list[str] | None = None, is_array: bool = False, is_pretty: bool = False
) -> tuple[bytes, bytes, int]:
    """The texts of the documents before the first fault, or of these fields of them, as lines or as an array, which is closed where there
    is no fault, on a line each or on many; that fault and the line of counts; and the status."""
    read = read_dump(data, is_wide=True)
    documents = read.front()
    if fields is not None:
        documents = [part([it.split(".") for it in fields], document) for document in documents]
    texts = [written(it, is_relaxed) for it in documents]
    if is_pretty:
        texts = [indented(json.loads(it, object_pairs_hook=Pairs, parse_int=Bare, parse_float=Bare)) for it in texts]
    end = "\n" if is_pretty else ""
    closing = "" if read.faults() else f"]\n{end}"
    out = f"[{end}" + f",{end}".join(texts) + closing if is_array else "".join(f"{it}\n" for it in texts)
    return ended(read, out)


def rows(data: bytes, fields: list[str], has_header: bool = True) -> tuple[bytes, bytes, int]:
    """The same as rows of CSV: of the header and of each document before the first fault."""
    read = read_dump(data, is_wide=True)
    return ended(read, "".join(row(it) for it in [*[fields][: int(has_header)], *cells(data, fields)]))


def ended(read: Read, out: str) -> tuple[bytes, bytes, int]:
    """These bytes, the first fault and the line of counts, and the status."""
    faults = read.faults()
    told = "".join([*(f"bsonwide: {it}" for it in faults[:1]), f"{len(read.front())} objects found\n"])
    return out.encode(), told.encode(), int(faults != [])


class Bare(str):
    """A number as its text spells it."""


class Pairs(list):
    """The names and values of an object."""


def indented(value: object, tabs: str = "") -> str:
    """A value of JSON on many lines, with a tab for each object and array that it is in."""
    inner = f"{tabs}\t"
    if isinstance(value, Bare):
        return value
    if isinstance(value, Pairs):
        of, (first, last) = [f"{json.dumps(name, ensure_ascii=False)}: {indented(it, inner)}" for name, it in value], "{}"
    elif isinstance(value, list):
        of, (first, last) = [indented(it, inner) for it in value], "[]"
    else:
        return json.dumps(value, ensure_ascii=False)
    return first + (f"\n{inner}" + f",\n{inner}".join(of) + f"\n{tabs}" if of else "") + last


def cells(data: bytes, fields: list[str]) -> list[list[str]]:
    """The plain texts of these fields of each document before the first fault; nothing where a field is missing."""
    return [[plain(follow(it, path.split("."))) for path in fields] for it in read_dump(data, is_wide=True).front()]


def follow(value: Value | None, path: list[str]) -> Value | None:
    """Where a path leads: from a document by its first field of a name, from an array by an index."""
    for name in path:
        kind, of = value or ("missing", None)
        if kind == "object":
            value = next((it for key, it in of if key == name), None)
        elif kind == "array" and name in map(str, range(len(of))):
            value = of[int(name)]
        else:
            return None
    return value


def plain(value: Value | None) -> str:
    """The plain text of a value, as mongoexport prints it."""
    kind, of = value or ("null", None)
    match kind:
        case "null":
            return ""
        case "string":
            return of
        case "objectId":
            return of.hex()
        case "double":
            return double_text(of)
        case "decimal":
            return str(decimal_of(of))
        case "binData" if of[0] == 4 and len(of[1]) == 16:
            return str(UUID(bytes=of[1]))
        case "date":
            text = json.loads(written(Value(kind, of), is_relaxed=True))["$date"]
            return text if isinstance(text, str) else written(Value(kind, of))
    return written(Value(kind, of), is_relaxed=True)


def row(of: list[str]) -> str:
    """A row of CSV: RFC 4180, with marks only where they have to be, and a line feed."""
    marked = ['"' + it.replace('"', '""') + '"' if set(it) & set(',"\r\n') else it for it in of]
    return (",".join(marked) or '""') + "\n"


def part(paths: list[list[str]], value: Value) -> Value:
    """What remains of a document or an array if only the fields on these paths are requested, as MongoDB projects them."""
    kind, of = value
    if kind == "array":
        return kind, [part(paths, it) for it in of if it[0] in ("object", "array")]
    kept = []
    for name, it in of:
        below = [path[1:] for path in paths if path[0] == name]
        if [] in below:
            kept.append((name, it))
        elif below and it[0] in ("object", "array"):
            kept.append((name, part(below, it)))
    return kind, kept
