#!/usr/bin/env python3
"""Makes a dump of documents of several kinds and sizes, and the same documents as lines of canonical Extended JSON.

usage: bench/make_dump.py NAME MEGABYTES [SEED [KIND]]     writes NAME.bson of so many megabytes, and NAME.jsonl

KIND is counter, person, order, article, thread, numbers, wide, link, priced or measured; without it the first five are mixed. Each
document of the last two holds doubles. Parts of it are made side by side, each of its own numbers, so that one of a gigabyte takes
minutes.
"""

import base64
import json
import multiprocessing
import random
import struct
import sys
from collections.abc import Callable
from functools import partial
from pathlib import Path
from typing import Any

sys.path.append(str(Path(__file__).resolve().parent.parent / "tests"))

from model.answers import double_text

WORDS = "red green blue alpha omega Łódź 東京 São Paulo queue river “quoted” back\\slash tab\t line\n naïve stone".split(" ")


class Long(int):
    """A whole number of 64 bits; an `int` has 32."""


class Id(bytes):
    """An ObjectId; `bytes` are binary data of subtype 00."""


class Date(int):
    """Milliseconds."""


def encoded(value: Any) -> tuple[int, bytes]:
    """The type byte and the bytes of a value."""
    match value:
        case dict():
            return 0x03, document(value)
        case list():
            return 0x04, document({str(place): part for place, part in enumerate(value)})
        case str():
            text = value.encode() + b"\0"
            return 0x02, struct.pack("<i", len(text)) + text
        case Id():
            return 0x07, bytes(value)
        case bytes():
            return 0x05, struct.pack("<iB", len(value), 0) + value
        case None:
            return 0x0A, b""
        case bool():
            return 0x08, bytes([value])
        case Date():
            return 0x09, struct.pack("<q", value)
        case Long():
            return 0x12, struct.pack("<q", value)
        case float():
            return 0x01, struct.pack("<d", value)
        case _:
            return 0x10, struct.pack("<i", value)


def document(pairs: dict[str, Any]) -> bytes:
    parts = []
    for name, value in pairs.items():
        kind, part = encoded(value)
        parts += [bytes([kind]), name.encode(), b"\0", part]
    inside = b"".join(parts)
    return struct.pack("<i", len(inside) + 5) + inside + b"\0"


def wrapped(value: Any) -> Any:
    """A value as the JSON that stands for it."""
    match value:
        case dict():
            return {name: wrapped(part) for name, part in value.items()}
        case list():
            return [wrapped(part) for part in value]
        case Id():
            return {"$oid": value.hex()}
        case bytes():
            return {"$binary": {"base64": base64.b64encode(value).decode(), "subType": "00"}}
        case Date():
            return {"$date": {"$numberLong": str(int(value))}}
        case Long():
            return {"$numberLong": str(int(value))}
        case float():
            return {"$numberDouble": double_text(struct.pack("<d", value))}
        case None | bool() | str():
            return value
        case _:
            return {"$numberInt": str(value)}


def words(rng: random.Random, least: int, most: int) -> str:
    return " ".join(rng.choices(WORDS, k=rng.randint(least, most)))


def counter(rng: random.Random, number: int) -> dict[str, Any]:
    return {"_id": number, "age": rng.randrange(100)}


def person(rng: random.Random, number: int) -> dict[str, Any]:
    return {
        "_id": number,
        "name": words(rng, 1, 3),
        "age": rng.randrange(100),
        "address": {"city": words(rng, 1, 1), "lines": [words(rng, 2, 5) for _ in range(rng.randrange(3))]},
        "scores": [rng.randrange(-(1 << 31), 1 << 31) for _ in range(rng.randrange(20))],
    }


def order_number(number: int) -> int:
    """Of each 65,536 orders in turn the numbers are mixed, so that an index on them is not made in order."""
    return number - number % 65536 + number % 65536 * 40503 % 65536


def order(rng: random.Random, number: int) -> dict[str, Any]:
    def item() -> dict[str, Any]:
        return {"sku": f"SKU-{rng.randrange(10000):04}", "cents": Long(rng.randrange(1 << 40)), "gift": rng.random() < 0.1}

    return {
        "_id": Id(rng.randbytes(12)),
        "placed": Date(rng.randrange(1 << 41)),
        "customer": {"name": words(rng, 1, 3), "referrer": None},
        "items": [item() for _ in range(rng.randrange(12))],
        "uuid": rng.randbytes(16),
        "order_no": order_number(number),
    }


def article(rng: random.Random, number: int) -> dict[str, Any]:
    return {"_id": number, "text": words(rng, 100, 2000), "image": rng.randbytes(rng.randrange(4000))}


def thread(rng: random.Random, number: int) -> dict[str, Any]:
    inside: dict[str, Any] = {"age": rng.randrange(100)}
    for level in range(rng.randrange(40)):
        inside = {"level": level, "reply": [inside]}
    return {"_id": number, **inside}


def numbers(rng: random.Random, number: int) -> dict[str, Any]:
    return {"_id": number, "values": [Long(rng.randrange(-(1 << 63), 1 << 63)) if rng.random() < 0.3 else rng.randrange(1 << 20) for _ in range(400)]}


def wide(rng: random.Random, number: int) -> dict[str, Any]:
    return {"_id": number, **{f"field{place:03}": rng.choice([rng.randrange(1 << 20), words(rng, 1, 2), True, None]) for place in range(200)}}


def link(rng: random.Random, number: int) -> dict[str, Any]:
    """Texts that begin alike, for 30 bytes."""
    return {"_id": Id(rng.randbytes(12)), "url": f"https://example.com/orders/of/{rng.randrange(1 << 48):012x}"}


def priced(rng: random.Random, number: int) -> dict[str, Any]:
    """An order with doubles: prices of few digits, places of some, a weight of all."""
    made = order(rng, number)
    for item in made["items"]:
        item["price"] = round(rng.uniform(0, 1000), 2)
    return made | {"weight": rng.random() * 40, "place": [round(rng.uniform(-180, 180), 6), round(rng.uniform(-90, 90), 6)]}


def measured(rng: random.Random, number: int) -> dict[str, Any]:
    """Hardly anything but doubles, of all sizes and digits."""
    return {"_id": number, "values": [rng.uniform(-1, 1) * 10.0 ** rng.randint(-12, 12) for _ in range(200)]}


Kind = Callable[[random.Random, int], dict[str, Any]]
KINDS: dict[str, Kind] = {kind.__name__: kind for kind in (counter, person, order, article, thread, numbers, wide, link, priced, measured)}
# The kinds with doubles.
DOUBLES = ("priced", "measured")
# Of a hundred documents, where kinds are mixed.
SHARES: dict[Kind, int] = {counter: 30, person: 35, order: 25, article: 2, thread: 8}


# How many bytes are made at once, and how far the numbers of its documents are from those of the next.
PART = 10_000_000
APART = 1 << 20


def made_part(seed: int, kind: str, size: int, part: int) -> tuple[bytes, bytes]:
    """The documents of a part, up to the size of the whole, and their lines."""
    shares = SHARES if kind == "mixed" else {KINDS[kind]: 1}
    rng = random.Random(f"{seed}, {part}")
    dump, lines = bytearray(), []
    while len(dump) < min(PART, size - part * PART):
        (made,) = rng.choices(list(shares), list(shares.values()))
        pairs = made(rng, part * APART + len(lines))
        dump += document(pairs)
        lines.append(json.dumps(wrapped(pairs), ensure_ascii=False, separators=(",", ":")) + "\n")
    return bytes(dump), "".join(lines).encode()


def make(name: str, size: int, seed: int, kind: str = "mixed") -> None:
    """Writes documents of a kind, or of several that are mixed, up to a size in bytes."""
    parts = range(-(-size // PART))
    with multiprocessing.Pool() as pool, open(f"{name}.bson", "wb") as dump, open(f"{name}.jsonl", "wb") as lines:
        for made, texts in pool.imap(partial(made_part, seed, kind, size), parts):
            dump.write(made)
            lines.write(texts)


def main() -> int:
    if len(sys.argv) not in (3, 4, 5):
        print(__doc__, file=sys.stderr)
        return 2
    name, megabytes, seed, kind = sys.argv[1:] + ["1", "mixed"][len(sys.argv) - 3 :]
    make(name, int(megabytes) * 1_000_000, int(seed), kind)
    return 0


if __name__ == "__main__":
    sys.exit(main())
