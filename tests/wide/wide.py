#!/usr/bin/env python3
"""Runs `bsonwide` beside the model of it: over worked examples, random and damaged documents, and each prefix of a small dump. Rows of CSV
are also read by Python's `csv`.

usage: tests/wide/wide.py [PROGRAM] [DOCUMENTS]     The last line is 'N passed, M failed'.
"""

import csv
import io
import random
import struct
import subprocess
import sys
from datetime import datetime, timezone
from pathlib import Path

sys.path.insert(0, str(Path(__file__).resolve().parents[1]))

from model.answers import decimal_of, double_text
from model.dumps import LONGEST
from model.inputs import a_decimal, a_double
from model.wide import cells, check, dump, rows
from support import ROOT, Tests, usage_of

PROGRAM = Path(sys.argv[1]).resolve() if len(sys.argv) > 1 else ROOT / "bsonwide"
DOCUMENTS = int(sys.argv[2]) if len(sys.argv) > 2 else 20_000
USAGE = usage_of("bsonwide").encode()
NONE = b"0 objects found\n"
FIELDS = b"bsonwide: fields: not paths to separate fields\n"
VERSION = b"bsonwide " + (ROOT / "VERSION").read_bytes()
RNG = random.Random(57)
# Texts that stand in the pages of Go's driver, of bsondump, of Extended JSON v2 and of the decimal128 specification.
DOUBLES = {
    1234567.5: "1.2345675E+06", 1e20: "1E+20", 5e-324: "5E-324", 999999.0: "999999.0", 1e6: "1E+06", 0.0: "0.0",
    1.0: "1.0", 0.1: "0.1", 1e-4: "0.0001", 1e-5: "1E-05", 0.00012: "0.00012", 123456.7: "123456.7", 100000.0: "100000.0",
    1.7976931348623157e308: "1.7976931348623157E+308", 9007199254740993.0: "9.007199254740992E+15", -1.5: "-1.5",
    float("inf"): "Infinity", float("-inf"): "-Infinity", 1.0001220703125e18: "1.0001220703125E+18", 2.5e-7: "2.5E-07",
}  # fmt: skip
DECIMALS = {
    (0, 0x3040000000000000): "0", (0, 0xB040000000000000): "-0", (1, 0x3040000000000000): "1", (1, 0x3046000000000000): "1E+3",
    (0, 0x3046000000000000): "0E+3", (5, 0x303E000000000000): "0.5", (12345, 0x303C000000000000): "123.45",
    (1, 0x3032000000000000): "1E-7", (1, 0x3034000000000000): "0.000001", (1, 0x5FFE000000000000): "1E+6111",
    (0, 0x7C00000000000000): "NaN", (0, 0xFC00000000000000): "NaN", (0, 0x7800000000000000): "Infinity",
    (0, 0xF800000000000000): "-Infinity", (0, 0x6C10000000000000): "0", (0xFFFFFFFFFFFFFFFF, 0x3041FFFFFFFFFFFF): "0",
    (0x378D8E63FFFFFFFF, 0x3041ED09BEAD87C0): "9999999999999999999999999999999999",
    (0x378D8E63FFFFFFFF, 0x5FFFED09BEAD87C0): "9.999999999999999999999999999999999E+6144", (1, 0x0000000000000000): "1E-6176",
}  # fmt: skip


def four(count: int) -> bytes:
    return count.to_bytes(4, "little")


def document(body: bytes) -> bytes:
    return four(len(body) + 5) + body + b"\0"


def a_date() -> bytes:
    """A date of any year, or one of the years 1970 to 9999, maybe of a whole second, or near the end of one of these years."""
    years = 253_402_300_800_000
    last = int(datetime(RNG.randrange(1970, 10_000), 12, 31, tzinfo=timezone.utc).timestamp()) * 1000 + 86_400_000
    date = RNG.choice([RNG.randrange(1 << 64) - (1 << 63), RNG.randrange(years), RNG.randrange(years // 1000) * 1000, last + RNG.randrange(-11, 11)])
    return date.to_bytes(8, "little", signed=True)


def a_value(levels: int) -> tuple[int, bytes]:
    kind = RNG.choice([1, 1, 1, 2, 3, 3, 4, 5, 6, 7, 8, 9, 10, 11, 12, 13, 14, 15, 16, 17, 18, 19, 19, 127, 255])
    if levels <= 0 and kind in (3, 4, 15):
        kind = 1
    text = RNG.choices(RNG.choice([b"xyz", b'x,"\n\r= \\{']), k=RNG.randrange(6))
    string = four(len(text) + 1) + bytes(text) + b"\0"
    if kind == 1:
        return kind, a_double(RNG)
    if kind == 19:
        return kind, a_decimal(RNG)
    if kind == 9:
        return kind, a_date()
    if kind in (3, 4):
        return kind, a_document(levels - 1)
    if kind == 15:
        inner = string + a_document(levels - 1)
        return kind, four(len(inner) + 4) + inner
    if kind == 5:
        return kind, four(len(text)) + bytes([RNG.randrange(3)]) + bytes(text)
    if kind == 11:
        return kind, bytes(text) + b"\0" + bytes(text) + b"\0"
    sizes = {7: 12, 8: 1, 16: 4, 17: 8, 18: 8}
    if kind in sizes:
        return kind, RNG.randbytes(sizes[kind])
    return kind, {2: string, 12: string + RNG.randbytes(12), 13: string, 14: string}.get(kind, b"")


def a_document(levels: int) -> bytes:
    body = b""
    for _ in range(RNG.choice([0, 1, 2, 3, 5])):
        kind, value = a_value(levels)
        body += bytes([kind]) + bytes(RNG.choices(b"abc$.~", k=RNG.choice([0, 1, 1, 2, 3, 17]))) + b"\0" + value
    return document(body)


def damaged(data: bytes) -> bytes:
    """The same with some bytes changed, but with its length."""
    changed = bytearray(data)
    for _ in range(RNG.choice([0, 0, 1, 1, 2])):
        if len(data) > 5:
            at = RNG.randrange(4, len(data))
            changed[at] = RNG.choice([0, 1, 2, 3, 4, 5, 15, 19, 255, changed[at] ^ 1 << RNG.randrange(8)])
    return bytes(changed)


def deep(levels: int, kind: int) -> bytes:
    """Documents, arrays or code with scope in one another, with a double and a decimal128 at the bottom."""
    data = document(b"\x01q\0" + bytes(range(8)) + b"\x13r\0" + bytes(range(16)))
    for _ in range(levels):
        if kind == 15:
            inner = four(1) + b"\0" + data
            data = document(b"\x0fa\0" + four(len(inner) + 4) + inner)
        else:
            data = document(bytes([kind]) + b"a\0" + data)
    return data


def longest(size: int) -> bytes:
    """A document of so many bytes, with a double before its text and a decimal128 after it."""
    text = size - 5 - 11 - 19 - 7
    return document(b"\x01a\0" + struct.pack("<d", 0.1) + b"\x02b\0" + four(text) + b"x" * (text - 1) + b"\0" + b"\x13c\0" + bytes(16))


def ran(command: str, data: bytes, *options: bytes) -> tuple[bytes, bytes, int]:
    made = subprocess.run([PROGRAM, command, "-", *options], input=data, capture_output=True, check=False)
    return made.stdout, made.stderr, made.returncode


def main() -> int:
    tests = Tests()
    csv.field_size_limit(LONGEST)
    tests.want("model of -0.0", double_text(bytes(7) + b"\x80") == "-0.0")
    for value, text in DOUBLES.items():
        tests.want(f"model of {value}", double_text(struct.pack("<d", value)) == text, double_text(struct.pack("<d", value)))
    for halves, text in DECIMALS.items():
        made = str(decimal_of(struct.pack("<QQ", *halves)))
        tests.want(f"model of {text}", made == text, made)

    documents = [a_document(RNG.choice([0, 1, 2, 4])) for _ in range(DOCUMENTS)]
    inputs = {
        "worked doubles": document(b"".join(b"\x01a\0" + struct.pack("<d", it) for it in [*DOUBLES, -0.0])),
        "worked decimals": document(b"".join(b"\x13a\0" + struct.pack("<QQ", *it) for it in DECIMALS)),
        "random": b"".join(documents),
        "sound": b"".join(it for it in documents if not check(it)[0]),
        "damaged": b"".join(map(damaged, documents)),
        "nested": b"".join(deep(levels, kind) for levels in (0, 3, 98, 99, 100, 101, 197, 198, 199, 200, 201) for kind in (3, 4, 15)),
        "doubles": b"".join(document(b"\x01a\0" + a_double(RNG)) for _ in range(10 * DOCUMENTS)),
        "decimals": b"".join(document(b"\x13a\0" + a_decimal(RNG)) for _ in range(10 * DOCUMENTS)),
        "longest": longest(LONGEST) + documents[0],
        "longer than that": longest(LONGEST + 1) + documents[0],
        "too long": document(b"\x02a\0" + four(16 << 20) + bytes((16 << 20) - 1) + b"\0" + (b"\x01b\0" + bytes(8)) * 100),
        "empty": b"",
    }
    small = document(b"\x01d\0" + bytes(8) + b"\x03o\0" + document(b"\x13e\0" + bytes(16)) + b"\x10i\0" + bytes(4)) + document(b"")
    for end in range(len(small)):
        inputs[f"first {end} bytes"] = small[:end]
    for at in range(len(small)):
        for byte in (0, 1, 5, 0x13, 0xFF, small[at] ^ 1):
            inputs[f"byte {at} is {byte}"] = small[:at] + bytes([byte]) + small[at + 1 :]
    for name, data in inputs.items():
        made = ran("check", data)
        tests.want(f"check, {name}", made == check(data), made[1:])
        made = ran("dump", data)
        tests.want(f"dump, {name}", made == dump(data), made[1:])
        made = ran("dump", data, b"--jsonFormat", b"relaxed")
        tests.want(f"dump, relaxed, {name}", made == dump(data, is_relaxed=True), made[1:])
        for words, wanted in (
            (["--pretty"], dump(data, is_pretty=True)),
            (["--jsonArray", "--pretty", "--fields", "a,b", "--jsonFormat", "relaxed"], dump(data, True, ["a", "b", "_id"], True, True)),
            (["--type=csv", "--fields", "a,b.c,$.0,o.e"], rows(data, ["a", "b.c", "$.0", "o.e"])),
            (["--type", "csv", "--fields=c", "--noHeaderLine"], rows(data, ["c"], has_header=False)),
            (["--jsonArray"], dump(data, is_array=True)),
            (["--fields", "a,b.c,o.e"], dump(data, fields=["a", "b.c", "o.e", "_id"])),
            (["--fields=_id,c.a.b", "--jsonFormat=relaxed"], dump(data, True, ["_id", "c.a.b"])),
            (["--jsonArray", "--fields", "b,a.a", "--noId", "--jsonFormat", "relaxed"], dump(data, True, ["b", "a.a"], True)),
        ):
            made = ran("dump", data, *map(str.encode, words))
            tests.want(f"dump {words}, {name}", made == wanted, made[1:])
        fields = ["b", "a.1", 'c."', "~.a.b"]
        made = ran("dump", data, b"--type", b"csv", b"--fields", ",".join(fields).encode())[0]
        tests.want(f"rows as read by csv, {name}", list(csv.reader(io.StringIO(made.decode(), newline=""), strict=True)) == [fields, *cells(data, fields)])

    for words, status, out, err in (
        ([], 2, b"", USAGE), (["check"], 2, b"", USAGE), (["sort", "-"], 2, b"", USAGE), (["check", "-", "-"], 2, b"", USAGE),
        (["--help"], 0, USAGE, b""), (["dump", "-h"], 0, USAGE, b""),
        (["check", "absent"], 1, b"", b"bsonwide: cannot open absent\n"), (["check", "--", "-x"], 1, b"", b"bsonwide: cannot open -x\n"),
        (["check", "/"], 1, b"", b"bsonwide: cannot read\n0 documents, 0 faulty\n"),
        (["dump", "-", "--jsonFormat", "canonical"], 0, b"", NONE), (["dump", "--jsonFormat=relaxed", "-"], 0, b"", NONE),
        (["dump", "-", "--jsonFormat", "Relaxed"], 2, b"", USAGE), (["dump", "-", "--jsonFormat", ""], 2, b"", USAGE),
        (["dump", "-", "--jsonFormat"], 2, b"", USAGE), (["check", "-", "--jsonFormat", "relaxed"], 2, b"", USAGE),
        (["dump", "-", "--jsonFormat", "relaxed", "--jsonFormat", "relaxed"], 2, b"", USAGE),
        (["dump", "-", "--jsonArray"], 0, b"[]\n", NONE), (["dump", "-", "--type", "json"], 0, b"", NONE),
        (["dump", "-", "--pretty"], 0, b"", NONE), (["dump", "-", "--pretty", "--jsonArray", "--type=json"], 0, b"[\n]\n\n", NONE),
        (["dump", "-", "--type", "csv", "--fields", 'a.b,x y,"q"'], 0, b'a.b,x y,"""q"""\n', NONE),
        (["dump", "-", "--type", "csv", "--fields", "a,_id", "--noHeaderLine"], 0, b"", NONE),
        (["find", "-", "--type=csv", "--fields=_id"], 0, b"_id\n", b"0 documents, end\n"),
        (["find", "-", "--pretty", "--jsonArray"], 0, b"[\n]\n\n", b"0 documents, end\n"),
        *((["dump", "-", "--type", "csv", "--fields", it], 1, b"", FIELDS) for it in ("", "a,,b", "a.b,a", "_id,_id")),
        *((["dump", "-", "--fields", it], 1, b"", FIELDS) for it in ("", "a,", ",a", "a..b", "a,a", "a,a.b", "a.b,c,a", "_id.x,_id")),
        (["dump", "absent", "--fields", "a,a"], 1, b"", b"bsonwide: cannot open absent\n"),
        (["dump", "-", "--fields", "_id", "--noId"], 1, b"", FIELDS), (["find", "-", "--fields", "a,a.b"], 1, b"", FIELDS),
        (["find", "-", "--fields", "a,a", "--query", "{"], 1, b"", FIELDS), (["find", "-", "--jsonArray"], 0, b"[]\n", b"0 documents, end\n"),
        *(([command, "-", *words], 2, b"", USAGE) for command in ("dump", "find") for words in (
            ["--noId"], ["--fields"], ["--fields", "a", "--fields", "b"], ["--jsonArray", "--jsonArray"], ["--noHeaderLine"],
            ["--noHeaderLine", "--fields", "a"], ["--noHeaderLine", "--fields", "a", "--type", "json"], ["--type", "csv"], ["--type", "csv", "--noHeaderLine"],
            *(["--type", "csv", "--fields", "a", *it] for it in (
                ["--jsonArray"], ["--pretty"], ["--noId"], ["--jsonFormat", "relaxed"], ["--jsonFormat", "canonical"], ["--bson"], ["--count"], ["--type", "csv"],
            )),
            ["--type", "xml"], ["--type", "CSV", "--fields", "a"], ["--type", ""], ["--pretty", "--pretty"], ["--pretty", "--bson"], ["--pretty", "--count"], ["--jsonFormat", "plain"], ["--jsonArray", "--bson"], ["--fields", "a", "--count"], ["--noId", "--bson"],
            ["--jsonFormat", "canonical", "--bson"], ["--type", "json", "--count"],
        )),
        (["check", "-", "--jsonArray"], 2, b"", USAGE), (["pack", "-", "--fields", "a"], 2, b"", USAGE), (["serve", "absent", "--noId"], 2, b"", USAGE),
        (["serve"], 2, b"", USAGE), (["serve", "-"], 2, b"", USAGE), (["serve", "--", "-"], 2, b"", USAGE), (["serve", "-", "-"], 2, b"", USAGE),
        (["serve", "absent"], 1, b"", b"bsonwide: cannot open absent\n"), (["serve", "/"], 1, b"", b"bsonwide: cannot read\n"),
        (["mask", "-"], 2, b"", USAGE), (["wrap", "-"], 2, b"", USAGE), (["order", "-"], 2, b"", USAGE), (["--version"], 0, VERSION, b""), (["--version", "-"], 2, b"", USAGE),
    ):  # fmt: skip
        got = subprocess.run([PROGRAM, *words], input=b"", capture_output=True, check=False)
        tests.want(f"words {words}", (got.returncode, got.stdout, got.stderr) == (status, out, err), got)
    print(f"{tests.passed} passed, {tests.failed} failed")
    return int(tests.failed > 0)


if __name__ == "__main__":
    sys.exit(main())
