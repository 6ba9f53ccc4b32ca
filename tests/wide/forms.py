#!/usr/bin/env python3
"""Packs lines with dates and UUIDs as people write them by `bsonwide`, beside the model and Python's `datetime` and `uuid`; and asks
queries and sorts, and packs lines, as they stand in mongosh, of which `find` and `pack` say what to write instead.

usage: tests/wide/forms.py [PROGRAM] [LINES]     The last line is 'N passed, M failed'.
"""

import random
import subprocess
import sys
from datetime import datetime, timedelta, timezone
from pathlib import Path
from uuid import UUID

sys.path.insert(0, str(Path(__file__).resolve().parents[1]))

from model import sessions
from model.answers import Dump
from model.texts import WORDS, date_in
from support import ROOT, Tests

PROGRAM = Path(sys.argv[1]).resolve() if len(sys.argv) > 1 else ROOT / "bsonwide"
LINES = int(sys.argv[2]) if len(sys.argv) > 2 else 2_000
RNG = random.Random(57)
NAMED = ("oid", "date", "uuid", "numberInt", "numberLong", "numberDecimal", "numberDouble", "timestamp", "binary")
EPOCH = datetime(1970, 1, 1, tzinfo=timezone.utc)


def a_date() -> str:
    """A date-time of RFC 3339 of any year, in any zone, or one that is none: a part is out of range, or has too many digits."""
    year = RNG.choice([RNG.randrange(10_000), RNG.randrange(1960, 2040)])
    day = f"{year:04}-{RNG.randrange(1, 13):02}-{RNG.choice([1, 28, 29, 30, 31, RNG.randrange(1, 29)]):02}"
    time = f"{RNG.choice([0, 12, 23]):02}:{RNG.randrange(60):02}:{RNG.randrange(60):02}"
    fraction = RNG.choice(["", f".{RNG.randrange(10)}", f".{RNG.randrange(100):02}", f".{RNG.randrange(1000):03}", f".{RNG.randrange(1000):03}000"])
    zone = RNG.choice(["Z", "Z", f"+{RNG.randrange(24):02}:{RNG.randrange(60):02}", f"-{RNG.randrange(24):02}{RNG.randrange(60):02}"])
    return f"{day}T{time}{fraction}{zone}"


def a_uuid() -> str:
    text = str(UUID(int=RNG.randrange(1 << 128)))
    return RNG.choice([text, text.upper()])


def blank() -> str:
    return RNG.choice(["", "", "", " ", "\t "])


def wrapper(name: str, text: str) -> str:
    return f'{{{blank()}"{name}"{blank()}:{blank()}"{text}"{blank()}}}'


def a_value(levels: int) -> str:
    chosen = RNG.randrange(8)
    if chosen <= 2:
        return wrapper("$date", a_date())
    if chosen == 3:
        return wrapper("$uuid", a_uuid())
    if chosen == 4:
        return RNG.choice(["1.5", "7", "-3e5", '{"$numberDecimal":"1.50"}', '{"$date":{"$numberLong":"-5"}}'])
    if chosen == 5 and levels:
        return f"[{','.join(a_value(levels - 1) for _ in range(RNG.randrange(4)))}]"
    if chosen == 6 and levels:
        return f'{{"x":{a_value(levels - 1)}}}'
    return '"2026-10-01T00:00:00Z"'


def a_line() -> str:
    return f'{{"a":{a_value(2)},"b":{a_value(2)},"c":{a_value(2)}}}'


def damaged(line: str) -> str:
    """The line with a byte changed, dropped or put in."""
    at = RNG.randrange(len(line))
    return line[:at] + RNG.choice(["", RNG.choice('"{}[]:,0-9Tx. $')]) + line[at + RNG.randrange(2) :]


def packed(line: str) -> tuple[bytes, bytes]:
    """What `pack` writes and says of a line, by the model."""
    _, documents, said = sessions.packed(line.encode(), sessions.WIDE)
    return documents, said.encode()


def pack(text: str) -> tuple[bytes, bytes]:
    made = subprocess.run([PROGRAM, "pack", "-"], input=text.encode(), capture_output=True, check=False)
    return made.stdout, made.stderr


def asked(option: str, text: str) -> tuple[int, bytes, str]:
    """What `find` says of a text over a dump of no documents."""
    made = subprocess.run([PROGRAM, "find", "-", f"--{option}={text}"], input=b"", capture_output=True, check=False)
    return made.returncode, made.stdout, made.stderr.decode()


def try_advice(tests: Tests) -> None:
    """The messages of texts of mongosh by hand; then each word, wrappers with other contents, and damaged texts, beside the model."""
    for text, said in (
        ('{"_id":ObjectId("65f0c1a2b3d4e5f601234567")}', 'byte 7: not JSON; write {"$oid":".."}'),
        ('{"a":{"$gte":ISODate("2026-10-01")}}', 'byte 13: not JSON; write {"$date":"2026-10-01T00:00:00Z"}'),
        ('{"a":new Date(5)}', 'byte 6: not JSON; write {"$date":"2026-10-01T00:00:00Z"}'),
        ('{"a":NumberDecimal("9.99")}', 'byte 5: not JSON; write {"$numberDecimal":".."}'),
        ('{"a":/^x/}', "byte 5: not JSON; regular expressions are not supported"),
        ("{age:{$gt:5}}", "byte 1: not JSON; write names in double quotation marks"),
        ('{"a":1, b.c : 2}', "byte 8: not JSON; write names in double quotation marks"),
        ("{'a':5}", "byte 1: not JSON; write names and strings in double quotation marks"),
        ('{"a":{"$date":"2026-10-01"}}', 'byte 5: bad wrapper; write {"$date":"2026-10-01T00:00:00Z"}'),
        ('{"a":{ "$oid":"65f0"}}', 'byte 5: bad wrapper; write {"$oid":".."} with 24 hexadecimal digits'),
        ('{"a":{"$binary":5}}', 'byte 5: bad wrapper; write {"$binary":{"base64":"..","subType":".."}}'),
        ('{"a":nul}', "byte 8: not JSON"), ('{"a":x}', "byte 5: not JSON"), ("[]", "not a document"), ('{"a":1 :2}', "byte 7: not JSON"),
        ('{"a":{"$code":5}}', "byte 5: bad wrapper"), ('{"a":1}ObjectId(', "byte 7: text after the document"), ("{", "byte 1: not JSON"),
    ):  # fmt: skip
        tests.want(text, asked("query", text) == (1, b"", f"bsonwide: query: {said}\n"), asked("query", text))
        line = f"bsonwide: line 2{', ' if said.startswith('byte') else ': '}{said}\n1 objects packed\n"
        tests.want(f"line {text}", pack(f"{{}}\n{text}\n{{}}\n") == (bytes([5, 0, 0, 0, 0]), line.encode()), pack(f"{{}}\n{text}\n{{}}\n"))
    texts = [f'{{"a":{new}{word}"x")}}' for word in WORDS for new in ("", "new ", "[1,")]
    texts += [f"{{{blank()}{name}{blank()}:1}}" for name in ("a", "$or", "a.b", "_id", "5", "größe", "a-b", "a b")]
    texts += [f'{{"a":{{{blank()}"${name}"{blank()}:{of}}}}}' for name in (*NAMED, "code", "x") for of in ("5", '"no"', '{"a":1}', '"5","b":1')]
    for text in [*texts, *(damaged(RNG.choice(texts)) for _ in range(LINES // 10))]:
        for option in ("query", "sort"):
            wanted = sessions.Find(**{option: text}).shown(Dump([]), sessions.WIDE)
            tests.want(f"{option} {text}", asked(option, text) == wanted, (asked(option, text), wanted))
        tests.want(f"pack {text}", pack(f"{text}\n") == packed(text), (pack(f"{text}\n"), packed(text)))


def main() -> int:
    tests = Tests()
    try_advice(tests)
    # The model beside Python's reader of ISO 8601, which has no year 0.
    for _ in range(LINES):
        text = a_date()
        try:
            wanted = None if text.startswith("0000") else (datetime.fromisoformat(text) - EPOCH) // timedelta(milliseconds=1)
        except (ValueError, OverflowError):
            wanted = None
        if not text.startswith("0000") and wanted is not None:
            tests.want(f"model of {text}", date_in(text) == wanted, (date_in(text), wanted))
    lines = [a_line() for _ in range(LINES)]
    good = [it for it in lines if packed(it)[0]]
    wanted = b"".join(packed(it)[0] for it in good)
    tests.want("lines", pack("".join(f"{it}\n" for it in good))[0] == wanted)
    for line in [*[it for it in lines if not packed(it)[0]][:200], *(damaged(it) for it in lines[: LINES // 4])]:
        tests.want(line, pack(f"{line}\n") == packed(line), (pack(f"{line}\n"), packed(line)))
    print(f"{tests.passed} passed, {tests.failed} failed")
    return int(tests.failed > 0)


if __name__ == "__main__":
    sys.exit(main())
