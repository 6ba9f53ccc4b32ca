#!/usr/bin/env python3
"""The texts of doubles and decimal128 that `bsonwide` prints and reads, beside those of others.

usage: tests/wide/others.py [--program PATH] [--count N] [--seed N]     The last line is 'N passed, M failed'.

First the drivers' corpus (corpus.jsonl, relaxed.jsonl): its canonical and relaxed texts, its other texts, and what it refuses. Then N random doubles and N random
decimal128, 20,000 without it, beside Python (`repr`, `float`, `decimal`) and, where Debian's golang-mongodb-mongo-driver-dev is installed,
beside Go's driver: the lines of `dump`, and what `pack` makes of them. Half of them have random bits; the others are near the ends of what can
be, and near each place where another form of text begins. Last `pack` reads as many other texts: of doubles those half way between two, or nearly.
Of a decimal128 with more than 34 digits Go's driver prints the digits, and the specification has 0 (docs/DECISIONS.md): these are
counted, and not compared with it.
"""

import argparse
import json
import random
import subprocess
import sys
import tempfile
from collections.abc import Callable
from decimal import Context, Decimal
from fractions import Fraction
from pathlib import Path

sys.path[:0] = [str(Path(__file__).resolve().parents[1]), str(Path(__file__).resolve().parents[2] / "bench")]

from model.answers import decimal_of, double_of, double_text
from model.inputs import a_decimal, a_double
from model.texts import decimal_in, double_in
from peers import go_driver
from support import ROOT, Tests, commands_of

CORPUS = Path(__file__).resolve().with_name("corpus.jsonl")
RELAXED = CORPUS.with_name("relaxed.jsonl")
# The types, and the names of their wrappers.
DOUBLE, DECIMAL = (0x01, "$numberDouble"), (0x13, "$numberDecimal")
# The digits of a number half way between two doubles, of which the least has the most.
EXACT = Context(prec=1100)


def run(program: str, command: str, data: bytes, *words: str) -> subprocess.CompletedProcess:
    return subprocess.run([program, command, "-", *words], input=data, capture_output=True, check=False)


def lines_of(program: str, data: bytes) -> list[bytes]:
    return run(program, "dump", data).stdout.split(b"\n")[:-1]


def try_corpus(tests: Tests, program: str, packs: bool) -> None:
    _, *cases = map(json.loads, CORPUS.read_text(encoding="utf-8").splitlines())
    good = [it for it in cases if "text" in it]
    data = b"".join(bytes.fromhex(it["bytes"]) for it in good)
    lines = lines_of(program, data)
    tests.want("corpus: lines", len(lines) == len(good), len(lines))
    made = run(program, "check", data)
    told = f"{len(good)} documents, 0 faulty\n".encode()
    tests.want("corpus: check", (made.returncode, made.stdout, made.stderr) == (0, b"", told), made)
    for case, line in zip(good, lines):
        text = json.dumps(case["text"], ensure_ascii=False, separators=(",", ":")).encode()
        tests.want(f"corpus: {case['case']}", line == text, (line, text))
    for case in cases:
        if "bytes" in case and "text" not in case:
            made = run(program, "check", bytes.fromhex(case["bytes"]))
            tests.want(f"corpus, refused: {case['case']}", made.returncode == 1 and made.stdout.startswith(b"document 0, "), made)
    for case in cases if packs else []:
        texts = [] if "refused" in case else [*([json.dumps(case["text"])] if "text" in case else []), *case.get("texts", [])]
        for text in [] if "lossy" in case else texts:
            made = run(program, "pack", text.encode())
            tests.want(f"corpus, pack: {case['case']}: {text}", (made.returncode, made.stdout.hex()) == (0, case["bytes"].lower()), made)
        if "refused" in case:
            made = run(program, "pack", case["refused"].encode())
            words = (b'bad wrapper; write {"$numberDecimal":".."}\n', b"number out of range\n")
            is_refused = made.returncode == 1 and made.stderr.startswith(tuple(b"bsonwide: line 1, byte 5: " + it for it in words))
            tests.want(f"corpus, pack, refused: {case['case']}", is_refused and not made.stdout, made)


def try_relaxed(tests: Tests, program: str) -> None:
    """The relaxed texts of the corpus; and a document whose canonical text has no wrapper of a number or a date has this text."""
    _, *cases = map(json.loads, RELAXED.read_text(encoding="utf-8").splitlines())
    for case in cases:
        made = run(program, "dump", bytes.fromhex(case["bytes"]), "--jsonFormat", "relaxed")
        tests.want(f"corpus, relaxed: {case['case']}", (made.returncode, made.stdout) == (0, f"{case['relaxed']}\n".encode()), made)
    _, *cases = map(json.loads, CORPUS.read_text(encoding="utf-8").splitlines())
    data = b"".join(bytes.fromhex(it["bytes"]) for it in cases if "text" in it)
    relaxed = run(program, "dump", data, "--jsonFormat", "relaxed").stdout.split(b"\n")
    for canonical, line in zip(lines_of(program, data), relaxed):
        if not any(it in canonical for it in (b"$numberInt", b"$numberLong", b"$numberDouble", b"$date")):
            tests.want(f"corpus, relaxed and canonical: {canonical!r}", line == canonical, line)


def is_too_long(value: bytes) -> bool:
    """Whether a decimal128 has a coefficient of more than 34 digits, in the form that may have one."""
    bits = int.from_bytes(value, "little")
    return len(value) == 16 and bits >> 125 & 3 != 3 and bits & (1 << 113) - 1 >= 10**34


def document(kind: int, value: bytes) -> bytes:
    """A document whose field `a` is a number."""
    return bytes([8 + len(value), 0, 0, 0, kind]) + b"a\0" + value + b"\0"


def by_go(go: list[str], command: str, data: bytes) -> bytes:
    """What Go's driver writes."""
    with tempfile.NamedTemporaryFile() as file:
        file.write(data)
        file.flush()
        return subprocess.run([*go, command, file.name], stdout=subprocess.PIPE, check=True).stdout


def try_random(tests: Tests, program: str, go: list[str], packs: bool, of: tuple[int, str], values: list[bytes], read: Callable[[str], bytes | int]) -> None:
    """Wants the texts of random numbers of a type, and that they are read as the same numbers."""
    kind, name = of
    data = b"".join(document(kind, value) for value in values)
    lines = lines_of(program, data)
    texts = [double_text(value) if of == DOUBLE else str(decimal_of(value)) for value in values]
    others = {"Python": [f'{{"a":{{"{name}":"{text}"}}}}'.encode() for text in texts]}
    if go:
        others["Go's driver"] = by_go(go, "dump", data).split(b"\n")[:-1]
    for other, wanted in others.items():
        tests.want(f"{name}, {other}: lines", len(lines) == len(wanted) == len(values), (len(lines), len(wanted)))
        apart = {value for value in values if other != "Python" and is_too_long(value)}
        differ = [(value.hex(), line, text) for value, line, text in zip(values, lines, wanted) if line != text and value not in apart]
        tests.want(f"{name}, {other}: {len(differ)} differ", not differ, differ[:5])
        print(f"{len(values) - len(apart):,} of {name} beside {other}: {len(differ):,} differ")
    if packs:
        try_pack(tests, program, go, of, lines, [read(text) for text in texts])


def try_pack(tests: Tests, program: str, go: list[str], of: tuple[int, str], lines: list[bytes], values: list[bytes | int]) -> None:
    """Wants that `pack` reads lines, each of which has one number, as these numbers."""
    kind, name = of
    wanted = [document(kind, value) for value in values if isinstance(value, bytes)]
    good = [line for line, value in zip(lines, values) if isinstance(value, bytes)]
    size = len(wanted[0])
    text = b"".join(line + b"\n" for line in good)
    for other, made in {"Python": run(program, "pack", text).stdout, **({"Go's driver": by_go(go, "pack", text)} if go else {})}.items():
        packed = [made[at : at + size] for at in range(0, len(made), size)]
        # No text has the payload of a NaN, and Go's is another one. What Go's driver reads is compared with Python.
        pairs = [it for it in zip(good, packed, wanted) if other == "Python" or b'"NaN"' not in it[0]]
        differ = [(line, one.hex(), two.hex()) for line, one, two in pairs if one != two]
        tests.want(f"{name}, pack, {other}: {len(differ)} differ", not differ and len(packed) == len(wanted), differ[:5] or len(packed))
        print(f"{len(wanted):,} of {name} read, beside {other}: {len(differ):,} differ")


def between(double: bytes, rng: random.Random) -> str:
    """A text near the number half way between a double and the next one, or that number."""
    bits = int.from_bytes(double, "little") & (1 << 63) - 1
    value, after = (double_of(it.to_bytes(8, "little")) for it in (bits, bits + 1))
    if not max(value, after) < float("inf"):
        return rng.choice(["1.7976931348623158e308", "1.797693134862315807e+308", "NaN"])
    half = (Fraction(value) + Fraction(after)) / 2
    text = EXACT.divide(Decimal(half.numerator), Decimal(half.denominator))
    digits, _, power = format(text, "f" if 1e-30 < value < 1e30 else "e").partition("e")
    digits = (digits if "." in digits else f"{digits}.0") + rng.choice(["", "", "0", "000000000000001"])
    if rng.random() < 0.5:
        digits = digits[: rng.randrange(3, 40)] + "0"
    return rng.choice(["", "-"]) + digits + (f"e{power}" if power else "")


def a_decimal_text(rng: random.Random) -> str:
    """A numeric-string: of some digits, zeros before and after them, a point somewhere and an exponent, near a limit or not."""
    digits = "0" * rng.choice([0, 0, 3]) + "".join(rng.choices("0123456789", k=rng.choice([1, 2, 5, 20, 33, 34, 35]))) + "0" * rng.choice([0, 0, 1, 5, 40])
    point = rng.choice([None, rng.randrange(len(digits) + 1)])
    digits = digits if point is None else f"{digits[:point]}.{digits[point:]}"
    power = rng.choice(["", f"e{rng.randrange(-20, 20)}", f"E+{rng.randrange(6050, 6200)}", f"E{rng.randrange(-6250, -6050)}"])
    return rng.choice(["", "", "-", "+"]) + digits + power


def main() -> int:
    read = argparse.ArgumentParser(usage=__doc__)
    read.add_argument("--program", default=str(ROOT / "bsonwide"))
    read.add_argument("--count", type=int, default=20_000)
    read.add_argument("--seed", type=int, default=57)
    words = read.parse_args()
    tests, rng, program = Tests(), random.Random(words.seed), words.program
    packs = "pack" in commands_of(Path(program).name)
    try_corpus(tests, program, packs)
    try_relaxed(tests, program)
    with tempfile.TemporaryDirectory() as room:
        go = go_driver(room)
        if not go:
            print("skipped: Go's driver is not installed (Debian's golang-mongodb-mongo-driver-dev)")
        doubles, decimals = ([make(rng) for _ in range(words.count)] for make in (a_double, a_decimal))
        try_random(tests, program, go, packs, DOUBLE, doubles, double_in)
        try_random(tests, program, go, packs, DECIMAL, decimals, decimal_in)
        if packs:
            for of, texts, read_text in ((DOUBLE, [between(it, rng) for it in doubles], double_in), (DECIMAL, [a_decimal_text(rng) for _ in decimals], decimal_in)):
                lines = [f'{{"a":{{"{of[1]}":"{text}"}}}}'.encode() for text in texts]
                # Go's driver refuses some texts of more than 34 digits whose number has fewer.
                try_pack(tests, program, go if of == DOUBLE else [], of, lines, [read_text(text) for text in texts])
    print(f"{tests.passed} passed, {tests.failed} failed")
    return int(tests.failed > 0)


if __name__ == "__main__":
    sys.exit(main())
