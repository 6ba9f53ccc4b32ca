"""Tests of the command `count`, beside exact arithmetic and a model of paths over the lines of documents."""

import gzip
import json
import os
import random
import struct
import subprocess
import sys
import threading
from collections import Counter
from decimal import ROUND_HALF_EVEN, Decimal, localcontext
from fractions import Fraction
from typing import Any, Iterator, List, Sequence
from unittest import mock

from bsonfind._backup.count import MISSING, Count, Sum, TooManyError
from bsonfind._dumps.paths import Path
from bsonfind._errors import ArgumentError

from .archives import archive
from .bson import decimal, document, double, field, int32, int64, text
from .support import (
    COMMAND, DAMAGED, PEOPLE, PEOPLE_LINES, PROGRAM, SHOP, SHOP_LINES, Room, environment, run_on_terminal, run_package,
)  # fmt: skip

NAN, INFINITY = decimal(0)[:15] + b"\x7c", decimal(0)[:15] + b"\x78"
# A document of each type that is no number, and the text of its value.
OTHERS = {
    field(0x02, "v", text("a\tb")): '"a\\tb"',
    field(0x03, "v", document(field(0x10, "a", int32(1)))): '{"a":{"$numberInt":"1"}}',
    field(0x05, "v", b"\x02\0\0\0\x80ab"): '{"$binary":{"base64":"YWI=","subType":"80"}}',
    field(0x06, "v", b""): '{"$undefined":true}',
    field(0x07, "v", bytes(range(12))): '{"$oid":"000102030405060708090a0b"}',
    field(0x08, "v", b"\1"): "true",
    field(0x09, "v", int64(-7)): '{"$date":{"$numberLong":"-7"}}',
    field(0x0A, "v", b""): "null",
    field(0x0B, "v", b"a\0i\0"): '{"$regularExpression":{"pattern":"a","options":"i"}}',
    field(0x0C, "v", text("a") + bytes(12)): '{"$dbPointer":{"$ref":"a","$id":{"$oid":"000000000000000000000000"}}}',
    field(0x0D, "v", text("f()")): '{"$code":"f()"}',
    field(0x0E, "v", text("s")): '{"$symbol":"s"}',
    field(0x0F, "v", (4 + len(text("f")) + 5).to_bytes(4, "little") + text("f") + document()): '{"$code":"f","$scope":{}}',
    field(0x11, "v", b"\2\0\0\0\1\0\0\0"): '{"$timestamp":{"t":1,"i":2}}',
    field(0x7F, "v", b""): '{"$maxKey":1}',
    field(0xFF, "v", b""): '{"$minKey":1}',
}


def dump(*values: bytes) -> bytes:
    """The dump of documents, each of which has one of these fields."""
    return b"".join(map(document, values))


def array(name: str, *values: Any) -> bytes:
    """An array, of elements that are each a type and the bytes of a value."""
    return field(0x04, name, document(*(field(kind, str(number), value) for number, (kind, value) in enumerate(values))))


def model(value: Any, names: Sequence[str]) -> Iterator[Any]:
    """The values to which a path leads, in canonical JSON, as the guide says it."""
    if not names:
        yield from value if isinstance(value, list) and value else [value]
    elif isinstance(value, dict):
        if names[0] in value and not names[0].startswith("$"):
            yield from model(value[names[0]], names[1:])
    elif isinstance(value, list):
        for element in value:
            if isinstance(element, dict):
                yield from model(element, names)
        if names[0].isdigit() and int(names[0]) < len(value) and str(int(names[0])) == names[0]:
            yield from model(value[int(names[0])], names[1:])


def counted(lines: Sequence[bytes], path: str) -> "Counter[str]":
    """How many documents have each value, as its text; numbers of the examples are all whole, and print as these."""
    counts: "Counter[str]" = Counter()
    for line in lines:
        texts = set()
        for value in model(json.loads(line), path.split(".")):
            wrapped = isinstance(value, dict) and len(value) == 1 and next(iter(value.items()))
            is_number = wrapped and wrapped[0] in ("$numberInt", "$numberLong")
            texts.add(wrapped[1] if is_number else json.dumps(value, ensure_ascii=False, separators=(",", ":")))
        counts.update(texts or {"missing"})
    return counts


class Counts(Room):
    def count(self, *words: object, status: int = 0, told: str = "") -> List[List[str]]:
        """The cells of the rows that are printed."""
        run = run_package("count", *map(str, words))
        self.assertEqual((run.returncode, run.stderr), (status, told))
        return [line.split("\t") for line in run.stdout.splitlines()]

    def counts(self, *words: object, **how: Any) -> "Counter[str]":
        """The counts of values."""
        rows = self.count(*words, **how)
        self.assertEqual([int(count) for _, count in rows], sorted((int(count) for _, count in rows), reverse=True))
        self.assertEqual(len({value for value, _ in rows}), len(rows))
        return Counter({value: int(count) for value, count in rows})

    def test_documents_of_any_dump(self) -> None:
        packed = self.file(gzip.compress(SHOP.read_bytes()), "shop.bson.gz")
        inside = self.file(archive([("club", "people", PEOPLE.read_bytes()), ("shop", "orders", SHOP.read_bytes())]), "a.archive")
        empty = self.file(b"", "empty.bson")
        for names, documents in (
            ([PEOPLE], 500), ([packed], 400), ([f"{inside}::shop.orders"], 400), ([PEOPLE, packed, f"{inside}::shop.orders", f"{inside}::club.people"], 1800),
            ([empty], 0),
        ):  # fmt: skip
            self.assertEqual(self.count(*names), [[str(documents)]])
        command = [*COMMAND, "count", "-", "--by", "age"]
        run = subprocess.run(command, env=environment(), input=PEOPLE.read_bytes(), capture_output=True)
        self.assertEqual(run.stdout.count(b"\n"), len(counted(PEOPLE_LINES, "age")))

    def test_values_of_the_examples(self) -> None:
        """By paths to texts, numbers and dates, through documents and arrays and to positions, and to nothing."""
        for path, lines, lists in (
            (PEOPLE, PEOPLE_LINES, ["age", "address.city", "address.lines", "address.lines.0", "scores", "scores.1", "visits.place", "visits.days", "visits.0.days.0", "x"]),
            (SHOP, SHOP_LINES, ["_id", "customer.vip", "customer.referrer", "tags", "placed", "items.0", "items.sku", "items"]),
        ):
            for it in lists:
                wanted = counted(lines, it)
                self.assertEqual(self.counts(path, "--by", it), wanted, it)
                copy = self.file(path.read_bytes(), "copy.bson")
                self.assertEqual(self.counts(path, copy, "--by", it), Counter({value: 2 * count for value, count in wanted.items()}))

    def test_control_characters(self) -> None:
        """A value in a table is JSON, in which no character is a command for a terminal; a line of JSON has it as dump prints it."""
        path = self.file(dump(field(0x02, "v", text("a\x7fb")), field(0x02, "v", text("a\u0085b\u009f"))))
        other = self.file(dump(field(0x10, "v", int32(1))), "other.bson")
        cells = {'"a\\u007fb"', '"a\\u0085b\\u009f"'}
        self.assertEqual({value for value, _ in self.count(path, "--by", "v")}, cells)
        self.assertEqual({line.split("\t")[3] for line in run_package("grep", "a", str(path)).stdout.splitlines()}, cells)
        self.assertEqual({it.split(" ", 1)[1] for it in run_package("compare", str(path), str(other), "--by", "v").stdout.splitlines()[:2]}, cells)
        self.assertIn(run_package("schema", str(path)).stdout.split("\t")[2], cells)
        for words in (["count", "--by", "v"], ["grep", "a"]):
            printed = run_package(*words, str(path), "--json").stdout
            self.assertIn('"a\x7fb"', printed)
            self.assertEqual({json.loads(it)["value"] for it in printed.split("\n") if it}, {"a\x7fb", "a\u0085b\u009f"})

    def test_files_that_are_named_twice(self) -> None:
        """Each document is counted once, also of a file by another name, as in a backup that is named with a file in it."""
        path, inside = self.file(SHOP.read_bytes(), "a/shop.bson"), self.file(archive([("shop", "a", SHOP.read_bytes())]), "all.archive")
        other, link = f"{path.parent}/../a/shop.bson", self.room / "link.bson"
        link.symlink_to(path)
        note = "{}: the same file as {}, which counts once\n"
        for names, told in (
            ((path, path), ""), ((path, other, link), note.format(other, path) + note.format(link, path)),
            ((f"{inside}::shop.a", f"{self.room}/./all.archive::shop.a"), note.format(f"{self.room}/./all.archive::shop.a", f"{inside}::shop.a")),
        ):  # fmt: skip
            run = run_package("count", *map(str, names))
            self.assertEqual((run.returncode, run.stdout, run.stderr), (0, "400\n", told))
            run = run_package("schema", *map(str, names))
            self.assertEqual((run.returncode, run.stderr), (0, f"{told}400 documents\n"))

    def test_numbers_of_one_value(self) -> None:
        """Of all types; what differs by less than a double is another value; NaN is one, whatever its bytes are."""
        five = [field(0x10, "v", int32(5)), field(0x12, "v", int64(5)), field(0x01, "v", double(5.0)), field(0x13, "v", decimal(500, -2))]
        zero = [field(0x01, "v", double(-0.0)), field(0x10, "v", int32(0)), field(0x13, "v", decimal(0, -6176, True))]
        # More digits than a decimal128 has are zero.
        zero.append(field(0x13, "v", decimal(10**34)))
        nan = [field(0x01, "v", struct.pack("<Q", bits)) for bits in (0x7FF8 << 48, 0xFFF8 << 48 | 7)] + [field(0x13, "v", NAN)]
        infinite = [field(0x01, "v", double(float("inf"))), field(0x13, "v", INFINITY)]
        tenth = [field(0x01, "v", double(0.1))] * 6, [field(0x13, "v", decimal(10, -2)), field(0x13, "v", decimal(1, -1))]
        large = [field(0x12, "v", int64(2**62 + 1))]
        values = [*five, *zero, *nan, *infinite, *tenth[0], *tenth[1], *large]
        random.Random(1).shuffle(values)
        wanted = [
            ["0.1", "6"], ["0", "4"], ["5", "4"], ['{"$numberDouble":"NaN"}', "3"], ['{"$numberDecimal":"0.1"}', "2"],
            ['{"$numberDouble":"Infinity"}', "2"], [str(2**62 + 1), "1"],
        ]  # fmt: skip
        self.assertEqual(self.count(self.file(dump(*values)), "--by", "v"), wanted)

    def test_values_of_every_other_type(self) -> None:
        """They are printed as by `dump`, in the order of MongoDB; a text is no symbol, and a document no value that it is written as."""
        values = [it for it in OTHERS for _ in range(2)]
        random.Random(2).shuffle(values)
        rows = self.count(self.file(dump(*values, field(0x0A, "w", b""))), "--by", "v")
        order = [0xFF, 0x06, 0x0A, 0x02, 0x0E, 0x03, 0x05, 0x07, 0x08, 0x09, 0x11, 0x0B, 0x0C, 0x0D, 0x0F, 0x7F]
        texts = {it[0]: text for it, text in OTHERS.items()}
        self.assertEqual(rows, [*([texts[kind], "2"] for kind in order), ["missing", "1"]])
        like = field(0x03, "v", document(field(0x02, "$oid", text("00" * 12))))
        self.assertEqual(len(self.count(self.file(dump(like, field(0x07, "v", bytes(12)))), "--by", "v")), 2)
        # Two that differ by the bytes of a NaN alone have one text.
        inside = [field(0x03, "v", document(field(0x01, "a", struct.pack("<Q", 0x7FF8 << 48 | bits)))) for bits in (0, 1)]
        self.assertEqual(self.count(self.file(dump(*inside)), "--by", "v"), [['{"a":{"$numberDouble":"NaN"}}', "2"]])

    def test_paths(self) -> None:
        """Random documents, in which names are positions too, beside a model."""
        rng = random.Random(3)

        def value(depth: int) -> Any:
            kind = rng.choice([0x10, 0x0A, 0x03, 0x04] if depth else [0x10, 0x0A])
            if kind == 0x10:
                number = rng.randrange(3)
                return (kind, int32(number)), {"$numberInt": str(number)}
            if kind == 0x0A:
                return (kind, b""), None
            made = [value(depth - 1) for _ in range(rng.randrange(4))]
            names = rng.sample(["a", "b", "0", "1", "01"], len(made)) if kind == 0x03 else [str(it) for it in range(len(made))]
            data = document(*(field(inner, name, data) for name, ((inner, data), _) in zip(names, made)))
            values = [shown for _, shown in made]
            return (kind, data), dict(zip(names, values)) if kind == 0x03 else values

        documents = [value(4) for _ in range(3000)]
        documents = [(data, shown) for (kind, data), shown in documents if kind == 0x03]
        for path in ("a", "a.b", "a.0", "0", "0.0", "a.a.a", "b.1.0", "a.01", "a.b.0.a", "1.1.1"):
            for data, shown in documents:
                found = Counter(map(self.shown, Path(path).values(data)))
                self.assertEqual(found, Counter(json.dumps(it) for it in model(shown, path.split("."))), (path, shown))

    def shown(self, value: bytes) -> str:
        """A value of those documents in canonical JSON."""
        if value[0] == 0x10:
            return json.dumps({"$numberInt": str(int.from_bytes(value[1:], "little"))})
        if value[0] == 0x0A:
            return "null"
        parts, at = [], 5
        while value[at]:
            zero = value.index(b"\0", at + 1)
            size = {0x10: 4, 0x0A: 0}.get(value[at], int.from_bytes(value[zero + 1 : zero + 5], "little"))
            parts.append((value[at + 1 : zero].decode(), json.loads(self.shown(value[at : at + 1] + value[zero + 1 : zero + 1 + size]))))
            at = zero + 1 + size
        return json.dumps(dict(parts) if value[0] == 0x03 else [it for _, it in parts])

    def test_fields_of_one_name(self) -> None:
        """The first one counts."""
        data = dump(field(0x10, "v", int32(1)) + field(0x10, "v", int32(2)))
        self.assertEqual(self.count(self.file(data), "--by", "v"), [["1", "1"]])

    def test_elements(self) -> None:
        """An array counts once for each different element, and an empty one by itself; an element that is an array is a value."""
        one = (0x10, int32(1))
        data = dump(
            array("v", one, (0x01, double(1.0)), (0x02, text("a"))), array("v", (0x04, document(field(0x10, "0", int32(1)))), one), array("v"),
            field(0x0A, "v", b""), field(0x0A, "w", b""),
        )  # fmt: skip
        wanted = {"1": 2, '"a"': 1, '[{"$numberInt":"1"}]': 1, "[]": 1, "null": 1, "missing": 1}
        self.assertEqual(self.counts(self.file(data), "--by", "v"), Counter(wanted))

    def test_sums_of_the_examples(self) -> None:
        ages = [int(json.loads(line)["age"]["$numberInt"]) for line in PEOPLE_LINES]
        self.assertEqual(self.count(PEOPLE, "--sum", "age"), [["500", str(sum(ages)), "0", "0", "0"]])
        self.assertEqual(self.count(PEOPLE, "--sum", "name"), [["500", "0", "0", "0", "500"]])
        scores = [int(it["$numberInt"]) for line in PEOPLE_LINES for it in json.loads(line).get("scores", [])]
        self.assertEqual(self.count(PEOPLE, "--sum", "scores")[0][1], str(sum(scores)))
        by = Counter()
        for line, age in zip(PEOPLE_LINES, ages):
            (city,) = list(model(json.loads(line), ["address", "city"])) or ["missing"]
            by[city] += age
        rows = self.count(PEOPLE, "--by", "address.city", "--sum", "age")
        self.assertEqual({value.strip('"'): int(total) for value, _, total, *_ in rows}, by)

    def test_exact_sums(self) -> None:
        """Beside fractions: of whole numbers, of these and doubles, and of all with decimals."""
        rng = random.Random(4)
        for number in range(200):
            fields, exact, powers = [], Fraction(0), []
            for _ in range(rng.randrange(1, 30)):
                kind = rng.choice([0x10, 0x12, 0x01, 0x13][: 2 + number % 3])
                if kind in (0x10, 0x12):
                    value = rng.randrange(-(1 << 31), 1 << 31) << (32 if kind == 0x12 else 0)
                    data = int32(value) if kind == 0x10 else int64(value)
                    exact += value
                elif kind == 0x01:
                    value = rng.uniform(-1, 1) * 10.0 ** rng.randint(-300, 300)
                    data = double(value)
                    exact += Fraction(value)
                else:
                    digits, power, sign = rng.randrange(10 ** rng.randint(1, 34)), rng.randint(-40, 40), rng.random() < 0.5
                    data = decimal(digits, power, sign)
                    exact += (-1 if sign else 1) * digits * Fraction(10) ** power
                    powers.append(power)
                fields.append((kind, data))
            total = Sum()
            for kind, data in fields:
                total.add([bytes([kind]) + data])
            found = total.value()
            if powers:
                self.assertEqual(str(found), self.nearest(exact, min(powers)))
            elif any(kind == 0x01 for kind, _ in fields):
                self.assertEqual((type(found), found), (float, exact.numerator / exact.denominator))
            else:
                self.assertEqual((type(found), found), (int, exact))

    def nearest(self, exact: Fraction, power: int) -> str:
        """The decimal of 34 digits that is nearest, of equal ones that with this power of ten, or the one nearest to it."""
        with localcontext() as exactly:
            exactly.prec, exactly.rounding = 34, ROUND_HALF_EVEN
            found = Decimal(exact.numerator) / Decimal(exact.denominator)
            if Fraction(found) == exact and len(str(abs(int(exact / Fraction(10) ** power)))) <= 34:
                return str(found.quantize(Decimal((0, (1,), power))))
            return str(found)

    def test_sums_as_they_are_printed(self) -> None:
        most = 10**34 - 1
        for values, printed, shown in (
            ([field(0x12, "v", int64(2**63 - 1))] * 3, str(3 * (2**63 - 1)), str(3 * (2**63 - 1))),
            ([field(0x10, "v", int32(1)), field(0x01, "v", double(2.0))], "3.0", "3.0"),
            ([field(0x01, "v", double(0.1))] * 10, str(float(10 * Fraction(0.1))), str(float(10 * Fraction(0.1)))),
            ([field(0x01, "v", double(it)) for it in (1e308, 1e308, -1e308, 1.0)], "1e+308", "1e+308"),
            ([field(0x01, "v", double(1.7e308))] * 2, "Infinity", '{"$numberDouble":"Infinity"}'),
            ([field(0x13, "v", decimal(150, -2)), field(0x13, "v", decimal(250, -2))], "4.00", '{"$numberDecimal":"4.00"}'),
            ([field(0x13, "v", decimal(most)), field(0x10, "v", int32(1))], "1.000000000000000000000000000000000E+34", '{"$numberDecimal":"1.000000000000000000000000000000000E+34"}'),
            ([field(0x13, "v", decimal(most)), field(0x13, "v", decimal(5, -1))], "1.000000000000000000000000000000000E+34", None),
            ([field(0x13, "v", decimal(most, 6111))] * 2, "Infinity", '{"$numberDecimal":"Infinity"}'),
            ([field(0x13, "v", decimal(1, -6176, True))], "-1E-6176", '{"$numberDecimal":"-1E-6176"}'),
        ):
            path = self.file(dump(*values))
            self.assertEqual(self.count(path, "--sum", "v"), [[str(len(values)), printed, "0", "0", "0"]])
            if shown:
                self.assertEqual(run_package("count", str(path), "--sum", "v", "--json").stdout, f'{{"count":{len(values)},"sum":{shown},"NaN":0,"infinite":0,"other":0}}\n')

    def test_what_is_no_number(self) -> None:
        values = [
            field(0x01, "v", double(float("nan"))), field(0x13, "v", NAN), field(0x01, "v", double(float("-inf"))), field(0x13, "v", INFINITY),
            *OTHERS, field(0x10, "v", int32(7)), array("v", (0x10, int32(1)), (0x10, int32(1)), (0x0A, b"")), array("v"), field(0x10, "w", int32(9)),
        ]  # fmt: skip
        path = self.file(dump(*values))
        self.assertEqual(self.count(path, "--sum", "v"), [[str(len(values)), "9", "2", "2", str(len(OTHERS) + 2)]])
        self.assertEqual(self.count(path, "--by", "w", "--sum", "v"), [["missing", str(len(values) - 1), "9", "2", "2", str(len(OTHERS) + 2)], ["9", "1", "0", "0", "0", "0"]])

    def test_damaged_documents(self) -> None:
        """They are named, with what audit says of them, and the others count; after a wrong length there are none."""
        good = dump(*(field(0x10, "v", int32(number % 3)) for number in range(6)))
        bad = good[:36] + DAMAGED + good[36:]
        path = self.file(bad)
        told = f'bsonkit: {path}: document 3, byte 43, path "d": bad boolean 02\nbsonkit: {path}: 7 documents, 1 faulty\n'
        self.assertEqual(self.count(path, "--by", "v", status=1, told=told), [["0", "2"], ["1", "2"], ["2", "2"]])
        self.assertEqual(self.count(path, status=1, told=told), [["6"]])
        cut = self.file(good[:-1], "cut.bson")
        told = f'bsonkit: {cut}: document 5, byte 60, path "": bad length\nbsonkit: {cut}: 5 documents and a rest of 11 bytes, 1 faulty\n'
        self.assertEqual(self.count(cut, PEOPLE, status=1, told=told), [["505"]])
        packed = self.file(gzip.compress(good + bytes(1 << 20))[:-9], "cut.bson.gz")
        run = run_package("count", str(packed))
        self.assertEqual((run.returncode, run.stdout), (1, "6\n"))
        self.assertTrue(run.stderr.endswith(f"{packed}: not a sound file of gzip: it ends too soon\n"), run.stderr)
        # More bytes than a document can have follow a wrong length.
        large = self.file(good + b"\xff\xff\xff\x7f" + bytes(40 << 20), "large.bson")
        run = run_package("count", str(large), "--by", "v")
        self.assertEqual((run.returncode, run.stdout), (1, "0\t2\n1\t2\n2\t2\n"))
        self.assertIn(f"{large}: 6 documents and a rest of {4 + (40 << 20)} bytes, 1 faulty\n", run.stderr)

    def test_many_damaged_documents(self) -> None:
        """Ten are named, as by audit; of a pipe too."""
        pipe = self.room / "pipe"
        os.mkfifo(pipe)
        threading.Thread(target=pipe.write_bytes, args=[DAMAGED * 12 + PEOPLE.read_bytes()], daemon=True).start()
        run = run_package("count", str(pipe))
        self.assertEqual((run.returncode, run.stdout), (1, "500\n"))
        lines = [f'bsonkit: {pipe}: document {number}, byte {9 * number + 7}, path "d": bad boolean' for number in range(10)]
        self.assertEqual(run.stderr.splitlines(), [*lines, f"bsonkit: {pipe}: and 2 more", f"bsonkit: {pipe}: 512 documents, 12 faulty"])

    def test_long_documents(self) -> None:
        """A document that is longer than what is read at once is read by itself; one that is too deep is left out."""
        deep = document()
        for _ in range(201):
            deep = document(field(0x03, "v", deep))
        long = document(field(0x02, "t", text("a" * 30_000)), field(0x10, "v", int32(2)))
        short = document(field(0x10, "v", int32(1)))
        path = self.file(short + long + deep + short + long)
        run = self.in_pieces("count", str(path), "--by", "v")
        self.assertEqual((run.returncode, run.stdout), (1, "1\t2\n2\t2\n"))
        self.assertIn(f"bsonkit: {path}: no damage, but not readable: 1 too deep; the first at document 2, byte ", run.stderr)

    def in_pieces(self, *words: str) -> "subprocess.CompletedProcess[str]":
        """A run that reads 10,000 bytes at once, in place of megabytes."""
        code = "from unittest import mock\nimport sys\nfrom bsonfind.__main__ import main\n"
        code += f"with mock.patch('bsonfind._backup.reading._MOST', 10_000): sys.exit(main({['--program', PROGRAM, *words]!r}))"
        return subprocess.run([sys.executable, "-c", code], env=environment(), capture_output=True, text=True)

    def test_many_batches(self) -> None:
        """Counts and places of faults do not depend on how many bytes are read at once."""
        data = b"".join([*(PEOPLE.read_bytes(), DAMAGED) * 5])
        path = self.file(data)
        small = self.in_pieces("count", str(path), "--by", "age")
        large = run_package("count", str(path), "--by", "age")
        self.assertEqual((small.returncode, small.stdout), (1, large.stdout))
        self.assertEqual(small.stderr, large.stderr)
        size = len(PEOPLE.read_bytes())
        self.assertIn(f'document 1001, byte {2 * size + 9 + 7}, path "d": bad boolean 02', large.stderr)

    def test_queries(self) -> None:
        """They choose among documents without a fault, by any number."""
        path = self.file(DAMAGED + PEOPLE.read_bytes())
        old = [line for line in PEOPLE_LINES if int(json.loads(line)["age"]["$numberInt"]) >= 90]
        told = f'bsonkit: {path}: document 0, byte 7, path "d": bad boolean 02\nbsonkit: {path}: 501 documents, 1 faulty\n'
        words = "--query", '{"age":{"$gte":90}}'
        self.assertEqual(self.count(path, *words, status=1, told=told), [[str(len(old))]])
        self.assertEqual(self.counts(PEOPLE, *words, "--by", "age"), counted(old, "age"))
        prices = dump(*(field(0x01, "v", double(it / 4)) + field(0x10, "n", int32(it)) for it in range(20)))
        rows = self.count(self.file(prices, "prices.bson"), "--query", '{"v":{"$gt":4.25}}', "--sum", "n")
        self.assertEqual(rows, [["2", "37", "0", "0", "0"]])
        mixed = self.file(dump(field(0x01, "v", double(4.99)), field(0x13, "v", decimal(2995, -2))), "mixed.bson")
        run = run_package("count", str(mixed), str(PEOPLE), "--query", '{"v":4.99}')
        self.assertEqual((run.returncode, run.stdout), (0, "1\n"), run.stderr)
        run = run_package("count", str(mixed), str(PEOPLE), "--query", '{"v":{"$type":"double"}}')
        self.assertEqual((run.returncode, run.stdout), (0, "1\n"), run.stderr)
        run = run_package("count", str(mixed), str(PEOPLE), "--query", '{"v":{"$type":"double"},"w":{"$type":"decimal"}}')
        self.assertEqual((run.returncode, run.stdout), (2, ""), run.stderr)
        self.assertIn("the types of numbers are not told apart here", run.stderr)
        self.count(PEOPLE, "--query", '{"$a":1}', status=2, told='bsonkit: query: place "$a": unknown operator\n')

    def test_json(self) -> None:
        """A document a line, in which a missing field has no value."""
        data = dump(field(0x10, "v", int32(1)), field(0x02, "v", text('"')), field(0x0A, "w", b""), field(0x0A, "w", b""))
        run = run_package("count", str(self.file(data)), "--by", "v", "--json")
        self.assertEqual([json.loads(line) for line in run.stdout.splitlines()], [{"count": 2}, {"value": 1, "count": 1}, {"value": '"', "count": 1}])
        self.assertEqual(run_package("count", str(PEOPLE), "--json").stdout, '{"count":500}\n')

    def test_terminal(self) -> None:
        """It gets the names of the columns, and after a second a line that is deleted again."""
        slow = self.wide('case "$1" in check) sleep 2;; esac\nexec "$WIDE" "$@"')
        words = "count", str(PEOPLE), "--by", "x", "--sum", "age"
        run, printed = run_on_terminal(*words, program=slow, streams=("stdout", "stderr"))
        self.assertEqual(run.returncode, 0)
        self.assertIn(b"92.7 of 92.7 kB", printed)
        ages = sum(int(json.loads(line)["age"]["$numberInt"]) for line in PEOPLE_LINES)
        rows = f"value\tcount\tsum\tNaN\tinfinite\tother\r\nmissing\t500\t{ages}\t0\t0\t0\r\n"
        self.assertTrue(printed.endswith(b"\r\x1b[K" + rows.encode()), printed)

    def test_files_that_are_not_read(self) -> None:
        """The others are counted; without any there is no zero."""
        missing = self.room / "missing.bson"
        told = f"bsonkit: {missing}: No such file or directory\n"
        self.assertEqual(self.count(missing, PEOPLE, status=2, told=told), [["500"]])
        self.assertEqual(self.count(missing, status=2, told=told), [])
        self.count(self.room, status=2, told=f"bsonkit: {self.room}: it is a directory: name the dumps in it\n")
        self.count("-", "-", status=2, told="bsonkit: standard input is named twice\n")
        inside = self.file(archive([("club", "people", PEOPLE.read_bytes())]), "a.archive")
        self.assertIn("an archive: name one of its collections", run_package("count", str(inside)).stderr)
        self.assertEqual(run_package("count").returncode, 2)

    def test_paths_that_are_refused(self) -> None:
        for path, why in (("", "empty component"), ("a..b", "empty component"), (".".join("a" * 101), "too many components")):
            self.count(PEOPLE, "--by", path, status=2, told=f'bsonkit: path "{path}": {why}\n')
            self.assertRaises(ArgumentError, Path, path)

    def test_limits(self) -> None:
        """More values than are kept, or more bytes of them, are an error that says so."""
        documents = [document(field(0x10, "v", int32(number))) for number in range(11)]
        for name, most in (("MOST_VALUES", 10), ("MOST_BYTES", 50)):
            with mock.patch(f"bsonfind._backup.count.{name}", most):
                count = Count(Path("v"))
                count.take(documents[:10])
                self.assertEqual(len(count.rows(PROGRAM)), 10)
                count.take(documents[:10])
                with self.assertRaisesRegex(TooManyError, "v has more than .* values"):
                    count.take(documents)
        self.assertEqual(Count(Path("w"), Path("v")).rows(PROGRAM), [])
        count = Count(Path("w"))
        count.take(documents)
        self.assertEqual([(row.value, row.documents) for row in count.rows(PROGRAM)], [(MISSING, 11)])

    def test_output_that_no_one_reads(self) -> None:
        self.want_broken_pipe("count", str(PEOPLE), "--by", "_id")
        with open("/dev/full", "wb") as full:
            run = run_package("count", str(PEOPLE), stdout=full)
        self.assertEqual((run.returncode, run.stderr), (2, "bsonkit: cannot write: No space left on device\n"))

    def test_interrupt(self) -> None:
        self.interrupt_command("--program", self.stuck(), "count", str(PEOPLE), "--by", "age")
