"""Tests of the command `schema`."""

import gzip
import json
import random
import struct
import subprocess
from collections import Counter
from typing import Any, Dict, Iterator, List, Tuple
from unittest import mock

from bsonfind._backup.cells import NAMES
from bsonfind._backup.count import TooManyError
from bsonfind._backup.schema import Schema

from .archives import archive
from .bson import decimal, document, double, field, int32, int64, text
from .support import COMMAND, DAMAGED, PEOPLE, PEOPLE_LINES, SHOP, SHOP_LINES, Room, environment, run_package
from .test_count import NAN, OTHERS, array, dump

# The type of a value of canonical JSON, by the name of its wrapper.
WRAPPED = {
    "$numberInt": "int", "$numberLong": "long", "$oid": "objectId", "$date": "date", "$timestamp": "timestamp", "$binary": "binData",
    "$undefined": "undefined", "$minKey": "minKey", "$maxKey": "maxKey", "$symbol": "symbol", "$code": "javascript",
    "$regularExpression": "regex", "$dbPointer": "dbPointer",
}  # fmt: skip


def kind_of(value: Any) -> str:
    """The type of a value of canonical JSON."""
    if isinstance(value, dict):
        name = next(iter(value), "")
        return "javascriptWithScope" if "$scope" in value else WRAPPED.get(name, "object")
    return {str: "string", list: "array", bool: "bool", type(None): "null"}[type(value)]


def walk(path: str, value: Any) -> Iterator[Tuple[str, str]]:
    """The path and the type of a value, and of those in it."""
    kind = kind_of(value)
    yield path, kind
    if kind == "object":
        for name, inner in value.items():
            yield from walk(f"{path}.{name}", inner)
    elif kind == "array":
        for inner in value:
            yield from walk(f"{path}[]", inner)


def types_of(lines: List[bytes]) -> Dict[str, "Counter[str]"]:
    """The types at each path of documents, by their lines; those that lack the field count too."""
    found: Dict[str, "Counter[str]"] = {}
    for line in lines:
        for name, inner in json.loads(line).items():
            for path, kind in walk(name, inner):
                found.setdefault(path, Counter())[kind] += 1
    for path, kinds in found.items():
        above = path.rpartition(".")[0]
        if not path.endswith("[]"):
            kinds["missing"] = (found[above]["object"] if above else len(lines)) - sum(kinds.values())
    return {path: +kinds for path, kinds in found.items()}


class Schemas(Room):
    def schema(self, *words: object, status: int = 0, told: str = "") -> Dict[str, List[str]]:
        """The cells after each path that is printed."""
        run = run_package("schema", *map(str, words))
        self.assertEqual((run.returncode, run.stderr), (status, told))
        return {line.split("\t")[0]: line.split("\t")[1:] for line in run.stdout.splitlines()}

    def lines(self, *words: object) -> List[Dict[str, Any]]:
        """The lines of JSON that are printed."""
        run = run_package("schema", *map(str, words), "--json")
        self.assertEqual(run.returncode, 0, run.stderr)
        return [json.loads(line) for line in run.stdout.splitlines()]

    def test_types_of_the_examples(self) -> None:
        """Of any dump, beside a walk over its lines."""
        packed = self.file(gzip.compress(SHOP.read_bytes()), "shop.bson.gz")
        inside = self.file(archive([("club", "people", PEOPLE.read_bytes())]), "a.archive")
        for names, lines in (
            ([PEOPLE], PEOPLE_LINES), ([packed], SHOP_LINES), ([f"{inside}::club.people", packed], PEOPLE_LINES + SHOP_LINES),
        ):  # fmt: skip
            found = self.lines(*names)
            self.assertEqual({it["path"]: it["types"] for it in found}, types_of(lines))
            for it in found:
                self.assertEqual(list(it["types"].values()), sorted(it["types"].values(), reverse=True))
        ages = [int(json.loads(line)["age"]["$numberInt"]) for line in PEOPLE_LINES]
        age = self.schema(PEOPLE, told="500 documents\n")["age"]
        self.assertEqual(age, ["int 100%", str(min(ages)), str(max(ages)), str(ages[0])])

    def test_columns(self) -> None:
        """Shares, of which only all are 100% and none is 0%; paths of arrays in arrays; a least and a greatest of several types."""
        values = [
            *[field(0x10, "v", int32(number)) for number in range(-5, 19990)], field(0x02, "v", text("é")), field(0x02, "v", text("b")),
            field(0x0A, "v", b""), field(0x08, "v", b"\1"), field(0x01, "v", double(0.5)), array("a", (0x04, document(field(0x10, "0", int32(7))))),
        ]  # fmt: skip
        rows = self.schema(self.file(dump(*values)), told="20001 documents\n")
        shares = "int >99.9%, string <0.1%, null <0.1%, bool <0.1%, double <0.1%, missing <0.1%"
        self.assertEqual(rows["v"], [shares, "-5", "true", "-5"])
        self.assertEqual(rows["a"], ["missing >99.9%, array <0.1%", "", "", ""])
        self.assertEqual((rows["a[]"], rows["a[][]"]), (["array 100%", "", "", ""], ["int 100%", "7", "7", "7"]))

    def test_empty_arrays(self) -> None:
        """They have no elements, of which there is no row."""
        rows = self.schema(self.file(dump(array("v"), field(0x03, "w", document()))), told="2 documents\n")
        self.assertEqual(rows, {"v": ["array 50%, missing 50%", "", "", ""], "w": ["object 50%, missing 50%", "", "", ""]})

    def test_least_and_greatest_of_numbers(self) -> None:
        """Of all types by their values. NaN is neither, and infinity is both."""
        values = [
            field(0x01, "v", double(float("nan"))), field(0x12, "v", int64(-(2**62) - 1)), field(0x01, "v", double(-(2.0**62))),
            field(0x13, "v", decimal(2**62 * 10 + 1, -1)), field(0x01, "v", double(2.0**62)), field(0x13, "v", NAN),
        ]  # fmt: skip
        for _ in range(3):
            random.Random(5).shuffle(values)
            (row,) = self.lines(self.file(dump(*values)))
            self.assertEqual((row["least"], row["greatest"]), (-(2**62) - 1, {"$numberDecimal": "4611686018427387904.1"}))
        (row,) = self.lines(self.file(dump(field(0x01, "v", double(float("-inf"))), field(0x01, "v", double(float("nan"))))))
        self.assertEqual((row["least"], row["greatest"]), ({"$numberDouble": "-Infinity"},) * 2)
        (row,) = self.lines(self.file(dump(field(0x01, "v", double(float("nan"))))))
        self.assertEqual(row, {"path": "v", "types": {"double": 1}, "example": {"$numberDouble": "NaN"}})

    def test_values_of_every_type(self) -> None:
        for it, printed in OTHERS.items():
            rows = self.lines(self.file(dump(it, it)))
            self.assertEqual(rows[0]["types"], {NAMES[it[0]]: 2})
            has_order = it[0] in (0x02, 0x07, 0x08, 0x09, 0x0D, 0x0E, 0x11)
            alike = it[0] in (0x03, 0x06, 0x0A, 0x7F, 0xFF)
            for name in ("least", "greatest", "example"):
                is_there = has_order or (name == "example" and not alike)
                self.assertEqual(rows[0].get(name), json.loads(printed) if is_there else None, (name, printed))
        dates = dump(*(field(0x09, "v", int64(it)) for it in (5, -7, 300)), *(field(0x11, "w", struct.pack("<II", 1, it)) for it in (256, 2, 70000)))
        found = {it["path"]: (it["least"], it["greatest"]) for it in self.lines(self.file(dates))}
        stamps = [{"$timestamp": {"t": it, "i": 1}} for it in (2, 70000)]
        self.assertEqual(found, {"v": ({"$date": {"$numberLong": "-7"}}, {"$date": {"$numberLong": "300"}}), "w": tuple(stamps)})

    def test_long_values(self) -> None:
        """A text with more than 60 characters ends with three dots, whatever bytes these take; a long value of another type is left out."""
        texts = ["é" * 60, "é" * 61, "f" + "東" * 5000, "ë" * 127 + "a" + "b" * 200]
        rows = self.lines(self.file(dump(*(field(0x02, str(at), text(it)) for at, it in enumerate(texts)), field(0x05, "b", b"\x41\0\0\0\0" + bytes(65)))))
        self.assertEqual([it.get("least") for it in rows], ["é" * 60, "é" * 60 + "…", "f" + "東" * 59 + "…", "ë" * 60 + "…", None])
        self.assertEqual([it.get("example") for it in rows], [it.get("least") for it in rows])

    def test_many_names(self) -> None:
        """Above 1,000 below one path they are one row, with what is below them; the others stay."""
        inner = [field(0x10, "n", int32(1)), field(0x02, "n", text("a")), field(0x10, "m", int32(2))]
        names = [f"n{number}" for number in range(1001)]
        full = document(*(field(0x03, name, document(inner[at % 3])) for at, name in enumerate(names)))
        rows = self.lines(self.file(dump(field(0x03, "a", full) + field(0x10, "b", int32(5))) * 2))
        self.assertEqual({it["path"]: it["types"] for it in rows}, {
            "a": {"object": 2}, "a.*": {"object": 2002}, "a.*.n": {"int": 668, "string": 668, "missing": 666},
            "a.*.m": {"missing": 1336, "int": 666}, "b": {"int": 2},
        })  # fmt: skip
        rows = self.lines(self.file(dump(*(field(0x10, f"n{number}", int32(number)) for number in range(1000)))))
        self.assertEqual([it["path"] for it in rows], names[:1000])
        rows = self.lines(self.file(dump(*(field(0x10, f"n{number}", int32(number)) for number in range(3000)))))
        self.assertEqual(rows, [{"path": "*", "types": {"int": 3000}, "least": 0, "greatest": 2999, "example": 0}])

    def test_many_names_inside_many(self) -> None:
        """What is below names that become one is counted as if they had been one from the beginning."""
        rng = random.Random(6)
        documents, wanted = [], Counter()
        for _ in range(300):
            parts = []
            for name in rng.sample(range(40), 5):
                deep = [(f"k{key}", rng.choice([(0x10, int32(1)), (0x0A, b""), (0x08, b"\1")])) for key in rng.sample(range(60), 3)]
                parts.append(field(0x03, f"n{name}", document(*(field(kind, key, data) for key, (kind, data) in deep))))
                wanted.update(NAMES[kind] for _, (kind, _) in deep)
            documents.append(document(*parts))
        with mock.patch("bsonfind._backup.schema.MOST_NAMES", 30):
            schema = Schema()
            for at in range(0, 300, 7):
                schema.take(documents[at : at + 7])
            rows = {row.path: row.types for row in schema.rows()}
        self.assertEqual(rows, {"*": {"object": 1500}, "*.*": dict(wanted.most_common())})

    def test_limit_of_paths(self) -> None:
        documents = [document(field(0x03, f"n{number}", document(field(0x10, "a", int32(1))))) for number in range(60)]
        with mock.patch("bsonfind._backup.schema.MOST_PATHS", 100):
            Schema().take(documents[:50])
            with self.assertRaisesRegex(TooManyError, "more than 100 paths: --sample N"):
                Schema().take(documents)

    def test_sample(self) -> None:
        """It is of as many documents, the same each time, from all parts of a dump."""
        rows = self.lines(PEOPLE, "--sample", "50")
        self.assertEqual(sum(rows[0]["types"].values()), 50)
        self.assertEqual(rows, self.lines(PEOPLE, "--sample", "50"))
        self.assertLess(rows[0]["least"], 100)
        self.assertGreater(rows[0]["greatest"], 400)
        self.schema(PEOPLE, "--sample", "50", told="50 of 500 documents\n")
        self.assertEqual(self.lines(PEOPLE, "--sample", "500")[0]["types"], {"int": 500})
        self.assertEqual(self.lines(PEOPLE, "--sample", "501")[0]["types"], {"int": 500})
        self.assertEqual(run_package("schema", str(PEOPLE), "--sample", "0").returncode, 2)
        counts = Counter()
        for seed in range(200):
            schema = Schema(10)
            schema._random = random.Random(seed).random
            schema.take([bytes([number]) for number in range(60)])
            counts.update(it[0] for it in schema._sample)
        # Each of 60 is expected 33 times.
        self.assertEqual((len(counts), sum(counts.values())), (60, 2000))
        self.assertLess(max(counts.values()), 60)

    def test_damaged_documents(self) -> None:
        good = dump(*(field(0x10, "v", int32(number)) for number in range(5)))
        path = self.file(good + DAMAGED + good)
        told = f'bsonkit: {path}: document 5, byte 67, path "d": bad boolean 02\nbsonkit: {path}: 11 documents, 1 faulty\n10 documents\n'
        self.assertEqual(self.schema(path, status=1, told=told), {"v": ["int 100%", "0", "4", "0"]})
        missing = self.room / "missing.bson"
        self.assertEqual(self.schema(missing, status=2, told=f"bsonkit: {missing}: No such file or directory\n"), {})

    def test_names(self) -> None:
        """A tab or the end of a line in a name does not break a row; as JSON names are as they are."""
        path = self.file(dump(field(0x03, "a\tb", document(field(0x10, "c\n", int32(1)), field(0x10, "", int32(1))))))
        self.assertEqual(list(self.schema(path, told="1 documents\n")), ["a\\x09b", "a\\x09b.c\\x0a", "a\\x09b."])
        self.assertEqual([it["path"] for it in self.lines(path)], ["a\tb", "a\tb.c\n", "a\tb."])
        path = self.file(dump(field(0x10, "Größe 東", int32(1))))
        env = {**environment(), "LC_ALL": "C", "PYTHONUTF8": "0"}
        command = [*COMMAND, "schema", str(path), "--json"]
        run = subprocess.run(command, env=env, capture_output=True)
        self.assertEqual(run.stdout.decode(), '{"path":"Größe 東","types":{"int":1},"least":1,"greatest":1,"example":1}\n')

    def test_names_that_look_like_paths(self) -> None:
        """Each field has its own path: such a name is in quotation marks."""
        names = ["a.b", "a[]", "a", "*", 'q"', "b"]
        path = self.file(document(*(field(0x03, name, document(field(0x04, "b", document(field(0x10, "0", int32(1)))))) for name in names)))
        wanted = [it for name in ('"a.b"', '"a[]"', "a", '"*"', '"q\\""', "b") for it in (name, f"{name}.b", f"{name}.b[]")]
        self.assertEqual(list(self.schema(path, told="1 documents\n")), wanted)
        self.assertEqual([it["path"] for it in self.lines(path)], wanted)

    def test_names_that_are_there_twice(self) -> None:
        """The first field of a name is that of a query, so it alone is counted: a field that a document lacks is not in all."""
        twice = document(field(0x10, "a", int32(1)), field(0x03, "a", document(field(0x10, "b", int32(1)))), field(0x02, "a", text("x")))
        inside = document(field(0x03, "d", document(field(0x10, "b", int32(3)), field(0x10, "b", int32(4)))))
        path = self.file(twice + document(field(0x10, "_id", int32(1))) + inside)
        self.assertEqual(self.schema(path, told="3 documents\n"), {
            "a": ["missing 66.7%, int 33.3%", "1", "1", "1"], "_id": ["missing 66.7%, int 33.3%", "1", "1", "1"],
            "d": ["missing 66.7%, object 33.3%", "", "", ""], "d.b": ["int 100%", "3", "3", "3"],
        })  # fmt: skip
        for query, count in (('{"a":1}', "1\n"), ('{"a":"x"}', "0\n"), ('{"d.b":4}', "0\n")):
            self.assertEqual(run_package("count", str(path), "--query", query).stdout, count)

    def test_output_that_no_one_reads(self) -> None:
        self.want_broken_pipe("schema", str(PEOPLE))

    def test_interrupt(self) -> None:
        self.interrupt_command("--program", self.stuck(), "schema", str(PEOPLE))
