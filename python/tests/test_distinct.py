"""Tests of `distinct` and `explain`, as pymongo has them."""

import gzip
import json
import os
import struct
import threading
import unittest
from decimal import Decimal

from bsonfind import ArgumentError, AsyncSession, CommandError, ObjectId, Session, distinct, explain

from .bson import document, field, int32, text
from .support import PEOPLE, PEOPLE_LINES, PROGRAM, Room, packed

# Those of the manual of MongoDB, at db.collection.distinct().
INVENTORY = [
    '{"_id":1,"dept":"A","item":{"sku":"111","color":"red"},"sizes":["S","M"]}',
    '{"_id":2,"dept":"A","item":{"sku":"111","color":"blue"},"sizes":["M","L"]}',
    '{"_id":3,"dept":"B","item":{"sku":"222","color":"blue"},"sizes":"S"}',
    '{"_id":4,"dept":"A","item":{"sku":"333","color":"black"},"sizes":["S"]}',
]
# A key, a filter, and what the manual says; or by the rules of paths that it has elsewhere.
MANUAL = [
    ("dept", None, ["A", "B"]), ("item.sku", None, ["111", "222", "333"]), ("sizes", None, ["S", "M", "L"]),
    ("item.sku", {"dept": "A"}, ["111", "333"]), ("sizes.1", None, ["M", "L"]), ("item", {"_id": 3}, [{"sku": "222", "color": "blue"}]),
    ("none", None, []), ("dept.a", None, []),
]  # fmt: skip


class Distincts(Room, unittest.IsolatedAsyncioTestCase):
    async def test_manual(self) -> None:
        path = self.file(packed(INVENTORY))
        with Session(path, PROGRAM) as session:
            for key, filter, wanted in MANUAL:
                self.assertEqual(session.distinct(key, filter), wanted)
                self.assertEqual(distinct(path, key, filter, program=PROGRAM), wanted)
        async with AsyncSession(path, PROGRAM) as asked:
            for key, filter, wanted in MANUAL:
                self.assertEqual(await asked.distinct(key, filter), wanted)

    def test_values_that_are_equal(self) -> None:
        """Numbers by their values, and no others; an id is no document."""
        double, decimal = struct.pack("<d", 1.0), (10 | 6175 << 113).to_bytes(16, "little")
        path = self.file(b"".join(
            document(it) for it in (
                field(16, "a", int32(1)), field(1, "a", double), field(19, "a", decimal), field(8, "a", b"\1"), field(10, "a", b""),
                field(1, "a", struct.pack("<d", 0.5)), field(7, "a", bytes(12)), field(14, "a", b"\2\0\0\0x\0"), field(2, "a", b"\2\0\0\0x\0"),
                field(3, "a", document(field(16, "b", int32(1)))), field(3, "a", document(field(1, "b", double))),
            )
        ))  # fmt: skip
        found = distinct(path, "a", program=PROGRAM)
        self.assertEqual(found, [1, True, None, 0.5, ObjectId("0" * 24), {"$symbol": "x"}, {"b": 1}])
        self.assertEqual([type(it) for it in found[:2]], [int, bool])
        self.assertEqual(distinct(path, "a", decode="canonical", program=PROGRAM)[0], {"$numberInt": "1"})
        self.assertEqual(distinct(path, "a.$oid", program=PROGRAM), [])
        self.assertEqual(distinct(self.file(document(field(19, "a", decimal))), "a", program=PROGRAM), [Decimal("1.0")])

    def test_what_find_finds(self) -> None:
        """A path leads where a query leads: to the first field of a name, below any name, and to no position with a zero before it."""
        a, b = field(16, "b", int32(5)), field(16, "b", int32(7))
        path = self.file(b"".join(
            document(it) for it in (
                field(16, "twice", int32(1)) + field(16, "twice", int32(2)), field(3, "first", document(a, b)),
                field(3, "code", document(field(16, "$code", int32(1)), a)), field(3, "oid", document(field(2, "$oid", text("f" * 24)), a)),
                field(3, "date", document(field(16, "$date", int32(1)), a)), field(3, "scope", document(field(16, "$scope", int32(1)), a)),
                field(3, "like", document(field(2, "$oid", text("f" * 24)))), field(4, "list", document(*(field(16, str(it), int32(it)) for it in range(3)))),
                field(4, "empty", document()), field(4, "inner", document(field(4, "0", document()), field(4, "1", document(field(16, "0", int32(1)))))),
            )
        ))  # fmt: skip
        many = "1" * 5000
        with Session(path, PROGRAM) as session:
            for key, wanted in (
                ("twice", [1]), ("first.b", [5]), ("code.b", [5]), ("oid.b", [5]), ("date.b", [5]), ("scope.b", [5]), ("like.$oid", ["f" * 24]),
                ("list.1", [1]), ("list.01", []), ("list.00", []), (f"list.{many}", []), ("list", [0, 1, 2]), ("empty", []), ("inner", [[], [1]]),
            ):  # fmt: skip
                with self.subTest(key[:20]):
                    self.assertEqual(distinct(path, key, program=PROGRAM), wanted)
                    self.assertEqual(session.distinct(key), wanted)
                    if not key.startswith("like"):
                        self.assertEqual([session.count_documents({key: it}) for it in wanted], [1] * len(wanted))

    def test_documents_like_values(self) -> None:
        """A document that is written as a number is another value than that number."""
        like = document(field(2, "$numberInt", text("5")))
        path = self.file(document(field(3, "a", like)) + document(field(16, "a", int32(5))))
        self.assertEqual(distinct(path, "a", program=PROGRAM), [{"$numberInt": "5"}, 5])
        self.assertEqual(distinct(path, "a.$numberInt", program=PROGRAM), ["5"])

    def test_values_within_others(self) -> None:
        """They are equal by the values of their numbers too, but only in the order of their fields; code by its scope."""

        def scoped(value: bytes) -> bytes:
            code = text("f()") + document(value)
            return field(15, "a", int32(len(code) + 4) + code)

        one, same = field(16, "b", int32(1)), field(1, "b", struct.pack("<d", 1.0))
        other = field(16, "c", int32(1))
        path = self.file(b"".join(
            document(it) for it in (
                field(3, "a", document(one, other)), field(3, "a", document(same, other)), field(3, "a", document(other, one)),
                field(4, "a", document(field(4, "0", document(one)))), field(4, "a", document(field(4, "0", document(same)))),
                scoped(one), scoped(same), scoped(other),
            )
        ))  # fmt: skip
        scopes = [{"$code": "f()", "$scope": {name: {"$numberInt": "1"}}} for name in "bc"]
        found = distinct(path, "a", decode="canonical", program=PROGRAM)
        one, other = {"$numberInt": "1"}, {"$numberInt": "1"}
        self.assertEqual(found, [{"b": one, "c": other}, {"b": one, "c": other}, [one], *scopes])
        self.assertEqual([list(it) for it in found[:2]], [["b", "c"], ["c", "b"]])

    def test_packed_dumps_and_pipes(self) -> None:
        packed, pipe = self.file(gzip.compress(PEOPLE.read_bytes()), "people.bson.gz"), self.room / "pipe"
        os.mkfifo(pipe)
        wanted = distinct(PEOPLE, "address.city", program=PROGRAM)
        self.assertEqual(wanted, [*dict.fromkeys(json.loads(it)["address"]["city"] for it in PEOPLE_LINES if b'"city"' in it)])
        with Session(packed, PROGRAM) as session:
            self.assertEqual(session.distinct("address.city"), wanted)
        threading.Thread(target=pipe.write_bytes, args=[PEOPLE.read_bytes()]).start()
        self.assertEqual(distinct(pipe, "address.city", program=PROGRAM), wanted)

    def test_refusals(self) -> None:
        for key in ("", None, 7, ["a"], "a..b", "a\0b", "\ud800", ".".join("a" * 101)):
            with self.assertRaises(ArgumentError):
                distinct(PEOPLE, key, program=PROGRAM)  # type: ignore[arg-type]
        with self.assertRaises(ArgumentError):
            distinct(PEOPLE, "a", decode="bytes", program=PROGRAM)  # type: ignore[arg-type]
        with self.assertRaises(CommandError):
            distinct(PEOPLE, "a", {"a": {"$above": 1}}, program=PROGRAM)

    def test_explain(self) -> None:
        plan = explain(PEOPLE, {"age": {"$gte": 90}}, program=PROGRAM)
        self.assertEqual((plan["plan"], plan["documents"], plan["matches"]), ("scan", len(PEOPLE_LINES), 49))
        plan = explain(PEOPLE, {"age": {"$gte": 90}}, sort={"age": 1}, index="age", program=PROGRAM)
        self.assertEqual((plan["plan"], plan["index"]), ("index", "age"))
