"""Tests of documents for other libraries: rows of a table, and what pymongo makes. Those over pandas and pymongo are tests/package/frames.py."""

import asyncio
import sys
import types
from datetime import datetime, timezone
from decimal import Decimal
from typing import Any, Dict, List
from unittest import mock
from uuid import UUID

from bsonfind import ArgumentError, AsyncSession, ObjectId, Session, find, find_one, find_parts, plan, to_dicts, to_pandas

from .bson import decimal, document, double, field, int32, int64, text
from .support import PEOPLE, PROGRAM, Room

UUID_BYTES = bytes.fromhex("00112233445566778899aabbccddeeff")
# Documents with doubles, so that a session asks a copy.
PRICES = [document(field(16, "_id", int32(it)), field(1, "price", double(it / 2))) for it in range(3)]


class Rows(Room):
    def test_values(self) -> None:
        """A path for each field; what other libraries have no type for becomes a text."""
        data = document(
            field(7, "_id", bytes(range(12))),
            field(3, "a", document(field(3, "b", document(field(16, "c", int32(1)))), field(3, "none", document()))),
            field(4, "list", document(field(7, "0", bytes(12)), field(3, "1", document(field(5, "u", int32(16) + b"\4" + UUID_BYTES))))),
            field(5, "bytes", int32(2) + b"\0ab"),
            field(5, "uuid", int32(16) + b"\4" + UUID_BYTES),
            field(9, "date", int64(1_735_689_600_123)),
            field(9, "far", int64(253_402_300_800_000)),
            field(17, "time", b"\2\0\0\0\1\0\0\0"),
            field(18, "long", int64(1 << 62)),
            field(19, "cost", decimal(2950, -2)),
            field(10, "null", b""),
            field(2, "text", text("é")),
        )
        wanted = {
            "_id": "000102030405060708090a0b",
            "a.b.c": 1,
            "a.none": {},
            "list": ["000000000000000000000000", {"u": "00112233-4455-6677-8899-aabbccddeeff"}],
            "bytes": b"ab",
            "uuid": "00112233-4455-6677-8899-aabbccddeeff",
            "date": datetime(2025, 1, 1, 0, 0, 0, 123_000, tzinfo=timezone.utc),
            "far": '{"$date": {"$numberLong": "253402300800000"}}',
            "time": '{"$timestamp": {"t": 1, "i": 2}}',
            "long": 1 << 62,
            "cost": Decimal("29.50"),
            "null": None,
            "text": "é",
        }
        (row,) = to_dicts(find(self.file(data), program=PROGRAM))
        self.assertEqual(row, wanted)
        self.assertEqual(list(row), list(wanted))

    def test_rows_of_answers(self) -> None:
        """Of an answer, of a cursor, of parts and of one document they are the same."""
        first = {"_id": 260, "name": "Ольга", "age": 98, "address.city": "Nairobi", "address.lines": ['165 Main St "B"']}
        asked: Dict[str, Any] = {"address.city": "Nairobi", "age": {"$gte": 98}}
        with Session(PEOPLE, PROGRAM) as session:
            for documents in (
                find(PEOPLE, asked, program=PROGRAM),
                session.find(asked),
                find_parts(plan(PEOPLE, 20_000), asked, program=PROGRAM),
                [find_one(PEOPLE, asked, program=PROGRAM) or {}],
            ):
                (row,) = to_dicts(documents)
                self.assertEqual({name: row[name] for name in first}, first)
        self.assertEqual(to_dicts([]), [])
        self.assertEqual(to_dicts([{}]), [{}])

    def test_two_fields_of_one_path(self) -> None:
        for twice in ({"a.b": 1, "a": {"b": 2}}, {"a": {"b": 1}, "a.b": None}):
            with self.assertRaisesRegex(ArgumentError, '"a.b"'):
                to_dicts([{"a.b": 1}, twice])

    def test_without_pandas(self) -> None:
        with mock.patch.dict(sys.modules, {"pandas": None}), self.assertRaisesRegex(ArgumentError, "needs pandas"):
            to_pandas([])


class Pymongo(Room):
    """A module in place of that of pymongo, which gives what it is called with."""

    def setUp(self) -> None:
        super().setUp()
        bson = types.ModuleType("bson")
        bson.decode = lambda data, options: {"data": data, "options": options}  # type: ignore[attr-defined]
        bson.binary = types.SimpleNamespace(STANDARD=4, PYTHON_LEGACY=3, JAVA_LEGACY=5, CSHARP_LEGACY=6)  # type: ignore[attr-defined]
        bson.codec_options = types.SimpleNamespace(CodecOptions=lambda uuid_representation: uuid_representation)  # type: ignore[attr-defined]
        patch = mock.patch.dict(sys.modules, {"bson": bson})
        patch.start()
        self.addCleanup(patch.stop)

    def test_documents(self) -> None:
        """It gets the bytes of the documents, in the order of the answer, from each call; and bytes are given by themselves."""
        for path, sort in ((self.file(b"".join(PRICES)), [("price", -1)]), (self.file(PEOPLE.read_bytes(), "people.bson"), [("_id", -1)])):
            data, documents, at = path.read_bytes(), [], 0
            while at < len(data):
                length = int.from_bytes(data[at : at + 4], "little")
                documents.append(data[at : at + length])
                at += length
            wanted = [{"data": it, "options": 4} for it in reversed(documents)]

            async def ask() -> List[Any]:
                async with AsyncSession(path, PROGRAM) as session:
                    return [it async for it in session.find(sort=sort, decode="pymongo")]

            with Session(path, PROGRAM) as session:
                for found in (
                    list(find(path, sort=sort, decode="pymongo", program=PROGRAM)),
                    find_parts(plan(path, 20_000), sort=sort, decode="pymongo", program=PROGRAM),
                    list(session.find(sort=sort, decode="pymongo")),
                    asyncio.run(ask()),
                ):
                    self.assertEqual(found, wanted)
                self.assertEqual(session.find_one(sort=sort, decode="pymongo"), wanted[0])
            self.assertEqual(find_one(path, sort=sort, decode="pymongo", program=PROGRAM), wanted[0])
            self.assertEqual(find_parts(plan(path, 20_000), sort=sort, decode="bson", program=PROGRAM), documents[::-1])

    def test_uuids(self) -> None:
        data = self.file(document(field(5, "u", int32(16) + b"\3" + UUID_BYTES[7::-1] + UUID_BYTES[:7:-1])))
        for name, number in {"standard": 4, "pythonLegacy": 3, "javaLegacy": 5, "csharpLegacy": 6}.items():
            how: Dict[str, Any] = {"uuid_representation": name, "program": PROGRAM}
            self.assertEqual((find_one(data, decode="pymongo", **how) or {})["options"], number)
            with Session(data, **how) as session:
                self.assertEqual((session.find_one(decode="pymongo") or {})["options"], number)
        found = list(find(data, {"u": UUID(bytes=UUID_BYTES)}, decode="pymongo", uuid_representation="javaLegacy", program=PROGRAM))
        self.assertEqual(len(found), 1)

    def test_without_pymongo(self) -> None:
        """It is refused at once, also beside another package of that name."""
        for module in (None, types.ModuleType("bson")):
            with mock.patch.dict(sys.modules, {"bson": module}):
                for ask in (find, find_one):
                    with self.assertRaisesRegex(ArgumentError, "needs pymongo"):
                        ask(PEOPLE, decode="pymongo", program=PROGRAM)
                with self.assertRaisesRegex(ArgumentError, "needs pymongo"):
                    find_parts([], decode="pymongo", program=PROGRAM)

    def test_ids_of_filters(self) -> None:
        self.assertEqual(find_one(self.file(PRICES[0]), {"_id": ObjectId("0" * 24)}, decode="pymongo", program=PROGRAM), None)


if __name__ == "__main__":
    import unittest

    unittest.main()
