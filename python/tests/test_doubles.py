"""Tests of sessions over dumps with doubles and decimal128, and of commands with them over other dumps."""

import asyncio
import gzip
import json
import os
import threading
import unittest
from decimal import Decimal
from typing import List
from unittest import mock

from bsonfind import (
    AsyncCursor,
    AsyncSession,
    BsonfindError,
    CommandError,
    DumpError,
    Session,
    SessionEndedError,
    find,
)
from bsonfind._ask import readings as _readings

from .bson import field, int32, int64
from .goods import FIRST, GOODS, MIXED, QUESTIONS, decimal, document, double, whole
from .support import DAMAGED, PEOPLE, PEOPLE_LINES, PROGRAM, Room

NAN = {"$numberDouble": "NaN"}
FOREIGN = "token of another dump or request"
# The package printed these after the first document, when it asked copies of the dump: by a session, and by `find --bson`.
OLD_TOKENS = ("AQEAAAAAAAAAAwAAADWcRTQMxZZ0xTcC+UFN7Nm9OZIUMY6AH11RX8VzJU/o", "AQEAAAAAAAAAAwAAAILHTDn6TY5sn0nHRplHo8x0BEMz69XCpAjqBpBLaY+/")


class Goods(Room):
    def setUp(self) -> None:
        super().setUp()
        self.path = self.file(b"".join(GOODS))


class Finds(Goods):
    def test_queries_and_sorts(self) -> None:
        """By a scan and by an index."""
        with Session(self.path, PROGRAM) as session:
            session.create_index("price")
            for filter, sort, wanted in QUESTIONS:
                for hint in (None, {"$natural": 1}, "price"):
                    found = session.find(filter, sort=sort, hint=hint, decode="bson", batch_size=2)
                    self.assertEqual([GOODS.index(it) for it in found], wanted, (filter, hint))
                self.assertEqual(session.count_documents(filter), len(wanted))
            self.assertEqual(session.explain({"price": {"$gt": 9.25}})["plan"], "index")
            session.drop_index("price")
            self.assertEqual(session.explain({"price": {"$gt": 9.25}})["plan"], "scan")

    def test_doubles_beside_decimals(self) -> None:
        """In one field: the double 0.3 is a bit less than the decimal128."""
        cases = (
            ({}, {"price": 1}, [1, 3, 0, 5, 2, 4]),
            ({"price": {"$lt": Decimal("0.3")}}, None, [1, 3]),
            ({"price": {"$lte": 0.3}}, {"price": -1}, [3, 1]),
            ({"price": Decimal("0.3")}, None, [0]),
            ({"price": 0.3}, None, [3]),
            ({"price": {"$in": [0.1, Decimal("0.1"), Decimal("4.30")]}}, None, [1, 4]),
            ({"weight": {"$lt": 1.5}, "price": {"$exists": True}}, [("_id", -1)], [2, 1, 0]),
            ({"list.y": {"$gt": 2.5}}, {"_id": -1}, [5, 4, 3]),
            ({"price": {"x": 1}}, None, []),
        )
        with Session(self.file(b"".join(MIXED), "mixed.bson"), PROGRAM) as session:
            session.create_index("price")
            for filter, sort, wanted in cases:
                for hint in ({"$natural": 1}, "price"):
                    found = session.find(filter, sort=sort, hint=hint, decode="bson", batch_size=2)
                    self.assertEqual([MIXED.index(it) for it in found], wanted, filter)

    def test_numbers_of_other_types(self) -> None:
        """Each pair is compared exactly, also where no type holds both."""
        for number, filter, count in (
            (double("m", 0.1), {"m": {"$gt": Decimal("0.1")}}, 1),
            (double("m", 0.1), {"m": {"$lte": Decimal("0.1")}}, 0),
            (b"\x12m\0" + b"\xff" * 7 + b"\x7f", {"m": {"$lt": 2.0**63}}, 1),
            (b"\x12m\0" + b"\xff" * 7 + b"\x7f", {"m": 2.0**63}, 0),
            (decimal("m", 1, -1), {"m": {"$lt": 0.1}}, 1),
            (decimal("m", 1, -6176), {"m": {"$gt": 0}}, 1),
            (whole("m", 1), {"m": Decimal("1.0")}, 1),
            (whole("m", 1), {"m": {"$lt": Decimal("1E-6000")}}, 0),
        ):
            with Session(self.file(document(number), "one.bson"), PROGRAM) as session:
                self.assertEqual(session.count_documents(filter), count, filter)

    def test_forms_of_documents(self) -> None:
        plain = {"_id": 0, "price": 9.5, "cost": Decimal("19.99")}
        with Session(self.path, PROGRAM) as session:
            for decode, wanted in (("canonical", json.loads(FIRST)), ("plain", plain), ("bytes", FIRST.encode()), ("bson", GOODS[0]), (len, len(FIRST))):
                self.assertEqual(session.find_one({"price": 9.5}, decode=decode), wanted)

    def test_tokens(self) -> None:
        """They are those of `find`, whatever the session was asked before."""
        filter, sort = {"price": {"$gte": 9}, "_id": {"$lt": 99.5}}, [("price", -1)]
        for path, is_wide in ((self.path, True), (self.file(b"".join(document(whole("_id", it), whole("price", price)) for it, price in enumerate((9, 8, 11, 12))), "plain.bson"), False)):
            wanted = [3, 2, 0, 1] if is_wide else [3, 2, 0]
            with Session(path, PROGRAM) as session:
                cursor = session.find(filter, sort=sort, batch_size=1)
                tokens = [(it["_id"], cursor.token) for it in cursor]
                self.assertEqual([number for number, _ in tokens], wanted)
                self.assertEqual(session.count_documents({"cost": 1.5, "none": 2.5}), 0)
                for at, (_, token) in enumerate(tokens, 1):
                    rest = session.find(filter, sort=sort, after=token)
                    self.assertEqual([it["_id"] for it in rest], wanted[at:])
                    self.assertEqual(rest.token, tokens[-1][1])
                    again = find(path, filter, sort=sort, after=token, program=PROGRAM)
                    self.assertEqual([it["_id"] for it in again], wanted[at:])
                answer = find(path, filter, sort=sort, page=1, program=PROGRAM)
                self.assertEqual(([it["_id"] for it in answer], answer.token), ([3], tokens[0][1]))
                with self.assertRaisesRegex(CommandError, FOREIGN):
                    session.find({"price": {"$gte": 9}}, after=tokens[0][1])
                for token in OLD_TOKENS:
                    for ask in (session.find, lambda *words, **how: list(find(path, *words, **how, program=PROGRAM))):
                        with self.assertRaisesRegex(CommandError, FOREIGN):
                            ask(filter, sort=sort, after=token)

    def test_compressed_dumps_and_pipes(self) -> None:
        """Also by a second run, which reads what came by a pipe again."""
        plain = b"".join(document(whole("_id", it)) for it in range(5))
        for data, filter, wanted in ((b"".join(GOODS), {"cost": Decimal("19.99")}, GOODS[0]), (plain, {"_id": {"$gt": 3.5}}, plain[-len(plain) // 5 :])):
            pipe = self.room / "pipe"
            os.mkfifo(pipe)
            for path in (self.file(gzip.compress(data), "dump.bson.gz"), pipe):
                if path is pipe:
                    threading.Thread(target=pipe.write_bytes, args=[data], daemon=True).start()
                with Session(path, PROGRAM) as session:
                    for _ in range(2):
                        self.assertEqual(session.find_one(filter, decode="bson"), wanted)
                    self.assertEqual(session.count_documents(), 6 if data is not plain else 5)
            pipe.unlink()

    def test_runs(self) -> None:
        """A second one is started for the first command that needs it, of a dump without doubles; an index is in both."""
        with Session(PEOPLE, self.counting()) as session:
            session.create_index("age")
            self.assertEqual(session.count_documents({"age": {"$gte": 99}}), 5)
            with self.assertRaises(CommandError):
                session.count_documents({"age": {"$date": {"$numberLong": "x"}}})
            self.assertEqual([it.split()[:2] for it in self.starts()], [["bsonwide", "serve"]])
            self.assertEqual(session.count_documents({"age": {"$gte": 98.5}}), 5)
            self.assertEqual(session.count_documents({"age": {"$lt": Decimal("98.5")}}), 495)
            self.assertEqual([it.split()[3:] for it in self.starts()], [[], ["--byValue"]])
            session.drop_index("age")
            session.create_index("name")
            for age in (99, 98.5):
                self.assertEqual(session.explain({"name": "x", "age": age})["index"], "name")
                with self.assertRaisesRegex(CommandError, "no such index"):
                    session.find({"age": age}, hint="age")
        self.file(b"", "starts")
        with Session(self.path, self.counting()) as session:
            self.assertEqual(session.count_documents({"price": {"$gte": 9.5}}), 3)
            self.assertEqual(session.count_documents({"price": {"$gte": 9}}), 4)
            self.assertEqual(len(self.starts()), 1)

    def test_second_run_that_fails(self) -> None:
        """Its error is raised; commands that do not need it are answered."""
        for end, text in (("kill -9 $$", "ended by signal 9"), ("echo bsonwide: no memory >&2\nexit 1", "no memory"), ("exit 1", "ended with status 1")):
            with Session(PEOPLE, self.wide(f'if [ "$3" = --byValue ]; then {end}; fi\nexec "$WIDE" "$@"')) as session:
                for _ in range(2):
                    with self.assertRaisesRegex(BsonfindError, text):
                        session.count_documents({"age": 98.5})
                self.assertEqual(session.count_documents({"age": 99}), 5)

    def test_dates_and_uuids_as_text(self) -> None:
        """A session takes them where `find` does, also over a dump without doubles, within others and by an index."""
        moments = [0, 1_735_689_600_000, 1_735_689_600_001, 1_790_839_800_500]
        data = [
            document(field(0x10, "_id", int32(number)), field(0x09, "placed", int64(moment)), field(0x05, "u", int32(16) + b"\4" + bytes([number]) * 16))
            for number, moment in enumerate(moments)
        ]
        path = self.file(b"".join(data), "dates.bson")
        one = {"$uuid": "01010101-0101-0101-0101-010101010101"}
        for filter, wanted in (
            ({"placed": {"$gte": {"$date": "2025-01-01T00:00:00Z"}}}, [1, 2, 3]), ({"placed": {"$date": "1970-01-01T00:00:00Z"}}, [0]),
            ({"placed": {"$in": [{"$date": "2026-10-01T09:30:00.5+02:00"}, {"$date": {"$numberLong": "0"}}]}}, [0, 3]),
            ({"u": one}, [1]), ({"$or": [{"u": one}, {"_id": 3}]}, [1, 3]), ({"u": {"$ne": one}, "placed": {"$lt": {"$date": "2025-01-01T00:00:00.001Z"}}}, [0]),
        ):  # fmt: skip
            with self.subTest(filter), Session(path, PROGRAM) as session:
                self.assertEqual([it["_id"] for it in find(path, filter, program=PROGRAM)], wanted)
                session.create_index("placed")
                self.assertEqual([it["_id"] for it in session.find(filter)], wanted)
                self.assertEqual(session.count_documents(filter), len(wanted))
                self.assertEqual(session.distinct("_id", filter), wanted)
        with Session(path, PROGRAM) as session:
            for bad in ({"$date": "2025"}, {"$uuid": "01010101"}):
                with self.assertRaises(CommandError) as raised:
                    session.find({"placed": bad})
                self.assertEqual((raised.exception.layer, raised.exception.text), ("json", "bad wrapper"))

    def test_threads_that_need_a_second_run(self) -> None:
        """There is one, whatever they do at once."""
        with Session(PEOPLE, self.counting()) as session:
            threads = [threading.Thread(target=session.count_documents, args=[{"age": {"$gte": it + 0.5}}]) for it in range(90, 98)]
            threads.insert(4, threading.Thread(target=session.create_index, args=["age"]))
            for thread in threads:
                thread.start()
            for thread in threads:
                thread.join()
            self.assertEqual(session.explain({"age": 98.5})["index"], "age")
        self.assertEqual(len(self.starts()), 2)

    def test_bytes_of_a_batch(self) -> None:
        """Of documents as they are, with a most of 10,000 bytes in place of 16 MiB."""
        sizes = [10] * 60 + [3000] * 30 + [20_000] * 3 + [10] * 60
        documents = [document(whole("_id", it), b"\x05a\0" + size.to_bytes(4, "little") + bytes(size + 1)) for it, size in enumerate(sizes)]
        path, held = self.file(b"".join(documents)), []
        texts = _readings.Texts

        def watched(found: List[bytes], document_of: object) -> object:
            held.append((sum(map(len, found)), len(found)))
            return texts(found, document_of)

        with mock.patch.object(_readings, "MOST_BYTES", 10_000), mock.patch.object(_readings, "Texts", watched):
            with Session(path, PROGRAM) as session:
                self.assertEqual(list(session.find(decode="bson", batch_size=50)), documents)
                self.assertEqual(list(session.find(sort={"_id": -1}, decode="bson", batch_size=50)), documents[::-1])
        self.assertTrue(all(size <= 10_000 or count == 1 for size, count in held), held)

    def test_damage(self) -> None:
        """A fault has its place in the dump, before and after doubles."""
        data = b"".join(GOODS)
        for bad, byte, place in (
            (DAMAGED, 7, 'path "d": bad boolean'),
            (DAMAGED + data * 3000, 7, 'path "d": bad boolean'),
            (GOODS[0][:20], 0, 'path "": bad length'),
            (document(b"\x01\xff\0" + bytes(8)), 5, 'path "": not UTF-8'),
            (document(b"\x07a\0"), 7, 'path "a": value cut short'),
            (document(double("price", 1.5), b"\x02item\0\x10\0\0\0pen\0"), 25, 'path "item": bad string length'),
        ):
            path = self.file(data + bad, "bad.bson")
            byte += len(data)
            with self.assertRaises(DumpError) as raised:
                Session(path, PROGRAM)
            self.assertEqual(str(raised.exception), f"document 6, byte {byte}, {place}")
            self.assertTrue(raised.exception.fault)

    def test_what_is_refused(self) -> None:
        """With the place in the filter, over each kind of dump."""
        for path in (self.path, PEOPLE):
            with Session(path, PROGRAM) as session:
                for filter, args in (
                    ({"a": 1.5, "price": {"$type": "double"}}, ("numbers", 1, "the types of numbers are not told apart here", "price.$type")),
                    ({"a": 1.5, "b": {"$above": 1}}, ("filter", 1, "unknown operator", "b.$above")),
                    ({"a": 1.5, "é": {"$oid": "x"}}, ("json", 4, "bad wrapper", 18)),
                    ({"a": {"$numberDouble": "x"}}, ("json", 4, "bad wrapper", 5)),
                    ({"a": {"$numberDecimal": "1E+6145"}}, ("json", 6, "number out of range", 5)),
                    ({"a": {"$size": 1.5}}, ("filter", 3, "bad operand", "a.$size")),
                ):
                    for ask in (lambda: list(session.find(filter)), lambda: session.count_documents(filter)):
                        with self.assertRaises(CommandError) as raised:
                            ask()
                        self.assertEqual(raised.exception.args[: len(args)], args, (path, filter))
                        self.assertIs(type(raised.exception), CommandError)
                with self.assertRaises(CommandError) as raised:
                    session.find({"price": 9.5}, sort={"a": 2})
                self.assertEqual(raised.exception.text, "not a sort")
                self.assertEqual(session.count_documents({"price": 9.5}), int(path == self.path))

    def test_nan(self) -> None:
        """As in MongoDB: first in a sort, equal to itself, and neither less nor greater than a number."""
        numbers = [3.5, float("nan"), -1.0, float("-inf")]
        documents = [document(double("x", it)) for it in numbers]
        with Session(self.file(b"".join(documents), "nan.bson"), PROGRAM) as session:
            session.create_index("x")
            for filter, sort, wanted in (
                ({}, {"x": 1}, [1, 3, 2, 0]),
                ({"x": NAN}, None, [1]),
                ({"x": {"$lte": NAN}}, None, [1]),
                ({"x": {"$gte": float("nan")}}, None, [1]),
                ({"x": {"$gt": NAN}}, None, []),
                ({"x": {"$gt": -2}}, None, [0, 2]),
                ({"x": {"$lt": 3}}, None, [2, 3]),
                ({"x": {"$lt": 3, "$ne": NAN}}, None, [2, 3]),
                ({"x": {"$not": {"$lte": 3}}}, None, [0, 1]),
            ):
                for hint in ({"$natural": 1}, "x"):
                    found = session.find(filter, sort=sort, hint=hint, decode="bson")
                    self.assertEqual([documents.index(it) for it in found], wanted, filter)

    def test_file_that_is_written_to(self) -> None:
        with Session(self.path, PROGRAM) as session:
            self.path.write_bytes(b"".join(reversed(GOODS)))
            with self.assertRaises(DumpError) as raised:
                session.find_one({"price": 9.5})
            self.assertEqual(str(raised.exception), "the file was written to since it was opened")


class AsyncFinds(Goods, unittest.IsolatedAsyncioTestCase):
    async def test_answers(self) -> None:
        """Those of a session, with the same tokens, by a scan and by an index; several cursors at once."""
        cases = (
            ({"price": {"$gt": 9.25}}, [("price", -1)], [3, 2, 0]),
            ({"cost": Decimal("19")}, None, [1, 2]),
            ({"_id": {"$gt": 3.5}}, None, [4, 5]),
            ({"price.0": 1.5}, None, [3]),
        )
        async with AsyncSession(self.path, PROGRAM) as session:
            for _ in range(2):
                for filter, sort, wanted in cases:
                    cursor = session.find(filter, sort=sort, batch_size=2, decode="bson")
                    self.assertEqual([GOODS.index(it) async for it in cursor], wanted)
                    self.assertEqual(await session.count_documents(filter), len(wanted))
                await session.create_index("price")
                self.assertEqual((await session.explain({"price": {"$gt": 9.25}}))["plan"], "index")
                await session.drop_index("price")
            line = await session.find_one({"price": 9.5}, decode="bytes")
            self.assertEqual((line, await session.find_one({"price": 9.5}, decode="plain")), (FIRST.encode(), {"_id": 0, "price": 9.5, "cost": Decimal("19.99")}))
            cursors = [session.find(filter, sort=sort, decode="bson") for filter, sort, _ in cases]
            found = await asyncio.gather(*map(places_of, cursors))
            self.assertEqual(found, [wanted for _, _, wanted in cases])

    async def test_tokens_within_a_batch(self) -> None:
        async with AsyncSession(self.path, PROGRAM) as session:
            filter, sort = {"price": {"$gt": 9.25}}, [("price", -1)]
            cursor = session.find(filter, sort=sort, decode="bson")
            self.assertEqual(GOODS.index(await cursor.__anext__()), 3)
            rest = session.find(filter, sort=sort, after=await cursor.token, decode="bson")
            self.assertEqual([GOODS.index(it) async for it in rest], [2, 0])
            self.assertEqual([GOODS.index(it) async for it in cursor], [2, 0])

    async def test_refusals(self) -> None:
        """Also of a dump without doubles, and after the end of a session."""
        for path in (self.path, PEOPLE):
            async with AsyncSession(path, PROGRAM) as session:
                with self.assertRaises(CommandError) as raised:
                    await session.find_one({"a": 1.5, "b": {"$oid": "x"}})
                self.assertEqual(raised.exception.args, ("json", 4, "bad wrapper", 13))
                with self.assertRaisesRegex(CommandError, "not a sort"):
                    await session.find_one({"price": 1.5}, sort={"a": 2})
            with self.assertRaises(SessionEndedError):
                await session.count_documents({"price": 9.5})
        bad = self.file(b"".join(GOODS) + DAMAGED, "bad.bson")
        with self.assertRaisesRegex(DumpError, 'document 6, byte [0-9]+, path "d": bad boolean'):
            await AsyncSession(bad, PROGRAM).open()

    async def test_second_run(self) -> None:
        """Tasks that need it at once, and others meanwhile."""
        async with AsyncSession(PEOPLE, self.counting()) as session:
            await session.create_index("age")
            filters = [{"age": {"$gt": 98.5}}, {"age": {"$gt": 98}}, {"age": {"$lt": 20.5}}, {"age": {"$lt": 21}}] * 3
            found = await asyncio.gather(*map(session.count_documents, filters))
            ages = [int(json.loads(it)["age"]["$numberInt"]) for it in PEOPLE_LINES]
            low = sum(it <= 20 for it in ages)
            self.assertEqual(found, [5, 5, low, low] * 3)
            self.assertEqual((await session.explain(filters[0]))["index"], "age")
        self.assertEqual(len(self.starts()), 2)

    async def test_pipes(self) -> None:
        pipe = self.room / "pipe"
        os.mkfifo(pipe)
        writer = threading.Thread(target=pipe.write_bytes, args=[b"".join(GOODS)])
        writer.start()
        async with AsyncSession(pipe, PROGRAM) as session:
            self.assertEqual(await session.count_documents({"price": {"$gt": 9.25}}), 3)
            self.assertEqual(await session.find_one({"price": 9.5}, decode="bson"), GOODS[0])
        writer.join()

    async def test_call_that_is_cancelled(self) -> None:
        """While documents of the dump are read by their numbers: the next call gives them."""
        async with AsyncSession(self.path, PROGRAM) as session:
            cursor = session.find({"price": {"$gt": 9.25}}, decode="bson")
            with mock.patch("bsonfind._dumps.originals.Original.documents", side_effect=asyncio.CancelledError):
                with self.assertRaises(asyncio.CancelledError):
                    await cursor.__anext__()
            self.assertEqual([GOODS.index(it) async for it in cursor], [0, 2, 3])


async def places_of(cursor: AsyncCursor) -> List[int]:
    """The ids of what a cursor gives."""
    return [GOODS.index(it) async for it in cursor]
