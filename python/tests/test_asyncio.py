"""Tests of sessions for asyncio."""

import asyncio
import gzip
import json
import os
import time
import unittest
from unittest import mock

from bsonfind import (
    AsyncSession,
    CancelledError,
    CommandError,
    CursorStateError,
    DumpError,
    ObjectId,
    OtherProcessError,
    ProgramError,
    SessionEndedError,
    TimedOutError,
    find,
)
from bsonfind._ask import readings as _readings

from .support import DAMAGED, PEOPLE, PEOPLE_LINES, PROGRAM, SHOP, SHOP_LINES, Room, packed

OLD = {"age": {"$gte": 90}}
STUCK = 'read line\necho \'{"ok":true}\'\necho $$ >>"$ROOM/pids"\nexec sleep 600'


class AsyncSessions(Room, unittest.IsolatedAsyncioTestCase):
    async def test_answers(self) -> None:
        async with AsyncSession(PEOPLE, PROGRAM) as session:
            self.assertEqual([it async for it in session.find(decode="bytes", batch_size=7)], PEOPLE_LINES)
            self.assertEqual([it async for it in session.find(limit=3, decode="canonical")], list(map(json.loads, PEOPLE_LINES[:3])))
            self.assertEqual(await session.create_index("age"), {"entries": 500, "multikey": False})
            wanted = list(find(PEOPLE, OLD, sort={"name": 1}, skip=3, limit=20, decode="bytes", program=PROGRAM))
            for hint in (None, "age", {"$natural": 1}):
                found = session.find(OLD, sort={"name": 1}, skip=3, limit=20, hint=hint, decode="bytes")
                self.assertEqual([it async for it in found], wanted)
            self.assertEqual((await session.explain(OLD))["plan"], "index")
            self.assertEqual(await session.count_documents(OLD), 49)
            self.assertEqual(await session.find_one({"_id": 7}, decode="bytes"), PEOPLE_LINES[7])
            self.assertIsNone(await session.find_one({"_id": -1}))
            await session.drop_index("age")
            self.assertEqual((await session.explain(OLD))["plan"], "scan")

    async def test_tasks_that_open_one_session(self) -> None:
        """They start one program, and none is left."""
        session = AsyncSession(PEOPLE, self.counting())
        self.assertEqual(await asyncio.gather(session.open(), session.open(), session.open()), [session] * 3)
        self.assertEqual(await session.count_documents(), 500)
        await session.close()
        self.assertEqual([it.split()[:2] for it in self.starts()].count(["bsonwide", "serve"]), 1)
        with self.assertRaises(SessionEndedError):
            await session.open()

    async def test_plain_values(self) -> None:
        async with AsyncSession(SHOP, PROGRAM) as session:
            found = await session.find_one(decode="plain")
            self.assertEqual(found["_id"], ObjectId(json.loads(SHOP_LINES[0])["_id"]["$oid"]))

    async def test_tokens(self) -> None:
        async with AsyncSession(PEOPLE, PROGRAM) as session:
            cursor = session.find(decode="bytes", batch_size=4)
            self.assertIsNone(await cursor.token)
            found = [await cursor.__anext__() for _ in range(6)]
            found += [it async for it in session.find(decode="bytes", after=await cursor.token)]
            self.assertEqual(found, PEOPLE_LINES)
            await cursor.close()
            self.assertEqual([it async for it in cursor], [])

    async def test_tasks_share_a_session(self) -> None:
        async with AsyncSession(PEOPLE, PROGRAM) as session:

            async def read(age: int) -> list:
                return [it async for it in session.find({"age": {"$gte": age}}, batch_size=3, decode="bytes")]

            ages = range(60, 92, 4)
            found = await asyncio.gather(*map(read, ages))
        self.assertEqual(found, [list(find(PEOPLE, {"age": {"$gte": age}}, decode="bytes", program=PROGRAM)) for age in ages])

    async def test_cursors_that_are_left(self) -> None:
        async with AsyncSession(PEOPLE, PROGRAM) as session:
            for _ in range(150):
                self.assertEqual(await session.find(batch_size=1, decode="bytes").__anext__(), PEOPLE_LINES[0])

    async def test_compressed_dump(self) -> None:
        whole = gzip.compress(PEOPLE.read_bytes())
        async with AsyncSession(self.file(whole, "people.bson.gz"), PROGRAM) as session:
            self.assertEqual(await session.count_documents(OLD), 49)
        with self.assertRaisesRegex(DumpError, "gzip"):
            await AsyncSession(self.file(whole[:-1], "cut.bson.gz"), PROGRAM).open()

    async def test_refusals(self) -> None:
        with self.assertRaises(DumpError) as raised:
            await AsyncSession(self.file(DAMAGED), PROGRAM).open()
        self.assertEqual(raised.exception.fault, (0, 7, "d", "bad boolean"))
        with self.assertRaisesRegex(DumpError, "cannot open "):
            await AsyncSession(self.room / "missing.bson", PROGRAM).open()
        with self.assertRaisesRegex(ProgramError, "cannot start no-such-program"):
            await AsyncSession(PEOPLE, "no-such-program").open()
        async with AsyncSession(PEOPLE, PROGRAM) as session:
            with self.assertRaises(CommandError):
                await session.find({"a": {"$above": 1}}).__anext__()
            self.assertEqual(await session.count_documents(), 500)

    async def test_closed_session(self) -> None:
        session = AsyncSession(PEOPLE, self.counting())
        with self.assertRaisesRegex(SessionEndedError, "not opened"):
            await session.count_documents()
        await session.open()
        await session.open()
        self.assertEqual(len(self.starts()), 1)
        cursor = session.find(batch_size=2, decode="bytes")
        found = [await cursor.__anext__()]
        await session.close()
        found.append(await cursor.__anext__())
        self.assertEqual(found, PEOPLE_LINES[:2])
        with self.assertRaisesRegex(SessionEndedError, "closed"):
            await cursor.__anext__()
        with self.assertRaisesRegex(SessionEndedError, "closed"):
            await session.open()

    async def test_cancelled_task(self) -> None:
        """The program ends, and later calls say why."""
        session = await AsyncSession(PEOPLE, self.wide(STUCK)).open()
        task = asyncio.ensure_future(session.count_documents())
        await asyncio.sleep(0.3)
        task.cancel()
        with self.assertRaises(asyncio.CancelledError):
            await task
        with self.assertRaisesRegex(SessionEndedError, "a reply was interrupted"):
            await session.count_documents()
        with self.assertRaises(ProcessLookupError):
            os.kill(int((self.room / "pids").read_text()), 0)
        await session.close()

    async def test_timeouts_and_cancel(self) -> None:
        begun = time.monotonic()
        with self.assertRaises(TimedOutError):
            await AsyncSession(PEOPLE, self.wide("exec sleep 600"), timeout=0.3).open()
        session = await AsyncSession(PEOPLE, self.wide(STUCK), timeout=0.5).open()
        self.addAsyncCleanup(session.close)
        with self.assertRaises(TimedOutError):
            await session.count_documents()
        with self.assertRaisesRegex(SessionEndedError, "no answer within 0.5 seconds"):
            await session.count_documents()
        session = await AsyncSession(PEOPLE, self.wide(STUCK)).open()
        self.addAsyncCleanup(session.close)
        asyncio.get_running_loop().call_later(0.3, session.cancel)
        with self.assertRaises(CancelledError):
            await session.count_documents()
        self.assertLess(time.monotonic() - begun, 30)

    async def test_interrupted_cursor(self) -> None:
        async with AsyncSession(PEOPLE, PROGRAM) as session:
            cursor = session.find(batch_size=40, decode="bytes")
            found = [await cursor.__anext__() for _ in range(40)]
            with mock.patch("bsonfind._ask.readings.read_batch", side_effect=RuntimeError), self.assertRaises(RuntimeError):
                await cursor.__anext__()
            with self.assertRaises(CursorStateError):
                await cursor.__anext__()
            found += [it async for it in session.find(decode="bytes", after=await cursor.token)]
            self.assertEqual(found, PEOPLE_LINES)

    async def test_bytes_of_a_batch(self) -> None:
        dump = self.file(packed(f'{{"_id":{number},"a":"{"x" * 3000}"}}' for number in range(40)))
        with mock.patch.object(_readings, "MOST_BYTES", 10_000):
            async with AsyncSession(dump, PROGRAM) as session:
                found = [json.loads(it)["_id"] async for it in session.find(decode="bytes")]
        self.assertEqual(found, [{"$numberInt": str(number)} for number in range(40)])

    async def test_fork(self) -> None:
        async with AsyncSession(PEOPLE, PROGRAM) as session:
            cursor = session.find()
            with mock.patch("os.getpid", return_value=1):
                for ask in (session.count_documents, session.close, cursor.__anext__, lambda: cursor.token, cursor.close):
                    with self.assertRaises(OtherProcessError):
                        await ask()
            self.assertEqual(await session.count_documents(), 500)
