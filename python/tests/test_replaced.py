"""Tests of dumps that are replaced or written to while they are asked: an error, never two versions."""

import asyncio
import os
import shutil
from typing import Callable, List
from unittest import mock

from bsonfind import AsyncSession, DumpError, Session, find, plan

from .support import PEOPLE, PROGRAM, Room, run_package
from .goods import document, double, whole

# Two versions of a dump with as many bytes; the last document has a double.
OLD = [document(whole("_id", it), whole("old", it)) for it in range(3)] + [document(double("x", 1.5))]
NEW = [document(whole("_id", it), whole("new", it)) for it in range(3)] + [document(double("x", 2.5))]
CHANGED = "the file was (replaced|written to)"


class Replaced(Room):
    def setUp(self) -> None:
        super().setUp()
        self.path = self.file(b"".join(OLD))

    def replace(self, data: bytes = b"".join(NEW)) -> None:
        """Puts another file in place of the dump, with its size and the time of its last change."""
        other = self.file(data, "other")
        shutil.copystat(self.path, other)
        os.replace(other, self.path)

    def changes(self) -> List[Callable[[], object]]:
        """What changes a dump: another file, and bytes that are written to it, of which the time is set back."""

        def write() -> None:
            times = self.path.stat()
            with open(self.path, "r+b") as file:
                file.write(b"".join(NEW))
            os.utime(self.path, ns=(times.st_atime_ns, times.st_mtime_ns))

        return [self.replace, write]

    def refused(self, call: Callable[[], object], text: str = CHANGED) -> None:
        """Has a call refuse the dump."""
        with self.assertRaisesRegex(DumpError, text) as raised:
            call()
        self.assertFalse(raised.exception.is_finding)

    def test_session(self) -> None:
        """Over a dump without doubles and over one with some, and where a second run is open: nothing is answered after it."""
        for data in (OLD[:3], OLD):
            for is_second in (False, True):
                for change in self.changes():
                    self.path.unlink(missing_ok=True)
                    self.file(b"".join(data))
                    with Session(self.path, PROGRAM) as session:
                        cursor = session.find({"_id": {"$gte": 0.5 if is_second else 1}}, batch_size=1)
                        self.assertEqual(next(cursor)["_id"], 1)
                        change()
                        self.refused(lambda: next(cursor))
                        for filter in ({"_id": {"$lt": 50}}, {"_id": {"$lt": 50.5}}):
                            self.refused(lambda: session.count_documents(filter))
                            for decode in ("plain", "bson"):
                                self.refused(lambda: session.find_one(filter, decode=decode))

    def test_asyncio_session(self) -> None:
        async def ask(change: Callable[[], object]) -> None:
            async with AsyncSession(self.path, PROGRAM) as session:
                self.assertEqual(await session.count_documents({"old": {"$gte": 1}}), 2)
                cursor = session.find({"old": {"$gte": 0}}, batch_size=1, decode="plain")
                self.assertEqual((await cursor.__anext__())["_id"], 0)
                change()
                for call in (
                    lambda: cursor.__anext__(),
                    lambda: session.count_documents({"_id": {"$lt": 50}}),
                    lambda: session.find_one({"_id": {"$lt": 50.5}}, decode="bson"),
                ):
                    with self.assertRaisesRegex(DumpError, CHANGED):
                        await call()

        for data in (OLD[:3], OLD):
            for change in self.changes():
                self.path.unlink()
                self.file(b"".join(data))
                asyncio.run(ask(change))

    def test_commands(self) -> None:
        """The dump is replaced after the first run."""
        after = 'if [ -e "$ROOM/next" ]; then mv "$ROOM/next" "$ROOM/dump.bson"; elif [ -e "$ROOM/later" ]; then mv "$ROOM/later" "$ROOM/next"; fi'
        for name, real in (("bsonwide", "WIDE"), ("program", "PROGRAM")):
            program = self.script(f'"${real}" "$@"\nstatus=$?\n{after}\nexit $status', name)
        ids = self.file(b"0\n1\n", "ids")
        # A second file makes of these two commands more than one run of the program.
        for words in (["check"], ["dump"], ["query"], ["ids", "--ids", str(ids)]):
            self.path.unlink()
            self.file(b"".join(OLD))
            # The first run of these asks no documents.
            self.file(b"".join(NEW), "later" if words[0] in ("query", "ids") else "next")
            second = [str(PEOPLE)] if words[0] in ("check", "dump") else []
            run = run_package("--program", program, *words, str(self.path), *second)
            with self.subTest(words):
                self.assertEqual(run.returncode, 2 if words[0] in ("query", "ids") else 1)
                self.assertRegex(run.stderr, CHANGED)
                self.assertNotIn("new", run.stdout)
        for how in ({}, {"decode": "bson"}):
            self.path.unlink()
            self.file(b"".join(OLD))
            self.file(b"".join(NEW), "next")
            self.refused(lambda: list(find(self.path, program=program, **how)))

    def test_directory_that_is_replaced(self) -> None:
        """The dump that was opened is no longer that of the name, whatever is the folder of this process by now."""
        there, here = self.room / "backup", os.getcwd()
        self.addCleanup(os.chdir, here)
        for name in (there / "dump.bson", "backup/dump.bson", self.room / "link/dump.bson"):
            for is_new in (True, False):
                shutil.rmtree(there, ignore_errors=True)
                self.file(b"".join(OLD), "backup/dump.bson")
                (self.room / "link").unlink(missing_ok=True)
                (self.room / "link").symlink_to("backup")
                os.chdir(self.room)
                with Session(name, os.path.join(here, PROGRAM)) as session:
                    os.chdir("/")
                    self.assertEqual(session.count_documents(), 4)
                    shutil.rmtree(self.room / "old", ignore_errors=True)
                    os.rename(there, self.room / "old")
                    if is_new:
                        self.file(b"".join(NEW), "backup/dump.bson")
                    self.refused(lambda: session.count_documents({}), "the file was replaced, or its directory was moved")

    def test_descriptor_that_is_closed(self) -> None:
        """A session by the name of one keeps the file."""
        with open(self.path, "rb") as file:
            session = Session(f"/dev/fd/{file.fileno()}", PROGRAM)
        with session:
            self.assertEqual(session.count_documents(), 4)

    def test_hard_links_and_modes(self) -> None:
        """They count as changes, since the time by which a replaced file is known changes with them too."""
        with Session(self.path, PROGRAM) as session:
            os.link(self.path, self.room / "link")
            self.refused(lambda: session.count_documents({}), "its name or its rights changed")

    def test_device(self) -> None:
        """A file of another device is another one."""
        (part,) = plan(self.path)
        with mock.patch.object(type(part.state), "of", lambda file: part.state._replace(device=part.state.device + 1)):
            self.refused(lambda: list(part.pieces()), "the file was replaced")
