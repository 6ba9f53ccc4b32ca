"""Tests of what bounds a session: one deadline for a whole question, and the descriptors of a process."""

import asyncio
import gzip
import subprocess
import sys
import threading
import time
import unittest
from pathlib import Path
from typing import Callable, List

from bsonfind import AsyncSession, Session, SessionEndedError, TimedOutError, count_documents

from .support import PATIENCE, PEOPLE, PROGRAM, Room, environment, wait_for

# A session over a dump without doubles asks this of a second run.
DOUBLE = {"age": 1.5}


class Deadlines(Room, unittest.IsolatedAsyncioTestCase):
    def stalled(self) -> str:
        """Programs that never read a dump for a second run, or come to the end of an answer."""
        return self.wide('case $1$3 in *--byValue | find*) exec sleep 600 ;; esac\nexec "$WIDE" "$@"')

    def in_time(self, ask: Callable[[], object]) -> None:
        """It takes no longer than its seconds, whatever it waits for."""
        begun = time.monotonic()
        with self.assertRaisesRegex(TimedOutError, "no answer within 2.5 seconds"):
            ask()
        self.assertLess(time.monotonic() - begun, 30)

    def test_second_run(self) -> None:
        """The deadline is that of the question, also while a second run is started for it; then the session has ended."""
        program = self.stalled()
        self.in_time(lambda: count_documents(PEOPLE, DOUBLE, program=program, timeout=2.5))
        session = Session(PEOPLE, program, timeout=2.5)
        self.in_time(lambda: session.count_documents(DOUBLE))
        with self.assertRaisesRegex(SessionEndedError, "no answer within 2.5 seconds"):
            session.count_documents()
        session.close()

    def test_replies(self) -> None:
        """Replies that come in time, each of them, do not prolong it."""
        # The first two of a question by a cursor: it is opened, and read.
        slow = 'while read -r line; do sleep 1.4; echo \'{"ok":true,"cursor":{"$numberInt":"1"},"documents":[],"end":false,"token":null}\'; done'
        program = self.wide(slow)
        session = Session(PEOPLE, program, timeout=2.5)
        self.in_time(lambda: session.create_index("a") and session.find_one({"a": 1}) and None)
        session.close()

    def stuck_second_run(self) -> str:
        """Programs of which a second run never reads its dump; the file `pids` has its number."""
        return self.wide('case $3 in --byValue) echo $$ >>"$ROOM/pids"; exec sleep 600 ;; esac\nexec "$WIDE" "$@"')

    def is_second_run(self) -> bool:
        """Whether the second run was started."""
        return (self.room / "pids").exists() and bool((self.room / "pids").read_text())

    def want_no_second_run(self) -> None:
        """It has ended."""
        pids = (self.room / "pids").read_text().split()
        self.assertEqual([pid for pid in pids if Path("/proc", pid).exists()], [])

    def test_session_that_is_closed_meanwhile(self) -> None:
        """While a second run is started for a question: that is not answered, and no run stays."""
        session = Session(PEOPLE, self.stuck_second_run())
        raised: List[SessionEndedError] = []

        def ask() -> None:
            with self.assertRaises(SessionEndedError) as caught:
                session.count_documents(DOUBLE)
            raised.append(caught.exception)

        asking = threading.Thread(target=ask)
        asking.start()
        wait_for(self.is_second_run)
        session.close()
        asking.join(PATIENCE)
        self.assertEqual([str(it) for it in raised], ["the session was closed"])
        self.want_no_second_run()

    async def test_asyncio_session_that_is_closed_meanwhile(self) -> None:
        session = await AsyncSession(PEOPLE, self.stuck_second_run()).open()
        asking = asyncio.ensure_future(session.count_documents(DOUBLE))
        await asyncio.get_running_loop().run_in_executor(None, wait_for, self.is_second_run)
        await session.close()
        with self.assertRaisesRegex(SessionEndedError, "the session was closed"):
            await asking
        self.want_no_second_run()

    async def test_asyncio(self) -> None:
        session = await AsyncSession(PEOPLE, self.stalled(), timeout=2.5).open()
        begun = time.monotonic()
        with self.assertRaisesRegex(TimedOutError, "no answer within 2.5 seconds"):
            await session.count_documents(DOUBLE)
        self.assertLess(time.monotonic() - begun, 30)
        with self.assertRaises(SessionEndedError):
            await session.count_documents()
        await session.close()


class Descriptors(Room):
    def test_no_descriptor_is_left(self) -> None:
        """Each call says so, whichever of those that it needs is the first that it does not get; nothing is left open."""
        packed = self.file(gzip.compress(PEOPLE.read_bytes()), "people.bson.gz")
        code = f"""
import os, resource, sys
from bsonfind import *
program, hard = {PROGRAM!r}, resource.getrlimit(resource.RLIMIT_NOFILE)[1]
def free():
    opened = {{int(it) for it in os.listdir("/proc/self/fd")}}
    return [it for it in range(256) if it not in opened or not os.path.exists(f"/proc/self/fd/{{it}}")]
def within(path):
    with Session(path, program) as session:
        session.distinct("age")
for path in sys.argv[1:]:
    parts = plan(path)
    for name, call in {{
        "count": lambda: count_documents(path, program=program), "find": lambda: list(find(path, program=program)),
        "distinct": lambda: distinct(path, "age", program=program), "explain": lambda: explain(path, program=program), "plan": lambda: plan(path),
        "Session": lambda: within(path), "parts": lambda: find_parts(parts, program=program), "check": lambda: check_parts(parts, program=program),
    }}.items():
        call()
        left, unused = 0, free()
        while True:
            resource.setrlimit(resource.RLIMIT_NOFILE, (unused[left], hard))
            try:
                call()
                break
            except BsonfindError as error:
                if "Too many open files" not in str(error):
                    print(name, left, type(error).__name__, error)
                left += 1
            finally:
                resource.setrlimit(resource.RLIMIT_NOFILE, (hard, hard))
            if free() != unused:
                print(name, left, "left open")
                break
        print(name, left > 0)
"""
        run = subprocess.run([sys.executable, "-c", code, PEOPLE, packed], env=environment(), capture_output=True, text=True, timeout=PATIENCE)
        names = ["count", "find", "distinct", "explain", "plan", "Session", "parts", "check"]
        self.assertEqual((run.stdout.splitlines(), run.stderr), ([f"{it} True" for it in names] * 2, ""))
