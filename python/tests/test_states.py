"""Tests of what goes wrong between documents: forks, interrupts, documents that cannot be decoded, and questions that take long."""

import asyncio
import gc
import gzip
import json
import os
import random
import signal
import subprocess
import sys
import threading
import time
import warnings
from typing import Callable, List
from unittest import mock

from bsonfind import (
    AsyncSession,
    BsonfindError,
    CancelledError,
    CursorStateError,
    DumpError,
    PartError,
    Session,
    SessionEndedError,
    TimedOutError,
    count_documents,
    find,
    find_one,
    find_parts,
    plan,
)
from bsonfind._ask import readings as _readings
from bsonfind._ask.decoding import Decoding as _Decoding

from .support import DOUBLE, PATIENCE, PEOPLE, PEOPLE_LINES, PROGRAM, Room, environment, packed, wait_for


def told_by_fork(ask: Callable[[], object]) -> str:
    """What a call says in another process, which a fork makes and which ends as Python does at `os._exit`."""
    read, write = os.pipe()
    child = os.fork()
    if not child:
        try:
            ask()
            told = "no error"
        except BsonfindError as error:
            told = type(error).__name__
        os.write(write, told.encode())
        os._exit(0)
    os.close(write)
    with open(read) as pipe:
        told = pipe.read()
    os.waitpid(child, 0)
    return told


def run_and_leave_open(code: str) -> "subprocess.CompletedProcess[str]":
    """A run of Python that ends while a session is open, of which Python warns else."""
    words = [sys.executable, "-W", "ignore::ResourceWarning", "-c", code]
    return subprocess.run(words, env=environment(), capture_output=True, text=True, timeout=PATIENCE)


class Forks(Room):
    """A session that another process opened is refused by name, and stays as it is."""

    def test_session_and_cursor(self) -> None:
        with Session(PEOPLE, PROGRAM) as session:
            cursor = session.find(batch_size=3, decode="bytes")
            given = [next(cursor)]
            for ask in (
                lambda: next(cursor),
                lambda: cursor.token,
                lambda: cursor.close(),
                lambda: session.find({"age": 99}),
                lambda: session.find_one(),
                lambda: session.count_documents(),
                lambda: session.create_index("age"),
                lambda: session.drop_index("age"),
                lambda: session.explain(),
                lambda: session.cancel(),
                lambda: session.close(),
            ):
                self.assertEqual(told_by_fork(ask), "OtherProcessError")
            self.assertEqual(given + list(cursor), PEOPLE_LINES)

    def test_answer(self) -> None:
        path = self.file(PEOPLE.read_bytes() * 20)
        with find(path, decode="bytes", program=PROGRAM) as answer:
            given = [next(answer)]
            for ask in (lambda: next(answer), lambda: answer.close(), lambda: answer.cancel()):
                self.assertEqual(told_by_fork(ask), "OtherProcessError")
            self.assertEqual(given + list(answer), PEOPLE_LINES * 20)

    def test_process_that_ends_while_a_session_is_open(self) -> None:
        """What Python does at the end of a process leaves the session of the other one alone."""
        code = f"""
import os, sys
from bsonfind import Session, find
session = Session({str(PEOPLE)!r}, {PROGRAM!r})
cursor, answer = session.find(batch_size=7), find({str(PEOPLE)!r}, program={PROGRAM!r})
next(cursor), next(answer)
if not os.fork():
    sys.exit(0)
os.wait()
print(1 + len(list(cursor)), 1 + len(list(answer)), session.count_documents())
"""
        ran = run_and_leave_open(code)
        self.assertEqual((ran.stdout, ran.stderr), ("500 500 500\n", ""))

    def test_processes_that_open_their_own(self) -> None:
        def ask() -> None:
            with Session(PEOPLE, PROGRAM) as session:
                if len(list(session.find())) != 500:
                    raise BsonfindError

        with Session(PEOPLE, PROGRAM):
            self.assertEqual(told_by_fork(ask), "no error")


class Forgotten(Room):
    """What nothing refers to any more leaves no program and no descriptor, as if it had been closed."""

    def left(self, ask: Callable[[str], object]) -> List[str]:
        """The numbers of the programs that run after something was asked ten times, each time without a word of its end."""
        program = self.wide('echo $$ >>"$ROOM/pids"\nexec "$WIDE" "$@"')
        with warnings.catch_warnings():
            warnings.simplefilter("ignore", ResourceWarning)  # Python says itself that a file was not closed.
            ask(program)
            gc.collect()
            descriptors = len(os.listdir("/proc/self/fd"))
            for _ in range(10):
                ask(program)
            gc.collect()
        self.assertEqual(len(os.listdir("/proc/self/fd")), descriptors)
        pids = (self.room / "pids").read_text().split()
        self.assertGreater(len(pids), 10)
        return [it for it in pids if os.path.exists(f"/proc/{it}")]

    def test_sessions(self) -> None:
        def ask(program: str) -> None:
            session = Session(PEOPLE, program)
            next(session.find({"age": {"$gte": 0.5}}, batch_size=2))

        self.assertEqual(self.left(ask), [])

    def test_sessions_over_pipes(self) -> None:
        packed = self.file(gzip.compress(PEOPLE.read_bytes()), "people.bson.gz")
        self.assertEqual(self.left(lambda program: Session(packed, program).count_documents()), [])

    def test_sessions_in_a_ring(self) -> None:
        class Owner:
            def __init__(self, program: str) -> None:
                self.session, self.itself = Session(PEOPLE, program), self

        self.assertEqual(self.left(Owner), [])

    def test_sessions_for_asyncio(self) -> None:
        async def ask(program: str) -> None:
            session = await AsyncSession(PEOPLE, program).open()
            await session.count_documents()

        self.assertEqual(self.left(lambda program: asyncio.run(ask(program))), [])

    def test_cursors(self) -> None:
        """A cursor keeps its session."""
        cursor = Session(PEOPLE, PROGRAM).find(batch_size=7, decode="bytes")
        gc.collect()
        self.assertEqual(list(cursor), PEOPLE_LINES)
        cursor._session.close()

    def test_answers(self) -> None:
        path = self.file(PEOPLE.read_bytes() * 20)
        self.assertEqual(self.left(lambda program: next(find(path, program=program))), [])

    def test_end_of_python(self) -> None:
        """Another process that has the pipes of a session, as after a fork, does not keep its program."""
        code = f"""
import os, time
from bsonfind import Session
session = Session({str(PEOPLE)!r}, {self.wide('echo $$ >>"$ROOM/pids"; exec "$WIDE" "$@"')!r})
if not os.fork():
    os.close(1), os.close(2)
    time.sleep(60)
    os._exit(0)
print(session.count_documents())
"""
        ran = run_and_leave_open(code)
        self.assertEqual((ran.stdout, ran.stderr), ("500\n", ""))
        pid = (self.room / "pids").read_text().split()[-1]
        wait_for(lambda: not os.path.exists(f"/proc/{pid}"))


class Decoding(Room):
    """No document is lost where another one cannot be decoded."""

    def decode(self, line: bytes) -> object:
        document = json.loads(line)
        number = int(document["_id"]["$numberInt"])
        if number % 7 == 3:
            raise OverflowError(number)
        return number

    def test_documents_after_one_that_is_not_decoded(self) -> None:
        wanted = [number for number in range(500) if number % 7 != 3]
        with Session(PEOPLE, PROGRAM) as session:
            for documents in (session.find(batch_size=40, decode=self.decode), find(PEOPLE, decode=self.decode, program=PROGRAM)):
                found, failed = [], 0
                while True:
                    try:
                        found.append(next(documents))
                    except OverflowError:
                        failed += 1
                    except StopIteration:
                        break
                self.assertEqual((found, failed), (wanted, 71))

    def test_token_after_one_that_is_not_decoded(self) -> None:
        with Session(PEOPLE, PROGRAM) as session:
            cursor = session.find(batch_size=40, decode=self.decode)
            self.assertEqual([next(cursor) for _ in range(3)], [0, 1, 2])
            with self.assertRaises(OverflowError):
                next(cursor)
            self.assertEqual(list(session.find(after=cursor.token, decode="bytes")), PEOPLE_LINES[4:])

    def test_interrupt_of_the_decoding(self) -> None:
        """The document that was being decoded comes again."""
        interrupts = [3, 4, 40, 41]

        def decode(line: bytes) -> bytes:
            number = int(json.loads(line)["_id"]["$numberInt"])
            if interrupts and number == interrupts[0]:
                interrupts.pop(0)
                raise KeyboardInterrupt
            return line

        with Session(PEOPLE, PROGRAM) as session:
            for documents in (session.find(batch_size=40, decode=decode), find(PEOPLE, decode=decode, program=PROGRAM)):
                interrupts[:] = [3, 4, 40, 41]
                found, interrupted = [], 0
                while len(found) < 500:
                    try:
                        found.append(next(documents))
                    except KeyboardInterrupt:
                        interrupted += 1
                self.assertEqual((found, interrupted), (PEOPLE_LINES, 4))


class Interrupts(Room):
    """A cursor that was interrupted while it read says so, and its token leads to all documents that were not given."""

    def test_between_a_reply_and_the_cursor(self) -> None:
        with Session(PEOPLE, PROGRAM) as session:
            cursor = session.find(batch_size=40, decode="bytes")
            found = [next(cursor) for _ in range(40)]
            with mock.patch("bsonfind._ask.readings.read_batch", side_effect=KeyboardInterrupt), self.assertRaises(KeyboardInterrupt):
                next(cursor)
            for _ in range(2):
                with self.assertRaises(CursorStateError):
                    next(cursor)
            found += session.find(after=cursor.token, decode="bytes")
            self.assertEqual(found, PEOPLE_LINES)

    def test_in_the_middle_of_a_reply(self) -> None:
        session = Session(PEOPLE, PROGRAM)
        self.addCleanup(session.close)
        cursor = session.find(batch_size=40, decode="bytes")
        found = [next(cursor) for _ in range(40)]
        interrupt = mock.patch("bsonfind._ask.plans.Transport.receive", side_effect=KeyboardInterrupt)
        with interrupt, self.assertRaises(KeyboardInterrupt):
            next(cursor)
        for _ in range(2):
            with self.assertRaisesRegex(SessionEndedError, "a reply was interrupted"):
                next(cursor)
        with Session(PEOPLE, PROGRAM) as again:
            self.assertEqual(found + list(again.find(after=cursor.token, decode="bytes")), PEOPLE_LINES)

    def test_in_the_middle_of_an_answer(self) -> None:
        answer = find(PEOPLE, decode="bytes", program=PROGRAM)
        with mock.patch("bsonfind._ask.lines.counted", side_effect=KeyboardInterrupt), self.assertRaises(KeyboardInterrupt):
            list(answer)
        with self.assertRaises(CursorStateError):
            next(answer)

    def test_interrupts_at_any_time(self) -> None:
        """Whenever they come, no document is lost: each comes in its turn, perhaps twice if it was being decoded."""
        self.addCleanup(signal.signal, signal.SIGALRM, signal.signal(signal.SIGALRM, self.interrupted))
        self.addCleanup(signal.setitimer, signal.ITIMER_REAL, 0)
        chosen = random.Random(3)
        for _ in range(25):
            self.seen: List[bytes] = []
            self.read_all(chosen)
            in_turn = [line for number, line in enumerate(self.seen) if not number or line != self.seen[number - 1]]
            self.assertEqual(in_turn, PEOPLE_LINES)

    is_armed = False

    def interrupted(self, *_: object) -> None:
        """What a signal does."""
        if self.is_armed:
            raise KeyboardInterrupt

    def read_all(self, chosen: random.Random) -> None:
        """Reads all documents, with interrupts, and with another cursor or session where one is at its end."""
        session = Session(PEOPLE, PROGRAM)
        cursor = session.find(batch_size=3, decode=lambda line: self.seen.append(line))
        is_read, failed = False, None
        while not is_read:
            signal.setitimer(signal.ITIMER_REAL, chosen.random() * 0.004)
            try:
                self.is_armed = True
                try:
                    for _ in cursor:
                        pass
                    is_read = True
                except (CursorStateError, SessionEndedError) as error:
                    failed = error
                self.is_armed = False
            except KeyboardInterrupt:
                self.is_armed = False
            if failed:
                if isinstance(failed, SessionEndedError):
                    session.close()
                    session = Session(PEOPLE, PROGRAM)
                size, failed = chosen.choice((1, 40, 500)), None
                cursor = session.find(after=cursor.token, batch_size=size, decode=lambda line: self.seen.append(line))
        session.close()

    def test_control_c_of_a_terminal(self) -> None:
        """It reaches all processes of its group, and not the session's program."""
        code = f"""
import os, signal
from bsonfind import Session
signal.signal(signal.SIGINT, signal.default_int_handler)
os.setpgrp()
session = Session({str(PEOPLE)!r}, {PROGRAM!r})
cursor = session.find(batch_size=40)
found = [next(cursor)["_id"]]
try:
    os.killpg(0, signal.SIGINT)
    signal.pause()
except KeyboardInterrupt:
    pass
found += [it["_id"] for it in cursor]
print(found == [*range(500)])
"""
        ran = run_and_leave_open(code)
        self.assertEqual((ran.stdout, ran.stderr), ("True\n", ""))


class LongQuestions(Room):
    """Timeouts and cancelling."""

    def slow(self) -> str:
        """Programs that never answer."""
        self.script("exec sleep 600", "bsonwide")
        return self.script("exec sleep 600")

    def test_timeouts(self) -> None:
        program, parts = self.slow(), plan(PEOPLE, 40_000)
        for ask in (
            lambda: next(find(PEOPLE, program=program, timeout=0.2)),
            lambda: find_one(PEOPLE, program=program, timeout=0.2),
            lambda: count_documents(PEOPLE, program=program, timeout=0.2),
            lambda: Session(PEOPLE, program, timeout=0.2),
            lambda: find_parts(parts, program=program, timeout=0.2),
        ):
            begun = time.monotonic()
            with self.assertRaisesRegex(TimedOutError, "no answer within 0.2 seconds") as raised:
                ask()
            self.assertIsInstance(raised.exception, TimeoutError)
            self.assertLess(time.monotonic() - begun, 20)

    def test_timeout_of_a_part(self) -> None:
        first = 'if mkdir "$ROOM/first" 2>/dev/null; then exec "$WIDE" "$@"; fi\nexec sleep 600'
        for workers in (1, 3):
            with self.subTest(workers), self.assertRaises(TimedOutError):
                find_parts(plan(PEOPLE, 40_000), workers=workers, program=self.wide(first), timeout=0.5)

    def test_timeout_of_a_command(self) -> None:
        program = self.wide('read line\necho \'{"ok":true}\'\nexec sleep 600')
        session = Session(PEOPLE, program, timeout=0.5)
        self.addCleanup(session.close)
        with self.assertRaises(TimedOutError):
            session.find()
        with self.assertRaisesRegex(SessionEndedError, "no answer within 0.5 seconds"):
            session.find()

    def test_source_that_stalls(self) -> None:
        """A compressed dump that comes by a pipe, of which no more comes."""
        path = self.room / "stalled.bson.gz"
        os.mkfifo(path)
        pipe = os.open(path, os.O_RDWR)
        self.addCleanup(os.close, pipe)
        os.write(pipe, gzip.compress(PEOPLE.read_bytes())[:1000])
        begun = time.monotonic()
        for ask in (lambda: next(find(path, program=PROGRAM, timeout=0.3)), lambda: Session(path, PROGRAM, timeout=0.3)):
            with self.assertRaises(TimedOutError):
                ask()
        self.assertLess(time.monotonic() - begun, 20)

    def test_no_timeout_where_the_answer_is_there(self) -> None:
        with Session(PEOPLE, PROGRAM, timeout=PATIENCE) as session:
            self.assertEqual(len(list(session.find())), 500)
        self.assertEqual(len(list(find(PEOPLE, program=PROGRAM, timeout=PATIENCE))), 500)
        wait_for(lambda: threading.active_count() == 1)

    def test_cancelled_session(self) -> None:
        session = Session(PEOPLE, self.wide('read line\necho \'{"ok":true}\'\nexec sleep 600'))
        self.addCleanup(session.close)
        threading.Timer(0.3, session.cancel).start()
        with self.assertRaises(CancelledError):
            session.count_documents()
        with self.assertRaisesRegex(SessionEndedError, "cancelled"):
            session.count_documents()

    def test_pipes_of_what_was_cancelled(self) -> None:
        """Its bytes are left to the next one that reads it, whether it is a file or a descriptor, and whoever opens it later."""
        path = self.room / "pipe"
        os.mkfifo(path)
        read, write = os.pipe()
        for name, open_it in ((path, lambda: os.open(path, os.O_WRONLY)), (f"/dev/fd/{read}", lambda: write)):
            with self.subTest(name):
                answer = find(name, program=PROGRAM)
                threading.Timer(0.3, answer.cancel).start()
                with self.assertRaises(CancelledError):
                    next(answer)
                with self.assertRaises(TimedOutError):
                    Session(name, PROGRAM, timeout=0.3)
                wait_for(lambda: threading.active_count() == 1)
                later = find(name, decode="bytes", program=PROGRAM, timeout=PATIENCE)

                def feed(pipe: int) -> None:
                    with open(pipe, "wb") as file:
                        file.write(PEOPLE.read_bytes())

                threading.Thread(target=lambda open_it=open_it: feed(open_it())).start()
                self.assertEqual(list(later), PEOPLE_LINES)
        os.close(read)

    def test_cancelled_answer(self) -> None:
        answer = find(PEOPLE, program=self.slow())
        threading.Timer(0.3, answer.cancel).start()
        with self.assertRaises(CancelledError):
            next(answer)


class Bounds(Room):
    """How much a cursor holds."""

    def test_bytes_of_a_batch(self) -> None:
        """With a most of 10,000 bytes in place of 16 MiB."""
        sizes = [10] * 60 + [3000] * 30 + [20_000] * 3 + [10] * 60
        dump = self.file(packed(f'{{"_id":{number},"a":"{"x" * size}"}}' for number, size in enumerate(sizes)))
        held = []
        batch = _Decoding.batch

        def watched(decoding: _Decoding, text: bytes) -> object:
            held.append(len(text))
            return batch(decoding, text)

        with mock.patch.object(_readings, "MOST_BYTES", 10_000), mock.patch.object(_Decoding, "batch", watched):
            with Session(dump, PROGRAM) as session:
                found = [json.loads(line) for line in session.find(decode="bytes", batch_size=50)]
        self.assertEqual([it["_id"]["$numberInt"] for it in found], [str(number) for number in range(len(sizes))])
        self.assertEqual([len(it["a"]) for it in found], sizes)
        self.assertLess(max(it for it in held if it < 20_000), 10_001)
        self.assertEqual(sum(it > 10_000 for it in held), 3)
        self.assertLess(len(held), 60)

    def test_a_batch_that_is_passed_over_keeps_the_token(self) -> None:
        dump = self.file(packed(f'{{"_id":{number},"a":"{"x" * 3000}"}}' for number in range(20)))
        with mock.patch.object(_readings, "MOST_BYTES", 10_000), Session(dump, PROGRAM) as session:
            lines = list(session.find(decode="bytes"))
            cursor = session.find(sort={"_id": -1}, decode="bytes")
            found = [next(cursor) for _ in range(7)]
            rest = list(session.find(sort={"_id": -1}, after=cursor.token, decode="bytes"))
        self.assertEqual(found + rest, lines[::-1])


class Failing(Room):
    """Parts that fail end the others at once."""

    def test_first_part_that_fails(self) -> None:
        """The last part, which begins with a document of 16 bytes, fails at once, and the others would take ten minutes."""
        program = self.wide(
            '[ "$1" = check ] && exec "$WIDE" "$@"\n'
            '[ "$(dd bs=1 count=1 2>/dev/null | od -An -tu1 | tr -d " ")" = 16 ] || exec sleep 600\n'
            'echo "bsonwide: document 0, byte 4, path \\"d\\": bad boolean" >&2\nexit 1'
        )
        parts = plan(PEOPLE, 40_000) + plan(self.file(DOUBLE))
        begun = time.monotonic()
        with mock.patch("bsonfind._ask.merge._Asking.try_request"), self.assertRaises(PartError) as raised:
            find_parts(parts, workers=4, program=program)
        self.assertEqual((raised.exception.part, raised.exception.fault), (parts[-1], (0, 4, "d", "bad boolean")))
        self.assertLess(time.monotonic() - begun, 30)


class Missing(Room):
    """A missing file is one error, whoever asks."""

    def test_missing_file(self) -> None:
        path = self.room / "missing.bson"
        for name in (path, str(path), os.fsencode(path), self.room / "missing.bson.gz", self.room / os.fsdecode(b"\xff.bson")):
            for ask in (
                lambda: next(find(name, program=PROGRAM)),
                lambda: find_one(name, program=PROGRAM),
                lambda: count_documents(name, program=PROGRAM),
                lambda: Session(name, PROGRAM),
                lambda: plan(name),
            ):
                with self.subTest(name), self.assertRaises(DumpError) as raised:
                    ask()
                self.assertIn("cannot open ", raised.exception.text)

