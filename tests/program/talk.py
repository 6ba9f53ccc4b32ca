#!/usr/bin/env python3
"""Talks with ./bsonfind serve over pipes: each command is sent when the reply to the one before it has come.

usage: tests/program/talk.py     The last line is 'N passed, M failed'.

The dump is examples/people.bson. The replies that are wanted are made by Python: see tests/model/sessions.py.

- Pages of some requests by one run, their cursors in turn, with and without indexes.
- An answer that a second run goes on with, by the token that the first one gave.
- What is told of indexes and plans.
- Commands in pieces, several at once, and without their newline; what no longer reads or can be read.
- The greatest batches in little memory.
"""

import json
import os
import select
import subprocess
import sys
import time
from pathlib import Path

sys.path.insert(0, str(Path(__file__).resolve().parents[1]))

from model.sessions import Find, Session
from pages import DUMP, PEOPLE, REQUESTS
from support import PROGRAM, Tests

# How many seconds a reply may take.
PATIENCE = 60.0


class Silence(Exception):
    """No reply came."""


class Talk:
    """A run of the program, with a line to send and a line that comes back."""

    def __init__(self, commands: int = subprocess.PIPE) -> None:
        self.run = subprocess.Popen([PROGRAM, "serve", DUMP], stdin=commands, stdout=subprocess.PIPE, stderr=subprocess.PIPE, bufsize=0)
        self.came = b""
        # The session that replies as this run should, and its last reply.
        self.session = Session(PEOPLE)
        self.wanted = ""

    def send(self, data: bytes) -> None:
        self.run.stdin.write(data)

    def reply(self, patience: float = PATIENCE) -> str:
        """The next line."""
        until = time.monotonic() + patience
        while b"\n" not in self.came:
            ready, _, _ = select.select([self.run.stdout], [], [], max(until - time.monotonic(), 0))
            data = os.read(self.run.stdout.fileno(), 65536) if ready else b""
            if not data:
                raise Silence(f"after {self.came!r}")
            self.came += data
        line, _, self.came = self.came.partition(b"\n")
        return line.decode()

    def ask(self, command: dict) -> str:
        line = json.dumps(command, ensure_ascii=False).encode()
        self.send(line + b"\n")
        self.wanted = self.session.reply(line)
        return self.reply()

    def wrong_reply(self, command: dict) -> str | None:
        """What comes after a command, where it is not what should."""
        came = self.ask(command)
        return None if came == self.wanted else came

    def end(self) -> tuple[int, bytes, bytes]:
        """No command follows: how the run ends, and what it still writes."""
        if self.run.stdin:
            self.run.stdin.close()
        out, err = self.run.stdout.read(), self.run.stderr.read()
        return self.run.wait(PATIENCE), self.came + out, err

    def __enter__(self) -> "Talk":
        return self

    def __exit__(self, *_: object) -> None:
        self.run.kill()
        self.run.wait()
        for stream in (self.run.stdin, self.run.stdout, self.run.stderr):
            if stream:
                stream.close()


QUIET = (0, b"", b"")


def asked(find: Find, /, **first: object) -> dict:
    """The command of a request; what says nothing is left out."""
    fields = {"sort": json.loads(find.sort), "skip": find.skip, "limit": find.limit}
    return {**first, **{name: value for name, value in fields.items() if value}}


def wrong_pages(talk: Talk, sizes: dict[int, int]) -> str | None:
    """Reads the pages of cursors in turn, each of its own size, to their ends: the first reply that is wrong."""
    while sizes:
        for cursor, size in sizes.items():
            if wrong := talk.wrong_reply({"getMore": cursor, "batch": size}):
                return f"cursor {cursor}: {wrong}"
        sizes = {cursor: size for cursor, size in sizes.items() if cursor in talk.session.cursors}
    return None


def test_pages(tests: Tests) -> None:
    """The cursors of all requests in turn. Each page has another size than that of the next cursor."""
    for use in ("scan", "auto", {"index": "age"}):
        with Talk() as talk:
            for path in () if use == "scan" else ("age", "name"):
                tests.want(f"an index on {path}", (wrong := talk.wrong_reply({"createIndex": path})) is None, wrong)
            sizes = {}
            for cursor, (size, find) in enumerate(((size, find) for size in (1, 2, 7, 600) for find in REQUESTS.values()), 1):
                wrong = talk.wrong_reply(asked(find, find=json.loads(find.query), use=use))
                tests.want(f"cursor {cursor} by {use}", wrong is None, wrong)
                sizes[cursor] = size
            wrong = wrong_pages(talk, sizes)
            tests.want(f"pages of all requests by {use}", wrong is None, wrong)
            tests.want(f"the end of a run by {use}", (ended := talk.end()) == QUIET, ended)


def test_resumed(tests: Tests) -> None:
    """Some documents by one run, and the rest by another one, from the token of the first."""
    for name, find in REQUESTS.items():
        with Talk() as talk:
            talk.ask(asked(find, find=json.loads(find.query)))
            token = json.loads(talk.ask({"getMore": 1, "batch": 11}))["token"]
            tests.want(f"{name}, the first run ends", (ended := talk.end()) == QUIET, ended)
        for path in (None, "age", "visits.place"):
            with Talk() as talk:
                if path:
                    talk.ask({"createIndex": path})
                use = {"index": path} if path else "auto"
                wrong = talk.wrong_reply(asked(find, resume=token, filter=json.loads(find.query), use=use))
                tests.want(f"{name}, a cursor of a second run by {path}", wrong is None, wrong)
                wrong = wrong_pages(talk, {1: 5})
                tests.want(f"{name}, the rest by {path}", wrong is None, wrong)


# Paths, and filters that bound them.
BOUNDS = {
    "age": {"age": {"$gte": 80}},
    "scores": {"scores": {"$gt": 5, "$lt": 2}},
    "address.city": {"address.city": None},
    "visits.place": {"visits.place": "Nairobi", "age": 30},
    "note": {"note": {"$type": "string"}},
}


def test_indexes(tests: Tests) -> None:
    with Talk() as talk:
        for path, query in BOUNDS.items():
            for command in (
                {"createIndex": path},
                {"explain": query, "use": {"index": path}, "skip": 1, "limit": 1},
                {"explain": query, "use": "scan"},
                {"explain": {}, "sort": {path: -1}},
            ):
                tests.want(f"what is told of {command}", (wrong := talk.wrong_reply(command)) is None, wrong)
        talk.ask({"dropIndex": "scores"})
        wrong = talk.wrong_reply({"createIndex": "scores", "sparse": True})
        tests.want("a sparse index", wrong is None, wrong)


FIND = b'{"find":{}}\n'


def opened(cursor: int) -> str:
    """The reply to FIND."""
    return f'{{"ok":true,"cursor":{{"$numberLong":"{cursor}"}}}}'


def test_pieces(tests: Tests) -> None:
    """Commands byte by byte, in halves, and more than one at once."""
    with Talk() as talk:
        for byte in FIND:
            talk.send(bytes([byte]))
        tests.want("a command byte by byte", (came := talk.reply()) == opened(1), came)
        talk.send(b"\n \t\r\n" + FIND[:5])
        try:
            tests.want("half a command has no reply", False, talk.reply(0.3))
        except Silence as silence:
            tests.want("half a command has no reply", talk.came == b"", silence)
        talk.send(FIND[5:] + FIND * 2)
        for cursor in (2, 3, 4):
            tests.want(f"several commands at once, cursor {cursor}", (came := talk.reply()) == opened(cursor), came)
        talk.send(FIND.rstrip())
        tests.want("a command without its newline", (ended := talk.end()) == (0, opened(5).encode() + b"\n", b""), ended)


def test_devices(tests: Tests) -> None:
    """What goes wrong on either side."""
    ours, theirs = os.pipe()
    os.set_blocking(ours, False)
    os.write(theirs, FIND * 2 + FIND[:3])
    with Talk(ours) as talk:
        # The pipe stays open, and holds nothing more: the read after the last byte fails.
        ended = talk.end()
        tests.want("replies before a read that fails", ended == (1, b"".join(opened(it).encode() + b"\n" for it in (1, 2)), b"bsonfind: cannot read\n"), ended)
    os.close(ours)
    os.close(theirs)
    with Talk() as talk:
        talk.ask({"find": {}})
        talk.run.stdout.close()
        talk.send(FIND)
        told = talk.run.stderr.read()
        tests.want("a reply that no one reads ends the run", (talk.run.wait(PATIENCE), told) == (1, b"bsonfind: cannot write\n"), told)


def test_greatest(tests: Tests) -> None:
    """In 64 MiB of memory: a batch without a size, and one of the greatest, take memory for the documents that they have."""
    limited = ["sh", "-c", 'ulimit -v 65536 && exec "$0" "$@"', PROGRAM]
    ran = subprocess.run([*limited, "find", DUMP], stdin=subprocess.DEVNULL, capture_output=True)
    tests.want("find without --batch", (ran.returncode, ran.stdout, ran.stderr.decode()) == Find().shown(PEOPLE), ran)
    commands = [b'{"find":{}}', b'{"getMore":1,"batch":2147483647}']
    session = Session(PEOPLE)
    wanted = "".join(session.reply(command) + "\n" for command in commands)
    ran = subprocess.run([*limited, "serve", DUMP], input=b"".join(it + b"\n" for it in commands), capture_output=True)
    tests.want("getMore of the greatest batch", (ran.returncode, ran.stdout.decode(), ran.stderr) == (0, wanted, b""), ran)


def main() -> int:
    tests = Tests()
    for test in (test_pages, test_resumed, test_indexes, test_pieces, test_devices, test_greatest):
        try:
            test(tests)
        except Silence as silence:
            tests.want(test.__name__, False, f"no reply {silence}")
    print(f"{tests.passed} passed, {tests.failed} failed")
    return 1 if tests.failed else 0


if __name__ == "__main__":
    sys.exit(main())
