#!/usr/bin/env python3
"""Compares sessions of `bsonwide serve` over random dumps with a model, and with those of `bsonfind serve`.

    tests/wide/serves.py [PROGRAM [DUMPS [SEED]]]

The program is `bsonwide`, with `bsonfind` beside it. Over a dump with doubles or decimal128 the model compares all numbers exactly, as
MongoDB does: each reply must be the one that the model makes, and each token one that `bsonwide find` prints and resumes from. The
model takes the digest in its tokens from `bsonwide find`. Over any other dump the replies must be those of `bsonfind serve` to the byte,
also to commands with doubles. With `places` in each `getMore` that has documents, the replies must have the numbers of these documents,
and be the same otherwise. Over a damaged dump only the first fault is printed, and no command is read.
"""

import json
import os
import random
import re
import subprocess
import sys
import tempfile
from pathlib import Path

sys.path[:0] = [str(Path(__file__).resolve().parents[1]), str(Path(__file__).resolve().parents[2] / "python")]

from model.answers import IN_SESSIONS, Dump, Request, Value, obj, read_token, types_place, written
from model.sessions import Refused, Session
from support import PROGRAM as BUILT
from support import Tests
from questions import WideInputs

PROGRAM = str(Path(sys.argv[1]).resolve()) if len(sys.argv) > 1 else str(BUILT.with_name("bsonwide"))
OTHER = str(Path(PROGRAM).with_name("bsonfind"))
DUMPS = int(sys.argv[2]) if len(sys.argv) > 2 else 60
SEED = int(sys.argv[3]) if len(sys.argv) > 3 else 76
COMMANDS = 60
TYPES = 1

# Lines that are no commands, and some that are read only with doubles and decimal128.
BAD_LINES = [
    "{", "[]", "1.5", "{}", '{"find":{"a":1.5}', '{"find":{"a":1e400}}', '{"find":{"a":{"$numberDouble":"x"}}}', '{"find":{"a":{"$numberDecimal":"1e9999"}}}',
    '{"find":1.5}', '{"find":{},"limit":1.0}', '{"getMore":1.0,"batch":1}', '{"createIndex":1.5}', '{"find":{},"use":{"$numberDecimal":"1"}}', '{"find":{"a":{"$size":2.0}}}',
    '{"find":{"a":{"$gt":1.5}},"sort":{"a":1.0}}', '{"dropIndex":"a","a":0.5}', " \t", "",
]  # fmt: skip
COUNTS = re.compile(r"[0-9]+ documents, (?:end|more)(?:, token (\S+))?\n")


def ran(*words: str, room: Path) -> subprocess.CompletedProcess[bytes]:
    return subprocess.run(words, cwd=room, capture_output=True, check=False, timeout=60)


def words_of(request: Request) -> list[str]:
    """The options of `find` for a request."""
    return [f"--query={written(request.query)}", f"--sort={written(request.sort)}", f"--skip={request.skip}", f"--limit={request.limit}"]


class WideDump(Dump):
    """A dump of all types, whose tokens have the digests that `bsonwide find` gives them."""

    def __init__(self, documents: list[Value], room: Path) -> None:
        super().__init__(documents)
        self.room = room
        self.digests: dict[str, bytes] = {}

    def tied(self, request: Request) -> bytes:
        """The digest of a request; nothing if it has no document, since then no token has it."""
        text = request.text()
        if text not in self.digests:
            said = ran(PROGRAM, "find", "dump.bson", *words_of(request), "--batch=1", room=self.room).stderr.decode()
            counts = COUNTS.fullmatch(said)
            token = read_token(counts[1]) if counts and counts[1] else None
            self.digests[text] = token.tied if token else b""
        return self.digests[text]


class WideSession(Session):
    """A session over a dump with doubles or decimal128."""

    is_wide = True

    def request(self, fields: dict[str, Value], query: str) -> tuple[Request, Value]:
        """A filter with a `$type` of some of the types of numbers is refused for it, after all that is wrong with the request."""
        made = super().request(fields, query)
        place = types_place(fields.get(query, obj()), IN_SESSIONS)
        if place is not None:
            raise Refused("numbers", TYPES, place)
        return made


class Serving:
    """The comparison of one dump after the other."""

    def __init__(self, rng: random.Random, room: str) -> None:
        self.rng, self.tests, self.room = rng, Tests(), Path(room)
        self.inputs = WideInputs(rng)
        self.wide = self.plain = self.refused = self.resumed = 0

    def serve(self, program: str, lines: list[str]) -> tuple[int, list[str], str]:
        """The status of a session, its replies, and what it writes on standard error."""
        text = "".join(f"{line}\n" for line in lines).encode()
        done = subprocess.run([program, "serve", "dump.bson"], cwd=self.room, input=text, capture_output=True, check=False, timeout=60)
        return done.returncode, done.stdout.decode().split("\n"), done.stderr.decode()

    def serve_dump(self, number: int) -> None:
        """A session over one dump, and over the dump when it is damaged."""
        documents = self.inputs.documents()
        is_plain = self.rng.random() < 0.2
        if is_plain:
            documents = [self.whole(it) for it in documents]
        model = WideDump(documents, self.room)
        (self.room / "dump.bson").write_bytes(model.bytes)
        if is_plain or not ran(OTHER, "check", "dump.bson", room=self.room).returncode:
            self.plain += 1
            self.compare(number, model)
        else:
            self.wide += 1
            self.talk(number, model)
        self.damage(number, model)

    def whole(self, value: Value) -> Value:
        """The same without doubles and decimal128."""
        match value.kind:
            case "double" | "decimal":
                return Value("int", 1)
            case "object":
                return obj(*((name, self.whole(it)) for name, it in value.of))
            case "array":
                return Value("array", tuple(map(self.whole, value.of)))
            case "javascriptWithScope":
                return Value(value.kind, (value.of[0], self.whole(value.of[1])))
        return value

    def line(self, session: Session) -> str:
        return self.rng.choice(BAD_LINES) if self.rng.random() < 0.05 else self.inputs.text(self.inputs.command(session))

    def talk(self, number: int, model: WideDump) -> None:
        """A session over a dump with doubles or decimal128, beside the model."""
        session = WideSession(model)
        lines, wanted = [], []
        for _ in range(COMMANDS):
            line = self.line(session)
            lines.append(line)
            if line.strip():
                wanted.append((line, session.reply(line.encode())))
        status, replies, said = self.serve(PROGRAM, lines)
        self.tests.want(f"dump {number}", (status, said, replies[-1], len(replies)) == (0, "", "", len(wanted) + 1), (status, said, len(replies)))
        for (line, reply), told in zip(wanted, replies):
            self.tests.want(f"dump {number}, {line}", self.compared(line, told) == self.compared(line, reply), (told, reply))
            self.refused += '"layer":"numbers"' in reply
        self.number(f"dump {number}", model, lines, replies)
        for token, request in session.tokens[:: max(1, len(session.tokens) // 3)]:
            self.resume(f"dump {number}, {token}", model, token, request)

    @staticmethod
    def compared(line: str, reply: str) -> str:
        """What is compared of a reply: of `explain` not how documents are found, which NaN changes."""
        return reply.partition('"matches"')[2] if '"plan"' in reply else reply

    def resume(self, name: str, model: WideDump, token: str, request: Request) -> None:
        """`bsonwide find` resumes from a token of a session."""
        done = ran(PROGRAM, "find", "dump.bson", *words_of(request), f"--after={token}", room=self.room)
        rest = "".join(f"{written(model.documents[place])}\n" for place in model.rest(request, read_token(token)))
        self.tests.want(f"{name}: find", (done.returncode, done.stdout.decode()) == (0, rest), (done, rest))
        self.resumed += 1

    def compare(self, number: int, model: WideDump) -> None:
        """A session over a dump without doubles and decimal128, beside that of `bsonfind`."""
        session = Session(Dump(model.documents))
        lines = []
        for _ in range(COMMANDS):
            lines.append(self.line(session))
            session.reply(lines[-1].encode())
        replies, wanted = self.serve(PROGRAM, lines), self.serve(OTHER, lines)
        self.tests.want(f"dump {number}, plain", replies == wanted and wanted[0] == 0, (lines, replies, wanted))
        self.number(f"dump {number}, plain", model, lines, replies[1])

    def number(self, name: str, model: WideDump, lines: list[str], replies: list[str]) -> None:
        """With `places` a batch has the numbers of its documents in place of them, and every other reply is the same."""
        commands = [line for line in lines if line.strip()]
        marked = [
            f'{line.rstrip()[:-1]},"places":true}}' if reply.startswith('{"ok":true,"documents":[') else line for line, reply in zip(commands, replies)
        ]
        status, numbered, said = self.serve(PROGRAM, marked)
        self.tests.want(f"{name}, numbered", (status, said, len(numbered)) == (0, "", len(replies)), (status, said))
        for line, reply, told in zip(marked, replies, numbered):
            self.tests.want(f"{name}, {line}", self.printed(model, told) == reply, (told, reply))

    @staticmethod
    def printed(model: WideDump, reply: str) -> str:
        """A reply with documents in place of their numbers."""
        lead = '{"ok":true,"places":['
        if not reply.startswith(lead):
            return reply
        numbers = [int(it["$numberInt"]) for it in json.loads(reply)["places"]]
        rest = reply[reply.index("]", len(lead)) :]
        return '{"ok":true,"documents":[' + ",".join(written(model.documents[it]) for it in numbers) + rest

    def damage(self, number: int, model: WideDump) -> None:
        """Of a damaged dump nothing is printed but its first fault, and no command is read."""
        data = bytearray(model.bytes)
        if not data:
            return
        data[self.rng.randrange(len(data))] ^= 1 << self.rng.randrange(8)
        (self.room / "bad.bson").write_bytes(data)
        checked = ran(PROGRAM, "check", "bad.bson", room=self.room)
        if checked.returncode == 0:
            return
        (self.room / "commands").write_text('{"find":{}}\n')
        with (self.room / "commands").open("rb", buffering=0) as commands:
            done = subprocess.run([PROGRAM, "serve", "bad.bson"], cwd=self.room, stdin=commands, capture_output=True, check=False, timeout=60)
            read = os.lseek(commands.fileno(), 0, os.SEEK_CUR)
        said = f"bsonwide: {checked.stdout.decode().splitlines()[0]}\n"
        self.tests.want(f"dump {number}, damaged", (done.returncode, done.stdout, done.stderr.decode(), read) == (1, b"", said, 0), (done, read, said))


def main() -> int:
    with tempfile.TemporaryDirectory() as room:
        serving = Serving(random.Random(SEED), room)
        for number in range(DUMPS):
            serving.serve_dump(number)
    print(f"{serving.wide} dumps by value, {serving.plain} as bsonfind; refused {serving.refused} times for types of numbers")
    print(f"{serving.tests.passed} passed, {serving.tests.failed} failed")
    return int(serving.tests.failed > 0)


if __name__ == "__main__":
    sys.exit(main())
