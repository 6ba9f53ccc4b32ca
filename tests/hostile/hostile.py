#!/usr/bin/env python3
"""Runs a program over damaged dumps, texts and commands, and over random requests, and looks for a crash, a hang or a wrong answer.

usage: tests/hostile/hostile.py SECONDS [SEED [PROGRAM [WAY]]]

PROGRAM is ./bsonwide, or ./bsonfind, which runs without it. All of its commands are tried, or with WAY the inputs of one way of WAYS
alone. What is printed, packed, found and replied is compared with what Python makes of the same input (tests/model/dumps.py, texts.py,
answers.py, sessions.py), but for these of `bsonwide`:

- Where the query or the dump has a double or a decimal128, the digest in a token is not compared, since no model makes the codes that it
  is of, and nothing resumes from such a token. tests/wide/finds.py does.
- `serve` is tried over dumps without them, where its replies are those of `bsonfind`. Others are those of tests/wide/serves.py.

Each run has a stack of 1 MiB, and some have little memory. An input that fails is kept, in a directory that is named,
with the command and the reason.
The last line is 'N passed, M failed', which counts inputs.
"""

import random
import re
import resource
import subprocess
import sys
import tempfile
import time
from pathlib import Path
from typing import NamedTuple

sys.path.insert(0, str(Path(__file__).resolve().parents[1]))

from model.answers import Dump, Token, Value, encoded, obj, read_token, written
from model.dumps import read_dump
from model.inputs import Inputs
from model.sessions import Find, Session, packed
from model.texts import WRAPPERS, read_document
from support import PROGRAM as BUILT
from support import ROOT, commands_of

PROGRAM = Path(sys.argv[3]).resolve() if len(sys.argv) > 3 else BUILT
NAME = PROGRAM.name
IS_WIDE = NAME == "bsonwide"
COMMANDS = commands_of(NAME)
# The inputs, and how often they come.
WAYS = {"requests": 0.2, "words": 0.07, "talk": 0.25, "text": 0.2, "dump": 0.25, "memory": 0.03}
STACK = 1 << 20
TIMEOUT = 60
SHALLOW = 300  # documents of the examples to begin with, which stand before others
FAILURES = 10  # the search ends at so many
# What `bsonwide` answers by value.
BY_VALUE = ["--query", '{"age":{"$gt":29.5}}'] if IS_WIDE else []
# After it stand a number of KiB and the words of a line.
LIMITED = ["sh", "-c", 'ulimit -v "$0" && exec "$@"']

# Documents of kinds that the examples have not, and at the limits.
OTHERS = [
    "{}",
    '{"":"","":[],"a":{"":{}}}',
    '{"s":{"$symbol":"x"},"u":{"$undefined":true},"lo":{"$minKey":1},"hi":{"$maxKey":1}}',
    '{"p":{"$dbPointer":{"$ref":"db.c","$id":{"$oid":"0123456789abcdef01234567"}}}}',
    '{"c":{"$code":"f()","$scope":{"x":1,"y":{"$code":"g()","$scope":{}}}}}',
    '{"b":{"$binary":{"base64":"AQIDBAUG","subType":"02"}},"z":{"$binary":{"base64":"","subType":"ff"}}}',
    '{"r":{"$regularExpression":{"pattern":"^a.*","options":"imx"}}}',
    '{"t":{"$timestamp":{"t":4294967295,"i":0}},"l":-9223372036854775808,"i":2147483647}',
    '{"n":[1,[1,2],{"n":1}],"n":2}',
    '{"k":1,"text":"\\u0000\\ud83d\\ude00\\\\\\"/\\b"}',
    *('{"a":' * n + "{}" + "}" * n for n in (150, 198, 199)),
    *('{"a":' + "[" * n + "]" * n + "}" for n in (150, 198, 199)),
    '{"a":' * 198 + '{"$code":"","$scope":{}}' + "}" * 198,
]

# Those that `bsonwide` reads alone.
NUMBERS = [
    '{"d":1.5,"e":{"$numberDouble":"-0.0"},"n":[{"$numberDouble":"NaN"},{"$numberDouble":"-Infinity"}]}',
    '{"p":{"$numberDecimal":"19.90"},"q":{"$numberDecimal":"-0E+3"},"n":[{"$numberDecimal":"NaN"},{"$numberDecimal":"Infinity"}]}',
    '{"c":{"$code":"f()","$scope":{"x":1e-9,"y":{"$numberDecimal":"1E-6176"}}}}',
    *('{"a":' * n + "1.5" + "}" * n for n in (199, 200)),
    *('{"a":' + "[" * n + '{"$numberDecimal":"1.5"}' + "]" * n + "}" for n in (198, 199)),
]

# What is put into texts: values, names, and parts of them.
TEXTS_OF_DOUBLES = [
    "1.5", "-0.0", "NaN", "Infinity", "-Infinity", "inf", "nan", "+1", ".5", "1.", "-", "0x1p3", "1_0", " 1", "1 ", "", "01", "1e", "1e999",
    "-1e999", "1e-999", "1.7976931348623157e308", "1.7976931348623159e308", "4.9e-324", "2.4e-324", "9007199254740993", "1" * 400, "0." + "1" * 800,
    "1\\u002e5",
]  # fmt: skip
TEXTS_OF_DECIMALS = [
    "1.50", "-0", "+1", ".5", "1.", ".", "NaN", "-nan", "sNaN", "NaN1", "Inf", "-INFINITY", "+infinity", "1E+6144", "1E+6145", "1E-6176",
    "1E-6177", "10E-6177", "0E+9999", "0E-9999", "1" * 34, "1" * 35, "1" + "0" * 40, "9" * 34 + "E+6111", "1E", "1e+", "1 ", "", "0x1", "1_0",
    "1E+99999999999999999999", "0." + "0" * 6175 + "1", "1\\u00301",
]  # fmt: skip
VALUES = [
    *(f'{{"$numberDouble":"{it}"}}' for it in TEXTS_OF_DOUBLES), *(f'{{"$numberDecimal":"{it}"}}' for it in TEXTS_OF_DECIMALS),
    *(it for it in TEXTS_OF_DOUBLES if it[-1:].isdigit()), '{"$numberDouble":1.5}', '{"$numberDecimal":1.5}', '{"$numberDouble":"1.5","a":1}',
    '{"$symbol":1.5}', '{"$date":1.5}', '{"$timestamp":{"t":1e3,"i":1}}', '{"$numberInt":1.5}', '{"$numberLong":"1.5"}', '{"$numberFloat":"1.5"}',
    "null", "true", "-0", "1e9", "2147483648", "-9223372036854775809", "9" * 5000, '"\\u0000"', '"\\ud83d\\ude00"', "[]",
    '{"$numberInt":"1"}', '{"$numberInt":"2147483648"}', '{"$numberInt":"01"}', '{"$numberInt":1}',
    '{"$date":{"$numberLong":"1"}}', '{"$date":"x"}', '{"$date":"2026-10-01T09:30:00.5+02:00"}', '{"$date":"0000-02-29T00:00:00Z"}',
    '{"$uuid":"x"}', '{"$uuid":"c8edabc3-f738-4ca3-b68d-ab92a91478a3"}', "ObjectId(1)", "new Date(1)", "/x/", '{"$code":"","$scope":{}}',
    '{"$scope":{},"$code":""}', '{"$code":"","$scope":1}', '{"$oid":"0123456789ABCDEF01234567"}', '{"$binary":{"base64":"AA==","subType":"2"}}',
    '{"$binary":{"base64":"AB==","subType":"2"}}', '{"$timestamp":{"t":4294967296,"i":0}}', '{"$minKey":1.0}',
    '{"$regularExpression":{"options":"","pattern":"\\u0000"}}', "[" * 201 + "]" * 201, '{"a":' * 202 + "1" + "}" * 202,
]  # fmt: skip
NAMES = ['"":', '"a\\u0000":', '"\\u0024oid":', *(f'"{name}":' for name in WRAPPERS)]
PARTS = [
    "{", "}", "[", "]", ",", ":", '"', "\\", "\\u0000", "\\ud800", "\\udc00", "\n", "\r", "\t", " ", "-", "01", "\ufeff", "\0",
    "\x7f", "NaN", "[" * 210, "]" * 210, '{"a":' * 210, "}" * 210,
]  # fmt: skip

# Counts of 32 bits and bytes where something often goes wrong.
COUNTS = [0, 1, 4, 5, 13, 14, 0x7F, 0x80, 0xFF, 0x7FFFFFFF, 0x80000000, 0xFFFFFFFF, 16793600, 16793601]
BYTES = [0, 1, 2, 3, 4, 5, 6, 7, 8, 9, 10, 11, 12, 13, 14, 15, 16, 17, 18, 19, 0x24, 0x7F, 0x80, 0xC0, 0xED, 0xF4, 0xFF]


class Wrong(Exception):
    """An answer is not what it should be."""


class Ran(NamedTuple):
    """How the program ended, and what it wrote."""

    status: int
    out: bytes
    err: bytes


class Search:
    """Makes inputs, runs the program over them and looks at its answers."""

    def __init__(self, seed: int, room: Path) -> None:
        self.rng = random.Random(seed)
        self.inputs = Inputs(self.rng)
        self.room = room
        self.runs = 0
        self.input = self.served = b""
        self.command: list[str] = []
        lines = [line for name in ("people", "shop") for line in (ROOT / f"examples/{name}.jsonl").read_bytes().splitlines()]
        self.lines = self.rng.sample(lines, SHALLOW) + [text.encode() for text in OTHERS + (NUMBERS if IS_WIDE else [])]
        self.documents = [encoded(read_document(line, IS_WIDE)) for line in self.lines]
        self.least = self.least_memory()

    def want(self, holds: bool, reason: str) -> None:
        if not holds:
            raise Wrong(reason)

    def run(self, command: str, data: bytes, *words: str, limit: int | None = None) -> Ran:
        """Runs a command over an input, from a file or from standard input, with so many KiB of memory."""
        self.input = data
        file = self.room / "input"
        by_name = self.rng.random() < 0.5
        if by_name:
            file.write_bytes(data)
        self.command = [str(PROGRAM), command, str(file) if by_name else "-", *words]
        if limit is not None:
            self.command = [*LIMITED, str(limit), *self.command]
        self.runs += 1
        try:
            ended = subprocess.run(self.command, input=b"" if by_name else data, capture_output=True, timeout=TIMEOUT)
        except subprocess.TimeoutExpired:
            raise Wrong("a hang") from None
        self.want(ended.returncode in (0, 1), f"status {ended.returncode}")
        return Ran(ended.returncode, ended.stdout, ended.stderr)

    def serve(self, data: bytes, commands: bytes, limit: int | None = None) -> Ran:
        """Runs a session over a dump, with these commands and so many KiB of memory."""
        self.input, self.served = commands, data
        file = self.room / "served"
        file.write_bytes(data)
        self.command = [*([] if limit is None else [*LIMITED, str(limit)]), str(PROGRAM), "serve", str(file)]
        self.runs += 1
        try:
            ended = subprocess.run(self.command, input=commands, capture_output=True, timeout=TIMEOUT)
        except subprocess.TimeoutExpired:
            raise Wrong("a hang") from None
        self.want(ended.returncode in (0, 1), f"status {ended.returncode}")
        return Ran(ended.returncode, ended.stdout, ended.stderr)

    def plain_dump(self) -> Dump:
        """A dump without doubles and decimal128. What is then asked of it has some here and there."""
        self.inputs.is_wide = False
        dump = Dump(self.inputs.documents())
        self.inputs.is_wide = IS_WIDE and self.rng.random() < 0.3
        return dump

    def over_find(self, find: Find, dump: Dump, fault: str = "") -> Token | None:
        """find of a dump shows what Python finds, or the fault of the dump. The token, where it is known to the end."""
        status, out, told = find.shown(dump, NAME, fault)
        ran = self.run("find", dump.bytes, *find.words())
        err = ran.err.decode()
        # The model tells a token by value without a digest.
        token = token_in(err)
        short = err.replace(token.text(), token._replace(tied=b"").text()) if token else err
        self.want((ran.status, ran.out) == (status, out) and told in (err, short), f"what is found; wanted {status} {told!r}")
        return token_in(told)

    def over_dump(self, data: bytes) -> None:
        """dump, check, find and pack of a dump show what Python reads in it."""
        read = read_dump(data, IS_WIDE)
        lines = [written(it).encode() + b"\n" for it in read.front()]
        faults = read.faults()
        fault = f"{NAME}: {faults[0]}" if faults else ""
        told = f"{fault}{len(lines)} objects found\n".encode()
        self.want(self.run("dump", data) == Ran(int(faults != []), b"".join(lines), told), f"dump; wanted {told!r}")
        checked = "".join(faults).encode(), f"{len(read.documents)} documents, {len(faults)} faulty\n".encode()
        self.want(self.run("check", data) == Ran(int(faults != []), *checked), f"check; wanted {checked!r}")

        self.inputs.made = read.good()
        self.over_find(self.inputs.find(), Dump(read.front(), data), faults[0].rstrip("\n") if faults else "")
        self.over_text(b"".join(lines))

    def over_text(self, text: bytes) -> None:
        """pack of a text writes the documents that Python reads, and tells the first fault that it finds."""
        status, documents, told = packed(text, NAME)
        self.want(self.run("pack", text) == Ran(status, documents, told.encode()), f"what is packed; wanted {status} {told!r}")

    def over_memory(self) -> None:
        """With little memory a run is as with enough, or tells that there is none after a front of what it writes.

        Nothing nests deep: where the system has no memory to let the stack grow, it ends the program by a signal.
        """
        command = self.rng.choice(COMMANDS)
        words = self.rng.choice([["--query", '{"age":30}'], ["--sort", '{"name":1}'], ["--sort", '{"age":-1}', "--limit", "3"], BY_VALUE])
        words = words if command == "find" else []
        from_all, between = (self.lines, b"\n") if command == "pack" else (self.documents, b"")
        data = between.join(self.rng.choices(from_all[:SHALLOW], k=self.rng.choice([1, 10, 100, 1000])))
        data += self.rng.choice([b"", b"["])
        limit = self.least + self.rng.randrange(200 + len(data) // 256)
        if command == "serve":
            commands = b'{"createIndex":"age"}\n{"find":{"age":{"$gte":18}},"sort":{"name":1}}\n{"getMore":1,"batch":9}\n{"explain":{}}\n'
            full, ran = self.serve(data, commands), self.serve(data, commands, limit)
        else:
            full, ran = self.run(command, data, *words), self.run(command, data, *words, limit=limit)
        if ran != full:
            self.want(ran.status == 1 and ran.err == f"{NAME}: no memory\n".encode(), "what is told with little memory")
            self.want(full.out.startswith(ran.out), "what is written with little memory")

    def least_memory(self) -> int:
        """The KiB with which `find` sorts a document or tells that it has no memory: it needs the most stack of all commands."""
        limit = 1024
        words = [PROGRAM, "find", "-", "--sort", '{"age":1}', *BY_VALUE]
        while subprocess.run([*LIMITED, str(limit), *words], input=self.documents[0], capture_output=True).returncode not in (0, 1):
            limit += 64
        return limit

    def over_words(self) -> None:
        """Of a query, a sort or a token of any form the first fault is told."""
        rng, dump, find = self.rng, self.plain_dump(), self.inputs.find()
        ways = rng.choice([("query",), ("query",), ("sort",), ("query", "sort"), ("after",)])
        texts = {name: self.damaged_word(getattr(find, name) or "A" * 60) for name in ways}
        self.over_find(find._replace(**texts), dump)

    def over_requests(self) -> None:
        """What is found in random documents by random requests, and after the tokens of earlier ones, is what Python finds."""
        inputs, rng, dump = self.inputs, self.rng, self.plain_dump()
        lines = b"".join(written(it).encode() + b"\n" for it in dump.documents)
        self.want(self.run("dump", dump.bytes) == Ran(0, lines, b"%d objects found\n" % len(dump.documents)), "dump of random documents")
        earlier: list[Find] = []
        for _ in range(rng.randint(1, 8)):
            find = inputs.find()
            if earlier and rng.random() < 0.5:
                before = rng.choice(earlier)
                find = (find if rng.random() < 0.1 else before)._replace(after=before.after, batch=find.batch, index=find.index)
                if rng.random() < 0.3:
                    find = find._replace(after=inputs.bent_token(find.after, len(dump.documents)))
            if token := self.over_find(find, dump):
                earlier.append(find._replace(after=token.text()))

    def over_talk(self) -> None:
        """The replies to random commands, of which some are damaged, are those that Python makes."""
        inputs, rng, session = self.inputs, self.rng, Session(self.plain_dump())
        first = rng.choice([b""] * 20 + [b'{"find":{}}', b'{"createIndex":"%d"}'])
        lines = [first.replace(b"%d", b"%d" % number) for number in range(rng.choice([16, 62, 64]) if first else 0)]
        wanted = [session.reply(line) for line in lines]
        damage = rng.choice([0.0, 0.02, 0.5])
        for _ in range(rng.choice([3, 40, 150, 400])):
            line = inputs.text(inputs.command(session)).encode()
            if rng.random() < damage:
                line = self.damaged(line, [part.encode() for part in PARTS]).replace(b"\n", b" ")
            lines.append(line)
            if line.strip(b" \t\r"):
                wanted.append(session.reply(line))
        ran = self.serve(session.dump.bytes, b"\n".join(lines) + rng.choice([b"", b"\n", b"\n \t\r\n"]))
        told = ran.out.decode().splitlines()
        wrong = next((place for place, reply in enumerate(wanted) if told[place : place + 1] != [reply]), None)
        said = "" if wrong is None else f": wanted {wanted[wrong]}, came {told[wrong : wrong + 1]}"
        self.want((ran.status, ran.err, len(told)) == (0, b"", len(wanted)) and wrong is None, f"the replies of a session{said}")

    def damaged(self, data: bytes, parts: list[bytes]) -> bytes:
        """Bytes with a few changes."""
        rng = self.rng
        changed = bytearray(data)
        for _ in range(rng.choice([1, 1, 1, 2, 3, 8])):
            at = rng.randrange(len(changed) + 1)
            upto = min(len(changed), at + rng.choice([1, 1, 2, 4, 16, 100]))
            way = rng.choice([0, 0, 0, 1, 1, 2, 3, 4, 4, 5, 6])
            if way == 0:
                changed[at : at + 1] = bytes([rng.choice(BYTES)])
            elif way == 1:
                changed[at : at + 4] = rng.choice(COUNTS).to_bytes(4, "little")
            elif way == 2:
                del changed[at:upto]
            elif way == 3:
                changed[at:at] = changed[at:upto]
            elif way == 4 and at < len(changed):
                changed[at] ^= 1 << rng.randrange(8)
            elif way == 5:
                changed[at:at] = rng.choice(parts)
            elif way == 6 and rng.random() < 0.2:
                del changed[at:]
        return bytes(changed)

    def damaged_dump(self) -> bytes:
        """Some documents, of which one or two are damaged, mostly with their length put right again."""
        chosen = [self.some_document() for _ in range(self.rng.randint(1, 6))]
        for _ in range(self.rng.randint(0, 2)):
            at = self.rng.randrange(len(chosen))
            changed = self.damaged(chosen[at], [document[4:-1] for document in self.rng.sample(self.documents, 3)])
            if self.rng.random() < 0.7:
                changed = len(changed).to_bytes(4, "little") + changed[4:]
            chosen[at] = changed
        return b"".join(chosen)

    def some_document(self) -> bytes:
        """A document of the examples, one of the others, a random one, or one of some 200 levels."""
        way = self.rng.random()
        if way < 0.3:
            return self.rng.choice(self.documents[:SHALLOW])
        if way < 0.6:
            return self.rng.choice(self.documents[SHALLOW:])
        if way < 0.97:
            return encoded(self.inputs.document())
        value = obj()
        for _ in range(self.rng.randint(195, 199)):
            value = self.rng.choice([Value("array", (value,)), obj(("a", value))])
        return encoded(obj(("a", self.rng.choice([value, Value("javascriptWithScope", ("", obj(("a", value))))]))))

    def with_other_value(self, line: bytes) -> bytes:
        """A line with another value in place of one, or another name."""
        places = list(re.finditer(rb'{"\$\w+":[^{}]*}|"[^"\\]*":?|\b\w+\b', line))
        if not places:
            return line
        place = self.rng.choice(places)
        other = self.rng.choice(NAMES if place[0].endswith(b":") else VALUES)
        return line[: place.start()] + other.encode() + line[place.end() :]

    def damaged_text(self) -> bytes:
        chosen = self.rng.choices(self.lines, k=self.rng.randint(1, 6))
        for _ in range(self.rng.randint(0, 2)):
            at = self.rng.randrange(len(chosen))
            if self.rng.random() < 0.7:
                chosen[at] = self.with_other_value(chosen[at])
            else:
                chosen[at] = self.damaged(chosen[at], [part.encode() for part in PARTS])
        return self.rng.choice([b"\n", b"\r\n", b"\n \t\n"]).join(chosen) + self.rng.choice([b"", b"\n"])

    def damaged_word(self, text: str) -> str:
        """A text that can be a word of a line, with a few changes."""
        data = text.encode()
        made = self.with_other_value(data) if self.rng.random() < 0.4 else self.damaged(data, [part.encode() for part in PARTS])
        return made.replace(b"\0", b"").decode(errors="replace")

    def once(self, ways: dict[str, float]) -> None:
        self.inputs.is_wide = IS_WIDE
        match self.rng.choices([*ways], [*ways.values()])[0]:
            case "requests":
                self.over_requests()
            case "talk":
                self.over_talk()
            case "memory":
                self.over_memory()
            case "words":
                self.over_words()
            case "dump":
                self.over_dump(self.damaged_dump())
            case "text":
                self.over_text(self.damaged_text())

    def keep(self, reason: str) -> None:
        """Keeps what is wanted to see a failure again."""
        kept = Path(tempfile.mkdtemp(prefix="hostile_"))
        (kept / "input").write_bytes(self.input)
        (kept / "served").write_bytes(self.served)
        (kept / "words").write_text(f"{self.command!r}\n{reason}\n")
        print(f"FAILED: {reason}: {kept}", flush=True)


def token_in(told: str) -> Token | None:
    """The token at the end of what is told, if there is one."""
    return read_token(told.rstrip("\n").rpartition(", token ")[2])


def main() -> int:
    ways = {way: WAYS.get(way, 0.0) for way in sys.argv[4:] or WAYS}
    if len(sys.argv) not in (2, 3, 4, 5) or not all(word.isdecimal() for word in sys.argv[1:3]) or not any(ways.values()):
        print(__doc__, file=sys.stderr)
        return 2
    seconds = int(sys.argv[1])
    seed = int(sys.argv[2]) if len(sys.argv) > 2 else random.randrange(1 << 32)
    print(f"seed {seed}", flush=True)
    # A value of 200 levels is read by as many calls, and more.
    sys.setrecursionlimit(5000)
    # The programs that are started inherit it.
    resource.setrlimit(resource.RLIMIT_STACK, (STACK, resource.getrlimit(resource.RLIMIT_STACK)[1]))
    inputs = failed = 0
    with tempfile.TemporaryDirectory() as room:
        search = Search(seed, Path(room))
        until = time.monotonic() + seconds
        while time.monotonic() < until and failed < FAILURES:
            inputs += 1
            try:
                search.once(ways)
            except Wrong as wrong:
                search.keep(str(wrong))
                failed += 1
    print(f"{search.runs} runs")
    print(f"{inputs - failed} passed, {failed} failed")
    return 1 if failed else 0


if __name__ == "__main__":
    sys.exit(main())
