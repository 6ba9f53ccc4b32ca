#!/usr/bin/env python3
"""Compares `bsonwide find` over random dumps of all types with a model: whole answers, by an index, by pages, and over damaged dumps; as
lines, as bytes, and how many.

    tests/wide/finds.py [PROGRAM [DUMPS [SEED [REQUESTS]]]]

The program is `bsonwide`. Each dump has 20 requests, or REQUESTS. The model compares all numbers exactly, as MongoDB does. What is found
must be the lines of `bsonwide dump` at the places of the model's answer, in each layout, with `--bson` the bytes of the dump at these
places, and with `--count` how many they are; standard error and the status stay. A query in a file has the answer of the same in an
argument. A query is refused for its types only at the place of the first `$type` with which they split the four types of numbers into more
than two classes.
"""

import csv
import io
import json
import random
import re
import subprocess
import sys
import tempfile
from pathlib import Path

sys.path[:0] = [str(Path(__file__).resolve().parents[1]), str(Path(__file__).resolve().parents[2] / "python")]

from model.answers import IN_RUNS, BadFilter, Dump, Request, check_filter, path_fault, sort_pairs, types_place
from support import PROGRAM as BUILT
from support import Tests, usage_of
from questions import NOT_TOLD, WideInputs

PROGRAM = str(Path(sys.argv[1]).resolve()) if len(sys.argv) > 1 else str(BUILT.with_name("bsonwide"))
DUMPS = int(sys.argv[2]) if len(sys.argv) > 2 else 40
SEED = int(sys.argv[3]) if len(sys.argv) > 3 else 75
REQUESTS = int(sys.argv[4]) if len(sys.argv) > 4 else 20
DAMAGES = 300

USAGE = usage_of("bsonwide")
# A query in a file has at most so many bytes.
LONGEST_QUERY = 16_777_216
COUNTS = re.compile(r"([0-9]+) documents, (end|more)(?:, token (\S+))?\n")


def documents_of(dump: bytes) -> list[bytes]:
    """The bytes of each document: the first four of each are its length."""
    found, at = [], 0
    while at < len(dump):
        end = at + int.from_bytes(dump[at : at + 4], "little")
        found.append(dump[at:end])
        at = end
    return found


class Finding:
    """The comparison of one dump after the other with the model."""

    def __init__(self, rng: random.Random, room: str) -> None:
        self.rng, self.tests, self.room = rng, Tests(), Path(room)
        self.inputs = WideInputs(rng)
        self.refused = 0

    def run(self, *words: str) -> tuple[int, list[str], str]:
        """The status, the lines of standard output, and standard error."""
        status, out, said = self.run_bytes(*words)
        return status, out.decode().splitlines(keepends=True), said

    def run_bytes(self, *words: str, given: bytes = b"") -> tuple[int, bytes, str]:
        """The same, with standard output as bytes."""
        ran = subprocess.run([PROGRAM, *words], cwd=self.room, input=given, capture_output=True, check=False, timeout=60)
        return ran.returncode, ran.stdout, ran.stderr.decode()

    def find_in_dump(self, number: int) -> None:
        """Asks one dump many times, and once when it is damaged."""
        model = Dump(self.inputs.documents())
        (self.room / "dump.bson").write_bytes(model.bytes)
        status, lines, _ = self.run("dump", "dump.bson")
        self.tests.want(f"dump {number}", status == 0 and len(lines) == len(model.documents), status)
        for _ in range(REQUESTS):
            self.ask(number, model, lines)
        self.damage(number, model)

    def ask(self, number: int, model: Dump, lines: list[str]) -> None:
        query, sort = self.inputs.filter(), self.inputs.sort()
        request = Request(query, sort, self.rng.choice([0, 0, 0, 1, 2]), self.rng.choice([0, 0, 0, 1, 5]))
        words = ["--query", self.inputs.text(query), "--sort", self.inputs.text(sort), "--skip", str(request.skip), "--limit", str(request.limit)]
        index = self.inputs.path()
        if self.rng.random() < 0.3 and not path_fault(index):
            words += ["--index", index]
        name = f"dump {number}, {words}"
        status, found, said = self.run("find", "dump.bson", *words)
        try:
            check_filter(query)
            is_good = sort_pairs(sort) is not None
        except BadFilter:
            is_good = False
        if not is_good:
            self.tests.want(name, (status, found) == (1, []) and said.startswith("bsonwide: ") and said.count("\n") == 1, (status, said))
            self.forms(name, words, (status, said), b"", b"")
            self.layouts(name, words, (status, said), None)
            self.rows(name, words, (status, said), None)
        elif NOT_TOLD in said:
            self.refused += 1
            place = types_place(query, IN_RUNS)
            wanted = (1, [], f"bsonwide: query: place {json.dumps(place, ensure_ascii=False)}: {NOT_TOLD}\n")
            self.tests.want(name, place is not None and (status, found, said) == wanted, (status, found, said, wanted))
            self.forms(name, words, (status, said), b"", b"")
        else:
            places = model.answer(request)
            wanted = [lines[place] for place in places]
            counts = COUNTS.fullmatch(said)
            self.tests.want(name, status == 0 and found == wanted and counts is not None and counts[1] == str(len(wanted)), (status, said, found, wanted))
            documents = documents_of(model.bytes)
            self.forms(name, words, (status, said), b"".join(documents[place] for place in places), f"{len(places)}\n".encode())
            self.layouts(name, words, (status, said), places)
            self.rows(name, words, (status, said), places)
            self.pages(name, words, wanted)
        if self.rng.random() < 0.2:
            (self.room / "query.json").write_text(f"{words[1]}\n", encoding="utf-8")
            by_file = self.run("find", "dump.bson", "--queryFile", "query.json", *words[2:])
            self.tests.want(f"{name}, the query in a file", by_file == (status, found, said), (by_file, found, said))

    def forms(self, name: str, words: list[str], ended: tuple[int, str], dump: bytes, count: bytes) -> None:
        """With a flag standard output is another, and the status and standard error are the same."""
        for flag, wanted in (("--bson", dump), ("--count", count)):
            status, found, said = self.run_bytes("find", "dump.bson", *words, flag)
            self.tests.want(f"{name}, {flag}", found == wanted and (status, said) == ended, (status, said, found, wanted))

    def layouts(self, name: str, words: list[str], ended: tuple[int, str], places: list[int] | None) -> None:
        """In a layout the texts are those of `dump` in it, and the status and standard error are the same; without an answer nothing is printed."""
        layout = self.rng.choice([["--jsonFormat", "relaxed"], ["--fields", "a,b.c"], ["--fields", "_id,b", "--jsonFormat=relaxed"], ["--fields", "c.a", "--noId"]])
        status, lines, _ = self.run("dump", "dump.bson", *layout)
        texts = [] if places is None else [lines[place].removesuffix("\n") for place in places]
        array = [] if places is None else ["[" + ",".join(texts) + "]\n"]
        for more, wanted in (([], [f"{it}\n" for it in texts]), (["--jsonArray"], array)):
            status, found, said = self.run_bytes("find", "dump.bson", *words, *layout, *more)
            self.tests.want(f"{name}, {layout + more}", (found.decode(), status, said) == ("".join(wanted), *ended), (status, said, found, wanted))

    def rows(self, name: str, words: list[str], ended: tuple[int, str], places: list[int] | None) -> None:
        """As CSV the rows are those of `dump`, after the header; as read by Python's `csv`."""
        layout = ["--type", "csv", "--fields", self.rng.choice(["a,b.c", "_id", "b,_id,a.0.b"])]
        header, *all_rows = self.read_rows("dump", "dump.bson", *layout)[0]
        for more in ([], ["--noHeaderLine"]):
            got = self.read_rows("find", "dump.bson", *words, *layout, *more)
            wanted = [] if places is None else [*([] if more else [header]), *(all_rows[place] for place in places)]
            self.tests.want(f"{name}, {layout + more}", got == (wanted, *ended), (got, wanted))

    def read_rows(self, *words: str) -> tuple[list[list[str]], int, str]:
        """The rows on standard output, the status, and standard error."""
        status, found, said = self.run_bytes(*words)
        return list(csv.reader(io.StringIO(found.decode(), newline=""), strict=True)), status, said

    def pages(self, name: str, words: list[str], wanted: list[str]) -> None:
        """The pages of an answer, joined, are the answer."""
        size, joined, token, more = self.rng.randrange(1, 4), [], [], "more"
        if self.rng.random() < 0.5:
            ran = self.run_bytes("find", "dump.bson", *words, "--batch", str(size), "--count")
            self.tests.want(f"{name}: a page has no count", ran == (2, b"", USAGE), ran)
        while more == "more":
            status, found, said = self.run("find", "dump.bson", *words, "--batch", str(size), *token)
            counts = COUNTS.fullmatch(said)
            if status or counts is None:
                joined = [said]
                break
            joined += found
            more, token = counts[2], ["--after", counts[3]] if counts[3] else []
        self.tests.want(f"{name}: pages of {size}", joined == wanted, (joined, wanted))

    def damage(self, number: int, model: Dump) -> bool:
        """Changes a byte of a dump, or some of it, and says whether it has a fault then."""
        data = bytearray(model.bytes)
        if not data:
            return False
        data[self.rng.randrange(len(data))] ^= self.rng.choice([1 << self.rng.randrange(8), self.rng.randrange(1, 256)])
        return self.refuses(f"dump {number}, damaged", bytes(data[: self.rng.choice([len(data), len(data), self.rng.randrange(len(data))])]))

    def refuses(self, name: str, dump: bytes) -> bool:
        """Of a dump with a fault, which it says, nothing is printed but its first fault, whatever the query matches."""
        (self.room / "bad.bson").write_bytes(dump)
        status, faults, _ = self.run("check", "bad.bson")
        if status == 0:
            return False
        wanted = f"bsonwide: {faults[0]}"
        for query in ("{}", '{"_id":"no such id"}', '{"a":{"$gt":1.5}}'):
            ran = self.run("find", "bad.bson", "--query", query)
            self.tests.want(f"{name}, {query}", ran == (1, [], wanted), (ran, wanted))
        return True

    def damages(self) -> None:
        """Faults that bytes after the document would end: of a document that no query matches, last or before another one."""
        good = b"\x10\0\0\0\x01a\0\0\0\0\0\0\0\0\x40\0"
        for name, bad in {
            "an ObjectId without its bytes": b"\x08\0\0\0\x07c\0\0",
            "a text that is longer than its document": b"\x1b\0\0\0\x01b\0\0\0\0\0\0\0\xf8\x3f\x02c\0\x10\0\0\0pen\0\0",
            "binary data that are longer": b"\x10\0\0\0\x05c\0\x10\0\0\0\0abc\0",
            "a DBPointer without its id": b"\x0f\0\0\0\x0cc\0\x03\0\0\0db\0\0",
            "a decimal128 that is cut short": b"\x10\0\0\0\x13c\0\0\0\0\0\0\0\0\0\0",
        }.items():
            for dump in (good + bad, good + bad + good, bad + good):
                self.tests.want(f"{name}: a fault", self.refuses(name, dump), dump)
        refused, number = 0, 0
        while refused < DAMAGES:
            refused += self.damage(number, Dump(self.inputs.documents()))
            number += 1

    def in_files(self) -> None:
        """A query in a file or on standard input: its limit, its faults, and files that are not read."""
        dump, match, other = b"\x10\0\0\0\x01a\0\0\0\0\0\0\0\xf8\x3f\0", b'{"a":{"$lt":1.75}}', b'{"a":2}'
        (self.room / "one.bson").write_bytes(dump)
        (self.room / "query.json").write_bytes(match)
        for text in (match, match + b"\n", b" \n\t" + match + b" \r\n\n", match.ljust(LONGEST_QUERY), other):
            self.want_query(text, text != other)
        for text, said in (
            (match.ljust(LONGEST_QUERY + 1), "input too long"),
            (b"", self.said_of("")),
            (b'{"a":', self.said_of('{"a":')),
            (b'{"a":1}x', self.said_of('{"a":1}x')),
            (b'{"\xff":1}', "query: byte 2: not JSON"),
            (b'{"a":1}\0', self.said_of('{"a":1}x')),
        ):
            (self.room / "bad.json").write_bytes(text)
            wanted = (1, b"", f"bsonwide: {said}\n")
            for ran in self.asked(text, "bad.json"):
                self.tests.want(f"the query {text[:20]!r} in a file", ran == wanted, (ran, wanted))
        for words, status, said in (
            # The query is read before the dump is opened, and its text is understood after that.
            (("missing.bson", "--queryFile", "missing.json"), 1, "bsonwide: cannot open missing.json\n"),
            (("missing.bson", "--queryFile", "."), 1, "bsonwide: cannot read\n"),
            (("missing.bson", "--queryFile", "one.bson"), 1, "bsonwide: cannot open missing.bson\n"),
            (("one.bson", "--queryFile", ""), 1, "bsonwide: cannot open \n"),
            (("one.bson", "--queryFile"), 2, USAGE),
            (("one.bson", "--queryFile", "query.json", "--queryFile", "query.json"), 2, USAGE),
            (("one.bson", "--queryFile", "query.json", "--query", "{}"), 2, USAGE),
            (("one.bson", "--query={}", "--queryFile=missing.json"), 2, USAGE),
            (("-", "--queryFile", "-"), 2, USAGE),
            (("--queryFile=-", "--", "-"), 2, USAGE),
        ):
            ran = self.run_bytes("find", *words)
            self.tests.want(f"find {words}", ran == (status, b"", said), (ran, said))
        ran = self.run_bytes("find", "-", "--queryFile", "query.json", "--bson", given=dump)
        self.tests.want("a query in a file, and the dump on standard input", ran[:2] == (0, dump), ran)
        for command in ("dump", "check", "pack", "serve"):
            ran = self.run_bytes(command, "one.bson", "--queryFile", "query.json")
            self.tests.want(f"{command} with --queryFile", ran == (2, b"", USAGE), ran)

    def too_long(self) -> None:
        """A file of more than 4,294,967,295 bytes is refused by its size, after the query and before anything is read of it."""
        with (self.room / "long.bson").open("wb") as file:
            file.truncate(1 << 32)
        for words, said in (
            (("find", "long.bson"), "input too long"),
            (("serve", "long.bson"), "input too long"),
            (("find", "long.bson", "--query", '{"a":'), self.said_of('{"a":')),
        ):
            # Where it were read, memory would run out.
            ran = subprocess.run(
                ["sh", "-c", 'ulimit -v 100000; exec "$@"', "", PROGRAM, *words], cwd=self.room, input=b"", capture_output=True, check=False
            )
            wanted = (1, b"", f"bsonwide: {said}\n".encode())
            self.tests.want(f"{words} of 4 GiB", (ran.returncode, ran.stdout, ran.stderr) == wanted, ran)

    def asked(self, text: bytes, name: str, *words: str) -> list[tuple[int, bytes, str]]:
        """A run by a query in a file of that name, and one by the same on standard input."""
        (self.room / name).write_bytes(text)
        return [self.run_bytes("find", "one.bson", f"--queryFile={it}", *words, given=text) for it in (name, "-")]

    def want_query(self, text: bytes, is_found: bool) -> None:
        """The query of this text finds the one document, or none."""
        for status, found, said in self.asked(text, "good.json", "--count"):
            self.tests.want(f"the query {text[:40]!r} in a file", (status, found) == (0, b"1\n" if is_found else b"0\n"), (status, found, said))

    def said_of(self, query: str) -> str:
        """What is said of a query in an argument, without the name of the program."""
        return self.run("find", "one.bson", "--query", query)[2].removeprefix("bsonwide: ").removesuffix("\n")


def main() -> int:
    with tempfile.TemporaryDirectory() as room:
        finding = Finding(random.Random(SEED), room)
        finding.in_files()
        finding.too_long()
        finding.damages()
        for number in range(DUMPS):
            finding.find_in_dump(number)
    print(f"refused {finding.refused} times for types of numbers")
    print(f"{finding.tests.passed} passed, {finding.tests.failed} failed")
    return int(finding.tests.failed > 0)


if __name__ == "__main__":
    sys.exit(main())
