"""Tests of the files that options name: the one that a query is in, and the one that documents go to. And of the short options."""

import gzip
import json
import os
import signal
import subprocess
import sys
from typing import Iterator, List, Tuple

from .support import COMMAND, DAMAGED, PEOPLE, PEOPLE_LINES, Room, environment, run_of_bytes, run_package, wait_for

OLD = '{"age":{"$gte":90}}'
OLD_LINES = [line for line in PEOPLE_LINES if int(json.loads(line)["age"]["$numberInt"]) >= 90]


class QueryFiles(Room):
    def dumps(self) -> Iterator[str]:
        """A plain file, which the program opens itself, and a packed one."""
        yield str(PEOPLE)
        yield str(self.file(gzip.compress(PEOPLE.read_bytes()), "people.bson.gz"))

    def test_find_query_and_count(self) -> None:
        """They take the query of a file, on several lines too, and of standard input, where the dump is another file."""
        text = '{\n  "age": {"$gte": 90}\n}\n'
        file = str(self.file(text.encode(), "query.json"))
        for dump in self.dumps():
            for name in (file, "-", "/dev/stdin"):
                for word in ([f"--queryFile={name}"], ["--queryFile", name]):
                    status, found, told = run_of_bytes("find", dump, *word, stdin=text.encode())
                    self.assertEqual((status, found.splitlines()), (0, OLD_LINES), told)
                self.assertEqual(run_of_bytes("count", dump, "--queryFile", name, stdin=text.encode())[:2], (0, b"49\n"))
                status, found, _ = run_of_bytes("query", dump, "--queryFile", name, stdin=text.encode())
                self.assertEqual((status, found), (0, b"".join(dump.encode() + b"\t" + line + b"\n" for line in OLD_LINES)))

    def test_a_query_that_is_too_long_for_an_argument(self) -> None:
        """Such as one with 30,000 ids."""
        text = json.dumps({"_id": {"$in": [*range(30_000)]}})
        self.assertGreater(len(text), 131_072)
        file = str(self.file(text.encode(), "query.json"))
        for dump in self.dumps():
            self.assertEqual(run_of_bytes("count", dump, "--queryFile", file)[:2], (0, b"500\n"))
            self.assertEqual(run_of_bytes("find", dump, "--queryFile", file, "--count")[:2], (0, b"500\n"))

    def test_what_is_refused(self) -> None:
        empty, latin = str(self.file(b"", "empty.json")), str(self.file(b'{"a":"\xe9"}', "latin.json"))
        both = "argument --query: not allowed with argument --queryFile"
        for dump in self.dumps():
            for command, failed in (("find", 1), ("query", 2), ("count", 2)):
                for words, status, text in (
                    (("--queryFile", "/missing"), failed, "/missing"),
                    (("--queryFile", latin), failed, "latin.json: not UTF-8 at byte 6" if command != "find" or dump != str(PEOPLE) else "query: byte 6: not JSON"),
                    (("--queryFile", empty), failed, "query: byte 0: not JSON"),
                    (("--queryFile", empty, "--query", "{}"), 2, both),
                    (("--queryFile", empty, "-q", "{}"), 2, "argument -q/--query: not allowed with argument --queryFile"),
                ):
                    found, out, told = run_of_bytes(command, dump, *words)
                    self.assertEqual((found, out), (status, b""), told)
                    self.assertIn(text.replace("argument --query:", "argument -q/--query:"), told)
        for command in ("find", "query", "count"):
            self.assertEqual(run_of_bytes(command, "-", "--queryFile", "-"), (2, b"", "bsonkit: standard input is named twice\n"))


class OutFiles(Room):
    def written(self, *words: str, status: int = 0, stdin: bytes = b"") -> Tuple[List[str], str]:
        """The names of the files after a command that writes to `out`, and what it says."""
        found, out, told = run_of_bytes(*words, "-o", str(self.room / "out"), stdin=stdin)
        self.assertEqual((found, out), (status, b""), told)
        return sorted(it.name for it in self.room.iterdir()), told

    def test_each_command(self) -> None:
        """The file has what standard output would have, from a plain dump, a packed one and a pipe."""
        data, packed = PEOPLE.read_bytes(), self.file(gzip.compress(PEOPLE.read_bytes()), "people.bson.gz")
        lines = b"\n".join([*PEOPLE_LINES, b""])
        old = b"\n".join([*OLD_LINES, b""])
        for words, stdin, wanted in (
            (("dump", str(PEOPLE)), b"", lines), (("dump", str(packed)), b"", lines), (("dump", "-"), data, lines),
            (("dump", str(PEOPLE), str(packed)), b"", lines * 2), (("dump", str(packed), "-f", "_id", "--type", "csv"), b"", b"_id\n" + b"".join(b"%d\n" % it for it in range(500))),
            (("find", str(PEOPLE), "-q", OLD), b"", old), (("find", str(packed), "-q", OLD), b"", old), (("find", "-", "-q", OLD), data, old),
            (("find", str(PEOPLE), "--bson"), b"", data), (("find", str(PEOPLE), "-q", OLD, "--count"), b"", b"49\n"),
            (("query", str(PEOPLE), "-q", OLD), b"", b"".join(os.fsencode(PEOPLE) + b"\t" + line + b"\n" for line in OLD_LINES)),
            (("pack", "-"), lines, data), (("pack", str(self.file(lines, "lines.jsonl"))), b"", data),
        ):  # fmt: skip
            names, told = self.written(*words, stdin=stdin)
            with self.subTest(words):
                self.assertEqual((self.room / "out").read_bytes(), wanted)
                self.assertEqual(set(names), {"out", "people.bson.gz", "lines.jsonl"} & {*names})
                self.assertRegex(told, r"^(.*: )?\d+ (objects found|documents, end.*|documents in 1 of 1 files|objects packed)\n")
            (self.room / "out").unlink()

    def test_other_names_of_the_option(self) -> None:
        """As bsondump has it."""
        out = str(self.room / "out")
        for words in (("--outFile", out), (f"--outFile={out}",), ("-o", out), (f"-o{out}",)):
            self.assertEqual(run_of_bytes("dump", str(PEOPLE), *words)[:2], (0, b""))
            self.assertEqual((self.room / "out").read_bytes().splitlines(), PEOPLE_LINES)
            (self.room / "out").unlink()

    def test_what_is_not_whole(self) -> None:
        """Then no file is written, and one that is there stays as it is, with its rights."""
        bad, packed = self.file(PEOPLE.read_bytes() + DAMAGED), self.file(gzip.compress(PEOPLE.read_bytes())[:-9], "half.bson.gz")
        for words, status, stdin in (
            (("dump", str(bad)), 1, b""), (("dump", str(packed)), 1, b""), (("dump", str(PEOPLE), "/missing"), 1, b""), (("find", str(bad)), 1, b""),
            (("find", str(PEOPLE), "-q", "{"), 1, b""), (("query", str(PEOPLE), str(bad)), 1, b""), (("query", str(PEOPLE), "/missing"), 2, b""),
            (("pack", "-"), 1, b'{"a":1}\n{"a":}\n'),
        ):  # fmt: skip
            before = {"dump.bson", "half.bson.gz"}
            with self.subTest(words):
                names, told = self.written(*words, status=status, stdin=stdin)
                self.assertEqual(set(names), before)
                self.assertTrue(told.endswith(f"bsonkit: {self.room}/out is not written, since not all went well\n") or "-q" in words, told)
                there = self.file(b"there", "out")
                there.chmod(0o640)
                names, _ = self.written(*words, status=status, stdin=stdin)
                self.assertEqual((set(names), there.read_bytes(), there.stat().st_mode & 0o777), ({*before, "out"}, b"there", 0o640))
                there.unlink()
        there = self.file(b"there", "out")
        there.chmod(0o640)
        self.written("find", str(PEOPLE), "-q", OLD)
        self.assertEqual((there.read_bytes().splitlines(), there.stat().st_mode & 0o777), (OLD_LINES, 0o640))

    def test_files_that_cannot_be_written(self) -> None:
        dump = self.file(PEOPLE.read_bytes())
        for out, told in (
            (str(dump), f"{dump} is the dump"), ("/missing/out", "/missing/out: No such file or directory"), (str(self.room), f"{self.room}: Is a directory"),
            ("", ": an empty name"),
        ):
            for words in (("dump",), ("find", "--count")):
                status, found, said = run_of_bytes(words[0], str(dump), *words[1:], "--outFile", out)
                self.assertEqual((found, said), (b"", f"bsonkit: {told}\n"))
                self.assertEqual(status, 1)
        self.assertEqual((dump.read_bytes(), [it.name for it in self.room.iterdir()]), (PEOPLE.read_bytes(), ["dump.bson"]))
        with open(dump, "rb") as file:
            run = subprocess.run([*COMMAND, "dump", "-", "-o", dump], env=environment(), stdin=file, capture_output=True, text=True)
        self.assertEqual((run.returncode, run.stderr), (1, f"bsonkit: {dump} is the dump\n"))
        status, _, said = run_of_bytes("dump", str(dump), "-o", "/dev/full")
        self.assertEqual((status, said.splitlines()[0]), (1, "bsonkit: cannot write"))

    def test_a_file_that_is_not_written_on_a_signal(self) -> None:
        """The new file is deleted, and what is there stays."""
        there, pids = self.file(b"there", "out"), self.room / "pids"
        program = self.stuck()
        words = [sys.executable, "-m", "bsonfind", "--program", program, "dump", str(PEOPLE), "-o", str(there)]
        run = subprocess.Popen(words, env=environment(), stdout=subprocess.DEVNULL, stderr=subprocess.DEVNULL)
        wait_for(lambda: pids.exists() and bool(pids.read_text()))
        run.send_signal(signal.SIGTERM)
        self.assertEqual(run.wait(60), 143)
        self.assertEqual(there.read_bytes(), b"there")
        self.assertEqual({it.name for it in self.room.iterdir() if it.name.startswith(".")}, set())


class ShortOptions(Room):
    def test_short_options(self) -> None:
        """They are those of mongoexport: the program itself is started for a plain file, as by the long ones."""
        for words, longer in (
            (("-q", '{"_id":7}', "-f", "name"), ("--query", '{"_id":7}', "--fields", "name")),
            (('-q={"_id":7}', "-f=name"), ("--query", '{"_id":7}', "--fields", "name")),
        ):
            command = [sys.executable, "-m", "bsonfind", "--program", self.counting(), "find", str(PEOPLE), *words]
            run = subprocess.run(command, env=environment(), capture_output=True, text=True)
            other = run_package("find", str(PEOPLE), *longer)
            self.assertEqual((run.returncode, run.stdout, run.stderr), (0, other.stdout, other.stderr))
            self.assertEqual(len([it for it in self.starts() if "find -" in it]), 1)
            (self.room / "starts").unlink()
        self.assertEqual(run_package("count", str(PEOPLE), "-q", OLD).stdout, "49\n")
        self.assertEqual(run_package("dump", str(PEOPLE), "-f", "name", "--noId").stdout.splitlines()[0], '{"name":"陳美玲"}')
