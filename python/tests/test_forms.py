"""Tests of `count`, `schema`, `info` and `grep` over every form of a dump: what each prints is the same, or it says what is wrong."""

import gzip
import os
import subprocess
import sys
import threading
from typing import Iterator, List, Tuple

from .archives import archive
from .goods import GOODS
from .support import DAMAGED, PATIENCE, PEOPLE, Room, environment, run_of_bytes, run_on_terminal

PEOPLE_DATA = PEOPLE.read_bytes()
# Where the 220th document ends.
MIDDLE = 39978
# The commands that read documents, each with words that are before a dump.
READING = (("count",), ("count", "--by", "address.city", "--sum", "age"), ("count", "--query", '{"age":{"$gte":90}}'), ("schema",), ("schema", "--json"))
GREP = ("grep", "--count", "Nairobi")


class Forms(Room):
    def setUp(self) -> None:
        super().setUp()
        self.data = archive([("club", "people", PEOPLE_DATA), ("shop", "goods", b"".join(GOODS))])

    def forms(self) -> Iterator[Tuple[object, bytes]]:
        """The names of the same documents in each form, with what is on standard input."""
        yield str(self.file(gzip.compress(PEOPLE_DATA), "people.bson.gz")), b""
        yield f"{self.file(self.data, 'night.archive')}::club.people", b""
        yield f"{self.file(gzip.compress(self.data), 'night.archive.gz')}::club.people", b""
        yield "-", PEOPLE_DATA

    def wanted(self) -> List[Tuple[int, bytes, str]]:
        """What the commands print of a plain file."""
        return [run_of_bytes(*words, PEOPLE) for words in READING]

    def test_good_ones(self) -> None:
        wanted = self.wanted()
        self.assertEqual([(status, told) for status, _, told in wanted], [(0, "")] * 3 + [(0, "500 documents\n")] * 2)
        for name, stdin in self.forms():
            with self.subTest(name):
                self.assertEqual([run_of_bytes(*words, name, stdin=stdin) for words in READING], wanted)
                found = 0, f"{name}\t109\t121\n".encode(), "109 documents in 1 of 1 files\n"
                self.assertEqual(run_of_bytes(*GREP, name, stdin=stdin), found)
        pipe = self.room / "pipe"
        os.mkfifo(pipe)
        for words, result in zip(READING, wanted):
            writer = threading.Thread(target=pipe.write_bytes, args=[PEOPLE_DATA], daemon=True)
            writer.start()
            self.assertEqual(run_of_bytes(*words, pipe), result)
            writer.join()

    def test_damaged_ones(self) -> None:
        """The same, and the damaged document is named; but of an archive its fault is in what it says of a collection."""
        data = PEOPLE_DATA[:MIDDLE] + DAMAGED + PEOPLE_DATA[MIDDLE:]
        plain, packed = self.file(data, "damaged.bson"), self.file(gzip.compress(data), "damaged.bson.gz")
        inside = f"{self.file(archive([('club', 'people', data)]), 'damaged.archive')}::club.people"
        place = 'document 220, byte 39985, path "d": bad boolean'
        for name in (str(plain), str(packed), inside):
            for words, (_, printed, told) in zip(READING, self.wanted()):
                value = " 02" if name != inside else ""
                report = f"bsonkit: {name}: {place}{value}\nbsonkit: {name}: 501 documents, 1 faulty\n"
                status, data, said = run_of_bytes(*words, name)
                self.assertEqual((status, data, said.replace(" 02\n", f"{value}\n")), (1, printed, report + told), (name, words))
            status, data, said = run_of_bytes(*GREP, name)
            self.assertEqual((status, data), (1, f"{name}\t109\t121\n".encode()))
            self.assertEqual(said, f"bsonkit: {name}: {place}\n109 documents in 1 of 1 files, 1 not searched in full\n")

    def test_archives(self) -> None:
        """`grep` and `info` take all collections, packed or not, from a pipe too; the others name what to give them."""
        names = [str(self.file(self.data, "night.archive")), str(self.file(gzip.compress(self.data), "night.archive.gz"))]
        for name, stdin in ((names[0], b""), (names[1], b""), ("-", self.data), ("-", gzip.compress(self.data))):
            found = run_of_bytes(*GREP, name, stdin=stdin)
            self.assertEqual(found, (0, f"{name}::club.people\t109\t121\n".encode(), "109 documents in 1 of 1 files\n"))
        lines = b"club\tpeople\tcollection\t500\t92726\t185\t\t\nshop\tgoods\tcollection\t6\t268\t45\t\t\n"
        for name in names:
            self.assertEqual(run_of_bytes("info", name), (0, lines, ""))
            told = f"bsonkit: {name}: an archive: name one of its collections, {name}::db.collection, or unpack it\n"
            for words in READING:
                self.assertEqual(run_of_bytes(*words, name)[::2], (2, told))

    def test_doubles(self) -> None:
        path = self.file(b"".join(GOODS))
        values = b"missing\t1\n0\t1\n1.5\t1\n9\t1\n9.5\t1\n10.25\t1\n30\t1\n"
        self.assertEqual(run_of_bytes("count", "--by", "price", path), (0, values, ""))
        self.assertEqual(run_of_bytes("count", "--sum", "cost", path)[1], b"6\t157.99\t0\t0\t0\n")
        self.assertIn(b"cost\tdecimal 66.7%, int 16.7%, missing 16.7%\t19\t50\t", run_of_bytes("schema", path)[1])
        self.assertEqual(run_of_bytes("grep", "--count", "price", path)[1], f"{path}\t5\t5\n".encode())

    def test_what_is_no_dump(self) -> None:
        """A missing file, a directory, an empty file and one of other bytes."""
        missing, junk = self.room / "missing.bson", self.file(b"hello world, this is no dump", "junk.bson")
        empty = self.file(b"", "empty.bson")
        for words in (*READING, ("info",), GREP):
            status, data, told = run_of_bytes(*words, missing)
            self.assertEqual((status, data, told.splitlines()[0]), (2, b"", f"bsonkit: {missing}: No such file or directory"), words)
            self.assertEqual(run_of_bytes(*words, empty)[0], 0, words)
            status, _, told = run_of_bytes(*words, junk)
            self.assertEqual(status, 1, words)
            self.assertIn(f"bsonkit: {junk}: ", told)
        for words in READING:
            self.assertEqual(run_of_bytes(*words, self.room)[::2], (2, f"bsonkit: {self.room}: it is a directory: name the dumps in it\n"))

    def test_memory_does_not_grow_with_the_dump(self) -> None:
        """It is bounded by what is read at once, here 32 kB, of which both dumps have much more."""
        code = """
import sys, tracemalloc
from unittest import mock
from bsonfind.__main__ import main
for name, value in (("_backup.reading._MOST", 1 << 15), ("_backup.grep._MOST", 1 << 15), ("_backup.query.Matching.most", 1 << 15),
                    ("_dumps.sources._PIECE", 1 << 14), ("_backup.workers.processors", lambda: 2)):
    mock.patch("bsonfind." + name, value).start()
for path in sys.argv[-3:]:
    tracemalloc.start()
    main([*sys.argv[1:-3], path])
    print("\\npeak", tracemalloc.get_traced_memory()[1], file=sys.stderr)
    tracemalloc.stop()
"""
        # What the first one takes to import is not compared.
        paths = [self.file(PEOPLE_DATA * count, f"{count}.bson") for count in (1, 3, 12)]
        for words in (*READING[1:4], ("schema", "--sample", "50"), ("info",), GREP):
            run = subprocess.run([sys.executable, "-c", code, *words, *paths], env=environment(), capture_output=True, timeout=PATIENCE)
            _, less, more = (int(it.split()[1]) for it in run.stderr.splitlines() if it.startswith(b"peak "))
            self.assertLess(more, 1.5 * less, words)

    def test_terminals(self) -> None:
        """There the columns of a schema have names, and what a slow command has read is said after a second."""
        path = str(self.file(PEOPLE_DATA))
        run, printed = run_on_terminal("schema", path, streams=["stdout"])
        self.assertEqual((run.returncode, printed.splitlines()[0]), (0, b"path\ttypes\tleast\tgreatest\texample"))
        slow = self.wide('case "$1" in check) sleep 2;; esac\nexec "$WIDE" "$@"')
        for words in (("schema", path), ("grep", "--count", "Nairobi", path)):
            run, printed = run_on_terminal(*words, program=slow)
            self.assertEqual(run.returncode, 0)
            self.assertIn(b"92.7 of 92.7 kB", printed)
