"""Tests of the texts that commands read beside dumps: logs of mongodump, lists of files and lists of ids."""

import codecs
import subprocess
import time
from typing import List

from bsonfind._backup.logs import failures_in, read_log

from .support import COMMAND, PATIENCE, PEOPLE, PEOPLE_LINES, Room, environment, run_package

LOG = "2026-11-25T10:00:01.000+0000\tdone dumping club.people (500 documents)\n"


class Logs(Room):
    def setUp(self) -> None:
        super().setUp()
        self.file(PEOPLE.read_bytes(), "backup/club/people.bson")
        self.file(b"{}", "backup/club/people.metadata.json")
        self.backup = str(self.room / "backup")

    def test_encodings(self) -> None:
        """UTF-16, as PowerShell writes it, or the bytes EF BB BF before the text."""
        for data in (LOG.encode("utf-16"), codecs.BOM_UTF16_BE + LOG.replace("\n", "\r\n").encode("utf-16-be"), codecs.BOM_UTF8 + LOG.encode()):
            run = run_package("audit", self.backup, "--expect", str(self.file(data, "log")))
            self.assertEqual((run.returncode, run.stderr), (0, ""), run.stdout)
        run = run_package("audit", self.backup, "--expect", str(self.file(LOG.replace("500", "501").encode("utf-16"), "log")))
        self.assertIn("500 documents in place of 501", run.stdout)

    def test_no_log(self) -> None:
        """A text without a count proves nothing, so it is refused."""
        told = "is no log of mongodump: no line has a count, such as: done dumping db.c (5 documents)"
        for data in (b"", b"2026-11-25 a log of something else\n", PEOPLE.read_bytes()):
            log = self.file(data, "log")
            run = run_package("audit", self.backup, "--expect", str(log))
            self.assertEqual((run.returncode, run.stdout, run.stderr), (2, "", f"bsonkit: {log} {told}\n"))

    def test_counts(self) -> None:
        """The name of a collection may have the form of a count; the last one is that of the documents."""
        lines = ["done dumping a.done dumping b (7 documents) (5 documents)", "done dumping `a`.`c` (1 document)", "done dumping a.d (9 docs)"]
        self.assertEqual(read_log([*lines, "dumped 3 oplog entries"]), {"a.done dumping b (7 documents)": 5, "a.c": 1, "oplog": 3})

    def test_long_lines(self) -> None:
        """Half a megabyte takes no longer than as many bytes on several lines."""
        for line in ("done dumping a (1 " * 30_000, "done dumping a" * 40_000, "done dumping a (" + "1" * 500_000 + " documents)", "dumped " * 70_000):
            begin = time.process_time()
            self.assertEqual(read_log([line]), {})
            failures_in([line, line.replace("done dumping", "writing") + " to " * 100_000])
            self.assertLess(time.process_time() - begin, 2)


class Lists(Room):
    def run_with(self, stdin: bytes, *words: str) -> "subprocess.CompletedProcess[bytes]":
        return subprocess.run([*COMMAND, *words], env=environment(), input=stdin, capture_output=True, timeout=PATIENCE)

    def ids(self, data: bytes) -> List[object]:
        run = self.run_with(data, "ids", str(PEOPLE), "--ids", "-")
        return [run.returncode, run.stdout, run.stderr.decode()]

    def test_standard_input(self) -> None:
        """`-` is standard input for a list too, once."""
        self.assertEqual(self.ids(b"7\n"), [0, PEOPLE_LINES[7] + b"\n", "1 of 1 ids found\n"])
        run = self.run_with(f"{PEOPLE}\n".encode(), "audit", "--list", "-")
        self.assertEqual((run.returncode, run.stdout.splitlines()[0]), (0, f"{PEOPLE}: 500 documents, 0 faulty".encode()))
        run = self.run_with(LOG.encode(), "audit", str(PEOPLE), "--expect", "-")
        self.assertIn(b"missing, with 500 documents", run.stdout)
        for words in (("audit", "-", "--list", "-"), ("audit", "-", "--expect", "-"), ("ids", "-", "--ids", "-")):
            run = self.run_with(b"", *words)
            self.assertEqual((run.returncode, run.stdout, run.stderr), (2, b"", b"bsonkit: standard input is named twice\n"), words)

    def test_ids_of_another_encoding(self) -> None:
        """EF BB BF before the text, and UTF-16, are read; a line that is neither is named."""
        for data in (codecs.BOM_UTF8 + b"7\n", "7\r\n".encode("utf-16")):
            self.assertEqual(self.ids(data), [0, PEOPLE_LINES[7] + b"\n", "1 of 1 ids found\n"])
        self.assertEqual(self.ids(b'7\n\n"Zo\xff"\n'), [2, b"", "bsonkit: -: line 3: not UTF-8\n"])
