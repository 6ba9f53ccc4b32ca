"""Tests of what commands write beside standard output: where that is the same, and of files that are replaced."""

import gzip
import os
import subprocess
import unittest
from typing import Tuple

from bsonfind._backup.salvage import salvage

from .support import COMMAND, DAMAGED, PATIENCE, PEOPLE, PEOPLE_LINES, PROGRAM, Room, environment, run_package


class Outputs(Room):
    def run_to(self, *words: str, both: bool = False) -> Tuple[int, bytes, bytes]:
        """The status of a command whose standard output is a pipe, what comes by that, and standard error, or both by one pipe."""
        stderr = subprocess.STDOUT if both else subprocess.PIPE
        run = subprocess.run([*COMMAND, *words], env=environment(), stdout=subprocess.PIPE, stderr=stderr, timeout=PATIENCE, cwd=self.room)
        return run.returncode, run.stdout, run.stderr

    def test_documents_on_standard_output(self) -> None:
        """They come alone, by `-` and by its other names: the report is on standard error."""
        path = str(self.file(PEOPLE.read_bytes() + DAMAGED))
        for name in ("-", "/dev/stdout", "/proc/self/fd/1"):
            told = f"{path}: 500 documents to {name}, 1 to bad, 0 bytes left out\n"
            self.assertEqual(self.run_to("salvage", path, "--good", name, "--bad", "bad"), (1, PEOPLE.read_bytes(), told.encode()))
            self.assertEqual((self.room / "bad").read_bytes(), DAMAGED)
        with open(self.room / "out", "wb") as out:
            words = [*COMMAND, "salvage", path, "--good", "-", "--bad", "/dev/null"]
            self.assertEqual(subprocess.run(words, env=environment(), stdout=out, stderr=subprocess.DEVNULL, timeout=PATIENCE).returncode, 1)
        self.assertEqual((self.room / "out").read_bytes(), PEOPLE.read_bytes())
        self.assertFalse((self.room / "-").exists())

    def test_one_pipe_for_all(self) -> None:
        """Documents and a report cannot come by one pipe."""
        path = str(self.file(PEOPLE.read_bytes()))
        for name in ("-", "/dev/stdout"):
            told = f"bsonkit: {name} is standard output and standard error: the report would be among the documents\n"
            self.assertEqual(self.run_to("salvage", path, "--good", name, "--bad", "bad", both=True)[:2], (2, told.encode()))
        self.assertEqual(self.run_to("salvage", path, "--good", "-", "--bad", "-")[0], 2)

    def test_ids_that_are_missing(self) -> None:
        """Standard output has the documents, so it takes no ids."""
        ids = str(self.file(b"7\n1000\n", "ids"))
        for name in ("-", "/dev/stdout"):
            told = f"bsonkit: {name}: it is standard output, which has the documents\n"
            self.assertEqual(self.run_to("ids", str(PEOPLE), "--ids", ids, "--missing", name), (2, b"", told.encode()))
        self.assertEqual(self.run_to("ids", str(PEOPLE), "--ids", ids, "--missing", "none")[:2], (1, PEOPLE_LINES[7] + b"\n"))
        self.assertEqual((self.room / "none").read_bytes(), b"1000\n")

    @unittest.skipUnless(os.geteuid() == 0, "only root gives files away")
    def test_owner(self) -> None:
        """A file that is replaced keeps it, with its group and its rights."""
        path, good = self.file(PEOPLE.read_bytes()), self.file(b"good", "good")
        os.chown(good, 4321, 1234)
        good.chmod(0o640)
        self.assertTrue(salvage(path, good, "/dev/null", program=PROGRAM).is_good)
        status = good.stat()
        self.assertEqual((status.st_uid, status.st_gid, status.st_mode & 0o777, good.read_bytes()), (4321, 1234, 0o640, PEOPLE.read_bytes()))

    def test_preludes(self) -> None:
        """What mongodump writes of its version is copied too."""
        self.file(PEOPLE.read_bytes(), "backup/club/people.bson")
        self.file(b'{"ServerVersion":"8.0.0"}', "backup/prelude.json")
        self.file(gzip.compress(b'{"ServerVersion":"7.0.0"}'), "backup/club/prelude.json.gz")
        run = run_package("salvage", str(self.room / "backup"), "--out", str(self.room / "out"))
        self.assertEqual((run.returncode, run.stderr), (0, ""))
        self.assertEqual((self.room / "out/prelude.json").read_bytes(), b'{"ServerVersion":"8.0.0"}')
        self.assertEqual((self.room / "out/club/prelude.json").read_bytes(), b'{"ServerVersion":"7.0.0"}')
