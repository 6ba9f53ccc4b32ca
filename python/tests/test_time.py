"""Tests of how long commands take where files are hostile or many: as long as for other bytes, by processor time."""

import os
import resource
import subprocess
import time
from typing import List, Tuple

from bsonfind._backup.info import Entry, _ordered
from bsonfind._backup.salvage import salvage

from .goods import document, embedded, whole
from .support import COMMAND, PATIENCE, PEOPLE, Room, environment, run_package
from .test_salvage import ends_of

GOOD, BAD = document(whole("a", 1)), document(b"\x08a\0\2")


def seconds(*words: object) -> Tuple[float, int]:
    """The processor time of a command with all that it starts, and its status."""
    begin = resource.getrusage(resource.RUSAGE_CHILDREN)
    run = subprocess.run([*COMMAND, *map(str, words)], env=environment(), stdout=subprocess.DEVNULL, stderr=subprocess.DEVNULL, timeout=10 * PATIENCE)
    end = resource.getrusage(resource.RUSAGE_CHILDREN)
    return end.ru_utime + end.ru_stime - begin.ru_utime - begin.ru_stime, run.returncode


class Time(Room):
    def salvaged(self, data: bytes) -> Tuple[int, int, int, int]:
        """How many documents are good and bad, how many bytes are left out, and how many runs that took."""
        program = self.counting()
        done = salvage(self.file(data), self.room / "good", self.room / "bad", program=program)
        return done.good, done.bad, done.bytes_left_out, len(self.starts())

    def test_bytes_that_look_like_documents(self) -> None:
        """A wrong length, and then what has good lengths and good ends at each eighth byte."""
        path = self.file(b"\xff\xff\xff\x7f" + bytes.fromhex("0800000001610000") * 250_000)
        for words in (["salvage", path, "--good", "/dev/null", "--bad", "/dev/null"], ["audit", path], ["grep", "x", path]):
            taken, status = seconds(*words)
            self.assertEqual(status, 1)
            self.assertLess(taken, 5, words[0])

    def test_documents_between_wrong_lengths(self) -> None:
        """Four good ones, again and again: a few runs look at all of them."""
        good, bad, left_out, runs = self.salvaged((b"\xff\xff\xff\x7f" + GOOD * 4) * 3000)
        self.assertEqual((good, bad, left_out), (12_000, 0, 12_000))
        self.assertLess(runs, 300)

    def test_many_bad_documents(self) -> None:
        """With ids, each of which looks like the length of a document, and with documents inside of them, good and bad ones between others."""
        for data, wanted in (
            (b"".join(document(whole("_id", it), b"\x08a\0\2") for it in range(8000)), (0, 8000, 0)),
            (document(embedded("d", whole("a", 1)), b"\x08a\0\2") * 8000, (0, 8000, 0)),
            ((BAD + GOOD) * 8000, (8000, 8000, 0)),
        ):
            found = self.salvaged(data)
            self.assertEqual(found[:3], wanted)
            self.assertLess(found[3], 40)
            os.unlink(self.room / "starts") if (self.room / "starts").exists() else None

    def test_many_lengths_that_pass_over_documents(self) -> None:
        """Each tenth length skips the next document, which is good: no other one is lost."""
        data = bytearray(PEOPLE.read_bytes() * 4)
        ends = ends_of(bytes(data))
        wrong = range(5, len(ends) - 3, 10)
        for number in wrong:
            data[ends[number] : ends[number] + 4] = (ends[number + 2] - ends[number]).to_bytes(4, "little")
        good, bad, left_out, runs = self.salvaged(bytes(data))
        self.assertEqual((good, bad, left_out), (2000 - len(wrong), 0, sum(ends[it + 1] - ends[it] for it in wrong)))
        self.assertLess(runs, 40)

    def test_info_of_many_names(self) -> None:
        """Putting 6,000 collections in order takes no longer than putting as many names in order."""
        names = [f"backup/shop/c{it}.bson" for it in range(6000)]
        entries = [Entry(**{**dict.fromkeys(Entry._fields), "file": it, "database": "shop", "collection": it, "kind": "collection"}) for it in names]
        begin = time.process_time()
        self.assertEqual([it.file for it in _ordered(entries[::-1], names)], names)
        self.assertLess(time.process_time() - begin, 2)

    def test_info_of_a_directory_by_two_names(self) -> None:
        """Each collection is there once, and so is a view, which has metadata alone."""
        self.file(PEOPLE.read_bytes(), "b/club/people.bson")
        self.file(b"{}", "b/club/people.metadata.json")
        self.file(b'{"type":"view","options":{"viewOn":"people"}}', "b/club/v.metadata.json")
        wanted = run_package("info", str(self.room / "b")).stdout
        self.assertEqual(len(wanted.splitlines()), 2)
        for other in (f"{self.room}/./b", f"{self.room}/b/", f"{self.room}/b/club", str(self.room / "b")):
            self.assertEqual(run_package("info", str(self.room / "b"), other).stdout, wanted, other)


class Stalls(Room):
    def ended(self, *words: str) -> List[object]:
        """What a command says of a pipe that stays open after bytes, and whether it ended without waiting for more."""
        read, write = os.pipe()
        try:
            os.write(write, GOOD * 3 + b"\xff\xff\xff\x7f" + GOOD)
            with subprocess.Popen([*COMMAND, *words, "-"], env=environment(), stdin=read, stdout=subprocess.PIPE, stderr=subprocess.STDOUT) as run:
                try:
                    told = run.communicate(timeout=PATIENCE)[0].decode()
                except subprocess.TimeoutExpired:
                    run.kill()
                    told = "no end"
            return [run.returncode, told]
        finally:
            os.close(read)
            os.close(write)

    def test_wrong_length(self) -> None:
        """Nothing after it is a document, so what may come later is not waited for."""
        fault = 'document 3, byte 36, path "": bad length'
        self.assertEqual(self.ended("count"), [1, f"bsonkit: -: {fault}\nbsonkit: -: 4 documents, 1 faulty\n3\n"])
        status, told = self.ended("schema")
        self.assertEqual((status, str(told).startswith(f"bsonkit: -: {fault}\nbsonkit: -: 4 documents, 1 faulty\n")), (1, True), told)
