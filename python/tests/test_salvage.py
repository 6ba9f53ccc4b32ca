"""Tests of the command `salvage`."""

import gzip
import os
import random
import subprocess
import sys
import threading
from typing import List, Tuple
from unittest import mock

from bsonfind._backup.salvage import LeftOut, Salvaged, salvage

from .support import COMMAND, DAMAGED, DOUBLE, PEOPLE, PROGRAM, SHOP, Room, environment, run_on_terminal, run_package, wait_for


def ends_of(data: bytes) -> List[int]:
    """Where each document of a dump ends, by its length, and 0 before them."""
    ends = [0]
    while ends[-1] < len(data):
        ends.append(ends[-1] + int.from_bytes(data[ends[-1] : ends[-1] + 4], "little"))
    return ends


class Salvages(Room):
    def salvage(self, data: bytes, status: int, program: str = PROGRAM) -> Tuple[str, bytes, bytes]:
        """What is reported of bytes, and what is copied of them."""
        self.damaged, self.good, self.bad = (self.room / name for name in ("damaged.bson", "good.bson", "bad.bson"))
        self.damaged.write_bytes(data)
        run = run_package("--program", program, "salvage", str(self.damaged), "--good", str(self.good), "--bad", str(self.bad))
        self.assertEqual((run.returncode, run.stderr), (status, ""))
        return run.stdout, self.good.read_bytes(), self.bad.read_bytes()

    def counted(self, good: int, bad: int, left_out: int) -> str:
        """The last line."""
        return f"{self.damaged}: {good} documents to {self.good}, {bad} to {self.bad}, {left_out} bytes left out\n"

    def test_whole_dump(self) -> None:
        data = SHOP.read_bytes()
        self.assertEqual(self.salvage(data, 0), (self.counted(400, 0, 0), data, b""))
        self.assertEqual(self.salvage(b"", 0), (self.counted(0, 0, 0), b"", b""))

    def test_faults_inside_documents(self) -> None:
        """The first, the last, and some in a row."""
        data = PEOPLE.read_bytes()
        first, rest = data[:39978], data[39978:]
        told = self.salvage(DAMAGED + first + DAMAGED * 3 + rest + DAMAGED, 1)
        self.assertEqual(told, (self.counted(500, 5, 0), data, DAMAGED * 5))

    def test_faults_of_the_guide(self) -> None:
        data = bytearray(SHOP.read_bytes())
        data[90], data[814] = 2, 0xFF
        ends = [0]
        for _ in range(3):
            ends.append(ends[-1] + int.from_bytes(data[ends[-1] : ends[-1] + 4], "little"))
        first, second, third = (bytes(data[start:end]) for start, end in zip(ends, ends[1:]))
        told = self.salvage(bytes(data), 1)
        self.assertEqual(told, (self.counted(398, 2, 0), second + bytes(data[ends[3] :]), first + third))

    def test_dump_that_was_cut(self) -> None:
        data = SHOP.read_bytes()[:100_000]
        told, good, bad = self.salvage(data, 1)
        line = f"{self.damaged}: wrong length at byte 99809: 191 bytes left out, up to the end\n"
        self.assertEqual((told, good, bad), (line + self.counted(309, 0, 191), data[:99809], b""))

    def test_wrong_length(self) -> None:
        data = SHOP.read_bytes()
        damaged = data[:99809] + b"\xff\xff\xff\x7f" + data[99813:]
        told, good, bad = self.salvage(damaged, 1)
        guess = "that a document begins at byte 100182 is a guess"
        line = f"{self.damaged}: wrong length at byte 99809: 373 bytes left out; {guess}\n"
        self.assertEqual(told, line + self.counted(399, 0, 373))
        self.assertEqual((good, bad), (data[:99809] + data[100182:], b""))

    def test_wrong_lengths_and_faults(self) -> None:
        """Bytes that are no documents are before, between and after some, of which one has a fault."""
        people, junk = PEOPLE.read_bytes(), b"\xff" * 3_000_000
        told, good, bad = self.salvage(junk + people + DAMAGED + junk + people + junk, 1)
        self.assertEqual((good, bad), (people * 2, DAMAGED))
        self.assertEqual(told.count("is a guess"), 2)
        self.assertEqual(told.splitlines()[-1] + "\n", self.counted(1000, 1, 9_000_000))

    def test_pieces_of_any_size(self) -> None:
        """What is checked at once has 300 bytes, or few documents, in place of megabytes."""
        people, junk = PEOPLE.read_bytes(), b"\xff" * 100
        for data, kept, left_out in (
            (people, people, 0),
            (people[:39978] + junk + people[39978:], people, 1),
            (junk + people + DAMAGED + junk * 1000, people, 2),
        ):
            for module, patched in (("salvaging", {"_MOST": 300, "_FIRST": 300}), ("salvaging", {"_MOST_DOCUMENTS": 7}), ("beginnings", {"_PIECE": 64})):
                with mock.patch.multiple(f"bsonfind._backup.{module}", **patched):
                    done = self.salvaged(data)
                self.assertEqual((len(done.left_out), self.good.read_bytes()), (left_out, kept))
                self.assertEqual((done.good, done.bad), (500, self.bad.stat().st_size // len(DAMAGED)))

    def salvaged(self, data: bytes, name: str = "damaged.bson") -> Salvaged:
        """What the function gives for bytes."""
        self.good, self.bad = self.room / "good.bson", self.room / "bad.bson"
        return salvage(self.file(data, name), self.good, self.bad, program=PROGRAM)

    def test_compressed_dumps(self) -> None:
        people = PEOPLE.read_bytes()
        self.assertEqual(self.salvaged(gzip.compress(people), "people.bson.gz"), Salvaged(500, 0, [], None))
        self.assertEqual(self.good.read_bytes(), people)

    def test_compressed_dump_that_is_damaged(self) -> None:
        """All that is before the damage is copied."""
        people = PEOPLE.read_bytes()
        packed = gzip.compress(people, 0)  # Its bytes are there as they are.
        done = self.salvaged(packed[:50_000], "people.bson.gz")
        self.assertEqual((done.good, done.bad, done.is_good), (273, 0, False))
        self.assertEqual(done.error, "not a sound file of gzip: it ends too soon")
        self.assertEqual(self.good.read_bytes(), people[:49744])
        wrong = packed[:-8] + bytes(4) + packed[-4:]
        error = "not a sound file of gzip: incorrect data check"
        self.assertEqual(self.salvaged(wrong, "people.bson.gz"), Salvaged(500, 0, [], error))
        self.assertEqual(self.good.read_bytes(), people)
        run = run_package("salvage", str(self.room / "people.bson.gz"), "--good", str(self.good), "--bad", "/dev/null")
        self.assertEqual(run.returncode, 1)
        self.assertIn("byte 92726: not a sound file of gzip: incorrect data check; nothing after it can be read", run.stdout)

    def test_pipes(self) -> None:
        pipe, people = self.room / "pipe", PEOPLE.read_bytes()
        os.mkfifo(pipe)
        writer = threading.Thread(target=pipe.write_bytes, args=[people + DAMAGED])
        writer.start()
        good, bad = self.room / "good.bson", self.room / "bad.bson"
        self.assertEqual(salvage(pipe, good, bad, program=PROGRAM), Salvaged(500, 1, [], None))
        writer.join()
        self.assertEqual((good.read_bytes(), bad.read_bytes()), (people, DAMAGED))

    def test_beginning_over_the_end_of_what_is_read_at_once(self) -> None:
        data = PEOPLE.read_bytes()
        for over in range(8):
            beginning = (1 << 20) - over
            done = self.salvaged(b"\xff" * beginning + data)
            self.assertEqual(done, Salvaged(500, 0, [LeftOut(0, beginning, True)], None))

    def test_last_documents_after_a_wrong_length(self) -> None:
        data = PEOPLE.read_bytes()
        ends = ends_of(data)
        for last in (1, 3, 4, 5):
            done = self.salvaged(b"\xff" * 9 + data[ends[-1 - last] :])
            self.assertEqual(done, Salvaged(last, 0, [LeftOut(0, 9, True)], None))
        done = self.salvaged(b"\xff" * 9 + data[ends[-6] : -1])
        self.assertEqual((done.good, done.left_out[0]), (4, LeftOut(0, 9, True)))
        self.assertEqual(self.salvaged(b"\xff" * 9), Salvaged(0, 0, [LeftOut(0, 9, False)], None))

    def test_guess_is_taken_only_where_documents_are_sound(self) -> None:
        """Four documents by their lengths and last bytes are before the others; in one of them a boolean is 9."""
        data = PEOPLE.read_bytes()
        for bad in range(4):
            fake = b"".join(b"\x09\0\0\0\x08a\0" + bytes([9 if number == bad else 1]) + b"\0" for number in range(4))
            done = self.salvaged(b"\xff" * 9 + fake + b"\xff" * 9 + data)
            self.assertEqual(done, Salvaged(500, 0, [LeftOut(0, 18 + len(fake), True)], None))
            self.assertEqual(self.good.read_bytes(), data)

    def test_many_places_that_seem_to_be_beginnings(self) -> None:
        """An array of numbers, each of which leads on to another: all are looked at by a few runs."""
        elements = b"".join(b"\x10%04d\0\x78\0\0\0" % number for number in range(9000))
        data = PEOPLE.read_bytes()
        program = self.counting()
        good, bad = self.room / "good.bson", self.room / "bad.bson"
        done = salvage(self.file(b"\xff" * 9 + elements + data), good, bad, program=program)
        self.assertEqual((done.good, done.left_out), (500, [LeftOut(0, 9 + len(elements), True)]))
        self.assertLess(len(self.starts()), 40)

    def test_length_that_passes_over_documents(self) -> None:
        """It is plausible: it ends at a document, or inside one, or at the end. Those inside are good, and that is reported."""
        data = SHOP.read_bytes()
        ends = ends_of(data)
        for first, over in ((0, 7), (3, 20), (150, 5), (396, 3), (390, 9), (200, 0)):
            for more in (-1, -4, -5) if over == 0 else (0, 1, 100):
                length = ends[first + over + 1] - ends[first] - more
                damaged = data[: ends[first]] + length.to_bytes(4, "little") + data[ends[first] + 4 :]
                told, good, bad = self.salvage(damaged, 1)
                start, end = ends[first], ends[first + 1]
                passed = "wrong length at byte {} that passes over other documents: {} bytes left out".format(start, end - start)
                line = f"{self.damaged}: {passed}; that a document begins at byte {end} is a guess\n"
                self.assertEqual((told, good, bad), (line + self.counted(399, 0, end - start), data[:start] + data[end:], b""))

    def test_doubles_are_good(self) -> None:
        """Documents with doubles and decimal128 are copied with the good ones, between damage too; one with damage after them is bad."""
        people, damaged = PEOPLE.read_bytes(), bytes.fromhex("1400000001640000000000000000000862000200")
        decimal = bytes.fromhex("18000000136400") + bytes(15) + b"\x30\0"
        sound = people + (DOUBLE + decimal) * 1000
        told = self.salvage(sound + damaged + sound, 1)
        self.assertEqual(told, (self.counted(5000, 1, 0), sound * 2, damaged))
        done = self.salvaged(sound + b"\xff\xff\xff\x7f" + DOUBLE[4:] + sound)
        left_out = LeftOut(len(sound), len(sound + DOUBLE), True)
        self.assertEqual((done, self.good.read_bytes()), (Salvaged(5000, 0, [left_out], None), sound * 2))

    def test_numbers_that_look_like_lengths(self) -> None:
        """The number of the bytes that are left is in a document: with the fields after it, it is like a sound document."""
        rest = b"\x02name\0\x06\0\0\0hello\0"
        inside = (4 + len(rest) + 1).to_bytes(4, "little") + rest
        for first in (b"\x08a\0\x09", b"\x02s\0\x03\0\0\0\xff\xff\0"):
            body = first + b"\x10left\0" + inside
            bad = (4 + len(body) + 1).to_bytes(4, "little") + body + b"\0"
            good = PEOPLE.read_bytes()
            self.assertEqual(self.salvaged(bad * 3 + good + bad + good), Salvaged(1000, 4, [], None))
            self.assertEqual((self.good.read_bytes(), self.bad.read_bytes()), (good * 2, bad * 4))
            wrong = b"\xff\xff\xff\x7f" + bad[4:]
            left_out = LeftOut(len(good), len(good) + len(bad), True)
            self.assertEqual(self.salvaged(good + wrong + good), Salvaged(1000, 0, [left_out], None))

    def test_length_that_is_wrong_before_a_document_that_seems_to_be_a_number(self) -> None:
        """The last bytes of the document with the wrong length are like the type and the name of a field."""
        people = PEOPLE.read_bytes()
        ends = ends_of(people)
        body = b"\x07_id\0abcdefg\x10wxyz"
        first = (4 + len(body) + 1).to_bytes(4, "little") + body + b"\0"
        for length in (ends[4] + 20, 1 << 30):
            done = self.salvaged(length.to_bytes(4, "little") + first[4:] + people)
            self.assertEqual(done, Salvaged(500, 0, [LeftOut(0, len(first), True, length < 1 << 30)], None))

    def test_many_lengths_that_pass_over_documents(self) -> None:
        """Each hundredth document has a length of some 4,000 bytes more; no other document is lost."""
        data = bytearray(PEOPLE.read_bytes())
        ends = ends_of(bytes(data))
        wrong = range(10, 480, 100)
        for number in wrong:
            length = ends[number + 1] - ends[number] + 4000
            data[ends[number] : ends[number] + 4] = length.to_bytes(4, "little")
        done = self.salvaged(bytes(data))
        self.assertEqual((done.good, done.bad), (495, 0))
        self.assertEqual(done.left_out, [LeftOut(ends[number], ends[number + 1], True, True) for number in wrong])

    def test_documents_that_a_document_holds(self) -> None:
        """A dump in binary data is a part of its document, which has another fault; that it is there is reported."""
        people = PEOPLE.read_bytes()[:39978]
        inside = b"\x05b\0" + len(people).to_bytes(4, "little") + b"\0" + people
        for element in (b"\x08a\0\x09", b"\x01d\0" + bytes(8) + b"\x08a\0\x09"):
            length = 4 + len(element) + len(inside) + 1
            holder = length.to_bytes(4, "little") + element + inside + b"\0"
            for before, after in ((b"", b""), (people, people)):
                told, good, bad = self.salvage(before + holder + after, 1)
                start = len(before)
                stand = f"documents stand inside it from byte {start + 12 + len(element)} on"
                line = f"bad document at byte {start}: {stand}, and are copied with it"
                self.assertEqual(told, f"{self.damaged}: {line}\n" + self.counted(220 * bool(before) * 2, 1, 0))
                self.assertEqual((good, bad), (before + after, holder))

    def test_random_damage_loses_no_other_document(self) -> None:
        """A byte of a length is another one; every document but this and its neighbour is copied as it was."""
        data = SHOP.read_bytes()
        ends, chance = ends_of(data), random.Random(5)
        for _ in range(25):
            number, byte = chance.randrange(400), chance.randrange(3)
            damaged = bytearray(data)
            damaged[ends[number] + byte] ^= 1 << chance.randrange(8)
            done = self.salvaged(bytes(damaged))
            rest = self.good.read_bytes()
            with self.subTest(number=number, byte=byte):
                self.assertGreaterEqual(done.good, 398)
                self.assertTrue(rest.startswith(data[: ends[number]]))
                self.assertTrue(rest.endswith(data[ends[min(number + 2, 400)] :]))
                self.assertFalse(done.is_good)

    def test_little_memory(self) -> None:
        """A file of 600 MB: a document of 16 MB that has a fault, and then nothing."""
        length = 16_000_000
        long = length.to_bytes(4, "little") + b"\x01a\0" + bytes(length - 7)
        path = self.file(long)
        with open(path, "r+b") as file:
            file.truncate(600_000_000)
        program = self.wide('ulimit -S -v unlimited\nexec "$WIDE" "$@"')
        words = ["-m", "bsonfind", "--program", program, "salvage", str(path), "--good", "/dev/null", "--bad", "/dev/null"]
        limited = ["sh", "-c", 'ulimit -S -v 262144; exec "$@"', "sh", sys.executable, *words]
        run = subprocess.run(limited, env=environment(), stdout=subprocess.PIPE, text=True)
        self.assertEqual(run.returncode, 1)
        self.assertIn("wrong length at byte 16000000: 584000000 bytes left out, up to the end", run.stdout)
        self.assertIn("0 documents to /dev/null, 1 to /dev/null", run.stdout)


class BadInput(Room):
    def refused(self, *words: str, told: str) -> None:
        run = run_package(*words)
        self.assertEqual((run.returncode, run.stdout, run.stderr), (2, "", f"bsonkit: {told}\n"))

    def test_names_that_are_refused(self) -> None:
        """Nothing that is there is touched."""
        people = PEOPLE.read_bytes()
        path, missing = str(self.file(people)), str(self.room / "missing.bson")
        good, bad = str(self.file(b"good", "good.bson")), str(self.file(b"bad", "bad.bson"))
        link, second, linked = (str(self.room / name) for name in ("link.bson", "second.bson", "linked"))
        os.symlink(path, link)
        os.link(good, second)
        os.symlink(self.room, linked)
        (self.room / "folder").mkdir()
        there = sorted(os.listdir(self.room))
        for words, told in (
            ((missing, good, bad), f"{missing}: No such file or directory"),
            ((path, path, bad), f"{path} is the dump"),
            ((path, good, link), f"{link} is the dump"),
            ((path, good, f"{linked}/dump.bson"), f"{linked}/dump.bson is the dump"),
            ((path, good, good), f"{good} is named twice"),
            ((path, good, second), f"{good} is named twice"),
            ((path, missing, f"{linked}/missing.bson"), f"{missing} is named twice"),
            ((path, good, f"{missing}/a"), f"{missing}/a: No such file or directory"),
            ((path, good, str(self.room / "folder")), f"{self.room}/folder: Is a directory"),
            ((str(self.room / "folder"), good, bad), f"cannot read {self.room}/folder: it is a directory: --out salvages all dumps below one"),
        ):
            name, one, other = words
            self.refused("salvage", name, "--good", one, "--bad", other, told=told)
            self.assertEqual(sorted(os.listdir(self.room)), there)
        self.kept(path, people, good, bad)

    def test_standard_input_that_is_written(self) -> None:
        """A file that standard input has open, by two names, is not replaced."""
        data = PEOPLE.read_bytes() + DAMAGED
        path, other = self.file(data), str(self.room / "other")
        (self.room / "link").symlink_to(path)
        for name in (str(path), str(self.room / "link")):
            for words in (("--good", name, "--bad", other), ("--good", other, "--bad", name)):
                for dump in ("-", "/dev/stdin"):
                    command = [*COMMAND, "salvage", dump, *words]
                    with open(path, "rb") as file:
                        ran = subprocess.run(command, env=environment(), stdin=file, capture_output=True, text=True)
                    self.assertEqual((ran.returncode, ran.stdout, ran.stderr), (2, "", f"bsonkit: {name} is the dump\n"))
        self.assertEqual((path.read_bytes(), sorted(os.listdir(self.room))), (data, ["dump.bson", "link"]))

    def kept(self, path: str, data: bytes, good: str, bad: str) -> None:
        """The files are as they were."""
        for name, wanted in ((path, data), (good, b"good"), (bad, b"bad")):
            with open(name, "rb") as file:
                self.assertEqual(file.read(), wanted)

    def test_what_fails_leaves_files_as_they_were(self) -> None:
        people = PEOPLE.read_bytes()
        path, good, bad = str(self.file(people)), str(self.file(b"good", "good.bson")), str(self.file(b"bad", "bad.bson"))
        words = "salvage", path, "--good", good, "--bad"
        killed = self.wide('[ "$(head -c 4 | wc -c)" = 4 ] && kill -9 $$; exec "$WIDE" "$@" </dev/null')
        there = sorted(os.listdir(self.room))
        self.refused("--program", "no-such-program", *words, bad, told="cannot start no-such-program: No such file or directory")
        self.refused("--program", killed, *words, bad, told="ended by signal 9")
        self.file(people + DAMAGED)
        self.refused(*words, "/dev/full", told="/dev/full: No space left on device")
        self.file(people)
        self.kept(path, people, good, bad)
        self.assertEqual(sorted(os.listdir(self.room)), there)

    def test_files_that_are_there_are_replaced_at_the_end(self) -> None:
        """With their modes, and a link stays a link."""
        people = PEOPLE.read_bytes()
        path, good = str(self.file(people)), self.file(b"good", "kept/good.bson")
        good.chmod(0o640)
        link = self.room / "link.bson"
        link.symlink_to(good)
        self.assertEqual(run_package("salvage", path, "--good", str(link), "--bad", "/dev/null").returncode, 0)
        self.assertTrue(link.is_symlink())
        self.assertEqual((good.read_bytes(), good.stat().st_mode & 0o777), (people, 0o640))
        self.assertEqual(os.listdir(good.parent), ["good.bson"])

    def test_full_disk(self) -> None:
        path = str(self.file(PEOPLE.read_bytes() + DAMAGED))
        for good, bad in (("/dev/full", "/dev/null"), ("/dev/null", "/dev/full")):
            self.refused("salvage", path, "--good", good, "--bad", bad, told="/dev/full: No space left on device")
        with open("/dev/full", "wb") as full:
            run = run_package("salvage", path, "--good", "/dev/null", "--bad", "/dev/null", stdout=full)
        self.assertEqual((run.returncode, run.stderr), (2, "bsonkit: cannot write: No space left on device\n"))

    def test_file_that_shrinks(self) -> None:
        """It does so when the program is tried, after its size was read."""
        path = self.file(PEOPLE.read_bytes())
        program = self.wide(f"# also for --version\ntruncate -s 39978 {path}\nexec \"$WIDE\" \"$@\"")
        told = f"{path}: no bytes at byte 39978: the file became shorter"
        self.refused("--program", program, "salvage", str(path), "--good", "/dev/null", "--bad", "/dev/null", told=told)

    def test_progress_on_a_terminal(self) -> None:
        path = self.file(PEOPLE.read_bytes())
        wait = 'if [ "$(head -c 4 | wc -c)" = 4 ]; then sleep 1.5; cat >/dev/null; fi'
        slow = self.wide(f'{wait}\nexec "$WIDE" "$@" <"$ROOM/dump.bson"')
        run, shown = run_on_terminal("salvage", str(path), "--good", "/dev/null", "--bad", "/dev/null", program=slow)
        self.assertEqual(run.returncode, 2)
        self.assertIn(b"92.7 of 92.7 kB", shown)

    def test_termination(self) -> None:
        """The signal of kill ends the program too, and leaves the files as they were."""
        path, good = self.file(PEOPLE.read_bytes()), self.file(b"good", "good.bson")
        empty = '[ "$(head -c 4 | wc -c)" = 4 ] || exec "$WIDE" "$@" </dev/null'
        stuck = self.wide(f'{empty}\necho $$ >>"$ROOM/pids"\nexec sleep 600')
        words = ["--program", stuck, "salvage", str(path), "--good", str(good), "--bad", str(self.room / "bad.bson")]
        python = subprocess.Popen([sys.executable, "-m", "bsonfind", *words], env=environment(), stderr=subprocess.PIPE, text=True)
        pids = self.room / "pids"
        wait_for(lambda: pids.exists() and bool(pids.read_text()))
        python.terminate()
        self.assertEqual((python.communicate()[1], python.returncode), ("", 143))
        self.assertFalse(any(os.path.exists(f"/proc/{pid}") for pid in pids.read_text().split()))
        self.assertEqual(sorted(os.listdir(self.room)), ["bsonwide", "dump.bson", "good.bson", "pids", "program"])
        self.assertEqual(good.read_bytes(), b"good")

    def test_interrupt(self) -> None:
        path = str(self.file(PEOPLE.read_bytes()))
        program = self.wide('# also for --version\necho $$ >>"$ROOM/pids"\nexec sleep 600')
        self.interrupt_command("--program", program, "salvage", path, "--good", "/dev/null", "--bad", "/dev/null")
