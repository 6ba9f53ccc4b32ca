"""Tests of the commands `check` and `dump` over dumps with doubles and decimal128, and of any size."""

import gzip
import os
from typing import List, Tuple, Union
from unittest import mock

from bsonfind._command.console import Console
from bsonfind._command.dumping import Dumping, check_file

from .bson import document, field, text
from .support import DAMAGED, DOUBLE, PEOPLE, PEOPLE_LINES, PROGRAM, Room, packed, run_of_bytes

DECIMAL = bytes.fromhex("18000000136400") + (1234 | 6174 << 113).to_bytes(16, "little") + b"\0"
# A double before damage; the byte of the fault is 18.
HIDDEN = bytes.fromhex("1400000001640000000000000000000862000200")
# The lines of these, as the specifications of Extended JSON and of decimal128 have them.
LINES = [b'{"d":{"$numberDouble":"1.0"}}', b'{"d":{"$numberDecimal":"12.34"}}']


class Commands(Room):
    def run_command(self, *words: Union[str, "os.PathLike[str]"], stdin: bytes = b"") -> Tuple[int, List[bytes], str]:
        """The status, the lines of standard output and what standard error says."""
        status, data, told = run_of_bytes(*words, stdin=stdin)
        return status, data.splitlines(), told

    def forms(self, data: bytes) -> list:
        """The words for a file, a compressed one and standard input, with the bytes of that."""
        return [(self.file(data), b""), (self.file(gzip.compress(data), "dump.bson.gz"), b""), ("-", data)]

    def test_sound_dumps(self) -> None:
        """Of doubles alone, of none, and with doubles late."""
        people = PEOPLE.read_bytes()
        for data, lines in (
            (people, PEOPLE_LINES),
            (DOUBLE + DECIMAL, LINES),
            (people + DOUBLE + people + DECIMAL, [*PEOPLE_LINES, LINES[0], *PEOPLE_LINES, LINES[1]]),
            (b"", []),
        ):
            for word, stdin in self.forms(data):
                if data or not str(word).endswith(".gz"):
                    told = self.run_command("dump", word, stdin=stdin)
                    self.assertEqual(told, (0, lines, f"{len(lines)} objects found\n"))
                    told = self.run_command("check", word, stdin=stdin)
                    self.assertEqual(told, (0, [], f"{len(lines)} documents, 0 faulty\n"))

    def test_damage(self) -> None:
        """A fault has the byte that it has in the dump; doubles before it, in the same document too, move none."""
        people = PEOPLE.read_bytes()
        front = people + DOUBLE * 2
        for bad, byte, fault in (
            (HIDDEN, 18, 'path "b": bad boolean'),
            (DAMAGED, 7, 'path "d": bad boolean'),
            (b"\xff\xff\xff\x7f" + DOUBLE[4:], 0, 'path "": bad length'),
            (DECIMAL[:10], 0, 'path "": bad length'),
            (b"\1\2", 0, 'path "": length cut short'),
        ):
            line = f"document 502, byte {len(front) + byte}, {fault}"
            for word, stdin in self.forms(front + bad):
                told = self.run_command("check", word, stdin=stdin)
                self.assertEqual(told, (1, [line.encode()], "503 documents, 1 faulty\n"))
                told = self.run_command("dump", word, stdin=stdin)
                # A plain file is printed by the program itself.
                name = "bsonwide" if str(word).endswith("dump.bson") else "bsonkit"
                self.assertEqual(told, (1, [*PEOPLE_LINES, LINES[0], LINES[0]], f"{name}: {line}\n502 objects found\n"))

    def test_deepest_and_longest_documents(self) -> None:
        """Doubles at the end of 200 levels, and of 16,793,600 bytes, of which 24 are not the text. Other commands take them too."""
        deep, line = DOUBLE, LINES[0]
        for _ in range(199):
            deep, line = (len(deep) + 8).to_bytes(4, "little") + b"\x03a\0" + deep + b"\0", b'{"a":' + line + b"}"
        words = b"x" * (16_793_600 - 24)
        long = document(field(2, "t", text(words.decode())), DOUBLE[4:-1])
        self.assertEqual(len(long), 16_793_600)
        for data, lines in ((DOUBLE + deep, [LINES[0], line]), (long, [b'{"t":"' + words + b'","d":{"$numberDouble":"1.0"}}'])):
            for word, stdin in self.forms(data):
                told = self.run_command("dump", word, stdin=stdin)
                self.assertTrue(told == (0, lines, f"{len(lines)} objects found\n"), (word, told[2]))  # Lines too long to print.
                self.assertEqual(self.run_command("check", word, stdin=stdin), (0, [], f"{len(lines)} documents, 0 faulty\n"))
                status, found, said = self.run_command("find", word, stdin=stdin)
                self.assertTrue((status, found) == (0, lines) and said.startswith(f"{len(lines)} documents, end"), (word, said))
        path = str(self.file(DOUBLE + deep))
        self.assertEqual(self.run_command("compare", path, path)[0], 0)
        self.assertEqual([it.partition(b"\t")[2] for it in self.run_command("query", path)[1]], [LINES[0], line])

    def test_names(self) -> None:
        """What is reported of a file that is not there, or no file, is what the program reports."""
        for command in ("check", "dump"):
            self.assertEqual(self.run_command(command, "none.bson")[::2], (1, "bsonkit: cannot open none.bson\n"))
            self.assertEqual(self.run_command(command, self.room)[0], 1)
        path = os.fsencode(self.room) + b"/-\xff.bson"
        with open(path, "wb") as file:
            file.write(DOUBLE)
        self.assertEqual(self.run_command("dump", os.fsdecode(path))[1], LINES[:1])

    def test_one_process_reads_a_dump(self) -> None:
        """It is the one beside the program; where none is there it is on `PATH`, and where no program is, that is the error."""
        program = self.counting()
        for data in (packed(['{"a":1}']), DOUBLE + DAMAGED):
            for word, stdin in self.forms(data):
                for command in ("check", "dump"):
                    self.run_command("--program", program, command, word, stdin=stdin)
                    self.assertEqual(self.starts(), [f"bsonwide {command} -"])
                    (self.room / "starts").unlink()
        path = self.file(DOUBLE)
        (self.room / "bsonwide").unlink()
        self.assertEqual(self.run_command("--program", program, "dump", path)[:2], (0, LINES[:1]))
        self.assertEqual(self.starts(), [])
        for command in ("check", "dump"):
            told = self.run_command("--program", f"{program}s", command, path)
            self.assertEqual(told, (1, [], f"bsonkit: cannot start {program}s: No such file or directory\n"))

    def test_relaxed(self) -> None:
        """Numbers and dates as the specification of relaxed Extended JSON has them, of any form of a dump."""
        data = document(field(16, "i", (5).to_bytes(4, "little")), field(18, "l", (1 << 40).to_bytes(8, "little")), DOUBLE[4:-1])
        data += document(field(9, "t", (1_735_689_600_500).to_bytes(8, "little")))
        lines = [b'{"i":5,"l":1099511627776,"d":1.0}', b'{"t":{"$date":"2025-01-01T00:00:00.5Z"}}']
        for word, stdin in self.forms(data):
            for words in (["--jsonFormat", "relaxed", word], [word, "--jsonFormat=relaxed"]):
                self.assertEqual(self.run_command("dump", *words, stdin=stdin), (0, lines, "2 objects found\n"))
            canonical = self.run_command("dump", word, stdin=stdin)
            self.assertEqual(self.run_command("dump", "--jsonFormat", "canonical", word, stdin=stdin), canonical)
        for words in (["dump", "--jsonFormat", "plain", PEOPLE], ["check", "--jsonFormat", "relaxed", PEOPLE], ["dump", PEOPLE, "--jsonFormat"]):
            self.assertEqual(self.run_command(*words)[:2], (2, []))

    def test_larger_than_what_a_run_reads(self) -> None:
        """With a largest input of 30,000 bytes in place of 4,294,967,295."""
        data = PEOPLE.read_bytes() + DOUBLE + PEOPLE.read_bytes() + DAMAGED
        path = str(self.file(data))
        place = f'document 1001, byte {len(data) - 2}, path "d": bad boolean'
        for run, wanted in ((lambda *how: check_file(path, PROGRAM, *how), [place]), (lambda *how: Dumping(PROGRAM).print_file(path, *how), [*PEOPLE_LINES, LINES[0], *PEOPLE_LINES])):
            with open(self.room / "out", "w+b") as out, mock.patch("bsonfind._dumps.framing.LARGEST_INPUT", 30_000):
                with mock.patch("sys.stdout", open(out.fileno(), "w", closefd=False)), mock.patch("sys.stderr", open(os.devnull, "w")) as err:
                    self.assertFalse(run(Console()))
                    err.close()
                out.seek(0)
                self.assertEqual(out.read().splitlines(), [it.encode() if isinstance(it, str) else it for it in wanted])
