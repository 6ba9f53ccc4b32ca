"""Tests of `show`: a document element by element, up to its fault and after it."""

import gzip
import json
import random
import resource
from typing import List, Tuple

from .bson import document, field, int32, string
from .support import DAMAGED, PEOPLE, PEOPLE_LINES, Room, packed, run_of_bytes

# A customer, whose e-mail address has a bad byte.
ID, MAIL, AGE = field(0x10, "_id", int32(7)), string("mail", "ada@example.org"), field(0x10, "age", int32(36))
ADDRESS = field(0x03, "address", document(string("city", "東京"), field(0x04, "lines", document(string("0", "1 Main St"), field(0x0A, "1", b"")))))
CUSTOMER = document(ID, MAIL, ADDRESS, AGE)
GOOD = [
    (4, "_id", "int", '{"$numberInt":"7"}', ""),
    (13, "mail", "string", '"ada@example.org"', ""),
    (39, "address", "object", "", ""),
    (52, "address.city", "string", '"東京"', ""),
    (69, "address.lines", "array", "", ""),
    (80, "address.lines.0", "string", '"1 Main St"', ""),
    (97, "address.lines.1", "null", "null", ""),
    (102, "age", "int", '{"$numberInt":"36"}', ""),
]
Rows = List[Tuple[int, str, str, str, str]]


class Shows(Room):
    def show(self, data: bytes, number: int, status: int, *words: str, name: str = "dump.bson") -> Tuple[Rows, str]:
        """The rows that it prints, and what it says."""
        found, out, told = run_of_bytes("show", str(self.file(data, name)), str(number), *words)
        self.assertEqual(found, status, told)
        rows: Rows = []
        for line in out.decode().splitlines():
            offset, path, kind, value, fault = line.split("\t")
            rows.append((int(offset), path, kind, value, fault))
        return rows, told

    def moved(self, rows: Rows, by: int) -> Rows:
        """The same rows further on in a dump."""
        return [(offset + by, *others) for offset, *others in rows]  # type: ignore[misc]

    def test_good_documents(self) -> None:
        """The first, one after others, one that gzip packed; the offsets are those of the types of elements."""
        size = len(CUSTOMER)
        self.assertEqual(self.show(CUSTOMER, 0, 0), (GOOD, f"{size} bytes at byte 0: no fault\n"))
        at = len(PEOPLE.read_bytes())
        wanted = self.moved(GOOD, at), f"{size} bytes at byte {at}: no fault\n"
        self.assertEqual(self.show(PEOPLE.read_bytes() + CUSTOMER + DAMAGED, 500, 0), wanted)
        self.assertEqual(self.show(gzip.compress(PEOPLE.read_bytes() + CUSTOMER), 500, 0, name="dump.bson.gz"), wanted)
        self.assertEqual(self.show(document(), 0, 0), ([], "5 bytes at byte 0: no fault\n"))

    def test_each_value(self) -> None:
        """Values are printed as dump prints them."""
        rows, _ = self.show(PEOPLE.read_bytes(), 7, 0)
        line = json.loads(PEOPLE_LINES[7])
        self.assertEqual({path: value for _, path, _, value, _ in rows if path in ("_id", "name", "age")}, {
            name: json.dumps(line[name], ensure_ascii=False, separators=(",", ":")) for name in ("_id", "name", "age")
        })  # fmt: skip

    def test_a_bad_byte_in_a_text(self) -> None:
        """The address has the other letters, and all other fields are there."""
        at = CUSTOMER.index(b"example")
        bad = bytearray(CUSTOMER)
        bad[at] = 0xFF
        rows, told = self.show(CUSTOMER + bytes(bad), 1, 1)
        wanted = self.moved(GOOD, len(CUSTOMER))
        where = len(CUSTOMER) + at
        wanted[1] = (*wanted[1][:3], '"ada@\\xffxample.org"', f"not UTF-8 at byte {where}")
        self.assertEqual(rows, wanted)
        self.assertEqual(told, f'{len(CUSTOMER)} bytes at byte {len(CUSTOMER)}: document 1, byte {where}, path "mail": not UTF-8\n')
        status, mended, _ = run_of_bytes("show", str(self.room / "dump.bson"), "1", "--bson")
        self.assertEqual((status, mended), (1, document(ID, ADDRESS, AGE)))

    def test_several_faults(self) -> None:
        """Each is marked, also after the first one: of a boolean, of a name, in a document in a document."""
        bad_name = b"\x10\xffge\0" + int32(1)
        inner = field(0x03, "a", document(field(0x03, "b", document(field(0x08, "c", b"\7"), AGE)), MAIL))
        data = document(ID, field(0x08, "vip", b"\2"), bad_name, inner, AGE)
        vip, name, deep = data.index(b"vip") + 4, data.index(b"\xff"), data.index(b"c\0\7") + 2
        rows, told = self.show(data, 0, 1)
        self.assertEqual([row[1:] for row in rows], [
            ("_id", "int", '{"$numberInt":"7"}', ""),
            ("vip", "bool", "02", f"bad boolean at byte {vip}"),
            ("\\xffge", "int", "01 00 00 00", f"not UTF-8 at byte {name}"),
            ("a", "object", "", ""),
            ("a.b", "object", "", ""),
            ("a.b.c", "bool", "07", f"bad boolean at byte {deep}"),
            ("a.b.age", "int", '{"$numberInt":"36"}', ""),
            ("a.mail", "string", '"ada@example.org"', ""),
            ("age", "int", '{"$numberInt":"36"}', ""),
        ])  # fmt: skip
        self.assertIn('path "vip": bad boolean', told)
        mended = document(ID, field(0x03, "a", document(field(0x03, "b", document(AGE)), MAIL)), AGE)
        self.assertEqual(run_of_bytes("show", str(self.room / "dump.bson"), "0", "--bson")[1], mended)

    def test_lengths_of_documents_inside(self) -> None:
        """One that is wrong is marked, and its fields lead on to what is after it."""
        at = CUSTOMER.index(b"address") + 8
        for wrong in (0, 4, 5, 300, 0x7FFFFFFF, -1):
            data = CUSTOMER[:at] + int32(wrong) + CUSTOMER[at + 4 :]
            rows, _ = self.show(data, 0, 1)
            paths = [path for _, path, _, _, _ in rows]
            with self.subTest(wrong):
                self.assertEqual(paths[:3], ["_id", "mail", "address"])
                if wrong != 5:  # Where it is that of an empty document, its fields seem to be those after it.
                    self.assertEqual(rows[2][4], "bad length")
                    self.assertEqual([row[:4] for row in rows], [row[:4] for row in GOOD])

    def test_types_and_lengths_that_lead_nowhere(self) -> None:
        """What is before them is there, and the bytes from there on are counted; after the document in which it is, its length leads on."""
        at = CUSTOMER.index(b"mail") - 1
        data = CUSTOMER[:at] + b"\x14" + CUSTOMER[at + 1 :]
        rows, _ = self.show(data, 0, 1)
        self.assertEqual(rows[:2], [GOOD[0], (at, "mail", "", "", "unknown type 14")])
        left = len(CUSTOMER) - at - 6
        self.assertEqual(rows[2][0::4], (at + 6, f"{left} bytes: no length leads through them"))
        self.assertTrue(rows[2][3].startswith("10 00 00 00 61 64 61 40"))
        at = CUSTOMER.index("東京".encode()) - 4
        data = CUSTOMER[:at] + int32(1000) + CUSTOMER[at + 4 :]
        rows, _ = self.show(data, 0, 1)
        self.assertEqual(rows[3], (52, "address.city", "string", '""', "a length leads out of the document"))
        self.assertEqual(rows[4][0], at)
        self.assertEqual(rows[5], GOOD[-1])

    def test_a_document_with_a_wrong_length(self) -> None:
        """It is printed up to the zero after its fields; one that was truncated, as far as it is there."""
        for length in (-1, 0, 4, 0x7FFFFFFF):
            data = int32(length) + CUSTOMER[4:] + PEOPLE.read_bytes()
            rows, told = self.show(data, 0, 1)
            self.assertEqual((rows, told), (GOOD, f'{len(CUSTOMER)} bytes at byte 0: document 0, byte 0, path "": bad length\n'))
        rows, told = self.show(CUSTOMER[:105], 0, 1)
        self.assertEqual(rows[:-1], GOOD[:-1])
        self.assertIn('document 0, byte 0, path "": bad length', told)

    def test_documents_that_are_not_there(self) -> None:
        data = PEOPLE.read_bytes()
        for some, number, told in (
            (data, 500, "500 documents are there"),
            (b"", 0, "0 documents are there"),
            (data[:39978] + b"\xff" * 50 + data[39978:], 300, "a wrong length at byte 39978"),
        ):
            path = self.file(some)
            self.assertEqual(run_of_bytes("show", str(path), str(number)), (2, b"", f"bsonkit: {path}: no document {number}: {told}\n"))
        self.assertEqual(run_of_bytes("show", "/missing", "0")[::2], (2, "bsonkit: /missing: No such file or directory\n"))
        self.assertIn("argument N: a number from 0", run_of_bytes("show", str(PEOPLE), "-1")[2] + run_of_bytes("show", str(PEOPLE), "x")[2])

    def test_any_bytes(self) -> None:
        """Of whatever is damaged each byte is in one row, and nothing ends with an error of Python."""
        chance = random.Random(7)
        data = packed([PEOPLE_LINES[7].decode()])
        for _ in range(60):
            bad = bytearray(data)
            for _ in range(chance.randrange(1, 4)):
                bad[chance.randrange(4, len(bad))] = chance.randrange(256)
            status, out, told = run_of_bytes("show", str(self.file(bytes(bad))), "0")
            self.assertIn(status, (0, 1), told)
            self.assertRegex(told, rf"^{len(bad)} bytes at byte 0: ")
            offsets = [int(line.split(b"\t")[0]) for line in out.splitlines()]
            self.assertEqual(offsets, sorted(offsets))
            _, mended, _ = run_of_bytes("show", str(self.room / "dump.bson"), "0", "--bson")
            self.assertEqual(run_of_bytes("check", str(self.file(mended, "mended.bson")))[0], 0)

    def test_time(self) -> None:
        """It grows as the document: of 2 MB of documents in documents, of many fields, of a name without an end, and of short lengths."""
        for body in (b"\x03\0\x7f\xff\xff\x7f" * 300_000, AGE * 100_000, b"\x02" + b"a" * 2_000_000, (b"\x03a\0" + int32(8)) * 250_000):
            path = self.file((len(body) + 5).to_bytes(4, "little") + body + b"\0")
            before = resource.getrusage(resource.RUSAGE_CHILDREN).ru_utime
            run_of_bytes("show", str(path), "0")
            self.assertLess(resource.getrusage(resource.RUSAGE_CHILDREN).ru_utime - before, 10)
