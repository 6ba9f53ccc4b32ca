"""Tests of the command `grep`."""

import fcntl
import gzip
import json
import os
import re
import signal
import subprocess
import sys
import termios
import threading
import time
from typing import List, Sequence
from unittest import mock
from uuid import UUID

from bsonfind import ProgramError
from bsonfind._backup.backups import Dump
from bsonfind._backup.grep import Hits, grep_dumps, wanted_of
from bsonfind._backup.search import Search, Wanted, literal_in
from bsonfind._dumps.sources import Unwatched

from .archives import archive
from .bson import document, field, int32, string, text
from .support import (
    COMMAND, DAMAGED, PATIENCE, PEOPLE, PROGRAM, Room, environment, run_of_bytes, run_on_terminal, run_package, wait_for,
)  # fmt: skip

OID = "07bd617e2da5422a3c4466c9"
UID = "00112233-4455-6677-8899-aabbccddeeff"
# The bytes of that UUID as drivers of today write it, and old ones of Java and of C#.
STANDARD = bytes.fromhex("00112233445566778899aabbccddeeff")
JAVA = bytes.fromhex("7766554433221100ffeeddccbbaa9988")
SHARP = bytes.fromhex("33221100554477668899aabbccddeeff")


def one(number: int, *fields: bytes) -> bytes:
    """A document with an id."""
    return document(field(0x10, "_id", int32(number)), *fields)


def binary(name: str, subtype: int, data: bytes) -> bytes:
    """A field of binary data."""
    return field(0x05, name, int32(len(data)) + bytes([subtype]) + data)


def scoped(name: str, code: str, scope: bytes) -> bytes:
    """A field of code with scope."""
    value = text(code) + scope
    return field(0x0F, name, int32(len(value) + 4) + value)


# One document for each type of a text, and where else a text may be.
TEXTS = [
    one(1, string("mail", "ada@example.org")),
    one(2, field(0x0E, "s", text("to ada@example.org")), string("other", "ADA@EXAMPLE.ORG")),
    one(3, field(0x0D, "f", text("send('ada@example.org')"))),
    one(4, scoped("g", "send('ada@example.org')", document(string("to", "ada@example.org"), field(0x10, "n", int32(1))))),
    one(5, field(0x0B, "r", b"^ada@example.org$\0i\0")),
    one(6, field(0x0C, "p", text("ada@example.org") + bytes.fromhex(OID))),
    one(7, field(0x10, "ada@example.org", int32(5))),
    one(8, field(0x03, "a", document(field(0x04, "b", document(field(0x0A, "0", b""), string("1", "ada@example.org")))))),
    one(9, field(0x03, "ada@example.org", document(string("x", "ada@example.org")))),
    document(string("x", "ada@example.org")),
    # None: binary data, a text in two pieces, other cases.
    one(10, binary("b", 0, b"ada@example.org"), string("x", "ada@example"), string("y", ".org")),
]
# The id, the path and the value of each field, as canonical Extended JSON v2 has them.
FOUND = [
    ("1", "mail", '"ada@example.org"'),
    ("2", "s", '{"$symbol":"to ada@example.org"}'),
    ("3", "f", '{"$code":"send(\'ada@example.org\')"}'),
    ("4", "g", '{"$code":"send(\'ada@example.org\')"}'),
    ("4", "g.to", '"ada@example.org"'),
    ("5", "r", '{"$regularExpression":{"pattern":"^ada@example.org$","options":"i"}}'),
    ("6", "p", f'{{"$dbPointer":{{"$ref":"ada@example.org","$id":{{"$oid":"{OID}"}}}}}}'),
    ("7", "ada@example.org", '{"$numberInt":"5"}'),
    ("8", "a.b.1", '"ada@example.org"'),
    ("9", "ada@example.org", ""),
    ("9", "ada@example.org.x", '"ada@example.org"'),
    ("", "x", '"ada@example.org"'),
]


class Grep(Room):
    def grep(self, *words: object, status: int = 0, told: Sequence[str] = (), note: str = "", stdin: bytes = b"") -> List[List[str]]:
        """The cells of the lines that it prints; the last line of standard error is a note."""
        ended, printed, said = run_of_bytes("grep", *map(str, words), stdin=stdin)
        *lines, last = said.splitlines() or [""]
        self.assertEqual((ended, lines), (status, [f"bsonkit: {it}" for it in told]))
        self.assertIn(note, last)
        return [line.split("\t") for line in printed.decode().splitlines()]

    def rows(self, path: object, found: Sequence[Sequence[str]] = FOUND) -> List[List[str]]:
        """The lines for the fields of a file."""
        return [[str(path), f'{{"$numberInt":"{number}"}}' if number else "", place, value] for number, place, value in found]

    def test_texts(self) -> None:
        """In a directory, of which a file is one by gzip, and in standard input."""
        data = b"".join(TEXTS)
        plain = self.file(data, "d/a.bson")
        packed = self.file(gzip.compress(data), "d/b.bson.gz")
        found = self.grep("ada@example.org", self.room / "d", note="20 documents in 2 of 2 files")
        self.assertEqual(found, self.rows(plain) + self.rows(packed))
        # A document may begin as a file of gzip does.
        alike = document(field(0x05, "b", int32(0x088B1F - 13) + bytes(0x088B1F - 12)))
        self.assertEqual(alike[:4], gzip.compress(data)[:4])
        for sent in (data, gzip.compress(data), alike + data):
            self.assertEqual(self.grep("ada@example.org", "-", stdin=sent), self.rows("-"))
        self.grep("ada@example.org", "-", stdin=gzip.compress(b""), note="0 documents in 0 of 1 files")
        self.assertEqual(self.grep("Ada@example.org", plain, note="0 documents in 0 of 1 files"), [])

    def test_case_and_ids(self) -> None:
        """By the command: letters of either case, an id, a UUID, and words in any order."""
        oid, uid = document(field(0x07, "_id", bytes.fromhex(OID))), document(binary("_id", 4, STANDARD))
        path = self.file(TEXTS[1] + oid + uid)
        self.assertEqual([it[2] for it in self.grep("ADA@", path, "-i")], ["s", "other"])
        self.assertEqual(self.grep(path, "--jobs", "1", "--regex", "^ADA"), self.rows(path, [("2", "other", '"ADA@EXAMPLE.ORG"')]))
        self.assertEqual(self.grep(OID.upper(), path), [[str(path), f'{{"$oid":"{OID}"}}', "_id", f'{{"$oid":"{OID}"}}']])
        value = '{"$binary":{"base64":"ABEiM0RVZneImaq7zN3u/w==","subType":"04"}}'
        self.assertEqual(self.grep(UID, path), [[str(path), value, "_id", value]])

    def test_doubles(self) -> None:
        """Values of all types are printed beside the name that is found."""
        data = one(1, field(0x01, "price", bytes.fromhex("000000000000f83f")), field(0x13, "old_price", (150 | 6174 << 113).to_bytes(16, "little")))
        path = self.file(data)
        self.assertEqual(self.grep("price", path), self.rows(path, [("1", "price", '{"$numberDouble":"1.5"}'), ("1", "old_price", '{"$numberDecimal":"1.50"}')]))

    def test_json_and_counts(self) -> None:
        path = self.file(b"".join(TEXTS))
        lines = [json.loads(line) for (line,) in self.grep("ada@example.org", path, "--json")]
        self.assertEqual(
            [(it["file"], it["id"], it["path"], it["value"]) for it in lines],
            [(str(path), {"$numberInt": number} if number else None, place, json.loads(value or "null")) for number, place, value in FOUND],
        )
        other = self.file(TEXTS[0] * 2, "other.bson")
        self.assertEqual(self.grep("ada@example.org", "--count", path, other, note="12 documents in 2 of 2 files"), [[str(path), "10", "12"], [str(other), "2", "2"]])
        self.assertEqual(self.grep("--count", "--regex", "^ada@example.org$", path), [[str(path), "7", "8"]])

    def test_slow_pattern(self) -> None:
        """The value is named, the others are searched, and the status is 1."""
        slow = "a" * 40 + "b"
        path = self.file(one(1, string("x", "aaa")) + one(2, string("y", slow), string("z", "aa")) + document(string("w", slow)) + one(3, string("x", "aaaa")))
        told = [f'{path}: {it}path "{place}": the pattern takes longer than 1 seconds' for it, place in (('_id {"$numberInt":"2"}, ', "y"), ("", "w"))]
        found = self.grep("--regex", "^(a+)+$", "--timeout", 1, path, status=1, told=told, note="3 documents in 1 of 1 files, 1 not searched in full")
        self.assertEqual(found, self.rows(path, [("1", "x", '"aaa"'), ("2", "z", '"aa"'), ("3", "x", '"aaaa"')]))

    def test_damage(self) -> None:
        """What is good before and after it is searched: of a bad document, a wrong length, a file of gzip that ends too soon."""
        good = TEXTS[0] * 4
        bad = self.file(good + DAMAGED + good, "bad.bson")
        told = f'{bad}: document 4, byte {len(good) + 7}, path "d": bad boolean'
        self.assertEqual(self.grep("ada@", bad, status=1, told=[told], note="8 documents in 1 of 1 files, 1 not searched in full"), self.rows(bad, FOUND[:1] * 8))
        length = self.file(good + b"\xff\xff\xff\x7f" + TEXTS[0][4:] + good, "length.bson")
        told = f"{length}: wrong length at byte {len(good)}: {len(TEXTS[0])} bytes left out; that a document begins at byte {len(good) + len(TEXTS[0])} is a guess"
        self.assertEqual(self.grep("ada@", length, status=1, told=[told]), self.rows(length, FOUND[:1] * 8))
        cut = self.file(gzip.compress(good)[:-8], "cut.bson.gz")
        told = f"{cut}: byte {len(good)}: not a sound file of gzip: it ends too soon; nothing after it can be read"
        self.assertEqual(self.grep("ada@", cut, status=1, told=[told]), self.rows(cut, FOUND[:1] * 4))
        many = self.file(DAMAGED * 12 + good, "many.bson")
        run = self.grep("ada@", many, status=1, told=[*(f'{many}: document {it}, byte {9 * it + 7}, path "d": bad boolean' for it in range(10)), f"{many}: and 2 more"])
        self.assertEqual(run, self.rows(many, FOUND[:1] * 4))

    def test_files_that_are_not_read(self) -> None:
        good, missing = self.file(TEXTS[0]), self.room / "missing.bson"
        told = [f"{missing}: No such file or directory"]
        self.assertEqual(self.grep("ada", missing, good, status=2, told=told, note="1 documents in 1 of 2 files, 1 not searched in full"), self.rows(good, FOUND[:1]))
        for words, line in (
            ((), "grep takes a text, or --regex, and then the names of dumps"), (("ada",), "no dump is named"), (("", good), "an empty text is in each field"),
            (("--regex", "", good), "an empty text is in each field"), (("--regex", "(", good), "--regex: missing ), unterminated subpattern at position 0"),
            ((os.fsdecode(b"a\xff"), good), "the text is not UTF-8 at byte 1"), (("ada", "-", "-"), "standard input is named twice"),
        ):  # fmt: skip
            self.grep(*words, status=2, note=f"bsonkit: {line}")
        self.assertIn("argument --timeout: a number from 1 to 2147483647, not 0", run_package("grep", "ada", str(good), "--timeout", "0").stderr)

    def test_archives(self) -> None:
        """Of a file, of a pipe, by gzip, and one collection; one with damage, and one that ends too soon."""
        people, orders = b"".join(TEXTS[:5]), TEXTS[7] * 3
        data = archive([("club", "people", people), ("shop", "orders", orders)], 2)
        path = self.file(data, "night.archive")
        wanted = [*self.rows(f"{path}::club.people", FOUND[:6]), *self.rows(f"{path}::shop.orders", FOUND[8:9] * 3)]
        self.assertEqual(sorted(self.grep("ada@example.org", path, note="8 documents in 1 of 1 files")), sorted(wanted))
        self.assertEqual(self.grep("ada@example.org", f"{path}::club.people"), wanted[:6])
        for sent in (data, gzip.compress(data)):
            found = self.grep("ada@example.org", "-", stdin=sent, note="8 documents in 1 of 1 files")
            self.assertEqual(sorted(found), sorted([it[0].replace(str(path), "-"), *it[1:]] for it in wanted))
        told = [f"{path}::shop.none: shop.none is not in the archive"]
        self.grep("ada", f"{path}::shop.none", status=2, told=told)
        broken = self.file(data.replace(b"ada@", b"\xffda@", 1), "broken.archive")
        run = run_package("grep", "ada@example.org", str(broken))
        self.assertEqual((run.returncode, len(run.stdout.splitlines())), (1, 8))
        self.assertIn(f'{broken}::club.people: document 0, byte {TEXTS[0].index(b"ada")}, path "mail": not UTF-8\n', run.stderr)
        self.assertIn(f"{broken}::club.people: wrong CRC-64\n", run.stderr)
        cut = self.file(data[:-10], "cut.archive")
        run = run_package("grep", "ada@example.org", str(cut))
        self.assertEqual((run.returncode, len(run.stdout.splitlines())), (1, 9))
        self.assertIn("the archive ends", run.stderr)

    def test_many_files(self) -> None:
        """In the order of their names, however many processes search, and from document to document."""
        for number in range(7):
            self.file(b"".join(one(it, string("x", f"{number} needle {it}" if it % 5 == number % 5 else "hay")) for it in range(200)), f"d/{number}.bson")
        wanted = [[f"{self.room}/d/{n}.bson", f'{{"$numberInt":"{it}"}}', "x", f'"{n} needle {it}"'] for n in range(7) for it in range(200) if it % 5 == n % 5]
        listed = self.file("".join(f"{self.room}/d/{n}.bson\n" for n in range(7)).encode(), "names")
        for words in (("needle", "--jobs", "1", self.room / "d"), ("--jobs", "3", "--list", listed, "needle")):
            self.assertEqual(self.grep(*words, note="280 documents in 7 of 7 files"), wanted)

    def test_large_file(self) -> None:
        """Of 6 megabytes, in several batches by several processes: each text, and no other."""
        data = b"".join(one(it, string("x", "hay" * 40 + ("needle" if it % 1000 == 999 else ""))) for it in range(40_000))
        path = self.file(data)
        for words in (("needle",), ("-i", "NEEDLE"), ("--regex", "needle$")):
            self.assertEqual([it[1] for it in self.grep(*words, path)], [f'{{"$numberInt":"{it}"}}' for it in range(999, 40_000, 1000)], words)

    def test_programs(self) -> None:
        """Python that cannot be started, and one that ends."""
        dump = Dump(str(self.file(TEXTS[0])))
        for python, told in (("/bin/false", "ended with status 1"), ("/no/python", "cannot start /no/python: No such file or directory"), ("", "it is not known where")):
            with mock.patch.object(sys, "executable", python), self.assertRaisesRegex(ProgramError, told):
                list(grep_dumps([dump], Wanted("ada"), 2, PROGRAM, lambda files, size: Unwatched()))
        found = list(grep_dumps([dump] * 3, Wanted("ada"), 2, PROGRAM, lambda files, size: Unwatched()))
        self.assertEqual([it.documents for it in found if isinstance(it, Hits)], [1, 1, 1])

    def test_outputs_that_take_no_more(self) -> None:
        """Nothing is left running, however much is not printed."""
        path = str(self.file(TEXTS[0] * 50_000))
        with open("/dev/full", "wb") as full:
            run = run_package("grep", "ada", path, stdout=full)
        self.assertEqual((run.returncode, run.stderr), (2, "bsonkit: cannot write: No space left on device\n"))
        read, write = os.pipe()
        command = [*COMMAND, "grep", "ada", path]
        with subprocess.Popen(command, env=environment(), stdout=write, stderr=subprocess.PIPE, start_new_session=True) as run:
            os.close(write)
            os.read(read, 100)
            os.close(read)
            self.assertEqual(run.communicate(timeout=PATIENCE)[1], b"bsonkit: cannot write: Broken pipe\n")
        self.assertEqual(run.returncode, 2)
        self.assertRaises(ProcessLookupError, os.killpg, run.pid, 0)

    def test_interrupts(self) -> None:
        """Where the check is stuck, where a pattern is, and where a pipe gives no more."""
        self.interrupt_command("--program", self.stuck(), "grep", "ada", str(self.file(TEXTS[0], "small.bson")))
        slow = str(self.file(one(1, string("y", "a" * 60 + "b"))))
        for name, first in ((slow, b""), ("-", TEXTS[0]), ("-", archive([("club", "people", TEXTS[0])])[:-40])):
            command = [*COMMAND, "grep", "--regex", "^(a+)+$", "--timeout", "600", name]
            read, write = os.pipe()
            os.write(write, first)
            with subprocess.Popen(command, env=environment(), stdin=read, stdout=subprocess.PIPE, stderr=subprocess.PIPE, start_new_session=True) as run:
                os.close(read)
                # It has read all that was sent, or begun to search.
                wait_for(lambda: not unread(write) and (first or len(os.listdir(f"/proc/{run.pid}/task")) > 1))  # noqa: B023
                time.sleep(1)
                run.send_signal(signal.SIGINT)
                self.assertEqual((run.communicate(timeout=PATIENCE), run.returncode), ((b"", b""), 130), name)
            os.close(write)
            wait_for(lambda: not is_group(run.pid))

    def test_names(self) -> None:
        """Names of files with tabs are escaped, others are as they are on the disk, and a text may begin with a hyphen."""
        one_name, other = self.file(TEXTS[0], "a\tb.bson"), self.file(one(1, string("x", "-ada")), os.fsdecode(b"\xff.bson"))
        run = run_package("grep", "ada@", str(one_name), stdout=subprocess.PIPE)
        self.assertEqual(run.stdout.split("\t")[0], f"{self.room}/a\\x09b.bson")
        command = [*COMMAND, "grep", "--", "-ada", str(other)]
        found = subprocess.run(command, env=environment(), stdout=subprocess.PIPE, stderr=subprocess.PIPE)
        self.assertEqual(found.stdout.split(b"\t")[0], os.fsencode(other))

    def test_terminal(self) -> None:
        """There a header comes first, unless nothing is found."""
        path = str(self.file(TEXTS[0]))
        for word, header in (("ada", "file\t_id\tpath\tvalue"), ("ad@", None)):
            _, printed = run_on_terminal("grep", word, path, streams=["stdout"])
            self.assertEqual(next(iter(printed.decode().splitlines()), None), header)


class Searching(Room):
    """The search of one process."""

    def paths(self, wanted: Wanted, data: bytes) -> List[str]:
        """The paths of what is found."""
        return [path for match in Search(wanted).run(data).matches for path, _ in match.fields]

    def test_case(self) -> None:
        """By Unicode, also after bytes that begin no character, and of one letter that has two in the other case."""
        data = one(1, binary("b", 0, b"\xe2\x84"), field(0x02, "\u00c9", text("Stra\u00dfe")), string("x", "\u212alein"))
        data = TEXTS[1] + data + document(field(0xFF, "KEY", b""))
        for word, places in (("ADA@", ["s", "other"]), ("STRASSE", ["\u00c9"]), ("\u00e9", ["\u00c9"]), ("klein", ["x"]), ("key", ["KEY"]), ("kez", [])):
            self.assertEqual(self.paths(wanted_of(word, True, True), data), places, word)
        self.assertEqual(self.paths(Wanted("^stra.e$", True, True), data), ["\u00c9"])
        for word in ("strasse", "key", "klein", "\u00e9"):
            self.assertEqual(self.paths(wanted_of(word, False, True), data), [], word)

    def test_ids(self) -> None:
        """By their bytes, in digits of either case, and as texts."""
        oid = bytes.fromhex(OID)
        data = document(field(0x07, "_id", oid)) + one(2, field(0x04, "a", document(field(0x07, "0", oid)))) + one(3, string("s", f"_{OID}"))
        data += TEXTS[5] + one(4, binary("b", 0, oid), string("t", OID[:23]))
        for word, ignores_case, places in ((OID, False, ["_id", "a.0", "s", "p"]), (OID.upper(), False, ["_id", "a.0", "p"]), (OID.upper(), True, ["_id", "a.0", "s", "p"])):
            self.assertEqual(self.paths(wanted_of(word, ignores_case, True), data), places)
        self.assertEqual(self.paths(Wanted("^[0-9a-f]{23}$", True), data), ["t"])

    def test_uuids(self) -> None:
        """Of subtype 04, and of subtype 03 in the order of each old driver, but no other data of 16 bytes."""
        data = (
            document(binary("_id", 4, STANDARD)) + one(1, binary("p", 3, STANDARD), binary("j", 3, JAVA), binary("s", 3, SHARP))
            + one(2, binary("a", 0, STANDARD), binary("b", 4, JAVA), binary("c", 4, STANDARD + b"\0"), string("t", UID))
        )  # fmt: skip
        self.assertEqual(self.paths(wanted_of(UID, False, True), data), ["_id", "p", "j", "s", "t"])
        self.assertEqual(self.paths(wanted_of(UID.upper(), True, True), data), ["_id", "p", "j", "s", "t"])
        self.assertEqual(self.paths(wanted_of(UID.upper(), False, True), data), ["_id", "p", "j", "s"])
        self.assertEqual(wanted_of(UID, False, True).old_uuids, (STANDARD, JAVA, SHARP))
        self.assertEqual(UUID(UID).bytes, STANDARD)

    def test_what_is_no_text(self) -> None:
        """Numbers, dates, the numbers of an array's elements, the options of a regular expression, a text and its name joined."""
        data = one(7, field(0x04, "a", document(field(0x10, "0", int32(7)), field(0x10, "777", int32(7)))), field(0x0B, "r", b"x\0imx\0"), string("ab", "cd"))
        for word in ("7", "0", "im", "abcd", "a.0", "\0"):
            self.assertEqual(self.paths(wanted_of(word, False, True), data), [], word)

    def test_patterns(self) -> None:
        """Of texts and of names, one by one; a point is no point of a path."""
        data = b"".join(TEXTS) + one(11, string("two", "a\nbb"), string("tab\t", "x\ty"))
        for pattern, places in (("^mail$", ["mail"]), ("(?m)^bb$", ["two"]), (r"\t", ["tab\t"]), ("g.to", []), (r"^send\(", ["f", "g"]), (r"^\^ada", ["r"]), ("^to$|^n$", ["g.to", "g.n"])):
            self.assertEqual(self.paths(Wanted(pattern, True), data), places, pattern)

    def test_literals(self) -> None:
        """The longest text of a pattern that is not in one of its parts, which a match must have; and each Python finds the same."""
        for pattern, literal in (
            ("ada@example", "ada@example"), (r"^\w+@example\.(org|com)$", "@example."), ("(?i)ada", ""), ("a|b", ""), ("(abc)?de", "de"), ("(?x) a b # c", "ab"),
            ("[ab]cd*e", "c"), ("a{2}", ""), ("(?<=abc)d", "d"), (r"x\bAB", "AB"), ("\u00e9t\u00e9$", "\u00e9t\u00e9"), ("abc|abd", "ab"), ("a(?i:bcd)e", "a"), (r"\x41\n", "A\n"),
        ):  # fmt: skip
            self.assertIn(literal_in(re.compile(pattern)), (literal.encode(), b""), pattern)
        if sys.version_info < (3, 14):
            self.assertEqual(literal_in(re.compile(r"^\w+@example\.(org|com)$")), b"@example.")
        data = b"".join(TEXTS) + PEOPLE.read_bytes()
        for pattern in ("ada@", "[@]example", r"^\w+@example\.(org|com)$", "Main St", r"Lu.s$", "(?:Main|Side) St", "l[i]nes", "^name$", "n(?=ame)"):
            with mock.patch("bsonfind._backup.search.literal_in", lambda _: b""):
                wanted = Search(Wanted(pattern, True)).run(data)
            self.assertEqual(Search(Wanted(pattern, True)).run(data), wanted)
            self.assertGreater(wanted.documents, 0)

    def test_long_paths(self) -> None:
        """A path has a thousand bytes at most, and no half of a character."""
        name = "\u00e9" * 600
        inner = document(*(string(str(number), "needle") for number in range(3)))
        found = Search(Wanted("needle")).run(document(field(0x03, name, inner)))
        self.assertEqual([path for path, _ in found.matches[0].fields], ["\u00e9" * 500] * 3)

    def test_candidates(self) -> None:
        """A needle that goes from one document into the next is in neither, and hides none."""
        first = document(string("x", "a"), field(0x10, "n", (0x6E).to_bytes(4, "little")))
        data = first + one(1, string("x", "n")) * 3
        found = Search(Wanted("n")).run(data)
        self.assertEqual((found.documents, found.fields), (4, 4))
        needle = data[len(first) - 2 : len(first) + 2].decode("latin-1")
        self.assertEqual(Search(Wanted(needle)).run(data).documents, 0)

    def test_thread(self) -> None:
        """Without a pattern no signal is used, so any thread may search."""
        found = []
        thread = threading.Thread(target=lambda: found.append(Search(Wanted("ada")).run(TEXTS[0]).documents))
        thread.start()
        thread.join()
        self.assertEqual(found, [1])


def unread(pipe: int) -> int:
    """How many bytes of a pipe were not read yet."""
    return int.from_bytes(fcntl.ioctl(pipe, termios.FIONREAD, bytes(4)), sys.byteorder)


def is_group(number: int) -> bool:
    """Whether a process is left of a group."""
    try:
        os.killpg(number, 0)
    except ProcessLookupError:
        return False
    return True
