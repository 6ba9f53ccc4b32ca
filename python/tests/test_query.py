"""Tests of the commands `query` and `ids`."""

import gzip
import json
import os
import struct
import subprocess
import threading
from typing import List
from unittest import mock

from bsonfind._ask.requests import Request
from bsonfind._backup.backups import Dump
from bsonfind._backup.ids import find_ids, ids_of
from bsonfind._backup.query import query_dumps

from .bson import document, field, int32, text
from .support import COMMAND, DAMAGED, PEOPLE, PEOPLE_LINES, PROGRAM, SHOP, SHOP_LINES, Room, environment, packed, run_of_bytes, run_package

OLD = '{"age":{"$gte":90}}'
OLD_LINES = [line.decode() for line in PEOPLE_LINES if int(json.loads(line)["age"]["$numberInt"]) >= 90]


class Queries(Room):
    def query(self, *words: str, status: int, told: str) -> List[str]:
        """The lines that a query prints."""
        run = run_package("query", *words)
        self.assertEqual((run.returncode, run.stderr), (status, told))
        return run.stdout.splitlines()

    def test_files_beside_their_documents(self) -> None:
        """In the order of the files, however many are asked at once."""
        names = ["a/club/1.bson", "a/club/2.bson.gz", "a/shop/orders.bson", "a/z.bson"]
        for name, data in zip(names, (PEOPLE.read_bytes(), gzip.compress(PEOPLE.read_bytes()), SHOP.read_bytes(), b"")):
            self.file(data, name)
        directory = str(self.room / "a")
        wanted = [f"{self.room}/{name}\t{line}" for name in names[:2] for line in OLD_LINES]
        for jobs in ("1", "2", "9"):
            found = self.query(directory, "--query", OLD, "--jobs", jobs, status=0, told="98 documents in 2 of 4 files\n")
            self.assertEqual(found, wanted)
        listed = self.file("".join(f"{self.room}/{name}\n" for name in names).encode(), "names")
        self.assertEqual(self.query("--list", str(listed), "--query", OLD, status=0, told="98 documents in 2 of 4 files\n"), wanted)
        lines = [f"{SHOP}\t{line.decode()}" for line in SHOP_LINES]
        self.assertEqual(self.query(str(SHOP), status=0, told="400 documents in 1 of 1 files\n"), lines)

    def test_limit(self) -> None:
        """It is that of all files, and what was not looked for is said."""
        names = [str(self.file(PEOPLE.read_bytes(), f"a/{it}.bson")) for it in range(3)]
        end = "; no more were looked for, as --limit says\n"
        for limit, files in ((1, 1), (49, 1), (60, 2), (98, 2)):
            wanted = [f"{name}\t{line}" for name in names for line in OLD_LINES][:limit]
            told = f"{limit} documents in {files} of 3 files{end}"
            self.assertEqual(self.query(*names, "--query", OLD, "--limit", str(limit), status=0, told=told), wanted)
        for words in (("--limit", "0"), ("--limit", "148"), ()):
            self.assertEqual(len(self.query(*names, "-q", OLD, *words, status=0, told="147 documents in 3 of 3 files\n")), 147)
        self.assertIn("argument --limit: a number from 0", run_package("query", *names, "--limit", "-1").stderr)

    def test_files_with_several_names(self) -> None:
        """Each name has the documents."""
        one, two, three = (self.room / f"a/{name}.bson" for name in ("one", "two", "three"))
        self.file(packed(['{"_id":1}']), "a/one.bson")
        os.link(one, two)
        three.symlink_to("one.bson")
        wanted = [f'{path}\t{{"_id":{{"$numberInt":"1"}}}}' for path in (one, three, two)]
        self.assertEqual(self.query(str(self.room / "a"), str(one), status=0, told="3 documents in 3 of 3 files\n"), wanted)

    def test_files_that_are_refused(self) -> None:
        """The others are asked nevertheless."""
        bad, missing = self.file(PEOPLE.read_bytes() + DAMAGED, "bad.bson"), self.room / "missing.bson"
        wanted = [f"{PEOPLE}\t{line}" for line in OLD_LINES]
        fault = f'bsonkit: {bad}: document 500, byte 92733, path "d": bad boolean\n'
        for words, status, told in (
            ([bad, PEOPLE], 1, f"{fault}49 documents in 1 of 2 files, 1 not asked in full\n"),
            ([missing, PEOPLE, bad], 2, f"bsonkit: {missing}: No such file or directory\n{fault}49 documents in 1 of 3 files, 2 not asked in full\n"),
        ):
            self.assertEqual(self.query(*map(str, words), "--query", OLD, status=status, told=told), wanted)
        self.query(str(PEOPLE), "--query", '{"$a":1}', status=2, told='bsonkit: query: place "$a": unknown operator\n')
        self.query(str(PEOPLE), "--query", "{", status=2, told="bsonkit: query: byte 1: not JSON\n")
        told = "bsonkit: query: byte 1: not JSON; write names in double quotation marks\n"
        self.query(str(PEOPLE), "--query", "{age:5}", status=2, told=told)
        self.query(status=2, told="bsonkit: no dump is named\n")
        self.assertIn("argument --jobs: a number from 1", run_package("query", str(PEOPLE), "--jobs", "0").stderr)

    def test_files_larger_than_a_run_holds(self) -> None:
        """With at most 20,000 bytes in place of megabytes: a file, a compressed one and a pipe, one with a fault."""
        data, pipe = PEOPLE.read_bytes(), self.room / "pipe"
        bad = data[:79930] + DAMAGED + data[79930:]
        os.mkfifo(pipe)
        writer = threading.Thread(target=pipe.write_bytes, args=[data])
        writer.start()
        paths = [str(PEOPLE), str(self.file(gzip.compress(data), "a.bson.gz")), str(pipe), str(self.file(bad, "bad.bson"))]
        with mock.patch("bsonfind._backup.query.MOST_HELD", 20_000):
            found = list(query_dumps([Dump(path) for path in paths], Request(OLD), 2, PROGRAM))
        writer.join()
        for path in paths[:3]:
            self.assertEqual([line.decode() for it in found for line in it.lines if it.name == path], OLD_LINES)
        errors = [(it.name, str(it.error)) for it in found if it.error]
        self.assertEqual(errors, [(paths[3], 'document 436, byte 79937, path "d": bad boolean')])

    def test_full_disk(self) -> None:
        with open("/dev/full", "wb") as full:
            run = run_package("query", str(PEOPLE), stdout=full)
        self.assertEqual((run.returncode, run.stderr), (2, "bsonkit: cannot write: No space left on device\n"))


class Interrupts(Room):
    def test_no_program_is_left(self) -> None:
        ids = self.file(b"7\n", "ids")
        for words, stuck in (
            (["query", str(PEOPLE), str(SHOP), "--jobs", "2"], 2),
            (["compare", str(PEOPLE), str(SHOP)], 1),
            (["ids", str(PEOPLE), "--ids", str(ids)], 1),
        ):
            program = self.stuck_searches() if words[0] == "query" else self.stuck()
            code = f"import sys\nfrom bsonfind.__main__ import main\nsys.exit(main({['--program', program, *words]!r}))"
            self.assertEqual(self.interrupt(code, stuck), 130)
            (self.room / "first").rmdir()
            (self.room / "pids").unlink()


class AsksForIds(Room):
    def ids(self, lines: List[str], *words: str, status: int, told: str, path: object = SHOP) -> List[str]:
        """The documents that are printed for the ids of a file."""
        self.list = self.file("".join(f"{line}\n" for line in lines).encode(), "ids")
        run = run_package("ids", str(path), "--ids", str(self.list), *words)
        self.assertEqual((run.returncode, run.stderr), (status, told))
        return run.stdout.splitlines()

    def test_ids_of_every_kind(self) -> None:
        documents = [
            '{"_id":1,"a":1}', '{"_id":{"$numberLong":"2"}}', '{"_id":"3"}', '{"_id":{"$oid":"0af98b87145f708ed341a680"}}',
            '{"_id":{"b":1,"c":"é"}}', '{"_id":true}', '{"_id":null}', '{"_id":"0af98b87145f708ed341a680"}',
            '{"_id":{"$symbol":"6"}}',
        ]  # fmt: skip
        path = self.file(packed(documents))
        asked = [
            "2", '{"$numberLong":"1"}', '"3"', "0AF98B87145F708ED341A680", ' {"b": 1, "c": "\\u00e9"} ', "", "true",
            "null", '{"$symbol":"6"}', "3", "false", '{"c":"é","b":1}', "2", '"6"', '{"b":{"$numberLong":"1"},"c":"é"}',
        ]  # fmt: skip
        told = 'missing: 3\nmissing: false\nmissing: {"c":"é","b":1}\nmissing: "6"\nmissing: {"b":{"$numberLong":"1"},"c":"é"}\n8 of 13 ids found\n'
        found = self.ids(asked, status=1, told=told, path=path)
        self.assertEqual([packed([line]) for line in found], [packed([documents[at]]) for at in (0, 1, 2, 3, 4, 5, 6, 8)])

    def test_forms_of_one_id(self) -> None:
        """As `dump` prints it, and in each other form that is taken: it is found, is not missing, and is one."""
        forms = [
            ['{"$oid":"07bd00000000000000000abc"}', '{"$oid":"07BD00000000000000000ABC"}', "07BD00000000000000000abc"],
            ['{"$binary":{"base64":"AAE=","subType":"0a"}}', '{"$binary":{"subType":"A","base64":"AAE="}}'],
            ['{"$timestamp":{"t":2,"i":1}}', '{"$timestamp":{"i":1,"t":2}}'],
            ['{"$dbPointer":{"$ref":"x","$id":{"$oid":"07bd00000000000000000abc"}}}', '{"$dbPointer":{"$id":{"$oid":"07BD00000000000000000ABC"},"$ref":"x"}}'],
            ['{"$code":"x","$scope":{"a":{"$numberInt":"1"}}}', '{"$scope":{"a":1},"$code":"x"}'],
            ['{"a":{"$regularExpression":{"pattern":"a","options":"i"}}}', '{"a": {"$regularExpression": {"options": "i", "pattern": "a"}}}'],
        ]  # fmt: skip
        path = self.file(packed(f'{{"_id":{form[0]}}}' for form in forms))
        wanted = [f'{{"_id":{form[0]}}}' for form in forms]
        for at in (0, 1, -1):
            self.assertEqual(self.ids([form[at] for form in forms], status=0, told="6 of 6 ids found\n", path=path), wanted)
        self.assertEqual(self.ids([it for form in forms for it in form], status=0, told="6 of 6 ids found\n", path=path), wanted)

    def test_ids_that_are_not_one(self) -> None:
        """A name that is there twice, parts in another order, and a list that looks like a number."""
        ids = ['{"a":1,"a":2}', '{"a":2}', '{"a":2,"b":1}', '{"b":1,"a":2}', '{"a":["number","1"]}', '{"a":1}', '{"a":{"t":1,"i":2}}', '{"a":{"i":2,"t":1}}']
        data = packed(f'{{"_id":{it}}}' for it in ids)
        found = self.ids(ids, status=0, told="8 of 8 ids found\n", path=self.file(data))
        self.assertEqual(packed(found), data)

    def test_numbers_inside(self) -> None:
        """In a document a number is one of its type."""
        inside = [document(field(3, "_id", document(field(1, "a", struct.pack("<d", it))))) for it in (1.5, 2.0)]
        ids = ['{"a":1.5}', '{"a":2}', '{"a":{"$numberDouble":"2.0"}}']
        found = self.ids(ids, status=1, told='missing: {"a":2}\n2 of 3 ids found\n', path=self.file(b"".join(inside)))
        self.assertEqual(found, [f'{{"_id":{{"a":{{"$numberDouble":"{it}"}}}}}}' for it in (1.5, 2.0)])

    def test_documents_like_values(self) -> None:
        """Ids are the same by their bytes: a document is none that has the names of another value."""
        like = [document(field(3, "_id", document(field(2, "$oid", text("07bd00000000000000000abc"))))), document(field(2, "_id", text("x")))]
        path = self.file(b"".join(like))
        self.assertEqual(self.ids(["07bd00000000000000000abc"], status=1, told="missing: 07bd00000000000000000abc\n0 of 1 ids found\n", path=path), [])
        self.assertEqual(self.ids(['"x"'], status=0, told="1 of 1 ids found\n", path=path), ['{"_id":"x"}'])

    def test_numbers_with_many_digits(self) -> None:
        """More than any number has, and more than Python reads at once."""
        for line in ("9" * 5000, '{"$numberInt":"%s"}' % ("9" * 5000), '{"$numberLong":"9223372036854775808"}', "1E+6000", "-1e999"):
            self.ids([line], status=2, told=f"bsonkit: {self.room}/ids: line 1: number out of range\n")
        for line in ('{"$numberDecimal":"1E+6000"}', '{"$numberDecimal":"%s"}' % ("9" * 34), "1." + "0" * 5000):
            self.ids([line], status=1, told=f"missing: {line}\n0 of 1 ids found\n")

    def test_documents_beside_damage(self) -> None:
        """One that has a fault itself is not printed, and the fault has its place in the dump."""
        bad = document(field(16, "_id", b"\7\0\0\0"), field(8, "d", b"\2"))
        path = self.file(PEOPLE.read_bytes() + bad)
        for words in ((), ("--bson",)):
            self.list = self.file(b"7\n", "ids")
            command = [*COMMAND, "ids", str(path), "--ids", str(self.list), *words]
            run = subprocess.run(command, env=environment(), capture_output=True)
            fault = f'document 500, byte {path.stat().st_size - 2}, path "d": bad boolean'
            self.assertEqual((run.returncode, run.stderr.decode()), (2, f"bsonkit: {path}: {fault}\n"))
            self.assertNotIn(bad, run.stdout)

    def test_many_ids(self) -> None:
        """More than are asked for at once, and more than an argument holds."""
        oids = [json.loads(line)["_id"]["$oid"] for line in SHOP_LINES]
        none = [f"{number:024x}" for number in range(5000)]
        missing = self.room / "missing"
        told = "390 of 5390 ids found\n"
        found = self.ids(none[:2500] + oids[5:395] + none[2500:], "--missing", str(missing), status=1, told=told)
        self.assertEqual(sorted(found), sorted(line.decode() for line in SHOP_LINES[5:395]))
        self.assertEqual(missing.read_text().splitlines(), none)
        self.assertEqual(self.ids(oids, status=0, told="400 of 400 ids found\n"), [line.decode() for line in SHOP_LINES])

    def test_files_of_any_size(self) -> None:
        """With at most 20,000 bytes in place of megabytes: a file, a compressed one and a pipe."""
        data, pipe = PEOPLE.read_bytes(), self.room / "pipe"
        os.mkfifo(pipe)
        writer = threading.Thread(target=pipe.write_bytes, args=[data])
        writer.start()
        with mock.patch("bsonfind._dumps.framing.LARGEST_INPUT", 20_000):
            for path in (PEOPLE, self.file(gzip.compress(data), "a.bson.gz"), pipe):
                found: List[bytes] = []
                missing = find_ids(str(path), ids_of(["7", "600", "480", "241"], "ids", PROGRAM), PROGRAM, found.extend)
                self.assertEqual((missing, found), (["600"], [PEOPLE_LINES[number] + b"\n" for number in (7, 241, 480)]))
        writer.join()

    def test_numbers_of_all_types(self) -> None:
        """Numbers of one value are one id. A file and a compressed one, in parts of 20 bytes and whole."""
        doubles = [b"\x01_id\0" + struct.pack("<d", it) for it in (1.0, -0.0, 0.5)]
        decimals = [b"\x13_id\0" + (coefficient | power << 113).to_bytes(16, "little") for coefficient, power in ((250, 6174), (3, 6176))]
        fields = [*doubles, *decimals, b"\x10_id\0\4\0\0\0"]
        data = b"".join((len(it) + 5).to_bytes(4, "little") + it + b"\0" for it in fields)
        lines = [f'{{"_id":{{"$number{kind}":"{text}"}}}}' for kind, text in (("Double", "1.0"), ("Double", "-0.0"), ("Double", "0.5"))]
        lines += [f'{{"_id":{{"$number{kind}":"{text}"}}}}' for kind, text in (("Decimal", "2.50"), ("Decimal", "3"), ("Int", "4"))]
        ids = ["1", "0", '{"$numberDecimal":"0.50"}', "2.5", '{"$numberLong":"3"}', "4.0", "7.5", "1e0"]
        for path in (self.file(data), self.file(gzip.compress(data), "dump.bson.gz")):
            found = self.ids(ids, status=1, told="missing: 7.5\n6 of 7 ids found\n", path=path)
            self.assertEqual(sorted(found), sorted(lines))
            with mock.patch("bsonfind._dumps.framing.LARGEST_INPUT", 20):
                found = []
                self.assertEqual(find_ids(str(path), ids_of(ids, "ids", PROGRAM), PROGRAM, found.extend), ["7.5"])
            self.assertEqual([it.decode().strip() for it in found], lines)

    def test_uuids(self) -> None:
        """A line may be the text of one, in digits of either case; what it is is binary data of subtype 04, and not of the older one."""
        digits = "c8edabc3f7384ca3b68dab92a91478a3"
        uuid, old = (document(field(5, "_id", int32(16) + bytes([subtype]) + bytes.fromhex(digits))) for subtype in (4, 3))
        path = self.file(old + uuid, "uuids.bson")
        for spelled in ("c8edabc3-f738-4ca3-b68d-ab92a91478a3", "C8EDABC3-F738-4CA3-B68D-AB92A91478A3"):
            ids = self.file(f"{spelled}\n00000000-0000-0000-0000-000000000000\n".encode(), "ids")
            status, found, told = run_of_bytes("ids", str(path), "--ids", str(ids), "--bson")
            self.assertEqual((status, found), (1, uuid))
            self.assertEqual(told, "missing: 00000000-0000-0000-0000-000000000000\n1 of 2 ids found\n")

    def test_bad_input(self) -> None:
        neither = "neither JSON, 24 hexadecimal digits nor a UUID"
        for line, problem in (("abc", neither), ('{"$numberInt":"3000000000"}', "number out of range"), ('{"$numberDouble":"1.5x"}', 'bad wrapper; write {"$numberDouble":".."}'), ('1,"a":2', neither), ("00", neither)):
            self.ids(["1", "", line], status=2, told=f"bsonkit: {self.room}/ids: line 3: {problem}\n")
        bad = self.file(PEOPLE.read_bytes() + DAMAGED, "bad.bson")
        half = self.file(gzip.compress(PEOPLE.read_bytes())[:-9], "half.bson.gz")
        self.ids(["1"], status=2, told=f'bsonkit: {bad}: document 500, byte 92733, path "d": bad boolean\n', path=bad)
        self.ids(["1"], status=2, told="bsonkit: /missing: No such file or directory\n", path="/missing")
        run = run_package("ids", str(half), "--ids", str(self.list))
        self.assertEqual((run.returncode, "not a sound file of gzip: it ends too soon" in run.stderr), (2, True))
        run = run_package("ids", str(SHOP), "--ids", "/missing")
        self.assertEqual((run.returncode, run.stderr), (2, "bsonkit: /missing: No such file or directory\n"))

    def test_file_of_missing_ids(self) -> None:
        """It is no other file of the command, and is written at the end; before that no document is printed if it cannot be."""
        data = packed(['{"_id":1}'])
        dump = self.file(data)
        for name, problem in ((str(dump), f"{dump} is the dump"), (str(self.room / "ids"), f"{self.room}/ids is named twice")):
            self.ids(["1"], "--missing", name, status=2, told=f"bsonkit: {problem}\n", path=dump)
        self.assertEqual((dump.read_bytes(), self.list.read_text()), (data, "1\n"))
        told = "bsonkit: /none/m: No such file or directory\n"
        self.assertEqual(self.ids(["1"], "--missing", "/none/m", status=2, told=told, path=dump), [])
        kept = self.file(b"kept", "kept")
        self.ids(["1"], "--missing", str(kept), status=2, told="bsonkit: /missing: No such file or directory\n", path="/missing")
        self.assertEqual(kept.read_bytes(), b"kept")
