"""Tests of what was wrong at the edges of the package to the system, each by the name of what it was."""

import gc
import gzip
import json
import os
import subprocess
import tempfile
import threading
import warnings
from decimal import Decimal
from types import MappingProxyType
from typing import Dict
from unittest import mock

from bsonfind import (
    ArgumentError,
    DumpError,
    FileError,
    Session,
    audit,
    find,
    find_one,
    find_parts,
    plan,
    salvage,
    unpack,
)
from bsonfind._ask.decoding import Parsed, Texts
from bsonfind._ask.requests import text_of
from bsonfind._ask.values import plain_document
from bsonfind._backup.compare import Sorter
from bsonfind._dumps.archive import documents_of
from bsonfind._dumps.archive_frames import Namespace
from bsonfind._dumps.files import member_of
from bsonfind._errors import ProgramError

from .archives import archive
from .bson import document, field
from .support import (
    COMMAND, DAMAGED, PEOPLE, PEOPLE_LINES, PROGRAM, ROOT, SHOP, SHOP_LINES, Room, environment, packed, run_package,
)  # fmt: skip

ARCHIVE = ROOT / "examples/backup.archive"


class Values(Room):
    def test_plain_of_documents_like_values(self) -> None:
        """What `dump` never prints for a number is a document of the dump, and stays as it is."""
        for name, inner in (
            ("$numberInt", "1_000"), ("$numberInt", " 5 "), ("$numberInt", "١٢"), ("$numberInt", "+5"), ("$numberLong", "05"), ("$numberInt", ""),
            ("$numberDouble", " 5 "), ("$numberDouble", "1_0.5"), ("$numberDouble", "inf"), ("$numberDouble", "nan"), ("$numberDouble", "0x1p3"),
            ("$numberDecimal", "1_0"), ("$numberDecimal", " 1"), ("$numberDecimal", "sNaN"), ("$numberDecimal", "١"),
        ):  # fmt: skip
            value = {"a": {name: inner}}
            self.assertEqual(plain_document(value), value)
        for name, inner, wanted in (
            ("$numberInt", "-7", -7), ("$numberLong", "0", 0), ("$numberDouble", "1.249E+06", 1.249e6), ("$numberDouble", "-0.0", 0.0),
            ("$numberDouble", "5E-324", 5e-324), ("$numberDouble", "-Infinity", float("-inf")), ("$numberDecimal", "29.50", Decimal("29.50")),
            ("$numberDecimal", "1E-6176", Decimal("1E-6176")), ("$numberDecimal", "-Infinity", Decimal("-Infinity")),
        ):  # fmt: skip
            self.assertEqual(plain_document({"a": {name: inner}}), {"a": wanted})

    def test_infinity_in_another_mapping(self) -> None:
        inside = MappingProxyType({"$lt": float("inf")})
        for filter in (MappingProxyType({"a": inside}), {"a": inside}, {"$and": [MappingProxyType({"a": inside})]}):
            self.assertIn('{"$lt":{"$numberDouble":"Infinity"}}', text_of(filter))

    def test_names_of_a_filter_that_are_no_text(self) -> None:
        """Each would be the text that JSON makes of it, which is another field."""
        for filter in ({None: None}, {True: 1}, {7: 1}, {1.5: 1}, {"a": [{"b": {None: 1}}]}, MappingProxyType({"a": MappingProxyType({None: 1})})):
            with self.assertRaisesRegex(ArgumentError, "the name of a field is a text"):
                find(PEOPLE, filter, program=PROGRAM)

    def test_interrupt_between_two_numbers(self) -> None:
        """One number says how far a batch is, so that an interrupt leaves no two that disagree."""
        texts = Texts([b"a", b"b", b"c"], bytes)
        texts.give()
        self.assertEqual((texts.given, texts.left), (1, 2))
        self.assertEqual([name for name in vars(texts) if isinstance(vars(texts)[name], int)], ["given"])
        parsed = Parsed('{"a":1},{"a":2}', dict)
        self.assertEqual([parsed.give(), parsed.given, parsed.left, parsed.give(), parsed.given, parsed.left], [{"a": 1}, 1, True, {"a": 2}, 2, False])
        self.assertEqual([name for name in vars(parsed) if isinstance(vars(parsed)[name], int)], [])

    def test_token_beside_64_cursors(self) -> None:
        """It needs no cursor more, and the cursor continues."""
        with Session(PEOPLE, PROGRAM) as session:
            cursors = [session.find(batch_size=5, decode="bytes") for _ in range(64)]
            given = [[next(cursor) for _ in range(3)] for cursor in cursors]
            token = cursors[7].token
            self.assertIsNotNone(token)
            given[7] += cursors[7]
            self.assertEqual(given[7], PEOPLE_LINES)
            given[9] += cursors[9]
            self.assertEqual(given[9], PEOPLE_LINES)
            self.assertEqual(list(session.find(after=token, decode="bytes")), PEOPLE_LINES[3:])

    def test_explain_of_a_cursor(self) -> None:
        with Session(PEOPLE, PROGRAM) as session:
            session.create_index("age")
            self.assertEqual(session.find({"age": 99}).explain(), session.explain({"age": 99}))
            self.assertEqual(session.find({"age": 99}, hint={"$natural": 1}).explain()["plan"], "scan")

    def test_place_in_a_joined_answer(self) -> None:
        """A fault of what the parts gave has no place in the dump."""
        path = self.file(packed([f'{{"a":{number}}}' for number in range(9)]))
        with mock.patch("bsonfind._ask.merge._packed_answer", lambda *_: b"\xff\xff\xff\x7f"), self.assertRaises(DumpError) as raised:
            find_parts(plan(path, 20), program=PROGRAM)
        self.assertEqual(str(raised.exception), "what the parts gave, joined, cannot be asked: bad length")
        self.assertIsNone(raised.exception.fault)


class Files(Room):
    def test_longest_name_first(self) -> None:
        """Of an archive whose name has two colons, beside a file whose name is the part before them."""
        self.file(b"", "a")
        data = archive([("club", "people", PEOPLE.read_bytes())])
        path = self.file(data, "a::b.archive")
        member = member_of(f"{path}::club.people")
        assert member
        self.assertEqual(member.archive, str(path))
        self.assertEqual(find_one(f"{path}::club.people", {"_id": 7}, decode="bytes", program=PROGRAM), PEOPLE_LINES[7])

    def test_rights(self) -> None:
        """Files that are written have the rights of the dump; one that is there keeps its own."""
        path = self.file(PEOPLE.read_bytes() + DAMAGED)
        path.chmod(0o600)
        salvage(path, self.room / "good", self.room / "bad", program=PROGRAM)
        modes = [(self.room / name).stat().st_mode & 0o777 for name in ("good", "bad")]
        self.assertEqual(modes, [0o600, 0o600])
        (self.room / "good").chmod(0o640)
        salvage(path, self.room / "good", self.room / "bad", program=PROGRAM)
        self.assertEqual((self.room / "good").stat().st_mode & 0o777, 0o640)
        whole = self.file(ARCHIVE.read_bytes(), "backup.archive")
        whole.chmod(0o600)
        for it in unpack(whole, self.room / "out").collections:
            self.assertEqual({os.stat(name).st_mode & 0o777 for name in (it.path, it.metadata) if name}, {0o600})
        ids = self.file(b"7\n1000\n", "ids")
        ids.chmod(0o600)
        self.assertEqual(run_package("ids", str(PEOPLE), "--ids", str(ids), "--missing", f"{self.room}/missing").returncode, 1)
        self.assertEqual((self.room / "missing").stat().st_mode & 0o777, 0o600)

    def test_rights_that_a_file_system_refuses(self) -> None:
        """The error names the file, and nothing is left; before a file has its rights no other user can open it."""
        seen = []

        def refuse(file: int, mode: int) -> None:
            seen.append((os.fstat(file).st_mode & 0o777, mode))
            raise PermissionError(1, "Operation not permitted")

        path, whole = self.file(PEOPLE.read_bytes()), self.file(ARCHIVE.read_bytes(), "whole.archive")
        for it in (path, whole):
            it.chmod(0o644)
        with mock.patch("os.fchmod", refuse):
            for make in (
                lambda: salvage(path, self.room / "good", self.room / "bad", program=PROGRAM),
                lambda: unpack(whole, self.room / "out"),
            ):
                with self.assertRaisesRegex(FileError, "Operation not permitted"):
                    make()
        self.assertEqual(seen, [(0o600, 0o644)] * 2)
        self.assertEqual(sorted(os.listdir(self.room)), ["dump.bson", "whole.archive"])

    def test_outputs_that_cannot_be_written(self) -> None:
        """They are tried first: nothing is read before that, and nothing is left."""
        long = "x" * 250
        for name, error in (("", FileError), (str(self.room), FileError), (f"{self.room}/new/", FileError), (f"{self.room}/no/file", FileError)):
            with mock.patch("bsonfind._dumps.sources.Source.raw", side_effect=AssertionError), self.assertRaises(error):
                salvage(PEOPLE, name, self.room / "bad", program=PROGRAM)
        self.assertEqual(list(self.room.iterdir()), [])
        salvage(PEOPLE, self.room / long, self.room / "bad", program=PROGRAM)
        self.assertEqual(sorted(it.name for it in self.room.iterdir()), ["bad", long])
        with self.assertRaises(ArgumentError):
            unpack(ARCHIVE, "")

    def test_closed_standard_output_undoes_nothing(self) -> None:
        """`salvage .. | head` keeps both files, and `unpack` all: they have their names before it reports."""
        path = self.file(PEOPLE.read_bytes() + DAMAGED)
        read, write = os.pipe()
        os.close(read)
        run = subprocess.run(
            [*COMMAND, "salvage", str(path), "--good", f"{self.room}/good", "--bad", f"{self.room}/bad"],
            env=environment(), stdout=write, stderr=subprocess.PIPE,
        )  # fmt: skip
        os.close(write)
        self.assertEqual(run.returncode, 2)
        self.assertEqual((self.room / "good").read_bytes(), PEOPLE.read_bytes())
        self.assertEqual((self.room / "bad").read_bytes(), DAMAGED)
        self.want_broken_pipe("unpack", str(ARCHIVE), f"{self.room}/out")
        self.assertEqual((self.room / "out/club/people.bson").read_bytes(), b"".join(documents_of(iter([ARCHIVE.read_bytes()]), Namespace("club", "people"))))

    def test_full_directory_for_temporary_files(self) -> None:
        """Messages of programs need no disk; a sort that does names the directory."""
        with mock.patch("tempfile.TemporaryFile", side_effect=OSError(28, "No space left on device")):
            self.assertEqual(len(list(find(PEOPLE, program=PROGRAM))), 500)
            with mock.patch("bsonfind._backup.compare._MOST_LINES", 1), self.assertRaises(ProgramError) as raised, Sorter() as sorter:
                sorter.add(b"a\n")
        self.assertIn(tempfile.gettempdir(), str(raised.exception))
        self.assertIn("TMPDIR", str(raised.exception))

    def test_files_that_are_closed(self) -> None:
        """None is left to the collector, as of what is packed or comes by a pipe, of which a session keeps a copy."""
        packed = self.file(gzip.compress(PEOPLE.read_bytes()), "people.bson.gz")
        pipe = self.room / "pipe"
        os.mkfifo(pipe)
        with warnings.catch_warnings(record=True) as told:
            warnings.simplefilter("always", ResourceWarning)
            for path in (PEOPLE, packed, pipe):
                for ask in (self._ask_once, self._ask_session):
                    writer = threading.Thread(target=pipe.write_bytes, args=[PEOPLE.read_bytes()])
                    if path == pipe:
                        writer.start()
                    self.assertEqual(ask(path), PEOPLE.read_bytes())
                    if path == pipe:
                        writer.join()
            gc.collect()
        self.assertEqual([str(it.message) for it in told], [])

    def _ask_once(self, path: object) -> bytes:
        return b"".join(find(path, decode="bson", program=PROGRAM))

    def _ask_session(self, path: object) -> bytes:
        with Session(path, PROGRAM) as session:
            return b"".join(session.find({"age": {"$lt": 999.5}}, decode="bson"))

    def test_memory_of_compare(self) -> None:
        """Long lines are written to files by their bytes, not by their number."""
        with mock.patch("bsonfind._backup.compare._MOST_BYTES", 1000), Sorter() as sorter:
            for number in range(100):
                sorter.add(b"%03d" % (number * 7 % 100) * 30 + b"\n")
            self.assertGreater(len(sorter._runs), 5)
            self.assertEqual([line[:3] for line in sorter.all()], [b"%03d" % number for number in range(100)])


class Audits(Room):
    def collection(self, name: str, data: bytes, metadata: bytes = b"{}") -> None:
        self.file(data, f"backup/{name}.bson")
        self.file(metadata, f"backup/{name}.metadata.json")

    def report(self, path: object) -> Dict[str, str]:
        """What is wrong with the metadata of each file."""
        return {os.path.basename(it.name): it.metadata or "" for it in audit(path, program=PROGRAM).reports}

    def test_pipes_that_hang(self) -> None:
        """A FIFO that is named as metadata is not waited for."""
        self.file(PEOPLE.read_bytes(), "backup/club/a.bson")
        os.mkfifo(self.room / "backup/club/a.metadata.json")
        self.assertEqual(self.report(self.room / "backup"), {"a.bson": "a.metadata.json: not a regular file"})

    def test_metadata_that_is_large(self) -> None:
        """No more is unpacked than any metadata have."""
        self.file(PEOPLE.read_bytes(), "backup/club/a.bson")
        self.file(gzip.compress(b" " * (1 << 24)), "backup/club/a.metadata.json.gz")
        self.assertEqual(self.report(self.room / "backup"), {"a.bson": "a.metadata.json.gz: more than 8388608 bytes"})

    def test_many_directories(self) -> None:
        """Below as many as a name may have."""
        place = "/".join(["d"] * 1100)
        there = os.getcwd()
        os.chdir(self.room)
        try:
            for _ in range(1100):
                os.mkdir("d")
                os.chdir("d")
            with open("a.bson", "wb") as file:
                file.write(PEOPLE.read_bytes())
            os.chdir(self.room)
            done = audit("d", program=PROGRAM)
            self.assertEqual([(it.name, it.documents) for it in done.reports], [(f"{place}/a.bson", 500)])
        finally:
            os.chdir(there)
            subprocess.run(["rm", "-rf", str(self.room / "d")], check=True)

    def test_no_end_that_was_not_looked_for(self) -> None:
        """Of more than 64 collections at once nothing is said but that."""
        whole = self.file(archive([("club", f"c{number}", PEOPLE.read_bytes()) for number in range(3)]), "archive")
        with mock.patch("bsonfind._backup.split.MOST_AT_ONCE", 2):
            reports = audit(whole, program=PROGRAM).reports
        self.assertEqual({it.error for it in reports}, {None, "more than 2 collections at once: unpack it"})

    def test_time_series(self) -> None:
        """Its buckets are compared with the log under either name."""
        self.collection("club/w", b"", b'{"type":"timeseries","collectionName":"w","options":{"timeseries":{}}}')
        (self.room / "backup/club/w.bson").unlink()
        self.file(PEOPLE.read_bytes(), "backup/club/system.buckets.w.bson")
        for name in ("club.w", "club.system.buckets.w"):
            log = self.file(f"done dumping {name} (500 documents)\n".encode(), "log")
            done = audit(self.room / "backup", expect=log, program=PROGRAM)
            self.assertTrue(done.is_good, (name, done.missing))
            self.assertEqual([(it.documents, it.expected) for it in done.reports], [(500, 500)])
        log = self.file(b"done dumping club.w (499 documents)\n", "log")
        self.assertEqual(len(audit(self.room / "backup", expect=log, program=PROGRAM).miscounted), 1)

    def test_details_of_damage(self) -> None:
        """The bad byte and the id of a document, where documents continue, and the rest of a file that ends too soon."""
        data = bytearray(SHOP.read_bytes())
        data[90], data[814] = 2, 0xFF
        data[99809:99811] = b"\x10\x27"
        path = self.file(bytes(data))
        (report,) = audit(path, program=PROGRAM).reports
        ids = [json.dumps(json.loads(SHOP_LINES[number])["_id"], separators=(",", ":")) for number in (0, 2)]
        lines = list(report.lines())
        self.assertEqual(lines[:2], [
            f'document 0, byte 90, path "customer.vip": bad boolean 02; _id {ids[0]}',
            f'document 2, byte 814, path "match": not UTF-8 ff; _id {ids[1]}',
        ])  # fmt: skip
        self.assertEqual(report.details[309].goes_on, 100182)
        self.assertTrue(lines[2].endswith("; documents seem to go on from byte 100182"), lines[2])
        (told,) = json.loads(audit(path, program=PROGRAM).as_json())["files"]
        self.assertEqual([(it["value"], it["goes_on"]) for it in told["faults"]][:2], [(2, None), (255, None)])
        self.assertEqual(told["faults"][0]["id"], json.loads(ids[0]))
        # So it is of a file that is packed, and of a collection of an archive, in which all lengths must be right.
        (again,) = audit(self.file(gzip.compress(bytes(data)), "dump.bson.gz"), program=PROGRAM).reports
        self.assertEqual((list(again.lines()), again.details), (lines, report.details))
        data[99809:99811] = SHOP.read_bytes()[99809:99811]
        whole = self.file(archive([("shop", "orders", bytes(data))]), "whole.archive")
        (again,) = audit(f"{whole}::shop.orders", program=PROGRAM).reports
        self.assertEqual(list(again.lines())[:2], lines[:2])
        # An id that has a fault itself is left out, and nothing else leaves one out.
        (report,) = audit(self.file(document(field(2, "_id", b"\2\0\0\0\xff\0")), "id.bson"), program=PROGRAM).reports
        self.assertEqual(list(report.lines())[0], 'document 0, byte 13, path "_id": not UTF-8 ff')
        killed = self.wide('[ "$1" = dump ] && kill -9 $$\nexec "$WIDE" "$@"')
        (report,) = audit(path, program=killed).reports
        self.assertEqual((report.error, report.is_fault, report.faults[0].kind), ("ended by signal 9", False, "bad boolean"))
        cut = self.file(SHOP.read_bytes()[:100_000], "cut.bson")
        (report,) = audit(cut, program=PROGRAM).reports
        self.assertEqual((report.documents, report.rest), (310, 191))
        self.assertEqual(list(report.lines())[1], "309 documents and a rest of 191 bytes, 1 faulty")
        (report,) = audit(self.file(gzip.compress(SHOP.read_bytes()[:100_000]), "cut.bson.gz"), program=PROGRAM).reports
        self.assertEqual(list(report.lines())[1], "309 documents and a rest of 191 bytes, 1 faulty")
        wrong = bytearray(SHOP.read_bytes())
        wrong[99809:99813] = b"\xff\xff\xff\x7f"
        (report,) = audit(self.file(bytes(wrong), "wrong.bson"), program=PROGRAM).reports
        self.assertEqual(report.details[309].goes_on, 100182)

    def test_order_and_quiet(self) -> None:
        """Damaged files come last; --quiet prints nothing of good ones, and nothing at all if all are good."""
        self.collection("club/bad", PEOPLE.read_bytes() + DAMAGED)
        self.collection("club/good", PEOPLE.read_bytes())
        self.collection("club/other", SHOP.read_bytes())
        names = [it.partition(": ")[0].rpartition("/")[2] for it in run_package("audit", str(self.room / "backup")).stdout.splitlines()]
        self.assertEqual(sorted(names[:2]), ["good.bson", "other.bson"])
        self.assertEqual(names[2:4], ["bad.bson", "bad.bson"])
        run = run_package("audit", "--quiet", str(self.room / "backup"))
        names = [it.partition(": ")[0].rpartition("/")[2] for it in run.stdout.splitlines()]
        self.assertEqual((run.returncode, names[:2], names[2][:5]), (1, ["bad.bson", "bad.bson"], "files"))
        (self.room / "backup/club/bad.bson").write_bytes(b"")
        run = run_package("audit", "--quiet", str(self.room / "backup"))
        self.assertEqual((run.returncode, run.stdout, run.stderr), (0, "", ""))


class Commands(Room):
    def test_unpack_of_one_collection(self) -> None:
        """By its name in that of the archive, and by --only; another one is not written."""
        for number, words in enumerate(((f"{ARCHIVE}::club.people", f"{self.room}/0"), (str(ARCHIVE), f"{self.room}/1", "--only", "club.people"))):
            run = run_package("unpack", *words)
            self.assertEqual((run.returncode, run.stdout.splitlines()[0]), (0, f"club.people: 40 documents to {self.room}/{number}/club/people.bson"))
            found = sorted(str(it.relative_to(self.room / str(number))) for it in (self.room / str(number)).rglob("*") if it.is_file())
            self.assertEqual(found, ["club/people.bson", "club/people.metadata.json"])
        run = run_package("unpack", str(ARCHIVE), f"{self.room}/2", "--only", "club.people", "--only", "shop.orders")
        self.assertEqual(run.returncode, 0)
        self.assertEqual(len([it for it in (self.room / "2").rglob("*.bson")]), 2)
        run = run_package("unpack", str(ARCHIVE), f"{self.room}/3", "--only", "club.nobody")
        self.assertEqual((run.returncode, run.stderr), (2, f"bsonkit: {ARCHIVE}: club.nobody is not in the archive\n"))
        self.assertFalse((self.room / "3").exists())

    def test_salvage_of_a_directory(self) -> None:
        """Each dump has its good documents below the other directory, with its metadata; nothing is replaced."""
        self.file(PEOPLE.read_bytes() + DAMAGED, "backup/club/people.bson").chmod(0o600)
        self.file(gzip.compress(SHOP.read_bytes()), "backup/shop/orders.bson.gz")
        self.file(b'{"indexes":[]}', "backup/club/people.metadata.json")
        self.file(gzip.compress(b'{"indexes":[7]}'), "backup/shop/orders.metadata.json.gz")
        backup, out = self.room / "backup", self.room / "out"
        run = run_package("salvage", str(backup), "--out", str(out))
        self.assertEqual((run.returncode, run.stderr), (1, ""))
        self.assertEqual(run.stdout.splitlines(), [
            f"{backup}/club/people.bson: 500 documents to {out}/club/people.bson, 1 to {out}/club/people.bad, 0 bytes left out",
            f"{backup}/shop/orders.bson.gz: 400 documents to {out}/shop/orders.bson",
        ])  # fmt: skip
        files = {str(it.relative_to(out)): it.read_bytes() for it in out.rglob("*") if it.is_file()}
        self.assertEqual(files, {
            "club/people.bson": PEOPLE.read_bytes(), "club/people.bad": DAMAGED, "club/people.metadata.json": b'{"indexes":[]}',
            "shop/orders.bson": SHOP.read_bytes(), "shop/orders.metadata.json": b'{"indexes":[7]}',
        })  # fmt: skip
        self.assertEqual((out / "club/people.bson").stat().st_mode & 0o777, 0o600)
        self.assertTrue(audit(out / "shop", program=PROGRAM).is_good)
        run = run_package("salvage", str(backup), "--out", str(out))
        told = f"bsonkit: {out}: 5 files are there already, such as {out}/club/people.bad: name another directory\n"
        self.assertEqual((run.returncode, run.stderr, run.stdout), (2, told, ""))
        for other in (backup, backup / "inside", ""):
            run = run_package("salvage", str(backup), "--out", str(other))
            self.assertEqual((run.returncode, run.stdout), (2, ""))

    def test_salvage_of_all_metadata(self) -> None:
        """That of a view, of a time series and of a long name too, as it is; what is damaged is reported."""
        written = {"v": b'{"type":"view","a":1,"a":2}', "w": b'{"type":"timeseries","options":{}}', "x" * 238: b'{"indexes":[]}'}
        for name, data in written.items():
            self.file(data, f"backup/club/{name}.metadata.json").chmod(0o600)
        for name in ("system.buckets.w", "x" * 238):
            self.file(PEOPLE.read_bytes(), f"backup/club/{name}.bson")
        out = self.room / "out/club"
        run = run_package("salvage", str(self.room / "backup"), "--out", str(self.room / "out"))
        self.assertEqual((run.returncode, run.stderr), (0, ""))
        self.assertEqual({name: (out / f"{name}.metadata.json").read_bytes() for name in written}, written)
        self.assertEqual((out / "v.metadata.json").stat().st_mode & 0o777, 0o600)
        self.assertEqual((len([*out.iterdir()]), audit(out, program=PROGRAM).is_good), (5, True))
        self.file(b"{", "other/club/v.metadata.json.gz")
        self.file(b"", "other/club/v.bson")
        run = run_package("salvage", str(self.room / "other"), "--out", str(self.room / "out2"))
        self.assertEqual(run.returncode, 2)
        self.assertIn(f"bsonkit: {self.room}/other/club/v.metadata.json.gz: not a sound file of gzip", run.stderr)
        self.assertEqual([it.name for it in (self.room / "out2/club").iterdir()], ["v.bson"])

    def test_ids_as_they_are_in_the_dump(self) -> None:
        """By --bson, also doubles."""
        path = self.file(PEOPLE.read_bytes() + document(field(1, "_id", b"\0\0\0\0\0\0\xf8\x3f")))
        ids = self.file(b"7\n1.5\n1000\n", "ids")
        command = [*COMMAND, "ids", str(path), "--ids", str(ids), "--bson"]
        run = subprocess.run(command, env=environment(), stdout=subprocess.PIPE, stderr=subprocess.PIPE)
        wanted = subprocess.run([PROGRAM, "pack", "-"], input=PEOPLE_LINES[7] + b"\n", stdout=subprocess.PIPE, stderr=subprocess.PIPE).stdout
        self.assertEqual((run.returncode, run.stdout), (1, wanted + path.read_bytes()[len(PEOPLE.read_bytes()) :]))
        self.assertEqual(run.stderr, b"missing: 1000\n2 of 3 ids found\n")

    def test_counts_of_compare(self) -> None:
        """They are on standard error: standard output has what differs."""
        run = run_package("compare", str(PEOPLE), str(PEOPLE))
        self.assertEqual((run.returncode, run.stdout), (0, ""))
        self.assertEqual([line.split()[-1] for line in run.stderr.splitlines()], ["500", "500", "500", "0", "0", "0"])
