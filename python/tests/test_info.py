"""Tests of the command `info`."""

import gzip
import json
import os
import subprocess
from typing import Any, Dict, List

from .archives import archive, listed
from .bson import document, field, int32
from .support import DAMAGED, DOUBLE, PROGRAM, Room, run_on_terminal, run_package

# Two documents of 14 and 18 bytes, and the header of the table.
ONE, TWO = document(field(0x10, "_id", int32(1))), document(field(0x12, "_id", (2).to_bytes(8, "little")))
HEADER = "database\tcollection\tkind\tdocuments\tbytes\taverage\tindexes\toptions"
# As mongodump writes metadata since version 100, and as an old one did.
ID = {"v": {"$numberInt": "2"}, "key": {"_id": {"$numberInt": "1"}}, "name": "_id_"}
MAIL = {"v": {"$numberInt": "2"}, "key": {"mail": {"$numberDouble": "1.0"}, "at": {"$numberInt": "-1"}}, "name": "mail_1_at_-1", "unique": True}
OLD = {"options": {"capped": True, "size": 4096}, "indexes": [{"v": 1, "key": {"_id": 1}, "name": "_id_", "ns": "club.log"}]}


def metadata(collection: str, kind: str = "collection", indexes: object = (ID,), **options: object) -> bytes:
    """The metadata of a collection."""
    return json.dumps({"indexes": [*indexes], "uuid": "", "collectionName": collection, "type": kind, "options": options}).encode()  # type: ignore


class Info(Room):
    def info(self, *words: object, status: int = 0, told: str = "") -> List[str]:
        """The lines that it prints."""
        run = run_package("info", *map(str, words))
        self.assertEqual((run.returncode, run.stderr), (status, told))
        return run.stdout.splitlines()

    def backup(self) -> str:
        """A backup with a collection of each kind."""
        for name, data in {
            "dump/club/people.bson": ONE + TWO,
            "dump/club/people.metadata.json": metadata("people", indexes=[ID, MAIL]),
            "dump/club/log.bson.gz": gzip.compress(DOUBLE),
            "dump/club/log.metadata.json.gz": gzip.compress(json.dumps(OLD).encode()),
            "dump/club/none.bson": b"",
            "dump/club/none.metadata.json": metadata("none", indexes=[]),
            "dump/club/old.metadata.json": metadata("old", "view", [], viewOn="people", pipeline=[]),
            "dump/club/w.metadata.json": metadata("w", "timeseries", [], timeseries={"timeField": "at", "bucketMaxSpanSeconds": {"$numberLong": "3600"}}),
            "dump/club/system.buckets.w.bson": TWO,
            "dump/shop/fs.files.bson": ONE,
            "dump/shop/fs.files.metadata.json": metadata("fs.files"),
            "dump/shop/fs.chunks.bson": TWO * 3,
            "dump/shop/fs.chunks.metadata.json": metadata("fs.chunks"),
            "dump/shop/a.files.bson": ONE,
            "dump/shop/a.files.metadata.json": metadata("a.files"),
            "dump/shop/a%2Fb.bson": ONE,
            "dump/shop/a%2Fb.metadata.json": metadata("a/b"),
            "dump/views/v.metadata.json": metadata("v", "view", [], viewOn="u", pipeline=[]),
        }.items():
            self.file(data, name)
        return str(self.room / "dump")

    def test_directory(self) -> None:
        """One row for a time series, and one for a view; two collections with the names of GridFS are of that kind."""
        wanted = [
            'club	log	capped	1	16	16	_id_ {"_id":1}	{"capped":true,"size":4096}',
            "club	none	collection	0	0			",
            'club	old	view					{"viewOn":"people","pipeline":[]}',
            'club	people	collection	2	32	16	_id_ {"_id":1}; mail_1_at_-1 {"mail":1,"at":-1} unique	',
            'club	w	timeseries	1	18	18		{"timeseries":{"timeField":"at","bucketMaxSpanSeconds":3600}}',
            'shop	a.files	collection	1	14	14	_id_ {"_id":1}	',
            'shop	a/b	collection	1	14	14	_id_ {"_id":1}	',
            'shop	fs.chunks	gridfs	3	54	18	_id_ {"_id":1}	',
            'shop	fs.files	gridfs	1	14	14	_id_ {"_id":1}	',
            'views	v	view					{"viewOn":"u","pipeline":[]}',
        ]
        self.assertEqual(self.info(self.backup()), wanted)
        self.assertEqual(self.info(self.room / "dump/shop", self.room / "dump/club/none.bson"), [*wanted[5:9], wanted[1]])

    def test_json(self) -> None:
        """All that the metadata says of an index, with plain numbers; what is not known is null."""
        lines = [json.loads(line) for line in self.info(self.backup(), "--json")]
        people, log, view = (next(it for it in lines if it["collection"] == name) for name in ("people", "log", "old"))
        self.assertEqual(
            people,
            {
                "database": "club", "collection": "people", "kind": "collection", "documents": 2, "bytes": 32, "average": 16,
                "indexes": [{"v": 2, "key": {"_id": 1}, "name": "_id_"}, {"v": 2, "key": {"mail": 1, "at": -1}, "name": "mail_1_at_-1", "unique": True}],
                "options": {}, "metadata": {"uuid": "", "collectionName": "people", "type": "collection"},
                "file": f"{self.room}/dump/club/people.bson",
            },
        )  # fmt: skip
        self.assertEqual((log["file"], log["options"]), (f"{self.room}/dump/club/log.bson.gz", {"capped": True, "size": 4096}))
        self.assertEqual((view["documents"], view["bytes"], view["average"]), (None, None, None))
        alone = json.loads(self.info(self.file(ONE, "alone.bson"), "--json")[0])
        self.assertEqual((alone["documents"], alone["indexes"], alone["options"]), (1, None, None))

    def test_what_indexes_are(self) -> None:
        """By the options of createIndexes, as the manual of MongoDB has them; an option that is false is none."""
        for options, wanted in (
            ({"unique": True, "sparse": True}, " unique sparse"),
            ({"unique": False, "sparse": False, "hidden": True}, " hidden"),
            ({"expireAfterSeconds": {"$numberInt": "3600"}}, " TTL 3600 s"),
            ({"expireAfterSeconds": {"$numberInt": "0"}}, " TTL 0 s"),
            ({"partialFilterExpression": {"age": {"$gt": {"$numberDouble": "5.0"}}}, "unique": True}, ' unique partial {"age":{"$gt":5}}'),
        ):
            self.file(ONE, "d/a.bson")
            self.file(metadata("a", indexes=[ID, {"key": {"age": 1}, "name": "age_1", **options}]), "d/a.metadata.json")
            self.assertEqual(self.info(self.room / "d"), [f'd\ta\tcollection\t1\t14\t14\t_id_ {{"_id":1}}; age_1 {{"age":1}}{wanted}\t'])

    def test_all_that_metadata_says(self) -> None:
        """As JSON, beside indexes and options: what is not known here too."""
        self.file(ONE, "d/a.bson")
        self.file(b'{"indexes":[],"uuid":"2f5c","type":"collection","new":{"a":[{"$numberLong":"7"}]}}', "d/a.metadata.json")
        entry = json.loads(self.info(self.room / "d", "--json")[0])
        self.assertEqual(entry["metadata"], {"uuid": "2f5c", "type": "collection", "new": {"a": [7]}})
        self.assertIsNone(json.loads(self.info(self.file(ONE, "alone.bson"), "--json")[0])["metadata"])

    def test_numbers_of_options(self) -> None:
        for value, wanted in (
            ({"$numberDouble": "1.5"}, 1.5), ({"$numberDouble": "NaN"}, {"$numberDouble": "NaN"}), ({"$numberLong": "9007199254740993"}, 9007199254740993),
            ({"$numberInt": "x"}, {"$numberInt": "x"}), ({"$date": {"$numberLong": "5"}}, {"$date": 5}), ([{"$numberInt": "-7"}], [-7]),
        ):  # fmt: skip
            self.file(ONE, "d/a.bson")
            self.file(metadata("a", value=value), "d/a.metadata.json")
            self.assertEqual(json.loads(self.info(self.room / "d", "--json")[0])["options"], {"value": wanted})

    def test_damage(self) -> None:
        """Each damaged file is named, and what could be counted is printed: a document with a fault counts."""
        self.backup()
        club = self.room / "dump/club"
        bad = self.file(ONE + DAMAGED + TWO, "dump/club/people.bson")
        (club / "system.buckets.w.bson").write_bytes(TWO + TWO[:-1])
        (club / "log.bson.gz").write_bytes(gzip.compress(DOUBLE + ONE)[:-9])
        (club / "none.bson").unlink()
        (self.room / "dump/shop/fs.files.metadata.json").write_text("{")
        told = [
            f"{club}/log.bson.gz: not a sound file of gzip: it ends too soon",
            f"{club}/none.bson: missing: only none.metadata.json is there",
            f'{bad}: document 1, byte 21, path "d": bad boolean 02',
            f"{bad}: 3 documents, 1 faulty",
            f'{club}/system.buckets.w.bson: document 1, byte 18, path "": bad length; _id {{"$numberLong":"2"}}',
            f"{club}/system.buckets.w.bson: 1 documents and a rest of 17 bytes, 1 faulty",
            f"{self.room}/dump/shop/fs.files.bson: 1 documents, 0 faulty",
            f"{self.room}/dump/shop/fs.files.bson: metadata: fs.files.metadata.json: Expecting property name enclosed in double quotes: line 1 column 2 (char 1)",
        ]
        run = run_package("info", str(self.room / "dump"))
        self.assertEqual((run.returncode, run.stderr.splitlines()), (1, [f"bsonkit: {it}" for it in told]))
        rows = {line.split("\t")[1]: line.split("\t")[2:7] for line in run.stdout.splitlines()}
        self.assertEqual(rows["people"][:4], ["collection", "3", "41", "14"])
        self.assertEqual(rows["w"][:4], ["timeseries", "1", "18", "18"])
        self.assertEqual(rows["log"][0], "capped")
        self.assertEqual(rows["none"][:4], ["collection", "", "", ""])
        self.assertEqual(rows["fs.files"], ["gridfs", "1", "14", "14", ""])

    def test_cut_gzip(self) -> None:
        """What is before the end was counted: of 1,000 documents of 14 bytes as many as gzip itself unpacks."""
        data = b"".join(document(field(0x10, "_id", int32(number * 7919))) for number in range(1000))
        packed = self.file(gzip.compress(data)[:2500], "a.bson.gz")
        whole = len(subprocess.run(["gzip", "-dc", packed], capture_output=True).stdout) // 14
        run = run_package("info", str(packed), "--json")
        entry = json.loads(run.stdout)
        self.assertEqual((run.returncode, entry["documents"], entry["bytes"]), (1, whole, 14 * whole))
        self.assertGreater(whole, 100)

    def test_files_that_are_not_read(self) -> None:
        """They are 2, and the others are printed."""
        missing, people = self.room / "missing.bson", self.file(ONE, "a/people.bson")
        self.assertEqual(self.info(missing, people, status=2, told=f"bsonkit: {missing}: No such file or directory\n"), ["a	people	collection	1	14	14		"])
        empty = self.room / "empty"
        empty.mkdir()
        self.assertEqual(self.info(empty, status=2, told=f"bsonkit: {empty}: no dump is below this directory\n"), [])
        self.info(status=2, told="bsonkit: no dump is named\n")

    def members(self) -> bytes:
        """An archive with a view, a time series and a capped collection."""
        others = [
            listed("club", "v", metadata("v", "view", [], viewOn="people").decode(), "view"),
            listed("club", "w", metadata("w", "timeseries", [], timeseries={"timeField": "at"}).decode(), "timeseries"),
        ]
        log = json.dumps(OLD).replace("%", "%%")
        data = archive([("club", "people", ONE + TWO), ("club", "log", ONE), ("club", "system.buckets.w", TWO)], others=others)
        # The lists of two have other metadata than the writer's.
        plain = '{"indexes":[],"uuid":"","collectionName":"%s","type":"collection"}'
        data = data.replace(listed("club", "log", plain % "log"), listed("club", "log", log, ""))
        return data.replace(listed("club", "system.buckets.w", plain % "system.buckets.w"), b"")

    def test_archives(self) -> None:
        """Plain, by gzip, and one collection of it, which has its metadata too."""
        wanted = [
            'club	log	capped	1	14	14	_id_ {"_id":1}	{"capped":true,"size":4096}',
            "club	people	collection	2	32	16		",
            'club	v	view					{"viewOn":"people"}',
            'club	w	timeseries	1	18	18		{"timeseries":{"timeField":"at"}}',
        ]
        plain, packed = self.file(self.members(), "night.archive"), self.file(gzip.compress(self.members()), "night.gz")
        for path in (plain, packed):
            self.assertEqual(self.info(path), wanted)
        for name, number in (("log", 0), ("people", 1), ("system.buckets.w", 3)):
            self.assertEqual(self.info(f"{plain}::club.{name}"), [wanted[number]])
        files = [json.loads(line)["file"] for line in self.info(plain, "--json")]
        self.assertEqual(files, [f"{plain}::club.{it}" for it in ("log", "people", "v", "w")])
        self.assertEqual(self.info(f"{plain}::club.x", status=2, told=f"bsonkit: {plain}::club.x: club.x is not in the archive\n"), [])
        told = f"bsonkit: {plain}::club.v: club.v is a view, which has no documents\n"
        self.assertEqual(self.info(f"{plain}::club.v", status=2, told=told), ['club	v	view					{"viewOn":"people"}'])

    def test_cut_archive(self) -> None:
        path = self.file(self.members()[:-60], "night.archive")
        run = run_package("info", str(path))
        self.assertEqual(run.returncode, 1)
        self.assertIn(f"bsonkit: {path}: byte ", run.stderr)
        self.assertIn("club\tpeople\tcollection\t2\t32\t16\t\t\n", run.stdout)

    def test_two_backups(self) -> None:
        """In the order of their names; GridFS is looked for in each by itself."""
        for name in ("b/x/fs.files", "a/x/fs.files", "a/x/fs.chunks"):
            self.file(ONE, f"{name}.bson")
            self.file(metadata(name[4:]), f"{name}.metadata.json")
        rows = [line.split("\t")[1:3] for line in self.info(self.room / "b", f"{self.room}/a/")]
        self.assertEqual(rows, [["fs.files", "collection"], ["fs.chunks", "gridfs"], ["fs.files", "gridfs"]])

    def test_names(self) -> None:
        """A tab, the end of a line and what is no text of UTF-8 forge no column."""
        self.file(ONE, "d/x.bson")
        self.file(b'{"collectionName":"a\\tb\\n\\ud800","indexes":[{"name":"i\\u001b","key":{}}]}', "d/x.metadata.json")
        self.assertEqual(self.info(self.room / "d"), ["d\ta\\x09b\\x0a\ufffd\tcollection\t1\t14\t14\ti\\x1b {}\t"])
        self.assertEqual(json.loads(self.info(self.room / "d", "--json")[0])["collection"], "a\tb\n\ufffd")

    def test_terminal(self) -> None:
        """There a header comes first, and a line of progress after a second, not before."""
        path = str(self.file(ONE, "d/x.bson"))
        slow = self.wide('[ "$1" = check ] && sleep 2.5\nexec "$WIDE" "$@"')
        for program, is_shown in ((PROGRAM, False), (slow, True)):
            shown: Dict[str, Any] = {}
            for stream in ("stdout", "stderr"):
                run, printed = run_on_terminal("info", path, program=program, streams=[stream])
                shown[stream] = printed.decode()
                self.assertEqual(run.returncode, 0)
            self.assertEqual(shown["stdout"].splitlines(), [HEADER, "d\tx\tcollection\t1\t14\t14\t\t"])
            if is_shown:
                self.assertIn("14 of 14 bytes", shown["stderr"])

    def test_outputs_that_take_no_more(self) -> None:
        path = str(self.file(ONE))
        with open("/dev/full", "wb") as full:
            run = run_package("info", path, stdout=full)
        self.assertEqual((run.returncode, run.stderr), (2, "bsonkit: cannot write: No space left on device\n"))
        read, write = os.pipe()
        os.close(read)
        run = run_package("info", path, stdout=write)
        os.close(write)
        self.assertEqual((run.returncode, run.stderr), (2, "bsonkit: cannot write: Broken pipe\n"))

    def test_interrupt(self) -> None:
        self.interrupt_command("--program", self.stuck(), "info", str(self.file(ONE)))
