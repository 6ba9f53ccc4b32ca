"""Tests of names of files and of collections that are not UTF-8, and of metadata that other readers of JSON refuse."""

import json
import os
from typing import List

from .goods import document, whole
from .support import PEOPLE, Room, run_of_bytes, run_package

SERIES = b'{"indexes":[],"type":"timeseries","options":{"timeseries":{"timeField":"at"}}%s}'
# Metadata of a time series whose name is half of a surrogate: another program reads it as U+FFFD.
HALF = SERIES % b',"collectionName":"w\\ud800"'
BYTE = os.fsdecode(b"w\xff")


class Names(Room):
    def backup(self) -> str:
        """A good collection, and metadata of two time series whose names are no text, with the documents of one."""
        self.file(PEOPLE.read_bytes(), "backup/club/people.bson")
        self.file(b"{}", "backup/club/people.metadata.json")
        self.file(SERIES % b"", f"backup/club/{BYTE}.metadata.json")
        self.file(HALF, "backup/club/half.metadata.json")
        self.file(document(whole("_id", 1)), "backup/club/system.buckets.w%FF.bson")
        return str(self.room / "backup")

    def test_series_whose_names_are_no_text(self) -> None:
        """Each command reads the rest of the backup, and says what is missing."""
        backup, missing = self.backup(), "system.buckets.w%EF%BF%BD.bson: missing: only half.metadata.json is there"
        outputs = ["--out", str(self.room / "out")]
        for words, status, told in (
            (["audit"], 1, "people.bson: 500 documents, 0 faulty"), (["info"], 1, "people\tcollection\t500\t"), (["query", "--query", '{"_id":1}'], 2, "people.bson\t{"),
            (["grep", "Reykjav"], 1, "people.bson\t"), (["salvage", *outputs], 2, "people.bson: 500 documents to "),
        ):  # fmt: skip
            names = [*words, backup] if words[0] == "grep" else [words[0], backup, *words[1:]]
            run = run_package(*names, errors="surrogateescape")
            with self.subTest(words):
                self.assertEqual(run.returncode, status, run.stderr)
                self.assertIn(told, run.stdout)
                self.assertIn(missing, run.stdout + run.stderr)
                self.assertNotIn("Unicode", run.stderr)
        self.assertTrue((self.room / f"out/club/{BYTE}.metadata.json").exists())
        self.assertEqual(run_package("compare", backup, backup, errors="surrogateescape").stderr.count("half.metadata.json is there"), 2)
        run = run_package("info", backup, "--json", errors="surrogateescape")
        self.assertEqual([it["collection"] for it in map(json.loads, run.stdout.splitlines())], ["people", "w\\xff", "w\ufffd"])

    def test_collection_whose_name_is_no_text(self) -> None:
        """An audit has its table nevertheless, and the log may have the name as mongodump prints it."""
        path = self.file(PEOPLE.read_bytes(), "backup/club/people.bson")
        self.file(b'{"collectionName":"half\\udc80"}', "backup/club/people.metadata.json")
        log = self.file(b"done dumping club.others (5 documents)\n", "log")
        run = run_package("audit", str(self.room / "backup"), "--expect", str(log))
        lines = [f"{path}: 500 documents, 0 faulty", f"{path}: not in the log", "club.others: missing, with 5 documents", "files                     1"]
        self.assertEqual((run.returncode, run.stdout.splitlines()[:4], run.stderr), (1, lines, ""))
        log.write_text("done dumping club.half\ufffd (500 documents)\n", encoding="utf-8")
        self.assertEqual(run_package("audit", str(self.room / "backup"), "--expect", str(log)).returncode, 0)

    def json(self, *words: object) -> List[dict]:
        """The lines of JSON that a command prints, which have no half of a surrogate."""
        status, data, told = run_of_bytes(*words, "--json")
        self.assertEqual(status, 0, told)
        lines = [json.loads(it) for it in data.decode().splitlines()]
        json.dumps(lines, ensure_ascii=False).encode()
        return lines

    def test_lines_of_json(self) -> None:
        """A byte of a name that is not UTF-8 is escaped as a control character of one is."""
        path = self.file(document(whole("_id", 10)), os.fsdecode(b"a\xffb.bson"))
        name = f"{self.room}/a\\xffb.bson"
        self.assertEqual(self.json("audit", path)[0]["files"][0]["name"], name)
        self.assertEqual(self.json("grep", "_id", path), [{"file": name, "id": {"$numberInt": "10"}, "path": "_id", "value": {"$numberInt": "10"}}])
        (row,) = self.json("info", path)
        self.assertEqual((row["file"], row["collection"]), (name, "a\\xffb"))
        # Names in UTF-8 are as they are.
        path = self.file(document(whole("_id", 10)), "ü\U0001f600.bson")
        self.assertEqual(self.json("audit", path)[0]["files"][0]["name"], str(path))

    def test_numbers_that_json_does_not_have(self) -> None:
        """Metadata with one is no JSON for others, so it is a fault, and no line of JSON has it."""
        self.file(PEOPLE.read_bytes(), "backup/club/people.bson")
        for number, wrong in (
            (b"NaN", "NaN is no number of JSON"), (b"-Infinity", "-Infinity is no number of JSON"), (b"1e999", "1e999 is out of range"),
        ):  # fmt: skip
            self.file(b'{"indexes":[{"name":"n","key":{"a":%s}}],"options":{"size":%s}}' % (number, number), "backup/club/people.metadata.json")
            run = run_package("audit", str(self.room / "backup"))
            told = f"people.bson: metadata: people.metadata.json: {wrong}"
            self.assertEqual((run.returncode, told in run.stdout), (1, True), run.stdout)
            run = run_package("info", str(self.room / "backup"), "--json")
            self.assertEqual((run.returncode, told in run.stderr), (1, True), run.stderr)

            def refuse(name: str) -> None:
                raise ValueError(name)

            row = json.loads(run.stdout, parse_constant=refuse)
            self.assertEqual((row["documents"], row["indexes"], row["options"]), (500, None, None))
