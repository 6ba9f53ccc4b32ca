"""Tests of `salvage --out`: of directories with files that are not whole, and of archives, also of truncated ones."""

import gzip
import os
import subprocess
from pathlib import Path
from typing import Dict, List

from bsonfind._backup.audit import audit

from .archives import archive, listed
from .support import COMMAND, DAMAGED, PEOPLE, PROGRAM, SHOP, Room, environment, run_package

PEOPLE_DATA, SHOP_DATA = PEOPLE.read_bytes(), SHOP.read_bytes()
METADATA = b'{"indexes":[],"uuid":"","collectionName":"%s","type":"collection"}'


class Backups(Room):
    def setUp(self) -> None:
        super().setUp()
        self.out = self.room / "out"

    def salvage(self, name: object, status: int, told: str = "") -> List[str]:
        """The lines that it prints."""
        run = run_package("salvage", str(name), "--out", str(self.out))
        self.assertEqual((run.returncode, run.stderr), (status, told), run.stdout)
        return run.stdout.splitlines()

    def written(self) -> Dict[str, bytes]:
        """The files that are there, by their names."""
        return {str(it.relative_to(self.out)): it.read_bytes() for it in self.out.rglob("*") if it.is_file()}

    def test_archive(self) -> None:
        """Plain, by gzip and by a pipe: each collection is a dump, with its metadata, and what is bad is beside it."""
        view = listed("club", "v", '{"type":"view","options":{"viewOn":"people"}}', "view")
        data = archive([("club", "people", PEOPLE_DATA + DAMAGED), ("shop", "a/b", SHOP_DATA), ("shop", "none", b"")], others=[view])
        wanted = {
            "club/people.bson": PEOPLE_DATA, "club/people.bad": DAMAGED, "shop/a%2Fb.bson": SHOP_DATA, "shop/none.bson": b"",
            "club/people.metadata.json": METADATA % b"people", "shop/a%2Fb.metadata.json": METADATA % b"a/b",
            "shop/none.metadata.json": METADATA % b"none", "club/v.metadata.json": b'{"type":"view","options":{"viewOn":"people"}}',
        }  # fmt: skip
        for archived in (data, gzip.compress(data)):
            path = self.file(archived, "all.archive")
            path.chmod(0o600)
            lines = self.salvage(path, 1)
            self.assertCountEqual(lines, [
                f"{path}::club.people: 500 documents to {self.out}/club/people.bson, 1 to {self.out}/club/people.bad, 0 bytes left out",
                f"{path}::shop.a/b: 400 documents to {self.out}/shop/a%2Fb.bson",
                f"{path}::shop.none: 0 documents to {self.out}/shop/none.bson",
            ])  # fmt: skip
            self.assertEqual(self.written(), wanted)
            self.assertEqual({it.stat().st_mode & 0o777 for it in self.out.rglob("*") if it.is_file()}, {0o600})
            self.out = self.out.parent / f"{self.out.name}2"
        with subprocess.Popen(["cat", path], stdout=subprocess.PIPE) as cat:
            run = subprocess.run([*COMMAND, "salvage", "-", "--out", self.out], stdin=cat.stdout, env=environment(), capture_output=True, text=True)
        self.assertEqual((run.returncode, run.stderr), (1, ""))
        self.assertEqual(self.written(), wanted)

    def test_cut_archive(self) -> None:
        """All good documents up to its end, of each collection, also of one that was just begun."""
        data = archive([("club", "people", PEOPLE_DATA), ("shop", "orders", SHOP_DATA)], 50, others=[listed("shop", "late")])
        half = self.file(data[: len(data) // 2], "half.archive")
        lines = self.salvage(half, 1)
        written = self.written()
        for name, whole, least in (("club/people.bson", PEOPLE_DATA, 150), ("shop/orders.bson", SHOP_DATA, 150)):
            self.assertTrue(whole.startswith(written[name]))
            report = audit(self.out / name, program=PROGRAM).reports[0]
            self.assertGreater(report.documents, least)
            self.assertFalse(report.faulty)
        cut = next(line for line in lines if "wrong length" in line)
        self.assertIn("bytes left out, up to the end", cut)
        for name in ("club.people", "shop.orders", "shop.late"):
            self.assertIn(f"{half}::{name}: no end", lines)
        self.assertIn(f"{half}: byte {len(data) // 2}: the archive ends inside a block", lines)
        self.assertEqual(written["club/people.metadata.json"], METADATA % b"people")
        # One whose list is truncated has no document that could be found.
        self.out = self.room / "none"
        head = self.file(data[:300], "head.archive")
        self.assertEqual(self.salvage(head, 1), [f"{head}: byte 300: the archive ends inside a block"])
        self.assertFalse(self.out.exists())

    def test_parts_that_unpack_left(self) -> None:
        """What is good in them goes to the name that they would have; they stay named as not whole."""
        data = archive([("club", "people", PEOPLE_DATA), ("shop", "orders", SHOP_DATA)])
        half = self.file(data[: len(data) // 2], "half.archive")
        self.assertEqual(run_package("unpack", str(half), str(self.room / "unpacked")).returncode, 1)
        parts = {it.name: it.read_bytes() for it in (self.room / "unpacked").rglob("*.part")}
        self.assertEqual(set(parts), {"people.bson.part", "orders.bson.part"})
        lines = self.salvage(self.room / "unpacked", 1)
        for name in ("club/people", "shop/orders"):
            self.assertIn(f"{self.room}/unpacked/{name}.bson.part: not whole: unpack left it so", lines)
        archived = self.written()
        self.out = self.room / "other"
        self.salvage(half, 1)
        self.assertEqual(archived, self.written())
        self.assertTrue(PEOPLE_DATA.startswith(archived["club/people.bson"]) and len(archived["club/people.bson"]) > 40_000)

    def test_archives_below_a_directory(self) -> None:
        """Each goes to a directory of its name."""
        self.file(PEOPLE_DATA, "backup/club/people.bson")
        self.file(archive([("club", "people", SHOP_DATA)]), "backup/night.archive")
        lines = self.salvage(self.room / "backup", 0)
        self.assertEqual(len(lines), 2)
        self.assertEqual(self.written(), {
            "club/people.bson": PEOPLE_DATA, "night.archive/club/people.bson": SHOP_DATA,
            "night.archive/club/people.metadata.json": METADATA % b"people",
        })  # fmt: skip

    def test_a_directory_that_is_there_already(self) -> None:
        """One line says so, and nothing is written; an empty directory, and one with other files, is taken."""
        for number in range(40):
            self.file(PEOPLE_DATA, f"backup/club/c{number:02}.bson")
            self.file(METADATA % b"", f"backup/club/c{number:02}.metadata.json")
        self.file(b"other", "out/club/other.bson")
        self.assertEqual(len(self.salvage(self.room / "backup", 0)), 40)
        (self.out / "club/c00.bson").unlink()
        there = self.written()
        told = f"bsonkit: {self.out}: 79 files are there already, such as {self.out}/club/c00.metadata.json: name another directory\n"
        self.assertEqual(self.salvage(self.room / "backup", 2, told), [])
        whole = self.file(archive([("club", f"c{number:02}", PEOPLE_DATA) for number in range(40)]), "all.archive")
        self.assertEqual(self.salvage(whole, 2, told), [])
        self.assertEqual(self.written(), there)

    def test_what_is_refused(self) -> None:
        path = self.file(PEOPLE_DATA)
        told = f"bsonkit: {path} is no directory and no archive: give --good and --bad for a dump\n"
        self.assertEqual(self.salvage(path, 2, told), [])
        self.assertEqual(self.salvage("/missing", 2, "bsonkit: /missing: No such file or directory\n"), [])
        self.assertFalse(self.out.exists())
        whole = self.file(archive([("club", "people", PEOPLE_DATA)]), "all.archive")
        self.out = Path("/dev/null")
        self.assertEqual(run_package("salvage", str(whole), "--out", "/dev/null").returncode, 2)
        self.assertEqual(sorted(os.listdir(self.room)), ["all.archive", "dump.bson"])
