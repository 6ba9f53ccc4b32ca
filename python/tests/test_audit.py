"""Tests of the command `audit`."""

import base64
import gzip
import hashlib
import json
import os
import shutil
import socket
import subprocess
import sys
import threading
from unittest import mock

from bsonfind import BsonfindError
from bsonfind._backup.audit import audit
from bsonfind._command.console import progress_of

from .archives import archive
from .bson import decimal, document, double, field, int32, string
from .support import (
    COMMAND, DAMAGED, DOUBLE, PATIENCE, PEOPLE, PROGRAM, ROOT, SHOP, Room, environment, run_on_terminal, run_package,
)  # fmt: skip

LOG = """\
2026-11-25T10:00:00.000+0000\twriting shop.orders to backup/shop/orders.bson
2026-11-25T10:00:01.000+0000\tdone dumping shop.orders (400 documents)
2026-11-25T10:00:02.000+0000\tdone dumping club.people (500 documents)
"""


# A document in a document and so on, a level deeper than the program reads; and one with a decimal128.
DEEP = bytes.fromhex("0500000000")
for _ in range(200):
    DEEP = (len(DEEP) + 8).to_bytes(4, "little") + b"\x03a\0" + DEEP + b"\0"
DECIMAL = bytes.fromhex("18000000136400") + (1234 | 6174 << 113).to_bytes(16, "little") + b"\0"


class Audits(Room):
    def setUp(self) -> None:
        super().setUp()
        self.orders = self.file(SHOP.read_bytes(), "backup/shop/orders.bson")
        self.people = self.file(gzip.compress(PEOPLE.read_bytes()), "backup/club/people.bson.gz")
        # As mongodump 100.9 writes it, and one of an older mongodump.
        self.file(b'{"indexes":[],"uuid":"","collectionName":"people","type":"collection"}', "backup/club/people.metadata.json")
        self.file(gzip.compress(b"{}"), "backup/shop/orders.metadata.json.gz")
        self.backup = str(self.room / "backup")

    def collection(self, data: bytes, name: str, metadata: bytes = b"{}") -> str:
        """A dump of the database club, with its metadata."""
        self.file(metadata, f"backup/club/{name}.metadata.json")
        return str(self.file(data, f"backup/club/{name}.bson"))

    def audit(self, *words: str, status: int, told: str = "") -> list:
        """The lines that an audit prints, but the last one, which says that ids were not compared."""
        run = run_package("audit", *words)
        self.assertEqual((run.returncode, run.stderr), (status, told))
        lines = run.stdout.splitlines()
        is_told = lines[-1:] == ["ids were not compared: --ids reports those that several documents have"]
        self.assertEqual(is_told, bool(lines) and not {"--ids", "--json", "--quiet"} & {*words})
        return lines[:-1] if is_told else lines

    def table(self, *rows: tuple) -> list:
        """The lines of a table."""
        wide = max(len(name) for name, _ in rows)
        return [f"{name:{wide}} {count:12}" for name, count in rows]

    def test_good_files(self) -> None:
        lines = self.audit(self.backup, status=0)
        self.assertEqual(sorted(lines[:2]), [f"{self.people}: 500 documents, 0 faulty", f"{self.orders}: 400 documents, 0 faulty"])
        self.assertEqual(lines[2:], self.table(("files", 2), ("documents", 900), ("faulty", 0)))

    def test_faulty_files(self) -> None:
        """What is no damage comes last, as one line with a count."""
        cut = self.collection(DEEP * 2 + PEOPLE.read_bytes()[:50_000], "old")
        lines = self.audit(self.backup, status=1)
        place = f'document 0, byte 1397, path "{".".join("a" * 200)}": too deep'
        self.assertEqual(
            [line for line in lines if line.startswith(cut)],
            [
                f'{cut}: document 275, byte {2 * len(DEEP) + 49744}, path "": bad length; _id {{"$numberInt":"273"}}',
                f"{cut}: no damage, but not readable: 2 too deep; the first at {place}",
                f"{cut}: 275 documents and a rest of 256 bytes, 3 faulty",
            ],
        )
        rows = ("files", 3), ("documents", 1176), ("faulty", 3), ("  bad length", 1), ("  too deep (no damage)", 2)
        self.assertEqual(lines[5:], self.table(*rows))

    def test_doubles_are_no_faults(self) -> None:
        """They are counted; damage after them in a document is found. A file, a compressed one and a pipe."""
        hidden = bytes.fromhex("1400000001640000000000000000000862000200")
        data = PEOPLE.read_bytes() + DOUBLE * 2 + DAMAGED + DECIMAL + hidden + SHOP.read_bytes() + DOUBLE
        start = len(PEOPLE.read_bytes()) + 2 * len(DOUBLE)
        pipe = self.room / "pipe.bson"
        os.mkfifo(pipe)
        for path in (self.file(data, "a.bson"), self.file(gzip.compress(data), "a.bson.gz"), pipe):
            if path is pipe:
                threading.Thread(target=pipe.write_bytes, args=[data], daemon=True).start()
            lines = self.audit(str(path), status=1)
            # What can be read of the document again is that of a file.
            value = "" if path is pipe else " 02"
            found = [
                f'document 502, byte {start + 7}, path "d": bad boolean{value}',
                f'document 504, byte {start + len(DAMAGED + DECIMAL) + 18}, path "b": bad boolean{value}',
                "906 documents, 2 faulty",
            ]
            self.assertEqual(lines[:3], [f"{path}: {it}" for it in found])
            self.assertEqual(lines[3:], self.table(("files", 1), ("documents", 906), ("faulty", 2), ("  bad boolean", 2)))
        sound = self.file(DOUBLE * 3, "sound.bson")
        self.assertEqual(self.audit(str(sound), status=0)[0], f"{sound}: 3 documents, 0 faulty")
        (line,) = self.audit(str(sound), "--json", status=0)
        (report,) = json.loads(line)["files"]
        self.assertEqual((report["documents"], report["faulty"]), (3, 0))

    def test_every_night(self) -> None:
        """The script of the guide prints nothing of a good backup, and of another one nothing of its good files."""
        self.collection(DOUBLE * 12, "prices")
        log = self.file(f"{LOG}done dumping club.prices (12 documents)\n".encode(), "log")
        command = ["bash", str(ROOT / "examples/nightly.sh"), str(log), self.backup]
        self.script(f'exec "{sys.executable}" -m bsonfind --program "$PROGRAM" "$@"', "bin/bsonkit")
        env = {**environment(), "PATH": f"{self.room}/bin:{os.environ['PATH']}"}
        run = subprocess.run(command, env=env, capture_output=True, text=True, timeout=PATIENCE)
        self.assertEqual((run.returncode, run.stdout, run.stderr), (0, "", ""))
        bad = self.collection(DOUBLE * 2 + DAMAGED, "bad")
        run = subprocess.run(command, env=env, capture_output=True, text=True, timeout=PATIENCE)
        lines = [f'{bad}: document 2, byte 39, path "d": bad boolean 02', f"{bad}: 3 documents, 1 faulty", f"{bad}: not in the log"]
        self.assertEqual((run.returncode, run.stderr, run.stdout.splitlines()[:3]), (1, "", lines))

    def test_most_faults_of_a_file(self) -> None:
        data = bytearray(SHOP.read_bytes())
        at, bad = 0, []
        for number in range(13):
            bad.append(f'document {number}, byte {at + 4}, path "": unknown type 14')
            data[at + 4] = 0x14
            at += int.from_bytes(data[at : at + 4], "little")
        self.orders.write_bytes(data)
        for words, shown in (((), 10), (("--max-faults", "0"), 0), (("--max-faults", "12"), 12), (("--max-faults", "13"), 13)):
            lines = self.audit(str(self.orders), *words, status=1)
            more = [f"and {13 - shown} more"] if shown < 13 else []
            wanted = [*bad[:shown], *more, "400 documents, 13 faulty"]
            self.assertEqual(lines[:-4], [f"{self.orders}: {it}" for it in wanted])
        self.assertIn("argument --max-faults: a number from 0", run_package("audit", self.backup, "--max-faults", "-1").stderr)

    def test_the_largest_first(self) -> None:
        self.collection(SHOP.read_bytes() * 3, "large")
        lines = self.audit(self.backup, "--jobs", "1", status=0)
        names = [line.partition(": ")[0] for line in lines[:3]]
        self.assertEqual(names, [f"{self.backup}/club/large.bson", str(self.orders), str(self.people)])

    def test_files_of_a_list(self) -> None:
        names = self.file(f"{self.orders}\n{self.people}\n".encode(), "names")
        lines = self.audit("--list", str(names), status=0)
        self.assertEqual(lines[2:], self.table(("files", 2), ("documents", 900), ("faulty", 0)))
        names.write_bytes(b"a\0b\n")
        told = f"bsonkit: {names}: line 1 has a zero byte; each line is a name\n"
        self.audit("--list", str(names), status=2, told=told)

    def test_files_that_are_named_twice(self) -> None:
        """By other spellings, or below a link to a directory."""
        (self.room / "latest").symlink_to(self.backup)
        spelled = f"{self.backup}/../backup/shop/orders.bson", f"{self.backup}/shop", f"{self.room}/latest/", f"{self.room}/latest/shop"
        lines = self.audit(str(self.orders), self.backup, *spelled, status=0)
        self.assertEqual(lines[2:], self.table(("files", 2), ("documents", 900), ("faulty", 0)))
        none = str(self.room / "none.bson")
        self.assertEqual(self.audit(none, none, status=2)[0], f"{none}: No such file or directory")
        self.assertEqual(len(self.audit(none, none, status=2)), 5)

    def test_collections_that_share_a_file(self) -> None:
        """Each name, of a hard link or a link, is a collection, with its own metadata and count; the bytes are read once."""
        shop = self.room / "backup/shop"
        os.link(self.orders, shop / "a.bson")
        (shop / "z.bson").symlink_to("orders.bson")
        os.link(self.people, self.room / "backup/club/twin.bson.gz")
        self.file(b"{}", "backup/shop/z.metadata.json")
        self.file(b"{}", "backup/club/twin.metadata.json")
        counts = ("shop.a", 401), ("shop.z", 400), ("club.twin", 499)
        log = self.file((LOG + "".join(f"done dumping {name} ({count} documents)\n" for name, count in counts)).encode(), "log")
        lines = self.audit(self.backup, "--expect", str(log), "--program", self.counting(), status=1)
        wanted = [f"{shop}/{name}.bson: 400 documents, 0 faulty" for name in ("a", "orders", "z")]
        wanted += [f"{self.room}/backup/club/{name}.bson.gz: 500 documents, 0 faulty" for name in ("people", "twin")]
        wanted += [f"{shop}/a.bson: metadata: no a.metadata.json beside it"]
        self.assertEqual(sorted(lines[:6]), sorted(wanted))
        miscounted = [f"{self.room}/backup/club/twin.bson.gz: 500 documents in place of 499", f"{shop}/a.bson: 400 documents in place of 401"]
        self.assertEqual(lines[6:8], miscounted)
        rows = ("files", 5), ("documents", 2200), ("faulty", 0), ("other counts than expected", 2), ("without metadata", 1)
        self.assertEqual(lines[8:], self.table(*rows))
        self.assertEqual(len(self.starts()), 2)
        # The faults of a file are those of each of its names.
        self.orders.write_bytes(SHOP.read_bytes() + DAMAGED)
        (line,) = self.audit(str(shop), "--json", status=1)
        self.assertEqual([(it["documents"], it["faulty"], len(it["faults"])) for it in json.loads(line)["files"]], [(401, 1, 1)] * 3)

    def test_archives_that_share_a_file(self) -> None:
        data = archive([("club", "people", PEOPLE.read_bytes()), ("shop", "orders", SHOP.read_bytes())])
        one, two = self.file(data, "one.archive"), self.room / "two.archive"
        two.symlink_to(one)
        lines = self.audit(str(two), str(one), f"{two}::shop.orders", f"{one}::shop.orders", status=0)
        found = [f"{it}::{name} documents, 0 faulty" for it in (two, one) for name in ("club.people: 500", "shop.orders: 400")]
        found += [f"{it}::shop.orders: 400 documents, 0 faulty" for it in (two, one)]
        self.assertEqual(sorted(lines[:6]), sorted(found))
        self.assertEqual(lines[6:8], self.table(("files", 6), ("documents", 2600)))

    def test_directories_without_dumps(self) -> None:
        """Each is reported, but for one with views alone."""
        for name in ("none", "deep/empty", "club/inside"):
            (self.room / "backup" / name).mkdir(parents=True)
        self.file(b'{"type":"view"}', "backup/seen/view.metadata.json")
        self.file(b"5", "backup/notes/readme.txt")
        lines = self.audit(self.backup, status=2)
        for name in ("none", "deep/empty", "club/inside", "notes"):
            self.assertIn(f"{self.backup}/{name}: no dump is below this directory", lines)
        self.assertEqual(lines[-4:], self.table(("files", 6), ("documents", 900), ("faulty", 0), ("not read", 4)))

    def test_archives_below_a_directory(self) -> None:
        """They are checked: known by their first bytes, or by their names where these are lost."""
        data = archive([("club", "people", PEOPLE.read_bytes())])
        whole, packed = self.file(data, "all/of.it"), self.file(gzip.compress(data), "all/packed.archive.gz")
        lines = self.audit(str(self.room / "all"), status=0)
        self.assertEqual(sorted(lines[:2]), [f"{it}::club.people: 500 documents, 0 faulty" for it in (whole, packed)])
        cut = self.file(data[:50_000], "all/night.archive")
        empty, other = self.file(b"", "all/empty.archive"), self.file(PEOPLE.read_bytes(), "all/other.archive.gz")
        lines = self.audit(str(self.room / "all"), status=1)
        self.assertIn(f"{cut}: byte 50000: the archive ends inside a block", lines)
        for path in (empty, other):
            self.assertIn(f"{path}: no archive, by its first bytes", lines)
        run = run_package("query", str(self.room / "all"))
        self.assertEqual((run.returncode, run.stdout), (2, ""))
        self.assertIn(f"bsonkit: {whole}: an archive: name one of its collections", run.stderr)

    def test_copies_in_place_of_dumps(self) -> None:
        """With the log, a dump of another backup inside of this one represents none, nor does a second one of a collection."""
        log = self.file(LOG.encode(), "log")
        old = self.room / "backup/old/shop/orders.bson"
        old.parent.mkdir(parents=True)
        self.orders.rename(old)
        (self.room / "backup/shop/orders.metadata.json.gz").rename(old.parent / "orders.metadata.json.gz")
        (self.room / "backup/shop").rmdir()
        deeper = f"{old}: in a directory below that of the other dumps, so it stands for none of them"
        lines = self.audit(self.backup, "--expect", str(log), status=1)
        self.assertEqual(lines[2:4], [deeper, "shop.orders: missing, with 400 documents"])
        rows = ("files", 2), ("documents", 900), ("faulty", 0), ("other copies", 1), ("missing", 1)
        self.assertEqual(lines[4:], self.table(*rows))
        (line,) = self.audit(self.backup, "--json", "--expect", str(log), status=1)
        found = json.loads(line)
        self.assertEqual((found["copies"], found["missing"]), ([str(old)], {"shop.orders": 400}))
        self.audit(self.backup, status=0)
        # Two backups beside one another, and files that are named.
        self.orders.parent.mkdir()
        old.rename(self.orders)
        (old.parent / "orders.metadata.json.gz").rename(self.room / "backup/shop/orders.metadata.json.gz")
        shutil.rmtree(self.room / "backup/old")
        shutil.copytree(self.backup, self.room / "both/mon")
        shutil.copytree(self.backup, self.room / "both/tue")
        lines = self.audit(str(self.room / "both"), "--expect", str(log), status=1)
        mon, tue = (f"{self.room}/both/{day}" for day in ("mon", "tue"))
        twice = [f"{tue}/{name}: {it} is in {mon}/{name} too" for name, it in (("club/people.bson.gz", "club.people"), ("shop/orders.bson", "shop.orders"))]
        self.assertEqual(lines[4:6], twice)
        self.audit(f"{mon}/shop", f"{tue}/club", "--expect", str(log), status=0)
        # A file that the log does not name, above all the others.
        stray = self.file(b"", "backup/stray.bson")
        self.file(b"{}", "backup/stray.metadata.json")
        lines = self.audit(self.backup, "--expect", str(log), status=1)
        self.assertEqual(lines[3:4] + lines[-1:], [f"{stray}: not in the log", self.table(("not in the log", 1), ("documents", 0))[0]])
        stray.unlink()
        (self.room / "backup/stray.metadata.json").unlink()
        # An archive beside the dumps, one beside no dumps, and an oplog that is deeper.
        data = archive([("club", "people", PEOPLE.read_bytes()), ("shop", "orders", SHOP.read_bytes())])
        night = self.file(data, "backup/night.archive")
        lines = self.audit(self.backup, "--expect", str(log), status=1)
        self.assertEqual(len([it for it in lines if it.startswith(f"{night}::") and "below that of the other dumps" in it]), 2)
        self.audit(str(self.file(data, "alone/night.archive").parent), "--expect", str(log), status=0)
        night.unlink()
        self.file(b"", "backup/old/oplog.bson")
        self.file(b"", "backup/old/shop/x.bson")
        self.file(b"{}", "backup/old/shop/x.metadata.json")
        log.write_text(f"{LOG}dumped 0 oplog entries\ndone dumping shop.x (0 documents)\n")
        lines = self.audit(self.backup, "--expect", str(log), status=1)
        self.assertIn("oplog: missing, with 0 documents", lines)
        self.assertIn("shop.x: missing, with 0 documents", lines)

    def test_second_names_are_collections(self) -> None:
        """As a program leaves them that links equal files."""
        os.link(self.orders, self.room / "backup/shop/copies.bson")
        self.file(b"{}", "backup/shop/copies.metadata.json")
        log = self.file(f"{LOG}done dumping shop.copies (400 documents)\n".encode(), "log")
        self.assertEqual(len(self.audit(self.backup, "--expect", str(log), status=0)), 6)
        log.write_text(LOG)
        lines = self.audit(self.backup, "--expect", str(log), status=1)
        self.assertIn(f"{self.backup}/shop/copies.bson: not in the log", lines)

    def test_names_as_they_are(self) -> None:
        for name in ("Łódź a:b.bson".encode(), b"\xff.bson"):
            path = os.fsencode(self.room) + b"/" + name
            with open(path, "wb") as file:
                file.write(SHOP.read_bytes())
            run = subprocess.run(self.command(path), env=environment(), stdout=subprocess.PIPE, check=True)
            self.assertEqual(run.stdout.splitlines()[0], path + b": 400 documents, 0 faulty")

    def command(self, *words: object) -> list:
        """The command line of an audit."""
        return [*COMMAND, "audit", *words]

    def test_what_is_not_seen_below_a_directory(self) -> None:
        """Is reported, each by its name, and nothing is good that was not looked at."""
        club, shop = self.room / "backup/club", self.room / "backup/shop"
        (self.room / "away").mkdir()
        os.mkfifo(club / "pipe.bson")
        server = socket.socket(socket.AF_UNIX)
        self.addCleanup(server.close)
        server.bind(str(club / "socket.bson"))
        (club / "linked").symlink_to(self.room / "away")
        (shop / "broken.bson").symlink_to("missing.bson")
        (shop / "broken").symlink_to("missing")
        (shop / "loop").symlink_to("loop")
        (shop / "fine.bson").symlink_to(self.orders)
        lines = self.audit(self.backup, status=2)
        for name, problem in (
            ("club/pipe.bson", "not a regular file"),
            ("club/socket.bson", "not a regular file"),
            ("club/linked", "a link to a directory, which is not followed: name it too"),
            ("shop/broken", "a link to nothing that can be seen"),
            ("shop/broken.bson", "a link to nothing that can be seen"),
            ("shop/loop", "Too many levels of symbolic links"),
        ):
            self.assertIn(f"{self.backup}/{name}: {problem}", lines)
        rows = ("files", 9), ("documents", 1300), ("faulty", 0), ("not read", 6), ("without metadata", 1)
        self.assertEqual(lines[-5:], self.table(*rows))
        self.assertIn(f"{club}/linked/: no dump is below this directory", self.audit(f"{club}/linked/", status=2))

    def test_directory_that_cannot_be_read(self) -> None:
        """The system lets root read every directory, so here the call fails."""
        closed, scandir = f"{self.backup}/club", os.scandir

        def refusing(path: str) -> object:
            if path == closed:
                raise PermissionError(13, "Permission denied")
            return scandir(path)

        with mock.patch("os.scandir", refusing):
            done = audit([self.backup], program=PROGRAM)
        self.assertFalse(done.is_good)
        self.assertEqual([(it.name, it.error) for it in done.unread], [(closed, "cannot read the directory: Permission denied")])

    def test_pipes_are_read_by_their_bytes(self) -> None:
        people = PEOPLE.read_bytes()
        for data, name, found in (
            (people, "pipe.bson", "500 documents, 0 faulty"),
            (b"", "empty.bson", "0 documents, 0 faulty"),
            (gzip.compress(people), "pipe.bson.gz", "500 documents, 0 faulty"),
            (b"", "empty.bson.gz", "not a sound file of gzip: it is empty"),
        ):
            pipe = self.room / name
            os.mkfifo(pipe)
            writer = threading.Thread(target=pipe.write_bytes, args=[data])
            writer.start()
            lines = self.audit(str(pipe), status=int("gzip" in found))
            writer.join()
            self.assertEqual(lines[0], f"{pipe}: {found}")
        run = subprocess.run(self.command("/dev/stdin"), env=environment(), input=people, stdout=subprocess.PIPE, check=True)
        self.assertIn(b"/dev/stdin: 500 documents, 0 faulty\n", run.stdout)

    def test_metadata(self) -> None:
        """That of the oplog, and of the users of one database, is never there."""
        for name in ("oplog.bson", "shop/$admin.system.users.bson"):
            self.file(b"", f"backup/{name}")
        bare, gone = self.file(b"", "backup/shop/bare.bson"), self.collection(b"", "gone", b"[]")
        torn = self.collection(b"", "torn", b'{"a":')
        (self.room / "backup/club/gone.metadata.json").unlink()
        listed, folder = self.collection(b"", "listed", b"[]"), self.file(b"", "backup/club/folder.bson")
        (self.room / "backup/club/folder.metadata.json").mkdir()
        half = self.file(b"", "backup/club/half.bson")
        self.file(gzip.compress(b"{}")[:-3], "backup/club/half.metadata.json.gz")
        lines = self.audit(self.backup, status=2)
        self.assertIn(f"{folder.parent}/folder.metadata.json: no dump is below this directory", lines)
        problems = [
            f"{folder}: metadata: folder.metadata.json: Is a directory",
            f"{gone}: metadata: no gone.metadata.json beside it",
            f"{half}: metadata: half.metadata.json.gz: not a sound file of gzip: it ends too soon",
            f"{listed}: metadata: listed.metadata.json: not a document",
            f"{torn}: metadata: torn.metadata.json: Expecting value: line 1 column 6 (char 5)",
            f"{bare}: metadata: no bare.metadata.json beside it",
        ]
        self.assertEqual(sorted(line for line in lines if ": metadata: " in line), problems)
        rows = ("files", 11), ("documents", 900), ("faulty", 0), ("not read", 1), ("without metadata", 6)
        self.assertEqual(lines[-5:], self.table(*rows))
        self.audit(str(bare), status=0)  # A file by itself may have none.

    def test_file_larger_than_what_a_run_reads(self) -> None:
        """With a largest input of 30,000 bytes in place of 4,294,967,295: a file, a compressed one and a pipe."""
        people = PEOPLE.read_bytes()
        whole, wrong = people[:79930] + DAMAGED + people[79930:], people[:39978] + b"\xff" * 50_000
        harmless = {"document": 436, "byte": 79937, "path": "d", "kind": "bad boolean"}
        damage = {"document": 220, "byte": 39978, "path": "", "kind": "bad length"}
        pipe = self.room / "pipe.bson"
        os.mkfifo(pipe)
        for data, documents, fault in ((whole, 501, harmless), (wrong, 221, damage)):
            writer = threading.Thread(target=pipe.write_bytes, args=[data], daemon=True)
            writer.start()
            files = [self.file(data, "large.bson"), self.file(gzip.compress(data), "large.bson.gz"), pipe]
            with mock.patch("bsonfind._dumps.framing.LARGEST_INPUT", 30_000):
                done = audit(files, program=self.counting())
            for report in done.reports:
                faults = [{name: it[name] for name in fault} for it in report.as_json()["faults"]]
                self.assertEqual((report.documents, report.error, faults), (documents, None, [fault]))
            # One run says whether the program is there; each file has one for each 30,000 bytes, and that with the wrong length.
            self.assertEqual(len(self.starts()), 3 * (4 if data is whole else 3))
            (self.room / "starts").unlink()

    def test_expected_counts(self) -> None:
        log = self.file(LOG.encode(), "log")
        lines = self.audit(self.backup, "--expect", str(log), status=0)
        self.assertEqual(lines[2:], self.table(("files", 2), ("documents", 900), ("faulty", 0)))
        log.write_text(LOG.replace("400", "401") + "done dumping shop.a%2Fb (1 document)\ndone dumping `shop`.`c` (0 documents)\n")
        self.file(b"{}", "backup/shop/c.metadata.json")
        self.file(b"", "backup/shop/c.bson")
        lines = self.audit(self.backup, "--expect", str(log), status=1)
        self.assertEqual(lines[3:5], [f"{self.orders}: 400 documents in place of 401", "shop.a%2Fb: missing, with 1 documents"])
        rows = ("files", 3), ("documents", 900), ("faulty", 0), ("other counts than expected", 1), ("missing", 1)
        self.assertEqual(lines[5:], self.table(*rows))

    def test_files_that_the_log_does_not_name(self) -> None:
        log = self.file("\n".join(LOG.split("\n")[:2]).encode(), "log")
        self.file(b"", "backup/oplog.bson")
        lines = self.audit(self.backup, "--expect", str(log), status=1)
        self.assertEqual(lines[3], f"{self.people}: not in the log")
        self.assertEqual(lines[4:], self.table(("files", 3), ("documents", 900), ("faulty", 0), ("not in the log", 1)))
        log.write_text("done dumping club.people (500 documents)\n")
        self.assertIn(f"{self.orders}: not in the log", self.audit(self.backup, "--expect", str(log), status=1))

    def test_oplog(self) -> None:
        """Its entries are counted as the log says. A collection of this name is one like the others."""
        log = self.file(f"{LOG}2026-11-25T10:00:03.000+0000\tdumped 400 oplog entries\n".encode(), "log")
        self.assertIn("oplog: missing, with 400 documents", self.audit(self.backup, "--expect", str(log), status=1))
        oplog = self.file(SHOP.read_bytes(), "backup/oplog.bson")
        self.audit(self.backup, "--expect", str(log), status=0)
        log.write_text(f"{LOG}\tdumped 1 oplog entry\n")
        self.assertIn(f"{oplog}: 400 documents in place of 1", self.audit(self.backup, "--expect", str(log), status=1))
        log.write_text(LOG)
        self.audit(self.backup, "--expect", str(log), status=0)
        collection = self.collection(b"", "oplog")
        self.assertIn(f"{collection}: not in the log", self.audit(self.backup, "--expect", str(log), status=1))
        self.assertIn(f"{collection}: not in the log", self.audit(f"{self.backup}/club", "--expect", str(log), status=1))
        (self.room / "backup/club/oplog.metadata.json").unlink()
        self.assertIn(f"{collection}: not in the log", self.audit(self.backup, "--expect", str(log), status=1))

    def test_long_names_of_collections(self) -> None:
        """mongodump shortens the name of the file; the metadata has the whole one."""
        name = "Łódź/" * 60
        long = "%C5%81%C3%B3d%C5%BA%2F" * 9 + "%C5%81%C3%B%24Y4gp4C6bBJZmAXR3N6Yd0b5rYZk"
        metadata = json.dumps({"collectionName": name, "type": "collection"}).encode()
        self.collection(PEOPLE.read_bytes(), long, metadata)
        log = self.file(f"{LOG}done dumping club.{name} (500 documents)\n".encode(), "log")
        self.audit(self.backup, "--expect", str(log), status=0)
        log.write_text(f"{LOG}done dumping club.{name} (501 documents)\n")
        lines = self.audit(self.backup, "--expect", str(log), status=1)
        self.assertIn(f"{self.backup}/club/{long}.bson: 500 documents in place of 501", lines)

    def test_metadata_without_a_dump(self) -> None:
        """The dump is missing, but for a view, which has none; that of a time series is the one of its buckets."""
        series = '{"type":"timeseries","options":{"timeseries":{"timeField":"t"}}}'
        for name, metadata in (
            ("view", '{"type":"view","options":{"viewOn":"people","pipeline":[]}}'),
            ("old_view", '{"options":{"viewOn":"people","pipeline":[]},"indexes":[]}'),
            ("series", series),
        ):
            self.file(metadata.encode(), f"backup/club/{name}.metadata.json")
        packed = self.file(gzip.compress(DOUBLE), "backup/club/system.buckets.series.bson.gz")
        self.audit(self.backup, status=0)
        packed.unlink()
        buckets = self.file(DOUBLE, "backup/club/system.buckets.series.bson")
        self.audit(self.backup, status=0)
        buckets.unlink()
        self.file(b'{"type":"collection"}', "backup/club/lost.metadata.json")
        self.file(gzip.compress(b"{}"), "backup/shop/gone.metadata.json.gz")
        self.file(gzip.compress(series.encode()), "backup/shop/w%2F1.metadata.json.gz")
        self.file(b'{"options":{"timeseries":{}}}', "backup/shop/system.buckets.old.metadata.json")
        lines = self.audit(self.backup, status=1)
        for name, metadata in (
            ("club/lost.bson", "lost.metadata.json"),
            ("club/system.buckets.series.bson", "series.metadata.json"),
            ("shop/gone.bson", "gone.metadata.json.gz"),
            ("shop/system.buckets.w%2F1.bson", "w%2F1.metadata.json.gz"),
            ("shop/system.buckets.old.bson", "system.buckets.old.metadata.json"),
        ):
            self.assertIn(f"{self.backup}/{name}: missing: only {metadata} is there", lines)

    def test_time_series_without_metadata(self) -> None:
        """The metadata of a time series has its own name, and that of the file of its documents has one of its buckets: one is enough."""
        series = b'{"type":"timeseries","options":{"timeseries":{"timeField":"t"}}}'
        for stem, name in (("metrics", "metrics"), ("w%2F1", "w/1")):
            buckets = self.file(DOUBLE, f"backup/club/system.buckets.{stem}.bson")
            lines = self.audit(self.backup, status=1)
            self.assertIn(f"{buckets}: metadata: no {stem}.metadata.json beside it", lines)
            self.assertEqual(lines[-1], self.table(("without metadata", 1))[0])
            for path in (f"{stem}.metadata.json", f"{stem}.metadata.json.gz", f"system.buckets.{stem}.metadata.json"):
                beside = self.file(gzip.compress(series) if path.endswith(".gz") else series, f"backup/club/{path}")
                self.audit(self.backup, status=0)
                beside.unlink()
            beside = self.file(b"{", f"backup/club/{stem}.metadata.json")
            lines = self.audit(self.backup, status=1)
            self.assertEqual([it for it in lines if stem in it][1][: len(f"{buckets}: metadata: {stem}.metadata.json: ")], f"{buckets}: metadata: {stem}.metadata.json: ")
            self.assertEqual(lines[-1], self.table(("without metadata", 1))[0])
            beside.unlink()
            # A file that is named by itself needs no metadata.
            self.audit(str(buckets), status=0)
            buckets.unlink()

    def test_long_time_series_without_metadata(self) -> None:
        """The name of the file of its buckets is shortened, so that it does not say the one of the metadata."""
        name = "n" * 230
        digest = base64.urlsafe_b64encode(hashlib.sha1(f"system.buckets.{name}".encode()).digest()).decode().rstrip("=")
        buckets = self.file(DOUBLE, f"backup/club/system.buckets.{'n' * 193}%24{digest}.bson")
        for other, status in ((name, 0), (name[1:], 1)):
            metadata = json.dumps({"collectionName": other, "type": "timeseries"}).encode()
            beside = self.file(metadata, f"backup/club/{other}.metadata.json")
            lines = self.audit(self.backup, status=status)
            beside.unlink()
        self.assertIn(f"{buckets}: metadata: no metadata of its time series beside it", lines)

    def test_log_of_a_dump_that_failed(self) -> None:
        """mongodump says so, or that a signal came, or it was killed while it wrote a collection: nothing of that is in the counts."""
        log, time = self.room / "log", "2026-11-25T10:00:03.000+0000\t"
        for line, told in (
            ("Failed: error dumping metadata: not authorized", "Failed: error dumping metadata: not authorized"),
            ("signal 'interrupt' received; attempting to shut down", "signal 'interrupt' received; attempting to shut down"),
            ("writing club.b to backup/club/b.bson", "writing club.b to backup/club/b.bson: no later line says that it is done"),
            ("writing club.a to b to backup/club/a to b.bson", "writing club.a to b to backup/club/a to b.bson: no later line says that it is done"),
            ("writing club.b", "writing club.b: no later line says that it is done"),
        ):
            log.write_text(f"{LOG}{time}{line}\n")
            lines = self.audit(self.backup, "--expect", str(log), status=1)
            self.assertEqual(lines[2], f"{log}: line 4: {told}")
            self.assertEqual(lines[3:], self.table(("files", 2), ("documents", 900), ("faulty", 0), ("failures in the log", 1)))
            (line,) = self.audit(self.backup, "--expect", str(log), "--json", status=1)
            self.assertEqual((json.loads(line)["good"], json.loads(line)["failures"]), (False, [f"{log}: line 4: {told}"]))
            self.assertEqual(self.audit(self.backup, "--expect", str(log), "--quiet", status=1), lines[2:])

    def test_log_of_a_dump_that_ended_well(self) -> None:
        """What was begun is done, by either name of a time series; other lines are about no collection."""
        series = b'{"type":"timeseries","options":{"timeseries":{"timeField":"t"}}}'
        self.file(series, "backup/club/w.metadata.json")
        self.file(DOUBLE, "backup/club/system.buckets.w.bson")
        log, time = self.room / "log", "2026-11-25T10:00:03.000+0000\t"
        for lines in (
            ("writing club.w to backup/club/system.buckets.w.bson", "done dumping club.system.buckets.w (1 document)"),
            ("writing club.system.buckets.w to archive on stdout", "done dumping club.w (1 document)"),
            ("writing `club.w` to backup/club/w.bson", "done dumping `club.w` (1 document)"),
            ("writing captured oplog to backup/oplog.bson", "done dumping club.w (1 document)"),
            ("writing club.w metadata to backup/club/w.metadata.json", "done dumping club.w (1 document)"),
        ):
            log.write_text(LOG + "".join(f"{time}{line}\n" for line in lines))
            self.audit(self.backup, "--expect", str(log), status=0)
        # One that is begun again after it was done.
        log.write_text(LOG + "".join(f"{time}{line}\n" for line in ("done dumping club.w (1 document)", "writing club.w to w.bson")))
        self.assertIn(f"{log}: line 5: writing club.w to w.bson: no later line says that it is done", self.audit(self.backup, "--expect", str(log), status=1))

    def test_one_count_of_a_file_that_was_cut(self) -> None:
        """The line beside the log has the count of the line of the file."""
        cut = self.collection(PEOPLE.read_bytes()[:50_000], "old")
        log = self.file(f"{LOG}done dumping club.old (500 documents)\n".encode(), "log")
        lines = self.audit(self.backup, "--expect", str(log), status=1)
        self.assertIn(f"{cut}: 273 documents and a rest of 256 bytes, 1 faulty", lines)
        self.assertIn(f"{cut}: 273 documents and a rest of 256 bytes in place of 500", lines)

    def test_repeated_ids(self) -> None:
        """Each `_id` of several documents, by --ids: of a dump, a packed one, a pipe and an archive. Numbers are the same by their values."""
        seven, a, x = field(0x10, "_id", int32(7)), string("_id", "a"), field(0x10, "x", int32(1))
        others = field(0x01, "_id", double(7.0)), field(0x13, "_id", decimal(700, -2)), field(0x10, "_id", int32(8))
        data = b"".join(map(document, (seven, a, others[2], others[0], x, x, others[1], a)))
        path, packed_one = self.file(data, "a.bson"), self.file(gzip.compress(data), "b.bson.gz")
        whole = self.file(archive([("club", "c", data), ("club", "people", PEOPLE.read_bytes())]), "c.archive")
        for name, dump, files, documents in ((path, path, 1, 8), (packed_one, packed_one, 1, 8), (whole, f"{whole}::club.c", 2, 508)):
            lines = self.audit(str(name), "--ids", status=1)
            found = [line for line in lines if line.startswith(f"{dump}: ")]
            self.assertEqual(found, [f'{dump}: repeated "a": 2 documents', f'{dump}: repeated {{"$numberDouble":"7.0"}}: 3 documents', f"{dump}: 8 documents, 0 faulty"])
            rows = ("files", files), ("documents", documents), ("faulty", 0), ("with repeated ids", 1)
            self.assertEqual(lines[-4:], self.table(*rows))
        (line,) = self.audit(str(path), "--ids", "--json", status=1)
        self.assertEqual((json.loads(line)["good"], json.loads(line)["files"][0]["repeated"]), (False, 2))
        self.assertEqual(self.audit(str(path), "--ids", "--max-faults", "1", status=1)[1], f"{path}: and 1 more ids")
        (line,) = self.audit(str(PEOPLE), "--ids", "--json", status=0)
        self.assertEqual(json.loads(line)["files"][0]["repeated"], 0)
        self.assertEqual(self.audit(self.backup, "--ids", "--quiet", status=0), [])
        self.assertEqual([(it.repeated, it.repeats) for it in audit(path, ids=True, max_faults=1, program=PROGRAM).reports], [(2, [('"a"', 2)])])
        self.assertIsNone(audit(path, program=PROGRAM).reports[0].repeated)
        self.assertRaises(BsonfindError, audit, path, ids=1, program=PROGRAM)
        run = run_package("audit", "-", "--ids", input="")
        self.assertEqual(run.returncode, 0)
        with open(path, "rb") as file, subprocess.Popen(["cat"], stdin=file, stdout=subprocess.PIPE) as cat:
            run = subprocess.run([*COMMAND, "audit", "-", "--ids"], stdin=cat.stdout, env=environment(), capture_output=True, text=True)
        self.assertEqual((run.returncode, run.stdout.splitlines()[0]), (1, '-: repeated "a": 2 documents'))

    def test_repeated_ids_of_damaged_files(self) -> None:
        """Those of documents with a fault count too; an id that has a fault itself has no text."""
        bad = field(0x02, "_id", int32(2) + b"\xff\0")
        path = self.collection(document(bad) + document(field(0x10, "_id", int32(1)), field(0x08, "d", b"\2")) + document(field(0x10, "_id", int32(1))) + document(bad), "x")
        lines = self.audit(path, "--ids", status=1)
        repeats = [line for line in lines if "repeated" in line]
        self.assertEqual(repeats[:2], [f"{path}: repeated _id that has a fault: 2 documents", f'{path}: repeated {{"$numberInt":"1"}}: 2 documents'])

    def test_names_that_may_hold_a_dump(self) -> None:
        """They are named, and not read; their metadata is not said to be alone."""
        names = [f"backup/club/b.bson{it}" for it in (".zst", ".xz", ".bz2", ".gz.part", ".gz.gpg")] + ["backup/club/b.BSON", "backup/club/c.Bson.GZ"]
        self.file(b"{}", "backup/club/b.metadata.json")
        for name in names:
            path = self.file(b"what it is does not matter", name)
            lines = self.audit(self.backup, status=2)
            self.assertIn(f"{path}: not read: the name of a dump ends in .bson or .bson.gz", lines)
            missing = [] if "/b." in name else [f"{self.backup}/club/b.bson: missing: only b.metadata.json is there"]
            self.assertEqual([line for line in lines if "missing:" in line], missing)
            path.unlink()
        # Such as the metadata of a collection with this name.
        self.file(DOUBLE, "backup/club/b.bson")
        self.collection(DOUBLE, "x.bson")
        self.audit(self.backup, status=0)

    def test_files_beside_dumps(self) -> None:
        """Newer versions of mongodump note their version in one. By its name it is no damage, but not what was to be checked."""
        prelude = self.file(b'{"ServerVersion":"8.0.4","ToolVersion":"100.12.0"}', "backup/prelude.json")
        packed = self.file(gzip.compress(b"{}"), "backup/club/prelude.json.gz")
        self.assertEqual(self.audit(self.backup, status=0)[2:], self.table(("files", 2), ("documents", 900), ("faulty", 0)))
        names = [str(it) for it in (self.people, packed, prelude, self.room / "backup/club/people.metadata.json")]
        lines = self.audit(*names, status=2)
        reported = [line for line in lines if "mongodump" in line]
        self.assertCountEqual(reported, [f"{it}: no dump: mongodump writes it beside dumps" for it in names[1:]])
        self.assertEqual(lines[-4:], self.table(("files", 4), ("documents", 500), ("faulty", 0), ("not read", 3)))

    def test_missing_time_series_with_a_long_name(self) -> None:
        """mongodump shortens the name of the file of its buckets by another hash; the metadata has the whole name."""
        name = "n" * 230
        metadata = json.dumps({"collectionName": name, "type": "timeseries"}).encode()
        self.file(metadata, f"backup/club/{name}.metadata.json")
        digest = base64.urlsafe_b64encode(hashlib.sha1(f"system.buckets.{name}".encode()).digest()).decode().rstrip("=")
        stem = f"backup/club/system.buckets.{'n' * 193}%24{digest}"
        buckets = self.file(DOUBLE, f"{stem}.bson")
        self.audit(self.backup, status=0)
        buckets.unlink()
        self.assertIn(f"{self.room}/{stem}.bson: missing: only {name}.metadata.json is there", self.audit(self.backup, status=1))

    def test_function(self) -> None:
        """It takes one name, or several; the reports are in their order."""
        for paths in (self.backup, os.fsencode(self.backup), self.room / "backup", [self.people, str(self.orders)]):
            done = audit(paths, program=PROGRAM)
            self.assertEqual((done.is_good, [it.documents for it in done.reports]), (True, [500, 400]))

    def test_users_of_one_database(self) -> None:
        """mongodump --db=shop --dumpDbUsersAndRoles puts them beside the collections."""
        self.file(b"", "backup/shop/$admin.system.users.bson")
        log = self.file(f"{LOG}done dumping admin.system.users (0 documents)\n".encode(), "log")
        self.audit(self.backup, "--expect", str(log), status=0)

    def test_json(self) -> None:
        cut = self.collection(PEOPLE.read_bytes()[:50_000], "old")
        log = self.file(LOG.replace("500", "501").encode(), "log")
        none = str(self.room / "none.bson")
        (line,) = self.audit(self.backup, none, "--json", "--expect", str(log), status=2)
        good = {"faulty": 0, "kinds": {}, "faults": [], "rest": 0, "error": None, "metadata": None, "repeated": None}
        fault = {"document": 273, "byte": 49744, "path": "", "kind": "bad length"}
        faults = [{**fault, "value": None, "id": {"$numberInt": "273"}, "goes_on": None}]
        bad = {**good, "faulty": 1, "kinds": {"bad length": 1}, "faults": faults, "rest": 256}
        files = [
            {**bad, "name": cut, "documents": 274, "expected": None},
            {**good, "name": str(self.people), "documents": 500, "expected": 501},
            {**good, "name": str(self.orders), "documents": 400, "expected": 400},
            {**good, "name": none, "documents": 0, "error": "No such file or directory", "expected": None},
        ]
        wanted = {
            "good": False, "files": files, "documents": 1174, "faulty": 1, "kinds": {"bad length": 1},
            "miscounted": [str(self.people)], "untold": [cut], "copies": [], "missing": {}, "failures": [],
        }  # fmt: skip
        self.assertEqual(json.loads(line), wanted)
        (line,) = self.audit(str(self.orders), "--json", status=0)
        self.assertTrue(json.loads(line)["good"])

    def test_what_cannot_be_read(self) -> None:
        """gzip -t finds each of them faulty, the empty one too."""
        packed = gzip.compress(SHOP.read_bytes())
        self.people.write_bytes(gzip.compress(PEOPLE.read_bytes(), 0)[:50_000])  # Its bytes are there as they are.
        wrong = bytearray(packed)
        wrong[-5] ^= 1
        for name, data, problem in (
            ("a", b"not gzip", "incorrect header check"),
            ("b", b"", "it is empty"),
            ("c", packed[:-8], "it ends too soon"),
            ("d", bytes(wrong), "incorrect data check"),
            ("e", packed + b"more", "incorrect header check"),
        ):
            self.file(b"{}", f"backup/shop/{name}.metadata.json")
            path = self.file(data, f"backup/shop/{name}.bson.gz")
            self.assertEqual(subprocess.run(["gzip", "-tq", path], stderr=subprocess.DEVNULL).returncode != 0, True)
            self.assertIn(f"{path}: not a sound file of gzip: {problem}", self.audit(self.backup, status=1))
        lines = self.audit(self.backup, status=1)
        self.assertIn(f"{self.people}: not a sound file of gzip: it ends too soon", lines)
        # What is before the damage was checked.
        rows = ("files", 7), ("documents", 274 + 4 * 400), ("faulty", 1), ("  bad length", 1), ("not read", 6)
        self.assertEqual(lines[-5:], self.table(*rows))

    def test_compressed_in_several_parts(self) -> None:
        """gzip takes files one after the other for one, and zeros at the end."""
        data, at = PEOPLE.read_bytes(), 39978
        path = self.file(gzip.compress(data[:at]) + gzip.compress(data[at:]) + b"\0" * 512, "parts.bson.gz")
        self.assertEqual(subprocess.run(["gzip", "-dc", path], stdout=subprocess.PIPE, check=True).stdout, data)
        self.assertEqual(self.audit(str(path), status=0)[0], f"{path}: 500 documents, 0 faulty")

    def test_no_files(self) -> None:
        self.audit(str(self.room / "backup/shop"), "--list", "/dev/null", status=0)
        self.assertRaises(BsonfindError, audit, [self.orders], program="no-such-program")
        empty = self.room / "empty"
        empty.mkdir()
        for words in ([str(empty)], [str(empty), self.backup]):
            lines = self.audit(*words, status=2)
            self.assertIn(f"{empty}: no dump is below this directory", lines)
        self.audit(status=2, told="bsonkit: no dump is named\n")
        self.assertIn("argument --jobs: a number from 1", run_package("audit", self.backup, "--jobs", "0").stderr)
        self.audit("--list", "/missing", status=2, told="bsonkit: /missing: No such file or directory\n")
        self.assertEqual(run_package("audit", "--unknown").returncode, 2)
        self.assertEqual(run_package().returncode, 2)

    def test_program_that_is_not_there(self) -> None:
        run = run_package("--program", "no-such-program", "audit", self.backup)
        self.assertEqual((run.returncode, run.stdout), (2, ""))
        self.assertEqual(run.stderr, "bsonkit: cannot start no-such-program: No such file or directory\n")

    def test_progress_on_a_terminal(self) -> None:
        run, shown = run_on_terminal("audit", self.backup)
        self.assertEqual(run.stdout.count(b"\n"), 6)
        self.assertIn(b"1 of 2 files", shown)
        self.assertTrue(shown.endswith(b"\r\x1b[K"), shown)

    def test_progress_by_bytes(self) -> None:
        """After ten seconds three of ten gigabytes were read, so the other seven take 23 more."""
        self.assertEqual(progress_of(3_000_000_000, 10_000_000_000, 10), ["3.0 of 10.0 GB", "0:23 left"])
        self.assertEqual(progress_of(1_000_000, 10_000_000_000, 1), ["0.0 of 10.0 GB", "2:46:39 left"])
        self.assertEqual(progress_of(2_500_000, 5_000_000, 0.5), ["2.5 of 5.0 MB"])
        self.assertEqual(progress_of(10, 500, 0.1), ["10 of 500 bytes"])
        self.assertEqual(progress_of(0, 0, 3), [])

    def test_closed_standard_output(self) -> None:
        for words in ("audit", "--help", "--version", "audit --json"):
            line = f'exec "$0" -m bsonfind --program "$1" {words} "$2" >&-'
            command = ["sh", "-c", line, sys.executable, PROGRAM, self.backup]
            run = subprocess.run(command, env=environment(), stderr=subprocess.PIPE, text=True)
            self.assertEqual((run.returncode, run.stderr), (2, "bsonkit: cannot write: standard output is closed\n"))

    def test_closed_streams(self) -> None:
        line = 'exec "$0" -m bsonfind --program "$1" audit "$2" <&- 2>&-'
        run = subprocess.run(["sh", "-c", line, sys.executable, PROGRAM, self.backup], env=environment(), stdout=subprocess.PIPE)
        self.assertEqual((run.returncode, run.stdout.count(b"\n")), (0, 6))
        line = 'exec "$0" -m bsonfind --program missing audit "$2" <&- 2>&-'
        run = subprocess.run(["sh", "-c", line, sys.executable, PROGRAM, self.backup], env=environment(), stdout=subprocess.PIPE)
        self.assertEqual((run.returncode, run.stdout), (2, b""))

    def test_what_was_not_foreseen(self) -> None:
        code = f"""
import sys
from unittest import mock
from bsonfind import __main__
with mock.patch("bsonfind._backup.audit.audit_dumps", side_effect=ZeroDivisionError("by chance")):
    sys.exit(__main__.main(["audit", {self.backup!r}]))
"""
        run = subprocess.run([sys.executable, "-c", code], env=environment(), capture_output=True, text=True)
        self.assertEqual((run.returncode, run.stdout, run.stderr), (2, "", "bsonkit: ZeroDivisionError: by chance\n"))

    def test_version_and_program_after_the_command(self) -> None:
        for words in (("--version",), ("audit", "--version"), ("salvage", "--version")):
            run = run_package(*words)
            self.assertEqual((run.returncode, run.stdout), (0, f"bsonkit {(PEOPLE.parents[1] / 'VERSION').read_text()}"))
        run = run_package("audit", self.backup, "--program", "no-such-program")
        self.assertEqual(run.stderr, "bsonkit: cannot start no-such-program: No such file or directory\n")

    def test_full_disk(self) -> None:
        with open("/dev/full", "wb") as full:
            for words in ((), ("--json",), ("--help",), ("--version",)):
                run = run_package("audit", self.backup, *words, stdout=full)
                self.assertEqual((run.returncode, run.stderr), (2, "bsonkit: cannot write: No space left on device\n"))

    def test_output_that_no_one_reads(self) -> None:
        self.want_broken_pipe("audit", self.backup)

    def test_interrupt(self) -> None:
        for number in range(4):
            self.collection(PEOPLE.read_bytes(), str(number))
        self.interrupt_command("--program", self.stuck(), "audit", self.backup, "--jobs", "3", stuck=3)
        self.assertEqual(len((self.room / "pids").read_text().split()), 3)
