"""Tests of the command `unpack`, and of collections of an archive in place of a file."""

import asyncio
import errno
import gzip
import os
import signal
import subprocess
import sys
import threading
import time
from typing import Dict, List
from unittest import mock

from bsonfind import (
    AsyncSession,
    DumpError,
    PartError,
    Session,
    audit,
    check_parts,
    count_documents,
    count_parts,
    find,
    find_one,
    find_parts,
    plan,
    salvage,
    unpack,
)

from .archives import END, MAGIC, METADATA, archive, block, block_header, crc64, documents_of, end, header, listed, prelude
from .support import DOUBLE, PEOPLE, PEOPLE_LINES, PROGRAM, Room, environment, run_package, wait_for
from .test_archive import PEOPLE_DATA, SHOP_DATA, small
from .goods import GOODS

TWO = archive([("shop", "orders", SHOP_DATA), ("club", "people", PEOPLE_DATA)])


class Unpacks(Room):
    def files(self, directory: str = "out") -> Dict[str, bytes]:
        """What is below a directory."""
        root = self.room / directory
        return {str(path.relative_to(root)): path.read_bytes() for path in sorted(root.rglob("*")) if path.is_file()}

    def unpack(self, data: bytes, *words: str, status: int = 0, told: str = "") -> List[str]:
        """The lines that are printed of an archive, whose files go to `out`; in place of the names of both A and O."""
        path, out = str(self.file(data, "a")), str(self.room / "out")
        run = run_package("unpack", path, out, *words)
        self.assertEqual((run.returncode, self.named(run.stderr)), (status, told))
        return self.named(run.stdout).splitlines()

    def named(self, text: str) -> str:
        return text.replace(f"{self.room}/out", "O").replace(f"{self.room}/a", "A")

    def table(self, collections: int, documents: int, broken: int = 0) -> List[str]:
        rows = [("collections", collections), ("documents", documents), *([("not whole", broken)] if broken else [])]
        return [f"{name:11} {count:12}" for name, count in rows]

    def test_two_collections(self) -> None:
        """Whose blocks alternate: a file, one by gzip, a pipe by its name and standard input."""
        told = ["shop.orders: 400 documents to O/shop/orders.bson", "club.people: 500 documents to O/club/people.bson"]
        wanted = {
            "club/people.bson": PEOPLE_DATA,
            "club/people.metadata.json": (METADATA % "people").encode(),
            "shop/orders.bson": SHOP_DATA,
            "shop/orders.metadata.json": (METADATA % "orders").encode(),
        }
        for number, data in enumerate((TWO, gzip.compress(TWO))):
            self.assertEqual(self.unpack(data), [*told, *self.table(2, 900)])
            self.assertEqual(self.files(), wanted)
            pipe, out = self.room / f"pipe{number}", self.room / f"out{number}"
            os.mkfifo(pipe)
            writer = threading.Thread(target=pipe.write_bytes, args=[data])
            writer.start()
            self.assertEqual(run_package("unpack", str(pipe), str(out)).returncode, 0)
            writer.join()
            self.assertEqual(self.files(out.name), wanted)
            command = [sys.executable, "-m", "bsonfind", "unpack", "-"]
            subprocess.run(command, cwd=self.room, env=environment(), input=data, stdout=subprocess.PIPE, check=True)
            self.assertEqual(self.files("dump"), wanted)
            for name in ("out", "dump"):
                (self.room / name).rename(self.room / f"{name}{number}.old")

    def test_function(self) -> None:
        done = unpack(self.file(TWO, "a"), self.room / "out")
        self.assertEqual((done.is_good, done.error), (True, None))
        orders, people = done.collections
        self.assertEqual((orders.name, orders.documents, orders.size, orders.error), ("shop.orders", 400, len(SHOP_DATA), None))
        stem = f"{self.room}/out/club/people"
        self.assertEqual((people.path, people.metadata), (f"{stem}.bson", f"{stem}.metadata.json"))

    def test_other_kinds_of_collections(self) -> None:
        """An oplog, users of one database, a view, a time series and an empty one: a directory that is good by `audit`."""
        view = '{"options":{"viewOn":"people","pipeline":[]},"type":"view"}'
        data = prelude(
            listed("club", "people"),
            listed("club", "none"),
            listed("club", "seen", view, "view"),
            listed("club", "heat", '{"options":{"timeseries":{}},"type":"timeseries"}', "timeseries"),
            listed("club", "$admin.system.users", ""),
            listed("", "oplog", ""),
        )
        blocks = (
            ("club", "people", PEOPLE_DATA),
            ("club", "none", b""),
            ("club", "system.buckets.heat", small(2)),
            ("club", "$admin.system.users", small(3)),
            ("", "oplog", small(4, 5)),
        )
        data += b"".join((block(*it) if it[2] else b"") + end(*it) for it in blocks)
        lines = self.unpack(data)
        self.assertEqual(lines[-2:], self.table(7, 504))
        self.assertIn("oplog: 2 documents to O/oplog.bson", lines)
        wanted = {
            "club/$admin.system.users.bson": small(3),
            "club/heat.metadata.json": b'{"options":{"timeseries":{}},"type":"timeseries"}',
            "club/none.bson": b"",
            "club/none.metadata.json": b"{}",
            "club/people.bson": PEOPLE_DATA,
            "club/people.metadata.json": b"{}",
            "club/seen.metadata.json": view.encode(),
            "club/system.buckets.heat.bson": small(2),
            "oplog.bson": small(4, 5),
        }
        self.assertEqual(self.files(), wanted)
        for path in (self.room / "out", self.room / "a"):
            done = audit(path, program=PROGRAM)
            self.assertEqual((done.is_good, sum(it.documents for it in done.reports)), (True, 504), done)

    def test_names_that_are_escaped(self) -> None:
        """As `audit` reads them of a directory by mongodump."""
        names = "R&D | Sales", "a/b", "..", "陳", "é" * 100, "%24"
        self.unpack(archive([("shop", name, small(1)) for name in names]))
        stems = "R&D%20%7C%20Sales", "a%2Fb", "..", "%E9%99%B3", "%C3%A9" * 34 + "%C3%%24", "%2524"
        found = [name for name in self.files() if name.endswith(".bson")]
        self.assertEqual(len(found), len(names))
        for stem in stems:
            self.assertTrue(any(name.startswith(f"shop/{stem}") for name in found), stem)
        log = self.file("".join(f"done dumping shop.{name} (1 document)\n" for name in names).encode(), "log")
        done = audit(self.room / "out", expect=log, program=PROGRAM)
        self.assertEqual((done.is_good, sum(it.documents for it in done.reports)), (True, len(names)))

    def test_names_that_leave_the_directory(self) -> None:
        """Nothing is written for them, whether the list has them or a block alone."""
        for database in ("..", "../x", "/etc", "a\0b", "."):
            told = f"bsonkit: A: byte {len(MAGIC + header())}: no name of a database: {database!r}\n"
            self.assertEqual(self.unpack(prelude(listed(database, "x")), status=2, told=told), [])
            data = prelude(listed("a", "x")) + block(database, "x", small(1))
            told = f"bsonkit: A: byte {len(prelude(listed('a', 'x')))}: no name of a database: {database!r}\n"
            self.assertEqual(self.unpack(data, status=1, told=told), ["a.x: no end: no documents", *self.table(1, 0, 1)])
            self.assertEqual(sorted(self.files("")), ["a", "out/a/x.metadata.json"])
            (self.room / "out/a/x.metadata.json").unlink()
        above = prelude(listed("a", "../../x")) + block("a", "../../x", small(1)) + end("a", "../../x", small(1))
        self.unpack(above)
        self.assertEqual(sorted(self.files("")), ["a", "out/a/..%2F..%2Fx.bson", "out/a/..%2F..%2Fx.metadata.json"])

    def test_archive_that_was_cut(self) -> None:
        """At every byte: what is whole has its name and its bytes, other files have a beginning of theirs and end in .part."""
        data = archive([("a", "x", small(1, 2)), ("b", "y", small(3))], each=1)
        lists = len(prelude(*(listed(database, name, METADATA % name) for database, name in (("a", "x"), ("b", "y")))))
        documents = {"a/x": small(1, 2), "b/y": small(3)}
        for cut in range(len(data)):
            path, out = self.file(data[:cut], "a"), self.room / f"out{cut}"
            with self.subTest(cut):
                if cut < lists:
                    with self.assertRaises(DumpError):
                        unpack(path, out)
                    self.assertFalse(out.exists())
                    continue
                done = unpack(path, out)
                files = self.files(out.name)
                self.assertFalse(done.is_good)
                self.assertTrue(done.error and done.error.startswith(f"byte {cut}: the archive ends "))
                for it in done.collections:
                    name = it.name.replace(".", "/")
                    self.assertEqual(files.pop(f"{name}.metadata.json"), (METADATA % name[2:]).encode())
                    if it.error:
                        self.assertEqual(it.error, "no end")
                        self.assertNotIn(f"{name}.bson", files)
                        part = files.pop(f"{name}.bson.part", b"")
                        self.assertTrue(documents[name].startswith(part))
                        self.assertEqual((it.size, it.documents), (len(part), len(part) // len(small(1))))
                    else:
                        self.assertEqual(files.pop(f"{name}.bson"), documents[name])
                self.assertEqual(files, {})

    def test_what_is_told_of_one_that_was_cut(self) -> None:
        """`audit` of the directory reports the files that are not whole."""
        at = TWO.index(block_header("shop", "orders"), 100_000)
        told = f"bsonkit: A: byte {at + 5000}: the archive ends inside a block\n"
        lines = self.unpack(TWO[: at + 5000], status=1, told=told)
        orders, people = (len(documents_of(self.files()[f"{it}.bson.part"])) for it in ("shop/orders", "club/people"))
        # The last document of the last block was cut short.
        self.assertEqual(lines[0], f"shop.orders: no end: {orders - 1} documents to O/shop/orders.bson.part")
        self.assertEqual(lines[1], f"club.people: no end: {people} documents to O/club/people.bson.part")
        self.assertEqual(lines[2:], self.table(2, orders + people - 1, 2))
        run = run_package("audit", str(self.room / "out"))
        self.assertEqual(run.returncode, 1)
        for name in ("club/people", "shop/orders"):
            self.assertIn(f"O/{name}.bson.part: not whole: unpack left it so\n", self.named(run.stdout))
        self.assertEqual(run.stdout.count("\n"), 2 + 5)

    def test_gzip_that_was_cut(self) -> None:
        told = "bsonkit: A: not a sound file of gzip: it ends too soon\n"
        self.unpack(gzip.compress(TWO, 0)[:150_000], status=1, told=told)
        self.assertTrue(SHOP_DATA.startswith(self.files()["shop/orders.bson.part"]))

    def test_crc_that_is_wrong(self) -> None:
        data = TWO.replace(crc64(PEOPLE_DATA).to_bytes(8, "little"), bytes(8))
        lines = self.unpack(data, status=1)
        self.assertEqual(lines[1], "club.people: wrong CRC-64: 500 documents to O/club/people.bson.part")
        self.assertEqual(lines[2:], self.table(2, 900, 1))
        files = self.files()
        self.assertEqual((files["shop/orders.bson"], files["club/people.bson.part"]), (SHOP_DATA, PEOPLE_DATA))
        self.assertEqual(len(files), 4)
        (self.room / "out").rename(self.room / "old")
        lines = self.unpack(data, "--no-crc", told="bsonkit: no CRC-64 is compared, as --no-crc says\n")
        self.assertEqual(lines[1], "club.people: 500 documents to O/club/people.bson")

    def test_length_that_is_wrong(self) -> None:
        """What comes after it is not read; what was ended before is whole."""
        lists = prelude(listed("a", "x"), listed("a", "y"), listed("a", "z"))
        before = block("a", "x", small(1)) + end("a", "x", small(1)) + block_header("a", "y") + small(2, 3)
        told = f"bsonkit: A: byte {len(lists + before)}: bad length\n"
        lines = self.unpack(lists + before + b"\4\0\0\0" + END + end("a", "y", small(2, 3)), status=1, told=told)
        wanted = [
            "a.x: 1 documents to O/a/x.bson",
            "a.y: no end: 2 documents to O/a/y.bson.part",
            "a.z: no end: no documents",
        ]
        self.assertEqual(lines, [*wanted, *self.table(3, 3, 2)])

    def test_what_is_no_archive(self) -> None:
        for data in (b"", PEOPLE_DATA, gzip.compress(PEOPLE_DATA)):
            self.unpack(data, status=2, told="bsonkit: A: not an archive of mongodump\n")
        self.unpack(MAGIC + header("version") + END, status=2, told='bsonkit: A: byte 4: no field "version"\n')
        run = run_package("unpack", str(self.room / "none"))
        self.assertEqual((run.returncode, run.stderr), (2, f"bsonkit: {self.room}/none: No such file or directory\n"))
        self.assertEqual(sorted(os.listdir(self.room)), ["a"])

    def test_what_is_there_is_not_replaced(self) -> None:
        """A file of each name, one that was left not whole, and a link to nothing; before anything is written."""
        data = prelude(listed("a", "x")) + block("a", "x", small(1)) + end("a", "x", small(1))
        data += block("b", "y", small(1)) + end("b", "y", small(1))
        for name in ("a/x.bson", "a/x.metadata.json", "a/x.bson.part", "b/y.bson", "b/y.bson.part"):
            there = self.file(b"there", f"out/{name}")
            self.assertEqual(self.unpack(data, status=2, told=f"bsonkit: O/{name}: File exists\n"), [])
            self.assertEqual(self.files(), {name: b"there"})
            there.unlink()
        (self.room / "out/a/x.bson").symlink_to("nothing")
        self.unpack(data, status=2, told="bsonkit: O/a/x.bson: File exists\n")
        (self.room / "out/a/x.bson").unlink()
        self.unpack(data)
        self.assertEqual(sorted(self.files()), ["a/x.bson", "a/x.metadata.json", "b/y.bson"])

    def test_names_that_come_to_one_file(self) -> None:
        data = prelude(listed("", "x", ""), listed("$a", "x", "")) + block("", "x", small(1)) + block("$a", "x", small(2))
        self.assertEqual(self.unpack(data, status=2, told="bsonkit: O/x.bson.part: File exists\n"), [])
        self.assertFalse((self.room / "out").exists())

    def test_file_that_comes_meanwhile(self) -> None:
        """It appears while the archive is read, and stays; each file that was written is kept."""
        pipe, out = self.room / "pipe", self.room / "out"
        os.mkfifo(pipe)

        def write() -> None:
            with open(pipe, "wb") as file:
                file.write(TWO[:-300])
                file.flush()
                wait_for((out / "shop/orders.bson.part").exists)
                for name in ("shop/orders.bson", "club/people.metadata.json"):
                    self.file(b"there", f"out/{name}")
                file.write(TWO[-300:])

        writer = threading.Thread(target=write)
        writer.start()
        run = run_package("unpack", str(pipe), str(out))
        writer.join()
        told = ["shop.orders: O/shop/orders.bson: File exists: 400 documents to O/shop/orders.bson.part"]
        told += ["club.people: O/club/people.metadata.json: File exists: 500 documents to O/club/people.bson"]
        self.assertEqual((run.returncode, run.stderr), (1, ""))
        self.assertEqual(self.named(run.stdout).splitlines(), [*told, *self.table(2, 900, 2)])
        wanted = {
            "club/people.bson": PEOPLE_DATA,
            "club/people.metadata.json": b"there",
            "club/people.metadata.part": (METADATA % "people").encode(),
            "shop/orders.bson": b"there",
            "shop/orders.bson.part": SHOP_DATA,
            "shop/orders.metadata.json": (METADATA % "orders").encode(),
        }
        self.assertEqual(self.files(), wanted)

    def test_file_system_without_links(self) -> None:
        """Files are renamed there, where nothing has their names."""
        with mock.patch("os.link", side_effect=OSError(errno.EPERM, "no links")):
            done = unpack(self.file(TWO, "a"), self.room / "out")
            self.assertTrue(done.is_good)
            self.assertEqual(self.files()["shop/orders.bson"], SHOP_DATA)
            rename = os.rename

            def come(*names: str) -> None:
                rename(*names)
                self.file(b"there", "new/shop/orders.bson")

            with mock.patch("os.rename", side_effect=come):
                done = unpack(self.room / "a", self.room / "new")
        self.assertEqual([it.path for it in done.collections], [f"{self.room}/new/{it}" for it in ("shop/orders.bson.part", "club/people.bson")])
        self.assertEqual((self.files("new")["shop/orders.bson"], self.files("new")["shop/orders.bson.part"]), (b"there", SHOP_DATA))

    def test_full_device(self) -> None:
        """No file may have more than 100,000 bytes here, and then nothing is left. If standard output is full, the files are there."""
        path = str(self.file(TWO, "a"))
        command = [sys.executable, "-m", "bsonfind", "unpack", path, str(self.room / "out")]
        limited = ["bash", "-c", 'ulimit -f 100; exec "$@"', "bash", *command]
        run = subprocess.run(limited, env=environment(), stdout=subprocess.PIPE, stderr=subprocess.PIPE, text=True)
        told = f"bsonkit: {self.room}/out/shop/orders.bson: File too large\n"
        self.assertEqual((run.returncode, run.stdout, run.stderr), (2, "", told))
        self.assertEqual(os.listdir(self.room), ["a"])
        with open("/dev/full", "wb") as full:
            run = run_package("unpack", path, str(self.room / "out"), stdout=full)
        self.assertEqual((run.returncode, run.stderr), (2, "bsonkit: cannot write: No space left on device\n"))
        self.assertEqual((self.files()["shop/orders.bson"], self.files()["club/people.bson"]), (SHOP_DATA, PEOPLE_DATA))

    def test_directory_that_cannot_be(self) -> None:
        path = str(self.file(TWO, "a"))
        run = run_package("unpack", path, f"{path}/out")
        self.assertEqual((run.returncode, run.stderr), (2, f"bsonkit: {path}/out: Not a directory\n"))

    def test_read_that_fails(self) -> None:
        """What was read before is kept, as of an archive that was cut short."""
        reads = [TWO[:100_000], OSError(5, "Input/output error")]
        with mock.patch("bsonfind._dumps.sources.read_some", side_effect=reads):
            done = unpack(self.file(TWO, "a"), self.room / "out")
        self.assertEqual((done.is_good, done.error), (False, "Input/output error"))
        self.assertEqual([it.error for it in done.collections], ["no end"] * 2)

    def test_interrupts(self) -> None:
        """Ctrl-C and the signal of kill in the middle leave nothing."""
        for number, status in ((signal.SIGINT, 130), (signal.SIGTERM, 143)):
            out = self.room / "out"
            command = [sys.executable, "-m", "bsonfind", "unpack", "-", str(out)]
            streams = {"stdin": subprocess.PIPE, "stdout": subprocess.PIPE, "stderr": subprocess.PIPE}
            code = "import signal,sys,runpy\nsignal.signal(signal.SIGINT, signal.default_int_handler)\nsys.argv = sys.argv[1:]\n"
            command = [sys.executable, "-c", code + "runpy.run_module('bsonfind', run_name='__main__')", *command[2:]]
            python = subprocess.Popen(command, env=environment(), **streams)
            assert python.stdin
            python.stdin.write(TWO[:200_000])
            python.stdin.flush()
            wait_for((out / "club/people.bson.part").exists)
            time.sleep(0.2)
            python.send_signal(number)
            python.wait(60)
            told = python.communicate()
            self.assertEqual((python.returncode, told), (status, (b"", b"")))
            self.assertEqual(os.listdir(self.room), [])

    def test_little_memory(self) -> None:
        """An archive of 300 MB whose documents have 16 MB each, and one that announces such a document and ends."""
        long = (16_000_000).to_bytes(4, "little") + bytes(16_000_000 - 4)
        path = self.room / "a"
        with open(path, "wb") as file:
            file.write(prelude(listed("a", "x")) + block_header("a", "x"))
            for _ in range(20):
                file.write(long)
            file.write(END)
        command = [sys.executable, "-m", "bsonfind", "unpack", str(path), str(self.room / "out")]
        limited = ["sh", "-c", 'ulimit -S -v 131072; exec "$@"', "sh", *command]
        run = subprocess.run(limited, env=environment(), stdout=subprocess.PIPE, stderr=subprocess.PIPE, text=True)
        size = path.stat().st_size
        told = f"bsonkit: {path}: byte {size}: the archive ends before the end of a.x\n"
        self.assertEqual((run.returncode, run.stderr), (1, told))
        self.assertIn("a.x: no end: 20 documents to ", run.stdout)


class Audits(Room):
    """Audits of whole archives."""

    def audit(self, data: bytes, *words: str, status: int, name: str = "a") -> List[str]:
        """The lines of an audit of an archive, in place of whose name is A, but the last one, which says that ids were not compared."""
        path = self.file(data, name)
        run = run_package("audit", str(path), *words)
        self.assertEqual((run.returncode, run.stderr), (status, ""))
        lines = run.stdout.replace(str(path), "A").splitlines()
        return lines[:-1] if lines[-1].startswith("ids were not compared") else lines

    def test_each_collection(self) -> None:
        """By the names of the log of mongodump, in one pass, of a file of gzip too."""
        log = self.file(b"\tdone dumping shop.orders (400 documents)\n\tdone dumping club.people (500 documents)\n", "log")
        for data in (TWO, gzip.compress(TWO)):
            lines = self.audit(data, "--expect", str(log), status=0)
            told = ["A::club.people: 500 documents, 0 faulty", "A::shop.orders: 400 documents, 0 faulty"]
            self.assertEqual(sorted(lines[:2]), told)
            self.assertEqual(lines[2:], ["files                2", "documents          900", "faulty               0"])
        log.write_text("\tdone dumping shop.orders (401 documents)\n\tdumped 7 oplog entries\n")
        lines = self.audit(TWO, "--expect", str(log), status=1)[2:5]
        self.assertEqual(lines[0], "A::shop.orders: 400 documents in place of 401")
        self.assertEqual(lines[1:], ["A::club.people: not in the log", "oplog: missing, with 7 documents"])
        oplog = prelude(listed("", "oplog", "")) + block("", "oplog", small(*range(7))) + end("", "oplog", small(*range(7)))
        log.write_text("\tdumped 7 oplog entries\n")
        self.assertEqual(self.audit(oplog, "--expect", str(log), status=0)[0], "A::oplog: 7 documents, 0 faulty")

    def test_faults(self) -> None:
        """A fault has the document and the byte of its collection, also after a double, which is none."""
        people = bytearray(DOUBLE + PEOPLE_DATA)
        people[len(DOUBLE) + 100] = 0xFF
        data = archive([("shop", "orders", SHOP_DATA + DOUBLE), ("club", "people", bytes(people))], each=7)
        lines = self.audit(data, status=1)
        fault = f'document 1, byte {len(DOUBLE) + 100}, path "address.lines.0": not UTF-8'
        wanted = [
            "A::shop.orders: 401 documents, 0 faulty",
            f"A::club.people: {fault}",
            "A::club.people: 501 documents, 1 faulty",
        ]
        self.assertEqual(lines[:3], wanted)

    def test_what_is_not_whole(self) -> None:
        wrong = TWO.replace(crc64(PEOPLE_DATA).to_bytes(8, "little"), bytes(8))
        lines = self.audit(wrong, status=1)
        self.assertEqual(sorted(lines[:2]), ["A::club.people: wrong CRC-64", "A::shop.orders: 400 documents, 0 faulty"])
        self.assertEqual(lines[-1], "not read             1")
        cut = TWO.index(block_header("club", "people"), 100_000)
        for data, byte in ((TWO[:cut], cut), (TWO[: cut + 7], cut + 7)):
            lines = self.audit(data, status=1)
            found = [line for line in lines if line.startswith("A")]
            self.assertEqual(found[-3:-1], ["A::club.people: no end", "A::shop.orders: no end"])
            self.assertTrue(found[-1].startswith(f"A: byte {byte}: the archive ends "), found[-1])
            self.assertEqual(lines[-1], "not read             3")
        done = audit(self.file(MAGIC + header("version"), "a"), program=PROGRAM)
        self.assertEqual([(it.name, it.error) for it in done.reports], [(f"{self.room}/a", 'byte 4: no field "version"')])

    def test_metadata(self) -> None:
        names = "good", "bare", "torn", "list", "system.indexes", "$admin.system.users"
        texts = "{}", "", '{"a":', "[]", "", ""
        lists = prelude(*(listed("a", name, text) for name, text in zip(names, texts)), listed("a", "seen", "{}", "view"))
        lines = self.audit(lists + b"".join(end("a", name, b"") for name in names), status=1)
        told = [line for line in lines if ": metadata: " in line]
        wanted = ["bare: metadata: none in the archive", "list: metadata: not a document"]
        self.assertEqual(told, [f"A::a.{it}" for it in [*wanted, "torn: metadata: Expecting value: line 1 column 6 (char 5)"]])
        self.assertEqual(lines[-1], "without metadata            3")

    def test_as_many_collections_as_are_read_at_once(self) -> None:
        """One more is refused."""
        for more, told in ((0, "0 documents"), (1, "more than 64 collections at once: unpack it")):
            names = [f"x{number}" for number in range(64 + more)]
            data = prelude(*(listed("a", name) for name in names))
            data += b"".join(block("a", name, small(1)) for name in names) + b"".join(end("a", name, small(1)) for name in names)
            path = self.file(data, "a")
            done = audit(path, program=PROGRAM)
            self.assertEqual([it.error for it in done.unread if it.name == str(path)], [told] * more)
            self.assertEqual(sum(it.documents for it in done.reports), 64)

    def test_program_that_fails(self) -> None:
        """The rest of the archive is read nevertheless, and an end of all of it ends all."""
        killed = self.wide('[ "$(head -c 4 | wc -c)" = 4 ] && kill -9 $$; exec "$WIDE" "$@" </dev/null')
        done = audit(self.file(TWO, "a"), program=killed)
        self.assertEqual([it.error for it in done.reports], ["ended by signal 9"] * 2)
        path = str(self.file(archive([("shop", "orders", SHOP_DATA)]), "a"))
        empty = '[ "$1" = --version ] && exec "$WIDE" --version; [ "$(head -c 4 | wc -c)" = 4 ] || exec "$WIDE" check /dev/null'
        stuck = self.wide(f'{empty}\necho $$ >>"$ROOM/pids"\nexec sleep 600')
        self.interrupt_command("--program", stuck, "audit", path)


class Members(Room):
    """Collections of an archive where a file is named."""

    def setUp(self) -> None:
        super().setUp()
        self.plain, self.packed = self.file(TWO, "a"), self.file(gzip.compress(TWO), "b.gz")
        self.people = [f"{it}::club.people" for it in (self.plain, self.packed)]

    def test_questions(self) -> None:
        wanted = [line for line in PEOPLE_LINES if b'"age":{"$numberInt":"99"}' in line]
        self.assertEqual(len(wanted), 5)
        for path in self.people:
            self.assertEqual(list(find(path, {"age": 99}, decode="bytes", program=PROGRAM)), wanted)
            self.assertEqual(find_one(path, {"age": 99}, decode="bytes", program=PROGRAM), wanted[0])
            self.assertEqual(count_documents(path, {"age": 99}, program=PROGRAM), 5)
            with Session(path, PROGRAM) as session:
                self.assertEqual(list(session.find({"age": 99}, decode="bytes")), wanted)
            self.assertEqual(asyncio.run(counted(path)), 5)

    def test_parts(self) -> None:
        for path in self.people:
            parts = plan(path, 30_000)
            self.assertEqual([it.length for it in parts], [it.length for it in plan(PEOPLE, 30_000)])
            self.assertEqual(count_parts(parts, {"age": 99}, program=PROGRAM), 5)
            self.assertEqual(check_parts(parts, program=PROGRAM).documents, 500)
            found = find_parts(parts, {"age": 99}, decode="bytes", program=PROGRAM)
            self.assertEqual(found, list(find(PEOPLE, {"age": 99}, decode="bytes", program=PROGRAM)))
        parts = plan(self.people[0])
        self.file(TWO + b"\0", "a")
        with self.assertRaisesRegex(PartError, "written to since it was cut"):
            count_parts(parts, program=PROGRAM)

    def test_commands(self) -> None:
        path = self.people[0]
        lines = run_package("audit", *self.people).stdout.splitlines()
        self.assertEqual(lines[2:-1], ["files                2", "documents         1000", "faulty               0"])
        run = run_package("compare", path, str(PEOPLE))
        self.assertEqual((run.returncode, run.stdout), (0, ""))
        run = run_package("query", path, "--query", '{"age":99}')
        self.assertEqual((run.returncode, run.stdout.count(f"{path}\t")), (0, 5))
        ids = self.file(b'{"$numberInt":"7"}\n{"$numberInt":"700"}\n', "ids")
        run = run_package("ids", path, "--ids", str(ids))
        self.assertEqual((run.returncode, run.stdout), (1, PEOPLE_LINES[7].decode() + "\n"))
        good, bad = self.room / "good", self.room / "bad"
        done = salvage(path, good, bad, program=PROGRAM)
        self.assertEqual((done.good, done.bad, good.read_bytes()), (500, 0, PEOPLE_DATA))
        for name in (good, bad):
            words = {"--good": str(good), "--bad": str(bad), f"--{name.name}": str(self.plain)}
            run = run_package("salvage", path, *(it for pair in words.items() for it in pair))
            self.assertEqual((run.returncode, run.stderr), (2, f"bsonkit: {self.plain} is the dump\n"))
        self.assertEqual(self.plain.read_bytes(), TWO)

    def test_doubles(self) -> None:
        """What is given back are the documents of the archive, byte for byte."""
        data = b"".join(GOODS)
        path = f"{self.file(archive([('shop', 'goods', data)], each=1), 'goods')}::shop.goods"
        query, wanted = {"price": {"$gt": {"$numberDouble": "9.25"}}}, [GOODS[3], GOODS[2], GOODS[0]]
        self.assertEqual(list(find(path, query, sort={"price": -1}, decode="bson", program=PROGRAM)), wanted)
        self.assertEqual(count_documents(path, query, program=PROGRAM), 3)
        with Session(path, PROGRAM) as session:
            self.assertEqual(list(session.find(query, sort={"price": -1}, decode="bson")), wanted)
        good = self.room / "good"
        done = salvage(path, good, self.room / "bad", program=PROGRAM)
        self.assertEqual((done.is_good, good.read_bytes()), (True, data))

    def test_salvage_of_one_that_was_cut(self) -> None:
        """Each whole document before the end is copied."""
        at = TWO.index(block_header("club", "people"), 100_000)
        name = self.file(TWO[: at + 5000], "cut")
        good, bad = self.room / "good", self.room / "bad"
        done = salvage(f"{name}::club.people", good, bad, program=PROGRAM)
        self.assertEqual((done.bad, done.error, len(done.left_out)), (0, f"byte {at + 5000}: the archive ends inside a block", 1))
        self.assertTrue(PEOPLE_DATA.startswith(good.read_bytes()) and done.good > 200)

    def test_files_with_such_names(self) -> None:
        """A file that is there is that file; a name of no archive is that of no file; the last sign may be of the archive."""
        people = self.file(PEOPLE_DATA, "a::shop.orders")
        self.assertEqual(count_documents(people, program=PROGRAM), 500)
        odd = self.file(TWO, "c::d")
        self.assertEqual(count_documents(f"{odd}::shop.orders", program=PROGRAM), 400)
        for name in ("none::club.people", "a::", "::club.people", "x::y.bson"):
            with self.assertRaisesRegex(DumpError, f"cannot open .*{name}"):
                count_documents(self.room / name, program=PROGRAM)

    def test_collections_that_are_not_there(self) -> None:
        for name, told in (("club.nobody", "club.nobody is not in the archive"), ("oplog", "oplog is not in the archive")):
            with self.assertRaises(DumpError) as caught:
                count_documents(f"{self.plain}::{name}", program=PROGRAM)
            self.assertEqual(str(caught.exception), told)

    def test_whole_archives_where_a_dump_is_read(self) -> None:
        """Are refused, each with what to do."""
        good, bad = str(self.room / "good"), str(self.room / "bad")
        for path in (self.plain, self.packed):
            told = f"an archive: name one of its collections, {path}::db.collection, or unpack it"
            output = ["salvage", "--good", good, "--bad", bad]
            for words in (["query"], ["compare", str(PEOPLE)], ["find"], ["dump"], ["serve"], output):
                run = run_package(words[0], str(path), *words[1:])
                status = 1 if words[0] in ("dump", "find", "serve") else 2
                self.assertEqual((run.returncode, f"{told}\n" in run.stderr), (status, True), run.stderr)
            for ask in (count_documents, lambda path, program: list(find(path, program=program)), Session, plan_and_count):
                with self.assertRaises(DumpError) as caught:
                    ask(path, program=PROGRAM)
                self.assertEqual(str(caught.exception), told)

    def test_damage_is_an_error_of_the_question(self) -> None:
        """No answer is given of a collection that is not whole."""
        wrong = self.file(TWO.replace(crc64(PEOPLE_DATA).to_bytes(8, "little"), bytes(8)), "wrong")
        for ask in (count_documents, lambda path, program: list(find(path, program=program)), Session, plan_and_count):
            with self.assertRaisesRegex(DumpError, "wrong CRC-64"):
                ask(f"{wrong}::club.people", program=PROGRAM)
        self.assertEqual(count_documents(f"{wrong}::shop.orders", program=PROGRAM), 400)


async def counted(path: str) -> int:
    """How many people are of an age, by a session for asyncio."""
    async with AsyncSession(path, PROGRAM) as session:
        return await session.count_documents({"age": 99})


def plan_and_count(path: str, program: str) -> int:
    """How many documents the parts of a dump have."""
    return count_parts(plan(path), program=program)
