"""Tests of the command `compare`."""

import gzip
import json
import os
import random
import struct
import tracemalloc
from pathlib import Path
from typing import List, Tuple
from unittest import mock

from bsonfind._backup.compare import CompareError, Pair, Sorter, compare
from bsonfind._dumps.elements import values_at

from .archives import archive
from .bson import document, field, int32, text
from .support import DAMAGED, PEOPLE, PEOPLE_LINES, PROGRAM, SHOP, SHOP_LINES, Room, packed, run_package

Rows = Tuple[Tuple[str, int], ...]


def table(*rows: Tuple[str, int]) -> List[str]:
    """The lines of a table."""
    wide = max(len(name) for name, _ in rows)
    return [f"{name:{wide}} {count:12}" for name, count in rows]


class Compares(Room):
    def dump(self, *lines: str, name: str) -> str:
        """A dump of lines."""
        return str(self.file(packed(lines), name))

    def compared(self, *words: str, status: int, told: str = "") -> List[str]:
        """The lines of what differs, and those of the counts, which are on standard error before what is wrong."""
        run = run_package("compare", *words)
        counts, _, problems = run.stderr.partition("bsonkit: ")
        self.assertEqual((run.returncode, f"bsonkit: {problems}" if problems else ""), (status, told))
        return [*run.stdout.splitlines(), *counts.splitlines()]

    def rows(self, one: str, other: str, documents: Tuple[int, int], *counts: int, more: Rows = ()) -> List[str]:
        """The table of counts: the same, changed, removed and added, and others."""
        named = zip((f"documents in {one}", f"documents in {other}"), documents)
        return table(*named, *zip(("same", "changed", "removed", "added"), counts), *more)

    def test_the_same_in_another_order(self) -> None:
        lines = [line.decode() for line in SHOP_LINES]
        random.Random(1).shuffle(lines)
        other = self.dump(*lines, name="other.bson")
        shop, packed_shop = str(SHOP), str(self.file(gzip.compress(SHOP.read_bytes()), "shop.bson.gz"))
        for one, two in ((shop, other), (other, packed_shop), (shop, shop)):
            self.assertEqual(self.compared(one, two, status=0), self.rows(one, two, (400, 400), 400, 0, 0, 0))

    def test_what_was_changed_removed_and_added(self) -> None:
        lines = [line.decode() for line in PEOPLE_LINES]
        changed = lines[1].replace('"95"', '"96"')
        other = self.dump(*lines[5:], changed, lines[0], *lines[2:4], '{"_id":500,"name":"Ada"}', name="other.bson")
        found = self.compared(str(PEOPLE), other, status=1)
        self.assertEqual(found[:3], ['changed {"$numberInt":"1"}', 'removed {"$numberInt":"4"}', 'added {"$numberInt":"500"}'])
        self.assertEqual(found[3:], self.rows(str(PEOPLE), other, (500, 500), 498, 1, 1, 1))
        found = self.compared(other, str(PEOPLE), status=1)
        self.assertEqual(found[:3], ['changed {"$numberInt":"1"}', 'added {"$numberInt":"4"}', 'removed {"$numberInt":"500"}'])

    def test_fields_in_another_order_and_other_types_are_changes(self) -> None:
        one = self.dump('{"_id":1,"a":1,"b":2}', '{"_id":2,"a":1}', name="one.bson")
        two = self.dump('{"_id":1,"b":2,"a":1}', '{"_id":2,"a":{"$numberLong":"1"}}', name="two.bson")
        self.assertEqual(self.compared(one, two, status=1)[-6:], self.rows(one, two, (2, 2), 0, 2, 0, 0))

    def test_by_another_path(self) -> None:
        one = self.dump('{"_id":1,"a":{"b":[1]},"c":1}', '{"_id":2,"a":{"b":"x"},"c":2}', '{"_id":3,"a":{"d":1}}', name="one.bson")
        lines = '{"_id":1,"a":{"b":[1]},"c":7}', '{"_id":9,"a":{"b":"y\\t"},"c":2}', '{"_id":4,"a":[{"b":1}]}'
        two = self.dump(*lines, name="two.bson")
        found = self.compared(one, two, "--by", "a.b", status=1)
        self.assertEqual(
            found[:5],
            [
                "without a.b: 1 and 0 documents, 1 removed, 0 added", 'removed "x"', 'added "y\\t"', 'changed [{"$numberInt":"1"}]',
                'added {"$numberInt":"1"}',
            ],
        )  # fmt: skip
        self.assertEqual(found[5:], self.rows(one, two, (3, 3), 0, 1, 2, 2, more=(("without a.b", 1),)))

    def test_paths_through_arrays(self) -> None:
        """A path leads where a query leads: into each document of an array, and to the element at a position; several values are an array."""
        one, two = self.dump('{"a":[{"b":1}],"c":1}', name="one.bson"), self.dump('{"a":[{"b":1}],"c":2}', name="two.bson")
        for path in ("a.b", "a.0.b"):
            self.assertEqual(self.compared(one, two, "--by", path, status=1)[0], 'changed {"$numberInt":"1"}')
        one, two = self.dump('{"t":["x",[7]],"a":[{"b":1},{"b":2}]}', name="one.bson"), self.dump('{"a":[{"b":1},{"b":2}],"t":["x",[7]]}', name="two.bson")
        for path, key in (("t.0", '"x"'), ("t.1.0", '{"$numberInt":"7"}'), ("a.b", '[{"$numberInt":"1"},{"$numberInt":"2"}]')):
            self.assertEqual(self.compared(one, two, "--by", path, status=1)[0], f"changed {key}")
        for path in ("t.00", "t.2", "a.2.b"):
            self.assertEqual(self.compared(one, two, "--by", path, status=1)[0], f"without {path}: 1 and 1 documents, 1 removed, 1 added")
        self.assertEqual(self.compared(one, two, "--by", "", status=2, told='bsonkit: path "": empty component\n'), [])

    def test_values_of_damaged_documents(self) -> None:
        """A path is followed before a document is checked, up to what is no field."""
        data, rng = document(field(0x04, "a", document(field(0x03, "0", document(field(0x10, "b", int32(1))))))), random.Random(1)
        for _ in range(20_000):
            damaged = bytearray(data)
            damaged[rng.randrange(len(data))] = rng.randrange(256)
            damaged[rng.randrange(len(data))] = rng.choice((0, 3, 4, 255))
            for names in ([b"a", b"b"], [b"a", b"0", b"b"]):
                self.assertLessEqual(len(values_at(bytes(damaged), names)), 2)

    def test_no_directory_for_temporary_files(self) -> None:
        with mock.patch("tempfile.TemporaryFile", side_effect=FileNotFoundError(2, "No usable temporary directory found")), \
                mock.patch("tempfile.gettempdir", side_effect=FileNotFoundError(2, "No usable temporary directory found")), \
                mock.patch("bsonfind._backup.compare._MOST_LINES", 10), self.assertRaises(CompareError) as raised:  # fmt: skip
            compare(Pair("people", str(PEOPLE), str(PEOPLE)), "_id", PROGRAM, print)
        told = "No usable temporary directory found: cannot sort: no directory takes temporary files: TMPDIR names one"
        self.assertEqual(str(raised.exception), f"{PEOPLE}: {told}")

    def test_keys_of_several_documents(self) -> None:
        one = self.dump('{"_id":1,"a":1}', '{"_id":1,"a":2}', '{"_id":1,"a":2}', '{"_id":2}', '{"a":1}', name="one.bson")
        two = self.dump('{"_id":2}', '{"_id":1,"a":2}', '{"_id":1,"a":3}', '{"_id":2}', '{"a":1}', name="two.bson")
        found = self.compared(one, two, status=1)
        int1, int2 = '{"$numberInt":"1"}', '{"$numberInt":"2"}'
        lines = ["without _id: 1 and 1 documents, 0 removed, 0 added"]
        lines += [f"repeated {int1}: 3 and 2 documents", f"changed {int1}", f"removed {int1}"]
        lines += [f"repeated {int2}: 1 and 2 documents", f"added {int2}"]
        self.assertEqual(found[:6], lines)
        more = ("with the _id of another", 7), ("without _id", 2)
        self.assertEqual(found[6:], self.rows(one, two, (5, 5), 3, 1, 1, 1, more=more))

    def test_directories(self) -> None:
        for name, data in {
            "a/shop/orders.bson": SHOP.read_bytes(), "b/shop/orders.bson.gz": gzip.compress(SHOP.read_bytes()[:99809]),
            "a/club/people.bson.gz": gzip.compress(PEOPLE.read_bytes()), "b/club/people.bson": PEOPLE.read_bytes(),
            "a/club/old.bson": PEOPLE.read_bytes()[:39978], "b/club/new.bson": b"",
        }.items():  # fmt: skip
            self.file(data, name)
        one, two = str(self.room / "a"), str(self.room / "b")
        found = self.compared(one, two, status=1)
        ids = sorted(json.dumps(json.loads(line)["_id"], separators=(",", ":")) for line in SHOP_LINES[309:])
        orders = [f"shop/orders.bson: removed {it}" for it in ids]
        alone = ["club/new.bson: added with all of its 0 documents", "club/old.bson: removed with all of its 220 documents"]
        self.assertEqual(found[:-7], alone + orders)
        more = (("dumps of one alone", 2),)
        self.assertEqual(found[-7:], self.rows(one, two, (1120, 809), 809, 0, 311, 0, more=more))
        self.assertEqual(len(self.compared(one, one, status=0)), 6)

    def test_archives(self) -> None:
        """Two archives, and one with a directory, of which each has what the other lacks; packed by gzip too."""
        people, shop = PEOPLE.read_bytes(), SHOP.read_bytes()
        all_ = [("club", "people", people), ("shop", "orders", shop), ("club", "a/b", people[:39978]), ("club", "none", b"")]
        part = [("club", "people", people[39978:]), ("shop", "orders", shop), ("club", "new", b"")]
        one = str(self.file(archive(all_), "one.archive"))
        two = str(self.file(gzip.compress(archive(part, 7)), "two.archive.gz"))
        for directory, collections in (("one", all_), ("two", part)):
            for database, name, data in collections:
                self.file(data, f"{directory}/{database}/{name.replace('/', '%2F')}.bson")
        # In the order of the bytes of their ids.
        numbers = sorted(range(220), key=int32)
        lines = ["club/a%2Fb.bson: removed with all of its 220 documents", "club/new.bson: added with all of its 0 documents"]
        lines += ["club/none.bson: removed with all of its 0 documents"]
        lines += [f'club/people.bson: removed {{"$numberInt":"{number}"}}' for number in numbers]
        for first, second in ((one, two), (one, str(self.room / "two")), (str(self.room / "one"), two)):
            found = self.compared(first, second, status=1)
            self.assertEqual(found[:-7], lines)
            self.assertEqual(found[-7:], self.rows(first, second, (1120, 680), 680, 0, 440, 0, more=(("dumps of one alone", 3),)))
        for first, second in ((one, one), (one, str(self.room / "one")), (str(self.room / "two"), two)):
            documents = 1120 if first == one else 680
            self.assertEqual(self.compared(first, second, status=0), self.rows(first, second, (documents, documents), documents, 0, 0, 0))
        found = self.compared(two, two, "--by", "address.city", status=0)
        self.assertIn("without address.city: 56 and 56 documents, 0 removed, 0 added", "".join(it.partition(": ")[2] for it in found[:1]))

    def test_archives_that_are_damaged(self) -> None:
        """What is not whole is no part of the counts, and the others are compared."""
        people, shop = PEOPLE.read_bytes(), SHOP.read_bytes()
        whole = str(self.file(archive([("club", "people", people), ("shop", "orders", shop)]), "whole.archive"))
        bad = str(self.file(archive([("club", "people", people + DAMAGED), ("shop", "orders", shop)]), "bad.archive"))
        told = f'bsonkit: {bad}::club.people: document 500, byte 92733, path "d": bad boolean\n'
        for first, second in ((whole, bad), (bad, whole)):
            self.assertEqual(self.compared(first, second, status=2, told=told), self.rows(first, second, (400, 400), 400, 0, 0, 0))
        cut = str(self.file(Path(whole).read_bytes()[:-5], "cut.archive"))
        run = run_package("compare", whole, cut)
        self.assertEqual(run.returncode, 2)
        self.assertIn(f"bsonkit: {cut}::club.people: no end\n", run.stderr)
        self.assertIn(f"bsonkit: {cut}: byte {os.path.getsize(cut)}: the archive ends inside a block\n", run.stderr)

    def test_doubles(self) -> None:
        """By their texts: 0.0, -0.0, 1.0 and, as decimal128 and int32, 1, 1.00 and 1 are six values."""

        def document(place: int, value: bytes) -> bytes:
            body = b"\x10_id\0" + bytes([place, 0, 0, 0]) + value[:1] + b"v\0" + value[1:]
            return (len(body) + 5).to_bytes(4, "little") + body + b"\0"

        decimals = [(coefficient | power << 113).to_bytes(16, "little") for coefficient, power in ((1, 6176), (100, 6174))]
        values = [*(b"\x01" + struct.pack("<d", it) for it in (0.0, -0.0, 1.0)), *(b"\x13" + it for it in decimals), b"\x10\1\0\0\0"]
        documents = [document(*it) for it in enumerate(values)]
        one, two = (str(self.file(b"".join(it), name)) for it, name in ((documents, "one.bson"), (reversed(documents), "two.bson")))
        self.assertEqual(self.compared(one, two, status=0), self.rows(one, two, (6, 6), 6, 0, 0, 0))
        other = str(self.file(b"".join(document(*it) for it in enumerate(values[1:] + values[:1])), "other.bson"))
        found = self.compared(one, other, status=1)
        self.assertEqual(found[:6], [f'changed {{"$numberInt":"{place}"}}' for place in range(6)])
        self.assertEqual(found[6:], self.rows(one, other, (6, 6), 0, 6, 0, 0))

    def test_documents_like_values(self) -> None:
        """A value, and a document that has the same text, are not the same, at any path."""
        double, like = field(1, "v", struct.pack("<d", 1.5)), document(field(2, "$numberDouble", text("1.5")))
        oid, like_oid = field(7, "v", bytes(12)), document(field(2, "$oid", text("0" * 24)))
        pairs = [(double, field(3, "v", like)), (oid, field(3, "v", like_oid))]
        ids = [field(16, "_id", int32(number)) for number in range(4)]
        one = [document(id_, value) for id_, (value, _) in zip(ids, pairs)]
        two = [document(id_, other) for id_, (_, other) in zip(ids, pairs)]
        # One and the same text, and as many bytes.
        one += [document(ids[2], double, field(3, "w", like)), document(ids[3], double)]
        two += [document(ids[2], field(3, "v", like), field(1, "w", struct.pack("<d", 1.5))), document(ids[3], double)]
        names = [str(self.file(b"".join(it), name)) for it, name in ((one, "one.bson"), (two, "two.bson"))]
        found = self.compared(*names, status=1)
        self.assertEqual(found[:3], [f'changed {{"$numberInt":"{number}"}}' for number in range(3)])
        self.assertEqual(found[3:], self.rows(*names, (4, 4), 1, 3, 0, 0))
        for name in names:
            self.assertEqual(self.compared(name, name, status=0), self.rows(name, name, (4, 4), 4, 0, 0, 0))

    def test_pieces_of_any_size(self) -> None:
        """Documents are found where what is read at once ends inside of them, a long one among them."""
        data = SHOP.read_bytes() + packed(['{"_id":1,"text":"%s"}' % ("x" * 3000)])
        one, two = str(self.file(data, "one.bson")), str(self.file(data, "two.bson"))
        for size in (7, 1000):
            with mock.patch("bsonfind._dumps.sources._PIECE", size):
                done = compare(Pair("", one, two), "_id", PROGRAM, self.fail)
            self.assertEqual((done.documents, done.kinds["same"]), ((401, 401), 401))

    def test_what_cannot_be_compared(self) -> None:
        bad = str(self.file(PEOPLE.read_bytes() + DAMAGED, "a/club/people.bson"))
        self.file(PEOPLE.read_bytes(), "b/club/people.bson")
        self.file(SHOP.read_bytes(), "a/orders.bson")
        orders = self.file(SHOP.read_bytes()[:99809], "b/orders.bson")
        (self.room / "b/lost").symlink_to("nothing")
        missing, one, two = str(self.room / "missing.bson"), str(self.room / "a"), str(self.room / "b")
        damage = f'bsonkit: {bad}: document 500, byte 92733, path "d": bad boolean\n'
        self.assertEqual(self.compared(bad, str(PEOPLE), status=2, told=damage), [])  # No zeros: nothing was compared.
        self.compared(missing, bad, status=2, told=f"bsonkit: {missing}: No such file or directory\n")
        self.compared(one, bad, status=2, told=f"bsonkit: {bad} is no directory, and {one} is one\n")
        whole = str(self.file(archive([("club", "people", PEOPLE.read_bytes())]), "all.archive"))
        told = f"bsonkit: {whole}: an archive: name one of its collections, {whole}::db.collection, or unpack it\n"
        self.compared(whole, str(PEOPLE), status=2, told=told)
        told = f"bsonkit: {two}/lost: a link to nothing that can be seen\n{damage}"
        found = self.compared(one, two, status=2, told=told)
        self.assertEqual(len(found), 91 + 6)  # The others are compared nevertheless.
        for name in ("empty", "other"):
            (self.room / name).mkdir()
        empty, other = str(self.room / "empty"), str(self.room / "other")
        told = "".join(f"bsonkit: {name}: no dump is below this directory\n" for name in (empty, other))
        self.compared(empty, other, status=2, told=told)
        run = run_package("--program", "no-such-program", "compare", one, two)
        self.assertEqual((run.returncode, run.stderr), (2, "bsonkit: cannot start no-such-program: No such file or directory\n"))
        half = self.file(gzip.compress(SHOP.read_bytes(), 0)[:50_000], "half.bson.gz")
        run = run_package("compare", str(half), str(orders))
        self.assertEqual(run.returncode, 2)
        self.assertIn(f"bsonkit: {half}: ", run.stderr)

    def test_files_larger_than_what_a_run_reads(self) -> None:
        """With a largest input of 10,000 bytes, and runs of 7 lines."""
        other = self.file(PEOPLE.read_bytes()[39978:] + PEOPLE.read_bytes()[:39978])
        with mock.patch("bsonfind._dumps.framing.LARGEST_INPUT", 10_000), mock.patch("bsonfind._backup.compare._MOST_LINES", 7):
            with mock.patch("bsonfind._backup.compare._MOST_RUNS", 5):
                done = compare(Pair("", str(PEOPLE), str(other)), "_id", PROGRAM, self.fail)
        self.assertTrue(done.is_same)
        self.assertEqual((done.documents, done.kinds["same"]), ((500, 500), 500))

    def test_memory_does_not_grow_with_the_dump(self) -> None:
        """What is in memory is bounded by bytes, of which both dumps have more."""
        peaks = []
        for count in (3000, 12_000):
            path = self.dump(*(f'{{"_id":{number},"text":"{"x" * 500}"}}' for number in range(count)), name=f"{count}.bson")
            small = mock.patch.multiple("bsonfind._backup.compare", _MOST_LINES=500, _MOST_RUNS=8)
            with small, mock.patch("bsonfind._dumps.sources._PIECE", 10_000):
                tracemalloc.start()
                compare(Pair("", path, path), "_id", PROGRAM, self.fail)
                peaks.append(tracemalloc.get_traced_memory()[1])
                tracemalloc.stop()
        self.assertLess(peaks[1], 1.5 * peaks[0])


class Large(Room):
    def test_larger_than_what_a_run_reads(self) -> None:
        """With a largest input of 30,000 bytes in place of 4,294,967,295: what differs, and a fault with its place in the dump."""
        data, changed = PEOPLE.read_bytes(), packed([line.decode() for line in PEOPLE_LINES[1:]])
        pair = Pair("people", str(PEOPLE), str(self.file(changed)))
        bad = Pair("people", str(PEOPLE), str(self.file(data + DAMAGED, "bad.bson")))
        with mock.patch("bsonfind._dumps.framing.LARGEST_INPUT", 30_000):
            said: List[str] = []
            done = compare(pair, "_id", PROGRAM, said.append)
            self.assertEqual((said, done.documents, done.kinds["same"]), (['removed {"$numberInt":"0"}'], (500, 499), 499))
            with self.assertRaisesRegex(CompareError, f'document 500, byte {len(data) + 7}, path "d": bad boolean'):
                compare(bad, "_id", PROGRAM, said.append)


class Lines(Room):
    def test_sorted_lines(self) -> None:
        chance = random.Random(4)
        lines = [os.urandom(chance.randrange(9)).replace(b"\n", b"") + b"\n" for _ in range(2000)]
        for most, runs in ((1, 2), (7, 3), (100, 64), (5000, 64)):
            with mock.patch.multiple("bsonfind._backup.compare", _MOST_LINES=most, _MOST_RUNS=runs), Sorter() as sorter:
                for line in lines:
                    sorter.add(line)
                self.assertEqual(list(sorter.all()), sorted(lines))
