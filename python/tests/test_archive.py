"""Tests of archives: their frames, the CRC-64, and the collections that are taken out of them."""

import gzip
import os
import random
import re
import unittest
from typing import Dict, Iterator, List, Tuple
from unittest import mock

from bsonfind import BsonfindError, DumpError, UnpackError
from bsonfind._backup.backups import stem_of
from bsonfind._dumps.archive import Archive, Documents, documents_of, is_archive
from bsonfind._dumps.archive_frames import Namespace
from bsonfind._dumps.crc64 import Crc64

from .archives import END, MAGIC, archive, block, block_header, crc64, end, header, listed, prelude, string
from .archives import documents_of as dump_documents
from .bson import document, field, int32
from .support import PEOPLE, ROOT, SHOP

# By Go's `hash/crc64` over the first bytes of those whose number i is i*i/8 + i, the table being crc64.ECMA.
GO = {
    0: 0x0,
    1: 0x1FADA17364673F59,
    65535: 0x3F0AFBA8E6B2535D,
    65536: 0xD94D883A1120EE81,
    65537: 0x6536F7D08A564F9A,
    131072: 0xE3FB8DB57712DAE2,
    200000: 0x50609263B041B8B6,
    1000000: 0x887D69F607888CD5,
}
PEOPLE_DATA, SHOP_DATA = PEOPLE.read_bytes(), SHOP.read_bytes()
ORDERS, CLUB = Namespace("shop", "orders"), Namespace("club", "people")


def small(*numbers: int) -> bytes:
    """Documents that are short, each with a number."""
    return b"".join(document(field(0x10, "n", int32(it))) for it in numbers)


def pieces(data: bytes, *sizes: int) -> Iterator[bytes]:
    """Bytes in pieces of these sizes, again and again."""
    at = 0
    while at < len(data):
        for size in sizes:
            yield data[at : at + size]
            at += size


class Read:
    """What is read of an archive: the bytes and the number of documents of each collection, the ends, and the error."""

    def __init__(self, data: bytes, *sizes: int) -> None:
        self.data: Dict[Namespace, bytes] = {}
        self.counts: Dict[Namespace, int] = {}
        self.ended: List[Tuple[Namespace, object]] = []
        self.error = ""
        try:
            self.archive = Archive(pieces(data, *(sizes or (1 << 20,))))
            for it in self.archive.blocks():
                if isinstance(it, Documents):
                    self.data[it.namespace] = self.data.get(it.namespace, b"") + it.data
                    self.counts[it.namespace] = self.counts.get(it.namespace, 0) + it.ended
                else:
                    self.ended.append((it.namespace, it.error))
        except DumpError as error:
            self.error = str(error)


class Crcs(unittest.TestCase):
    def crc(self, data: bytes, size: int) -> Crc64:
        """The CRC of bytes that come in pieces of a size."""
        crc = Crc64()
        for piece in pieces(data, size):
            crc.add(memoryview(piece))
        return crc

    def test_known_values(self) -> None:
        """The check value of the catalogue of CRCs, and those by Go."""
        self.assertTrue(self.crc(b"123456789", 9).is_of(0x995DC9BBDF1939FA))
        data = bytes((it * it >> 3) + it & 0xFF for it in range(1_000_000))
        for size, crc in GO.items():
            for step in (1 << 20, 70_000, 999):
                for wrong in (0, 1, 1 << 63):
                    self.assertEqual(self.crc(data[:size], step).is_of(crc ^ wrong), not wrong, (size, step))

    def test_the_writer_of_these_tests(self) -> None:
        self.assertEqual(crc64(b"123456789"), 0x995DC9BBDF1939FA)

    def test_random_bytes(self) -> None:
        chance = random.Random(3)
        for _ in range(200):
            data = chance.randbytes(chance.randrange(300)) if hasattr(chance, "randbytes") else os.urandom(99)
            self.assertTrue(self.crc(data, chance.randrange(1, 99)).is_of(crc64(data)))

    def test_python_without_lzma(self) -> None:
        with mock.patch.dict("sys.modules", {"lzma": None}):
            with self.assertRaisesRegex(BsonfindError, "lacks its module lzma"):
                Crc64()


class Frames(unittest.TestCase):
    def test_blocks_that_alternate(self) -> None:
        """Of three collections, one of them empty, in pieces of any size, by gzip or not."""
        data = archive([("shop", "orders", SHOP_DATA), ("club", "people", PEOPLE_DATA), ("club", "none", b"")])
        chance = random.Random(1)
        for sizes in ((1 << 20,), (7,), (1, 0, 300), (65536,), tuple(chance.randrange(1, 9000) for _ in range(50))):
            for packed in (data, gzip.compress(data)):
                read = Read(packed, *sizes)
                self.assertEqual((read.error, read.data), ("", {ORDERS: SHOP_DATA, CLUB: PEOPLE_DATA}))
                self.assertEqual(read.counts, {ORDERS: 400, CLUB: 500})
                ends = [(Namespace("club", "none"), None), (ORDERS, None), (CLUB, None)]
                self.assertEqual(read.ended, ends)
                self.assertEqual(read.archive.unended(), [])

    def test_cut_at_every_byte(self) -> None:
        """What was read is a prefix, whole documents are counted, and the end that is missing is an error."""
        data = archive([("a", "x", small(1, 2, 3)), ("a", "y", small(4, 5))], each=1)
        whole = Read(data)
        self.assertEqual((whole.error, whole.counts), ("", {Namespace("a", "x"): 3, Namespace("a", "y"): 2}))
        for cut in range(len(data)):
            for sizes in ((1 << 20,), (5,)):
                with self.subTest(cut=cut, sizes=sizes):
                    read = Read(data[:cut], *sizes)
                    wanted = f"byte {cut}: the archive ends " if cut >= len(MAGIC) else "not an archive of mongodump"
                    self.assertTrue(read.error.startswith(wanted), read.error)
                    for namespace, found in read.data.items():
                        self.assertTrue(whole.data[namespace].startswith(found))
                        self.assertEqual(read.counts[namespace], len(found) // len(small(1)))
                        self.assertTrue(any(it == namespace for it, _ in read.ended) != (namespace in read.archive.unended()))

    def test_every_bit_that_is_wrong(self) -> None:
        """Of the blocks: what is whole has its own bytes. Only in the CRC of a header that is no end nothing is lost."""
        lists = prelude(listed("a", "x"), listed("a", "y"))
        blocks = block("a", "x", small(1)) + block("a", "y", small(3)) + block("a", "x", small(2))
        blocks += end("a", "x", small(1, 2)) + end("a", "y", small(3))
        wanted = {Namespace("a", "x"): small(1, 2), Namespace("a", "y"): small(3)}
        idle = {found.end() + it for found in re.finditer(b"EOF\0\0\x12CRC\0", blocks) for it in range(8)}
        for at in range(len(blocks)):
            for bit in range(8):
                damaged = bytearray(blocks)
                damaged[at] ^= 1 << bit
                read = Read(lists + bytes(damaged))
                whole = {it: read.data.get(it) for it, error in read.ended if not error}
                with self.subTest(at=at, bit=bit):
                    self.assertLessEqual(whole.items(), wanted.items())
                    self.assertEqual(not read.error and whole == wanted, at in idle)

    def test_a_crc_that_is_wrong(self) -> None:
        data = small(1, 2)
        wrong = block_header("a", "x", crc64(data) ^ 1, True) + END
        read = Read(prelude(listed("a", "x")) + block("a", "x", data) + wrong)
        self.assertEqual((read.ended, read.error), ([(Namespace("a", "x"), "wrong CRC-64")], ""))
        other = block("a", "x", small(1, 3))
        self.assertEqual(Read(prelude(listed("a", "x")) + other + end("a", "x", data)).ended[0][1], "wrong CRC-64")
        without = Archive(iter([prelude(listed("a", "x")) + other + end("a", "x", data)]), with_crc=False)
        self.assertEqual([it.error for it in without.blocks() if not isinstance(it, Documents)], [None])

    def test_what_is_no_archive(self) -> None:
        for data in (b"", MAGIC[:3], b"\x6c" + MAGIC[1:] + header() + END, PEOPLE_DATA, b"{}", gzip.compress(PEOPLE_DATA)):
            self.assertEqual(Read(data).error, "not an archive of mongodump")
            self.assertFalse(is_archive(data[:4096]))
        self.assertEqual(Read(b"\x1f\x8b" + bytes(30)).error, "not a sound file of gzip: unknown compression method")
        self.assertTrue(is_archive(archive([])))
        self.assertTrue(is_archive(gzip.compress(archive([("a", "x", PEOPLE_DATA)]))[:4096]))

    def test_fields_that_are_missing(self) -> None:
        """Each is named, with the byte of its document."""
        for name in ("concurrent_collections", "version", "server_version", "tool_version"):
            self.assertEqual(Read(MAGIC + header(name) + END).error, f'byte 4: no field "{name}"')
        at = len(MAGIC + header())
        for name in ("db", "collection", "metadata", "size"):
            data = prelude(listed("a", "x", left_out=name))
            self.assertEqual(Read(data).error, f'byte {at}: no field "{name}"')
        lists = prelude(listed("a", "x", kind=""))
        for name in ("db", "collection", "EOF", "CRC"):
            data = lists + block_header("a", "x", 0, True, left_out=name) + END
            self.assertEqual(Read(data).error, f'byte {len(lists)}: no field "{name}"')
        self.assertEqual(Read(lists + end("a", "x", b"")).error, "")

    def test_fields_that_do_not_fit(self) -> None:
        lists = prelude(listed("a", "x"))
        names = string("db", "a") + string("collection", "x")
        crc, no_end = field(0x12, "CRC", bytes(8)), field(0x08, "EOF", b"\0")
        for fields, told in (
            (names + crc + field(0x10, "EOF", bytes(4)), 'field "EOF": not a boolean'),
            (names + no_end + string("CRC", ""), 'field "CRC": not a integer'),
            (field(0x10, "db", bytes(4)) + string("collection", "x") + crc + no_end, 'field "db": not a string'),
            (names + crc + field(0x08, "EOF", b"\2"), "not a document of strings, numbers and booleans"),
            (names + crc + no_end + field(0x01, "d", bytes(8)), "not a document of strings, numbers and booleans"),
            (names + crc + no_end + no_end, "not a document of strings, numbers and booleans"),
            (names + crc + no_end + b"\x08EO", "not a document of strings, numbers and booleans"),
            (names + crc + no_end + b"\x02s\0\x7f\0\0\0a\0", "not a document of strings, numbers and booleans"),
            (names + crc + no_end + b"\x02s\0\x02\0\0\0\xff\0", "not a document of strings, numbers and booleans"),
            (names + crc + no_end + b"\x02s\0\x01\0\0\0a\0", "not a document of strings, numbers and booleans"),
            (names + crc + no_end + b"\x02s\0\0\0\0\0\0", "not a document of strings, numbers and booleans"),
            (names + crc + no_end + b"\x12s\0\0\0\0\0\0", "not a document of strings, numbers and booleans"),
        ):
            self.assertEqual(Read(lists + document(fields) + END).error, f"byte {len(lists)}: {told}")
        wrong = document(names + crc + no_end)[:-1] + b"\1"
        self.assertIn("not a document of strings", Read(lists + wrong + END).error)
        self.assertEqual(Read(MAGIC + header(version="0.2") + END).error, "byte 4: version 0.2 of archives is not known")

    def test_blocks_that_do_not_fit(self) -> None:
        lists, data = prelude(listed("a", "x")), small(1)
        ended = block("a", "x", data) + end("a", "x", data)
        at = len(lists)
        for blocks, byte, told in (
            (END, 0, "no header of a block"),
            (block("a", "x", data) + END, len(block("a", "x", data)), "no header of a block"),
            (block("a", "x", data + b"\4\0\0\0"), len(block_header("a", "x") + data), "bad length"),
            (block("a", "x", (16_793_601).to_bytes(4, "little")), len(block_header("a", "x")), "bad length"),
            (block("a", "x", b"\xfe" + END[1:]), len(block_header("a", "x")), "bad length"),
            (b"\4\0\0\0", 0, "bad length"),
            (ended + block("a", "x", data), len(ended), "a block of a.x after its end"),
            (ended + end("a", "x", data), len(ended), "a block of a.x after its end"),
            (block_header("a", "x", 0, True) + data + END, len(block_header("a", "x")), "a document after the end of a.x"),
        ):
            read = Read(lists + blocks)
            self.assertEqual(read.error, f"byte {at + byte}: {told}")
        self.assertEqual(Read(MAGIC + END).error, "byte 4: no header of a block")
        twice = listed("a", "x")
        self.assertEqual(Read(prelude(twice, twice)).error, f"byte {len(MAGIC + header() + twice)}: a.x is listed twice")

    def test_a_document_of_the_greatest_length(self) -> None:
        """In pieces, of which none is longer than what is passed on."""
        length = 16_793_600
        long = length.to_bytes(4, "little") + bytes(length - 4)
        data = block_header("a", "x") + long + small(1) + END
        read = Archive(pieces(prelude(listed("a", "x")) + data, 100_000), with_crc=False)
        found = []
        with self.assertRaisesRegex(UnpackError, "the archive ends before the end of a.x"):
            for it in read.blocks():
                assert isinstance(it, Documents)
                found.append((len(it.data), it.ended))
        self.assertEqual((sum(size for size, _ in found), sum(ended for _, ended in found)), (length + len(small(1)), 2))
        self.assertLessEqual(max(size for size, _ in found), 100_003)

    def test_views_in_the_list(self) -> None:
        """They have no end; where the list has no types, as by an old mongodump, their metadata says what they are."""
        view, series = '{"options":{"viewOn":"x"}}', '{"options":{"timeseries":{"timeField":"t"}}}'
        buckets = end("a", "system.buckets.y", b"")
        for kinds in (("view", "timeseries"), ("", "")):
            lists = prelude(listed("a", "x", view, kinds[0]), listed("a", "y", series, kinds[1]))
            self.assertEqual(Read(lists + buckets).error, "")
            self.assertEqual(Read(lists).error, f"byte {len(lists)}: the archive ends before the end of a.y")
        for metadata in ("", "{}", '{"options":{}}', '{"options":5}', "[1]", '{"options":null}', "[" * 100_000):
            lists = prelude(listed("a", "x", metadata, ""))
            self.assertEqual(Read(lists).error, f"byte {len(lists)}: the archive ends before the end of a.x")

    def test_names_that_are_none(self) -> None:
        """None of them is a directory beside the others, or above."""
        at = len(MAGIC + header())
        for database in (".", "..", "../x", "/etc", "a/b", "/", "a\0b", "\0"):
            told = f"no name of a database: {database!r}"
            self.assertEqual(Read(prelude(listed(database, "x"))).error, f"byte {at}: {told}")
            lists = prelude(listed("a", "x"))
            self.assertEqual(Read(lists + block(database, "x", b"")).error, f"byte {len(lists)}: {told}")
        for collection in ("", "a\0b", "\0"):
            self.assertEqual(Read(prelude(listed("a", collection))).error, f"byte {at}: no name of a collection: {collection!r}")


class Example(unittest.TestCase):
    def test_the_writer_of_these_tests_wrote_it(self) -> None:
        orders, people = (b"".join(dump_documents(it)[:40]) for it in (SHOP_DATA, PEOPLE_DATA))
        example = (ROOT / "examples/backup.archive").read_bytes()
        self.assertEqual(example, archive([("shop", "orders", orders), ("club", "people", people)], each=10))


class Members(unittest.TestCase):
    def setUp(self) -> None:
        self.data = archive([("shop", "orders", SHOP_DATA), ("club", "people", PEOPLE_DATA)])

    def test_one_collection(self) -> None:
        for namespace, wanted in ((ORDERS, SHOP_DATA), (CLUB, PEOPLE_DATA)):
            for data in (self.data, gzip.compress(self.data)):
                self.assertEqual(b"".join(documents_of(pieces(data, 9000), namespace)), wanted)

    def test_no_more_is_read_than_up_to_its_end(self) -> None:
        data = archive([("club", "people", PEOPLE_DATA)]) + b"\4\0\0\0"
        self.assertEqual(b"".join(documents_of(iter([data]), CLUB)), PEOPLE_DATA)

    def test_what_is_not_there(self) -> None:
        others = [listed("club", "seen", kind="view"), listed("club", "heat", kind="timeseries")]
        buckets = block("club", "system.buckets.heat", b"") + end("club", "system.buckets.heat", b"")
        data = prelude(*others) + buckets
        for name, told in (
            ("nobody", "club.nobody is not in the archive"),
            ("seen", "club.seen is a view, which has no documents"),
            ("heat", "club.heat is a time series, whose documents are those of club.system.buckets.heat"),
        ):
            with self.assertRaises(DumpError) as caught:
                list(documents_of(iter([data]), Namespace("club", name)))
            self.assertEqual(str(caught.exception), told)

    def test_one_that_is_damaged(self) -> None:
        for data, told in (
            (self.data[:90_000], "byte 90000: the archive ends inside a block"),
            (self.data.replace(crc64(PEOPLE_DATA).to_bytes(8, "little"), bytes(8)), "club.people: wrong CRC-64"),
        ):
            found = b""
            with self.assertRaises(UnpackError) as caught:
                for piece in documents_of(iter([data]), CLUB):
                    found += piece
            self.assertEqual(str(caught.exception), told)
            self.assertTrue(PEOPLE_DATA.startswith(found) and len(found) > 20_000)


class Names(unittest.TestCase):
    def test_as_mongodump_escapes_them(self) -> None:
        """By Go's `url.PathEscape`, and SHA-1 in Go's `base64.RawURLEncoding` where that is longer than 238 bytes."""
        signs = "".join(map(chr, range(1, 128))) + "é陳😀"
        self.assertEqual(
            "".join(stem_of(Namespace("", sign)) for sign in signs),
            "%01%02%03%04%05%06%07%08%09%0A%0B%0C%0D%0E%0F%10%11%12%13%14%15%16%17%18%19%1A%1B%1C%1D%1E%1F%20%21%22%23$%25&%27%28"
            "%29%2A+%2C-.%2F0123456789:%3B%3C=%3E%3F@ABCDEFGHIJKLMNOPQRSTUVWXYZ%5B%5C%5D%5E_%60abcdefghijklmnopqrstuvwxyz%7B%7C%7D"
            "~%7F%C3%A9%E9%99%B3%F0%9F%98%80",
        )
        for name, stem in (
            ("a" * 238, "a" * 238),
            ("a" * 239, "a" * 208 + "%24_cMIV897lX9H69gojV5ddCb0Q5Q"),
            ("é" * 40, "%C3%A9" * 34 + "%C3%" + "%24vwYqY6fSxDXZKVgUjO6HAzPeaB0"),
            ("b/" * 100, "b%2F" * 52 + "%24pHFnQudiKIvvBbCApEo7ZVEbTA0"),
        ):
            self.assertEqual(stem_of(Namespace("shop", name)), f"shop/{stem}")
        for namespace, stem in (
            (("", "oplog"), "oplog"),
            (("$admin", "system.users"), "system.users"),
            (("shop", "$admin.system.users"), "shop/$admin.system.users"),
            (("shop", ".."), "shop/.."),
        ):
            self.assertEqual(stem_of(Namespace(*namespace)), stem)
