"""Tests of the cutting of bytes that pass, by the lengths of documents."""

import gzip
import random
import struct
import time
import unittest
from typing import Iterator, List, Tuple

from bsonfind._dumps.framing import documents_taken, inputs
from bsonfind._dumps.gzip import UnpackError, unpacked

from .support import PEOPLE


def cut(data: bytes, most: int, sizes: List[int]) -> List[Tuple[int, int, bytes]]:
    """The inputs of bytes that come in pieces of these sizes, again and again."""

    def pieces() -> Iterator[bytes]:
        at = 0
        while at < len(data):
            for size in sizes:
                yield data[at : at + size]
                at += size

    return [(offset, first, b"".join(it)) for offset, first, it in inputs(pieces(), most)]


class Inputs(unittest.TestCase):
    def setUp(self) -> None:
        self.data = PEOPLE.read_bytes()
        self.ends = [0]
        while self.ends[-1] < len(self.data):
            self.ends.append(self.ends[-1] + int.from_bytes(self.data[self.ends[-1] : self.ends[-1] + 4], "little"))

    def test_as_many_documents_as_fit(self) -> None:
        chance = random.Random(7)
        for most in (1, 150, 5000, 40_000, len(self.data) - 1, len(self.data)):
            wanted, start = [], 0
            while start < 500:
                end = start + 1
                while end < 500 and self.ends[end + 1] - self.ends[start] <= most:
                    end += 1
                wanted.append((self.ends[start], start, self.data[self.ends[start] : self.ends[end]]))
                start = end
            for sizes in ([1 << 20], [7], [1, 0, 300], [chance.randrange(1, 9000) for _ in range(50)]):
                self.assertEqual(cut(self.data, most, sizes), wanted)
        self.assertEqual(cut(b"", 10, [5]), [])

    def test_a_wrong_length_begins_the_last_input(self) -> None:
        at = self.ends[220]
        for bad in (b"\xff" * 9000, b"\4\0\0\0" + self.data, b"\1", b"\1\2\3"):
            for sizes in ([1 << 20], [3], [1000]):
                found = cut(self.data[:at] + bad, 30_000, sizes)
                self.assertEqual(found[-1], (at, 220, bad))
                self.assertEqual(b"".join(data for _, _, data in found[:-1]), self.data[:at])
        self.assertEqual(cut(b"\xff" * 90, 10, [7]), [(0, 0, b"\xff" * 90)])

    def test_none_follows_an_input_that_was_not_read(self) -> None:
        all_inputs = inputs(iter([self.data]), 5000)
        _, _, pieces = next(all_inputs)
        next(pieces)
        self.assertEqual(list(all_inputs), [])


class Taking(unittest.TestCase):
    def taken(self, data: bytes, size: int) -> List[bytes]:
        """The documents that are taken of bytes in pieces of a size, which pass as they are."""
        found: List[bytes] = []
        pieces = [data[at : at + size] for at in range(0, len(data), size)]
        self.assertEqual(list(documents_taken(pieces, found.append)), pieces)
        return found

    def test_documents_of_all_lengths(self) -> None:
        wanted, at = [], 0
        while len(wanted) < 20:
            (length,) = struct.unpack_from("<i", PEOPLE.read_bytes(), at)
            wanted.append(PEOPLE.read_bytes()[at : at + length])
            at += length
        data, long = b"".join(wanted), (1 << 14).to_bytes(4, "little") + bytes(-4 + (1 << 14))
        for size in (1, 3, 4, 7, 150, 1 << 12, 1 << 30):
            for bad in (b"", b"\1", b"\1\2\3", b"\4\0\0\0", b"\4\0\0\0" + data, b"\xff" * 9000, long[:-1]):
                self.assertEqual(self.taken(data + bad, size), wanted)
            self.assertEqual(self.taken(long + data + long + long + data, size), [long, *wanted, long, long, *wanted])

    def test_time_of_long_documents(self) -> None:
        """That of their bytes, in however many pieces they come."""
        document = (1 << 24).to_bytes(4, "little") + bytes(-4 + (1 << 24))

        def seconds(size: int) -> float:
            times = []
            for _ in range(3):
                begun = time.process_time()
                self.assertEqual(len(self.taken(document, size)), 1)
                times.append(time.process_time() - begun)
            return min(times)

        self.assertLess(seconds(1 << 14), 10 * seconds(1 << 22))


class Unpacking(unittest.TestCase):
    def unpack(self, data: bytes, size: int) -> Tuple[bytes, str]:
        """What is unpacked of pieces of a size, and the error after it."""
        found: List[bytes] = []
        try:
            found.extend(unpacked(data[at : at + size] for at in range(0, len(data), size)))
        except UnpackError as error:
            return b"".join(found), str(error)
        return b"".join(found), ""

    def test_all_bytes_before_a_fault(self) -> None:
        data = PEOPLE.read_bytes()
        packed = gzip.compress(data, 0)
        for size in (1, 1000, 1 << 20):
            with self.subTest(size):
                self.assertEqual(self.unpack(packed, size), (data, ""))
                self.assertEqual(self.unpack(packed + packed + bytes(20), size), (data * 2, ""))
                wrong = packed[:-8] + bytes(4) + packed[-4:]
                self.assertEqual(self.unpack(wrong, size), (data, "not a sound file of gzip: incorrect data check"))
                found, error = self.unpack(packed[:50_000], size)
                self.assertEqual((error, data.startswith(found)), ("not a sound file of gzip: it ends too soon", True))
                self.assertGreater(len(found), 49_900)

    def test_zeros_that_are_packed(self) -> None:
        """More than is unpacked at once is in few bytes, also before a fault."""
        data = bytes(30_000_000)
        packed = gzip.compress(data)
        self.assertEqual(self.unpack(packed, 1 << 18), (data, ""))
        found, error = self.unpack(packed[:-8] + b"\1" * 8, 1 << 18)
        self.assertEqual((len(found), error), (len(data), "not a sound file of gzip: incorrect data check"))
