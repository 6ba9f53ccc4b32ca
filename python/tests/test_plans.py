"""Tests of plans: where a dump is split."""

from bsonfind import DumpError, Part, PartError, plan

from .support import PEOPLE, Room

LONGEST = 16_793_600


def empty(length: int) -> bytes:
    """Bytes that begin with a length."""
    return length.to_bytes(4, "little") + bytes(length - 4)


class Plans(Room):
    def test_parts_are_the_file(self) -> None:
        data = PEOPLE.read_bytes()
        for most in (1, 200, 5000, 40_000, len(data) - 1, len(data), 1 << 40):
            parts = plan(PEOPLE, most)
            self.assertEqual(b"".join(piece for part in parts for piece in part.pieces()), data)
            offsets = [sum(it.length for it in parts[:number]) for number in range(len(parts))]
            self.assertEqual([part.offset for part in parts], offsets)
            self.assertEqual({part.path for part in parts}, {str(PEOPLE)})
        self.assertEqual(plan(PEOPLE), [Part(str(PEOPLE), 0, len(data), 0)])

    def test_cuts(self) -> None:
        """Those of 40,000 bytes are printed by a script of the guide too."""
        self.assertEqual([(it.offset, it.first) for it in plan(PEOPLE, 40_000)], [(0, 0), (39978, 220), (79930, 436)])
        lengths = [5, 9, 7, 30, 5, 5]
        path = str(self.file(b"".join(map(empty, lengths))))
        wanted = [(0, 14, 0), (14, 7, 2), (21, 30, 3), (51, 10, 4)]
        self.assertEqual(plan(path, 14), [Part(path, *it) for it in wanted])

    def test_documents_longer_than_what_is_read_at_once(self) -> None:
        lengths = [5, 1 << 18, 6, LONGEST, (1 << 18) - 2, 5, 5]
        path = str(self.file(b"".join(map(empty, lengths))))
        offsets = [sum(lengths[:number]) for number in range(len(lengths))]
        wanted = [Part(path, offset, length, number) for number, (offset, length) in enumerate(zip(offsets, lengths))]
        self.assertEqual(plan(path, 1), wanted)

    def test_lengths_over_the_end_of_what_is_read(self) -> None:
        for over in range(9):
            lengths = [(1 << 18) - over, 5, 6, 5]
            parts = plan(self.file(b"".join(map(empty, lengths))), 1)
            self.assertEqual([it.length for it in parts], lengths)

    def test_empty_file(self) -> None:
        self.assertEqual(plan(self.file(b"")), [])

    def test_wrong_lengths(self) -> None:
        good = empty(5) + empty(9)
        for bad, kind in (
            (empty(4), "bad length"),
            (bytes(8), "bad length"),
            (b"\xff" * 8, "bad length"),
            (empty(10)[:-1], "bad length"),
            (empty(LONGEST + 1), "bad length"),
            (b"\5", "length cut short"),
            (b"\5\0\0", "length cut short"),
        ):
            with self.subTest(bad[:8]), self.assertRaises(DumpError) as raised:
                plan(self.file(good + bad))
            self.assertEqual(raised.exception.fault, (2, 14, "", kind))
            self.assertEqual(str(raised.exception), f'document 2, byte 14, path "": {kind}')

    def test_what_is_no_file(self) -> None:
        missing = self.room / "missing.bson"
        for path, text in ((missing, "cannot open"), (self.room, "it is a directory"), ("/dev/null", "is no regular file")):
            with self.assertRaisesRegex(DumpError, text):
                plan(path)
        with self.assertRaises(ValueError):
            plan(PEOPLE, 0)

    def test_file_that_shrank(self) -> None:
        path = self.file(PEOPLE.read_bytes())
        *_, last = plan(path, 40_000)
        path.write_bytes(PEOPLE.read_bytes()[:-1])
        with self.assertRaises(PartError) as raised:
            list(last.pieces())
        self.assertEqual(raised.exception.part, last)
