#!/usr/bin/env python3
"""Tests of what the package gives to pandas and pymongo, over ./bsonfind or the program of BSONFIND.

usage: tests/package/frames.py     It needs python3-pandas and python3-pymongo of Debian; what is missing is named, and is one failure. The
                                   last line is 'N passed, M failed'.
"""

import os
import sys
import tempfile
import unittest
from datetime import datetime
from importlib.util import find_spec
from pathlib import Path
from uuid import UUID

sys.path.insert(0, str(Path(__file__).resolve().parents[1]))

from support import PROGRAM, ROOT

sys.path.insert(0, str(ROOT / "python"))

from bsonfind import ArgumentError, Session, find, find_one, find_parts, plan, to_pandas
from tests.bson import decimal, document, double, field, int32, int64, text

PEOPLE = ROOT / "examples/people.bson"
UUID_BYTES = bytes.fromhex("00112233445566778899aabbccddeeff")
HOW = {"program": os.environ.get("BSONFIND", str(PROGRAM))}


class Test(unittest.TestCase):
    def file(self, data: bytes) -> Path:
        """A file of these bytes."""
        room = tempfile.TemporaryDirectory()
        self.addCleanup(room.cleanup)
        path = Path(room.name) / "dump.bson"
        path.write_bytes(data)
        return path


class Pandas(Test):
    def test_types(self) -> None:
        """Of each type of values alone, beside missing ones, and of several types together."""
        big = (1 << 53) + 1
        fields = {
            "whole": ("int64", [field(18, "v", int64(big)), field(16, "v", int32(1))], [big, 1]),
            "some": ("Int64", [field(18, "v", int64(big)), None, field(10, "v", b"")], [big, None, None]),
            "yes": ("bool", [field(8, "v", b"\1"), field(8, "v", b"\0")], [True, False]),
            "maybe": ("boolean", [field(8, "v", b"\1"), None], [True, None]),
            "double": ("float64", [field(1, "v", double(1.5)), None, field(16, "v", int32(2))], [1.5, None, 2.0]),
            "mixed": ("object", [field(1, "v", double(1.5)), field(18, "v", int64(big))], [1.5, big]),
            "date": ("datetime64[ns, UTC]", [field(9, "v", int64(1_735_689_600_123)), None], ["2025-01-01 00:00:00.123000+00:00", None]),
            "late": ("object", [field(9, "v", int64(32_503_680_000_000)), None], [datetime.fromisoformat("3000-01-01 00:00:00+00:00"), None]),
            "decimal": ("object", [field(19, "v", decimal(2950, -2)), None], ["29.50", None]),
            "text": ("object", [field(2, "v", text("é")), field(10, "v", b"")], ["é", None]),
        }
        for name, (dtype, values, wanted) in fields.items():
            with self.subTest(name):
                path = self.file(b"".join(document(field(16, "_id", int32(at)), *([it] if it else [])) for at, it in enumerate(values)))
                column = to_pandas(find(path, **HOW))["v"]
                self.assertEqual(str(column.dtype), dtype)
                self.assertEqual(list(column.isna()), [it is None for it in wanted])
                for found, it in zip(column, wanted):
                    if it is not None:
                        self.assertEqual(str(found) if isinstance(it, str) else found, it)

    def test_people(self) -> None:
        frame = to_pandas(find(PEOPLE, **HOW))
        self.assertEqual(len(frame), 500)
        self.assertEqual((str(frame["age"].dtype), int(frame["address.city"].isna().sum())), ("int64", 100))
        self.assertEqual(frame.loc[frame["_id"] == 260, "address.city"].item(), "Nairobi")

    def test_nothing(self) -> None:
        self.assertEqual(to_pandas([]).shape, (0, 0))
        self.assertEqual(to_pandas([{}, {}]).shape, (2, 0))


class Pymongo(Test):
    def test_types(self) -> None:
        """The values are of the types of pymongo, and each of them in a filter finds its document."""
        from bson import Binary, Code, Decimal128, Int64, MaxKey, MinKey, ObjectId, Regex, Timestamp

        values = {
            "id": (field(7, "v", bytes(range(12))), ObjectId("000102030405060708090a0b")),
            "int": (field(16, "v", int32(5)), 5),
            "long": (field(18, "v", int64(5)), Int64(5)),
            "double": (field(1, "v", double(5.5)), 5.5),
            "decimal": (field(19, "v", decimal(2950, -2)), Decimal128("29.50")),
            "bytes": (field(5, "v", int32(2) + b"\0ab"), b"ab"),
            "binary": (field(5, "v", int32(2) + b"\x80ab"), Binary(b"ab", 128)),
            "uuid": (field(5, "v", int32(16) + b"\4" + UUID_BYTES), UUID(bytes=UUID_BYTES)),
            "date": (field(9, "v", int64(1_735_689_600_123)), datetime(2025, 1, 1, 0, 0, 0, 123_000)),
            "time": (field(17, "v", b"\2\0\0\0\1\0\0\0"), Timestamp(1, 2)),
            "code": (field(13, "v", text("f()")), Code("f()")),
            "least": (field(255, "v", b""), MinKey()),
            "greatest": (field(127, "v", b""), MaxKey()),
            "text": (field(2, "v", text("é")), "é"),
            "null": (field(10, "v", b""), None),
        }
        path = self.file(b"".join(document(field(2, "_id", text(name)), it) for name, (it, _) in values.items()))
        parts = plan(path, 100)
        self.assertGreater(len(parts), 2)
        wanted = [{"_id": name, "v": value} for name, (_, value) in values.items()]
        with Session(path, **HOW) as session:
            for found in (
                list(find(path, decode="pymongo", **HOW)), find_parts(parts, decode="pymongo", **HOW), list(session.find(decode="pymongo")),
            ):  # fmt: skip
                self.assertEqual(found, wanted)
                for one, it in zip(found, wanted):
                    self.assertIs(type(one["v"]), type(it["v"]), it["_id"])
        with self.assertRaises(ArgumentError):
            find(path, {"v": values.pop("code")[1]}, **HOW)
        for name, (_, value) in values.items():
            for it in find(path, {"v": value}, decode="pymongo", **HOW):
                self.assertEqual(it["v"], value)
            self.assertIn(name, [it["_id"] for it in find(path, {"v": value}, **HOW)])
        self.assertIsInstance(find_one(self.file(document(field(11, "v", b"a\0i\0"))), decode="pymongo", **HOW)["v"], Regex)

    def test_uuids(self) -> None:
        """In the bytes that the specification of drivers gives for this UUID."""
        forms = {
            "pythonLegacy": "00112233445566778899aabbccddeeff",
            "javaLegacy": "7766554433221100ffeeddccbbaa9988",
            "csharpLegacy": "33221100554477668899aabbccddeeff",
        }
        for name, data in forms.items():
            path = self.file(document(field(5, "v", int32(16) + b"\3" + bytes.fromhex(data))))
            found = find_one(path, {"v": UUID(bytes=UUID_BYTES)}, decode="pymongo", uuid_representation=name, **HOW)
            self.assertEqual(found, {"v": UUID(bytes=UUID_BYTES)})


def main() -> int:
    missing = [it for it in ("pandas", "pymongo") if not find_spec(it)]
    for it in missing:
        print(f"this Python has no {it}: its tests are not run")
    suite = unittest.TestSuite()
    for kind, module in ((Pandas, "pandas"), (Pymongo, "pymongo")):
        if module not in missing:
            suite.addTests(unittest.defaultTestLoader.loadTestsFromTestCase(kind))
    result = unittest.TextTestRunner(stream=sys.stdout).run(suite)
    failed = len(result.failures) + len(result.errors) + len(missing)
    print(f"{result.testsRun - len(result.failures) - len(result.errors)} passed, {failed} failed")
    return 1 if failed else 0


if __name__ == "__main__":
    sys.exit(main())
