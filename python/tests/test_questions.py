"""Tests of how questions are asked: sources, names, long filters, and what a user of pymongo expects."""

import asyncio
import base64
import gzip
import inspect
import json
import os
import pickle
import shutil
import subprocess
import sys
import threading
from datetime import datetime, timedelta, timezone
from decimal import Decimal
from uuid import UUID

import bsonfind
from bsonfind import (
    AsyncSession,
    CommandError,
    DumpError,
    ObjectId,
    PartError,
    Session,
    check_parts,
    count_documents,
    count_parts,
    find,
    find_one,
    find_parts,
    plan,
)
from bsonfind._ask.values import plain_document

from .bson import document, field, int32, text
from .support import DAMAGED, PATIENCE, PEOPLE, PEOPLE_LINES, PROGRAM, SHOP, SHOP_LINES, Room, environment

OLD = {"age": {"$gte": 90}}
OLD_LINES = [line for line in PEOPLE_LINES if int(json.loads(line)["age"]["$numberInt"]) >= 90]


class Names(Room):
    """Files with names that are no UTF-8, or begin with a hyphen, or are bytes."""

    def test_names(self) -> None:
        for name in (b"\xff\xfe.bson", b"a\xe9.bson", b"-.bson", "é 東.bson".encode()):
            path = os.fsencode(self.room) + b"/" + name
            shutil.copy(PEOPLE, path)
            for it in (path, os.fsdecode(path)):
                with self.subTest(it):
                    self.assertEqual(list(find(it, OLD, decode="bytes", program=PROGRAM)), OLD_LINES)
                    self.assertEqual(count_documents(it, OLD, program=PROGRAM), len(OLD_LINES))
                    self.assertEqual(find_parts(plan(it, 40_000), OLD, decode="bytes", program=PROGRAM), OLD_LINES)
                    with Session(it, PROGRAM) as session:
                        self.assertEqual(list(session.find(OLD, decode="bytes")), OLD_LINES)

    def test_descriptors_without_standard_streams(self) -> None:
        """A dump that is passed as a descriptor is none of the standard streams, where these are closed."""
        path = self.room / os.fsdecode(b"\xff.bson")
        shutil.copy(PEOPLE, path)
        code = f"import os\nos.close(0)\nimport bsonfind\nprint(bsonfind.count_documents({os.fsencode(path)!r}, program={PROGRAM!r}))"
        ran = subprocess.run([sys.executable, "-c", code], env=environment(), capture_output=True, text=True, timeout=PATIENCE)
        self.assertEqual((ran.stdout, ran.stderr), ("500\n", ""))


class Compressed(Room):
    """Files by mongodump --gzip."""

    def setUp(self) -> None:
        super().setUp()
        self.path = self.file(gzip.compress(PEOPLE.read_bytes()), "people.bson.gz")

    def test_answers(self) -> None:
        self.assertEqual(list(find(self.path, OLD, decode="bytes", program=PROGRAM)), OLD_LINES)
        self.assertEqual(count_documents(self.path, OLD, program=PROGRAM), len(OLD_LINES))
        with Session(self.path, PROGRAM) as session:
            session.create_index("age")
            self.assertEqual(list(session.find(OLD, decode="bytes")), OLD_LINES)

    def test_parts(self) -> None:
        parts, plain = plan(self.path, 40_000), plan(PEOPLE, 40_000)
        self.assertEqual([(it.offset, it.length, it.first) for it in parts], [(it.offset, it.length, it.first) for it in plain])
        self.assertEqual(b"".join(piece for part in parts for piece in part.pieces()), PEOPLE.read_bytes())
        self.assertEqual(find_parts(parts, OLD, workers=3, decode="bytes", program=PROGRAM), OLD_LINES)
        self.assertEqual(check_parts(parts, program=PROGRAM).documents, 500)

    def test_several_members(self) -> None:
        data = PEOPLE.read_bytes()
        path = self.file(gzip.compress(data[:1000]) + gzip.compress(data[1000:]), "members.bson.gz")
        self.assertEqual(list(find(path, decode="bytes", program=PROGRAM)), PEOPLE_LINES)

    def test_files_that_are_cut_or_damaged(self) -> None:
        """Also where what is left of them ends between two documents."""
        data = PEOPLE.read_bytes()
        whole = gzip.compress(data)
        between = gzip.compress(data[:79930])[:-8]
        for packed in (b"", whole[:-1], whole[:1000], between, whole[:500] + b"\0" * 9 + whole[509:], data):
            path = self.file(packed, "bad.bson.gz")
            for ask in (
                lambda: list(find(path, program=PROGRAM)),
                lambda: count_documents(path, program=PROGRAM),
                lambda: Session(path, PROGRAM),
                lambda: plan(path),
            ):
                with self.subTest(len(packed)), self.assertRaisesRegex(DumpError, "gzip|unpack|length"):
                    ask()

    def test_wrong_lengths(self) -> None:
        good = document() + document(field(16, "a", int32(1)))
        for bad, kind in ((bytes(8), "bad length"), (int32(10) + b"\0" * 5, "bad length"), (b"\5\0\0", "length cut short")):
            with self.subTest(bad), self.assertRaises(DumpError) as raised:
                plan(self.file(gzip.compress(good + bad), "wrong.bson.gz"))
            self.assertEqual(raised.exception.fault, (2, len(good), "", kind))


class Pipes(Room):
    def test_pipe_with_a_name(self) -> None:
        """It is read by its bytes, and cannot be split."""
        path = self.room / "pipe"
        os.mkfifo(path)
        for ask in (lambda: len(list(find(path, program=PROGRAM))), lambda: count_documents(path, program=PROGRAM)):
            threading.Thread(target=lambda: path.write_bytes(PEOPLE.read_bytes()), daemon=True).start()
            self.assertEqual(ask(), 500)
        with self.assertRaisesRegex(DumpError, "is no regular file"):
            plan(path)

    def test_descriptors(self) -> None:
        """A pipe of this process, such as one that the shell makes by <(..)."""

        def feed(pipe: int) -> None:
            with open(pipe, "wb") as file:
                file.write(PEOPLE.read_bytes())

        def by_session(name: str) -> int:
            with Session(name, PROGRAM) as session:
                return len(list(session.find()))

        def by_run(name: str) -> int:
            return len(list(find(name, program=PROGRAM)))

        for ask in (by_run, lambda name: count_documents(name, program=PROGRAM), by_session):
            for name in ("/dev/fd/{}", "/proc/self/fd/{}"):
                read, write = os.pipe()
                threading.Thread(target=feed, args=[write], daemon=True).start()
                try:
                    self.assertEqual(ask(name.format(read)), 500)
                finally:
                    os.close(read)


class Loader(Room):
    def test_lines_of_the_loader(self) -> None:
        """Lines before the program's own on standard error, and after it, change nothing."""
        code = f"""
import bsonfind
people, program = {str(PEOPLE)!r}, {PROGRAM!r}
parts = bsonfind.plan(people, 40_000)
answer = bsonfind.find(people, program=program)
print(len(list(answer)), answer.token is not None)
print(len(bsonfind.find_parts(parts, program=program)), bsonfind.count_parts(parts, program=program))
print(bsonfind.check_parts(parts, program=program).documents, bsonfind.Session(people, program).count_documents())
for ask in (lambda: bsonfind.Session("missing.bson", program), lambda: list(bsonfind.find(people, {{"$a": 1}}, program=program))):
    try:
        ask()
    except bsonfind.BsonfindError as error:
        print(repr(error))
"""
        wanted = "500 True\n500 500\n500 500\nDumpError('cannot open missing.bson', None)\n"
        for name, value in (("LD_PRELOAD", str(self.room / "missing.so")), ("LD_DEBUG", "statistics"), ("LD_DEBUG", "files,libs")):
            env = {**environment(), name: value}
            ran = subprocess.run([sys.executable, "-c", code], env=env, capture_output=True, text=True, timeout=PATIENCE)
            self.assertEqual(ran.stdout, wanted + "CommandError('filter', 1, 'unknown operator', '$a')\n", ran.stderr)


class LongFilters(Room):
    """Filters that no command line takes."""

    IDS = {"_id": {"$in": [*range(0, 500, 2), *range(1_000_000, 1_020_000)]}}

    def test_answers(self) -> None:
        self.assertGreater(len(json.dumps(self.IDS)), 131_072)
        wanted = PEOPLE_LINES[::2]
        answer = find(PEOPLE, self.IDS, decode="bytes", program=PROGRAM)
        self.assertEqual(list(answer), wanted)
        self.assertTrue(answer.end)
        self.assertEqual(list(find(PEOPLE, self.IDS, after=answer.token, decode="bytes", program=PROGRAM)), [])
        self.assertEqual(find_one(PEOPLE, self.IDS, skip=3, decode="bytes", program=PROGRAM), wanted[3])
        self.assertEqual(count_documents(PEOPLE, self.IDS, program=PROGRAM), 250)

    def test_pages(self) -> None:
        found, token, ends = [], None, []
        for _ in range(3):
            page = find(PEOPLE, self.IDS, sort={"_id": -1}, page=100, index="_id", after=token, decode="bytes", program=PROGRAM)
            found += page
            token = page.token
            ends.append(page.end)
        self.assertEqual((found, ends), (PEOPLE_LINES[-2::-2], [False, False, True]))

    def test_parts(self) -> None:
        parts = plan(PEOPLE, 20_000)
        for sort, wanted in ((None, PEOPLE_LINES[::2]), ({"_id": -1}, PEOPLE_LINES[-2::-2])):
            self.assertEqual(find_parts(parts, self.IDS, sort=sort, workers=2, decode="bytes", program=PROGRAM), wanted)
        self.assertEqual(find_parts(parts, self.IDS, skip=5, limit=7, decode="bytes", program=PROGRAM), PEOPLE_LINES[10:24:2])
        self.assertEqual(count_parts(parts, self.IDS, program=PROGRAM), 250)

    def test_refusals(self) -> None:
        """They are those of a short filter, with the byte of the filter's own text."""
        long = "x" * 200_000
        for ask in (
            lambda query: list(find(PEOPLE, query, program=PROGRAM)),
            lambda query: find_parts(plan(PEOPLE), query, program=PROGRAM),
            lambda query: count_documents(PEOPLE, query, program=PROGRAM),
        ):
            with self.assertRaises(CommandError) as raised:
                ask({"a": long, "b": {"$above": 1}})
            self.assertEqual(raised.exception.args, ("filter", 1, "unknown operator", "b.$above"))
            with self.assertRaises(CommandError) as raised:
                ask({"a": long, "b": {"$oid": "x"}})
            at = len('{"a":"","b":') + len(long)
            self.assertEqual(raised.exception.args, ("json", 4, "bad wrapper", at))
            with self.assertRaises(CommandError) as raised:
                ask({"a": long, "b": {"$size": 1.5}})
            self.assertEqual(raised.exception.args, ("filter", 3, "bad operand", "b.$size"))
        for ask in (find_parts, count_parts):
            with self.assertRaises(PartError) as failed:
                ask(plan(self.file(DAMAGED)), {"a": long}, program=PROGRAM)
            self.assertEqual(failed.exception.fault, (0, 7, "d", "bad boolean"))


class Parts(Room):
    """Files that change after they were split."""

    def test_file_that_was_replaced(self) -> None:
        path = self.file(PEOPLE.read_bytes())
        parts = plan(path, 40_000)
        new = self.file(PEOPLE.read_bytes(), "new.bson")
        os.utime(new, ns=(os.stat(path).st_atime_ns, os.stat(path).st_mtime_ns))
        new.replace(path)
        for ask in (find_parts, count_parts, check_parts):
            with self.assertRaisesRegex(PartError, "the file was replaced since it was cut"):
                ask(parts, program=PROGRAM)
        self.assertEqual(count_parts(plan(path, 40_000), program=PROGRAM), 500)

    def test_file_that_was_written_to(self) -> None:
        for change in (lambda file: file.write(b"\0"), lambda file: (file.seek(0, 2), file.write(document()))):
            path = self.file(PEOPLE.read_bytes())
            os.utime(path, ns=(1, 1))
            parts = plan(path, 40_000)
            with path.open("r+b") as file:
                change(file)
            with self.assertRaisesRegex(PartError, "the file was written to since it was cut"):
                count_parts(parts, program=PROGRAM)

    def test_state_of_a_file(self) -> None:
        found = os.stat(PEOPLE)
        (part,) = plan(PEOPLE)
        wanted = found.st_size, found.st_mtime_ns, found.st_ino, found.st_dev, found.st_ctime_ns
        self.assertEqual(part.state, wanted)
        self.assertEqual(pickle.loads(pickle.dumps(part)).state, part.state)


class Pymongo(Room):
    """What a user of pymongo expects."""

    def setUp(self) -> None:
        super().setUp()
        self.session = Session(PEOPLE, PROGRAM)
        self.addCleanup(self.session.close)

    def test_arguments_after_the_filter_are_by_keyword(self) -> None:
        """Where pymongo's second argument is a projection, none is taken for a sort."""
        for ask in (
            lambda: find(PEOPLE, {}, {"name": 1}, program=PROGRAM),
            lambda: find_one(PEOPLE, {}, {"name": 1}, program=PROGRAM),
            lambda: find_parts(plan(PEOPLE), {}, {"name": 1}, program=PROGRAM),
            lambda: count_parts(plan(PEOPLE), {}, 5, program=PROGRAM),
            lambda: self.session.find({}, {"name": 1}),
            lambda: self.session.find_one({}, {"name": 1}),
            lambda: self.session.explain({}, {"name": 1}),
        ):
            with self.assertRaisesRegex(TypeError, "positional argument"):
                ask()

    def test_find_one(self) -> None:
        for one in (self.session.find_one, lambda *words, **request: find_one(PEOPLE, *words, **request, program=PROGRAM)):
            self.assertEqual(one(decode="canonical"), json.loads(PEOPLE_LINES[0]))
            self.assertEqual(one({"_id": 7}, decode="bytes"), PEOPLE_LINES[7])
            self.assertEqual(one(OLD, sort={"_id": -1}, skip=1, decode="bytes"), OLD_LINES[-2])
            self.assertIsNone(one({"_id": -1}))

    def test_count_documents(self) -> None:
        for count in (self.session.count_documents, lambda *words: count_documents(PEOPLE, *words, program=PROGRAM)):
            self.assertEqual((count(), count(OLD), count({"_id": -1})), (500, len(OLD_LINES), 0))
            with self.assertRaises(CommandError):
                count({"a": {"$above": 1}})

    def test_hints(self) -> None:
        self.session.create_index("age")
        for hint in ("age", [("age", 1)], {"age": -1}, {"$natural": 1}, [("$natural", 1)]):
            wanted = "scan" if "$natural" in str(hint) else "index"
            self.assertEqual(self.session.explain(OLD, hint=hint)["plan"], wanted)
            self.assertEqual(list(self.session.find(OLD, hint=hint, decode="bytes")), OLD_LINES)
            self.assertEqual(self.session.find_one(OLD, hint=hint, decode="bytes"), OLD_LINES[0])
        with self.assertRaises(CommandError) as raised:
            self.session.find(hint="name")
        self.assertEqual(raised.exception.text, "no such index")
        for hint in ([("a", 1), ("b", 1)], [], {"$natural": -1}):
            with self.assertRaises(ValueError):
                self.session.find(hint=hint)

    def test_batch_size(self) -> None:
        """It limits no answer, as in pymongo; a page does."""
        for size in (0, 1, 5):
            answer = find(PEOPLE, OLD, batch_size=size, decode="bytes", program=PROGRAM)
            self.assertEqual((list(answer), answer.end), (OLD_LINES, True))
        page = find(PEOPLE, OLD, page=5, batch_size=2, decode="bytes", program=PROGRAM)
        self.assertEqual((list(page), page.end), (OLD_LINES[:5], False))
        for size in (0, 5):
            self.assertEqual(list(self.session.find(OLD, batch_size=size, decode="bytes")), OLD_LINES)

    def test_errors_end_in_error(self) -> None:
        members = [getattr(bsonfind, name) for name in bsonfind.__all__]
        errors = [it for it in members if inspect.isclass(it) and issubclass(it, Exception)]
        self.assertGreater(len(errors), 8)
        for error in errors:
            self.assertTrue(error.__name__.endswith("Error"), error)
            self.assertTrue(issubclass(error, bsonfind.BsonfindError), error)

    def test_workers(self) -> None:
        parts = plan(PEOPLE, 20_000)
        self.assertEqual(find_parts(parts, OLD, workers=3, decode="bytes", program=PROGRAM), OLD_LINES)
        self.assertEqual(count_parts(parts, OLD, workers=2, program=PROGRAM), len(OLD_LINES))
        self.assertEqual(check_parts(parts, workers=2, program=PROGRAM).documents, 500)
        with self.assertRaises(ValueError):
            find_parts(parts, workers=0, program=PROGRAM)
        with self.assertRaises(TypeError):
            find_parts(parts, workers=2, map=map, program=PROGRAM)


class Decoding(Room):
    """What documents are given as."""

    def test_functions(self) -> None:
        wanted = [len(line) for line in OLD_LINES]
        self.assertEqual(list(find(PEOPLE, OLD, decode=len, program=PROGRAM)), wanted)
        self.assertEqual(find_parts(plan(PEOPLE), OLD, decode=len, program=PROGRAM), wanted)
        self.assertEqual(find_one(PEOPLE, OLD, decode=len, program=PROGRAM), wanted[0])
        with Session(PEOPLE, PROGRAM) as session:
            self.assertEqual(list(session.find(OLD, decode=len)), wanted)

    def test_functions_that_stop_an_iteration(self) -> None:
        """Their error is one, and never the end of an answer; the next call gives the document after it."""
        for kind in (StopIteration, StopAsyncIteration):

            def decode(line: bytes, kind: type = kind) -> int:
                if b'"_id":{"$numberInt":"2"}' in line:
                    raise kind
                return len(line)

            few = {"_id": {"$lt": 4}}
            wanted = [len(line) for line in PEOPLE_LINES[:4]]
            told = f"decode raised {kind.__name__}"
            with Session(PEOPLE, PROGRAM) as session:
                for documents in (find(PEOPLE, few, decode=decode, program=PROGRAM), session.find(few, decode=decode)):
                    given = [next(documents), next(documents)]
                    with self.assertRaisesRegex(RuntimeError, told):
                        next(documents)
                    self.assertEqual([*given, *documents], [wanted[0], wanted[1], wanted[3]])
            for ask in (
                lambda: find_one(PEOPLE, {"_id": 2}, decode=decode, program=PROGRAM),
                lambda: find_parts(plan(PEOPLE), {"_id": 2}, decode=decode, program=PROGRAM),
            ):
                with self.assertRaisesRegex(RuntimeError, told):
                    ask()

            async def read() -> object:
                async with AsyncSession(PEOPLE, PROGRAM) as session:
                    return [it async for it in session.find(few, decode=decode)]

            with self.assertRaisesRegex(RuntimeError, told):
                asyncio.run(read())

    def test_unknown_names(self) -> None:
        for ask in (find, find_one):
            with self.assertRaisesRegex(ValueError, '"plain"'):
                ask(PEOPLE, decode="xml", program=PROGRAM)

    def test_plain_values(self) -> None:
        oid, moment = bytes(range(12)), 1_735_689_600_123
        date = (moment).to_bytes(8, "little")
        far = (253_402_300_800_000).to_bytes(8, "little")
        data = document(
            field(16, "int", int32(-5)),
            field(18, "long", (1 << 62).to_bytes(8, "little")),
            field(2, "text", text("é")),
            field(8, "yes", b"\1"),
            field(10, "none", b""),
            field(9, "date", date),
            field(9, "before", (-1).to_bytes(8, "little", signed=True)),
            field(9, "far", far),
            field(7, "id", oid),
            field(5, "bytes", int32(3) + b"\0abc"),
            field(5, "uuid", int32(2) + b"\4ab"),
            field(3, "inside", document(field(4, "array", document(field(16, "0", int32(1)), field(9, "1", date))))),
            field(255, "least", b""),
        )
        utc = timezone.utc
        wanted = {
            "int": -5,
            "long": 1 << 62,
            "text": "é",
            "yes": True,
            "none": None,
            "date": datetime(2025, 1, 1, 0, 0, 0, 123_000, tzinfo=utc),
            "before": datetime(1969, 12, 31, 23, 59, 59, 999_000, tzinfo=utc),
            "far": {"$date": {"$numberLong": "253402300800000"}},
            "id": ObjectId(oid.hex()),
            "bytes": b"abc",
            "uuid": {"$binary": {"base64": "YWI=", "subType": "04"}},
            "inside": {"array": [1, datetime(2025, 1, 1, 0, 0, 0, 123_000, tzinfo=utc)]},
            "least": {"$minKey": 1},
        }
        path = self.file(data)
        with Session(path, PROGRAM) as session:
            for found in (session.find_one(decode="plain"), find_one(path, decode="plain", program=PROGRAM)):
                self.assertEqual(found, wanted)
                self.assertEqual(list(found), list(wanted))
                self.assertEqual({type(it) for it in found.values()}, {int, str, bool, type(None), datetime, dict, ObjectId, bytes})
            # Each of these values finds its document.
            for name, value in wanted.items():
                self.assertEqual(session.count_documents({name: value}), 1, name)
            zone = timezone(timedelta(hours=2))
            self.assertEqual(session.count_documents({"date": wanted["date"].astimezone(zone)}), 1)
            self.assertEqual(session.count_documents({"date": wanted["date"].replace(tzinfo=None)}), 1)

    def test_uuids(self) -> None:
        """Each representation, in the bytes that the specification of drivers gives for this UUID, finds its own document."""
        uuid = UUID("00112233-4455-6677-8899-aabbccddeeff")
        forms = {
            "standard": (4, "00112233445566778899aabbccddeeff"),
            "pythonLegacy": (3, "00112233445566778899aabbccddeeff"),
            "javaLegacy": (3, "7766554433221100ffeeddccbbaa9988"),
            "csharpLegacy": (3, "33221100554477668899aabbccddeeff"),
        }
        values = [field(5, "a", int32(16) + bytes([kind]) + bytes.fromhex(data)) for kind, data in forms.values()]
        path = self.file(b"".join(document(field(16, "_id", int32(number)), it) for number, it in enumerate(values)))
        parts = plan(path)
        for number, name in enumerate(forms):
            how = {"uuid_representation": name, "program": PROGRAM}
            wanted = {"_id": number, "a": uuid}
            self.assertEqual(list(find(path, {"a": uuid}, decode="plain", **how)), [wanted])
            self.assertEqual(find_one(path, {"a": {"$in": [uuid]}}, decode="plain", **how), wanted)
            self.assertEqual(count_documents(path, {"a": uuid}, **how), 1)
            self.assertEqual(find_parts(parts, {"a": uuid}, decode="plain", **how), [wanted])
            self.assertEqual(count_parts(parts, {"a": uuid}, **how), 1)
            with Session(path, **how) as session:
                self.assertEqual(list(session.find({"a": uuid}, decode="plain")), [wanted])
                self.assertEqual((session.count_documents({"a": uuid}), session.explain({"a": uuid})["matches"]), (1, 1))
                # Those of the other subtype stay as they are.
                for other in (1, 2, 3) if number == 0 else (0,):
                    subtype, data = list(forms.values())[other]
                    binary = {"base64": base64.b64encode(bytes.fromhex(data)).decode(), "subType": f"{subtype:02}"}
                    self.assertEqual(session.find_one({"_id": other}, decode="plain"), {"_id": other, "a": {"$binary": binary}})

            async def ask() -> object:
                async with AsyncSession(path, **how) as session:
                    found = [it async for it in session.find({"a": uuid}, decode="plain")]
                    return found, await session.count_documents({"a": uuid}), (await session.explain({"a": uuid}))["matches"]

            self.assertEqual(asyncio.run(ask()), ([wanted], 1, 1))

    def test_binary_data_keeps_its_subtype(self) -> None:
        """That of pymongo's Binary, which is bytes with a subtype."""

        class Binary(bytes):
            subtype = 0

        path = self.file(b"".join(document(field(5, "a", int32(2) + bytes([kind]) + b"ab")) for kind in (0, 4, 5, 128, 255)))
        for kind in (0, 4, 5, 128, 255):
            value = Binary(b"ab")
            value.subtype = kind
            found = list(find(path, {"a": value}, decode="bytes", program=PROGRAM))
            self.assertEqual(found, [b'{"a":{"$binary":{"base64":"YWI=","subType":"%02x"}}}' % kind])
        self.assertEqual(count_documents(path, {"a": b"ab"}, program=PROGRAM), 1)

    def test_documents_that_are_no_values(self) -> None:
        """The document of a dump itself is never a value."""
        path = self.file(document(field(2, "$numberInt", text("5"))))
        self.assertEqual(find_one(path, decode="plain", program=PROGRAM), {"$numberInt": "5"})

    def test_documents_that_dump_prints_for_no_value(self) -> None:
        """A text that no value has is a document of the dump, and stays one; the texts at both ends of a type are values."""
        for name, inner in (
            ("$numberInt", "3000000000"), ("$numberInt", "-2147483649"), ("$numberInt", "-0"), ("$numberLong", "-0"), ("$numberInt", "9" * 5000),
            ("$numberLong", str(1 << 63)), ("$numberLong", str(-(1 << 63) - 1)), ("$numberLong", str(1 << 64)), ("$numberDouble", "5"),
            ("$numberDouble", "1E5"), ("$numberDouble", "05.0"), ("$numberDouble", "1e+20"), ("$numberDecimal", "05"), ("$oid", "07"),
            ("$oid", "07BD617E2DA5422A3C4466C9"), ("$date", {"$numberLong": "-0"}), ("$date", {"$numberLong": str(1 << 64)}), ("$date", "2025-01-01T00:00:00Z"),
        ):  # fmt: skip
            self.assertEqual(plain_document({"a": {name: inner}}), {"a": {name: inner}})
        for name, inner, wanted in (
            ("$numberInt", "-2147483648", -(1 << 31)), ("$numberInt", "2147483647", (1 << 31) - 1), ("$numberLong", str(-(1 << 63)), -(1 << 63)),
            ("$numberLong", str((1 << 63) - 1), (1 << 63) - 1), ("$numberDouble", "1E+20", 1e20), ("$numberDouble", "5E-324", 5e-324),
            ("$numberDecimal", "0E+3", Decimal("0E+3")), ("$numberDecimal", "-0", Decimal("-0")), ("$oid", "07bd617e2da5422a3c4466c9", ObjectId("07bd617e2da5422a3c4466c9")),
        ):  # fmt: skip
            self.assertEqual(plain_document({"a": {name: inner}}), {"a": wanted})

    def test_ids(self) -> None:
        one, other = ObjectId("0AF98b87145f708ed341a680"), ObjectId("0af98b87145f708ed341a681")
        self.assertEqual((str(one), repr(one)), ("0af98b87145f708ed341a680", "ObjectId('0af98b87145f708ed341a680')"))
        self.assertTrue(one == ObjectId(str(one)) and one != other and one < other and one != str(one))
        self.assertEqual(len({one, other, ObjectId(str(one))}), 2)
        self.assertEqual(pickle.loads(pickle.dumps(one)), one)
        for wrong in ("", "0af98b87145f708ed341a68", "x" * 24, "0af98b87145f708ed341a680\n", 5):
            with self.assertRaises(ValueError):
                ObjectId(wrong)

    def test_shop(self) -> None:
        """The documents of another dump, by ids and dates."""
        with Session(SHOP, PROGRAM) as session:
            for document_, line in zip(session.find(decode="plain"), SHOP_LINES):
                self.assertEqual(str(document_["_id"]), json.loads(line)["_id"]["$oid"])
                self.assertEqual(session.find_one({"_id": document_["_id"]}, decode="bytes"), line)
