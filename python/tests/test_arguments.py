"""Tests of what the calls of the package refuse: each error is one of the package, whatever the argument is."""

import asyncio
import inspect
import itertools
import sys
from array import array
from functools import partial
from types import MappingProxyType
from typing import Any, Callable, Dict, Iterator, List, Tuple
from unittest import mock

import bsonfind
from bsonfind import (
    ArgumentError,
    AsyncSession,
    BsonfindError,
    CommandError,
    FileError,
    ObjectId,
    Part,
    Session,
    audit,
    check_parts,
    count_documents,
    count_parts,
    distinct,
    explain,
    find,
    find_one,
    find_parts,
    plan,
    salvage,
    to_dicts,
    to_pandas,
    unpack,
)

from bsonfind._arguments import shown

from .bson import document, field, int32
from .support import PEOPLE, PROGRAM, ROOT, Room

CIRCULAR: Dict[str, Any] = {}
CIRCULAR["again"] = CIRCULAR
NAMES = [5, None, "a\0b", "\ud800"]
# Python does not write the digits of the last one.
MANY = 10**5000
NUMBERS = [-1, "1", 1.5, True, None, 1 << 63, MANY, -MANY]
# Values that no call takes, by the name of the parameter.
BAD: Dict[str, List[Any]] = {
    **dict.fromkeys(("path", "good", "bad", "archive"), NAMES),
    "directory": [*NAMES, ""],
    **dict.fromkeys(("skip", "limit", "offset", "length", "first"), NUMBERS),
    **dict.fromkeys(("page", "batch_size", "jobs"), [-1, "1", 1.5, 1 << 63, MANY]),
    **dict.fromkeys(("workers", "most"), [0, *NUMBERS]),
    **dict.fromkeys(("say", "progress", "map"), [5]),
    "max_faults": NUMBERS,
    "paths": [5, None, [], [5], "a\0b"],
    "expect": [5, "a\0b"],
    "filter": ["name", 5, [("age", 1)], {"age": object()}, {"age": {1}}, {("age",): 1}, {None: 1}, {"age": {7: 1}}, CIRCULAR, {"age": "x" * (1 << 24)}, {"age": MANY}, MANY],
    "sort": ["name", [(b"age", 1)], [(5, 1)], [(None, 1)], {5: 1}, [("age", MANY)], [MANY], b"name", 5, [5], [("age",)], ["name"], {"age": object()}],
    "index": ["a\0b", "\ud800", "\udcff", "", 5],
    "after": [5, "a\0b", "\ud800", "token", "A" * 140_000],
    "decode": ["json", None, 5],
    "program": [5, None, "a\0b", ""],
    "timeout": [-1, "1", float("nan"), float("inf"), MANY],
    "uuid_representation": [5, None, [], "unspecified", "STANDARD"],
    "hint": [5, {}, [("age",)], ["age", "name"], {"age": 1, "name": 1}, {"$natural": -1}, [(b"age", 1)], [("$natural", MANY)], MANY],
    "parts": [5, None, [5], "ab", Part(str(PEOPLE), 0, 5, 0)],
    **dict.fromkeys(("ids", "sparse", "with_crc"), [object(), "yes"]),
    "only": [5, "shop.orders", [], [5]],
    "digits": [5, "5", "g" * 24],
    "key": [5, None, "", ["a"]],
    "documents": [5, None, "ab", {"a": 1}, [5], ["ab"], [{"a": 1}, None]],
}
# Parameters of which one value is as good as another: the part keeps what plan noted of its file.
FREE = ("self", "state")
PATHS = {"create_index": {"path": "age"}, "drop_index": {"path": "age"}}
NEEDED = {**PATHS, "distinct": {"key": "age"}}
METHODS = ("find_one", "count_documents", "distinct", "create_index", "drop_index", "explain")


async def awaited(session: AsyncSession, method: str, *words: Any, **options: Any) -> Any:
    """What a call of a session for asyncio gives, or the first thing that its cursor does."""
    given = getattr(session, method)(*words, **options)
    return await (given.__anext__() if method == "find" else given)


class Refusals(Room):
    def calls(self) -> Iterator[Tuple[Callable[..., Any], Callable[..., Any]]]:
        """Each public call, and what does it with all that it needs but one argument."""
        parts, program = plan(PEOPLE), {"program": PROGRAM}
        yield find, lambda path=PEOPLE, **it: list(find(path, **{**program, **it}))
        yield distinct, lambda path=PEOPLE, key="age", **it: distinct(path, key, **{**program, **it})
        for ask in (find_one, count_documents, explain):
            yield ask, lambda path=PEOPLE, ask=ask, **it: ask(path, **{**program, **it})
        for ask in (find_parts, count_parts, check_parts):
            yield ask, lambda parts=parts, ask=ask, **it: ask(parts, **{**program, **it})
        yield plan, lambda path=PEOPLE, **it: plan(path, **it)
        yield audit, lambda paths=PEOPLE, **it: audit(paths, **{**program, **it})
        files = {"path": PEOPLE, "good": self.room / "good", "bad": self.room / "bad"}
        yield salvage, lambda **it: salvage(**{**files, **program, **it})
        yield unpack, lambda **it: unpack(**{"archive": ROOT / "examples/backup.archive", "directory": self.room / "out", **it})
        yield ObjectId, ObjectId
        yield to_dicts, to_dicts
        yield to_pandas, to_pandas
        yield Part, lambda **it: Part(**{"path": "a", "offset": 0, "length": 5, "first": 0, **it})
        yield Session, lambda path=PEOPLE, **it: Session(path, **{**program, **it}).close()
        yield AsyncSession, lambda path=PEOPLE, **it: asyncio.run(AsyncSession(path, **{**program, **it}).open())
        with Session(PEOPLE, PROGRAM) as session:
            yield Session.find, lambda **it: list(session.find(**it))
            for method in METHODS:
                yield getattr(Session, method), partial(getattr(session, method), **NEEDED.get(method, {}))
        loop = asyncio.new_event_loop()
        try:
            session = loop.run_until_complete(AsyncSession(PEOPLE, PROGRAM).open())
            for method in ("find", *METHODS):
                ask = partial(awaited, session, method, **NEEDED.get(method, {}))
                yield getattr(AsyncSession, method), lambda ask=ask, **it: loop.run_until_complete(ask(**it))
            loop.run_until_complete(session.close())
        finally:
            loop.close()

    def test_each_argument_of_each_call(self) -> None:
        """A bad argument is an error of the package. One that is found here is a TypeError and a ValueError too."""
        for function, call in self.calls():
            for name in inspect.signature(function).parameters:
                bad = [object(), 5, ""] if name == "path" and function.__name__ in PATHS else BAD.get(name, [])
                self.assertEqual(bool(bad), name not in FREE, name)
                for value in bad:
                    with self.subTest(f"{function.__qualname__}({name}={shown(value):.50})"):
                        with self.assertRaises((ArgumentError, CommandError)) as raised:
                            call(**{name: value})
                        self.assertTrue(str(raised.exception))
                        if isinstance(raised.exception, ArgumentError):
                            self.assertIsInstance(raised.exception, TypeError)
                            self.assertIsInstance(raised.exception, ValueError)

    def test_all_calls_are_tried(self) -> None:
        """What is exported is tried, or made by these calls alone."""
        made = "Answer AsyncCursor Audit Check Collection Cursor Fault FileState LeftOut Report Salvaged Unpacked".split()
        tried = {function.__qualname__ for function, _ in self.calls()}
        for name in bsonfind.__all__:
            kind = getattr(bsonfind, name)
            is_error = isinstance(kind, type) and issubclass(kind, Exception)
            self.assertTrue(name in tried or name in made or is_error, name)
            if is_error:
                self.assertTrue(issubclass(kind, BsonfindError), name)

    def test_arguments_that_do_not_go_together(self) -> None:
        parts = plan(PEOPLE)
        with self.assertRaises(ArgumentError):
            find_parts(parts, workers=2, map=map, program=PROGRAM)
        for results in ([], [5], None, iter([("other", 5)])):
            with self.assertRaises(BsonfindError):
                find_parts(parts, map=lambda ask, these, results=results: results, program=PROGRAM)
        for good, bad in itertools.permutations((self.room / "new", PEOPLE), 2):
            with self.assertRaises(ArgumentError):
                salvage(PEOPLE, good, bad, program=PROGRAM)
        with self.assertRaises(ArgumentError):
            salvage(PEOPLE, self.room / "new", self.room / "new", program=PROGRAM)
        self.assertEqual(list(self.room.iterdir()), [])

    def test_texts_that_no_argument_takes(self) -> None:
        """The error names the argument, and never the program."""
        for name in ("index", "after"):
            for bad, told in (("a\0b", "no zero byte"), ("\ud800", "half of a character"), ("a\udcff", "half of a character"), ("a" * 140_000, "at most 13106")):
                with self.assertRaisesRegex(ArgumentError, f"^{name} has {told}"):
                    find(PEOPLE, program=PROGRAM, **{name: bad})
        with self.assertRaisesRegex(ArgumentError, "^sort has at most 131071 bytes, not 140005$"):
            list(find(PEOPLE, sort=[("a" * 139_999, 1)], program=PROGRAM))
        with self.assertRaisesRegex(ArgumentError, "^skip is 0 to 2147483647, not of int with more digits than Python writes$"):
            find(PEOPLE, skip=MANY, program=PROGRAM)
        with self.assertRaisesRegex(ArgumentError, "^a whole number has at most 64 bits, not 16610$"):
            find(PEOPLE, {"age": MANY}, program=PROGRAM)

    def test_long_paths(self) -> None:
        """The longest that an argument takes is a path as any other."""
        path = "-" + "a" * 131_062
        self.assertEqual(len(list(find(PEOPLE, index=path, program=PROGRAM))), 500)

    def test_views_of_bytes(self) -> None:
        """Also one whose bytes lie apart, or that is of numbers."""
        path = self.file(b"".join(document(field(5, "b", int32(len(it)) + b"\0" + it)) for it in (b"ace", b"\1\0\2\0")))
        for view, wanted in ((memoryview(b"abcdef")[::2], b"ace"), (memoryview(array("H", [1, 2])), b"\1\0\2\0")):
            self.assertEqual([it["b"] for it in find(path, {"b": view}, program=PROGRAM)], [wanted])

    def test_mappings(self) -> None:
        """A filter and a sort are any mappings, also inside of others, as pymongo takes them."""
        old = MappingProxyType({"age": MappingProxyType({"$gte": 90})})
        found = list(find(PEOPLE, old, sort=MappingProxyType({"age": -1}), decode="bytes", program=PROGRAM))
        self.assertEqual(found, list(find(PEOPLE, {"age": {"$gte": 90}}, sort=[("age", -1)], decode="bytes", program=PROGRAM)))
        self.assertEqual(len(found), 49)

    def test_documents_as_they_are(self) -> None:
        found = find_parts(plan(PEOPLE, 20_000), decode="bson", program=PROGRAM)
        self.assertEqual((len(found), b"".join(found)), (500, PEOPLE.read_bytes()))

    def test_without_pymongo(self) -> None:
        absent = mock.patch.dict(sys.modules, {"bson": None, "bson.json_util": None})
        with absent, self.assertRaisesRegex(ArgumentError, "pymongo"):
            find_one(PEOPLE, decode="json_util", program=PROGRAM)

    def test_files_that_are_no_dumps(self) -> None:
        """A log, and a file that is written, have an error with their name, which is an OSError too."""
        away = self.room / "away/file"
        for ask in (
            lambda: audit(PEOPLE, expect=away, program=PROGRAM),
            lambda: audit(PEOPLE, expect=self.room, program=PROGRAM),
            lambda: salvage(PEOPLE, away, self.room / "bad", program=PROGRAM),
            lambda: salvage(PEOPLE, self.room / "good", self.room, program=PROGRAM),
        ):
            with self.assertRaises(FileError) as raised:
                ask()
            self.assertIsInstance(raised.exception, OSError)
            self.assertIn(str(raised.exception.filename), str(raised.exception))
        self.assertEqual(list(self.room.iterdir()), [])
