"""Tests of what `find`, `count_documents`, parts and the commands `find` and `query` answer over dumps with numbers of all types."""

import gzip
import json
import os
import struct
import subprocess
import sys
import threading
from decimal import Decimal
from typing import List, Tuple
from unittest import mock

from bsonfind import (
    ArgumentError,
    BsonfindError,
    CommandError,
    DumpError,
    PartError,
    ProgramError,
    count_documents,
    count_parts,
    distinct,
    find,
    find_one,
    find_parts,
    plan,
)
from bsonfind._ask.requests import LONGEST_ARGUMENT, LONGEST_FILTER

from .archives import archive
from .goods import FIRST, GOODS, MIXED, QUESTIONS, array, decimal, document, double, embedded, whole
from .support import DAMAGED, PATIENCE, PEOPLE, PEOPLE_LINES, PROGRAM, Room, environment, run_of_bytes, run_package

NAN = {"$numberDouble": "NaN"}
NOT_TOLD = "the types of numbers are not told apart here"
NUMBER_TYPES = {1: "double", 16: "int", 18: "long", 19: "decimal"}
# The types of the prices of the goods, in turn.
PRICE_TYPES = [{"double"}, {"int"}, {"double"}, {"double", "int"}, {"double"}, set()]
# Prices of both types with fractions, as a migration leaves them: the double 4.99 is a bit more than the decimal128 4.99.
PRICES = [
    document(whole("_id", 0), double("price", 4.99)),
    document(whole("_id", 1), decimal("price", 2995, -2)),
    document(whole("_id", 2), decimal("price", 499, -2)),
    document(whole("_id", 3), array("price", double("0", 1.1), decimal("1", 11, -1), b"\x12" + b"2\0" + ((1 << 53) + 1).to_bytes(8, "little"))),
    document(whole("_id", 4), double("price", 2.0**53)),
    document(whole("_id", 5), double("price", float("nan"))),
]


class Dumps(Room):
    """Tests of one dump by way of Python."""

    documents = GOODS

    def setUp(self) -> None:
        super().setUp()
        self.path = self.file(b"".join(self.documents))

    def ids(self, filter: dict, **how: object) -> List[int]:
        """The numbers of the documents that are found, which come as they are."""
        return [self.documents.index(it) for it in find(self.path, filter, program=PROGRAM, decode="bson", **how)]


class Goods(Dumps):
    def test_queries_and_sorts(self) -> None:
        """By a scan and by an index, as lines and as they are; each is counted."""
        for filter, sort, wanted in QUESTIONS:
            self.assertEqual(self.ids(filter, sort=sort), wanted, filter)
            self.assertEqual([it["_id"] for it in find(self.path, filter, sort=sort, index="price", program=PROGRAM)], wanted, filter)
            self.assertEqual(count_documents(self.path, filter, program=PROGRAM), len(wanted), filter)

    def test_forms_of_documents(self) -> None:
        plain = {"_id": 0, "price": 9.5, "cost": Decimal("19.99")}
        for decode, wanted in (("dict", json.loads(FIRST)), ("plain", plain), ("bytes", FIRST.encode()), ("bson", GOODS[0]), (len, len(FIRST))):
            self.assertEqual(find_one(self.path, {"price": 9.5}, decode=decode, program=PROGRAM), wanted)
        self.assertEqual(b"".join(find(PEOPLE, decode="bson", program=PROGRAM)), PEOPLE.read_bytes())
        self.assertEqual(distinct(self.path, "cost", program=PROGRAM), [Decimal("19.99"), Decimal("19"), Decimal("5E+1")])

    def test_documents_as_they_are(self) -> None:
        """To the byte, whatever they print: a first field with an empty name, names of elements, NaN with a payload, documents like values."""
        documents = [
            document(whole("", 7), b"\x01a\0" + struct.pack("<Q", 0x7FF8000000000001)),
            document(array("a", double("9", 0.5), double("9", 0.25))),
            document(embedded("a", b"\x02$numberInt\0\2\0\0\x005\0")),
            document(whole("a", 5)),
            document(),
            document(b"\x02$oid\0\2\0\0\0x\0"),
        ]
        self.documents, self.path = documents, self.file(b"".join(documents))
        self.assertEqual(self.ids({}), [0, 1, 2, 3, 4, 5])
        self.assertEqual(self.ids({"a": 5}), [3])
        self.assertEqual(self.ids({"a": {"$type": "object"}}), [2])
        self.assertEqual(self.ids({"a": 0.25}, sort={"a": 1}), [1])
        with mock.patch("bsonfind._ask.lines._PIECE", 7):
            self.assertEqual(self.ids({}, sort={"a": -1}, skip=1), [5 if it == 5 else it for it in self.ids({}, sort={"a": -1})][1:])
            answer = find(self.path, page=4, decode="bson", program=PROGRAM)
            self.assertEqual(list(answer), documents[:4])
            self.assertEqual(list(find(self.path, after=answer.token, decode="bson", program=PROGRAM)), documents[4:])

    def test_tokens(self) -> None:
        """A page leads on to the next one, whatever documents are given as."""
        filter, sort = {"price": {"$gte": 9}, "_id": {"$lt": 99.5}}, [("price", -1)]
        for forms, wanted in ((("bytes",), None), (("bson",), GOODS), (("bson", "bytes"), None)):
            token, found, turn = None, [], 0
            while True:
                answer = find(self.path, filter, sort=sort, page=1, after=token, decode=forms[turn % len(forms)], program=PROGRAM)
                found += answer
                token, turn = answer.token, turn + 1
                if answer.end:
                    break
            self.assertEqual(len(found), 4)
            if wanted:
                self.assertEqual([wanted.index(it) for it in found], [3, 2, 0, 1])
            with self.assertRaises(CommandError) as raised:
                list(find(self.path, {"price": {"$gte": 9}}, sort=sort, after=token, decode=forms[0], program=PROGRAM))
            self.assertEqual(raised.exception.text, "token of another dump or request")

    def test_compressed_dumps_and_pipes(self) -> None:
        pipe = self.room / "pipe"
        os.mkfifo(pipe)
        data = b"".join(GOODS)
        for path in (self.file(gzip.compress(data), "dump.bson.gz"), pipe):
            for decode, wanted in (("bytes", FIRST.encode()), ("bson", GOODS[0])):
                if path is pipe:
                    threading.Thread(target=pipe.write_bytes, args=[data], daemon=True).start()
                self.assertEqual(list(find(path, {"cost": Decimal("19.99")}, decode=decode, program=PROGRAM)), [wanted])

    def test_one_run(self) -> None:
        """A question is one run of `bsonwide find`, with the arguments of the caller, and of a plain file by its descriptor."""
        for ask, words in (
            (lambda program: list(find(self.path, {"price": 9.5}, limit=2, program=program)), '--query={"price":9.5} --sort={} --skip=0 --limit=2'),
            (lambda program: count_documents(self.path, {"a": {"$gt": 1}}, program=program), '--query={"a":{"$gt":1}} --sort={} --skip=0 --limit=0 --count'),
            (lambda program: list(find(PEOPLE, {}, index="age", program=program)), "--query={} --sort={} --skip=0 --limit=0 --index=age"),
            (lambda program: find_one(PEOPLE, sort={"a": 1}, decode="bson", program=program), '--query={} --sort={"a":1} --skip=0 --limit=1 --bson'),
        ):
            ask(self.counting())
            self.assertEqual(self.starts(), [f"bsonwide find - {words}"])
            (self.room / "starts").unlink()

    def test_types_of_numbers(self) -> None:
        """Two classes of them are separated, by number or name; three are refused."""
        for kind in ("double", "int", "long", "decimal", 1, 16, 18, 19, ["double", "string"], ["int", "long"], ["double", "decimal"]):
            kinds = {NUMBER_TYPES.get(it, it) for it in (kind if isinstance(kind, list) else [kind])}
            wanted = [place for place, types in enumerate(PRICE_TYPES) if kinds & types]
            for filter in ({"price": {"$type": kind}}, {"$nor": [{"price": {"$not": {"$type": kind}}}]}):
                self.assertEqual(self.ids(filter), wanted, filter)
                self.assertEqual(count_documents(self.path, filter, program=PROGRAM), len(wanted), filter)
        filter = {"price": {"$type": "double"}, "item": {"$type": "decimal"}}
        for ask in (lambda: list(find(self.path, filter, program=PROGRAM)), lambda: count_documents(self.path, filter, program=PROGRAM)):
            with self.assertRaises(CommandError, msg=filter) as raised:
                ask()
            self.assertEqual(raised.exception.args, ("numbers", 1, NOT_TOLD, "item.$type"))
        self.assertEqual(self.ids({"price": {"$type": ["double", "int", "long", "decimal"]}}), [0, 1, 2, 3, 4])
        ages = sum("$numberInt" in json.loads(line).get("age", {}) for line in PEOPLE_LINES)
        self.assertEqual(count_documents(PEOPLE, {"age": {"$type": "int"}}, program=PROGRAM), ages)

    def test_refusals(self) -> None:
        """They name their layer and place, and are those of a session."""
        for filter, how, args in (
            ({"a": 1.5, "é": {"$oid": "x"}}, {}, ("json", 4, "bad wrapper", 18)),
            ({"price": {"$numberDecimal": "x"}}, {}, ("json", 4, "bad wrapper", 9)),
            ({"price": 10**20}, {}, ("json", 6, "number out of range", 9)),
            ({"price": {"$numberInt": "007"}}, {}, ("json", 4, "bad wrapper", 9)),
            ({"price": {"$x": 1.5}}, {}, ("filter", 1, "unknown operator", "price.$x")),
            ({"price": {"$size": 2.5}}, {}, ("filter", 3, "bad operand", "price.$size")),
            ({}, {"sort": {"a": 2}}, ("session", 1, "not a sort", None)),
            ({}, {"index": "a."}, ("path", 1, "empty component", None)),
            ({}, {"after": "x"}, ("session", 7, "not a token", None)),
        ):
            with self.assertRaises(CommandError, msg=filter) as raised:
                list(find(self.path, filter, program=PROGRAM, **how))
            self.assertEqual(raised.exception.args, args)

    def test_long_queries(self) -> None:
        """The longest that an argument has, and one that goes to a file."""
        for size, word in ((LONGEST_ARGUMENT, "bsonwide find - --query "), (LONGEST_ARGUMENT + 1, "bsonwide find - --queryFile=/dev/fd/")):
            filter = {"_id": {"$lt": 1}, "$or": [{"x": "a" * (size - 44)}, {"_id": 0}]}
            self.assertEqual(len(json.dumps(filter, separators=(",", ":"))), size)
            for decode, wanted in (("bytes", FIRST.encode()), ("bson", GOODS[0])):
                self.assertEqual(list(find(self.path, filter, decode=decode, program=self.counting())), [wanted])
                self.assertTrue(self.starts()[0].startswith(word))
                self.assertEqual(len(self.starts()), 1)
                (self.room / "starts").unlink()
            self.assertEqual(count_documents(self.path, filter, program=PROGRAM), 1)
            parts = plan(self.path, 100)
            self.assertEqual(find_parts(parts, filter, decode="bytes", workers=2, program=PROGRAM), [FIRST.encode()])
            self.assertEqual(count_parts(parts, filter, program=PROGRAM), 1)

    def test_pages_of_long_queries(self) -> None:
        """They lead to the next one, by an index too, of a pipe and of a packed dump."""
        filter, path = {"_id": {"$in": [*range(6), "a" * LONGEST_ARGUMENT]}}, self.file(gzip.compress(b"".join(GOODS)), "goods.bson.gz")
        for dump, index in ((self.path, None), (self.path, "_id"), (path, "price")):
            first = find(dump, filter, sort={"_id": -1}, page=4, index=index, decode="bson", program=PROGRAM)
            self.assertEqual(([GOODS.index(it) for it in first], first.end), ([5, 4, 3, 2], False))
            rest = find(dump, filter, sort={"_id": -1}, after=first.token, index=index, decode="bson", program=PROGRAM)
            self.assertEqual(([GOODS.index(it) for it in rest], rest.end), ([1, 0], True))
        with self.assertRaises(CommandError) as raised:
            list(find(self.path, {"x": "é" * LONGEST_ARGUMENT, "y": {"$oid": "x"}}, program=PROGRAM))
        self.assertEqual(raised.exception.args, ("json", 4, "bad wrapper", 6 * LONGEST_ARGUMENT + 12))
        with self.assertRaisesRegex(ArgumentError, "a filter has at most 16777216 bytes, not 16777217"):
            list(find(self.path, {"x": "a" * (LONGEST_FILTER - 7)}, program=PROGRAM))


class Prices(Dumps):
    """Doubles and decimal128 in one field, which the codes of a session do not hold together."""

    documents = PRICES

    def test_answers(self) -> None:
        for filter, sort, wanted in (
            ({"price": {"$gt": 4.99}}, None, [1, 3, 4]),
            ({"price": {"$gte": Decimal("4.99")}}, None, [0, 1, 2, 3, 4]),
            ({"price": {"$lt": Decimal("4.99")}}, None, [3]),
            ({"price": 4.99}, None, [0]),
            ({"price": Decimal("4.99")}, None, [2]),
            ({"price": {"$gt": (1 << 53)}}, None, [3]),
            ({"price": {"$lte": 2.0**53}}, None, [0, 1, 2, 3, 4]),
            ({"price": {"$elemMatch": {"$gt": Decimal("1.1"), "$lt": 1.2}}}, None, [3]),
            ({"price": {"$exists": True}}, {"price": -1}, [3, 4, 1, 0, 2, 5]),
            ({"price": {"$lt": 5}}, {"price": 1}, [3, 2, 0]),
            ({"price": NAN}, None, [5]),
            ({"price": {"$not": {"$lte": 5}}}, None, [1, 4, 5]),
            ({"price": {"$gte": NAN}}, None, [5]),
            ({"price": {"$gt": NAN}}, None, []),
            ({}, {"price": 1}, [5, 3, 2, 0, 1, 4]),
        ):
            for how in ({}, {"index": "price"}):
                self.assertEqual(self.ids(filter, sort=sort, **how), wanted, filter)
            self.assertEqual(count_documents(self.path, filter, program=PROGRAM), len(wanted))

    def test_mixed_at_all_places(self) -> None:
        """In documents, arrays and scopes, beside fields that have whole numbers."""
        self.documents, self.path = MIXED, self.file(b"".join(MIXED))
        for filter, sort, wanted in (
            ({"price": {"$lt": Decimal("0.3")}}, None, [1, 3]),
            ({"in.price": {"$gt": Decimal("0.1")}}, None, [0, 1, 2, 3, 4, 5]),
            ({"in": {"$exists": True}, "weight": {"$gte": 1.5}}, {"weight": -1}, [5, 4, 3]),
            ({"list.0.1": 0.1, "_id": 1}, None, [1]),
            ({"weight": Decimal("0.5")}, None, [1]),
        ):
            self.assertEqual(self.ids(filter, sort=sort), wanted, filter)

    def test_parts(self) -> None:
        parts = plan(self.path, 60)
        self.assertGreater(len(parts), 2)
        for filter, sort in (({"price": {"$gt": Decimal("1.1")}}, [("price", -1)]), ({"_id": {"$lt": 3.5}}, [("_id", -1)]), ({"price": NAN}, None)):
            for more in ({}, {"skip": 1, "limit": 2}):
                whole_answer = list(find(self.path, filter, sort=sort, decode="bytes", program=PROGRAM, **more))
                self.assertEqual(find_parts(parts, filter, sort=sort, decode="bytes", workers=3, program=PROGRAM, **more), whole_answer)
            self.assertEqual(count_parts(parts, filter, workers=3, program=PROGRAM), count_documents(self.path, filter, program=PROGRAM))

    def test_parts_of_any_documents(self) -> None:
        """Such as one whose first name is that of another value, of a plain file and of a packed one, with and without doubles."""
        like = [document(whole("n", it), embedded("a", b"\x02$numberInt\0\2\0\0\x005\0")) for it in range(9)]
        data = b"".join(like) + b"".join(GOODS) + PEOPLE.read_bytes() + b"".join(GOODS)
        for path in (self.file(data, "parts.bson"), self.file(gzip.compress(data), "parts.bson.gz")):
            parts = plan(path, 20_000)
            for filter, sort in (({"a": {"$type": "object"}}, {"n": -1}), ({"price": {"$gt": 9.25}}, {"price": -1}), ({"age": 99}, {"name": 1})):
                wanted = list(find(path, filter, sort=sort, decode="bytes", program=PROGRAM))
                self.assertGreater(len(wanted), 4)
                self.assertEqual(find_parts(parts, filter, sort=sort, decode="bytes", workers=4, program=PROGRAM), wanted)

    def test_names_and_levels(self) -> None:
        """1,600 names with doubles take one run; a name may end like a factor, or be longer than an argument."""
        many = [document(*(double(f"n{it}", it + 0.5) for it in range(1600)))]
        odd = [document(double("x*10", 0.1), double("a" * 140_000, 0.1), decimal("a" * 140_000, 1, -1), double("~n", 2.5))]
        nested = double("d", 0.1)
        for _ in range(199):
            nested = embedded("d", nested)
        documents = [*many, *odd, document(nested), document(whole("_id", 1))]
        path = self.file(b"".join(documents), "names.bson")
        program = self.counting()
        for filter, wanted in (({"n7": 7.5}, 0), ({"x*10": {"$lt": 0.2}}, 1), ({"~n": 2.5}, 1), ({"d.d": {"$exists": True}}, 2), ({"_id": 1.0}, 3)):
            self.assertEqual(list(find(path, filter, decode="bson", program=program)), [documents[wanted]])
            self.assertEqual(len(self.starts()), 1)
            (self.room / "starts").unlink()

    def test_longest_document(self) -> None:
        """It is answered, as a line and as it is."""
        size, empty = 16_793_600, len(document(whole("_id", 1), b"\x05b\0" + bytes(5)))
        longest = document(whole("_id", 1), b"\x05b\0" + (size - empty).to_bytes(4, "little") + b"\0" + bytes(size - empty))
        self.assertEqual(len(longest), size)
        path = self.file(PRICES[0] + longest + PRICES[2], "long.bson")
        self.assertEqual(count_documents(path, {"_id": 1.0}, program=PROGRAM), 1)
        self.assertEqual(find_one(path, {"_id": 1.0}, decode="bson", program=PROGRAM), longest)
        self.assertEqual(list(find(path, {"price": {"$gt": 4.5}}, decode="bson", program=PROGRAM)), [PRICES[0], PRICES[2]])


class Damage(Room):
    """A fault of any document refuses the dump, also one that a query does not match; nothing is printed."""

    def faults(self, before: bytes) -> List[Tuple[bytes, int, str]]:
        """Damaged ends of a dump: their bytes, where the fault is, and what it is."""
        return [
            (DAMAGED, 7, 'path "d": bad boolean'),
            (DAMAGED + before * 40, 7, 'path "d": bad boolean'),
            (GOODS[0][:20], 0, 'path "": bad length'),
            (b"\5\0", 0, 'path "": length cut short'),
            (document(b"\x01\xff\0" + struct.pack("<d", 1.5)), 5, 'path "": not UTF-8'),
            (document(b"\x13a\0" + bytes(15)), 7, 'path "a": value cut short'),
            (document(double("price", 1.5), b"\x02item\0\x10\0\0\0pen\0"), 25, 'path "item": bad string length'),
        ]

    def test_from_python(self) -> None:
        data = b"".join(GOODS)
        for bad, byte, text in self.faults(data):
            path = self.file(data + bad)
            told = f"document 6, byte {len(data) + byte}, {text}"
            for ask in (
                lambda: list(find(path, {"_id": 1}, program=PROGRAM)),
                lambda: list(find(path, {"_id": 1}, decode="bson", program=PROGRAM)),
                lambda: count_documents(path, {"price": {"$gt": 99.5}}, program=PROGRAM),
                lambda: distinct(path, "_id", {"_id": 1}, program=PROGRAM),
            ):
                with self.assertRaises(DumpError) as raised:
                    ask()
                self.assertTrue(str(raised.exception).startswith(told), (str(raised.exception), told))
                self.assertTrue(raised.exception.fault)
        path = self.file(data + DAMAGED)
        for ask in (find_parts, count_parts):
            with self.assertRaises(PartError) as parted:
                ask(plan(path, 100), {"price": 9.5}, program=PROGRAM)
            self.assertEqual(parted.exception.fault, (6, len(data) + 7, "d", "bad boolean"))

    def test_commands(self) -> None:
        data = b"".join(GOODS)
        for bad, byte, text in self.faults(data)[:5]:
            path = self.file(data + bad)
            packed = self.file(gzip.compress(data + bad), "dump.bson.gz")
            for words in (["find", path], ["find", path, "--bson"], ["find", packed], ["query", path]):
                run = run_package(*map(str, words), "--query", '{"_id":1}')
                self.assertEqual((run.returncode, run.stdout), (1, ""), words)
                self.assertIn(f"document 6, byte {len(data) + byte}, {text}", run.stderr)

    def test_runs_that_fail(self) -> None:
        """Nothing is counted of a run that did not report its count, whatever its status."""
        path = self.file(b"".join(GOODS))
        for end, text in (("kill -9 $$", "ended by signal 9"), ("echo bsonwide: no memory >&2\nexit 1", "no memory"), ("exit 1", "ended with status 1"), ("exit 0", "no count")):
            program = self.wide(f'"$WIDE" "$@" 2>/dev/null\n{end}')
            for ask in (
                lambda: list(find(path, {"cost": 5.0}, program=program)),
                lambda: list(find(path, decode="bson", program=program)),
                lambda: count_documents(path, program=program),
                lambda: count_parts(plan(path), program=program),
            ):
                with self.assertRaisesRegex(BsonfindError, text):
                    ask()

    def test_runs_that_print_something_else(self) -> None:
        """Such as fewer documents than they report, or a part of one: a status of 0 is no proof."""
        path, told = self.file(b"".join(GOODS)), "echo '6 documents, end, token x' >&2"
        for decode, one, rest in (("bytes", "{}\\n", "{"), ("bson", "\\5\\0\\0\\0\\0", "\\5\\0")):
            program = self.wide(f"printf '{one * 5}{rest}'\n{told}")
            with self.assertRaisesRegex(ProgramError, "find printed 5 documents in place of 6"):
                list(find(path, decode=decode, program=program))
        for printed in ("", "5", "6 6", "x"):
            with self.assertRaisesRegex(ProgramError, "find printed b'.*' in place of 6"):
                count_documents(path, program=self.wide(f"echo '{printed}'\n{told}"))


class Commands(Dumps):
    def run_find(self, *words: object, stdin: bytes = b"") -> tuple:
        """The status, standard output and standard error of `find`."""
        return run_of_bytes("find", *words, stdin=stdin)

    def test_find(self) -> None:
        """What is printed is what the program prints: over a dump without doubles what `bsonfind` does."""
        own = subprocess.run([PROGRAM, "find", PEOPLE, '--query={"age":99}', "--limit=2"], stdout=subprocess.PIPE, stderr=subprocess.PIPE)
        packed = self.file(gzip.compress(PEOPLE.read_bytes()), "people.bson.gz")
        for words in ([PEOPLE, '--query={"age":99}', "--limit=2"], ["--limit", "2", packed, "--query", '{"age":99}']):
            self.assertEqual(self.run_find(*words), (0, own.stdout, own.stderr.decode()))
        for word, stdin in ((self.path, b""), ("-", b"".join(GOODS))):
            status, lines, told = self.run_find(word, "--query", '{"price":{"$gt":9.25}}', "--batch", "1", stdin=stdin)
            self.assertEqual((status, lines), (0, FIRST.encode() + b"\n"))
            self.assertRegex(told, r"^1 documents, more, token \S{60}\n$")
            status, lines, told = self.run_find(word, "--query", '{"price":{"$gt":9.25}}', "--after", told.split()[-1], stdin=stdin)
            self.assertEqual((status, len(lines.splitlines())), (0, 2))
            self.assertRegex(told, r"^2 documents, end, token \S{60}\n$")
        goods, gone = self.file(gzip.compress(b"".join(GOODS)), "goods.bson.gz"), (0, b"", "0 documents, end\n")
        for word in (self.path, goods):
            self.assertEqual(self.run_find(word, "--bson")[:2], (0, b"".join(GOODS)))
            status, data, told = self.run_find(word, "--bson", "--query", '{"price":{"$gt":9.25}}', "--batch=1", "--sort", '{"price":-1}')
            self.assertEqual((status, data), (0, GOODS[3]))
            self.assertRegex(told, r"^1 documents, more, token \S{60}\n$")
            for query, wanted in (('{"price":{"$gt":9.25}}', b"3\n"), ('{"price":{"$gt":99.5}}', b"0\n")):
                status, data, told = self.run_find("--count", word, "--query", query)
                self.assertEqual((status, data), (0, wanted))
                self.assertRegex(told, rf"^{wanted[:1].decode()} documents, end(, token \S{{60}})?\n$")
            self.assertEqual(self.run_find(word, "--count", "--skip=1", "--limit", "2")[:2], (0, b"2\n"))
            self.assertEqual(self.run_find(word, "--query", '{"price":99.5}', "--bson"), gone)
        self.assertEqual(self.run_find(self.path, "--query", '{"price":1.5}', "--batch", "0"), (0, b"", "0 documents, more\n"))

    def test_options_that_do_not_go_together(self) -> None:
        for words in (["--bson", "--count"], ["--count", "--batch=2"]):
            status, data, error = self.run_find(self.path, *words)
            self.assertEqual((status, data), (2, b""))
            self.assertRegex(error, "not allowed with argument|--count does not go with --batch")

    def test_one_program(self) -> None:
        """It becomes the program itself for a plain file; `bsonfind` is never started."""
        program, query = self.counting(), '{"price":9.5}'
        for words, started in (
            (["find", self.path, "--query", query, "--limit", "1"], f"bsonwide find - --query {query} --limit 1"),
            (["find", "--sort={}", "--bson", self.path], "bsonwide find - --sort={} --bson"),
            (["find", "--count", self.path, "--skip", "2"], "bsonwide find - --count --skip 2"),
            (["query", self.path, "--query", query], f"bsonwide find - --query={query} --sort={{}} --skip=0 --limit=0"),
        ):
            command = [sys.executable, "-m", "bsonfind", "--program", program, *map(str, words)]
            run = subprocess.run(command, env=environment(), stdout=subprocess.PIPE, stderr=subprocess.PIPE, timeout=PATIENCE)
            self.assertEqual(run.returncode, 0, run.stderr)
            self.assertEqual(self.starts()[-1], started)
            self.assertEqual([it for it in self.starts() if not it.startswith("bsonwide")], [])

    def test_refusals(self) -> None:
        for words, told in (
            (("--query", '{"price":{"$type":["int"]},"a":{"$type":"long"}}'), f'query: place "a.$type": {NOT_TOLD}'),
            (("--query", '{"price":{"$x":1}}'), 'query: place "price.$x": unknown operator'),
            (("--query", '{"price":1.5,"a":'), "query: byte 17: not JSON"),
            (("--query", ""), "query: byte 0: not JSON"),
            (("--query", '{"price":NumberDecimal("1.5")}'), 'query: byte 9: not JSON; write {"$numberDecimal":".."}'),
            (("--sort", "{price:1}"), "sort: byte 1: not JSON; write names in double quotation marks"),
            (("--sort", '{"price":2}'), "sort: not a sort"),
            (("--sort", '{"price":'), "sort: byte 9: not JSON"),
            (("--index", "a."), "index: empty component"),
            (("--after", "x", "--query", '{"price":1.5}'), "token: not a token"),
        ):
            for form in ([], ["--bson"], ["--count"]):
                self.assertEqual(self.run_find(self.path, *form, *words), (1, b"", f"bsonwide: {told}\n"))
                self.assertEqual(self.run_find("-", *form, *words, stdin=b"".join(GOODS)), (1, b"", f"bsonkit: {told}\n"))

    def test_files_that_are_too_large(self) -> None:
        """They are asked by parts, here of 100 bytes, in all forms, sorted, skipped and limited; a fault has its place in the whole."""
        data = b"".join(PRICES * 3)
        path, most = self.file(data), len(data) - 1
        code = f"import sys\nimport bsonfind._command.finding as it, bsonfind._command.program as its\nit.LARGEST_INPUT = its._LARGEST = {most}\n"
        code += f"it.MOST = 100\nfrom bsonfind.__main__ import main\nsys.exit(main(['--program', {PROGRAM!r}, 'find', *sys.argv[1:]]))"

        def large(*words: object, stdin: object = None) -> tuple:
            run = subprocess.run([sys.executable, "-c", code, *map(str, words)], env=environment(), stdin=stdin, capture_output=True, timeout=PATIENCE)
            return run.returncode, run.stdout, run.stderr.decode()

        for words in (
            ["--query", '{"price":{"$gt":4.99}}', "--sort", '{"price":-1}'], ["--query", '{"_id":{"$ne":1}}', "--sort", '{"price":1}', "--skip=4", "--limit=3"],
            ["--query", '{"_id":{"$lt":4}}', "--skip", "7"], ["--limit=1", "--index", "price"], ["--query", '{"_id":99}'],
        ):  # fmt: skip
            for form in ([], ["--bson"], ["--count"]):
                status, found, told = self.run_find(path, *words, *form)
                self.assertEqual(large(path, *words, *form), (status, found, told.partition(", token")[0].rstrip("\n") + "\n"), words)
        with open(path, "rb") as file:
            self.assertEqual(large("-", "--count", "--limit=1", stdin=file), (0, b"1\n", "1 documents, end\n"))
        # A count needs no buffer for what is found.
        for words, count in (([], 18), (["--skip=4"], 14), (["--skip=4", "--limit=3"], 3), (["--skip=40"], 0), (["--query", '{"_id":{"$lt":2}}'], 6)):
            self.assertEqual(large(path, "--count", *words), (0, b"%d\n" % count, f"{count} documents, end\n"), words)
        bad = self.file(data + DAMAGED, "bad.bson")
        self.assertEqual(large(bad, "--count"), (1, b"", f'bsonkit: document 18, byte {len(data) + 7}, path "d": bad boolean\n'))
        for words, told in (
            ([path, "--batch=2"], f"cannot read {path}: it has more than {most} bytes, and is asked by parts: leave --batch and --after out"),
            ([path], f"cannot read {path}: it has more than {most} bytes, and so do the documents that are found: ask for fewer"),
            ([path, "--query", '{"price":{"$x":1}}'], 'query: place "price.$x": unknown operator'),
            ([bad, "--query", '{"_id":1}'], f'document 18, byte {len(data) + 7}, path "d": bad boolean'),
        ):
            self.assertEqual(large(*words), (1, b"", f"bsonkit: {told}\n"))

    def test_full_disk_of_what_parts_give(self) -> None:
        """The directory is named, and the variable that gives another one."""
        path = self.file(b"".join(PRICES * 3))
        code = f"""
import sys, tempfile
import bsonfind._command.finding as it, bsonfind._command.program as its
it.LARGEST_INPUT = its._LARGEST = it.MOST = 100
it.temporary_file = lambda: open("/dev/full", "w+b", buffering=0)
from bsonfind.__main__ import main
sys.exit(main(["--program", {PROGRAM!r}, "find", {str(path)!r}]))
"""
        run = subprocess.run([sys.executable, "-c", code], env={**environment(), "TMPDIR": str(self.room)}, capture_output=True, text=True)
        told = f"bsonkit: cannot write what is found in {self.room}: TMPDIR names another directory\n"
        self.assertEqual((run.returncode, run.stdout, run.stderr), (1, "", told))

    def test_collection_of_an_archive(self) -> None:
        data = b"".join(GOODS)
        path = self.file(archive([("club", "people", PEOPLE.read_bytes()), ("shop", "goods", data)]), "all.archive")
        name = f"{path}::shop.goods"
        self.assertEqual(self.run_find(name, "--query", '{"price":9.5}')[:2], (0, FIRST.encode() + b"\n"))
        self.assertEqual(self.run_find(name, "--bson")[1], data)
        for command, told in (("check", "6 documents, 0 faulty\n"), ("dump", "6 objects found\n")):
            run = run_package(command, name)
            self.assertEqual((run.returncode, run.stderr), (0, told))
        run = run_package("dump", str(path))
        self.assertEqual((run.returncode, run.stdout), (1, ""))
        self.assertIn("an archive: name one of its collections", run.stderr)

    def test_query_of_many_files(self) -> None:
        """Of dumps with doubles and without, and with decimal128 beside them; one has its doubles late."""
        late = self.file(PEOPLE.read_bytes() + b"".join(GOODS), "late.bson")
        packed = self.file(gzip.compress(b"".join(GOODS)), "goods.bson.gz")
        names = [str(it) for it in (self.path, PEOPLE, packed, late)]
        lines = [f"{names[at]}\t{FIRST}" for at in (0, 2, 3)]
        for query in ('{"price":9.5}', '{"cost":{"$exists":true},"_id":0}', '{"cost":{"$gt":19.5,"$lt":20}}'):
            run = run_package("query", *names, "--query", query)
            self.assertEqual((run.returncode, run.stdout.splitlines(), run.stderr), (0, lines, "3 documents in 3 of 4 files\n"))
        mixed = self.file(b"".join(MIXED), "mixed.bson")
        run = run_package("query", str(mixed), "--query", '{"price":{"$lt":20},"_id":{"$gt":3.5}}')
        self.assertEqual((run.returncode, len(run.stdout.splitlines())), (0, 2))

    def test_query_in_parts(self) -> None:
        from bsonfind._ask.requests import Request
        from bsonfind._backup.backups import Dump
        from bsonfind._backup.query import query_dumps

        paths = [str(self.path), str(self.file(gzip.compress(b"".join(GOODS)), "goods.bson.gz"))]
        with mock.patch("bsonfind._backup.query.MOST_HELD", 100):
            found = list(query_dumps([Dump(path) for path in paths], Request('{"_id":{"$in":[0,5]}}'), 2, PROGRAM))
        self.assertEqual([it.error for it in found], [None] * len(found))
        for path in paths:
            lines = [line.decode() for it in found for line in it.lines if it.name == path]
            self.assertEqual(lines, [FIRST, '{"_id":{"$numberInt":"5"}}'])
