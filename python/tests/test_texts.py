"""Tests of the texts that go to the program and come from it."""

import json
import random
import re
import sys
import types
import unittest
from unittest import mock

from bsonfind import ArgumentError, CommandError, DumpError, Fault, ProgramError
from bsonfind._ask.replies import documents_in, read_batch, read_reply
from bsonfind._ask.requests import Request
from bsonfind._faults import read_fault
from bsonfind._run.messages import error_of


class Requests(unittest.TestCase):
    def test_texts(self) -> None:
        request = Request.of({"a": {"$in": [1, None, True, "é\0\n"]}}, [("b.c", -1), ("a", 1)], 2, 3)
        self.assertEqual(request.filter, '{"a":{"$in":[1,null,true,"\\u00e9\\u0000\\n"]}}')
        self.assertEqual(request.sort, '{"b.c":-1,"a":1}')
        self.assertEqual(request.words(), [f"--query={request.filter}", f"--sort={request.sort}", "--skip=2", "--limit=3"])
        self.assertEqual(Request.of(), Request("{}", "{}", 0, 0))
        self.assertEqual(Request.of(sort={"b": 1, "a": -1}).sort, '{"b":1,"a":-1}')

    def test_a_path_that_stands_twice_is_left_to_the_program(self) -> None:
        self.assertEqual(Request.of(sort=[("a", 1), ("a", -1)]).sort, '{"a":1,"a":-1}')

    def test_what_parts_are_asked(self) -> None:
        most = (1 << 31) - 1
        for (skip, limit), wanted in {(0, 0): 0, (5, 0): 0, (0, 7): 7, (5, 7): 12, (most, 1): 0, (most - 1, 1): most}.items():
            part = Request.of({"a": 1}, {"b": 1}, skip, limit).of_part()
            self.assertEqual(part, Request('{"a":1}', '{"b":1}', 0, wanted))

    def test_types_of_pymongo(self) -> None:
        key = re.compile("5")
        with mock.patch.dict(sys.modules, {"bson": None}), self.assertRaises(TypeError) as raised:
            Request.of({"a": key})
        self.assertIn("Pattern", str(raised.exception))
        json_util = types.ModuleType("bson.json_util")
        json_util.CANONICAL_JSON_OPTIONS = "canonical"
        json_util.default = lambda value, options: {"$regex": [value.pattern, options]}
        bson = types.ModuleType("bson")
        bson.json_util = json_util
        with mock.patch.dict(sys.modules, {"bson": bson, "bson.json_util": json_util}):
            self.assertEqual(Request.of({"a": key}).filter, '{"a":{"$regex":["5","canonical"]}}')


    def test_code_of_pymongo(self) -> None:
        """It is a text with a scope, and not asked for as a text."""

        class Code(str):
            scope = None

        for filter in ({"a": Code("f()")}, {"a": {"$in": [1, Code("f()")]}}):
            with self.assertRaisesRegex(ArgumentError, r'{"\$code": "f\(\)"}'):
                Request.of(filter)


class Told(unittest.TestCase):
    def test_faults(self) -> None:
        for fault in (
            Fault(0, 0, "", "bad length"),
            Fault(7, 4_294_967_294, 'a.0."b": c', "not UTF-8"),
            Fault(1, 2, "a\n\x85\u2028 document 1, byte 2", "double"),
        ):
            self.assertEqual(read_fault(str(fault)), fault)
        self.assertIsNone(read_fault("3 documents, 0 faulty"))
        self.assertEqual(Fault(1, 20, "a", "double").moved(10, 300), Fault(11, 320, "a", "double"))

    def test_errors(self) -> None:
        double = Fault(1, 9, "a", "double")
        for told, wanted in (
            ("bsonfind: cannot open a: b\n", DumpError("cannot open a: b")),
            ("bsonfind: cannot read\n0 documents, 0 faulty\n", DumpError("cannot read")),
            ("bsonfind: input too long\n", DumpError("input too long")),
            ("bsonfind: no memory\n", ProgramError("no memory")),
            ("bsonfind: cannot write\n", ProgramError("cannot write")),
            (f"bsonfind: {double}\n", DumpError(str(double), double)),
            ('bsonfind: query: place "a.$b": unknown operator\n', CommandError("filter", 1, "unknown operator", "a.$b")),
            ('bsonfind: query: place "a": too deep\n', CommandError("filter", 6, "too deep", "a")),
            ("bsonfind: query: byte 9: too deep\n", CommandError("json", 3, "too deep", 9)),
            ("bsonfind: query: not a document\n", CommandError("json", 2, "not a document", None)),
            ("bsonfind: sort: byte 0: not JSON\n", CommandError("json", 1, "not JSON", 0)),
            ('bsonwide: query: byte 7: not JSON; write {"$oid":".."}\n', CommandError("json", 1, "not JSON", 7)),
            ("bsonfind: sort: not a sort\n", CommandError("session", 1, "not a sort", None)),
            ("bsonfind: token: token place past the dump\n", CommandError("session", 9, "token place past the dump", None)),
            ("bsonfind: index: too many components\n", CommandError("path", 2, "too many components", None)),
            ("usage: bsonfind dump FILE\n", ProgramError("usage: bsonfind dump FILE")),
            ("", ProgramError("ended with status 1")),
        ):
            error = error_of(1, told)
            self.assertEqual((type(error), error.args), (type(wanted), wanted.args))
        self.assertEqual(str(error_of(-9, "")), "ended by signal 9")

    def test_words_of_errors(self) -> None:
        self.assertEqual(str(CommandError("filter", 1, "unknown operator", "a.$b")), 'filter: place "a.$b": unknown operator')
        self.assertEqual(str(CommandError("json", 5, "not in the profile", 13)), "json: byte 13: not in the profile")
        self.assertEqual(str(CommandError("session", 1, "not a sort")), "session: not a sort")
        told = error_of(1, 'bsonwide: query: byte 7: not JSON; write {"$oid":".."}\n')
        self.assertEqual(str(told), 'json: byte 7: not JSON; write {"$oid":".."}')


class Replies(unittest.TestCase):
    def test_batches(self) -> None:
        documents = [b'{"a":"]},{"}', b"{}", b'{"a":[{"b":{"$numberInt":"1"}},{}]}']
        batch = read_batch(b'{"ok":true,"documents":[%s],"end":true,"token":"AQ=="}\n' % b",".join(documents))
        self.assertEqual(batch, (b",".join(documents), True, "AQ=="))
        self.assertEqual(documents_in(batch.found), documents)
        self.assertEqual(read_batch(b'{"ok":true,"documents":[],"end":false,"token":null}\n'), (b"", False, None))

    def test_numbers_of_documents(self) -> None:
        places = b'[{"$numberInt":"7"},{"$numberInt":"0"},{"$numberLong":"2147483648"}]'
        batch = read_batch(b'{"ok":true,"places":%s,"end":false,"token":"AQ=="}\n' % places)
        self.assertEqual(batch, ([7, 0, 2147483648], False, "AQ=="))
        self.assertEqual(read_batch(b'{"ok":true,"places":[],"end":true,"token":null}\n'), ([], True, None))
        for bad in (b"7", b"null", b"{}", b'["7"]', b"[true]", b'[{"$numberInt":"-1"}]', b'[{"$numberInt":"x"}]', b"[1.5]"):
            with self.assertRaises(ProgramError):
                read_batch(b'{"ok":true,"places":%s,"end":true,"token":null}\n' % bad)
        for cut in (b'{"ok":true,"places":[]}\n', b'{"ok":true,"places":[\n'):
            with self.assertRaises(ProgramError):
                read_batch(cut)

    def test_documents_of_random_texts(self) -> None:
        """Texts are split where documents end, whatever is in their names and texts."""
        chosen = random.Random(5)
        texts = ["", "},{", "{", "}", '"', "\\", '\\"', '},{"a":"', "],", "é\n", '\\\\"{', "x" * 9]

        def value(levels: int) -> object:
            kind = chosen.randrange(4 if levels else 2)
            if kind == 2:
                return [value(levels - 1) for _ in range(chosen.randrange(4))]
            return document(levels - 1) if kind == 3 else chosen.choice(texts) if kind else chosen.randrange(9)

        def document(levels: int) -> dict:
            names = [chosen.choice(["_id", "a", *texts]) for _ in range(chosen.randrange(4))]
            return {name: value(levels) for name in ["_id", *names][chosen.randrange(5) == 0 :]}

        for _ in range(400):
            wanted = [json.dumps(document(3), separators=(",", ":")).encode() for _ in range(chosen.randrange(1, 9))]
            with self.subTest(wanted):
                self.assertEqual(documents_in(b",".join(wanted)), wanted)
        for bad in (b'{"a":1},', b'{"a":1}{}', b"{", b",{}"):
            with self.assertRaisesRegex(ProgramError, "is not bsonwide"):
                documents_in(bad + b"{")

    def test_numbers(self) -> None:
        reply = read_reply(b'{"ok":true,"entries":{"$numberLong":"9223372036854775807"},"multikey":false}')
        self.assertEqual(reply, {"entries": 9223372036854775807, "multikey": False})

    def test_refusals(self) -> None:
        line = b'{"ok":false,"layer":"json","number":{"$numberInt":"2"},"text":"not a document","at":null}'
        for read in (read_reply, read_batch):
            with self.assertRaises(CommandError) as raised:
                read(line)
            self.assertEqual(raised.exception.args, ("json", 2, "not a document", None))
