"""Tests of sessions and their cursors."""

import json
import os
import signal
import sys
import types
from concurrent.futures import ThreadPoolExecutor
from unittest import mock

from bsonfind import CommandError, DumpError, ProgramError, Session, SessionEndedError, find
from bsonfind._ask.connections import LONGEST_COMMAND

from .support import DAMAGED, PEOPLE, PEOPLE_LINES, PROGRAM, SHOP, SHOP_LINES, Room, packed

OLD = {"age": {"$gte": 90}}
BY_NAME = [("name", 1)]


class Sessions(Room):
    def setUp(self) -> None:
        super().setUp()
        self.session = Session(PEOPLE, PROGRAM)
        self.addCleanup(self.session.close)

    def test_all_documents(self) -> None:
        self.assertEqual(list(self.session.find(decode="bytes")), PEOPLE_LINES)
        with Session(str(SHOP), PROGRAM) as session:
            self.assertEqual(list(session.find(decode="bytes", batch_size=7)), SHOP_LINES)

    def test_dicts_keep_the_order_of_fields(self) -> None:
        found = list(self.session.find(batch_size=33, decode="canonical"))
        self.assertEqual([list(document) for document in found], [list(json.loads(line)) for line in PEOPLE_LINES])
        self.assertEqual(found, list(map(json.loads, PEOPLE_LINES)))

    def test_documents_by_pymongo(self) -> None:
        json_util = types.ModuleType("bson.json_util")
        json_util.loads = lambda line: ("document", line)
        bson = types.ModuleType("bson")
        bson.json_util = json_util
        with mock.patch.dict(sys.modules, {"bson": bson, "bson.json_util": json_util}):
            found = list(self.session.find(limit=3, decode="json_util"))
        self.assertEqual(found, [("document", line) for line in PEOPLE_LINES[:3]])

    def test_unknown_decode(self) -> None:
        with self.assertRaises(ValueError):
            self.session.find(decode="xml")

    def test_filter_sort_skip_and_limit(self) -> None:
        ages = [(int(it["age"]["$numberInt"]), number) for number, it in enumerate(map(json.loads, PEOPLE_LINES))]
        wanted = [number for age, number in sorted(ages, key=lambda it: (-it[0], it[1])) if age >= 90][3:20]
        for sort in ({"age": -1}, [("age", -1)]):
            found = self.session.find(OLD, sort=sort, skip=3, limit=17, batch_size=5, decode="bytes")
            self.assertEqual(list(found), [PEOPLE_LINES[number] for number in wanted])

    def test_indexes(self) -> None:
        by_scan = list(self.session.find(OLD, sort=BY_NAME, hint={"$natural": 1}))
        self.assertEqual(self.session.create_index("age"), {"entries": 500, "multikey": False})
        self.assertEqual(self.session.create_index("note", sparse=True), {"entries": 39, "multikey": False})
        self.assertEqual(list(self.session.find(OLD, sort=BY_NAME, hint="age")), by_scan)
        plan = self.session.explain(OLD, sort=BY_NAME)
        self.assertEqual((plan["plan"], plan["index"], plan["matches"]), ("index", "age", len(by_scan)))
        self.session.drop_index("age")
        self.assertEqual(self.session.explain(OLD)["plan"], "scan")
        self.assertIsNone(self.session.explain(OLD)["index"])

    def test_refusals(self) -> None:
        self.session.create_index("age")
        for refused, wanted in (
            (lambda: self.session.find({"a": {"$above": 1}}), ("filter", 1, "unknown operator", "a.$above")),
            (lambda: self.session.find({"a": {"$size": 1.5}}), ("filter", 3, "bad operand", "a.$size")),
            (lambda: self.session.find({"a": 1.5, "é": {"$oid": "x"}}), ("json", 4, "bad wrapper", 18)),
            (lambda: self.session.find(sort=[("a", 1), ("a", -1)]), ("session", 1, "not a sort", None)),
            (lambda: self.session.find(sort={"a": 2}), ("session", 1, "not a sort", None)),
            (lambda: self.session.find(hint="b"), ("session", 2, "no such index", None)),
            (lambda: self.session.find(after="AQIA"), ("session", 7, "not a token", None)),
            (lambda: self.session.create_index("age"), ("session", 3, "index is there", None)),
            (lambda: self.session.create_index("a..b"), ("path", 1, "empty component", None)),
            (lambda: self.session.drop_index("b"), ("session", 2, "no such index", None)),
            (lambda: self.session.explain({"$where": 1}), ("filter", 2, "not in the profile", "$where")),
        ):
            with self.subTest(wanted), self.assertRaises(CommandError) as raised:
                refused()
            error = raised.exception
            self.assertEqual((error.layer, error.number, error.text, error.place), wanted)
        self.assertEqual(len(list(self.session.find())), 500)

    def test_numbers_out_of_range(self) -> None:
        for fields in ({"skip": -1}, {"limit": -1}, {"batch_size": -1}, {"limit": 1 << 31}):
            with self.subTest(fields), self.assertRaises(ValueError):
                self.session.find(**fields)
        with self.assertRaises(TypeError):
            self.session.find(limit=1.0)

    def test_tokens_inside_and_between_batches(self) -> None:
        wanted = list(find(PEOPLE, OLD, sort=BY_NAME, decode="bytes", program=PROGRAM))
        for size in (1, 3, 4):
            cursor = self.session.find(OLD, sort=BY_NAME, batch_size=size, decode="bytes")
            self.assertIsNone(cursor.token)
            for given in range(1, 9):
                next(cursor)
                with find(PEOPLE, OLD, sort=BY_NAME, page=given, program=PROGRAM) as page:
                    self.assertEqual(len(list(page)), given)
                self.assertEqual(cursor.token, page.token)
                self.assertEqual(list(self.session.find(OLD, sort=BY_NAME, after=cursor.token, decode="bytes")), wanted[given:])
            self.assertEqual(list(cursor), wanted[8:])

    def test_token_after_a_token(self) -> None:
        first = self.session.find(OLD, limit=10, batch_size=4)
        next(first)
        second = self.session.find(OLD, limit=10, batch_size=4, after=first.token)
        self.assertEqual(second.token, first.token)
        self.assertEqual([next(second) for _ in range(3)], [next(first) for _ in range(3)])
        self.assertEqual(second.token, first.token)
        self.assertEqual(list(second), list(first))
        self.assertEqual(second.token, first.token)

    def test_closed_cursor(self) -> None:
        with self.session.find(OLD, batch_size=4) as cursor:
            next(cursor)
        self.assertEqual(list(cursor), [])
        rest = list(self.session.find(OLD, after=cursor.token))
        self.assertEqual(rest, list(self.session.find(OLD))[1:])

    def test_cursors_that_are_left(self) -> None:
        first = json.loads(PEOPLE_LINES[0])
        for _ in range(150):
            self.assertEqual(next(self.session.find(batch_size=1, decode="dict")), first)

    def test_too_many_cursors(self) -> None:
        cursors = [self.session.find() for _ in range(64)]
        with self.assertRaises(CommandError) as raised:
            self.session.find()
        self.assertEqual(raised.exception.text, "too many cursors")
        cursors.pop().close()
        self.assertEqual(len(list(self.session.find())), 500)

    def test_threads_share_a_session(self) -> None:
        def read(age: int) -> list:
            return list(self.session.find({"age": {"$gte": age}}, sort=BY_NAME, batch_size=3, decode="bytes"))

        ages = range(60, 92, 4)
        with ThreadPoolExecutor(8) as pool:
            found = list(pool.map(read, ages))
        wanted = [find(PEOPLE, {"age": {"$gte": age}}, sort=BY_NAME, decode="bytes", program=PROGRAM) for age in ages]
        self.assertEqual(found, list(map(list, wanted)))

    def test_large_replies_and_commands(self) -> None:
        text = "x" * 300_000
        with Session(self.file(packed([f'{{"a":"{text}"}}'] * 10)), PROGRAM) as session:
            self.assertEqual([it["a"] for it in session.find({"a": {"$in": [text, "y" * 1_000_000]}})], [text] * 10)

    def test_deep_documents(self) -> None:
        line = '{"a":' * 199 + "{}" + "}" * 199
        with Session(self.file(packed([line])), PROGRAM) as session:
            self.assertEqual(list(session.find(decode="bytes")), [line.encode()])
            self.assertEqual(list(session.find(decode="canonical")), [json.loads(line)])

    def test_command_that_is_too_long(self) -> None:
        with self.assertRaises(ValueError):
            self.session.find({"a": "x" * LONGEST_COMMAND})
        self.assertEqual(len(list(self.session.find())), 500)


class Endings(Room):
    def test_dump_with_a_fault(self) -> None:
        with self.assertRaises(DumpError) as raised:
            Session(self.file(PEOPLE.read_bytes() + DAMAGED), PROGRAM)
        self.assertEqual(str(raised.exception), 'document 500, byte 92733, path "d": bad boolean')
        self.assertEqual(raised.exception.fault, (500, 92733, "d", "bad boolean"))

    def test_fault_in_a_long_path(self) -> None:
        """The message does not fit into a pipe, and has characters that end a line elsewhere."""
        name = "\u2028x\x85" * 60_000
        element = b"\x08" + name.encode() + b"\0\2"
        with self.assertRaises(DumpError) as raised:
            Session(self.file((len(element) + 5).to_bytes(4, "little") + element + b"\0"), PROGRAM)
        self.assertEqual(raised.exception.fault, (0, 6 + len(name.encode()), name, "bad boolean"))

    def test_file_that_is_not_there(self) -> None:
        with self.assertRaises(DumpError) as raised:
            Session(self.room / "missing.bson", PROGRAM)
        self.assertEqual(raised.exception.text, f"cannot open {self.room}/missing.bson")

    def test_directory(self) -> None:
        with self.assertRaises(DumpError) as raised:
            Session(self.room, PROGRAM)
        self.assertEqual(raised.exception.text, f"cannot read {self.room}: it is a directory")

    def test_program_that_is_not_there(self) -> None:
        with self.assertRaises(ProgramError) as raised:
            Session(PEOPLE, "no-such-program")
        self.assertEqual(str(raised.exception), "cannot start no-such-program: No such file or directory")

    def test_programs_that_are_not_bsonwide(self) -> None:
        """What they print is no reply, or none that this command has."""
        for text in ("hello", "5", '{"ok":1', "[]", '{"a":true}', '{"ok":false}', '{"ok":true}', "\\000\\001\\377"):
            program = self.wide(f"""while read -r line; do printf '%b\\n' '{text}'; done""")
            for ask in (Session.find_one, Session.count_documents):
                with self.subTest(text), self.assertRaises(ProgramError) as raised, Session(PEOPLE, program) as session:
                    ask(session, {})
                self.assertIn("not bsonwide", str(raised.exception))

    def test_name_with_a_hyphen(self) -> None:
        self.file(PEOPLE.read_bytes(), "-")
        there = os.getcwd()
        self.addCleanup(os.chdir, there)
        program = os.path.abspath(PROGRAM)
        os.chdir(self.room)
        with Session("-", program) as session:
            self.assertEqual(len(list(session.find())), 500)

    def test_closed_session(self) -> None:
        with Session(PEOPLE, PROGRAM) as session:
            cursor = session.find(batch_size=2, decode="canonical")
            next(cursor)
        self.assertEqual(next(cursor), json.loads(PEOPLE_LINES[1]))
        with self.assertRaises(SessionEndedError):
            next(cursor)
        with self.assertRaises(SessionEndedError):
            session.find()
        session.close()

    def test_program_that_is_killed(self) -> None:
        pids = self.room / "pid"
        session = Session(PEOPLE, self.wide('echo $$ >"$ROOM/pid"\nexec "$WIDE" "$@"'))
        self.addCleanup(session.close)
        os.kill(int(pids.read_text()), signal.SIGKILL)
        with self.assertRaises(SessionEndedError) as raised:
            session.find()
        self.assertEqual(str(raised.exception), "ended by signal 9")
        with self.assertRaises(SessionEndedError):
            session.find()

    def test_reply_that_is_cut(self) -> None:
        refusal = '{"ok":false,"layer":"session","number":{"$numberInt":"6"},"text":"no such cursor"}'
        cut = "printf '{\"ok\":tr'\necho 'bsonwide: no memory' >&2\nexit 1"
        session = Session(PEOPLE, self.wide(f"read line\necho '{refusal}'\nread line\n{cut}"))
        self.addCleanup(session.close)
        with self.assertRaises(SessionEndedError) as raised:
            session.find()
        self.assertEqual(str(raised.exception), "no memory")

    def test_interrupt(self) -> None:
        """No program is left, where Python alone is interrupted while a dump is read."""
        program = self.wide('echo $$ >>"$ROOM/pids"\nexec sleep 600')
        status = self.interrupt(f"import bsonfind\nbsonfind.Session({str(PEOPLE)!r}, {program!r})", 1)
        self.assertEqual(status, -signal.SIGINT)
