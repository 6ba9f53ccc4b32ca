"""Tests of `find`, one run of the program."""

import json
import os

from bsonfind import CommandError, DumpError, ProgramError, find, find_one

from .support import DAMAGED, PEOPLE, PEOPLE_LINES, PROGRAM, Room

OLD = {"age": {"$gte": 90}}


class Answers(Room):
    def test_lines_and_documents(self) -> None:
        self.assertEqual(list(find(PEOPLE, decode="bytes", program=PROGRAM)), PEOPLE_LINES)
        self.assertEqual(list(find(str(PEOPLE), limit=3, decode="canonical", program=PROGRAM)), list(map(json.loads, PEOPLE_LINES[:3])))

    def test_pages_and_tokens(self) -> None:
        first = find(PEOPLE, OLD, sort={"name": 1}, page=5, index="age", decode="bytes", program=PROGRAM)
        self.assertEqual((first.token, first.end), (None, False))
        given = list(first)
        self.assertFalse(first.end)
        second = find(PEOPLE, OLD, sort={"name": 1}, after=first.token, decode="bytes", program=PROGRAM)
        given += list(second)
        self.assertTrue(second.end)
        self.assertEqual(given, list(find(PEOPLE, OLD, sort={"name": 1}, decode="bytes", program=PROGRAM)))
        self.assertEqual(len(given), 49)

    def test_no_documents(self) -> None:
        answer = find(PEOPLE, {"age": "old"}, program=PROGRAM)
        self.assertEqual(list(answer), [])
        self.assertEqual((answer.token, answer.end), (None, True))

    def test_refusals(self) -> None:
        for words, wanted in (
            ({"filter": {"$or": [{"a": 1}, {"b": {"$regex": "^A"}}]}}, ("filter", 2, "not in the profile", "$or.1.b.$regex")),
            ({"filter": {"a.": 1}}, ("filter", 5, "bad path", "a.")),
            ({"filter": {"a": {"$size": 1.5}}}, ("filter", 3, "bad operand", "a.$size")),
            ({"filter": {"$numberInt": "1"}}, ("json", 2, "not a document", None)),
            ({"sort": {"a": 0.5}}, ("json", 5, "not in the profile", 5)),
            ({"sort": {"a": 3}}, ("session", 1, "not a sort", None)),
            ({"index": "a..b"}, ("path", 1, "empty component", None)),
            ({"after": "AQIA"}, ("session", 7, "not a token", None)),
            ({"after": "--"}, ("session", 7, "not a token", None)),
        ):
            with self.subTest(words), self.assertRaises(CommandError) as raised:
                list(find(PEOPLE, **words, program=PROGRAM))
            error = raised.exception
            self.assertEqual((error.layer, error.number, error.text, error.place), wanted)

    def test_token_of_another_request(self) -> None:
        answer = find(PEOPLE, OLD, page=1, program=PROGRAM)
        list(answer)
        with self.assertRaises(CommandError) as raised:
            list(find(PEOPLE, after=answer.token, program=PROGRAM))
        self.assertEqual((raised.exception.layer, raised.exception.number), ("session", 8))

    def test_dump_that_is_refused(self) -> None:
        with self.assertRaises(DumpError) as raised:
            next(find(self.file(DAMAGED), program=PROGRAM))
        self.assertEqual(raised.exception.fault, (0, 7, "d", "bad boolean"))
        with self.assertRaises(DumpError):
            next(find(self.room / "missing.bson", program=PROGRAM))

    def test_program_that_fails(self) -> None:
        with self.assertRaises(ProgramError):
            next(find(PEOPLE, program="no-such-program"))
        with self.assertRaises(ProgramError) as raised:
            list(find(PEOPLE, program=self.wide("printf '{\"a\":1}\\n{\"a\"'\nkill -9 $$")))
        self.assertEqual(str(raised.exception), "ended by signal 9")

    def test_programs_that_are_not_bsonfind(self) -> None:
        """What they print is no document."""
        for text in ("hello", "5", '{"a":', "[]", "\\377"):
            program = self.wide(f"printf '%b\\n' '{text}'")
            for decode in ("dict", "plain"):
                with self.subTest(text), self.assertRaises(ProgramError) as raised:
                    find_one(PEOPLE, decode=decode, program=program)
                self.assertIn("not bsonwide", str(raised.exception))

    def test_answer_that_is_left(self) -> None:
        program = self.wide('echo $$ >"$ROOM/pid"\nprintf \'{"a":1}\\n\'\nexec sleep 600')
        with find(PEOPLE, program=program) as answer:
            self.assertEqual(next(answer), {"a": 1})
        self.assertEqual(list(answer), [])
        with self.assertRaises(ProcessLookupError):
            os.kill(int((self.room / "pid").read_text()), 0)
