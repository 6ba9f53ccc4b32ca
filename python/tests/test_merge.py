"""Tests of the answers of parts. What they should be is made by the modules of the repository's tests, which know no parts."""

import itertools
import json
import pickle
import random
import signal
import sys
import unittest
from concurrent.futures import ProcessPoolExecutor, ThreadPoolExecutor

from bsonfind import Check, CommandError, Fault, PartError, ProgramError, check_parts, count_parts, find, find_parts, plan

from .support import DAMAGED, DOUBLE, PEOPLE, PEOPLE_LINES, PROGRAM, ROOT, Room, packed

OLD = {"age": {"$gte": 90}}
SORT = [("address.city", -1), ("age", 1)]

# Values of mixed kinds, equal ones of other types among them; None is a field that is missing.
VALUES = [None, "null", "1", "2", '{"$numberLong":"2"}', '"2"', '{"$symbol":"2"}', '[1,"2"]', "[]", '{"b":1}', '{"$minKey":1}']


def mixed(count: int) -> list:
    """Lines of documents of mixed kinds, many of which are equal for a sort."""
    chosen = random.Random(7)
    lines = []
    for number in range(count):
        fields = [("_id", str(number)), *((name, chosen.choice(VALUES)) for name in "abc")]
        lines.append("{" + ",".join(f'"{name}":{value}' for name, value in fields if value) + "}")
    return lines


@unittest.skipIf(sys.version_info < (3, 10), "the modules of the repository's tests want Python 3.10")
class Law(Room):
    """The answer of the parts is that of the whole, as Python makes it."""

    def test_ties_and_mixed_kinds(self) -> None:
        sys.path.insert(0, str(ROOT / "tests"))
        self.addCleanup(sys.path.remove, str(ROOT / "tests"))
        from model.answers import Dump, Request
        from model.texts import read_document

        lines = mixed(60)
        path = self.file(packed(lines))
        dump = Dump([read_document(line.encode()) for line in lines])
        filters = ({}, {"a": {"$gte": 1}}, {"$or": [{"a": None}, {"b": {"$type": "string"}}]})
        sorts = ({}, {"a": 1}, {"a": -1, "b": 1}, {"b": -1, "c": -1, "a": 1})
        cuts = ((0, 0), (3, 0), (0, 7), (5, 9), (59, 3), (70, 1))
        chosen = random.Random(8).sample(list(itertools.product(filters, sorts, cuts)), 24)
        for (query, sort, (skip, limit)), most in zip(chosen, itertools.cycle((100, 500, 1000))):
            values = [read_document(json.dumps(it).encode()) for it in (query, sort)]
            wanted = [dump.documents[place] for place in dump.answer(Request(*values, skip, limit))]
            with self.subTest(query=query, sort=sort, skip=skip, limit=limit), ThreadPoolExecutor(4) as pool:
                cut = {"sort": sort, "skip": skip, "limit": limit}
                found = find_parts(plan(path, most), query, **cut, map=pool.map, decode="bytes", program=PROGRAM)
                self.assertEqual([read_document(line) for line in found], wanted)


class Engines(Room):
    def wanted(self) -> list:
        return list(find(PEOPLE, OLD, sort=SORT, skip=3, limit=20, decode="bytes", program=PROGRAM))

    def asked(self, **how: object) -> list:
        return find_parts(plan(PEOPLE, 20_000), OLD, sort=SORT, skip=3, limit=20, decode="bytes", program=PROGRAM, **how)

    def test_one_after_the_other(self) -> None:
        self.assertEqual(self.asked(), self.wanted())

    def test_threads(self) -> None:
        with ThreadPoolExecutor(3) as pool:
            self.assertEqual(self.asked(map=pool.map), self.wanted())

    def test_processes(self) -> None:
        with ProcessPoolExecutor(2) as pool:
            self.assertEqual(self.asked(map=pool.map), self.wanted())

    def test_submitted_and_gathered(self) -> None:
        with ThreadPoolExecutor(3) as pool:

            def gathered(ask: object, parts: list) -> list:
                futures = [pool.submit(ask, part) for part in parts]
                return [future.result() for future in futures]

            self.assertEqual(self.asked(map=gathered), self.wanted())

    def test_what_goes_to_another_machine(self) -> None:
        def pickled(ask: object, parts: list) -> list:
            return [pickle.loads(pickle.dumps(pickle.loads(pickle.dumps(ask))(part))) for part in parts]

        self.assertEqual(self.asked(map=pickled), self.wanted())

    def test_engine_that_loses_or_turns_round(self) -> None:
        for wrong in (
            lambda ask, parts: map(ask, parts[1:]),
            lambda ask, parts: map(ask, reversed(parts)),
            lambda ask, parts: map(ask, [*parts, parts[0]]),
        ):
            with self.assertRaises(ProgramError):
                self.asked(map=wrong)


class Parts(Room):
    def test_documents(self) -> None:
        found = find_parts(plan(PEOPLE, 40_000), limit=2, decode="canonical", program=PROGRAM)
        self.assertEqual(found, list(map(json.loads, PEOPLE_LINES[:2])))

    def test_several_files(self) -> None:
        first = self.file(packed(['{"a":3}', '{"a":1}']), "first.bson")
        second = self.file(packed(['{"a":2}']), "second.bson")
        parts = plan(first, 1) + plan(second, 1)
        found = find_parts(parts, sort={"a": 1}, program=PROGRAM)
        self.assertEqual(found, [{"a": number} for number in (1, 2, 3)])
        self.assertEqual(count_parts(parts, {"a": {"$gt": 1}}, program=PROGRAM), 2)

    def test_no_parts(self) -> None:
        self.assertEqual(find_parts([], OLD, program=PROGRAM), [])
        self.assertEqual(count_parts([], OLD, program=PROGRAM), 0)
        self.assertEqual(check_parts([], program=PROGRAM), Check(0, []))

    def test_greatest_skip_and_limit(self) -> None:
        most = (1 << 31) - 1
        found = find_parts(plan(PEOPLE, 40_000), OLD, skip=1, limit=most, decode="bytes", program=PROGRAM)
        self.assertEqual(found, list(find(PEOPLE, OLD, skip=1, decode="bytes", program=PROGRAM)))
        self.assertEqual(find_parts(plan(PEOPLE, 40_000), OLD, skip=most, limit=most, program=PROGRAM), [])

    def test_counts(self) -> None:
        ages = [int(json.loads(line)["age"]["$numberInt"]) for line in PEOPLE_LINES]
        parts = plan(PEOPLE, 20_000)
        self.assertEqual(count_parts(parts, program=PROGRAM), 500)
        with ThreadPoolExecutor(4) as pool:
            self.assertEqual(count_parts(parts, OLD, map=pool.map, program=PROGRAM), sum(age >= 90 for age in ages))

    def test_faults_count_in_the_whole_file(self) -> None:
        data = PEOPLE.read_bytes()
        path = self.file(data[:39978] + DAMAGED + DOUBLE + data[39978:] + DAMAGED)
        checked = check_parts(plan(path, 10_000), program=PROGRAM)
        faults = [Fault(220, 39985, "d", "bad boolean"), Fault(502, len(data) + 32, "d", "bad boolean")]
        self.assertEqual(checked, Check(503, faults))


class BadInput(Room):
    def test_part_with_a_fault(self) -> None:
        data = PEOPLE.read_bytes()
        parts = plan(self.file(data[:39978] + DAMAGED + data[39978:]), 10_000)
        for ask in (find_parts, count_parts):
            with ThreadPoolExecutor(2) as pool, self.assertRaises(PartError) as raised:
                ask(parts, OLD, map=pool.map, program=PROGRAM)
            error = raised.exception
            self.assertEqual(error.fault, (220, 39985, "d", "bad boolean"))
            self.assertIn(error.part, parts)
            self.assertLessEqual(error.part.offset, 39978)
            self.assertIn('document 220, byte 39985, path "d": bad boolean', str(error))
            self.assertEqual(str(pickle.loads(pickle.dumps(error))), str(error))

    def test_file_that_shrank(self) -> None:
        """Between two documents too, where each part is a dump by itself."""
        data = PEOPLE.read_bytes()
        for length in (79930, 79931, 39978, 0):
            path = self.file(data)
            parts = plan(path, 40_000)
            path.write_bytes(data[:length])
            for ask in (find_parts, count_parts, check_parts):
                with self.subTest(length), self.assertRaises(PartError) as raised:
                    ask(parts, program=PROGRAM)
                self.assertIn("the file became shorter", str(raised.exception))

    def test_file_that_went_away(self) -> None:
        path = self.file(PEOPLE.read_bytes())
        parts = plan(path, 40_000)
        path.unlink()
        with self.assertRaises(PartError) as raised:
            find_parts(parts, program=PROGRAM)
        self.assertEqual(raised.exception.text, f"cannot open {path}")

    def test_program_that_is_not_there(self) -> None:
        for ask in (find_parts, count_parts, check_parts):
            with self.assertRaises(ProgramError):
                ask(plan(PEOPLE, 40_000), map=self.not_asked, program="no-such-program")

    def test_request_that_is_refused_once(self) -> None:
        parts, program = plan(PEOPLE, 10_000), self.counting()
        for number, (query, sort) in enumerate((({"a": {"$above": 1}}, None), ({"a": {"$size": 1.5}}, None), ({}, {"a": 2})), 1):
            with self.assertRaises(CommandError):
                find_parts(parts, query, sort=sort, map=self.not_asked, program=program)
            self.assertEqual(len(self.starts()), number)
        with self.assertRaises(CommandError):
            count_parts(parts, {"$where": "1"}, map=self.not_asked, program=program)
        self.assertEqual(len(self.starts()), 4)

    def not_asked(self, ask: object, parts: list) -> list:
        """A map that is not to be called."""
        self.fail("a part was asked")

    def test_program_that_is_killed(self) -> None:
        program = self.wide('case "$1 $(head -c 4 | wc -c)" in "find 4") kill -9 $$;; *) exec "$WIDE" "$@";; esac')
        with self.assertRaises(PartError) as raised:
            find_parts(plan(PEOPLE, 40_000), program=program)
        self.assertIn("ended by signal 9", str(raised.exception))

    def test_interrupt(self) -> None:
        """All programs end where Python alone is interrupted, and none is started after."""
        parts = "from bsonfind import find_parts, plan\nfrom concurrent.futures import ThreadPoolExecutor\n"
        call = f"find_parts(plan({str(PEOPLE)!r}, 10_000), map=%s, program={self.stuck_searches()!r})"
        status = self.interrupt(f"{parts}with ThreadPoolExecutor(3) as pool: {call % 'pool.map'}", 3)
        self.assertEqual(status, -signal.SIGINT)
        self.assertEqual(len((self.room / "pids").read_text().split()), 3)

    def test_interrupt_of_one_after_the_other(self) -> None:
        call = f"find_parts(plan({str(PEOPLE)!r}, 10_000), program={self.stuck_searches()!r})"
        self.assertEqual(self.interrupt(f"from bsonfind import find_parts, plan\n{call}", 1), -signal.SIGINT)
