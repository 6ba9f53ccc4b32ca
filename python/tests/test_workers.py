"""Tests of processes that work side by side: what they come to is what one comes to, in the order of the documents."""

import os
import random
import signal
import unittest
from functools import partial
from typing import Any, List
from unittest import mock

from bsonfind import ProgramError
from bsonfind._backup.count import Count, TooManyError
from bsonfind._backup.schema import Looked, Schema
from bsonfind._backup.workers import Spread
from bsonfind._dumps.paths import Path

from .bson import decimal, document, double, field, int32, int64, text
from .support import DAMAGED, PEOPLE, Room, run_package, wait_for
from .test_count import array


def some_documents(number: int) -> List[bytes]:
    """Documents of many forms, the same each time."""
    rng = random.Random(9)
    values = [
        lambda: field(0x10, "v", int32(rng.randrange(50))), lambda: field(0x12, "v", int64(rng.randrange(50))),
        lambda: field(0x01, "v", double(rng.randrange(50) / 2)), lambda: field(0x13, "v", decimal(rng.randrange(50), -1)),
        lambda: field(0x02, "v", text(f"t{rng.randrange(50)}")), lambda: b"",
        lambda: array("v", *((0x10, int32(rng.randrange(9))) for _ in range(rng.randrange(4)))),
        lambda: field(0x03, "v", document(field(0x10, f"n{rng.randrange(40)}", int32(1)))),
    ]  # fmt: skip
    return [document(field(0x10, "_id", int32(it)), rng.choice(values)()) for it in range(number)]


def batches(documents: List[bytes], size: int) -> List[List[bytes]]:
    """The documents, some at once."""
    return [documents[at : at + size] for at in range(0, len(documents), size)]


def counts_in(count: Count) -> Any:
    """What a count came to."""
    sums = {value: (it.value(), it.others) for value, it in [(None, count._sum), *count._sums.items()]}
    return count._documents, count._counts, sums


def number_of(documents: List[bytes]) -> int:
    return os.getpid()


def too_many(documents: List[bytes]) -> None:
    raise TooManyError("more than that")


def mistaken(documents: List[bytes]) -> None:
    raise RuntimeError("not foreseen")


def killed(documents: List[bytes]) -> None:
    os.kill(os.getpid(), signal.SIGKILL)


class Spreading(Room):
    def spread(self, work: Any, take: Any, given: List[List[bytes]]) -> None:
        with mock.patch("bsonfind._backup.workers.processors", lambda: 3), Spread(work, take) as spread:
            for some in given:
                spread.add(some)
            spread.take_rest()

    def test_schema(self) -> None:
        """The same rows, in the same order, also where names become one."""
        documents = some_documents(4000)
        for most in (1000, 20):
            with mock.patch("bsonfind._backup.schema.MOST_NAMES", most):
                one, many = Schema(), Schema()
                one.take(documents)
                self.spread(Looked, many.add, batches(documents, 170))
                self.assertEqual((many.documents, many.looked_at), (4000, 4000))
                if most == 1000:
                    self.assertEqual(list(many.rows()), list(one.rows()))
                else:
                    self.assertEqual({row.path: row.types for row in many.rows()}, {row.path: row.types for row in one.rows()})

    def test_count(self) -> None:
        documents = some_documents(4000)
        for by, add in ((Path("v"), None), (None, Path("v")), (Path("v"), Path("_id")), (Path("none"), Path("v"))):
            one, many = Count(by, add), Count(by, add)
            one.take(documents)
            self.spread(partial(Count, by, add), many.merge, batches(documents, 330))
            self.assertEqual(counts_in(many), counts_in(one))
            self.assertEqual(list(many._counts), list(one._counts))

    def test_deepest_documents(self) -> None:
        """Fields of 200 levels come back from a process."""
        deep = document(field(0x10, "a", int32(7)))
        for _ in range(199):
            deep = document(field(0x03, "a", deep))
        schema = Schema()
        self.spread(Looked, schema.add, [[deep], [deep], [deep]])
        rows = list(schema.rows())
        self.assertEqual((len(rows), rows[-1].path, rows[-1].types), (200, ".".join("a" * 200), {"int": 3}))

    def test_few_documents_start_no_process(self) -> None:
        found: List[int] = []
        self.spread(number_of, found.append, [some_documents(5)])
        self.assertEqual(found, [os.getpid()])
        self.spread(number_of, found.append, [])
        self.assertEqual(len(found), 1)
        self.spread(number_of, found.append, batches(some_documents(60), 5))
        self.assertEqual(len(found), 13)
        self.assertNotIn(os.getpid(), found[1:])
        for pid in set(found[1:]):
            wait_for(lambda pid=pid: not os.path.exists(f"/proc/{pid}"))

    def test_errors(self) -> None:
        """One of the package is raised as it is; else what the process says."""
        given = batches(some_documents(30), 5)
        for work, kind, told in (
            (too_many, TooManyError, "^more than that$"), (mistaken, ProgramError, "RuntimeError: not foreseen$"),
            (killed, ProgramError, "ended by signal 9"),
        ):  # fmt: skip
            with self.assertRaisesRegex(kind, told):
                self.spread(work, lambda _: None, given)

    def test_commands_over_large_dumps(self) -> None:
        """Of several inputs of 4 MB; a fault in one of them is reported, and its document left out."""
        people = PEOPLE.read_bytes()
        data = people * 60 + DAMAGED + people * 60
        self.assertGreater(len(data), 10 << 20)
        path = str(self.file(data))
        run = run_package("count", path, "--by", "address.city", "--sum", "age")
        self.assertEqual((run.returncode, run.stderr.count("\n")), (1, 2))
        one = run_package("count", str(PEOPLE), "--by", "address.city", "--sum", "age").stdout
        wanted = "".join(
            "\t".join([name, *(str(120 * int(it)) for it in numbers)]) + "\n" for name, *numbers in (it.split("\t") for it in one.splitlines())
        )
        self.assertEqual(run.stdout, wanted)
        run = run_package("schema", path)
        self.assertEqual(run.returncode, 1)
        self.assertTrue(run.stderr.endswith("\n60000 documents\n"), run.stderr)
        self.assertEqual(run.stdout, run_package("schema", str(PEOPLE)).stdout)


if __name__ == "__main__":
    unittest.main()
