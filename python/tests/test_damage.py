"""Tests of questions over damaged dumps with doubles: each is refused, also where the damage is elsewhere."""

import random
from concurrent.futures import ThreadPoolExecutor
from typing import Iterator

from bsonfind import DumpError, Session, check_parts, find, plan
from bsonfind._ask.requests import Request
from bsonfind._backup.backups import Dump
from bsonfind._backup.query import query_dumps

from .bson import string
from .support import PROGRAM, Room
from .goods import array, document, double, embedded, whole


# The document that is asked for, and documents that are damaged beside it: last values of many types, short and with lengths.
SOUND = document(double("a", 9.5))
BESIDE = [
    document(double("a", 1.5), string("t", "pen")),
    document(b"\x07a\0" + b"\1" * 12),
    document(double("a", 2.5), b"\x05b\0\3\0\0\0\0abc"),
    document(embedded("c", double("a", 0.5), string("t", "x"))),
    document(double("a", 2.5), array("l", double("0", 1.5), whole("1", 7))),
    document(double("a", 4.5), b"\x0br\0x\0i\0"),
    document(double("a", 1.5), b"\x0cp\0\2\0\0\0q\0" + b"\7" * 12),
    document(double("a", 1.5), b"\x08b\0\1"),
    document(double("a", 1.5), b"\x0dj\0\2\0\0\0f\0"),
]
DAMAGES = 300


def damaged(seed: int) -> Iterator[bytes]:
    """Documents of which one or more bytes are changed, such as to a length that is 12 more."""
    chance = random.Random(seed)
    while True:
        data = bytearray(chance.choice(BESIDE))
        for _ in range(chance.choice((1, 1, 1, 2, 3))):
            at = chance.randrange(len(data))
            data[at] = chance.choice((chance.randrange(256), data[at] ^ 1 << chance.randrange(8), (data[at] + 12) % 256))
        yield bytes(data)


class Damage(Room):
    def has_fault(self, path: str) -> bool:
        """Whether `check` reports damage. A length that is wrong leaves no parts."""
        try:
            return bool(check_parts(plan(path), program=PROGRAM).faults)
        except DumpError:
            return True

    def ask(self, data: bytes, number: int) -> int:
        """Asks a dump for the sound document in each way, if the dump has damage; gives whether it has."""
        path = str(self.file(data, f"{number}.bson"))
        if not self.has_fault(path):
            return 0
        filter = {"a": 9.5}

        def by_session() -> int:
            with Session(path, PROGRAM) as session:
                return session.count_documents(filter)

        def by_query() -> list:
            found = list(query_dumps([Dump(path)], Request('{"a":9.5}'), 1, PROGRAM))
            self.assertEqual([it.lines for it in found if it.lines], [], data.hex())
            raise found[-1].error or AssertionError(data.hex())

        for call in (
            lambda: list(find(path, filter, program=PROGRAM)),
            lambda: list(find(path, filter, decode="bson", program=PROGRAM)),
            by_query,
            by_session,
        ):
            with self.assertRaises(DumpError, msg=data.hex()) as raised:
                call()
            self.assertTrue(raised.exception.is_finding, data.hex())
        return 1

    def test_every_damage_is_refused(self) -> None:
        """300 that `check` reports, before and after the sound document. What completes a value that is cut short hides it."""
        cases = (bad + SOUND if number % 2 else SOUND + bad for number, bad in enumerate(damaged(7)))
        known = [b"\x08\0\0\0\x07a\0\0", BESIDE[0].replace(b"\4\0\0\0pen", b"\x10\0\0\0pen")]
        with ThreadPoolExecutor(4) as pool:
            found = sum(pool.map(self.ask, (SOUND + it for it in known), (-1, -2)))
            self.assertEqual(found, len(known))
            number = 0
            while found < DAMAGES:
                some = [next(cases) for _ in range(20)]
                found += sum(pool.map(self.ask, some, range(number, number + len(some))))
                number += len(some)
