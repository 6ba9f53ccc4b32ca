#!/usr/bin/env python3
"""Asks random dumps with doubles from Python, and compares with mongomock, where mongomock compares numbers as MongoDB does.

    tests/wide/mock.py [PROGRAM [DUMPS [SEED]]]

The program is `bsonfind`, with `bsonwide` beside it. mongomock (Debian's python3-mongomock) compares Python's numbers, so int32, int64 and
doubles exactly, but orders no NaN, no decimal128 and no arrays of a sort as MongoDB does: dumps have none of these where they are sorted.
Without mongomock or pymongo's `bson` the last line says that the script was skipped, and the status is 77.
"""

import random
import sys
import tempfile
from pathlib import Path

sys.path[:0] = [str(Path(__file__).resolve().parents[1]), str(Path(__file__).resolve().parents[2] / "python")]

from support import PROGRAM as BUILT
from support import SKIPPED, Tests

from bsonfind import find

try:
    import bson
    import mongomock
except ImportError as error:
    print(f"skipped: nothing was compared: {error}")
    sys.exit(SKIPPED)

PROGRAM = str(Path(sys.argv[1]).resolve()) if len(sys.argv) > 1 else str(BUILT)
DUMPS = int(sys.argv[2]) if len(sys.argv) > 2 else 50
SEED = int(sys.argv[3]) if len(sys.argv) > 3 else 7
REQUESTS = 20

# Some are whole numbers that no double equals.
NUMBERS = [2**53 + 1, -(2**53) - 1, 2**63 - 1, 0, 0.0, -0.0, 1, 1.0, 1.5, 2, 2.5, -1, -1.5, 9.99, 1e300, -1e300, 5e-324, 2**53, 2.0**53, 2**53 + 2, 2.0**53 + 4, -(2**62), float("inf"), float("-inf")]
COMPARISONS = ["$eq", "$ne", "$gt", "$gte", "$lt", "$lte"]
PATHS = ["a", "b", "c.d"]


def document(draw: random.Random, number: int) -> dict[str, object]:
    """A document with numbers at some of the paths; `c.d` is of a document in a document."""
    made: dict[str, object] = {"_id": number}
    for name in ("a", "b"):
        if draw.random() < 0.9:
            made[name] = draw.choice(NUMBERS)
    if draw.random() < 0.8:
        made["c"] = {"d": draw.choice(NUMBERS)} if draw.random() < 0.9 else draw.choice(NUMBERS)
    return made


def condition(draw: random.Random) -> object:
    kind = draw.randrange(4)
    if kind == 0:
        return draw.choice(NUMBERS)
    if kind == 1:
        return {draw.choice(["$in", "$nin"]): draw.sample(NUMBERS, 3)}
    if kind == 2:
        return {"$exists": draw.random() < 0.5}
    return {it: draw.choice(NUMBERS) for it in draw.sample(COMPARISONS, draw.randint(1, 2))}


def query(draw: random.Random) -> dict[str, object]:
    made = {it: condition(draw) for it in draw.sample(PATHS, draw.randint(0, 2))}
    if draw.random() < 0.3:
        made[draw.choice(["$or", "$and", "$nor"])] = [{draw.choice(PATHS): condition(draw)} for _ in range(2)]
    return made


def main() -> int:
    tests, draw = Tests(), random.Random(SEED)
    with tempfile.TemporaryDirectory() as room:
        dump = Path(room) / "dump.bson"
        for turn in range(DUMPS):
            documents = [document(draw, it) for it in range(draw.randint(1, 30))]
            dump.write_bytes(b"".join(map(bson.encode, documents)))
            collection = mongomock.MongoClient().test.dump
            collection.insert_many(documents)
            for _ in range(REQUESTS):
                asked = query(draw)
                sort = [(it, draw.choice([1, -1])) for it in draw.sample(PATHS[:2], draw.randint(0, 2))]
                # Where keys are equal, MongoDB says nothing of the order: the number of the document decides here.
                wanted = [it["_id"] for it in collection.find(asked, sort=[*sort, ("_id", 1)])]
                found = [it["_id"] for it in find(dump, asked, sort=sort or None, program=PROGRAM, decode="plain")]
                tests.want(f"dump {turn}, {asked}, {sort}", found == wanted, f"{found}, and mongomock {wanted}")
    print(f"{tests.passed} passed, {tests.failed} failed")
    return 1 if tests.failed else 0


if __name__ == "__main__":
    sys.exit(main())
