#!/usr/bin/env python3
"""Tests of ./bsonfind find page by page over examples/people.bson, each page by a run of its own from the token before.

usage: tests/program/pages.py     The last line is 'N passed, M failed'.

The answers come from examples/people.jsonl by Python: see tests/model/answers.py.

- Of some requests the pages of each size from 1 to 7, and all that the program tells of them.
- The digests of their tokens, by sha256sum.
- The tokens of tests/program/tokens.txt, with what follows them. `tests/program/pages.py --write` makes this file.
- Those of `bsonwide` for queries with doubles, whose digest is that of a copy of the dump with the rank of each number in its place.
"""

import base64
import struct
import subprocess
import sys
from bisect import bisect_left
from collections.abc import Iterator
from concurrent.futures import ThreadPoolExecutor
from pathlib import Path

sys.path.insert(0, str(Path(__file__).resolve().parents[1]))

from model.answers import Dump, Request, Token, Value, obj, rank
from model.sessions import Find
from model.texts import read_document
from support import PROGRAM, ROOT, Tests

DUMP = ROOT / "examples/people.bson"
LINES = (ROOT / "examples/people.jsonl").read_bytes().splitlines(keepends=True)
PEOPLE = Dump(list(map(read_document, LINES)), DUMP.read_bytes())
VECTORS = ROOT / "tests/program/tokens.txt"
SIZES = range(1, 8)

REQUESTS = {
    "no sort": Find(),
    "a sort up": Find(sort='{"age":1}'),
    "a sort down": Find('{"age":{"$gte":80}}', '{"scores":-1}'),
    "two paths": Find('{"age":{"$lt":20}}', '{"address.city":-1,"name":1}'),
    "a skip and a limit": Find(skip=7, limit=45),
    "a skip and a limit of a sort": Find(sort='{"visits.place":1}', skip=7, limit=45),
    "a filter and a sort": Find('{"note":{"$exists":true}}', '{"name":-1}'),
}

# Of which tests/program/tokens.txt has the token after so many documents; of the last two another count or place than those of the answer.
TOKENS = [
    (Find(limit=5), 2, 1),
    *((Find(sort=f'{{"{path}":{way}}}', limit=9), 4, None) for path in ("age", "name", "scores", "address.city") for way in (1, -1)),
    (Find('{"age":30}', '{"name":1}'), 3, None),
    (Find(sort='{"age":1}', skip=495), 1, None),
    (Find(sort='{"age":1}', limit=3), 3, None),
    (Find(sort='{"name":-1}', skip=100, limit=6), 2, 400),
    (Find('{"age":95}', '{"visits.place":1}'), 0, 3),
]

# The same of `bsonwide`: the double that an age is compared with, the sort, the limit, and how many documents were given.
WIDE_TOKENS = [("$gte", 89.5, "{}", 0, 3), ("$lt", 20.25, '{"name":-1}', 9, 4), ("$gt", 90.0, '{"age":1}', 0, 0), ("$lte", -0.5, "{}", 0, 0)]


def run(find: Find, program: Path = PROGRAM) -> tuple[int, bytes, str]:
    """How a run ends, and what it writes."""
    ran = subprocess.run([program, "find", DUMP, *find.words()], stdin=subprocess.DEVNULL, capture_output=True)
    return ran.returncode, ran.stdout, ran.stderr.decode()


def lines(places: list[int]) -> bytes:
    return b"".join(LINES[place] for place in places)


def counted(places: list[int], ends: bool, token: str | None) -> str:
    """The line that counts a page."""
    return f"{len(places)} documents, {'end' if ends else 'more'}" + (f", token {token}" if token else "") + "\n"


def wrong_page(find: Find, size: int) -> str | None:
    """The first page that is not as it should be."""
    left, tied = PEOPLE.answer(find.request()), PEOPLE.tied(find.request())
    given, token = 0, None
    while True:
        page, left = left[:size], left[size:]
        given += len(page)
        after = Token(given, page[-1], tied).text() if page else token
        ran = run(find._replace(batch=size, after=token))
        if ran != (0, lines(page), counted(page, not left, after)):
            return f"size {size}, after {given} documents: {ran[2]}"
        if not left:
            return None
        token = after


def test_pages(tests: Tests) -> None:
    for name, find in REQUESTS.items():
        answer, tied = PEOPLE.answer(find.request()), PEOPLE.tied(find.request())
        whole = (0, lines(answer), counted(answer, True, Token(len(answer), answer[-1], tied).text()))
        ran = run(find)
        tests.want(f"{name}, the whole", ran == whole, ran[2])
        with ThreadPoolExecutor(4) as pool:
            for size, wrong in zip(SIZES, pool.map(lambda size: wrong_page(find, size), SIZES)):
                tests.want(f"{name}, pages of {size}", wrong is None, wrong)


def sha256sum(data: bytes) -> bytes:
    ran = subprocess.run(["sha256sum"], input=data, stdout=subprocess.PIPE, check=True)
    return bytes.fromhex(ran.stdout.split()[0].decode())


def test_digests(tests: Tests) -> None:
    """The digest that a token holds, and that of the same bytes by another program."""
    for name, find in REQUESTS.items():
        told = run(find._replace(batch=1))[2].rsplit(" ", 1)[-1]
        wanted = sha256sum(sha256sum(DUMP.read_bytes()) + find.request().text().encode())
        tests.want(f"{name}, the digest", base64.b64decode(told)[13:] == wanted, told)


def vector(find: Find, given: int, last: int | None) -> str:
    """The options of a request, the token after some documents, and the places that follow."""
    request = find.request()
    token = Token(given, PEOPLE.answer(request)[given - 1] if last is None else last, PEOPLE.tied(request))
    rest = " ".join(map(str, PEOPLE.rest(request, token)))
    words = " ".join(find.words()).replace("=", " ")
    return f"{words} => {token.text()} => {rest}".strip()


def test_vectors(tests: Tests) -> None:
    kept = [line for line in VECTORS.read_text().partition(WIDE_HEAD)[0].splitlines() if not line.startswith("#")]
    tests.want("the vectors are those of this script", kept == [vector(*it) for it in TOKENS])
    for (find, *_), line in zip(TOKENS, kept, strict=True):
        _, token, *rest = [part.strip() for part in f"{line} ".split(" =>")]
        status, out, err = run(find._replace(after=token))
        tests.want(f"find {line}", (status, out) == (0, lines([int(place) for it in rest for place in it.split()])), err)


def numbers_in(value: Value) -> Iterator[Value]:
    """The numbers in a document of the example, which has no code with scope."""
    if value.kind in ("int", "long", "double"):
        yield value
    elif value.kind in ("object", "array"):
        for it in value.of:
            yield from numbers_in(it[1] if value.kind == "object" else it)


class Ranks:
    """The distinct numbers of a dump in order: the n-th has the rank 2n + 1, and what is between two has that between theirs."""

    def __init__(self, documents: list[Value]) -> None:
        self.table = sorted({rank(it) for document in documents for it in numbers_in(document)})

    def ranked(self, value: Value, kind: str = "int") -> Value:
        """The value with the rank of each number in its place, as a number of this kind."""
        if value.kind in ("int", "long", "double"):
            at = bisect_left(self.table, rank(value))
            return Value(kind, 2 * at + (rank(value) in self.table[at : at + 1]))
        if value.kind == "object":
            return obj(*((name, self.ranked(it, kind)) for name, it in value.of))
        return Value("array", tuple(self.ranked(it, kind) for it in value.of)) if value.kind == "array" else value


def wide_vectors() -> list[tuple[Find, str]]:
    """The requests with doubles, and the line of each with its token."""
    ranks = Ranks(PEOPLE.documents)
    copy = Dump(list(map(ranks.ranked, PEOPLE.documents)))
    found = []
    for name, double, sort, limit, given in WIDE_TOKENS:
        find = Find(f'{{"age":{{"{name}":{double}}}}}', sort, limit=limit)
        query = obj(("age", obj((name, Value("double", struct.pack("<d", double))))))
        request = Request(query, read_document(sort.encode()), 0, limit)
        coded = request._replace(query=ranks.ranked(query, "long"))
        answer = PEOPLE.answer(request)
        token = Token(given, answer[given - 1] if given else 0, copy.tied(coded))
        rest = " ".join(map(str, PEOPLE.rest(request, token)))
        found.append((find, f"{' '.join(find.words()).replace('=', ' ')} => {token.text()} => {rest}".strip()))
    return found


def test_wide_vectors(tests: Tests) -> None:
    """Those of `bsonwide`: each is told by the batch before it, and what follows it comes."""
    kept = VECTORS.read_text().partition(WIDE_HEAD)[2].splitlines()
    wanted = wide_vectors()
    tests.want("the vectors of bsonwide are those of this script", kept == [line for _, line in wanted])
    program = PROGRAM.with_name("bsonwide")
    for (find, line), (*_, given) in zip(wanted, WIDE_TOKENS, strict=True):
        _, token, rest = [part.strip() for part in f"{line} ".split(" =>")]
        if given:
            told = run(find._replace(batch=given), program)[2].rstrip("\n").rpartition("token ")[2]
            tests.want(f"bsonwide find {line}, the token", told == token, told)
        status, out, err = run(find._replace(after=token), program)
        tests.want(f"bsonwide find {line}", (status, out) == (0, lines([int(place) for place in rest.split()])), err)


HEAD = """\
# Tokens over examples/people.bson: the options of a request => a token => the numbers of the documents that follow.
# The last two tokens were told by no batch: the count and the number in them are others.
"""
WIDE_HEAD = """\
# The same of bsonwide: queries with doubles, over the same dump. The last two tokens were told by no batch.
"""


def main() -> int:
    if sys.argv[1:] == ["--write"]:
        wide = "".join(f"{line}\n" for _, line in wide_vectors())
        VECTORS.write_text(HEAD + "".join(f"{vector(*it)}\n" for it in TOKENS) + WIDE_HEAD + wide)
        return 0
    tests = Tests()
    for test in (test_pages, test_digests, test_vectors, test_wide_vectors):
        test(tests)
    print(f"{tests.passed} passed, {tests.failed} failed")
    return 1 if tests.failed else 0


if __name__ == "__main__":
    sys.exit(main())
