#!/usr/bin/env python3
"""Runs a program with each growth of its memory refused in turn: alone, and with all that come after it.

usage: tests/faults/growths.py [PROGRAM]     The last line is 'N passed, M failed'.

PROGRAM is ./bsonwide, or ./bsonfind, which runs without it. The inputs and the whole answers are written by hand, or are those of
examples/; tests/program/tokens.py makes tokens. With a growth refused a run gives the whole answer, where it does without; else it writes
lines of it from the front (`pack` documents), tells `bsonfind: no memory`, or the same of `bsonwide`, and nothing
else, and has status 1.
"""

import sys
from collections.abc import Iterator
from functools import partial
from itertools import accumulate
from pathlib import Path
from typing import NamedTuple

sys.path.insert(0, str(Path(__file__).resolve().parents[1]))

from failing import PROGRAM, Counts, Failing, Ran, Tests, main
from model.answers import digest, token_of
from model.sessions import request_text
from support import ROOT, commands_of, usage_of

# The name of the program, its commands, and whether it reads doubles and decimal128.
NAME = PROGRAM.name
COMMANDS = commands_of(NAME)
IS_WIDE = NAME == "bsonwide"


def reported(line: bytes) -> bytes:
    """A line that the program tells, after its name."""
    return NAME.encode() + b": " + line


STARVED = reported(b"no memory\n")
USAGE = usage_of(NAME)

INT32 = bytes.fromhex("0c000000 10 6100 01000000 00")
INT32_LINE = '{"a":{"$numberInt":"1"}}\n'
INT64 = bytes.fromhex("10000000 12 6100 0000008000000000 00")
# {"a":["x",{"b":null}]}
NESTED = bytes.fromhex("21000000 04 6100 19000000 02 3000 02000000 7800 03 3100 08000000 0a 6200 00 00 00")
BINARY = bytes.fromhex("13000000 05 7800 06000000 02 02000000 ffff 00")
DOUBLE = bytes.fromhex("10000000 01 6400 000000000000f03f 00")
DOUBLE_LINE = '{"d":{"$numberDouble":"1.0"}}\n'
DECIMAL = bytes.fromhex("18000000 13 6400 9600000000000000 0000000000003c30 00")
DECIMAL_LINE = '{"d":{"$numberDecimal":"1.50"}}\n'
# {"d":1}, {"d":3} and {"a":1} of int32.
CODED = bytes.fromhex("0c000000 10 6400 01000000 00 0c000000 10 6400 03000000 00 0c000000 10 6100 01000000 00")
# The same where doubles are told from the other types of numbers.
CLASSED = bytes.fromhex("10000000 12 6400 01000000 00000000 00 0c000000 10 6400 03000000 00 0c000000 10 6100 01000000 00")
# The second element of an array in an array is a boolean of 2.
BAD = bytes.fromhex("1c000000 04 6100 14000000 04 3000 0c000000 0a 3000 08 3100 02 00 00 00")
FIVE = [
    (bytes.fromhex("0d000000 04 6100 05000000 00 00"), b'{"a":[]}\n'),
    (bytes.fromhex("05000000 00"), b"{}\n"),
    (bytes.fromhex("08000000 0a 6100 00"), b'{"a":null}\n'),
    (bytes.fromhex("1b000000 04 6100 13000000 10 3000 03000000 10 3100 01000000 00 00"), b'{"a":[{"$numberInt":"3"},{"$numberInt":"1"}]}\n'),
    (bytes.fromhex("0c000000 10 6100 02000000 00"), b'{"a":{"$numberInt":"2"}}\n'),
]
FIVE_DUMP = b"".join(document for document, _ in FIVE)
# {"a":[5,7,5]} and {"a":5}
SEVERAL = bytes.fromhex("22000000 04 6100 1a000000 10 3000 05000000 10 3100 07000000 10 3200 05000000 00 00 0c000000 10 6100 05000000 00")

# Each command, and below it the reply.
TALK = (ROOT / "tests/program/talk.txt").read_text()

# Over the five documents. The tokens are those after two of them and after all.
RESUMED = """\
{"createIndex":"a"}
{"ok":true,"entries":{"$numberLong":"6"},"multikey":true}
{"find":{},"sort":{"a":1},"use":{"index":"a"}}
{"ok":true,"cursor":{"$numberLong":"1"}}
{"explain":{"a":{"$gt":1}},"sort":{"a":1}}
{"ok":true,"plan":"index","index":"a","entries":{"$numberLong":"2"},"documents":{"$numberLong":"2"},"matches":{"$numberLong":"2"}}
{"explain":{},"sort":{"a":-1}}
{"ok":true,"plan":"walk","index":"a","entries":{"$numberLong":"6"},"documents":{"$numberLong":"5"},"matches":{"$numberLong":"5"}}
{"getMore":1,"batch":2}
{"ok":true,"documents":[{"a":[]},{}],"end":false,"token":"%(two)s"}
{"dropIndex":"a"}
{"ok":true}
{"resume":"%(two)s","sort":{"a":1},"use":"scan"}
{"ok":true,"cursor":{"$numberLong":"2"}}
{"getMore":2,"batch":5}
{"ok":true,"documents":[{"a":null},{"a":[{"$numberInt":"3"},{"$numberInt":"1"}]},{"a":{"$numberInt":"2"}}],"end":true,"token":"%(all)s"}
{"explain":{"a":{"$gt":1}}}
{"ok":true,"plan":"scan","index":null,"entries":{"$numberLong":"0"},"documents":{"$numberLong":"5"},"matches":{"$numberLong":"2"}}
"""

# A refusal of each layer, over the five documents too.
REFUSED = """\
{"find":{"a.b":{"$gt":1,"c":2}}}
{"ok":false,"layer":"filter","number":{"$numberInt":"4"},"text":"operators and fields mixed","place":"a.b.c"}
{"createIndex":"a..b"}
{"ok":false,"layer":"path","number":{"$numberInt":"1"},"text":"empty component"}
{"find":{},"sort":{"a":2}}
{"ok":false,"layer":"session","number":{"$numberInt":"1"},"text":"not a sort"}
{"a":[
{"ok":false,"layer":"json","number":{"$numberInt":"1"},"text":"not JSON","at":{"$numberLong":"6"}}
[1]
{"ok":false,"layer":"json","number":{"$numberInt":"2"},"text":"not a document","at":null}
{"resume":"x"}
{"ok":false,"layer":"session","number":{"$numberInt":"7"},"text":"not a token"}
{"createIndex":"a","sparse":true}
{"ok":true,"entries":{"$numberLong":"5"},"multikey":true}
{"createIndex":"a"}
{"ok":false,"layer":"session","number":{"$numberInt":"3"},"text":"index is there"}
"""

# Over a double, a decimal128 and an int32, by value. The tokens are those after the one that is found, and, sorted, after two and all.
VALUES = """\
{"createIndex":"d"}
{"ok":true,"entries":{"$numberLong":"3"},"multikey":false}
{"find":{"d":{"$gte":1.5}}}
{"ok":true,"cursor":{"$numberLong":"1"}}
{"getMore":1,"batch":1}
{"ok":true,"documents":[{"d":{"$numberDecimal":"1.50"}}],"end":true,"token":"%(one)s"}
{"explain":{"d":1},"use":"scan"}
{"ok":true,"plan":"scan","index":null,"entries":{"$numberLong":"0"},"documents":{"$numberLong":"3"},"matches":{"$numberLong":"1"}}
{"find":{},"sort":{"d":-1},"use":{"index":"d"}}
{"ok":true,"cursor":{"$numberLong":"2"}}
{"getMore":2,"batch":2}
{"ok":true,"documents":[{"d":{"$numberDecimal":"1.50"}},{"d":{"$numberDouble":"1.0"}}],"end":false,"token":"%(two)s"}
{"resume":"%(two)s","sort":{"d":-1},"use":"scan"}
{"ok":true,"cursor":{"$numberLong":"3"}}
{"getMore":3,"batch":5}
{"ok":true,"documents":[{"a":{"$numberInt":"1"}}],"end":true,"token":"%(all)s"}
{"find":{"d":{"$type":"double"}}}
{"ok":false,"layer":"numbers","number":{"$numberInt":"1"},"text":"the types of numbers are not told apart here","place":"d.$type"}
{"find":{"d":{"$numberDouble":"x"}}}
{"ok":false,"layer":"json","number":{"$numberInt":"4"},"text":"bad wrapper","at":{"$numberLong":"13"}}
{"find":{"d":1.5},"limit":1.0}
{"ok":false,"layer":"command","number":{"$numberInt":"5"},"text":"bad field"}
{"killCursor":2}
{"ok":true}
"""


class Run(NamedTuple):
    """What is run, over which standard input, and the whole answer. A piece of standard output is written whole or not at all."""

    name: str
    words: list[str]
    stdin: bytes
    pieces: list[bytes]
    err: str
    status: int = 0

    def whole(self) -> Ran:
        return Ran(self.status, b"".join(self.pieces), self.err.encode())

    def on(self, failing: Failing, **how: int) -> tuple[Ran, Counts]:
        """A run to its end."""
        return failing.run(self.words, self.stdin, **how)

    def is_cut(self, ran: Ran) -> bool:
        """Whether it ended because memory ran out as it should."""
        is_front = self.whole().out.startswith(ran.out) and len(ran.out) in accumulate(map(len, self.pieces), initial=0)
        return is_front and (ran.status, ran.err) == (1, STARVED)


def lines(text: str) -> list[bytes]:
    return text.encode().splitlines(keepends=True)


def frames(data: bytes) -> Iterator[bytes]:
    """The documents of a dump."""
    at = 0
    while at < len(data):
        length = int.from_bytes(data[at : at + 4], "little")
        yield data[at : at + length]
        at += length


def counted(count: int, end: str, last: int, dump: bytes, **asked: object) -> str:
    """The line that counts documents, with the token after them."""
    return f"{count} documents, {end}, token {token_of(count, last, digest(dump, request_text(**asked)))}\n"


def found(name: str, options: list[str], places: list[int], end: str = "end", given: int = 0, **asked: object) -> Run:
    """A find in the five documents, by their numbers, where so many were given before. Of an index an answer knows nothing."""
    token = token_of(given + len(places), places[-1], digest(FIVE_DUMP, request_text(**asked)))
    return Run(f"find {name}", ["find", "-", *options], FIVE_DUMP, [FIVE[place][1] for place in places], f"{len(places)} documents, {end}, token {token}\n")


def talk(name: str, dump: str, text: str) -> Run:
    """A session, of commands with their replies."""
    return Run(f"serve, {name}", ["serve", dump], b"".join(lines(text)[::2]), lines(text)[1::2], "")


def both_runs() -> list[Run]:
    """Runs of what both programs have. `bsonfind` refuses doubles and decimal128."""
    # Most kinds of values stand in the first orders.
    orders = list(frames((ROOT / "examples/shop.bson").read_bytes()))[:8]
    order_lines = (ROOT / "examples/shop.jsonl").read_bytes().splitlines(keepends=True)[:8]
    first, line = (DOUBLE, DOUBLE_LINE) if IS_WIDE else (INT32, INT32_LINE)
    fault = f'document 1, byte {len(first) + 24}, path "a.0.1": bad boolean'
    doubles = [] if IS_WIDE else ['document 1, byte 32, path "d": double\n']
    faults = ['document 0, byte 24, path "a.0.1": bad boolean\n', *doubles, 'document 3, byte 56, path "": bad length\n']
    packed = [b'{"a":1}\n', b'{"a":2147483648}\n', b'{"a":["x",{"b":null}]}\n']
    return [
        Run("dump", ["dump", "-"], BINARY, lines('{"x":{"$binary":{"base64":"//8=","subType":"02"}}}\n'), "1 objects found\n"),
        Run("dump of orders", ["dump", "-"], b"".join(orders), order_lines, "8 objects found\n"),
        Run("dump with a fault", ["dump", "-"], first + BAD, lines(line), f"{NAME}: {fault}\n1 objects found\n", 1),
        Run("check", ["check", "-"], first + BAD + INT32, lines(f"{fault}\n"), "3 documents, 1 faulty\n", 1),
        Run("check of several faults", ["check", "-"], BAD + DOUBLE + INT32 + BAD[:-1], lines("".join(faults)), f"4 documents, {len(faults)} faulty\n", 1),
        Run("pack", ["pack", "-"], b"".join(packed) + b"[", [INT32, INT64, NESTED], f"{NAME}: line 4, byte 1: not JSON\n3 objects packed\n", 1),
        Run("pack of orders", ["pack", "-"], b"".join(order_lines), orders, "8 objects packed\n"),
        Run("pack of no document", ["pack", "-"], b'{"a":1}\n\n[{"a":1}]\n', [INT32], f"{NAME}: line 3: not a document\n1 objects packed\n", 1),
        Run("no words", [], b"", [], USAGE, 2),
        Run("--help", ["--help"], b"", [USAGE.encode()], ""),
    ]


def by_value() -> str:
    """The session over the three numbers. Their codes are 1 and 3, of the numbers 1 and 1.5."""
    down = digest(CODED, request_text(sort='{"d":-1}'))
    one = digest(CODED, request_text(query='{"d":{"$gte":{"$numberLong":"3"}}}'))
    return VALUES % {"one": token_of(1, 1, one), "two": token_of(2, 0, down), "all": token_of(3, 2, down)}


def wide_runs(failing: Failing) -> list[Run]:
    """Runs over what `bsonwide` alone reads, and sessions."""
    for name, data in (("several.bson", SEVERAL), ("numbers.bson", DOUBLE + DECIMAL + INT32)):
        (failing.room / name).write_bytes(data)
    numbers, number_lines = [DOUBLE, DECIMAL, INT32], lines(DOUBLE_LINE + DECIMAL_LINE + INT32_LINE)
    return [
        Run("dump of numbers", ["dump", "-"], b"".join(numbers), number_lines, "3 objects found\n"),
        Run("dump of numbers, relaxed", ["dump", "-", "--jsonFormat", "relaxed"], b"".join(numbers), lines('{"d":1.0}\n' + DECIMAL_LINE + '{"a":1}\n'), "3 objects found\n"),
        Run("pack of numbers", ["pack", "-"], b"".join(number_lines), numbers, "3 objects packed\n"),
        Run("pack of a bare double", ["pack", "-"], b'{"d":1.0}\n{"d":1e999}', [DOUBLE], f"{NAME}: line 2, byte 5: number out of range\n1 objects packed\n", 1),
        Run("pack of a word of mongosh", ["pack", "-"], b'{"d":1.0}\n{"a":ObjectId(1)}', [DOUBLE], f'{NAME}: line 2, byte 5: not JSON; write {{"$oid":".."}}\n1 objects packed\n', 1),
        # The numbers are 1 and 1.5, so their codes are 1 and 3, and that of 2 is 4.
        Run("find by value", ["find", "-", "--query", '{"d":{"$gte":1.5}}'], b"".join(numbers), number_lines[1:2], counted(1, "end", 1, CODED, query='{"d":{"$gte":{"$numberLong":"3"}}}')),
        Run("find of the greatest", ["find", "-", "--sort", '{"d":-1}', "--limit", "1"], b"".join(numbers), number_lines[1:2], counted(1, "end", 1, CODED, sort='{"d":-1}', limit=1)),
        Run("find by value, bytes", ["find", "-", "--query", '{"d":{"$gte":1.5}}', "--bson"], b"".join(numbers), numbers[1:2], counted(1, "end", 1, CODED, query='{"d":{"$gte":{"$numberLong":"3"}}}')),
        Run("find by value, how many", ["find", "-", "--query", '{"d":{"$gte":1.5}}', "--count"], b"".join(numbers), [b"1\n"], counted(1, "end", 1, CODED, query='{"d":{"$gte":{"$numberLong":"3"}}}')),
        Run("find, the query on standard input", ["find", "numbers.bson", "--queryFile", "-"], b'{"d":{"$gte":1.5}}\n', number_lines[1:2], counted(1, "end", 1, CODED, query='{"d":{"$gte":{"$numberLong":"3"}}}')),
        Run("find, bytes", ["find", "-", "--bson"], FIVE_DUMP, [document for document, _ in FIVE], counted(5, "end", 4, FIVE_DUMP)),
        Run("find, how many", ["find", "-", "--count"], FIVE_DUMP, [b"5\n"], counted(5, "end", 4, FIVE_DUMP)),
        Run("find, how many and bytes", ["find", "-", "--count", "--bson"], FIVE_DUMP, [], USAGE, 2),
        Run("find, a type of numbers", ["find", "-", "--query", '{"d":{"$type":"double"}}'], b"".join(numbers), number_lines[:1], counted(1, "end", 0, CLASSED, query='{"d":{"$type":"long"}}')),
        Run("find, three types of numbers", ["find", "-", "--query", '{"d":{"$type":"double"},"e":{"$type":"decimal"}}'], DOUBLE, [], f'{NAME}: query: place "e.$type": the types of numbers are not told apart here\n', 1),
        Run("find, a bad number", ["find", "-", "--query", '{"d":{"$numberDouble":"x"}}'], DOUBLE, [], f'{NAME}: query: byte 5: bad wrapper; write {{"$numberDouble":".."}}\n', 1),
        Run("find, a bad dump", ["find", "-", "--query", '{"d":1.5}'], DOUBLE + BAD, [], f'{NAME}: document 1, byte 40, path "a.0.1": bad boolean\n', 1),
        talk("a talk", "several.bson", TALK),
        talk("a talk by value", "numbers.bson", by_value()),
        Run("serve, a bad dump", ["serve", "/dev/stdin"], DOUBLE + BAD, [], f'{NAME}: document 1, byte 40, path "a.0.1": bad boolean\n', 1),
    ]


def bsonfind_runs(failing: Failing) -> list[Run]:
    """Runs of what `bsonfind` alone has or refuses."""
    shop = (ROOT / "examples/shop.bson").read_bytes()
    shop_lines = (ROOT / "examples/shop.jsonl").read_bytes().splitlines(keepends=True)
    for name, data in (("one.bson", INT32), ("several.bson", SEVERAL), ("five.bson", FIVE_DUMP), ("shop.bson", shop)):
        (failing.room / name).write_bytes(data)
    after = token_of(2, 4, digest(FIVE_DUMP, request_text(sort='{"a":-1}')))
    up = digest(FIVE_DUMP, request_text(sort='{"a":1}'))
    either = '{"$or":[{"a":{"$in":[2,9]}},{"a":{"$elemMatch":{"$gt":2}}}]}'
    all_orders = b'{"ok":true,"documents":[%s],"end":true,"token":"%s"}\n' % (
        b",".join(line.rstrip(b"\n") for line in shop_lines),
        token_of(400, 399, digest(shop, request_text())).encode(),
    )
    return [
        Run("pack of a double", ["pack", "-"], b'{"a":1}\n{"a":1.5}\n', [INT32], f"{NAME}: line 2, byte 5: not in the profile\n1 objects packed\n", 1),
        Run("pack of a word of mongosh", ["pack", "-"], b'{"a":1}\n{"a":ObjectId(1)}', [INT32], f"{NAME}: line 2, byte 5: not JSON\n1 objects packed\n", 1),
        Run("find of 1", ["find", "one.bson", "--query", '{"a":1}'], b"", lines(INT32_LINE), counted(1, "end", 0, INT32, query='{"a":1}')),
        Run("find of 2", ["find", "one.bson", "--query", '{"a":2}'], b"", [], "0 documents, end\n"),
        found("of all", [], [0, 1, 2, 3, 4]),
        found("--sort up", ["--sort", '{"a":1}'], [0, 1, 2, 3, 4], sort='{"a":1}'),
        found("--sort down", ["--sort", '{"a":-1}'], [3, 4, 1, 2, 0], sort='{"a":-1}'),
        found("--sort by two paths", ["--sort", '{"b":1,"a":-1}'], [3, 4, 1, 2, 0], sort='{"b":1,"a":-1}'),
        found("--sort --skip --limit", ["--sort", '{"a":-1}', "--skip", "1", "--limit", "3"], [4, 1, 2], sort='{"a":-1}', skip=1, limit=3),
        found("--skip --limit --batch", ["--skip", "1", "--limit", "3", "--batch", "2"], [1, 2], "more", skip=1, limit=3),
        found("--index", ["--index", "a", "--query", '{"a":null}'], [1, 2], query='{"a":null}'),
        found("--index --sort", ["--index", "a", "--sort", '{"a":-1}', "--batch", "4"], [3, 4, 1, 2], "more", sort='{"a":-1}'),
        found("--index of a long query", ["--index", "a", "--query", either], [3, 4], query=either),
        found("--after", ["--sort", '{"a":-1}', "--after", after, "--batch", "2"], [1, 2], "more", 2, sort='{"a":-1}'),
        found("--after --index", ["--sort", '{"a":-1}', "--after", after, "--index", "a"], [1, 2, 0], "end", 2, sort='{"a":-1}'),
        Run(
            "find of all orders",
            ["find", "shop.bson", "--sort", '{"order":-1}', "--index", "items.sku"],
            b"",
            shop_lines[::-1],
            counted(400, "end", 0, shop, sort='{"order":-1}'),
        ),
        Run("find, a bad query", ["find", "-", "--query", '{"a.b":{"$gt":1,"c":2}}'], INT32, [], 'bsonfind: query: place "a.b.c": operators and fields mixed\n', 1),
        Run("find, a bad sort", ["find", "-", "--sort", '{"a":1'], INT32, [], "bsonfind: sort: byte 6: not JSON\n", 1),
        Run("find, a bad index", ["find", "-", "--index", "a..b"], INT32, [], "bsonfind: index: empty component\n", 1),
        Run("find, a token of another dump", ["find", "-", "--after", after], INT32, [], "bsonfind: token: token of another dump or request\n", 1),
        Run("find, a bad dump", ["find", "-"], INT32 + BAD, [], 'bsonfind: document 1, byte 36, path "a.0.1": bad boolean\n', 1),
        Run("find, no file", ["find", "missing.bson", "--query", '{"a":1}'], b"", [], "bsonfind: cannot open missing.bson\n", 1),
        Run("find, bad words", ["find", "one.bson", "--limit", "x"], b"", [], USAGE, 2),
        talk("a talk", "several.bson", TALK),
        talk("an answer that is resumed", "five.bson", RESUMED % {"two": token_of(2, 1, up), "all": token_of(5, 4, up)}),
        talk("refusals", "five.bson", REFUSED),
        Run("serve, all orders", ["serve", "shop.bson"], b'{"find":{}}\n{"getMore":1,"batch":400}\n', [b'{"ok":true,"cursor":{"$numberLong":"1"}}\n', all_orders], ""),
        Run("serve, a bad dump", ["serve", "/dev/stdin"], INT32 + BAD, [], 'bsonfind: document 1, byte 36, path "a.0.1": bad boolean\n', 1),
    ]


def refused(failing: Failing, run: Run, onward: int, growth: int) -> Ran | None:
    """The answer with a growth refused; None where there are not so many."""
    ran, counts = run.on(failing, growth=growth, onward=onward)
    return ran if counts.refused else None


def test_growths(tests: Tests, failing: Failing) -> None:
    runs = both_runs() + (wide_runs(failing) if IS_WIDE else bsonfind_runs(failing))
    for run in [run for run in runs if not run.words or run.words[0] in [*COMMANDS, "--help"]]:
        ran, counts = run.on(failing)
        tests.want(f"{run.name}, the whole", ran == run.whole(), ran)
        for onward, what in ((0, "alone"), (1, "with all after it")):
            answers = failing.each(partial(refused, failing, run, onward))
            cut = [run.is_cut(ran) for ran in answers]
            wrong = [(growth, str(ran)) for growth, (ran, ends) in enumerate(zip(answers, cut), 1) if not ends and ran != run.whole()]
            is_all = len(answers) == counts.growths and any(cut)
            tests.want(f"{run.name}, each growth refused {what}", is_all and not wrong, wrong[:3] or f"{len(answers)} of {counts.growths}")
        print(f"{run.name}: {counts.growths} growths")


if __name__ == "__main__":
    sys.exit(main([test_growths]))
