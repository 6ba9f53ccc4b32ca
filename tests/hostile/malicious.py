#!/usr/bin/env python3
"""Runs a program over inputs that are made to cost much, each in two sizes, and looks at the times beside the sizes.

usage: tests/hostile/malicious.py [PROGRAM] [full]     The last line is 'N passed, M failed'.

PROGRAM is ./bsonwide, or ./bsonfind, which runs without it. A run has a stack of 1 MiB. It may not end by a signal, has to answer as it is stated here, and its processor time and its
memory may grow as the input does: one of eight times the size may take sixteen times as much, which leaves room for sorts, for
caches and for other work of the machine. What is known to grow otherwise is held to its bound. With `full` the inputs go up to
the limits, a document of 16 MiB among them.
"""

import ctypes
import json
import os
import resource
import struct
import subprocess
import sys
import tempfile
from collections.abc import Callable, Iterator
from pathlib import Path
from typing import NamedTuple

sys.path.insert(0, str(Path(__file__).resolve().parents[1]))

from model.answers import LEVELS, BadFilter, check_filter
from model.texts import read_document
from support import PROGRAM as BUILT
from support import commands_of

WORDS = sys.argv[1:]
IS_FULL = WORDS[-1:] == ["full"]
PROGRAM = Path(WORDS[0]).resolve() if len(WORDS) > IS_FULL else BUILT
NAME = PROGRAM.name
COMMANDS = commands_of(NAME)
IS_WIDE = NAME == "bsonwide"
STACK = 1 << 20
SECONDS = 300  # of processor time; then a signal ends the run
MARGIN = 2.0
# Less than so much time, and so much memory in KiB, is not told from none.
LEAST_SECONDS = 0.02
LEAST_PEAK = 32 << 10
MIB = 1 << 20


# Documents, made as bytes: those of 16 MiB have a million values.


def document(body: bytes) -> bytes:
    return (len(body) + 5).to_bytes(4, "little") + body + b"\0"


def field(kind: int, name: str, value: bytes) -> bytes:
    return bytes([kind]) + name.encode() + b"\0" + value


def int32(number: int) -> bytes:
    return number.to_bytes(4, "little", signed=True)


def text(data: bytes) -> bytes:
    return int32(len(data) + 1) + data + b"\0"


def double(number: float) -> bytes:
    return struct.pack("<d", number)


def array(kind: int, values: list[bytes]) -> bytes:
    return document(b"".join(field(kind, str(place), value) for place, value in enumerate(values)))


EMPTY = document(b"")


def numbers(count: int) -> bytes:
    """Documents of a field `a`, the greatest number first."""
    return b"".join(document(field(0x10, "a", int32(it))) for it in range(count, 0, -1))


def deep(levels: int, name: str = "a", bottom: bytes = b"") -> bytes:
    """A document of so many levels, with fields at the deepest one."""
    made = document(bottom)
    for _ in range(levels - 1):
        made = document(field(0x03, name, made))
    return made


def nested(levels: int, width: int, name: str = "a") -> bytes:
    """A document with an array of documents, which have an array of documents each, and so on; last a number."""
    value, kind = int32(7), 0x10
    for _ in range(levels):
        value, kind = array(0x03, [document(field(kind, name, value))] * width), 0x04
    return document(field(kind, name, value))


# Documents that grow with a number of bytes.
LARGE: dict[str, Callable[[int], bytes]] = {
    "empty arrays": lambda size: document(field(0x04, "a", array(0x04, [EMPTY] * (size // 14)))),
    "a long text": lambda size: document(field(0x02, "a", text(b"\n" * (size - 20)))),
    "numbers of an array": lambda size: document(field(0x04, "a", array(0x10, [int32(it) for it in range(size // 13)]))),
    "equal numbers of an array": lambda size: document(field(0x04, "a", array(0x10, [int32(5)] * (size // 13)))),
    "fields of one name": lambda size: document(field(0x10, "a", int32(1)) * (size // 7)),
    "documents of an array": lambda size: document(field(0x04, "b", array(0x03, [document(field(0x10, "a", int32(it))) for it in range(size // 20)]))),
    "documents of 5 bytes": lambda size: EMPTY * (size // 5),
    "numbers downward": lambda size: numbers(size // 12),
    "documents of 200 levels": lambda size: deep(200) * (size // len(deep(200))),
    "long texts that begin alike": lambda size: b"".join(
        document(field(0x02, "a", text(b"x" * 1000 + b"%09d" % (it * 7919 % 1000003)))) for it in range(size // 1024)
    ),
    "texts in arrays that begin alike": lambda size: b"".join(
        document(field(0x04, "a", array(0x02, [text(b"x" * 100 + b"%09d" % (it * 7919 % 1000003 + k)) for k in range(8)]))) for it in range(size // 1024)
    ),
}  # fmt: skip

# Those of which no document grows.
SHORT = ("documents of 5 bytes", "numbers downward", "documents of 200 levels", "documents of a double", "doubles below 199 levels")

# Those that `bsonwide` alone reads: doubles whose texts have 17 digits, and decimal128 whose texts have 34.
NUMBERS: dict[str, Callable[[int], bytes]] = {
    "doubles of an array": lambda size: document(field(0x04, "a", array(0x01, [double(2.0 ** (it % 900) / 3) for it in range(size // 17)]))),
    "decimals of an array": lambda size: document(field(0x04, "a", array(0x13, [(10**34 - 1 + (it % 12288 << 113)).to_bytes(16, "little") for it in range(size // 25)]))),
    "documents of a double": lambda size: document(field(0x01, "a", double(-5e-324))) * (size // 16),
    "doubles below 199 levels": lambda size: deep(200, bottom=field(0x01, "a", double(0.1))) * (size // len(deep(201))),
}  # fmt: skip

# Lines that pack reads, by their bytes; and the words that it tells of one that it refuses.
LINES: dict[str, tuple[Callable[[int], bytes], str | None]] = {
    "brackets": (lambda size: b"[" * size, "line 1, byte 203: too deep"),
    "braces and names": (lambda size: b'{"a":' * (size // 5), "line 1, byte 1015: too deep"),
    "escapes": (lambda size: b'{"a":"' + b"\\u0000" * (size // 6) + b'"}', None),
    "digits": (lambda size: b'{"a":' + b"9" * size + b"}", "line 1, byte 5: number out of range"),
    "digits of a fraction": (lambda size: b'{"a":0.' + b"9" * size + b"}", None if IS_WIDE else "line 1, byte 5: not in the profile"),
    "wrappers": (lambda size: b'{"a":[' + b",".join([b'{"$numberInt":"1"}'] * (size // 19)) + b"]}", None),
    "scopes": (lambda size: b'{"a":[' + b",".join([b'{"$code":"","$scope":{"a":' * 90 + b"1" + b"}}" * 90] * (size // 2600)) + b"]}", None),
    "scopes before their codes": (
        lambda size: b'{"a":[' + b",".join([b'{"$scope":{"a":' * 90 + b"1" + b'},"$code":""}' * 90] * (size // 2600)) + b"]}",
        None,
    ),
    "a long name": (lambda size: b'{"' + b"n" * size + b'":1}', None),
    "names of one document": (lambda size: b"{" + b",".join([b'"a":true'] * (size // 9)) + b"}", None),
    "white space": (lambda size: b" \t" * (size // 2), None),
    "white space in a document": (lambda size: b"{" + b" " * size + b"}", None),
    "base64": (lambda size: b'{"a":{"$binary":{"subType":"0","base64":"' + b"AAAA" * (size // 4) + b'"}}}', None),
    "lines": (lambda size: b"{}\n" * (size // 3), None),
}
# The same of numbers that `bsonwide` alone reads.
LINES_OF_NUMBERS: dict[str, tuple[Callable[[int], bytes], str | None]] = {
    "bare doubles": (lambda size: b'{"a":[' + b",".join([b"0.1"] * (size // 12)) + b"]}", None),
    "doubles in wrappers": (lambda size: b'{"a":[' + b",".join([b'{"$numberDouble":"0.1"}'] * (size // 24)) + b"]}", None),
    "decimals in wrappers": (lambda size: b'{"a":[' + b",".join([b'{"$numberDecimal":"0.1"}'] * (size // 25)) + b"]}", None),
    "doubles in scopes": (lambda size: b'{"a":[' + b",".join([b'{"$code":"","$scope":{"a":' * 90 + b"1.5" + b"}}" * 90] * (size // 2600)) + b"]}", None),
    "a double half way between two": (lambda size: b'{"a":1.00000000000000011102230246251565404236316680908203125' + b"0" * size + b"1}", None),
    "zeros of a decimal": (lambda size: b'{"a":{"$numberDecimal":"' + b"0" * size + b"." + b"0" * 6000 + b'1"}}', None),
    "digits of a decimal": (lambda size: b'{"a":{"$numberDecimal":"' + b"9" * size + b'"}}', "line 1, byte 5: number out of range"),
    "digits of an exponent": (lambda size: b'{"a":1e' + b"9" * size + b"}", "line 1, byte 5: number out of range"),
    "a wrapper without an end": (lambda size: b'{"a":{"$numberDouble":"' + b"1" * size, "line 1, byte"),
    # A number in a wrapper has no escapes.
    "wrappers with escapes": (lambda size: b'{"a":[' + b",".join([b'{"$numberDouble":"\\u0031"}'] * (size // 28)) + b"]}", 'line 1, byte 6: bad wrapper; write {"$numberDouble":".."}'),
    "wrappers that are begun": (lambda size: b'{"a":' + b'{"$numberDouble":' * (size // 17), "line 1, byte"),
}
# Those that are no line of one command.
MANY_LINES = ("white space", "lines")


class Ran(NamedTuple):
    """How a run ended, its processor time and its memory in KiB, and what it told."""

    status: int
    seconds: float
    peak: int
    told: str


class Case(NamedTuple):
    """A command over inputs of two sizes."""

    name: str
    words: list[str]
    # The dump, where it is not the input; the input, or what is read of standard input.
    dump: Callable[[int], bytes] | None
    given: Callable[[int], bytes]
    sizes: tuple[int, int]
    # Whether what is told and written is right, of a run with files in this room.
    is_right: Callable[[Ran, Path], bool]
    # How many times as much time the larger one may take, where it is not as many as it is larger.
    growth: float | None = None
    # How many MiB the larger one may take, where that is known.
    most: int | None = None


# Starts a program below a shell that ends, and prints the program's number; the program begins once standard input is closed. What a
# process took counts from the process that started it on: of a shell that is little, of this Python more than most runs take.
SHELL = 'given=$1 out=$2 err=$3; shift 3; exec 3<&0; (read -r _ <&3; exec "$@" <"$given" >"$out" 2>"$err" 3<&-) & echo $!'
# Of prctl(2): a process whose parent ended becomes a child of this one, which then reads what it took.
PR_SET_CHILD_SUBREAPER = 36


def limited() -> None:
    """Limits a run, in its own process before it begins."""
    resource.setrlimit(resource.RLIMIT_STACK, (STACK, STACK))
    resource.setrlimit(resource.RLIMIT_CPU, (SECONDS, SECONDS))


def made(file: Path, make: Callable[[], bytes]) -> None:
    """Writes a file by a process of its own: what this one holds would be told as memory of the runs."""
    child = os.fork()
    if child == 0:
        try:
            file.write_bytes(make())
        finally:
            os._exit(0)
    os.waitpid(child, 0)


class Tests:
    """Counts what passed."""

    def __init__(self, room: Path) -> None:
        self.passed = self.failed = 0
        self.room = room
        self.dump, self.given, self.out, self.err = (room / name for name in ("dump", "given", "out", "err"))

    def want(self, name: str, is_so: bool, said: object = "") -> None:
        if is_so:
            self.passed += 1
        else:
            self.failed += 1
            print(f"FAILED: {name}: {said}", flush=True)

    def run(self, words: list[str]) -> Ran:
        words = [str(self.dump) if word == "DUMP" else word for word in words]
        command = ["/bin/sh", "-c", SHELL, "sh", self.given, self.out, self.err, PROGRAM, *words]
        with subprocess.Popen(command, stdin=subprocess.PIPE, stdout=subprocess.PIPE, text=True, preexec_fn=limited) as shell:
            number = int(shell.stdout.readline())
            shell.wait()
        _, status, used = os.wait4(number, 0)
        return Ran(os.waitstatus_to_exitcode(status), used.ru_utime + used.ru_stime, used.ru_maxrss, self.err.read_text(errors="replace"))

    def measure(self, case: Case, times: int) -> tuple[bool, list[Ran]]:
        """The least of some runs of each size, and whether all were right."""
        right, least = True, []
        for size in case.sizes:
            made(self.given, lambda: case.given(size))
            made(self.dump, lambda: case.dump(size) if case.dump else b"")
            runs = []
            for _ in range(times):
                runs.append(self.run(case.words))
                right = right and runs[-1].status in (0, 1) and case.is_right(runs[-1], self.room)
            least.append(min(runs, key=lambda ran: ran.seconds))
        return right, least

    def compare(self, case: Case) -> None:
        """Times of two sizes: those of a machine that does other work are taken again, more often."""
        sizes = case.sizes[1] / case.sizes[0]
        bound = MARGIN * (case.growth or sizes)
        for runs in (1, 3, 5):
            right, (small, large) = self.measure(case, runs)
            times = large.seconds / max(small.seconds, LEAST_SECONDS)
            if times <= bound:
                break
        peaks = large.peak / max(small.peak, LEAST_PEAK)
        says = f"{small.seconds:.2f} {large.seconds:.2f} s, {sizes:.1f} times the size in {times:.1f} times the time, {large.peak >> 10} MiB"
        print(f"{case.name}: {case.sizes[0]} {case.sizes[1]}: {says}", flush=True)
        self.want(case.name, right, f"the answer: {small.told[-200:]!r} {large.told[-200:]!r}")
        self.want(f"{case.name}, the time", times <= bound, says)
        self.want(f"{case.name}, the memory", peaks <= bound and large.peak >> 10 <= (case.most or large.peak), says)


# Cases.


def counted(file: Path) -> int:
    """How many documents a dump has, by their lengths."""
    count = 0
    with file.open("rb") as dump:
        while length := dump.read(4):
            dump.seek(int.from_bytes(length, "little") - 4, os.SEEK_CUR)
            count += 1
    return count


def tells(wanted: str) -> Callable[[Ran, Path], bool]:
    """Whether this is told at the beginning, and a count of all documents where it has a place for it."""
    return lambda ran, room: ran.told.startswith(wanted.replace("{count}", str(counted(room / "given"))) if "{count}" in wanted else wanted)


def are_packed(ran: Ran, room: Path) -> bool:
    """Whether each line that is not blank was packed."""
    with (room / "given").open("rb") as given:
        return ran.told == f"{sum(1 for line in given if line.strip())} objects packed\n"


def are_taken(ran: Ran, room: Path) -> bool:
    """Whether each command of a session was taken."""
    with (room / "given").open("rb") as given, (room / "out").open("rb") as out:
        asked = sum(1 for _ in given)
        return (ran.status, ran.told) == (0, "") and [line[:10] for line in out] == [b'{"ok":true'] * asked


def is_refused(ran: Ran, room: Path) -> bool:
    """Whether the one command of a session was refused."""
    replies = (room / "out").read_bytes().splitlines()
    return (ran.status, ran.told) == (0, "") and len(replies) == 1 and replies[0].startswith(b'{"ok":false,')


def lines_of(*commands: object) -> bytes:
    return b"".join(json.dumps(command).encode() + b"\n" for command in commands)


def dumped(data: bytes) -> bytes:
    return subprocess.run([PROGRAM, "dump", "-"], input=data, stdout=subprocess.PIPE, stderr=subprocess.DEVNULL).stdout


def large_cases(sizes: tuple[int, int]) -> Iterator[Case]:
    """Each command over each large dump, all of whose documents are whole."""
    commands = lines_of(
        {"createIndex": "a"}, {"explain": {"a": {"$gte": 0}}}, {"createIndex": "b.a", "sparse": True}, {"find": {}, "sort": {"a": -1}},
        {"getMore": 1, "batch": 1},
    )  # fmt: skip
    for name, make in (LARGE | NUMBERS if IS_WIDE else LARGE).items():
        runs = [(["dump"], "{count} objects found\n"), (["check"], "{count} documents, 0 faulty\n")]
        for words in (["--query", '{"a":-1}'], ["--query", '{"none":1}', "--index", "none"], ["--query", '{"a":-1}', "--index", "a"]):
            runs.append((["find", *words], "0 documents, end\n"))
        for sort in ('{"a":1}', '{"a":-1,"none":1}', '{"b.a":-1}'):
            runs.append((["find", "--sort", sort, "--limit", "1"], "1 documents, end, token "))
        for (command, *words), told in runs:
            # Nothing is held but one document, and its line.
            most = 8 if command in ("dump", "check") and name in SHORT else None
            yield Case(f"{' '.join([command, *words])}, {name}", [command, "-", *words], None, make, sizes, tells(told), None, most)
        yield Case(f"serve, {name}", ["serve", "DUMP"], make, lambda _: commands, sizes, are_taken)
        yield Case(f"pack of what dump prints, {name}", ["pack", "-"], None, lambda size, it=make: dumped(it(size)), sizes, are_packed)


def line_cases(sizes: tuple[int, int]) -> Iterator[Case]:
    for name, (make, told) in (LINES | LINES_OF_NUMBERS if IS_WIDE else LINES).items():
        words = (f"{NAME}: {told}" if told.endswith("byte") else f"{NAME}: {told}\n0 objects packed\n") if told else None
        yield Case(f"pack, {name}", ["pack", "-"], None, make, sizes, tells(words) if words else are_packed)
        if name not in MANY_LINES:
            # A command of such a line is refused, for one thing or another.
            yield Case(f"serve, {name}", ["serve", "DUMP"], lambda _: EMPTY, make, sizes, is_refused)


# Filters of so many members: none matches a document of `numbers`, but those that have to look at each member.
MEMBERS: dict[str, Callable[[int], object]] = {
    "$in": lambda count: {"a": {"$in": [-it for it in range(1, count)]}},
    "$nin": lambda count: {"a": {"$nin": [-it for it in range(count, 0, -1)]}},
    "$in, texts": lambda count: {"a": {"$in": [f"{'x' * 50}{it * 7919 % 100003}" for it in range(count)]}},
    "$all": lambda count: {"a": {"$all": [1] * count}},
    "$or": lambda count: {"$or": [{"a": -it} for it in range(1, count)]},
    "$and": lambda count: {"$and": [{"a": {"$gte": -it}} for it in range(count)]},
    "$nor": lambda count: {"$nor": [{"a": -it} for it in range(1, count)]},
    "operators": lambda count: {"a": {"$not": {"$in": []}} | {"$gte": 0}, "$and": [{"a": {"$exists": True}}] * count},
    "two $in": lambda count: {"$and": [{"a": {"$in": list(range(count, 2 * count))}}, {"a": {"$in": list(range(0, count, 2))}}]},
    "$or of $in": lambda count: {"$or": [{"a": {"$in": [-it, it + 100000]}} for it in range(1, count)]},
    "$type": lambda count: {"a": {"$type": ["string"] * count}},
    "names": lambda count: {f"a{it}" if it else "a": {"$exists": False} for it in range(count)},
}  # fmt: skip


def member_cases(members: tuple[int, int], documents: tuple[int, int]) -> Iterator[Case]:
    """Members grow over so many documents, and documents under so many members; by a scan and by an index."""
    for name, make in MEMBERS.items():
        for use in ("scan", "auto"):

            def session(count: int, use: str = use, make: Callable[[int], object] = make) -> bytes:
                return lines_of({"createIndex": "a"}, {"explain": make(count), "use": use}, {"find": make(count), "use": use}, {"getMore": 1, "batch": 1})

            few, some = documents[0], members[0] // 4
            yield Case(f"{name}, members grow, by {use}", ["serve", "DUMP"], lambda _, it=few: numbers(it), session, members, are_taken)
            yield Case(f"{name}, documents grow, by {use}", ["serve", "DUMP"], numbers, lambda _, it=some, of=session: of(it), documents, are_taken)


def both_ways(names: int) -> bytes:
    """Arrays in arrays, of a document whose field has its index as its name: a path of indexes goes through each in two ways."""
    value, kind = int32(1), 0x10
    for _ in range(names):
        value, kind = array(0x03, [document(field(kind, "0", value))]), 0x04
    return document(field(kind, "0", value))


def path_cases(scale: int) -> Iterator[Case]:
    """Long paths over deep documents, paths through arrays of documents in arrays of documents, and paths of indexes."""
    long = ".".join(["a"] * 100)
    through = ".".join(["a"] * 11)
    places = ".".join(["0"] * 60)
    levels, arrays, ways = deep(200), nested(10, 2), both_ways(60)
    for name, path, one, sizes in (("of 100 names", long, levels, (500, 4000)), ("through arrays", through, arrays, (8, 64)), ("of 60 places", places, ways, (50, 400))):
        for words in (
            ["--query", f'{{"{path}":1}}'], ["--query", f'{{"{path}":{{"$elemMatch":{{"$eq":1}}}}}}'], ["--sort", f'{{"{path}":-1}}', "--limit", "1"],
            ["--query", f'{{"{path}":8}}', "--index", path],
        ):  # fmt: skip
            told = "1 documents, end, token " if "--limit" in words else "0 documents, end\n"
            how = " by an index" if "--index" in words else " by $elemMatch" if "$elemMatch" in words[1] else ""
            title = f"find by a path {name}, {words[0]}{how}"
            bounds = (sizes[0] * scale, sizes[1] * scale)
            yield Case(title, ["find", "-", *words], None, lambda size, it=one: it * size, bounds, tells(told))
    # Of these the document grows, to the third power of the length of its arrays.
    for words in (
        ["--query", '{"a.a.a.a":1}'], ["--sort", '{"a.a.a.a":1}', "--limit", "1"], ["--query", '{"a.a.a.a":8}', "--index", "a.a.a.a"],
        ["--query", '{"a":{"$elemMatch":{"a":{"$elemMatch":{"a.a":3}}}}}'],
    ):  # fmt: skip
        told = "1 documents, end, token " if "--limit" in words else "0 documents, end\n"
        cubes = (24**3, 48**3) if scale == 1 else (48**3, 96**3)
        yield Case(f"find {' '.join(words)}, wide arrays", ["find", "-", *words], None, lambda size: nested(3, round(size ** (1 / 3))), cubes, tells(told))


def known_cases(scale: int) -> Iterator[Case]:
    """What grows faster than its input, and how fast: docs/DECISIONS.md says why."""

    def in_each_other(levels: int) -> object:
        return {"0.0.0": {"$elemMatch": in_each_other(levels - 1)}} if levels else {"0": 5}

    # A level more is twice as much, since two elements come to one.
    levels = (14 + scale, 18 + scale)
    yield Case("$elemMatch in $elemMatch on a path of indexes", ["serve", "DUMP"], lambda _: both_ways(95), lambda size: lines_of({"explain": in_each_other(size)}), levels, are_taken, 2.0**4)
    # Each member is compared with each element.
    members = (400 * scale, 1600 * scale)
    yield Case(
        "$all of as many members as an array has elements", ["serve", "DUMP"],
        lambda size: document(field(0x04, "a", array(0x10, [int32(it) for it in range(size)]))),
        lambda size: lines_of({"explain": {"a": {"$all": list(range(size - 1, -1, -1))}}}), members, are_taken, 16.0,
    )  # fmt: skip


def many_positions(size: int) -> bytes:
    """An array of empty documents, to which a path of 98 indexes comes from half of its positions."""
    value = array(0x03, [EMPTY] * (size // 13))
    for _ in range(48):
        value = array(0x03, [document(field(0x04, "0", value))])
    return document(field(0x04, "0", value))


def key_cases() -> Iterator[Case]:
    """Keys that a document gives many times. An index has each of them once, and building it takes memory for little more."""
    path = ".".join(["0"] * 98)
    few = document(field(0x04, "a", array(0x10, [int32(1), int32(2)] * 50)))
    for name, where, make, size in (("from many positions", path, many_positions, MIB), ("of few values", "a", lambda size: few * (size // len(few)), 8 * MIB)):
        words = ["find", "-", "--query", f'{{"{where}":8}}', "--index", where]
        yield Case(f"an index of keys {name}", words, None, make, (size // 8, size), tells("0 documents, end\n"), None, 32 + 2 * (size >> 20))


def session_cases(scale: int) -> Iterator[Case]:
    """Many commands."""
    sizes = (4000 * scale, 32000 * scale)

    def over(count: int, commands: Callable[[int], bytes], name: str) -> Case:
        return Case(name, ["serve", "DUMP"], lambda _: numbers(count), commands, sizes, are_taken)

    find, by_sort = lines_of({"find": {}}), lines_of({"find": {}, "sort": {"a": 1}})
    by_index = lines_of({"createIndex": "a"}, {"find": {"a": {"$gte": 0}}})
    indexes = lines_of(*({"createIndex": f"a{it}"} for it in range(16)))
    for name, start in (("", find), (" of a sort", by_sort), (" of an index", by_index)):
        # The dump has a document more than all batches together.
        yield over(sizes[1] + 1, lambda size, it=start: it + lines_of({"getMore": 1, "batch": 0}) * size, f"getMore of none{name}")
        yield over(sizes[1] + 1, lambda size, it=start: it + lines_of({"getMore": 1, "batch": 1}) * size, f"getMore of one{name}")

    def opened(size: int, open_first: int, kill_from: int) -> bytes:
        return find * open_first + b"".join(find + lines_of({"killCursor": it}) for it in range(kill_from, kill_from + size))

    yield over(100, lambda size: opened(size, 0, 1), "cursors that are opened and killed")
    yield over(100, lambda size: opened(size, 63, 64), "64 cursors, and the last one killed")
    yield over(100, lambda size: opened(size, 63, 1), "64 cursors, and the first one killed")
    yield over(10, lambda size: indexes + lines_of({"dropIndex": "a0"}, {"createIndex": "a0"}) * size, "16 indexes, and one made anew")
    yield over(10, lambda size: indexes + lines_of({"explain": {"a15": 1}}) * size, "16 indexes, and the last one serves")


def index_cases(sizes: tuple[int, int]) -> Iterator[Case]:
    """Keys in orders that a sort may not like: saws, all equal, two values, downward."""
    orders: dict[str, Callable[[int, int], int]] = {
        "upward": lambda it, _: it,
        "equal": lambda _, __: 5,
        "two values": lambda it, _: it % 2,
        "a saw": lambda it, count: it % (count // 10),
        "up and down": lambda it, count: min(it, count - it),
        "mixed": lambda it, _: it * 7919 % 1000003,
    }
    commands = lines_of({"createIndex": "a"}, {"find": {}, "sort": {"a": -1}}, {"getMore": 1, "batch": 10}, {"find": {"a": {"$gte": 0}}}, {"find": {}, "sort": {"a": 1}, "use": "scan"}, {"getMore": 3, "batch": 1})  # fmt: skip
    for name, order in orders.items():
        yield Case(f"an index and sorts, {name}", ["serve", "DUMP"], lambda size, it=order: b"".join(document(field(0x10, "a", int32(it(k, size)))) for k in range(size)), lambda _: commands, sizes, are_taken)


def levels_of(name: str, levels: int) -> str:
    """A filter of so many levels, the top among them."""
    starts = {"$not": '{"a":' + '{"$not":' * (levels - 1) + '{"$eq":1}' + "}" * levels, "$elemMatch": '{"a":' + '{"$elemMatch":{"a":' * (levels - 1) + "1" + "}}" * (levels - 1) + "}"}
    return starts.get(name, f'{{"{name}":[' * (levels - 1) + "{}" + "]}" * (levels - 1))


def test_limits(tests: Tests) -> None:
    """The deepest filters and the longest paths, and one more."""
    if "find" not in COMMANDS:
        return
    made(tests.given, lambda: deep(200))
    for name in ("$and", "$or", "$nor", "$not", "$elemMatch"):
        ran = tests.run(["find", "-", "--query", levels_of(name, LEVELS)])
        tests.want(f"{LEVELS} levels of {name}", ran.status == 0 and ", end" in ran.told, ran)
        try:
            check_filter(read_document(levels_of(name, LEVELS + 1).encode()))
            place = None
        except BadFilter as bad:
            place = ".".join(bad.place)
        ran = tests.run(["find", "-", "--query", levels_of(name, LEVELS + 1)])
        tests.want(f"{LEVELS + 1} levels of {name}", (ran.status, ran.told) == (1, f'{NAME}: query: place "{place}": too deep\n'), ran)
    for count, is_taken in ((100, True), (101, False)):
        path = ".".join(["a"] * count)
        for words, told in (
            (["--query", f'{{"{path}":{{"$type":"object"}}}}'], f'{NAME}: query: place "{path}": bad path\n'),
            (["--sort", f'{{"{path}":1}}'], f"{NAME}: sort: not a sort\n"),
            (["--index", path], f"{NAME}: index: too many components\n"),
        ):
            ran = tests.run(["find", "-", *words])
            good = ran.status == 0 and ran.told.startswith("1 documents, end, token ")
            tests.want(f"{words[0]} of {count} names", good if is_taken else (ran.status, ran.told) == (1, told), ran)


def main() -> int:
    if ctypes.CDLL(None, use_errno=True).prctl(PR_SET_CHILD_SUBREAPER, 1, 0, 0, 0):
        raise OSError(ctypes.get_errno(), "prctl")
    with tempfile.TemporaryDirectory() as room:
        tests = Tests(Path(room))
        test_limits(tests)
        large, scale = ((2 * MIB, 16 * MIB), 4) if IS_FULL else ((MIB // 8, MIB), 1)
        for cases in (
            large_cases(large),
            line_cases((large[0] - 25, large[1] - 200)),
            member_cases((1250 * scale, 10000 * scale), (50 * scale, 400 * scale)),
            path_cases(scale),
            session_cases(scale),
            key_cases(),
            index_cases((12500 * scale, 100000 * scale)),
            known_cases(scale),
        ):
            for case in cases:
                if case.words[0] in COMMANDS:
                    tests.compare(case)
    print(f"{tests.passed} passed, {tests.failed} failed")
    return 1 if tests.failed else 0


if __name__ == "__main__":
    sys.exit(main())
