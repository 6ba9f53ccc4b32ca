#!/usr/bin/env python3
"""Runs a program over inputs and outputs that fail, each read and each write in turn.

usage: tests/faults/devices.py [PROGRAM]     The last line is 'N passed, M failed'.

PROGRAM is ./bsonwide, or ./bsonfind, which runs without it.

- Each read of an input fails, of a file and of pipes, with a block a read and with a byte a read: what is shown is that of the
  bytes before, and nothing is read again.
- Each read finds the end, where the next one would give more, as that of a terminal: nothing is read again.
- Each write fails, or takes nothing, with a block a write and with a byte a write: what stands is a front of the whole, and
  nothing is written again.
- All goes well with a byte a read and a byte a write.
- Files that shrink and grow while they are read, inputs without end, outputs that are closed or that no one reads.
- The longest input, and one byte more.

The inputs and the whole answers are written by hand, or are those of examples/; tests/program/tokens.py makes tokens.
"""

import errno
import os
import signal
import subprocess
import sys
import threading
from collections.abc import Callable
from functools import partial
from itertools import accumulate
from pathlib import Path
from typing import NamedTuple

sys.path.insert(0, str(Path(__file__).resolve().parents[1]))

from failing import PATIENCE, PIPE, PROGRAM, Failing, Ran, Tests, await_stop, main
from growths import (
    BAD,
    BINARY,
    COMMANDS,
    DECIMAL,
    DECIMAL_LINE,
    DOUBLE,
    DOUBLE_LINE,
    FIVE,
    FIVE_DUMP,
    INT32,
    INT32_LINE,
    INT64,
    IS_WIDE,
    SEVERAL,
    STARVED,
    TALK,
    USAGE,
    by_value,
    counted,
    frames,
    lines,
    reported,
)
from model.answers import Dump, digest, token_of
from model.sessions import Session, request_text
from model.texts import read_document
from support import ROOT

# The file of an input, in the words of a run.
FILE = "FILE"
UNREAD = reported(b"cannot read\n")
UNWRITTEN = reported(b"cannot write\n")
READ_ERRORS = [errno.EIO, errno.EINTR, errno.EAGAIN]
# With 0 a write takes nothing.
WRITE_ERRORS = [errno.EIO, 0, errno.ENOSPC, errno.EINTR, errno.EPIPE]
# Before the words of a run in little memory.
LIMITED = ["sh", "-c", 'ulimit -v 65536 && exec "$0" "$@"', PROGRAM]
# What is read or written in turn: blocks, or single bytes.
BLOCKS, SINGLE = 0, 1

# A document or a command, and what is written of it: of a document without a fault `check` writes nothing.
Part = tuple[bytes, bytes]


def joined(parts: list[Part]) -> bytes:
    return b"".join(it for it, _ in parts)


def shown(parts: list[Part]) -> bytes:
    return b"".join(text for _, text in parts)


def whole(parts: list[Part], given: int) -> list[Part]:
    """Those that are whole in so many bytes of all."""
    return [part for part, end in zip(parts, accumulate(len(it) for it, _ in parts)) if end <= given]


def dumped(parts: list[Part], given: int) -> Ran:
    read = whole(parts, given)
    return Ran(1, shown(read), UNREAD + b"%d objects found\n" % len(read))


def checked(parts: list[Part], given: int) -> Ran:
    read = whole(parts, given)
    return Ran(1, shown(read), UNREAD + b"%d documents, %d faulty\n" % (len(read), sum(text != b"" for _, text in read)))


def untouched(_: int) -> Ran:
    """Of an input that is read whole before anything is written."""
    return Ran(1, b"", UNREAD)


class Case(NamedTuple):
    """A run over an input, its whole answer, and the answer where only so many bytes of the input could be read."""

    name: str
    words: list[str]
    data: bytes
    answer: Ran
    unread: Callable[[int], Ran] = untouched
    commands: bytes = b""


def of_program(cases: list[Case]) -> list[Case]:
    """Those of commands that the program has, or of no command."""
    return [case for case in cases if not case.words or case.words[0] in [*COMMANDS, "--help"]]


# `bsonfind` has a fault in place of a double.
NUMBERS = [(DOUBLE, DOUBLE_LINE.encode()), (DECIMAL, DECIMAL_LINE.encode())] if IS_WIDE else []
DOUBLE_FAULT = b"" if IS_WIDE else b'document 0, byte 4, path "d": double\n'
DUMP = [*NUMBERS, (INT32, INT32_LINE.encode()), (b"\5\0\0\0\0", b"{}\n"), (BINARY, b'{"x":{"$binary":{"base64":"//8=","subType":"02"}}}\n')]
CHECK = [(DOUBLE, DOUBLE_FAULT), (INT32, b""), (BAD, b'document 2, byte 52, path "a.0.1": bad boolean\n')]
PACK = [*((line, document) for document, line in NUMBERS), (b'{"a":1}\n', INT32), (b'{"a":2147483648}\n', INT64), (b'{"a":1}\n', INT32)]
SESSION = list(zip(lines(TALK)[::2], lines(TALK)[1::2]))
# What `bsonwide` alone serves: a double, a decimal128 and an int32.
VALUES_DUMP = DOUBLE + DECIMAL + INT32
BY_VALUE = list(zip(lines(by_value())[::2], lines(by_value())[1::2]))
# The sessions of the program, each with its dump.
SESSIONS = [("several.bson", SEVERAL, SESSION), *([("values.bson", VALUES_DUMP, BY_VALUE)] if IS_WIDE else [])]

# What `find` of `bsonwide` prints in place of lines.
FOUND = counted(5, "end", 4, FIVE_DUMP, sort='{"a":1}').encode()
FORMS = [
    Case(f"find {flag}", ["find", FILE, "--sort", '{"a":1}', flag], FIVE_DUMP, Ran(0, out, FOUND))
    for flag, out in (("--bson", FIVE_DUMP), ("--count", b"5\n"))
    if IS_WIDE
]

SMALL = of_program(
    [
        Case("dump", ["dump", FILE], joined(DUMP), Ran(0, shown(DUMP), b"%d objects found\n" % len(DUMP)), partial(dumped, DUMP)),
        Case("check", ["check", FILE], joined(CHECK), Ran(1, shown(CHECK), b"3 documents, %d faulty\n" % (2 - IS_WIDE)), partial(checked, CHECK)),
        Case("pack", ["pack", FILE], joined(PACK), Ran(0, shown(PACK), b"%d objects packed\n" % len(PACK))),
        Case("find", ["find", FILE, "--sort", '{"a":1}', "--index", "a"], FIVE_DUMP, Ran(0, shown(FIVE), counted(5, "end", 4, FIVE_DUMP, sort='{"a":1}').encode())),
        *FORMS,
        *(Case(f"serve {name}", ["serve", FILE], data, Ran(0, shown(talk), b""), commands=joined(talk)) for name, data, talk in SESSIONS),
    ]
)


def refused(reason: bytes) -> Ran:
    """A run that writes nothing, and tells why."""
    return Ran(1, b"", reported(reason))


FAULT = b'document 0, byte 24, path "a.0.1": bad boolean\n'
# What is told on standard error, alone and beside lines, and the usage.
TOLD = of_program(
    [
        Case("a dump with a fault", ["dump", FILE], INT32 + BAD, Ran(1, INT32_LINE.encode(), reported(b'document 1, byte 36, path "a.0.1": bad boolean\n') + b"1 objects found\n")),
        Case("a bad line", ["pack", FILE], b'{"a":1}\n{"a":1.}\n', Ran(1, INT32, reported(b"line 2, byte 7: not JSON\n") + b"1 objects packed\n")),
        Case("find in a dump with a fault", ["find", FILE], BAD, refused(FAULT)),
        Case("a bad query", ["find", FILE, "--query", "{"], INT32, refused(b"query: byte 1: not JSON\n")),
        Case("a session over a fault", ["serve", FILE], BAD, refused(FAULT)),
        Case("no such file", ["check", "missing.bson"], b"", refused(b"cannot open missing.bson\n")),
        Case("a directory", ["dump", "."], b"", Ran(1, b"", UNREAD + b"0 objects found\n")),
        Case("no words", [], b"", Ran(2, b"", USAGE.encode())),
        Case("a request for help", ["--help"], b"", Ran(0, USAGE.encode(), b"")),
    ]
)


def large_cases() -> list[Case]:
    """Inputs of several blocks, and outputs of more than 200 KB."""
    shop, people = ((ROOT / f"examples/{name}.bson").read_bytes() for name in ("shop", "people"))
    shop_lines, people_lines = ((ROOT / f"examples/{name}.jsonl").read_bytes() for name in ("shop", "people"))
    orders = list(zip(frames(shop), shop_lines.splitlines(keepends=True)))
    faults = [(b"\6\0\0\0\x63\0", b'document %d, byte %d, path "": unknown type\n' % (number, 6 * number + 4)) for number in range(6000)]
    tied = digest(shop, request_text())
    replies = b'{"ok":true,"cursor":{"$numberLong":"1"}}\n'
    for batch, given, end in ((orders[:150], 150, b"false"), (orders[150:], 400, b"true")):
        documents = b",".join(line.rstrip(b"\n") for _, line in batch)
        replies += b'{"ok":true,"documents":[%s],"end":%s,"token":"%s"}\n' % (documents, end, token_of(given, given - 1, tied).encode())
    commands = b'{"find":{}}\n{"getMore":1,"batch":150}\n{"getMore":1,"batch":250}\n'
    cases = [
        Case("a large dump", ["dump", FILE], shop, Ran(0, shop_lines, b"400 objects found\n"), partial(dumped, orders)),
        Case("a large check", ["check", FILE], joined(faults), Ran(1, shown(faults), b"6000 documents, 6000 faulty\n"), partial(checked, faults)),
        Case("a large pack", ["pack", FILE], people_lines + shop_lines, Ran(0, people + shop, b"900 objects packed\n")),
        Case("a large find", ["find", FILE], shop, Ran(0, shop_lines, counted(400, "end", 399, shop).encode())),
        Case("a large session", ["serve", FILE], shop, Ran(0, replies, b""), commands=commands),
    ]
    return of_program(cases)


LARGE = large_cases()


class Way(NamedTuple):
    """How an input comes: the words of the run, standard input, what is in a pipe that has a name, and the descriptor."""

    name: str
    words: list[str]
    stdin: bytes | Path
    pipe: bytes
    descriptor: int


def named(case: Case, name: str) -> list[str]:
    return [name if word == FILE else word for word in case.words]


def of_file(failing: Failing, case: Case) -> Way:
    (failing.room / f"{case.name}.input").write_bytes(case.data)
    return Way("a file", named(case, f"{case.name}.input"), case.commands, b"", 3)


def ways(failing: Failing, case: Case) -> list[Way]:
    by_name = [of_file(failing, case), Way("a pipe with a name", named(case, PIPE), case.commands, case.data, 3)]
    if case.words[0] == "serve":
        return by_name
    file = failing.room / f"{case.name}.input"
    stream = named(case, "-")
    return [*by_name, Way("a file as standard input", stream, file, b"", 0), Way("a pipe", stream, case.data, b"", 0)]


def judge(tests: Tests, name: str, results: list[str], least: int, most: int | None = None) -> None:
    """Whether there are as many runs as there should be, and nothing is wrong in any."""
    wrong = [result for result in results if result]
    is_all = least <= len(results) <= (len(results) if most is None else most)
    tests.want(name, is_all and not wrong, wrong[:3] or f"{len(results)} runs")


def wrong_read(failing: Failing, way: Way, unread: Callable[[int], Ran], size: int, read: int) -> str | None:
    """What is wrong where a read fails, if anything; None where there are not so many reads."""
    error = READ_ERRORS[read % len(READ_ERRORS)]
    ran, counts = failing.run(way.words, way.stdin, way.pipe, input=way.descriptor, read=read, error=error, single=size)
    reads, given = counts.reads[way.descriptor], counts.given[way.descriptor]
    if reads < read:
        return None
    if reads > read:
        return f"it reads on after read {read}"
    if way.descriptor != 0 and counts.reads[0] > 0:
        return f"it reads standard input after read {read}"
    if size == SINGLE and given != read - 1:
        return f"{given} bytes before read {read}"
    return "" if ran == unread(given) else f"read {read}: {ran}"


def test_reads(tests: Tests, failing: Failing) -> None:
    for case in SMALL + LARGE:
        for way in ways(failing, case):
            name = f"{case.name}, each read of {way.name} fails"
            # One is of the bytes, and one of the end.
            judge(tests, name, failing.each(partial(wrong_read, failing, way, case.unread, BLOCKS)), 2)
            if case not in LARGE:
                results = failing.each(partial(wrong_read, failing, way, case.unread, SINGLE))
                judge(tests, f"{name}, byte by byte", results, len(case.data) + 1, len(case.data) + 1)


def replied(session: list[Part], given: int) -> Ran:
    """The replies to the commands that were read whole."""
    return Ran(1, shown(whole(session, given)), UNREAD)


def test_commands(tests: Tests, failing: Failing) -> None:
    if "serve" not in COMMANDS:
        return
    for dump, bytes_of_dump, session in SESSIONS:
        data, file = joined(session), failing.room / "commands"
        (failing.room / dump).write_bytes(bytes_of_dump)
        file.write_bytes(data)
        for name, stdin in (("a pipe", data), ("a file", file)):
            way, wanted = Way(name, ["serve", dump], stdin, b"", 0), partial(replied, session)
            judge(tests, f"{dump}, each read of commands of {name} fails", failing.each(partial(wrong_read, failing, way, wanted, BLOCKS)), 2, 2)
            results = failing.each(partial(wrong_read, failing, way, wanted, SINGLE))
            judge(tests, f"{dump}, each read of commands of {name} fails, byte by byte", results, len(data) + 1, len(data) + 1)


def wrong_write(failing: Failing, way: Way, answer: Ran, descriptor: int, size: int, error: int, write: int) -> str | None:
    """What is wrong where a write fails, if anything; None where there are not so many writes."""
    ran, counts = failing.run(way.words, way.stdin, output=descriptor, write=write, error=error, single=size)
    writes, taken = counts.writes[descriptor], counts.taken[descriptor]
    if writes < write:
        return None
    if writes > write:
        return f"it writes on after write {write}"
    if size == SINGLE and taken != write - 1:
        return f"{taken} bytes before write {write}"
    wanted = Ran(1, answer.out[:taken], UNWRITTEN) if descriptor == 1 else Ran(1, answer.out, answer.err[:taken])
    return "" if ran == wanted else f"write {write}, error {error}: {ran}"


def test_writes(tests: Tests, failing: Failing) -> None:
    for case in SMALL + TOLD + LARGE:
        way = of_file(failing, case)
        for descriptor, stream, text in ((1, "output", case.answer.out), (2, "error", case.answer.err)):
            name = f"{case.name}, each write to standard {stream} fails"
            for error in WRITE_ERRORS if text else []:
                results = failing.each(partial(wrong_write, failing, way, case.answer, descriptor, BLOCKS, error))
                # What is short is gathered, and so one write; pack writes all its documents at once.
                is_several = descriptor == 1 and case in LARGE and case.words[0] != "pack"
                judge(tests, f"{name} by {error}", results, 1 + is_several, 1 if descriptor == 1 and not is_several else None)
            for error in WRITE_ERRORS[:2] if text and case not in LARGE else []:
                results = failing.each(partial(wrong_write, failing, way, case.answer, descriptor, SINGLE, error))
                judge(tests, f"{name} by {error}, byte by byte", results, len(text), len(text))


def wrong_whole(failing: Failing, case: Case, way: Way, size: int) -> str:
    ran, _ = failing.run(way.words, way.stdin, way.pipe, single=size)
    return "" if ran == case.answer else str(ran)


def test_whole(tests: Tests, failing: Failing) -> None:
    """A byte a read and a byte a write, and both as they come."""
    each = [(case, way, size) for case in SMALL + LARGE for way in ways(failing, case) for size in (BLOCKS, SINGLE)]
    each += [(case, of_file(failing, case), size) for case in TOLD for size in (BLOCKS, SINGLE)]
    for (case, way, size), wrong in zip(each, failing.pool.map(lambda it: wrong_whole(failing, *it), each)):
        tests.want(f"{case.name} of {way.name}{', byte by byte' if size == SINGLE else ''}", not wrong, wrong)


def cut(parts: list[Part], size: int) -> tuple[list[Part], bytes]:
    """The documents that are whole in the first bytes of a dump, and the fault of the one that is cut."""
    read = whole(parts, size)
    start = len(joined(read))
    kind = "length cut short" if size - start < 4 else "bad length"
    return read, f'document {len(read)}, byte {start}, path "": {kind}\n'.encode() if size > start else b""


def cut_dump(size: int) -> Ran:
    read, fault = cut(DUMP, size)
    return Ran(int(fault != b""), shown(read), (reported(fault) if fault else b"") + b"%d objects found\n" % len(read))


def cut_check(size: int) -> Ran:
    """The first document has a fault of its own."""
    read, fault = cut(CHECK, size)
    read += [(b"", fault)] if fault else []
    faulty = sum(text != b"" for _, text in read)
    return Ran(int(faulty > 0), shown(read), b"%d documents, %d faulty\n" % (len(read), faulty))


def cut_pack(size: int) -> Ran:
    """A line that is cut is no JSON, where more than its newline is missing. The last line is empty where none is cut."""
    front = joined(PACK)[:size].split(b"\n")
    packed = [document for (line, document), text in zip(PACK, front) if line == text + b"\n"]
    bad = front[-1] if len(packed) < len(front) else b""
    told = reported(b"line %d, byte %d: not JSON\n" % (len(front), len(bad))) if bad else b""
    return Ran(int(bad != b""), b"".join(packed), told + b"%d objects packed\n" % len(packed))


def cut_find(size: int) -> Ran:
    read, fault = cut(FIVE, size)
    if fault:
        return refused(fault)
    return Ran(0, shown(read), counted(len(read), "end", len(read) - 1, FIVE_DUMP[:size]).encode() if read else b"0 documents, end\n")


def explained(documents: int) -> bytes:
    many = b'{"$numberLong":"%d"}' % documents
    return b'{"ok":true,"plan":"scan","index":null,"entries":{"$numberLong":"0"},"documents":%s,"matches":%s}\n' % (many, many)


def cut_serve(size: int) -> Ran:
    read, fault = cut(FIVE, size)
    return refused(fault) if fault else Ran(0, explained(len(read)), b"")


EXPLAIN = b'{"explain":{}}\n'
CUTS = {
    "dump": (joined(DUMP), cut_dump),
    "check": (joined(CHECK), cut_check),
    "pack": (joined(PACK), cut_pack),
    "find": (FIVE_DUMP, cut_find),
    "serve": (FIVE_DUMP, cut_serve),
}
CUTS = {command: cut for command, cut in CUTS.items() if command in COMMANDS}


def wrong_end(failing: Failing, way: Way, wanted: Callable[[int], Ran], read: int) -> str | None:
    """What is wrong where a read finds the end, if anything; None where there are not so many reads."""
    ran, counts = failing.run(way.words, way.stdin, way.pipe, input=way.descriptor, read=read, error=0, single=SINGLE)
    reads = counts.reads[way.descriptor]
    if reads < read:
        return None
    if reads > read:
        return f"it reads on after the end, which is read {read}"
    return "" if ran == wanted(counts.given[way.descriptor]) else f"read {read}: {ran}"


def replied_to(given: int) -> Ran:
    """The replies to commands, of which the last may be cut."""
    session = Session(Dump([read_document(b'{"a":[5,7,5]}'), read_document(b'{"a":5}')], SEVERAL))
    return Ran(0, "".join(f"{session.reply(line)}\n" for line in joined(SESSION)[:given].splitlines()).encode(), b"")


def test_ends(tests: Tests, failing: Failing) -> None:
    """An end of the input, after which a read would give more."""
    for command, (data, wanted) in CUTS.items():
        for way in ways(failing, Case(command, [command, FILE], data, wanted(len(data)), commands=EXPLAIN)):
            results = failing.each(partial(wrong_end, failing, way, wanted))
            judge(tests, f"{command}, each read of {way.name} finds the end", results, len(data) + 1, len(data) + 1)
    if "serve" in COMMANDS:
        (failing.room / "several.bson").write_bytes(SEVERAL)
        data = joined(SESSION)
        results = failing.each(partial(wrong_end, failing, Way("", ["serve", "several.bson"], data, b"", 0), replied_to))
        judge(tests, "each read of commands finds the end", results, len(data) + 1, len(data) + 1)


def changed(failing: Failing, words: list[str], read: int, size: int, change: Callable[[], object]) -> Ran:
    """A run whose file is changed while the program waits before a read."""
    with failing.started(words, EXPLAIN, input=3, pause=read, single=size) as (run, told):
        await_stop(run)
        reads = told().reads[3]
        change()
        run.send_signal(signal.SIGCONT)
        out, err = run.communicate(timeout=PATIENCE)
    # A run that ended before is not what is looked for.
    return Ran(run.returncode, out, err) if reads == read else Ran(-1, b"", b"it did not wait")


def wrong_shrunk(failing: Failing, command: str, read: int, size: int) -> str:
    """A file is cut at a byte when some were read, which are not lost."""
    data, wanted = CUTS[command]
    file = failing.room / f"{command}{size}"
    file.write_bytes(data)
    ran = changed(failing, [command, file.name], read + 1, SINGLE, lambda: os.truncate(file, size))
    return "" if ran == wanted(max(size, read)) else f"cut at {size}: {ran}"


def test_changes(tests: Tests, failing: Failing) -> None:
    for command, (data, wanted) in CUTS.items():
        half = len(data) // 2
        for read in (0, half):
            results = list(failing.pool.map(partial(wrong_shrunk, failing, command, read), range(len(data) + 1)))
            judge(tests, f"{command} of a file that shrinks when {read} bytes were read", results, len(data) + 1)
        file = failing.room / f"{command}.growing"
        file.write_bytes(data[:half])
        with file.open("ab", buffering=0) as opened:
            ran = changed(failing, [command, file.name], 2, BLOCKS, lambda: opened.write(data[half:]))
        tests.want(f"{command} of a file that grows before its end is read", ran == wanted(len(data)), ran)


def direct(failing: Failing, words: list[object], commands: bytes = b"", **streams: object) -> Ran:
    """A run without the library beneath it."""
    file = failing.room / "commands"
    file.write_bytes(commands)
    with file.open("rb") as stdin:
        run = subprocess.run(words, cwd=failing.room, timeout=PATIENCE, **{"stdin": stdin, "stdout": subprocess.PIPE, "stderr": subprocess.PIPE, **streams})
    return Ran(run.returncode, run.stdout or b"", run.stderr or b"")


def shut(redirections: str) -> list[object]:
    """Before the words of a run: which descriptors are closed."""
    return ["sh", "-c", f'exec "$0" "$@" {redirections}', PROGRAM]


def test_closed(tests: Tests, failing: Failing) -> None:
    """Outputs whose reader is gone, and descriptors that are closed. No signal ends a run, and nothing is written to its file."""
    ours, gone = os.pipe()
    os.close(ours)
    for case in SMALL + TOLD + LARGE:
        way, (_, out, err) = of_file(failing, case), case.answer
        for name, redirections, streams, wanted in (
            ("output", ">&-", {"stdout": gone}, Ran(1, b"", UNWRITTEN) if out else case.answer),
            ("error", "2>&-", {"stderr": gone}, Ran(1, out, b"") if err else case.answer),
            ("output and error", ">&- 2>&-", {"stdout": gone, "stderr": gone}, Ran(1, b"", b"")),
        ):
            ran = direct(failing, [PROGRAM, *way.words], case.commands, **streams)
            tests.want(f"{case.name}, no one reads standard {name}", ran == wanted, ran)
            ran = direct(failing, shut(redirections) + way.words, case.commands)
            tests.want(f"{case.name}, closed standard {name}", ran == wanted, ran)
        if FILE in case.words:
            tests.want(f"{case.name}, its file", (failing.room / way.words[1]).read_bytes() == case.data)
    os.close(gone)
    for case in [case for case in SMALL if case.words[0] != "serve"]:
        ran = direct(failing, shut("<&-") + named(case, "-"))
        tests.want(f"{case.name}, closed standard input", ran == case.unread(0), ran)


def test_full(tests: Tests, failing: Failing) -> None:
    """Outputs that are full."""
    with open("/dev/full", "wb") as full:
        for case in SMALL + TOLD + LARGE:
            way, (_, out, err) = of_file(failing, case), case.answer
            ran = direct(failing, [PROGRAM, *way.words], case.commands, stdout=full)
            tests.want(f"{case.name}, a full standard output", ran == (Ran(1, b"", UNWRITTEN) if out else case.answer), ran)
            ran = direct(failing, [PROGRAM, *way.words], case.commands, stderr=full)
            tests.want(f"{case.name}, a full standard error", ran == (Ran(1, out, b"") if err else case.answer), ran)


def feed(descriptor: int, data: bytes) -> threading.Thread:
    """Writes some bytes again and again, until no one reads them."""

    def write() -> None:
        try:
            while True:
                os.write(descriptor, data)
        except BrokenPipeError:
            os.close(descriptor)

    thread = threading.Thread(target=write)
    thread.start()
    return thread


def endless(failing: Failing, words: list[object], data: bytes, shown: int) -> Ran:
    """A run whose standard input has no end. After so many bytes its standard output is closed; at 0 it stays open."""
    ours, theirs = os.pipe()
    run = subprocess.Popen(words, cwd=failing.room, stdin=ours, stdout=subprocess.PIPE, stderr=subprocess.PIPE)
    os.close(ours)
    feeding = feed(theirs, data)
    ending = threading.Timer(PATIENCE, run.kill)
    ending.start()
    try:
        out = run.stdout.read(shown or -1)
        run.stdout.close()
        err = run.stderr.read()
        return Ran(run.wait(), out, err)
    finally:
        ending.cancel()
        run.kill()
        run.wait()
        run.stderr.close()
        feeding.join()


def test_endless(tests: Tests, failing: Failing) -> None:
    """What writes as it reads ends when its output is closed, and what holds its input when its memory is full."""
    (failing.room / "five.bson").write_bytes(FIVE_DUMP)
    empty, line = b"\5\0\0\0\0" * 10000, b'{"a":1}\n' * 10000
    faults = b"".join(b'document %d, byte %d, path "": unknown type\n' % (number, 6 * number + 4) for number in range(1000))
    for name, words, data, out in (
        ("dump", ["dump", "-"], empty, b"{}\n" * 1000),
        ("check", ["check", "-"], b"\6\0\0\0\x63\0" * 10000, faults),
        ("serve", ["serve", "five.bson"], EXPLAIN * 1000, explained(5) * 1000),
    ):
        if name in COMMANDS:
            ran = endless(failing, [PROGRAM, *words], data, len(out))
            tests.want(f"{name}, an input without end, and an output that is closed", ran == Ran(1, out, UNWRITTEN), ran)
    for name, words, data in (("find", ["find", "-"], empty), ("pack", ["pack", "-"], line), ("serve", ["serve", "/dev/stdin"], empty)):
        if name in COMMANDS:
            ran = endless(failing, [*LIMITED, *words], data, 0)
            tests.want(f"{name}, an input without end in 64 MiB of memory", ran == Ran(1, b"", STARVED), ran)


def fed(words: list[object], part: bytes, count: int, last: bytes) -> tuple[int, bytes]:
    """The status and the standard error of a run over so many parts and then the last bytes."""
    with subprocess.Popen(words, stdin=subprocess.PIPE, stdout=subprocess.DEVNULL, stderr=subprocess.PIPE) as run:
        for _ in range(count):
            run.stdin.write(part)
        run.stdin.write(last)
        run.stdin.close()
        told = run.stderr.read()
    return run.returncode, told


def test_too_long(tests: Tests, failing: Failing) -> None:
    """An input has at most 4,294,967,295 bytes. What reads as it goes reports one more with the count of all documents before it."""
    text = b"x" * 65524
    # A document of 65,537 bytes: 65,535 of them are as many bytes as an input may have.
    one = (65537).to_bytes(4, "little") + b"\2a\0" + (65525).to_bytes(4, "little") + text + b"\0\0"
    part = one * 15
    last = {"check": b"65535 documents, 0 faulty\n", "dump": b"65535 objects found\n"}
    for name in [name for name in last if name in COMMANDS]:
        words: list[object] = [*LIMITED, name, "-"]
        ran = fed(words, part, 4369, b"")
        tests.want(f"{name} of the longest input in 64 MiB of memory", ran == (0, last[name]), ran)
        ran = fed(words, part, 4369, b"\5")
        tests.want(f"{name} of an input of one byte more", ran == (1, reported(b"input too long\n") + last[name]), ran)
    for name, words in (("find", ["find", "-"]), ("pack", ["pack", "-"]), ("serve", ["serve", "/dev/stdin"])):
        if name in COMMANDS:
            ran = fed([PROGRAM, *words], part, 4369, b"\5")
            tests.want(f"{name} of an input of one byte more", ran == (1, reported(b"input too long\n")), ran)


if __name__ == "__main__":
    sys.exit(main([test_reads, test_commands, test_ends, test_writes, test_whole, test_changes, test_closed, test_full, test_endless, test_too_long]))
