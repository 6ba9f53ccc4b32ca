#!/usr/bin/env python3
"""Rows over the built program: what goes in, and what comes out, a row a line of tests/rows/KIND-SUBJECT.jsonl.

usage: tests/rows/rows.py [--program PATH].. [FILE..]     The last line is 'N passed, M failed'.

Without --program each row runs over ./bsonfind, and those of `check`, `cut` and `pack` over both. A failure names its file and
line. The kinds are the functions of KINDS.
A row is JSON whose names may stand twice and in any order that matters; where the form of a text matters it is a string.
"""

import base64
import itertools
import json
import re
import subprocess
import sys
import tempfile
from collections.abc import Callable, Iterator
from concurrent.futures import ThreadPoolExecutor
from pathlib import Path

sys.path.insert(0, str(Path(__file__).resolve().parents[1]))

from model.answers import digest, token_of
from model.sessions import request_text
from model.texts import TEXT_WORDS, TextFault, advice
from support import PROGRAM, ROOT, commands_of

ROWS = ROOT / "tests/rows"
# How many seconds a run may take.
PATIENCE = 60
# A word of the system's has fewer bytes.
LONGEST_WORD = 131_072


class Members(list):
    """The members of an object, in their order; a name may stand twice."""

    def get(self, name: str, default: object = None) -> object:
        return next((value for it, value in self if it == name), default)

    def __contains__(self, name: object) -> bool:
        return any(it == name for it, _ in self)


class Number(str):
    """A number with a fraction or an exponent, by its text."""


def read(text: str) -> object:
    return json.loads(text, object_pairs_hook=Members, parse_float=Number)


def compact(value: object) -> str:
    """The text of a value, without white space."""
    if isinstance(value, Members):
        return "{" + ",".join(f"{compact(name)}:{compact(it)}" for name, it in value) + "}"
    if isinstance(value, list):
        return "[" + ",".join(map(compact, value)) + "]"
    return str(value) if isinstance(value, Number) else json.dumps(value, ensure_ascii=False)


def text_of(value: object) -> str:
    """A string by itself, any other value by its text."""
    return value if type(value) is str else compact(value)


class Program:
    """A built program, and the dumps that it packed."""

    def __init__(self, path: Path, room: Path) -> None:
        self.path, self.room = path, room

    def run(self, *words: str | Path, given: bytes = b"", folder: Path | None = None) -> subprocess.CompletedProcess:
        return subprocess.run([self.path, *words], input=given, capture_output=True, timeout=PATIENCE, check=False, cwd=folder)

    def file(self, data: bytes, name: str = "dump") -> Path:
        """A file in a folder of its own."""
        file = Path(tempfile.mkdtemp(dir=self.room), name)
        file.write_bytes(data)
        return file

    def beside(self) -> "Program":
        """The `bsonwide` that was built as this `bsonfind` was."""
        folder = ROOT if self.path.is_relative_to(ROOT) else self.path.parent
        return Program(folder / str(self.path.relative_to(folder)).replace("bsonfind", "bsonwide"), self.room)

    def dump(self, documents: list, name: str = "dump") -> Path:
        """A file of documents."""
        packed = self.run("pack", "-", given="".join(f"{text_of(it)}\n" for it in documents).encode())
        if packed.returncode:
            raise Wrong(packed.stderr.decode())
        return self.file(packed.stdout, name)


class Wrong(Exception):
    """What came in place of what a row wants."""


def want(came: object, wanted: object, of: str) -> None:
    if came != wanted:
        raise Wrong(f"{of}: {came!r}, wanted {wanted!r}")


Row = tuple[str, Members]
# What came of a row: its place, how much it tries, and what was wrong.
Came = Iterator[tuple[str, int, str | None]]


def one_by_one(test: Callable[[Program, Members], int]) -> Callable[[Program, list[Row]], Came]:
    """The kind whose rows have nothing to do with each other: the test returns how much it tried."""

    def attempt(program: Program, place: str, row: Members) -> tuple[str, int, str | None]:
        try:
            return place, test(program, row), None
        except (Wrong, subprocess.TimeoutExpired) as wrong:
            return place, 1, str(wrong)

    def kind(program: Program, rows: list[Row]) -> Came:
        with ThreadPoolExecutor() as pool:
            yield from pool.map(lambda it: attempt(program, *it), rows)

    return kind


def spelled(text: str) -> bytes:
    """The bytes of hexadecimal digits, where spaces are for reading. "(" is the length of what stands up to its ")", which is a
    zero: a document. "[" is the length of what stands up to its "]", which is no byte: the value of code with scope."""
    data, starts = bytearray(), []
    for part in re.split(r"([][()])", text):
        if part in ("(", "["):
            starts.append(len(data))
            data += bytes(4)
        elif part in (")", "]"):
            data += b"\0" if part == ")" else b""
            start = starts.pop()
            data[start : start + 4] = (len(data) - start).to_bytes(4, "little")
        else:
            data += bytes.fromhex(part)
    return bytes(data)


def bytes_of(row: Members, name: str) -> bytes:
    """The bytes of a field, as `spelled` reads it."""
    return spelled(str(row.get(name)))


def replies(program: Program, dump: Path, commands: list[str]) -> list[str]:
    """What a session replies; it has to end well."""
    ran = program.run("serve", dump, given="".join(f"{it}\n" for it in commands).encode())
    want((ran.returncode, ran.stderr), (0, b""), "the end of serve")
    came = ran.stdout.decode().split("\n")[:-1]
    want(len(came), len(commands), "replies")
    return came


def match(program: Program, rows: list[Row]) -> Came:
    """{"filter":F,"matches":[D..],"others":[D..]}: which documents a filter finds. All are finds of one session over one dump of
    the documents of all rows; a filter may find documents of other rows too. With "only" in place of "matches" it finds none but
    these."""
    names = ("matches", "only", "others")
    documents = list(dict.fromkeys(text_of(it) for _, row in rows for name in names for it in row.get(name, [])))
    dump = program.dump(documents)
    shown = dict(zip(documents, program.run("dump", dump).stdout.decode().split("\n")))
    commands = []
    for number, (_, row) in enumerate(rows, 1):
        commands.append(f'{{"find":{text_of(row.get("filter"))}}}')
        commands.append(f'{{"getMore":{number},"batch":{len(documents)}}}')
    came = replies(program, dump, commands)
    for (place, row), opened, batch in zip(rows, came[::2], came[1::2]):
        answer = read(batch)
        found = {compact(it) for it in answer.get("documents", [])}
        matching = [text_of(it) for it in row.get("only", row.get("matches", []))]
        others = [it for it in documents if it not in matching] if "only" in row else [text_of(it) for it in row.get("others", [])]
        wrong = [it for it in matching if shown[it] not in found] + [it for it in others if shown[it] in found]
        is_open = answer.get("end") is True
        tried = len(matching) + len(others)
        said = None if is_open and not wrong else f"{text_of(row.get('filter'))}: {wrong or opened}"
        yield place, tried, said


def filters(program: Program, rows: list[Row]) -> Came:
    """{"filter":F}: a filter that is taken; {"filter":F,"place":P,"words":W}: one that is refused. All are explained in one
    session."""
    came = replies(program, program.dump([]), [f'{{"explain":{text_of(row.get("filter"))}}}' for _, row in rows])
    for (place, row), reply in zip(rows, came):
        told = f',"text":{compact(row.get("words"))},"place":{compact(row.get("place"))}}}'
        is_refused = reply.startswith('{"ok":false,"layer":"filter",') and reply.endswith(told)
        is_right = is_refused if "words" in row else reply.startswith('{"ok":true,')
        yield place, 1, None if is_right else f"{text_of(row.get('filter'))}: {reply}"


def count_of(answer: Members, name: str) -> int:
    """A number of a reply."""
    return int(answer.get(name).get("$numberLong"))


@one_by_one
def plan(program: Program, row: Members) -> int:
    """{"index":PATH,"sparse":true,"documents":[D..],"entries":N,"multikey":B,"filter":F,"sort":S,"plan":P,"inside":N,"places":[N..]}:
    an index over documents, and an answer. "plan" is the one that a session chooses, which is "index" without it. By the index
    as many entries as "inside" are read, and of the documents those at "places", among which all are found, in this order."""
    index, documents = compact(row.get("index")), row.get("documents")
    sparse = ',"sparse":true' if row.get("sparse") else ""
    request = text_of(row.get("filter")) + (f',"sort":{text_of(row.get("sort"))}' if "sort" in row else "")
    commands = [f'{{"createIndex":{index}{sparse}}}', f'{{"explain":{request}}}']
    commands += [f'{{"{it}":{request},"use":{{"index":{index}}}}}' for it in ("explain", "find")]
    came = [read(it) for it in replies(program, program.dump(documents), commands + ['{"getMore":1,"batch":1}'] * len(documents))]
    for command, answer in zip(commands, came):
        want(answer.get("ok"), True, command)
    made, chosen, used, _, *batches = came
    want(chosen.get("plan"), row.get("plan", "index"), "plan")
    if "multikey" in row:
        want(made.get("multikey"), row.get("multikey"), "multikey")
    for answer, name in (made, "entries"), (used, "inside"):
        if name in row:
            want(count_of(answer, "entries"), row.get(name), name)
    if "places" in row:
        places = row.get("places")
        want(count_of(used, "documents"), len(places), "documents that are read")
        # A token has the place of the last document that was given.
        tokens = [base64.b64decode(it.get("token")) for it in batches if it.get("documents")]
        found = [int.from_bytes(it[9:13], "little") for it in tokens]
        want(len(found), count_of(used, "matches"), "matches")
        want(found, [it for it in places if it in found], "places of what is found")
    return 1


@one_by_one
def talk(program: Program, row: Members) -> int:
    """{"documents":[D..],"talk":[COMMAND,REPLY..]}: a session over these documents; a command that is a string is sent as it
    stands, \\udcff in it as the byte ff. "status" and "error" are how it ends, where that is not with 0 and nothing."""
    script = row.get("talk")
    commands, wanted = script[::2], script[1::2]
    given = "".join(f"{text_of(it)}\n" for it in commands).encode(errors="surrogateescape")
    ran = program.run("serve", program.dump(row.get("documents", [])), given=given)
    came = ran.stdout.decode().split("\n")
    for command, reply, line in zip(commands, wanted, came):
        want(line, text_of(reply), repr(text_of(command)))
    want(came[len(wanted) :], [""], "lines after the last reply")
    want((ran.returncode, ran.stderr.decode()), (row.get("status", 0), row.get("error", "")), "the end")
    return len(wanted)


def judge(program: Program, data: bytes, documents: list, faults: list[str], count: int, shown: list, wide: list[str]) -> None:
    """Wants the documents before the first fault of dump, all faults of check, and of find the documents or the first fault; and of
    `bsonwide` the documents that are shown, and its own faults."""
    for scanning, found, lines in ((program, faults, documents), (program.beside(), wide, shown)):
        name = scanning.path.name.partition(".")[0]
        status = int(found != [])
        ran = scanning.run("dump", "-", given=data)
        want(ran.stdout.decode(), "".join(f"{text_of(it)}\n" for it in lines), f"dump of {name}")
        first = "".join(f"{name}: {it}\n" for it in found[:1])
        want((ran.returncode, ran.stderr.decode()), (status, f"{first}{len(lines)} objects found\n"), f"the end of dump of {name}")
        ran = scanning.run("check", "-", given=data)
        want(ran.stdout.decode(), "".join(f"{it}\n" for it in found), f"check of {name}")
        told = f"{count} documents, {len(found)} faulty\n"
        want((ran.returncode, ran.stderr.decode()), (status, told), f"the end of check of {name}")
    ran = program.run("find", "-", given=data)
    want(ran.stdout.decode(), "" if faults else "".join(f"{text_of(it)}\n" for it in documents), "find")
    told = re.sub(r", token \S+$", "", ran.stderr.decode())
    first = "".join(f"bsonfind: {it}\n" for it in faults[:1])
    want((ran.returncode, told), (int(faults != []), first or f"{len(documents)} documents, end\n"), "the end of find")


@one_by_one
def check(program: Program, row: Members) -> int:
    """{"bytes":HEX,"documents":[D..],"faults":["document 0, byte 4, path \\"d\\": double"..]}: the documents before the first fault
    as dump prints them, and the faults that check tells; "count" is of all documents, where it is not that of both. "wide" are the
    faults that `bsonwide` tells, which reads doubles and decimal128, and "shown" the documents before them, where they are others."""
    documents, faults = row.get("documents", []), row.get("faults", [])
    count = row.get("count", len(documents) + len(faults))
    shown = row.get("shown", []) if "wide" in row else documents
    judge(program, bytes_of(row, "bytes"), documents, faults, count, shown, row.get("wide", faults))
    return 1


def joined(parts: object) -> bytes:
    """The bytes of a text, or of texts, of which those with a number are repeated; \\udcff in it is the byte ff."""
    texts = parts if isinstance(parts, list) else [parts]
    return "".join(it if isinstance(it, str) else it[0] * it[1] for it in texts).encode(errors="surrogateescape")


def line_of(row: Members) -> bytes:
    """The line that a row of pack gives, by its text, its bytes or its parts."""
    return bytes_of(row, "hex") if "hex" in row else joined(row.get("parts", text_of(row.get("text"))))


@one_by_one
def cut(program: Program, row: Members) -> int:
    """{"before":"(036f00(","bytes":HEX,"after":"))","documents":[[0,D]..],"faults":[[1,4,12,"path \\"o\\": name not ended"]..]}: a dump,
    each document of which holds so many of the bytes: those that are whole, and then of 1 to 4 bytes each with a fault at its byte 12."""
    digits, documents = bytes_of(row, "bytes").hex(), row.get("documents")

    def holding(size: int) -> bytes:
        return spelled(f"{row.get('before')}{digits[: 2 * size]}{row.get('after')}")

    data = b"".join(holding(size) for size, _ in documents)
    faults = []
    for least, most, byte, fault in row.get("faults"):
        for size in range(least, most + 1):
            faults.append(f"document {len(documents) + len(faults)}, byte {len(data) + byte}, {fault}")
            data += holding(size)
    count = len(documents) + len(faults)
    shown = [it for _, it in documents]
    judge(program, data, shown, faults, count, shown, faults)
    return count


def advised(line: bytes, fault: str) -> str:
    """What `bsonwide` says after the fault of a line, by the model: what to write instead."""
    found = re.fullmatch(r"byte (\d+): (.*)", fault)
    more = advice(line, TextFault(TEXT_WORDS.index(found[2]) + 1, int(found[1]))) if found else None
    return f"; {more}" if more else ""


def pack_line(program: Program, line: bytes, row: Members) -> None:
    """Wants what `pack` of a program makes of a line, and what its dump prints of that."""
    name = program.path.name.partition(".")[0]
    ran = program.run("pack", "-", given=line + b"\n")
    if "fault" in row:
        fault = str(row.get("fault"))
        more = advised(line, fault) if name == "bsonwide" else ""
        told = f"{name}: line 1{', ' if fault.startswith('byte ') else ': '}{fault}{more}\n0 objects packed\n"
        want((ran.returncode, ran.stdout, ran.stderr.decode()), (1, b"", told), f"pack of {name}")
        return
    want((ran.returncode, ran.stderr), (0, b"1 objects packed\n"), f"the end of pack of {name}")
    if "bytes" in row:
        want(ran.stdout.hex(), bytes_of(row, "bytes").hex(), f"the bytes of {name}")
    if "begins" in row:
        begins = bytes_of(row, "begins")
        want(ran.stdout[: len(begins)].hex(), begins.hex(), f"the first bytes of {name}")
    shown = text_of(row.get("shown")) if "shown" in row else line.decode()
    want(program.run("dump", "-", given=ran.stdout).stdout.decode(), f"{shown}\n", f"the document of {name}")


@one_by_one
def pack(program: Program, row: Members) -> int:
    """{"text":T,"bytes":HEX,"shown":D}: a line as the bytes of its document, and what dump prints of them (without "shown" the line
    itself; "begins" are the first of many bytes); or {"text":T,"fault":"byte 5: not in the profile"}, which is told of a query too. In
    place of "text", "hex" gives a line by its bytes, and "parts":[T,[TIMES,T]..] by texts, of which those with a number are repeated.
    "wide" is such a row of what `bsonwide` makes of the line, where that is something else."""
    line = line_of(row)
    pack_line(program, line, row)
    if "fault" in row and "hex" not in row and len(line) < LONGEST_WORD:
        ran = program.run("find", "-", "--query", line.decode())
        want((ran.returncode, ran.stdout, ran.stderr.decode()), (1, b"", f"bsonfind: query: {row.get('fault')}\n"), "find")
    if "pack" in commands_of("bsonwide"):
        pack_line(program.beside(), line, row.get("wide", row))
    return 1


def dump_of(program: Program, row: Members, name: str = "dump") -> Path:
    """The dump of a row: of its documents, of its "bytes", or "dump", a file of the repository."""
    if "dump" in row:
        return ROOT / str(row.get("dump"))
    return program.file(bytes_of(row, "bytes"), name) if "bytes" in row else program.dump(row.get("documents", []), name)


@one_by_one
def run(program: Program, row: Members) -> int:
    """{"arguments":["find","FILE"..],"documents":[D..],"input":T,"status":0,"output":[LINE..],"error":[LINE..]}: a run; FILE among the
    arguments is a dump of the documents, or of "bytes", or "dump" of the repository. Output that is a string is hexadecimal digits;
    "same" names a file that it is. Input may have parts, as a line of pack; "hex" gives it by bytes. "each" in place of
    "arguments" is a list of them, which all end so; "file" is the name of the dump in the folder that the run is in."""
    file = dump_of(program, row, str(row.get("file", "dump")))
    given = bytes_of(row, "hex") if "hex" in row else joined(row.get("input", ""))
    output = row.get("output", [])
    wanted = "".join(f"{text_of(it)}\n" for it in output).encode() if isinstance(output, list) else bytes_of(row, "output")
    if "same" in row:
        wanted = Path(ROOT, str(row.get("same"))).read_bytes()
    lines = row.get("each", [row.get("arguments", [])])
    for line in lines:
        words = [file if it == "FILE" else it for it in line]
        ran = program.run(*words, given=given, folder=None if "dump" in row else file.parent)
        want(ran.stdout, wanted, f"standard output of {line}")
        want(ran.stderr.decode(), "".join(f"{it}\n" for it in row.get("error", [])), f"standard error of {line}")
        want(ran.returncode, row.get("status", 0), f"the status of {line}")
    return len(lines)


def pages(row: Members, size: int, use: str, is_anew: bool, shown: list[str], tied: bytes, numbers: Iterator[int]) -> Iterator[tuple[str, str]]:
    """The commands that ask for an answer, so many documents at a time, and their replies."""
    query, answer, given, token, cursor = text_of(row.get("filter")), row.get("answer"), 0, None, 0
    fields = "".join(f',"{name}":{text_of(row.get(name))}' for name in ("sort", "skip", "limit") if name in row) + f',"use":{use}'
    while True:
        if is_anew or not cursor:
            cursor = next(numbers)
            first = f'{{"find":{query}' if token is None else f'{{"resume":"{token}","filter":{query}'
            yield f"{first}{fields}}}", f'{{"ok":true,"cursor":{{"$numberLong":"{cursor}"}}}}'
        page = answer[given : given + size]
        given += len(page)
        token = token_of(given, page[-1], tied) if page else None
        is_end = given == len(answer)
        documents = ",".join(shown[place] for place in page)
        yield f'{{"getMore":{cursor},"batch":{size}}}', f'{{"ok":true,"documents":[{documents}],"end":{json.dumps(is_end)},"token":{json.dumps(token)}}}'
        if is_end:
            return
        if is_anew:
            yield f'{{"killCursor":{cursor}}}', '{"ok":true}'


def find(program: Program, rows: list[Row]) -> Came:
    """{"documents":[D..],"indexes":[PATH..]} and, after it, {"filter":F,"sort":S,"skip":N,"limit":N,"answer":[PLACE..],"pages":[N..]}:
    the numbers of the documents that a request over these gives, whole and in pages of so many, by a scan, by each index and where
    serve chooses. In a second session the indexes are sparse, and each page is asked for by the token of the one before."""
    (_, head), *rows = rows
    paths = head.get("indexes", [])
    dump = program.dump(head.get("documents"))
    shown = program.run("dump", dump).stdout.decode().split("\n")
    uses = ['"scan"', '"auto"', *(f'{{"index":"{path}"}}' for path in paths)]
    for is_sparse in (False, True):
        numbers, script = itertools.count(1), []
        for place, row in rows:
            request = request_text(text_of(row.get("filter")), text_of(row.get("sort", Members())), row.get("skip", 0), row.get("limit", 0))
            tied = digest(dump.read_bytes(), request)
            for use in uses:
                for size in (len(shown), *row.get("pages", [])):
                    script += [(place, *it) for it in pages(row, size, use, is_sparse, shown, tied, numbers)]
        made = [f'{{"createIndex":"{path}","sparse":{json.dumps(is_sparse)}}}' for path in paths]
        came = replies(program, dump, made + [command for _, command, _ in script])[len(made) :]
        for place, told in itertools.groupby(zip(script, came, strict=True), lambda it: it[0][0]):
            told = list(told)
            wrong = next((f"{command}: {reply!r}, wanted {wanted!r}" for (_, command, wanted), reply in told if reply != wanted), None)
            yield place, len(told), wrong


# The options of `find`, and the count of documents at which a token stays.
OPTIONS = ("query", "sort", "skip", "limit", "batch", "index", "after")
MOST_GIVEN = (1 << 64) - 1


def searched(program: Program, dump: Path, shown: list[str], row: Members, paths: list[str]) -> int:
    """Wants of `find` what a row of `search` says, without an index and by each of these."""
    request = [text_of(row.get("query", "{}")), text_of(row.get("sort", "{}")), row.get("skip", 0), row.get("limit", 0)]

    def token(given: int, last: int) -> str:
        return token_of(min(given, MOST_GIVEN), last, digest(dump.read_bytes(), request_text(*request)))

    words, given, last = [], 0, None
    for name, value in (it for it in row if it[0] in OPTIONS):
        if name == "after" and isinstance(value, list):
            given, last = value
            value = token(given, last)
        words += [f"--{name}", text_of(value)]
    if "refused" in row:
        wanted = (1, "", f"bsonfind: {row.get('refused')}\n")
    else:
        found = row.get("found")
        last = found[-1] if found else last
        end = "end" if row.get("end", True) else "more"
        told = f"{len(found)} documents, {end}" + ("" if last is None else f", token {token(given + len(found), last)}")
        wanted = (0, "".join(f"{shown[it]}\n" for it in found), f"{told}\n")
    for index in ["", *paths]:
        ran = program.run("find", dump, *words, *([f"--index={index}"] if index else []))
        want((ran.returncode, ran.stdout.decode(), ran.stderr.decode()), wanted, f"find {words} {index}")
    return 1 + len(paths)


def search(program: Program, rows: list[Row]) -> Came:
    """{"documents":[D..],"indexes":[PATH..]} (or "bytes", or "dump" of the repository), and after it, as often as there are runs of
    `find` over it, {"query":Q,"sort":S,"skip":N,"limit":N,"batch":N,"index":PATH,"after":TOKEN,"found":[PLACE..],"end":B}: the numbers of
    the documents that are printed, without an index and by each, and whether they are all, which they are without "end". The token is
    the model's; that of "after" too, where it is [GIVEN,PLACE]. "refused" in place of "found" is the message."""
    groups: list[tuple[Row, list[Row]]] = []
    for it in rows:
        if {"documents", "bytes", "dump"} & {name for name, _ in it[1]}:
            groups.append((it, []))
        else:
            groups[-1][1].append(it)
    for (_, head), asked in groups:
        dump = dump_of(program, head)
        shown = program.run("dump", dump).stdout.decode().split("\n")
        kind = one_by_one(lambda _, row: searched(program, dump, shown, row, head.get("indexes", [])))
        yield from kind(program, asked)


KINDS: dict[str, Callable[[Program, list[Row]], Came]] = {
    "match": match,
    "filter": filters,
    "plan": plan,
    "find": find,
    "talk": talk,
    "check": check,
    "cut": cut,
    "pack": pack,
    "run": run,
    "search": search,
}


def rows_of(file: Path) -> list[Row]:
    lines = file.read_text(encoding="utf-8").split("\n")
    return [(f"{file.name}:{number}", read(line)) for number, line in enumerate(lines, 1) if line]


def main(words: list[str]) -> int:
    programs, files = [], []
    while words:
        word = words.pop(0)
        programs.append(Path(words.pop(0)).resolve()) if word == "--program" else files.append(Path(word))
    passed = failed = 0
    for path in programs or [PROGRAM]:
        for file in sorted(files or ROWS.glob("*.jsonl")):
            kind = KINDS[re.match(r"[a-z]+", file.name)[0]]
            tried = 0
            with tempfile.TemporaryDirectory() as room:
                for place, count, wrong in kind(Program(path, Path(room)), rows_of(file)):
                    tried += count
                    if wrong is not None:
                        failed += 1
                        tried -= 1
                        print(f"FAILED: {place}: {wrong}")
            passed += tried
            print(f"ok: {file.name}: {tried}")
    print(f"{passed} passed, {failed} failed")
    return 1 if failed else 0


if __name__ == "__main__":
    sys.exit(main(sys.argv[1:]))
