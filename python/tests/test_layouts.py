"""Tests of the options of `dump` and `find` that say how documents are printed, over each form of a dump. Expected values come from Python's
`json` and `csv` over a model of the documents."""

import csv
import gzip
import io
import json
import os
import subprocess
import sys
from datetime import datetime, timedelta, timezone
from decimal import Decimal
from typing import Any, Dict, List, Optional, Sequence, Tuple
from uuid import UUID

from . import bson
from .archives import archive
from .support import COMMAND, DAMAGED, PATIENCE, PROGRAM, Room, environment, run_of_bytes

EPOCH = datetime(1970, 1, 1, tzinfo=timezone.utc)
Document = Dict[str, Any]


class Id(str):
    """The digits of an ObjectId."""


DOCUMENTS: List[Document] = [
    {"_id": Id("5f" * 12), "name": 'Zoë, "the first"', "in": {"a": 1.5, "b": [1, {"c": "x"}]}, "when": EPOCH + timedelta(milliseconds=1_735_689_600_500)},
    {"_id": 2, "name": "two\nlines", "in": {"a": Decimal("29.50")}, "list": [{"a": 1, "b": 2}, 3, {"b": 4}], "none": None},
    {"name": "=1+1", "in": {}, "when": EPOCH + timedelta(days=20_000), "key": UUID(int=7), "far": EPOCH - timedelta(days=1), "_id": 3},
    {"_id": {"a": 1}, "list": [], "in": [{"a": True}, {"a": -0.25}]},
    {},
]
# The options of a layout, and what they say.
LAYOUTS: List[Tuple[List[str], Dict[str, Any]]] = [
    ([], {}),
    (["--type=json", "--jsonFormat", "canonical"], {}),
    (["--jsonFormat", "relaxed"], {"is_relaxed": True}),
    (["--fields", "name,in.a"], {"fields": ["name", "in.a"]}),
    (["--noId", "--fields=list.b"], {"fields": ["list.b"], "has_id": False}),
    (["--jsonArray"], {"is_array": True}),
    (["--pretty", "--jsonFormat=relaxed"], {"is_pretty": True, "is_relaxed": True}),
    (["--jsonArray", "--fields", "in", "--pretty"], {"is_array": True, "fields": ["in"], "is_pretty": True}),
    (["--type", "csv", "--fields", "_id,name,in.a,when,far,key,list,in.0.a,none"], {"columns": "_id,name,in.a,when,far,key,list,in.0.a,none"}),
    (["--noHeaderLine", "--fields=name", "--type=csv"], {"columns": "name", "has_header": False}),
]
# Those that do not go together, by a command, and what is said of them.
APART = (
    ("dump", ["--noId"], "--noId needs --fields"),
    ("dump", ["--type=csv"], "--type csv needs --fields"),
    ("find", ["--noHeaderLine", "--fields=a"], "--noHeaderLine needs --type csv"),
    *(("find", ["--type", "csv", "--fields=a", *it], f"--type csv does not go with {it[0]}") for it in (["--jsonFormat", "relaxed"], ["--noId"], ["--jsonArray"], ["--pretty"])),
    *(("find", [f"--{it}", "--fields=a"], f"--{it} does not go with --fields") for it in ("bson", "count")),
    ("find", ["--pretty", "--count"], "--count does not go with --pretty"),
    ("find", ["--batch", "0", "--count"], "--count does not go with --batch"),
    ("find", ["--type", "tsv"], "invalid choice: 'tsv'"),
    ("dump", ["--jsonFormat="], "invalid choice: ''"),
    ("dump", ["--fields", "--pretty"], "argument -f/--fields: expected one argument"),
    ("dump", ["--fields"], "argument -f/--fields: expected one argument"),
    ("find", ["--pretty", "--pretty"], "argument --pretty: it is given twice"),
    ("dump", ["--bson"], "unrecognized arguments: --bson"),
)


def milliseconds(date: datetime) -> int:
    return (date - EPOCH) // timedelta(milliseconds=1)


def encoded(value: Any) -> Tuple[int, bytes]:
    """The type of a value of the model, and its bytes."""
    if isinstance(value, (dict, list)):
        pairs = value.items() if isinstance(value, dict) else ((str(at), it) for at, it in enumerate(value))
        fields = ((name, *encoded(it)) for name, it in pairs)
        return 3 + isinstance(value, list), bson.document(*(bson.field(kind, name, data) for name, kind, data in fields))
    if isinstance(value, Decimal):
        return 0x13, bson.decimal(int("".join(map(str, value.as_tuple().digits))), int(value.as_tuple().exponent))
    if isinstance(value, datetime):
        return 9, bson.int64(milliseconds(value))
    kinds = {Id: (7, bytes.fromhex), str: (2, bson.text), bool: (8, lambda it: bytes([it])), int: (16, bson.int32), float: (1, bson.double)}
    more = {UUID: (5, lambda it: bson.int32(16) + b"\4" + it.bytes), type(None): (10, lambda _: b"")}
    kind, write = {**kinds, **more}[type(value)]
    return kind, write(value)


def dumped(documents: Sequence[Document]) -> bytes:
    return b"".join(encoded(it)[1] for it in documents)


def written(value: Any, is_relaxed: bool) -> Any:
    """What `json` prints as the Extended JSON of a value."""
    if isinstance(value, dict):
        return {name: written(it, is_relaxed) for name, it in value.items()}
    if isinstance(value, list):
        return [written(it, is_relaxed) for it in value]
    if isinstance(value, datetime):
        text = value.isoformat().replace("+00:00", "Z").replace("00000Z", "Z")
        return {"$date": text if is_relaxed and value >= EPOCH else {"$numberLong": str(milliseconds(value))}}
    if isinstance(value, (int, float)) and not isinstance(value, bool):
        return value if is_relaxed else {"$numberInt" if isinstance(value, int) else "$numberDouble": str(value)}
    if isinstance(value, UUID):
        return {"$binary": {"base64": "AAAAAAAAAAAAAAAAAAAABw==", "subType": "04"}}
    return {"$oid": value} if isinstance(value, Id) else {"$numberDecimal": str(value)} if isinstance(value, Decimal) else value


def json_of(value: Any, is_relaxed: bool, is_pretty: bool = False) -> str:
    how: Dict[str, Any] = {"indent": "\t"} if is_pretty else {"separators": (",", ":")}
    return json.dumps(written(value, is_relaxed), ensure_ascii=False, **how)


def part(value: Any, paths: List[List[str]]) -> Any:
    """The fields on these paths, as MongoDB projects them."""
    if isinstance(value, list):
        return [part(it, paths) for it in value if isinstance(it, (dict, list))]
    kept = {}
    for name, it in value.items():
        below = [path[1:] for path in paths if path[0] == name]
        if [] in below:
            kept[name] = it
        elif below and isinstance(it, (dict, list)):
            kept[name] = part(it, below)
    return kept


def followed(value: Any, path: List[str]) -> Any:
    """Where a path of CSV leads: by names of fields, and by indexes of arrays."""
    for name in path:
        if isinstance(value, dict):
            value = value.get(name)
        else:
            value = value[int(name)] if isinstance(value, list) and name.isdigit() and int(name) < len(value) else None
    return value


def cell(value: Any) -> Any:
    """What a row of CSV has of a value, which `csv` prints."""
    if isinstance(value, datetime):
        date = written(value, is_relaxed=True)["$date"]
        return date if isinstance(date, str) else json_of(value, is_relaxed=True)
    return json_of(value, is_relaxed=True) if isinstance(value, (dict, list, bool)) else value


def laid_out(
    documents: Sequence[Document],
    fields: Optional[List[str]] = None,
    has_id: bool = True,
    columns: str = "",
    has_header: bool = True,
    is_relaxed: bool = False,
    is_array: bool = False,
    is_pretty: bool = False,
    is_closed: bool = True,
) -> bytes:
    """What is printed of documents; the bracket that closes an array comes if nothing failed."""
    if columns:
        names = columns.split(",")
        with io.StringIO(newline="") as text:
            rows = csv.writer(text, lineterminator="\n")
            rows.writerows([names] * has_header)
            rows.writerows([cell(followed(it, name.split("."))) for name in names] for it in documents)
            return text.getvalue().encode()
    if fields is not None:
        paths = [name.split(".") for name in [*["_id"] * has_id, *fields]]
        documents = [part(it, paths) for it in documents]
    texts, end = [json_of(it, is_relaxed, is_pretty) for it in documents], "\n" * is_pretty
    if is_array:
        return (f"[{end}" + f",{end}".join(texts) + f"]\n{end}" * is_closed).encode()
    return "".join(f"{it}\n" for it in texts).encode()


class Layouts(Room):
    def setUp(self) -> None:
        super().setUp()
        self.data = dumped(DOCUMENTS)
        self.path = str(self.file(self.data))

    def forms(self, data: bytes) -> List[Tuple[str, bytes]]:
        """A word that names these bytes, and what standard input has, for each form of a dump."""
        whole = self.file(archive([("a", "a", b""), ("shop", "orders", data), ("z", "z", data)]), "whole.archive")
        packed = self.file(gzip.compress(whole.read_bytes()), "packed.archive")
        return [
            (str(self.file(data, "plain.bson")), b""), (str(self.file(gzip.compress(data), "packed.bson.gz")), b""),
            (f"{whole}::shop.orders", b""), (f"{packed}::shop.orders", b""), ("-", data),
        ]  # fmt: skip

    def in_parts(self, *words: str, most: int = 60) -> Tuple[int, bytes, str]:
        """A run in which a file has more than a run of the program reads, and is read by parts of some bytes."""
        code = "import sys\nfrom bsonfind._dumps import framing\nfrom bsonfind._command import finding, program\nfrom bsonfind.__main__ import main\n"
        code += f"framing.LARGEST_INPUT = program._LARGEST = {most}\nfinding.LARGEST_INPUT, finding.MOST = {len(self.data) - 1}, {most}\n"
        code += f"sys.exit(main(['--program', {PROGRAM!r}, *sys.argv[1:]]))"
        run = subprocess.run([sys.executable, "-c", code, *words], env=environment(), stdin=subprocess.DEVNULL, capture_output=True, timeout=PATIENCE)
        return run.returncode, run.stdout, run.stderr.decode()

    def test_each_form(self) -> None:
        """Of a plain file, one by gzip, a collection of an archive, a pipe, and parts."""
        for words, layout in LAYOUTS:
            wanted = laid_out(DOCUMENTS, **layout)
            for word, stdin in self.forms(self.data):
                self.assertEqual(run_of_bytes("dump", word, *words, stdin=stdin), (0, wanted, "5 objects found\n"), (word, words))
                status, out, told = run_of_bytes("find", *words, word, stdin=stdin)
                self.assertEqual((status, out), (0, wanted), (word, words, told))
            self.assertEqual(self.in_parts("dump", self.path, *words), (0, wanted, "5 objects found\n"), words)

    def test_what_is_found(self) -> None:
        """It is sorted, skipped and limited, and printed in a layout, also by parts whose answers are joined."""
        found = [DOCUMENTS[2], DOCUMENTS[1]]
        request = ["--query", '{"_id":{"$gte":2}}', "--sort", '{"_id":-1}']
        for words, layout in LAYOUTS:
            for more, some in (([], found), (["--skip=1"], found[1:]), (["--limit", "1"], found[:1]), (["--skip", "2"], [])):
                wanted = laid_out(some, **layout)
                for word, stdin in self.forms(self.data):
                    status, out, told = run_of_bytes("find", word, *request, *words, *more, stdin=stdin)
                    self.assertEqual((status, out, told[:11]), (0, wanted, f"{len(some)} documents"[:11]), (word, words, more))
                self.assertEqual(self.in_parts("find", self.path, *request, *words, *more), (0, wanted, f"{len(some)} documents, end\n"), (words, more))

    def test_several_dumps(self) -> None:
        """They are one table, or one array, and so are those of which one has no documents."""
        paths = [word for word, _ in self.forms(self.data)[:3]]
        empty = str(self.file(b"", "empty.bson"))
        for words, layout in LAYOUTS:
            for names, documents in (([*paths], DOCUMENTS * 3), ([empty, paths[1], empty], DOCUMENTS), ([empty, str(self.file(gzip.compress(b""), "empty.bson.gz"))], [])):
                status, out, told = run_of_bytes("dump", *names[:1], *words, *names[1:])
                self.assertEqual((status, out), (0, laid_out(documents, **layout)), (names, words))
                self.assertEqual(len(told.splitlines()), len(names))

    def test_no_documents(self) -> None:
        """What is before the first document and after the last one is printed."""
        for words, layout in LAYOUTS:
            for word, stdin in self.forms(b""):
                self.assertEqual(run_of_bytes("dump", word, *words, stdin=stdin), (0, laid_out([], **layout), "0 objects found\n"), (word, words))
                self.assertEqual(run_of_bytes("find", word, *words, stdin=stdin), (0, laid_out([], **layout), "0 documents, end\n"), (word, words))

    def test_damage(self) -> None:
        """Of a dump that is damaged the documents before it come, and those of the next one; an array is then not closed."""
        bad = self.data + DAMAGED + self.data
        told = f'document 5, byte {len(self.data) + 7}, path "d": bad boolean'
        cut = str(self.file(gzip.compress(self.data)[:-12], "cut.bson.gz"))
        for words, layout in LAYOUTS:
            wanted = laid_out(DOCUMENTS, is_closed=False, **layout)
            for word, stdin in self.forms(bad):
                status, out, said = run_of_bytes("dump", word, *words, stdin=stdin)
                self.assertEqual((status, out, said.partition(": ")[2]), (1, wanted, f"{told}\n5 objects found\n"), (word, words))
                status, out, said = run_of_bytes("find", word, *words, stdin=stdin)
                self.assertEqual((status, out, said.partition(": ")[2]), (1, b"", f"{told}\n"), (word, words))
            bad_path, good = str(self.file(bad, "bad.bson")), self.path
            self.assertEqual(self.in_parts("dump", bad_path, *words)[:2], (1, wanted), words)
            twice = laid_out(DOCUMENTS * 2, is_closed=False, **layout)
            for names in ([bad_path, good], [good, bad_path], [f"{self.room}/missing", good, good], [good, cut], [cut, good]):
                if cut not in names:
                    self.assertEqual(run_of_bytes("dump", *names, *words)[:2], (1, twice), (names, words))
                elif "--jsonArray" in words:
                    self.assertFalse(run_of_bytes("dump", *names, *words)[1].endswith(b"]\n"), (names, words))
            self.assertEqual(run_of_bytes("dump", f"{self.room}/missing", *words)[:2], (1, b""), words)

    def test_damage_of_gzip(self) -> None:
        """What is before it is printed, and an array is not closed, also where the documents end before the damage."""
        data = gzip.compress(self.data) + b"no gzip"
        path = str(self.file(data, "damaged.bson.gz"))
        for words, layout in LAYOUTS:
            status, out, told = run_of_bytes("dump", path, *words)
            self.assertEqual((status, out), (1, laid_out(DOCUMENTS, is_closed=False, **layout)), words)
            self.assertIn("not a sound file of gzip", told)
            self.assertEqual(run_of_bytes("find", path, *words)[:2], (1, b""), words)

    def test_refused_fields(self) -> None:
        """They are refused before anything is read, as of a pipe that no one writes to."""
        os.mkfifo(self.room / "pipe")
        told = "fields: not paths to separate fields\n"
        for fields in ("a,a.b", "", "a..b", "a,", "a,a"):
            for more in ([], ["--type", "csv"], ["--jsonArray"]):
                words = [f"--fields={fields}", *more]
                self.assertEqual(run_of_bytes("dump", self.path, *words), (1, b"", f"bsonwide: {told}"), words)
                self.assertEqual(run_of_bytes("find", self.path, *words), (1, b"", f"bsonwide: {told}"), words)
                for names in ([str(self.room / "pipe")], [f"{self.room}/missing.gz"], ["-"]):
                    self.assertEqual(run_of_bytes("dump", *names, *words, stdin=self.data), (1, b"", f"bsonkit: {told}"), words)
                    self.assertEqual(run_of_bytes("find", *names, *words, stdin=self.data), (1, b"", f"bsonkit: {told}"), words)
                self.assertEqual(run_of_bytes("dump", self.path, f"{self.room}/pipe", *words), (1, b"", f"bsonkit: {told}"), words)
                self.assertEqual(self.in_parts("find", self.path, *words), (1, b"", f"bsonkit: {told}"), words)
        self.assertEqual(run_of_bytes("dump", self.path, "--fields=_id", "--noId"), (1, b"", f"bsonwide: {told}"))

    def test_words_that_do_not_go_together(self) -> None:
        for command, words, told in APART:
            for word, stdin in self.forms(self.data):
                status, out, said = run_of_bytes(command, word, *words, stdin=stdin)
                self.assertEqual((status, out), (2, b""), (word, words))
                self.assertIn(told, said)
            self.assertEqual(run_of_bytes("dump", "-", "-", "--jsonArray")[:2], (2, b""))

    def test_words_of_the_program(self) -> None:
        """For a plain file they are passed on as they were typed; for others the program lays out what it reads."""
        program, packed = self.counting(), str(self.file(gzip.compress(self.data), "dump.bson.gz"))
        for words, started in (
            (["find", "--jsonArray", self.path, "--fields", "a,b.c", "--type=json", "--noId"], ["find - --jsonArray --fields a,b.c --type=json --noId"]),
            (["dump", "--noHeaderLine", "--fields=a", self.path, "--type", "csv"], ["dump - --noHeaderLine --fields=a --type csv"]),
            (["find", "--pretty", packed], ["find - --query={} --sort={} --skip=0 --limit=0 --pretty"]),
            (["dump", packed, "--pretty", packed], ["dump - --pretty"] * 2),
            (["dump", packed, packed, "--type", "csv", "--fields", "a"],
             ["dump - --type=csv --fields=a", "dump - --type=csv --fields=a", "dump - --type=csv --fields=a --noHeaderLine"]),
        ):  # fmt: skip
            run = subprocess.run([*COMMAND[:-1], program, *words], env=environment(), capture_output=True, timeout=PATIENCE)
            self.assertEqual((run.returncode, self.starts()), (0, [f"bsonwide {it}" for it in started]), run.stderr)
            (self.room / "starts").unlink()

    def test_output_that_takes_no_more(self) -> None:
        packed = str(self.file(gzip.compress(self.data * 5000), "dump.bson.gz"))
        for words in (["--jsonArray"], ["--type=csv", "--fields=name"]):
            with open("/dev/full", "wb") as full:
                run = subprocess.run([*COMMAND, "dump", packed, *words], env=environment(), stdout=full, stderr=subprocess.PIPE, timeout=PATIENCE)
            self.assertEqual((run.returncode, b"cannot write" in run.stderr), (1, True), run.stderr)
            with subprocess.Popen([*COMMAND, "dump", packed, *words], env=environment(), stdout=subprocess.PIPE, stderr=subprocess.PIPE) as run:
                run.stdout.close()
                self.assertIn(b"cannot write", run.stderr.read())
                self.assertEqual(run.wait(), 1)

    def test_large_documents(self) -> None:
        """An array is joined whatever pieces it comes in."""
        documents = [{"a": "x" * size} for size in (0, 1, 65_530, 65_536, 131_072, 1_000_000, 2)]
        packed = str(self.file(gzip.compress(dumped(documents)), "dump.bson.gz"))
        for words, layout in ((["--jsonArray"], {"is_array": True}), (["--jsonArray", "--pretty"], {"is_array": True, "is_pretty": True})):
            status, out, _ = run_of_bytes("dump", packed, packed, *words)
            self.assertEqual((status, out == laid_out(documents * 2, **layout)), (0, True))
