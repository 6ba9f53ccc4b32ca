"""Tests of the texts of a command line, in any locale."""

import os
import shutil
import struct
import subprocess
import sys
from pathlib import Path
from typing import Dict, Optional

from .archives import archive
from .bson import document, field, int32, text
from .support import PATIENCE, PEOPLE, PROGRAM, Room, environment, packed


def priced(number: int, name: str, price: float) -> bytes:
    """A document with a double, in a field whose name is not ASCII."""
    return document(field(16, "_id", int32(number)), field(2, "name", text(name)), field(1, "größe", struct.pack("<d", price)))


# No locale but UTF-8: all other bytes are errors.
ASCII = {"LC_ALL": "C", "PYTHONUTF8": "0", "PYTHONCOERCECLOCALE": "0"}
LUIS, ADA = priced(1, "Luís", 1.5), priced(2, "Ada", 2.5)
LINE = '{"_id":{"$numberInt":"1"},"name":"Luís","größe":{"$numberDouble":"1.5"}}\n'


class Locales(Room):
    def run_in(self, locale: Dict[str, str], *words: object) -> "subprocess.CompletedProcess[bytes]":
        """A run of a command in a locale, whose words are bytes or texts in UTF-8."""
        command = [sys.executable, "-m", "bsonfind", *(it if isinstance(it, bytes) else str(it).encode() for it in words)]
        return subprocess.run(command, env={**environment(), **locale}, capture_output=True, timeout=PATIENCE)

    def latin(self) -> Optional[Dict[str, str]]:
        """A locale of ISO-8859-1, None if none can be made."""
        name = "de_DE.ISO-8859-1"
        if shutil.which("localedef"):
            subprocess.run(["localedef", "-i", "de_DE", "-f", "ISO-8859-1", str(self.room / name)], capture_output=True, check=False)
        if not (self.room / name).exists():
            return None
        locale = {"LOCPATH": str(self.room), "LC_ALL": name}
        told = subprocess.run([sys.executable, "-c", "import sys; print(sys.getfilesystemencoding())"], env={**os.environ, **locale}, capture_output=True)
        return locale if b"8859" in told.stdout else None

    def test_texts_are_utf_8(self) -> None:
        wide, plain = self.file(LUIS + ADA, "wide.bson"), self.file(packed(['{"_id":1,"größe":1}']), "plain.bson")
        for locale in filter(None, (ASCII, self.latin())):
            with self.subTest(locale["LC_ALL"]):
                for query in ('{"name":"Luís"}', '{"größe":1.5}', '{"größe":{"$lt":2}}'):
                    ran = self.run_in(locale, "--program", PROGRAM, "find", wide, "--query", query, "--sort", '{"größe":1}')
                    self.assertEqual(ran.stdout.decode(), LINE, ran.stderr)
                ran = self.run_in(locale, "--program", PROGRAM, "query", "--query", '{"name":"Luís"}', wide)
                self.assertEqual(ran.stdout.decode(), f"{wide}\t{LINE}", ran.stderr)
                ran = self.run_in(locale, "--program", PROGRAM, "find", plain, "--index", "größe")
                self.assertEqual((ran.returncode, ran.stdout.decode()), (0, '{"_id":{"$numberInt":"1"},"größe":{"$numberInt":"1"}}\n'))
                ran = self.run_in(locale, "--program", PROGRAM, "compare", wide, wide, "--by", "größe")
                self.assertEqual((ran.returncode, b"without" in ran.stdout), (0, False))

    def test_commands_say_the_same(self) -> None:
        """Each says the same bytes as in UTF-8, of names of files, collections and fields, and of texts that are not ASCII."""
        backup, inside = self.room / "bäckup", self.file(archive([("db", "ü", LUIS + ADA)]), "ä.archive")
        folder = self.file(LUIS + ADA, "bäckup/é/ü%2F東.bson").parent
        self.file('{"collectionName":"ü/東","indexes":[{"name":"ä","key":{"ö":1}}]}'.encode(), "bäckup/é/ü%2F東.metadata.json")
        log = self.file("done dumping é.ü/東 (2 documents)\ndone dumping é.ä (1 document)\n".encode(), "log")
        names, odd = self.file(f"{folder}/ü%2F東.bson\n".encode(), "list"), self.file(ADA, os.fsdecode(b"\xe9.bson"))
        locales = list(filter(None, ({"LC_ALL": "C.UTF-8"}, ASCII, self.latin())))
        for words, status in (
            (("audit", backup, "--expect", log), 1), (("audit", inside, odd), 0), (("check", f"{inside}::db.ü"), 0), (("dump", f"{inside}::db.ü"), 0),
            (("info", backup), 0), (("info", backup, inside, "--json"), 0), (("audit", "--list", names), 0), (("grep", "Luís", backup, inside), 0),
            (("grep", "-i", "LUÍS", backup), 0), (("grep", "--regex", "^Lu.s$", backup, "--json"), 0), (("schema", odd), 0),
            (("count", odd, f"{folder}/ü%2F東.bson", "--by", "größe"), 0), (("query", "--query", '{"name":"Luís"}', backup), 0), (("compare", backup, folder), 1),
            (("find", f"{inside}::db.ö"), 1), (("unpack", inside, self.room / "ö"), 0), (("salvage", backup, "--out", self.room / "ä"), 0),
        ):  # fmt: skip
            told = set()
            for locale in locales:
                for place in ("ö", "ä"):
                    shutil.rmtree(self.room / place, ignore_errors=True)
                words = tuple(os.fsencode(it) if isinstance(it, Path) else it for it in words)
                ran = self.run_in(locale, "--program", PROGRAM, *words)
                files = [(os.fsencode(it.relative_to(self.room)), it.read_bytes()) for it in sorted(self.room.rglob("*")) if it.is_file()]
                told.add((ran.returncode, ran.stdout, ran.stderr, tuple(it for it in files if it[0].startswith((b"\xc3\xb6/", b"\xc3\xa4/")))))
            with self.subTest(words[0]):
                self.assertEqual([it[0] for it in told], [status], told)

    def test_functions(self) -> None:
        """Their texts are Python's, and so are the names of fields that the filter refuses."""
        path = self.file(LUIS + ADA)
        code = f"""from bsonfind import Session, find
print(list(find({str(path)!r}, {{"gr\\xf6\\xdfe": 1.5}}, index="gr\\xf6\\xdfe", decode=len, program={PROGRAM!r})))
with Session({str(path)!r}, {PROGRAM!r}) as session:
    print(session.count_documents({{"name": "Lu\\xeds"}}))"""
        for locale in filter(None, (ASCII, self.latin())):
            ran = subprocess.run([sys.executable, "-c", code], env={**environment(), **locale}, capture_output=True, text=True, timeout=PATIENCE)
            self.assertEqual((ran.stdout, ran.stderr), (f"[{len(LINE.encode()) - 1}]\n1\n", ""))

    def test_other_bytes_are_refused(self) -> None:
        for words in (
            ("find", PEOPLE, "--query", b'{"name":"Lu\xeds"}'),
            ("find", PEOPLE, "--sort", b"0123456789\xff{}"),
            ("find", PEOPLE, "--index", b"0123456789\xff"),
            ("query", PEOPLE, "--query", b'{"name":"Lu\xeds"}'),
            ("compare", PEOPLE, PEOPLE, "--by", b"0123456789\xff"),
        ):
            for locale in filter(None, ({}, ASCII, self.latin())):
                ran = self.run_in(locale, *words)
                option = next(it for it in words if str(it).startswith("--"))
                option = {"--query": "-q/--query"}.get(option, option)  # Python says all names of an option.
                at = 11 if b"Lu" in words[-1] else 10
                self.assertEqual((ran.returncode, ran.stdout), (2, b""))
                self.assertTrue(ran.stderr.endswith(f"argument {option}: not UTF-8 at byte {at}\n".encode()), ran.stderr)

    def test_texts_that_are_empty(self) -> None:
        """They are given, and the program refuses them: of a dump with doubles too."""
        for path in (self.file(packed(['{"_id":1}']), "plain.bson"), self.file(LUIS, "wide.bson")):
            for option, told in (
                ("query", "query: byte 0: not JSON"),
                ("sort", "sort: byte 0: not JSON"),
                ("index", "index: empty component"),
                ("after", "token: not a token"),
            ):
                ran = self.run_in({}, "--program", PROGRAM, "find", path, f"--{option}", "")
                self.assertEqual((ran.returncode, ran.stdout, ran.stderr), (1, b"", f"bsonwide: {told}\n".encode()))
            ran = self.run_in({}, "--program", PROGRAM, "query", path, "--query", "")
            self.assertEqual((ran.returncode, ran.stdout, ran.stderr), (2, b"", b"bsonkit: query: byte 0: not JSON\n"))
