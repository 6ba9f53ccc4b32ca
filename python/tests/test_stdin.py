"""Tests of standard input: closed, not blocking, by its other names, and in the middle of a file. What is there is read, or an error."""

import gzip
import io
import os
import socket
import subprocess
import sys
import tarfile
import threading
import time
import zipfile
from contextlib import suppress
from typing import Dict, Iterator, List, Tuple

from bsonfind import find, find_one
from bsonfind._dumps.sources import Source

from .archives import archive
from .support import COMMAND, PATIENCE, PEOPLE, PROGRAM, ROOT, Room, environment
from .goods import document, double, whole

DOCUMENTS = [document(whole("_id", it)) for it in range(3)] + [document(double("x", 1.5))]
DATA = b"".join(DOCUMENTS)
# What each command says of all documents; salvage says it on standard output.
TOLD = {"check": "{} documents, 0 faulty", "dump": "{} objects found", "find": "{} documents, end", "salvage": "{} documents to "}


class StandardInput(Room):
    def words(self, command: str, name: str) -> List[str]:
        """The arguments of a command over a dump."""
        outputs = ["--good", str(self.room / "good"), "--bad", str(self.room / "bad")]
        return [*COMMAND, command, name, *(outputs if command == "salvage" else [])]

    def run_over(self, words: List[str], stdin: int) -> Tuple[int, str]:
        """The status of a run over a descriptor, and all that it says."""
        run = subprocess.run(words, env=environment(), stdin=stdin, stdout=subprocess.PIPE, stderr=subprocess.STDOUT, timeout=PATIENCE)
        return run.returncode, run.stdout.decode()

    def test_fault_before_a_stall(self) -> None:
        """A command ends once a length is wrong, as the program does, while whoever writes to the pipe holds it."""
        read, write = os.pipe()
        os.write(write, DATA + b"\xff" * 8)
        fault = f'document 4, byte {len(DATA)}, path "": bad length\n'
        for command, told in (("check", f"{fault}5 documents, 1 faulty\n"), ("dump", f"bsonkit: {fault}4 objects found\n")):
            if command == "dump":
                os.write(write, DATA + b"\xff" * 8)
            begun = time.monotonic()
            status, said = self.run_over(self.words(command, "-"), read)
            self.assertEqual((status, said[-len(told) :]), (1, told))
            self.assertLess(time.monotonic() - begun, PATIENCE / 2)
        os.close(read)
        os.close(write)

    def names(self) -> Iterator[str]:
        """The names of standard input."""
        link = self.room / "link"
        link.symlink_to("/dev/stdin")
        yield from (str(link), "//dev/stdin", "/dev/./stdin", "/proc/thread-self/fd/0", "/proc/self/fd/0", "/dev/fd/0", "/dev/stdin")

    def test_closed(self) -> None:
        """By its number, and by its names."""
        for command, name in [*((command, "-") for command in TOLD), *(("dump", name) for name in list(self.names())[:2]), ("find", "/dev/stdin")]:
            words = ["sh", "-c", 'exec "$@" <&-', "sh", *self.words(command, name)]
            status, told = self.run_over(words, subprocess.DEVNULL)
            with self.subTest((command, name)):
                self.assertEqual(status, 2 if command == "salvage" else 1, told)
                self.assertRegex(told, "^bsonkit: (cannot (open .*|read standard input: Bad file descriptor)|-: Bad file descriptor)\n$")

    def test_not_blocking(self) -> None:
        """What comes late is waited for."""
        for command, told in TOLD.items():
            read, write = os.pipe()
            os.set_blocking(read, False)

            def feed(pipe: int = write) -> None:
                with open(pipe, "wb", buffering=0) as file:
                    for at in range(0, len(DATA), 20):
                        time.sleep(0.4)
                        file.write(DATA[at : at + 20])

            threading.Thread(target=feed, daemon=True).start()
            try:
                status, said = self.run_over(self.words(command, "-"), read)
            finally:
                os.close(read)
            with self.subTest(command):
                self.assertEqual(status, 0, said)
                self.assertIn(told.format(4), said)

    def test_names(self) -> None:
        """Of a file and of a pipe."""
        path = self.file(DATA)
        for at, name in enumerate(self.names()):
            for command in ("dump", "find") if at == 0 else ("dump",):
                with open(path, "rb") as file:
                    for stdin in (file.fileno(), None):
                        read, write = os.pipe()
                        os.write(write, DATA)
                        os.close(write)
                        status, said = self.run_over(self.words(command, name), read if stdin is None else stdin)
                        os.close(read)
                        with self.subTest((command, name, stdin)):
                            self.assertEqual(status, 0, said)
                            self.assertIn(TOLD[command].format(4), said)

    def test_sockets(self) -> None:
        """A socket, as a program below node has it, cannot be opened again by a name."""
        for command, told in TOLD.items():
            ours, theirs = socket.socketpair()
            with ours, theirs:
                ours.sendall(DATA)
                ours.shutdown(socket.SHUT_WR)
                status, said = self.run_over(self.words(command, "-"), theirs.fileno())
            with self.subTest(command):
                self.assertEqual(status, 0, said)
                self.assertIn(told.format(4), said)

    def test_in_the_middle_of_a_file(self) -> None:
        """What is left is read, and a fault has its place there."""
        path = self.file(DATA)
        for command, told in TOLD.items():
            with open(path, "rb", buffering=0) as file:
                file.seek(len(DOCUMENTS[0]))
                status, said = self.run_over(self.words(command, "-"), file.fileno())
            with self.subTest(command):
                self.assertEqual(status, 0, said)
                self.assertIn(told.format(3), said)
        self.assertEqual((self.room / "good").read_bytes(), b"".join(DOCUMENTS[1:]))

    def test_commands_over_many_files(self) -> None:
        """`-` is standard input there too, and never a file of that name; a pipe that it is counts once, by each of its names."""
        self.file(DOCUMENTS[0], "-")
        self.file(b"2\n", "ids")
        for words, told in (
            (["ids", "-", "--ids", "ids"], '{"_id":{"$numberInt":"2"}}'),
            (["audit", "-"], "-: 4 documents, 0 faulty"),
            (["audit", "-", "/dev/stdin"], "/dev/stdin: 4 documents, 0 faulty"),
            (["audit", "./-", "-"], "./-: 1 documents, 0 faulty"),
            (["info", "-"], "\t-\tcollection\t4\t"),
            (["query", "-", "--query", '{"x":1.5}'], '-\t{"x":{"$numberDouble":"1.5"}}'),
            (["grep", "x", "-"], "-\t\tx\t"),
        ):
            read, write = os.pipe()
            os.write(write, DATA)
            os.close(write)
            command = [sys.executable, "-m", "bsonfind", words[0], "--program", PROGRAM, *words[1:]]
            run = subprocess.run(command, env=environment(), stdin=read, capture_output=True, text=True, cwd=self.room, timeout=PATIENCE)
            os.close(read)
            with self.subTest(words):
                self.assertEqual(run.returncode, 0, run.stderr)
                self.assertIn(told, run.stdout)

    def ways(self, data: bytes, *words: str, name: str = "x.bson") -> Iterator[Tuple[str, int, bytes, str]]:
        """What a command says of bytes: by the name of a file, from a file and from a pipe, which comes in pieces."""
        path = self.file(data, name)
        with open(path, "rb") as file:
            for way, word in ((str(path), None), ("-", file.fileno()), ("-", -1)):
                read = word
                if word == -1:
                    read, write = os.pipe()

                    def feed(pipe: int = write) -> None:
                        with suppress(BrokenPipeError), open(pipe, "wb", buffering=0) as out:
                            for at in range(0, len(data), 3000):
                                out.write(data[at : at + 3000])

                    threading.Thread(target=feed, daemon=True).start()
                command = [*COMMAND, *(way if it == "FILE" else it for it in words)]
                run = subprocess.run(command, env=environment(), stdin=read, capture_output=True, timeout=PATIENCE, cwd=self.room)
                if word == -1:
                    os.close(read)
                yield way, run.returncode, run.stdout, run.stderr.decode()

    # Each command that reads a dump, and what it says of the people on standard output or standard error.
    READING = (
        (("check", "FILE"), b"", "500 documents, 0 faulty\n"),
        (("dump", "FILE", "--type", "csv", "--fields", "_id"), b"499\n", "500 objects found\n"),
        (("find", "FILE", "--query", '{"_id":7}', "--count"), b"1\n", ""),
        (("count", "FILE"), b"500\n", ""),
        (("schema", "FILE"), b"\nage\tint 100%", "500 documents\n"),
        (("audit", "FILE"), b": 500 documents, 0 faulty\n", ""),
        (("info", "FILE"), b"\tcollection\t500\t", ""),
        (("query", "FILE", "--query", '{"_id":7}'), b'\t{"_id":{"$numberInt":"7"},', "1 documents in 1 of 1 files\n"),
        (("grep", "Farid", "FILE", "--count"), b"", " in 1 of 1 files\n"),
        (("ids", "FILE", "--ids", "ids"), b'{"_id":{"$numberInt":"7"},', "1 of 1 ids found\n"),
        (("salvage", "FILE", "--good", "good", "--bad", "bad"), b": 500 documents to good, 0 to bad", ""),
    )

    def test_gzip_by_any_name(self) -> None:
        """What begins as gzip is unpacked by each command that reads a dump, whatever its name is."""
        self.file(b"7\n", "ids")
        data = gzip.compress(PEOPLE.read_bytes()[:39978]) + gzip.compress(PEOPLE.read_bytes()[39978:])
        for words, out, told in self.READING:
            for way, status, found, said in self.ways(data, *words):
                with self.subTest((words, way)):
                    self.assertEqual(status, 0, said)
                    self.assertIn(out, found)
                    self.assertIn(told, said)
        path = self.file(gzip.compress(PEOPLE.read_bytes()), "x.bson")
        self.assertEqual(len(list(find(path, program=PROGRAM))), 500)
        self.assertEqual(find_one(path, {"_id": 7}, program=PROGRAM)["_id"], 7)  # type: ignore[index]

    def test_a_dump_that_begins_as_gzip(self) -> None:
        """It has 559,903 bytes, which are the first bytes of gzip: 1f 8b 08 00."""
        text = b"x" * (0x0008_8B1F - 4 - 1 - 2 - 4 - 1 - 1)
        data = document(b"\x02a\0" + (len(text) + 1).to_bytes(4, "little") + text + b"\0")
        self.assertEqual(data[:4], b"\x1f\x8b\x08\0")
        for words, told in ((("check", "FILE"), "1 documents, 0 faulty\n"), (("find", "FILE", "--count"), "1 documents, end")):
            for way, status, found, said in self.ways(data, *words):
                self.assertEqual((status, said[: len(told)]), (0, told), way)

    def test_archives(self) -> None:
        """`audit`, `info` and `grep` read an archive, and others name its collections, also one on standard input."""
        data = archive([("club", "people", PEOPLE.read_bytes()), ("shop", "none", b"")])
        self.file(b"7\n", "ids")
        for archived, reading in ((data, self.READING), (gzip.compress(data), self.READING[:6:5])):
            for words, _, _ in reading:
                is_read = words[0] in ("audit", "info", "grep")
                for way, status, found, said in self.ways(archived, *words):
                    with self.subTest((words, way)):
                        if is_read:
                            self.assertEqual(status, 0, said)
                            self.assertIn(b"people", found)
                        else:
                            self.assertEqual(status, 1 if words[0] in ("check", "dump", "find") else 2)
                            self.assertIn(f"an archive: name one of its collections, {way}::db.collection, or unpack it\n", said)
            for words, out, told in reading:
                member = tuple("-::club.people" if it == "FILE" else it for it in words)
                for way, status, found, said in list(self.ways(archived, *member))[1:]:
                    with self.subTest(member):
                        self.assertEqual(status, 0, said)
                        self.assertIn(out, found)
                        self.assertIn(told, said)
        for _, status, found, said in list(self.ways(data, "check", "-::club.people", "-::shop.none"))[1:]:
            self.assertEqual((status, said), (2, "bsonkit: standard input is named twice\n"))

    def others(self) -> Dict[str, bytes]:
        """Files of other programs that have a dump in them, by what they are called."""
        found: Dict[str, bytes] = {}
        for kind in (tarfile.USTAR_FORMAT, tarfile.GNU_FORMAT, tarfile.PAX_FORMAT):
            for name in ("./", "db", "dump/club/people.bson", "é" * (40 if kind == tarfile.USTAR_FORMAT else 120)):
                out = io.BytesIO()
                with tarfile.open(fileobj=out, mode="w", format=kind) as tar:
                    header = tarfile.TarInfo(name)
                    header.type = tarfile.DIRTYPE if name == "./" else tarfile.REGTYPE
                    header.size = 0 if name == "./" else PEOPLE.stat().st_size
                    tar.addfile(header, io.BytesIO(PEOPLE.read_bytes()))
                found[f"tar {kind} {name}"] = out.getvalue()
        found["tar by gzip"] = gzip.compress(found[f"tar {tarfile.GNU_FORMAT} ./"])
        out = io.BytesIO()
        with zipfile.ZipFile(out, "w") as file:
            file.write(PEOPLE, "people.bson")
        found["zip"] = out.getvalue()
        out = io.BytesIO()
        zipfile.ZipFile(out, "w").close()
        found["zip without files"] = out.getvalue()
        # As their documentation has their first bytes: RFC 8878, that of xz, and what bzip2 writes.
        found["zstd"], found["xz"] = b"\x28\xb5\x2f\xfd" + bytes(60), b"\xfd7zXZ\0" + bytes(60)
        found["bzip2"] = b"BZh91AY&SY" + bytes(60)
        return found

    def test_files_of_other_programs(self) -> None:
        """They are named as what they are, and never as a dump with a wrong length."""
        self.file(b"7\n", "ids")
        for number, (name, data) in enumerate(self.others().items()):
            kind = name.split()[0]
            all_words = [words for words, _, _ in self.READING] + [("unpack", "FILE", "unpacked")]
            for words in all_words if number == 1 else all_words[:1]:
                for way, status, found, said in self.ways(data, *words):
                    with self.subTest((name, words, way)):
                        self.assertEqual(status, 1 if words[0] in ("check", "dump", "find") else 2)
                        text = f"a file of {kind}, and no dump: unpack it, and name the dumps in it\n"
                        self.assertIn(text, found.decode() if words[0] == "audit" else said)
                        self.assertNotIn("bad length", found.decode() + said)

    def test_a_pipe_that_stalls(self) -> None:
        """Bytes that may be a tar, or of gzip, are waited for about a second: else a wrong length would not be reported before the end."""
        for data in (b"\xff\xff\xff\x7f", b"./\0\0", b"text", b"\x1f\x8b\x08\0"):
            read, write = os.pipe()
            os.write(write, data)
            timer = threading.Timer(PATIENCE, os.close, [write])
            timer.start()
            start = time.monotonic()
            with Source(f"/dev/fd/{read}") as source:
                self.assertEqual(source.head, data)
            self.assertLess(time.monotonic() - start, PATIENCE / 2)
            timer.cancel()
            os.close(read)
            os.close(write)

    def test_dumps_that_are_no_other_files(self) -> None:
        """A length that is the name of a file, and text that is no dump: what is wrong is the length, as before."""
        small = document(b"\x02a\0" + (12059).to_bytes(4, "little") + b"x" * 12058 + b"\0")
        self.assertEqual(small[:4], b"'/\0\0")
        for data, status, told in ((small, 0, "1 documents, 0 faulty\n"), (b"a text", 1, "1 documents, 1 faulty\n"), (b"./" + bytes(600), 1, "1 documents, 1 faulty\n")):
            for way, found, _, said in self.ways(data, "check", "FILE"):
                self.assertEqual((found, said), (status, told), way)

    def test_example(self) -> None:
        """As a shell has it."""
        line = 'gzip -c examples/people.bson | "$0" "$@" check - && "$0" "$@" audit - <examples/backup.archive'
        run = subprocess.run(["sh", "-c", line, *COMMAND], cwd=ROOT, env=environment(), capture_output=True, text=True, timeout=PATIENCE)
        self.assertEqual((run.returncode, run.stderr), (0, "500 documents, 0 faulty\n"))
        self.assertIn("-::shop.orders: 40 documents, 0 faulty\n", run.stdout)

    def test_pipe_that_is_named_twice(self) -> None:
        """By whatever names: nothing is left of it for the second one."""
        for words in (["check"], ["dump"], ["compare"], ["query"], ["count"], ["schema"], ["grep", "x"]):
            for names, told in ((["-", "/dev/stdin"], "/dev/stdin"), (["/dev/fd/0", "-"], "standard input"), (["/dev/stdin", "/dev/fd/0"], "/dev/fd/0")):
                read, write = os.pipe()
                os.close(write)
                command = [*COMMAND, *words, *names]
                status, said = self.run_over(command, read)
                os.close(read)
                self.assertEqual((status, said), (2, f"bsonkit: {told} is named twice\n"), words)
