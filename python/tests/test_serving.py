"""Tests of the command `serve`: it becomes the program, over a dump as it is or over a file without a name."""

import gzip
import json
import os
import signal
import shutil
import subprocess
import sys
import threading
from typing import List

from .archives import archive
from .goods import FIRST, GOODS
from .support import DAMAGED, PATIENCE, PEOPLE, PEOPLE_LINES, PROGRAM, Room, environment, run_package, wait_for

COMMANDS = '{"createIndex":"_id"}\n{"find":{"_id":7}}\n{"getMore":1,"batch":5}\n{"explain":{"age":98.5}}\n'


def replies(text: str) -> List[dict]:
    """The replies of a session."""
    return [json.loads(line) for line in text.splitlines()]


class Serving(Room):
    def want(self, path: object, *options: str) -> None:
        """A session over the people, to the byte of a document."""
        run = run_package("serve", *options, str(path), input=COMMANDS)
        self.assertEqual((run.returncode, run.stderr), (0, ""), path)
        lines = run.stdout.splitlines()
        self.assertEqual(len(lines), 4)
        self.assertTrue(lines[2].startswith(f'{{"ok":true,"documents":[{PEOPLE_LINES[7].decode()}],"end":true,'))
        told = replies(run.stdout)
        self.assertEqual((told[0]["entries"], told[1]["ok"]), ({"$numberLong": "500"}, True))
        self.assertEqual(told[3]["ok"], "--byValue" in options)

    def test_sources(self) -> None:
        """A plain file, with any name, one of gzip, a collection of an archive, and a pipe; doubles are taken where they are asked for."""
        data = PEOPLE.read_bytes()
        plain = [self.file(data, name) for name in ("dump.bson", os.fsdecode(b"\xff.bson"), "a::b.bson", "sp ace.bson")]
        whole = self.file(archive([("club", "people", data)]), "archive")
        for path in (*plain, self.file(gzip.compress(data), "dump.bson.gz"), f"{whole}::club.people"):
            self.want(path)
            self.want(path, "--byValue")
        pipe = self.room / "pipe"
        os.mkfifo(pipe)
        for options in ([], ["--byValue"]):
            writer = threading.Thread(target=pipe.write_bytes, args=[data])
            writer.start()
            self.want(pipe, *options)
            writer.join()
        run = run_package("serve", str(self.file(b"".join(GOODS))), input='{"find":{"price":{"$gt":9.25}}}\n{"getMore":1,"batch":1}\n')
        self.assertEqual((run.returncode, run.stdout.count(FIRST)), (0, 1))

    def test_becoming(self) -> None:
        """The command is the program itself, which alone reads standard input; of a plain file no other one was started."""
        self.script('echo "$$ $*" >>"$ROOM/starts"\nexec "$WIDE" "$@"', "bsonwide")
        program = self.script('exec "$PROGRAM" "$@"')
        packed = self.file(gzip.compress(PEOPLE.read_bytes()), "dump.bson.gz")
        for path in (PEOPLE, packed):
            command = [sys.executable, "-m", "bsonfind", "--program", program, "serve", str(path)]
            with subprocess.Popen(command, env=environment(), stdin=subprocess.PIPE, stdout=subprocess.PIPE) as run:
                out, _ = run.communicate(b'{"killCursor":7}\n', timeout=PATIENCE)
            self.assertEqual((run.returncode, replies(out.decode())[0]["text"]), (0, "no such cursor"))
            (started,) = self.starts()
            self.assertRegex(started, rf"^{run.pid} serve /dev/fd/[0-9]+$")
            (self.room / "starts").unlink()

    def test_signals(self) -> None:
        """They are as the shell gave them, also of a file that is packed: nothing is ignored that was not."""
        packed = self.file(gzip.compress(PEOPLE.read_bytes()), "dump.bson.gz")
        program = self.wide("grep SigIgn /proc/self/status")
        # By its path, as Python is started: for such a program Python 3.13 has the system ignore two signals of the C library.
        wanted = subprocess.run([shutil.which("grep"), "SigIgn", "/proc/self/status"], stdout=subprocess.PIPE, text=True).stdout
        for path in (PEOPLE, packed):
            self.assertEqual(run_package("--program", program, "serve", str(path)).stdout, wanted)

    def test_what_fails(self) -> None:
        bad = self.file(PEOPLE.read_bytes() + DAMAGED, "bad.bson")
        fault = 'document 500, byte 92733, path "d": bad boolean'
        for path in (bad, self.file(gzip.compress(bad.read_bytes()), "bad.bson.gz")):
            run = run_package("serve", str(path), input=COMMANDS)
            self.assertEqual((run.returncode, run.stdout, run.stderr), (1, "", f"bsonwide: {fault}\n"))
        cut = self.file(gzip.compress(PEOPLE.read_bytes())[:-9], "cut.bson.gz")
        for path, status, told in (
            (cut, 1, "gzip"),
            (self.room / "missing.bson", 1, f"bsonkit: cannot open {self.room}/missing.bson"),
            (self.room, 1, f"bsonkit: cannot read {self.room}: it is a directory: name a dump in it"),
            (self.file(archive([("club", "people", b"")]), "archive"), 1, "an archive: name one of its collections"),
            (f"{self.room}/archive::club.nobody", 1, "club.nobody is not in the archive"),
            ("-", 2, "bsonkit: serve reads commands from standard input: the dump is a file"),
        ):
            run = run_package("serve", str(path), input=COMMANDS)
            self.assertEqual((run.returncode, run.stdout), (status, ""), run.stderr)
            self.assertIn(told, run.stderr)
        for words in ([], [str(PEOPLE), str(PEOPLE)], [str(PEOPLE), "--query", "{}"]):
            self.assertEqual(run_package("serve", *words).returncode, 2)

    def test_full_directory(self) -> None:
        """It is named, and nothing is left there."""
        packed = self.file(gzip.compress(PEOPLE.read_bytes()), "dump.bson.gz")
        code = f"""
import resource, signal, sys
from bsonfind.__main__ import main
signal.signal(signal.SIGXFSZ, signal.SIG_IGN)
resource.setrlimit(resource.RLIMIT_FSIZE, (50_000, 50_000))
sys.argv[1:] = ["--program", {PROGRAM!r}, "serve", {str(packed)!r}]
sys.exit(main())
"""
        room = self.room / "tmp"
        room.mkdir()
        run = subprocess.run([sys.executable, "-c", code], env={**environment(), "TMPDIR": str(room)}, input="", capture_output=True, text=True)
        self.assertEqual((run.returncode, run.stdout), (1, ""))
        self.assertEqual(run.stderr, f"bsonkit: cannot write a copy of the dump in {room}: TMPDIR names another directory\n")
        self.assertEqual(list(room.iterdir()), [])

    def test_no_directory_for_temporary_files(self) -> None:
        """The variable is named that gives one."""
        packed = str(self.file(gzip.compress(PEOPLE.read_bytes()), "people.bson.gz"))
        code = f"""
import sys, tempfile
tempfile._candidate_tempdir_list = lambda: ["/nowhere"]
from bsonfind.__main__ import main
sys.exit(main(["--program", {PROGRAM!r}, "serve", {packed!r}]))
"""
        run = subprocess.run([sys.executable, "-c", code], env=environment(), capture_output=True, text=True, input="")
        told = "bsonkit: cannot write a copy of the dump: no directory takes temporary files: TMPDIR names one\n"
        self.assertEqual((run.returncode, run.stdout, run.stderr), (1, "", told))

    def test_interrupts(self) -> None:
        """While a pipe is read: nothing is left."""
        pipe, room = self.room / "pipe", self.room / "tmp"
        os.mkfifo(pipe)
        room.mkdir()
        for number in (signal.SIGINT, signal.SIGTERM):
            opened = os.open(pipe, os.O_RDWR)
            os.write(opened, PEOPLE.read_bytes()[:1000])
            code = "import signal, sys\nfrom bsonfind.__main__ import main\nsignal.signal(signal.SIGINT, signal.default_int_handler)\nsys.exit(main())"
            command = [sys.executable, "-c", code, "--program", PROGRAM, "serve", str(pipe)]
            run = subprocess.Popen(command, env={**environment(), "TMPDIR": str(room)}, stdin=subprocess.DEVNULL, stdout=subprocess.DEVNULL)
            wait_for(lambda: any(it.startswith(str(room)) for it in links(run.pid)))
            run.send_signal(number)
            self.assertEqual(run.wait(PATIENCE), 128 + number)
            os.close(opened)
            self.assertEqual(list(room.iterdir()), [])


def links(pid: int) -> List[str]:
    """The names of what a process has open."""
    folder, names = f"/proc/{pid}/fd", []
    for number in os.listdir(folder):
        try:
            names.append(os.readlink(f"{folder}/{number}"))
        except FileNotFoundError:
            pass  # It was closed meanwhile.
    return names
