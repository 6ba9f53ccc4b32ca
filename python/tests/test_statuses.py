"""Tests of the statuses of the commands: 0 is good, 1 is a finding, 2 is what could not be done or read; of those of the program 1 is both."""

import gzip
import json
import re
import shutil
import signal
import subprocess
import sys
from contextlib import redirect_stderr, redirect_stdout
from typing import Dict, List
from unittest import mock

from bsonfind import audit
from bsonfind.__main__ import main

from .archives import archive
from .support import DAMAGED, DOUBLE, PEOPLE, PEOPLE_LINES, PROGRAM, SHOP, SHOP_LINES, Room, environment, packed, run_package, wait_for

# The package as a shell starts it, also where this process was started with interrupts ignored.
MAIN = """
import signal, sys
from bsonfind.__main__ import main
signal.signal(signal.SIGINT, signal.default_int_handler)
sys.exit(main())
"""
COMMANDS = ("check", "dump", "find", "audit", "salvage", "compare", "query", "ids")
# Those that begin with the run that reads the dump; the others try the program before.
ONE_RUN = COMMANDS[:3]
# Those with the statuses of the program, and what each has for what could not be done.
AS_THE_PROGRAM = ("check", "dump", "find")
FAILED = {**dict.fromkeys(COMMANDS, 2), **dict.fromkeys(AS_THE_PROGRAM, 1)}
# What they have where a dump has a fault: what checks it, or stops at it, has found something; what needs all of it could not be done.
OF_A_FAULT = {**dict.fromkeys(COMMANDS, 1), "compare": 2, "ids": 2}


class Statuses(Room):
    def words(self, command: str, dump: object) -> List[str]:
        """The arguments of a command over a dump."""
        return {
            **{name: [name, str(dump)] for name in ("check", "dump", "find", "audit", "query")},
            "salvage": ["salvage", str(dump), "--good", str(self.room / "good"), "--bad", str(self.room / "bad")],
            "compare": ["compare", str(dump), str(PEOPLE)],
            "ids": ["ids", str(dump), "--ids", str(self.file(b"7\n", "ids"))],
        }[command]

    def status(self, *words: str) -> int:
        """The status of a command line, which runs in this process; there is always a line that says something."""
        handler = signal.getsignal(signal.SIGTERM)
        # Files, since some runs of the program print by themselves.
        with open(self.room / "printed", "w") as printed, open(self.room / "told", "w") as told:
            try:
                with redirect_stdout(printed), redirect_stderr(told):
                    status = main(["--program", PROGRAM, *words])
            finally:
                signal.signal(signal.SIGTERM, handler)
        self.assertTrue((self.room / "printed").stat().st_size or (self.room / "told").stat().st_size)
        return status

    def want(self, dump: object, wanted: Dict[str, int], *options: str) -> None:
        """Checks the status of each command over a dump."""
        for command in COMMANDS:
            with self.subTest(f"{command} {dump} {options}"):
                self.assertEqual(self.status(*self.words(command, dump), *options), wanted[command])

    def test_good_dumps(self) -> None:
        data = PEOPLE.read_bytes()
        inside = f"{self.file(archive([('club', 'people', data)]), 'archive')}::club.people"
        for dump in (PEOPLE, self.file(gzip.compress(data), "packed.bson.gz"), inside):
            self.want(dump, dict.fromkeys(COMMANDS, 0))

    def test_other_documents(self) -> None:
        """A dump that is sound, and has other documents than those that are asked for."""
        self.want(self.file(packed(['{"_id":1}'])), {**dict.fromkeys(COMMANDS, 0), "compare": 1, "ids": 1})

    def test_damaged_dumps(self) -> None:
        data = PEOPLE.read_bytes()
        small = gzip.compress(data)
        for name, bad in (("cut.bson", data[:-1]), ("cut.bson.gz", small[:-9]), ("no.bson.gz", data)):
            self.want(self.file(bad, name), OF_A_FAULT)
        cut = self.file(archive([("club", "people", data)])[:-9], "archive")
        self.want(f"{cut}::club.people", OF_A_FAULT)

    def test_dumps_that_are_not_seen(self) -> None:
        self.want(self.room / "missing.bson", FAILED)
        (self.room / "folder.bson").mkdir()
        self.want(self.room / "folder.bson", FAILED)
        (self.room / "link.bson").symlink_to("nothing")
        self.want(self.room / "link.bson", FAILED)
        whole = self.file(archive([("club", "people", PEOPLE.read_bytes())]), "archive")
        self.want(f"{whole}::club.nobody", FAILED)

    def test_dumps_that_may_not_be_read(self) -> None:
        """The system lets root read every file, so here the call fails."""
        closed = self.file(PEOPLE.read_bytes(), "closed.bson")
        real = open

        def refusing(name: object, *words: object, **how: object) -> object:
            if name == str(closed):
                raise PermissionError(13, "Permission denied", name)
            return real(name, *words, **how)

        sources, dumps = (mock.patch(f"bsonfind.{it}.open", refusing, create=True) for it in ("_dumps.sources", "_dumps.files"))
        with sources, dumps:
            for command in COMMANDS:
                with self.subTest(command):
                    self.assertEqual(self.status(*self.words(command, closed)), FAILED[command])

    def test_what_is_not_done(self) -> None:
        self.want(PEOPLE, FAILED, "--program", "no-such-program")
        self.want(PEOPLE, dict.fromkeys(COMMANDS, 2), "--no-such-option")
        with open("/dev/full", "wb") as full:
            for command in COMMANDS:
                if command == "check":
                    continue  # It prints nothing there of what is good.
                run = run_package(*self.words(command, PEOPLE), stdout=full)
                # The counts of `compare` are on standard error, and these dumps do not differ.
                self.assertEqual(run.returncode, 0 if command == "compare" else FAILED[command], command)

    def test_faulty_and_not_seen(self) -> None:
        """Of two statuses the higher one is that of the command."""
        bad, missing = self.file(PEOPLE.read_bytes() + DOUBLE), str(self.room / "missing.bson")
        for command in ("audit", "query"):
            self.assertEqual(self.status(command, str(bad), missing, str(PEOPLE)), 2)

    def test_one_file_after_the_other(self) -> None:
        """Of several files each line has the name of its file, and one that is not there does not end the run."""
        bad, missing = self.file(PEOPLE.read_bytes() + DAMAGED), self.room / "missing.bson"
        fault = f'{bad}: document 500, byte 92733, path "d": bad boolean\n'
        absent = f"bsonkit: {missing}: No such file or directory\n"
        run = run_package("check", str(missing), str(bad), str(PEOPLE))
        told = f"{absent}{bad}: 501 documents, 1 faulty\n{PEOPLE}: 500 documents, 0 faulty\n"
        self.assertEqual((run.returncode, run.stdout, run.stderr), (1, fault, told))
        run = run_package("dump", str(bad), str(missing), str(SHOP))
        told = f"bsonkit: {fault}{bad}: 500 objects found\n{absent}{SHOP}: 400 objects found\n"
        self.assertEqual((run.returncode, run.stdout.encode().splitlines(), run.stderr), (1, PEOPLE_LINES + SHOP_LINES, told))
        self.assertEqual(self.status("check", str(PEOPLE), str(bad)), 1)
        self.assertEqual(self.status("check", str(PEOPLE), str(SHOP)), 0)

    def test_directories_in_place_of_dumps(self) -> None:
        """Each command that takes none says what does, once."""
        for words, status, instead in (
            (["check"], 1, "audit checks all dumps below one"),
            (["dump"], 1, "query prints the documents of all dumps below one"),
            (["pack"], 1, "name a text in it"),
            (["find"], 1, "query asks all dumps below one"),
            (["find", "--count"], 1, "query asks all dumps below one"),
            (["serve"], 1, "name a dump in it"),
            (["ids", "--ids", str(self.file(b"7\n", "ids"))], 2, "grep finds an id in all dumps below one"),
            (["unpack"], 2, "name an archive in it"),
            (["salvage"], 2, "--out salvages all dumps below one"),
            (["salvage", "--good", f"{self.room}/good", "--bad", f"{self.room}/bad"], 2, "--out salvages all dumps below one"),
        ):
            run = run_package(*words, str(self.room))
            told = f"bsonkit: cannot read {self.room}: it is a directory: {instead}\n"
            self.assertEqual((run.returncode, run.stdout, run.stderr), (status, "", told), words)
        for command in ("check", "dump"):
            run = run_package(command, str(self.room), str(PEOPLE))
            self.assertEqual(run.stderr.count("it is a directory"), 1)
            self.assertTrue(run.stderr.startswith(f"bsonkit: {self.room}: it is a directory: "), run.stderr)
            self.assertIn(f"{PEOPLE}: 500 ", run.stderr)

    def test_standard_output_that_is_closed(self) -> None:
        """The status is the one of what failed; nothing is printed elsewhere, help neither."""
        lines = str(self.file(b'{"a":1}\n', "lines"))
        packed = str(self.file(gzip.compress(PEOPLE.read_bytes()), "dump.bson.gz"))
        for words, status in (
            (["dump", str(PEOPLE)], 1), (["dump", packed], 1), (["find", packed], 1), (["pack", lines], 1), (["serve", packed], 1),
            (["audit", packed], 2), (["count", packed], 2), (["--help"], 2), (["--version"], 2),
        ):  # fmt: skip
            command = ["sh", "-c", 'exec "$@" >&-', "sh", sys.executable, "-m", "bsonfind", "--program", PROGRAM, *words]
            run = subprocess.run(command, env=environment(), stdin=subprocess.DEVNULL, stderr=subprocess.PIPE, text=True)
            self.assertEqual((run.returncode, run.stderr), (status, "bsonkit: cannot write: standard output is closed\n"), words)

    def test_dump_that_is_cut_while_packed(self) -> None:
        """The file of gzip is what is wrong, and its last document is where that is known."""
        cut = self.file(gzip.compress(PEOPLE.read_bytes())[:3000], "cut.bson.gz")
        run = run_package("dump", str(cut))
        documents = len(run.stdout.splitlines())
        told = r'bsonkit: document (\d+), byte \d+, path "": bad length\nbsonkit: not a sound file of gzip: it ends too soon\n(\d+) objects found\n'
        found = re.fullmatch(told, run.stderr)
        self.assertTrue(found, run.stderr)
        self.assertEqual((run.returncode, found[1], found[2]), (1, str(documents), str(documents)))

    def test_audits_of_directories(self) -> None:
        """A finding is 1: metadata alone, or none. What was not read is 2: it may be good or not."""
        backup = self.file(PEOPLE.read_bytes(), "backup/club/people.bson").parents[1]
        self.assertEqual(self.status("audit", str(backup)), 1)  # without metadata
        self.file(b"{}", "backup/club/people.metadata.json")
        self.assertEqual(self.status("audit", str(backup)), 0)
        alone = self.file(b"{}", "backup/club/alone.metadata.json")
        self.assertEqual(self.status("audit", str(backup)), 1)
        self.assertEqual(audit(backup, program=PROGRAM).unseen, [])
        alone.unlink()
        (backup / "away").symlink_to("nothing")
        self.assertEqual(self.status("audit", str(backup)), 2)
        run = run_package("audit", str(backup), "--json")
        self.assertEqual((run.returncode, json.loads(run.stdout)["good"]), (2, False))
        (seen,) = audit(backup, program=PROGRAM).unseen
        self.assertEqual(seen.name, str(backup / "away"))

    def test_interrupts(self) -> None:
        """As the shell gives the status of a program that a signal ended."""
        program, pids = self.stuck(), self.room / "pids"
        for command in COMMANDS:
            for number in (signal.SIGINT, signal.SIGTERM, signal.SIGHUP):
                first = self.room / "first"
                shutil.rmtree(first, ignore_errors=True)
                if command in ONE_RUN:
                    first.mkdir()
                pids.write_text("")
                words = [sys.executable, "-c", MAIN, "--program", program, *self.words(command, PEOPLE)]
                run = subprocess.Popen(words, env=environment(), stdout=subprocess.DEVNULL, stderr=subprocess.DEVNULL)
                wait_for(lambda: bool(pids.read_text()))
                run.send_signal(number)
                with self.subTest(f"{command} {number.name}"):
                    # A plain file is read by the program itself, which the signal ends.
                    self.assertEqual(run.wait(60), -number if command in ONE_RUN else 128 + number)
