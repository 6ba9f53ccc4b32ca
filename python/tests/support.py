"""What the tests share: the program, dumps and directories for files."""

import os
import shutil
import signal
import subprocess
import sys
import tempfile
import time
import unittest
from pathlib import Path
from typing import Callable, Iterable, List, Tuple

ROOT = Path(__file__).resolve().parents[2]
PACKAGE = ROOT / "python"
PROGRAM = os.environ.get("BSONFIND") or shutil.which("bsonfind") or str(ROOT / "bsonfind")
# The program for all types is beside it, and a script in place of the program finds it on PATH.
WIDE = os.path.join(os.path.dirname(os.path.abspath(PROGRAM)), "bsonwide")
os.environ["PATH"] = os.pathsep.join([os.path.dirname(WIDE), os.environ.get("PATH", os.defpath)])
PEOPLE = ROOT / "examples/people.bson"
SHOP = ROOT / "examples/shop.bson"
# The documents of the examples, as another program wrote them.
PEOPLE_LINES = (ROOT / "examples/people.jsonl").read_bytes().splitlines()
SHOP_LINES = (ROOT / "examples/shop.jsonl").read_bytes().splitlines()
# A document with a double, which `bsonfind` alone refuses; and one with a boolean of 2, which is refused.
DOUBLE = bytes.fromhex("10000000016400000000000000f03f00")
DAMAGED = bytes.fromhex("090000000864000200")
PATIENCE = 60.0
# What begins a command line of the package.
COMMAND = [sys.executable, "-m", "bsonfind", "--program", PROGRAM]


class Room(unittest.TestCase):
    """A test with a directory of its own."""

    def setUp(self) -> None:
        self.room = Path(tempfile.mkdtemp())
        self.addCleanup(shutil.rmtree, self.room)

    def file(self, data: bytes, name: str = "dump.bson") -> Path:
        """A file of these bytes."""
        path = self.room / name
        path.parent.mkdir(parents=True, exist_ok=True)
        path.write_bytes(data)
        return path

    def script(self, text: str, name: str = "program") -> str:
        """A program that is a script of the shell, in which `PROGRAM` and `WIDE` are the real ones and `ROOM` the directory.

        In place of `bsonwide` it says the version by itself, unless its text does.
        """
        if name.endswith("bsonwide") and "--version" not in text:
            text = f'[ "$1" = --version ] && exec "$WIDE" --version\n{text}'
        path = self.file(f"#!/bin/sh\nPROGRAM='{PROGRAM}'\nWIDE='{WIDE}'\nROOM='{self.room}'\n{text}\n".encode(), name)
        path.chmod(0o755)
        return str(path)

    def kit(self) -> Path:
        """The script `bsonkit`, which finds the package here."""
        path = self.file((ROOT / "packaging/bsonkit").read_bytes().replace(b"@PACKAGES@", str(PACKAGE).encode()), "bsonkit")
        path.chmod(0o755)
        return path

    def wide(self, text: str) -> str:
        """The program, with a script in place of `bsonwide` beside it."""
        self.script(text, "bsonwide")
        return self.script('exec "$PROGRAM" "$@"')

    def counting(self) -> str:
        """The program, of which each start is a line of the file `starts`, but those of `bsonwide` for its version.

        A start of `bsonwide` has this name before its arguments.
        """
        self.script('echo bsonwide "$@" >>"$ROOM/starts"\nexec "$WIDE" "$@"', "bsonwide")
        return self.script('echo "$@" >>"$ROOM/starts"\nexec "$PROGRAM" "$@"')

    def starts(self) -> List[str]:
        """The arguments of each start of the counting programs."""
        path = self.room / "starts"
        return path.read_text().splitlines() if path.exists() else []

    def stuck(self) -> str:
        """The programs, of which the first start answers, and the others never do; `pids` has the numbers of those."""
        first = 'if mkdir "$ROOM/first" 2>/dev/null; then exec "${}" "$@"; fi\necho $$ >>"$ROOM/pids"\nexec sleep 600'
        self.script(f"# it answers --version too\n{first.format('WIDE')}", "bsonwide")
        return self.script(first.format("PROGRAM"))

    def stuck_searches(self) -> str:
        """The programs, of which all runs of `find` but the first never answer; `pids` has the numbers of those."""
        return self.wide('if mkdir "$ROOM/first" 2>/dev/null; then exec "$WIDE" "$@"; fi\necho $$ >>"$ROOM/pids"\nexec sleep 600')

    def interrupt_command(self, *words: str, stuck: int = 1) -> None:
        """Interrupts a command as `interrupt` does; its status says so."""
        code = f"import sys\nfrom bsonfind.__main__ import main\nsys.exit(main({list(words)!r}))"
        self.assertEqual(self.interrupt(code, stuck), 130)

    def want_broken_pipe(self, *words: str) -> None:
        """A command whose output no one reads says so."""
        with subprocess.Popen([*COMMAND, *words], env=environment(), stdout=subprocess.PIPE, stderr=subprocess.PIPE, text=True) as run:
            run.stdout.close()
            self.assertEqual(run.stderr.read(), "bsonkit: cannot write: Broken pipe\n")
            self.assertEqual(run.wait(), 2)

    def interrupt(self, code: str, stuck: int) -> int:
        """Interrupts Python alone once this many programs are stuck below it, and gives its status; none of them may be left."""
        code = f"import signal\nsignal.signal(signal.SIGINT, signal.default_int_handler)\n{code}"
        streams = {"stdout": subprocess.DEVNULL, "stderr": subprocess.DEVNULL}
        python = subprocess.Popen([sys.executable, "-c", code], env=environment(), **streams)
        pids = self.room / "pids"
        wait_for(lambda: pids.exists() and len(pids.read_text().split()) == stuck)
        time.sleep(0.5)  # It waits for them by now, even on a busy machine.
        python.send_signal(signal.SIGINT)
        status = python.wait(PATIENCE)
        left = [pid for pid in pids.read_text().split() if Path("/proc", pid).exists()]
        self.assertEqual(left, [])
        return status


def environment() -> dict:
    """The environment of a Python that finds the package."""
    return {**os.environ, "PYTHONPATH": str(PACKAGE)}


def run_package(*words: str, stdout: object = subprocess.PIPE, input: str = "", **how: object) -> "subprocess.CompletedProcess[str]":
    """A run of `python3 -m bsonfind`, with this standard input."""
    how = {"env": environment(), "stdout": stdout, "stderr": subprocess.PIPE, "text": True, "timeout": PATIENCE, "input": input, **how}
    return subprocess.run([*COMMAND, *words], **how)


def run_of_bytes(*words: object, stdin: bytes = b"") -> Tuple[int, bytes, str]:
    """The status of `python3 -m bsonfind`, the bytes of standard output and what standard error says."""
    run = subprocess.run([*COMMAND, *words], env=environment(), input=stdin, capture_output=True, timeout=PATIENCE)
    return run.returncode, run.stdout, run.stderr.decode()


def run_on_terminal(*words: str, program: str = PROGRAM, streams: Iterable[str] = ("stderr",)) -> Tuple["subprocess.CompletedProcess[bytes]", bytes]:
    """A run of `python3 -m bsonfind` of which some streams are a terminal, and what was printed there."""
    ours, theirs = os.openpty()
    with os.fdopen(ours, "rb", buffering=0) as terminal, os.fdopen(theirs, "wb", buffering=0) as stream:
        how = {"stdout": subprocess.PIPE, "stderr": subprocess.PIPE, **dict.fromkeys(streams, stream)}
        run = subprocess.run([*COMMAND[:-1], program, *words], env=environment(), **how)
        stream.write(b"\0")
        printed = b""
        while not printed.endswith(b"\0"):
            printed += terminal.read(4096)
        return run, printed[:-1]


def packed(lines: Iterable[str]) -> bytes:
    """The dump of lines of JSON."""
    text = "".join(f"{line}\n" for line in lines).encode()
    return subprocess.run([PROGRAM, "pack", "-"], input=text, stdout=subprocess.PIPE, stderr=subprocess.DEVNULL, check=True).stdout


def wait_for(holds: Callable[[], bool]) -> None:
    """Waits until something holds."""
    until = time.monotonic() + PATIENCE
    while not holds():
        if time.monotonic() > until:
            raise TimeoutError
        time.sleep(0.02)
