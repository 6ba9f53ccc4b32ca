#!/usr/bin/env python3
"""Runs what the documents show, with ./bsonfind, ./bsonwide and the package: the first screen of README.md, its first two tables and its
script (tests/package has what it says of installing), the recipes of docs/GUIDE.md and docs/LARGE.md with the scripts of examples, the
examples of the man pages.

usage: tests/docs/guide.py [PAGE..]     Of these pages alone, such as README.md. The last line is 'N passed, M failed'. It needs jq;
                                        without it nothing is run. Recipes with pv, node and pandas are run where these are there.

- Of README.md and the recipes what is printed is compared, line by line in any order; `..` stands for a token.
- The status is 0, unless the lines show a fault.
- Each command that reads a file is also run where this file is damaged, and where it is missing. Its status is then not 0, and no
  script prints a traceback.
- The first command of a document is `set -o pipefail`, and none throws standard error away.
- No block of recipes has more than 15 lines of commands or of a script.
"""

import gzip
import os
import re
import shutil
import struct
import subprocess
import sys
import tempfile
from pathlib import Path
from typing import NamedTuple

sys.path.insert(0, str(Path(__file__).resolve().parents[1]))

from support import PROGRAM, ROOT

# What a command writes, and a word of it that may name a file.
WRITTEN = re.compile(r"\d?>>?\s*\S+|\bmv \S+ \S+|\btee \S+|\bof=\S+|--(?:good|bad|missing|out) \S+| -o \S+")
WORD = re.compile(r"(?<![\w./$*-])(?<!bsonfind )(?<!bsonwide )(?<!bsonkit )\w[\w./*-]*")
FUNCTION = re.compile(r"(\w+)\(\) \{")
# Programs that see a damaged file; cp, head and others take it as it is.
JUDGES = re.compile(r"\b(?:bsonfind|bsonwide|bsonkit|python3|bash|node)\b")
FAULT = re.compile(r"\b(?:bsonfind|bsonwide|bsonkit): |^\w+\.(?:py|sh|mjs): |, [1-9]\d* faulty(?:, \d+ with doubles or decimal128)?$|, [1-9]\d* to bad\.|, [1-9]\d* bytes left out$|^\d+ bytes at byte \d+: document ", re.MULTILINE)
# A program that a machine may not have, where a command begins with it or pipes to it.
OPTIONAL = re.compile(r"(?:^|\| )(node|pv)\b")
# A script that imports what a Python may not have.
IMPORTS = re.compile(r"^(?:import |from bsonfind import .*\bto_)(pandas)$", re.MULTILINE)
TOKEN = re.compile(r'(, token |"token":")A[\w+/]{59}(?![\w+/])')
SCRIPTS = (".py", ".sh", ".mjs")
# The lines of a block, without what its commands print.
MOST_LINES = 15


class Step(NamedTuple):
    """A command, and what is to be printed; None where that is not shown."""

    command: str
    wanted: str | None


class Shell:
    """A bash that runs one command after the other, and keeps what they define."""

    LOOP = 'while IFS= read -rd "" command; do eval "$command" </dev/null >"$0" 2>&1; echo $?; done'

    def __init__(self, room: Path, printed: Path) -> None:
        # As `make install` puts it, with the way to the package here.
        kit = printed.parent / "bin/bsonkit"
        kit.parent.mkdir(exist_ok=True)
        kit.write_text((ROOT / "packaging/bsonkit").read_text(encoding="ascii").replace("@PACKAGES@", f"{ROOT}/python"), encoding="utf-8")
        kit.chmod(0o755)
        env = {**os.environ, "PATH": f"{kit.parent}:{PROGRAM.parent}:{os.environ['PATH']}", "PYTHONPATH": f"{ROOT}/python", "LC_ALL": "C"}
        env["PYTHONDONTWRITEBYTECODE"] = "1"
        self.printed = printed
        pipe = subprocess.PIPE
        self.bash = subprocess.Popen(["bash", "-c", self.LOOP, printed], cwd=room, env=env, stdin=pipe, stdout=pipe, text=True)

    def run(self, command: str) -> tuple[int | None, str]:
        """The status of a command, None where the shell has ended, and what it prints on both streams."""
        try:
            print(command, end="\0", file=self.bash.stdin, flush=True)
        except BrokenPipeError:
            return None, "not run\n"
        status = self.bash.stdout.readline()
        return int(status) if status else None, self.printed.read_text(encoding="utf-8", errors="replace")


class Counts:
    """Counts what passed."""

    def __init__(self) -> None:
        self.passed = self.failed = 0

    def want(self, is_so: bool, name: str, text: str) -> None:
        if is_so:
            self.passed += 1
        else:
            self.failed += 1
            print(f"FAILED: {name}\n{text}")


def recipes(text: str, room: Path) -> list[Step]:
    """The commands of a document. Lines without one are a file, if the paragraph before them says `This is` and its name, and else
    something that is not run here."""
    steps: list[Step] = []
    ended = 0
    for block in re.finditer(r"(?:^    .*\n|^\n(?=    ))+", text, re.MULTILINE):
        paragraph = text[ended : block.start()].strip().rpartition("\n\n")[2]
        ended = block.end()
        lines = re.sub("^    ", "", block[0].strip("\n"), flags=re.MULTILINE)
        content, *commands = re.split(r"^\$ ", lines, flags=re.MULTILINE)
        name = re.search(r"This\s+is\s+(?:an?\s+)?`([\w.]+)`:$", paragraph)
        if content and name:
            Path(room, name[1]).write_text(content.strip("\n") + "\n", encoding="utf-8")
        for command in commands:
            line, _, wanted = command.partition("\n")
            steps.append(Step(line, wanted))
    return steps


def long_blocks(text: str) -> list[str]:
    """The first lines of the blocks of a document that have too many lines, of commands or of a script."""
    blocks = [it[0].splitlines() for it in re.finditer(r"(?:^    .*\n|^\n(?=    \S))+", text, re.MULTILINE)]
    own = [[line for line in lines if line.startswith("    $ ")] or [line for line in lines if line.strip()] for lines in blocks]
    return [lines[0].strip() for lines in own if len(lines) > MOST_LINES]


def examples(text: str) -> list[Step]:
    """The examples of a man page, as they are typed. A line that ends with a pipe or && goes on in the next one."""
    text = re.sub(r"(\||&&)\n\.Dl \\& *", r"\1 ", text)
    for escape, typed in ((r"\(dq", '"'), (r"\(aq", "'"), (r"\-", "-"), (r"\e", "\\")):
        text = text.replace(escape, typed)
    return [Step(line, None) for line in re.findall(r"^\.Dl \$ (.*)$", text, re.MULTILINE)]


def printed(text: str) -> list[str]:
    """The lines of a text in order: the streams of a run may come one before the other."""
    return sorted(line.strip() for line in TOKEN.sub(r"\1..", text).splitlines())


def inputs(command: str, room: Path) -> dict[str, list[Path]]:
    """The files that a command reads, below the room, by the word that names them: a file, a pattern or a folder."""
    written = WORD.findall(" ".join(WRITTEN.findall(command)))
    found = {}
    for word in dict.fromkeys(it for it in WORD.findall(command) if it not in written):
        files = [below for it in room.glob(word) for below in (it.rglob("*") if it.is_dir() else [it]) if below.is_file()]
        if files := [it.relative_to(room) for it in files if it.suffix not in SCRIPTS]:
            found[word] = files
    return found


def damage(file: Path) -> None:
    """Makes the length of the second document of a dump wrong; takes the end of another file away."""
    data = file.read_bytes()
    if file.suffix == ".bson":
        second = int.from_bytes(data[:4], "little")
        file.write_bytes(data[:second] + b"\xff\xff\xff\x7f" + data[second + 4 :])
    else:
        file.write_bytes(data[:-3])


def run_harmed(command: str, reads: str, shell: Shell, room: Path, counts: Counts) -> None:
    """Runs a command where each of its inputs is damaged, and missing, in a copy of the room. A text says what it reads."""
    for word, files in inputs(reads, room).items():
        for harm in (damage, Path.unlink) if JUDGES.search(reads) else (Path.unlink,):
            with tempfile.TemporaryDirectory() as folder:
                copy = Path(folder, "room")
                shutil.copytree(room, copy, symlinks=True)
                for file in files:
                    harm(copy / file)
                status, text = shell.run(f"(cd {copy}\n{command}\n)")
            how = "damaged" if harm is damage else "missing"
            counts.want(status != 0 and "Traceback" not in text, f"with {word} {how} the status is {status}: {command}", text)


def lacks(command: str, room: Path) -> str | None:
    """What a command needs and is not there."""
    if (program := OPTIONAL.search(command)) and not shutil.which(program[1]):
        return program[1]
    for script in re.findall(r"[\w/]+\.py\b", command):
        if (room / script).is_file() and (module := IMPORTS.search((room / script).read_text(encoding="utf-8"))):
            if subprocess.run(["python3", "-c", f"import {module[1]}"], stderr=subprocess.DEVNULL).returncode:
                return module[1]
    return None


def run(steps: list[Step], room: Path, counts: Counts) -> None:
    """Runs commands by one shell, one after the other."""
    functions: dict[str, str] = {}
    with tempfile.TemporaryDirectory() as folder:
        shell = Shell(room, Path(folder, "printed"))
        for command, wanted in steps:
            if lacking := lacks(command, room):
                print(f"not run, since there is no {lacking}: {command}")
                continue
            if name := FUNCTION.match(command):
                functions[name[1]] = command
            else:
                body = functions.get(command.partition(" ")[0], "")
                run_harmed(command, f"{command}\n{body}", shell, room, counts)
            status, text = shell.run(command)
            shows = wanted is None or printed(text) == printed(wanted)
            counts.want(shows and (status == 0) != bool(FAULT.search(wanted or "")), f"status {status}: {command}", text)
        shell.bash.communicate()


def number(value: float) -> bytes:
    return b"\x01price\0" + struct.pack("<d", value)


def backup(room: Path, is_damaged: bool) -> None:
    """Makes what README.md names: a backup, and files beside it."""
    people = bytearray((ROOT / "examples/people.bson").read_bytes())
    at = people.index(b"Reykjav")
    people[at] = 0xFF if is_damaged else people[at]
    prices = b""
    for item, price, placed in ((b"pen", number(1.5), 1), (b"desk", number(1249.0), 2), (b"lamp", b"\x13price\0" + struct.pack("<QQ", 2950, 0x303C << 48), 3)):
        day = b"\x09placed\0" + struct.pack("<q", 1764450000000 + placed * 45000000)
        body = b"\x02item\0" + struct.pack("<i", len(item) + 1) + item + b"\0" + price + day
        prices += struct.pack("<i", len(body) + 5) + body + b"\0"
    for name, data in (("club/people", bytes(people)), ("shop/prices", prices)):
        file = room / f"backup/{name}.bson"
        file.parent.mkdir(parents=True)
        file.write_bytes(data)
        file.with_suffix(".metadata.json").write_text('{"indexes":[]}\n', encoding="utf-8")
    lines = "".join(f"2026-11-25T21:00:00.000+0000\tdone dumping {name} ({count} documents)\n" for name, count in (("club.people", 500), ("shop.prices", 3)))
    (room / "mongodump.log").write_text(lines, encoding="utf-8")
    for name in ("monday", "tuesday"):
        shutil.copytree(room / "backup", room / name)
    for name in ("orders", "f", "c"):
        shutil.copyfile(room / "examples/shop.bson", room / f"{name}.bson")
    shutil.copyfile(room / "examples/people.bson", room / "people.bson")
    shutil.copyfile(room / "examples/backup.archive", room / "night.archive")
    (room / "lines.jsonl").write_text('{"a":1}\n', encoding="utf-8")


def of_readme(text: str, counts: Counts) -> None:
    """Runs the commands of its first two tables over a good backup, with a query for Q and a sort for S, and its script."""
    table, known = (text[text.index(head) :].partition("\n\n")[0] for head in ("| To | Type |", "| You know | Here |"))
    here = re.findall(r"^\|.*\| `(bsonkit [^`]*)`", known, re.MULTILINE)
    counts.want(len(here) >= 3, "the table of what a reader knows has commands", known)
    likewise = [Step(re.sub(r"(--(?:query|sort)) [QS]\b", r"""\1 '{"order":1}'""", it), None) for it in here]
    with tempfile.TemporaryDirectory() as folder:
        room = Path(folder, "room")
        shutil.copytree(ROOT / "examples", room / "examples")
        backup(room, is_damaged=False)
        script = re.search(r"(?:^    .*\n|^\n(?=    ))+", text[text.index("From Python:") :], re.MULTILINE)
        Path(folder, "script.py").write_text(re.sub("^    ", "", script[0].strip("\n") if script else "", flags=re.MULTILINE), encoding="utf-8")
        steps = [Step(it, None) for it in re.findall(r"`([^`]*)` \|$", table, re.MULTILINE)]
        run([*steps, *likewise, Step("python3 ../script.py", None)], room, counts)


def main() -> int:
    if not shutil.which("jq"):
        print("not run, since there is no jq: what the documents show\n0 passed, 0 failed")
        return 0
    counts = Counts()
    for name in sys.argv[1:] or ("README.md", "docs/GUIDE.md", "docs/LARGE.md", "man/bsonfind.1", "man/bsonwide.1"):
        text = (ROOT / name).read_text(encoding="utf-8")
        with tempfile.TemporaryDirectory() as folder:
            room = Path(folder)
            shutil.copytree(ROOT / "examples", room / "examples")
            if name == "README.md":
                backup(room, is_damaged=True)
            if name.endswith(".1"):
                shutil.copytree(ROOT / "examples", room, dirs_exist_ok=True)
                (room / "people.bson.gz").write_bytes(gzip.compress((room / "people.bson").read_bytes()))
                (room / "dump/mydb").mkdir(parents=True)
                steps = examples(text)
            else:
                steps = recipes(text.partition("\n## ")[0] if name == "README.md" else text, room)
            counts.want(steps[0].command.partition("  #")[0].rstrip() == "set -o pipefail", f"the first command of {name}", steps[0].command)
            counts.want(not re.search(r"[2&]> *&?/dev/null", text), f"{name} throws no standard error away", "")
            if name.startswith("docs/") and name.endswith(".md"):
                counts.want(not (long := long_blocks(text)), f"the blocks of {name} have at most {MOST_LINES} lines", "\n".join(long))
            run(steps, room, counts)
        if name == "README.md":
            of_readme(text, counts)
    print(f"{counts.passed} passed, {counts.failed} failed")
    return 1 if counts.failed else 0


if __name__ == "__main__":
    sys.exit(main())
