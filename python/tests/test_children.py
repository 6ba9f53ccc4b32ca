"""Tests within a process that takes the statuses of its children: it ignores SIGCHLD, or its handler waits for any child."""

import subprocess
import sys
from typing import List, Tuple

from .support import DAMAGED, PATIENCE, PROGRAM, Room, environment
from .goods import FIRST, GOODS

# What takes the statuses, in a process that begins with it.
WAYS = {
    "ignored": "signal.signal(signal.SIGCHLD, signal.SIG_IGN)",
    "reaped": """
def reap(*_):
    try:
        while os.waitpid(-1, os.WNOHANG)[0]:
            pass
    except ChildProcessError:
        pass
signal.signal(signal.SIGCHLD, reap)
""",
}
ASK = """
import asyncio, logging
from decimal import Decimal
from bsonfind import *
logging.disable()  # asyncio says of each child that its status is not known
path, program = sys.argv[1:]
price = {"price": {"$gt": 9.25}}
async def ask():
    async with AsyncSession(path, program) as session:
        return await session.count_documents(price)
def within(filter):
    with Session(path, program) as session:
        return session.count_documents(filter)
for call in (
    lambda: [it["_id"] for it in find(path, price, decode="plain", program=program)],
    lambda: len(list(find(path, decode="bson", program=program))),
    lambda: count_documents(path, {"cost": Decimal("19")}, program=program),
    lambda: within(price),
    lambda: asyncio.run(ask()),
    lambda: [(it.documents, it.faulty, it.error) for it in audit(path, program=program).reports],
):
    try:
        print(call(), flush=True)
    except BsonfindError as error:
        print(f"{type(error).__name__}: {error}", flush=True)
"""
# Three of the prices are above 9.25, two of the costs are 19, and none of the six documents has a fault.
ANSWERS = ["[0, 2, 3]", "6", "2", "3", "3", "[(6, 0, None)]"]


class Children(Room):
    def run_python(self, way: str, code: str, *words: object) -> Tuple[int, List[str], str]:
        """The status of Python below which statuses are lost, what it prints, and what it says."""
        code = f"import os, signal, sys\n{WAYS[way]}\n{code}"
        command = [sys.executable, "-c", code, *map(str, words)]
        run = subprocess.run(command, env=environment(), capture_output=True, text=True, timeout=PATIENCE)
        return run.returncode, run.stdout.splitlines(), run.stderr

    def run_command(self, *words: object) -> Tuple[int, List[str], str]:
        """The same of `python3 -m bsonfind` where SIGCHLD is ignored."""
        code = 'os.execv(sys.executable, [sys.executable, "-m", "bsonfind", *sys.argv[1:]])'
        return self.run_python("ignored", code, "--program", PROGRAM, *words)

    def test_answers(self) -> None:
        path = self.file(b"".join(GOODS))
        for way in WAYS:
            self.assertEqual(self.run_python(way, ASK, path, PROGRAM), (0, ANSWERS, ""), way)

    def test_commands(self) -> None:
        path, bad = self.file(b"".join(GOODS)), self.file(b"".join(GOODS) + DAMAGED, "bad.bson")
        fault = f'document 6, byte {len(b"".join(GOODS)) + 7}, path "d": bad boolean'
        self.assertEqual(self.run_command("check", path), (0, [], "6 documents, 0 faulty\n"))
        status, lines, told = self.run_command("dump", path)
        self.assertEqual((status, lines[0], len(lines), told), (0, FIRST, 6, "6 objects found\n"))
        status, lines, told = self.run_command("find", path, "--query", '{"price":9.5}')
        self.assertEqual((status, lines, told[:17]), (0, [FIRST], "1 documents, end,"))
        self.assertEqual(self.run_command("check", bad), (1, [fault], "7 documents, 1 faulty\n"))
        self.assertEqual(self.run_command("find", bad), (1, [], f"bsonwide: {fault}\n"))
        # Of one plain file the command becomes the program, which has its own name.
        self.assertEqual(self.run_command("dump", bad)[::2], (1, f"bsonwide: {fault}\n6 objects found\n"))

    def test_process_that_is_killed(self) -> None:
        """Nothing is answered of what it wrote before, such as two documents of the six, or a reply without its end."""
        path = self.file(b"".join(GOODS))
        two = f'"$WIDE" "$@" 2>/dev/null | head -c {len(GOODS[0] + GOODS[1])}'
        for command, part, failed in (("serve", "printf '{\"ok\":tr'", (3, 4)), ("check", two, (5,)), ("find", two, range(3))):
            cut = f"{part}\nkill -9 $$"
            program = self.wide(f'if [ $1 = {command} ]; then {cut}; fi\nexec "$WIDE" "$@"')
            for way in WAYS:
                with self.subTest(f"{command} {way}"):
                    status, lines, told = self.run_python(way, ASK, path, program)
                    self.assertEqual((status, len(lines), told), (0, len(ANSWERS), ""))
                    for number, (line, answer) in enumerate(zip(lines, ANSWERS)):
                        if number in failed:
                            # An audit continues with the next file, and says of this one that it was not read.
                            self.assertRegex(line, r"^(ProgramError|DumpError|SessionEndedError): |^\[\(0, 0, '(no count was printed|ended by signal 9)'\)\]$")
                        else:
                            self.assertEqual(line, answer)

    def test_line_of_the_count_after_an_error(self) -> None:
        """It is printed after a failed read too."""
        path = self.file(b"".join(GOODS))
        code = """
from bsonfind import *
path, program = sys.argv[1:]
for call in (lambda: list(find(path, program=program)), lambda: check_parts(plan(path), program=program), lambda: audit(path, program=program).reports[0].error):
    try:
        print(call())
    except BsonfindError as error:
        print(f"{type(error).__name__}: {error}")
"""
        failing = 'echo "{}: cannot read" >&2\necho "0 documents, {}" >&2\nexit 1'
        self.script(failing.format("bsonwide", "0 faulty"), "bsonwide")
        program = self.script(failing.format("bsonfind", "end"))
        for way in WAYS:
            status, lines, told = self.run_python(way, code, path, program)
            self.assertEqual((status, told), (0, ""))
            self.assertEqual([it.rpartition(": ")[2] for it in lines], ["cannot read"] * 3)
