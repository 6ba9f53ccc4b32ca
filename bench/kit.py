#!/usr/bin/env python3
"""Times `schema`, `count --by`, `grep` and `info` of `bsonkit` over orders with doubles, beside Python's bson and jq, which reads the lines
of `bsonwide dump`, where these are installed.

usage: bench/kit.py [MEGABYTES] [--alone] [--runs N] [--seed N] [--program FILE]

A row a task, over a dump of so many megabytes, 20 without a number: seconds of the processor in all processes, how many times those of
`info` they are, the megabytes of the greatest process, and how many times as long the others take. A time is the least of N runs, 3 without
it. First what Python finds is compared with what `bsonkit` prints. --alone leaves the others out: of a gigabyte jq would take hours.
"""

import argparse
import os
import shutil
import subprocess
import sys
import tempfile
from pathlib import Path
from typing import NamedTuple

import peers
from bench import ROOT, Task, beside, machine, show, times
from peers import OWN

TEXT = "SKU-0042"  # it is in one of some two thousand documents
NAME = '["customer"]["name"]'


class Job(NamedTuple):
    """A command of bsonkit: its words, what of its output the others have too, as a pipe of the shell, and how the others make that."""

    words: list[str]
    same: str
    python: str
    jq: str


JOBS = {
    "info": Job(
        ["info"],
        "cut -f 4,5",
        "import os\nprint(sum(1 for d in documents()), os.path.getsize(sys.argv[1]), sep='\\t')",
        "-n 'reduce inputs as $it (0; . + 1)'",
    ),
    "schema": Job(
        ["schema"],
        "cut -f 1 | LC_ALL=C sort",
        """
types = {}
def walk(path, value):
    of = types.setdefault(path, {})
    of[type(value)] = of.get(type(value), 0) + 1
    for name, it in value.items() if isinstance(value, dict) else []:
        walk(f"{path}.{name}" if path else name, it)
    for it in value if isinstance(value, list) else []:
        walk(f"{path}[]", it)
for d in documents(): walk("", d)
print(*sorted(path for path in types if path), sep="\\n")
""",
        """-r 'paths | map(if type == "number" then "[]" else . end) | join(".")' | sort -u""",
    ),
    "count --by customer.name": Job(
        ["count", "--by", "customer.name"],
        "LC_ALL=C sort",
        f"""
import collections, json
counts = collections.Counter(d{NAME} for d in documents())
print(*sorted(f"{{json.dumps(name, ensure_ascii=False)}}\\t{{count}}" for name, count in counts.items()), sep="\\n")
""",
        "'.customer.name' | sort | uniq -c | sort -rn",
    ),
    f"grep {TEXT}": Job(
        ["grep", TEXT],
        "wc -l",
        f"""
def hits(value):
    if isinstance(value, str): return {TEXT!r} in value
    return sum(map(hits, value.values() if isinstance(value, dict) else value if isinstance(value, list) else []))
print(sum(map(hits, documents())))
""",
        f"""-c 'select(any(.. | strings; contains("{TEXT}")))'""",
    ),
}


def task_of(name: str, job: Job, program: str, dump: str, alone: bool) -> Task:
    command, *others = job.words
    words = {OWN: [sys.executable, "-m", "bsonfind", command, "--program", program, *others, dump]}
    if peers.has_bson() and not alone:
        words["python3 bson"] = peers.python(job.python, dump)
    if shutil.which("jq") and not alone:
        words["dump, jq"] = ["sh", "-c", f'"$0" dump "$1" | jq {job.jq}', str(Path(program).with_name("bsonwide")), dump]
    return Task(name, words)


def is_same(job: Job, task: Task) -> bool:
    """Whether Python prints what is taken of the output of bsonkit."""
    if "python3 bson" not in task.words:
        return True
    own = subprocess.run(["sh", "-c", f'"$0" "$@" | {job.same}', *task.words[OWN]], stdout=subprocess.PIPE, stderr=subprocess.DEVNULL, check=True)
    other = subprocess.run(task.words["python3 bson"], stdout=subprocess.PIPE, check=True)
    return own.stdout == other.stdout


def main() -> int:
    read = argparse.ArgumentParser(usage=__doc__)
    read.add_argument("megabytes", nargs="?", type=int, default=20)
    read.add_argument("--alone", action="store_true")
    read.add_argument("--runs", type=int, default=3)
    read.add_argument("--seed", type=int, default=1)
    read.add_argument("--program", default=str(ROOT / OWN))
    words = read.parse_args()
    os.environ["PYTHONPATH"] = str(ROOT / "python")
    with tempfile.TemporaryDirectory() as room:
        # By a process of its own, whose memory is not told as that of a task.
        subprocess.run([sys.executable, ROOT / "bench/make_dump.py", f"{room}/orders", str(words.megabytes), str(words.seed), "priced"], check=True)
        tasks = [task_of(name, job, words.program, f"{room}/orders.bson", words.alone) for name, job in JOBS.items()]
        for job, task in zip(JOBS.values(), tasks):
            if not is_same(job, task):
                print(f"something else is printed: {task.name}")
                return 1
        print(f"{words.megabytes} MB, seed {words.seed}, {machine()}, load {os.getloadavg()[0]:.1f}\n", flush=True)
        show(beside(tasks, times(tasks, words.runs)))
    return 0


if __name__ == "__main__":
    sys.exit(main())
