#!/usr/bin/env python3
"""Times ./bsonfind and ./bsonwide over dumps that they are given, beside other programs where these are installed, and prints one table.

usage: bench/bench.py [MEGABYTES ..] [--kind KIND] [--runs N] [--seed N] [--only TEXT] [--program FILE] [--wide FILE] [--picture FILE]

Of one size, 20 megabytes without it: a row a task, with its time, how many times that of `check` of the same dump it is, its memory, and
how many times as long each other program (bench/peers.py) takes. `dump`, `check` and `pack` are over documents of a KIND
(bench/make_dump.py; mixed without it), over orders, and over orders that hold doubles (the kind priced), which go through `bsonwide`;
`find` and `serve` over orders, and sorts over orders and, of the kind link, over texts that begin alike. The layouts of `bsonwide dump`
are over orders that hold doubles, as multiples of `dump` in lines of canonical form. Of several sizes: for each of them a column of times
of `check`, and one of memory, all over orders, or over documents of a KIND that hold doubles.

A time is that of the processor in all processes of a task, the least of N runs (5 without it), between which all other tasks are run;
what takes above 5 seconds is run twice. Memory, in megabytes, is the greatest resident set of a process, where GNU time is installed to
tell it. Output goes to /dev/null. First each task is looked at: it prints what another way prints. --only takes the tasks that have
TEXT in their names, beside the first of a table.

A run of one size without --only also draws docs/performance.svg, or what --picture names, where this python has matplotlib.

With MONGODB_URI a server is asked too: mongorestore puts the orders into bench.orders, in place of what is there, and mongoexport
finds them.
"""

import argparse
import itertools
import json
import os
import platform
import shlex
import shutil
import subprocess
import sys
import tempfile
import time
from pathlib import Path
from typing import NamedTuple

import peers
from make_dump import DOUBLES, KINDS, make, order_number
from peers import OWN
from picture import draw

ROOT = Path(__file__).resolve().parent.parent
SLOW = 5.0
FOUND = 1_000
# The sorts of orders and of links, and for some the path of an index.
SORTS = {
    "by number": ('{"order_no":1}', "order_no"),
    "by date, the latest first": ('{"placed":-1}', ""),
    "by name": ('{"customer.name":1}', "customer.name"),
    "by four paths": ('{"customer.referrer":1,"customer.name":1,"placed":-1,"order_no":1}', ""),
}
LINKS = {"by texts that begin alike": ('{"url":1}', "url")}


class Task(NamedTuple):
    """The words that do the same by each program, what is sent to them, and words that print what the program's own print."""

    name: str
    words: dict[str, list[str]]
    sent: str = ""
    alike: list[str] = []


class Took(NamedTuple):
    """The seconds of a run: of the processor, and by the clock."""

    processor: float
    clock: float


NEVER = Took(float("inf"), float("inf"))


def run(words: list[str], sent: str, to: int = subprocess.DEVNULL) -> Took:
    """The time of a run, which is to end well."""
    with tempfile.TemporaryFile() as commands:
        commands.write(sent.encode())
        commands.seek(0)
        started = time.monotonic()
        process = subprocess.Popen(words, stdin=commands, stdout=to, stderr=subprocess.DEVNULL)
        _, status, used = os.wait4(process.pid, 0)
        clock = time.monotonic() - started
    process.returncode = os.waitstatus_to_exitcode(status)
    if status:
        sys.exit(f"status {process.returncode}: {' '.join(words)[:200]}")
    return Took(used.ru_utime + used.ru_stime, clock)


def printed(words: list[str], sent: str = "") -> bytes:
    with tempfile.TemporaryFile() as out:
        run(words, sent, out.fileno())
        out.seek(0)
        return out.read()


def memory(task: Task) -> str:
    """The megabytes of a run. A process counts as its own what the one that made it had, so a small one makes it."""
    if not shutil.which("time"):
        return ""
    with tempfile.NamedTemporaryFile("r") as told:
        run(["time", "-q", "-f", "%M", "-o", told.name, *task.words[OWN]], task.sent)
        return f"{int(told.read()) / 1024:.0f}"


Times = dict[tuple[str, str], Took]


def times(tasks: list[Task], runs: int) -> Times:
    """The least times of each task by each program."""
    least: Times = {}
    for turn, task in itertools.product(range(runs), tasks):
        for program, words in task.words.items():
            old = least.get((task.name, program), NEVER)
            if turn < 2 or old.processor < SLOW:
                took = run(words, task.sent)
                least[task.name, program] = Took(min(old.processor, took.processor), min(old.clock, took.clock))
    return least


# ---- the tasks


def file_tasks(program: str, name: str, room: str) -> list[Task]:
    """Whole files, `check` first."""
    dump, lines = f"{name}.bson", f"{name}.jsonl"
    inputs = {"check": dump, "dump": dump, "pack": lines}
    others = peers.of_files(inputs, room)
    alike = {"check": [], "dump": ["cat", lines], "pack": ["cat", dump]}
    return [Task(command, {OWN: [program, command, file], **others[command]}, alike=alike[command]) for command, file in inputs.items()]


def wide_tasks(kind: str, wide: str, name: str, room: str, one: dict) -> list[Task]:
    """Those over a dump with doubles: the whole file, and two of the queries."""
    dump = f"{name}.bson"
    tasks = file_tasks(wide, name, room)
    for query in peers.queries(one)[:2] if kind == "priced" else []:
        others = peers.of_query(query, f"{shlex.quote(wide)} dump {shlex.quote(dump)}", dump)
        tasks.append(Task(f"find {query.name}", {OWN: [wide, "find", dump, *query.words()], **others}, alike=others.get("dump, jq", [])))
    return tasks + (nan_tasks(wide, dump) if kind == "priced" else [])


def nan_tasks(wide: str, dump: str) -> list[Task]:
    """Comparisons of weights, with nearly all of them below, over the dump and over the dump with one NaN before it. Nothing is given."""
    beside = f"{dump.removesuffix('.bson')}-nan.bson"
    with open(beside, "wb") as made, open(dump, "rb") as plain:
        made.write(bytes.fromhex("15000000 01 776569676874 00 000000000000f87f 00"))
        shutil.copyfileobj(plain, made)
    below = '{"weight":{"$lt":39.5}}'
    tasks = []
    for name, words in {
        "below a weight": ["--query", below],
        "below a weight, --index": ["--query", below, "--index", "weight"],
        "below three weights": ["--query", f'{{"$or":[{{"weight":{{"$lt":0.5}}}},{{"weight":{{"$lte":39}}}},{below}]}}'],
    }.items():
        for of, file in (("", dump), (", beside NaN", beside)):
            tasks.append(Task(f"find {name}{of}", {OWN: [wide, "find", file, "--batch", "0", *words]}))
    return tasks


def layout_tasks(wide: str, name: str, room: str) -> list[Task]:
    """`dump` of orders with doubles in each layout, the plain one first."""
    file, lines = f"{name}.bson", ["cat", f"{name}.jsonl"]
    dump, driver = [wide, "dump", file], peers.go_driver(room)
    tasks = [Task("dump", {OWN: dump, **({"Go's driver": [*driver, "dump", file]} if driver else {})}, alike=lines)]
    for layout in peers.LAYOUTS:
        words = {OWN: [*dump, *layout.options], **peers.of_layout(layout, shlex.join(dump))}
        if driver and layout.driver:
            words["Go's driver"] = [*driver, layout.driver, file]
        tasks.append(Task(f"dump {layout.name}", words, alike=peers.of_layout(layout, shlex.join(lines)).get(layout.exact, [])))
    return tasks


def find_tasks(program: str, dump: str, order: dict) -> list[Task]:
    """Queries; one is an order that is to be found. And by an index, which each run makes anew."""
    tasks = []
    for query in peers.queries(order):
        own = [program, "find", dump, *query.words()]
        others = peers.of_query(query, f"{shlex.quote(program)} dump {shlex.quote(dump)}", dump)
        tasks.append(Task(f"find {query.name}", {OWN: own, **others}, alike=others.get("dump, jq", [])))
    number = order["order_no"]["$numberInt"]
    for name, options in {
        "one by its number": ["--query", f'{{"order_no":{number}}}'],
        "the first 20 by number": ["--sort", '{"order_no":1}', "--limit", "20"],
    }.items():
        scan = [program, "find", dump, *options]
        tasks.append(Task(f"find {name}", {OWN: scan}))
        # Nothing is given, and so no token: the dump is not hashed.
        tasks.append(Task(f"find {name}, --batch 0", {OWN: [*scan, "--batch", "0"]}))
        tasks.append(Task(f"find {name}, --index", {OWN: [*scan, "--index", "order_no"]}, alike=scan))
    return tasks


def sort_tasks(program: str, dump: str, sorts: dict[str, tuple[str, str]]) -> list[Task]:
    """Sorts of all and of the first 20, beside the search alone; and with an index on a path, made anew. Nothing is given."""
    find = [program, "find", dump, "--batch", "0"]
    tasks = [Task("find, --batch 0", {OWN: find})]
    for name, (sort, path) in sorts.items():
        words = [*find, "--sort", sort]
        tasks.append(Task(f"sort {name}, the first 20", {OWN: [*words, "--limit", "20"]}))
        tasks.append(Task(f"sort {name}", {OWN: words}))
        if path:
            tasks.append(Task(f"sort {name}, --index", {OWN: [*words, "--index", path]}))
    return tasks


def serve_tasks(program: str, dump: str, count: int) -> list[Task]:
    """Sessions: an index alone, documents that are found by it and given, and all documents, a page each."""
    made = '{"createIndex":"order_no"}\n'
    found = "".join(f'{{"find":{{"order_no":{order_number(k)}}}}}\n{{"getMore":{k + 1},"batch":2}}\n' for k in range(min(FOUND, count)))
    pages = '{"find":{}}\n' + '{"getMore":1,"batch":1}\n' * count
    talks = {"serve an index": made, f"serve an index, {FOUND:,} found by it": made + found, "serve all, a page each": pages}
    return [Task(name, {OWN: [program, "serve", dump]}, sent) for name, sent in talks.items()]


def counted(name: str) -> tuple[int, dict]:
    """How many documents a dump has, and one of them."""
    with open(f"{name}.jsonl", "rb") as lines:
        count = sum(1 for _ in lines)
        lines.seek(0)
        return count, json.loads(next(itertools.islice(lines, count * 7 // 10, None)))


def tasks_of(kind: str, program: str, wide: str, name: str, room: str) -> list[Task]:
    """The tasks of a dump of documents of a kind."""
    dump = f"{name}.bson"
    count, one = counted(name)
    if kind in DOUBLES:
        return wide_tasks(kind, wide, name, room, one)
    tasks = file_tasks(program, name, room)
    if kind == "order":
        tasks += [*find_tasks(program, dump, one), *sort_tasks(program, dump, SORTS), *serve_tasks(program, dump, count)]
    return tasks + (sort_tasks(program, dump, LINKS) if kind == "link" else [])


# ---- the table


def beside(group: list[Task], least: Times) -> list[list[str]]:
    """The rows of one dump, with a column for each other program. Times are also multiples of that of the first task."""
    names = dict.fromkeys(name for task in group for name in task.words if name != OWN)
    rows = [["", "seconds", f"of {group[0].name}", "MB", *names]]
    first = least[group[0].name, OWN].processor
    for task in group:
        if OWN in task.words:
            own = least[task.name, OWN].processor
            others = [f"{least[task.name, name].processor / own:.1f}" if name in task.words else "" for name in names]
            rows.append([task.name, f"{own:.3f}", f"{own / first:.2f}", memory(task), *others])
    return rows


def by_size(sizes: list[int], groups: list[list[Task]], runs: int) -> list[list[str]]:
    """The rows of several sizes, of each of which there is a group."""
    alone = [[task._replace(words={OWN: task.words[OWN]}) for task in group if OWN in task.words] for group in groups]
    least = [times(group, runs) for group in alone]
    rows = [["", *(f"{size} MB" for size in sizes), *(f"memory at {size}" for size in sizes)]]
    for same in zip(*alone):
        shares = [f"{of[task.name, OWN].processor / of['check', OWN].processor:.2f}" for of, task in zip(least, same)]
        rows.append([same[0].name, *shares, *map(memory, same)])
    return rows


def show(rows: list[list[str]]) -> None:
    """A table of markdown."""
    rows = [rows[0], ["---", *["---:"] * (len(rows[0]) - 1)], *rows[1:]]
    widths = [max(map(len, column)) for column in zip(*rows)]
    for first, *others in rows:
        print("| " + " | ".join([first.ljust(widths[0]), *(cell.rjust(width) for cell, width in zip(others, widths[1:]))]) + " |")


# ---- the picture

# What it shows, by the tasks.
SHOWN = {"check": "check", "dump": "dump", "pack": "pack", "find by three conditions, the last 100 by date": "find"}


def speeds(name: str, least: Times) -> dict[str, dict[str, float]]:
    """The megabytes a second of what the picture shows of a dump, by the clock, for each program."""
    found: dict[str, dict[str, float]] = {title: {} for title in SHOWN.values()}
    for (task, program), took in least.items():
        if task in SHOWN:
            file = f"{name}.jsonl" if task == "pack" else f"{name}.bson"
            found[SHOWN[task]][program] = os.path.getsize(file) / 1e6 / took.clock
    return found


def speed_rows(of: dict[str, dict[str, float]]) -> list[list[str]]:
    """What the picture shows of a dump, as a table."""
    names = list(dict.fromkeys(name for found in of.values() for name in found))
    return [["MB a second", *names]] + [[title, *(f"{found[name]:.1f}" if name in found else "" for name in names)] for title, found in of.items()]


def machine() -> str:
    """The processor, and how many there are."""
    try:
        lines = Path("/proc/cpuinfo").read_text().splitlines()
    except OSError:
        lines = []
    names = [line.partition(": ")[2] for line in lines if line.startswith("model name")]
    return f"{names[0] if names else platform.machine()}, {os.cpu_count()} processors"


def main() -> int:
    read = argparse.ArgumentParser(usage=__doc__)
    read.add_argument("megabytes", nargs="*", type=int)
    read.add_argument("--kind", choices=["mixed", *KINDS], default="mixed")
    read.add_argument("--runs", type=int, default=5)
    read.add_argument("--seed", type=int, default=1)
    read.add_argument("--only", default="")
    read.add_argument("--program", default=str(ROOT / OWN))
    read.add_argument("--wide", default=str(ROOT / "bsonwide"))
    read.add_argument("--picture", type=Path, default=ROOT / "docs/performance.svg")
    words = read.parse_args()
    sizes = words.megabytes or [20]
    kinds = [words.kind if words.kind in DOUBLES else "order"] if len(sizes) > 1 else list(dict.fromkeys([words.kind, "order", "priced"]))
    with tempfile.TemporaryDirectory() as room:
        groups, names, titles = [], [], [f"kind {kind}" for kind in kinds]
        for size, kind in itertools.product(sizes, kinds):
            names.append(f"{room}/{kind}-{size}")
            make(names[-1], size * 1_000_000, words.seed, kind)
            groups.append(tasks_of(kind, words.program, words.wide, names[-1], room))
        if len(sizes) == 1:
            groups.append(layout_tasks(words.wide, f"{room}/priced-{sizes[0]}", room))
            titles.append("layouts of dump, kind priced")
        groups = [[task for task in group if words.only in task.name or task == group[0]] for group in groups]
        # Of several sizes the first alone is looked at.
        for task in itertools.chain(*groups[: len(titles)]):
            if task.alike and printed(task.words[OWN], task.sent) != printed(task.alike):
                print(f"something else is printed: {task.name}")
                return 1
        peers.restore(f"{room}/order-{sizes[0]}.bson")
        print(f"{', '.join(map(str, sizes))} MB, seed {words.seed}, {machine()}, load {os.getloadavg()[0]:.1f}", flush=True)
        if len(sizes) > 1:
            print(f"\n{titles[0]}\n")
            show(by_size(sizes, groups, words.runs))
            return 0
        least = [times(group, words.runs) for group in groups]
        for title, group, of in zip(titles, groups, least):
            print(f"\n{title}\n")
            show(beside(group, of))
        if not words.only:
            shown = {name: speeds(file, of) for name, file, of in zip(kinds, names, least)}
            for kind in ("order", "priced"):
                print(f"\nkind {kind}, by the clock\n")
                show(speed_rows(shown[kind]))
            draw(shown["order"], shown["priced"], f"{sizes[0]} MB of orders, {machine()}", words.picture)
    return 0


if __name__ == "__main__":
    sys.exit(main())
