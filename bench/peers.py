"""Other programs that do what bsonfind does, where they are installed: libbson, Go's driver and Java's org.bson of Debian, bsondump,
python's module bson, jq and mongoexport."""

import functools
import importlib.util
import json
import os
import shlex
import shutil
import subprocess
import sys
from pathlib import Path
from typing import NamedTuple

OWN = "bsonfind"
HERE = Path(__file__).resolve().parent
# Dates of the orders are below 2^41, amounts below 2^40.
LATE = 1 << 40
MUCH = 1 << 39

PYTHON = """
import bson, datetime, sys
from bson import json_util
date = lambda milliseconds: datetime.datetime(1970, 1, 1) + datetime.timedelta(milliseconds=milliseconds)
canonical = json_util.CANONICAL_JSON_OPTIONS
documents = lambda: bson.decode_file_iter(open(sys.argv[1], "rb"))
show = lambda d: print(json_util.dumps(d, json_options=canonical))
"""
COMMANDS = {
    "check": "for d in documents(): pass",
    "dump": "for d in documents(): show(d)",
    "pack": "for line in open(sys.argv[1], 'rb'): sys.stdout.buffer.write(bson.encode(json_util.loads(line)))",
}


def python(body: str, file: str) -> list[str]:
    return [sys.executable, "-c", PYTHON + body, file]


def has_bson() -> bool:
    return importlib.util.find_spec("bson") is not None


@functools.cache
def libbson(room: str) -> list[str]:
    """The words of the program over libbson, built below a room, where that and a compiler are installed; none elsewhere."""
    if not shutil.which("cc") or not shutil.which("pkg-config"):
        return []
    flags = subprocess.run(["pkg-config", "--cflags", "--libs", "libbson-1.0"], capture_output=True, text=True)
    if flags.returncode:
        return []
    subprocess.run(["cc", "-O2", "-o", f"{room}/libbson", str(HERE / "libbson.c"), *flags.stdout.split()], check=True)
    return [f"{room}/libbson"]


# Where Debian has the packages of Go, and the one of Java.
GO = Path("/usr/share/gocode")
JAR = Path("/usr/share/java/bson.jar")


@functools.cache
def go_driver(room: str) -> list[str]:
    """The same over Go's driver."""
    if not shutil.which("go") or not (GO / "src/go.mongodb.org/mongo-driver/bson").is_dir():
        return []
    env = os.environ | {"GO111MODULE": "off", "GOPATH": str(GO), "GOFLAGS": ""}
    subprocess.run(["go", "build", "-o", f"{room}/driver", str(HERE / "driver.go")], env=env, check=True)
    return [f"{room}/driver"]


@functools.cache
def java(room: str) -> list[str]:
    """The same over Java's org.bson."""
    if not shutil.which("javac") or not JAR.exists():
        return []
    subprocess.run(["javac", "-cp", str(JAR), "-d", room, str(HERE / "Driver.java")], check=True)
    return ["java", "-cp", f"{JAR}:{room}", "Driver"]


def of_files(inputs: dict[str, str], room: str) -> dict[str, dict[str, list[str]]]:
    """The words of each command by each of them."""
    words: dict[str, dict[str, list[str]]] = {command: {} for command in inputs}
    built = {"libbson": libbson(room), "Go's driver": go_driver(room), "Java's org.bson": java(room)}
    for command, file in inputs.items():
        words[command] |= {name: [*program, command, file] for name, program in built.items() if program}
        if command == "dump" and shutil.which("bsondump"):
            words[command]["bsondump"] = ["bsondump", "--quiet", file]
        if has_bson():
            words[command]["python3 bson"] = python(COMMANDS[command], file)
    return words


class Query(NamedTuple):
    """A request for orders: the options of bsonfind and of mongoexport; and which lines, and how all of these are sorted and cut, in
    the words of jq, and of python."""

    name: str
    options: dict[str, str]
    select: str = "."
    sort: str = ""
    test: str = "True"
    key: str = ""

    def words(self) -> list[str]:
        return [word for name, value in self.options.items() for word in (f"--{name}", value)]


def queries(order: dict) -> list[Query]:
    """One order by its id, and many."""
    one = order["_id"]
    late = json.dumps({"$date": {"$numberLong": str(LATE)}})
    three = f'{{"customer.name":{{"$gte":"r"}},"items.gift":true,"placed":{{"$gte":{late}}}}}'
    placed = '(.placed["$date"]["$numberLong"] | tonumber)'
    return [
        Query(
            "one by its id",
            {"query": json.dumps({"_id": one})},
            f'select(._id["$oid"] == "{one["$oid"]}")',
            test=f'd["_id"] == bson.ObjectId("{one["$oid"]}")',
        ),
        Query(
            "by three conditions, the last 100 by date",
            {"query": three, "sort": '{"placed":-1}', "limit": "100"},
            f'select(.customer.name >= "r" and any(.items[]; .gift) and {placed} >= {LATE})',
            f"sort_by(-{placed}) | .[:100][]",
            f'd["customer"]["name"] >= "r" and any(i["gift"] for i in d["items"]) and d["placed"] >= date({LATE})',
            '(lambda d: d["placed"], True, 100)',
        ),
        Query(
            "in an array, the first 20 by date",
            {"query": f'{{"items.cents":{{"$gte":{MUCH}}}}}', "sort": '{"placed":1}', "limit": "20"},
            f'select(any(.items[]; (.cents["$numberLong"] | tonumber) >= {MUCH}))',
            f"sort_by({placed}) | .[:20][]",
            f'any(i["cents"] >= {MUCH} for i in d["items"])',
            '(lambda d: d["placed"], False, 20)',
        ),
        Query(
            "all, by a name",
            {"sort": '{"customer.name":1}'},
            sort="sort_by(.customer.name)[]",
            key='(lambda d: d["customer"]["name"], False, None)',
        ),
        Query("all", {}),
    ]


def of_query(query: Query, shown: str, dump: str) -> dict[str, list[str]]:
    """The words that find the same. `shown` is for the shell, and prints the lines of the dump."""
    words = {}
    if has_bson():
        found = f"[d for d in documents() if {query.test}]"
        body = f"key, down, limit = {query.key}\nfor d in sorted({found}, key=key, reverse=down)[:limit]: show(d)" if query.key else f"for d in {found}: show(d)"
        words["python3 bson"] = python(body, dump)
    if shutil.which("jq"):
        sort = f" | jq -cs '{query.sort}'" if query.sort else ""
        words["dump, jq"] = ["sh", "-c", f"{shown} | jq -c '{query.select}'{sort}"]
    if has_server():
        words["mongoexport"] = ["mongoexport", *SERVER, "--quiet", "--jsonFormat=canonical", *query.words()]
    return words


class Layout(NamedTuple):
    """A layout of `bsonwide dump`, and what makes it of lines of canonical form: words of jq for the shell, and a body for python. `exact`
    is the one of the two that prints the same bytes. And the command of the program over Go's driver that prints it of the dump."""

    name: str
    options: list[str]
    jq: str
    exact: str
    python: str = ""
    driver: str = ""


# Numbers as JSON has them, and dates as text: of a string no part matches, since its quotation marks are escaped.
RELAXED = """
import re, sys
sys.path.append(sys.argv[1])
from model.answers import Value, relaxed
date = re.compile(r'{"\\$date":{"\\$numberLong":"(-?[0-9]+)"}}')
number = re.compile(r'(?<!"\\$date":){"\\$number(?:Int|Long|Double)":"([^"]*[0-9])"}')
for line in sys.stdin:
    line = date.sub(lambda it: relaxed(Value("date", int(it[1]))) or it[0], line)
    sys.stdout.write(number.sub(r"\\1", line))
"""
CSV = """
import csv, json, sys
rows = csv.writer(sys.stdout, lineterminator="\\n")
rows.writerow(["order_no", "customer.name", "weight"])
for line in sys.stdin:
    it = json.loads(line)
    rows.writerow([it["order_no"]["$numberInt"], it["customer"]["name"], it["weight"]["$numberDouble"]])
"""
FIELDS = ["--fields", "order_no,customer.name,weight"]
NUMBERS = '(.["$numberInt"] // .["$numberLong"] // .["$numberDouble"])'
# Those of orders with doubles.
LAYOUTS = [
    Layout(
        "--jsonFormat relaxed",
        ["--jsonFormat", "relaxed"],
        f"-c 'walk(if type == \"object\" then {NUMBERS} as $n | if $n then ($n | tonumber) else . end else . end)'",
        "dump, python3",
        RELAXED,
        "relaxed",
    ),
    Layout(
        "--fields, three",
        FIELDS,
        "-c '{_id, customer: {name: .customer.name}, order_no, weight}'",
        "dump, jq",
    ),
    Layout("--jsonArray", ["--jsonArray"], "-cs .", "dump, jq"),
    Layout("--pretty", ["--pretty"], "--tab .", "dump, jq"),
    Layout(
        "--type csv, three fields",
        ["--type", "csv", *FIELDS],
        """-r '[.order_no["$numberInt"], .customer.name, .weight["$numberDouble"]] | @csv'""",
        "dump, python3",
        CSV,
    ),
]


def of_layout(layout: Layout, shown: str) -> dict[str, list[str]]:
    """The words that make it of lines. `shown` is for the shell, and prints the lines."""
    tools = {"dump, jq": f"jq {layout.jq}"} if shutil.which("jq") else {}
    if layout.python:
        tools["dump, python3"] = shlex.join([sys.executable, "-c", layout.python, str(HERE.parent / "tests")])
    return {name: ["sh", "-c", f"{shown} | {tool}"] for name, tool in tools.items()}


SERVER = [f"--uri={os.environ.get('MONGODB_URI', '')}", "--db=bench", "--collection=orders"]


def has_server() -> bool:
    return "MONGODB_URI" in os.environ and all(map(shutil.which, ("mongorestore", "mongoexport")))


def restore(dump: str) -> None:
    """Puts a dump into the server, where there is one."""
    if has_server():
        subprocess.run(["mongorestore", *SERVER, "--quiet", "--drop", dump], check=True)
