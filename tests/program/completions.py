#!/usr/bin/env python3
"""Asks bash, zsh and fish, as they run, what they offer after a line: commands, options that the line has not, and files.

usage: tests/program/completions.py     The last line is 'N passed, M failed'; it needs bash, zsh and fish, and no program.
"""

import os
import pty
import re
import select
import shutil
import subprocess
import sys
import tempfile
from collections.abc import Callable
from pathlib import Path

sys.path.insert(0, str(Path(__file__).resolve().parents[1]))

from support import ROOT

COMPLETIONS = ROOT / "completions"
COMMANDS = {"dump", "check", "pack", "find", "serve"}
OF_WIDE = {"dump", "check", "pack", "find", "serve"}
OPTIONS = {"--query", "--sort", "--skip", "--limit", "--batch", "--index", "--after"}
LAYOUT = {"--type", "--jsonFormat", "--jsonArray", "--pretty", "--fields", "--noId", "--noHeaderLine"}
FORMATS, TYPES = {"canonical", "relaxed"}, {"json", "csv"}
WIDE_OPTIONS = OPTIONS | {"--queryFile", "--bson", "--count"} | LAYOUT
BY_VALUE = {"--byValue"}
DUMPS = {"one.bson", "two.bson", "room/"}
OTHERS = {"lines.jsonl"}
HELP = {"-h", "--help"}

# A line after the name of a program, what is offered after it, and what only some shells offer there.
Row = tuple[str, set[str], set[str]]


def of_find(options: set[str]) -> list[Row]:
    """The lines of `find`, which has these options."""
    return [
        # zsh and fish offer options once a hyphen stands there.
        ("find ", DUMPS | {"-"}, options | OTHERS),
        ("find -", options, {"-"}),
        ("find --", options, set()),
        ("find one.bson --", options, set()),
        ("find one.bson --s", {"--sort", "--skip"}, set()),
        ("find one.bson --skip 1 --s", {"--sort"}, set()),
        ("find one.bson --skip=1 --s", {"--sort"}, set()),
        ("find one.bson --query '{\"a\":1}' --", options - {"--query", "--queryFile"}, set()),
        ("find one.bson t", set(), set()),
        # `--count` of `bsonwide` goes with neither `--batch` nor `--bson`.
        ("find --batch 3 ", DUMPS | {"-"}, options - {"--batch", "--count"} | OTHERS),
        ("find --batch=3 t", {"two.bson"}, set()),
        *((f"find one.bson {option} ", set(), set()) for option in sorted(OPTIONS)),
        *((f"find {option}=", set(), set()) for option in sorted(OPTIONS)),
    ]


OF_BSONFIND: list[Row] = [
    ("", COMMANDS, HELP),
    ("-", {"--help"}, HELP),
    ("s", {"serve"}, set()),
    ("dump ", DUMPS | {"-"}, OTHERS),
    ("dump o", {"one.bson"}, set()),
    ("dump -- ", DUMPS | {"-"}, OTHERS),
    ("dump one.bson ", set(), set()),
    ("check ", DUMPS | {"-"}, OTHERS),
    ("check one.bson ", set(), set()),
    ("pack ", DUMPS | OTHERS | {"-"}, set()),
    ("pack l", {"lines.jsonl"}, set()),
    ("pack lines.jsonl ", set(), set()),
    # The commands of serve come from standard input, so it has no hyphen.
    ("serve ", DUMPS, OTHERS),
    ("serve -", set(), set()),
    ("serve one.bson ", set(), set()),
    *of_find(OPTIONS),
]
OF_BSONWIDE: list[Row] = [
    ("", OF_WIDE, HELP),
    ("-", {"--help"}, HELP),
    ("pack ", DUMPS | OTHERS | {"-"}, set()),
    ("pack l", {"lines.jsonl"}, set()),
    ("pack -- ", DUMPS | OTHERS | {"-"}, set()),
    ("pack lines.jsonl ", set(), set()),
    ("dump ", DUMPS | {"-"}, LAYOUT | OTHERS),
    ("dump o", {"one.bson"}, set()),
    ("dump -- ", DUMPS | {"-"}, OTHERS),
    ("dump one.bson ", set(), LAYOUT),
    ("dump --", LAYOUT, set()),
    ("dump one.bson --", LAYOUT, set()),
    ("dump one.bson --jsonArray --", LAYOUT - {"--jsonArray"}, set()),
    ("dump one.bson --fields a,b --noId --", LAYOUT - {"--fields", "--noId"}, set()),
    ("dump one.bson --fields ", set(), set()),
    ("dump one.bson --jsonFormat ", FORMATS, set()),
    ("dump --jsonFormat r", {"relaxed"}, set()),
    ("dump one.bson --type ", TYPES, set()),
    ("dump one.bson --type c", {"csv"}, set()),
    ("dump one.bson --type csv --no", {"--noId", "--noHeaderLine"}, set()),
    ("dump --jsonFormat relaxed ", DUMPS | {"-"}, LAYOUT - {"--jsonFormat"} | OTHERS),
    # The commands of serve come from standard input, so it has no hyphen.
    ("serve ", DUMPS, BY_VALUE | OTHERS),
    ("serve -", BY_VALUE, set()),
    ("serve one.bson ", set(), BY_VALUE),
    ("serve one.bson --byValue ", set(), set()),
    ("serve --byValue ", DUMPS, OTHERS),
    ("check ", DUMPS | {"-"}, OTHERS),
    ("check o", {"one.bson"}, set()),
    ("check -- ", DUMPS | {"-"}, OTHERS),
    ("check one.bson ", set(), set()),
    *of_find(WIDE_OPTIONS),
    ("find --queryFile ", DUMPS | OTHERS | {"-"}, set()),
    ("find one.bson --queryFile l", {"lines.jsonl"}, set()),
    ("find --queryFile lines.jsonl --", WIDE_OPTIONS - {"--query", "--queryFile"}, set()),
    ("find --queryFile lines.jsonl ", DUMPS | {"-"}, WIDE_OPTIONS - {"--query", "--queryFile"} | OTHERS),
    ("find one.bson --bson --", WIDE_OPTIONS - LAYOUT - {"--bson", "--count"}, set()),
    ("find one.bson --count --", WIDE_OPTIONS - LAYOUT - {"--bson", "--count", "--batch"}, set()),
    ("find one.bson --jsonArray --", WIDE_OPTIONS - {"--jsonArray", "--bson", "--count"}, set()),
    ("find one.bson --fields a --", WIDE_OPTIONS - {"--fields", "--bson", "--count"}, set()),
    ("find one.bson --pretty --", WIDE_OPTIONS - {"--pretty", "--bson", "--count"}, set()),
    ("find one.bson --jsonFormat ", FORMATS, set()),
    ("find one.bson --batch 3 --", WIDE_OPTIONS - {"--batch", "--count"}, set()),
    ("find --bson ", DUMPS | {"-"}, WIDE_OPTIONS - LAYOUT - {"--bson", "--count"} | OTHERS),
]
# Of bsonkit, what the programs have not; python/tests/test_bsonkit.py compares all options with those that it takes.
OF_BSONKIT: list[Row] = [
    ("s", {"serve", "salvage", "show", "schema"}, set()),
    ("find one.bson --q", {"--query", "--queryFile"}, set()),
    ("find --queryFile l", {"lines.jsonl"}, set()),
    ("find one.bson --query ", set(), set()),
    ("find one.bson --out", {"--outFile"}, set()),
    ("pack lines.jsonl --o", {"--outFile"}, set()),
    ("query --li", {"--list", "--limit"}, set()),
    ("count --q", {"--query", "--queryFile"}, set()),
    ("audit --i", {"--ids"}, set()),
    ("show o", {"one.bson"}, set()),
    ("show one.bson 3 --b", {"--bson"}, set()),
    ("salvage one.bson --o", {"--out"}, set()),
]
OF_KIT = {"audit", "salvage", "show", "unpack", "compare", "query", "count", "schema", "info", "grep", "ids", "--outFile", "--out", "--ids", "--list"}
ROWS = {"bsonfind": OF_BSONFIND, "bsonwide": OF_BSONWIDE, "bsonkit": OF_BSONKIT}
KNOWN = COMMANDS | OF_WIDE | OF_KIT | WIDE_OPTIONS | BY_VALUE | FORMATS | TYPES | DUMPS | OTHERS | HELP | {"-"}
PROMPT = "ready> "


class Terminal:
    """A shell in a terminal. Keys are sent when its prompt stands, since zsh takes a tab that comes before as a character."""

    def __init__(self, words: list[str], setup: str, room: str) -> None:
        process, self.file = pty.fork()
        if process == 0:
            os.chdir(room)
            os.environ.update(TERM="dumb", HOME=room, PS1=PROMPT, LC_ALL="C.UTF-8", INPUTRC="/dev/null")
            os.execvp(words[0], words)
        self.told = 0
        self.tell(setup + "\n")

    def tell(self, text: str) -> str:
        """What the shell shows from this text on, up to the reply to a command that is sent after it."""
        self.told += 1
        os.write(self.file, f"{text}\x15echo told-''{self.told}.\n".encode())
        shown = ""
        while PROMPT not in shown.partition(f"told-{self.told}.")[2]:
            if not select.select([self.file], [], [], 60)[0]:
                raise TimeoutError(f"no reply after {text!r}: {shown!r}")
            shown += os.read(self.file, 65536).decode(errors="replace")
        return shown.partition("echo told-")[0]

    def offered(self, program: str, line: str) -> set[str]:
        shown = re.sub(r"\x1b\[[0-9;?]*[A-Za-z]", "", self.tell(f"{program} {line}\t"))
        shown = re.sub(r".\x08", "", shown)
        # What was typed stands there too, and is no offer.
        return set(re.findall(r"[^\s=\x07]+", shown)) - set(re.findall(r"[^\s=]+", line))


def fish(room: str) -> Callable[[str, str], set[str]]:
    def offered(program: str, line: str) -> set[str]:
        words = ["fish", "--no-config", "-c", f"source {COMPLETIONS}/{program}.fish; complete -C $argv[1]", f"{program} {line}"]
        ran = subprocess.run(words, cwd=room, env={**os.environ, "HOME": room}, stdout=subprocess.PIPE, check=True)
        return {it.partition("\t")[0] for it in ran.stdout.decode().splitlines()}

    return offered


def main() -> int:
    missing = [shell for shell in ("bash", "zsh", "fish") if not shutil.which(shell)]
    if missing:
        print(f"not installed: {', '.join(missing)}", file=sys.stderr)
        return 1
    passed = failed = 0
    with tempfile.TemporaryDirectory() as room:
        for name in DUMPS | OTHERS:
            place = Path(room, name)
            place.mkdir() if name.endswith("/") else place.touch()
        bash = Terminal(
            ["bash", "--norc", "--noprofile"],
            f"bind 'set show-all-if-ambiguous on' 'set bell-style none'; source {COMPLETIONS}/bsonfind.bash;"
            f" source {COMPLETIONS}/bsonwide.bash; source {COMPLETIONS}/bsonkit.bash",
            room,
        )
        zsh = Terminal(
            ["zsh", "-f"],
            f"unsetopt beep list_ambiguous prompt_cr; fpath=({COMPLETIONS} $fpath); autoload -U compinit; compinit -u -D;"
            " zstyle ':completion:*' verbose no",
            room,
        )
        for shell, offered in (("bash", bash.offered), ("zsh", zsh.offered), ("fish", fish(room))):
            for program, line, wanted, allowed in ((program, *row) for program, rows in ROWS.items() for row in rows):
                words = offered(program, line)
                # The front that all offers have is put in the line: of options it is their hyphens.
                strange = words & KNOWN - wanted - allowed
                if wanted <= words and not strange:
                    passed += 1
                else:
                    failed += 1
                    print(f"FAILED: {shell}, after '{program} {line}': missing {wanted - words}, not wanted {strange}")
    print(f"{passed} passed, {failed} failed")
    return 1 if failed else 0


if __name__ == "__main__":
    sys.exit(main())
