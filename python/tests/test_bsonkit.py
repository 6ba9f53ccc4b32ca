"""Tests of the command `bsonkit`: its arguments, its pages, and how it becomes the program."""

import argparse
import gzip
import os
import re
import resource
import shutil
import signal
import subprocess
import sys
import time
from pathlib import Path
from typing import Dict, List, Optional, Set, Tuple

from bsonfind import __version__
from bsonfind._command.arguments import parser
from bsonfind._command.program import _LARGEST, _is_plain

from .archives import archive
from .support import (
    COMMAND, DAMAGED, DOUBLE, PACKAGE, PATIENCE, PEOPLE, PEOPLE_LINES, PROGRAM, ROOT, SHOP, WIDE, Room, environment,
    run_package, wait_for,
)  # fmt: skip

FAULT = 'document 500, byte 92733, path "d": bad boolean'


def options() -> Dict[str, Set[str]]:
    """The options of each command, without those of all."""
    (commands,) = (it for it in parser("bsonkit")._actions if isinstance(it, argparse._SubParsersAction))
    common = {"--help", "--program", "--version"}
    return {name: {it for action in command._actions for it in action.option_strings if it.startswith("--")} - common for name, command in commands.choices.items()}


class Packing(Room):
    """`pack` is that of the program."""

    def test_lines(self) -> None:
        lines = b'{"a":1.5}\n{"a":{"$numberDecimal":"1.50"}}\n'
        # By BSON 1.1: a double, and a decimal128 of 150 with the exponent -2.
        wanted = bytes.fromhex("10000000 0161 00 000000000000f83f 00") + bytes.fromhex("18000000 1361 00 96000000000000000000000000003c30 00")
        for word, sent in ((str(self.file(lines, "lines")), b""), ("-", lines)):
            run = subprocess.run([*COMMAND, "pack", word], env=environment(), input=sent, capture_output=True)
            self.assertEqual((run.returncode, run.stdout, run.stderr), (0, wanted, b"2 objects packed\n"))

    def test_bad_and_missing(self) -> None:
        bad = run_package("pack", str(self.file(b'{"a":1}\n{"a":{"$numberDouble":"abc"}}\n', "lines")))
        self.assertEqual((bad.returncode, bad.stderr), (1, 'bsonwide: line 2, byte 5: bad wrapper; write {"$numberDouble":".."}\n1 objects packed\n'))
        for words in (["--", "-no-such-file"], ["no-such-file"]):
            missing = run_package("pack", *words)
            self.assertEqual((missing.returncode, missing.stdout, missing.stderr), (1, "", f"bsonkit: cannot open {words[-1]}\n"))
        self.assertEqual(run_package("pack").returncode, 2)

    def test_names(self) -> None:
        """Those that are not UTF-8, or begin as an option does, too; a pipe is read."""
        for name in (os.fsdecode(b"\xff.jsonl"), "-lines", "sp ace", "dump.bson.gz"):
            self.file(b'{"a":1}\n', name)
            words = [name] if name[0] != "-" else ["--", name]
            run = run_package("pack", *words, cwd=self.room, text=False, input=b"", env={**environment(), "PYTHONPATH": str(ROOT / "python")})
            self.assertEqual((run.returncode, len(run.stdout), run.stderr), (0, 12, b"1 objects packed\n"), name)
        os.mkfifo(self.room / "pipe")
        with subprocess.Popen(["cp", self.room / "-lines", self.room / "pipe"]):
            run = run_package("pack", str(self.room / "pipe"), text=False, input=b"")
        self.assertEqual((run.returncode, len(run.stdout), run.stderr), (0, 12, b"1 objects packed\n"))


class Arguments(Room):
    def refused(self, *words: str) -> str:
        """What is said of arguments, with status 2."""
        run = run_package(*words)
        self.assertEqual((run.returncode, run.stdout), (2, ""), words)
        return run.stderr.splitlines()[-1]

    def test_numbers(self) -> None:
        """They are of the digits 0 to 9, as the program takes them, and in a range, which is named."""
        for word in ("1_0", "١", "-1", "1.0", " 1", "0x1", "", "2147483648", "9" * 5000):
            for option in ("--skip", "--limit", "--batch"):
                told = self.refused("find", str(PEOPLE), f"{option}={word}")
                self.assertIn(f"argument {option}: a number from 0 to 2147483647, not {word}", told)
        for command in ("audit", "query"):
            self.assertIn("argument --jobs: a number from 1 to 2147483647, not 0", self.refused(command, str(PEOPLE), "--jobs", "0"))
        for word in ("+5", "007"):
            self.assertEqual(len(run_package("find", str(PEOPLE), "--limit", word).stdout.splitlines()), int(word))

    def test_long_queries(self) -> None:
        """A query of more bytes than an argument of a program may have, which is read from where it is."""
        numbers = ",".join(str(number) for number in range(90, 40_000))
        query = f'{{"age":{{"$in":[{numbers}]}}}}'
        self.assertGreater(len(query), 1 << 17)
        code = f"import sys\nfrom bsonfind.__main__ import main\nsys.exit(main(['--program', {PROGRAM!r}, 'find', {str(PEOPLE)!r}, '--query', sys.stdin.read()]))"
        run = subprocess.run([sys.executable, "-c", code], env=environment(), input=query, capture_output=True, text=True)
        self.assertEqual((run.returncode, len(run.stdout.splitlines())), (0, 49), run.stderr)
        self.assertRegex(run.stderr, "^49 documents, end, token ")

    def test_options_are_not_shortened(self) -> None:
        for words in (("find", str(PEOPLE), "--lim", "1"), ("audit", str(PEOPLE), "--js"), ("--prog", PROGRAM, "check", str(PEOPLE))):
            self.assertRegex(self.refused(*words), "unrecognized arguments|invalid choice")

    def test_options_that_are_given_twice(self) -> None:
        """They are refused, as by the program, and for each form of a dump alike."""
        packed = str(self.file(gzip.compress(PEOPLE.read_bytes()), "dump.bson.gz"))
        for words, option in (
            (("find", "--limit", "1", "--limit=2"), "--limit"), (("find", "--query", "{}", "--query", '{"a":1}'), "--query"), (("find", "--count", "--count"), "--count"),
            (("find", "-q", "{}", "--query", "{}"), "-q"), (("dump", "-f", "a", "--fields=b"), "-f"),
            (("dump", "--jsonFormat", "relaxed", "--jsonFormat=canonical"), "--jsonFormat"), (("audit", "--quiet", "--quiet"), "--quiet"),
        ):  # fmt: skip
            for dump in (str(PEOPLE), packed):
                self.assertIn(f"argument {option}: it is given twice", self.refused(words[0], dump, *words[1:]))

    def test_standard_input_twice(self) -> None:
        for words in (("check", "-", "-"), ("dump", "-", str(PEOPLE), "-"), ("compare", "-", "-")):
            self.assertEqual(self.refused(*words), "bsonkit: standard input is named twice")

    def test_outputs_of_a_salvage(self) -> None:
        for words in ((), ("--good", "a"), ("--good", "a", "--bad", "b", "--out", "c"), ("--bad", "b", "--out", "c")):
            self.assertEqual(self.refused("salvage", str(PEOPLE), *words), "bsonkit: salvage takes --good and --bad for a dump, or --out for a directory or an archive")

    def test_names(self) -> None:
        """One name for the script; the module is the same thing."""
        kit = self.kit()
        run = subprocess.run([kit, "--version"], capture_output=True, text=True)
        self.assertEqual((run.returncode, run.stdout, run.stderr), (0, f"bsonkit {__version__}\n", ""))
        run = subprocess.run([kit, "--help"], capture_output=True, text=True)
        self.assertTrue(run.stdout.startswith("usage: bsonkit "))
        self.assertTrue(run_package("--help").stdout.startswith("usage: python3 -m bsonfind "))

    def test_pages(self) -> None:
        """The man page and the completions have each command and each option, and no other."""
        wanted = {name for names in options().values() for name in names}
        for page, pattern in (
            ("man/bsonkit.1", r"\.(?:It|Op) ?Fl -([\w-]+)|^\.Fl -([\w-]+)|Fl -json \| -(quiet)"),
            ("completions/bsonkit.bash", r"(?<=[ '])--([\w-]+)"),
            ("completions/_bsonkit", r"'(?:\(-[\w-]+\))?\*?--([\w-]+)\["),
            ("completions/bsonkit.fish", r"^complete .* -l ([\w-]+)"),
        ):
            text = (ROOT / page).read_text(encoding="utf-8")
            found = {f"--{''.join(it)}" for it in re.findall(pattern, text, re.MULTILINE)} - {"--help", "--version", "--program", "--gzip", "--"}
            self.assertEqual(found, wanted, page)
            for command in options():
                self.assertRegex(text, rf"\b{command}\b", page)

    def test_options_of_each_command(self) -> None:
        """The synopsis and the completions have those that the command takes."""
        wanted = {name: names for name, names in options().items() if names}
        texts = {it: (ROOT / it).read_text(encoding="utf-8") for it in ("man/bsonkit.1", "completions/bsonkit.bash", "completions/_bsonkit", "completions/bsonkit.fish")}
        synopsis = texts["man/bsonkit.1"].partition(".Sh DESCRIPTION")[0].split(".Nm\n")
        short = [(it.split()[1], [*re.findall(r"(?: |Fl |^)-([a-z][\w-]+)", it, re.MULTILINE), *["ignore-case"] * (".Op Fl i\n" in it)]) for it in synopsis if it.startswith(".Cm ")]
        bash = re.findall(r"^\t([a-z]+)\) options='([^']*)'", texts["completions/bsonkit.bash"], re.MULTILINE)
        layout = re.search(r"^layout=\((.*?)^\)", texts["completions/_bsonkit"], re.MULTILINE | re.DOTALL)
        zsh = re.findall(r"^([a-z]+)\)(.*?);;", texts["completions/_bsonkit"], re.MULTILINE | re.DOTALL)
        for page, pairs in (
            ("man/bsonkit.1", short),
            ("completions/bsonkit.bash", [(name, re.findall(r"--([\w-]+)", it)) for name, it in bash]),
            ("completions/_bsonkit", [(name, re.findall(r"--([\w-]+)\[", it.replace("$layout", layout[1] if layout else ""))) for name, it in zsh]),
            ("completions/bsonkit.fish",
             [(name, [it]) for names, it in re.findall(r"-n '__bsonkit_command ([\w ]+)' .*-l ([\w-]+)", texts["completions/bsonkit.fish"]) for name in names.split()]),
        ):  # fmt: skip
            found: Dict[str, Set[str]] = {}
            for name, names in pairs:
                found.setdefault(name, set()).update(f"--{it}" for it in names)
            self.assertEqual({name: names for name, names in found.items() if names}, wanted, page)

    def test_names_with_control_characters(self) -> None:
        """They forge no line, and a terminal obeys none of them."""
        path = self.file(PEOPLE.read_bytes() + DAMAGED, "a\n\x1b[2Kb\tc.bson")
        lines = run_package("audit", str(path)).stdout.splitlines()
        shown = f"{self.room}/a\\x0a\\x1b[2Kb\\x09c.bson"
        self.assertEqual([it for it in lines if it.startswith(shown)], [f"{shown}: {FAULT} 02", f"{shown}: 501 documents, 1 faulty"])
        path = self.file(PEOPLE.read_bytes(), "a\u009b2Kb.bson")
        self.assertTrue(run_package("audit", str(path)).stdout.startswith(f"{self.room}/a\\x9b2Kb.bson: "))
        good = self.file(PEOPLE.read_bytes(), "a\tb.bson")
        run = run_package("query", str(good), "--query", '{"_id":7}')
        self.assertEqual(run.stdout.split("\t"), [f"{self.room}/a\\x09b.bson", PEOPLE_LINES[7].decode() + "\n"])


class Becoming(Room):
    """`check` and `dump` of one plain file are the program itself."""

    def started(self, *words: str, **how: object) -> Tuple[int, bytes, bytes, List[str]]:
        """The status of a command over programs that say how they were started, its streams, and the lines that say so."""
        self.script('echo "$$ $PPID $*" >>"$ROOM/starts"\nexec "$WIDE" "$@"', "bsonwide")
        program = self.script('exec "$PROGRAM" "$@"')
        command = [sys.executable, "-m", "bsonfind", "--program", program, *words]
        with subprocess.Popen(command, env=environment(), stdout=subprocess.PIPE, stderr=subprocess.PIPE, **how) as run:  # type: ignore[call-overload]
            out, told = run.communicate(timeout=PATIENCE)
        lines = (self.room / "starts").read_text().splitlines() if (self.room / "starts").exists() else []
        (self.room / "starts").unlink(missing_ok=True)
        return run.returncode, out, told, [f"{'itself' if int(it.split()[0]) == run.pid else 'child'} {' '.join(it.split()[2:])}" for it in lines]

    def test_plain_files(self) -> None:
        """Also one whose name is not UTF-8, that begins as another one, or that is empty; and standard input that is a file."""
        bad = PEOPLE.read_bytes() + DAMAGED
        for name in ("dump.bson", os.fsdecode(b"\xff.bson"), "a::b.bson", "sp ace.bson"):
            path = self.file(bad, name)
            self.assertEqual(self.started("check", str(path)), (1, FAULT.encode() + b"\n", b"501 documents, 1 faulty\n", ["itself check -"]))
            told = f"bsonwide: {FAULT}\n500 objects found\n".encode()
            self.assertEqual(self.started("dump", str(path)), (1, b"\n".join([*PEOPLE_LINES, b""]), told, ["itself dump -"]))
        self.assertEqual(self.started("check", str(self.file(b"", "none.bson"))), (0, b"", b"0 documents, 0 faulty\n", ["itself check -"]))
        with open(path, "rb") as file:
            self.assertEqual(self.started("check", "-", stdin=file)[3], ["itself check -"])
        with open(path, "rb", buffering=0) as file:
            file.seek(len(bad) - len(DAMAGED))
            self.assertEqual(self.started("check", "-", stdin=file)[1], b'document 0, byte 7, path "d": bad boolean\n')

    def test_others(self) -> None:
        """What is packed, a pipe, an archive, several files, one above 4 GiB, and what cannot be read are left to the package."""
        path = self.file(PEOPLE.read_bytes())
        packed = self.file(gzip.compress(PEOPLE.read_bytes()), "dump.bson.gz")
        whole = self.file(archive([("club", "people", PEOPLE.read_bytes())]), "archive")
        good = b"500 documents, 0 faulty\n"
        for words in ((str(packed),), (f"{whole}::club.people",)):
            status, _, told, starts = self.started("check", *words)
            self.assertEqual((status, told, starts), (0, good, ["child check -"]))
        status, _, told, starts = self.started("check", str(path), str(path))
        self.assertEqual((status, starts), (0, ["child check -"] * 2))
        read, write = os.pipe()
        os.write(write, DOUBLE)
        os.close(write)
        status, _, told, starts = self.started("check", "-", stdin=read)
        os.close(read)
        self.assertEqual((status, told, starts), (0, b"1 documents, 0 faulty\n", ["child check -"]))
        status, _, told, starts = self.started("check", str(whole))
        self.assertEqual((status, starts), (1, []))
        self.assertIn(b"an archive: name one of its collections", told)
        status, _, told, starts = self.started("check", str(self.room / "missing"))
        self.assertEqual((status, told, starts), (1, f"bsonkit: cannot open {self.room}/missing\n".encode(), []))
        large = self.room / "large.bson"
        with open(large, "wb") as file:
            for size, is_plain in ((_LARGEST, True), (_LARGEST + 1, False)):
                file.truncate(size)
                with open(large, "rb") as opened:
                    self.assertEqual(_is_plain(opened.fileno()), is_plain)

    def test_a_file_that_is_named_hyphen(self) -> None:
        """It is never taken for standard input."""
        whole = self.file(archive([("club", "people", PEOPLE.read_bytes())]), "-")
        run = subprocess.run(
            [*COMMAND, "dump", "-"],
            env=environment(), cwd=self.room, input=DOUBLE, stdout=subprocess.PIPE, stderr=subprocess.PIPE,
        )  # fmt: skip
        self.assertEqual((run.returncode, run.stdout, run.stderr), (0, b'{"d":{"$numberDouble":"1.0"}}\n', b"1 objects found\n"))
        self.assertTrue(whole.exists())

    def test_signals(self) -> None:
        """They are as the shell gave them: what it ignores is ignored by the program, and nothing else is."""
        program = self.wide(f'[ "$1" = --version ] && exec echo bsonwide {__version__}\nexec grep SigIgn /proc/self/status')
        words = ["--program", program, "check", str(PEOPLE)]
        commands = [str(self.kit()), *words], [sys.executable, "-m", "bsonfind", *words]

        def ignored(command: List[str], number: Optional[int] = None) -> int:
            before = (lambda: None) if number is None else (lambda: signal.signal(number, signal.SIG_IGN) and None)
            told = subprocess.run(command, env=environment(), stdout=subprocess.PIPE, text=True, preexec_fn=before).stdout
            return int(told.split()[1], 16)

        for number in (None, signal.SIGINT, signal.SIGHUP, signal.SIGPIPE, signal.SIGXFSZ):
            wanted = ignored(["grep", "SigIgn", "/proc/self/status"], number)
            self.assertEqual(wanted >> (number or 1) - 1 & 1, number is not None)
            # Python forgets what the last two were, so of a Python in place of the script the parent is asked.
            for command in commands[: 1 if number in (signal.SIGPIPE, signal.SIGXFSZ) else 2]:
                self.assertEqual(ignored(command, number), wanted, (command, number))
        for trap in ("", "trap '' PIPE\n"):
            shell = ["sh", "-c", f'{trap}"$@"; exit', "sh"]
            for command in commands:
                self.assertEqual(ignored([*shell, *command]), ignored([*shell, "grep", "SigIgn", "/proc/self/status"]), (trap, command))

    def test_time(self) -> None:
        """Beside the start of Python `--help` takes less processor time than two more of them, and a plain file less than one."""

        def seconds(*words: str) -> float:
            times = []
            for _ in range(5):
                before = resource.getrusage(resource.RUSAGE_CHILDREN)
                subprocess.run([sys.executable, *words], env=environment(), stdout=subprocess.DEVNULL, stderr=subprocess.DEVNULL, check=True)
                after = resource.getrusage(resource.RUSAGE_CHILDREN)
                times.append(after.ru_utime + after.ru_stime - before.ru_utime - before.ru_stime)
            return min(times)

        start = seconds("-c", "pass")
        self.assertLess(seconds("-m", "bsonfind", "--help"), 3 * start)
        self.assertLess(seconds(*COMMAND[1:], "check", str(PEOPLE)), 2 * start)


class Programs(Room):
    def commands(self) -> List[Tuple[Tuple[str, ...], int]]:
        """The arguments of each command that starts `bsonwide`, and the status of one that fails."""
        plain, packed = str(PEOPLE), str(self.file(gzip.compress(PEOPLE.read_bytes()), "packed.bson.gz"))
        wide, bad = str(self.file(DOUBLE, "backup/wide.bson")), str(self.file(DAMAGED, "bad.bson"))
        ids = str(self.file(b"7\n", "ids"))
        return [
            (("check", plain), 1), (("check", packed), 1), (("dump", plain), 1), (("dump", packed, packed), 1), (("find", wide), 1),
            (("find", plain, "--bson"), 1), (("serve", plain), 1), (("serve", packed), 1), (("audit", bad, plain), 2),
            (("salvage", plain, "--good", f"{self.room}/g", "--bad", f"{self.room}/b"), 2),
            (("salvage", f"{self.room}/backup", "--out", f"{self.room}/out"), 2), (("compare", plain, plain), 2),
            (("query", plain, wide, "--query", '{"d":1.5}'), 2), (("info", wide), 2), (("grep", "ada", plain), 2), (("ids", wide, "--ids", ids), 2), (("ids", plain, "--ids", ids, "--bson"), 2),
            (("count", packed), 2), (("schema", packed), 2), (("show", plain, "7"), 2), (("salvage", str(ROOT / "examples/backup.archive"), "--out", f"{self.room}/out2"), 2),
            (("compare", str(ROOT / "examples/backup.archive"), str(ROOT / "examples/backup.archive")), 2), (("find", plain, "--outFile", f"{self.room}/new"), 1),
            (("pack", str(ROOT / "examples/people.jsonl"), "-o", f"{self.room}/new"), 1),
        ]  # fmt: skip

    def test_version(self) -> None:
        """One of another version is refused by each command that starts it, and so is what is no bsonwide."""
        for text, told in (
            ("echo bsonwide 9.9.9", "is of version 9.9.9, and the package of Python of version"),
            ("echo something else", "is not bsonwide: it printed 'something else"),
            ("exit 3", "ended with status 3"),
        ):
            program = self.wide(f'if [ "$1" = --version ]; then {text}; exit; fi\nexec "$WIDE" "$@"')
            for words, status in self.commands():
                run = run_package("--program", program, *words)
                self.assertEqual((run.returncode, run.stdout), (status, ""), words)
                self.assertIn(told, run.stderr)

    def test_version_is_asked_once(self) -> None:
        program = self.wide('echo "$1" >>"$ROOM/starts"\n[ "$1" = --version ] && exec "$WIDE" --version\nexec "$WIDE" "$@"')
        for words, _ in self.commands():
            run_package("--program", program, *words, stdout=subprocess.DEVNULL)
            starts = self.starts()
            self.assertEqual((starts.count("--version"), starts[0], len(starts) > 1), (1, "--version", True), words)
            (self.room / "starts").unlink()

    def test_development_mode(self) -> None:
        """There Python warns of nothing, such as of a file that is left open."""
        unpack = "unpack", str(ROOT / "examples/backup.archive"), str(self.room / "unpacked")
        for words in (unpack, *(it for it, _ in self.commands())):
            run = run_package(*words, env={**environment(), "PYTHONDEVMODE": "1"}, stdout=subprocess.DEVNULL)
            self.assertNotIn("Warning", run.stderr, words)

    def test_beside_the_package(self) -> None:
        """The program that was installed with the package comes before those on PATH."""
        packages = self.room / "lib/python3/dist-packages"
        packages.mkdir(parents=True)
        (packages / "bsonfind").symlink_to(ROOT / "python/bsonfind")
        for name, real in (("bsonfind", PROGRAM), ("bsonwide", WIDE)):
            self.script(f'echo {name} >>"$ROOM/starts"\nexec "{real}" "$@"', f"bin/{name}")
            self.script("exit 7", f"other/{name}")
        env = {**os.environ, "PYTHONPATH": str(packages), "PATH": f"{self.room}/other:{os.environ['PATH']}"}
        for words, wanted in ((("check", str(PEOPLE)), "bsonwide"), (("find", str(SHOP), "--limit", "1"), "bsonwide"), (("audit", str(PEOPLE)), "bsonwide")):
            run = subprocess.run([sys.executable, "-m", "bsonfind", *words], env=env, cwd=self.room, capture_output=True, text=True)
            self.assertEqual(run.returncode, 0, run.stderr)
            self.assertEqual({*(self.room / "starts").read_text().split()}, {wanted})
            (self.room / "starts").unlink()


    def tree(self, folder: str, packages: str = "python", command: str = "bsonkit") -> Path:
        """A folder with the package and the script bsonkit, as in the repository, or as they are installed."""
        place = self.room / folder / packages / "bsonfind"
        shutil.copytree(PACKAGE / "bsonfind", place, ignore=shutil.ignore_patterns("__pycache__"))
        kit = self.room / folder / command
        way = os.path.relpath(place.parent, kit.parent)
        kit.parent.mkdir(exist_ok=True)
        kit.write_bytes((ROOT / "packaging/bsonkit").read_bytes().replace(b"@PACKAGES@", way.encode()))
        kit.chmod(0o755)
        return kit

    def outside(self, *folders: object) -> Dict[str, str]:
        """An environment with these folders on PATH, then one with Python alone; the package is found by the script alone."""
        alone = self.room / "python3-alone"
        alone.mkdir(exist_ok=True)
        if not (alone / "python3").exists():
            (alone / "python3").symlink_to(sys.executable)
        return {"PATH": ":".join(map(str, [*folders, alone]))}

    def test_bsonwide_alone(self) -> None:
        """It is beside the command, beside what that links to, beside the package, or on PATH; no bsonfind is there."""
        kit = self.tree("tree")
        installed = self.tree("prefix", "lib/python3/dist-packages", "bin/bsonkit")
        venv = self.tree("venv", "lib/python3.11/site-packages", "bin/bsonkit")
        for folder in ("tree", "prefix/bin", "path"):
            self.script(f'echo {folder} "$1" >>"$ROOM/starts"\nexec "$WIDE" "$@"', f"{folder}/bsonwide")
        (self.room / "links").mkdir()
        (self.room / "links/bsonkit").symlink_to("again")
        (self.room / "links/again").symlink_to("../tree/bsonkit")
        path, links = self.room / "path", self.room / "links"
        for command, env, wanted in (
            ([kit], self.outside(), "tree"), ([kit], self.outside(path), "tree"), ([links / "bsonkit"], self.outside(path), "tree"),
            (["bsonkit"], self.outside(links), "tree"), ([installed], self.outside(path), "prefix/bin"), ([venv], self.outside(path), "path"),
            ([sys.executable, "-m", "bsonfind"], {**self.outside(path), "PYTHONPATH": str(self.room / "tree/python")}, "tree"),
            ([venv, "--program", "bsonfind"], self.outside(path), "path"), ([venv, "--program", self.room / "tree/bsonwide"], self.outside(path), "tree"),
        ):  # fmt: skip
            for words in (["check", PEOPLE], ["audit", PEOPLE], ["count", "--query", '{"age":{"$gte":90}}', PEOPLE]):
                run = subprocess.run([*map(str, [*command, *words])], env=env, cwd=self.room, capture_output=True, text=True)
                self.assertEqual((run.returncode, {*(it.split()[0] for it in self.starts())}), (0, {wanted}), (command, words, run.stderr))
                (self.room / "starts").unlink()
        for words, _ in self.commands():
            done = subprocess.run([str(kit), *words], env=self.outside(), capture_output=True, input=b"")
            self.assertIn(done.returncode, (0, 1), (words, done.stderr))
            self.assertNotIn(b"cannot", done.stderr, words)
        code = f"import bsonfind\nprint(bsonfind.count_documents({str(PEOPLE)!r}), bsonfind.Session({str(PEOPLE)!r}).distinct('_id', {{'_id': 7}}))"
        for env in ({**self.outside(), "PYTHONPATH": str(self.room / "tree/python")}, {**self.outside(path), "PYTHONPATH": str(venv.parent.parent / "lib/python3.11/site-packages")}):
            run = subprocess.run([sys.executable, "-c", code], env=env, cwd=self.room, capture_output=True, text=True)
            self.assertEqual((run.returncode, run.stdout), (0, "500 [7]\n"), run.stderr)

    def test_program_that_is_named(self) -> None:
        """`bsonfind` names the one beside it, and is not started; one that is not there, or no name, is refused by name."""
        kit = self.tree("tree")
        self.script("exit 7", "other/bsonfind")
        self.script('echo "$1" >>"$ROOM/starts"\nexec "$WIDE" "$@"', "other/bsonwide")
        env = self.outside()
        for program in (self.room / "other/bsonfind", "other/bsonfind", "./other/bsonfind"):
            run = subprocess.run([str(kit), "--program", program, "audit", str(PEOPLE)], env=env, cwd=self.room, capture_output=True, text=True)
            self.assertEqual((run.returncode, "check" in self.starts()), (0, True), run.stderr)
            (self.room / "starts").unlink()
        run = subprocess.run([str(kit), "--program", "bsonfind", "check", str(PEOPLE)], env=self.outside(self.room / "other"), capture_output=True, text=True)
        self.assertEqual((run.returncode, self.starts()), (0, ["check"]))
        for program, status, told in (
            ("none/bsonfind", 2, "cannot start none/bsonfind: No such file or directory"), ("some-name", 2, "cannot start some-name: No such file or directory"),
            ("", 2, "program is the name of a program, not an empty one"),
        ):  # fmt: skip
            run = subprocess.run([str(kit), "--program", program, "audit", str(PEOPLE)], env=env, cwd=self.room, capture_output=True, text=True)
            self.assertEqual((run.returncode, run.stdout, run.stderr), (status, "", f"bsonkit: {told}\n"))

    def test_no_program(self) -> None:
        """What was looked for is named, and where."""
        kit = self.tree("tree")
        self.script("exit 7", "small/bsonfind")
        (self.room / "links").mkdir()
        (self.room / "links/bsonkit").symlink_to("../tree/bsonkit")
        tree, env = self.room / "tree", self.outside()
        for command, folders in (
            ([kit], [tree]), ([self.room / "links/bsonkit"], [self.room / "links", tree]),
            ([kit, "--program", self.room / "small/bsonfind"], [self.room / "small", tree]),
        ):  # fmt: skip
            told = f"bsonkit: cannot find bsonwide: looked in {''.join(f'{it}, ' for it in folders)}and on PATH, {env['PATH']}\n"
            for words, status in (("check", 1), ("audit", 2), ("find", 1)):
                run = subprocess.run([*map(str, command), words, str(PEOPLE)], env=env, capture_output=True, text=True)
                self.assertEqual((run.returncode, run.stdout, run.stderr), (status, "", told))
        code = f"import bsonfind\ntry: bsonfind.count_documents({str(PEOPLE)!r})\nexcept bsonfind.ProgramError as error: print(error)"
        env["PYTHONPATH"] = str(tree / "python")
        run = subprocess.run([sys.executable, "-c", code], env=env, cwd=self.room, capture_output=True, text=True)
        self.assertEqual(run.stdout, f"cannot find bsonwide: looked in {tree}, and on PATH, {env['PATH']}\n", run.stderr)

    def test_version_that_does_not_come(self) -> None:
        """It is waited for a few seconds, and once, also by what becomes the program; no program is left."""
        program = self.wide('if [ "$1" = --version ]; then echo $$ >>"$ROOM/pids"; printf "bsonwide "; exec sleep 600; fi\nexec "$WIDE" "$@"')
        begun, how = time.monotonic(), {"env": environment(), "stdout": subprocess.PIPE, "stderr": subprocess.PIPE, "text": True}
        code = f"import bsonfind\nbsonfind.count_documents({str(PEOPLE)!r}, program={program!r})"
        runs = [
            subprocess.Popen(it, **how)
            for it in ([*COMMAND[:-1], program, "check", str(PEOPLE)], [*COMMAND[:-1], program, "audit", str(PEOPLE)], [sys.executable, "-c", code])
        ]
        told = f"{self.room}/bsonwide did not print its version within 5 seconds\n"
        for run in runs:
            out, said = run.communicate(timeout=PATIENCE)
            self.assertEqual((out, said[-len(told) :]), ("", told))
            self.assertNotEqual(run.returncode, 0)
        self.assertLess(time.monotonic() - begun, PATIENCE / 2)
        pids = (self.room / "pids").read_text().split()
        self.assertEqual((len(pids), [it for it in pids if os.path.exists(f"/proc/{it}")]), (3, []))

    def test_program_that_is_a_link(self) -> None:
        """The programs are those beside what it leads to, and not others on PATH."""
        self.script('echo "$1" >>"$ROOM/starts"\nexec "$WIDE" "$@"', "real/bsonwide")
        self.script('exec "$PROGRAM" "$@"', "real/bsonfind")
        self.script("exit 7", "other/bsonwide")
        link = self.room / "other/link"
        link.symlink_to("../real/bsonfind")
        (self.room / "bin").mkdir()
        (self.room / "bin/bsonfind").symlink_to(link)
        packed = str(self.file(gzip.compress(PEOPLE.read_bytes()), "packed.bson.gz"))
        env = {**environment(), "PATH": f"{self.room}/other:{os.environ['PATH']}"}
        for words in (["check", str(PEOPLE)], ["check", packed], ["find", packed, "--count"], ["audit", packed]):
            command = [sys.executable, "-m", "bsonfind", "--program", str(self.room / "bin/bsonfind"), *words]
            run = subprocess.run(command, env=env, capture_output=True, text=True)
            self.assertEqual(run.returncode, 0, run.stderr)
            self.assertEqual(self.starts(), [words[0].replace("audit", "check")])
            (self.room / "starts").unlink()


class Modules(Room):
    def test_modules_of_the_folder_at_hand(self) -> None:
        """None is run there, also by the processes of Python that work on documents: each command says what it says elsewhere."""
        for name in ("pickle", "json", "re", "struct", "threading", "bsonfind", "sitecustomize", "usercustomize"):
            self.file(f"open({str(self.room / 'ran')!r}, 'a').write('{name} ')\nraise SystemExit(3)\n".encode(), f"here/{name}.py")
        data = PEOPLE.read_bytes() * 60
        self.assertGreater(len(data), 5 << 20)
        dump, kit, env = str(self.file(data)), str(self.kit()), {it: value for it, value in os.environ.items() if it != "PYTHONPATH"}
        for words in (("grep", "Nairobi", dump), ("count", "--by", "age", dump), ("schema", dump), ("audit", dump), ("query", dump)):
            there, here = (
                subprocess.run([kit, "--program", WIDE, *words], cwd=it, env=env, capture_output=True) for it in (self.room, self.room / "here")
            )
            self.assertEqual((here.returncode, here.stdout, here.stderr), (0, there.stdout, there.stderr), words)
        self.assertFalse((self.room / "ran").exists())


class Streams(Room):
    def test_standard_error_that_takes_nothing(self) -> None:
        """The status is not that of a fault."""
        path = self.file(gzip.compress(PEOPLE.read_bytes()), "dump.bson.gz")
        with open("/dev/full", "wb") as full:
            for words, status in ((("audit", str(path)), 0), (("compare", str(path), str(path)), 2), (("audit", "missing"), 2), (("query", str(path)), 2)):
                command = [*COMMAND, *words]
                run = subprocess.run(command, env=environment(), stdout=subprocess.DEVNULL, stderr=full)
                self.assertEqual(run.returncode, status, words)

    def test_outputs_that_are_standard_output(self) -> None:
        """They would be replaced, and what is printed there lost."""
        path, out = self.file(PEOPLE.read_bytes()), self.room / "out"
        for name in ("/dev/stdout", str(out)):
            with open(out, "wb") as file:
                run = subprocess.run(
                    [*COMMAND, "salvage", str(path), "--good", name, "--bad", f"{self.room}/bad"],
                    env=environment(), stdout=file, stderr=subprocess.PIPE, text=True,
                )  # fmt: skip
            self.assertEqual((run.returncode, run.stderr), (2, f"bsonkit: {name}: it is standard output\n"))
            self.assertEqual(sorted(it.name for it in self.room.iterdir()), ["dump.bson", "out"])

    def test_hangup(self) -> None:
        """SIGHUP leaves no file, and ends the runs; where it is ignored, as by nohup, it does nothing."""
        program, pids = self.stuck(), self.room / "pids"
        for command, name in (("salvage", "--good"), ("ids", "--missing")):
            words = ["--good", str(self.room / "good"), "--bad", str(self.room / "bad")]
            if command == "ids":
                words = ["--ids", str(self.file(b"7\n", "ids")), "--missing", str(self.room / "missing")]
            pids.write_text("")
            (self.room / "first").rmdir() if (self.room / "first").exists() else None
            before = {it.name for it in self.room.iterdir()} | {"first"}
            run = subprocess.Popen([sys.executable, "-m", "bsonfind", "--program", program, command, str(PEOPLE), *words], env=environment(), stdout=subprocess.DEVNULL)
            wait_for(lambda: bool(pids.read_text()))
            run.send_signal(signal.SIGHUP)
            self.assertEqual(run.wait(PATIENCE), 129)
            self.assertEqual({it.name for it in self.room.iterdir()}, before, name)
