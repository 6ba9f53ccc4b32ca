"""The commands, as their arguments say: each gives its status, and what it prints goes to a console."""

from __future__ import annotations

import argparse
import os
import stat
from collections.abc import Callable, Sequence
from contextlib import suppress

from .._errors import DumpError
from .arguments import FAILED, FAULTY, GOOD, Refused, options_of
from .console import Console, Progress, table

# The commands with the statuses of the program, in which 1 is all that failed.
AS_THE_PROGRAM = ("check", "dump", "pack", "find", "serve")
# What to do in place of a command that takes no directory.
_INSTEAD = {
    "check": "audit checks all dumps below one",
    "dump": "query prints the documents of all dumps below one",
    "pack": "name a text in it",
    "find": "query asks all dumps below one",
    "serve": "name a dump in it",
    "salvage": "--out salvages all dumps below one",
    "unpack": "name an archive in it",
    "ids": "grep finds an id in all dumps below one",
    "show": "name a dump in it",
}


def run(words: argparse.Namespace) -> int:
    name = getattr(words, "file", getattr(words, "archive", None))
    if name is not None and getattr(words, "out", None) is None:
        _refuse_directory(words.command, name)
    command: Callable[[argparse.Namespace], int] = globals()[f"_run_{words.command}"]
    if getattr(words, "outFile", None) is None:
        return command(words)
    from .files import run_into

    return run_into(words.outFile, getattr(words, "files", [name]), lambda: command(words))


def _query_of(words: argparse.Namespace) -> str | None:
    """The query of a command, by an option or in a file; None without one."""
    if words.queryFile is None:
        query: str | None = words.query
        return query
    from .files import query_in

    _refuse_twice([*getattr(words, "files", [getattr(words, "file", "")]), words.queryFile])
    return query_in(words.queryFile)


def _refuse_directory(command: str, name: str, front: str = "") -> None:
    if name != "-" and os.path.isdir(name):
        what = "" if front else f"cannot read {name}: "
        raise DumpError(f"{what}it is a directory: {_INSTEAD[command]}")


def _run_check(words: argparse.Namespace) -> int:
    from .dumping import check_file

    _refuse_twice(words.files)
    return _run_each(words, Console(), lambda name, console, front: check_file(name, words.program, console, front))


def _run_dump(words: argparse.Namespace) -> int:
    from .dumping import Dumping

    options, console = options_of(words), Console()
    _refuse_twice(words.files)
    dumping = Dumping(words.program, options)
    status = _run_each(words, console, dumping.print_file)
    if status == GOOD:
        dumping.end(console)
    return status


def _run_pack(words: argparse.Namespace) -> int:
    """Becomes the program, whose standard input is the text; only an error comes back. What goes to a file is written by a child."""
    from .._run.processes import wide_program
    from .program import PACK, execute, take_text

    wide = wide_program(words.program)
    if not take_text(words.file):
        raise DumpError(f"cannot open {words.file}")
    if words.outFile is None:
        execute(wide, [PACK, "-"])
        return FAULTY
    from .dumping import pack_input

    return GOOD if pack_input(wide) else FAULTY


def _run_each(words: argparse.Namespace, console: Console, run_one: Callable[[str, Console, str], bool]) -> int:
    """Runs a command over one dump after the other. Of several each line that it says begins with the name."""
    status = GOOD
    for name in words.files:
        front = f"{name}: " if len(words.files) > 1 else ""
        try:
            _refuse_directory(words.command, name, front)
            status = max(status, GOOD if run_one(name, console, front) else FAULTY)
        except DumpError as error:
            if not front:
                raise
            console.problem(f"{front}{error}")
            status = FAULTY
    return status


def _refuse_twice(names: Sequence[str]) -> None:
    """Refuses standard input, and a pipe by any of its names, that is named twice: the second time there is nothing left of it."""
    from .._dumps.files import STDIN, file_of

    found: set[object] = set()
    for name in names:
        with suppress(OSError):  # Whoever reads it says what is wrong with it.
            file = file_of(name)
            status = os.fstat(0) if file == STDIN else os.stat(file)
            pipe = stat.S_ISFIFO(status.st_mode) and (status.st_dev, status.st_ino)
            if not (pipe or file == STDIN):
                continue
            if pipe in found:
                raise Refused(f"{'standard input' if file == STDIN else name} is named twice")
            found.add(pipe)


def _run_find(words: argparse.Namespace) -> int:
    from .finding import Finding

    options = options_of(words)
    return GOOD if Finding(words, _query_of(words), options).print(Console()) else FAULTY


def _run_serve(words: argparse.Namespace) -> int:
    """Becomes the program, over a file without a name if the dump can be read only once; only an error comes back."""
    from .._dumps.originals import Original
    from .._dumps.sources import Source
    from .._run.processes import wide_program
    from .program import BY_VALUE, SERVE, execute

    if words.file == "-":
        raise Refused("serve reads commands from standard input: the dump is a file")
    wide = wide_program(words.program)
    with Source(words.file, is_named=True) as source:
        file = source.dump().file or Original.of_pieces(source.pieces()).dump.file
        source.check()
        assert file
        os.set_inheritable(file.fileno(), True)
        execute(wide, [SERVE, f"/dev/fd/{file.fileno()}", *([BY_VALUE] if words.byValue else [])])
    return FAULTY


def _run_audit(words: argparse.Namespace) -> int:
    from .._backup.audit import audit_dumps
    from .._backup.backups import dumps_of
    from .._backup.reports import Report

    console = Console()

    def show(report: Report) -> None:
        for line in report.lines():
            console.line(f"{report.name}: {line}")

    def show_good(report: Report) -> None:
        """Prints a good file as soon as it was checked. The others come last, where they are found."""
        if report.is_good and not (words.json or words.quiet):
            show(report)

    def watch(files: int, size: int) -> Progress:
        return Progress(None if words.json else console, files, size)

    dumps = dumps_of(_names_in(words))
    done = audit_dumps(dumps, words.expect, words.jobs, words.max_faults, words.program, show_good, watch, with_ids=words.ids)
    if words.json:
        console.line(done.as_json())
    elif not (words.quiet and done.is_good):
        for report in done.reports:
            if not report.is_good:
                show(report)
        for line in [*done.lines(), *table(done.rows())]:
            console.line(line)
        if not (words.ids or words.quiet):
            console.line("ids were not compared: --ids reports those that several documents have")
    return FAILED if done.unseen else GOOD if done.is_good else FAULTY


def _names_in(words: argparse.Namespace) -> list[str]:
    """The names that are given, and those of a list."""
    from .._backup.logs import text_lines

    names, texts = list(words.files), [words.list, getattr(words, "expect", None)]
    for number, name in enumerate(text_lines(words.list) if words.list else (), 1):
        if "\0" in name:
            raise Refused(f"{words.list}: line {number} has a zero byte; each line is a name")
        if name:
            names.append(name)
    if not names:
        raise Refused("no dump is named")
    if texts.count("-") + ("-" in names and "-" in texts) > 1:
        raise Refused("standard input is named twice")
    return names


def _run_salvage(words: argparse.Namespace) -> int:
    from .._backup.salvage import salvage
    from .._backup.salvage_backup import salvage_backup

    console, name = Console(), words.file
    if (words.out is None) == (words.good is None and words.bad is None) or (words.good is None) != (words.bad is None):
        raise Refused("salvage takes --good and --bad for a dump, or --out for a directory or an archive")
    say = console.line if words.out is not None else console.report_beside(words.good, words.bad)
    with Progress(console) as progress:
        if words.out is not None:
            done = salvage_backup(name, words.out, words.program, console.line, progress.over)
            for problem in done.problems:
                console.problem(problem)
            return FAILED if done.problems else GOOD if done.is_good else FAULTY
        one = salvage(
            name,
            words.good,
            words.bad,
            program=words.program,
            say=lambda text: say(f"{name}: {text}"),
            progress=progress.over,
        )
    return GOOD if one.is_good else FAULTY


def _run_unpack(words: argparse.Namespace) -> int:
    from .._backup.unpack import unpack

    console = Console()
    if words.no_crc:
        console.problem("no CRC-64 is compared, as --no-crc says")
    how = {"only": words.only, "with_crc": not words.no_crc, "say": console.line}
    with Progress(console) as progress:
        done = unpack(words.archive, words.directory, progress=progress.over, **how)
    if done.error:
        console.problem(f"{words.archive}: {done.error}")
    rows = [("collections", len(done.collections)), ("documents", sum(it.documents for it in done.collections))]
    broken = sum(bool(it.error) for it in done.collections)
    for line in table([*rows, *([("not whole", broken)] if broken else [])]):
        console.line(line)
    return GOOD if done.is_good else FAULTY


def _run_compare(words: argparse.Namespace) -> int:
    from .comparing import print_comparison

    _refuse_twice([words.first, words.second])
    return print_comparison(words)


def _run_query(words: argparse.Namespace) -> int:
    from .._ask.requests import Request
    from .querying import print_query

    words.files = _names_in(words)
    _refuse_twice(words.files)
    query = _query_of(words)
    return print_query(words, Request("{}" if query is None else query, limit=words.limit))


def _run_count(words: argparse.Namespace) -> int:
    from .._dumps.paths import Path
    from .counting import Counting

    _refuse_twice(words.files)
    by, add = (None if it is None else Path(it) for it in (words.by, words.sum))
    return Counting(words.files, words.program, words.json).count(by, add, _query_of(words))


def _run_schema(words: argparse.Namespace) -> int:
    from .counting import Counting

    _refuse_twice(words.files)
    return Counting(words.files, words.program, words.json).schema(words.sample)


def _run_info(words: argparse.Namespace) -> int:
    from .contents import print_info

    return print_info(words, _names_in(words))


def _run_grep(words: argparse.Namespace) -> int:
    from .contents import print_grep

    if words.regex is None and not words.files:
        raise Refused("grep takes a text, or --regex, and then the names of dumps")
    text = words.files.pop(0) if words.regex is None else words.regex
    names = _names_in(words)
    _refuse_twice(names)
    return print_grep(words, text, names)


def _run_show(words: argparse.Namespace) -> int:
    from .showing import print_document

    return print_document(words)


def _run_ids(words: argparse.Namespace) -> int:
    from contextlib import ExitStack

    from .._backup.logs import text_lines
    from .._backup.ids import find_ids, ids_of
    from .._dumps.outputs import Output, goes_to, refuse_names

    console = Console()
    _refuse_twice([words.file, words.ids])
    ids = ids_of(text_lines(words.ids), words.ids, words.program)
    with ExitStack() as files:
        output = None
        if words.missing is not None:
            if goes_to(words.missing, 1):
                raise Refused(f"{words.missing}: it is standard output, which has the documents")
            listed = "/dev/stdin" if words.ids == "-" else words.ids
            refuse_names(words.file, words.missing, listed)
            rights = os.stat(listed).st_mode
            # It is opened first: if it cannot be written no document is printed.
            output = files.enter_context(Output(words.missing, stat.S_IMODE(rights) if stat.S_ISREG(rights) else None))
        missing = find_ids(words.file, ids, words.program, console.documents, is_bson=words.bson)
        if output:
            output.write("".join(f"{line}\n" for line in missing).encode(errors="surrogateescape"))
            output.complete()
            output.put_in_place()
        else:
            for line in missing:
                console.note(f"missing: {line}")
    console.note(f"{len(ids) - len(missing)} of {len(ids)} ids found")
    return FAULTY if missing else GOOD
