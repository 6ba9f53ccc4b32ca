"""The commands `info` and `grep`: what a backup contains, and where in it something is."""

from __future__ import annotations

import argparse
import json
import os
import re
from contextlib import closing

from .._backup.backups import dumps_of
from .._backup.grep import Hits, Problem, grep_dumps, wanted_of
from .._backup.info import COLUMNS, info_of
from .._backup.search import Wanted, compiled
from .._backup.texts import line_of_json, visible_json
from .._run.processes import processors
from .arguments import FAILED, FAULTY, GOOD, Refused
from .console import PATIENCE, Console, Progress, Table


def print_info(words: argparse.Namespace, names: list[str]) -> int:
    """Prints the collections of a backup, and what is wrong with them."""
    console = Console()
    entries, done = info_of(names, words.jobs, words.program, lambda files, size: Progress(console, files, size, PATIENCE))
    if words.json:
        for entry in entries:
            console.line(entry.as_json())
    else:
        Table(console, COLUMNS).print(entry.cells() for entry in entries)
    for report in done.reports:
        for line in report.lines() if not report.is_good else ():
            console.problem(f"{report.name}: {line}")
    return FAILED if done.unseen else GOOD if done.is_good else FAULTY


def print_grep(words: argparse.Namespace, text: str, names: list[str]) -> int:
    """Prints where a text is, or how often, and what was not searched."""
    console = Console()
    wanted = _wanted(words, text)
    dumps = dumps_of(names)
    items = grep_dumps(dumps, wanted, words.jobs or processors(), words.program, lambda files, size: Progress(console, files, size, PATIENCE))
    table = Table(console, ("file", "documents", "fields") if words.count else ("file", "_id", "path", "value"))
    # Of each dump how many documents and fields have it, if they are counted.
    counts: dict[str, tuple[int, int]] = {}
    documents, status = 0, GOOD
    found: set[str] = set()
    failed: set[str] = set()
    with closing(items):
        for item in items:
            if isinstance(item, Problem):
                console.problem(f"{item.name}: {item.text}")
                failed.add(item.file)
                status = max(status, FAULTY if item.is_fault else FAILED)
            elif item.documents:
                documents += item.documents
                found.add(item.file)
                if words.count:
                    before = counts.get(item.name, (0, 0))
                    counts[item.name] = before[0] + item.documents, before[1] + item.fields
                elif words.json:
                    console.documents(_lines(item))
                else:
                    table.print([(item.name, visible_json(it.id or ""), it.path, visible_json(it.value or "")) for it in item.rows])
    table.print((name, str(documents), str(fields)) for name, (documents, fields) in counts.items())
    console.note(f"{documents} documents in {len(found)} of {len(dumps)} files" + (f", {len(failed)} not searched in full" if failed else ""))
    return status


def _wanted(words: argparse.Namespace, text: str) -> Wanted:
    """What is looked for; a text that is in every field, and a pattern that is none, are refused."""
    try:
        text = os.fsencode(text).decode()
    except UnicodeDecodeError as error:
        raise Refused(f"the text is not UTF-8 at byte {error.start}") from None
    if not text:
        raise Refused("an empty text is in each field")
    if words.regex is None:
        return wanted_of(text, words.ignore_case, not words.count)
    try:
        compiled(text, words.ignore_case)
    except (re.error, OverflowError, RecursionError) as error:
        raise Refused(f"--regex: {error}") from None
    return Wanted(text, True, words.ignore_case, seconds=words.timeout, with_values=not words.count)


def _lines(hits: Hits) -> list[bytes]:
    name = line_of_json(hits.name)
    lines = (f'{{"file":{name},"id":{it.id or "null"},"path":{json.dumps(it.path)},"value":{it.value or "null"}}}\n' for it in hits.rows)
    return [line.encode() for line in lines]
