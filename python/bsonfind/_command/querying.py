"""The command `query`: the documents of many dumps that match."""

from __future__ import annotations

import argparse
import os
from contextlib import closing

from .._ask.requests import Request
from .._backup.backups import dumps_of
from .._backup.query import query_dumps
from .._errors import is_finding, why
from .._run.processes import processors
from .arguments import FAILED, FAULTY, GOOD
from .console import Console, visible


def print_query(words: argparse.Namespace, request: Request) -> int:
    """Prints the documents of all dumps that match, as many as the request says in all, each after the name of its dump."""
    console, dumps = Console(), dumps_of(words.files)
    documents, failed, status, found = 0, 0, GOOD, set[str]()
    answers = query_dumps(dumps, request, words.jobs or processors(), words.program)
    with closing(answers):
        for name, lines, error in answers:
            if request.limit:
                lines = lines[: request.limit - documents]
            if lines:
                front = os.fsencode(visible(name)) + b"\t"
                console.documents([front + line + b"\n" for line in lines])
                documents += len(lines)
                found.add(name)
            if error:
                console.problem(f"{name}: {why(error)}")
                failed += 1
                status = max(status, FAULTY if is_finding(error) else FAILED)
            if request.limit and documents == request.limit:
                break
    more = f", {failed} not asked in full" if failed else ""
    end = "; no more were looked for, as --limit says" if request.limit and documents == request.limit else ""
    console.note(f"{documents} documents in {len(found)} of {len(dumps)} files{more}{end}")
    return status
