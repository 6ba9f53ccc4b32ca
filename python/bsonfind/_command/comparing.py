"""The command `compare`: what differs in two dumps, or in all dumps of two backups."""

from __future__ import annotations

import argparse
import os

from .._backup.archives import compare_archives, is_of_archives
from .._backup.compare import NOTHING, CompareError, compare, pairs_of, rows
from .._run.processes import wide_program
from .arguments import FAILED, FAULTY, GOOD
from .console import Console, table


def print_comparison(words: argparse.Namespace) -> int:
    """Prints what differs in two dumps, or in all dumps of two backups, and the counts."""
    console, total, count = Console(), NOTHING, 0
    wide_program(words.program)
    if is_of_archives(words.first, words.second):
        total, count, problems = compare_archives(words.first, words.second, words.by, words.program, console.line)
    else:
        pairs, problems = pairs_of(words.first, words.second)
        for pair in pairs:
            front = f"{pair.name}: " if os.path.isdir(words.first) else ""
            try:
                total += compare(pair, words.by, words.program, lambda text: console.line(f"{front}{text}"))
                count += 1
            except CompareError as error:
                problems.append(error)
    # Zeros of dumps that were not compared would say that they are the same.
    if count or not problems:
        for line in table(rows(total, (words.first, words.second), words.by)):
            console.note(line)
    for problem in problems:
        console.problem(str(problem))
    return FAILED if problems else GOOD if total.is_same else FAULTY
