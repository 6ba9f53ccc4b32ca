"""The documents of a file of ids, by the bytes of their `_id`.

Ids are the same if their bytes are. Numbers are the same if their values are, whatever their types: a query takes them so.
"""

from __future__ import annotations

import json
import re
from typing import Callable

from .._dumps.archive import is_utf8
from .._dumps.elements import value_at
from .._dumps.framing import documents_taken
from .._dumps.paths import key_of
from .._dumps.runs import each_document, lines_of_documents, pack_lines
from .._dumps.sources import Source
from .._errors import BsonfindError, DumpError, ProgramError
from .._run.processes import Group, wide_program

# How many documents, or bytes of documents, are printed at once.
_MOST_DOCUMENTS, _MOST_BYTES = 1000, 1 << 22
_OID = re.compile(r"[0-9a-fA-F]{24}")
_UUID = re.compile(r"[0-9a-fA-F]{8}-(?:[0-9a-fA-F]{4}-){3}[0-9a-fA-F]{12}")
_REFUSED = re.compile(r"line (\d+)(?:, byte \d+)?: (.+)")


class IdError(BsonfindError):
    """A line that is no id."""


def ids_of(lines: list[str], name: str, program: str) -> dict[object, str]:
    """The lines of a file of ids, each once, by what ids are compared by.

    A line is 24 hexadecimal digits, a UUID, which is binary data of subtype 04, or an id as `dump` prints it.
    """
    texts: list[tuple[int, str, str]] = []
    for number, line in enumerate(lines, 1):
        text = line.strip()
        if not text.isascii() and not is_utf8(text):
            raise IdError(f"{name}: line {number}: not UTF-8")
        if text:
            name_of_kind = "$oid" if _OID.fullmatch(text) else "$uuid" if _UUID.fullmatch(text) else None
            text = f'{{"{name_of_kind}":"{text}"}}' if name_of_kind else text
            try:
                json.loads(text, parse_int=str)
            except (ValueError, RecursionError):
                raise IdError(f"{name}: line {number}: neither JSON, 24 hexadecimal digits nor a UUID") from None
            texts.append((number, line, text))
    ids: dict[object, str] = {}
    for (_, line, _), key in zip(texts, _packed(texts, name, program)):
        ids.setdefault(key, line)
    return ids


def _packed(texts: list[tuple[int, str, str]], name: str, program: str) -> list[object]:
    """What ids are compared by, which `pack` makes of their texts."""
    keys: list[object] = []
    try:
        data = pack_lines((f'{{"":{text}}}\n'.encode() for _, _, text in texts), wide_program(program))
    except ProgramError as error:
        refused = _REFUSED.fullmatch(str(error))
        if not refused:
            raise
        raise IdError(f"{name}: line {texts[int(refused[1]) - 1][0]}: {refused[2]}") from None
    for _ in documents_taken([data], lambda document: keys.append(key_of(value_at(document, [b""]) or b""))):
        pass
    if len(keys) != len(texts):
        raise ProgramError(f"pack printed {len(keys)} documents in place of {len(texts)}")
    return keys


def find_ids(path: str, ids: dict[object, str], program: str, take: Callable[[list[bytes]], None], is_bson: bool = False) -> list[str]:
    """Passes the documents on that have one of the ids, as lines, or with `is_bson` as they are, and gives the lines that have none."""
    group, found, waiting, size = Group(), set[object](), list[bytes](), 0
    # Why a document that was found is not passed on, where it has a fault.
    wrong: list[DumpError] = []

    def look_at(document: bytes) -> None:
        nonlocal size
        value = value_at(document, [b"_id"])
        key = value and key_of(value)
        if key in ids:
            found.add(key)
            waiting.append(document)
            size += len(document)
            if len(waiting) >= _MOST_DOCUMENTS or size >= _MOST_BYTES:
                pass_on()

    def pass_on() -> None:
        """Passes on what was found, if `dump` prints it: then it has no fault."""
        nonlocal size
        documents, size = waiting[:], 0
        waiting.clear()
        if documents and not wrong:
            try:
                lines = lines_of_documents(documents, program, group)
            except DumpError as error:
                if not error.fault:
                    raise
                wrong.append(error)
                return
            take(documents if is_bson else [line + b"\n" for line in lines])

    try:
        with Source(path) as source:
            each_document(source, program, look_at, group)
            pass_on()
            source.check()
        for error in wrong:
            raise error
    except DumpError as error:
        raise DumpError(f"{path}: {error}", error.fault) from None
    finally:
        group.end()
    return [line for key, line in ids.items() if key not in found]
