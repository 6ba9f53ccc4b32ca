"""Replies of a session."""

from __future__ import annotations

import json
from typing import Any, NamedTuple

from .._errors import CommandError, ProgramError

_DOCUMENTS, _PLACES = b'{"ok":true,"documents":[', b'{"ok":true,"places":['
_AFTER_DOCUMENTS = b'],"end":'
_scan = json.JSONDecoder().raw_decode


class Batch(NamedTuple):
    """The text of the documents of a batch with commas between them, or their numbers; whether none is left, and the token that leads on."""

    found: bytes | list[int]
    end: bool
    token: str | None


def read_reply(line: bytes, *names: str) -> dict[str, Any]:
    """The fields of a reply that has no documents, these among them, with its numbers as `int`; a refusal is raised."""
    reply = _object(line, "ok")
    is_done = reply.pop("ok")
    if not reply.keys() >= set(names if is_done else ("layer", "number", "text")):
        raise junk(line)
    if not is_done:
        place = reply.get("place", reply.get("at"))
        raise CommandError(reply["layer"], reply["number"], reply["text"], place)
    return reply


def _object(line: bytes, *names: str) -> dict[str, Any]:
    """What a line has that the program prints, with these names; of another program that is an error."""
    try:
        found = json.loads(line, object_hook=_number)
    except ValueError:
        found = None
    if not isinstance(found, dict) or not found.keys() >= set(names):
        raise junk(line)
    return found


def junk(text: bytes | str) -> ProgramError:
    """The error of a text that the program never prints."""
    return ProgramError(f"the program is not bsonwide: it printed {text[:60]!r}")


def read_batch(line: bytes) -> Batch:
    """A reply to `getMore`; a refusal is raised. No document is parsed."""
    if line.startswith(_PLACES):
        reply = read_reply(line, "places", "end", "token")
        places = reply["places"]
        if not isinstance(places, list) or not all(type(it) is int and it >= 0 for it in places):
            raise junk(line)
        return Batch(places, reply["end"], reply["token"])
    if not line.startswith(_DOCUMENTS):
        raise ProgramError(f"no batch but {read_reply(line)}")
    # Neither `end` nor a token has a bracket.
    end = line.rfind(_AFTER_DOCUMENTS)
    rest = _object(b'{"end":' + line[end + len(_AFTER_DOCUMENTS) :], "end", "token")
    return Batch(line[len(_DOCUMENTS) : end], rest["end"], rest["token"])


def documents_in(text: bytes) -> list[bytes]:
    """The texts of documents that have commas between them."""
    whole, at, found = text.decode(), 0, []
    while at < len(whole):
        _, end = document_at(whole, at)
        found.append(whole[at:end].encode())
        at = end + 1
    return found


def document_at(text: str, at: int) -> tuple[Any, int]:
    """The document that begins there, and where it ends."""
    try:
        return _scan(text, at)
    except ValueError:
        raise junk(text[at:]) from None


def _number(value: dict[str, Any]) -> Any:
    """A whole number as such, in place of the object that the program writes."""
    for name in ("$numberInt", "$numberLong"):
        if name in value:
            return int(value[name])
    return value
