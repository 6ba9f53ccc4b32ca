"""What callers give: names of files, and numbers."""

from __future__ import annotations

import operator
import os
import threading
from contextlib import suppress
from typing import Union

from ._errors import ArgumentError

File = Union[str, bytes, os.PathLike[str], os.PathLike[bytes]]
# The greatest skip, limit and size of a batch.
MOST = 2_147_483_647
# Linux takes arguments of fewer than 131,072 bytes.
LONGEST_ARGUMENT = 131_071


def shown(value: object) -> str:
    """A value in a message, as Python writes it."""
    try:
        return repr(value)
    except ValueError:
        return f"of {type(value).__name__} with more digits than Python writes"


def name_of(path: File) -> str:
    """The name of a file; what can be none is an `ArgumentError`."""
    try:
        name = os.fsdecode(path)
        os.fsencode(name)
    except (TypeError, UnicodeError):
        raise ArgumentError(f"not the name of a file: {shown(path)}") from None
    if "\0" in name:
        raise ArgumentError(f"a name of a file has no zero byte: {path!r}")
    return name


def name_of_file(path: File) -> str:
    """The name of a file, also where `-` is one, which else is that of standard input."""
    name = name_of(path)
    return os.path.join(os.curdir, name) if name == "-" else name


def whole(name: str, number: int, least: int = 0, most: int = MOST) -> int:
    """A whole number in a range; others are an `ArgumentError`."""
    try:
        if isinstance(number, bool):
            raise TypeError
        number = operator.index(number)
    except TypeError:
        raise ArgumentError(f"{name} is a whole number, not {shown(number)}") from None
    if not least <= number <= most:
        raise ArgumentError(f"{name} is {least} to {most}, not {shown(number)}")
    return number


def argument(name: str, text: str, most: int = LONGEST_ARGUMENT) -> str:
    """A text that a program takes as an argument, of at most this many bytes; others are an `ArgumentError`."""
    if not isinstance(text, str):
        raise ArgumentError(f"{name} is a text, not {shown(text)}")
    try:
        size = len(text.encode())
    except UnicodeEncodeError as error:
        raise ArgumentError(f"{name} has half of a character: {text[error.start : error.end]!r}") from None
    if "\0" in text:
        raise ArgumentError(f"{name} has no zero byte: {text!r:.60}")
    if size > most:
        raise ArgumentError(f"{name} has at most {most} bytes, not {size}")
    return text


def seconds(timeout: float | None) -> float | None:
    """A number of seconds that a thread can wait, or None; others are an `ArgumentError`."""
    with suppress(TypeError):  # It is no number.
        if timeout is None or 0 <= timeout <= threading.TIMEOUT_MAX:
            return timeout
    raise ArgumentError(f"timeout is a number of seconds, 0 to {threading.TIMEOUT_MAX:.0f}, or None, not {shown(timeout)}")
