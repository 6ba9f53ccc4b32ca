"""Connections to a run of `serve`: a command goes in as a line, and its reply comes out as one."""

from __future__ import annotations

import re
import threading
from collections import deque
from contextlib import suppress
from typing import Any, Callable, NamedTuple, Sequence

from .._errors import ArgumentError, CancelledError, CommandError, SessionEndedError, TimedOutError
from .._run.processes import Dump, Group, Run, wide_program
from .plans import Plan, now
from .replies import read_reply
from .requests import Request, Use, text_of, text_of_pairs

LONGEST_COMMAND = 16_777_216
# What the program says of what it does not read; and how begins what it reads over another dump, or by value: doubles, decimal128, and dates
# and UUIDs as text.
_NOT_TAKEN = "not in the profile"
_BY_VALUE = re.compile(rb'[-0-9]|\{"\$(?:numberDouble|numberDecimal|date|uuid)"')


class Command(NamedTuple):
    """A line for the program, and how many bytes of the reply are taken at most; a longer one is skipped as None."""

    line: bytes
    most: int | None = None
    # Where the text of each field begins in the line.
    starts: tuple[int, ...] = ()

    @classmethod
    def of(cls, *fields: tuple[str, str], most: int | None = None) -> Command:
        """The command of these names and the JSON of their values."""
        line = text_of_pairs(fields).encode()
        if len(line) > LONGEST_COMMAND:
            raise ArgumentError(f"a command has at most {LONGEST_COMMAND} bytes, not {len(line)}")
        starts, end = [], 0
        for name, text in fields:
            starts.append(end + len(f',"{name}":'))
            end = starts[-1] + len(text)
        return cls(line, most, tuple(starts))


def kill(cursor: int) -> Command:
    """The command that closes a cursor."""
    return Command.of(("killCursor", str(cursor)))


class NotTaken(CommandError):
    """What a session by value takes, and one over a dump without doubles and decimal128 refuses: one of these, a date or a UUID as text."""


class Connection:
    """A run of `serve` over a dump that was read. Before a reply `check` raises why there is none, such as a dump that was replaced."""

    def __init__(self, dump: Dump, program: str, group: Group, check: Callable[[], None], options: Sequence[str] = ()) -> None:
        self._lock, self._check = threading.Lock(), check
        self._group = group
        self._run = Run.serving(dump, wide_program(program, group), options, group)
        # Why it ended, where it has.
        self._ended: str | None = None
        # The cursors that are to be closed.
        self._left: deque[int] = deque()
        try:
            # Waits until the dump is read, by a command that changes nothing.
            if not now(self._bytes_for(kill(0))):
                raise self._run.error()
        except BaseException:
            self._end("the dump was not read")
            raise

    def ask(self, command: Command) -> Plan[bytes | None]:
        """The reply to a command, None if it is longer than the command says."""
        reply: bytes | None = yield lambda it: it.alone(self._lock, self._exchange(command))
        self._check()
        return reply

    def fields(self, command: Command, *names: str) -> Plan[dict[str, Any]]:
        """The fields of a reply, these among them. A refused byte is that of the text of a field, as of an option of `find`."""
        reply = yield from self.ask(command)
        assert reply is not None
        try:
            return read_reply(reply, *names)
        except CommandError as error:
            if error.layer == "json" and isinstance(error.place, int):
                start = max((it for it in command.starts if it <= error.place), default=0)
                is_by_value = error.text == _NOT_TAKEN and _BY_VALUE.match(command.line, error.place)
                raise (NotTaken if is_by_value else CommandError)(error.layer, error.number, error.text, error.place - start) from None
            raise

    def create_index(self, path: str, sparse: bool) -> Plan[dict[str, Any]]:
        return self.fields(Command.of(("createIndex", text_of(path)), ("sparse", text_of(sparse))))

    def drop_index(self, path: str) -> Plan[dict[str, Any]]:
        return self.fields(Command.of(("dropIndex", text_of(path))))

    def explain(self, request: Request, use: Use) -> Plan[dict[str, Any]]:
        return self.fields(Command.of(("explain", request.filter), *request.fields(), ("use", text_of(use))), "matches")

    def check_open(self) -> None:
        """Raises why the connection ended, where it has."""
        reason = self._ended or self._group.error
        if reason:
            raise SessionEndedError(str(reason))

    def leave(self, cursor: int) -> None:
        """Has a cursor closed before the next command. It takes no lock, since cursors are freed anywhere."""
        self._left.append(cursor)

    def close(self) -> None:
        with self._lock:
            self._end("the session was closed")

    def _exchange(self, command: Command) -> Plan[bytes | None]:
        while self._left:
            yield from self._reply(kill(self._left.popleft()))
        return (yield from self._reply(command))

    def _reply(self, command: Command) -> Plan[bytes | None]:
        """The reply. If there is none the run is ended, so that no later command takes the reply to this one."""
        self.check_open()
        try:
            reply = yield from self._bytes_for(command)
        except BaseException:
            self._end("a reply was interrupted")
            raise
        if reply == b"":
            error = yield lambda it: it.work(self._run.error)
            self._end(str(error))
            raise error if isinstance(error, (CancelledError, TimedOutError)) else SessionEndedError(str(error))
        return reply

    def _bytes_for(self, command: Command) -> Plan[bytes | None]:
        """Sends a command and reads the reply; nothing where the program has ended."""
        pieces: list[bytes] = []
        size = 0
        with suppress(BrokenPipeError):  # The end of the run says why.
            yield lambda it: it.send(self._run.stdin.fileno(), command.line + b"\n")
            while piece := (yield lambda it: it.receive(self._run.stdout.fileno())):
                size += len(piece)
                if is_long := command.most is not None and size > command.most:
                    pieces.clear()
                else:
                    pieces.append(piece)
                if piece.endswith(b"\n"):
                    return None if is_long else b"".join(pieces)
        return b""

    def _end(self, reason: str) -> None:
        self._ended = self._ended or reason
        self._run.close()
