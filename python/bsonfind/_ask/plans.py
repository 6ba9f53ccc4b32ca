"""What a session does, one thing after the other. What decides is a plan, and a transport only moves bytes and waits.

A plan is a generator: it yields what is asked of a transport, is sent what came of that, and returns what was asked for. `now` carries it
out by calls that wait, and the `Loop` of `aio` by an event loop.
"""

from __future__ import annotations

import os
import threading
from typing import Any, Callable, Generator, TypeVar

T = TypeVar("T")
# What a plan asks of a transport, a `Transport` or one whose methods are awaited.
Step = Callable[[Any], Any]
Plan = Generator[Step, Any, T]
# How many bytes are received at once at most.
PIECE = 1 << 20


class Transport:
    """What waits by calls."""

    def send(self, pipe: int, data: bytes) -> None:
        """Writes to the pipe to a program; one that reads no more is a `BrokenPipeError`."""
        rest = memoryview(data)
        while rest:
            rest = rest[os.write(pipe, rest) :]

    def receive(self, pipe: int) -> bytes:
        """The next bytes of the pipe from a program, none at its end. They are read around its buffer, of which a fork would make a copy."""
        return os.read(pipe, PIECE)

    def work(self, call: Callable[[], T]) -> T:
        """What a call gives that takes long and waits, such as for a copy that is written."""
        return call()

    def alone(self, lock: threading.Lock, plan: Plan[T]) -> T:
        """What a plan comes to that no other thread or task may interrupt."""
        with lock:
            return now(plan)


_WAITING = Transport()


def now(plan: Plan[T]) -> T:
    """Carries a plan out, by calls that wait. It is closed where it is interrupted."""
    try:
        step = next(plan)
        while True:
            try:
                done = step(_WAITING)
            except BaseException as error:  # noqa: BLE001 - the plan says what comes of it
                step = plan.throw(error)
            else:
                step = plan.send(done)
    except StopIteration as end:
        result: T = end.value
        return result
    finally:
        plan.close()
