"""Takes what is good out of a damaged dump, which is read once, in memory that does not grow with it."""

from __future__ import annotations

import os
from contextlib import ExitStack, nullcontext
from typing import Callable, ContextManager, NamedTuple

from .._arguments import File, name_of
from .._dumps.outputs import Output, refuse_names
from .._dumps.sources import Source
from .._errors import ArgumentError, DumpError
from .._run.processes import wide_program
from .salvaging import Copied, LeftOut, Salvaging, Take



class Salvaged(NamedTuple):
    """How many documents were copied to each file, what was left out, and where the file could not be read on."""

    good: int
    bad: int
    left_out: list[LeftOut]
    error: str | None

    @property
    def bytes_left_out(self) -> int:
        """How many bytes were left out."""
        return sum(it.end - it.start for it in self.left_out)

    @property
    def is_good(self) -> bool:
        """Whether the dump has no fault."""
        return not (self.bad or self.left_out or self.error)


def salvage(
    path: File,
    good: File,
    bad: File,
    *,
    program: str = "bsonwide",
    say: Callable[[str], None] | None = None,
    progress: Callable[[Source], ContextManager[object]] = nullcontext,
) -> Salvaged:
    """Copies each document of a dump to one of two files, by whether `check` finds a fault in it.

    The files get their names at the end, when all was copied. Before that, whatever goes wrong, nothing that was there is
    touched. `say` gets what the command prints.
    """
    names = [name_of(name) for name in (good, bad)]
    if not (callable(progress) and (say is None or callable(say))):
        raise ArgumentError("say and progress are functions")
    with ExitStack() as files:
        try:
            source = files.enter_context(Source(path))
            refuse_names(source.name, *names)
            wide_program(program)
            outputs = [files.enter_context(Output(name, source.mode)) for name in names]
            files.enter_context(progress(source))
            done = copied(Salvaging(source.pieces(), program), outputs[0].write, outputs[1].write, say or (lambda _: None))
        except DumpError as error:
            raise DumpError(f"{os.fsdecode(path)}: {error}", error.fault) from error
        for output in outputs:
            output.complete()
        for output in outputs:
            output.put_in_place()
        if say:
            say(f"{done.good} documents to {names[0]}, {done.bad} to {names[1]}, {done.bytes_left_out} bytes left out")
    return done


def copied(salvaging: Salvaging, good: Take, bad: Take, say: Callable[[str], None]) -> Salvaged:
    """Has the documents of a dump taken by whether they have a fault, and says what is left out."""
    for part in salvaging.parts():
        if isinstance(part, Copied):
            (bad if part.fault else good)(part.data)
        else:
            say(str(part))
    return Salvaged(salvaging.good, salvaging.bad, salvaging.left_out, salvaging.error)
