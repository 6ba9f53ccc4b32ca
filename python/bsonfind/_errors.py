"""What can go wrong, as exceptions that pass from process to process as they are."""

from __future__ import annotations

# As `typing.TYPE_CHECKING`, without `typing`, which takes long to import.
TYPE_CHECKING = False
if TYPE_CHECKING:
    from ._faults import Fault


class BsonfindError(Exception):
    """What this package raises of its own."""


class ArgumentError(BsonfindError, TypeError, ValueError):
    """An argument that a call does not take: of another type, out of its range, or at odds with another one."""


class FileError(BsonfindError, OSError):
    """A file other than a dump that cannot be read or written, such as a log, or a file that `salvage` writes."""

    def __str__(self) -> str:
        return f"{self.filename}: {self.strerror}"


class ProgramError(BsonfindError):
    """The program cannot be started, or it failed for a reason of its own."""


class CommandError(BsonfindError):
    """A request that the program refuses: the filter, the sort, a path, a token or what a session has not.

    The layers, numbers and texts are those of the refusals of `serve`. The place is the names to the part of a filter that is
    refused, the byte of a text that is no Extended JSON, and else None.
    """

    def __init__(self, layer: str, number: int, text: str, place: str | int | None = None) -> None:
        super().__init__(layer, number, text, place)
        self.layer, self.number, self.text, self.place = layer, number, text, place
        # The message of a run, which begins with the option that is refused, and what it says to write instead.
        self.line: str | None = None
        self.advice: str | None = None

    def __str__(self) -> str:
        told = self.text if self.advice is None else f"{self.text}; {self.advice}"
        if self.place is None:
            return f"{self.layer}: {told}"
        where = f"byte {self.place}" if isinstance(self.place, int) else f'place "{self.place}"'
        return f"{self.layer}: {where}: {told}"


class DumpError(BsonfindError):
    """A dump that cannot be read or is refused, such as a missing file, with its first fault where it has one."""

    def __init__(self, text: str, fault: Fault | None = None) -> None:
        super().__init__(text, fault)
        self.text, self.fault = text, fault

    @classmethod
    def at(cls, fault: Fault) -> DumpError:
        """The error of a dump that has this fault."""
        return cls(str(fault), fault)

    def moved(self, documents: int, offset: int) -> DumpError:
        """The same where this many documents and bytes are before, as in the whole of which a run read a part."""
        return DumpError.at(self.fault.moved(documents, offset)) if self.fault else self

    @property
    def is_finding(self) -> bool:
        """Whether the dump was read and something in it is wrong; else it is missing, or was not read."""
        return self.fault is not None

    def __str__(self) -> str:
        return self.text


def why(error: BaseException) -> str:
    """What an error says; of one of the system without the name of a file."""
    return str(getattr(error, "strerror", None) or error)


def is_finding(error: BaseException) -> bool:
    """Whether it is one of a dump that was read, in which something is wrong."""
    return isinstance(error, DumpError) and error.is_finding


class TimedOutError(BsonfindError, TimeoutError):
    """A question that took longer than its `timeout`."""


class CancelledError(BsonfindError):
    """A question that `cancel` ended."""


class SessionEndedError(BsonfindError):
    """A session whose program is no longer there, or that was closed."""


class CursorStateError(BsonfindError):
    """A cursor that was interrupted while it read, so that it is not known which documents come next."""


class OtherProcessError(BsonfindError):
    """A session, a cursor or an answer that another process opened, as after a fork. Each process opens its own."""
