"""Asks dumps of MongoDB by the program `bsonfind`: each answer is the program's, and this package starts it and moves bytes.

    from bsonfind import Session, find, find_parts, plan

    with Session("people.bson") as session:
        for person in session.find({"age": {"$gte": 90}}, sort=[("name", 1)]):
            print(person["name"])

`find`, `find_one`, `count_documents`, `distinct` and `explain` answer one request by one run, a `Session` many of one dump, and an `AsyncSession` does
for asyncio. `plan` splits a dump of any size into parts, of which `find_parts`, `count_parts` and `check_parts` make one answer.
`to_dicts` and `to_pandas` make the rows of a table of documents. `audit` checks the dumps of a backup, and `salvage` copies what is good of a damaged one. `unpack` writes the collections of an
archive to files; where a file is named, "ARCHIVE::db.collection" names one of them. `python3 -m bsonfind` has these and other
commands.
"""

from __future__ import annotations

# What a checker of types reads in place of `typing.TYPE_CHECKING`: `typing` takes longer to import than all that is here.
TYPE_CHECKING = False
if TYPE_CHECKING:
    from ._ask.aio import AsyncCursor, AsyncSession
    from ._ask.answers import Answer, count_documents, distinct, explain, find, find_one
    from ._ask.frames import to_dicts, to_pandas
    from ._ask.merge import Check, check_parts, count_parts, find_parts
    from ._ask.sessions import Cursor, Session
    from ._ask.values import ObjectId
    from ._backup.audit import audit
    from ._backup.reports import Audit, Report
    from ._backup.salvage import Salvaged, salvage
    from ._backup.salvaging import LeftOut
    from ._backup.unpack import Collection, Unpacked, unpack
    from ._dumps.files import FileState
    from ._dumps.gzip import UnpackError
    from ._dumps.parts import Part, PartError, plan
    from ._errors import ArgumentError, BsonfindError, CancelledError, CommandError, CursorStateError, DumpError, FileError
    from ._errors import OtherProcessError, ProgramError, SessionEndedError, TimedOutError
    from ._faults import Fault

    __version__: str

# Each name that is exported, by the module that has it. A module is imported once a name of it is used, so that a command imports no
# more than it needs.
_MODULES = {
    "_ask.aio": ["AsyncCursor", "AsyncSession"],
    "_ask.answers": ["Answer", "count_documents", "distinct", "explain", "find", "find_one"],
    "_ask.frames": ["to_dicts", "to_pandas"],
    "_ask.merge": ["Check", "check_parts", "count_parts", "find_parts"],
    "_ask.sessions": ["Cursor", "Session"],
    "_ask.values": ["ObjectId"],
    "_backup.audit": ["audit"],
    "_backup.reports": ["Audit", "Report"],
    "_backup.salvage": ["Salvaged", "salvage"],
    "_backup.salvaging": ["LeftOut"],
    "_backup.unpack": ["Collection", "Unpacked", "unpack"],
    "_dumps.files": ["FileState"],
    "_dumps.gzip": ["UnpackError"],
    "_dumps.parts": ["Part", "PartError", "plan"],
    "_errors": [
        "ArgumentError", "BsonfindError", "CancelledError", "CommandError", "CursorStateError", "DumpError", "FileError",
        "OtherProcessError", "ProgramError", "SessionEndedError", "TimedOutError",
    ],
    "_faults": ["Fault"],
}  # fmt: skip
_WHERE = {name: module for module, names in _MODULES.items() for name in names}


def __getattr__(name: str) -> object:
    """Return what is exported by a name, or the version, which a file beside the modules has, also in a zip."""
    if name == "__version__":
        # The loader reads it, as `pkgutil` does, which takes longer to import than all that is here.
        value: object = __spec__.loader.get_data(f"{__path__[0]}/VERSION").decode("ascii").strip()  # type: ignore
    elif name in _WHERE:
        from importlib import import_module

        # The types of errors name it, and `_errors` imports nothing for that.
        vars(import_module("._errors", __name__))["Fault"] = import_module("._faults", __name__).Fault
        value = getattr(import_module(f".{_WHERE[name]}", __name__), name)
    else:
        raise AttributeError(f"module {__name__!r} has no attribute {name!r}")
    globals()[name] = value
    return value


def __dir__() -> list[str]:
    """Return all names that are exported, those too whose modules were not imported yet."""
    return sorted([*__all__, "__version__", *(name for name in globals() if name.startswith("__") and name != "__version__")])


__all__ = [
    "Answer", "ArgumentError", "AsyncCursor", "AsyncSession", "Audit", "BsonfindError", "CancelledError", "Check", "Collection",
    "CommandError", "Cursor", "CursorStateError", "DumpError", "Fault", "FileError", "FileState", "LeftOut", "ObjectId",
    "OtherProcessError", "Part", "PartError", "ProgramError", "Report", "Salvaged", "Session", "SessionEndedError", "TimedOutError",
    "UnpackError", "Unpacked", "audit", "check_parts", "count_documents", "count_parts", "distinct", "explain", "find", "find_one",
    "find_parts", "plan", "salvage", "to_dicts", "to_pandas", "unpack",
]  # fmt: skip
