"""The arguments of the commands. What runs a command is imported once it is named."""

from __future__ import annotations

import argparse
import os
import re

from .._run.program import WIDE
from .console import NAME, print_text
from .program import CHOICES, LAYOUT, MOST, refusal

# As `typing.TYPE_CHECKING`, without `typing`, which takes long to import.
TYPE_CHECKING = False
if TYPE_CHECKING:
    from typing import Any, Callable, Sequence

    Argument = tuple[tuple[str, ...], dict[str, Any]]

# The statuses of commands.
GOOD, FAULTY, FAILED = 0, 1, 2
# How many faults of a file `audit` reports one by one.
MOST_FAULTS = 10
# The options that may be given several times.
_REPEATED = ("--only", "--program")
_DIGITS = re.compile(r"\+?[0-9]+", re.ASCII)
_EPILOG = "COMMAND --help explains a command and its status. ARCHIVE::db.collection names a collection of an archive as a FILE."


class Refused(Exception):
    """Arguments that go with nothing."""


class _Help(argparse.HelpFormatter):
    """Help as wide as the terminal. argparse would import shutil to find that out, with all that this imports, for every command."""

    def __init__(self, prog: str, **how: Any) -> None:
        try:
            columns = int(os.environ.get("COLUMNS", 0)) or os.get_terminal_size().columns
        except (OSError, ValueError):
            columns = 0
        super().__init__(prog, width=(columns if columns > 0 else 80) - 2, **how)


class _Parser(argparse.ArgumentParser):
    """A parser that takes no shortened option, and whose help is an error if it cannot be written."""

    def __init__(self, is_named: bool = True, **how: object) -> None:
        """One of a command that is not named parses nothing, so it is not made."""
        if is_named:
            super().__init__(allow_abbrev=False, formatter_class=_Help, **how)  # type: ignore[arg-type]

    def parse_known_args(self, args: Any = None, namespace: Any = None) -> Any:
        """Takes names of files after options too, which else are not known, and each option once, as the program does."""
        words = args[: args.index("--")] if "--" in args else args
        names = [name for it in words if (name := it.partition("=")[0]) in self._option_string_actions and name not in _REPEATED]
        given = [self._option_string_actions[name] for name in names]
        for name, action in zip(names, given):
            if given.count(action) > 1:
                self.error(f"argument {name}: it is given twice")
        known, others = super().parse_known_args(args, namespace)
        if hasattr(known, "files"):
            known.files = [*known.files, *filter(_is_name, others)]
            others = [it for it in others if not _is_name(it)]
        return known, others

    def _parse_optional(self, word: str) -> Any:
        """Takes a collection of an archive on standard input for a name, and for no option."""
        return None if _is_name(word) else super()._parse_optional(word)

    def print_help(self, file: object = None) -> None:
        print_text(self.format_help(), end="")


def _is_name(word: str) -> bool:
    """Whether it is the name of a file, standard input or a collection of an archive there, and no option."""
    return word == "-" or word.startswith("-::") or not word.startswith("-")


def parser(name: str, words: Sequence[str] | None = None) -> argparse.ArgumentParser:
    """The parser of the arguments of the command line that begins with this name. Where its words are given only their commands have arguments."""
    main = _Parser(prog=name, epilog=_EPILOG)
    _add_common(main, WIDE)
    commands = main.add_subparsers(required=True, metavar="COMMAND")
    for word, about, epilog, arguments in _COMMANDS:
        is_named = words is None or word in words
        about_it: dict[str, Any] = {"description": about, "epilog": epilog, "usage": _USAGES.get(word), "is_named": is_named}
        command = commands.add_parser(word, help=about[0].lower() + about[1:-1], **about_it)
        if not is_named:
            continue
        _add_common(command, argparse.SUPPRESS)
        command.set_defaults(command=word)
        for it in arguments:
            # Of the options in a list one is taken at most.
            among = command.add_mutually_exclusive_group() if isinstance(it, list) else command
            for names, how in it if isinstance(it, list) else [it]:
                among.add_argument(*names, **how)
    return main


def _add_common(command: argparse.ArgumentParser, program: str) -> None:
    command.add_argument("--program", default=program, help="the program bsonwide, or bsonfind with it beside; else the one beside bsonkit, or on PATH")
    command.add_argument("--version", action=_Version, nargs=0, help="print the version")


class _Version(argparse.Action):
    """Prints the version, which is looked up only then."""

    def __call__(self, command: argparse.ArgumentParser, *_: object) -> None:
        from .. import __version__

        print_text(f"{NAME} {__version__}")
        command.exit()


def _text(word: str) -> str:
    """A text of the command line: its bytes as they were given, which are UTF-8 in every locale."""
    try:
        return os.fsencode(word).decode()
    except UnicodeDecodeError as error:
        raise argparse.ArgumentTypeError(f"not UTF-8 at byte {error.start}") from None


def _number(least: int) -> Callable[[str], int]:
    """A whole number of the command line, of the digits 0 to 9 alone."""

    def read(word: str) -> int:
        number = int(word) if _DIGITS.fullmatch(word) and len(word) < 100 else -1
        if not least <= number <= MOST:
            raise argparse.ArgumentTypeError(f"a number from {least} to {MOST}, not {word}")
        return number

    return read


def _argument(name: str, metavar: str, help: str, **how: Any) -> Argument:
    """An argument or an option with a value."""
    return (name,), {"metavar": metavar, "help": help, **how}


def _of_text(name: str, metavar: str, help: str, **how: Any) -> Argument:
    return _argument(name, metavar, help, type=_text, **how)


def _of_number(name: str, help: str, least: int = 1, default: int | None = None, metavar: str = "N") -> Argument:
    return _argument(name, metavar, help, type=_number(least), default=default)


def _flag(help: str, *names: str) -> Argument:
    return names, {"action": "store_true", "help": help}


# The status of each command that has the one of the program: 1 for all that failed.
_AS_THE_PROGRAM = "The status is 0 if all is {}, and 1 if anything failed, such as for a fault of the dump."
_PRINTED = f"{_AS_THE_PROGRAM.format('printed')} Unless it is 0, delete what it wrote."
# The status of the commands that pass what is faulty, and of those that check.
_OF_READING = "The status is 0 if all was read, 1 if a document has a fault, which is reported and left out, and else 2."
_OF_CHECKS = "0 if all is good, 1 if something is faulty, cut or missing, 2 if another file was not read."
_DUMPS = _argument("files", "FILE", "a dump of any size, one by mongodump --gzip, or - for standard input", nargs="+")
_LIST = _argument("--list", "F", "also the files whose names are the lines of F")
_FILES = _argument("files", "FILE", "a dump, one by mongodump --gzip, or a directory of such files", nargs="*"), _LIST
# A query, or the file that it is in, as mongoexport has them.
_QUERY_FILE = _argument("--queryFile", "F", "the file that the query is in, or - for standard input")


def _query(help: str) -> list[Argument]:
    return [(("-q", "--query"), {"metavar": "Q", "help": help, "type": _text}), _QUERY_FILE]


# Where documents go, as bsondump has it, and mongoexport by the short name.
_OUT_FILE = ("-o", "--outFile"), {"metavar": "NEW", "dest": "outFile", "help": "write to this file, which gets its name once it is whole"}
_ROWS = _flag("print a line of JSON for each row", "--json")
_AS_BSON = _flag("print the documents as they are, in BSON", "--bson")
# How `dump` and `find` print documents.
_LAYOUT = tuple(((name,), {"choices": CHOICES[name], "help": help}) for name, help in (
    ("--type", "csv: a header, and a row of these --fields for each document"), ("--jsonFormat", "relaxed: numbers and dates as mongoexport"),
)) + (
    (("-f", "--fields"), {"metavar": "A,B.C", "help": "print these fields alone, and _id", "type": _text}),
    _flag("leave _id out", "--noId"),
    _flag("print one array of JSON", "--jsonArray"),
    _flag("print each document on many lines", "--pretty"),
    _flag("leave out the header of CSV", "--noHeaderLine"),
)  # fmt: skip
_USAGES = {"grep": "%(prog)s [options] TEXT FILE.. | --regex R FILE.."}
_COMMANDS: Sequence[tuple[str, str, str, Sequence[Argument | list[Argument]]]] = (
    ("check", "Prints each fault of dumps; doubles and decimal128 are none.", _AS_THE_PROGRAM.format("good"), [_DUMPS]),
    ("dump", "Prints the documents of dumps, as lines, an array or CSV.", _PRINTED, [_DUMPS, *_LAYOUT, _OUT_FILE]),
    ("pack", "Writes the dump of lines of Extended JSON.", _PRINTED.replace("printed", "packed"), [
        _argument("file", "FILE", "a text with a document on each line, as dump prints it, or - for standard input"),
        _OUT_FILE,
    ]),
    ("find", "Prints the documents of a dump that match a query, sorted.", _PRINTED, [
        _argument("file", "FILE", "a dump, one by mongodump --gzip, or - for standard input"),
        _query("a query, as bsonwide find takes it"),
        _of_text("--sort", "S", "the fields by which documents are sorted", default="{}"),
        _of_text("--index", "PATH", "find documents by an index on this path"),
        _of_text("--after", "TOKEN", "resume after the documents that were printed with this token"),
        _of_number("--skip", "skip this many documents", 0, 0),
        _of_number("--limit", "print this many at most", 0, 0),
        _of_number("--batch", "print the next page of this many", 0),
        *_LAYOUT,
        _OUT_FILE,
        [_AS_BSON, _flag("print how many documents there are, and none of them", "--count")],
    ]),
    ("serve", "Replies to commands about a dump, one a line of standard input.",
     "The status is 0 if all commands were read, also refused ones, and 1 if anything failed, such as for a fault of the dump.", [
        _argument("file", "FILE", "a dump, or one by mongodump --gzip"),
        _flag("take doubles in commands also over a dump without any", "--byValue"),
    ]),
    ("audit", "Checks many files, on all processors.", f"The status is {_OF_CHECKS}", [
        *_FILES,
        _argument("--expect", "LOG", "compare the counts with those in a log of mongodump, and report its failures"),
        _flag("report each _id that several documents of a dump have", "--ids"),
        [
            _flag("print one line of JSON, and nothing else", "--json"),
            _flag("print nothing if all is good, and else nothing of good files", "--quiet"),
        ],
        _of_number("--jobs", "check this many files at once"),
        _of_number("--max-faults", "print this many faults of a file", 0, MOST_FAULTS),
    ]),
    ("salvage", "Copies each document of a damaged dump to one of two files.",
     "The status is 0 if all is good, 1 if something is faulty or left out, else 2. Keep FILE: G and B lack what is left out.", [
        _argument("file", "FILE", "a damaged dump, one by mongodump --gzip, a directory of dumps, or an archive"),
        _argument("--good", "G", "the file for documents without a fault"),
        _argument("--bad", "B", "the file for other documents whose length is known"),
        _argument("--out", "DIR", "of a directory or an archive: where the good documents of each dump go, by the same names"),
    ]),
    ("show", "Prints a document element by element, also a damaged one as far as lengths lead.",
     "The status is 0 if the document has no fault, 1 if it has one, and 2 if it was not found or not read.", [
        _argument("file", "FILE", "a dump, such as one by salvage with the ending .bad, or one by mongodump --gzip"),
        _argument("number", "N", "the number of the document, from 0 on, as faults have it", type=_number(0)),
        _flag("print the document of the elements that are sound, in BSON", "--bson"),
    ]),
    ("unpack", "Writes the collections of an archive of mongodump to files.",
     "The status is 0 if all is whole, 1 if a collection is not, whose file ends in .part, and else 2.", [
        _argument("archive", "ARCHIVE", "a file by mongodump --archive, also with --gzip, or - for a pipe"),
        _argument("directory", "DIR", "where the files go, dump without it", nargs="?", default="dump"),
        _of_text("--only", "DB.COLLECTION", "write this collection alone; may be repeated", action="append"),
        _flag("do not compare the CRC-64 of each collection", "--no-crc"),
    ]),
    ("compare", "Compares two dumps, or the dumps of two directories or archives.",
     "The status is 0 if both have the same documents, in any order, 1 if they differ, and else 2.", [
        _argument("first", "A", "a dump, one by mongodump --gzip, a directory of such files, or an archive"),
        _argument("second", "B", "what it is compared with"),
        _of_text("--by", "PATH", "the field by which documents belong together, not _id", default="_id"),
    ]),
    ("query", "Prints the documents of many files that match a query, each with its file.",
     "The status is 0 if all files were asked, 1 if one has a fault, and 2 if one was not read.", [
        *_FILES,
        _query("a query, as bsonwide find takes it"),
        _of_number("--limit", "print this many at most, of all files", 0, 0),
        _OUT_FILE,
        _of_number("--jobs", "ask this many files at once"),
    ]),
    ("count", "Counts documents, of each value of a field too, and adds numbers.", _OF_READING, [
        _DUMPS,
        _query("count the documents that match this query"),
        _of_text("--by", "PATH", "count the documents of each value of this field"),
        _of_text("--sum", "PATH", "also add the numbers of this field, exactly"),
        _ROWS,
    ]),
    ("schema", "Prints the fields of documents, with their types and values.", _OF_READING, [
        _DUMPS, _of_number("--sample", "look at this many documents, chosen at random"), _ROWS,
    ]),
    ("info", "Prints the collections of a backup: documents, bytes, indexes, options.", f"The status is that of audit: {_OF_CHECKS}", [
        *_FILES, _flag("print a line of JSON for each collection", "--json"), _of_number("--jobs", "check this many files at once"),
    ]),
    ("grep", "Prints the fields of many files that have a text, an id or a UUID.",
     "The status is 0 if all was searched, also if nothing is found, 1 if something is faulty, 2 if a file was not read.", [
        _argument("files", "TEXT FILE", "a text, an id or a UUID, unless --regex is given; then dumps, archives, directories of these, - for standard input", nargs="*"),
        _LIST,
        _of_text("--regex", "R", "a regular expression of Python in place of the text"),
        _flag("upper and lower case are the same", "-i", "--ignore-case"),
        _of_number("--timeout", "the seconds that --regex may take on one text", default=5, metavar="S"),
        [
            _flag("print how many documents and fields of each file have it", "--count"),
            _flag("print a line of JSON for each field", "--json"),
        ],
        _of_number("--jobs", "search by this many processes at once"),
    ]),
    ("ids", "Prints the documents of a file of ids, and reports ids without a document.",
     "The status is 0 if each id has a document, 1 if one has none, and else 2.", [
        _argument("file", "FILE", "a dump of any size, or one by mongodump --gzip"),
        _argument("--ids", "F", "a file of ids, one a line: 24 digits, a UUID, or as dump prints them", required=True),
        _argument("--missing", "M", "write the ids without a document to this file"),
        _AS_BSON,
    ]),
)  # fmt: skip


def options_of(words: argparse.Namespace) -> list[str]:
    """The options of `dump` or `find` that say what is printed, as the program takes them, unless some do not go together."""
    from .._ask.requests import option

    values = {name: getattr(words, name[2:], None) for name in ("--batch", "--bson", "--count", *LAYOUT)}
    given = {name: value for name, value in values.items() if value is not None and value is not False}
    if text := refusal(given):
        raise Refused(text)
    return [word for name, value in given.items() if name != "--batch" for word in ([name] if value is True else option(name, value))]
