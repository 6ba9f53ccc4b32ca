"""Commands that become the program itself, so that Python costs its start alone."""

from __future__ import annotations

import os
import signal
import stat
import sys

from .. import __version__
from .._run.program import WIDE, located_wide, says

# The signals that Python ignores by itself, and where `bsonkit` notes which ones the shell ignores, before Python begins.
_IGNORED, _NOTED = (signal.SIGPIPE, signal.SIGXFSZ), "BSONKIT_IGNORED"
# What a run of the program reads at most, and the greatest number that an option takes.
_LARGEST, MOST = 4_294_967_295, 2_147_483_647
# The first bytes of what is no plain dump: an archive, or a file of gzip, which may hold one; how many bytes say what else a file is;
# and the most bytes of a document.
_OTHERS, _HEAD, _LONGEST = (b"\x6d\xe2\x99\x81", b"\x1f\x8b"), 512, 16_793_600
# The commands of one plain dump that are those of the program, the one of a text, and the one that reads commands from standard input.
_OF_DUMPS, PACK, SERVE = ("check", "dump", "find"), "pack", "serve"
# The option of `serve`.
BY_VALUE = "--byValue"
# The options of `dump` and `find` that say how documents are printed, as those of `mongoexport`: with one of some words, and all.
CHOICES = {"--type": ("json", "csv"), "--jsonFormat": ("canonical", "relaxed")}
LAYOUT = (*CHOICES, "--fields", "--noId", "--jsonArray", "--pretty", "--noHeaderLine")
# The options of these with a text or a number, or with nothing, those of each command, and the short names that `mongoexport` has too.
QUERY_FILE, _SHORT = "--queryFile", {"-q": "--query", "-f": "--fields"}
_TEXTS, _NUMBERS = ("--query", QUERY_FILE, "--sort", "--index", "--after", "--fields"), ("--skip", "--limit", "--batch")
_FLAGS, _WITH_VALUES = ("--bson", "--count", *LAYOUT[3:]), (*_TEXTS, *_NUMBERS, *CHOICES)
_OPTIONS = {"check": (), "dump": LAYOUT, "find": (*_WITH_VALUES, *_FLAGS), PACK: ()}
# Options that do not go with others, as of the program, and what an option needs beside it.
_CSV = "--type csv"
_APART = {"--bson": LAYOUT, "--count": ("--bson", "--batch", *LAYOUT), _CSV: ("--jsonFormat", "--noId", "--jsonArray", "--pretty")}
_NEEDED = {_CSV: "--fields", "--noHeaderLine": _CSV, "--noId": "--fields"}


def take_utf8() -> None:
    """Starts this process again with UTF-8 for names of files, as they are in a dump, where the locale has another encoding."""
    if sys.getfilesystemencoding() == "utf-8" or "utf8" in sys._xoptions:
        return
    own = ["-m", "bsonfind"] if sys.modules["__main__"].__spec__ else sys.argv[:1]
    # Python before 3.10 does not know the options that it was started with.
    words: list[str] = getattr(sys, "orig_argv", [sys.executable, *own, *sys.argv[1:]])
    try:
        os.execv(sys.executable, [sys.executable, "-X", "utf8", *words[1:]])
    except OSError:
        pass  # Then names that are not ASCII are not those of a log or an archive, which is reported.


def become_program(words: list[str]) -> None:
    """Becomes the program for a command over one plain file; returns if the command is another one, or if that is not possible.

    One of another version is refused as in other commands. The file that was opened to look at it is passed on as standard input, so
    no name is opened twice.
    """
    rest, program = list(words), WIDE
    if rest[:1] == ["--program"] and len(rest) > 1:
        program, rest = rest[1], rest[2:]
    if rest[:1] == [SERVE]:
        return _become_session(program, rest[1:])
    if not rest or rest[0] not in (*_OF_DUMPS, PACK):
        return
    command, (files, options) = rest[0], _split(rest[1:])
    given = {name: value for name, _, value in ("=".join(it).partition("=") for it in options)}
    is_refused = len(given) != len(options) or not {*given} <= {*_OPTIONS[command]} or refusal(given) is not None
    is_refused |= QUERY_FILE in given and ("--query" in given or _is_input(given[QUERY_FILE]))
    if len(files) != 1 or files[0] != "-" and files[0].startswith("-") or is_refused:
        return
    file = files[0]
    wide = located_wide(program)
    if wide and _has_streams() and (take_text(file) if command == PACK else _take_as_input(file)):
        _become(wide, [command, "-", *(word for option in options for word in option)])


def _become_session(program: str, words: list[str]) -> None:
    """The same of `serve`, to which the file is passed on as another descriptor."""
    files, options = ([it for it in words if (it == BY_VALUE) == is_option] for is_option in (False, True))
    wide = located_wide(program)
    if len(files) != 1 or files[0].startswith("-") or len(options) > 1 or not (wide and _has_streams()):
        return
    descriptor = _plain(files[0])
    if descriptor is not None:
        os.set_inheritable(descriptor, True)
        _become(wide, [SERVE, f"/dev/fd/{descriptor}", *options])
        os.close(descriptor)


def _become(wide: str, words: list[str]) -> None:
    """Becomes the program, if that has the version of the package."""
    if says(wide, f"bsonwide {__version__}\n".encode()):
        try:
            execute(wide, words)
        except OSError:
            pass  # The command says why it cannot be started.


def _split(words: list[str]) -> tuple[list[str], list[list[str]]]:
    """The files of a command line, and its options, each with its value. What is none, or has no good value, is among the files."""
    files: list[str] = []
    options: list[list[str]] = []
    while words:
        name, equals, value = words[0].partition("=")
        name = _SHORT.get(name, name)
        taken = words[: 1 if equals or name not in _WITH_VALUES else 2]
        del words[: len(taken)]
        taken[0] = name + equals + value
        if len(taken) == 2 and not taken[1].startswith("-"):
            equals, value = "=", taken[1]
        if taken[0] in _FLAGS or equals and _is_option(name, value):
            options.append(taken)
        else:
            files.extend(taken)
    return files, options


def refusal(given: dict[str, str]) -> str | None:
    """Why options of `dump` or `find`, each with its value, do not go together; None if they do."""
    names = {*given, f"--type {given.get('--type')}"}
    for name, others in _APART.items():
        for other in others:
            if {name, other} <= names:
                return f"{name} does not go with {other}"
    return next((f"{name} needs {needed}" for name, needed in _NEEDED.items() if name in names and needed not in names), None)


def _is_option(name: str, value: str) -> bool:
    """Whether it is an option with a value that the program takes for one: else the command says what is wrong with it."""
    if name in CHOICES:
        return value in CHOICES[name]
    if name in _NUMBERS:
        return value.isascii() and value.isdigit() and len(value) < 100 and int(value) <= MOST
    try:
        return name in _TEXTS and os.fsencode(value).decode() is not None
    except UnicodeDecodeError:
        return False


def execute(program: str, words: list[str]) -> None:
    """Becomes a program, with the signals as the shell gave them: those that Python ignores, and all handlers, are undone."""
    ignored = _ignored_by_shell()
    for number in _IGNORED:
        if not ignored >> (number - 1) & 1:
            signal.signal(number, signal.SIG_DFL)
    try:
        os.execv(program, [program, *words])
    except OSError:
        for number in _IGNORED:
            signal.signal(number, signal.SIG_IGN)
        raise


def _ignored_by_shell() -> int:
    """The signals that this process was started with as ignored, a bit for each.

    Where `bsonkit` has not noted them, as below `python3 -m bsonfind`, they are those of the parent, unless that is a Python: it ignores
    signals that it does not pass on.
    """
    number, _, ignored = os.environ.pop(_NOTED, "").partition(" ")
    if number == str(os.getpid()):
        return int(ignored, 16)
    try:
        with open(f"/proc/{os.getppid()}/status", "rb") as status:
            fields = {name: text for name, _, text in (line.partition(b":\t") for line in status)}
        return 0 if fields[b"Name"].startswith(b"python") else int(fields[b"SigIgn"], 16)
    except (OSError, LookupError, ValueError):
        return 0


def _has_streams() -> bool:
    """Whether no standard stream is closed."""
    try:
        return all(os.fstat(number) for number in range(3))
    except OSError:
        return False


def _is_input(name: str) -> bool:
    """Whether a file is standard input, which is to be the dump: then the query is read before that."""
    try:
        return name == "-" or os.path.samestat(os.stat(name), os.fstat(0))
    except (OSError, ValueError):
        return False  # The program says what is wrong with it.


def _take_as_input(name: str) -> bool:
    """Makes standard input of a plain file; False if it is another one."""
    descriptor = 0 if name == "-" else _plain(name)
    if descriptor:
        _make_input(descriptor)
    return descriptor is not None and (descriptor > 0 or _is_plain(0))


def take_text(name: str) -> bool:
    """Makes standard input of a text; False if it cannot be opened."""
    try:
        if name != "-":
            _make_input(os.open(name, os.O_RDONLY))
    except (OSError, ValueError):
        return False  # Whoever packs it says so.
    return not stat.S_ISDIR(os.fstat(0).st_mode)


def _make_input(descriptor: int) -> None:
    os.dup2(descriptor, 0)
    os.close(descriptor)


def _plain(name: str) -> int | None:
    """A descriptor of a plain file; None if it is another one."""
    try:
        if name.endswith(".gz") or not stat.S_ISREG(os.stat(name).st_mode):
            return None
        descriptor = os.open(name, os.O_RDONLY)
    except (OSError, ValueError):
        return None  # What reads it says what is wrong with it.
    if _is_plain(descriptor):
        return descriptor
    os.close(descriptor)
    return None


def _is_plain(descriptor: int) -> bool:
    """Whether a run can read it: a regular file, of at most this many bytes from where it is, and no archive."""
    status = os.fstat(descriptor)
    if not stat.S_ISREG(status.st_mode):
        return False
    at = os.lseek(descriptor, 0, os.SEEK_CUR)
    if status.st_size - at > _LARGEST:
        return False
    head = os.pread(descriptor, _HEAD, at)
    return not head.startswith(_OTHERS) and (_begins_document(head) or _is_no_other(head))


def _begins_document(head: bytes) -> bool:
    """Whether it begins with the length of a document, and if that is longer than 5 bytes, with the type of a field after it."""
    length = int.from_bytes(head[:4], "little")
    return 5 <= length <= _LONGEST and (length == 5 or head[4:5] > b"\0")


def _is_no_other(head: bytes) -> bool:
    """Whether what begins no document is no file of tar or the like either, of which the package says what it is."""
    from .._dumps.kinds import other_kind

    return other_kind(head) is None
