"""Where the program is, `bsonwide`: beside the command and the package, beside what these link to, and else on PATH."""

from __future__ import annotations

import os
import sys
import time

WIDE = "bsonwide"
# The name of the other program, which has it beside it, and may be given in its place.
_SMALL = "bsonfind"
# The script that is the command of the package.
_COMMAND = "bsonkit"
# The folders of packages below a prefix, such as /usr/lib/python3/dist-packages, which has its programs in /usr/bin; and that of the
# repository, which has them beside it.
_PACKAGES, _SOURCES = ("site-packages", "dist-packages"), "python"
# How many seconds a program is waited for that is asked for its version.
PATIENCE = 5
# The programs that did not answer for so long, which are not asked again.
silent: set[str] = set()


def wide_beside(program: object) -> str:
    """The file of `bsonwide` for a program that is named. If there is none the error says what was looked for, and where."""
    from .._arguments import name_of
    from .._errors import ArgumentError, ProgramError

    name = name_of(program)  # type: ignore[arg-type]
    if not name:
        raise ArgumentError("program is the name of a program, not an empty one")
    wide, found = located_wide(name), _found(name)
    if wide or not (found or name in (WIDE, _SMALL)):
        return wide or name  # One that is not there cannot be started, and the error says why.
    folders = "".join(f"{it}, " for it in dict.fromkeys([*_beside(found), *_beside_package()]))
    raise ProgramError(f"cannot find {WIDE}: looked in {folders}and on PATH, {os.environ.get('PATH', os.defpath)}")


def located_wide(program: str) -> str | None:
    """The file of `bsonwide`: beside a program that is named, or beside what it links to, and else the first one; None if there is none."""
    found = _found(program) or (_found(_SMALL) if program == WIDE else None)
    if found:
        return _first(WIDE, _beside(found)) or _found(WIDE)
    return _found(WIDE) if program == _SMALL else None


def says(program: str, text: bytes) -> bool:
    """Whether a program prints this text for --version. Little is imported for it, since what becomes the program asks so too."""
    try:
        read, write = os.pipe()
    except OSError:
        return False  # Whoever starts it says why.
    with open(read, "rb", buffering=0) as pipe:
        try:
            child = os.posix_spawn(program, [program, "--version"], os.environ, file_actions=[(os.POSIX_SPAWN_DUP2, write, 1)])
        except OSError:
            return False  # Whoever starts it says why.
        finally:
            os.close(write)
        told = answer(pipe.fileno(), len(text) + 1)
    if told is None:
        silent.add(program)
        os.kill(child, 9)
    try:
        os.waitpid(child, 0)
    except ChildProcessError:
        pass  # Where SIGCHLD is ignored nothing is waited for.
    return told == text


def answer(pipe: int, most: int) -> bytes | None:
    """What a program prints to a pipe, at most this many bytes; None if that takes more than `PATIENCE` seconds."""
    from select import POLLIN, poll

    waiting, until, told = poll(), time.monotonic() + PATIENCE, b""
    waiting.register(pipe, POLLIN)
    while len(told) < most:
        if not waiting.poll(max(0.0, until - time.monotonic()) * 1000):
            return None
        piece = os.read(pipe, most - len(told))
        if not piece:
            break
        told += piece
    return told


def _found(program: str) -> str | None:
    """The file of a program by its name, as a shell finds it, but those beside the package come first."""
    if os.path.dirname(program):
        return program if _is_program(program) else None
    return _first(program, [*_beside_package(), *os.get_exec_path()])


def _first(program: str, folders: list[str]) -> str | None:
    """The first program of a name in some folders."""
    return next((file for file in (os.path.join(it, program) for it in folders) if _is_program(file)), None)


def _beside(file: str | None) -> list[str]:
    """The folder of a file, and that of what it links to."""
    return [os.path.dirname(file), os.path.dirname(os.path.realpath(file))] if file else []


def _beside_package() -> list[str]:
    """The folders of programs beside the command and the package, and then those beside what these link to."""
    command = (getattr(sys, "argv", None) or [""])[0]
    is_ours = os.path.basename(command) == _COMMAND
    folders: list[str] = []
    for command, module in ((os.path.abspath(command), os.path.abspath(__file__)), (os.path.realpath(command), os.path.realpath(__file__))):
        folders += [*([os.path.dirname(command)] if is_ours else []), *_programs_of(module)]
    return list(dict.fromkeys(folders))


def _programs_of(module: str) -> list[str]:
    """The folder of the programs that belong to the package that has this module, if it is known."""
    packages = os.path.dirname(os.path.dirname(os.path.dirname(module)))
    above = os.path.dirname(packages)
    if os.path.basename(packages) in _PACKAGES:
        return [os.path.join(os.path.dirname(os.path.dirname(above)), "bin")]
    return [above] if os.path.basename(packages) == _SOURCES else []


def _is_program(file: str) -> bool:
    try:
        return os.path.isfile(file) and os.access(file, os.X_OK)
    except ValueError:
        return False  # No name of a file.
