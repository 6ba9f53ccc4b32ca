"""Tests of the interface of the package: what it exports, and how that is typed."""

import gzip
import inspect
import subprocess
import sys
import typing
import unittest

import bsonfind
from bsonfind import AsyncSession, Session, audit, find, find_one, find_parts, salvage

from .support import DAMAGED, PACKAGE, PEOPLE, PROGRAM, Room


class Exports(Room):
    def test_names(self) -> None:
        """What is exported is `__all__`, and each of it has a docstring; modules are private. `asyncio` is imported for what needs it."""
        self.assertEqual({name for name in dir(bsonfind) if not name.startswith("_")}, set(bsonfind.__all__))
        self.assertEqual(len(bsonfind.__all__), len(set(bsonfind.__all__)))
        with self.assertRaises(AttributeError):
            bsonfind.none
        code = "import sys, bsonfind\nassert 'asyncio' not in sys.modules\nfrom bsonfind import *\nprint(AsyncSession.__name__)"
        told = subprocess.run([sys.executable, "-c", code], cwd=PACKAGE, stdout=subprocess.PIPE, text=True, check=True).stdout
        self.assertEqual(told, "AsyncSession\n")
        for name in bsonfind.__all__:
            self.assertTrue(inspect.getdoc(getattr(bsonfind, name)), name)
        for file in (PACKAGE / "bsonfind").iterdir():
            self.assertTrue(file.name.startswith("_") or file.suffix != ".py" and file.is_file(), file)

    def test_functions_for_the_commands(self) -> None:
        good, bad = self.room / "good.bson", self.room / "bad.bson"
        path = self.file(PEOPLE.read_bytes() + DAMAGED)
        done = salvage(path, good, bad, program=PROGRAM)
        self.assertEqual((done.good, done.bad, done.left_out), (500, 1, []))
        self.assertEqual((good.read_bytes(), bad.read_bytes()), (PEOPLE.read_bytes(), DAMAGED))
        self.file(gzip.compress(PEOPLE.read_bytes()), "backup/club/people.bson.gz")
        found = audit([self.room / "backup", path], program=PROGRAM)
        self.assertEqual(sorted((it.documents, it.faulty) for it in found.reports), [(500, 0), (501, 1)])

    def test_version_of_a_release(self) -> None:
        code = "import bsonfind\nprint(bsonfind.__version__)"
        told = subprocess.run([sys.executable, "-c", code], cwd=PACKAGE, stdout=subprocess.PIPE, text=True, check=True).stdout
        self.assertEqual(told, (PACKAGE.parent / "VERSION").read_text(encoding="ascii"))


    @unittest.skipIf(sys.version_info < (3, 10), "Python reads the types of these sources from 3.10 on")
    def test_types_that_are_read(self) -> None:
        """Whatever reads types as Python runs, such as a framework, reads those of each name, also if it alone was imported."""
        code = """
import inspect, os, sys, typing
for name in sys.argv[1:]:
    if os.fork():
        os.wait()
        continue
    import bsonfind
    it = getattr(bsonfind, name)
    for function in (value for _, value in inspect.getmembers(it, inspect.isfunction)) if inspect.isclass(it) else [it]:
        if function.__module__.startswith("bsonfind"):
            typing.get_type_hints(function)
    print(name, flush=True)
    os._exit(0)
"""
        run = subprocess.run([sys.executable, "-c", code, *bsonfind.__all__], cwd=PACKAGE, capture_output=True, text=True)
        self.assertEqual((run.stdout.split(), run.stderr), (bsonfind.__all__, ""))


@unittest.skipIf(sys.version_info < (3, 11), "Python tells the overloads of a function from 3.11 on")
class Types(unittest.TestCase):
    """What `decode` says of the documents is known to a checker of types."""

    WANTED = {
        find: "Answer[{}]",
        find_one: "{} | None",
        find_parts: "list[{}]",
        Session.find: "Cursor[{}]",
        Session.find_one: "{} | None",
        AsyncSession.find: "AsyncCursor[{}]",
        AsyncSession.find_one: "{} | None",
    }

    def test_overloads(self) -> None:
        for function, returned in self.WANTED.items():
            with self.subTest(function.__qualname__):
                overloads = [inspect.signature(it) for it in typing.get_overloads(function)]
                kinds = [(it.parameters["decode"].annotation, it.return_annotation) for it in overloads]
                documents = {"Dicts": "dict[str, Any]", "Raw": "bytes", "Callable[[bytes], T]": "T"}
                wanted = [(kind.replace('"', "'"), returned.format(it)) for kind, it in documents.items()]
                self.assertEqual([(kind.replace('"', "'"), it) for kind, it in kinds], wanted)
                own = inspect.signature(function).parameters
                for it in overloads:
                    self.assertEqual(list(it.parameters), list(own))
                    for name, parameter in it.parameters.items():
                        self.assertEqual(parameter.kind, own[name].kind)
                        if name != "decode":
                            self.assertEqual((parameter.annotation, parameter.default), (own[name].annotation, own[name].default))
