#!/usr/bin/env python3
"""Makes the package of Python as pip does, without a network, and imports what was made: a wheel, an archive of the sources, a zip.

usage: tests/package/wheels.py     The last line is 'N passed, M failed'. It needs ./bsonfind or the program of BSONFIND, and pip.

All files are in a temporary folder. pip is kept from every index, so it takes nothing but what is here.
"""

import importlib.util
import json
import os
import re
import subprocess
import sys
import tarfile
import tempfile
import unittest
import zipfile
from pathlib import Path

sys.path.insert(0, str(Path(__file__).resolve().parents[1]))

from support import PROGRAM, ROOT

PACKAGE = ROOT / "python"
VERSION = (ROOT / "VERSION").read_text(encoding="ascii").strip()
PROGRAM_HERE = os.environ.get("BSONFIND") or str(PROGRAM)
WHEEL = f"bsonfind-{VERSION}-py3-none-any.whl"
# What the README prints of an audit and a salvage.
REPORTS = "False [('people.bson', 500, 0, None), ('missing.bson', 0, 0, 'No such file or directory')]\n500 0 0\n"
HAS_PIP = importlib.util.find_spec("pip") is not None
# What each copy of the package is asked for.
ASKS = """
import sys, bsonfind
from importlib.metadata import version
found = bsonfind.find_one(sys.argv[1], {"_id": 7}, decode="plain", program=sys.argv[2])
print(bsonfind.__version__, found["_id"], bsonfind.__file__)
"""


def run(*words: object, cwd: Path, **env: str) -> subprocess.CompletedProcess:
    """Run a command where no index of packages is reached and no package is found but by `env`."""
    alone = {name: text for name, text in os.environ.items() if not name.startswith(("PYTHON", "PIP_"))}
    how = {"PIP_NO_INDEX": "1", "PIP_DISABLE_PIP_VERSION_CHECK": "1", "PIP_NO_CACHE_DIR": "1", "SOURCE_DATE_EPOCH": "1600000000"}
    return subprocess.run([*map(str, words)], cwd=cwd, env={**alone, **how, **env}, capture_output=True, text=True)


class Wheels(unittest.TestCase):
    """What pip and others make of the package."""

    def setUp(self) -> None:
        """Make a folder for the test."""
        folder = tempfile.TemporaryDirectory(prefix="bsonfind-wheels-")
        self.addCleanup(folder.cleanup)
        self.room = Path(folder.name)

    def done(self, *words: object, **env: str) -> str:
        """Run a command that works, and return what it prints."""
        ran = run(*words, cwd=self.room, **env)
        self.assertEqual(ran.returncode, 0, ran.stdout + ran.stderr)
        return ran.stdout

    def pip(self, *words: object, **env: str) -> None:
        """Run pip."""
        if not HAS_PIP:
            self.skipTest("this Python has no pip")
        self.done(sys.executable, "-m", "pip", "-q", *words, **env)

    def wheel(self, source: object = PACKAGE, to: str = "wheels", *options: str) -> Path:
        """Make a wheel."""
        self.pip("wheel", "--no-deps", "-w", self.room / to, *options, source)
        (made,) = (self.room / to).iterdir()
        return made

    def want_working(self, path: Path, inside: str) -> None:
        """Check that the package works from a path of Python, and that it is the one there."""
        told = self.done(sys.executable, "-c", ASKS, ROOT / "examples/people.bson", PROGRAM_HERE, PYTHONPATH=str(path))
        version, number, file = told.split(maxsplit=2)
        self.assertEqual((version, number), (VERSION, "7"))
        self.assertIn(inside, file)

    def test_wheel(self) -> None:
        """pip makes a wheel with and without a place of its own to build in, of the same bytes."""
        first, second = self.wheel(), self.wheel(PACKAGE, "others", "--no-build-isolation")
        self.assertEqual((first.name, second.name), (WHEEL, WHEEL))
        self.assertEqual(first.read_bytes(), second.read_bytes())
        with zipfile.ZipFile(first) as archive:
            names = archive.namelist()
            self.assertIsNone(archive.testzip())
            self.assertEqual(archive.read("bsonfind/VERSION").decode().strip(), VERSION)
            metadata = archive.read(f"bsonfind-{VERSION}.dist-info/METADATA").decode()
        wanted = sorted(str(it.relative_to(PACKAGE)) for it in (PACKAGE / "bsonfind").rglob("*") if it.suffix != ".pyc" and it.is_file())
        self.assertEqual([it for it in names if it.startswith("bsonfind/")], wanted)
        self.assertIn(f"\nVersion: {VERSION}\n", metadata)
        self.assertIn("\nRequires-Python: >=3.9\n", metadata)
        self.assertTrue(metadata.endswith((PACKAGE / "README.md").read_text(encoding="utf-8")))

    def test_installed_wheel(self) -> None:
        """The wheel installs, with its command."""
        place = self.room / "there"
        self.pip("install", "--no-deps", "--target", place, self.wheel())
        self.want_working(place, str(place))
        tools = place / "bin/bsonkit"
        self.assertIn(VERSION, self.done(tools, "--version", PYTHONPATH=str(place)))
        told = self.done(tools, "audit", "--program", PROGRAM_HERE, ROOT / "examples/people.bson", PYTHONPATH=str(place))
        self.assertIn("500 documents, 0 faulty", told)
        # bsonwide alone, on PATH, is enough.
        alone = self.room / "alone"
        alone.mkdir()
        (alone / "bsonwide").symlink_to(Path(PROGRAM_HERE).resolve().with_name("bsonwide"))
        told = self.done(tools, "audit", ROOT / "examples/people.bson", PYTHONPATH=str(place), PATH=f"{alone}:{os.defpath}")
        self.assertIn("500 documents, 0 faulty", told)
        listed = self.done(sys.executable, "-c", "from importlib.metadata import version\nprint(version('bsonfind'))", PYTHONPATH=str(place))
        self.assertEqual(listed, f"{VERSION}\n")

    def test_archive_of_the_sources(self) -> None:
        """It has all that a wheel is made of, and the wheel of it has the same bytes."""
        code = "import sys, backend\nprint(backend.build_sdist(sys.argv[1]))"
        name = self.done(sys.executable, "-c", code, self.room, PYTHONPATH=str(PACKAGE)).strip()
        self.assertEqual(name, f"bsonfind-{VERSION}.tar.gz")
        with tarfile.open(self.room / name) as archive:
            members = {it.name: it for it in archive.getmembers()}
            self.assertTrue(all(it.isfile() for it in members.values()))
            version = archive.extractfile(f"bsonfind-{VERSION}/bsonfind/VERSION").read()
        self.assertEqual(version.decode().strip(), VERSION)
        for own in ("PKG-INFO", "README.md", "LICENSE", "pyproject.toml"):
            self.assertIn(f"bsonfind-{VERSION}/{own}", members)
        self.assertEqual(self.wheel(self.room / name).read_bytes(), self.wheel(PACKAGE, "others").read_bytes())

    def test_copies(self) -> None:
        """The package has copies of two files of the repository, since a zip of its folder holds no link."""
        for copy, own in (("bsonfind/VERSION", "VERSION"), ("LICENSE", "LICENSE")):
            self.assertEqual((PACKAGE / copy).read_bytes(), (ROOT / own).read_bytes())

    def test_zips(self) -> None:
        """The wheel itself, and a zip of the folder, are imported as they are."""
        self.want_working(self.wheel(), WHEEL)
        packed = self.room / "packed.zip"
        self.done(sys.executable, "-m", "zipfile", "-c", packed, PACKAGE / "bsonfind")
        self.want_working(packed, "packed.zip")
        self.assertIn(VERSION, self.done(sys.executable, "-m", "bsonfind", "--version", PYTHONPATH=str(packed)))

    def test_editable(self) -> None:
        """An editable install leads to the folder of the package."""
        place = self.room / "there"
        self.pip("install", "--no-deps", "--target", place, "-e", PACKAGE)
        self.assertEqual((place / "bsonfind.pth").read_text(encoding="utf-8"), f"{PACKAGE}\n")

    def test_make_install(self) -> None:
        """Python knows the version of what `make install` puts, and pip removes none of it."""
        stage = self.room / "a stage"
        package = stage / "packages/bsonfind"
        make = ("make", "-s", "-C", ROOT, f"DESTDIR={stage}", f"PACKAGE={package}", f"PYTHON={sys.executable}")
        if not all((ROOT / it).is_file() for it in ("bsonfind", "bsonwide")):
            self.skipTest("there is no ./bsonfind or no ./bsonwide to install")
        self.done(*make, "install")
        self.want_working(package.parent, str(package))
        # The command finds the program beside it, also where bsonfind is gone.
        kit = stage / "usr/local/bin/bsonkit"
        kit.with_name("bsonfind").rename(self.room / "gone")
        self.assertIn("500 documents, 0 faulty", self.done(kit, "audit", ROOT / "examples/people.bson", PATH=os.defpath))
        (self.room / "gone").rename(kit.with_name("bsonfind"))
        listed = self.done(sys.executable, "-c", "from importlib.metadata import version\nprint(version('bsonfind'))", PYTHONPATH=str(package.parent))
        self.assertEqual(listed, f"{VERSION}\n")
        documents = stage / "usr/local/share/doc/bsonfind"
        links = {page: re.findall(r"\]\(([^)#\s]+)", (documents / page).read_text(encoding="utf-8")) for page in ("README.md", "docs/GUIDE.md")}
        self.assertGreater(sum(map(len, links.values())), 10)
        for page, found in links.items():
            for link in (it for it in found if "://" not in it):
                self.assertTrue((documents / page).parent.joinpath(link).is_file(), f"{page}: {link}")
        self.done(*make, "uninstall")
        self.assertEqual([it for it in stage.rglob("*") if it.is_file()], [])

    def test_project(self) -> None:
        """The reader of pyproject.toml reads what Python's own does."""
        if sys.version_info < (3, 11):
            self.skipTest("this Python has no reader of TOML")
        import tomllib

        code = "import backend, json\nprint(json.dumps(backend.tables()))"
        told = self.done(sys.executable, "-c", code, PYTHONPATH=str(PACKAGE))
        whole = tomllib.loads((PACKAGE / "pyproject.toml").read_text(encoding="utf-8"))
        scripts = whole["project"].pop("scripts")
        wanted = {"build-system": whole["build-system"], "project": whole["project"], "project.scripts": scripts}
        self.assertEqual(json.loads(told), wanted)

    def test_readme(self) -> None:
        """The scripts of the package's README run, and find what is there."""
        text = (PACKAGE / "README.md").read_text(encoding="utf-8")
        scripts = re.findall(r"^```python\n(.*?)^```", text, re.MULTILINE | re.DOTALL)
        found = "Farid 99\nHélène 99\n"
        rows = "Farid القاهرة\nHélène Montréal\n"
        wanted = (f"{found}False\nLuís\n", f"49\n{found}", "Małgorzata\n", rows, "3 49\nHélène\n", REPORTS)
        self.assertEqual(len(scripts), len(wanted))
        (self.room / "people.bson").write_bytes((ROOT / "examples/people.bson").read_bytes())
        (self.room / "bin").mkdir()
        (self.room / "bin/bsonfind").symlink_to(Path(PROGRAM_HERE).resolve())
        path = f"{self.room}/bin:{os.environ['PATH']}"
        for script, printed in zip(scripts, wanted):
            self.assertEqual(self.done(sys.executable, "-c", script, PYTHONPATH=str(PACKAGE), PATH=path, PYTHONUTF8="1"), printed)


def main() -> int:
    """Run all tests; say what was skipped."""
    suite = unittest.defaultTestLoader.loadTestsFromTestCase(Wheels)
    result = unittest.TextTestRunner(stream=sys.stdout).run(suite)
    for test, reason in result.skipped:
        print(f"skipped: {test.shortDescription()} {reason}")
    failed = len(result.failures) + len(result.errors)
    print(f"{result.testsRun - failed - len(result.skipped)} passed, {failed} failed")
    return 1 if failed else 0


if __name__ == "__main__":
    sys.exit(main())
