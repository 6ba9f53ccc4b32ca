#!/usr/bin/env python3
"""Makes the archives of a release, and installs, runs and removes what is in them, each in a folder of its own.

usage: tests/package/dist.py [--build]     The last line is 'N passed, M failed'. It needs ./bsonfind and ./bsonwide, and for the package dpkg-deb.

The archives are made twice, in two copies of this folder that differ in what must not matter: the name of the folder, the mode of
new files, the time zone, the times of the files. With --build the second copy builds the programs too, over kept proofs, by rt.
What this machine lacks is named, and its tests are skipped.
"""

import hashlib
import os
import re
import shutil
import subprocess
import sys
import tarfile
import tempfile
import unittest
from pathlib import Path
from typing import Optional

sys.path.insert(0, str(Path(__file__).resolve().parents[1]))

from support import ROOT

VERSION = (ROOT / "VERSION").read_text(encoding="ascii").strip()
TIME = 1_600_000_000
HAS_DPKG = bool(shutil.which("dpkg-deb"))
BUILDS = "--build" in sys.argv[1:]
MODULES = "lib/python3/dist-packages"
# What the package of Debian calls otherwise, or has alone.
RENAMED = {
    "share/doc/bsonfind/LICENSE": "share/doc/bsonfind/copyright",
    "share/doc/bsonfind/CHANGELOG.md": "share/doc/bsonfind/changelog.gz",
    "share/man/man1/bsonfind.1": "share/man/man1/bsonfind.1.gz",
    "share/man/man1/bsonwide.1": "share/man/man1/bsonwide.1.gz",
    "share/man/man1/bsonkit.1": "share/man/man1/bsonkit.1.gz",
    "share/zsh/site-functions/_bsonfind": "share/zsh/vendor-completions/_bsonfind",
    "share/zsh/site-functions/_bsonwide": "share/zsh/vendor-completions/_bsonwide",
    "share/zsh/site-functions/_bsonkit": "share/zsh/vendor-completions/_bsonkit",
}
OWN = "share/lintian/overrides/bsonfind"
PROGRAMS = ("bsonfind", "bsonwide")
COMMANDS = (*PROGRAMS, "bsonkit")


def run(words: list[str], cwd: Optional[Path] = None, umask: int = -1, **env: str) -> subprocess.CompletedProcess:
    """Run a command and take what it prints, with /sbin on PATH, which dpkg needs."""
    path = f"{os.environ['PATH']}:/usr/sbin:/sbin"
    told = {**os.environ, "PATH": path, "LC_ALL": "C.UTF-8", **env}
    for name in ("MAKEFLAGS", "MFLAGS", "MAKELEVEL"):
        told.pop(name, None)
    return subprocess.run(words, cwd=cwd, env=told, umask=umask, stdin=subprocess.DEVNULL, capture_output=True, text=True)


def links_that_lead_nowhere(documents: Path) -> list[str]:
    """Return the links of the README and of the guide to files that are not installed."""
    lost = []
    for page in (documents / "README.md", documents / "docs/GUIDE.md"):
        links = re.findall(r"\]\(([^)#\s]+)", page.read_text(encoding="utf-8"))
        lost += [f"{page.name}: {it}" for it in links if "://" not in it and not (page.parent / it).is_file()]
    return lost


def copy_of_tree(to: Path) -> Path:
    """Copy this folder, as it stands, with its programs."""
    skipped = shutil.ignore_patterns(".git", "out", "dist", "__pycache__", ".build-times")
    shutil.copytree(ROOT, to, symlinks=True, ignore=skipped)
    return to


class Archives(unittest.TestCase):
    """The archives of two copies, and what each installs."""

    @classmethod
    def setUpClass(cls) -> None:
        """Make the archives in both copies."""
        cls.folder = tempfile.TemporaryDirectory(prefix="bsonfind-dist-test-")
        cls.addClassCleanup(cls.folder.cleanup)
        room = Path(cls.folder.name)
        cls.first, cls.second = copy_of_tree(room / "first"), copy_of_tree(room / "the second copy")
        for it in cls.second.rglob("*"):
            if not it.is_symlink():
                os.utime(it, (TIME - 9, TIME - 9))
        for program in (cls.second / it for it in PROGRAMS):
            if BUILDS:
                program.unlink()
            else:
                os.utime(program, (TIME - 8, TIME - 8))
        # One takes the time from its commit, the other is told it.
        env = {"GIT_COMMITTER_DATE": f"{TIME} +0000", "GIT_CONFIG_GLOBAL": "/dev/null"}
        for name in ("AUTHOR", "COMMITTER"):
            env |= {f"GIT_{name}_NAME": "A tester", f"GIT_{name}_EMAIL": "tester@tests.invalid"}
        if shutil.which("git"):
            for words in (["init", "-q"], ["add", "-A"], ["commit", "-q", "-m", "all"]):
                ran = run(["git", *words], cls.first, **env)
                assert ran.returncode == 0, ran.stderr
            env.clear()
        else:
            env["SOURCE_DATE_EPOCH"] = str(TIME)
        (room / "made here").mkdir()
        kinds = ["deb", "dist"] if HAS_DPKG else ["dist"]
        cls.ran = [
            run(["make", *kinds], cls.first, umask=0o022, TZ="UTC", **env),
            run(["make", *kinds], cls.second, umask=0o077, TZ="Asia/Tokyo", TMPDIR=f"{room}/made here", SOURCE_DATE_EPOCH=str(TIME)),
        ]
        cls.made = cls.first / "dist"
        cls.room = room

    def setUp(self) -> None:
        """Check that the archives are there; make a folder for the test."""
        for ran in self.ran:
            self.assertEqual(ran.returncode, 0, ran.stdout + ran.stderr)
        self.own = Path(tempfile.mkdtemp(dir=self.room))

    def archive(self, pattern: str) -> Path:
        """Return the one archive with a name such as this."""
        (found,) = self.made.glob(pattern)
        return found

    def tar(self) -> Path:
        """Return the tar.gz."""
        return self.archive(f"bsonfind-{VERSION}-linux-*.tar.gz")

    def deb(self) -> Path:
        """Return the package of Debian; skip the test where none is made."""
        if not HAS_DPKG:
            self.skipTest("this machine has no dpkg-deb")
        return self.archive(f"bsonfind_{VERSION}_*.deb")

    def test_twice_the_same_bytes(self) -> None:
        """Two copies of one commit give the same archives."""
        first, second = (
            {it.name: hashlib.sha256(it.read_bytes()).hexdigest() for it in (copy / "dist").iterdir()} for copy in (self.first, self.second)
        )
        self.assertEqual(first, second)
        self.assertEqual(len(first), 3 if HAS_DPKG else 2)

    def test_twice_the_same_program(self) -> None:
        """The programs that a copy builds are those that were there."""
        if not BUILDS:
            self.skipTest("no --build: the second copy has copies of the programs")
        for it in PROGRAMS:
            self.assertEqual((self.first / it).read_bytes(), (self.second / it).read_bytes(), it)

    def test_sums(self) -> None:
        """SHA256SUMS has all archives, and sha256sum agrees."""
        told = run(["sha256sum", "--check", "--strict", "SHA256SUMS"], self.made)
        self.assertEqual(told.returncode, 0, told.stderr)
        names = sorted(it.name for it in self.made.iterdir() if it.name != "SHA256SUMS")
        self.assertEqual(told.stdout.splitlines(), [f"{it}: OK" for it in names])

    def files_installed(self) -> list[str]:
        """Return the files that `make install` puts, below PREFIX."""
        stage = self.own / "stage"
        package = f"PACKAGE={stage}/usr/{MODULES}/bsonfind"
        ran = run(["make", "-s", "install", f"DESTDIR={stage}", "PREFIX=/usr", package], self.first)
        self.assertEqual(ran.returncode, 0, ran.stderr)
        return [str(it) for it in sorted(it.relative_to(stage / "usr") for it in stage.rglob("*") if it.is_file())]

    def want_plain(self, entries: list[tarfile.TarInfo]) -> None:
        """Check that all entries have fixed owners, modes and times, and that their names are sorted."""
        for it in entries:
            self.assertEqual((it.uid, it.gid, it.uname, it.gname, it.mtime), (0, 0, "root", "root", TIME), it.name)
            runs = it.isdir() or it.name.endswith(tuple(f"/bin/{command}" for command in COMMANDS))
            self.assertEqual(it.mode, 0o755 if runs else 0o644, it.name)
        names = [Path(it.name) for it in entries]
        self.assertEqual(names, sorted(names))

    def test_files_of_the_tar(self) -> None:
        """The tar.gz has the files that are installed, and no other, below one folder."""
        with tarfile.open(self.tar()) as archive:
            entries = archive.getmembers()
        top = self.tar().name[: -len(".tar.gz")]
        self.assertEqual([it.name for it in entries], [f"{top}/{it}" for it in self.files_installed()])
        self.want_plain(entries)

    def test_files_of_the_deb(self) -> None:
        """The package has the files that are installed, some by Debian's names."""
        deb = self.deb()
        with subprocess.Popen(["dpkg-deb", "--fsys-tarfile", deb], stdout=subprocess.PIPE) as told:
            with tarfile.open(fileobj=told.stdout, mode="r|") as archive:
                entries = list(archive)
        wanted = sorted([*(RENAMED.get(it, it) for it in self.files_installed()), OWN])
        self.assertEqual(sorted(it.name for it in entries if it.isfile()), [f"./usr/{it}" for it in wanted])
        self.want_plain([it for it in entries if it.isdir()])
        self.want_plain([it for it in entries if it.isfile()])

    def field(self, name: str) -> str:
        """Return a field of the package."""
        return run(["dpkg-deb", "-f", str(self.deb()), name]).stdout.strip()

    def test_fields(self) -> None:
        """The package has the version, and needs the newest version of the C library that a symbol of a program has."""
        self.assertEqual(self.field("Version"), VERSION)
        if not shutil.which("objdump"):
            self.skipTest("this machine has no objdump")
        symbols = run(["objdump", "-T", *(str(self.first / it) for it in PROGRAMS)]).stdout
        newest = max(re.findall(r"GLIBC_([\d.]+)", symbols), key=lambda it: [int(part) for part in it.split(".")])
        self.assertEqual(self.field("Depends"), f"libc6 (>= {newest})")

    def test_lintian(self) -> None:
        """Debian's lintian finds no error and no warning."""
        deb = self.deb()
        if not shutil.which("lintian"):
            self.skipTest("this machine has no lintian")
        ran = run(["lintian", "--allow-root", "--fail-on", "error,warning", str(deb)])
        self.assertEqual((ran.returncode, ran.stdout), (0, ""), ran.stderr)

    def want_working(self, prefix: Path) -> None:
        """Check what is installed below a prefix: the programs, their manual pages, the Python package."""
        program = str(prefix / "bin/bsonfind")
        examples = prefix / "share/doc/bsonfind/examples"
        told = run([program, "--help"])
        self.assertEqual((told.returncode, told.stdout[:15]), (0, "usage: bsonfind"))
        told = run([program, "dump", str(examples / "shop.bson")])
        self.assertEqual((told.returncode, told.stdout), (0, (ROOT / "examples/shop.jsonl").read_text(encoding="utf-8")))
        told = run([str(prefix / "bin/bsonwide"), "--help"])
        self.assertEqual((told.returncode, told.stdout[:15]), (0, "usage: bsonwide"))
        asks = "import bsonfind, sys; from importlib.metadata import version; "
        asks += "print(bsonfind.__version__, version('bsonfind'), len(list(bsonfind.find(sys.argv[1], limit=3))))"
        path = f"{prefix}/bin:{os.environ['PATH']}"
        told = run([sys.executable, "-c", asks, str(examples / "shop.bson")], self.own, PYTHONPATH=str(prefix / MODULES), PATH=path)
        self.assertEqual(told.stdout, f"{VERSION} {VERSION} 3\n", told.stderr)
        # It finds the package and the programs that were installed with it, whatever stands on PATH.
        told = run([str(prefix / "bin/bsonkit"), "audit", str(examples / "shop.bson")], self.own, PATH=os.defpath)
        self.assertEqual((told.returncode, told.stdout.splitlines()[0][-23:]), (0, "400 documents, 0 faulty"), told.stderr)
        self.assertEqual(links_that_lead_nowhere(prefix / "share/doc/bsonfind"), [])
        if shutil.which("man"):
            for name in COMMANDS:
                page = run(["man", name], MANPATH=str(prefix / "share/man"), MANWIDTH="80").stdout
                self.assertEqual(page.splitlines()[-1].split()[:2], ["bsonfind", VERSION])

    def test_tar_installed(self) -> None:
        """The tar.gz works below any prefix, and leaves a folder that is there as it is."""
        prefix = self.own / "a prefix"
        (prefix / "lib").mkdir(parents=True, mode=0o700)
        ran = run(["tar", "-xzf", str(self.tar()), "-C", str(prefix), "--strip-components=1"], umask=0o022)
        self.assertEqual(ran.returncode, 0, ran.stderr)
        self.want_working(prefix)
        self.assertEqual((prefix / "lib").stat().st_mode & 0o777, 0o700)

    def dpkg(self, top: Path, *words: str) -> subprocess.CompletedProcess:
        """Run dpkg over a system of its own, without its programs."""
        how = [f"--root={top}", "--force-script-chrootless", "--path-include=/usr/*", "--no-triggers"]
        return run(["dpkg", *how, *words])

    def system(self, libc: str) -> Path:
        """Make a system that has nothing but a C library, by its name and version alone."""
        if os.geteuid() != 0:
            self.skipTest("dpkg installs as root alone, and this is another user")
        top = self.own / "system"
        for name in ("updates", "info"):
            Path(top, "var/lib/dpkg", name).mkdir(parents=True)
        stanza = f"Package: libc6\nStatus: install ok installed\nArchitecture: {self.field('Architecture')}\nVersion: {libc}\n"
        stanza += "Maintainer: A tester <tester@tests.invalid>\nDescription: a C library\n"
        Path(top, "var/lib/dpkg/status").write_text(stanza, encoding="ascii")
        Path(top, "var/lib/dpkg/info/libc6.list").write_text("/.\n", encoding="ascii")
        return top

    def test_deb_unpacked(self) -> None:
        """The files of the package work where they are unpacked."""
        ran = run(["dpkg", "-x", str(self.deb()), str(self.own / "system")])
        self.assertEqual(ran.returncode, 0, ran.stderr)
        self.want_working(self.own / "system/usr")

    def test_deb_installed_and_removed(self) -> None:
        """The package installs, works, and leaves nothing when it is removed."""
        deb = self.deb()
        top = self.system("2.34-1")
        ran = self.dpkg(top, "-i", str(deb))
        self.assertEqual(ran.returncode, 0, ran.stdout + ran.stderr)
        self.want_working(top / "usr")
        for folder in ("bsonfind", "bsonfind/_run"):
            Path(top, "usr", MODULES, folder, "__pycache__").mkdir(exist_ok=True)
            Path(top, "usr", MODULES, folder, "__pycache__/told.cpython-311.pyc").touch()
        told = self.dpkg(top, "--verify", "bsonfind")
        self.assertEqual((told.returncode, told.stdout), (0, ""), told.stderr)
        ran = self.dpkg(top, "-r", "bsonfind")
        self.assertEqual(ran.returncode, 0, ran.stdout + ran.stderr)
        self.assertEqual([str(it) for it in top.glob("usr/**/*")], [])
        status = Path(top, "var/lib/dpkg/status").read_text(encoding="utf-8")
        self.assertEqual(re.findall(r"^Package: (.*)$", status, re.MULTILINE), ["libc6"])

    def test_deb_with_an_older_library(self) -> None:
        """The package is not installed where the C library is too old, and dpkg says which is needed."""
        deb = self.deb()
        ran = self.dpkg(self.system("2.31-13"), "-i", str(deb))
        self.assertNotEqual(ran.returncode, 0)
        self.assertIn(f"bsonfind depends on {self.field('Depends')}", ran.stderr)

    def test_refusals(self) -> None:
        """What keeps an archive from being made is said in a line."""
        words = [sys.executable, str(self.first / "tools/dist.py")]
        env = {"SOURCE_DATE_EPOCH": str(TIME), "PATH": str(self.own)}
        told = subprocess.run([*words, "deb"], env=env, capture_output=True, text=True)
        self.assertEqual(told.returncode, 1)
        self.assertRegex(told.stderr, "^make deb: this machine has no dpkg-deb.*\n$")
        kept = (self.first / "VERSION").read_bytes()
        self.addCleanup((self.first / "VERSION").write_bytes, kept)
        for text, reason in (("1.2\n", "no version such as"), ("9.9.9\n", "CHANGELOG.md has no entry for version 9.9.9")):
            (self.first / "VERSION").write_text(text, encoding="ascii")
            told = run([*words, "dist"])
            self.assertEqual(told.returncode, 1)
            self.assertRegex(told.stderr, f"^make dist: .*{reason}.*\n$")


def main() -> int:
    """Run all tests; say what was skipped."""
    suite = unittest.defaultTestLoader.loadTestsFromTestCase(Archives)
    result = unittest.TextTestRunner(stream=sys.stdout).run(suite)
    for test, reason in result.skipped:
        print(f"skipped: {test.shortDescription()} {reason}")
    failed = len(result.failures) + len(result.errors)
    print(f"{max(result.testsRun - failed - len(result.skipped), 0)} passed, {failed} failed")
    return 1 if failed else 0


if __name__ == "__main__":
    sys.exit(main())
