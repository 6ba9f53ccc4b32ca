#!/usr/bin/env python3
"""Makes an archive of a release in dist, from the files that `make install` puts.

usage: tools/dist.py deb     makes bsonfind_VERSION_ARCH.deb, by Debian's dpkg-deb
       tools/dist.py dist    makes bsonfind-VERSION-linux-ARCH.tar.gz

SHA256SUMS has the sums of the archives that are there. The same commit gives the same bytes: names are sorted, owners are root,
and times are that of the commit, or SOURCE_DATE_EPOCH where it is set.
"""

import gzip
import hashlib
import io
import os
import re
import shutil
import subprocess
import sys
import tarfile
import tempfile
import textwrap
from datetime import datetime, timezone
from email.utils import format_datetime
from pathlib import Path
from string import Template

ROOT = Path(__file__).resolve().parent.parent
DIST = ROOT / "dist"
PACKAGING = ROOT / "packaging"
# Where Debian's Python looks for the modules of packages. Another Python finds them by PYTHONPATH.
MODULES = "lib/python3/dist-packages"
# Debian's name of a file, by the name that make install gives it.
DEBIAN_NAMES = {
    "usr/share/doc/bsonfind/LICENSE": "usr/share/doc/bsonfind/copyright",
    "usr/share/zsh/site-functions/_bsonfind": "usr/share/zsh/vendor-completions/_bsonfind",
    "usr/share/zsh/site-functions/_bsonwide": "usr/share/zsh/vendor-completions/_bsonwide",
    "usr/share/zsh/site-functions/_bsonkit": "usr/share/zsh/vendor-completions/_bsonkit",
}
PROGRAMS = ("bsonfind", "bsonwide")
# The command that is a script, and the Python that it starts, which in a package of Debian is that of the system.
SCRIPT, PYTHON, DEBIAN_PYTHON = "usr/bin/bsonkit", "exec python3 ", "exec /usr/bin/python3 "


class Refused(Exception):
    """Why no archive is made."""


def version() -> str:
    """Return the version, of which the changelog must have an entry."""
    text = (ROOT / "VERSION").read_text(encoding="ascii").strip()
    if not re.fullmatch(r"\d+\.\d+\.\d+", text):
        raise Refused(f"VERSION has {text!r}, which is no version such as 0.1.0")
    if text not in (number for number, _, _ in releases()):
        raise Refused(f"CHANGELOG.md has no entry for version {text}")
    return text


def releases() -> list[tuple[str, str, str]]:
    """Return the number, the day and the entry of each version in the changelog, the newest first."""
    text = (ROOT / "CHANGELOG.md").read_text(encoding="utf-8")
    return re.findall(r"^## \[([\d.]+)\] - (\d{4}-\d\d-\d\d)\n(.*?)(?=^## |\Z)", text, re.MULTILINE | re.DOTALL)


def time_of_commit() -> int:
    """Return the time that all files of an archive have, in seconds since 1970."""
    if given := os.environ.get("SOURCE_DATE_EPOCH"):
        return int(given)
    git = ["git", "-C", str(ROOT)]
    asked = subprocess.run([*git, "log", "-1", "--format=%ct"], capture_output=True, text=True)
    if asked.returncode:
        raise Refused("no commit says which time the files have: set SOURCE_DATE_EPOCH")
    if subprocess.run([*git, "status", "--porcelain"], capture_output=True, text=True).stdout:
        print("note: this folder has changes that no commit has, and the archive has them too")
    return int(asked.stdout)


def install(stage: Path) -> None:
    """Put below a folder what `make install` puts below /."""
    package = f"{stage}/usr/{MODULES}/bsonfind"
    env = {name: text for name, text in os.environ.items() if name not in ("MAKEFLAGS", "MFLAGS", "MAKELEVEL")}
    words = ["make", "-s", "-C", str(ROOT), "install", f"DESTDIR={stage}", "PREFIX=/usr", f"PACKAGE={package}"]
    subprocess.run(words, env=env, check=True)


def needed(programs: list[Path]) -> str:
    """Return the package of Debian that the programs need: a C library that has each version of a symbol that they name."""
    named = []
    for program in programs:
        told = subprocess.run(["ldd", program], capture_output=True, text=True, check=True).stdout
        libraries = set(re.findall(r"^\s*(\S+) =>", told, re.MULTILINE))
        if libraries != {"libc.so.6"}:
            raise Refused(f"packaging/control knows libc.so.6 alone, and {program.name} needs {', '.join(sorted(libraries))}")
        named += re.findall(rb"GLIBC_(\d+)\.(\d+)", program.read_bytes())
    newest = max((int(major), int(minor)) for major, minor in named)
    return f"libc6 (>= {newest[0]}.{newest[1]})"


def debian_changelog(maintainer: str) -> str:
    """Return the changelog as Debian writes one."""
    entries = []
    for number, day, entry in releases():
        items = [" ".join(it.split()) for it in re.findall(r"^- (.*(?:\n  .*)*)", entry, re.MULTILINE)]
        lines = "\n".join(textwrap.fill(it, 79, initial_indent="  * ", subsequent_indent="    ") for it in items)
        date = format_datetime(datetime.fromisoformat(day).replace(tzinfo=timezone.utc))
        entries.append(f"bsonfind ({number}) unstable; urgency=medium\n\n{lines}\n\n -- {maintainer}  {date}\n")
    return "\n".join(entries)


def make_deb(number: str, time: int, stage: Path) -> Path:
    """Make the package of Debian from the files that are installed below a folder."""
    template = (PACKAGING / "control").read_text(encoding="utf-8")
    maintainer, = re.findall(r"^Maintainer: (.*)$", template, re.MULTILINE)
    for name, debian in DEBIAN_NAMES.items():
        (stage / debian).parent.mkdir(exist_ok=True)
        (stage / name).rename(stage / debian)
    (stage / "usr/share/zsh/site-functions").rmdir()
    script = (stage / SCRIPT).read_text(encoding="ascii")
    (stage / SCRIPT).write_text(script.replace(PYTHON, DEBIAN_PYTHON), encoding="ascii")
    documents = stage / "usr/share/doc/bsonfind"
    (documents / "CHANGELOG.md").unlink()
    packed = {documents / "changelog": debian_changelog(maintainer).encode()}
    for manual in (stage / "usr/share/man/man1").iterdir():
        packed[manual] = manual.read_bytes()
        manual.unlink()
    for place, content in packed.items():
        Path(f"{place}.gz").write_bytes(gzip.compress(content, 9, mtime=0))
    overrides = stage / "usr/share/lintian/overrides/bsonfind"
    overrides.parent.mkdir(parents=True)
    shutil.copyfile(PACKAGING / "lintian-overrides", overrides)

    files = sorted(it for it in stage.rglob("*") if it.is_file())
    folders = sum(it.is_dir() for it in stage.rglob("*"))
    ask = subprocess.run(["dpkg", "--print-architecture"], capture_output=True, text=True, check=True)
    architecture = ask.stdout.strip()
    # As dpkg-gencontrol counts: whole KiB of each file, and one for each folder.
    size = sum((it.stat().st_size + 1023) // 1024 for it in files) + folders
    depends = needed([stage / "usr/bin" / it for it in PROGRAMS])
    told = {"VERSION": number, "ARCHITECTURE": architecture, "SIZE": size, "DEPENDS": depends}
    sums = "".join(f"{hashlib.md5(it.read_bytes()).hexdigest()}  {it.relative_to(stage)}\n" for it in files)
    control = stage / "DEBIAN"
    control.mkdir()
    (control / "control").write_text(Template(template).substitute(told), encoding="utf-8")
    (control / "md5sums").write_text(sums, encoding="utf-8")
    for script in ("postinst", "prerm"):
        shutil.copyfile(PACKAGING / script, control / script)
    for it in [stage, *stage.rglob("*")]:
        it.chmod(0o755 if it.is_dir() or it.name in ("postinst", "prerm") or it.parent.name == "bin" else 0o644)
    made = DIST / f"bsonfind_{number}_{architecture}.deb"
    # dpkg-deb sorts the names, and gives each file that is newer this time. One thread of xz writes the same bytes everywhere.
    env = {**os.environ, "SOURCE_DATE_EPOCH": str(time), "DPKG_DEB_THREADS_MAX": "1"}
    words = ["dpkg-deb", "--root-owner-group", "-Zxz", "--build", str(stage), str(made)]
    subprocess.run(words, env=env, check=True, stdout=subprocess.DEVNULL)
    return made


def make_tar(number: str, time: int, stage: Path) -> Path:
    """Make the tar.gz from the files that are installed below a folder: what is in its usr, below a folder of that version.

    It has no entries of folders, since tar would give a folder that is there, such as /usr/local/lib, their owner and mode.
    """
    name = f"bsonfind-{number}-linux-{os.uname().machine}"

    def plain(entry: tarfile.TarInfo) -> tarfile.TarInfo:
        entry.uid = entry.gid = 0
        entry.uname = entry.gname = "root"
        entry.mtime = time
        entry.mode = 0o755 if entry.mode & 0o100 else 0o644
        return entry

    written = io.BytesIO()
    with tarfile.open(fileobj=written, mode="w", format=tarfile.USTAR_FORMAT) as archive:
        for it in sorted(it for it in (stage / "usr").rglob("*") if it.is_file()):
            archive.add(it, f"{name}/{it.relative_to(stage / 'usr')}", filter=plain)
    made = DIST / f"{name}.tar.gz"
    made.write_bytes(gzip.compress(written.getvalue(), 9, mtime=time))
    return made


def write_sums(number: str) -> None:
    """Write the sums of the archives of this version, as sha256sum reads them."""
    made = sorted([*DIST.glob(f"bsonfind_{number}_*.deb"), *DIST.glob(f"bsonfind-{number}-*.tar.gz")])
    lines = [f"{hashlib.sha256(it.read_bytes()).hexdigest()}  {it.name}\n" for it in made]
    (DIST / "SHA256SUMS").write_text("".join(lines), encoding="ascii")


def main(kind: str) -> int:
    """Make an archive; say which, and how to install it."""
    try:
        if kind == "deb" and not shutil.which("dpkg-deb"):
            raise Refused("this machine has no dpkg-deb: make the package on Debian or Ubuntu, or use make dist")
        number, time = version(), time_of_commit()
        DIST.mkdir(exist_ok=True)
        with tempfile.TemporaryDirectory(prefix="bsonfind-dist-") as room:
            stage = Path(room, "root")
            install(stage)
            made = make_deb(number, time, stage) if kind == "deb" else make_tar(number, time, stage)
        write_sums(number)
    except Refused as why:
        print(f"make {kind}: {why}", file=sys.stderr)
        return 1
    place = made.relative_to(ROOT)
    how = f"dpkg -i {place}" if kind == "deb" else f"tar -xzf {place} -C /usr/local --strip-components=1"
    print(f"made {place}; as root, {how} installs it")
    return 0


if __name__ == "__main__":
    sys.exit(main(sys.argv[1]) if sys.argv[1:] in (["deb"], ["dist"]) else __doc__)
