#!/usr/bin/env python3
"""Makes a wheel or an archive of the sources of this package, by Python alone, so that pip needs no network (PEP 517 and 660).

usage: backend.py FOLDER     puts a folder into FOLDER that says which package and version is there, as `make install` does

The same files give the same archive: names are sorted, and times are SOURCE_DATE_EPOCH, or 1980 where it is not set.
"""

from __future__ import annotations

import base64
import gzip
import hashlib
import io
import json
import os
import re
import sys
import tarfile
import time
import zipfile
from pathlib import Path
from typing import Any, Mapping

HERE = Path(__file__).resolve().parent
WHEEL = "Wheel-Version: 1.0\nGenerator: bsonfind\nRoot-Is-Purelib: true\nTag: py3-none-any\n"
# The first time that a zip can hold.
EPOCH = 315_532_800
Settings = Mapping[str, Any]


def tables() -> dict[str, dict[str, Any]]:
    """Return the tables of pyproject.toml. Python has a reader of TOML from 3.11 on; the values there are those of JSON too."""
    found: dict[str, dict[str, Any]] = {}
    text = ""
    for line in (HERE / "pyproject.toml").read_text(encoding="utf-8").splitlines():
        if line.startswith("#"):
            continue
        if head := re.fullmatch(r"\[(.+)\]", line):
            table = found.setdefault(head[1], {})
            continue
        text += line
        name, _, value = text.partition(" = ")
        try:
            table[name] = json.loads(value)
            text = ""
        except ValueError:
            continue  # The value has further lines.
    return found


PROJECT, SCRIPTS = tables()["project"], tables()["project.scripts"]
VERSION = (HERE / "bsonfind/VERSION").read_text(encoding="ascii").strip()
NAME = f"{PROJECT['name']}-{VERSION}"
INFO = f"{NAME}.dist-info"


def metadata() -> str:
    """Return what is known of the package."""
    fields = [
        ("Metadata-Version", "2.1"),
        ("Name", PROJECT["name"]),
        ("Version", VERSION),
        ("Summary", PROJECT["description"]),
        ("License", PROJECT["license"]),
        ("Keywords", ",".join(PROJECT["keywords"])),
        *(("Classifier", it) for it in PROJECT["classifiers"]),
        ("Requires-Python", PROJECT["requires-python"]),
        ("Description-Content-Type", "text/markdown"),
    ]
    readme = (HERE / PROJECT["readme"]).read_text(encoding="utf-8")
    return "".join(f"{name}: {value}\n" for name, value in fields) + f"\n{readme}"


def information() -> dict[str, bytes]:
    """Return the files of the folder that describes an installed package."""
    scripts = "".join(f"{name} = {where}\n" for name, where in SCRIPTS.items())
    return {
        f"{INFO}/LICENSE": (HERE / "LICENSE").read_bytes(),
        f"{INFO}/METADATA": metadata().encode(),
        f"{INFO}/WHEEL": WHEEL.encode(),
        f"{INFO}/entry_points.txt": f"[console_scripts]\n{scripts}".encode(),
    }


def modules() -> dict[str, bytes]:
    """Return the files of the package itself."""
    files = [*HERE.glob("bsonfind/**/*.py"), HERE / "bsonfind/py.typed", HERE / "bsonfind/VERSION"]
    return {str(it.relative_to(HERE)): it.read_bytes() for it in sorted(files)}


def moment() -> int:
    """Return the time of all files of an archive."""
    return max(int(os.environ.get("SOURCE_DATE_EPOCH", EPOCH)), EPOCH)


def write_wheel(folder: str, files: dict[str, bytes]) -> str:
    """Write a wheel with these files into a folder, and return its name."""
    rows = [f"{name},sha256={digest(data)},{len(data)}\n" for name, data in files.items()]
    record = f"{INFO}/RECORD"
    files = {**files, record: "".join([*rows, f"{record},,\n"]).encode()}
    name = f"{NAME}-py3-none-any.whl"
    with zipfile.ZipFile(Path(folder, name), "w", zipfile.ZIP_DEFLATED) as archive:
        for member, data in files.items():
            entry = zipfile.ZipInfo(member, time.gmtime(moment())[:6])
            entry.compress_type, entry.external_attr = zipfile.ZIP_DEFLATED, 0o100644 << 16
            archive.writestr(entry, data)
    return name


def digest(data: bytes) -> str:
    """Return a sum as a wheel writes it."""
    return base64.urlsafe_b64encode(hashlib.sha256(data).digest()).rstrip(b"=").decode()


def build_wheel(wheel_directory: str, config_settings: Settings | None = None, metadata_directory: str | None = None) -> str:
    """Make a wheel."""
    return write_wheel(wheel_directory, {**modules(), **information()})


def build_editable(wheel_directory: str, config_settings: Settings | None = None, metadata_directory: str | None = None) -> str:
    """Make a wheel that leads to the modules in this folder."""
    return write_wheel(wheel_directory, {"bsonfind.pth": f"{HERE}\n".encode(), **information()})


def build_sdist(sdist_directory: str, config_settings: Settings | None = None) -> str:
    """Make an archive of the sources, of which a wheel can be made."""
    own = {name: (HERE / name).read_bytes() for name in ("LICENSE", "README.md", "backend.py", "pyproject.toml")}
    written = io.BytesIO()
    with tarfile.open(fileobj=written, mode="w", format=tarfile.PAX_FORMAT) as archive:
        for name, data in sorted({**own, **modules(), "PKG-INFO": metadata().encode()}.items()):
            entry = tarfile.TarInfo(f"{NAME}/{name}")
            entry.size, entry.mtime = len(data), moment()
            archive.addfile(entry, io.BytesIO(data))
    name = f"{NAME}.tar.gz"
    Path(sdist_directory, name).write_bytes(gzip.compress(written.getvalue(), 9, mtime=moment()))
    return name


def put_information(folder: Path) -> None:
    """Put into a folder with modules what says to Python which version is there. Without a list of files pip removes none."""
    (folder / INFO).mkdir(exist_ok=True)
    (folder / INFO).chmod(0o755)
    for name, data in (*information().items(), (f"{INFO}/INSTALLER", b"make\n")):
        # The scripts are those of a wheel.
        if not name.endswith(("/entry_points.txt", "/WHEEL", "/LICENSE")):
            (folder / name).write_bytes(data)
            (folder / name).chmod(0o644)


if __name__ == "__main__":
    if len(sys.argv) != 2:
        sys.exit(__doc__)
    put_information(Path(sys.argv[1]))
