#!/usr/bin/env python3
"""Looks whether docs/REFERENCE.md is what `make reference` writes, and whether the pages and the roots name what there is.

usage: tests/docs/reference.py     The last line is 'N passed, M failed'. It needs neither the program nor a proof.

- docs/REFERENCE.md is current, and each line of it has its comment in the sources; so has each definition that it does not name,
  and each lemma that more than one other file uses. Each function stands there, or in the line `by` of one that does.
- docs/PROVED.md names each law. What it has in backquotes, and what README.md has under "How sure is it?", is the name of a crate,
  function, type, clause or definition. Names of code in docs/ARCHITECTURE.md and docs/DECISIONS.md are in the crates.
- docs/ARCHITECTURE.md has each crate but those of tests, and no page but the changelog names a crate that does not exist.
- `specs/inside/` has the definitions that only functions inside a crate cite, and no other. Proofs that a definition needs, such as
  those in `Unique.antt` and `Sound.antt`, stay beside it, and so do the definitions of bd_io_stdout, whose methods run over a cell.
- Each link of a page leads to a file, and to a heading of it.
- README.md has at most 100 lines and 1,200 words, 250 of them in the 30 lines of its first screen, and no line above 110 columns but in
  tables.
- The root of each crate names its modules, and each file of specs that it names exists.
"""

import re
import sys
from collections.abc import Iterator
from pathlib import Path

ROOT = Path(__file__).resolve().parents[2]
sys.path.insert(0, str(ROOT / "tools"))

import reference

PAGES = sorted([*ROOT.glob("*.md"), *ROOT.glob("docs/*.md"), ROOT / "python/README.md"])
# A name in backquotes that is written as code is: `Type`, `some_name`, `Type::name`.
CODE = re.compile(r"`((?=[^`]*(?:_|::|[a-z][A-Z])|[A-Z][a-z]+`|[A-Z]\w*<)[A-Za-z]\w*(?:::\w+)*)(?:<[^`]*>)?`")
# Commands, names of formats and of the system, which these pages have in backquotes.
WORDS = {"bsonfind find", "bsonwide find", "bsonkit", "main", "check", "dump", "pack", "find", "serve", "$oid", '{"$oid":..}'}


def text_of(path: Path) -> str:
    return path.read_text(encoding="utf-8")


def laws() -> Iterator[str]:
    """Yield the names of the public functions that have no body: their contracts are laws."""
    for file in reference.code():
        if file.stem == "laws":
            yield from re.findall(r"^pub fn (\w+)", text_of(file), re.M)


def names() -> set[str]:
    """Return the names of crates, of functions, types and clauses, and of definitions."""
    found = {path.rpartition(".")[2] for path in reference.definitions("specs")}
    for _, name in reference.crates():
        code = "".join(text_of(it) for it in reference.files_of(name, "src/**/*.rt"))
        found |= {name, *re.findall(r"\b(?:fn|struct|enum|trait|ensures) (\w+)", code)}
    return found


def comments() -> Iterator[tuple[bool, str]]:
    lacking = list(reference.missing())
    for _, name in reference.crates():
        found = [what for crate, what in lacking if crate == name]
        yield not found, f"{name}: without a comment: {', '.join(found)}"


def functions() -> Iterator[tuple[bool, str]]:
    for _, name in reference.crates():
        shown = {*reference.printed(name), *reference.others(name)}
        known = shown | {it for key in shown & reference.functions(name).keys() for it in reference.under(name, key)}
        for file, owner, _, function in reference.functions(name).keys() - known:
            yield False, f"{file.relative_to(ROOT)}: {owner} {function} is called by no function that docs/REFERENCE.md has"
        yield True, name


def proved() -> Iterator[tuple[bool, str]]:
    quoted = set(re.findall(r"`([^`\n]+)`", text_of(ROOT / "docs/PROVED.md")))
    for name in laws():
        yield name in quoted, f"docs/PROVED.md does not name the law {name}"
    known = names()
    sure = text_of(ROOT / "README.md").partition("\n## How sure is it?\n")[2]
    yield bool(sure), "README.md has no part 'How sure is it?'"
    for page, found in (("docs/PROVED.md", quoted), ("README.md", set(re.findall(r"`([^`\n]+)`", sure)))):
        for name in sorted(found - WORDS):
            yield known.issuperset(name.split("::")), f"{page} names {name}, which does not exist"


def named() -> Iterator[tuple[bool, str]]:
    sources = (file for _, name in reference.crates() for pattern in ("src/**/*.rt", "specs/**/*.antt") for file in reference.files_of(name, pattern))
    known = {word for file in sources for word in re.findall(r"\w+", text_of(file))}
    for page in ("docs/ARCHITECTURE.md", "docs/DECISIONS.md"):
        for name in sorted(set(CODE.findall(text_of(ROOT / page)))):
            yield known.issuperset(name.split("::")), f"{page} names {name}, which is not in the crates"


def crates() -> Iterator[tuple[bool, str]]:
    drawn = set(re.findall(r"\bb[ds]\w+", text_of(ROOT / "docs/ARCHITECTURE.md")))
    for _, name in reference.crates():
        yield name in drawn, f"docs/ARCHITECTURE.md does not draw {name}"
    for page in PAGES:
        if page.name == "CHANGELOG.md":
            continue
        for name in sorted(set(re.findall(r"\bbd_[a-z_]*[a-z]\b", text_of(page)))):
            is_there = any((ROOT / "crates").glob(f"{name}*"))
            yield is_there, f"{page.relative_to(ROOT)} names {name}, which is no crate"


def anchors(page: Path) -> set[str]:
    """Return the anchors of the headings of a page, as GitHub makes them."""
    found = set()
    for heading in re.findall(r"^#+ (.*)$", re.sub(r"^```.*?^```", "", text_of(page), flags=re.M | re.S), re.M):
        shown = re.sub(r"\[([^\]]*)\]\([^)]*\)", r"\1", heading)
        found.add(re.sub(r"[^\w\- ]", "", shown.lower()).replace(" ", "-"))
    return found


def links() -> Iterator[tuple[bool, str]]:
    for page in PAGES:
        for link in sorted(set(re.findall(r"\]\(([^)\s]+)\)", text_of(page)))):
            if "://" not in link:
                name, _, anchor = link.partition("#")
                file = page.parent / name if name else page
                leads = file.exists() and (not anchor or file.suffix != ".md" or anchor in anchors(file))
                yield leads, f"{page.relative_to(ROOT)}: {link} leads nowhere"


def first_page() -> Iterator[tuple[bool, str]]:
    lines = text_of(ROOT / "README.md").splitlines()
    for part, most_lines, most_words in ((lines, 100, 1200), (lines[:30], 30, 250)):
        words = len(" ".join(part).split())
        yield len(part) <= most_lines and words <= most_words, f"README.md: {len(part)} lines, {words} words; at most {most_lines}, {most_words}"
    wide = [number for number, line in enumerate(lines, 1) if len(line) > 110 and not line.startswith("|")]
    yield not wide, f"README.md: lines {wide} are above 110 columns"


def inside() -> Iterator[tuple[bool, str]]:
    reached = reference.reached()
    for path, it in reference.definitions("specs").items():
        name = path.rpartition(".")[2]
        if not (name.endswith("-prop") or "◌" in name or it.file.stem in ("Unique", "Sound") or it.crate == "bd_io_stdout" or name in ("LeafFits", "TakesPrefix")):
            is_inside = "inside" in it.file.parts
            yield is_inside != (path in reached), f"{path} is {'cited from outside' if is_inside else 'cited inside alone'}"


def roots() -> Iterator[tuple[bool, str]]:
    for _, name in reference.crates():
        crate = ROOT / "crates" / name
        path = next(it for it in (crate / "src/lib.rt", crate / "src/main.rt") if it.exists())
        head = reference.first_comment(path, "//!")
        for module in re.findall(r"^(?:pub )?mod (\w+);", text_of(path), re.M):
            yield f"`{module}`" in head, f"{name}: its root does not name the module {module}"
        for file in re.findall(r"`(specs/[\w/]+\.antt)`", head):
            yield (crate / file).exists(), f"{name}: its root names {file}, which does not exist"


def main() -> int:
    passed = failed = 0
    current = text_of(reference.PAGE) == reference.page()
    for holds, message in ((current, "docs/REFERENCE.md is not current: make reference"), *comments(), *functions(), *proved(), *named(), *crates(), *links(), *first_page(), *inside(), *roots()):
        if holds:
            passed += 1
        else:
            failed += 1
            print(message)
    print(f"{passed} passed, {failed} failed")
    return 1 if failed else 0


if __name__ == "__main__":
    sys.exit(main())
