#!/usr/bin/env python3
"""Write docs/REFERENCE.md: by crate the definitions that public contracts cite, and the public functions with their clauses.

usage: tools/reference.py [--missing]

All words come from the sources: `//!` of the root of a crate, `--` above definitions, `///` above functions. With --missing it
writes nothing, and lists what has no such line: definitions, public items, and lemmas that more than one other file uses. A name
with `-prop` at its end needs none: it says that a definition has one proof at most.
"""

import re
import sys
from collections import Counter
from collections.abc import Iterator
from functools import cache
from itertools import pairwise
from pathlib import Path
from typing import NamedTuple

ROOT = Path(__file__).resolve().parent.parent
PAGE = ROOT / "docs/REFERENCE.md"
HEAD = """\
# Reference

`make reference` writes this page from the sources. For each crate it has the files of definitions, with the definitions that
public contracts cite, and the public functions with their clauses. A line below a function is a clause: its name, and what holds
after the call; before it after `requires`; after `*` once the result is dropped. Of an argument `x` that is `&mut`, `x.old` is its
value before the call and `x.new` after it. A function changes nothing else, except what a `RefCell` has. After `by` stand the private
functions of the crate that this one calls, and those that they call: each serves the clauses above it. So from any function there are
two steps: look here for its name, and read up. A line such as `// Tree as Reading: kind` has methods of a type that serve the clauses
of a trait. [PROVED.md](PROVED.md) has the laws in words, [ARCHITECTURE.md](ARCHITECTURE.md) draws the crates."""
# Of these crates the definitions of what commands print, and the crate whose definitions say which fault of a mistyped text is reported.
RUNS = {"bd_cli_scan": ("dump_run", "check_run"), "bd_cli_files": ("pack_run",), "bd_cli_find": ("find_run",)}
FAULTS_OF_TEXTS = "bd_extjson_fault"
IMPORT = re.compile(r"^ *(?:pub |ghost )*use ([\w.]+?)(?:\.\{([^}]*)\}| as (\w+))?;?$", re.M)
# The start of a definition, of a block of methods, of an item of code and of a clause; the rest of the head of a function.
DEFINED = re.compile(r" *(?:abbrev |unfoldable )?pub (?!mod |use )(?:record |data )?([^\s:]+)")
BLOCK = re.compile(r"(?:pub (trait)|impl) (?:([\w:]+) for )?&?(?:mut )?(\w+)")
ITEM = re.compile(r" *(?:(pub )|pub\(\w+\) )?(?:const |unsafe )*(fn|struct|enum|trait|const|type|ghost) (?!use |fn )(\w+)")
CLAUSE = re.compile(r"(?:\s+//.*)*\s+(requires|ensures)(\*)?(?: (\w+))? \{")
TOKEN = re.compile(r"""//.*|"(?:\\.|[^"\\])*"|'(?:\\.|[^'\\])'|[{}]""")
CALL = re.compile(r"(?:(\.)|(\w+)(?:::<[^>]*>)?::)?\b([a-z_]\w*)\b(?=(?:::<[^()]*>)?(\()|\s*[,)])")
BOUND = re.compile(r"\blet (?:mut )?(\w+)|\b(\w+): |[|,] ?(?:mut )?(\w+)(?=[,|])")
SIGNATURE = re.compile(r"(?:\[[^\]]*\]|[^{;])*?(?=\s+(?://|(?:requires|ensures)\b)|\s*[{;])")


# A function: its file, its type or trait, the trait that a type has it by, its name.
Key = tuple[Path, str, str, str]


class Definition(NamedTuple):
    """A definition or a lemma, the comment above it, and the paths of what it cites."""

    crate: str
    file: Path
    comment: str
    cites: set[str]


class Item(NamedTuple):
    """An item of code, a method of a type or trait (`owner`), or one that a type has by a trait (`by`)."""

    owner: str
    by: str
    name: str
    is_public: bool
    comment: str
    head: str
    clauses: dict[str, str]
    body: str



def crates() -> Iterator[tuple[str, str]]:
    """Yield the families and their crates, as crates.txt has them, without those that only test."""
    family = ""
    for line in (ROOT / "crates.txt").read_text(encoding="utf-8").splitlines()[1:]:
        name = line.partition(":")[0]
        if line.startswith("#"):
            family = line[1:].strip()
        elif not name.endswith(("_tests", "_rows")):
            yield family, name


def files_of(crate: str, pattern: str) -> list[Path]:
    return sorted(it for it in (ROOT / "crates" / crate).glob(pattern) if it.name not in ("Lib.antt", "inside.antt"))


def comment_above(lines: list[str], at: int, mark: str) -> str:
    """Return the comment that ends above a line, or above the attributes before it, or the `mutual` that it begins."""
    while at and re.match(r" *#\[.*|.*\)\]$|(abbrev )?mutual$", lines[at - 1]):
        at -= 1
    end = at
    while at and lines[at - 1].lstrip().startswith(mark):
        at -= 1
    return "\n".join(it.strip()[len(mark) :].lstrip(" -") for it in lines[at:end])


def first_comment(file: Path, mark: str) -> str:
    """Return the comment that a file begins with."""
    lines = file.read_text(encoding="utf-8").splitlines()
    return comment_above(lines, next(at for at, line in enumerate(lines) if not line.startswith(mark)), mark)


def sentence(comment: str) -> str:
    """Return the first sentence of a comment, on one line."""
    text = " ".join(comment.partition("\n\n")[0].split())
    return re.split(r"(?<=[.?])\s+(?=[A-Z`(])", text, maxsplit=1)[0].rstrip(".:")


def known_in(text: str) -> dict[str, str]:
    """Return the names that a file takes from others, each with its path."""
    known = {}
    for path, names, alias in IMPORT.findall(text):
        for item in names.split(",") if names else [""]:
            word, _, new = item.strip().partition(" as ")
            known[new or alias or word.rpartition(".")[2] or path.rpartition(".")[2]] = f"{path}.{word}".rstrip(".")
    return known


def cites(text: str, known: dict[str, str]) -> set[str]:
    """Return the paths of what a text names, as `name` or as `file.name`."""
    words = re.findall(r"(?<![\w.-])([^\s(){},;.]+)(?:\.([\w-]+))?", re.sub(r"(?:--|//).*", "", text))
    return {path for word, field in words if word in known for path in (known[word], f"{known[word]}.{field}")}


@cache
def definitions(folder: str) -> dict[str, Definition]:
    """Return all definitions by their paths; of the folder `proofs` the lemmas."""
    found = {}
    for crate, file in ((crate, file) for _, crate in crates() for file in files_of(crate, f"{folder}/**/*.antt")):
        text = file.read_text(encoding="utf-8")
        lines = text.splitlines()
        module = ".".join(("Rattle", *file.relative_to(ROOT / "crates").with_suffix("").parts))
        heads = []
        inside = {0}
        for at, line in ((at, it) for at, it in enumerate(lines) if it and not it.lstrip().startswith("--")):
            depth = len(line) - len(line.lstrip())
            inside = {it for it in inside if it <= depth}
            if depth in inside and (head := DEFINED.match(line)):
                heads.append((at, head[1]))
            elif depth in inside and re.match(r" *(?:module|(?:abbrev )?mutual)\b", line):
                inside.add(depth + 2)
        known = known_in(text) | {name: f"{module}.{name}" for _, name in heads}
        for (at, name), (end, _) in pairwise([*heads, (len(lines), "")]):
            path = f"{module}.{name}"
            cited = cites("\n".join(lines[at:end]), known) - {path}
            found[path] = Definition(crate, file, comment_above(lines, at, "--"), cited)
    return found


def end_of(text: str, at: int) -> int:
    """Return the offset of the brace that closes the one before an offset, the end of the text without one."""
    depth = 1
    for found in TOKEN.finditer(text, at):
        depth += {"{": 1, "}": -1}.get(found[0], 0)
        if not depth:
            return found.start()
    return len(text)


def contract_at(text: str, at: int) -> tuple[str, dict[str, str], str]:
    """Return the head of a function, from its name on, its clauses by their names, each after the comment above it, and its body."""
    found = SIGNATURE.match(text, at)
    head, clauses = (found[0], {}) if found else ("", {})
    at += len(head)
    while clause := CLAUSE.match(text, at):
        end = end_of(text, clause.end())
        name = (clause[3] or "ensures") if clause[1] == "ensures" else f"requires {clause[3] or ''}".rstrip()
        lines = [*re.findall("//.*", clause[0]), f"{name}{clause[2] or ''}: {text[clause.end() : end].strip()}"]
        clauses[name] = "\n".join(f"  {it}" for it in lines)
        at = end + 1
    begin = re.compile(r"\s*\{").match(text, at)
    body = text[begin.end() : end_of(text, begin.end())] if begin else ""
    return re.sub(r"([(\[]) |,? (?=[)\]])", r"\1", " ".join(head.split())), clauses, body


def items(text: str) -> Iterator[Item]:
    """Yield the items of a file of code, the methods of its traits, and those of what implements traits."""
    lines = text.splitlines()
    start = 0
    owner = by = ""
    for at, line in enumerate(lines):
        bare = line
        while bare != (bare := re.sub(r"<[^<>]*>", "", bare)):
            pass
        if block := BLOCK.match(bare):
            owner, by = block[3], block[1] or block[2] or ""
        elif line.startswith("}"):
            owner = by = ""
        item = ITEM.match(line)
        if item and (item[1] or item[2] == "fn" or (by == "trait" and item[2] == "ghost")):
            begin = start + item.start(3)
            clauses: dict[str, str] = {}
            body = ""
            head = f"{item[2]} {re.split('[{;=(]', line[item.start(3) :])[0].strip()}"
            if item[2] == "fn":
                head, clauses, body = contract_at(text, begin)
            elif item[2] == "ghost":
                head = " ".join(text[begin : end_of(text, text.index("{", begin) + 1) + 1].split())
            is_public = bool(item[1] or by)
            yield Item("" if block else owner, by, item[3], is_public, comment_above(lines, at, "///"), head, clauses, body)
        start += len(line) + 1


@cache
def all_items(file: Path) -> list[Item]:
    return list(items(file.read_text(encoding="utf-8")))


@cache
def code() -> dict[Path, list[Item]]:
    """Return by file what the roots export, with its methods; of those that a trait gives what they promise beyond it."""
    found = {}
    for root in (it for _, crate in crates() for it in files_of(crate, "src/lib.rt")):
        text = root.read_text(encoding="utf-8")
        exports = re.findall(r"^pub use (?:\w+::)+(?:(\w+);|\{([^}]*)\})", text, re.M)
        names = {name.strip() for one, more in exports for name in [one, *more.split(",")]}
        for file in files_of(root.parent.parent.name, "src/**/*.rt"):
            is_open = re.search(rf"^pub mod {file.stem};", text, re.M)
            found[file] = [it for it in all_items(file) if it.is_public and (is_open or (it.owner or it.name) in names)]
    given = {(it.owner, it.name): it.clauses for own in found.values() for it in own if it.by == "trait"}
    for file, own in found.items():
        beyond = (it._replace(clauses={k: v for k, v in it.clauses.items() if k not in given.get((it.by, it.name), ())}) for it in own)
        found[file] = [it for it in beyond if it.by in ("", "trait") or it.clauses]
    return found


@cache
def cited() -> set[str]:
    """Return the paths that public contracts cite."""
    found: set[str] = set()
    for file, own in code().items():
        known = known_in(file.read_text(encoding="utf-8"))
        found |= cites(" ".join(text for it in own for text in (it.head, *it.clauses.values())), known)
    return found


def reached() -> set[str]:
    """Return the paths of the definitions that public contracts cite, or that another crate names, and of what these cite."""
    known = definitions("specs")
    found = (cited() | promised()) & set(known)
    return below(found | {path for path, crate in users() if path in known and known[path].crate != crate})


def below(paths: set[str]) -> set[str]:
    """Return these definitions, and all that they stand on."""
    known = definitions("specs")
    found = set(paths)
    fresh = list(found)
    while fresh:
        more = {it for it in known[fresh.pop()].cites if it in known and it not in found}
        found |= more
        fresh += more
    return found


def to_read(crate: str) -> Iterator[str]:
    """Yield for each command of a crate how many definitions say what it prints, and which of these may be left aside."""
    for run in RUNS.get(crate, ()):
        read = below({path for path, it in definitions("specs").items() if it.crate == crate and path.endswith(f".{run}")})
        aside = sum(definitions("specs")[path].crate == FAULTS_OF_TEXTS for path in read)
        line = f"What `{run.partition('_')[0]}` prints is `{run}`, which stands on {len(read) - 1} definitions."
        yield f"{line} A reader may leave aside the {aside} of [{FAULTS_OF_TEXTS}](#{FAULTS_OF_TEXTS}): they say only which fault of a mistyped text is reported." if aside else line


def promised() -> set[str]:
    """Return the paths that the ghost items of what implements a public trait cite, such as what is the state of a device."""
    found: set[str] = set()
    for _, crate in crates():
        texts = [it.read_text(encoding="utf-8") for it in files_of(crate, "src/**/*.rt")]
        private = {name for text in texts for name in re.findall(r"^(?:pub\(crate\) )?trait (\w+)", text, re.M)}
        for text in texts:
            known = known_in(text)
            for head in re.finditer(r"^impl(?:<.*?>)? (\w+)\b.* for [^{]*\{", text, re.M):
                if head[1] in private:
                    continue
                body = text[head.end() : end_of(text, head.end())]
                for ghost in re.finditer(r"^    ghost \w+ = \{", body, re.M):
                    found |= cites(body[ghost.end() : end_of(body, ghost.end())], known)
    return found


def users() -> Iterator[tuple[str, str]]:
    """Yield the path of each thing that a file of a crate names, with the crate."""
    for _, crate in crates():
        for file in (it for pattern in ("src/**/*.rt", "specs/**/*.antt", "proofs/**/*.antt") for it in files_of(crate, pattern)):
            text = file.read_text(encoding="utf-8")
            yield from ((path, crate) for path in cites(text, known_in(text)))


def key_of(file: Path, item: Item) -> Key:
    return file, item.owner, item.by, item.name


@cache
def functions(crate: str) -> dict[Key, Item]:
    """Return the functions of a crate that have a body."""
    return {key_of(file, it): it for file in files_of(crate, "src/**/*.rt") for it in all_items(file) if it.body}


@cache
def printed(crate: str) -> set[Key]:
    """Return the functions of a crate that have lines of their own."""
    return {key_of(file, it) for file, own in code().items() if file.parts[-3] == crate for it in own}


@cache
def private_traits(crate: str) -> set[str]:
    """Return the traits of a crate that no other knows."""
    texts = [it.read_text(encoding="utf-8") for it in files_of(crate, "src/**/*.rt")]
    traits = {name for text in texts for name in re.findall(r"^(?:pub(?:\(crate\))? )?trait (\w+)", text, re.M)}
    return traits - {owner for _, owner, by, _ in printed(crate) if by == "trait"}


@cache
def called_by(crate: str, key: Key) -> list[Key]:
    """Return the functions of its crate that a function names, as calls or as values."""
    item = functions(crate)[key]
    text = TOKEN.sub(lambda it: it[0] if it[0] in "{}" else " ", item.body)
    bound = {name for names in BOUND.findall(f"{item.head} {text}") for name in names}
    named = set()
    for dot, left, name, call in CALL.findall(text):
        if call or name not in bound:
            named.add((name, "." if dot else item.owner if left == "Self" else left if left[:1].isupper() else ""))
    # A method of a trait that other crates know too may be that of any type.
    open_to = ("", "trait", *private_traits(crate))
    ways = {it: ({it[1], it[2], "." if it[2] in open_to else it[1]} if it[1] else {""}) for it in functions(crate) if it != key}
    return [it for it in ways if any((it[3], way) in named for way in ways[it])]


@cache
def under(crate: str, key: Key) -> list[Key]:
    """Return the functions without lines of their own that a function calls, and those that they call."""
    found: list[Key] = []
    fresh = [key]
    while fresh:
        more = [it for it in called_by(crate, fresh.pop(0)) if it != key and it not in found and it not in printed(crate)]
        found += more
        fresh += more
    return found


def by_line(crate: str, *keys: Key) -> list[str]:
    """Return the line that names the functions under these, none where there are none."""
    below = [it for key in keys if key in functions(crate) for it in under(crate, key)]
    names = [f"{owner}::{name}" if owner else name for _, owner, _, name in below]
    return [f"  by {', '.join(dict.fromkeys(names))}"] if names else []


def others(crate: str) -> list[Key]:
    """Return the functions that no public one calls: what a type has by a trait, for code above, and `main`."""
    reached = {it for key in printed(crate) & functions(crate).keys() for it in under(crate, key)}
    return [it for it in functions(crate) if it not in reached | printed(crate) and (it[2] or it[3] == "main")]


def blocks(crate: str) -> Iterator[str]:
    """Yield the parts of the section of a crate: what it is, a list for each file of definitions, a block for each of code."""
    yield sentence(first_comment((files_of(crate, "src/lib.rt") or files_of(crate, "src/main.rt"))[0], "//!"))
    yield from to_read(crate)
    for file in (it for it in files_of(crate, "specs/**/*.antt") if "inside" not in it.parts):
        lines = [f"[{file.name}](../{file.relative_to(ROOT)}): {sentence(first_comment(file, '--'))}"]
        for path, it in definitions("specs").items():
            if it.file == file and path in cited():
                lines.append(f"- `{path.rpartition('.')[2]}`: {sentence(it.comment)}".rstrip())
        yield "\n".join(lines)
    for file in files_of(crate, "src/**/*.rt"):
        lines = [f"[{file.name}](../{file.relative_to(ROOT)})", "```"]
        for item in code().get(file, ()):
            lines += [f"// {sentence(item.comment)}".rstrip(), f"{item.owner}::{item.head}" if item.owner else item.head]
            lines += (re.sub(r"\n {5,}", "\n    ", text) for text in item.clauses.values())
            lines += by_line(crate, key_of(file, item))
        given = [it for it in others(crate) if it[0] == file]
        for owner, by in dict.fromkeys(it[1:3] for it in given):
            keys = [it for it in given if it[1:3] == (owner, by)]
            names = ", ".join(it[3] for it in keys)
            lines += [f"// {owner} as {by}: {names}" if owner else f"// {names}", *by_line(crate, *keys)]
        if len(lines) > 2:
            yield "\n".join([*lines, "```"])


def page() -> str:
    """Return the page."""
    families: dict[str, list[str]] = {}
    for family, crate in crates():
        families.setdefault(family, []).append(f"[{crate}](#{crate})")
    parts = [HEAD, "\n".join(f"- {family}: {', '.join(names)}" for family, names in families.items())]
    last = ""
    for family, crate in crates():
        parts += [*([f"## {family}"] if family != last else []), f"### {crate}", *blocks(crate)]
        last = family
    return "\n\n".join(parts) + "\n"


def missing() -> Iterator[tuple[str, str]]:
    """Yield what has no line, with its crate: definitions, public items, and lemmas that more than one other file uses."""
    for file, own in code().items():
        yield from ((file.parts[-3], f"{file.relative_to(ROOT)}: {it.owner} {it.name}") for it in own if not it.comment)
    lemmas = definitions("proofs")
    uses = {(path, it.file) for folder in ("proofs", "specs") for it in definitions(folder).values() for path in it.cites}
    for file in (it for _, crate in crates() for it in files_of(crate, "src/**/*.rt")):
        names = re.findall(r"\bcrate(::proofs(?:::\w+)+)", file.read_text(encoding="utf-8"))
        uses |= {(f"Rattle.{file.parts[-3]}{it.replace('::', '.')}", file) for it in names}
    users = Counter(path for path, file in uses if path in lemmas and file != lemmas[path].file)
    for path, it in [*definitions("specs").items(), *(one for one in lemmas.items() if users[one[0]] > 1)]:
        if not it.comment and not path.endswith("-prop"):
            yield it.crate, path


def main() -> None:
    if "--missing" in sys.argv:
        found = sorted(missing())
        for crate, what in found:
            print(f"{crate}: {what}")
        for crate, count in Counter(crate for crate, _ in found).items():
            print(f"{count} of {crate}")
    else:
        PAGE.write_text(page(), encoding="utf-8")


if __name__ == "__main__":
    main()
