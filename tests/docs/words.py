#!/usr/bin/env python3
"""Looks whether the identifiers and the comments of the crates, the comments and docstrings of the package of Python, and the pages use
one word for one meaning: it counts the words that are gone.

usage: tests/docs/words.py     Each line names a file, and an identifier or a line of a comment with a word that is gone. The last line is
                               'N passed, M failed'.

A part of an identifier is what is between `_` and capitals: `front_of` has the word `front`, and so has `TextFront`. A name that a file
imports from the kit is the kit's, and so is a label of a clause of the kit. A comment or a page may have any word in backquotes, and in an
example. A changelog and what a tool writes are not looked at.
"""
import ast
import io
import re
import sys
import tokenize
from collections.abc import Iterator
from fnmatch import fnmatchcase
from pathlib import Path

CRATES = Path(__file__).resolve().parents[2] / "crates"
PACKAGE = CRATES.parent / "python"

# Each word that is gone, what to write, and where it stays: crates, or names that have another meaning. A name ends no pattern of crates.
WORDS = {
    "front fronts": ("prefix", ""),
    "hits": ("matches_at", ""),
    "suits": ("matches_element", ""),
    "starved starves starve": ("out_of_memory, runs_out", ""),
    "judge judges judged": ("check", ""),
    "verdict verdicts": ("check_result", ""),
    "fate": ("write_state", ""),
    "obey obeys": ("execute", ""),
    # A filter breaks a rule.
    "breaks broke": ("write_fails, write_failed", "bd_query_filter"),
    "asked asks": ("requested, requests", ""),
    "room rooms": ("depth_left, buffer, capacity", ""),
    # `held()` of `DocReader`; clap's own.
    "held": ("buffered, contents, node_tree", "bd_bson_stream bd_bson_tests bd_cli_args"),
    # An operator of a filter, and what is said of a value of the JSON kit, holds or does not.
    "hold holds": ("contains, buffers", "bd_query bd_query_filter bd_index_bounds bd_wide_order bd_extjson bd_cursor_request"),
    "told tells tell untold": ("reports, reported, explain", ""),
    "shown shows show": ("output, prints", ""),
    "stands stand": ("meaning, is_at", ""),
    # An index is walked.
    "walk walks walked": ("scan, path_walk", "bd_index bd_cursor bd_cursor_sort bd_cli_service bd_growth_tests bd_query_tests bd_cli_args bd_wide_service path_walk* PathWalk*"),
    "mark marks": ("position, index_key, pivot", ""),
    "past": ("skip, after, beyond", ""),
    # Levels that are left; the left one of two.
    "left": ("remaining", "*depth_left* apart_left each_left in_left left_nil or_left append_left"),
    "cut cuts": ("split, cutoff, limited", "*cut_short* IsCutShort"),
    "own": ("leaf, path_in", ""),
    "seen": ("view_of, visited", ""),
    "gather gathers gathered gathering gatherer": ("buffer, collect", ""),
    # A document's number in its dump is its place; so is where a digit is, and where a filter breaks a rule.
    "place places placed": ("offset, index, path", "bd_wide_copy bd_bson_dump bd_cursor* bd_index* bd_cli_service* bd_cli_find bd_cli_print bd_wide_find bd_wide_order bd_wide_service bd_wide_cli bd_wide_tests bd_wide_text "
                            "bd_query_filter bd_query_tests bd_growth_tests IsPlace PlacePrinter document_place next_place place_texts"),
}
# Labels of clauses that are gone, and what to write.
LABELS = {
    "vain": "visited", "quiet": "no_read", "works": "not_failed", "well": "no_failure", "put": "appended", "there": "in_range",
    "further": "stops_reading", "few": "fits_u32", "kept": "unchanged, same_source, err",
}
# What is gone from comments, as whole words in any case, and what to write. A quotation mark and `cut short` stay.
COMMENTS = {
    r"told|tells?|telling|untold": "reports, returns, message",
    r"handed|hand(?:s|ing)? (?:on|out|in|over)": "passes, writes, returns",
    r"show(?:s|n|ed|ing)?": "prints, output",
    r"stands?|stood|standing": "is, is at, means",
    r"so many|so deep": "n, as many as the number",
    r"exactly where": "exactly if",
    r"none where": "None if",
    r"where (?:memory|there (?:is|are)|it is no(?:ne)?)": "if",
    r"fronts?": "prefix, start",
    r"behind": "after",
    r"rooms?": "buffer, space, capacity, levels",
    r"held": "buffered, contained",
    r"(?<!quotation )marks?": "position, pivot",
    r"starve[sd]?": "out of memory",
    r"judge[sd]?|verdicts?": "check, result",
    r"seen|unseen": "viewed, visited",
    r"gather(?:s|ed|ing)?": "collects, buffers, standard output",
    r"past": "after, beyond, skips",
    r"(?:goes|go|going|went|gone) on": "continues, resumes",
    r"pass(?:es|ed) over": "skips",
    r"cuts?(?! short)": "split, limit, truncated",
    r"(?:lets?|letting) (?:\w+ )?go": "drops, frees",
    r"wants?|wanted": "needs, expected",
    r"suits?|suited": "matches",
    r"in words|the words of": "message",
    r"in vain|in hand|wherever": "visited, in memory, in memory or in bytes",
    r"anew|once more": "again",
    r"no memory (?:was given|is taken)|allocator (?:gives|gave|refuse[sd])": "memory runs out, it takes no memory",
}

# What is gone from pages: a page may say that a file was cut, or name a place.
PAGE_WORDS = {
    r"told|tells?|telling|untold": "reports, prints, says",
    r"asked|asks": "searches, queries, requested",
    r"handed|hand(?:s|ing)? (?:on|out|in|over)": "passes, writes, returns",
    r"stands?|stood|standing": "is, is at, means",
    r"so many|so deep": "n, as many as the number",
    r"fronts?": "prefix, start",
    r"own": "leave it out, or name whose it is",
    r"starve[sd]?|no memory (?:was given|is taken)": "memory runs out",
    r"gather(?:s|ed|ing)?": "collects",
    r"(?:lets?|letting) (?:\w+ )?go": "drops, frees",
    r"wants?|wanted|suits?|suited": "needs, matches",
    r"in vain|in hand|anew|once more": "again, in memory",
}

IDENT = re.compile(r"[A-Za-z_][A-Za-z0-9_]*")
PART = re.compile(r"[A-Z]+(?![a-z])|[A-Z]?[a-z0-9]+|[A-Z]")
PLAIN = {
    ".rt": re.compile(r'''//[^\n]*|b?'(?:\\.|[^'\\])'|b?r(#*)".*?"\1|b?"(?:\\.|[^"\\])*"''', re.S),
    ".antt": re.compile(r'(?:(?<=\s)|^)--[^\n]*|"(?:\\.|[^"\\])*"', re.M),
}
FENCE = re.compile(r"//[/!] *```")
QUOTED = re.compile(r"`[^`]*`")
GONE = {re.compile(rf"\b(?:{gone})\b", re.I): write for gone, write in COMMENTS.items()}
GONE_FROM_PAGES = {re.compile(rf"\b(?:{gone})\b", re.I): write for gone, write in PAGE_WORDS.items()}
USE = re.compile(r"\buse\s+(?:Rattle\.)?([A-Za-z]\w*)((?:::|\.)[^;\n]*?\{[^}]*\}|(?:::|\.)[^;\n]*)", re.S)
KIT_LABEL = re.compile(r"\b(?:split_at[\w-]*\.ensures|splits)\.\w+")
LABEL = re.compile(r"^\s*(?:ensures|requires|invariant|ghost) (\w+)(?: \{|:)", re.M)


def code_of(path: Path, roots: set[str]) -> tuple[str, set[str]]:
    """The code of a file without comments, texts and imports from the kit, and the names that it imports from there."""
    text = PLAIN[path.suffix].sub(" ", path.read_text(encoding="utf-8"))
    kits: set[str] = set()

    def without(found: re.Match[str]) -> str:
        if found[1] in roots:
            return found[0]
        names = found[2][found[2].index("{") + 1:].rstrip("} \n").split(",") if "{" in found[2] else [found[2]]
        kits.update(IDENT.findall(name.split(" as ")[0])[-1] for name in names if IDENT.search(name.split(" as ")[0]))
        return " ".join(name.split(" as ")[1] for name in names if " as " in name)

    return KIT_LABEL.sub(" ", USE.sub(without, text)), kits


def comments_of(path: Path) -> Iterator[tuple[int, str]]:
    """The comments of a file, with the number of the line, without examples and what is in backquotes."""
    text = path.read_text(encoding="utf-8")
    in_example = False
    for found in PLAIN[path.suffix].finditer(text):
        fence = FENCE.match(found[0])
        in_example ^= bool(fence)
        if found[0].startswith(("//", "--")) and not fence and not in_example:
            yield text.count("\n", 0, found.start()) + 1, QUOTED.sub("", found[0])


def words_of(name: str) -> set[str]:
    """The words of an identifier."""
    return {it.lower() for it in PART.findall(name)}


def faults_of(path: Path, roots: set[str]) -> Iterator[str]:
    """What is to be written otherwise in a file."""
    crate = path.relative_to(CRATES).parts[0]
    code, kits = code_of(path, roots)
    for name in sorted(set(IDENT.findall(code)) - kits):
        for gone, (write, stays) in WORDS.items():
            if words_of(name) & set(gone.split()) and not any(fnmatchcase(crate, it) or fnmatchcase(name, it) for it in stays.split()):
                yield f"{name}: {gone.split()[0]} is gone, write {write}"
    for label in LABEL.findall(code) if path.suffix == ".rt" else []:
        if label in LABELS:
            yield f"{label}: a clause has this label, write {LABELS[label]}"
    for line, comment in comments_of(path):
        for gone, write in GONE.items():
            if found := gone.search(comment):
                yield f"line {line}: {found[0]} is gone from comments, write {write}"


def prose_of(path: Path) -> Iterator[tuple[int, str]]:
    """The comments and docstrings of a module of Python, with the number of the line, without what is in backquotes."""
    text = path.read_text(encoding="utf-8")
    for token in tokenize.generate_tokens(io.StringIO(text).readline):
        if token.type == tokenize.COMMENT:
            yield token.start[0], QUOTED.sub("", token.string)
    for node in ast.walk(ast.parse(text)):
        if isinstance(node, (ast.Module, ast.ClassDef, ast.FunctionDef, ast.AsyncFunctionDef)) and ast.get_docstring(node):
            start = node.body[0].lineno
            yield from enumerate(QUOTED.sub("", ast.get_docstring(node) or "").splitlines(), start)


def faults_of_module(path: Path) -> Iterator[str]:
    """What is to be written otherwise in a module of Python."""
    for line, prose in prose_of(path):
        for gone, write in GONE.items():
            if found := gone.search(prose):
                yield f"line {line}: {found[0]} is gone from comments, write {write}"


def pages() -> list[Path]:
    """The pages that are written by hand, without the changelog."""
    root = PACKAGE.parent
    found = [*root.glob("*.md"), *root.glob("docs/*.md"), PACKAGE / "README.md", root / "examples/README.md"]
    return sorted(it for it in found if it.name not in ("CHANGELOG.md", "REFERENCE.md"))


def faults_of_page(path: Path) -> Iterator[str]:
    """What is to be written otherwise in a page, without its commands and what is in backquotes."""
    text = re.sub(r"^```.*?^```|^    .*?$", lambda it: "\n" * it[0].count("\n"), path.read_text(encoding="utf-8"), flags=re.M | re.S)
    for line, prose in enumerate(QUOTED.sub(lambda it: "\n" * it[0].count("\n"), text).split("\n"), 1):
        for gone, write in GONE_FROM_PAGES.items():
            if found := gone.search(prose):
                yield f"line {line}: {found[0]} is gone from pages, write {write}"


def main() -> int:
    sources = [it for kind in ("src", "specs", "proofs") for it in CRATES.glob(f"*/{kind}/**/*") if it.suffix in PLAIN]
    roots = {it.name for it in CRATES.iterdir()} | {"crate", "self", "super"}
    for source in sources:
        if source.suffix == ".rt":
            roots |= set(re.findall(r"\bmod (\w+)", source.read_text(encoding="utf-8")))
    passed = failed = 0
    for source in sorted(sources):
        faults = list(faults_of(source, roots))
        for fault in faults:
            print(f"{source.relative_to(CRATES)}: {fault}")
        failed += len(faults)
        passed += not faults
    modules = sorted(PACKAGE.rglob("*.py"))
    for text, faults_in in [*((it, faults_of_module) for it in modules), *((it, faults_of_page) for it in pages())]:
        faults = list(faults_in(text))
        for fault in faults:
            print(f"{text.relative_to(PACKAGE.parent)}: {fault}")
        failed += len(faults)
        passed += not faults
    print(f"{passed} passed, {failed} failed")
    return 1 if failed else 0


if __name__ == "__main__":
    sys.exit(main())
