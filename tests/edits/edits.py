#!/usr/bin/env python3
"""Tries the edits of crates/CRATE/must-fail and of tests/edits/CRATE.edits in batches: the proofs must refuse each.

usage: tests/edits.sh [CRATE..] [--jobs N]   tries all edits, or those of the named crates, N checks at once: several crates side
                                             by side, or batches of one; without N one fewer than there are processors, as
                                             memory allows: beside others each check takes longer
       tests/edits.sh --list [CRATE..]       prints the function and the round of each edit, and tries nothing
       tests/edits.sh --count [CRATE..]      prints how many edits there are, and tries nothing
       tests/edits.sh --round K              tries one round, another for each K, within some minutes, for a run after the gate
       tests/edits.sh --self-test            tries edits that must not count as refused

In tests/edits/CRATE.edits an edit is a line '# NAME' and the lines of a file of must-fail; a blank line ends it. A line
'open: GOAL..' names the goals that its body makes false, which someone has read.

A round is a copy of a crate with one edit a function, and one check of these functions and what they call. An edit counts
as refused where the line of its own function says that its proof fails for a reason of its own. Where it says that a callee
is not proved, the edit is tried in a later round without that callee's; and each edit that no round refused is tried alone.

An edit is not judged where all that failed is a proof that lacks a name or a case, with the goals beside it for which no
proof is written, or a `search` that gave up at a limit: a proof may be there that nobody wrote. Such an edit counts neither
as passed nor as failed. To have it judged, change a value and keep the names, or write the proof that its body would need; or read
the goals that `search` left, which are printed: where all are false, that line, 'open: GOAL..', in the edit makes it refused.
"""

import argparse
import os
import re
import resource
import shutil
import signal
import sys
import tempfile
import threading
import time
from collections.abc import Callable
from concurrent.futures import ThreadPoolExecutor
from functools import cache
from importlib.machinery import SourceFileLoader
from pathlib import Path
from types import ModuleType
from typing import NamedTuple

sys.path.insert(0, str(Path(__file__).resolve().parents[1]))

from support import ROOT

sys.dont_write_bytecode = True
# How long --round may take, and how many edits it takes at most, since it mostly runs where no work is kept.
SECONDS, AT_MOST = 330, 8
ITEM = re.compile(r" *(?:pub(?:\([^)]*\))? )?(?:(?:const|unsafe|extern \"C\") )*(fn|impl|trait|mod)\b(.*)")
# The parameters of an impl, and the last name of a path.
PARAMETERS = re.compile(r"^<(?:[^<>]|<(?:[^<>]|<[^<>]*>)*>)*>")
NAME = re.compile(r"(?<![':\w])(?:\w+::)*(\w+)")
# What a function's line says of another one: it says nothing of the function's own proof.
OF_ANOTHER = re.compile(r"it calls|it passes|waits for|which (is|are) not proved|which (has|have) no proof|could not tell")
# What it says of a body whose form the prover does not take: it says nothing of the contract.
NOT_COVERED = "the borrow checker does not cover this function yet"
# A message of a proof that names what the edit took away or lacks a case that it added, or that cites such a proof. As `must_fail`
# of rt has it, which reads the first line of a message alone: the words may also begin a later line, and a proof of the same file
# "was rejected".
MISSING = r"(has no field|is not in scope|has no `|no constructor `[^`]*` is in scope|write the cases? `)"
CITING = r"(was not admitted|which was rejected, (was|were) not checked)"
BY_NAME = re.compile(rf"(note: )?(\./)?proofs/(.*({MISSING}|{CITING})|(.*\n)+ +{MISSING})")
# What it says of a goal: some values make it false, or nothing is known.
IS_FALSE = re.compile(r"allow values at which this goal is false|and the goal fails, at ")
GAVE_UP = "`search` gave up at one of its limits"
# What a function's line says of the goals for which it has no proof.
LEFT = re.compile(r"`search` did not prove ((?:`[^`]*`(?:, | and )?)+)")
PLACE = re.compile(r"(?:note: )?(?:\./)?(\S+?):(\d+):\d+:")
REFUSED, NOT_REFUSED, BAD_EDIT, NOT_TRIED = "refused", "NOT REFUSED", "BAD EDIT", "not tried"
NO_PROOF_WRITTEN = "not judged, since a proof lacks a name or a case"
SEARCH_GAVE_UP = "not judged, since `search` gave up"
NOT_JUDGED = (NO_PROOF_WRITTEN, SEARCH_GAVE_UP)

# rt as a module: it knows how a crate is checked and what says that an edit cannot be read.
rt = ModuleType("rt")
rt.__file__ = os.path.realpath(shutil.which("rt") or sys.exit("edits: rt is not on PATH"))
SourceFileLoader("rt", rt.__file__).exec_module(rt)
rtlib, Crate = rt.rtlib, rt.Crate
# A copy of kept work; some kits have one that only links its files.
linked = getattr(rt, "linked", shutil.copytree)
# Trials of several crates build the libraries below them in turn.
BUILDING = threading.Lock()
# What a check takes at most, in bytes.
MEMORY = 4_000_000_000


class Function(NamedTuple):
    """A function of a source file: the name of its proof, its own in the lines of a check, and its lines, from 1, with its attributes."""

    # That of a cycle is the proof of all its functions.
    proof: str
    name: str
    path: str
    lines: range
    body: range

    def owns_line(self, said: str) -> bool:
        """Whether a line of the check is the function's, or of a closure in it."""
        return f"{said.replace('::fn::', '::')}::".startswith(f"{self.name}::")

    def owns_place(self, path: str, line: int) -> bool:
        """Whether a place is in what is written of the proof, or in the function."""
        is_in_proof = path.startswith("/".join(["proofs", *self.proof.split("::")[1:], ""]))
        return is_in_proof or path == self.path and line in self.lines


@cache
def source(crate: Crate, path: str) -> str:
    return Path(crate.folder, path).read_text(encoding="utf-8")


@cache
def functions_of(crate: Crate, path: str) -> list[Function]:
    """Return the functions of a source file. What rt fmt lays out in an item is indented, and the item's last line is not."""
    lines, above, found, stems = source(crate, path).split("\n"), [], [], {}
    heads = [at for at, line in enumerate(lines) if ITEM.match(line)]
    for at in heads:
        indent = indent_of(lines[at])
        above = [it for it in above if indent_of(it) < indent]
        if ITEM.match(lines[at])[1] == "fn" and not any(ITEM.match(it)[1] == "fn" for it in above):
            end = next((it for it in heads if it > at and indent_of(lines[it]) <= indent), len(lines))
            rows = [it for it in range(at, end) if indent_of(lines[it]) == indent]
            opens = next((it for it in rows if lines[it].endswith("{")), end)
            last = next((it for it in rows if lines[it].strip() == "}"), at)
            within = "::".join([crate.name, *modules_of(crate, path, above), *map(name_of, above), ""])
            first = first_attribute(lines, at)
            cycle, name = cycle_among(lines[first:at]), within + name_of(lines[at])
            # A cycle of functions and methods has its proof beside the functions.
            stems[cycle] = min(stems.get(cycle, within), within, key=len)
            found.append((cycle, name, path, range(first + 1, last + 2), range(opens + 2, last + 2)))
        above = [*above, lines[at]]
    return [Function(f"{stems[it[0]]}+{it[0]}" if it[0] else it[1], *it[1:]) for it in found]


def indent_of(line: str) -> int:
    return len(line) - len(line.lstrip(" "))


def name_of(line: str) -> str:
    """Return the name that rattle gives an item: of an impl the type's, then the trait's and those of its arguments.

    An argument that is a parameter of the impl has no part in it.
    """
    kind, rest = ITEM.match(line).groups()
    if kind != "impl":
        return NAME.search(rest)[1]
    own = PARAMETERS.match(rest)
    parameters = [name for it in (own[0] if own else "").split(",") for name in NAME.findall(it)[:1]]
    of_trait, _, of_type = PARAMETERS.sub("", rest).split(" where")[0].rpartition(" for ")
    outer, _, arguments = of_trait.partition("<")
    given = [name for it in arguments.split(",") for name in NAME.findall(it)[:1] if name not in parameters]
    return "".join([name for it in [of_type, outer] for name in NAME.findall(it)[:1]] + given)


def first_attribute(lines: list[str], at: int) -> int:
    """Return where an item begins with the attributes above it."""
    while at > 0 and lines[at - 1].lstrip().startswith("#["):
        at -= 1
    return at


def cycle_among(attributes: list[str]) -> str:
    """Return the word of #[cycle(..)], or an empty text."""
    return next((named[1] for named in map(re.compile(r" *#\[cycle\((\w+)\)\]").match, attributes) if named), "")


def modules_of(crate: Crate, path: str, above: list[str]) -> list[str]:
    """Return the modules of a function's file; of a type's own method they are those of the file that declares the type."""
    own = next((name_of(it) for it in above if ITEM.match(it)[1] == "impl" and " for " not in it), "")
    for file in sorted(rtlib.files_of(crate.folder)) if own else []:
        if file.endswith(".rt") and re.search(rf"(?m)^ *(pub(\([^)]*\))? )?(struct|enum) {own}\b", rtlib.text_of(file)):
            path = os.path.relpath(file, crate.folder)
            break
    return [it for it in re.sub(r"(^|/)(lib|main|mod)$", "", path[len("src/") : -len(".rt")]).split("/") if it]


class Edit:
    """An edit: lines that name a file, and pairs of an old text of it and a new one."""

    def __init__(self, crate: Crate, name: str, lines: str) -> None:
        self.crate, self.label = crate, f"{crate.name}/{name}"
        self.texts, self.why = rt.edited(lines, crate.folder)
        # The goals that are false with it, as someone has read.
        self.false = {goal for it in re.findall(r"(?m)^open: (.*)$", lines) for goal in it.split()}
        self.changes: list[tuple[str, int, int, str]] = []
        # Those that it changes, with the others of their cycles. An edit that changes what is in none is tried alone.
        self.functions: list[Function] = []
        path = old = ""
        for kind, text in [] if self.why else re.findall(r"(?m)^(file|old|new): ?(.*)$", lines):
            path = text.strip() if kind == "file" else path
            old = text if kind == "old" else old
            if kind == "new" and not self.adds_change(path, old, text):
                self.functions = []
                break
        self.proofs = {it.proof: it for it in self.functions}

    def adds_change(self, path: str, old: str, new: str) -> bool:
        """Note what is changed, and return whether it is in a function's body. A contract is no function's alone."""
        whole = source(self.crate, path)
        start = whole.find(old)
        if start < 0 or not path.startswith("src/"):
            return False
        self.changes.append((path, start, start + len(old), new))
        functions = functions_of(self.crate, path)
        proof = next((it.proof for it in functions if whole.count("\n", 0, start) + 1 in it.body), "")
        self.functions += [it for it in functions if it.proof == proof]
        return bool(proof)

    def owns_place(self, message: str) -> bool:
        place = PLACE.match(message)
        return bool(place) and any(it.owns_place(place[1], int(place[2])) for it in self.functions)

    def lines_in(self, lines: list[str]) -> list[str]:
        """Return the lines of a check that tell of the edit's functions that they are not proved."""
        said = [(it, re.match(r"fn (\S+): (?!proved$|assumed$)", it)) for it in lines]
        return [it for it, name in said if name and any(own.owns_line(name[1]) for own in self.functions)]


def edits_of(crate: Crate) -> list[Edit]:
    """Return the edits of must-fail, which the gate tries too, and those of tests/edits."""
    found = [(it.stem, it.read_text(encoding="utf-8")) for it in map(Path, rt.edits_of(crate)[0])]
    file = ROOT / f"tests/edits/{crate.name}.edits"
    for block in re.split(r"\n\n+", file.read_text(encoding="utf-8").strip("\n")) if file.exists() else []:
        name, _, lines = block.partition("\n")
        if not name.startswith("# ") or name[2:] in dict(found):
            sys.exit(f"edits: {file.name}: a block begins by {name!r}, and not by '# NAME' with a name of its own")
        found.append((name[2:], lines))
    return [Edit(crate, *it) for it in found]


def rounds_of(edits: list[Edit], at_most: int = 1000) -> list[list[Edit]]:
    """Put each edit into the first round in which its functions are free; one without a function alone."""
    rounds: list[list[Edit]] = []
    for edit in edits:
        free = (it for it in rounds if len(it) < at_most and all(not edit.proofs.keys() & other.proofs for other in it))
        found = next((it for it in free if edit.proofs and it[0].proofs), None)
        rounds.append([edit]) if found is None else found.append(edit)
    return rounds


def texts_of(edits: list[Edit]) -> dict[str, str]:
    """Return the files that a round changes, by their path in the crate."""
    if len(edits) == 1:
        return edits[0].texts
    texts: dict[str, str] = {}
    for path, start, end, new in sorted((it for edit in edits for it in edit.changes), reverse=True):
        text = texts.get(path) or source(edits[0].crate, path)
        texts[path] = text[:start] + new + text[end:]
    return texts


def kept_work(crate: Crate, room: str) -> str | None:
    """Return a copy of what the crate's checks keep, or None where it or a library below it is not proved without an edit."""
    with BUILDING:
        crates = [*crate.below(), crate]
        held = rtlib.lock(crates)
        try:
            built = is_left_by_gate(crates) or not any(it.build_rlib(["--jobs", "1"], anew=False) for it in crates)
            kept = f"{room}/{crate.name}"
            if os.path.isdir(f"{crate.folder}/out/incremental"):
                linked(f"{crate.folder}/out/incremental", kept)
        finally:
            for it in held:
                os.close(it)
    return kept if built else None


def is_left_by_gate(crates: list[Crate]) -> bool:
    """Whether the libraries are those of rt ci, which leaves them with no stamp and with all made in one run."""
    newest = 0
    for it in crates:
        newest = max([newest, *map(os.path.getmtime, rtlib.files_of(it.folder))])
        if os.path.exists(f"{it.folder}/out/rlib/stamp") or not os.path.isfile(f"{it.rlib}/format"):
            return False
    return all(os.path.getmtime(f"{it.rlib}/format") > newest for it in crates)


class Check(NamedTuple):
    """What a check told: its lines, and those that say that it judged nothing."""

    lines: list[str]
    unread: list[str]
    status: int
    seconds: float

    def is_refusal(self) -> bool:
        return self.status == 1 and not self.unread and self.lines[-1].startswith(("logic=not-proved", "only="))


class Trial:
    """Tries edits of one crate and prints what came of each."""

    def __init__(self, crate: Crate, flags: list[str], jobs: int = 1) -> None:
        self.crate, self.flags, self.jobs, self.kept = crate, flags, jobs, ""
        self.outcomes: dict[str, str] = {}

    def run(self, edits: list[Edit]) -> None:
        """Try all edits, where the crate is proved without them."""
        with tempfile.TemporaryDirectory(prefix="edits-") as room:
            self.kept = kept_work(self.crate, room)
            if self.kept is None:
                print(f"{self.crate.name}: it or a library below it is not proved without an edit, so none was tried")
                self.outcomes = {it.label: NOT_TRIED for it in edits}
                return
            pending, alone = [it for it in edits if it.functions], [it for it in edits if not it.functions]
            while pending:
                tried = self.each(self.try_round, rounds_of(pending))
                pending = [it for blocked, _ in tried for it in blocked]
                alone += [it for _, others in tried for it in others]
            self.each(self.try_alone, alone)

    def each(self, call: Callable, given: list) -> list:
        """Call once for each that is given. Where nothing is kept yet, the first call keeps what the others begin with."""
        first = [] if os.path.isdir(self.kept) else given[:1]
        return [*map(call, first), *side_by_side(call, given[len(first) :], self.jobs)]

    def check(self, edits: list[Edit]) -> Check:
        """Check the functions of edits once, over what the checks before kept, or over a copy of it where others run beside."""
        since, texts = time.monotonic(), texts_of(edits)
        for only in (only_flags(edits), []):
            with tempfile.TemporaryDirectory(prefix="edits-kept-") as room:
                kept = self.kept
                if self.jobs > 1 and os.path.isdir(kept):
                    kept = f"{room}/kept"
                    linked(self.kept, kept)
                ran = rt.checked(self.crate, texts, [*self.flags, *only], kept)
            # Of an impl of a trait of another crate the name may be another.
            if not only or "has no function" not in ran.stdout:
                break
        lines = ran.stdout.rstrip("\n").split("\n")
        unread = [it for it in lines if rt.unread(it, texts)]
        if not unread and rtlib.STALE.search(ran.stdout):
            unread = ["the kept work of a library could not be used"]
        return Check(lines, unread, ran.returncode, time.monotonic() - since)

    def tell(self, edit: Edit, outcome: str, seconds: float, why: str = "") -> None:
        self.outcomes[edit.label] = outcome
        print(f"{edit.label}: {outcome} ({seconds:.0f} s){': ' + why[:1000] if why else ''}", flush=True)

    def try_round(self, edits: list[Edit]) -> tuple[list[Edit], list[Edit]]:
        """Try edits in one check. Return those that a callee's edit kept from being judged, and those to try alone."""
        check = self.check(edits)
        if not check.is_refusal():
            bad = [it for it in edits if any(map(it.owns_place, check.unread))]
            return [it for it in edits if it not in bad] if bad else [], bad or edits
        blocked, alone = [], []
        for edit in edits:
            said = edit.lines_in(check.lines)
            if why := not_covered(said):
                self.tell(edit, BAD_EDIT, check.seconds, why)
            elif is_refused(edit, said, check.lines):
                outcome = outcome_of([*filter(edit.owns_place, messages_of(check.lines))])
                outcome = read_outcome(outcome, edit.false, said)
                self.tell(edit, outcome, check.seconds, goals_to_read(outcome, said))
            else:
                (blocked if said else alone).append(edit)
        return (blocked, alone) if len(blocked) < len(edits) else ([], edits)

    def try_alone(self, edit: Edit) -> None:
        """Try one edit, as rt does: all that is not proved is due to it."""
        if edit.why:
            self.tell(edit, BAD_EDIT, 0, edit.why)
            return
        check = self.check([edit])
        if why := not_covered(edit.lines_in(check.lines)):
            outcome = BAD_EDIT
        elif check.unread:
            outcome, why = BAD_EDIT, check.unread[0]
        elif check.is_refusal():
            said = [it for it in check.lines if re.match(r"fn \S+: (?!proved$|assumed$)", it)]
            outcome = read_outcome(outcome_of(messages_of(check.lines)), edit.false, said)
            why = goals_to_read(outcome, said) or "tried alone"
        elif check.status == 0:
            outcome, why = NOT_REFUSED, "it is proved"
        else:
            outcome, why = BAD_EDIT, f"the prover did not judge it: {check.lines[-1]}"
        self.tell(edit, outcome, check.seconds, why)


def try_all(crates: list[Crate], jobs: int) -> dict[str, str]:
    """Try all edits: those of one crate in batches side by side, those of several crates crate by crate, several at a time, the largest
    crates first."""
    crates = sorted(crates, key=lambda it: -it.count(rb"\n"))
    trials = [(Trial(it, ["--jobs", "1"], jobs if len(crates) == 1 else 1), edits) for it in crates if (edits := edits_of(it))]
    side_by_side(lambda it: it[0].run(it[1]), trials, jobs)
    return {label: outcome for trial, _ in trials for label, outcome in trial.outcomes.items()}


def side_by_side(call: Callable, given: list, jobs: int) -> list:
    """Call once for each that is given. One job takes no thread, which the end of --round's time could not stop."""
    if jobs == 1:
        return [call(it) for it in given]
    with ThreadPoolExecutor(jobs) as pool:
        return [*pool.map(call, given)]


def not_covered(said: list[str]) -> str:
    """Return what a function's lines say of a form that the prover does not take, or an empty text."""
    of_form = next((it for it in said if NOT_COVERED in it), "")
    return of_form and f"no contract was tried: {of_form[of_form.index(NOT_COVERED) :]}"


def is_refused(edit: Edit | None, said: list[str], lines: list[str]) -> bool:
    """Whether the lines of a function tell of a fault of its own.

    Where a callee is not proved its goals are tried all the same, and an error in its proof counts unless that rests on
    what was not admitted.
    """
    if any(not OF_ANOTHER.search(it) or "`search` did not prove" in it for it in said):
        return True
    own = [it for it in lines if ": error: " in it and "was not admitted" not in it and edit.owns_place(it)]
    return bool(said and own)


def outcome_of(messages: list[str]) -> str:
    """Return whether a body that is not proved is refused, or why it is not judged.

    A goal that is false refuses it, and so does a proof that says something else than its goal. Where a proof lacks a name or a
    case, the body has goals for which no proof is written, and no `search` judges those. Where `search` gave up at a goal, it may
    also have left open others that hold.
    """
    by_name = [it for it in messages if BY_NAME.match(it)]
    if any(map(IS_FALSE.search, messages)) or any(": error: " in it for it in messages if it not in by_name):
        return REFUSED
    if by_name:
        return NO_PROOF_WRITTEN
    return SEARCH_GAVE_UP if any(GAVE_UP in it for it in messages) else REFUSED


def read_outcome(outcome: str, false: set[str], said: list[str]) -> str:
    """Return the outcome of an edit where someone has read which goals are false: it is refused where `search` left these alone."""
    left = left_goals(said)
    return REFUSED if outcome == SEARCH_GAVE_UP and left and left == false else outcome


def left_goals(said: list[str]) -> set[str]:
    """Return the goals that the lines of a function say `search` left."""
    return {goal for line in said for it in LEFT.findall(line) for goal in re.findall(r"`([^`]*)`", it)}


def goals_to_read(outcome: str, said: list[str]) -> str:
    """Return the line for an edit that is not judged, if someone finds that all its goals are false; else an empty text."""
    return f"open: {' '.join(sorted(left_goals(said)))}" if outcome == SEARCH_GAVE_UP else ""


def messages_of(lines: list[str]) -> list[str]:
    """Return the errors and notes that tell a place, each with the lines that it goes on in, which are indented."""
    found, is_open = [], False
    for line in lines:
        if PLACE.match(line):
            is_open = ": error" in line or line.startswith("note: ")
            found += [line] if is_open else []
        elif is_open and line.startswith(" "):
            found[-1] += "\n" + line
        else:
            is_open = False
    return found


def try_one_round(crates: list[Crate], number: int) -> dict[str, str]:
    """Try one round of all. Only its functions and what they call are proved, since the gate has proved the crate."""
    rounds = [it for crate in crates for it in rounds_of(edits_of(crate), AT_MOST)]
    at = number % len(rounds)
    edits, crate = rounds[at], rounds[at][0].crate
    print(f"round {at} of {len(rounds)}: {crate.name}, {len(edits)} edits", flush=True)
    trial = Trial(crate, ["--jobs", str(rt.processors())])
    signal.signal(signal.SIGALRM, stop_in_time)
    signal.alarm(SECONDS)
    try:
        trial.run(edits)
    except TimeoutError:
        left = [it.label for it in edits if it.label not in trial.outcomes]
        print(f"passed over, since they take more than {SECONDS} seconds here: {' '.join(left)}")
    finally:
        signal.alarm(0)
    return trial.outcomes


def only_flags(edits: list[Edit]) -> list[str]:
    """Return the flags with which a check proves the functions of edits alone; none if an edit changes what is in no function."""
    names = [it.name for edit in edits for it in edit.proofs.values()]
    return [word for name in names for word in ("--only", name)] if all(it.proofs for it in edits) else []


def stop_in_time(*_: object) -> None:
    raise TimeoutError


def listed(crates: list[Crate]) -> list[str]:
    """Return a line an edit: its functions and its round, where all of its crate are tried."""
    rounds = [it for crate in crates for it in enumerate(rounds_of(edits_of(crate)))]
    return [f"{it.label}: {' '.join(it.proofs) or 'alone'}: round {number}" for number, edits in rounds for it in edits]


def counted(crates: list[Crate]) -> list[str]:
    """Return a line a crate, and one for all: how many edits there are."""
    found = [(it.name, edits_of(it), len(rt.edits_of(it)[0])) for it in crates]
    rows = [(name, len(edits), of_gate, len(rounds_of(edits, AT_MOST))) for name, edits, of_gate in found if edits]
    rows.append(("all", *(sum(row[column] for row in rows) for column in (1, 2, 3))))
    return ["{}: {} edits, {} of them in must-fail; {} rounds for --round".format(*it) for it in rows]


def summed_up(outcomes: dict[str, str]) -> int:
    """Print the sums, and the processor time that the checks took, and return the status."""
    passed, unjudged = ([it for it, outcome in outcomes.items() if outcome in kinds] for kinds in ((REFUSED,), NOT_JUDGED))
    failed = [it for it in outcomes if it not in passed and it not in unjudged]
    for name, labels in (("FAILED", failed), ("not judged", unjudged)):
        if labels:
            print(f"{name}: {' '.join(labels)}")
    taken = resource.getrusage(resource.RUSAGE_CHILDREN)
    print(f"{len(unjudged)} not judged; {(taken.ru_utime + taken.ru_stime) / 60:.1f} processor minutes")
    print(f"{len(passed)} passed, {len(failed)} failed")
    return 1 if failed else 0


# What --self-test tries, in one round: edits of callees, and some that change nothing, in callers of those and elsewhere.
SELF_TEST = {
    "callee": ("src/document.rt", "        self.pairs.len()", "        self.pairs.capacity()", REFUSED),
    "other_callee": ("src/node.rt", "TreeParts::Items(items),", "TreeParts::Items(&items[..0]),", REFUSED),
    "caller_with_answers": ("src/document.rt", "            if here == name {", "            if (here) == name {", NOT_REFUSED),
    "caller_without_answers": ("src/document.rt", "    depth_of(Tree::Doc(document))", "    (depth_of(Tree::Doc(document)))", NOT_REFUSED),
    "name_gone": ("src/document.rt", "                scalar_fits(scalar_leaf);", "                let _leaf = scalar_leaf;", NO_PROOF_WRITTEN),
    "elsewhere": ("src/document.rt", "    text.as_bytes().contains(&0)", "    text.as_bytes().contains(&0) // nothing", NOT_REFUSED),
}

# What a check tells of an edit's function, and what that says of the edit.
LACKS = "./proofs/a/Answers.antt:3:5: error: `returns`: record `A` has no field `b`"
OPEN = "note: src/a.rt:7:1: it is not proved that what the function ensures holds when it returns (`returns-in-Some`)"
MESSAGES = [
    ([LACKS, "  the fields that can be named here are `c`"], NO_PROOF_WRITTEN),
    (["./proofs/a/Answers.antt:3:5: error: `returns`: record `A`", "  has no field `b`", "  the fields that can be named here are `c`"], NO_PROOF_WRITTEN),
    ([LACKS, "proofs/a/Answers.antt:7:1: error: 2 declarations that depend on `f`, which was rejected, were not checked: g, h"], NO_PROOF_WRITTEN),
    (["./proofs/a/Answers.antt:6:5: error: `returns-in-Ok`: `goal.returns-in-Ok`: module `b.Goals` has no `returns-in-Ok` that can be named from here", OPEN], NO_PROOF_WRITTEN),
    (["./proofs/a/Answers.antt:7:9: error: module `b.Goals` has no `in-None` that can be named from here (did you mean `in-Some`?)", OPEN], NO_PROOF_WRITTEN),
    (["./proofs/a/Answers.antt:9:9: error: `returns`: write the case `in-None _ ↦ …`", "  no case of the `elim` covers `in-None _`"], NO_PROOF_WRITTEN),
    (["./proofs/a/Answers.antt:9:9: error: `returns`: `in-None` is applied to arguments in a pattern, but no constructor `in-None` is in scope"], NO_PROOF_WRITTEN),
    ([LACKS, f"{OPEN}; {GAVE_UP}"], NO_PROOF_WRITTEN),
    ([LACKS, f"{OPEN}; the facts known there allow values at which this goal is false"], REFUSED),
    (["./proofs/a/Answers.antt:3:5: error: `returns`: this has type `A`", "  one side has no field", "fn a: not proved", "  has no field `b`"], REFUSED),
    ([LACKS, "./proofs/a/Answers.antt:9:5: error: `returns-in-Ok`: as printed, the two types differ"], REFUSED),
    ([f"{OPEN}; {GAVE_UP}", f"{OPEN}; {GAVE_UP}"], SEARCH_GAVE_UP),
    ([f"{OPEN}; {GAVE_UP}", OPEN], SEARCH_GAVE_UP),
    ([f"{OPEN}; {GAVE_UP}", f"{OPEN}; the facts known there allow values at which this goal is false"], REFUSED),
    ([OPEN], REFUSED),
    (["./proofs/a/Answers.antt:3:5: note: large solution", "fn a: not proved"], REFUSED),
]

# What a check tells of a function alone, and whether its edit is refused by it.
SAID = [
    ("fn a: not proved", True),
    ("fn a: no proof: expected answers in ./proofs/a/Answers.antt; `search` did not prove `returns`; it calls `b`, which is not proved", True),
    ("fn a: not proved; it calls `b`, which is not proved", False),
    ("fn a: no proof: the borrow checker's part in its proof is not made yet: a call of `b`, which has no proof: help: prove it first", False),
]


# What someone has read to be false, what a function's line says of its goals, and whether an edit is then refused.
LEFT_OPEN = "fn a: no proof: expected answers in ./proofs/a/Answers.antt; `search` did not prove `returns`, `returns-in-Ok`"
READ = [({"returns", "returns-in-Ok"}, True), ({"returns"}, False), ({"returns", "returns-in-Ok", "other"}, False), (set(), False)]


def self_test(crates: list[Crate]) -> int:
    """Try the edits of SELF_TEST and judge what is told in MESSAGES, READ and SAID."""
    crate = next(it for it in crates if it.name == "bd_value")
    edits = [Edit(crate, name, f"file: {path}\nold: {old}\nnew: {new}\n") for name, (path, old, new, _) in SELF_TEST.items()]
    is_one_round = len(rounds_of(edits)) == 1
    trial = Trial(crate, ["--jobs", "1"])
    trial.run(edits)
    wrong = [it for it, wanted in SELF_TEST.items() if trial.outcomes[f"{crate.name}/{it}"] != wanted[-1]]
    wrong += [" ".join(lines) for lines, wanted in MESSAGES if outcome_of(messages_of(lines)) != wanted]
    wrong += [str(it) for it, wanted in READ if (read_outcome(SEARCH_GAVE_UP, it, [LEFT_OPEN]) == REFUSED) != wanted]
    wrong += [line for line, wanted in SAID if is_refused(None, [line], []) != wanted]
    print(f"self-test: {'FAILED: ' + ' '.join(wrong) if wrong or not is_one_round else 'ok'}")
    return 1 if wrong or not is_one_round else 0


def main() -> int:
    read = argparse.ArgumentParser(usage=__doc__)
    read.add_argument("crates", nargs="*")
    read.add_argument("--jobs", type=int)
    read.add_argument("--list", action="store_true")
    read.add_argument("--count", action="store_true")
    read.add_argument("--round", type=int)
    read.add_argument("--self-test", action="store_true")
    words = read.parse_args()
    # Its first call sets a signal's handler, which only the main thread may.
    rtlib.guarded()
    crates = rtlib.crates_below(str(ROOT))
    unknown = {*words.crates} - {it.name for it in crates}
    if unknown:
        sys.exit(f"edits: no crate is named {' '.join(sorted(unknown))}")
    crates = [it for it in crates if not words.crates or it.name in words.crates]
    if words.self_test:
        return self_test(crates)
    if words.list or words.count:
        print(*(listed if words.list else counted)(crates), sep="\n")
        return 0
    if words.round is not None:
        return summed_up(try_one_round(crates, words.round))
    jobs = words.jobs or max(1, min(rt.processors() - 1, rt.free() // MEMORY))
    return summed_up(try_all(crates, jobs))


if __name__ == "__main__":
    sys.exit(main())
