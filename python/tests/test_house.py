"""Tests of the sources of the package: its floors, the size of its modules, what it imports, and where it reads what a program printed."""

import ast
import shutil
import subprocess
import sys
import unittest
from typing import Dict, Iterator, Set, Tuple

from .support import PACKAGE, PEOPLE, environment

SOURCES = PACKAGE / "bsonfind"
# A module imports from its own folder and from those before it; the first has the modules beside the folders.
FLOORS = ("", "_run", "_dumps", "_ask", "_backup", "_command")
MOST_LINES = 350
# How many modules `--help` may import beside those of Python's own start; ours among them.
MOST_IMPORTED, MOST_OWN = 45, 12
# What reads what a program printed.
READERS = {
    "lines_of", "faults_of", "all_faults", "faulty_numbers", "finish", "finish_check", "finish_dump", "counted", "read_reply", "read_batch", "documents_in", "document_at",
    "error_of", "read_fault", "messages", "lines_of_documents", "texts_of_values", "pack_lines", "each_document", "batches",
}  # fmt: skip
# Each place that calls one of them, and what it does with what was printed. None of them decides what is a fault, or what matches.
PLACES = {
    "_ask/answers.Answer.__init__": "passes lines or documents on",
    "_ask/answers.distinct": "takes the values of documents that match",
    "_ask/distinct.Distinct.values": "reads the texts of values",
    "_ask/connections.Connection.fields": "reads a reply",
    "_ask/decoding.Decoding.batch": "cuts a batch into its documents",
    "_ask/decoding.Parsed.give": "reads a document",
    "_ask/lines.Lines.batches": "passes lines or documents on, and the end and the token; compares the count with that of what was printed",
    "_ask/lines.Lines.count": "takes the count, which is printed twice, and compares these",
    "_ask/lines.counted": "reads the line of the count; compares it with that of what was printed",
    "_ask/merge._check": "moves the places of faults to those in the whole file",
    "_ask/merge._joined": "passes documents on",
    "_ask/merge._packed_answer": "joins documents, for the run that is asked next",
    "_ask/replies.read_batch": "reads a reply",
    "_ask/replies.documents_in": "cuts a batch into its documents",
    "_ask/readings.Reading._read": "reads a reply",
    "_ask/readings.Reading.token": "reads a reply",
    "_dumps/runs.all_faults": "compares the count with that of what was given",
    "_dumps/runs.faulty_numbers": "the same",
    "_backup/beginnings.Beginnings._check": "notes which documents have a fault",
    "_backup/archives._Side._read_archive": "takes the count",
    "_backup/compare.each_of": "takes the count",
    "_backup/compare.compared": "prints the texts of keys",
    "_backup/damage.text_of_id": "prints the text of an id",
    "_backup/grep._Grep._found": "prints the texts of ids and of fields",
    "_backup/ids.find_ids": "passes lines on; takes a document that dump refuses for one with a fault",
    "_backup/ids._packed": "takes the bytes of ids; compares how many there are with how many were given",
    "_backup/query.Matching.of": "passes documents on",
    "_backup/query._answer": "passes lines on",
    "_backup/reading._Batch.good": "notes faults, and leaves out their documents",
    "_backup/salvaging._Batch.faults": "takes the faults, by which documents are separated from others",
    "_backup/show.show": "takes the first fault of a document",
    "_backup/show._look_at": "takes the faults of elements, each in a document that has it alone",
    "_backup/show.values_of": "prints the texts of values",
    "_backup/texts.texts": "prints the texts of values",
    "_command/dumping.Dumping.__init__": "asks no documents, so that refused fields are reported",
    "_command/dumping.Dumping._print": "reads the line of the count; the place of a fault is moved to that in the dump",
    "_command/dumping.pack_input": "passes on what a run says",
    "_command/finding.Finding._print_all": "passes the line of the count on",
    "_command/finding.Finding._try": "asks no documents, so that a refused request is reported",
    "_command/finding.Finding._print_parts": "passes the count of what was joined on",
    "_command/finding.Finding._ask_parts": "takes the count of each part",
    "_dumps/runs.Checking.faults": "moves the places of faults of an input to those in the dump, and adds up the counts",
    "_dumps/runs.faults_of": "reads the lines of faults",
    "_dumps/runs.finish_check": "reads the line of the count; compares it with that of what was given",
    "_dumps/runs.each_document": "raises the first fault; adds up the counts of inputs",
    "_dumps/runs.finish_dump": "reads the line of the count",
    "_dumps/runs.lines_of_documents": "compares the count with that of what was given",
    "_dumps/runs.pack_lines": "waits for the line of the count",
    "_dumps/runs.texts_of_values": "takes the text of a value out of a line, to print it",
    "_run/messages.error_of": "makes an error of a message",
    "_run/processes.Run.error": "makes an error of a message",
    "_run/processes.Run.finish": "compares all that a run says with the line of its count",
    "_run/processes._refuse_other_version": "compares the version",
}
# What puts in order, counts or adds.
ORDERING = {"sorted", "sort", "sum", "Counter", "most_common", "merge"}
# Where what was printed, or the bytes of a dump, are compared, put in order or counted, and why that decides no answer of a query.
DECIDES = {
    "_ask/distinct.Distinct.add": "takes each value of a field once; which documents match is the program's answer",
    "_ask/merge.count_parts": "adds up the counts of parts that have no document in common",
    "_ask/merge.check_parts": "the same of faults",
    "_backup/audit._Checker._check_documents": "counts the faults of each kind",
    "_backup/beginnings.Beginnings._chain": "guesses where documents go on, of which check says whether they have a fault",
    "_backup/compare._by_key": "documents are the same if their bytes are: that is what the command says",
    "_backup/compare.compared": "counts them",
    "_backup/compare._differences": "the same",
    "_backup/compare.alone": "counts the documents of a dump that only one of two backups has",
    "_backup/archives.compare_archives": "puts dumps in the order of their names",
    "_backup/repeats.Repeats.found": "counts the documents of each id: ids are the same if their bytes are, or their numbers: that is what the command says",
    "_backup/salvage_backup._Salvage._refuse": "puts the names of files that are there in their order, and names the first",
    "_dumps/kinds._is_tar": "adds up the bytes of a header of tar, for its checksum",
    "_backup/count.Count._take_by": "counts documents by the bytes of their values; which documents match is the program's answer",
    "_backup/count.Count.merge": "adds the counts of documents that are not the same",
    "_backup/count.Count.rows": "values are one if their numbers or their texts are equal: that is what the command says",
    "_backup/ids.find_ids": "an id is found if the bytes of a document's id are the same, or its number is: that is what the command says",
    "_backup/info._ordered": "puts collections in the order of their names",
    "_backup/search.Search._matches": "a text is found where its bytes, or a pattern, are in a value: that is what the command says",
    "_backup/search.Search._matches_value": "the same of an id and of a UUID",
    "_backup/reports.Report.compare": "compares a count with that in the log",
    "_backup/schema.Looked.__init__": "counts the types of values, and keeps the least and the greatest: that is what the command says",
    "_backup/count.Sum.add": "adds numbers, exactly: that is what the command says",
    "_backup/texts.order_of": "sorts rows of equal counts, and the values of a schema",
    "_dumps/framing.ends_in": "the lengths of documents, before a run reads them",
    **dict.fromkeys(
        ["_backup/reports.Report.faulty", "_backup/reports.Report.harmless", "_backup/reports.Audit.kinds", "_backup/reports.Audit.rows",
         "_backup/reports.Audit.as_json"],
        "adds up the faults, the documents and the files of reports, and prints the most frequent kinds first",
    ),
    **dict.fromkeys(
        ["_backup/schema.Field.merge", "_backup/schema.Field.fold", "_backup/schema.Schema._merge", "_backup/schema._rows",
         "_backup/schema.Looked._slot", "_command/counting._shares"],
        "adds what was found in some documents, counts paths, and prints the most frequent types first: that is what the command says",
    ),
    **dict.fromkeys(
        ["_backup/compare.Sorter.add", "_backup/compare.Sorter.all"],
        "puts the lines of `compare` in the order of their bytes, so that those of one key come together",
    ),
    **dict.fromkeys(
        ["_backup/reading._Batch.__init__"],
        "how many documents, or bytes of them, a run was given, which its count is compared with",
    ),
    **dict.fromkeys(
        ["_backup/salvaging.Salvaging._check_ahead", "_backup/salvage.Salvaged.bytes_left_out",
         "_ask/readings.Reading._made", "_dumps/originals.Original.documents"],
        "bytes: how many are held in memory, or were left out",
    ),
    **dict.fromkeys(
        ["_backup/audit.audit_dumps", "_backup/grep.grep_dumps", "_command/console.Progress._show"],
        "how many bytes there are to read, for the line of progress",
    ),
    **dict.fromkeys(
        ["_backup/audit._check_all", "_backup/audit._Checker._check_archive", "_backup/backups._found_in",
         "_backup/backups.metadata_below", "_backup/backups.preludes_below", "_backup/compare.pairs_of"],
        "puts files or collections in the order of their names or sizes",
    ),
    "_command/finding.Finding._print_parts": "adds up the counts of parts that have no document in common",
    "_command/arguments._Parser.parse_known_args": "names the first option that is given twice",
    "_command/commands._run_unpack": "adds up the documents of collections that were written",
    "_ask/lines.Lines.count": "adds up the counts of inputs of one dump",
    "__init__.__dir__": "puts the names of the package in order",
}  # fmt: skip
# Each clause that catches any error, and what becomes of that: none is lost.
WIDE = {
    "_ask/aio.AsyncSession.open": "ends the session, and raises it",
    "_ask/answers.Answer._read_on": "takes what is known of the end, and raises it",
    "_ask/connections.Connection.__init__": "ends the run, and raises it",
    "_ask/connections.Connection._reply": "ends the run, and raises it",
    "_ask/decoding.Texts.give": "goes on to the next document, and raises it",
    "_ask/aio.Loop.do": "gives it to the plan, which raises what comes of it",
    "_ask/merge._Asking._run": "ends all runs, and raises it",
    "_ask/merge._Asking.each": "ends all runs, and raises it, or the error of the first part that failed",
    "_ask/plans.now": "gives it to the plan, which raises what comes of it",
    "_ask/questions.Questions.__init__": "closes what was opened, and raises it",
    "_backup/audit._check_all": "ends all runs, and raises it",
    "_command/shell.run_command": "reports it, with a status that is not 0",
    "_dumps/originals.kept": "closes the file, and raises it",
    "_run/processes.Run._write": "ends the run, and is raised where that is waited for",
    "_run/processes.Run._feed": "ends the run, and raises it",
    "_run/processes.Run.__init__": "closes the file, and raises it",
}


def modules() -> Dict[str, ast.Module]:
    """The modules by their names, such as `_run/processes`, parsed."""
    files = {str(it.relative_to(SOURCES))[:-3]: it for it in SOURCES.rglob("*.py")}
    return {name: ast.parse(file.read_text(encoding="utf-8")) for name, file in files.items()}


def imported(name: str, tree: ast.Module, known: Set[str]) -> Iterator[str]:
    """The modules of the package that a module imports, inside of functions too, and for types alone."""
    for node in ast.walk(tree):
        if isinstance(node, ast.ImportFrom) and node.level:
            folder = name.rpartition("/")[0] if node.level == 1 else ""
            place = "/".join(it for it in (folder, *(node.module or "").split(".")) if it)
            for it in [place, *("/".join(filter(None, (place, alias.name))) for alias in node.names)]:
                if it in known:
                    yield it


class House(unittest.TestCase):
    def test_floors(self) -> None:
        """No module imports from a floor above its own, and no modules import one another in a ring."""
        trees = modules()
        imports = {name: set(imported(name, tree, set(trees))) for name, tree in trees.items() if not name.startswith("__")}
        for name, others in imports.items():
            for other in others:
                floors = [FLOORS.index(it.rpartition("/")[0]) for it in (name, other)]
                self.assertGreaterEqual(floors[0], floors[1], f"{name} imports {other}")
        left = dict(imports)
        while left:
            free = [name for name, others in left.items() if not any(other in left for other in others)]
            self.assertTrue(free, f"these import one another: {sorted(left)}")
            for name in free:
                del left[name]

    def test_sizes(self) -> None:
        for file in SOURCES.rglob("*.py"):
            name = str(file.relative_to(SOURCES))[:-3]
            lines = len(file.read_text(encoding="utf-8").splitlines())
            self.assertLessEqual(lines, MOST_LINES, name)

    def test_types(self) -> None:
        """mypy finds nothing, in its strict mode."""
        if not shutil.which("mypy"):
            self.skipTest("this machine has no mypy")
        run = subprocess.run(["mypy", "--strict", "bsonfind"], cwd=PACKAGE, capture_output=True, text=True)
        self.assertEqual(run.returncode, 0, run.stdout)

    def test_imports(self) -> None:
        """`--help` and one plain file import little, so that they start fast; no public name is lost by that."""
        code = "import sys\nbefore = {*sys.modules}\nfrom bsonfind.__main__ import main\ntry: main(['--help'])\nexcept SystemExit: pass\n"
        code += "print(*sorted({*sys.modules} - before), file=sys.stderr)"
        run = subprocess.run([sys.executable, "-c", code], env=environment(), capture_output=True, text=True)
        names = run.stderr.split()
        own = [it for it in names if it.startswith("bsonfind")]
        self.assertLessEqual(len(own), MOST_OWN, own)
        self.assertLessEqual(len(names), MOST_IMPORTED, names)
        self.assertFalse({"subprocess", "shutil", "typing", "json"} & {*names})
        code = "import sys\nbefore = {*sys.modules}\nfrom bsonfind._command import program\nprogram.os.execv = lambda *_: None\n"
        code += f"program.become_program(['check', {str(PEOPLE)!r}])\nprint(*sorted({{*sys.modules}} - before))"
        run = subprocess.run([sys.executable, "-c", code], env=environment(), capture_output=True, text=True)
        self.assertEqual(
            [it for it in run.stdout.split() if it.startswith("bsonfind")],
            ["bsonfind", "bsonfind._command", "bsonfind._command.program", "bsonfind._run", "bsonfind._run.program"],
            run.stderr,
        )

    def test_errors(self) -> None:
        """A clause that catches any error is listed with what becomes of it; one that does nothing says why."""
        wide: Set[str] = set()
        for name, tree in modules().items():
            lines = (SOURCES / f"{name}.py").read_text(encoding="utf-8").splitlines()
            for place, function in functions(name, tree):
                for clause in (it for it in ast.walk(function) if isinstance(it, ast.ExceptHandler)):
                    kinds = {it.id for it in ast.walk(clause.type) if isinstance(it, ast.Name)} if clause.type else {"BaseException"}
                    if kinds & {"Exception", "BaseException"}:
                        wide.add(place)
                    if len(clause.body) == 1 and isinstance(clause.body[0], (ast.Pass, ast.Continue)):
                        self.assertIn("  # ", lines[clause.body[0].lineno - 1], f"{name}:{clause.lineno}")
        self.assertEqual(wide, set(WIDE))

    def test_what_is_read_of_programs(self) -> None:
        """Each place that reads what a program printed is listed, with what it does with that."""
        found: Set[str] = set()
        for name, tree in modules().items():
            for place, node in functions(name, tree):
                if names_called(node) & READERS:
                    found.add(place)
        self.assertEqual(found, set(PLACES))
        defined = {place.rpartition(".")[2] for name, tree in modules().items() for place, _ in functions(name, tree)}
        self.assertEqual(READERS - defined, set())

    def test_what_is_decided(self) -> None:
        """Each place that puts in order, counts or adds is listed, with the reason, and so are those that compare; none is listed that is gone."""
        known = {place: names_called(node) for name, tree in modules().items() for place, node in functions(name, tree)}
        self.assertEqual(set(DECIDES) - set(known), set())
        self.assertEqual({place for place, names in known.items() if names & ORDERING} - set(DECIDES), set())


def names_called(node: ast.AST) -> Set[str]:
    """The names of what a function calls."""
    calls = (it.func for it in ast.walk(node) if isinstance(it, ast.Call))
    return {it.attr if isinstance(it, ast.Attribute) else it.id for it in calls if isinstance(it, (ast.Attribute, ast.Name))}


def functions(name: str, tree: ast.AST, inside: str = "") -> Iterator[Tuple[str, ast.AST]]:
    """The functions of a module, and those of its classes; what is inside of a function is a part of it."""
    for node in ast.iter_child_nodes(tree):
        if isinstance(node, (ast.FunctionDef, ast.AsyncFunctionDef)):
            yield f"{name}.{inside}{node.name}", node
        elif isinstance(node, ast.ClassDef):
            yield from functions(name, node, f"{inside}{node.name}.")


if __name__ == "__main__":
    unittest.main()
