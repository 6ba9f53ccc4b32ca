"""Audits: the check of many files, as many at once as there are processors."""

from __future__ import annotations

import os
from concurrent.futures import ThreadPoolExecutor, as_completed
from contextlib import ExitStack
from dataclasses import dataclass, field, replace
from typing import Callable, Iterable

from .._arguments import File, name_of, whole
from .._dumps.archive import Archive, Listed
from .._dumps.archive_frames import Namespace
from .._dumps.files import name_in
from .._dumps.runs import Checking
from .._dumps.sources import Source, Unwatched, Watch
from .._errors import ArgumentError, BsonfindError, is_finding, why
from .._run.processes import Group, processors, wide_program
from .backups import Dump, dumps_of, fault_of_listed, fault_of_metadata, is_inside, namespace_of, place_of
from .damage import text_of_id
from .logs import failures_in, read_log, text_lines
from .repeats import Repeats
from .reports import MOST_FAULTS, Audit, Noting, Report
from .split import split


def audit(
    paths: File | Iterable[File],
    *,
    expect: File | None = None,
    jobs: int | None = None,
    max_faults: int = MOST_FAULTS,
    ids: bool = False,
    program: str = "bsonwide",
) -> Audit:
    """Checks the dumps of one or more names, and those below directories, several at once; `expect` is a log of mongodump.

    With `ids` it reports each `_id` that several documents of a dump have. Nothing is skipped in silence: what cannot be read has a
    report with its error.
    """
    jobs, most = None if jobs is None else whole("jobs", jobs, 1), whole("max_faults", max_faults)
    if not isinstance(ids, bool):
        raise ArgumentError(f"ids is True or False, not {ids!r}")
    names = [paths] if isinstance(paths, (str, bytes, os.PathLike)) else paths
    if not isinstance(names, Iterable) or not (names := list(names)):
        raise ArgumentError(f"audit takes a name, or some names, not {paths!r}")
    return audit_dumps(dumps_of(map(name_of, names)), expect, jobs, most, program, with_ids=ids)


def audit_dumps(
    dumps: list[Dump],
    expect: File | None = None,
    jobs: int | None = None,
    max_faults: int = MOST_FAULTS,
    program: str = "bsonwide",
    take: Callable[[Report], None] = lambda _: None,
    watch: Callable[[int, int], Watch] = lambda files, size: Unwatched(),
    take_list: Callable[[str, list[Listed]], None] = lambda name, listed: None,
    with_ids: bool = False,
) -> Audit:
    """Checks dumps, and passes on the report of each as soon as it is there, and the list of its archive; `watch` gets their sizes."""
    log = [] if expect is None else text_lines(expect)
    counts, failures = None if expect is None else read_log(log), failures_in(log)
    if counts == {} and not failures:
        raise ArgumentError(f"{os.fsdecode(expect or '')} is no log of mongodump: no line has a count, such as: done dumping db.c (5 documents)")
    wide_program(program)
    sizes = {it.file: it.size or 0 for it in dumps}
    with watch(len(dumps), sum(sizes.values())) as progress:
        reports = _check_all(dumps, _Checker(max_faults, program, take, take_list, progress, with_ids), jobs or processors())
    missing: dict[str, int] = {}
    if counts is not None:
        there = _collections(reports, counts)
        for report in there.values():
            report.compare(counts)
        named = {name for report in there.values() for name in report.names_in_log()}
        missing = {namespace: count for namespace, count in counts.items() if namespace not in named}
    return Audit(reports, missing, [f"{os.fsdecode(expect or '')}: {it}" for it in failures])


def _collections(reports: list[Report], counts: dict[str, int]) -> dict[str, Report]:
    """The file that represents each collection; others of it are noted, and those of a backup inside of this one."""
    there: dict[str, Report] = {}
    places = {it.place for it in reports if it.place and not counts.keys().isdisjoint(it.names_in_log())}
    for report in reports:
        if report.place and is_inside(report.place, places):
            report.copy = "in a directory below that of the other dumps, so it stands for none of them"
        elif report.namespace and there.setdefault(report.namespace, report) is not report:
            report.copy = f"{report.namespace} is in {there[report.namespace].name} too"
    return there


def _check_all(dumps: list[Dump], checker: _Checker, jobs: int) -> list[Report]:
    """The reports of all dumps, in their order; the largest is checked first, and a file with several names once."""
    files: dict[object, list[Dump]] = {}
    for dump in dumps:
        files.setdefault(dump.file or id(dump), []).append(dump)
    reports: dict[int, list[Report]] = {}
    with ThreadPoolExecutor(jobs) as pool:
        try:
            largest = sorted(files.values(), key=lambda names: -(names[0].size or 0))
            for future in as_completed([pool.submit(checker.check, names) for names in largest]):
                reports.update(future.result())
        except BaseException:
            checker.group.end()
            pool.shutdown(cancel_futures=True)
            raise
    return [report for dump in dumps for report in reports[id(dump)]]


@dataclass
class _Checker:
    """The check of one file after the other; threads share it."""

    _max_faults: int
    _program: str
    _take: Callable[[Report], None]
    _take_list: Callable[[str, list[Listed]], None]
    _progress: Watch
    _with_ids: bool
    group: Group = field(default_factory=Group)

    def check(self, names: list[Dump]) -> dict[int, list[Report]]:
        """Checks a file, or each collection of an archive; the reports are those of each of its names."""
        first = names[0]
        found, listed, is_archive = self._check_file(first)
        reports: dict[int, list[Report]] = {}
        for dump in names:
            these = [replace(it, name=dump.name + it.name[len(first.name) :]) for it in found]
            reports[id(dump)] = these
            for it in these:
                self._name(it, dump, is_archive)
            self._take_list(dump.name, listed)
            self._progress.add_file()
        return reports

    def _check_file(self, dump: Dump) -> tuple[list[Report], list[Listed], bool]:
        """The reports of a file, or of each collection of an archive, the list of an archive, and whether it is one."""
        report, is_archive = Report(dump.name, error=dump.error, is_fault=dump.is_fault), False
        listed: list[Listed] = []
        if dump.error:
            return [report], listed, False
        try:
            with Source(dump.name) as source, self._progress.over(source):
                listed, is_archive = source.listed, source.is_archive
                if is_archive:
                    return self._check_archive(source, listed), listed, True
                self._check_documents(report, source)
        except (BsonfindError, OSError) as error:
            self._note(report, error)
        return [report], listed, is_archive

    def _name(self, report: Report, dump: Dump, is_archive: bool) -> None:
        """Notes what a report has by the name of its file, and passes it on."""
        if dump.is_below and not dump.error:
            report.place = os.path.abspath(dump.name) if is_archive else place_of(dump.name)
        if not (dump.error or is_archive):
            report.namespace, report.metadata = str(namespace_of(dump.name)), fault_of_metadata(dump.name, dump.is_below)
        self._take(report)

    def _note(self, report: Report, error: BsonfindError | OSError) -> None:
        """Notes why a file was not read to its end; where all was ended, that is raised."""
        if self.group.is_ended:
            raise error
        report.error, report.is_fault = why(error), is_finding(error)

    def _check_archive(self, source: Source, listed: list[Listed]) -> list[Report]:
        """The reports of the collections of an archive, which are checked side by side as their documents come."""
        archive = Archive(source.raw())
        listed += archive.listed
        reports: dict[Namespace, Report] = {}

        def report_of(namespace: Namespace) -> Report:
            name = name_in(source.name, namespace)
            return reports.setdefault(namespace, Report(name, namespace=str(namespace_of(name))))

        def check(namespace: Namespace, documents: Source) -> None:
            report = report_of(namespace)
            try:
                self._check_documents(report, documents)
            except (BsonfindError, OSError) as error:
                self._note(report, error)

        others: list[Report] = []
        try:
            for end in split(archive, check, self.group):
                if end and end.error:
                    report = report_of(end.namespace)
                    report.error, report.is_fault = end.error, True
        except (BsonfindError, OSError) as error:
            others = [Report(source.name)]
            self._note(others[0], error)
        if not (reports or listed or others):
            others = [Report(source.name, error="no collection is in this archive", is_fault=True)]
        for it in listed:
            if fault := fault_of_listed(it):
                report_of(it.buckets if it.buckets in reports else it.namespace).metadata = fault
        return [*(reports[namespace] for namespace in sorted(reports)), *others]

    def _check_documents(self, report: Report, source: Source) -> None:
        checking, noting = Checking(self._program, self.group), Noting(report, self._max_faults)
        with ExitStack() as stack:
            repeats = stack.enter_context(Repeats()) if self._with_ids else None
            try:
                for fault in checking.faults(source, repeats.take if repeats else None):
                    noting.add(fault)
            finally:
                noting.end(checking.documents, checking.bytes)
            if repeats:
                report.repeated, first = repeats.found(self._max_faults)
                texts = (text_of_id(it.id, self._program, self.group) for it in first)
                report.repeats = [(text, it.documents) for text, it in zip(texts, first)]
        noting.look(source, self._program, self.group)
