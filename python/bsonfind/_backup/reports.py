"""What an audit found: a report of each file, and the table and the JSON of all."""

from __future__ import annotations

import json
from collections import Counter
from dataclasses import dataclass, field
from typing import Any, Iterator, NamedTuple

from .._dumps.sources import Source
from .._faults import NO_DAMAGE, Fault
from .._run.processes import Group
from .damage import Detail, details_of, is_of_a_length
from .texts import line_of_json

# How many faults of a file are reported one by one.
MOST_FAULTS = 10
# What is between a database and the name of a time series in the name of the collection of its documents.
_BUCKETS = ".system.buckets."


@dataclass
class Report:
    """What the check of a file came to.

    `kinds` says how many documents have each kind of first fault, and `faults` has the first of those that are damage, and then
    the first of each other kind. `error` says why the file was not read to its end, `metadata` what is wrong with its metadata.
    """

    name: str
    documents: int = 0
    kinds: Counter[str] = field(default_factory=Counter)
    faults: list[Fault] = field(default_factory=list)
    # What is known of damaged documents beside their faults, by their numbers.
    details: dict[int, Detail] = field(default_factory=dict)
    # How many bytes at the end are not known to be a document. They count as one, with a fault.
    rest: int = 0
    # How many documents have a length that is known, and how many bytes these have, unpacked.
    whole: int = 0
    bytes: int = 0
    error: str | None = None
    metadata: str | None = None
    # Whether the error is a fault of the backup: a file of gzip that is truncated or damaged, or metadata without its dump.
    is_fault: bool = False
    # The collection that it is of, where that is known, and below a directory the place that has those of the databases.
    namespace: str | None = None
    place: str | None = None
    # What the log says of the collection, and why the file does not represent it.
    expected: int | None = None
    is_miscounted: bool = False
    is_untold: bool = False
    copy: str | None = None
    # How many ids several documents have, None if they were not looked at, and the first of these: its text, if it has one, and how many.
    repeated: int | None = None
    repeats: list[tuple[str | None, int]] = field(default_factory=list)

    @property
    def faulty(self) -> int:
        """How many documents have a fault."""
        return sum(self.kinds.values())

    @property
    def harmless(self) -> int:
        """How many documents have a fault that is no damage."""
        return sum(self.kinds[kind] for kind in NO_DAMAGE)

    @property
    def is_good(self) -> bool:
        """Whether nothing is wrong with the file by itself."""
        return not (self.faulty or self.error or self.metadata or self.repeated)

    @property
    def counted(self) -> str:
        """How many documents there are, and how many bytes of one that was truncated."""
        return f"{self.documents - 1} documents and a rest of {self.rest} bytes" if self.rest else f"{self.documents} documents"

    def names_in_log(self) -> list[str]:
        """The names that the log may have for the collection: that of a time series is its own, or that of its documents."""
        name = self.namespace or ""
        return [name, name.replace(_BUCKETS, ".", 1)] if _BUCKETS in name else [name]

    def compare(self, counts: dict[str, int]) -> None:
        """Compares the count with that in the log, which may say nothing of the oplog."""
        self.expected = next((counts[name] for name in self.names_in_log() if name in counts), None)
        self.is_miscounted = self.expected not in (None, self.documents)
        self.is_untold = self.expected is None and self.namespace != "oplog"

    def lines(self) -> Iterator[str]:
        """What is printed of the file."""
        damage = [it for it in self.faults if it.kind not in NO_DAMAGE]
        for fault in damage:
            yield f"{fault}{self.details.get(fault.document, '')}"
        more = self.faulty - self.harmless - len(damage)
        if more:
            yield f"and {more} more"
        harmless = [it for it in self.faults if it.kind in NO_DAMAGE]
        if harmless:
            counts = ", ".join(f"{self.kinds[it.kind]} {it.kind}" for it in harmless)
            yield f"no damage, but not readable: {counts}; the first at {harmless[0]}"
        for text, documents in self.repeats:
            yield f"repeated {'_id that has a fault' if text is None else text}: {documents} documents"
        if self.repeated and self.repeated > len(self.repeats):
            yield f"and {self.repeated - len(self.repeats)} more ids"
        yield self.error or f"{self.counted}, {self.faulty} faulty"
        if self.metadata:
            yield f"metadata: {self.metadata}"

    def as_json(self) -> dict[str, Any]:
        """The report as an object of JSON."""
        faults = []
        for fault in self.faults:
            detail = self.details.get(fault.document, Detail())
            number = None if detail.id is None else json.loads(detail.id)
            faults.append({**dict(zip(("document", "byte", "path", "kind"), fault)), **detail._asdict(), "id": number})
        names = "name", "documents", "faulty", "kinds", "faults", "rest", "error", "metadata", "expected", "repeated"
        return {name: getattr(self, name) for name in names} | {"faults": faults}


class Noting:
    """The faults of a file, which are noted in its report as they are found: this many of those that are damage one by one."""

    def __init__(self, report: Report, most: int) -> None:
        self._report, self._most = report, most
        self._harmless: dict[str, Fault] = {}
        self._last: Fault | None = None

    def add(self, fault: Fault) -> None:
        """Notes the first fault of a document."""
        self._report.kinds[fault.kind] += 1
        if fault.kind in NO_DAMAGE:
            self._harmless.setdefault(fault.kind, fault)
        else:
            self._last = fault
            if len(self._report.faults) < self._most:
                self._report.faults.append(fault)

    def end(self, documents: int, size: int) -> None:
        """Notes how many documents there were, and how many bytes there were, unpacked."""
        cut = self._last if self._last and is_of_a_length(self._last) else None
        self._report.documents, self._report.whole = documents, documents - bool(cut)
        self._report.bytes = cut.offset if cut else size
        self._report.rest = max(0, size - self._report.bytes)
        self._report.faults.extend(self._harmless.values())

    def look(self, source: Source, program: str, group: Group) -> None:
        """Notes what can be read of the documents with these faults."""
        damage = [it for it in self._report.faults if it.kind not in NO_DAMAGE]
        self._report.details = details_of(source, damage, program, group)


class Audit(NamedTuple):
    """The reports of all files, what the log of mongodump says that has no file, with how many documents, and its lines of failures."""

    reports: list[Report]
    missing: dict[str, int]
    failures: list[str] = []

    @property
    def kinds(self) -> Counter[str]:
        """How many documents have each kind of first fault."""
        return sum((it.kinds for it in self.reports), Counter())

    @property
    def unread(self) -> list[Report]:
        """The files and directories that could not be read to their ends."""
        return [it for it in self.reports if it.error]

    @property
    def unseen(self) -> list[Report]:
        """Those of them that may be good: they are not there, or could not be read."""
        return [it for it in self.unread if not it.is_fault]

    @property
    def miscounted(self) -> list[Report]:
        """The files that have another number of documents than mongodump reports."""
        return [it for it in self.reports if it.is_miscounted]

    @property
    def untold(self) -> list[Report]:
        """The files of which the log says nothing, as one that was interrupted leaves them."""
        return [it for it in self.reports if it.is_untold]

    @property
    def copies(self) -> list[Report]:
        """The files that represent no collection of the log, since another one does, or they are in another backup inside of this."""
        return [it for it in self.reports if it.copy]

    @property
    def without_metadata(self) -> list[Report]:
        """The files whose metadata is missing or cannot be read."""
        return [it for it in self.reports if it.metadata]

    @property
    def with_repeats(self) -> list[Report]:
        """The files in which several documents have one `_id`, if that was looked at."""
        return [it for it in self.reports if it.repeated]

    @property
    def is_good(self) -> bool:
        """Whether all files are there, whole and without faults."""
        of_files = self.kinds, self.unread, self.copies, self.without_metadata, self.with_repeats
        return not any((*of_files, self.miscounted, self.untold, self.missing, self.failures))

    def lines(self) -> Iterator[str]:
        """What is printed of the files beside the log."""
        for report in self.miscounted:
            yield f"{report.name}: {report.counted} in place of {report.expected}"
        for report in self.untold:
            yield f"{report.name}: not in the log"
        for report in self.copies:
            yield f"{report.name}: {report.copy}"
        for namespace, count in self.missing.items():
            yield f"{namespace}: missing, with {count} documents"
        yield from self.failures

    def rows(self) -> list[tuple[str, int]]:
        """The table; the kinds of faults that are no damage come last."""
        kinds = self.kinds.most_common()
        damage = [(f"  {kind}", count) for kind, count in kinds if kind not in NO_DAMAGE]
        harmless = [(f"  {kind} (no damage)", count) for kind, count in kinds if kind in NO_DAMAGE]
        others = (
            ("not read", self.unread),
            ("other counts than expected", self.miscounted),
            ("not in the log", self.untold),
            ("other copies", self.copies),
            ("without metadata", self.without_metadata),
            ("with repeated ids", self.with_repeats),
            ("missing", self.missing),
            ("failures in the log", self.failures),
        )
        return [
            ("files", len(self.reports)),
            ("documents", sum(it.documents for it in self.reports)),
            ("faulty", sum(self.kinds.values())),
            *damage,
            *harmless,
            *((name, len(those)) for name, those in others if those),
        ]

    def as_json(self) -> str:
        """All of it, as one line of JSON."""
        return line_of_json(
            {
                "good": self.is_good,
                "files": [it.as_json() for it in self.reports],
                "documents": sum(it.documents for it in self.reports),
                "faulty": sum(self.kinds.values()),
                "kinds": self.kinds,
                **{name: [it.name for it in getattr(self, name)] for name in ("miscounted", "untold", "copies")},
                "missing": self.missing,
                "failures": self.failures,
            }
        )
