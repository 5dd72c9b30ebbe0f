"""What a run found, with its lines for the user and its files."""
import argparse
import functools
import itertools
import json
import os
import platform
from decimal import Decimal
from typing import Any, Iterable, Iterator, Mapping

from contradicting.all_rows import AllRows
from contradicting.findings import KINDS, counted
from contradicting.inputs import File, Inputs
from contradicting.near import Near
from contradicting.page import Found, MadeFrom, PageData, Subject, page
from contradicting.provider_counts import Patterns, ProviderCounts
from contradicting.normalised import COLUMNS as CHANGES
from contradicting.sources import Report, maps_named, reports_named, written
from contradicting.rows import Reader, RowObserver
from contradicting.since import FORMAT, Since
from contradicting.snapshot import InputFile, Snapshot
from contradicting.tables import Table, cell, lines_in, lines_of, table, write_workbook
from contradicting.unshared import UnsharedFinder, map_path
from contradicting.warnings import Warnings
from process import Status
from text_files import PIECE
from whole_files import Piece


class Outcome:
    """Reads all rows of a run, and records what there is to look at. `folder` is for temporary files."""

    def __init__(self, inputs: Inputs, options: argparse.Namespace, snapshot: Snapshot, folder: str) -> None:
        self.inputs, self.options, self.snapshot, self.findings = inputs, options, snapshot, inputs.findings
        self.reports: list[Report] = [] if options.texts else reports_named(options)
        names = inputs.sources.names
        self.near, self.counts, self.patterns = Near(names) if options.near else None, ProviderCounts(names), Patterns()
        self.all_rows, finder = AllRows(folder, names, inputs.labels, options.most_output), UnsharedFinder(names)
        self.data = PageData(folder, names, inputs.labels)
        self.warnings, self.subject = Warnings(folder, inputs.sheet, options.most_output), Subject()
        observers: list[RowObserver] = [self.counts, self.all_rows, self.data, self.warnings, self.subject, self.patterns, finder]
        self.since = Since(inputs.earlier) if inputs.earlier else None
        observers += [*[self.near] * bool(self.near), *[self.since] * bool(self.since)]  # type: ignore[list-item]
        self.reader = Reader(inputs.text, inputs.sheet, inputs.sources, observers)
        self.rows = self.reader.rows(inputs.verdicts)
        self.all_rows.finish()
        self.near_pairs = self.near.pairs() if self.near else []
        self.copies, self.systematic = [*self.patterns.same(self.reports, snapshot)], [*self.patterns.lines(self.counts)]
        self.unshared = [*finder.found(self.counts, self.without_map())]
        self.changes, self.workbook = (os.path.join(folder, name) for name in ("changes", "workbook.xlsx"))
        self.limits = [*self.write_workbook(self.workbook)] if options.xlsx else []
        self.count()

    def without_map(self) -> set[str]:
        """Returns the providers for which no map is written: those that have one, and those whose map would be an input."""
        inputs = {os.path.realpath(path) for path in self.snapshot.copies}
        mapped = {name for name, _ in maps_named(self.options)} if self.reports else {*self.inputs.sources.names}
        paths = {report.provider: os.path.join(self.options.output, map_path(report.provider)) for report in self.reports}
        return mapped | {name for name, path in paths.items() if os.path.realpath(path) in inputs}

    def write_workbook(self, path: str) -> Iterator[str]:
        """Writes the workbook to a temporary file. Yields a line for each limit that a table exceeds."""
        changes = itertools.chain([CHANGES], lines_in(self.changes) if os.path.exists(self.changes) else ())
        files = ([cell(written(file.path)), str(file.length), file.digest] for file in self.snapshot.files.values())
        tables: list[tuple[str, Table]] = [
            ("contradictions", table(self.rows, self.inputs.labels, self.reader)), ("rows", lines_in(self.all_rows.path)),
            ("providers", self.counts.table()), ("changes", changes), ("files", itertools.chain([["file", "bytes", "sha256"]], files))]
        return write_workbook(path, tables)

    def count(self) -> None:
        add = self.findings.add
        add("contradictions", len(self.rows))
        add("new", sum(self.since.counts()[change] for change in ("new", "changed")) if self.since else 0)
        add("refusals", len(self.inputs.refusals.reports), "report refused", "reports refused")
        add("uncompared", self.near.uncompared if self.near else 0)
        add("unshared", len(self.unshared), "provider shares almost no row", "providers share almost no row")
        add("warnings", len(self.copies), "warning about copies", "warnings about copies")
        add("warnings", sum(is_hidden for _, is_hidden in self.systematic), "scale that rounding hides", "scales that rounding hides")
        add("warnings", self.warnings.count if self.options.fail_on is not KINDS else 0)  # by default, they do not change the status

    def status(self) -> Status:
        return self.findings.status(self.options.fail_on)

    def lines(self) -> Iterator[str]:
        """Yields the lines for standard error."""
        yield from map(self.snapshot.named, self.inputs.notes)
        yield from self.inputs.earlier.notes(self.inputs.version, self.inputs.sheet_digest) if self.inputs.earlier else ()
        yield from self.copies
        yield from (each.line() for each in self.unshared)
        yield from (line for line, _ in self.systematic)
        yield from self.inputs.refusals.lines()
        yield from self.warnings.lines()
        yield from self.near.notes() if self.near else ()
        yield from self.limits

    def phrases(self) -> list[str]:
        """Returns the parts of the line for standard output."""
        rows = ", ".join(f"{count} {words}" for count, words in self.counts.lines())
        return [f"{counted(self.counts.count, 'row')}: {rows}", *self.findings.phrases(), *self.warnings.phrases(), *([self.since.phrase()] if self.since else [])]

    def files(self) -> Iterator[File]:
        """Yields the names and the pieces of the files in the output folder."""
        inputs = self.inputs
        made_from = MadeFrom(inputs.version, tuple(self.snapshot.files.values()))
        found = Found(self.rows, self.reader, inputs.labels, inputs.refusals, self.data, self.counts, self.options.at_least,
                      inputs.check, made_from, self.warnings, self.subject, self.since, sum(inputs.superseded.values()))
        yield "page.html", page(found)
        yield "contradictions.csv", lines_of(table(self.rows, inputs.labels, self.reader))
        yield "table.csv", self.all_rows.pieces()
        yield "providers.csv", lines_of(self.counts.table())
        yield "warnings.csv", self.warnings.pieces()
        yield from [("since.csv", lines_of(self.since.table()))] if self.since else []
        yield "summary.json", summary(self)
        yield from inputs.files
        yield from ((map_path(each.provider), iter([json.dumps(each.map, ensure_ascii=False, indent=1) + "\n"])) for each in self.unshared if each.map)

    def texts(self) -> Iterator[tuple[str, Iterable[Piece]]]:
        """Yields the paths and the pieces of all files."""
        yield from ((os.path.join(self.options.output, name), pieces) for name, pieces in self.files())
        if self.near:
            yield self.options.near, lines_of(self.near.table(self.near_pairs, self.inputs.labels))
        if self.options.xlsx:
            yield self.options.xlsx, bytes_in(self.workbook)


def bytes_in(path: str) -> Iterator[bytes]:
    with open(path, "rb") as file:
        yield from iter(functools.partial(file.read, PIECE), b"")


def summary(outcome: Outcome) -> Iterator[str]:
    """Yields the text of summary.json, for programs: what a run compared and found."""
    counts, refused = outcome.counts, outcome.inputs.refusals.reports
    tree = {
        "format": FORMAT,
        "status": int(outcome.status()),
        "findings": outcome.findings.counts,
        "rows": {"all": counts.count, **{kind.name.lower(): counts.kinds[kind] for kind in counts.shown_kinds()}},
        "providers": [*providers(outcome)],
        "pairs": [{**pair._asdict(), "agreeing": pair.agreeing} for pair in counts.pairs()],
        "since": outcome.since and outcome.since.counts(),
        "unshared": [each.tree() for each in outcome.unshared],
        "hints": [each._asdict() for each in outcome.patterns.counts()],
        "reports": [*reports(outcome)],
        "files": [*map(file_tree, outcome.snapshot.files.values())],
        "refusals": [{"provider": report.provider, "file": report.path, "faults": report.faults, "first": [each._asdict() for each in report.first]}
                     for report in refused],
        "lines": [*outcome.lines()],
        "sheet": outcome.inputs.sheet_digest,
        "versions": {"xbrlmerge": outcome.inputs.version, "python": platform.python_version()},
        "options": vars(outcome.options),
    }
    yield json.dumps(plain(tree), ensure_ascii=False, indent=1) + "\n"


def providers(outcome: Outcome) -> Iterator[dict[str, Any]]:
    counts, refused = outcome.counts, outcome.inputs.refusals.reports
    for name in dict.fromkeys([*counts.providers, *(report.provider for report in refused)]):
        yield {"provider": name, "facts": counts.facts[name], "rows": counts.rows[name], "shared": counts.shared[name],
               "alone": counts.alone[name], "refused": sum(report.provider == name for report in refused)}


def reports(outcome: Outcome) -> Iterator[dict[str, Any]]:
    """Yields the reports with their bytes, those of the texts that were compared instead, and the number of superseded facts."""
    for provider, path in outcome.reports:
        normalised = outcome.snapshot.normalised.get(path)
        yield {"provider": provider, **file_tree(outcome.snapshot.files[path]), "normalised": normalised and file_tree(normalised),
               "superseded": outcome.inputs.superseded.get(path, 0)}


def file_tree(file: InputFile) -> dict[str, Any]:
    return {"path": file.path, "bytes": file.length, "sha256": file.digest}


def plain(tree: Any) -> Any:
    """Returns a tree that JSON can write. Bytes of paths that are not UTF-8, and unpaired surrogates, are escaped."""
    if isinstance(tree, Mapping):
        return {key: plain(value) for key, value in tree.items()}
    if isinstance(tree, (list, tuple)):
        return [*map(plain, tree)]
    return tree.encode("utf-8", "backslashreplace").decode() if isinstance(tree, str) else str(tree) if isinstance(tree, Decimal) else tree
