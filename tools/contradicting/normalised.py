"""Normalises reports before the program reads them, by the rules of tools/normalise. Without --normalise, only sets of names are
respelled, because the program would take two spellings of one set for two texts, or texts of two sets for one. With --latest,
only the last of a provider's reports that reports a row counts there."""
import argparse
import collections
import itertools
import json
import os
from typing import Iterator, Mapping

from contradicting.snapshot import Snapshot
from contradicting.sources import Identifier, Report, Sources, maps_named, written
from contradicting.tables import cell, lines_of
from contradicting.texts import using
from normalising.changes import Log, brief_of, is_long
from normalising.json_text import Number, Tree, pieces_of, read_json, read_json_of_length, text_of
from normalising.mapping import read_map
from normalising.rules import Normaliser
from process import NotDone, sentence
from program import Program
from sheets import sheet_at
from text_files import pieces_of_file

VALUES = ("was", "now")  # JSON texts, so that 5 and "5" differ
COLUMNS = ["provider", "report", *"fact number pointer rule loss".split(), *VALUES, *"moved why shortened".split()]
Superseded = dict[str, int]  # the identifiers of facts in a report, each with the index of the report that supersedes it


class ChangeTable:
    """The changes of reports, in a temporary file."""

    def __init__(self, folder: str) -> None:
        self.path = os.path.join(folder, "changes")
        self.rules: collections.Counter[str] = collections.Counter()
        self.losses = 0

    def add(self, report: Report, log: Log) -> None:
        changes = [json.loads(line, parse_int=Number, parse_float=Number) for line in log.lines]
        source = [cell(report.provider), cell(written(report.path))]
        with open(self.path, "a", encoding="utf-8", newline="") as file:
            table = ([*source, *(cell(shown(change, key)) for key in COLUMNS[2:])] for change in changes)
            file.writelines(itertools.islice(lines_of(table), 1, None))  # without the byte order mark, which `lines_of` yields first
        self.rules.update(change["rule"] for change in changes)
        self.losses += sum(change["loss"] for change in changes)

    def pieces(self) -> Iterator[str]:
        yield from lines_of([COLUMNS])
        if os.path.exists(self.path):
            yield from pieces_of_file(self.path)


class Normalised:
    """Normalised reports in the folder of a snapshot. `reports` are those that can be compared, and `paths` their files."""

    def __init__(self, program: Program, options: argparse.Namespace, snapshot: Snapshot, changes: ChangeTable) -> None:
        self.normaliser, self.is_whole, self.most = Normaliser(sheet_at(program.sheet), options, program), options.normalise, options.most_output
        self.snapshot, self.changes = snapshot, changes
        self.maps = {provider: read_map(snapshot.of(path)) for provider, path in maps_named(options)}
        self.reports: list[Report] = []
        self.paths: list[str] = []
        self.faults: list[tuple[Report, list[dict[str, Tree]]]] = []  # reports with sets that cannot be respelled
        self.notes: list[str] = []  # messages about reports that are left as they are

    def add(self, report: Report) -> None:
        """Normalises the next report. If that fails, keeps the original file and adds a note, unless it may have a set."""
        given = self.snapshot.of(report.path)
        try:
            tree, length = read_json_of_length(given)
            log = self.log_of(report, tree, length)
        except (NotDone, ValueError, RecursionError) as fault:
            why = "; ".join(map(str, fault.args)) if isinstance(fault, NotDone) else sentence(fault)
            why = why.removeprefix(f"{given}: ")
            if self.normaliser.sheet.sets:
                told = f"its sets are not respelled: {why}"
                self.faults.append((report, [{"number": None, "name": "SetForm", "identifier": None, "part": None, "sentence": told}]))
            else:
                self.notes.append(f"{report.path} is not normalised: {why}")
                self.keep(report, given)
            return
        if log.faults:
            self.faults.append((report, log.faults))
            return
        path = os.path.join(self.snapshot.folder, f"normalised{len(self.paths)}")
        self.keep(report, path if log.lines or self.is_whole else given)
        if self.paths[-1] == path:
            with open(path, "w", encoding="utf-8", newline="") as file:
                file.writelines(pieces_of(tree, self.most))
        self.changes.add(report, log)

    def log_of(self, report: Report, tree: Tree, length: int) -> Log:
        if self.is_whole:
            return self.normaliser.normalise(tree, length, self.maps.get(report.provider))
        return self.normaliser.spell_sets(tree, length)

    def keep(self, report: Report, path: str) -> None:
        self.reports.append(report)
        self.paths.append(path)


def shown(change: dict[str, Tree], key: str) -> str:
    """Returns a member of a change as the text of a cell. The text is empty if the member is absent. Members in VALUES are
    written as JSON. For other keys, a text is not quoted, and null gives an empty text."""
    value = change.get(key)
    if key in VALUES and key in change:
        return text_of(value)
    return "" if value is None else value if isinstance(value, str) else text_of(value)


def superseded_in(verdicts: str, sources: Sources) -> dict[int, Superseded]:
    """Returns the superseded facts of each report, by its index. `verdicts` is the path of the verdicts. Errors: NotDone."""
    found: dict[int, Superseded] = {}
    with using(verdicts), open(verdicts, encoding="utf-8", newline="\n") as lines:
        for line in lines:
            for own in by_provider(facts_of(line), sources).values():
                last = max(each.report for each in own)
                for each in own:
                    if each.report < last:
                        found.setdefault(each.report, {})[each.text] = last
    sources.finish()
    return found


def facts_of(line: str) -> Iterator[str]:
    """Yields the identifiers of the facts in the row of a line that `verdicts` printed."""
    first, last = line.split(" ", 3)[1:3]
    return (f"f{number:0{len(first) - 1}}" for number in range(int(first[1:]), int(last[1:]) + 1))


def by_provider(facts: Iterator[str], sources: Sources) -> Mapping[str, list[Identifier]]:
    found: dict[str, list[Identifier]] = collections.defaultdict(list)
    for holder in (holder for name in facts for holder in sources.holders(name, None)):
        found[holder.name].extend(holder.identifiers)
    return found


def drop(superseded: Superseded, path: str, new: str, reports: list[Report]) -> Log:
    """Writes the report at `path` without its superseded facts to the path `new`. Returns a log of them. Errors: NotDone, OSError."""
    tree, log = read_json(path), Log()
    for number, (name, fact) in enumerate([*tree["facts"].items()], 1):
        if name in superseded:
            own, was = Log(name, number), brief_of(fact)
            why = f"superseded by {written(reports[superseded[name]].path)}"
            own.add(("facts", name), {"was": was, "why": why}, "superseded", True, was != fact or is_long((name,)))
            log.take(own)
            del tree["facts"][name]
    with open(new, "w", encoding="utf-8", newline="") as file:
        file.writelines(pieces_of(tree))
    return log
