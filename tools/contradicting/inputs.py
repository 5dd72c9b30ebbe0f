"""The inputs of a page: named files, or the program's output for reports."""
import argparse
import os
from dataclasses import dataclass, field
from typing import Any, Iterator, Mapping, Optional

from commands import with_commands
from contradicting.findings import Findings, counted
from contradicting.labels import Labelled, Labels
from contradicting.normalised import ChangeTable, Normalised, drop, superseded_in
from contradicting.refusals import Refusals, line_of
from contradicting.remedies import FaultGroup
from contradicting.rows import FactSources
from contradicting.since import Earlier
from contradicting.snapshot import LINES, Snapshot, command, input_file, report_file
from contradicting.sources import OwnTexts, Report, Sources, check_files, maps_named, reports_named
from contradicting.texts import Provider, Text, sheet_at
from process import NotDone, Progress, shortened
from program import Program
from respelling.rules import respelled, text_of
from sheet_making.files import Files, Limits
from sheet_making.sheet_text import Texts
from sheet_making.taxonomy import kinds_from
from sheets import Sheet, types_path
from text_files import pieces_of_file

File = tuple[str, Iterator[str]]  # the name of a file beside the page, and its pieces

ADVICE = "--taxonomy PACKAGE, in place of --sheet, makes a sheet that lists the concepts and dimensions of a taxonomy"


@dataclass
class Inputs:
    """The inputs of a page, the files to write beside it, and the messages for the user."""

    text: Text
    sheet: Sheet
    verdicts: str
    sources: FactSources
    labels: Labels
    refusals: Refusals = field(default_factory=Refusals)
    files: list[File] = field(default_factory=list)
    findings: Findings = field(default_factory=Findings)
    notes: list[str] = field(default_factory=list)  # lines for standard error
    sheet_digest: str = ""
    earlier: Optional[Earlier] = None  # the run of --since
    check: str = ""  # the command that checks the run, for a shell
    version: str = ""  # of the program, if it was run
    superseded: Mapping[str, int] = field(default_factory=dict)  # the number of superseded facts, by the path of the report


def snapshot_of(options: argparse.Namespace, folder: str) -> Snapshot:
    """Copies the inputs to a folder. Errors: NotDone, OSError."""
    snapshot, reports, texts = Snapshot(folder), [report.path for report in reports_named(options)], options.texts or []
    sheets = [*[options.sheet] * bool(options.sheet), *texts[1:2]]
    if not texts:
        check_files([*reports, *sheets])
    snapshot.add_packages([*options.labels, *(options.taxonomy or [])])
    for sheet in sheets:
        snapshot.add_sheet(sheet)
    for path in (*texts, *[options.sources] * bool(options.sources), *(path for _, path in maps_named(options)), *reports):
        snapshot.add(path)
    return snapshot


def inputs_named(options: argparse.Namespace, snapshot: Snapshot) -> Inputs:
    (merged, listed, verdicts), sources = map(snapshot.of, options.texts), None
    sheet, text = sheet_at(listed), Text(merged)
    if options.sources:
        sources = Sources(snapshot.of(options.sources), [Report(name, "") for name in options.names.split(",")])
    owned = [Provider(name, snapshot.of(path), text, sheet) for name, path in reports_named(options)]
    labels, digest = labels_in(options.labels, options.language, snapshot), snapshot.files[options.texts[1]].digest
    return Inputs(text, sheet, verdicts, sources or OwnTexts(owned), labels, sheet_digest=digest)


def labels_in(words: list[str], language: str, snapshot: Snapshot) -> Labels:
    """Returns the labels in taxonomies. Errors: NotDone."""
    if not words:
        return Labels({}, language)
    taxonomy = Labelled(Files(map(snapshot.of, words), Limits()), language)
    labels = taxonomy.read_labels()
    snapshot.note(taxonomy.files.digests)
    return labels


class Run:
    """Runs the program on copies of reports, in a temporary folder."""

    def __init__(self, program: str, options: argparse.Namespace, snapshot: Snapshot, folder: str, progress: Progress) -> None:
        self.options, self.snapshot, self.folder, self.progress = options, snapshot, folder, progress
        self.reports = reports_named(options)
        self.files: list[File] = []
        self.findings = Findings()
        self.notes: list[str] = []
        self.uncompared: list[tuple[Report, list[dict[str, Any]]]] = []  # reports with sets that cannot be respelled
        self.changes = ChangeTable(folder)
        self.superseded: dict[str, int] = {}
        self.labels = labels_in(options.labels, options.language, snapshot)
        self.program = Program(program, self.sheet(), folder)

    def inputs(self) -> Inputs:
        given = [self.snapshot.of(report.path) for report in self.reports]
        whole = self.normalised() if self.options.normalise or sheet_at(self.program.sheet).sets else given
        paths = self.latest(whole) if self.options.latest else whole
        if self.options.normalise or self.options.latest or self.changes.rules:
            self.files.append(("changes.csv", self.changes.pieces()))
        self.findings.add("losses", self.changes.losses, "loss in changes.csv", "losses in changes.csv")
        found = self.read(paths, "merge", "verdicts", "sources")
        merged, verdicts, sources = map(self.program.path_of, ("merge", "verdicts", "sources"))
        check, refused = self.check(paths), (f"report {number}: {refusal}\n" for number, refusal in sorted(found.items()))
        lines = zip((f"{name}.txt" for name in LINES), (pieces_of_file(verdicts), pieces_of_file(sources), refused))
        refusals = self.refusals(found, paths)
        files = [("merged.json", pieces_of_file(merged)), *self.respelled(merged), *self.files, *lines]
        self.note_repeated(found, whole)
        return Inputs(Text(merged), sheet_at(self.program.sheet), verdicts, Sources(sources, self.reports, found),
                      self.labels, refusals, files, self.findings, self.notes, input_file("", self.program.sheet).digest, None, check,
                      self.program.version(), self.superseded)

    def respelled(self, merged: str) -> list[File]:
        """Returns the merged report for other processors, if --respell is given. Errors: NotDone."""
        if not self.options.respell:
            return []
        with open(merged, "rb") as file:
            tree = respelled(file.read(), sheet_at(self.program.sheet), [])
        if not tree["documentInfo"]["taxonomy"]:
            self.notes.append(with_commands("report.json has no taxonomy, which xBRL-JSON 1.0 does not allow: tools/respell --taxonomy adds it"))
        return [("report.json", iter([text_of(tree)]))]

    def sheet(self) -> str:
        """Returns the path of the sheet, which is made first if taxonomies are named."""
        if not self.options.taxonomy:
            return self.snapshot.of(self.options.sheet)
        self.progress.show("making the sheet")
        taxonomy = Labelled(Files(map(self.snapshot.of, self.options.taxonomy), Limits()), self.options.language)
        kinds, left_out = kinds_from(taxonomy)
        self.read_labels(taxonomy)
        texts = Texts(kinds, is_apart=True)
        path = os.path.join(self.folder, "sheet.json")
        for each, text in ((path, texts.sheet), (types_path(path), texts.types)):
            with open(each, "w", encoding="utf-8") as file:
                file.write(text)
            self.files.append((os.path.basename(each), pieces_of_file(each)))
        self.notes += left_out
        self.findings.add("omissions", len(left_out), "omission from the taxonomy", "omissions from the taxonomy")
        return path

    def read_labels(self, taxonomy: Labelled) -> None:
        """Reads the labels of --taxonomy, unless --labels is given. A fault in them is a note."""
        try:
            if not self.options.labels:
                self.labels = taxonomy.read_labels()
                if taxonomy.unfound:
                    count, example = counted(len(taxonomy.unfound), "linkbase"), shortened(next(iter(taxonomy.unfound)))
                    self.notes.append(f"the page lacks the labels of {count} outside the named files, such as {example}")
        except NotDone as fault:
            self.notes += [f"the page has no labels: {line}" for line in fault.args]
        self.snapshot.note(taxonomy.files.digests)

    def normalised(self) -> list[str]:
        made = Normalised(self.program, self.options, self.snapshot, self.changes)
        for number, report in enumerate(self.reports, 1):
            self.progress.show(f"normalising {report.path} ({number} of {len(self.reports)})")
            made.add(report)
        if made.faults and not made.paths:
            raise NotDone(*(f"{report.path}: {line_of(fault)}" for report, faults in made.faults for fault in faults))
        self.reports, self.uncompared = made.reports, made.faults
        sets = self.changes.rules["set"]
        self.notes += [*made.notes, *[f"{counted(sets, 'set')} of names respelled as URI#LOCAL in changes.csv, which loses nothing"] * bool(sets)]
        self.findings.add("warnings", len(made.notes), "report not normalised", "reports not normalised")
        return made.paths

    def latest(self, paths: list[str]) -> list[str]:
        """Returns the paths of the reports without the facts that a later report of their provider supersedes. Errors: NotDone, OSError."""
        if len({report.provider for report in self.reports}) == len(self.reports):
            return paths
        refused = self.read(paths, "verdicts", "sources")
        verdicts, sources = map(self.program.path_of, ("verdicts", "sources"))
        made = [*paths]
        for index, facts in sorted(superseded_in(verdicts, Sources(sources, self.reports, refused)).items()):
            report, made[index] = self.reports[index], os.path.join(self.folder, f"latest{index}")
            self.changes.add(report, drop(facts, paths[index], made[index], self.reports))
            self.superseded[report.path] = len(facts)
            self.notes.append(f"{report.path}: later reports of {report.provider} supersede {counted(len(facts), 'fact')}, listed in changes.csv")
        return made

    def check(self, paths: list[str]) -> str:
        """Returns the command that checks the run. Each normalised report is also written beside the page."""
        reports = [report.path for report in self.reports]
        for index, path in enumerate(paths):
            if path != self.snapshot.of(reports[index]):
                self.files.append((report_file(index + 1), pieces_of_file(path)))
                written, report = os.path.join(self.options.output, report_file(index + 1)), reports[index]
                self.snapshot.normalised[report] = self.snapshot.files[written] = input_file(written, path)
                reports[index] = written
        sheet = os.path.join(self.options.output, "sheet.json") if self.options.taxonomy else self.options.sheet
        return command(self.options.output, sheet, reports)

    def note_repeated(self, found: dict[int, str], paths: list[str]) -> None:
        """Adds notes about the accepted reports in which an object repeats a member: only the last one is read."""
        accepted = [index for index in range(len(paths)) if index + 1 not in found]
        if not accepted:
            return
        self.progress.show("looking for repeated members")
        repeated: dict[int, FaultGroup] = {}
        try:
            for index, fault in self.program.faults_by_report([paths[index] for index in accepted]):
                repeated.setdefault(accepted[index], FaultGroup(None, fault, line_of(fault))).add(fault)
        except NotDone as fault:
            self.notes += [f"repeated members are not listed: {line}" for line in fault.args]
        self.notes += [f"{self.reports[index].path}: {group.line_for(self.options)[0]}" for index, group in repeated.items()]
        self.findings.add("warnings", len(repeated), "report with repeated members", "reports with repeated members")

    def read(self, paths: list[str], *commands: str) -> dict[int, str]:
        """Runs commands on reports. Returns the refusals by the number of the report, from 1. Errors: NotDone, OSError."""
        found = []
        for each in commands:
            self.progress.show(f"running {each} on {counted(len(paths), 'report')}")
            found.append(self.program.read_reports(each, paths))
        if found[1:] != found[:-1]:
            raise NotDone("a report or the sheet changed while it was read")
        return found[0]

    def refusals(self, found: dict[int, str], paths: list[str]) -> Refusals:
        concepts, table = sheet_at(self.program.sheet).concepts, os.path.join(self.folder, "refusals.csv")
        refusals = Refusals("" if self.options.taxonomy else ADVICE, self.options, concepts, table)
        self.files.append(("refusals.csv", refusals.pieces()))
        for number, refusal in sorted(found.items()):
            provider, path = self.reports[number - 1]
            self.progress.show(f"explaining why {path} is refused")
            try:
                refusals.add(provider, path, refusal, self.program.faults(paths[number - 1]), paths[number - 1])
            except NotDone as fault:
                refusals.add(provider, path, f"{refusal} ({'; '.join(fault.args)})", ())
        for report, faults in self.uncompared:
            refusals.add(*report, line_of(faults[0]), faults)
        return refusals
