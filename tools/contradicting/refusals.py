"""The reports that the program refuses, and their faults."""
import argparse
import json
import os
from typing import Any, Iterable, Iterator, Mapping, NamedTuple, Optional, Union

from contradicting.remedies import UNKNOWN, FaultGroup, Remedy, guess_at, remedy_for
from contradicting.sources import written
from contradicting.tables import cell, lines_of
from contradicting.tables import line_of as line_of_table
from names import Name
from process import shortened
from text_files import pieces_of_file

MOST_LINES = 20  # the most faults of one report that are shown
MOST_NAMES, MOST_PRINTED = 1_000, 20  # the most missing names of one kind: on the page, and in the printed lines
MISSING = '"documentInfo" is missing'
COLUMNS = "provider file fact number name sentence".split()
LACKING = {"UnknownConcept": "concept", "UnknownDimension": "dimension"}  # refusals that another sheet may avoid


class Fault(NamedTuple):
    """A fault as refusals.csv lists it. The number and the name may be unknown."""

    fact: Optional[str]
    number: Optional[int]
    name: Optional[str]
    sentence: str


class Refused(NamedTuple):
    """A refused report of a provider, its first faults, also as lines, and the number of its faults. `groups` has a line for each
    kind of fault, and `remedies` those that name an option."""

    provider: str
    path: str
    first: tuple[Fault, ...]
    lines: tuple[str, ...]
    faults: int
    groups: tuple[str, ...]
    remedies: tuple[str, ...]

    def shown(self) -> Iterator[str]:
        yield from self.lines
        if self.faults > len(self.lines):
            yield f"and {self.faults - len(self.lines)} more"


class Refusals:
    """The refused reports, and the names in them that the sheet lacks. The file `table` has a line for each fault."""

    def __init__(self, advice: str = "", options: Optional[argparse.Namespace] = None, concepts: Iterable[Name] = (),
                 table: str = os.devnull) -> None:
        self.path, self.table = table, open(table, "w", encoding="utf-8", errors="backslashreplace", newline="")
        self.table.writelines(lines_of([COLUMNS]))
        self.advice, self.options, self.locals = advice, options, {name.local for name in concepts}
        self.reports: list[Refused] = []
        self.lacking: dict[str, dict[str, None]] = {"concept": {}, "dimension": {}}

    def add(self, provider: str, path: str, refusal: str, faults: Iterable[Mapping[str, Any]], copy: str = "") -> None:
        """Adds a report with its faults. If it has no faults, the refusal is shown instead. `copy` is the file that was read."""
        first: list[Fault] = []
        shown, count = [], 0
        where = [cell(provider), cell(written(path))]
        groups: dict[Union[Remedy, str, None], FaultGroup] = {}
        for count, fault in enumerate(faults, 1):
            if count <= MOST_LINES:
                shown.append(line_of(fault))
                first.append(fault_of(fault))
            self.table.write(line_of_table([*where, *map(cell, fault_of(fault))]))
            remedy = remedy_for(fault, self.locals)
            group = groups.setdefault(remedy or fault["name"], FaultGroup(remedy, fault, line_of(fault)))
            group.add(fault)
            names = self.lacking.get(LACKING.get(fault["name"], ""))
            if names is not None and len(names) < MOST_NAMES:
                names[shortened(fault["part"])] = None
        for group in [group for group in groups.values() if group.first["sentence"] == MISSING]:
            group.line += guess_at(copy or path)
            groups.pop(UNKNOWN, None)  # no member of another file is to be dropped
        lines_found = [group.line_for(self.options, path) for group in groups.values()] if self.options else []
        lines = tuple(line for line, _ in lines_found) or (refusal,)
        remedies = tuple(line for line, has_option in lines_found if has_option)
        if not count:
            first = [Fault(None, None, None, refusal)]
            self.table.write(line_of_table([*where, *map(cell, first[0])]))
        self.reports.append(Refused(provider, path, tuple(first), tuple(shown or [refusal]), count or 1, lines, remedies))

    def pieces(self) -> Iterator[str]:
        """Yields the text of the table."""
        self.table.flush()
        yield from pieces_of_file(self.path)

    def lacking_lines(self, most: int = MOST_NAMES) -> Iterator[str]:
        """Yields a line with the concepts that the sheet lacks, and one with the dimensions. Each shows up to `most` names. If
        the sheet lacks a name, `advice` follows, unless it is empty."""
        for kind, names in self.lacking.items():
            if names:
                count = f"{len(names)}{' or more' * (len(names) == MOST_NAMES)} {kind}{'s' * (len(names) > 1)}"
                more = f" and {len(names) - most} more" * (len(names) > most)
                yield f"the sheet lacks {count}: {', '.join([*names][:most])}{more}"
        if self.advice and any(self.lacking.values()):
            yield self.advice

    def lines(self) -> Iterator[str]:
        """Yields the lines to print about all refused reports."""
        for report in self.reports:
            yield from (f"{report.path}: {line}" for line in report.groups)
        yield from self.lacking_lines(MOST_PRINTED)


def fault_of(fault: Mapping[str, Any]) -> Fault:
    number = fault["number"]
    return Fault(fault["identifier"], None if number is None else int(number), fault["name"], fault["sentence"])


def line_of(fault: Mapping[str, Any]) -> str:
    identifier = fault["identifier"]
    fact = "" if identifier is None else f"fact {json.dumps(shortened(identifier), ensure_ascii=False)}: "
    number = "" if fault["number"] is None else f"{fault['number']} {fault['name']}: "
    return f"{fact}{number}{fault['sentence']}"
