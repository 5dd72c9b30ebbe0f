"""Compares the contradictions of a run with those of an earlier one, by the dimensions of their rows."""
import csv
import json
import os
from typing import Iterator, NamedTuple, Sequence

from contradicting.rows import Agreement, Row, agreement_of
from contradicting.shown import escaped
from contradicting.snapshot import Snapshot
from contradicting.sources import providers
from contradicting.tables import DIMENSIONS, cell, dimension_cells, value_cells
from process import NotDone
from text_files import LONGEST

COLUMNS = ["change", "row", *DIMENSIONS, "now", "facts_before", "facts_now"]
CHANGES = ("new", "changed", "open", "gone")
SHOWN = ("new", "changed", "gone")  # on the page
MOST_SHOWN = 100
FORMAT = 1  # of summary.json; another number means that a member changed its meaning or is gone; members may be added
ABSENT = "not reported"
FACT = ("value", "nil", "decimals", "providers")

Key = tuple[str, ...]  # the cells of the dimensions
Facts = frozenset[Key]  # for each fact, its cells FACT


class Earlier:
    """The contradictions that an earlier run wrote to a folder, the version of its program, and the digest of its sheet."""

    def __init__(self, folder: str, snapshot: Snapshot) -> None:
        self.folder = folder
        paths = [os.path.join(folder, name) for name in ("summary.json", "contradictions.csv")]
        for path in paths:
            snapshot.add(path)
        with open(snapshot.of(paths[0]), encoding="utf-8") as file:
            summary = json.load(file)
        found = summary.get("format") if isinstance(summary, dict) else None
        if found != FORMAT:
            raise NotDone(f"{paths[0]} has the format {json.dumps(found)[:20]}, but --since reads the format {FORMAT}")
        self.version, self.sheet = summary.get("versions", {}).get("xbrlmerge"), summary.get("sheet")
        self.rows: dict[Key, set[Key]] = {}
        csv.field_size_limit(LONGEST)
        with open(snapshot.of(paths[1]), encoding="utf-8-sig", newline="") as table:
            reader = csv.DictReader(table)
            if not {*DIMENSIONS, *FACT} <= {*(reader.fieldnames or ())}:
                raise NotDone(f"{paths[1]} is not a table of contradictions")
            for line in reader:
                self.rows.setdefault(tuple(line[name] for name in DIMENSIONS), set()).add(tuple(line[name] for name in FACT))

    def notes(self, version: str, sheet: str) -> Iterator[str]:
        """Yields lines about what else differs."""
        for what, before, now in (("program", self.version, version), ("sheet", self.sheet, sheet)):
            if before != now:
                yield f"--since: the {what} is another one than in the run of {self.folder}"


class Change(NamedTuple):
    """A contradiction of one run or both. `row` is its number now, or empty, and `now` how its providers agree now."""

    change: str
    row: str
    key: Key
    now: str
    before_facts: Facts
    now_facts: Facts


class Since:
    """Receives all rows, and finds which contradictions are new, changed, still open or gone."""

    def __init__(self, earlier: Earlier) -> None:
        self.earlier, self.left = earlier, dict(earlier.rows)
        self.found: list[Change] = []

    def add(self, row: Row) -> None:
        is_apart = agreement_of(row) is Agreement.CONTRADICTION
        if not is_apart and not self.left:
            return
        key = tuple(dimension_cells(row.dimensions))
        before = frozenset(self.left.pop(key, ()))
        if not is_apart and not before:
            return
        facts = frozenset((*map(cell, (*value_cells(fact), fact.precision()[0], providers(row.holders[name]))),) for name, fact in row.facts.items())
        change = ("open" if facts == before else "changed" if before else "new") if is_apart else "gone"
        self.found.append(Change(change, str(row.number), key, agreement_of(row).value, before, facts))

    def changes(self) -> list[Change]:
        """Returns the changes in the order of CHANGES, and then of the rows. Call it after the last row."""
        gone = [Change("gone", "", key, ABSENT, frozenset(facts), frozenset()) for key, facts in self.left.items()]
        return sorted([*self.found, *gone], key=lambda each: CHANGES.index(each.change))

    def counts(self) -> dict[str, int]:
        changes = self.changes()
        return {name: sum(each.change == name for each in changes) for name in CHANGES}

    def phrase(self) -> str:
        return f"since {self.earlier.folder}: " + ", ".join(f"{count} {name}" for name, count in self.counts().items())

    def table(self) -> Iterator[Sequence[str]]:
        yield COLUMNS
        for each in self.changes():
            yield [each.change, each.row, *each.key, each.now, text_of(each.before_facts), text_of(each.now_facts)]

    def html(self) -> Iterator[str]:
        """Yields the section of the page."""
        yield f"<h2>Since the run before</h2>\n<p>{escaped(self.phrase())}</p>\n"
        listed = [each for each in self.changes() if each.change in SHOWN]
        if listed:
            yield '<div class="all"><table cellspacing="0"><tr><th>Change<th>Row<th>Concept<th>Entity<th>Period<th>Before<th>Now\n'
        for each in listed[:MOST_SHOWN]:
            texts = (each.change, each.row, each.key[0].rpartition("}")[2], each.key[1].rpartition("}")[2], each.key[2],
                     text_of(each.before_facts), f"{text_of(each.now_facts)} {each.now}")
            yield "<tr>" + "".join(f"<td><bdi>{escaped(text)}</bdi>" for text in texts) + "\n"
        if listed:
            yield "</table></div>\n" + f"<p>and {len(listed) - MOST_SHOWN} more in since.csv</p>\n" * (len(listed) > MOST_SHOWN)


def text_of(facts: Facts) -> str:
    """Returns the facts as a cell: each with its decimals in brackets, and its providers."""
    texts = sorted(f"{'nil' if nil == 'true' else value}{f' ({decimals})' if decimals else ''} {who}".rstrip() for value, nil, decimals, who in facts)
    return cell("; ".join(texts))
