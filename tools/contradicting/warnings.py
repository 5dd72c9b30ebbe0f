"""Warnings about facts that the program accepts, although they do not fit the types of the sheet. A warning is no verdict."""
import os
from typing import Iterator, Optional

from contradicting.findings import counted
from contradicting.rows import Row
from contradicting.shown import escaped
from contradicting.sources import identifiers, names_of, providers
from contradicting.tables import cell, line_of, lines_of, value_cells
from names import Name
from normalising.shapes import PURE
from normalising.spellings import spelling
from sheets import ITEMS, PERIODS, TYPES, Sheet
from text_files import pieces_of_file
from whole_files import OutputLimit

COLUMNS = "row fact concept period value nil warning providers identifiers".split()
CURRENCIES, SHARES = "http://www.xbrl.org/2003/iso4217", PURE._replace(local="shares")
MOST_LINES = 100  # that are printed and shown


class Warnings:
    """Receives all rows, and writes the table of warnings to a temporary file. Call `pieces` after the last row."""

    def __init__(self, folder: str, sheet: Sheet, most: int) -> None:
        self.limit = OutputLimit(most)
        self.types, self.path, self.count = sheet.types, os.path.join(folder, "warnings"), 0
        self.table = open(self.path, "w", encoding="utf-8", newline="")
        self.found: dict[tuple[str, str], tuple[int, str]] = {}  # by provider and warning: how many facts, and the first one

    def add(self, row: Row) -> None:
        about_row = [*self.about_dimensions(row)]
        for name, fact in row.facts.items():
            value = fact.value if isinstance(fact.value, str) else None
            invalid = self.about_value(row.dimensions.concept, value, "the value")
            for warning in (*about_row, *invalid):
                self.write(row, name, warning)

    def about_dimensions(self, row: Row) -> Iterator[str]:
        """Yields warnings about the period, the unit and the typed members of a row."""
        concept, period, unit = row.dimensions.concept, row.dimensions.period, row.dimensions.unit
        period_type, item = (self.types[member].get(concept) for member in (PERIODS, ITEMS))
        is_instant = bool(period) and "/" not in period
        if period_type == "duration" and is_instant or period_type == "instant" and not is_instant:
            yield f"the period is not {'a duration' if period_type == 'duration' else 'an instant'}"
        measure = unit[0][0] if len(unit) == 1 and len(unit[0]) == 1 else None
        if item == "monetary" and not is_currency(measure):
            yield "the unit is not an ISO 4217 currency"
        if item == "shares" and measure != SHARES:
            yield "the unit is not xbrli:shares"
        if item == "pure" and unit and measure != PURE:
            yield "the unit is not xbrli:pure"
        for axis, member in row.dimensions.members:
            yield from self.about_value(axis, member if isinstance(member, str) else None, "a typed member")

    def about_value(self, name: Name, text: Optional[str], what: str) -> Iterator[str]:
        kind = self.types[TYPES].get(name)
        try:
            if kind and text is not None:
                spelling(kind, text)
        except ValueError:
            yield f"{what} is not a valid {kind}"

    def write(self, row: Row, name: str, warning: str) -> None:
        fact, holders = row.facts[name], row.holders[name]
        self.count += 1
        line = line_of([cell(row.number), cell(name), cell(row.dimensions.concept), cell(row.dimensions.period),
                        *map(cell, (*value_cells(fact), warning, providers(holders), identifiers(holders)))])
        self.limit.count(len(line))
        self.table.write(line)
        for provider in names_of({name: holders}) or [""]:
            count, first = self.found.get((provider, warning), (0, name))
            self.found[provider, warning] = count + 1, first

    def pieces(self) -> Iterator[str]:
        yield from lines_of([COLUMNS])
        self.table.close()
        yield from pieces_of_file(self.path)

    def lines(self) -> list[str]:
        """Returns a line for each warning of each provider, with the number of facts."""
        lines = [f"{provider}{': ' * bool(provider)}{warning} in {counted(count, 'fact')}, such as {first} (warnings.csv)"
                 for (provider, warning), (count, first) in sorted(self.found.items())]
        more = len(lines) - MOST_LINES
        return [*lines[:MOST_LINES], *[f"and {more} more kinds of warnings"] * (more > 0)]

    def phrases(self) -> list[str]:
        return [f"{counted(self.count, 'warning')} in warnings.csv"] * bool(self.count)

    def html(self) -> Iterator[str]:
        if self.found:
            yield '<section class="refused"><h2>Warnings</h2><p>These facts are accepted, but are not valid. A warning is no verdict.</p><ul>'
            yield "".join(f"<li><bdi>{escaped(line)}</bdi>" for line in self.lines()) + "</ul></section>\n"


def is_currency(measure: Optional[Name]) -> bool:
    return measure is not None and measure.uri == CURRENCIES and len(measure.local) == 3 and measure.local.isupper() and measure.local.isascii()
