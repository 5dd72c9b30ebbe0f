"""table.csv: a line for each row, with columns for each provider. The lines are written to a temporary file while the rows are
read, so that only contradictions are kept in memory."""
import collections
import os
from typing import Iterator, NamedTuple, Optional, Sequence

from contradicting.facts import Fact
from contradicting.labels import Labels
from contradicting.rows import Row, agreement_of
from contradicting.shown import hints
from contradicting.sources import Holder
from contradicting.tables import DIMENSIONS, LONGEST_ROW, cell, dimension_cells, length_of, line_of
from names import Name
from process import NotDone
from text_files import pieces_of_file
from whole_files import OutputLimit

COLUMNS = [DIMENSIONS[0], "label", *DIMENSIONS[1:], *"verdict agreement hint reported_by not_reported_by nil_by".split()]
MOST_PROVIDERS = 100  # if there are more, all values are in one column


class Given(NamedTuple):
    """A fact of a provider, or of all if no provider has a column."""

    name: str
    fact: Fact
    holder: Optional[Holder] = None

    def files(self) -> str:
        return ", ".join(file for file, _ in self.holder.by_file()) if self.holder else ""


Own = dict[str, list[Given]]  # the facts of a row by provider; those of all providers are under ALL
ALL = ""


class AllRows:
    """Receives all rows, and yields the table. Call `finish` between the two."""

    def __init__(self, folder: str, names: Sequence[str], labels: Labels, most: int) -> None:
        counts = collections.Counter(names)
        self.everybody = [*counts]
        self.providers = self.everybody if len(counts) <= MOST_PROVIDERS else []
        self.several = {name for name in self.providers if counts[name] > 1}  # reports
        self.labels, self.limit = labels, OutputLimit(most)
        self.path = os.path.join(folder, "all_rows.csv")
        self.table = open(self.path, "w", encoding="utf-8", newline="")
        self.columns = self.providers or [ALL]
        self.write_line(["row", *COLUMNS, *(heading for name in self.columns for heading in self.headings(name))])

    def headings(self, name: str) -> list[str]:
        if name == ALL:
            return ["values", "decimals"]
        return [cell(f"{kind}: {name}") for kind in ("provider", "decimals", *["files"] * (name in self.several))]

    def add(self, row: Row) -> None:
        """Writes the lines of a row. Errors: NotDone if a line or the table is too long; OSError."""
        self.check_length(row)
        own: Own = {}
        for name, fact in row.facts.items():
            for holder in row.holders[name]:
                own.setdefault(holder.name, []).append(Given(name, fact, holder))
        columns = own if self.providers else {ALL: [Given(name, fact) for name, fact in row.facts.items()]}
        self.write_line([cell(row.number), *self.cells(row, own, columns)])

    def check_length(self, row: Row) -> None:
        names = (len(fact.value.uri) * len(row.holders[name]) for name, fact in row.facts.items() if isinstance(fact.value, Name))
        if length_of(row.dimensions) + sum(names) > LONGEST_ROW:
            raise NotDone(f"the names in one row, with the URI of each, have more than {LONGEST_ROW} characters")

    def write_line(self, cells: list[str]) -> None:
        text = line_of(cells)
        self.limit.count(len(text))
        self.table.write(text)

    def cells(self, row: Row, own: Own, columns: Own) -> Iterator[str]:
        concept, *others = dimension_cells(row.dimensions)
        yield from (concept, cell(self.labels.get(row.dimensions.concept, "")), *others, row.verdict, agreement_of(row).value,
                    cell("; ".join(hints(row))) if row.hints else "")
        lacking = [name for name in self.providers if name not in own] if len(own) < len(self.everybody) else ()
        nil = [name for name, given in own.items() if any(each.fact.value is None for each in given)]
        if not own:
            nil = [name for name, fact in row.facts.items() if fact.value is None]
        yield f"{len(own)} of {len(self.everybody)}" if self.everybody else ""
        yield cell(", ".join(lacking)) if lacking else ""
        yield cell(", ".join(nil)) if nil else ""
        for name in self.columns:
            yield from self.column_cells(name, columns[name]) if name in columns else [""] * (2 + (name in self.several))

    def column_cells(self, name: str, given: list[Given]) -> Iterator[str]:
        """Yields values, decimals and, of several reports, the files. A single value is a whole cell: a number stays one."""
        values = [each.fact for each in given if each.fact.value is not None]
        if len(values) == 1:
            yield cell(values[0].value)
            yield cell(values[0].precision()[0])
        else:
            yield cell("; ".join(written(fact) for fact in values))
            yield cell("; ".join(str(fact.precision()[0]) for fact in values))
        if name in self.several:
            yield cell("; ".join(each.files() for each in given))

    def finish(self) -> None:
        self.table.close()

    def pieces(self) -> Iterator[str]:
        yield "\ufeff"
        yield from pieces_of_file(self.path)


def written(fact: Fact) -> str:
    """Returns a value as it is written beside others. The whole cell is guarded later."""
    return fact.value if isinstance(fact.value, str) else cell(fact.value)
