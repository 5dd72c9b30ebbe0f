"""The cells of tables, the table of contradictions, and the tables as one workbook, with the library XlsxWriter. Names are written as
{URI}local. A ' precedes anything that a spreadsheet might read as a formula."""
import csv
import functools
import importlib
import re
from typing import Any, Iterable, Iterator, Mapping, Optional, Sequence, Union

from contradicting.facts import Dimensions, Fact, Value, plain
from contradicting.rows import Reader, Row
from contradicting.sources import identifiers, providers
from names import Name
from process import NotDone
from text_files import LONGEST

# What the cells are guarded against. A spreadsheet may begin a cell at the start of a text and, if it splits there, after each ; |
# tab, carriage return and line feed. Before a formula, it may skip white space of any kind, control characters up to U+0020, a
# byte order mark, ' and ". A text is changed only where one of SIGNS would then come first: a ' precedes the skipped characters
# at the start and after ; and |, and a ' follows each tab, carriage return and line feed among the skipped characters. A text
# with a comma needs no ' after it: `csv` quotes the cell, and no program splits at a quoted comma. Numbers are written as they
# are, also negative ones. `xbrlmerge --spreadsheet` guards the same.
SIGNS = "=+-@\uff1d\uff0b\uff0d\uff20"  # characters that begin a formula
SKIPPED = "[\\s\x00-\x20\ufeff'\"]+"  # characters that a spreadsheet may skip before a formula
BEFORE_FORMULA = re.compile(f"{SKIPPED}|(?<![^;|])(?=[{re.escape(SIGNS)}])")
SEPARATOR = re.compile("[\t\r\n]")
DIMENSIONS = "concept entity period unit language dimensions".split()
COLUMNS = ["row", "fact", *DIMENSIONS, *"value nil decimals low high group evidence hint providers identifiers reported_by label".split()]
LONGEST_ROW = 1 << 24  # the most characters of the dimensions in one row

SHORT = 200  # characters

Cell = Union[Value, int]
MOST_ROWS, LONGEST_CELL = 1_048_576, 32_767  # of a sheet, and characters of a cell
MOST_DIGITS = 15  # significant digits of a number in a cell
PLAIN = re.compile(r"-?(?:0|[1-9]\d*)(?:\.\d*[1-9])?", re.ASCII)
GUARD = re.compile(f"(?:(?<![^;|])|(?<=[\t\r\n]))'(?=(?:{SKIPPED})?[{re.escape(SIGNS)}])")
COUNTS = {*"row group low high bytes provider_rows other_rows shared agree contradict".split()}  # columns of numbers
COLOURS = (None, "#FDE7E5", "#E5EEFD", "#FFF4D6", "#E6F4EA")  # of groups, in turn
HEADING = " (numbers of up to 15 digits; longer ones are texts)"

Table = Iterable[Sequence[str]]


def lines_of(table: Iterable[Sequence[str]]) -> Iterator[str]:
    yield "\ufeff"
    yield from map(line_of, table)


def line_of(cells: Iterable[str]) -> str:
    """Returns a line of a table as `csv.writer` writes it, which takes ten times as long for names with long URIs."""
    return ",".join(map(quoted, cells)) + "\r\n"


def quoted(text: str) -> str:
    """Returns a cell, in quotes if RFC 4180, section 2, asks for them."""
    if "," in text or '"' in text or "\n" in text or "\r" in text:
        return '"' + text.replace('"', '""') + '"'
    return text


def cell(value: Cell) -> str:
    if isinstance(value, str):
        return safe(value) if len(value) > SHORT else safe_again(value)
    if isinstance(value, Name):
        return name_again(value) if len(value.uri) + len(value.local) < SHORT else safe_uri(value.uri) + cell("}" + value.local)[1:]
    return "" if value is None else plain(value)


def safe(text: str) -> str:
    """Returns a text with a ' wherever a spreadsheet might read the beginning of a formula."""
    return BEFORE_FORMULA.sub(guarded, text)


safe_again = functools.lru_cache(10_000)(safe)  # short texts are repeated in many cells


@functools.lru_cache(10_000)
def name_again(name: Name) -> str:
    return safe(f"{{{name.uri}}}{name.local}")


@functools.lru_cache(8)
def safe_uri(uri: str) -> str:
    """Returns a namespace in braces. A long one is repeated in many names, but looked through once."""
    return safe(f"{{{uri}}}")


def guarded(found: re.Match[str]) -> str:
    """Returns the matched characters. If a sign of a formula follows them, a ' is added wherever the formula might begin."""
    skipped, text = found[0], found.string
    if found.end() == len(text) or text[found.end()] not in SIGNS:
        return skipped
    first = "'" if found.start() == 0 or text[found.start() - 1] in ";|" else ""
    return first + SEPARATOR.sub(r"\g<0>'", skipped)


def checked_cells(of: Dimensions) -> list[str]:
    """Returns the cells of dimensions. Errors: NotDone if they are too long for one line."""
    if length_of(of) > LONGEST_ROW:
        raise NotDone(f"the dimensions of one row, with the URI of each name, have more than {LONGEST_ROW} characters")
    return dimension_cells(of)


def length_of(dimensions: Dimensions) -> int:
    """Returns the number of characters of dimensions in a line, without separators."""
    given: list[Cell] = [dimensions.concept, dimensions.entity, dimensions.period, dimensions.language]
    given += [name for side in dimensions.unit for name in side]
    given += [name for pair in dimensions.members for name in pair]
    return sum(len(each.uri) + len(each.local) if isinstance(each, Name) else len(str(each)) for each in given)


def dimension_cells(of: Dimensions) -> list[str]:
    """Returns the cells of dimensions. An axis whose member is nil has no `=`."""
    unit = unit_text(["*".join(map(cell, side)) for side in of.unit], of.unit, "/")
    members = "; ".join(cell(axis) + (f"={cell(member)}" if member is not None else "") for axis, member in of.members)
    return [*map(cell, (of.concept, of.entity or "", of.period, unit, of.language, members))]


def unit_text(sides: Sequence[str], unit: Sequence[Sequence[Name]], sign: str) -> str:
    """Joins the texts of a unit's sides. If there are two sides, a side with several names is put in parentheses."""
    texts = [f"({text})" if len(sides) > 1 < len(names) else text for text, names in zip(sides, unit)]
    return sign.join(texts)


def table(rows: Sequence[Row], labels: Mapping[Name, str], reader: Reader) -> Iterator[Sequence[str]]:
    """Yields the lines of the table of contradictions: the headings, then one line for each fact."""
    yield COLUMNS
    for row in rows:
        dimensions, label = checked_cells(row.dimensions), labels.get(row.dimensions.concept, "")
        groups = {name: number for number, group in enumerate(row.groups, 1) for name in group}
        hints: dict[str, str] = {}
        for hint in row.hints:
            hints.update((name, "; ".join(filter(None, (hints.get(name), hint.phrase)))) for name in hint.group)
        for name, fact in row.facts.items():
            who = row.holders[name]
            value: list[Cell] = [*value_cells(fact), *fact.precision(), groups[name], "pair" * (name in row.pair), hints.get(name, "")]
            reported = providers(who), identifiers(who), reader.reported_by(len(who)), label
            yield [cell(row.number), cell(name), *dimensions, *map(cell, [*value, *reported])]


def value_cells(fact: Fact) -> tuple[Cell, Cell]:
    """Returns the cells for a value, and for whether it is nil. The cell of a nil value is empty."""
    return ("", "true") if fact.value is None else (fact.value, "false")


def library() -> Any:
    """Returns the library. Errors: NotDone if it is not installed."""
    try:
        return importlib.import_module("xlsxwriter")
    except ImportError:
        raise NotDone("--xlsx needs the Python library XlsxWriter: install the package python3-xlsxwriter, or xbrlmerge[xlsx] with pip") from None


def write_workbook(path: str, tables: Sequence[tuple[str, Table]]) -> Iterator[str]:
    """Writes a workbook with a sheet for each table, whose first line has the headings. Yields a line for each sheet that exceeds a
    limit. No text becomes a formula or a link. Errors: NotDone, OSError."""
    options = {"constant_memory": True, "strings_to_formulas": False, "strings_to_urls": False, "strings_to_numbers": False, "nan_inf_to_errors": True}
    book = library().Workbook(path, options)
    for name, table in tables:
        yield from Sheet(book, name).write(table)
    book.close()


def lines_in(path: str) -> Iterator[Sequence[str]]:
    """Yields the lines of a CSV file."""
    csv.field_size_limit(LONGEST)
    with open(path, encoding="utf-8-sig", newline="") as file:
        yield from csv.reader(file)


class Sheet:
    """A sheet of a workbook."""

    def __init__(self, book: Any, name: str) -> None:
        self.name, self.sheet = name, book.add_worksheet(name)
        self.bold = book.add_format({"bold": True})
        self.formats = [book.add_format({"bg_color": colour}) if colour else None for colour in COLOURS]
        self.is_cut = False

    def write(self, table: Table) -> Iterator[str]:
        count, heads = 0, [""]
        for count, cells in enumerate(table):
            if count == MOST_ROWS:
                yield f"--xlsx: the sheet {self.name} has the first {MOST_ROWS} lines only; the .csv file has all"
                break
            if count == 0:
                heads = [*cells]
                self.head(heads)
            else:
                self.line(count, heads, cells)
        self.sheet.freeze_panes(1, 0)
        self.sheet.autofilter(0, 0, min(count, MOST_ROWS - 1), len(heads) - 1)
        if self.is_cut:
            yield f"--xlsx: the sheet {self.name} has texts cut to {LONGEST_CELL} characters; the .csv file has them whole"

    def head(self, heads: Sequence[str]) -> None:
        for column, head in enumerate(heads):
            is_value = head in ("value", "values") or head.startswith("provider: ")
            self.sheet.write_string(0, column, head + HEADING * is_value, self.bold)

    def line(self, number: int, heads: Sequence[str], cells: Sequence[str]) -> None:
        by_head = dict(zip(heads, cells))
        group = by_head.get("group", "")
        form = self.formats[(int(group) - 1) % len(self.formats)] if group.isdecimal() else None
        for column, (head, text) in enumerate(zip(heads, cells)):
            value = number_of(text) if is_number(head, by_head) else None
            if value is not None:
                self.sheet.write_number(number, column, value, form)
            elif text:
                whole = unguarded(text)
                self.is_cut |= len(whole) > LONGEST_CELL
                self.sheet.write_string(number, column, whole[:LONGEST_CELL], form)


def is_number(head: str, cells: dict[str, str]) -> bool:
    """Returns whether a column has a number. A value is one if it has decimals."""
    name = head.removeprefix("provider: ")
    decimals = {"value": "decimals", "values": "decimals"}.get(head, f"decimals: {name}" if name != head else "")
    return head in COUNTS or head.startswith("decimals") or bool(cells.get(decimals))


def number_of(text: str) -> Optional[float]:
    """Returns a number that a sheet shows as the text has it, or None."""
    digits = re.sub(r"\D", "", text).strip("0")
    return float(text) if PLAIN.fullmatch(text) and len(digits) <= MOST_DIGITS and len(text) <= 2 * MOST_DIGITS else None


def unguarded(text: str) -> str:
    """Returns the text that `safe` guarded."""
    plain = GUARD.sub("", text)
    return plain if safe(plain) == text else text
