"""Merges xBRL-JSON reports, judges their duplicates, and lists the sources of each fact.

    import xbrlmerge

    merged = xbrlmerge.merge("sheet.json", ["issuer.json", "ledgerline.json"], allow="consistent")
    merged.text           # the bytes that `xbrlmerge merge` writes
    merged.refusals       # the refusals of reports; each refusal prints as the program's line

A sheet or a report is given as bytes or as the path of a file. Each call has the same results as the program's command of
the same name; verdict_columns and source_columns match verdicts and sources with --format json. Calls run in this
process, and other threads continue to run. Refusals of reports are returned, not raised. Exceptions: SheetRefused, TooLoose and
TooMuch, all subclasses of ValueError; MemoryError; OSError if a file cannot be read. TypeError is raised if `reports` is one file or
one report's bytes instead of a list, or if a sheet or a report has another type. ValueError is raised if a path contains a
null character, or if `allow` is not "none", "complete", "consistent" or "all".
"""
import dataclasses
import decimal
import json
import operator
import os
from typing import Any, Dict, Iterable, List, Optional, Tuple, Union

from . import _library

__all__ = ["Checked", "Columns", "Fault", "Merged", "Refusal", "Row", "Rows", "SheetRefused", "Source", "Sources", "TooLoose",
           "TooMuch", "check", "check_all", "explain", "merge", "source_columns", "sources", "verdict_columns", "verdicts"]

__version__ = "0.3.0.dev0"

Given = Union[bytes, bytearray, memoryview, str, "os.PathLike[str]"]

#: The levels of duplicates that a row may have, the strictest first.
LEVELS = ("none", "complete", "consistent", "all")
_LINE_END, _SPACE = "\n", " "
_CORE = ("concept", "entity", "period", "unit", "language")
_VERDICT_COLUMNS = ("row", "verdict", "fact", *_CORE, "dimensions", "value", "decimals",
                    "common_low", "common_high", "apart_first", "apart_second")
_SOURCE_COLUMNS = ("report", "file", "identifier", "fact")


@dataclasses.dataclass(frozen=True)
class Refusal:
    """The refusal of a report. `str` returns the program's line for it."""

    report: int  #: the number of the report, from 1
    number: int  #: the number of the refusal in docs/REFUSALS.md
    name: str  #: the name of the refusal, such as UnboundPrefix
    fact: Optional[int]  #: the fact's number, from 1 in byte order of identifiers; None for the document

    def __str__(self) -> str:
        place = "document" if self.fact is None else f"fact {self.fact}"
        return f"report {self.report}: {self.number} {self.name} at {place}"


class SheetRefused(ValueError):
    """The sheet is refused. `str` returns the program's line."""

    def __init__(self, number: int) -> None:
        self.number, self.name = number, _library.refusal_name(number)
        super().__init__(f"sheet: {number} {self.name}")

    def __reduce__(self) -> Tuple[Any, ...]:
        return SheetRefused, (self.number,)


class TooLoose(ValueError):
    """The duplicates of a row exceed `allow`. `row` is the number of the first such row, from 1. `refusals` lists the refused
    reports."""

    def __init__(self, row: int, refusals: List[Refusal]) -> None:
        self.row, self.refusals = row, refusals
        super().__init__(f"too loose: row {row}")

    def __reduce__(self) -> Tuple[Any, ...]:
        return TooLoose, (self.row, self.refusals)


class TooMuch(ValueError):
    """The text of columns is longer than `most_output`."""

    def __init__(self) -> None:
        super().__init__("output: more bytes than most_output allows")

    def __reduce__(self) -> Tuple[Any, ...]:
        return TooMuch, ()


@dataclasses.dataclass(frozen=True)
class Merged:
    """A merged report, and the reports that were refused."""

    text: bytes
    refusals: List[Refusal]

    def rows(self) -> List[Dict[str, Any]]:
        """Returns a list with a record for each fact. pandas.DataFrame accepts this list.

        A record has the identifier as `fact`, the value, the decimals, and each core or other dimension under its name.
        Decimals and core dimensions that the fact lacks are None. A value is the text in the report, or None for a nil fact.
        Names have the prefixes that the documentInfo of this report binds, such as n1; another report may bind them to other
        namespaces.
        """
        facts = json.loads(self.text)["facts"]
        return [_record(identifier, fact) for identifier, fact in facts.items()]


@dataclasses.dataclass(frozen=True)
class Row:
    """The verdict on a row, which is all facts with the same dimensions."""

    number: int  #: from 1, in the order of the canonical text
    first: str  #: the identifier of its first fact in the canonical text
    last: str  #: the identifier of its last fact
    verdict: str  #: complete, consistent or inconsistent
    common: Optional[Tuple[decimal.Decimal, decimal.Decimal]] = None  #: if consistent: the lowest and highest numbers that fit all facts
    apart: Optional[Tuple[str, str]] = None  #: if inconsistent: the identifiers of two facts that contradict each other


@dataclasses.dataclass(frozen=True)
class Source:
    """A report that contains a fact, and the fact's identifier in it."""

    fact: str  #: the fact's identifier in the canonical text
    report: int  #: the report's number, from 1
    identifier: str  #: the fact's identifier in that report


class Rows(List[Row]):
    """The verdicts, in the order of rows; `text` contains the program's lines, and `refusals` the refused reports."""

    def __init__(self, rows: Iterable[Row], text: bytes, refusals: List[Refusal]) -> None:
        super().__init__(rows)
        self.text, self.refusals = text, refusals


class Sources(List[Source]):
    """The sources, in the order of the program's lines; `text` contains these lines, and `refusals` the refused reports."""

    def __init__(self, found: Iterable[Source], text: bytes, refusals: List[Refusal]) -> None:
        super().__init__(found)
        self.text, self.refusals = text, refusals


class Columns(Dict[str, List[Any]]):
    """Columns by name, for pandas.DataFrame. `text` contains the program's output with --format json, one JSON object per
    line, and `refusals` the refused reports."""

    def __init__(self, names: Iterable[str], rows: Iterable[Tuple[Any, ...]], text: bytes, refusals: List[Refusal]) -> None:
        found = [*rows]
        super().__init__((name, [row[index] for row in found]) for index, name in enumerate(names))
        self.text, self.refusals = text, refusals


@dataclasses.dataclass(frozen=True)
class Checked:
    """The result for an accepted report. `str` returns the program's line."""

    facts: int  #: the number of its facts, repeats included
    level: str  #: the strictest level that its facts satisfy
    canonical: bool  #: whether its bytes are the canonical text of its facts and taxonomy references

    def __str__(self) -> str:
        return f"accepted {self.facts} {self.level} {'canonical' if self.canonical else 'other'}"


@dataclasses.dataclass(frozen=True)
class Fault:
    """A fault of a report, or a repeated member, for which only `part` and `sentence` are set. `str` returns the sentence, after the
    number and the name of the refusal."""

    number: Optional[int]  #: the number of the refusal in docs/REFUSALS.md
    name: Optional[str]  #: its name
    fact: Optional[int]  #: the fact's number, from 1 in byte order of identifiers; None for the document
    identifier: Optional[str]  #: the fact's identifier
    part: Any  #: the part at fault, as JSON; None if the sentence shows none
    sentence: str  #: what is wrong

    def __str__(self) -> str:
        return self.sentence if self.number is None else f"{self.number} {self.name}: {self.sentence}"


def merge(sheet: Given, reports: Iterable[Given], allow: str = "all") -> Merged:
    """Merges reports under a sheet. Refused reports are left out, and their refusals are returned.

    `allow` is the loosest level that a row may have: none, complete, consistent or all. Raises TooLoose if a row
    exceeds this level, ValueError if `allow` is not a level, SheetRefused, MemoryError, OSError and TypeError.
    """
    if allow not in LEVELS:
        raise ValueError(f"allow must be one of {', '.join(LEVELS)}")
    answer = _library.merge(_bytes(sheet), _each(reports), LEVELS.index(allow))
    if answer.status == _library.TOO_LOOSE:
        raise TooLoose(answer.number, _refusals(answer))
    return Merged(_text(answer), _refusals(answer))


def verdicts(sheet: Given, reports: Iterable[Given]) -> Rows:
    """Returns the verdict on each row of the accepted reports. Raises SheetRefused, MemoryError, OSError and TypeError."""
    answer = _library.verdicts(_bytes(sheet), _each(reports))
    text = _text(answer)
    return Rows(map(_row, _lines(text)), text, _refusals(answer))


def sources(sheet: Given, reports: Iterable[Given]) -> Sources:
    """Returns a Source for each fact object of the accepted reports, in the order of the program's lines. Raises SheetRefused,
    MemoryError, OSError and TypeError.
    """
    answer = _library.sources(_bytes(sheet), _each(reports))
    text = _text(answer)
    return Sources(map(_source, _lines(text)), text, _refusals(answer))


def verdict_columns(sheet: Given, reports: Iterable[Given], most_output: Optional[int] = None) -> Columns:
    """Returns the verdicts as columns with an item for each fact.

    The columns are: the number and the verdict of the row, the canonical identifier of the fact, its dimensions, value and
    decimals, and the evidence of the row. Each core dimension has a column; `dimensions` is a JSON object of the other
    dimensions. Names are spelled {URI}local. Absent items, and the value of a nil fact, are None. Values of other facts,
    `common_low` and `common_high` are texts, so that no digit is lost. The text repeats URIs; `most_output` is its greatest
    length in bytes. None stands for 1 MiB and 16 bytes for each byte of the sheet and the reports. Raises TooMuch, SheetRefused,
    MemoryError, OSError, TypeError, and ValueError if `most_output` is less than 1.
    """
    answer = _library.verdicts_json(_bytes(sheet), _each(reports), _most(most_output))
    text = _text(answer)
    return Columns(_VERDICT_COLUMNS, (fact for line in _lines(text) for fact in _facts(json.loads(line))), text, _refusals(answer))


def source_columns(sheet: Given, reports: Iterable[Given], most_output: Optional[int] = None) -> Columns:
    """Returns the sources as four columns: the number of the report, its file, the fact's identifier in the report, and its
    canonical identifier. The file is the path that was given, or None for bytes; in the text it is always null. Each fact object
    in an accepted report has an item. `most_output` is as for verdict_columns. Raises TooMuch, SheetRefused, MemoryError,
    OSError, TypeError, and ValueError if `most_output` is less than 1.
    """
    given = _listed(reports)
    answer = _library.sources_json(_bytes(sheet), _each(given), _most(most_output))
    text = _text(answer)
    return Columns(_SOURCE_COLUMNS, (_source_row(json.loads(line), given) for line in _lines(text)), text, _refusals(answer))


def check(sheet: Given, report: Given) -> Union[Checked, Refusal]:
    """Returns a Checked if the report is accepted, otherwise its Refusal. Raises SheetRefused, MemoryError, OSError and
    TypeError.
    """
    status, checked, record = _library.check(_bytes(sheet), _bytes(report))
    if status == _library.SHEET_REFUSED:
        raise SheetRefused(record[2])
    return _checked(status, checked, record)


def check_all(sheet: Given, reports: Iterable[Given]) -> List[Union[Checked, Refusal]]:
    """Returns what `check` returns for each report, with the report's number in a Refusal. The sheet is read only once. Raises
    SheetRefused, MemoryError, OSError and TypeError.
    """
    status, results, record = _library.check_all(_bytes(sheet), _each(reports))
    if status == _library.SHEET_REFUSED:
        raise SheetRefused(record[2])
    return [_checked(*it) for it in results]


def explain(sheet: Given, report: Given) -> List[Fault]:
    """Returns the faults of a report and its repeated members, in the order of the program's lines. The list is empty if there are
    none. Raises SheetRefused, MemoryError, OSError and TypeError.
    """
    status, text, number = _library.explain_json(_bytes(sheet), _bytes(report))
    if status == _library.SHEET_REFUSED:
        raise SheetRefused(number)
    return [_fault(json.loads(line)) for line in _lines(text)]


def _bytes(given: Given) -> bytes:
    """Returns bytes whose `len` is their length in memory: a subclass may define another `__len__` or `__bytes__`."""
    if type(given) is bytes:
        return given
    if isinstance(given, (bytes, bytearray, memoryview)):
        return bytes(memoryview(given))
    # os.fspath rejects a file descriptor, which `open` would accept
    with open(os.fspath(given), "rb") as file:
        return file.read()


def _listed(reports: Iterable[Given]) -> List[Given]:
    """Raises TypeError for a single file or report, even if Python can iterate over it."""
    if isinstance(reports, (str, bytes, bytearray, memoryview, os.PathLike)):
        raise TypeError("reports must be a list of files or bytes")
    return [*reports]


def _each(reports: Iterable[Given]) -> List[bytes]:
    return [_bytes(it) for it in _listed(reports)]


def _refusal(record: _library.Record) -> Refusal:
    report, fact, number = record
    return Refusal(report, number, _library.refusal_name(number), fact or None)


def _checked(status: int, checked: _library.Accepted, record: _library.Record) -> Union[Checked, Refusal]:
    if status == _library.REFUSED:
        return _refusal(record)
    facts, level, canonical = checked
    return Checked(facts, LEVELS[level], canonical == 1)


def _fault(found: Dict[str, Any]) -> Fault:
    _, _, fact = (found["place"] or "").partition("fact ")
    return Fault(found["number"], found["name"], int(fact) if fact else None, found["identifier"], found["part"], found["sentence"])


def _refusals(answer: _library.Answer) -> List[Refusal]:
    return [_refusal(record) for record in answer.records]


def _most(given: Optional[int]) -> int:
    """Returns the bound for the library, for which 0 stands for the default and the greatest size for no bound."""
    if given is None:
        return 0
    most = operator.index(given)
    if most < 1:
        raise ValueError("most_output must be at least 1")
    return min(most, _library.LARGEST)


def _text(answer: _library.Answer) -> bytes:
    if answer.status == _library.SHEET_REFUSED:
        raise SheetRefused(answer.number)
    if answer.status == _library.TOO_MUCH:
        raise TooMuch
    return answer.text


def _lines(text: bytes) -> List[str]:
    """Returns the lines of a text. str.splitlines would split at other characters too, such as U+2028."""
    return text.decode("utf-8").split(_LINE_END)[:-1]


def _row(line: str) -> Row:
    number, first, last, verdict, *shown = line.split(_SPACE)
    common = (decimal.Decimal(shown[1]), decimal.Decimal(shown[2])) if verdict == "consistent" else None
    apart = (shown[1], shown[2]) if verdict == "inconsistent" else None
    return Row(int(number), first, last, verdict, common, apart)


def _facts(row: Dict[str, Any]) -> Iterable[Tuple[Any, ...]]:
    """Yields a tuple for each fact of a row, with an item for each column."""
    given = row["dimensions"]
    defined = {name: member for name, member in given.items() if name not in _CORE}
    dimensions = (*map(given.get, _CORE), json.dumps(defined, ensure_ascii=False, separators=(",", ":")) if defined else None)
    evidence = row.get("evidence", {})
    common = evidence.get("common", {})
    shown = (common.get("low"), common.get("high"), *evidence.get("apart", (None, None)))
    for fact in row["facts"]:
        yield row["row"], row["verdict"], fact["fact"], *dimensions, fact["value"], fact.get("decimals"), *shown


def _source(line: str) -> Source:
    fact, report, identifier = line.split(_SPACE, 2)
    return Source(fact, int(report), json.loads(identifier))


def _source_row(source: Dict[str, Any], reports: List[Given]) -> Tuple[Any, ...]:
    given = reports[source["report"] - 1]
    file = None if isinstance(given, (bytes, bytearray, memoryview)) else os.fspath(given)
    return source["report"], file, source["identifier"], source["fact"]


def _record(identifier: str, fact: Dict[str, Any]) -> Dict[str, Any]:
    dimensions = fact["dimensions"]
    further = {name: member for name, member in dimensions.items() if name not in _CORE}
    core = {name: dimensions.get(name) for name in _CORE}
    return {"fact": identifier, "value": fact["value"], "decimals": fact.get("decimals"), **core, **further}
