"""The page of contradictions: headline, counts, providers, refused reports, and one table of all rows. The table has the first
contradictions. The script of the page replaces them by rows that it draws from the page's data. In these, what rows share is once."""
import base64
import collections
import hashlib
import html
import json
import os
from dataclasses import dataclass, field
from decimal import Decimal
from typing import Any, Hashable, Iterable, Iterator, NamedTuple, Optional, Sequence

from contradicting.facts import day
from contradicting.findings import counted
from contradicting.labels import Labels
from contradicting.provider_counts import ProviderCounts
from contradicting.refusals import Refusals
from contradicting.rows import Agreement, Reader, Row, agreement_of
from contradicting.sections import StaticRows
from contradicting.shown import ShownFact, ShownHolder, Words, bdi, escaped, name_words, period, shown_row
from contradicting.since import Since
from contradicting.snapshot import InputFile
from contradicting.warnings import Warnings
from names import Name
from process import MOST_CHARACTERS, printable, shortened

MOST_OF_DATA = 8_000_000  # characters of the rows that the page holds; the other rows are in table.csv
KINDS = [*Agreement]
MOST_SHOWN = 10  # entities and periods that the page lists
MOST_YEARS = 3  # that the headline lists; of more, it has the first and the last
WORDS = "no one two three four five six seven eight nine ten eleven twelve".split()
FIRST = 100  # contradictions that the page shows without its script
MOST_FILES = 1_000  # that the page lists
MOST_COLUMNS = 6  # providers that have a column; the values of more are in one column
HERE = os.path.dirname(os.path.abspath(__file__))
EXPLAINED = f"""<h2>Rows</h2>
<p>A row has all facts with the same dimensions. A value with decimals, which are in brackets, represents all numbers within half of its
last decimal place. The facts of a group agree. Facts in red are not in the largest group; if no group is the largest, all are red.
The difference is that of the two facts that contradict each other, as a share of the larger; \u2013 if they are not both numbers. An
entity that nine in ten rows have is shown only in opened rows. Long texts are cut to {MOST_CHARACTERS} characters near the first
difference; table.csv has them whole.</p>
"""


class Pools:
    """Items that rows share, by kind, with their indices. `length` counts their characters."""

    def __init__(self) -> None:
        self.items: dict[str, dict[Hashable, int]] = {kind: {} for kind in ("words", "texts", "dimensions", "providers", "files")}
        self.length = 0

    def index(self, kind: str, item: Hashable) -> int:
        pool = self.items[kind]
        if item not in pool:
            self.length += len(str(item))
        return pool.setdefault(item, len(pool))


class PageData:
    """Receives all rows. Writes those without a contradiction to a temporary file, until the page would hold too much."""

    def __init__(self, folder: str, names: Sequence[str], labels: Labels) -> None:
        self.labels, self.path, self.pools = labels, os.path.join(folder, "page_rows"), Pools()
        self.file = open(self.path, "w", encoding="utf-8", newline="\n")
        self.length, self.left_out = 0, 0
        for name in names:
            self.pools.index("providers", name)

    def add(self, row: Row) -> None:
        if agreement_of(row) is Agreement.CONTRADICTION:
            return
        if self.length + self.pools.length < MOST_OF_DATA * 3 // 4:  # the rest is for contradictions
            self.file.write(self.line(row) + "\n")
        else:
            self.left_out += 1

    def pieces(self, contradictions: Iterable[Row], usual: Sequence[Words]) -> Iterator[str]:
        """Yields the JSON: the contradictions in their order, then the other rows, as long as there is room. Call it once, after the
        last row. The lines of rows do not show the dimension `usual`."""
        self.file.close()
        self.length, start = 0, '{"rows":['
        for line in self.lines(contradictions):
            yield start + line
            start = ",\n"
        hidden = [self.word(words) for words in usual]
        shared = {kind: [*items] for kind, items in self.pools.items.items()}
        members = {**shared, "providers": [shortened(str(name)) for name in self.pools.items["providers"]], "verdicts": [kind.value for kind in KINDS],
                   "language": self.labels.language, "usual": hidden, "leftOut": self.left_out}
        yield start.rstrip(",\n") + "]," + compact(members)[1:]

    def lines(self, contradictions: Iterable[Row]) -> Iterator[str]:
        for row in contradictions:
            if self.length + self.pools.length < MOST_OF_DATA:
                yield self.line(row)
            else:
                self.left_out += 1
        with open(self.path, encoding="utf-8", newline="\n") as file:
            for line in file:
                self.length += len(line)
                if self.length + self.pools.length < MOST_OF_DATA:
                    yield line.rstrip("\n")
                else:
                    self.left_out += 1

    def line(self, row: Row) -> str:
        """Returns a row as an array. The last members are absent if they have the values that the script of the page assumes."""
        shown, index = shown_row(row, self.labels), self.pools.index
        dimensions = tuple(self.word(words) for pair in shown.dimensions for words in pair)
        tree = [row.number, self.word(shown.concept), index("texts", shown.period), self.word(shown.unit), index("dimensions", dimensions),
                KINDS.index(shown.agreement), [self.fact(fact) for fact in shown.facts]]
        if shown.agreement is Agreement.CONTRADICTION or shown.more:
            names = [fact.name for fact in shown.facts]
            pair = [names.index(name) for name in row.pair] if row.gap else []
            tree += [shown.difference, [index("texts", hint) for hint in shown.hints], pair, shown.more]
        line = compact(tree)
        self.length += len(line)
        return line

    def word(self, words: Words) -> int:
        return self.pools.index("words", words if words.is_label else words[:2] if words.title else words[:1])

    def fact(self, fact: ShownFact) -> list[Any]:
        value = fact.words and (self.word(fact.words) if fact.words.title else fact.words.text)
        tree = [shortened(fact.name), value, fact.fact.precision()[0], [self.holder(holder) for holder in fact.holders]]
        return [*tree, fact.group, int(fact.is_odd)] if fact.group or fact.is_odd else tree

    def holder(self, holder: ShownHolder) -> list[Any]:
        files = [self.pools.index("files", file) for file in holder.files]
        return [self.pools.index("providers", holder.provider), *[holder.identifiers] * bool(files or holder.identifiers), *files]


def compact(tree: Any) -> str:
    """Returns JSON without any character that could end or begin markup."""
    return json.dumps(tree, ensure_ascii=False, separators=(",", ":")).replace("<", "\\u003c")


class Subject:
    """Receives all rows, and counts their entities, periods and years. The year of a period is that of its last day."""

    def __init__(self) -> None:
        self.entities: collections.Counter[Name] = collections.Counter()
        self.periods: collections.Counter[str] = collections.Counter()
        self.years: set[str] = set()

    def add(self, row: Row) -> None:
        self.entities.update([row.dimensions.entity] if row.dimensions.entity else [])
        self.periods[period(row)] += 1
        end = row.dimensions.period.rpartition("/")[2]
        self.years |= {day(end, True)[:4]} if end else set()

    def usual(self) -> tuple[Words, ...]:
        """Returns the entity that at least nine in ten rows have, as the page shows a dimension, or nothing."""
        (name, count), *_ = [*self.entities.most_common(1), (None, 0)]
        return (Words("Entity"), name_words(name)) if name and count * 10 >= sum(self.periods.values()) * 9 else ()

    def headline(self, counts: ProviderCounts, contradictions: int) -> Iterator[str]:
        """Yields the parts of the headline as HTML."""
        if self.entities:
            yield bdi(Words(name_words(self.entities.most_common(1)[0][0]).text)) + f" and {len(self.entities) - 1} more" * (len(self.entities) > 1)
        years = sorted(self.years)
        if years:
            yield f", {joined(years)}" if len(years) <= MOST_YEARS else f", {years[0]} to {years[-1]}"
        providers = len(counts.providers)
        number = WORDS[providers] if providers < len(WORDS) else str(providers)
        yield f", {number} provider{'s' * (providers != 1)}" * bool(providers)
        yield f": {counted(contradictions, 'contradiction')} in {counted(counts.count, 'row')}"
        first, second = [*counts.alone.most_common(2), ("", 0), ("", 0)][:2]
        if providers > 2 and first[1] > second[1]:
            yield f"; <bdi>{escaped(first[0])}</bdi> stands alone in {first[1]}"

    def html(self, counts: ProviderCounts, contradictions: int) -> Iterator[str]:
        """Yields the headline, and lists of the entities and periods if there are several."""
        text = "".join(self.headline(counts, contradictions)).lstrip(",: ")
        yield f"<h1>{text}</h1>\n"
        entities = [(bdi(name_words(name)), count) for name, count in self.entities.most_common(MOST_SHOWN)]
        for title, found, total in (("Entities", entities, len(self.entities)), ("Periods", self.periods.most_common(MOST_SHOWN), len(self.periods))):
            more = f"; and {total - len(found)} more" * (total > len(found))
            yield f'<p class="subject">{title}: ' + "; ".join(f"{text} ({counted(count, 'row')})" for text, count in found) + f"{more}</p>\n" if found else ""


def joined(words: Sequence[str]) -> str:
    return " and ".join(filter(None, [", ".join(words[:-1]), words[-1]]))


class MadeFrom(NamedTuple):
    """The first line that `xbrlmerge --version` prints, if the program was run, and the inputs."""

    version: str = ""
    files: tuple[InputFile, ...] = ()

    def html(self) -> Iterator[str]:
        count = f"{len(self.files)} input{'s' * (len(self.files) != 1)}"
        by = f"Made by {escaped(self.version)} from {count}" if self.version else f"Made from {count}"
        yield f'<details class="files"><summary>{by}</summary><table cellspacing="0"><tr><th>File<th>Bytes<th>SHA-256\n'
        for file in self.files[:MOST_FILES]:
            path = html.escape(printable(os.fsencode(file.path).decode(errors="backslashreplace")))
            yield f'<tr><td data-name="File"><bdi>{path}</bdi><td data-name="Bytes">{file.length}<td data-name="SHA-256">{file.digest}\n'
        more = len(self.files) - MOST_FILES
        yield "</table>" + f"<p>and {more} more in summary.json</p>" * (more > 0) + "</details>\n"


@dataclass
class Found:
    """What the page shows."""

    rows: list[Row]  # the contradictions
    reader: Reader
    labels: Labels
    refusals: Refusals
    data: PageData
    counts: ProviderCounts
    at_least: Optional[Decimal] = None  # the least share of a difference that is shown
    check: str = ""  # the command that checks the run, if there is one
    made_from: MadeFrom = MadeFrom()
    warnings: Optional[Warnings] = None
    subject: Subject = field(default_factory=Subject)
    since: Optional[Since] = None
    superseded: int = 0  # the number of facts that --latest dropped


def part(name: str) -> str:
    with open(os.path.join(HERE, name), encoding="utf-8") as file:
        return file.read()


def page(found: Found) -> Iterator[str]:
    """Yields the pieces of the page. The page's policy permits only inline styles and the page's own script."""
    script = part("page.js")
    known = base64.b64encode(hashlib.sha256(script.encode()).digest()).decode()
    policy = f"default-src 'none'; style-src 'unsafe-inline'; script-src 'sha256-{known}'"
    refused_count = [(len(found.refusals.reports), "refused reports")] * bool(found.refusals.reports)
    numbers = "".join(f"<span{' class=apart' * bool(count and words.startswith('contradiction'))}><b>{count}</b>{words}</span>" for count, words in [*found.counts.lines(), *refused_count])
    yield f"""<!DOCTYPE html><html lang="en"><head><meta charset="utf-8"><title>Contradictions</title>
<meta http-equiv="Content-Security-Policy" content="{policy}">
<meta name="viewport" content="width=device-width"><style>{part("page.css")}</style></head><body>{"".join(found.subject.html(found.counts, len(found.rows)))}<p class="counts">{numbers}</p>
"""
    if found.superseded:
        yield f"<p>Facts left out because a later report of the same provider supersedes them: {found.superseded}, listed in changes.csv.</p>\n"
    yield from found.since.html() if found.since else ()
    yield from found.counts.html(found.refusals)
    yield from refused(found.refusals)
    yield from found.warnings.html() if found.warnings else ()
    yield EXPLAINED
    yield from rows_of(found)
    yield from found.made_from.html()
    if found.check:
        yield '<details class="check"><summary>Check this run with a second program</summary>\n'
        yield f"<p>Run this command in the folder where the page was made:</p><pre>{html.escape(found.check)}</pre></details>\n"
    yield f"<script>{script}</script></body></html>\n"


def refused(refusals: Refusals) -> Iterator[str]:
    """Yields the section of refused reports, if there are any, with the names that the sheet lacks and the first faults."""
    if refusals.reports:
        yield '<section class="refused"><h2>Refused reports</h2><p>The page has no figures from these reports.</p>'
        yield "".join(f"<p>{html.escape(printable(line))}</p>" for line in refusals.lacking_lines())
        for report in refusals.reports:
            shown_lines = [*(f"{line} mends this" for line in report.remedies), *report.shown()]
            lines = "".join(f"<li><bdi>{html.escape(printable(line))}</bdi>" for line in shown_lines)
            yield f"<h3><bdi>{html.escape(printable(report.path))}</bdi></h3><ul>{lines}</ul>\n"
        yield "</section>\n"


def rows_of(found: Found) -> Iterator[str]:
    """Yields the table with the first contradictions, and the data of all rows that the page holds."""
    rows = [row for row in sorted(found.rows, key=order) if not is_hidden(row, found.at_least)]
    if len(rows) < len(found.rows):
        yield f"<p>Not shown: {len(found.rows) - len(rows)} with smaller differences; contradictions.csv has them.</p>\n"
    names = found.counts.providers if len(found.counts.providers) <= MOST_COLUMNS else []
    static = StaticRows(names or [""], found.reader, found.labels, found.subject.usual())
    yield '<div class="controls" hidden></div><div class="all"><table class="rows" cellspacing="0"><thead><tr>'
    yield from (f'<th scope="col" class="{key}">{name}' for key, name in headings(names, found.reader))
    yield "\n<tbody>"
    for index, row in enumerate(rows[:FIRST]):
        yield from static.html(shown_row(row, found.labels), not index)
    yield "</table></div>\n<noscript><p>"
    yield f"These are the first {FIRST} of {len(rows)} contradictions. " if len(rows) > FIRST else ""
    yield 'table.csv has all rows. With JavaScript, so has this page.</p></noscript>\n<script type="application/json" id="data">'
    yield from found.data.pieces(rows, static.usual)
    yield "</script>\n"
    if found.data.left_out:
        yield f"<p>Not on this page: {found.data.left_out} more rows; table.csv has them.</p>\n"


def headings(names: Sequence[str], reader: Reader) -> Iterator[tuple[str, str]]:
    """Yields the columns of the table, each with the key by which the script sorts it."""
    yield from (("number", "Row"), ("concept", "Concept"), ("period", "Period"))
    yield from [("value", escaped(name)) for name in names] or [("value", "Values")]
    yield "difference", "Difference"
    if reader.providers:
        yield "reported", "Reported by"
    yield from (("verdict", "Verdict"), ("hint", "Hint"))


def order(row: Row) -> tuple[int, Decimal, int]:
    """Returns the sort key of a row. Rows whose pair is not two numbers come first, then the rows with the largest `share`."""
    share = row.share()
    return (0, Decimal(0), row.number) if share is None else (1, -share, row.number)


def is_hidden(row: Row, at_least: Optional[Decimal]) -> bool:
    share = row.share()
    return at_least is not None and share is not None and share < at_least
