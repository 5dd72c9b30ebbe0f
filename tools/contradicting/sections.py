"""The HTML of a contradiction, for browsers without scripts: its line in the table, and the opened row with its dimensions, a
table of its facts, and a number line. The script of the page draws the same from the data of the page."""
from __future__ import annotations

import html
import string
from decimal import Decimal
from typing import Iterator, NamedTuple, Optional, Sequence, Union

from contradicting.facts import Fact, Interval
from contradicting.labels import Labels
from contradicting.rows import Reader
from contradicting.shown import ShownFact, ShownHolder, ShownRow, Words, bdi, number
from contradicting.sources import names_of
from process import shortened

HEAD = '<table cellspacing="0"><tr><th>Group<th>Fact<th>Reported by<th>Value<th>Decimals<th>From<th>To'


class StaticRows(NamedTuple):
    """`columns` are the providers with a column, or one empty text. The lines of rows do not show the dimension `usual`."""

    columns: Sequence[str]
    reader: Reader
    labels: Labels
    usual: tuple[Words, ...]

    def html(self, row: ShownRow, is_open: bool) -> Iterator[str]:
        """Yields the line of a row in the table, and its opened part."""
        concept = self.bdi(row.concept) + "".join(f"<small>{each}</small>" for each in self.about(row))
        values = ("; ".join(value(fact) for fact in row.facts if not name or name in {holder.provider for holder in fact.holders})
                  for name in self.columns)
        cells = [("number", str(row.row.number)), ("concept", concept), ("period", html.escape(row.period)), *(("value", each) for each in values),
                 ("difference", percent(row)), *[("reported", self.reported_by(row))] * bool(self.reader.providers),
                 ("verdict", row.agreement.value), ("hint", "; ".join(bdi(Words(hint)) for hint in row.hints))]
        yield f'<tr id="row{row.row.number}" class="row apart">' + "".join(f"<td class={key}>{each}" for key, each in cells)
        yield f'<tr class="more"><td colspan="{len(cells)}"><details{" open" * is_open}><summary>Facts</summary>'
        yield from self.section(row)
        yield "</details>\n"

    def bdi(self, words: Words) -> str:
        return bdi(words, self.labels.language)

    def about(self, row: ShownRow) -> Iterator[str]:
        """Yields the unit and the other dimensions of a row."""
        if row.unit.text:
            yield bdi(row.unit)
        yield from (f"{self.bdi(axis)}: {self.bdi(member)}" for axis, member in row.dimensions if (axis, member) != self.usual)

    def reported_by(self, row: ShownRow) -> str:
        return self.reader.reported_by(len(names_of(row.row.holders)))

    def section(self, row: ShownRow) -> Iterator[str]:
        """Yields what an opened row shows."""
        line = number_line(row)
        kind = "number" if row.unit.text else "text"
        yield f'<section class="{kind}"><dl>' + "".join(f"<dt>{term}<dd>{text}" for term, text in self.terms(row)) + "</dl>" + HEAD
        yield from (fact_line(fact, line) for fact in row.facts)
        if line:
            yield from below(line, f" {html.escape(row.unit.text)}" * bool(row.row.dimensions.unit))
        yield "</table>" * (not line) + f"<p>and {row.more} more facts in contradictions.csv</p>" * bool(row.more) + "</section>"

    def terms(self, row: ShownRow) -> Iterator[tuple[str, str]]:
        yield "Concept", bdi(Words(row.concept.title if row.concept.is_label else f"{row.concept.title} {row.concept.text}"))
        yield "Period", html.escape(row.period)
        if row.unit.text:
            yield "Unit", bdi(row.unit)
        yield from ((self.bdi(axis), self.bdi(member)) for axis, member in row.dimensions)
        if self.reader.providers:
            yield "Reported by", self.reported_by(row)
        files = dict.fromkeys(file for fact in row.facts for holder in fact.holders for file in holder.files)
        if files:
            yield "Files", "; ".join(bdi(Words(file)) for file in files)
        if row.hints:
            yield "Hint", "; ".join(bdi(Words(hint)) for hint in row.hints)


def value(fact: ShownFact) -> str:
    """Returns the HTML for a value, with its decimals in brackets."""
    decimals = precise(fact.fact.precision()[0])
    text = shown_value(fact) + f" <small>({decimals})</small>" * bool(decimals)
    return f"<span class=odd>{text}</span>" if fact.is_odd else text


def shown_value(fact: ShownFact) -> str:
    if fact.words is None:
        return "<i>nil</i>"
    return number(fact.fact.value) if isinstance(fact.fact.value, Decimal) else bdi(fact.words)


def precise(precision: Union[int, Decimal, str]) -> str:
    return precision if isinstance(precision, str) else number(precision)


def percent(row: ShownRow) -> str:
    return html.escape(row.difference) + "%" * row.difference[-1:].isdigit()


def fact_line(fact: ShownFact, line: Optional[NumberLine]) -> str:
    cells = [letter(fact.group), bdi(Words(shortened(fact.name))), "; ".join(map(shown_holder, fact.holders)), shown_value(fact)]
    cells += map(precise, fact.fact.precision())
    return f'<tr{" class=odd" * fact.is_odd}>' + "".join(f"<td>{each}" for each in cells) + (drawn(fact.fact, line) if line else "")


def letter(index: int) -> str:
    """Returns the letters of a group: A to Z, then numbers."""
    return string.ascii_uppercase[index] if index < 26 else str(index + 1)


def shown_holder(holder: ShownHolder) -> str:
    return bdi(Words(f"{shortened(holder.provider)} {holder.identifiers}".rstrip()))


class NumberLine(NamedTuple):
    """The line on which the intervals of a row are drawn: its ends, and the gap between the pair, if both facts are numbers."""

    low: Decimal
    high: Decimal
    gap: Optional[Interval]

    def position(self, number: Decimal) -> str:
        """Returns the position of a number on the line, as a percentage."""
        return f"{(number - self.low) * 100 / (self.high - self.low):.2f}%" if self.low < self.high else "50%"


def number_line(row: ShownRow) -> Optional[NumberLine]:
    """Returns the line of a row, or None if the row has no number. A nil value is not on the line."""
    intervals = [each.fact.interval() for each in row.facts if isinstance(each.fact.value, Decimal)]
    return NumberLine(min(low for low, _ in intervals), max(high for _, high in intervals), row.row.gap) if intervals else None


def below(line: NumberLine, unit: str) -> Iterator[str]:
    """Yields the ends of a number line, the end of the table, and the reason why the row is a contradiction."""
    ends = "".join(f"<span>{number(end)}{unit}</span>" for end in dict.fromkeys((line.low, line.high)))
    yield f'<tr><td colspan="7"><td class="line"><div class="ends">{ends}</div></table>'
    why = "A nil value contradicts every number."
    if line.gap:
        low, high = line.gap
        why = f"No number fits both: there is a gap of {number(high - low)}{unit} between {number(low)} and {number(high)}."
    yield f'<p class="gap">{why}</p>'


def drawn(fact: Fact, line: NumberLine) -> str:
    """Returns the drawing of a fact's interval on a number line, with the gap if there is one; for a nil fact, a note."""
    if not isinstance(fact.value, Decimal):
        return '<td class="line nil"><i>not reported as a number</i>'
    low, high = fact.interval()
    x1, x2, middle = map(line.position, (low, high, (low + high) / 2))
    gap = ' style="--a:{};--b:{}"'.format(*map(line.position, line.gap)) if line.gap else ""
    return f"""<td class="line"{gap}><svg height="26">
<line x1="{x1}" x2="{x2}" y1="13" y2="13"/><circle cx="{middle}" cy="13" r="5"/></svg>"""
