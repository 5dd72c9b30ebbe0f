"""A row as the page shows it. Each identifier, URI and text is cut to 80 characters, because the page repeats them."""
import functools
import html
import itertools
import os
from decimal import Decimal
from typing import Iterable, Iterator, NamedTuple, Optional, Union

from contradicting.facts import Fact, Hint, Value, day, plain
from contradicting.labels import Labels
from contradicting.rows import Agreement, Row, agreement_of
from contradicting.sources import Holder
from contradicting.tables import unit_text
from names import Name
from process import MOST_CHARACTERS, printable, shortened

MOST_FACTS = 50  # of a row; contradictions.csv and table.csv have all
MOST_NAMES = 20  # identifiers of a fact in a report, and dimensions of a row
PAGE_LANGUAGE = "en"
NO_SHARE = "\u2013"  # the difference of two facts that are not both numbers
LEAST_PERCENT = Decimal("0.001")  # a smaller share is shown as smaller than this


class Words(NamedTuple):
    """A text, a title that explains it, and whether it is a label, which may be in another language than the page."""

    text: str
    title: str = ""
    is_label: bool = False


class ShownHolder(NamedTuple):
    """A provider of a fact, the known identifiers of the fact, with the file if the provider has several, and all its files."""

    provider: str
    identifiers: str
    files: tuple[str, ...]


class ShownFact(NamedTuple):
    """A fact, its group, and whether the group is not the largest. A nil value has no words."""

    name: str
    fact: Fact
    words: Optional[Words]
    holders: tuple[ShownHolder, ...]
    group: int = 0
    is_odd: bool = False


class ShownRow(NamedTuple):
    """A row. `more` counts the facts that are not shown."""

    row: Row
    agreement: Agreement
    concept: Words
    period: str
    unit: Words
    dimensions: tuple[tuple[Words, Words], ...]
    facts: tuple[ShownFact, ...]
    more: int
    difference: str
    hints: tuple[str, ...]


def shown_row(row: Row, labels: Labels) -> ShownRow:
    kept = kept_facts(row)
    return ShownRow(row, agreement_of(row), label_words(row.dimensions.concept, labels), period(row), unit(row), (*other_dimensions(row, labels),),
                    kept, len(row.facts) - len(kept), difference(row), (*map(shortened, hints(row)),))


def kept_facts(row: Row) -> tuple[ShownFact, ...]:
    """Returns the facts of the first groups, and the pair that contradicts each other."""
    groups = [(name, index) for index, group in enumerate(row.groups or [(*row.facts,)]) for name in group]
    if len(groups) > MOST_FACTS:
        pair = {*row.pair}
        rest = [each for each in groups if each[0] not in pair][: MOST_FACTS - len(pair)]
        groups = sorted([*rest, *(each for each in groups if each[0] in pair)], key=lambda each: each[1])
    start = start_of_cut(row.facts[name].value for name, _ in groups)
    return tuple(ShownFact(name, row.facts[name], value_words(row.facts[name].value, start), (*map(shown_holder, row.holders[name]),),
                           index, name in row.odd) for name, index in groups)


def value_words(value: Value, start: int = 0) -> Optional[Words]:
    """Returns the words for a value. A long text is shown from `start` on."""
    if isinstance(value, Name):
        return name_words(value)
    if isinstance(value, str):
        start = start if len(value) > MOST_CHARACTERS else 0
        return Words(".." * bool(start) + shortened(value[start:]))
    return None if value is None else Words(plain(value))


@functools.lru_cache(10_000)
def name_words(name: Name) -> Words:
    return Words(shortened(name.local), shortened(name.uri))


def label_words(name: Name, labels: Labels) -> Words:
    """Returns the label of a name, with its namespace and local part as a title; without a label, the name."""
    if name not in labels:
        return name_words(name)
    return Words(shortened(labels[name]), f"{shortened(name.uri)} {shortened(name.local)}", True)


def start_of_cut(values: Iterable[Value]) -> int:
    """Returns where the shown parts of a row's long texts begin: at most MOST_CHARACTERS / 2 characters before they differ."""
    texts = [value for value in values if isinstance(value, str)]
    return max(len(os.path.commonprefix(texts)) - MOST_CHARACTERS // 2, 0) if len(texts) > 1 else 0


def period(row: Row) -> str:
    start, _, end = row.dimensions.period.rpartition("/")
    since = f"{day(start, False)} to " if start else "at the end of " * end.endswith("T00:00:00")
    return since + day(end, True) if end else "for ever"


def unit(row: Row) -> Words:
    """Returns the unit of a row. A number without a unit is pure. Without either, the text is empty."""
    given = row.dimensions.unit
    text = unit_text(["\u00b7".join(shortened(name.local) for name in side) for side in given], given, " / ")
    is_number = any(isinstance(fact.value, Decimal) for fact in row.facts.values())
    uris = dict.fromkeys(shortened(name.uri) for side in given for name in side)
    return Words(shortened(text) or "a pure number" * is_number, " ".join(itertools.islice(uris, MOST_NAMES)))


def other_dimensions(row: Row, labels: Labels) -> Iterator[tuple[Words, Words]]:
    """Yields the entity, the language and each taxonomy-defined dimension of a row, each with its member."""
    of = row.dimensions
    if of.entity:
        yield Words("Entity"), name_words(of.entity)
    if of.language:
        yield Words("Language"), Words(shortened(of.language))
    for axis, member in of.members[:MOST_NAMES]:
        yield label_words(axis, labels), label_words(member, labels) if isinstance(member, Name) else value_words(member) or Words("(nil)")
    if len(of.members) > MOST_NAMES:
        yield Words("Others"), Words(str(len(of.members) - MOST_NAMES))


def shown_holder(holder: Holder) -> ShownHolder:
    parts = (f"{file}, " * bool(file) + listed(each.text for each in found) for file, found in holder.by_file())
    files = dict.fromkeys(printable(each.path) for each in holder.identifiers if each.path)
    return ShownHolder(holder.name, "; ".join(parts), (*files,))


def listed(texts: Iterable[str]) -> str:
    """Returns the first texts, with commas."""
    first = [*itertools.islice(texts, MOST_NAMES + 1)]
    return ", ".join(map(shortened, first[:MOST_NAMES])) + ", .." * (len(first) > MOST_NAMES)


def difference(row: Row) -> str:
    """Returns the difference of the facts that contradict each other, in percent of the larger number; without them, nothing."""
    share = row.share() if row.said["one"] else Decimal(0)
    if share is None or not share:
        return NO_SHARE * (share is None)
    percent = share * 100
    return f"<{LEAST_PERCENT}" if percent < LEAST_PERCENT else plain(Decimal(f"{percent:.3g}"))


def hints(row: Row) -> Iterator[str]:
    return (f"{who(row, hint)}: {hint.phrase}" for hint in row.hints)


def who(row: Row, hint: Hint) -> str:
    """Returns the provider of a hint, or those of its group or, if these are not known, the identifiers of its facts."""
    names = dict.fromkeys(holder.name for name in hint.group for holder in row.holders[name])
    return hint.provider or ", ".join(names or hint.group)


def escaped(text: str) -> str:
    return html.escape(shortened(text))


def number(value: Union[Decimal, int]) -> str:
    """Returns a number with a minus sign and spaces between its thousands."""
    return plain(value, "\u2212", "\u202f")


def bdi(words: Words, language: str = "en") -> str:
    """Returns the HTML for words. A label names its language if it differs from that of the page."""
    title = f' title="{html.escape(words.title)}"' * bool(words.title)
    named = f' lang="{escaped(language)}"' * (words.is_label and language != PAGE_LANGUAGE)
    return f"<bdi{title}{named}>{html.escape(words.text)}</bdi>" if words.text else ""
