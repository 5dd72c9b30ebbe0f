"""The rows of a merged report, their verdicts as `verdicts` printed them, and how the providers of a row agree."""
import datetime
import enum
import functools
import itertools
import re
from decimal import Decimal
from typing import Any, Iterable, Iterator, Mapping, NamedTuple, Optional, Protocol, Sequence

from contradicting.facts import Dimensions, Fact, Group, Hint, Interval, Value, groups_of, hints_of, odd_facts, restatements, weights_of
from contradicting.sources import Holders, names_of
from contradicting.texts import CORE, Text, Tree, using
from normalising.prefixes import is_spelled
from process import shortened
from sheets import Sheet

NUMBER = re.compile(r"-?(?:0|[1-9]\d{0,39})(?:\.\d{1,39})?", re.ASCII)
MOMENT = re.compile(r"\d{4}-\d\d-\d\dT\d\d:\d\d:\d\d", re.ASCII)
EVIDENCE = re.compile(r"complete|consistent common (?P<low>\S+) (?P<high>\S+)|inconsistent apart (?P<one>\S+) (?P<two>\S+)")
LONGEST_LINE = 1_000  # characters; each line of `verdicts` has fewer


class Row(NamedTuple):
    """A row with its verdict, its facts and the providers of each fact. A contradiction also has groups of facts that agree,
    the facts that are not in the largest group, and hints at why the groups differ. Its `gap` lies between the intervals of the
    two facts that contradict each other. `gap` is None unless both facts are numbers."""

    number: int
    dimensions: Dimensions
    facts: Mapping[str, Fact]
    said: re.Match[str]
    holders: Mapping[str, Holders]
    gap: Optional[Interval] = None
    groups: tuple[Group, ...] = ()
    odd: frozenset[str] = frozenset()
    hints: tuple[Hint, ...] = ()

    @property
    def verdict(self) -> str:
        return self.said[0].partition(" ")[0]

    @property
    def pair(self) -> tuple[str, str]:
        """The identifiers of the two facts that contradict each other."""
        return self.said["one"], self.said["two"]

    def share(self) -> Optional[Decimal]:
        """Returns the difference of the pair as a share of the larger absolute value, or None if either value is not a number."""
        one, two = (self.facts[name].value for name in self.pair)
        if not isinstance(one, Decimal) or not isinstance(two, Decimal):
            return None
        return abs(one - two) / max(abs(one), abs(two))


class RowObserver(Protocol):
    """Receives each row, in order."""

    def add(self, row: Row) -> None: ...


class FactSources(Protocol):
    """Finds the providers of facts. Call `holders` once for each fact, in order, and `finish` after the last fact."""

    names: list[str]

    def holders(self, name: str, tree: Tree) -> Holders: ...

    def finish(self) -> None: ...


def dimensions_given(fact: tuple[str, Tree]) -> Any:
    return fact[1].get("dimensions")


def contradiction(row: Row) -> Optional[Row]:
    """Returns a row with its groups and hints, and with the gap if its pair is two numbers. Returns None if the pair is not two
    facts of the row, or if both are numbers and the first interval does not end before the second begins."""
    one, two = (row.facts.get(name) for name in row.pair)
    if not one or not two or one is two:
        return None
    gap = None
    if isinstance(one.value, Decimal) and isinstance(two.value, Decimal):
        gap = one.interval()[1], two.interval()[0]
        if gap[0] >= gap[1]:
            return None
    weights = weights_of(row.holders)
    groups = groups_of(row.facts, weights)
    odd, hints = frozenset(odd_facts(groups, weights)), (*restatements(row.holders, groups), *hints_of(row.facts, groups, weights))
    return row._replace(gap=gap, groups=groups, odd=odd, hints=hints)


class Reader:
    """Reads the rows of a merged report, and the verdict and the providers for each row."""

    def __init__(self, text: Text, sheet: Sheet, sources: FactSources, observers: Sequence[RowObserver]) -> None:
        self.text, self.sheet, self.sources, self.observers = text, sheet, sources, observers
        self.kinds: dict[str, str] = {}
        self.providers = len(set(sources.names))

    def rows(self, path: str) -> list[Row]:
        """Returns the rows that are contradictions, and passes each row to the observers. Errors: NotDone if an input cannot be
        read or is malformed, or if a verdict or a source does not match the facts."""
        kept, groups = [], itertools.groupby(self.text.facts(), dimensions_given)
        with using(path), open(path, encoding="utf-8", newline="\n") as file:
            lines = iter(functools.partial(file.readline, LONGEST_LINE), "")
            for number, (group, line) in enumerate(zip_all(groups, lines), 1):
                row = self.row(number, dict(group[1]), line)
                if row is None:
                    raise ValueError(f"line {number} does not match the merged report")
                for observer in self.observers:
                    observer.add(row)
                if row.said["one"]:
                    kept.append(row)
        self.sources.finish()
        return kept

    def reported_by(self, count: int) -> str:
        """Returns a text such as "2 of 3" if 2 of 3 providers report a row or a fact; an empty text if no provider is known."""
        return f"{count} of {self.providers}" if self.providers else ""

    def row(self, number: int, facts: dict[str, Tree], line: str) -> Optional[Row]:
        """Returns a row, or None if its line does not match."""
        with using(self.text.path):
            is_numeric = [self.kind(tree) == "numeric" for tree in facts.values()][0]
        names = [*facts]
        start = f"{number} {names[0]} {names[-1]} "
        said = EVIDENCE.fullmatch(line, len(start), len(line) - 1) if line.startswith(start) else None
        holders = {name: self.sources.holders(name, tree) for name, tree in facts.items()}
        if said is None:
            return None
        row = Row(number, *self.expanded(facts), said, holders)
        if said["one"]:
            return contradiction(row)
        is_shown = is_common(said, row.facts) if said["low"] and is_numeric else len(facts) == 1 and not said["low"]
        return row if is_shown else None

    def kind(self, tree: Tree) -> str:
        """Returns the kind of a fact, after checking its value and decimals."""
        concept = tree["dimensions"]["concept"]
        if concept not in self.kinds:
            self.kinds[concept] = self.sheet.concepts[self.text.name(concept)]
        kind = self.kinds[concept]
        if kind == "numeric" and tree["value"] is not None:
            decimals = tree.get("decimals", 0)
            if not NUMBER.fullmatch(tree["value"]) or type(decimals) is not int or decimals not in range(-39, 40):
                raise ValueError(f"it has a number, or decimals, in another form: {shortened(tree['value'])}")
        elif not isinstance(tree["value"], (str, type(None))):
            raise ValueError("it has a value that is not a text")
        elif tree["value"] is not None and self.text.name(concept) in self.sheet.sets and not is_spelled(tree["value"]):
            raise ValueError(f"it has a set that is not written as URI#LOCAL, as tools/normalise does: {shortened(tree['value'])}")
        return kind

    def expanded(self, facts: dict[str, Tree]) -> tuple[Dimensions, dict[str, Fact]]:
        """Returns the dimensions of a row with expanded names, and its facts by identifier."""
        with using(self.text.path):
            dimensions = self.dimensions_of(next(iter(facts.values()))["dimensions"])
            kind = self.sheet.concepts[dimensions.concept]
            return dimensions, {name: self.fact_of(tree, kind) for name, tree in facts.items()}

    def dimensions_of(self, tree: Tree) -> Dimensions:
        given, name = dict(tree), self.text.name
        concept, entity, period, unit, language = (given.pop(core, "") for core in CORE)
        sides = (side.strip("()").split("*") for side in unit.split("/") if side)
        units = tuple(tuple(sorted(map(name, side))) for side in sides)
        members = sorted((name(axis), member) for axis, member in given.items())
        explicit = (member and self.sheet.dimensions[axis] == "explicit" for axis, member in members)
        named = tuple((axis, name(member) if has_name else member) for (axis, member), has_name in zip(members, explicit))
        if not all(isinstance(text, str) for text in (language, *(member for axis, member in members if member is not None))):
            raise ValueError("it has a dimension that is not a text")
        return Dimensions(name(concept), name(entity) if entity else None, checked_period(period), units, language, named)

    def fact_of(self, tree: Tree, kind: str) -> Fact:
        value = tree["value"]
        if kind == "numeric" and value is not None:
            return Fact(Decimal(value), tree.get("decimals"))
        return Fact(self.text.name(value) if kind == "name" and value is not None else value, None)


def checked_period(period: str) -> str:
    """Returns the period if it is empty or has one or two moments. Errors: ValueError."""
    moments = period.split("/") if period else []
    if len(moments) > 2 or not all(map(MOMENT.fullmatch, moments)):
        raise ValueError(f"it has a period in another form: {shortened(period)}")
    for moment in moments:
        datetime.datetime.fromisoformat(moment)
    return period


def zip_all(groups: Iterable[Any], lines: Iterable[str]) -> Iterator[tuple[Any, str]]:
    """Yields each group with its line. Errors: ValueError if a group or a complete line is missing."""
    for group, line in itertools.zip_longest(groups, lines):
        if group is None or line is None or not line.endswith("\n"):
            raise ValueError("it does not have one line for each row of the merged report")
        yield group, line


def is_common(said: re.Match[str], facts: Mapping[str, Fact]) -> bool:
    """Returns whether a line shows the common interval of the facts of its row. A row with a nil fact has none."""
    if any(fact.value is None for fact in facts.values()):
        return False
    lows, highs = zip(*(fact.interval() for fact in facts.values()))
    return (max(lows), min(highs)) == (Decimal(said["low"]), Decimal(said["high"]))


class Agreement(enum.Enum):
    """The kind of a row: a contradiction, or how its providers agree. NONE_KNOWN is for rows without known providers."""

    CONTRADICTION = "contradiction"
    ONE_PROVIDER = "reported by one provider"
    EXACT = "agree exactly"
    ROUNDING = "agree within rounding"
    NONE_KNOWN = "no contradiction"

    def counted(self, count: int) -> str:
        """Returns the words after a count of such rows."""
        return "contradictions" if self is Agreement.CONTRADICTION and count != 1 else self.value


def agreement_of(row: Row) -> Agreement:
    if row.verdict == "inconsistent":
        return Agreement.CONTRADICTION
    providers = len(names_of(row.holders))
    if providers < 2:
        return Agreement.ONE_PROVIDER if providers else Agreement.NONE_KNOWN
    return Agreement.EXACT if row.verdict == "complete" else Agreement.ROUNDING


class Stance(NamedTuple):
    """What a provider reports in a row: the greatest low and the least high end of its numbers, and its other values."""

    low: Optional[Decimal]
    high: Optional[Decimal]
    others: frozenset[Value]

    def contradicts(self, other: "Stance") -> bool:
        """Returns whether a fact of one provider contradicts a fact of the other."""
        has_number = self.low is not None or other.low is not None
        if len(self.others | other.others) + has_number > 1:
            return True
        return None not in (self.low, other.low) and (self.low > other.high or other.low > self.high)  # type: ignore[operator]


def stance_of(facts: Iterable[Fact]) -> Stance:
    intervals, others = [], []
    for fact in facts:
        if isinstance(fact.value, Decimal):
            intervals.append(fact.interval())
        else:
            others.append(fact.value)
    low, high = max((low for low, _ in intervals), default=None), min((high for _, high in intervals), default=None)
    return Stance(low, high, frozenset(others))


def opponents(row: Row) -> Iterator[tuple[str, str]]:
    """Yields the pairs of providers that contradict each other in a row."""
    own: dict[str, list[Fact]] = {}
    for name, fact in row.facts.items():
        for holder in row.holders[name]:
            own.setdefault(holder.name, []).append(fact)
    stances = {name: stance_of(facts) for name, facts in own.items()}
    for one, other in itertools.combinations(stances, 2):
        if stances[one].contradicts(stances[other]):
            yield one, other
