"""Finds pairs of rows that may differ only by mistake."""
import datetime
import itertools
from typing import Iterator, Mapping, NamedTuple, Optional, Sequence, Union

from contradicting.facts import Dimensions, Fact
from contradicting.rows import Row
from contradicting.sources import Holders, names_of, providers
from contradicting.tables import DIMENSIONS, Cell, cell, checked_cells, value_cells
from names import Name

COLUMNS = ["pair", "differs", "row", "fact", *DIMENSIONS, *"value nil decimals low high providers label".split()]
MOST_PAIRS = 1_000  # the most pairs compared in a group of `Near`
MOST_FACTS = 10_000  # if the pairs found in a group have more facts, no other pair of the group is compared
WORD = (1 << 64) - 1

Axis = Union[str, Name]
Items = dict[Axis, object]


class Kept(NamedTuple):
    """A row that may belong to a pair, and the providers that report it."""

    dimensions: Dimensions
    facts: Mapping[str, Fact]
    holders: Mapping[str, Holders]
    names: frozenset[str]


class Near:
    """Pairs of rows that differ in one dimension only, perhaps by mistake. No provider reports both rows of a pair. The
    difference may be: an entity, a concept or an explicit member with the same local part in another namespace; letter case or
    white space; dates at most a day apart; another unit or language; a dimension that one row lacks. Rows form a group if they
    are equal in all dimensions but one, and their values of that dimension share a key of `buckets`. Two rows also form a group
    if one lacks a dimension of the other and they are otherwise equal. In a group, neighbours in the order of the rows are
    compared first. `uncompared` counts the pairs that MOST_PAIRS and MOST_FACTS exclude."""

    def __init__(self, providers: Sequence[str]) -> None:
        self.everybody, self.uncompared = {*providers}, 0
        self.kept: dict[int, Kept] = {}
        self.items: dict[int, Items] = {}

    def add(self, row: Row) -> None:
        """Keeps a row that can belong to a pair: some providers report it, and some do not."""
        names = frozenset(names_of(row.holders))
        if names and names < self.everybody:
            self.kept[row.number] = Kept(row.dimensions, row.facts, row.holders, names)

    def pairs(self) -> list[tuple[int, int, Axis]]:
        """Returns the pairs in order: the numbers of two rows, and the dimension in which they differ."""
        self.items = {number: items_of(kept.dimensions) for number, kept in self.kept.items()}
        found: dict[tuple[int, int], Axis] = {}
        for numbers in self.groups():
            found.update(self.compared(numbers))
        return [(*pair, found[pair]) for pair in sorted(found)]

    def groups(self) -> Iterator[list[int]]:
        """Yields, for each group that the class describes, the numbers of its rows in order. Rows are compared by the sum of
        the hashes of their dimensions: subtracting a hash leaves out its dimension. Hashes may collide, so `difference`
        compares the dimensions themselves."""
        sums = {number: sum(map(hash, items.items())) for number, items in self.items.items()}
        whole = {total & WORD: number for number, total in sums.items()}
        first: dict[int, int] = {}
        alike: dict[int, list[int]] = {}
        for number, items in self.items.items():
            for axis, value in items.items():
                rest = (sums[number] - hash((axis, value))) & WORD
                for bucket in buckets(axis, value):
                    key = hash((axis, bucket, rest))
                    if first.setdefault(key, number) != number:
                        alike.setdefault(key, [first[key]]).append(number)
                if rest in whole:
                    yield sorted((whole[rest], number))
        yield from alike.values()

    def compared(self, numbers: list[int]) -> Iterator[tuple[tuple[int, int], Axis]]:
        """Yields the pairs of a group that the table lists, each with the dimension in which its rows differ."""
        count, facts = len(numbers) * (len(numbers) - 1) // 2, 0
        pairs = itertools.chain.from_iterable(zip(numbers, numbers[step:]) for step in range(1, len(numbers)))
        for done, (one, other) in enumerate(pairs):
            if done == MOST_PAIRS or facts > MOST_FACTS:
                self.uncompared += count - done
                return
            axis = self.difference(one, other) if self.kept[one].names.isdisjoint(self.kept[other].names) else None
            if axis:
                facts += len(self.kept[one].facts) + len(self.kept[other].facts)
                yield (one, other), axis

    def difference(self, first: int, second: int) -> Optional[Axis]:
        """Returns the only dimension in which two rows differ, or None if there are several or a mistake is unlikely."""
        one, other = self.items[first], self.items[second]
        axes = [axis for axis in {**one, **other} if one.get(axis) != other.get(axis)]
        if len(axes) != 1:
            return None
        values = [of[axes[0]] for of in (one, other) if axes[0] in of]
        shared = set.intersection(*(set(buckets(axes[0], value)) for value in values))
        return axes[0] if shared else None

    def notes(self) -> list[str]:
        count = f"--near: {self.uncompared} pairs of rows were not compared."
        group = "Rows that are similar in one dimension and equal in all others form a group."
        most = f"In each group, at most {MOST_PAIRS} pairs are compared, or fewer if those found have over {MOST_FACTS} facts."
        return [f"{count} {group} {most}"] if self.uncompared else []

    def table(self, pairs: list[tuple[int, int, Axis]], labels: Mapping[Name, str]) -> Iterator[Sequence[str]]:
        """Yields the lines of the table: the headings, then, for each pair, one line for each fact of its two rows."""
        yield COLUMNS
        for rank, (one, other, axis) in enumerate(pairs, 1):
            for number in (one, other):
                kept = self.kept[number]
                dimensions, label = checked_cells(kept.dimensions), labels.get(kept.dimensions.concept, "")
                for name, fact in kept.facts.items():
                    cells: list[Cell] = [*value_cells(fact), *fact.precision(), providers(kept.holders[name]), label]
                    yield [cell(rank), cell(axis), cell(number), cell(name), *dimensions, *map(cell, cells)]


def items_of(dimensions: Dimensions) -> Items:
    """Returns the values of a row's dimensions. Absent dimensions are left out."""
    core: Items = {key: value for key, value in dimensions._asdict().items() if value and key != "members"}
    return {**core, **{axis: (member,) for axis, member in dimensions.members}}


def buckets(axis: Axis, value: object) -> list[object]:
    """Returns keys for a value of the dimension `axis`. Two values share a key if they may differ only by mistake."""
    of = value[0] if isinstance(axis, Name) and isinstance(value, tuple) else value
    if axis == "period":
        days = [datetime.date.fromisoformat(moment[:10]).toordinal() for moment in str(of).split("/")]
        return [*itertools.product(*((day, day + 1) for day in days))]
    text = of.local if isinstance(of, Name) else of
    return ["".join(text.split()).casefold() if isinstance(text, str) and axis != "language" else ""]
