"""Providers that share almost no row with others, the likely causes, and the maps that would join them."""
import collections
import datetime
import itertools
import os
from typing import Callable, Dict, Iterable, Iterator, NamedTuple, Optional, Sequence, Union

from contradicting.facts import Dimensions
from contradicting.findings import counted
from contradicting.provider_counts import ProviderCounts
from contradicting.rows import Row
from contradicting.sources import names_of
from names import Name
from normalising.mapping import NameMap
from process import shortened

MOST_ROWS = 20_000  # that are kept to look for causes, all providers together
MOST_CAUSES = 20  # providers for which a cause is looked for
MOST_LIKE = 20  # rows that differ from a row in some aspects only, of which the one with the nearest period counts
LEAST_SHARE = 100  # a provider that shares less than 1 in this many of its rows is listed
MOST_ASPECTS = 2  # in which rows may differ at once
FOLDER = "maps"
LONGEST_NAME = 200  # bytes of the name of a provider with a map

Value = Union[str, Name, None]
Aspect = Callable[[Dimensions], Iterable[Value]]  # returns what rows may differ in: a value for each place
Replaced = Dict[Value, "collections.Counter[Value]"]


def names_in(of: Dimensions) -> list[Name]:
    axes = (name for pair in of.members for name in pair)
    return [of.concept, *(name for name in axes if isinstance(name, Name))]


ASPECTS: dict[str, tuple[str, Aspect]] = {
    "entity": ("another entity", lambda of: [of.entity]),
    "namespaces": ("another namespace", lambda of: [name.uri for name in names_in(of)]),
    "unit": ("another unit", lambda of: [name for side in of.unit for name in side]),
    "period": ("another period", lambda of: [of.period]),
    "language": ("another language", lambda of: [of.language]),
}
MAPPED = ("entity", "namespaces", "unit")


def key_of(of: Dimensions, aspects: Sequence[str]) -> tuple[object, ...]:
    """Returns what is left of dimensions without some aspects. Units keep their form, and names their local parts."""
    is_local = "namespaces" in aspects
    concept, members = of.concept.local if is_local else of.concept, of.members
    left = tuple(tuple(name.local if isinstance(name, Name) else name for name in pair) for pair in members) if is_local else members
    unit = tuple(map(len, of.unit)) if "unit" in aspects else of.unit
    others = tuple(None if name in aspects else getattr(of, name) for name in ("entity", "period", "language"))
    return concept, left, unit, others


class Cause(NamedTuple):
    """Why a provider shares no row: the aspects in which rows differ, how many match, and the values that match."""

    aspects: tuple[str, ...]
    rows: int
    other: str
    replaced: dict[str, Replaced]

    def phrase(self) -> str:
        examples = []
        for aspect in self.aspects:
            old, new = max(((count, old, new) for old, found in self.replaced[aspect].items() for new, count in found.items() if old != new),
                           key=lambda each: each[0])[1:]
            examples.append(f"{ASPECTS[aspect][0]}: {shown(old)}, not {shown(new)}")
        return f"{counted(self.rows, 'row equals', 'rows equal')} those of {self.other} except for {' and '.join(examples)}"

    def map(self) -> Optional[dict[str, object]]:
        """Returns the map that would join the rows, if a map can."""
        if not {*self.aspects} <= {*MAPPED}:
            return None
        best = {aspect: {old: found.most_common(1)[0][0] for old, found in self.replaced[aspect].items() if old} for aspect in self.aspects}
        tree: dict[str, object] = {}
        if "namespaces" in best:
            tree["namespaces"] = {old: new for old, new in best["namespaces"].items() if old != new}
        if "entity" in best:
            tree["entities"] = {spelled(old): spelled(new) for old, new in best["entity"].items() if new and old != new}
        if "unit" in best:
            tree["units"] = {spelled(old): {"unit": spelled(new)} for old, new in best["unit"].items() if old != new}
        try:
            NameMap(tree)
        except ValueError:  # what replaces a name would be replaced itself
            return None
        return tree


class Unshared(NamedTuple):
    """A provider that shares almost no row with others, with the likely cause and the map that would join them."""

    provider: str
    rows: int
    shared: int
    cause: Optional[Cause]
    map: Optional[dict[str, object]]

    def line(self) -> str:
        if not self.rows:
            return f"{self.provider} reports no fact"
        few = f"{self.shared} of its {counted(self.rows, 'row')}" if self.shared else "no row"
        cause = f"; {self.cause.phrase()}" if self.cause else ""
        return f"{self.provider} shares {few} with another provider{cause}" + f"; {map_path(self.provider)} would join them" * bool(self.map)

    def tree(self) -> dict[str, object]:
        cause = {"differs": self.cause.aspects, "matching": self.cause.rows, "other": self.cause.other} if self.cause else None
        return {"provider": self.provider, "rows": self.rows, "shared": self.shared, "cause": cause, "map": map_path(self.provider) if self.map else None}


class UnsharedFinder:
    """Receives all rows, and keeps the first ones of each provider."""

    def __init__(self, names: Sequence[str]) -> None:
        self.providers = [*dict.fromkeys(names)]
        self.most = MOST_ROWS // max(1, len(self.providers))
        self.kept: dict[str, list[Dimensions]] = {name: [] for name in self.providers}

    def add(self, row: Row) -> None:
        for name in names_of(row.holders):
            kept = self.kept.setdefault(name, [])
            if len(kept) < self.most:
                kept.append(row.dimensions)

    def found(self, counts: ProviderCounts, mapped: Iterable[str]) -> Iterator[Unshared]:
        """Yields the providers that share almost no row. There is no map for providers in `mapped`, nor for the first provider if
        all share no row: its names are those to which the others are mapped."""
        names = [name for name in self.providers if counts.shared[name] * LEAST_SHARE < max(1, counts.rows[name])]
        usual = [name for name in self.providers if name not in names]
        for index, name in enumerate(names if len(self.providers) > 1 else ()):
            before = usual or names[:index]
            others = before or [other for other in names if other != name]
            cause = self.cause(name, others) if index < MOST_CAUSES else None
            found = cause.map() if cause and before and name not in mapped and len(os.fsencode(name)) <= LONGEST_NAME else None
            yield Unshared(name, counts.rows[name], counts.shared[name], cause, found)

    def cause(self, name: str, others: Sequence[str]) -> Optional[Cause]:
        """Returns the fewest aspects without which most rows of the provider equal rows of another one, or None."""
        for size in range(1, MOST_ASPECTS + 1):
            found = [self.matched(name, others, aspects) for aspects in itertools.combinations(ASPECTS, size)]
            best = max(found, key=lambda cause: cause.rows)
            if best.rows * 2 >= min(len(self.kept[name]), len(self.kept[best.other])) > 0:
                return best
        return None

    def matched(self, name: str, others: Sequence[str], aspects: tuple[str, ...]) -> Cause:
        """Returns how many rows of a provider equal rows of others without some aspects, and what is replaced."""
        rows: dict[object, list[tuple[Dimensions, str]]] = {}
        for other in others:
            for of in self.kept[other]:
                like = rows.setdefault(key_of(of, aspects), [])
                like += [(of, other)] * (len(like) < MOST_LIKE)
        replaced: dict[str, Replaced] = {aspect: collections.defaultdict(collections.Counter) for aspect in aspects}
        matching: collections.Counter[str] = collections.Counter()
        for of in self.kept[name]:
            match, other = min(rows.get(key_of(of, aspects), ()), key=lambda each: days_between(of, each[0]), default=(None, ""))
            if match:
                matching[other] += 1
                for aspect, found in replaced.items():
                    for old, new in zip(ASPECTS[aspect][1](of), ASPECTS[aspect][1](match)):
                        found[old][new] += 1
        other = max(others, key=lambda each: matching[each])
        return Cause(aspects, sum(matching.values()), other, replaced)


def days_between(one: Dimensions, other: Dimensions) -> int:
    """Returns the days between the starts and between the ends of two periods, together."""
    pairs = zip(*([datetime.date.fromisoformat(moment[:10]).toordinal() for moment in of.period.split("/") if moment] for of in (one, other)))
    return sum(abs(first - second) for first, second in pairs)


def map_path(provider: str) -> str:
    """Returns the path of the map of a provider in the output folder."""
    return os.path.join(FOLDER, f"{provider}.json")


def spelled(name: Value) -> str:
    return f"{{{name.uri}}}{name.local}" if isinstance(name, Name) else str(name)


def shown(value: Value) -> str:
    return value.shown() if isinstance(value, Name) else shortened(value) if value else "none"
