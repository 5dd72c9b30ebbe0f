"""Counts of rows by agreement, counts and hints for each provider, the matrix of providers, and providers that report the same facts."""
import collections
import hashlib
import itertools
from decimal import Decimal
from typing import Iterator, NamedTuple, Sequence

from contradicting.findings import counted
from contradicting.facts import Hint, exact_scale
from contradicting.refusals import Refusals
from contradicting.rows import Agreement, Row, agreement_of, opponents
from contradicting.shown import escaped
from contradicting.snapshot import Snapshot
from contradicting.sources import Report, names_of
from contradicting.tables import cell

MOST_PROVIDERS = 100  # that the page lists, and for which there is a matrix
HEADS = ("Facts", "Contradictions where it stands alone", "Rows that it lacks", "Refused reports")
COLUMNS = "provider other provider_rows other_rows shared agree contradict".split()
LEAST_ROWS = 3  # with a hint about a provider, for a line
MOST_VALUES = 20  # of a row that are compared for a factor


class Pair(NamedTuple):
    """Two providers, and how many rows each reports, both report, and are contradictions between the two."""

    one: str
    other: str
    one_rows: int
    other_rows: int
    shared: int
    contradicting: int

    @property
    def agreeing(self) -> int:
        return self.shared - self.contradicting


class ProviderCounts:
    """Receives all rows. A provider stands alone in a contradiction if none of its facts is in a group with a fact of another
    provider. It lacks a row that only others report. `shared` counts its rows that others report, too."""

    def __init__(self, names: Sequence[str]) -> None:
        self.providers, self.count = [*dict.fromkeys(names)], 0
        self.kinds: collections.Counter[Agreement] = collections.Counter()
        self.facts: collections.Counter[str] = collections.Counter()
        self.rows: collections.Counter[str] = collections.Counter()
        self.shared: collections.Counter[str] = collections.Counter()
        self.alone: collections.Counter[str] = collections.Counter()
        self.masks: dict[str, bytearray] = {}  # a bit for each row that the provider reports
        self.contradicting: collections.Counter[frozenset[str]] = collections.Counter()

    @property
    def has_matrix(self) -> bool:
        return 1 < len(self.providers) <= MOST_PROVIDERS

    def add(self, row: Row) -> None:
        self.count += 1
        kind = agreement_of(row)
        self.kinds[kind] += 1
        names = names_of(row.holders)
        self.rows.update(names)
        self.shared.update(names if len(names) > 1 else ())
        self.facts.update(holder.name for holders in row.holders.values() for holder in holders)
        if self.has_matrix:
            self.mark(row.number, names)
        if kind is Agreement.CONTRADICTION:
            self.add_contradiction(row)

    def mark(self, number: int, names: set[str]) -> None:
        byte, bit = divmod(number, 8)
        for name in names:
            mask = self.masks.setdefault(name, bytearray())
            mask.extend(bytes(max(0, byte + 1 - len(mask))))
            mask[byte] |= 1 << bit

    def add_contradiction(self, row: Row) -> None:
        groups = [{holder.name for name in group for holder in row.holders[name]} for group in row.groups]
        joined = set().union(*(group for group in groups if len(group) > 1))
        self.alone.update(set().union(*groups) - joined)
        if self.has_matrix:
            self.contradicting.update(frozenset(pair) for pair in opponents(row))

    def lines(self) -> Iterator[tuple[int, str]]:
        """Yields the disjoint counts of rows, each with its words."""
        yield from ((self.kinds[kind], kind.counted(self.kinds[kind])) for kind in self.shown_kinds())

    def shown_kinds(self) -> Iterator[Agreement]:
        """Yields the kinds of rows that there may be."""
        for kind in Agreement:
            if kind is Agreement.CONTRADICTION or self.kinds[kind] or (kind is Agreement.NONE_KNOWN) != bool(self.providers):
                yield kind

    def pairs(self) -> Iterator[Pair]:
        """Yields the matrix: each pair of providers, in order. Without a matrix, yields nothing."""
        names = self.providers if self.has_matrix else []
        bits = {name: int.from_bytes(self.masks.get(name, b""), "little") for name in names}
        for one, other in itertools.combinations(bits, 2):
            shared = bin(bits[one] & bits[other]).count("1")
            yield Pair(one, other, self.rows[one], self.rows[other], shared, self.contradicting[frozenset((one, other))])

    def table(self) -> Iterator[Sequence[str]]:
        yield COLUMNS
        for pair in self.pairs():
            yield [cell(pair.one), cell(pair.other), *map(str, (*pair[2:-1], pair.agreeing, pair.contradicting))]

    def html(self, refusals: Refusals) -> Iterator[str]:
        """Yields a table of the providers and the matrix, if any are known."""
        refused = collections.Counter(report.provider for report in refusals.reports)
        names = [*dict.fromkeys([*self.providers, *refused])]
        if names:
            yield '<table class="providers" cellspacing="0"><tr><th>Provider' + "".join(f"<th>{head}" for head in HEADS) + "\n"
        for name in names[:MOST_PROVIDERS]:
            lacks = self.count - self.rows[name]
            cells = (self.facts[name], self.alone[name], lacks, refused[name])
            yield f"<tr><td><bdi>{escaped(name)}</bdi>" + "".join(f"<td>{count}" for count in cells) + "\n"
        if names:
            yield "</table>\n" + f"<p>and {len(names) - MOST_PROVIDERS} more providers</p>\n" * (len(names) > MOST_PROVIDERS)
        yield from self.matrix()

    def matrix(self) -> Iterator[str]:
        """Yields a table of the pairs of providers."""
        if self.has_matrix:
            yield '<table class="providers" cellspacing="0"><tr><th>Both report<th>Rows<th>Agree<th>Contradict\n'
            for pair in self.pairs():
                cells = (pair.shared, pair.agreeing, pair.contradicting)
                yield f"<tr><td><bdi>{escaped(pair.one)}</bdi> and <bdi>{escaped(pair.other)}</bdi>" + "".join(f"<td>{count}" for count in cells) + "\n"
            yield "</table>\n"


class HintCount(NamedTuple):
    """How many rows have a hint about a provider, and how many of these agree within rounding."""

    provider: str
    phrase: str
    rows: int
    agreeing: int


class Patterns:
    """Receives all rows. A hint of a contradiction counts for each provider in its group. Values that agree only because their
    decimals are coarse count, too, if one is exactly a factor of the other."""

    def __init__(self) -> None:
        self.hints: collections.Counter[tuple[str, str]] = collections.Counter()
        self.agreeing: collections.Counter[tuple[str, str]] = collections.Counter()
        self.digests: dict[str, hashlib._Hash] = {}

    def add(self, row: Row) -> None:
        for name, holders in row.holders.items():
            for holder in holders:
                self.digests.setdefault(holder.name, hashlib.sha256()).update(name.encode())
        self.hints.update({(name, hint.phrase) for hint in row.hints for name in self.providers(row, hint)})
        if agreement_of(row) is Agreement.ROUNDING:
            found = {*self.factors(row)}
            self.hints.update(found)
            self.agreeing.update(found)

    @staticmethod
    def providers(row: Row, hint: Hint) -> Iterator[str]:
        yield from [hint.provider] if hint.provider else (holder.name for name in hint.group for holder in row.holders[name])

    def factors(self, row: Row) -> Iterator[tuple[str, str]]:
        """Yields the providers whose value is exactly a factor smaller than another value, with the factor."""
        values = [(abs(fact.value), name) for name, fact in row.facts.items() if isinstance(fact.value, Decimal) and fact.value]
        for (small, name), (large, _) in itertools.combinations(sorted(values)[:MOST_VALUES], 2):
            phrase = exact_scale(large, small)
            if phrase:
                yield from ((holder.name, phrase) for holder in row.holders[name])

    def counts(self) -> list[HintCount]:
        """Returns the counts, the greatest first."""
        found = [HintCount(*key, count, self.agreeing[key]) for key, count in self.hints.items()]
        return sorted(found, key=lambda each: (-each.rows, each))

    def lines(self, counts: ProviderCounts) -> Iterator[tuple[str, bool]]:
        """Yields a line for each hint in most rows that a provider shares with others, and whether most of these rows agree."""
        for each in self.counts():
            shared = counts.shared[each.provider]
            if each.rows >= LEAST_ROWS and each.rows * 2 > shared:
                behind = f"; {each.agreeing} of these agree only because their decimals are coarse" * bool(each.agreeing)
                line = f"{each.provider}: {each.phrase} in {each.rows} of {counted(shared, 'row')} that others report, too{behind}"
                yield line, each.agreeing * 2 > each.rows

    def same(self, reports: Sequence[Report], snapshot: Snapshot) -> Iterator[str]:
        """Yields a line for providers with reports of the same bytes, or with exactly the same facts."""
        by_bytes: dict[str, list[Report]] = {}
        for report in reports:
            by_bytes.setdefault(snapshot.files[report.path].digest, []).append(report)
        copies = [each for each in by_bytes.values() if len({report.provider for report in each}) > 1]
        for each in copies:
            names = " and ".join(dict.fromkeys(report.provider for report in each))
            yield f"{' and '.join(report.path for report in each)} have the same bytes, so nothing is compared between {names}"
        known = [{report.provider for report in each} for each in copies]
        by_facts: dict[str, list[str]] = {}
        for name, digest in self.digests.items():
            by_facts.setdefault(digest.hexdigest(), []).append(name)
        for names_found in by_facts.values():
            if len(names_found) > 1 and {*names_found} not in known:
                yield f"{' and '.join(names_found)} report exactly the same facts: they may have one source"
