"""The dimensions and the facts of a row, with expanded names and exact numbers, the groups of facts that agree, so the odd one out is
seen, and hints at why the facts of a contradiction differ. A hint is never a verdict."""
import datetime
import functools
import itertools
from decimal import Decimal, getcontext
from typing import Iterator, Mapping, NamedTuple, Optional, Union

from contradicting.sources import Holders
from names import Name

getcontext().prec = 100  # more digits than the end of an interval has, so sums are exact

Interval = tuple[Decimal, Decimal]
Value = Union[Decimal, Name, str, None]
MOST_GROUPS = 20  # the most groups of several facts; the remaining facts of a row form one group each
Group = tuple[str, ...]  # the identifiers of facts, in order
Weights = Mapping[str, int]  # by fact: how many providers report it, or 1 if no provider is known
FACTORS = (10**3, 10**6, 10**9, 100)
MOST_PAIRS = 100  # the most pairs of facts that are compared for a difference in the last place


class Dimensions(NamedTuple):
    """The dimensions of a row with expanded names; absent ones are empty or None. A unit has a tuple for each of its sides."""

    concept: Name
    entity: Optional[Name]
    period: str
    unit: tuple[tuple[Name, ...], ...]
    language: str
    members: tuple[tuple[Name, Union[Name, str, None]], ...]


class Fact(NamedTuple):
    """A fact without its dimensions, which its row contains."""

    value: Value
    decimals: Optional[int]

    def interval(self) -> Interval:
        """Returns the least and the greatest number that the value represents."""
        if not isinstance(self.value, Decimal):
            raise TypeError(f"{self.value} is not a number")
        return interval_of(self.value, self.decimals)

    def precision(self) -> tuple[Union[int, str], Union[Decimal, str], Union[Decimal, str]]:
        """Returns the decimals of a number (or "exact") and the ends of its interval. Other values give three empty texts."""
        if not isinstance(self.value, Decimal):
            return "", "", ""
        low, high = self.interval()
        return "exact" if self.decimals is None else self.decimals, low, high


Facts = Mapping[str, Fact]


@functools.lru_cache(1_000)
def interval_of(value: Decimal, decimals: Optional[int]) -> Interval:
    half = Decimal(0) if decimals is None else Decimal(5).scaleb(-decimals - 1)
    return value - half, value + half


def day(moment: str, is_end: bool) -> str:
    """Returns a moment with a space instead of T. Midnight is shown as the day that begins or, if `is_end`, the day that ends."""
    read = datetime.datetime.fromisoformat(moment)
    is_midnight = read.time() == datetime.time() and (not is_end or read > datetime.datetime.min)
    return str(read.date() - datetime.timedelta(days=is_end)) if is_midnight else moment.replace("T", " ")


def plain(number: Union[int, Decimal], minus: str = "-", groups: str = "") -> str:
    """Returns the exact text of a number, without an exponent and without zeros at the end of the fraction."""
    kind = "d" if isinstance(number, int) else "f"
    text = format(abs(number), f",{kind}").replace(",", groups) if groups else format(abs(number), kind)
    text = text.rstrip("0").rstrip(".") if "." in text else text
    return minus + text if number < 0 else text


def weights_of(holders: Mapping[str, Holders]) -> Weights:
    return {name: max(1, len(each)) for name, each in holders.items()}


def groups_of(facts: Mapping[str, Fact], weights: Weights) -> tuple[Group, ...]:
    """Returns the groups of a row's facts, the heaviest first, and of equal ones the one with the lowest fact first. Again and
    again, the heaviest set of numbers that a common number fits becomes a group; of equal sets, the one that the least number
    fits. Any other value is a group of its own, since different texts, names and nil never agree."""
    numbers = {name: fact.interval() for name, fact in facts.items() if isinstance(fact.value, Decimal)}
    indices = {name: index for index, name in enumerate(facts)}
    found: list[Group] = [(name,) for name in facts if name not in numbers]
    while numbers and len(found) < MOST_GROUPS:
        point = heaviest(numbers, weights)
        group = tuple(name for name, (low, high) in numbers.items() if low <= point <= high)
        found.append(group)
        for name in group:
            del numbers[name]
    found += [(name,) for name in numbers]
    return tuple(sorted(found, key=lambda group: (-weight(group, weights), indices[group[0]])))


def heaviest(intervals: Mapping[str, tuple[Decimal, Decimal]], weights: Weights) -> Decimal:
    """Returns the least number at which the intervals that contain it have the greatest weight together."""
    starts = ((low, 0, weights[name]) for name, (low, _) in intervals.items())
    ends = ((high, 1, -weights[name]) for name, (_, high) in intervals.items())  # an interval contains its ends
    best, total, point = 0, 0, Decimal(0)
    for at, _, change in sorted(itertools.chain(starts, ends)):
        total += change
        if total > best:
            best, point = total, at
    return point


def weight(group: Group, weights: Weights) -> int:
    return sum(weights[name] for name in group)


def odd_facts(groups: tuple[Group, ...], weights: Weights) -> Iterator[str]:
    """Yields the facts outside the heaviest group. If several groups are the heaviest, yields all facts."""
    has_majority = len(groups) < 2 or weight(groups[0], weights) > weight(groups[1], weights)
    for group in groups[has_majority:]:
        yield from group


class Hint(NamedTuple):
    """What may explain the difference of a group: the facts of the group, and a phrase about its providers, or about one."""

    group: Group
    phrase: str
    provider: str = ""


def hints_of(facts: Facts, groups: tuple[Group, ...], weights: Weights) -> Iterator[Hint]:
    """Yields a hint for each of the first groups that a known mistake may separate from the very first one."""
    found: dict[Hint, None] = {}
    for group in groups[1:MOST_GROUPS]:
        one, other = groups[0], group
        if weight(one, weights) == weight(other, weights) and is_smaller(facts, one, other):
            one, other = other, one  # so that a mistake of one provider has the same hint in each row
        phrase = phrase_for(facts, one, other)
        if phrase:
            found.setdefault(Hint(other, phrase))
    yield from found


def restatements(holders: Mapping[str, Holders], groups: tuple[Group, ...]) -> Iterator[Hint]:
    """Yields a hint for each provider whose reports contradict each other: the last report, after the one before it."""
    places = {name: index for index, group in enumerate(groups) for name in group}
    own: dict[str, list[tuple[int, str, str]]] = {}  # the report, its file and the fact
    for fact, holder in ((fact, holder) for fact, each in holders.items() for holder in each):
        own.setdefault(holder.name, []).extend((each.report, each.file, fact) for each in holder.identifiers if each.file)
    for provider, found in own.items():
        last = max(found, default=(0, "", ""))
        before = [each for each in found if each[0] < last[0] and places[each[2]] != places[last[2]]]
        if before:
            yield Hint((last[2],), f"restated: {last[1]} after {max(before)[1]}", provider)


def phrase_for(facts: Facts, one: Group, other: Group) -> Optional[str]:
    """Returns how the second group differs from the first."""
    if facts[other[0]].value is None:
        return "nil"
    if facts[one[0]].value is None:
        return "not nil"
    first, second = common(facts, one), common(facts, other)
    if not first or not second:
        return None
    if is_last_place(facts, one, other):
        return "less than 1 away in the last place"
    if has_zero(first) or has_zero(second):
        return coarse_scale(facts[one[0]], facts[other[0]])
    return scale(first, second) if (first[0] > 0) == (second[0] > 0) else opposite(first, second)


def scale(first: Interval, second: Interval) -> Optional[str]:
    """Returns by which factor the second interval is smaller or larger than the first."""
    for factor in FACTORS:
        if meet(first, (second[0] * factor, second[1] * factor)):
            return f"{factor:,} times smaller"
        if meet((first[0] * factor, first[1] * factor), second):
            return f"{factor:,} times larger"
    return None


def coarse_scale(first: Fact, second: Fact) -> Optional[str]:
    """Returns the exact factor between two values, of which one is so coarse that its interval contains 0."""
    one, other = first.value, second.value
    return exact_scale(one, other) if isinstance(one, Decimal) and isinstance(other, Decimal) else None


def exact_scale(one: Decimal, other: Decimal) -> Optional[str]:
    """Returns by which factor the second value is exactly smaller or larger than the first. Neither is 0."""
    for factor in FACTORS:
        if one and one == other * factor:
            return f"{factor:,} times smaller"
        if one and one * factor == other:
            return f"{factor:,} times larger"
    return None


def opposite(first: Interval, second: Interval) -> Optional[str]:
    return "opposite sign" if meet(first, (-second[1], -second[0])) else None


def has_zero(interval: Interval) -> bool:
    return interval[0] <= 0 <= interval[1]


def meet(first: Interval, second: Interval) -> bool:
    return max(first[0], second[0]) <= min(first[1], second[1])


def common(facts: Facts, group: Group) -> Optional[Interval]:
    """Returns the numbers that fit all facts of a group, or None if they are not numbers."""
    if not all(isinstance(facts[name].value, Decimal) for name in group):
        return None
    lows, highs = zip(*(facts[name].interval() for name in group))
    return max(lows), min(highs)


def is_smaller(facts: Facts, one: Group, other: Group) -> bool:
    """Returns whether the first group is nil, or has the smaller number."""
    first, second = (facts[group[0]].value for group in (one, other))
    return first is None or isinstance(first, Decimal) and isinstance(second, Decimal) and abs(first) < abs(second)


def is_last_place(facts: Facts, one: Group, other: Group) -> bool:
    """Returns whether all facts of two groups, none two exact, are less than 1 apart in the last place of the coarser."""
    if len(one) * len(other) > MOST_PAIRS:
        return False
    return all(is_near(facts[first], facts[second]) for first, second in itertools.product(one, other))


def is_near(first: Fact, second: Fact) -> bool:
    places = [fact.decimals for fact in (first, second) if fact.decimals is not None]
    if not places or not isinstance(first.value, Decimal) or not isinstance(second.value, Decimal):
        return False
    return abs(first.value - second.value) < Decimal(1).scaleb(-min(places))
