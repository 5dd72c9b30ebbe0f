"""Rewrites the moments of a period: zero fractions, dates without a time, and time zones."""
import datetime
import re
from typing import Callable, Container, Iterator, Optional

MOMENT = re.compile(r"(?P<day>\d{4}-\d\d-\d\d)(?P<time>T\d\d:\d\d:\d\d)?(?P<part>\.\d+)?(?P<zone>Z|[+-]\d\d:\d\d)?", re.ASCII)
UTC = ("Z", "+00:00", "-00:00")
# a period of xBRL-CSV: a year, quarter, half, week, month or day, or its start or end; or two days
CSV_DAY = r"\d{4}-\d\d-\d\d"
CSV = re.compile(r"(?P<year>\d{4})(?:-(?P<month>\d\d)(?:-(?P<day>\d\d))?|Q(?P<quarter>[1-4])|H(?P<half>[12])|W(?P<week>\d\d?))?"
                 r"(?P<side>@start|@end)?", re.ASCII)
CSV_RANGE = re.compile(rf"(?P<first>{CSV_DAY})\.\.(?P<last>{CSV_DAY})", re.ASCII)

# takes a moment and whether it is a start; returns the new text, or None to keep the moment
Rewriting = Callable[["re.Match[str]", bool], Optional[str]]


def each_moment(period: str, rewritten: Rewriting) -> str:
    """Returns a period with its moments rewritten by a function. Parts that are not moments stay. A text with more than two
    parts, separated by `/`, is returned unchanged."""
    texts = period.split("/")
    if len(texts) > 2:
        return period
    matches = [MOMENT.fullmatch(text) for text in texts]
    made = (rewritten(match, index + 1 < len(texts)) if match else None for index, match in enumerate(matches))
    return "/".join(text if new is None else new for text, new in zip(texts, made))


def without_zero_fraction(moment: re.Match[str], _: bool) -> Optional[str]:
    day, time, part, zone = moment.groups(default="")
    return day + time + zone if time and part and not part.strip(".0") else None


def with_time(moment: re.Match[str], is_start: bool) -> Optional[str]:
    """Returns a date with the time 24:00:00, or with 00:00:00 if the date is a start. A time zone stays. Returns None if the
    moment has a time or a fraction, or is not a date."""
    day, time, part, zone = moment.groups(default="")
    if time or part or not is_date(day):
        return None
    return f"{day}T{'00' if is_start else '24'}:00:00{zone}"


def in_utc(moment: re.Match[str], _: bool) -> Optional[str]:
    """Returns a moment in UTC without its zone. The time 24:00:00 stays if the zone is UTC already. Returns None if the moment
    has no zone or no time, has a fraction, or is invalid, or if the year would not be from 1 to 9999."""
    day, time, part, zone = moment.groups(default="")
    if not zone or not time or part:
        return None
    try:
        is_end = time == "T24:00:00"
        local = datetime.datetime.fromisoformat(day + (time if not is_end else "T00:00:00"))
        in_zone = local + datetime.timedelta(days=is_end)
        return day + time if zone in UTC else (in_zone - ahead(zone)).isoformat()
    except (ValueError, OverflowError):
        return None


def ahead(zone: str) -> datetime.timedelta:
    """Returns how far a zone is ahead of UTC. Raises ValueError beyond 14:00, or if the minutes exceed 59."""
    hours, minutes = int(zone[1:3]), int(zone[4:])
    if hours * 60 + minutes > 14 * 60 or minutes > 59:
        raise ValueError(f"{zone} is not a zone")
    return datetime.timedelta(hours=hours, minutes=minutes) * (-1 if zone[0] == "-" else 1)


def of_csv(period: str) -> Optional[str]:
    """Returns a period in the form of xBRL-JSON. Returns None if it is not a period of xBRL-CSV, or if it is not valid."""
    found, days = CSV.fullmatch(period), CSV_RANGE.fullmatch(period)
    try:
        if days:
            first, last = map(datetime.date.fromisoformat, days.groups())
            return ends_of(first, last + datetime.timedelta(days=1), None)
        return ends_of(*days_of(found), found["side"]) if found else None
    except (ValueError, OverflowError):
        return None


def ends_of(first: datetime.date, after: datetime.date, side: Optional[str]) -> str:
    start, end = f"{first}T00:00:00", f"{after}T00:00:00"
    return f"{start}/{end}" if side is None else start if side == "@start" else end


def days_of(found: re.Match[str]) -> tuple[datetime.date, datetime.date]:
    """Returns the first day of a period, and the day after it. Errors: ValueError, OverflowError."""
    year = int(found["year"])
    if found["day"]:
        day = datetime.date(year, int(found["month"]), int(found["day"]))
        return day, day + datetime.timedelta(days=1)
    if found["week"]:
        day = datetime.date.fromisocalendar(year, int(found["week"]), 1)
        return day, day + datetime.timedelta(days=7)
    length = next(length for part, length in (("month", 1), ("quarter", 3), ("half", 6), ("year", 12)) if found[part])
    rank = int(found["month"] or found["quarter"] or found["half"] or 1)
    months = year * 12 + (rank - 1) * length
    return day_of_month(months), day_of_month(months + length)


def day_of_month(months: int) -> datetime.date:
    """Returns the first day of a month, which is counted from the year 0."""
    return datetime.date(months // 12, months % 12 + 1, 1)


def is_date(day: str) -> bool:
    try:
        return bool(datetime.date.fromisoformat(day))
    except ValueError:
        return False


def can_be_mended(period: str) -> bool:
    """Returns whether the functions above make valid moments of all parts of a period."""
    for rewritten in (without_zero_fraction, with_time, in_utc):
        period = each_moment(period, rewritten)
    return all(is_valid(text) for text in period.split("/"))


def is_valid(text: str) -> bool:
    """Returns whether a text is a moment with a time, without a fraction and a zone."""
    moment = MOMENT.fullmatch(text)
    if not moment or not moment["time"] or moment["part"] or moment["zone"]:
        return False
    try:
        return bool(datetime.datetime.fromisoformat(text.replace("T24:00:00", "T00:00:00")))
    except ValueError:
        return False


def doubts(period: str, applied: Container[str]) -> Iterator[str]:
    """Yields a message for each fraction, time zone and missing time in a period, and for a period of xBRL-CSV. `xbrlmerge` refuses
    all four. A message names the option that may help, unless its rule is among those applied."""
    if of_csv(period) and not MOMENT.fullmatch(period):
        yield "it is a period of xBRL-CSV (--dates=csv)"
    for moment in map(MOMENT.fullmatch, period.split("/")):
        if moment and moment["part"]:
            yield "it has a fraction of a second"
        if moment and moment["zone"]:
            yield "it has a time zone" + " (--zones=utc)" * ("zones" not in applied)
        if moment and not moment["time"]:
            yield "it has a date without a time" + " (--dates=xbrl21)" * ("dates" not in applied)
