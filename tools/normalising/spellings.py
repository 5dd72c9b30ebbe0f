"""The one spelling of a value, by its type in XML Schema 1.0 part 2, and exact arithmetic with powers of ten. docs/GUIDE.md has a
table of the types."""
import base64
import datetime
import re
from decimal import Decimal, InvalidOperation
from typing import Callable, Mapping, NamedTuple, Optional

from names import SPACE
from normalising.changes import Part
from normalising.json_text import Number, is_text, pointer_of
from normalising.moments import ahead
from process import NotDone

SCIENTIFIC = re.compile(r"[+-]?(?P<mantissa>\d+(\.\d*)?|\.\d+)[eE][+-]?\d+", re.ASCII)
WHOLE = re.compile(r"[+-]?\d{1,18}", re.ASCII)
PLACES = range(-18, 19)  # the decimals that the program reads
DIGITS = 18  # the most digits of a number written without its exponent, counted as in refusal 27
TOKENS = re.compile(f"[^{SPACE}]+")
INTEGER = re.compile(r"([+-]?)(\d+)", re.ASCII)
DECIMAL = re.compile(r"([+-]?)(?=\.?\d)(\d*)(?:\.(\d*))?", re.ASCII)
FLOAT = re.compile(r"[+-]?(\d+(\.\d*)?|\.\d+)([eE][+-]?\d+)?|-?INF|NaN", re.ASCII)
DURATION = re.compile(r"-?P(?=.)(\d+Y)?(\d+M)?(\d+D)?(T(?=.)(\d+H)?(\d+M)?(\d+(\.\d+)?S)?)?", re.ASCII)
LANGUAGE = re.compile(r"[a-zA-Z]{1,8}(-[a-zA-Z0-9]{1,8})*", re.ASCII)
HEX = re.compile(r"([0-9a-fA-F]{2})*", re.ASCII)
YEAR, MONTH, DAY = r"(?P<year>-?(?!0000(?!\d))(?!0\d{4})\d{4,})", r"(?P<month>\d\d)", r"(?P<day>\d\d)"
TIME, ZONE = r"(?P<time>\d\d:\d\d:\d\d)(?P<fraction>\.\d+)?", r"(?P<zone>Z|[+-]\d\d:\d\d)?"
CALENDAR = {
    "dateTime": f"{YEAR}-{MONTH}-{DAY}T{TIME}", "date": f"{YEAR}-{MONTH}-{DAY}", "time": TIME, "gYear": YEAR, "gYearMonth": f"{YEAR}-{MONTH}",
    "gMonth": f"--{MONTH}", "gMonthDay": f"--{MONTH}-{DAY}", "gDay": f"---{DAY}",
}
FORMS = {kind: re.compile(form + ZONE, re.ASCII) for kind, form in CALENDAR.items()}
ANY_DAY = {"year": "2000", "month": "01", "day": "01", "time": "00:00:00", "fraction": "", "zone": ""}  # the year 2000 has a 29 February
BOOLEANS = {"true": "true", "1": "true", "false": "false", "0": "false"}


def scale_value(fact: Part, scale: int) -> None:
    """Multiplies a value by ten to the power of `scale`. Errors: NotDone if the program cannot read the result."""
    value, decimals = fact.get("value"), fact.get("decimals")
    if value is None:
        return
    number = SCIENTIFIC.fullmatch(f"{value}e{scale}") if is_text(value) else None
    scaled = plain_number(number) if number else None
    places = int(decimals) - scale if isinstance(decimals, Number) and whole_number(decimals) == decimals else None
    if scaled is None or "decimals" in fact.members and (places is None or places not in PLACES):
        where = pointer_of((*fact.path, "value"))
        raise NotDone(f"{where} cannot be scaled by 10^{scale}: it is not a number of at most {DIGITS} digits with decimals from"
                      f" {PLACES[0]} to {PLACES[-1]} then")
    fact.change("value", scaled, "map", True)
    if places is not None:
        fact.change("decimals", Number(places), "map", True)


def whole_number(text: str) -> Optional[str]:
    """Returns the plain spelling of a whole number, or None for any other text. The number is a JSON number, such as 2.0 or
    2e3, or a text of digits with or without a sign. A text may have at most 18 digits, and white space around them. A JSON
    number may have at most 18 characters, and at most 18 digits when written without its exponent."""
    if isinstance(text, Number):
        number = Decimal(text) if len(text) <= 18 else None
        if not number:
            return None if number is None else "0"
        return str(int(number)) if abs(number.adjusted()) < 18 and number == number.to_integral_value() else None
    return str(int(text)) if WHOLE.fullmatch(text := text.strip(SPACE)) else None


def plain_number(scientific: re.Match[str]) -> Optional[str]:
    """Returns a number in scientific notation without its exponent, or None if it then has more than DIGITS digits."""
    if not scientific["mantissa"].strip("0."):
        return "0"
    try:
        number = Decimal(scientific[0])
    except InvalidOperation:  # the exponent itself is too large
        return None
    _, digits, exponent = number.as_tuple()
    counting = len(bytes(digits).rstrip(b"\0"))
    exponent = int(exponent) + len(digits) - counting
    whole, places = max(counting + exponent, 0), max(-exponent, 0)
    return format(number, "f") if whole + places <= DIGITS else None


class Spelling(NamedTuple):
    """A value in its one spelling. If it may have others, `doubt` says why."""

    text: str
    doubt: str = ""


def spelling(kind: str, text: str) -> Spelling:
    """Returns the spelling of a value of a type. Errors: ValueError if the text is not valid for the type."""
    if kind == "normalizedString":
        return Spelling(re.sub("[\t\r\n]", " ", text))
    collapsed = " ".join(TOKENS.findall(text))
    if kind == "dateUnion":
        kind = "dateTime" if "T" in collapsed else "date"
    return calendar_spelling(kind, collapsed) if kind in FORMS else SPELLINGS[kind](collapsed)


def calendar_spelling(kind: str, text: str) -> Spelling:
    """Returns the spelling of a date, a time or a part of a date. Only `datetime` computes with them."""
    found = matched(FORMS[kind], text)
    given = {**ANY_DAY, **{key: part for key, part in found.groupdict().items() if part}}
    is_far, is_end = len(given["year"]) > 4, given["time"] == "24:00:00" and not given["fraction"].strip(".0")
    year, time = "2000" if is_far else given["year"], "00:00:00" if is_end else given["time"]
    moment = datetime.datetime.fromisoformat(f"{year}-{given['month']}-{given['day']}T{time}")
    if given["zone"] not in ("", "Z"):
        ahead(given["zone"])  # raises ValueError if it is not a zone
    if given["zone"] or is_far:
        return Spelling(text, "it has a time zone" if given["zone"] else "its year is not from 0001 to 9999")
    if "time" not in found.groupdict():
        return Spelling(text)
    try:
        moment += datetime.timedelta(days=is_end)
    except OverflowError:
        return Spelling(text, "its year is not from 0001 to 9999")
    fraction = given["fraction"].rstrip("0").rstrip(".")
    return Spelling((moment.time().isoformat() if kind == "time" else moment.isoformat()) + fraction)


def matched(form: re.Pattern[str], text: str) -> re.Match[str]:
    found = form.fullmatch(text)
    if not found:
        raise ValueError(f"{text} does not have the form")
    return found


def boolean(text: str) -> Spelling:
    if text not in BOOLEANS:
        raise ValueError(f"{text} is not a boolean")
    return Spelling(BOOLEANS[text])


def integer(text: str) -> Spelling:
    sign, digits = matched(INTEGER, text).groups()
    plain = digits.lstrip("0") or "0"
    return Spelling("-" * (sign == "-" and plain != "0") + plain)


def decimal(text: str) -> Spelling:
    sign, digits, fraction = matched(DECIMAL, text).groups(default="")
    plain = f"{digits.lstrip('0') or '0'}.{fraction.rstrip('0') or '0'}"
    return Spelling("-" * (sign == "-" and plain != "0.0") + plain)


def base64_binary(text: str) -> Spelling:
    return Spelling(base64.b64encode(base64.b64decode(text.replace(" ", ""), validate=True)).decode())


def of_form(form: re.Pattern[str], doubt: str = "") -> Callable[[str], Spelling]:
    return lambda text: Spelling(matched(form, text)[0], doubt)


ANY = re.compile(".*", re.DOTALL)
SPELLINGS: Mapping[str, Callable[[str], Spelling]] = {
    "boolean": boolean, "integer": integer, "decimal": decimal, "hexBinary": lambda text: Spelling(matched(HEX, text)[0].upper()),
    "base64Binary": base64_binary, "language": of_form(LANGUAGE), "token": of_form(ANY), "QName": of_form(ANY),
    "float": of_form(FLOAT, "a float may have other spellings"), "double": of_form(FLOAT, "a double may have other spellings"),
    "duration": of_form(DURATION, "a duration has no canonical form"), "anyURI": of_form(ANY, "a URI has no canonical form"),
}
