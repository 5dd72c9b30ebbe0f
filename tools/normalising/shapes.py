"""The rules for facts whose members are in other places, or have other names, than xBRL-JSON defines."""
import argparse
import re
from decimal import Decimal, InvalidOperation
from typing import Callable, Optional

from names import SPACE, XBRL, Name, Uris, expanded
from normalising.changes import Part
from normalising.json_text import Number, Tree, is_text
from normalising.spellings import SCIENTIFIC, plain_number, whole_number

CORE = ("concept", "entity", "period", "unit", "language", "noteId")
MEANING = {*CORE, "periodStart", "periodEnd", "precision", "scale", "sign"}  # unknown members of a fact with rules of their own
PLAIN = re.compile(r"[+-]?(\d+(\.\d*)?|\.\d+)", re.ASCII)
PURE = Name("http://www.xbrl.org/2003/instance", "pure")


def core_spelling(key: str, uris: Uris) -> Optional[str]:
    """Returns the local part of a name in the namespace XBRL, or None. The prefix `xbrl` means XBRL unless it is bound."""
    prefix, colon, local = key.partition(":")
    return local if colon and uris.get(prefix, XBRL if prefix == "xbrl" else None) == XBRL else None


def move_flat(fact: Part, uris: Uris, is_dimension: Callable[[str], bool]) -> None:
    """Moves core dimensions beside `dimensions` into it. Then a member with a colon moves too, unless `dimensions` is there and
    the sheet does not list the member: the fact does not have the form in which it would be an extension."""
    names = {key: core_spelling(key, uris) or key for key in fact.members}
    flat = [key for key, name in names.items() if name in CORE or name in ("periodStart", "periodEnd")]
    is_bare, dimensions = "dimensions" not in fact.members, fact.members.get("dimensions", {})
    if not flat or not isinstance(dimensions, dict):
        return
    if is_bare:
        fact.add("dimensions", dimensions, "flat-dimensions")
    to = Part(dimensions, (*fact.path, "dimensions"), fact.log)
    for key, name in names.items():
        if key in flat or ":" in key and (is_bare or is_dimension(key)):
            fact.move(key, to, name, "flat-dimensions")


def join_period(part: Part) -> None:
    ends = [part.get(key) for key in ("periodStart", "periodEnd")]
    if all(map(is_text, ends)) and all(ends) and "period" not in part.members:
        part.remove("periodStart", "period-parts")
        part.remove("periodEnd", "period-parts")
        part.add("period", "/".join(ends), "period-parts")


def drop_empty(part: Part) -> None:
    for key in CORE[1:]:
        if key in part.members and part.get(key) in (None, ""):
            part.remove(key, "drop-null", True)


def drop_misplaced(dimensions: Part, fact: Part, kind: Optional[str], uris: Uris, options: argparse.Namespace) -> None:
    """Drops what a concept of this kind cannot have, and the unit `pure` without a prefix. Without the option, leaves it."""
    unit, why, decimals = dimensions.get("unit"), f"the concept is {kind}", fact.get("decimals")
    has_decimals = isinstance(decimals, str) and whole_number(decimals) is not None
    found = [(dimensions, "unit", why)] * (kind in ("text", "name") and expanded(unit, uris) == PURE)
    found += [(dimensions, "unit", "it has no prefix")] * (unit == "pure")
    found += [(dimensions, "language", why)] * (kind == "numeric" and "language" in dimensions.members)
    found += [(fact, "decimals", why)] * (kind in ("text", "name") and has_decimals)
    for part, key, why in found:
        if options.drop_misplaced:
            part.remove(key, "drop-misplaced", True)
        else:
            part.leave(key, f"{why} (--drop-misplaced)")


def drop_empty_links(fact: Part) -> None:
    """Removes links that name no fact."""
    if "links" in fact.members and fact.get("links") != {} and has_no_target(fact.get("links")):
        fact.remove("links", "empty-links")


def has_no_target(links: Tree) -> bool:
    groups = links.values() if isinstance(links, dict) else [links]
    return all(group is None or group == [] or isinstance(group, dict) and has_no_target(group) for group in groups)


def apply_scale(fact: Part, options: argparse.Namespace) -> None:
    """With --scale=ix, applies `scale` and `sign` to a value as Inline XBRL does. A scale of 0 is always removed."""
    given = [key for key in ("scale", "sign") if key in fact.members]
    scale = fact.members.get("scale", "0")
    power = whole_number(scale) if isinstance(scale, str) else None
    if power == "0" and "scale" in given:
        given.remove("scale")
        fact.remove("scale", "scale")
    made = scaled(fact.get("value"), power, fact.get("sign")) if given else None
    if given and options.scale and made is not None:
        fact.change("value", made, "scale", True)
    for key in given:
        if options.scale and made is not None:
            fact.remove(key, "scale", True)
        else:
            fact.leave(key, "it cannot be applied to this value" if options.scale else "it may change the value (--scale=ix)")


def scaled(value: Tree, power: Optional[str], sign: Tree) -> Optional[str]:
    """Returns the product of a value and a power of ten, with a sign. Returns None if it has too many digits, or two signs."""
    number = SCIENTIFIC.fullmatch(f"{value}e{power}") if isinstance(value, str) and power and sign in (None, "-") else None
    plain = plain_number(number) if number else None
    return None if plain is None or sign and plain.startswith("-") else (sign or "") + plain


def infer_decimals(fact: Part) -> None:
    """Replaces the precision of a number, unless 0, by decimals, as XBRL 2.1 infers them (4.6.6). A zero is exact."""
    given, value = fact.get("precision"), fact.get("value")
    if "precision" not in fact.members:
        return
    text = given.strip() if isinstance(given, str) else ""
    digits, number = whole_number(text) if text != "INF" else "INF", number_of(value)
    if "decimals" in fact.members or digits is None or digits != "INF" and (int(digits) <= 0 or number is None and value is not None):
        fact.leave("precision", "no decimals can be inferred from it and the value")
        return
    fact.remove("precision", "precision")
    if number and digits != "INF":
        fact.add("decimals", Number(int(digits) - number.adjusted() - 1), "precision")


def number_of(value: Tree) -> Optional[Decimal]:
    text = value.strip(SPACE) if isinstance(value, str) else ""
    try:
        return Decimal(text) if PLAIN.fullmatch(text) or SCIENTIFIC.fullmatch(text) else None
    except InvalidOperation:  # the exponent is too large
        return None
