#!/usr/bin/env python3
"""Checks one run of xbrlmerge: a second opinion that shares no code with it.

    tools/recheck --sheet SHEET --merged MERGED [OPTION ..] REPORT ..

MERGED is the output of `xbrlmerge merge`. --verdicts and --sources name the output of these commands in --format, --refusals what
one of the three printed on standard error, and --status the status of `merge`. --allow is as for `merge`: if a row exceeds the
level, MERGED is empty, and the refusals end with `too loose: row N`. Name the reports in the order of that run.

The first place that differs in each text is printed, then which texts were compared. The last line has the counts, and `agree` if
nothing differs. --explain also prints a row of the merged report: its facts with their intervals, and at most 1,000 pairs of them.

Some URLs are not judged. Such a reference may have given any one reference of MERGED, and such a URL causes a refusal only if
--refusals says so. Both are listed, the last line ends with `agree, except what is taken on trust (N)`, and the status is 1 unless
you pass --trust references. This program follows docs/FORMAT.md, which has a sentence for each rule, in the order of that page.

Status 0: all given texts agree. 1: something differs, or is taken on trust. 2: invalid arguments. 3: not done, as standard error shows.
"""
from __future__ import annotations

import argparse
import gc
import itertools
import json
import os
import re
import signal
import sys
from datetime import datetime, timedelta
from fractions import Fraction
from pathlib import Path
from typing import Any, Callable, Iterable, Iterator, Mapping, NamedTuple, NoReturn, Optional, Sequence
from urllib.parse import quote

try:
    from commands import VERSION
except ImportError:  # this file also runs alone
    VERSION = "of an unknown version"

Tree = Any  # a JSON value: a dict, list, str, int, float, bool or None
Name = Any  # a URI and a local part, or a scheme and an identifier; for a text that denotes none, the condition 12, 13 or 14
Sheet = Mapping[str, Mapping[Name, str]]  # the kinds of the concepts and of the dimensions
COMMAND = "xbrlmerge-recheck" if Path(__file__).resolve().parent.name == "xbrlmerge_tools" else "tools/recheck"
OWN_NAME, TEXTS = os.path.basename(COMMAND), ("merged", "verdicts", "sources", "refusals")

# ---- Accepted or refused
class Refused(Exception):
    """The number and the name of a refusal, and its place."""

class RefusedOnTrust(Refused):
    """A refusal that only --refusals shows, because a URL is not judged."""

def read_report(content: bytes, sheet: Sheet, told: int = 0) -> tuple[dict[str, Fact], list[str], list[tuple[int, str]]]:
    """Returns the facts of a report by identifier, its references as they are kept, and the URLs that are not judged. `told` is the number of
    its refusal in --refusals if that is 6 or 7, otherwise 0. Errors: Refused, for NotJson, the lowest condition of the document, that of
    the first faulty fact, or DisallowedDuplicates."""
    tree = read_json(content, " at document")
    info, objects = at(tree, "documentInfo"), sorted(members(at(tree, "facts")).items())  # texts sort as their UTF-8 bytes do
    (kept, refused, unjudged), uris = read_urls(info), members(at(info, "namespaces"))
    on_trust = told not in refused and any(number == told for number, _ in unjudged)
    conditions = [*document_conditions(tree), *((number, True) for number in refused), (told, on_trust)]
    refuse_lowest(conditions, " at document", told * on_trust)
    facts = {own: read_fact(fact, uris, sheet, f" at fact {place}") for place, (own, fact) in enumerate(objects, 1)}
    declared = ["all", *declared_levels(info)][-1]
    refuse_lowest([(31, RANKS.index(level_of(facts.values())) > RANKS.index(declared))], " at document")
    return facts, kept, unjudged

def refuse_lowest(conditions: Iterable[tuple[int, bool]], where: str, on_trust: int = 0) -> None:
    """Takes the numbers of conditions, and whether they apply. Errors: Refused, with the lowest number that applies."""
    number = min((number for number, applies in conditions if applies), default=0)
    if number:
        raise (RefusedOnTrust if number == on_trust else Refused)(f"{number} {REASONS[number]}{where}")

# ---- Conditions
REASONS = """OutOfMemory NotJson MemberForm UnknownMember DocumentType Namespace BaseUrl TaxonomyUrl Feature Links Notes
    DimensionsMissing NameForm UnboundPrefix ReservedNamespace MissingConcept UnknownConcept UnknownDimension DimensionValue
    PeriodForm PeriodOrder UnitForm UnitOnOther LanguageForm LanguageOnNumeric ValueForm NumberForm NumberDigits DecimalsForm
    DecimalsRange DecimalsOnOther DisallowedDuplicates SheetKind""".split()
DOCUMENT_KEYS, FACT_KEYS = ("documentInfo", "facts"), ("value", "decimals", "dimensions", "links")
INFORMATION_KEYS = ("documentType", "namespaces", "taxonomy", "baseURL", "features", "linkTypes", "linkGroups")
CORE_TEXTS, MISFIT = ("concept", "entity", "period", "unit", "language"), (3, "")

def document_conditions(tree: Tree) -> list[tuple[int, bool]]:
    """Returns all conditions of a document but 6 and 7."""
    info = at(tree, "documentInfo")
    namespaces, features, levels = at(info, "namespaces", {}), at(info, "features", {}), declared_levels(info)
    return [
        (2, are_no_objects(tree, info, namespaces, features, at(tree, "facts", {})) or not isinstance(at(info, "taxonomy", []), list)),
        (3, has_unknown(tree, DOCUMENT_KEYS) or has_unknown(info, INFORMATION_KEYS)),
        (4, at(info, "documentType") != DOCUMENT_TYPE),
        (5, binds_nothing(namespaces)),
        (8, len(levels) > 1 or any(level not in RANKS for level in levels)),
    ]

def read_fact(fact: Tree, uris: Mapping[str, str], sheet: Sheet, where: str) -> Fact:
    """Returns the fact that an object denotes. Errors: Refused."""
    given, decimals = members(at(fact, "dimensions")), at(fact, "decimals")
    texts = {key: text for key, text in given.items() if isinstance(text, str)}
    concept = read_name(texts["concept"], uris) if "concept" in texts else None
    kind = sheet["concepts"].get(concept)
    entity = tuple(read_name(texts[key], uris, ENTITY) for key in texts if key == "entity")
    period, period_fault = read_period(texts["period"]) if "period" in texts else (FOREVER, 0)
    sides = texts["unit"].split("/") if UNIT.fullmatch(texts.get("unit", "")) else []
    unit = tuple(tuple(read_name(piece, uris) for piece in side.strip("()").split("*")) for side in sides)
    language = tuple(texts[key].lower() for key in texts if key == "language")
    axes = {key: read_name(key, uris) for key in given if ":" in key}
    defined = [(axis, read_member(sheet["dimensions"].get(axis), given[key], uris)) for key, axis in axes.items()]
    value, value_fault = read_value(kind, at(fact, "value"), decimals, uris)
    names = [concept, *entity, *itertools.chain(*unit), *axes.values(), *(content for _, (_, content) in defined)]
    refuse_lowest([
        (2, are_no_objects(fact, at(fact, "dimensions", {}), at(fact, "links", {})) or "value" not in fact),
        (2, any(key in given and key not in texts for key in CORE_TEXTS)),
        (3, has_unknown(fact, FACT_KEYS) or has_unknown(given, (*CORE_TEXTS, "noteId"))),
        (9, bool(members(at(fact, "links")))),
        (10, "noteId" in given),
        (11, isinstance(fact, dict) and "dimensions" not in fact),
        *((condition, condition in names) for condition in (12, 13, 14)),
        (15, isinstance(at(fact, "dimensions"), dict) and "concept" not in given),
        (16, isinstance(concept, tuple) and kind is None),
        (17, any(isinstance(axis, tuple) and axis not in sheet["dimensions"] for axis in axes.values())),
        (18, any(member == MISFIT for _, member in defined) or len({*axes.values()}) < len(axes)),
        (period_fault, period_fault > 0),  # 19 or 20
        (21, "unit" in texts and not unit),
        (22, "unit" in given and kind in ("text", "name")),
        (23, "language" in texts and not LANGUAGE.fullmatch(texts["language"])),
        (24, "language" in given and kind == "numeric"),
        (value_fault, value_fault > 0),  # 25, 26 or 27; for a name 12, 13 or 14
        (28, "decimals" in members(fact) and type(decimals) is not int),  # `true` is an int of another type
        (29, type(decimals) is int and not -18 <= decimals <= 18),
        (30, "decimals" in members(fact) and kind in ("text", "name")),
    ], where)
    unit = tuple(tuple(sorted(side)) for side in unit)
    return (concept, entity, period, () if unit == PURE else unit, language, tuple(sorted(defined))), value

# ---- What each member means
class Value(NamedTuple):
    """A value. Values sort by kind, content and decimals: finite ones, (0, decimals), before those of an exact number, (1, 0)."""
    kind: int  # 0 nil, 1 number, 2 text, 3 name
    content: Any = None
    decimals: tuple[int, int] = (1, 0)
    low: Fraction = Fraction()  # the ends of a number's interval
    high: Fraction = Fraction()

# The dimensions of a fact, and its value. The dimensions are the concept, entity, period, unit, language, and the taxonomy-defined
# dimensions with their members. An absent entity, unit or language is an empty tuple, which sorts first.
Fact = tuple["tuple[Any, ...]", Value]

def read_member(kind: Optional[str], member: Tree, uris: Mapping[str, str]) -> tuple[int, Any]:
    """Returns a member of a dimension: nil (0, ""), a text (1, text) or a name (2, name). Members sort in this order."""
    if kind == "explicit":
        return (2, read_name(member, uris)) if isinstance(member, str) else MISFIT
    return (1, member) if isinstance(member, str) else (0, "") if member is None else MISFIT

def read_value(kind: Optional[str], value: Tree, decimals: Tree, uris: Mapping[str, str]) -> tuple[Value, int]:
    """Returns a value, as the kind of the concept requires, and the condition that applies, or 0."""
    if not isinstance(value, str):
        return Value(0), 0 if value is None else 25
    if kind == "name":
        name = read_name(value, uris)
        return Value(3, name), name if isinstance(name, int) else 0
    if kind != "numeric":
        return Value(2, value), 0
    number, fault = read_number(value)
    places = decimals if type(decimals) is int and -18 <= decimals <= 18 else None
    half = Fraction() if places is None else Fraction(10) ** -places / 2
    return Value(1, number, (1, 0) if places is None else (0, places), number - half, number + half), fault

# ---- JSON
TOKEN = re.compile(r'"[^"\\]*(?:\\.[^"\\]*)*"|[][{}]', re.DOTALL)

def read_json(content: bytes, where: str) -> Tree:
    """Returns the JSON value of a file. If an object repeats a key, the last value counts. Errors: Refused."""
    try:
        text, depth = content[3 * content.startswith(b"\xef\xbb\xbf"):].decode(), 0
        tree = json.loads(text, parse_int=read_digits, parse_float=read_digits, parse_constant=read_digits)
        for token in TOKEN.findall(text):
            depth += (token in "[{") - (token in "]}")
            if depth > 127 or "\\u" in token and not json.loads(token).encode():  # `encode` fails for half of a surrogate pair
                raise ValueError
        return tree
    except (ValueError, RecursionError):
        raise Refused(f"1 NotJson{where}") from None

def read_digits(text: str) -> Any:
    """Returns an integer of at most 64 bits as an int, and any other number, such as -0, as a float. Errors: ValueError."""
    if re.fullmatch("-?[0-9]{1,20}", text) and text != "-0" and -(1 << 63) <= int(text) < 1 << 64:
        return int(text)
    if not -sys.float_info.max <= float(text) <= sys.float_info.max:
        raise ValueError  # NaN, an infinity, or a number too large for binary64
    return float(text)

def members(tree: Tree) -> dict[str, Tree]:
    return tree if isinstance(tree, dict) else {}

def at(tree: Tree, key: str, usual: Tree = None) -> Tree:
    return members(tree).get(key, usual)

def are_no_objects(*trees: Tree) -> bool:
    return not all(isinstance(tree, dict) for tree in trees)

def has_unknown(tree: Tree, known: Sequence[str]) -> bool:
    return any(":" not in key and key not in known for key in members(tree))

# ---- Outside the facts
DOCUMENT_TYPE, XBRL = "https://xbrl.org/2021/xbrl-json", "https://xbrl.org/2021"

def binds_nothing(namespaces: Tree) -> bool:
    return any(not PART.fullmatch(prefix) or not isinstance(uri, str) or not uri for prefix, uri in members(namespaces).items())

def declared_levels(info: Tree) -> list[Tree]:
    """Returns the values of the features `allowedDuplicates` with a prefix that is bound to xBRL's own namespace."""
    keys = {f"{prefix}:allowedDuplicates" for prefix, uri in members(at(info, "namespaces")).items() if uri == XBRL}
    return [level for key, level in members(at(info, "features")).items() if key in keys]

# ---- URLs
PORTS, SPECIAL = {"http": "80", "https": "443"}, ("ftp", "file", "ws", "wss")  # the default ports, and the other special schemes
HOST = re.compile(r"(?:[a-z0-9]+(?:-[a-z0-9]+)*\.)*[a-z][a-z0-9]*(?:-[a-z0-9]+)*", re.IGNORECASE | re.ASCII)
SCHEME, AUTHORITY = re.compile("([A-Za-z][A-Za-z0-9+.-]*):"), re.compile("/*([^/?#]*)(.*)", re.DOTALL)
REST = re.compile(r"([^?#]*)((?:\?[^#]*)?)((?:#.*)?)", re.DOTALL)  # the path, the query, and the fragment
ENCODED, ESCAPED = re.compile("[\x00-\x20\"<>\x7f-\U0010ffff]+"), re.compile("%([0-7][0-9A-Fa-f])")
NOT_JUDGED, EDGES = re.compile(r"[][\\^`{|}']"), "".join(map(chr, range(33)))

class NotJudged(Exception):
    """The rules below do not cover a URL."""

# the scheme, the host with its port unless that is the default one, the path, the query with its ?, and the fragment with its #
Url = tuple[str, str, str, str, str]
UNKNOWN = ("", "", "", "", "")

def read_urls(info: Tree) -> tuple[list[str], list[int], list[tuple[int, str]]]:
    """Returns the references as they are kept, each condition 6 or 7 that applies, and each that may apply, with the URL."""
    kept, refused, unjudged = [], [], []
    references, base = at(info, "taxonomy"), UNKNOWN if "baseURL" in members(info) else None
    given = [(6, at(info, "baseURL"))] * (base is not None) + [(7, url) for url in (references if isinstance(references, list) else [])]
    for condition, url in given:
        try:
            read: Any = (absolute_url(*split_scheme(url)) if condition == 6 else kept_text(url, base)) if is_short(url) else None
            if read is None or condition == 7 and not is_short(read):
                refused.append(condition)
            elif condition == 7:
                kept.append(read)
            base = read if condition == 6 else base
        except NotJudged:
            unjudged.append((condition, url))
    return kept, refused, unjudged

def is_short(url: Tree) -> bool:
    return isinstance(url, str) and len(url.encode()) <= 65_536

def split_scheme(text: str) -> tuple[str, str]:
    text = re.sub("[\t\n\r]", "", text.strip(EDGES))
    scheme = SCHEME.match(text)
    return (scheme[1].lower(), text[scheme.end():]) if scheme else ("", text)

def kept_text(reference: str, base: Optional[Url]) -> Optional[str]:
    """Returns the kept text of a reference, or None if condition 7 applies. Errors: NotJudged."""
    scheme, rest = split_scheme(reference)
    if scheme not in PORTS and (base is None or scheme and scheme not in SPECIAL and not rest.startswith("//")):
        return reference
    if scheme not in PORTS and (scheme or base == UNKNOWN):
        raise NotJudged
    url = absolute_url(scheme, rest) if scheme else relative_url(rest, base or UNKNOWN)
    if url is None and base and scheme and not rest.startswith("//"):
        raise NotJudged
    if url is None:
        return None if base else reference
    return f"{url[0]}://{url[1]}" + ENCODED.sub(lambda found: quote(found[0]), "".join(url[2:]))

def absolute_url(scheme: str, rest: str) -> Optional[Url]:
    """Returns the http or https URL with this text after the colon, or None if there is none. Errors: NotJudged."""
    if scheme not in PORTS:
        return None
    authority, rest = AUTHORITY.findall(rest)[0]
    host, _, port = authority.partition(":")
    host, port = ESCAPED.sub(lambda found: chr(int(found[1], 16)), host), port.lstrip("0") or port[:1]
    if "@" in authority or NOT_JUDGED.search(authority + rest):
        raise NotJudged
    if not host or not re.fullmatch("[0-9]{0,5}", port) or int(port or 0) > 65_535:
        return None
    if not HOST.fullmatch(host):
        raise NotJudged
    path, query, fragment = REST.findall(rest)[0]
    return scheme, host.lower() + f":{port}" * (port not in ("", PORTS[scheme])), without_dots(path[1:].split("/")), query, fragment

def relative_url(text: str, base: Url) -> Optional[Url]:
    """Returns the URL that a text without a scheme denotes. Errors: NotJudged."""
    if text.startswith("//"):
        return absolute_url(base[0], text)
    if NOT_JUDGED.search(text):
        raise NotJudged
    path, query, fragment = REST.findall(text)[0]
    segments = path[1:].split("/") if path.startswith("/") else [*base[2][1:].split("/")[:-1], *path.split("/")]
    return base[0], base[1], without_dots(segments) if path else base[2], query if path or query else base[3], fragment

def without_dots(segments: Sequence[str]) -> str:  # the path
    kept: list[str] = []
    for number, segment in enumerate(segments, 1):
        dots = segment.lower().replace("%2e", ".")
        if dots == "..":
            del kept[-1:]
        kept += [segment] if dots not in (".", "..") else [""] * (number == len(segments))
    return "".join(f"/{segment}" for segment in kept)

# ---- Names
PART = re.compile(r"[^ \t\r\n:]+")
NAME, ENTITY = re.compile(rf"({PART.pattern}):({PART.pattern})"), re.compile(rf"({PART.pattern}):(.+)", re.DOTALL)

def read_name(text: str, uris: Mapping[str, str], form: re.Pattern[str] = NAME) -> Name:
    parts = form.fullmatch(text)
    uri = uris.get(parts[1]) if parts else None
    return 12 if not parts else 13 if not isinstance(uri, str) else 14 if uri == XBRL else (uri, parts[2])

# ---- Periods, units and languages
MOMENT = re.compile(r"(\d{4}-\d\d-\d\dT)(24:00:00|\d\d:\d\d:\d\d)", re.ASCII)
PIECES = r"[^()*/]+(?:\*[^()*/]+)*"
UNIT = re.compile(rf"(?:{PIECES}|\({PIECES}\))(?:/(?:{PIECES}|\({PIECES}\)))?")
LANGUAGE = re.compile(r"[A-Za-z]{1,8}(?:-[A-Za-z0-9]{1,8})*")
FOREVER, PURE = (0,), ((("http://www.xbrl.org/2003/instance", "pure"),),)

def read_period(text: str) -> tuple[tuple[Any, ...], int]:
    """Returns a period, and the condition that applies, or 0. Instants (1, moment) sort before durations (2, start, end)."""
    start, end = (read_moment(part) for part in (text.split("/", 1) * 2)[:2])  # a single date-time is both ends
    if start is None or end is None:
        return FOREVER, 19
    return (1, start) if start == end else (2, start, end), 20 if end < start else 0

def read_moment(text: str) -> Optional[datetime]:
    parts = MOMENT.fullmatch(text)
    is_next = parts is not None and parts[2] == "24:00:00"  # the end of the day is the beginning of the next one
    try:
        return datetime.fromisoformat(parts[1] + "00:00:00" if is_next else text) + timedelta(days=is_next) if parts else None
    except (ValueError, OverflowError):  # no such date or time, or not in the years 0001 to 9999
        return None

# ---- Numbers
NUMBER = re.compile(r"([+-]?)([0-9]*)(?:\.([0-9]*))?")

def read_number(text: str) -> tuple[Fraction, int]:
    """Returns the number that a text denotes, and the condition that applies, or 0."""
    parts = NUMBER.fullmatch(text)
    if not parts or not (parts[2] or parts[3]):
        return Fraction(0), 26
    whole, fraction = parts[2].lstrip("0"), (parts[3] or "").rstrip("0")
    if len(whole) + len(fraction) > 18:
        return Fraction(0), 27
    return Fraction(int(f"{parts[1]}0{whole}{fraction}"), 10 ** len(fraction)), 0

def plain(number: Fraction) -> str:
    """Returns the only text that is written for a number."""
    digits = str(int(abs(number) * 10 ** 19)).zfill(20)
    return f"{'-' * (number < 0)}{digits[:-19]}.{digits[-19:].rstrip('0')}".rstrip(".")

# ---- Duplicates
RANKS = ["none", "complete", "consistent", "all"]  # the levels

def rows_of(facts: Iterable[Fact]) -> list[list[Fact]]:
    """Returns the facts with the same dimensions together, in the order of facts."""
    return [[*row] for _, row in itertools.groupby(sorted(facts), lambda fact: fact[0])]

def level_of_row(row: Sequence[Value]) -> str:
    """Returns the strictest level that allows each pair of values. Intervals that meet in pairs have a number in common."""
    meets = all(value.kind == 1 for value in row) and max(value.low for value in row) <= min(value.high for value in row)
    return "none" if len(row) == 1 else "complete" if len({*row}) == 1 else "consistent" if meets else "all"

def level_of(facts: Iterable[Fact]) -> str:
    """Returns the strictest level that allows each pair of facts in each row."""
    return max((level_of_row([value for _, value in row]) for row in rows_of(facts)), key=RANKS.index, default="none")

# ---- The sheet
KINDS = {"concepts": ("numeric", "text", "name"), "dimensions": ("explicit", "typed")}

def read_sheet(content: bytes) -> Sheet:
    """Reads a sheet. Errors: Refused."""
    tree = read_json(content, "")
    uris, listed = members(at(tree, "namespaces")), {key: members(at(tree, key)) for key in KINDS}
    found = [{(read_name(text, uris), json.dumps(kind)) for text, kind in each.items()} for each in listed.values()]
    refuse_lowest([
        (2, are_no_objects(tree, *(at(tree, key, {}) for key in ("namespaces", *KINDS)))),
        (3, has_unknown(tree, ("namespaces", *KINDS))),
        (5, binds_nothing(uris)),
        *((condition, any(name == condition for each in found for name, _ in each)) for condition in (12, 13, 14)),
        (32, any(kind not in KINDS[key] for key, each in listed.items() for kind in each.values())),
        (32, any(len({name for name, _ in each}) < len(each) for each in found)),
    ], "")
    return {key: {read_name(text, uris): kind for text, kind in each.items()} for key, each in listed.items()}

# ---- What is written
def canonical_text(facts: Sequence[Fact], references: Iterable[str]) -> str:
    uris = sorted({uri for fact in facts for uri, _ in names_in(fact)})
    prefixes = dict(zip(uris, numbered("n", len(uris))))
    spelled: Callable[[Name], str] = lambda name: f"{prefixes[name[0]]}:{name[1]}"
    info = {"documentType": DOCUMENT_TYPE, "features": {"xbrl:allowedDuplicates": level_of(facts)}, "taxonomy": sorted(references),
            "namespaces": {**{prefix: uri for uri, prefix in prefixes.items()}, "xbrl": XBRL}}
    trees = ({"dimensions": dimensions_tree(dimensions, spelled), **value_tree(value, spelled)} for dimensions, value in facts)
    return json_text({"documentInfo": info, "facts": dict(zip(numbered("f", len(facts)), trees))}, sort_keys=True)

def names_in(fact: Fact) -> list[Name]:
    (concept, entity, _, unit, _, defined), value = fact
    named = [*(content for _, (kind, content) in defined if kind == 2), *[value.content] * (value.kind == 3)]
    return [concept, *entity, *itertools.chain(*unit), *(axis for axis, _ in defined), *named]

def dimensions_tree(dimensions: tuple[Any, ...], spelled: Callable[[Name], str]) -> dict[str, Optional[str]]:
    concept, entity, period, unit, language, defined = dimensions
    sides = ["*".join(map(spelled, side)) for side in unit]
    sides = [f"({text})" if len(side) > 1 and len(sides) > 1 else text for side, text in zip(unit, sides)]
    return {"concept": spelled(concept), **{"entity": spelled(name) for name in entity}, **{"language": text for text in language},
            **{spelled(axis): None if kind == 0 else member if kind == 1 else spelled(member) for axis, (kind, member) in defined},
            **({} if period == FOREVER else {"period": "/".join(moment.isoformat() for moment in period[1:])}),
            **({"unit": "/".join(sides)} if unit else {})}

def value_tree(value: Value, spelled: Callable[[Name], str]) -> dict[str, Any]:
    content, (is_exact, decimals) = value.content, value.decimals
    text = plain(content) if value.kind == 1 else spelled(content) if value.kind == 3 else content
    return {"value": text, **({} if is_exact else {"decimals": decimals})}

def numbered(letter: str, count: int) -> list[str]:  # all of one width
    return [f"{letter}{rank:0{len(str(count))}}" for rank in range(1, count + 1)]

def json_text(tree: Tree, sort_keys: bool = False) -> str:
    return json.dumps(tree, ensure_ascii=False, separators=(",", ":"), sort_keys=sort_keys)

# ---- Rows and printed lines
class Row(NamedTuple):
    number: int
    dimensions: tuple[Any, ...]
    values: Sequence[tuple[str, Value]]  # with the identifiers of the facts
    verdict: tuple[str, ...]  # with its evidence

def row_of(number: int, facts: Sequence[Fact], identifiers: Mapping[Fact, str]) -> Row:
    values = [(identifiers[fact], fact[1]) for fact in facts]
    least, greatest = min(values, key=lambda it: it[1].high), max(values, key=lambda it: it[1].low)  # the first of several
    level = level_of_row([value for _, value in values])
    one, other = (least, greatest) if len(values) > 1 and values[0][1].kind == values[1][1].kind == 1 else [*values, *values][:2]
    verdict = {"none": ("complete",), "consistent": ("consistent", "common", plain(greatest[1].low), plain(least[1].high)),
               "all": ("inconsistent", "apart", one[0], other[0])}[level]
    return Row(number, facts[0][0], values, verdict)

def verdict_text(form: str, row: Row) -> str:
    word, *shown = row.verdict
    if form == "lines":
        return f"{row.number} {row.values[0][0]} {row.values[-1][0]} {' '.join(row.verdict)}\n"
    dimensions, facts = dimensions_tree(row.dimensions, braced), [{"fact": own, **value_tree(value, braced)} for own, value in row.values]
    if form == "json":
        found: Tree = {"common": dict(zip(("low", "high"), shown[1:]))} if word == "consistent" else {"apart": shown[1:]}
        tree = {"row": row.number, "verdict": word, "dimensions": dimensions, "facts": facts}
        return json_text({**tree, "evidence": found} if shown else tree) + "\n"
    core = [dimensions.pop(key, None) for key in CORE_TEXTS]
    defined, ends = json_text(dimensions) if dimensions else None, [*[None] * 2 * (word == "inconsistent"), *shown[1:], *[None] * 4][:4]
    return "".join(record(row.number, word, fact["fact"], *core, defined, fact["value"], "true" if fact["value"] is None else None,
                          fact.get("decimals"), *ends) for fact in facts)

def source_text(form: str, fact: str, report: int, file: str, own: str) -> str:
    tree = {"report": report, "file": file, "identifier": own, "fact": fact}
    return f"{fact} {report} {json_text(own)}\n" if form == "lines" else json_text(tree) + "\n" if form == "json" else record(*tree.values())

def braced(name: Name) -> str:
    return "{%s}%s" % name

def record(*fields: Any) -> str:
    """Returns a record of CSV (RFC 4180). A field with a comma, a quote or a line end is in quotes."""
    texts = ("" if field is None else str(field) for field in fields)
    return ",".join('"%s"' % text.replace('"', '""') if re.search('[",\r\n]', text) else text for text in texts) + "\r\n"

COLUMNS = ("row,verdict,fact,concept,entity,period,unit,language,dimensions,value,nil,decimals,common_low,common_high,apart_first,"
           "apart_second\r\n", "report,file,identifier,fact\r\n")
LOOSER: Mapping[str, Sequence[str]] = {"consistent": ["inconsistent"], "all": []}  # verdicts that exceed a level; for others, all but complete

class Run:
    """What the sheet and the reports of a run give: facts with their identifiers, rows, and the lines that are printed."""
    def __init__(self, sheet: bytes, reports: Sequence[str], told: Mapping[str, str], allow: str = "all", form: str = "lines") -> None:
        self.sheet: Sheet = {}
        self.refused: list[str] = []
        self.trusted: list[str] = []  # what is taken on trust
        accepted = []
        try:
            self.sheet = read_sheet(sheet)
        except Refused as fault:
            self.refused.append(f"sheet: {fault}\n")
        for number, path in enumerate(reports if self.sheet else [], 1):
            try:
                accepted.append((number, *read_report(Path(path).read_bytes(), self.sheet, int(told.get(str(number), 0)))))
            except Refused as fault:
                self.refused.append(f"report {number}: {fault}\n")
                self.trusted += [f"refused only on the word of --refusals: report {number}"] * isinstance(fault, RefusedOnTrust)
        self.objects = [(fact, number, own) for number, facts, _, _ in accepted for own, fact in facts.items()]
        self.unjudged = sum(condition == 7 for *_, urls in accepted for condition, _ in urls)
        unjudged = ((number, url) for number, *_, urls in accepted for _, url in urls)
        self.trusted += [f"not judged: report {number}: {url[:80]}{'..' * (len(url) > 80)}" for number, url in unjudged]
        self.references = {text for _, _, references, _ in accepted for text in references}
        self.facts = sorted({fact for fact, _, _ in self.objects})
        self.identifiers = dict(zip(self.facts, numbered("f", len(self.facts))))
        self.rows = [row_of(number, row, self.identifiers) for number, row in enumerate(rows_of(self.facts), 1)]
        self.too_loose = [row.number for row in self.rows if row.verdict[0] in LOOSER.get(allow, ["consistent", "inconsistent"])][:1]
        self.status = 3 if not self.sheet else 2 if self.too_loose else 1 if self.refused else 0
        names = [os.fsencode(path).decode(errors="replace") for path in reports]
        sources = (source_text(form, self.identifiers[fact], number, names[number - 1], own) for fact, number, own in sorted(self.objects))
        columns = COLUMNS if form == "csv" and self.sheet else ("", "")
        self.texts = {"verdicts": columns[0] + "".join(verdict_text(form, row) for row in self.rows), "sources": columns[1] + "".join(sources),
                      "refusals": "".join([*self.refused, *(f"too loose: row {number}\n" for number in self.too_loose)])}

# ---- The comparison
def differences(given: Mapping[str, bytes], run: Run) -> Iterator[str]:
    """Yields a line for the first place that differs in each text."""
    wanted = {"merged": "", **run.texts}
    if run.sheet and not run.too_loose:
        try:
            facts, references, unjudged = read_report(given["merged"], run.sheet)
        except Refused as fault:
            facts, references, unjudged = {}, [], []
            yield f"merged: it is refused: {fault}"
        said, more = {*facts.values()}, sorted({*references, *(url for _, url in unjudged)} - run.references)
        yield from [f"merged: fact {own} is in no report" for own, fact in facts.items() if fact not in run.identifiers][:1]
        yield from [f"report {number}: its fact {own} is not in the merged report" for fact, number, own in run.objects if fact not in said][:1]
        yield from [f"merged: its reference {url} is in no report" for url in more[run.unjudged:]][:1]
        wanted["merged"] = canonical_text(run.facts, run.references.union(more[:run.unjudged]))
    for name, content in given.items():
        found, text = content.decode(errors="surrogateescape"), wanted[name]
        if found != text:
            place = len(os.path.commonprefix([found, text]))
            start = max(found.rfind("\n", 0, place) + 1, place - 40)
            one, other = (each[start:place + 40].split("\n")[0] for each in (found, text))
            line, character = text.count("\n", 0, place) + 1, place - text.rfind("\n", 0, place)
            yield f"{name}: line {line}, character {character}: {one!r} should be {other!r}"

def explanation(row: Row, most: int = 1000) -> Iterator[str]:
    yield f"row {row.number}: {' '.join(row.verdict)}"
    for own, (kind, content, (is_exact, places), low, high) in row.values:
        yield f"{own}: " + ("nil" if kind == 0 else json_text(content) if kind == 2 else braced(content) if kind == 3 else
                            f"{plain(content)} with {'no' if is_exact else places} decimals, from {plain(low)} to {plain(high)}")
    for (own, one), (another, other) in itertools.islice(itertools.combinations(row.values, 2), most):
        low, high = max(one.low, other.low), min(one.high, other.high)
        yield f"{own} and {another}: " + ("apart: their values differ" if one.kind != 1 or other.kind != 1 else
                                          f"both fit from {plain(low)} to {plain(high)}" if low <= high else
                                          f"apart: {plain(high)} is less than {plain(low)}")
    pairs = len(row.values) * (len(row.values) - 1) // 2
    yield from [f"pairs not shown: {pairs - most}"] * (pairs > most)

class Parser(argparse.ArgumentParser):
    def error(self, message: str) -> NoReturn:
        self.exit(2, f"{OWN_NAME}: {json.dumps(message)[1:-1]}\n")

def parsed(words: Sequence[str]) -> tuple[Parser, argparse.Namespace]:
    parser = Parser(prog=OWN_NAME, description=(__doc__ or "").replace("tools/recheck", COMMAND), formatter_class=argparse.RawDescriptionHelpFormatter)
    for name in ("sheet", *TEXTS):
        parser.add_argument(f"--{name}", required=name in ("sheet", "merged"), metavar="FILE")
    for name, choices in {"status": [*"0123"], "allow": RANKS, "format": ["lines", "json", "csv"], "trust": ["references"]}.items():
        parser.add_argument(f"--{name}", choices=choices)
    parser.add_argument("--explain", type=int, metavar="ROW")
    parser.add_argument("--version", action="version", version=f"%(prog)s {VERSION}", help="print the version")
    parser.add_argument("reports", nargs="*", metavar="REPORT")
    end = [*words, "--"].index("--")  # all words after -- are reports
    options = parser.parse_intermixed_args(words[:end])
    options.reports += words[end + 1:]
    if "" in (*options.reports, *vars(options).values()):
        parser.error("an argument is empty")
    return parser, options

def main() -> int:
    parser, options = parsed(sys.argv[1:])
    given = {name: Path(getattr(options, name)).read_bytes() for name in TEXTS if getattr(options, name)}
    told = dict(re.findall("^report ([0-9]+): ([67]) ", given.get("refusals", b"").decode(errors="replace"), re.MULTILINE))
    run = Run(Path(options.sheet).read_bytes(), options.reports, told, options.allow or "all", options.format or "lines")
    if options.explain is not None and not 1 <= options.explain <= len(run.rows):
        parser.error(f"there is no row {options.explain}")
    found = [*differences(given, run)] + [f"status: {options.status} should be {run.status}"] * (options.status not in (None, str(run.status)))
    counts = {"report": len(options.reports), "refused report": len(run.refused) if run.sheet else 0, "fact object": len(run.objects),
              "fact": len(run.facts), "row": len(run.rows), "contradiction": sum(row.verdict[0] == "inconsistent" for row in run.rows)}
    summary = ", ".join(f"{count} {word}{'s' * (count != 1)}" for word, count in counts.items() if count or word != "refused report")
    trust = f", except what is taken on trust ({len(run.trusted)})" * bool(run.trusted)
    shown = [*found, *run.trusted, f"texts compared: {', '.join(given)}", f"{summary}: {'differ' if found else f'agree{trust}'}"]
    for line in itertools.chain(explanation(run.rows[options.explain - 1]) if options.explain else (), shown):
        print("".join(each if each.isprintable() else json.dumps(each)[1:-1] for each in line))
    return 1 if found or trust and not options.trust else 0

def sentence(fault: BaseException) -> str:
    other = {MemoryError: "out of memory", KeyboardInterrupt: "interrupted"}.get(type(fault), "a defect of this program")
    return f"{fault.filename or 'standard output'}: {fault.strerror}" if isinstance(fault, OSError) else other


if __name__ == "__main__":
    gc.disable()  # no object refers to itself, and looking for such objects takes a third of the time
    try:
        if os.environ.pop("XBRLMERGE_INTERRUPTS", ""):  # the launcher has held SIGINT back
            signal.signal(signal.SIGINT, signal.default_int_handler)
        sys.stdout = open(1, "w", closefd=False, errors="backslashreplace")  # fails if standard output is closed
        try:
            status = main()
        finally:
            sys.stdout.flush()  # also after --help
    except (Exception, KeyboardInterrupt) as fault:
        try:
            print(f"{OWN_NAME}: {json.dumps(sentence(fault))[1:-1]}", file=sys.stderr, flush=True)
        finally:
            os._exit(3)  # standard output or standard error may have failed, and would fail again
    sys.exit(status)
