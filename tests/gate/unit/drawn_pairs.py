"""Draws pairs of reports whose facts spell values of types, names and sets in different ways, with different prefixes. Facts of one
entity are a pair. Values are drawn first and then spelled, so whether two facts are equal does not depend on any tool."""
import datetime
import json
from decimal import Decimal

TYPES = ("boolean", "date", "dateTime", "time", "gYear", "gMonthDay", "integer", "decimal", "token", "normalizedString", "language", "hexBinary")
SPACED = {"normalizedString"}  # types in which white space counts
SHEET = {
    "namespaces": {"t": "http://t.example"},
    "concepts": {"t:set": "text", "t:name": "name", "t:number": "numeric", **{f"t:{each}": "text" for each in TYPES}},
    "dimensions": {"t:member": "explicit", **{f"t:{each}Axis": "typed" for each in TYPES}},
    "xbrlmerge:sets": ["t:set"],
    "xbrlmerge:types": {each: [f"t:{each}", f"t:{each}Axis"] for each in TYPES},
}
URIS = ("http://a.example", "http://b.example/x#y", "urn:c")
INFORMATION = {"documentType": "https://xbrl.org/2021/xbrl-json"}
MOMENTS = [datetime.datetime(2024, 1, 1) + datetime.timedelta(minutes=720 * step) for step in range(3)]


def drawn_value(chance, kind):
    """Returns a value from a small pool, so that two values are often equal."""
    if kind in ("set", "name", "member"):
        names = [(uri, local) for uri in URIS for local in "AB"]
        return frozenset(chance.sample(names, chance.randrange(4))) if kind == "set" else chance.choice(names[:4])
    pools = {"boolean": (True, False), "date": MOMENTS, "dateTime": MOMENTS, "time": MOMENTS[:2], "gYear": (2023, 1, 9999), "gMonthDay": MOMENTS,
             "integer": (0, 7, -7, 10**20), "decimal": (Decimal(0), Decimal("1.5"), Decimal(-20)), "number": (Decimal(0), Decimal("1.5"), Decimal(-20)),
             "token": (("a", "b"), ("ab",), ("a", "b", "c"), ()), "normalizedString": ("a b", " a b", "a  b"), "language": ("en", "fi-FI"),
             "hexBinary": (b"", b"\x0a", b"\xff\x0a")}
    value = chance.choice(pools[kind])
    return value.date() if kind == "date" else value.time() if kind == "time" else (value.month, value.day) if kind == "gMonthDay" else value


def spelled(chance, kind, value, uris):
    """Returns a spelling of a value. `uris` are those of the report by prefix."""
    if kind == "set":
        items = [spelled_name(chance, name, uris, chance.random() < 0.3) for name in chance.sample(sorted(value), len(value))]
        return spaced(chance, chance.choice((" ", "\n", "  ")).join(items))
    if kind in ("name", "member"):
        return spaced(chance, spelled_name(chance, value, uris, chance.random() < 0.2))
    text = SPELLINGS[kind](chance, value)
    return text if kind in SPACED else spaced(chance, text)


def spelled_name(chance, name, uris, is_whole):
    prefix = chance.choice([prefix for prefix, uri in uris.items() if uri == name[0]])
    return f"{name[0]}#{name[1]}" if is_whole else f"{prefix}:{name[1]}"


def spaced(chance, text):
    return chance.choice(("", " ", "\t\n")) + text + chance.choice(("", "", " "))


def fraction(chance):
    return chance.choice(("", ".0", ".000"))


def spelled_moment(chance, value):
    if value.hour == 0 and chance.random() < 0.5:
        return f"{value - datetime.timedelta(days=1):%Y-%m-%d}T24:00:00{fraction(chance)}"
    return value.isoformat() + fraction(chance)


def spelled_decimal(chance, value):
    text = chance.choice(("", "0", "00")) + format(abs(value), "f")
    return "-" * (value < 0) + (text if "." not in text else text + "0" * chance.randrange(3))


SPELLINGS = {
    "boolean": lambda chance, value: chance.choice(("true", "1") if value else ("false", "0")),
    "date": lambda _, value: value.isoformat(), "dateTime": spelled_moment,
    "time": lambda chance, value: (chance.choice(("24:00:00", "00:00:00")) if value.hour == 0 else value.isoformat()) + fraction(chance),
    "gYear": lambda _, value: f"{value:04}", "gMonthDay": lambda _, value: "--{:02}-{:02}".format(*value),
    "integer": lambda chance, value: ("-" if value < 0 else chance.choice(("", "+"))) + "0" * chance.randrange(3) + str(abs(value)),
    "decimal": spelled_decimal, "number": spelled_decimal,
    "token": lambda chance, value: chance.choice((" ", "\t", "  ")).join(value),
    "normalizedString": lambda chance, value: "".join(chance.choice(" \t\n") if sign == " " else sign for sign in value),
    "language": lambda _, value: value,
    "hexBinary": lambda chance, value: "".join(chance.choice((digit, digit.upper())) for digit in value.hex()),
}


def drawn_uris(chance):
    """Returns bindings in which a prefix may mean one namespace in one report, and another one in the other."""
    prefixes = chance.sample(["a", "b", "c", "x"], 3)
    return {"t": "http://t.example", "e": "http://e.example", **dict(zip(prefixes, URIS))}


def drawn_fact(chance, entity, kind, is_axis, value, uris):
    text = spelled(chance, kind, value, uris)
    concept = "number" if is_axis else kind
    dimensions = {"concept": f"t:{concept}", "entity": f"e:{entity}", **({f"t:{kind}{'Axis' * (kind != 'member')}": text} if is_axis else {})}
    return {"value": "1" if is_axis else text, "dimensions": dimensions}


def drawn_pairs(chance, count):
    """Returns two reports, and for each entity, from 0, whether its two facts are equal."""
    bindings, facts, are_equal = [drawn_uris(chance), drawn_uris(chance)], ({}, {}), []
    for entity in range(count):
        kind = chance.choice((*TYPES, "set", "set", "set", "name", "member", "number"))
        is_axis = kind == "member" or kind in TYPES and chance.random() < 0.4
        values = [drawn_value(chance, kind), drawn_value(chance, kind)]
        values[1] = values[chance.randrange(2)]
        are_equal.append(values[0] == values[1])
        for own, value, uris in zip(facts, values, bindings):
            own[f"f{entity}"] = drawn_fact(chance, entity, kind, is_axis, value, uris)
    reports = [json.dumps({"documentInfo": {**INFORMATION, "namespaces": uris}, "facts": own}) for uris, own in zip(bindings, facts)]
    return reports, are_equal
