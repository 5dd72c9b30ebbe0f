"""Draws sheets, reports, schedules and hostile texts for the tests of this folder. `chance` is a random.Random. With the one of
running.py, Hypothesis draws, and makes a failing case smaller."""
import json
import re

import workload

REASONS = """NotJson MemberForm UnknownMember DocumentType Namespace BaseUrl TaxonomyUrl Feature Links Notes DimensionsMissing
    NameForm UnboundPrefix ReservedNamespace MissingConcept UnknownConcept UnknownDimension DimensionValue PeriodForm PeriodOrder
    UnitForm UnitOnOther LanguageForm LanguageOnNumeric ValueForm NumberForm NumberDigits DecimalsForm DecimalsRange
    DecimalsOnOther DisallowedDuplicates SheetKind""".split()

# ---- a base: a merged text with its verdicts and sources

URIS = {"n1": "http://made.example/2024", "n2": "http://other.example", "n3": "HTTP://other.example"}
SHEET = {"namespaces": URIS, "concepts": {"n1:A": "numeric", "n1:Q": "name", "n1:T": "text"}, "dimensions": {"n1:R": "explicit", "n1:S": "typed"}}
# texts with separators before the signs of formulas
SEPARATED = ("=1", "a;=1", "a|+1", "a\t@1", "a\r\n-1", "; \ufeff=1", "\"'=1", "a,=1", "x;\uff0b1", "\n'=1", "a;\u2003-1", "-1", "a;-1;b")


def base_facts(chance):
    """Returns the facts of a merged text: rows in order, each with one to three facts."""
    facts = []
    for concept in sorted(chance.sample("AQT", chance.randint(1, 3))):
        for period in sorted(chance.sample(["2020-01-01T00:00:00", "2020-01-02T00:00:00", "2021-01-01T00:00:00/2022-01-01T00:00:00"], 2)):
            dimensions = {"concept": f"n1:{concept}", "entity": chance.choice(("n2:e", "n3:e")), "period": period}
            dimensions |= {"n1:R": "n1:North"} if chance.random() < 0.3 else {"n1:S": chance.choice((None, "s", *SEPARATED))}
            dimensions |= {"unit": "(n1:a*n2:b)/n1:c"} if concept == "A" and chance.random() < 0.5 else {}
            facts += [{**of, "dimensions": dimensions} for of in base_values(chance, concept)]
    return facts


def base_values(chance, concept):
    if concept == "A":
        numbers = sorted(chance.sample(range(1, 100_000), chance.randint(1, 3)))
        return [{"value": str(each), "decimals": chance.randint(-3, 0)} for each in numbers]
    values = {"Q": ("n1:x", "n2:x"), "T": ("=a", "b\n", "c" * 200, "d\u202e<b>", *SEPARATED)}[concept]
    return [{"value": each} for each in chance.sample(values, chance.randint(1, 2))]


def base(chance):
    """Returns a merged text, the lines of its verdicts and the lines of its sources."""
    facts = base_facts(chance)
    names = [f"f{rank:0{len(str(len(facts)))}}" for rank in range(1, len(facts) + 1)]
    text = json.dumps({"documentInfo": {"namespaces": URIS}, "facts": dict(zip(names, facts))}, indent=chance.choice((None, None, 1)))
    sources = "".join(f'{name} {chance.randint(1, 3)} {json.dumps(chance.choice(("id ", "=", "a;@")) + name)}\n'
                      for name in names for _ in range(chance.randint(1, 2)))
    return text.encode(), workload.lines(text).encode(), sources.encode()


# ---- reports of all forms, mostly without faults

URI, OTHER, XBRL = "https://made.example/2024", "http://example.org/u", "https://xbrl.org/2021"
DOCUMENT_TYPE = f"{XBRL}/xbrl-json"
PREFIXES = {"m": URI, "made": URI, "x": OTHER, "a": "a", "xbrli": "http://www.xbrl.org/2003/instance", "xbrl": XBRL, "own": XBRL}
KINDS = {"A": "numeric", "B": "numeric", "T": "text", "Q": "name"}
DAYS = ("2023-12-31T24:00:00", "2024-01-01T00:00:00", "2023-12-31T23:59:59", "2024-02-28T24:00:00", "2024-02-29T00:00:00",
        "0001-01-01T00:00:00", "9999-12-31T23:59:59", "1969-12-31T24:00:00")
NO_DAYS = ("9999-12-31T24:00:00", "2023-02-28T24:00:01", "2023-02-29T00:00:00", "0000-12-31T24:00:00", "2023-12-31", "2023-12-31T24:00:00Z",
           "2023-12-31t00:00:00", "2023-12-31T00:60:00", "2023-12-31T25:00:00", "2023-12-31T00:00:00\n", " 2023-12-31T00:00:00", "", "/",
           "2023-12-31T00:00:00/", "2023-12-31T00:00:00/2024-01-01T00:00:00/2025-01-01T00:00:00", "\uff12023-12-31T00:00:00")
UNITS = ("x:b*x:a", "(x:a*x:b)/x:c", "x:c/(a:b*x:b)", "xbrli:pure", "(xbrli:pure)", "xbrli:pure/x:c", "xbrli:pure*xbrli:pure", "x:a/x:a",
         "made:a*m:a", "(x:a)/(x:b)")
NO_UNITS = ("", "x:a/", "/x:a", "x:a/x:b/x:c", "(x:a", "x:a)", "((x:a))", "()", "x:a**x:b", "*", "(x:a)*(x:b)", "x:a*(x:b*x:c)")
NUMBERS = ("0", "-0", "+0.00", ".5", "5.", "007", "0.1", "-12.50", "999999999999999999", "-999999999999999999", "0.000000000000000001",
           "000000000000000000000000012", "1.00000000000000000000000")
NO_NUMBERS = ("", ".", "+", "-.", "1e2", "INF", "NaN", " 1", "1 ", "1\n", "+-1", "1.2.3", "\uff11", "0x1", "1_0")
LONG_NUMBERS = ("1234567890123456789", "0.0000000000000000001", "1000000000000000000", "-123456789.1234567891")
LANGUAGES, NO_LANGUAGES = ("en", "EN-gb", "sv-FI", "zh-Hant-1", "abcdefgh"), ("", "en_GB", "abcdefghi", "1a", "en-", "-en", "en-123456789", "\u00e9")
TEXTS = ("Blue", "blue", "", " ", "a\"b\\c", "\u0001\t\n\u007f", "\u00e9", "\u2028", "\U0001f40b", "\ue000")
NAMES = ("m:North", "made:North", "x:South", "a:North", "m:\u00e9", "x:a/b", "x:\u00a0\u000b\u0085")
ENTITIES = ("x:529900:A1", "x: a\n", "m:A", "made:A", "a:\u00e9")
NO_NAMES, NO_ENTITIES = ("North", ":a", "m:", "m:a:b", "m:a b", "m :a", "", "m:\t"), ("A", ":A", "x:", " x:A", "")
WRONG = (None, True, 5, [], {}, 1.5)
WHOLE = (-18, 18, 0, 1, 2, -1)
NO_WHOLE = (None, True, "0", 1.0, [], {}, 9223372036854775807 * 4, -9223372036854775809)
FAR = (19, -19, 18446744073709551615, -9223372036854775808)
REFERENCES = ("https://made.example/a.xsd", "http://example.org/u/", "http://example.org/b.xsd?c=d#e")
DOUBTFUL = ("b.xsd", "urn:x:Y", "HTTP://X.org/b", "http://x.org", "http://x.org/a/../b", "http://x.org:80/", "http://[", "//[", "", "?q", "#f",
            "//x.org:99999/", "http://x.org/%2e/\u00e9", "../c/%2E%2e/d?e#f", "/./a", "//Y.org:0443/<", "http:/x%2eorg?", "https:", "http:b",
            "http://[::1]/", "http://u@x.org/", "http://1.2/", "http://xn--a/", "ftp://x/", "urn://x", "http://x.org/{", "\thttp://x.org/ ")


def sheet_tree(prefix="m"):
    return {"namespaces": dict(PREFIXES), "concepts": {f"{prefix}:{name}": kind for name, kind in KINDS.items()},
            "dimensions": {"m:Reg": "explicit", f"{prefix}:Sku": "typed"}}


simple_sheet = sheet_tree


def drawn_number(chance):
    """Draws a number and its decimals. Most numbers are close to each other, so that their intervals often touch."""
    if chance.random() < 0.25:
        return chance.choice(NUMBERS), chance.choice((None, *WHOLE, *range(-18, 19)))
    places = chance.choice((None, 0, 0, 1, -1, 2))
    return f"{chance.randint(98, 103)}{chance.choice(('', '.5', '.05', '.0'))}", places


def drawn_dimensions(chance, name):
    """Draws dimensions. Two facts in five have only a concept, so that many facts share their dimensions."""
    given = {"concept": f"{chance.choice(('m', 'made'))}:{name}"}
    if chance.random() < 0.4:
        return given
    if chance.random() < 0.2:
        given["entity"] = chance.choice(ENTITIES)
    if chance.random() < 0.4:
        given["period"] = chance.choice(DAYS[:3]) if chance.random() < 0.5 else "/".join(sorted(chance.sample(DAYS, 2)))
    if chance.random() < 0.2:
        given[f"{chance.choice(('m', 'made'))}:Reg"] = chance.choice(NAMES)
    if chance.random() < 0.2:
        given[f"{chance.choice(('m', 'made'))}:Sku"] = chance.choice((None, "m:North", *TEXTS))
    if chance.random() < 0.3:
        given.update({"unit": chance.choice(UNITS)} if KINDS[name] == "numeric" else {"language": chance.choice(LANGUAGES)})
    return dict(chance.sample([*given.items()], len(given)))


def drawn_fact(chance):
    name = chance.choice("AAAABTTQ")
    fact, kind = {"dimensions": drawn_dimensions(chance, name)}, KINDS[name]
    number, places = drawn_number(chance)
    texts = TEXTS[:3] if chance.random() < 0.6 else TEXTS
    value = {"numeric": number, "text": chance.choice(texts), "name": chance.choice(NAMES)}[kind]
    fact["value"] = None if chance.random() < 0.1 else value
    if kind == "numeric" and places is not None:
        fact["decimals"] = places
    if chance.random() < 0.1:
        more = {"a": 1}, {"x:a": {"b": "}],{"}, "c": {"d": [2]}}, "\\\"{", [1.5, None]
        fact.update(chance.choice(({"links": {}}, {":": "\ud83d\ude00"}, *({"x:more": each} for each in more))))
    return fact


def report_tree(chance):
    info = {"documentType": DOCUMENT_TYPE, "namespaces": dict(PREFIXES)}
    if chance.random() < 0.4:
        info["taxonomy"] = chance.choices(REFERENCES if chance.random() < 0.6 else DOUBTFUL, k=chance.randint(0, 3))
    if chance.random() < 0.2:
        info["baseURL"] = chance.choice(("http://x.org/d/r.json", "https://x.org", "HTTP://X.org/\u00e9", "http://x.org:80/a/../b?c#d", "http://1.2/"))
    if chance.random() < 0.3:
        levels = ("none", "complete", "consistent", "all", "all", "all")
        keys = ("xbrl:allowedDuplicates", "own:allowedDuplicates", "x:allowedDuplicates", "xbrl:other")
        info["features"] = {chance.choice(keys): chance.choice(levels)}
    if chance.random() < 0.1:
        info.update(chance.choice(({"linkTypes": 5}, {"linkGroups": {"a": []}}, {"x:y": None})))
    identifiers = chance.sample(("f1", "f10", "f2", "", "\u00e9", "\ue000", "\U0001f40b", "a b", "\"\\\n", "F"), chance.randint(0, 6))
    facts = {own: drawn_fact(chance) for own in identifiers}
    more = {"x:deep": nested(chance.choice((125, 126, 127)))} if chance.random() < 0.03 else {}
    if facts and chance.random() < 0.2:
        facts["again"] = chance.choice([*facts.values()])
    return {"documentInfo": info, "facts": facts, **more}


def simple_report(chance, is_refused=0, most=20):
    """Draws a report of at most `most` facts that overlap with others. `is_refused` is its fault, from 1 to 3, or 0."""
    facts = {f"{chance.randint(0, 10**9)}": drawn_fact(chance) for _ in range(chance.randint(1, most))}
    info = {"documentType": DOCUMENT_TYPE, "namespaces": dict(PREFIXES), "taxonomy": [f"{URI}/{chance.randint(0, 2)}.xsd"]}
    if is_refused == 1:
        info["namespaces"] |= {"m": f"{URI}/other", "made": f"{URI}/other"}
    elif is_refused == 2:
        next(iter(facts.values()))["decimals"] = 99
    text = json.dumps({"documentInfo": info, "facts": facts}, ensure_ascii=chance.random() < 0.5, indent=chance.choice([None, 1]))
    text = text.replace("\ud83d\ude00", "\U0001f600")
    return text[: len(text) // 2] if is_refused == 3 else text


def nested(depth):
    return [nested(depth - 1)] if depth > 1 else []


# ---- members that are faults

ABSENT = "absent"  # removes a member
LONG = "http://x.org/" + "a" * 65_523  # one byte less than a URL may have
# where a member is, its key, and values of which most are faults
DOCUMENT_FAULTS = (
    ((), "facts", (None, [], "facts")),
    ((), "documentInfo", (ABSENT, None, [])),
    ((), "more", (1,)),
    (("documentInfo",), "", (1,)),
    (("documentInfo",), "documentType", (ABSENT, "https://xbrl.org/2021/xbrl-csv", None, ["x"])),
    (("documentInfo",), "taxonomy", (None, {}, "a", *([it] for it in (*DOUBTFUL, *WRONG, "\u00e9" * 32_769, LONG, LONG + "a", LONG + "aa")))),
    (("documentInfo",), "baseURL", (*WRONG, "d/r.json", "urn:x", "ftp://x/", "http:", "", " http://x.org/", "x" * 65_537, LONG + "a")),
    (("documentInfo",), "namespaces", (None, [], 1)),
    (("documentInfo",), "features", (None, [], 1, *({"xbrl:allowedDuplicates": it} for it in (*WRONG, "some", "None", "")))),
    (("documentInfo",), "features", tuple({"own:allowedDuplicates": it} for it in ("none", "complete", "consistent"))),
    (("documentInfo",), "features", ({"xbrl:allowedDuplicates": "all", "own:allowedDuplicates": "all"},)),
    (("documentInfo", "namespaces"), "", ("http://a/",)),
    (("documentInfo", "namespaces"), "a b", ("http://a/",)),
    (("documentInfo", "namespaces"), "q", ("", None, 1, XBRL, "http://a/")),
)
FACT_FAULTS = (
    ((), "value", (ABSENT, True, 5, [], {}, 1.5)),
    *(((), "value", it) for it in (NO_NUMBERS, LONG_NUMBERS, (*NO_NAMES, "q:a", "xbrl:a"))),
    ((), "dimensions", (ABSENT, None, [], "x")),
    ((), "links", (None, [], "x", {"x:l": {}})),
    *(((), "decimals", it) for it in (NO_WHOLE, FAR, WHOLE)),
    ((), "id", (1,)),
    (("dimensions",), "more", (1,)),
    (("dimensions",), "noteId", ("n", None)),
    *((("dimensions",), "concept", it) for it in ((ABSENT,), WRONG, (*NO_NAMES, "q:A", "xbrl:note"), ("m:Z", "x:A", "m:Reg"))),
    (("dimensions",), "entity", (*WRONG, *NO_ENTITIES, "q:A", "xbrl:A")),
    (("dimensions",), "period", (*WRONG, *NO_DAYS, *(f"{DAYS[0]}/{it}" for it in (*DAYS, *NO_DAYS)))),
    (("dimensions",), "period", tuple(f"{it}/{DAYS[5]}" for it in DAYS)),
    *((("dimensions",), "unit", it) for it in (UNITS, (*WRONG, *NO_UNITS, "A", "q:a*x:b", "x:a/xbrl:b", "q:a/"))),
    *((("dimensions",), "language", it) for it in (LANGUAGES, (*WRONG, *NO_LANGUAGES))),
    (("dimensions",), "m:Reg", (*WRONG, *NO_NAMES, "q:A", "xbrl:note")),
    (("dimensions",), "m:Sku", WRONG),
    (("dimensions",), "made:Sku", ("a",)),
    *((("dimensions",), it, ("a",)) for it in ("m:Colour", "x:Reg", "m:A", "q:Reg", "xbrl:Reg", "m: x", *NO_NAMES[1:6])),
)
SHEET_FAULTS = (
    *(((), it, (ABSENT, None, [], 1)) for it in ("namespaces", "concepts", "dimensions")),
    *(((), it, (1,)) for it in ("more", "", "x:y")),
    *((("namespaces",), it, ("", None, 1, XBRL, "http://a/")) for it in ("", "a b", "a:b", "q")),
    *(((it,), key, ("numeric", "typed")) for it in ("concepts", "dimensions") for key in (*NO_NAMES, "q:A", "xbrl:A", "m:A")),
    *((("concepts",), it, (*WRONG, "number", "text", "numeric", "typed")) for it in ("m:A", "made:A", "x:A")),
    *((("dimensions",), it, (*WRONG, "text", "typed", "explicit")) for it in ("m:Reg", "made:Reg", "x:A")),
)


def with_faults(chance, tree, faults):
    """Sets one or two members of a tree, if their parents are objects."""
    for where, key, values in chance.sample(faults, chance.choice((1, 1, 2))):
        node = tree
        for each in where:
            node = node.get(each) if isinstance(node, dict) else None
        if isinstance(node, dict):
            value = chance.choice(values)
            node.pop(key, None)
            node.update({} if value == ABSENT else {key: value})
    return tree


def json_bytes(chance, tree):
    """Returns a text of a tree, perhaps with a byte order mark, a number `-0`, or a repeated member."""
    text = json.dumps(tree, ensure_ascii=chance.random() < 0.5, indent=chance.choice((None, 1)))
    if chance.random() < 0.05:
        text = text.replace('"decimals": 0', chance.choice(('"decimals": -0', '"decimals": 0.0', '"decimals": 0e0')))
    if chance.random() < 0.3:
        text = text.replace("1.5", chance.choice(("1e999", "-1e999", "NaN", "-Infinity", "1e308", "1" * 400, "0e999", "1e-999")))
    if chance.random() < 0.05:
        text = text.replace('"value"', chance.choice(('"value": "98", "value"', '"decimals": 3, "value"')), 1)
    return b"\xef\xbb\xbf" * (chance.random() < 0.05) + text.encode(errors="surrogatepass")


def good_report(number):
    """Returns a report that the sheet of sheet_bytes() accepts."""
    facts = {"f1": {"value": number, "dimensions": {"concept": "m:A", "period": DAYS[0], "m:Reg": "x:South"}, "x:e": {"a": 1}},
             "f2": {"value": "Blue \u00e9", "dimensions": {"concept": "m:T", "m:Sku": None, "language": "fi"}}}
    return json.dumps({"documentInfo": {"documentType": DOCUMENT_TYPE, "namespaces": PREFIXES}, "facts": facts}).encode()


def long_report(chance):
    """Draws a report of more than one piece: it has many facts, or many spaces after each comma."""
    tree = report_tree(chance)
    facts = [*tree["facts"].values()]
    if facts and chance.random() < 0.1:
        tree["facts"] = {f"f{n}": facts[n % len(facts)] for n in range(1_300)}
        return json.dumps(tree).encode()
    return json.dumps(tree, separators=("," + " " * 3_000, ":")).encode()


def read_whole(text):
    """Returns the report with an extension before its first member, so that it is read whole, not in pieces."""
    return b'{"x:whole":{"facts":0},' + text[1:] if text.startswith(b'{"') else text


def report_bytes(chance):
    tree, fault = report_tree(chance), chance.random()
    if fault < 0.12:
        tree = with_faults(chance, tree, DOCUMENT_FAULTS)
    elif fault < 0.35 and tree["facts"]:
        own = chance.choice([*tree["facts"]])
        tree["facts"][own] = with_faults(chance, tree["facts"][own], FACT_FAULTS) if chance.random() < 0.9 else chance.choice(WRONG)
    content = json_bytes(chance, tree)
    return broken(chance, content, content) if fault > 0.93 else content


def sheet_bytes():
    return json.dumps(sheet_tree()).encode()


def odd_sheet_bytes(chance):
    tree, fault = sheet_tree(chance.choice(("m", "made"))), chance.random()
    if fault < 0.07:
        tree = with_faults(chance, tree, SHEET_FAULTS)
    content = json_bytes(chance, tree)
    return broken(chance, content, content) if fault > 0.98 else content


# ---- hostile texts

# in order: replacements for values, replacements for numbers, escapes to insert, texts to repeat, replacements for keys
OTHER_VALUES = (b"null", b"true", b"[]", b"{}", b"7", b'""', b'" "', b'":"', b'"m:"', b'"q:A"', b'"m:A"', b'"m:T"',
                b'"xbrl:note"', b'"none"', b'"complete"', b'"numeric"', b'"text"', b'"1e2"', b'"1234567890123456789"',
                b'"https://xbrl.org/2021"', b'"2020-12-31"', b'"2021-01-01T00:00:00/2020-01-01T00:00:00"', b'"x:a/"',
                b'"en_GB"', b'"http://["', b'"//"')
NUMERALS = (b"-0", b"00", b"+1", b"1.", b".5", b"0.5", b"1e999", b"-1e-999", b"1E2", b"NaN", b"-", b"18", b"-18", b"19", b"-19",
           b"9223372036854775808", b"18446744073709551615", b"18446744073709551616", b"1" * 400)
ESCAPES = (rb"\u0000", rb"\ud800", rb"\udc00\ud800", rb"\ud83d\ude00", rb"\q", rb"\u12", rb"\u", b"\\", b'\\"', b"\x00", b"\x1f",
           b"\xff", b"\xc0\x80", b"\xed\xa0\x80", b"\xf4\x90\x80\x80", b"\xef\xbb\xbf", b"\xc2\x85")
RUNS = (b"[", b"{", b'{"a:b":', b"]}", b'"', b"\\", b"9", b"a", b" ", b"\n", b"\x00", b"\xff", b",", b"take 1 1\n")
KEYS = (b"documentInfo", b"namespaces", b"facts", b"value", b"decimals", b"dimensions", b"concept", b"entity", b"period", b"unit",
        b"language", b"noteId", b"links", b"features", b"taxonomy", b"baseURL", b"m:Reg", b"m:Sku", b"x:y",
        b"xbrl:allowedDuplicates")
# replacements for an attribute's value, a name or a piece of text
XML_PIECES = (b"", b"<", b">", b"/>", b"&lt;", b"&x;", b"<!DOCTYPE a>", b"<!--", b"]]>", b"<![CDATA[", b"xs:", b"m:", b"q:A", b"\x00",
              b"\xff", b"\xef\xbb\xbf", b"../", b"/etc/passwd", b"file:///dev/zero", b"http://made.example/xbrl/", b"#", b"%00",
              b"xbrli:item", b"xbrli:QNameItemType", b"xs:anyType", URIS["n1"].encode(), b"https://xbrl.org/2021", b"true")
XML_RUNS = (b"<a>", b"<xs:element>", b'<xs:element name="a">', b" ", b"\n", b"A", b"&amp;", b"../", b'<xs:include schemaLocation="a"/>')
LINES = (b"complete", b"consistent common 1 2", b"inconsistent apart f1 f2", b"f1", b"99", b'"a"', b'"\\ud800"', b"-1", b"NaN", b"1e999999")


def events(chance):
    lines, sent = [], 0
    for _ in range(chance.randint(0, 8)):
        one, other = chance.randint(1, 2), chance.randint(1, 2)
        word = chance.choice(("take", "join", "send", "restart") + ("receive",) * bool(sent))
        sent += word == "send"
        last = {"take": f" {other}", "join": f" {other}", "receive": f" {sent}"}.get(word, "")
        lines.append(f"{word} {one}{last}\n")
    return "".join(lines).encode()


def stretch(chance, text):
    """Draws the start and the end of a part of a text."""
    start = chance.randint(0, len(text))
    return start, min(len(text), start + chance.choice((1, 1, 2, 5, 20, 100)))


def cut(chance, text, _):
    start, end = stretch(chance, text)
    return text[:start] if chance.random() < 0.3 else text[:start] + text[end:]


def doubled(chance, text, _):
    start, end = stretch(chance, text)
    return text[:end] + text[start:end] * chance.choice((1, 1, 2, 40)) + text[end:]


def flipped(chance, text, _):
    start, end = stretch(chance, text)
    byte = bytes([text[start] ^ 1 << chance.randint(0, 7)]) if start < end else b"\x00"
    return text[:start] + byte + text[start + 1:]


def swapped(chance, text, _):
    (start, middle), other = stretch(chance, text), chance.randint(0, 30)
    return text[:start] + text[middle:middle + other] + text[start:middle] + text[middle + other:]


def reordered(chance, text, _):
    lines = text.splitlines(keepends=True)
    return b"".join(chance.sample(lines, len(lines)))


def spliced(chance, text, other):
    return text[:chance.randint(0, len(text))] + other[chance.randint(0, len(other)):]


def replacing(pattern, choices):
    """Returns a function that replaces a part of a text by one of the choices. The part matches the pattern or, if no part matches,
    is drawn."""
    def replaced(chance, text, _):
        found = list(re.finditer(pattern, text))
        start, end = chance.choice(found).span() if found else stretch(chance, text)
        return text[:start] + chance.choice(choices) + text[end:]

    return replaced


def repeating(runs, counts):
    """Returns a function that replaces a drawn part of a text by one of the texts to repeat."""
    def overrun(chance, text, _):
        start, end = stretch(chance, text)
        return text[:start] + chance.choice(runs) * chance.choice(counts) + text[end:]

    return overrun


renumbered = replacing(rb"-?\d+(?:\.\d+)?", NUMERALS)
escaped = replacing(rb'(?<=[\w:.-])(?=[\w:."])', ESCAPES)
retyped = replacing(rb'(?<=[:,\[])(?:"[^"\\]*"(?!:)|\{[^{}]*\}|\[[^][]*\]|null|-?\d+)', OTHER_VALUES)
renamed = replacing(rb'(?<=")[\w:]+(?=":)', KEYS)
overrun = repeating(RUNS, (2, 126, 127, 128, 5_000, 70_000))
BREAKS = (cut, doubled, flipped, swapped, reordered, spliced, renumbered, escaped, retyped, retyped, renamed, renamed, overrun)


def broken(chance, text, other, breaks=BREAKS):
    """Breaks a text up to three times."""
    for _ in range(chance.choice((1, 1, 1, 2, 3))):
        text = chance.choice(breaks)(chance, text, other)
    return text


def perhaps_broken(chance, text, other, breaks):
    return broken(chance, text, other, breaks) if chance.randrange(6) else text


# a member whose value is a text, an integer, a boolean or null
dropped = replacing(rb'"[\w:]+": ?(?:"[^"\\]*"|null|true|false|-?\d+)(?:, ?)?', (b"",))
# an attribute's value, a name or a piece of text
split_at_tags = replacing(rb'(?<=")[^"<>]*(?=")|(?<=[</ ])[\w:]+|(?<=>)[^<]*(?=<)', XML_PIECES)
overrun_by_tags, reworded = repeating(XML_RUNS, (2, 200, 5_000, 30_000)), replacing(rb"\S+", LINES)
JSON_BREAKS = (*BREAKS, dropped, dropped, dropped)
XML_BREAKS = (split_at_tags, split_at_tags, split_at_tags, overrun_by_tags, *BREAKS[:6])
LINE_BREAKS = (reworded, reworded, reordered, renumbered, *BREAKS[:6], overrun)
