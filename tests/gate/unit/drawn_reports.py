"""Draws tidy reports, which xbrlmerge accepts, and untidy ones, which it must accept once normalised with all lossy options."""
import json

SHEET = {
    "namespaces": {"eg": "http://example.org/t"},
    "concepts": {"eg:A": "numeric", "eg:B": "numeric", "eg:Q": "name", "eg:S": "text", "eg:T": "text"},
    "dimensions": {"eg:Reg": "explicit", "eg:Sku": "typed"},
    "xbrlmerge:sets": ["eg:S"],
}
OPTIONS = """--drop-links --drop-notes --drop-unknown --dates=xbrl21 --zones=utc --drop-null --drop-misplaced --drop-unknown-members
--scale=ix --document-type""".split()
URIS = {"eg": "http://example.org/t", "x": "http://example.org/u", "xbrl": "https://xbrl.org/2021"}
T, U, V = ("http://example.org/t", "http://example.org/u", "http://example.org/v")
# for each part of a map: what is replaced, and choices for what replaces it
MAP = {"namespaces": {U: (T, V), V: (U, V)}, "concepts": {f"{{{T}}}B": (f"{{{T}}}A", f"{{{V}}}A"), f"{{{T}}}Z": (f"{{{T}}}A",)},
       "entities": {f"{{{U}}}529900 ": (f"{{{U}}}1", f"{{{V}}}a:b")}, "members": {f"{{{T}}}North": (f"{{{T}}}South", f"{{{U}}}x")},
       "units": {f"{{{U}}}a": ({"unit": f"{{{U}}}z", "scale": 3}, {"unit": f"{{{U}}}b", "scale": -2}, {"unit": f"{{{V}}}b"}, 7)}}
MOMENTS = "2023-01-01T00:00:00 2023-12-31T24:00:00 2024-01-01T00:00:00 9999-12-31T23:59:59".split()
NAMES = ["http://example.org/t#B http://example.org/t#C", "", "http://example.org/t#C"]
TIDY = {
    "A": ['"1"', '"100.50"', '"-0.0"', '"+7"', "null", '"999999999999999999"'],
    "B": ['"5"', '".5"', '"5."'],
    "Q": ['"eg:North"', '"x:Q"', "null"],
    "S": [*map(json.dumps, NAMES), "null"],
    "T": ['" a "', '"1E5"', '"eg:B eg:A"', '"<p>\\u00e4 &amp;</p>"', '""', '"2023-12-31T00:00:00.000Z"'],
}
UNTIDY = {
    "A": ['"1E-7"', "1.25e6", '" 12 "', "12.50", "true", '"INF"', '"1E30"', '"1,5"', "-0", "[]", '"0E9"', "1e400"],
    "B": ["3", '"\\t4\\n"', "{}"],
    "Q": ['" eg:North"', '"q:A"', "5", '"North"'],
    "S": ['"eg:C eg:B"', '"  eg:B\\n"', '"eg:B eg:B"', '"q:B eg:B"', '"http://example.org/t#C eg:B"', "false"],
    "T": ["12", "false", '"x"', "{}"],
    "Z": ['"1"', "null"],
}
PERIODS = """2023-12-31 2023-12-31Z 2023-12-31+01:00 2023-12-31T00:00:00.000 2023-12-31T00:00:00.500Z 2023-12-31T24:00:00-05:00
0001-01-01T00:00:00+14:00 9999-12-31T24:00:00Z 2023-02-30 2023-12-31T24:00:01+01:00 2023 2023-12-31T00:00:00+15:00""".split()


def drawn_period(chance, moments):
    first = chance.choice(moments)
    return first if chance.random() < 0.5 else chance.choice(("/", "/", "/ ")).join((first, chance.choice(moments)))


def tidy_dimensions(chance, concept):
    made = {"concept": f"eg:{concept}", "entity": "x:529900 ", "eg:Reg": "eg:North", "eg:Sku": " a b "}
    made["eg:Sku"] = chance.choice([" a b ", None, "5"])
    made["period"] = chance.choice([MOMENTS[0], "/".join(sorted(chance.sample(MOMENTS, 2)))])
    made.update({"unit": "(x:b*x:a)/eg:c"} if concept in "AB" else {"language": "en-GB"})
    return {key: made[key] for key in made if key == "concept" or chance.random() < 0.5}


def untidy_dimensions(chance, concept):
    made = tidy_dimensions(chance, concept)
    odd = {"period": drawn_period(chance, PERIODS + MOMENTS), "entity": " x:1 ", "unit": " x:a / ( x:b * x:c )", "language": " en"}
    odd |= {"eg:Reg": chance.choice([None, " eg:North ", 5]), "eg:Sku": chance.choice([5, True]), "eg:Colour": "red", "colour": "red"}
    odd |= {"noteId": "n", "x:concept": "eg:A"}
    made |= {key: odd[key] for key in odd if chance.random() < (0.05 if key[0] in "xnc" or key == "eg:Colour" else 0.25)}
    if chance.random() < 0.3:
        made = {f"xbrl:{key}" if ":" not in key and key != "colour" else key: made[key] for key in made}
    return made


def fact_text(members):
    """Returns the JSON text of an object, from the JSON texts of its values."""
    return "{%s}" % ",".join(f"{json.dumps(key)}:{value}" for key, value in members.items())


def tidy(chance):
    facts = {}
    for number in range(chance.randrange(6)):
        concept = chance.choice("ABQST")
        members = {"value": chance.choice(TIDY[concept]), "dimensions": json.dumps(tidy_dimensions(chance, concept))}
        members |= {"decimals": str(chance.randint(-18, 18))} if concept in "AB" and chance.random() < 0.6 else {}
        members |= {"links": "{}"} if chance.random() < 0.2 else {}
        facts[f"f{number}"] = fact_text(members | ({"x:own": '{"a":1.0}'} if chance.random() < 0.2 else {}))
    return report(facts, {}, " ")


def untidy(chance):
    facts = {}
    for number in range(chance.randrange(1, 8)):
        concept = chance.choice("ABQSTZ")
        values = UNTIDY[concept] + TIDY.get(concept, [])
        members = {"value": chance.choice(values), "dimensions": json.dumps(untidy_dimensions(chance, concept))}
        if chance.random() < 0.5:
            members["decimals"] = chance.choice(['"2"', '"INF"', "null", '" -3 "', "2.0", '"+4"', "40", '"two"', "2.5", '"007"'])
        odd = {"id": '"7"', "links": '{"a":{"b":["f1"]}}', "x:own": "1", "source": "null"}
        members |= {key: odd[key] for key in odd if chance.random() < 0.15}
        facts[f"f{number}"] = fact_text(members) if chance.random() < 0.97 else "null"
    return report(facts, {"generator": '"x 1.0"', "@context": "{}"}, "\n\t")


def report(facts, members, space):
    information = {"documentType": '"https://xbrl.org/2021/xbrl-json"', "namespaces": json.dumps(URIS), **members}
    return space + fact_text({"documentInfo": fact_text(information), "facts": fact_text(facts)}) + space


def roughened(chance, text):
    """Returns a tidy report as other tools might spell it, with the same meaning."""
    tree = json.loads(text)
    facts = {}
    for name, fact in tree["facts"].items():
        members = {key: json.dumps(value) for key, value in fact.items()}
        members["dimensions"] = json.dumps(rough_dimensions(chance, fact["dimensions"]))
        kind = SHEET["concepts"][fact["dimensions"]["concept"]]
        if kind != "text" and fact["value"] is not None:
            form = chance.choice(["{}", " {}\n"])  # a name may stand there, but no drawn name ends with a digit
            members["value"] = json.dumps(form.format(fact["value"] + "E0" * (fact["value"][-1].isdigit() and chance.random() < 0.4)))
        if "decimals" in fact:
            members["decimals"] = chance.choice(["{}", '"{}"', '" {}"', "{}.0"]).format(fact["decimals"])
        elif chance.random() < 0.3:
            members["decimals"] = '"INF"'
        facts[name] = fact_text(members | ({"id": '"7"'} if chance.random() < 0.3 else {}))
    return report(facts, {"id": '"x"'}, "\n")


def rough_dimensions(chance, dimensions):
    made = {}
    for key, member in dimensions.items():
        if key == "period":
            member = "/".join(moment + chance.choice(["", ".000"]) for moment in member.split("/"))
        if key in ("concept", "period", "unit", "language", "eg:Reg") and chance.random() < 0.3:
            member = f" {member}\t"
        made[f"xbrl:{key}" if ":" not in key and chance.random() < 0.3 else key] = member
    return made


RESERVED = [f"http://www.xbrl.org/{it}" for it in ("2003/iso4217", "2003/instance", "2009/utr")]
PREFIXES = ["eg", "toy-1.x", "iso4217", "utr", "n2", "xbrl", "xs", "\u00e9"]  # some are reserved for other namespaces


def for_others(chance):
    """Returns the texts of a sheet and of tidy reports that the standards allow, some in namespaces with reserved prefixes."""
    uris = {U: chance.choice([U, *RESERVED]), T: chance.choice([T, T, V, RESERVED[0]])}
    texts = [json.dumps(SHEET).replace('"eg', f'"{chance.choice(PREFIXES)}')]
    for _ in range(chance.randrange(1, 4)):
        tree = json.loads(tidy(chance))
        tree["documentInfo"]["taxonomy"] = chance.choice([[], ["http://x.example/t.xsd", "b.xsd"]])
        for fact in tree["facts"].values():
            if fact["dimensions"]["concept"] == "eg:Q":
                fact["dimensions"].pop("language", None)
        texts.append(json.dumps(tree))
    for old, new in uris.items():
        texts = [text.replace(old, new) for text in texts]
    return texts[0], texts[1:]
