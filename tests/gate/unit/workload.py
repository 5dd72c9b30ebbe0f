"""Makes a large merged text with contradictions, its sheet, its lines of verdicts and the texts of three providers."""
import itertools
import json
import random

import recheck
from support import write

URIS = {"n1": "http://standards.iso.org/iso/17442", "n2": "http://www.xbrl.org/2003/iso4217", "n3": "https://norlake.example/2023"}
PROVIDERS = ("issuer", "ledgerline", "statfeed")
TEXT = "The group has {} mills in {} regions, of which some were sold in the year and some are leased to others. "


def dimensions_of(chance, rank):
    """Returns the dimensions of a row. Rows of different ranks have different dimensions."""
    concept = "Text" if rank % 50 == 0 else f"Concept{chance.randrange(400):03}OfTheConsolidatedStatements"
    made = {"concept": f"n3:{concept}", "entity": f"n1:7437{rank:016}", "period": f"20{chance.randrange(10, 24)}-01-01T00:00:00"}
    if concept == "Text":
        made["language"] = "en"
    elif rank % 3:
        made["unit"] = "n2:EUR"
    if rank % 4 == 0:
        made["n3:SegmentsAxis"] = f"n3:Segment{chance.randrange(30)}Member"
    if rank % 10 == 0:
        made["n3:MillAxis"] = f"Mill {chance.randrange(90)}"
    return {key: made[key] for key in ("concept", "entity", "language", "n3:MillAxis", "n3:SegmentsAxis", "period", "unit") if key in made}


def values_of(chance, dimensions, is_apart):
    """Returns the values of a row with their decimals, nil first, then in order. If `is_apart`, some contradict others."""
    if dimensions["concept"] == "n3:Text":
        texts = sorted(TEXT.format(number, chance.randrange(99)) * 3 for number in range(2 if is_apart else 1))
        return [(text, None) for text in texts]
    base = chance.randrange(1_000_000, 900_000_000)
    if not is_apart:
        return [(str(base), -3)] if chance.random() < 0.5 else [(str(base), -3), (str(base + 400), -3)]
    values = [(str(base), -3), (str(base + chance.randrange(3_000, 90_000_000)), 0)]
    if chance.random() < 0.5:
        values.append((f"{base + 100_000_000}.25", 2))
    return ([(None, None)] if chance.random() < 0.02 else []) + values


def facts_of(contradictions):
    chance = random.Random(11)
    order = "concept entity period unit language n3:MillAxis n3:SegmentsAxis".split()
    rows = sorted((dimensions_of(chance, rank) for rank in range(contradictions * 2)), key=lambda row: [row.get(key, "") for key in order])
    apart = set(chance.sample(range(len(rows)), contradictions))
    for rank, dimensions in enumerate(rows):
        for value, decimals in values_of(chance, dimensions, rank in apart):
            yield {**({} if decimals is None else {"decimals": decimals}), "dimensions": dimensions, "value": value}


def text_of(facts):
    width = len(str(len(facts)))
    named = {f"f{rank:0{width}}": fact for rank, fact in enumerate(facts, 1)}
    information = {"documentType": "https://xbrl.org/2021/xbrl-json", "features": {"xbrl:allowedDuplicates": "all"}}
    information |= {"namespaces": {**URIS, "xbrl": "https://xbrl.org/2021"}, "taxonomy": []}
    return json.dumps({"documentInfo": information, "facts": named}, separators=(",", ":"))


def make(folder, contradictions):
    """Writes merged.json, sheet.json, verdicts.txt and a text for each provider."""
    facts = list(facts_of(contradictions))
    concepts = {fact["dimensions"]["concept"]: "numeric" for fact in facts} | {"n3:Text": "text"}
    kinds = {"namespaces": URIS, "concepts": concepts, "dimensions": {"n3:SegmentsAxis": "explicit", "n3:MillAxis": "typed"}}
    write(f"{folder}/sheet.json", json.dumps(kinds))
    write(f"{folder}/merged.json", text := text_of(facts))
    write(f"{folder}/verdicts.txt", lines(text))
    for rank, provider in enumerate(PROVIDERS):
        write(f"{folder}/{provider}.json", text_of(facts[rank :: len(PROVIDERS)]))


def value_of(fact):
    is_number = fact["value"] is not None and not recheck.read_number(fact["value"])[1]
    return recheck.read_value("numeric" if is_number else "text", fact["value"], fact.get("decimals"), {})[0]


def lines(text):
    """Returns the lines that `xbrlmerge verdicts` prints for a merged text, as tools/recheck judges its rows. A value that can be read as
    a number is one, and all others are texts: names are compared as they are spelled."""
    facts = json.loads(text)["facts"]
    made = []
    for row, (_, names) in enumerate(itertools.groupby(sorted(facts), key=lambda name: facts[name]["dimensions"]), 1):
        identifiers = {(row, value_of(facts[name])): name for name in names}
        made.append(recheck.verdict_text("lines", recheck.row_of(row, [*identifiers], identifiers)))
    return "".join(made)
