"""Tests of tools/respell: the respelled text, its round trip, refusals, and faults that --check must find. Each line of the table
"Differences from the standards" in docs/FORMAT.md has a report that shows the difference."""
import argparse
import copy
import json
import os
import random
import re
import unittest

import drawn_reports
import in_process
import recheck
import respell
from normalising.json_text import Repeated, text_of, tree_of
from normalising.rules import Normaliser, add_losses
from respelling.checking import Checker
from respelling.rules import RULES
from sheets import Sheet

EXAMPLES = os.path.join(in_process.TOP, "examples")
INSTANCE, MONEY, TOY, OTHER = "http://www.xbrl.org/2003/instance", "http://www.xbrl.org/2003/iso4217", "http://toy.example", "http://a.example"
SHEET = {"namespaces": {"toy": TOY, "o": OTHER}, "xbrlmerge:sets": ["toy:S"],
         "concepts": {"toy:A": "numeric", "toy:Q": "name", "toy:S": "text", "toy:T": "text"},
         "dimensions": {"toy:Reg": "explicit", "toy:Sku": "typed"}}
# a report, what its merge becomes, and a report without faults, in which others are planted: the rule that must be told, the place of
# the fault, and what stands there, or nothing
REPORT, RESPELLED, SOUND, PLANTED = json.loads(in_process.content("tests/gate/unit/respell.json")).values()


def merged(sheet, texts):
    """Returns the canonical text of reports, as tools/recheck writes it."""
    listed, facts, references = recheck.read_sheet(sheet.encode()), set(), set()
    for text in texts:
        read, more, _ = recheck.read_report(text.encode(), listed)
        facts, references = facts.union(read.values()), references.union(more)
    return recheck.canonical_text(sorted(facts), references)


def normalised(sheet, text):
    tree, parser = tree_of(text, ""), argparse.ArgumentParser()
    add_losses(parser, "losses")
    Normaliser(Sheet(json.loads(sheet)), parser.parse_args([])).normalise(tree, len(text))
    return text_of(tree)


class ToolTest(in_process.RoomTest):
    def respelled(self, sheet, text, *options, status=0):
        """Respells a text, which must end with this status. Returns the new text and the lines on standard error."""
        words = [self.write("sheet.json", sheet), self.write("merged.json", text), self.path_of("out.json")]
        found, lines = in_process.run(respell, "--sheet", *words, *options)
        self.assertEqual(found, status, lines)
        return in_process.content(words[2]) if os.path.exists(words[2]) else None, lines

    def check(self, text, sheet=None):
        """Returns the status and the lines of --check."""
        words = ["--sheet", self.write("sheet.json", sheet)] if sheet else []
        status, errors, out = in_process.run_whole(respell, "--check", self.write("report.json", text), *words)
        self.assertEqual(errors, "")
        return status, out.decode().splitlines()


class Respelled(ToolTest):
    def test_an_expected_text(self):
        text, lines = self.respelled(json.dumps(SHEET), merged(json.dumps(SHEET), [json.dumps(REPORT)]))
        self.assertEqual((text, lines), (json.dumps(RESPELLED, ensure_ascii=False, indent=2) + "\n", ""))
        text = json.dumps(REPORT).replace("m:EUR*b:t", "i:z*m:EUR")  # measures are in the order of their texts
        self.assertIn('"(iso4217:EUR*xbrli:z)/xbrli:shares"', self.respelled(json.dumps(SHEET), merged(json.dumps(SHEET), [text]))[0])

    def test_round_trips(self):
        """The examples, and drawn bases. tests/program/test_round_trips.py has more, with the program."""
        examples = [(in_process.content(f"{EXAMPLES}/sheet.json"), [in_process.content(f"{EXAMPLES}/merged.json")])]
        for sheet, reports in examples + [drawn_reports.for_others(random.Random(seed)) for seed in range(30)]:
            text = merged(sheet, reports)
            references = json.loads(text)["documentInfo"]["taxonomy"]
            options = [] if references else ["--taxonomy", "http://x.example/t.xsd"]
            for option in ([], ["--compact"]):
                made, _ = self.respelled(sheet, text, *options, *option, status=0 if references else 1)
                self.assertEqual(self.check(made, sheet), (0, ["0 faults"]))
                again = json.loads(merged(sheet, [normalised(sheet, made)]))
                again["documentInfo"]["taxonomy"] = references
                self.assertEqual(recheck.json_text(again), text)

    def test_what_is_told_of_the_taxonomy(self):
        sheet, empty = json.dumps(SHEET), merged(json.dumps(SHEET), [])
        self.assertIn("is empty", self.respelled(sheet, empty, status=1)[1])
        text, lines = self.respelled(sheet, empty, "--taxonomy", "u:1", "--taxonomy", "u:2", status=1)
        self.assertEqual((json.loads(text)["documentInfo"]["taxonomy"], "are added" in lines), (["u:1", "u:2"], True))
        text = merged(sheet, [json.dumps(REPORT)])
        self.assertIn("not used", self.respelled(sheet, text, "--taxonomy", "u:1", status=1)[1])

    def test_refusals(self):
        """Each ends with one sentence, and nothing is written."""
        sheet = json.dumps(SHEET)
        text, sets = merged(sheet, [json.dumps(REPORT)]), f"{OTHER}#C {TOY}#B {TOY}/x#D"
        cases = {"": "NotJson", "<x/>": "XML", "[]": "MemberForm", "\ufeff" + text: "merge", text + "\n": "merge", sheet: "MemberForm",
                 text.replace('"n2:A"', '"q:A"'): "UnboundPrefix at fact 1", json.dumps(REPORT): "merge it first"}
        for items in ("b:C", "C", f"{TOY}#B {OTHER}#C", f"{OTHER}#C  {TOY}#B", f"{OTHER}#C {OTHER}#C", "#C", f"{OTHER}#", f"{OTHER}#a:b"):
            cases[text.replace(sets, items)] = "set of the fact f3"
        for bad, wanted in cases.items():
            text, lines = self.respelled(sheet, bad, status=3)
            self.assertEqual((text, lines.count("\n"), wanted in lines), (None, 1, True), lines)
        self.assertIn("no.json", in_process.run(respell, "--sheet", self.path_of("sheet.json"), self.path_of("no.json"), "-")[1])

    def test_streams_and_usage(self):
        sheet = self.write("sheet.json", json.dumps(SHEET))
        path = self.write("merged.json", merged(json.dumps(SHEET), [json.dumps(REPORT)]))
        status, _, out = in_process.run_whole(respell, "--sheet", sheet, path, "-")
        self.assertEqual((status, json.loads(out)), (0, RESPELLED))
        wrong = ([path], [path, "out"], ["--sheet", sheet, path], ["--sheet", sheet, path, path], ["--check"], ["--check", "--rules"],
                 ["--check", "--compact", path], ["--rules", path], ["--sheet", "-", "-", "out"], ["--sheet", sheet, path, "out", "--taxonomy", ""])
        for words in wrong:
            self.assertEqual(in_process.run(respell, *words)[0], 2, words)
        self.assertEqual(len(in_process.run_whole(respell, "--rules")[2].splitlines()), len(RULES))


def planted(place, *what):
    tree = copy.deepcopy(SOUND)
    *way, key = place.split("/")
    part = tree
    for each in way:
        part = part[each]
    if what:
        part[int(key) if isinstance(part, list) else key] = what[0]
    else:
        del part[key]
    if key == "again":
        tree["facts"]["q"]["dimensions"]["again:Reg"] = "toy:N"
    return json.dumps(tree)


class Checked(ToolTest):
    def test_a_report_without_faults(self):
        self.assertEqual(self.check(json.dumps(SOUND), json.dumps(SHEET)), (0, ["0 faults; 2 facts not compared as duplicates"]))
        self.assertEqual(self.check(json.dumps(SOUND)), (0, ["0 faults; 10 rules not judged without a sheet"]))

    def test_each_planted_fault_is_found(self):
        self.assertGreaterEqual(len(PLANTED), 60)
        self.assertEqual({rule for rule, *_ in PLANTED} | {"repeated-member"}, {*RULES})
        for rule, place, *what in PLANTED:
            status, lines = self.check(planted(place, *what), json.dumps(SHEET))
            self.assertEqual((status, rule in [line.split()[0] for line in lines]), (1, True), (place, what, lines))

    def test_a_line_has_the_rule_the_place_and_what_to_do(self):
        _, lines = self.check(planted("facts/t/dimensions/language", "en-GB"))
        self.assertEqual(lines[0], "language-case xbrlje:invalidLanguageCodeCase at /facts/t/dimensions/language: write the language in lower case")

    def test_repeated_members_and_what_is_no_json(self):
        status, lines = self.check('{"documentInfo":{},"facts":{"a":1,"a":2}}')
        self.assertEqual((status, lines[0].startswith("repeated-member xbrlje:invalidJSON at /facts/a: "), len(lines)), (1, True, 2))
        for text in ("", "{", "<x/>"):
            status, lines = in_process.run(respell, "--check", self.write("report.json", text))
            self.assertEqual((status, lines.count("\n")), (3, 1))


TEXT = json.dumps({
    "documentInfo": {"documentType": recheck.DOCUMENT_TYPE, "taxonomy": ["t.xsd"],
                     "namespaces": {"toy": TOY, "iso4217": MONEY, "xbrli": "http://www.xbrl.org/2003/instance", "xbrl": "https://xbrl.org/2021"}},
    "facts": {"a": {"value": "1", "dimensions": {"concept": "toy:A"}}, "b": {"value": "toy:C", "dimensions": {"concept": "toy:Q"}}},
}, separators=(",", ":"))


def with_info(text):
    return TEXT.replace('"documentInfo":{', f'"documentInfo":{{{text},')


def of(value, concept="A", members="", **dimensions):
    """Returns a report with one fact, or with several facts of several values or dimensions."""
    facts = []
    for each in value if isinstance(value, tuple) else (value,):
        for dimension in dimensions.get("each", [{}]):
            given = {"concept": f"toy:{concept}", **{key: it for key, it in dimensions.items() if key != "each"}, **dimension}
            facts.append(f'"f{len(facts)}":{{"value":{json.dumps(each)},"dimensions":{json.dumps(given)}{members}}}')
    return TEXT.replace(TEXT[TEXT.index('"facts"'):-1], f'"facts":{{{",".join(facts)}}}')


# the start of a line of the table, and the reports that show it
ROWS = {
    "Members may be repeated": [TEXT.replace('"facts":', '"facts":{},"facts":')],
    "`taxonomy`, `namespaces` and `facts`": [TEXT.replace('"taxonomy":["t.xsd"],', "")],
    "`taxonomy` may be empty": [TEXT.replace('"t.xsd"', "")],
    "Prefixes of extensions": [with_info('"q:x":1')],
    "Any prefix may have any URI": [TEXT.replace("iso4217\":", "n1\":"), TEXT.replace(MONEY, "u:1")],
    "A byte order mark": ["\ufeff" + TEXT],
    "`xbrli:pure` alone": [of("1", unit="xbrli:pure")],
    "Measures have any order": [of("1", unit="toy:b*toy:a"), of("1", unit="(toy:a)/toy:b")],
    "Languages may have upper case": [of("x", "T", language="en-GB")],
    "Decimals of nil facts": [of(None, members=',"decimals":0')],
    "Names, dates and booleans": [of("toy:C", "Q", language="en"), of("true", "B", language="en")],
    "A period may have equal ends": [of("1", period="2020-12-31T24:00:00/2021-01-01T00:00:00")],
    "Names and prefixes": [of("1", "1"), with_info('"features":{}').replace('"toy":', '"1":"u:1","toy":')],
    "Period types, units by type": [of("1", each=[{"period": "2020-01-01T00:00:00"}, {"unit": "toy:x"}])],
    "Canonical values": [with_info('"features":{"xbrl:canonicalValues":true}').replace('"1"', '"01.0"')],
    "Links and notes": [of("1", members=',"links":{"l":{"g":["f0"]}}').replace('"taxonomy"', '"linkTypes":{"l":"u:1"},"linkGroups":{"g":"u:2"},"taxonomy"'),
                        of("x", "T", noteId="f0", language="en").replace("toy:T", "xbrl:note")],
    "Only names in the sheet": [of("1", "Z"), of("1", **{"toy:Z": "x"})],
    "Numbers have at most 18 digits": [of("1" * 19)],
    "Exponents, `INF` and `NaN`": [of("1E3"), of("INF"), of("NaN")],
    "White space around numbers": [of(" toy:C", "Q"), of(" 1 ")],
    "Decimals go from -18 to 18": [of("1", members=',"decimals":19')],
    "Time zones and fractions": [of("1", period="2020-01-01T00:00:00Z"), of("1", period="2020-01-01T00:00:00.5")],
    "A `baseURL`": [with_info('"baseURL":"urn:x"')],
    "Typed members": [of("1", each=[{"toy:Sku": "1"}, {"toy:Sku": "01"}])],
    "Entity identifiers": [of("1", each=[{"entity": "toy:1"}, {"entity": "toy:1 "}])],
    "Booleans, dates, tokens": [of(("1", "true"), "T"), of(("<p/>", "<p></p>"), "T"), of(("a b", "a  b"), "T")],
    "A default member": [of("1", each=[{}, {"toy:Reg": "toy:Total"}])],
    "Filers who truncate": [of(("1.99", "1.9")).replace('"1.9",', '"1.9","decimals":1,')],
    "Several languages": [of("x", "T", each=[{"language": "en"}, {"language": "fr"}])],
}


LISTED = Sheet({**SHEET, "concepts": {**SHEET["concepts"], "toy:1": "numeric", "toy:B": "text"}, "xbrlmerge:types": {"boolean": ["toy:B"]}})


def outcome(text):
    """Returns the number of the refusal, or the level of the facts of an accepted report."""
    try:
        facts, _, _ = recheck.read_report(text.encode(), {"concepts": LISTED.concepts, "dimensions": LISTED.dimensions}, 6)
        return recheck.level_of(facts.values())
    except recheck.Refused as fault:
        return str(fault).split()[0]


def rules_of(text, sheet):
    """Returns the rules that --check tells."""
    checker = Checker(sheet)
    try:
        checker.check(tree_of(text.lstrip("\ufeff"), ""))
    except Repeated:
        return {"repeated-member"}
    return {line.split()[0] for line in checker.lines}


class Differences(unittest.TestCase):
    def test_each_line_of_the_table(self):
        """A test in the last column is a set of rules, of which --check finds one in an accepted report; or it is what becomes of a
        report in which --check finds nothing."""
        page = in_process.content("docs/FORMAT.md").partition("## Differences from the standards\n")[2].partition("\n## ")[0]
        lines = [[cell.strip() for cell in line.strip("|").split(" | ")] for line in page.splitlines() if line.startswith("| ")][1:]
        self.assertEqual(len(lines), len(ROWS))
        for (start, reports), (here, *_, test) in zip(ROWS.items(), lines):
            self.assertEqual(here[:len(start)], start)
            wanted = {*re.findall(r"[\w-]+", test)}
            is_accepted = bool(wanted & {*RULES, "accepted"})
            for report in reports:
                found, rules = outcome(report), rules_of(report, LISTED if wanted <= {*RULES} else None)
                self.assertIn(found, recheck.RANKS if is_accepted else wanted, (here, report))
                self.assertTrue(rules & wanted if wanted <= {*RULES} else not rules, (here, rules, report))
