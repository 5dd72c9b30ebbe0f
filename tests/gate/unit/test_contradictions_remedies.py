"""Tests of the options that tools/contradictions names for faults: each must mend its fault."""
import argparse
import json

import in_process
from contradicting.refusals import Refusals
from contradicting.remedies import EMPTY, FOR_NAMES, NUMBER, remedy_for
from names import Name
from normalising.json_text import Number
from normalising.rules import CHOICES, LOSSES, Normaliser
from sheets import sheet_at

SHEET = {"namespaces": {"eg": "http://example.org/t"}, "concepts": {"eg:A": "numeric", "eg:Q": "name", "eg:T": "text"},
         "dimensions": {"eg:Reg": "explicit", "eg:Sku": "typed"}}
# for each case: the name of the refusal, the part at fault, and the fact
CASES = (
    *(("PeriodForm", period, {"dimensions": {"period": period}}) for period in (
        "2023-12-31", "2023-01-01/2023-12-31", "2023-12-31T00:00:00Z", "2023-12-31T00:00:00.000", " 2023-12-31T00:00:00",
        "2023-12-31Z", "2023-12-31T00:00:00.0Z/2024-12-31T00:00:00")),
    ("ValueForm", Number("1.50"), {"value": Number("1.50")}),
    ("DimensionValue", {"eg:Sku": Number("5")}, {"dimensions": {"eg:Sku": Number("5")}}),
    ("DimensionValue", {"eg:Reg": None}, {"dimensions": {"eg:Reg": None}}),
    *(("DecimalsForm", part, {"decimals": part}) for part in ("INF", " 2", None)),
    *(("NumberForm", part, {"value": part}) for part in ("1e5", " 1 ")),
    ("NameForm", "eg:A ", {"dimensions": {"concept": "eg:A "}}),
    ("ReservedNamespace", "xbrl:unit", {"dimensions": {"xbrl:unit": "eg:b"}}),
    ("ReservedNamespace", "xbrl:note", {"dimensions": {"concept": "xbrl:note"}}),
    ("Links", {"a": {"b": ["n"]}}, {"links": {"a": {"b": ["n"]}}}),
    ("Notes", "n", {"dimensions": {"noteId": "n"}}),
    ("UnknownMember", "id", {"id": "7"}),
    ("UnknownMember", "label", {"label": "7"}),
    ("UnknownMember", "scale", {"scale": Number("3")}),
    ("UnknownMember", "sign", {"sign": "-"}),
    ("UnknownMember", "precision", {"precision": Number("3")}),
    ("UnknownMember", "period", {"period": "2023-12-31T00:00:00"}),
    ("LanguageOnNumeric", "en", {"dimensions": {"language": "en"}}),
    ("NameForm", "pure", {"dimensions": {"unit": "pure"}}),
    ("UnitOnOther", "xbrli:pure", {"dimensions": {"concept": "eg:T", "unit": "xbrli:pure"}}),
    ("DecimalsOnOther", 0, {"decimals": Number("0"), "dimensions": {"concept": "eg:T"}}),
    *((name, "", {"dimensions": {key: ""}}) for name, key in (("NameForm", "entity"), ("UnitForm", "unit"), ("LanguageForm", "language"))),
    *(("PeriodForm", period, {"dimensions": {"period": period}}) for period in ("", "2023", "2023-12-31@end", "2023-01-01..2023-06-30")),
    *(("UnboundPrefix", name, {"dimensions": {"concept": name}}) for name in ("http://example.org/t#A", "{http://example.org/t}A")),
    ("Links", {"a": {}}, {"links": {"a": {}}}),
    ("UnknownConcept", "eg:Z", {"dimensions": {"concept": "eg:Z"}}),
    ("UnknownDimension", "eg:Z", {"dimensions": {"eg:Z": "eg:A"}}),
)
WITHOUT = (("UnitOnOther", "u:EUR"), ("UnitForm", "/"), ("UnboundPrefix", "q:A"), ("DocumentType", "x"), ("BaseUrl", "x"), ("PeriodForm", "2023-12-31T00:00:00.5"), ("PeriodForm", "a/b/c"), ("PeriodForm", None), ("ValueForm", []),
           ("ValueForm", True), ("DimensionValue", {"eg:Sku": []}), ("DimensionValue", "x"), ("DecimalsForm", "two"), ("DecimalsForm", "9" * 19),
           ("PeriodForm", "2023-02-30"), ("PeriodForm", "2023-02-30T00:00:00Z"), ("PeriodForm", "2023-12-31T00:00:00+15:00"),
           ("PeriodForm", "2023-12-31T25:00:00.0"), ("NumberForm", " 1,000 "), ("NumberForm", " INF"), ("NameForm", "Sales "),
           ("NumberForm", "1,5"), ("NumberForm", "1e30"), ("NumberForm", None), ("NameForm", "a"), ("NameForm", " "), ("ReservedNamespace", "xbrl:x"))


class Remedies(in_process.RoomTest):
    def normalised(self, fact, option):
        options = argparse.Namespace(**{word.replace("-", "_"): f"--{word}" == option for word in LOSSES}, **dict.fromkeys(CHOICES))
        if "=" in option:
            setattr(options, *option.removeprefix("--").split("="))
        uris = {"eg": "http://example.org/t", "xbrl": "https://xbrl.org/2021", "xbrli": "http://www.xbrl.org/2003/instance"}
        whole = {"value": "1", **fact, "dimensions": {"concept": "eg:A", **fact.get("dimensions", {})}}
        tree = {"documentInfo": {"namespaces": uris}, "facts": {"f": whole}}
        log = Normaliser(sheet_at(self.write("sheet.json", json.dumps(SHEET))), options).normalise(tree)
        return log.lines

    def test_each_option_changes_its_fault(self):
        for name, part, fact in CASES:
            remedy = FOR_NAMES[name](part)
            self.assertIsNotNone(remedy, (name, part))
            self.assertGreater(len(self.normalised(fact, remedy.option)), 0, (name, part))
            if remedy.option:
                self.assertEqual([line for line in self.normalised(fact, "") if '"loss":true' in line], [], (name, part))

    def test_other_faults_have_no_option(self):
        for name, part in WITHOUT:
            self.assertIsNone(FOR_NAMES[name](part), (name, part))

    def test_what_only_the_sentence_tells(self):
        for name, sentence, wanted in (
            ("DecimalsForm", '"decimals" must be an integer from -18 to 18', None), ("ValueForm", "numbers need quotes", NUMBER),
            ("DecimalsForm", "the decimals value null is not an integer without quotes", FOR_NAMES["DecimalsForm"](None)),
            ("UnknownMember", 'the format has no member "id" in "dimensions"', None),
            ("UnknownMember", 'the format has no member "label"', FOR_NAMES["UnknownMember"]("label")),
            ("MemberForm", '"period" is not a string', EMPTY), ("MemberForm", '"links" is not an object', None),
        ):
            self.assertEqual(remedy_for({"name": name, "part": None, "sentence": sentence}), wanted, sentence)

    def test_a_file_that_is_no_report_is_not_to_lose_its_members(self):
        faults = [{"number": number, "name": name, "identifier": None, "part": part, "sentence": sentence} for number, name, part, sentence in (
            (2, "MemberForm", None, '"documentInfo" is missing'), (3, "UnknownMember", "data", 'the format has no member "data"'))]
        refusals = Refusals("", argparse.Namespace(normalise=False, drop_unknown_members=False))
        refusals.add("p", self.write("report.json", '{"data":{"documentInfo":{},"facts":{}}}'), "", faults)
        refusals.add("p", self.path_of("nowhere"), "", faults)
        wanted = '2 MemberForm: "documentInfo" is missing'
        guess = "; the file looks like a report that is wrapped in another object: take out what is at /data"
        self.assertEqual([report.groups for report in refusals.reports], [(wanted + guess,), (wanted,)])

    def test_a_concept_of_another_year_is_mapped_and_large_drops_are_told(self):
        faults = [{"number": 16, "name": "UnknownConcept", "identifier": f"f{n}", "part": f"o:{'AZ'[n % 2]}", "sentence": ""} for n in range(6)]
        report = {"documentInfo": {}, "facts": {f"f{n}": {} for n in range(60)}}
        for facts, share in ((60, ""), (29, ", which drops 3 of 29 facts"), (0, ", which drops 3 of an unknown number of facts")):
            report["facts"] = {f"f{n}": {} for n in range(facts)}
            refusals = Refusals("", argparse.Namespace(normalise=True, drop_unknown=False, map=[]), [Name("http://example.org/t", "A")])
            refusals.add("p", self.write("report.json", json.dumps(report if facts else [])), "", faults)
            self.assertEqual(refusals.reports[0].groups, (
                '3 facts with a concept that the sheet has in another namespace, as in "o:A": --map PROVIDER=MAP.json',
                f'3 facts with a concept that the sheet lacks, as in "o:Z": --drop-unknown{share}'))
