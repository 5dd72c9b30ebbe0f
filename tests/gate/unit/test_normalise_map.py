"""Tests of --map of tools/normalise and tools/contradictions."""
import json
import os

import in_process
import contradictions
from test_contradictions_run import REPORTS, SHEET, Stubbed
from test_normalise import ToolTest

OLD, NEW, LEI, UNITS = "http://example.org/2022", "http://example.org/2023", "http://lei.example", "http://units.example"
URIS = {"o": OLD, "n": NEW, "l": LEI, "u": UNITS}
KINDS = {"namespaces": {"n": NEW}, "concepts": {"n:A": "numeric", "n:B": "numeric", "n:Q": "name", "n:S": "text"},
         "dimensions": {"n:Reg": "explicit", "n:Sku": "typed"}, "xbrlmerge:sets": ["n:S"]}
YEAR = {"namespaces": {OLD: NEW}}
SCALED = {"units": {f"{{{UNITS}}}kEUR": {"unit": f"{{{UNITS}}}EUR", "scale": 3}}}


def fact(value="1", concept="o:A", decimals=None, **dimensions):
    return {"value": value, "dimensions": {"concept": concept, **dimensions}, **({} if decimals is None else {"decimals": decimals})}


class Maps(ToolTest):
    def setUp(self):
        super().setUp()
        self.sheet = self.write("sheet.json", json.dumps(KINDS))

    def words(self, facts, names):
        report = json.dumps({"documentInfo": {"namespaces": URIS}, "facts": facts})
        return self.write("report.json", report), "--sheet", self.sheet, "--map", self.write("map.json", json.dumps(names))

    def mapped(self, facts, names):
        """Returns the facts and the namespaces of the changed report. All changes must be listed as losses of the map."""
        status, errors, out, changes = self.normalised(*self.words(facts, names))
        self.assertEqual((status, errors, {(change["rule"], change["loss"]) for change in changes}), (1, "", {("map", True)}))
        tree = json.loads(out)
        return tree["facts"], tree["documentInfo"]["namespaces"]

    def check_refused(self, wanted, facts, names):
        report, *words = self.words(facts, names)
        status, line = self.run_tool(report, self.out, self.changes, *words)
        self.assertEqual((status, line.count("\n"), os.path.exists(self.out)), (3, 1, False), line)
        self.assertIn(wanted, line)

    def test_a_namespace(self):
        facts = {"f": fact(**{"o:Reg": "o:North", "o:Sku": "o:x"}), "g": fact("o:X", "o:Q")}
        self.assertEqual(self.mapped(facts, YEAR), (facts, {**URIS, "o": NEW}))

    def test_single_names(self):
        names = {"concepts": {f"{{{OLD}}}A": f"{{{NEW}}}B"}, "entities": {f"{{{LEI}}}1:2": "{http://new.example}7"},
                 "members": {f"{{{NEW}}}North": f"{{{NEW}}}South"}}
        facts, uris = self.mapped({"f": fact(entity="l:1:2", **{"n:Reg": "n:North"})}, names)
        self.assertEqual(facts["f"]["dimensions"], {"concept": "n:B", "entity": "map1:7", "n:Reg": "n:South"})
        self.assertEqual(uris, {**URIS, "map1": "http://new.example"})

    def test_a_single_name_precedes_its_namespace(self):
        names = {**YEAR, "concepts": {f"{{{OLD}}}A": f"{{{NEW}}}B"}}
        facts, _ = self.mapped({"f": fact(), "g": fact(concept="o:A2")}, names)
        self.assertEqual([each["dimensions"]["concept"] for each in facts.values()], ["n:B", "o:A2"])

    def test_a_name_is_looked_up_again_in_its_new_namespace(self):
        names = {**YEAR, "concepts": {f"{{{NEW}}}A": f"{{{NEW}}}B"}, "units": {f"{{{NEW}}}kEUR": {"unit": f"{{{NEW}}}EUR", "scale": 3}}}
        facts, _ = self.mapped({"f": fact("5", unit="o:kEUR")}, names)
        self.assertEqual(facts["f"], {"value": "5000", "dimensions": {"concept": "n:B", "unit": "n:EUR"}})

    def test_a_unit_is_scaled_exactly(self):
        for value, decimals, unit, scaled, places, now in (
            ("4321", 0, "u:kEUR", "4321000", -3, "u:EUR"), ("4321.5", 1, "u:kEUR", "4321500", -2, "u:EUR"),
            ("-0.001", None, "u:kEUR", "-1", None, "u:EUR"), ("5", 2, "u:t/u:kEUR", "0.005", 5, "u:t/u:EUR"),
            ("12", -3, "u:kEUR*u:kEUR", "12000000", -9, "u:EUR*u:EUR"), (None, None, "u:kEUR", None, None, "u:EUR"),
            ("123456789012345", 0, "u:kEUR", "123456789012345000", -3, "u:EUR"), ("0.10", None, "u:kEUR", "100", None, "u:EUR"),
        ):
            facts, _ = self.mapped({"f": fact(value, decimals=decimals, unit=unit)}, SCALED)
            self.assertEqual((facts["f"]["value"], facts["f"].get("decimals"), facts["f"]["dimensions"]["unit"]), (scaled, places, now))

    def test_what_cannot_be_scaled_is_refused(self):
        for value, decimals in (("1234567890123456", 0), ("x", 0), ("1", -16), ("1", "two"), ("1", 0.5), ("1,5", None)):
            self.check_refused("/facts/f/value cannot be scaled by 10^3", {"f": fact(value, decimals=decimals, unit="u:kEUR")}, SCALED)

    def test_names_that_become_equal_are_refused(self):
        self.check_refused(f"the map makes {{{OLD}}}A and {{{NEW}}}A equal", {"f": fact(), "g": fact(concept="n:A")}, YEAR)
        ratio = {"units": {f"{{{UNITS}}}ratio": {"unit": "{http://www.xbrl.org/2003/instance}pure"}}}
        for names, *facts in (
            (YEAR, fact(concept="n:A", **{"o:Reg": "n:a"}), fact(concept="n:A", **{"n:Reg": "n:a"})),
            (YEAR, fact("o:X", "n:Q"), fact("n:X", "n:Q")), (YEAR, fact(unit="o:x"), fact(concept="n:B", unit="n:x")),
            (YEAR, fact("o:a", "n:S"), fact("n:a", "n:S")), (YEAR, fact("o:a n:a", "n:S")),
            ({"entities": {f"{{{LEI}}}1": f"{{{LEI}}}2"}}, fact(entity="l:1"), fact(entity="l:2")),
            (ratio, fact(concept="n:A", unit="u:ratio"), fact(concept="n:A")),
        ):
            self.check_refused("equal", dict(zip("fg", facts)), names)
        self.mapped({"f": fact(unit="u:kEUR"), "g": fact(unit="u:EUR")}, SCALED)  # a scaled unit may meet another one

    def test_a_set_that_spells_its_namespace(self):
        status, _, out, changes = self.normalised(*self.words({"f": fact(f"{OLD}#b o:a", "n:S")}, YEAR))
        self.assertEqual(json.loads(out)["facts"]["f"]["value"], f"{NEW}#a {NEW}#b")
        self.assertEqual([change["rule"] for change in changes], ["map", "map"])

    def test_maps_that_are_none(self):
        name, other = f"{{{OLD}}}A", f"{{{NEW}}}A"
        for names in ([], {"x": {}}, {"namespaces": []}, {"namespaces": {"a": 1}}, {"namespaces": {"a": ""}}, {"concepts": {"A": other}},
                      {"members": {name: f"{{{NEW}}}a:b"}}, {"units": {f"{{{OLD}}}a b": {"unit": other}}},
                      {"concepts": {name: "o:A"}}, {"entities": {name: 1}}, {"units": {name: other}}, {"units": {name: {"unit": other, "scale": 19}}},
                      {"units": {name: {"unit": other, "scale": 1.5}}}, {"units": {name: {"unit": other, "x": 1}}}, {"units": {name: {"scale": 1}}},
                      {"units": {name: {"unit": name, "scale": 3}}}, {"namespaces": {"a": "b", "b": "c"}}, {"concepts": {name: other, other: f"{{{NEW}}}B"}}, {**YEAR, "members": {other: name}}):
            self.check_refused("map.json: ", {"f": fact()}, names)
        self.mapped({"f": fact()}, {**YEAR, "units": {}, "concepts": {other: other}})
        facts, _ = self.mapped({"f": fact(entity="l:a b: ")}, {"entities": {f"{{{LEI}}}a b: ": f"{{{LEI}}}c d:"}})
        self.assertEqual(facts["f"]["dimensions"]["entity"], "l:c d:")


class Long(ToolTest):
    def test_time_does_not_grow_with_the_square_of_a_long_namespace(self):
        def run_at(size):
            old, new = ("http://example.org/" + sign * 20 * size for sign in "on")
            names = {"concepts": {f"{{{old}}}A{each}": f"{{{new}}}B{each}" for each in range(20)}, "namespaces": {old: f"{old}/n"}}
            facts = {f"f{each}": fact(concept=f"o:A{each % 40}") for each in range(size)}
            report = self.write("report.json", json.dumps({"documentInfo": {"namespaces": {"o": old}}, "facts": facts}))
            words = ("--sheet", self.write("sheet.json", "{}"), "--map", self.write("map.json", json.dumps(names)))
            status, errors = self.run_tool(report, self.out, self.changes, *words)
            self.assertEqual((status, errors), (1, ""))

        self.assertLess(in_process.growth(run_at, 1_000), 9)


class OfProviders(Stubbed):
    def test_a_map_of_a_provider(self):
        self.prints_nothing()
        own = [self.write(f"{name}.json", json.dumps({"documentInfo": {"namespaces": URIS}, "facts": {"f": fact()}})) for name in "AB"]
        names = self.write("map.json", json.dumps(YEAR))
        words = ["--program", self.program, "--sheet", self.write("sheet.json", json.dumps(KINDS)), "-o", self.output, "--normalise"]
        status, errors = in_process.run(contradictions, *words, "--map", f"B={names}", *own)
        self.assertEqual((status, len(self.other_lines(errors))), (1, 1), errors)  # A and B have the same bytes
        found = [(change["provider"], change["pointer"], change["rule"], change["loss"]) for change in self.cells("changes.csv")]
        self.assertEqual(found, [("B", "/documentInfo/namespaces", "map", "true")])
        for wrong in (["--map", "B"], ["--map", f"C={names}"], ["--map", f"B={names}", "--map", f"B={names}"], ["--map", f"={names}"]):
            self.assertEqual(in_process.run(contradictions, *words, *wrong, *own)[0], 2, wrong)
        self.assertEqual(in_process.run(contradictions, "--sheet", SHEET, "-o", self.output, "--map", f"issuer={names}", *REPORTS)[0], 2)
