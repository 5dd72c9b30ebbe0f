"""Tests of tools/contradictions with labels, with --near, and on a large text."""
import json
import os
import re
from unittest import mock

import test_contradictions
import workload
from contradicting import texts
from support import content

INPUTS = (test_contradictions.MERGED, test_contradictions.SHEET, test_contradictions.VERDICTS)
SCHEMA = """<xs:schema xmlns:xs="http://www.w3.org/2001/XMLSchema" xmlns:xbrli="http://www.xbrl.org/2003/instance"
    targetNamespace="https://norlake.example/2023">%s</xs:schema>"""
ITEM = '<xs:element id="nor_{0}" name="{0}" type="xbrli:monetaryItemType" substitutionGroup="xbrli:item"/>'
LINKBASE = """<link:linkbase xmlns:link="http://www.xbrl.org/2003/linkbase" xmlns:xlink="http://www.w3.org/1999/xlink">
    <link:labelLink xlink:type="extended" xlink:role="http://www.xbrl.org/2003/role/link">%s</link:labelLink></link:linkbase>"""
LABEL = """<link:loc xlink:type="locator" xlink:href="{href}#nor_{name}" xlink:label="{name}"/>
    <link:labelArc xlink:type="arc" xlink:from="{name}" xlink:to="{name}_label"{use}/>
    <link:label xlink:type="resource" xlink:label="{name}_label" xml:lang="en-GB">{text} (GB)</link:label>
    <link:label xlink:type="resource" xlink:label="{name}_label" xml:lang="en">{text}</link:label>
    <link:label xlink:type="resource" xlink:label="{name}_label" xml:lang="fi">Suomeksi</link:label>
    <link:label xlink:type="resource" xlink:label="{name}_label" xml:lang="en"
        xlink:role="http://www.xbrl.org/2003/role/terseLabel">Terse</link:label>"""
CATALOG = """<catalog xmlns="urn:oasis:names:tc:entity:xmlns:xml:catalog">
    <rewriteURI uriStartString="http://norlake.example/xbrl/" rewritePrefix="../"/></catalog>"""


class Labels(test_contradictions.ToolTest):
    def package(self):
        labels = LABEL.format(href="core.xsd", name="Revenue", text="Revenue from\n <contracts>".replace("<", "&lt;"), use="")
        labels += LABEL.format(href="http://norlake.example/xbrl/t/core.xsd", name="Dividend", text="Dividend a share", use="")
        labels += LABEL.format(href="core.xsd", name="Goodwill", text="No label", use=' use="prohibited"')
        return self.pack({"t/core.xsd": SCHEMA % "".join(map(ITEM.format, ("Revenue", "Dividend", "Goodwill"))),
                          "t/labels/../labels.xml": LINKBASE % labels, "META-INF/catalog.xml": CATALOG,
                          "META-INF/taxonomyPackage.xml": "<a/>"})

    def labelled(self, *options):
        page, cells = self.written(*INPUTS, *options)
        return page, {cell["concept"].split("}")[1]: cell["label"] for cell in cells}

    def test_standard_labels_of_a_language(self):
        page, labels = self.labelled("--labels", self.package())
        self.assertEqual(labels["Revenue"], "Revenue from <contracts>")
        self.assertEqual((labels["Dividend"], labels["Goodwill"]), ("Dividend a share", ""))
        self.assertIn('<bdi title="https://norlake.example/2023 Revenue">Revenue from &lt;contracts&gt;</bdi>', page)
        self.assertIn('<bdi title="https://norlake.example/2023">Goodwill</bdi>', page)
        for language, concept, label in (("fi", "Revenue", "Suomeksi"), ("en-GB", "Dividend", "Dividend a share (GB)")):
            self.assertEqual(self.labelled("--labels", self.package(), "--language", language)[1][concept], label)

    def test_a_taxonomy_that_cannot_be_read(self):
        self.check_refused("a.zip", *INPUTS, "--labels", self.write("a.zip", "no zip"))


URIS = {"n1": "http://a.example", "n2": "https://a.example", "n3": "http://b.example/t"}
KINDS = {"namespaces": URIS, "concepts": {"n3:A": "numeric", "n2:A": "numeric", "n3:T": "text"},
         "dimensions": {"n3:Reg": "explicit", "n3:Sku": "typed", "n3:Case": "typed"}}
CORE = {"concept": "n3:A", "entity": "n1:X", "period": "2024-01-01T00:00:00", "unit": "n1:EUR"}
# a dimension, and its values in two rows that may differ by mistake only, and in two others
SLIPS = (
    ("entity", "n1:X", "n2:X"), ("entity", "n1:x1", "n1:X1"), ("period", "2023-12-31T00:00:00", "2024-01-01T00:00:00"),
    ("period", "2023-01-01T00:00:00/2023-12-31T00:00:00", "2023-01-01T00:00:00/2024-01-01T00:00:00"), ("unit", "n1:EUR", "n1:USD"),
    ("unit", "n1:EUR", None), ("concept", "n2:A", "n3:A"), ("n3:Reg", "n1:North", "n3:North"), ("n3:Reg", "n1:North", None), ("n3:Sku", "Mill 7", "mill  7"),
)
OTHERS = (
    ("period", "2023-12-30T00:00:00", "2024-01-01T00:00:00"), ("period", "2023-12-31T00:00:00/2024-01-01T00:00:00", "2024-01-01T00:00:00"),
    ("entity", "n1:X", "n1:Y"), ("n3:Reg", "n3:South", "n3:North"), ("concept", "n3:A", "n3:T"),
)


class Nearby(test_contradictions.ToolTest):
    def test_near_rows(self):
        """Tests --near on rows that differ in their dimensions. Provider A reports the first row of a case, and B the second."""
        rows = [({**CORE, axis: value, "n3:Case": str(case)}, [number]) for case, (axis, one, other) in enumerate((*SLIPS, *OTHERS))
                for number, value in ((1, one), (2, other))]
        rows += [({**CORE, **more, "n3:Case": "two"}, [number]) for number, more in ((1, {}), (2, {"entity": "n2:X", "unit": "n1:USD"}))]
        # a provider that has both rows means both
        both = ([1], {"unit": "n2:V"}), ([2], {"period": "1999-01-01T00:00:00"}), ([1, 2], {}), ([1, 2], {"entity": "n2:X"})
        rows += [({**CORE, **more, "n3:Case": "both"}, numbers) for numbers, more in both]
        facts = [{"dimensions": {key: member for key, member in dimensions.items() if member}, "value": "1"} for dimensions, _ in rows]
        lines = "".join(f"{n} f{n:02} f{n:02} complete\n" for n in range(1, len(rows) + 1))
        done = self.run_tool(*self.inputs(facts, KINDS, lines, [reports for _, reports in rows], "A,B"), "--near", self.path_of("near.csv"))
        self.assertEqual((done.returncode, self.other_lines(done.stderr.decode())), (0, []))
        found = [(line["pair"], line["providers"], line["differs"].rpartition("}")[2]) for line in self.cells("../near.csv")]
        wanted = [(str(rank), name, axis.rpartition(":")[2]) for rank, (axis, _, _) in enumerate(SLIPS, 1) for name in "AB"]
        self.assertEqual(found, wanted)


class Large(test_contradictions.ToolTest):
    COUNT = 2_000

    def test_a_large_text(self):
        workload.make(self.scratch, self.COUNT)
        inputs = [self.path_of(name) for name in ("merged.json", "sheet.json", "verdicts.txt")]
        own = [f"{name}=" + os.path.join(self.scratch, f"{name}.json") for name in workload.PROVIDERS]
        page, cells = self.written(*inputs, *own)
        self.assertEqual(len({cell["row"] for cell in cells}), self.COUNT)
        self.assertTrue(all(cell["providers"] for cell in cells))
        # the contradictions with the largest relative differences are first, where a text or nil ranks highest, and then the other
        # rows; the first 100 work without the script
        data = test_contradictions.data_of(page)
        numbers = [str(row[0]) for row in data["rows"]]
        apart, others = numbers[: self.COUNT], [*map(int, numbers[self.COUNT :])]
        self.assertEqual(({*apart}, len({*numbers}), others, data["leftOut"]), ({cell["row"] for cell in cells}, 2 * self.COUNT, sorted(others), 0))
        self.assertEqual(re.findall(r'<tr id="row(\d+)"', page), apart[:100])
        sizes = {}
        for cell in (cell for cell in cells if cell["evidence"]):
            sizes.setdefault(cell["row"], []).append(cell)
        shares = [self.share(sizes[row]) for row in apart]
        self.assertEqual(shares, sorted(shares, reverse=True))
        self.assertLess(len(page), 1_500 * self.COUNT)

    @staticmethod
    def share(pair):
        if not all(cell["low"] for cell in pair):
            return float("inf")
        one, other = (float(cell["value"]) for cell in pair)
        return abs(one - other) / max(abs(one), abs(other))

    def test_pieces_of_a_text_may_end_anywhere(self):
        tree = json.loads(content(test_contradictions.MERGED))
        for indent in (None, 1):
            with mock.patch.object(texts, "PIECE", 1):
                text = texts.Text(self.write("merged.json", json.dumps(tree, indent=indent)))
                self.assertEqual(dict(text.facts()), tree["facts"])

    def test_a_text_with_features(self):
        tree = json.loads(content(test_contradictions.MERGED))
        tree["documentInfo"]["namespaces"]["xbrl"] = "https://xbrl.org/2021"
        tree["documentInfo"]["features"] = {"xbrl:allowedDuplicates": "all"}
        merged = self.write("merged.json", json.dumps(tree))
        _, cells = self.written(merged, *INPUTS[1:], f"A={merged}", f"B={INPUTS[0]}")
        self.assertEqual({cell["providers"] for cell in cells}, {"A, B"})
        self.assertEqual(workload.lines(content(merged)), content(INPUTS[2]))
