"""Tests of tools/normalise on the shapes of report_shapes.txt: no shape changes its meaning unless the change is called a loss.
The file has rules of standards, and then shapes in which software writes facts and reports. Each shape has the rule that decides
what it means, options, what tools/normalise makes of it, and a mark. <A,..> stands for `dimensions` with the concept eg:A and
other members, {INFO,..} for the start of a report. Marks: `=` nothing is lost; `!` something is lost, and needs the option;
`left` the tool leaves it, and says so; a number: the program refuses it, by this number; `dropped`; `guess` the tool refuses the
file, and says what it looks like."""
import collections
import json
import re

import in_process
import normalise
from normalising.json_text import read_json, text_of
from support import content

RULES, TABLE = content("tests/gate/unit/report_shapes.txt").split("\n\n")
STANDARDS = dict(line.split(": ", 1) for line in RULES.splitlines())
SHEET = {
    "namespaces": {"eg": "http://example.org/t"},
    "concepts": {**dict.fromkeys(("eg:A",), "numeric"), "eg:Q": "name", **dict.fromkeys((f"eg:{each}" for each in (
        "S", "T", "Bool", "Date", "Time", "Year", "Token", "Normal", "Hex", "Span", "Link")), "text")},
    "dimensions": {"eg:Reg": "explicit", "eg:Sku": "typed", "eg:Int": "typed", "eg:Dec": "typed", "eg:Day": "typed"},
    "xbrlmerge:sets": ["eg:S"],
    "xbrlmerge:types": {"boolean": ["eg:Bool"], "date": ["eg:Date", "eg:Day"], "dateTime": ["eg:Time"], "gYear": ["eg:Year"],
                        "token": ["eg:Token"], "normalizedString": ["eg:Normal"], "hexBinary": ["eg:Hex"], "duration": ["eg:Span"],
                        "anyURI": ["eg:Link"], "integer": ["eg:Int"], "decimal": ["eg:Dec"]},
}
TYPE = "https://xbrl.org/2021/xbrl-json"
URIS = {"eg": "http://example.org/t", "x": "http://example.org/u", "xbrl": "https://xbrl.org/2021", "i": "http://www.xbrl.org/2003/instance"}
P = '"2023-01-01T00:00:00/2024-01-01T00:00:00"'
WORDS = {"PERIOD": P, "START": P[:20] + '"', "END": '"' + P[21:], "{INFO": '{"documentInfo":{"documentType":"%s","namespaces":%s' % (TYPE, json.dumps(URIS)),
         "{DRAFT": '{"documentInfo":{"documentType":"https://xbrl.org/CR/2021-02-03/xbrl-json","namespaces":{"xbrl":"https://xbrl.org/CR/2021-02-03"}'}


def written(text):
    """Returns the text of a shape with its abbreviations written out."""
    text = re.sub(r"<(\w+)((?:,[^<>]*)?)>", r'"dimensions":{"concept":"eg:\1"\2}', text)
    for word, long in WORDS.items():
        text = text.replace(word, long)
    return text


def report(text):
    """Returns a report that is a shape, or whose only fact is a shape."""
    shape = written(text)
    is_report = '"value"' not in shape or '"facts"' in shape
    return shape if is_report else written('{INFO},"facts":{"f":%s}}' % shape)


def rows():
    """Yields for each row the standard, the options, the shape, what becomes of it, and the mark."""
    for line in TABLE.strip().splitlines():
        standard, options, before, after, mark = (cell.strip() for cell in line.split(";;"))
        yield standard, options.split(), before, after, mark


ROWS = [*rows()]


class Shapes(in_process.RoomTest):
    def test_each_shape(self):
        sheet = self.write("sheet.json", json.dumps(SHEET))
        out, changes, used = self.path_of("out.json"), self.path_of("changes.jsonl"), {"map", "zones", "drop-unreadable"}
        for row in ROWS:
            with self.subTest(row=row):
                _, options, before, after, mark = row
                path = self.write("report.json", report(before))
                status, errors = in_process.run(normalise, path, out, changes, "--sheet", sheet, *options)
                if mark == "guess":
                    self.assertEqual((status, after in errors), (3, True), errors)
                    continue
                self.assertEqual((status, "is left: " in errors), (mark in "! dropped".split(), mark == "left" or "is left: " in errors), errors)
                used.update(json.loads(line)["rule"] for line in content(changes).splitlines())
                made = read_json(out)
                whole = self.tree(report(after)) if after else None
                self.assertEqual(text_of(made["facts"]), text_of(whole["facts"]) if after else "{}")
                if after and "ns1:" not in after:
                    self.assertEqual(text_of(made), text_of(whole))
        self.assertEqual(used, {*re.findall(r"^\| `([a-z0-9-]+)` \| ", content("docs/GUIDE.md").partition("### Rules and")[2], re.MULTILINE)})

    def tree(self, text):
        return read_json(self.write("wanted.json", text))

    def test_the_table(self):
        self.assertGreaterEqual(len({before for _, _, before, _, _ in ROWS}), 120)
        self.assertEqual({standard for standard, *_ in ROWS}, {*STANDARDS})
        refusals = content("docs/REFUSALS.md")
        for number in {mark for *_, mark in ROWS if mark.isdigit()}:
            advice = re.findall(rf"^\| {number} \|[^|]*\|[^|]*\|([^|]*)\|", refusals, re.MULTILINE)
            self.assertTrue(all(text.strip() for text in advice) and advice, number)

    def test_at_most_one_shape_in_seven_is_only_dropped(self):
        marks = collections.defaultdict(set)
        for _, _, before, _, mark in ROWS:
            marks[before].add(mark)
        readable = [before for before, each in marks.items() if each & {"=", "!", "left"}]
        lost = [before for before, each in marks.items() if before not in readable and each != {"guess"}]
        self.assertLessEqual(7 * len(lost), len(readable) + len(lost), lost)
