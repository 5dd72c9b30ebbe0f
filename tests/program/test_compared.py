"""Runs tools/contradictions with the program on planted mismatches, and on inputs that change during a run. In each case of
MISMATCHES, all rows of a provider differ from those of another one by the same mistake. The tool must name it on standard
error, and return status 1; a second run with the map that it writes must find that all rows agree. Then a wrapper of the
program replaces an input after each call, and all files must be those of a run without changes. On a second night, since.csv
must have the contradiction that is new, and the workbook the rows of table.csv. With --latest, a restated figure contradicts
nothing, unless its report is refused."""
import csv
import hashlib
import html
import json
import os
import re
import shutil
import subprocess
import sys
import zipfile

import pytest

from running import PROGRAM, TOP, write
from support import bytes_of, table_in

TOOL = os.path.join(TOP, "tools", "contradictions.py")
YEARS = "http://t.example/2023", "http://t.example/2024"
CONCEPTS = [f"Item{number}" for number in range(6)]
SHEET = {"namespaces": {"t": YEARS[0], "u": YEARS[1]},
         "concepts": {f"{prefix}:{name}": "numeric" for prefix in "tu" for name in CONCEPTS} | {f"t:Text{number}": "text" for number in range(6)}}
SCHEMA = """<xs:schema xmlns:xs="http://www.w3.org/2001/XMLSchema" xmlns:xbrli="http://www.xbrl.org/2003/instance" xmlns:link="http://www.xbrl.org/2003/linkbase"
  xmlns:xlink="http://www.w3.org/1999/xlink" targetNamespace="http://t.example/2023"><xs:annotation><xs:appinfo><link:linkbaseRef xlink:href="l.xml"/></xs:appinfo>
  </xs:annotation>{}</xs:schema>"""
ELEMENT = '<xs:element id="t_{0}" name="{0}" type="xbrli:{1}ItemType" substitutionGroup="xbrli:item"/>'
LABELS = """<link:linkbase xmlns:link="http://www.xbrl.org/2003/linkbase" xmlns:xlink="http://www.w3.org/1999/xlink"><link:labelLink>
  <link:loc xlink:href="t.xsd#t_Item0" xlink:label="i"/><link:labelArc xlink:from="i" xlink:to="l"/>
  <link:label xlink:label="l" xml:lang="en">{}</link:label></link:labelLink></link:linkbase>"""
WRAPPER = """#!{python}
import os, shutil, subprocess, sys
status = subprocess.run([{program!r}, *sys.argv[1:]]).returncode
for path in {paths!r}:
    for old, new in ((path, path + ".kept"), (path + ".other", path), (path + ".kept", path + ".other")):
        os.rename(old, new)
sys.exit(status)
"""


def report(concepts=CONCEPTS, year=YEARS[0], scheme="http://lei.example", entity="e:LEI1", start="2023-01-01", unit="c:EUR", decimals=-3,
           change=lambda value: value, **dimensions):
    """Returns a report with a fact for each concept. A text has no unit and no decimals."""
    namespaces = {"x": year, "e": scheme, "c": "http://www.xbrl.org/2003/iso4217"}
    facts = {}
    for index, name in enumerate(concepts):
        own = {"concept": f"x:{name}", "entity": entity, "period": f"{start}T00:00:00/2024-01-01T00:00:00", **dimensions}
        value = str(change((index + 1) * 45_679_000)).removesuffix(".0")
        facts[f"f{index}"] = {"value": "a text", "dimensions": own} if "language" in own else {
            "value": value, "decimals": decimals, "dimensions": {**own, "unit": unit}}
    information = {"documentType": "https://xbrl.org/2021/xbrl-json", "namespaces": namespaces, "taxonomy": ["http://t.example/t.xsd"]}
    return json.dumps({"documentInfo": information, "facts": facts})


TEXTS = [f"Text{number}" for number in range(6)]
OTHER = "B shares no row with another provider; 6 rows equal those of A except for another "
# for each mismatch: the reports of A and B, what standard error must have, and whether there is a map
MISMATCHES = {
    "year of the taxonomy": (report(), report(year=YEARS[1]), f"{OTHER}namespace: {YEARS[1]}, not {YEARS[0]}; maps/B.json would join them", True),
    "scheme": (report(), report(scheme="http://national.example"), OTHER + "entity: {http://national.example}LEI1, not {http://lei.example}LEI1; maps/B", True),
    "identifier": (report(), report(entity="e:4711"), OTHER + "entity: {http://lei.example}4711, not {http://lei.example}LEI1; maps/B.json", True),
    "unit": (report(), report(unit="e:EUR"), OTHER + "unit: {http://lei.example}EUR, not {http://www.xbrl.org/2003/iso4217}EUR; maps/B.json", True),
    "scale at coarse decimals": (report(), report(change=lambda value: value / 1_000, decimals=-6), "B: 1,000 times smaller in 6 of 6 rows", False),
    "scale that rounding hides": (report(decimals=-9), report(change=lambda value: value / 1_000, decimals=-9), "agree only because their decimals are coarse", False),
    "case of the entity": (report(), report(entity="e:lei1"), OTHER + "entity: {http://lei.example}lei1, not", True),
    "period off by a day": (report(), report(start="2023-01-02"), OTHER + "period: 2023-01-02T00:00:00/2024-01-01T00:00:00, not 2023-01-01", False),
    "sign": (report(), report(change=lambda value: -value), "opposite sign in 6 of 6 rows that others report", False),
    "language": (report(TEXTS, language="en"), report(TEXTS, language="en-us"), OTHER + "language: en-us, not en", False),
    "missing prefix": (report(), report(entity="LEI1"), "b.json: fact ", False),
    "the same digest": (report(), report(), "a.json and b.json have the same bytes, so nothing is compared between A and B", False),
    "the same facts": (report(), report(CONCEPTS[::-1], change=lambda value: 7 * 45_679_000 - value), "A and B report exactly the same facts", False),
    "an empty report": (report(), report([]), "B reports no fact", False),
    "two mistakes": (report(), report(year=YEARS[1], entity="e:4711"), "another entity: {http://lei.example}4711, not {http://lei.example}LEI1 and another namespace", True),
}


@pytest.fixture(autouse=True)
def folder(tmp_path, monkeypatch):
    monkeypatch.chdir(tmp_path)
    write("sheet.json", json.dumps(SHEET))


def run(*words, program=PROGRAM):
    return subprocess.run([sys.executable, TOOL, "--program", program, *words], capture_output=True, text=True)


@pytest.mark.parametrize("first, second, wanted, has_map", MISMATCHES.values(), ids=MISMATCHES)
def test_mismatches(first, second, wanted, has_map):
    words = ["--sheet", "sheet.json", "-o", "out", f"A={write('a.json', first)}", f"B={write('b.json', second)}"]
    done = run(*words)
    assert done.returncode == 1 and wanted in done.stderr
    assert os.path.exists("out/maps/B.json") == has_map
    if has_map:
        done = run("--normalise", "--map", "B=out/maps/B.json", *words[:3], "out with the map", *words[4:])
        assert done.stdout.startswith("6 rows: 0 contradictions, 0 reported by one provider, 6 agree exactly"), done.stderr


def write_taxonomy(folder, label, kind):
    """Writes a taxonomy as a folder with a schema and labels, and as a package."""
    files = {"t.xsd": SCHEMA.format("".join(ELEMENT.format(name, kind) for name in CONCEPTS)), "l.xml": LABELS.format(label)}
    with zipfile.ZipFile(f"{folder}.zip", "w") as package:
        for name, text in files.items():
            write(os.path.join(folder, name), text)
            package.writestr(zipfile.ZipInfo(f"t/{name}"), text)


def files_of(folder):
    paths = (os.path.join(at, name) for at, _, names in os.walk(folder) for name in names)
    return {path: bytes_of(path) for path in paths}


@pytest.fixture
def changing():
    """Writes the inputs, and beside each another input with the ending .other."""
    for suffix, label, kind, scale in (("", "First", "monetary", 3), (".other", "Second", "string", 6)):
        write(f"s.json{suffix}", json.dumps({**SHEET, "concepts": {key: "numeric" if kind == "monetary" else "text" for key in SHEET["concepts"]}}))
        write(f"m.json{suffix}", json.dumps({"units": {"{http://lei.example}EUR": {"unit": "{http://www.xbrl.org/2003/iso4217}EUR", "scale": scale}}}))
        write_taxonomy(f"t{suffix}", label, kind)
        write(f"a.json{suffix}", report(change=lambda value: value + scale))
        write(f"b.json{suffix}", report(unit="e:EUR", change=lambda value: value / 1_000))
    os.rename("t.other.zip", "t.zip.other")
    for path in ("t/t.xsd", "t/l.xml"):
        os.rename(path.replace("t/", "t.other/"), f"{path}.other")


@pytest.mark.parametrize("words, swapped", (
    ("--sheet s.json", "s.json"), ("--sheet s.json", "m.json"), ("--sheet s.json", "a.json"), ("--sheet s.json", "a.json b.json"),
    ("--taxonomy t.zip", "t.zip"), ("--taxonomy t", "t/t.xsd t/l.xml"), ("--taxonomy t/t.xsd", "t/t.xsd t/l.xml"),
    ("--sheet s.json --labels t/t.xsd", "t/l.xml")))
def test_inputs_that_change(changing, words, swapped):
    kept = []
    for paths in ((), swapped.split()):
        write("program", WRAPPER.format(python=sys.executable, program=PROGRAM, paths=[*map(os.path.abspath, paths)]))
        os.chmod("program", 0o755)
        done = run(*words.split(), "-o", "out", "--normalise", "--map", "B=m.json", "A=a.json", "B=b.json", program="./program")
        kept.append((done.returncode, done.stdout, done.stderr, files_of("out")))
        shutil.rmtree("out")
    assert kept[0][0] in (0, 1) and kept[0] == kept[1]


@pytest.fixture
def nights():
    """Runs the tool on two nights, with one new contradiction. Returns the words of the second run."""
    for night, change in (("first", lambda value: value), ("second", lambda value: value + 10**6 * (value < 50_000_000))):
        write(f"{night}.json", report(change=change))
    write("a.json", report(change=lambda value: value + 10**8 * (value > 250_000_000)))
    words = ["--sheet", "sheet.json", "-o", "nights", "A=a.json"]
    run(*words, "B=first.json")
    return [*words, "B=second.json", "--since", "nights"]


def test_the_night_after(nights):
    done = run(*nights)
    assert "since nights: 1 new, 0 changed, 1 open, 0 gone" in done.stdout, done.stderr
    assert [(line["change"], line["concept"].rpartition("}")[2]) for line in table_in("nights/since.csv")] == [("new", "Item0"), ("open", "Item5")]
    write("nights/summary.json", json.dumps({**json.loads(bytes_of("nights/summary.json")), "format": 2}))
    done = run(*nights)
    assert done.returncode == 3 and "has the format 2, but --since reads the format 1" in done.stderr


def test_the_workbook_has_the_rows_of_the_table(nights):
    pytest.importorskip("xlsxwriter")
    openpyxl = pytest.importorskip("openpyxl")
    run(*nights, "--xlsx", "book.xlsx")
    with open("nights/table.csv", encoding="utf-8-sig", newline="") as file:
        table = [*csv.reader(file)]
    cells = openpyxl.load_workbook("book.xlsx")["rows"].iter_rows(values_only=True)
    rows = [["" if it is None else it if isinstance(it, str) else format(it, ".15g") for it in line] for line in cells]
    assert rows[1:] == table[1:]


@pytest.mark.parametrize("decimals, apart, losses", ((-3, 0, [("annual.json", "f0", "superseded", "superseded by restated.json")]), (99, 1, [])))
def test_restated_figures(decimals, apart, losses):
    """The report that restates a figure is accepted or, for its decimals, refused."""
    write("annual.json", report())
    write("b.json", report(change=lambda value: value + 10**6 * (value < 50_000_000)))
    write("restated.json", report(CONCEPTS[:1], decimals=decimals, change=lambda value: value + 10**6))
    done = run("--latest", "--sheet", "sheet.json", "-o", "latest", "A=annual.json", "A=restated.json", "B=b.json")
    assert done.stdout.startswith(f"6 rows: {apart} contradiction"), done.stderr
    changes = table_in("latest/changes.csv") if os.path.exists("latest/changes.csv") else []
    assert [(line["report"], line["fact"], line["rule"], line["why"]) for line in changes] == losses
    command = html.unescape(re.search("<pre>(.*?)</pre>", bytes_of("latest/page.html").decode())[1])
    check = subprocess.run(["bash", "-c", command], capture_output=True, text=True)
    assert check.stdout.endswith("agree\n"), (command, check)
    wanted = [(hashlib.sha256(bytes_of(path)).hexdigest(), count) for path, count in (("annual.json", len(losses)), ("restated.json", 0), ("b.json", 0))]
    assert [(each["sha256"], each["superseded"]) for each in json.loads(bytes_of("latest/summary.json"))["reports"]] == wanted
