"""A trial of tools/contradictions, which the script `examples` runs: three providers, a taxonomy with labels, planted differences."""
import json
import os
import subprocess
import tempfile
import zipfile

from support import TOP, content, table_in, write

NAMESPACE = "http://trial.example/t"
SCALED = [f"Item{number:02}" for number in range(1, 21)]  # concepts that Beta reports 1,000 times smaller
NUMBERS = [*SCALED, "Profit", "Equity", "Inventories", "Staff"]
SCHEMA = """<xs:schema xmlns:xs="http://www.w3.org/2001/XMLSchema" xmlns:xbrli="http://www.xbrl.org/2003/instance"
    targetNamespace="http://trial.example/t">%s</xs:schema>"""
ELEMENT = '<xs:element id="t_{0}" name="{0}" type="xbrli:monetaryItemType" substitutionGroup="xbrli:item"/>'
LINKBASE = """<link:linkbase xmlns:link="http://www.xbrl.org/2003/linkbase" xmlns:xlink="http://www.w3.org/1999/xlink">
    <link:labelLink>%s</link:labelLink></link:linkbase>"""
LABEL = """<link:loc xlink:href="t.xsd#t_{0}" xlink:label="{0}"/><link:labelArc xlink:from="{0}" xlink:to="{0}_label"/>
    <link:label xlink:label="{0}_label" xml:lang="en">{0} of the group</link:label>"""
USUAL = {**{name: f"{4_321 + index}000" for index, name in enumerate(SCALED)}, "Equity": "700000", "Inventories": "90000", "Staff": "100"}
# for each file: its provider and its values. Alpha restates its profit. Beta reports items 1,000 times smaller, a nil and another
# staff, and no profit. Gamma lacks the equity.
FILES = {
    "annual.json": ("Alpha", {**USUAL, "Profit": "500000"}),
    "restated.json": ("Alpha", {"Profit": "520000"}),
    "beta.json": ("Beta", {**USUAL, **{name: USUAL[name][:-3] for name in SCALED}, "Inventories": None, "Staff": "140"}),
    "gamma.json": ("Gamma", {**{name: value for name, value in USUAL.items() if name != "Equity"}, "Profit": "520000"}),
}


def write_package(path):
    with zipfile.ZipFile(path, "w") as package:
        package.writestr("t/t.xsd", SCHEMA % "".join(map(ELEMENT.format, NUMBERS)))
        package.writestr("t/labels.xml", LINKBASE % "".join(map(LABEL.format, NUMBERS)))
        package.writestr("META-INF/taxonomyPackage.xml", "<a/>")


def report(values):
    dimensions = {"entity": "t:group", "period": "2024-01-01T00:00:00", "unit": "t:EUR"}
    facts = {f"i{index}": {"value": value, "dimensions": {"concept": f"t:{name}", **dimensions}} for index, (name, value) in enumerate(values.items())}
    return json.dumps({"documentInfo": {"documentType": "https://xbrl.org/2021/xbrl-json", "namespaces": {"t": NAMESPACE}}, "facts": facts})


def run(program, scratch, files, *options):
    """Writes the taxonomy and the reports, and runs the tool on them. Returns the process that ended."""
    write_package(os.path.join(scratch, "taxonomy.zip"))
    for name, (_, values) in files.items():
        write(os.path.join(scratch, name), report(values))
    words = ["--program", program, "--taxonomy", "taxonomy.zip", *options, *(f"{provider}={name}" for name, (provider, _) in files.items())]
    return subprocess.run([os.path.join(TOP, "tools", "contradictions"), *words], capture_output=True, text=True, cwd=scratch)


def faults(program):
    """Runs the tool on the reports with their taxonomy. Returns what it does not find."""
    with tempfile.TemporaryDirectory() as scratch:
        ran = run(program, scratch, FILES, "-o", "out")
        line = "contradictions: Beta: 1,000 times smaller in 20 of 23 rows that others report, too\n"
        if (ran.returncode, ran.stderr) != (1, line):
            return [f"the trial ends with {ran.returncode}: {ran.stderr}"]
        folder = os.path.join(scratch, "out")
        return lacking(content(os.path.join(folder, "page.html")), *(table_in(os.path.join(folder, name)) for name in ("contradictions.csv", "table.csv")))


def lacking(page, cells, rows):
    found = {(cell["label"].split()[0], cell["value"]): (cell["group"], cell["identifiers"]) for cell in cells}
    row, data = {row["label"]: row for row in rows}, json.loads(page.split('id="data">')[1].split("</script>")[0])
    scaled = data["texts"].index("Beta: 1,000 times smaller")
    checks = {
        "the restatement with its file": found.get(("Profit", "500000")) == ("2", f"Alpha: annual.json, i{len(USUAL)}")
        and found["Profit", "520000"][0] == "1" and row["Profit of the group"]["hint"] == "Alpha: restated: restated.json after annual.json",
        "the scale error as one hint": sum(scaled in (each[8:9] or [[]])[0] for each in data["rows"]) == 20,
        "the missing fact by its label": row["Equity of the group"]["not_reported_by"] == "Gamma",
        "the outlier's group": found.get(("Staff", "140"), " ")[0] == "2" and found.get(("Staff", "100"), " ")[0] == "1",
        "the nil": row["Inventories of the group"]["nil_by"] == "Beta" and row["Inventories of the group"]["hint"] == "Beta: nil",
        "all rows": len(rows) == len(NUMBERS) and row["Staff of the group"]["provider: Beta"] == "140",
    }
    return [f"the trial of tools/contradictions does not find {what}" for what, holds in checks.items() if not holds]
