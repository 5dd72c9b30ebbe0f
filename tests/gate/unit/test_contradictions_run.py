"""Tests of tools/contradictions on reports, with a program that prints prepared lines, and of what it writes for tools/recheck."""
import fcntl
import hashlib
import html
import json
import os
import pty
import re
import resource
import shutil
import signal
import subprocess
import sys
import time
import unittest

import in_process
from contradicting import snapshot
from support import content
from test_contradictions import TOOL, ToolTest, example

REPORTS = [os.path.realpath(example(f"{name}.json")) for name in ("issuer", "ledgerline", "statfeed")]
SHEET = example("sheet.json")
SUMMARY = "64 rows: 3 contradictions, 3 reported by one provider, 13 agree exactly, 45 agree within rounding"
SCHEMA = """<xs:schema xmlns:xs="http://www.w3.org/2001/XMLSchema" xmlns:xbrli="http://www.xbrl.org/2003/instance"
    xmlns:xbrldt="http://xbrl.org/2005/xbrldt" targetNamespace="http://made.example/t">
    <xs:element id="m_Sales" name="Sales" type="xbrli:monetaryItemType" substitutionGroup="xbrli:item"/>%s</xs:schema>"""
FRACTION = '<xs:element name="Share" type="xbrli:fractionItemType" substitutionGroup="xbrli:item"/>'
PART = '<xs:element id="m_{0}" name="{0}" abstract="true" type="xbrli:stringItemType" substitutionGroup="{1}"/>'
LINKBASE = """<link:linkbase xmlns:link="http://www.xbrl.org/2003/linkbase" xmlns:xlink="http://www.w3.org/1999/xlink">
    <link:labelLink>%s</link:labelLink></link:linkbase>"""
LABEL = """<link:loc xlink:href="t.xsd#m_{0}" xlink:label="{0}"/><link:labelArc xlink:from="{0}" xlink:to="{0}_label"/>
    <link:label xlink:label="{0}_label" xml:lang="{2}"><![CDATA[{1}]]></link:label>"""
REFERENCE = """<xs:annotation><xs:appinfo><link:linkbaseRef xmlns:link="http://www.xbrl.org/2003/linkbase" xmlns:xlink="http://www.w3.org/1999/xlink"
    xlink:href="{}" xlink:role="http://www.xbrl.org/2003/role/{}LinkbaseRef"/></xs:appinfo></xs:annotation>"""
NONE = '{"documentInfo":{"namespaces":{}},"facts":{}}'
OTHER_TOOLS = """{"documentInfo":{"documentType":"https://xbrl.org/2021/xbrl-json","namespaces":{"m":"http://made.example/t"}},
    "facts":{"a":{"value":1e3,"decimals":"INF","links":{"x":{"y":["a"]}},"dimensions":{"concept":"m:Sales"}}}}"""
REFUSED = "report 2: 13 UnboundPrefix at fact 15\n"
LINKED = """{"documentInfo":{"documentType":"https://xbrl.org/2021/xbrl-json","namespaces":{"m":"http://made.example/t"}},
    "facts":{"a":{"value":"1","links":{"x":{"y":["a"]}},"dimensions":{"concept":"m:Sales"}}}}"""


class Stubbed(ToolTest):
    """Tests with the stub program in the folder `bin`. By default it prints the merged text and the lines of the examples."""

    is_empty = False

    def setUp(self):
        super().setUp()
        self.bin = self.path_of("bin")
        os.mkdir(self.bin)
        self.program = in_process.stub_program(self.bin)
        for command, name in (("merge", "merged.json"), ("verdicts", "verdicts.txt"), ("sources", "sources.txt")):
            shutil.copy(example(name), os.path.join(self.bin, f"{command}.out"))

    def prints(self, command, out=None, err=None, status=None):
        """Prepares the output, the lines on standard error and the status of a command. A part that is None stays as it was."""
        for part, text in (("out", out), ("err", err), ("status", status)):
            if text is not None:
                self.write(os.path.join("bin", f"{command}.{part}"), str(text))

    def prints_nothing(self):
        """Makes the commands print nothing. `run_on` then ignores that no provider reports a fact."""
        self.is_empty = True
        for command, text in (("merge", NONE), ("verdicts", ""), ("sources", "")):
            self.prints(command, text)

    def refuses(self, refusals, *faults):
        """Makes `merge`, `verdicts` and `sources` print refusals, and `explain` print faults. Each fault is a pair of its
        sentence and the members that differ from those of `1 NotJson` at the document."""
        for command in ("merge", "verdicts", "sources"):
            self.prints(command, err=refusals, status=1)
        usual = {"number": 1, "name": "NotJson", "identifier": None, "part": None}
        lines = (json.dumps({**usual, "sentence": sentence, **more}) + "\n" for sentence, more in faults)
        self.prints("explain", "".join(lines), status=1)

    def tool_words(self, *words, sheet=("--sheet", SHEET)):
        return [sys.executable, TOOL, "--program", self.program, *sheet, "-o", self.output, *words]

    def run_on(self, *words, sheet=("--sheet", SHEET), **options):
        others = ["--fail-on", "contradictions,refusals,losses,omissions"] if self.is_empty and "--exit-zero" not in words else []
        done = subprocess.run(self.tool_words(*others, *words, sheet=sheet), capture_output=True, text=True, **options)
        done.stderr = "".join(f"{line}\n" for line in self.other_lines(done.stderr)) if self.is_empty else done.stderr
        return done

    def refused_run(self, wanted, *words, status=3, **options):
        """Runs the tool, which must end with this status, print the reason in its last line, and make or remove no file."""
        before = sorted(os.walk(self.scratch))
        done = self.run_on(*words, **options)
        self.assertEqual((done.returncode, done.stdout), (status, ""), done.stderr)
        self.assertIn(wanted, done.stderr.splitlines()[-1])
        self.assertEqual(len(done.stderr.splitlines()), 1 if status == 3 else 2, done.stderr)
        self.forget_log()
        self.assertEqual(sorted(os.walk(self.scratch)), before)

    def log(self):
        """Returns the commands that were run, each with its reports."""
        lines = content(os.path.join(self.bin, "log")).split("\n")[:-1]
        paths = [*REPORTS, *filter(os.path.isfile, map(self.path_of, os.listdir(self.scratch)))]
        known = {hashlib.sha256(content(path).encode("utf-8", "surrogateescape")).hexdigest(): path for path in reversed(paths)}
        return [(line.split("\0")[0], [known.get(name, name) for name in line.split("\0")[1:-1]]) for line in lines]

    def forget_log(self):
        for name in ("log", "sheet"):
            if os.path.exists(os.path.join(self.bin, name)):
                os.unlink(os.path.join(self.bin, name))


class Files(Stubbed):
    def test_one_command_writes_every_file(self):
        done = self.run_on(*REPORTS)
        self.assertEqual((done.returncode, done.stderr), (1, ""))
        self.assertEqual(done.stdout, f"{SUMMARY}; page: {self.page}\n")
        self.assertEqual(sorted(os.listdir(self.output)),
                         ["contradictions.csv", "merged.json", "page.html", "providers.csv", "refusals.csv", "refusals.txt", "sources.txt",
                          "summary.json", "table.csv", "verdicts.txt", "warnings.csv"])
        self.assertEqual(content(os.path.join(self.output, "merged.json")), content(example("merged.json")))
        self.assertEqual(self.log(), [(command, REPORTS) for command in ("merge", "verdicts", "sources", "explain")])
        self.expect_kept("examples", "page.html", "contradictions.csv", "table.csv", "providers.csv")
        self.run_on("--respell", *REPORTS)
        report = json.loads(content(os.path.join(self.output, "report.json")))
        self.assertEqual(sorted(report["documentInfo"]["namespaces"]), ["ifrs-full", "iso4217", "n1", "norlake", "utr", "xbrl", "xbrli"])

    def test_inputs_may_be_in_the_folder_if_they_are_not_written(self):
        os.mkdir(self.output)
        sheet = shutil.copy(SHEET, self.output)
        self.assertEqual(self.run_on(*REPORTS, sheet=("--sheet", sheet)).returncode, 1)
        words = [os.path.join(self.output, "merged.json"), sheet, example("verdicts.txt")]
        done = self.run_tool(*words)
        self.assertEqual((done.returncode, done.stderr), (1, b""))
        self.assertEqual(self.run_on(os.path.join(self.output, "merged.json")).returncode, 2)

    def test_the_status_is_zero_without_a_contradiction_or_with_an_option(self):
        self.assertEqual(self.run_on(*REPORTS, "--exit-zero").returncode, 0)
        self.prints_nothing()
        done = self.run_on(*REPORTS)
        self.assertEqual((done.returncode, done.stderr), (0, ""))
        self.assertTrue(done.stdout.startswith("0 rows: 0 contradictions, 0 reported by one provider, 0 agree exactly, 0 agree within rounding;"
                                               " 3 providers share almost no row; page: "))

    def test_names_are_those_of_the_files_or_are_given(self):
        self.run_on(f"A={REPORTS[0]}", f"B; \u00e4={REPORTS[1]}", f"A={REPORTS[2]}")
        found = {cell["fact"]: (cell["identifiers"], cell["reported_by"]) for cell in self.cells("contradictions.csv")}
        self.assertEqual((found["f066"], found["f065"][0][:6]), (("A: issuer.json, f33; A: statfeed.json, TS08474", "1 of 2"), "B; \u00e4: "))
        page, row = content(self.page), self.cells("table.csv")[36]
        for text in ("<bdi>A issuer.json, f33; statfeed.json, TS08474</bdi>", "<bdi>B; \u00e4 ", f"<dt>Files<dd><bdi>{REPORTS[0]}</bdi>; <bdi>{REPORTS[2]}</bdi>"):
            self.assertIn(text, page)
        self.assertEqual((row["provider: A"], row["files: A"]), ("212640000", "issuer.json, statfeed.json"))
        odd = self.write("a=b.json", "{}")
        self.forget_log()
        self.prints_nothing()
        self.assertEqual(self.run_on(odd, REPORTS[0], odd).returncode, 0)
        self.assertEqual(self.log()[0][1], [odd, REPORTS[0]])

    def test_the_program_beside_the_tool_or_on_the_path(self):
        tools = os.path.join(self.scratch, "checkout", "tools")
        shutil.copytree(os.path.dirname(TOOL), tools)
        words = [sys.executable, os.path.join(tools, "contradictions.py"), "--sheet", SHEET, "-o", self.output, *REPORTS]
        for path, status in ((self.scratch, 3), (self.bin, 1)):
            done = subprocess.run(words, capture_output=True, text=True, env={**os.environ, "PATH": path})
            self.assertEqual(done.returncode, status, done.stderr)
        shutil.copytree(self.bin, self.path_of("checkout"), dirs_exist_ok=True)
        done = subprocess.run(words, capture_output=True, text=True, env={**os.environ, "PATH": self.scratch})
        self.assertEqual(done.returncode, 1, done.stderr)

    def test_progress_is_shown_on_a_terminal(self):
        main, terminal = pty.openpty()
        with subprocess.Popen(self.tool_words(*REPORTS), stdout=subprocess.PIPE, stderr=terminal) as child:
            os.close(terminal)
            seen = b""
            try:
                while piece := os.read(main, 1000):
                    seen += piece
            except OSError:  # the tool has closed the terminal
                pass
            child.communicate()
        os.close(main)
        self.assertIn(b"running verdicts on 3 reports ..", seen)
        self.assertTrue(seen.endswith(b"\r\x1b[K"))


class Refused(Stubbed):
    def test_a_refused_report_is_explained_and_the_others_go_on(self):
        bad = self.write("<b>.json", "no report")
        self.refuses("report 4: 1 NotJson at document\n", ("the file is not JSON", {}))
        done = self.run_on(*REPORTS, bad)
        self.assertEqual(done.returncode, 1)
        self.assertEqual(done.stderr, f"contradictions: {bad}: 1 NotJson: the file is not JSON\n")
        self.assertEqual(done.stdout, f"{SUMMARY}; 1 report refused; page: {self.page}\n")
        self.assertEqual(self.log()[3], ("explain", [bad]))
        page = content(self.page)
        for text in ("<b>1</b>refused reports", "&lt;b&gt;.json", "<li><bdi>1 NotJson: the file is not JSON</bdi>", "<dd>2 of 3"):
            self.assertIn(text, page)

    def test_what_explain_prints_is_bounded(self):
        more = {"number": 13, "name": "UnboundPrefix"}
        faults = [("it is not bound", {**more, "identifier": f'"{number}' + "f" * 100}) for number in range(5_000)]
        self.refuses("report 1: 13 UnboundPrefix at fact 1\n", *faults)
        done = self.run_on(*REPORTS)
        self.assertEqual(done.stderr, f'contradictions: {REPORTS[0]}: fact "\\"0{"f" * 78}..": 13 UnboundPrefix: it is not bound'
                         " (and 4999 more of this kind)\n")
        self.assertIn("<li><bdi>and 4980 more</bdi>", content(self.page))

    def test_faults_are_grouped_with_the_option_that_mends_them(self):
        kinds = ((19, "PeriodForm", "2023-12-31", "dates without a time", ' as in "2023-12-31": ', " --dates=xbrl21"),
                 (19, "PeriodForm", "2023-12-31T00:00:00Z", "moments with a time zone", ' as in "2023-12-31T00:00:00Z": ', " --zones=utc"),
                 (10, "Notes", "n1", "footnotes", ' as in "n1": ', " --drop-notes, which drops 12 of 58 facts"),
                 (25, "ValueForm", 1.5, "values that are JSON numbers", "", ""),
                 (28, "DecimalsForm", "INF", "texts as decimals", ' as in "INF": ', ""),
                 (9, "Links", {"l": {"g": ["f1"]}}, "facts with links", "", " --drop-links"))
        faults = [("a sentence", {"number": number, "name": name, "part": part, "identifier": f"{index}"})
                  for index in range(12) for number, name, part, *_ in kinds]
        self.refuses("report 1: 19 PeriodForm at fact 1\n", *faults)
        lines = self.run_on(*REPORTS).stderr.splitlines()
        wanted = [f"contradictions: {REPORTS[0]}: 12 {phrase}{',' * bool(example)}{example or ': '}--normalise{option}"
                  for *_, phrase, example, option in kinds]
        self.assertEqual(lines, wanted)
        self.assertIn('<li><bdi>12 dates without a time, as in &quot;2023-12-31&quot;: --normalise --dates=xbrl21 mends this</bdi>', content(self.page))
        lines = self.run_on(*REPORTS, "--normalise", "--drop-notes").stderr.splitlines()
        self.assertEqual([line.rpartition(": ")[2] for line in lines if ": 12 " in line], ["--dates=xbrl21", "--zones=utc", "--drop-links"])
        self.assertEqual(sum("a sentence (and 11 more of this kind)" in line for line in lines), 3)

    def test_a_report_that_cannot_be_explained_does_not_stop_the_run(self):
        self.refuses("report 1: 13 UnboundPrefix at fact 1\n")
        line = "output: more than 1073741824 bytes; --most-output BYTES sets the bound\n"
        self.prints("explain", "{", line, 3)
        self.prints("explain_all", "{", line, 3)
        done = self.run_on(*REPORTS)
        self.assertEqual((done.returncode, done.stderr.splitlines()), (1, [
            f"contradictions: repeated members are not listed: xbrlmerge explain: {line.strip()}",
            f"contradictions: {REPORTS[0]}: 13 UnboundPrefix at fact 1 (xbrlmerge explain: {line.strip()})"]))

    def test_repeated_members_of_accepted_reports_and_unexplained_refusals_are_shown(self):
        fault = {"report": 2, "number": None, "name": None, "identifier": "a", "part": "value", "sentence": '"value" is repeated'}
        self.prints("explain_all", (json.dumps(fault) + "\n") * 3, status=1)
        done = self.run_on(*REPORTS)
        self.assertEqual((done.returncode, done.stderr),
                         (1, f'contradictions: {REPORTS[1]}: fact "a": "value" is repeated (and 2 more of this kind)\n'))
        self.assertIn("; 1 report with repeated members; page: ", done.stdout)
        self.refuses("report 2: 31 DisallowedDuplicates at document\n")
        self.assertIn(f"{REPORTS[1]}: 31 DisallowedDuplicates at document\n", self.run_on(*REPORTS).stderr)

    def test_a_sheet_that_lacks_concepts(self):
        faults = [("", {"number": 16, "name": "UnknownConcept", "part": f"eg:N{number % 30}"}) for number in range(60)]
        faults.append(("", {"number": 17, "name": "UnknownDimension", "part": "eg:NAxis"}))
        self.refuses("report 1: 16 UnknownConcept at fact 1\n", *faults)
        errors = self.run_on(*REPORTS).stderr
        self.assertIn("the sheet lacks 30 concepts: eg:N0, eg:N1, ", errors)
        self.assertIn("and 10 more\n", errors)
        self.assertIn("the sheet lacks 1 dimension: eg:NAxis\n", errors)
        self.assertIn("--taxonomy PACKAGE, in place of --sheet, makes a sheet that lists the", errors)
        self.assertIn("eg:N29</p>", content(self.page))


class Prepared(Stubbed):
    def package(self, more=""):
        self.write("package/t.xsd", SCHEMA % more)
        return ["--taxonomy", self.path_of("package")]

    def test_a_taxonomy_in_place_of_a_sheet(self):
        self.prints_nothing()
        for more, status, wanted in (("", 0, ""), (FRACTION, 1, "1 omission from the taxonomy")):
            done = self.run_on(*REPORTS, sheet=self.package(more))
            self.assertEqual((done.returncode, wanted in done.stdout), (status, True), done)
            self.assertEqual(bool(done.stderr), bool(more))
            sheet = json.loads(content(os.path.join(self.output, "sheet.json")))
            self.assertEqual(sheet["concepts"], {"n1:Sales": "numeric"})
            self.assertEqual(content(os.path.join(self.bin, "sheet")), content(os.path.join(self.output, "sheet.json")))

    def labelled(self, language="en"):
        """Makes a taxonomy with labels of a concept, a dimension and a member, and a merged report that uses them. The third
        provider has no fact, which `run_on` then ignores."""
        self.is_empty = True
        parts = "".join(PART.format(name, kind) for name, kind in (("RegionAxis", "xbrldt:dimensionItem"), ("NorthMember", "xbrli:item")))
        words = self.package(parts)
        labels = "".join(LABEL.format(name, f"{name} & label", language) for name in ("Sales", "RegionAxis", "NorthMember"))
        self.write("package/labels.xml", LINKBASE % labels)
        dimensions = {"concept": "n1:Sales", "n1:RegionAxis": "n1:NorthMember"}
        facts = {f"f{value}": {"value": f"{value}", "dimensions": dimensions} for value in (1, 2)}
        self.prints("merge", json.dumps({"documentInfo": {"namespaces": {"n1": "http://made.example/t"}}, "facts": facts}))
        self.prints("verdicts", "1 f1 f2 inconsistent apart f1 f2\n")
        self.prints("sources", 'f1 1 "a"\nf2 2 "b"\n')
        return words

    def test_labels_come_from_the_taxonomy(self):
        for language, attribute in (("en", ""), ("fi", ' lang="fi"')):
            done = self.run_on(*REPORTS, "--language", language, sheet=self.labelled(language))
            self.assertEqual((done.returncode, done.stderr), (1, ""))
            page = content(self.page)
            for name in ("Sales", "RegionAxis", "NorthMember"):
                self.assertIn(f'"{attribute}>{name} &amp; label</bdi>', page)
            self.assertEqual(self.cells("table.csv")[0]["label"], "Sales & label")
        self.write("package/labels.xml", "no XML")
        done = self.run_on(*REPORTS, sheet=["--taxonomy", self.path_of("package")])
        self.assertEqual((done.returncode, done.stderr.count("\n")), (1, 1))
        self.assertIn("the page has no labels: ", done.stderr)

    def test_a_schema_names_its_labels(self):
        self.labelled()
        schema = content(self.path_of("package/t.xsd"))
        lacks = "contradictions: the page lacks the labels of 1 linkbase outside the named files, such as no.xml\n"
        for location, role, is_found, line in (("labels.xml", "label", True, ""), ("no.xml", "label", False, lacks), ("no.xml", "reference", False, "")):
            named = self.write("package/t.xsd", schema.replace("<xs:element", REFERENCE.format(location, role) + "<xs:element", 1))
            done = self.run_on(*REPORTS, sheet=["--taxonomy", named])
            self.assertEqual((done.returncode, done.stderr, ">Sales &amp; label</bdi>" in content(self.page)), (1, line, is_found))
        self.assertIn(f"<bdi>{named}</bdi><td data-name=\"Bytes\">{os.path.getsize(named)}<td", content(self.page))

    def test_reports_are_normalised_first(self):
        self.prints_nothing()
        own = [self.write("A.json", OTHER_TOOLS), self.write("B.json", OTHER_TOOLS)]
        for option, losses in (([], 0), (["--drop-links"], 2)):
            done = self.run_on("--normalise", *option, f"+A={own[0]}", own[1], sheet=self.package())
            self.assertEqual(done.returncode, int(losses > 0), done.stderr)
            self.assertEqual("; 2 losses in changes.csv; " in done.stdout, losses > 0)
            changes = self.cells("changes.csv")
            self.assertEqual([change["rule"] for change in changes[: len(changes) // 2]],
                             ["decimals-infinite", "value-text", "exponent"] + ["drop-links"] * bool(losses))
            self.assertEqual({change["provider"] for change in changes}, {"'+A", "B"})
            self.assertEqual([changes[1][key] for key in ("report", "fact", "was", "now", "loss")], [own[0], "a", "1e3", '"1e3"', "false"])
            self.assertEqual(sum(change["loss"] == "true" for change in changes), losses)
        self.assertEqual(self.log()[0][1], ["normalised0", "normalised1"])

    def test_what_cannot_be_normalised_goes_to_the_program(self):
        bad = self.write("bad.json", "[" * 100_000)
        self.prints_nothing()
        self.refuses("report 1: 1 NotJson at document\n", ("it is not JSON", {}))
        done = self.run_on("--normalise", bad)
        self.assertEqual(done.returncode, 1)
        self.assertIn("1 report refused; 1 report not normalised", done.stdout)
        self.assertIn(f"{bad} is not normalised: ", done.stderr)
        self.assertEqual(self.log()[0][1], [bad])


class BadInputs(Stubbed):
    def test_names_with_two_meanings(self):
        other = self.write("other/issuer.json", "{}")
        for words, wanted in (
            ([REPORTS[0], other], "both get the name issuer: write NAME=FILE for both"),
            ([f"issuer={REPORTS[1]}", other], "both get the name issuer"),
            ([REPORTS[0], f"issuer={other}"], "both get the name issuer"),
            ([f"A={other}", f"B={other}"], "is named twice, for A and for B"),
            ([f"={other}"], "an empty name or file"),
            (["A="], "an empty name or file"),
        ):
            self.refused_run(wanted, *words, status=2)

    def test_usage(self):
        for words in ([], [*REPORTS, "--sources", "x"], [*REPORTS, "--names", "a"], [*REPORTS, "--drop-links"], [*REPORTS, "--from", "a", "b", "c"],
                      [*REPORTS, "--near", REPORTS[0]], [*REPORTS, "--taxonomy", "x"], [*REPORTS, self.page]):
            self.refused_run("error: ", *words, status=2)
        for sheet, words in (((), REPORTS), (("--from", *REPORTS), ["--latest"])):
            self.assertEqual(self.run_on(*words, sheet=sheet).returncode, 2)

    def test_inputs_that_are_missing_or_no_files(self):
        os.mkfifo(self.path_of("fifo"))
        self.refused_run("nowhere.json: No such file or directory", REPORTS[0], "nowhere.json")
        self.refused_run("fifo is not a regular file", self.path_of("fifo"))
        self.refused_run("is not a regular file", "B=" + self.bin)
        self.refused_run("No such file or directory", *REPORTS, sheet=("--sheet", "nowhere"))
        self.refused_run("there is no such file", *REPORTS, sheet=("--taxonomy", "nowhere"))
        self.write("out", "a file")
        self.refused_run("out is not a folder; -o needs one", *REPORTS)
        self.assertEqual(content(self.output), "a file")

    def test_names_that_are_not_utf_8(self):
        self.set_output(self.path_of("a\udcff\n"))
        path = os.fsdecode(b"odd\xff.json")
        shutil.copy(REPORTS[0], self.path_of(path))
        self.prints_nothing()
        done = self.run_on("B=" + self.path_of(path))
        self.assertEqual((done.returncode, done.stderr), (0, ""))
        self.assertIn("odd\\xff.json</bdi>", content(self.page))
        self.assertTrue(done.stdout.endswith("a\\udcff\\n/page.html\n"), done.stdout)

    def test_one_run_at_a_time_writes_to_a_folder(self):
        os.mkdir(self.output)
        folder = os.open(self.output, os.O_RDONLY)
        fcntl.flock(folder, fcntl.LOCK_EX)
        self.refused_run(f"another run writes to {self.output}: wait until it ends, or name another folder", *REPORTS)
        os.close(folder)
        self.assertEqual(self.run_on(*REPORTS).returncode, 1)

    def test_a_program_that_fails(self):
        for command, out, err, status, wanted in (
            ("verdicts", "1 f", "device: 3 bytes written\n", 3, "verdicts: its output cannot be written, perhaps for lack of room"),
            ("verdicts", "1 f", "out of memory\n", 3, "verdicts: out of memory"), ("merge", "", "", 101, "merge: it ended with status 101"),
        ):
            self.prints(command, out, err, status)
            self.refused_run(f"xbrlmerge {wanted}", *REPORTS)
        self.prints("merge", "", "sheet: 32 SheetKind\n", 3)
        self.prints("explain", "", 'sheet.json: the entry "x:A": "numberic" has an unknown kind\nsheet: 32 SheetKind\n', 3)
        self.refused_run("has an unknown kind", *REPORTS)
        self.refused_run("No such file or directory", *REPORTS, "--program", self.path_of("nowhere"))

    def test_reports_that_change_meanwhile(self):
        self.prints("verdicts", err="report 1: 1 NotJson at document\n", status=1)
        self.refused_run("changed while it was read", *REPORTS)
        self.prints("verdicts", "1 f1 f1 complete\n", "", 0)
        self.refused_run("verdicts: ValueError: ", *REPORTS)

    def test_no_room_on_the_disk(self):
        def limit():
            resource.setrlimit(resource.RLIMIT_FSIZE, (20_000, 20_000))
            signal.signal(signal.SIGXFSZ, signal.SIG_IGN)

        elements = "".join(f'<xs:element name="E{n}" type="xbrli:stringItemType" substitutionGroup="xbrli:item"/>' for n in range(2_000))
        self.refused_run("File too large", *REPORTS, sheet=["--taxonomy", self.write("large.xsd", SCHEMA % elements)], preexec_fn=limit)
        self.prints_nothing()
        self.prints("merge", NONE.replace("{}}", "{}}" + " " * 15_000, 1))
        large = OTHER_TOOLS.replace('"a":', "".join(f'"{n}":{{"value":"1","dimensions":{{}}}},' for n in range(2_000)) + '"a":')
        self.refused_run("File too large", "--normalise", self.write("large.json", large), preexec_fn=limit)

    def test_a_signal_leaves_nothing(self):
        self.write(os.path.join("bin", "verdicts.waits"), "")
        before = sorted(os.walk(self.scratch))
        with subprocess.Popen(self.tool_words(*REPORTS), stdout=subprocess.PIPE, stderr=subprocess.PIPE) as child:
            while not os.path.exists(os.path.join(self.bin, "log")) or "verdicts" not in content(os.path.join(self.bin, "log")):
                time.sleep(0.01)
            child.terminate()
            self.assertEqual((child.wait(30), child.communicate()), (-signal.SIGTERM, (b"", b"")))
        self.forget_log()
        self.assertEqual(sorted(os.walk(self.scratch)), before)


class Checking(Stubbed):
    def command(self):
        """Returns the command at the foot of the page."""
        return html.unescape(re.search(r'<details class="check">.*<pre>(.*?)</pre></details>', content(self.page), re.DOTALL)[1])

    def file_text(self, name):
        return content(os.path.join(self.output, name))

    def test_the_command_checks_the_run(self):
        self.run_on(*REPORTS)
        self.assertEqual(self.file_text("verdicts.txt"), content(example("verdicts.txt")))
        self.assertEqual(self.file_text("sources.txt"), content(example("sources.txt")))
        self.assertEqual(self.file_text("refusals.txt"), "")
        done = subprocess.run(["bash", "-c", self.command()], capture_output=True, text=True)
        self.assertEqual((done.returncode, done.stderr), (0, ""))
        self.assertEqual(done.stdout, "texts compared: merged, verdicts, sources, refusals\n3 reports, 149 fact objects, 120 facts, 64 rows, 3 contradictions: agree\n")

    def test_refusals_are_written_as_they_were_printed(self):
        self.refuses(REFUSED, ("a sentence", {}))
        self.run_on(*REPORTS[:1], example("oldharbour.json"), *REPORTS[1:])
        self.assertEqual(self.file_text("refusals.txt"), REFUSED)

    def test_normalised_reports_are_written_and_others_are_not(self):
        self.prints_nothing()
        linked, broken = self.write("linked.json", LINKED), self.write("broken.json", "{")
        self.run_on("--normalise", "--drop-links", broken, linked)
        self.assertEqual(sorted(os.listdir(os.path.join(self.output, "reports"))), ["2.json"])
        self.assertNotIn("links", self.file_text("reports/2.json"))
        self.assertTrue(self.command().endswith(f" -- {broken} {self.output}/reports/2.json"), self.command())

    def test_a_sheet_that_was_made_is_named(self):
        self.prints_nothing()
        schema = self.write("core.xsd", SCHEMA % "")
        self.run_on(f"it={REPORTS[0]}", sheet=("--taxonomy", schema))
        self.assertIn(f"recheck --sheet={self.output}/sheet.json --merged={self.output}/merged.json ", self.command())
        self.assertTrue(self.command().endswith(f" -- {REPORTS[0]}"), self.command())

    def test_a_normalised_report_is_no_input(self):
        self.run_on("--normalise", *REPORTS)
        done = self.run_on("--normalise", os.path.join(self.output, "reports", "1.json"))
        self.assertEqual(done.returncode, 2)
        self.assertIn("an output is an input", done.stderr)

    def test_earlier_output_has_no_command(self):
        self.run_tool(example("merged.json"), SHEET, example("verdicts.txt"))
        self.assertNotIn('class="check"', content(self.page))


class Words(unittest.TestCase):
    def test_a_shell_reads_each_word_as_it_was(self):
        for word in ("a", "", "a b", "-x", "it's", "$(id)", "a\nb", "\x1b[31m'\\\"!", "é", "\udcff", "‮", "*", "~"):
            done = subprocess.run(["bash", "-c", f"printf %s {snapshot.quoted(word)}"], capture_output=True)
            self.assertEqual(done.stdout, os.fsencode(word))
            self.assertTrue(snapshot.quoted(word).isprintable())

    def test_the_command_names_every_file(self):
        words = snapshot.command("out put", "-s", ["-r", "a"]).split(" ", 1)[1]
        self.assertEqual(words, "--sheet=-s --merged='out put/merged.json' --verdicts='out put/verdicts.txt'"
                         " --sources='out put/sources.txt' --refusals='out put/refusals.txt' -- -r a")
