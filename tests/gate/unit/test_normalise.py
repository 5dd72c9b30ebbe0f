"""Tests of tools/normalise: the reports of tests/program/normalise and bad inputs. tests/program/test_normalised.py draws more."""
import json
import os
import subprocess
import sys
from unittest import mock

import in_process
import normalise
import process
from normalising.json_text import read_json, text_of
from support import content

TOOL = os.path.join(in_process.TOOLS, "normalise.py")
REPORTS = f"{in_process.TOP}/tests/program/normalise"
EMPTY = '{"documentInfo":{}}'


def part_at(tree, pointer):
    """Returns the object that contains the target of a pointer, and the target's key in it."""
    *path, key = (step.replace("~1", "/").replace("~0", "~") for step in pointer.split("/")[1:])
    for step in path:
        tree = tree[step]
    return tree, key


def undo(tree, changes):
    """Undoes changes, the last one first."""
    for change in reversed(changes):
        part, key = part_at(tree, change["pointer"])
        if "moved" in change or "was" not in change:
            moved, name = part_at(tree, change.get("moved", change["pointer"]))
            del moved[name]
        if change["rule"] == "facts-array":  # the line only counts the facts
            part[key] = [{"id": name, **fact} for name, fact in part[key].items()]
        elif "was" in change:
            part[key] = change["was"]


class ToolTest(in_process.RoomTest):
    def setUp(self):
        super().setUp()
        self.out, self.changes = self.path_of("out.json"), self.path_of("changes.jsonl")

    def run_tool(self, *words):
        """Runs the tool in this process, and returns its status and its standard error."""
        return in_process.run(normalise, *words)

    def refusing(self, faults, **also):
        """Makes a stub program that refuses facts and, if `also` is given, the document. Returns the options that use it."""
        os.makedirs(self.path_of("bin"), exist_ok=True)
        explained = [{"place": "fact 1", "identifier": fact, **dict(zip(("number", "name"), why.split()))} for fact, why in faults.items()]
        self.write("bin/explain.out", "".join(json.dumps(fault) + "\n" for fault in [*explained, *[also] * bool(also)]))
        self.write("bin/explain.status", "1")
        return ["--drop-unreadable", "--program", in_process.stub_program(self.path_of("bin"))]

    def normalised(self, report, *options):
        """Runs the tool. Its status must be 1 if a change loses something, and 0 otherwise. Undoing the changes must give the
        report, and a second run must change nothing. Returns the status, standard error, the output and the changes."""
        with mock.patch.object(process, "MOST_CHARACTERS", sys.maxsize):
            self.run_tool(report, self.out, self.changes, *options)
        tree = read_json(self.out)
        undo(tree, self.changes_listed())
        self.assertEqual(tree, read_json(report), "undoing the changes does not give the report")
        status, errors = self.run_tool(report, self.out, self.changes, *options)
        self.assertIn(status, (0, 1), errors)
        out, changes = content(self.out), self.changes_listed()
        self.assertEqual(status, int(any(change["loss"] for change in changes)))
        again = self.run_tool(self.write("again.json", out), self.path_of("out2"), self.path_of("changes2"), *options)
        self.assertEqual((again, content(self.path_of("out2")), content(self.path_of("changes2"))), ((0, errors), out, ""))
        return status, errors, out, changes

    def changes_listed(self):
        return [self.tree_of(line) for line in content(self.changes).splitlines()]

    def tree_of(self, text):
        return read_json(self.write("tree.json", text))


class Reports(ToolTest):
    """Normalises the reports of tests/program/normalise, and compares the outputs with the files beside them."""

    def test_each_report_comes_out_as_it_stands_beside_it(self):
        cases = [json.loads(line) for line in content(os.path.join(REPORTS, "cases.jsonl")).splitlines()]
        self.assertGreaterEqual(len({case["report"] for case in cases}), 60)
        self.assertGreaterEqual(len({os.path.dirname(case["report"]) for case in cases}), 12)
        for case in cases:
            with self.subTest(case["report"]):
                stem = os.path.join(REPORTS, case["report"])
                sheet = os.path.join(os.path.dirname(stem), "sheet.json")
                wanted = content(f"{stem}.changes.jsonl")
                # for --drop-unreadable, a stub replaces the program; tests/program/test_normalised.py runs the built program
                dropped = [change for change in map(json.loads, wanted.splitlines()) if change["rule"] == "drop-unreadable"]
                options = [word for word in case["options"] if word != "--drop-unreadable"]
                if options != case["options"]:
                    options += self.refusing({change["fact"]: change["why"] for change in dropped})
                status, _, out, _ = self.normalised(f"{stem}.json", "--sheet", sheet, *options)
                self.assertEqual((status, out, content(self.changes)), (case["status"], content(f"{stem}.out.json"), wanted))


SHEET = {
    "namespaces": {"eg": "http://example.org/t"},
    "concepts": {"eg:A": "numeric", "eg:Q": "name", "eg:S": "text", "eg:T": "text"},
    "dimensions": {"eg:Reg": "explicit", "eg:Sku": "typed"},
    "xbrlmerge:sets": ["eg:S"],
}


# values of numbers and periods that stay, apart from report_shapes.txt: for some options, with a line on standard error or without
NUMBERS = ("12345678901234567890.123", "1.000000000000000001", '"INF"', '"NaN"', '"1,000"', '"e5"', '"0x1E2"', '"\u0661E1"', "null", "{}", "[1]")
BEYOND = ("1E18", "1E-19", "1.0000000000000000001e0", "1e999999999", "1e99999999999999999999", "1e-999999999")
PERIODS = {"--scale=ix": ("2023-Q1", "2023-12-31T00:00:00.50", "2023-12-31.0", "2023"), "--dates=xbrl21": ("2023-02-30",), "--zones=utc": (
    "0001-01-01T00:00:00+01:00", "9999-12-31T24:00:00-01:00", "2023-12-31T00:00:00+14:01", "2023-12-31T00:00:00.5Z", "2023-12-31T24:00:01+01:00", "2023-12-31Z")}


class Left(ToolTest):
    """Tests on a report with one fact."""

    def fact_of(self, fact, *options):
        """Normalises a report with this fact, given as JSON. Returns the new fact, and standard error."""
        text = '{"documentInfo":{"namespaces":{"eg":"http://example.org/t"}},"facts":{"f":%s}}' % fact
        _, errors, out, _ = self.normalised(self.write("report.json", text), *options)
        return self.tree_of(out)["facts"]["f"], errors

    def test_numbers(self):
        sheet = self.write("sheet.json", json.dumps(SHEET))
        for token in (*NUMBERS, *BEYOND):
            fact, errors = self.fact_of('{"value":%s,"dimensions":{"concept":"eg:A"}}' % token, "--sheet", sheet)
            self.assertEqual(text_of(fact["value"]).strip('"'), text_of(self.tree_of(token)).strip('"'))
            self.assertEqual("is left: written without an exponent, it has more than 18 digits" in errors, token in BEYOND, token)

    def test_without_a_sheet_no_kind_is_guessed(self):
        for value in ("1E5", " 5 ", "eg:B eg:A", "1"):
            self.assertEqual(self.fact_of('{"value":"%s","dimensions":{"concept":"eg:A"}}' % value)[0]["value"], value)

    def test_periods(self):
        for options, periods in PERIODS.items():
            for period in periods:
                fact, errors = self.fact_of('{"value":null,"dimensions":{"period":%s}}' % json.dumps(period), options)
                self.assertEqual((fact["dimensions"]["period"], "is left" in errors), (period, period != "2023-Q1"), errors)


class Unreadable(ToolTest):
    """Tests of --drop-unreadable, with a stub program that prints the faults."""

    def setUp(self):
        super().setUp()
        self.sheet = self.write("sheet.json", json.dumps(SHEET))
        self.report = self.write("report.json", '{"documentInfo":{},"facts":{"f":{"value":5,"id":1},"g":{"value":6}}}')

    def test_a_refused_fact_has_one_change(self):
        status, errors, out, changes = self.normalised(self.report, "--sheet", self.sheet, *self.refusing({"f": "11 DimensionsMissing"}))
        self.assertEqual((status, errors, out), (1, "", '{"documentInfo":{},"facts":{"g":{"value":"6"}}}\n'))
        self.assertEqual([(change["fact"], change["rule"], change.get("why")) for change in changes],
                         [("f", "drop-unreadable", "11 DimensionsMissing"), ("g", "value-text", None)])

    def test_why_a_document_is_refused_is_reported(self):
        options = self.refusing({}, place="document", identifier=None, number=2, name="MemberForm", sentence='"documentInfo" is missing')
        status, errors, out, _ = self.normalised(self.report, "--sheet", self.sheet, *options)
        self.assertEqual((status, errors), (0, 'normalise: the document is refused: 2 MemberForm: "documentInfo" is missing\n'))
        self.assertEqual(out, '{"documentInfo":{},"facts":{"f":{"value":"5"},"g":{"value":"6"}}}\n')

    def test_a_folder_that_is_missing(self):
        out = self.path_of("nowhere/out.json")
        status, errors = self.run_tool(self.report, out, self.changes, "--sheet", self.sheet, *self.refusing({}))
        self.assertEqual((status, errors), (3, f"normalise: {out}: No such file or directory\n"))
        # a sheet that cannot be read twice
        os.mkfifo(self.path_of("fifo"))
        status, errors = self.run_tool(self.report, self.out, self.changes, "--sheet", self.path_of("fifo"), *self.refusing({}))
        self.assertEqual(status, 2, errors)
        self.assertIn("--drop-unreadable needs a sheet in a file", errors)

    def test_a_program_that_fails_is_reported(self):
        options = self.refusing({})
        for name, text, why in (("explain.err", "error: unexpected argument '--format' found\n", "xbrlmerge explain: error: unexpected"),
                                ("explain.err", "", "ended with status 3"), ("explain.status", "1", None)):
            self.write("bin/explain.status", "3")
            self.write(f"bin/{name}", text)
            status, errors = self.run_tool(self.report, self.out, self.changes, "--sheet", self.sheet, *options)
            self.assertEqual((status, os.path.exists(self.out)), (3, False) if why else (0, True), errors)
            self.assertIn(why or "", errors)
        self.assertEqual(self.run_tool(self.report, self.out, self.changes, "--sheet", self.sheet, *options[:-1], self.path_of("no"))[0], 3)


class BadInputs(ToolTest):
    def check_refused(self, wanted, *words):
        """Runs the tool, which must end with status 3, print one line with the reason, and leave no new file."""
        before = set(os.listdir(self.scratch))
        status, lines = self.run_tool(*words)
        self.assertEqual((status, len(lines.splitlines())), (3, 1), lines)
        self.assertIn(wanted, lines)
        self.assertEqual(set(os.listdir(self.scratch)), before)

    def check_report(self, wanted, text):
        self.check_refused(wanted, self.write("bad.json", text), self.out, self.changes)

    def test_members_that_stand_twice(self):
        self.check_report('the member "a" is repeated in the root: 1 and 2.50', '{"a":1,"a":2.50}')
        self.check_report('"k" is repeated in /facts/~1~0/0: null and null', '{"documentInfo":{},"facts":{"/~":[{"k":null,"k":null}]}}')
        both = '{"documentInfo":{},"facts":{"f":{"dimensions":{"concept":"a:A","xbrl:concept":"a:B"}}}}'
        self.check_report('/facts/f/dimensions/xbrl:concept and concept are the same member: "a:A" and "a:B"', both)

    def test_what_is_no_json(self):
        for text in ("{", '{"a":01}', "[" * 100_000, '{"a":"\n"}'):  # test_normalise_hostile.py has more
            self.check_report("bad.json", text)
        self.check_report("not a report", "[]")
        self.write("out.json", "of a run before")
        self.check_report("bad.json", "{")
        self.assertEqual(content(self.out), "of a run before")

    def test_files_that_are_missing_or_that_cannot_be_written(self):
        report = self.write("good.json", EMPTY)
        self.check_refused("nowhere", self.path_of("nowhere"), self.out, self.changes)
        self.check_refused("nowhere", report, self.out, self.changes, "--sheet", self.path_of("nowhere"))
        self.check_refused("/no", report, self.out, os.path.join(self.scratch, "no", "x"))
        self.check_refused("not a file", report, self.out, self.scratch)

    def test_what_is_no_sheet(self):
        report = self.write("good.json", EMPTY)
        name = '{"namespaces":{"p":"u"},"concepts":{"p:A":"numeric"},"xbrlmerge:sets":["p:A"]}'
        for text in ("", "[]", '{"concepts":[]}', '{"concepts":{"p:A":"text"}}', '{"namespaces":{"p":"u"},"concepts":{"p:A":"x"}}', name):
            self.check_refused("bad.json", report, self.out, self.changes, "--sheet", self.write("bad.json", text))

    def test_usage(self):
        report = self.write("good.json", EMPTY)
        for words in ([], [report, self.out], [report, self.out, self.out], [report, self.out, report]):
            self.assertEqual(self.run_tool(*words)[0], 2)
        for option in ("--drop-unknown", "--drop-unreadable", f"--map={report}", "--dates=iso", "--zones=cet"):
            self.assertEqual(self.run_tool(report, self.out, self.changes, option)[0], 2)

    def test_the_command(self):
        run = [sys.executable, TOOL]
        self.assertEqual(subprocess.run([*run, "--help"], capture_output=True).returncode, 0)
        done = subprocess.run([*run, self.write("good.json", '{"documentInfo":{},"id":1}'), self.out, self.changes], capture_output=True)
        self.assertEqual((done.returncode, done.stdout, done.stderr, content(self.out)), (0, b"", b"", EMPTY + "\n"))

    def test_ten_thousand_facts_take_seconds(self):
        fact = '"f%d":{"value":%d.50,"decimals":"2","dimensions":{"concept":"eg:A","period":"2023-12-31T00:00:00.000Z"}}'
        text = '{"documentInfo":{},"facts":{%s}}' % ",".join(fact % (n, n) for n in range(10_000))
        status, _ = self.run_tool(self.write("large.json", text), self.out, self.changes, "--zones=utc")
        self.assertEqual((status, content(self.changes).count("\n")), (1, 40_000))
