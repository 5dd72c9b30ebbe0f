"""Tests of tools/contradictions, with a program that prints prepared lines: of --latest, on sets of names, each of which is one value, and
on facts that do not fit their types."""
import json
import os

from test_contradictions import fact
from test_contradictions_run import Stubbed
from contradicting.normalised import superseded_in
from contradicting.sources import Report, Sources
from process import NotDone
from support import content

NAMESPACES = {"m": "http://made.example/t"}
SHEET = json.dumps({"namespaces": NAMESPACES, "concepts": {"m:Costs": "numeric", "m:Sales": "numeric"}, "dimensions": {}})
LONG = "i" * 90


def report(**values):
    """Returns a report with a fact for each concept; its identifier is LONG for sales, and the name of any other concept."""
    facts = {LONG if name == "Sales" else name: {"value": value, "dimensions": {"concept": f"m:{name}"}} for name, value in values.items()}
    return json.dumps({"documentInfo": {"documentType": "https://xbrl.org/2021/xbrl-json", "namespaces": NAMESPACES}, "facts": facts})


# A reports the costs once and the sales twice, the second time as B does; report 3 is refused
FILES = {"annual {}.json": report(Costs="2", Sales="1"), "b.json": report(Sales="3.0"), "bad.json": "{", "restated.json": report(Sales="3")}
MERGED = {"f1": ("Costs", "2"), "f2": ("Sales", "1"), "f3": ("Sales", "3")}
VERDICTS = "1 f1 f1 complete\n2 f2 f3 inconsistent apart f2 f3\n"
SOURCES = f'f1 1 "Costs"\nf2 1 "{LONG}"\nf3 2 "{LONG}"\nf3 4 "{LONG}"\n'


class Latest(Stubbed):
    def setUp(self):
        super().setUp()
        facts = {name: {"value": value, "dimensions": {"concept": f"m:{concept}"}} for name, (concept, value) in MERGED.items()}
        self.prints("merge", json.dumps({"documentInfo": {"namespaces": NAMESPACES}, "facts": facts}))
        self.prints("verdicts", VERDICTS)
        self.prints("sources", SOURCES)
        self.refuses("report 3: 1 NotJson at document\n", ("a sentence", {}))
        self.sheet = self.write("sheet.json", SHEET)
        self.paths = [self.write(name, text) for name, text in FILES.items()]
        self.words = [f"{name}={path}" for name, path in zip("ABAA", self.paths)]

    def run_latest(self, *words):
        done = self.run_on(*words, *self.words, sheet=("--sheet", self.sheet))
        self.assertEqual(done.returncode, 1, done.stderr)
        return done

    def test_superseded_facts_are_dropped_and_listed(self):
        done, (annual, b, bad, restated) = self.run_latest("--latest"), self.paths
        self.assertIn(f"contradictions: {annual}: later reports of A supersede 1 fact, listed in changes.csv\n", done.stderr)
        self.assertIn("; 1 report refused; 1 loss in changes.csv; ", done.stdout)
        (change,) = self.cells("changes.csv")
        self.assertEqual({key: change[key] for key in ("provider", "report", "fact", "number", "pointer", "rule", "loss", "was", "why", "shortened")},
                         {"provider": "A", "report": annual, "fact": f"{LONG[:80]}..", "number": "2", "pointer": f"/facts/{LONG[:80]}..",
                          "rule": "superseded", "loss": "true", "was": '{"value":"1","dimensions":{"concept":"m:Sales"}}',
                          "why": f"superseded by {restated}", "shortened": "true"})
        written = os.path.join(self.output, "reports", "1.json")
        self.assertEqual(json.loads(content(written)), json.loads(report(Costs="2")))
        self.assertEqual(os.listdir(os.path.join(self.output, "reports")), ["1.json"])
        first, rest = [annual, b, bad, restated], ["latest0", b, bad, restated]
        self.assertEqual(self.log()[:5], [("verdicts", first), ("sources", first), ("merge", rest), ("verdicts", rest), ("sources", rest)])
        summary = json.loads(content(os.path.join(self.output, "summary.json")))
        self.assertEqual([(each["path"], each["superseded"], each["bytes"]) for each in summary["reports"]],
                         [(path, int(path == annual), len(text)) for path, text in zip(self.paths, FILES.values())])
        self.assertEqual([(each["normalised"] or {}).get("path") for each in summary["reports"]], [written, None, None, None])
        self.assertIn(f" -- {written} {b} {bad} {restated}</pre>", content(self.page))
        self.assertIn("<p>Facts left out because a later report of the same provider supersedes them: 1, listed in changes.csv.</p>", content(self.page))

    def test_without_the_option_a_restatement_is_a_hint(self):
        self.run_latest()
        self.assertFalse(os.path.exists(os.path.join(self.output, "changes.csv")))
        self.assertNotIn("supersedes them", content(self.page))
        self.assertIn("A: restated: restated.json after annual {}.json", self.cells("table.csv")[1]["hint"])

    def test_if_nothing_is_superseded_the_table_of_changes_is_empty(self):
        os.mkdir(self.output)
        self.write("out/changes.csv", "of another run")
        self.words = [f"{name}={path}" for name, path in zip("ABC", self.paths)]
        self.prints("sources", SOURCES.replace(" 4 ", " 2 "))
        self.run_latest("--latest")
        self.assertEqual((self.cells("changes.csv"), self.log()[0][0]), ([], "merge"))

    def test_a_report_that_repeats_a_member_stops_the_run(self):
        self.write("annual {}.json", FILES["annual {}.json"].replace('"facts"', '"facts": {}, "facts"'))
        done = self.run_on("--latest", *self.words, sheet=("--sheet", self.sheet))
        self.assertEqual((done.returncode, done.stdout, os.path.exists(self.output)), (3, "", False))
        self.assertTrue(done.stderr.startswith(f"contradictions: {self.paths[0]}: the member \"facts\" is repeated"), done.stderr)

    def test_only_the_last_report_of_a_row_counts(self):
        # a row of eleven facts, and one in which a report repeats itself
        verdicts = self.write("verdicts", "1 f01 f11 inconsistent apart f01 f02\n2 f12 f13 inconsistent apart f12 f13\n")
        lines = [(1, 1, "a"), (1, 2, "b"), (2, 3, "c"), (11, 5, "d"), (11, 4, "e"), *((number, 4, f"x{number}") for number in range(3, 11)),
                 (12, 1, "f"), (12, 1, "g"), (13, 1, "h"), (13, 3, "i")]
        text = "".join(f'f{fact:02} {number} "{name}"\n' for fact, number, name in sorted(lines))
        path, reports = self.write("sources", text), [Report(name, str(number)) for number, name in enumerate("AABBA")]
        self.assertEqual(superseded_in(verdicts, Sources(path, reports)), {0: {"a": 4}, 1: {"b": 4}, 2: {"c": 3}})
        for lines, wrong in ((None, text + 'f14 1 "z"\n'), (None, text.replace("f12", "f11")), (None, text.partition("f12")[0]), ("a line\n", text)):
            self.write("sources", wrong)
            sources = Sources(path, reports)
            self.addCleanup(sources.file.close)
            self.assertRaises(NotDone, superseded_in, self.write("verdicts", lines) if lines else verdicts, sources)


SETS = {"namespaces": {"eg": "http://a.example"}, "concepts": {"eg:S": "text", "eg:T": "text"}, "xbrlmerge:sets": ["eg:S"]}
MERGED_SET = '{"documentInfo":{"namespaces":{"n1":"http://a.example"}},"facts":{"f1":{"dimensions":{"concept":"n1:S"},"value":"%s"}}}'


def report_of(value, uri="http://a.example", concept="eg:S"):
    fact = {"value": value, "dimensions": {"concept": concept}}
    return json.dumps({"documentInfo": {"namespaces": {"eg": "http://a.example", "x": uri}}, "facts": {"f": fact}})


class Sets(Stubbed):
    def setUp(self):
        super().setUp()
        self.prints_nothing()
        self.sheet = self.write("sheet.json", json.dumps(SETS))

    def run_sets(self, *texts, options=()):
        """Runs the tool on reports with these texts. Returns the process and the texts that the program read."""
        paths = [self.write(f"{name}.json", text) for name, text in zip("abcd", texts)]
        self.forget_log()
        done = self.run_on(*options, *paths, sheet=("--sheet", self.sheet))
        given = self.log()[0][1] if os.path.exists(os.path.join(self.bin, "log")) else []
        return done, [path for path in given if path in paths]

    def test_sets_are_respelled_without_being_asked(self):
        for options in ((), ("--normalise",)):
            done, as_given = self.run_sets(report_of("x:B x:A"), report_of(" x:A", "http://b.example"), report_of("x:A", concept="eg:T"), options=options)
            self.assertEqual((done.returncode, done.stderr),
                             (0, "contradictions: 2 sets of names respelled as URI#LOCAL in changes.csv, which loses nothing\n"))
            values = [json.loads(content(os.path.join(self.output, "reports", f"{n}.json")))["facts"]["f"]["value"] for n in (1, 2)]
            self.assertEqual(values, ["http://a.example#A http://a.example#B", "http://b.example#A"])
            self.assertEqual([cell["rule"] for cell in self.cells("changes.csv")], ["set", "set"])
            self.assertEqual([os.path.basename(path) for path in as_given], [] if options else ["c.json"])

    def test_a_report_with_another_set_is_not_merged(self):
        for text, why in ((report_of("x:A x:A"), 'fact "f": the set repeats a name'), (report_of("q:A"), 'fact "f": the set repeats a name, or has'),
                          ("{", "its sets are not respelled: the file cannot be read as JSON"), ('{"a":1,"a":2}', "is repeated")):
            done, as_given = self.run_sets(text, report_of("http://a.example#A"))
            self.assertEqual((done.returncode, [os.path.basename(path) for path in as_given]), (1, ["b.json"]), done.stderr)
            self.assertIn("1 report refused", done.stdout)
            self.assertIn(f"contradictions: {self.path_of('a.json')}: ", done.stderr)
            self.assertIn(why, done.stderr)
            self.assertFalse(os.path.exists(os.path.join(self.output, "reports")))

    def test_nothing_is_written_if_no_report_is_left(self):
        done, _ = self.run_sets(report_of("q:A"))
        self.assertEqual((done.returncode, done.stdout, os.path.exists(self.output)), (3, "", False))
        self.assertIn("a.json: ", done.stderr)

    def test_earlier_output_has_only_sets_with_their_namespaces(self):
        verdicts = self.write("verdicts", "1 f1 f1 complete\n")
        for value, status in (("", 0), ("http://a.example#A http://b.example#A", 0), ("x:A", 3), ("http://a.example#B http://a.example#A", 3),
                              ("http://a.example#A  http://a.example#B", 3), ("#A", 3), ("http://a.example#A http://a.example#A", 3)):
            done = self.run_tool(self.write("merged.json", MERGED_SET % value), self.sheet, verdicts)
            self.assertEqual(done.returncode, status, (value, done.stderr))
            self.assertEqual(b"a set that is not written as URI#LOCAL" in done.stderr, status == 3)


URIS = {"n1": "http://a.example", "n2": "http://www.xbrl.org/2003/instance", "n3": "http://www.xbrl.org/2003/iso4217"}
TYPED = {"namespaces": URIS, "concepts": {"n1:B": "text", "n1:M": "numeric", "n1:P": "numeric", "n1:S": "numeric"}, "dimensions": {"n1:D": "typed"},
         "xbrlmerge:types": {"boolean": ["n1:B"], "date": ["n1:D"]}, "xbrlmerge:periods": {"instant": ["n1:M"], "duration": ["n1:B", "n1:S"]},
         "xbrlmerge:items": {"monetary": ["n1:M"], "pure": ["n1:P"], "shares": ["n1:S"]}}
INSTANT, DURATION = "2024-01-01T00:00:00", "2023-01-01T00:00:00/2024-01-01T00:00:00"
VALUE, PERIOD, UNIT = "the value is not a valid boolean", "the period is not a", "the unit is not"
# for each fact: the concept, other dimensions, the value, and the warnings
FACTS = (
    ("B", {"n1:D": "2023-02-30"}, "1", ["a typed member is not a valid date"]), ("B", {"n1:D": None}, "yes", [VALUE]),
    ("B", {"period": DURATION}, " true ", []), ("B", {"period": INSTANT}, None, [f"{PERIOD} duration"]),
    ("M", {"period": INSTANT, "unit": "n3:EUR"}, "1", []), ("M", {"unit": "n3:EUR"}, "1", [f"{PERIOD}n instant"]),
    ("M", {"period": DURATION, "unit": "n3:EURO"}, None, [f"{PERIOD}n instant", f"{UNIT} an ISO 4217 currency"]),
    ("M", {"period": INSTANT, "unit": "n3:EUR/n2:shares"}, "1", [f"{UNIT} an ISO 4217 currency"]),
    ("P", {}, "1", []), ("P", {"unit": "n3:EUR"}, "1", [f"{UNIT} xbrli:pure"]), ("S", {"unit": "n2:shares"}, "1", []),
    ("S", {"period": INSTANT}, "1", [f"{PERIOD} duration", f"{UNIT} xbrli:shares"]),
)


class Warned(Stubbed):
    def test_facts_that_do_not_fit_their_types(self):
        facts = [fact(value, None, f"n1:{concept}", **more) for concept, more, value, _ in FACTS]
        names = [f"f{n:02}" for n in range(1, len(facts) + 1)]
        texts = self.inputs(facts, TYPED, "".join(f"{n} {name} {name} complete\n" for n, name in enumerate(names, 1)))
        wanted = [(name, warning) for name, each in zip(names, FACTS) for warning in each[3]]
        done = self.run_tool(*texts)
        self.assertEqual((done.returncode, [(cell["fact"], cell["warning"]) for cell in self.cells("warnings.csv")]), (0, wanted), done.stderr)
        lines = done.stderr.decode().splitlines()
        self.assertEqual(lines[1], f"contradictions: {PERIOD} duration in 2 facts, such as f04 (warnings.csv)")
        self.assertEqual(len(lines), len({warning for _, warning in wanted}))
        self.assertIn(f"; {len(wanted)} warnings in warnings.csv; page: ", done.stdout.decode())
        self.assertIn(f"<li><bdi>{VALUE} in 1 fact, such as f02 (warnings.csv)</bdi>", content(self.page))
        self.assertEqual([self.run_tool(*texts, "--fail-on", kind).returncode for kind in ("warnings", "losses")], [1, 0])
