"""Tests of tools/recheck on the examples: it agrees, finds each single change in a text, never agrees with a wrong program, and names
what it takes on trust. A wrong program is tools/recheck itself with a rule changed, or with other bytes read. Its four texts and its
status fit together."""
import contextlib
import io
import json
import os
import random
import re
import subprocess
import sys
import time
from fractions import Fraction
from unittest import mock

import in_process
import recheck
from support import content

TOOL = os.path.join(in_process.TOOLS, "recheck.py")
REPORTS = ("issuer", "ledgerline", "statfeed", "oldharbour")
LINES = {"verdicts": "verdicts.txt", "sources": "sources.txt", "refusals": "refused.txt"}
AGREE = "texts compared: %s\n4 reports, 1 refused report, 149 fact objects, 120 facts, 64 rows, 3 contradictions: agree\n"
KEPT = "https://norlake.example/taxonomy/2023/norlake-2023.xsd"
TEXT = content("examples/merged.json")
LAST = TEXT[TEXT.index(',"f120"'):-2]
GOODWILL = '"n6:Goodwill","entity":"n1:743700NORLAKEOYJ0017","period":"2024-01-01T00:00:00"'
COST = '"unit":"n3:EUR/(n4:km*n4:t)"'
UNJUDGED = object()
# base URLs, references, and their kept texts; None if the reference is refused
REFERENCES = {
    None: {
        "HTTPS://Norlake.example:443/a": "https://norlake.example/a", "http://x.org": "http://x.org/", "http:x.org:8080?": "http://x.org:8080/?",
        " ht\ttp:///x.org:080/\n": "http://x.org/", "https://x.org:80/#": "https://x.org:80/#", "http://x.org:000/": "http://x.org:0/",
        "http://x.org/a/./b/../c/%2E%2e/.": "http://x.org/a/", "http://x.org/../..//a": "http://x.org//a", "http://x.org/%41%zz": "http://x.org/%41%zz",
        "http://%58.org/\u00e9 <\x7f?\"\u20ac#\t>": "http://x.org/%C3%A9%20%3C%7F?%22%E2%82%AC#%3E", "http://x.org/..a/.b.": "http://x.org/..a/.b.",
        "http://x.org:65536/": "http://x.org:65536/", "http://": "http://", "HTTP:a:b": "HTTP:a:b", "a.xsd": "a.xsd", "//[": "//[", "": "",
        "urn:X:y": "urn:X:y", " ftp://[": " ftp://[", "http://x.org/" + "\u00e9" * 10_920: "http://x.org/" + "%C3%A9" * 10_920,
        "http://x.org/" + "\u00e9" * 10_921: None, "a" * 65_536: "a" * 65_536, "a" * 65_537: None, "\u00e9" * 32_769: None,
        "http://[::1]/": UNJUDGED, "http://1.2/": UNJUDGED, "http://xn--a/": UNJUDGED, "http://u@x.org/": UNJUDGED, "http://\u212a/": UNJUDGED,
        "http://x.org/{}": UNJUDGED, "http://x.org\\a": UNJUDGED, "http://a..b/": UNJUDGED, "http://a%00/": UNJUDGED},
    "HTTP://X.org:80/a/./b/c.json?d#e": {
        "": "http://x.org/a/b/c.json?d", "#f": "http://x.org/a/b/c.json?d#f", "?g": "http://x.org/a/b/c.json?g", "../../../h": "http://x.org/h",
        "i/../j?k#l": "http://x.org/a/b/j?k#l", "/./m": "http://x.org/m", "//Y.org:80": "http://y.org/", "..": "http://x.org/a/", "1:2": "http://x.org/a/b/1:2",
        "https:y.org": "https://y.org/", "urn:X:y": "urn:X:y", "//": None, "//y:z/": None, "http://:80": None, "http:": UNJUDGED, "http:y:z": UNJUDGED,
        "ftp://x/": UNJUDGED, "a://x": UNJUDGED, "n|": UNJUDGED},
    "http://1.2/": {"a": UNJUDGED, "": UNJUDGED, "http://X": "http://x/", "urn:X:y": "urn:X:y", "http://:1": None},
}
BASES = {"http://x.org": "", " HTTPS:x ": "", "x.org": None, "": None, "ftp://x.org/": None, "http:": None, "http://x:y/": None, None: None, 5: None,
         "http://x.org/" + "a" * 65_524: None, "http://[::1]/": UNJUDGED, "http://x.org/'": UNJUDGED}
SMALL_SHEET = {"namespaces": {"m": "http://m/"}, "concepts": {"m:A": "numeric", "m:T": "text"}, "dimensions": {"m:D": "explicit", "m:E": "typed"}}
MORE = {"entity": "m:1", "period": "2024-01-01T00:00:00", "unit": "m:b/(m:d*m:c)", "m:D": "m:x", "m:E": None}
SMALL = {"documentInfo": {"documentType": recheck.DOCUMENT_TYPE, "namespaces": {"m": "http://m/"}}, "facts": {
    "a": {"dimensions": {"concept": "m:A", **MORE}, "value": "5", "decimals": 0}, "b": {"dimensions": {"concept": "m:A", **MORE}, "value": "5.2"},
    "c,\u0001": {"dimensions": {"concept": "m:T", "language": "EN"}, "value": "x\r\"y\""}, "d": {"dimensions": {"concept": "m:T", "language": "en"}, "value": None}}}
NAMES = ('{"concept":"{http://m/}A","entity":"{http://m/}1","{http://m/}D":"{http://m/}x","{http://m/}E":null,"period":"2024-01-01T00:00:00",'
         '"unit":"{http://m/}b/({http://m/}c*{http://m/}d)"}')
CELLS = '{http://m/}A,{http://m/}1,2024-01-01T00:00:00,{http://m/}b/({http://m/}c*{http://m/}d),,"{""{http://m/}D"":""{http://m/}x"",""{http://m/}E"":null}"'
SMALL_TEXTS = {
    "json": {"verdicts": f'{{"row":1,"verdict":"consistent","dimensions":{NAMES},"facts":[{{"fact":"f1","value":"5","decimals":0}},{{"fact":"f2","value":"5.2"}}],'
                         '"evidence":{"common":{"low":"5.2","high":"5.2"}}}\n{"row":2,"verdict":"inconsistent","dimensions":{"concept":"{http://m/}T","language":"en"},'
                         '"facts":[{"fact":"f3","value":null},{"fact":"f4","value":"x\\r\\"y\\""}],"evidence":{"apart":["f3","f4"]}}\n',
             "sources": "".join(f'{{"report":1,"file":"FILE/a \\"b\\".json","identifier":"{own}","fact":"{fact}"}}\n' for own, fact in
                                (("a", "f1"), ("b", "f2"), ("d", "f3"), ("c,\\u0001", "f4")))},
    "csv": {"verdicts": recheck.COLUMNS[0] + f'1,consistent,f1,{CELLS},5,,0,5.2,5.2,,\r\n1,consistent,f2,{CELLS},5.2,,,5.2,5.2,,\r\n'
                        '2,inconsistent,f3,{http://m/}T,,,,en,,,true,,,,f3,f4\r\n2,inconsistent,f4,{http://m/}T,,,,en,,"x\r""y""",,,,,f3,f4\r\n',
            "sources": recheck.COLUMNS[1] + "".join(f'1,"FILE/a ""b"".json",{own},{fact}\r\n' for own, fact in (
                ("a", "f1"), ("b", "f2"), ("d", "f3"), ('"c,\x01"', "f4")))},
}
# texts that are not JSON, and the values of other texts
NO_JSON = (b"", b"NaN", b"-Infinity", b"1e999", b"1" * 400, b"01", b"1.", b"1 1", b"[1,]", b"{'a':1}", b'"\t"', b"\xff", b'"\xed\xa0\x80"',
           b'"\\ud800"', b'["\\udc00\\ud800"]', b'{"\\ud800":1,"a":2}', b"[" * 128 + b"]" * 128, b"[" * 100_000, b"\xef\xbb\xbf\xef\xbb\xbf1")
JSON = {b"-0": -0.0, b'{"a":1,"a":2}': {"a": 2}, b"18446744073709551615": (1 << 64) - 1, b"18446744073709551616": 2.0 ** 64,
        b"-9223372036854775809": -2.0 ** 63, b'"\\ud83d\\ude00"': "\U0001f600", b"\xef\xbb\xbf 1e-999": 0.0}
HOSTILE = (b"[" * 1_000_000, b'{"a":' * 1_000_000, b'"' + b'\\"' * 1_000_000, b"1" * 1_000_000, b"\x00", b"null", b"\xff\n", b'{"concepts":{"a:b":{}}}')

NUMBER, REFERENCE = '"value":"41260"', "https://norlake.example/taxonomy/2024.xsd"
# other bytes of the merged text, with the same meaning or nearly so: what is replaced, once, and by what
RESPELLED = (
    *((NUMBER, f'"value":"{text}"') for text in ("+41260", "041260", "41260.0", "41260.")), ('"value":"0.05713"', '"value":".05713"'),
    (f'{NUMBER}}},"f019"', '"value":"41906"},"f019"'), ('"f001"', '"f1"'), ('"f120"', '"f121"'), (LAST, ""), (LAST, LAST + LAST.replace("f120", "f121")),
    (LAST, LAST + LAST.replace("f120", "f121").replace("70100000", "70100001")), ('"f018":{"decimals":0,', '"f018":{'),
    ('"n1":"http', '"lei":"http'), ('"n1":"http', '"n01":"http'), ('"xbrl":"https', '"n7":"https://z.example","xbrl":"https'),
    ('"n1":"http://standards.iso.org/iso/17442","n2":"http://www.xbrl.org/2003/instance"',
     '"n1":"http://www.xbrl.org/2003/instance","n2":"http://standards.iso.org/iso/17442"'),
    (',"xbrl":"https://xbrl.org/2021"', ""), ('"features":{"xbrl:allowedDuplicates":"all"},', ""),
    *(('"xbrl:allowedDuplicates":"all"', f'"xbrl:allowedDuplicates":"{level}"') for level in ("consistent", "none")),
    (f'"{KEPT}",', ""), (f'"{KEPT}"', f'"{KEPT}","{REFERENCE}"'), ('"facts":{', '"facts": {'), ("}}}", "}}}\n"), ('{"documentInfo"', '\ufeff{"documentInfo"'),
    ('"decimals":0,"dimensions":{"concept":"n5:ScopeOne', '"dimensions":{"concept":"n5:ScopeOne'), ("n6:Goodwill", "n6:Good\\u0077ill"),
    ('"http://', '"http:\\/\\/'), (GOODWILL, GOODWILL.replace("2024-01-01T00", "2023-12-31T24")),
    (GOODWILL, GOODWILL.replace('"2024-01-01T00:00:00"', '"2024-01-01T00:00:00/2024-01-01T00:00:00"')),
    *((COST, f'"unit":"{unit}"') for unit in ("n3:EUR/n4:km*n4:t", "n3:EUR/(n4:t*n4:km)")), ('"language":"fi"', '"language":"FI"'),
    ('2024-01-01T00:00:00"},"value":"0.55"', '2024-01-01T00:00:00","unit":"n2:pure"},"value":"0.55"'), ('"n5:MillAxis":null', '"n5:MillAxis":""'),
    (NUMBER, f'{NUMBER},"note":"a"'), (NUMBER, f'{NUMBER},"n5:note":"a"'), (NUMBER, '"value":41260'), ("n6:Goodwill", "n6:Badwill"),
)
# changes of a report or of the sheet, and the text that differs first
INPUTS = {
    "a value in a report": ("issuer", '"value":"41260"', '"value":"41270"', "merged"),
    "decimals in a report": ("issuer", '"decimals":-3', '"decimals":-2', "merged"),
    "an identifier in a report": ("statfeed", '"TS08100"', '"TS08101"', "sources"),
    "a fault in a report": ("issuer", '"lei":"http://standards.iso.org/iso/17442",', "", "merged"),
    "a fault of the document": ("oldharbour", "documentType", "documentTipe", "refusals"),
    "a kind in the sheet": ("sheet", '"ifrs-full:Goodwill":"numeric"', '"ifrs-full:Goodwill":"text"', "merged"),
    "a concept that the sheet no longer lists": ("sheet", '"ifrs-full:Goodwill":"numeric",', "", "merged"),
}


def drawn_changes(text):
    """Yields changes of the start of a text: a part is left out, repeated, lengthened, or swapped with the next one."""
    parts, chance = re.findall(r'"[^"]*"|\w+|.', text, re.DOTALL), random.Random(7)
    for place in chance.sample(range(len(parts) - 1), min(len(parts) - 1, 6)):
        start, (one, other) = "".join(parts[:place]), parts[place : place + 2]
        for new in {other, one * 2 + other, one[:-1] + "0" + one[-1:] + other, other + one} - {one + other}:
            yield start + one + other, start + new


class Examples(in_process.RoomTest):
    """Tests with the files of the examples."""

    def setUp(self):
        super().setUp()
        self.files = {name: content(f"examples/{name}.json") for name in ("sheet", "merged", *REPORTS)}
        self.files.update({name: content(f"examples/{file}") for name, file in LINES.items()})

    def words(self, reports=REPORTS, lines=tuple(LINES)):
        paths = {name: self.write(name, text) for name, text in self.files.items()}
        return [*(f"--{name}={paths[name]}" for name in ("sheet", "merged", *lines)), *(paths[name] for name in reports)]

    def run_on(self, *words):
        """Runs the program in this process. Returns its status and what it prints on standard output."""
        with mock.patch.object(sys, "argv", ["recheck", *words]), contextlib.redirect_stdout(io.StringIO()) as printed:
            return recheck.main(), printed.getvalue()

    def changed(self, name, old, new):
        """Runs the program after one change in a file. Returns its status and the lines about differences."""
        before = self.files[name]
        self.assertIn(old, before)
        self.files[name] = before.replace(old, new, 1)
        status, printed = self.run_on(*self.words())
        self.files[name] = before
        return status, printed.splitlines()[:-2]


class Changes(Examples):
    def test_the_examples_agree(self):
        self.assertEqual(self.run_on(*self.words()), (0, AGREE % "merged, verdicts, sources, refusals"))
        self.assertEqual(self.run_on(*self.words(lines=["sources"])), (0, AGREE % "merged, sources"))

    def test_each_change_of_a_text_is_found(self):
        changes = [("merged", self.files["merged"], change) for change in RESPELLED]
        changes += [(name, text, change) for name, text in self.files.items() if name in ("merged", *LINES) for change in drawn_changes(text)]
        self.assertGreaterEqual(len(changes), 100)
        for name, text, (old, new) in changes:
            with self.subTest(name, old=old[-40:], new=new[-40:]):
                self.assertIn(old, text)
                status, lines = self.changed(name, old, new)
                self.assertEqual(status, 1)
                self.assertTrue(all(line.startswith((f"{name}: ", "report ")) for line in lines), lines)
                self.assertTrue(any(line.startswith(f"{name}: line ") for line in lines), lines)

    def test_each_change_of_the_inputs_or_their_order_is_found(self):
        for kind, (name, old, new, text) in INPUTS.items():
            with self.subTest(kind):
                status, lines = self.changed(name, old, new)
                self.assertEqual(status, 1)
                self.assertTrue(lines[0].startswith(f"{text}: "), lines)
        for reports in (REPORTS[:2], REPORTS[1:], (*REPORTS, "issuer"), REPORTS[::-1]):
            self.assertEqual(self.run_on(*self.words(reports))[0], 1)

    def test_the_first_place_is_shown_if_the_sheet_is_read(self):
        self.files["verdicts"] = self.files["verdicts"].replace("apart f018 f019", "apart f018 f020")
        self.files["merged"] = self.files["merged"].replace('"value":"41260"', '"value":"41270"')
        status, printed = self.run_on(*self.words())
        self.assertEqual(status, 1)
        self.assertEqual([line.partition(": ")[::2] for line in printed.splitlines()[:2]], [
            ("merged", "fact f018 is in no report"), ("report 1", "its fact f56 is not in the merged report")])
        self.assertIn("verdicts: line 12, character 40: '12 f018 f019 inconsistent apart f018 f020' should be"
                      " '12 f018 f019 inconsistent apart f018 f019'\n", printed)
        self.assertTrue(printed.endswith(": differ\n"))
        # a refused sheet has no texts
        self.files.update(sheet="{", merged="", verdicts="", sources="", refusals="sheet: 1 NotJson\n")
        self.assertEqual(self.run_on(*self.words())[0], 0)
        self.files["merged"] = "{}"
        self.assertEqual(self.run_on(*self.words())[0], 1)


class Others(Examples):
    """Tests of references, of a row as on paper, and of hostile input."""

    def test_urls_are_judged_by_the_url_standard_and_a_reference_more_is_found(self):
        for base, references in REFERENCES.items():
            for reference, kept in references.items():
                with self.subTest(base=base, reference=reference):
                    info = {"taxonomy": [reference], **({"baseURL": base} if base else {})}
                    unjudged = [(6, base)] * (base == "http://1.2/") + [(7, reference)] * (kept == UNJUDGED)
                    self.assertEqual(recheck.read_urls(info), ([] if kept in (None, UNJUDGED) else [kept], [7] * (kept is None), unjudged))
        for base, found in BASES.items():
            self.assertEqual(recheck.read_urls({"baseURL": base})[1:], ([6], []) if found is None else ([], [(6, base)] * (found == UNJUDGED)), base)
        _, lines = self.changed("merged", f'"{KEPT}"', f'"{KEPT}","{REFERENCE}"')
        self.assertEqual(lines[0], f"merged: its reference {REFERENCE} is in no report")

    def test_json_and_csv_are_compared(self):
        report = self.write('a "b".json', json.dumps(SMALL))
        for form, texts in SMALL_TEXTS.items():
            for name, text in texts.items():
                run = recheck.Run(json.dumps(SMALL_SHEET).encode(), [report], {}, form=form)
                self.assertEqual(run.texts[name], text.replace("FILE", self.scratch))

    def test_the_status_and_the_level_are_compared(self):
        for status, agrees in (("1", 0), ("0", 1), ("2", 1), ("3", 1)):
            self.assertEqual(self.run_on(*self.words(), f"--status={status}")[0], agrees)
        self.assertIn("\nstatus: 0 should be 1\n", "\n" + self.run_on(*self.words(), "--status=0")[1])
        self.assertIn("merged: line 1", self.run_on(*self.words(), "--allow=consistent")[1])
        self.files.update(merged="", refusals=self.files["refusals"] + "too loose: row 12\n")
        self.assertEqual(self.run_on(*self.words(), "--allow=consistent", "--status=2")[0], 0)
        self.assertEqual(self.run_on(*self.words(), "--allow=none", "--status=2")[0], 1)
        self.files["refusals"] = self.files["refusals"].replace("row 12", "row 3")
        self.assertEqual([self.run_on(*self.words(), f"--allow={level}", "--status=2")[0] for level in ("none", "complete", "all")], [0, 0, 1])

    def test_a_long_row_is_judged_in_time_and_explained_in_part(self):
        facts = {f"f{number}": {"dimensions": {"concept": "m:A"}, "value": str(number), "decimals": -6} for number in range(3000)}
        info = {"documentType": recheck.DOCUMENT_TYPE, "namespaces": {"m": "http://m/"}}
        words = ["--sheet", self.write("sheet", json.dumps(SMALL_SHEET)), "--merged", self.write("merged", ""), "--explain=1"]
        begun = time.process_time()
        lines = self.run_on(*words, self.write("report", json.dumps({"documentInfo": info, "facts": facts})))[1].splitlines()
        self.assertLess(time.process_time() - begun, 2)
        self.assertEqual((lines[0], lines[4001]), ("row 1: consistent common -497001 500000", f"pairs not shown: {3000 * 2999 // 2 - 1000}"))

    def test_a_row_as_on_paper(self):
        self.assertEqual(self.run_on("--explain=13", *self.words())[1].splitlines()[:-2], [
            "row 13: consistent common 0.057125 0.057135",
            "f020: 0.057 with 3 decimals, from 0.0565 to 0.0575",
            "f021: 0.0571 with 4 decimals, from 0.05705 to 0.05715",
            "f022: 0.05713 with 5 decimals, from 0.057125 to 0.057135",
            "f020 and f021: both fit from 0.05705 to 0.05715",
            "f020 and f022: both fit from 0.057125 to 0.057135",
            "f021 and f022: both fit from 0.057125 to 0.057135"])
        self.assertEqual(self.run_on("--explain=34", *self.words())[1].splitlines()[1:4], [
            "f060: nil", "f061: 0 with no decimals, from 0 to 0", "f060 and f061: apart: their values differ"])
        self.assertIn("f018 and f019: apart: 41260.5 is less than 41905.5\n", self.run_on("--explain", "12", *self.words())[1])
        name = "f001: {https://norlake.example/taxonomy/2023}LimitedAssurance"
        self.assertEqual(self.run_on("--explain=1", *self.words())[1].splitlines()[1], name)

    def test_json_is_read_as_the_program_reads_it(self):
        for text in NO_JSON:
            with self.subTest(text[:40]), self.assertRaisesRegex(recheck.Refused, "^1 NotJson at document$"):
                recheck.read_json(text, " at document")
        for text, value in JSON.items():
            found = recheck.read_json(text, "")
            self.assertEqual((type(found), found), (type(value), value))
        recheck.read_json(b"[" * 127 + b"]" * 127, "")

    def test_printed_names_are_escaped(self):
        self.files["issuer"] = self.files["issuer"].replace('"f56"', '"\\u001b[31m\u202e\\n"').replace('"value":"41260"', '"value":"41261"')
        printed = self.run_on(*self.words())[1]
        self.assertIn("report 1: its fact \\u001b[31m\\u202e\\n is not in the merged report\n", printed)

    def test_hostile_files_end_with_a_sentence(self):
        words = self.words()
        for content_of in HOSTILE:
            for name in ("sheet", "merged", "verdicts", "sources", "refusals", "issuer"):
                before = self.files[name]
                self.write(name, content_of)
                self.assertEqual(self.run_on(*words)[0], 1, (name, content_of[:20]))
                self.write(name, before)

    def test_statuses(self):
        def ran(*words, **options):
            done = subprocess.run([sys.executable, TOOL, *words], stderr=subprocess.PIPE, text=True, **{"stdout": subprocess.DEVNULL, **options})
            return done.returncode, done.stderr

        words, ascii_alone = self.words(), {"LC_ALL": "C", "PYTHONUTF8": "0", "PYTHONCOERCECLOCALE": "0"}
        for given, wanted in (
            (words, (0, "")), ([*words[:-3], "--", *words[-3:]], (0, "")),
            (["--explain=65", *words], (2, "recheck: there is no row 65\n")), ([*words, "--verdicts="], (2, "recheck: an argument is empty\n")),
            (["--\x1b", *words], (2, "recheck: unrecognized arguments: --\\u001b\n")),
            ([*words, self.path_of("no\x1b")], (3, f"recheck: {self.scratch}/no\\u001b: No such file or directory\n")),
            ([*words, self.scratch], (3, f"recheck: {self.scratch}: Is a directory\n")),
        ):
            self.assertEqual(ran(*given), wanted)
        for given in ([], *([*words, f"--{option}", ""] for option in ("verdicts", "sheet", "allow", "status", "explain"))):
            self.assertEqual(ran(*given)[0], 2, given)
        self.assertEqual(ran(*words, stdout=subprocess.PIPE, preexec_fn=lambda: os.close(1)), (3, "recheck: standard output: Bad file descriptor\n"))
        self.assertEqual(ran(*words, "--explain=27", stdout=subprocess.PIPE, env=ascii_alone), (0, ""))
        with open("/dev/full", "w") as full:
            for given in (["--help"], words):
                self.assertEqual(ran(*given, stdout=full), (3, "recheck: standard output: No space left on device\n"))
            done = subprocess.run([sys.executable, TOOL, *words, self.scratch], stdout=subprocess.DEVNULL, stderr=full)
            self.assertEqual(done.returncode, 3)

    def test_no_exception_reaches_the_user(self):
        deep, long, half = "[" * 200 + "]" * 200, "1" * 5000, '"\\ud800"'
        for text in (deep, long, half, f'{{"documentInfo":{deep}}}', f"report {long}: {long} NumberForm\nreport 1: 7{long} \n", '{"concepts":{"m:a":%s}}' % deep[40:-40]):
            for name in self.files:
                before, self.files[name] = self.files[name], text
                status, printed = self.run_on(*self.words(), "--status=0")
                self.files[name] = before
                self.assertEqual((status, "defect" in printed), (1, False), (name, text[:40]))


ROW, FACT, MOMENT, NUMBERED = recheck.row_of, recheck.read_fact, recheck.read_moment, recheck.numbered
VALUE, AS_NUMBER, PLAIN, AS_KEPT = recheck.read_value, recheck.read_number, recheck.plain, recheck.kept_text
PHANTOM, REFUSED = '"http://phantom.example/"', "report 2: 1 NotJson at document\n"
UNBOUND = "report 4: 13 UnboundPrefix at fact 15\n"
NEEDED = re.compile("(?i)axis|language|null|transport|emissions|goodwill|equity|pershare|assurance|contingent|pure|comprehensive")


def number(change):
    """The number of each value is changed."""
    return {"read_number": lambda text: (change(AS_NUMBER(text)[0]), AS_NUMBER(text)[1])}


def dimension(place, change=lambda content: ()):
    """A part of the dimensions is changed, or ignored."""
    def read(*given):
        dimensions, value = FACT(*given)
        return (*dimensions[:place], change(dimensions[place]), *dimensions[place + 1:]), value
    return {"read_fact": read}


def value(change):
    return {"read_value": lambda kind, text, decimals, uris: change(*VALUE(kind, text, decimals, uris))}


def verdict(change):
    return {"row_of": lambda *given: (lambda row: row._replace(verdict=change(row)))(ROW(*given))}


def half(it, factor):
    return it._replace(low=it.content + (it.low - it.content) * factor, high=it.content + (it.high - it.content) * factor) if it.kind == 1 else it


# what a wrong program does; a dict is its changed rules, a set of reports is those that it does not read
RULES = {
    "decimals are ignored": {"read_value": lambda kind, text, decimals, uris: VALUE(kind, text, None, uris)},
    "intervals are twice as wide": value(lambda it, fault: (half(it, 2), fault)),
    "intervals are half as wide": value(lambda it, fault: (half(it, Fraction(1, 2)), fault)),
    "ends of intervals do not count": {"level_of_row": lambda row: "none" if len(row) == 1 else "consistent" if all(
        it.kind == 1 for it in row) and max(it.low for it in row) < min(it.high for it in row) else "all"},
    "numbers have seven digits": number(lambda it: Fraction(f"{float(it):.6e}")),
    "numbers lose their sign": number(abs),
    "fractions are cut": number(lambda it: Fraction(int(it * 100), 100)),
    "numbers are written with a fraction": {"plain": lambda it: PLAIN(it) + ".0" * (it.denominator == 1)},
    "nil is zero": value(lambda it, fault: (recheck.Value(1, Fraction()) if it.kind == 0 else it, fault)),
    "texts are trimmed": value(lambda it, fault: (it._replace(content=it.content.strip(" .")) if it.kind == 2 else it, fault)),
    "texts lose their case": value(lambda it, fault: (it._replace(content=it.content.lower()) if it.kind == 2 else it, fault)),
    "the entity is ignored": dimension(1),
    "the period is ignored": dimension(2, lambda period: recheck.FOREVER),
    "an instant is a duration": dimension(2, lambda period: (2, period[1], period[1]) if len(period) == 2 else period),
    "the unit is ignored": dimension(3),
    "the lower side of a unit is ignored": dimension(3, lambda unit: unit[:1]),
    "measures are in another order": dimension(3, lambda unit: tuple(side[::-1] for side in unit)),
    "the language is ignored": dimension(4),
    "dimensions are ignored": dimension(5),
    "one dimension is read": dimension(5, lambda defined: defined[:1]),
    "nil members are empty texts": dimension(5, lambda defined: tuple((axis, (1, it[1]) if it[0] == 0 else it) for axis, it in defined)),
    "pure is a unit": {"PURE": ()},
    "a day ends a second early": {"read_moment": lambda text: MOMENT(text.replace("24:00:00", "23:59:59"))},
    "a day ends where it begins": {"read_moment": lambda text: MOMENT(text.replace("24:00:00", "00:00:00"))},
    "each fact is a row": {"rows_of": lambda facts: [[fact] for fact in sorted(facts)]},
    "a concept is a row": {"rows_of": lambda facts: [[fact for fact in facts if fact[0][0] == it] for it in sorted({fact[0][0] for fact in facts})]},
    "rows are in another order": {"rows_of": lambda facts: [[fact for fact in sorted(facts) if fact[0] == it] for it in sorted({fact[0] for fact in facts})][::-1]},
    "contradictions are consistent": verdict(lambda row: (row.verdict[0].replace("in", "", 1), *row.verdict[1:]) if "apart" in row.verdict else row.verdict),
    "agreement within rounding is exact": verdict(lambda row: row.verdict if "apart" in row.verdict else ("complete",)),
    "the pair is the first and the last": verdict(lambda row: (*row.verdict[:2], row.values[-1][0], row.values[0][0]) if "apart" in row.verdict else row.verdict),
    "the common interval is the first": verdict(lambda row: (*row.verdict[:2], *map(PLAIN, row.values[0][1][-2:])) if "common" in row.verdict else row.verdict),
    "identifiers are counted from 0": {"numbered": lambda letter, count: [f"{letter}{rank:03}" for rank in range(count)]},
    "identifiers have no zeros": {"numbered": lambda letter, count: [re.sub("(?<=[fn])0*", "", it) for it in NUMBERED(letter, count)]},
    "the level is too strict": {"level_of": lambda facts: "none"},
    "references are kept as spelled": {"kept_text": lambda reference, base: reference},
    "relative references are not resolved": {"kept_text": lambda reference, base: AS_KEPT(reference, None)},
    "default ports are kept": {"PORTS": {"http": "", "https": ""}},
    "dot segments are kept": {"without_dots": lambda segments: "/" + "/".join(segments)},
    "unbound prefixes are their own URI": {"read_name": lambda text, uris, *form: (text.partition(":")[0], text.partition(":")[2])},
}
# what it reads or prints instead, and its status
PRINTS = {
    "a report is thrown away with a refusal": ({"ledgerline": "{"}, {}, 1),
    "a report is thrown away without a word": ({"ledgerline": "{"}, {"refusals": (REFUSED, "")}, 1),
    "a report is thrown away for its references": ({"ledgerline": "{"}, {"refusals": (REFUSED, "report 2: 7 TaxonomyUrl at document\n")}, 1),
    "a report is thrown away for its base": ({"issuer": "{"}, {"refusals": ("1: 1 NotJson", "1: 6 BaseUrl")}, 1),
    "a report is thrown away for a fact": ({"statfeed": "{"}, {"refusals": ("3: 1 NotJson at document", "3: 26 NumberForm at fact 1")}, 1),
    "a report is read for another": ({"oldharbour": "statfeed"}, {}, 0),
    "a report is read for another, with its refusal": ({"oldharbour": "statfeed"}, {"refusals": ("", UNBOUND)}, 1),
    "a report is read for another, without its sources": ({"oldharbour": "statfeed"}, {"refusals": ("", UNBOUND), "sources": (r"f\d+ 4 .*\n", "")}, 0),
    "the sheet is not read": ({"sheet": "{"}, {}, 3),
    "there is a phantom reference": ({}, {"merged": (r'"taxonomy":\[', rf'\g<0>{PHANTOM},')}, 1),
    "a reference is dropped": ({}, {"merged": (r'"taxonomy":\[".*?",', '"taxonomy":[')}, 1),
    "references are listed twice": ({}, {"merged": (r'("taxonomy":\[)(".*?",)', r"\1\2\2")}, 1),
    "a source is that of the first report alone": ({}, {"sources": (r"(f\d+) (\d \".*\"\n)(\1 .*\n)+", r"\1 \2")}, 1),
    "a contradiction is left out": ({}, {"verdicts": (r".* inconsistent .*\n", "")}, 1),
    "a refusal is not printed": ({}, {"refusals": (".*\n", "")}, 1),
    "the status hides a refusal": ({}, {}, 0),
    "the status is that of a loose row": ({}, {}, 2),
    "nothing is merged, as if a row were too loose": ({}, {"merged": (r"(?s).+", ""), "refusals": (r"\Z", "too loose: row 10\n")}, 2),
}


class Judged(Examples):
    def setUp(self):
        super().setUp()
        for name in REPORTS[:3]:  # with fewer facts, a case takes half the time
            report = json.loads(self.files[name])
            report["facts"] = {own: fact for own, fact in report["facts"].items() if NEEDED.search(json.dumps(fact))}
            self.files[name] = json.dumps(report)
        self.right = self.texts()

    def texts(self, files=None):
        paths = [self.write(name, (files or self.files)[name]) for name in REPORTS]
        run = recheck.Run((files or self.files)["sheet"].encode(), paths, {})
        return {"merged": recheck.canonical_text(run.facts, run.references) if run.sheet else "", **run.texts}, run.status

    def judged(self, texts, status, *words):
        """Returns the status of tools/recheck for these texts, and its last line."""
        self.files.update(texts)
        done, printed = self.run_on(*self.words(), f"--status={status}", *words)
        return done, printed.splitlines()[-1]

    def differs(self, texts, status):
        self.assertFalse((texts, status) == self.right, "the program is not wrong")
        done, last = self.judged(texts, status)
        self.assertEqual((done, last.rpartition(": ")[2]), (1, "differ"))


class WrongPrograms(Judged):
    def test_the_right_program_agrees(self):
        self.assertEqual(self.judged(*self.right)[0], 0)

    def test_no_program_with_a_wrong_rule_agrees(self):
        self.assertGreaterEqual(len(RULES) + len(PRINTS), 40)
        for name, rules in RULES.items():
            with self.subTest(name):
                with mock.patch.multiple(recheck, **rules):
                    wrong = self.texts()
                self.differs(*wrong)

    def test_no_program_that_prints_something_else_agrees(self):
        for name, (read, printed, status) in PRINTS.items():
            with self.subTest(name):
                texts, _ = self.texts({**self.files, **{it: self.files.get(other, other) for it, other in read.items()}})
                self.differs({it: re.sub(*printed[it], text) if it in printed else text for it, text in texts.items()}, status)

    def test_a_level_that_is_too_weak_differs(self):
        self.files.update({name: "{" for name in REPORTS[1:]})
        self.right = self.texts()
        texts, status = self.right
        weaker = re.sub('(?<=allowedDuplicates":)"[a-z]+"', '"all"', texts["merged"])
        self.differs({**texts, "merged": weaker}, status)


class Trust(Judged):
    """Tests of references that are not judged, and of refusals on the word of --refusals."""

    def with_reference(self, url, key="taxonomy"):
        self.files["statfeed"] = re.sub('"taxonomy": *\\[.*?\\]', f'"{key}": ' + (f'["{url}"]' if key == "taxonomy" else f'"{url}"'), self.files["statfeed"], 1)
        return self.texts()

    def test_what_is_taken_on_trust_is_listed(self):
        texts, status = self.with_reference("http://[::1]/")
        for merged in (texts["merged"], re.sub(r'("taxonomy":\[)', rf'\1{PHANTOM},', texts["merged"])):
            done, last = self.judged({**texts, "merged": merged}, status)
            self.assertEqual((done, last.rpartition(": ")[2]), (1, "agree, except what is taken on trust (1)"))
            self.assertEqual(self.judged({**texts, "merged": merged}, status, "--trust=references")[0], 0)
        self.assertIn("not judged: report 3: http://[::1]/\n", self.run_on(*self.words())[1])

    def test_a_refusal_on_trust_is_listed(self):
        self.with_reference("http://[::1]/")
        refused, _ = self.texts({**self.files, "statfeed": "{"})
        for name, end in {"7 TaxonomyUrl": "agree, except what is taken on trust (1)", "6 BaseUrl": "differ", "1 NotJson": "differ"}.items():
            refusals = refused["refusals"].replace("1 NotJson", name)
            done, last = self.judged({**refused, "refusals": refusals}, 1)
            self.assertEqual((done, last.rpartition(": ")[2]), (1, end))
            self.assertEqual("refused only on the word of --refusals: report 3\n" in self.run_on(*self.words())[1], end != "differ")

    def test_a_lone_base_url_gives_no_reference(self):
        texts, status = self.with_reference("http://[::1]/", "baseURL")
        self.assertEqual(self.judged(texts, status)[1][-1:], ")")
        self.assertEqual(self.judged({**texts, "merged": re.sub(r'("taxonomy":\[)', rf'\1{PHANTOM},', texts["merged"])}, status)[1][-6:], "differ")
