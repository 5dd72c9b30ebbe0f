"""Tests of tools/normalise on reports designed to take long, fill the list of changes, or make the tool fail."""
import json
import os
import random
import re
import unittest
from decimal import Context, Decimal

import in_process
from drawn_reports import OPTIONS as ALL
from support import content
from test_normalise import ToolTest, normalise

from normalising.spellings import SCIENTIFIC, plain_number

SPACES = "\u00a0\u2003\u3000\x85\x1f"  # white space for Python, but not in the format
SHEET = {
    "namespaces": {"eg": "http://example.org/t", "long": "http://example.org/" + "u" * 5_000},
    "concepts": {"eg:A": "numeric", "eg:Q": "name", "eg:S": "text", "eg:T": "text"},
    "dimensions": {"eg:Reg": "explicit", "eg:Sku": "typed"},
    "xbrlmerge:sets": ["eg:S"],
    "xbrlmerge:types": {"integer": ["eg:Sku"]},
}


def fact(value="1", concept="eg:A", **dimensions):
    return {"value": value, "dimensions": {"concept": concept, **dimensions}}


def report(facts):
    return json.dumps({"documentInfo": {"namespaces": SHEET["namespaces"]}, "facts": facts})


def twins(size):
    return '{"documentInfo":{},"facts":{%s,"k":1,"k":2}}' % ",".join(f'"f{number}":1' for number in range(size))


def set_beside_a_long_uri(size):
    tree = json.loads(report({"f": fact("l:a " * (5 * size), "eg:S")}))
    tree["documentInfo"]["namespaces"]["l"] = "u" * (20 * size)
    return json.dumps(tree)


# for each case: a report of a given size, and the options of the run
LONG = {
    "zeros before digits": (lambda size: report({"f": fact("0" * size + "x")}), ALL),
    "digits in whole": (lambda size: report({"f": fact("1" * size)}), ALL),
    "spaces in a unit": (lambda size: report({"f": fact(unit="a" + " " * size + "b")}), []),
    "spaces in a period": (lambda size: report({"f": fact(period="a" + " " * size + "b")}), []),
    "slashes": (lambda size: report({"f": fact(period="/" * size)}), ALL),
    "zeros before an exponent": (lambda size: report({"f": fact("1" + "0" * size + "e-5")}), []),
    "digits of an exponent": (lambda size: report({"f": fact("1e" + "9" * size)}), []),
    "digits of decimals": (lambda size: '{"documentInfo":{},"facts":{"f":{"value":"1","decimals":%s}}}' % ("9" * size), ALL),
    "repeated members": (twins, []),
    "members that are unknown": (lambda size: report({"f": {f"m{number}": 1 for number in range(size)}}), []),
    "dimensions": (lambda size: report({"f": fact(**{f"eg:d{number}": "" for number in range(size)})}), ALL),
    "members beside dimensions": (lambda size: report({"f": {"concept": "eg:A", **{f"eg:m{number}": 1 for number in range(size)}}}), ALL),
    "names with a namespace": (lambda size: report({f"f{n}": fact(concept=f"http://x{n}.example#A") for n in range(size // 4)}), ALL),
    "an array of facts": (lambda size: report([{**fact(), "id": f"f{number}"} for number in range(size // 4)]), ALL),
    "zeros of a typed integer": (lambda size: report({"f": fact(**{"eg:Sku": "0" * size + "x"})}), ALL),
    "signs of a name": (lambda size: report({"f": fact(concept="a:" + "#:" * size)}), ALL),
    "names of a set": (lambda size: report({"f": fact(" ".join(f"eg:n{number}" for number in range(size)), "eg:S")}), []),
    "names of a set in a long namespace": (set_beside_a_long_uri, []),
    "depth": (lambda size: '{"a:a":' * (size // 10) + "1" + "}" * (size // 10), []),
}


class HostileTest(ToolTest):
    def setUp(self):
        super().setUp()
        self.sheet = self.write("sheet.json", json.dumps(SHEET))


class Long(HostileTest):
    def words(self, text, *options):
        return self.write("report.json", text), self.out, self.changes, "--sheet", self.sheet, *options

    def test_the_time_of_no_report_grows_with_its_square(self):
        for name, (made, options) in LONG.items():
            with self.subTest(name):
                def run(size):
                    self.assertIn(in_process.run(normalise, *self.words(made(size), *options))[0], (0, 1, 3))

                self.assertLess(in_process.growth(run, 6_000), 9)

    def test_memory_is_in_proportion_to_what_is_read_and_written(self):
        identifier, uri = "f" * 20_000, "long:"
        for name, text, options in (
            ("an identifier", report({identifier: {f"m{number}": 1 for number in range(3_000)}}), []),
            ("a URI", report({f"f{number}": fact("1", uri + "B") for number in range(3_000)}), ["--drop-unknown"]),
            *((name, made(20_000), options) for name, (made, options) in LONG.items()),
        ):
            with self.subTest(name):
                most = in_process.peak(in_process.run, normalise, *self.words(text, *options))
                written = sum(os.path.getsize(path) for path in (self.out, self.changes) if os.path.exists(path))
                self.assertLess(most, 100 * (len(text) + written) + 1_000_000)

    def test_no_line_repeats_a_long_identifier_or_uri_and_eighty_characters_are_whole(self):
        long = {"f" * 5_000 + str(number): fact("x" * 5_000, "long:" + "B" * 5_000, extra="y") for number in range(20)}
        text = report({**long, "short": {"value": "1", "m" * 5_000: "z" * 5_000}})
        status, _, _, changes = self.normalised(self.write("report.json", text), "--sheet", self.sheet, "--drop-unknown", "--drop-unknown-members")
        lines = content(self.changes).splitlines()
        self.assertEqual((status, len(lines)), (1, 21))
        self.assertLess(max(map(len, lines)), 1_000)
        dropped, removed = changes[0], changes[-1]
        self.assertEqual((dropped["fact"], dropped["number"], dropped["shortened"]), ("f" * 80 + "..", "1", True))
        self.assertEqual(dropped["pointer"], "/facts/" + "f" * 80 + "..")
        self.assertEqual(dropped["why"], "the sheet does not list {http://example.org/" + "u" * 61 + "..}" + "B" * 80 + "..")
        self.assertEqual(dropped["was"]["value"], "x" * 80 + "..")
        self.assertEqual(removed["pointer"], "/facts/short/" + "m" * 80 + "..")
        self.assertEqual((removed["was"], removed["shortened"], "number" in removed), ("z" * 80 + "..", True, False))
        text = report({"f" * 80: {**fact(), "m" * 80: "z" * 80}})
        (change,) = self.normalised(self.write("report.json", text), "--sheet", self.sheet, "--drop-unknown-members")[3]
        self.assertEqual((change["fact"], change["was"], "shortened" in change), ("f" * 80, "z" * 80, False))

    def test_sets_that_would_have_far_more_bytes_are_refused(self):
        text = report({f"f{number}": fact("long:a eg:b", "eg:S") for number in range(400)})
        status, errors = self.run_tool(*self.words(text))
        self.assertEqual((status, os.listdir(self.scratch).count("out.json")), (3, 0))
        self.assertIn("--most-output BYTES sets the bound", errors)
        facts = {f"f{number}": fact("wide:a", "eg:S") for number in range(100)}
        for sign, status in (("u", 0), ("\U0001f40b", 3)):
            uris = {**SHEET["namespaces"], "wide": "http://example.org/" + sign * 10_000}
            text = json.dumps({"documentInfo": {"namespaces": uris}, "facts": facts}, ensure_ascii=False)
            self.assertEqual(self.run_tool(*self.words(text))[0], status)


class Exact(HostileTest):
    """Cases in which a careless tool would give a wrong result, a wrong status, or a line with control characters."""

    def run_on(self, facts, *options):
        return self.normalised(self.write("report.json", report(facts)), "--sheet", self.sheet, *options)

    def test_what_is_no_moment_is_not_taken_to_utc(self):
        for moment in ("25:00:00", "24:00:01", "23:60:00", "23:59:60", "99:99:99"):
            for zone in ("Z", "+00:00", "-00:00", "+01:00"):
                period = f"2023-12-31T{moment}{zone}"
                _, errors, out, changes = self.run_on({"f": fact(period=period)}, "--zones=utc")
                self.assertEqual((self.tree_of(out)["facts"]["f"]["dimensions"]["period"], changes), (period, []))
                self.assertIn("is left", errors)

    def test_white_space_is_that_of_the_format(self):
        odd = f"eg:B{SPACES}"
        facts = {
            "f": {"value": f"{SPACES}1", "dimensions": {"concept": f"eg:A{SPACES}", "unit": f"{SPACES}x:a"}},
            "g": fact(f"eg:C {odd}", "eg:S"),
        }
        _, errors, out, _ = self.run_on(facts)
        made = self.tree_of(out)["facts"]
        self.assertEqual((made["f"], errors), (facts["f"], ""))
        self.assertEqual(made["g"]["value"], f"http://example.org/t#B{SPACES} http://example.org/t#C")
        changes = self.run_on({"h": fact("1", odd)}, "--drop-unknown")[3]
        self.assertIn("does not list {http://example.org/t}B", changes[0]["why"])

    def test_zero_has_no_exponent(self):
        for zero in ("0e999999999999999999999", "-0.000e-999999999999999999999", "0E" + "9" * 5_000):
            _, errors, out, _ = self.run_on({"f": fact(zero)})
            self.assertEqual((self.tree_of(out)["facts"]["f"]["value"], errors), ("0", ""))

    def test_the_changes_have_no_character_that_a_terminal_obeys(self):
        odd = "\x7f\x9b31m\u202e\u2028\ud83d\ude00".encode("utf-16", "surrogatepass").decode("utf-16")
        facts = {odd: {**fact(), odd: odd}}
        _, _, out, changes = self.run_on(facts, "--drop-unknown-members")
        raw = content(self.changes)
        self.assertFalse(re.search("[\x00-\x09\x0b-\x1f\x7f-\x9f\u202e\u2028]", raw))
        self.assertEqual((changes[0]["fact"], changes[0]["was"]), (odd, odd))

    def test_lines_on_standard_error_have_none_either(self):
        facts = {"\x9b": fact(period="2023-12-31"), "\x7f": fact("1e99")}
        errors = self.run_on(facts)[1]
        self.assertIn("/facts/\\u009b/dimensions/period is left", errors)
        self.assertTrue(errors.replace("\n", "").isprintable())


CONVERT = "convert it to xBRL-JSON with another program"
CSV = {"documentInfo": {"documentType": "https://xbrl.org/2021/xbrl-csv", "namespaces": {}}, "tables": {"t": {"url": "t.csv"}}}
# files that are no reports, each with the end of its message
NO_REPORTS = (
    (b"{\n  }}", "the file cannot be read as JSON: invalid JSON at line 2 column 4"),
    ('{"\u00e4":x}'.encode(), "the file cannot be read as JSON: invalid JSON at line 1 column 7"),
    (b"", "the file cannot be read as JSON: invalid JSON at line 1 column 1"),
    (b'{"a":NaN}', "the file cannot be read as JSON: NaN is no JSON"),
    (b'{"a":"\\ud800"}', "the file cannot be read as JSON: a text has half a surrogate pair"),
    (b'{"a":"\xff"}', "the file cannot be read as JSON: it is not UTF-8"),
    (b"\x1f\x8b\x08\0", "the file looks like a gzip file: unpack it first"),
    (b"PK\3\4", "the file looks like a ZIP file, as a report package is: unpack it first"),
    *(("{}".encode(encoding), "the file looks like text in UTF-16: convert it to UTF-8") for encoding in ("utf-16", "utf-16-le", "utf-16-be")),
    (b'\xef\xbb\xbf <html xmlns:ix="http://www.xbrl.org/2013/inlineXBRL"/>', f"the file looks like Inline XBRL: {CONVERT}"),
    (b"<?xml version='1.0' encoding='ISO-8859-1'?><a>\xe4</a>", f"the file looks like XML: {CONVERT}"),
    (b"concept,value\na,1\n", f"the file looks like CSV: {CONVERT}"),
    (b"Dear reader, here it is", "invalid JSON at line 1 column 1"),
    (json.dumps(CSV).encode(), f"it is not an xBRL-JSON report; the file looks like the metadata of an xBRL-CSV report: {CONVERT}"),
    (b'{"documentInfo":{},"tables":{}}', f"the file looks like the metadata of an xBRL-CSV report: {CONVERT}"),
    (json.dumps(SHEET).encode(), "it is not an xBRL-JSON report; the file looks like a sheet, not a report"),
    (b'{"facts":{}}', "it is not an xBRL-JSON report (it has no documentInfo)"),
    (b'{"data":[0,{"r/1":{"documentInfo":{},"facts":{}}}]}', "a report that is wrapped in another object: take out what is at /data/1/r~11"),
    (b'{"cik":320193,"facts":{"us-gaap":{}}}', "the file looks like the answer of an API: ask it for the report as xBRL-JSON"),
)
NO_SHEETS = (
    (b"PK\3\4", "the file looks like a taxonomy: make a sheet of it with tools/make_sheet"),
    (b"<xs:schema/>", "the file looks like a taxonomy: make a sheet of it with tools/make_sheet"),
    (report({}).encode(), "it is not a sheet; the file looks like a report, not a sheet"),
    (json.dumps(CSV).encode(), "it is not a sheet; the file looks like the metadata of an xBRL-CSV report, not a sheet"),
)


class NoReports(ToolTest):
    """Files that are no reports or no sheets are refused, with the words of `xbrlmerge explain`."""

    def check_last_line(self, wanted, *words):
        status, lines = self.run_tool(*words)
        self.assertEqual((status, lines.count("\n"), os.path.exists(self.out)), (3, 1, False), lines)
        self.assertTrue(lines.endswith(f"{wanted}\n"), (lines, wanted))

    def test_each_kind_of_file(self):
        for data, wanted in NO_REPORTS:
            self.check_last_line(wanted, self.write("report.json", data), self.out, self.changes)
        os.mkdir(self.path_of("folder.json"))
        self.check_last_line("folder.json: Is a directory", self.path_of("folder.json"), self.out, self.changes)
        self.check_last_line("nowhere.json: No such file or directory", "nowhere.json", self.out, self.changes)

    def test_each_kind_of_sheet(self):
        good = self.write("report.json", report({}))
        for data, wanted in NO_SHEETS:
            self.check_last_line(wanted, good, self.out, self.changes, "--sheet", self.write("sheet.json", data))


class Numbers(unittest.TestCase):
    """Compares `plain_number` with the decimal module, on drawn numbers with exponents."""

    def test_drawn_exponents(self):
        chance, context = random.Random(7), Context(prec=200)
        for _ in range(2_000):
            digits = "".join(chance.choice("0019") for _ in range(chance.randint(1, 20)))
            point = chance.randint(0, len(digits))
            text = f"{chance.choice(['', '-', '+'])}{digits[:point]}.{digits[point:]}e{chance.randint(-25, 25)}"
            plain, value = plain_number(SCIENTIFIC.fullmatch(text)), Decimal(text)
            reduced = value.normalize(context).as_tuple()
            counting = max(len(reduced.digits) + reduced.exponent, 0) + max(-reduced.exponent, 0)
            self.assertEqual(plain is None, bool(value) and counting > 18, text)
            if plain is not None:
                self.assertEqual((Decimal(plain), "e" in plain.lower()), (value, False), text)
