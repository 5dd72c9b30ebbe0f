"""Tests of tools/contradictions on small texts, on the merged text in norlake/ with the lines of verdicts beside it, and on the
examples with the lines of `sources`."""
import base64
import hashlib
import html.parser
import itertools
import json
import os
import re
import subprocess
import sys
import types

import in_process
import contradictions
import workload
from contradicting import tables
from contradicting.facts import Dimensions
from names import Name
from support import TOP, content, table_in, write

TOOL = os.path.join(in_process.TOOLS, "contradictions.py")
NORLAKE = os.path.join(in_process.HERE, "norlake")
MERGED, SHEET, VERDICTS = (os.path.join(NORLAKE, name) for name in ("merged.json", "sheet.json", "verdicts.txt"))
URIS = {"n1": "http://example.org/t"}
KINDS = {"namespaces": URIS, "concepts": {"n1:A": "numeric", "n1:T": "text"}, "dimensions": {"n1:Reg": "typed"}}
COMPARED = re.compile(r" reports no fact$| shares .* with another provider| of \d+ rows that others report| report exactly the same facts:")


class Seen(html.parser.HTMLParser):
    """The tags and the texts of a page. An event handler, a `src` or a link out of the page fails the test."""

    def __init__(self, page):
        super().__init__()
        self.tags, self.texts = [], []
        self.feed(page)

    def handle_starttag(self, tag, attributes):
        self.tags.append(tag)
        for key, value in attributes:
            if key.startswith("on") or key == "src" or key == "href" and not value.startswith("#"):
                raise AssertionError(f"{tag} has {attributes}")

    def handle_data(self, text):
        self.texts.append(text)


def data_of(page):
    """Returns the data of a page, which its script draws."""
    return json.loads(page.split('<script type="application/json" id="data">')[1].split("</script>")[0])


def fact(value, decimals=None, concept="n1:A", **dimensions):
    made = {"value": value, "dimensions": {"concept": concept, **dimensions}}
    return made if decimals is None else {**made, "decimals": decimals}


class ToolTest(in_process.RoomTest):
    def setUp(self):
        super().setUp()
        self.set_output(self.path_of("out"))

    def set_output(self, folder):
        self.output = folder
        self.page, self.table, self.listed = (os.path.join(folder, name) for name in ("page.html", "contradictions.csv", "table.csv"))

    def cells(self, name):
        return table_in(os.path.join(self.output, name))

    def expect_kept(self, folder, *names):
        """Compares output files with those in a folder here, apart from styles, scripts and the paths of folders. KEEP=1 writes them."""
        for name in names:
            path, text = os.path.join(in_process.HERE, folder, name), content(os.path.join(self.output, name))
            text = re.sub("(?s)(?<=<style>).*?(?=</style>)|(?<=<script>).*?(?=</script>)|(?<='sha256-)[^']*", "", text)
            text = text.replace(self.scratch, "SCRATCH").replace(in_process.TOP, "TOP").replace(os.path.realpath(in_process.TOP), "TOP")
            if "KEEP" in os.environ:
                write(path, text)
            pairs = itertools.zip_longest(text.split("\n"), content(path).split("\n"))
            self.assertEqual([(line, other) for line, other in pairs if line != other][:1], [], path)

    @staticmethod
    def other_lines(text):
        """Returns the lines on standard error, without those about what providers share."""
        return [line for line in text.splitlines() if not COMPARED.search(line)]

    def inputs(self, facts, sheet, lines=None, reports=(), names=""):
        """Writes a merged report with these facts, a sheet, and the lines of verdicts. If `reports` has the numbers of the reports with
        each fact, also writes the sources. Returns the words that name these files after --from."""
        named = {f"f{rank:0{len(str(len(facts)))}}": fact for rank, fact in enumerate(facts, 1)}
        text = json.dumps({"documentInfo": {"namespaces": sheet["namespaces"]}, "facts": named})
        lines = workload.lines(text) if lines is None else lines
        sources = "".join(f'{name} {number} "i{number}{name}"\n' for name, numbers in zip(named, reports) for number in numbers)
        words = [self.write("merged.json", text), self.write("sheet.json", json.dumps(sheet)), self.write("lines", lines)]
        return [*words, *["--sources", self.write("sources", sources), "--names", names] * bool(reports)]

    def run_tool(self, *inputs):
        status, errors, out = in_process.run_whole(contradictions, "--from", *inputs[:3], "-o", self.output, *inputs[3:])
        return types.SimpleNamespace(returncode=status, stdout=out, stderr=errors.encode())

    def written(self, *inputs):
        done = self.run_tool(*inputs)
        page = content(self.page)
        cells = table_in(self.table)
        self.assertEqual((done.returncode, self.other_lines(done.stderr.decode())), (int(bool(cells or done.stderr)), []))
        self.assertTrue(done.stdout.decode().endswith(f"; page: {self.page}\n"), done.stdout)
        return page, cells

    def check_refused(self, wanted, *inputs):
        """Runs the tool, which must end with status 3, print only a line with the reason, and leave no new file."""
        before = set(os.listdir(self.scratch))
        done = self.run_tool(*inputs)
        self.assertEqual((done.returncode, done.stdout), (3, b""), done.stderr)
        self.assertEqual(len(done.stderr.splitlines()), 1, done.stderr)
        self.assertIn(wanted, done.stderr.decode())
        self.assertEqual(set(os.listdir(self.scratch)), before)


class Pages(ToolTest):
    def setUp(self):
        super().setUp()
        self.text, self.cells = self.written(MERGED, SHEET, VERDICTS)

    def test_the_page_and_the_tables(self):
        """The texts of the report have tags, signs of formulas, and numbers on lines and with gaps."""
        self.assertEqual(workload.lines(content(MERGED)), content(VERDICTS))
        self.expect_kept("norlake", "page.html", "contradictions.csv", "table.csv")

    def test_strangers_texts_are_texts(self):
        seen = Seen(self.text)
        self.assertIn("EY <script>alert(1)</script> AS", seen.texts)
        self.assertIn("pulp & <b>paper</b>", seen.texts)
        self.assertFalse({"img", "iframe", "object", "link", "form"} & set(seen.tags))
        self.assertEqual(seen.tags.count("script"), 2)  # its own, and the data block with all rows

    def test_the_script_that_may_run_is_that_of_the_page(self):
        script = self.text.split("<script>")[1].split("</script>")[0]
        known = base64.b64encode(hashlib.sha256(script.encode()).digest()).decode()
        self.assertIn(f"script-src 'sha256-{known}'\"", self.text)
        self.assertIn("prefers-color-scheme: dark", self.text)


class Providers(ToolTest):
    def test_who_said_a_value_is_shown_by_expanded_facts(self):
        tree = json.loads(content(MERGED))
        kept = {"f1": tree["facts"]["f06"], "f2": tree["facts"]["f09"]}
        tree["facts"] = json.loads(json.dumps(kept).replace('"n1:', '"n4:').replace("n3:NOK/n4:shares", "n3:NOK/n1:shares"))
        uris = tree["documentInfo"]["namespaces"]
        uris["n1"], uris["n4"] = uris["n4"], uris["n1"]
        own = self.write("own.json", json.dumps(tree))
        page, cells = self.written(MERGED, SHEET, VERDICTS, f"A & <B>={own}", f"+SUM(A1)={MERGED}")
        said = {cell["fact"]: cell["providers"] for cell in cells}
        self.assertEqual((said["f05"], said["f06"], said["f09"]), ("'+SUM(A1)", "A & <B>, +SUM(A1)", "A & <B>, +SUM(A1)"))
        self.assertIn("A &amp; &lt;B&gt;", page)
        _, cells = self.written(MERGED, SHEET, VERDICTS, f"A={MERGED}", f"A={MERGED}")  # several texts of a provider count once
        self.assertEqual({cell["providers"] for cell in cells}, {"A"})

    def test_a_side_of_a_unit_with_several_names_is_in_parentheses(self):
        a, b, c = (Name("u", name) for name in "abc")
        units = [tables.dimension_cells(Dimensions(a, None, "", unit, "", ()))[3] for unit in (((a,), (b, c)), ((a, b), (c,)), ((a, b),), ((a,),))]
        self.assertEqual(units, ["{u}a/({u}b*{u}c)", "({u}a*{u}b)/{u}c", "{u}a*{u}b", "{u}a"])

    def test_a_providers_fact_that_was_not_merged(self):
        tree = json.loads(content(MERGED))
        tree["facts"] = {"f1": {**tree["facts"]["f06"], "value": "4.811"}}
        self.check_refused("a fact does not match", MERGED, SHEET, VERDICTS, "A=" + self.write("own.json", json.dumps(tree)))


# values of rows with their decimals: numbers, nil behind a number, numbers of eighteen digits, and texts with signs of formulas
NUMBERS = (("100", 0), ("101", 0), ("102", 0)), (("7", 0), (None,)), (("0.000000000000000001", 18), ("999999999999999999", -18)), (
    ("-999999999999999999",), ("999999999999999999",))
FORMULAS = ("=1+1", "+1", "-1", "@A1", "\t=1", "\n=1", " =1", "x;=1", "x\n=1", '"=1', "\uff1d1", "'=1", "a=b", "1-2")


class Texts(ToolTest):
    """Small merged reports with facts of one numeric concept and one text concept."""

    def table_of(self, *facts):
        return self.written(*self.inputs(facts, KINDS))

    def test_no_fact_and_no_contradiction(self):
        self.assertEqual(self.table_of()[1], [])
        page, cells = self.table_of(fact("100", 0), fact("101", 0))
        self.assertEqual(cells, [])
        self.assertIn("<b>0</b>contradictions", page)

    def test_values(self):
        numbers = [fact(*value, **{"n1:Reg": f"{index}"}) for index, row in enumerate(NUMBERS) for value in row]
        self.table_of(*numbers, *(fact(text, None, "n1:T") for text in FORMULAS))
        self.expect_kept("values", "page.html", "contradictions.csv", "table.csv")

    def test_a_text_of_any_characters_stays_one(self):
        odd = "</td></table></style><!--\u202e\x00\x1b]]>&amp;'\""
        page, cells = self.table_of(fact(odd, None, "n1:T"), fact("x", None, "n1:T"))
        self.assertIn(odd, "".join(Seen(page).texts))
        self.assertEqual(cells[0]["value"], odd)


class BadInputs(ToolTest):
    def test_a_truncated_text(self):
        text = content(MERGED)
        for length in (0, 1, len(text) // 2, len(text) - 1):
            cut = self.write("cut.json", text[:length])
            self.check_refused("cut.json", cut, SHEET, VERDICTS)
            self.check_refused("cut.json", MERGED, SHEET, VERDICTS, f"A={MERGED}", f"B={cut}")

    def test_a_truncated_sheet_and_truncated_lines(self):
        sheet, lines = content(SHEET), content(VERDICTS)
        self.check_refused("cut.json", MERGED, self.write("cut.json", sheet[: len(sheet) // 2]), VERDICTS)
        for length in (1, len(lines) // 2, lines.index("\n") + 1, len(lines) - 1):
            self.check_refused("cut", MERGED, SHEET, self.write("cut", lines[:length]))

    def test_files_that_were_there_stay(self):
        os.mkdir(self.output)
        for path in (self.page, self.table):
            self.write(path, "of a run before")
        self.check_refused("merged.json", MERGED, self.inputs([], KINDS)[1], VERDICTS)
        self.assertEqual((content(self.page), content(self.table)), ("of a run before",) * 2)

    def test_inputs_that_are_missing(self):
        nowhere = self.path_of("nowhere")
        for index, word in enumerate((nowhere, nowhere, nowhere, f"A={nowhere}")):
            inputs = [MERGED, SHEET, VERDICTS]
            inputs[index : index + 1] = [word]
            self.check_refused("nowhere", *inputs)

    def test_lines_of_another_run(self):
        facts, apart = (fact("1"), fact("2"), fact("x", None, "n1:T")), "1 f1 f2 inconsistent apart "
        lines = ["", *(f"{apart}f1 f2{end}" for end in ("", "\n", "\n2 f3 f3 complete", "\n3 f3 f3 complete\n", "\n2 f3 f3 complete\n3 f4 f4 complete\n"))]
        lines += [f"{first}\n2 f3 f3 complete\n" for first in (*(apart + pair for pair in ("f1 f3", "f3 f1", "f1 f1", "f2 f1", "f1 f2 ")),
                                                              "1 f1 f2 consistent common 1 2", "1 f1 f2 complete")]
        for wrong in (*lines, "1 f1 f1 complete\n2 f2 f3 complete\n"):
            self.check_refused("lines", *self.inputs(facts, KINDS, wrong))

    def test_what_is_no_merged_text(self):
        for bad in (fact("1e5"), fact("1", 0.5), fact("\ud800", None, "n1:T")):
            self.check_refused("merged.json", *self.inputs([bad], KINDS, "1 f1 f1 complete\n"))
        words = self.inputs([], KINDS)
        self.check_refused("merged.json", self.write("merged.json", "[" * 100_000), *words[1:])

    def test_a_folder_that_cannot_be_made(self):
        self.set_output(os.path.join(self.scratch, "no", "out"))
        done = self.run_tool(MERGED, SHEET, VERDICTS)
        self.assertEqual((done.returncode, len(done.stderr.splitlines())), (3, 1))
        self.assertFalse(os.path.exists(self.page))

    def test_usage(self):
        self.assertEqual(subprocess.run([sys.executable, TOOL], capture_output=True).returncode, 2)
        near = self.run_tool(MERGED, SHEET, VERDICTS, "--near", self.path_of("near.csv"))
        self.assertEqual((near.returncode, b"--near needs the providers" in near.stderr), (2, True))
        self.assertEqual(subprocess.run([sys.executable, TOOL, "--help"], capture_output=True).returncode, 0)


def example(name):
    return os.path.join(TOP, "examples", name)


class Sources(ToolTest):
    inputs = [example(name) for name in ("merged.json", "sheet.json", "verdicts.txt")]

    def words(self, lines=example("sources.txt"), names="issuer,ledgerline,statfeed"):
        return ["--sources", lines, "--names", names]

    def test_who_reports_each_value_is_shown(self):
        self.written(*self.inputs, *self.words())
        self.expect_kept("examples", "contradictions.csv", "table.csv", "providers.csv")  # as of a run on the reports

    def test_a_provider_may_have_several_reports(self):
        _, cells = self.written(*self.inputs, *self.words(names="A,B,A"))
        found = {cell["fact"]: (cell["identifiers"], cell["reported_by"]) for cell in cells}
        self.assertEqual(found["f066"], ("A: f33, TS08474", "1 of 2"))

    def test_identifiers_are_texts(self):
        lines = content(example("sources.txt")).replace('"f56"', '"=<b>\\n\\u0000"')
        page, cells = self.written(*self.inputs, *self.words(self.write("lines", lines)))
        self.assertEqual(next(cell["identifiers"] for cell in cells if cell["fact"] == "f018"), "issuer: =<b>\n\x00")
        self.assertNotIn("=<b>", page)

    def test_lines_of_other_reports_are_refused(self):
        lines = content(example("sources.txt")).splitlines(keepends=True)
        others = [[line, *lines] for line in ('f001 4 "a"\n', 'f001 0 "a"\n', "f001 1 a\n", 'f001 1 "\\ud800"\n')]
        others += [lines[:-1] + [lines[-1].rstrip("\n")], [it for it in lines if not it.startswith("f018 ")], [*lines, lines[0]], lines[::-1], []]
        for other in others:
            self.check_refused("lines", *self.inputs, *self.words(self.write("lines", "".join(other))))

    def test_usage(self):
        for words in (["--sources", "x"], ["--names", "a"], [f"a={self.inputs[0]}", *self.words()], self.words(names="a,,b")):
            self.assertEqual(self.run_tool(*self.inputs, *words).returncode, 2, words)
