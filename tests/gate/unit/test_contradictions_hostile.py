"""Tests of tools/contradictions on inputs designed to take long, fill the page, or make the tool fail."""
import csv
import io
import itertools
import json
import os
import shutil

import in_process
import contradictions
from support import content, table_in
from test_contradictions import ToolTest, data_of, fact

from contradicting.tables import cell, line_of
from names import Name

LONG_URI = "http://long.example/" + "u" * 5_000
URIS = {"e": "http://e.example/t", "l": LONG_URI}
DIMENSIONS = {"e:Reg": "explicit", **{f"e:d{number}": "typed" for number in range(2_000)}}
CONCEPTS = {"e:A": "numeric", "e:T": "text", "l:A": "numeric", "l:T": "text"}
SHEET = {"namespaces": URIS, "concepts": CONCEPTS, "dimensions": DIMENSIONS}
LOOK = "contradictions,uncompared"  # the providers report the rows in turn, so they share none


def number(value, **dimensions):
    """Returns a numeric fact. Facts with the same dimensions and different whole numbers contradict each other."""
    return fact(str(value), 1, **{"concept": "e:A", **dimensions})


def text(value, **dimensions):
    return fact(value, None, "e:T", **dimensions)


def typed(size):
    return {f"e:d{each}": "" for each in range(size)}


# for each text: its facts at a given size, in the order of a merged text, and whether --near is tested
LONG = {
    "a row of numbers": (lambda size: [number(each) for each in range(size)], False),
    "a row of one large group and many small ones": (lambda size: [{**number(each), "decimals": -6} for each in range(size // 2)]
                                                      + [number(10**9 + 10 * each) for each in range(size // 2)], False),
    "a row of texts": (lambda size: [text(f"t{each:07}") for each in range(size)], False),
    "rows that differ in unit": (lambda size: [number(1, unit=f"e:u{each:07}") for each in range(size)], True),
    "rows that differ in a namespace": (lambda size: [number(1, entity=f"{prefix}:{each:07}") for prefix in "el" for each in range(size)], True),
    "rows of many facts": (lambda size: [number(value, unit=f"e:u{unit}") for unit in range(size // 25) for value in range(25)], True),
    "dimensions": (lambda size: [number(each, **typed(size)) for each in range(2)], True),
    "measures": (lambda size: [number(each, unit="*".join(["e:m"] * size)) for each in range(2)], False),
    "line ends": (lambda size: [text("\n" * 20 * size), text("\n" * 20 * size + "a")], False),
    "long texts": (lambda size: [text("a" * 20 * size), text("a" * 20 * size + "b")], False),
}


class Hostile(ToolTest):
    sheet = SHEET

    def setUp(self):
        super().setUp()
        self.near = self.path_of("near.csv")

    def words(self, facts, is_near=False, lines=None):
        """Writes the texts of a run in which two providers report the rows in turn. Returns the arguments of a run on them."""
        rows = [[*row] for _, row in itertools.groupby(facts, lambda each: each.get("dimensions"))]
        reports, made, start = [[1 + rank % 2] for rank, row in enumerate(rows, 1) for _ in row], "", 1
        for rank, row in enumerate(rows, 1):
            one, last = (f"f{place:0{len(str(len(facts)))}}" for place in (start, start + len(row) - 1))
            start += len(row)
            made += f"{rank} {one} {last} " + ("complete\n" if one == last else f"inconsistent apart {one} {last}\n")
        words = self.inputs(facts, self.sheet, lines or made, reports, "a,b")
        return ["--fail-on", LOOK, *words[3:], *["--near", self.near] * is_near, "-o", self.output, "--from", *words[:3]]

    def test_the_time_of_no_text_grows_with_its_square(self):
        for name, (made, is_near) in LONG.items():
            with self.subTest(name):
                size = 500 if is_near else 1_000
                words = {at: self.kept_words(made(at), is_near) for at in (size, 4 * size)}

                def run(at):
                    self.assertIn(in_process.run(contradictions, "--most-output", "1000000000", *words[at])[0], (0, 1))

                self.assertLess(in_process.growth(run, size), 9)

    def kept_words(self, facts, is_near):
        """Returns the arguments of a run on copies of the inputs. Calls with inputs of other sizes do not overwrite them."""
        words = self.words(facts, is_near)
        size = len(content(self.path_of("merged.json")))
        for name in ("merged.json", "lines", "sources"):
            kept = self.write(f"{len(facts)}.{size}.{name}", content(self.path_of(name)))
            words = [kept if word == self.path_of(name) else word for word in words]
        return words

    def test_memory_is_in_proportion_to_what_is_read_and_written(self):
        for name, (made, is_near) in LONG.items():
            with self.subTest(name):
                words = self.words(made(600), is_near)
                most = in_process.peak(in_process.run, contradictions, *words)
                files = {path for path in words if os.path.exists(path)}
                self.assertLess(most, 30 * sum(map(os.path.getsize, files)) + 3_000_000)

    def test_pairs_that_are_not_compared_are_reported(self):
        facts = [number(1, unit=f"e:u{each:04}") for each in range(100)]
        status, errors = in_process.run(contradictions, *self.words(facts, is_near=True))
        pairs = {tuple(row["fact"] for row in pair) for pair in zip(*[iter(table_in(self.near))] * 2)}
        self.assertEqual(status, 1)
        self.assertIn("contradictions: --near: 3950 pairs of rows were not compared", errors)  # of 4950; 1000 are compared
        distances = {int(two[1:]) - int(one[1:]) for one, two in pairs}
        self.assertEqual(distances, {1, 3, 5, 7, 9, 11})  # only near rows; rows at an even distance share a provider
        self.assertLess(len(pairs), 1_001)
        status, errors = in_process.run(contradictions, *self.words(facts[:45], is_near=True))  # as many pairs as are compared
        self.assertEqual((status, self.other_lines(errors), len(table_in(self.near))), (0, [], 2 * 22 * 23))

    def test_the_page_has_eighty_characters_of_a_name_and_the_table_all(self):
        long = "z" * 5_000
        dimensions = {"concept": f"l:{long}", "entity": f"l:{long}", "unit": f"l:{long}", "l:" + long: f"l:{long}"}
        sheet = {"namespaces": URIS, "concepts": {f"l:{long}": "numeric"}, "dimensions": {f"l:{long}": "explicit"}}
        self.sheet = sheet
        facts = [{"dimensions": {**dimensions, "period": f"20{year}-01-01T00:00:00"}, "decimals": 1, "value": f"{value}"}
                 for year in range(10, 30) for value in (1, 2)]
        status, errors = in_process.run(contradictions, *self.words(facts))
        page, table = content(self.page), content(self.table)
        self.assertEqual((status, self.other_lines(errors), long[:81] in page, LONG_URI[:81] in page), (1, [], False, False))
        self.assertIn(f'<bdi title="{LONG_URI[:80]}..">{long[:80]}..</bdi>', page)
        self.assertEqual((table.count(LONG_URI), table.count(long)), (40 * 5, 40 * 5))

    def test_long_texts_are_cut_near_the_first_that_differs(self):
        for shared, start, rest in ((0, 0, "..</bdi>"), (30, 0, "..</bdi>"), (500, 460, "..</bdi>")):
            facts = [text("s" * shared + sign * 200) for sign in "ab"]
            in_process.run(contradictions, *self.words(facts))
            page = content(self.page)
            for sign in "ab":
                shown = ("s" * shared + sign * 200)[start : start + 80]
                self.assertIn(f"<td><bdi>{'..' * bool(start)}{shown}{rest}", page)
            self.assertIn("s" * shared + "b" * 200, content(self.table))

    def test_no_text_ends_the_block_of_the_data(self):
        facts = [text(f"</script><!--<script>{sign}", entity=f"e:{row:03}") for row in range(102) for sign in "ab"]
        status, errors = in_process.run(contradictions, *self.words(facts))
        self.assertEqual((status, self.other_lines(errors)), (1, []))
        page = content(self.page)
        self.assertEqual([page.count(part) for part in ("<script", "</script>", "<!--", '<tr id="row')], [2, 2, 0, 100])
        rows = data_of(page)["rows"]
        self.assertEqual([len(rows), *(fact[1] for fact in rows[101][6])], [102, *(f"</script><!--<script>{sign}" for sign in "ab")])

    def test_rows_that_the_page_does_not_hold_are_counted(self):
        facts = [number(value, entity=f"e:{row:03}") for row in range(100) for value in (1, 2)] + [number(1, entity=f"e:{row}") for row in range(100, 200)]
        with in_process.mock.patch("contradicting.page.MOST_OF_DATA", 8_000):
            self.assertEqual(in_process.run(contradictions, *self.words(facts))[0], 1)
        page = content(self.page)
        data = data_of(page)
        self.assertLess(sum(len(json.dumps(row)) for row in data["rows"]), 10_000)
        self.assertEqual((len(data["rows"]) + data["leftOut"], {row[5] for row in data["rows"]}), (200, {0}))
        self.assertIn(f"<p>Not on this page: {data['leftOut']} more rows; table.csv has them.</p>", page)

    def test_a_row_of_many_facts_is_cut_on_the_page(self):
        in_process.run(contradictions, *self.words([number(each) for each in range(200)]))
        page = content(self.page)
        row = data_of(page)["rows"][0]
        pair = [row[6][index][0] for index in row[9]]
        self.assertEqual((len(row[6]), row[10], pair), (50, 150, ["f001", "f200"]))
        self.assertIn("<p>and 150 more facts in contradictions.csv</p>", page)

    def test_a_name_is_guarded_as_a_whole_text(self):
        for uri in ("u", "=u", "a;=b", "u" * 500, "a;=b" * 200, "\t=", ";"):
            for local in ("a", "=a", ";=a", "\t=a", "\ufeff;\t+a", "|-1", "a" * 500):
                self.assertEqual(cell(Name(uri, local)), cell(f"{{{uri}}}{local}"))

    def test_lines_are_those_of_the_csv_module(self):
        texts = ["", "a", " a ", ",", '"', '""', "a\nb", "\r", "'", ";", "a,b\"c", "\u2028", "\x00"]
        for cells in [*itertools.product(texts, repeat=2), texts]:
            made = io.StringIO(newline="")
            csv.writer(made).writerow(cells)
            self.assertEqual(line_of(cells), made.getvalue())

    def test_a_table_that_would_be_too_long_is_refused_before_it_is_written(self):
        facts = [number(each, unit="l:a*l:b*l:c") for each in range(2)]
        for limit, words, wanted in ((12_000, (), "one row"), (1 << 24, ("--most-output", "20000"), "--most-output BYTES sets the bound")):
            with in_process.mock.patch.dict(in_process.sys.modules["contradicting.tables"].__dict__, {"LONGEST_ROW": limit}):
                status, line = in_process.run(contradictions, *words, *self.words(facts))
                self.assertEqual((status, os.path.exists(self.output)), (3, False))
                self.assertIn(wanted, line)

    def test_an_output_that_is_an_input_is_refused(self):
        words = self.words([number(1), number(2)])
        before = {name: content(self.path_of(name)) for name in os.listdir(self.scratch)}
        os.mkdir(self.output)
        os.symlink(words[-2], self.listed)
        inside = [*words[:-1], self.write(os.path.join("out", "contradictions.csv"), "")]
        for changed in (words, inside, ["--near", words[-2], *words], ["--near", self.page, *words]):
            status, errors = in_process.run(contradictions, *changed)
            self.assertEqual(status, 2, errors)
            self.assertIn("an output is an input, or two outputs are one file", errors)
        self.assertEqual({name: content(self.path_of(name)) for name in before}, before)

    def test_no_link_below_the_output_folder_is_followed(self):
        words, victim = self.words([number(1), number(2)]), self.write("victim", "own")
        for name in ("page.html", "table.csv", "providers.csv", "contradictions.csv", "warnings.csv", "summary.json"):
            for target in (victim, "../victim", "nowhere", "."):
                os.mkdir(self.output)
                os.symlink(target, os.path.join(self.output, name))
                status, line = in_process.run(contradictions, *words)
                self.assertEqual((status, os.listdir(self.output), content(victim)), (3, [name], "own"))
                self.assertIn(f"{name} exists and is not a file that can be replaced", line)
                shutil.rmtree(self.output)
        os.mkdir(self.path_of("real"))
        os.symlink("real", self.output)  # the user names this folder
        self.assertEqual(in_process.run(contradictions, *words)[0], 1)
        os.makedirs(self.path_of("real/.new-a1b2c3d4/of a killed run"))
        os.symlink("..", self.path_of("real/reports"))
        status, line = in_process.run(contradictions, *words)
        self.assertEqual((status, "reports is not a folder" in line), (3, True), line)
        self.assertFalse({name for name in os.listdir(self.output) if name.startswith(".new-")})

    def test_what_no_merged_text_has_is_a_sentence(self):
        odd = {"period": ["2020", "a/b/c", "/".join(["2020-01-01T00:00:00"] * 30), "2020-13-01T00:00:00", 5], "unit": [5, [], {}],
               "language": [5], "entity": ["q:a", 5, {}], "e:d1": [5, {}], "concept": ["", "e:A:B", None], "x:y": ["a"]}
        cases = [number(1, **{key: value}) for key, values in odd.items() for value in values]
        cases += [{**number(1), "value": value} for value in ("1" * 50, "\u0661", 5, {})]
        cases += [{**number(1), "decimals": value} for value in (True, "1", None, 10**30, 1.5)]
        cases += [text(5), text([]), {"value": "1"}, {"dimensions": 5, "value": "1"}]
        for case in cases:
            other = {**case, "dimensions": {**case["dimensions"], "unit": "e:z"}} if isinstance(case.get("dimensions"), dict) else case
            for is_near in (False, True):
                words = self.words([case, case, other], is_near, "1 f1 f2 inconsistent apart f1 f2\n2 f3 f3 complete\n")
                status, errors = in_process.run(contradictions, *words)
                self.assertEqual((status, len(errors.splitlines())), (3, 1), (case, errors))
