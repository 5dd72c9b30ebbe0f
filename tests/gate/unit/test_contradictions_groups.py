"""Tests of the groups, the hints, the counts of rows and providers, the matrix, the files and the statuses of tools/contradictions, on
small merged reports."""
import itertools
import json
import os
import re
import subprocess
import sys
import unittest
from decimal import Decimal

import in_process
import contradictions
from contradicting import all_rows
from contradicting.facts import Fact, groups_of, hints_of, odd_facts
from support import content
from test_contradictions import KINDS, TOOL, ToolTest, data_of, fact


def number(value, decimals=None):
    return Fact(None if value is None else Decimal(value), decimals)


def grouped(*facts, **weights):
    """Returns the groups of facts that are named a, b, c .., each as a text, and the facts outside the largest group."""
    named = dict(zip("abcdefghijklmnopqrstuvwxyz", facts))
    of = {name: weights.get(name, 1) for name in named}
    found = groups_of(named, of)
    return " ".join("".join(group) for group in found), "".join(sorted(odd_facts(found, of)))


def hinted(first, second, **weights):
    """Returns the hint for two facts, as the name of the fact and the phrase, or None."""
    facts = {"a": first, "b": second}
    of = {"a": 1, "b": 1, **weights}
    (*found,) = hints_of(facts, groups_of(facts, of), of)
    return (found[0].group[0], found[0].phrase) if found else None


# facts, the weights of some, their groups, and the facts outside the largest group
GROUPS = (
    # the largest set with a common number comes first; 1 and 2 meet at 1.5
    ([number(1, 0), number(5, 0), number(5, 1)], {}, "bc a", "a"), ([number(1, 0), number(2, 0), number(3, 0)], {}, "ab c", "c"),
    ([number(1), number(2, 0), number(2, -1), number(9)], {}, "ac b d", "bd"),
    # of two, that with the lowest fact
    ([number(1), number(2)], {}, "a b", "ab"), ([number(1), number(1, 0), number(9), number(9, 0)], {}, "ab cd", "abcd"),
    ([number(-3, -1), number(10, 0), number(20, 0)], {}, "a b c", "abc"),
    # a fact counts for each provider that reports it
    ([number(1), number(2)], {"b": 2}, "b a", "a"), ([number(1, 0), number(2, 0), number(3, 0)], {"c": 2}, "bc a", "a"),
    # other values never agree
    ([number(None), number(7), number(7, 0)], {}, "bc a", "a"), ([Fact("x", None), Fact("y", None)], {"b": 3}, "b a", "a"),
    # again and again
    ([*(number(low + each, 0) for low in (0, 100, 200) for each in (0, 1)), number(300)], {}, "ab cd ef g", "abcdefg"),
)
# two facts, the weights of some, and the hint
HINTS = (
    (number(4321, 0), number(4321000, -3), {}, ("a", "1,000 times smaller")),
    (number(-4321000, -3), number(-4321, 0), {}, ("b", "1,000 times smaller")),
    (number(4321, 0), number(4321000, -3), {"a": 2}, ("b", "1,000 times larger")),
    *((number("1.25"), number(Decimal("1.25") * factor), {}, ("a", f"{factor:,} times smaller")) for factor in (10**6, 10**9, 100)),
    (number(4321, 0), number(4400000, -3), {}, None),  # about 1,000 is no hint
    (number(0, 0), number(300000000, 0), {}, None),  # an interval with zero meets any number once it is scaled
    (number(2), number(20), {}, None), (number(-454, 0), number(454, 0), {}, ("b", "opposite sign")),
    (number(None), number(454, 0), {}, ("a", "nil")), (number(None), number(454, 0), {"b": 2}, ("a", "nil")),
    (number(None), number(454, 0), {"a": 2}, ("b", "not nil")),
    (number(57, 0), number("57.6", 1), {}, ("a", "less than 1 away in the last place")),
    (number(57, 0), number("58.1", 1), {}, None), (number(57), number("57.6"), {}, None), (Fact("a", None), Fact("b", None), {}, None),
)


class GroupsAndHints(unittest.TestCase):
    def test_groups(self):
        for facts, weights, found, odd in GROUPS:
            with self.subTest(facts):
                self.assertEqual(grouped(*facts, **weights), (found, odd))

    def test_hints_of_two_facts(self):
        for first, second, weights, hint in HINTS:
            with self.subTest((first, second)):
                self.assertEqual(hinted(first, second, **weights), hint)

    def test_a_hint_is_given_once_for_both_other_groups(self):
        facts = {"a": number(None), "b": number(0, 0), "c": number(5, 0)}
        found = hints_of(facts, (("a",), ("b",), ("c",)), dict.fromkeys("abc", 1))
        self.assertEqual([hint.phrase for hint in found], ["nil"])

    def test_every_fact_of_a_group_must_meet(self):
        facts = {"a": number(1000, 0), "b": number("1.0", 1), "c": number("1.2", 1), "d": number(1000, 0)}
        self.assertEqual([*hints_of(facts, (("a", "d"), ("b", "c")), dict.fromkeys("abcd", 1))], [])
        facts["c"] = number("1.04", 1)
        found = hints_of(facts, (("a", "d"), ("b", "c")), {**dict.fromkeys("abcd", 1), "a": 3})
        self.assertEqual([hint.phrase for hint in found], ["1,000 times smaller"])


LONG = "The group recognises revenue when control of the goods passes to the customer, on delivery in "
# rows: for each fact, a text, or a number with its decimals, and the numbers of the reports that have it
ROWS = (
    # two rows with one hint, a row without one, and one with two
    *([((value, 0), (2,)), ((f"{value}000", -3), (1, 4))] for value in ("4321", "4322")), [(("5", 0), (1, 2)), (("7", 0), (4,))],
    [(("1", 0), (1,)), (("1000", 0), (2,)), (("1000000", 0), (4,))],
    # long texts are cut near their difference; a provider restates a number; nil is not the text nil
    [(LONG + "Oslo", (1,)), (LONG + "Rome", (2,))], [(("1", 0), (2,)), (("9", 0), (1, 3))], [(("5", 0), (1,)), (("7", 0), (2, 3))], [("x", (2,))],
    [((None, None), (1,)), (("9", 0), (2,))], [("nil", (1,)), ("x", (2,))], [("", (1,)), ("x", (2,))],
)


class Reported(ToolTest):
    """Runs the tool on facts that say who reports them. The providers are Alpha, Beta with two reports, and Gamma."""

    NAMES = ("Alpha", "Beta", "Beta", "Gamma")

    def run_on(self, rows, *options):
        """Runs the tool on rows. Each row is a list of pairs: a value with its decimals, and the numbers of its reports."""
        pairs = [(index, *pair) for index, row in enumerate(rows) for pair in row]
        facts = [fact(given, None, "n1:T", **{"n1:Reg": f"{index:03}"}) if isinstance(given, str) else fact(*given, **{"n1:Reg": f"{index:03}"})
                 for index, given, _ in pairs]
        done = self.run_tool(*self.inputs(facts, KINDS, reports=[numbers for *_, numbers in pairs], names=",".join(self.NAMES)), *options)
        self.assertEqual((done.returncode, self.other_lines(done.stderr.decode())), (1, []))
        return content(self.page), self.cells("contradictions.csv"), self.cells("table.csv")

    def test_the_page_and_the_tables(self):
        self.run_on(ROWS)
        self.expect_kept("reported", "page.html", "contradictions.csv", "table.csv", "providers.csv")

    def test_without_columns_of_providers_all_values_are_in_one(self):
        rows = [[(("1", 0), (1,)), (("9", 2), (2,))], [("x", (1,))]]
        names = self.NAMES
        self.NAMES = [*names, *(f"P{number}" for number in range(all_rows.MOST_PROVIDERS))]
        page, _, listed = self.run_on(rows)
        self.NAMES = names
        found = [(row["values"], row["decimals"], row["reported_by"]) for row in listed]
        self.assertEqual(found, [("1; 9", "0; 2", "2 of 103"), ("x", "", "1 of 103")])
        self.assertNotIn("provider: Alpha", listed[0])
        self.assertIn('class="period">Period<th scope="col" class="value">Values<th scope="col" class="difference">', page)
        self.assertIn("<td class=value><span class=odd>1 <small>(0)</small></span>; <span class=odd>9 <small>(2)</small></span><td", page)

    def test_a_heading_is_no_formula(self):
        names, self.NAMES = self.NAMES, ("Alpha;=1", *self.NAMES[1:])
        *_, rows = self.run_on([[(("1", 0), (1,)), (("9", 0), (2,))]])
        self.NAMES = names
        self.assertEqual(rows[0]["provider: Alpha;'=1"], "1")

    def test_small_differences_are_hidden_on_the_page(self):
        rows = [[(("1000", 0), (1,)), (("1002", 0), (2,))], [(("1000", 0), (1,)), (("2000", 0), (2,))], [("x", (1,)), ("y", (2,))]]
        for share, shown in (("0.3%", "23"), ("0.003", "23"), ("0.1%", "123"), ("60%", "3")):
            page, cells, listed = self.run_on(rows, "--at-least", share)
            self.assertEqual("".join(sorted(re.findall(r'<tr id="row(\d)"', page))), shown)
            self.assertEqual("".join(sorted(str(row[0]) for row in data_of(page)["rows"])), shown)
            hidden = 3 - len(shown)
            self.assertEqual(f"<p>Not shown: {hidden} with smaller differences;" in page, hidden > 0)
            self.assertEqual((len(cells), len(listed)), (6, 3))
        for share in ("x", "-1", "1e3", "", "%", "\u0661%"):
            words = ["--sheet", "s", "-o", self.output, "a.json", f"--at-least={share}"]
            self.assertEqual(subprocess.run([sys.executable, TOOL, *words], capture_output=True).returncode, 2)


class Compared(ToolTest):
    def words(self, rows, names="a,b", *more):
        """Writes a merged report, its verdicts and its sources. Each row has a list of values for each provider: a number as a text
        with its decimals, nil as None with decimals, or a text. Returns the arguments of a run on them."""
        facts, holders = [], []
        for entity, values in enumerate(rows):
            own = {}
            for number, value in ((number, value) for number, given in enumerate(values, 1) for value in given):
                own.setdefault(value, []).append(number)
            for value in sorted(own, key=str):
                of = (value, None, "n1:T") if type(value) is str else (value[0], None if value[0] is None else value[1])
                facts.append(fact(*of, entity=f"n1:{entity:02}"))
                holders.append(own[value])
        return ["-o", self.output, *more, "--from", *self.inputs(facts, KINDS, reports=holders, names=names)]

    def test_rows_and_pairs_are_counted(self):
        one, near, far, nil = ("100", 0), ("100.3", 1), ("105", 0), (None, 0)
        # the values of the providers a, b and c, and the pairs that contradict each other
        rows = [([one], [one], [], ""), ([one], [near], [], ""), ([one, near], [], [], ""), ([one], [far], [near], "ab bc"),
                ([one, far], [], [], ""), ([one, far], [far], [], "ab"), ([one], [nil], [nil], "ab ac"), (["x"], ["x"], ["y"], "ac bc"),
                ([nil], [nil], [], ""), ([], [], ["z"], "")]
        words = self.words([row[:3] for row in rows], "a,b,c")
        status, errors, out = in_process.run_whole(contradictions, *words)
        self.assertEqual((status, out.decode()), (1, "10 rows: 5 contradictions, 2 reported by one provider, 2 agree exactly,"
                                                     f" 1 agree within rounding; page: {self.page}\n"), errors)
        kinds = ["agree exactly", "agree within rounding", "reported by one provider", *["contradiction"] * 5, "agree exactly"]
        self.assertEqual([row["agreement"] for row in self.cells("table.csv")], [*kinds, "reported by one provider"])
        own = [{name for name, given in zip("abc", row) if given} for row in rows]
        for pair, (one, other) in zip(self.cells("providers.csv"), itertools.combinations("abc", 2)):
            shared = sum({one, other} <= names for names in own)
            apart = sum(one + other in row[3].split() for row in rows)
            wanted = [one, other, *(sum(name in names for names in own) for name in (one, other)), shared, shared - apart, apart]
            self.assertEqual(list(pair.values()), [*map(str, wanted)])
            self.assertIn(f"<bdi>{one}</bdi> and <bdi>{other}</bdi><td>{shared}<td", content(self.page))

        summary = json.loads(content(os.path.join(self.output, "summary.json")))
        self.assertEqual((summary["format"], summary["status"], summary["findings"]["contradictions"]), (1, 1, 5))
        self.assertEqual(summary["rows"], {"all": 10, "contradiction": 5, "one_provider": 2, "exact": 2, "rounding": 1})
        self.assertEqual([[pair["shared"], pair["contradicting"]] for pair in summary["pairs"]],
                         [[int(pair["shared"]), int(pair["contradict"])] for pair in self.cells("providers.csv")])
        self.assertEqual(len(summary["files"]), 4)

    def test_the_night_after(self):
        one, two, three = ("1", 0), ("3", 0), ("5", 0)
        nights = [([one], [two]), ([one], [two]), ([one], [two]), ([one], [one]), ([one], [two])], [([one], [two]), ([one], [three]), ([one], [one]), ([one], [two])]
        for rows, more in zip(nights, ([], ["--since", self.output])):
            self.assertEqual(in_process.run(contradictions, *self.words(rows), *more)[0], 1)
        found = [(each["change"], each["row"], each["now"]) for each in self.cells("since.csv")]
        self.assertEqual(found, [("new", "4", "contradiction"), ("changed", "2", "contradiction"), ("open", "1", "contradiction"),
                                 ("gone", "3", "agree exactly"), ("gone", "", "not reported")])
        for more, wanted in (([], 2), (["--since", self.output], 0)):
            done = in_process.run(contradictions, *self.words(nights[1]), "--fail-on", "new", *more)
            self.assertEqual(done[0], wanted, done)
        self.assertEqual(in_process.run(contradictions, *self.words(nights[0]), "--since", self.output, "--fail-on", "new")[0], 1)
        for text in ("[]", '{"format":2}', "{", ""):
            self.write("out/summary.json", text)
            status, errors = in_process.run(contradictions, *self.words(nights[0]), "--since", self.output)
            self.assertEqual((status, len(errors.splitlines())), (3, 1), errors)

    def test_without_providers_only_contradictions_are_told_from_others(self):
        words = self.words([([("1", 0)], [("3", 0)]), ([("1", 0)], [])])
        out = in_process.run_whole(contradictions, *words[:6])[2].decode()
        self.assertTrue(out.startswith("2 rows: 1 contradiction, 1 no contradiction; page: "), out)
        self.assertEqual([row["agreement"] for row in self.cells("table.csv")], ["contradiction", "no contradiction"])
        self.assertEqual(self.cells("providers.csv"), [])

    def test_the_kinds_that_give_status_1(self):
        words = self.words([([("1", 0)], [("3", 0)])])
        for options, wanted in (([], 1), (["--exit-zero"], 0), (["--fail-on", "refusals,losses"], 0), (["--fail-on", "losses,contradictions"], 1),
                                (["--fail-on", "all"], 2), (["--fail-on", ""], 2), (["--fail-on", "losses", "--exit-zero"], 2)):
            self.assertEqual(in_process.run(contradictions, *words, *options)[0], wanted, options)
