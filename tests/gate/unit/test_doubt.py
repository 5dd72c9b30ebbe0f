"""Tests of tests/gate/doubt on a small repository: entries, words and their laws, the table of conditions, and line counts."""
import re

from test_gate_scripts import SmallTree, tree
from support import content

TREE = tree("doubt")
CODE, LAWS, SPECS, *_ = TREE.values()
NAMES = ["Order", "added", "total", "paid", "IsPaid"]
SPECS_PATH, LAWS_PATH = "crates/shop/specs/Order.antt", "crates/shop/src/laws.rt"

PAGE = """\
# If you doubt it

There are {lines} lines of definitions and contracts.

{words}
## 1. The sum

- [shop/Order.antt](../crates/shop/specs/Order.antt): {names}
- [shop/sum.rt](../crates/shop/src/sum.rt): `sum`
"""

FORMAT = """\
# The format

There are {lines} lines of definitions and contracts.

## Laws

{entries}
"""

NO_FORMAT = FORMAT.format(lines=0, entries="")


def page(names, lines, words=""):
    return PAGE.format(lines=lines, words=words, names=", ".join(f"`{it}`" for it in names))


def word(name, law):
    return f"| [`{name}`](../{SPECS_PATH}) | [`{law}`](../{LAWS_PATH}) | all |\n"


# pages that --write changes to the page of NAMES: a missing name (a field does not hide a definition), one that no contract needs,
# one that is after its user, and a wrong number
OTHER_PAGES = [page(names, lines) for names, lines in (
    (["Order", "added", "total", "IsPaid"], 17), ([*NAMES, "AllArePaid"], 23), (["added", "Order", "paid", "total", "IsPaid"], 20),
    (["Order", "IsPaid", "total", "AllArePaid", "none"], 3), (NAMES, 19))]


class Doubt(SmallTree):
    SCRIPT, MODULES, TREE = "tests/gate/doubt", ("tests/gate/definitions.py",), TREE

    def problems(self, doubt, form=NO_FORMAT, *words):
        """Runs tests/gate/doubt on two pages. Returns the status and the lines on standard error."""
        self.write("docs/DOUBT.md", doubt)
        self.write("docs/FORMAT.md", form)
        return self.run_script("--quiet", *words)[::2]

    def expect_good(self, names, lines, doubt, form=NO_FORMAT, *words):
        """Expects a page with as many names besides `sum`, and as many lines."""
        status, found = self.problems(doubt, form, *words)
        self.assertEqual((status, found[:1]), (0, [f"doubt: the headline has {names + 1} names and {lines} lines"]))

    def written(self, name="DOUBT"):
        return content(self.path_of(f"docs/{name}.md"))

    def test_the_page_that_write_makes_passes(self):
        good = page(NAMES, 20)
        self.expect_good(5, 20, good)
        for other in OTHER_PAGES:
            status, (line,) = self.problems(other)
            self.assertEqual((status, line.startswith("doubt: docs/DOUBT.md: --write changes line ")), (1, True), line)
            self.expect_good(5, 20, other, NO_FORMAT, "--write")
            self.assertEqual(self.written(), good)

    def test_the_first_variable_of_a_capitalised_name_is_bound(self):
        record = "\n\n-- an order to some place\npub record IsSent (order : Order) : Type 0 where\n  pub place : ℕ\n"
        law = "\n-- it is sent\nabbrev pub Sends : ℕ → Order → Type 0\nSends place order = place ≡ total order\n"
        self.write(SPECS_PATH, SPECS + record + law)
        self.write("crates/shop/src/sum.rt", CODE.replace("IsPaid order.now", "Sends 0 order.now").replace("IsPaid,", "Sends,"))
        self.expect_good(4, 16, page(["Order", "added", "total", "Sends"], 16))

    def laws(self, *names):
        """Returns the text of docs/FORMAT.md with these laws, and with `SumsArePaid` if they include `sums_are_paid`."""
        entries = f"- [shop/laws.rt](../{LAWS_PATH}): " + ", ".join(f"`{it}`" for it in names)
        if "sums_are_paid" in names:
            entries += f"\n- [shop/Order.antt](../{SPECS_PATH}): `SumsArePaid`"
        return FORMAT.format(lines=3 * len(names) + 3 * ("sums_are_paid" in names), entries=entries)

    def test_words_need_laws_that_mention_them(self):
        names = ["Order", "total", "paid", "IsPaid"]
        self.expect_good(4, 18, page(names, 18, word("added", "sums_are_paid")), self.laws("sums_are_paid"))
        for law, form, wrong in (
            ("sums_are_sums", NO_FORMAT, f"{LAWS_PATH} has no law `sums_are_sums`"),
            ("sums_are_paid", NO_FORMAT, "its law `sums_are_paid` is on no page"),
            ("nothing", self.laws("nothing"), "its law `nothing` does not mention it"),
        ):
            with self.subTest(law=law):
                self.assertEqual(self.problems(page(names, 18, word("added", law)), form), (1, [f"doubt: `added`: {wrong}"]))
        # without `IsPaid`, no function that does something needs `paid`
        self.write("crates/shop/src/sum.rt", CODE.replace(" × IsPaid order.now", ""))
        found = self.problems(page(names[:2], 14, word("paid", "sums_are_paid")), self.laws("sums_are_paid"), "--write")
        self.assertEqual(found, (1, ["doubt: `paid`: no contract but laws needs it"]))

    def test_a_clause_of_laws_only(self):
        text = page(["added", "paid", "SumsArePaid"], 13).replace("sum.rt", "laws.rt").replace("`sum`", "`sums_are_paid`")
        self.assertEqual(self.problems(text, NO_FORMAT, "--write"), (1, ["doubt: no function of `1. The sum` does anything"]))
        # a function with a result, or with an argument that it may change, does something
        for head in ("pub fn sums_are_paid() -> u64\n", "pub fn sums_are_paid(order: &mut Order)\n"):
            self.write(LAWS_PATH, LAWS.replace("pub fn sums_are_paid()\n", head))
            self.assertEqual(self.run_script("--quiet")[0], 0)

    def test_fields_and_views_name_types_and_definitions(self):
        for path, text in tree("doubt_types").items():
            self.write(path, text)
        self.write(SPECS_PATH, "use Rattle.shop.specs.declared.bill.Bill.{Bill}\n\n" + SPECS.replace("prices : List ℕ\n", "prices : List Bill\n"))
        self.expect_good(9, 37, page(NAMES, 20), NO_FORMAT, "--write")
        entries = "shop/bill.rt Kind money/Amount.antt amount money/price.rt Price shop/bill.rt Bill shop/Order.antt " + " ".join(NAMES)
        found = re.findall(r"^- \[(.*?)\].*: (.*)", self.written(), re.MULTILINE)
        self.assertEqual(" ".join(f"{file} {names}" for file, names in found[:-1]).replace("`", "").replace(",", ""), entries)

    def test_a_headline_that_is_too_long(self):
        self.write(SPECS_PATH, SPECS.replace("-- one order\n", "-- one order\n" * 632))
        found = ["doubt: docs/DOUBT.md: the headline has 651 lines; at most 650 are allowed"]
        self.assertEqual(self.problems(page(NAMES, 651)), (1, found))

    def test_the_table_of_conditions_is_that_of_the_code(self):
        rows = ["| 0 | `NotPaid` | An order that is not paid. | shop | own |", "| 1 | `NoOrder` | There is an order. | shop | RFC 1 |"]
        form = FORMAT.format(lines=2, entries="\n".join(rows))
        mended = rows[1].replace("an order", "no order")
        self.assertEqual(self.problems(page(NAMES, 20), form), (1, [f"doubt: docs/FORMAT.md: --write changes line 8 to {mended}"]))
        self.expect_good(5, 20, page(NAMES, 20), form, "--write")
        self.assertEqual(self.written("FORMAT"), form.replace(rows[1], mended))

    def test_the_definitions_of_the_program_are_counted(self):
        self.write("crates/command_line/src/program.rt", CODE.replace("fn sum", "fn run"))
        stated = "\nOf the program they have {} lines, 3 of them in `command_line`.\n".format
        self.assertEqual(self.problems(page(NAMES, 20, stated(19)))[0], 1)
        self.expect_good(5, 20, page(NAMES, 20, stated(19)), NO_FORMAT, "--write")
        self.assertEqual(self.written(), page(NAMES, 20, stated(20)))

    def test_write_mends_entries_of_the_format(self):
        entries = f"- [shop/laws.rt](../{LAWS_PATH}): `sums_are_paid`\n- [shop/Order.antt](../{SPECS_PATH}): `AllArePaid`, `SumsArePaid`"
        self.expect_good(5, 20, page(NAMES, 20), FORMAT.format(lines=3, entries=entries), "--write")
        self.assertEqual(self.written("FORMAT"), FORMAT.format(lines=6, entries=entries.replace("`AllArePaid`, ", "")))
        status, found = self.problems(page(NAMES, 20), FORMAT.format(lines=6, entries=entries.replace("AllArePaid", "SumsArePaid")))
        self.assertEqual((status, found[-1]), (1, f"doubt: {SPECS_PATH}: `SumsArePaid` is on the pages twice"))
