"""Tests of scripts of the gate, and of tests/pages/lengths_and_links, on small repositories in their own folders.
small_trees.txt has the files of such repositories."""
import os
import re
import shutil
import subprocess
import unittest

from in_process import TOP, RoomTest
from support import content, script


def tree(name):
    """Returns the texts of the files of a small repository, by their paths."""
    parts = re.split(r"^==== (\w+) (\S+)\n", content("tests/gate/unit/small_trees.txt"), flags=re.MULTILINE)[1:]
    return {path: text for owner, path, text in zip(*[iter(parts)] * 3) if owner == name}


class SmallTree(RoomTest):
    """The base class of tests that run a script in a folder with copies of the script, of its modules and of support.py."""

    SCRIPT, MODULES, TREE = "", (), {}

    def setUp(self):
        super().setUp()
        for path in (self.SCRIPT, *self.MODULES, "tests/support.py"):
            os.makedirs(os.path.dirname(self.path_of(path)), exist_ok=True)
            shutil.copy(os.path.join(TOP, path), self.path_of(path))
        for path, text in self.TREE.items():
            self.write(path, text)

    def run_script(self, *words, **settings):
        """Runs the script. Returns its status, its lines on standard output, and its lines on standard error."""
        ran = subprocess.run([self.path_of(self.SCRIPT), *words], capture_output=True, encoding="utf-8", **settings)
        return ran.returncode, ran.stdout.splitlines(), ran.stderr.splitlines()


class Rooms(SmallTree):
    SCRIPT = "tests/gate/rooms"

    def lines(self, **files):
        """Runs the script on a crate with these files; `__` in a name is a folder. Returns the status and the lines."""
        for name, text in files.items():
            self.write(f"crates/shop/src/{name.replace('__', '/')}.rt", text)
        status, _, lines = self.run_script()
        return status, lines

    def test_modules_in_an_order(self):
        files = {"lib": "use crate::price::Price;", "laws": "use crate::order::Order;", "order__tests": "use crate::cart::Cart;",
                 "cart": "use crate::{order::Order, price::Price};", "order": "use crate::order::line::Line;",
                 "order__line": "use super::Order; // like crate::cart\nuse crate::price::{Price, laws};", "price": "use std::cart::Cart;"}
        self.assertEqual(self.lines(**files), (0, ["rooms: no modules use each other in a circle"]))

    def test_modules_in_a_circle(self):
        files = {"cart": "use crate::{price::Price, order::{line::Line, Order}};", "order": "pub struct Order;", "till": "use crate::cart::Cart;",
                 "order__line": "use super::super::price::Price;", "price": "fn of(cart: &crate::cart::Cart) {}",
                 "price__tax": "use crate::cart::Cart;"}
        self.assertEqual(self.lines(**files), (1, [
            "rooms: shop: cart, order, price use each other in a circle",
            "    cart uses order in cart.rt",
            "    cart uses price in cart.rt",
            "    order uses price in order/line.rt",
            "    price uses cart in price.rt, price/tax.rt"]))


LEMMAS = """\
use Rattle.std.specs.Prelude.{ℕ}

-- nothing but this comment names unused, and unused itself
pub unused : ℕ → ℕ
unused n = unused n

used : ℕ → ℕ
used n = n

in-a-contract :
    ℕ
in-a-contract = 0
"""


class Uncited(SmallTree):
    SCRIPT = "tests/gate/uncited"

    def setUp(self):
        super().setUp()
        self.write("crates/shop/proofs/order/Answers.antt", "returns : ℕ\nreturns = used 1\n")

    def lines(self):
        self.write("crates/shop/proofs/Prices.antt", LEMMAS)
        self.write("crates/shop/src/order.rt", "#[tactic(auto, using(crate::proofs::Prices::in-a-contract))]\n")
        status, _, lines = self.run_script()
        return status, lines

    def test_a_lemma_is_not_cited(self):
        self.assertEqual(self.lines(), (1, ["uncited: crates/shop/proofs/Prices.antt: nothing cites unused"]))

    def test_all_lemmas_are_cited(self):
        self.write("crates/shop/proofs/Totals.antt", "use Rattle.shop.proofs.Prices.{unused}\n")
        self.assertEqual(self.lines(), (0, ["uncited: each lemma is cited"]))


LIBRARY = tree("promises")
PAGE = "# What is proved\n\n`Order::price` and `shop::read_order`, under `laws::orders_are`; `Vec::new`.\n"


class Promises(SmallTree):
    SCRIPT, TREE = "tests/gate/promises", LIBRARY

    def problems(self, page, *words):
        """Runs tests/gate/promises on a page. Returns its status, its lines without `promises: `, and the list."""
        self.write("docs/PROVED.md", page)
        status, listed, lines = self.run_script(*words)
        return status, [it.removeprefix("promises: ") for it in lines], listed

    def test_each_public_function_has_a_promise(self):
        said = ["all 4 public functions and laws have a promise"]
        self.assertEqual(self.problems(PAGE), (0, said, []))
        self.assertEqual(self.problems(PAGE, "--list"), (0, said, LIBRARY["list"].splitlines()))

    def test_names_that_do_not_exist(self):
        page = PAGE.replace("`Order::price` and `shop::read_order`", "`Order::prices`, `Order::hidden` and `shop::write_order`")
        wrong = ["there is no function `Order::prices`", "there is no function `shop::write_order`"]
        self.assertEqual(self.problems(page)[:2], (1, wrong))

    def test_a_function_without_a_comment_and_a_cost(self):
        self.write("crates/shop/src/order.rt", LIBRARY["crates/shop/src/order.rt"].replace("cents.\n    ///\n    /// It takes no memory.", "cents. It does not allocate."))
        self.assertEqual(self.problems(PAGE)[:2], (1, ["the promise of `Order::price` says what it costs"]))
        self.write("crates/shop/src/laws.rt", LIBRARY["crates/shop/src/laws.rt"].replace("/// Does nothing.\n", ""))
        self.assertIn("`laws::orders_are` has no doc comment", self.problems(PAGE)[1])


memory_sources = script("tests/gate/memory_sources")
RECEIVED = tree("memory_sources")["received.rt"]


def lines_of(text, *stay):
    """Returns the codes of the lines that are sources, and other problems."""
    found = memory_sources.problems({"a.rt": text}, {("a.rt", code): "why" for code in stay})
    return [it.partition(": ")[2] for it in found]


def body(*lines):
    return "fn make(failed: Error) -> Result<u8, AllocError> {\n" + "\n".join(lines) + "\n}\n"


# errors from nothing or from others
SOURCES = (
    "Err(_) => Err(AllocError),",
    "Err(Fault::OutOfMemory(_) | Fault::Device(_)) => Err(AllocError),",
    "Err(e) if !e.is_memory() => Err(AllocError),",
    "Err(e) if e.is_memory() || is_late() => Err(AllocError),",
    "read().map_err(|_| AllocError)",
    "let Ok(a) = read() else { return Err(AllocError); };",
    "if let Ok(a) = read() { Ok(a) } else { Err(AllocError) }",
    "Err(AllocError)",
    "if is_late() { Err(Reason::OutOfMemory)? } Ok(1)",
    "let list = Vec::<u8>::with_capacity(alloc, usize::MAX)?;",
    "list.reserve(u64::MAX as usize)?;",
    "list.reserve(1 << 60)?;",
    "list.reserve(1_000_000_000_000)?;",
    "Err(fmt::Error)",
    "Err(io::Error::from(ErrorKind::OutOfMemory))",
)
# the line that is such an error, and the lines around it
BODIES = (
    ("return Err(AllocError);", ["if failed != Error::OutOfMemory {", "return Err(AllocError);", "}"]),
    ("return Err(AllocError);", ["if self.settled != before {", "return Err(AllocError);", "}", "Ok(())"]),
    ("Err(Reason::OutOfMemory)", ["match index_of(names, &name) {", "Some(_) => {", "names.reserve(1)?;", "Err(Reason::OutOfMemory)", "}", "}"]),
)


class MemorySources(unittest.TestCase):
    def test_errors_that_were_received(self):
        self.assertEqual(lines_of(RECEIVED + body("Ok(bound.unwrap_or(u64::MAX))")), [])
        self.assertEqual(lines_of("use std::alloc::AllocError as Late;\n"), ["use std::alloc::AllocError as Late;"])

    def test_errors_from_nothing_or_from_others(self):
        for wanted, lines in (*((line, [line]) for line in SOURCES), *BODIES):
            with self.subTest(lines):
                self.assertEqual(lines_of(body(*lines)), [wanted])

    def test_what_is_listed_stays(self):
        other = body("read().map_err(|_| AllocError)")
        line = "read().map_err(|_| AllocError)"
        self.assertEqual(lines_of(other, line), [])
        self.assertEqual(lines_of(2 * other, line), [f"2 times, not once: {line}"])
        self.assertEqual(lines_of("", line), [f"0 times, not once: {line}"])


WORDS = "one two three\n"


class Pages(SmallTree):
    SCRIPT = "tests/pages/lengths_and_links"

    def ran(self, page, text):
        """Runs the script on a page with this text. Returns the status, the number of counted words, and the faults."""
        self.write(page, text)
        status, counted, wrong = self.run_script(page)
        return status, int(counted[0].split()[0]), [it.removeprefix("lengths_and_links: ") for it in wrong]

    def test_words_are_counted(self):
        for page, found in (
            (f"# A page\n\n| a table | - |\n|---|---|\n\n```sh\nxbrlmerge merge\n```\n\n<!-- a remark -->\n{WORDS}", (0, 7, [])),
            (f"{WORDS}\n<!-- generated by a script -->\n| four | five |\n<!-- end -->\n\nsix\n", (0, 4, [])),
            (WORDS * 200, (1, 600, ["SECURITY.md: 100 words too many"])),
        ):
            self.assertEqual(self.ran("SECURITY.md", page), found)

    def test_pages_that_share_a_bound(self):
        self.write("docs/FORMAT.md", WORDS * 500)
        self.write("crates/shop/specs/Order.antt", "")
        entries = "- `crates/shop/specs/Order.antt`: `order_of`\n- [Order](../crates/shop/specs/Order.antt): `order_of`\n| a | b |\n"
        page = f"{entries}{WORDS * 500}"
        names = "docs/DOUBT.md and docs/FORMAT.md"
        self.assertEqual(self.ran("docs/DOUBT.md", page), (1, 3000, [f"{names}: 590 words too many"]))

    def test_links_need_their_file_and_heading(self):
        self.write("docs/COSTS.md", "# Costs\n\n## What `merge` costs\n\n## Again\n\n## Again\n")
        good = "[a](docs/COSTS.md) [b](docs/COSTS.md#what-merge-costs) [c](docs/COSTS.md#again-1) [d](#here) [e](https://xbrl.org/x)"
        bad = "[f](docs/NONE.md) [g](docs/COSTS.md#nowhere) `[h](none)`"
        wrong = ["SECURITY.md: docs/NONE.md has no file", "SECURITY.md: docs/COSTS.md#nowhere has no heading"]
        self.assertEqual(self.ran("SECURITY.md", f"# Here\n\n{good}\n{bad}\n"), (1, 9, wrong))

    def test_the_pages_of_this_repository(self):
        ran = subprocess.run([f"{TOP}/tests/pages/lengths_and_links"], capture_output=True, encoding="utf-8", check=False)
        self.assertEqual((ran.returncode, ran.stderr), (0, ""))
