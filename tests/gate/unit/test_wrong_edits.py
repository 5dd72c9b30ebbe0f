"""Tests which edits tests/prover/wrong_edits tries, and which it reports, in small repositories with provers of few lines. Tests
also that each edit of this repository can be made."""
import os
import shutil
import subprocess
import unittest

from test_gate_scripts import SmallTree
from support import TOP, content, script

SCRIPT = "tests/prover/wrong_edits"
# refuses each edit
REFUSER = """\
#!/bin/sh
for edit in crates/"$2"/must-fail/*.edit; do echo "must-fail $edit: refused, as it must be"; done
"""
# refuses functions that contain `wrong`
CHECKER = """\
#!/bin/sh
echo run >>"$RUNS"
if grep -q unknown src/lib.rt; then
    echo "src/lib.rt:2:5: error[unknown-name]: there is no such name"
    exit 1
fi
for name in one two; do
    if grep -A1 "fn $name" src/lib.rt | grep -q wrong; then echo "fn low::$name: not proved"; fi
done
if grep -q calls src/lib.rt; then
    if grep -q wrong src/lib.rt; then said="no proof: it calls \\`low::one\\`"; else said="not proved"; fi
    echo "fn low::two: $said"
fi
"""
CODE = "fn one() {\n    first\n}\n\npub fn two() {\n    second\n}\n"


def edit(name, old, new, file="src/lib.rt"):
    return f"name: {name}\nfile: {file}\nold: {old}\nnew: {new}\n"


class WithProver(SmallTree):
    SCRIPT, CRATES, PROVER = SCRIPT, "", ""

    def setUp(self):
        """Writes the crates' list and the prover, which the variables let the script find."""
        super().setUp()
        self.write("crates.txt", self.CRATES)
        self.write("HANDLES", "")
        os.chmod(self.write("prover/rt", self.PROVER), 0o755)
        self.env = {**os.environ, "PATH": os.pathsep.join([self.path_of("prover"), os.environ["PATH"]]), "RUNS": self.path_of("runs")}


@unittest.skipIf(shutil.which("git") is None, "needs git")
class Alone(WithProver):
    CRATES, PROVER = "low:\nmiddle: low\nhigh: low middle\nbare:\n", REFUSER

    def setUp(self):
        super().setUp()
        for crate in ("low", "middle", "high", "bare"):
            self.write(f"crates/{crate}/src/lib.rt", "")
        for crate in ("low", "middle", "high"):
            self.write(f"wrong_edits/{crate}.edits", edit("one", "a", "b"))
        self.write(".gitignore", "out/\n")
        self.git("init", "--quiet")
        self.git("add", "--all")
        self.git("-c", "user.name=a", "-c", "user.email=a@b", "-c", "commit.gpgsign=false", "commit", "--quiet", "--message", "first")

    def git(self, *words):
        subprocess.run(["git", "-C", self.scratch, *words], check=True)

    def tried(self, *words):
        """Runs the script. Returns its status, and its lines except those of the prover."""
        status, lines, errors = self.run_script(*words, env=self.env)
        return status, [it for it in lines if not it.startswith("must-fail ")] + errors

    def test_the_crates_whose_files_or_edits_differ(self):
        refused = "{}: 1 of 1 refused, 0 by names alone".format
        self.assertEqual(self.tried("--changed", "HEAD"), (0, ["no crate with edits differs from HEAD"]))
        self.write("crates/low/src/lib.rt", "// changed, and not committed\n")
        self.write("crates/high/specs/New.antt", "-- a file that git does not know\n")
        self.write("crates/middle/out/left_by_rt", "")
        self.write("crates/bare/src/lib.rt", "// it has no edits\n")
        self.assertEqual(self.tried("--changed", "HEAD"), (0, [refused("high"), refused("low")]))
        self.write("wrong_edits/middle.edits", edit("one", "a", "b") + "\n" + edit("two", "a", "c"))
        os.remove(self.path_of("wrong_edits/high.edits"))
        lines = ["high: no such crate, or no edits in wrong_edits/high.edits", refused("low"), "middle: 2 of 2 refused, 0 by names alone"]
        self.assertEqual(self.tried("--changed", "HEAD"), (1, lines))
        self.assertEqual(self.tried("--changed", "none"), (1, ["no revision none"]))


class Together(WithProver):
    CRATES, PROVER = "low:\n", CHECKER

    def setUp(self):
        super().setUp()
        self.write("crates/low/src/lib.rt", CODE)

    def tried(self, *edits):
        """Tries the edits together. Returns the script's status, its lines, and how often it ran the prover."""
        self.write("wrong_edits/low.edits", "\n".join(edits))
        status, lines, _ = self.run_script("--together", env=self.env)
        return status, lines, content(self.env["RUNS"]).count("\n")

    def test_edits_of_different_functions_are_made_together_and_others_in_turn(self):
        for other, runs in ((edit("second_is_wrong", "second", "wrong"), 1), (edit("first_is_wronger", "first", "wronger"), 1 + 2),
                            (edit("second_calls_the_first", "second", "calls"), 1 + 2 + 2)):  # runs of the prover so far
            self.assertEqual(self.tried(edit("first_is_wrong", "first", "wrong"), other), (0, ["low: 2 of 2 refused"], runs))

    def test_edits_that_are_not_refused(self):
        self.write("crates/low/src/other.rt", "fn one() {\n    third\n}\n")
        first = edit("first_is_wrong", "first", "wrong")
        for other, line, runs in (  # functions of one name are edited in turn
            (edit("third_is_wrong", "third", "wrong", "src/other.rt"), "third_is_wrong: `one` does not lose its own proof", 2),
            (edit("second_is_other", "second", "other"), "second_is_other: `two` does not lose its own proof", 3),
            (edit("second_is_unknown", "second", "unknown"), "second_is_unknown: does not compile", 6),
            (edit("absent_is_wrong", "absent", "wrong"), "absent_is_wrong: cannot be made", 7),
        ):
            self.assertEqual(self.tried(first, other), (1, [f"low/{line}", "low: 1 of 2 refused"], runs))


class Edits(unittest.TestCase):
    def test_each_edit_can_be_made(self):
        tried = script(SCRIPT)
        crates = [it.removesuffix(".edits") for it in os.listdir(os.path.join(TOP, "wrong_edits"))]
        wrong = []
        for crate in crates:
            folder, edits = os.path.join(TOP, "crates", crate), tried.edits_of(crate)
            names = [it.name for it in edits]
            wrong += [f"{crate}: {it} twice" for it in set(names) if names.count(it) > 1]
            for it in edits:
                texts = {file: tried.read(folder, file) for file, _, _ in it.steps}
                wrong += [] if it.steps and tried.made(texts, [it]) not in (None, texts) else [f"{crate}: {it.name} cannot be made"]
        self.assertEqual(wrong, [])
