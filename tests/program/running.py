"""Runs the program and the tools for the tests of this folder, on cases that Hypothesis draws and makes small.

By default, the program is $XBRLMERGE or the built program. $CASES replaces the number of cases of each test, and $SEED the seed 1.
A failing test prints its smallest case, and the seed.
"""
import collections
import os
import random
import subprocess
import sys
import tempfile

from hypothesis import HealthCheck, Phase, currently_in_test_context, given, note, seed, settings
from hypothesis.strategies import data, integers

sys.path.append(os.path.join(os.path.dirname(os.path.abspath(__file__)), ".."))
import support
from support import TOP, built_program

CASES, SEED = os.environ.get("CASES"), int(os.environ.get("SEED", 1))
LIMIT = 10  # seconds of a run
PROGRAM = built_program()
# how often each counted result occurred in this module's tests
counts = collections.Counter()


class Chance(random.Random):
    """Lets Hypothesis draw, so that it can make a failing case smaller."""

    def __init__(self, draw):
        super().__init__()
        self.draw = draw

    def random(self):
        return 1 - self.draw(integers(1, 128)) / 128  # a small case has few parts that are drawn with a low share

    def _randbelow(self, most):
        return self.draw(integers(0, most - 1))


def cases(count):
    """Returns a decorator: the test runs on `count` cases, each in a new current folder, with a Chance."""
    def decorated(test):
        def run(drawn):
            note(f"SEED={SEED} CASES={CASES or count}")
            with tempfile.TemporaryDirectory() as scratch:
                os.chdir(scratch)
                try:
                    test(Chance(drawn.conjecture_data.draw))
                finally:
                    os.chdir(TOP)

        run.__name__, run.__doc__ = test.__name__, test.__doc__
        phases = (Phase.generate, Phase.shrink)
        limits = settings(max_examples=int(CASES or count), deadline=None, database=None, phases=phases, suppress_health_check=list(HealthCheck))
        return seed(SEED)(limits(given(data())(run)))

    return decorated


def expect_all(names):
    """Checks that each of these results occurred, unless $CASES is set."""
    assert CASES or not [name for name in names if not counts[name]], counts


def write(name, content):
    """Writes a file, and its folder. A failing test prints the file."""
    content = content if isinstance(content, bytes) else content.encode()
    if currently_in_test_context():
        note(f"{name!r}: {content[:2000]!r}")
    return support.write(name, content)


def run(*words, given=b"", program=PROGRAM):
    """Runs the program. Returns its status, its output, and its lines on standard error."""
    done = subprocess.run((program, *words), input=given, capture_output=True, timeout=LIMIT)
    assert done.returncode in (0, 1, 3) or "--allow" in words, (words, done)
    return done.returncode, done.stdout, done.stderr.decode(errors="replace")


def merged(*names, sheet="sheet"):
    """Returns the merged text of reports. No report may be refused."""
    status, text, lines = run("merge", "--sheet", sheet, "--", *names)
    assert (status, lines) == (0, ""), (names, status, lines)
    return text
