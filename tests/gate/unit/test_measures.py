"""Tests what tests/program/refused_memory makes of runs in which no request is refused, and bench/shapes --megabyte of programs that do
nothing, take memory or fail."""
import contextlib
import io
import os
import pathlib
import stat
import sys
import tempfile
import unittest

import in_process
from support import TOP, script

sys.path.append(f"{TOP}/bench")
import megabyte
import shaped

refused_memory = script("tests/program/refused_memory")


class FirstRuns(in_process.RoomTest):
    def counted(self, lines, is_program=False):
        """Counts the requests of a stand-in that runs these lines of sh. It tells that it made three requests."""
        stand_in = self.write("stand_in", f'#!/bin/sh\n{lines}\nstatus=$?\necho 3 >>"$REFUSE_LOG"\nexit $status\n')
        os.chmod(stand_in, stat.S_IRWXU)
        subject = refused_memory.Subject("crate name", (stand_in,), os.devnull, None)
        if is_program:
            subject = subject._replace(whole=refused_memory.run("", subject, 0))
        return refused_memory.count_requests(("", subject))

    def test_a_run_without_want_of_memory_is_counted(self):
        self.assertEqual(self.counted("true"), refused_memory.Counted(3, []))

    def test_runs_that_report_want_of_memory_or_fail_are_wrong(self):
        in_the_second_run_only = 'test "$REFUSE" = 0 || echo refused >&2'
        for lines, is_program, count in (
            ("echo 'file none: cannot be read' >&2; (exit 3)", True, 0), ("echo 'out of memory' >&2; (exit 3)", True, 1),
            ("echo 'refused' >&2", False, 1), ("echo '  refused here' >&2", False, 1), (in_the_second_run_only, False, 1), ("false", False, 1),
        ):
            with self.subTest(lines):
                self.assertEqual(len(self.counted(lines, is_program).wrong), count)


class Harmless(unittest.TestCase):
    """A run that ends as if nothing was refused is a fault, unless the refused request was of a kind that has a name."""

    def ending(self, label, smaller):
        subject = refused_memory.Subject(label, (), os.devnull, None)
        return refused_memory.ending(subject, refused_memory.Ran(0, b"", b"", True, smaller, 1))

    def test_requests_that_are_passed_over(self):
        copied, usage = "value_tests tests::names::texts_are_copied", "command_tests tests::words::usage_tells_what_is_wrong"
        for label, smaller, wanted in ((copied, False, refused_memory.PASSED), (copied, True, refused_memory.SMALLER),
                                       (usage, False, refused_memory.CLAP)):
            self.assertEqual(self.ending(label, smaller), wanted)


MEMORY = f'import sys; taken = bytearray(b"1" * {2 * megabyte.MOST_KILOBYTES * 1000})'


class Megabytes(unittest.TestCase):
    def costly(self, shapes, script):
        with tempfile.TemporaryDirectory() as scratch, contextlib.redirect_stdout(io.StringIO()) as printed:
            program = pathlib.Path(scratch, "program")
            program.write_text(f"#!{sys.executable}\n{script}\n", encoding="utf-8")
            program.chmod(0o755)
            costly = megabyte.too_costly(shapes, str(program), os.path.join(scratch, "inputs"))
        return costly, printed.getvalue().splitlines()[-1].split(" | ")[-1]

    def test_the_files_have_about_a_megabyte(self):
        for name in ("facts", "bytes_of_a_uri_of_many_names", "names_and_bytes_of_a_uri", "measures_in_no_order"):
            _, files = megabyte.megabyte_of(shaped.SHAPES[name]._replace(size=100))
            self.assertAlmostEqual(megabyte.bytes_of(files), 1_000_000, delta=100_000, msg=name)

    def test_what_costs_too_much_or_ends_early_fails_if_it_is_not_listed(self):
        for name, lines, costly, note in (
            ("concepts", "", [], " |"), ("concepts", MEMORY, ["concepts"], "too much |"),
            ("references_beside_a_long_base", MEMORY, [], "too much, listed |"),
            ("concepts", "raise SystemExit(3)", ["concepts"], "ended early, too much |"),
        ):
            with self.subTest(name=name, note=note):
                self.assertEqual(self.costly([name], lines), (costly, note))
