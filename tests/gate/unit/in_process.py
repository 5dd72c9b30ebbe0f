"""Runs the tools in the process of the tests, where a run takes milliseconds, and measures how time grows with the input."""
import contextlib
import io
import os
import signal
import sys
import tempfile
import time
import timeit
import tracemalloc
import unittest
import warnings
import zipfile
from unittest import mock

HERE = os.path.dirname(os.path.abspath(__file__))
sys.path.append(f"{HERE}/../..")
from support import TOP, content, write
import process

TOOLS = os.path.join(TOP, "tools")


class RoomTest(unittest.TestCase):
    """The base class of tests that write files. Each test has a new folder, `scratch`."""

    def setUp(self):
        scratch = tempfile.TemporaryDirectory()
        self.addCleanup(scratch.cleanup)
        self.scratch = scratch.name

    def path_of(self, name):
        return os.path.join(self.scratch, name)

    def write(self, name, text):
        """Writes a text, or bytes, in folders that are made. Returns the path of the file."""
        return write(self.path_of(name), text)

    def pack(self, texts, name="a.zip", method=zipfile.ZIP_DEFLATED):
        """Writes a package with these files, and returns its path."""
        with zipfile.ZipFile(self.path_of(name), "w", method) as made:
            for path, text in texts.items():
                made.writestr(path, text)
        return self.path_of(name)


def heeding(number):
    """Returns a `preexec_fn` that lets this signal end a tool, even if the tests ignore the signal, as under nohup."""
    return lambda: signal.signal(number, signal.SIG_DFL)


def stub_program(folder):
    """Writes the stub program to a folder, and returns its path."""
    path = write(os.path.join(folder, "xbrlmerge"), f"#!{sys.executable} -IS\n{content('tests/gate/unit/stub_program.py')}")
    os.chmod(path, 0o755)
    return path


def run(tool, *words):
    """Runs a tool, and returns its status and its standard error."""
    return run_whole(tool, *words)[:2]


def run_whole(tool, *words):
    """Runs a tool, and returns its status, its standard error, and its standard output as bytes."""
    argv, out = mock.patch.object(sys, "argv", [tool.__name__, *words]), io.TextIOWrapper(io.BytesIO())
    with argv, contextlib.redirect_stderr(io.StringIO()) as errors, contextlib.redirect_stdout(out), warnings.catch_warnings():
        warnings.simplefilter("ignore", ResourceWarning)  # tools leave files open until their process ends
        status, lines = process.outcome(tool.main)
        process.print_lines(lines)
        return status, errors.getvalue(), out.buffer.getvalue()


def peak(work, *words):
    """Returns the largest number of bytes that a call has at one time."""
    tracemalloc.start()
    work(*words)
    _, most = tracemalloc.get_traced_memory()
    tracemalloc.stop()
    return most


def growth(run_at, size):
    """Returns the time of a run at four times the size, divided by the time at the size: 4 if time is linear, 16 if quadratic.
    Each time is the least processor time of three runs. Time that does not depend on the size lowers the ratio."""
    return least_seconds(run_at, 4 * size) / least_seconds(run_at, size)


def least_seconds(run_at, size):
    return min(timeit.repeat(lambda: run_at(size), timer=time.process_time, repeat=3, number=1))
