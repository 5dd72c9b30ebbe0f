"""Tests that the program, the tools, the header and the Python module have the same version. This is the newest in the changelog,
or a later `-dev` version if the changelog lists unreleased changes."""
import os
import re
import subprocess
import sys
import unittest

from in_process import TOP, content
from packing.manual import TOOLS


def found(path, pattern):
    """Returns the text of the pattern's group for each match in a file."""
    return re.findall(pattern, content(path), re.MULTILINE)


def numbers(version):
    return tuple(map(int, version.removesuffix("-dev").split(".")))


class Version(unittest.TestCase):
    def setUp(self):
        (self.program,) = found("crates/command_line/src/words.rt", r'^const VERSION: &str = "(.*)";$')

    def test_the_others_have_that_of_the_program(self):
        for path, pattern in (("tools/commands.py", '^VERSION = "(.*)"'), ("include/xbrlmerge.h", '^#define XBRLMERGE_VERSION "(.*)"'),
                              ("crates/xbrlmerge_c/src/version.rt", '^const VERSION: &str = "(.*)";$')):
            self.assertEqual(found(path, pattern), [self.program], path)
        # PEP 440 spells the ending `-dev` as `.dev0`
        for path, pattern in (("python/pyproject.toml", '^version = "(.*)"$'), ("python/xbrlmerge/__init__.py", '^__version__ = "(.*)"$')):
            self.assertEqual(found(path, pattern), [self.program.replace("-dev", ".dev0")], path)

    def test_each_tool_prints_it(self):
        for tool in TOOLS:
            done = subprocess.run([sys.executable, os.path.join(TOP, "tools", f"{tool}.py"), "--version"], capture_output=True, text=True)
            self.assertEqual((done.returncode, done.stdout, done.stderr), (0, f"{tool} {self.program}\n", ""))

    def test_an_unreleased_build_has_the_next_version(self):
        first, *others = found("CHANGELOG.md", r"^## \[([^]]*)\]")
        if first == "Unreleased":
            self.assertTrue(self.program.endswith("-dev"), self.program)
            self.assertGreater(numbers(self.program), numbers(others[0]))
        else:
            self.assertEqual(self.program, first)
