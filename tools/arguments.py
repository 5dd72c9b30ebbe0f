"""Reads the arguments of a tool."""
import argparse
import os
import sys
from typing import NoReturn, Optional

from commands import VERSION, command, with_commands
from process import Status, print_lines
from text_files import as_file


class Parser(argparse.ArgumentParser):
    """A parser with the rules that all tools share. After `--`, each argument is the whole name of a file, so that a file such
    as `--output=x.json` is no option. Names of files come from untrusted sources, so messages are escaped."""

    def __init__(self, tool: str, description: Optional[str], usage: str) -> None:
        super().__init__(prog=os.path.basename(command(tool)), description=with_commands(description or ""), usage=usage,
                         formatter_class=argparse.RawDescriptionHelpFormatter)
        self.add_argument("--version", action="version", version=f"%(prog)s {VERSION}", help="print the version")

    def add_most_output(self) -> None:
        self.add_argument("--most-output", type=natural, metavar="BYTES", help="stop with status 3 if the output has more bytes;"
                          " by default, 1 MiB and 16 for each byte of the inputs")

    def read(self) -> argparse.Namespace:
        """Returns the options. `words` contains the arguments before `--` that are not options, and `files` the arguments after
        `--`, where `-` is a file as well. Ends the tool with status USAGE if an argument is invalid."""
        given = sys.argv[1:]
        end = given.index("--") if "--" in given else len(given)
        options = self.parse_intermixed_args(given[:end])
        options.files = [*map(as_file, given[end + 1 :])]
        return options

    def error(self, message: str) -> NoReturn:
        self.print_usage(sys.stderr)
        print_lines([f"error: {message}"])
        sys.exit(Status.USAGE)


def natural(text: str) -> int:
    """Returns a number from 0. Errors: ValueError."""
    if not text.isdecimal():
        raise ValueError
    return int(text)
