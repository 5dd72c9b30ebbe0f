"""Runs the commands of `xbrlmerge`."""
import argparse
import json
import os
import re
import shutil
import subprocess  # nosec B404: it runs the program that the user names, without a shell
import sys
from typing import Any, Iterable, Iterator, Optional, Sequence

from normalising.json_text import Number
from process import NotDone

NAME = "xbrlmerge"
HERE = os.path.dirname(os.path.abspath(__file__))
MOST_EXPLAINED = 1 << 30  # bytes
NOT_UTF8 = re.compile(r"[\udc80-\udcff]")  # how Python writes a byte of a path that is not UTF-8
REFUSAL = re.compile(r"report ([1-9]\d{0,17}): (\d+ \w+ at .*)")


def add_program(parser: argparse.ArgumentParser) -> None:
    parser.add_argument("--program", metavar="FILE", help="the program, by default the xbrlmerge beside this tool, or on the PATH")


def program_at(given: Optional[str]) -> str:
    """Returns the path of the program. Without `given`, looks beside tools/, in tools/, beside the command that runs the tool,
    and then on the PATH. Errors: NotDone if there is none."""
    folders = [os.path.dirname(HERE), HERE, *[os.path.dirname(os.path.realpath(sys.argv[0]))] * (os.sep in sys.argv[0])]
    beside = [os.path.join(folder, NAME) for folder in folders]
    usable = [path for path in beside if os.path.isfile(path) and os.access(path, os.X_OK)]
    found = given or next(iter(usable), None) or shutil.which(NAME)
    if not found:
        raise NotDone(f"{NAME} is neither beside this tool nor on the PATH: build it with ./build, or name it with --program")
    return os.path.abspath(found) if os.sep in found else shutil.which(found) or found


class Program:
    """The program, a sheet, and a folder for the program's output."""

    def __init__(self, path: str, sheet: str, folder: str) -> None:
        self.path, self.sheet, self.folder = path, os.path.abspath(sheet), folder

    def shortest(self, path: str) -> str:
        """Returns the path of a file for the program, which runs in the folder: relative if the file is there, whatever its name."""
        whole = os.path.abspath(path)
        return os.path.relpath(whole, self.folder) if whole.startswith(os.path.join(self.folder, "")) else whole

    def path_of(self, name: str) -> str:
        return os.path.join(self.folder, name)

    def run(self, command: str, words: Sequence[str]) -> tuple[int, list[str]]:
        """Runs a command, and writes its output to `path_of(command)`. Returns the status and the lines on standard error."""
        with open(self.path_of(command), "wb") as out:
            run = [self.path, command, "--sheet", self.shortest(self.sheet), *words]
            done = subprocess.run(run, stdin=subprocess.DEVNULL, stdout=out, stderr=subprocess.PIPE, cwd=self.folder)  # nosec B603
        return done.returncode, done.stderr.decode(errors="replace").splitlines()

    def version(self) -> str:
        """Returns the first line that `--version` prints, or an empty text if the program does not print one."""
        done = subprocess.run([self.path, "--version"], stdin=subprocess.DEVNULL, capture_output=True, cwd=self.folder)  # nosec B603
        lines = done.stdout.decode(errors="replace").splitlines()
        return lines[0] if lines and done.returncode == 0 else ""

    def read_reports(self, command: str, paths: Iterable[str]) -> dict[int, str]:
        """Runs a command on reports. Returns the refusals by the number of the report, from 1. Errors: NotDone, OSError."""
        self.write_names(paths)
        status, lines = self.run(command, ["--reports-from", "reports", "--null"])
        found = [REFUSAL.fullmatch(line) for line in lines]
        refusals = {int(each[1]): each[2] for each in found if each}
        if status not in (0, 1) or len(refusals) < len(lines) or bool(refusals) != bool(status):
            raise NotDone(*self.reasons(command, status, lines))
        return refusals

    def write_names(self, paths: Iterable[str]) -> None:
        """Writes the list of reports for the program. Errors: NotDone if a path is not UTF-8, as the list must be; OSError."""
        with open(self.path_of("reports"), "wb") as file:
            for path in paths:
                whole = self.shortest(path)
                if NOT_UTF8.search(whole):
                    raise NotDone(f"{whole}: the name of the file or of a folder is not UTF-8")
                file.write(os.fsencode(whole) + b"\0")

    def reasons(self, command: str, status: int, lines: list[str]) -> list[str]:
        """Returns lines that show why a command failed. If the sheet is refused, the lines come from `explain`."""
        if any(line.startswith("sheet: ") for line in lines):
            lines = [line for line in self.run("explain", [])[1] if not line.startswith("sheet: ")] or lines
        if any(line.startswith("device: ") for line in lines):
            lines = [f"its output cannot be written, perhaps for lack of room on the disk ({line})" for line in lines]
        ended = f"it ended by signal {-status}" if status < 0 else f"it ended with status {status}"
        return [f"{os.path.basename(self.path)} {command}: {line}" for line in lines or [ended]]

    def faults(self, path: str) -> Iterator[dict[str, Any]]:
        """Yields the faults of a report, as `explain --format json` prints them. Errors: NotDone, OSError."""
        yield from self.explained(["--", self.shortest(path)])

    def faults_by_report(self, paths: Iterable[str]) -> Iterator[tuple[int, dict[str, Any]]]:
        """Yields the faults of several reports, each with the index of its report, from 0. Errors: NotDone, OSError."""
        self.write_names(paths)
        for fault in self.explained(["--reports-from", "reports", "--null"]):
            yield int(fault["report"]) - 1, fault

    def explained(self, words: Sequence[str]) -> Iterator[dict[str, Any]]:
        """Yields the faults that `explain` prints, with the spelling of numbers. Errors: NotDone, OSError."""
        status, lines = self.run("explain", ["--format", "json", "--most-output", str(MOST_EXPLAINED), *words])
        if status not in (0, 1) or lines:
            raise NotDone(*self.reasons("explain", status, lines))
        with open(self.path_of("explain"), encoding="utf-8") as file:
            for line in file:
                yield json.loads(line, parse_int=Number, parse_float=Number)
