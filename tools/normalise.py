#!/usr/bin/env python3
"""Rewrites a report so that xbrlmerge can read it, and lists every change.

    tools/normalise [--sheet SHEET] [options] [--] REPORT OUT CHANGES.jsonl

REPORT is an xBRL-JSON report; - means standard input. OUT is the new report, on one line. For OUT or CHANGES.jsonl, - means
standard output. After --, - is a file, too. CHANGES.jsonl contains a line for each change, with the fact, the JSON pointer, the
old value, any new value, the rule, and whether something was lost. In these lines, identifiers, URIs and texts are cut to 80
characters. Without options, nothing that the format defines is lost. Some rules need the kind or type of a name, and act only on
names that SHEET lists. If a rule leaves a part as it is, standard error shows where and why. For example, a time zone stays
without --zones. docs/GUIDE.md describes the rules and the list of changes.

--map MAP.json replaces names that are assumed to mean the same. MAP.json is an object with any of these members:
    namespaces  an object with a new URI for each old one
    entities, concepts, members
                objects with a new name for each old one, spelled {URI}local
    units       an object with an object for each old measure, such as {"unit":"{URI}EUR","scale":3}: a value in the old measure
                is multiplied by 10^3, exactly, and 3 is subtracted from its decimals
A name that its table does not list gets a new namespace, and is then looked up again. --map needs --sheet. A report in which two
names would become equal is refused, unless one is a scaled unit, and so is a value that would have more than 18 digits. A missing
unit is the name `pure`. Each change is listed as a loss, because it is an assumption.

--drop-unreadable runs the program `xbrlmerge` and drops the facts that the program refuses. If the document itself is
refused, no fact is dropped, and standard error shows why. The program should have the same version as this tool.

Status 0: nothing was lost. 1: something was lost. 2: invalid arguments. 3: not done, and standard error shows why. After
status 2 or 3, no file has changed, unless a replaced file could not be restored; standard output may have a part of the output.
"""
import sys

sys.dont_write_bytecode = True
import interrupts  # noqa: E402, F401, I001 (it comes first)
import argparse  # noqa: E402
import contextlib  # noqa: E402
import os  # noqa: E402
from typing import Iterator, Optional  # noqa: E402
from arguments import Parser  # noqa: E402
from normalising.json_text import pieces_of, read_json_of_length  # noqa: E402
from normalising.mapping import read_map  # noqa: E402
from normalising.rules import Normaliser, add_losses  # noqa: E402
from process import NotDone, Status, print_lines, run  # noqa: E402
from program import Program, add_program, program_at  # noqa: E402
from sheets import sheet_at  # noqa: E402
from text_files import STANDARD, shown_path  # noqa: E402
from whole_files import OutputLimit, bytes_in, files_written, most_output, new_folder  # noqa: E402


def read_options() -> argparse.Namespace:
    parser = Parser("normalise", __doc__, "%(prog)s [options] [--] REPORT OUT CHANGES")
    parser.add_argument("words", nargs="*", metavar="REPORT OUT CHANGES", help="the report, and the two files to write")
    parser.add_argument("--sheet", help="the sheet with the kinds of concepts and dimensions")
    add_program(parser)
    parser.add_most_output()
    lossy = add_losses(parser, "options that lose something")
    lossy.add_argument("--map", metavar="MAP", help="replace names by this map, which is an assumption: see docs/GUIDE.md")
    options = parser.read()
    names = [*options.words, *options.files]
    if len(names) != 3:
        parser.error("name REPORT, OUT and CHANGES")
    options.REPORT, options.OUT, options.CHANGES = names
    if (options.drop_unknown or options.drop_unreadable or options.map) and not options.sheet:
        parser.error("--drop-unknown, --drop-unreadable and --map need --sheet")
    # a second reader of something that is no regular file might wait forever
    if options.drop_unreadable and (options.sheet == STANDARD or os.path.exists(options.sheet) and not os.path.isfile(options.sheet)):
        parser.error("--drop-unreadable needs a sheet in a file")
    inputs = [options.REPORT, *(path for path in (options.sheet, options.map) if path)]
    outputs = [options.OUT, options.CHANGES]
    files = [*map(os.path.realpath, (path for path in (*inputs, *outputs) if path != STANDARD))]
    if len({*files}) < len(files) or inputs.count(STANDARD) > 1 or outputs.count(STANDARD) > 1:
        parser.error("REPORT, OUT, CHANGES, SHEET and MAP must be different files")
    return options


@contextlib.contextmanager
def program_asked(options: argparse.Namespace) -> Iterator[Optional[Program]]:
    """Yields the program with a temporary folder beside OUT, or None if no option needs the program."""
    if not options.drop_unreadable:
        yield None
        return
    beside = None if options.OUT == STANDARD else os.path.dirname(os.path.abspath(options.OUT))
    with contextlib.ExitStack() as stack:
        try:
            folder = stack.enter_context(new_folder(beside))
        except OSError as fault:  # it names the temporary folder
            raise OSError(f"{shown_path(options.OUT)}: {fault.strerror or fault}") from None
        yield Program(program_at(options.program), options.sheet, folder)


def main() -> Status:
    options = read_options()
    sheet, names = sheet_at(options.sheet), read_map(options.map) if options.map else None
    tree, length = read_json_of_length(options.REPORT)
    most = options.most_output if options.most_output is not None else most_output(length + bytes_in(filter(None, (options.sheet, options.map))))
    try:
        with program_asked(options) as program:
            log = Normaliser(sheet, options, program).normalise(tree, length, names)
    except NotDone as fault:
        raise NotDone(f"{shown_path(options.REPORT)}: {fault}") from None
    print_lines(log.left)
    outputs = (options.OUT, [*pieces_of(tree, most), "\n"]), (options.CHANGES, log.lines)
    limit = OutputLimit(most)
    with files_written((output for output in outputs if output[0] != STANDARD), limit):
        for _, pieces in (output for output in outputs if output[0] == STANDARD):
            sys.stdout.buffer.write(b"".join(limit.encoded(pieces)))
            sys.stdout.flush()
    return Status.LOOK if log.is_lossy else Status.DONE


if __name__ == "__main__":
    run(main)
