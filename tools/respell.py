#!/usr/bin/env python3
"""Respells a merged report for other processors, or checks a report against rules of the standards.

    tools/respell --sheet SHEET [--taxonomy URL ..] [--compact] [--] MERGED OUT
    tools/respell --check [--sheet SHEET] [--] REPORT
    tools/respell --rules

MERGED is the output of `xbrlmerge merge`. OUT has the same facts with the same identifiers. It uses the prefixes that OIM Common
1.0 reserves, and each other prefix of the sheet that is the only one of its namespace. Sets that tools/normalise wrote as
URI#LOCAL become prefixed names. Merging OUT gives the bytes of MERGED again; if OUT has sets, normalise it first. xBRL-JSON 1.0
requires a taxonomy: if MERGED has no references, --taxonomy adds them, and standard error tells so. For a file, - means standard
input or output. After --, - is a file, too.

--check prints a line for each fault: the rule, its error code as far as it is known, the place and what to do. The last line has
the number of faults, and of the rules that were not judged without a sheet. --rules prints the rules. They are those of xBRL-JSON
1.0, OIM 1.0 and OIM Common 1.0 that can be judged without a taxonomy. A report without faults may still be invalid.

Status 0: done, and there is nothing to look at. 1: --check found a fault, or standard error shows something about the taxonomy.
2: invalid arguments. 3: not done, and standard error shows why. After status 2 or 3, no file has changed.
"""
import sys

sys.dont_write_bytecode = True
import interrupts  # noqa: E402, F401, I001 (it comes first)
import argparse  # noqa: E402
import functools  # noqa: E402
import os  # noqa: E402
from arguments import Parser  # noqa: E402
from normalising.json_text import Repeated, read_json  # noqa: E402
from process import NotDone, Status, print_lines, printable, run  # noqa: E402
from respelling.checking import Checker  # noqa: E402
from respelling.rules import WITH_SHEET, listed, respelled, text_of  # noqa: E402
from sheets import sheet_at  # noqa: E402
from text_files import LONGEST, PIECE, STANDARD, opened, shown_path  # noqa: E402
from whole_files import OutputLimit, bytes_in, files_written, most_output  # noqa: E402


def read_options() -> argparse.Namespace:
    parser = Parser("respell", __doc__, "%(prog)s [options] [--] MERGED OUT")
    parser.add_argument("words", nargs="*", metavar="MERGED OUT", help="the merged report, and the file to write; with --check, a report")
    parser.add_argument("--sheet", help="the sheet of the merge")
    parser.add_argument("--taxonomy", action="append", default=[], metavar="URL", help="a reference to add if there is none; may be repeated")
    parser.add_argument("--compact", action="store_true", help="write one line, without spaces")
    parser.add_argument("--check", action="store_true", help="check a report")
    parser.add_argument("--rules", action="store_true", help="print the rules that --check applies")
    parser.add_most_output()
    options = parser.read()
    options.names = [*options.words, *options.files]
    if len(options.names) != (0 if options.rules else 1 if options.check else 2):
        parser.error("name MERGED and OUT, or with --check a REPORT")
    if (options.check or options.rules) and (options.taxonomy or options.compact) or options.check and options.rules:
        parser.error("--check takes only --sheet, and --rules nothing")
    if not (options.sheet or options.check or options.rules):
        parser.error("name the sheet of the merge with --sheet")
    if any(not url or len(url.encode(errors="replace")) > 65_536 or not url.isprintable() for url in options.taxonomy):
        parser.error("a URL of --taxonomy is empty, too long or not printable")
    inputs = [*options.names[:1], *[options.sheet] * bool(options.sheet)]
    files = [os.path.realpath(path) for path in [*inputs, *options.names[1:]] if path != STANDARD]
    if len({*files}) < len(files) or inputs.count(STANDARD) > 1:
        parser.error("MERGED, OUT and SHEET must be different files")
    return options


def content_of(path: str) -> bytes:
    """Returns the bytes of a file. Errors: OSError, NotDone."""
    content = bytearray()
    with opened(path) as file:
        for piece in iter(functools.partial(file.read, PIECE), b""):
            content += piece
            if len(content) > LONGEST:
                raise NotDone(f"{shown_path(path)}: it is longer than {LONGEST} bytes")
    return bytes(content)


def respell(options: argparse.Namespace) -> Status:
    merged, out = options.names
    sheet, content = sheet_at(options.sheet), content_of(merged)
    try:
        tree = respelled(content, sheet, options.taxonomy)
    except NotDone as fault:
        raise NotDone(f"{shown_path(merged)}: {fault}") from None
    lines = taxonomy_lines(tree["documentInfo"]["taxonomy"], options.taxonomy)
    text = text_of(tree, options.compact)
    print_lines(lines)
    limit = OutputLimit(most_output(len(content) + bytes_in([options.sheet])) if options.most_output is None else options.most_output)
    if out == STANDARD:
        sys.stdout.buffer.write(b"".join(limit.encoded([text])))
        sys.stdout.flush()
    else:
        with files_written([(out, [text])], limit):
            pass
    return Status.LOOK if lines else Status.DONE


def taxonomy_lines(references: list[str], given: list[str]) -> list[str]:
    """Returns lines that show whether the references of --taxonomy were added, or are needed."""
    if not references:
        return ["the taxonomy is empty, which xBRL-JSON 1.0 does not allow: add its URL with --taxonomy"]
    if not given:
        return []
    return ["the references of --taxonomy are added" if references == given else "the report has references: --taxonomy is not used"]


def check(options: argparse.Namespace) -> Status:
    checker = Checker(sheet_at(options.sheet) if options.sheet else None)
    try:
        checker.check(read_json(options.names[0]))
    except Repeated as fault:
        checker.fault("repeated-member", *fault.path)
    parts = [f"{len(checker.lines)} fault{'s' * (len(checker.lines) != 1)}"]
    parts += [f"{len(WITH_SHEET)} rules not judged without a sheet"] * (not options.sheet)
    parts += [f"{checker.uncompared} facts not compared as duplicates"] * bool(checker.uncompared)
    print(*map(printable, [*checker.lines, "; ".join(parts)]), sep="\n")
    return Status.LOOK if checker.lines else Status.DONE


def main() -> Status:
    options = read_options()
    if options.rules:
        print(*listed(), sep="\n")
        return Status.DONE
    return check(options) if options.check else respell(options)


if __name__ == "__main__":
    run(main)
