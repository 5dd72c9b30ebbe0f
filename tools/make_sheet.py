#!/usr/bin/env python3
"""Makes a sheet from XBRL taxonomies.

    tools/make_sheet [options] [--] FILE.xsd | PACKAGE.zip | FOLDER .. > sheet.json
    tools/make_sheet --union [--] SHEET .. > sheet.json

A schema is read together with the schemas that it imports, includes or redefines. In a folder or package, every .xsd file
is read. One FILE or SHEET may be standard input, written as -. Nothing is downloaded: a schema that is imported by URL must
be in a named folder or package whose META-INF/catalog.xml maps the URL to it. A package's own catalog comes first. The
schemas of the specifications, at xbrl.org and w3.org, are not needed: their item types are built in. The kind of an unknown
type in the data type registry is that of the type in which its name ends; standard error lists the concept.

Enumeration sets are listed as text, and in the member xbrlmerge:sets. The member xbrlmerge:types lists concepts and typed
dimensions whose values have several spellings, by type, unless they make a large sheet more than a tenth longer. --types FILE
writes the types to FILE instead, with the period types and with monetary, share and pure items. For SHEET.json, the tools read
SHEET.types.json. Standard error lists the parts that are left out:
    concepts whose values are fractions, or contain prefixes that would not be expanded
    typed dimensions of xs:QName or xs:NOTATION, and those whose domain is not found or has an unknown type
    elements with an unknown type or an unknown substitution group
    elements without a namespace or in a reserved namespace
    schemas without a namespace, unless a schema with a namespace refers to them, directly or through other schemas

Files may come from untrusted sources. Only regular files are read. Without --outside, a file must be in a named folder, in the
folder of a named file, or in a named package. The limits are:
    64 MB for a file that is not a package
    100,000 files in a package, paths of 1,024 characters, and 100 times its size plus 64 MB when unpacked
    100,000 tags in a package and one for each 4 bytes of its size, where 4 attributes count as a tag
    1,000 levels in a document, which must not have a document type, and 8,000,000 bytes in a tag or a comment
    200,000 tries of catalog rules, each of which may match a reference
    4 MB for schemas without a namespace that are read again, once for each further namespace whose schemas include them
--megabytes N replaces 64 with N, and 4 with N / 16. --tags N replaces 100,000 with N, and 200,000 with 2 N.

Status 0: done. 1: done, but something is left out. 2: invalid arguments. 3: not done, and standard error shows why. After
status 3, standard output contains at most a part of a sheet.
"""
import sys

sys.dont_write_bytecode = True
import interrupts  # noqa: E402, F401, I001 (it comes first)
import argparse  # noqa: E402
import contextlib  # noqa: E402
import functools  # noqa: E402
import os  # noqa: E402
from typing import Iterator  # noqa: E402
from arguments import Parser  # noqa: E402
from process import NotDone, Status, print_lines, run  # noqa: E402
from sheet_making.files import Limits, reading  # noqa: E402
from sheet_making.sheet_text import Texts, union  # noqa: E402
from sheet_making.taxonomy import kinds_in  # noqa: E402
from text_files import LONGEST, PIECE, STANDARD, opened  # noqa: E402
from whole_files import OutputLimit, bytes_in, files_written, most_output, new_folder  # noqa: E402

LARGE = "the types are left out: they would make the sheet more than a tenth longer. Write them with --types FILE"


def read_options() -> argparse.Namespace:
    parser = Parser("make_sheet", __doc__, "%(prog)s [options] [--] INPUT ..")
    parser.add_argument("--union", action="store_true", help="make one sheet from several")
    parser.add_argument("--megabytes", type=int, default=64, metavar="N",
                        help="the most megabytes of a file that is not a package, by default 64")
    parser.add_argument("--tags", type=int, default=100_000, metavar="N",
                        help="the most tags in a package, besides those that its size permits, by default 100,000")
    parser.add_argument("--outside", action="store_true", help="follow references to files outside the named folders")
    parser.add_most_output()
    parser.add_argument("--types", metavar="FILE", help="write the types, the period types and the items to this file of its own")
    parser.add_argument("words", nargs="*", metavar="INPUT", help="a schema, a package or a folder; with --union, a sheet")
    options = parser.read()
    options.inputs = [*options.words, *options.files]
    if not options.inputs:
        parser.error("name the taxonomies; with --union, the sheets")
    if options.types == STANDARD or options.types and os.path.realpath(options.types) in map(os.path.realpath, options.inputs):
        parser.error("--types takes a file that is not an input")
    if options.megabytes < 1 or options.tags < 1:
        parser.error("--megabytes and --tags take a number from 1")
    return options


@contextlib.contextmanager
def standard_input_kept(inputs: list[str]) -> Iterator[list[str]]:
    """Yields the inputs, with a temporary copy of standard input in place of `-`, because a package is not read in order.
    Errors: NotDone, OSError; exceptions of the block."""
    if STANDARD not in inputs:
        yield inputs
        return
    with new_folder() as folder:
        kept = os.path.join(folder, "standard input")
        with reading("standard input"), opened(STANDARD) as source, open(kept, "wb") as copy:
            for piece in iter(functools.partial(source.read, PIECE), b""):
                if copy.tell() + len(piece) > LONGEST:
                    raise ValueError(f"it is longer than {LONGEST} bytes")
                copy.write(piece)
        try:
            yield [kept if path == STANDARD else path for path in inputs]
        except NotDone as fault:
            raise NotDone(*(str(line).replace(f"{folder}{os.sep}", "") for line in fault.args)) from None


def main() -> Status:
    options = read_options()
    limits = Limits(options.megabytes, options.outside, options.tags)
    with standard_input_kept(options.inputs) as inputs:
        kinds, lines = (union(inputs, limits), []) if options.union else kinds_in(inputs, limits)
        limit = OutputLimit(most_output(bytes_in(inputs)) if options.most_output is None else options.most_output)
    texts = Texts(kinds, is_apart=options.types is not None)
    lines += [LARGE] * texts.is_large
    print_lines(lines)
    with files_written([(options.types, [texts.types])] if options.types else [], limit):
        sheet = b"".join(limit.encoded([texts.sheet]))
        with reading("standard output"):
            sys.stdout.buffer.write(sheet)
            sys.stdout.flush()
    return Status.LOOK if lines else Status.DONE


if __name__ == "__main__":
    run(main)
