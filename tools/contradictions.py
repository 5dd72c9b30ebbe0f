#!/usr/bin/env python3
"""Writes a page and tables of the contradictions between reports.

    tools/contradictions --sheet SHEET -o DIR [options] [[NAME=]REPORT ..] [-- REPORT ..]
    tools/contradictions --taxonomy PACKAGE -o DIR [options] [[NAME=]REPORT ..] [-- REPORT ..]
    tools/contradictions --from MERGED SHEET VERDICTS -o DIR [options] [[PROVIDER=]MERGED ..]

The first two forms run `xbrlmerge` on the reports. Each form writes these files into the folder DIR, except that --from writes
no merged.json:

    page.html           all rows: first the contradictions, by relative difference, texts, names and nil values at the top
    contradictions.csv  the facts of the contradictions as a table
    table.csv           all rows, with the values of each provider in a column
    providers.csv       for each pair of providers, the rows that both report, that agree and that contradict each other
    warnings.csv        accepted facts that do not fit the types of the sheet: values, period types, currencies, shares
    summary.json        for programs: counts, pairs, hints by provider, files with SHA-256, refusals, options and versions
    merged.json         the merged report
    report.json         with --respell: the merged report for other processors, as tools/respell writes it

The first two forms also write verdicts.txt, sources.txt, refusals.txt, the faults of refused reports as refusals.csv, and each
report that was changed as reports/NUMBER.json. The foot of the page has a command that checks the run with these files and
tools/recheck.

The facts of a contradiction form groups: again and again, the largest set of facts that a common number fits. A fact counts
once for each provider that reports it. The largest group comes first; the page shows the facts outside it in red, or all facts
if no group is the largest. A hint names what may explain a difference: a factor of 100, 1,000, 1,000,000 or 1,000,000,000 at
which the rounding intervals meet, opposite signs, nil, or a difference below 1 in the last place. --at-least 0.1%
hides smaller differences between numbers from the page.

Standard error lists the hints in most of the rows that a provider shares with others, even if all agree since their decimals are
coarse. It names providers that share less than a hundredth of their rows with others, and the likely cause, if rows are equal
except for the entity, the namespaces, the unit, the period or the language. maps/PROVIDER.json is a map of tools/normalise that
would join the rows, if there is one; it is never applied without --map. Providers whose reports have the same bytes, or exactly the
same facts, are named too.

Each row is a contradiction or else reported by one provider, or by several that agree exactly or within rounding. Standard output,
the page and the column agreement of table.csv show this; if no provider is known, only the contradictions. providers.csv has no
pairs if there are more than 100 providers.

In table.csv, provider: NAME and decimals: NAME contain the values of a provider and their decimals, joined by "; ", and files:
NAME its files if it has several. If no provider is known, or more than 100, the columns values and decimals have all values.
nil_by lists who reports nil, or the nil facts if no provider is known.

Providers are named after their files: the provider of issuer.json is "issuer". NAME=REPORT sets another name. If a provider
made several reports, repeat its NAME. After --, each argument is the whole name of a file. Write -- before a glob, as in
-- *.json, because files from others may be named like an option or like NAME=REPORT. --taxonomy makes the sheet first and
writes it as sheet.json; the option may be repeated.

The page lists a refused report with the first 20 faults that `xbrlmerge explain` finds. Standard error has a line for each kind
of fault, with the option that mends it, if there is one. The other reports are used. Repeated members are listed, too.

--normalise applies the rules of tools/normalise to each report first, and lists the changes in changes.csv. It permits the
options of tools/normalise that lose something, such as --drop-notes. A report that cannot be normalised is used as it is.
Without --normalise, only sets of names are respelled. A report with a set that cannot be respelled is not used.
--map PROVIDER=MAP applies a map of tools/normalise to the reports of a provider; repeat it for each provider.

--latest drops restated facts: in each row, only the last of a provider's reports that has the row counts, in the order given.
changes.csv lists each other fact of the provider there, with both files, as a loss by the rule `superseded`. A report with such
facts must not repeat a member. Without --latest, the hint at a contradiction between two reports of one provider is "restated: FILE
after FILE".

--near NEAR.csv writes a table of pairs of rows that differ in one dimension only, perhaps by mistake: the same name or
identifier in another namespace or scheme, other letter case or white space, dates at most a day apart, another unit or
language, or a dimension that one row lacks. Pairs are left out if one provider reports both rows. Rows that are similar in one
dimension and equal in all others form a group. In each group, at most 1,000 pairs are compared, fewer if the pairs found have
more than 10,000 facts. With --from, --near needs the providers.

--since DIR compares the contradictions with those that an earlier run wrote to DIR, by the dimensions of their rows: since.csv
lists which are new, changed, open and gone. DIR may be the folder of -o; it is read first.

--xlsx FILE writes a workbook with the sheets contradictions, rows, providers, changes and files. Numbers of up to 15 digits are
numbers, and all else is text. Lines and texts beyond the limits of a sheet are only in the .csv files.

--from uses the earlier output of `xbrlmerge merge` and `xbrlmerge verdicts`. --sources uses the output of `xbrlmerge sources`,
and --names lists the providers in the order of the reports. Instead of --sources and --names, PROVIDER=MERGED names a
provider and the merged report of its own reports; repeat it for each provider.

The inputs are copied to DIR until the run ends, and the program and the tool read the copies. A file that changes later changes
nothing; the SHA-256 on the page are of the copies, and of the changed reports. One run at a time writes to DIR.

The page and changes.csv show at most 80 characters of an identifier, a URI or a text; the other tables contain them whole. The
page holds about 8 MB of rows, contradictions first, and counts the other rows.
In the tables, a ' precedes anything that a spreadsheet might read as a formula.

Status 0: the files are written, and there is nothing to look at. 1: the files are written, and there is something to look at.
--fail-on names the kinds of findings that give status 1, by default all; --exit-zero is for none:
    contradictions  rows that are contradictions
    new             contradictions that are new or changed, with --since
    refusals        refused reports
    losses          changes of --normalise that lose something, and facts that --latest drops
    omissions       parts that --taxonomy leaves out
    uncompared      pairs that --near did not compare
    unshared        providers that share almost no row with others
    warnings        reports with repeated members or that cannot be normalised; providers with the same facts, or with a scale that
                    rounding hides; only with --fail-on, warnings.csv
2: invalid arguments. 3: not done, and standard error shows why. After status 2 or 3, no output has changed, unless a replaced
file could not be restored.
"""
import sys

sys.dont_write_bytecode = True
import interrupts  # noqa: E402, F401, I001 (it comes first)
import argparse  # noqa: E402
import os  # noqa: E402
import re  # noqa: E402
from decimal import Decimal  # noqa: E402
from arguments import Parser  # noqa: E402
from contradicting.findings import KINDS, kinds_named  # noqa: E402
from contradicting.inputs import Run, inputs_named, snapshot_of  # noqa: E402
from contradicting.snapshot import FOLDER, LINES, locked, output_folder, report_file  # noqa: E402
from contradicting.outcome import Outcome  # noqa: E402
from contradicting.sources import maps_named, reports_named  # noqa: E402
from contradicting.since import Earlier  # noqa: E402
from contradicting.unshared import FOLDER as MAPS  # noqa: E402
from contradicting.tables import library  # noqa: E402
from normalising.rules import add_losses, loses  # noqa: E402
from process import Progress, Status, print_lines, printable, run  # noqa: E402
from program import add_program, program_at  # noqa: E402
from text_files import STANDARD  # noqa: E402
from whole_files import OutputLimit, bytes_in, files_written, most_output, new_folder  # noqa: E402

SHARE = re.compile(r"(\d{1,9}(?:\.\d{1,9})?)(%?)", re.ASCII)


def read_options() -> argparse.Namespace:
    parser = Parser("contradictions", __doc__, "%(prog)s (--sheet SHEET | --taxonomy PACKAGE | --from MERGED SHEET VERDICTS)"
                    " -o DIR [options] [[NAME=]REPORT ..] [-- REPORT ..]")
    kind = parser.add_mutually_exclusive_group(required=True)
    kind.add_argument("--sheet", help="the sheet of the reports")
    kind.add_argument("--taxonomy", action="append", metavar="PACKAGE", help="make the sheet from this package, schema or folder")
    kind.add_argument("--from", dest="texts", nargs=3, metavar=("MERGED", "SHEET", "VERDICTS"), help="use earlier output, and do not run xbrlmerge")
    parser.add_argument("-o", "--output", required=True, metavar="DIR", help="the folder for the output; it is created if needed")
    add_program(parser)
    parser.add_argument("--normalise", action="store_true", help="normalise the reports first")
    parser.add_argument("--latest", action="store_true", help="drop facts that a later report of the same provider supersedes")
    parser.add_argument("--respell", action="store_true", help="also write the merged report for other processors")
    parser.add_argument("--labels", action="append", default=[], metavar="TAXONOMY",
                        help="show the standard labels of this package or folder; may be repeated; by default, those of --taxonomy")
    parser.add_argument("--language", default="en", help="the language of the labels, by default en")
    parser.add_argument("--near", metavar="NEAR.csv", help="write a table of pairs of rows that may differ only by mistake")
    parser.add_argument("--at-least", type=share, metavar="SHARE",
                        help="hide contradictions between numbers from the page whose difference is a smaller share, such as 0.1%%")
    parser.add_argument("--xlsx", metavar="FILE", help="also write the tables as a workbook; needs the Python library XlsxWriter")
    parser.add_argument("--since", metavar="DIR", help="compare the contradictions with those of an earlier run in this folder")
    look = parser.add_mutually_exclusive_group()
    look.add_argument("--fail-on", type=kinds_named, default=KINDS, metavar="KIND,..",
                      help=f"exit with status 1 only for these kinds of findings; by default, for all: {','.join(KINDS)}")
    look.add_argument("--exit-zero", dest="fail_on", action="store_const", const=(), help="exit with status 0 instead of 1")
    parser.add_argument("--sources", metavar="SOURCES", help="with --from: the output of `xbrlmerge sources`")
    parser.add_argument("--names", metavar="NAME,..", help="with --sources: the providers, in the order of the reports")
    parser.add_most_output()
    parser.add_argument("words", nargs="*", metavar="[NAME=]REPORT",
                        help="the reports; with --from, PROVIDER=MERGED for each provider")
    lossy = add_losses(parser, "options of --normalise that lose something")
    lossy.add_argument("--map", action="append", default=[], metavar="PROVIDER=MAP", help="replace names in the reports of a provider")
    options = parser.read()
    check(parser, options)
    return options


def share(text: str) -> Decimal:
    """Returns a share such as 0.1% or 0.001 as a number. Errors: ValueError."""
    number = SHARE.fullmatch(text)
    if not number:
        raise ValueError
    return Decimal(number[1]).scaleb(-2 if number[2] else 0)


def check(parser: Parser, options: argparse.Namespace) -> None:
    """Exits with a usage error if an option or a report's name is invalid, an output is an input, or two outputs are one file."""
    if options.texts:
        if options.normalise or options.program or options.respell or options.latest:
            parser.error("--from takes none of --normalise, --latest, --program and --respell")
        if bool(options.sources) != bool(options.names) or options.sources and (options.words or options.files):
            parser.error("use --sources and --names together, and without PROVIDER=MERGED")
        if options.names and not all(options.names.split(",")):
            parser.error("a name in --names is empty")
        if options.near and not (options.sources or options.words or options.files):
            parser.error("--near needs the providers: --sources and --names, or PROVIDER=MERGED")
    elif not (options.words or options.files) or options.sources or options.names:
        parser.error("name the reports; --sources and --names need --from")
    if options.fail_on is not KINDS and "new" in options.fail_on and not options.since:
        parser.error("--fail-on new needs --since")
    if STANDARD in (options.output, options.near, options.xlsx):
        parser.error("standard output has the summary: write ./- for a folder or a file with the name -")
    if (loses(options) or options.map) and not options.normalise:
        parser.error("options that lose something need --normalise")
    try:
        inputs = inputs_of(options)
    except ValueError as fault:
        parser.error(str(fault))
    if options.most_output is None:
        options.most_output = most_output(bytes_in(inputs))
    written, read = ([os.path.realpath(path) for path in paths] for paths in (outputs_of(options), inputs))
    if len({*written}) < len(written) or {*written} & {*read}:
        parser.error("an output is an input, or two outputs are one file")


def outputs_of(options: argparse.Namespace) -> list[str]:
    names = ["page.html", "contradictions.csv", "table.csv", "providers.csv", "warnings.csv", "summary.json"]
    names += ["since.csv"] * bool(options.since)
    names += ["merged.json"] * (not options.texts)
    names += ["sheet.json", "sheet.types.json"] * bool(options.taxonomy) + ["report.json"] * options.respell
    if not options.texts:
        names += ["changes.csv", "refusals.csv", *(f"{name}.txt" for name in LINES)]
        names += [report_file(number) for number, _ in enumerate(reports_named(options), 1)]
    return [*(os.path.join(options.output, name) for name in names), *[options.near] * bool(options.near), *[options.xlsx] * bool(options.xlsx)]


def inputs_of(options: argparse.Namespace) -> list[str]:
    """Returns the paths of the input files and folders. Errors: ValueError, as in `reports_named` and `maps_named`."""
    inputs = [*options.labels, *(options.taxonomy or []), *[options.sheet] * bool(options.sheet)]
    if options.texts:
        inputs += [*options.texts, *[options.sources] * bool(options.sources)]
    inputs += [path for _, path in maps_named(options)]
    return [*inputs, *(report.path for report in reports_named(options))]


def main() -> Status:
    options = read_options()
    if options.xlsx:
        library()
    reports, maps = (os.path.join(options.output, name) for name in (FOLDER, MAPS))
    with output_folder(options.output), locked(options.output), Progress() as progress:
        with output_folder(reports, is_below=True), output_folder(maps, is_below=True), new_folder(os.path.abspath(options.output)) as folder:
            progress.show("copying the inputs")
            snapshot = snapshot_of(options, folder)
            with snapshot.names_restored():
                earlier = Earlier(options.since, snapshot) if options.since else None
                if options.texts:
                    inputs = inputs_named(options, snapshot)
                else:
                    inputs = Run(program_at(options.program), options, snapshot, folder, progress).inputs()
                inputs.earlier = earlier
                progress.show("reading the rows")
                return write(Outcome(inputs, options, snapshot, folder), progress)


def write(outcome: Outcome, progress: Progress) -> Status:
    """Writes all output files, prints the notes and the summary, and returns the status."""
    progress.clear()
    texts, page = [*outcome.texts()], printable(os.path.join(outcome.options.output, "page.html"))
    print_lines(outcome.lines())
    progress.show("writing")
    with files_written(texts, OutputLimit(outcome.options.most_output)):
        progress.clear()
        print("; ".join([*outcome.phrases(), f"page: {page}"]), flush=True)
    return outcome.status()


if __name__ == "__main__":
    run(main)
