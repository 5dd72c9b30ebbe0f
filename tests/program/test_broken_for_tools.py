"""Breaks packages, reports, sheets, merged texts and lines, and runs the tools on them. In most cases one file is broken, or
the package that contains the file, or both. Some files have odd names, which follow `--`. Some taxonomies are read with another
one, which must not change their kinds. Some outputs are longer than a bound. No cell of a table may begin with a sign of a
formula where a spreadsheet could split the table. Each run must end within 10 seconds of processor time and 1 GiB of memory,
with status 0, 1 or 3, printable lines and no unexpected exception. With status 0 or 1 all outputs must be complete, and a
second run of normalise on its output must change nothing; with status 3 no output may change. The tools run inside this module;
in about one run in 20, a tool also runs as a process, and its result must be the same."""
import contextlib
import csv
import importlib
import io
import json
import os
import re
import resource
import signal
import subprocess
import sys
import types
import zipfile
from unittest import mock

import pytest

from running import cases, counts, expect_all, write
from strategies import BREAKS, JSON_BREAKS, LINE_BREAKS, SHEET, XML_BREAKS, base, perhaps_broken, report_bytes
from support import bytes_of
import drawn_reports
import in_process
import process
from drawn_taxonomies import drawn_other_taxonomy, drawn_taxonomy, own_kinds, packed
from contradicting import tables as bounds_of_tables
from test_respell import merged

TOOLS = {name: importlib.import_module(name) for name in ("make_sheet", "normalise", "contradictions", "respell")}
SECONDS, PATIENCE, BYTES = 10, 300, 1 << 30
LONGEST_ROW = bounds_of_tables.LONGEST_ROW
BEFORE = b"of a run before"
# the names of files, which follow `--`
ODD_NAMES = ("report", "--x", "-", "-o", "--", "--sheet=x.json", "A=B.json", "a\x1b[31m\n.json", "x;=1+1", "=1", "a|@b\t+c", "\u202e", "\udcff")
PROVIDERS = ("A,B,C", "A;=1,B|-2,+C", "\uff1dA,B\u001b,C")
FORMULA = re.compile("[\\s\x00-\x20\ufeff'\"]*[=+@\uff1d\uff0b\uff0d\uff20-]")
GUARD = re.compile("[\\s\x00-\x20\ufeff\"]*'")
PLAIN = re.compile(r"-?\d+(\.\d+)?", re.ASCII)


class Fault(BaseException):
    """A result that is not as expected. No tool catches this exception."""


@pytest.fixture(autouse=True, scope="module")
def limited_memory():
    limits = resource.getrlimit(resource.RLIMIT_AS)
    resource.setrlimit(resource.RLIMIT_AS, (BYTES, limits[1]))
    yield
    resource.setrlimit(resource.RLIMIT_AS, limits)


def run_tool(chance, tool, words, outputs):
    """Runs a tool, and checks the conditions that every run must satisfy. Returns its status and its standard output."""
    for name in outputs[chance.randrange(3):]:
        write(name, BEFORE)
    before = present_files()
    status, errors, out = within_bounds(lambda: in_process.run_whole(expecting(TOOLS[tool]), *words))
    line = f"{tool} {' '.join(words)}: status {int(status)}, {errors[:300]!r}"
    assert status in (0, 1, 3), line
    assert all(re.fullmatch(rf"{tool}: .*", each) and each.isprintable() for each in errors.split("\n")[:-1]), line
    assert "Traceback" not in errors and "out of memory" not in errors and (status != 3 or errors.endswith("\n")), line
    after = present_files()
    assert after.keys() <= before.keys() | {*outputs}, f"{line}: it left {after.keys() - before.keys()}"
    assert status != 3 or after == before and not out, f"{line}: something is written"
    assert status == 3 or all(after.get(name, BEFORE) != BEFORE for name in outputs), f"{line}: something is not written"
    if not chance.randrange(20) and bounds_of_tables.LONGEST_ROW == LONGEST_ROW:
        run_process(tool, words, (int(status), errors), before, after)
    counts[f"{tool} {int(status)}"] += 1
    return status, out


def run_process(tool, words, ended, before, after):
    for name in after.keys() - before.keys():
        os.unlink(name)
    for name, content in before.items():
        write(name, content)
    run = [sys.executable, os.path.join(in_process.TOOLS, tool + ".py"), *words]
    done = subprocess.run(run, capture_output=True, timeout=PATIENCE, env={**os.environ, "PYTHONUTF8": "1"})
    assert (done.returncode, done.stderr.decode()) == ended, f"{tool} {' '.join(words)}: {ended}, but as a process {done}"
    assert present_files() == after, f"{tool} {' '.join(words)}: as a process it writes other files"


def present_files():
    paths = (os.path.join(at, name) for at, _, names in os.walk(".") for name in names)
    return {os.path.relpath(path): bytes_of(path) for path in paths}


def expecting(tool):
    """Returns the tool, changed so that an unexpected exception, which would become a line and status 3, fails the case."""
    def main():
        try:
            return tool.main()
        except (process.NotDone, OSError, RecursionError):
            raise
        except Exception as fault:
            raise Fault(f"{tool.__name__} raises {type(fault).__name__}: {fault}") from fault

    return types.SimpleNamespace(__name__=tool.__name__, main=main)


def within_bounds(run):
    """Returns the result of a run. A run that exceeds a limit on processor time or on elapsed time is a fault."""
    def stop(number, _):
        raise Fault(f"it did not end within {SECONDS} seconds of a processor" if number == signal.SIGPROF else "it blocks")

    for number, timer, seconds in ((signal.SIGPROF, signal.ITIMER_PROF, SECONDS), (signal.SIGALRM, signal.ITIMER_REAL, PATIENCE)):
        signal.signal(number, stop)
        signal.setitimer(timer, seconds)
    try:
        return run()
    except Fault as fault:
        raise AssertionError(str(fault)) from fault
    finally:
        signal.setitimer(signal.ITIMER_PROF, 0)
        signal.setitimer(signal.ITIMER_REAL, 0)


def write_taxonomy(chance, kinds):
    """Writes a taxonomy as a folder or a package. One file whose name ends in one of `kinds` may be broken, and so may the
    package. Returns the argument that names the taxonomy."""
    files = drawn_taxonomy(chance)
    name = chance.choice([name for name in files if name.endswith(kinds)])
    files[name] = perhaps_broken(chance, files[name], files["t/base.xsd"], XML_BREAKS)
    if chance.random() < 0.5:
        for path, content in files.items():
            write(os.path.join("taxonomy", path), content)
        return chance.choice(("taxonomy", "taxonomy/t/core.xsd"))
    content = packed(files, chance.choice((zipfile.ZIP_STORED, zipfile.ZIP_DEFLATED)))
    is_whole = chance.random() < 0.6
    return write("taxonomy.zip", content if is_whole else perhaps_broken(chance, content, content, BREAKS[:6]))


@cases(700)
def test_taxonomies(chance):
    """Runs make_sheet on a taxonomy. A schema or the catalog may be broken, and so may the package. In some cases, another taxonomy
    is read too, and must not change the kinds of the first, or few tags are permitted."""
    taxonomy = write_taxonomy(chance, (".xsd", "catalog.xml"))
    options = ["--tags", "1"] * (chance.random() < 0.1)
    status, out = run_tool(chance, "make_sheet", [*options, taxonomy], [])
    expect_sheet(status, out)
    if chance.random() < 0.5 and not options:
        name = chance.choice(("other.zip", "--union", "x;=1.zip", "\x1b.zip"))
        other = write(name, packed(drawn_other_taxonomy(chance), zipfile.ZIP_STORED))
        both, out_of_both = run_tool(chance, "make_sheet", ["--", *chance.sample([taxonomy, other], 2)], [])
        expect_sheet(both, out_of_both)
        if status != 3:
            assert both != 3 and own_kinds(out) == own_kinds(out_of_both), f"the other taxonomy changes {out} to {out_of_both}"


@cases(500)
def test_unions(chance):
    """Runs make_sheet --union on two sheets. One of them may be broken."""
    sheet = json.dumps({**SHEET, "xbrlmerge:sets": ["n1:T"]}).encode()
    words = [write("broken", perhaps_broken(chance, sheet, sheet, JSON_BREAKS)), write("good", sheet)]
    status, out = run_tool(chance, "make_sheet", ["--union", *chance.sample(words, 2)], [])
    expect_sheet(status, out)


def expect_sheet(status, out):
    if status != 3:
        assert out.endswith(b"\n") and {"namespaces", "concepts", "dimensions"} <= json.loads(out).keys(), f"it is not a sheet: {out[:200]!r}"


@cases(1400)
def test_reports(chance):
    """Runs normalise on a report with a sheet. One may be broken. Unless the status is 3, normalises the output too."""
    drawn = drawn_reports.untidy(chance).encode() if chance.random() < 0.7 else report_bytes(chance)
    sheet = json.dumps(drawn_reports.SHEET).encode()
    if chance.random() < 0.8:
        drawn = perhaps_broken(chance, drawn, sheet, JSON_BREAKS)
    else:
        sheet = perhaps_broken(chance, sheet, drawn, JSON_BREAKS)
    options = [word for word in drawn_reports.OPTIONS if chance.random() < 0.4]
    if chance.random() < 0.3:
        options += ["--map", write("map", drawn_map(chance))]
    words = ["--sheet", write("sheet", sheet), *options, "--"]
    report, made, changed = odd_names(chance, 3)
    write(report, drawn)
    if chance.random() < 0.125:
        words = ["--most-output", chance.choice(("0", "40", "400")), *words]
    status, _ = run_tool(chance, "normalise", [*words, report, made, changed], [made, changed])
    if status != 3:
        changes = [json.loads(line) for line in bytes_of(changed).decode().split("\n")[:-1]]
        assert status == int(any(change["loss"] for change in changes)), f"status {status} with {changes}"
        out = bytes_of(made)
        assert out.endswith(b"\n") and isinstance(json.loads(out), dict), f"it is not a report: {out[:200]!r}"
        again, _ = run_tool(chance, "normalise", [*words, made, "again", "more"], ["again", "more"])
        assert (again, bytes_of("again"), bytes_of("more")) == (0, out, b""), "it changes its own output"


def drawn_map(chance):
    """Returns a map for the reports of drawn_reports. In some cases it is broken, or replaces what it replaces by."""
    drawn = {key: part for key, part in drawn_reports.MAP.items() if chance.random() < 0.6}
    parts = {key: {old: chance.choice(new) for old, new in part.items() if chance.random() < 0.7} for key, part in drawn.items()}
    text = json.dumps(parts).encode()
    return text if chance.random() < 0.7 else perhaps_broken(chance, text, text, JSON_BREAKS)


def odd_names(chance, count):
    """Returns different names for files. Most are usual names, and some are from ODD_NAMES."""
    return [odd if chance.random() < 0.3 else f"file{index}" for index, odd in enumerate(chance.sample(ODD_NAMES, count))]


@contextlib.contextmanager
def low_bound(chance):
    """Makes the rows of tables short in one case of eight, until the block ends."""
    if chance.random() < 0.875:
        yield
        return
    with mock.patch.object(bounds_of_tables, "LONGEST_ROW", chance.choice((0, 1, 40, 400))):
        yield


@cases(1400)
def test_merged_texts(chance):
    """Runs contradictions on a merged text, a sheet and lines. One of these files may be broken."""
    text, verdicts, sources = base(chance)
    files = {"merged": text, "sheet": json.dumps(SHEET).encode(), "verdicts": verdicts, "sources": sources}
    name = chance.choice(sorted(files) + ["merged"])
    breaks = JSON_BREAKS if name in ("merged", "sheet") else LINE_BREAKS
    files[name] = perhaps_broken(chance, files[name], text, breaks)
    run_on_text(chance, files, [])


@cases(500)
def test_labels(chance):
    """Runs contradictions with the labels of a taxonomy. The core schema or a .xml file may be broken, and so may the package."""
    text, verdicts, sources = base(chance)
    files = {"merged": text, "sheet": json.dumps(SHEET).encode(), "verdicts": verdicts, "sources": sources}
    run_on_text(chance, files, ["--labels", write_taxonomy(chance, (".xml", "core.xsd"))])


def run_on_text(chance, files, words):
    for name, content in files.items():
        write(name, content)
    owned = ["A=merged", "B=merged", "--", write(chance.choice(ODD_NAMES), files["merged"])]
    if chance.random() < 0.7:
        words, owned = [*words, "--sources", "sources", "--names", chance.choice(PROVIDERS)], []
    near = ["near"] * chance.randint(0, 1)
    words += ["--near", "near"] * len(near)
    tables = [os.path.join("out", name) for name in ("contradictions.csv", "table.csv", "providers.csv", "warnings.csv")] + near
    words = [*words, "--fail-on", "contradictions", "-o", "out", "--from", "merged", "sheet", "verdicts", *owned]
    with low_bound(chance):
        status, _ = run_tool(chance, "contradictions", words, [os.path.join("out", "page.html"), os.path.join("out", "summary.json"), *tables])
    if status != 3:
        assert bytes_of(os.path.join("out", "page.html")).endswith(b"</body></html>\n"), "the page is not whole"
        lines = [whole_table(name) for name in tables]
        assert status == int(len(lines[0]) > 1), f"status {status} with a table of {len(lines[0])} lines"


def whole_table(name):
    """Returns the lines of a table. The last line must be complete, and all lines must have the same number of cells."""
    text = bytes_of(name).decode("utf-8-sig")
    lines = [*csv.reader(io.StringIO(text, newline=""))]
    assert text.endswith("\r\n") and len({len(line) for line in lines}) == 1, f"the table {name} is not whole"
    for cell in (cell for line in lines for cell in line if not PLAIN.fullmatch(cell)):
        pieces = re.split("[;|\t\r\n]", cell)
        assert not any(FORMULA.match(piece) and not GUARD.match(piece) for piece in pieces), f"{name} has the formula {cell!r}"
    return lines


@cases(700)
def test_respelled(chance):
    """Runs respell on a merged text, and lets it check a report. Each may be broken, and the sheet as well."""
    sheet, reports = drawn_reports.for_others(chance)
    text, report = merged(sheet, reports).encode(), drawn_reports.untidy(chance).encode()
    files = [each if chance.random() < share else perhaps_broken(chance, each, text, JSON_BREAKS)
             for each, share in ((text, 0.5), (report, 0.2), (sheet.encode(), 0.9))]
    given, made, checked = odd_names(chance, 3)
    for name, content in zip((given, checked, "listed"), files):
        write(name, content)
    status, _ = run_tool(chance, "respell", ["--sheet", "listed", *["--compact"] * chance.randint(0, 1), "--", given, made], [made])
    assert status == 3 or {"documentInfo", "facts"} == json.loads(bytes_of(made)).keys(), "it is not a report"
    status, out = run_tool(chance, "respell", ["--check", *["--sheet", "listed"] * chance.randint(0, 1), "--", checked], [])
    assert status == 3 or (status == 0) == out.startswith(b"0 faults") and out.decode()[:-1].isprintable() == (out.count(b"\n") == 1), f"{status} {out!r}"


def test_each_status_occurs():
    expect_all(f"{tool} {status}" for tool in TOOLS for status in (0, 1, 3))
