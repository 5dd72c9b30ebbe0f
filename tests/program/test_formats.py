"""Compares the formats of `verdicts` and `sources` with those that tools/recheck computes, and those of `check` with its lines.
The program runs on the examples, on texts with quotes, line ends and formulas, and on drawn reports. Each `--format` must be that
of tools/recheck, byte for byte. `--spreadsheet` must begin with a byte order mark, and may only add a ' to cells. It must guard a
text as tools/contradictions does: exactly so if the text is ASCII, otherwise at least so. SQLite joins the sources of the examples
to their verdicts: each pair must have the concept and the value that the report's file has. Last, the output repeats a long URI."""
import csv
import decimal
import io
import json
import os
import sqlite3

import pytest

from running import TOP, cases, run, write
from strategies import simple_report, simple_sheet
from support import bytes_of, content
from contradicting.tables import safe
import recheck

EXAMPLES = [f"{TOP}/examples/{name}.json" for name in ("issuer", "ledgerline", "statfeed", "oldharbour")]
TEXTS = ["=1+1", "-2", "+3", "@SUM(A1)", "plain", 'a "word", and more', "two\nlines", "three\r\nlines", "", "'=1", "\t=1", "\u00a0=1", "\uff1d1", "\u3000-1",
         "\ufeff=1", "\u00e9=1", "1=1", "a", "\u0001", "x;=cmd|'/C calc'!A0", "x;1", "x| -1", "x\t+1", "x\r\n@1", ";;=1", "x;\t'\"=1", "x,=1",
         "\u00e9;\u00a0=1", "x;\uff1d1"]


def printed(command, sheet, reports, *words):
    status, out, lines = run(command, "--sheet", sheet, *words, "--", *reports)
    assert status < 2, lines
    return out.decode()


def lines_of(text):
    return text.split("\n")[:-1]


def is_within(part, whole):
    """Returns whether the characters of `part` are in `whole`, in this order."""
    rest = iter(whole)
    return all(character in rest for character in part)


def is_guarded(plain, guarded, numbers):
    """Returns whether the guarded table begins with a byte order mark, and each cell is guarded as tools/contradictions does.
    `numbers` has the numbers among the values, which have no '."""
    one, two = (list(csv.reader(io.StringIO(text, newline=""))) for text in (plain, guarded[1:]))
    for cells, others in zip(one, two):
        for column, cell, other in zip(one[0], cells, others):
            is_number = column in ("decimals", "common_low", "common_high") or column == "value" and cell in numbers
            wanted = cell if is_number else safe(cell)
            if cell.isascii() and other != wanted or not is_within(wanted, other) or other.replace("'", "") != cell.replace("'", ""):
                return False
    return guarded[0] == "\ufeff" and [len(cells) for cells in one] == [len(cells) for cells in two]


def expect_formats(sheet, reports):
    for form in ("lines", "json", "csv"):
        wanted = recheck.Run(bytes_of(sheet), reports, {}, form=form)
        for command in ("verdicts", "sources"):
            for words in ((), ("--format", form)) if form == "lines" else (("--format", form),):
                assert printed(command, sheet, reports, *words) == wanted.texts[command], (command, form)
    numbers = {recheck.plain(value.content) for _, value in wanted.facts if value.kind == 1}
    for command in ("verdicts", "sources"):
        guarded = printed(command, sheet, reports, "--format", "csv", "--spreadsheet")
        assert is_guarded(wanted.texts[command], guarded, numbers), command


@cases(300)
def test_drawn_reports(chance):
    names = [write(f"{index}.json", simple_report(chance, chance.choice([0, 0, 0, 0, 1, 2, 3]))) for index in range(chance.randint(0, 6))]
    expect_formats(write("sheet.json", json.dumps(simple_sheet())), names)


def test_examples():
    expect_formats(f"{TOP}/examples/sheet.json", EXAMPLES)


def test_checks():
    """The rows of `check` have what its lines have."""
    lines, rows, cells = (printed("check", f"{TOP}/examples/sheet.json", EXAMPLES, "--format", form) for form in ("lines", "json", "csv"))
    rows = [json.loads(line) for line in lines_of(rows)]
    words = [{True: "canonical", False: "other"}[it["canonical"]] for it in rows]
    assert lines_of(lines) == [f"report {it['report']}: accepted {it['facts']} {it['level']} {word}" for it, word in zip(rows, words)]
    assert [it["file"] for it in rows] == EXAMPLES[:3]  # the fourth is refused
    assert list(csv.reader(io.StringIO(cells, newline=""))) == [list(rows[0]), *([str(cell).lower() if isinstance(cell, bool) else str(cell) for cell in it.values()] for it in rows)]


def odd_report(prefix):
    """Returns a report with a fact for each of TEXTS: in its value, its identifier and, unless empty, its typed member."""
    info = {"documentType": "https://xbrl.org/2021/xbrl-json", "namespaces": {"eg": "http://example.org/t"}}
    facts = {f"{text}{prefix}{index}": {"value": f"{text}{prefix}", "dimensions": {"concept": "eg:T", "eg:Sku": text or "none"}}
             for index, text in enumerate(TEXTS)}
    return json.dumps({"documentInfo": info, "facts": facts})


def test_odd_texts(tmp_path):
    sheet = {"namespaces": {"eg": "http://example.org/t"}, "concepts": {"eg:T": "text"}, "dimensions": {"eg:Sku": "typed"}}
    files = (("odd", json.dumps(sheet)), ("one", odd_report("")), ("two", odd_report("x")))
    sheet, *reports = (write(f"{tmp_path}/{name}.json", text) for name, text in files)
    expect_formats(sheet, reports)


def tables_of(kind):
    """Returns the tables of verdicts and sources of the examples, each a list of objects. Those of verdicts have a fact each."""
    texts = [printed(command, f"{TOP}/examples/sheet.json", EXAMPLES, "--format", kind) for command in ("verdicts", "sources")]
    if kind == "csv":
        verdicts, sources = (list(csv.DictReader(io.StringIO(text, newline=""))) for text in texts)
        return [{**it, "value": None if it["nil"] else it["value"]} for it in verdicts], sources
    rows, sources = ([json.loads(line) for line in lines_of(text)] for text in texts)
    return [{"fact": fact["fact"], "row": row["row"], "concept": row["dimensions"]["concept"], "value": fact["value"]}
            for row in rows for fact in row["facts"]], sources


def joined(*tables):
    """Returns the tables' natural join, computed by SQLite. The tables have different columns, except those to join by."""
    base = sqlite3.connect(":memory:")
    for name, table in zip("ab", tables):
        columns = list(table[0])
        base.execute(f"create table {name} ({', '.join(columns)})")
        base.executemany(f"insert into {name} values ({', '.join('?' for _ in columns)})", ([*it.values()] for it in table))
    found = base.execute("select file, identifier, concept, value from a natural join b").fetchall()
    base.close()
    return found


def is_pair(own, concept, value):
    """Returns whether a report's own fact, with its prefixes and spelling of numbers, has this concept and value."""
    if own["dimensions"]["concept"].split(":")[1] != concept.split("}")[1]:
        return False
    try:
        return decimal.Decimal(own["value"]) == decimal.Decimal(value)
    except (decimal.InvalidOperation, TypeError):
        return own["value"] == value or own["value"].split(":")[-1] == value.split("}")[-1]


@pytest.mark.parametrize("kind", ("json", "csv"))
def test_pairs_in_sqlite(kind):
    """A join of sources to verdicts gives each fact object of the examples its value."""
    reports = {path: json.loads(content(path))["facts"] for path in EXAMPLES[:3]}  # the fourth is refused
    pairs = joined(*tables_of(kind))
    assert sorted(pair[:2] for pair in pairs) == sorted((path, identifier) for path, facts in reports.items() for identifier in facts)
    assert all(is_pair(reports[path][it], *more) for path, it, *more in pairs)


def generous(scratch, shape):
    """Writes a sheet and a report whose rows repeat a long URI, and returns their paths and sizes."""
    uri = "http://example.org/" + "u" * 20_000
    names = [f"eg:n{number}" for number in range(400)]
    one = {"concept": "eg:N"}
    facts = {
        "rows": {name: {"value": name, "dimensions": {**one, "eg:Sku": name}} for name in names},
        "values": {name: {"value": name, "dimensions": one} for name in names},
        "members": {"a": {"value": None, "dimensions": {**one, **{name: "eg:m" for name in names}}}},
    }[shape]
    sheet = {"namespaces": {"eg": uri}, "concepts": {"eg:N": "name"}, "dimensions": {"eg:Sku": "typed", **{name: "explicit" for name in names}}}
    info = {"documentType": "https://xbrl.org/2021/xbrl-json", "namespaces": {"eg": uri}}
    paths = f"{scratch}/long_sheet.json", f"{scratch}/long.json"
    for path, tree in zip(paths, (sheet, {"documentInfo": info, "facts": facts})):
        write(path, json.dumps(tree))
    return paths, sum(map(os.path.getsize, paths))


@pytest.mark.parametrize("shape", ("rows", "values", "members"))
@pytest.mark.parametrize("kind", ("json", "csv"))
def test_bounds(shape, kind, tmp_path):
    """Checks outputs above a bound: the given one, and the default one."""
    (sheet, report), size = generous(tmp_path, shape)
    old, bound = write(f"{tmp_path}/old", "old"), 2**20 + 16 * size

    def ran(*more):
        return run("verdicts", "--sheet", sheet, "--format", kind, report, *more)

    whole = ran("--most-output", str(2**40))[1]
    assert len(whole) > bound
    # a row whose URIs exceed the bound is not made, so nothing is printed
    shown = whole[:bound] if shape == "rows" else b""
    for text, most, found in ((whole, len(whole), ran("--most-output", str(len(whole)))), (whole[:-1], len(whole) - 1, ran("--most-output", str(len(whole) - 1))),
                              (shown, bound, ran()), (b"", bound, ran("-o", old))):
        line = "" if most == len(whole) else f"output: more than {most} bytes; --most-output BYTES sets the bound\n"
        assert found == (3 if line else 0, text, line)
    assert bytes_of(old) == b"old"
