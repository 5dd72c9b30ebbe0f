"""Compares the program with tools/recheck on drawn sheets and reports. Each case draws a sheet and up to four reports. About a
third of the reports have a fault: a member from a table of faults, or broken bytes. So has one sheet in ten. `merge`,
`verdicts` and `sources` read them, and tools/recheck must agree with what they print and with the status of `merge`. Then the
run is forged: a report is thrown away, other bytes are read, or texts or the status are changed. tools/recheck must differ, or
name what it takes on trust."""
import collections
import contextlib
import io
import json
import re
import sys
from unittest import mock

from running import cases, counts, expect_all, run, write
from strategies import broken, odd_sheet_bytes, report_bytes
from support import bytes_of
import recheck

TEXT_OF = {"merge": "merged", "verdicts": "verdicts", "sources": "sources"}
FORMS, LEVELS = ("lines", "lines", "json", "csv"), ("all", "all", "all", "consistent", "none", "complete")
REPORT_REFUSALS, SHEET_REFUSALS = range(1, 32), (1, 2, 3, 5, 12, 13, 14, 32)
ON_TRUST = re.compile(r": agree, except what is taken on trust \(\d+\)\n$")
Case = collections.namedtuple("Case", "form allow")


def run_program(case, names, sheet="sheet"):
    """Runs the three commands. Returns what they print, the refusals of `merge`, and its status."""
    texts = {}
    for command, words in (("merge", ("--allow", case.allow)), ("verdicts", ("--format", case.form)), ("sources", ("--format", case.form))):
        status, texts[TEXT_OF[command]], lines = run(command, "--sheet", sheet, *words, *names)
        if command == "merge":
            texts.update(refusals=lines.encode(), status=str(status).encode())
    return texts


def rechecked(case, names, texts):
    """Returns the status of tools/recheck, and what it prints."""
    for name, text in texts.items():
        write(f"{name}.out", text)
    files = [f"--{name}={name}.out" for name in texts if name != "status"]
    words = ["recheck", "--sheet=sheet", *files, f"--status={texts['status'].decode()}", f"--allow={case.allow}", f"--format={case.form}", *names]
    with mock.patch.object(sys, "argv", words), contextlib.redirect_stdout(io.StringIO()) as printed:
        return recheck.main(), printed.getvalue()


def a_report_less(chance, case, names, texts):
    """A report is thrown away: with a refusal, or without one."""
    number = chance.randint(1, max(len(names), 1))
    write("none", b"{")
    forged = run_program(case, [it if place != number else "none" for place, it in enumerate(names, 1)])
    reason = chance.choice(("", "6 BaseUrl", "7 TaxonomyUrl", "7 TaxonomyUrl", f"{chance.randint(1, 31)} NumberForm"))
    told = f"report {number}: {reason} at document\n" if reason else ""
    return {**forged, "refusals": forged["refusals"].replace(f"report {number}: 1 NotJson at document\n".encode(), told.encode())}


def another_input(chance, case, names, texts):
    """Other bytes are read: of a report, or of the sheet."""
    name = chance.choice((*names, "sheet"))
    write("misread", bytes_of(name).replace(*chance.choice(MISREAD)))
    return run_program(case, ["misread" if it == name else it for it in names], "misread" if name == "sheet" else "sheet")


def another_call(chance, case, names, texts):
    """The reports are in another order, one is read twice, or the options are others."""
    others = chance.choice((names, names[::-1], [*names, *names[:1]], chance.sample(names, len(names))))
    return run_program(case if others != names else case._replace(form=chance.choice(FORMS), allow=chance.choice(LEVELS)), others)


def another_reference(chance, case, names, texts):
    """There is a reference more, one less, or another one."""
    listed = json.loads(texts["merged"])["documentInfo"]["taxonomy"] if texts["merged"] else []
    more = chance.choice(("http://phantom.example/", "a.xsd", "http://[::1]/", "http://x.org:80/"))
    others = chance.choice((sorted([*listed, more]), listed[1:], listed[:-1], [*listed, *listed[:1]], [more, *listed[1:]]))
    old, new = (f'"taxonomy":{json.dumps(it, ensure_ascii=False, separators=(",", ":"))}'.encode() for it in (listed, others))
    return {**texts, "merged": texts["merged"].replace(old, new, 1)}


def another_text(chance, case, names, texts):
    """Lines are removed, repeated or moved, a word is changed, or bytes are, in one or two texts. Or the status is another one."""
    forged = {**texts, "status": chance.choice((texts["status"], b"%d" % chance.randrange(4)))}
    for name in chance.sample(("merged", "verdicts", "sources", "refusals"), chance.choice((0, 1, 1, 2))):
        lines, text = forged[name].splitlines(keepends=True), forged[name]
        place = chance.randrange(len(lines) + 1)
        moved = [lines[:place] + lines[place + 1:], lines[::-1], lines[:place] + lines[place - 1:]]
        forged[name] = chance.choice((*map(b"".join, moved), text.replace(*chance.choice(MISPRINTED), 1), broken(chance, text, text)))
    return forged


FORGERS = (*[a_report_less, another_input, another_text] * 2, another_call, another_reference)
MISREAD = ((b'"decimals": 0', b'"decimals": 1'), (b"24:00:00", b"23:59:59"), (b'"98', b'"98.1'), (b"null", b'"0"'), (b"EN-gb", b"en"), (b"x:b", b"x:a"),
           (b"numeric", b"text"), (b"explicit", b"typed"), (b"text", b"name"), (b"http://example.org/b", b"http://example.org/c"), (b'"10', b'"-10'),
           (b'"m:Sku"', b'"x:Sku"'), (b"made:", b"m:"), (b"links", b"link"), (b'"all"', b'"none"'), (b"\\u", b"\\\\u"))
MISPRINTED = ((b" inconsistent apart", b" consistent common"), (b"complete", b"consistent"), (b"f1", b"f2"), (b'"all"', b'"consistent"'),
              (b'"consistent"', b'"all"'), (b'"none"', b'"all"'), (b" 1 ", b" 2 "), (b" at fact", b" at document"), (b".5", b".05"), (b'"decimals":0,', b""),
              (b'"value":', b'"decimals":1,"value":'), (b"T00:00:00", b"T24:00:00"), (b"too loose: row", b"too loose: row 1"))


@cases(10_000)
def test_runs_and_forged_runs(chance):
    names = [write(f"report{number}", report_bytes(chance)) for number in range(chance.randint(0, 4))]
    write("sheet", odd_sheet_bytes(chance))
    case = Case(chance.choice(FORMS), chance.choice(LEVELS))
    texts = run_program(case, names)
    counts.update(" ".join(it) for it in re.findall(r"^(sheet|report)(?: \d+)?: (\d+)", texts["refusals"].decode(), re.MULTILINE))
    status, printed = rechecked(case, names, texts)
    assert status == 1 if ON_TRUST.search(printed) else (status, printed.endswith(": agree\n")) == (0, True), printed
    forger = chance.choice(FORGERS)
    forged = forger(chance, case, names, texts)
    status, printed = rechecked(case, names, forged)
    assert forged == texts or status == 1 and (ON_TRUST.search(printed) or printed.endswith(": differ\n")), (forger.__name__, status, printed)


def test_refusals_occur():
    expect_all([*(f"report {number}" for number in REPORT_REFUSALS), *(f"sheet {number}" for number in SHEET_REFUSALS)])
