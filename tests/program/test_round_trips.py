"""Checks the round trip of tools/respell with the program. For the example and for drawn reports, the program merges reports,
and the result is respelled, with a reference if it has none. `--check` must find no fault in the respelled text. The text is
then normalised and merged: the bytes must be those of the first merge, except for an added reference."""
import json
import os

from running import TOP, cases, merged, write
import drawn_reports
import in_process
import normalise
import respell

EXAMPLES = os.path.join(TOP, "examples")
REFERENCE = "http://x.example/t.xsd"


def expect_done(tool, *words, most=0):
    status, errors, out = in_process.run_whole(tool, *words)
    assert status <= most, (tool.__name__, errors, out)


def expect_round_trip(sheet, reports):
    first = merged(*reports, sheet=sheet)
    has_references = bool(json.loads(first)["documentInfo"]["taxonomy"])
    write("merged.json", first)
    # adding a reference is shown on standard error, with status 1
    expect_done(respell, "--sheet", sheet, *([] if has_references else ["--taxonomy", REFERENCE]), "merged.json", "respelled.json", most=int(not has_references))
    expect_done(respell, "--sheet", sheet, "--check", "respelled.json")
    expect_done(normalise, "--sheet", sheet, "respelled.json", "again.json", "changes.jsonl")
    second = merged("again.json", sheet=sheet)
    assert first == (second if has_references else second.replace(json.dumps([REFERENCE]).encode(), b"[]"))


def test_example(tmp_path, monkeypatch):
    monkeypatch.chdir(tmp_path)
    expect_round_trip(f"{EXAMPLES}/sheet.json", [f"{EXAMPLES}/{name}.json" for name in ("issuer", "ledgerline", "statfeed")])


@cases(1000)
def test_drawn_reports(chance):
    sheet, reports = drawn_reports.for_others(chance)
    expect_round_trip(write("sheet.json", sheet), [write(f"{number}.json", text) for number, text in enumerate(reports)])
