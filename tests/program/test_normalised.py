"""Checks the results of tools/normalise with the program. Each report in normalise/cases.jsonl is normalised with its options.
`check` must accept or refuse the result as the case requires, and the output files must equal the files beside the report. If
nothing is lost and the report was accepted before, `check`, `verdicts` and `merge` must print the same for the report and the
result. If normalising also respells a set of names, only the output of `check` must be the same. A drawn tidy report must be
accepted. It is then respelled as another tool might. Once both are normalised, the program must print the same for each as it
printed for the tidy report. A drawn untidy report must be accepted once it is normalised with all lossy options. `check` must
accept or refuse each shape of report_shapes.txt as its mark requires. Drawn pairs of facts are compared by `tools/contradictions
--normalise`: the row of a pair must be complete exactly if the values are equal, and each item of a merged set must have its
namespace."""
import json
import os
import random
import subprocess
import sys

import pytest

from running import PROGRAM, SEED, TOP, cases, run, write
from support import content, table_in
import drawn_pairs
import drawn_reports
import test_normalise_shapes as shapes

FOLDER = os.path.join(TOP, "tests", "program", "normalise")
TOOL, CONTRADICTIONS = (os.path.join(TOP, "tools", f"{name}.py") for name in ("normalise", "contradictions"))
CASES = [json.loads(line) for line in content(f"{FOLDER}/cases.jsonl").splitlines()]
PAIRS = 500  # pairs that are compared in one run


def said(sheet, report):
    """Returns the statuses and outputs of `check`, `verdicts` and `merge` for a report."""
    return [run(command, "--sheet", sheet, report) for command in ("check", "verdicts", "merge")]


def normalised(folder, report, sheet, *options):
    """Returns the status, and the path of the new report."""
    words = [report, f"{folder}/out.json", f"{folder}/changes.jsonl", "--sheet", sheet, "--program", PROGRAM, *options]
    done = subprocess.run([sys.executable, TOOL, *words], capture_output=True, timeout=60)
    assert done.returncode in (0, 1), done.stderr
    return done.returncode, f"{folder}/out.json"


@pytest.mark.parametrize("case", CASES, ids=lambda case: " ".join((case["report"], *case["options"])))
def test_case(case, tmp_path):
    report = os.path.join(FOLDER, f"{case['report']}.json")
    sheet = os.path.join(os.path.dirname(report), "sheet.json")
    status, out = normalised(tmp_path, report, sheet, *case["options"])
    given, made = said(sheet, report), said(sheet, out)
    assert (made[0][0] == 0) == case["accepted"], made[0]
    changes = content(f"{tmp_path}/changes.jsonl")
    assert (content(out), changes) == tuple(content(f"{report[:-5]}{end}") for end in (".out.json", ".changes.jsonl"))
    if status == 0 and given[0][0] == 0:
        respelled = any(json.loads(line)["rule"] == "set" for line in changes.splitlines())
        assert given[0] == made[0] if respelled else given == made


@cases(200)
def test_drawn_reports(chance):
    sheet, tidy = write("sheet.json", json.dumps(drawn_reports.SHEET)), drawn_reports.tidy(chance)
    wanted = said(sheet, write("tidy.json", tidy))
    assert wanted[0][0] == 0
    for report in ("tidy.json", write("rough.json", drawn_reports.roughened(chance, tidy))):
        assert said(sheet, normalised(".", report, sheet)[1]) == wanted
    _, out = normalised(".", write("untidy.json", drawn_reports.untidy(chance)), sheet, *drawn_reports.OPTIONS, "--drop-unreadable")
    assert run("check", "--sheet", sheet, out)[0] == 0


@pytest.mark.parametrize("row", [row for row in shapes.rows() if row[4] not in ("guess", "dropped")], ids=lambda row: row[0])
def test_shape(row, tmp_path):
    _, options, before, _, mark = row
    sheet = write(f"{tmp_path}/sheet.json", json.dumps(shapes.SHEET))
    _, out = normalised(tmp_path, write(f"{tmp_path}/shape.json", shapes.report(before)), sheet, *options)
    status, _, errors = run("check", "--sheet", sheet, out)
    wanted = f"report 1: {mark} " if mark.isdigit() else ""
    assert errors.startswith(wanted) and bool(status) == bool(wanted), errors


@pytest.mark.parametrize("number", range(20))
def test_pairs(number, tmp_path):
    reports, are_equal = drawn_pairs.drawn_pairs(random.Random(f"{SEED} {number}"), PAIRS)
    sheet, found = write(f"{tmp_path}/sheet.json", json.dumps(drawn_pairs.SHEET)), f"{tmp_path}/found"
    paths = [write(f"{tmp_path}/{name}.json", text) for name, text in zip("ab", reports)]
    words = ["--sheet", sheet, "-o", found, "--program", PROGRAM, "--normalise", "--exit-zero", *paths]
    done = subprocess.run([sys.executable, CONTRADICTIONS, *words], capture_output=True, timeout=600)
    assert done.returncode == 0, done.stderr
    verdicts = {}
    for row in table_in(f"{found}/table.csv"):
        verdicts.setdefault(int(row["entity"].rpartition("}")[2]), []).append(row["verdict"])
    assert not [entity for entity, is_equal in enumerate(are_equal) if (verdicts[entity] == ["complete"]) != is_equal]
    facts = json.loads(content(f"{found}/merged.json"))["facts"].values()
    sets = [fact["value"].split() for fact in facts if fact["dimensions"]["concept"].endswith(":set")]
    assert not [item for items in sets for item in items if "#" not in item]
