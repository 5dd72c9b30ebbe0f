"""Breaks reports, sheets, schedules and bundles, and runs the program on them. Each run must end within 10 seconds, and not by
a signal. Its status and lines must be possible for its input. A broken report is read in pieces. A copy with an extension
before its first member is read whole; both results must be equal. A refused report must not change the merged text of two good
ones. If the broken report is accepted, the merged text must be accepted too, and must merge to the same bytes."""
import re

from running import cases, counts, expect_all, merged, run, write
from strategies import REASONS, broken, events, good_report, long_report, report_bytes, sheet_bytes, read_whole

REASON = "(?:" + "|".join(f"{number} {name}" for number, name in enumerate(REASONS, 1)) + ")"
REPORT_LINE = re.compile(rf"report ([1-9]\d*): ({REASON}) at (?:document|fact [1-9]\d*)\n")
SHEET_LINE, EVENT_LINE = re.compile(rf"sheet: ({REASON})\n"), re.compile(r"event ([1-9]\d*): refused\n")
CHECKED = re.compile(rb"accepted \d+ (none|complete|consistent|all) (canonical|other)\n")
ONE, TWO, SHEET = good_report("98"), good_report("103.5"), sheet_bytes()
GOOD = {}


def write_good():
    """Writes the sheet and two good reports, and returns the text of their merge."""
    for name, content in (("sheet", SHEET), ("one", ONE), ("two", TWO)):
        write(name, content)
    if not GOOD:
        GOOD["text"] = merged("one", "two")
    return GOOD["text"]


def expect_text(text, sheet="sheet"):
    """Checks that a written text is accepted as canonical, and that merging it changes nothing."""
    write("text", text)
    status, line, lines = run("check", "--sheet", sheet, "text")
    found = CHECKED.fullmatch(line)
    assert (status, lines) == (0, "") and found and found[2] == b"canonical", (line, lines)
    assert merged("text", sheet=sheet) == text


def expect_reports(status, lines, most):
    """Checks that status 0 has no line, and that status 1 has only lines about refused reports, in the reports' order."""
    found = list(REPORT_LINE.finditer(lines))
    numbers = [int(it[1]) for it in found]
    assert "".join(it[0] for it in found) == lines and bool(numbers) == (status == 1), (status, lines)
    assert numbers == sorted(set(numbers) & set(range(1, most + 1))), lines


def expect_report(content, kind):
    """Checks a report between two good ones. `check` must accept it if `merge` does, and else print the same refusal."""
    good = write_good()
    write("broken", content)
    status, text, lines = run("merge", "--sheet", "sheet", "one", "broken", "two")
    expect_reports(status, lines, 3)
    write("whole", read_whole(content))
    assert run("merge", "--sheet", "sheet", "one", "whole", "two") == (status, text, lines)
    checked, line, check_lines = run("check", "--sheet", "sheet", "broken")
    assert (checked, check_lines) == (status, lines.replace("report 2", "report 1"))
    assert bool(CHECKED.fullmatch(line)) if status == 0 else (line, text) == (b"", good)
    if status == 0:
        expect_text(text)
    counts[f"{kind} {status}"] += 1


@cases(2000)
def test_reports(chance):
    content = report_bytes(chance)
    expect_report(broken(chance, content, ONE), "report")


@cases(400)
def test_reports_of_several_pieces(chance):
    expect_report(broken(chance, long_report(chance), ONE), "long")


@cases(800)
def test_sheets(chance):
    write_good()
    write("broken", broken(chance, SHEET, ONE))
    status, text, lines = run("merge", "--sheet", "broken", "one", "two")
    if status == 3:
        assert SHEET_LINE.fullmatch(lines) and text == b"", lines
    else:
        expect_reports(status, lines, 2)
        expect_text(text, sheet="broken")
    counts[f"sheet {status}"] += 1


@cases(800)
def test_schedules(chance):
    """Two replicas take two good reports."""
    write_good()
    content = broken(chance, events(chance), events(chance))
    write("broken", content)
    status, text, lines = run("replay", "--sheet", "sheet", "--replicas", "2", "--events", "broken", "one", "two")
    found = EVENT_LINE.fullmatch(lines)
    if found:
        count = len(content.removesuffix(b"\n").split(b"\n"))
        assert status == 3 and text == b"" and int(found[1]) <= count, lines
    else:
        texts = text.split(b"\n")
        assert (status, lines) == (0, "") and len(texts) == 3 and texts[2] == b"", (status, lines)
        expect_text(chance.choice(texts[:2]))
    counts[f"schedule {status}"] += 1


@cases(800)
def test_bundles(chance):
    content = broken(chance, b"\n".join((SHEET, ONE, TWO)), ONE)
    write("bundle", content)
    status, text, lines = run(given=content)
    if status == 3:
        assert SHEET_LINE.fullmatch(lines) and text == b"", lines
    else:
        sheet, *reports = content.split(b"\n")
        expect_reports(status, lines, sum(map(bool, reports)))
        write("first", sheet)
        expect_text(text, sheet="first")
    counts[f"bundle {status}"] += 1


def test_usual_results_occur():
    kinds = ("report", "01"), ("long", "01"), ("sheet", "013"), ("schedule", "03"), ("bundle", "013")
    expect_all(f"{kind} {status}" for kind, statuses in kinds for status in statuses)
