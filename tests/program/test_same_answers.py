"""Compares another build of the program, $OTHER, with $XBRLMERGE: both must merge or refuse drawn reports alike. Most reports
are broken, some have more than one piece, and one in five is read whole. In one of five runs, two URIs are long. Both programs
must end with the same status, 0 or 1, and print the same bytes and lines. So each refusal has the same reason and place."""
import os

import pytest

from running import PROGRAM, cases, run, write
from strategies import broken, long_report, read_whole, report_bytes, sheet_bytes

OTHER = os.path.abspath(os.environ.get("OTHER", PROGRAM))


def drawn(chance):
    text = report_bytes(chance) if chance.random() < 0.95 else long_report(chance)
    if chance.random() < 0.7:
        text = broken(chance, text, sheet_bytes())
    return read_whole(text) if chance.random() < 0.2 else text


def with_long_uris(text):
    """Replaces two URIs by long ones of one length."""
    uri = b"http://example.org/"
    return text.replace(b"https://made.example/2024", uri + b"m" * 1_100).replace(uri + b"u", uri + b"u" * 1_100)


@pytest.mark.skipif(OTHER == PROGRAM, reason="OTHER names no other program")
@cases(5000)
def test_two_programs(chance):
    spelled = with_long_uris if chance.random() < 0.2 else bytes
    names = [write(f"report{index}", spelled(drawn(chance))) for index in range(4)]
    write("sheet", spelled(sheet_bytes()))
    one, other = (run("merge", "--sheet", "sheet", *names, program=program) for program in (PROGRAM, OTHER))
    assert one == other and one[0] in (0, 1)
