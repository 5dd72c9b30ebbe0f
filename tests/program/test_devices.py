"""Runs the program on failing devices, and on files that cannot be read or are not regular. The tables have the expected status
and line. If the line contains a number of bytes, standard output must have accepted exactly that many bytes from the start of
the text; otherwise all of the text or nothing. No input file may change."""
import collections
import contextlib
import fcntl
import json
import os
import re
import shutil
import socket
import subprocess
import sys
import tempfile
import termios
import time

import pytest

from running import PROGRAM, write
from support import bytes_of

NOBODY, LIMIT, ENDLESS_LIMIT = 65534, 20, 180
# the fcntl command that returns the size of a pipe; Python has a name for it since 3.10
PIPE_SIZE = 1032
# both in kilobytes. With LITTLE address space, an endless file exhausts memory, but the other files do not. If less than MUCH
# memory is free, the cases of kind `endless` are skipped
LITTLE, MUCH = 150_000, 6_000_000

GOOD, REFUSED, NOTHING_TAKEN = (0, ""), (1, "report 2: 1 NotJson at document\n"), (3, "device: 0 bytes written\n")
# for each command line, two results (status and line): if all devices work, and if standard output accepts no byte. The
# report `cut` is refused
WORDS = {
    "": (REFUSED, NOTHING_TAKEN),
    "merge --sheet sheet long cut": (REFUSED, NOTHING_TAKEN),
    "verdicts --sheet sheet rows cut": (REFUSED, NOTHING_TAKEN),
    "replay --sheet sheet --replicas 2 --events both long cut": (REFUSED, NOTHING_TAKEN),
    "check --sheet sheet report": (GOOD, NOTHING_TAKEN),
    "check --sheet sheet cut": ((1, "report 1: 1 NotJson at document\n"), (1, "report 1: 1 NotJson at document\n")),
    "sources --sheet sheet rows cut": (REFUSED, NOTHING_TAKEN),
    "explain --sheet sheet report cut": ((1, ""), NOTHING_TAKEN),
    "verdicts --sheet sheet": (GOOD, GOOD),
    "--help": (GOOD, NOTHING_TAKEN),
}
# these command lines print more than a pipe can hold
LONG = tuple(words for words in WORDS if "long" in words or "rows" in words or not words)
STOPS_OUTPUT = {"standard output full": ">/dev/full", "standard output closed": ">&-"}
STOPS_ERRORS = {"standard error full": "2>/dev/full", "standard error closed": "2>&-"}
STOPS_BOTH = {"both full": ">/dev/full 2>/dev/full", "both closed": ">&- 2>&-", "one full, one closed": ">/dev/full 2>&-"}
STOPS_INPUT = {"standard input closed": "<&-", "standard input a folder": "<.", "standard input for writing": "0>written"}

UNREAD, MEMORY, LENGTH = (3, "file strange: cannot be read\n"), (3, "out of memory\n"), (3, "file strange: too long\n")
BAD_SHEET, BAD_EVENT, BAD_REPORT = (3, "sheet: 1 NotJson\n"), (3, "event 2: refused\n"), (1, "report 1: 1 NotJson at document\n")
# the first bytes of parts of a taxonomy, and their kinds
TAXONOMIES = {
    b"PK\3\4": "a ZIP file, as a taxonomy package is",
    b'\xef\xbb\xbf<?xml version="1.0"?>\n<schema xmlns="http://www.w3.org/2001/XMLSchema"/>': "a schema of a taxonomy",
}
# for each kind of file, three results (status and line): as the sheet, as the events, and as a report
FILES = {
    "missing": (UNREAD, UNREAD, UNREAD),
    "a folder": (UNREAD, UNREAD, UNREAD),
    "without permission": (UNREAD, UNREAD, UNREAD),
    "/dev/null": (BAD_SHEET, GOOD, BAD_REPORT),
    "a FIFO of nothing": (BAD_SHEET, GOOD, BAD_REPORT),
    "a FIFO of one half": (BAD_SHEET, BAD_EVENT, BAD_REPORT),
    "a FIFO of all": (GOOD, GOOD, GOOD),
    "endless, little memory": (MEMORY, MEMORY, MEMORY),
    "endless": (LENGTH, LENGTH, LENGTH),
}
# for each kind of file, the second line that --verbose prints if `strange` cannot be read, and if it is the output
CAUSES = {
    "missing": ("There is no such file.", None),
    "a folder": ("It is a folder.", "It is a folder."),
    "without permission": ("You may not read it: permission denied.", None),
    "a socket": ("It is a socket.", "It is a device, pipe or socket; only a regular file is replaced."),
    "a link to nothing": ("It is a link to a file that does not exist.", "It is a link; only a regular file is replaced."),
}
# command lines, and the second line
VERBOSE = {
    "check --sheet sheet -": "There is no such file; for standard input, use /dev/stdin.",
    "check --sheet https://made.example/sheet.json report": "URLs are not downloaded.",
    "check --sheet sheet cut": "File: cut",
    "merge --sheet sheet -o none/out": "There is no such folder.",
    "merge --sheet sheet -o /dev/null": "It is a device, pipe or socket; only a regular file is replaced.",
}
# command lines in which `strange` is the sheet, the events or a report. Reading an `endless` file is slow, so only the first
# command line in each list reads one
PLACES = {
    "sheet": ("check --sheet strange report", "merge --sheet strange report", "verdicts --sheet strange report",
              "replay --sheet strange --replicas 2 --events events report"),
    "events": ("replay --sheet sheet --replicas 2 --events strange report",),
    "report": ("merge --sheet sheet strange report", "verdicts --sheet sheet strange", "check --sheet sheet strange",
               "replay --sheet sheet --replicas 2 --events events strange"),
}

Ran = collections.namedtuple("Ran", "status out err")


def free_memory():
    """Returns the kilobytes of memory that a program can get without swapping."""
    with open("/proc/meminfo", encoding="ascii") as file:
        return int(re.search(r"^MemAvailable: +(\d+)", file.read(), re.MULTILINE).group(1))


def report_of(facts):
    info = {"documentType": "https://xbrl.org/2021/xbrl-json", "namespaces": {"m": "https://made.example/2024"}}
    return json.dumps({"documentInfo": info, "facts": facts}).encode()


def contents():
    """Returns the files' contents by name. The merged text of `long` and the lines for `rows` each have at least 500,000 bytes."""
    sheet = {"namespaces": {"m": "https://made.example/2024"}, "concepts": {"m:A": "numeric", "m:T": "text"},
             "dimensions": {"m:Mill": "typed"}}
    texts = {f"{it}": {"value": "Blue" * 650, "dimensions": {"concept": "m:T", "m:Mill": f"{it}"}} for it in range(400)}
    numbers = {f"{it}": {"value": f"{it}", "decimals": 0, "dimensions": {"concept": "m:A", "m:Mill": f"{it}"}}
               for it in range(38_000)}
    made = {"sheet": json.dumps(sheet).encode(), "report": report_of({"a": numbers["7"], "b": texts["7"]}),
            "long": report_of(texts), "rows": report_of(numbers), "cut": report_of(texts)[:-1],
            "events": b"take 1 1\nsend 1\nreceive 2 1\n", "both": b"take 1 1\ntake 2 2\n"}
    return {**made, "bundle": b"\n".join(made[it] for it in ("sheet", "long", "cut")), "written": b"", "empty": b""}


class Scratch:
    """A folder with the program and its input files."""

    def __init__(self, folder):
        self.folder, self.contents = folder, contents()
        os.chmod(folder, 0o755)
        self.program = shutil.copy(PROGRAM, f"{folder}/xbrlmerge")
        for name, content in self.contents.items():
            write(f"{folder}/{name}", content)
        self.whole = {words: self.run(words) for words in WORDS}

    def command(self, words, redirection):
        """Returns the command that runs the program. A shell redirects or closes streams: `subprocess` cannot close them."""
        given = "" if words or "<" in redirection else "<bundle"
        return ["sh", "-c", f'exec "$@" {given} {redirection}', "sh", self.program, *words.split()]

    def run(self, words, redirection="", around=(), limit=LIMIT, **how):
        command = [*around, *self.command(words, redirection)]
        done = subprocess.run(command, cwd=self.folder, stdin=subprocess.DEVNULL, capture_output=True, timeout=limit, **how)
        return Ran(done.returncode, done.stdout, done.stderr.decode(errors="replace"))


@pytest.fixture(scope="module")
def folder():
    with tempfile.TemporaryDirectory(prefix="devices-") as made:
        yield Scratch(made)


@pytest.fixture
def scratch(folder):
    """The folder of all tests. No input file may change."""
    yield folder
    assert not [it for it, content in folder.contents.items() if content != bytes_of(f"{folder.folder}/{it}")]


each_words = pytest.mark.parametrize("words", WORDS)


@each_words
def test_good_devices(scratch, words):
    ran = scratch.whole[words]
    assert (ran.status, ran.err) == WORDS[words][0] and (len(ran.out) >= 500_000) == (words in LONG)


@each_words
@pytest.mark.parametrize("case", (*STOPS_OUTPUT, *STOPS_ERRORS, *STOPS_BOTH))
def test_outputs_fail(scratch, words, case):
    ends, stopped = WORDS[words]
    ran = scratch.run(words, {**STOPS_OUTPUT, **STOPS_ERRORS, **STOPS_BOTH}[case])
    if case in STOPS_ERRORS:
        assert ran == (ends[0], scratch.whole[words].out, "")
    else:
        assert ran == (stopped[0], b"", stopped[1] if case in STOPS_OUTPUT else "")


@each_words
@pytest.mark.parametrize("case", STOPS_INPUT)
def test_input_fails(scratch, words, case):
    """Only the command line without arguments reads standard input."""
    ran, ends = scratch.run(words, STOPS_INPUT[case]), WORDS[words][0]
    assert ran == ((ends[0], scratch.whole[words].out, ends[1]) if words else (3, b"", "file -: cannot be read\n"))


def waiting(pipe):
    """Returns the number of bytes waiting in a pipe."""
    return int.from_bytes(fcntl.ioctl(pipe, termios.FIONREAD, bytes(4)), sys.byteorder)


def take_five(child, reader):
    """Reads 5 bytes, waits until the pipe is full, the program has ended or LIMIT seconds have passed, and closes the pipe.
    Returns the 5 bytes, and the number of bytes that the program had written to the pipe."""
    front, end = b"", time.monotonic() + LIMIT
    while len(front) < 5 and (more := os.read(reader, 5 - len(front))):
        front += more
    size = fcntl.fcntl(reader, PIPE_SIZE)
    while len(front) + waiting(reader) < size and child.poll() is None and time.monotonic() < end:
        time.sleep(0.002)
    taken = len(front) + waiting(reader)
    os.close(reader)
    return front, taken


def take_late(child, reader):
    """Waits until the program ends, and then reads the pipe. Returns its bytes and their number."""
    child.wait(LIMIT)
    with open(reader, "rb") as file:
        front = file.read()
    return front, len(front)


def run_with_pipe(scratch, words, take, waits):
    """Runs the program with a pipe as standard output. Without `take`, the reading end is closed first. Without `waits`, the
    pipe does not block. Returns the result with the bytes that were read, and the number of bytes that the pipe accepted."""
    reader, writer = os.pipe()
    os.set_blocking(writer, waits)
    if not take:
        os.close(reader)
    with tempfile.TemporaryFile() as lines:
        child = subprocess.Popen(scratch.command(words, ""), cwd=scratch.folder, stdin=subprocess.DEVNULL, stdout=writer, stderr=lines)
        os.close(writer)
        front, taken = take(child, reader) if take else (b"", 0)
        status = child.wait(LIMIT)
        lines.seek(0)
        return Ran(status, front, lines.read().decode(errors="replace")), taken


@each_words
def test_pipes(scratch, words):
    """One pipe is closed at the start, one after 5 bytes, and one that does not block is read only after the program ends."""
    ends, stopped = WORDS[words]
    whole = scratch.whole[words].out
    ran, _ = run_with_pipe(scratch, words, None, True)
    assert (ran.status, ran.err) == stopped
    for take, waits in ((take_five, True), (take_late, False)):
        ran, taken = run_with_pipe(scratch, words, take, waits)
        assert (ran.status, ran.err) == ((3, f"device: {taken} bytes written\n") if words in LONG else ends), take
        assert whole.startswith(ran.out) and (0 < taken < len(whole) if words in LONG else taken == len(whole)), take


@contextlib.contextmanager
def made(scratch, kind, name):
    """Makes the file `strange`, except for the kind `missing`, and removes it at the end. A process writes to a FIFO."""
    strange, content, writer = f"{scratch.folder}/strange", scratch.contents[name], None
    if kind == "a folder":
        os.mkdir(strange)
    elif kind == "without permission":
        os.close(os.open(strange, os.O_CREAT, 0))
    elif kind == "/dev/null":
        os.symlink("/dev/null", strange)
    elif kind == "a link to nothing":
        os.symlink("nothing", strange)
    elif kind == "a socket":
        with socket.socket(socket.AF_UNIX) as opened:
            opened.bind(strange)
    elif kind.startswith("endless"):
        os.symlink("/dev/zero", strange)
    elif kind.startswith("a FIFO"):
        os.mkfifo(strange)
        length = {"nothing": 0, "one half": len(content) // 2, "all": len(content)}[kind.removeprefix("a FIFO of ")]
        writer = subprocess.Popen(["sh", "-c", f"exec head -c {length} {name} >strange"], cwd=scratch.folder)
    try:
        yield
    finally:
        if writer:
            writer.kill()
            writer.wait()
        if kind != "missing":
            (os.rmdir if kind == "a folder" else os.remove)(strange)


def run_strange(scratch, kind, words):
    """Runs the program on the file `strange`. Without arguments, the program reads an endless standard input instead."""
    given = "" if words else "</dev/zero"
    if kind == "endless, little memory":
        return scratch.run(words, given, ("sh", "-c", f'ulimit -v {LITTLE}; exec "$@"', "sh"), ENDLESS_LIMIT)
    if kind == "endless":
        return scratch.run(words, given, limit=ENDLESS_LIMIT)
    if kind == "without permission" and os.geteuid() == 0:
        return scratch.run(words, user=NOBODY, group=NOBODY, extra_groups=[])
    return scratch.run(words)


@pytest.mark.parametrize("name, words", [(name, words) for name, listed in PLACES.items() for words in listed])
@pytest.mark.parametrize("kind", FILES)
def test_files(scratch, kind, name, words):
    """The sheet, the events or a report is a file of this kind. If status 3 is expected, the output must be empty. Otherwise it must
    equal the output for a regular file of the same content. Half a report is compared with an empty report, since the program refuses
    both."""
    if kind == "endless" and (free_memory() < MUCH or words != PLACES[name][0]):
        pytest.skip(f"endless files without a limit on memory need {MUCH:,} kB, and are read by one command each")
    ends = FILES[kind][[*PLACES].index(name)]
    with made(scratch, kind, name):
        ran = run_strange(scratch, kind, words)
    plain = "empty" if kind in ("/dev/null", "a FIFO of nothing", "a FIFO of one half") else name
    out = b"" if ends[0] == 3 else scratch.run(words.replace("strange", plain)).out
    assert ran == (ends[0], out, ends[1])


@pytest.mark.parametrize("kind", [kind for kind in FILES if kind.startswith("endless")])
def test_endless_input(scratch, kind):
    if kind == "endless" and free_memory() < MUCH:
        pytest.skip(f"it needs {MUCH:,} kB of memory")
    ends = FILES[kind][0]
    assert run_strange(scratch, kind, "") == (3, b"", ends[1].replace("strange", "-"))


def expect_second(ran, cause):
    """Expects status 3 or 1 with a first line, which is tested elsewhere, and this second line."""
    assert ran.status in (1, 3) and ran.out == b"" and ran.err.splitlines()[1:] == [cause], ran


@pytest.mark.parametrize("words, place", (("check --verbose --sheet sheet strange", 0), ("check --verbose --sheet sheet report -o strange", 1)))
@pytest.mark.parametrize("kind", CAUSES)
def test_causes(scratch, kind, words, place):
    """Reading or writing fails with --verbose. A second line must state why."""
    if not CAUSES[kind][place]:
        pytest.skip("such an output can be written")
    with made(scratch, kind, "report"):
        ran = run_strange(scratch, kind, words)
    expect_second(ran, CAUSES[kind][place])


@pytest.mark.parametrize("words", VERBOSE)
def test_causes_with_verbose_and_on_a_terminal(scratch, words):
    expect_second(scratch.run(f"{words} --verbose"), VERBOSE[words])
    expect_second(run_on_terminal(scratch, words), VERBOSE[words])


def run_on_terminal(scratch, words):
    """Runs the program with a terminal as standard error."""
    outer, inner = os.openpty()
    with open(outer, "rb", buffering=0) as shown:
        done = subprocess.run(scratch.command(words, ""), cwd=scratch.folder, stdin=subprocess.DEVNULL, stdout=subprocess.PIPE,
                              stderr=inner, timeout=LIMIT)
        os.close(inner)
        lines = b""
        try:
            while more := shown.read(4096):
                lines += more
        except OSError:  # the program has closed the terminal
            pass
    return Ran(done.returncode, done.stdout, lines.decode(errors="replace").replace("\r\n", "\n"))


@pytest.mark.parametrize("content, kind", TAXONOMIES.items())
def test_a_taxonomy_as_the_sheet(scratch, content, kind):
    """On a terminal, a second line says how to make a sheet from it."""
    write(f"{scratch.folder}/taxonomy", content)
    words = "merge --sheet taxonomy report"
    assert scratch.run(words) == (3, b"", BAD_SHEET[1])
    hint = f"The file looks like {kind}: run `tools/make_sheet FILE >sheet.json`.\n"
    assert run_on_terminal(scratch, words) == (3, b"", BAD_SHEET[1] + hint)
