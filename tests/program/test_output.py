"""Checks `--output` when a call that writes the file fails, and when the run is killed at that call. The module needs cc. The
file must always be the old one or the complete new one, and only killed runs may leave other files. Outputs that cannot be
replaced, such as links, are tested too."""
import os
import shutil
import stat
import subprocess

import pytest

from running import PROGRAM, TOP, write
from support import bytes_of

EXAMPLES = os.path.join(TOP, "examples")
SHEET, ONE, TWO = (os.path.join(EXAMPLES, f"{it}.json") for it in ("sheet", "issuer", "statfeed"))
OLD = b"what stood here before\n"
COMMANDS = {
    "merge": ["merge", "--sheet", SHEET, ONE, TWO],
    "verdicts": ["verdicts", "--sheet", SHEET, ONE, TWO],
    "sources": ["sources", "--sheet", SHEET, ONE, TWO],
    "check": ["check", "--sheet", SHEET, ONE],
    "explain": ["explain", "--sheet", SHEET, ONE, TWO],
    "replay": ["replay", "--sheet", SHEET, "--replicas", "2", "--events", "../events", ONE],
}
UNWRITTEN = b"file new: cannot be written\n"


@pytest.fixture(scope="module")
def library(tmp_path_factory):
    """The preloaded library, which lists the calls that write files, and lets one fail or kill the run."""
    path = f"{tmp_path_factory.mktemp('calls')}/calls.so"
    subprocess.run(["cc", "-O2", "-shared", "-fPIC", "-o", path, f"{TOP}/tests/program/failing_calls.c", "-ldl"], check=True)
    return path


@pytest.fixture(autouse=True)
def folder(tmp_path, monkeypatch):
    write(f"{tmp_path}/events", b"take 1 1\nsend 1\nreceive 2 1\n")
    os.mkdir(tmp_path / "work")
    monkeypatch.chdir(tmp_path / "work")


def empty(old, mode=0o640):
    """Empties the folder, and writes an old file if `old` is true."""
    shutil.rmtree("../work")
    os.mkdir("../work")
    os.chdir("../work")
    if old:
        os.chmod(write("new", OLD), mode)


def run(words, **environment):
    return subprocess.run([PROGRAM, *words], capture_output=True, stdin=subprocess.DEVNULL, env={**os.environ, **environment})


def calls(library, words, **environment):
    """Runs the program with the library. Returns the run, and the names of the calls that write files."""
    write("../log", b"")
    ran = run(words, LD_PRELOAD=library, CALLS_LOG="../log", **environment)
    return ran, bytes_of("../log").decode().split()


def expect(ran, status, errors, content, others=0):
    """Checks how a run ended, the content of the file, and how many other files are left."""
    assert (ran.returncode, ran.stdout, ran.stderr) == (status, b"", errors)
    assert (bytes_of("new") if os.path.exists("new") else None) == content
    assert len([it for it in os.listdir() if it != "new"]) <= others


@pytest.mark.parametrize("old", (True, False), ids=("over an old file", "over no file"))
@pytest.mark.parametrize("name", COMMANDS)
def test_each_call(name, old, library):
    """Each call that writes the file fails in one run; another run is killed at the call."""
    words, before = COMMANDS[name], OLD if old else None
    text = run(words).stdout
    empty(old)
    ran, names = calls(library, [*words, "-o", "new"])
    expect(ran, 0, b"", text)
    assert {"open", "write", "fsync", "rename"} <= set(names)
    assert not old or stat.S_IMODE(os.stat("new").st_mode) == 0o640
    for number in range(1, len(names) + 1):
        empty(old)
        expect(calls(library, [*words, "-o", "new"], FAIL=str(number))[0], 3, UNWRITTEN, before)
        empty(old)
        ran, _ = calls(library, [*words, "-o", "new"], KILL=str(number))
        assert ran.returncode < 0
        expect(ran, ran.returncode, b"", before, 1)


def test_no_other_user_can_open_the_file_before_its_mode_is_set(library):
    words = [*COMMANDS["check"], "-o", "new"]
    empty(True, 0o600)
    _, names = calls(library, words)
    empty(True)
    calls(library, words, KILL=str(names.index("fchmod") + 1))
    assert [stat.S_IMODE(os.stat(it).st_mode) for it in os.listdir() if it != "new"] == [0o600]


@pytest.mark.parametrize("make", (lambda it: os.symlink("../events", it), lambda it: os.symlink("none", it), os.mkdir, os.mkfifo),
                         ids=("a link", "a dangling link", "a folder", "a FIFO"))
def test_outputs_that_cannot_be_replaced(make):
    make("new")
    ran = run([*COMMANDS["merge"], "-o", "new"])
    assert (ran.returncode, ran.stderr, os.listdir()) == (3, UNWRITTEN, ["new"])


@pytest.mark.parametrize("name", ("none/new", "", "/dev/null"))
def test_other_outputs(name):
    empty(True)
    expect(run([*COMMANDS["merge"], "-o", name]), 3, f"file {name}: cannot be written\n".encode(), OLD)


@pytest.mark.parametrize("status, words", ((2, ["--allow", "none"]), (3, ["none"])), ids=("too loose", "no such report"))
def test_runs_that_write_nothing(status, words):
    empty(True)
    ran = run([*COMMANDS["merge"], "-o", "new", *words])
    expect(ran, status, ran.stderr, OLD)


def test_a_new_file_has_no_setuid_setgid_or_sticky_bit():
    empty(True, 0o7755)
    assert run([*COMMANDS["check"], "-o", "new"]).returncode == 0
    assert stat.S_IMODE(os.stat("new").st_mode) == 0o755


def test_files_that_killed_runs_leave_do_not_matter():
    for number in range(1_001):
        write(f".xbrlmerge-{number}", b"")
    expect(run([*COMMANDS["check"], "-o", "new"]), 0, b"", run(COMMANDS["check"]).stdout, 1_001)


def test_a_report_is_also_the_output():
    shutil.copy(ONE, "new")
    text = run(["merge", "--sheet", SHEET, "new", TWO]).stdout
    expect(run(["merge", "--sheet", SHEET, "new", TWO, "-o", "new"]), 0, b"", text)


def test_one_report_is_refused():
    text = run(["merge", "--sheet", SHEET, TWO]).stdout
    expect(run(["merge", "--sheet", SHEET, TWO, "/dev/null", "--output=new"]), 1, b"report 2: 1 NotJson at document\n", text)


def test_a_limit_on_files():
    """A write over the limit fails if SIGXFSZ is ignored."""
    empty(True)
    limited = ["sh", "-c", "trap '' XFSZ; ulimit -f 0; exec \"$0\" \"$@\"", PROGRAM, *COMMANDS["merge"], "-o", "new"]
    expect(subprocess.run(limited, capture_output=True, stdin=subprocess.DEVNULL), 3, UNWRITTEN, OLD)


@pytest.mark.parametrize("link", (None, os.symlink, os.link), ids=("itself", "a symbolic link", "a hard link"))
@pytest.mark.parametrize("command", ("merge", "sources", "explain"))
def test_a_refused_report_stays(command, link):
    empty(True)
    if link:
        link("new", "link")
    expect(run([command, "--sheet", SHEET, TWO, "link" if link else "new", "-o", "new"]), 3, UNWRITTEN, OLD, 1)
