"""Compares folds, which merge many reports in groups, with one run of the program. A node of a fold merges one group. Drawn
reports ($REPORTS, 200) overlap, agree, contradict each other, or are refused. examples/fold/Makefile with three numbers of
branches and examples/fold/fold_dask.py with three numbers of files per node must give the bytes of one run, with which
tools/recheck must agree. Late, changed and removed reports, odd names, and nodes that fail or are stopped are tested, too. If
Dask is not installed, a small module runs the nodes in turn. With python3-distributed, three processes of a cluster run them: a
node that fails ends the fold with its message, and a killed process changes no byte. Nodes call the library if there is a
lib/libxbrlmerge.so, which ./build --library makes."""
import json
import os
import random
import shutil
import signal
import subprocess
import sys
import time

import pytest

from running import PROGRAM, SEED, TOP, write
from strategies import simple_report, simple_sheet
from support import bytes_of

FOLD = os.path.join(TOP, "examples", "fold")
RECHECK = os.path.join(TOP, "tools", "recheck.py")
LIBRARY = os.path.exists(os.path.join(TOP, "lib", "libxbrlmerge.so"))
COUNT, JOBS = (int(os.environ.get(name, usual)) for name, usual in (("REPORTS", 200), ("JOBS", 2)))
WIDTHS = (3, 14, 60)


@pytest.fixture(scope="module", autouse=True)
def folder(tmp_path_factory):
    """The folder of all tests, which run in their order: the sheet, and the reports in the folder `in`."""
    os.chdir(tmp_path_factory.mktemp("fold"))
    os.environ["XBRLMERGE"] = PROGRAM  # for the Makefile too
    write("sheet.json", json.dumps(simple_sheet()))
    for number in range(COUNT):
        chance = random.Random(f"{SEED} {number}")
        write(f"in/{number // 4:03}.{number % 4}.json", simple_report(chance, 1 + number // 25 % 3 if number % 25 == 7 else 0))
    yield
    os.chdir(TOP)


@pytest.fixture(scope="module")
def wanted(folder):
    made = one_run()
    assert len(made[1]) == len(range(7, COUNT, 25))
    return made


def run(*words, **more):
    return subprocess.run(words, capture_output=True, text=True, **more)


def paths():
    return [os.path.join("in", name) for name in sorted(os.listdir("in"))]


def one_run():
    """Returns the merged text that one run makes from all files in the folder `in`, and the names of the refused files."""
    files = paths()
    done = subprocess.run([os.environ["XBRLMERGE"], "merge", "--sheet", "sheet.json", "--", *files], capture_output=True)
    refused = [files[int(line.split(":")[0].split()[1]) - 1] for line in done.stderr.decode().splitlines()]
    assert done.returncode == (1 if refused else 0), f"one run ended with {done.returncode}"
    return done.stdout, sorted(refused)


def refused_in(lines):
    return sorted(line.rpartition(" in ")[2].replace("\\", "") for line in lines.splitlines() if line.startswith("report "))


def make(width):
    words = "SHEET=sheet.json", "REPORTS=in", f"OUT=out{width}.json", f"WIDTH={width}"
    return run("make", "-s", "-j", str(JOBS), "-f", os.path.join(FOLD, "Makefile"), *words)


def compare(case, done, out, wanted):
    is_same = done.returncode in (0, 1) and bytes_of(out) == wanted[0]
    assert is_same, f"{case}: wrong bytes, or status {done.returncode}: {done.stderr[-300:]}"
    assert refused_in(done.stderr) == wanted[1], f"{case}: wrong files are refused"
    again = run(sys.executable, RECHECK, "--sheet=sheet.json", f"--merged={out}", "--", *paths())
    assert again.returncode == 0, f"{case}: tools/recheck ends with {again.returncode}: {again.stdout}{again.stderr}"


@pytest.fixture(scope="module")
def dask(folder):
    """The command of fold_dask.py. If Dask is not installed, a substitute for it is written to the working folder."""
    pythons = (sys.executable, "/usr/bin/python3")  # the system's Python has the packages of the system
    with_dask = next((python for python in pythons if shutil.which(python) and run(python, "-c", "import dask").returncode == 0), None)
    write("stand_in/dask.py", "def delayed(work):\n    return work\n\n\ndef compute(*nodes):\n    return nodes\n")
    module = os.path.join(TOP, "python")
    os.environ["PYTHONPATH"] = os.pathsep.join([module] if with_dask else [module, os.path.abspath("stand_in")])
    os.environ["PYTHONDONTWRITEBYTECODE"] = "1"
    return [with_dask or sys.executable, os.path.join(FOLD, "fold_dask.py")]


@pytest.mark.parametrize("width", ("0", "-1", "two"))
def test_widths_that_are_refused(dask, width):
    assert run(*dask, "sheet.json", "dask.json", width, *paths()).returncode == 2


@pytest.mark.parametrize("width", WIDTHS)
def test_make(width, wanted):
    compare("make", make(width), f"out{width}.json", wanted)


@pytest.mark.parametrize("width", WIDTHS)
def test_dask(dask, width, wanted):
    """Each node is a process or, if the library is built, a call of the library."""
    for options, out in [([], "dask.json")] + [(["--calls"], "calls.json")] * LIBRARY:
        compare("Dask", run(*dask, *options, "sheet.json", out, str(width), *paths()), out, wanted)


CLUSTER = """
import sys
from dask.distributed import LocalCluster
if __name__ == "__main__":
    with LocalCluster(n_workers=3, threads_per_worker=1, dashboard_address=None) as cluster:
        for _ in sys.stdin:
            print(cluster.scheduler_address, *(worker.pid for worker in cluster.workers.values()), flush=True)
"""


def test_cluster(dask, wanted):
    """Runs folds on three processes. Each node waits, so that one can be killed while it runs."""
    if run(dask[0], "-c", "import dask.distributed").returncode:
        pytest.skip("dask.distributed is not installed")
    write("cluster.py", CLUSTER)
    write("later", f"#!/bin/sh\nsleep 0.3\nexec {os.environ['XBRLMERGE']} \"$@\"\n")
    os.chmod("later", 0o755)
    env = {**os.environ, "XBRLMERGE": os.path.abspath("later")}
    cluster = subprocess.Popen([dask[0], "cluster.py"], stdin=subprocess.PIPE, stdout=subprocess.PIPE, stderr=subprocess.DEVNULL, text=True, env=env)

    def asked():
        cluster.stdin.write("\n")
        cluster.stdin.flush()
        return cluster.stdout.readline().split()

    address, *workers = asked()
    words = [*dask, "--scheduler", address, os.path.abspath("sheet.json")]
    files = [os.path.abspath(path) for path in paths()]
    start = time.monotonic()
    failed = run(*words, os.path.abspath("failed.json"), "2", *files[:4], os.path.abspath("in/none.json"))
    assert failed.returncode == 1 and "none.json: cannot be read" in failed.stderr and "Traceback" not in failed.stderr, f"a failed node: {failed.stderr!r}"
    assert time.monotonic() - start < 10 and asked()[1:] == workers, "a failed node takes over 10 seconds, or ends a process"
    killed = subprocess.Popen([*words, os.path.abspath("cluster.json"), str(WIDTHS[0]), *files], stderr=subprocess.PIPE, text=True)
    time.sleep(3)
    os.kill(int(workers[0]), signal.SIGKILL)
    lines = killed.communicate()[1].replace(os.path.abspath(".") + "/", "")
    compare("a killed process", subprocess.CompletedProcess([], killed.returncode, "", lines), "cluster.json", wanted)
    cluster.stdin.close()
    cluster.wait()


def made_again(width, case, branches):
    """Runs make again. It must rebuild exactly this many branches, and its text must equal the text of one run."""
    done = make(width)
    compare(case, done, f"out{width}.json", one_run())
    assert done.stdout.count("merging branch") == branches, f"{case}: made {done.stdout.split()}"


def test_late_reports(wanted):
    width = WIDTHS[1]
    compare("make", make(width), f"out{width}.json", wanted)
    made_again(width, "no new report", 0)
    lists = run("grep", "-h", "-r", "--include=*.list", "in/", f"out{width}.json.room").stdout
    names = [line.split("/")[1].split(".")[0] for line in lists.splitlines()]
    changes = sum(one != other for one, other in zip(names, names[1:]))
    assert len(names) == COUNT and changes == len(set(names)) - 1, "reports with similar names are in several branches"
    write("in/late one.json", simple_report(random.Random("late"), 0))
    os.utime("in/late one.json", (1, 1))  # an old time, so that make cannot find the new report by its time
    made_again(width, "a late report", 1)
    write("in/late one.json", simple_report(random.Random("later"), 1))
    made_again(width, "a changed report", 1)
    os.remove("in/late one.json")
    made_again(width, "a removed report", 1)
    made_again(width, "still no new report", 0)


def test_nodes():
    """A fold must fail if the text of a branch is broken."""
    assert make(WIDTHS[0]).returncode == 0
    node, out = os.path.join(FOLD, "merge_files"), "node.json"
    assert run(node, "sheet.json", out, *paths()[:9]).returncode in (0, 1) and os.path.exists(out), "a node does not make its text"
    wrong = {"sheet": (paths()[0], out, paths()[0]), "file": ("sheet.json", out, "in/none.json"), "usage": ("sheet.json",)}
    for case, words in wrong.items():
        before = set(os.listdir("."))
        assert run(node, *words).returncode == 3 and set(os.listdir(".")) <= before, f"a node with a wrong {case}"
    assert not os.path.exists(out), "a node leaves the text of an earlier run"
    text = f"out{WIDTHS[0]}.json.room/branch0.json"
    write(text, bytes_of(text).decode()[:-9])
    assert make(WIDTHS[0]).returncode == 2 and not os.path.exists(f"out{WIDTHS[0]}.json"), "a broken text of a branch is folded"


def test_odd_names():
    """Checks that a node reads files with any names, and leaves no file except its output."""
    node, odd = os.path.join(FOLD, "merge_files"), b"in odd/\xff -\n.json"
    os.makedirs(b"in odd/\xfe")
    for name, source in ((odd, paths()[0]), (b"in odd/\xfe/sheet", "sheet.json"), (b"in odd/refused\xff", "in/001.3.json")):
        shutil.copy(source, name)
    plain = run(node, "sheet.json", "plain.json", *paths()[:8])
    words = b"in odd/\xfe/sheet", b"in odd/\xfe/out", odd, *paths()[1:7], b"in odd/refused\xff"
    done = run(node, *words)
    assert plain.returncode == done.returncode == 1 and bytes_of("plain.json") == bytes_of(words[1]), "names that are not UTF-8 change the text"
    assert done.stderr.endswith(r" in $'in odd/refused\377'" + "\n"), f"the refused name is {done.stderr!r}"
    lost = run(node, "sheet.json", "plain.json", b"in odd/none\xff")
    assert (lost.returncode, lost.stderr) == (3, r"file $'in odd/none\377': cannot be read" + "\n"), f"a missing name: {lost.stderr!r}"
    assert sorted(os.listdir(b"in odd/\xfe")) == [b"out", b"sheet"], "a node leaves files"


def test_stopped_nodes():
    """Checks that a stopped node stops its program, leaves no files, and has no process number in the name of a file."""
    write("slow", "#!/bin/sh\nls -A >names\necho $$ >number.part\nmv number.part number\nexec sleep 60\n")
    os.chmod("slow", 0o755)
    for kind in (signal.SIGTERM, signal.SIGHUP, signal.SIGINT):
        write("stopped.json", "of a run before")
        words = os.path.join(FOLD, "merge_files"), "sheet.json", "stopped.json", *paths()[:2]
        node = subprocess.Popen(words, env={**os.environ, "XBRLMERGE": os.path.abspath("slow")})
        while not os.path.exists("number"):
            time.sleep(0.05)
        number, names = int(bytes_of("number")), bytes_of("names").decode()
        node.send_signal(kind)
        assert node.wait() == 3 and not os.path.exists("stopped.json"), f"{kind.name}: status {node.returncode}"
        assert not os.path.exists(f"/proc/{number}"), f"{kind.name}: the program still runs"
        assert not [it for it in os.listdir(".") if it.startswith(".merge_files")], f"{kind.name}: files are left"
        assert str(node.pid) not in names, f"{kind.name}: a name is predictable: {names}"
        os.remove("number")
