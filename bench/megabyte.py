"""Measures programs. Runs each shape of bench/shaped.py once at a size of about a megabyte, and measures processor seconds and peak memory."""
import json
import multiprocessing
import os
import re
import resource
import subprocess
import tempfile

from shaped import SENT, SHAPES, expected

MEASURED = {**SHAPES, **SENT}
MEGABYTE = 1_000_000
NEAR = 50_000
TRIES = 20
MOST_SECONDS = 2
MOST_KILOBYTES = 100_000
# a run is ended at these bounds
SECONDS_LIMIT = 60
BYTES_LIMIT = 2_000_000_000


def text_of(content):
    return content if isinstance(content, str) else json.dumps(content, separators=(",", ":"))


def write_files(files, folder):
    os.makedirs(folder, exist_ok=True)
    for name, content in files.items():
        with open(os.path.join(folder, name), "w", encoding="utf-8") as file:
            file.write(text_of(content))


def bytes_of(files):
    return sum(len(text_of(content).encode()) for content in files.values())


def megabyte_of(shape):
    """The arguments and files of a shape, at a size at which the files have about a megabyte."""
    if shape.megabyte:
        return shape.make(*shape.megabyte)
    (before, fewer), size = (0, bytes_of(shape.make(1)[1])), shape.size
    for _ in range(TRIES):
        words, files = shape.make(size)
        found = bytes_of(files)
        if abs(found - MEGABYTE) <= NEAR or found == fewer:
            break
        slope = (found - fewer) / (size - before)
        before, fewer = size, found
        size = max(1, round(size + (MEGABYTE - found) / slope))
    return words, files


def make(name, folder):
    words, files = megabyte_of(MEASURED[name])
    write_files(files, folder)
    return words, bytes_of(files)


def in_child(work, *words):
    """Runs a function in another process: a program's peak memory includes that of the process that starts it."""
    with multiprocessing.get_context("fork").Pool(1) as pool:
        return pool.apply(work, words)


def limit():
    resource.setrlimit(resource.RLIMIT_CPU, (SECONDS_LIMIT, SECONDS_LIMIT))
    resource.setrlimit(resource.RLIMIT_AS, (BYTES_LIMIT, BYTES_LIMIT))


class Failure(Exception):
    """A measurement failed, or a shape, a program or an argument is wrong."""


def ended(command, folder, given=subprocess.DEVNULL, **more):
    """Runs a command in a folder. Returns its status and the resources that it used."""
    child = subprocess.Popen(command, cwd=folder, stdin=given, **{"stdout": subprocess.DEVNULL, "stderr": subprocess.DEVNULL, **more})
    _, status, used = os.wait4(child.pid, 0)
    child.returncode = os.waitstatus_to_exitcode(status)
    return child.returncode, used


def run(command, folder, status=0, given=subprocess.DEVNULL, taken=subprocess.DEVNULL):
    """Runs a command that must end with this status. Returns its standard error and the resources that it used. Errors: Failure."""
    with tempfile.TemporaryFile() as errors:
        found, used = ended(command, folder, given, stdout=taken, stderr=errors)
        errors.seek(0)
        said = errors.read().decode(errors="replace")
    if found != status:
        raise Failure(f"{' '.join(command)[:200]} in {folder} ended with status {found}: {said[-400:]}")
    return said, used


def instructions(command, folder, status=0, given=subprocess.DEVNULL):
    counter = ["valgrind", "--tool=callgrind", "--callgrind-out-file=/dev/null", "--"]
    counted = re.search(r"Collected : (\d+)", run([*counter, *command], folder, status, given)[0])
    if counted is None:
        raise Failure("valgrind counted nothing")
    return int(counted[1])


def measure(command, folder):
    """Returns processor seconds, peak memory in kilobytes, and whether the command ended as it must."""
    status, used = ended(command, folder, preexec_fn=limit)
    return used.ru_utime + used.ru_stime, used.ru_maxrss, status == expected(command)


def too_costly(shapes, program, folder):
    """Prints a table with the cost of each shape, and returns the names of those that cost too much without being listed."""
    print("| Shape | Bytes | Seconds | Memory | |\n|---|--:|--:|--:|---|", flush=True)
    costly = []
    for shape in shapes:
        name, place = shape.replace("_", " "), os.path.join(folder, shape)
        words, size = in_child(make, shape, place)
        seconds, kilobytes, done = measure([program, *words], place)
        is_costly = seconds > MOST_SECONDS or kilobytes > MOST_KILOBYTES or not done
        note = ("too much, listed" if MEASURED[shape].is_costly else "too much") if is_costly else ""
        print(f"| {name} | {size:,} | {seconds:.2f} | {kilobytes / 1e3:,.0f} MB | {note if done else 'ended early, ' + note} |", flush=True)
        if is_costly and not MEASURED[shape].is_costly:
            costly.append(name)
    return costly
