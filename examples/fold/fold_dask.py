#!/usr/bin/env python3
"""Merges reports in two rounds on Dask: examples/fold/fold_dask.py [--calls] [--scheduler ADDRESS] SHEET OUT WIDTH FILE ..

Each step of the first round merges up to WIDTH files, and the last step merges their results. Without --calls, a step is a
process that writes to a file. With --calls, a step is a call of the Python module xbrlmerge, and its result goes to the last
step as bytes. --scheduler runs the steps on the cluster with this address; all its machines share SHEET and the files. Without
--calls, they also share OUT and examples/fold, TMPDIR names a folder that all share, and each has the program. With --calls,
each has the module.
Status 0: OUT contains every report. 1: reports were refused (standard error shows them) and OUT contains the others, or a step
failed. If a step failed, do not use OUT: it may be missing, old or incomplete. With --calls, OUT is unchanged. 2: an argument
is missing, or WIDTH is not a whole number of at least 1.
"""
import argparse
import os
import shlex
import subprocess
import sys
import tempfile

import dask

NODE = os.path.join(os.path.dirname(os.path.abspath(__file__)), "merge_files")


class StepFailed(Exception):
    """A step failed. On a cluster, an exception reaches the caller; an exit would end the worker."""


@dask.delayed
def merge(sheet, out, files, most, _after=()):
    """Merges files after the earlier steps, and returns the lines of the program. `most` is the highest allowed status: 1 in the
    first round, where reports may be refused, and 0 in the last step, because the output of a step is not refused."""
    step = subprocess.run([NODE, sheet, out, *files], stderr=subprocess.PIPE)
    lines = step.stderr.decode(errors="backslashreplace")
    if not 0 <= step.returncode <= most:
        raise StepFailed(f"{lines}{out} is not made: status {step.returncode}")
    return lines


def fold(sheet, out, width, files):
    with tempfile.TemporaryDirectory() as room:
        parts = {f"{room}/{at}.json": files[at : at + width] for at in range(0, len(files), width)}
        lower = [merge(sheet, part, parts[part], 1) for part in parts]
        return dask.compute(*lower, merge(sheet, out, list(parts), 0, lower))


@dask.delayed
def merge_here(sheet, files):
    """Merges files with a call, and returns the merged report, with a line for each refused file."""
    import xbrlmerge

    merged = xbrlmerge.merge(sheet, files)
    return merged.text, [f"{it} in {shlex.quote(files[it.report - 1])}\n" for it in merged.refusals]


@dask.delayed
def join_here(sheet, lower):
    """Merges the results of the first round with a call. A merged report is never refused under the same sheet."""
    import xbrlmerge

    merged = xbrlmerge.merge(sheet, [text for text, _ in lower])
    if merged.refusals:
        raise StepFailed(f"the result of a step is refused: {merged.refusals[0]}")
    return merged.text, [line for _, lines in lower for line in lines]


def fold_by_calls(sheet, out, width, files):
    lower = [merge_here(sheet, files[at : at + width]) for at in range(0, len(files), width)]
    ((text, lines),) = dask.compute(join_here(sheet, lower))
    with tempfile.TemporaryDirectory(prefix=".fold_dask.", dir=os.path.dirname(out) or ".") as room:
        part = os.path.join(room, "text")
        with open(part, "wb") as file:
            file.write(text)
        os.replace(part, out)
    return lines


def arguments():
    parser = argparse.ArgumentParser(description=__doc__, formatter_class=argparse.RawDescriptionHelpFormatter)
    parser.add_argument("--calls", action="store_true")
    parser.add_argument("--scheduler", metavar="ADDRESS")
    for name in ("sheet", "out"):
        parser.add_argument(name)
    parser.add_argument("width", type=int)
    parser.add_argument("file", nargs="+")
    words = parser.parse_args()
    if words.width < 1:
        parser.error("WIDTH must be at least 1")
    return words


def main():
    words = arguments()
    try:
        if words.scheduler:
            from dask.distributed import Client

            Client(words.scheduler, timeout=10)
        lines = (fold_by_calls if words.calls else fold)(words.sheet, words.out, words.width, words.file)
    except Exception as failed:  # also what Dask raises if no worker is left
        print(f"{failed}", file=sys.stderr)
        return 1
    sys.stderr.write("".join(lines))
    return int(any(lines))


if __name__ == "__main__":
    sys.exit(main())
