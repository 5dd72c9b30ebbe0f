"""A program in place of `xbrlmerge`. Each command prints the output prepared in the program's folder. The program also records
each command with the names of its reports (of copies, the digests) in the file `log`, and copies the sheet to the file `sheet`.
--version prints a line and records nothing. If they exist, COMMAND.out goes to standard output, and COMMAND.err to standard
error. The status is the number in COMMAND.status, or 0 without this file. If COMMAND.waits exists, the command first prints
`waiting` on standard error, and waits for a minute. The output of `explain` for a list of reports is in explain_all.out. For a
report named `normalised`, `explain` prints only the faults of the document and of facts in the report."""
import hashlib
import json
import os
import sys
import time

FOLDER = os.path.dirname(os.path.abspath(__file__))


def read(name):
    try:
        with open(os.path.join(FOLDER, name), "rb") as file:
            return file.read()
    except FileNotFoundError:
        return b""


def known(name):
    """Returns the name of a report or, for a copy of one, its digest."""
    if not name.startswith(b"copied_input"):
        return name
    with open(name, "rb") as file:
        return hashlib.sha256(file.read()).hexdigest().encode()


def main(command, *words):
    if command == "--version":
        print("xbrlmerge of the tests")
        return 0
    reports = b""
    if "--reports-from" in words:
        with open(words[words.index("--reports-from") + 1], "rb") as file:
            reports = file.read()
    elif "--format" in words:
        reports = words[-1].encode() + b"\0"
    with open(os.path.join(FOLDER, "log"), "ab") as file:
        file.write(command.encode() + b"\0" + b"".join(known(name) + b"\0" for name in reports.split(b"\0")[:-1]) + b"\n")
    with open(words[words.index("--sheet") + 1], "rb") as file, open(os.path.join(FOLDER, "sheet"), "wb") as kept:
        kept.write(file.read())
    if os.path.exists(os.path.join(FOLDER, f"{command}.waits")):
        print("waiting", file=sys.stderr, flush=True)
        time.sleep(60)
    if command == "explain" and "--reports-from" in words:
        command = "explain_all"
    out = read(f"{command}.out")
    if words[-1:] == ("normalised",):
        with open(words[-1], encoding="utf-8") as file:
            facts = json.load(file)["facts"]
        out = b"".join(line for line in out.splitlines(True) if json.loads(line)["identifier"] in (None, *facts))
    sys.stdout.buffer.write(out)
    sys.stdout.flush()
    sys.stderr.buffer.write(read(f"{command}.err"))
    return int(read(f"{command}.status") or 0)


if __name__ == "__main__":
    sys.exit(main(*sys.argv[1:]))
