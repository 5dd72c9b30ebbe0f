"""Functions that the scripts of tests/ share: reading files, and finding the program."""
import csv
import glob
import importlib.machinery
import importlib.util
import os
import sys

TOP = os.path.dirname(os.path.dirname(os.path.abspath(__file__)))
# scripts import modules of the tools, modules beside the unit tests, and packing/
sys.path[:0] = [f"{TOP}/tools", f"{TOP}/tests/gate/unit", TOP]
BUILT = ("xbrlmerge", "crates/xbrlmerge/out/xbrlmerge")


def content(path):
    """Returns the text of a file. A relative path starts at the top of the repository."""
    with open(os.path.join(TOP, path), encoding="utf-8") as file:
        return file.read()


def bytes_of(path):
    """Returns the bytes of a file. A relative path starts at the working folder."""
    with open(path, "rb") as file:
        return file.read()


def write(path, text):
    """Writes a text, or bytes, to a file in folders that are made. Returns the path."""
    os.makedirs(os.path.dirname(path) or ".", exist_ok=True)
    with open(path, "wb") as file:
        file.write(text if isinstance(text, bytes) else text.encode())
    return path


def crate_files(folder, ending, crate="*"):
    """Returns the paths of files in a folder of a crate, or of all crates, and below it. They start at the top of the repository."""
    found = glob.glob(os.path.join(TOP, "crates", crate, folder, "**", f"*.{ending}"), recursive=True)
    return sorted(os.path.relpath(path, TOP) for path in found)


def status_of(name, wrong, *good):
    """Prints a line of a script for each thing that is wrong, or the good ones if there is none. Returns the script's status."""
    for line in wrong or good:
        print(f"{name}: {line}", file=sys.stderr)
    return 1 if wrong else 0


def table_in(path):
    """Returns the lines of a table of tools/contradictions, each as a dict."""
    with open(path, encoding="utf-8-sig", newline="") as file:
        return list(csv.DictReader(file))


def script(path):
    """Returns a Python script, which has no ending, as a module. A relative path starts at the top of the repository."""
    loader = importlib.machinery.SourceFileLoader(f"{os.path.basename(path)}_script", os.path.join(TOP, path))
    sys.path.append(os.path.dirname(loader.path))  # for the modules beside the script
    module = importlib.util.module_from_spec(importlib.util.spec_from_loader(loader.name, loader))
    loader.exec_module(module)
    return module


def built_program(named=None):
    """Returns the path of the program: `named` if given, otherwise $XBRLMERGE if set, otherwise the built program. If there is
    no such executable file, the function prints a line and ends the process with status 2."""
    given = named or os.environ.get("XBRLMERGE")
    paths = [given] if given else [os.path.join(TOP, path) for path in BUILT]
    for path in paths:
        if os.path.isfile(path) and os.access(path, os.X_OK):
            return os.path.abspath(path)
    print(f"{os.path.relpath(sys.argv[0], TOP)}: there is no program; ./build makes it", file=sys.stderr)
    sys.exit(2)
