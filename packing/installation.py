"""Installs files below a prefix, and removes them again. A list below the prefix names what was installed."""
import contextlib
import hashlib
import os
import re
from typing import Iterable, NamedTuple, Optional

from packing.contents import SHARE
from packing.files import RUNS, File, folders_of, put
from whole_files import below

LIST = f"{SHARE}/installed.txt"
LINE = re.compile(r"(?:([0-9a-f]{64})  |(?![0-9a-f]{64}  ))([^/].*?)(/?)")


class Entry(NamedTuple):
    """A file with the digest of its content, or a folder that was created, below the prefix. Lists of old versions have no digest."""

    target: str
    digest: str = ""
    is_folder: bool = False

    def line(self) -> str:
        return f"{self.target}/\n" if self.is_folder else f"{self.digest}  {self.target}\n"


def listed(prefix: str) -> list[Entry]:
    """Returns the entries of the list, or none if there is no list. Errors: OSError with the number of a line that does not name a
    path below the prefix, or names one that leads through a link."""
    entries = []
    try:
        with open(below(prefix, LIST), encoding="utf-8") as file:
            lines = file.read().split("\n")[:-1]
    except FileNotFoundError:
        return []
    for number, line in enumerate(lines, 1):
        found = LINE.fullmatch(line)
        try:
            if not found:
                raise OSError("it is not a path")
            below(prefix, found[2])
        except OSError as fault:
            raise OSError(f"{os.path.join(prefix, LIST)}, line {number}: {fault}") from None
        entries.append(Entry(found[2], found[1] or "", bool(found[3])))
    return entries


def install(files: Iterable[File], prefix: str) -> list[str]:
    """Installs files, removes those that an earlier version installed besides, and returns the paths. Errors: OSError."""
    files, before = list(files), listed(prefix)
    for file in files:
        below(prefix, file.target)
    new = [Entry(file.target, hashlib.sha256(file.content).hexdigest()) for file in files]
    folders = [Entry(it, is_folder=True) for it in folders_of([*files, File(LIST, b"")])]
    created = [it for it in folders if not os.path.isdir(os.path.join(prefix, it.target))]
    lines = [it for it in folders if it in before or it in created]
    # the list is written first, so that what a failed run has installed can be removed, too
    write_list([*before, *new, *lines], prefix)
    paths = [put(file, prefix) for file in files]
    for it in created:
        os.chmod(os.path.join(prefix, it.target), RUNS)  # whatever the umask is, as for the files
    targets = {it.target for it in (*new, *folders)}
    remove([it for it in before if it.target not in targets], prefix)
    write_list([*new, *lines], prefix)
    return paths


def write_list(entries: Iterable[Entry], prefix: str) -> None:
    put(File(LIST, "".join(it.line() for it in dict.fromkeys(entries)).encode()), prefix)


def uninstall(prefix: str) -> list[str]:
    """Removes what was installed, and returns the paths. Files that changed since then stay, and folders that contain other files.
    Errors: OSError, also if nothing was installed below the prefix."""
    entries = listed(prefix)
    if not entries:
        raise OSError(f"nothing is installed there: {os.path.join(prefix, LIST)} is missing")
    if not all(it.digest or it.is_folder for it in entries):
        raise OSError("an older version was installed there: install this version first")
    removed = remove([it for it in entries if not it.is_folder], prefix)
    os.unlink(os.path.join(prefix, LIST))
    return removed + remove([it for it in entries if it.is_folder], prefix)


def remove(entries: Iterable[Entry], prefix: str) -> list[str]:
    """Removes installed files, and then empty folders, each before the one that contains it. Returns the removed paths."""
    removed = []
    for it in sorted(entries, key=lambda it: (it.is_folder, -it.target.count("/"), it)):
        path = below(prefix, it.target)
        if it.is_folder:
            with contextlib.suppress(OSError):  # it contains other files
                os.rmdir(path)
                removed.append(path)
        elif digest_of(path) == it.digest:
            os.unlink(path)
            removed.append(path)
    return removed


def digest_of(path: str) -> Optional[str]:
    """Returns the digest of a file's content, or of the name to which a link leads. Returns None if there is neither."""
    if os.path.islink(path):
        return hashlib.sha256(os.fsencode(os.readlink(path))).hexdigest()
    if not os.path.isfile(path):
        return None
    with open(path, "rb") as file:
        return hashlib.sha256(file.read()).hexdigest()
