"""The files that are installed or packed, the programs that make them, and the commit that they were built from."""
from __future__ import annotations

import os
import re
import shutil
import subprocess  # nosec B404: it runs programs without a shell
import sys
import time
from dataclasses import dataclass, replace
from typing import Iterable, Mapping, Optional, Sequence

sys.path.append(os.path.join(os.path.dirname(os.path.dirname(os.path.abspath(__file__))), "tools"))
from whole_files import below  # noqa: E402

PLAIN, RUNS = 0o644, 0o755  # the permissions of a file, and of a program
# folders with files that were made, as .gitignore has them
MADE = ("__pycache__", "out")
# what makes the packages, besides the kit
NEEDED = ("git", "dpkg-deb", "gcc", "strip")
# the folders of the checkout whose files are packed
PACKED = ("docs", "examples", "include", "python", "share", "tools")


@dataclass(frozen=True)
class File:
    """A file at a path below a folder, or a link whose content is the name of the file beside it that it leads to."""

    target: str
    content: bytes
    mode: int = PLAIN
    is_link: bool = False

    def moved(self, old: str, new: str) -> File:
        """Returns the file with another start of its path, if its path has the old start."""
        return replace(self, target=new + self.target[len(old):]) if self.target.startswith(old) else self


def read(path: str, target: str, mode: int = PLAIN) -> File:
    with open(path, "rb") as file:
        return File(target, file.read(), mode)


def read_below(folder: str, target: str, endings: tuple[str, ...]) -> list[File]:
    """Returns the files in a folder and the folders below it whose names end as named, in the order of their names."""
    found = []
    for at, folders, names in os.walk(folder):
        folders[:] = sorted({*folders} - {*MADE})
        for name in sorted(names):
            path = os.path.join(at, name)
            if name.endswith(endings):
                mode = RUNS if os.access(path, os.X_OK) else PLAIN
                found.append(read(path, os.path.join(target, os.path.relpath(path, folder)), mode))
    return found


def put(file: File, folder: str) -> str:
    """Puts a file below a folder in one step, and returns its new path. Errors: OSError, also if a folder on the way is a link."""
    path = below(folder, file.target)
    os.makedirs(os.path.dirname(path), exist_ok=True)
    new = f"{path}.new"
    if os.path.lexists(new):
        os.unlink(new)
    if file.is_link:
        os.symlink(file.content.decode(), new)
    else:
        with open(new, "xb") as opened:
            opened.write(file.content)
            opened.flush()
            os.fsync(opened.fileno())
        os.chmod(new, file.mode)
    os.replace(new, path)
    return path


def folders_of(files: Iterable[File]) -> list[str]:
    """Returns the folders that contain the files, each after the folder that contains it."""
    found = set()
    for file in files:
        folder = os.path.dirname(file.target)
        while folder:
            found.add(folder)
            folder = os.path.dirname(folder)
    return sorted(found)


def run_tool(*words: str, variables: Optional[Mapping[str, str]] = None) -> str:
    """Runs a command, with further environment variables, and returns its output. Errors: OSError with its message."""
    done = subprocess.run(words, capture_output=True, text=True, env={**os.environ, **(variables or {})})  # nosec B603
    if done.returncode != 0:
        raise OSError(f"{words[0]} failed: {done.stderr.strip()[-500:]}")
    return done.stdout


@dataclass(frozen=True)
class Crate:
    """A crate of the repository: the crates that it uses, and a checksum of all that its proof read."""

    uses: Sequence[str]
    proof: str


@dataclass(frozen=True)
class Source:
    """The checkout, the program, a folder with the libraries, the version, the commit with its time, and the kit."""

    top: str
    program: str
    library: str
    version: str
    commit: str
    seconds: int  # since 1970
    kit: str  # its folder
    kit_version: str
    crates: Mapping[str, Crate]

    @property
    def moment(self) -> str:
        return time.strftime("%Y-%m-%dT%H:%M:%SZ", time.gmtime(self.seconds))


def git(top: str, *words: str) -> str:
    """Returns the output of a git command. Errors: OSError."""
    return run_tool("git", "-C", top, *words).strip()


def commit_of(top: str) -> tuple[str, int]:
    """Returns the commit of a checkout, and its time in seconds since 1970. Errors: OSError."""
    commit, seconds = git(top, "log", "-1", "--format=%H %ct").split()
    return commit, int(seconds)


def wrong_source(top: str, folder: str) -> str:
    """Returns why no packages can be made from a checkout into a folder, or an empty text. Makes the folder. Errors: OSError."""
    missing = [it for it in NEEDED if shutil.which(it) is None]
    if missing:
        return f"{missing[0]} is not on the PATH: ./build --packages needs it"
    if not os.path.exists(os.path.join(top, ".git")):
        return "this folder is not a git checkout: packages name their commit"
    os.makedirs(folder, exist_ok=True)
    if not os.access(folder, os.W_OK | os.X_OK):
        return f"{folder} cannot be written to"
    inside = os.path.relpath(os.path.realpath(folder), os.path.realpath(top))
    is_inside = not inside.startswith("..")
    if is_inside and inside.split(os.sep)[0] in PACKED:
        return f"{folder} is in a folder that is packed"
    if is_inside and git(top, "ls-files", "--", f":(literal){inside}"):
        return f"{folder} contains files of the checkout"
    besides = [f":(exclude,literal){inside}"] if is_inside else []
    changed = git(top, "status", "--porcelain", "--untracked-files=all", "--", ".", *besides).splitlines()
    if changed:
        return f"the checkout has changes that are not committed, such as {changed[0].split(maxsplit=1)[1]}"
    # ignored files, too
    others = git(top, "ls-files", "--others", "--", *PACKED, *besides).splitlines()
    found = [it for it in others if {*it.split("/")}.isdisjoint(MADE)]
    return f"{found[0]} is not in the commit, and would be packed" if found else ""


def newest_libc(content: bytes) -> str:
    """Returns the newest version of the C library that a program or a library needs, such as 2.34."""
    minors = [int(it) for it in re.findall(rb"GLIBC_2\.(\d+)", content)]
    return f"2.{max(minors, default=0)}"
