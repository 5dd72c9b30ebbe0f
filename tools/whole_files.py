"""How the tools write files: several files completely or not at all, through no link, and within a limit of bytes."""
import contextlib
import os
import re
import shutil
import stat
import sys
import tempfile
from typing import Iterable, Iterator, NamedTuple, Optional, Union

from process import NotDone, Stopped, signals_held

Piece = Union[str, bytes]

NEW = ".new-"
LEFTOVER = re.compile(re.escape(NEW) + r"[a-z0-9_]{8}")  # as `tempfile` names folders
PERMISSIONS = 0o777  # without setuid, setgid and the sticky bit


@contextlib.contextmanager
def new_folder(beside: Optional[str] = None) -> Iterator[str]:
    """Makes a folder for temporary files, and removes it at the end, even if a signal arrives meanwhile."""
    folder = tempfile.mkdtemp(prefix=NEW, dir=beside)
    try:
        yield folder
    finally:
        try:
            shutil.rmtree(folder)
        except Stopped:
            shutil.rmtree(folder, ignore_errors=True)  # no further signal interrupts this
            raise


class Output(NamedTuple):
    """A file to write at `path`, and the paths of the new and the old file in a temporary folder beside it."""

    path: str
    new: str
    old: str

    def keep_old(self) -> None:
        """Keeps the file that will be replaced: as a link, or as a copy if linking fails."""
        if os.path.lexists(self.path):
            try:
                os.link(self.path, self.old, follow_symlinks=False)
            except OSError:
                shutil.copy2(self.path, self.old, follow_symlinks=False)

    def restore_old(self) -> None:
        if os.path.lexists(self.old):
            os.replace(self.old, self.path)
        else:
            os.unlink(self.path)


class OutputLimit:
    """Counts the bytes that a tool writes, in all files together."""

    def __init__(self, most: int) -> None:
        self.most, self.written = most, 0

    def encoded(self, pieces: Iterable[Piece]) -> Iterator[bytes]:
        """Yields the bytes of the pieces. Errors: NotDone if the tool writes more than `most` bytes; exceptions of the pieces."""
        for piece in pieces:
            data = piece.encode() if isinstance(piece, str) else piece
            self.count(len(data))
            yield data

    def count(self, length: int) -> None:
        self.written += length
        if self.written > self.most:
            raise NotDone(f"output: more than {self.most} bytes; --most-output BYTES sets the bound")


def most_output(read: int) -> int:
    """Returns how many bytes a tool may write without --most-output, by the number of bytes that it reads: as `xbrlmerge`."""
    return (1 << 20) + 16 * read


def bytes_in(paths: Iterable[str]) -> int:
    """Returns the number of bytes in files, and in the files of folders. Those that are missing count as empty."""
    total = 0
    for path in paths:
        below = (os.path.join(at, name) for at, _, names in os.walk(path) for name in names)
        for each in below if os.path.isdir(path) else [path]:
            with contextlib.suppress(OSError):
                total += os.stat(each).st_size
    return total


def below(folder: str, path: str) -> str:
    """Returns the path of a file below a folder. Errors: OSError if it is not below the folder, or leads through a link."""
    at = folder
    *folders, name = path.split(os.sep)
    for each in folders:
        at = os.path.join(at, each)
        if each in ("", os.curdir, os.pardir) or os.path.islink(at):
            raise OSError(f"{path} leads out of {folder}, or through a link")
    if name in ("", os.curdir, os.pardir):
        raise OSError(f"{path} is not the name of a file")
    return os.path.join(at, name)


def remove_leftovers(folder: str) -> None:
    """Removes the temporary folders that killed runs left in a folder. Call this only in a folder that no other run uses."""
    if os.path.islink(folder):
        return
    with os.scandir(folder) as entries:
        left = [entry.path for entry in entries if LEFTOVER.fullmatch(entry.name) and entry.is_dir(follow_symlinks=False)]
    for path in left:
        shutil.rmtree(path, ignore_errors=True)


@contextlib.contextmanager
def files_written(texts: Iterable[tuple[str, Iterable[Piece]]], limit: Optional[OutputLimit] = None) -> Iterator[None]:
    """Writes all files or none. `texts` contains the path and the pieces of each file. Each file is written in a new folder
    beside its path. When the `with` block ends, all files are moved to their paths, unless the block raises. A file is not
    written through a link at its path. A new file gets the owner, the group and the permissions of the file that it replaces,
    where the system permits this. The setuid, setgid and sticky bits are not copied. A signal that `process.run` handles stops
    the writing, and the new files are removed; the moves are not interrupted. Errors: NotDone if the limit is exceeded;
    OSError; exceptions of the pieces. After an error, no file has changed, unless a move cannot be undone."""
    limit = limit or OutputLimit(sys.maxsize)
    with contextlib.ExitStack() as folders:
        outputs = [write_beside(path, limit.encoded(pieces), folders) for path, pieces in texts]
        yield
        with signals_held():
            put_in_place(outputs)


def write_beside(path: str, pieces: Iterable[bytes], folders: contextlib.ExitStack) -> Output:
    """Writes a file in a folder beside its path, and syncs it. The folder is removed when `folders` is closed."""
    target = os.path.join(os.path.realpath(os.path.dirname(path)), os.path.basename(path))
    if os.path.lexists(target) and not stat.S_ISREG(os.lstat(target).st_mode):
        raise OSError(f"{path} exists and is not a file that can be replaced")
    try:
        with signals_held():  # a signal must not arrive between making the folder and recording it
            folder = folders.enter_context(new_folder(os.path.dirname(target)))
        output = Output(target, os.path.join(folder, "new"), os.path.join(folder, "old"))
        with open(output.new, "xb") as file:
            file.writelines(pieces)
            copy_permissions(target, file.fileno())
            file.flush()
            os.fsync(file.fileno())
    except OSError as fault:  # the exception names the temporary folder, or no file
        raise OSError(f"{path}: {fault.strerror or fault}") from None
    return output


def copy_permissions(path: str, file: int) -> None:
    """Copies the owner, group and permissions of the file at `path`, if it exists, to an open file, where permitted."""
    if os.path.lexists(path):
        old = os.lstat(path)
        for owner, group in ((old.st_uid, -1), (-1, old.st_gid)):
            with contextlib.suppress(OSError):
                os.fchown(file, owner, group)
        with contextlib.suppress(OSError):
            os.fchmod(file, old.st_mode & PERMISSIONS)


def put_in_place(outputs: list[Output]) -> None:
    """Moves all outputs to their paths. Errors: OSError if two have one path, or a move fails; then others are undone."""
    if len({output.path for output in outputs}) < len(outputs):
        raise OSError("two outputs are one file")
    for output in outputs[:-1]:  # the last move is never undone, because none follows it
        output.keep_old()
    moved: list[Output] = []
    try:
        for output in outputs:
            os.replace(output.new, output.path)
            moved.append(output)
    except OSError:
        for output in reversed(moved):
            output.restore_old()
        raise
