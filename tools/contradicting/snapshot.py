"""Copies of the inputs, and the output folder, which one run at a time uses. The program and the tools read the copies, so a file
that changes later changes nothing."""
import contextlib
import fcntl
import hashlib
import os
import re
import shlex
import shutil
import stat
import sys
import zipfile
from typing import BinaryIO, Iterable, Iterator, Mapping, NamedTuple

from commands import command as command_of
from process import NotDone, sentence
from sheets import types_path
from text_files import PIECE
from whole_files import remove_leftovers

FICLONE = 0x40049409  # of Linux: the copy shares the blocks of the file until one of the two changes
COPY = "copied_input"
LINES = ("verdicts", "sources", "refusals")  # each is written as NAME.txt
FOLDER = "reports"  # contains the normalised reports


class InputFile(NamedTuple):
    """An input, its length and its SHA-256."""

    path: str
    length: int
    digest: str


class Snapshot:
    """Copies of files by their paths. `files` lists what was read, and `normalised` the normalised texts of reports."""

    def __init__(self, folder: str) -> None:
        self.folder = folder
        self.copies: dict[str, str] = {}
        self.files: dict[str, InputFile] = {}
        self.normalised: dict[str, InputFile] = {}

    def of(self, path: str) -> str:
        """Returns the path of the copy, or the path itself if it is not copied."""
        return self.copies.get(path, path)

    def add(self, path: str) -> None:
        """Copies a file. Errors: NotDone if it changes meanwhile; OSError."""
        if path not in self.copies:
            self.copy(path, f"{COPY}{len(self.copies)}")

    def add_sheet(self, path: str) -> None:
        """Copies a sheet and, if there is one, the file of types beside it."""
        self.add(path)
        beside = types_path(path)
        if os.path.isfile(beside) and beside not in self.copies:
            self.copy(beside, types_path(os.path.basename(self.copies[path])))

    def add_packages(self, words: Iterable[str]) -> None:
        """Copies the packages among taxonomies. The files of other taxonomies are read only once: see `note`."""
        for word in words:
            if os.path.isfile(word) and zipfile.is_zipfile(word):
                self.add(word)

    def note(self, digests: Mapping[str, tuple[int, str]]) -> None:
        """Notes the files that were read without a copy, with their lengths and digests."""
        self.files.update((path, InputFile(path, length, digest)) for path, (length, digest) in digests.items())

    def copy(self, path: str, name: str) -> None:
        copy = os.path.join(self.folder, name)
        with open(path, "rb") as source, open(copy, "w+b") as target:
            before = os.fstat(source.fileno())
            copy_bytes(source, target)
            after = os.fstat(source.fileno())
            if stat.S_ISREG(before.st_mode) and (before.st_mtime_ns, before.st_size) != (after.st_mtime_ns, after.st_size):
                raise NotDone(f"{path} changed while it was copied")
        self.copies[path] = copy
        self.files[path] = input_file(path, copy)

    def named(self, text: str) -> str:
        """Returns a text in which the paths of copies are replaced by those of the files."""
        originals = {os.path.basename(copy): path for path, copy in self.copies.items()}
        pattern = rf"(?:{re.escape(self.folder + os.sep)})?({COPY}\d+(?:\.types\.json)?)"
        return re.sub(pattern, lambda found: originals.get(found[1], found[0]), text)

    @contextlib.contextmanager
    def names_restored(self) -> Iterator[None]:
        """Turns exceptions of the `with` block that may name a copy into NotDone with the name of the file."""
        try:
            yield
        except NotDone as fault:
            raise NotDone(*(self.named(str(line)) for line in fault.args)) from None
        except OSError as fault:
            raise NotDone(self.named(sentence(fault))) from None


def copy_bytes(source: BinaryIO, target: BinaryIO) -> None:
    """Copies a file, by sharing its blocks where the file system can do this."""
    try:
        fcntl.ioctl(target.fileno(), FICLONE, source.fileno())
    except OSError:
        shutil.copyfileobj(source, target, PIECE)


def input_file(path: str, copy: str) -> InputFile:
    """Returns the input at a path with the length and the digest of its copy. Errors: OSError."""
    digest, length = hashlib.sha256(), 0
    with open(copy, "rb") as file:
        for piece in iter(lambda: file.read(PIECE), b""):
            digest.update(piece)
            length += len(piece)
    return InputFile(path, length, digest.hexdigest())


@contextlib.contextmanager
def output_folder(path: str, is_below: bool = False) -> Iterator[None]:
    """Makes the output folder, or one below it, unless it exists. After the `with` block, a new folder is removed unless it
    contains files. Errors: NotDone if the path is not a folder, or if a folder below the output folder is a link; OSError;
    exceptions of the block."""
    is_made = not os.path.isdir(path) or is_below and os.path.islink(path)
    if is_made and os.path.lexists(path):
        raise NotDone(f"{path} is not a folder; -o needs one")
    try:
        if is_made:
            os.mkdir(path)
        yield
    finally:
        with contextlib.suppress(OSError):
            if is_made:
                os.rmdir(path)  # removes only an empty folder


@contextlib.contextmanager
def locked(path: str) -> Iterator[None]:
    """Locks a folder, so that one run at a time writes to it, and removes what killed runs left there. The lock ends with the
    process, and leaves no file. Errors: NotDone if another run holds the lock; OSError. A file system without locks is no
    error."""
    folder = os.open(path, os.O_RDONLY)
    try:
        with contextlib.suppress(OSError):
            try:
                fcntl.flock(folder, fcntl.LOCK_EX | fcntl.LOCK_NB)
            except BlockingIOError:
                raise NotDone(f"another run writes to {path}: wait until it ends, or name another folder") from None
            for each in (os.path.realpath(path), os.path.join(path, FOLDER)):
                remove_leftovers(each)
        yield
    finally:
        os.close(folder)


def report_file(number: int) -> str:
    """Returns the name of the file with the normalised report of this number, from 1."""
    return os.path.join(FOLDER, f"{number}.json")


def command(folder: str, sheet: str, reports: Iterable[str]) -> str:
    """Returns the command that checks the files in a folder, for a shell. Its paths start where this tool was started."""
    files = {"sheet": sheet, "merged": os.path.join(folder, "merged.json")}
    files.update((name, os.path.join(folder, f"{name}.txt")) for name in LINES)
    program = os.path.join(os.path.dirname(sys.argv[0]), os.path.basename(command_of("recheck")))
    return " ".join([quoted(program), *(f"--{name}={quoted(path)}" for name, path in files.items()), "--", *map(quoted, reports)])


def quoted(word: str) -> str:
    """Returns a word for a shell. A word that is not printable becomes $'..' with octal bytes, which bash and zsh read."""
    if word.isprintable():
        return shlex.quote(word)
    return "$'%s'" % "".join(chr(byte) if 32 <= byte < 127 and byte not in b"'\\" else f"\\{byte:03o}" for byte in os.fsencode(word))
