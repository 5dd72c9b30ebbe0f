"""Finds and reads files on disk and in packages, which are zip files, if they may be read."""
import contextlib
import errno
import functools
import hashlib
import os
import pathlib
import stat
import zipfile
import zlib
from dataclasses import dataclass
from typing import Iterable, Iterator

from process import NotDone, sentence, shortened

PIECE = 1 << 20  # bytes to read at a time
MOST_ENTRIES = 100_000
LONGEST_PATH = 1_024  # characters
MOST_UNPACKED = 100  # times the size of the package
TAG, ATTRIBUTES = 4, 4  # the bytes of a package that permit one more tag, and the attributes that count as one tag
METHODS = (zipfile.ZIP_STORED, zipfile.ZIP_DEFLATED)  # for other methods, `zipfile` does not limit how much it unpacks at once
ENCRYPTED = 1
CATALOG = os.path.join(os.sep, "META-INF", "catalog.xml")


@dataclass(frozen=True)
class Limits:
    """How much may be read, and whether schemas may refer to files outside the named folders."""

    megabytes: int = 64
    outside: bool = False
    tags: int = 100_000  # in a package, besides those that its size permits

    @property
    def file(self) -> int:
        """The most bytes in a file that is not a package."""
        return self.megabytes * 1_000_000

    @property
    def again(self) -> int:
        """How many bytes of schemas without a namespace may be read again for further namespaces."""
        return self.file // 16

    @property
    def tries(self) -> int:
        """How often rules of catalogs may be tried."""
        return 2 * self.tags


@contextlib.contextmanager
def reading(path: str) -> Iterator[None]:
    """Turns each exception except NotDone into NotDone, with the name of the file."""
    try:
        yield
    except NotDone:
        raise
    except Exception as fault:  # expat, zipfile and zlib raise their own exceptions
        why = fault.strerror if isinstance(fault, OSError) and fault.strerror else sentence(fault)
        raise NotDone(f"{path}: {why}") from None


def too_long(limits: Limits) -> ValueError:
    return ValueError(f"it is longer than {limits.megabytes} MB (make_sheet --megabytes)")


@contextlib.contextmanager
def unpacking() -> Iterator[None]:
    """Turns the exceptions of zipfile and zlib into ValueError."""
    try:
        yield
    except (zipfile.BadZipFile, zlib.error, EOFError, NotImplementedError) as fault:
        raise ValueError(f"the package is damaged: {fault}" if str(fault) else "the package is damaged") from None
    except OSError as fault:
        if fault.errno != errno.EINVAL:  # that is a place before the start of the file
            raise
        raise ValueError("the package is damaged") from None


class Package:
    """A package, whose files are read when they are needed."""

    def __init__(self, path: str, limits: Limits) -> None:
        self.path, self.limits = path, limits
        with unpacking():
            self.file = zipfile.ZipFile(path)
        size = os.path.getsize(path)
        self.left = limits.file + MOST_UNPACKED * size  # bytes that may still be unpacked
        self.tags_left: float = limits.tags + size // TAG
        self.entries: dict[str, zipfile.ZipInfo] = {}
        for entry in self.file.infolist():
            self.add(entry)
        if len(self.entries) > MOST_ENTRIES:
            raise ValueError(f"it has more than {MOST_ENTRIES} files")

    def add(self, entry: zipfile.ZipInfo) -> None:
        """Records a file under its path. Errors: ValueError if the path is repeated, too long or outside the package."""
        folder = os.path.join(self.path, "")
        path = os.path.normpath(folder + entry.filename)
        is_within = os.path.join(path, "").startswith(folder) and not entry.filename.startswith("/")
        if not is_within or path in self.entries:
            raise ValueError(f"it has a path outside itself, or a repeated path: {shortened(entry.filename)}")
        if len(entry.filename) > LONGEST_PATH:
            raise ValueError(f"it has a path of more than {LONGEST_PATH} characters: {shortened(entry.filename)}")
        if not entry.is_dir():
            self.entries[path] = entry

    def pieces(self, path: str) -> Iterator[bytes]:
        """Yields the bytes of a file. Errors: ValueError if the file is too long, damaged, encrypted or compressed by another
        method than deflate, or if with it the package is unpacked to too many bytes, or has too many tags and attributes;
        OSError. The signs < and = are counted, because they are found far faster than the tags and the attributes."""
        entry, length = self.entries[path], 0
        if entry.compress_type not in METHODS:
            raise ValueError("it is compressed by a method other than deflate")
        if entry.flag_bits & ENCRYPTED:
            raise ValueError("it is encrypted")
        with unpacking(), self.file.open(entry) as file:
            for piece in iter(functools.partial(file.read, PIECE), b""):
                length += len(piece)
                self.left -= len(piece)
                self.tags_left -= piece.count(b"<") + piece.count(b"=") / ATTRIBUTES
                if length > self.limits.file:
                    raise too_long(self.limits)
                if self.left < 0:
                    raise ValueError(f"with it, the package unpacks to more than {MOST_UNPACKED} times its size plus"
                                     f" {self.limits.megabytes} MB (make_sheet --megabytes)")
                if self.tags_left < 0:
                    raise ValueError(f"with it, the package has more than {self.limits.tags} tags and one for each {TAG} bytes of"
                                     f" its size, counting {ATTRIBUTES} attributes as a tag (make_sheet --tags)")
                yield piece


class Files:
    """Files on disk and in packages. The path of a file in a package begins with the path of the package."""

    def __init__(self, words: Iterable[str], limits: Limits) -> None:
        self.limits = limits
        self.packed: dict[str, Package] = {}
        self.listed: list[str] = []  # files that are named, or are in a named folder or package
        self.named: set[str] = set()
        self.folders: set[str] = set()  # files on disk are read only in these folders, except with --outside
        self.digests: dict[str, tuple[int, str]] = {}  # the length and the SHA-256 of each file on disk that was read
        for word in dict.fromkeys([word and os.path.abspath(word) for word in words]):
            with reading(word):
                self.listed += sorted(self.paths_of(word))

    def paths_of(self, word: str) -> Iterable[str]:
        """Returns the paths of the files in a folder or a package, or of a single file."""
        if os.path.isdir(word):
            self.folders.add(os.path.realpath(word))
            return [os.path.join(at, name) for at, _, names in os.walk(word, onerror=fail) for name in names]
        if not os.path.isfile(word):
            raise ValueError("it is not a file" if os.path.exists(word) else "there is no such file")
        if zipfile.is_zipfile(word):
            package = Package(word, self.limits)
            self.packed.update(dict.fromkeys(package.entries, package))
            return package.entries
        self.named.add(word)
        self.folders |= {os.path.dirname(os.path.realpath(word)), os.path.realpath(os.path.dirname(word))}
        return [word]

    def schemas(self) -> list[str]:
        """Returns the files that are named themselves, and the .xsd files of the named folders and packages."""
        return [path for path in self.listed if path in self.named or path.lower().endswith(".xsd")]

    def catalogs(self) -> list[str]:
        return [path for path in self.listed if path.endswith(CATALOG)]

    def linkbases(self) -> list[str]:
        """Returns the .xml files that are named themselves or are in the named folders and packages."""
        return sorted(path for path in self.listed if path.lower().endswith(".xml"))

    def is_found(self, path: str, origin: str) -> bool:
        """Returns whether the document at `origin` may refer to the path, and a file is there. Packages cannot refer to files
        on disk."""
        return path in self.packed or origin not in self.packed and os.path.isfile(path)

    def pieces(self, path: str) -> Iterable[bytes]:
        """Returns the bytes of a file in pieces. Errors, some of them raised by the iterator: OSError; those of
        `Package.pieces`; ValueError if the file is not regular, is too long or changed since it was read before, or if it is
        outside the named folders and --outside is not given."""
        if path in self.packed:
            return self.packed[path].pieces(path)
        really = os.path.realpath(path)
        if not self.limits.outside and self.folders.isdisjoint(map(str, pathlib.PurePath(really).parents)):
            raise ValueError("it is outside the named folders (make_sheet --outside)")
        data = read_regular(really, self.limits)
        digest = len(data), hashlib.sha256(data).hexdigest()
        if self.digests.setdefault(path, digest) != digest:
            raise ValueError("it changed since it was read before")
        return (data[start : start + PIECE] for start in range(0, len(data), PIECE))


def read_regular(path: str, limits: Limits) -> bytes:
    """Returns the bytes of a regular file. A FIFO does not block the call. Errors: ValueError if the file is not regular, is
    too long or grew while it was read; OSError."""
    with open(path, "rb", opener=lambda name, flags: os.open(name, flags | os.O_NONBLOCK)) as file:
        status = os.fstat(file.fileno())
        if not stat.S_ISREG(status.st_mode):
            raise ValueError("it is not a regular file")
        data = file.read(min(status.st_size, limits.file) + 1)  # `read` allocates this much memory at once
    if len(data) > limits.file:
        raise too_long(limits)
    if len(data) > status.st_size:
        raise ValueError("it grew while it was read")
    return data


def fail(fault: OSError) -> None:
    raise fault
