"""Reads text files whole, within a limit. The path - means standard input. Guesses what a file is if it is not the report or the sheet
that was expected, in the words of `xbrlmerge explain`."""
import codecs
import functools
import io
import os
import re
from typing import Any, Iterator, Optional

from commands import command

INLINE = "http://www.xbrl.org/2013/inlineXBRL"
CONVERT = "convert it to xBRL-JSON with another program"
CSV = "the metadata of an xBRL-CSV report"
TAXONOMY = f"a taxonomy: make a sheet of it with {command('make_sheet')}"
# a byte order mark of UTF-16, or the first character of JSON or XML in UTF-16
UTF_16 = (codecs.BOM_UTF16_BE, codecs.BOM_UTF16_LE, b"{\0", b"<\0", b"\0{", b"\0<")
# braces, keys, and spaces after commas or semicolons are of JSON or prose, not of a row of a table
NO_ROW = re.compile(r'[{}]|" ?:|[,;] ')
STANDARD = "-"  # the name of standard input or standard output
LONGEST = 1 << 31  # characters; `xbrlmerge` reads files of at most this many bytes
PIECE = 1 << 20


def looks_like(kind: Optional[str]) -> str:
    return f"; the file looks like {kind}" if kind else ""


def kind_of_bytes(start: bytes, is_sheet: bool = False) -> Optional[str]:
    """Guesses the kind of a file that is not JSON, although a report or a sheet was expected, from the bytes at its start."""
    if start.startswith(b"\x1f\x8b"):
        return "a gzip file: unpack it first"
    if start.startswith(b"PK\3\4"):
        return TAXONOMY if is_sheet else "a ZIP file, as a report package is: unpack it first"
    if start.startswith(UTF_16):
        return "text in UTF-16: convert it to UTF-8"
    return kind_of_text(valid_text(start).lstrip("\ufeff").lstrip(), is_sheet)


def valid_text(data: bytes) -> str:
    """Returns the text before the first byte that is not UTF-8."""
    try:
        return data.decode()
    except UnicodeDecodeError as fault:
        return data[: fault.start].decode()


def kind_of_text(text: str, is_sheet: bool) -> Optional[str]:
    if text.startswith("<"):
        if INLINE in text:
            return f"Inline XBRL: {CONVERT}"
        return TAXONOMY if is_sheet else f"XML: {CONVERT}"
    row = text.partition("\n")[0]
    is_row = any(sign in row for sign in ",;\t") and not NO_ROW.search(row)
    return f"CSV: {CONVERT}" if is_row and not text.startswith(("[", "/")) else None


def kind_of_sheet(tree: Any) -> Optional[str]:
    """Guesses the kind of a JSON value that is not a sheet."""
    if not isinstance(tree, dict):
        return None
    return f"{CSV}, not a sheet" if is_csv(tree) else "a report, not a sheet" if "documentInfo" in tree else None


def is_csv(tree: dict[str, Any]) -> bool:
    information = tree.get("documentInfo")
    kind = information.get("documentType") if isinstance(information, dict) else None
    is_named = isinstance(kind, str) and kind.endswith("/xbrl-csv")
    return is_named or "tableTemplates" in tree or "tables" in tree and "facts" not in tree


class NotUtf8(ValueError):
    """A file is not UTF-8. `start` contains the bytes at its start."""

    def __init__(self, start: bytes) -> None:
        super().__init__("it is not UTF-8")
        self.start = start


def pieces_of_file(path: str) -> Iterator[str]:
    with open(path, encoding="utf-8", newline="") as file:
        yield from iter(functools.partial(file.read, PIECE), "")


def read_text(path: str) -> str:
    """Returns the text of a file. A byte order mark is dropped. Errors: OSError; NotUtf8; ValueError if the file is too
    long."""
    pieces, length = [], 0
    with opened(path) as file:
        start = file.peek()
        text = io.TextIOWrapper(file, encoding="utf-8-sig")
        try:
            for piece in iter(functools.partial(text.read, PIECE), ""):
                pieces.append(piece)
                length += len(piece)
                if length > LONGEST:
                    raise ValueError(f"it is longer than {LONGEST} characters")
        except UnicodeDecodeError:
            raise NotUtf8(start) from None
    return "".join(pieces)


def opened(path: str) -> io.BufferedReader:
    """Opens a file, or standard input, with a buffer of PIECE bytes. Errors: OSError."""
    is_standard = path == STANDARD
    return io.BufferedReader(io.FileIO(0 if is_standard else path, closefd=not is_standard), PIECE)


def shown_path(path: str) -> str:
    return "standard input" if path == STANDARD else path


def as_file(path: str) -> str:
    """Returns a path that names the same file, but never means a standard stream."""
    return os.path.join(os.curdir, path) if path == STANDARD else path
