"""Reads merged reports, which may be large, fact by fact."""
import contextlib
import json
import re
from typing import Any, Iterator, Optional

from names import Name, Uris, uris_of
from process import NotDone, shortened
from sheets import Sheet
from text_files import read_text

Tree = Any  # the result of `json`
PIECE = 1 << 18  # characters to read at a time
WHITE = " \t\r\n"  # `in` is also true for the empty text, which means the end of a piece
SPACE = re.compile(r"[ \t\r\n]*")
FACT = re.compile(r'(,?)[ \t\r\n]*"(f\d+)"[ \t\r\n]*:[ \t\r\n]*(?={)')
CORE = ("concept", "entity", "period", "unit", "language")
DIGITS = 18  # the most characters of a whole number that is parsed; longer ones stay texts, since parsing takes quadratic time


@contextlib.contextmanager
def using(path: str) -> Iterator[None]:
    """Turns an exception that a bad file can cause into NotDone, with the name of the file."""
    try:
        yield
    except (OSError, ValueError, LookupError, TypeError, AttributeError, ArithmeticError, RecursionError) as fault:
        raise NotDone(f"{path}: {type(fault).__name__}: {shortened(str(fault))}") from None


def small_number(digits: str) -> Any:
    return int(digits) if len(digits) <= DIGITS else digits


def sheet_at(path: str) -> Sheet:
    """Returns the sheet in a file. Errors: NotDone."""
    with using(path):
        return Sheet(json.loads(read_text(path), parse_int=small_number))


def expanded(text: str, uris: Uris) -> Name:
    prefix, _, local = text.partition(":")
    return Name(uris[prefix], local)


class Text:
    """A merged report: the URIs of its prefixes, and then its facts in order. The file is closed after the last fact."""

    def __init__(self, path: str) -> None:
        self.path, self.piece, self.at = path, "", 0
        self.scan = json.JSONDecoder(parse_int=small_number).raw_decode
        self.may_have_halves = False
        with using(path):
            self.file = open(path, encoding="utf-8-sig")
            self.expect("{")
            self.uris = uris_of(self.member("documentInfo")["namespaces"])
            self.known: dict[str, Name] = {}  # each name is expanded only once
            self.expect(",")
            self.expect('"facts"')
            self.expect(":")

    def name(self, text: str) -> Name:
        """Returns the expanded name for a prefixed name of the report."""
        if text not in self.known:
            self.known[text] = expanded(text, self.uris)
        return self.known[text]

    def facts(self) -> Iterator[tuple[str, Tree]]:
        """Yields the identifier and the tree of each fact. Identifiers must be those that `merge` writes, such as f01 to f11."""
        with using(self.path), self.file:
            self.expect("{")
            rank = width = 0
            while self.next() != "}":
                rank += 1
                name, tree = self.fact(rank > 1)
                width = width or len(name) - 1
                if name != f"f{rank:0{width}}":
                    raise ValueError(f"{name} is not the identifier of fact {rank}")
                if self.may_have_halves:
                    json.dumps(tree, ensure_ascii=False).encode()  # fails for unpaired surrogates
                yield name, tree
            if rank and len(str(rank)) != width:
                raise ValueError(f"its identifiers do not have the digits that {rank} facts need")
            for sign in "}}":
                self.expect(sign)
            if self.next():
                raise ValueError("there is more after its end")

    def fact(self, is_behind: bool) -> tuple[str, Tree]:
        """Returns the identifier and the tree of the next fact. Usually one pattern matches everything before the tree."""
        found = FACT.match(self.piece, self.at)
        if found and bool(found[1]) == is_behind:
            self.at = found.end()
            return found[2], self.value("{")
        if is_behind:
            self.expect(",")
        return self.pair()

    def member(self, name: str) -> Tree:
        found, tree = self.pair()
        if found != name:
            raise ValueError(f"{found} is where {name} should be")
        return tree

    def pair(self) -> tuple[str, Tree]:
        """Returns the key and the value of the next member. The value must be an object."""
        key = self.value('"')
        self.expect(":")
        return key, self.value("{")

    def value(self, start: str) -> Tree:
        """Returns the next value. It must be a text or an object, and begin with `start`."""
        if not self.piece.startswith(start, self.at) and self.next() != start:
            raise ValueError(f"{start} is missing")
        while True:
            try:
                tree, self.at = self.scan(self.piece, self.at)
                return tree
            except ValueError as fault:
                if not self.fill():
                    raise ValueError(f"it ends too early, or is not JSON: {fault}") from None

    def expect(self, sign: str) -> None:
        self.next()
        while len(self.piece) - self.at < len(sign) and self.fill():
            pass
        if not self.piece.startswith(sign, self.at):
            raise ValueError(f"{sign} is missing")
        self.at += len(sign)

    def next(self) -> str:
        """Returns the next character that is not white space, or an empty text at the end."""
        while self.piece[self.at : self.at + 1] in WHITE:
            white = SPACE.match(self.piece, self.at)
            self.at = white.end() if white else self.at
            if self.at == len(self.piece) and not self.fill():
                break
        return self.piece[self.at : self.at + 1]

    def fill(self) -> bool:
        """Reads up to PIECE characters, or up to the length of the rest of the piece if longer. Returns whether it read any."""
        self.piece = self.piece[self.at :]
        self.at = 0
        more = self.file.read(max(PIECE, len(self.piece)))
        self.piece += more
        self.may_have_halves = "\\ud" in self.piece or "\\uD" in self.piece
        return bool(more)


class Provider:
    """A merged report of one provider's reports. The full merged report must contain the provider's facts, in the same order."""

    def __init__(self, name: str, path: str, merged: Text, sheet: Sheet) -> None:
        self.name, self.text, self.sheet, self.merged = name, Text(path), sheet, merged.path
        self.prefixes = {uri: prefix for prefix, uri in merged.uris.items()}
        self.spellings: dict[str, str] = {}
        self.units: dict[str, str] = {}
        self.stream = self.text.facts()
        self.head: Optional[Tree] = None
        self.advance()

    def advance(self) -> None:
        self.head = None
        for _, tree in self.stream:
            with using(self.fault()):
                self.head = self.respelled(tree)
            return

    def fault(self) -> str:
        return f"{self.text.path}: a fact does not match {self.merged}"

    def said(self, tree: Tree) -> bool:
        """Returns whether the provider reported a fact of the full merged report. Ask for each fact once, in order."""
        is_said = bool(self.head == tree)
        if is_said:
            self.advance()
        return is_said

    def finish(self) -> None:
        """Raises NotDone if the full merged report lacks a fact of the provider, or has its facts in another order."""
        with using(self.fault()):
            if self.head is not None:
                raise ValueError("it is missing there, or is in the wrong place")

    def respelled(self, tree: Tree) -> Tree:
        """Returns a fact of the provider with the prefixes of the full merged report."""
        dimensions = {}
        for key, member in tree["dimensions"].items():
            if key not in CORE:
                member = self.spelled(member) if self.sheet.dimensions[self.text.name(key)] == "explicit" else member
                key = self.spelled(key)
            elif key == "unit":
                member = self.spelled_unit(member)
            elif key in ("concept", "entity"):
                member = self.spelled(member)
            dimensions[key] = member
        value = tree["value"]
        if value is not None and self.sheet.concepts[self.text.name(tree["dimensions"]["concept"])] == "name":
            value = self.spelled(value)
        return {**tree, "dimensions": dimensions, "value": value}

    def spelled(self, text: str) -> str:
        """Returns a name or an entity with the prefix that the full merged report gives its namespace."""
        prefix, _, local = text.partition(":")
        if prefix not in self.spellings:
            self.spellings[prefix] = self.prefixes[self.text.uris[prefix]]
        return f"{self.spellings[prefix]}:{local}"

    def spelled_unit(self, text: str) -> str:
        if text not in self.units:
            self.units[text] = re.sub(r"[^*/()]+", lambda piece: self.spelled(piece[0]), text)
        return self.units[text]
