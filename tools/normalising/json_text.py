"""Reads and writes JSON. Numbers keep their spelling, and no member is lost. `json.loads` parses a text; its hooks keep the
spelling of numbers and find repeated members. `pieces_of` writes JSON, because the encoder of `json` writes only ints and
floats as numbers, and would change 1.50, -0 and 1e400."""
import json
import re
import sys
from typing import Any, Callable, NamedTuple, Optional

from process import NotDone, shortened
from text_files import PIECE, NotUtf8, kind_of_bytes, looks_like, read_text, shown_path
from whole_files import OutputLimit

Tree = Any  # None, bool, str, Number, or a dict or list of such trees
HALF = re.compile(r"\\u[dD][89a-fA-F]")  # an escaped half of a surrogate pair


class Number(str):
    """A JSON number as the file spells it, so that no digit passes through a float."""

    __slots__ = ()


def is_text(value: Tree) -> bool:
    return isinstance(value, str) and not isinstance(value, Number)


class Twins(NamedTuple):
    """Two members with the same name in one object, and the dict made from this object."""

    made: dict[str, Tree]
    key: str
    first: Tree
    second: Tree


class Repeated(NotDone):
    """Two members of one object share a name. `path` leads to the object if it is still in the tree."""

    def __init__(self, line: str, path: tuple[str, ...]) -> None:
        super().__init__(line)
        self.path = path


def read_json(path: str, is_sheet: bool = False) -> Tree:
    return read_json_of_length(path, is_sheet)[0]


def read_json_of_length(path: str, is_sheet: bool = False) -> tuple[Tree, int]:
    """Returns the tree of a report or a sheet, and the length of the file in characters. Raises NotDone if the file cannot be
    read, is too long, is not JSON, is nested too deeply or has half a surrogate pair, or if two members of one object share a
    name."""
    shown, start = shown_path(path), b""
    try:
        text = read_text(path)
        return tree_of(text, shown), len(text)
    except OSError as fault:
        raise NotDone(f"{shown}: {fault.strerror or fault}") from None
    except NotUtf8 as fault:
        why, start = str(fault), fault.start
    except UnicodeEncodeError:
        why = "a text has half a surrogate pair"
    except json.JSONDecodeError as fault:
        why, start = f"invalid JSON at {position_of(fault)}", fault.doc[:PIECE].encode(errors="surrogatepass")
    except ValueError as fault:
        raise NotDone(f"{shown}: {shortened(str(fault))}") from None
    raise NotDone(f"{shown}: the file cannot be read as JSON: {why}{looks_like(kind_of_bytes(start, is_sheet))}")


def position_of(fault: json.JSONDecodeError) -> str:
    """Returns the line and the column of a fault, both from 1. Columns count bytes, as in `xbrlmerge explain`."""
    line = fault.doc[fault.doc.rfind("\n", 0, fault.pos) + 1 : fault.pos]
    return f"line {fault.lineno} column {len(line.encode(errors='surrogatepass')) + 1}"


def tree_of(text: str, path: str) -> Tree:
    """Returns the tree of a text. Errors: NotDone if it is nested too deeply, or if two members of one object share a name;
    ValueError if it is not JSON, or has half a surrogate pair."""
    twins: list[Twins] = []

    def members(pairs: list[tuple[str, Tree]]) -> dict[str, Tree]:
        made = dict(pairs)
        if len(made) < len(pairs) and not twins:
            twins.append(twins_in(pairs, made))
        return made

    try:
        tree = json.loads(text, object_pairs_hook=members, parse_int=Number, parse_float=Number, parse_constant=no_constant)
        if HALF.search(text):
            text_of(tree).encode()  # fails for unpaired surrogates
    except RecursionError:
        raise NotDone(f"{path}: it is nested too deeply") from None
    if twins:
        raise Repeated(f"{path}: {told_twice(tree, twins[0])}", (*(path_to(tree, twins[0].made) or ()), twins[0].key))
    return tree


def no_constant(word: str) -> None:
    raise ValueError(f"the file cannot be read as JSON: {word} is no JSON")


def twins_in(pairs: list[tuple[str, Tree]], made: dict[str, Tree]) -> Twins:
    seen: dict[str, Tree] = {}
    for key, value in pairs:
        if key in seen:
            return Twins(made, key, seen[key], value)
        seen[key] = value
    raise LookupError("no name is repeated")


def told_twice(tree: Tree, twins: Twins) -> str:
    """Returns the message about two members of one object with the same name."""
    path = path_to(tree, twins.made)
    within = "an object" if path is None else pointer_of(path) or "the root"
    first, second = (shortened(text_of(value)) for value in (twins.first, twins.second))
    return f"the member {text_of(shortened(twins.key))} is repeated in {within}: {first} and {second}"


def path_to(tree: Tree, wanted: Tree) -> Optional[tuple[str, ...]]:
    """Returns the keys that lead to an object of a tree, or None if the object is no longer in the tree."""
    waiting: list[tuple[Tree, Any]] = [(tree, None)]
    while waiting:
        part, way = waiting.pop()
        if part is wanted:
            return keys_of(way)
        parts = part.items() if isinstance(part, dict) else enumerate(part) if isinstance(part, list) else ()
        waiting.extend((each, (way, str(key))) for key, each in parts if isinstance(each, (dict, list)))
    return None


def keys_of(way: Any) -> tuple[str, ...]:
    """Returns the keys of a path, in order. The path is None at the root, and otherwise the parent's path and the last key."""
    keys = []
    while way:
        way, key = way
        keys.append(key)
    return tuple(reversed(keys))


def pointer_of(path: tuple[str, ...]) -> str:
    """Returns the JSON pointer of a path, with long keys shortened."""
    return "".join("/" + shortened(key).replace("~", "~0").replace("/", "~1") for key in path)


quoted = json.JSONEncoder(ensure_ascii=False).encode
WORDS = {None: "null", True: "true", False: "false"}


def text_of(tree: Tree) -> str:
    return "".join(pieces_of(tree))


def pieces_of(tree: Tree, most: int = sys.maxsize) -> list[str]:
    """Returns the pieces of a tree's text. Errors: NotDone if they have more than `most` characters."""
    pieces: list[str] = []
    limit = OutputLimit(most)

    def write(piece: str) -> None:
        limit.count(len(piece))
        pieces.append(piece)

    put(tree, write)
    return pieces


def put(tree: Tree, write: Callable[[str], None]) -> None:
    if isinstance(tree, str):
        write(tree if isinstance(tree, Number) else quoted(tree))
    elif isinstance(tree, dict):
        sign = "{"
        for key, part in tree.items():
            write(f"{sign}{quoted(key)}:")
            put(part, write)
            sign = ","
        write("}" if tree else "{}")
    elif isinstance(tree, list):
        sign = "["
        for part in tree:
            write(sign)
            put(part, write)
            sign = ","
        write("]" if tree else "[]")
    else:
        write(WORDS[tree])
