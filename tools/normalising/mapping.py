"""Replaces names by a map: the assumption that names of two taxonomies, schemes or units mean the same."""
import re
import sys
from typing import Any, Mapping, NamedTuple, Optional

from names import PART, SPACE, Name, Uris, expanded
from normalising.json_text import Number, Tree, read_json
from normalising.prefixes import Prefixes
from process import NotDone, shortened
from text_files import shown_path
from whole_files import OutputLimit

TABLES = ("entities", "concepts", "members")
PARTS = ("namespaces", *TABLES, "units")
SCALES = range(-18, 19)


class Measure(NamedTuple):
    """What replaces a measure. A value in the old measure, times ten to the power of `scale`, is the value in this one."""

    name: Name
    scale: int


class NameMap:
    """The tables of a map. A name that its table lacks gets a new namespace, and is looked up again. Errors: ValueError."""

    def __init__(self, tree: Tree) -> None:
        if not isinstance(tree, dict) or not all(key in PARTS and isinstance(part, dict) for key, part in tree.items()):
            raise ValueError(f"it is not a map, which is an object with the members {', '.join(PARTS)}, each an object")
        if not all(type(uri) is str and uri for pair in tree.get("namespaces", {}).items() for uri in pair):
            raise ValueError("a namespace is empty, or not a text")
        self.namespaces = {sys.intern(old): sys.intern(new) for old, new in tree.get("namespaces", {}).items()}
        self.tables = {table: {name_of(old, table): name_of(new, table) for old, new in tree.get(table, {}).items()} for table in TABLES}
        self.units = {name_of(old): measure_of(new) for old, new in tree.get("units", {}).items()}
        units = {old: measure.name for old, measure in self.units.items()}
        check_ends(self.namespaces, {})
        for table in (*self.tables.values(), units):
            check_ends(table, self.namespaces)
        for old, measure in self.units.items():
            if measure.scale and measure.name == old:
                raise ValueError(f"{old.shown()} has a scale, but is replaced by itself")

    def in_namespace(self, name: Name) -> Name:
        return Name(self.namespaces.get(name.uri, name.uri), name.local)

    def listed(self, kind: str, old: Name) -> Optional[Name]:
        table = self.tables.get(kind, {})
        return table.get(old) or table.get(self.in_namespace(old))

    def measure(self, old: Name) -> Optional[Measure]:
        return self.units.get(old) or self.units.get(self.in_namespace(old))


def check_ends(table: Mapping[Any, Any], namespaces: Mapping[str, str]) -> None:
    """Raises ValueError if what replaces a name would itself be replaced: a second run would change the report again."""
    for new in table.values():
        uri = new.uri if isinstance(new, Name) else ""
        if table.get(new, new) != new or namespaces.get(uri, uri) != uri:
            raise ValueError(f"{new.shown() if isinstance(new, Name) else shortened(new)} replaces a name, and is replaced itself")


def name_of(text: Tree, table: str = "") -> Name:
    """Returns the name that a text such as {URI}local spells. An entity may have any identifier. Errors: ValueError."""
    uri, sign, local = text[1:].partition("}") if type(text) is str and text.startswith("{") else ("", "", "")
    is_part = bool(local) if table == "entities" else PART.fullmatch(local)
    if not uri or not sign or not is_part or any(space in uri for space in SPACE):
        raise ValueError(f"{shortened(str(text))} is not a name such as {{URI}}local")
    return Name(sys.intern(uri), local)


def measure_of(tree: Tree) -> Measure:
    members = {"unit": None, "scale": Number("0"), **tree} if isinstance(tree, dict) else {}
    scale = members.get("scale")
    if members.keys() != {"unit", "scale"} or not isinstance(scale, Number) or not re.fullmatch(r"-?\d{1,2}", scale) or int(scale) not in SCALES:
        raise ValueError('a unit is not replaced by an object such as {"unit":"{URI}EUR","scale":3}, with a scale from -18 to 18')
    return Measure(name_of(members["unit"]), int(scale))


def read_map(path: str) -> NameMap:
    """Returns the map in a file. Errors: NotDone."""
    try:
        return NameMap(read_json(path))
    except ValueError as fault:
        raise NotDone(f"{shown_path(path)}: {fault}") from None


class ReportMap(Prefixes):
    """Applies a map to the names of one report. Errors of all methods: NotDone if two names of the report would become equal. A
    measure that is scaled may become equal to another one."""

    def __init__(self, given: NameMap, namespaces: Tree, uris: Uris, limit: OutputLimit) -> None:
        super().__init__(namespaces, uris)
        self.given, self.limit = given, limit
        self.uris = {prefix: given.namespaces.get(uri, uri) for prefix, uri in uris.items()}
        self.namespaces.update(self.uris)
        self.prefixes = {uri: prefix for prefix, uri in self.uris.items() if prefix}
        self.seen: dict[tuple[str, Name], Name] = {}
        self.spellings: dict[Name, str] = {}  # a long name that is repeated takes memory once

    def uri_after(self, uri: str) -> str:
        return self.given.namespaces.get(uri, uri)

    def renamed(self, kind: str, spelled: str) -> str:
        """Returns the new spelling of a name. `kind` is one of TABLES or, for names without a table, another text."""
        old = self.entity(spelled) if kind == "entities" else expanded(spelled, self.before)
        if not old:
            return spelled
        usual = self.given.in_namespace(old)  # what the spelling means in the changed report
        new = self.given.listed(kind, old) or usual
        self.note(kind, old, new)
        return spelled if new == usual else self.spelled(new)

    def entity(self, spelled: str) -> Optional[Name]:
        prefix, sign, identifier = spelled.partition(":")
        uri = self.before.get(prefix)
        return Name(uri, identifier) if sign and uri else None

    def measure(self, spelled: str) -> tuple[str, int]:
        """Returns the new spelling of a measure, and its scale."""
        old = expanded(spelled, self.before)
        if not old:
            return spelled, 0
        usual = self.given.in_namespace(old)
        found = self.given.measure(old) or Measure(usual, 0)
        if not found.scale:
            self.note("units", old, found.name)
        return spelled if found.name == usual else self.spelled(found.name), found.scale

    def unit(self, text: str) -> tuple[str, int]:
        """Returns a unit with the new spellings of its measures, and its scale."""
        made, total, sign = [], 0, 1
        for token in re.split("([*/()])", text):
            sign = -1 if token == "/" else sign
            spelled, scale = (token, 0) if token in ("*", "/", "(", ")", "") else self.measure(token)
            made.append(spelled)
            total += sign * scale
        return "".join(made), total

    def note_kept(self, kind: str, name: Name) -> None:
        """Notes a name that the map can change only by its namespace."""
        self.note(kind, name, self.given.in_namespace(name))

    def note(self, kind: str, old: Name, new: Name) -> None:
        before = self.seen.setdefault((kind, new), old)
        if before != old:
            raise NotDone(f"the map makes {before.shown()} and {old.shown()} equal: both become {new.shown()}")

    def spelled(self, name: Name) -> str:
        """Returns a name with a prefix, which is bound if its namespace has none yet."""
        if name.uri not in self.prefixes:
            prefix = self.unused("map")
            self.prefixes[name.uri] = prefix
            self.uris[prefix] = self.namespaces[prefix] = name.uri
        spelled = self.spellings.setdefault(name, f"{self.prefixes[name.uri]}:{name.local}")
        self.limit.count(len(spelled))
        return spelled
