"""Concept sheets, and the types of their names. A sheet must satisfy the conditions of `xbrlmerge`, and list each concept in
xbrlmerge:sets as a text. The types are in members that the program ignores: in the sheet, or in a file of its own beside it."""
import os
from typing import Any, Dict, Mapping, Optional

from names import PART, XBRL, Name, Uris, expanded, uris_of
from normalising.json_text import read_json
from process import NotDone, shortened
from text_files import STANDARD, kind_of_sheet, looks_like, shown_path

SETS = "xbrlmerge:sets"  # a member that the program ignores
TABLES = {"concepts": ("numeric", "text", "name"), "dimensions": ("explicit", "typed")}
MEMBERS = (*TABLES, "namespaces")
TYPES, PERIODS, ITEMS = "xbrlmerge:types", "xbrlmerge:periods", "xbrlmerge:items"
# The groups of each member, which is an object from a group to a list of concepts and typed dimensions. TYPES lists names whose
# values are compared as texts, although one value has several spellings. A dateUnion is a date or a dateTime; a token is any text
# whose white space does not count, except at one place between two parts.
GROUPS = {
    TYPES: tuple("boolean date dateTime dateUnion time gYear gYearMonth gMonth gMonthDay gDay integer decimal float double token"
                 " normalizedString language QName anyURI duration hexBinary base64Binary".split()),
    PERIODS: ("instant", "duration"),
    ITEMS: ("monetary", "shares", "pure"),
}
Kinds = Mapping[Name, str]


class Types(Dict[str, Dict[Name, str]]):
    """The group of each name, by the member that lists it: TYPES, PERIODS or ITEMS."""

    def __init__(self) -> None:
        super().__init__({member: {} for member in GROUPS})

    def add(self, member: str, name: Name, group: str) -> None:
        """Errors: ValueError if the name is in another group."""
        before = self[member].setdefault(name, group)
        if before != group:
            raise ValueError(f"{name.shown()} is {group} in {member}, but {before} earlier")


def types_of(*trees: Any) -> Types:
    """Returns the types in sheets and in files of types. Errors: ValueError, also if a name is in two groups."""
    types = Types()
    for tree in trees:
        members = {member: tree.get(member, {}) for member in GROUPS}
        uris = uris_of(tree.get("namespaces"))
        for member, groups in members.items():
            if not isinstance(groups, dict) or not all(isinstance(names, list) for names in groups.values()):
                raise ValueError(f"{member} is not an object of lists")
            for group, names in groups.items():
                if group not in GROUPS[member]:
                    raise ValueError(f"{member} has the group {shortened(group)}, which is not one of {', '.join(GROUPS[member])}")
                for spelled in names:
                    types.add(member, name_in(uris, spelled), group)
    return types


def types_path(sheet: str) -> str:
    """Returns the path of the file of types beside a sheet."""
    return f"{sheet[:-5] if sheet.endswith('.json') else sheet}.types.json"


def name_in(uris: Uris, spelled: Any) -> Name:
    name = expanded(spelled, uris)
    if not name:
        raise ValueError(f"{shortened(str(spelled))} is not a name, or its prefix is not bound")
    if name.uri == XBRL:
        raise ValueError(f"{shortened(spelled)} is in the namespace {XBRL}, which is reserved")
    return name


class Sheet:
    """The kinds of names, the concepts with sets, and the types, also of the file `beside` the sheet. Errors: ValueError."""

    def __init__(self, tree: Any, beside: Any = None) -> None:
        if not isinstance(tree, dict) or any(":" not in key and key not in MEMBERS for key in tree):
            raise ValueError("it is not a sheet")
        members = {key: tree.get(key, {}) for key in MEMBERS}
        if not all(isinstance(member, dict) for member in members.values()):
            raise ValueError("it is not a sheet: a member is not an object")
        self.uris = uris_of(members["namespaces"])
        for prefix in members["namespaces"]:
            if not PART.fullmatch(prefix) or not self.uris.get(prefix):
                raise ValueError(f"{shortened(prefix)} is not a prefix, or its URI is empty or not a text")
        self.concepts, self.dimensions = (self.kinds_of(members[table], kinds) for table, kinds in TABLES.items())
        sets = tree.get(SETS, [])
        if not isinstance(sets, list):
            raise ValueError(f"{SETS} is not a list")
        self.sets = {name_in(self.uris, spelled) for spelled in sets}
        if any(self.concepts.get(name) != "text" for name in self.sets):
            raise ValueError("a set is not listed as a text")
        if not isinstance(beside, (dict, type(None))):
            raise ValueError("the file beside it has no types")
        self.types = types_of(tree, beside or {})

    def kinds_of(self, table: Mapping[str, Any], known: tuple[str, ...]) -> Kinds:
        kinds: dict[Name, str] = {}
        for spelled, kind in table.items():
            name = name_in(self.uris, spelled)
            if kind not in known:
                raise ValueError(f"{name.shown()} has a kind that is not one of {', '.join(known)}")
            if kinds.setdefault(name, kind) != kind:
                raise ValueError(f"{name.shown()} is {kind}, but {kinds[name]} earlier")
        return kinds


def sheet_at(path: Optional[str]) -> Sheet:
    """Returns the sheet in a file, with the types in the file beside it; an empty sheet without a file. Errors: NotDone."""
    tree = {} if path is None else read_json(path, is_sheet=True)
    beside = types_path(path or "")
    has_types = path not in (None, STANDARD) and os.path.isfile(beside)
    try:
        return Sheet(tree, read_json(beside, is_sheet=True) if has_types else {})
    except ValueError as fault:
        raise NotDone(f"{shown_path(path or '')}: {shortened(str(fault))}{looks_like(kind_of_sheet(tree))}") from None
