"""Writes the text of a sheet and of its file of types, and combines several sheets."""
import json
import os
from typing import Any, Iterable, Mapping

from names import Name
from process import NotDone
from sheet_making.files import Limits, read_regular, reading
from sheet_making.kinds import Kinds
from sheets import GROUPS, SETS, TABLES, TYPES, Sheet, types_path

SMALL = 1 << 16  # characters: so many types may stand in any sheet, however small
SHARE = 10  # larger types may stand in a sheet that is so many times their length


def union(paths: Iterable[str], limits: Limits) -> Kinds:
    kinds = Kinds()
    for path in paths:
        with reading(path):
            sheet = sheet_at(path, limits)
            for prefix, uri in sheet.uris.items():
                kinds.spelled.add(prefix, uri)
            concepts = {**sheet.concepts, **dict.fromkeys(sheet.sets, "set")}
            for of, listed in zip(kinds.tables.values(), (concepts, sheet.dimensions)):
                for name, kind in listed.items():
                    before = of.setdefault(name, kind)
                    if {before, kind} == {"text", "set"}:
                        of[name] = "set"
                    elif before != kind:
                        raise NotDone(f"{path}: {name.shown()} is {kind}, but {before} in an earlier sheet")
            for member, groups in sheet.types.items():
                for name, group in groups.items():
                    if name in sheet.concepts or name in sheet.dimensions:
                        kinds.types.add(member, name, group)
    return kinds


def sheet_at(path: str, limits: Limits) -> Sheet:
    """Returns a sheet, with the types in the file beside it if there is one. Errors: those of `read_regular`, and ValueError."""
    beside = types_path(path)
    paths = [path, beside] if os.path.isfile(beside) else [path]
    trees = [json.loads(read_regular(each, limits).decode("utf-8-sig")) for each in paths]
    text_of(trees).encode()  # fails for half a surrogate pair
    return Sheet(*trees)


class Texts:
    """The text of a sheet, and of a file with all types. Names are sorted. A concept of the kind set is listed as a text, and
    also under SETS. Unless the types are apart, the sheet also lists TYPES, if they make a long sheet at most a SHARE-th
    longer."""

    def __init__(self, kinds: Kinds, is_apart: bool) -> None:
        self.prefixes = kinds.spelled.for_uris({name.uri for table in kinds.tables.values() for name in table})
        start = {"namespaces": {prefix: uri for uri, prefix in self.prefixes.items()}}
        tables = {table: self.spelled(kinds.tables[table]) for table in TABLES}
        sets = [name for name, kind in tables["concepts"].items() if kind == "set"]
        tables["concepts"].update(dict.fromkeys(sets, "text"))
        sheet: dict[str, Any] = {**start, **tables, **({SETS: sets} if sets else {})}
        groups = {member: grouped(self.spelled(of), GROUPS[member]) for member, of in kinds.types.items() if is_apart or member == TYPES}
        self.sheet, self.types = text_of(sheet), text_of({**start, **groups}) if is_apart else ""
        listed = "" if is_apart or not groups[TYPES] else text_of({TYPES: groups[TYPES]})
        self.is_large = len(listed) > max(SMALL, len(self.sheet) // SHARE)
        if listed and not self.is_large:
            self.sheet = f"{self.sheet[:-2]},{listed[1:]}"

    def spelled(self, of: Mapping[Name, str]) -> dict[str, str]:
        return dict(sorted((f"{self.prefixes[name.uri]}:{name.local}", kind) for name, kind in of.items()))


def grouped(of: Mapping[str, str], groups: Iterable[str]) -> dict[str, list[str]]:
    """Returns the names of each group that has any."""
    named: dict[str, list[str]] = {group: [] for group in groups}
    for name, group in of.items():
        named[group].append(name)
    return {group: names for group, names in named.items() if names}


def text_of(tree: Any) -> str:
    return json.dumps(tree, ensure_ascii=False, separators=(",", ":")) + "\n"
