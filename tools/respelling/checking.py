"""Checks a report against the rules. The order of the faults is that of the report."""
import re
from typing import Any, Iterator, Mapping, Optional

import recheck
import sheets
from names import SPACE, XBRL, Name
from normalising.changes import Path
from normalising.json_text import Number, Tree, pointer_of
from respelling.rules import RESERVED, RULES
from sheets import Sheet

TYPES = {dict: "object", list: "array", str: "text", bool: "boolean", type(None): "null"}
# the members of each object with their types; an exclamation mark follows those that must be there
MEMBERS: Mapping[str, Mapping[str, str]] = {
    "report": {"documentInfo": "object!", "facts": "object!"},
    "documentInfo": {"documentType": "text!", "namespaces": "object", "taxonomy": "array!", "baseURL": "text", "features": "object",
                     "linkTypes": "object", "linkGroups": "object"},
    "fact": {"value": "text null!", "decimals": "integer", "dimensions": "object!", "links": "object"},
    "dimensions": dict.fromkeys(("concept", "entity", "period", "unit", "language", "noteId"), "text"),
}
TEXTS = (None, "token", "normalizedString", "language")  # the types that are derived from string, or that no sheet lists
NCNAME = r"[^\W\d][\w.\-]*"
PREFIX, ENTITY = re.compile(NCNAME), re.compile(rf"({NCNAME}):(.+)", re.DOTALL)
NAME = re.compile(rf"({NCNAME}):({NCNAME})")
MOMENT = re.compile(r"(\d{4}-\d\d-\d\dT\d\d:\d\d:\d\d)(\.\d+)?(Z|[+-]\d\d:\d\d)?", re.ASCII)
NUMBER = re.compile(rf"[{SPACE}]*([+-]?(\d+(\.\d*)?|\.\d+)([eE][+-]?\d+)?|[+-]?INF|NaN)[{SPACE}]*", re.ASCII)
FEATURES: Mapping[str, list[Any]] = {"allowedDuplicates": recheck.RANKS, "canonicalValues": [True, False]}
NOTE, PURE, FOOTNOTE = Name(XBRL, "note"), Name("http://www.xbrl.org/2003/instance", "pure"), RESERVED["linkTypes"]["footnote"]


def type_of(tree: Tree) -> str:
    if isinstance(tree, Number):
        return "integer" if re.fullmatch(r"-?\d+", tree) else "number"
    return TYPES[type(tree)]


class Checker:
    """Collects the faults of a report, each as a line with the rule, its code, the place, and what to do."""

    def __init__(self, sheet: Optional[Sheet]) -> None:
        self.sheet, self.lines, self.uris = sheet, list[str](), dict[str, str]()
        self.notes: set[str] = set()
        self.uncompared = 0  # facts that are not compared as duplicates

    def fault(self, rule: str, *path: str) -> None:
        self.lines.append(f"{rule} {RULES[rule].code} at {pointer_of(path) or 'the root'}: {RULES[rule].advice}")

    def check(self, tree: Tree) -> None:
        report = self.object("report", tree)
        info = self.object("documentInfo", report["documentInfo"], "documentInfo") if "documentInfo" in report else {}
        self.check_information(info)
        facts: Mapping[str, Tree] = report.get("facts", {})
        self.notes = {own for own, fact in facts.items() if self.concept_of(fact) == NOTE}
        for own, fact in facts.items():
            self.check_fact(own, fact, info, facts)
        if self.sheet:
            self.check_duplicates(self.sheet, info, facts)

    def object(self, kind: str, tree: Tree, *path: str) -> dict[str, Tree]:
        """Checks the members of an object. Returns those that the format defines and that have the right type."""
        known = MEMBERS[kind]
        if not self.has_type(tree, "object", path):
            return {}
        for key in [key for key, types in known.items() if types.endswith("!") and key not in tree]:
            self.fault("required-member", *path, key)
        for key in tree:
            if ":" in key:
                self.name(key, (*path, key))
            elif key not in known:
                self.fault("unknown-member", *path, key)
        return {key: tree[key] for key in known if key in tree and self.has_type(tree[key], known[key], (*path, key))}

    def has_type(self, tree: Tree, types: str, path: Path) -> bool:
        has = type_of(tree) in types.rstrip("!").split()
        if not has:
            self.fault("member-type", *path)
        return has

    def texts(self, info: Mapping[str, Tree], table: str) -> dict[str, str]:
        """Returns the members of a table that are texts."""
        members: Mapping[str, Tree] = info.get(table, {})
        return {key: text for key, text in members.items() if self.has_type(text, "text", ("documentInfo", table, key))}

    def name(self, text: str, path: Path, rule: str = "name-form", form: re.Pattern[str] = NAME) -> Optional[Name]:
        """Returns the name that a text denotes, or None after a fault."""
        parts = form.fullmatch(text)
        if not parts or parts[1] not in self.uris:
            self.fault("unbound-prefix" if parts else rule, *path)
        return Name(self.uris[parts[1]], parts[2]) if parts and parts[1] in self.uris else None

    def check_information(self, info: Mapping[str, Tree]) -> None:
        if info.get("documentType", recheck.DOCUMENT_TYPE) != recheck.DOCUMENT_TYPE:
            self.fault("document-type", "documentInfo", "documentType")
        self.uris = self.texts(info, "namespaces")
        for prefix, uri in self.uris.items():
            if not PREFIX.fullmatch(prefix):
                self.fault("prefix-form", "documentInfo", "namespaces", prefix)
            if not uri or any(sign in uri for sign in SPACE):
                self.fault("uri-form", "documentInfo", "namespaces", prefix)
        for table, reserved in RESERVED.items():
            self.check_reserved(table, reserved, self.texts(info, table) if table != "namespaces" else self.uris)
        for number, reference in enumerate(info.get("taxonomy", [])):
            self.has_type(reference, "text", ("documentInfo", "taxonomy", str(number)))
        if info.get("taxonomy") == []:
            self.fault("taxonomy-empty", "documentInfo", "taxonomy")
        features: Mapping[str, Tree] = info.get("features", {})
        for key, value in features.items():
            name = self.name(key, ("documentInfo", "features", key))
            if name and name.uri == XBRL and value not in FEATURES.get(name.local, [value]):
                self.fault("feature-value", "documentInfo", "features", key)

    def check_reserved(self, table: str, reserved: Mapping[str, str], bound: Mapping[str, str]) -> None:
        own = {uri: prefix for prefix, uri in reserved.items()}
        for prefix, uri in bound.items():
            if reserved.get(prefix, uri) != uri:
                self.fault("reserved-prefix", "documentInfo", table, prefix)
            elif own.get(uri, prefix) != prefix:
                self.fault("reserved-uri", "documentInfo", table, prefix)

    def concept_of(self, fact: Tree) -> Optional[Name]:
        parts = NAME.fullmatch(str(recheck.at(recheck.at(fact, "dimensions"), "concept")))
        return Name(self.uris.get(parts[1], ""), parts[2]) if parts else None

    def check_fact(self, own: str, tree: Tree, info: Mapping[str, Tree], facts: Mapping[str, Tree]) -> None:
        path = ("facts", own)
        fact = self.object("fact", tree, *path)
        given: Mapping[str, Tree] = fact.get("dimensions", {})
        core = self.object("dimensions", given, *path, "dimensions") if "dimensions" in fact else {}
        if "dimensions" in fact and "concept" not in given:
            self.fault("concept-missing", *path, "dimensions")
        concept = self.name(core["concept"], (*path, "dimensions", "concept")) if "concept" in core else None
        self.check_core(core, (*path, "dimensions"))
        self.check_axes(given, (*path, "dimensions"))
        if "decimals" in fact and fact.get("value", "") is None:
            self.fault("decimals-on-nil", *path, "decimals")
        self.check_note(own, concept == NOTE, given)
        self.check_links(fact.get("links", {}), (*path, "links"), info, facts)
        if self.sheet and concept and concept != NOTE:
            self.check_kind(self.sheet, concept, fact, path)

    def check_core(self, core: Mapping[str, str], path: Path) -> None:
        if "entity" in core:
            self.name(core["entity"], (*path, "entity"), "entity-form", ENTITY)
        if "period" in core:
            self.check_period(core["period"], (*path, "period"))
        if "unit" in core:
            self.check_unit(core["unit"], (*path, "unit"))
        language = core.get("language", "en")
        if not recheck.LANGUAGE.fullmatch(language) or language != language.lower():
            self.fault("language-case" if recheck.LANGUAGE.fullmatch(language) else "language-form", *path, "language")

    def check_period(self, text: str, path: Path) -> None:
        ends = [MOMENT.fullmatch(part) for part in text.split("/")]
        moments = [*filter(None, (recheck.read_moment(end[1]) for end in ends if end))]
        if len(ends) > 2 or len(moments) < len(ends):
            self.fault("period-form", *path)
        elif len({end[3] for end in ends if end}) == 1 and len(ends) == 2 and moments[1] <= moments[0]:  # ends with one time zone
            self.fault("period-order", *path)

    def check_unit(self, text: str, path: Path) -> None:
        if not recheck.UNIT.fullmatch(text):
            self.fault("unit-form", *path)
            return
        sides = text.split("/")
        measures = [side.strip("()").split("*") for side in sides]
        if any((side[0] == "(") != (len(sides) == 2 and "*" in side) for side in sides):
            self.fault("unit-parentheses", *path)
        if any(side != sorted(side) for side in measures):
            self.fault("unit-order", *path)
        if [self.name(measure, path, "unit-form") for side in measures for measure in side] == [PURE] and len(sides) == 1:
            self.fault("unit-pure", *path)

    def check_axes(self, given: Mapping[str, Tree], path: Path) -> None:
        names: set[Name] = set()
        for key in [key for key in given if ":" in key]:
            self.has_type(given[key], "text null", (*path, key))
            parts = NAME.fullmatch(key)
            axis = Name(self.uris[parts[1]], parts[2]) if parts and parts[1] in self.uris else None  # `object` tells its faults
            if axis in names:
                self.fault("repeated-dimension", *path, key)
            if axis and self.sheet:
                self.check_axis(self.sheet.dimensions.get(axis), given[key], (*path, key))
            names |= {axis} if axis else set()

    def check_axis(self, kind: Optional[str], member: Tree, path: Path) -> None:
        if kind is None:
            self.fault("unknown-dimension", *path)
        elif kind == "explicit" and type_of(member) == "text":
            self.name(member, path, "explicit-member")
        elif kind == "explicit" and member is None:
            self.fault("explicit-member", *path)

    def check_note(self, own: str, is_note: bool, given: Mapping[str, Tree]) -> None:
        path = ("facts", own, "dimensions")
        if not is_note:
            if "noteId" in given:
                self.fault("note-id-misplaced", *path, "noteId")
            return
        if given.get("noteId", own) != own:
            self.fault("note-id-value", *path, "noteId")
        for key, rule in (("noteId", "note-id-missing"), ("language", "note-language")):
            if key not in given:
                self.fault(rule, *path)
        for key in given:
            if key not in ("concept", "noteId", "language"):
                self.fault("note-dimension", *path, key)

    def check_links(self, links: Mapping[str, Tree], path: Path, info: Mapping[str, Tree], facts: Mapping[str, Tree]) -> None:
        types, groups = (recheck.members(info.get(table)) for table in ("linkTypes", "linkGroups"))
        for kind, of_kind in links.items():
            if kind not in types:
                self.fault("link-type", *path, kind)
            for group, targets in of_kind.items() if self.has_type(of_kind, "object", (*path, kind)) else ():
                if group not in groups:
                    self.fault("link-type", *path, kind, group)
                if self.has_type(targets, "array", (*path, kind, group)):
                    self.check_targets(targets, types.get(kind) == FOOTNOTE, (*path, kind, group), facts)

    def check_targets(self, targets: list[Tree], is_footnote: bool, path: Path, facts: Mapping[str, Tree]) -> None:
        for number, target in enumerate(targets):
            if not self.has_type(target, "text", (*path, str(number))):
                continue
            if target not in facts:
                self.fault("link-target", *path, str(number))
            elif is_footnote and target not in self.notes:
                self.fault("link-note", *path, str(number))

    def check_kind(self, sheet: Sheet, concept: Name, fact: Mapping[str, Tree], path: Path) -> None:
        kind, given = sheet.concepts.get(concept), recheck.members(fact.get("dimensions"))
        if kind is None:
            self.fault("unknown-concept", *path, "dimensions", "concept")
            return
        is_text = kind == "text" and sheet.types[sheets.TYPES].get(concept) in TEXTS
        misplaced = [("unit", kind != "numeric", "dimensions"), ("language", not is_text, "dimensions"), ("decimals", kind != "numeric", "")]
        for key, is_misplaced, part in misplaced:
            if is_misplaced and key in (given if part else fact):
                self.fault(f"misplaced-{key}", *path, *[part] * bool(part), key)
        if type_of(fact.get("value")) == "text":
            self.check_text(concept in sheet.sets, kind, str(fact.get("value")), (*path, "value"))

    def check_text(self, is_set: bool, kind: str, text: str, path: Path) -> None:
        if kind == "numeric" and not NUMBER.fullmatch(text):
            self.fault("number-form", *path)
        elif kind == "name":
            self.name(text.strip(SPACE), path, "name-value")
        elif is_set:
            items = re.findall(rf"[^{SPACE}]+", text)
            named = [self.name(item, path, "set-value") for item in items]
            if len({*items}) < len(named):
                self.fault("set-value", *path)

    def check_duplicates(self, sheet: Sheet, info: Mapping[str, Tree], facts: Mapping[str, Tree]) -> None:
        """Compares the facts that tools/recheck can read. The others, such as numbers with exponents, are counted."""
        read = [*readable(facts.values(), self.uris, {"concepts": sheet.concepts, "dimensions": sheet.dimensions})]
        self.uncompared = len(facts) - len(read)
        declared = [level for level in recheck.declared_levels(info) if level in recheck.RANKS]
        if declared and recheck.RANKS.index(recheck.level_of(read)) > recheck.RANKS.index(declared[-1]):
            self.fault("duplicates", "documentInfo", "features")


def readable(facts: Any, uris: Mapping[str, str], sheet: recheck.Sheet) -> Iterator[recheck.Fact]:
    for fact in facts:
        try:
            yield recheck.read_fact(with_integers(fact), uris, sheet, "")
        except recheck.Refused:
            continue


def with_integers(fact: Tree) -> Tree:
    """Returns a fact whose decimals are an int, if they are an integer."""
    decimals = recheck.at(fact, "decimals")
    return {**fact, "decimals": int(decimals)} if type_of(decimals) == "integer" and len(decimals) < 9 else fact
