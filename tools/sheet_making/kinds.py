"""The kinds of concepts and dimensions."""
from __future__ import annotations

import functools
import re
from typing import Callable, Iterator, Mapping, NamedTuple, Optional

from names import XBRL, Name, Spelled
from sheet_making.schemas import ANY_TYPE, XBRLDT, XBRLI, XS, Declaration, Derivation
from sheets import GROUPS, ITEMS, PERIODS, TABLES, TYPES, Types

ENUMERATIONS_1, ENUMERATIONS_2 = "http://xbrl.org/2014/extensible-enumerations", "http://xbrl.org/2020/extensible-enumerations-2.0"
ITEM_TYPE = "ItemType"  # the end of the names of item types
REGISTRY = "http://www.xbrl.org/dtr/type"  # replaces each namespace of the data type registry
HEADS = {Name(XBRLI, "item"): "concepts", Name(XBRLDT, "dimensionItem"): "dimensions"}
# Of the elements in the specifications, only those in HEADS can be heads of concepts or dimensions. Namespaces at xbrl.org that
# do not match SPECIFICATION belong to taxonomies.
SPECIFICATION = re.compile(r"https?://(www\.w3\.org/|(www\.)?xbrl\.org/(\d{4}|dtr|lrr)/)")
# The elements of these specifications that can be heads are known: those in HEADS, and OTHER_HEADS.
OF_HEADS = re.compile(r"https?://(www\.)?xbrl\.org/\d{4}/(instance|xbrldt)")
OTHER_HEADS = (Name(XBRLI, "tuple"), Name(XBRLDT, "hypercubeItem"))
EXTENSIBLE = re.compile(r"https?://(www\.)?xbrl\.org/(.*/)?extensible-enumerations")
REGISTERED = re.compile(r"http://www\.xbrl\.org/dtr/type/(numeric|non-numeric|\d{4}-\d\d-\d\d)")
# The item types of XBRL 2.1 (section 5.1.1.3) except fractions, of extensible enumerations 1.0 and 2.0, and those of the data type
# registry (http://www.xbrl.org/dtr/dtr.xml). They were written down from memory, not read from schemas. If the registry's schema
# is read, its other types are followed to their bases. Otherwise their names decide.
ITEM_TYPES = (
    ("numeric", XBRLI, "decimal float double integer nonPositiveInteger negativeInteger long int short byte monetary"),
    ("numeric", XBRLI, "nonNegativeInteger unsignedLong unsignedInt unsignedShort unsignedByte positiveInteger shares"),
    ("numeric", XBRLI, "pure"),
    ("text", XBRLI, "string boolean hexBinary base64Binary anyURI duration dateTime time date gYearMonth gYear"),
    ("text", XBRLI, "gMonthDay gDay gMonth normalizedString token language Name NCName"),
    ("name", XBRLI, "QName"),
    ("name", ENUMERATIONS_1, "enumeration"),
    ("name", ENUMERATIONS_2, "enumeration"),
    ("set", ENUMERATIONS_2, "enumerationSet"),
    ("numeric", REGISTRY, "area electricCharge electricCurrent energy energyPerMonetary flow force frequency ghgEmissions"),
    ("numeric", REGISTRY, "ghgEmissionsPerMonetary irradiance insolation length mass memory monetaryPerArea monetaryPerDuration"),
    ("numeric", REGISTRY, "monetaryPerEnergy monetaryPerLength monetaryPerMass monetaryPerVolume noDecimalsMonetary"),
    ("numeric", REGISTRY, "nonNegativeMonetary nonNegativeNoDecimalsMonetary perShare percent perUnit planeAngle power pressure"),
    ("numeric", REGISTRY, "speed temperature voltage volume weight"),
    ("text", REGISTRY, "domain durationString escaped gYearList noLangString noLangToken textBlock xml xmlNodes"),
    (None, REGISTRY, "prefixedContent SQName SQNames"),
)
KINDS = {Name(uri, stem + ITEM_TYPE): kind for kind, uri, stems in ITEM_TYPES for stem in stems.split()}
ENDS = {stem[:1].upper() + stem[1:]: Name(uri, stem + ITEM_TYPE) for _, uri, stems in ITEM_TYPES for stem in stems.split()}
ITEMS_OF = {"monetary": "monetary", "noDecimalsMonetary": "monetary", "nonNegativeMonetary": "monetary",
            "nonNegativeNoDecimalsMonetary": "monetary", "shares": "shares", "pure": "pure", "percent": "pure"}
INTEGERS = ("integer nonPositiveInteger negativeInteger long int short byte nonNegativeInteger unsignedLong unsignedInt unsignedShort"
            " unsignedByte positiveInteger").split()
TOKENS = "Name NCName NMTOKEN NMTOKENS ID IDREF IDREFS ENTITY ENTITIES gYearList noLangToken".split()  # by their white space
RENAMED = {**dict.fromkeys(INTEGERS, "integer"), **dict.fromkeys(TOKENS, "token")}
# The groups of TYPES for the types in schemas. In XBRL 2.1 (section 5.1.1.3), a dateTimeItemType is a date or a dateTime.
SPELLINGS = {
    **{Name(XS, local): RENAMED.get(local, local) for local in (*GROUPS[TYPES], *RENAMED)},
    **{name: RENAMED.get(stem, stem) for name in KINDS for stem in [name.local[: -len(ITEM_TYPE)]]
       if RENAMED.get(stem, stem) in GROUPS[TYPES] and name.uri in (XBRLI, REGISTRY)},
    **{Name(XBRLI, local + end): "decimal" for local in ("monetary", "shares", "pure", "nonZeroDecimal") for end in ("", ITEM_TYPE)},
    Name(XBRLI, "dateTimeItemType"): "dateUnion",
    Name(XBRLI, "dateUnion"): "dateUnion",
}
SPACES = {"collapse": "token", "replace": "normalizedString"}  # the group of a string, by its facet whiteSpace
STRING = Name(XS, "string")
ANY = [Name(XS, local) for local in ("anyType", "anySimpleType")]
PREFIXED = [Name(XS, local) for local in ("QName", "NOTATION")]


@functools.lru_cache(maxsize=None)
def is_specification(uri: str) -> bool:
    return bool(SPECIFICATION.match(uri))


@functools.lru_cache(maxsize=None)
def is_of_enumerations(uri: str) -> bool:
    return bool(EXTENSIBLE.match(uri))


def listed(name: Name) -> Name:
    """Returns the name of a type as KINDS spells it."""
    return Name(REGISTRY, name.local) if REGISTERED.fullmatch(name.uri) else name


class Kinds:
    """The kinds in each table of a sheet, the types and the prefixes. The kind "set" is written as "text", and also listed under SETS."""

    def __init__(self) -> None:
        self.tables: dict[str, dict[Name, str]] = {table: {} for table in TABLES}
        self.types, self.spelled = Types(), Spelled()

    def add(self, name: Name, judgement: Judgement) -> None:
        self.tables[judgement.table][name] = judgement.kind
        if judgement.type:
            self.types.add(TYPES, name, judgement.type)
        if judgement.period in GROUPS[PERIODS]:
            self.types.add(PERIODS, name, judgement.period)
        if judgement.item:
            self.types.add(ITEMS, name, judgement.item)


class Judgement(NamedTuple):
    """How a sheet lists an element. Only the period may be one that no sheet lists."""

    table: str
    kind: str
    type: str = ""
    period: str = ""
    item: str = ""
    doubt: str = ""  # a reason to name the element, although it is listed


class LeftOut(Exception):
    """The reason to leave an element out."""


def kinds_of(elements: Mapping[Name, Declaration], types: Mapping[Name, Derivation],
             domains: Mapping[Name, Optional[Name]]) -> tuple[Kinds, list[str]]:
    """Returns the kinds of concepts and dimensions, and a line for each element that is left out or in doubt, if reports might
    use it. `domains` has the domains of typed dimensions."""
    judge = Judge({name: each for name, each in elements.items() if name.uri not in (XBRLI, XBRLDT)}, types, domains)
    kinds, lines = Kinds(), []
    for name in sorted(judge.elements):
        try:
            judgement = judge.judged(name)
        except LeftOut as reason:
            lines.append(f"{name.shown()} is left out: {reason}")
            continue
        if judgement:
            kinds.add(name, judgement)
            lines += [f"{name.shown()} is listed as {judgement.kind}: {judgement.doubt}"] * bool(judgement.doubt)
    return kinds, lines


class Judge:
    """Judges an element by the ends of two chains: its base types, and its heads. A head is the name of a substitution group."""

    def __init__(self, elements: Mapping[Name, Declaration], types: Mapping[Name, Derivation],
                 domains: Mapping[Name, Optional[Name]]) -> None:
        self.elements, self.types, self.domains = elements, types, domains
        self.heads = ends_of({name: each.head for name, each in elements.items()})
        # an element without a type has the type of its head
        self.typed = ends_of({name: each.head for name, each in elements.items() if not each.type.base})
        followed = {name: each for name, each in types.items() if is_followed(name)}
        self.bases = ends_of({name: each.base for name, each in followed.items()})
        self.faceted = ends_of({name: each.base for name, each in followed.items() if not each.space})
        self.prefixed = made_of(types, is_prefixed)

    def judged(self, name: Name) -> Optional[Judgement]:
        """Returns how a sheet lists an element, or None if reports cannot use it. Errors: LeftOut."""
        head, element = self.heads[name], self.elements[name]
        if head and is_unknown(head):
            raise LeftOut(f"its head {head.shown()} is unknown, or leads to itself")
        table = HEADS.get(head) if head else None
        if table and name.uri in ("", XBRL):
            raise LeftOut("its namespace is empty or reserved")
        if table == "dimensions":
            return self.typed_dimension(name) if element.domain is not None else Judgement(table, "explicit")
        return self.concept(name, element) if table and not element.is_abstract else None

    def concept(self, name: Name, element: Declaration) -> Judgement:
        derivation = self.derivation(name)
        last = self.last(derivation)
        known, doubt = listed(last), ""
        end = next((end for end in ends_in(last.local) if REGISTERED.fullmatch(last.uri)), None) if known not in KINDS else None
        if end:
            known, doubt = ENDS[end], f"the registry's type {last.shown()} is not known, and its name ends in {end}"
        kind = KINDS.get(known)
        if not kind:
            raise LeftOut(f"its type {last.shown()} is not known, or has no kind")
        is_text = kind in ("text", "name")
        return Judgement("concepts", kind, self.type_of(derivation, known) if is_text else "", element.period,
                         "" if doubt else ITEMS_OF.get(known.local[: -len(ITEM_TYPE)], ""), doubt)

    def typed_dimension(self, name: Name) -> Judgement:
        domain = self.domains.get(name)
        if not domain:
            raise LeftOut("the element of its typed domain is not found")
        derivation = self.derivation(domain)
        last = self.last(derivation)
        if any(part in self.prefixed or is_prefixed(part) for part in (last, derivation.base or last, *derivation.parts)):
            raise LeftOut(f"the values of its typed domain {domain.shown()} contain prefixes, which would not be expanded")
        if not (last in ANY or last == STRING or last in SPELLINGS or listed(last) in KINDS):
            raise LeftOut(f"the type {last.shown()} of its typed domain {domain.shown()} is not known")
        return Judgement("dimensions", "typed", self.type_of(derivation, listed(last)))

    def derivation(self, name: Name) -> Derivation:
        """Returns the type of an element, which may be that of its head."""
        having = self.elements.get(self.typed.get(name, name) or name)
        return having.type if having and having.type.base else Derivation(ANY_TYPE)

    def last(self, derivation: Derivation) -> Name:
        """Returns the base type at the end of the chain from a type."""
        first = derivation.base or ANY_TYPE
        return self.bases.get(first, first) or ANY_TYPE

    def type_of(self, derivation: Derivation, last: Name) -> str:
        """Returns the group of TYPES for the values of a type, whose chain ends at `last`. A facet may change the white space of a
        string. The group is empty if values have one spelling."""
        group = SPELLINGS.get(last, "")
        first = derivation.base or ANY_TYPE
        nearest = self.types.get(self.faceted.get(first, first) or ANY_TYPE)
        space = derivation.space or (nearest.space if nearest else None)
        return SPACES.get(space or "", group) if group in ("", "normalizedString") and last not in ANY else group


def is_unknown(head: Name) -> bool:
    """Returns whether the head at the end of a chain may be the head of a concept or dimension, but is not known."""
    if OF_HEADS.fullmatch(head.uri):
        return head not in HEADS and head not in OTHER_HEADS
    return not is_specification(head.uri)


def is_prefixed(name: Name) -> bool:
    """Returns whether values of the type contain prefixes, or are written as names."""
    return name in PREFIXED or KINDS.get(listed(name), "text") in (None, "name", "set")


def ends_in(local: str) -> Iterator[str]:
    """Returns the names of item types in which the name of an item type ends, the longest first. Each begins with a capital."""
    stem = local[: -len(ITEM_TYPE)] if local.endswith(ITEM_TYPE) else ""
    return (stem[start:] for start, each in enumerate(stem) if each.isupper() and stem[start:] in ENDS)


def made_of(types: Mapping[Name, Derivation], condition: Callable[[Name], bool]) -> set[Name]:
    """Returns the named types that fulfil a condition, and those that are made of one that does."""
    users: dict[Name, list[Name]] = {}
    for name, derivation in types.items():
        for part in filter(None, (derivation.base, *derivation.parts)):
            users.setdefault(part, []).append(name)
    found = [name for name in {*users, *types} if condition(name)]
    known = set(found)
    for name in found:
        new = [user for user in users.get(name, ()) if user not in known]
        known.update(new)
        found += new
    return known


def is_followed(name: Name) -> bool:
    """Returns whether a type has the kind of its base type."""
    return listed(name) not in KINDS and not is_of_enumerations(name.uri)


def ends_of(following: Mapping[Name, Optional[Name]]) -> dict[Name, Optional[Name]]:
    """Returns the end of the chain from each name: None, a name that the mapping lacks, or a name that the chain repeats. The
    ends of visited names are reused, so each name is visited once."""
    ends: dict[Name, Optional[Name]] = {}
    for start in following:
        path: dict[Name, None] = {}
        name: Optional[Name] = start
        while name and name in following and name not in ends and name not in path:
            path[name] = None
            name = following[name]
        end = ends.get(name, name) if name else None
        ends.update(dict.fromkeys(path, end))
    return ends
