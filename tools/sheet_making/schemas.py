"""Reads one schema: its declarations, and its references to other schemas."""
import functools
import sys
from dataclasses import dataclass
from typing import NamedTuple, Optional

from names import PART, SPACE, Name
from process import shortened
from sheet_making.xml_reading import Element, Visitor

XS = "http://www.w3.org/2001/XMLSchema"
XBRLI, XBRLDT = "http://www.xbrl.org/2003/instance", "http://xbrl.org/2005/xbrldt"
ANY_TYPE = Name(XS, "anyType")
SIMPLE = Name(XS, "simpleType")
TYPES = (Name(XS, "complexType"), SIMPLE)
ELEMENT, IMPORT = Name(XS, "element"), Name(XS, "import")
REFERENCES = (Name(XS, "include"), IMPORT, Name(XS, "redefine"))
DERIVATIONS = tuple(Name(XS, local) for local in ("restriction", "extension", "list", "union"))
SPACE_FACET = Name(XS, "whiteSpace")


class Derivation(NamedTuple):
    """What a type is made of, or the type of an element."""

    base: Optional[Name] = None
    parts: tuple[Name, ...] = ()  # all types that a simple type names: bases, items of lists and members of unions
    space: Optional[str] = None  # the facet whiteSpace


@functools.lru_cache(1_000)
def based_on(base: Optional[Name]) -> Derivation:
    """Returns a derivation that many elements share."""
    return Derivation(base)


class Declaration(NamedTuple):
    """The declaration of an element in a schema, with the parts that a sheet needs."""

    head: Optional[Name]  # the name of its substitution group
    type: Derivation  # if a type is declared inside the element, what this is made of
    is_abstract: bool
    domain: Optional[str]  # the reference to its typed domain
    period: str  # its period type


@dataclass
class Part:
    """An element or a type that is being read."""

    name: Name
    identifier: Optional[str]
    is_type: bool
    head: Optional[Name] = None
    type: Optional[Name] = None  # the type, or the base of the type that is declared inside or is the part
    parts: Optional[dict[Name, None]] = None
    space: Optional[str] = None
    is_abstract: bool = False
    domain: Optional[str] = None
    period: str = ""
    type_level: int = 0  # the level of the type whose derivation is read; 0 outside a type
    facet_level: int = 0  # the level of this type's own facets
    base_level: int = 0  # the level of the derivation that was found

    def derivation(self) -> Derivation:
        return Derivation(self.type, tuple(self.parts or ()), self.space) if self.parts or self.space else based_on(self.type)

    def declaration(self) -> Declaration:
        return Declaration(self.head, self.derivation(), self.is_abstract, self.domain, self.period)


class SchemaVisitor(Visitor):
    """Reads a schema for the namespace `wanted`. None means the namespace that the schema itself names, if it names one."""

    def __init__(self, wanted: Optional[str]) -> None:
        self.wanted = wanted
        self.target: Optional[str] = None  # the namespace that the schema itself names
        self.namespace: Optional[str] = None  # the namespace of its declarations; if it is None, nothing is declared
        self.part: Optional[Part] = None

    def spell(self, prefix: str, uri: str) -> None:
        """Receives a prefix that the schema binds to its own namespace."""

    def declare(self, part: Part) -> None:
        """Receives an element or a type that the schema declares at its top level."""

    def refer(self, location: str, wanted: str) -> None:
        """Receives the location of a schema, and the namespace for which it is wanted."""

    def start(self, element: Element, level: int) -> None:
        if level == 1:
            self.open_schema(element)
        elif level == 2 and self.namespace is not None:
            self.open_part(element, self.namespace)
        elif level > 2 and self.part:
            self.look_for_base(element, level, self.part)

    def end(self, level: int) -> None:
        if level == 2 and self.part:
            self.declare(self.part)
            self.part = None
        elif self.part and level == self.part.type_level:
            self.part.type_level = 0

    def open_schema(self, element: Element) -> None:
        target = element.get("targetNamespace")
        self.target = None if target is None else sys.intern(target.strip(SPACE))
        self.namespace = self.wanted if self.target is None else self.target
        if element.name != (XS, "schema"):
            raise ValueError("it is not a schema: name the package, the folder or a schema of the taxonomy")
        if self.wanted not in (None, self.namespace):
            raise ValueError(f"it is not a schema of the namespace {shortened(self.wanted or '')}")
        for prefix in element.bindings.prefixes_of(self.namespace or ""):
            self.spell(prefix, self.namespace or "")

    def open_part(self, element: Element, namespace: str) -> None:
        if element.name in REFERENCES:
            location = element.get("schemaLocation")
            imported = sys.intern((element.get("namespace") or "").strip(SPACE)) if element.name == IMPORT else namespace
            if location is not None:
                self.refer(location.strip(SPACE), imported)
        elif element.name == ELEMENT or element.name in TYPES:
            name = Name(namespace, (element.get("name") or "").strip(SPACE))
            if not PART.fullmatch(name.local):
                raise ValueError(f"{name.shown()} is not a name")
            self.part = Part(name, element.get("id"), element.name in TYPES)
            if self.part.is_type:
                self.open_type(element, 2, self.part)
            else:
                self.open_element(element, self.part)

    def open_element(self, element: Element, part: Part) -> None:
        part.head, part.type = (self.expanded(element, key) for key in ("substitutionGroup", "type"))
        part.is_abstract = (element.get("abstract") or "").strip(SPACE) in ("true", "1")
        for key in element.attributes:
            if key.endswith(":typedDomainRef"):
                part.domain = element.get_in(XBRLDT, "typedDomainRef")
            elif key.endswith(":periodType"):
                part.period = sys.intern((element.get_in(XBRLI, "periodType") or "").strip(SPACE))

    def open_type(self, element: Element, level: int, part: Part) -> None:
        part.type, part.type_level, part.base_level = ANY_TYPE, level, 0
        part.facet_level = level + (2 if element.name == SIMPLE else 3)

    def look_for_base(self, element: Element, level: int, part: Part) -> None:
        """Opens a type in an element, or records what a type is made of: in a child, or in one of its simple- or complexContent."""
        if level == 3 and not part.is_type and element.name in TYPES:
            self.open_type(element, level, part)
        elif part.type_level and element.name in DERIVATIONS:
            base, is_own = self.expanded(element, "base"), level - part.type_level in (1, 2)
            if base and is_own and not (part.base_level and part.base_level <= level):
                part.type, part.base_level = base, level
            if part.facet_level - part.type_level == 2:
                named = [element.get(key) or "" for key in ("base", "itemType", "memberTypes")]
                part.parts = part.parts or {}
                part.parts.update((self.expanded_text(text, element), None) for text in " ".join(named).split())
        elif element.name == SPACE_FACET and level == part.facet_level:
            part.space = element.get("value")

    def expanded(self, element: Element, key: str) -> Optional[Name]:
        """Returns the name in an attribute, or None. Without a namespace, also of the schema, it is in the wanted one."""
        text = element.get(key)
        return None if text is None else self.expanded_text(text.strip(SPACE), element)

    def expanded_text(self, text: str, element: Element) -> Name:
        name = element.bindings.expanded(text)
        return name if name.uri or self.target else Name(self.wanted or "", name.local)
