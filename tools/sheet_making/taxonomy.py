"""The declarations in the schemas of a taxonomy, and the sheet that is made from them."""
import os
from typing import Iterable, Optional

from names import SPACE, Name, Spelled
from process import NotDone, shortened
from sheet_making.catalogs import Rewrites
from sheet_making.files import Files, Limits, reading
from sheet_making.kinds import Kinds, is_specification, kinds_of
from sheet_making.schemas import Declaration, Derivation, Part, SchemaVisitor
from sheet_making.xml_reading import Element, read_xml

MOST_LINES = 100
NO_NAMESPACE = "it has no namespace, and no schema with one refers to it"
LINKBASE = Name("http://www.xbrl.org/2003/linkbase", "linkbaseRef")


class Taxonomy:
    """The elements and types in the named schemas, and in all schemas that these refer to, directly or through others."""

    def __init__(self, files: Files) -> None:
        self.files, self.rewrites = files, Rewrites(files.limits.tries)
        self.elements: dict[Name, Declaration] = {}
        self.types: dict[Name, Derivation] = {}
        self.spelled = Spelled()
        self.identified: dict[str, dict[str, Name]] = {}  # elements and types by their files and identifiers
        self.domains: dict[Name, tuple[str, str]] = {}  # the files and identifiers of typed domains, by dimension
        self.found: dict[tuple[str, str], Optional[str]] = {}  # paths by locations and the folders of the documents that refer to them
        self.read: dict[str, set[Optional[str]]] = {}  # paths, with the namespaces for which they were read
        self.targets: dict[str, Optional[str]] = {}  # paths, with the namespaces that the schemas name
        self.read_again = 0  # bytes of schemas without a namespace, counted for each further namespace
        self.missing: list[str] = []
        for catalog in files.catalogs():
            with reading(catalog):
                read_xml(files.pieces(catalog), self.rewrites.open(catalog))
        self.waiting: list[tuple[str, Optional[str]]] = [(path, None) for path in files.schemas()]
        for path, wanted in self.waiting:
            with reading(path):
                self.read_schema(path, wanted)
        if self.missing or not self.read:
            zipped = [f"{path}: not read, because it is in a folder or a package" for path in files.listed if path.lower().endswith(".zip")]
            raise NotDone(*shown_lines(self.missing or ["none of the named files is a schema", *zipped]))

    def read_schema(self, path: str, wanted: Optional[str]) -> None:
        """Keeps the declarations of a schema, unless it was read before. A schema that names no namespace gets the namespace
        `wanted`, unless this is None, and is read again for each further namespace."""
        namespaces = self.read.setdefault(path, set())
        target = self.targets.get(path)
        if target is not None and wanted not in (None, target):
            raise ValueError(f"it is not a schema of the namespace {shortened(wanted or '')}")
        if target is not None or wanted in namespaces or wanted is None and namespaces:
            return
        visitor = Declaring(self, path, wanted)
        length = read_xml(self.files.pieces(path), visitor)
        self.read_again += length if namespaces - {None} else 0
        if self.read_again > self.files.limits.again:
            raise ValueError(f"more than {self.files.limits.again} bytes of schemas without a namespace are read again for"
                             f" further namespaces (make_sheet --megabytes)")
        self.targets[path] = visitor.target
        namespaces.add(visitor.namespace)

    def refer(self, location: str, base: str, wanted: str) -> None:
        """Schedules the schema at `location`, or records that it is missing, unless the namespace is of a specification."""
        found = self.found_at(location, base)
        if found:
            self.waiting.append((found, wanted))
        elif not is_specification(wanted):
            self.missing.append(f"{base}: {shortened(location)} is not in the named files")

    def found_at(self, location: str, base: str) -> Optional[str]:
        """Returns the path of the file at `location`, to which the document at `base` refers, or None."""
        key = location, os.path.dirname(base)
        if key not in self.found:
            paths = self.rewrites.paths_of(location, base)
            self.found[key] = next((path for path, origin in paths if self.files.is_found(path, origin)), None)
        return self.found[key]

    def link(self, element: Element, base: str) -> None:
        """Receives a reference to a linkbase in the schema at `base`."""

    def declare(self, part: Part, path: str) -> None:
        """Keeps an element or a type of the schema at `path`. Errors: ValueError if an earlier declaration differs."""
        if part.is_type:
            derivation = part.derivation()
            is_same = self.types.setdefault(part.name, derivation) == derivation
        else:
            declaration = part.declaration()
            is_same = self.elements.setdefault(part.name, declaration) == declaration
        if not is_same:
            raise ValueError(f"{part.name.shown()} is declared in two ways")
        if part.identifier is not None:
            self.identified.setdefault(path, {})[part.identifier] = part.name
        if part.domain is not None:
            self.domains[part.name] = self.domain_at(part.domain, path)

    def domain_at(self, reference: str, base: str) -> tuple[str, str]:
        """Returns the file and the identifier in a reference to a typed domain, and schedules the file."""
        location, _, identifier = reference.strip(SPACE).partition("#")
        path = self.found_at(location, base) if location else base
        if path and path not in self.read:
            self.waiting.append((path, None))
        return path or "", identifier

    def typed_domains(self) -> dict[Name, Optional[Name]]:
        """Returns the elements that are the domains of typed dimensions. An element that is not found is None."""
        found = {name: self.identified.get(path, {}).get(identifier) for name, (path, identifier) in self.domains.items()}
        return {name: domain if domain in self.elements else None for name, domain in found.items()}

    def without_namespace(self) -> list[str]:
        """Returns the schemas that have no target namespace, and to which no schema with a namespace refers, even indirectly."""
        return sorted(path for path, namespaces in self.read.items() if namespaces == {None})


class Declaring(SchemaVisitor):
    """Passes the declarations and references of a schema to a taxonomy."""

    def __init__(self, taxonomy: Taxonomy, path: str, wanted: Optional[str]) -> None:
        super().__init__(wanted)
        self.taxonomy, self.path = taxonomy, path

    def start(self, element: Element, level: int) -> None:
        if element.name == LINKBASE:
            self.taxonomy.link(element, self.path)
        super().start(element, level)

    def spell(self, prefix: str, uri: str) -> None:
        self.taxonomy.spelled.add(prefix, uri)

    def declare(self, part: Part) -> None:
        self.taxonomy.declare(part, self.path)

    def refer(self, location: str, wanted: str) -> None:
        self.taxonomy.refer(location, self.path, wanted)


def shown_lines(lines: list[str]) -> list[str]:
    """Returns the first MOST_LINES lines, and a line with the number of the others, if there are any."""
    more = len(lines) - MOST_LINES
    return lines if more <= 0 else [*lines[:MOST_LINES], f"and {more} more"]


def kinds_in(inputs: Iterable[str], limits: Limits) -> tuple[Kinds, list[str]]:
    """Returns the kinds of the concepts and dimensions in taxonomies, and a line for each part that is left out."""
    return kinds_from(Taxonomy(Files(inputs, limits)))


def kinds_from(taxonomy: Taxonomy) -> tuple[Kinds, list[str]]:
    kinds, left_out = kinds_of(taxonomy.elements, taxonomy.types, taxonomy.typed_domains())
    kinds.spelled = taxonomy.spelled
    return kinds, [f"{path} is left out: {NO_NAMESPACE}" for path in taxonomy.without_namespace()] + left_out
