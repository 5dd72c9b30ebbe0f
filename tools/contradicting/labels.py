"""Reads the standard labels in taxonomies, with the reader of tools/make_sheet."""
from __future__ import annotations

import os
from typing import Dict, Mapping, NamedTuple, Optional

from names import SPACE, Name
from sheet_making.files import Files, reading
from sheet_making.taxonomy import Taxonomy
from sheet_making.xml_reading import XML, Element, Visitor, read_xml

LINK, XLINK = "http://www.xbrl.org/2003/linkbase", "http://www.w3.org/1999/xlink"
STANDARD = "http://www.xbrl.org/2003/role/label"
ROLES = ("", "http://www.xbrl.org/2003/role/labelLinkbaseRef")  # of references that may lead to labels


class Label(NamedTuple):
    """A label. A label in the wanted language replaces a label in one of its dialects, such as en-GB for en."""

    is_of_dialect: bool
    text: str

    def counts_before(self, other: Optional[Label]) -> bool:
        """Returns whether this label replaces an earlier one. Texts are not compared, because they may be long."""
        return other is None or self.is_of_dialect < other.is_of_dialect


class Labelled(Taxonomy):
    """A taxonomy with its standard labels in a language and its dialects. The labels are read from .xml files, and from the files
    that the schemas refer to. `unfound` has the references to files that are not named."""

    def __init__(self, files: Files, language: str) -> None:
        self.language = language
        self.labels: dict[Name, Label] = {}
        self.linkbases, self.unfound = {*files.linkbases()}, dict[str, None]()
        self.located: dict[tuple[str, str], str] = {}  # as `found`, but only schemas that are read
        super().__init__(files)

    def link(self, element: Element, base: str) -> None:
        location = (element.get_in(XLINK, "href") or "").strip(SPACE)
        if location and (element.get_in(XLINK, "role") or "") in ROLES:
            found = self.found_at(location, base)
            self.linkbases |= {found} if found else set()
            self.unfound.update({} if found else {location: None})

    def read_labels(self) -> Labels:
        """Returns the labels. Elements with an empty label are left out. Errors: NotDone."""
        for path in sorted(self.linkbases):
            with reading(path):
                read_xml(self.files.pieces(path), Linkbase(self, path))
        return Labels({name: label.text for name, label in self.labels.items() if label.text}, self.language)

    def name_at(self, href: str, base: str) -> Optional[Name]:
        """Returns the name of the element or type that `href` refers to, or None. `base` is the document that contains `href`."""
        location, _, identifier = href.partition("#")
        key = location, os.path.dirname(base)
        if key not in self.located:
            self.located[key] = next((path for path, _ in self.rewrites.paths_of(location, base) if path in self.read), "")
        return self.identified.get(self.located[key], {}).get(identifier)

    def keep(self, name: Name, label: Label) -> None:
        if label.counts_before(self.labels.get(name)):
            self.labels[name] = label


class Link:
    """The locators, labels and arcs of an extended link. If labels share an xlink:label, `counts_before` selects one."""

    def __init__(self, level: int) -> None:
        self.level = level
        self.names: dict[str, Optional[Name]] = {}
        self.labels: dict[str, Label] = {}
        self.arcs: list[tuple[str, str]] = []

    def keep(self, key: str, label: Label) -> None:
        if label.counts_before(self.labels.get(key)):
            self.labels[key] = label


class Linkbase(Visitor):
    """Collects the standard labels of one language and its dialects."""

    takes_text = True

    def __init__(self, taxonomy: Labelled, path: str) -> None:
        self.taxonomy, self.path = taxonomy, path
        self.link: Optional[Link] = None
        self.opened: Optional[tuple[str, bool]] = None  # the label being read: its xlink:label, and whether it is in a dialect
        self.pieces: list[str] = []

    def start(self, element: Element, level: int) -> None:
        if not self.link:
            self.link = Link(level) if element.name == (LINK, "labelLink") else None
        elif level == self.link.level + 1 and element.name.uri == LINK:
            self.open_part(element, self.link)

    def open_part(self, element: Element, link: Link) -> None:
        if element.name.local == "loc":
            name = self.taxonomy.name_at(element.get_in(XLINK, "href") or "", self.path)
            link.names[element.get_in(XLINK, "label") or ""] = name
        elif element.name.local == "labelArc" and element.get("use") != "prohibited":
            link.arcs.append((element.get_in(XLINK, "from") or "", element.get_in(XLINK, "to") or ""))
        elif element.name.local == "label" and (element.get_in(XLINK, "role") or STANDARD) == STANDARD:
            language, wanted = (element.get_in(XML, "lang") or "").lower(), self.taxonomy.language.lower()
            if language == wanted or language.startswith(wanted + "-"):
                self.opened = element.get_in(XLINK, "label") or "", language != wanted

    def text(self, text: str) -> None:
        if self.opened:
            self.pieces.append(text)

    def end(self, level: int) -> None:
        if self.link and self.opened and level == self.link.level + 1:
            key, is_of_dialect = self.opened
            self.link.keep(key, Label(is_of_dialect, " ".join("".join(self.pieces).split())))
            self.opened, self.pieces = None, []
        elif self.link and level == self.link.level:
            self.close(self.link)
            self.link = None

    def close(self, link: Link) -> None:
        for start, end in link.arcs:
            name, label = link.names.get(start), link.labels.get(end)
            if name and label:
                self.taxonomy.keep(name, label)


class Labels(Dict[Name, str]):
    """The labels by the names of their elements, and their language."""

    def __init__(self, labels: Mapping[Name, str], language: str) -> None:
        super().__init__(labels)
        self.language = language


