"""Reads XML tag by tag, and keeps only the open tags. Prefixes are resolved here. expat would put the whole namespace into each
name, so a long namespace could take quadratic memory."""
import sys
from typing import Iterable, Optional, Sequence

# read_xml rejects document types, so a document cannot declare entities
from xml.parsers import expat  # nosec

from names import Name
from process import shortened

MOST_LEVELS = 1_000
LONGEST_TAG = 8_000_000  # bytes
XML = "http://www.w3.org/XML/1998/namespace"


class Bindings:
    """The bindings of the prefixes at one place in a document."""

    def __init__(self) -> None:
        self.uris: dict[str, list[str]] = {"": [""], "xml": [XML]}  # the namespaces bound to each prefix, the innermost one last

    def bind(self, attributes: dict[str, str]) -> Sequence[str]:
        """Binds the prefixes that a tag declares, and returns them."""
        declared = [key for key in attributes if key.startswith("xmlns") and key[5:6] in ("", ":")]
        prefixes = [key[6:] for key in declared]
        for key, prefix in zip(declared, prefixes):
            if prefix and not attributes[key]:
                raise ValueError(f"the prefix {shortened(prefix)} is bound to an empty namespace")
            self.uris.setdefault(prefix, []).append(sys.intern(attributes[key]))
        return prefixes

    def unbind(self, prefixes: Sequence[str]) -> None:
        for prefix in prefixes:
            self.uris[prefix].pop()

    def prefixes_of(self, uri: str) -> list[str]:
        return [prefix for prefix, uris in self.uris.items() if prefix and uris and uris[-1] == uri]

    def expanded(self, text: str) -> Name:
        """Returns the expanded name of a text, with or without a prefix. Errors: ValueError if the prefix is not bound."""
        prefix, _, local = text.rpartition(":")
        uris = self.uris.get(prefix)
        if not uris:
            raise ValueError(f"the prefix {shortened(prefix)} is not bound")
        return Name(uris[-1], local)


class Element:
    """A start tag, with its expanded name and the prefixes that are bound at the tag."""

    def __init__(self, tag: str, attributes: dict[str, str], bindings: Bindings) -> None:
        self.name, self.attributes, self.bindings = bindings.expanded(tag), attributes, bindings

    def get(self, local: str) -> Optional[str]:
        return self.attributes.get(local)

    def get_in(self, uri: str, local: str) -> Optional[str]:
        end = ":" + local
        for key, value in self.attributes.items():
            if key.endswith(end) and self.bindings.expanded(key) == (uri, local):
                return value
        return None


class Visitor:
    """Receives the parts of a document. The root has level 1."""

    takes_text = False

    def start(self, element: Element, level: int) -> None:
        """Receives a start tag, before the content of its element."""

    def end(self, level: int) -> None:
        """Receives the end of the innermost open element, which has this level."""

    def text(self, text: str) -> None:
        """Receives a piece of text, if `takes_text` is set. A text may arrive in several pieces."""


def read_xml(pieces: Iterable[bytes], visitor: Visitor) -> int:
    """Passes the tags of a document to a visitor, and the texts if the visitor's `takes_text` is true. Returns how many bytes
    the document has. Errors: LookupError or ValueError if the encoding is not supported; ValueError if the document is not
    well-formed, has a document type, more than MOST_LEVELS levels or a longer tag or comment than LONGEST_TAG, has an element
    with an unbound prefix, or binds a prefix to an empty namespace; MemoryError; exceptions of the pieces and of the
    visitor."""
    bindings, opened = Bindings(), []

    def start(tag: str, attributes: dict[str, str]) -> None:
        opened.append(bindings.bind(attributes) if attributes else ())
        if len(opened) > MOST_LEVELS:
            raise ValueError(f"it has more than {MOST_LEVELS} levels")
        visitor.start(Element(tag, attributes, bindings), len(opened))

    def end(_tag: str) -> None:
        visitor.end(len(opened))
        bindings.unbind(opened.pop())

    def doctype(*_declared: object) -> None:
        raise ValueError("it has a document type, which is not read")

    parser = expat.ParserCreate(intern=None)
    parser.StartElementHandler, parser.EndElementHandler = start, end
    parser.StartDoctypeDeclHandler = doctype
    if visitor.takes_text:
        parser.CharacterDataHandler = visitor.text
    return parsed(parser, pieces)


def parsed(parser: expat.XMLParserType, pieces: Iterable[bytes]) -> int:
    """Lets expat parse a document, and returns its length. expat keeps a tag until it ends. Errors: as in `read_xml`."""
    length = 0
    try:
        for piece in pieces:
            length += len(piece)
            parser.Parse(piece, False)
            if length - parser.CurrentByteIndex > LONGEST_TAG:
                raise ValueError(f"it has a tag or a comment of more than {LONGEST_TAG} bytes")
        parser.Parse(b"", True)
    except expat.ExpatError as fault:
        if expat.ErrorString(fault.code) == expat.errors.XML_ERROR_NO_MEMORY:
            raise MemoryError from None
        raise ValueError(f"it is not XML: {fault}") from None
    return length
