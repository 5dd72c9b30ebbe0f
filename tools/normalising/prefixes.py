"""The prefixes of one report, names that are spelled with their namespace, and the one spelling of a set of names."""
import functools
import itertools
import re
from typing import Optional

from names import PART, SPACE, XBRL, Uris, expanded
from normalising.json_text import Tree

ITEMS = re.compile(rf"[^{SPACE}]+")
SPELLED = (re.compile(rf"\{{([^{SPACE}{{}}]+)\}}({PART.pattern})"), re.compile(rf"([^{SPACE}:#]+:[^{SPACE}]*)#([^{SPACE}:#]+)"))


class Prefixes:
    """The prefixes of a report, and those that a rule binds. `before` has the URIs of the report, `uris` and `namespaces` those
    of the changed report, which differ if a map replaces namespaces."""

    def __init__(self, namespaces: Tree, uris: Uris) -> None:
        self.before = self.uris = {**uris}
        self.namespaces = {**namespaces} if isinstance(namespaces, dict) else {}
        self.bound: dict[str, str] = {}  # the prefixes that `named` adds
        self.numbers = itertools.count(1)
        self.known = {uri: prefix for prefix, uri in uris.items() if PART.fullmatch(prefix)}

    def uri_after(self, uri: str) -> str:
        return uri

    def named(self, text: str) -> Optional[str]:
        """Returns a name with a prefix for a text such as {URI}local or URI#local, and binds the prefix if necessary. Returns None
        for other texts, and for names that the report can spell with a prefix."""
        if "#" not in text and not text.startswith("{"):
            return None
        found = next(filter(None, (form.fullmatch(text) for form in SPELLED)), None)
        if not found or found[1] == XBRL or expanded(text, self.before):
            return None
        return f"{self.prefix_of(found[1])}:{found[2]}"

    def prefix_of(self, uri: str) -> str:
        if uri not in self.known:
            prefix = self.unused("ns")
            self.known[uri], self.bound[prefix], self.before[prefix] = prefix, uri, uri
            self.uris[prefix] = self.namespaces[prefix] = self.uri_after(uri)
        return self.known[uri]

    def unused(self, stem: str) -> str:
        return next(prefix for prefix in (f"{stem}{number}" for number in self.numbers) if prefix not in self.namespaces)


def is_spelled(text: str) -> bool:
    """Returns whether a text is a set as the rule `set` writes it: each item as URI#LOCAL, sorted, none repeated."""
    return text == set_of({full_name(item, {}) or ("", item) for item in ITEMS.findall(text)})


def set_of(names: set[tuple[str, str]]) -> str:
    """Returns the spelling of a set of names, each a URI and a local part."""
    return " ".join(sorted(map("#".join, names)))


def full_name(item: str, uris: Uris) -> Optional[tuple[str, str]]:
    """Returns the URI and the local part of an item, which must have the form PREFIX:LOCAL or URI#LOCAL. Returns None for other
    items, and if the prefix is not bound, or its URI is empty or contains white space."""
    if "#" in item:
        uri, _, local = item.rpartition("#")
        return (uri, local) if uri and local else None
    name = expanded(item, uris)
    return name if name and not has_space(name.uri) else None


@functools.lru_cache(maxsize=None)
def has_space(uri: str) -> bool:
    """Returns whether a URI has white space. Each URI is searched once, since it may be long and have many names."""
    return any(sign in uri for sign in SPACE)
