"""The catalogs of taxonomy packages, which map URLs to files."""
from __future__ import annotations

import bisect
import functools
import os
import re
from typing import Iterator, NamedTuple
from urllib.parse import unquote

from names import Name
from sheet_making.xml_reading import Element, Visitor

REWRITE = Name("urn:oasis:names:tc:entity:xmlns:xml:catalog", "rewriteURI")
ABSOLUTE = re.compile(r"[A-Za-z][A-Za-z0-9+.-]*:")  # the scheme of an absolute URI (RFC 3986, section 3.1)


class Rewrite(NamedTuple):
    """A rule: in a URL that begins with `start`, `prefix` replaces `start`. The result is resolved against `catalog`."""

    start: str
    prefix: str
    catalog: str


class Tries:
    """Counts how often rules are tried, because packages may have many rules and many references."""

    def __init__(self, most: int) -> None:
        self.most, self.count = most, 0

    def add(self) -> None:
        self.count += 1
        if self.count > self.most:
            raise ValueError(f"with it, rules of catalogs are tried more than {self.most} times (make_sheet --tags)")


class Rules:
    """Rules that are sorted by their `start` at the first look-up. They are in lists, because a package may have many."""

    def __init__(self, tries: Tries) -> None:
        self.tries = tries
        self.rules: list[Rewrite] = []
        self.starts: list[str] = []
        self.outer: list[int] = []  # the last rule with the longest other start with which the start of each rule begins, or -1

    def sort(self) -> None:
        self.rules.sort(key=lambda rule: rule.start)
        self.starts, around = [rule.start for rule in self.rules], list[int]()
        for index, start in enumerate(self.starts):
            while around and not start.startswith(self.starts[around[-1]]):
                around.pop()
            if around and start == self.starts[around[-1]]:
                around.pop()
            self.outer.append(around[-1] if around else -1)
            around.append(index)

    def rules_of(self, location: str) -> Iterator[Rewrite]:
        """Returns the rules whose start matches: those with longer starts first, and those with one start in their order. The
        sorted start before the location begins with all starts that match."""
        if len(self.starts) < len(self.rules):
            self.sort()
        last = bisect.bisect_right(self.starts, location) - 1
        while last >= 0:
            self.tries.add()
            start = self.starts[last]
            for index in range(bisect.bisect_left(self.starts, start), last + 1) if location.startswith(start) else ():
                self.tries.add()
                yield self.rules[index]
            last = self.outer[last]


class Rewrites(Visitor):
    """The rules of all catalogs. Only absolute URIs are rewritten. The package of a document is the nearest folder around it
    with a META-INF/catalog.xml; a rule of this catalog precedes the rules of all others, so that no package replaces what
    another one maps to its own files. Packages of one publisher may have rules with the same start, so several rules are
    tried."""

    def __init__(self, most_tries: int) -> None:
        self.tries = Tries(most_tries)
        self.all = Rules(self.tries)
        self.own: dict[str, Rules] = {}  # by the folder of the package
        self.known: set[Rewrite] = set()  # equal rules count once
        self.catalog = ""
        self.rules_around = functools.lru_cache(maxsize=None)(self.rules_at)

    def open(self, catalog: str) -> Rewrites:
        """Returns itself, and adds rules that it then visits to this catalog. Open all catalogs before calling `paths_of`."""
        self.catalog = catalog
        self.own.setdefault(os.path.dirname(os.path.dirname(catalog)), Rules(self.tries))
        return self

    def start(self, element: Element, level: int) -> None:
        if element.name == REWRITE:
            start, prefix = element.get("uriStartString"), element.get("rewritePrefix")
            if not start or prefix is None:
                raise ValueError("a rewriteURI lacks uriStartString or rewritePrefix")
            rule = Rewrite(start, prefix, self.catalog)
            for rules in () if rule in self.known else (self.all, self.own[os.path.dirname(os.path.dirname(self.catalog))]):
                rules.rules.append(rule)
            self.known.add(rule)

    def rules_at(self, folder: str) -> Rules:
        """Returns the rules of the package that contains a folder. Without a package, they are empty."""
        while folder not in self.own and os.path.dirname(folder) != folder:
            folder = os.path.dirname(folder)
        return self.own.get(folder) or Rules(self.tries)

    def paths_of(self, location: str, base: str) -> Iterator[tuple[str, str]]:
        """Returns the paths that `location` may name in the document at `base`, the one that counts first. With each path, returns
        the document or catalog against which the location was resolved."""
        if ABSOLUTE.match(location):
            for rules in (self.rules_around(os.path.dirname(base)), self.all):
                for rule in rules.rules_of(location):
                    yield resolved(rule.prefix + location[len(rule.start) :], rule.catalog), rule.catalog
        yield resolved(location, base), base


def resolved(location: str, base: str) -> str:
    """Returns the path that a relative location names in the document at `base`."""
    return os.path.normpath(os.path.join(os.path.dirname(base), unquote(location)))
