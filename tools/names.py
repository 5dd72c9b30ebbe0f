"""Expanded names, each a namespace and a local part, and the prefixes of namespaces."""
import re
import sys
from typing import Any, Iterable, Mapping, NamedTuple, Optional

from process import shortened

SPACE = " \t\r\n"  # the white space of XML and xBRL-JSON; a name may contain other Unicode spaces
PART = re.compile(rf"[^{SPACE}:]+")
NAME = re.compile(f"({PART.pattern}):({PART.pattern})")
SHORT = re.compile(r"[A-Za-z_][\w.-]{0,39}", re.ASCII)  # a sheet repeats the prefix for each name
XBRL = "https://xbrl.org/2021"  # the reserved namespace; a sheet lists no name in it

Uris = Mapping[str, str]  # by prefix


class Name(NamedTuple):
    """A namespace and a local part. Namespaces read from files are interned (`sys.intern`), which makes comparing cheap."""

    uri: str
    local: str

    def shown(self) -> str:
        return f"{{{shortened(self.uri)}}}{shortened(self.local)}"


def expanded(text: Any, uris: Uris) -> Optional[Name]:
    """Returns an expanded name, or None if the text is not PREFIX:LOCAL, or the prefix has no URI or an empty one."""
    parts = NAME.fullmatch(text) if isinstance(text, str) else None
    uri = parts and uris.get(parts[1])
    return Name(uri, parts[2]) if parts and uri else None


def uris_of(namespaces: Any) -> Uris:
    """Returns the URIs by prefix. Prefixes that are not bound to a text are left out."""
    pairs = namespaces.items() if isinstance(namespaces, dict) else ()
    return {prefix: sys.intern(uri) for prefix, uri in pairs if type(uri) is str}


class Spelled:
    """Collects the prefixes of namespaces, to keep each that is the only one of its namespace and of no other."""

    def __init__(self) -> None:
        self.uris: dict[str, set[str]] = {}
        self.prefixes: dict[str, set[str]] = {}

    def add(self, prefix: str, uri: str) -> None:
        self.uris.setdefault(prefix, set()).add(uri)
        self.prefixes.setdefault(uri, set()).add(prefix)

    def for_uris(self, uris: Iterable[str]) -> dict[str, str]:
        """Returns a prefix for each URI. If none can be kept, it is the letter n and the rank of the URI, with zeros in front."""
        ranked = sorted(uris)
        kept = {uri: prefix for uri in ranked for prefix in self.prefixes.get(uri, ()) if self.is_kept(prefix, uri)}
        made = {uri: f"n{rank:0{len(str(len(ranked)))}}" for rank, uri in enumerate(ranked, 1)}
        return {uri: kept.get(uri, made[uri]) for uri in ranked}

    def is_kept(self, prefix: str, uri: str) -> bool:
        is_only = len(self.uris[prefix]) == len(self.prefixes[uri]) == 1
        return is_only and bool(SHORT.fullmatch(prefix)) and not re.fullmatch(r"n\d+", prefix)
