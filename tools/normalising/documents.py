"""The rules for the parts of a report outside its facts, and for members that the format does not define."""
import argparse
import itertools
import re
import urllib.parse
from typing import Container, Optional

from text_files import CONVERT, CSV, is_csv, looks_like
from names import XBRL
from normalising.changes import Part
from normalising.json_text import Tree, is_text, path_to, pointer_of
from process import NotDone

TYPE = f"{XBRL}/xbrl-json"
KNOWN = {
    "report": {"documentInfo", "facts"},
    "documentInfo": {"documentType", "namespaces", "taxonomy", "baseURL", "features", "linkTypes", "linkGroups"},
    "fact": {"value", "decimals", "dimensions", "links"},
}
# unknown members that say nothing about the figures, with the reason
HARMLESS = {
    **dict.fromkeys(("id", "@id"), "an identifier is no figure, and a merge gives each fact a new one"),
    "$schema": "it names a schema of the JSON file",
    **dict.fromkeys(("$comment", "comment", "_comment", "//"), "it is a comment for readers of the file"),
}
# the namespaces in which drafts and other spellings define the core dimensions, and their document types
DRAFT = re.compile(r"https?://(?:www\.)?xbrl\.org/(?:(?:CR|PR|PWD|WGWD|REC)/\d{4}-\d\d-\d\d|20\d\d)(?:/oim)?", re.ASCII)
DRAFT_TYPE = re.compile(rf"({DRAFT.pattern})/xbrl-json", re.ASCII)

API = {"cik", "data", "entityName", "error", "errors", "hits", "items", "jsonapi", "message", "meta", "pagination", "paging", "results"}
MOST_PARTS = 10_000  # objects and arrays of a file in which a wrapped report is looked for


def check_root(tree: Tree) -> None:
    """Raises NotDone if a tree is not a report, with a guess at what it is."""
    if not isinstance(tree, dict):
        raise NotDone("it is not a report: its root is not an object")
    kind = kind_of_root(tree)
    if kind or "documentInfo" not in tree:
        raise NotDone(f"it is not an xBRL-JSON report{' (it has no documentInfo)' * (not kind)}{looks_like(kind)}")


def kind_of_root(tree: dict[str, Tree]) -> Optional[str]:
    """Guesses the kind of a JSON object that is not a report. Returns None if it may be one, or is of no known kind."""
    if is_csv(tree):
        return f"{CSV}: {CONVERT}"
    if "documentInfo" in tree:
        return None
    if "concepts" in tree:
        return "a sheet, not a report"
    path = path_to(tree, wrapped_in(tree))
    if path:
        return f"a report that is wrapped in another object: take out what is at {pointer_of(path)}"
    return "the answer of an API: ask it for the report as xBRL-JSON" if API & {*tree} else None


def wrapped_in(tree: Tree) -> Tree:
    """Returns the first report among the first parts of a tree, or an object that is no part of it."""
    waiting = [tree]
    for part in itertools.islice(waiting, MOST_PARTS):
        if isinstance(part, dict) and isinstance(part.get("documentInfo"), dict) and "facts" in part:
            return part
        parts = part.values() if isinstance(part, dict) else part
        waiting.extend(each for each in itertools.islice(parts, MOST_PARTS) if isinstance(each, (dict, list)))
    return {}


def drop_unknown_members(part: Part, kind: str, options: argparse.Namespace, meaning: Container[str] = ()) -> None:
    """Removes members that the format does not define, if they are harmless, or else with --drop-unknown-members. Members in
    `meaning` stay: other rules read them. A member with a colon in its name is an extension and stays."""
    for key in [key for key in part.members if ":" not in key and key not in KNOWN[kind] and key not in meaning]:
        if key in HARMLESS:
            part.remove(key, "unknown-member")
        elif options.drop_unknown_members:
            part.remove(key, "drop-unknown-members", True)
        else:
            part.leave(key, "the format does not define it (--drop-unknown-members)")


def change_information(part: Part, options: argparse.Namespace) -> None:
    """Changes the members of `documentInfo`."""
    drop_unknown_members(part, "documentInfo", options)
    change_type(part, options)
    if is_text(part.get("taxonomy")):
        part.change("taxonomy", [part.get("taxonomy")], "taxonomy-list")
    base, references = part.get("baseURL"), part.get("taxonomy")
    if "baseURL" in part.members and (base in (None, "") or is_text(base) and base.lower().startswith("file:")):
        if base and isinstance(references, list) and all(map(is_text, references)):
            part.change("taxonomy", [urllib.parse.urljoin(base, each) for each in references], "base-url")
        part.remove("baseURL", "base-url")


def change_type(part: Part, options: argparse.Namespace) -> None:
    """Replaces the document type of a draft, and the namespace that this draft has for core dimensions."""
    given, namespaces = part.get("documentType"), part.get("namespaces")
    if not is_text(given) or given == TYPE or not DRAFT_TYPE.fullmatch(given):
        return
    if not options.document_type:
        part.leave("documentType", "it may be that of a draft (--document-type)")
        return
    part.change("documentType", TYPE, "document-type", True)
    if isinstance(namespaces, dict):
        made = {prefix: XBRL if is_text(uri) and DRAFT.fullmatch(uri) else uri for prefix, uri in namespaces.items()}
        part.change("namespaces", made, "document-type", True)


def facts_by_identifier(part: Part) -> None:
    """Makes an object of an array of facts, if each has an `id` of its own. The line for the change only counts the facts."""
    facts: Tree = part.get("facts")
    if not isinstance(facts, list):
        return
    names = [fact.get("id") if isinstance(fact, dict) else None for fact in facts]
    if not all(isinstance(name, str) for name in names) or len({*map(str, names)}) < len(names):
        part.leave("facts", "it is an array, and its objects do not each have an id of their own")
        return
    part.members["facts"] = {str(name): {key: fact[key] for key in fact if key != "id"} for name, fact in zip(names, facts)}
    part.log.tell((*part.path, "facts"), "facts-array", False, was=f"an array of {len(facts)} facts")
