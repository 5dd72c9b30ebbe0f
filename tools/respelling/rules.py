"""The rules that `--check` applies, those of the standards that can be judged without a taxonomy, and the respelled report. OIM Common
1.0 reserves prefixes."""
import json
import re
from typing import Any, Iterable, Mapping, NamedTuple, Sequence

import recheck
from text_files import kind_of_bytes, looks_like
from names import PART, SPACE, XBRL, Spelled
from process import NotDone, shortened
from sheets import Sheet


class Rule(NamedTuple):
    """The error code as far as it is known, or a hyphen; the section of the standard; and what to do."""

    code: str
    source: str
    advice: str


FORM, BINDING = "xbrlje:invalidJSONStructure", "oimce:unboundPrefix"
UNIT, PERIOD = "oimce:invalidUnitStringRepresentation", "oimce:invalidPeriodRepresentation"
ANY = {
    "repeated-member": Rule("xbrlje:invalidJSON", "xBRL-JSON, 2", "name each member of an object once"),
    "required-member": Rule(FORM, "xBRL-JSON, 2 and 3", "add the member"),
    "member-type": Rule(FORM, "xBRL-JSON, 2 and 3", "use a value of the type that the format requires"),
    "unknown-member": Rule(FORM, "xBRL-JSON, 2 and 3", "remove the member, or give its name a prefix that is bound"),
    "document-type": Rule("oimce:unsupportedDocumentType", "OIM Common, documentType", "write https://xbrl.org/2021/xbrl-json"),
    "prefix-form": Rule("-", "OIM Common, namespaces", "use an NCName as the prefix"),
    "uri-form": Rule("-", "OIM Common, namespaces", "write a URI that is not empty and has no white space"),
    "reserved-prefix": Rule("oimce:invalidURIForReservedAlias", "OIM Common, reserved prefixes", "bind the prefix to its own URI only"),
    "reserved-uri": Rule("oimce:invalidAliasForReservedURI", "OIM Common, reserved prefixes", "bind the URI to its own prefix only"),
    "unbound-prefix": Rule(BINDING, "OIM Common, prefixes", "bind the prefix in namespaces"),
    "taxonomy-empty": Rule("oime:noTaxonomy", "OIM, taxonomy", "name the taxonomy, as with --taxonomy"),
    "feature-value": Rule("-", "OIM Common, features", "use a value that the feature defines"),
    "concept-missing": Rule("oime:missingConceptDimension", "OIM, concept", "add the concept"),
    "name-form": Rule("oimce:invalidSQName", "OIM Common, names", "write a prefix, a colon and a local part, both NCNames"),
    "entity-form": Rule("oimce:invalidSQName", "OIM Common, names", "write a prefix, a colon and an identifier"),
    "repeated-dimension": Rule("-", "OIM, dimensions", "name each dimension of a fact once"),
    "period-form": Rule(PERIOD, "OIM Common, periods", "write one date-time, or two with / between them"),
    "period-order": Rule("-", "XBRL 2.1, 4.7.2", "write an end after the start"),
    "unit-form": Rule(UNIT, "OIM Common, units", "write prefixed names with * and at most one / between them"),
    "unit-parentheses": Rule(UNIT, "OIM Common, units", "put parentheses around several measures beside a /, and nowhere else"),
    "unit-order": Rule(UNIT, "OIM Common, units", "sort the measures on each side of the /"),
    "unit-pure": Rule("oime:illegalPureUnit", "OIM, unit", "remove the unit xbrli:pure"),
    "language-form": Rule("-", "OIM, language", "write a language as in BCP 47"),
    "language-case": Rule("xbrlje:invalidLanguageCodeCase", "OIM, language", "write the language in lower case"),
    "decimals-on-nil": Rule("oime:misplacedDecimalsProperty", "OIM, decimals", "remove the decimals of a nil fact"),
    "note-id-missing": Rule("oime:missingNoteIDDimension", "OIM, notes", "give the note its noteId"),
    "note-id-misplaced": Rule("oime:misplacedNoteIDDimension", "OIM, notes", "remove the noteId of a fact that is no note"),
    "note-id-value": Rule("oime:invalidNoteIDValue", "OIM, notes", "use the identifier of the fact as its noteId"),
    "note-dimension": Rule("oime:misplacedNoteFactDimension", "OIM, notes", "keep concept, noteId and language of a note only"),
    "note-language": Rule("oime:missingLanguageForNoteFact", "OIM, notes", "give the note its language"),
    "link-type": Rule("-", "xBRL-JSON, links", "bind the type in linkTypes, and the group in linkGroups"),
    "link-target": Rule("-", "xBRL-JSON, links", "use identifiers of facts of the report as targets"),
    "link-note": Rule("oime:illegalStandardFootnoteTarget", "OIM, links", "link a footnote to notes only"),
}
WITH_SHEET = {
    "unknown-concept": Rule("oime:unknownConcept", "OIM, concept", "use a concept that the sheet lists"),
    "unknown-dimension": Rule("oime:unknownDimension", "OIM, dimensions", "use a dimension that the sheet lists"),
    "explicit-member": Rule("oime:invalidDimensionValue", "OIM, dimensions", "write the member as a prefixed name"),
    "misplaced-unit": Rule("oime:misplacedUnitDimension", "OIM, unit", "remove the unit of a fact that is no number"),
    "misplaced-language": Rule("oime:misplacedLanguageDimension", "OIM, language", "remove the language of a fact that is no text"),
    "misplaced-decimals": Rule("oime:misplacedDecimalsProperty", "OIM, decimals", "remove the decimals of a fact that is no number"),
    "number-form": Rule("oime:invalidFactValue", "XML Schema Part 2, 3.2.3 to 3.2.5", "write a number"),
    "name-value": Rule("oime:invalidFactValue", "OIM Common, names", "write the value as a prefixed name"),
    "set-value": Rule("oime:invalidFactValue", "xBRL-JSON, values", "write different prefixed names with single spaces, as respelling does"),
    "duplicates": Rule("oime:disallowedDuplicateFacts", "OIM Common, xbrl:allowedDuplicates", "declare a looser level, or remove duplicates"),
}
RULES = {**ANY, **WITH_SHEET}
Fact = Any  # a fact as `recheck` reads it
ERRORS = {"oimce": "oim-common", "oime": "oim", "xbrlce": "xbrl-csv", "xbrlje": "xbrl-json"}  # the prefixes of error codes
PREFIXES = {
    "enum2": "http://xbrl.org/2020/extensible-enumerations-2.0",
    "iso4217": "http://www.xbrl.org/2003/iso4217",
    "utr": "http://www.xbrl.org/2009/utr",
    "xbrl": XBRL,
    "xbrli": "http://www.xbrl.org/2003/instance",
    "xs": "http://www.w3.org/2001/XMLSchema",
    **{prefix: f"{XBRL}/{part}/error" for prefix, part in ERRORS.items()},
}
# by the member of documentInfo that binds them
RESERVED: Mapping[str, Mapping[str, str]] = {
    "namespaces": PREFIXES,
    "linkTypes": {
        "footnote": "http://www.xbrl.org/2003/arcrole/fact-footnote",
        "explanatoryFact": "http://www.xbrl.org/2009/arcrole/fact-explanatoryFact",
    },
    "linkGroups": {"_": "http://www.xbrl.org/2003/role/link"},
}


def listed() -> list[str]:
    """Returns a line for each rule."""
    return [f"{name} {rule.code} ({rule.source}{', with a sheet' if name in WITH_SHEET else ''}): {rule.advice}" for name, rule in RULES.items()]


def prefixes_for(uris: Iterable[str], bound: Mapping[str, str]) -> dict[str, str]:
    """Returns the prefix of each URI: the reserved one, or the sheet's (`bound`) if it is unique, or n and a number."""
    spelled, own = Spelled(), {uri: prefix for prefix, uri in PREFIXES.items()}
    for prefix, uri in bound.items():
        if prefix not in PREFIXES:
            spelled.add(prefix, uri)
    return {uri: own.get(uri, prefix) for uri, prefix in spelled.for_uris(uris).items()}

def respelled(content: bytes, sheet: Sheet, taxonomy: Sequence[str]) -> dict[str, Any]:
    """Returns the tree of a merged report with other prefixes. `taxonomy` replaces references if the report has none. Errors:
    NotDone if the report is refused, is not canonical, or has a set that tools/normalise would spell differently."""
    try:
        objects, kept, unjudged = recheck.read_report(content, {"concepts": sheet.concepts, "dimensions": sheet.dimensions})
    except recheck.Refused as fault:
        kind = looks_like(kind_of_bytes(content[:1 << 20])) if "NotJson" in str(fault) else ""
        raise NotDone(f"xbrlmerge does not read it as a report: {fault}{kind}") from None
    facts, references = sorted({*objects.values()}), sorted({*kept, *(url for _, url in unjudged)})
    if recheck.canonical_text(facts, references).encode() != content:
        raise NotDone("it is not the text of a merge: merge it first")
    sets = {own: names_of_set(fact[1].content, own) for own, fact in objects.items() if is_set(fact, sheet)}
    uris = {uri for fact in facts for uri, _ in recheck.names_in(fact)} | {uri for names in sets.values() for uri, _ in names}
    prefixes = prefixes_for(uris, sheet.uris)
    info = {"documentType": recheck.DOCUMENT_TYPE, "features": {"xbrl:allowedDuplicates": recheck.level_of(facts)},
            "namespaces": dict(sorted({**{prefix: uri for uri, prefix in prefixes.items()}, "xbrl": XBRL}.items())),
            "taxonomy": references or [*taxonomy]}
    trees = {own: fact_tree(fact, sets.get(own), prefixes) for own, fact in objects.items()}
    return {"documentInfo": info, "facts": trees}


def text_of(tree: Mapping[str, Any], is_compact: bool = False) -> str:
    spaces: dict[str, Any] = {"separators": (",", ":")} if is_compact else {"indent": 2}
    return json.dumps(tree, ensure_ascii=False, **spaces) + "\n"


def is_set(fact: Fact, sheet: Sheet) -> bool:
    return fact[0][0] in sheet.sets and fact[1].kind == 2


def names_of_set(text: str, own: str) -> list[tuple[str, str]]:
    """Returns the names of a set. Errors: NotDone if the set is not written as sorted texts URI#LOCAL."""
    items = re.findall(rf"[^{SPACE}]+", text)
    names = [(uri, local) for uri, _, local in (item.rpartition("#") for item in items)]
    wrong = [item for item, (uri, local) in zip(items, names) if not uri or not PART.fullmatch(local)]
    if wrong or " ".join(sorted({*items})) != text:
        why = f"has {shortened(wrong[0])}, whose namespace is not known" if wrong else "is not sorted"
        raise NotDone(f"the set of the fact {own} {why}: normalise the reports with the sheet, and merge them again")
    return names


def fact_tree(fact: Fact, names: Any, prefixes: Mapping[str, str]) -> dict[str, Any]:
    """Returns the object of a fact. Measures are in the order of their texts, as OIM Common 1.0 requires."""
    def spelled(name: tuple[str, str]) -> str:
        return f"{prefixes[name[0]]}:{name[1]}"

    (concept, entity, period, unit, *others), value = fact
    sides = tuple(tuple(sorted(side, key=spelled)) for side in unit)
    given = recheck.dimensions_tree((concept, entity, period, sides, *others), spelled)
    return {"dimensions": given, **recheck.value_tree(value, spelled), **({} if names is None else {"value": " ".join(map(spelled, names))})}
