"""Finds the option that mends a fault, if there is one."""
import argparse
import json
import re
from typing import Any, Callable, Container, Mapping, NamedTuple, Optional

from text_files import looks_like
from names import NAME, SPACE
from normalising import documents, moments, prefixes
from normalising.json_text import Number, read_json
from normalising.spellings import SCIENTIFIC, plain_number, whole_number
from normalising.shapes import CORE, MEANING, has_no_target
from process import NotDone, shortened

Fault = Mapping[str, Any]  # as `explain --format json` prints it
CORE_NAME = re.compile(f"[^:]+:(?:{'|'.join(CORE)})")
NULL_CORE = {f'"{core}" is not a string' for core in CORE[1:5]}
PLAIN = re.compile(r"[+-]?(\d+(\.\d*)?|\.\d+)", re.ASCII)


class Remedy(NamedTuple):
    """The name of a fault and of several, and the option that mends it. Without an option, --normalise alone mends it."""

    one: str
    several: str
    option: str = ""

    def missing(self, options: argparse.Namespace) -> str:
        """Returns the options that mend the fault. The text is empty if they are given, so that they do not mend it here."""
        name, _, value = self.option.partition(" ")[0].removeprefix("--").replace("-", "_").partition("=")
        is_given = options.normalise and (not name or vars(options)[name] in (True, value or True))
        return "" if is_given else " ".join(["--normalise"] * (not options.normalise) + [self.option] * bool(self.option))


class FaultGroup:
    """The faults of a report that have one remedy or, without a remedy, one name: the first fault, and how many there are."""

    def __init__(self, remedy: Optional[Remedy], first: Fault, line: str) -> None:
        self.remedy, self.first, self.line, self.count = remedy, first, line, 0
        self.last = first

    def add(self, fault: Fault) -> None:
        """Counts a fault, unless it is the last one under another name: a footnote has two."""
        is_second = self.remedy is NOTE and fault["name"] != self.last["name"]
        self.count += not (is_second and fault["identifier"] is not None and fault["identifier"] == self.last["identifier"])
        self.last = fault

    def line_for(self, options: argparse.Namespace, path: str = "") -> tuple[str, bool]:
        """Returns a line about the group, and whether it names an option. A group without an option shows its first fault. If the
        option drops more than a tenth of the facts in the file at `path`, the line says so."""
        missing = self.remedy.missing(options) if self.remedy else ""
        if not self.remedy or not missing:
            return self.line + f" (and {self.count - 1} more of this kind)" * (self.count > 1), False
        part = self.first["part"]
        example = f", as in {json.dumps(shortened(part), ensure_ascii=False)}" if isinstance(part, str) and not is_number(part) else ""
        facts = facts_in(path) if self.remedy in DROPPING else self.count * 10
        share = f", which drops {self.count} of {facts or 'an unknown number of'} facts" * (self.count * 10 > facts)
        return f"{self.count} {self.remedy.one if self.count == 1 else self.remedy.several}{example}: {missing}{share}", True


def facts_in(path: str) -> int:
    """Returns the number of facts in a report, or 0 if it is not known."""
    try:
        return len(read_json(path)["facts"])
    except (NotDone, LookupError, TypeError):
        return 0


def guess_at(path: str) -> str:
    """Returns the end of a sentence about a file that is no report: what it looks like, if that is known."""
    try:
        return looks_like(documents.kind_of_root(read_json(path)))
    except (NotDone, TypeError, AttributeError):
        return ""


DATE = Remedy("date without a time", "dates without a time", "--dates=xbrl21")
ZONE = Remedy("moment with a time zone", "moments with a time zone", "--zones=utc")
FRACTION = Remedy("moment with a zero fraction", "moments with a zero fraction")
NUMBER = Remedy("value that is a JSON number", "values that are JSON numbers")
MEMBER = Remedy("member that is a JSON number", "members that are JSON numbers")
NULL_MEMBER = Remedy("null member of an explicit dimension", "null members of explicit dimensions", "--drop-null")
EMPTY = Remedy("core dimension that is null or empty", "core dimensions that are null or empty", "--drop-null")
MISPLACED = Remedy("member that its concept cannot have", "members that their concepts cannot have", "--drop-misplaced")
SPELLED = Remedy("name that is spelled with its namespace", "names that are spelled with their namespace")
CSV = Remedy("period of xBRL-CSV", "periods of xBRL-CSV", "--dates=csv")
SCALE = Remedy("member `scale` or `sign`", "members `scale` and `sign`", "--scale=ix")
ELSEWHERE = Remedy("member in another place, or with another name", "members in another place, or with another name")
DRAFT = Remedy("document type of a draft", "document types of a draft", "--document-type")
YEAR = Remedy("fact with a concept that the sheet has in another namespace", "facts with a concept that the sheet has in another namespace",
              "--map PROVIDER=MAP.json")
NULL_DECIMALS = Remedy("null as decimals", "nulls as decimals", "--drop-null")
DECIMALS = Remedy("text as decimals", "texts as decimals")
EXPONENT = Remedy("number with an exponent", "numbers with an exponent")
WHITE = Remedy("text with white space around it", "texts with white space around them")
LINKS = Remedy("fact with links", "facts with links", "--drop-links")
NOTE = Remedy("footnote", "footnotes", "--drop-notes")
CORE_PREFIX = Remedy("core dimension with a prefix", "core dimensions with a prefix")
UNKNOWN = Remedy("member that the format does not have", "members that the format does not have", "--drop-unknown-members")
HARMLESS = Remedy("identifier or comment", "identifiers or comments")
CONCEPT = Remedy("fact with a concept that the sheet lacks", "facts with a concept that the sheet lacks", "--drop-unknown")
DIMENSION = Remedy("fact with a dimension that the sheet lacks", "facts with a dimension that the sheet lacks", "--drop-unknown")
DROPPING = (NOTE, CONCEPT, DIMENSION)  # remedies that drop facts


def remedy_for(fault: Fault, concepts: Container[str] = ()) -> Optional[Remedy]:
    """Returns the remedy for a fault, or None if no option is known to mend it. `concepts` has the local names in the sheet.
    `explain` prints null in place of a number that it might spell differently from the file. In that case, only the sentence
    distinguishes the number from a null."""
    name, part, sentence = fault["name"], fault["part"], fault["sentence"]
    if name == "UnknownConcept" and str(part).partition(":")[2] in concepts:
        return YEAR
    if name == "DecimalsForm" and part is None and " null " not in sentence:
        return None
    if name == "ValueForm" and part is None:
        return NUMBER
    if name == "UnknownMember" and sentence.endswith(' in "dimensions"'):
        return ELSEWHERE if part in ("periodStart", "periodEnd") else None
    if name == "MemberForm" and part is None and sentence in NULL_CORE:
        return EMPTY
    found = FOR_NAMES.get(name)
    return found(part) if found else None


def for_period(part: Any) -> Optional[Remedy]:
    """Returns the remedy for a period, if its moments are valid apart from the fault."""
    if part == "":
        return EMPTY
    if isinstance(part, str) and moments.of_csv(part.strip(SPACE)) and not moments.MOMENT.fullmatch(part.strip(SPACE)):
        return CSV
    texts = [text.strip(SPACE) for text in part.split("/")] if isinstance(part, str) else []
    if not texts or len(texts) > 2 or not moments.can_be_mended("/".join(texts)):
        return None
    found = [moments.MOMENT.fullmatch(text) for text in texts]
    if any(moment and not moment["time"] for moment in found):
        return DATE
    if any(moment and moment["zone"] for moment in found):
        return ZONE
    return FRACTION if any(moment and moment["part"] for moment in found) else WHITE


def for_member(part: Any) -> Optional[Remedy]:
    members = [*part.values()] if isinstance(part, dict) else []
    if len(members) != 1:
        return None
    return MEMBER if is_number(members[0]) else NULL_MEMBER if members[0] is None else None


def for_decimals(part: Any) -> Optional[Remedy]:
    if part is None:
        return NULL_DECIMALS
    return DECIMALS if isinstance(part, str) and (part.strip(SPACE) == "INF" or whole_number(part) is not None) else None


def for_number(part: Any) -> Optional[Remedy]:
    if not isinstance(part, str):
        return None
    scientific = SCIENTIFIC.fullmatch(part.strip(SPACE))
    if scientific:
        return EXPONENT if plain_number(scientific) is not None else None
    return for_white(part, PLAIN)


def for_member_name(part: Any) -> Optional[Remedy]:
    if part in documents.HARMLESS:
        return HARMLESS
    return SCALE if part in ("scale", "sign") else ELSEWHERE if part in MEANING else UNKNOWN


def for_white(part: Any, form: re.Pattern[str]) -> Optional[Remedy]:
    """Returns the remedy for a text that has the form without the white space around it."""
    return WHITE if isinstance(part, str) and part != part.strip(SPACE) and form.fullmatch(part.strip(SPACE)) else None


def for_reserved(part: Any) -> Optional[Remedy]:
    if not isinstance(part, str):
        return None
    return NOTE if part.endswith(":note") else CORE_PREFIX if CORE_NAME.fullmatch(part) else None


def is_number(part: Any) -> bool:
    return isinstance(part, Number)


FOR_NAMES: Mapping[str, Callable[[Any], Optional[Remedy]]] = {
    "PeriodForm": for_period, "ValueForm": lambda part: NUMBER if is_number(part) else None, "DimensionValue": for_member,
    "DecimalsForm": for_decimals, "NumberForm": for_number, "ReservedNamespace": for_reserved, "Notes": lambda _: NOTE,
    "NameForm": lambda part: EMPTY if part == "" else MISPLACED if part == "pure" else for_white(part, NAME),
    "Links": lambda part: ELSEWHERE if has_no_target(part) else LINKS,
    **dict.fromkeys(("UnitForm", "LanguageForm"), lambda part: EMPTY if part == "" else None),
    "UnitOnOther": lambda part: MISPLACED if isinstance(part, str) and part.endswith(":pure") else None,
    "LanguageOnNumeric": lambda _: MISPLACED, "DecimalsOnOther": lambda _: MISPLACED,
    "UnboundPrefix": lambda part: SPELLED if isinstance(part, str) and prefixes.Prefixes(None, {}).named(part) else None,
    "DocumentType": lambda part: DRAFT if isinstance(part, str) and documents.DRAFT_TYPE.fullmatch(part) else None,
    "BaseUrl": lambda part: ELSEWHERE if part == "" or str(part).lower().startswith("file:") else None,
    "UnknownMember": for_member_name, "UnknownConcept": lambda _: CONCEPT, "UnknownDimension": lambda _: DIMENSION,
}
