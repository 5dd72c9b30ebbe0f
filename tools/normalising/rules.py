"""The rules that rewrite a report so that `xbrlmerge` can read it, and the options that lose something. docs/GUIDE.md describes them."""
import argparse
import re
from typing import NamedTuple, Optional

from names import SPACE, XBRL, Name, expanded, uris_of
from normalising import moments, shapes
from normalising.changes import Log, Part, Reason
from normalising.documents import change_information, check_root, drop_unknown_members, facts_by_identifier
from normalising.json_text import Number, Tree, is_text, pieces_of, text_of
from normalising.mapping import NameMap, ReportMap
from normalising.prefixes import ITEMS, Prefixes, full_name, set_of
from normalising.shapes import CORE, PURE, core_spelling
from normalising.spellings import SCIENTIFIC, plain_number, scale_value, spelling, whole_number
from program import Program
from sheets import TYPES, Kinds, Sheet
from whole_files import OutputLimit, most_output

LOSSES = {
    "drop-links": "drop the links of facts",
    "drop-notes": "drop footnotes and links",
    "drop-unknown": "drop facts with a concept or dimension that is not in the sheet",
    "drop-null": "drop null decimals, null members of explicit dimensions, and null or empty core dimensions",
    "drop-misplaced": "drop units and decimals of texts, languages of numbers, and the unit `pure` without a prefix",
    "drop-unknown-members": "drop members that the format does not define",
    "document-type": "read the document type of a draft as that of xBRL-JSON 1.0",
    "drop-unreadable": "drop the facts that the program still refuses",
}
CHOICES = ("dates", "zones", "scale")


class Normaliser:
    """Applies the rules to reports, with a sheet and options. --drop-unreadable drops the facts that `program` refuses."""

    def __init__(self, sheet: Sheet, options: argparse.Namespace, program: Optional[Program] = None) -> None:
        self.sheet, self.options, self.program = sheet, options, program

    def normalise(self, tree: Tree, length: int = 0, names: Optional[NameMap] = None) -> Log:
        """Changes the tree of a report, and replaces its names by a map if there is one. Returns a log of the changes, and of
        the parts that a rule left unchanged: first the document's, then each fact's, in order. Errors: NotDone, OSError."""
        check_root(tree)
        whole, logs, limit = Log(), dict[str, Log](), self.limit(length)
        drop_unknown_members(Part(tree, (), whole), "report", self.options)
        facts_by_identifier(Part(tree, (), whole))
        information, prefixes = Part(tree["documentInfo"], ("documentInfo",), whole), Prefixes(None, {})
        if isinstance(information.members, dict):
            change_information(information, self.options)
            prefixes = prefixes_of(information.get("namespaces"), names, limit)
        facts: dict[str, Tree] = {}
        if isinstance(tree.get("facts"), dict):
            facts, tree["facts"] = tree["facts"], {}
            reader = FactReader(self.sheet, self.options, prefixes, limit)
            for number, (name, fact) in enumerate(facts.items(), 1):
                logs[name] = Log(name, number)
                reader.read(name, fact, logs[name], tree["facts"])
        if isinstance(information.members, dict):
            change_namespaces(information, prefixes)
        if self.program and self.options.drop_unreadable:
            refused = refused_in(tree, self.program)
            for name, why in refused.facts.items():
                logs[name].tell_dropped(("facts", name), Reason("drop-unreadable", why), facts[name])
                del tree["facts"][name]
            whole.left += refused.lines
        for log in logs.values():
            whole.take(log)
        return whole

    def limit(self, length: int) -> OutputLimit:
        """Returns the limit for the names that rules write. Namespaces and names of a map may be long, and many facts have them."""
        most = vars(self.options).get("most_output")
        return OutputLimit(most_output(length) if most is None else most)

    def spell_sets(self, tree: Tree, length: int) -> Log:
        """Applies only the rule `set`, and returns a log. Parts without their form stay: the program refuses them. Errors: NotDone."""
        whole, (information, facts) = Log(), (tree.get(key) if isinstance(tree, dict) else None for key in ("documentInfo", "facts"))
        uris = uris_of(information.get("namespaces")) if isinstance(information, dict) else {}
        reader = FactReader(self.sheet, self.options, Prefixes(None, uris), self.limit(length))
        for number, (name, fact) in enumerate(facts.items() if isinstance(facts, dict) else (), 1):
            if isinstance(fact, dict) and is_text(fact.get("value")) and reader.concept_of(fact) in self.sheet.sets:
                log = Log(name, number)
                reader.change_set(Part(fact, ("facts", name), log))
                whole.take(log)
        return whole


def prefixes_of(namespaces: Tree, names: Optional[NameMap], limit: OutputLimit) -> Prefixes:
    uris = uris_of(namespaces)
    return ReportMap(names, namespaces, uris, limit) if names else Prefixes(namespaces, uris)


def change_namespaces(information: Part, prefixes: Prefixes) -> None:
    """Adds the prefixes that names with their namespace need, and then replaces namespaces by a map."""
    if "namespaces" not in information.members and prefixes.bound:
        information.add("namespaces", {**prefixes.bound}, "expanded-name")
    if isinstance(information.get("namespaces"), dict):
        information.change("namespaces", {**information.get("namespaces"), **prefixes.bound}, "expanded-name")
        information.change("namespaces", {**information.get("namespaces"), **prefixes.namespaces}, "map", True)


class FactReader:
    """The rules for the facts of one report. `limit` counts the bytes that the names of sets add."""

    def __init__(self, sheet: Sheet, options: argparse.Namespace, prefixes: Prefixes, limit: OutputLimit) -> None:
        self.sheet, self.options, self.prefixes, self.limit = sheet, options, prefixes, limit
        self.uris = prefixes.uris
        self.mapped = prefixes if isinstance(prefixes, ReportMap) else None

    def read(self, name: str, fact: Tree, log: Log, kept: dict[str, Tree]) -> None:
        """Adds the changed fact to `kept`, or drops it. The log of a dropped fact contains only the drop."""
        changed = fact
        if isinstance(fact, dict):
            changed = {**fact}
            self.change(changed, log)
        reason = self.reason_to_drop(changed)
        if reason:
            log.tell_dropped(("facts", name), reason, fact)
        else:
            kept[name] = changed

    def change(self, members: dict[str, Tree], log: Log) -> None:
        fact, scale = Part(members, ("facts", log.fact or ""), log), 0
        if isinstance(members.get("dimensions"), dict):
            members["dimensions"] = {**members["dimensions"]}
        shapes.move_flat(fact, self.uris, self.is_dimension)
        drop_unknown_members(fact, "fact", self.options, shapes.MEANING)
        if isinstance(members.get("dimensions"), dict):
            dimensions = Part(members["dimensions"], (*fact.path, "dimensions"), log)
            scale = self.change_dimensions(dimensions)
            kind = kind_of(self.concept_of(members), self.sheet.concepts)
            shapes.drop_misplaced(dimensions, fact, kind, self.uris, self.options)
        if self.reason_to_drop(members):
            return
        shapes.apply_scale(fact, self.options)
        shapes.infer_decimals(fact)
        self.change_decimals(fact)
        self.change_value(fact)
        if scale:
            scale_value(fact, scale)
        shapes.drop_empty_links(fact)
        if "links" in members and members["links"] != {} and (self.options.drop_links or self.options.drop_notes):
            fact.remove("links", "drop-links", True)

    def is_dimension(self, key: str) -> bool:
        return expanded(key, self.uris) in self.sheet.dimensions

    def change_dimensions(self, part: Part) -> int:
        """Changes the dimensions of a fact. Returns the scale of its unit: its value is to be multiplied by ten to this power."""
        for key in list(part.members):
            name, axis = core_spelling(key, self.uris), self.prefixes.named(key)
            if name in CORE:
                part.rename(key, name, "core-prefix")
            elif axis:
                part.rename(key, axis, "expanded-name")
        shapes.join_period(part)
        for key in ("concept", "period", "unit", "language", "entity"):
            if is_text(part.get(key)):
                part.change(key, trimmed(key, part.get(key)), "white-space")
        if self.options.drop_null:
            shapes.drop_empty(part)
        if is_text(part.get("period")):
            self.change_period(part)
        self.expand(part, "concept")
        scale = self.map_dimensions(part, self.mapped) if self.mapped else 0
        concept = expanded(part.get("concept"), self.uris)
        if self.mapped and "unit" not in part.members and kind_of(concept, self.sheet.concepts) == "numeric":
            self.mapped.note_kept("units", PURE)  # a missing unit means the same
        for key in [key for key in part.members if ":" in key]:
            self.change_member(part, key, expanded(key, self.uris))
        return scale

    def expand(self, part: Part, key: str) -> None:
        """Gives a name that is spelled with its namespace a prefix."""
        name = self.prefixes.named(part.get(key)) if is_text(part.get(key)) else None
        if name:
            part.change(key, name, "expanded-name")

    @staticmethod
    def map_dimensions(part: Part, mapped: ReportMap) -> int:
        for key, table in (("concept", "concepts"), ("entity", "entities")):
            if is_text(part.get(key)):
                part.change(key, mapped.renamed(table, part.get(key)), "map", True)
        for key in [key for key in part.members if ":" in key]:
            mapped.renamed("axes", key)
        unit, scale = mapped.unit(part.get("unit")) if is_text(part.get("unit")) else (None, 0)
        if unit is not None:
            part.change("unit", unit, "map", True)
        return scale

    def change_period(self, part: Part) -> None:
        steps: list[tuple[str, moments.Rewriting, bool]] = [("period-fraction", moments.without_zero_fraction, False)]
        steps += [("dates", moments.with_time, True)] * (self.options.dates == "xbrl21")
        steps += [("zones", moments.in_utc, True)] * bool(self.options.zones)
        if self.options.dates == "csv":
            part.change("period", moments.of_csv(part.get("period")) or part.get("period"), "dates", True)
        for rule, rewritten, loss in steps:
            part.change("period", moments.each_moment(part.get("period"), rewritten), rule, loss)
        for why in dict.fromkeys(moments.doubts(part.get("period"), {rule for rule, _, _ in steps})):
            part.leave("period", why)

    def change_member(self, part: Part, key: str, axis: Optional[Name]) -> None:
        member, kind = part.get(key), kind_of(axis, self.sheet.dimensions)
        if kind == "explicit" and is_text(member):
            part.change(key, member.strip(SPACE), "white-space")
            self.expand(part, key)
            if self.mapped:
                part.change(key, self.mapped.renamed("members", part.get(key)), "map", True)
        elif kind == "explicit" and member is None and self.options.drop_null:
            part.remove(key, "drop-null", True)
        elif kind == "typed" and isinstance(member, (Number, bool)):
            part.change(key, text_of(member), "value-text")
        if kind == "typed":
            self.spell(part, key, axis)

    def spell(self, part: Part, key: str, name: Optional[Name]) -> None:
        """Gives a text the one spelling that its value has by the type of a concept or typed dimension."""
        kind, text = self.sheet.types[TYPES].get(name) if name else None, part.get(key)
        if not kind or not is_text(text):
            return
        try:
            made = spelling(kind, text)
        except ValueError:
            part.leave(key, f"it is not a valid {kind}")
            return
        part.change(key, made.text, "type")
        if made.doubt:
            part.leave(key, made.doubt)

    def change_decimals(self, fact: Part) -> None:
        given = fact.get("decimals")
        if isinstance(given, str) and given.strip(SPACE) == "INF":
            fact.remove("decimals", "decimals-infinite")
        elif isinstance(given, str):
            whole = whole_number(given)
            if whole is not None:
                fact.change("decimals", Number(whole), "decimals")
        elif given is None and "decimals" in fact.members and self.options.drop_null:
            fact.remove("decimals", "drop-null", True)

    def change_value(self, fact: Part) -> None:
        if isinstance(fact.get("value"), (Number, bool)):
            fact.change("value", text_of(fact.get("value")), "value-text")
        if not isinstance(fact.get("value"), str):
            return
        concept = self.concept_of(fact.members)
        kind = kind_of(concept, self.sheet.concepts)
        if kind in ("numeric", "name"):
            fact.change("value", fact.get("value").strip(SPACE), "white-space")
        if kind == "name":
            self.expand(fact, "value")
        if kind == "name" and self.mapped:
            self.mapped.renamed("values", fact.get("value"))  # its prefix may be bound to another namespace
        scientific = SCIENTIFIC.fullmatch(fact.get("value")) if kind == "numeric" else None
        if scientific:
            plain = plain_number(scientific)
            if plain is None:
                fact.leave("value", "written without an exponent, it has more than 18 digits")
            else:
                fact.change("value", plain, "exponent")
        if concept in self.sheet.sets:
            self.change_set(fact)
        elif kind == "text":
            self.spell(fact, "value", concept)

    def change_set(self, fact: Part) -> None:
        given = fact.get("value")
        items = ITEMS.findall(given)
        if self.mapped:
            for name in filter(None, (full_name(item, self.mapped.before) for item in items)):
                self.mapped.note_kept("items", Name(*name))
        spelled = [full_name(item, self.uris) for item in items]
        found = [name and self.in_namespace(name) for name in spelled]  # an item may spell its namespace
        names = {name for name in found if name}
        if len(names) < len(found):
            why = "the set repeats a name, or has an item that cannot be written as URI#LOCAL"
            fact.log.leave_set((*fact.path, "value"), given, why)
            return
        lengths = {uri: len(uri.encode()) for uri in {uri for uri, _ in names}}  # each URI is encoded once, since it may be long
        self.limit.count(sum(lengths[uri] + len(local.encode()) + 2 for uri, local in names) - len(given.encode()))
        fact.change("value", set_of(names), *(("set", False) if found == spelled else ("map", True)))

    def in_namespace(self, name: tuple[str, str]) -> tuple[str, str]:
        return (self.mapped.given.namespaces.get(name[0], name[0]), name[1]) if self.mapped else name

    def concept_of(self, members: dict[str, Tree]) -> Optional[Name]:
        dimensions = members.get("dimensions")
        return expanded(dimensions.get("concept"), self.uris) if isinstance(dimensions, dict) else None

    def reason_to_drop(self, fact: Tree) -> Optional[Reason]:
        """Returns the reason why --drop-notes or --drop-unknown drops a fact, or None if neither drops it."""
        dimensions = fact.get("dimensions") if isinstance(fact, dict) else None
        if self.options.drop_notes and isinstance(dimensions, dict):
            if "noteId" in dimensions or self.concept_of(fact) == (XBRL, "note"):
                return Reason("drop-notes", "it is a footnote")
        if self.options.drop_unknown and isinstance(dimensions, dict):
            axes = [(expanded(key, self.uris), self.sheet.dimensions) for key in dimensions if ":" in key]
            for name, listed in [(self.concept_of(fact), self.sheet.concepts), *axes]:
                if name and name not in listed:
                    return Reason("drop-unknown", "the sheet does not list {{{}}}{}", name)
        return None


def kind_of(name: Optional[Name], kinds: Kinds) -> Optional[str]:
    return kinds.get(name) if name else None


def trimmed(key: str, text: str) -> str:
    """Returns a text without white space around its tokens. At the end of an entity it belongs to the identifier, and stays."""
    if key == "entity":
        return text.lstrip(SPACE)
    signs = {"period": "([/])", "unit": "([*/()])"}.get(key)
    return "".join(token.strip(SPACE) for token in (re.split(signs, text) if signs else [text]))


class Refused(NamedTuple):
    """The reasons why the program refuses a report."""

    facts: dict[str, str]  # by identifier: the number and the name of the fact's first refusal
    lines: list[str]  # messages about the refusal of the document


def refused_in(tree: Tree, program: Program) -> Refused:
    """Asks the program why it refuses a report. Errors: NotDone, OSError."""
    with open(program.path_of("normalised"), "w", encoding="utf-8", newline="") as file:
        file.writelines(pieces_of(tree))
    refused = Refused({}, [])
    for fault in program.faults(program.path_of("normalised")):
        why = f"{fault['number']} {fault['name']}"
        if fault["identifier"] is not None:
            refused.facts.setdefault(fault["identifier"], why)
        elif fault["place"] == "document":
            refused.lines.append(f"the document is refused: {why}: {fault['sentence']}")
    return refused


def add_losses(parser: argparse.ArgumentParser, title: str) -> argparse._ArgumentGroup:
    """Adds the lossy options to a parser as a group, and returns the group."""
    lossy = parser.add_argument_group(title)
    for word, meaning in LOSSES.items():
        lossy.add_argument(f"--{word}", action="store_true", help=meaning)
    lossy.add_argument("--dates", choices=["xbrl21", "csv"], help="read a date without a time as XBRL 2.1 does (a start is"
                       " the beginning of its day, and an instant or an end is the end of its day), or a period as xBRL-CSV does")
    lossy.add_argument("--zones", choices=["utc"], help="convert moments with a time zone to UTC, and remove the zone")
    lossy.add_argument("--scale", choices=["ix"], help="apply the members `scale` and `sign` to a value, as Inline XBRL does")
    return lossy


def loses(options: argparse.Namespace) -> bool:
    """Returns whether any lossy option is given."""
    return any(vars(options)[word.replace("-", "_")] for word in (*LOSSES, *CHOICES))
