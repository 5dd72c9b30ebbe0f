"""The shapes of input that bench/shapes measures. A shape has the smaller of its two sizes, and a function of a size. The function
returns the arguments of a command, and the content of each file that the command reads, by name."""
import json
import random
from typing import Callable, NamedTuple

DOCUMENT_TYPE = "https://xbrl.org/2021/xbrl-json"
URI = "http://example.org/t"
SCHEME = "http://example.org/lei"
MONTHS = 12
YEARS = 9_000
REPLICAS = 8
FACTS = 1_000
# a command that reads a report of this name must end with status 1, since the report is refused
REFUSED = "refused.json"


def expected(command):
    """The status with which a command of a shape must end."""
    return int("explain" in command or REFUSED in command)


# ---- the parts of an input

def sheet(concepts=None, dimensions=None, namespaces=None):
    return {"namespaces": namespaces or {"eg": URI}, "concepts": concepts or {"eg:C": "text", "eg:N": "numeric"}, "dimensions": dimensions or {}}


def report(facts, namespaces=None, **others):
    head = {"documentType": DOCUMENT_TYPE, "namespaces": namespaces or {"eg": URI, "lei": SCHEME}, **others}
    return {"documentInfo": head, "facts": facts}


def fact(value="v", concept="eg:C", **dimensions):
    return {"value": value, "dimensions": {"concept": concept, **dimensions}}


def numeric(value, **dimensions):
    return fact(value, "eg:N", **dimensions)


def numbered(facts):
    return {f"f{place:07}": one for place, one in enumerate(facts)}


def period(n):
    """The start of a month, different for each n below 108,000."""
    return f"{n // MONTHS % YEARS + 1:04}-{n % MONTHS + 1:02}-01T00:00:00"


def prefixes(n):
    """Prefixes and URIs, both in rising order."""
    return {f"p{place:07}": f"{URI}/{place:07}" for place in range(n)}


def falling(n):
    """Prefixes in rising order with URIs in falling order."""
    return {f"p{place:07}": f"{URI}/{n - place:07}" for place in range(n)}


def merging(a_sheet, *reports):
    """The arguments of `merge`, and the content of each file that they name."""
    files = {"sheet.json": a_sheet, **{f"report{place}.json": one for place, one in enumerate(reports)}}
    return ["merge", "--sheet", *files], files


def drawn_events(chance, n):
    """Draws n events. The first is a send. Later, about one event in fifty is a restart; the other kinds are equally likely."""
    replica, sent = lambda: chance.randint(1, REPLICAS), 0
    yield f"send {replica()}"
    for _ in range(n - 1):
        kind = "restart" if chance.random() < 0.02 else chance.choice(["take", "join", "send", "receive"])
        numbers = {"take": [replica()], "join": [replica()], "receive": [chance.randint(1, sent + 1)]}.get(kind, [])
        sent += kind == "send"
        yield " ".join(map(str, [kind, replica(), *numbers]))


def replaying(replicas, events, *reports):
    words, files = merging(sheet(), *reports)
    words = ["replay", "--replicas", str(replicas), "--events", "events.txt", *words[1:]]
    return words, {**files, "events.txt": "".join(f"{event}\n" for event in events)}


def one_report(facts, namespaces=None, **others):
    return merging(sheet(), report(numbered(facts), namespaces, **others))


def with_axis(facts, namespaces=None):
    """A merge of one report whose facts have the explicit dimension eg:D."""
    return merging(sheet(dimensions={"eg:D": "explicit"}), report(numbered(facts), namespaces))


def by(command, make):
    """The function of a shape with the files of another shape, for another command."""
    def made(*sizes):
        words, files = make(*sizes)
        return [command, *words[1:]], files
    return made


def explaining(*files):
    return by("explain", merging)(sheet(), *files)


def taken(make):
    """The function of a shape in which a replica takes the only report of another shape."""
    def made(*sizes):
        words, files = by("replay", make)(*sizes)
        return [*words[:1], "--replicas", "1", "--events", "events.txt", *words[1:]], {**files, "events.txt": "take 1 1\n"}
    return made


def shuffled(items):
    return random.Random(1).sample(list(items), len(items))


def axes(n, given):
    """n dimensions, each with the same kind or member."""
    return {f"eg:D{place:07}": given for place in range(n)}


def beside_a_long_one(size):
    """The usual namespace, and one whose URI has about `size` bytes."""
    return {"eg": URI, "u": f"{URI}/{'u' * size}"}


def references(places):
    return [f"{URI}/{place:07}.xsd" for place in places]


def measures(prefix, n):
    """A unit with n measures in falling order."""
    return "*".join(f"{prefix}:m{n - place:07}" for place in range(n))


def in_months(places):
    """A number for each place, of different months."""
    return [numeric(str(place), period=period(place)) for place in places]


def apart(n):
    """n facts of different months, by identifier."""
    return numbered(in_months(range(n)))


def tiny_reports(n):
    return [report(numbered([one])) for one in in_months(range(n))]


def long_uri(names, size):
    """A sheet with `names` concepts that share a URI of about `size` bytes, and a report that uses all of them."""
    bound = {"u": f"{URI}/{'u' * size}"}
    concepts = [f"u:c{place:07}" for place in range(names)]
    return sheet(dict.fromkeys(concepts, "text"), namespaces=bound), report(numbered(fact(concept=name) for name in concepts), bound)


def names_by_two_prefixes(n):
    """A sheet with n names of one namespace, whose URI has about 20 n bytes. Two prefixes spell the names, and both spell one."""
    names = [f"{'uv'[place % 2]}:c{place:07}" for place in range(n)]
    bound = dict.fromkeys("uv", f"{URI}/{'u' * (20 * n)}")
    return merging(sheet(dict.fromkeys([*names, "u:c0000001"], "text"), namespaces=bound), report({}))


ONE_FACT = report(numbered([fact()]))
TWO_REPORTS = [report(numbered([numeric(value)])) for value in "12"]


# ---- the shapes that take several steps

def namespaces_written(n):
    names = prefixes(n)
    concepts = {f"{prefix}:C": "text" for prefix in names}
    return merging(sheet(concepts, namespaces=names), report(numbered(fact(concept=name) for name in concepts), names))


def dimensions_whose_names_fall(n):
    bound = {"eg": URI, **falling(n)}
    axes = [f"{prefix}:D" for prefix in falling(n)]
    listed = sheet(dimensions=dict.fromkeys(axes, "typed"), namespaces=bound)
    return merging(listed, report(numbered([fact(**dict.fromkeys(axes, "m"))]), bound))


def measures_in_no_order(n, size=5_000):
    """A unit with n measures in no order, of one namespace whose URI has about `size` bytes."""
    unit = "*".join(f"u:{place:05}" for place in shuffled(range(n)))
    return one_report([numeric("1", unit=unit)], beside_a_long_one(size))


def members_of_a_long_uri(n, size=50_000):
    """n facts of one concept and one entity, in no order. The URI of the entity and of all members has about `size` bytes."""
    return with_axis((fact(entity="u:e", **{"eg:D": f"u:m{place:05}"}) for place in shuffled(range(n))), beside_a_long_one(size))


def entities_of_a_long_uri(n, size=50_000):
    """n facts of one concept, each of another entity with another member, in no order. One URI of about `size` bytes."""
    facts = (fact(entity=f"u:e{place:05}", **{"eg:D": f"u:m{place:05}"}) for place in shuffled(range(n)))
    return with_axis(facts, beside_a_long_one(size))


def entities_of_two_long_uris(n, size=25_000):
    """n facts of one concept, in no order. The URIs of their entities have one length and differ in the last character."""
    bound = {"eg": URI, **{prefix: f"{URI}/{'u' * size}{prefix}" for prefix in "uw"}}
    return one_report((fact(entity=f"{'uw'[place % 2]}:e{place:05}") for place in shuffled(range(n))), bound)


def names_and_bytes_of_a_uri(n):
    """n names that share a URI of about 20 n bytes: if each name cost a comparison of URIs, costs would be quadratic."""
    return merging(*long_uri(n, 20 * n))


def names_and_bytes_of_a_uri_in_no_order(n):
    """The same names; neither their facts nor the identifiers are in order."""
    a_sheet, a_report = long_uri(n, 20 * n)
    names = shuffled(a_report["facts"])
    return merging(a_sheet, {**a_report, "facts": {name: a_report["facts"][other] for name, other in zip(reversed(names), names)}})


def objects_behind_dimensions(n, extension=None):
    """n facts of different lengths, each with an object as an extension. A piece may be cut before this object."""
    return one_report({**fact("v" * (place % 50)), "x:e": extension or {"a": 1}} for place in range(n))


def facts_with_one_repeated(n):
    text = json.dumps(report(apart(n)), separators=(",", ":"))
    return merging(sheet(), text.removesuffix("}}") + f',"f{0:07}":{json.dumps(numeric("0", period=period(0)))}}}}}')


def facts_with_the_last_refused(n):
    words, files = merging(sheet(), report(apart(n) | {"g": fact(concept="eg:Unknown")}))
    files[REFUSED] = files.pop("report0.json")
    return [*words[:-1], REFUSED], files


def numbers_of_one_dimension_set(n):
    return one_report({**numeric(str(n - place)), "decimals": place % 37 - 18} for place in range(n))


def merged_text(n):
    """A report of n facts that is its own canonical text, so `check` compares the whole text."""
    facts = {f"f{place + 1:0{len(str(n))}}": {"dimensions": {"concept": "n1:N", "period": period(place)}, "value": str(place)} for place in range(n)}
    features, namespaces = {"xbrl:allowedDuplicates": "none"}, {"n1": URI, "xbrl": "https://xbrl.org/2021"}
    head = {"documentType": DOCUMENT_TYPE, "features": features, "namespaces": namespaces, "taxonomy": []}
    return merging(sheet(), {"documentInfo": head, "facts": facts})


def sources_of_one_file_named_often(n):
    words, files = merging(sheet(), ONE_FACT)
    return ["sources", *words[1:3], "--reports-from", "names.txt"], {**files, "names.txt": f"{words[3]}\n" * n}


def faults_of_names_of_a_long_uri(n, size=50_000):
    """n refused facts, each with another concept; the concepts share a URI of about `size` bytes."""
    a_sheet, a_report = long_uri(n, size)
    refused = {identifier: {**one, "decimals": "x"} for identifier, one in a_report["facts"].items()}
    return by("explain", merging)(a_sheet, {**a_report, "facts": refused})


def duplicates_that_are_denied(n):
    """A report that allows only consistent duplicates: n numbers agree within rounding, and one contradicts them all."""
    numbers = [{**numeric(str(n - place)), "decimals": -18} for place in range(n)] + [numeric("9" * 18)]
    level = {"namespaces": {"eg": URI, "xbrl": "https://xbrl.org/2021"}, "features": {"xbrl:allowedDuplicates": "consistent"}}
    return explaining(report(numbered(numbers), **level))


def repeated_members(n):
    text = json.dumps(report(numbered(fact(f"v{place}") for place in range(n))), separators=(",", ":"))
    facts = text.partition('"facts":{')[2].removesuffix("}}")
    return explaining(text.removesuffix("}}") + f",{facts}}}}}")


def repeated_members_of_one_fact(n):
    """A fact with n / 10 repeated members, and with an identifier of n characters."""
    twice = ",".join(f'"x:e{place:07}":1' for place in range(n // 10) for _ in range(2))
    text = json.dumps(report({"f" * n: fact()}), separators=(",", ":"))
    return explaining(text.removesuffix("}}}") + f",{twice}}}}}}}")


def texts_sent_and_received(n):
    events = ["take 1 1", "take 2 2"]
    for place in range(1, n // 2 + 1):
        events += [f"send {1 + place % 2}", f"receive {2 - place % 2} {place}"]
    return replaying(2, events, *TWO_REPORTS)


def reports_sent_in_a_ring(n):
    """n reports that a replica takes one by one. After each, three replicas send their texts to each other in a ring."""
    events, sent = [], 0
    for place in range(1, n + 1):
        events.append(f"take 1 {place}")
        for sender, receiver in ((1, 2), (2, 3), (3, 1)):
            sent += 1
            events += [f"send {sender}", f"receive {receiver} {sent}"]
    return replaying(3, events, *tiny_reports(n))


def reports_received_late(n):
    """n reports that a replica takes one by one, sending its text after each. Then another replica receives all texts."""
    events = [event for place in range(1, n + 1) for event in (f"take 1 {place}", "send 1")]
    return replaying(2, events + [f"receive 2 {place}" for place in range(1, n + 1)], *tiny_reports(n))


def long_texts_sent_after_takes(n):
    """A replica takes a report n / 2 times, and sends its text after each. The report has 512 references beside a base of 16,384 bytes."""
    given = report(numbered([fact()]), taxonomy=[str(place) for place in range(512)], baseURL=f"{URI}/{'b' * 16_384}/")
    return replaying(1, ["take 1 1", "send 1"] * (n // 2), given)


def joins_that_add_nothing(n):
    """n joins: a replica of 1,000 facts joins a replica that has half of them."""
    halves = [report(numbered(in_months(range(0, FACTS, step)))) for step in (1, 2)]
    return replaying(2, ["take 1 1", "take 2 2", *["join 1 2"] * n], *halves)


def events_of_eight_replicas(n):
    """n drawn events on replicas of at most 1,000 facts. Each report leaves out an eighth of the facts."""
    chance = random.Random(1)
    facts = [numeric(str(place), entity="lei:e", period=period(place), unit="eg:EUR") for place in range(FACTS)]
    reports = [report({f"f{place}": one for place, one in enumerate(facts) if place % REPLICAS != left_out}) for left_out in range(REPLICAS)]
    return replaying(REPLICAS, drawn_events(chance, n), *reports)


# ---- the table of shapes

class Shape(NamedTuple):
    size: int  # the smaller of two
    make: Callable
    megabyte: tuple = ()  # the sizes with which a shape of several sizes costs most for a megabyte
    is_costly: bool = False  # whether a megabyte may cost more than --megabyte allows; docs/COSTS.md lists these shapes


SHAPES = {
    "namespaces_of_a_report": Shape(5_000, lambda n: one_report([fact()], {"eg": URI, **prefixes(n)})),
    "namespaces_of_a_sheet": Shape(5_000, lambda n: merging(sheet(namespaces={"eg": URI, **prefixes(n)}), ONE_FACT)),
    "namespaces_written": Shape(5_000, namespaces_written),
    "namespaces_written_that_fall": Shape(5_000, lambda n: with_axis(
        (fact(period=period(place), **{"eg:D": f"p{place:07}:m"}) for place in range(n)), {"eg": URI, **falling(n)})),
    "references": Shape(5_000, lambda n: one_report([fact()], taxonomy=references(range(n)))),
    "references_that_fall": Shape(5_000, lambda n: one_report([fact()], taxonomy=references(range(n, 0, -1)))),
    # each reference is stored as a URL of about 5,000 bytes
    "references_beside_a_long_base": Shape(500, lambda n: one_report(
        [fact()], taxonomy=[str(place) for place in range(n)], baseURL=f"{URI}/{'b' * 5_000}/"), is_costly=True),
    "references_of_many_reports": Shape(500, lambda n: merging(
        sheet(), *(report(numbered([fact()]), taxonomy=[reference]) for reference in references(range(n))))),
    "features": Shape(5_000, lambda n: one_report([fact()], features={f"eg:f{place:07}": True for place in range(n)})),
    "dimensions_of_one_fact": Shape(5_000, lambda n: merging(sheet(dimensions=axes(n, "typed")), report(numbered([fact(**axes(n, "m"))])))),
    "dimensions_whose_names_fall": Shape(5_000, dimensions_whose_names_fall),
    "measures_of_a_unit": Shape(5_000, lambda n: one_report([numeric("1", unit=measures("eg", n))])),
    "measures_beside_a_long_uri": Shape(1_000, lambda n: one_report([numeric("1", unit=measures("u", n))], beside_a_long_one(5_000))),
    "measures_in_no_order": Shape(1_000, measures_in_no_order, (54_000, 490_000), True),
    "members_of_a_long_uri": Shape(1_000, members_of_a_long_uri, (5_200, 500_000)),
    "entities_of_a_long_uri": Shape(1_000, entities_of_a_long_uri, (5_200, 500_000)),
    "entities_of_two_long_uris": Shape(1_000, entities_of_two_long_uris, (5_900, 250_000)),
    "sources_of_members_of_a_long_uri": Shape(1_000, by("sources", members_of_a_long_uri), (5_200, 500_000)),
    "take_of_members_of_a_long_uri": Shape(1_000, taken(members_of_a_long_uri), (5_200, 500_000)),
    "names_of_a_long_uri": Shape(2_000, lambda n: merging(*long_uri(n, 50_000))),
    "bytes_of_a_uri_of_many_names": Shape(50_000, lambda n: merging(*long_uri(2_000, n))),
    "names_and_bytes_of_a_uri": Shape(2_000, names_and_bytes_of_a_uri),
    "names_and_bytes_of_a_uri_in_no_order": Shape(2_000, names_and_bytes_of_a_uri_in_no_order),
    "check_of_names_and_bytes_of_a_uri": Shape(2_000, by("check", names_and_bytes_of_a_uri)),
    "sources_of_names_of_a_long_uri": Shape(2_000, by("sources", lambda n: merging(*long_uri(n, 50_000)))),
    "sources_of_bytes_of_a_uri": Shape(50_000, by("sources", lambda n: merging(*long_uri(2_000, n)))),
    "take_of_names_and_bytes_of_a_uri": Shape(2_000, taken(names_and_bytes_of_a_uri)),
    "names_of_a_long_uri_in_a_sheet": Shape(2_000, lambda n: merging(long_uri(n, 50_000)[0], report({}))),
    "names_and_bytes_of_a_uri_in_a_sheet": Shape(2_000, lambda n: merging(long_uri(n, 20 * n)[0], report({}))),
    "names_by_two_prefixes_in_a_sheet": Shape(2_000, names_by_two_prefixes),
    "text_of_one_value": Shape(100_000, lambda n: one_report([fact("ab\"\\\u00e9\n" * n)])),
    "identifier_of_an_entity": Shape(500_000, lambda n: one_report([fact(entity="lei:" + "e" * n)])),
    "name_of_a_member": Shape(500_000, lambda n: with_axis([fact(**{"eg:D": "eg:" + "m" * n})])),
    "zeros_in_front_of_digits": Shape(500_000, lambda n: one_report([numeric("0" * n + "1")])),
    "zeros_behind_a_point": Shape(500_000, lambda n: one_report([numeric("1." + "0" * n)])),
    "extension_members_of_a_report": Shape(5_000, lambda n: merging(sheet(), {**ONE_FACT, **{f"x:e{place:07}": place for place in range(n)}})),
    "extension_members_of_a_fact": Shape(5_000, lambda n: one_report([{**fact(), **{f"x:e{place:07}": [place] for place in range(n)}}])),
    # the program reads and ignores the objects
    "objects_in_an_extension": Shape(50_000, lambda n: merging(sheet(), {**ONE_FACT, "x:e": [{"a": 1}] * n})),
    "empty_keys_in_an_extension": Shape(50_000, lambda n: merging(sheet(), {**ONE_FACT, "x:e": [{"": 0}] * n})),
    "empty_keys_before_and_behind_facts": Shape(50_000, lambda n: merging(
        sheet(), {"x:a": [{"": 0}] * (n // 2), **ONE_FACT, "x:b": [{"": 0}] * (n // 2)})),
    "objects_behind_dimensions": Shape(5_000, objects_behind_dimensions),
    "nested_objects_behind_dimensions": Shape(5_000, lambda n: objects_behind_dimensions(n, {"x:a": {"b": 1}, "x:c": {"x:d": {"e": 1}}})),
    "concepts": Shape(5_000, lambda n: merging(sheet({"eg:C": "text", **{f"eg:C{place:07}": "numeric" for place in range(n)}}), ONE_FACT)),
    "concepts_in_no_order": Shape(5_000, lambda n: merging(
        sheet({"eg:C": "text", **{f"eg:C{place:07}": "numeric" for place in shuffled(range(n))}}), ONE_FACT)),
    "dimensions_of_a_sheet": Shape(5_000, lambda n: merging(sheet(dimensions=axes(n, "typed")), ONE_FACT)),
    "facts": Shape(5_000, lambda n: merging(sheet(), report(apart(n)))),
    "facts_on_lines_of_their_own": Shape(5_000, lambda n: merging(sheet(), json.dumps(report(apart(n)), indent=2))),
    "facts_before_document_info": Shape(5_000, lambda n: merging(sheet(), dict(reversed(report(apart(n)).items())))),
    "facts_in_no_order": Shape(5_000, lambda n: merging(sheet(), report(dict(shuffled(apart(n).items()))))),
    "facts_with_one_repeated": Shape(5_000, facts_with_one_repeated),
    "facts_with_the_last_refused": Shape(5_000, facts_with_the_last_refused),
    "reports": Shape(500, lambda n: merging(sheet(), *tiny_reports(n))),
    "facts_of_one_dimension_set": Shape(5_000, lambda n: one_report(fact(f"v{n - place:07}") for place in range(n))),
    "numbers_of_one_dimension_set": Shape(5_000, numbers_of_one_dimension_set),
    "verdicts_on_one_dimension_set": Shape(5_000, by("verdicts", numbers_of_one_dimension_set)),
    "check_of_one_dimension_set": Shape(5_000, by("check", numbers_of_one_dimension_set)),
    "check_of_a_merged_text": Shape(5_000, by("check", merged_text)),
    "reports_of_one_dimension_set": Shape(500, lambda n: merging(sheet(), *(report(numbered([numeric(str(n - place))])) for place in range(n)))),
    "sources_of_one_dimension_set": Shape(5_000, by("sources", lambda n: one_report(fact(f"v{n - place:07}") for place in range(n)))),
    "sources_of_one_fact": Shape(5_000, by("sources", lambda n: one_report(fact() for _ in range(n)))),
    "sources_of_small_reports": Shape(500, by("sources", lambda n: merging(sheet(), *tiny_reports(n)))),
    "sources_of_one_file_named_often": Shape(2_000, sources_of_one_file_named_often),
    "faults_of_facts": Shape(5_000, lambda n: explaining(
        report(numbered(fact("1,5", concept=f"q{place}:N", unit=f"q{place}:u") for place in range(n))))),
    "faults_of_names_of_a_long_uri": Shape(500, faults_of_names_of_a_long_uri, (3_400, 250_000)),
    "faults_of_one_fact": Shape(10_000, lambda n: explaining(report(numbered(
        [fact(**{f"eg:D{n - place:07}": 1 for place in range(n)}, unit="*".join(f"q{place}:u" for place in range(n)))])))),
    "duplicates_that_are_denied": Shape(5_000, duplicates_that_are_denied),
    "repeated_members": Shape(5_000, repeated_members),
    "repeated_members_of_one_fact": Shape(50_000, repeated_members_of_one_fact),
    "lines_that_join": Shape(5_000, lambda n: replaying(
        2, ["take 1 1", "take 2 2", *(f"join {1 + place % 2} {2 - place % 2}" for place in range(n))], *TWO_REPORTS)),
    "lines_that_take": Shape(1_000, lambda n: replaying(2, (f"take {1 + place % 2} {1 + place % 2}" for place in range(n)), *TWO_REPORTS)),
    "texts_sent_and_received": Shape(1_000, texts_sent_and_received),
    # a replica of 1,000 facts sends its base, which does not change
    "sends_without_a_change": Shape(1_000, lambda n: replaying(1, ["take 1 1", *["send 1"] * n], report(apart(FACTS)))),
    "joins_that_add_nothing": Shape(100, joins_that_add_nothing, is_costly=True),
    "takes_of_different_reports": Shape(500, lambda n: replaying(1, (f"take 1 {place}" for place in range(1, n + 1)), *tiny_reports(n))),
    "takes_of_reports_in_no_order": Shape(500, lambda n: replaying(1, (f"take 1 {place}" for place in shuffled(range(1, n + 1))), *tiny_reports(n))),
    "events_of_eight_replicas": Shape(500, events_of_eight_replicas, is_costly=True),
}

# shapes that --megabyte measures besides, each with a size to begin at. Texts that are sent after each report contain the square of
# their number, so these shapes cannot grow as slowly as the others.
SENT = {
    "reports_sent_in_a_ring": Shape(500, reports_sent_in_a_ring, (2_000,), True),
    "reports_received_late": Shape(500, reports_received_late, (2_000,), True),
    "long_texts_sent_after_takes": Shape(100, long_texts_sent_after_takes, (400,), True),
}
