"""Tests of tools/make_sheet on the taxonomies beside this file, on bad inputs and on sheets."""
import json
import os
import types

import in_process
import make_sheet
from support import bytes_of, content

TOY = os.path.join(in_process.HERE, "taxonomy")
EXTENSION = os.path.join(in_process.HERE, "extension", "extension.xsd")
DOUBTFUL = os.path.join(in_process.HERE, "doubtful", "doubtful.xsd")
TOY_KINDS = {"numeric": "Apprentices Costs Dividend Emissions Employees Margin Profit Revenue StaffCosts", "text": "Auditor Founded Notes",
             "name": "Country Currency Industry"}
TOY_SHEET = {
    "namespaces": {"toy": "http://toy.example/2024", "n2": "http://toy.example/2024/base"},
    "concepts": {"n2:Assets": "numeric", **{f"toy:{name}": kind for kind, names in TOY_KINDS.items() for name in names.split()}},
    "dimensions": {"toy:DistrictAxis": "explicit", "toy:ProductAxis": "typed", "toy:RegionAxis": "explicit"},
    "xbrlmerge:types": {"gYear": ["toy:Founded"], "QName": ["toy:Currency"]},
}
SCHEMA = """<xs:schema xmlns:xs="http://www.w3.org/2001/XMLSchema" xmlns:xbrli="http://www.xbrl.org/2003/instance"
    xmlns:this="http://made.example" targetNamespace="http://made.example">%s</xs:schema>"""
DERIVED = '<xs:complexType name="%s"><xs:simpleContent><xs:restriction base="xbrli:stringItemType"/></xs:simpleContent></xs:complexType>'
ITEM = '<xs:element name="%s" type="xbrli:%sItemType" substitutionGroup="xbrli:item"/>'


def run(*words):
    status, errors, out = in_process.run_whole(make_sheet, *words)
    return types.SimpleNamespace(returncode=status, stdout=out, stderr=errors.encode())


# bytes of a package that are replaced: where, from its directory of files or its start, by what, and the sentence
DAMAGES = (
    (True, 8, 1, "t.xsd: it is encrypted"), (True, 16, 0xff, "t.xsd: the package is damaged: Bad CRC-32 for file 't.xsd'"),
    (True, 6, 99, "p.zip: the package is damaged: zip file version 9.9"), (True, 10, 14, "t.xsd: it is compressed by a method other than deflate"),
    (True, 20, 9, "t.xsd: the package is damaged: Bad CRC-32 for file 't.xsd'"), (True, 45, 0x7f, "t.xsd: the package is damaged: Truncated file header"),
    (True, 0, 0, "p.zip: the package is damaged: Bad magic number for central directory"), (False, 35, 0xff, "t.xsd: the package is damaged: Error -3"),
    (None, 0, 0, "t.xsd: the package is damaged\n"),  # the bytes before the directory are left out
)


class ToolTest(in_process.RoomTest):
    def check_refused(self, wanted, *words, lines=1):
        """Runs the tool, which must end with status 3, print the reason in so many lines, and print no sheet."""
        done = run(*words)
        self.assertEqual((done.returncode, done.stdout, done.stderr.count(b"\n")), (3, b"", lines), done.stderr)
        self.assertIn(wanted, done.stderr.decode())
        self.assertTrue(all(line.startswith(b"make_sheet: ") for line in done.stderr.splitlines()), done.stderr)

    def sheet_of(self, text, *words, status=0):
        """Returns the sheet of a schema, and the lines on standard error."""
        done = run(*words, self.write("a.xsd", text))
        self.assertEqual(done.returncode, status, done.stderr)
        return json.loads(done.stdout), done.stderr.decode().splitlines()

    def check_sheet(self, sheet, *words):
        done = run(*words)
        self.assertEqual((done.returncode, done.stderr), (0, b""))
        self.assertEqual(json.loads(done.stdout), sheet)
        return done.stdout


class Taxonomies(ToolTest):
    def toy_package(self):
        paths = [os.path.join(at, name) for at, _, names in os.walk(TOY) for name in names]
        return self.pack({os.path.join("toy", os.path.relpath(path, TOY)): bytes_of(path) for path in paths}, "toy.zip")

    def test_file_folder_and_package_give_the_same_bytes(self):
        package = self.toy_package()
        text = self.check_sheet(TOY_SHEET, package)
        self.assertEqual(run(TOY).stdout, text)
        self.assertEqual(run(os.path.join(TOY, "toy", "core.xsd")).stdout, text)
        self.assertEqual(run(os.path.join(TOY, "toy", "types.xsd"), TOY, package).stdout, text)
        self.assertEqual((text.count(b"\n"), text[-1:]), (1, b"\n"))

    def test_what_is_imported_by_url_comes_from_a_named_package(self):
        package = self.toy_package()
        sheet = json.loads(run(EXTENSION, package).stdout)
        self.assertEqual(sheet["concepts"]["n1:OnlineRevenue"], "numeric")
        self.assertEqual(sheet["namespaces"]["n1"], "http://issuer.example/2024")
        self.assertEqual(len(sheet["concepts"]), len(TOY_SHEET["concepts"]) + 1)
        self.assertEqual(run(TOY, EXTENSION).stdout, run(EXTENSION, package).stdout)
        self.check_refused("http://toy.example/2024/core.xsd", EXTENSION)

    def test_what_is_in_doubt_is_left_out_with_a_line_each(self):
        done = run(DOUBTFUL)
        self.assertEqual(done.returncode, 1)
        self.assertEqual(json.loads(done.stdout)["concepts"], {"this:Set": "text", "this:Sure": "numeric"})
        self.assertEqual(json.loads(done.stdout)["xbrlmerge:sets"], ["this:Set"])
        left_out = [line.split("}")[1].split(" ")[0] for line in done.stderr.decode().splitlines()]
        names = "Fraction LostHead LostType NewInRegistry NoItemType NoType Prefixed RoundHead RoundHeadAgain"
        self.assertEqual(left_out, [*names.split(), "RoundType", "Structure"])

    def test_a_registry_type_that_is_not_listed_is_followed(self):
        types = (DERIVED % "newItemType").replace("string", "decimal") + DERIVED % "SQNameItemType"
        registry = (SCHEMA % types).replace("http://made.example", "http://www.xbrl.org/dtr/type/2022-03-31").replace("this", "x")
        sheet = json.loads(run(DOUBTFUL, self.write("registry.xsd", registry)).stdout)
        self.assertEqual(sheet["concepts"], {"this:NewInRegistry": "numeric", "this:Set": "text", "this:Sure": "numeric"})


class Namespaces(ToolTest):
    def kinds(self, text, status=0):
        """Returns the concepts in the sheet of a schema, and the lines on standard error."""
        sheet, lines = self.sheet_of(text, status=status)
        return sheet["concepts"], lines

    def test_a_namespace_at_xbrl_org_may_have_items(self):
        for uri in ("https://www.xbrl.org/2024/sample", "https://xbrl.org/2021/"):
            text = SCHEMA.replace("http://made.example", uri) % ITEM % ("A", "string")
            self.assertEqual(self.kinds(text), ({"this:A": "text"}, []))

    def test_a_head_that_the_specifications_lack(self):
        text = SCHEMA % ITEM % ("A", "string")
        for wrong in (text.replace("xbrli:item", "xbrli:Item"), text.replace("2003/instance", "2001/instance")):
            concepts, lines = self.kinds(wrong, status=1)
            self.assertEqual((concepts, len(lines)), ({}, 1))
            self.assertIn("its head", lines[0])
        self.assertEqual(self.kinds(text.replace("xbrli:item", "xbrli:tuple")), ({}, []))

    def test_white_space_around_namespaces(self):
        text = SCHEMA % (ITEM % ("A", "string") + DERIVED % "t" + (ITEM % ("B", "")).replace("xbrli:ItemType", "this:t"))
        self.assertEqual(self.kinds(text.replace('targetNamespace="', 'targetNamespace=" \n'))[0], {"this:A": "text", "this:B": "text"})
        self.write("b.xsd", SCHEMA % ITEM % ("A", "string"))
        imports = '<xs:import namespace=" http://made.example " schemaLocation="b.xsd"/>'
        self.assertEqual(self.kinds((SCHEMA % imports).replace('example">', 'example/a">'))[0], {"this:A": "text"})

    def test_namespaces_that_look_like_those_of_specifications(self):
        for uri in ("registry", "http://made.example/extensible-enumerations"):
            text = SCHEMA % (DERIVED % "percentItemType" + (ITEM % ("A", "percent")).replace("xbrli:percent", "this:percent"))
            self.assertEqual(self.kinds(text.replace("http://made.example", uri)), ({"this:A": "text"}, []))


# Types of values by section 5.1.1.3 of XBRL 2.1 and section 3 of XML Schema part 2: the type of a concept, and its group
ITEMS = {"boolean": "boolean", "dateTime": "dateUnion", "date": "date", "gMonthDay": "gMonthDay", "NCName": "token", "anyURI": "anyURI",
         "language": "language", "QName": "QName", "string": None, "integer": None, "hexBinary": "hexBinary"}
# simple types as the domains of typed dimensions; None has one spelling, and LEFT_OUT has prefixes or an unknown type
LEFT_OUT = "left out"
RESTRICTED = '<xs:simpleType><xs:restriction base="%s">%s</xs:restriction></xs:simpleType>'
COLLAPSED = '<xs:whiteSpace value="collapse"/>'
DOMAINS = {
    'type="xs:boolean"': "boolean", 'type="xs:unsignedByte"': "integer", 'type="xs:decimal"': "decimal", 'type="xs:string"': None,
    'type="xs:IDREFS"': "token", 'type="xbrli:dateUnion"': "dateUnion", 'type="xbrli:monetaryItemType"': "decimal",
    'type="this:year"': "gYear", 'type="this:words"': "token", 'substitutionGroup="this:Inherited"': "duration", "": None,
    'type="xs:QName"': LEFT_OUT, 'type="xs:NOTATION"': LEFT_OUT, 'type="this:prefixed"': LEFT_OUT, 'type="this:prefixes"': LEFT_OUT,
    'type="this:choice"': LEFT_OUT, 'type="this:lost"': LEFT_OUT, 'type="xbrli:QNameItemType"': LEFT_OUT,
    ">" + RESTRICTED % ("xs:string", COLLAPSED): "token",
    ">" + RESTRICTED % ("xs:string", '<xs:whiteSpace value="replace"/>'): "normalizedString",
    ">" + RESTRICTED % ("xs:NCName", "<xs:pattern value='a'/>"): "token",
    '><xs:simpleType><xs:union memberTypes="xs:date xs:gYear"/></xs:simpleType>': None,
    "><xs:simpleType><xs:list>" + RESTRICTED % ("xs:QName", "") + "</xs:list></xs:simpleType>": LEFT_OUT,
}
NAMED = {"year": '<xs:restriction base="xs:gYear"/>', "words": f'<xs:restriction base="xs:string">{COLLAPSED}</xs:restriction>',
         "prefixed": '<xs:restriction base="xs:QName"/>', "prefixes": '<xs:list itemType="this:prefixed"/>',
         "choice": '<xs:union memberTypes="xs:int this:prefixes"/>'}


class TypesOfValues(ToolTest):
    def test_types_of_concepts(self):
        parts = "".join(ITEM % (f"A{item}", item) for item in ITEMS)
        sheet, _ = self.sheet_of(SCHEMA % parts)
        groups = {name[6:]: group for group, names in sheet["xbrlmerge:types"].items() for name in names}
        self.assertEqual(groups, {item: group for item, group in ITEMS.items() if group})

    def test_types_of_typed_dimensions(self):
        parts = ['<xs:element name="Inherited" type="xs:duration"/>']
        parts += [f'<xs:simpleType name="{name}">{text}</xs:simpleType>' for name, text in NAMED.items()]
        for number, domain in enumerate([*DOMAINS, None]):
            target = f'<xs:element name="D{number}" id="d{number}" {domain}' if domain is not None else ""
            parts.append(f'<xs:element name="A{number}" substitutionGroup="d:dimensionItem" d:typedDomainRef="#d{number}"/>')
            parts.append(f"{target}</xs:element>" if ">" in target[1:] else target and f"{target}/>")
        text = "".join(parts).replace("<xs:element", '<xs:element xmlns:d="http://xbrl.org/2005/xbrldt"')
        sheet, lines = self.sheet_of(SCHEMA % text, status=1)
        groups = {name: group for group, names in sheet["xbrlmerge:types"].items() for name in names}
        found = [groups.get(name) if name in sheet["dimensions"] else LEFT_OUT for name in (f"this:A{n}" for n in range(len(DOMAINS) + 1))]
        self.assertEqual(found, [*DOMAINS.values(), LEFT_OUT])
        self.assertEqual(len(lines), found.count(LEFT_OUT), lines)

    def test_period_types_and_items_are_in_a_file_of_their_own(self):
        kinds = {"monetary": "instant", "shares": "instant", "pure": "duration", "decimal": "", "date": "duration"}
        parts = "".join((ITEM % (kind, kind)).replace("/>", f' xbrli:periodType="{period}"/>') for kind, period in kinds.items())
        types, whole = self.path_of("a.types.json"), self.write("a.json", run(self.write("b.xsd", SCHEMA % parts)).stdout)
        sheet, _ = self.sheet_of(SCHEMA % parts, "--types", types)
        self.assertEqual(sorted(sheet), ["concepts", "dimensions", "namespaces"])
        groups = json.loads(content(types))
        self.assertEqual(groups, {
            "namespaces": sheet["namespaces"], "xbrlmerge:types": {"date": ["this:date"]},
            "xbrlmerge:periods": {"instant": ["this:monetary", "this:shares"], "duration": ["this:date", "this:pure"]},
            "xbrlmerge:items": {"monetary": ["this:monetary"], "shares": ["this:shares"], "pure": ["this:pure"]},
        })
        self.assertEqual(run("--union", whole, "--types", types).returncode, 0)
        self.assertEqual(run("--union", whole, "--types", whole).returncode, 2)
        self.assertEqual(json.loads(content(types)), groups)
        for wrong, line in (({"xbrlmerge:types": {"gDay": ["this:date"]}}, "is date in xbrlmerge:types, but gDay earlier"),
                            ({"xbrlmerge:items": {"money": []}}, "has the group money"), ({"xbrlmerge:periods": []}, "is not an object of lists")):
            other = self.write("other.json", json.dumps({**sheet, **wrong}))
            self.check_refused(line, "--union", other, whole)

    def test_types_make_a_large_sheet_at_most_a_tenth_longer(self):
        texts = "".join(ITEM % (f"Abcdefgh{number}", "string") for number in range(20_000))
        for count, status in ((2_000, 0), (8_000, 1)):
            booleans = "".join(ITEM % (f"B{number}", "boolean") for number in range(count))
            sheet, lines = self.sheet_of(SCHEMA % (texts + booleans), status=status)
            self.assertEqual((len(sheet.get("xbrlmerge:types", {}).get("boolean", ())), len(lines)), ((count, 0)[status], status))

    def test_the_name_of_an_unknown_type_of_the_registry_ends_in_its_base(self):
        registry = "http://www.xbrl.org/dtr/type/2030-01-01"
        ends = {"newMonetary": "numeric", "newNoLangToken": "text", "newSQName": None, "newList": None, "newmonetary": None, "Monetary": "numeric"}
        for known in "electricCharge energyPerMonetary flow ghgEmissionsPerMonetary monetaryPerMass".split():
            ends[known] = "numeric"
        ends.update(dict.fromkeys("durationString gYearList noLangString noLangToken".split(), "text"))
        parts = "".join((ITEM % (end, end)).replace('"xbrli:', '"r:', 1).replace(" name", f' xmlns:r="{registry}" name') for end in ends)
        sheet, lines = self.sheet_of(SCHEMA % parts, status=1)
        self.assertEqual(sheet["concepts"], {f"this:{end}": kind for end, kind in sorted(ends.items()) if kind})
        self.assertEqual(sheet["xbrlmerge:types"]["token"], ["this:gYearList", "this:newNoLangToken", "this:noLangToken"])
        self.assertEqual([" is listed as " in line for line in lines], [True, False, True, True, False, False])


class BadInputs(ToolTest):
    def test_no_xml_and_no_schema(self):
        self.check_refused("not well-formed", self.write("a.xsd", "{}"))
        self.check_refused("unclosed token", self.write("b.xsd", SCHEMA[:30]))
        self.check_refused("not a schema: name the package", self.write("c.xsd", "<a/>"))
        self.check_refused("nowhere.xsd", self.path_of("nowhere.xsd"))
        self.check_refused("there is no such file", "")
        self.check_refused("no element found", TOY, self.write("d.xsd", ""))
        self.check_refused("xsd", TOY, self.write("e.xsd", "no XML"), self.write("f.xsd", "nor this"))
        self.check_refused("not well-formed", self.write("g.xsd", SCHEMA % ITEM % ("A", "string") + "&"))
        self.check_refused("a.xsd", self.write("a.xsd", b"\xff\xfe\x00"))
        self.check_refused("declared in two ways", self.write("a.xsd", SCHEMA % (ITEM % ("A", "string") + ITEM % ("A", "monetary"))))
        inner = self.pack({"inner.zip": b"PK"}, "p.zip")
        self.check_refused("p.zip/inner.zip: not read, because it is in a folder or a package", inner, lines=2)

    def test_an_entity_is_not_read(self):
        secret = self.write("secret", "monetary")
        for encoding in ("utf-8", "utf-16"):
            text = f'<?xml version="1.0" encoding="{encoding}"?><!DOCTYPE a [<!ENTITY e SYSTEM "{secret}">]>' + SCHEMA
            path = self.write("a.xsd", (text % "<xs:annotation>&e;</xs:annotation>").encode(encoding))
            self.check_refused("document type", path)
        imported = self.write("b.xsd", SCHEMA % '<xs:include schemaLocation="a.xsd"/>')
        self.check_refused("a.xsd: it has a document type", imported)
        self.check_refused("document type", self.pack({"a.xsd": bytes_of(path)}))

    def test_a_package_keeps_to_itself(self):
        outside = self.write("outside.xsd", SCHEMA % ITEM % ("A", "string"))
        for name in ("../b.xsd", "a/../../b.xsd", outside):
            self.check_refused("outside", self.pack({name: SCHEMA % ""}))
        self.assertEqual(sorted(os.listdir(self.scratch)), ["a.zip", "outside.xsd"])  # nothing is unpacked
        package = self.pack({"b.xsd": SCHEMA % '<xs:include schemaLocation="../outside.xsd"/>'})
        self.check_refused("../outside.xsd is not in the named files", package)

    def test_a_damaged_package(self):
        package = self.pack({"t.xsd": SCHEMA % ITEM % ("A", "string")}, "p.zip")
        data = bytes_of(package)
        listed = data.rindex(b"PK\1\2")
        for is_listed, place, byte, wanted in DAMAGES:
            changed = bytearray(data)
            changed[listed * bool(is_listed) + place] = byte
            self.write("p.zip", bytes(changed) if is_listed is not None else data[:20] + data[listed:])
            self.check_refused(f"/{wanted}", package)

    def test_names_cannot_break_a_line(self):
        text = SCHEMA.replace("http://made", "http://made&#10;&#27;[31m") % ITEM % ("A", "fraction")
        self.assertEqual(len(run(self.write("a.xsd", text)).stderr.splitlines()), 1)


class Unions(ToolTest):
    def sheet(self, name, uri, concepts, dimensions):
        text = {"namespaces": {"p": uri}, "concepts": concepts, "dimensions": dimensions, "x:note": 1}
        return self.write(name, json.dumps(text))

    def test_two_sheets_make_one(self):
        first = self.sheet("a.json", "http://b.example", {"p:B": "text", "p:A": "numeric"}, {"p:D": "typed"})
        second = self.sheet("b.json", "http://a.example", {"p:A": "name"}, {})
        both = {
            "namespaces": {"n1": "http://a.example", "n2": "http://b.example"},
            "concepts": {"n1:A": "name", "n2:A": "numeric", "n2:B": "text"},
            "dimensions": {"n2:D": "typed"},
        }
        text = self.check_sheet(both, "--union", first, second, first)
        self.assertEqual(run("--union", second, first).stdout, text)
        self.assertEqual(run("--union", self.write("c.json", text)).stdout, text)

    def test_sets_stay_sets(self):
        concepts = {"namespaces": {"p": "http://a.example"}, "concepts": {"p:A": "text", "p:B": "text"}}
        first = self.write("a.json", json.dumps({**concepts, "xbrlmerge:sets": ["p:A"]}))
        second = self.write("b.json", json.dumps(concepts))
        for words in ((first,), (first, second), (second, first)):
            sheet = json.loads(run("--union", *words).stdout)
            self.assertEqual(sheet["xbrlmerge:sets"], ["p:A"])
            self.assertEqual(sheet["concepts"], {"p:A": "text", "p:B": "text"})
        self.assertNotIn("xbrlmerge:sets", json.loads(run("--union", second).stdout))
        numeric = self.write("c.json", json.dumps({**concepts, "concepts": {"p:A": "numeric"}}))
        self.check_refused("{http://a.example}A is set, but numeric", "--union", numeric, first)

    def test_a_prefix_is_kept_if_it_is_the_only_one_of_its_namespace_and_of_no_other(self):
        bindings = {"a": "u:1", "b": "u:2", "c": "u:2", "n7": "u:3", "é": "u:4", "x" * 41: "u:5", "y.Z-1": "u:6"}
        sheet = {"namespaces": bindings, "concepts": {f"{prefix}:A": "text" for prefix in bindings}}
        other = self.write("b.json", json.dumps({"namespaces": {"y.Z-1": "u:7"}}))
        first, kept = self.write("a.json", json.dumps(sheet)), ["a", "n2", "n3", "n4", "n5"]
        self.assertEqual(list(json.loads(run("--union", first).stdout)["namespaces"]), [*kept, "y.Z-1"])
        self.assertEqual(list(json.loads(run("--union", first, other).stdout)["namespaces"]), [*kept, "n6"])

    def test_what_is_no_sheet_and_a_concept_of_two_kinds(self):
        sheets = (self.sheet(f"{kind}.json", "http://a.example", {"p:A": kind}, {}) for kind in ("numeric", "text"))
        self.check_refused("{http://a.example}A is text, but numeric", "--union", *sheets)
        texts = ["", "[]", "{", '{"facts":{}}', '{"concepts":{"p:A":"text"}}', '{"concepts":[]}']
        texts += ['{"namespaces":{"p":"u"},"concepts":{"%s":"%s"}}' % each for each in (("A", "text"), ("p:A", "explicit"))]
        for text in texts:
            self.check_refused("a.json", "--union", self.write("a.json", text))
