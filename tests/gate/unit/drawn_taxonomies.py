"""Draws the files of taxonomies, with labels and catalogs."""
import io
import json
import re
import zipfile

NAMESPACE = "http://made.example/2024"
SCHEMA = """<xs:schema xmlns:xs="http://www.w3.org/2001/XMLSchema" xmlns:xbrli="http://www.xbrl.org/2003/instance"
    xmlns:xbrldt="http://xbrl.org/2005/xbrldt" xmlns:m="{namespace}" targetNamespace="{namespace}">{parts}</xs:schema>"""
ELEMENTS = (
    '<xs:element name="{name}" id="m_{name}" type="xbrli:monetaryItemType" substitutionGroup="xbrli:item"/>',
    '<xs:element name="{name}" type="m:{name}Type" substitutionGroup="xbrli:item"/><xs:complexType name="{name}Type">'
    '<xs:simpleContent><xs:restriction base="xbrli:stringItemType"/></xs:simpleContent></xs:complexType>',
    '<xs:element name="{name}" type="xbrli:stringItemType" substitutionGroup="m:{other}"/>',
    '<xs:element name="{name}" abstract="true" substitutionGroup="xbrldt:dimensionItem" xbrldt:typedDomainRef="#d_{name}"/>'
    '<xs:element name="{name}Domain" id="d_{name}" type="xs:integer"/>',
)
REFERENCES = (
    '<xs:import namespace="http://made.example/base" schemaLocation="base.xsd"/>',
    '<xs:include schemaLocation="http://made.example/xbrl/part.xsd"/>',
)
CATALOG = """<catalog xmlns="urn:oasis:names:tc:entity:xmlns:xml:catalog"><rewriteURI
    uriStartString="http://made.example/xbrl/" rewritePrefix="../"/></catalog>"""
LINKBASE = """<link:linkbase xmlns:link="http://www.xbrl.org/2003/linkbase" xmlns:xlink="http://www.w3.org/1999/xlink">
    <link:labelLink xlink:type="extended" xlink:role="http://www.xbrl.org/2003/role/link">{parts}</link:labelLink></link:linkbase>"""
LABEL = """<link:loc xlink:type="locator" xlink:href="core.xsd#m_{name}" xlink:label="{name}"/>
    <link:label xlink:type="resource" xlink:label="{name}_l" xml:lang="en">Label of &amp; {name}</link:label>
    <link:labelArc xlink:type="arc" xlink:from="{name}" xlink:to="{name}_l"/>"""
# what the catalog of another taxonomy may rewrite; only a rule for an absolute URI without a rule of its own may act
STOLEN = tuple({"base.xsd": "base.xsd", "ba": "ba", "t/": "", "../": "", "part": "part", "http://made.example/xbrl/": "",
                "http://made.example/xbrl/part.xsd": "part.xsd", "http://made.example/": "made.example/", "http": "made.example/xbrl/part.xsd#"}.items())
NAMES = "Alpha Beta Gamma Delta Epsilon Zeta Eta Theta".split()


def drawn_schema(chance, namespace, suffix="", references=()):
    names = chance.sample(NAMES, chance.randint(1, len(NAMES)))
    parts = (chance.choice((*ELEMENTS, *references)).format(name=name + suffix, other=chance.choice(NAMES)) for name in names)
    return SCHEMA.format(namespace=namespace, parts="".join(parts)).encode()


def drawn_taxonomy(chance):
    """Returns the files of a taxonomy by their paths."""
    labels = "".join(LABEL.format(name=name) for name in chance.sample(NAMES, 2))
    return {
        "t/core.xsd": drawn_schema(chance, NAMESPACE, "", REFERENCES),
        "t/base.xsd": drawn_schema(chance, "http://made.example/base"),
        "part.xsd": drawn_schema(chance, NAMESPACE, "OfPart"),
        "t/labels.xml": LINKBASE.format(parts=labels).encode(),
        "META-INF/catalog.xml": CATALOG.encode(),
        "META-INF/taxonomyPackage.xml": b"<a/>",
    }


def drawn_other_taxonomy(chance):
    """Returns the files of a taxonomy whose catalog has rules for references of `drawn_taxonomy`. The rules lead to schemas
    without a namespace, which declare the same elements with other types."""
    starts = chance.sample(STOLEN, 4)
    rules = "".join(f'<rewriteURI uriStartString="{start}" rewritePrefix="../evil/{end}"/>' for start, end in starts)
    evil = re.sub(' targetNamespace="[^"]*"', "", drawn_schema(chance, NAMESPACE, "OfPart").decode())
    files = {"META-INF/catalog.xml": f'<catalog xmlns="urn:oasis:names:tc:entity:xmlns:xml:catalog">{rules}</catalog>'}
    files["other.xsd"] = SCHEMA.format(namespace="http://other.example", parts=ELEMENTS[0].format(name="Other"))
    return {**files, **{f"evil/{name}": evil for name in ("base.xsd", "part.xsd", "made.example/xbrl/part.xsd")}}


def packed(files, method):
    """Returns the bytes of a package of files."""
    made = io.BytesIO()
    with zipfile.ZipFile(made, "w", method) as package:
        for path, content in files.items():
            package.writestr(path, content)
    return made.getvalue()


def own_kinds(sheet):
    """Returns the kinds of the concepts in the namespace of the first taxonomy."""
    tree = json.loads(sheet)
    names = (name.partition(":")[::2] for name in tree["concepts"])
    return {local: tree["concepts"][f"{prefix}:{local}"] for prefix, local in names if tree["namespaces"][prefix] == NAMESPACE}
