"""Tests of tools/make_sheet, and of the labels of tools/contradictions, on files that take long, leave their folder or fail."""
import json
import os
import subprocess
import sys
import time
import unittest
import zipfile
from unittest import mock

import in_process
import make_sheet
import process
from test_make_sheet import ITEM, SCHEMA, ToolTest, run

from contradicting.labels import Labelled
from sheet_making import files
from sheet_making.files import Limits
from sheet_making.taxonomy import Taxonomy

HEAD = '<xs:element name="{}" type="xbrli:stringItemType" substitutionGroup="{}"/>'
TYPE = '<xs:complexType name="{}"><xs:simpleContent><xs:restriction base="{}"/></xs:simpleContent></xs:complexType>'
TYPED = '<xs:element name="{}" type="{}" substitutionGroup="xbrli:item"/>'
IMPORT = '<xs:import namespace="{}" schemaLocation="{}"/>'
INCLUDE = '<xs:include schemaLocation="{}"/>'
CATALOG = '<catalog xmlns="urn:oasis:names:tc:entity:xmlns:xml:catalog">%s</catalog>'
REWRITE = '<rewriteURI uriStartString="{}" rewritePrefix="{}"/>'
WITHOUT_NAMESPACE = SCHEMA.replace('targetNamespace="http://made.example"', "")
LINKBASE = """<link:linkbase xmlns:link="http://www.xbrl.org/2003/linkbase" xmlns:xlink="http://www.w3.org/1999/xlink">
    <link:labelLink>%s</link:labelLink></link:linkbase>"""
LOC = '<link:loc xlink:href="a.xsd#made_{0}" xlink:label="{0}"/>'
LABEL = '<link:label xlink:label="{}" xml:lang="en">{}</link:label>'
ARC = '<link:labelArc xlink:from="{}" xlink:to="{}"/>'


def labels_of(path):
    """Returns the English labels in a package."""
    return Labelled(files.Files([path], Limits()), "en").read_labels()


def each(form, size, *more):
    """Returns copies of a form, filled with the texts of `more`, in which {0} is the copy's number, and {1} the next."""
    return "".join(form.format(*(spelled.format(number, number + 1) for spelled in more)) for number in range(size))


def long_uri(size):
    return "http://made.example/" + "m" * 10 * size


# for each case: the files of a package of a given size
LONG = {
    "chains of heads": lambda size: {"a.xsd": SCHEMA % each(HEAD, size, "C{0}", "this:C{1}")},
    "a ring of heads": lambda size: {"a.xsd": SCHEMA % (each(HEAD, size, "C{0}", "this:C{1}") + HEAD.format(f"C{size}", "this:C0"))},
    "chains of types": lambda size: {
        "a.xsd": SCHEMA % (each(TYPE, size, "T{0}", "this:T{1}") + each(TYPED, size, "C{0}", "this:T{0}"))
    },
    "prefixes and references": lambda size: {
        "a.xsd": SCHEMA.replace(" target", each(' xmlns:p{}="p{}"', 4 * size, "{0}", "{0}") + " target")
        % each(HEAD, size, "C{0}", "p{0}:C")
    },
    "nested prefixes": lambda size: {
        "a.xsd": SCHEMA % ((f'<a xmlns:p="{"u" * (size // 10)}">' * 900 + "</a>" * 900) + each(ITEM.replace("%s", "{}"), size, "C{0}", "string"))
    },
    "rewrites and imports": lambda size: {
        "META-INF/catalog.xml": CATALOG % each(REWRITE, size, "http://{0:05}/", "../"),
        "a.xsd": SCHEMA % each(INCLUDE, size, "http://{0:05}/a.xsd")
    },
    "rewrites of each length": lambda size: {
        "META-INF/catalog.xml": CATALOG % "".join(REWRITE.format("b:" + "b" * length, "../") for length in range(1, min(size, 900))),
        "a.xsd": SCHEMA % each(INCLUDE, size // 3, "c:" + "c" * 900 + "/{0}/../../a.xsd")
    },
    "imports that are missing": lambda size: {"a.xsd": SCHEMA % each(IMPORT, size, "http://n{0}", "n{0}.xsd")},
    "a long namespace": lambda size: {
        "a.xsd": (SCHEMA % each(HEAD, size, "C{0}", "xbrli:item")).replace("http://made.example", long_uri(size))
    },
    "a long namespace that is left out": lambda size: {
        "a.xsd": (SCHEMA % each(HEAD, size, "C{0}", "this:item")).replace("http://made.example", long_uri(size))
    },
    "a long namespace of attributes": lambda size: {
        "a.xsd": SCHEMA.replace(" target", f' xmlns:u="{long_uri(size)}" target') % each('<xs:element name="{}" u:{}=""/>', size, "C{0}", "a{0}")
    },
    "a long namespace of tags": lambda size: {
        "a.xsd": SCHEMA.replace(" target", f' xmlns:u="{long_uri(size)}" target') % each("<u:{}/>", size, "a{0}")
    },
    "attributes": lambda size: {"a.xsd": SCHEMA % f"<a{each(' {}=%s' % repr(''), size, 'a{0}')}/>"},
    "a long comment": lambda size: {"a.xsd": SCHEMA % f"<!--{'x' * 100 * size}-->"},
}


class Long(ToolTest):
    def test_time_is_in_proportion(self):
        for name, made in LONG.items():
            with self.subTest(name):
                packages = {size: self.pack(made(size), f"{size}.zip") for size in (800, 3_200)}

                def run_at(size):
                    self.assertIn(in_process.run(make_sheet, packages[size])[0], (0, 1, 3))

                self.assertLess(in_process.growth(run_at, 800), 9)

    def test_memory_is_in_proportion(self):
        for name, made in LONG.items():
            with self.subTest(name):
                texts = made(3_000)
                most = in_process.peak(in_process.run, make_sheet, self.pack(texts))
                self.assertLess(most, 30 * sum(map(len, texts.values())) + 1_000_000)

    def test_labels_and_arcs(self):
        def packed(size):
            """Returns a package with `size` concepts and `size` labels. An arc leads from each concept to all labels, and
            `size` more arcs lead from the first concept to all labels."""
            items = each(HEAD.replace("<xs:element", '<xs:element id="made_{}"'), size, "{0}", "C{0}", "xbrli:item")
            labels = each(LABEL, size, "labels", "x" * 50 + "{0}")
            arcs = each(ARC, size, "0", "labels") + each(ARC, size, "{0}", "labels")
            linkbase = LINKBASE % (each(LOC, size, "{0}") + labels + arcs)
            return self.pack({"a.xsd": SCHEMA % items, "a.xml": linkbase}, f"labels{size}.zip")

        packages = {size: packed(size) for size in (600, 2_400)}
        labels = labels_of(packages[600])
        self.assertEqual(labels["http://made.example", "C599"], "x" * 50 + "0")
        self.assertLess(in_process.growth(lambda size: labels_of(packages[size]), 600), 9)

    def test_one_schema_in_many_namespaces(self):
        def made(size):
            schemas = {f"n{number}.xsd": (SCHEMA % INCLUDE.format("c.xsd")).replace("made", f"n{number}") for number in range(size)}
            return self.pack({"c.xsd": WITHOUT_NAMESPACE % each(HEAD, 100, "C{0}", "xbrli:item"), **schemas})

        sheet = json.loads(run(made(4)).stdout)
        self.assertEqual((len(sheet["namespaces"]), len(sheet["concepts"])), (4, 400))
        self.check_refused("more than 62500 bytes of schemas without a namespace are read again", made(20), "--megabytes", "1")

    def test_zips_of_blanks(self):
        blanks = self.pack({"a.xsd": SCHEMA % (" " * 1_000_000)})
        self.assertLess(os.path.getsize(blanks), 10_000)
        self.assertEqual(in_process.run(make_sheet, blanks), (0, ""))
        self.check_refused("a.zip/a.xsd: it is longer than 1 MB (make_sheet --megabytes)", blanks, "--megabytes", "1")
        many = self.pack({f"{number}.xsd": SCHEMA % (" " * 900_000) for number in range(9)})
        self.check_refused("with it, the package unpacks to more than 100 times its size plus 1 MB", many, "--megabytes", "1")
        self.assertEqual(in_process.run(make_sheet, many), (0, ""))

    def test_zips_of_tags(self):
        tags, attributes = "<a/>" * 110_000, f"<a{each(' {}=%s' % repr(''), 300, 'a{0}')}/>" * 1_500
        for text in (tags, attributes):
            package = self.pack({"a.xsd": SCHEMA % text})
            self.assertLess(os.path.getsize(package), 40_000)
            self.check_refused("with it, the package has more than 100000 tags and one for each 4 bytes of its size, counting 4 attributes as"
                         " a tag (make_sheet --tags)", package)
            self.assertEqual(in_process.run(make_sheet, package, "--tags", "120000"), (0, ""))
        several = self.pack({f"{number}.xsd": SCHEMA % tags[:200_000] for number in range(3)})
        self.check_refused("2.xsd: with it, the package has more than", several)
        with self.assertRaisesRegex(process.NotDone, "more than 100000 tags"):
            labels_of(self.pack({"a.xsd": SCHEMA % "", "a.xml": LINKBASE % tags}))

    def test_a_long_tag_or_comment(self):
        for text in (f"<!--{'x' * 9_000_000}-->", f'<a b="{"x" * 9_000_000}"/>'):
            package = self.pack({"a.xsd": SCHEMA % text})
            most = in_process.peak(self.check_refused, "a.xsd: it has a tag or a comment of more than 8000000 bytes", package)
            self.assertLess(most, 40_000_000)  # expat keeps the tag
            self.check_refused("a tag or a comment", self.write("a.xsd", SCHEMA % text))
        self.assertEqual(in_process.run(make_sheet, self.pack({"a.xsd": SCHEMA % f"<!--{'x' * 7_000_000}-->"})), (0, ""))

    def test_levels(self):
        def nested(levels):
            return self.pack({"a.xsd": SCHEMA % ("<a>" * levels + "</a>" * levels)})

        self.assertEqual(in_process.run(make_sheet, nested(999)), (0, ""))
        for levels in (1_000, 300_000):
            most = in_process.peak(self.check_refused, "it has more than 1000 levels", nested(levels), "--tags", "1000000")
            self.assertLess(most, 80_000_000)  # expat reads its input to the end; the longest is 2 MB

    def test_files_of_a_package(self):
        package = self.pack({f"{number}.xsd": SCHEMA % "" for number in range(5)})
        with mock.patch.object(files, "MOST_ENTRIES", 4):
            self.check_refused("more than 4 files", package)
        self.check_refused("a path of more than 1024 characters", self.pack({"a" * 1_100 + ".xsd": SCHEMA % ""}))

    def test_rules_and_references_are_no_product(self):
        references = each(INCLUDE, 200, f"b:{'b' * 100}{{0}}.xsd")
        for prefix, wanted in (("x{0}/", "a.xsd: with it, rules of catalogs are tried more than 200000 times"), ("../", "is not in the named files")):
            rules = "".join(each(REWRITE, 100, "b:" + "b" * length, prefix) for length in range(100))
            package = self.pack({"META-INF/catalog.xml": CATALOG % rules, "a.xsd": SCHEMA % references})
            started = time.process_time()
            status, lines = in_process.run(make_sheet, package)
            self.assertEqual((status, wanted in lines, time.process_time() - started < 4), (3, True, True), lines)

    def test_the_rule_with_the_longest_start_counts_first(self):
        starts = ("b:", "b:c", "b:c/", "b:d", "b:c/e/f", "a:", "b:c0")
        rules = "".join(REWRITE.format(start, f"../r{number}/") for number, start in enumerate(starts))
        for location, order in (("b:c/e/f.xsd", "r4/.xsd r2/e/f.xsd r1/e/f.xsd r0/c/e/f.xsd"), ("b:c.xsd", "r1/.xsd r0/c.xsd")):
            order = order.split()
            for number, path in enumerate(order):
                made = {path: SCHEMA % "" for path in order[number:]}
                package = self.pack({"META-INF/catalog.xml": CATALOG % rules, "a/a.xsd": SCHEMA % INCLUDE.format(location), **made})
                taxonomy = Taxonomy(files.Files([package], Limits()))
                found = taxonomy.found_at(location, os.path.join(package, "a", "a.xsd"))
                self.assertEqual(os.path.relpath(found, package), path)


class Packages(ToolTest):
    def test_entries_of_the_package_itself(self):
        package = self.pack({"./": "", "./a.xsd": SCHEMA % (ITEM % ("A", "string") + INCLUDE.format("b/B.XSD"))})
        with zipfile.ZipFile(package, "a") as made:
            made.writestr("b/", "")
            made.writestr("b/B.XSD", SCHEMA % ITEM % ("B", "string"))
            made.writestr("b/C.XSD", SCHEMA % ITEM % ("C", "string"))
        self.assertEqual(list(json.loads(run(package).stdout)["concepts"]), ["this:A", "this:B", "this:C"])
        # a schema with another ending is read when it is referred to
        package = self.pack({"a.xsd": SCHEMA % INCLUDE.format("b.schema"), "b.schema": SCHEMA % ITEM % ("B", "string")})
        self.assertEqual(list(json.loads(run(package).stdout)["concepts"]), ["this:B"])

    def test_a_rewrite_without_a_start(self):
        for rule in ('<rewriteURI rewritePrefix="../"/>', REWRITE.format("", "../"), '<rewriteURI uriStartString="a"/>'):
            package = self.pack({"META-INF/catalog.xml": CATALOG % rule, "a.xsd": SCHEMA % INCLUDE.format("a.xsd")})
            self.check_refused("catalog.xml: a rewriteURI lacks uriStartString or rewritePrefix", package)

    def test_a_catalog_rewrites_no_relative_reference(self):
        package = self.pack(self.typed("A", "types", "types", "decimal"))
        other = {"META-INF/catalog.xml": CATALOG % REWRITE.format("types", "../evil"), **self.typed("B", "evil", "evil", "string")}
        self.check_kinds(package, self.pack(other, "b.zip"))

    def test_a_rule_of_the_own_package_comes_first(self):
        url = "http://types.example/types"
        own = CATALOG % (REWRITE.format(url, "../types") + REWRITE.format(url[:10], "../nowhere/"))
        package = self.pack({"META-INF/catalog.xml": own, **self.typed("A", url, "types", "decimal")})
        evil = CATALOG % (REWRITE.format(url, "../types") + REWRITE.format("http://types.example/type", "../type"))
        self.check_kinds(package, self.pack({"META-INF/catalog.xml": evil, **self.typed("B", url, "types", "string")}, "b.zip"))

    def test_a_rule_that_leads_to_no_file_hides_no_other(self):
        own, other = "http://types.example/", "http://types.example/base/"
        imports = IMPORT.format("http://made.example", f"{other}types.xsd")
        concept = (SCHEMA % (imports + ITEM % ("A", "decimal"))).replace("http://made.example\">", "http://a.example\">")
        types = {"META-INF/catalog.xml": CATALOG % REWRITE.format(other, "../files/"), "files/types.xsd": SCHEMA % ITEM % ("B", "string")}
        for start in (own, other):
            package = self.pack({"META-INF/catalog.xml": CATALOG % REWRITE.format(start, "../"), "a.xsd": concept})
            self.check_kinds(package, self.pack(types, "b.zip"))

    def check_kinds(self, *packages):
        for words in (packages, reversed(packages)):
            done = run(*words)
            self.assertEqual((done.returncode, done.stderr), (0, b""))
            self.assertEqual([*json.loads(done.stdout)["concepts"].values()], ["numeric", "text"])

    @staticmethod
    def typed(name, location, path, base):
        """Returns two schemas: one with a concept, and at `path` one with its type. The first refers to the second by
        `location`. The second has no namespace, and no ending of a schema, so that only references lead to it."""
        concept = (SCHEMA % (INCLUDE.format(location) + TYPED.format(name, "this:t"))).replace("http://made", f"http://{name}")
        return {f"{name}.xsd": concept, path: WITHOUT_NAMESPACE % TYPE.format("t", f"xbrli:{base}ItemType")}

    def test_methods_that_unpack_without_a_limit_and_document_types_in_any_encoding(self):
        for method in (zipfile.ZIP_BZIP2, zipfile.ZIP_LZMA):
            package = self.pack({"a.xsd": SCHEMA % ""}, method=method)
            self.check_refused("a.xsd: it is compressed by a method other than deflate", package)
        for encoding in ("utf-8", "utf-16", "latin-1", "cp1252"):
            text = f'<?xml version="1.0" encoding="{encoding}"?><!DOCTYPE a [<!ENTITY e "x">]>' + SCHEMA % "&e;"
            self.check_refused("it has a document type", self.pack({"a.xsd": text.encode(encoding)}))
        comment = self.pack({"a.xsd": SCHEMA % "<!-- <!DOCTYPE a> -->"})
        self.assertEqual(in_process.run(make_sheet, comment), (0, ""))


class Folders(ToolTest):
    def folder(self, **texts):
        """Writes files to the folder `folder`, and returns its path. Each `_` in the name of an argument means a dot."""
        folder = self.path_of("folder")
        os.makedirs(folder, exist_ok=True)
        for name, text in texts.items():
            self.write(os.path.join("folder", name.replace("_", ".")), text)
        return folder

    def test_files_that_are_none(self):
        folder = self.folder(a_xsd=SCHEMA % ITEM % ("A", "string"))
        os.mkfifo(os.path.join(folder, "fifo"))
        os.symlink("/dev/zero", os.path.join(folder, "zero"))
        self.assertEqual(run(folder).returncode, 0)  # the FIFO and the device are not read
        fifo = os.path.join(folder, "b.xsd")
        os.mkfifo(fifo)
        self.check_refused("folder/b.xsd: it is not a regular file", folder)
        self.check_refused("folder/b.xsd: it is not a file", fifo)
        os.unlink(fifo)
        os.symlink("/dev/zero", os.path.join(folder, "c.xsd"))
        self.check_refused("folder/c.xsd: it is outside the named folders (make_sheet --outside)", folder)
        self.check_refused("folder/c.xsd: it is not a regular file", folder, "--outside")
        self.check_refused("/dev/zero: it is not a file", "/dev/zero")

    def test_references_stay_in_the_named_folders(self):
        outside = self.write("outside.xsd", SCHEMA % ITEM % ("Secret", "string"))
        folder = self.folder()
        for location in (outside, "../outside.xsd", "%2e%2e/outside.xsd", "link.xsd", "http://c.example/outside.xsd"):
            self.folder(a_xsd=SCHEMA % INCLUDE.format(location))
            link = os.path.join(folder, "link.xsd")
            if location == "link.xsd":
                os.symlink("../outside.xsd", link)
            if location.startswith("http"):
                os.makedirs(os.path.join(folder, "META-INF"))
                self.folder(**{"META-INF/catalog_xml": CATALOG % REWRITE.format("http://c.example/", "../../")})
            for named in (folder, os.path.join(folder, "a.xsd")):
                if location.startswith("http") and named != folder:
                    continue  # the catalog is read only if its folder is named
                self.check_refused(": it is outside the named folders (make_sheet --outside)", named)
                done = run("--outside", named)
                self.assertEqual(list(json.loads(done.stdout)["concepts"]), ["this:Secret"], done.stderr)
            if location == "link.xsd":
                os.unlink(link)
        self.check_refused("/etc/passwd", self.folder(a_xsd=SCHEMA % INCLUDE.format("/etc/passwd")))
        self.folder(a_xsd=SCHEMA % INCLUDE.format("../other/b.xsd"))  # a named folder may be referred to from another
        self.write("other/b.xsd", SCHEMA % ITEM % ("B", "string"))
        done = run(self.path_of("folder/a.xsd"), self.path_of("other"))
        self.assertEqual((done.returncode, list(json.loads(done.stdout)["concepts"])), (0, ["this:B"]))

    def test_a_long_file(self):
        self.check_refused("a.xsd: it is longer than 1 MB", self.folder(a_xsd=SCHEMA % (" " * 1_000_000)), "--megabytes", "1")
        self.check_refused("a.json: it is longer than 1 MB", "--union", self.write("a.json", " " * 1_000_001), "--megabytes", "1")

    @unittest.skipUnless(os.geteuid(), "root reads each folder")
    def test_a_folder_that_cannot_be_read(self):
        os.makedirs(os.path.join(self.folder(a_xsd=SCHEMA % ""), "b"), mode=0)
        self.check_refused("folder/b: Permission denied", self.folder())


class Statuses(ToolTest):
    def test_devices_that_are_full_or_closed(self):
        """test_process.py has more of them."""
        large = self.write("a.xsd", SCHEMA % (each(HEAD, 5_000, "C{0}", "xbrli:item") + HEAD.format("Lost", "this:head")))
        good, tool = self.write("b.xsd", SCHEMA % ITEM % ("A", "string")), os.path.join(in_process.TOOLS, "make_sheet.py")
        for words, status, line in (
            (f"{large} >/dev/full", 3, b"make_sheet: standard output: No space left on device"), (f"{large} 2>/dev/full", 3, None),
            (f"{large} 2>&-", 3, None), (f"{good} 2>&-", 0, None), (f"{self.path_of('nowhere')} 2>&-", 3, None),
        ):
            done = subprocess.run(["bash", "-c", f"{sys.executable} {tool} {words}"], capture_output=True)
            self.assertEqual((done.returncode, bool(done.stdout), done.stderr.splitlines()[-1:]), (status, not status, [line] * bool(line)), words)

    def test_what_input_can_raise_and_usage(self):
        self.check_refused("a.json: nested too deeply", "--union", self.write("a.json", '{"x:x":' * 100_000))
        path = self.write("a.xsd", SCHEMA % "")
        with mock.patch.object(files, "read_regular", side_effect=MemoryError):
            self.check_refused("a.xsd: out of memory", path)
        self.check_refused("there is no such file", self.path_of("no\0where"))
        for words in ((), ("--megabytes", "0", "a"), ("--megabytes", "x", "a"), ("--unknown",)):
            self.assertEqual(run(*words).returncode, 2)
        self.assertEqual(run("--help").returncode, 0)


class Unions(ToolTest):
    def sheet(self, namespaces={"p": "http://a.example"}, name="p:A", kind="text", **more):
        return self.write("a.json", json.dumps({"namespaces": namespaces, "concepts": {name: kind}, **more}))

    def test_sheets_that_are_none(self):
        for wanted, sheets in (
            ("its URI is empty or not a text", [{"namespaces": {"p": uri}} for uri in (1, 1.5, None, True, [], ["u"], {}, "")]),
            ("https://xbrl.org/2021, which is reserved", [{"namespaces": {"p": "https://xbrl.org/2021"}}]),
            ("is not a prefix", [{"namespaces": {prefix: "u"}} for prefix in ("", "a b", "a:b")]),
            ("is not a name, or its prefix is not bound", [{"name": name} for name in ("A", ":A", "p:", "p: A", "p:A:B", "p:A\n", "q:A")]),
            ("xbrlmerge:sets is not a list", [{"xbrlmerge:sets": sets} for sets in ("p:A", {"p:A": 1}, 1)]),
            ("is not a name", [{"xbrlmerge:sets": sets} for sets in ([1], [["p:A"]], ["q:A"])]),
            ("a text has half a surrogate pair", [{"namespaces": {"p": "u\ud800"}}, {"name": "p:A\udc00"}]),
            ("has a kind that is not one of", [{"kind": kind} for kind in ("numerical", 1, None, [], {})]),
        ):
            for parts in sheets:
                with self.subTest(parts):
                    self.check_refused(wanted, "--union", self.sheet(**parts))
        for parts in ({"namespaces": {"p": "https://xbrl.org/2021/"}}, {"name": "p:{A}\u00a0"}):
            self.assertEqual(run("--union", self.sheet(**parts)).returncode, 0)

    def test_time_and_memory_are_in_proportion(self):
        def run_at(size):
            uris = {f"p{number}": f"u{number}" for number in range(size)} | {"long": long_uri(size)}
            names = {f"long:A{number}": "text" for number in range(size)} | {f"p{number}:A": "text" for number in range(size)}
            text = json.dumps({"namespaces": uris, "concepts": names, "xbrlmerge:sets": list(names)})
            words = "--union", self.write("a.json", text)
            most = in_process.peak(lambda: self.assertEqual(in_process.run(make_sheet, *words), (0, "")))
            self.assertLess(most, 30 * len(text) + 1_000_000)

        self.assertLess(in_process.growth(run_at, 1_000), 9)
