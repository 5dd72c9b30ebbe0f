"""Tests what ./build installs and packs, with stand-ins for the program and the libraries, and which crates it proves again."""
import email
import hashlib
import io
import json
import os
import shutil
import stat
import subprocess
import sys
import tarfile
import zipfile
from unittest import mock

from in_process import TOP, RoomTest
from packing import bill, contents, debian, installation, manual, release
from packing.files import RUNS, Crate, File, Source, folders_of, newest_libc, read_below, wrong_source
from packing.release import tarball
from support import bytes_of, content, script

sys.path.append(os.path.join(TOP, "python"))
import wheel_of_library

VERSION, SECONDS = "1.2.0-dev", 1_700_000_000
# a stand-in for the program, with a help of one command
PROGRAM = b"""#!/bin/sh
# GLIBC_2.3 GLIBC_2.34 \0libc.so.6\0
case $* in
    --version) echo xbrlmerge 1.2.0-dev ;;
    --help) printf 'Merges\\n\\nUsage: xbrlmerge\\n\\nCommands:\\n  merge  Writes\\n\\nOptions:\\n  -h, --help  Print help\\n' ;;
    "merge --help") printf 'Writes\\n\\nUsage: xbrlmerge merge\\n\\nOptions:\\n      --allow <LEVEL>  Loosest [possible values: none, all]\\n' ;;
    *) echo a stand-in >&2; exit 3 ;;
esac
"""
URL = "# `url`\n\nA parser, ported from the Rust crate `url` 2.5.8 (MIT or Apache-2.0; both are here).\n"
CRATES = {"low": Crate(["json"], "aa"), "xbrlmerge": Crate(["low", "url"], "bb")}


class Packages(RoomTest):
    def setUp(self):
        super().setUp()
        for name, text in {"program": PROGRAM, contents.SHARED: PROGRAM, "libxbrlmerge.a": b"!<arch>\n"}.items():
            os.chmod(self.write(name, text), 0o755)

    def source(self):
        kit_folder = self.path_of("kit")
        for name, uses in {"json": "std", "url": "json", "std": "", "os": "std", "libc": ""}.items():
            os.makedirs(os.path.join(kit_folder, "rattle", name), exist_ok=True)
            self.write(f"kit/rlibs/{name}.rlib/format", f"crate {name}\n" + (f"dep {uses}\n" if uses else ""))
        self.write("kit/rattle/url/README.md", URL)
        self.write("kit/rattle/url/LICENSE-MIT", "")
        return Source(TOP, self.path_of("program"), self.scratch, VERSION, "c0ffee", SECONDS, kit_folder, "kit-1 logic 2\n", CRATES)

    def program(self):
        return contents.program(TOP, self.path_of("program"))


class Contents(Packages):
    def test_the_tools_are_whole(self):
        targets = {it.target for it in contents.tools(TOP)}
        names = subprocess.run(["git", "-C", TOP, "ls-files", "tools"], capture_output=True, text=True).stdout.split()
        for name in names or ["tools/process.py"]:
            folder, rest = os.path.split(name[len("tools/"):])
            wanted = f"share/xbrlmerge/xbrlmerge_tools/{os.path.join(folder, rest)}" if "." in rest else f"bin/{contents.command_of(rest)}"
            self.assertIn(wanted, targets)

    def test_a_page_is_the_same_for_each_python(self):
        old = "usage: x\n\nDoes it.\n\n    tools/normalise A\n\nText.\n\noptional arguments:\n  -h, --help  show\n  -o DIR, --output DIR  the\n      rest\n"
        new = old.replace("optional arguments", "options").replace("-o DIR, --output DIR", "-o, --output DIR")
        page = manual.page("normalise", old, VERSION)
        self.assertEqual(page, manual.page("normalise", new, VERSION))
        self.assertIn("\n.SH OPTIONS\n.TP\n.B \\-o, \\-\\-output DIR\nthe rest\n.SH SEE", page)
        self.assertIn("\nxbrlmerge\\-normalise A\n", page)

    def test_completions_and_pages_are_made_from_the_help(self):
        texts = {os.path.basename(it.target): it.content.decode() for it in self.program() if it.target.startswith("share/")}
        self.assertIn("        merge,--allow) _xbrlmerge_of \"$word\" none all ;;\n", texts["xbrlmerge"])
        self.assertIn("--allow'[Loosest]:LEVEL:(none all)'", texts["_xbrlmerge"])
        self.assertIn("-n '__fish_seen_subcommand_from merge' -l allow -x -a 'none all' -d Loosest\n", texts["xbrlmerge.fish"])
        self.assertIn('\n.SH OPTIONS\n.TP\n.B \\-\\-allow <LEVEL>\nLoosest', texts["xbrlmerge-merge.1"])
        self.assertIn("\n.SH COMMANDS\n.TP\n.B merge\nWrites\n", texts["xbrlmerge.1"])

FILES = [File("bin/a", b"a", RUNS), File("bin/b", b"b"), File("share/c", b"a", is_link=True)]
ACTIONS = (installation.uninstall, lambda prefix: installation.install(FILES, prefix))


def tree(folder):
    """Returns the contents of the files in a folder and those below it, by their paths."""
    paths = (os.path.join(at, name) for at, folders, names in os.walk(folder) for name in (*folders, *names))
    return {path: os.readlink(path) if os.path.islink(path) else os.path.isfile(path) and content(path) for path in paths}


class Installation(Packages):
    def installed(self, name):
        installation.install(self.program(), self.path_of(name))
        return self.path_of(name)

    def run_installed(self, prefix, tool, *words, path=None):
        around = {**os.environ, "PATH": path or os.environ["PATH"]}
        command = os.path.join(prefix, "bin", contents.command_of(tool))
        return subprocess.run([command, *words], capture_output=True, text=True, env=around, cwd=self.scratch)

    def test_the_tools_have_the_names_of_their_commands(self):
        prefix = self.installed("a prefix")
        for tool in contents.TOOLS:
            done = self.run_installed(prefix, tool, "--help")
            self.assertIn(f"usage: {contents.command_of(tool)} ", done.stdout)
            self.assertNotIn("tools/", done.stdout)
        done = self.run_installed(prefix, "make_sheet")
        self.assertEqual(done.returncode, 2)
        self.assertIn("\nxbrlmerge-make-sheet: error: ", done.stderr)
        self.assertFalse([it for at, folders, _ in os.walk(prefix) for it in folders if it == "__pycache__"])

    def test_a_tool_finds_the_program_beside_its_command(self):
        prefix = self.installed("prefix")
        link = self.path_of("link")
        os.symlink(os.path.join(prefix, "bin", "xbrlmerge-contradictions"), link)
        sheet = self.write("sheet.json", "{}")
        done = subprocess.run([link, "--sheet", sheet, "-o", "out", sheet], capture_output=True, text=True, cwd=self.scratch,
                              env={**os.environ, "PATH": "/usr/bin:/bin"})
        self.assertIn("xbrlmerge merge: a stand-in\n", done.stderr)

    def test_without_python_a_tool_says_so(self):
        prefix, empty = self.installed("prefix"), self.path_of("empty")
        os.mkdir(empty)
        for name in ("sh", "dirname", "readlink"):
            os.symlink(shutil.which(name), os.path.join(empty, name))
        done = self.run_installed(prefix, "recheck", path=empty)
        self.assertEqual((done.returncode, done.stderr), (3, "xbrlmerge-recheck: Python 3.9 or later is not installed\n"))

    def test_what_was_installed_is_removed(self):
        prefix, own = self.path_of("prefix"), self.write("prefix/share/man/own", "own")
        installation.install([*self.program(), File("share/xbrlmerge/old/file", b"")], prefix)
        installation.install(self.program(), prefix)
        self.assertFalse(os.path.exists(os.path.join(prefix, "share/xbrlmerge/old")))
        installation.uninstall(prefix)
        self.assertEqual([os.path.join(at, it) for at, _, names in os.walk(prefix) for it in names], [own])
        self.assertEqual(sorted(os.listdir(prefix)), ["share"])
        self.assertRaisesRegex(OSError, "nothing is installed there", installation.uninstall, prefix)

    def test_nothing_else_is_removed(self):
        prefix, victim = self.path_of("prefix"), self.write("victim", "own")
        listed = os.path.join(prefix, installation.LIST)
        os.makedirs(self.path_of("dir"))
        for line in (victim, "../victim", "../dir/", "bin/../../victim", "linked/victim", "..", "bin/..", "/", "", "bin//x"):
            for digest in ("", hashlib.sha256(b"own").hexdigest() + "  "):
                installation.install(FILES, prefix)
                os.symlink("..", os.path.join(prefix, "linked"))
                lines = content(listed)
                self.write(listed, f"{lines}{digest}{line}\n")
                before = tree(self.scratch)
                for action in ACTIONS:
                    with self.assertRaisesRegex(OSError, f"installed.txt, line {lines.count(chr(10)) + 1}: ", msg=line):
                        action(prefix)
                self.assertEqual(tree(self.scratch), before)
                shutil.rmtree(prefix)

    def test_files_that_changed_stay_and_links_on_the_way_are_refused(self):
        prefix, victim = self.path_of("prefix"), self.write("victim", "own")
        installation.install(FILES, prefix)
        changed, linked = (os.path.join(prefix, "bin", name) for name in ("a", "b"))
        self.write(changed, "own")
        os.unlink(linked)
        os.symlink(victim, linked)
        installation.uninstall(prefix)
        self.assertEqual((sorted(os.listdir(os.path.join(prefix, "bin"))), content(victim)), (["a", "b"], "own"))
        installation.install(FILES, prefix)
        self.assertEqual((content(victim), os.path.islink(linked)), ("own", False))
        shutil.rmtree(os.path.join(prefix, "bin"))
        os.symlink(self.scratch, os.path.join(prefix, "bin"))
        before = tree(self.scratch)
        for action in ACTIONS:
            self.assertRaisesRegex(OSError, "through a link", action, prefix)
        self.assertEqual(tree(self.scratch), before)

    def test_other_users_can_read_what_was_installed(self):
        prefix, victim = self.path_of("prefix"), self.write("victim", "own")
        os.makedirs(os.path.join(prefix, "bin"))
        os.symlink(victim, os.path.join(prefix, "bin", "xbrlmerge-recheck.new"))
        self.addCleanup(os.umask, os.umask(0o077))
        installation.install(self.program(), prefix)
        modes = {stat.S_IMODE(os.stat(os.path.join(prefix, it)).st_mode) for it in ("share", "share/xbrlmerge", "bin/xbrlmerge-recheck")}
        self.assertEqual((modes, content(victim)), ({0o755}, "own"))


class Archives(Packages):
    def test_an_archive_depends_on_files_and_time_alone(self):
        files = [File("b/c", b"1", RUNS), File("b/a", b"c", is_link=True)]
        packed = tarball(files, "top", SECONDS)
        self.assertEqual(packed, tarball(reversed(files), "top", SECONDS))
        with tarfile.open(fileobj=io.BytesIO(packed)) as archive:
            self.assertEqual([(it.name, it.mode, it.mtime, it.linkname) for it in archive],
                             [("top", RUNS, SECONDS, ""), ("top/b", RUNS, SECONDS, ""), ("top/b/a", 0o777, SECONDS, "c"),
                              ("top/b/c", RUNS, SECONDS, "")])

    def test_a_wheel_has_the_module_the_program_and_the_tools(self):
        name = wheel_of_library.make_wheel(self.scratch, self.path_of(contents.SHARED), self.path_of("program"))
        with zipfile.ZipFile(self.path_of(name)) as wheel:
            files = {it: wheel.read(it) for it in wheel.namelist()}
            (program,) = [it for it in files if it.endswith(".data/scripts/xbrlmerge")]
            self.assertEqual(wheel.getinfo(program).external_attr >> 16, 0o100755)
        self.assertTrue(name.endswith("-py3-none-manylinux_2_34_x86_64.whl"), name)
        self.assertEqual({it.partition("/")[0] for it in files if ".d" not in it.partition("/")[0]}, {"xbrlmerge", "xbrlmerge_tools"})
        packed = {it.target: it.content for it in contents.tool_package(TOP, "")}
        self.assertEqual({it: files.get(it) for it in packed}, packed)
        (fields,) = [email.message_from_bytes(files[it]) for it in files if it.endswith("METADATA")]
        wanted = {"Author": "Hendwysg maintainers", "Provides-Extra": "xlsx", "Requires-Dist": 'XlsxWriter; extra == "xlsx"', "Requires-Python": ">=3.9",
                  "License": "No licence is granted yet"}
        self.assertEqual({it: fields[it] for it in wanted}, wanted)
        self.assertIn("Private :: Do Not Upload", fields.get_all("Classifier"))
        (points,) = [files[it].decode() for it in files if it.endswith("entry_points.txt")]
        for tool in contents.TOOLS:
            self.assertIn(f"\n{contents.command_of(tool)} = xbrlmerge_tools:{tool}\n", points)

        # a wheel depends on no name above it, and has nothing that was made
        top = self.path_of("a [b]*? 'c\" $(d)\n-e%f")
        for folder in ("python", "tools"):
            shutil.copytree(os.path.join(TOP, folder), os.path.join(top, folder))
        self.write(os.path.join(top, "tools", "out", "made.py"), "")
        names = [wheel_of_library.make_wheel(self.scratch, self.path_of(contents.SHARED), self.path_of("program"))]
        with mock.patch.multiple(wheel_of_library, HERE=os.path.join(top, "python"), TOP=top):
            names.append(wheel_of_library.make_wheel(top, self.path_of(contents.SHARED), self.path_of("program")))
        self.assertEqual(*map(bytes_of, (self.path_of(names[0]), os.path.join(top, names[1]))))

        name = wheel_of_library.make_wheel(self.scratch, self.path_of(contents.SHARED))  # the module alone needs no program
        with zipfile.ZipFile(self.path_of(name)) as wheel:
            self.assertFalse([it for it in wheel.namelist() if "tools" in it or "scripts" in it])

    def test_debian_has_its_own_versions_and_folders_and_no_file_is_in_two_packages(self):
        self.assertEqual((debian.version_of("0.3.0-dev"), newest_libc(PROGRAM)), ("0.3.0~dev", "2.34"))
        moved = {it.target for it in debian.moved(self.program())}
        self.assertLessEqual({"usr/bin/xbrlmerge", "usr/share/man/man1/xbrlmerge-recheck.1.gz", "usr/share/zsh/vendor-completions/_xbrlmerge"}, moved)
        targets = [it.target for package in debian.packages(self.source()) for it in package.files]
        self.assertEqual(len(targets), len(set(targets)))
        self.assertTrue(all(it.startswith("usr/") for it in targets))
        self.assertEqual(debian.packages(self.source())[0].fields["Suggests"], "python3-xlsxwriter")

    def test_all_packages_appear_or_none(self):
        folder = self.path_of("out")
        os.mkdir(folder)
        with mock.patch.object(release, "run_tool", lambda *words: shutil.copy(words[3], words[2])):
            with mock.patch.object(debian, "make", side_effect=OSError("dpkg-deb failed")):
                self.assertRaises(OSError, release.make, self.source(), folder)
            self.assertEqual(os.listdir(folder), [])
            with mock.patch.object(debian, "make"), mock.patch.object(release, "tarball", return_value=b""):
                release.make(self.source(), folder)
        sums = dict(reversed(line.split("  ")) for line in content(os.path.join(folder, "SHA256SUMS")).splitlines())
        self.assertEqual({*sums, "SHA256SUMS"}, {*os.listdir(folder)})
        for name, checksum in sums.items():
            self.assertEqual(hashlib.sha256(bytes_of(os.path.join(folder, name))).hexdigest(), checksum)


class Bill(Packages):
    def test_it_names_commit_kit_proofs_and_licences(self):
        found = json.loads(bill.bill(self.source(), {"one.deb": b"one"}))
        parts = {it["SPDXID"]: it for it in found["packages"]}
        self.assertEqual(len(parts), len(found["packages"]))
        self.assertEqual(found["creationInfo"]["created"], "2023-11-14T22:13:20Z")
        self.assertIn("c0ffee", parts["SPDXRef-source"]["sourceInfo"])
        self.assertEqual(parts["SPDXRef-kit"]["comment"], "kit-1 logic 2")
        self.assertTrue(parts["SPDXRef-crate-xbrlmerge"]["comment"].endswith(": bb"))
        self.assertEqual(parts["SPDXRef-package-one.deb"]["checksums"][0]["checksumValue"], hashlib.sha256(b"one").hexdigest())
        self.assertEqual([parts["SPDXRef-kit-url"][it] for it in ("versionInfo", "licenseDeclared")], ["2.5.8", "MIT OR Apache-2.0"])
        self.assertEqual(parts["SPDXRef-kit-json"]["licenseDeclared"], "NOASSERTION")
        ends = {it[end] for it in found["relationships"] for end in ("spdxElementId", "relatedSpdxElement")}
        self.assertEqual(ends - {"SPDXRef-DOCUMENT"}, {*parts})

    def test_the_page_of_a_crate_names_its_version_and_its_files_the_licences(self):
        for name, page, wanted in (("jiff_core", "after `jiff-core` 0.1.2 and `jiff` 0.2.39", "jiff-core 0.1.2"),
                                 ("jiff_span", "from the crate `jiff` 0.2.39", "jiff 0.2.39"),
                                 ("clap", "with clap_builder 4.6.7: clap_lex 1.1.1", "clap_builder 4.6.7"),
                                 ("idna", "`tests/uts46.rs` of version 1.1.0, `idna_adapter` 1.2.2", "idna 1.1.0"),
                                 ("json", "compared with serde_json 1.0.154", "")):
            self.assertEqual(bill.ported(name, page), wanted)
        self.assertEqual(bill.licence("", ["LICENSE-MIT", "LICENSE-APACHE", "LICENSE-UNICODE"]), "(MIT OR Apache-2.0) AND Unicode-3.0")
        self.assertEqual(bill.licence("others are (MIT)", ["README.md"]), "NOASSERTION")
        self.assertEqual(bill.licence("(Unlicense or MIT, `COPYING`)", ["LICENSE-MIT"]), "Unlicense OR MIT")


class Sources(Packages):
    def setUp(self):
        super().setUp()
        # a git hook that runs the tests names its own repository
        own = mock.patch.dict(os.environ, {name: it for name, it in os.environ.items() if not name.startswith("GIT_")}, clear=True)
        own.start()
        self.addCleanup(own.stop)

    def test_a_checkout_must_be_clean(self):
        top, out = self.path_of("top"), self.path_of("top/out")
        os.mkdir(top)
        with mock.patch("shutil.which", lambda name: None if name == "dpkg-deb" else name):
            self.assertEqual(wrong_source(top, out), "dpkg-deb is not on the PATH: ./build --packages needs it")
        with mock.patch("shutil.which", lambda name: name):
            self.assertIn("not a git checkout", wrong_source(top, out))
            subprocess.run(["git", "init", "-q", top], check=True)
            self.assertEqual(wrong_source(top, out), "")
            self.write("top/out/one.deb", "")
            self.assertEqual(wrong_source(top, out), "")
            self.write("top/new", "")
            self.assertEqual(wrong_source(top, out), "the checkout has changes that are not committed, such as new")
            self.write("top/.git/info/exclude", "*~\nnew\n")
            self.assertEqual(wrong_source(top, out), "")
            self.write("top/docs/page.md~", "")
            self.assertEqual(wrong_source(top, out), "docs/page.md~ is not in the commit, and would be packed")
            self.write("top/docs/page.md", "")
            subprocess.run(["git", "-C", top, "add", "docs/page.md"], check=True)
            self.assertEqual(wrong_source(top, top), f"{top} contains files of the checkout")
            for folder in (self.path_of("top/docs"), self.path_of("top/tools/out")):
                self.assertEqual(wrong_source(top, folder), f"{folder} is in a folder that is packed")


class Files(Packages):
    def test_files_and_their_folders(self):
        """Folders come after those that contain them. Permissions are read, and files that Python made are left out."""
        self.assertEqual(folders_of([File("a/b/c", b""), File("a/d", b"")]), ["a", "a/b"])
        self.write("__pycache__/program", "")
        self.assertEqual([(it.target, it.mode) for it in read_below(self.scratch, "x", ("program",))], [("x/program", RUNS)])


LISTED = "low: std\nside: low\nmiddle: low json\nxbrlmerge: middle\nxbrlmerge_c staticlib: low\n"


class Build(RoomTest):
    def setUp(self):
        super().setUp()
        shutil.copy(os.path.join(TOP, "build"), self.scratch)
        self.write("crates.txt", LISTED)
        for name in ("low", "side", "middle", "xbrlmerge", "xbrlmerge_c"):
            self.write(f"crates/{name}/src/{'main' if name == 'xbrlmerge' else 'lib'}.rt", name)
        self.build = script(self.path_of("build"))

    def build_all(self):
        """Leaves what a build of the program leaves."""
        for name in ("low", "middle", "xbrlmerge"):
            self.write(f"crates/{name}/out/build/checksum", self.build.checksum(name, []))
            self.write(self.build.result_of(name), "")

    def unbuilt(self, last, flags=()):
        return self.build.unbuilt(self.build.needed_for(last), list(flags))

    def test_a_crate_needs_all_below_it_in_order(self):
        self.assertEqual(self.build.needed_for("xbrlmerge"), ["low", "middle", "xbrlmerge"])
        self.assertEqual(self.build.needed_for("xbrlmerge_c"), ["low", "xbrlmerge_c"])

    def test_what_is_built_is_not_built_again(self):
        self.build_all()
        self.assertEqual(self.unbuilt("xbrlmerge"), [])
        self.assertEqual(self.unbuilt("xbrlmerge", ["--cpu=x86-64-v3"]), ["xbrlmerge"])

    def test_a_changed_file_of_any_kind_changes_the_crates_above(self):
        for path in ("crates/middle/src/lib.rt", "crates/middle/specs/Names.antt", "crates/middle/proofs/deep/Lemmas.antt"):
            self.build_all()
            self.write(path, "changed")
            self.assertEqual(self.unbuilt("xbrlmerge"), ["middle", "xbrlmerge"])

    def test_a_result_that_is_missing_changes_the_crates_above(self):
        self.build_all()
        os.remove(self.build.result_of("low"))
        self.assertEqual(self.unbuilt("xbrlmerge"), ["low", "middle", "xbrlmerge"])
