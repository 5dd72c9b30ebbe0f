"""Makes the packages for Debian with dpkg-deb: the program with the tools, the library, its headers, and the Python module."""
import gzip
import hashlib
import io
import os
import time
from dataclasses import dataclass, field
from typing import Iterable, Mapping, Sequence

from packing import contents
from packing.bill import notices
from packing.files import PLAIN, RUNS, File, Source, folders_of, git, newest_libc, put, run_tool

MACHINE, LIBRARIES, MODULES = "amd64", "usr/lib/x86_64-linux-gnu", "usr/lib/python3/dist-packages"
SHARED_PACKAGE = f"libxbrlmerge{contents.INTERFACE}"
# where Debian has another folder than other systems
MOVES = (("share/zsh/site-functions", "usr/share/zsh/vendor-completions"), ("lib", LIBRARIES), ("", "usr/"))
UP = "../../.."  # from the folder of the pkg-config file to /usr
DAY = "%a, %d %b %Y %H:%M:%S +0000"
# python3-minimal has these two programs; without the second, files that Python made would be left
COMPILE = "#!/bin/sh\nset -e\nif command -v py3compile >/dev/null; then py3compile -p {name}; fi\n"
CLEAN = "#!/bin/sh\nset -e\nif command -v py3clean >/dev/null; then py3clean -p {name}; fi\n"


@dataclass(frozen=True)
class Package:
    """A package: its name, its description, its fields besides, its files below /, and its further control files."""

    name: str
    about: str
    fields: Mapping[str, str]
    files: Sequence[File]
    control: Mapping[str, str] = field(default_factory=dict)


def version_of(version: str) -> str:
    """Returns a version as Debian spells it: `0.3.0~dev` comes before `0.3.0`."""
    return version.replace("-", "~")


def moved(files: Iterable[File]) -> list[File]:
    """Returns the files at their paths for Debian. Man pages are compressed."""
    return [compressed(next(it for it in (file.moved(*move) for move in MOVES) if it.target != file.target)) for file in files]


def compressed(file: File) -> File:
    return File(f"{file.target}.gz", zipped(file.content)) if file.target.startswith("usr/share/man/") else file


def zipped(content: bytes) -> bytes:
    packed = io.BytesIO()
    with gzip.GzipFile("", "wb", 9, packed, mtime=0) as file:
        file.write(content)
    return packed.getvalue()


def packages(source: Source) -> list[Package]:
    version, top = version_of(source.version), source.top
    program = contents.program(top, source.program)
    library = [File(f"{LIBRARIES}/{os.path.basename(it.target)}", it.content) for it in contents.shared_library(source.library)]
    own = [file for file in moved(contents.for_developers(top, source.library, source.version)) if not file.target.endswith(".pc")]
    own.append(File(f"{LIBRARIES}/pkgconfig/xbrlmerge.pc", contents.pkg_config(source.version, UP)))
    name = "python3-xbrlmerge"
    return [
        Package("xbrlmerge", "merge xBRL-JSON reports, and show where they disagree",
                {"Architecture": MACHINE, "Section": "text", "Depends": f"libc6 (>= {newest_libc(program[0].content)})",
                 "Recommends": "python3 (>= 3.9)", "Suggests": "python3-xlsxwriter"}, moved([*program, *contents.documents(top)])),
        Package(SHARED_PACKAGE, "merge xBRL-JSON reports (shared library)",
                {"Architecture": MACHINE, "Section": "libs", "Multi-Arch": "same",
                 "Depends": f"libc6 (>= {newest_libc(library[0].content)})"}, library,
                {"triggers": "activate-noawait ldconfig\n",
                 "shlibs": f"libxbrlmerge {contents.INTERFACE} {SHARED_PACKAGE} (>= {version})\n"}),
        Package("libxbrlmerge-dev", "merge xBRL-JSON reports (header and static library)",
                {"Architecture": MACHINE, "Section": "libdevel", "Multi-Arch": "same",
                 "Depends": f"{SHARED_PACKAGE} (= {version}), libc6-dev"}, own),
        Package(name, "merge xBRL-JSON reports (Python module)",
                {"Architecture": MACHINE, "Section": "python", "Depends": f"python3 (>= 3.9), {SHARED_PACKAGE} (= {version})"},
                contents.python_module(top, MODULES), {"postinst": COMPILE.format(name=name), "prerm": CLEAN.format(name=name)}),
    ]


def documents(package: Package, source: Source, maintainer: str) -> list[File]:
    """Returns the two documents that each package must have."""
    folder, day = f"usr/share/doc/{package.name}", time.strftime(DAY, time.gmtime(source.seconds))
    version = version_of(source.version)
    entry = f"xbrlmerge ({version}) unstable; urgency=medium\n\n  * Built from commit {source.commit}.\n\n -- {maintainer}  {day}\n"
    return [File(f"{folder}/changelog.gz", zipped(entry.encode())),
            File(f"{folder}/copyright", notices(source).encode())]


def control(package: Package, source: Source, maintainer: str, files: Sequence[File]) -> str:
    """Returns the control file. Each file and each folder takes at least a kilobyte."""
    kilobytes = sum(-(-len(it.content) // 1024) for it in files if not it.is_link) + len(folders_of(files))
    fields = {"Package": package.name, "Source": "xbrlmerge", "Version": version_of(source.version), "Maintainer": maintainer,
            "Installed-Size": str(kilobytes), "Priority": "optional", **package.fields}
    if package.name == fields["Source"]:
        del fields["Source"]
    lines = [f"{key}: {value}" for key, value in fields.items()]
    return "\n".join([*lines, f"Description: {package.about}",
                      " The merged report has the same bytes whatever the order, grouping or",
                      " repetition of the input. That, and every verdict, is proved.", ""])


def make(source: Source, folder: str, scratch: str) -> None:
    """Makes the packages in a folder, by way of another folder. Errors: OSError."""
    maintainer = git(source.top, "log", "-1", "--format=%an <%ae>")
    for package in packages(source):
        files = [*package.files, *documents(package, source, maintainer)]
        sums = "".join(f"{hashlib.md5(it.content, usedforsecurity=False).hexdigest()}  {it.target}\n" for it in files if not it.is_link)
        texts = {"control": control(package, source, maintainer, files), "md5sums": sums, **package.control}
        files += [File(f"DEBIAN/{name}", text.encode(), RUNS if text.startswith("#!") else PLAIN) for name, text in texts.items()]
        tree = os.path.join(scratch, package.name)
        lay_out(files, tree, source.seconds)
        name = f"{package.name}_{version_of(source.version)}_{package.fields['Architecture']}.deb"
        # one thread, because the number of threads changes the bytes
        around = {"SOURCE_DATE_EPOCH": str(source.seconds), "DPKG_DEB_THREADS_MAX": "1"}
        run_tool("dpkg-deb", "--root-owner-group", "-Zxz", "-z9", "--build", tree, os.path.join(folder, name), variables=around)


def lay_out(files: Sequence[File], tree: str, seconds: int) -> None:
    """Puts the files into a folder, with permissions that do not depend on the umask, and one time for all."""
    for file in files:
        put(file, tree)
    for target in [*(it.target for it in files), *reversed(folders_of(files)), ""]:
        path = os.path.join(tree, target)
        if not os.path.islink(path) and os.path.isdir(path):
            os.chmod(path, RUNS)
        os.utime(path, (seconds, seconds), follow_symlinks=False)
