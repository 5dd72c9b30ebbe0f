"""Makes all packages of a commit in a folder: all of them, or none."""
import hashlib
import io
import lzma
import os
import sys
import tarfile
import tempfile
from dataclasses import replace
from pathlib import Path
from typing import Iterable

from packing import bill, contents, debian
from packing.files import RUNS, File, Source, folders_of, newest_libc, run_tool
from packing.manual import PROGRAM

SUMS = "SHA256SUMS"
ABOUT = """\
xbrlmerge {version} for Linux on x86-64, with version {libc} of the C library (glibc) or a later one.
Run bin/xbrlmerge, or copy bin/, lib/ and share/ into a folder such as /usr/local. The tools need Python 3.9 or later.

{notices}"""


def make(source: Source, folder: str) -> list[str]:
    """Makes the packages, and returns their paths. They appear in the folder once all are made. Errors: OSError."""
    with tempfile.TemporaryDirectory(prefix=".new-", dir=folder) as scratch:
        new, trees, program = (os.path.join(scratch, it) for it in ("new", "trees", PROGRAM))
        os.mkdir(new)
        run_tool("strip", "-o", program, source.program)
        source = replace(source, program=program)
        debian.make(source, new, trees)
        wheel(source, new)
        Path(new, f"xbrlmerge-{source.version}-x86_64.tar.xz").write_bytes(archive(source))
        Path(new, f"xbrlmerge-{source.version}.spdx.json").write_bytes(bill.bill(source, packed(new)))
        sums = "".join(f"{hashlib.sha256(content).hexdigest()}  {name}\n" for name, content in packed(new).items())
        Path(new, SUMS).write_text(sums, encoding="utf-8")
        names = sorted(os.listdir(new))
        for name in names:
            os.replace(os.path.join(new, name), os.path.join(folder, name))
    return [os.path.join(folder, name) for name in names]


def wheel(source: Source, folder: str) -> None:
    sys.path.append(os.path.join(source.top, "python"))
    import wheel_of_library  # it is in python/ because pip runs it, too

    wheel_of_library.make_wheel(folder, os.path.join(source.library, contents.SHARED), source.program)


def archive(source: Source) -> bytes:
    """Returns the .tar.xz, with all that can be installed."""
    program = contents.program(source.top, source.program)
    about = ABOUT.format(version=source.version, libc=newest_libc(program[0].content), notices=bill.notices(source))
    files = [*program, *contents.shared_library(source.library), *contents.documents(source.top),
             *contents.for_developers(source.top, source.library, source.version),
             File("README", about.encode())]
    return tarball(files, f"xbrlmerge-{source.version}", source.seconds)


def packed(folder: str) -> dict[str, bytes]:
    """Returns the files in a folder, by name."""
    return {it.name: it.read_bytes() for it in sorted(Path(folder).iterdir())}


def tarball(files: Iterable[File], folder: str, seconds: int) -> bytes:
    """Returns an archive of files below one folder, with one time for all."""
    files = [*files]
    packed = io.BytesIO()
    with tarfile.open(fileobj=packed, mode="w", format=tarfile.GNU_FORMAT) as archive:
        for target in ["", *folders_of(files)]:
            entry = header(f"{folder}/{target}".rstrip("/"), RUNS, seconds)
            entry.type = tarfile.DIRTYPE
            archive.addfile(entry)
        for file in sorted(files, key=lambda it: it.target):
            entry = header(f"{folder}/{file.target}", file.mode, seconds)
            if file.is_link:
                entry.type, entry.linkname, entry.mode = tarfile.SYMTYPE, file.content.decode(), 0o777
                archive.addfile(entry)
            else:
                entry.size = len(file.content)
                archive.addfile(entry, io.BytesIO(file.content))
    return lzma.compress(packed.getvalue(), preset=9 | lzma.PRESET_EXTREME)


def header(name: str, mode: int, seconds: int) -> tarfile.TarInfo:
    entry = tarfile.TarInfo(name)
    entry.mode, entry.mtime, entry.uname, entry.gname = mode, seconds, "root", "root"
    return entry
