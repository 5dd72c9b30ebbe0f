"""Builds the wheel from the module and the shared library that ./build --library makes. Building needs no Python package.

`pip wheel python/` packs the module with the library. `./build --packages` adds the program and the tools, since pip cannot know
whether ./xbrlmerge is built for this machine alone."""
import base64
import hashlib
import os
import re
import stat
import sys
import zipfile
from typing import Dict, List, Optional

HERE = os.path.dirname(os.path.abspath(__file__))
TOP = os.path.dirname(HERE)
sys.path.append(TOP)
from packing import contents  # noqa: E402
from packing.files import File, read  # noqa: E402
from packing.manual import TOOLS, command_of  # noqa: E402

LIBRARY = os.path.join(TOP, "lib", "libxbrlmerge.so")
# the C library and the dynamic linker
SYSTEM = {b"libc.so.6", b"ld-linux-x86-64.so.2"}
# the oldest minor version of the C library that a manylinux tag can name
OLDEST = 5
TIME = (1980, 1, 1, 0, 0, 0)
# the permissions of a regular file: without its kind, pip would not make the program executable
PLAIN, RUNS = stat.S_IFREG | 0o644, stat.S_IFREG | 0o755


def _texts(key: str) -> List[str]:
    """Returns the texts in the line of a key in pyproject.toml. Python 3.9 has no parser for it."""
    with open(os.path.join(HERE, "pyproject.toml"), encoding="utf-8") as file:
        found = re.search(rf"^{key} = (.*)$", file.read(), re.MULTILINE)
    if not found:
        raise ValueError(f"pyproject.toml has no {key}")
    return re.findall('"(.*?)"', found[1])


def _project(key: str) -> str:
    return _texts(key)[0]


def _platform(binaries: List[bytes]) -> str:
    """Returns the platform tag: manylinux with the newest version of the C library that a library or program needs, but at least
    2.5. The tag is linux if one needs a library that SYSTEM lacks, or if no version is found."""
    minors = [int(it) for content in binaries for it in re.findall(rb"GLIBC_2\.(\d+)", content)]
    needed = {it for content in binaries for it in re.findall(rb"\x00([\w+.-]*\.so[.\d]*)(?=\x00)", content)}
    is_plain = {it for it in needed if not it.startswith(b"libxbrlmerge.so")} <= SYSTEM
    return f"manylinux_2_{max([OLDEST, *minors])}_x86_64" if is_plain and minors else "linux_x86_64"


def _commands(program: str, info: str) -> List[File]:
    """Returns the program, the tools, and the names of the tools' commands."""
    points = "".join(f"{command_of(it)} = {contents.TOOL_PACKAGE}:{it}\n" for it in TOOLS)
    return [*contents.tool_package(TOP, ""), File(f"{info}/entry_points.txt", f"[console_scripts]\n{points}".encode()),
            read(program, f"{info[: -len('.dist-info')]}.data/scripts/xbrlmerge")]


def _information(tag: str, info: str) -> Dict[str, bytes]:
    fields = [("Metadata-Version", "2.1"), ("Name", _project("name")), ("Version", _project("version")), ("Summary", _project("description")),
              ("Author", _project("authors")), ("License", _project("license")), ("Keywords", ",".join(_texts("keywords"))),
              *(("Classifier", it) for it in _texts("classifiers")), ("Requires-Python", _project("requires-python")),
              ("Provides-Extra", "xlsx"), *(("Requires-Dist", f'{it}; extra == "xlsx"') for it in _texts("xlsx"))]
    wheel = f"Wheel-Version: 1.0\nGenerator: {_project('name')}\nRoot-Is-Purelib: false\nTag: {tag}\n"
    return {f"{info}/METADATA": "".join(f"{key}: {value}\n" for key, value in fields).encode(), f"{info}/WHEEL": wheel.encode()}


def _record(files: Dict[str, bytes], info: str) -> str:
    def line(path: str, content: bytes) -> str:
        digest = base64.urlsafe_b64encode(hashlib.sha256(content).digest()).rstrip(b"=").decode()
        return f"{path},sha256={digest},{len(content)}\n"

    return "".join(line(*it) for it in files.items()) + f"{info}/RECORD,,\n"


def make_wheel(folder: str, library: str = LIBRARY, program: Optional[str] = None) -> str:
    """Makes the wheel in a folder, and returns its name. With a program, it contains the program and the tools."""
    binaries = [read(it, "").content for it in (library, program) if it]
    stem, tag = f"{_project('name')}-{_project('version')}", f"py3-none-{_platform(binaries)}"
    info = f"{stem}.dist-info"
    packed = [read(library, "xbrlmerge/libxbrlmerge.so"), *contents.python_module(TOP, ""), *(_commands(program, info) if program else [])]
    files = {**{it.target: it.content for it in packed}, **_information(tag, info)}
    files[f"{info}/RECORD"] = _record(files, info).encode()
    name = f"{stem}-{tag}.whl"
    with zipfile.ZipFile(os.path.join(folder, name), "w", zipfile.ZIP_DEFLATED) as wheel:
        for path, content in files.items():
            entry = zipfile.ZipInfo(path, TIME)
            entry.external_attr = (RUNS if path.endswith(".so") or "/scripts/" in path else PLAIN) << 16
            wheel.writestr(entry, content, zipfile.ZIP_DEFLATED)
    return name


def build_wheel(wheel_directory: str, config_settings: object = None, metadata_directory: object = None) -> str:
    """Makes the wheel in a folder, and returns its name (PEP 517)."""
    return make_wheel(wheel_directory)
