"""Lists what is installed: the program with the tools, the library, and the documents. Places are below the prefix. Links the
libraries for C, from the archive of the crate and the kit's allocator."""
import os
from dataclasses import replace

from packing.files import PLAIN, RUNS, File, put, read, read_below, run_tool
from packing.manual import PROGRAM, TOOLS, command_of, commands_of, completions, pages

# the version of the library's calls, which changes if a program that was linked before can no longer use the library
INTERFACE = "0"
SHARED = f"libxbrlmerge.so.{INTERFACE}"
# a Python package, so its modules take no names from others
TOOL_PACKAGE = "xbrlmerge_tools"
SHARE, DOCUMENTS = "share/xbrlmerge", "share/doc/xbrlmerge"
LAUNCHER = """\
#!/bin/sh
# Runs a tool of xbrlmerge, which needs Python 3.9 or later.
here=$(dirname -- "$(readlink -f -- "$0")")
if ! command -v python3 >/dev/null; then
    echo "{command}: Python 3.9 or later is not installed" >&2
    exit 3
fi
# SIGINT is held back until the tool can take it, unless it is ignored already
trap 'export XBRLMERGE_INTERRUPTS=held' INT
kill -s INT $$
trap '' INT
exec python3 -B "$here/../{share}/run_tool.py" {tool} "$0" "$@"
"""
# python3 run_tool.py TOOL COMMAND ARGUMENT ..: with COMMAND as its name, the tool finds the program beside the command
RUN_TOOL = f"""\
import sys

import {TOOL_PACKAGE}

tool = sys.argv[1]
del sys.argv[:2]
getattr({TOOL_PACKAGE}, tool)()
"""
# the paths are relative to the folder of this file, so that they hold in every prefix
PKG_CONFIG = """\
prefix=${{pcfiledir}}/{up}
includedir=${{prefix}}/include
libdir=${{pcfiledir}}/..

Name: xbrlmerge
Description: merges xBRL-JSON reports
Version: {version}
Cflags: -I${{includedir}}
Libs: -L${{libdir}} -lxbrlmerge
"""
# the names of the functions that the library exports begin with this
EXPORTS = "xbrlmerge_"
STRICT = ("-Wl,-z,defs,-z,now,-z,relro", "-Wl,-Bsymbolic", "-Wl,--gc-sections")


def tool_package(top: str, target: str) -> list[File]:
    """Returns the files of the Python package with the tools, below a folder."""
    folder = os.path.join(target, TOOL_PACKAGE)
    own = read(os.path.join(top, "python", TOOL_PACKAGE, "__init__.py"), os.path.join(folder, "__init__.py"))
    return [own, *read_below(os.path.join(top, "tools"), folder, (".py", ".css", ".js"))]


def tools(top: str) -> list[File]:
    """Returns the commands of the tools, and what they run."""
    commands = [File(f"bin/{command_of(it)}", LAUNCHER.format(command=command_of(it), share=SHARE, tool=it).encode(), RUNS)
                for it in TOOLS]
    return [*commands, File(f"{SHARE}/run_tool.py", RUN_TOOL.encode()), *(replace(it, mode=PLAIN) for it in tool_package(top, SHARE))]


def program(top: str, built: str) -> list[File]:
    """Returns the built program, the tools, and the man pages and completions, which are made from the help."""
    commands, version = commands_of(built), run_tool(built, "--version").split()[-1]
    return [read(built, f"bin/{PROGRAM}", RUNS), *tools(top), *pages(top, commands, version), *completions(commands)]


def pkg_config(version: str, up: str = "../..") -> bytes:
    """Returns the file for pkg-config. `up` leads from its folder to the prefix."""
    return PKG_CONFIG.format(version=version, up=up).encode()


def shared_library(folder: str) -> list[File]:
    return [read(os.path.join(folder, SHARED), f"lib/{SHARED}")]


def for_developers(top: str, folder: str, version: str) -> list[File]:
    """Returns what compilers need besides the shared library."""
    return [read(os.path.join(top, "include/xbrlmerge.h"), "include/xbrlmerge.h"),
            read(os.path.join(folder, "libxbrlmerge.a"), "lib/libxbrlmerge.a"),
            File("lib/libxbrlmerge.so", SHARED.encode(), is_link=True),
            File("lib/pkgconfig/xbrlmerge.pc", pkg_config(version))]


def python_module(top: str, target: str) -> list[File]:
    return read_below(os.path.join(top, "python", "xbrlmerge"), os.path.join(target, "xbrlmerge"), (".py", "py.typed"))


def documents(top: str) -> list[File]:
    """Returns the pages and the examples, which link to each other as in the repository."""
    pages = [read(os.path.join(top, it), f"{DOCUMENTS}/{it}") for it in ("README.md", "CHANGELOG.md", "SECURITY.md")]
    return [*pages, *read_below(os.path.join(top, "docs"), f"{DOCUMENTS}/docs", (".md", ".png")),
            *read_below(os.path.join(top, "examples"), f"{DOCUMENTS}/examples", ("",))]


def exported(archive: str) -> list[str]:
    """Returns the functions that the libraries export, sorted: those in the archive whose names begin with EXPORTS."""
    lines = run_tool("nm", "--defined-only", "--extern-only", archive).splitlines()
    return sorted({it.split()[-1] for it in lines if it.split()[1:2] == ["T"] and it.split()[-1].startswith(EXPORTS)})


def link(folder: str, archive: str, heap: str) -> None:
    """Makes the static and the shared library in a folder. Both export only the functions that `exported` returns."""
    found = exported(archive)
    wanted = [f"-Wl,-u,{it}" for it in found]
    put(File("map", f"{{ global: {' '.join(f'{it};' for it in found)} local: *; }};\n".encode()), folder)
    put(File("names", "".join(f"{it}\n" for it in found).encode()), folder)
    shared = f"-Wl,--version-script,{folder}/map", f"-Wl,-soname,{SHARED}", "-s", "-o", f"{folder}/{SHARED}"
    run_tool("gcc", "-shared", *wanted, *STRICT, *shared, archive, heap)
    run_tool("gcc", "-r", "-nostdlib", *wanted, "-o", f"{folder}/xbrlmerge.o", archive, heap)
    run_tool("objcopy", f"--keep-global-symbols={folder}/names", f"{folder}/xbrlmerge.o")
    run_tool("ar", "rcsD", f"{folder}/libxbrlmerge.a", f"{folder}/xbrlmerge.o")


def leave(folder: str, made: str, version: str) -> list[str]:
    """Puts the libraries that `link` made, and the file for pkg-config, into a folder, each in one step. Returns the paths."""
    files = [read(os.path.join(made, "libxbrlmerge.a"), "libxbrlmerge.a", PLAIN), read(os.path.join(made, SHARED), SHARED, RUNS),
             File("libxbrlmerge.so", SHARED.encode(), is_link=True), File("pkgconfig/xbrlmerge.pc", pkg_config(version))]
    return [put(it, folder) for it in files]
