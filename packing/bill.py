"""Writes what the packages consist of, as SPDX 2.3: the packages, the crates with checksums of their proofs, and the kit."""
import glob
import hashlib
import json
import os
import re
from dataclasses import dataclass
from typing import Any, Iterable, Mapping, Sequence

from packing.files import Source

SOURCE, KIT = "source", "kit"
# the crates of the kit that every program contains
ALWAYS = ("std", "os", "libc")
NO_LICENCE = "No licence is granted yet: the owner has not chosen one."
PORTED = "The package contains code of the Rattle kit. Parts of the kit were ported from others, under these licences:"
COMMON = "On Debian, /usr/share/common-licenses/Apache-2.0 is the text of Apache-2.0."
# the licences in a crate's page, by SPDX name
LICENCES = {"MIT": "MIT", "Apache-2.0": "Apache-2.0", "Apache 2.0": "Apache-2.0", "Unlicense": "Unlicense", "BSL-1.0": "BSL-1.0"}
ONE_LICENCE = "|".join(map(re.escape, LICENCES))
# such as "MIT or Apache-2.0", in parentheses
LICENCE = re.compile(rf"\(({ONE_LICENCE})(?: or ({ONE_LICENCE}))?\b")
# the licences that the files of a crate contain, if its page names none
BY_FILE = {"LICENSE-MIT": "MIT", "LICENSE-APACHE": "Apache-2.0"}
UNICODE = "LICENSE-UNICODE"
UNKNOWN = "NOASSERTION"


@dataclass(frozen=True)
class KitCrate:
    """A crate of the kit. `ported` names the Rust crate and its version, or is empty."""

    name: str
    ported: str
    licence: str
    uses: tuple[str, ...]


def kit_crates(kit: str, used: Iterable[str]) -> list[KitCrate]:
    """Returns the crates of a kit that the named ones need, themselves included, sorted by name."""
    found: dict[str, KitCrate] = {}
    waiting = [*used]
    while waiting:
        name = waiting.pop()
        if name not in found:
            found[name] = kit_crate(kit, name)
            waiting += found[name].uses
    return [found[name] for name in sorted(found)]


def kit_crate(kit: str, name: str) -> KitCrate:
    folder = os.path.join(kit, "rattle", name)
    files = [os.path.basename(it) for it in glob.glob(os.path.join(glob.escape(folder), "*"))]
    page = text_of(os.path.join(folder, "README.md"))
    uses = re.findall(r"^dep (\w+)$", text_of(os.path.join(kit, "rlibs", f"{name}.rlib", "format")), re.MULTILINE)
    has_licence = any(it.startswith("LICENSE") for it in files)
    return KitCrate(name, ported(name, page) if has_licence else "", licence(page, files), tuple(uses))


def text_of(path: str) -> str:
    try:
        with open(path, encoding="utf-8") as file:
            return file.read()
    except FileNotFoundError:
        return ""


def ported(name: str, page: str) -> str:
    """Returns the Rust crate that a page names, with its version, such as "url 2.5.8"."""
    named = [(it[0], it[1]) for it in re.findall(r"`?\b([a-z][\w-]*)`? (\d+\.\d+\.\d+)\b", page)]
    named += [(name, it) for it in re.findall(r"\bof version (\d+\.\d+\.\d+)\b", page)]
    own = [it for it in named if it[0].replace("-", "_") == name]
    near = [it for it in named if it[0].replace("-", "_").startswith(name) or name.startswith(f"{it[0]}_")]
    return " ".join([*own, *near, ("", "")][0]).strip()


def licence(page: str, files: Iterable[str]) -> str:
    """Returns the licence of a crate as an SPDX expression, from its page and the names of its files."""
    files = [*files]
    named = LICENCE.search(page)
    if not any(it.startswith("LICENSE") for it in files):
        return UNKNOWN
    names = [LICENCES[it] for it in named.groups() if it] if named else [spdx for file, spdx in BY_FILE.items() if file in files]
    whole = " OR ".join(names)
    if UNICODE not in files:
        return whole or UNKNOWN
    return f"({whole}) AND Unicode-3.0" if whole else "Unicode-3.0"



def identifier(*parts: str) -> str:
    return "-".join(["SPDXRef", *(re.sub(r"[^A-Za-z0-9.-]", "-", it) for it in parts)])


def part(own: str, name: str, licence: str, **more: Any) -> dict[str, Any]:
    """Returns a package of SPDX, which is any part of the whole."""
    return {"SPDXID": own, "name": name, "downloadLocation": UNKNOWN, "filesAnalyzed": False, "licenseConcluded": UNKNOWN,
            "licenseDeclared": licence, "copyrightText": UNKNOWN, **more}


def relation(one: str, kind: str, other: str) -> dict[str, str]:
    return {"spdxElementId": one, "relationshipType": kind, "relatedSpdxElement": other}


def of_kit(crate: KitCrate, version: str) -> dict[str, Any]:
    details = {"versionInfo": crate.ported.partition(" ")[2] or version}
    if crate.ported:
        details["comment"] = f"ported from the Rust crate {crate.ported}"
    return part(identifier(KIT, crate.name), crate.name, crate.licence, **details)


def parts(source: Source, packed: Mapping[str, bytes], of_the_kit: Sequence[KitCrate]) -> list[dict[str, Any]]:
    kit_version = source.kit_version.split()[0]
    found = [part(identifier(SOURCE), "xbrlmerge", "NONE", versionInfo=source.version, sourceInfo=f"git commit {source.commit}",
                  licenseComments=NO_LICENCE),
             part(identifier(KIT), "Rattle kit", UNKNOWN, versionInfo=kit_version, comment=source.kit_version.strip())]
    for name, content in packed.items():
        digest = {"algorithm": "SHA256", "checksumValue": hashlib.sha256(content).hexdigest()}
        found.append(part(identifier("package", name), name, "NONE", versionInfo=source.version, packageFileName=name,
                          checksums=[digest], licenseComments=NO_LICENCE))
    for name, crate in source.crates.items():
        comment = f"SHA-256 of all that the proof read, and of the kit's version: {crate.proof}"
        found.append(part(identifier("crate", name), name, "NONE", versionInfo=source.version, comment=comment))
    return [*found, *(of_kit(it, kit_version) for it in of_the_kit)]


def relations(source: Source, packed: Mapping[str, bytes], of_the_kit: Sequence[KitCrate]) -> list[dict[str, str]]:
    found = [relation(identifier(KIT), "BUILD_TOOL_OF", identifier(SOURCE))]
    found += [relation(identifier(SOURCE), "DEPENDS_ON", identifier(KIT, it)) for it in ALWAYS]
    for name in packed:
        own = identifier("package", name)
        found += [relation(identifier("DOCUMENT"), "DESCRIBES", own), relation(own, "GENERATED_FROM", identifier(SOURCE))]
    for name, crate in source.crates.items():
        found.append(relation(identifier(SOURCE), "CONTAINS", identifier("crate", name)))
        found += [relation(identifier("crate", name), "DEPENDS_ON", identifier("crate" if it in source.crates else KIT, it))
                  for it in (*crate.uses, "std")]
    found += [relation(identifier(KIT, it.name), "DEPENDS_ON", identifier(KIT, used)) for it in of_the_kit for used in it.uses]
    return found


def bill(source: Source, packed: Mapping[str, bytes]) -> bytes:
    """Returns the document for the packages, which are given by name."""
    used = {it for crate in source.crates.values() for it in crate.uses} - set(source.crates)
    of_the_kit = kit_crates(source.kit, {*used, *ALWAYS})
    name = f"xbrlmerge-{source.version}"
    document = {
        "spdxVersion": "SPDX-2.3", "dataLicense": "CC0-1.0", "SPDXID": identifier("DOCUMENT"), "name": name,
        "documentNamespace": f"https://spdx.org/spdxdocs/{name}-{source.commit}",
        "creationInfo": {"created": source.moment, "creators": ["Tool: xbrlmerge-build"]},
        "packages": parts(source, packed, of_the_kit), "relationships": relations(source, packed, of_the_kit),
    }
    return (json.dumps(document, indent=1) + "\n").encode()


def notices(source: Source) -> str:
    """Returns the licences of all parts, for readers."""
    used = {it for crate in source.crates.values() for it in crate.uses} - set(source.crates)
    lines = [f"    {it.name} ({it.ported}): {it.licence}" if it.ported else f"    {it.name}: {it.licence}"
             for it in kit_crates(source.kit, {*used, *ALWAYS}) if it.licence != UNKNOWN]
    return "\n".join([NO_LICENCE, "So do not pass this package on.", "", PORTED, *lines, "", COMMON, ""])
