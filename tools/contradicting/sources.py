"""The reports on the command line with their providers, and the providers of each fact of a merged report."""
import argparse
import collections
import itertools
import json
import os
import re
import stat
from typing import Container, Iterable, Iterator, Mapping, NamedTuple, Optional

from contradicting.texts import Provider, Tree, using
from process import NotDone

LINE = re.compile(r'(f\d+) ([1-9]\d{0,17}) (".*")\n', re.ASCII)
LONGEST_LINE = 1 << 26  # characters


class Report(NamedTuple):
    """A file with a report, and the name of its provider."""

    provider: str
    path: str


def reports_named(options: argparse.Namespace) -> list[Report]:
    """Returns the reports that the arguments name: FILE or NAME=FILE before `--`, and only FILE after it. Without NAME, the
    provider is named after the file. Errors: ValueError if a part of NAME=FILE is empty; except with --from, also as in
    `checked`."""
    reports = [*map(report_of, options.words), *((False, Report(provider_of(path), path)) for path in options.files)]
    return [report for _, report in reports] if options.texts else checked(reports)


def maps_named(options: argparse.Namespace) -> list[tuple[str, str]]:
    """Returns the providers of --map and their maps. Errors: ValueError if one is empty, has two maps or has no report."""
    maps = [word.partition("=")[::2] for word in options.map]
    providers = [written(provider) for provider, _ in maps]
    if not all(provider and path for provider, path in maps) or len({*providers}) < len(providers):
        raise ValueError("--map takes PROVIDER=MAP, once for each provider")
    lacking = {*providers} - {report.provider for report in reports_named(options)}
    if lacking:
        raise ValueError(f"--map names {min(lacking)}, which has no report")
    return [(provider, path) for provider, (_, path) in zip(providers, maps)]


def checked(named: Iterable[tuple[bool, Report]]) -> list[Report]:
    """Returns the reports, and a file that is repeated under one name once. Errors: ValueError if a file gets two names, or if
    two files get the same name and NAME= does not precede both."""
    reports: dict[str, Report] = {}
    first: dict[str, tuple[bool, str]] = {}
    for is_named, report in named:
        before = reports.setdefault(os.path.realpath(report.path), report)
        if before.provider != report.provider:
            raise ValueError(f"{report.path} is named twice, for {before.provider} and for {report.provider}")
        was_named, path = first.setdefault(report.provider, (is_named, report.path))
        if before is report and path != report.path and not (was_named and is_named):
            raise ValueError(f"{path} and {report.path} both get the name {report.provider}: write NAME=FILE for both,"
                             " with the same NAME if one provider made both")
    return list(reports.values())


def report_of(word: str) -> tuple[bool, Report]:
    """Returns whether an argument names a provider, and its report. An argument with a / before its first = is a file name."""
    name, sign, path = word.partition("=")
    is_named = bool(sign) and "/" not in name
    if is_named and not (name and path):
        raise ValueError(f"{word} has an empty name or file")
    return is_named, Report(written(name), path) if is_named else Report(provider_of(word), word)


def provider_of(path: str) -> str:
    """Returns the name of a file without its folder and its ending."""
    return written(os.path.splitext(os.path.basename(path))[0])


def written(name: str) -> str:
    """Returns a name in which bytes that are not valid UTF-8 are escaped."""
    return os.fsencode(name).decode("utf-8", "backslashreplace")


def check_files(paths: Iterable[str]) -> None:
    """Rejects files that are not regular, because a FIFO can be read only once. Errors: NotDone, OSError."""
    for path in paths:
        if not stat.S_ISREG(os.stat(path).st_mode):
            raise NotDone(f"{path} is not a regular file")


class Identifier(NamedTuple):
    """The identifier of a fact in a report. `path` is empty if the report is not known. `file` is empty unless the provider has
    several reports. `report` is the index of the report."""

    text: str
    path: str
    file: str
    report: int = 0


class Holder(NamedTuple):
    """A provider that reported a fact, and the fact's identifiers in the provider's reports, if these are known."""

    name: str
    identifiers: tuple[Identifier, ...]

    def by_file(self) -> Iterator[tuple[str, list[Identifier]]]:
        """Yields the identifiers in each file. The name of the file is empty if the provider has one report."""
        for file, identifiers in itertools.groupby(self.identifiers, lambda each: each.file):
            yield file, [*identifiers]


Holders = tuple[Holder, ...]  # of one fact


class Sources:
    """The output of `xbrlmerge sources`, which is in the order of the facts. `reports` contains all reports, in order. `names`
    contains the provider of each report that is not refused."""

    def __init__(self, path: str, reports: list[Report], refused: Container[int] = ()) -> None:
        self.path, self.reports, self.files = path, reports, files_of(reports)
        self.names = [report.provider for number, report in enumerate(reports, 1) if number not in refused]
        self.head: Optional[tuple[str, int, str]] = None  # the fact, the index of a report, and the identifier in that report
        with using(path):
            self.file = open(path, encoding="utf-8", newline="\n")
            self.advance()

    def advance(self) -> None:
        line = self.file.readline(LONGEST_LINE)
        found = LINE.fullmatch(line)
        if not line:
            self.file.close()
            self.head = None
        elif not found or int(found[2]) > len(self.reports):
            raise ValueError(f"{line[:80]!r} is not a line of the sources of {len(self.reports)} reports")
        else:
            identifier = json.loads(found[3])
            identifier.encode()  # fails for unpaired surrogates
            self.head = found[1], int(found[2]) - 1, identifier

    def holders(self, name: str, _: Tree) -> Holders:
        """Returns the providers of a fact, with its identifiers. Ask for each fact once, in order."""
        found: dict[str, list[Identifier]] = {}
        with using(self.path):
            while self.head and self.head[0] == name:
                _, index, identifier = self.head
                report = self.reports[index]
                found.setdefault(report.provider, []).append(Identifier(identifier, report.path, self.files[index], index))
                self.advance()
            if not found:
                raise ValueError(f"the source of {name} is missing, or is in the wrong place")
        return tuple(Holder(provider, tuple(identifiers)) for provider, identifiers in found.items())

    def finish(self) -> None:
        """Raises NotDone if a line has not been used for a fact."""
        with using(self.path):
            if self.head:
                raise ValueError(f"the source of {self.head[0]} is in the wrong place, or there is no such fact")


def files_of(reports: list[Report]) -> list[str]:
    """Returns the file for each report whose provider has several, as name or, if shared, path; else an empty text."""
    counts = collections.Counter(report.provider for report in reports)
    names = collections.Counter((report.provider, os.path.basename(report.path)) for report in reports)
    files = (os.path.basename(path) if names[provider, os.path.basename(path)] == 1 else path for provider, path in reports)
    return [written(file) if counts[report.provider] > 1 else "" for report, file in zip(reports, files)]


class OwnTexts:
    """The merged report of each provider's own reports, which does not contain the identifiers of facts in those reports."""

    def __init__(self, providers: list[Provider]) -> None:
        self.providers, self.names = providers, [provider.name for provider in providers]

    def holders(self, _: str, tree: Tree) -> Holders:
        names = dict.fromkeys([provider.name for provider in self.providers if provider.said(tree)])
        return tuple(Holder(name, ()) for name in names)

    def finish(self) -> None:
        for provider in self.providers:
            provider.finish()


def names_of(holders: Mapping[str, Holders]) -> set[str]:
    """Returns the names of the providers of a row."""
    return {holder.name for each in holders.values() for holder in each}


def providers(holders: Holders) -> str:
    """Returns the names of the providers of a fact, as a text."""
    return ", ".join(holder.name for holder in holders)


def identifiers(holders: Holders) -> str:
    """Returns a text: each provider of a fact, with the fact's known identifiers, and with the name of the file if the provider
    has several reports. Providers without any identifier are left out."""
    parts = ((holder.name, file, identifiers) for holder in holders for file, identifiers in holder.by_file())
    return "; ".join(f"{name}: {f'{file}, ' if file else ''}{', '.join(each.text for each in found)}" for name, file, found in parts)
