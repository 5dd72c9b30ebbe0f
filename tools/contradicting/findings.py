"""What there is to look at, by kind. --fail-on selects the kinds that give status 1."""
from typing import Container, Optional

from process import Status

KINDS = ("contradictions", "new", "refusals", "losses", "omissions", "uncompared", "unshared", "warnings")


def counted(count: int, word: str, words: Optional[str] = None) -> str:
    """Returns a count with its noun, such as "1 report" or "2 reports"."""
    return f"{count} {word if count == 1 else words or word + 's'}"


def kinds_named(text: str) -> tuple[str, ...]:
    """Returns the kinds in a list with commas. Errors: ValueError."""
    kinds = tuple(text.split(","))
    if not {*kinds} <= {*KINDS}:
        raise ValueError
    return kinds


class Findings:
    """What a run found: phrases for the summary, by kind."""

    def __init__(self) -> None:
        self.counts = dict.fromkeys(KINDS, 0)
        self.found: dict[str, list[str]] = {}

    def add(self, kind: str, count: int, word: str = "", words: Optional[str] = None) -> None:
        """Records a number of findings, unless it is 0. If they have a noun, a phrase counts them."""
        self.counts[kind] += count
        if count:
            self.found.setdefault(kind, []).extend([counted(count, word, words)] * bool(word))

    def phrases(self) -> list[str]:
        return [phrase for kind in KINDS for phrase in self.found.get(kind, ())]

    def status(self, fail_on: Container[str]) -> Status:
        return Status.LOOK if any(kind in fail_on for kind in self.found) else Status.DONE
