"""Records the changes in the objects of a report."""
from __future__ import annotations

from typing import NamedTuple, Optional

from normalising.json_text import Number, Tree, pointer_of, text_of
from process import NotDone, printable_json, shortened

Path = tuple[str, ...]  # the keys that lead to a part of a report


class Reason(NamedTuple):
    """The option that drops a fact, and a message with the texts for its placeholders."""

    rule: str
    why: str
    names: tuple[str, ...] = ()


class Log:
    """Collects the lines for one fact, or for the document: `lines` for changes, and `left` for parts that a rule left
    unchanged. `faults` has the sets among these, in the form of `explain --format json`: two spellings of one set would count
    as two values. Identifiers, URIs and texts may be long, and lines repeat them, so all three are shortened. A line with a
    shortened fact identifier also has the number of the fact."""

    def __init__(self, fact: Optional[str] = None, number: int = 0) -> None:
        self.fact, self.number, self.is_lossy = fact, number, False
        self.lines: list[str] = []
        self.left: list[str] = []
        self.faults: list[dict[str, Tree]] = []

    def tell(self, path: Path, rule: str, loss: bool, **values: Tree) -> None:
        """Adds the line for a change at a path, with the old value, and with the new value unless a member was removed."""
        details = {key: brief_of(value) for key, value in values.items()}
        self.add(path, details, rule, loss, is_long(path) or details != values)

    def tell_moved(self, path: Path, to: Path, rule: str, was: Tree) -> None:
        details = {"was": brief_of(was), "moved": pointer_of(to)}
        self.add(path, details, rule, False, is_long((*path, *to)) or details["was"] != was)

    def tell_dropped(self, path: Path, reason: Reason, was: Tree) -> None:
        """Adds the line for a dropped fact, and removes the fact's other lines."""
        self.lines, self.left, self.faults, self.is_lossy = [], [], [], False
        details = {"was": brief_of(was), "why": reason.why.format(*map(shortened, reason.names))}
        self.add(path, details, reason.rule, True, is_long((*path, *reason.names)) or details["was"] != was)

    def add(self, path: Path, details: dict[str, Tree], rule: str, loss: bool, is_shortened: bool) -> None:
        line: dict[str, Tree] = {"fact": None if self.fact is None else shortened(self.fact), "pointer": pointer_of(path)}
        line |= {**details, "rule": rule, "loss": loss}
        if is_shortened:
            line["shortened"] = True
        if self.fact is not None and is_long((self.fact,)):
            line["number"] = Number(self.number)
        text = text_of(line)
        self.lines.append(printable_json(text) + "\n")
        self.is_lossy |= loss

    def take(self, other: Log) -> None:
        self.lines += other.lines
        self.left += other.left
        self.faults += other.faults
        self.is_lossy |= other.is_lossy

    def leave(self, path: Path, why: str) -> None:
        self.left.append(f"{pointer_of(path)} is left: {why}")

    def leave_set(self, path: Path, value: str, why: str) -> None:
        self.leave(path, why)
        self.faults.append({"number": None, "name": "SetForm", "identifier": self.fact, "part": value, "sentence": why})


def is_long(path: Path) -> bool:
    return any(shortened(key) != key for key in path)


def brief_of(tree: Tree) -> Tree:
    """Returns a tree with each text, key and number shortened. A shortened number is a text."""
    if isinstance(tree, str):
        return shortened(tree)
    if isinstance(tree, dict):
        return {shortened(key): brief_of(part) for key, part in tree.items()}
    return [*map(brief_of, tree)] if isinstance(tree, list) else tree


class Part:
    """An object of a report, and the path to it. Each method that changes the object logs the change."""

    def __init__(self, members: dict[str, Tree], path: Path, log: Log) -> None:
        self.members, self.path, self.log = members, path, log

    def get(self, key: str) -> Tree:
        return self.members.get(key)

    def change(self, key: str, now: Tree, rule: str, loss: bool = False) -> None:
        """Replaces the value of a member, and logs the change if the value differs."""
        was = self.members[key]
        if type(was) is not type(now) or was != now:
            self.members[key] = now
            self.log.tell((*self.path, key), rule, loss, was=was, now=now)

    def remove(self, key: str, rule: str, loss: bool = False) -> None:
        self.log.tell((*self.path, key), rule, loss, was=self.members.pop(key))

    def add(self, key: str, now: Tree, rule: str) -> None:
        """Adds a member, which a rule makes of others."""
        self.members[key] = now
        self.log.tell((*self.path, key), rule, False, now=now)

    def move(self, key: str, to: Part, name: str, rule: str) -> None:
        """Moves a member into another object. If that has an equal member, only removes this one; if a different one, leaves both."""
        if name not in to.members:
            to.members[name] = self.members.pop(key)
            self.log.tell_moved((*self.path, key), (*to.path, name), rule, to.members[name])
        elif text_of(to.members[name]) == text_of(self.members[key]):
            self.remove(key, rule)
        else:
            self.leave(key, f"it differs from {pointer_of((*to.path, name))}")

    def rename(self, key: str, name: str, rule: str) -> None:
        """Renames a member, keeps the order of the members, and logs the change. Errors: NotDone if the new name is taken."""
        path = (*self.path, key)
        if name in self.members:
            values = " and ".join(shortened(text_of(self.members[each])) for each in (name, key))
            raise NotDone(f"{pointer_of(path)} and {name} are the same member: {values}")
        self.log.tell_moved(path, (*self.path, name), rule, self.members[key])
        pairs = [(name if each == key else each, value) for each, value in self.members.items()]
        self.members.clear()
        self.members.update(pairs)

    def leave(self, key: str, why: str) -> None:
        self.log.leave((*self.path, key), why)
