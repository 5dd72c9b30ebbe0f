"""Lets offices exchange merged texts, and compares the text of each with one merge of the reports that reached that office.
Three offices, each with its own folder, use only `merge` and `check`. They take reports, of which some are refused, and
exchange texts, which arrive late, repeated or reordered; an office may lose everything. A sent text must be canonical and
declare the strictest level that its facts satisfy; tools/recheck computes the level too. Some texts are then sent in the
earlier form, without a level. In the end, tools/recheck must agree with the text of each office."""
import json
import os
import re
import shutil
import subprocess
import sys

from running import TOP, cases, counts, expect_all, merged, note, run, write
from strategies import simple_report, simple_sheet
from support import bytes_of
import recheck

RECHECK = os.path.join(TOP, "tools", "recheck.py")
OFFICES = (1, 2, 3)
REFUSED = re.compile(r"report (\d+): \d+ \w+ at (document|fact \d+)\n")
ACCEPTED = re.compile(r"accepted \d+ (none|consistent|all) (canonical|other)\n")
# the feature that declares the level, and its namespace
DECLARED = re.compile(rb'"features":\{"xbrl:allowedDuplicates":"\w+"\},|,?"xbrl":"https://xbrl.org/2021"')


def level_of(texts):
    """Returns the strictest level that the facts of reports satisfy, as tools/recheck computes it. Equal facts count as one."""
    sheet = recheck.read_sheet(bytes_of("sheet"))
    return recheck.level_of({fact for text in texts for fact in recheck.read_report(text, sheet)[0].values()})


class Schedule:
    """A schedule in its own folder. It records which reports reached which office."""

    def __init__(self, chance):
        self.chance, self.mail, self.seen = chance, [], set()
        self.reached = {office: frozenset() for office in OFFICES}
        self.is_refused = {f"reports/r{number}.json": number % 4 == 3 for number in range(chance.randint(4, 8))}
        for folder in ("reports", "mail", *map(str, OFFICES)):
            os.mkdir(folder)
        write("sheet", json.dumps(simple_sheet()))
        for name, is_refused in self.is_refused.items():
            write(name, simple_report(chance, chance.randint(1, 3) if is_refused else 0, 3))

    def present(self, office):
        """Returns the text of an office. If the office has none, writes a text without facts for it first."""
        if not os.path.exists(f"{office}/merged.json"):
            write(f"{office}/merged.json", merged())
        return bytes_of(f"{office}/merged.json")

    def merged_with(self, office, file, is_refused):
        """Merges a file into the text of an office. If the file must be refused, the text must not change."""
        before = self.present(office)
        status, text, lines = run("merge", "--sheet", "sheet", f"{office}/merged.json", file)
        found = REFUSED.fullmatch(lines)
        assert status == is_refused and (found and found[1] == "2" and text == before if is_refused else not lines), (file, lines)
        write(f"{office}/merged.json", text)

    def take(self, office):
        name = self.chance.choice(sorted(self.is_refused))
        note(f"take {office} {name}")
        self.merged_with(office, name, self.is_refused[name])
        if not self.is_refused[name]:
            self.reached[office] |= {name}
        counts["refused takes"] += self.is_refused[name]

    def send(self, office):
        note(f"send {office}")
        self.mail.append(self.reached[office])
        text = self.present(office)
        sent = write(f"mail/{len(self.mail)}.json", text)
        level = self.checked(sent, "canonical")
        assert level == level_of(map(bytes_of, self.reached[office]))
        assert f'{{"xbrl:allowedDuplicates":"{level}"}}'.encode() in text
        if self.chance.random() < 0.25:
            write(sent, DECLARED.sub(b"", text))
            assert self.checked(sent, "other") == level
            counts["earlier texts"] += 1
        counts[f"sent {level}"] += 1

    def checked(self, sent, kind):
        """Returns the level that `check` prints for a sent text, which must be of this kind: `canonical` or `other`."""
        status, line, lines = run("check", "--sheet", "sheet", sent)
        accepted = ACCEPTED.fullmatch(line.decode())
        assert (status, lines) == (0, "") and accepted and accepted[2] == kind, (line, lines)
        return accepted[1]

    def receive(self, office):
        if not self.mail:
            return
        number = self.chance.randint(1, len(self.mail))
        note(f"receive {office} {number}")
        self.merged_with(office, f"mail/{number}.json", False)
        self.reached[office] |= self.mail[number - 1]
        counts["late texts"] += any((office, later) in self.seen for later in range(number + 1, len(self.mail) + 1))
        counts["repeated texts"] += (office, number) in self.seen
        self.seen.add((office, number))

    def restart(self, office):
        note(f"restart {office}")
        shutil.rmtree(f"{office}")
        os.mkdir(f"{office}")
        self.reached[office] = frozenset()
        counts["restarts"] += 1

    def compare(self, office):
        """Compares the text of an office with one merge of the reports that reached it, in a drawn order."""
        names = self.chance.sample(sorted(self.reached[office]), len(self.reached[office]))
        assert self.present(office) == merged(*names)
        words = ("--sheet=sheet", f"--merged={office}/merged.json", "--", *names)
        done = subprocess.run([sys.executable, RECHECK, *words], capture_output=True, text=True)
        assert (done.returncode, done.stderr) == (0, ""), done


@cases(200)
def test_offices(chance):
    schedule = Schedule(chance)
    for _ in range(chance.randint(8, 24)):
        act = chance.choice((schedule.take,) * 8 + (schedule.send,) * 5 + (schedule.receive,) * 7 + (schedule.restart,))
        act(chance.choice(OFFICES))
    for office in OFFICES:
        schedule.compare(office)


def test_usual_events_occur():
    expect_all(("refused takes", "sent consistent", "sent all", "earlier texts", "late texts", "repeated texts", "restarts"))
