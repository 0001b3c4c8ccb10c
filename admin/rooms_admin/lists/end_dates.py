"""An access with an end date, as it stands in a dacl: beside the entries of a level there is one
that grants nothing to anybody, since its mask is empty:

    A:fd:eve:rxtc
    A:g:until.2027-05-31.read.u.eve@alice:

Eve may read, until the end of that day, and alice asked for it. Whoever may set the list may write
such a line, and nobody else. Once the entries were taken away, it becomes
A:g:ended.2027-06-01.read.u.eve@alice: with the day on which that was done."""
import datetime
import re
from dataclasses import dataclass

from ..room import names
from .entries import entry
from .levels import LEVELS, is_way, level_of

_WHO = re.compile(rf"(until|ended)\.(\d{{4}}-\d\d-\d\d)\.({'|'.join(LEVELS)})\.([ug])\.([^@]+)"
                  r"@([^@]+)", re.ASCII)
_MEANT = re.compile(r"(until|ended)\.[0-9]", re.ASCII)
# How long it is said that an access has ended.
DAYS_SHOWN = 30


@dataclass(frozen=True)
class Ending:
    line: str
    over: bool
    day: datetime.date
    level: str
    group: bool
    who: str
    asker: str

    def due(self, today: datetime.date) -> bool:
        """The day itself is still granted."""
        return today - self.day > datetime.timedelta(DAYS_SHOWN if self.over else 0)

    def words(self) -> str:
        kind = "the group " if self.group else ""
        return f"{self.level} of {kind}{self.who}, until {self.day}, asked by {self.asker}"


def in_name(who: str) -> str:
    """A name in the part before the @, where a second @ can't stand."""
    return who.replace("+", "+2B").replace("@", "+40")


def in_domain(asker: str) -> str:
    """A name in the part behind the @, which takes only letters, digits, dots and dashes."""
    return re.sub(r"[^A-Za-z0-9.]", lambda one: f"-{ord(one[0]):02X}", asker)


def marked(over: bool, day: datetime.date, level: str, group: bool, who: str, asker: str) -> str:
    name = (f"{'ended' if over else 'until'}.{day}.{level}.{'g' if group else 'u'}.{in_name(who)}"
            f"@{in_domain(asker)}")
    return f"A:g:{name}:"


def is_meant(line: str) -> bool:
    """Whether it looks as if somebody meant an end date by it."""
    found = entry(line)
    return found is not None and not found.is_inherited and (
        _MEANT.match(found.who) is not None)


def ending(line: str) -> Ending | None:
    """What is written in exactly one way is taken, and nothing else."""
    found = entry(line)
    parts = _WHO.fullmatch(found.who) if found else None
    if not found or not parts:
        return None
    who = re.sub(r"\+(2B|40)", lambda one: chr(int(one[1], 16)), parts[5])
    asker = re.sub(r"-([0-9A-F]{2})", lambda one: chr(int(one[1], 16)), parts[6])
    try:
        day = datetime.date.fromisoformat(parts[2])
    except ValueError:
        return None
    got = Ending(line, parts[1] == "ended", day, parts[3], parts[4] == "g", who, asker)
    same = marked(got.over, day, got.level, got.group, who, asker) == line
    return got if same and names.is_user(who) and names.is_user(asker) and (
        names.is_user(found.who)) else None


class Changed(Exception):
    """The list hasn't the entries that were to be taken away."""


def taken_back(lines: list[str], kind: str, one: Ending, today: datetime.date) -> list[str]:
    """The entries of a list without those of this access. All others stay as they are, in their
    order."""
    if one.over:
        return [line for line in lines if line != one.line]
    theirs = {}
    for line in lines:
        found = None if ending(line) else entry(line)
        if found and found.of(one.who, one.group) and not found.is_inherited and (
                is_way(found, kind) == (one.level == "pass")):
            theirs[line] = found
    if theirs and level_of(theirs.values(), kind) != one.level:
        raise Changed(f"the entries of {one.who} aren't those of '{one.level}' any more")
    # Where somebody has taken them away before, there is nothing to tell.
    told = [marked(True, today, one.level, one.group, one.who, one.asker)] if theirs else []
    return [kept for line in lines
            for kept in (told if line == one.line else [] if line in theirs else [line])]
