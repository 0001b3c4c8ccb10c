"""For tests: what the page says of accesses with an end date, as ends.mjs prints it, against what
the nightly run makes of the same lists."""
import datetime
import json
import sys

from rooms_admin.lists import dump
from rooms_admin.people import ended
from rooms_admin.lists.end_dates import ending


class Night(ended.Run):
    """On one day, with one list."""

    def __init__(self, day: str) -> None:
        self.clock = self.today = datetime.date.fromisoformat(day)
        self.waiting = 0
        self._undone: list[tuple[bytes, str]] = []
        self._strange: list[tuple[bytes, str]] = []


def said(line: str) -> object:
    found = ending(line)
    return found and {"day": str(found.day), "level": found.level, "isGroup": found.group,
                      "over": found.over, "who": found.who, "asker": found.asker}


def left_on(day: str, kind: str, lines: list[str]) -> list[str]:
    one = dump.Object(kind, "alice", "staff", b"/x", dacl=[line.encode() for line in lines])
    due = Night(day).find([one])
    after = due[0].after if due else lines
    return [line for line in after[1:] if ending(line) is None]


lists = taken = differ = 0
for text in sys.stdin:
    given = json.loads(text)
    lists += 1
    lines = given["lines"]
    wrong = []
    if (got := [said(line) for line in lines[1:]]) != given["ends"]:
        wrong.append(("ends", got, given["ends"]))
    for day, wanted in given["days"]:
        got = left_on(day, given["kind"], lines)
        taken += len(got) < sum(end is None for end in given["ends"])
        if got != wanted:
            wrong.append((day, got, wanted))
    if wrong:
        differ += 1
        if differ <= 3:
            print(given["kind"], *lines, *wrong[0], sep="\n")
print(f"{lists} lists, {'some' if taken > lists // 20 else taken} taken back, {differ} differ")
