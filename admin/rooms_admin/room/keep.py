"""KEEP of a room's settings: how many backups of the last nights stay, and for how many weeks,
months and years the last one of each does."""
import datetime
import re
from collections.abc import Callable, Sequence
from dataclasses import dataclass

# The newest two have numbers that follow one another: so beside the others there are two nights.
_MANY = r"([2-9]|[1-9][0-9]{1,5}) nights"
_PERIODS = "".join(rf"( [1-9][0-9]{{0,3}} {one})?" for one in ("weeks", "months", "years"))
FORM = rf"0|[1-9][0-9]{{0,5}}( nights)?|{_MANY}{_PERIODS}"
WHAT = "a number of nights, and then of weeks, months, years, as in 14 nights 8 weeks 12 months"


def _week(day: datetime.date) -> object:
    return day.isocalendar()[:2]


def _month(day: datetime.date) -> object:
    return day.year, day.month


def _year(day: datetime.date) -> object:
    return day.year


def _period(name: str, of: Callable[[datetime.date], object]) -> object:
    """Of a backup, by its name. One that is no day is a period of its own."""
    try:
        return of(datetime.date.fromisoformat(name[:10]))
    except ValueError:
        return name


@dataclass(frozen=True)
class Keep:
    """Without nights all stay."""
    nights: int
    weeks: int = 0
    months: int = 0
    years: int = 0

    @property
    def goes_by_dates(self) -> bool:
        return bool(self.weeks or self.months or self.years)

    def stay(self, names: Sequence[str]) -> set[int]:
        """Which of these backups do, which stand from the oldest to the newest. One that is dated
        behind the newest is of a clock that was ahead, and no other one goes for it."""
        found = set(range(len(names))[-self.nights:])
        for count, of in ((self.weeks, _week), (self.months, _month), (self.years, _year)):
            seen: set[object] = set()
            for at in reversed(range(len(names))):
                period = _period(names[at], of)
                if names[at] <= names[-1] and len(seen) < count and period not in seen:
                    seen.add(period)
                    found.add(at)
        return found


def read(text: str) -> Keep:
    """Of the form above."""
    given = {what or "nights": int(number)
             for number, what in re.findall(r"([0-9]+) ?([a-z]*)", text)}
    return Keep(**given)
