"""How fast a room grows, by what its backups have in use."""
import os

from . import backups
from ..room.settings import Room
from ..room.size import NoRoom, Used

_DAY = 86400
# Backups of a month count. What reaches back less than some days says nothing.
_MONTH, _FEW = 31 * _DAY, 6 * _DAY


def of_a_day(room: Room, now: float) -> float:
    """How many bytes come to it in a day; 0 if that isn't known. The largest step between two
    backups isn't counted: it may be an import."""
    seen = []
    for one in backups.look(room).backups:
        at = backups.made(one)
        if at is None or not now - _MONTH <= at <= now:
            continue
        try:
            seen.append((at, Used().look(os.path.join(one.place, room.base))))
        except NoRoom:
            continue
    if len(seen) < 3 or seen[-1][0] - seen[0][0] < _FEW:
        return 0
    steps = [later[1] - first[1] for first, later in zip(seen, seen[1:])]
    return (sum(steps) - max(steps)) * _DAY / (seen[-1][0] - seen[0][0])
