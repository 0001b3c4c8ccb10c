"""Who comes into groups of a room and who goes: looked at and shown first, and then done at once,
for which the server stops. Nothing else stops it, so what changes nothing is no standstill."""
from collections.abc import Iterator
from contextlib import ExitStack, contextmanager
from dataclasses import dataclass

from ..cli import alike, report
from ..host import locks
from ..room import server
from . import known
from ..cli.report import Refused, Stop
from ..room.settings import Room
from ..lists.dump import Pair
from .known import Newest


@dataclass(frozen=True)
class Change:
    """What somebody asks for, as far as it isn't so already. `before` is who was there."""
    before: set[Pair]
    joins: set[Pair]
    leaves: set[Pair]

    @property
    def after(self) -> set[Pair]:
        return (self.before - self.leaves) | self.joins

    @property
    def is_none(self) -> bool:
        return not self.joins and not self.leaves

    def lines(self) -> list[str]:
        return [f"{sign} {group},{user}" for sign, pairs in (("+", self.joins), ("-", self.leaves))
                for group, user in sorted(pairs)]

    def need_groups(self) -> None:
        """One that nobody is in is most often another one, mistyped."""
        there = {group for group, _ in self.before}
        for group in sorted({group for group, _ in self.joins} - there):
            raise Refused(f"no group: nobody is in {group}, and --new makes it"
                          f"{alike.meant(group, there)}")


def asked(before: set[Pair], joins: set[Pair], leaves: set[Pair]) -> Change:
    return Change(before, joins - before, (leaves & before) - joins)


def make(room: Room, change: Change) -> set[Pair]:
    """Who is there then, whom somebody else may have changed too."""
    if change.is_none:
        return change.before
    with server.at_rest(room), report.signals_wait():
        after = known.change(room, change.before, change.joins, change.leaves)
        report.did("who is in which group has changed")
        return after


def counted(members: set[Pair]) -> str:
    return f"groups {len({group for group, _ in members})}, members {len(members)}"


@contextmanager
def locked(room: Room, done: str = "", keeps: bool = False) -> Iterator[Newest]:
    """What was done before counts, whoever else is at work with the room. Whoever `keeps` what is
    known afterwards gets the newest backup, which is asked for before."""
    newest_one = known.newest_backup(room) if keeps else known.NOT_ASKED
    with ExitStack() as owned:
        try:
            owned.enter_context(locks.lock(room.unit, 60))
        except locks.Busy as busy:
            if not done:
                raise
            raise Stop(f"{done}, and the rest isn't done: {busy}; the same command goes on then"
                       ) from busy
        yield newest_one
