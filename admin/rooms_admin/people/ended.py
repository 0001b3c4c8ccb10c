"""Which accesses are over, by the dates in lists, and how they are taken back."""
import datetime
import os
import time
from collections import Counter
from collections.abc import Callable, Iterable
from contextlib import ExitStack
from dataclasses import dataclass, field
from typing import IO, TypeVar

from ..host import locks, mail
from ..room import names, program, server
from ..backup import backups
from ..lists import dump
from . import look
from ..cli.report import say
from ..room.settings import Room
from ..lists.end_dates import Changed, Ending, ending, is_meant, taken_back

NEXT = "the next run goes on"
# What was taken back doesn't come back. Where the clock is far from the last backup that there was
# before, it is only believed that a day has passed.
A_DAY = datetime.timedelta(1)
# How many lines a mail has, and the journal: anybody who manages some folder may cause one. Those
# of what is no date, which let nobody in for longer, are fewer.
MAILED, SAID, _STRANGE = 50, 500, 10
# For so many seconds lists are set: whoever manages much could write many dates.
REST = 20
# So many folders on the way to an object are told apart when all have their turn.
_LEVELS = 8
_SHOWN = 200


@dataclass
class Due:
    """An object's list, and that without what is over."""
    path: bytes
    before: list[str]
    after: list[str]
    ended: list[Ending] = field(default_factory=list)

    @property
    def ends(self) -> list[Ending]:
        """Accesses, and not only what is still said of them."""
        return [one for one in self.ended if not one.over]


def _shown(path: bytes) -> str:
    """As many folders inside one another as somebody wants make a path as long."""
    text = names.shown(path)
    return text if len(text) <= _SHOWN else f"{text[:_SHOWN]}.."


_T = TypeVar("_T")


def _by_folder(order: list[_T], path_of: Callable[[_T], bytes]) -> list[_T]:
    """One of each folder in turn, on each level: whoever has very many below one folder keeps none
    of another from its turn."""
    for level in range(_LEVELS, 0, -1):
        before = Counter[bytes]()
        turns = []
        for one in order:
            folder = b"/".join(path_of(one).split(b"/", level + 1)[:level + 1])
            turns.append(before[folder])
            before[folder] += 1
        order = [one for _, one in sorted(zip(turns, order), key=lambda pair: pair[0])]
    return order


def in_turn(found: list[Due]) -> list[Due]:
    """The oldest first, and one of each folder in turn."""
    order = sorted(found, key=lambda due: min(one.day for one in due.ended))
    return sorted(_by_folder(order, lambda due: due.path), key=lambda due: not due.ends)


class Run:
    """`last` is the day of the last backup before this night, if there was one."""

    def __init__(self, room: Room, dry: bool, last: datetime.date | None) -> None:
        self.room = room
        self.dry = dry
        self.last = last
        self.clock = self.today = datetime.date.today()
        if last and self.clock - last > backups.TRUSTED:
            self.today = last + A_DAY
        self.waiting = 0
        # With the path of what each is about; of all of them it is empty.
        self._undone: list[tuple[bytes, str]] = []
        self._strange: list[tuple[bytes, str]] = []
        self.done: list[str] = []

    @property
    def undone(self) -> list[str]:
        """The first are told wherever not all are."""
        strange = _by_folder(self._strange, lambda one: one[0])
        more = len(strange) - _STRANGE
        return [text for _, text in [
            *sorted(_by_folder(self._undone, lambda one: one[0]), key=lambda one: bool(one[0])),
            *strange[:_STRANGE], *([(b"", f"not understood: {more} more")] if more > 0 else [])]]

    def not_done(self, path: bytes, what: str, why: str) -> None:
        self._undone.append((path, f"not taken back: {_shown(path)}: {what}: {why}"))

    def say(self) -> None:
        """The first come last: who is told of a night is sent its last lines."""
        for line in reversed(self.undone[:SAID]):
            say(line)

    def find(self, objects: Iterable[dump.Object]) -> list[Due]:
        found = []
        for one in objects:
            lines = [raw.decode("utf-8", "surrogateescape") for raw in one.dacl]
            due = Due(one.path, lines, lines)
            for line in filter(is_meant, lines):
                end = ending(line)
                if end is None:
                    self._strange.append((one.path, f"not understood: {_shown(one.path)}: {line} "
                                          "is no date, and whoever manages it removes that"))
                elif end.due(self.today):
                    self.take(due, one.kind, end)
                elif end.due(self.clock) and not end.over:
                    self.waiting += 1
            if due.ended:
                found.append(due)
        return found

    def take(self, due: Due, kind: str, end: Ending) -> None:
        try:
            due.after = taken_back(due.after, kind, end, self.today)
            due.ended.append(end)
        except Changed as fault:
            self.not_done(due.path, end.words(), str(fault))

    def set(self, due: Due) -> None:
        if len(due.path) > names.LONGEST_PATH:
            for one in due.ends:
                self.not_done(due.path, one.words(), f"its path has {len(due.path)} bytes, and no "
                              "request reaches it until somebody moves what is above")
            return
        why = self.reset(due.path, ("\n".join(due.after) + "\n").encode("utf-8", "surrogateescape"))
        for one in due.ends:
            if why:
                self.not_done(due.path, one.words(), why[:_SHOWN])
            else:
                self.done.append(f"taken back: {_shown(due.path)}: {one.words()}")

    def reset(self, path: bytes, text: bytes) -> str:
        """What hindered that; nothing if nothing did."""
        status, out, why = program.run(self.room, ["reset", self.room.file, path, "dacl"], text)
        return "" if status == 0 else (why or out.decode(errors="replace").strip()
                                       or f"status {status}")

    def all(self, night: Iterable[dump.Object]) -> None:
        """By the lists before a stop it is known whether anything is to be done. The list of an
        object may be another one by then: only what it says then counts. What is only said of an
        access that has ended goes with the next one."""
        found = [due for due in self.find(night) if due.ends]
        ahead = self.tell_ahead()
        if found:
            self.take_all(found)
        self._undone += ahead

    def tell_ahead(self) -> list[tuple[bytes, str]]:
        if not self.waiting:
            return []
        return [(b"", f"not taken back: {self.waiting} accesses that are over if the clock is "
                 f"right, which says {self.clock}; the last backup before is of {self.last}, and "
                 f"{NEXT}")]

    def take_all(self, found: list[Due]) -> None:
        if self.dry:
            for due in found:
                for one in due.ends:
                    print(f"would take back: {_shown(due.path)}: {one.words()}")
            return
        # Of a room that isn't served nobody has to wait; one that doesn't start may be damaged.
        state = server.settled(self.room)
        if state not in ("active", "inactive") and not server.was_left(self.room):
            self._undone.append((b"", f"not taken back: {len(found)} lists have accesses that are "
                                 f"over: {self.room.unit} is '{state}', and {NEXT}"))
            return
        self._undone.clear()
        self._strange.clear()
        with ExitStack() as after, server.at_rest(self.room):
            # Whoever reads it slowly doesn't hold the server.
            after.callback(self.tell_done)
            with look.no_lists() as lists:
                look.at_rest(self.room, lists, "dump")
                found = self.find(dump.dated(lists.file))
            self.set_all(found)

    def set_all(self, found: list[Due]) -> None:
        begun = time.monotonic()
        for number, due in enumerate(in_turn(found)):
            if time.monotonic() - begun > REST:
                left = len(found) - number
                self._undone.append((b"", f"not taken back: {left} lists have accesses that are "
                                     f"over: it took more than {REST} s, and {NEXT}"))
                break
            self.set(due)

    def tell_done(self) -> None:
        for line in self.done:
            print(line, flush=True)


def last_day(room: Room, tonight: str = "") -> datetime.date | None:
    """That of the newest backup but the one in the folder of tonight, by its name."""
    found = [one for one in backups.known(room).backups if one.place != tonight]
    return backups.day(found[-1].name) if found else None


def take_back(room: Room, lists: IO[bytes], last: datetime.date | None, dry: bool = False
              ) -> list[str]:
    """By the lists of a backup. Returns what couldn't be taken back, a line each."""
    task = Run(room, dry, last)
    task.all(dump.dated(lists))
    task.say()
    return task.undone


def nightly(room: Room, lists: IO[bytes], tonight: str) -> list[str]:
    """Whoever manages some folder can write a date that can't be kept. So that is told in a mail of
    its own, and makes no failure of the night."""
    last = last_day(room, tonight)
    with locks.lock(room.unit, 60):
        undone = take_back(room, lists, last)
    if undone:
        rest = [f"and {len(undone) - MAILED} more"] if len(undone) > MAILED else []
        mail.notify(room.mail, f"{room.unit} on {os.uname().nodename}: accesses that should have "
                    "ended", undone[:MAILED] + rest, "warning")
    return []
