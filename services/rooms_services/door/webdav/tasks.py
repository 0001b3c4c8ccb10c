"""What takes several requests of the room, and leaves something out of its place in between. It is
written down before the first of them, so that it is ended at the next look if the door is killed or
the room goes away meanwhile: in the name of the same user, who may do it or not."""
import json
import re
import secrets
import threading
import time
from collections.abc import Callable, Iterator
from contextlib import contextmanager
from dataclasses import dataclass
from dataclasses import replace as replaced

from ...room.answers import Stop
from ...room.paths import Names, shown
from ...room.room import Ask, Reply, about
from . import trees
from .kept import Kept, Row
from .objects import Asks

# What is older isn't ended any more: nobody expects it.
SECONDS = 600.0
# Of a room that went away, or hangs.
AWAY = (502, 503, 504)
# What goes, or stands aside.
_BESIDE = re.compile(r"~[a-z]+-[0-9a-f]{12}", re.ASCII)


def beside(place: Names, word: str) -> Names:
    """A name in the same folder that nobody else has."""
    return (*place[:-1], f"~{word}-{secrets.token_hex(6)}")


def moving(names: Names, to: Names) -> Ask:
    return about("POST", "move", names, body=json.dumps(
        {"to": shown(to)}, ensure_ascii=False).encode())


@dataclass(frozen=True)
class Task:
    """`made` isn't in its place, and goes: a part of a copy, or what is removed, which was at
    `place`. Or `made` takes the place of what is there, which stands aside as `old` meanwhile. What
    stands aside goes only once it is sure that nothing has come to it: else it goes back."""
    user: str
    made: Names
    place: Names | None = None
    old: Names | None = None
    is_sure: bool = False


class Tasks:
    def __init__(self, kept: Kept, now: Callable[[], float] = time.time) -> None:
        self._kept = kept
        self._now = now
        # Those of this process.
        self._under_way: set[object] = set()
        # (not that of what is kept, which others want while they have the room for themselves)
        self._ending = threading.Lock()

    @contextmanager
    def noted(self, task: Task) -> Iterator[Callable[[], None]]:
        """Gives what notes that it is sure."""
        with self._kept.alone():
            number = self._kept.rows(
                "insert into task (user, told, since) values (?, ?, ?) returning number",
                (task.user, _told(task), self._now()))[0][0]
            self._under_way.add(number)

        def sure() -> None:
            self._kept.rows("update task set told = ? where number = ?",
                            (_told(replaced(task, is_sure=True)), number))
        try:
            yield sure
        except Stop as stop:
            if stop.status not in AWAY:
                self._end(number)
            raise
        else:
            self._end(number)
        finally:
            self._under_way.discard(number)

    def _end(self, number: object) -> None:
        self._kept.rows("delete from task where number = ?", (number,))

    def end_those_left(self, asks: Callable[[str], Asks]) -> None:
        """`asks` makes somebody who asks the room in a user's name. Who comes meanwhile waits."""
        if not self._left():
            return
        with self._ending:
            for number, user, told, since in self._left():
                task = _task_of(user, told)
                # (the clock may have been set back meanwhile)
                if task and isinstance(since, float) and abs(self._now() - since) < SECONDS:
                    self._end_one(asks(task.user), task)
                self._end(number)

    def _left(self) -> list[Row]:
        with self._kept.alone():
            return [row for row in self._kept.rows("select number, user, told, since from task")
                    if row[0] not in self._under_way]

    def _end_one(self, by: Asks, task: Task) -> None:
        try:
            _ended(by, task)
        except Stop as stop:
            if stop.status in AWAY:
                raise


def _told(task: Task) -> str:
    return json.dumps([task.made, task.place, task.old, task.is_sure])


def _task_of(user: object, told: object) -> Task | None:
    """Whoever had the door in their hands may have noted anything: nothing but what a move or a
    removal puts aside is ended in somebody's name."""
    try:
        read = json.loads(str(told))
        made, place, old = (one and tuple(map(str, one)) for one in read[:3])
        aside = (old or made)[-1]
    except (ValueError, TypeError, IndexError, KeyError):
        return None
    if not made or not _BESIDE.fullmatch(aside):
        return None
    return Task(str(user), made, place, old, read[3:] == [True])


def _is_there(by: Asks, names: Names) -> bool:
    return by.ask(about("GET", "can", names)).status != 404


def _gone(by: Asks, names: Names) -> list[trees.Failure]:
    reply = by.ask(about("DELETE", "object", names))
    if reply.why == "not-empty":
        return trees.remove(by, trees.removable(by, names, True))
    return [] if reply.status in (204, 404) else [(names, True, reply.status, reply.text())]


def _ended(by: Asks, task: Task) -> None:
    if task.old is None:
        if task.place is None or task.is_sure:
            _gone(by, task.made)
        else:
            by.ask(moving(task.made, task.place))
        return
    if task.place is None or not _is_there(by, task.old):
        # Nothing was begun, or all is done.
        return
    if not task.is_sure:
        by.ask(moving(task.old, task.place))
        return
    if not _is_there(by, task.place):
        if by.ask(moving(task.made, task.place)).status != 204:
            by.ask(moving(task.old, task.place))
            return
    elif _is_there(by, task.made):
        # Somebody else has taken the place: so nothing goes.
        return
    _gone(by, task.old)


def _look_again(by: Asks, place: Names, old: Names, found: trees.Found,
                sure: Callable[[], None]) -> None:
    """What stands aside is out of everybody's way. What came to it since it was looked through goes
    back with it, and ends the request."""
    try:
        if not trees.is_no_more(by, old, found):
            raise Stop(412, "changed", f"something came to it meanwhile: {shown(place)}")
    except Stop as stop:
        if stop.status not in AWAY:
            by.ask(moving(old, place))
        raise
    sure()


def replace(tasks: Tasks, by: Asks, user: str, place: Names, made: Names, found: trees.Found
            ) -> tuple[Reply, list[trees.Failure]]:
    """`made` takes the place of what is there, which goes as it was found: whether it may was asked
    before. Returns what the room said to the last move, and what couldn't be removed."""
    old = beside(place, "old")
    with tasks.noted(Task(user, made, place, old)) as sure:
        reply = by.ask(moving(place, old))
        if reply.status != 204:
            return reply, []
        _look_again(by, place, old, found, sure)
        reply = by.ask(moving(made, place))
        if reply.status != 204:
            by.ask(moving(old, place))
            return reply, []
        return reply, trees.remove(by, found.at(old))


def remove(tasks: Tasks, by: Asks, user: str, top: Names, found: trees.Found
           ) -> list[trees.Failure]:
    """A folder with all that was found in it: out of its place first, so that it is gone at once or
    stays. Who may not add there removes it piece by piece."""
    if found.failures or not by.ask(about("GET", "can", top[:-1], "a")).rulings().get("a"):
        return trees.remove(by, found)
    old = beside(top, "old")
    with tasks.noted(Task(user, old, top)) as sure:
        if by.ask(moving(top, old)).status != 204:
            return trees.remove(by, found)
        _look_again(by, top, old, found, sure)
        try:
            failures = trees.remove(by, found.at(old))
        except Stop as stop:
            if stop.status not in AWAY:
                by.ask(moving(old, top))
            raise
        if failures:
            by.ask(moving(old, top))
        return trees.Found([], failures).at(top).failures


def away(tasks: Tasks, by: Asks, user: str, made: Names,
         fill: Callable[[], list[trees.Failure]]) -> list[trees.Failure]:
    """Fills a place of its own, and takes it away again if that fails."""
    with tasks.noted(Task(user, made)):
        try:
            failures = fill()
        except Stop as stop:
            if stop.status not in AWAY:
                _gone(by, made)
            raise
        if failures:
            _gone(by, made)
        return failures
