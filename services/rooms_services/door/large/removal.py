"""Removes names of a folder with all below them, if that is what was seen. The room removes what is
empty, so these are many requests of it, between which it answers others. Whether each may go is
asked before the first.

A line tells of each object that is gone, and the last one how many are left, and why. So whoever
asked sees how far it is, and stops it by going away."""
import time
from collections.abc import Iterator

from ...room.answers import Answer, Stop, written
from ...room.paths import Names
from ...room.room import Ask, Reply, Room
from ..folders.goes import Goes, tag_of_all
from ..folders.matched import Condition
from ..folders.walk import Node
from . import together
from .held import HELD

LINES = "application/x-ndjson"
# A busy disk takes ten milliseconds for one; then others have their turn.
SECONDS = 120.0


def _line(told: dict[str, object]) -> bytes:
    return written(told) + b"\n"


class Removal:
    def __init__(self, room: Room, user: str) -> None:
        self.room = room
        self.user = user
        self.goes = Goes(room, user)

    def begin(self, names: Names, chosen: frozenset[str], condition: Condition) -> Answer:
        listing = self.goes.gather(names, chosen)
        if listing.status != 200:
            return listing.answer()
        tag = tag_of_all(self.goes.found)
        if condition.is_new or condition.tags and tag not in condition.tags:
            raise Stop(412, "changed", at=self.goes.at, more={"tag": tag})
        if barred := self.goes.barred:
            raise Stop(403, "barred", at=barred["at"], more={"path": barred["path"]})
        return Answer(200, kind=LINES, parts=self._lines())

    def _in_order(self) -> list[Node]:
        """What is in a folder goes before it. First goes what may have something in it that isn't
        seen: the room keeps that, and then nothing is gone."""
        unseen = set(self.goes.unlisted)
        return [*self.goes.unlisted,
                *(node for node in reversed(self.goes.found) if node not in unseen)]

    def _lines(self) -> Iterator[bytes]:
        left, until = self._in_order()[::-1], time.monotonic() + SECONDS
        fault: dict[str, object] = {}
        try:
            while left and not fault and time.monotonic() < until:
                reply = self.goes.walk.note(self._removed(left[-1]))
                if reply.status in (204, 404):
                    yield _line({"path": left.pop().path})
                else:
                    fault = {**reply.told, "status": reply.status}
        except Stop as stop:
            fault = {"status": stop.status, "why": stop.why}
        yield _line({**fault, "left": len(left), "tag": tag_of_all(left)})

    def _removed(self, node: Node) -> Reply:
        if node.is_folder:
            return self.room.ask(self.user, Ask("DELETE", "object", self.goes.walk.target(node)))
        names = tuple(node.path.split("/")[1:])
        with HELD.alone(names), self.room.talk(self.user) as talk:
            return together.remove(talk.ask, names, talk.rest)


def remove(room: Room, user: str, names: Names, chosen: frozenset[str],
           condition: Condition) -> Answer:
    return Removal(room, user).begin(names, chosen, condition)
