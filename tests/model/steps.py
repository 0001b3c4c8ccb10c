"""What is done to a room, one step after the other: requests, and two things of the operator."""
from __future__ import annotations

from collections.abc import Callable, Iterator
from dataclasses import dataclass

from acl import fault
from messages import Reply, Request
from room import Room


@dataclass(frozen=True)
class Ask:
    user: str | None
    request: Request

    def act(self, room: Room) -> Reply:
        return room.ask(self.user, self.request)


@dataclass(frozen=True)
class Reset:
    """A list that the operator sets, of a request `SetList`."""
    request: Request

    def fits(self, room: Room) -> bool:
        """Its object may have gone, where earlier steps were left out."""
        node, which = room.at(self.request.path), self.request.which
        return node is not None and not any(
            fault(one, which, node.kind) for one in self.request.entries)

    def act(self, room: Room) -> None:
        room.reset(self.request)


@dataclass(frozen=True)
class Members:
    pairs: frozenset[tuple[str, str]]

    def act(self, room: Room) -> None:
        room.pairs = set(self.pairs)


Step = Ask | Reset | Members
# Gives the next step of a room that has made all steps before.
Steps = Callable[[Room], Iterator[Step]]
