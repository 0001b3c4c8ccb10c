"""What a line of the journal does to the rows."""
from collections.abc import Callable
from functools import partial

from ...room.paths import Names
from . import lines
from .lines import Change, Outcome
from .nights import restored
from .order import Made, way_of
from .store import By, Store


class Changing:
    def __init__(self, store: Store) -> None:
        self._store = store
        self._begun = self._kept = store.begun()
        self._since = restored(store)
        self._does = {("PUT", "doc"): self._put, ("POST", "doc"): self._append,
                      ("POST", "folder"): self._make, ("DELETE", "object"): self._remove,
                      ("POST", "move"): self._move}

    def take(self, line: bytes) -> None:
        change = lines.read(line)
        if change is None:
            return
        if change.door:
            # A door does one thing after the other.
            if change.outcome is Outcome.BEGUN:
                self._end_begun()
            elif (begun := lines.read(self._begun)) and begun.door == change.door:
                change = change._replace(since=begun.at)
            self._begun = line if change.outcome is Outcome.BEGUN else b""
        self._apply(change)

    def end(self, door: str) -> None:
        """All lines are taken that this door found."""
        begun = lines.read(self._begun)
        if begun and begun.door != door:
            self._end_begun()
            self._begun = b""

    def keep(self) -> None:
        if self._begun != self._kept:
            self._store.keep_begun(self._begun)

    def _end_begun(self) -> None:
        """A door was killed, and nobody knows whether it was done."""
        if begun := lines.read(self._begun):
            self._apply(begun._replace(outcome=Outcome.UNKNOWN))

    def _apply(self, change: Change) -> None:
        does = self._does.get((change.method, change.route))
        if does is not None and change.names and change.at > self._since and change.outcome in (
                Outcome.DONE, Outcome.UNKNOWN):
            self._in_order(change, partial(does, change, By(change.at, change.user)))

    def _in_order(self, change: Change, does: Callable[[], None]) -> None:
        """Where it may have come before one whose line came first, nothing is known of what both
        are about."""
        made = Made(change.since, change.at, change.door,
                    change.is_new or change.route in ("folder", "object", "move"),
                    tuple(map(way_of, [change.names, *([change.to] if change.to else [])])))
        is_all, places = self._store.order.unsure(made)
        if not is_all:
            does()
        for names in places:
            self._clear(names)
            self._unsure(names[:-1])
        self._store.order.add(made)

    def _unsure(self, names: Names) -> None:
        if found := self._store.find(names):
            self._store.unsure(found)

    def _clear(self, names: Names) -> None:
        """Whatever was known there was of something else."""
        if found := self._store.find(names):
            self._store.drop(found)

    def _put(self, change: Change, by: By) -> None:
        if not change.is_done:
            self._unsure(change.names)
            self._unsure(change.names[:-1])
            return
        above = self._store.folder(change.names[:-1])
        if change.is_new:
            self._clear(change.names)
            self._store.touch(above, by)
        elif self._store.find(change.names) and self._store.is_folder(change.names):
            # (a line was lost)
            self._clear(change.names)
        self._store.put(above, change.names[-1], False, change.length, by)

    def _append(self, change: Change, by: By) -> None:
        if not change.is_done:
            self._unsure(change.names)
            return
        above = self._store.folder(change.names[:-1])
        before = self._store.size(above, change.names[-1])
        size = None if before is None or change.length is None else before + change.length
        self._store.put(above, change.names[-1], False, size, by)

    def _make(self, change: Change, by: By) -> None:
        # (a line may have been lost of what was there)
        self._remove(change, by)
        if change.is_done:
            above = self._store.folder(change.names[:-1])
            self._store.put(above, change.names[-1], True, None, by)

    def _remove(self, change: Change, by: By) -> None:
        if not change.is_done:
            self._unsure(change.names[:-1])
            return
        above = self._store.folder(change.names[:-1])
        self._clear(change.names)
        self._store.touch(above, by)

    def _move(self, change: Change, by: By) -> None:
        """It keeps its date: its bytes are the same. Where it isn't known whether or where to it
        moved, nothing is known of what may stand there."""
        if not change.to:
            self._clear(change.names)
            self._unsure(change.names[:-1])
            return
        if not change.is_done:
            self._clear(change.to)
            self._unsure(change.names[:-1])
            self._unsure(change.to[:-1])
            return
        found = self._store.find(change.names)
        if self._store.find(change.to) != found:
            self._clear(change.to)
        above = self._store.folder(change.to[:-1])
        self._store.touch(self._store.folder(change.names[:-1]), by)
        self._store.touch(above, by)
        if found:
            self._store.move(found, above, change.to[-1], change.at)
