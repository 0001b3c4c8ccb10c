"""Documents that are written, moved or removed at the moment. Two who write at once would write to
the same parts."""
import threading
from collections.abc import Callable, Iterator
from contextlib import AbstractContextManager, contextmanager

from rooms_admin.room import in_parts

from ...room.answers import Stop
from ...room.paths import Names
from ...room.room import Room, about
from ...room.turns import PATIENCE


def whole_of(names: Names) -> Names:
    """The document whose part has this name, if that has the form of a part's; else nothing."""
    name = in_parts.whole_of(names[-1]) if names else ""
    return (*names[:-1], name) if name else ()


class Held:
    """Who comes meanwhile waits."""

    def __init__(self) -> None:
        self._changed = threading.Condition()
        self._names: set[Names] = set()

    def is_free(self, names: set[Names]) -> bool:
        with self._changed:
            return self._names.isdisjoint(names)

    @contextmanager
    def alone(self, *all_of: Names, may_wait: Callable[[], bool] = lambda: True
              ) -> Iterator[None]:
        """Whoever may not wait goes on at once, and is denied. A part is held with its document:
        that may not be there yet."""
        names = {*all_of, *filter(None, map(whole_of, all_of))}
        if not self.is_free(names) and not may_wait():
            yield
            return
        with self._changed:
            if not self._changed.wait_for(lambda: self._names.isdisjoint(names), PATIENCE):
                raise Stop(503, "busy", "somebody else writes it; nothing was done",
                           fields={"Retry-After": "10"})
            self._names |= names
        try:
            yield
        finally:
            with self._changed:
                self._names -= names
                self._changed.notify_all()


HELD = Held()


def alone(room: Room, user: str, *all_of: Names) -> AbstractContextManager[None]:
    """To whom the way there is closed nobody says by a wait that somebody writes there."""
    return HELD.alone(*all_of, may_wait=lambda: all(
        room.ask(user, about("GET", "can", names)).status != 403 for names in all_of))
