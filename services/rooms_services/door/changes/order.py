"""In which order changes were made. A line of nginx's comes behind the room's answer, maybe long
behind: a process of nginx's does one thing after the other, such as checks of passwords. Meanwhile
others change what is there, and their lines come first. Of two changes of one place that were asked
for at the same time nobody knows which came before."""
from collections import deque
from collections.abc import Iterator
from typing import NamedTuple

from ...room.paths import Names

# In milliseconds: what clocks don't tell apart, how much earlier than the one before it a line may
# say it was written, and from when on a clock was set back.
SLACK, BESIDE, BACK = 3, 1000, 60_000
# Of so many changes it is remembered, and of so long paths in all.
MOST, MOST_LETTERS = 10_000, 8_000_000


def way_of(names: Names) -> str:
    return f"/{'/'.join(names)}/"


def names_of(way: str) -> Names:
    return tuple(way[1:-1].split("/"))


class Made(NamedTuple):
    """Between two moments, by one process of the door or else nginx. `is_place` says whether
    something came, went or moved. The second way is where to."""
    since: int
    at: int
    door: str
    is_place: bool
    ways: tuple[str, ...]

    def along(self, way: str) -> Iterator[str]:
        """Where something is by now that it took along."""
        if len(self.ways) > 1 and way.startswith(self.ways[0]):
            yield self.ways[1] + way[len(self.ways[0]):]

    def is_below(self, other: "Made") -> bool:
        """Or of the same place."""
        return any(way.startswith(above) for way in self.ways for above in other.ways)


class Order:
    def __init__(self) -> None:
        self._made: deque[Made] = deque()
        self._letters = 0
        # The last moment of those that aren't remembered any more; and how many came since the last
        # transaction was kept.
        self._until = self._new = 0

    def keep(self) -> None:
        self._new = 0

    def take_back(self) -> None:
        """They come again."""
        for _ in range(min(self._new, len(self._made))):
            self._letters -= sum(map(len, self._made.pop().ways))
        self._new = 0

    def _drop(self) -> None:
        one = self._made.popleft()
        self._letters -= sum(map(len, one.ways))
        self._until = max(self._until, one.at)

    def add(self, made: Made) -> None:
        self._made.append(made)
        self._new += 1
        self._letters += sum(map(len, made.ways))
        while len(self._made) > MOST or self._letters > MOST_LETTERS:
            self._drop()

    def _beside(self, made: Made) -> Iterator[Made]:
        """Those whose lines came first, and which may have come after it."""
        for one in reversed(self._made):
            if one.at <= made.since - BESIDE:
                return
            if made.since + SLACK < one.at < made.at + BACK and (one.is_place or made.is_place) \
                    and not (made.door and made.door == one.door):
                yield one

    def unsure(self, made: Made) -> tuple[bool, set[Names]]:
        """Whether all that the change is about may be something else by now, and the places of
        which nothing is known then."""
        is_all = made.since + SLACK < self._until < made.at + BACK
        found: set[str] = set()
        for one in self._beside(made):
            if made.is_below(one):
                is_all = True
                found.update(place for way in made.ways for place in one.along(way))
            elif one.is_below(made):
                found.update(one.ways, *(made.along(way) for way in one.ways))
        found.update(made.ways if is_all else ())
        return is_all, set(map(names_of, found))
