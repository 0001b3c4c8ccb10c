"""Folders with all that is in them. The room removes only empty folders, and copies nothing, so
these are many requests of it. Whether each will be granted is asked before the first is made: then
all is done or nothing, unless somebody changes rights or things in between."""
from collections.abc import Callable
from dataclasses import dataclass

from ...room import large
from ...room.answers import Stop
from ...room.paths import Names, shown
from ...room.room import Reply, about
from ..folders.goes import barrier
from .objects import Asks, children_of, length_of_lists, stop_of

# Objects, and the names in all of their paths: of ten thousand at the deepest one there may be
# twenty million.
MOST, MOST_NAMES = 10_000, 1_000_000
Failure = tuple[Names, bool, int, str]
# What is called with how many bytes an object takes, before it is made.
Spend = Callable[[int], None]


@dataclass
class Found:
    """All below a folder, each after the folder that it is in, and what can't be listed."""
    objects: list[tuple[Names, bool]]
    failures: list[Failure]

    def at(self, place: Names) -> "Found":
        """The same, once the folder is at another place that is as deep."""
        deep = len(place)
        return Found([((*place, *names[deep:]), folder) for names, folder in self.objects], [
            ((*place, *names[deep:]), folder, status,
             text.replace(shown(names[:deep]), shown(place)))
            for names, folder, status, text in self.failures])


def walk(by: Asks, top: Names) -> Found:
    found = Found([(top, True)], [])
    count = 0
    level = [top]
    while level:
        below: list[Names] = []
        for names, reply in zip(level, by.each(
                about("GET", "folder", names) for names in level), strict=True):
            if reply.status != 200:
                found.failures.append((names, True, reply.status, reply.text()))
                continue
            for child in children_of(reply, MOST):
                found.objects.append((names + (child.name,), child.folder))
                count += len(names)
                if count > MOST_NAMES:
                    raise _too_many()
                if child.folder:
                    below.append(names + (child.name,))
            if len(found.objects) > MOST:
                raise _too_many()
        level = below
    return found


def _too_many() -> Stop:
    return Stop(403, "too-many", f"more than {MOST} documents and folders: do it in parts")


def kept(by: Asks, objects: list[tuple[Names, bool]]) -> list[Failure]:
    """Those of the objects that the caller may not remove."""
    places = sorted({names for names, _ in objects} | {names[:-1] for names, _ in objects})
    said = dict(zip(places, by.each(about("GET", "can", names, "dDw") for names in places),
                    strict=True))
    return [(names, folder, 403, "it may not be removed") for names, folder in objects
            if barrier(said[names].told, said[names[:-1]].told)]


def lets_go(by: Asks, folder: Names) -> bool:
    """Whether the caller may remove what they make in a folder, unless what it passes down says
    otherwise."""
    return not barrier({}, by.ask(about("GET", "can", folder, "dDw")).told)


def removable(by: Asks, top: Names, is_folder: bool) -> Found:
    """What is there, and what of it may not go."""
    found = walk(by, top) if is_folder else Found([(top, False)], [])
    return Found(found.objects, found.failures or kept(by, found.objects))


def is_no_more(by: Asks, place: Names, found: Found) -> bool:
    """Whether nothing is at the place that wasn't found, before it was moved there."""
    if not found.objects[0][1]:
        return large.is_document(by.ask, place)
    now = walk(by, place)
    return not now.failures and set(now.objects) <= set(found.at(place).objects)


def remove(by: Asks, found: Found) -> list[Failure]:
    """What is in the way. If there is something, all is as before, except if that came between."""
    if found.failures:
        return found.failures
    for names, folder in reversed(found.objects):
        reply = by.ask(about("DELETE", "object", names))
        if reply.status not in (204, 404):
            return [(names, folder, reply.status, reply.text())]
    return []


def readable(by: Asks, top: Names) -> Found:
    """What is there, and what of it can't be read."""
    found = walk(by, top)
    documents = [names for names, folder in found.objects if not folder]
    return Found(found.objects, found.failures or [
        (names, False, 403, "it may not be read") for names, can in zip(documents, by.each(
            about("GET", "can", names, "r") for names in documents), strict=True)
        if not can.rulings().get("r")])


def copy(by: Asks, found: Found, to: Names, begun: Callable[[], None], spend: Spend
         ) -> list[Failure]:
    """`begun` is called once the folder itself is there. What is made in it has no longer lists
    than it has: they may take more than the documents."""
    top = found.objects[0][0]
    lists = 0
    for names, folder in found.objects:
        place = to + names[len(top):]
        spend(lists)
        reply = by.ask(about("POST", "folder", place)) if folder else \
            copy_one(by, names, place, spend)
        if names == top:
            if reply.status != 201:
                raise stop_of(reply, {404: 409})
            begun()
            lists = length_of_lists(by, to)
        elif reply.status not in (201, 204):
            return [(place, folder, reply.status, reply.text())]
    return []


def copy_one(by: Asks, names: Names, to: Names, spend: Spend) -> Reply:
    reply = by.ask(about("GET", "doc", names))
    if reply.status != 200:
        return reply
    spend(len(reply.body))
    return by.ask(about("PUT", "doc", to, body=reply.body))
