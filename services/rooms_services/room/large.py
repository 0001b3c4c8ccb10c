"""Documents of more than 1 MiB, which the room keeps in parts (rooms_admin/room/in_parts.py), by
the room's own requests."""
from collections.abc import Callable, Iterable, Iterator

from rooms_admin.room import in_parts
from rooms_admin.room.in_parts import Manifest

from .answers import Stop
from .paths import LONGEST_NAME, LONGEST_PATH, Names, shown
from .room import Ask, Reply, Room, about, listed

Asks = Callable[[Ask], Reply]
# Lets others ask the room, where what belongs together is asked over one connection and they have
# waited a while.
Rest = Callable[[], object]
# Ends what goes on part by part once another document is at the path.
Same = Callable[[], None]


def part(names: Names, number: int) -> Names:
    return *names[:-1], names[-1] + in_parts.end_of(number)


def hidden_in(listing: bytes, most: int) -> dict[bytes, bytes]:
    """The parts in a folder, each with its document, by the room's listing, which hardly ever has
    one."""
    if in_parts.MARK.encode() not in listing:
        return {}
    found = in_parts.hidden(name.decode() for name, is_folder in listed(listing, most)
                            if not is_folder)
    return {name.encode(): whole.encode() for name, whole in found.items()}


def refuse_long_name(names: Names) -> None:
    """Its parts have names too."""
    if len(names[-1].encode()) + in_parts.LENGTH > LONGEST_NAME \
            or len(shown(names).encode()) + in_parts.LENGTH > LONGEST_PATH:
        raise Stop(400, "bad-target P1", "the name is too long for a document of this length")


def is_there(ask: Asks, names: Names) -> bool:
    """It takes no right but the way there, and leaves no record."""
    return ask(about("GET", "can", names)).status == 200


def count(ask: Asks, names: Names, rest: Rest | None = None) -> int:
    """How many parts lie beside it, numbered from 1 on."""
    number = 0
    for number in resting(range(1, in_parts.MOST + 1), rest):
        if not names or not is_there(ask, part(names, number)):
            return number - 1
    return number


def count_of(ask: Asks, names: Names, rest: Rest | None = None) -> int:
    """Those of a document that is there: a folder has none, whatever lies beside it."""
    found = count(ask, names, rest)
    return found if found and is_document(ask, names) else 0


def beside(ask: Asks, names: Names) -> list[int]:
    """Those of a document by the listing of its folder, where the caller may see that, from the
    last on: somebody may have removed the first ones. (To read the document would leave a record
    that says so of whoever sets its list.)"""
    above = names[:-1]
    if not names or not ask(about("GET", "can", above, "r")).rulings().get("r"):
        return []
    reply = ask(about("GET", "folder", above))
    if reply.status != 200 or in_parts.MARK.encode() not in reply.body:
        return []
    found = [int(name[-4:]) for name, is_folder in listed(reply.body, len(reply.body))
             if not is_folder and in_parts.whole_of(name.decode()) == names[-1]]
    return sorted(found, reverse=True) if found and is_document(ask, names) else []


def is_document(ask: Asks, names: Names) -> bool:
    return ask(about("GET", "folder", names)._replace(is_bare=True)).why == "wrong-kind"


def resting(numbers: Iterable[int], rest: Rest | None, same: Same | None = None
            ) -> Iterator[int]:
    """By their names they are the parts of whatever document is at the path: somebody may have
    moved another one there, or a folder above it, while others were answered."""
    for place, number in enumerate(numbers):
        if place and rest and rest() and same:
            same()
        yield number


class Another(Stop):
    """Another document is at the path."""


def same_as(ask: Asks, names: Names, seen: bytes | None) -> Same:
    """Of the bytes that were seen of the document itself, or none if nothing was there."""
    def look() -> None:
        if seen is None:
            is_same = not is_there(ask, names)
        else:
            now = ask(about("GET", "doc", names))
            is_same = (now.status, now.body) == (200, seen)
        if not is_same:
            raise Another(412, "changed", "it isn't the one that was seen any more", shown(names))
    return look


def of(ask: Asks, names: Names, body: bytes) -> Manifest | None:
    """The list of parts that a document of these bytes is. None of it can be read where a part is
    missing."""
    found = in_parts.read(body)
    if found and not all(is_there(ask, part(names, number)) for number, _ in found.parts):
        raise not_whole(names)
    return found


def refuse_broken(room: Room, user: str, names: Names, manifest: Manifest) -> None:
    """The same by rows, between which the room answers others: somebody may have made very many."""
    for reply in room.ask_each(user, (about("GET", "can", part(names, number))
                                      for number, _ in manifest.parts)):
        if reply.status != 200:
            raise not_whole(names)


def count_by_rows(room: Room, user: str, names: Names) -> int:
    """As `count`."""
    number = 0
    for reply in room.ask_each(user, (about("GET", "can", part(names, one))
                                      for one in range(1, in_parts.MOST + 1))):
        if reply.status != 200:
            break
        number += 1
    return number


def not_whole(names: Names) -> Stop:
    return Stop(409, "not-whole", "parts of the document are missing or were changed",
                shown(names))
