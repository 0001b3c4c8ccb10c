"""What is done with a document of parts as with any other: it is removed, moved, renamed, its lists
are set, its owner changes. Nobody comes between. A kill in the middle leaves no object with other
rights than before or after, and the same request, sent again, does the rest."""
import json
from collections.abc import Collection, Iterable, Iterator
from itertools import chain

from rooms_admin.room import in_parts

from ...room import large
from ...room.answers import Answer, Stop
from ...room.large import Asks, Rest, Same
from ...room.paths import Names, attributes_in, shown
from ...room.room import Ask, Reply, Room, about
from ..folders import matched
from ..folders.goes import barrier
from ..folders.would import Would
from .held import alone, whole_of
from .replacing import refused


def moving(names: Names, to: Names) -> Ask:
    return about("POST", "move", names, body=json.dumps(
        {"to": shown(to)}, ensure_ascii=False).encode())


def _from_the_last(count: int) -> Iterator[int]:
    """So that the numbers of those that are left have no gap."""
    return iter(range(count, 0, -1))


def remove(ask: Asks, names: Names, rest: Rest | None = None) -> Reply:
    """The parts first, so that none is left of what is gone. One of it that can't go is emptied.
    What each of them allows is asked before: very many may be somebody else's, and have no more
    than the name of one."""
    _refuse_part(ask, names)
    count = large.count_of(ask, names, rest)
    above = _may_above(ask, names) if count else Reply(404, b"")
    if _may_go(ask, names, above):
        seen = _seen(ask, names)
        used = _used(seen, count)
        for number in large.resting(_all_of(ask, names, count, used), rest,
                                    _same(ask, names, seen)):
            place = large.part(names, number)
            if _may_go(ask, place, above):
                ask(about("DELETE", "object", place))
            elif number in used and _may(ask, place, "w"):
                ask(about("PUT", "doc", place))
    return ask(about("DELETE", "object", names))


def remove_left(ask: Asks, names: Names, rest: Rest | None = None) -> Reply:
    """Parts of nothing, which an upload left that was broken off: each as a document like any
    other."""
    count = large.count(ask, names, rest)
    if not count or large.is_there(ask, names):
        raise Stop(404, "no-such", "no parts of an upload are left", shown(names))
    for number in large.resting(_from_the_last(count), rest, large.same_as(ask, names, None)):
        reply = ask(about("DELETE", "object", large.part(names, number)))
        if reply.status != 204:
            raise refused(reply, names, number)
    return reply


def _refuse_part(ask: Asks, names: Names) -> None:
    """Whoever saw it as a document of its own saw it before its document was written."""
    whole = whole_of(names)
    if whole and large.is_document(ask, whole):
        raise Stop(412, "changed", "it is a part of a document that is there by now", shown(whole))


def _may_above(ask: Asks, names: Names) -> Reply:
    return ask(about("GET", "can", names[:-1], "Dw"))


def _may_go(ask: Asks, names: Names, above: Reply) -> bool:
    """By what is said of the folder."""
    if above.status != 200:
        return False
    own = ask(about("GET", "can", names, "d"))
    return own.status == 200 and not barrier(own.told, above.told)


def move(ask: Asks, names: Names, to: Names, rest: Rest | None = None) -> Reply:
    """The document last: it is where it was until all of it is at the new place. What isn't of it,
    and has no more than the name of a part, stays where it may not be moved."""
    _refuse_part(ask, names)
    count = large.count_of(ask, names, rest) if names and to else 0
    if not count or large.is_there(ask, to) or not _may(ask, to[:-1], "w"):
        return ask(moving(names, to))
    large.refuse_long_name(to)
    seen, above = _seen(ask, names), _may_above(ask, names)
    used = _used(seen, count)
    moved: list[int] = []
    for number in large.resting(chain(_all_of(ask, names, count, used), [0]), rest,
                                _same(ask, names, seen)):
        if number not in used and not _may_go(ask, large.part(names, number), above):
            continue
        reply = ask(moving(_place(names, number), _place(to, number)))
        if reply.status == 204:
            moved.append(number)
        elif number in used:
            break
    else:
        return reply
    for back in large.resting(reversed(moved), rest):
        ask(moving(large.part(to, back), large.part(names, back)))
    raise _said(reply, names, to, number)


def _seen(ask: Asks, names: Names) -> bytes | None:
    """The bytes of the document itself, if the caller may read them."""
    if not ask(about("GET", "can", names, "r")).rulings().get("r"):
        return None
    return ask(about("GET", "doc", names)).body


def _same(ask: Asks, names: Names, seen: bytes | None) -> Same | None:
    return None if seen is None else large.same_as(ask, names, seen)


def _used(seen: bytes | None, count: int) -> Collection[int]:
    """What has to come along, by its numbers: all, where the caller may not read which these
    are."""
    if seen is None:
        return range(count + 1)
    found = in_parts.read(seen)
    return {0, *(found.numbers if found else ())}


def _all_of(ask: Asks, names: Names, count: int, used: Collection[int]) -> Iterator[int]:
    """From the last on, also what it consists of behind a gap that somebody made: a list that is
    set reaches all of its bytes."""
    for number in sorted({*range(1, count + 1), *used} - {0}, reverse=True):
        if number <= count or large.is_there(ask, large.part(names, number)):
            yield number


def _reached(ask: Asks, names: Names, rest: Rest | None) -> tuple[Iterable[int], Same | None]:
    """The parts at which a list or an owner is set with the document's."""
    count = large.count_of(ask, names, rest)
    if not count:
        return large.beside(ask, names), None
    seen = _seen(ask, names)
    return _all_of(ask, names, count, _used(seen, count)), _same(ask, names, seen)


def _place(names: Names, number: int) -> Names:
    return large.part(names, number) if number else names


def _said(reply: Reply, names: Names, to: Names, number: int) -> Stop:
    stop = refused(reply, names, number)
    if stop.at == shown(large.part(to, number)):
        stop.at = shown(to)
    return stop


def set_at_all(ask: Asks, route: str, names: Names, body: bytes, rest: Rest | None = None
               ) -> Reply:
    """A list, or owners: of the parts first. One at which the caller may not do it any more has it
    already, by a request that was killed."""
    right = "o" if route == "attr" else "C"
    if _may(ask, names, right):
        reached, same = _reached(ask, names, rest)
        for number in large.resting(reached, rest, same):
            place = large.part(names, number)
            if _may(ask, place, right):
                reply = ask(about("PUT", route, place, body=body))
                if reply.status != 204:
                    raise refused(reply, names, number)
    return ask(about("PUT", route, names, body=body))


def _may(ask: Asks, names: Names, right: str) -> bool:
    return ask(about("GET", "can", names, right)).rulings().get(right, False)


def removed(room: Room, user: str, names: Names) -> Answer:
    with alone(room, user, names), room.talk(user) as talk:
        return remove(talk.ask, names, talk.rest).answer()


def left_removed(room: Room, user: str, names: Names) -> Answer:
    with alone(room, user, names), room.talk(user) as talk:
        return remove_left(talk.ask, names, talk.rest).answer()


def moved(room: Room, user: str, names: Names, to: Names) -> Answer:
    with alone(room, user, names, to), room.talk(user) as talk:
        return move(talk.ask, names, to, talk.rest).answer()


def given(room: Room, user: str, names: Names, body: bytes) -> Answer:
    """There may be very many parts: each gets what was understood of the body, and no more. What
    else is wrong with it is for the room to say."""
    understood = attributes_in(body)
    with alone(room, user, names), room.talk(user) as talk:
        if understood is None and any(_reached(talk.ask, names, talk.rest)[0]):
            raise Stop(400, "bad-body", "neither owner nor group can be read", shown(names))
        if understood is None:
            return talk.ask(about("PUT", "attr", names, body=body)).answer()
        return set_at_all(talk.ask, "attr", names, understood, talk.rest).answer()


def listed(room: Room, would: Would, user: str, route: str, names: Names, body: bytes,
           condition: matched.Condition) -> Answer:
    with matched.told(would, route), alone(room, user, names):
        return matched.replace(room, user, route, names, body, condition, set_at_all)
