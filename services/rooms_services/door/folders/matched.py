"""A document or a list that is replaced only if it is still the one that was seen. The look and the
change are sent over one connection, and the room answers nobody else in between: so whatever comes
from elsewhere comes before the look or after the change."""
from collections.abc import Callable, Iterator
from contextlib import contextmanager
from dataclasses import dataclass

from rooms_admin.room import in_parts

from ...room import large
from ...room.answers import Answer, Stop
from .holders import Listed, holders
from .would import Would
from ...room.parts import Parts
from ...room.paths import Names, shown
from ...room.ranges import range_of, said
from ...room.room import Reply, Room, Talk, about
from ...room.tags import of_reading, tag_of, tags_in

# Nothing of it is shown as a page of this site, nor kept where somebody else could find it.
SAFE = {"Content-Disposition": "attachment", "Cache-Control": "private, no-store"}
BYTES = "application/octet-stream"
# Whoever has one of these rights could have changed it.
CHANGES = {"doc": "wa", "dacl": "C", "sacl": "C"}
# What it takes to read it.
READING = {"doc": "r", "dacl": "c", "sacl": "c"}


@dataclass(frozen=True)
class Condition:
    """Nothing is there; or one of these is, or anything where there are none."""
    is_new: bool
    tags: frozenset[str]


class Against(Stop):
    """The condition doesn't hold, or the room said why not."""

    def __init__(self, answer: Answer) -> None:
        super().__init__(answer.status, "")
        self._answer = answer

    def answer(self, to_people: bool) -> Answer:
        return self._answer


class Changed(Exception):
    """It isn't what was seen. Who could have changed it is asked once the room is free again."""

    def __init__(self, why: str, at: str, tag: str | None, listed: Listed | None) -> None:
        super().__init__(why)
        self.why, self.at, self.tag, self.listed = why, at, tag, listed

    def stop(self, would: Would, route: str) -> Stop:
        who = holders(would, self.listed, CHANGES[route]) if self.listed else None
        return Stop(412, self.why, "it isn't the one that was seen any more", self.at,
                    {"tag": self.tag, "who": who})


def condition_of(match: str, none: str) -> Condition:
    if match and none:
        raise Stop(400, "bad-condition", "either If-Match or If-None-Match")
    if none:
        if none != "*":
            raise Stop(400, "bad-condition", "If-None-Match can only be *")
        return Condition(True, frozenset())
    if not match:
        raise Stop(428, "no-condition", "neither If-Match nor If-None-Match")
    named = tags_in(match)
    if named is None:
        return Condition(False, frozenset())
    # A weak one is never the same.
    return Condition(False, frozenset(tag for weak, tag in named if not weak) or frozenset([""]))


@contextmanager
def told(would: Would, route: str) -> Iterator[None]:
    """Who could have changed it, behind what is asked here of the room: that may take long, and
    nobody waits for it who writes the same."""
    try:
        yield
    except Changed as changed:
        raise changed.stop(would, route) from None


@dataclass(frozen=True)
class Wanted:
    """What a request to read says beside its path."""
    match: str = ""
    none: str = ""
    range: str = ""
    if_range: str = ""
    is_head: bool = False


def read(room: Room, would: Would, user: str, route: str, names: Names, wanted: Wanted) -> Answer:
    with told(would, route), room.talk(user) as talk:
        reply = talk.ask(about("GET", route, names))
        if reply.status != 200:
            return reply.answer()
        found = in_parts.read(reply.body) if route == "doc" else None
        tag = found.tag if found else tag_of(reply.body)
        status = of_reading(wanted.match, wanted.none, tag)
        if status == 412:
            raise _changed(talk, names, "changed", tag)
    if found:
        large.refuse_broken(room, user, names, found)
    fields = {"ETag": tag, **SAFE}
    if status == 304:
        return Answer(304, fields=fields)
    if route != "doc":
        return Answer(200, reply.body, "text/plain; charset=utf-8", fields)
    asked = wanted.range if (wanted.if_range or tag) == tag else ""
    fields["Accept-Ranges"] = "bytes"
    if not found:
        return part_of(reply.body, asked, fields)
    if wanted.is_head:
        return Answer(200, kind=BYTES, fields=fields, parts=iter(()), length=found.size)
    return Parts(room, user, names, found).answer(asked, fields)


def part_of(body: bytes, asked: str, fields: dict[str, str]) -> Answer:
    """The range that the field Range asks for, or all."""
    part = range_of(asked, len(body)) if asked else None
    if part is None:
        return Answer(200, body, BYTES, fields)
    return Answer(206, body[part[0]:part[1]], BYTES,
                  {**fields, "Content-Range": said(part, len(body))})


def tag_alone(room: Room, would: Would, user: str, route: str, names: Names, wanted: Wanted
              ) -> Answer:
    """The same without the bytes, for whoever is about to replace it: it is empty where they may
    not read it, and no record says that they tried."""
    may = room.ask(user, about("GET", "can", names, READING[route]))
    if may.status != 200:
        return may.answer()
    if not all(may.rulings().values()):
        return Answer(204)
    return read(room, would, user, route, names, wanted)


Put = Callable[[large.Asks, str, Names, bytes, large.Rest], Reply]


def replace(room: Room, user: str, route: str, names: Names, body: bytes, condition: Condition,
            put: Put) -> Answer:
    """A list, which `put` sends."""
    with room.talk(user) as talk:
        def look() -> None:
            stopped = against(talk, route, names, condition)
            if stopped is not None:
                raise Against(stopped)

        def rest() -> None:
            if talk.rest():
                look()
        look()
        reply = put(talk.ask, route, names, body, rest)
        if reply.status != 204:
            return reply.answer()
        # It has by now what its folder passes down, too.
        after = talk.ask(about("GET", route, names))
    return Answer(reply.status, fields={"ETag": tag_of(after.body)} if after.status == 200 else {})


def against(talk: Talk, route: str, names: Names, condition: Condition) -> Answer | None:
    """What stands against the change, as far as it is the condition's."""
    if condition.is_new or not condition.tags:
        # Whoever may write there needn't be allowed to read.
        there = talk.ask(about("GET", "can", names))
        is_there = there.status == 200
        if not is_there and (there.status != 404 or there.at != shown(names)):
            return there.answer()
        if is_there == condition.is_new:
            raise _changed(talk, names, "exists" if is_there else "gone")
        return None
    seen = talk.ask(about("GET", route, names))
    if seen.status == 404 and seen.at == shown(names):
        raise _changed(talk, names, "gone")
    if seen.status != 200:
        return seen.answer()
    # (one whose parts lack is replaced like any other)
    found = in_parts.read(seen.body) if route == "doc" else None
    tag = found.tag if found else tag_of(seen.body)
    if tag not in condition.tags:
        raise _changed(talk, names, "changed", tag)
    return None


def _changed(talk: Talk, names: Names, why: str, tag: str | None = None) -> Changed:
    return Changed(why, shown(names), tag, None if why == "gone" else _listed(talk, names))


def _listed(talk: Talk, names: Names) -> Listed | None:
    """As far as the caller may read it."""
    may = talk.ask(about("GET", "can", names, "ct")).rulings()
    if not may.get("c"):
        return None
    listed = talk.ask(about("GET", "dacl", names))
    if listed.status != 200:
        return None
    attr = talk.ask(about("GET", "attr", names)).told if may.get("t") else {}
    return Listed(listed.body.decode(), attr.get("owner"), attr.get("group"))
