"""A page of a PDF as a picture, which any browser shows, and which runs nothing. The document is
read as the caller, and recorded as that; a process that has nothing else makes the picture of it
(`apart`), and what it answers is believed to be one picture and a number."""
from ... import apart, picture
from ...room.answers import Answer, Stop
from ...room.parts import joined
from ...room.paths import Names
from ...room.room import Room
from .matched import SAFE, Wanted, read
from .would import Would

# How long it may take until a process is there, and how long that may take. Its unit ends it
# before.
PATIENCE, SECONDS = 10.0, 20.0
_BEGINS, _WITHIN = b"%PDF-", 1024
_JPEG = b"\xff\xd8\xff"
_STATUS = {"no-page": 404, "locked": 422, "broken": 422, "too-much": 413}


def _number(query: str) -> int:
    if not (query.isascii() and query.isdigit() and len(query) <= 4
            and 0 < int(query) <= picture.PAGES):
        raise Stop(400, "bad-query", f"the number of a page, from 1 to {picture.PAGES}")
    return int(query)


def _pages_in(told: dict[str, object]) -> int | None:
    pages = told.get("pages")
    return pages if isinstance(pages, int) and 0 < pages < 10**9 else None


def _refused(told: dict[str, object]) -> Stop:
    why = told.get("why")
    pages = _pages_in(told)
    known = why if isinstance(why, str) and why in _STATUS else "broken"
    return Stop(_STATUS[known], known, more={} if pages is None else {"pages": pages})


def page(room: Room, would: Would, user: str, names: Names, query: str, match: str, place: str
         ) -> Answer:
    """With the tag of the document, and in `Room-Pages` how many pages it has. 204 where none are
    made: the page then shows it in another way."""
    number = _number(query)
    if not place:
        return Answer(204)
    seen = read(room, would, user, "doc", names, Wanted(match))
    if seen.status != 200:
        return seen
    if (seen.length or 0) > picture.DOCUMENT:
        return Answer(204)
    # (one in parts has no body)
    document = seen.body or joined(seen.parts or ())
    if _BEGINS not in document[:_WITHIN]:
        raise Stop(415, "no-pdf", "it is no PDF")
    try:
        told, made = apart.asked(place, str(number), document, picture.MOST, PATIENCE, SECONDS)
    except apart.Absent:
        return Answer(204)
    except apart.Busy:
        raise Stop(503, "busy", "too many pictures are made now",
                   fields={"Retry-After": "5"}) from None
    except apart.Ended:
        raise Stop(413, "too-much", "it takes too much to show this page") from None
    if told.get("why") == "no-pictures":
        return Answer(204)
    pages = _pages_in(told)
    if pages is None or not made.startswith(_JPEG):
        raise _refused(told)
    return Answer(200, made, "image/jpeg",
                  {"ETag": seen.fields["ETag"], "Room-Pages": str(pages), **SAFE})
