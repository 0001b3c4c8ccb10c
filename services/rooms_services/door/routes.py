"""The addresses below /door/: which methods they have, and what they do."""
from collections.abc import Callable
from dataclasses import dataclass

from rooms_admin.room.in_parts import LARGEST

from ..room.answers import Answer, Stop, told
from .changes.keeper import Keeper
from .changes.latest import latest
from .changes.listed import listed
from .folders.archive import archive
from .folders.below import below
from .folders.closed import closed
from .folders.find import find
from .folders.goes import goes
from .folders.matched import Condition, Wanted, condition_of, read, tag_alone
from .folders.pages import page
from .folders.would import Would, would
from .large import replacing, together
from .large.arriving import Arriving
from .large.pieces import Uploads
from .large.removal import remove
from .search.search import Texts, search
from ..room.paths import Names, chosen_in, names_in, names_of_body, names_of_move
from ..room.room import Room
from ..room.space import Space

PREFIX = "/door/"
# The field that names what has come in pieces.
UPLOAD = "Room-Upload"
# What may take long, each with its kind.
LONG_ROUTES = {"below": "walk", "closed": "level", "find": "walk", "folder": "level",
               "goes": "walk", "latest": "walk", "pages": "picture", "remove": "walk",
               "search": "search", "upload": "place", "would": "walk", "zip": "zip"}
# Behind what a query may stand.
_ASKING = ("below", "find", "goes", "pages", "search", "upload", "zip")
# Behind what no path stands.
_PATHLESS = ("would",)


@dataclass(frozen=True)
class Asked:
    """A request of a user."""
    room: Room
    user: str
    method: str
    route: str
    names: Names
    query: str
    # The value of a field of the head, or nothing.
    field: Callable[[str], str]
    body: bytes
    # None where it isn't kept what changed, and where texts aren't searched.
    keeper: Keeper | None
    texts: Texts | None
    would: Would
    # The socket of who makes pictures of pages, or nothing.
    pictures: str
    # In the place of the body, where that is more than a document of the room may have.
    upload: replacing.Upload | None
    # How many bytes a document may have, and how many more the room takes.
    largest: int
    space: Space
    uploads: Uploads

    @property
    def dates(self) -> Keeper | None:
        """If any are shown."""
        return self.keeper if self.keeper and self.keeper.shows else None

    def conditions(self) -> tuple[str, str]:
        return self.field("If-Match"), self.field("If-None-Match")

    def wanted(self) -> Wanted:
        return Wanted(*self.conditions(), self.field("Range"), self.field("If-Range"),
                      self.method == "HEAD")


Route = Callable[[Asked], Answer]


def _below(asked: Asked) -> Answer:
    return below(asked.room, asked.user, asked.names, names_in(asked.query))


def _closed(asked: Asked) -> Answer:
    return closed(asked.room, asked.user, asked.names)


def _folder(asked: Asked) -> Answer:
    return listed(asked.room, asked.user, asked.names, asked.dates, asked.texts is not None)


def _latest(asked: Asked) -> Answer:
    return latest(asked.room, asked.user, asked.names, asked.dates)


def _find(asked: Asked) -> Answer:
    return find(asked.room, asked.user, asked.names, asked.query)


def _search(asked: Asked) -> Answer:
    return search(asked.room, asked.user, asked.names, asked.query, asked.texts, asked.keeper)


def _goes(asked: Asked) -> Answer:
    return goes(asked.room, asked.user, asked.names, chosen_in(asked.query))


def _goes_of_many(asked: Asked) -> Answer:
    return goes(asked.room, asked.user, asked.names, names_of_body(asked.body))


def _pages(asked: Asked) -> Answer:
    return page(asked.room, asked.would, asked.user, asked.names, asked.query,
                asked.field("If-Match"), asked.pictures)


def _zip(asked: Asked) -> Answer:
    return archive(asked.room, asked.user, asked.names,
                   chosen_in(asked.query) if asked.query else None,
                   asked.dates.moments if asked.dates else None)


def _read(asked: Asked) -> Answer:
    return read(asked.room, asked.would, asked.user, asked.route, asked.names, asked.wanted())


def _tag(asked: Asked) -> Answer:
    return tag_alone(asked.room, asked.would, asked.user, asked.route, asked.names,
                     asked.wanted())


def _replace(asked: Asked) -> Answer:
    condition = condition_of(*asked.conditions())
    if asked.route == "doc":
        if name := asked.field(UPLOAD):
            return _finish(asked, name, condition)
        return replacing.replace(asked.room, asked.would, asked.user, asked.names,
                                 asked.upload or asked.body, condition)
    return together.listed(asked.room, asked.would, asked.user, asked.route, asked.names,
                           asked.body, condition)


def _finish(asked: Asked, name: str, condition: Condition) -> Answer:
    """The document is what has come in pieces."""
    if asked.body or asked.upload:
        raise Stop(400, "bad-length", "an upload in pieces, and a body")

    def write(one: Arriving) -> Answer:
        upload = replacing.Upload(one.size, one.reader(), asked.space)
        return replacing.replace(asked.room, asked.would, asked.user, asked.names, upload,
                                 condition)
    return asked.uploads.finish(asked.user, name, asked.names, write)


def _begin(asked: Asked) -> Answer:
    query = asked.query
    if not (query.isascii() and query.isdigit()) or len(query) > 12:
        raise Stop(400, "bad-query", "how many bytes it will have")
    if not LARGEST < int(query) <= asked.largest:
        raise Stop(413, "too-large", f"a document has at most {asked.largest} bytes")
    replacing.prepare(asked.room, asked.would, asked.user, asked.names, int(query),
                      condition_of(*asked.conditions()), asked.space)
    return told({"upload": asked.uploads.begin(asked.user, int(query))}, 201)


def _name_of(asked: Asked) -> str:
    if len(asked.names) != 1:
        raise Stop(404, "no-upload", "no such upload")
    return asked.names[0]


def _put_piece(asked: Asked) -> Answer:
    if len(asked.names) != 2:
        raise Stop(404, "no-upload", "no such upload")
    upload, number = asked.names
    return asked.uploads.put(asked.user, upload, number, asked.body)


def _pieces(asked: Asked) -> Answer:
    return told({"here": asked.uploads.here(asked.user, _name_of(asked))})


def _drop(asked: Asked) -> Answer:
    asked.uploads.drop(asked.user, _name_of(asked))
    return Answer(204)


def _remove(asked: Asked) -> Answer:
    return together.removed(asked.room, asked.user, asked.names)


def _remove_left(asked: Asked) -> Answer:
    return together.left_removed(asked.room, asked.user, asked.names)


def _move(asked: Asked) -> Answer:
    return together.moved(asked.room, asked.user, asked.names, names_of_move(asked.body))


def _remove_names(asked: Asked) -> Answer:
    return remove(asked.room, asked.user, asked.names, names_of_body(asked.body),
                  condition_of(*asked.conditions()))


def _give(asked: Asked) -> Answer:
    return together.given(asked.room, asked.user, asked.names, asked.body)


def _would(asked: Asked) -> Answer:
    return would(asked.would, asked.body)


_MATCHED: dict[str, Route] = {"GET": _read, "HEAD": _tag, "PUT": _replace}
ROUTES: dict[str, dict[str, Route]] = {
    "below": {"GET": _below}, "closed": {"GET": _closed}, "find": {"GET": _find},
    "folder": {"GET": _folder}, "goes": {"GET": _goes, "POST": _goes_of_many},
    "latest": {"GET": _latest},
    "pages": {"GET": _pages}, "remove": {"POST": _remove_names}, "search": {"GET": _search},
    "would": {"POST": _would}, "zip": {"GET": _zip},
    "doc": _MATCHED, "dacl": _MATCHED, "sacl": _MATCHED,
    "attr": {"PUT": _give}, "move": {"POST": _move}, "object": {"DELETE": _remove},
    "left": {"DELETE": _remove_left},
    "upload": {"POST": _begin},
    "pieces": {"GET": _pieces, "PUT": _put_piece, "DELETE": _drop}}


def place_of(target: str) -> tuple[str, str, str]:
    """Route, path and query. Nothing else than a path of this form comes further."""
    if "#" in target or not target.startswith(PREFIX):
        raise Stop(404, "no-route")
    whole, mark, query = target.partition("?")
    route, slash, rest = whole[len(PREFIX):].partition("/")
    if route not in ROUTES or (route in _PATHLESS) == bool(slash):
        raise Stop(404, "no-route")
    if mark and route not in _ASKING:
        raise Stop(400, "bad-query", "no query may stand here")
    return route, rest, query


def route_of(method: str, target: str) -> tuple[Route, str, Names, str]:
    route, rest, query = place_of(target)
    methods = ROUTES[route]
    if method not in methods:
        raise Stop(405, "no-method", fields={"Allow": ", ".join(sorted(methods))})
    return methods[method], route, names_in(rest), query
