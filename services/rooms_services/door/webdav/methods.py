"""The methods of WebDAV, and how a request comes to them."""
from collections.abc import Callable

from ...room.answers import Answer, Stop
from ...room.room import Room
from . import locking, looking, moving, saving
from ..large.replacing import Upload
from .calls import Call, Drive, asks_for
from .kept import NotKept
from .objects import too_large
from .paths import ROUTE, names_of

# What may be about all of a folder.
LONG_METHODS = ("PROPFIND", "DELETE", "MOVE", "COPY")
# Whose body would say something that isn't done.
BODILESS = ("DELETE", "MOVE", "COPY", "MKCOL", "UNLOCK")
Method = Callable[[Drive, Call], Answer]
METHODS: dict[str, Method] = {
    "OPTIONS": looking.options, "GET": looking.get, "HEAD": looking.get,
    "PROPFIND": looking.propfind, "PROPPATCH": saving.proppatch, "PUT": saving.put,
    "MKCOL": saving.mkcol, "DELETE": moving.delete, "MOVE": moving.move, "COPY": moving.copy,
    "LOCK": locking.lock, "UNLOCK": locking.unlock}


def answer(drive: Drive, room: Room, user: str, method: str, target: str, above: str,
           field: Callable[[str], str], body: bytes, upload: Upload | None = None) -> Answer:
    """`above` is what stands before the room's own addresses, such as /invoices; the target is
    without it, and what a client names or is told has it."""
    if method not in METHODS:
        raise Stop(405, "no-method", "no such method", fields={"Allow": looking.ALLOWED})
    if method != "PUT" and field("Room-Too-Large"):
        # nginx hasn't taken the body: without it the request would say something else.
        raise too_large(drive.largest)
    if method in BODILESS and body:
        raise Stop(415, "bad-body", f"{method} has no body")
    names, slash = names_of(target, ROUTE)
    call = Call(room, user, method, (above + ROUTE, names, slash), field, body, upload)
    try:
        drive.tasks.end_those_left(lambda one: asks_for(room, one))
        return METHODS[method](drive, call)
    except NotKept as fault:
        raise Stop(503, "busy", str(fault)) from None
