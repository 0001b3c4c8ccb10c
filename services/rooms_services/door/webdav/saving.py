"""PUT, MKCOL and PROPPATCH."""
from . import bodies, properties
from ...room.answers import Answer, Stop
from ...room.room import about
from ...room.tags import tag_of
from ..large import replacing
from .bodies import DAV
from .calls import Call, Drive
from .conditions import read_if
from .objects import Folder, stop_of, too_large
from .paths import href


def put(drive: Drive, call: Call) -> Answer:
    """A save in place: the document keeps its list and its owner."""
    try:
        with call.alone():
            drive.heed(call)
            _guard_put(drive, call)
            answer = None if call.upload else _put(drive, call)
            # Somebody else may write it before this one's turn.
            seen = call.ask(about("GET", "doc", call.names)) \
                if call.upload and _is_about_bytes(call) else None
        if call.upload:
            with drive.reserved(call, *drive.to_write(call, call.names)):
                answer = replacing.write(call.room, call.user, call.names, call.upload, seen)
                drive.came(call, call.names)
    except Stop:
        if lock := drive.pending(call.user, call.names):
            lock.refused = True
            drive.locks.keep(lock)
        raise
    assert answer
    return answer


def _is_about_bytes(call: Call) -> bool:
    """Whether one of its conditions is."""
    text = call.field("If")
    return bool(call.field("If-Match") or call.field("If-None-Match") or text and any(
        condition.tag for listed in read_if(text) for condition in listed.conditions))


def _guard_put(drive: Drive, call: Call) -> None:
    if call.field("Room-Too-Large"):
        # nobody has taken the body, and this is said here, since a lock may wait for it.
        raise too_large(drive.largest)
    if call.slash:
        raise Stop(405, "wrong-kind", "a document has no slash at its end")
    if call.field("Content-Range"):
        raise Stop(400, "bad-field", "a part can't be written, only the whole document")
    drive.guard(call, call.names)
    if any(lock.names == call.names[:-1] for lock in drive.locks.covering(call.names[:-1])) \
            and drive.look(call, call.names) is None:
        drive.guard(call, call.names, member=True)


def _put(drive: Drive, call: Call) -> Answer:
    reply = replacing.put_small(call.ask, call.names, call.body, call.rest)
    if reply.status not in (201, 204):
        raise stop_of(reply, {404: 409, 409: 405 if reply.why == "wrong-kind" else 409})
    drive.came(call, call.names)
    return Answer(reply.status, fields={"ETag": tag_of(call.body)})


def mkcol(drive: Drive, call: Call) -> Answer:
    with call.alone():
        drive.heed(call)
        drive.guard(call, call.names, member=True)
        reply = call.ask(about("POST", "folder", call.names))
    if reply.status != 201:
        raise stop_of(reply, {404: 409, 409: 405 if reply.why == "exists" else 409})
    return Answer(201)


def proppatch(drive: Drive, call: Call) -> Answer:
    root = bodies.read(call.body, "propertyupdate")
    tags = [tag.tag for part in root.children if part.tag in ((DAV, "set"), (DAV, "remove"))
            for prop in part.children for tag in prop.children]
    with call.alone():
        drive.heed(call)
        found = drive.look(call, call.names)
        if found is None:
            raise Stop(404, "no-such", "nothing is here")
        drive.guard(call, call.names)
    return properties.several([properties.patched(
        href(call.prefix, call.names, isinstance(found, Folder)), list(dict.fromkeys(tags)))])
