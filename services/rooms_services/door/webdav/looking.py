"""The methods that look: OPTIONS, GET, HEAD, PROPFIND."""
import time
from collections.abc import Iterator
from itertools import chain

from . import bodies, objects, properties
from ...room import large
from ...room.answers import TEXT, Answer, Stop
from ..folders.matched import BYTES, SAFE, part_of
from ...room.parts import Parts
from ...room.paths import Names
from ...room.room import about
from ...room.tags import of_reading, tag_of
from .calls import Call, Drive
from .locks import Lock
from .objects import Child, Document, Folder, Measure, stop_of
from .paths import href
from .properties import Wanted

ALLOWED = "OPTIONS, GET, HEAD, PUT, DELETE, MKCOL, COPY, MOVE, PROPFIND, PROPPATCH, LOCK, UNLOCK"
# How long a listing may read documents for their lengths; what it has at most of names, and of
# bytes, by the length of the folder's own.
SECONDS = 45.0
MOST = 80_000
LARGEST = 67_108_864
# A browser that opens a document saves it, and runs nothing in it as a page of this site.
_SAFE = {**SAFE, "Content-Security-Policy": "sandbox", "Accept-Ranges": "bytes",
         "Cross-Origin-Resource-Policy": "same-origin"}


def options(_drive: Drive, _call: Call) -> Answer:
    return Answer(200, fields={"DAV": "1, 2", "MS-Author-Via": "DAV", "Allow": ALLOWED})


def get(drive: Drive, call: Call) -> Answer:
    kept = _read(drive, call)
    if kept is None:
        return Answer(200, b"A folder: open a document in it by its own address.\n", TEXT)
    manifest = large.of(call.ask, call.names, kept)
    tag = manifest.tag if manifest else tag_of(kept)
    fields = {"ETag": tag, "Last-Modified": drive.dates.of(call.names, tag), **_SAFE}
    status = of_reading(call.field("If-Match"), call.field("If-None-Match"), tag)
    if status == 412:
        raise Stop(412, "changed", "the document isn't the one that the request speaks of")
    if status == 304:
        return Answer(304, fields=fields)
    wanted = call.field("Range") if (call.field("If-Range") or tag) == tag else ""
    if not manifest:
        return part_of(kept, wanted, fields)
    if call.method == "HEAD":
        return Answer(200, kind=BYTES, fields=fields, parts=iter(()), length=manifest.size)
    return Parts(call.room, call.user, call.names, manifest).answer(wanted, fields)


def _read(drive: Drive, call: Call) -> bytes | None:
    """None of a folder."""
    reply = call.ask(about("GET", "doc", call.names))
    if reply.status == 200:
        return reply.body
    if reply.status == 404 and drive.pending(call.user, call.names):
        return b""
    if reply.why == "wrong-kind":
        return None
    raise stop_of(reply, {409: 404})


def propfind(drive: Drive, call: Call) -> Answer:
    # (Office may ask for a folder's members without the folder: '1,noroot')
    depth, _, rest = (call.field("Depth") or "infinity").replace(" ", "").partition(",")
    root = bodies.read(call.body, "propfind") if call.body else None
    if depth not in ("0", "1"):
        raise Stop(403, "one-folder", "one folder at a time", xml=properties.HEAD
                   + '<D:error xmlns:D="DAV:"><D:propfind-finite-depth/></D:error>\n')
    asked = properties.wanted(root)
    found = drive.look(call, call.names, False, depth == "1")
    if found is None:
        raise Stop(404, "no-such", "nothing is here")
    size = None
    if isinstance(found, Document) and asked.is_sized:
        size = _size(drive, call, asked, found)
    own = _response(drive, call, asked, call.names, isinstance(found, Folder), size,
                    drive.locks.covering(call.names))
    below: Iterator[str] = iter(())
    if isinstance(found, Folder) and depth == "1":
        below = _below(drive, call, asked, found, len(own))
    return properties.as_it_comes(chain([] if rest == "noroot" else [own], below))


def _size(drive: Drive, call: Call, asked: Wanted, found: Document) -> Measure | None:
    """Of one that a lock has promised there are no bytes yet."""
    with_sums = properties.SUMS in asked.tags
    if found.body is not None:
        return objects.measure(found.body, with_sums)
    (_, size), = objects.measured(call, call.names[:-1], [Child(call.names[-1], False)], with_sums,
                                  drive.keeper)
    return size


def _below(drive: Drive, call: Call, asked: Wanted, found: Folder, one: int) -> Iterator[str]:
    """One after the other, with `one` as the length of the folder's own. What is too much is
    refused before something is sent."""
    if found.reply.status != 200:
        raise stop_of(found.reply)
    children = objects.shown_of(found.reply, MOST)
    if one * len(children) > LARGEST:
        raise Stop(507, "too-large", "an answer that is too long: ask for less")
    above = [lock for lock in drive.locks.covering(call.names) if lock.deep]
    here = drive.told_in(call, call.names)
    sized = objects.measured(call, call.names, children, properties.SUMS in asked.tags,
                             drive.keeper) \
        if asked.is_sized else ((child, None) for child in children)
    return _each(drive, call, asked, sized, above, here)


def _each(drive: Drive, call: Call, asked: Wanted, sized: Iterator[tuple[Child, Measure | None]],
          above: list[Lock], here: dict[str, list[Lock]]) -> Iterator[str]:
    until = time.monotonic() + SECONDS
    length = 0
    for child, size in sized:
        row = _response(drive, call, asked, (*call.names, child.name), child.folder, size,
                        above + here.get(child.name, []))
        length += len(row)
        if length > 2 * LARGEST or time.monotonic() > until:
            raise Stop(507, "too-long", "a folder with too much in it")
        yield row


def _response(drive: Drive, call: Call, asked: Wanted, names: Names, folder: bool,
              size: Measure | None, locks: list[Lock]) -> str:
    found = properties.values(names, folder, "".join(
        active(drive, call, lock) for lock in locks))
    if size is not None:
        found |= properties.of_bytes(size, drive.dates.of(names, size.tag))
    return properties.response(href(call.prefix, names, folder), asked, found)


def active(drive: Drive, call: Call, lock: Lock) -> str:
    """Another user is told who has a lock, and not its token."""
    return properties.active_lock(call.prefix, lock, drive.locks.left(lock),
                                  lock.user == call.user)
