"""What is at a path, by the requests of the room. Nothing is remembered but measures of documents,
where the door is told of each change: somebody else may change anything at any moment."""
import hashlib
from collections.abc import Iterable, Iterator
from dataclasses import dataclass
from typing import NamedTuple, Protocol

from rooms_admin.room import in_parts
from rooms_admin.room.in_parts import LARGEST

from ...room import large, lists
from ...room.answers import Stop
from ...room.paths import Names, shown
from ...room.room import ROW, Ask, Reply, about, listed
from ...room.tags import tag_of
from ..changes.keeper import Keeper, now

# Documents, of up to 1 MiB each, that are in memory at once.
ROW_OF_DOCUMENTS = 8


class Asks(Protocol):
    """Whoever asks the room in the name of a user."""

    def ask(self, ask: Ask) -> Reply: ...

    def row(self, asks: list[Ask]) -> list[Reply]: ...

    def each(self, asks: Iterable[Ask]) -> Iterator[Reply]: ...


class Child(NamedTuple):
    name: str
    folder: bool


@dataclass(frozen=True)
class Folder:
    """With its listing, if somebody asked for that and may have it."""
    reply: Reply


@dataclass(frozen=True)
class Document:
    """None if the caller may not read it, or if nobody asked for the bytes."""
    body: bytes | None


@dataclass(frozen=True)
class Measure:
    """What only the bytes of a document tell."""
    length: int
    tag: str
    sums: str


def tag_for(body: bytes) -> str:
    """Of a document of these bytes, which may be a list of its parts."""
    found = in_parts.read(body)
    return found.tag if found else tag_of(body)


def measure(body: bytes, with_sums: bool) -> Measure:
    """With the sums by which rclone compares, or without."""
    if found := in_parts.read(body):
        return Measure(found.size, found.tag, "")
    sums = f"SHA1:{hashlib.sha1(body).hexdigest()} MD5:{hashlib.md5(body).hexdigest()}" \
        if with_sums else ""
    return Measure(len(body), tag_of(body), sums)


def is_about(reply: Reply, names: Names) -> bool:
    return reply.at == shown(names)


def stop_of(reply: Reply, changed: dict[int, int] | None = None) -> Stop:
    """The room's own status, unless WebDAV has another one for it here."""
    status = (changed or {}).get(reply.status, reply.status)
    if status == 413:
        return too_large(LARGEST)
    return Stop(status, reply.why or "denied", reply.text())


def too_large(most: int) -> Stop:
    return Stop(413, "too-large", f"a document has at most {most} bytes")


def children_of(reply: Reply, most: int) -> list[Child]:
    """With parts of documents."""
    return [Child(name.decode(), folder) for name, folder in listed(reply.body, most)]


def shown_of(reply: Reply, most: int) -> list[Child]:
    """Without them."""
    parts = large.hidden_in(reply.body, most)
    return [child for child in children_of(reply, most)
            if child.folder or child.name.encode() not in parts]


def look(by: Asks, names: Names, with_bytes: bool, with_children: bool = False
         ) -> Folder | Document | None:
    """A denial of the way to it ends the request. Whether a document may be read is asked before it
    is read, so that no record says of somebody who only looked at a folder that they tried to."""
    folder, can = by.row([about("GET", "folder", names)._replace(is_bare=not with_children),
                          about("GET", "can", names, "r")])
    if folder.status == 409 and folder.why == "wrong-kind":
        if not with_bytes or not can.rulings().get("r"):
            return Document(None)
        read = by.ask(about("GET", "doc", names))
        return Document(read.body) if read.status == 200 else Document(None)
    if folder.status == 200:
        return Folder(folder)
    if folder.status == 403 and is_about(folder, names) and can.status == 200:
        return Folder(folder)
    if folder.status == 404 or folder.why == "not-folder":
        return None
    raise stop_of(folder)


def measured(by: Asks, above: Names, children: list[Child], with_sums: bool,
             keeper: Keeper | None) -> Iterator[tuple[Child, Measure | None]]:
    """Each, with the measure of a document that the caller may read. The room has no other way to
    tell a length than all of the bytes, so where it is known what changed, these are read once."""
    for place in range(0, len(children), ROW):
        row, began = children[place:place + ROW], now()
        names = [child.name for child in row if not child.folder]
        cans = by.each(about("GET", "can", (*above, name), "r") for name in names)
        readable = [name for name, can in zip(names, cans, strict=True)
                    if can.rulings().get("r")]
        found = _remembered(by, above, readable, with_sums, keeper, began)
        for child in row:
            yield child, found.get(child.name)


def _remembered(by: Asks, above: Names, readable: list[str], with_sums: bool,
                keeper: Keeper | None, began: int) -> dict[str, Measure]:
    if keeper is None:
        return _measures(by, [(*above, name) for name in readable], with_sums)
    seen, looks = keeper.seen(above, readable, began)
    # (one that was read without sums lacks these)
    known = {name: one for name, one in seen.items()
             if isinstance(one, Measure) and (one.sums or not with_sums)}
    read = _measures(by, [(*above, name) for name in readable if name not in known], with_sums)
    keeper.keep_seen(looks, dict(read), began)
    return known | read


def _measures(by: Asks, readable: list[Names], with_sums: bool) -> dict[str, Measure]:
    found: dict[str, Measure] = {}
    for place in range(0, len(readable), ROW_OF_DOCUMENTS):
        row = readable[place:place + ROW_OF_DOCUMENTS]
        for names, reply in zip(row, by.each(about("GET", "doc", one) for one in row),
                                strict=True):
            if reply.status == 200:
                found[names[-1]] = measure(reply.body, with_sums)
    return found


def may(by: Asks, names: Names, bits: str) -> None:
    """Ends the request unless one of these rights is granted. Asking leaves no record."""
    reply = by.ask(about("GET", "can", names, bits))
    if reply.status != 200:
        raise stop_of(reply)
    if True not in reply.rulings().values():
        raise Stop(403, "denied", f"denied: {bits} at {shown(names)}")


def _lists(by: Asks, names: Names) -> list[bytes]:
    """Those of rights and of records, as far as the caller may read them."""
    if not by.ask(about("GET", "can", names, "c")).rulings().get("c"):
        return []
    return [reply.body for reply in by.row(
        [about("GET", which, names) for which in ("dacl", "sacl")]) if reply.status == 200]


def has_own_list(by: Asks, names: Names) -> bool:
    """Whether one was set at the object itself."""
    return any(lists.read(body.decode()).is_own for body in _lists(by, names))


def length_of_lists(by: Asks, names: Names) -> int:
    """In bytes. Those that can't be read may be as long as any."""
    found = _lists(by, names)
    return sum(map(len, found)) if len(found) == 2 else LARGEST
