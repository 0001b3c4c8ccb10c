"""A folder with all in it that the caller may read, as one ZIP. Nothing is compressed, since most
of what an office has is compressed already, and nothing is kept: each document is sent on as soon
as it is read. So a fault in the middle breaks the download off, and no half ZIP looks whole."""
import re
import time
import unicodedata
from collections.abc import Callable, Iterable, Iterator, Sequence
from typing import Protocol
from urllib.parse import quote

from rooms_admin.cli import signs

from ...room import large
from ...room.answers import Answer, Stop, in_pieces
from ...room.parts import Parts
from ...room.paths import Names
from ...room.room import Ask, Reply, Room, ended
from .walk import Node, Step, Walk, refuse_long, top_of
from .zipped import Writer

# Documents of up to 1 MiB each, which are in memory at once.
ROW_OF_DOCUMENTS = 4
SECONDS = 3600.0
LEFT_OUT = "not in this ZIP.txt"
# What some system takes for the end of a folder's name, for a device, a command or the end of a
# name.
_UNSAFE = re.compile(r'[\\/:;*?"<>|]')
_DEVICE = re.compile(r"(con|prn|aux|nul|com[0-9]|lpt[0-9])(\..*)?", re.IGNORECASE)


def safe_name(name: str) -> str:
    """A name that any system takes and shows, and that leads nowhere else."""
    name = _UNSAFE.sub("_", signs.laid_open(name))
    if name.endswith((".", " ")):
        name = name[:-1] + "_"
    return "_" + name if _DEVICE.fullmatch(name) else name


def headed(name: str, parts: Iterator[bytes]) -> Answer:
    """A ZIP of this name, without the end."""
    plain = re.sub(r"[^ !#-\[\]-~]", "_", f"{name}.zip")
    return Answer(200, kind="application/zip", parts=parts, fields={
        "Content-Disposition": f"attachment; filename=\"{plain}\"; "
                               f"filename*=UTF-8''{quote(name, safe='')}.zip",
        "Cache-Control": "private, no-store"})


class Taken:
    """The names in one folder of a ZIP. Two names may differ by capitals alone, or become the
    same."""

    def __init__(self) -> None:
        # With the number that the last one got.
        self._names: dict[str, int] = {}

    def free(self, name: str) -> str:
        stem, dot, end = name.rpartition(".")
        if not stem:
            stem, dot, end = name, "", ""
        key, free = _key(name), name
        turn = self._names.get(key, 0)
        while _key(free) in self._names:
            turn += 1
            free = f"{stem} ({turn + 1}){dot}{end}"
        self._names[key] = turn
        self._names.setdefault(_key(free), 0)
        return free


def _key(name: str) -> str:
    return unicodedata.normalize("NFC", name).casefold()


# What is known of a folder: when documents in it changed that haven't moved since a moment in
# milliseconds, by their names, in seconds.
Moments = Callable[[Names, int], dict[str, int]]


class Archive:
    def __init__(self, room: Room, user: str, moments: Moments | None = None) -> None:
        self.room = room
        self.walk = Walk(room, user)
        self.moments = moments
        # Before the room was asked; of which documents the caller may know when they changed; and
        # what is known of one folder.
        self.began = int(time.time() * 1000)
        self.dated: set[Node] = set()
        self._of_folder: tuple[Node | None, dict[str, int]] = None, {}
        self.folders: list[Node] = []
        self.documents: list[Node] = []
        self.left_out: list[Node] = []
        # Names in the ZIP, of what can't keep its own.
        self.renamed: dict[Node, str] = {}
        self.list_of_rest = LEFT_OUT
        # Whether it may be read is asked first: no record says of somebody who wanted a folder that
        # they tried to read what is closed to them.
        self.can = Step("can", "rxt", self._may)
        self.list = Step("folder", "", self._children)

    def look(self, names: Names, chosen: frozenset[str] | None) -> Answer:
        top, listing, _ = top_of(self.walk, names, "x")
        if listing.status != 200:
            return listing.answer()
        name = self.renamed[top] = safe_name(names[-1] if names else "documents")
        self.folders.append(top)
        self.list_of_rest = self._named(top, listing, chosen).free(LEFT_OUT)
        self.walk.all()
        refuse_long(self.left_out)
        return headed(name, in_pieces(self._parts()))

    def _children(self, node: Node, reply: Reply) -> None:
        self._named(node, reply)

    def _named(self, node: Node, reply: Reply, chosen: frozenset[str] | None = None) -> Taken:
        taken = Taken()
        gone = set(chosen or ())
        for child in self.walk.every_child(node, reply):
            own = child.name.decode()
            if chosen is not None and own not in chosen:
                continue
            gone.discard(own)
            free = taken.free(safe_name(own))
            if free != own:
                self.renamed[child] = free
            if node.is_open:
                self.walk.ask(self.can, child)
            else:
                self.left_out.append(child)
        self.left_out += [Node(name.encode(), False, node) for name in sorted(gone)]
        return taken

    def _may(self, node: Node, reply: Reply) -> None:
        may = reply.rulings()
        node.is_open = may.get("x", False)
        if not may.get("r") or node.is_folder and not self.walk.goes_into(node):
            self.left_out.append(node)
        elif node.is_folder:
            self.folders.append(node)
            self.walk.ask(self.list, node)
        else:
            self.documents.append(node)
            if may.get("t") and self.moments:
                self.dated.add(node)

    def _moment(self, node: Node) -> int:
        """It is sent at its caller's pace: by now something else may stand at its place."""
        if node not in self.dated or not self.moments or not node.above:
            return 0
        if self._of_folder[0] is not node.above:
            path = node.above.path
            self._of_folder = node.above, self.moments(
                tuple(path.split("/")[1:]) if path != "/" else (), self.began)
        return self._of_folder[1].get(node.name.decode(), 0)

    def _places(self, nodes: Iterable[Node]) -> Iterator[str]:
        """The paths in the ZIP, of nodes many of which are in the same folder."""
        above: Node | None = None
        before = ""
        for node in nodes:
            if node.above and node.above is not above:
                above, before = node.above, self._place(node.above)
            own = self.renamed.get(node) or node.name.decode()
            yield (before if node.above else "") + own + ("/" if node.is_folder else "")

    def _place(self, folder: Node) -> str:
        way: list[str] = []
        node: Node | None = folder
        while node:
            way.append((self.renamed.get(node) or node.name.decode()) + "/")
            node = node.above
        return "".join(reversed(way))

    def _read(self, until: float) -> Iterator[tuple[Node, Iterable[bytes]]]:
        for place in range(0, len(self.documents), ROW_OF_DOCUMENTS):
            row = self.documents[place:place + ROW_OF_DOCUMENTS]
            replies = self.room.row(self.walk.user, [
                Ask("GET", "doc", self.walk.target(one)) for one in row])
            for one, reply in zip(row, replies, strict=True):
                if reply.status == 200:
                    if (parts := self._parts_of(one, reply.body)) is not None:
                        yield one, parts
                elif self.walk.note(reply).status in (403, 404, 409):
                    self.left_out.append(one)
                else:
                    raise ended()
            if time.monotonic() > until:
                raise ended()

    def _parts_of(self, node: Node, body: bytes) -> Iterable[bytes] | None:
        """None where some are missing."""
        names = tuple(node.path.split("/")[1:])
        try:
            found = large.of(lambda ask: self.room.ask(self.walk.user, ask), names, body)
        except Stop as stop:
            if stop.why != "not-whole":
                raise
            self.left_out.append(node)
            return None
        return Parts(self.room, self.walk.user, names, found) if found else [body]

    def _parts(self) -> Iterator[bytes]:
        out = Writer()
        for name in self._places(self.folders):
            yield from out.entry(name, ())
        # (those of which a row was read, so that they can be told once more)
        sent: list[Node] = []
        for node, data in self._read(time.monotonic() + SECONDS):
            sent.append(node)
            yield from out.entry(next(self._places([node])), data, self._moment(node))
        names = [self._places(self.folders), self._places(sent)]
        if self.left_out:
            name = self._place(self.folders[0]) + self.list_of_rest
            yield from out.entry(name, Lines(self.left_out))
            names.append(iter([name]))
        yield from out.end(one for some in names for one in some)


class Placed(Protocol):
    @property
    def path(self) -> str: ...


class Lines:
    """The paths of what was left out."""

    def __init__(self, left_out: Sequence[Placed]) -> None:
        self._left_out = left_out

    def __iter__(self) -> Iterator[bytes]:
        return (f"{one.path}\r\n".encode() for one in self._left_out)


def archive(room: Room, user: str, names: Names, chosen: frozenset[str] | None = None,
            moments: Moments | None = None) -> Answer:
    """All that is in the folder, or what has one of the chosen names."""
    return Archive(room, user, moments).look(names, chosen)
