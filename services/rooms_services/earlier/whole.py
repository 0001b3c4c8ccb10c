"""A folder as it was on an earlier night, as one ZIP: all in it that the caller sees of that night,
each object judged as if it were asked for by itself. Names are those of a ZIP of today."""
import time
from collections import deque
from collections.abc import Callable, Iterator
from dataclasses import dataclass
from itertools import chain

from ..room.answers import Answer, Stop, in_pieces
from ..room.paths import Names, shown
from ..room.room import Reply, ended, listed, too_many
from ..door.folders.archive import LEFT_OUT, SECONDS, Lines, Taken, headed, safe_name
from ..door.folders.walk import SECONDS as LOOKING
from ..door.folders.walk import too_late
from ..door.folders.zipped import Writer
from .judging import LISTED

MOST = 10_000
# What the night answers to a route and a path.
Judged = Callable[[str, Names], Answer]
# Counts what is denied.
Note = Callable[[Reply], Reply]


@dataclass(slots=True, eq=False)
class Entry:
    """It has its name and what it is in, and not its paths: there may be ten thousand, two thousand
    folders deep."""
    # Of the folder from which it begins, all of its path.
    own: Names
    # Its name in the ZIP, a folder's with a slash behind it.
    free: str
    above: "Entry | None" = None

    def paths(self) -> tuple[Names, str]:
        """In the room, and in the ZIP."""
        way = [self]
        while above := way[-1].above:
            way.append(above)
        way.reverse()
        return tuple(name for one in way for name in one.own), "".join(one.free for one in way)

    @property
    def path(self) -> str:
        return shown(self.paths()[0])


class Whole:
    def __init__(self, judged: Judged, note: Note) -> None:
        self._judged, self._note = judged, note
        self.folders: list[Entry] = []
        self.documents: list[Entry] = []
        self.left_out: list[Entry] = []
        self._list_of_rest = ""
        # What was asked about last is in this folder, with its paths.
        self._folder: tuple[Entry | None, Names, str] = None, (), ""

    def _paths(self, one: Entry) -> tuple[Names, str]:
        """Most are in the same folder as the one before."""
        if one.above and one.above is not self._folder[0]:
            self._folder = one.above, *one.above.paths()
        _, names, place = self._folder if one.above else (None, (), "")
        return (*names, *one.own), place + one.free

    def _ask(self, word: str, one: Entry) -> Answer | None:
        """What is closed, or gone, is left out."""
        try:
            got = self._judged(word, self._paths(one)[0])
        except Stop as stop:
            if stop.status != 403:
                raise
            got = stop.answer(False)
        self._note(Reply(got.status, b""))
        if got.status == 200:
            return got
        if got.status not in (403, 404, 409):
            raise ended()
        self.left_out.append(one)
        return None

    def look(self, names: Names, listing: Answer, chosen: frozenset[str] | None) -> str:
        """Goes through all folders. Returns the name of the ZIP."""
        until = time.monotonic() + LOOKING
        name = safe_name(names[-1] if names else "documents")
        top = Entry(names, f"{name}/")
        taken = self._children(top, listing, chosen)
        self._list_of_rest = top.free + taken.free(LEFT_OUT)
        waiting = deque(self.folders)
        self.folders.insert(0, top)
        while waiting:
            folder = waiting.popleft()
            if time.monotonic() > until:
                raise too_late()
            if (inside := self._ask("folder", folder)) is not None:
                count = len(self.folders)
                self._children(folder, inside, None)
                waiting.extend(self.folders[count:])
        return name

    def _children(self, folder: Entry, listing: Answer, chosen: frozenset[str] | None) -> Taken:
        taken = Taken()
        for found, is_folder in listed(listing.body, LISTED):
            own = found.decode()
            if chosen is not None and own not in chosen:
                continue
            free = taken.free(safe_name(own))
            one = Entry((own,), f"{free}/" if is_folder else free, folder)
            (self.folders if is_folder else self.documents).append(one)
            if len(self.folders) + len(self.documents) > MOST:
                raise too_many()
        return taken

    def parts(self) -> Iterator[bytes]:
        out, until = Writer(), time.monotonic() + SECONDS
        sent = self.folders[:]
        for folder in self.folders:
            yield from out.entry(self._paths(folder)[1], ())
        for one in self.documents:
            got = self._ask("doc", one)
            if got is not None:
                yield from out.entry(self._paths(one)[1],
                                     [got.body] if got.parts is None else got.parts)
                sent.append(one)
            if time.monotonic() > until:
                raise ended()
        if self.left_out:
            yield from out.entry(self._list_of_rest, Lines(self.left_out))
        yield from out.end(chain((self._paths(one)[1] for one in sent),
                                 [self._list_of_rest] if self.left_out else []))


def archive(judged: Judged, note: Note, names: Names, chosen: frozenset[str] | None) -> Answer:
    listing = judged("folder", names)
    if listing.status != 200:
        return listing
    whole = Whole(judged, note)
    name = whole.look(names, listing, chosen)
    return headed(name, in_pieces(whole.parts()))
